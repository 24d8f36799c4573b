#!/usr/bin/env bash
# Counts instructions by valgrind's callgrind, which are the same from run to run and nearly so from machine to machine: of a
# look-up, a position, a frame, a place and a segment, each the difference of a run with many and of one with none, over their
# number. COUNT says how many there are. The library is built for the look-up, unless LIBRARY names the folder that
# lib/build has installed it into. Then of single lines, over a map of one segment: each is the difference of a text of 8,000
# of it and of one of 4,000, over a map that is named and over one by a pattern.
set -euo pipefail

# shellcheck source=timing.sh
. "$(dirname -- "$(readlink -f -- "${BASH_SOURCE[0]}")")/timing.sh"
count=${COUNT:-100000}
url=https://example.test/js/app.js
cd -- "$folder"

# How many instructions a command takes.
instructions() { valgrind --tool=callgrind --callgrind-out-file=/dev/null "$@" 2>&1 >/dev/null | sed -n 's/.*Collected : //p'; }

# row WHAT MANY NONE HOW-MANY
row() { printf '%-44s %8d\n' "$1" $((($2 - $3) / $4)); }

segments=$("$program" check "$real" | sed 's/.* segments \([0-9]*\) .*/\1/')
printf 'a map of %s segments, %s of each; instructions of one\n' "$segments" "$count"

: >none
none=$(instructions "$program" positions "$real" <none)
node "$makers/make-positions.js" "$count" "$real" >positions
row 'a position, text' "$(instructions "$program" positions "$real" <positions)" "$none" "$count"
row 'a position, JSON' "$(instructions "$program" positions --json "$real" <positions)" "$none" "$count"

none=$(instructions "$program" rewrite "$url=$real" <none)
node "$makers/make-trace.js" "$count" "$url=$real" >trace
row 'a frame of rewrite' "$(instructions "$program" rewrite "$url=$real" <trace)" "$none" "$count"
row 'a place of rewrite --anywhere' "$(instructions "$program" rewrite --anywhere "$url=$real" <trace)" "$none" "$count"
sed 's/^.*$/a line that is no frame, and names no URL of the table/' trace >others
row 'a line that is no frame' "$(instructions "$program" rewrite "$url=$real" <others)" "$none" "$count"

read_map=$(instructions "$program" check "$real")
row 'a segment of show, beside reading' "$(instructions "$program" show "$real")" "$read_map" "$segments"
node -e 'process.stdout.write(JSON.parse(require("fs").readFileSync(process.argv[1], "utf8")).mappings)' "$real" >text
printf ';' | cat text - text >twice
row 'a segment of raw, read, checked and built' "$(instructions "$program" raw 1 1 <twice)" "$(instructions "$program" raw 1 1 <text)" "$segments"

if [ -z "${LIBRARY:-}" ]; then
    LIBRARY=$folder/usr
    "$root/lib/build" "$LIBRARY" >/dev/null
fi
"${CC:-cc}" -O2 -I "$LIBRARY/include" -o library "$readers/library.c" "$LIBRARY/lib/libsmap.a"
node "$makers/random-positions.js" "$real" "$count" random
row 'a look-up of the library' "$(instructions ./library "$real" random)" "$(instructions ./library "$real" none)" $((2 * count))

printf '{"version":3,"sources":["a.ts"],"names":[],"mappings":"AAAA"}' >one
# line WHAT TEXT [OPTION..]
line() {
    local what=$1 argument
    for many in 4000 8000; do yes "$2" | head -n "$many" >"lines$many" || :; done
    for argument in https://ex.test/js/app.js=one '*app.js=one'; do
        row "$what, ${argument%=one}" "$(instructions "$program" rewrite "${@:3}" "$argument" <lines8000)" \
            "$(instructions "$program" rewrite "${@:3}" "$argument" <lines4000)" 4000
    done
}
frame='    at f (https://ex.test/js/app.js:1:1)'
json='{"time":"2026-12-01T07:00:00Z","level":"error","message":"TypeError: x is no function, at https://ex.test/js/app.js:1:1","request":"8f3c0a"}'
log='2026-12-01 07:00:00.123 INFO [http-4] GET /api/items/42?page=3&order=price from 203.0.113.7, status 200, 1234 bytes in 12 ms'
printf '\nlines of %s, %s and %s bytes, with their ends\n' $((${#frame} + 1)) $((${#json} + 1)) $((${#log} + 1))
line 'a frame' "$frame"
line 'its place anywhere' "$frame" --anywhere
line 'a place in JSON' "$json" --anywhere
line 'a line of a log' "$log" --anywhere
