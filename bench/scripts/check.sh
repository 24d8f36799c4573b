#!/usr/bin/env bash
# Times `smap check` of 2,000 map files in one process, as text and as JSON, beside a process for each of them, started by
# `xargs -n 1` and by a loop of bash, and beside a node script that reads them all with @jridgewell/trace-mapping.
#
# The maps are the real ones below FOLDER, which is where Debian's packages of node modules have theirs: node-babel7-debug has
# 477. One that smap refuses would be left out. Where there are fewer than COUNT, all are copied again and again until there
# are so many. What is printed of each has to be the same from all.
set -euo pipefail

# shellcheck source=timing.sh
. "$(dirname -- "$(readlink -f -- "${BASH_SOURCE[0]}")")/timing.sh"
maps=${FOLDER:-/usr/share/nodejs}
count=${COUNT:-2000}

cd -- "$folder"
mkdir maps
find "$maps" -name '*.map' -type f -print0 | sort -z >found
# shellcheck disable=SC2016
{ xargs -0 "$program" check --json <found || [ $? = 123 ]; } 2>/dev/null |
    node -e 'for (const line of require("fs").readFileSync(0, "utf8").split("\n").slice(0, -1)) {
        const { ok, path } = JSON.parse(line);
        if (ok) process.stdout.write(`${path}\0`);
    }' >accepted
mapfile -d '' -t accepted <accepted
insist 'find' "$((${#accepted[@]} > 0))" 1
for ((i = 0; i < count; i++)); do
    cp -- "${accepted[i % ${#accepted[@]}]}" "$(printf 'maps/%06d.map' "$i")"
done
find maps -name '*.map' -print0 | sort -z >paths

together() { measured xargs -0 "$program" check <paths >written; }
together_as_json() { measured xargs -0 "$program" check --json <paths >written; }
one_by_one() { measured xargs -0 -n 1 "$program" check <paths >written; }
one_by_one_as_json() { measured xargs -0 -n 1 "$program" check --json <paths >written; }
# shellcheck disable=SC2016
in_a_loop() { measured bash -c 'while IFS= read -r -d "" path; do "$0" check "$path"; done' "$program" <paths >written; }
by_trace_mapping() { measured node "$readers/check-maps.js" text <paths >written; }
by_trace_mapping_as_json() { measured node "$readers/check-maps.js" json <paths >written; }

# A process for one file does not name it.
without_paths() { sed 's/^[^:]*: //' "$1"; }

printf '%s maps of %s bytes, %s of them real\n' "$count" "$(cat -- maps/*.map | wc -c)" \
    "$((${#accepted[@]} < count ? ${#accepted[@]} : count))"
compared "checking $count maps"
report 'smap check, one process' together
mv written text
report 'smap check, a process each, xargs' one_by_one
without_paths text | cmp -- - written
report 'smap check, a process each, bash' in_a_loop
without_paths text | cmp -- - written
report 'trace-mapping' by_trace_mapping
cmp -- text written
compared 'the same, JSON'
report 'smap check --json, one process' together_as_json
mv written json
report 'smap check --json, a process each, xargs' one_by_one_as_json
cmp -- json written
report 'trace-mapping' by_trace_mapping_as_json
cmp -- json written
