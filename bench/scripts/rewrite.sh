#!/usr/bin/env bash
# Times `smap rewrite` on a trace of a million frames, over one map of about 28 MB and over 100 maps of as much together,
# and a node script that does the same line by line with @jridgewell/trace-mapping, and with Mozilla's source-map.
#
# The maps are made of a real one (repeat-map.js, cut-maps.js), and the places of the frames are random
# (make-trace.js): each frame's own, and over the one map also those of 2,000 stacks that come again. Each program starts anew, reads the maps and the trace and writes the text to a file: with the trace,
# and with an empty one, which is the time to read the maps alone. The lines a second are of the difference. All have to
# write the same bytes. LINES and MAPS say how many there are.
set -euo pipefail

# shellcheck source=timing.sh
. "$(dirname -- "$(readlink -f -- "${BASH_SOURCE[0]}")")/timing.sh"
lines=${LINES:-1000000}
count=${MAPS:-100}
url=https://example.test/js
questions=$folder/trace

cd -- "$folder"
mkdir many
make_large_map one
node "$makers/cut-maps.js" "$real" "$count" "$most" many

smap() { measured "$program" rewrite "${words[@]}" <"$asked" >written 2>/dev/null; }
by_trace_mapping() { measured node "$readers/rewrite-trace.js" trace "${words[@]}" <"$asked" >written; }
by_source_map() { measured node "$readers/rewrite-trace.js" mozilla "${words[@]}" <"$asked" >written; }

# All of a trace over these maps, each of which is an argument of the command.
over() {
    compared "rewriting a million $1"
    shift
    words=("$@")
    node "$makers/make-trace.js" "$lines" "${words[@]}" >"$questions"
    report_both 'smap rewrite' smap 'an empty trace'
    report_both 'trace-mapping' by_trace_mapping 'an empty trace'
    report_both 'source-map' by_source_map 'an empty trace'
}

printf 'one map of %s bytes, %s maps of %s bytes together\n' "$(stat -c %s one)" "$count" "$(cat many/* | wc -c)"
over 'frames, one map' "$url/app.js=one"
export STACKS=2000
over 'lines of stacks that come again, one map' "$url/app.js=one"
unset STACKS
chunks=()
for ((i = 0; i < count; i++)); do chunks+=("$url/chunk-$i.js=many/$i"); done
over "frames, $count maps" "${chunks[@]}"
