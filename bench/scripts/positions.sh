#!/usr/bin/env bash
# Times `smap positions` on a million random positions over one map of about 28 MB, as text and as JSON, beside a node
# script that reads and writes the same with @jridgewell/trace-mapping, and as text beside Go's reader, where there is one.
#
# The map is made of a real one (repeat-map.js), and the positions are random (make-positions.js). Each program starts
# anew, reads the map and the positions and writes the answers to a file: with the positions, and with none, which is the
# time to read the map alone. The lines a second are of the difference. The first two have to write the same bytes; Go's reader
# answers some positions from an earlier line, and it is said how many lines differ. LINES says how many positions there are.
set -euo pipefail

# shellcheck source=timing.sh
. "$(dirname -- "$(readlink -f -- "${BASH_SOURCE[0]}")")/timing.sh"
lines=${LINES:-1000000}
url=https://example.test/js/app.js

cd -- "$folder"
make_large_map one
questions=$folder/positions
node "$makers/make-positions.js" "$lines" one >"$questions"

smap() { measured "$program" positions "${flags[@]}" --base "$url" one <"$asked" >written; }
by_trace_mapping() { measured node "$readers/answer-positions.js" "$how" "$url" one <"$asked" >written; }
by_go() { measured "$in_go" one <"$asked" >written; }

printf 'one map of %s bytes, %s positions\n' "$(stat -c %s one)" "$lines"
for how in text json; do
    flags=()
    if [ "$how" = json ]; then flags=(--json); fi
    compared "answering a million positions, $how"
    report_both "smap positions, $how" smap 'no position'
    report_both "trace-mapping, $how" by_trace_mapping 'no position'
    if [ "$how" = text ]; then
        build_in_go
        if [ -n "$in_go" ]; then
            agree() { printf '%44s %9d lines differ\n' '' "$(diff -y --suppress-common-lines -- "$wanted" written | wc -l)"; }
            report_both "Go's go-sourcemap, $how" by_go 'no position'
            agree() { cmp -- "$wanted" written; }
        fi
    fi
done
