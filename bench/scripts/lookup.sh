#!/usr/bin/env bash
# Times `smap check` and `smap lookup` on a map of about 28 MB beside other readers of the same file:
# node's JSON.parse, node's module.SourceMap, @jridgewell/trace-mapping, and Go's reader, where there is one.
#
# The map is a real one whose mappings text stands in it many times over (repeat-map.js). Each reader
# starts anew, reads the file, and looks one position near its end up once. Those that answer have to
# give the same answer.
set -euo pipefail

# shellcheck source=timing.sh
. "$(dirname -- "$(readlink -f -- "${BASH_SOURCE[0]}")")/timing.sh"
map=$folder/map
make_large_map "$map"

by_json() { by_node json -; }
by_source_map() { by_node node "$place"; }
by_trace_mapping() { by_node trace "$place"; }

printf 'map: %s bytes\n%s\nline %s column %s: %s\n' "$(stat -c %s -- "$map")" "$counts" "$line" "$column" "$place"
compared 'one look-up in a large map'
report 'smap lookup' look_up
report 'smap check' check
report 'cat > /dev/null' plain
report 'JSON.parse' by_json
report 'module.SourceMap' by_source_map
report 'trace-mapping' by_trace_mapping
build_in_go
by_go() {
    measured "$in_go" "$map" "$line" "$column" >"$folder/said"
    insist "Go's reader" "$(sed 's|^https://example.test/||' "$folder/said")" "${place#../}"
}
if [ -n "$in_go" ]; then report "Go's go-sourcemap" by_go; fi
