#!/usr/bin/env bash
# Times `smap check` and `smap lookup` on an index map of about 28 MB in 1,000 sections, and on a regular map that
# states the same, and other readers on the index map: node's JSON.parse, node's module.SourceMap, and
# @jridgewell/trace-mapping, which joins the sections first.
#
# The maps are a real one many times over, and cut (cut-map.js). Each reader starts anew, reads the file, and looks one
# position near its end up once. All have to give the same answer. SECTIONS says how many there are.
set -euo pipefail

# shellcheck source=timing.sh
. "$(dirname -- "$(readlink -f -- "${BASH_SOURCE[0]}")")/timing.sh"
index=$folder/index.map
regular=$folder/regular.map
{
    read -r index_counts
    read -r regular_counts
    read -r line column
    read -r place
} < <(node "$makers/cut-map.js" "$real" "$most" "${SECTIONS:-1000}" "$index" "$regular")

insist 'smap check' "$("$program" check "$index")" "$index_counts"
insist 'smap check' "$("$program" check "$regular")" "$regular_counts"
insist 'smap lookup' "$(place_in "$index")" "$place"
insist 'smap lookup' "$(place_in "$regular")" "$place"

# `trace` has no index maps, and `any` has.
by_json() { by_node json -; }
by_source_map() { by_node node "$place"; }
by_trace_mapping() { by_node any "$place"; }

printf 'index map: %s bytes, regular map: %s bytes\n%s\n%s\nline %s column %s: %s\n' "$(stat -c %s -- "$index")" \
    "$(stat -c %s -- "$regular")" "$index_counts" "$regular_counts" "$line" "$column" "$place"
compared 'an index map beside a regular one'
map=$regular
report 'smap lookup, regular map' look_up
map=$index
report 'smap lookup, index map' look_up
compared 'one look-up in a large index map'
report 'smap lookup' look_up
report 'JSON.parse' by_json
report 'module.SourceMap' by_source_map
report 'trace-mapping' by_trace_mapping
