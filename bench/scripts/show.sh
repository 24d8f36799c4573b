#!/usr/bin/env bash
# Times `smap show` on a map of about 28 MB, and node doing the same with JSON.parse, decode and encode of
# @jridgewell/sourcemap-codec, and JSON.stringify.
#
# The map is a real one whose mappings text stands in it many times over (repeat-map.js). Each program starts anew, reads
# the file and writes the map to another. Both have to write the same bytes.
set -euo pipefail

# shellcheck source=timing.sh
. "$(dirname -- "$(readlink -f -- "${BASH_SOURCE[0]}")")/timing.sh"
map=$folder/map
make_large_map "$map"

show() { measured "$program" show "$map" >"$folder/by_smap"; }
by_codec() {
    measured node "$readers/show-map.js" "$map" >"$folder/by_node" 2>"$folder/within"
    within=$(<"$folder/within")
}

printf 'map: %s bytes\n%s\n' "$(stat -c %s -- "$map")" "$counts"
compared 'writing a large map'
report 'smap show' show
report 'node, sourcemap-codec' by_codec
cmp -- "$folder/by_smap" "$folder/by_node"
