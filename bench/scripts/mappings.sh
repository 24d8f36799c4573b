#!/usr/bin/env bash
# Times `smap mappings` on a map of about 28 MB beside eachMapping of @jridgewell/trace-mapping, and `smap sources` on a bundle of
# about 5 MB beside its decodedMappings.
#
# The map is a real one whose mappings text stands in it many times over (repeat-map.js). The bundle is one that esbuild makes of
# two programs of Debian's package node-typescript. Each program starts anew, reads the files and writes its lines to another. Both
# have to write the same bytes.
set -euo pipefail

# shellcheck source=timing.sh
. "$(dirname -- "$(readlink -f -- "${BASH_SOURCE[0]}")")/timing.sh"
# shellcheck source=bundle.sh
. "$(dirname -- "$(readlink -f -- "${BASH_SOURCE[0]}")")/bundle.sh"
map=$folder/map
make_large_map "$map"

print_mappings() { measured "$program" mappings "$map" >"$folder/by_smap"; }
print_by_node() {
    measured node "$readers/print-mappings.js" "$map" >"$folder/by_node" 2>"$folder/within"
    within=$(<"$folder/within")
}

printf 'map: %s bytes\n%s\n' "$(stat -c %s -- "$map")" "$counts"
compared 'printing all mappings of a large map'
report 'smap mappings' print_mappings
report 'trace-mapping' print_by_node
cmp -- "$folder/by_smap" "$folder/by_node"

make_bundle "$folder/bundle.js"
count_sources() { measured "$program" sources "$folder/bundle.js.map" "$folder/bundle.js" >"$folder/by_smap"; }
count_by_node() {
    measured node "$readers/count-sources.js" "$folder/bundle.js.map" "$folder/bundle.js" >"$folder/by_node" 2>"$folder/within"
    within=$(<"$folder/within")
}

printf '\nbundle: %s bytes, its map %s\n' "$(stat -c %s -- "$folder/bundle.js")" "$(stat -c %s -- "$folder/bundle.js.map")"
compared 'counting the bytes of a bundle by source'
report 'smap sources' count_sources
report 'trace-mapping' count_by_node
cmp -- "$folder/by_smap" "$folder/by_node"
