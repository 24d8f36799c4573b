#!/usr/bin/env bash
# Times the library in node beside @jridgewell/trace-mapping: the memory that 300 maps of 3.2 MB take, which are read in one
# loop and of which none is closed; every mapping of a map of about 28 MB; and calls one by one in smaller maps, in one process by
# turns. Each is run RUNS times, and the least time and the highest peak count. Both have to come to the same sum. PREFIX may name where lib/build has put the library; else it
# is built. It needs what lib/node/build does.
set -euo pipefail

# shellcheck source=timing.sh
. "$(dirname -- "$(readlink -f -- "${BASH_SOURCE[0]}")")/timing.sh"
prefix=${PREFIX:-$folder/usr}
[ -n "${PREFIX:-}" ] || "$root/lib/build" "$prefix" >/dev/null
"$root/lib/node/build" "$prefix"
count=${MAPS:-300}
node "$makers/repeat-map.js" "$real" 3200000 "$folder/small" >/dev/null
node "$makers/repeat-map.js" "$real" "$most" "$folder/large" >/dev/null

# reported WHAT PEAK COMMAND..: a row of the least of each time and the highest peak, which is field PEAK; what stands behind it is
# the sum.
reported() {
    local what=$1 peak_at=$2 i
    for ((i = 0; i < runs; i++)); do "${@:3}"; done >"$folder/said"
    local got
    got=$(cut -d ' ' -f "$((peak_at + 1))" "$folder/said" | sort -u)
    insist "$what" "$got" "${sum:=$got}"
    printf '%-34s' "$what"
    for ((i = 1; i < peak_at; i++)); do printf ' %8d ms' "$(cut -d ' ' -f "$i" "$folder/said" | sort -n | head -n 1)"; done
    printf ' %8d MB\n' "$(cut -d ' ' -f "$peak_at" "$folder/said" | sort -n | tail -n 1)"
}

printf '%s maps of %s bytes: time and peak\n' "$count" "$(stat -c %s -- "$folder/small")"
sum=
reported smap 2 node "$readers/many-maps.js" smap "$folder/small" "$count"
reported trace-mapping 2 node "$readers/many-maps.js" trace "$folder/small" "$count"

printf '\na map of %s bytes: reading, the call, and the peak\n' "$(stat -c %s -- "$folder/large")"
sum=
for call in eachMapping decodedMappings; do
    reported "$call of smap" 3 node "$readers/each-mapping.js" smap "$folder/large" "$call"
    reported "$call of trace-mapping" 3 node "$readers/each-mapping.js" trace "$folder/large" "$call"
done
reported 'mappings of smap' 3 node "$readers/each-mapping.js" smap "$folder/large" mappings

printf '\nmap and segments|call|smap, ns|trace-mapping, ns|ratio\n'
node "$readers/small-calls.js" "$root/examples/preset-react.js.map" "$root/examples/receipt.min.js.map"
ROUNDS=50 node "$readers/small-calls.js" "$real"
