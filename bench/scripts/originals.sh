#!/usr/bin/env bash
# Times generatedPositionFor of the library in node beside @jridgewell/trace-mapping: the original of each mapping of the real map is
# asked for once, and so of a map of about 28 MB. Each is run RUNS times, and the least time and the highest peak count. Both have to
# come to the same sum. PREFIX may name where lib/build has put the library; else it is built. It needs what lib/node/build does.
set -euo pipefail

# shellcheck source=timing.sh
. "$(dirname -- "$(readlink -f -- "${BASH_SOURCE[0]}")")/timing.sh"
prefix=${PREFIX:-$folder/usr}
[ -n "${PREFIX:-}" ] || "$root/lib/build" "$prefix" >/dev/null
"$root/lib/node/build" "$prefix"
node "$makers/repeat-map.js" "$real" "$most" "$folder/large" >/dev/null

for map in "$real" "$folder/large"; do
    sum=
    node "$makers/list-originals.js" "$map" "$folder/originals"
    printf '%s originals of a map of %s bytes: reading, asking, and the peak\n' \
        "$(($(stat -c %s -- "$folder/originals") / 12))" "$(stat -L -c %s -- "$map")"
    for how in smap trace; do
        for ((i = 0; i < runs; i++)); do node "$readers/each-original.js" "$how" "$map" "$folder/originals"; done >"$folder/said"
        got=$(cut -d ' ' -f 4 "$folder/said" | sort -u)
        insist "$how" "$got" "${sum:=$got}"
        printf '%-8s %8d ms %8d ms %8d MB\n' "$how" "$(cut -d ' ' -f 1 "$folder/said" | sort -n | head -n 1)" \
            "$(cut -d ' ' -f 2 "$folder/said" | sort -n | head -n 1)" "$(cut -d ' ' -f 3 "$folder/said" | sort -n | tail -n 1)"
    done
done
