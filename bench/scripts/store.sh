#!/usr/bin/env bash
# Times the store of the library in C: look-ups by URL beside those by the map, 16,000 lines over two maps of which it holds one, and
# traces over 38 MB of maps of which it holds 36. Seconds of processors, the least of RUNS runs. It builds the library, and needs what
# lib/build does. PREFIX may name a folder with the library built.
set -euo pipefail

# shellcheck source=timing.sh
. "$(dirname -- "$(readlink -f -- "${BASH_SOURCE[0]}")")/timing.sh"
make_large_map "$folder/map"
if [ -n "${PREFIX:-}" ]; then
    ln -s "$(cd -- "$PREFIX" && pwd)" "$folder/usr"
else
    "$root/lib/build" "$folder/usr" >/dev/null
fi
"${CC:-cc}" -O2 -I "$folder/usr/include" -o "$folder/store" "$readers/store.c" "$folder/usr/lib/libsmap.a"
node "$makers/random-positions.js" "$folder/map" "${POSITIONS:-1000000}" "$folder/positions"
for ((i = 0; i < runs; i++)); do "$folder/store" "$folder/map" "$folder/positions" "$root/examples/receipt.min.js.map"; done
