#!/usr/bin/env bash
# Times the library inside a process, in C, Python and node, beside @jridgewell/trace-mapping and, in Python, beside the same
# library called by way of ctypes: reading a map of about 28 MB and one of examples/, and a million random positions in each,
# one by one and in one call. Each is run RUNS times, and the least time counts. All have to come to the same sum. It builds the
# library, and needs what lib/build, lib/python/build and lib/node/build do. PREFIX may name a folder with the library built.
set -euo pipefail

# shellcheck source=timing.sh
. "$(dirname -- "$(readlink -f -- "${BASH_SOURCE[0]}")")/timing.sh"
make_large_map "$folder/map"
if [ -n "${PREFIX:-}" ]; then
    ln -s "$(cd -- "$PREFIX" && pwd)" "$folder/usr"
else
    "$root/lib/build" "$folder/usr" >/dev/null
fi
"$root/lib/node/build" "$folder/usr"
"$root/lib/python/build" "$folder/usr"
"${CC:-cc}" -O2 -I "$folder/usr/include" -o "$folder/library" "$readers/library.c" "$folder/usr/lib/libsmap.a"
export LIBSMAP=$folder/usr/lib/libsmap.so.1 PYTHONPATH=$root/lib/python PYTHONDONTWRITEBYTECODE=1

in_c() { "$folder/library" "$map" "$folder/positions"; }
in_python() { python3 "$readers/library.py" smap "$map" "$folder/positions"; }
by_ctypes() { python3 "$readers/library.py" ctypes "$map" "$folder/positions"; }
in_node() { node "$readers/library.js" smap "$map" "$folder/positions"; }
by_trace_mapping() { node "$readers/library.js" trace "$map" "$folder/positions"; }

for map in "$folder/map" "$root/examples/preset-react.js.map"; do
    node "$makers/random-positions.js" "$map" "${POSITIONS:-1000000}" "$folder/positions"
    printf '\nmap: %s bytes, %s positions; milliseconds\n' "$(stat -c %s -- "$map")" "${POSITIONS:-1000000}"
    printf '%-16s %8s %10s %12s\n' '' reading 'one by one' 'in one call'
    sum=
    for way in in_c in_python by_ctypes in_node by_trace_mapping; do
        for ((i = 0; i < runs; i++)); do "$way"; done >"$folder/said"
        reported=$(cut -d ' ' -f 4 "$folder/said" | sort -u)
        insist "$way" "$reported" "${sum:=$reported}"
        printf '%-16s' "$way"
        for field in 1 2 3; do
            cut -d ' ' -f "$field" "$folder/said" | sort -n | head -n 1 | awk '{ if ($1 == "-") printf " %11s", "-"; else printf " %11.1f", $1 / 1000 }'
        done
        printf '\n'
    done
done
