#!/usr/bin/env bash
# Times Maps in Python and node beside the store in C: 16,000 lines over two maps of which none is kept, and 40,000 URLs without maps and with
# one each, in seconds of processors; and for how many milliseconds of the processor node's loop is held while a map of 28 MB is loaded. The
# least of RUNS runs, 5 if it is not given. It takes the packages in dist/, or in the folder that PACKAGES names.
set -euo pipefail

# shellcheck source=../../tests/checks.sh
. "$(dirname -- "$(readlink -f -- "${BASH_SOURCE[0]}")")/../../tests/checks.sh"
case ${1:-} in -*) sed -n '2,/^set/s/^# \{0,1\}//p' "${BASH_SOURCE[0]}" && exit ;; esac
packages=$(cd -- "${PACKAGES:-$root/dist}" && pwd)
mkdir "$folder/usr" "$folder/python" "$folder/modules"
tar -xzf "$packages"/smap-*-linux-"$(uname -m)".tar.gz -C "$folder/usr" --strip-components=1
python3 -m zipfile -e "$packages"/smap-*_"$(uname -m)".whl "$folder/python"
tar -xzf "$packages"/smap-*.tgz -C "$folder/modules" --transform 's/^package/smap/'
"${CC:-cc}" -O2 -I "$folder/usr/include" -o "$folder/maps" "$root/bench/readers/maps.c" "$folder/usr/lib/libsmap.a"
export PYTHONPATH=$folder/python NODE_PATH=$folder/modules PYTHONDONTWRITEBYTECODE=1

printf '%-8s %14s %14s %14s %14s\n' '' '16,000 lines' 'without maps' 'a map each' 'loop held'
for words in "C $folder/maps" "Python python3 $root/bench/readers/maps.py" "node node $root/bench/readers/maps.js"; do
    read -r -a command <<<"$words"
    for ((i = 0; i < ${RUNS:-5}; i++)); do "${command[@]:1}" | paste -s -d ' ' -; done >"$folder/said"
    printf '%-8s' "${command[0]}"
    for field in 1 2 3 4; do printf ' %14s' "$(cut -s -d ' ' -f "$field" "$folder/said" | sort -n | head -n 1)"; done
    printf '\n'
done
