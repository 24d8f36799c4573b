#!/usr/bin/env bash
# Measures the services of examples/service/ over smap in Python and node, and that in node over @jridgewell/trace-mapping: how many events of
# ten frames they answer to CLIENTS, 8 if it is not given, in a second and in a second of a processor's work, which other work on the machine
# does not change much, and the peak of their memory, where maps may count for BOUND MB,
# 300 if it is not given.
#
#   bench/scripts/service.sh [MAP..]
#
# RELEASES folders, 200 if it is not given, hold one of the maps each in turn; without arguments those of Debian's node-babel7-debug and
# node-less with more than 100,000 bytes. EVENTS are sent, 10,000 if it is not given. PACKAGES is the folder of smap's packages, dist/ if it is not
# given. Nothing else should run beside it.
set -euo pipefail

# shellcheck source=../../tests/checks.sh
. "$(dirname -- "$(readlink -f -- "${BASH_SOURCE[0]}")")/../../tests/checks.sh"
case ${1:-} in -*) sed -n '2,/^set/s/^# \{0,1\}//p' "${BASH_SOURCE[0]}" && exit ;; esac
packages=$(cd -- "${PACKAGES:-$root/dist}" && pwd)
mkdir "$folder/python" "$folder/modules" "$folder/other" "$folder/releases"
python3 -m zipfile -e "$packages"/smap-*_"$(uname -m)".whl "$folder/python"
tar -xzf "$packages"/smap-*.tgz -C "$folder/modules" --transform 's/^package/smap/'
cp -- "$root/bench/service/trace-mapping.js" "$folder/other/smap.js"
export PYTHONPATH=$folder/python PYTHONDONTWRITEBYTECODE=1
nodes=${NODE_PATH:-/usr/share/nodejs}

maps=("$@")
if [ $# = 0 ]; then mapfile -t maps < <(find /usr/share/nodejs/@babel /usr/share/nodejs/less -name '*.map' -size +97k 2>/dev/null | sort); fi
for ((i = 0; i < ${RELEASES:-200}; i++)); do
    mkdir "$folder/releases/r$i"
    cp -- "${maps[i % ${#maps[@]}]}" "$folder/releases/r$i/app.js.map"
done
printf '%s maps, %s bytes\n' "${RELEASES:-200}" "$(du -sb "$folder/releases" | cut -f 1)"

service=
trap 'if [ -n "$service" ]; then kill "$service" 2>/dev/null || true; fi; rm -rf -- "$folder"' EXIT
# How long the service has been at work, in ticks of a processor.
ticks() { awk '{ print $14 + $15 }' "/proc/$service/stat"; }
measure() {
    local what=$1 port
    shift
    # What the last one said goes first, lest its port be taken for that of the next.
    : >"$folder/said"
    "$@" https://example.test/ "$folder/releases" 0 "${BOUND:-300}" >"$folder/said" &
    service=$!
    until port=$(sed -n 's/.*://p' "$folder/said") && [ -n "$port" ]; do
        kill -0 "$service" || exit 1
        sleep 0.05
    done
    local answer before
    before=$(ticks)
    answer=$(node "$root/bench/service/load.js" "$port" https://example.test/ "$folder/releases" "${CLIENTS:-8}" "${EVENTS:-10000}")
    printf '%-28s %6s events in a second, %6d in one of its processors, peak %4d MB, %s frames found\n' "$what" "${answer% *}" \
        "$((${EVENTS:-10000} * $(getconf CLK_TCK) / ($(ticks) - before)))" \
        "$(($(sed -n 's/^VmHWM:[[:space:]]*\([0-9]*\) kB/\1/p' "/proc/$service/status") * 1024 / 1000000))" "${answer#* }"
    kill "$service"
    wait "$service" 2>/dev/null || true
    service=
}
measure 'smap in Python' python3 "$root/examples/service/service.py"
NODE_PATH=$folder/modules measure 'smap in node' node "$root/examples/service/service.js"
NODE_PATH=$folder/other:$nodes measure 'trace-mapping in node' node "$root/examples/service/service.js"
