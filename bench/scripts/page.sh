#!/usr/bin/env bash
# Measures what smap-page makes: how large it is, how long it takes to be made, and how long Chromium and Firefox take to open it,
# beside the generated text alone, which the browser shows as plain text.
#
#   bench/scripts/page.sh [MAP GENERATED]..
#
# Without arguments: the receipt of examples/, a line of 5 MB in which it stands many times over, and a bundle of two programs of
# Debian's package node-typescript that esbuild makes. RUNS says how often each is opened, 3 if it is not given, and the best
# time counts. A time is that from the navigation to the end of the page's work, all drawn once; that of plain text is the one
# to the event `load`. PROGRAM is as in timing.sh. What is needed is what tests/try-page needs, esbuild and node-typescript.
set -euo pipefail

# shellcheck source=../../tests/checks.sh
. "$(dirname -- "$(readlink -f -- "${BASH_SOURCE[0]}")")/../../tests/checks.sh"
# shellcheck source=bundle.sh
. "$(dirname -- "$(readlink -f -- "${BASH_SOURCE[0]}")")/bundle.sh"
find_program
bin=$folder/usr/bin
mkdir -p "$bin" "$folder/usr/share/smap"
cp -- "$program" "$bin/smap"
cp -- "$root/smap-page" "$bin"
cp -R -- "$root/page" "$folder/usr/share/smap"

pairs=("$@")
if [ $# = 0 ]; then
    pairs=("$root/examples/receipt.min.js.map" "$root/examples/receipt.min.js")
    (cd -- "$root/tests/page" && /usr/bin/python3 -B -c '
import sys, files
from pathlib import Path
files.bundle(Path(sys.argv[1]), Path(sys.argv[2]), 5000000)' "$folder" "$root/examples")
    pairs+=("$folder/bundle.min.js.map" "$folder/bundle.min.js")
    if can_bundle; then
        make_bundle "$folder/typescript.js"
        pairs+=("$folder/typescript.js.map" "$folder/typescript.js")
    fi
fi
printf 'Commit %s, %s runs each, best time. %s, %s processors, load %s; %s; %s.\n\n' \
    "$(git -C "$root" rev-parse --short=9 HEAD)" "${RUNS:-3}" "$(sed -n 's/^model name[^:]*: //p' /proc/cpuinfo | head -n 1)" "$(nproc)" \
    "$(cut -d ' ' -f 1 /proc/loadavg)" "$(chromium --version 2>/dev/null | sed 's/ built.*//')" "$(firefox-esr --version 2>/dev/null)"
/usr/bin/python3 -B "$root/tests/page/times.py" "$bin" "${RUNS:-3}" "${pairs[@]}"
