#!/bin/sh
# Runs the gate, `bash .ci/run`, in a fresh clone of the last commit, whatever lies in this one, and times it: the minutes
# since the start stand in front of each line that it prints, and then it sums the minutes of its checks by crate.
#
#   bench/scripts/gate.sh                                                      the gate, on all processors
#   taskset -c 0,1 bench/scripts/gate.sh                                       on two of them
#   bench/scripts/gate.sh ./smap lookup examples/preset-react.js.map 65 80     another command in place of the gate
#
# It needs Linux, git, bash, python3, the command `rt` of the Rattle kit on the PATH, and a few GB for temporary files
# (TMPDIR); for its times, a machine on which nothing else runs. The status is that of the command.
set -eu

root=$(CDPATH='' cd -- "$(dirname -- "$(readlink -f -- "$0")")/../.." && pwd)
if [ -n "$(git -C "$root" status --porcelain)" ]; then
    printf 'gate.sh: what is not committed is left out\n' >&2
fi

folder=$(mktemp -d)
trap 'rm -rf -- "$folder"' EXIT
trap 'exit 130' INT TERM
git clone --quiet -- "$root" "$folder/smap"
cd -- "$folder/smap"

if [ $# -eq 0 ]; then set -- bash .ci/run; fi
PYTHONUNBUFFERED=1 python3 "$root/bench/scripts/gate.py" "$@"
