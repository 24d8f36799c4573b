#!/usr/bin/env bash
# Runs every comparison of smap with other programs once, and prints their tables and then all rows in one, in Markdown,
# with the commit and the machine: bench/scripts/all.sh. It takes about ten minutes where RUNS, how often each program is started,
# is 3, as it is by default. What it needs is said in timing.sh; nothing else should run beside it.
set -euo pipefail

here=$(dirname -- "$(readlink -f -- "${BASH_SOURCE[0]}")")
export RUNS=${RUNS:-3}
ROWS=$(mktemp)
export ROWS
trap 'rm -f -- "$ROWS"' EXIT

for script in lookup sections raw lines show mappings compose rewrite folders positions locate anywhere check; do
    printf '\n== %s.sh\n' "$script"
    "$here/$script.sh"
done

version_of() { NODE_PATH=${NODE_PATH:-/usr/share/nodejs} node -p "require('$1/package.json').version"; }

printf '\nCommit %s, %s runs each, least seconds%s and highest peak. %s, %s processors; node %s, trace-mapping %s, source-map %s, remapping %s, sourcemap-codec %s.\n\n' \
    "$(git -C "$here" rev-parse --short=9 HEAD)" "$RUNS" "${CLOCK:+ of a $CLOCK}" \
    "$(sed -n 's/^model name[^:]*: //p' /proc/cpuinfo | head -n 1)" "$(nproc)" "$(node -v)" \
    "$(version_of @jridgewell/trace-mapping)" "$(version_of source-map)" "$(version_of @ampproject/remapping)" \
    "$(version_of @jridgewell/sourcemap-codec)"
printf '| What | Program | Seconds | Peak, MB | Time / first | Peak / first |\n|---|---|---|---|---|---|\n'
LC_ALL=C awk -F '|' '{
    what = $1 == last ? "" : $1
    last = $1
    printf "| %s | %s | %.3f | %.1f | %.2f | %.2f |\n", what, $2, $3 / 1e6, $4 * 1024 / 1e6, $3 / $5, $4 / $6
}' "$ROWS"
