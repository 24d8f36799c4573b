#!/usr/bin/env bash
# Takes the five modules of TypeScript in chain/src through three steps of a build, each with a map of that step alone, and
# has @ampproject/remapping compose the maps:
#
#   chain/src/NAME.ts -> chain/build/NAME.js -> chain/dist/bundle.js -> chain/dist/bundle.min.js
#
#   NODE_PATH=/usr/share/nodejs bash examples/make-chain.sh
#
# It needs node and, of Debian 12, the packages node-typescript (4.8.4), rollup (3.15.0), terser (5.16.5) and
# node-ampproject-remapping (2.2.0).
set -euo pipefail

here=$(cd -- "$(dirname -- "$(readlink -f -- "${BASH_SOURCE[0]}")")" && pwd)
remapped=$here/../tests/compare-compose/remapped.js
if [ ! -r "$remapped" ]; then
    printf 'there is no %s: this runs in the repository\n' "$remapped" >&2
    exit 1
fi
cd -- "$here/chain"
rm -rf -- build dist remapped

tsc --rootDir src --outDir build --target ES2020 --module ES2020 --strict --sourceMap --inlineSources src/main.ts
rollup --silent --format es --sourcemap --file dist/bundle.js build/main.js
(cd -- dist && terser bundle.js --module --compress --mangle --output bundle.min.js \
    --source-map "includeSources,filename='bundle.min.js',url='bundle.min.js.map'")

# The maps of the modules, by the names of the sources of the bundle's map. Paths are taken from the folder above examples/.
for map in build/*.js.map; do
    printf '../%s\texamples/chain/%s\n' "${map%.map}" "$map"
done >modules.list

cd -- "$here/.."
chain=examples/chain
mkdir "$chain/remapped"
bundle=$(mktemp)
trap 'rm -f -- "$bundle"' EXIT
printf 'bundle.js\t%s\n' "$chain/dist/bundle.js.map" >"$bundle"
node "$remapped" "$chain/dist/bundle.js.map" "$chain/modules.list" >"$chain/remapped/bundle.js.map"
node "$remapped" "$chain/dist/bundle.min.js.map" "$bundle" "$chain/modules.list" >"$chain/remapped/bundle.min.js.map"
