#!/usr/bin/env bash
# Makes receipt.min.js, receipt.min.js.map and receipt.trace beside itself: bundles the small program in receipt/ with
# the package mustache, runs the bundle under the URL that the README names, and keeps the trace that node prints.
#
#   ESBUILD=/usr/bin/esbuild NODE_PATH=/usr/share/nodejs bash examples/make-trace.sh
#
# It needs node 20 and, of Debian 12, the packages esbuild (0.17.0) and node-mustache (3.0.1).
set -euo pipefail

here=$(cd -- "$(dirname -- "$(readlink -f -- "${BASH_SOURCE[0]}")")" && pwd)
url=https://example.test/receipt.min.js

# The sources are named by their paths from here.
folder=$(mktemp -d)
trap 'rm -rf -- "$folder"' EXIT
cd -- "$folder"
cp -R -- "$here/receipt" src
mkdir node_modules
cp -R -- "$(node -p 'path.dirname(require.resolve("mustache"))')" node_modules/

"${ESBUILD:-esbuild}" src/main.ts --bundle --minify --sourcemap --outfile=receipt.min.js --log-level=error

# A script's file name is what its frames name. The program fails when its caller is done, so none of the frames is
# of this line.
node -e 'vm.runInThisContext(fs.readFileSync("receipt.min.js", "utf8"), { filename: process.argv[1] })' "$url" \
    2>receipt.trace

mv -- receipt.min.js receipt.min.js.map receipt.trace "$here/"
