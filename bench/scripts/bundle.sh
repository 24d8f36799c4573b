# shellcheck shell=bash disable=SC2154
# Makes the large bundle that is measured. It is read by scripts and not run.

typescript=${NODE_PATH:-/usr/share/nodejs}/typescript/lib

# Whether esbuild and Debian's package node-typescript are here.
can_bundle() { command -v esbuild >/dev/null && [ -r "$typescript/tsc.js" ]; }

# Makes a minified bundle of two programs of that package, and its map beside it: about 5 MB.
make_bundle() {
    printf 'require("%s/typescript.js"); require("%s/tsc.js");\n' "$typescript" "$typescript" >"$folder/entry.js"
    esbuild "$folder/entry.js" --bundle --minify --sourcemap --platform=node --outfile="$1" --log-level=error
}
