# shellcheck shell=bash
# What the scripts here and in bench/ have in common. It is read by them and not run.
#
# It makes a temporary folder, which goes when the script ends. Each check is counted. One that fails is reported; where
# `at_once` is set, as the scripts that measure have it, it ends the script with status 1.

root=$(cd -- "$(dirname -- "$(readlink -f -- "${BASH_SOURCE[0]}")")/.." && pwd)
folder=$(mktemp -d)
trap 'rm -rf -- "$folder"' EXIT
checks=0 failed=0 at_once=''

failure() {
    failed=$((failed + 1))
    printf 'FAILED: %s\n' "$1" >&2
    if [ -n "$at_once" ]; then exit 1; fi
}

# insist WHAT GIVEN WANTED: the two texts are the same.
insist() {
    checks=$((checks + 1))
    if [ "$2" != "$3" ]; then failure "$(printf '%s: "%.200s" in place of "%.200s"' "$1" "$2" "$3")"; fi
}

# same WHAT GIVEN WANTED: the two files have the same bytes.
same() {
    checks=$((checks + 1))
    if ! cmp -s -- "$2" "$3"; then
        diff -- "$3" "$2" | head -n 4 >&2 || true
        failure "$1"
    fi
}

# find_program: leaves in `program` the path of PROGRAM, or else of the program that ./smap runs.
find_program() {
    program=${PROGRAM:-}
    if [ -z "$program" ]; then
        "$root/smap" --version >/dev/null
        program=$root/$(<"$root/.smap/program")
    fi
}

# worked_rows KIND: the rows of `lookup`, or of `lookup --after`, among those that the gate compares: LINE COLUMN, from 0, in the
# file `places`, and what is printed first in `wanted`.
worked_rows() {
    paste "$root/crates/smap_rows/stdin" "$root/crates/smap_rows/stdout" | sed -n "/^# $1 in a real map, /,/^# /p" |
        sed -n 's/^run\t.* example\.map \([0-9]*\) \([0-9]*\)\t\t0\t\(.*\)/\1 \2 \3/p' | sed 's/\\n.*//' >"$folder/rows"
    awk '{ print $1 - 1, $2 - 1 }' "$folder/rows" >"$folder/places"
    sed 's/^[0-9]* [0-9]* //' "$folder/rows" >"$folder/wanted"
}

# sample_in LANGUAGE [PAGE]: all samples of a page in c, python, js or rs, joined; of docs/LIBRARY.md if none is given. They print
# `reported_by_samples`.
sample_in() {
    awk -v fence="\`\`\`$1" '$0 == "```" { inside = 0 } inside { print } $0 == fence { inside = 1 }' "$root/${2:-docs/LIBRARY.md}"
}
# shellcheck disable=SC2034
reported_by_samples='../src/index.ts:36:54 transformReactJSX'

# Says how many checks were made, and ends with status 1 where one of them failed.
sum_up() {
    printf '%s checks, %s failed\n' "$checks" "$failed"
    [ "$failed" = 0 ]
}
