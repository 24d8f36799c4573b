# shellcheck shell=sh
# What a program that is called as smap prints, to both streams, and its statuses: sh answers.sh COMMAND.. It prints the same
# for each way of calling the same program. It runs where examples/ is.
receipt=https://example.test/receipt.min.js=examples/receipt.min.js.map
says() { printf '%s: status %d\n' "$1" "$2"; }

"$@" lookup examples/preset-react.js.map 65 80
says 'an answer' $?
"$@" rewrite "$receipt" <examples/receipt.trace
says 'standard input' $?
"$@" check examples/preset-react.js 2>&1
says 'a refused map' $?
"$@" no-command 2>&1
says 'a wrong word' $?
"$@" lookup missing.map 1 1 2>&1
says 'a missing file' $?
"$@" lookup examples/preset-react.js.map '65 80' '' '*' 2>&1
says 'words with blanks' $?
# shellcheck disable=SC2069
"$@" --version 2>&1 >/dev/full
says 'a full device' $?
{
    {
        sleep 1
        "$@" mappings examples/preset-react.js.map 2>&3
        says 'a closed pipe' $? >&3
    } | :
} 3>&1
