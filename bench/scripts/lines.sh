#!/usr/bin/env bash
# Times `smap lookup` of a place on the last line of a source's content of about 30 MB: the same map with the content
# and without, so that the difference is the time to read the content and to find the line; and, beside it, node's
# `split` of the same content into lines.
#
# The content is a real file, TEXT, of Debian's package node-babel7, many times over. Both look-ups have to give the
# same first line, and the look-up with the content the last line that node finds.
set -euo pipefail

# shellcheck source=timing.sh
. "$(dirname -- "$(readlink -f -- "${BASH_SOURCE[0]}")")/timing.sh"
with=$folder/with.map
without=$folder/without.map
text=$folder/text
line=1 column=1
{
    read -r counts
    read -r place
    IFS= read -r last
} < <(node "$makers/repeat-text.js" "${TEXT:-/usr/share/nodejs/@babel/parser/lib/index.js}" "$most" "$with" "$without" "$text")

insist 'smap lookup' "$("$program" lookup "$without" 1 1)" "$place"
insist 'smap lookup' "$("$program" lookup "$with" 1 1)" "$place
$last
^"

split() {
    local said
    measured node "$readers/split-text.js" "$text" >"$folder/said"
    said=$(<"$folder/said")
    insist 'node' "${said#* }" "$counts"
    within=${said%% *}
}

printf 'content: %s\n%s\n' "$counts" "$place"
compared 'the last line of a large source'
map=$with
report 'smap lookup' look_up
report 'smap check' check
map=$without
report 'smap lookup, no content' look_up
report "node's split" split
