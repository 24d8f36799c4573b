#!/usr/bin/env bash
# Times `smap raw` on a mappings text of about 12 MB.
#
# The text is examples/jquery.min.mappings many times over, joined by `;`. All fields but the generated column run on from
# one copy into the next. Each copy ends at values of 0 or more, so the next one only moves up, by 10,906 original lines,
# which stays far below the limit. COPIES says how many there are. The same text with a fault at its very end is read and
# checked whole, and no index is built.
set -euo pipefail

# shellcheck source=timing.sh
. "$(dirname -- "$(readlink -f -- "${BASH_SOURCE[0]}")")/timing.sh"
text=$folder/text
faulty=$folder/faulty
for ((i = 0; i < ${COPIES:-89}; i++)); do
    if ((i > 0)); then printf ';'; fi
    cat -- "$root/examples/jquery.min.mappings"
done >"$text"
{ cat -- "$text"; printf '!'; } >"$faulty"
printf 'text: %s bytes; %s\n' "$(stat -c %s -- "$text")" "$(node "$root/tests/vectors/make.js" check "$text")"

# Line 1 of the text is empty.
insist 'smap raw' "$("$program" raw 1 1 <"$text")" none

look_up() { measured "$program" raw 1 1 <"$text" >/dev/null; }
refuse() { measured "$program" raw 1 1 <"$faulty" >/dev/null 2>&1 || true; }

compared 'a bare mappings text of 12 MB'
report 'smap raw' look_up
report 'refused at its end' refuse
