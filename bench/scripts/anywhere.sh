#!/usr/bin/env bash
# Times `smap rewrite --anywhere` over one map of about 28 MB: on a trace of a million frames, and on a log of JSON lines
# of which one in a hundred has a place, beside `smap rewrite` on the same texts and beside `grep -F` for the URL.
#
# The map is made of a real one (repeat-map.js), and the places are random (make-trace.js, make-log.js). Each program starts
# anew, reads the map and the text and writes to a file; the map's own time is that on an empty text. LINES says how many frames
# there are, and MEGABYTES how large the log is.
set -euo pipefail

# shellcheck source=timing.sh
. "$(dirname -- "$(readlink -f -- "${BASH_SOURCE[0]}")")/timing.sh"
lines=${LINES:-1000000}
megabytes=${MEGABYTES:-1000}
url=https://example.test/js/app.js

cd -- "$folder"
make_large_map one
node "$makers/make-trace.js" "$lines" "$url=one" >trace
node "$makers/make-log.js" "$megabytes" trace >log

anywhere() { measured "$program" rewrite --anywhere "$url=one" <"$text" >written; }
frames() { measured "$program" rewrite "$url=one" <"$text" >written; }
by_grep() { measured grep -F -c -- "$url" <"$text" >counted; }

megabytes_a_second() { printf '%44s %9d MB a second\n' '' "$(($(stat -c %s -- "$text") / (least - $1)))"; }

text=/dev/null
compared 'an empty text'
report 'smap rewrite --anywhere' anywhere
empty=$least
for text in "$folder/trace" "$folder/log"; do
    compared "${text##*/}"
    report "smap rewrite, ${text##*/}" frames
    megabytes_a_second "$empty"
    report "smap rewrite --anywhere, ${text##*/}" anywhere
    megabytes_a_second "$empty"
    report "grep -F, ${text##*/}" by_grep
    megabytes_a_second 0
done
