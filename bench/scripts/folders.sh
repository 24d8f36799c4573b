#!/usr/bin/env bash
# Times `smap rewrite` over a folder of 3,000 maps on a trace that names 30 of them, beside a run that is given these 30 as words, a
# run that keeps a tenth of what they need, and a node script with @jridgewell/trace-mapping that reads each map when it is
# first named.
#
# The maps are made of a real one (cut-maps.js), and the places of the frames are random (make-trace.js). The trace goes round over
# the 30 maps ten times, with as many frames of one after another, as the errors of releases come in a log: so a run that keeps a
# tenth reads each map about ten times. Each program starts anew, reads the trace and writes the text to a file. All have to write the
# same bytes. MAPS, NAMED, LINES and ROUNDS say how many there are, and BYTES how large all maps are together.
set -euo pipefail

# shellcheck source=timing.sh
. "$(dirname -- "$(readlink -f -- "${BASH_SOURCE[0]}")")/timing.sh"
count=${MAPS:-3000}
named=${NAMED:-30}
lines=${LINES:-300000}
rounds=${ROUNDS:-10}
most=${BYTES:-300000000}
url=https://example.test/js
if ((named > count)); then named=$count; fi

cd -- "$folder"
mkdir many pieces
node "$makers/cut-maps.js" "$real" "$count" "$most" many
for ((i = 0; i < count; i++)); do mv -- "many/$i" "many/$i.map"; done

# The maps that are named stand in the folder at even distances. A map that is kept counts for its file, its URL and 128 bytes.
words=() needed=0
for ((i = 0; i < named; i++)); do
    number=$((i * count / named))
    word=$url/$number=many/$number.map
    words+=("$word")
    needed=$((needed + $(stat -c %s -- "many/$number.map") + ${#url} + 1 + ${#number} + 128))
    node "$makers/make-trace.js" "$((lines / named))" "$word" >some
    split -n "l/$rounds" -d -a 4 some "pieces/$i-"
done
for ((round = 0; round < rounds; round++)); do
    for ((i = 0; i < named; i++)); do cat -- "pieces/$i-$(printf %04d "$round")"; done
done >frames

over_words() { measured "$program" rewrite "${words[@]}" <frames >written; }
over_folder() { measured "$program" rewrite "$url/=many/" <frames >written; }
over_tenth() { measured "$program" rewrite --cache "$((needed / 10))" "$url/=many/" <frames >written; }
by_trace_mapping() { measured node "$readers/rewrite-folder.js" trace "$url/=many/" <frames >written; }

printf '%s maps of %s bytes together, of which a trace of %s lines names %s of %s bytes\n' \
    "$count" "$(cat many/* | wc -c)" "$(wc -l <frames)" "$named" "$needed"
compared "a folder of $count maps, of which $named are named"
report "smap rewrite, $named words" over_words
wanted=$folder/wanted
cp -- written "$wanted"
report 'smap rewrite, the folder' over_folder
agree
report 'smap rewrite, a tenth kept' over_tenth
agree
report 'trace-mapping, read when named' by_trace_mapping
agree

# The counts of the run over the folder: each map that is named is read once, and no other.
said=$("$program" rewrite --summary "$url/=many/" <frames 2>&1 >written)
insist 'the maps that are read' "${said##* maps }" "$named missing 0 refused 0 passed 0"
