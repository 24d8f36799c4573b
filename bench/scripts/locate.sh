#!/usr/bin/env bash
# Times `smap locate --json` over a folder of 3,000 maps on 100,000 places in 30 of their files, beside a node script with
# @jridgewell/trace-mapping that reads each map when it is first named, and keeps it.
#
# The maps are made of a real one (cut-maps.js), and the places are random (make-positions.js). They go round over the 30 maps ten
# times, as events of an error reporter come. Each program starts anew, reads the places and writes the answers to a file. Both have to
# write the same bytes. MAPS, NAMED, LINES and ROUNDS say how many there are, and BYTES how large all maps are together.
set -euo pipefail

# shellcheck source=timing.sh
. "$(dirname -- "$(readlink -f -- "${BASH_SOURCE[0]}")")/timing.sh"
count=${MAPS:-3000}
named=${NAMED:-30}
lines=${LINES:-100000}
rounds=${ROUNDS:-10}
most=${BYTES:-300000000}
url=https://example.test/js
if ((named > count)); then named=$count; fi

cd -- "$folder"
mkdir many pieces
node "$makers/cut-maps.js" "$real" "$count" "$most" many
for ((i = 0; i < count; i++)); do mv -- "many/$i" "many/$i.map"; done

# The maps that are named stand in the folder at even distances.
for ((i = 0; i < named; i++)); do
    number=$((i * count / named))
    node "$makers/make-positions.js" "$((lines / named))" "many/$number.map" | sed "s|^\([0-9]*\) |$url/$number:\1:|" >some
    split -n "l/$rounds" -d -a 4 some "pieces/$i-"
done
for ((round = 0; round < rounds; round++)); do
    for ((i = 0; i < named; i++)); do cat -- "pieces/$i-$(printf %04d "$round")"; done
done >places

locate() { measured "$program" locate --json "$url/=many/" <places >written; }
by_trace_mapping() { measured node "$readers/answer-places.js" "$url/=many/" <places >written; }

printf '%s maps of %s bytes together, and %s places in %s of their files\n' "$count" "$(cat many/* | wc -c)" "$(wc -l <places)" "$named"
compared "100000 places in $named files, a folder of $count maps"
report 'smap locate, JSON' locate
wanted=$folder/wanted
cp -- written "$wanted"
report 'trace-mapping, read when named, JSON' by_trace_mapping
agree
