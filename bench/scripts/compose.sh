#!/usr/bin/env bash
# Times `smap compose` beside @ampproject/remapping (compose-maps.js): on maps of which one or both have about 28 MB, on the
# map of a bundle with those of its 400 modules, and on the builds in two steps that the pages name.
#
# The large map is a real one, MAP, whose mappings text stands in it many times over (repeat-map.js). It is the outer map,
# then the inner one, then both; the other one is MAP itself. SOURCE is the source of the outer map that is followed, from
# 0: that with the most mappings. The bundle's modules are pieces of MAP (make-bundle.js); MODULES and SEGMENTS say how many
# there are, and how many mappings each has. Each program starts anew, reads the files and writes the composed map to a file.
#
# What the two write is not the same (docs/BENCHMARKS.md). Each mapping of the one by remapping has to lead to the same
# place in the other (same-places.js), if SAME is set: that takes as long as all the runs.
set -euo pipefail

# shellcheck source=timing.sh
. "$(dirname -- "$(readlink -f -- "${BASH_SOURCE[0]}")")/timing.sh"
followed=${SOURCE:-33}
modules=${MODULES:-400}
segments=${SEGMENTS:-2000}
large=$folder/map
make_large_map "$large"

# The commands: one source by its number, all that a word or a list names, and that without what no mapping has.
compose() { measured "$program" compose "$outer" "$followed" "$inner" >"$folder/by_smap"; }
compose_named() { measured "$program" compose --prune --inner "$name=$inner" "$outer" >"$folder/by_smap"; }
compose_all() { measured "$program" compose --inners "$list" "$outer" >"$folder/by_smap"; }
compose_pruned() { measured "$program" compose --prune --inners "$list" "$outer" >"$folder/by_smap"; }
by_remapping() { remap "$outer" "$followed" "$inner"; }
by_loader() { remap "$outer" "$list"; }
remap() {
    measured node "$readers/compose-maps.js" "$@" >"$folder/by_node" 2>"$folder/within"
    within=$(<"$folder/within")
}

same_places() { if [ -n "${SAME:-}" ]; then node "$readers/same-places.js" "$folder/by_smap" "$folder/by_node"; fi; }

# A source of a map by its number, as remapping calls it.
name_of() { node -p 'JSON.parse(fs.readFileSync(process.argv[1])).sources[process.argv[2]]' "$1" "$2"; }

# Both on these two maps.
both() {
    outer=$2 inner=$3
    compared "composing, $1"
    report 'smap compose' compose
    name=$(name_of "$outer" "$followed")
    report 'smap compose --prune, the source by its name' compose_named
    report 'remapping' by_remapping
    same_places
}

printf 'large map: %s bytes\n%s\n' "$(stat -c %s -- "$large")" "$counts"
both 'a large outer map' "$large" "$real"
both 'a large inner map' "$real" "$large"
both 'both large' "$large" "$large"

# The bundle, whose modules are all composed in one run.
mkdir "$folder/bundle"
reported=$(node "$makers/make-bundle.js" "$real" "$modules" "$segments" "$folder/bundle")
outer=$folder/bundle/dist/bundle.js.map list=$folder/bundle/list
printf '\nbundle: %s bytes, and %s modules with %s bytes\n%s\n' "$(stat -c %s -- "$outer")" "$modules" \
    "$(cat -- "$folder"/bundle/build/*.map | wc -c)" "$reported"
compared "composing, a bundle of $modules modules"
report 'smap compose --prune' compose_pruned
insist 'smap check' "$("$program" check "$folder/by_smap")" "$reported"
report 'smap compose' compose_all
report 'remapping' by_loader
same_places

# The builds of the pages, each in one command.
cd -- "$root"
followed=0
two_steps() {
    outer=examples/$2.map inner=examples/$3.map name=$3
    compared "composing, $1"
    report 'smap compose --prune' compose_named
    report 'remapping' by_remapping
    same_places
}
two_steps 'preset-react.min.js' preset-react.min.js preset-react.js
two_steps 'modules.min.js' modules.min.js modules.js
compared 'composing, the five modules of examples/chain'
outer=examples/chain/dist/bundle.js.map list=examples/chain/modules.list
report 'smap compose --prune' compose_pruned
report 'remapping' by_loader
same_places
