#!/usr/bin/env bash
# Times `smap rewrite --anywhere` over texts that are meant to take it long, of 1 MB and of ten times as much:
# hostile.sh [SHAPE..]; or `smap check` over maps that are, of 1 MB and of four times as much: hostile.sh --maps [SHAPE..].
# Each text is of one shape again and again, with a place behind each few bytes (make-hostile.js): as many as take it longest.
# MEGABYTES says how large the smaller is, RUNS how often each is timed; the least counts, in milliseconds of the processor for
# each megabyte. Instructions are those for each byte, by a pattern, counted by valgrind over a quarter of each text. OLD may
# name another program, whose milliseconds stand beside, where it ends within a minute. PROGRAM names one in place of that of
# this repository.
#
# Of a map there are the bytes of memory and the processor's nanoseconds for each of its bytes, without the memory that a map
# without mappings takes; the shape `root` has a 128th of the bytes. The program `time` says the peaks (/usr/bin/time).
set -euo pipefail

# shellcheck source=../../tests/checks.sh
. "$(dirname -- "$(readlink -f -- "${BASH_SOURCE[0]}")")/../../tests/checks.sh"
makers=$root/bench/makers
megabytes=${MEGABYTES:-1}
find_program
cd -- "$folder"

# The highest peak of memory and the least time of a few runs of `smap check` over the file `map`: bytes and nanoseconds.
checked() {
    local peak=0 least='' took user system i TIMEFORMAT='%3U %3S'
    for ((i = 0; i < ${RUNS:-3}; i++)); do
        read -r user system < <({ time /usr/bin/time -q -f %M -o peak "$program" check map >said 2>&1; } 2>&1)
        took=$((10#${user/[.,]/} + 10#${system/[.,]/}))
        if [ -z "$least" ] || ((took < least)); then least=$took; fi
        took=$(tail -n 1 peak)
        if ((took > peak)); then peak=$took; fi
    done
    printf '%s %s\n' $((peak * 1024)) $((least * 1000000))
}

# What a map of this shape and of so many megabytes takes for each of its bytes.
row_of_map() {
    local peak took bytes
    node "$makers/make-hostile.js" --map "$1" $(($2 * 1000000)) >map
    bytes=$(stat -c %s map)
    read -r peak took < <(checked)
    LC_ALL=C awk -v peak="$peak" -v took="$took" -v bytes="$bytes" -v least="$least_peak" \
        'BEGIN { printf "%.1f|%.0f|", (peak - least) / bytes, took / bytes }'
}

if [ "${1:-}" = --maps ]; then
    shift
    printf '{"version":3,"sources":[],"names":[],"mappings":""}' >map
    read -r least_peak _ < <(checked)
    printf '|Shape|Bytes a byte|ns a byte|the same, of four times as much||\n|---|---|---|---|---|\n'
    for name in $(node "$makers/make-hostile.js" --map); do
        if [ $# != 0 ] && [[ " $* " != *" $name "* ]]; then continue; fi
        printf '|%s|%s%s\n' "$name" "$(row_of_map "$name" "$megabytes")" "$(row_of_map "$name" $((megabytes * 4)))"
    done
    exit
fi

# A map in which each place of line 1 has an original.
printf '{"version":3,"sources":["a.ts"],"names":[],"mappings":"AAAA,CAAC"}' >app.map
mkdir maps
cp app.map maps/app.js.map

by_pattern=('*app.js=app.map')
by_folder=('https://h/=maps/')
explained=(--explain 'https://h/=maps/')
for ((i = 0; i < 1000; i++)); do printf 'https://h/%s/\tmaps/\n*x%s.js\tapp.map\n' "$i" "$i"; done >list
by_many=(--maps list)

# The least processor time of a few runs, in milliseconds for each megabyte of the text.
milliseconds() {
    local least='' took TIMEFORMAT=%3U i
    for ((i = 0; i < ${RUNS:-3}; i++)); do
        took=$({ time timeout 60 "$@" <text >written 2>said; } 2>&1) || { printf -- '-' && return; }
        took=$((10#${took/[.,]/}))
        if [ -z "$least" ] || ((took < least)); then least=$took; fi
    done
    LC_ALL=C awk -v took="$least" -v bytes="$(stat -c %s text)" 'BEGIN { printf "%.0f", took * 1e6 / bytes }'
}

# How many instructions it takes for each byte.
instructions() {
    local count
    count=$(valgrind --tool=cachegrind --cache-sim=no --cachegrind-out-file=/dev/null "$@" 2>&1 <text >written |
        sed -n 's/.*I *refs: *//p' | tr -d ,)
    printf '%s' $((count / $(stat -c %s text)))
}

# SHAPE EVERY
shapes=(
    'pairs 2000' 'slashes 20' 'backslashes 20' 'quotes 20' 'apostrophes 20' 'brackets 20' 'schemes 2000' 'addresses 20'
    'functions 60000' 'colours 20' 'escapes 20' 'lines 20' 'prefixes 20' 'queries 2000' 'letters 100' 'letters 100000000'
)
printf '|Shape|Every|By a pattern||By a folder||`--explain`||1,000 of each||Instructions||%s\n' "${OLD:+Before||}"
printf '|---|---|---|---|---|---|---|---|---|---|---|---|%s\n' "${OLD:+---|---|}"
for shape in "${shapes[@]}"; do
    read -r name every <<<"$shape"
    if [ $# != 0 ] && [[ " $* " != *" $name "* ]]; then continue; fi
    printf '|%s|%s|' "$name" "$every"
    for options in by_pattern by_folder explained by_many; do
        declare -n given=$options
        for times in 1 10; do
            node "$makers/make-hostile.js" "$name" "$every" $((megabytes * times * 1000000)) >text
            printf '%s|' "$(milliseconds "$program" rewrite --anywhere "${given[@]}")"
        done
    done
    for times in 1 10; do
        node "$makers/make-hostile.js" "$name" "$every" $((megabytes * times * 250000)) >text
        printf '%s|' "$(instructions "$program" rewrite --anywhere "${by_pattern[@]}")"
    done
    if [ -n "${OLD:-}" ]; then
        for times in 1 10; do
            node "$makers/make-hostile.js" "$name" "$every" $((megabytes * times * 1000000)) >text
            printf '%s|' "$(RUNS=1 milliseconds "$OLD" rewrite --anywhere "${by_pattern[@]}")"
        done
    fi
    printf '\n'
done
