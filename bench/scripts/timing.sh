# shellcheck shell=bash disable=SC2154
# What the scripts that time smap beside others have in common. It is read by them and not run.
#
# They time commands and print a table for each comparison. RUNS says how often each command is started, PROGRAM times
# that program in place of the one of this repository, and BYTES says how large the large maps are. Where ROWS names a
# file, as all.sh does, each row is added to it as well. CLOCK=processor counts seconds of processors in place of those of the
# clock, where other things run on the machine; a program with several threads, as node, then counts with each.
#
# The maps are made of a real one, MAP, of Debian's package node-babel7-debug. The other readers are modules of its
# packages node-ampproject-remapping and node-source-map. The peaks of memory need the program `time` (/usr/bin/time).

# shellcheck source=../../tests/checks.sh
. "$(dirname -- "$(readlink -f -- "${BASH_SOURCE[0]}")")/../../tests/checks.sh"
# shellcheck disable=SC2034
at_once=yes
makers=$root/bench/makers
readers=$root/bench/readers
runs=${RUNS:-5}
real=${MAP:-/usr/share/nodejs/@babel/parser/lib/index.js.map}
most=${BYTES:-28000000}
export NODE_PATH=${NODE_PATH:-/usr/share/nodejs}

if [ ! -r "$real" ]; then
    printf 'there is no map %s\n' "$real" >&2
    exit 1
fi

# The program is built where that is needed.
find_program

# The line of a look-up in a map, without the excerpt behind it.
place_in() { "$program" lookup "$1" "$line" "$column" | head -n 1; }

# Makes the large map: the real one, whose mappings text stands in it many times over. What `smap check` says of it is left in
# `counts`, and what `smap lookup` says at `line` and `column`, a position near its end, in `place`.
make_large_map() {
    {
        read -r counts
        read -r line column
        read -r place
    } < <(node "$makers/repeat-map.js" "$real" "$most" "$1")
    insist 'smap check' "$("$program" check "$1")" "$counts"
    insist 'smap lookup' "$(place_in "$1")" "$place"
}

# Runs a command, and leaves the greatest of the peaks of its memory in all runs, in KiB, in `peak`. The microseconds of
# processors that it took are added to `processor`.
measured() {
    /usr/bin/time -f '%M %U %S' -o "$folder/peak" "$@"
    local took user system
    read -r took user system < <(tail -n 1 "$folder/peak")
    if ((took > peak)); then peak=$took; fi
    processor=$((processor + (10#${user/./} + 10#${system/./}) * 10000))
}

plain() { measured cat -- "$map" >/dev/null; }
check() { measured "$program" check "$map" >/dev/null; }
look_up() { measured "$program" lookup "$map" "$line" "$column" >/dev/null; }

# Builds Go's reader of maps, where there is Go and Debian's package golang-github-go-sourcemap-sourcemap-dev; its path is
# left in `in_go`, which is empty where there is none.
build_in_go() {
    in_go=''
    if command -v go >/dev/null && [ -d "${GOPATH:-/usr/share/gocode}/src/github.com/go-sourcemap" ]; then
        in_go=$folder/in-go
        GO111MODULE=off GOPATH=${GOPATH:-/usr/share/gocode} GOCACHE=$folder/go-cache go build -o "$in_go" "$readers/go/positions.go"
    fi
}

# Reads `map` by a node script, which says in how many microseconds and what it found: the time within its process is
# left in `within`.
by_node() {
    local said
    measured node "$readers/read-map.js" "$1" "$map" "$line" "$column" >"$folder/said"
    said=$(<"$folder/said")
    insist "$1" "${said#* }" "$2"
    within=${said%% *}
}

# The least times of a few runs, in microseconds: of the whole process in `least`, and within it in `least_within`, where
# the command says it. The highest peak of memory is in `peak`.
best_of() {
    local begin took i
    least='' least_within='' peak=0
    for ((i = 0; i < runs; i++)); do
        within=''
        begin=${EPOCHREALTIME/[.,]/} processor=0
        "$1"
        took=$((${EPOCHREALTIME/[.,]/} - begin))
        if [ "${CLOCK:-}" = processor ]; then took=$processor; fi
        if [ -z "$least" ] || ((took < least)); then least=$took; fi
        if [ -n "$within" ] && { [ -z "$least_within" ] || ((within < least_within)); }; then
            least_within=$within
        fi
    done
}

# Begins the table of a comparison. Its first row is what the others are compared with.
compared() {
    comparison=$1 first_time='' first_peak=''
    empty_time='' empty_peak='' full_time='' full_peak='' wanted=''
    printf '\n%-44s %9s %9s %10s %10s %10s\n' "$1" seconds within peak time/first peak/first
}

# Times a command and adds a row for it.
report() {
    best_of "$2"
    : "${first_time:=$least}" "${first_peak:=$peak}"
    LC_ALL=C awk -v what="$1" -v micros="$least" -v within="$least_within" -v peak="$peak" \
        -v first_time="$first_time" -v first_peak="$first_peak" 'BEGIN {
        within = within == "" ? "" : sprintf("%.3f", within / 1e6)
        printf "%-44s %9.3f %9s %7.1f MB %10.2f %10.2f\n", what, micros / 1e6, within, peak * 1024 / 1e6, \
            micros / first_time, peak / first_peak
    }'
    if [ -n "${ROWS:-}" ]; then
        printf '%s|%s|%s|%s|%s|%s\n' "$comparison" "$1" "$least" "$peak" "$first_time" "$first_peak" >>"$ROWS"
    fi
}

# What was written is what the first command wrote.
agree() { cmp -- "$wanted" written; }

# report_both WHAT COMMAND NONE: times a command that answers the file `asked` in `written`, and adds two rows for it: where
# that file is empty, which is called NONE and takes the time to read the maps alone, and where it is `questions`. It says
# how many of its lines are answered in a second of the difference. All commands of a comparison have to write the same bytes.
# shellcheck disable=SC2034
report_both() {
    asked=/dev/null first_time=$empty_time first_peak=$empty_peak
    report "$1, $3" "$2"
    empty_time=$first_time empty_peak=$first_peak
    local empty=$least
    asked=$questions first_time=$full_time first_peak=$full_peak
    report "$1" "$2"
    full_time=$first_time full_peak=$first_peak
    printf '%44s %9d lines a second\n' '' "$((lines * 1000000 / (least - empty)))"
    if [ -z "$wanted" ]; then
        wanted=$folder/wanted
        cp -- written "$wanted"
    else
        agree
    fi
}
