#!/usr/bin/env bash
# Times one `smap rewrite`, GNU parallel with 1, 2 and 4 jobs and cluster/smap_dask.py with 1, 2 and 4 workers, on a
# trace of about 300 MB over 20 maps, and on 200 traces of as much together, each over 3 of these maps.
#
# The maps are made of a real one, MAP (cut-maps.js), and the places of the frames are random (make-trace.js); the
# large trace is REPEATS times the same, 4 where it is not given. It goes to a file, and each of the small ones to its
# own, by one process after another, by parallel, and by a scheduler and workers that run already. The time is that of
# the whole command: of the script a part of it is Python's start, so that what it says itself is reported beside it. The
# last row is the script with a cluster of its own, which it starts and ends, with a worker for each processor. All have
# to write the same bytes.
#
# It needs Debian's packages parallel, python3-dask and python3-distributed. MAP is of node-babel7-debug, and the
# modules are of node-ampproject-remapping. All files are in memory, in TMPDIR or else in /dev/shm: 2 GB. PROGRAM times
# that program in place of the one of this repository. MAPS, BYTES, LINES and BLOCK say how many maps there are, of how
# many bytes together, how many lines are repeated, and how many bytes a block has. With REPEATS=14 the trace has about
# 1 GB.
set -euo pipefail

RUNS=${RUNS:-2}
export TMPDIR=${TMPDIR:-/dev/shm}
# shellcheck source=timing.sh
. "$(dirname -- "$(readlink -f -- "${BASH_SOURCE[0]}")")/timing.sh"
count=${MAPS:-20}
most=${BYTES:-8000000}
lines=${LINES:-1050000}
repeats=${REPEATS:-4}
block=${BLOCK:-38000000}
url=https://example.test/js
python=/usr/bin/python3

for needed in /usr/bin/parallel /usr/lib/python3/dist-packages/distributed; do
    if [ ! -r "$needed" ]; then
        printf 'there is no %s\n' "$needed" >&2
        exit 1
    fi
done

# What was started and still runs.
started=()
finish() {
    for process in "${started[@]}"; do
        if kill "$process" 2>/dev/null; then wait "$process" || true; fi
    done
    started=()
}
trap 'finish; rm -rf -- "$folder"' EXIT
export TMPDIR=$folder
cd -- "$folder"

mkdir maps small
node "$makers/cut-maps.js" "$real" "$count" "$most" maps
words=()
for ((i = 0; i < count; i++)); do words+=("$url/chunk-$i.js=$folder/maps/$i"); done
node "$makers/make-trace.js" "$lines" "${words[@]}" >repeated
for ((i = 0; i < repeats; i++)); do cat repeated; done >large
rm repeated
for ((i = 0; i < 20; i++)); do
    three=()
    for ((j = 0; j < 3; j++)); do three+=("${words[(i + j) % count]}"); done
    node "$makers/make-trace.js" "$((lines / 5))" "${three[@]}" >some
    split -n l/10 -d some "small/$i-"
done
rm some

# Each run writes to a folder of its own, `out`.
runs_made=0
fresh() {
    runs_made=$((runs_made + 1))
    out=$folder/out-$runs_made
    mkdir "$out"
}

one() {
    fresh
    local trace
    for trace in "${traces[@]}"; do "$program" rewrite "${words[@]}" <"$trace" >"$out/${trace##*/}"; done
}

by_parallel() {
    fresh
    if [ "${#traces[@]}" = 1 ]; then
        parallel --will-cite -q -j "$jobs" -k --pipepart --block "$block" -a "${traces[0]}" \
            "$program" rewrite "${words[@]}" >"$out/${traces[0]##*/}"
    else
        parallel --will-cite -j "$jobs" "$program rewrite ${words[*]} <{} >$out/{/}" ::: "${traces[@]}"
    fi
}

# What the script says of its own time is left in `within`, in microseconds.
by_dask() {
    fresh
    local said
    said=$("$python" "$root/cluster/smap_dask.py" rewrite "${joined[@]}" --program "$program" --block "$block" \
        --output "$out" "${words[@]}" -- "${traces[@]}")
    within=$(LC_ALL=C awk -v seconds="${said##* }" 'BEGIN { printf "%d", seconds * 1000000 }')
}

# The columns are the seconds, MB a second, how many times as fast as one process, and that by each job or worker.
report() {
    best_of "$2"
    if [ "$2" = one ]; then
        one_time=$least
        mv "$out" by_one
    else
        diff -rq by_one "$out"
    fi
    rm -rf out-*
    LC_ALL=C awk -v what="$1" -v micros="$least" -v bytes="$bytes" -v one="$one_time" -v jobs="$jobs" \
        -v within="$least_within" 'BEGIN {
        printf "%-26s %8.2f %8.0f %10.2f %10.2f", what, micros / 1e6, bytes / micros, one / micros, one / micros / jobs
        if (within) printf " %10.1f", within / 1e6
        printf "\n"
    }'
}

# A scheduler of this machine and so many workers, of one thread each.
start_workers() {
    local place=(--host 127.0.0.1 --dashboard-address 127.0.0.1:0)
    "$python" -m distributed.cli.dask_scheduler "${place[@]}" --port 0 --scheduler-file scheduler 2>>dask.log &
    started+=($!)
    "$python" -m distributed.cli.dask_worker --scheduler-file scheduler "${place[@]}" --local-directory "$folder" \
        --nworkers "$1" --nthreads 1 2>>dask.log &
    started+=($!)
    address=$("$python" -c 'import sys
from distributed import Client
with Client(scheduler_file="scheduler") as client:
    client.wait_for_workers(int(sys.argv[1]))
    print(client.scheduler.address)' "$1" 2>>dask.log)
}

compared() {
    local what=$1
    shift
    traces=("$@")
    bytes=$(cat -- "${traces[@]}" | wc -c)
    printf '\n%s, %s bytes, over %s maps of %s bytes together; blocks of %s bytes\n' "$what" "$bytes" "$count" \
        "$(cat maps/* | wc -c)" "$block"
    printf '%-26s %8s %8s %10s %10s %10s\n' '' seconds MB/s times 'by each' 'it says'
    jobs=1
    report 'one process' one
    for jobs in 1 2 4; do report "parallel, $jobs jobs" by_parallel; done
    for jobs in 1 2 4; do
        start_workers "$jobs"
        joined=(--scheduler "$address")
        report "Dask, $jobs workers" by_dask
        finish
        rm -f scheduler
    done
    jobs=$(nproc) joined=()
    report 'Dask, its own cluster' by_dask
    rm -rf by_one
}

printf 'best time of %s runs; %s processors, load %s; %s; Dask %s\n' \
    "$runs" "$(nproc)" "$(cut -d ' ' -f 1-2 /proc/loadavg)" \
    "$(parallel --version | head -n 1)" "$("$python" -c 'import distributed; print(distributed.__version__)')"
compared 'one trace' large
compared "$(find small -type f | wc -l) traces" small/*
