# For the scripts beside it, which read it in as `. common.sh RUNS SOURCE..`: the built program, the folder bench/data, in
# which it goes on, these programs in C, traces, and what a run takes. Traces, programs and outputs stay in bench/data, which
# git does not see. Wants gcc and the built program (./domino builds it). DOMINO_PROGRAM names another built program, RUNS
# another number of runs than the script's own, of which the best counts. With COUNT=1 `taken` counts instructions instead,
# by `valgrind --tool=callgrind`; a busy machine does not change them.
top="$(cd "$(dirname "${BASH_SOURCE[0]}")/.." && pwd)" || exit 0
program="${DOMINO_PROGRAM:-$top/crates/domino/out/domino}"
runs="${RUNS:-$1}"
[ "${COUNT:-0}" = 1 ] && unit=instructions || unit=ms

if [ ! -x "$program" ]; then
    echo "bench: $program is not built: run ./domino first"
    exit 0
fi
mkdir -p "$top/bench/data" && cd "$top/bench/data" || exit 0
. "$top/bench/programs.sh"
for source in measure "${@:2}"; do
    gcc -O2 -o "$source" "$top/bench/$source.c" || { echo "bench: gcc is wanted"; exit 0; }
done

# What `rounds` runs beside one another: the words of the program, and of the two programs in C, or none.
ours=() theirs=() hand=()

# rounds OUTPUT: runs ours, theirs and hand in turn, into that output or, where it is `file`, into ours.out, theirs.out and
# hand.out. times.txt gets a line for each round: time and peak of each, 0 where there are no words or a run failed. There
# are as many rounds as runs; less, but at least three, where they take over ROW_SECONDS; and after LIMIT seconds of the script
# those that fit into about a second, or one.
rounds() {
    local round who output taken since=$SECONDS
    for ((round = 0; round < runs; round++)); do
        ((round >= 3 && SECONDS - since >= ${ROW_SECONDS:-100000} || round >= 1 && SECONDS >= ${LIMIT:-100000} && SECONDS > since)) && break
        for who in ours theirs hand; do
            local -n words="$who"
            taken=""
            [ "$1" = file ] && output="$who.out" || output="$1"
            [ ${#words[@]} = 0 ] || taken="$(./measure "$output" "${words[@]}")"
            printf '%s ' "${taken:-0 0}"
        done
        echo
    done >times.txt
}

# agree: whether the programs of `rounds file` put the same bytes
agree() {
    { [ ${#theirs[@]} = 0 ] || cmp -s ours.out theirs.out; } && { [ ${#hand[@]} = 0 ] || cmp -s ours.out hand.out; }
}

# summed: of times.txt the best times of ours, theirs and hand in microseconds, the medians of the ratios of neighbouring
# runs to theirs and to hand, and the three greatest peaks in KiB; 0 where there is nothing
summed() {
    awk '
        function median(list, size,    k, j, value) {
            for (k = 2; k <= size; k++) {
                value = list[k]
                for (j = k - 1; j >= 1 && list[j] > value; j--) list[j + 1] = list[j]
                list[j + 1] = value
            }
            return size ? list[int((size + 1) / 2)] : 0
        }
        {
            for (k = 1; k <= 5; k += 2) {
                if ($k && (!best[k] || $k < best[k])) best[k] = $k
                if ($(k + 1) > peak[k]) peak[k] = $(k + 1)
            }
            if ($1 && $3) to_theirs[++pairs] = $1 / $3
            if ($1 && $5) to_hand[++others] = $1 / $5
        }
        END {
            print best[1] + 0, best[3] + 0, best[5] + 0, median(to_theirs, pairs), median(to_hand, others), peak[1] + 0,
                peak[3] + 0, peak[5] + 0
        }' times.txt
}

# counted WORD..: the instructions that these words take
counted() {
    valgrind --tool=callgrind --trace-children=yes --callgrind-out-file=/dev/null "$@" 2>&1 >/dev/null |
        sed -n 's/.*Collected : *//p'
}

# instructions TRACE WORD..: those for a packet, of the difference between the first 10,000 packets of the trace and the first
# 1,000; count.csv stands for these in the words
instructions() {
    local size least all
    for size in 1000 10000; do
        head -n $((size + 1)) "$1" >count.csv
        least="${all:-0}"
        all="$(counted "${@:2}")"
    done
    echo $(((${all:-0} - ${least:-0}) / 9000))
}

# taken WORD..: what the program takes with these words, start-up included, in that unit
taken() {
    if [ "${COUNT:-0}" = 1 ]; then
        counted "$program" "$@"
    else
        ours=("$program" "$@") theirs=() hand=()
        ANY_STATUS=1 rounds taken.out
        summed | awk '{ printf "%.2f", $1 / 1000 }'
        rm -f taken.out times.txt
    fi
}

# traced NAME MIB HEADING: the name of that trace, which is made where it is not there
traced() {
    [ -s "$1-$2.csv" ] || trace "$3" $(($2 * 1024 * 1024)) >"$1-$2.csv"
    echo "$1-$2.csv"
}

# trace HEADING BYTES: records until the bytes or 1,990,000 packets are reached, without gaps. RARE=1 makes one value of x in
# three a multiple of 2^20, for bench/nested.c.
trace() {
    awk -v heading="$1" -v bytes="$2" -v rare="${RARE:-0}" 'BEGIN {
        print heading
        columns = split(heading, names, ",")
        number = 12345
        left = bytes - length(heading) - 1
        for (packet = 0; packet < 1990000; packet++) {
            line = "0"
            for (c = 2; c <= columns; c++) {
                number = number * 16807 % 2147483647
                value = number
                if (names[c] == "sport" || names[c] == "dport") value = number % 97
                if (names[c] == "arrival") value = packet * 2
                if (names[c] == "dst") value = number % 2
                if (names[c] == "util") value = number % 128
                if (names[c] == "path") value = number % 8
                if (names[c] == "a" || names[c] == "x" && columns == 2 && !rare) value = number % 9000000 - 900000
                if (names[c] == "x" && rare && number % 3 == 0) value = number % 1024 * 1048576
                line = line "," value
            }
            left -= length(line) + 1
            if (left < 0) break
            print line
        }
    }'
}
