#!/usr/bin/env bash
# Times `domino serial` on traces of the largest size beside the same work in C, which also writes each line with its own
# write(2): the running sum (bench/running_sum.c), flowlet switching (bench/flowlet.c), and a program of thirty nested
# conditionals (bench/nested.c). Then the fronts alone: `serial` of the longest programs over an empty trace. It reports
# and judges nothing: it always ends with status 0.
# bench/common.sh says what it wants and which variables it heeds.
set -u
. "$(dirname "${BASH_SOURCE[0]}")/common.sh" 3 running_sum flowlet nested

printf '%-12s %-8s %9s %10s %8s %6s %6s %12s %9s %8s\n' program trace packets 'domino s' 'C s' ratio median 'packets/s' \
    'peak MiB' 'C MiB'
nested_program >nested.dom
for row in "running_sum $top/examples/acc.dom gap,x" "flowlet $top/examples/flowlet.dom gap,sport,dport,arrival" "nested nested.dom gap,x"; do
    set -- $row
    for mib in 4 16; do
        csv="$(RARE=1 traced "$1" "$mib" "$3")"
        packets=$(($(wc -l <"$csv") - 1))
        ours=("$program" serial "$2" "$csv") hand=("./$1" "$csv")
        rounds file
        agree || echo "bench: the two reports on $csv differ"
        echo "$1 $mib $packets $(summed)" | awk '{
            if ($4 == 0 || $6 == 0) { print "bench: a run failed on " $1; exit }
            printf "%-12s %-8s %9d %10.3f %8.3f %6.2f %6.2f %12.0f %9.1f %8.1f\n", $1, $2 " MiB", $3, $4 / 1e6, $6 / 1e6, $4 / $6, $8,
                $3 * 1e6 / $4, $9 / 1024, $11 / 1024
        }'
    done
done

# The longest programs: as many bytes and as many tokens as are allowed.
head='struct P { int x; }; int s; void f(struct P pkt) { '
{ printf '%s' "$head"; for ((k = 0; k < 4087; k++)); do printf 's=s;'; done; printf '}'; } >tokens.dom
{ printf '%s' "$head"; for ((k = 0; k < 2720; k++)); do printf 's = s + 123456789 ;     '; done; printf '}'; } >bytes.dom
printf "%$((65536 - $(wc -c <bytes.dom)))s" '' >>bytes.dom
{ printf '%s' "$head"; printf 's=1'; for ((k = 0; k < 8170; k++)); do printf '+s'; done; printf ';}'; } >chain.dom
printf 'gap\n' >none.csv
printf '\n%-12s %9s %10s %9s\n' program bytes 'domino s' 'peak MiB'
for name in tokens bytes chain; do
    size=$(wc -c <"$name.dom")
    ours=("$program" serial "$name.dom" none.csv) hand=()
    rounds file
    echo "$name $size $(summed)" | awk '{ printf "%-12s %9d %10.4f %9.1f\n", $1, $2, $3 / 1e6, $8 / 1024 }'
done
rm -f ours.out theirs.out hand.out times.txt
exit 0
