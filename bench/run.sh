#!/usr/bin/env bash
# Times `domino run` on traces of 1, 4 and 16 MiB beside an interpreter in C (bench/interpreter.c), which clocks the same
# configuration, and beside the same work by hand in C where there is one; all of them write each line with its own
# write(2). The programs: the running sum, flowlet switching, conga, a configuration of 240 atoms in 8 stages, and one of
# 248 atoms in 30 stages. Then idle cycles, and the growth with the number of atoms. It reports and judges nothing: it
# always ends with status 0.
# bench/common.sh says what it wants and which variables it heeds; OUTPUTS names other outputs than `file /dev/null`, SIZES
# other sizes than `1 4 16`, ROWS other programs. `median` is that of the ratios of the runs next to one another, which a busy
# machine changes less than it does the best times. With COUNT=1 it counts instructions: on the first 10,000 packets of each
# trace, less those on the first 1,000; without the kernel's share.
set -u
. "$(dirname "${BASH_SOURCE[0]}")/common.sh" 5 interpreter acc flowlet_run conga

machines
if [ "${COUNT:-0}" = 1 ]; then
    printf '%-8s %12s %12s %8s %12s %8s\n' program 'domino' 'interpreter' ratio 'by hand' ratio
    while read -r name target source heading byhand serial; do
        "$program" compile "$target" "$source" >"$name.conf" || { echo "bench: $name does not compile"; continue; }
        csv="$(traced "$name" 1 "$heading")"
        a="$(instructions "$csv" "$program" run "$target" "$source" count.csv)"
        b="$(instructions "$csv" ./interpreter run "$name.conf" count.csv)"
        c=0
        [ "$byhand" = - ] || c="$(instructions "$csv" "./$byhand" count.csv)"
        echo "$name $a $b $c" | awk '{
            printf "%-8s %12d %12d %8.2f %12s %8s\n", $1, $2, $3, $2 / $3, $4 ? $4 : "", $4 ? sprintf("%.2f", $2 / $4) : "" }'
    done <<<"$rows"
    rm -f count.csv
    exit 0
fi

printf '%-8s %-7s %-10s %8s %9s %9s %6s %6s %9s %6s %11s %9s %8s\n' program trace output packets 'domino s' 'interp s' \
    ratio median 'by hand s' ratio 'packets/s' 'peak MiB' 'x trace'
while read -r name target source heading byhand serial; do
    "$program" compile "$target" "$source" >"$name.conf" || { echo "bench: $name does not compile"; continue; }
    for mib in ${SIZES:-1 4 16}; do
        csv="$(traced "$name" "$mib" "$heading")"
        packets=$(($(wc -l <"$csv") - 1))
        size=$(wc -c <"$csv")
        ours=("$program" run "$target" "$source" "$csv") theirs=(./interpreter run "$name.conf" "$csv") hand=()
        [ "$byhand" = - ] || hand=("./$byhand" "$csv")
        for output in ${OUTPUTS:-file /dev/null}; do
            rounds "$output"
            [ "$output" != file ] || agree || echo "bench: the reports of $name on $csv differ"
            echo "$name $mib $output $packets $size $(summed)" | awk '{
                if ($6 == 0 || $7 == 0) { print "bench: a run failed on " $1; exit }
                printf "%-8s %-7s %-10s %8d %9.3f %9.3f %6.2f %6.2f %9s %6s %11.0f %9.1f %8.2f\n", $1, $2 " MiB", $3, $4,
                    $6 / 1e6, $7 / 1e6, $6 / $7, $9, $8 ? sprintf("%.3f", $8 / 1e6) : "",
                    $8 ? sprintf("%.2f", $6 / $8) : "", $4 * 1e6 / $6, $11 / 1024, $11 * 1024 / $5
            }'
        done
    done
done <<<"$rows"

# Cycles in which nothing enters: as many as a trace may take, before one packet.
hand=()
printf '\n%-8s %10s %9s %9s\n' program 'cycles' 'domino s' 'interp s'
printf 'gap,x\n1999960,1\n' >idle.csv
for row in "acc raw-small $top/examples/acc.dom" "wide raw-large wide.dom"; do
    set -- $row
    "$program" compile "$2" "$3" >"$1.conf" || continue
    ours=("$program" run "$2" "$3" idle.csv) theirs=(./interpreter run "$1.conf" idle.csv)
    rounds file
    agree || echo "bench: the two reports of $1 on idle cycles differ"
    cycles="$(sed -n 's/^done,[0-9]*,//p' ours.out)"
    echo "$1 ${cycles:-0} $(summed)" | awk '{ printf "%-8s %10d %9.4f %9.4f\n", $1, $2, $3 / 1e6, $4 / 1e6 }'
done

# More atoms on one trace.
printf '\n%-8s %8s %9s %9s %6s %22s\n' atoms packets 'domino s' 'interp s' ratio 'ns a packet and atom'
csv="$(traced wide 4 gap,x,y)"
packets=$(($(wc -l <"$csv") - 1))
for atoms in 30 60 120 240; do
    wide_program "$atoms" >grown.dom
    "$program" compile raw-large grown.dom >grown.conf || continue
    ours=("$program" run raw-large grown.dom "$csv") theirs=(./interpreter run grown.conf "$csv")
    rounds /dev/null
    count="$(grep -c -E '^(un|bin|cond|hash|atom),' grown.conf)"
    echo "$count $packets $(summed)" |
        awk '$3 && $4 { printf "%-8d %8d %9.3f %9.3f %6.2f %22.2f\n", $1, $2, $3 / 1e6, $4 / 1e6, $3 / $4, $3 * 1e3 / $2 / $1 }'
done
rm -f ours.out theirs.out hand.out times.txt
exit 0
