#!/usr/bin/env bash
# Times `domino exec` on configurations over a trace of no packets, start-up included, so that reading the text, asking for
# the rules and taking the machine's memory is what counts: legal ones for `pairs-large` of 32 stages with 256, 512, 1,024
# and 2,048 containers (the most that there may be), and texts of 131,072 to 1,048,576 bytes that are of the form and have
# more atoms than a stage may have. Then `domino upgrade` on the largest legal ones, of version 1: one whose values nothing
# reads, and one whose values are read 16 stages after the one that makes them. It reports and judges nothing: it always
# ends with status 0.
# bench/common.sh says what it wants and which variables it heeds.
set -u
. "$(dirname "${BASH_SOURCE[0]}")/common.sh" 9

printf 'gap\n' >empty.csv

# row NAME CONTAINERS CONFIG
row() {
    local out
    out="$("$program" exec "$3" empty.csv 2>&1)"
    printf '%-8s %10s %10s %14s  %.40s\n' "$1" "$2" "$(wc -c <"$3")" "$(taken exec "$3" empty.csv)" "${out##*$'\n'}"
}

# upgraded NAME CONTAINERS CONFIG
upgraded() {
    local out
    out="$("$program" upgrade "$3" 2>&1 | grep -E '^(containers|refused),')"
    printf '%-8s %10s %10s %14s  %.40s\n' "$1" "$2" "$(wc -c <"$3")" "$(taken upgrade "$3")" "$out"
}

printf '%-8s %10s %10s %14s  %s\n' text containers bytes "$unit" 'last line'
for containers in 256 512 1024 2048; do
    legal "$containers" 0 >legal.config && row legal "$containers" legal.config
done
for bytes in 131072 262144 524288 1048576; do
    long "$bytes" >long.config && row long - long.config
done
printf '%-8s %10s %10s %14s  %s\n' upgrade containers bytes "$unit" 'containers then'
legal 2048 0 >legal.config && upgraded legal 2048 legal.config
legal 2048 16 >kept.config && upgraded kept 2048 kept.config
exit 0
