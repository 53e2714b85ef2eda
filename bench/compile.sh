#!/usr/bin/env bash
# Times `domino compile pairs-large` on programs of 64 to 512 statements, start-up included: statements without state in
# 64 chains, which compile; one class of statements, which is outside; and for 512 statements one chain, which is too deep;
# then a chain of `else if` with 3,850 assignments, which has too many statements. It reports and judges nothing: it
# always ends with status 0.
# bench/common.sh says what it wants and which variables it heeds.
set -u
. "$(dirname "${BASH_SOURCE[0]}")/common.sh" 9

# row NAME STATEMENTS PROGRAM
row() {
    local out
    out="$("$program" compile pairs-large "$3" 2>&1)"
    printf '%-10s %10s %14s  %.40s\n' "$1" "$2" "$(taken compile pairs-large "$3")" "${out%%$'\n'*}"
}

printf '%-10s %10s %14s  %s\n' program statements "$unit" 'first line'
for count in 64 128 256 512; do
    loose_program "$count" >loose.dom && row loose "$count" loose.dom
done
for count in 64 128 256 512; do
    class_program "$count" >class.dom && row class "$count" class.dom
done
chain_program 512 >chain512.dom && row chain 512 chain512.dom
choices_program 3850 >choices.dom && row choices 3850 choices.dom
exit 0
