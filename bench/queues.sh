#!/usr/bin/env bash
# Times `domino elastic` on 250,000 to 1,000,000 events, drawn alike, and in rounds of an enter, a fire of each stage and a
# leave; and `domino schedule` on 15,000 to 60,000 packets that a queue of 65,536 ranks: ranks as they come, falling, and all
# alike. A packet comes in each cycle and is served in every second one. The goals are a second for 1,000,000 events and 0.3
# seconds for 60,000 packets. It reports and judges nothing: it always ends with status 0.
# bench/common.sh says what it wants and which variables it heeds.
set -u
. "$(dirname "${BASH_SOURCE[0]}")/common.sh" 5

# drawn EVENTS DEPTH: events, each of the DEPTH + 2 kinds as likely
drawn() {
    awk -v events="$1" -v depth="$2" 'BEGIN {
        number = 12345
        for (k = 0; k < events; k++) {
            number = number * 16807 % 2147483647
            kind = number % (depth + 2)
            print kind == 0 ? "enter" : kind == depth + 1 ? "leave" : "fire," kind
        }
    }'
}

# in_rounds EVENTS DEPTH: a packet after another goes through all stages
in_rounds() {
    awk -v events="$1" -v depth="$2" 'BEGIN {
        for (k = 0; k < events; k++) {
            kind = k % (depth + 2)
            print kind == 0 ? "enter" : kind == depth + 1 ? "leave" : "fire," kind
        }
    }'
}

# ranked PACKETS HOW: a trace of them
ranked() {
    awk -v packets="$1" -v how="$2" 'BEGIN {
        print "gap,x"
        number = 12345
        for (k = 0; k < packets; k++) {
            number = number * 16807 % 2147483647
            print "0," (how == "drawn" ? number % 1000003 : how == "falling" ? packets - k : 7)
        }
    }'
}

# row COMMAND WHAT COUNT WORD..
row() {
    printf '%-10s %-18s %10s %14s\n' "$1" "$2" "$3" "$(taken "${@:4}")"
}

printf '%-10s %-18s %10s %14s\n' command what count "$unit"
"$program" compile praw-medium "$top/examples/flowlet.dom" >flowlet.conf
"$program" compile raw-small "$top/examples/acc.dom" >acc.conf
{ echo gap,sport,dport,arrival; seq 1 100000 | sed 's/.*/0,&,80,&/'; } >flow.csv
for events in 250000 500000 1000000; do
    drawn "$events" 12 >events.txt
    row elastic 'drawn, 12 stages' "$events" elastic flowlet.conf flow.csv events.txt
    in_rounds "$events" 12 >events.txt
    row elastic 'rounds, 12 stages' "$events" elastic flowlet.conf flow.csv events.txt
done
for packets in 15000 30000 60000; do
    for how in drawn falling alike; do
        ranked "$packets" "$how" >ranked.csv
        row schedule "ranks $how" "$packets" schedule acc.conf ranked.csv x 65536 2
    done
done
rm -f events.txt ranked.csv flow.csv
exit 0
