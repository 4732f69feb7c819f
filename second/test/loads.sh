#!/bin/sh
# The document's loads to try. Every expected value below is written by hand from its text,
# and only what the text states is compared. Usage: loads.sh PROGRAM
. "$(dirname "$0")/same.sh"

# load NAME: makes the load file of those rows, and its report.
load() {
    name=$1
    "$second" load < "$loads/$name" > "$work/load" || exit 2
    "$second" report < "$work/load" > "$work/report"
    "$second" values < "$work/load" > "$work/values"
}

# report_field FIRST_WORD NUMBER: that field of the report's lines of that kind, on one line.
report_field() {
    awk -v kind="$1" -v field="$2" '$1 == kind { print $field }' "$work/report" | paste -sd' ' -
}

# Lines: load ROWS STEPS END BOUND VERDICT; row ROW ID BOX MARGIN; slot START ROW STEP.
end() { same "$name: end" "$1" "$(report_field load 4)"; }
bound() { same "$name: bound" "$1" "$(report_field load 5)"; }
verdict() { same "$name: verdict" "$1" "$(report_field load 6)"; }
starts() { same "$name: starts" "$1" "$(report_field slot 2)"; }
# slots_from START WANTED: the slots from that start on, as START,ROW.
slots_from() {
    same "$name: slots from $1" "$2" "$(awk -v from="$1" \
        '$1 == "slot" && $2 >= from { print $2 "," $3 }' "$work/report" | paste -sd' ' -)"
}
margins() { same "$name: margins" "$1" "$(report_field row 5)"; }
row_bounds() {
    same "$name: row bounds" "$1" \
        "$(awk '$1 == "row" && $3 == "bound" { print $4 }' "$work/values" | paste -sd' ' -)"
}
refused() { same "$name: report" "refused $1" "$(cat "$work/report")"; }
# Passing is stated, not what is printed.
passes() { same "$name: passes" load "$(cut -d' ' -f1 "$work/report" | head -n 1)"; }
first_move() {
    same "$name: first move" "$1" \
        "$("$second" move "$work/load" < /dev/null | awk 'NR == 1 { print $2 }')"
}

load a
# Exactly this, the last line feed too: the dot keeps it from being dropped.
same 'A: as printed' 'load 3 6 15 19 no
row 1 101 201 1
row 2 102 202 0
row 3 103 203 -1
slot 0 1 1
slot 2 2 1
slot 3 3 1
slot 7 2 2
slot 9 3 2
slot 12 1 2
.' "$(cat "$work/report" && echo .)"

load b
bound 15
starts '0 2 6 8 11'
slots_from 6 '6,1 8,3 11,3'
end 12

load b-limit-9
slots_from 5 '5,3 7,1 9,3'
end 10

load b-limit-7
refused 7

load phase-5-deadline-8
starts 5
bound 8
margins 0

load phase-5-deadline-7
starts 5
bound 8
margins -1

load short-and-long
row_bounds '3 11'
starts '0 1 9'
end 11

load no-waits
starts '0 1 2 3'
bound 4

load no-rows
bound 0
first_move done
verdict yes

load one-identifier
refused 4

load one-identifier-one-box
refused 4

load cost-0
refused 3

load cost-601
refused 3

load wait-3600
passes

load wait-3601
refused 3

load 24-rows
passes

load 25-rows
refused 3

printf 'loads: %d as the document states, %d not\n' "$passed" "$failed"
[ "$failed" -eq 0 ]
