#!/bin/sh
# The program's commands on load A and on inputs that are no load. Expected lines are written by
# hand. Usage: program.sh PROGRAM
. "$(dirname "$0")/same.sh"

# fails WHAT COMMAND...: the command ends with 2 and prints nothing to standard output.
fails() {
    what=$1
    shift
    found=$("$@" 2> /dev/null)
    same "$what" "2 " "$? $found"
}

"$second" load < /dev/null > "$work/none"
"$second" load > "$work/a" <<'ROWS'
# Load A, with an empty line and no second colon.

101 201 0 20 : 2 w10 3
102 202 0 19 : 1 w4 2 :
103 203 0 18:2 w3 1
ROWS

# Costs 275, phase 60, embedded wait 600, and free waits of 600 at places 1 and 2 that nothing fills.
same "README's rack" 'load 3 6 1305 2135 yes
row 1 4711 12 1465
row 2 4712 31 2090
row 3 4720 7 630
slot 0 1 1
slot 40 2 1
slot 80 3 1
slot 640 1 2
slot 680 2 2
slot 1280 1 3' "$("$second" load < "$(dirname "$0")/../rack.txt" | "$second" report)"

same "A's blames" 'load 3 6 15 19 no
row 1 101 201 1 1 1
row 2 102 202 0 1 1
row 3 103 203 -1 1 1
slot 0 1 1
slot 2 2 1
slot 3 3 1
slot 7 2 2
slot 9 3 2
slot 12 1 2
.' "$("$second" blame < "$work/a" && echo .)"

# Where the cut decides: rows of 2, 4 and 1 steps.
"$second" load > "$work/cut" <<'ROWS'
101 201 0 1000000 : 1 w4 1
102 202 0 1000000 : 1 w2 1 w3 1 w20 1
103 203 0 1000000 : 3
ROWS
same 'blames by the cut' 'row 1 101 201 999990 1 1
row 2 102 202 999965 3 2
row 3 103 203 999995 0 0' "$("$second" blame < "$work/cut" | grep '^row')"
same 'terms with their rows' 'costs 9
phase 0
embedded 0
place 1 W 3 row 1 of 3 1 -
place 2 W 3 row 2 of - 3 -
place 3 W 20 row 2 of - 20 -' "$("$second" terms < "$work/cut")"

# Without their last two numbers the row lines are the report's, and so are all other lines.
for load in "$loads"/*; do
    "$second" load < "$load" > "$work/load"
    same "blame and report: ${load##*/}" "$("$second" report < "$work/load")" \
        "$("$second" blame < "$work/load" | sed '/^row / s/ [0-7] [0-9]*$//')"
done

# An output that takes nothing is told in a line, and by the exit status.
told=$("$second" report < "$work/a" 2>&1 > /dev/full)
same 'a full output' '2 second: standard output: No space left on device' "$? $told"

same 'empty input' 'refused 1' "$("$second" report < /dev/null)"
same 'a byte follows' 'refused 8' "$({ cat "$work/a"; printf '\0'; } | "$second" report)"
same 'much follows' 'refused 8' \
    "$({ cat "$work/a"; head -c 100000 /dev/zero; } | "$second" report)"
same 'no load at all' 'refused 2' "$(head -c 100000 /dev/zero | "$second" report)"
same 'no rows' 'load 0 0 0 0 yes' "$("$second" report < "$work/none")"

same 'blames of a refused file' 'refused 1' "$("$second" blame < /dev/null)"
same 'blames of no rows' 'load 0 0 0 0 yes' "$("$second" blame < "$work/none")"
same "A's terms" 'costs 11
phase 0
embedded 0
place 1 W 8 row 1 of 8 1 0' "$("$second" terms < "$work/a")"
same 'terms of no load' 'refused 1' "$("$second" terms < /dev/null)"
same 'VALUES.md is as made' '' "$(sh "$(dirname "$0")/values.sh" "$second" \
    | diff - "$(dirname "$0")/../VALUES.md")"

printf 'LD' > "$work/short"
same 'answers, in the order of the files' \
    '0 bound 0 verdict yes margins end 0 slots
1
0 bound 19 verdict no margins 1 0 -1 end 15 slots 0,1,1 2,2,1 3,3,1 7,2,2 9,3,2 12,1,2' \
    "$("$second" answers "$work/none" "$work/short" "$work/a")"

# Mark 53 43 and count 6; then mark 53 4C, row, step, start.
same "A's schedule file" \
    '53430600534c010100000000534c020102000000534c030103000000534c020207000000534c030209000000'\
'534c01020c000000' \
    "$("$second" schedule < "$work/a" | od -An -v -tx1 | tr -d ' \n')"

"$second" report < "$work/a" > "$work/report"
same "A's own slots pass" 0 "$("$second" check "$work/a" < "$work/report")"
same 'one slot less' 12 "$(sed '$d' "$work/report" | "$second" check "$work/a")"
same 'wait counted from the start' 15 \
    "$(sed 's/^slot 7 /slot 6 /' "$work/report" | "$second" check "$work/a")"

same 'first move of A' '0 start 0 1 1 lamps 0 0' \
    "$("$second" move "$work/a" < /dev/null | head -n 1)"
same 'all finished' '0 done lamps 0 0' \
    "$(echo 15 2 15 0 2 9 0 2 10 0 | "$second" move "$work/a" | head -n 1)"
same 'no shape' '10 refused lamps 0 0' \
    "$(echo 15 2 16 0 2 9 0 2 10 0 | "$second" move "$work/a" | head -n 1)"
same 'clock full' '11 refused lamps 0 0' \
    "$(echo 1000000 2 15 0 2 9 0 1 5 0 | "$second" move "$work/a" | head -n 1)"

# The factory identifier, alone in a file that is good besides.
echo '4294967295 201 0 1000000 : 1' | "$second" load > "$work/factory"
same 'its file' 4c4401015257ffffffffc90000000000000040420f000100535401000000454e0100 \
    "$(od -An -v -tx1 "$work/factory" | tr -d ' \n')"
same 'its report' 'refused 21' "$("$second" report < "$work/factory")"
same 'its blames' 'refused 21' "$("$second" blame < "$work/factory")"
same 'its terms' 'refused 21' "$("$second" terms < "$work/factory")"
same 'its answers' 21 "$("$second" answers "$work/factory")"
same 'its check, with no slot' 21 "$("$second" check "$work/factory" < /dev/null)"
same 'its move, from no shape' '21 refused lamps 0 0' \
    "$(echo 1000001 | "$second" move "$work/factory" | head -n 1)"
fails 'its schedule' "$second" schedule < "$work/factory"

echo '101 201 0 : 1' > "$work/fault"
fails 'a row without deadline' "$second" load < "$work/fault"
echo '101 201 0 9 : 65536' > "$work/fault"
fails 'a cost beyond two bytes' "$second" load < "$work/fault"
echo '101 201 0 9 : 1 : 1-2' > "$work/fault"
fails 'a window without limit' "$second" load < "$work/fault"
fails 'no such file' "$second" answers "$work/nothing"
fails 'no command' "$second"

printf 'program: %d as expected, %d not\n' "$passed" "$failed"
[ "$failed" -eq 0 ]
