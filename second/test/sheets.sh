#!/bin/sh
# Load files turned into route sheets and back, by the two commands; what they refuse; and every
# sheet of examples/. Usage: sheets.sh PROGRAM EXAMPLES
. "$(dirname "$0")/same.sh"
examples=$2

# lines TEXT...: the texts as lines of a sheet.
lines() { printf '%s\r\n' "$@"; }

# turned COMMAND INPUT: the exit status, what is said on standard error, and the output in hex.
turned() {
    "$second" "$1" < "$2" > "$work/out" 2> "$work/told"
    printf '%d %s %s' $? "$(cat "$work/told")" "$(hex < "$work/out")"
}
hex() { od -An -v -tx1 | tr -d ' \n'; }

# turns LOAD SHEET: each is turned into the other, byte for byte.
turns() {
    same "${2##*/} of ${1##*/}" "0  $(hex < "$2")" "$(turned sheet-of-load "$1")"
    same "${1##*/} of ${2##*/}" "0  $(hex < "$1")" "$(turned load-of-sheet "$2")"
}

# refused NUMBER COMMAND INPUT: nothing is written, and the number is told.
refused() { same "$2 of ${3##*/}" "1 refused $1 " "$(turned "$2" "$3")"; }

lines 101,201,0,1000000,2,4,8 101,201,0,1000000,2,0,- 102,202,0,1000000,3,0, \
    103,203,0,1000000,2,1,6 103,203,0,1000000,1,0,- > "$work/b.csv"
lines 101,201,0,20,2,10, 101,201,0,20,3,0, 102,202,0,19,1,4, 102,202,0,19,2,0, \
    103,203,0,18,2,3, 103,203,0,18,1,0, > "$work/a.csv"
: > "$work/no-rows.csv"
for name in a b no-rows; do
    "$second" load < "$loads/$name" > "$work/$name"
    turns "$work/$name" "$work/$name.csv"
done
same "B's sheet has 124 bytes" 124 "$(($(wc -c < "$work/b.csv")))"
same "A's sheet has 115 bytes" 115 "$(($(wc -c < "$work/a.csv")))"
same "README's rack" "$(lines 4711,12,0,3600,40,600,700 4711,12,0,3600,40,600,- \
    4711,12,0,3600,25,0, 4712,31,0,3600,40,600, 4712,31,0,3600,40,0, 4720,7,60,1500,90,0,)" \
    "$("$second" load < "$(dirname "$0")/../rack.txt" | "$second" sheet-of-load)"

# Every load file of the document's loads that is refused has no sheet either, and the same number.
for rows in "$loads"/*; do
    "$second" load < "$rows" > "$work/load"
    number=$("$second" report < "$work/load" | sed -n 's/^refused //p')
    if [ -n "$number" ]; then
        refused "$number" sheet-of-load "$work/load"
    else
        "$second" sheet-of-load < "$work/load" > "$work/load.csv"
        turns "$work/load" "$work/load.csv"
    fi
done
refused 1 sheet-of-load /dev/null
echo '4294967295 201 0 1000000 : 1' | "$second" load > "$work/factory"
refused 21 sheet-of-load "$work/factory"
{ cat "$work/a"; head -c 100000 /dev/zero; } > "$work/long"
refused 8 sheet-of-load "$work/long"
sed '1s/,8/,7/' "$work/b.csv" > "$work/limit-7"
refused 7 load-of-sheet "$work/limit-7"
tr -d '\r' < "$work/b.csv" > "$work/line-feeds"
refused 18 load-of-sheet "$work/line-feeds"
refused 18 load-of-sheet "$work/b"

# 65,536 bytes are read, and one more is told.
head -c 65536 /dev/zero > "$work/zeros"
refused 18 load-of-sheet "$work/zeros"
printf 0 >> "$work/zeros"
same 'a longer sheet' '2 second: the sheet has more than 65,536 bytes ' \
    "$(turned load-of-sheet "$work/zeros")"

# More rows than there are places for, all well formed, and then a dash: 3 gives way to it.
lines $(seq 1000 | sed 's/.*/&,&,0,9,1,0,/') > "$work/rows"
refused 3 load-of-sheet "$work/rows"
lines 1001,1001,0,9,1,0,- >> "$work/rows"
refused 20 load-of-sheet "$work/rows"
# And more steps than a byte counts.
lines $(seq 300 | sed 's/.*/1,1,0,9,1,0,/') > "$work/steps"
refused 3 load-of-sheet "$work/steps"

# An accepted sheet of examples/ stands there with its load file, a refused one with its line.
for sheet in "$examples"/*.csv; do
    if [ -e "${sheet%.csv}.refused" ]; then
        refused "$(sed -n 's/^refused //p' "${sheet%.csv}.refused")" load-of-sheet "$sheet"
    else
        turns "${sheet%.csv}.load" "$sheet"
    fi
done

printf 'sheets: %d as expected, %d not\n' "$passed" "$failed"
[ "$failed" -eq 0 ]
