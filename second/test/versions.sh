#!/bin/sh
# Load files of version 2 by the program's commands, and the notation for class and head. Expected
# lines are written by hand. Usage: versions.sh PROGRAM
. "$(dirname "$0")/same.sh"

hex() { od -An -v -tx1 | tr -d ' \n'; }

# made NAME OPTION LINE...: a load file of these lines, with -2 or, where that is empty, without.
made() {
    name=$1 option=$2
    shift 2
    printf '%s\n' "$@" | "$second" load $option > "$work/$name"
}

# told WHAT LINE OPTION TEXT...: nothing is written, the line's number is told, the status is 2.
told() {
    what=$1 line=$2 option=$3
    shift 3
    printf '%s\n' "$@" | "$second" load $option > "$work/out" 2> "$work/told"
    same "$what" "2 second: line $line is not a row in the notation 0" \
        "$? $(cat "$work/told") $(($(wc -c < "$work/out")))"
}

# written WHAT OPTION LINE CLASS HEAD: a row so written has these two bytes, in hex.
written() {
    made row "$2" "$3"
    same "$1" "$4" "$(hex < "$work/row" | cut -c 49-52)"
}

made a '' '101 201 0 20 : 2 w10 3' '102 202 0 19 : 1 w4 2' '103 203 0 18 : 2 w3 1'
made a2 -2 '101 201 0 20 : 2 w10 3' '102 202 0 19 : 1 w4 2' '103 203 0 18 : 2 w3 1'
same 'A in version 2' 4c440203\
525765000000c9000000000000001400000002000001535402000a00535403000000\
525766000000ca000000000000001300000002000001535401000400535402000000\
525767000000cb000000000000001200000002000001535402000300535401000000454e0600 \
    "$(hex < "$work/a2")"
same 'no rows in version 2' 4c440200454e0000 "$("$second" load -2 < /dev/null | hex)"
same "A's records in version 2" '4C 44 02 03
52 57 65 00 00 00 C9 00 00 00 00 00 00 00 14 00 00 00 02 00 00 01
53 54 02 00 0A 00' "$("$second" values < "$work/a2" | head -n 3)"

# Whatever is asked of a file, without classes the version is not seen.
for rows in "$loads"/*; do
    "$second" load < "$rows" > "$work/one"
    "$second" load -2 < "$rows" > "$work/two"
    for command in report blame terms schedule sheet-of-load; do
        same "$command of ${rows##*/}" "$("$second" $command < "$work/one" 2>&1 | hex)" \
            "$("$second" $command < "$work/two" 2>&1 | hex)"
    done
    same "values of ${rows##*/}" "$("$second" values < "$work/one" | sed '1,/^$/d')" \
        "$("$second" values < "$work/two" | sed '1,/^$/d')"
    same "answers to ${rows##*/}" "$("$second" answers "$work/one")" \
        "$("$second" answers "$work/two")"
done
"$second" report < "$work/a2" > "$work/report"
same "A's own slots pass" 0 "$("$second" check "$work/a2" < "$work/report")"
same 'first move of A' "$("$second" move "$work/a" < /dev/null)" \
    "$("$second" move "$work/a2" < /dev/null)"

# The longest file, and a byte more.
{
    for row in $(seq 24); do
        printf '%d %d 0 1000000 : 1 1 1 1 1 1 1 1 : 1-2<=9 3-4<=9 5-6<=9 7-8<=9 : %d 1\n' \
            "$row" "$row" $((row % 4))
    done
} | "$second" load -2 > "$work/longest"
same 'the longest file' 2264 "$(($(wc -c < "$work/longest")))"
same 'is accepted' 'load 24 192' "$("$second" report < "$work/longest" | head -n 1 | cut -c 1-11)"
same 'and with a byte more' 'refused 8' "$({ cat "$work/longest"; printf 0; } | "$second" report)"

# The third part: class and head, which are 0 and 1 where it is left out.
written 'left out' -2 '1 2 0 9 : 1 w1 1' 0001
written 'left out, with a window' -2 '1 2 0 9 : 1 w1 1 : 1-2<=9' 0001
written 'without windows' -2 '1 2 0 9 : 1 w1 1 : : 3 1' 0301
written 'with a window' -2 '1 2 0 9 : 1 w1 1 : 1-2<=9 : 2 1' 0201
written 'blanks do not matter' -2 '1 2 0 9:1 w1 1:1-2<=9:2 1 ' 0201
written 'unchecked' -2 '1 2 0 9 : 1 w1 1 : : 255 0' ff00
written 'class 0 and head 1 in version 1' '' '1 2 0 9 : 1 w1 1 : : 0 1' 5354

told 'no class in version 1' 2 '' '1 2 0 9 : 1' '3 4 0 9 : 1 : : 1 1'
told 'no head in version 1' 1 '' '1 2 0 9 : 1 : : 0 2'
told 'nothing behind the third colon' 1 -2 '1 2 0 9 : 1 : :'
told 'a class alone' 3 -2 '1 2 0 9 : 1' '' '3 4 0 9 : 1 : : 1'
told 'a third number' 1 -2 '1 2 0 9 : 1 : : 1 1 1'
told 'a fourth colon' 1 -2 '1 2 0 9 : 1 : : 1 1 :'
told 'a class beyond a byte' 1 -2 '1 2 0 9 : 1 : : 256 1'
told 'a head beyond a byte' 1 -2 '1 2 0 9 : 1 : : 0 256'
same 'another version' 2 "$("$second" load -3 < /dev/null > "$work/out" 2>&1; echo $?)"
same 'a word too many' 2 "$("$second" load -2 -2 < /dev/null > "$work/out" 2>&1; echo $?)"

# What is out of range is refused, and what has a class has no sheet.
for numbers in '4 1' '255 1' '0 0' '0 2' '3 255'; do
    made faulty -2 '101 201 0 20 : 2 w10 3' "102 202 0 19 : 1 w4 2 : : $numbers"
    same "class and head $numbers" 'refused 3' "$("$second" report < "$work/faulty")"
done
made urgent -2 '101 201 0 20 : 2 w10 3' '102 202 0 19 : 1 w4 2' '103 203 0 18 : 2 w3 1 : : 3 1'
same 'a sheet with a class' '1 refused 22 ' \
    "$("$second" sheet-of-load < "$work/urgent" > "$work/out" 2> "$work/told"
    echo "$? $(cat "$work/told") $(hex < "$work/out")")"

# Who goes first: A with classes 0, 0 and 3, three rows of classes 0, 1 and 3, and a second step of
# class 3 behind a first of class 0. No line says class or head.
same 'A with classes 0 0 3' 'load 3 6 17 19 no
row 1 101 201 1
row 2 102 202 0
row 3 103 203 -1
slot 0 3 1
slot 2 1 1
slot 4 2 1
slot 5 3 2
slot 9 2 2
slot 14 1 2
.' "$("$second" report < "$work/urgent" && echo .)"
same 'its blames' 'row 1 101 201 1 1 1
row 2 102 202 0 1 1
row 3 103 203 -1 1 1' "$("$second" blame < "$work/urgent" | grep '^row')"
made three -2 '101 201 0 9 : 1 1 : : 0 1' '102 202 0 9 : 1 1 : : 1 1' '103 203 0 9 : 1 1 : : 3 1'
same 'classes 0 1 3' '0,3,1 1,2,1 2,1,1 3,3,2 4,2,2 5,1,2' \
    "$("$second" answers "$work/three" | sed 's/.* slots //')"
made step -2 '101 201 0 9 : 1 1 : 1-2<=20 : 3 1' '102 202 0 9 : 5'
same 'the step number first' '0,1,1 1,2,1 6,1,2' \
    "$("$second" answers "$work/step" | sed 's/.* slots //')"

printf 'versions: %d as expected, %d not\n' "$passed" "$failed"
[ "$failed" -eq 0 ]
