#!/bin/sh
# Skipping over idle ticks to the next release gives other slots for test/loads/blind-skip, and a
# search finds no smaller load of its form. Both lists are worked by hand.
# Usage: blind_skip.sh PROGRAM BLIND_SKIP
. "$(dirname "$0")/same.sh"
blind_skip=$2

"$second" load < "$loads/blind-skip" > "$work/load" || exit 2
same 'tick by tick' 'slot 0 1 1
slot 2 2 1
slot 3 1 2
slot 4 2 2' "$("$second" report < "$work/load" | grep slot)"
same 'skipping to the next release' 'slot 0 1 1
slot 3 1 2
slot 4 2 1
slot 5 2 2' "$("$blind_skip" < "$work/load")"
same 'found by search' "$(sed -n 's/^10.*0 1000000 : //p' "$loads/blind-skip")" \
    "$("$blind_skip" search)"

printf 'blind skip: %d as expected, %d not\n' "$passed" "$failed"
[ "$failed" -eq 0 ]
