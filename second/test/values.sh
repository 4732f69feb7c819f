#!/bin/sh
# Prints VALUES.md: the document's loads marked P, laid open. What the document states is
# written by hand here; the rest is what the program gives. Usage: values.sh PROGRAM
second=$1
loads=$(dirname "$0")/loads
work=$(mktemp -d) || exit 2
trap 'rm -rf "$work"' EXIT

# sheet: the load's route sheet, where it has one. CR is left out, since a page has none.
sheet() {
    "$second" sheet-of-load < "$work/load" > "$work/sheet" 2> /dev/null || return 0
    printf 'Sheet, %d bytes' $(($(wc -c < "$work/sheet")))
    if [ -s "$work/sheet" ]; then
        printf ' with CR LF at the end of each line:\n\n```\n'
        tr -d '\r' < "$work/sheet"
        printf '```\n\n'
    else
        printf '.\n\n'
    fi
}

# part HEADING STATED NAME
part() {
    grep -v '^#' "$loads/$3" > "$work/rows"
    "$second" load < "$work/rows" > "$work/load" || exit 2
    "$second" values < "$work/load" > "$work/values"
    printf '\n## %s\n\n' "$1"
    if [ -s "$work/rows" ]; then
        printf 'Rows:\n\n```\n'
        cat "$work/rows"
        printf '```\n\n'
    fi
    printf 'File, one record a line:\n\n```\n'
    sed '/^$/,$d' "$work/values"
    printf '```\n\n'
    sheet
    printf 'Computed:\n\n```\n'
    sed '1,/^$/d' "$work/values"
    printf '```\n\nReport:\n\n```\n'
    "$second" report < "$work/load"
    printf '```\n\nStated by the document:\n%s\n' "$2"
}

cat <<'TEXT'
# Document 01's loads marked P, value by value

Made by `make VALUES.md`. Rows are in the notation of `second load`:
`ID BOX PHASE DEADLINE : COST wWAIT COST ... : FIRST-LAST<=LIMIT ...`. All are of class 0 and
head 1, and their files are of version 1.

Under each load, "Stated by the document" lists the values that its text gives, and `make test`
compares those. Everything else there was computed by this program alone: the bytes (which follow
the document's record table), the sheets (which follow request 2026-02), row bounds, margins,
verdicts, slots and ends not listed as stated. A refused file has a refusal number and nothing
more. Slots are `start`, `row`, `step`, in order.
TEXT

part 'A' \
'the whole report (so rows, steps, end 15, bound 19, verdict no, margins
1, 0, -1, and all six slots). Row bounds 19, 19, 19 are not printed there; they follow from the
deadlines and margins.' a

part 'B' \
'bound 15; starts 0 and 2 (their rows are not named), then row 1 at 6, row 3 at 8 and 11;
end 12. Only computed: row bounds, margins, verdict, rows of the first two slots, all step
numbers.' b

part 'B with limit 9' \
'row 3 at 5, row 1 at 7, row 3 at 9; end 10. Only computed: bound, row bounds,
margins, verdict, the first two slots, step numbers.' b-limit-9

part 'B with limit 7' \
'refusal 7.' b-limit-7

part 'One row, phase 5, cost 3, deadline 8' \
'start 5, bound 8, margin 0. Only computed: row bound
(8, as deadline less margin), verdict, end.' phase-5-deadline-8

part 'One row, phase 5, cost 3, deadline 7' \
'start 5, bound 8, margin -1. Only computed: row bound
(8, as deadline less margin), verdict, end.' phase-5-deadline-7

part '1 / 2 w6 2' \
'row bounds 3 and 11; starts 0, 1, 9; end 11. Only computed: bound, margins,
verdict, rows and steps of the slots.' short-and-long

part '1 w0 1 / 1 w0 1' \
'starts 0, 1, 2, 3; bound 4. Only computed: row bounds, margins, verdict, rows
and steps of the slots, end.' no-waits

part 'No rows' \
'bound 0, Done at once (the first move from fresh is Done), verdict yes. End 0 is stated
with the report ("0 if none"). There are no rows and no slots to list.' no-rows

part 'Two rows with one identifier, boxes different' \
'refusal 4.' one-identifier

part 'Two rows with one identifier and one box' \
'refusal 4. The steps of these two loads are not
stated; one step of cost 1 was taken. With the refusal at the second row record they do not
matter.' one-identifier-one-box
