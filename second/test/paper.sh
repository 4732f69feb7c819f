#!/bin/sh
# The two tables of PAPER.md: ours are computed; the paper's agree with ours where they bear no
# star, and differ where they do. Usage: paper.sh PROGRAM PAPER
. "$(dirname "$0")/same.sh"
paper=$2

# cells LINE: the cells of a table's line, one a line, blanks trimmed.
cells() {
    printf '%s\n' "$1" | tr '|' '\n' | sed -e 1d -e 's/^ *//' -e 's/ *$//'
}

# beside WHAT PAPER OURS: a dash says nothing, a star says that they differ.
beside() {
    case $2 in
    -) ;;
    *'*') same "$1: differs" yes "$([ "${2%?}" != "$3" ] && echo yes || echo no)" ;;
    *) same "$1: the paper's" "$2" "$3" ;;
    esac
}

# terms NUMBER: the load of that figure, its terms and its report's first line.
terms() {
    "$second" load < "$loads/figure-$1" > "$work/load" || exit 2
    "$second" terms < "$work/load" > "$work/terms"
    "$second" report < "$work/load" | head -n 1 > "$work/line"
}

# computed: costs, phase, embedded waits, sum of W, bound, end and idle, as a line of the table.
computed() {
    cat "$work/terms" "$work/line" | awk '
        $1 == "costs" { costs = $2 }
        $1 == "phase" { phase = $2 }
        $1 == "embedded" { embedded = $2 }
        $1 == "place" { w += $4 }
        $1 == "load" { print "|", costs, "|", phase, "|", embedded, "|", w, "|", $5, "|", $4, "|",
                       $4 - costs, "|" }'
}

# row FIGURE WHOSE: that line's numbers in the first table.
row() {
    sed -n "s/^| $1 | $2 //p" "$paper"
}

for figure in 3 4 5 6 7 8; do
    terms "$figure"
    ours=$(row "$figure" ours)
    same "figure $figure" "$ours" "$(computed)"
    cells "$ours" > "$work/ours"
    cells "$(row "$figure" paper)" > "$work/paper"
    for column in 1 2 3 4 5 6 7; do
        beside "figure $figure, column $column" "$(sed -n "${column}p" "$work/paper")" \
            "$(sed -n "${column}p" "$work/ours")"
    done
    places=$(grep -c '^place' "$work/terms")
    same "figure $figure: places" "$places" \
        "$(grep -c "^| $figure | [0-9] |" "$paper")"
    for place in $(seq "$places"); do
        line=$(row "$figure" "$place")
        ours=$(cells "$line" | sed -n 2p)
        same "figure $figure, place $place" "$ours" \
            "$(sed -n "s/^place $place W [0-9]* row [0-9]* of //p" "$work/terms" | tr - .)"
        beside "figure $figure, place $place" "$(cells "$line" | sed -n 1p)" "$ours"
    done
done

printf 'paper: %d as written down, %d not\n' "$passed" "$failed"
[ "$failed" -eq 0 ]
