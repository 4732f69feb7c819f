#!/bin/sh
# Single questions, as trials.h has them: a bad one ends it; those of a load without rows, or with
# one place of it altered, are answered as is written here.
# Usage: questions.sh PROGRAM
. "$(dirname "$0")/same.sh"
rows=$(printf ' 0:0:0%.0s' $(seq 24))
places="waits$(printf ' 0:0%.0s' $(seq 7)) blames$(printf ' 0:0%.0s' $(seq 24))"

# bad WHAT ANSWERS BYTES: the bytes, in printf's notation, are answered so.
bad() {
    same "bad question: $1" "$2bad" "$(printf "$3" | "$second" answer-trials)"
}

# empty WHAT ANSWER BYTES ZEROS MORE: the bytes, so many zeros, and more bytes are answered so; the
# zeros hold the load without rows, which has 1,633 of them.
empty() {
    same "no rows: $1" "$2" \
        "$({ printf "$3"; head -c "$4" /dev/zero; printf "$5"; } | "$second" answer-trials)"
}

# zeros COUNT: so many zeros in printf's notation.
zeros() { printf '\\0%.0s' $(seq "$1"); }

bad 'another letter' '' 'X'
bad 'a letter in lower case' '' 'f\0\0'
bad 'after a good one' 'refused 1
.
' 'F\0\0\n'
bad 'F, no length' '' 'F'
bad 'F, half a length' '' 'F\0'
bad 'F, length 4,097' '' 'F\001\020'
bad 'F, file cut short' '' 'F\004\0LD\001'
bad 'B, no length' '' 'B'
bad 'B, length 4,097' '' 'B\001\020'
bad 'B, file cut short' '' 'B\004\0LD\001'
bad 'B, after a good one' 'refused 1
.
' 'B\0\0b\0\0'
bad 'P, half a length' '' 'P\0'
bad 'P, length 4,097' '' 'P\001\020'
bad 'P, file cut short' '' 'P\010\0LD\001\0EN\0'
bad 'P, after a good one' 'refused 1
' 'P\0\0X'
bad 'p, nothing' '' 'p'
bad 'p, no row' '' 'p\0'
bad 'M, no clock' '' 'M\0\0'
bad 'C, no count' '' 'C\0\0'
bad 'C, count 257' '' 'C\0\0\001\001'
bad 'C, slots cut short' '' 'C\0\0\001\0\001\001\0\0\0'
bad 'W, no row' '' 'W\0'
bad 'S, count 257' '' 'S\001\001'
bad 'N, no row' '' 'N\0'
bad 'D, no row' '' 'D\0'
bad 'w, half a room' '' 'w\0'
bad 'w, room 4,097' '' 'w\001\020'
bad 'w, no row' '' 'w\010\0\0'
bad 'V, nothing' '' 'V'
bad 'V, no row' '' 'V\0'
bad 'v, half a room' '' 'v\0'
bad 'v, room 4,097' '' 'v\001\020'
bad 'v, no row' '' 'v\010\0\0'
bad 's, room 4,097' '' 's\001\020\0\0'
bad 's, no count' '' 's\004\0'
bad 's, count 257' '' 's\004\0\001\001'
bad 's, slots cut short' '' 's\024\0\001\0\001\001\0\0\0'
bad 'R, no length' '' 'R'
bad 'R, half a length' '' 'R\0'
bad 'R, length 16,385' '' 'R\001\100'
bad 'R, sheet cut short' '' 'R\002\0\r'
bad 'R, in lower case' '' 'r\0\0'
bad 'R, after a good one' 'sheet 0 4c440100454e0000
' 'R\0\0R'
bad 'E, nothing' '' 'E'
bad 'E, no row' '' 'E\0'
bad 'e, half a room' '' 'e\0'
bad 'e, room 10,241' '' 'e\001\050'
bad 'e, no row' '' 'e\010\0\0'
empty 'W, a byte too few' bad W 1632 ''
empty 'N, no state' bad N 1633 ''
empty 'N, a state cut short' bad N 1852 ''
empty 'N, fresh' "done lamps 0 count 0 clock 0$rows" N 1853 ''
empty 'N, a clock of 255' "done lamps 0 count 0 clock 255$rows" N 1633 "\\377$(zeros 219)"
empty 'N, 25 rows' "refused 3 lamps 0 count 0 clock 0$rows" 'N\031' 1852 ''
empty 'D, no count' bad D 1633 ''
empty 'D, no slots' 'check 0' D 1635 ''
empty 'D, one slot' 'check 12' D 1633 '\001\0\0\0\0\0\0\0'
empty 'D, count 257' bad D 1633 '\001\001'
empty 'D, 25 rows, one slot' 'check 3' 'D\031' 1632 '\001\0\0\0\0\0\0\0'
empty 'p, a byte too few' bad p 1632 ''
empty 'p, no rows' "$places margins$(printf ' 0%.0s' $(seq 24))" p 1633 ''
empty 'p, 25 rows' 'refused 3' 'p\031' 1632 ''
empty 'p, one row, and it is not there' 'refused 3' 'p\001' 1632 ''
empty 'p, row 24 not zero' 'refused 3' p 1632 '\001'
empty 'p, after a good one' 'refused 3
bad' 'p\031' 1632 'p'
empty 'w, room 0' 'load 9' 'w\0\0' 1633 ''
empty 'w, room 7' 'load 9' 'w\007\0' 1633 ''
empty 'w, room 8' 'load 0 4c440100454e0000' 'w\010\0' 1633 ''
empty 'w, room 10' 'load 0 4c440100454e0000a5a5' 'w\012\0' 1633 ''
empty 'w, 25 rows, room 0' 'load 3' 'w\0\0\031' 1632 ''
empty 'V, a byte too few' bad V 1632 ''
empty 'V, no rows' 'load2 0 4c440200454e0000' V 1633 ''
empty 'V, 25 rows' 'load2 3' 'V\031' 1632 ''
empty 'V, after a good one' 'load2 0 4c440200454e0000
bad' V 1633 V
empty 'v, a byte too few' bad 'v\0\0' 1632 ''
empty 'v, room 7' 'load2 9' 'v\007\0' 1633 ''
empty 'v, room 8' 'load2 0 4c440200454e0000' 'v\010\0' 1633 ''
empty 'v, room 10' 'load2 0 4c440200454e0000a5a5' 'v\012\0' 1633 ''
empty 'v, 25 rows, room 0' 'load2 3' 'v\0\0\031' 1632 ''
empty 's, room 3' 'schedule 9' 's\003\0' 2 ''
empty 's, room 4' 'schedule 0 53430000' 's\004\0' 2 ''
empty 's, room 6' 'schedule 0 53430000a5a5' 's\006\0' 2 ''
empty 's, 193 slots, room 0' 'schedule 3' 's\0\0\301\0' 1158 ''
empty 'E, a byte too few' bad E 1632 ''
empty 'E, no rows' 'export 0 ' E 1633 ''
empty 'E, 25 rows' 'export 3' 'E\031' 1632 ''
empty 'E, one row, and it is not there' 'export 3' 'E\001' 1632 ''
empty 'E, row 24 not zero' 'export 3' E 1632 '\001'
empty 'E, after a good one' "export 0 $(printf '\nbad')" E 1633 E
empty 'e, a byte too few' bad 'e\0\0' 1632 ''
empty 'e, room 0' 'export 0 0 ' 'e\0\0' 1633 ''
empty 'e, room 2' 'export 0 0 a5a5' 'e\002\0' 1633 ''
empty 'e, 25 rows, room 0' 'export 3 0 ' 'e\0\0\031' 1632 ''
empty 'e, 25 rows, room 2' 'export 3 0 a5a5' 'e\002\0\031' 1632 ''
empty 'e, room 10,240' "export 0 0 $(printf 'a5%.0s' $(seq 10240))" 'e\0\050' 1633 ''

# Row 1 is 2 in box 3, phase 4, deadline 5, one step of cost 6; the load has one row.
one_row='\001\002\0\0\0\003\0\0\0\004\0\0\0\005\0\0\0\001\0\0\001\006\0'
line=322c332c342c352c362c302c0d0a
rest=1610
empty 'E, one line' "export 0 $line" "E$one_row" $rest ''
empty 'e, one line, room 13' "export 9 0 $(printf 'a5%.0s' $(seq 13))" "e\015\0$one_row" $rest ''
empty 'e, one line, room 14' "export 0 14 $line" "e\016\0$one_row" $rest ''
empty 'e, one line, room 16' "export 0 14 ${line}a5a5" "e\020\0$one_row" $rest ''

# The same row with the factory identifier: 21, whatever else is lent.
factory='\001\377\377\377\377\003\0\0\0\004\0\0\0\005\0\0\0\001\0\0\001\006\0'
factory_file='\042\0LD\001\001RW\377\377\377\377\003\0\0\0\004\0\0\0\005\0\0\0\001\0'
factory_file="${factory_file}ST\006\0\0\0EN\001\0"
empty 'p, the factory identifier' 'refused 21' "p$factory" $rest ''
empty 'N, the factory identifier' "refused 21 lamps 0 count 0 clock 0$rows" "N$factory" 1830 ''
empty 'N, and a clock of 4,278,190,080' \
    "refused 21 lamps 0 count 0 clock 4278190080$rows" "N$factory" 1613 "\\377$(zeros 216)"
empty 'D, the factory identifier, no slots' 'check 21' "D$factory" 1612 ''
empty 'W, the factory identifier' 'load 21' "W$factory" $rest ''
empty 'w, the factory identifier, room 0' 'load 21' "w\0\0$factory" $rest ''
empty 'E, the factory identifier' 'export 21' "E$factory" $rest ''
empty 'e, the factory identifier, room 2' 'export 21 0 a5a5' "e\002\0$factory" $rest ''
empty 'F, the factory identifier' "refused 21
." "F$factory_file" 0 ''
empty 'B, the factory identifier' "refused 21
." "B$factory_file" 0 ''
empty 'P, the factory identifier' 'refused 21' "P$factory_file" 0 ''
empty 'M, the factory identifier' 'refused 21' "M$factory_file" 220 ''
empty 'C, the factory identifier, no slots' 'refused 21' "C$factory_file" 2 ''
same 'R, the factory identifier' 'sheet 21
sheet 3' "$(printf 'R\027\0004294967295,1,0,9,1,0,\r\nR\027\0004294967296,1,0,9,1,0,\r\n' \
    | "$second" answer-trials)"

# The same row with class 1 is carried by neither form; a head of 0 is out of range.
urgent='\001\002\0\0\0\003\0\0\0\004\0\0\0\005\0\0\0\001\0\001\001\006\0'
no_head='\001\002\0\0\0\003\0\0\0\004\0\0\0\005\0\0\0\001\0\0\0\006\0'
file=4c440101525702000000030000000400000005000000010053540600''0000454e0100
empty 'W, one row' "load 0 $file" "W$one_row" $rest ''
empty 'W, class 1' 'load 22' "W$urgent" $rest ''
empty 'w, class 1, room 0' 'load 22' "w\0\0$urgent" $rest ''
empty 'E, class 1' 'export 22' "E$urgent" $rest ''
empty 'e, class 1, room 0' 'export 22 0 ' "e\0\0$urgent" $rest ''
empty 'e, class 1, room 2' 'export 22 0 a5a5' "e\002\0$urgent" $rest ''
empty 'p, class 1' "$places margins -5$(printf ' 0%.0s' $(seq 23))" "p$urgent" $rest ''
empty 'D, class 1, no slots' 'check 12' "D$urgent" 1612 ''
file_2=4c44020152570200000003000000040000000500000001000101535406000''000454e0100
empty 'V, class 1' "load2 0 $file_2" "V$urgent" $rest ''
empty 'v, class 1, room 0' 'load2 9' "v\0\0$urgent" $rest ''
empty 'v, class 1, room 35' 'load2 9' "v\043\0$urgent" $rest ''
empty 'v, class 1, room 36' "load2 0 $file_2" "v\044\0$urgent" $rest ''
empty 'v, class 1, room 38' "load2 0 ${file_2}a5a5" "v\046\0$urgent" $rest ''
empty 'V, head 0' 'load2 3' "V$no_head" $rest ''
empty 'v, head 0, room 0' 'load2 3' "v\0\0$no_head" $rest ''
empty 'W, head 0' 'load 3' "W$no_head" $rest ''
empty 'w, head 0, room 0' 'load 3' "w\0\0$no_head" $rest ''
empty 'e, head 0, room 2' 'export 3 0 a5a5' "e\002\0$no_head" $rest ''
empty 'p, head 0' 'refused 3' "p$no_head" $rest ''
empty 'W, class 1 of a row that is not there' 'load 3' W 19 "\\001$(zeros 1613)"
empty 'W, head 1 of a row that is not there' 'load 3' W 20 "\\001$(zeros 1612)"

same 'R, one line' \
    'sheet 0 4c44010152570200000003000000040000000500000001005354060000''00454e0100' \
    "$(printf 'R\016\0002,3,4,5,6,0,\r\n' | "$second" answer-trials)"
same 'R, one line without its end' 'sheet 18
sheet 18' "$(printf 'R\014\0002,3,4,5,6,0,R\015\0002,3,4,5,6,0,\r' | "$second" answer-trials)"
same 'R, a sheet of 16,384 bytes' 'sheet 18' \
    "$({ printf 'R\0\100'; head -c 16384 /dev/zero; } | "$second" answer-trials)"
same 'B, no rows' 'load 0 0 0 0 yes
.' "$(printf 'B\010\0LD\001\0EN\0\0' | "$second" answer-trials)"
same 'P, no rows' "$places" "$(printf 'P\010\0LD\001\0EN\0\0' | "$second" answer-trials)"
same 'F, no rows in version 2' 'load 0 0 0 0 yes
.' "$(printf 'F\010\0LD\002\0EN\0\0' | "$second" answer-trials)"
same 'F, no rows in version 3' 'refused 2
.' "$(printf 'F\010\0LD\003\0EN\0\0' | "$second" answer-trials)"
same 'nothing asked' '' "$("$second" answer-trials < /dev/null)"
same 'a file of 4,096 bytes' 'refused 2
.' "$({ printf 'F\0\020'; head -c 4096 /dev/zero; } | "$second" answer-trials)"

printf 'single questions: %d as expected, %d not\n' "$passed" "$failed"
[ "$failed" -eq 0 ]
