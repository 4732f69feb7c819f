#!/bin/sh
# The committed trials are those that this program makes and answers, byte for byte; every number
# of the table that they can meet is met; an altered byte is noticed.
# Usage: trials.sh PROGRAM MAKE_TRIALS TRIALS FILE_TRIALS [write]
# TRIALS and FILE_TRIALS are folders with stdin and stdout, for the bench's letters and for those of
# checks, files and sheets; with `write` all four files are written anew.
. "$(dirname "$0")/same.sh"
make_trials=$2
trials=$3
file_trials=$4
order='a b b-limit-9 b-limit-7 phase-5-deadline-8 phase-5-deadline-7 short-and-long no-waits
no-rows one-identifier one-identifier-one-box cost-0 cost-601 wait-3600 wait-3601 24-rows 25-rows
blind-skip figure-3 figure-4 figure-5 figure-6 figure-7 figure-8'

# is_as_made MADE STDIN STDOUT: whether these are the questions made and their answers.
is_as_made() {
    cmp -s "$1/stdin" "$2" && cmp -s "$1/stdout" "$3"
}

# altered FILE PLACE: the file with that byte one higher.
altered() {
    byte=$(od -An -tu1 -j "$2" -N 1 "$1")
    head -c "$2" "$1"
    printf "\\$(printf %03o $(((byte + 1) % 256)))"
    tail -c +$(($2 + 2)) "$1"
}

# noticed WHAT MADE STDIN STDOUT
noticed() {
    is_as_made "$2" "$3" "$4" && found=unnoticed || found=noticed
    same "$1" noticed "$found"
}

# hold NAME FOLDER: the folder's two files are as made, and a byte altered in one is noticed.
hold() {
    is_as_made "$work/$1" "$2/stdin" "$2/stdout" && found=yes || found=no
    same "$1: made and answered as committed" yes "$found"
    same "$1: the last question is cut short" bad "$(tail -n 1 "$2/stdout")"
    length=$(wc -c < "$2/stdin")
    for place in 0 1 $((length / 2)) $((length - 1)); do
        altered "$2/stdin" "$place" > "$work/altered"
        noticed "$1: byte $place of the questions altered" "$work/$1" "$work/altered" "$2/stdout"
    done
    length=$(wc -c < "$2/stdout")
    for place in 0 $((length / 2)) $((length - 1)); do
        altered "$2/stdout" "$place" > "$work/altered"
        noticed "$1: byte $place of the answers altered" "$work/$1" "$2/stdin" "$work/altered"
    done
    head -c $((length - 1)) "$2/stdout" > "$work/altered"
    noticed "$1: the last byte of the answers lost" "$work/$1" "$2/stdin" "$work/altered"
}

# met NAME COUNT: a kind of answer that must be there.
met() {
    same "trials: $1 is met" yes "$([ "$2" -gt 0 ] && echo yes || echo no)"
    printf ' %s %d' "$1" "$2"
}

writing=${5-}
set --
for name in $order; do
    set -- "$@" "$loads/$name"
done
mkdir "$work/trials" "$work/file_trials" || exit 2
"$make_trials" "$work/trials/stdin" "$work/file_trials/stdin" "$@" 2> "$work/counts" || exit 2
for stream in trials file_trials; do
    "$second" answer-trials < "$work/$stream/stdin" > "$work/$stream/stdout" || exit 2
done
if [ "$writing" = write ]; then
    cp "$work/trials/stdin" "$work/trials/stdout" "$trials"
    cp "$work/file_trials/stdin" "$work/file_trials/stdout" "$file_trials"
fi
hold trials "$trials"
hold file_trials "$file_trials"

printf 'questions: %s; %s\n' "$(sed -n 1p "$work/counts")" "$(sed -n 2p "$work/counts")"
count() { grep -c -E "$1" "$trials/stdout"; }
count_files() { grep -c -E "$1" "$file_trials/stdout"; }
printf 'answers: files'
met taken "$(count '^load [0-9]+ [0-9]+ [0-9]+ [0-9]+ (yes|no)$')"
for number in 1 2 3 4 5 6 7 8 21; do
    met "refused $number" "$(count "^refused $number\$")"
done
printf '; moves'
for outcome in start idle done 'refused 3' 'refused 4' 'refused 5' 'refused 6' 'refused 7' \
    'refused 10' 'refused 11' 'refused 21'; do
    met "$outcome" "$(count "^$outcome .*lamps ")"
done
printf '; checks'
for number in 0 3 4 5 6 7 12 13 14 15 16 17 21; do
    met "$number" "$(count_files "^check $number\$")"
done
for number in 1 2 3 4 5 6 7 8 21; do
    met "refused $number" "$(count_files "^refused $number\$")"
done
printf '; loads'
met 0 "$(count_files '^load 0 [0-9a-f]+$')"
for number in 3 4 5 6 7 9 21 22; do
    met "$number" "$(count_files "^load $number\$")"
done
printf '; loads in version 2'
met 0 "$(count_files '^load2 0 [0-9a-f]+$')"
for number in 3 4 5 6 7 9 21; do
    met "$number" "$(count_files "^load2 $number\$")"
done
same 'trials: version 2 carries every load' 0 "$(count_files '^load2 22')"
met 'the empty one' "$(count_files '^load2 0 4c440200454e0000$')"
met 'one of 24 full rows' "$(count_files '^load2 0 [0-9a-f]{4528}$')"
printf '; schedules'
met 0 "$(count_files '^schedule 0 [0-9a-f]+$')"
for number in 3 9; do
    met "$number" "$(count_files "^schedule $number\$")"
done
printf '; classes'
for kind in 'the class decides' 'class and plan decide' 'a move by class'; do
    met "$kind" "$(sed -n "s/^$kind //p" "$work/counts")"
done
printf '; blames'
for kind in 'rows tie' 'places tie' 'the cut decides' 'just outweighed'; do
    met "$kind" "$(sed -n "s/^$kind //p" "$work/counts")"
done
met 'a row line with its blame' "$(count '^row [0-9]+ [0-9]+ [0-9]+ -?[0-9]+ [1-7] [0-9]+$')"
met 'one with none' "$(count '^row [0-9]+ [0-9]+ [0-9]+ -?[0-9]+ 0 0$')"
met "A's row 3" "$(count '^row 3 103 203 -1 1 1$')"
met "A's places" "$(count '^waits 8:1( 0:0){6} blames( 1:1){3}( 0:0){21}$')"
met 'the cut by hand' "$(count '^waits 3:1 3:2 20:2( 0:0){4} blames 1:1 3:2( 0:0){22}$')"
met 'the ties by hand' "$(count '^waits( 8:1){2}( 0:0){5} blames( 1:1){2}( 0:0){22}$')"
met 'nothing to blame' "$(count '^waits( 0:0){7} blames( 0:0){24}$')"

# p, the last questions but one, have a line each: `refused N` is also what is said of files.
asked=$(sed -n '1s/.* p //p' "$work/counts")
in_memory() { tail -n $((asked + 1)) "$trials/stdout" | grep -c -E "^($1)\$"; }
printf '; blames in memory'
sound='waits( [0-9]+:[0-9]+){7} blames( [0-7]:[0-9]+){24} margins( -?[0-9]+){24}'
same 'trials: each p has its line' "$asked" "$(in_memory "refused ([3-7]|21)|$sound")"
met taken "$(in_memory "$sound")"
for number in 3 4 5 6 7 21; do
    met "refused $number" "$(in_memory "refused $number")"
done
met "A's" "$(in_memory 'waits 8:1( 0:0){6} blames( 1:1){3}( 0:0){21} margins 1 0 -1( 0){21}')"
met 'the least margins' "$(in_memory 'waits( 0:0){7} blames( 0:0){24} margins( -806399){24}')"
met 'the largest' "$(in_memory 'waits( 0:0){7} blames( 0:0){24} margins 999999( 0){23}')"

printf '; sheets'
met taken "$(count_files '^sheet 0 [0-9a-f]+$')"
for number in 3 4 5 7 18 19 20 21; do
    met "$number" "$(count_files "^sheet $number\$")"
done
same 'trials: a sheet never gives 6' 0 "$(count_files '^sheet 6')"
met 'one of 24 full rows' "$(count_files '^sheet 0 [0-9a-f]{4432}$')"
met 'the empty one' "$(count_files '^sheet 0 4c440100454e0000$')"
printf '; exports'
met 'the empty one' "$(count_files '^export 0 $')"
met taken "$(count_files '^export 0 ([0-9a-f][0-9a-f])+$')"
for number in 3 4 5 6 7 21 22; do
    met "$number" "$(count_files "^export $number\$")"
done
printf '; in rooms'
met 'an exact one' "$(count_files '^export 0 [1-9][0-9]* ([0-9a-f][0-9a-f])*0d0a$')"
met 'a longer one' "$(count_files '^export 0 [1-9][0-9]* ([0-9a-f][0-9a-f])*0d0a(a5)+$')"
for number in 3 4 5 6 7 9 21 22; do
    met "$number" "$(count_files "^export $number 0 (a5)*\$")"
done
printf '\n'

printf 'trials: %d as expected, %d not\n' "$passed" "$failed"
[ "$failed" -eq 0 ]
