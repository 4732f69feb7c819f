# What counts the instructions of one call of the archive; read by `.` in the root of the
# repository, after host/machine.sh, and with a folder `work`.
#
# Sets the words `counted_by`, which tells the way, and `counter`, which stands before a program
# that counts for itself (benchmarks/marks.h), and defines what follows. Both ways count
# instructions of x86-64. Those of the C library's memcpy are among them, and differ a little from
# one C library to another.
if [ -z "$emulator" ]; then
    sh tests/tools valgrind=valgrind
    counted_by='callgrind' counter=''
else
    sh tests/tools cc=gcc /usr/include/stdio.h=libc6-dev /usr/bin/qemu-x86_64=qemu-user
    qemu=/usr/bin/qemu-x86_64
    counted_by='a plugin of the emulator qemu-x86_64' counter="$qemu -plugin $work/count.so"
    qemu_major=$($qemu --version | sed -n '1s/.* version \([0-9]*\)\..*/\1/p')
    plugin_version=1
    [ "${qemu_major:-0}" -lt 9 ] || plugin_version=2
    # shellcheck disable=SC2086
    cc -std=c11 $strict -shared -fPIC -fvisibility=hidden -DPLUGIN_VERSION=$plugin_version \
        -o "$work/count.so" benchmarks/instruction_count.c
fi

# build_counted NAME ARCHIVE: builds the program NAME of `work`, which calls that archive once.
# Names are bound at the start: what a loader does to find a name is not the call's.
build_counted() {
    # shellcheck disable=SC2086
    $compile_c -std=c11 $strict -Wl,-z,now -Iinclude -o "$work/$1" benchmarks/counted_call.c \
        benchmarks/forms.c benchmarks/marks.c "$2"
}

# run_counted WORD...: runs a command in `work` with no variables: how long they are, and how long
# the program's path is, changes where the stack lies, and with that a count by some instructions.
run_counted() (
    cd "$work"
    exec env -i "$@"
)

# count_call NAME CALLS FILE ANSWER: prints the instructions of that call by that program on a load
# file, and leaves what it gave in ANSWER; the program and both files stand in `work`.
count_call() {
    if [ -z "$emulator" ]; then
        run_counted "$(command -v valgrind)" --tool=callgrind --toggle-collect=counted_call \
            --callgrind-out-file=callgrind "./$1" "$2" "$3" >"$work/$4" 2>"$work/told" || true
        sed -n 's/^totals: *//p' "$work/callgrind" >"$work/counted"
    else
        # shellcheck disable=SC2086
        run_counted $counter "./$1" "$2" "$3" >"$work/$4" 2>"$work/told" || true
        cp "$work/told" "$work/counted"
    fi
    if ! grep -x '[0-9][0-9]*' "$work/counted"; then
        echo "$counted_by does not count: $(tail -n 1 "$work/told")" >&2
        return 1
    fi
}
