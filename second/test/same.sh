# What the tests of the program share; read by `.` from a script whose first argument is the
# program.
second=$1
loads=$(dirname "$0")/loads
work=$(mktemp -d) || exit 2
trap 'rm -rf "$work"' EXIT
passed=0
failed=0

# same WHAT WANTED FOUND
same() {
    if [ "$2" = "$3" ]; then
        passed=$((passed + 1))
    else
        failed=$((failed + 1))
        printf 'FAILED %s\n  wanted: %s\n  found:  %s\n' "$1" "$2" "$3"
    fi
}
