# Runs the program $name with the arguments of the script that reads this file: tabcheck, tabeval or
# tabfigures. Not to be called itself.
#
# The first call builds the program, which is proved before it is built. After a change, `rt run` in
# the program's folder below crates/ builds it anew.

root=$(dirname "$0")
crate=$root/crates/$name
program=$crate/out/$name

fail() {
    echo "$name: $1" >&2
    exit 1
}

build() {
    command -v rt >/dev/null || fail "$program is not built, and building it needs rt, the command of the Rattle kit"
    echo "$name: building $program (rt run in $crate)" >&2
    # rt also runs what it has built: here on no input, or on two empty files.
    if ! (cd "$crate" && rt run -- /dev/null /dev/null) </dev/null >&2; then
        # A program whose trial run failed would be there, and the next call would trust it.
        rm -f "$program"
        fail "the build failed"
    fi
    [ -x "$program" ] || fail "rt takes $program for built, and it is not there: remove $crate/out and try again"
}

[ -x "$program" ] || build
exec "$program" "$@"
