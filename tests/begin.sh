# What a test of a program begins with. Tests read this file, with the arguments that they are called with:
# `program` is the program's path, `top` the repository's folder, and `work` a folder that goes when the test ends.
# The last line says how many cases passed and failed.
if [ $# -ne 1 ]; then
    echo "usage: $0 PROGRAM" >&2
    exit 2
fi
program=$(cd "$(dirname "$1")" && pwd)/$(basename "$1")
top=$(cd "$(dirname "$0")/.." && pwd) || exit 2
work=$(mktemp -d)
passed=0
failed=0
failing=

finish() {
    chmod -R u+rwx "$work"
    rm -rf "$work"
    echo "$(basename "$0" .sh): $passed passed, $failed failed"
    [ "$failed" = 0 ] || exit 1
}
trap finish EXIT
trap 'exit 2' HUP INT TERM

# A case fails, and the test goes on: fail CASE [FILE..] prints these files, or what the case left in `out` and `err`.
fail() {
    failing=$1
    failed=$((failed + 1))
    echo "FAILED: $1"
    shift
    [ $# -ne 0 ] || set -- out err
    cat "$@"
}

# A case ends, and passes unless it failed.
ok() {
    case $failing in
        "$1"*) ;;
        *)
            echo "ok: $1"
            passed=$((passed + 1))
            ;;
    esac
    failing=
}
