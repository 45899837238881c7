#!/bin/sh
# Runs the examples, and at last the commands of README.md and of docs/guide. Usage: tests/examples.sh PROGRAM
# examples/NAME.brf is what `translate examples/NAME.ctb` writes of examples/NAME.txt, examples/NAME.report what `clash
# examples/NAME.ctb` writes of the two lines of examples/NAME.texts, examples/NAME.verdict what `check examples/NAME.ctb
# examples/NAME.cert` writes, and examples/NAME.found what `search examples/NAME.ctb OUT` writes: where that is a certificate, a check
# accepts it with the same numbers. But for its notes examples/NAME.pairs is the file that `clashes examples/NAME.ctb --write FILE`
# writes, and examples/NAME.accepted is what `clashes --accept examples/NAME.pairs examples/NAME.ctb` writes, and examples/NAME.certified
# what `search` with the same file does, where a check with it accepts the certificate. examples/NAME.survey is
# what `survey examples/NAME.ctb` writes, and examples/NAME.trace what `trace examples/NAME.ctb` writes of the line of examples/NAME.text.
set -u

. "$(dirname "$0")/begin.sh"
cd "$top/examples" || exit 2

# Compares what a command writes with the expected output of an example, and its status with another: same WANT STATUS WORDS..
same() {
    want=$1
    ends=$2
    shift 2
    "$program" "$@" >"$work/out"
    status=$?
    [ "$status" = "$ends" ] && cmp "$work/out" "$want" || fail "examples/$want" "$work/out"
    ok "examples/$want"
}

# A check with these words accepts the certificate that was written, with the numbers that this file says were certified.
accepted() {
    certified=$1
    shift
    "$program" check "$@" "$work/cert" | sed 's/^accepted/certified/' | cmp - "$certified" || fail "the certificate of examples/$certified" "$work/cert"
    ok "the certificate of examples/$certified"
}

for want in *.brf; do
    name=${want%.brf}
    same "$want" 0 translate "$name.ctb" <"$name.txt"
done

for want in *.report; do
    name=${want%.report}
    { IFS= read -r left && IFS= read -r right; } <"$name.texts" || fail "examples/$name.texts" "$name.texts"
    same "$want" 1 clash "$name.ctb" "$left" "$right"
done

for want in *.verdict; do
    name=${want%.verdict}
    same "$want" 0 check "$name.ctb" "$name.cert"
done

for want in *.found; do
    name=${want%.found}
    rm -f "$work/cert"
    if grep -q '^certified: ' "$want"; then
        same "$want" 0 search "$name.ctb" "$work/cert"
        accepted "$want" "$name.ctb"
    else
        same "$want" 1 search "$name.ctb" "$work/cert"
        [ ! -e "$work/cert" ] || fail "examples/$want: it wrote a certificate" "$work/cert"
    fi
done

for pairs in *.pairs; do
    name=${pairs%.pairs}
    "$program" clashes "$name.ctb" --write "$work/pairs" >"$work/out"
    status=$?
    [ "$status" = 1 ] && grep -v '^#' "$pairs" | cmp - "$work/pairs" || fail "examples/$pairs" "$work/out" "$work/pairs"
    ok "examples/$pairs"
    same "$name.accepted" 0 clashes --accept "$pairs" "$name.ctb"
    same "$name.certified" 0 search --accept "$pairs" "$name.ctb" "$work/cert"
    accepted "$name.certified" --accept "$pairs" "$name.ctb"
done

for want in *.survey; do
    same "$want" 0 survey "${want%.survey}.ctb"
done

for want in *.trace; do
    name=${want%.trace}
    IFS= read -r text <"$name.text" || fail "examples/$name.text" "$name.text"
    same "$want" 0 trace "$name.ctb" "$text"
done

# Runs the commands that these documents show.
shown() {
    (cd "$top" && tests/shown.py "$program" "$@") >"$work/out" || fail "the commands of $*" "$work/out"
    ok "the commands of $*"
}
shown README.md docs/guide/TUTORIAL.md docs/guide/ACCEPTED.md
if command -v git >/dev/null && command -v make >/dev/null; then
    shown docs/guide/RECIPES.md
else
    echo 'skipped: docs/guide/RECIPES.md, since there is no git or no make'
fi
