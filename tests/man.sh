#!/bin/sh
# Checks the man page. Usage: tests/man.sh PROGRAM
# Where man and mandoc are installed, they have no warning. It has the commands, operands and
# options that the program's help names, and no others, and the faults that docs/ has. Its examples
# print what it shows.
set -u

. "$(dirname "$0")/begin.sh"
. "$(dirname "$0")/help.sh"
cd "$top" || exit 2
page=man/brl.1

# man's own warnings, and mandoc's that are more than matters of style.
if command -v man >/dev/null && man --help 2>/dev/null | grep -q -- --warnings; then
    LC_ALL=C.UTF-8 man --warnings -l "$page" >"$work/text" 2>"$work/warnings" && [ -s "$work/text" ] || fail 'man' "$work/warnings"
    [ ! -s "$work/warnings" ] || fail 'man warns' "$work/warnings"
    ok 'man has no warning'
else
    echo 'skipped: no man that warns'
fi
if command -v mandoc >/dev/null; then
    mandoc -T lint -W warning "$page" >"$work/lint" 2>&1 && [ ! -s "$work/lint" ] || fail 'mandoc warns' "$work/lint"
    ok 'mandoc has no warning'
else
    echo 'skipped: no mandoc'
fi

# What the help names: of each command a line with its operands and long options, and one of brl.
{
    for command in $(commands); do
        echo "$command" $(operands "$command") $(options "$command" | grep -vx -e --help | sort)
    done | sort
    echo brl $(options | sort)
} >"$work/help"
[ "$(wc -l <"$work/help")" -gt 3 ] || fail 'the help' "$work/help"

# The same of the page: of its synopsis, and of its lists of commands and of other options.
awk '
    function ended() { if (command) print command operands options; command = operands = options = "" }
    /^\.Sh/ { ended(); is_synopsis = /SYNOPSIS/ }
    !is_synopsis { next }
    /^\.Nm/ { ended() }
    /^\.Cm/ { command = $2 }
    /^\.Op Fl Fl/ { options = options " --" $4 }
    command && /^\.Ar/ { operands = operands " " $2 }
    command && /^\.Op Ar/ { operands = operands " " $3 }
' "$page" | tr -s ' ' | sort >"$work/synopsis"
grep -v '^brl ' "$work/help" | diff - "$work/synopsis" >"$work/diff" || fail 'the synopsis: < is in the help, > in the page' "$work/diff"

awk '
    function ended() { if (command) print command operands options; command = operands = options = "" }
    function options_of(line,   n, found) {
        while (match(line, /Fl Fl [a-z-]+/)) {
            found = found " --" substr(line, RSTART + 6, RLENGTH - 6)
            line = substr(line, RSTART + RLENGTH)
        }
        return found
    }
    /^\.Sh/ { ended(); is_description = /DESCRIPTION/ }
    !is_description { next }
    /^The other options are/ { ended(); command = "brl" }
    /^\.It Cm/ {
        ended()
        command = $3
        in_head = options_of($0)
        gsub(/Oo Fl Fl [a-z-]+ Ar [A-Z]+ Oc/, "")
        sub(/^\.It Cm [a-z]+/, "")
        gsub(/ Op Ar| Ar| \.\.\./, "")
        operands = $0
    }
    /^\.It Fl/ { options = options options_of($0) }
' "$page" | tr -s ' ' | sort >"$work/described"
sort "$work/help" | diff - "$work/described" >"$work/diff" || fail 'the description: < is in the help, > in the page' "$work/diff"
ok "the page has the commands, operands and options of the help"

# The page has the faults of FAULTS.md, and no others; and FAULTS.md has those that any document names.
faults() {
    grep -ohE '\b[A-Z][0-9] [A-Z][a-z]+[A-Za-z0-9]*' "$@" | sort -u
}
listed=docs/guide/FAULTS.md
faults "$listed" >"$work/faults"
[ "$(wc -l <"$work/faults")" -gt 3 ] || fail "the faults of $listed" "$work/faults"
faults "$page" | diff "$work/faults" - >"$work/diff" || fail "the faults: < is in $listed, > in the page" "$work/diff"
faults -r --include='*.md' . | comm -13 "$work/faults" - >"$work/diff"
[ ! -s "$work/diff" ] || fail "$listed lacks faults that other documents name" "$work/diff"
ok "the page has the $(wc -l <"$work/faults") faults of $listed"

tests/shown.py "$program" "$page" >"$work/shown" || fail 'the examples of the page' "$work/shown"
ok 'the examples of the page'
