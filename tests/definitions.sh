#!/bin/sh
# Compares docs/proof/READ.md, and what docs/proof/HEADLINE.md says of it, with what tools/definitions finds, and shows that a
# page with another clause, definition, file or number is noticed. docs/proof/DEFINITIONS.md begins with these files, in their
# order. Usage: tests/definitions.sh
set -u

cd "$(dirname "$0")/.." || exit 2
page=docs/proof/HEADLINE.md
tools/definitions --check "$page" || exit 1
tools/definitions --page --check || exit 1

work=$(mktemp -d)
trap 'rm -rf "$work"' EXIT
trap 'exit 2' HUP INT TERM

# A page in which a sed script changes something is refused.
refused() {
    sed "$1" "$page" >"$work/page"
    if cmp -s "$page" "$work/page" || tools/definitions --check "$work/page" >"$work/said"; then
        echo "FAILED: a page that was changed by '$1'"
        exit 1
    fi
}

refused 's/ × IsUnambiguous t$//'
refused 's/Dots 88/Dots 89/'
refused 's/, Text [0-9]*//'
refused '/specs\/` | Escapes/d'
refused 's/^| together | [0-9]* files/| together | 1 files/'
refused 's/^It has [0-9]* definitions/It has 1 definitions/'
refused 's/^\(The whole contract .* of\) [0-9,]* lines/\1 1 lines/'
echo "ok: a page with another clause, file or number is noticed"

# The sources, with another page of definitions.
read=docs/proof/READ.md
mkdir "$work/docs" && cp -r tools "$work" && cp -r docs/proof "$work/docs" && ln -s "$PWD/crates" "$work/crates" || exit 2
sed 's/≤ 1024/≤ 1025/' "$read" >"$work/$read"
if cmp -s "$read" "$work/$read" || "$work/tools/definitions" --page --check >"$work/said"; then
    echo "FAILED: a page with another definition"
    exit 1
fi
echo "ok: a page with another definition is noticed"

tools/definitions | awk -F '`' '/^[|] `/ {
    split($3, cells, "|")
    count = split(cells[2], files, ",")
    for (i = 1; i <= count; i++) {
        split(files[i], words, " ")
        print $2 words[1] ".antt"
    }
}' >"$work/files"
grep -o '`[a-z_]*/specs/[A-Za-z/]*\.antt`' docs/proof/DEFINITIONS.md | tr -d '`' | head -n "$(wc -l <"$work/files")" >"$work/first"
if ! cmp -s "$work/files" "$work/first"; then
    echo "FAILED: docs/proof/DEFINITIONS.md has another order"
    diff "$work/files" "$work/first"
    exit 1
fi
echo "ok: docs/proof/DEFINITIONS.md begins with these $(wc -l <"$work/files") files"
