#!/bin/sh
# Tries the completions of bash, zsh and fish, each in its own shell.
# Usage: tests/completions.sh PROGRAM
# At the end of each of these lines it must offer just these words; for commands and options they
# are those that the program's help names. A shell that isn't installed is skipped, and a line says
# so.
set -u

. "$(dirname "$0")/begin.sh"
. "$(dirname "$0")/help.sh"
completions=$top/completions
mkdir "$work/files" "$work/files/tables" && cd "$work/files" || exit 2
: >table.ctb
: >table.cert
: >other.txt

# What each shell offers at the end of a line, one word a line.
bash_offers() {
    bash --norc --noprofile -c '
        . "$1/brl.bash"
        COMP_LINE=$2 COMP_POINT=${#2}
        # as readline cuts a line: at blanks, and before and after each equals sign
        read -ra COMP_WORDS <<<"${2//=/ = }"
        [[ $2 != *" " && $2 != *= ]] || COMP_WORDS+=("")
        [[ $2 != *= ]] || unset "COMP_WORDS[-1]"
        COMP_CWORD=$((${#COMP_WORDS[@]} - 1))
        command=$(complete -p brl) && [[ $command == *"-F _brl "* ]] || exit 1
        _brl
        printf "%s\n" "${COMPREPLY[@]}"
    ' bash "$completions" "$1"
}

fish_offers() {
    fish --no-config -c 'source $argv[1]/brl.fish; complete -C $argv[2]' "$completions" "$1" | cut -f 1
}

# In zsh a line is typed into a shell of its own, whose `compadd` writes down what it is given.
cat >"$work/typed.zsh" <<'END'
zmodload zsh/zpty || exit 1
zpty shell zsh -f -i
zpty -w shell "source $ROOM/setup.zsh"
for try in {1..300}; do [[ -e $ROOM/ready ]] && break; sleep 0.1; done
zpty -w -n shell "$LINE_TO_TYPE"$'\t'
for try in {1..300}; do [[ -e $ROOM/ended ]] && break; sleep 0.1; done
zpty -d shell
[[ -e $ROOM/ended ]]
END
cat >"$work/setup.zsh" <<'END'
PROMPT= RPS1=
unsetopt beep
fpath=($COMPLETIONS $fpath)
autoload -Uz compinit && compinit -u -D
bindkey '^I' complete-word
compadd() {
    local -a offered
    if [[ ${@[1,(i)(-|--)]} != *-(O|A|D)\ * ]]; then
        builtin compadd -A offered "$@"
        [[ $#offered == 0 ]] || print -rl -- $offered >>$ROOM/offered
    fi
    builtin compadd "$@"
}
note_end() { : >$ROOM/ended }
comppostfuncs=(note_end)
: >$ROOM/ready
END

zsh_offers() {
    rm -f "$work/offered" "$work/ready" "$work/ended"
    ROOM=$work COMPLETIONS=$completions LINE_TO_TYPE=$1 zsh -f "$work/typed.zsh" >/dev/null 2>&1 || return 1
    [ ! -e "$work/offered" ] || cat "$work/offered"
}

# At the end of this line the shell must offer these words and no others.
offers() {
    line=$1
    shift
    [ $# -eq 0 ] || printf '%s\n' "$@" | sort -u >"$work/want"
    [ $# -ne 0 ] || : >"$work/want"
    "${shell}_offers" "$line" >"$work/got" || echo "the shell failed" >"$work/got"
    # a folder's slash and the option before an equals sign are a matter of each shell
    sed -i 's|/$||; s|^--form=||; s|^--kind=||; s|=$||; /^$/d' "$work/got"
    if ! sort -u "$work/got" | diff "$work/want" - >"$work/diff"; then
        fail "completions of $shell: '$line': < must be offered, > is offered" "$work/diff"
    fi
    count=$((count + 1))
}

"$program" help >"$work/help"
[ -n "$(commands)" ] && [ -n "$(options)" ] || fail 'the help has commands and options' "$work/help"

for shell in bash zsh fish; do
    if ! command -v "$shell" >/dev/null; then
        echo "skipped: no $shell"
        continue
    fi
    count=0
    offers 'brl ' $(commands)
    offers 'brl -' $(options)
    offers 'brl trans' translate
    offers 'brl h' help
    offers 'brl nothing '
    others=$(commands | grep -vx help)
    offers 'brl help ' $others
    offers 'brl help tr' trace translate
    offers 'brl help trace '
    offers 'brl help -' $(options help)
    for command in $others; do
        offers "brl $command -" $(options "$command")
        [ "$command" != explain ] || continue
        offers "brl $command t" table.ctb table.cert tables
        offers "brl $command o" other.txt
    done
    offers 'brl translate --form ' ascii unicode
    offers 'brl translate --form u' unicode
    offers 'brl translate --form=' ascii unicode
    offers 'brl translate --form=a' ascii
    offers 'brl clashes --kind b' begins braille
    offers 'brl clashes --kind=wo' word
    # operands that are no paths, and too many of them
    for words in \
        'translate table.ctb' 'clash table.ctb' 'clash table.ctb text' 'trace table.ctb' \
        'clash --escapes table.ctb text' 'clash --lines table.ctb text' 'rules table.ctb' \
            'unused table.ctb' 'slips table.ctb' 'unused --limit' 'explain' 'search table.ctb table.cert' \
        'search --limit' 'search --only' 'search --without' 'search --limit=5 table.ctb table.cert' \
        'clashes table.ctb' 'clashes --accept other.txt table.ctb' 'clashes --first' 'clashes --kind word table.ctb' 'check table.ctb table.cert' 'cut table.ctb tables'; do
        offers "brl $words t"
    done
    # operands that are paths
    for words in \
        'translate --form ascii' 'trace --escapes' 'trace --escapes --lines' 'unused --limit 5' 'slips --tsv' \
            'search table.ctb' 'search --limit 5' \
        'search --without ab table.ctb' 'search --only a..z table.ctb' 'unused --only ab' 'clashes --first 5' 'clashes --kind word' 'clashes --accept' 'clashes --write' \
        'clashes --accept other.txt' 'clashes --write other.txt' 'check table.ctb' \
        'check --without ab table.ctb' 'survey table.ctb other.txt' 'survey --brief'; do
        offers "brl $words t" table.ctb table.cert tables
    done
    offers 'brl cut table.ctb t' tables
    for command in translate clash trace rules unused slips search clashes check survey cut; do
        offers "brl $command --path t" tables
        offers "brl $command --path tables t" table.ctb table.cert tables
    done
    offers 'brl cut --rewrite table.ctb t' tables
    echo "$shell: $count lines"
    ok "completions of $shell"
done
