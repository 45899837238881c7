#!/bin/sh
# Installs the program into folders of its own, and looks at them. Usage: tests/install.sh PROGRAM
# ./install runs in a copy of its files, beside a ./build that puts PROGRAM into its place.
set -u

. "$(dirname "$0")/begin.sh"
unset DESTDIR
mkdir "$work/clone" && cd "$work" || exit 2
mkdir clone/docs clone/bench clone/tests && cp -R "$top/install" "$top/man" "$top/completions" clone/ && cp -R "$top/docs/guide" clone/docs/ || exit 2
cp "$top/bench/ask-liblouis" "$top/bench/liblouis.py" clone/bench/ && cp "$top/tests/spelling.py" clone/tests/ || exit 2
mkdir -p clone/tools clone/crates/brl/src && cp "$top/tools/made" clone/tools/ && cp "$top/HANDLES" "$top/crates.txt" clone/ || exit 2
cp "$top/crates/brl/src/main.rt" clone/crates/brl/src/ || exit 2
cat >clone/build <<END
#!/bin/sh
set -eu
top=$work/clone
. "$top/tools/made"
case \$* in
    '') way=proved ;;
    --quick) way=compiled ;;
    *) exit 2 ;;
esac
echo built >>"$work/builds"
: >"$work/seen"
keep "\$way" "$program" "\$(sum_of "\$top")" "$work/seen"
END
chmod +x clone/build

# Runs ./install with these words.
install() {
    clone/install "$@" >out 2>err
    status=$?
}

files='bin/brl
share/bash-completion/completions/brl
'$({ cd "$top/docs/guide" && ls && echo ask-liblouis && echo liblouis.py && echo spelling.py; } | sort | sed 's|^|share/doc/brl/|')'
share/fish/vendor_completions.d/brl.fish
share/man/man1/brl.1
share/zsh/site-functions/_brl'

# These files and no others are below a folder.
has_files() {
    [ "$(cd "$1" && find . -type f -o -type l | sed 's|^\./||' | sort)" = "$2" ]
}

mkdir place && install place
[ "$status" = 0 ] && has_files place "$files" && [ -s builds ] || fail 'into a folder'
[ "$(cat err)" = 'install: the program is proved here' ] || fail 'a proved program is installed'
[ "$(place/bin/brl --version)" = "$("$program" --version)" ] || fail 'the program runs where it was installed'
for file in $files; do
    case $file in
        bin/* | */ask-liblouis) mode=-rwxr-xr-x ;;
        *) mode=-rw-r--r-- ;;
    esac
    [ "$(ls -l "place/$file" | cut -c 1-10)" = "$mode" ] || fail "the permissions of $file"
done
cmp -s place/share/man/man1/brl.1 "$top/man/brl.1" && cmp -s place/share/zsh/site-functions/_brl "$top/completions/_brl" || fail 'the man page and the completions'
diff -r -x ask-liblouis -x '*.py' place/share/doc/brl "$top/docs/guide" >out || fail 'the guide'
place/share/doc/brl/ask-liblouis >out 2>err
[ $? = 2 ] && grep -q '^Prints those pairs' err || fail 'the script beside the guide runs where it was installed'
ok 'into a folder'

# There are a program that is in use, a link into the clone, and a file with another text.
before=$(ls -i place/bin/brl | cut -d ' ' -f 1)
exec 3<place/bin/brl
ln -sf "$top/man/brl.1" place/share/man/man1/brl.1
echo old >place/share/zsh/site-functions/_brl
install place
[ "$status" = 0 ] && has_files place "$files" || fail 'a second time'
[ "$(ls -i place/bin/brl | cut -d ' ' -f 1)" != "$before" ] && cmp -s - "$program" <&3 || fail 'the program that was there is replaced, not written over'
exec 3<&-
[ ! -L place/share/man/man1/brl.1 ] && cmp -s place/share/zsh/site-functions/_brl "$top/completions/_brl" || fail 'what was there is replaced'
ok 'a second time'

rm -r clone/out
install --compiled compiled
[ "$status" = 0 ] && has_files compiled "$files" || fail 'without proofs'
[ "$(cat err)" = 'install: the program is compiled here without proofs; ./build proves it' ] || fail 'a compiled program is installed'
ok 'without proofs'

DESTDIR=$work/package
export DESTDIR
install /usr
unset DESTDIR
[ "$status" = 0 ] && has_files package/usr "$files" || fail 'below DESTDIR'
ok 'below DESTDIR'

cd place && ../clone/install >../out 2>../err --uninstall "$work/package/usr"
status=$?
cd ..
[ "$status" = 0 ] && has_files package '' && [ ! -e package/usr/share/doc/brl ] || fail 'to uninstall'
install --uninstall package/usr
[ "$status" = 0 ] && [ ! -s out ] && [ ! -s err ] || fail 'to uninstall what is not there'
ok 'to uninstall'

ln -s "$work/clone/install" link
./link linked >out 2>err && has_files linked "$files" || fail 'by a link'
ok 'by a link'

# One line on standard error, status 2, and no part of a file left.
refused() {
    [ "$status" = 2 ] && [ "$(wc -l <err)" -ge 1 ] && grep -q "^install: $2" err || fail "$1"
    [ -z "$(find . -name '.brl.*')" ] || fail "$1: a part of a file is left"
    ok "$1"
}
install --nothing
refused 'an unknown option' 'there is no option --nothing'
install one two
refused 'two folders' 'one folder'
install ''
refused 'a folder without a name' 'the folder to install into has no name'
mkdir -p taken/bin/brl
install taken
refused 'a folder in the place of the program' '.*/taken/bin/brl is a folder'
: >plain
install plain/below
refused 'a folder that can not be made' 'the folder .* can.t be made'
printf '#!/bin/sh\nexit 2\n' >clone/build
mkdir empty
install empty
refused 'a program that can not be built' "the program isn't built, so nothing was installed"
has_files empty '' || fail 'a program that can not be built: something was installed'
printf '#!/bin/sh\n' >clone/build
rm clone/out/proved/sources
install empty
refused 'a program of which nothing is known' './build left no program of the sources as they are'
has_files empty '' || fail 'a program of which nothing is known: it was installed'

# No file may have more than one block: so the copy of the program ends early.
(top=$work/clone && . "$top/tools/made" && : >seen && keep proved "$program" "$(sum_of "$top")" seen)
(ulimit -f 1 && exec clone/install place) >out 2>err
status=$?
refused 'a file that can not be written whole' '.*/place/bin/brl can.t be written'
has_files place "$files" && cmp -s place/bin/brl "$program" || fail 'the program that was there stays'

install --help
[ "$status" = 0 ] && grep -q DESTDIR out && ! grep -q '^set' out || fail 'help'
ok 'help'
