#!/bin/sh
# Runs the built program on real files, streams and devices. Usage: tests/devices.sh PROGRAM
# It prints one line a case, and goes on where one fails.
set -u

. "$(dirname "$0")/begin.sh"
cd "$work" || exit 2

printf 'space \\s 0\nletter a 1\nletter b 12\nletter c 14\n' >t.ctb
printf 'letter y 13456\n' >yes.ctb
printf 'letter \377 1\n' >bytes.ctb
{ printf 'letter a 1\n#'; head -c 2048 /dev/zero | tr '\0' x; echo; } >long.ctb
{ printf '#'; head -c 2047 /dev/zero | tr '\0' x; echo; cat t.ctb; } >full.ctb
printf 'letter a 1\n' >closed.ctb
chmod a-r closed.ctb
mkdir folder

# A case fails, for this reason: wrong CASE REASON.
wrong() {
    echo "$2" >"$work/reason"
    fail "$1" "$work/reason"
}

# The case that ran last left `out`, `err` and `status`. What standard output, standard error and the status must be.
expect() {
    [ "$status" = "$2" ] || wrong "$1" "status $status, wanted $2; standard error: $(head -c 300 err)"
    printf "$3" >want
    cmp -s out want || wrong "$1" "standard output: $(head -c 300 out), wanted: $(cat want)"
    printf "$4" >want
    cmp -s err want || wrong "$1" "standard error: $(head -c 300 err), wanted: $(cat want)"
    ok "$1"
}

# As `expect`, but of standard error nothing is asked, and of standard output only that this text stands in it.
expect_text() {
    [ "$status" = 0 ] || wrong "$1" "status $status, wanted 0"
    grep -qF -- "$2" out || wrong "$1" "standard output: $(head -c 300 out)"
    [ ! -s err ] || wrong "$1" "standard error: $(head -c 300 err)"
    ok "$1"
}

# Runs the program with these words, or with an input before them.
call() {
    "$program" "$@" >out 2>err
    status=$?
}
given() {
    printf "$1" >given
    shift
    call "$@" <given
}

# Translates an input by a table.
translate() {
    given "$2" translate "$1"
}

translate t.ctb 'abc a\n'
expect 'a text is translated' 0 'ABC A\n' ''

translate t.ctb ''
expect 'an empty input gives nothing' 0 '' ''

translate full.ctb 'abc\n'
expect 'a table line of 2,048 bytes is read' 0 'ABC\n' ''

translate "$work/t.ctb" 'a'
expect 'a table by its whole path, an input without a line feed' 0 'A\n' ''

translate none.ctb 'a\n'
expect 'a missing table' 2 '' 'L1 NotFound none.ctb\n'

translate folder 'a\n'
expect 'a folder as the table' 2 '' 'L2 ReadFailed folder\n'

if [ "$(id -u)" = 0 ]; then
    echo 'skipped: a table that may not be read (root may read every file)'
else
    translate closed.ctb 'a\n'
    expect 'a table that may not be read' 2 '' 'L2 ReadFailed closed.ctb\n'
fi

translate bytes.ctb 'a\n'
expect 'a table that is not UTF-8' 2 '' 'L3 NotUtf8 bytes.ctb\n'

translate long.ctb 'a\n'
expect 'a table line of 2,049 bytes' 2 '' 'L6 LineTooLong long.ctb at long.ctb:2\n'

given '' translate /dev/zero
expect 'a table without end' 2 '' 'L9 TooLarge /dev/zero\n'

# A table of four files in two folders, all named from the folder of its root.
mkdir -p tables/parts
printf '# four files\ninclude letters.ctb\ninclude parts/marks.ctb and a comment\n' >tables/root.ctb
printf 'include parts/blank.ctb\nletter a 1\nletter b 12\n' >tables/letters.ctb
printf 'space \\s 0\n' >tables/parts/blank.ctb
printf 'punctuation . 256\n' >tables/parts/marks.ctb
translate tables/root.ctb 'ab a.\n'
expect 'a table of four files in two folders' 0 'AB A4\n' ''

printf 'include %s/tables/parts/marks.ctb\n' "$work" >tables/whole.ctb
translate tables/whole.ctb '.\n'
expect 'an include by its whole path' 0 '4\n' ''

# A table whose second line includes this name.
including() {
    printf '# a table\ninclude %s\n' "$1" >tables/t.ctb
    translate tables/t.ctb 'a\n'
}

including none.ctb
expect 'a missing include' 2 '' 'L1 NotFound tables/none.ctb at tables/t.ctb:2\n'

including parts
expect 'a folder as an include' 2 '' 'L2 ReadFailed tables/parts at tables/t.ctb:2\n'

cp bytes.ctb long.ctb tables
including bytes.ctb
expect 'an include that is not UTF-8' 2 '' 'L3 NotUtf8 tables/bytes.ctb at tables/t.ctb:2\n'

including t.ctb
expect 'a table that includes itself' 2 '' 'L4 Cycle tables/t.ctb at tables/t.ctb:2\n'

for depth in $(seq 2 17); do
    echo "include deep$((depth + 1)).ctb" >"tables/deep$depth.ctb"
done
including deep2.ctb
expect 'an include below the sixteenth file' 2 '' 'L5 TooDeep tables/deep17.ctb at tables/deep16.ctb:1\n'

including long.ctb
expect 'an include with a line of 2,049 bytes' 2 '' 'L6 LineTooLong tables/long.ctb at tables/long.ctb:2\n'

yes 'include empty.ctb' | head -n 1024 >tables/many.ctb
: >tables/empty.ctb
translate tables/many.ctb ''
expect '1,024 includes' 0 '' ''
echo 'include empty.ctb' >>tables/many.ctb
translate tables/many.ctb ''
expect '1,025 includes' 2 '' 'L8 TooManyIncludes tables/empty.ctb at tables/many.ctb:1025\n'

including /dev/zero
expect 'an include without end' 2 '' 'L9 TooLarge /dev/zero at tables/t.ctb:2\n'

# A table whose files are in other folders, as words select these.
mkdir -p one two
printf 'include there.ctb\n' >here.ctb
printf 'letter a 1\n' >one/there.ctb
printf 'letter a 12\n' >two/there.ctb
printf 'include there.ctb\nletter c 14\n' >one/only.ctb
looked_for() {
    given 'a\n' translate "$@"
}

looked_for here.ctb
expect 'an include that is in another folder' 2 '' 'L1 NotFound there.ctb at here.ctb:1\n'

looked_for --path one here.ctb
expect 'an include that is looked for in a folder' 0 'A\n' ''

looked_for --path none --path two/ --path one here.ctb
expect 'an include that is looked for in three folders' 0 'B\n' ''

looked_for --path two --path one only.ctb
expect 'a table that is in a folder, with an include beside it' 0 'A\n' ''

looked_for --path one "$work/only.ctb"
expect 'a table by its whole path is looked for there alone' 2 '' "L1 NotFound $work/only.ctb\n"

printf 'include there.ctb\ninclude far.ctb\n' >near.ctb
printf 'pass2 x y\n' >one/far.ctb
call survey --path two --path one near.ctb only.ctb
expect 'a survey of tables whose files are in folders' 0 "table: near.ctb
B1 OutsideProfile pass2 at one/far.ctb:1
opcode pass2: 1 (not in the profile)
file one/far.ctb: 0 of 1 lines are read
undefined characters (B5 to B7) are looked for once no line has another fault
1 of 2 lines are read
table: only.ctb
2 of 2 lines are read
no verdict: a survey doesn't decide whether two texts have the same cells
" ''

call cut --path two --path one near.ctb whole
expect 'a cut of a table whose files are in folders' 0 "1 of 2 lines are kept
opcode pass2: 1 (not in the profile)
file one/far.ctb: 0 of 1 lines are read
no verdict: a cut doesn't decide whether two texts have the same cells
" ''
call rules whole/near.ctb
expect 'a cut is read without the folders' 0 '0  letter  a  12  whole/there.ctb:1\n' ''

# A path below a file is one where nothing is.
: >below
printf 'letter z 12\nletter a 1\n' >one/z.ctb
mkdir -p one/below
printf 'letter y 1\n' >one/below/y.ctb
printf 'include below/y.ctb\nletter a 12\n' >beneath.ctb
looked_for --path one beneath.ctb
expect 'an include below a file is looked for in a folder' 0 'B\n' ''
looked_for --path below --path one z.ctb
expect 'a file is no folder to look in' 0 'A\n' ''
looked_for beneath.ctb
expect 'an include below a file' 2 '' 'L1 NotFound below/y.ctb at beneath.ctb:1\n'
rm below

mkdir there.ctb
looked_for --path one here.ctb
expect 'a folder where an include is looked for first' 2 '' 'L2 ReadFailed there.ctb at here.ctb:1\n'
rmdir there.ctb

call rules --path one here.ctb
expect 'a rule of a file that was found in a folder' 0 '0  letter  a  1  one/there.ctb:1\n' ''

for out in there.ctb ./there.ctb one/../there.ctb; do
    call search --path one here.ctb "$out"
    expect "a certificate for $out, where an include is looked for" 2 '' 'error: the certificate would overwrite there.ctb, a file that is read\n'
done
[ ! -e there.ctb ] || wrong 'a certificate where an include is looked for' 'it was written'

# Links that lead there are no way around it, nor a link there that leads nowhere.
ln -s there.ctb to.there
ln -s to.there to.link
ln -s "$work/./there.ctb" to.whole
for out in to.there to.link to.whole; do
    call search --path one here.ctb "$out"
    expect "a certificate through $out, where an include is looked for" 2 '' 'error: the certificate would overwrite there.ctb, a file that is read\n'
    [ -L "$out" ] && [ ! -e there.ctb ] || wrong "a certificate through $out" 'it was written'
done
ln -s far.cert there.ctb
call search --path one here.ctb far.cert
expect 'a certificate where a link leads at which an include is looked for' 2 '' 'error: the certificate would overwrite there.ctb, a file that is read\n'
rm there.ctb to.there to.link to.whole

# Two texts by a table.
clash() {
    call clash "$1" "$2" "$3"
}

# Rules by place.
printf 'letter a 1\nletter b 12\nletter x 1-12\nalways ab 14\n' >contraction.ctb
translate contraction.ctb 'aab\n'
expect 'the longer rule is taken' 0 'AC\n' ''
clash contraction.ctb ab x
expect 'a rule keeps two texts apart' 0 'no clash\n' ''

printf 'letter a 1\nletter b 12\nletter c 14\nalways ab 14\n' >contraction.ctb
clash contraction.ctb ab c
expect 'a rule with the cells of a letter' 1 \
    'left: ab\nright: c\ncells: 14\nleft from 0:\n  ab  14  contraction.ctb:4\nright from 0:\n  c  14  contraction.ctb:3\n' ''

printf 'space \\s 0\nletter b 12\nletter u 136\nletter t 2345\nword but 12\n' >word.ctb
translate word.ctb 'b but tub\n'
expect 'a word by a rule' 0 'B B TUB\n' ''
clash word.ctb but b
expect 'a word with the cells of a letter' 1 \
    'left: but\nright: b\ncells: 12\nleft from 0:\n  but  12  word.ctb:5\nright from 0:\n  b  12  word.ctb:2\n' ''

echo 'word b 56-12' >>word.ctb
translate word.ctb 'b but\n'
expect 'a letter that stands alone' 0 ';B B\n' ''
clash word.ctb but b
expect 'a rule for the letter keeps them apart' 0 'no clash\n' ''

# Numbers and capitals.
printf 'letter a 1\nlitdigit 1 1\nnumsign 3456\n' >numbers.ctb
clash numbers.ctb 1a 11
expect 'a letter that is read as a digit' 1 \
    'left: 1a\nright: 11\ncells: 3456-1-1\nleft from 1:\n  a  1  numbers.ctb:1\nright from 1:\n  1  1  numbers.ctb:2\n' ''

printf 'nocontractsign 56\nnumericnocontchars a\n' >>numbers.ctb
translate numbers.ctb '1a\n'
expect 'a sign between a number and a letter' 0 '#A;A\n' ''
clash numbers.ctb 1a 11
expect 'it keeps them apart' 0 'no clash\n' ''

printf 'uplow Aa 1\nuplow Bb 12\ncapsletter 6\nalways ab 14\n' >capitals.ctb
translate capitals.ctb 'Ab aB\n'
expect 'a blank that is not defined' 2 '' 'F1 UnknownChar 2 at line 1\n'
translate capitals.ctb 'Ab\naB\n'
expect 'capitals with a rule' 0 ',C\nA,B\n' ''

printf 'uplow Aa 1\n' >capitals.ctb
clash capitals.ctb A a
expect 'capitals without a sign' 1 \
    'left: A\nright: a\ncells: 1\nleft from 0:\n  A  1  capitals.ctb:1\nright from 0:\n  a  1  capitals.ctb:1\n' ''

printf 'litdigit 1 1\nnumsign 3456\npunctuation . 256\n' >numbers.ctb
translate numbers.ctb '1.1\n.1\n'
expect 'a mark that ends a number' 0 '#A4#A\n4#A\n' ''
echo 'numericmodechars .' >>numbers.ctb
translate numbers.ctb '1.1\n.1\n'
expect 'a mark that a number goes on behind' 0 '#A4A\n4#A\n' ''

printf 'litdigit 1 1\nletter t 2345\nletter h 125\nnumsign 3456\nendnum th 1456\n' >numbers.ctb
translate numbers.ctb '1th\nth\n'
expect 'a rule behind digits' 0 '#A?\nTH\n' ''

printf 'letter q 17\n' >dots.ctb
translate dots.ctb 'q\n'
expect 'a cell without an ascii mark' 2 '' 'U1 NoAscii at line 1\n'
given 'q\n' translate --form unicode dots.ctb
expect 'its mark in Unicode braille' 0 '\342\241\201\n' ''

# A table of these lines has this fault in this line.
refused() {
    printf "$1" >faulty.ctb
    translate faulty.ctb ''
    expect "$2" 2 '' "$2 at faulty.ctb:$3\n"
}

refused 'letter a 1\nalways ab 14\n' 'B5 UndefinedInRule ab' 2
refused 'letter a\n' 'B2 MissingOperand letter' 1
refused 'letter ab 1\n' 'B3 BadCharacters ab' 1
refused 'letter a 19\n' 'B4 BadDots 19' 1
refused 'numsign 6\nnumsign 6\n' 'B9 IndicatorTwice numsign' 2
refused 'numericmodechars .\n' 'B6 UndefinedInList .' 1
refused 'litdigit 1 1\nnumericnocontchars 1\n' 'B7 TwoRoles 1' 2

printf 'capsletter 6\ncapsign 6\n' >tables/twice.ctb
including twice.ctb
expect 'an indicator that is defined twice' 2 '' 'B9 IndicatorTwice capsign at tables/twice.ctb:2\n'

translate t.ctb 'ab\nc\nz\na\n'
expect 'the lines before a fault stand written' 2 'AB\nC\n' 'F1 UnknownChar 0 at line 3\n'

translate t.ctb 'ab\n\377\n'
expect 'an input that is not UTF-8' 2 'AB\n' 'U2 InputNotUtf8 at line 2\n'

"$program" translate t.ctb <folder >out 2>err
status=$?
expect 'an input that can not be read' 2 '' 'U3 InputFailed at line 1\n'

"$program" translate t.ctb <&- >out 2>err
status=$?
expect 'a closed standard input' 2 '' 'U3 InputFailed at line 1\n'

if [ -c /dev/full ]; then
    printf 'a\nb\n' | "$program" translate t.ctb >/dev/full 2>err
    status=$?
    : >out
    expect 'a full standard output' 2 '' 'U4 OutputFailed at line 1\n'

    "$program" --help >/dev/full 2>err
    status=$?
    expect 'help on a full standard output' 2 '' 'U4 OutputFailed\n'

    printf 'z\n' | "$program" translate t.ctb >out 2>/dev/full
    status=$?
    : >err
    expect 'a full standard error changes no status' 2 '' ''
else
    echo 'skipped: full outputs (there is no /dev/full)'
fi

printf 'a\nb\n' | "$program" translate t.ctb 2>err >&-
status=$?
: >out
expect 'a closed standard output' 2 '' 'U4 OutputFailed at line 1\n'

printf 'z\n' | "$program" translate t.ctb >out 2>&-
status=$?
: >err
expect 'a closed standard error changes no status' 2 '' ''

# Lines are written as they come: the first stands before the second is there.
mkfifo pipe
"$program" translate t.ctb <pipe >out 2>err &
child=$!
exec 3>pipe
printf 'ab\n' >&3
tries=0
while [ ! -s out ] && [ "$tries" -lt 50 ]; do
    sleep 0.1
    tries=$((tries + 1))
done
cp out early
printf 'c\n' >&3
exec 3>&-
wait "$child"
status=$?
printf 'AB\n' | cmp -s - early || wrong 'a line is written before the next is read' "standard output: $(cat early)"
expect 'a line is written before the next is read' 0 'AB\nC\n' ''

yes | { "$program" translate yes.ctb; echo $? >status; } 2>err | wc -l | tr -d ' ' >out
status=$(cat status)
expect 'an input without end' 2 '8388608\n' 'U6 InputTooLong at line 8388609\n'

"$program" translate t.ctb </dev/zero >out 2>err
status=$?
expect 'a line without end' 2 '' 'U5 InputLineTooLong at line 1\n'

call --help
expect_text 'help' 'Usage: brl'

# Runs the example in the help of a command, which names this table: it is one that a reader can paste.
run_example() {
    call "$1" --help
    expect_text "help on $1" "$2"
    grep -E '^  (printf|echo|brl) ' out | sed 's/brl /"$program" /' >example
    (. ./example) >out 2>err
    status=$?
}

run_example translate first.ctb
expect 'the example of the help on translate' 0 'ABC A\n' ''

run_example clash alike.ctb
expect 'the example of the help on clash' 1 \
    'left: ab\nright: x\ncells: 1-12\nleft from 0:\n  a  1   alike.ctb:1\n  b  12  alike.ctb:2\nright from 0:\n  x  1-12  alike.ctb:3\n' ''

run_example check a.ctb
expect 'the example of the help on check' 0 'accepted: 3 states, 1 pairs\n' ''

run_example search ab.ctb
expect 'the example of the help on search' 0 'certified: 2 states, 0 pairs\naccepted: 2 states, 0 pairs\n' ''

# Searches a table for a certificate.
search() {
    call search "$@"
}

search ab.ctb none/ab.cert
expect 'a certificate in a folder that is missing' 2 '' 'U7 CannotWrite none/ab.cert\n'

search ab.ctb folder
expect 'a folder as the certificate' 2 '' 'U7 CannotWrite folder\n'

if [ -c /dev/full ]; then
    search ab.ctb /dev/full
    expect 'a certificate on a full device' 2 '' 'U7 CannotWrite /dev/full\n'
fi

printf 'kept\n' >kept.cert
search word.ctb kept.cert --limit 0
expect 'a search that passes its limit' 3 'limit: 1 states, 0 pairs\n' ''

search ab.ctb two.cert --limit 2
expect 'as many states as the limit' 0 'certified: 2 states, 0 pairs\n' ''
search ab.ctb one.cert --limit 1
expect 'one state more than the limit' 3 'limit: 2 states, 0 pairs\n' ''
[ ! -e one.cert ] || wrong 'a search that passes its limit' 'it wrote a file'
ok 'a search that passes its limit writes no file'

printf 'letter a 1\nletter b 12\nletter x 1-12\nalways ab 14\n' >rule.ctb
search rule.ctb rule.cert --limit 3
expect 'as many states and pairs as the limit' 0 'certified: 3 states, 1 pairs\n' ''
search rule.ctb rule.cert --limit 2
case $status:$(cat out) in
    '3:limit: 3 states, '*) echo 'ok: one state more than the limit, beside pairs' ;;
    *) wrong 'one state more than the limit, beside pairs' "status $status: $(head -c 300 out)" ;;
esac
search alike.ctb kept.cert
[ "$status" = 1 ] && [ ! -s err ] || wrong 'a search that finds a clash' "status $status"
ok 'a search that finds a clash'
printf 'kept\n' | cmp -s - kept.cert || wrong 'a file where texts clash' 'it was written'
ok 'a file where texts clash stays'

printf 'a longer text than the certificate of two letters has, which is written over it\n%1000s\n' x >kept.cert
search ab.ctb kept.cert
expect 'a certificate is written over a longer file' 0 'certified: 2 states, 0 pairs\n' ''
call check ab.ctb kept.cert
expect 'it is accepted' 0 'accepted: 2 states, 0 pairs\n' ''

# The file at this path has just this text.
holds() {
    printf "$2" | cmp -s - "$1" || wrong "$3" "$1: $(head -c 300 "$1")"
    ok "$3"
}
two='BRLCERT 3\nstate 1 0 0\nstate 8 0 0\nend 2 0\n'
found='certified: 2 states, 0 pairs\n'

# Files of the table are refused for its certificate, whatever they are called.
overwrites="error: the certificate would overwrite own.ctb, a file that is read\n"
printf 'letter a 1\nletter b 12\n' >own.ctb
ln -s own.ctb link.ctb
ln own.ctb hard.ctb
for name in own.ctb ./own.ctb "$work/own.ctb" link.ctb hard.ctb; do
    search own.ctb "$name"
    expect "the table as the certificate, by ${name##*/}" 2 '' "$overwrites"
done
search link.ctb own.ctb
expect 'the file that a table links to as the certificate' 2 '' 'error: the certificate would overwrite link.ctb, a file that is read\n'
holds own.ctb 'letter a 1\nletter b 12\n' 'the table stays'
: >nothing.ctb
printf 'letter a 1\ninclude own.ctb\ninclude nothing.ctb\n' >including.ctb
search including.ctb own.ctb
expect 'an included file as the certificate' 2 '' "$overwrites"
search including.ctb nothing.ctb
expect 'an included file without lines as the certificate' 2 '' 'error: the certificate would overwrite nothing.ctb, a file that is read\n'

# So are they, and a file of accepted pairs, for the pairs of rules of a list.
clashes() {
    call clashes "$@"
}
printf '#\n' >own.pairs
ln -s own.pairs link.pairs
for name in own.ctb ./own.ctb link.ctb hard.ctb; do
    clashes own.ctb --write "$name"
    expect "the table for pairs of rules, by $name" 2 '' 'error: the pairs of rules would overwrite own.ctb, a file that is read\n'
done
holds own.ctb 'letter a 1\nletter b 12\n' 'the table stays'
for name in own.pairs link.pairs "$work/own.pairs"; do
    clashes own.ctb --accept own.pairs --write "$name"
    expect "the accepted pairs for others, by ${name##*/}" 2 '' 'error: the pairs of rules would overwrite own.pairs, a file that is read\n'
done
for name in own.pairs link.pairs; do
    search --accept own.pairs own.ctb "$name"
    expect "the accepted pairs as the certificate, by $name" 2 '' 'error: the certificate would overwrite own.pairs, a file that is read\n'
done
holds own.pairs '#\n' 'the accepted pairs stay'
search --accept bytes.ctb own.ctb own.cert
expect 'a search but for accepted pairs that are not UTF-8' 2 '' 'L3 NotUtf8 bytes.ctb\n'
clashes own.ctb --accept folder
expect 'a folder as the accepted pairs' 2 '' 'L2 ReadFailed folder\n'
clashes own.ctb --accept bytes.ctb
expect 'accepted pairs that are not UTF-8' 2 '' 'L3 NotUtf8 bytes.ctb\n'
clashes own.ctb --accept /dev/zero
expect 'accepted pairs without end' 2 '' 'L9 TooLarge /dev/zero\n'
sections='small letters: 1 pair of rules diverges, and no others\n  x / ab  1-12  alike.ctb:3 letter x  alike.ctb:1 letter a\n'
clashes alike.ctb --write none/alike.pairs
expect 'pairs of rules in a folder that is missing' 2 "$sections" 'U7 CannotWrite none/alike.pairs\n'
if [ -c /dev/full ]; then
    clashes alike.ctb --write /dev/full
    expect 'pairs of rules on a full device' 2 "$sections" 'U7 CannotWrite /dev/full\n'
fi
echo kept >kept.pairs
clashes alike.ctb --write kept.pairs --limit 0
[ "$status" = 3 ] || wrong 'a list that passes its limit' "status $status"
holds kept.pairs 'kept\n' 'a file of pairs where there may be others stays'
clashes alike.ctb --write kept.pairs
[ "$status" = 1 ] || wrong 'pairs of rules are written' "status $status"
holds kept.pairs 'letter a 1 / letter x 1-12\n' 'pairs of rules are written over another file'
clashes alike.ctb --accept kept.pairs --write rest.pairs
[ "$status" = 0 ] || wrong 'pairs of rules are accepted' "status $status"
holds rest.pairs '' 'no others are written'

# A certificate replaces a plain file, with its permissions, and through a link.
echo kept >kept.cert
chmod 640 kept.cert
ln -s kept.cert link.cert
search ab.ctb link.cert
expect 'a certificate through a link' 0 "$found" ''
[ -L link.cert ] && [ ! -L kept.cert ] || wrong 'a certificate through a link' 'the link was replaced'
holds kept.cert "$two" 'the file that the link names has it'
[ "$(ls -l kept.cert | cut -c 1-10)" = -rw-r----- ] || wrong 'the permissions of a certificate' "$(ls -l kept.cert)"
ok 'it has the permissions that the file had'
ln -s new.cert lost.cert
search ab.ctb lost.cert
expect 'a certificate through a link to a missing file' 0 "$found" ''
holds new.cert "$two" 'the missing file has it'
[ -L lost.cert ] || wrong 'a certificate through a link to a missing file' 'the link was replaced'
ln -s round.cert loop.cert
ln -s loop.cert round.cert
search ab.ctb loop.cert
expect 'a certificate through links without end' 2 '' 'U7 CannotWrite loop.cert\n'
[ -L loop.cert ] && [ -L round.cert ] || wrong 'a certificate through links without end' 'a link was replaced'
ln -s link.cert links.cert
search ab.ctb links.cert
expect 'a certificate through two links' 0 "$found" ''
[ -L links.cert ] && [ -L link.cert ] || wrong 'a certificate through two links' 'a link was replaced'
echo kept >closed.cert
chmod a-w closed.cert
if [ "$(id -u)" = 0 ]; then
    echo 'skipped: a file that may not be written (root may write every file)'
else
    search ab.ctb closed.cert
    expect 'a file that may not be written as the certificate' 2 '' 'U7 CannotWrite closed.cert\n'
    holds closed.cert 'kept\n' 'the file stays'
fi
printf 'somebody else\n' >kept.cert.part1
search ab.ctb kept.cert
expect 'a certificate beside a file with the name of a part' 0 "$found" ''
holds kept.cert.part1 'somebody else\n' 'that file stays'
rm kept.cert.part1
[ -z "$(find . -name '*.part*')" ] || wrong 'a certificate' "it left $(find . -name '*.part*')"
ok 'no part of a certificate is left'

# A pipe as the table, as the certificate that is checked and as the one that is written.
mkfifo table.pipe cert.pipe
cat ab.ctb >table.pipe &
cat new.cert >cert.pipe &
call check table.pipe cert.pipe
wait
expect 'a table and a certificate from pipes' 0 'accepted: 2 states, 0 pairs\n' ''
cat cert.pipe >piped.cert &
search ab.ctb cert.pipe
wait
expect 'a certificate into a pipe' 0 "$found" ''
holds piped.cert "$two" 'the pipe gives it'
{ "$program" search ab.ctb /dev/stdout 2>err; echo $? >status; } | cat >out
status=$(cat status)
expect 'a certificate on standard output' 0 "$two$found" ''
"$program" check ab.ctb /dev/stdin >out 2>err <new.cert
status=$?
expect 'a certificate on standard input' 0 'accepted: 2 states, 0 pairs\n' ''
call check ab.ctb folder
expect 'a folder as the certificate that is checked' 2 '' 'L2 ReadFailed folder\n'
call check ab.ctb /dev/zero
expect 'a certificate without end' 2 '' 'L9 TooLarge /dev/zero\n'

# A reader that goes away.
{ yes a | head -n 100000 | { "$program" translate ab.ctb 2>err; echo $? >status; }; } | head -n 1 >out
status=$(cat status)
sed -i 's/[0-9]*$/N/' err
expect 'a reader that takes one line of many' 2 'A\n' 'U4 OutputFailed at line N\n'

# Runs the program where nobody reads its output.
unread() {
    { sleep 0.1; "$program" "$@" 2>err; echo $? >status; } | :
    status=$(cat status)
    : >out
}
for words in 'clashes alike.ctb' 'rules alike.ctb' 'trace alike.ctb a' 'survey alike.ctb' 'unused alike.ctb' \
    'explain B1' '--help' 'rules --help'; do
    # shellcheck disable=SC2086
    unread $words
    expect "a closed pipe after $words" 2 '' ''
done
unread cut alike.ctb unread.cut
expect 'a closed pipe after a cut' 2 '' ''
cmp -s alike.ctb unread.cut/alike.ctb || wrong 'a closed pipe after a cut' 'the cut differs'
for words in 'clash alike.ctb ab x' 'check ab.ctb new.cert' 'search alike.ctb /dev/null'; do
    # shellcheck disable=SC2086
    unread $words
    expect "a closed pipe after $words" 2 '' 'U4 OutputFailed\n'
done
if [ -c /dev/full ]; then
    "$program" rules alike.ctb 2>err >/dev/full
    status=$?
    : >out
    expect 'a list on a full standard output' 2 '' 'U4 OutputFailed\n'
fi

# A line of a fault that names a pipe, or a file that includes one, which nobody writes to.
mkfifo waiting.pipe
printf 'include waiting.pipe\nletter a 9\n' >waiting.ctb
for line in 'B1 OutsideProfile x at waiting.pipe:1' 'B4 BadDots 9 at waiting.ctb:2' 'L3 NotUtf8 waiting.pipe' 'B2 MissingOperand x at /dev/zero:1'; do
    timeout 10 "$program" explain "$line" >out 2>err
    status=$?
    expect_text "an explanation of $line" 'What to do:'
done
rm waiting.pipe

# A word that is not UTF-8.
"$program" translate "$(printf 'a\377.ctb')" >out 2>err </dev/null
status=$?
expect 'a word that is not UTF-8' 2 '' "error: word 2 of the command line isn't UTF-8: a\357\277\275.ctb\n"

printf 'letter a 1\nletter a 12\n' >again.ctb
search again.ctb again.cert
printf 'notice DefinedAgain a at again.ctb:2\n' | cmp -s - err || wrong 'a notice' "standard error: $(cat err)"
[ "$status" = 0 ] && [ -s again.cert ] || wrong 'a notice' "status $status"
ok 'a character that is defined again'

call check missing.ctb missing.cert
expect 'a missing certificate comes before the table' 2 '' 'L1 NotFound missing.cert\n'

call check first.ctb first.ctb
expect 'a file that is no certificate' 1 'refused: K2 Syntax line 1\n' ''

call clash t.ctb abc cba
expect 'texts that do not clash' 0 'no clash\n' ''

call clash t.ctb ab 'a z'
expect 'a text with an unknown character' 2 '' 'F1 UnknownChar 2 at right\n'

call clash missing.ctb z z
expect 'a missing table comes before the texts' 2 '' 'L1 NotFound missing.ctb\n'

"$program" clash t.ctb ab ab 2>err >/dev/full
status=$?
: >out
expect 'a finding on a full standard output' 2 '' 'U4 OutputFailed\n'

call --version
expect_text 'the version' 'brl '

"$program" >out 2>err
status=$?
[ "$status" = 2 ] && [ ! -s out ] && [ -s err ] || wrong 'no words' "status $status"
ok 'no words are a use fault'

"$program" translate --nothing t.ctb >out 2>err </dev/null
status=$?
[ "$status" = 2 ] && [ ! -s out ] && [ -s err ] || wrong 'an unknown option' "status $status"
ok 'an unknown option is a use fault'
