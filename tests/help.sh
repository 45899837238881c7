# What the help of "$program" names. tests/man.sh and tests/completions.sh read this file.

# The indented lines below this heading, in the help of a command or of brl itself.
below() {
    heading=$1
    shift
    "$program" help "$@" | awk -v heading="$heading:" '/^[^ ]/ { is_below = $0 == heading } is_below && /^ /'
}

# The commands, one a line.
commands() {
    below Commands | sed -n 's/^  \([a-z][a-z]*\) .*/\1/p'
}

# The long options of a command or of brl itself, one a line.
options() {
    below Options "$@" | sed -n 's/^ *\(-[a-zA-Z], \)\{0,1\}\(--[a-z][a-z-]*\).*/\2/p'
}

# The names of the operands of a command, in their order.
operands() {
    below Arguments "$1" | sed -n 's/^  [<[]\([A-Z]*\)[]>].*/\1/p'
}
