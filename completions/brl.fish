# Completions of the words of brl for fish.

# How many operands of the command come before the cursor.
function __brl_operands
    set -l count 0
    set -l takes_value no
    for word in (commandline -opc)[3..-1]
        if test $takes_value = yes
            set takes_value no
        else if contains -- $word --accept --form --first --kind --limit --only --path --without --write
            set takes_value yes
        else if not string match -q -- '-*' $word
            set count (math $count + 1)
        end
    end
    echo $count
end

# The command before the cursor is one of these.
function __brl_is
    set -l words (commandline -opc)
    contains -- "$words[2]" $argv
end

# The command before the cursor is this one, and one of these numbers of operands comes after it.
function __brl_at
    __brl_is $argv[1]; and contains -- (__brl_operands) $argv[2..-1]
end

# No word comes before the cursor but brl.
function __brl_is_first
    test (count (commandline -opc)) = 1
end

complete -c brl -f
complete -c brl -n __brl_is_first -a translate -d 'Translate text into braille by a table'
complete -c brl -n __brl_is_first -a clash -d 'Say whether two texts look alike in braille'
complete -c brl -n __brl_is_first -a trace -d 'Show the steps of the translation of a text'
complete -c brl -n __brl_is_first -a rules -d 'List the rules of a table by their numbers'
complete -c brl -n __brl_is_first -a unused -d 'List the rules of a table that no text uses'
complete -c brl -n __brl_is_first -a slips -d 'List rules that look like typing errors'
complete -c brl -n __brl_is_first -a explain -d 'Say what a fault means'
complete -c brl -n __brl_is_first -a search -d 'Decide whether any two texts look alike by a table'
complete -c brl -n __brl_is_first -a clashes -d 'List every pair of rules by which texts look alike'
complete -c brl -n __brl_is_first -a check -d 'Say whether a certificate proves a table unambiguous'
complete -c brl -n __brl_is_first -a survey -d 'List the lines of tables that are not read'
complete -c brl -n __brl_is_first -a cut -d 'Write the lines of a table that are read as a table of its own'
complete -c brl -n __brl_is_first -a help -d 'Print help on brl or on a command'

complete -c brl -n 'not __brl_is help' -l help -d 'Print help'
complete -c brl -n __brl_is_first -l version -d 'Print the version'
complete -c brl -n '__brl_is translate' -l form -x -a 'ascii unicode' -d 'How cells are written'
complete -c brl -n '__brl_is translate' -l lacking -d 'Pass over lines with undefined characters, and list these'
complete -c brl -n '__brl_is search clashes' -l limit -x -d 'How many states and pairs may be found'
complete -c brl -n '__brl_is unused' -l limit -x -d 'How many states may be found'
complete -c brl -n '__brl_is slips clashes' -l tsv -d 'Write named columns with tabs between them'
complete -c brl -n '__brl_is clash trace' -l escapes -d 'Read texts as they are spelled in tables and reports'
complete -c brl -n '__brl_is clash trace' -l lines -d 'Show the lines of the table by which each step is made'
complete -c brl -n '__brl_is survey' -l brief -d 'Leave the list of faults out'
complete -c brl -n '__brl_is survey cut' -l only -x -d 'Characters of the texts on which lines may act'
complete -c brl -n '__brl_is cut' -l rewrite -d 'Also read four more forms of lines, as they are rewritten'
complete -c brl -n '__brl_is clashes' -l first -x -d 'Show a line for each of the first pairs of a section'
complete -c brl -n '__brl_is clashes' -l kind -x -a 'alike rules cells case several begins word asdigit number sets again unseen braille' -d 'Show the pairs of one kind alone'
complete -c brl -n '__brl_is clashes' -l accept -r -F -d 'Leave the pairs of rules out that this file names'
complete -c brl -n '__brl_is search check' -l accept -r -F -d 'Find no clash in what this file names'
complete -c brl -n '__brl_is clashes' -l prune -d 'Take the stale lines out of the file of accepted pairs'
complete -c brl -n '__brl_is clashes' -l write -r -F -d 'Write the pairs of rules that are listed to this file'
complete -c brl -n '__brl_is search clashes check unused' -l without -x -d 'Characters that the texts do not use'
complete -c brl -n '__brl_is search clashes check unused' -l only -x -d 'Characters of which the texts are made'
complete -c brl -n '__brl_is translate clash trace rules unused slips explain search clashes check survey cut' -l path -x -a '(__fish_complete_directories)' -d 'Look for files of tables in this folder, too'

complete -c brl -n '__brl_at translate 0' -F
complete -c brl -n '__brl_at clash 0' -F
complete -c brl -n '__brl_at trace 0' -F
complete -c brl -n '__brl_at rules 0' -F
complete -c brl -n '__brl_at unused 0' -F
complete -c brl -n '__brl_at slips 0' -F
complete -c brl -n '__brl_at search 0 1' -F
complete -c brl -n '__brl_at clashes 0' -F
complete -c brl -n '__brl_at check 0 1' -F
complete -c brl -n '__brl_is survey' -F
complete -c brl -n '__brl_at cut 0' -F
complete -c brl -n '__brl_at cut 1' -x -a '(__fish_complete_directories)'
complete -c brl -n '__brl_at help 0' -a 'translate clash trace rules unused slips explain search clashes check survey cut'
