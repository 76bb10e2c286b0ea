# Completion of etcs for fish. Written by tools/manual.py from the help of etcs.

# Whether this is the command, or with no argument whether there is none yet.
function __etcs_runs
    set -l words (commandline -opc)
    test "$words[2]" = "$argv[1]"
end

complete -c etcs -f
complete -c etcs -n __etcs_runs -a show -d 'Show the variables of each telegram or message, one per line'
complete -c etcs -n __etcs_runs -a check -d 'Check each telegram or message, and write one line with its number of bits'
complete -c etcs -n __etcs_runs -a convert -d 'Write each telegram or message in another form'
complete -c etcs -n __etcs_runs -a group -d 'Put the telegrams of a balise group together, in any order, and show its message'
complete -c etcs -n __etcs_runs -a log -d 'Read a log with one item per line, and report why each bad line is bad'
complete -c etcs -n __etcs_runs -a explain -d 'Explain each telegram or message: the bits, the number and the meaning of each variable, and why it is refused'
complete -c etcs -n __etcs_runs -a blank -d 'Write a telegram or message to begin with, as a line of JSON'
complete -c etcs -n __etcs_runs -a schema -d 'Write the JSON Schema of the items that convert writes and reads'
complete -c etcs -n __etcs_runs -a tables -d 'Write the tables of variables, packets and messages as JSON'
complete -c etcs -n __etcs_runs -a completions -d 'Write the completion of command lines for a shell'
complete -c etcs -n __etcs_runs -a help -d 'Print this message or the help of the given subcommand(s)'
complete -c etcs -n __etcs_runs -s h -l help -d 'Print help'
complete -c etcs -n __etcs_runs -s V -l version -d 'Print version'
complete -c etcs -n '__etcs_runs show' -l kind -x -a 'long short radio train' -d 'Balise telegrams of 830 user bits (long) or of 210 (short), or radio messages to the train (radio) or to the track (train)'
complete -c etcs -n '__etcs_runs show' -l from -x -a 'hex bin json' -d 'Form of the input: lines of hexadecimal digits (hex), the bytes themselves (bin) or lines of JSON (json) [default: hex]'
complete -c etcs -n '__etcs_runs show' -s h -l help -d 'Print help'
complete -c etcs -n '__etcs_runs check' -l kind -x -a 'long short radio train' -d 'Balise telegrams of 830 user bits (long) or of 210 (short), or radio messages to the train (radio) or to the track (train)'
complete -c etcs -n '__etcs_runs check' -l from -x -a 'hex bin json' -d 'Form of the input: lines of hexadecimal digits (hex), the bytes themselves (bin) or lines of JSON (json) [default: hex]'
complete -c etcs -n '__etcs_runs check' -s h -l help -d 'Print help'
complete -c etcs -n '__etcs_runs convert' -l kind -x -a 'long short radio train' -d 'Balise telegrams of 830 user bits (long) or of 210 (short), or radio messages to the train (radio) or to the track (train)'
complete -c etcs -n '__etcs_runs convert' -l from -x -a 'hex bin json' -d 'Form of the input: lines of hexadecimal digits (hex), the bytes themselves (bin) or lines of JSON (json) [default: hex]'
complete -c etcs -n '__etcs_runs convert' -l to -x -a 'hex bin json' -d 'Form of the output: one line of hexadecimal digits per item (hex), the bytes themselves (bin) or one line of JSON per item (json)'
complete -c etcs -n '__etcs_runs convert' -s h -l help -d 'Print help'
complete -c etcs -n '__etcs_runs group' -l kind -x -a 'long short' -d 'Balise telegrams of 830 user bits (long) or of 210 (short)'
complete -c etcs -n '__etcs_runs group' -l from -x -a 'hex bin json' -d 'Form of the input: lines of hexadecimal digits (hex), the bytes themselves (bin) or lines of JSON (json) [default: hex]'
complete -c etcs -n '__etcs_runs group' -s h -l help -d 'Print help'
complete -c etcs -n '__etcs_runs log' -s k -l kind -x -a 'auto long short radio train' -d 'Balise telegrams of 830 user bits (long) or of 210 (short), radio messages to the train (radio) or to the track (train), or all of them (auto); repeated, or with commas, for several kinds [default: auto]'
complete -c etcs -n '__etcs_runs log' -l good -d 'Write the digits of good lines, each after its kind if there are several kinds, and report bad lines and those of other kinds on standard error'
complete -c etcs -n '__etcs_runs log' -l to -x -a 'hex json' -d 'Write the good lines as digits (hex, the same as --good) or as one line of JSON each (json): the line\'s number, what is before its digits, and its item'
complete -c etcs -n '__etcs_runs log' -l packet -x -d 'Write only the good lines whose item has one of these packets, by NID_PACKET; repeated, or with commas, for several'
complete -c etcs -n '__etcs_runs log' -l message -x -d 'Write only the good lines whose item is one of these messages, by NID_MESSAGE; with --packet those of either'
complete -c etcs -n '__etcs_runs log' -l summary -d 'Count items, bad lines, lines of other kinds, lines of text, messages kept as bits, packets and messages by number, and refusals by variable and cause'
complete -c etcs -n '__etcs_runs log' -l groups -d 'Write at the end one line for each balise group, in the order in which they began: complete, which N_PIG are missing, or empty; and how many telegrams clash'
complete -c etcs -n '__etcs_runs log' -l strict -d 'Report lines of text as bad'
complete -c etcs -n '__etcs_runs log' -l quiet -d 'Don\'t report single lines'
complete -c etcs -n '__etcs_runs log' -s h -l help -d 'Print help'
complete -c etcs -n '__etcs_runs log' -F
complete -c etcs -n '__etcs_runs explain' -s k -l kind -x -a 'auto long short radio train' -d 'Balise telegrams of 830 user bits (long) or of 210 (short), radio messages to the train (radio) or to the track (train), or of each item the kind that its first bytes suggest (auto) [default: auto]'
complete -c etcs -n '__etcs_runs explain' -l from -x -a 'hex bin json' -d 'Form of the input: lines of hexadecimal digits (hex), the bytes themselves (bin) or lines of JSON (json) [default: hex]'
complete -c etcs -n '__etcs_runs explain' -l to -x -a 'text html' -d 'Form of the output: lines of text (text) or a page for a browser (html) [default: text]'
complete -c etcs -n '__etcs_runs explain' -s h -l help -d 'Print help'
complete -c etcs -n '__etcs_runs explain' -F
complete -c etcs -n '__etcs_runs blank' -s k -l kind -x -a 'long short radio train' -d 'Balise telegrams of 830 user bits (long) or of 210 (short), or radio messages to the train (radio) or to the track (train)'
complete -c etcs -n '__etcs_runs blank' -s h -l help -d 'Print help'
complete -c etcs -n '__etcs_runs schema' -s h -l help -d 'Print help'
complete -c etcs -n '__etcs_runs tables' -s h -l help -d 'Print help'
complete -c etcs -n '__etcs_runs completions' -s h -l help -d 'Print help'
complete -c etcs -n '__etcs_runs completions' -a 'bash zsh fish'
complete -c etcs -n '__etcs_runs help' -a 'show check convert group log explain blank schema tables completions help'
