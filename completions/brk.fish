# Completion of brk for fish 3 or later.

# Whether no word follows brk yet.
function __brk_is_first
    test (count (commandline -opc)) -eq 1
end

# Whether the command is this one.
function __brk_is
    set -l words (commandline -opc)
    set -q words[2]; and test "$words[2]" = $argv[1]
end

# Whether the command is this one, and lacks an option or just has it before its value.
function __brk_lacks
    set -l words (commandline -opc)
    __brk_is $argv[1]; or return 1
    test "$words[-1]" = --$argv[2]; or not string match -qr -- "^--$argv[2](=|\$)" $words
end

# Whether the command is this one, and has no argument but options and their values.
function __brk_is_bare
    __brk_is $argv[1]; or return 1
    set -l words (commandline -opc)
    set -e words[1..2]
    while set -q words[1]
        if test "$words[1]" = --
            set -q words[2]; and return 1
        else if contains -- "$words[1]" --account --at --customer --db --from --port --streams --to
            set -e words[1]
        else if not string match -q -- '-*' "$words[1]"
            return 1
        end
        set -e words[1]
    end
end

complete -c brk -e
complete -c brk -f
complete -c brk -n __brk_is_first -s h -l help -d 'Prints the help'
complete -c brk -n __brk_is_first -s V -l version -d 'Prints the version, the schema of new files and the kit of the proofs'
complete -c brk -n '__brk_is_first' -a batch -d 'Reads a batch from standard input and writes a line for each row'
complete -c brk -n '__brk_is_first' -a statement -d 'Prints the statement of an account: its cash, day by day, and its lots'
complete -c brk -n '__brk_is_first' -a statements -d 'Prints the statements of all accounts, or of a customer\'s, one after the other'
complete -c brk -n '__brk_is_first' -a ask -d 'Prints a view of a desk: a CSV row for each record'
complete -c brk -n '__brk_is_first' -a explain -d 'Prints how the amounts of a trade, an account, a holding or a broker come about'
complete -c brk -n '__brk_is_first' -a audit -d 'Recomputes every derived table of a desk, and prints ok if all are right'
complete -c brk -n '__brk_is_first' -a serve -d 'Serves the desk over HTTP, one stream after the other'
complete -c brk -n '__brk_is_first' -a help -d 'Prints the commands, or the help of a command'
complete -c brk -n '__brk_is_bare help' -a batch -d 'Reads a batch from standard input and writes a line for each row'
complete -c brk -n '__brk_is_bare help' -a statement -d 'Prints the statement of an account: its cash, day by day, and its lots'
complete -c brk -n '__brk_is_bare help' -a statements -d 'Prints the statements of all accounts, or of a customer\'s, one after the other'
complete -c brk -n '__brk_is_bare help' -a ask -d 'Prints a view of a desk: a CSV row for each record'
complete -c brk -n '__brk_is_bare help' -a explain -d 'Prints how the amounts of a trade, an account, a holding or a broker come about'
complete -c brk -n '__brk_is_bare help' -a audit -d 'Recomputes every derived table of a desk, and prints ok if all are right'
complete -c brk -n '__brk_is_bare help' -a serve -d 'Serves the desk over HTTP, one stream after the other'

complete -c brk -n '__brk_is batch' -s h -l help -d 'Prints the help'
complete -c brk -n '__brk_lacks batch db' -l db -r -F -d 'FILE: The file of the desk, created if it is missing or empty (check the path); without it the desk is in memory'
complete -c brk -n '__brk_lacks batch existing' -l existing -d 'Makes no desk: the file must have one'
complete -c brk -n '__brk_lacks batch at' -l at -x -d 'MS, from 0 to 253402300799999: The clock reading, in milliseconds since 1970-01-01 UTC, never one in the future; without it the clock is read'

complete -c brk -n '__brk_is statement' -s h -l help -d 'Prints the help'
complete -c brk -n '__brk_lacks statement db' -l db -r -F -d 'FILE: The file of the desk'
complete -c brk -n '__brk_lacks statement account' -l account -x -d 'ID, from 1 to 1000000000000: The account'
complete -c brk -n '__brk_lacks statement from' -l from -x -d 'DAY: The first day, as 2024-03-01'
complete -c brk -n '__brk_lacks statement to' -l to -x -d 'DAY: The last day'

complete -c brk -n '__brk_is statements' -s h -l help -d 'Prints the help'
complete -c brk -n '__brk_lacks statements db' -l db -r -F -d 'FILE: The file of the desk'
complete -c brk -n '__brk_lacks statements from' -l from -x -d 'DAY: The first day, as 2024-03-01'
complete -c brk -n '__brk_lacks statements to' -l to -x -d 'DAY: The last day'
complete -c brk -n '__brk_lacks statements customer' -l customer -x -d 'ID, from 1 to 1000000000000: The customer; without it the accounts of all customers'

complete -c brk -n '__brk_is ask' -s h -l help -d 'Prints the help'
complete -c brk -n '__brk_lacks ask db' -l db -r -F -d 'FILE: The file of the desk'
complete -c brk -n '__brk_lacks ask json' -l json -d 'Prints the view as JSON, as over HTTP'
complete -c brk -n '__brk_lacks ask heads' -l heads -d 'Prints the names of the fields first, where all records have the same'
complete -c brk -n '__brk_is_bare ask' -a customer -d 'ID'
complete -c brk -n '__brk_is_bare ask' -a taxid -d 'TAXID'
complete -c brk -n '__brk_is_bare ask' -a recent -d 'ACCOUNT'
complete -c brk -n '__brk_is_bare ask' -a status -d 'ACCOUNT'
complete -c brk -n '__brk_is_bare ask' -a submitted
complete -c brk -n '__brk_is_bare ask' -a estimate -d 'ACCOUNT TYPE SYMBOL QTY PRICE CASH END FIRST LAST TAXID'
complete -c brk -n '__brk_is_bare ask' -a trades -d 'ID ..'
complete -c brk -n '__brk_is_bare ask' -a accounttrades -d 'ACCOUNT FROM TO'
complete -c brk -n '__brk_is_bare ask' -a symboltrades -d 'SYMBOL FROM TO'
complete -c brk -n '__brk_is_bare ask' -a lots -d 'ACCOUNT FROM'
complete -c brk -n '__brk_is_bare ask' -a volume -d 'SECTOR NAME ..'

complete -c brk -n '__brk_is explain' -s h -l help -d 'Prints the help'
complete -c brk -n '__brk_lacks explain db' -l db -r -F -d 'FILE: The file of the desk'
complete -c brk -n '__brk_is_bare explain' -a trade -d 'ID'
complete -c brk -n '__brk_is_bare explain' -a account -d 'ID'
complete -c brk -n '__brk_is_bare explain' -a holding -d 'ACCOUNT SYMBOL'
complete -c brk -n '__brk_is_bare explain' -a broker -d 'ID'

complete -c brk -n '__brk_is audit' -s h -l help -d 'Prints the help'
complete -c brk -n '__brk_lacks audit db' -l db -r -F -d 'FILE: The file of the desk'

complete -c brk -n '__brk_is serve' -s h -l help -d 'Prints the help'
complete -c brk -n '__brk_lacks serve port' -l port -x -d 'P, from 1 to 65535: The port of 127.0.0.1'
complete -c brk -n '__brk_lacks serve db' -l db -r -F -d 'FILE: The file of the desk, created if it is missing or empty (check the path); without it the desk is in memory'
complete -c brk -n '__brk_lacks serve existing' -l existing -d 'Makes no desk: the file must have one'
complete -c brk -n '__brk_lacks serve at' -l at -x -d 'MS, from 0 to 253402300799999: The clock reading, in milliseconds since 1970-01-01 UTC, never one in the future; without it the clock is read'
complete -c brk -n '__brk_lacks serve streams' -l streams -x -d 'N, from 1 to 1000000: The number of streams that are served before the program ends'
