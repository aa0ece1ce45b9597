# Completion of brk for bash 4 or later.

# Shows what a value is when the shell lists what there is, and completes nothing: the two texts
# have no first letter in common.
_brk_hint() {
    case $COMP_TYPE in
        33 | 63) [[ -n $cur ]] || COMPREPLY=("<$1>" "${2:- }") ;;
    esac
}

# Offers files. A name that begins with a quote is left to the shell.
_brk_files() {
    compopt -o filenames -o default 2>/dev/null
    mapfile -t COMPREPLY < <(compgen -f -- "$cur")
}

# Offers the words of a list that were not given yet.
_brk_words() {
    local offered=() word
    for word in $1; do
        [[ " ${given[*]} " == *" $word "* ]] || offered+=("$word")
    done
    mapfile -t COMPREPLY < <(compgen -W "${offered[*]}" -- "$cur")
}

# Whether a value follows an option of a command.
_brk_is_before_value() {
    case "$1 $2" in
        "batch --db" | "batch --at") return 0 ;;
        "statement --db" | "statement --account" | "statement --from" | "statement --to") return 0 ;;
        "statements --db" | "statements --from" | "statements --to" | "statements --customer") return 0 ;;
        "ask --db") return 0 ;;
        "explain --db") return 0 ;;
        "audit --db") return 0 ;;
        "serve --port" | "serve --db" | "serve --at" | "serve --streams") return 0 ;;
    esac
    return 1
}

_brk_value() {
    case "$1 $2" in
        "batch --db") _brk_files ;;
        "batch --at") _brk_hint MS 'The clock reading, in milliseconds since 1970-01-01 UTC, never one in the future; without it the clock is read (from 0 to 253402300799999)' ;;
        "statement --db") _brk_files ;;
        "statement --account") _brk_hint ID 'The account (from 1 to 1000000000000)' ;;
        "statement --from") _brk_hint DAY 'The first day, as 2024-03-01' ;;
        "statement --to") _brk_hint DAY 'The last day' ;;
        "statements --db") _brk_files ;;
        "statements --from") _brk_hint DAY 'The first day, as 2024-03-01' ;;
        "statements --to") _brk_hint DAY 'The last day' ;;
        "statements --customer") _brk_hint ID 'The customer; without it the accounts of all customers (from 1 to 1000000000000)' ;;
        "ask --db") _brk_files ;;
        "explain --db") _brk_files ;;
        "audit --db") _brk_files ;;
        "serve --port") _brk_hint P 'The port of 127.0.0.1 (from 1 to 65535)' ;;
        "serve --db") _brk_files ;;
        "serve --at") _brk_hint MS 'The clock reading, in milliseconds since 1970-01-01 UTC, never one in the future; without it the clock is read (from 0 to 253402300799999)' ;;
        "serve --streams") _brk_hint N 'The number of streams that are served before the program ends (from 1 to 1000000)' ;;
    esac
}

_brk_options() {
    case $1 in
        batch) echo '--db --existing --at --help' ;;
        statement) echo '--db --account --from --to --help' ;;
        statements) echo '--db --from --to --customer --help' ;;
        ask) echo '--db --json --heads --help' ;;
        explain) echo '--db --help' ;;
        audit) echo '--db --help' ;;
        serve) echo '--port --db --existing --at --streams --help' ;;
        '') echo '--help --version' ;;
    esac
}

_brk_view() {
    case $1 in
        customer) _brk_hint 'ID' ;;
        taxid) _brk_hint 'TAXID' ;;
        recent) _brk_hint 'ACCOUNT' ;;
        status) _brk_hint 'ACCOUNT' ;;
        estimate) _brk_hint 'ACCOUNT TYPE SYMBOL QTY PRICE CASH END FIRST LAST TAXID' ;;
        trades) _brk_hint 'ID ..' ;;
        accounttrades) _brk_hint 'ACCOUNT FROM TO' ;;
        symboltrades) _brk_hint 'SYMBOL FROM TO' ;;
        lots) _brk_hint 'ACCOUNT FROM' ;;
        volume) _brk_hint 'SECTOR NAME ..' ;;
    esac
}

_brk_topic() {
    case $1 in
        trade) _brk_hint 'ID' ;;
        account) _brk_hint 'ID' ;;
        holding) _brk_hint 'ACCOUNT SYMBOL' ;;
        broker) _brk_hint 'ID' ;;
    esac
}

_brk_text() {
    case $1 in
        '') _brk_words 'batch statement statements ask explain audit serve help' ;;
        help) [[ ${#texts[@]} -gt 0 ]] || _brk_words 'batch statement statements ask explain audit serve' ;;
        batch) [[ -n $ended ]] || _brk_words "$(_brk_options batch)" ;;
        statement) [[ -n $ended ]] || _brk_words "$(_brk_options statement)" ;;
        statements) [[ -n $ended ]] || _brk_words "$(_brk_options statements)" ;;
        ask) if [[ ${#texts[@]} -eq 0 ]]; then _brk_words 'customer taxid recent status submitted estimate trades accounttrades symboltrades lots volume'; else _brk_view "${texts[0]}"; fi ;;
        explain) if [[ ${#texts[@]} -eq 0 ]]; then _brk_words 'trade account holding broker'; else _brk_topic "${texts[0]}"; fi ;;
        audit) [[ -n $ended ]] || _brk_words "$(_brk_options audit)" ;;
        serve) [[ -n $ended ]] || _brk_words "$(_brk_options serve)" ;;
    esac
}

_brk() {
    local cur=${COMP_WORDS[COMP_CWORD]} command= option= ended= given=() texts=() word i
    COMPREPLY=()
    # --db=FILE is three words here
    [[ $cur != = ]] || cur=
    for ((i = 1; i < COMP_CWORD; i++)); do
        word=${COMP_WORDS[i]}
        if [[ -n $option ]]; then
            [[ $word == = ]] || option=
        elif [[ -z $ended && $word == -- ]]; then
            ended=1
        elif [[ -z $ended && $word == -* ]]; then
            given+=("$word")
            _brk_is_before_value "$command" "$word" && option=$word
        elif [[ -z $command ]]; then
            command=$word
        else
            texts+=("$word")
        fi
    done
    if [[ -n $option ]]; then
        _brk_value "$command" "$option"
    elif [[ -z $ended && $cur == -* ]]; then
        _brk_words "$(_brk_options "$command")"
    else
        _brk_text "$command"
    fi
}

complete -F _brk brk
