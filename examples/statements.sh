#!/bin/sh
# Writes the statement of each account of a desk's file over some days, both included, into a file of its own, FOLDER/ACCOUNT.txt: of all accounts, or of
# those of a customer. FOLDER must not exist. Nothing else may have the file open.
#
#     sh examples/statements.sh FILE FROM TO FOLDER [CUSTOMER]
#
# BRK names the program; without it `brk` on PATH is taken, and then ../brk. It ends with the exit status of `brk statements`: at any other than 0 it
# leaves no FOLDER. Status 0 means that all statements are whole.
set -eu
if [ $# -ne 4 ] && [ $# -ne 5 ]; then
    echo "usage: sh examples/statements.sh FILE FROM TO FOLDER [CUSTOMER]" >&2
    exit 2
fi
if [ ! -s "$1" ]; then
    echo "no desk: $1 is missing or empty" >&2
    exit 1
fi
brk=${BRK:-$(command -v brk || echo "$(dirname "$0")/../brk")}
mkdir -- "$4"
trap 'rm -rf -- "$4"; exit 130' HUP INT TERM
status=0
"$brk" statements --db "$1" --from "$2" --to "$3" ${5:+--customer "$5"} > "$4/all" || status=$?
# The last line of a statement is the only one of its form: the two first lines are its title and the account's name, and no symbol is so long.
if [ $status -eq 0 ]; then
    LC_ALL=C FOLDER="$4" awk '
        line == 0 { file = ENVIRON["FOLDER"] "/" $4 ".txt" }
        { line++; print > file }
        line > 2 && /^Cash rows [0-9]+, lots [0-9]+$/ { close(file); line = 0 }' "$4/all" || status=$?
fi
if [ $status -ne 0 ]; then
    rm -rf -- "$4"
    exit $status
fi
rm -- "$4/all"
