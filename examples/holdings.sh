#!/bin/sh
# Prints what a customer of a desk's file holds, in four ways that have to agree: the view of the customer, the explanation of each
# holding, the statement of each account over some days, and a query on a copy of the tables. It needs the command sqlite3, and that
# nothing else has the file open.
#
#     sh examples/holdings.sh FILE CUSTOMER FROM TO
#
# BRK names the program; without it `brk` on PATH is taken, and then ../brk. It ends at the first answer that is not whole, with its exit status.
set -eu
if [ $# -ne 4 ]; then
    echo "usage: sh examples/holdings.sh FILE CUSTOMER FROM TO" >&2
    exit 2
fi
case $2 in
    '' | *[!0-9]*)
        echo "usage: CUSTOMER is a number" >&2
        exit 2
        ;;
esac
if [ ! -s "$1" ]; then
    echo "no desk: $1 is missing or empty" >&2
    exit 1
fi
brk=${BRK:-$(command -v brk || echo "$(dirname "$0")/../brk")}
folder=$(mktemp -d)
trap 'rm -rf "$folder"' EXIT
"$brk" ask --db "$1" --heads customer "$2"
sqlite3 "$1" ".backup '$folder/copy.db'"
sqlite3 -separator ' ' "$folder/copy.db" "SELECT HS_CA_ID, HS_S_SYMB FROM HOLDING_SUMMARY JOIN CUSTOMER_ACCOUNT ON CA_ID = HS_CA_ID
    WHERE CA_C_ID = $2 ORDER BY HS_CA_ID, HS_S_SYMB" > "$folder/holdings"
while read -r account symbol; do
    echo
    "$brk" explain --db "$1" -- holding "$account" "$symbol" < /dev/null
done < "$folder/holdings"
for account in $(sqlite3 "$folder/copy.db" "SELECT CA_ID FROM CUSTOMER_ACCOUNT WHERE CA_C_ID = $2 ORDER BY CA_ID"); do
    echo
    "$brk" statement --db "$1" --account "$account" --from "$3" --to "$4"
done
echo
sqlite3 -header -csv "$folder/copy.db" "SELECT HS_CA_ID, HS_S_SYMB, HS_QTY, LT_PRICE, HS_QTY * LT_PRICE AS WORTH
    FROM HOLDING_SUMMARY JOIN LAST_TRADE ON LT_S_SYMB = HS_S_SYMB JOIN CUSTOMER_ACCOUNT ON CA_ID = HS_CA_ID
    WHERE CA_C_ID = $2 ORDER BY HS_CA_ID, HS_S_SYMB"
