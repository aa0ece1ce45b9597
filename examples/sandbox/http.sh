#!/bin/sh
# Drives a desk to practise with over HTTP, with curl: sh examples/sandbox/http.sh PORT. First make the desk, and serve it:
#
#     brk batch --db box.db --at 1709251200000 < examples/sandbox/mark.csv
#     brk serve --port 8199 --db box.db --existing --at 1709251200000 --streams 10 &
#     sh examples/sandbox/http.sh 8199
#
# Each command below opens one stream, and so does the test of the desk. Exit status: 4, and nothing is sent, if the desk has no
# customer with the tax id SANDBOX; 2 without PORT; 1 if nothing replies.
if [ $# -ne 1 ]; then
    echo "usage: sh examples/sandbox/http.sh PORT" >&2
    exit 2
fi
at="http://127.0.0.1:$1"

mark=$(curl -sS -d '["SANDBOX"]' "$at/ask/taxid") || exit 1
case $mark in
'{"view":'*) ;;
*)
    echo "http.sh: the desk on port $1 has no customer with the tax id SANDBOX, so it is no desk to practise with; nothing was sent: make one by examples/sandbox/make" >&2
    exit 4
    ;;
esac

tell() {
    printf '%s\n' "curl $*"
    curl -sS -w '   (%{http_code})\n' "$@"
}

# A row under a key, and the same row again, on one stream: it is booked once.
tell -d '["broker","1","Bo"]' "$at/rows/H/1" --next -sS -w '   (%{http_code})\n' -d '["broker","1","Bo"]' "$at/rows/H/1"
# Another row under that key, and the row without a key.
tell -d '["broker","2","Cy"]' "$at/rows/H/1"
tell -d '["broker","1","Bo"]' "$at/rows"
# A view.
tell -d '[]' "$at/ask/submitted"
# No route, another method, a body that is no list of texts.
tell -d '[]' "$at/ask/nothing"
tell "$at/rows"
tell -d '["broker",2,"Cy"]' "$at/rows"
# A chunked body is refused: the length has to be known.
tell -H 'Transfer-Encoding: chunked' -d '["broker","2","Cy"]' "$at/rows/H/2"
# A body that is awaited with 100-continue comes a second later; so take the field away.
tell -H 'Expect:' -d '["broker","2","Cy"]' "$at/rows/H/2"
