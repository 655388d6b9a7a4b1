#!/bin/sh
# A tour: a file with two books, an import, a server, cards that are put, read, edited, moved and
# removed, a phone that syncs, an export, and the tables as sqlite3 shows them. It needs curl, jq
# and sqlite3. Each step is checked; the first that fails ends the script.
#
# Usage: office.sh [PROGRAM]
set -eu
here=$(cd "$(dirname "$0")" && pwd)
program=$(readlink -f "${1:-$here/../contacts}")
folder=$(mktemp -d)
cd "$folder"
server=
trap '[ -z "$server" ] || kill "$server" 2>/dev/null || :; rm -rf "$folder"' EXIT

# expect STATUS OUTPUT ARGUMENT..: runs the program, and checks its status and its output
expect() {
    status=$1 wanted=$2
    shift 2
    echo "\$ contacts $*"
    ended=0
    "$program" "$@" > printed 2>&1 || ended=$?
    cat printed
    [ "$ended" = "$status" ] || { echo "office: status $ended in place of $status"; exit 1; }
    [ "$(cat printed)" = "$wanted" ] || { echo "office: wanted $wanted"; exit 1; }
}

# ask STATUS BODY ARGUMENT..: runs curl with the arguments, and checks the status and the body
ask() {
    status=$1 wanted=$2
    shift 2
    echo "\$ curl $*"
    replied=$(curl -s -o body -w '%{http_code}' "$@")
    cat body
    echo
    [ "$replied" = "$status" ] || { echo "office: status $replied in place of $status"; exit 1; }
    printf '%s' "$wanted" | cmp - body || { printf 'office: wanted %s\n' "$wanted"; exit 1; }
}

# serve COUNT: starts the server on any free port, for COUNT connections
serve() {
    echo "\$ contacts serve office.db --connections $1 &"
    "$program" serve office.db --connections "$1" > listening &
    server=$!
    for _ in $(seq 100); do
        [ -s listening ] && break
        sleep 0.1
    done
    cat listening
    address=$(sed 's/listening //' listening)
    [ -n "$address" ] || { echo 'office: no server'; exit 1; }
}

# served: waits for the server, which ends by itself after its last connection
served() {
    ended=0
    wait "$server" || ended=$?
    server=
    echo "the server ended with status $ended"
    [ "$ended" = 0 ] || exit 1
}

# card UID NAME: writes a card to a file
card() {
    printf 'BEGIN:VCARD\r\nVERSION:4.0\r\nUID:%s\r\nFN:%s\r\nEND:VCARD\r\n' "$1" "$2" > "$1.vcf"
}

# phone CARDS: syncs the phone, and checks that it then has these cards
phone() {
    "$here/phone.sh" "$address" staff phone
    echo "the phone has: $(ls phone/cards | tr '\n' ' ')"
    [ "$(ls phone/cards | tr '\n' ' ')" = "$1" ] || { echo "office: wanted $1"; exit 1; }
}

card a Ann
card b Bob
card c Cy
header=uid,fn,family,given,email,tel,org,note
printf '%s\np,Pat Lee,Lee,Pat,pat@example.test,,,\nq,Quin,,,,,,\n' "$header" > people.csv
key=$(date +%F-%H%M%S)

expect 0 'made' init office.db
expect 3 'fault open 5' init office.db
expect 0 'book 1' book office.db staff
expect 0 'book 2' book office.db clients
expect 0 'new 2 edited 0 same 0 number 2' import office.db clients "$key" people.csv
# A second import with the same key changes nothing, and prints the same.
expect 0 'new 2 edited 0 same 0 number 2' import office.db clients "$key" people.csv

# 10 connections of curl and 4 of the phone, which asks for pages of two
serve 14
books=http://$address/books
ask 201 '{"put":"created","version":1}' -H Expect: -T a.vcf "$books/staff/cards/a"
ask 201 '{"put":"created","version":2}' -H Expect: -T b.vcf "$books/staff/cards/b"
ask 201 '{"put":"created","version":3}' -H Expect: -T c.vcf "$books/staff/cards/c"
bob='BEGIN:VCARD\r\nVERSION:4.0\r\nUID:b\r\nFN:Bob\r\nEND:VCARD\r\n'
ask 200 '{"card":"'"$bob"'","uid":"b","version":2}' "$books/staff/cards/b"
phone 'a.vcf b.vcf c.vcf '
card a Anna
ask 200 '{"put":"edited","version":4}' -H Expect: -T a.vcf "$books/staff/cards/a?version=1"
mismatch='{"fault":"version-mismatch","has":4,"number":7}'
ask 412 "$mismatch" -H Expect: -T a.vcf "$books/staff/cards/a?version=1"
ask 200 '{"number":5}' -X DELETE "$books/staff/cards/b"
ask 200 '{"from":6,"version":3}' -X POST "$books/staff/cards/a/move?to=clients"
phone 'c.vcf '
ask 200 '{"dropped":2,"horizon":6}' -X POST "$books/staff/forget?upto=6"
ask 201 '{"put":"created","version":7}' -H Expect: -T b.vcf "$books/staff/cards/b"
expect 3 'fault open 1' tally office.db staff
# The phone has seen all forgotten removals, so its token is still valid.
phone 'b.vcf c.vcf '
served

expect 0 "$header
a,Anna,,,,,,
p,Pat Lee,Lee,Pat,pat@example.test,,,
q,Quin,,,,,," export office.db clients --form columns
expect 0 'pages 2 done yes
            7 b
            3 c
token http://contacts.invalid/sync/1/7/7' mirror office.db staff --limit 1

# The file is SQLite's, with its log beside it. sqlite3 opens a copy, so that nothing else writes to
# the file itself.
mkdir copy
cp office.db* copy/
echo '$ sqlite3 copy/office.db'
sqlite3 -column copy/office.db 'SELECT name, uid, changed, length(card)
    FROM member JOIN book ON book.id = member.book' > shown
cat shown
[ "$(grep -c '^staff' shown)" = 2 ] && [ "$(grep -c '^clients' shown)" = 3 ] ||
    { echo 'office: other rows'; exit 1; }
echo 'office: all steps went as they should'
