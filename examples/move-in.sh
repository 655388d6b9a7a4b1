#!/bin/sh
# An office moves in: the address book that it exported from Radicale (vCard 3.0) and the contacts
# that it exported from Google (CSV) are converted, checked, imported and served, and a computer
# syncs both books by the Python client. It needs python3. Each step is checked; the first that
# fails ends the script.
#
# Usage: move-in.sh [PROGRAM]
set -eu
here=$(cd "$(dirname "$0")" && pwd)
program=$(readlink -f "${1:-$here/../contacts}")
client=$here/../clients/python/tosculai.py
folder=$(mktemp -d)
cd "$folder"
server=
trap '[ -z "$server" ] || kill "$server" 2>/dev/null || :; rm -rf "$folder"' EXIT

# expect OUTPUT ARGUMENT..: runs the program, and checks its status and its standard output
expect() {
    wanted=$1
    shift
    echo "\$ contacts $*"
    "$program" "$@" > printed || { echo "move-in: status $?"; exit 1; }
    cat printed
    [ "$(cat printed)" = "$wanted" ] || { echo "move-in: wanted $wanted"; exit 1; }
}

# convert FILE ROWS SUMMARY: converts the cards of a file to rows, and checks the last line of the
# report on standard error
convert() {
    echo "\$ contacts convert $1 > $2"
    "$program" convert "$here/$1" > "$2" 2> report || { cat report; exit 1; }
    cat report
    [ "$(tail -n 1 report)" = "$3" ] || { echo "move-in: wanted $3"; exit 1; }
}

# synced BOOK CARDS: syncs a folder with the book, and checks the names of its cards
synced() {
    echo "\$ tosculai.py sync http://$address $1 $1"
    python3 "$client" sync "http://$address" "$1" "$1"
    grep -h '^FN' "$1"/*.vcf | tr -d '\r' | sort > names
    cat names
    [ "$(cat names)" = "$2" ] || { echo "move-in: wanted $2"; exit 1; }
}

convert radicale.vcf staff.csv \
    '3 cards written, 3 changed, 1 with parts kept aside, 0 not carried'
convert google.csv clients.csv \
    '3 cards written, 2 changed, 0 with parts kept aside, 0 not carried'
expect 'rows 3' check staff.csv
expect 'rows 3' check clients.csv

expect 'made' init office.db
expect 'book 1' book office.db staff
expect 'book 2' book office.db clients
expect 'new 3 edited 0 same 0 number 3' import office.db staff radicale staff.csv
expect 'new 3 edited 0 same 0 number 3' import office.db clients google clients.csv
# The members of a group are found by their UIDs.
expect 'person 0b7f2a44-93d5-4e11-8d3a-7c2f6b1e9d02
person 6a5c3f1e-2b84-4c7d-9a10-5d0c9e7b4a21' \
    expand office.db staff d41e0c9a-5f62-47b8-b0c3-1a9e8f7d6c55

echo '$ contacts run office.db --port 0 &'
"$program" run office.db --port 0 > listening &
server=$!
for _ in $(seq 100); do
    [ -s listening ] && break
    sleep 0.1
done
cat listening
address=$(sed 's/listening //' listening)
[ -n "$address" ] || { echo 'move-in: no server'; exit 1; }

synced staff 'FN:Dr. Ruth Adler
FN:Front desk
FN:Zoë Ångström'
synced clients "FN:Dr. Miriam Ruth O'Hara
FN:Vale Supplies
FN:山田 太郎"
# A group's members are cards of its book.
grep -q '^MEMBER:urn:uuid:6a5c3f1e-2b84-4c7d-9a10-5d0c9e7b4a21' staff/*.vcf ||
    { echo 'move-in: the group has lost a member'; exit 1; }
echo 'move-in: all steps went as they should'
