#!/bin/sh
# Backs up a file of books. It stops the service, copies the file and its log, starts the service
# again, tests all rows of the copy, and lets `contacts copy` make one file of it, the backup. It is
# in the folder FOLDER/DATE-TIME. If anything fails, the service is started again, the new backup is
# removed, older ones are kept, and the status isn't 0.
#
# Usage: backup.sh FILE FOLDER [BOOK ..]
#   With a BOOK, the backup has to have it. The file `tally` beside it says what it has.
# Environment:
#   CONTACTS  the program; by default `contacts`
#   STOP      a shell command that stops the service and waits until it has ended
#   START     a shell command that starts it
#   KEEP      the number of backups to keep; by default 14
set -eu
umask 077

fail() {
    echo "backup: $*" >&2
    exit 1
}

[ $# -ge 2 ] || fail 'usage: backup.sh FILE FOLDER [BOOK ..]'
file=$1 folder=$2
shift 2
contacts=${CONTACTS:-contacts}
stop=${STOP:-systemctl stop contacts.service}
start=${START:-systemctl start contacts.service}
keep=${KEEP:-14}
[ "$keep" -ge 1 ] || fail 'KEEP is at least 1'

stopped= part=
end() {
    status=$?
    trap - EXIT
    [ -z "$stopped" ] || sh -c "$start" 9>&- || status=1
    [ -z "$part" ] || rm -rf "$part"
    exit "$status"
}
trap end EXIT
trap 'exit 1' HUP INT TERM

# Lock, since a second backup would start the service while this one copies.
mkdir -p "$folder"
exec 9> "$folder/lock"
flock -n 9 || fail 'another backup is running'
date=$(date -u +%Y-%m-%d-%H%M%S)
[ ! -e "$folder/$date" ] || fail "$folder/$date is there already"
# One that was killed may have left a part.
rm -rf "$folder"/part.*
part=$(mktemp -d "$folder/part.XXXXXX")
name=$(basename "$file")
copy=$part/copied/$name
mkdir "$part/copied"

stopped=yes
sh -c "$stop" 9>&-
cp "$file" "$copy"
[ ! -e "$file-wal" ] || cp "$file-wal" "$copy-wal"
# After a signal the service is started again, even if this start is done; that is harmless.
sh -c "$start" 9>&-
stopped=

"$contacts" verify "$copy" > "$part/tally"
for book; do
    echo "$book"
    # A name may begin with a hyphen.
    "$contacts" tally "$copy" -- "$book"
done >> "$part/tally"
# Without a log, and without the text of removed cards. It compares the two before it ends.
"$contacts" copy "$copy" "$part/$name" > /dev/null
rm -r "$part/copied"
sync "$part"/*
mv "$part" "$folder/$date"
part=
echo "backup: $folder/$date"

# The names are dates, so the first ones are the oldest.
set -- "$folder"/[0-9][0-9][0-9][0-9]-[0-9][0-9]-[0-9][0-9]-*/
while [ $# -gt "$keep" ]; do
    rm -rf "$1"
    shift
done
