#!/bin/sh
# A phone's sync in a few lines of shell. It keeps its token in one file and each card in a file of
# its own, and requests the changes since the token page by page. If a step fails it ends, and
# requests the same page at its next start. It needs curl and jq.
#
# Usage: phone.sh ADDRESS BOOK FOLDER     for example: phone.sh 127.0.0.1:8080 staff phone
set -eu
address=$1 book=$2 folder=$3
mkdir -p "$folder/cards"
[ -f "$folder/token" ] || : > "$folder/token"
truncated=true
while [ "$truncated" = true ]; do
    status=$(curl -s -G -o "$folder/page" -w '%{http_code}' -d limit=2 \
        --data-urlencode "token=$(cat "$folder/token")" "http://$address/books/$book/sync")
    if [ "$status" = 403 ] && [ -s "$folder/token" ]; then
        # The token is refused: start again, without one.
        : > "$folder/token"
        continue
    fi
    [ "$status" = 200 ] || { echo "phone: status $status"; exit 1; }
    # A start without a token begins with an empty copy.
    [ -s "$folder/token" ] || rm -f "$folder"/cards/*
    # Not in a pipe: the shell wouldn't notice if jq failed.
    jq -c '.members[]' "$folder/page" > "$folder/members"
    while read -r member; do
        card=$folder/cards/$(printf '%s' "$member" | jq -er '.uid | @uri').vcf
        kind=$(printf '%s' "$member" | jq -e .status)
        case $kind in
        200) printf '%s' "$member" | jq -ej .card > "$card" ;;
        404) rm -f "$card" ;;
        esac
    done < "$folder/members"
    truncated=$(jq -r .truncated "$folder/page")
    # The token is written last: after an interruption the phone requests this page again.
    jq -ej .token "$folder/page" > "$folder/token.new"
    mv "$folder/token.new" "$folder/token"
done
