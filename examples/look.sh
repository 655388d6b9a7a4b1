#!/bin/sh
# Shows the desk over a made-up office of 200 people, at http://127.0.0.1:8080/, until it is stopped
# with Ctrl+C. The first time it makes sample.db in the present folder.
#
# Usage: look.sh [OPTION ..]     options are those of `contacts run`, as --port 8081
# Environment:
#   CONTACTS  the program; by default that of this repository
set -eu
here=$(cd "$(dirname "$0")" && pwd)
contacts=${CONTACTS:-$here/../contacts}
if [ ! -e sample.db ]; then
    "$contacts" init sample.db
    "$contacts" book sample.db staff
    "$contacts" import sample.db staff sample "$here/sample-office.csv"
fi
exec "$contacts" run sample.db --site "$here/../clients/desk/site" "$@"
