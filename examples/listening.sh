#!/bin/sh
# Waits until a contact server listens, so that what a unit orders after it finds it ready. The
# status is 1 if the server ends before.
#
# Usage: listening.sh PID [OPTION ..]
#   PID     the server's process
#   OPTION  those of `contacts run`, of which it reads --port and --socket
set -eu
pid=$1 socket= port=8080
shift
while [ $# -gt 0 ]; do
    case $1 in
    --port=*) port=${1#*=} ;;
    --port) port=${2-} ;;
    --socket=*) socket=${1#*=} ;;
    --socket) socket=${2-} ;;
    esac
    shift
done
# The system chooses a port in place of 0, and the server alone says which.
[ "$port" != 0 ] || [ -n "$socket" ] || exit 0

# listens: whether a socket at this place listens, by the system's tables. Those of TCP have its
# address, its state (0A: it listens), what is queued, and its user, since another user's program at
# this port isn't the server. The others have its flags (10000: it listens), type, state and path.
listens() {
    if [ -n "$socket" ]; then
        while read -r _ _ _ flags type state _ path; do
            [ "$flags $type $state $path" != "00010000 0001 01 $socket" ] || return 0
        done < /proc/self/net/unix
        return 1
    else
        at="0100007F:$(printf %04X "$port")"
        grep -qE "$at 00000000:0000 0A [^ ]+ [^ ]+ [^ ]+ +$(id -u) " /proc/self/net/tcp
    fi
}
until listens; do
    # A unit's other processes may not see its folder in /proc.
    kill -0 "$pid" 2> /dev/null || exit 1
    sleep 0.1
done
