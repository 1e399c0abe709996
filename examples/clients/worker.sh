#!/bin/bash
# Works off a queue behind a server, as `worker.py` does, in bash with nothing else. Bash opens sockets of TCP alone.
#
# usage: worker.sh PORT ELEMENT JOBS      PORT is on this machine, and ELEMENT is this worker's alone
port=$1 element=$2 jobs=$3
next=0 sum=1 first=2
trap '' PIPE

# Asks a line until it is answered, also where the server went away, or the answer comes later. The reply's words are in
# `reply`.
ask() {
    while true; do
        if printf '%s\n' "$1" 2>/dev/null >&3; then
            while read -r -u 3 who first_word rest; do
                case $who/$first_word in
                    error/* | refused/* | */refused) echo "$1: $who $first_word $rest" >&2; exit 1 ;;
                    */waiting) continue ;;
                    */now) reply=${rest#* } ; return ;;
                    *) reply=$rest ; return ;;
                esac
            done
        fi
        until { exec 3<>"/dev/tcp/127.0.0.1/$port"; } 2>/dev/null; do sleep 0.1; done
    done
}

request() {
    ask "$element.$number $*"
    number=$((number + 1))
}

for line in "0.1 alloc m 2" "0.2 alloc i $jobs" "0.3 put $next 0" "0.4 put $sum 0"; do ask "$line"; done # As each does.
ask "window $element"
number=${reply% *} # The first that isn't confirmed: from there on it is asked again.
while true; do
    request take $next
    at=$reply
    request put $next $((at < jobs ? at + 1 : jobs))
    ((at == jobs)) && break
    request fetch $((first + at))
    job=$reply
    request take $sum
    request put $sum $((reply + job))
    ask "confirm $element $number"
done
ask "confirm $element $number"
