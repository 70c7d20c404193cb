#!/bin/sh
# A run that is killed midway, again and again, each time with all its processes at once: it is taken up again, and in the
# end nothing is lost or counted twice.
#
#     killed.sh PROGRAM [COUNT]
. "$(dirname -- "$0")/common.sh"
trap 'rm -rf "$folder"' EXIT
prepare "$@"
kills=0
while :; do
    setsid python3 -m actus run-parts "$folder/parts" -j 4 --program "$program" 2> "$folder/said" &
    pid=$!
    sleep "0.$((kills % 8 + 2))"
    if kill -0 "$pid" 2> "$folder/none" && kill -KILL "-$pid" 2> "$folder/none"; then
        kills=$((kills + 1))
        wait "$pid" || :
        [ "$kills" -lt 200 ] || { say "it never ended"; exit 1; }
    else
        wait "$pid"
        break
    fi
done
say "killed $kills times"
compare
