#!/bin/sh
# Replays a script into a folder, kills the replay as soon as a commit is answered, and prints the answer of the last commit.
#
#     examples/pull_the_plug.sh SCRIPT FOLDER
home=$(dirname "$(readlink -f "$0")")
answers=$(mktemp)
"$home/../fitrec" replay "$1" "$2" >"$answers" &
replay=$!
until grep -q 'commit: ok$' "$answers" || ! kill -0 "$replay" 2>/dev/null; do
    sleep 0.1
done
kill -KILL "$replay" 2>/dev/null
wait "$replay" 2>/dev/null
grep 'commit: ok$' "$answers" | tail -n 1
rm -f "$answers"
