#!/usr/bin/env bash
# A desk with a book is killed while it runs, and the last entry of its book is torn. Started again, it is where it was when it last answered.
set -eu
cd "$(dirname "$0")/.."
echo 'proving and building the keyboard, which takes some minutes the first time ..' >&2
(cd crates/book_keyboard && rt run -- 0 < /dev/null > /dev/null 2>&1) || { echo "the keyboard does not build: run 'rt run' in crates/book_keyboard to see why" >&2; exit 1; }
keyboard=$PWD/crates/book_keyboard/out/book_keyboard
folder=$(mktemp -d)
trap 'rm -rf "$folder"' EXIT
cd "$folder"

# Starts desk 0, typed to through descriptor 4 and read through 5.
start() {
    echo '$ keyboard 0 book'
    rm -f to of
    mkfifo to of
    "$keyboard" 0 book < to > of 2> said &
    desk=$!
    exec 4> to 5< of
}

# Types a line.
at() {
    echo "desk 0> $1"
    echo "$1" >&4
}

# Types a line that is answered, and waits for the answer.
ask() {
    at "$1"
    read -r answer <&5
    echo "$answer"
}

# Ends the desk: by the end of its input, or by a signal that it cannot see coming.
finish() {
    exec 4>&- 5<&-
    wait "$desk" || true
    cat said
}

killed() {
    echo '# the program is killed'
    kill -KILL "$desk"
    wait "$desk" 2> /dev/null || true
    exec 4>&- 5<&-
}

start
at 'w 1 7'
at 'a 1 3'
at 'a 1 4'
ask 'k 1'
killed

start
ask 'k 1'
killed

echo '# the last entry of the book is torn, as by a crash while it was written'
truncate -s -9 book
start
ask 'k 1'
at 'a 1 5'
ask 'k 1'
finish

start
ask 'k 1'
finish
