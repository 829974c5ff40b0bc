#!/usr/bin/env bash
# Two desks write under the same key without asking each other, carry a letter each way as a file, and then read the same.
set -eu
cd "$(dirname "$0")/.."
echo 'proving and building the keyboard, which takes some minutes the first time ..' >&2
(cd crates/keyboard && rt run -- 0 < /dev/null > /dev/null 2>&1) || { echo "the keyboard does not build: run 'rt run' in crates/keyboard to see why" >&2; exit 1; }
keyboard=$PWD/crates/keyboard/out/keyboard
folder=$(mktemp -d)
trap 'rm -rf "$folder"' EXIT
cd "$folder"

# Desk 0 is typed to through descriptor 4 and read through 5, desk 2 through 6 and 7.
mkfifo to-0 of-0 to-2 of-2
"$keyboard" 0 < to-0 > of-0 &
"$keyboard" 2 < to-2 > of-2 &
exec 4> to-0 5< of-0 6> to-2 7< of-2

# Types a line at a desk.
at() {
    echo "desk $1> $2"
    echo "$2" >&$(($1 + 4))
}

# Types a line that is answered, and waits for the answer.
ask() {
    at "$1" "$2"
    read -r answer <&$(($1 + 5))
    echo "$answer"
}

at 0 'w 1 7'
at 0 'a 1 3'
ask 0 'k 1'
at 2 'w 1 9'
at 2 'a 1 4'
at 2 'send 0 from-two'
ask 2 'k 1'
at 0 'read 2 from-two'
at 0 'send 2 from-zero'
ask 0 'k 1'
at 2 'read 0 from-zero'
ask 2 'k 1'
