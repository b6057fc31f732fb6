#!/bin/sh
# Plays generated nights to two boxes and compares what they write, byte for byte, and how they end; then has each record worked out again.
#
#     bench/compare.sh [--box PATH] [--plain PATH] [--record PATH] [--nights COUNT] [--first SEED] [--keep DIRECTORY]
#
# The box is target/bin/box, and the plain one is built from bench/plain. With --record (as target/bin/record) that program works out what
# the box wrote, besides the plain one. The files of the first night that differs are kept.
set -e
cd "$(dirname "$0")/.."

box=target/bin/box
plain=target/bench/box
record=
nights=3000
first=0
keep=target/bench/different
while [ $# -gt 0 ]; do
    [ $# -ge 2 ] || { echo "$1 wants a value" >&2; exit 2; }
    case $1 in
        --box) box=$2 ;;
        --plain) plain=$2 ;;
        --record) record=$2 ;;
        --nights) nights=$2 ;;
        --first) first=$2 ;;
        --keep) keep=$2 ;;
        *) echo "unknown option $1" >&2; exit 2 ;;
    esac
    shift 2
done

bench/build.sh
[ -x "$box" ] || { echo "there is no box at $box: build it first, or name one with --box" >&2; exit 2; }
target/bench/selftest

work=$(mktemp -d target/bench/compare.XXXXXX)
trap 'rm -rf "$work"' EXIT

# Keeps a night's files and stops.
differs() {
    rm -rf "$keep"
    mkdir -p "$keep"
    cp "$work/$1".* "$keep"
    echo "night $1 differs: $2 (after $same that were the same); its files are in $keep"
    exit 1
}

# Runs a box on a night: its output, and its status. What it says on standard error is for people, and isn't compared.
play() {
    status=0
    "$1" "$work/$2.random" < "$work/$2.in" > "$work/$2.$3" 2> "$work/$2.$3.err" || status=$?
    echo "$status" > "$work/$2.$3.status"
}

# Works out what the box wrote.
replay() {
    "$1" "$work/$2.settings" "$work/$2.box" > "$work/$2.replay" 2>&1 || true
    [ "$(cat "$work/$2.replay")" = "as written" ] || differs "$2" "$1 doesn't find it as written"
}

# The box gets a night in small pieces, and has to write the same.
play_in_pieces() {
    dd bs=777 < "$work/$1.in" 2> /dev/null | "$box" "$work/$1.random" > "$work/$1.pieces" 2> /dev/null || true
    cmp -s "$work/$1.box" "$work/$1.pieces" || differs "$1" "in pieces it is another"
}

one_night() {
    play "$box" "$1" box
    play "$plain" "$1" plain
    cmp -s "$work/$1.box" "$work/$1.plain" || differs "$1" "$(cmp "$work/$1.box" "$work/$1.plain" 2>&1)"
    cmp -s "$work/$1.box.status" "$work/$1.plain.status" || differs "$1" "status $(cat "$work/$1.box.status") and $(cat "$work/$1.plain.status")"
    replay target/bench/record "$1"
    [ -z "$record" ] || replay "$record" "$1"
    [ $(($1 % 20)) -ne 0 ] || play_in_pieces "$1"
    same=$((same + 1))
}

# Nights are made and played in pieces of 100, so that they take little room.
same=0
seed=$first
last=$((first + nights))
while [ "$seed" -lt "$last" ]; do
    piece=$((last - seed))
    [ "$piece" -le 100 ] || piece=100
    target/bench/nights "$work" "$seed" "$piece" > /dev/null
    until=$((seed + piece))
    while [ "$seed" -lt "$until" ]; do
        one_night "$seed"
        seed=$((seed + 1))
    done
    rm -rf "$work"/[0-9]*
done
target/bench/nights --census "$first" "$nights"
echo "$same nights, all the same"
