#!/bin/bash
# Times two boxes on the same long nights, one reply in ten messages: messages a second, peak memory, and the ratio of their times.
#
#     bench/speed.sh [--box PATH] [--plain PATH] [--record PATH] [--messages COUNT] [--times COUNT]
#
# The box is target/bin/box, and the plain one is built from bench/plain. With --record (as target/bin/record) that program and the plain one
# work out what was written, and are timed too. Of several runs in turn the fastest counts, by processor time.
set -e
cd "$(dirname "$0")/.."

box=target/bin/box
plain=target/bench/box
record=
messages=1000000
times=5
while [ $# -gt 0 ]; do
    [ $# -ge 2 ] || { echo "$1 wants a value" >&2; exit 2; }
    case $1 in
        --box) box=$2 ;;
        --plain) plain=$2 ;;
        --record) record=$2 ;;
        --messages) messages=$2 ;;
        --times) times=$2 ;;
        *) echo "unknown option $1" >&2; exit 2 ;;
    esac
    shift 2
done

bench/build.sh
[ -x "$box" ] || { echo "there is no box at $box: build it first, or name one with --box" >&2; exit 2; }
[ -x /usr/bin/time ] || { echo "/usr/bin/time is needed" >&2; exit 2; }

work=$(mktemp -d target/bench/speed.XXXXXX)
trap 'rm -rf "$work"' EXIT

play() { "$1" "$work/night.random" < "$work/night.in"; }
replay() { "$1" "$work/night.settings" "$work/night.out"; }

# The seconds of processor time that a program takes for what is done with it, added to a file.
TIMEFORMAT='%3U %3S'
seconds() {
    { time "$1" "$2" > /dev/null 2> "$work/err"; } 2>> "$work/$3"
}

# The least sum of the two times in a file's lines.
best() {
    awk '{ sum = $1 + $2 } NR == 1 || sum < least { least = sum } END { print least }' "$work/$1"
}

# The KiB that a command takes at its peak.
peak() {
    /usr/bin/time -f '%M' -o "$work/peak" "$@" > /dev/null
    tail -n 1 "$work/peak"
}

# Times two programs in turn: what is done with them, the one, the other.
in_turn() {
    rm -f "$work/one" "$work/other"
    for _ in $(seq "$times"); do
        seconds "$1" "$2" one
        seconds "$1" "$3" other
    done
}

# Prints a row: its name, messages, and the two programs' peaks.
row() {
    echo "$2 $(best one) $3 $(best other) $4" |
        awk -v name="$1" '{ printf "%-12s %9d %6d   %9d %6d   %.2f\n", name, $1 / $2, $3, $1 / $4, $5, $2 / $4 }'
}

echo "             messages/s  KiB   plain: m/s    KiB   times as long as plain"
for size in "5 2" "10 4" "10 9"; do
    target/bench/nights --speed "$work/night" $size "$messages" > /dev/null
    lines=$(wc -l < "$work/night.in")
    play "$plain" > "$work/night.out"
    play "$box" | cmp -s - "$work/night.out" || echo "$size: THEY WRITE DIFFERENT LINES"
    in_turn play "$box" "$plain"
    row "box $size" "$lines" "$(peak "$box" "$work/night.random" < "$work/night.in")" "$(peak "$plain" "$work/night.random" < "$work/night.in")"
    [ -n "$record" ] || continue
    in_turn replay "$record" target/bench/record
    row "record $size" "$lines" "$(peak "$record" "$work/night.settings" "$work/night.out")" \
        "$(peak target/bench/record "$work/night.settings" "$work/night.out")"
done
