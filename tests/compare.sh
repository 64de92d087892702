#!/bin/sh
# Compares a program with the second implementation on random scripts.
# usage: tests/compare.sh panes|calls PATH-OF-PROGRAM FIRST-SEED LAST-SEED
# Where something is wrong, script and replies stay in the folder that is printed.
language=$1
program=$2
first=$3
last=$4
built=$(dirname "$0")/../reference/target/release
case $first/$last in
*[!0-9/]* | /* | */) last= ;;
esac
if [ ! -x "$program" ] || [ -z "$last" ]; then
    echo "usage: $0 panes|calls PATH-OF-PROGRAM FIRST-SEED LAST-SEED" >&2
    exit 2
fi
if [ ! -x "$built/$language" ] || [ ! -x "$built/generate" ]; then
    echo "first: (cd reference && cargo build --release --offline)" >&2
    exit 2
fi
if [ "$last" -lt "$first" ]; then
    echo "nothing to compare: no seed from $first to $last"
    exit 1
fi
folder=$(mktemp -d)

compare() { # SEED; says what is wrong
    script=$folder/$1.in
    expected=$folder/$1.expected
    got=$folder/$1.got
    if ! "$built/generate" "$language" "$1" >"$script"; then
        echo "the generator failed"
    elif [ ! -s "$script" ]; then
        echo "the script is empty"
    elif ! "$built/$language" <"$script" >"$expected"; then
        echo "the second implementation failed"
    elif ! "$program" <"$script" >"$got"; then
        echo "$program failed"
    elif [ ! -s "$expected" ]; then
        echo "there are no replies"
    elif ! cmp -s "$expected" "$got"; then
        echo "the replies differ"
    else
        rm "$script" "$expected" "$got"
    fi
}

bad=0
seed=$first
while [ "$seed" -le "$last" ]; do
    wrong=$(compare "$seed")
    if [ -n "$wrong" ]; then
        echo "seed $seed: $wrong"
        bad=$((bad + 1))
    fi
    seed=$((seed + 1))
done
compared=$((last - first + 1))
if [ $bad -gt 0 ]; then
    echo "$bad of $compared random scripts of $language: see $folder"
    exit 1
fi
rmdir "$folder"
echo "$compared random scripts of $language: the replies are the same"
