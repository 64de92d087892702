#!/bin/sh
# Runs the scripts worked out by hand through a program and compares its replies with theirs.
# usage: tests/check.sh panes|calls PATH-OF-PROGRAM
# `calls` takes every line of `panes`, so it is also given the scripts of `panes`, but for those with a
# line k, c, j or t: to `panes` that is malformed.
language=$1
program=$2
tests=$(dirname "$0")
if [ ! -x "$program" ]; then
    echo "usage: $0 panes|calls PATH-OF-PROGRAM" >&2
    exit 2
fi
got=$(mktemp)
checked=0
bad=0

check() { # SCRIPT
    replies=${1%.in}.out
    checked=$((checked + 1))
    if [ ! -f "$replies" ]; then
        echo "absent: $replies"
    elif ! "$program" <"$1" >"$got"; then
        echo "failed: $program on $1"
    elif ! cmp -s "$got" "$replies"; then
        echo "differs: $1"
    else
        return
    fi
    bad=1
}

check_folder() { # FOLDER
    before=$checked
    for script in "$1"/*.in; do
        if [ "$language" = calls ] && [ "$1" = "$panes_scripts" ] && grep -q '^[kcjt]' "$script"; then
            echo "left out: $script"
        elif [ -f "$script" ]; then
            check "$script"
        fi
    done
    for replies in "$1"/*.out; do
        if [ ! -f "${replies%.out}.in" ]; then
            echo "no script for $replies"
            bad=1
        fi
    done
    if [ "$checked" -eq "$before" ]; then
        echo "no script: $1"
        bad=1
    fi
}

panes_scripts=$tests/../crates/vectors/data
check_folder "$panes_scripts"
case $language in
panes) ;;
calls) check_folder "$tests/calls" ;;
*)
    echo "no such language: $language"
    bad=1
    ;;
esac
rm -f "$got"
[ $bad = 0 ] && echo "$checked scripts worked out by hand: $language prints the replies"
exit $bad
