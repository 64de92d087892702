#!/bin/sh
# A proved script program: built, so that no old one is tested; run on the scripts worked out by hand, the
# long ones too; and compared with the second implementation on random scripts, by default those of the
# seeds 1 to 1,000.
# usage: [FIRST=SEED] [LAST=SEED] tests/program.sh panes|calls
cd "$(dirname "$0")/.." || exit 1
name=$1
program=crates/$name/out/$name
tools/build "$name" || exit 1
(cd reference && cargo build --release --offline --quiet) || exit 1
tests/check.sh "$name" "$program" || exit 1
for script in tests/long/*.in; do
    "$program" <"$script" | cmp - "${script%.in}.out" || exit 1
done
tests/compare.sh "$name" "$program" "${FIRST:-1}" "${LAST:-1000}"
