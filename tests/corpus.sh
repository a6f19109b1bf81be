#!/usr/bin/env bash
# Runs the program verify on each page of tests/corpus, and compares the last line it prints with the numbers that expected.txt has:
# the page, the rule, the answer, the place and the cause.
set -uo pipefail
cd "$(dirname "$0")/.."
runs=0 wrong=0
while read -r page rule answer place cause; do
    expected=$(printf '%8d%8d%8d' "$answer" "$place" "$cause")
    found=$(crates/verify/out/verify "$rule" < "tests/corpus/$page" | tail -n 1)
    runs=$((runs + 1))
    if [ "$found" != "$expected" ]; then
        wrong=$((wrong + 1))
        printf '%s under %s: expected %s, found %s\n' "$page" "$rule" "$expected" "$found"
    fi
done < tests/corpus/expected.txt
echo "corpus: $runs runs, $wrong wrong"
[ "$runs" -gt 0 ] && [ "$wrong" -eq 0 ]
