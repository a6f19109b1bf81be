#!/usr/bin/env bash
# Runs the program verify, as `rt run` builds it, and compares what it prints and its status with what is expected.
set -uo pipefail
cd "$(dirname "$0")/.."
runs=0 wrong=0

# The page of a listing: lines are parted by semicolons, their numbers by spaces, and columns left out are 0.
page() {
    local line
    while read -r -d ';' line; do
        printf '%3d%6d%6d%6d%6d%6d%6d%6d\n' $line
    done <<< "$1;"
}

# Runs verify with words on standard input, and compares its status and all that it prints.
run() { # STATUS OUTPUT [WORD..]
    local status=$1 expected=$2 output
    output=$(crates/verify/out/verify "${@:3}" 2>&1; echo "status $?")
    runs=$((runs + 1))
    if [ "$output" != "$expected"$'\n'"status $status" ]; then
        wrong=$((wrong + 1))
        printf 'expected:\n%s\nstatus %s\nfound:\n%s\n\n' "$expected" "$status" "$output"
    fi
}

# A verdict: a sentence, and the last line. The status is 0 exactly for the answer 0.
verdict() { # RULE ANSWER PLACE CAUSE SENTENCE
    run $(($2 != 0)) "$1: $5.$(printf '\n%8d%8d%8d' "$2" "$3" "$4")" "$1"
}

top='30; 10; 50 1; 51 1 2 3'
below='30; 10; 11 1; 13 2 3; 12 2 2; 13 5 3; 50 1; 51 1 2 7; 51 1 5 8 8; 63 1 5 2 9; 32 1 5; 50 11 9; 40 2 0 2; 40 5 0 5 13 13; 42 11 1 5 0 14; 51 11 3 12 15; 60 11 3 3 16; 66 1 4 6 10 17'
code='its code is unknown or not admitted'
column='a column past those of its code is not 0'
reference='a line that it names is not earlier or not of that kind'

# sound
verdict EqualBounds  0     4 0 'sound. Lines: 4, judgments: 2, definitions: 0'    < <(page "$top")
verdict LeastBound   0     4 0 'sound. Lines: 4, judgments: 2, definitions: 0'    < <(page "$top")
verdict EqualBounds  0   185 0 'sound. Lines: 185, judgments: 83, definitions: 6' < examples/benefit.page
verdict LeastBound   0    18 0 'sound. Lines: 18, judgments: 8, definitions: 0'   < <(page "$below")
verdict EqualBounds  0     0 0 '0 lines, nothing is concluded'                    < /dev/null
verdict LeastBound   0     0 0 '0 lines, nothing is concluded'                    < /dev/null

# unsound
verdict EqualBounds 13    18 1 "unsound. Line 18: $code"                          < <(page "$below")
verdict EqualBounds 13     1 1 "unsound. Line 1: $code"                           < <(page '0')
verdict LeastBound  13     2 2 "unsound. Line 2: $column"                         < <(page '30; 10 1')
verdict EqualBounds 13     1 3 "unsound. Line 1: $reference"                      < <(page '51 1 1 1')
verdict EqualBounds 13     2 4 'unsound. Line 2: an equal line stands earlier'    < <(page '10; 10')
verdict LeastBound  13     4 5 'unsound. Line 4: it does not follow'              < <(page '30; 10; 50 1; 51 1 2 3 3')
verdict EqualBounds 13     2 4 'unsound. Line 2: an equal line stands earlier'    < <(yes "$(page '10')" | head -n 65535)

# no listing
verdict EqualBounds 14     2 0 'no listing. Place 2 is out of form'               < <(page '30; 10' | head -c 91)
verdict EqualBounds 14     2 0 'no listing. Place 2 is out of form'               < <(page '30'; echo)
verdict LeastBound  14     3 0 'no listing. Place 3 is out of form'               < <(page '10; 10; 30' | sed '3s/^ /0/')
verdict EqualBounds 14     1 0 'no listing. Place 1 is out of form'               < <(page '11 65536')
verdict EqualBounds 14 65536 0 'no listing. More than 65535 places'               < <(yes "$(page '10')" | head -n 65536)
verdict LeastBound  14 65536 0 'no listing. More than 65535 places'               < <(yes "$(page '10')" | head -n 65535; echo)
verdict EqualBounds 14     9 0 'no listing. Place 9 is out of form'               < <(yes "$(page '10')" | head -n 65536 | sed '9s/0/x/')

# no word, and other words than one rule
run 0 'EqualBounds: sound. Lines: 4, judgments: 2, definitions: 0.
       0       4       0' < <(page "$top")
run 1 'verify: no rule has that name; the rules are EqualBounds and LeastBound' equalbounds < <(page "$top")
run 1 'verify: no rule has that name; the rules are EqualBounds and LeastBound' '' < <(page "$top")
run 1 'verify: more than one word; one rule is meant, EqualBounds or LeastBound' EqualBounds LeastBound < <(page "$top")

echo "tests/verify.sh: $runs runs, $wrong other than expected"
exit $((wrong != 0))
