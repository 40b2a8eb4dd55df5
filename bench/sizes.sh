#!/bin/sh
# Prints how large the repository is: crates, lines of code, definitions, proofs and tests, and wrong bodies. No program is run.
#   bench/sizes.sh
cd "$(dirname "$0")/.." || exit 1
set -eu

is_of_tests() { case $1 in crates/*_tests/*|*/src/tests.rt|*/src/tests/*) return 0 ;; *) return 1 ;; esac; }

# The lines of the files of this name in this folder of each crate: of tests, or of the rest.
lines() { # FOLDER NAME tests|rest
    find crates/*/"$1" -name "$2" -type f | while read -r file; do
        if is_of_tests "$file"; then kind=tests; else kind=rest; fi
        [ "$kind" != "$3" ] || cat "$file"
    done | wc -l
}

tests=$(grep -c '^[a-z_]*_tests:' crates.txt)
echo "| What | How many |"
echo "|---|---|"
echo "| crates, without those of tests | $(($(grep -c '^[a-z_]*:' crates.txt) - tests)) |"
echo "| crates of tests | $tests |"
echo "| lines of code, with the contracts | $(lines src '*.rt' rest) |"
echo "| lines of definitions (specs) | $(lines specs '*.antt' rest) |"
echo "| lines of proofs | $(lines proofs '*.antt' rest) |"
echo "| lines of tests | $(lines src '*.rt' tests) |"
echo "| wrong bodies that must be refused | $(find crates/*/must-fail -name '*.edit' | wc -l) |"
