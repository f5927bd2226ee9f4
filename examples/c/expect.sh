#!/usr/bin/env bash
# Runs the natively compiled programs on the inputs that the lines of expected.txt name, and prints these lines:
# program, input, exit code, and the output in hexadecimal.
set -uo pipefail
cd "$(dirname "${BASH_SOURCE[0]}")"

while read -r program input _; do
    output=$(./inputs.py "$input" | build/"$program" | xxd -p | tr -d '\n'; exit "${PIPESTATUS[1]}")
    status=$?
    echo "$program $input exit=$status out=$output"
done <expected.txt
