#!/usr/bin/env bash
# Every check of the repository: the proofs, the edits that the prover must refuse, the programs, the tests, and the
# comparison with calculations of their own. The last line counts them all.
set -u
cd "$(dirname "$0")" || exit 2
passed=0
failed=0

count() { # what, exit status
    if [ "$2" -eq 0 ]; then
        passed=$((passed + 1))
        echo "test: $1: ok"
    else
        failed=$((failed + 1))
        echo "test: $1: FAILED"
    fi
}

unlisted=0
for folder in crates/*/; do
    crate=$(basename "$folder")
    grep -q "^$crate:" crates.txt || { echo "test: crate $crate is not listed in crates.txt"; unlisted=1; }
done
count "every crate is listed" $unlisted

log=$(mktemp)
trap 'rm -rf "$log"' EXIT
rt ci 2>&1 | tee "$log"
ci=${PIPESTATUS[0]}
if [[ $(tail -n 1 "$log") =~ ^([0-9]+)\ passed,\ ([0-9]+)\ failed$ ]]; then
    passed=$((passed + BASH_REMATCH[1]))
    failed=$((failed + BASH_REMATCH[2]))
    [ "$ci" -eq 0 ] || [ "${BASH_REMATCH[2]}" -gt 0 ] || count "rt ci" 1
else
    count "rt ci" 1
fi

# An edit whose text no longer stands counts for nothing, and rt ci passes all the same.
bad=0
grep -q '^rt: ok' "$log" || bad=1
grep -qE '^rt: ok.*, [0-9]+ bad' "$log" && bad=1
count "no must-fail edit is bad" $bad

python3 compare/walkthrough.py crates/walkthrough/data | cmp - crates/walkthrough/stdout
count "the walkthrough prints what a calculation of its own gives" $((PIPESTATUS[0] + PIPESTATUS[1]))

python3 compare/plan.py crates/planning/data | cmp - crates/planning/stdout
count "the plan is made as a calculation of its own makes it" $((PIPESTATUS[0] + PIPESTATUS[1]))

# rt ci leaves the program that it built.
program=crates/order/out/order
apart=0
for order in orders/*.hex; do
    python3 -c 'import sys; sys.stdout.buffer.write(bytes.fromhex(open(sys.argv[1]).read()))' "$order" |
        "$program" | cmp - <(python3 compare/orders.py "$order") || apart=1
done
count "the stored orders are answered as a calculation of its own answers them" $apart

python3 compare/random_orders.py "$program"
count "random orders are answered as a calculation of its own answers them" $?

echo "$passed passed, $failed failed"
[ "$failed" -eq 0 ]
