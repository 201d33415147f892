#!/usr/bin/env bash
# Holds `quote` against a plain Rust program of the same job, on the largest inputs: bench/run.sh, from anywhere.
# Prints for each input the instructions of both (by valgrind), their ratio, and the ratio of their times. Fails where an output differs.
set -euo pipefail
cd "$(dirname "$0")/.."
(cd bench/plain && cargo build --release --offline --quiet)
(cd crates/quote && rt run < stdin > /dev/null 2>&1) || { echo 'quote is not proved: rt check in crates/quote says why' >&2; exit 1; }
proved=crates/quote/out/quote
plain=bench/plain/target/release/plain

# the instructions of one run
instructions() {
    valgrind --tool=callgrind --callgrind-out-file=/dev/null "$1" < "$2" 2>&1 > /dev/null | sed -n 's/.*Collected : //p'
}

# the microseconds of 200 runs
microseconds() {
    local start=${EPOCHREALTIME/./}
    for _ in {1..200}; do "$1" < "$2" > /dev/null; done
    echo $(( ${EPOCHREALTIME/./} - start ))
}

ratio() { awk -v a="$1" -v b="$2" 'BEGIN { printf "%.2f", a / b }'; }

status=0
printf '%-10s %12s %12s %6s %6s\n' input quote plain ratio time
for input in bench/max/*.in; do
    for program in "$proved" "$plain"; do
        "$program" < "$input" | cmp -s - "${input%.in}.out" || { echo "$program differs on $input"; status=1; }
    done
    ours=$(instructions "$proved" "$input")
    theirs=$(instructions "$plain" "$input")
    time=$(ratio "$(microseconds "$proved" "$input")" "$(microseconds "$plain" "$input")")
    printf '%-10s %12d %12d %6s %6s\n' "$(basename "$input" .in)" "$ours" "$theirs" "$(ratio "$ours" "$theirs")" "$time"
done
exit $status
