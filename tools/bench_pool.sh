#!/usr/bin/env bash
# Times the allocators from outside: proves and builds the benchmark program, and runs it once for each case.
# A round is two takes and two gives. What making and filling cost is measured by a run of 0 rounds, and left out.
# Usage: tools/bench_pool.sh [ROUNDS]
set -eu
cd "$(dirname "$0")/.."
rounds=${1:-2000000}
program=crates/poolbench/out/poolbench
[ -x "$program" ] || (cd crates/poolbench && rt run < stdin > /dev/null)

# the best of five runs of a case, in nanoseconds
best() {
    local least=
    for _ in 1 2 3 4 5; do
        local from to
        from=$(date +%s%N)
        echo "$1" | "$program" > /dev/null
        to=$(date +%s%N)
        if [ -z "$least" ] || [ $((to - from)) -lt "$least" ]; then
            least=$((to - from))
        fi
    done
    echo "$least"
}

printf '%-9s %6s %-6s %12s\n' allocator units load 'ns a round'
for kind in bitmap chain pair; do
    for units in 100 4096; do
        for load in empty full; do
            idle=$(best "$kind $units $load 0")
            busy=$(best "$kind $units $load $rounds")
            tenths=$(((busy - idle) * 10 / rounds))
            printf '%-9s %6s %-6s %12s\n' "$kind" "$units" "$load" "$((tenths / 10)).$((tenths % 10))"
        done
    done
done
