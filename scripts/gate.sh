#!/usr/bin/env bash
# The gate: `rt ci`, which proves and runs every crate; the must-fail edits that have to be tried
# (scripts/edits.py --gate, to which arguments are passed on); and `make smoke` on the programs that
# `rt ci` built. The time of each step comes at the end, and then "N passed, M failed", the sum of the
# first two. A finding of `make smoke` counts as one more failure, and so does a missing program.
set -uo pipefail
cd "$(dirname "$0")/.." || exit
source scripts/last_line.sh
room=$(mktemp -d)
trap 'rm -rf "$room"' EXIT

# Runs `rt ci`, and measures it where the script that does so can be started.
proofs() {
    if python3 scripts/measure_gate.py --help > /dev/null 2>&1; then
        python3 scripts/measure_gate.py --table "$room/proofs.md"
    else
        rt ci
    fi
}

# Runs a step, whose last line is held back and counted.
status=0 all_passed=0 all_failed=0
counted() {
    "$@" | all_but_last "$room/last" || status=1
    read_counts "$room/last" || status=1
    all_passed=$((all_passed + passed)) all_failed=$((all_failed + failed))
}

counted proofs
counted python3 scripts/edits.py --gate --table "$room/edits.md" "$@"
if ! [[ -x crates/ninja_explain/out/ninja_explain ]] || ! make --silent smoke; then
    all_failed=$((all_failed + 1))
fi
((all_failed == 0)) || status=1
cat "$room/proofs.md" 2> /dev/null || echo "The proofs were not measured."
cat "$room/edits.md" 2> /dev/null || echo "No edit was tried."
echo "$((SECONDS / 60)) minutes by the clock; of processor time, by programs and by the system:"
times > "$room/times"
tail -n 1 "$room/times"
echo "$all_passed passed, $all_failed failed"
exit "$status"
