# The box on a line: the tests of `rig serve` (live/run.py). Sourced by test.sh: they mostly wait, so they go on beside the
# others, and `live_tests` waits for them.

PYTHONDONTWRITEBYTECODE=1 python3 "$parts/live/run.py" "$work" "$seed" >live.txt 2>&1 &
live=$!

live_tests() {
    local totals
    wait "$live"
    totals=$(tail -n 1 live.txt | sed -nE 's/^([0-9]+) passed, ([0-9]+) failed$/\1 \2/p')
    if [ -n "$totals" ]; then sed '$d' live.txt; else cat live.txt; fi
    # what ends without its totals is one failure
    totals=${totals:-0 1}
    passed=$((passed + ${totals% *}))
    failed=$((failed + ${totals#* }))
}
