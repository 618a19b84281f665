# The comparison of the proved box with the plain one. Sourced by test.sh: the long run goes on beside the other tests, its
# two halves side by side, and `comparison_tests` waits for it.

cases=${CASES:-1000000}
seed=${SEED:-$(od -An -N6 -tu8 /dev/urandom | tr -d ' ')}
short_cases=140000

# half CASES FIRST: what it met stays in comparison-FIRST.txt beside the programs
half() { ${RUN:-} "$programs/bin/compare" "$1" "$seed" "$2" >"$programs/comparison-$2.txt" 2>&1; }
rm -f "$programs"/comparison-*.txt
first_half=$((cases / 2))
half "$first_half" 0 &
first=$!
half $((cases - first_half)) "$first_half" &
second=$!

compared() {
    local status=0
    wait "$first" || { cat "$programs/comparison-0.txt"; status=1; }
    wait "$second" || { cat "$programs/comparison-$first_half.txt"; status=1; }
    return $status
}
sanitized() {
    "$programs/bin/sanitized" "$short_cases" "$seed" >plain_alone || { cat plain_alone; return 1; }
    ${RUN:-} "$programs/bin/compare" "$short_cases" "$seed" >both || { cat both; return 1; }
    same 'the sums' "$(tail -n 1 plain_alone)" "$(tail -n 1 both)"
}

comparison_tests() {
    test_that "plain with sanitizers on $short_cases cases, seed $seed" sanitized
    test_that "proved and plain on $cases cases, seed $seed" compared
}
