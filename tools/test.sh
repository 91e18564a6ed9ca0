# shellcheck shell=sh disable=SC2154
# ./vcat test: all that is tried by the programs that stand, and the tests as the toolchain tries them, without a proof. The script vcat reads this
# file; it has the names.

if [ ! -d "$top/crates" ]; then refuse "the tests are those of a clone of the repository." 126; fi
ready_both
make_work
export VCAT_QUIET=1

passed=0
failed=0
# Adds the numbers of those that passed and failed, or one that failed if there are none, and says them.
add() {
    set -- "$1" "${2:-0}" "${3:-1}"
    echo "$1: $2 passed, $3 failed"
    passed=$((passed + $2))
    failed=$((failed + $3))
}

# The tests of crates, beside all else, without the toolchain's checks where that can be.
tests="parts_tests command_walk_tests command_live_tests command_run_tests"
if command -v rt > /dev/null 2>&1; then
    # shellcheck source=/dev/null
    . "$top/tools/build.sh"
    kit=$(kit_of)
    if link_kit "$work/kit" 2> /dev/null; then kit=$work/kit; fi
    # shellcheck disable=SC2016
    begin env TMPDIR="$work" sh -c 'for name in $1; do cd "$2/crates/$name" && "$3/bin/rt" try --test > "$4/$name" 2>&1 & done; wait' \
        sh "$tests" "$top" "$kit" "$work" < /dev/null
else
    echo "vcat: there is no rt, so the tests of crates are left out." >&2
    tests=
fi

# Two numbers are two words.
# shellcheck disable=SC2046
add "examples, mistakes, and the commands of README, TUTORIAL and LIVE" $("$top/.ci/examples" test)
if [ -n "$builder" ]; then wait "$builder"; fi
builder=
for name in $tests; do
    grep -E '^test .* FAILED|^error' "$work/$name" >&2
    # shellcheck disable=SC2046
    add "tests of $name" $(sed -n 's/^test result: .* \([0-9]*\) passed; \([0-9]*\) failed; .*/\1 \2/p' "$work/$name")
done

echo "Nothing was proved here: rt ci does that, $gate_time."
echo "$passed passed, $failed failed"
[ "$failed" -eq 0 ]
