# What the judges' own tests share; sourced, not run. `begin` comes first, `end` last.
# shellcheck shell=sh

# begin JUDGE [FILE...]: builds the judge in whose folder the test stands, goes there, and runs its case files, all of them
# where none are named.
begin() {
    "$(dirname -- "$0")/build"
    cd -- "$(dirname -- "$0")" || exit
    programs=target/release
    scratch=$(mktemp -d)
    trap 'rm -rf "$scratch"' EXIT
    passed=0 failed=0
    [ $# -gt 1 ] || set -- "$1" cases/*.txt
    run_cases "$@"
}

# run_cases JUDGE [--OPTION...] FILE...: runs the judge, told these options, on case files, and counts them.
run_cases() {
    judge=$1
    shift
    # The last line tells the counts, the lines before it the failures.
    "$programs/cases" "$programs/$judge" "$@" >"$scratch/cases" || true
    sed '$d' "$scratch/cases"
    read -r now_passed _ now_failed _ <<COUNTS
$(tail -n 1 "$scratch/cases")
COUNTS
    passed=$((passed + now_passed))
    failed=$((failed + ${now_failed:?no case was run}))
}

# defined WHAT [NAME...]: what tests/helpers/definitions.py tells of the definitions: words of lines, or numbers of refusals.
defined() {
    python3 ../tests/helpers/definitions.py "$@"
}

# check NAME CONDITION...: counts a test, its condition given as to `test`.
check() {
    name=$1
    shift
    if test "$@"; then
        passed=$((passed + 1))
    else
        failed=$((failed + 1))
        echo "failed: $name"
    fi
}

# end: says how many tests passed and how many failed, and fails where any did.
end() {
    echo "$passed passed, $failed failed"
    test "$failed" -eq 0
}
