# Runs the tests by unproved builds, several crates at once. With --built: the cases of the programs, by those built.
. "$top/launcher/session_cases.sh"

# The crates with tests, and the programs and the C library, whose cases are tests too: those that stand on most come
# first, since they take longest.
test_crates() {
    printf '%s\n' stackrun stackjudge nbd_disk saddlemug
    awk '!/^#/ { print NF, $1 }' "$top/crates.txt" | sort -rn | tr -d : | while read -r _ name; do
        ! grep -rqF '#[test]' "$top/crates/$name/src" || echo "$name"
    done
}

# How many crates at once: one for each processor, where each has 2.5 GB of memory.
room() {
    awk -v most="$(nproc)" '
        /^MemAvailable:/ { free = int($2 / 2500000) }
        END { print free < 1 ? 1 : free < most ? free : most }' /proc/meminfo
}

# Notes the counts of a part of the tests, and tells them.
count() {
    echo "$2 $3" > "$scratch/${1//[ \/]/_}.counts"
    echo "$1: $2 passed, $3 failed, $SECONDS seconds so far"
}

# Runs the tests of a crate.
try_tests() {
    local ended=0
    (cd "$top/crates/$1" && try_alone --test) > "$scratch/$1.out" 2> "$scratch/$1.said" < /dev/null || true
    tail -n 1 "$scratch/$1.said" | grep -q '^run=ended status=0 ' || ended=1
    count_tests "$1" "$ended"
}

# Makes each call of the C library, unproved, from C.
try_calls() {
    local ended=0 kit library
    kit=$(dirname "$(readlink -f "$(command -v rt)")")/..
    {
        library=$("$top/launcher/unproved" saddlemug) &&
            "${CC:-cc}" -O1 -Wall -Wextra -I"$top/crates/saddlemug" "$top/clients/bench/calls.c" "$library" \
                "$kit/c/liblibc_c.a" -o "$scratch/calls" && timeout "$RT_SECONDS" "$scratch/calls"
    } > "$scratch/$1.out" 2> "$scratch/$1.said" < /dev/null || ended=1
    count_tests "$1" "$ended"
}

# Counts the tests of a crate by what they printed. Where they didn't end well, one at least failed.
count_tests() {
    local passed failed
    passed=$(grep -c '^test .* \.\.\. ok$' "$scratch/$1.out" || true)
    failed=$(grep -c '^test .* \.\.\. FAILED$' "$scratch/$1.out" || true)
    if [ "$failed" = 0 ] && [ "$2" != 0 ]; then failed=1; fi
    if [ "$failed" != 0 ]; then
        echo "FAILED: $1:"
        grep -v ' \.\.\. ok$' "$scratch/$1.out" || true
        tail -n 20 "$scratch/$1.said"
    fi >&2
    count "$1" "$passed" "$failed"
}

# Tests a crate, and notes that this came to an end.
test_crate() {
    case $1 in
        stackrun) try_cases run_stackrun_cases make_lasting_run ;;
        stackjudge) (
            be_judge
            try_cases run_judge_cases make_lasting_check
        ) ;;
        nbd_disk) (
            be_server
            try_cases run_server_cases make_lasting_session
        ) ;;
        saddlemug) try_calls "$1" ;;
        *) try_tests "$1" ;;
    esac
    : > "$scratch/$1.ended"
}

# Ends what is still running, each job with all that it has begun.
stop_jobs() {
    local job
    for job in $(jobs -p); do kill -- "-$job" 2> /dev/null || true; done
}

# Runs the cases of the programs by those that were built.
test_built() {
    local it
    for it in stackrun stackjudge nbd_disk; do
        [ -x "$top/crates/$it/out/$it" ] || { say "$it is not built" && exit 1; }
    done
    make_scratch
    run_stackrun_cases
    (be_judge && run_judge_cases)
    (be_server && run_server_cases)
    tally
}

# Tests these crates, or all.
run_tests() {
    local tested all most
    if [ "$*" = --built ]; then
        test_built
        return
    fi
    mapfile -t all < <(test_crates)
    for tested; do
        [[ " ${all[*]} " = *" $tested "* ]] || { say "there are no tests of '$tested', but of ${all[*]}" && exit 1; }
    done
    [ $# != 0 ] || set -- "${all[@]}"
    make_scratch
    # Each job is a group of processes, which can be ended as one.
    set -m
    # Seconds for each test and each case, which may run beside others.
    export RT_SECONDS=300
    trap 'stop_jobs; rm -rf "$scratch"' EXIT
    most=$(room)
    for tested; do
        while [ "$(jobs -rp | wc -l)" -ge "$most" ]; do wait -n || true; done
        test_crate "$tested" &
    done
    wait
    tally "$@"
}

# Tells how many passed and failed, and whether all did. A crate whose tests came to no end failed.
tally() {
    local passed failed name
    for name; do
        [ -e "$scratch/$name.ended" ] || count "$name, which came to no end" 0 1
    done
    read -r passed failed < <(cat "$scratch"/*.counts | awk '{ passed += $1; failed += $2 } END { print passed + 0, failed + 0 }')
    echo "$passed passed, $failed failed"
    [ "$failed" = 0 ]
}
