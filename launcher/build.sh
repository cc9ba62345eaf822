# Proves and builds the program.

# Says of each crate that it is being proved, as rt's lines tell.
tell_crates() {
    local names line all at
    names=$(crate_lines "$name" | sed 's/[ :].*//')
    all=$(wc -l <<< "$names")
    while IFS= read -r line; do
        case $line in
            "rt: chose --jobs "*)
                at=$(grep -nxF "${line##* }" <<< "$names") || continue
                say "proving ${line##* }, crate ${at%%:*} of $all, $SECONDS seconds so far"
                ;;
            "rt: waiting "*) say "${line#rt: }" ;;
        esac
    done
}

# Proves and builds the program, and runs it on `first_words`, which ask for what its crate has.
build() {
    local log status input=$crate/stdin
    [ -f "$input" ] || input=/dev/null
    log=$(mktemp)
    set +e
    (cd "$crate" && rt run -- "${first_words[@]}") 2>&1 > /dev/null < "$input" | tee "$log" | tell_crates
    status=${PIPESTATUS[0]}
    set -e
    if [ "$status" != 0 ]; then
        say "the build failed, and ended so (all of it is in $log):"
        tail -n 20 "$log" >&2
        exit 1
    fi
    rm -f "$log"
    say "proved and built, $SECONDS seconds in all"
}
