# Answers at once what takes no program, and else runs the program.

# Says how the program is called, and ends.
show_usage() {
    echo "$usage" >&2 || true
    exit 2
}

# Sets `plain` to the words that are none of the program's `options`, and shows the usage where there is another option.
# Returns false where `--` is among the words: behind it a word is read otherwise, and that is the program's to do.
read_plain() {
    local word
    plain=()
    for word; do
        [ "$word" != -- ] || return 1
        if [[ $word != -?* ]]; then
            plain+=("$word")
        elif [[ " $options " != *" $word "* ]]; then
            show_usage
        fi
    done
}

# The first word behind the first that is no option: the settings of all words that take any.
settings_in() {
    local word
    for word in "${@:2}"; do [[ $word = -?* ]] || { echo "$word" && return; }; done
}

are_utf8() { ! printf '%s\n' "$@" | LC_ALL=C.UTF-8 grep -qaxv '.*'; }

# Ends where a file isn't there, or can't be read. The third word names standard input, where it may be that.
need_file() {
    { [ -r "$2" ] && [ ! -d "$2" ]; } || [ "$2/${3-}" = -/- ] || { say "cannot read $1" && exit 1; }
}

# The settings of a call, the words by which a program looks at them and does no more, and its number of clients on threads.
settings='' look=() clients=''

# What a program says by those words.
said_of_settings() { "$1" "${look[@]}" 2>&1 > /dev/null < /dev/null | tail -n 1; }

# A program's launcher may do more before it starts.
start() { exec "$@"; }

# Runs a program in the launcher's place. Where it refuses the settings it ends at once, and the line behind its own says
# which setting it is.
run() {
    local status=0 said=''
    [ ! -f "$settings" ] || said=$(said_of_settings "$1")
    if [[ $said = "$name: "@(config|mbr|start)": "* ]]; then
        "$@" || status=$?
        ! command -v python3 > /dev/null || python3 "$top/launcher/which_setting.py" "$said" "$settings" "$clients" || true
        exit "$status"
    fi
    start "$@"
}

# Runs the program that was proved and built. Where there is none an unproved build answers, and where none can be made
# the program is proved and built.
run_program() {
    local kept price="once, in an hour or two of processor time"
    if [ -x "$program" ]; then run "$program" "$@"; fi
    need_rt "it is not built"
    if kept=$("$top/launcher/unproved" "$name" < /dev/null); then
        say "this is an unproved build; './$name build' proves and builds the program, $price"
        run "$kept" "$@"
    fi
    say "there is no unproved build; proving and building the program, $price"
    build
    run "$program" "$@"
}
