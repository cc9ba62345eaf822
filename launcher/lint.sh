# Lays out the sources, and looks over them and the scripts. What isn't installed is said and left out.

# The files of the repository that are scripts of this kind, by their first line, or by the end of their names.
scripts() {
    git -C "$top" ls-files -z | (cd "$top" && xargs -0 awk -v kind="$1" -v ending="[.]$2\$" -v top="$top" '
        FNR == 1 && (/^#!/ && index($0, kind) || FILENAME ~ ending) { print top "/" FILENAME }
        { nextfile }')
}

# Lays out the sources of all crates.
format() {
    local it
    for it in "$top"/crates/*/; do (cd "$it" && rt fmt); done
}

# Names the sources that are not in the layout of `rt fmt`, and fails where there are any.
check_layout() {
    local rt
    rt=$(readlink -f "$(command -v rt)")
    find "$top"/crates/*/{src,specs,proofs} \( -name '*.rt' -o -name '*.antt' \) -print0 2> /dev/null \
        | xargs -0 "${rt%/*}/rattle" fmt --check
}

# Has a tool look over files, if it is there.
look_over() {
    local tool=$1
    shift
    if ! command -v "$tool" > /dev/null; then
        say "$tool isn't installed"
        return
    fi
    "$@"
}

# The parts of the launchers set and read each other's variables, and are found as they run; an assignment expands no `?`.
lint() {
    local shell=() python=() status=0
    mapfile -t shell < <(scripts bash sh)
    mapfile -t python < <(scripts python3 py)
    check_layout || status=1
    look_over shellcheck shellcheck -s bash -S warning -e SC1090,SC1091,SC2034,SC2125,SC2154 \
        "${shell[@]}" || status=1
    if command -v ruff > /dev/null; then
        ruff check -q "${python[@]}" || status=1
    else
        look_over pyflakes3 pyflakes3 "${python[@]}" || status=1
    fi
    [ "$status" = 0 ] && echo "nothing to change"
}
