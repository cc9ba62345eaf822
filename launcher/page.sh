# A run as a page: `picture --html`, which clients/run_page makes of what the program says. Both the launcher and the program as
# it is installed take this word.

# Whether these words ask for a page.
asks_for_page() { [ "${1-}" = picture ] && [[ " ${*:2} " = *' --html '* ]]; }

# Sets `page_words` to those that run_page takes. Returns false where these words are none of a page.
read_page_words() {
    local word how=() files=()
    for word in "${@:2}"; do
        case $word in
            --html) ;;
            --any-cut | --any-tag | --any-read | --many | --whole-disk) how+=("$word") ;;
            -?*) return 1 ;;
            *) files+=("$word") ;;
        esac
    done
    page_words=("${how[@]}" "${files[@]}")
    [ ${#files[@]} = 2 ]
}

page_usage='usage: stackjudge picture --html [--any-cut] [--any-tag] [--any-read] [--many] [--whole-disk] CONFIG TRACE'

# Makes the page, by the program at the first path and the maker at the second.
make_page() {
    if ! command -v python3 > /dev/null; then
        echo "stackjudge: picture --html needs python3" >&2
        exit 1
    fi
    STACKJUDGE=$1 exec python3 "$2" "${page_words[@]}"
}
