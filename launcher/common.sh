# What all parts of the launchers use.

# Says a line, also where standard error is closed.
say() { echo "$name: $1" >&2 || true; }

need_rt() { command -v rt > /dev/null || { say "$1, and there is no 'rt' on PATH" && exit 1; }; }

# Tells the version of the repository, by its last release, and that of the toolchain.
version() {
    awk '/^## / && $2 ~ /^[0-9]/ { sub(/^##/, "saddlemug"); print $0 later; exit } /^## / { later = ", and later changes" }' \
        "$top/CHANGELOG.md" || exit 1
    rt version 2> /dev/null || echo "there is no 'rt' on PATH"
}

# The lines of crates.txt of a crate and of those that it stands on, lowest first, as rt finds them.
crate_lines() {
    wanted=$1 awk -F: '
        /^[a-z]/ { split($1, head, " "); name = head[1]; order[++n] = name; below[name] = $2; line[name] = $0 }
        END {
            wanted[ENVIRON["wanted"]] = 1
            for (k = n; k >= 1; k--) if (order[k] in wanted) {
                count = split(below[order[k]], names, " ")
                for (j = 1; j <= count; j++) wanted[names[j]] = 1
            }
            for (k = 1; k <= n; k++) if (order[k] in wanted) print line[order[k]]
        }' "$top/crates.txt"
}

# The folder for this call's files, which goes with it.
make_scratch() {
    scratch=$(mktemp -d)
    trap 'rm -rf "$scratch"' EXIT
}

# Ends the check that `rt try` starts beside the try, as its child: it gives a hint on names alone, and takes as long
# again.
end_hint() {
    while kill -0 "$1" 2> /dev/null && ! pkill -P "$1" -x rattle 2> /dev/null; do sleep 0.2; done
}

# Runs `rt try` without that check.
try_alone() (
    tried=$BASHPID
    end_hint "$tried" &
    exec rt try "$@"
)

# Says every ten seconds what a call is at, until it is ended or the launcher has gone. The function that is named sets
# `doing`.
tell_every_ten_seconds() {
    local doing=
    while sleep 10 > /dev/null 2>&1 && kill -0 "$$" 2> /dev/null; do
        "$1"
        say "$doing, $SECONDS seconds so far"
    done
}
