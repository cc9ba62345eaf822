# The cases of `nbd_disk`: sessions of examples/sessions/, each of what a client sends and what it gets, in hexadecimal digits.

be_server() {
    be_program nbd_disk
    first_words=(settings)
}

# Makes a session of a second or two: the client asks for many flushes.
make_lasting_session() {
    lasting_input=$scratch/lasting
    bytes_of <(
        echo 00000003 49484156454f5054 00000001 00000000
        awk 'BEGIN { for (k = 0; k < 20000; k++) print "25609513 0000 0003 0000000000000001 0000000000000000 00000000" }'
    ) > "$lasting_input"
    lasting=(--data "config=$crate/data/config.toml" -- config)
}

# Writes the bytes of a text: pairs of hexadecimal digits, and runs as a5*512. A # begins a remark.
bytes_of() {
    printf '%b' "$(awk '
        { sub(/#.*/, "") }
        {
            for (k = 1; k <= NF; k++) {
                count = split($k, run, "*") == 2 ? run[2] : 1
                gsub(/../, "\\x&", run[1])
                while (count-- > 0) printf "%s", run[1]
            }
        }' "$1")"
}

# The bytes of a file as digits, sixteen a line.
digits_of() { od -An -v -tx1 "$1" > "$1.digits" && mv "$1.digits" "$1"; }

# Each folder with what a client sends.
session_folders() { find "$top/examples/sessions" -name client -type f -printf '%h\n' | LC_ALL=C sort; }

# Makes the disk of a session, if its words name one, and notes what it is to hold at the end.
make_disk() {
    local before after=$2/disk_after
    before=$(nearest disk "$2")
    [ -f "$after" ] || after=$before
    bytes_of "$before" > disk
    bytes_of "$after" > "$scratch/wanted/$1.disk"
    digits_of "$scratch/wanted/$1.disk"
}

# Runs a session in a folder of its own.
run_session() (
    local it words
    it=$(name_of "$1")
    mkdir "$scratch/files/$it"
    cd "$scratch/files/$it" || return
    read -r -a words < "$(nearest words "$1")"
    want_of_folder "$it" "$1"
    copy_or "$1/server" server
    bytes_of server > "$scratch/wanted/$it.stdout"
    bytes_of "$1/client" > client
    [[ ${words[*]} != *disk* ]] || make_disk "$it" "$1"
    note_run "$scratch/found/$it" client timeout 150 "$program" "$(settings_of "$1")" "${words[@]}"
    digits_of "$scratch/wanted/$it.stdout"
    digits_of "$scratch/found/$it.stdout"
    [ ! -f disk ] || { cp disk "$scratch/found/$it.disk" && digits_of "$scratch/found/$it.disk"; }
)

# Kills sessions over a file below a cache that loses what was not synced (bench/loss), of a program with these further
# words, and prints whether no sector was wrong.
losing_words=()
kill_sessions() {
    local status=0
    timeout 150 python3 "$top/bench/loss/sessions.py" --first 1 "$@" L "$program" settings 0 --disk L/disk.img "${losing_words[@]}" > said || status=$?
    grep -o ' 0 wrong$' said
    return "$status"
}

# run_losing NAME WORDS..: such sessions in a folder of its own.
run_losing() (
    mkdir -p "$scratch/files/losing.$1/L"
    cd "$scratch/files/losing.$1" || return
    cp "$top/bench/loss/settings" .
    "${CC:-cc}" -O2 -shared -fPIC -o L/losing.so "$top/bench/loss/losing.c" -ldl
    "$program" settings 0 --disk L/disk.img --create < /dev/null > made
    note_run "$scratch/found/losing.$1" /dev/null kill_sessions "${@:2}"
)

# Nothing is lost that was synced, with one request out or sixteen, also side by side, and where a sync fails; a disk that
# lies is caught.
run_losing_sessions() {
    local it
    for it in one sixteen failing beside; do echo ' 0 wrong' | want "losing.$it" 0; done
    want losing.lying 1 < /dev/null
    run_losing one --seed 1 20
    run_losing sixteen --out 16 --seed 2 20
    run_losing failing --out 16 --fail 2 --seed 3 20
    run_losing lying --lie --seed 5 5
    losing_words=(--beside)
    run_losing beside --out 16 --linger 3000 --seed 7 20
    losing_words=()
}

# Runs the launcher with its errors going into the disk: it says nothing, and the disk stays.
run_errors_into_disk() {
    local it=words.errors_into_disk
    want "$it" 1 < /dev/null
    cp "$scratch/files/trace" "$scratch/wanted/$it.disk"
    cp "$scratch/files/trace" "$scratch/found/$it.disk"
    PATH=$scratch/bin:$PATH note_run "$scratch/found/$it" /dev/null bash -c 'exec "${@:2}" 2>> "$1"' bash "$scratch/found/$it.disk" \
        "$scratch/fresh/$name" "$scratch/files/settings" --disk "$scratch/found/$it.disk"
}

# Runs all cases of the server, and compares them.
run_server_cases() {
    local folder
    make_case_folders
    while IFS= read -r folder; do run_session "$folder"; done < <(session_folders)
    run_refused_words
    run_answered_at_once "$top/launcher/served_at_once"
    run_errors_into_disk
    run_losing_sessions
    count_cases "nbd_disk, sessions" examples.
    count_cases "nbd_disk, words refused" refused.
    count_cases "nbd_disk, words answered at once" words.
    count_cases "nbd_disk, loss of power" losing.
    cp "$scratch"/*.counts "${scratch%/*}"
}
