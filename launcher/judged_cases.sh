# The judge's cases: the trace of each script of examples/, recorded and judged; labels that break a rule; lines that tell no
# label; traces with a label that a wrong body of the stack would show; pictures; cuts of another stack; and words.

# Makes a program the one that is tried, in a folder of its own. For a shell that ends behind its cases.
be_program() {
    name=$1
    crate=$top/crates/$name
    program=$crate/out/$name
    scratch=$scratch/$name
    mkdir -p "$scratch"
}

be_judge() {
    be_program stackjudge
    first_words=(check)
}

# Sets `lasting` to the words of a check of a second or two, with its files.
make_lasting_check() {
    awk 'BEGIN { for (k = 0; k < 10000; k++) print "pause\nresume" }' > "$scratch/lasting"
    lasting=(--data "config=$crate/data/config.toml" --data "trace=$scratch/lasting" -- check config trace)
}

# Each folder whose script runs to its end.
recorded_folders() {
    local folder
    while IFS= read -r folder; do
        [ ! -f "$folder/script" ] || [ -f "$folder/status" ] || echo "$folder"
    done < <(example_folders)
}

# The labels that `stackrun trace` printed, and those of a trace without what such lines hide.
printed_labels() { grep -E '^(call|start|act|fault|return|answer|cancel|pause|resume|remove|surprise|removed)( |$)' "$1" || true; }

shown_labels() { sed -E 's/^(call .*) in .*/\1/; s/^(act [0-9]+) .*/\1/; s/^(return [0-9]+ bad) .*/\1/' "$1"; }

# What is printed of a trace that is a run.
legal_line() { awk '{ n[$1]++ } END { print "legal: " NR " labels, " n["call"] + 0 " requests, " n["start"] + 0 " pieces" }' "$1"; }

# Whether a partition of these settings has more sectors than the judge is to hold in memory.
is_too_large() { awk '$1 == "count" && $3 > 1048576 { found = 1 } END { exit !found }' "$1"; }

# Runs the judge on a folder's script and its trace: the trace is what is recorded, has the labels that the script's run prints,
# and is legal, or has no label. What it leaves open is not compared.
run_recorded() {
    local it trace=$scratch/trace part
    it=$(name_of "$1")
    copy_or "$1/trace" "$trace" $'# this folder has no trace\n'
    want "record.$it" 0 < "$trace"
    run_case "record.$it" record "$(settings_of "$1")" "$1/script"
    printed_labels "$1/stdout" | want "labels.$it" 0
    for part in stderr status; do cp "$scratch/wanted/labels.$it.$part" "$scratch/found"; done
    shown_labels "$trace" > "$scratch/found/labels.$it.stdout"
    ! is_too_large "$(settings_of "$1")" || return 0
    if [ -s "$trace" ]; then
        legal_line "$trace" | want "check.$it" 0
    else
        want "check.$it" 1 $'stackjudge: the trace has no label\n' < /dev/null
    fi
    run_case "check.$it" check "$(settings_of "$1")" "$trace"
    keep_wanted_lines "check.$it"
}

# Keeps of what a case printed only as many lines as are wanted, unless that is none.
keep_wanted_lines() {
    local count
    count=$(wc -l < "$scratch/wanted/$1.stdout")
    [ "$count" = 0 ] || sed -i "$((count + 1)),\$d" "$scratch/found/$1.stdout"
}

# Runs the judge on what a wrong body of the stack would show: the trace of a folder with another label in a line. The line that
# is refused is compared, with the rule that it breaks, and not what was open there.
run_wrong_body() {
    local body=$2 folder=$top/examples/$3 line=$4 label=$5 at=$6 rule=$7 it
    it=$1.$body
    awk -v line="$line" -v label="$label" 'NR == line { $0 = label } { print }' "$folder/trace" > "$scratch/trace"
    want "$it" 1 <<< "line $at: $rule"
    run_case "$it" check "$(settings_of "$folder")" "$scratch/trace"
    keep_wanted_lines "$it"
}

# Runs the judge on a line that tells no label.
run_bad_line() {
    printf '%b\n' "$3" > "$scratch/trace"
    want "$1" 1 "stackjudge: trace line 1: bad word in column $2"$'\n' < /dev/null
    run_case "$1" check "$top/examples/judged/config.toml" "$scratch/trace"
}

# Parts the cases of a folder into files: their traces, the words of their checks, and what is printed and said.
split_labels() {
    awk -v into="$2/" '
        /^\[/ { gsub(/[][]/, ""); file = into $1; $1 = ""; print > (file ".words"); is_trace = 1; next }
        /^> / { print substr($0, 3) > (file ".stdout"); is_trace = 0; next }
        /^! / { print substr($0, 3) > (file ".stderr"); is_trace = 0; next }
        /^[?] / { print substr($0, 3) > (file ".status"); is_trace = 0; next }
        is_trace { print > (file ".escaped") }' "$1/cases"
}

# Runs the judge on the labels of one of these cases.
run_labels_of() {
    local it words file=${2%.words} said='' status=1
    it=$1.${file##*/}
    read -r -a words < "$2"
    printf '%b' "$(cat "$file.escaped")\n" > "$scratch/trace"
    [ ! -f "$file.stderr" ] || said=$(cat "$file.stderr")$'\n'
    ! grep -q '^legal' "$file.stdout" 2> /dev/null || status=0
    [ ! -f "$file.status" ] || status=$(cat "$file.status")
    copy_or "$file.stdout" "$scratch/printed"
    want "$it" "$status" "$said" < "$scratch/printed"
    run_case "$it" check "${words[@]}" "$3/config.toml" "$scratch/trace"
    keep_wanted_lines "$it"
}

# Runs the judge on the trace of a folder, with its words. A legal one ends with status 0 where the folder doesn't say another.
run_judged() {
    local it=judged.${1##*/} words=() said='' status=1
    [ ! -f "$1/words" ] || read -r -a words < "$1/words"
    [ ! -f "$1/stderr" ] || said=$(cat "$1/stderr")$'\n'
    ! grep -qs '^legal' "$1/stdout" || status=0
    [ ! -f "$1/status" ] || status=$(cat "$1/status")
    copy_or "$1/stdout" "$scratch/printed"
    want "$it" "$status" "$said" < "$scratch/printed"
    run_case "$it" check "${words[@]}" "$(settings_of "$1")" "$1/trace"
    keep_wanted_lines "$it"
}

# Runs the judge on a trace whose starts have many readings: with the request of each start, which is read in one way, and
# without them, where `untold` has what is printed, or said where that is a fault.
run_readings() {
    local it=readings.$1 folder=$top/examples/judged/readings said='' printed=$scratch/printed
    legal_line "$folder/$1/trace" | want "$it.told" 0
    run_case "$it.told" check --ended "$folder/config.toml" "$folder/$1/trace"
    sed 's/ of [0-9]*$//' "$folder/$1/trace" > "$scratch/trace"
    if grep -q '^legal' "$folder/$1/untold"; then
        want "$it.untold" 0 < "$folder/$1/untold"
    else
        want "$it.untold" 1 "$(cat "$folder/$1/untold")"$'\n' < /dev/null
    fi
    run_case "$it.untold" check "$folder/config.toml" "$scratch/trace"
}

# Has the judge tell a refusal while its trace goes on: the line is there before the input ends.
run_told_at_once() {
    local it=told.at_once
    want "$it" 0 <<< 'line 1: this is call 1, and not 2'
    mkfifo "$scratch/going_on"
    "$program" check "$top/examples/judged/config.toml" - < "$scratch/going_on" > "$scratch/found/$it.stdout" 2> "$scratch/found/$it.stderr" &
    exec 8> "$scratch/going_on"
    echo 'call 2 read 0 512 in 0' >&8
    await_text "$scratch/found/$it.stdout"
    cp "$scratch/found/$it.stdout" "$scratch/found/told_so_far"
    exec 8>&-
    wait "$!" || true
    mv "$scratch/found/told_so_far" "$scratch/found/$it.stdout"
    keep_wanted_lines "$it"
    echo 0 > "$scratch/found/$it.status"
}

# Has the judge refuse a history that goes on: it ends before its input does.
run_history_told_at_once() {
    local it=told.history_at_once left
    want "$it" 1 <<< 'line 1: the call has not the next number'
    rm -f "$scratch/going_on" && mkfifo "$scratch/going_on"
    note_run "$scratch/found/$it" "$scratch/going_on" timeout 150 "$program" history "$top/examples/history/config.toml" - &
    exec 8> "$scratch/going_on"
    echo 'call 2 read 0 512 in 0' >&8
    for ((left = 100; left > 0; left--)); do
        kill -0 "$!" 2> /dev/null || break
        sleep 0.1
    done
    exec 8>&-
    wait "$!" || true
    [ "$left" -gt 0 ] || echo 'it waited for the end' >> "$scratch/found/$it.stdout"
}

# Waits until a file has bytes, a few seconds at most.
await_text() {
    local left
    for ((left = 100; left > 0; left--)); do
        [ ! -s "$1" ] || return 0
        sleep 0.1
    done
}

# Runs the judge on the labels of all cases of a folder.
run_labels() {
    local it
    mkdir -p "$scratch/split.$1"
    split_labels "$2" "$scratch/split.$1"
    for it in "$scratch/split.$1"/*.words; do run_labels_of "labels_of.$1" "$it" "$2"; done
}

# Judges the history of a folder, which says what is printed, and may have `words` and what is said: a legal one ends with status
# 0, any other with 1. In the folder without_settings none are given.
run_history() {
    local it=history.${1#"$top/examples/history/"} status=1 options=() settings=("$top/examples/history/config.toml") said=''
    it=${it//\//.}
    ! grep -q '^legal\|"legal"' "$1/stdout" || status=0
    [ ! -f "$1/words" ] || read -r -a options < "$1/words"
    [ ! -f "$1/stderr" ] || said=$(cat "$1/stderr")$'\n'
    [[ $it != history.without_settings.* ]] || settings=()
    want "$it" "$status" "$said" < "$1/stdout"
    run_case "$it" history "${options[@]}" "${settings[@]}" "$1/history"
}

# Has the judge draw the picture that the pages show.
run_picture() {
    want picture.pages 0 < "$top/docs/cancelled_in_three_places.svg"
    run_case picture.pages picture "$top/examples/cancelled_in_three_places/trace"
}

# Has the judge draw a trace of more than 400 lines, in which a request is named by the letter of its kind, and its first lines.
run_letters() {
    local it
    awk 'BEGIN { print "call 1 read 0 512 in 0\ncall 2 write 0 512 in 0\ncall 3 flush in 0"; for (k = 0; k < 200; k++) print "pause\nresume" }' \
        > "$scratch/trace"
    want picture.letters 0 <<< $'r1\nw2\nf3'
    run_case picture.letters picture "$scratch/trace"
    want picture.words 0 <<< $'1 read 0 512\n2 write 0 512\n3 flush'
    run_case picture.words picture --lines 1-9 "$scratch/trace"
    for it in letters words; do
        sed -n 's/<text class="[en]" x="[0-9]*" y="[0-9]*">\(..*\)<.text>/\1/p' "$scratch/found/picture.$it.stdout" > "$scratch/drawn"
        mv "$scratch/drawn" "$scratch/found/picture.$it.stdout"
    done
}

# Has the judge draw a trace of a folder, as a file there is named: each line of it is to be a piece of a line that is printed.
# A folder may have `words` for that, and settings by which the trace is judged.
run_drawing() {
    local it line options=() settings=()
    it=$(name_of "$1/$2")
    it=picture.${it#examples.judged.pictures.}
    [ ! -f "$1/words" ] || read -r -a options < "$1/words"
    [ "$2" = picture ] || options+=("--$2")
    [ ! -f "$1/config.toml" ] || settings=("$1/config.toml")
    want "$it" 0 < "$1/$2"
    run_case "$it" picture "${options[@]}" "${settings[@]}" "$1/trace"
    mv "$scratch/found/$it.stdout" "$scratch/drawn"
    while IFS= read -r line; do
        ! grep -qF -- "$line" "$scratch/drawn" || echo "$line"
    done < "$1/$2" > "$scratch/found/$it.stdout"
}

# Runs the judge on a trace of another stack, which cuts requests otherwise than this one: it is refused, and legal where any cut
# will do, whether it is said how far its check comes or not.
run_cuts() {
    local folder=$top/examples/judged
    want cuts.refused 1 << 'END'
line 4: request 1 asks for it, but no piece begins at its sector 8: it is cut at multiples of 64
label: start 2 tag 1 2a000000080800000800
at: request 1, piece 2, place 8, block 2056
open: request 1 of line 2, begun
out: piece 1 of request 1, on tag 0
END
    run_case cuts.refused check "$folder/config.toml" "$folder/cut_elsewhere.trace"
    want cuts.legal 0 <<< 'legal: 8 labels, 1 requests, 2 pieces'
    run_case cuts.legal check --any-cut "$folder/config.toml" "$folder/cut_elsewhere.trace"
    want cuts.watched 0 <<< 'legal: 8 labels, 1 requests, 2 pieces'
    run_case cuts.watched check --progress --any-cut "$folder/config.toml" "$folder/cut_elsewhere.trace"
}

# Has the judge cut down a trace of 10,000 labels, of which a read brings zeros in place of what was written. What is left is
# refused in its last line. A trace that is a run is not cut.
run_cut() {
    local folder=$top/examples/judged/cut
    "$top/bench/judge_trace" 10000 8 > "$scratch/trace"
    sed '9007s/92[*]512$/00*512/' "$scratch/trace" > "$scratch/lost"
    want cut.lost 0 < "$folder/lost_write"
    run_case cut.lost cut "$folder/config.toml" "$scratch/lost"
    want cut.refused 1 <<< "line $(wc -l < "$folder/lost_write"): of the bytes of the disk's sectors, byte 0 is 00, and 92 is due"
    run_case cut.refused check "$folder/config.toml" "$folder/lost_write"
    keep_wanted_lines cut.refused
    want cut.legal 1 <<< '# The trace is legal.'
    run_case cut.legal cut "$folder/config.toml" "$scratch/trace"
}

# Runs the launcher, over nothing that is built, on words of a page: it refuses them at once, with this status and line.
refuse_page() {
    want "$1" "$2" "$3"$'\n' < /dev/null
    words_of_line "picture --html $4"
    (cd "$scratch/files" && PATH=$scratch/bin:$PATH note_run "$scratch/found/$1" /dev/null "$scratch/fresh/$name" "${words[@]}")
}

# Has a page made of a trace that is refused: what it has of the judge is compared. Words that nothing can be made of are refused.
run_page() {
    local it=page.states folder=$top/examples/judged words usage
    usage=$(. "$top/launcher/page.sh" && echo "$page_usage")
    want "$it" 0 << 'END'
"broken": 6
"states": [{"open": [{"request": 1, "line": 2, "begun": false}], "out": []}
{"open": [{"request": 1, "line": 2, "begun": true}], "out": [{"piece": 1, "request": 1, "tag": 0}]}
{"open": [{"request": 1, "line": 2, "begun": true}], "out": [{"piece": 1, "request": 1, "tag": 0}]}
{"open": [{"request": 1, "line": 2, "begun": true}], "out": [{"piece": 1, "request": 1, "tag": 0}]}]
"sector_size": 512
"zeros": true, "firsts": [2048]
END
    STACKJUDGE=$program note_run "$scratch/found/$it" /dev/null \
        "$top/clients/run_page/run_page" "$folder/config.toml" "$folder/answered_too_soon.trace"
    sed -n 's/.*\("broken": .*\), "trace".*/\1/; s/, "\(states\|sector_size\|zeros\)/\n"\1/g; s/}, {"open/}\n{"open/gp' \
        "$scratch/found/$it.stdout" > "$scratch/page"
    mv "$scratch/page" "$scratch/found/$it.stdout"
    want page.rules 0 <<< '"firsts": [2048]'
    printf 'fault = [{ kind = "not_ready", first = 7, count = 1 }]\n' | cat - "$folder/config.toml" > "$scratch/files/with_rules"
    STACKJUDGE=$program note_run "$scratch/found/page.rules" /dev/null \
        "$top/clients/run_page/run_page" "$scratch/files/with_rules" "$folder/legal.trace"
    grep -o '"firsts": [^]]*.' "$scratch/found/page.rules.stdout" > "$scratch/page" || true
    mv "$scratch/page" "$scratch/found/page.rules.stdout"
    want page.closed 1 $'stackjudge: output failed\n' < /dev/null
    STACKJUDGE=$program note_run "$scratch/found/page.closed" /dev/null \
        bash -c 'exec "$@" >&-' bash "$top/clients/run_page/run_page" "$folder/config.toml" "$folder/legal.trace"
    each_row page /dev/stdin refuse_page << END
2 | $usage | --html
2 | $usage | settings
2 | $usage | settings trace more
2 | $usage | --events settings trace
2 | $usage | --json settings trace
1 | stackjudge: cannot read CONFIG | nothing trace
1 | stackjudge: cannot read CONFIG | - trace
1 | stackjudge: cannot read TRACE | settings folder
END
}

# Runs the judge on a trace whose refused calls bring their bytes and are answered late, and on what is reordered of it.
run_refused_late() {
    local folder=$top/examples/judged/refused_late
    want late.recorded 1 <<< 'line 2: the call is refused with INVALID_PARAMETER, and takes none of its 512 bytes in'
    run_case late.recorded check "$folder/config.toml" "$folder/recorded"
    keep_wanted_lines late.recorded
    want late.reordered 0 < "$folder/trace"
    python3 "$top/clients/traces/refused_first.py" "$folder/config.toml" "$folder/recorded" > "$scratch/found/late.reordered.stdout"
    : > "$scratch/found/late.reordered.stderr"
    echo 0 > "$scratch/found/late.reordered.status"
    legal_line <(grep -v '^#' "$folder/trace") | want late.judged 0
    run_case late.judged check "$folder/config.toml" "$folder/trace"
}

# Runs all cases of the judge, and compares them.
run_judge_cases() {
    local folder it
    make_case_folders
    while IFS= read -r folder; do run_recorded "$folder"; done < <(recorded_folders)
    for it in rules large overlap gaps sessions; do run_labels "$it" "$top/examples/judged/$it"; done
    for it in "$top"/examples/judged/rules/*/trace; do run_judged "${it%/*}"; done
    each_row bad_lines "$top/examples/judged/bad_lines" run_bad_line
    each_row wrong "$top/examples/judged/wrong_bodies" run_wrong_body
    for it in "$top"/examples/judged/readings/*/trace; do
        it=${it%/*}
        run_readings "${it##*/}"
    done
    run_told_at_once
    run_history_told_at_once
    run_picture
    run_letters
    for it in "$top"/examples/judged/pictures/*/{picture,events}; do run_drawing "${it%/*}" "${it##*/}"; done
    run_cuts
    run_cut
    run_refused_late
    for it in "$top"/examples/history/{,without_settings/}*/history; do run_history "${it%/*}"; done
    run_refused_words
    run_answered_at_once "$top/launcher/judged_at_once"
    run_page
    count_cases "stackjudge, scripts recorded" record.
    count_cases "stackjudge, labels of their traces" labels.
    count_cases "stackjudge, their traces judged" check.
    count_cases "stackjudge, rules" labels_of.
    count_cases "stackjudge, traces of folders" judged.
    count_cases "stackjudge, lines of no label" bad_lines.
    count_cases "stackjudge, wrong bodies" wrong.
    count_cases "stackjudge, starts of many readings" readings.
    count_cases "stackjudge, told before its end" told.
    count_cases "stackjudge, pictures" picture.
    count_cases "stackjudge, pages" page.
    count_cases "stackjudge, cuts of another stack" cuts.
    count_cases "stackjudge, traces cut down" cut.
    count_cases "stackjudge, refused calls answered late" late.
    count_cases "stackjudge, histories" history.
    count_cases "stackjudge, words refused" refused.
    count_cases "stackjudge, words answered at once" words.
    cp "$scratch"/*.counts "${scratch%/*}"
}
