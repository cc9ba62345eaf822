#!/usr/bin/env bash
# man_page.sh NAME PAGE VERSION: writes the manual page of a program, from the page that its launcher shows for `help`. What
# the launcher alone does is left out: the words `build`, `test`, `fmt`, `lint` and `help`, and the lines that go on from those.
set -eu
name=$1 page=$2 version=$3
title=$(awk -v RS= '{ gsub("\n", " "); print; exit }' "$page")
title=${title#"$name: "}
cat <<END
.TH ${name^^} 1 "" "saddlemug $version" ""
.SH NAME
$name \\- ${title%.}
.SH DESCRIPTION
.nf
END
awk -v name="$name" '
    NR == 1, /^$/ { next }
    /^    \.\// { left_out = $0 ~ "^    \\./" name " (build|test|fmt|lint|help)" }
    !/^     / && !/^    \.\// { left_out = 0 }
    !left_out {
        if (/^    \.\//) sub(/[^ ]  +/, "&  ")
        gsub("\\./" name, name); gsub(/\\/, "\\e"); sub(/^\./, "\\\\\\&."); print
    }' "$page"
printf '.fi\n'
