# Keeps QEMU's tools off a served image, where the system has their locks and Python: no program in Rattle can take these.

# Sets `image` to the file behind the last `--disk`, and `creates` to the word that makes it, if they are there.
image_of() {
    image='' creates=''
    while [ $# -gt 0 ]; do
        case $1 in
            --) break ;;
            --disk) image=${2-} ;;
            --disk=*) image=${1#*=} ;;
            --create) creates=$1 ;;
        esac
        shift
    done
}

# Marks an image that is there, on a descriptor which the program keeps open, or ends where it is in use.
mark_image() {
    local held status=0
    { exec {held}< "$1"; } 2> /dev/null || return 0
    python3 -I -S "$top/launcher/marks.py" "$1" "$held" < /dev/null > /dev/null 2>&1 || status=$?
    case $status in
        0) ;;
        3) say "FILE is in use" && exit 1 ;;
        *) exec {held}<&- ;;
    esac
}

# Runs the program in the launcher's place, with its image marked. One that it makes is marked as soon as it is there, by a
# process beside it that ends with it.
start() {
    local image creates
    image_of "${@:2}"
    if [ -n "$image" ] && command -v python3 > /dev/null; then
        if [ -f "$image" ] || [ -b "$image" ]; then
            mark_image "$image"
        elif [ -n "$creates" ]; then
            python3 -I -S "$top/launcher/marks.py" --await "$image" "$$" < /dev/null > /dev/null 2>&1 &
        fi
    fi
    exec "$@"
}
