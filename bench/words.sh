# Read by the scripts of this folder, which set `here`, the folder.

# read_words SECOND REST WORD ..: takes the words of a script. Sets `dpl`, the program, `second` and `rest`, what
# stands behind it, where SECOND and REST stand for what isn't given, and `work`, as `begin` does.
read_words() {
    [ $# -gt 2 ] || usage
    dpl=$3
    second=${4:-$1}
    rest=$2
    begin "$dpl"
    if [ $# -gt 4 ]; then
        shift 4
        rest=$*
    fi
}

# begin PROGRAM ..: sets `work`, a folder that goes with the script, once all programs are there.
begin() {
    for program; do
        command -v -- "$program" >/dev/null || {
            echo "$0: no program $program" >&2
            exit 1
        }
    done
    work=$(mktemp -d)
    trap 'rm -rf "$work"' EXIT
    trap 'exit 1' HUP INT TERM
}

# Tells how the script is called.
usage() {
    sed -n 's/^# usage/usage/p' "$0" >&2
    exit 2
}

# measure WORD ..: does what the Python text on standard input says, with the modules of this folder and these words.
measure() {
    PYTHONPATH=$here python3 -B - "$@"
}
