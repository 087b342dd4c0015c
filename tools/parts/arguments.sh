# What the bash tools share in reading their arguments. They take it in with `source`.

# show_head: what --help says, the comment at the head of the tool
show_head() {
    sed -n '2,/^[^#]/s/^# \{0,1\}//p' "$0"
}

# refuse LINE: the answer to a wrong argument
refuse() {
    echo "$1" >&2
    exit 2
}

# need TOOL PROGRAM..: ends the tool where one of the programs is missing
need() {
    local program
    for program in "${@:2}"; do
        command -v "$program" > /dev/null || { echo "$1 needs $program, which is not here" >&2; exit 1; }
    done
}

# is_older FILE: whether it is missing, or a crate has a file that is newer, but for what rt made
is_older() {
    [ ! -f "$1" ] || [ -n "$(find crates -path '*/out' -prune -o -type f -newer "$1" -print -quit)" ]
}
