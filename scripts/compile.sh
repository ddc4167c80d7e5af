# shellcheck shell=bash
# Compiles the program without proof, with run-time checks.

# shellcheck source=common.sh
. "$(dirname -- "$(readlink -f -- "${BASH_SOURCE[0]}")")/common.sh"

# The kits with which this was tried: it does what no command of a kit does.
tried_with=('rattle-kit-13b logic dac8208d650f15bf' 'rattle-kit-13f logic dac8208d650f15bf')

# Whether it was tried with the kit of which this is told.
is_tried_with() {
    local kit
    for kit in "${tried_with[@]}"; do
        [[ $1 != "$kit" ]] || return 0
    done
    return 1
}

# Puts what was compiled in its place: the file that tells its level comes last, so that it is never told of another program.
put_in_place() {
    rm -f "$unproved_for"
    touch -r "$1/started" "$1/level"
    mv "$1/btseed" "$unproved" && mv "$1/level" "$unproved_for" || exit 70
}

# Compiles a program of the repository for a level, with this much effort of the optimiser, in a new folder. What was said is in its
# file `log`; where the kit's module has not the words that are looked for, these are in its file `unknown`.
compile_in() {
    local room=$1 name=$2
    echo "$3" >"$room/level"
    echo "$4" >"$room/effort"
    ln -s "$(dirname -- "$(rt doc)")" "$room/kit"
    "$top/scripts/without_proof" "$room" "$name" </dev/null >"$room/log" 2>&1
}

# The same of btseed, which is run once, for its help.
compile_btseed() {
    compile_in "$1" btseed "$2" 3 && "$1/btseed" --help >/dev/null 2>>"$1/log"
}

# Compiles for a level, in a folder that is removed afterwards. Fails where the kit's module has not the words that are looked for.
compile_for() {
    local status=0 word=
    room=$(mktemp -d "${unproved%/*}/room.XXXXXX") || exit 70
    trap 'rm -rf "$room"' EXIT
    touch "$room/started"
    echo 'compiling without proof, some two minutes; ./prove proves and builds it, some 50 minutes' >&2
    in_group compile_btseed "$room" "$1" || status=$?
    if [[ -e $room/unknown ]]; then
        word=$(<"$room/unknown")
        echo "what this kit compiles has no line like $word, so ./prove is done instead, some 50 minutes" >&2
    elif ((status)); then
        cat "$room/log" >&2
        stop 'the program was not compiled: see above'
    else
        put_in_place "$room"
    fi
    rm -rf "$room"
    trap - EXIT
    [[ -z $word ]]
}

# Compiles the program for a level, where that is not done yet, and once where two runs do it at a time. Fails where that can't be
# done with this kit, and tells so.
compile() {
    local kit status=0
    kit=$(rt version)
    if ! is_tried_with "$kit"; then
        echo "compiling without proof was not tried with $kit, so ./prove is done instead, some 50 minutes" >&2
        return 1
    fi
    mkdir -p "${unproved%/*}" || exit 70
    exec 9>"${unproved%/*}/lock"
    if ! flock -n 9; then
        echo 'waiting for another run that compiles the same' >&2
        flock 9
    fi
    if ! has_unproved "$1"; then
        # what a run left that was killed
        rm -rf "${unproved%/*}"/room.*
        compile_for "$1" || status=$?
    fi
    exec 9>&-
    return "$status"
}
