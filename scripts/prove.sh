# shellcheck shell=bash
# Proves the program and builds it.

here=$(dirname -- "$(readlink -f -- "${BASH_SOURCE[0]}")")
# shellcheck source=side_by_side.sh
. "$here/side_by_side.sh"
# shellcheck source=progress.sh
. "$here/progress.sh"

# How many crates are proved side by side: one a processor, as long as each has 3 GB of the free memory.
lanes() {
    local processors most
    processors=$(nproc)
    most=$(awk '/^MemAvailable:/ { print int($2 / 3000000) }' /proc/meminfo)
    ((most < processors)) || most=$processors
    echo $((most < 1 ? 1 : most))
}

# Proves the program for a level, with the crates that it stands on, and builds it, with a folder for copies. It is run once, for
# its help.
prove_all() {
    local cpu=$1 copies=$2 lanes back_end=()
    lanes=$(lanes)
    # At the highest level the toolchain's own back end makes the faster program, and LLVM is not offered.
    [[ $cpu != x86-64-v4 ]] || back_end=(--backend rattle)
    prove_below "$lanes" "$copies" || return
    cd "$top/crates/btseed" || return
    rt run --jobs "$lanes" --cpu "$cpu" "${back_end[@]}" -- --help || return
    echo '== btseed'
}

# The same, with lines of progress. What the toolchain says is kept in the folder.
prove_told() {
    # At an interrupt it waits for those who prove, and they end.
    trap 'exit 130' TERM
    prove_all "$1" "$2/copies" 2>&1 | tell "$2/log"
}

# The same, in a folder that is removed afterwards. The file that tells the program's level comes last.
prove_for() {
    room=$(mktemp -d "${proved%/*}/room.XXXXXX") || exit 70
    trap 'rm -rf "$room"' EXIT
    touch "$room/started"
    rm -f "$proved_for"
    if ! in_group prove_told "$1" "$room"; then
        cat "$room/log" >&2
        stop 'the program was not proved and built: see above'
    fi
    echo "$1" >"$room/level"
    touch -r "$room/started" "$room/level"
    mv "$room/level" "$proved_for"
    rm -rf "$room"
    trap - EXIT
}

# Proves and builds the program for a level, where that is not done yet, and once where two runs do it at a time. Then the one
# that was compiled without proof is removed.
prove() {
    has_proved "$1" || need_kit
    mkdir -p "${proved%/*}" || exit 70
    exec 9>"${proved%/*}/lock"
    if ! flock -n 9; then
        echo 'waiting for another run that proves the same' >&2
        flock 9
    fi
    if ! has_proved "$1"; then
        # what a run left that was killed
        rm -rf "${proved%/*}"/room.*
        prove_for "$1"
    fi
    rm -f "$unproved" "$unproved_for"
    exec 9>&-
}
