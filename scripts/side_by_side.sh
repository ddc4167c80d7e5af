# shellcheck shell=bash
# Proves crates side by side.

# shellcheck source=common.sh
. "$(dirname -- "$(readlink -f -- "${BASH_SOURCE[0]}")")/common.sh"

# Whether all crates of the repository are proved that a crate stands on: those that `state` calls so.
is_ready() {
    local below
    while read -r below; do
        [[ $below == "$1" || ${state[$below]:-} == proved ]] || return 1
    done < <(crates "$1")
}

# Ends what still runs of these process groups, and waits for it.
end_groups() {
    local group
    for group in "$@"; do
        kill -TERM -- "-$group" 2>/dev/null || true
    done
    wait
}

# Proves the crates that the program stands on, each as soon as those below it are proved, with a folder for copies. At most so
# many are proved side by side, and these share twice as many processes, two at least each, so that the processors have work where
# few can go on.
prove_below() {
    local lanes=$1 copies=$2 name names ended ready jobs running=0
    local -A state=([btseed]=last) worker=()
    mapfile -t names < <(crates btseed)
    # Each crate is a process group of its own, so that an interrupt can be passed on to all that work for it.
    set -m
    trap 'end_groups "${!worker[@]}"; exit 130' TERM
    while :; do
        ready=()
        for name in "${names[@]}"; do
            [[ -n ${state[$name]:-} ]] || ! is_ready "$name" || ready+=("$name")
        done
        ((running + ${#ready[@]} > 0)) || break
        jobs=$((2 * lanes / (running + ${#ready[@]})))
        jobs=$((jobs < 2 ? 2 : jobs > lanes ? lanes : jobs))
        for name in "${ready[@]:0:lanes-running}"; do
            "$top/scripts/prove_crate" "$name" "$jobs" "$copies" &
            worker[$!]=$name
            state[$name]=begun
            running=$((running + 1))
        done
        if ! wait -n -p ended; then
            end_groups "${!worker[@]}"
            return 1
        fi
        name=${worker[$ended]}
        unset "worker[$ended]"
        state[$name]=proved
        running=$((running - 1))
        echo "== $name"
    done
    trap - TERM
    set +m
}
