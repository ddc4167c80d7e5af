# shellcheck shell=bash
# What `btseed`, `prove` and `dist` share: where the two programs lie, and whether they are as new as their sources.

top=$(cd -- "$(dirname -- "$(readlink -f -- "${BASH_SOURCE[0]}")")/.." && pwd)
# shellcheck source=level.sh
. "$top/scripts/level.sh"

# The proved program, and the one that is compiled without proof. Beside each lies a file that names the level of x86-64 that it
# was built for. It has the time at which the building began.
proved=$top/crates/btseed/out/btseed
proved_for=$top/crates/btseed/out/built
unproved=$top/out/unproved/btseed-unproved
unproved_for=$top/out/unproved/compiled

# Ends the script, and tells why.
stop() {
    echo "${0##*/}: $*" >&2
    exit 70
}

# Ends the script where the toolchain is not there.
need_kit() {
    command -v rt >/dev/null || stop 'the command rt of the Rattle kit is not on the PATH: it compiles and proves the program'
}

# Runs a command in a process group of its own, and gives its status. An interrupt is passed on to all that work for it.
in_group() {
    local job status=0
    set -m
    "$@" &
    job=$!
    set +m
    trap 'kill -TERM -- "-$job" 2>/dev/null; wait; exit 130' HUP INT TERM
    wait "$job" || status=$?
    trap - HUP INT TERM
    return "$status"
}

# The crates of the repository that a crate stands on, each below those that stand on it, and the crate, by crates.txt:
# a crate a line, with what it stands on behind a colon. Here a name a line.
crates() {
    awk -v top="$1" '
        function visit(name,    below, count, i) {
            if (name in seen) return
            seen[name] = 1
            count = split(stands_on[name], below, " ")
            for (i = 1; i <= count; i++) if (below[i] in stands_on) visit(below[i])
            print name
        }
        { sub(/#.*/, "") }
        /:/ {
            split($0, half, ":")
            split(half[1], word, " ")
            stands_on[word[1]] = half[2]
        }
        END { visit(top) }
    ' "$top/crates.txt"
}

# Whether a program was built for a level, and nothing of these parts of its crates was written since.
is_fresh() {
    local program=$1 built=$2 cpu=$3 name part parts=("$top/crates.txt")
    shift 3
    [[ -x $program && -e $built && $(<"$built") == "$cpu" ]] || return
    for name in $(crates btseed); do
        for part in "$@"; do
            [[ ! -e $top/crates/$name/$part ]] || parts+=("$top/crates/$name/$part")
        done
    done
    [[ -z $(find "${parts[@]}" -newer "$built" -print -quit) ]]
}

# Whether there is a proved program for a level that is not older than its sources; and one that is compiled without proof.
has_proved() { is_fresh "$proved" "$proved_for" "$1" src specs proofs; }
has_unproved() { is_fresh "$unproved" "$unproved_for" "$1" src; }
