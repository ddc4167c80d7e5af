# shellcheck shell=bash
# Tells how far a proof of the program is.

# shellcheck source=common.sh
. "$(dirname -- "$(readlink -f -- "${BASH_SOURCE[0]}")")/common.sh"

# The lines of a crate's sources, definitions and proofs, by which the time is reckoned that it takes.
lines_of() {
    find "$top/crates/$1"/{src,specs,proofs} -type f -exec cat {} + 2>/dev/null | wc -l
}

# Tells of each crate that it is proved, as the toolchain does in a line that has its name behind two equal signs; on a
# terminal also how long the rest will take if it goes on as it went so far, once a tenth is done. All lines are kept in a file.
tell() {
    local log=$1 line name names left=0 done=0 count=0 rest
    local -A lines=()
    # At an interrupt it ends with those whose lines these are.
    trap '' TERM
    mapfile -t names < <(crates btseed)
    for name in "${names[@]}"; do
        lines[$name]=$(lines_of "$name")
        left=$((left + lines[$name]))
    done
    echo "proving ${#names[@]} crates" >&2
    SECONDS=0
    while IFS= read -r line; do
        echo "$line" >>"$log"
        name=${line#== }
        [[ $name != "$line" && -n ${lines[$name]:-} ]] || continue
        count=$((count + 1))
        done=$((done + lines[$name]))
        left=$((left - lines[$name]))
        rest=
        [[ ! -t 2 ]] || ((left == 0 || 9 * done < left)) || rest="; some $(((SECONDS * left / done + 59) / 60)) min to go"
        echo "$name is proved, $count of ${#names[@]}$rest" >&2
    done
}
