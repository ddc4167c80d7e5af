# shellcheck shell=bash
# Levels of x86-64. `dist` packs these lines into the starter of its archive, so they use nothing of the other scripts.

# Whether the processor has all of these flags.
has_flags() {
    local flag found
    found=" $(grep -m 1 '^flags' /proc/cpuinfo) "
    for flag in "$@"; do
        [[ $found == *" $flag "* ]] || return 1
    done
}

# The highest level that the processor has, as a number.
own_level() {
    if ! has_flags cx16 popcnt ssse3 sse4_1 sse4_2; then
        echo 1
    elif ! has_flags avx avx2 bmi1 bmi2 f16c fma abm movbe; then
        echo 2
    elif ! has_flags avx512f avx512bw avx512cd avx512dq avx512vl; then
        echo 3
    else
        echo 4
    fi
}

# The level that the program is built for: that of this processor, or a lower one that BTSEED_CPU names.
level() {
    local own wanted
    own=$(own_level)
    wanted=${BTSEED_CPU:-v$((own < 2 ? 2 : own))}
    if [[ $wanted != v[234] ]]; then
        echo "${0##*/}: BTSEED_CPU is $wanted, and none of v2, v3 and v4" >&2
        exit 70
    elif ((${wanted#v} > own)); then
        echo "${0##*/}: this processor has x86-64-v$own, and a program for x86-64-$wanted would not run" >&2
        exit 70
    fi
    echo "x86-64-$wanted"
}
