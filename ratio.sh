#!/usr/bin/env bash
# `bash ratio.sh`: fails if a step that fires 128 pairs takes more than twice as long as one over 128 outputs and 128 inputs whose channels differ, so that
# none fires; the best of several rounds of each. Document 02, R-5. Then steps over these two and over 256 inputs with no output, with the timers of the inputs
# equal, rising, falling and random: fails if falling ones take more than 1.5 times as long as equal ones. Document 02, R-3. A time is no test of the gate, so
# it is no part of that.
# `bash ratio.sh --count`: instructions of such steps with 1, 16 and 128 pairs, and with 128 in each order of timers, where valgrind is installed.
set -eu
cd "$(dirname "$0")"
. compare/built.sh
ratio=compare/target/release/ratio
[ "${1:-}" = --count ] || exec "$ratio"

# instructions COUNT PAIRS WORDS..: of a run with so many steps
instructions() {
    local count=$1 pairs=$2
    shift 2
    valgrind --tool=callgrind --callgrind-out-file=/dev/null "$ratio" --count "$pairs" "$count" "$@" 2>&1 | sed -nE 's/.*Collected : ([0-9]+).*/\1/p'
}

# a step: what a hundred more of them take; the state is put back before each, in either column
a_step() { echo $((($(instructions 110 "$@") - $(instructions 10 "$@")) / 100)); }
printf '| pairs | instructions of a step that fires them | of one that fires none | for each pair |\n|---|---|---|---|\n'
for pairs in 1 16 128; do
    fires=$(a_step "$pairs")
    idle=$(a_step "$pairs" idle)
    echo "| $pairs | $fires | $idle | $(((fires - idle) / pairs)) |"
done
printf '\n| timers of the inputs | instructions of a step that fires 128 pairs | over 128 that do not fire | over 256 inputs alone |\n|---|---|---|---|\n'
for timers in equal rising falling random; do
    echo "| $timers | $(a_step 128 fires "$timers") | $(a_step 128 idle "$timers") | $(a_step 128 inputs "$timers") |"
done
