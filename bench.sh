#!/usr/bin/env bash
# The benchmark: the proved engine and the reference engine side by side in one run, on workloads that grow, and how much longer a step takes that
# fires pairs than one that fires none (document 02, R-5; ratio.sh holds it to 2). It tests nothing. The table is also kept
# in target/bench.md, and a picture of it in target/bench.svg; the test of a location is in target/profile.md, whole runs of the two engines' `timorun` are in target/process.md.
# With Maude installed (apt-get install maude) and PEER naming a folder that holds run_peer.sh and, anywhere below it, scripts (*.timo), the scripts are
# run by both engines and by that peer, whose better model is compared with.
set -eu
cd "$(dirname "$0")"
. compare/built.sh
bench=compare/target/release/bench
scripts=()
if [ -n "${PEER:-}" ]; then mapfile -t scripts < <(find "$PEER" -name '*.timo' | sort); fi
{
    "$bench" "${scripts[@]}"
    if [ -n "${PEER:-}" ] && command -v maude > /dev/null; then
        printf '\n| script | step, proved µs | Maude µs | times as fast |\n|---|---|---|---|\n'
        for script in "${scripts[@]}"; do
            maude=$(sh "$PEER/run_peer.sh" "$script" | sed -nE 's/.*\| ([0-9.]+) us\/step.*/\1/p' | sort -g | head -n 1)
            proved=$("$bench" --step "$script")
            awk -v name="$(basename "$script")" -v proved="$proved" -v maude="$maude" \
                'BEGIN { printf "| %s | %s | %s | %.1f |\n", name, proved, maude, maude / proved }'
        done
    fi
} | tee target/bench.md
python3 bench_picture.py target/bench.md > target/bench.svg

# whether a location conforms, and the conforming step beside the step (document 02, R-13)
printf '\n'
"$bench" --profile | tee target/profile.md

# the whole process, from its start to its end: the least of some hundred runs
(cd crates/timorun && rt run < /dev/null) > target/timorun.log 2>&1 || { tail -n 20 target/timorun.log; exit 1; }
(cd reference && cargo build --release --offline --quiet)
{
    printf '\n| whole process on | timorun, proved ms | reference ms | ratio | /bin/true ms |\n|---|---|---|---|---|\n'
    for script in examples/document_01.timo examples/rovers.timo examples/growth_to_refusal_13.timo; do
        compare/target/release/process "$script" crates/timorun/out/timorun reference/target/release/timorun /bin/true |
            awk -v name="$(basename "$script")" '{ ms[NR] = $2 } END { printf "| %s | %s | %s | %.2f | %s |\n", name, ms[1], ms[2], ms[1] / ms[2], ms[3] }'
    done
} | tee target/process.md
