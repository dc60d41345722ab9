#!/usr/bin/env bash
# The proved engine, linked as a library, and the reference engine, under both editions: texts of every sort read by both, call lists through both, `same` on
# networks made from one another, whole steps in either order, every whole step where a location conforms, the grouped run of what the proved engine accepted; hostile texts, every small text, bad tables, pairs for `same`, busy steps, whom a step serves, waits, steps in either order, the single-outcome profile and the shrinking
# of a difference as tests; the example scripts and generated vectors run by the proved engine. Programs over the library: tests/embed.sh.
# A longer run: cd compare && cargo run --release -- SEED N
set -eu -o pipefail
cd "$(dirname "$0")/.."
mkdir -p target
(cd crates/timo && rt lib) > target/timo.log 2>&1 || { tail -n 20 target/timo.log; exit 1; }
(cd reference && cargo build --release --offline -q)
(cd compare && cargo build --release --offline -q --bins && ./target/release/compare 2026 180)
(cd compare && cargo test --release --offline --tests > ../target/compare-tests.log 2>&1) || { tail -n 40 target/compare-tests.log; exit 1; }
grep -E 'hostile texts|^test result: .* [1-9][0-9]* passed' target/compare-tests.log
for script in examples/*.timo; do
    compare/target/release/rounds < "$script" | diff "${script%.timo}.out" - || { echo "differs: $script"; exit 1; }
done
reference/target/release/vectors 2026 300 > target/vectors.in
reference/target/release/vectors 2026 300 --printouts > target/vectors.out
compare/target/release/rounds --many < target/vectors.in | diff target/vectors.out -
