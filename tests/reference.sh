#!/usr/bin/env bash
# The reference engine's own tests: the twelve examples, the readings of document 01, of editions, of rights, of whom a step serves, of waits, of steps in either order and of the single-outcome profile, hostile texts, mixed runs on random lists, the example printouts,
# and the wrong rules that a comparison must notice.
set -eu
cd "$(dirname "$0")/../reference"
cargo test --release --offline -j 2 2>&1 | grep -E '^test result|FAILED|panicked|error' | sed 's/^test result/reference/'
test "${PIPESTATUS[0]}" -eq 0
