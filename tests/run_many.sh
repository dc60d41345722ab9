#!/usr/bin/env bash
# The stored printouts of `run_many`, which `rt ci` holds the proved engine against, are those of the reference engine: each stored script through its
# `timorun`, byte by byte. A printout with one byte changed has to be noticed.
set -eu -o pipefail
cd "$(dirname "$0")/.."
(cd reference && cargo build --release --offline -j 2 --quiet)
python3 - reference/target/release/timorun crates/run_many/stdin crates/run_many/stdout <<'END_OF_PYTHON'
import subprocess, sys
program, stdin, stdout = sys.argv[1:]

def parts(path):
    text = open(path, "rb").read()
    if not text.endswith(b"#\n"):
        sys.exit(f"{path} does not end in a line #")
    return text.split(b"#\n")[:-1]

scripts, stored = parts(stdin), parts(stdout)
if len(scripts) != len(stored) or len(scripts) < 200:
    sys.exit(f"{len(scripts)} scripts and {len(stored)} printouts")
made = [subprocess.run([program], input=script, capture_output=True, check=True).stdout for script in scripts]

def first_difference(printouts):
    return next((k for k, pair in enumerate(zip(made, printouts, strict=True)) if pair[0] != pair[1]), None)

k = first_difference(stored)
if k is not None:
    sys.exit(f"script {k} differs:\n{scripts[k].decode()}\nreference engine:\n{made[k].decode()}\nstored:\n{stored[k].decode()}")
last = len(stored) - 1
changed = stored[:last] + [stored[last][:-2] + b"?\n"]
if first_difference(changed) != last:
    sys.exit("a changed printout is not noticed")
refused = sum(printout.startswith(b"refused") or b"\nrefused" in printout for printout in made)
if not 0 < refused < len(made):
    sys.exit(f"{refused} of {len(made)} scripts are refused")
print(f"run_many: {len(made)} stored printouts as the reference engine makes them, {refused} of them refusals")
END_OF_PYTHON
