#!/usr/bin/env bash
# The program that `rt ci` built: the example scripts, some hundred scripts of the reference engine's generator, a text in small pieces, a text that is too
# long in small pieces; then what it does when it cannot read or write, and on a small stack (tests/timorun_ends.py).
set -eu
cd "$(dirname "$0")/.."
timorun=crates/timorun/out/timorun
mkdir -p target
test -x "$timorun" || (cd crates/timorun && rt run < /dev/null) > target/timorun.log 2>&1 || { tail -n 20 target/timorun.log; exit 1; }
for script in examples/*.timo; do
    "$timorun" < "$script" | cmp -s - "${script%.timo}.out" || { echo "differs: $script"; exit 1; }
done

(cd reference && cargo build --release --offline -j 2 --quiet)
reference/target/release/vectors 7 400 > target/vectors.in
reference/target/release/vectors 7 400 --printouts > target/vectors.out
python3 - "$timorun" target/vectors.in target/vectors.out <<'END'
import subprocess, sys
program, scripts, printouts = sys.argv[1:]
def parts(path):
    return open(path, "rb").read().split(b"#\n")[:-1]
pairs = list(zip(parts(scripts), parts(printouts), strict=True))
for script, printout in pairs:
    got = subprocess.run([program], input=script, capture_output=True, check=True).stdout
    if got != printout:
        sys.exit(f"differs on:\n{script.decode()}\nexpected:\n{printout.decode()}\ngot:\n{got.decode()}")
print(f"timorun: {len(pairs)} scripts as the reference engine prints them")
END

# in pieces through a pipe
script=examples/document_01
(while IFS= read -r -n 1 -d '' byte; do printf '%s' "$byte"; done < "$script.timo") | "$timorun" | cmp - "$script.out"
(for i in $(seq 70); do head -c 1000 /dev/zero | tr '\0' ' '; done) | "$timorun" | cmp - <(echo 'refused 1')

python3 tests/timorun_ends.py "$timorun" examples
