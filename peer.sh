#!/usr/bin/env bash
# `PEER=FOLDER bash peer.sh [NUMBER [SEED]]`: the program held against both models of the peer that bench.sh measures, byte by byte, on the example
# scripts and on so many generated ones (100). It is no part of the gate, which has neither Maude nor the peer.
set -eu
cd "$(dirname "$0")"
: "${PEER:?the folder of the peer}"
mkdir -p target
test -x crates/timorun/out/timorun || (cd crates/timorun && rt run < /dev/null) > target/timorun.log 2>&1 || { tail -n 20 target/timorun.log; exit 1; }
(cd reference && cargo build --release --offline --quiet)
reference/target/release/vectors "${2:-1}" "${1:-100}" > target/peer.in
python3 - crates/timorun/out/timorun "$PEER/timomaude.py" target/peer.in examples/*.timo <<'END'
import os, subprocess, sys
program, peer, generated, *examples = sys.argv[1:]
scripts = [open(path, "rb").read() for path in examples] + open(generated, "rb").read().split(b"#\n")[:-1]
for script in scripts:
    with open("target/peer.timo", "wb") as file:
        file.write(script)
    ours = subprocess.run([program], input=script, capture_output=True, check=True).stdout
    for model in "01":
        command = ["python3", peer, "run", "target/peer.timo"]
        theirs = subprocess.run(command, capture_output=True, check=True, env=dict(os.environ, TIMO_IDX=model)).stdout
        if theirs != ours:
            sys.exit(f"differs on:\n{script.decode()}\nthe peer's model {model}:\n{theirs.decode()}\ntimorun:\n{ours.decode()}")
print(f"timorun: {len(scripts)} scripts as both models of the peer print them")
END
