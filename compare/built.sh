# Read by bench.sh and ratio.sh: the proved engine as a library, and the programs over it.
mkdir -p target
(cd crates/timo && rt lib) > target/timo.log 2>&1 || { tail -n 20 target/timo.log; exit 1; }
(cd compare && cargo build --release --offline --quiet)
