#!/usr/bin/env bash
# The library in other programs: examples/embed.c as C99, as C11 and as C++11, and compare/examples/embed.rs, all with the printout examples/embed.out.
# What the library exports, what include/timo.h declares and what examples/embed.c calls must be the same functions.
set -eu -o pipefail
cd "$(dirname "$0")/.."
mkdir -p target/embed
(cd crates/timo && rt lib) > target/timo.log 2>&1 || { tail -n 20 target/timo.log; exit 1; }
library=crates/timo/out/libtimo.a
flags="-pedantic -Wall -Wextra -Werror -O2 -Iinclude"

# host NAME COMPILER..: compiles the example and compares what it prints
host() {
    local name=$1
    shift
    "$@" $flags -c examples/embed.c -o "target/embed/$name.o"
    gcc "target/embed/$name.o" "$library" -o "target/embed/$name"
    "./target/embed/$name" | diff examples/embed.out - || { echo "differs: $name"; exit 1; }
}
host c99 gcc -std=c99
host c11 gcc -std=c11
host cpp11 g++ -std=c++11 -x c++

exported=$(nm --defined-only "$library" | awk '$2 == "T" && $3 ~ /^timo_/ { print $3 }' | sort -u)
declared=$(grep -oE 'timo_[a-z_]+\(' include/timo.h | tr -d '(' | sort -u)
called=$(nm --undefined-only target/embed/c99.o | awk '$2 ~ /^timo_/ { print $2 }' | sort -u)
[ -n "$exported" ]
diff <(echo "$exported") <(echo "$declared") || { echo "exported and declared differ"; exit 1; }
diff <(echo "$declared") <(echo "$called") || { echo "declared and called differ"; exit 1; }

(cd compare && cargo build --release --offline -q --examples)
compare/target/release/examples/embed | diff examples/embed.out - || { echo "differs: Rust"; exit 1; }
echo "$(echo "$exported" | wc -l) functions, called from C99, C11, C++11 and Rust"
