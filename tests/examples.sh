#!/usr/bin/env bash
# The printout of each example script, as the reference engine makes it, is the stored one, and so are the answers to each example list: under the edition
# that NAME.edition holds, or 1, with the rights that NAME.rights gives, or all; and in NAME.edition_1.answers those under edition 1, in NAME.all_rights.answers
# those with all rights.
set -eu
cd "$(dirname "$0")/.."
(cd reference && cargo build --release --offline -j 2 --quiet)
differ=0
# stored FILE PROGRAM..: what a program prints is the file
stored() {
    local file=$1
    shift
    "$@" | cmp -s - "$file" || { echo "differs: $file"; differ=1; }
}
for script in examples/*.timo; do
    stored "${script%.timo}.out" reference/target/release/timorun < "$script"
done
for list in examples/*.calls; do
    name=${list%.calls}
    answers=(reference/target/release/answers "$name.timo" "$list")
    edition=1
    rights=()
    if [ -e "$name.edition" ]; then edition=$(cat "$name.edition"); fi
    if [ -e "$name.rights" ]; then rights=("$name.rights"); fi
    stored "$name.answers" "${answers[@]}" "$edition" "${rights[@]}"
    if [ -e "$name.edition_1.answers" ]; then stored "$name.edition_1.answers" "${answers[@]}" 1 "${rights[@]}"; fi
    if [ -e "$name.all_rights.answers" ]; then stored "$name.all_rights.answers" "${answers[@]}" "$edition"; fi
done
test "$differ" -eq 0
