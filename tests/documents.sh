#!/usr/bin/env bash
# The pages and the tree say the same: docs/TRUSTED.md counts the definitions that outward contracts and main theorems reach, and the heads of the other
# specs files say that they serve inner contracts; every pointer to document 01 leads to a section of docs/ENGINE.md; every crate's head names every file.
set -u
cd "$(dirname "$0")/.." || exit 1
status=0
python3 tests/trusted.py || status=1
python3 tests/pointers.py || status=1
exit "$status"
