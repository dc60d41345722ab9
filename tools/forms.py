#!/usr/bin/env python3
"""Counts the places of the eight points of docs/DESIGN-PASS.md in crates/*/src, and prints each with its file and line.

    python3 tools/forms.py            # the counts
    python3 tools/forms.py 3          # each place of point 3

A place is a line that fits the point's pattern. Some lines fit that are no such place, and twins (point 2) fit none: docs/DESIGN-PASS.md lists them by name.
"""
import glob
import os
import re
import sys

TOP = os.path.join(os.path.dirname(os.path.abspath(__file__)), "..")


def sources():
    for path in sorted(glob.glob(os.path.join(TOP, "crates/*/src/*.rt"))):
        with open(path, encoding="utf-8") as f:
            yield os.path.relpath(path, TOP), f.read().split("\n")


def code(line):
    return line.split("//")[0]


# point: what it is, and patterns of a line
PATTERNS = {
    "1 flag or number beside a value": r"^\s+(pub )?(code|failed|over|yes|kind|end|short|form|next|step|capital): (u32|usize|bool),",
    "1 number for a refusal": r"(refuse|not_fired|not_met|put_back|nothing|unread)\((\d+|code|s\.code|true|false)|\bcode: \d+|^\s+return (1|2|3|4|5|6|7|8|16|17|18);$|^\s+(8|16|17)$",
    "1 number for a refusal, tested": r"\b(code|q) (==|!=) 0\b",
    "1 number for none": r"=> (64|4096|0),$|^\s+return (64|4096|257);$|^\s+(64|4096)$|\b([abdeoqx]|next|[a-z]+\.end|[a-z]+\.next|\w+\(.*\)) (==|!=) 0 \{$",
    "1 own enum of the shape of Option or Result": r"enum (Made|Begun|Ending)\b",
    "3 loop that counts by hand": r"^\s+(while\b.*[<>]|while \w+ != 0|loop \{)",
    "4 written by hand": r"fn (same_key|is_same|wide|low|low_byte|byte_in|word_in|least|larger|less|less_one|one_more|sum_up_to|at_most_8|within|sized|script_sized|no_key|no_label|none|copy_front|keep|clear|put_back|keep_rights|put_rights_back|put_records|quad|digit_value|first_ok|same_timer)\(",
    "5 fact in clauses: the network is valid": r"requires .*\bvalid w\.now \(record",
    "5 fact in clauses: the script and a component are": r"requires .*comp_ok w\.now c ≡ true",
    "5 travelling: buffer and place": r"buf: &mut \[u8\], at: usize|^\s+buf: &mut \[u8\],$",
    "5 travelling: script, components and their number": r"fn \w+(<.*>)?\(.*\bw: &Script, .*c: &(mut )?Words, n: usize|^\s+c: &(mut )?Words,$",
    "6 buffer with a length beside it": r"(records|acts|keys|out|kept|s|vals|o): &(mut )?\[.*\], (n|count|m|k): usize|^\s+(pub )?(n|count|len): usize,$",
    "7 switch on a number or a flag": r"(kind|call|good): (u32|bool)\b",
}


def places():
    found = {name: [] for name in PATTERNS}
    for path, lines in sources():
        for number, line in enumerate(lines, 1):
            for name, pattern in PATTERNS.items():
                if re.search(pattern, code(line)):
                    found[name].append(f"{path}:{number}: {line.strip()[:140]}")
    return found


def answers():
    """Point 8: answers in proofs/ of functions, and those that are one call of a tactic or `refl`."""
    total = plain = 0
    for path in glob.glob(os.path.join(TOP, "crates/*/proofs/**/Answers.antt"), recursive=True):
        with open(path, encoding="utf-8") as f:
            text = f.read()
        for m in re.finditer(r"^pub (\S+) : goal\.\S+\n(?:unfolding .*\n)?\1 [^=\n]*=\s*(.*(?:\n[ \t]+.*)*)", text, re.M):
            total += 1
            if re.fullmatch(r"(omega arith|refl|search rules|cc|grind arith)", m.group(2).strip()):
                plain += 1
    return total, plain


def main():
    found = places()
    point = sys.argv[1] if len(sys.argv) > 1 else None
    for name, lines in found.items():
        if point is None:
            print(f"{name}: {len(lines)}")
        elif name.startswith(point):
            print(f"{name}: {len(lines)}")
            for line in lines:
                print("    " + line)
    if point in (None, "8"):
        total, plain = answers()
        print(f"8 answers: {total}; of these one word of a tactic: {plain}")


main()
