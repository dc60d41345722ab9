#!/usr/bin/env python3
"""Pointers and lists that a reader follows.

- `document 01, *Section*` in crates/, reference/, compare/, examples/, tests/ or docs/ means that section of docs/ENGINE.md: each name between stars that
  stands in one sentence with `document 01` has to be a heading there or one of its bold words. `document 02, R-n` means what that page marks with (R-n).
- The head of each crate's src/lib.rt has to name every file of the crate: specs/, the law files of proofs/, src/.
- Each page of docs/ that README.md or a page of docs/ names has to be there, and each definition that a page names as `name` of `crate/specs/File`.
"""
import os
import re
import sys

TOP = os.path.join(os.path.dirname(os.path.abspath(__file__)), "..")
errors = []


def read(path):
    with open(os.path.join(TOP, path), encoding="utf-8") as f:
        return f.read()


def plain(name):
    return name.strip().strip(".:").replace("`", "").lower()


def sections():
    page = read("docs/ENGINE.md")
    heads = re.findall(r"^#+ (.*)$", page, re.M)
    bold = re.findall(r"\*\*([^*]+)\*\*", page)
    return {plain(n) for n in heads + bold}


def sentences(path):
    """The text of a page, or the comments of a source file, cut at the ends of sentences."""
    text = read(path)
    if not path.endswith(".md"):
        text = "\n".join(m.group(1) if m else ". " for m in (re.match(r"\s*(?:--|//[/!]?|#|/?\*)\s?(.*)", line) for line in text.split("\n")))
    return re.split(r"(?<=[^0-9])\.(?=\s)", text)


def files():
    yield "README.md"
    for top in ("crates", "reference", "compare", "examples", "include", "tests", "docs"):
        for at, folders, names in os.walk(os.path.join(TOP, top)):
            folders[:] = sorted(f for f in folders if f not in ("target", "out"))
            for name in sorted(names):
                path = os.path.relpath(os.path.join(at, name), TOP)
                if name.endswith((".antt", ".rt", ".rs", ".md", ".sh", ".h", ".c", ".cpp")) and path != "docs/ENGINE.md":
                    yield path


def pointers():
    known, count = sections(), 0
    requests = set(re.findall(r"\(R-(\d+)\)", read("docs/ENGINE.md")))
    for path in files():
        for number in re.findall(r"document\s+02,\s+R-(\d+)", read(path), re.I):
            count += 1
            if number not in requests:
                errors.append(f"{path}: docs/ENGINE.md marks nothing with (R-{number})")
        for sentence in sentences(path):
            if not re.search(r"document\s+01", sentence, re.I):
                continue
            for name in re.findall(r"(?<![*\w])\*([^*\n]+(?:\n[^*\n]+)?)\*(?![*\w])", sentence):
                count += 1
                name = plain(re.sub(r"\s+", " ", name))
                if name not in known and not any(k.startswith(name + ",") for k in known):
                    errors.append(f"{path}: docs/ENGINE.md has no section *{name}*")
    return count


def heads():
    count = 0
    for crate in sorted(os.listdir(os.path.join(TOP, "crates"))):
        lib = f"crates/{crate}/src/lib.rt"
        if not os.path.exists(os.path.join(TOP, lib)):
            continue
        head = ""
        for line in read(lib).split("\n"):
            if not line.startswith("//"):
                break
            head += line + "\n"
        for folder in ("specs", "proofs", "src"):
            where = os.path.join(TOP, "crates", crate, folder)
            for name in sorted(os.listdir(where)) if os.path.isdir(where) else []:
                stem, end = os.path.splitext(name)
                if end not in (".antt", ".rt") or stem in ("Lib", "lib", "main"):
                    continue
                count += 1
                wanted = rf"{folder}/{stem}" if folder != "src" else rf"(?:src/)?{stem}"
                if not re.search(rf"^//\s+{wanted}(\s|$)", head, re.M):
                    errors.append(f"{lib}: the head does not name {folder}/{name}")
    return count


def pages():
    count = 0
    for path in ["README.md"] + [f"docs/{n}" for n in sorted(os.listdir(os.path.join(TOP, "docs"))) if n.endswith(".md")]:
        for page in set(re.findall(r"docs/([A-Z]+\.md)", read(path))):
            count += 1
            if not os.path.exists(os.path.join(TOP, "docs", page)):
                errors.append(f"{path}: there is no docs/{page}")
    return count


def definitions():
    count = 0
    for path in files():
        if not path.endswith(".md"):
            continue
        for names, where in re.findall(r"((?:`[^`\s]+`(?:, | and )?)+) of `(\w+/(?:specs|proofs)/\w+)`", read(path)):
            file = f"crates/{where}.antt"
            text = read(file) if os.path.exists(os.path.join(TOP, file)) else ""
            for name in re.findall(r"`([^`]+)`", names):
                count += 1
                if not re.search(rf"^\s*(?:\w+ )*pub (?:data |record )?{re.escape(name)}\s", text, re.M):
                    errors.append(f"{path}: there is no {name} in {file}")
    return count


def main():
    found = pointers(), heads(), pages(), definitions()
    for e in errors:
        print(e)
    if not errors:
        print("pointers: %d sections named, %d files in heads, %d pages and %d definitions named" % found)
    return 1 if errors else 0


if __name__ == "__main__":
    sys.exit(main())
