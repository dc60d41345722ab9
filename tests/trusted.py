#!/usr/bin/env python3
"""What must be believed: the definitions that the outward contracts and the main theorems reach.

    python3 tests/trusted.py             compare docs/TRUSTED.md and the heads of specs files with the tree
    python3 tests/trusted.py --update    write the counts into docs/TRUSTED.md and the notes into the heads

The roots stand in docs/TRUSTED.md, in the table under "Where the reading begins". A row names a function and its crate (its contract is read), a theorem and
its file (its statement is read, with what the modules around it assume), or a file of examples (every statement of it is read). All functions of crates/timo
that are `extern "C"` have to be there; `--update` adds a row for a new one.

From the roots names are followed through the imports, definition by definition: over specs/, over what a statement cites out of proofs/, over the structs and
enums of the code, and up to the names of the toolchain's libraries. Names are compared as words, so a variable that is spelt like a definition counts as a use
of it, unless the left side of its clause binds it: the list may name too much, and not too little.
"""
import os
import re
import sys

TOP = os.path.join(os.path.dirname(os.path.abspath(__file__)), "..")
PAGE = "docs/TRUSTED.md"
BEGIN, END = "<!-- counted by tests/trusted.py: begin -->", "<!-- counted by tests/trusted.py: end -->"
NOTE = "-- Serves inner contracts only."
errors = []


def read(path):
    with open(os.path.join(TOP, path), encoding="utf-8") as f:
        return f.read()


def write(path, text):
    with open(os.path.join(TOP, path), "w", encoding="utf-8") as f:
        f.write(text)


def below(folder, end):
    """The files of a folder and of those in it that end so."""
    found = []
    for at, _, names in os.walk(os.path.join(TOP, folder)):
        found += [os.path.relpath(os.path.join(at, n), TOP) for n in names if n.endswith(end)]
    return sorted(found)


# ── definitions of an antt file ──
class Item:
    """A definition: its lines, what it defines beside its name (constructors), its statement, its clauses, and what the modules around it assume."""

    def __init__(self, name, kind, around):
        self.name, self.kind, self.around = name, kind, around
        self.also, self.statement, self.clauses, self.lines = set(), [], [], 0

    def is_list_to_unfold(self):
        """A name for a list of definitions, which says nothing itself."""
        return "".join(self.statement).strip().startswith(": Unit")


MARKS = re.compile(r"((?:unfoldable |abbrev |axiom |pub )*)(data |record )?")


def first_sign(line):
    """The first of `:` and `=` that stands in no brackets: a signature has the one, a clause the other."""
    depth = 0
    for part in re.findall(r"[(){}\[\]]|[^\s(){}\[\]]+", line):
        depth += (part in "({[") - (part in ")}]")
        if depth == 0 and part in (":", "="):
            return part
    return ""


def without_comment(line):
    return re.sub(r"(^|\s)--(\s.*|$)", "", re.sub(r'"(\\.|[^"\\])*"', '""', line)).rstrip()


def items_of(path):
    """The definitions of a file by name, and its import lines. A block (`mutual`, `module`) is known by its indent."""
    items, uses, blocks, item, notes, signing = {}, [], [(0, "")], None, 0, False
    for raw in read(path).split("\n"):
        line = without_comment(raw)
        if not line.strip():
            notes += 1 if raw.strip() and uses else 0
            continue
        indent, line = len(line) - len(line.lstrip()), line.strip()
        while indent < blocks[-1][0]:
            blocks.pop()
        outermost = indent == blocks[-1][0]
        if outermost and re.match(r"(pub )?(use|mod) ", line):
            uses.append(line)
        elif outermost and re.match(r"(unfoldable |abbrev )*mutual$|module .* where$", line):
            blocks.append((indent + 2, line))
        elif outermost and (MARKS.match(line).group() or first_sign(line) == ":"):
            marks = MARKS.match(line)
            name = line[marks.end():].split()[0]
            item = items[name] = Item(name, marks.group(2), [b for _, b in blocks if b.startswith("module")])
            signing, item.lines, notes = True, 1 + notes, 0
            item.statement.append(line[marks.end() + len(name):])
        elif line.startswith("unfolding ") or re.match(r"infix[lr]? ", line):
            signing = False
        elif item:
            item.lines, notes = item.lines + 1 + notes, 0
            if item.kind:
                item.statement.append(declared(item, line))
            elif outermost or not signing:
                signing = False
                item.clauses.append("\0" + line if outermost else line)
            else:
                item.statement.append(line)
    return items, uses


def declared(item, line):
    """A line of a `data` or `record`: its constructors are noted, and the types are what is left."""
    derived = re.match(r"deriving .* as (\S+)$", line)
    names = re.match(r"(?:pub )?([^:]*?) :", line)
    if derived:
        item.also.add(derived.group(1))
    if names and item.kind == "data ":
        item.also.update(names.group(1).split())
    return line[names.end():] if names else line


FILES = {}
CONSTRUCTORS = {"zero", "suc"}


def load():
    for path in below("crates", ".antt"):
        if re.match(r"crates/\w+/(specs|proofs)/\w+\.antt$", path):
            FILES[path] = items_of(path)
            CONSTRUCTORS.update(n for i in FILES[path][0].values() if i.kind == "data " for n in i.also)


# ── the words of a text ──
WORD = re.compile(r"[^\s(){}\[\];,.λ@\"]+")
QUALIFIED = re.compile(r"[^\s(){}\[\];,λ@\".]+(?:\.[^\s(){}\[\];,λ@\".]+)+")


def left_side(clause):
    """A clause up to its `=`."""
    depth = 0
    for at, ch in enumerate(clause.split("\n")[0]):
        depth += (ch in "({[") - (ch in ")}]")
        if depth == 0 and clause[at:at + 3] == " = ":
            return clause[:at]
    return ""


def words_of(lines):
    """The words of a text, without the names of fields, and without what left sides bind. A clause begins with a zero."""
    found = set()
    for clause in "\n".join(lines).split("\0"):
        left = left_side(clause)
        text = re.sub(r"(?<=\))\.[^\s().,;{}]+", " ", clause[len(left):])
        text = re.sub(r"(record \{|;)\s*[^\s;{}]+\s*=(?=\s)", r"\1", text)
        qualified = set(QUALIFIED.findall(text))
        words = qualified | {w.partition(".")[0] for w in qualified} | set(WORD.findall(QUALIFIED.sub(" ", text)))
        bound = set(WORD.findall(left)[1:])
        words = words - (bound - CONSTRUCTORS) | (bound & CONSTRUCTORS)
        if "do" in words:
            words |= {">>=", ">>"}
        found |= {w.strip("«»") for w in words}
    return found


def is_used(name, words):
    """A name, or the pieces of an operator such as `◌>>=◌`."""
    if "◌" not in name:
        return name in words
    pieces = [p for p in name.split("◌") if p]
    return name in words or bool(pieces) and all(p in words for p in pieces)


# ── what names stand for ──
# A node is ("def", file, name), ("type", crate, name) of the code, or ("library", module, name).
def module_of(path):
    """What a written path stands for: a file and the type behind it, a type of the code, or a library's module."""
    m = re.match(r"Rattle\.([a-z_]+)\.(specs|proofs)\.(.*)$", path)
    if not m or not os.path.isdir(os.path.join(TOP, "crates", m.group(1))):
        return "library", path, None
    rest = m.group(3).split(".")
    if rest[0] == "declared":
        return "type", m.group(1), rest[1]
    return "file", f"crates/{m.group(1)}/{m.group(2)}/{rest[0]}.antt", rest[1] if len(rest) > 1 else None


def node_of(module, name):
    """The node of a name that is imported from a module: a constructor stands for its type."""
    sort, where, inner = module
    if sort == "library":
        return "library", where, name
    if sort == "type":
        return "type", where, inner
    items = FILES.get(where, ({}, []))[0]
    for item in items.values():
        if (inner or name) == item.name or not inner and name in item.also:
            return "def", where, item.name
    errors.append(f"cannot find {name} in {where}")
    return None


def imports_of(lines):
    """The names that import lines bring, each with its module and its name there; a module under a name of its own has no name there."""
    for line in lines:
        m = re.match(r"(?:ghost |pub )*use\s+([^{;]*?)(?:\.\{(.*)\})?\s*(?:as\s+(\S+?))?;?$", line)
        if m and "::" not in m.group(1) and m.group(2):
            for one in m.group(2).split(","):
                there, _, here = one.strip().partition(" as ")
                yield (here or there).strip(), module_of(m.group(1).strip()), there.strip()
        elif m and m.group(3):
            yield m.group(3), module_of(m.group(1).strip()), None


def named_by(words, path, uses):
    """The nodes that the words of a text in a file name."""
    out = set()
    for item in FILES.get(path, ({}, []))[0].values():
        if any(is_used(n, words) for n in {item.name} | item.also):
            out.add(("def", path, item.name))
    for here, module, there in imports_of(uses):
        if there is None:
            out |= {node_of(module, w[len(here) + 1:]) for w in words if w.startswith(here + ".")}
        elif is_used(here, words):
            out.add(node_of(module, there))
    return out - {None}


# ── the code ──
def type_in(crate, name):
    """The file of a struct or an enum of the code, and its text."""
    for path in below(f"crates/{crate}/src", ".rt"):
        m = re.search(r"^pub (?:struct|enum) " + name + r"\b.*?^}", read(path), re.M | re.S)
        if m:
            return path, m.group(0)
    return None


def types_in(text, path):
    """The structs and enums of the code that a text of a source file names."""
    own = path.split("/")[1]
    home = {}
    for crate, names in re.findall(r"^use (\w+)(?:::\w+)*::(?:\{([^}]*)\}|[A-Z]\w*);", re.sub(r"::([A-Z]\w*);", r"::{\1};", read(path)), re.M):
        home.update({name.strip(): own if crate in ("super", "crate", "self") else crate for name in names.split(",")})
    return {("type", home.get(n, own), n) for n in re.findall(r"\b[A-Z]\w*\b", text) if type_in(home.get(n, own), n)}


def from_contract(crate, name):
    """The nodes of a function's signature and clauses. A parameter hides a definition of its name."""
    for path in below(f"crates/{crate}/src", ".rt"):
        m = re.search(r"^pub (?:extern \"C\" )?fn " + name + r"\b(.*?)^\{", read(path), re.M | re.S)
        if m and "\n}" not in m.group(1):
            signature, *clauses = re.split(r"\n\s*(?:requires|ensures)\b[^{]*", m.group(1))
            words = words_of(clauses) - set(re.findall(r"(\w+):", signature))
            return named_by(words, path, re.findall(r"^ghost use .*$", read(path), re.M)) | types_in(signature, path)
    errors.append(f"{PAGE}: there is no function {name} with a contract in crates/{crate}/src")
    return set()


# ── roots and closure ──
def from_theorem(path, name):
    items, uses = FILES.get(path, ({}, []))
    if name in items:
        return named_by(words_of(items[name].statement + items[name].around), path, uses)
    errors.append(f"{PAGE}: there is no theorem {name} in {path}")
    return set()


def from_examples(path):
    if path not in FILES:
        errors.append(f"{PAGE}: there is no file {path}")
    return {("def", path, i.name) for i in FILES.get(path, ({}, []))[0].values() if not i.is_list_to_unfold()}


ROOT = re.compile(r"^\| `([^`]+)` \| `(crates/(\w+)/[^`]+)` \|.*$", re.M)


def roots_of(page):
    """The nodes of the outward contracts, and all others that the table names."""
    outward, others = set(), set()
    for name, where, crate in ROOT.findall(page):
        if name == "*":
            others |= from_examples(where)
        elif where.endswith(".antt"):
            others |= from_theorem(where, name)
        else:
            outward |= from_contract(crate, name)
    return outward, others


def outward_calls():
    """The functions of the library, each with the first sentence of its comment."""
    found = {}
    for path in below("crates/timo/src", ".rt"):
        for comment, name in re.findall(r'((?:^//.*\n)*)(?:^#.*\n)*^pub extern "C" fn (\w+)', read(path), re.M):
            found[name] = re.split(r"[.:](?:\s|$)", " ".join(re.findall(r"^// ?(.*)", comment, re.M)))[0]
    return found


def with_rows(page, update):
    """The page with a row for each outward call of the library."""
    for name, what in outward_calls().items():
        if (name, "crates/timo/src", "timo") in ROOT.findall(page):
            continue
        if not update:
            errors.append(f"{PAGE}: the outward call {name} is not among the roots")
            continue
        last = [m for m in ROOT.finditer(page) if m.group(3) == "timo"][-1].end()
        page = page[:last] + f"\n| `{name}` | `crates/timo/src` | {what} |" + page[last:]
    return page


def closure(roots):
    seen, todo = set(), list(roots)
    while todo:
        node = todo.pop()
        if node in seen:
            continue
        seen.add(node)
        sort, where, name = node
        if sort == "def":
            items, uses = FILES[where]
            item = items[name]
            text = item.statement + item.around + item.clauses
            todo += named_by(words_of(text), where, uses)
        elif sort == "type":
            path, text = type_in(where, name)
            todo += types_in(text.split("{", 1)[1], path)
    return seen


# ── the page ──
def reading_order():
    """The files of specs/: crates as crates.txt stacks them, files as Lib.antt lists them."""
    files = []
    for crate in re.findall(r"^(\w+):", read("crates.txt"), re.M):
        lib = f"crates/{crate}/specs/Lib.antt"
        if lib in FILES:
            files += [f"crates/{crate}/specs/{n}.antt" for n in re.findall(r"^pub mod (\S+)", read(lib), re.M)]
    errors.extend(f"{p} is in no Lib.antt" for p in FILES if "/specs/" in p and p not in files and not p.endswith("/Lib.antt"))
    return files


def size(seen):
    defs = [n for n in seen if n[0] == "def"]
    lines = sum(FILES[p][0][n].lines for _, p, n in defs)
    return f"{len(defs)} definitions in {len({p for _, p, _ in defs})} files, {lines} lines"


def which(path, mine, items):
    """Which definitions of a file are reached, in the fewest words."""
    rest = [n for n in items if n not in mine]
    if not rest:
        return "all"
    if "/specs/" in path and len(rest) < min(5, len(mine)):
        return "all but " + ", ".join(f"`{n}`" for n in rest)
    return ", ".join(f"`{n}`" for n in mine)


def grouped(nodes, key):
    """Rows of a table, the names of nodes under a key."""
    rows = {}
    for node in sorted(nodes):
        rows.setdefault(key(node), []).append("`" + node[2].replace("|", "\\|") + "`")
    return [f"| `{k}` | {', '.join(names)} |" for k, names in rows.items()]


def counted(seen, outward, files):
    """The part of the page that is counted, and the specs files that nothing outward reaches."""
    rows, inner, every = [], [], 0
    for path in files + sorted({n[1] for n in seen if n[0] == "def" and "/proofs/" in n[1]}):
        items = {n: i for n, i in FILES[path][0].items() if not i.is_list_to_unfold()}
        mine = [n for n in items if ("def", path, n) in seen]
        every += len(items) if path in files else 0
        if mine:
            rows.append(f"| `{path[7:]}` | {len(mine)} | {sum(items[n].lines for n in mine)} | {which(path, mine, items)} |")
        elif not path.endswith("Examples.antt"):
            inner.append(path)
    types, names = [[n for n in seen if n[0] == sort] for sort in ("type", "library")]
    return "\n".join([
        f"{size(seen)}, with the comments before definitions and without imports.",
        f"The outward contracts alone reach {size(outward)}. The {len(files)} files of `specs/` have {every} definitions.", "",
        "| file of `crates/` | definitions | lines | which |", "|---|---|---|---|"] + rows + [
        "", f"Structs and enums of the code that they name, {len(types)}:", "",
        "| file of `crates/` | types |", "|---|---|"] + grouped(types, lambda n: type_in(n[1], n[2])[0][7:]) + [
        "", f"Names of the toolchain's libraries that they use, {len(names)}:", "",
        "| module | names |", "|---|---|"] + grouped(names, lambda n: n[1])), inner


def check_heads(inner, files, update):
    """The note stands in the head of each specs file that nothing outward reaches, and in no other."""
    for path in files:
        lines = read(path).split("\n")
        end = next(i for i, line in enumerate(lines) if not line.startswith("--"))
        head = [line for line in lines[:end] if line != NOTE] + ([NOTE] if path in inner else [])
        if head != lines[:end] and update:
            write(path, "\n".join(head + lines[end:]))
        elif head != lines[:end]:
            errors.append(f"{path}: the head {'lacks' if path in inner else 'has'} the line '{NOTE}'")


def main():
    update = "--update" in sys.argv[1:]
    load()
    page = with_rows(read(PAGE), update)
    outward, others = roots_of(page)
    files = reading_order()
    text, inner = counted(closure(outward | others), closure(outward), files)
    before, _, after = page.partition(BEGIN)[0], None, page.partition(END)[2]
    fresh = before + BEGIN + "\n" + text + "\n" + END + after
    if page.count(BEGIN) != 1 or page.count(END) != 1:
        errors.append(f"{PAGE}: the two marker comments are not there")
    elif update:
        write(PAGE, fresh)
    elif fresh != page:
        errors.append(f"{PAGE}: the counts are not those of the tree; python3 tests/trusted.py --update writes them")
    check_heads(inner, files, update)
    print("\n".join(errors) if errors else "trusted: " + text.split("\n")[0])
    return 1 if errors else 0


if __name__ == "__main__":
    sys.exit(main())
