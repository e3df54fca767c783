#!/usr/bin/env python3
"""Prints the contract of a function and all that it cites, in reading order: scripts/contract.py [--depth N] [--names] [CRATE::FUNCTION]

The function is gnap_tool::run where none is named. What it cites are definitions of specs/, types of the code with what contracts see of them, and the
traits that its type parameters have. Each comes once, behind the one that cites it first; a number says how many steps it is from the contract.
--depth N stops after N steps, --names prints a line for each in place of its text. At the end stand the names that the kit's libraries define; their
text isn't printed. Nothing is proved here: the script finds names by the `use` lines of the sources. What it can't find is said on standard error, and the
status is 1 then."""
import argparse
import pathlib
import re
import signal
import sys

CRATES = pathlib.Path(__file__).resolve().parent.parent / "crates"
NAME = re.compile(r"[A-Za-z_][\w'-]*(?:(?:\.|::)[A-Za-z_][\w'-]*)*")
HEAD = re.compile(r" *(?:pub )?(?:(?:abbrev|unfoldable|record|data) )+(?:pub )?([^\s:(]+)|pub ([^\s:(]+) :")
ENDS = re.compile(r" *(?:--|(?:use|pub|abbrev|unfoldable|record|data|module|unfolding|infix\w*) )")
CONSTRUCTOR = re.compile(r" +([^\s:(]+(?: [^\s:(]+)*) :(?: |$)")
USED = re.compile(r"use\s+Rattle\.([\w.]+?)(?:\.\{([^}]*)\})?(?:\s+as\s+(\w+))?\s*;?\s*$", re.M | re.S)
RUST_USED = re.compile(r"^\s*(?:pub )?use ([\w:]+?)(?:::\{([^}]*)\})?(?: as (\w+))?;", re.M | re.S)
RUST_ITEM = re.compile(r"(?:pub(?:\(\w+\))? )?(?:struct|enum|trait|type) (\w+)")
KEPT = {}


def once(read, file):
    """What is read of a file, kept; nothing where there is none."""
    if (read, file) not in KEPT:
        KEPT[read, file] = read(file) if file.exists() else {}
    return KEPT[read, file]


def listed(names, alias, last):
    """The names in the braces of a `use`, or the one name of a `use` without: of each, what it is called here and there."""
    for name in (names if names is not None else f"{last} as {alias or last}").split(","):
        there, _, here = name.strip().partition(" as ")
        if there:
            yield here or there, there


def uses(file):
    """What the `use` lines of a file bring: of each name here, the path below Rattle and the name there. A file's own name has none."""
    found = {}
    for path, names, alias in USED.findall(file.read_text()):
        if names:
            found |= {here: (path, there) for here, there in listed(names, None, None)}
        else:
            found[alias or path.split(".")[-1]] = (path, None)
    return found


def rust_uses(file):
    """The same of the Rust `use` lines of a file: of each name here, the path of the crate or module and the name there."""
    found = {}
    for path, names, alias in RUST_USED.findall(re.sub(r"ghost use[^;]*;", "", file.read_text())):
        if not names:
            path, _, last = path.rpartition("::")
        found |= {here: (path, there) for here, there in listed(names or None, alias, None if names else last)}
    return found


def block(lines, start):
    """The lines of a Rust item from its head on."""
    end = start
    while not (lines[end].startswith("}") or lines[end].endswith((";", "}")) and not lines[end].startswith(" ")):
        end += 1
    return lines[start:end + 1]


def rust_items(file):
    """The types and traits of a Rust file: of each name, its line, and its text with the comments and attributes above it, and with what contracts see."""
    lines, found = file.read_text().split("\n"), {}
    for i, line in enumerate(lines):
        head, seen = RUST_ITEM.match(line), re.match(r"impl.* Model for (\w+)", line)
        if head:
            start = i
            while start and re.match(r"///|#\[", lines[start - 1]):
                start -= 1
            found[head[1]] = (start + 1, "\n".join(lines[start:i] + block(lines, i)))
        elif seen and seen[1] in found:
            place, text = found[seen[1]]
            found[seen[1]] = (place, "\n".join([text, ""] + block(lines, i)))
    return found


def indent(line):
    return len(line) - len(line.lstrip())


def module_heads(lines):
    """Of each line, the heads of the modules round it: those that began before, with less indent."""
    heads, of = [], []
    for i, line in enumerate(lines):
        if line.strip():
            heads = [it for it in heads if it[0] < indent(line)]
        of.append([text for _, text in heads])
        if line.lstrip().startswith("module "):
            end = i
            while not lines[end].rstrip().endswith("where"):
                end += 1
            heads.append((indent(line), "\n".join(lines[i:end + 1])))
    return of


def definitions(file):
    """The definitions of a file of specs: of each name, its line, and its text with the comment above it and the heads of the modules round it."""
    lines, found = file.read_text().split("\n"), {}
    heads = module_heads(lines)
    for i, line in enumerate(lines):
        head = HEAD.match(line)
        if not head:
            continue
        start, end = i, i + 1
        while start and lines[start - 1].lstrip().startswith("--") and not lines[start - 1].lstrip().startswith("-- ----"):
            start -= 1
        # A definition ends before the next one at its indent, or before a comment on it, and with the module round it.
        while end < len(lines) and not (lines[end].strip() and (
                indent(lines[end]) < indent(line) or indent(lines[end]) == indent(line) and ENDS.match(lines[end]))):
            end += 1
        entry = (start + 1, "\n".join(heads[i] + lines[start:end]).rstrip())
        found[head[1] or head[2]] = entry
        if "data " in line:
            found |= {name: entry for it in lines[i + 1:end] for name in (CONSTRUCTOR.match(it) or ["", ""])[1].split()}
    return found


def in_rust(file, name):
    """The file, line and text of a type or trait that a Rust file has or hands on."""
    if name in once(rust_items, file):
        return (file, *once(rust_items, file)[name])
    handed_on = once(rust_uses, file).get(name)
    return locate_rust(file, *handed_on) if handed_on else None


def locate_rust(file, path, name):
    """The same by the path of a `use` in a Rust file."""
    first, *rest = path.split("::")
    src = file.parent if first in ("crate", "super") or not (CRATES / first).is_dir() else CRATES / first / "src"
    if src == file.parent and first not in ("crate", "super"):
        rest = [first] + rest
    module = src.joinpath(*rest).with_suffix(".rt") if rest else src / "lib.rt"
    handed_on = None if module.exists() or not rest else once(rust_uses, src / "lib.rt").get(rest[0])
    if handed_on:
        return locate_rust(src / "lib.rt", "::".join(it for it in handed_on if it), name)
    return in_rust(module, name)


def locate(path, name):
    """The file, line and text of a definition or type by its path below Rattle."""
    crate, _, *rest = path.split(".")
    names = [it for it in rest + (name or "").split(".") if it and it != "TheVariants"]
    folder = CRATES / crate / "specs"
    if names[:1] == ["declared"]:
        folder, names = CRATES / crate / "src", names[1:]
    for cut in range(len(names) - 1, 0, -1):
        file = folder.joinpath(*names[:cut]).with_suffix(".rt" if folder.name == "src" else ".antt")
        if file.exists() and folder.name == "src":
            return in_rust(file, names[cut])
        if file.exists() and names[cut] in once(definitions, file):
            return (file, *once(definitions, file)[names[cut]])
        if file.exists() and names[cut] in once(uses, file):
            return locate(*once(uses, file)[names[cut]])
    return None


def is_ours(path):
    return (CRATES / path.split(".")[0] / "specs").is_dir() and path.split(".")[1:2] == ["specs"]


def words_of(file, text):
    """The names in a text without its comments, and the operators that its file uses."""
    text = re.sub(r"^\s*(--|//).*$", "", text, flags=re.M)
    yield from NAME.findall(text)
    for name in {**once(uses, file), **(once(definitions, file) if file.suffix == ".antt" else {})}:
        if "◌" in name and all(it in text for it in name.split("◌")):
            yield name


def cited(file, text):
    """What a text of a file cites, in order: the file, line and text of each; or a path and a name, where a library has it or it isn't found."""
    own = once(definitions if file.suffix == ".antt" else rust_items, file)
    for word in words_of(file, text):
        first, _, last = word.replace("::", ".").partition(".")
        if first in own:
            yield (file, *own[first])
        elif first in once(uses, file):
            path, name = once(uses, file)[first]
            yield (is_ours(path) and locate(path, name or last)) or (path, name or last)
        elif file.suffix == ".rt" and first in once(rust_uses, file):
            found = locate_rust(file, *once(rust_uses, file)[first])
            if found:
                yield found


def contract(crate, function):
    """The file, line and contract of a public function: the comment above it, its head and its clauses."""
    for file in sorted((CRATES / crate / "src").glob("*.rt")):
        lines = file.read_text().split("\n")
        for i, line in enumerate(lines):
            if re.match(rf"\s*pub fn {function}\b", line):
                start, end = i, i
                while lines[start - 1].lstrip().startswith(("///", "#[")):
                    start -= 1
                while not lines[end].endswith("{") and not lines[end].startswith(" " * indent(line) + "{"):
                    end += 1
                return file, start + 1, "\n".join(lines[start:end] + [lines[end].removesuffix("{")]).rstrip()
    sys.exit(f"contract.py: the crate {crate} has no public function {function}")


def show(steps, file, line, text, names):
    if names:
        head = next(it for it in text.split("\n") if not it.lstrip().startswith(("--", "//", "#", "module")))
        print(f"{steps}  crates/{file.relative_to(CRATES)}:{line}  {head.strip()}")
    else:
        print(f"\n==== {steps}  crates/{file.relative_to(CRATES)}:{line}\n\n{text}")


def main():
    words = argparse.ArgumentParser(description=__doc__, formatter_class=argparse.RawDescriptionHelpFormatter)
    words.add_argument("function", nargs="?", default="gnap_tool::run")
    words.add_argument("--depth", type=int, default=1000)
    words.add_argument("--names", action="store_true")
    words = words.parse_args()
    signal.signal(signal.SIGPIPE, signal.SIG_DFL)
    crate, _, function = words.function.partition("::")
    queue = [(0, contract(crate, function))]
    seen, libraries, missing = {queue[0][1][:2]}, {}, {}
    for steps, (file, line, text) in queue:
        show(steps, file, line, text, words.names)
        for it in cited(file, text) if steps < words.depth else ():
            if len(it) == 2:
                (missing if is_ours(it[0]) else libraries).setdefault(it[0], set()).add(it[1])
            elif it[:2] not in seen:
                seen.add(it[:2])
                queue.append((steps + 1, it))
    if libraries:
        print("\n==== from the kit's libraries\n")
    for path in sorted(libraries):
        print(f"{path}: {' '.join(sorted(libraries[path]))}")
    print(f"\n{len(queue) - 1} definitions, types and traits, {sum(it[1][2].count(chr(10)) + 1 for it in queue)} lines", file=sys.stderr)
    for path in sorted(missing):
        print(f"contract.py: not found in {path}: {' '.join(sorted(missing[path]))}", file=sys.stderr)
    sys.exit(1 if missing else 0)


if __name__ == "__main__":
    main()
