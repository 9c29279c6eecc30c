#!/usr/bin/env python3
"""Tells what a reader of a contract has to read: bench/definitions.py [OPTION ..] [FUNCTION]

It begins with the contract of a function, `run` of yp_program where none is named (as yp_program::program::run), and
follows each name in it to its definition: in specs/, those inside a module with parameters too, or of a struct, an
enum, a trait or a constant in src/ with what contracts see of it. It prints for each file how many definitions and
lines are reached, and the sums. The options:

--names   prints the names of the definitions, too
--inside  prints the same of those in specs/ that are not reached, which private clauses and invariants alone use
--count   prints the sums alone
--apart   prints each definition of a library that is reached and stands in specs/inside/, or isn't and stands elsewhere
          in specs/, and ends with status 1 where there is one
--text    prints the contract and the definitions themselves with their comments, as one document from the top down: the
          crates from the highest to the lowest in crates.txt, of one crate the files before those that they use, and
          each file in its own order. So a word mostly stands before what it means

A name counts where it is spelled, so a variable that has the name of a definition reaches it, and the sums are a
little too high. The name of a constructor reaches its data type, and the signs of an operator the operator. A type that
another file of the crate brings counts where it has no model of its own, and so is seen as its fields. Definitions of
the kit are not followed. Lines are those of a definition and of the comment above it.
"""

import os
import re
import signal
import sys
from collections import defaultdict

TOP = os.path.dirname(os.path.dirname(os.path.abspath(__file__)))
TOKEN = re.compile(r"[^\s(){}\[\];,<>&:]+")
HEAD = re.compile(r"((?:(?:pub|abbrev|unfoldable|opaque)\s+)*)((?:record|data)\s+)?([^\s:({]+)(.*)")
USE = re.compile(r"(?m)^\s*(?:ghost |pub )*use (Rattle\.[\w.«»]+?)(?:\.\{([^}]*)\})?(?: as (\w+))?;?$")
USE_OF_CRATE = re.compile(r"(?m)^\s*(?:pub )?use (\w+)::(?:[\w:]+::)?(?:\{([^}]*)\}|(\w+));")
# A struct, an enum, a trait or a constant, with the comment above it.
TYPE = re.compile(
    r"(?m)^((?:^///.*\n|^#\[.*\n)*)"
    r"^(pub(?:\(crate\))? (?:(?:struct|enum|trait) (\w+)[^;{]*(?:;|\{(?:.*\}$|[\s\S]*?^\}))|const (\w+): .*;$))"
)


def read(path):
    with open(path, encoding="utf-8") as file:
        return file.read()


def files_below(folder, ending):
    for at, folders, names in os.walk(folder):
        folders[:] = sorted(name for name in folders if name != "out")
        yield from (os.path.join(at, name) for name in sorted(names) if name.endswith(ending))


def outside_modules(text):
    """The lines of a text, those inside a module as if they stood outside it, each with the head of its module."""
    head, inside = "", False
    for line in text.split("\n"):
        if line.startswith("module ") or (head and not inside):
            head = f"{head} {line}".strip()
            inside = line.endswith("where")
            yield "", ""
            continue
        if line and not line.startswith("  "):
            head, inside = "", False
        yield (line[2:] if inside else line), head


class Item:
    """A definition: its file, its name, the number of its first line, its lines, the head of the module in which it
    stands, if it stands in one, and what these say without comments, as a text and as words."""

    def __init__(self, file, name, at, lines, head=""):
        self.file, self.name, self.at, self.lines, self.head = file, name, at, lines, head
        self.has_model = any(" Model for " in line for line in lines)
        self.code = "\n".join(re.split(r"(?:^|\s)(?:--|//)", line)[0] for line in [head, *lines])
        self.words = set(TOKEN.findall(self.code))


def imports(text):
    """What the `use` lines of a text bring: names to a module and a name, and short names of modules to the module."""
    names, modules = {}, {}
    for path, group, alias in USE.findall(text):
        for part in filter(None, (part.strip() for part in group.split(","))):
            name, _, other = part.partition(" as ")
            names[(other or name).strip()] = (path, name.strip())
        if not group:
            modules[alias or path.rpartition(".")[2]] = path
    for crate, group, one in USE_OF_CRATE.findall(text):
        for name in filter(None, (part.strip() for part in (group or one).split(","))):
            names.setdefault(name, (f"crate {crate}", name))
    return names, modules


def is_operator(name):
    return "◌" in name


def has_operator(code, name):
    """Whether all signs of an operator stand in a text, or, of `>>=`, the arrow that means it."""
    return all(sign in code for sign in name.split("◌")) or (name == "◌>>=◌" and "←" in code)


def constructors(lines):
    """The names of the constructors of a data type, or nothing of any other definition."""
    if any(re.match(r"(?:\w+ )*data ", line) for line in lines):
        yield from (name for line in lines if line.startswith("  ") for name in re.findall(r"^ +([^\s:]+) +:", line))


class Repository:
    """All definitions, by file and name."""

    def __init__(self):
        self.items, self.others, self.brought, self.types = {}, {}, {}, {}
        self.operators = defaultdict(list)
        for file in files_below(f"{TOP}/crates", ".antt"):
            if "/specs/" in file:
                self.take_specs(file)
        for file in files_below(f"{TOP}/crates", ".rt"):
            if "/src/" in file:
                self.take_source(file)

    def take_specs(self, file):
        text = read(file)
        self.brought[file] = imports(text)
        above, name, heads = [], None, {}
        found = defaultdict(list)
        for at, (line, head) in enumerate(outside_modules(text)):
            if line.startswith("--"):
                above, name = above + [line], None
            elif not line.strip() or line.startswith(("use ", "pub use ", "mod ", "pub mod ")):
                above = [] if not line.strip() or not above else above
                name = None if not line.strip() else name
            elif line[0] in " \t":
                if name:
                    found[name].append(line)
            else:
                parts = HEAD.match(line)
                if not parts:
                    if name:
                        found[name].append(line)  # a clause of an operator, as (Ok x) >>= f
                    continue
                marks, kind, word, rest = parts.groups()
                if word in found and not (marks or kind):
                    name = word
                elif marks or kind or rest.lstrip().startswith(":"):
                    name = word
                    heads[name] = at - len(above), head
                    found[name] += above
                if name:
                    found[name].append(line)
                above = []
        for name, own in found.items():
            at, head = heads[name]
            item = Item(file, name, at, own, head)
            self.items[file, name] = item
            for other in constructors(own):
                self.others.setdefault((file, other), item)
            if is_operator(name):
                self.operators[file].append(name)

    def take_source(self, file):
        text = read(file)
        self.brought[file] = imports(text)
        crate = file[len(f"{TOP}/crates/"):].partition("/")[0]
        for block in TYPE.finditer(text):
            lines, name = (block[1] + block[2]).split("\n"), block[3] or block[4]
            model = re.search(rf"(?m)^impl(?:<[^{{]*>)? Model for {name}\b[\s\S]*?^\}}", text)
            at = text.count("\n", 0, block.start())
            item = Item(file, name, at, lines + (model[0].split("\n") if model else []))
            self.items[file, name] = item
            self.types.setdefault((crate, name), item)

    def contract(self, path):
        """The contract of a function, from its name to its body."""
        crate, *modules, name = path.split("::")
        # A method has its type behind the module.
        files = (f"{TOP}/crates/{crate}/src/{'/'.join(path)}.rt" for path in (modules, modules[:-1]))
        file = next(filter(os.path.isfile, files), None)
        found = file and re.search(rf"(?m)(?:^ *///.*\n)*^ *pub fn {name}\b[\s\S]*?(?=^ *\{{$)", read(file))
        if not found:
            sys.exit(f"there is no function {path}")
        return Item(file, name, 0, found[0].rstrip("\n").split("\n"))

    def named(self, module, name):
        """The definition that a name of a module is, if it is the repository's."""
        if module.startswith("crate "):
            return self.types.get((module[6:], name))
        _, crate, part, *rest = module.split(".")
        if part != "specs" or not rest:
            return None
        if rest[0] == "declared":
            rest = [word for word in rest[1:] if word != "TheVariants"]
            return self.types.get((crate, rest[-1])) or self.types.get((crate, name))
        file = f"{TOP}/crates/{crate}/specs/{'/'.join(rest)}.antt"
        names = self.brought.get(file, ({}, {}))[0]
        # A file can pass on what another one defines.
        return self.defined(file, name) or (self.named(*names[name]) if name in names else None)

    def defined(self, file, name):
        """The definition of a file that has a name, or has it for a constructor."""
        return self.items.get((file, name)) or self.others.get((file, name))

    def reached(self, item):
        """The definitions that the words of one name."""
        names, modules = self.brought[item.file]
        crate = item.file[len(f"{TOP}/crates/"):].partition("/")[0]
        known = [name for name in [*names, *self.operators[item.file]] if is_operator(name)]
        for word in item.words | {name for name in known if has_operator(item.code, name)}:
            first, _, second = word.partition(".")
            for whole in (word, first):
                if names.get(whole, ("", ""))[0] == "crate crate":
                    own = self.types.get((crate, names[whole][1]))
                    yield None if own and own.has_model else own
                elif whole in names:
                    yield self.named(*names[whole])
                elif self.defined(item.file, whole):
                    yield self.defined(item.file, whole)
                elif item.file.endswith(".rt") and (crate, whole) in self.types:
                    yield self.types[crate, whole]
            if second and first in modules:
                yield self.named(modules[first], second.partition(".")[0])

    def all_from(self, start):
        seen, left = {}, [start]
        while left:
            for item in filter(None, self.reached(left.pop())):
                if id(item) not in seen:
                    seen[id(item)] = item
                    left.append(item)
        return list(seen.values())


def place_in(file):
    """A file's place below crates/."""
    return os.path.relpath(file, f"{TOP}/crates")


def by_files(items):
    """The definitions of each file, in its order."""
    found = defaultdict(list)
    for item in sorted(items, key=lambda item: item.at):
        found[item.file].append(item)
    return found


def sums(items):
    """How many definitions these are, and their lines, in two columns."""
    return f"{len(items):6}{sum(len(item.lines) for item in items):8}"


def show(items, with_names):
    files = by_files(items)
    for file in sorted(files):
        print(f"{sums(files[file])}  {place_in(file)}")
        if with_names:
            print("                " + " ".join(sorted(item.name for item in files[file])))
    print(f"{sums(items)}  in all, in {len(files)} files")


def from_the_top(repository, contract, items):
    """The files of some definitions, from the top down."""
    uses = defaultdict(set)
    for item in [contract, *items]:
        uses[item.file] |= {used.file for used in repository.reached(item) if used}
    # Each file behind those that it uses, and then all turned round.
    order, met = [], set()

    def visit(file):
        met.add(file)
        for used in sorted(uses[file]):
            if used not in met:
                visit(used)
        order.append(file)

    visit(contract.file)
    crates = [line.partition(":")[0] for line in read(f"{TOP}/crates.txt").split("\n")]
    return sorted(reversed(order), key=lambda file: -crates.index(place_in(file).partition("/")[0]))


def document(file, items):
    """The lines that a file has of some definitions, with what it says of itself."""
    about = re.match(r"((?:(?:--|//!).*\n)+)\n?(?:use|pub|ghost|mod) ", read(file))
    lines, head = [*about[1].split("\n")[:-1], ""] if about else [], ""
    for item in items:
        lines += [item.head] if item.head != head else []
        lines += [("  " if item.head and line else "") + line for line in item.lines] + [""]
        head = item.head
    return lines[:-1]


def show_text(repository, contract, items):
    files = by_files(items)
    print("\n".join([f"# The contract of `{contract.name}`\n\n```", *contract.lines, "```"]))
    for file in from_the_top(repository, contract, items):
        if file in files:
            print("\n".join([f"\n## {place_in(file)}\n\n```", *document(file, files[file]), "```"]))


def ends_apart(repository, items):
    """Whether exactly these definitions of the libraries stand outside of specs/inside/. It prints those that don't."""
    reached, good = {id(item) for item in items}, True
    for item in repository.items.values():
        crate, _, rest = place_in(item.file).partition("/")
        # What the headline reaches is told by bench/headline.py.
        if item.file.endswith(".antt") and not crate.endswith(("_tests", "yp_headline")):
            inside = rest.startswith("specs/inside/")
            if inside == (id(item) in reached):
                good = False
                print(f"{place_in(item.file)}: {item.name} is {'reached' if inside else 'not reached'}")
    return good


def main(*words):
    options = {word for word in words if word.startswith("--")}
    names = [word for word in words if not word.startswith("--")] or ["yp_program::program::run"]
    repository = Repository()
    contract = repository.contract(names[0])
    items = repository.all_from(contract)
    if "--apart" in options:
        return sys.exit(not ends_apart(repository, items))
    if "--text" in options:
        return show_text(repository, contract, items)
    print(f"definitions and lines that the contract of {names[0]} reaches")
    if "--count" in options:
        return print(sums(items))
    show(items, "--names" in options)
    if "--inside" in options:
        reached = {id(item) for item in items}
        print("definitions and lines of specs/ that it doesn't reach")
        inside = [item for item in repository.items.values() if item.file.endswith(".antt") and id(item) not in reached]
        show(inside, "--names" in options)
    return None


if __name__ == "__main__":
    signal.signal(signal.SIGPIPE, signal.SIG_DFL)
    main(*sys.argv[1:])
