#!/usr/bin/env python3
"""Prints the headline as one document: bench/headline.py [--count|--apart]

It begins with the statements of crates/yp_headline/specs/Headline.antt, follows each name in them to its
definition, as bench/definitions.py does, and prints all that is reached with its comments: the files from the top down,
so that a word mostly stands before what it means. Of a struct or an enum of the code it prints the fields or the
variants, without the comments on each. With --count it prints, file by file, how many definitions and lines there are,
and the sums. With --apart it prints each definition of the crate that isn't reached and stands outside of specs/inside/,
and ends with status 1 where there is one.
"""

import re
import sys
import textwrap

import definitions
from definitions import TOP, Item, Repository, by_files, document, from_the_top, show

FILE = f"{TOP}/crates/yp_headline/specs/Headline.antt"

INTRODUCTION = """# The headline

What the program does, on one page, and all the words that it takes. Each statement is about the bytes that go in and
out of a run, and what a crash may leave of its files; the laws of `yp_headline` say that they follow from what `run`
ensures. This page is the output of `bench/headline.py`."""


def compact(item):
    """A struct or an enum of the code as its comment, its name, and its fields or variants, without their comments."""
    lines = [line for line in item.lines if not line.startswith(("#[", "impl", "//!"))]
    above = [line for line in lines if line.startswith("///")]
    body = [line.strip() for line in lines if not line.strip().startswith(("///", "//", "#[")) and line.strip()]
    end = next((at for at, line in enumerate(body) if line == "}" or line.endswith((";", "{}"))), len(body) - 1)
    body = body[:end + 1]
    text = " ".join(body).replace("pub ", "")
    text = re.sub(r",? \}", " }", text)
    return above + textwrap.wrap(text, 118, subsequent_indent="    ", break_long_words=False)


def shortened(items):
    """The definitions, those of the code compact."""
    for item in items:
        if item.file.endswith(".rt"):
            item.lines = compact(item)
    return items


def reached(repository):
    """The statements, and what is reached from them."""
    starts = [item for (file, _), item in repository.items.items() if file == FILE]
    found = {id(item): item for item in starts}
    for start in starts:
        found.update((id(item), item) for item in repository.all_from(start))
    return shortened(list(found.values()))


def ends_apart(repository, items):
    """Whether each definition outside of specs/inside/ is reached. It prints those that aren't."""
    found, good = {id(item) for item in items}, True
    for item in repository.items.values():
        place = definitions.place_in(item.file)
        if place.startswith("yp_headline/specs/") and "/inside/" not in place and id(item) not in found:
            good = False
            print(f"{place}: {item.name} is not reached")
    return good


def main(*words):
    repository = Repository()
    items = reached(repository)
    if "--apart" in words:
        return sys.exit(not ends_apart(repository, items))
    if "--count" in words:
        return show(items, False)
    files = by_files(items)
    top = Item(FILE, "headline", 0, [line for item in files[FILE] for line in item.lines])
    print(INTRODUCTION)
    for file in from_the_top(repository, top, items):
        name = definitions.place_in(file)
        print("\n".join([f"\n## {name}\n\n```", *document(file, files[file]), "```"]))
    return None


if __name__ == "__main__":
    main(*sys.argv[1:])
