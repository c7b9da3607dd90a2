#!/usr/bin/env python3
"""Finds each name that README.md and the pages of proofs give: a function, type, clause, wrong body, test or script.

    tests/names.py

In README.md, docs/PROOFS.md and crates/NAME/PROOFS.md each name in backquotes is looked up. A wrong body is a file of the crate's must-fail/ or
mutants/; a path is a file of the repository; every other name stands as a word in the code, the definitions or the proofs of the crate whose page
it is, of a crate that the name or the row begins with, or, in README.md and docs/PROOFS.md, of any crate. A call of a type, `Type::call`, stands
in a block of that type. And each wrong body has its place on the page of its crate. Prints what was not found, and how much was looked up; the status is 1 where something is missing.
"""
import fnmatch
import functools
import os
import re
import sys

TOP = os.path.dirname(os.path.dirname(os.path.abspath(__file__)))
CRATES = sorted(os.listdir(f"{TOP}/crates"))
WORD = re.compile(r"[A-Za-z_][A-Za-z0-9_]*")


def text_of(path):
    with open(f"{TOP}/{path}", encoding="utf-8") as file:
        return file.read()


def files_below(folder):
    for root, folders, files in os.walk(f"{TOP}/{folder}"):
        folders[:] = sorted(it for it in folders if it not in ("out", "must-fail", "mutants"))
        for file in sorted(files):
            yield os.path.relpath(f"{root}/{file}", TOP)


@functools.cache
def words_of(crate):
    """All words of the crate's code, definitions and proofs, and the names of its files."""
    words = set()
    for path in files_below(f"crates/{crate}"):
        words.add(os.path.splitext(os.path.basename(path))[0])
        if path.endswith((".rt", ".antt")):
            words.update(WORD.findall(text_of(path)))
    return words


@functools.cache
def calls_of(crate):
    """The calls of the crate's types and traits, each as the type's name and its own."""
    calls = set()
    for path in files_below(f"crates/{crate}/src"):
        owners = []
        for line in text_of(path).split("\n"):
            if block := re.match(r"(?:unsafe )?impl\b(.*)|(?:pub(?:\(.*?\))? )?trait (\w+)", line):
                owners = [block[2]] if block[2] else WORD.findall(re.sub(r"<[^<>]*>", "", re.sub(r"<[^<>]*>", "", re.sub(r"->", "", block[1]))))
            elif call := re.match(r"    (?:pub(?:\(.*?\))? )?(?:const )?fn (\w+)", line):
                calls.update((owner, call[1]) for owner in owners)
    return calls


@functools.cache
def tests():
    """The names of scripts for hubs, of tests, and of what C sees."""
    words = {"Display"}
    for path in files_below("crates/fed_hub_play/data"):
        words.add(os.path.splitext(os.path.basename(path))[0])
    for crate in CRATES:
        if crate.endswith("_tests") or crate.startswith("fed_vectors"):
            words |= words_of(crate)
    return words | set(WORD.findall(text_of("c/wikzord.h")))


@functools.cache
def words_of_all():
    words = set(CRATES) | tests()
    for crate in CRATES:
        words |= words_of(crate)
    for folder in ("tests", "bench", "c", "examples"):
        for path in files_below(folder):
            words.add(os.path.splitext(os.path.basename(path))[0])
    return words


@functools.cache
def edits_of(crate):
    edits = set()
    for folder in ("must-fail", "mutants"):
        path = f"{TOP}/crates/{crate}/{folder}"
        if os.path.isdir(path):
            edits.update(it[:-5] for it in os.listdir(path) if it.endswith(".edit"))
    return edits


def is_found(name, crate):
    """Whether the name stands in this crate, or in any where it is None."""
    if " " in name and "::" not in name or re.match(r"/_matrix|crates/NAME|out/|libwikzord\.|rattle-kit|[0-9a-f]{16}$", name):
        return True  # a command, a text, or what is built
    if "/" in name or re.search(r"\.(py|sh|md|sim|play|h|rt)$", name):
        near = ["", "tests/", "bench/", "c/"] + [f"crates/{it}/" for it in ([crate] if crate else CRATES)]
        return any(os.path.exists(f"{TOP}/{it}{name}") for it in near)
    if crate is not None and name in edits_of(crate):
        return True
    if "*" in name and "::" not in name:
        return bool(fnmatch.filter(CRATES, name))
    words = WORD.findall(name)
    if not words or not re.fullmatch(r"[\w:<>'&\[\]()., *+-]+", name):
        return True  # a text, a number or an example, and no name
    known = words_of_all() if crate is None else words_of(crate) | set(CRATES) | tests()
    if words[0] in CRATES:
        known = known | words_of(words[0])
    if not all(word in known for word in words):
        return False
    call = re.fullmatch(r"(?:.*::)?([A-Z]\w*)::([a-z]\w*)", name)
    return call is None or any(call.groups() in calls_of(it) for it in CRATES)


def names_in(text):
    """The names in backquotes, each with its line; text that is indented or fenced is an example."""
    fenced = False
    for number, line in enumerate(text.split("\n"), 1):
        if line.startswith("```"):
            fenced = not fenced
        if fenced or line.startswith("    "):
            continue
        for name in re.findall(r"`([^`]+)`", line):
            yield number, name


def main():
    looked, missing = 0, []
    pages = [("README.md", None), ("docs/PROOFS.md", None)]
    pages += [(f"crates/{it}/PROOFS.md", it) for it in CRATES if os.path.exists(f"{TOP}/crates/{it}/PROOFS.md")]
    for page, crate in pages:
        for number, name in names_in(text_of(page)):
            looked += 1
            if not is_found(name, crate):
                missing.append(f"{page}:{number}: `{name}` is not found")
    for crate in CRATES:
        page = f"crates/{crate}/PROOFS.md"
        told = {name for _, name in names_in(text_of(page))} if os.path.exists(f"{TOP}/{page}") else set()
        for edit in sorted(edits_of(crate)):
            looked += 1
            if edit not in told:
                missing.append(f"{page}: the wrong body `{edit}` has no place there")
    print("\n".join(missing + [f"{looked} names looked up, {len(missing)} not found"]))
    return 1 if missing else 0


if __name__ == "__main__":
    sys.exit(main())
