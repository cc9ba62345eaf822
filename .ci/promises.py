#!/usr/bin/env python3
"""Writes docs/PROMISES.md from the crates' heads: what stands under `# Promises` at the top of each root file, in the order
and the groups of crates.txt. With `--check` it writes nothing, and fails where the page differs, where a crate has no such
part, where a word in backticks is no item, clause or definition of the crate or of those that it stands on, or where the
code of an example in a doc comment stands in no crate."""

import glob
import os
import re
import sys

TOP = os.path.dirname(os.path.dirname(os.path.realpath(__file__)))
PAGE = f"{TOP}/docs/PROMISES.md"
HEAD = """# Promises

What each crate promises by contract; names in backticks are the functions, clauses and definitions that carry it. \
`.ci/promises.py` writes this page from the crates' heads. None promises that anything happens: that a \
piece acts, a request completes, a thread gets on, a judge decides, a writer takes all or memory suffices.
"""
# An item of the code, or a clause with a name.
ITEM = re.compile(r"\b(?:fn|mod|const|static|ensures|requires|ghost)\s+(\w+)")
LINK = re.compile(r"\[(`[^`]+`)\](?:\([^)]*\))?")


def read(path):
    with open(path, encoding="utf-8") as file:
        return file.read()


def groups():
    """Returns the groups of crates.txt, each as its name and its crates, and those each with what it stands on."""
    found = []
    for line in read(f"{TOP}/crates.txt").split("\n")[1:]:
        if line.startswith("# "):
            found.append((line[2:], {}))
        elif line:
            crate, _, below = line.partition(":")
            found[-1][1][crate.split()[0]] = below.split()
    return found


def root_of(crate):
    """Returns the path of a crate's root file."""
    return next(path for path in glob.glob(f"{TOP}/crates/{crate}/src/*.rt") if path.endswith(("/lib.rt", "/main.rt")))


def promises_of(crate):
    """Returns what stands under `# Promises` in a crate's head, as one paragraph, or None."""
    head = re.match(r"(?://!.*\n)*", read(root_of(crate)))[0]
    lines = [line[3:].strip() for line in head.split("\n")]
    if "# Promises" not in lines:
        return None
    text = " ".join(filter(None, lines[lines.index("# Promises") + 1 :]))
    return LINK.sub(r"\1", text)


def names_of(crate):
    """Returns what a crate's code calls something by: items, clauses, variants; and each word of its definitions."""
    names = set()
    for path in glob.glob(f"{TOP}/crates/{crate}/src/**/*.rt", recursive=True):
        code = re.sub(r"//.*", "", read(path))
        names.update(re.findall(r"\b(?:[A-Z]\w*|unsafe\b)", code), ITEM.findall(code))
    for path in glob.glob(f"{TOP}/crates/{crate}/specs/**/*.antt", recursive=True):
        names.update(re.findall(r"\w+", re.sub(r"--.*", "", read(path))))
    return names


def unknown_words(crates, text):
    """Returns the words in backticks that are no name in these crates, nor one of theirs."""
    known = set(crates).union(*map(names_of, crates))
    return [word for name in re.findall(r"`([^`]+)`", text) for word in re.findall(r"[^\W\d]\w*", name) if word not in known]


def unused_examples():
    """Returns the examples of doc comments whose code stands nowhere, each as its path and its first line."""
    texts = {path: read(path) for path in glob.glob(f"{TOP}/crates/*/src/**/*.rt", recursive=True)}
    squeezed = lambda text: " ".join(text.split())
    code = squeezed("\n".join(re.sub(r"^ *//.*", "", text, flags=re.M) for text in texts.values()))
    found = []
    for path, text in texts.items():
        for lines in re.findall(r"/// ```\n((?: *///.*\n)*?) */// ```", text):
            example = re.sub(r"^ */// ?", "", lines, flags=re.M)
            if squeezed(example) not in code:
                found.append(f"{os.path.relpath(path, TOP)}: {example.split(chr(10))[0]}")
    return found


def main():
    page, faults = [HEAD], []
    for group, crates in groups():
        page.append(f"## {group[0].upper()}{group[1:]}\n")
        for crate, below in crates.items():
            text = promises_of(crate)
            if not text:
                faults.append(f"{crate}: no promises")
                continue
            faults += [f"{crate}: `{word}` is no name there" for word in unknown_words([crate, *below], text)]
            page.append(f"- **{crate}.** {text}")
        page.append("")
    faults += [f"{example}: an example that stands nowhere" for example in unused_examples()]
    text = "\n".join(page).rstrip() + "\n"
    if "--check" not in sys.argv:
        with open(PAGE, "w", encoding="utf-8") as file:
            file.write(text)
    elif read(PAGE) != text:
        faults.append("docs/PROMISES.md isn't what the crates' heads say: run .ci/promises.py")
    print("\n".join(faults), file=sys.stderr, end="\n" if faults else "")
    return 1 if faults else 0


if __name__ == "__main__":
    sys.exit(main())
