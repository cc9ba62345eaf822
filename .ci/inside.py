#!/usr/bin/env python3
"""Sees that no public contract names what stands in a folder `specs/inside`, by itself or by what it names.

A public contract is a `requires` or `ensures` of a function that another crate can call, or a ghost member of a public
trait. What maps a type's fields to what it shows, and what holds of them, is not among these. Names are followed by
the modules that a file takes them from; a field's name, and what stands behind a dot, is none."""

import glob
import os
import re
import sys

TOP = os.path.dirname(os.path.dirname(os.path.realpath(__file__)))
# A name, but not that of a field, of a binder, or behind a dot.
NAME = re.compile(r"(?<![\w.'-])[A-Za-z_][\w'-]*(?!\s*(?::(?!:)|=(?!=)))")
USE = re.compile(r"use Rattle\.(\w+)\.specs\.([\w.]+)\.\{([^}]*)\}")
# What a definition or a clause binds itself.
BINDER = re.compile(r"\(([\w' -]+?)\s:|λ ([\w' -]+)\.|\blet ([\w']+)")
MARKS = re.compile(r"^(?:(?:abbrev|pub|record|data|opaque|private)\s+)*")
FUNCTION = re.compile(r'\s*(pub )?(?:pub\(\w+\) )?(?:const )?(extern "C" )?fn (\w+)')


def read(path):
    with open(path, encoding="utf-8") as file:
        return file.read()


def imports(text):
    """Returns for each word that a file takes from definitions where it stands: crate, module and name."""
    found = {}
    for crate, module, names in USE.findall(text):
        for name in filter(None, map(str.strip, names.split(","))):
            there, _, here = name.partition(" as ")
            found[here or there] = (crate, module, there)
    return found


def named_in(text, known):
    """Returns the definitions that a text names, of those that its file knows."""
    bound = {word for binder in BINDER.findall(text) for words in binder for word in words.split()}
    return {known[word] for word in NAME.findall(text) if word in known and word not in bound}


def as_bound(words):
    """Returns what stands behind a definition's name, with the patterns of an equation as a binder's names."""
    patterns, equals, body = words.partition(" =")
    if not equals or ":" in patterns or body.startswith("="):
        return words
    return "λ " + " ".join(re.findall(r"[\w'-]+", patterns)) + ". " + body


def definitions(text):
    """Returns the text of each definition of a file, by its name. Those of a `module` stand two columns further in."""
    found, name, column = {}, None, 0
    for line in text.split("\n"):
        words = line.strip()
        if not words or words.startswith(("--", "use ")):
            continue
        inner = len(line) - len(line.lstrip())
        if inner == 0:
            column = 2 if words.startswith("module ") else 0
        if inner == column and not words.startswith("module "):
            name = re.match(r"[\w'-]*", MARKS.sub("", words))[0]
            words = as_bound(MARKS.sub("", words)[len(name) :])
        if name:
            found[name] = found.get(name, "") + " " + words
    return found


def all_definitions():
    """Returns for each definition, by crate, module and name, those that it names."""
    found = {}
    for path in glob.glob(f"{TOP}/crates/*/specs/**/*.antt", recursive=True):
        crate, _, place = os.path.relpath(path, f"{TOP}/crates")[: -len(".antt")].split(os.sep, 2)
        module, text = place.replace(os.sep, "."), read(path)
        own = definitions(text)
        known = imports(text) | {name: (crate, module, name) for name in own}
        for name, body in own.items():
            found[crate, module, name] = named_in(body, known)
    return found


def exported(crate):
    """Returns the names that a crate shows others, and its modules that it shows whole."""
    root = f"{TOP}/crates/{crate}/src/lib.rt"
    text = re.sub(r"//.*", "", read(root)) if os.path.exists(root) else ""
    names = set(re.findall(r"^pub (?:const )?(?:struct|enum|trait|fn|type) (\w+)", text, re.M))
    for used in re.findall(r"pub use ([^;]+);", text):
        names |= set(re.findall(r"\w+", used))
    return names, set(re.findall(r"pub mod (\w+)", text))


def subject(head):
    """Returns whose functions an `impl` or a `trait` has, and whether all of them are as public as that."""
    plain = head
    while re.search(r"<[^<>]*>", plain):
        plain = re.sub(r"<[^<>]*>", "", plain)
    of_trait = plain.startswith("impl") and " for " in plain
    words = plain.partition(" for ")[2] if of_trait else re.sub(r"^(pub )?(impl|trait)\s*", "", plain)
    return re.match(r"\s*(?:\w+::)*(\w*)", words)[1], of_trait or "trait" in plain.split()[:2]


def braced(lines, start):
    """Returns the text from a line on to the end of its braces, with no clause's name."""
    depth, taken = 0, []
    for line in lines[start:]:
        taken.append(line.strip())
        depth += line.count("{") - line.count("}")
        if depth <= 0:
            break
    return re.sub(r"^(requires|ensures)\s*\w*\s*\{", "", " ".join(taken))


def clauses(crate, path):
    """Returns the public clauses of a file, each with the function that has it."""
    names, modules = exported(crate)
    whole = os.path.splitext(os.path.relpath(path, f"{TOP}/crates/{crate}/src"))[0].split(os.sep)[0] in modules
    lines, head, function, is_public, found = read(path).split("\n"), "", "", False, []
    for number, line in enumerate(lines):
        if re.match(r"(pub )?(impl|trait)\b", line):
            head = line
        elif line.startswith("}"):
            head = ""
        begins = FUNCTION.match(line)
        if begins:
            owner, always = subject(head) if head else (begins[3], False)
            function = f"{owner}::{begins[3]}" if head else begins[3]
            is_public = bool((owner in names or whole or begins[2]) and (begins[1] or always))
        member = re.match(r"\s*ghost \w+: \{", line) and head.startswith("pub trait") and subject(head)[0] in names
        if member or is_public and re.match(r"\s*(requires|ensures)\b", line):
            found.append((subject(head)[0] if member else function, braced(lines, number)))
    return found


def public_names():
    """Returns the definitions that public clauses name, each with a function that does."""
    found = {}
    for path in sorted(glob.glob(f"{TOP}/crates/*/src/**/*.rt", recursive=True)):
        crate = os.path.relpath(path, f"{TOP}/crates").split(os.sep)[0]
        known = imports(read(path))
        for function, text in clauses(crate, path):
            for definition in named_in(text, known):
                found.setdefault(definition, f"{crate}: {function}")
    return found


def main():
    named = all_definitions()
    by = public_names()
    waiting = list(by)
    while waiting:
        definition = waiting.pop()
        for other in named.get(definition, ()):
            if other not in by:
                by[other] = definition
                waiting.append(other)
    inner = [it for it in named if it[1].startswith("inside.")]
    wrong = sorted(it for it in inner if it in by)
    for it in wrong:
        chain = [it]
        while isinstance(chain[-1], tuple):
            chain.append(by[chain[-1]])
        names = ["/".join([cell[0], "specs", cell[1].replace(".", "/")]) + " " + cell[2] for cell in chain[:-1]]
        print(", by ".join([*names, chain[-1]]))
    print(f"{len(inner)} definitions of specs/inside, {len(wrong) or 'none'} of them in a public clause")
    return 1 if wrong else 0


if __name__ == "__main__":
    sys.exit(main())
