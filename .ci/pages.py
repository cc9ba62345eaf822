#!/usr/bin/env python3
"""Runs each example of the pages: the indented lines that begin with `./` or `$ `, from the top of the repository, by the
programs that were built, or where there are none by unproved builds.

A command has to end with status 0, or with that of the text behind its block ('status 1'). What stands behind it in its
block is all that it prints; so is what stands in backticks where the text behind begins 'prints `', and the next block where
the text before that ends with 'It prints:', while 'It begins:' gives the first lines alone. Lines with a word in capitals show
a form and are not run; nor are those of `./stackrun` that build, test or look over the crates, nor one that creates an image.
A page that a command makes (`> NAME.html`) has to have a whole document, and goes."""

import glob
import os
import re
import subprocess
import sys
import tempfile

TOP = os.path.dirname(os.path.dirname(os.path.realpath(__file__)))
PAGES = ["*.md", "docs/*.md", "clients/*.md", "examples/*.md", "examples/*/*.md"]
FORM = re.compile(r"\b[A-Z]{3,}\b|\[")
STATUS = re.compile(r"\bstatus (\d)\b")
PRINTS = re.compile(r"prints `([^`]+)`")
PAGE = re.compile(r"> (\w+\.html)$")
LEFT_OUT = re.compile(r"\./stackrun (build|test|fmt|lint)\b|--create\b")


def blocks(page):
    """Returns the page's indented blocks, each as the last line before it, its lines and the paragraph behind it."""
    parts, blank = [], True
    with open(page, encoding="utf-8") as it:
        for line in it.read().split("\n"):
            is_code = line.startswith("    ")
            text = line[4:] if is_code else line.strip()
            if text and (blank or not parts or parts[-1][0] != is_code):
                parts.append((is_code, [text]))
            elif text:
                parts[-1][1].append(text)
            blank = not text
    text_at = lambda k: parts[k][1] if 0 <= k < len(parts) and not parts[k][0] else [""]
    return [(text_at(k - 1)[-1], lines, " ".join(text_at(k + 1))) for k, (is_code, lines) in enumerate(parts) if is_code]


def command_of(line):
    """Returns the command that a line shows, if it does."""
    if line.startswith("$ "):
        return line[2:]
    return line if line.startswith("./") else None


def examples(page):
    """Returns the page's examples: a command, what it prints as far as the page says, whether that is all, and the status."""
    found, open_command = [], None
    for before, lines, behind in blocks(page):
        if open_command and before.endswith(("It begins:", "It prints:")):
            found.append((*open_command, lines, before.endswith("It prints:")))
            open_command = None
            continue
        status = int((STATUS.search(behind) or [0, 0])[1])
        starts = [k for k, line in enumerate(lines) if command_of(line)]
        open_command = None
        for k, after in zip(starts, [*starts[1:], len(lines)]):
            command, printed = command_of(lines[k]), lines[k + 1 : after]
            if FORM.search(re.sub(r"\$\w+", "", command)) or LEFT_OUT.search(command):
                continue
            told = PRINTS.match(behind) if after == len(lines) and not printed else None
            printed = [told[1]] if told else printed
            found.append((command, status, printed, bool(printed)))
            open_command = (command, status)
    return found


def without_page(command, folder):
    """Returns a command that makes its page in a folder, and the path of that, or None where it makes none."""
    made = PAGE.search(command)
    path = made and f"{folder}/{made[1]}"
    return (PAGE.sub(f"> {path}", command) if made else command), path


def is_document(path):
    """Returns whether a file is a whole HTML document."""
    with open(path, encoding="utf-8") as it:
        text = it.read()
    return text.startswith("<!DOCTYPE html>") and text.rstrip().endswith("</html>")


def tries(command, status, printed, is_all):
    """Returns what is wrong with an example, or None."""
    with tempfile.TemporaryDirectory() as folder:
        command, page = without_page(command, folder)
        ran = subprocess.run(["bash", "-c", command], cwd=TOP, capture_output=True, text=True, check=False)
        if page and not is_document(page):
            return "it makes no page"
    lines = ran.stdout.split("\n")[:-1]
    if ran.returncode != status:
        return f"status {ran.returncode}: {ran.stderr.strip()}"
    if is_all and lines != printed or lines[: len(printed)] != printed:
        return "it prints otherwise"
    return None


def main():
    passed = failed = 0
    for page in sorted(path for form in PAGES for path in glob.glob(f"{TOP}/{form}")):
        for command, status, printed, is_all in examples(page):
            fault = tries(command, status, printed, is_all)
            passed, failed = passed + (not fault), failed + bool(fault)
            if fault:
                print(f"FAILED {os.path.relpath(page, TOP)}: {command}: {fault}", file=sys.stderr)
    print(f"examples of the pages: {passed} passed, {failed} failed")
    return 1 if failed or not passed else 0


if __name__ == "__main__":
    sys.exit(main())
