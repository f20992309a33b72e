#!/usr/bin/env python3
"""Looks up each name that a page of docs/ or README.md gives in backquotes in the sources, and each line of its code.

A row of a table whose columns are headed Promise, Crate, Function and Clause must name a function of that crate and clauses that
stand on it. Any other name in backquotes that looks like one of the sources (a word with `_`, `::` or a capital inside,
or one behind which brackets stand) must stand in a source file. A block of code that begins with ```rust or ```antt must
stand in one source file as it is, but for indentation and empty lines. The last line is `promises: N names, M not found`;
a block counts as a name.
"""
import os
import re
import sys

HOME = os.path.dirname(os.path.dirname(os.path.abspath(__file__)))
WORD = re.compile(r"[A-Za-z_][A-Za-z0-9_]*")
# Names of the outside that look like names of the sources.
OUTSIDE = {"tkrzw_dbm_util", "PATH", "TKPHASH", "TKPFLAT", "TKPSKIP", "TKB1", "LF", "TAB", "PWD", "mktemp", "CI"}
OUTSIDE |= {"SUCCESS", "NOT_FOUND_ERROR", "FULL", "FILE", "KEY", "VALUE", "OLD", "NEW", "GLOBAL", "GLIBC_TUNABLES"}


def source_files():
    """Each crate's name with the text of each of its source files."""
    for name in sorted(os.listdir(os.path.join(HOME, "crates"))):
        for part in ("src", "specs", "proofs"):
            for top, _, files in os.walk(os.path.join(HOME, "crates", name, part)):
                for file in sorted(files):
                    if file.endswith((".rt", ".antt")):
                        with open(os.path.join(top, file), encoding="utf-8") as it:
                            yield name, it.read()


def code_lines(text):
    """The lines of code, without indentation and empty lines."""
    return [line.strip() for line in text.split("\n") if line.strip()]


def block_faults(files, page):
    """The blocks of code of a page that stand in no source file, and how many blocks it has."""
    with open(os.path.join(HOME, page), encoding="utf-8") as it:
        text = it.read()
    blocks = list(re.finditer(r"^```(rust|antt)\n(.*?)^```$", text, re.M | re.S))
    faults = []
    for block in blocks:
        lines = "\n" + "\n".join(code_lines(block[2])) + "\n"
        if not any(lines in file for file in files):
            number = text.count("\n", 0, block.start()) + 1
            faults.append(f"{page}:{number}: this code is in no source")
    return len(blocks), faults


def clauses_of(text, function):
    """The names of the clauses of the functions of that name in a crate."""
    found = set()
    for start in re.finditer(rf"\bfn {re.escape(function)}\b", text):
        head = text[start.end():]
        end = re.search(r"\n\s*(\{|(pub )?(pub\(crate\) )?fn |ghost |impl |/// )", head)
        head = head[: end.start()] if end else head
        found |= set(re.findall(r"\bensures\*? ([A-Za-z_][A-Za-z0-9_]*) \{", head))
    return found


def quoted(text):
    return re.findall(r"`([^`\n]+)`", text)


def row_faults(crates, cells):
    """What a row of promises names that isn't there."""
    crate, functions, clauses = (quoted(cell) for cell in cells[1:4])
    if len(crate) != 1 or crate[0] not in crates:
        return [f"no crate {crate}"]
    text, faults, held = crates[crate[0]], [], set()
    for function in functions:
        name = function.split("::")[-1]
        if not re.search(rf"\bfn {re.escape(name)}\b", text):
            faults.append(f"no function {function} in {crate[0]}")
        held |= clauses_of(text, name)
    return faults + [f"no clause {clause} on {functions} of {crate[0]}" for clause in clauses if clause not in held]


def looks_like_a_name(word):
    return bool(re.fullmatch(r"[A-Za-z_][A-Za-z0-9_]*(::[A-Za-z_][A-Za-z0-9_]*)*(\(\))?", word)) and (
        "_" in word or "::" in word or word.endswith("()") or re.search(r"[a-z][A-Z]", word) is not None or re.fullmatch(r"[A-Z][a-z]+", word) is not None)


def page_faults(crates, words, page):
    """The faults of a page, and how many names it has."""
    faults, names, columns = [], 0, None
    with open(os.path.join(HOME, page), encoding="utf-8") as it:
        for number, line in enumerate(it, 1):
            cells = [cell.strip() for cell in line.strip().strip("|").split("|")] if line.startswith("|") else None
            columns = columns if cells else None
            if cells and cells[:4] == ["Promise", "Crate", "Function", "Clause"]:
                columns = cells
            elif columns and not set(line) <= set("|-: \n"):
                found = row_faults(crates, cells)
                names += sum(len(quoted(cell)) for cell in cells[1:4])
                faults += [f"{page}:{number}: {fault}" for fault in found]
            for name in quoted(line):
                if looks_like_a_name(name) and name not in OUTSIDE:
                    names += 1
                    missing = [word for word in WORD.findall(name) if word not in words and word not in OUTSIDE]
                    faults += [f"{page}:{number}: {word} is in no source" for word in missing]
    return names, faults


def main():
    texts = list(source_files())
    files = ["\n" + "\n".join(code_lines(text)) + "\n" for _, text in texts]
    crates = {name: "\n".join(text for owner, text in texts if owner == name) for name in sorted({name for name, _ in texts})}
    words = set(crates) | {word for text in crates.values() for word in WORD.findall(text)}
    pages = ["README.md"] + [os.path.join("docs", name) for name in sorted(os.listdir(os.path.join(HOME, "docs"))) if name.endswith(".md")]
    total, faults = 0, []
    for page in pages:
        names, found = page_faults(crates, words, page)
        blocks, unknown = block_faults(files, page)
        total += names + blocks
        faults += found + unknown
    print("\n".join(faults + [f"promises: {total} names, {len(faults)} not found"]))
    return int(bool(faults))


if __name__ == "__main__":
    sys.exit(main())
