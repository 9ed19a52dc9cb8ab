#!/usr/bin/env python3
"""Holds docs/PROMISES.md against the tree.

It fails where a clause that a row names does not stand in an `ensures` of that very call, where an edit of the tree is
named in no row, where a row names an edit or a definition that is not in the tree, and where a row that says whole
names no edit.
With a file as its argument it reads that file in place of docs/PROMISES.md.
"""
import re
import sys
from pathlib import Path

TOP = Path(__file__).resolve().parent.parent
CALL = re.compile(r"`(\w+)` `((?:\w+::)*\w+)`: ((?:`\w+`(?:, )?)+)")


def head_of(text, name):
    """The text from `fn name` to the brace of its body or the semicolon of a trait's method, each time it stands there."""
    for match in re.finditer(r"\bfn %s\b[<(]" % re.escape(name), text):
        depth, brackets, end = 0, 0, match.end()
        for end in range(match.start(), len(text)):
            sign = text[end]
            if sign in "[]":
                brackets += 1 if sign == "[" else -1
            elif sign == "{":
                before = text[match.start():end]
                if depth == 0 and re.search(r"(ensures|requires)\*?\s*\w*\s*$", before) is None:
                    break
                depth += 1
            elif sign == "}":
                depth -= 1
            elif sign == ";" and depth == 0 and brackets == 0:
                break
        yield text[match.start():end]


def labels_of(crate, path):
    """The labels of the `ensures` clauses of a call; a lone clause without one is `ensures`."""
    *owner, name = path.split("::")
    found, calls = set(), 0
    for file in sorted((TOP / "crates" / crate / "src").rglob("*.rt")):
        text = re.sub(r"//[^\n]*", "", file.read_text())
        if owner:
            blocks = re.findall(r"^(?:impl|pub trait|trait)\b[^{;]*\b%s\b[^{;]*\{.*?^\}" % re.escape(owner[-1]), text, re.S | re.M)
        else:
            blocks = [re.sub(r"^(?:impl|pub trait|trait)\b.*?^\}", "", text, flags=re.S | re.M)]
        for block in blocks:
            for head in head_of(block, name):
                calls += 1
                found |= {label or "ensures" for label in re.findall(r"\bensures\*?\s*(\w*)\s*\{", head)}
    return calls, found


def main():
    page = Path(sys.argv[1]) if len(sys.argv) > 1 else TOP / "docs" / "PROMISES.md"
    faults, named = [], set()
    tree = {"%s/%s" % (file.parts[-3], file.stem) for file in TOP.glob("crates/*/must-fail/*.edit")}
    more = {"%s/%s" % (file.parts[-3], name) for file in TOP.glob("crates/*/must-fail/more.md")
            for name in re.findall(r"^## (\w+)$", file.read_text(), re.M)}
    specs = "\n".join(file.read_text() for file in TOP.glob("crates/*/specs/**/*.antt"))
    for number, line in enumerate(page.read_text().splitlines(), 1):
        cells = [cell.strip() for cell in line.strip().strip("|").split("|")]
        if not line.startswith("|") or len(cells) != 5 or set(cells[0]) <= {"-"} or cells[0] == "Promise":
            continue
        promise, definitions, calls, edits, state = cells
        for name in re.findall(r"`(\w+)`", definitions):
            if re.search(r"\b%s\b" % name, specs) is None:
                faults.append("%d: %s: no definition %s in the specs" % (number, promise, name))
        for crate, path, labels in CALL.findall(calls):
            count, found = labels_of(crate, path)
            if count == 0:
                faults.append("%d: %s: no call `%s` in crate %s" % (number, promise, path, crate))
            for label in re.findall(r"`(\w+)`", labels):
                if count and label not in found:
                    faults.append("%d: %s: `%s` of %s has no clause `%s`" % (number, promise, path, crate, label))
        row = set(re.findall(r"`(\w+/\w+)`", edits))
        named |= row
        for edit in sorted(row - tree - more):
            faults.append("%d: %s: no edit %s in the tree" % (number, promise, edit))
        if state.startswith("whole") and not row:
            faults.append("%d: %s: is whole and names no edit" % (number, promise))
        if state.startswith("whole") and not CALL.findall(calls):
            faults.append("%d: %s: is whole and names no clause" % (number, promise))
    for edit in sorted((tree | more) - named):
        faults.append("edit %s is named in no row" % edit)
    for fault in faults:
        print("promises:", fault)
    print("promises: %d edits, %d more, %d faults" % (len(tree), len(more), len(faults)))
    return 1 if faults else 0


if __name__ == "__main__":
    sys.exit(main())
