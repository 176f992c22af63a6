"""Which definitions the clauses of a top call reach: names are followed from the clauses through specs/*.antt.

A definition is the text from one declared name to the next at the left margin, or a whole block `mutual`. It reaches each name that occurs in it
and is declared in its file or imported by a `use` line of the file.
"""
import functools
import re
import textwrap

from shared import ROOT, read

WORD = re.compile(r"[A-Za-z_]\w*(?:\.[A-Za-z_]\w*)*")
NAME = r"(?:(?:abbrev|unfoldable|pub|record|data) )*([A-Za-z_][\w'?-]*)"
MANY = re.compile(r"(?:(?:abbrev|unfoldable|pub) )*(?:mutual|data)\b")


def bare(text):
    """The text without comments and without what stands between quotes."""
    return re.sub(r'"(?:[^"\\\n]|\\.)*"|{-.*?-}|--[^\n]*', "", text, flags=re.S)


def brought_in(text, mark=r"use"):
    """The names that `use` lines bring in, each with the crate, the file and its name there; a file as a whole has the name ''."""
    found = {}
    for crate, name, rest in re.findall(rf"^(?:{mark}) Rattle\.(\w+)\.specs\.(\w+)(.*)$", text, re.M):
        if name == "declared":
            continue
        if at := re.match(r"\.\{(.*)\}", rest):
            for it in at.group(1).split(","):
                own, _, other = it.strip().partition(" as ")
                found[other or own] = crate, name, own
        elif at := re.match(r" as (\w+)", rest):
            found[at.group(1)] = crate, name, ""
    return found


def declared_in(block):
    """The names that a block declares: its own, and those of data and of a block `mutual` inside it. Fields are no names."""
    head = block.split("\n", 1)[0]
    found = set(re.findall(rf"^{NAME}", head))
    if MANY.match(head):
        found |= set(re.findall(rf"^ +{NAME}[^:=\n]*:", block, re.M)) | set(re.findall(rf"^ +(?:pub )?data {NAME}", block, re.M))
    return found


def blocks_of(text):
    """The text's definitions; those in a block `module` stand by themselves."""
    found, owner = [], None
    for line in text.split("\n"):
        if not line.strip() or re.match(r"(use|pub use|infix\w*)\b", line):
            continue
        now = re.match(NAME, line).group(1) if re.match(NAME, line) else None
        if found and (line[0].isspace() or now is None or now == owner and not MANY.match(line)):
            found[-1] += "\n" + line
        else:
            found.append(line)
            owner = now
    for it in found:
        head, _, inside = it.partition("\n")
        if not re.match(r"(?:(?:abbrev|unfoldable|pub) )*module\b", head):
            yield it
        else:
            where = re.search(r"where\s*$", it, re.M)
            yield from blocks_of(textwrap.dedent(it[where.end() :].lstrip("\n") if where else inside))


@functools.lru_cache(maxsize=None)
def file_of(crate, name):
    """The blocks of a file of definitions by the names that they declare, and what its `use` lines bring in; None where there is no such file."""
    path = ROOT / "crates" / crate / "specs" / f"{name}.antt"
    if not path.exists():
        return None
    text, found = bare(read(path)), {}
    for block in blocks_of(text):
        for it in declared_in(block):
            found.setdefault(it, []).append(block)
    return found, brought_in(text, "use|pub use")


def named(text, blocks, brought):
    """The definitions that a text names, as crate, file and name; of its own file those of the given blocks."""
    for word in set(WORD.findall(text)):
        first, _, rest = word.partition(".")
        if first in brought:
            crate, name, own = brought[first]
            yield crate, name, own or rest.split(".")[0]
        elif first in blocks:
            yield None, None, first


def reached(clauses, brought):
    """All definitions that the clauses reach."""
    found, left = set(), list(named(clauses, {}, brought))
    while left:
        crate, name, own = left.pop()
        file = file_of(crate, name)
        if (crate, name, own) in found or file is None or own not in file[0]:
            continue
        found.add((crate, name, own))
        for text in file[0][own]:
            left += [(c or crate, n or name, o) for c, n, o in named(text, file[0], file[1])]
    return found


def of_call(name):
    """What the clauses of a public call of `szl` reach."""
    path = next(it for it in (ROOT / "crates/szl/src").glob("*.rt") if re.search(rf"^pub fn {name}\b", read(it), re.M))
    text = read(path)
    head = re.search(rf"^pub fn {name}\b.*?^\{{", text, re.M | re.S).group()
    # a clause may go over several lines; its last one ends with its brace
    clauses = "\n".join(re.findall(r"(?:ensures|requires)[^{\n]*\{(.*?)\}[ \t]*$", head, re.M | re.S))
    return reached(clauses, brought_in(text, "ghost use"))
