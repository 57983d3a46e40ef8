#!/usr/bin/env python3
"""Respells the repository's own antt names as today's Rattle spells names: definitions, lemmas, fields and constructors in snake case,
types and definitions whose values are types in upper camel case, a prime as an apostrophe. Names from .rt sources keep their spelling.

usage: respell.py FOLDER            FOLDER has crates/; run once, right after port.py. The names are those of respell.tsv, beside this script
       respell.py --table FOLDER..  writes that table, from the names that the folders' files declare

It goes by whole words. A name of the kit's libraries stays. Where a new spelling is already a word of these files, or two names would fall
together, the name gets a suffix that says what it is (_law for a proof, _value for a value, Fact for a type).
"""

import glob
import os
import re
import sys

WORD = r"[^\s(){}.;,@\"«»\[\]\\]+"
TOKEN = re.compile(r"--[^\n]*|\"(?:[^\"\\]|\\.)*\"|" + WORD)
# a declaration: a name, perhaps with binders, then ':'; a record or data with its name
DECLARED = re.compile(r"(?m)^( *)((?:(?:abbrev|unfoldable|pub|module) )*)(?:(record|data) )?(" + WORD + r")((?: [({][^\n]*?[)}])*) : (.*(?:\n +(?:→|\() ?.*)*)")
USE = re.compile(r"(?m)^(?:ghost )?(?:pub )?use (\S+?)\.\{([^}]*)\}")
CLAUSE = re.compile(r"(?:requires|ensures)\s*\*?\s*(?:\w+\s*)?\{|ghost\s+(?:\w+\s*(?::\s*)?|=\s*)?\{|ghost \w+: \{")
KEEP = {"tt", "spec", "close", "returns"}


def files(root, end):
    found = []
    for part in ("src", "specs", "proofs"):
        found += glob.glob(f"{glob.escape(root)}/crates/*/{part}/**/*{end}", recursive=True)
    return sorted(found)


def read(path):
    with open(path, encoding="utf-8") as it:
        return it.read()


def write(path, text):
    with open(path, "w", encoding="utf-8") as it:
        it.write(text)


def snake(name):
    name = re.sub(r"(?<=[a-z0-9])(?=[A-Z])", "_", name.replace("-", "_").replace("′", "'"))
    return name[0] + name[1:].lower() if re.fullmatch(r"[\x00-\x7f]*", name) else name.replace("-", "_")


def camel(name):
    return "".join(part[:1].upper() + part[1:] for part in re.split(r"[-_]", name.replace("′", "'")))


def closing(text, at):
    depth = 0
    for k in range(at, len(text)):
        depth += (text[k] == "{") - (text[k] == "}")
        if not depth:
            return k + 1
    return len(text)


def ghost_parts(text):
    """The spans of a .rt file that are antt: clauses and ghost use items."""
    blank = re.sub(r"//[^\n]*", lambda m: " " * len(m[0]), text)
    spans = []
    for m in CLAUSE.finditer(blank):
        spans.append((m.end() - 1, closing(blank, m.end() - 1)))
    for m in re.finditer(r"ghost use [^;]*;", blank):
        spans.append((m.start(), m.end()))
    return spans


def declared(root):
    """Each own name that is declared in a file of specs/ or proofs/, with whether it is a type and whether it is a law."""
    names = {}
    for path in files(root, ".antt"):
        text = re.sub(r"(?m)--[^\n]*", "", read(path))
        for m in DECLARED.finditer(text):
            indent, _, kind, name, _, tail = m.groups()
            if re.match(r"(use|module|where|let|in|elim|λ)$", name) or re.search(r"[≡→×⊎≤<>=]", name):
                continue
            if re.match(r"\s*(tie|goal|given)\.", tail):
                continue
            last = re.split(r"→", tail.strip())[-1].strip()
            is_type = kind is not None or bool(re.match(r"Type \d", last))
            is_law = not is_type and bool(re.search(r"≡|≤| < |T \(", last))
            old = names.get(name)
            names[name] = (is_type if old is None else old[0] and is_type, (old[1] if old else False) or is_law)
    return names


def kit_names(root):
    found = set()
    ours = {os.path.basename(c) for c in glob.glob(f"{glob.escape(root)}/crates/*")}
    for path in files(root, ".antt") + files(root, ".rt"):
        for m in USE.finditer(read(path)):
            crate = m[1].split(".")[1] if m[1].startswith("Rattle.") else None
            if crate not in ours:
                for item in m[2].split(","):
                    found |= set(item.strip().split(" as "))
    return found


def words(root):
    """Every word of the antt text, also in .rt clauses, and every name that a .rt file declares."""
    found, params = set(), set()
    for path in files(root, ".antt"):
        text = read(path)
        found |= {m[0] for m in TOKEN.finditer(text) if not m[0].startswith(("--", '"')) and text[m.start() - 1 : m.start()] != "."}
    for path in files(root, ".rt"):
        text = read(path)
        for a, b in ghost_parts(text):
            found |= {m[0] for m in TOKEN.finditer(text[a:b]) if text[a + m.start() - 1] != "."}
        for m in re.finditer(r"\bfn \w+[^(]*\(([^{;]*?)\)(?= ->|\s*\{|\s*(?:requires|ensures|ghost)|;)", text):
            params |= set(re.findall(r"(\w+)\s*:", m[1]))
    return found, params


def table(root):
    names, kit = declared(root), kit_names(root)
    seen, params = words(root)
    new, taken, said = {}, {}, []
    for name in sorted(names):
        is_type, is_law = names[name]
        if name in kit or name in KEEP or not re.search(r"[A-Za-z]", name):
            continue
        want = camel(name) if is_type else name if name[0].isupper() else snake(name)
        if want != name:
            new[name] = want
    for name, want in sorted(new.items(), key=lambda it: ("-" in it[0], it[0])):
        is_type, is_law = names[name]
        clash = want in kit or want in taken or (want in seen and want not in new) or want in params or want in KEEP
        if clash:
            ends = ["Fact", "Type"] if is_type else (["_law", "_fact"] if "-" in name else ["_value", "_of_it"])
            for end in ends:
                if want + end not in seen and want + end not in taken and want + end not in params:
                    said.append((name, want, want + end))
                    want = want + end
                    break
            else:
                said.append((name, want, None))
                want = name
        taken[want] = name
        new[name] = want
    return {a: b for a, b in new.items() if a != b}, said


def turned(text, new):
    return TOKEN.sub(lambda m: m[0] if m[0].startswith(("--", '"')) else new.get(m[0], m[0]), text)


def in_comment(text, new):
    # a name in a comment's code span
    return re.sub(r"`([^`\n]+)`", lambda m: "`" + turned(m[1], new) + "`", text)


def write_table(path, roots):
    new = {}
    for root in roots:
        for old, name in table(root)[0].items():
            new.setdefault(old, name)
    with open(path, "w", encoding="utf-8") as it:
        it.writelines(f"{old}\t{name}\n" for old, name in sorted(new.items()))
    print(f"{len(new)} names")


def main():
    beside = os.path.join(os.path.dirname(os.path.realpath(__file__)), "respell.tsv")
    if sys.argv[1] == "--table":
        return write_table(beside, sys.argv[2:])
    root = sys.argv[1]
    new = dict(line.split("\t") for line in read(beside).splitlines())
    for path in files(root, ".antt"):
        text = read(path)
        now = TOKEN.sub(lambda m: in_comment(m[0], new) if m[0].startswith("--") else turned(m[0], new), text)
        if now != text:
            write(path, now)
    for path in files(root, ".rt"):
        text, parts, at = read(path), [], 0
        for a, b in sorted(ghost_parts(text)):
            if a >= at:
                parts += [text[at:a], turned(text[a:b], new)]
                at = b
        now = re.sub(r"(?m)//[^\n]*", lambda m: in_comment(m[0], new), "".join(parts) + text[at:])
        if now != text:
            write(path, now)
    for path in glob.glob(f"{glob.escape(root)}/**/*.md", recursive=True):
        text = read(path)
        now = in_comment(text, new)
        if now != text:
            write(path, now)


if __name__ == "__main__":
    main()
