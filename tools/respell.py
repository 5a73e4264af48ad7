#!/usr/bin/env python3
"""Brings the repository's own antt names to today's spelling: words in snake case, types and modules in camel case.

usage: python3 tools/respell.py        at the top, once, right after the kit's port.py

It renames what specs/ and proofs/ declare or bind with a dash in the name. Names of the library, names that the check makes of
the source (goals, branches, loops), functions of src/, strings and the prose of comments keep their spelling; a name in
backquotes in a comment is turned. Names that fall together are printed as 'clash:', and nothing is written then
but with --anyway: each was looked at, and is a variable beside a field, or a definition beside a field or the function that computes it.
"""

import os
import re
import sys

WORD = re.compile(r"[^\s(){}\[\],;.:λ«»\"`·⌜⌝|]+")
DASHED = re.compile(r"^[^\W\d]['\w]*(-['\w]+)+$")
IMPORT = re.compile(r"^(?:ghost |pub )?use ([\w.+'-]+)\.\{([^}]*)\}", re.M)
# what the check makes of the source's own names, in proofs of functions and in lemmas over their goals
MADE = re.compile(
    r"^(loop|then|else|if|while|returns?|in|arm|decreases|invariant|overflow_\w+|ensures|requires|branch|match|yield|fell|not|and|or|c)-|"
    r"-(requires|ensures|preserved|init|smaller|is|end|index|items|iterator|result|in_bounds|clause|invariant|type_inv)(-|$)"
)

# names with a sign in them, or bound where the look for declarations does not see them
EXTRA = {"of-book-++": "of_book_append", "price-is": "price_is", "the-balance": "the_balance"}


def files(root):
    for folder, dirs, names in os.walk(os.path.join(root, "crates")):
        dirs[:] = sorted(d for d in dirs if d not in ("out", "must-fail"))
        for name in sorted(names):
            if name.endswith((".rt", ".antt")):
                path = os.path.join(folder, name)
                yield path, os.path.relpath(path, os.path.join(root, "crates"))


def read(path):
    with open(path, encoding="utf-8") as f:
        return f.read()


def kind(rel):
    parts = rel.split(os.sep)
    if parts[1] == "src":
        return "source"
    if parts[1] == "specs":
        return "specs"
    return "lemmas" if len(parts) == 3 else "proof"


def pieces(text, source):
    """(text, what): what is 'code', 'comment' or 'string'."""
    out, at = [], 0
    mark = re.compile(r'//[^\n]*|"(?:[^"\\]|\\.)*"|b?\'(?:[^\'\\]|\\.)\'' if source else r"(?m)(?:^|(?<=\s))--[^\n]*")
    for m in mark.finditer(text):
        out.append((text[at : m.start()], "code"))
        out.append((m.group(), "comment" if m.group().startswith(("//", "--")) else "string"))
        at = m.end()
    out.append((text[at:], "code"))
    return out


def code_of(text, source):
    return " ".join(t for t, what in pieces(text, source) if what == "code")


def foreign(text):
    """Names that a file takes from elsewhere than the repository."""
    own = set(crates)
    names = set()
    for module, listed in IMPORT.findall(text):
        parts = module.split(".")
        if parts[0] == "Rattle" and parts[1] in own and "Goals" not in parts and "Given" not in parts:
            continue
        for item in listed.split(","):
            names |= set(item.split(" as ")[0].split())
    return names


def turned(name):
    if name in EXTRA:
        return EXTRA[name]
    if name[0].isupper():
        first, *rest = name.split("-")
        return first + "".join(w[:1].upper() + w[1:] for w in rest)
    return name.replace("-", "_")


root = os.getcwd()
crates = [c for c in os.listdir(os.path.join(root, "crates"))]
texts = {rel: read(path) for path, rel in files(root)}

declared = set()
for rel, text in texts.items():
    where = kind(rel)
    if where in ("specs", "lemmas"):
        for word in WORD.findall(code_of(text, False)):
            if DASHED.match(word) and word not in foreign(text) and not (where == "lemmas" and MADE.search(word)):
                declared.add(word)
        for word in re.findall(r"(?m)^\s*(?:abbrev |unfoldable |infixl? \d+ )*(?:pub )?([^\s:]+) :\s", code_of(text, False)):
            if DASHED.match(word) and word not in foreign(text):
                declared.add(word)
local = {}
for rel, text in texts.items():
    if kind(rel) == "proof":
        own = set()
        for m in re.finditer(r"(?m)^(?:abbrev |unfoldable )?(?:pub )?([^\s:]+) :\s+(\S+)", text):
            if DASHED.match(m.group(1)) and not m.group(2).startswith("goal."):
                own.add(m.group(1))
        local[rel] = own

turn = {}
for rel, text in texts.items():
    source = kind(rel) == "source"
    words = set(WORD.findall(code_of(text, source)))
    names = {w for w in words if w in EXTRA or (DASHED.match(w) and (w in declared or w in local.get(rel, ())) and w not in foreign(text))}
    if source:
        names = {w for w in names if w in declared or w in EXTRA}
    turn[rel] = names

bad = False
new_words = {}
for rel, names in turn.items():
    words = set(WORD.findall(code_of(texts[rel], kind(rel) == "source")))
    seen = {}
    for w in sorted(names):
        n = turned(w)
        if n in words:
            print(f"clash: {rel}: {w} would be {n}, which stands there")
            bad = True
        if n in seen:
            print(f"clash: {rel}: {w} and {seen[n]} would both be {n}")
            bad = True
        seen[n] = w
if "--list" in sys.argv:
    print("\n".join(sorted({f"{w} -> {turned(w)}" for names in turn.values() for w in names})))
    raise SystemExit(bad)
if bad and "--anyway" not in sys.argv:
    raise SystemExit(2)

for path, rel in files(root):
    names = turn[rel]
    if not names:
        continue
    out = []
    for text, what in pieces(texts[rel], kind(rel) == "source"):
        if what == "code":
            out.append(WORD.sub(lambda m: turned(m.group()) if m.group() in names else m.group(), text))
        elif what == "comment":
            out.append(re.sub(r"`([^`]*)`", lambda m: WORD.sub(lambda w: turned(w.group()) if w.group() in names or w.group() in declared else w.group(), m.group()), text))
        else:
            out.append(text)
    with open(path, "w", encoding="utf-8") as f:
        f.write("".join(out))
print(f"respell: {sum(len(n) for n in turn.values())} names in {sum(bool(n) for n in turn.values())} files")
