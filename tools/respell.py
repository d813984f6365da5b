#!/usr/bin/env python3
"""Brings the repository's own names to today's spelling, after port.py and before its result is committed.

usage: python3 tools/respell.py     at the top of the repository, once, with port.py's changes not yet committed

- In .antt files and the ghost parts of .rt files: words in camel case to snake case, predicates to upper camel case,
  and the constructor `result` of an answer, whose name a clause now needs for the returned value, to `returned`.
- A name of a lemma or a field that would then be that of a definition it speaks of keeps its dash.
- A clause `ensures* { λ r. ⌜ P ⌝ }` that port.py left becomes `ensures { P }`.
- Each root file gets the line `#![tactic(auto)]`.
- must-fail edits: the names that port.py gave, by lining up each file with what stands at HEAD, then the same rules.
"""

import collections
import difflib
import os
import re
import subprocess
import sys

ROOT = os.getcwd()
# What a token is: no blank, bracket, separator or quote.
TOKEN = re.compile(r"[^\s(){}\[\]⟨⟩.,;:=λ`\"@⌜⌝]+")
CAMEL = re.compile(r"(?<=[a-z0-9₀-₉])([A-Z])")
# Predicates: definitions whose value is a type.
PREDICATES = {
    "wrotePage": "WrotePage", "leavesNode": "LeavesNode", "isStep": "IsStep", "tells": "Tells",
}
# The same where the file is, or imports from, the module that declares it: the word means something else elsewhere.
SCOPED_PREDICATES = {
    "leaves": ("codes", "Code", "Leaves"), "wrote": ("codes", "Code", "Wrote"), "shows": ("node_bytes", "Called", "Shows"),
}
# Lemmas and fields that keep their dash, since a definition of that name is spoken of beside them.
DASHED = {
    "goes_on": "goes-on", "in_bytes": "in-bytes", "one_by_one": "one-by-one", "read_one": "read-one",
    "after_read": "after-read", "has_room": "has-room", "kept_in": "kept-in", "block_size": "block-size",
}


def crate_files(ends):
    for folder, dirs, files in os.walk(os.path.join(ROOT, "crates")):
        dirs[:] = sorted(d for d in dirs if d != "out")
        for f in sorted(files):
            if f.endswith(ends):
                yield os.path.join(folder, f)


def in_function_folder(path):
    """Whether a proof file belongs to a function: a folder stands between proofs/ and it."""
    inside = path.split("/proofs/", 1)
    return len(inside) == 2 and "/" in inside[1]


def snake(token):
    if not re.match(r"[a-z]", token):
        # A name that begins with a type or an operator: its dashed parts.
        head, dash, rest = token.partition("-")
        return head + dash + snake(rest) if rest and re.match(r"[a-z]", rest) else token
    return CAMEL.sub(lambda m: "_" + m.group(1).lower(), token)


def respell(token, before):
    if token == "result" and before != ".":
        return "returned"
    if token in PREDICATES:
        return PREDICATES[token]
    return snake(token)


def scoped(path, text):
    """The scoped predicates that the file means."""
    found = {}
    for name, (crate, module, new) in SCOPED_PREDICATES.items():
        declares = path.endswith(f"/{crate}/specs/{module}.antt")
        imports = re.search(rf"Rattle\.{crate}\.specs\.{module}\.\{{[^}}]*(?<![\w-]){name}(?![\w-])", text)
        if declares or imports:
            found[name] = new
    return found


def turn_text(text, change):
    out, at = [], 0
    for m in TOKEN.finditer(text):
        out.append(text[at : m.start()])
        out.append(change(m.group(), text[m.start() - 1] if m.start() else ""))
        at = m.end()
    out.append(text[at:])
    return "".join(out)


def by_lines(text, mark, code, comment):
    """Each line turned by `code` up to its comment, and by `comment` from there on."""
    out = []
    for line in text.split("\n"):
        at = re.search(rf"(?:^|(?<=\s)){re.escape(mark)}(?=\s|$)", line)
        cut = at.start() if at else len(line)
        out.append(code(line[:cut]) + comment(line[cut:]))
    return "\n".join(out)


def turn_comment(text):
    return turn_text(text, lambda token, before: snake(token))


def turn_antt(path, text):
    dashed = not in_function_folder(path)
    here = scoped(path, text)

    def change(token, before):
        if token in here and before != ".":
            return here[token]
        if dashed and token in DASHED:
            return DASHED[token]
        return respell(token, before)

    return by_lines(text, "--", lambda t: turn_text(t, change), turn_comment)


# A string of a .rt file.
STRING = re.compile(r'b?"(?:[^"\\\n]|\\.)*"')
LAMBDA = re.compile(r"(ensures|requires)\*(\s+\w+)? \{ λ (\w+)\. ⌜ (.*?) ⌝ \}", re.S)


def turn_rt(path, text):
    def clause(m):
        body = turn_text(m.group(4), lambda t, b: "returned" if t == "result" and b != "." else t)
        if m.group(3) != "_":
            body = turn_text(body, lambda t, b: "result" if t == m.group(3) and b != "." else t)
        return f"{m.group(1)}{m.group(2) or ''} {{ {body} }}"

    text = LAMBDA.sub(clause, text)
    text = re.sub(r"(ghost use Rattle\.octets\.specs\.Answer\.\{[^}]*)\bresult\b", r"\1returned", text)
    parts, at = [], 0
    for m in STRING.finditer(text):
        parts += [(text[at : m.start()], True), (m.group(), False)]
        at = m.end()
    parts.append((text[at:], True))

    here = scoped(path, text)

    def change(token, before):
        if token in here and before != ".":
            return here[token]
        if token in PREDICATES:
            return PREDICATES[token]
        return snake(token)

    def code(line):
        parts, at = [], 0
        for m in STRING.finditer(line):
            parts += [turn_text(line[at : m.start()], change), m.group()]
            at = m.end()
        return "".join(parts) + turn_text(line[at:], change)

    text = by_lines(text, "//", code, turn_comment)
    if os.path.basename(path) in ("lib.rt", "main.rt") and "#![tactic(auto)]" not in text:
        lines = text.split("\n")
        i = 0
        while i < len(lines) and lines[i].startswith("//"):
            i += 1
        lines[i:i] = ["#![tactic(auto)]"] + ([""] if i < len(lines) and lines[i] else [])
        text = "\n".join(lines)
    return text


def head_text(path):
    r = subprocess.run(["git", "show", "HEAD:" + os.path.relpath(path, ROOT)], cwd=ROOT, capture_output=True)
    return r.stdout.decode() if r.returncode == 0 else None


def line_up(pairs):
    """Old token to new token, as the lined up files show it, the commonest first."""
    seen = collections.defaultdict(collections.Counter)
    for old, new in pairs:
        a, b = TOKEN.findall(old), TOKEN.findall(new)
        for op, i, j, k, l in difflib.SequenceMatcher(None, a, b, autojunk=False).get_opcodes():
            if op == "replace" and j - i == l - k:
                for x, y in zip(a[i:j], b[k:l]):
                    seen[x][y] += 1
            elif op == "equal":
                for x in a[i:j]:
                    seen[x][x] += 1
    return {x: c.most_common(1)[0][0] for x, c in seen.items() if c.most_common(1)[0][0] != x}


def main():
    by_crate = collections.defaultdict(list)
    for path in list(crate_files((".antt", ".rt"))):
        with open(path, encoding="utf-8") as f:
            text = f.read()
        old = head_text(path)
        new = turn_antt(path, text) if path.endswith(".antt") else turn_rt(path, text)
        if new != text:
            with open(path, "w", encoding="utf-8") as f:
                f.write(new)
        if old is not None:
            by_crate[os.path.relpath(path, ROOT).split("/")[1]].append((old, new))
    everywhere = None
    for path in list(crate_files((".edit",))):
        crate = os.path.relpath(path, ROOT).split("/")[1]
        if everywhere is None:
            everywhere = line_up([p for ps in by_crate.values() for p in ps])
        own = own_maps.setdefault(crate, line_up(by_crate[crate]))
        with open(path, encoding="utf-8") as f:
            lines = f.read().split("\n")
        out = []
        for line in lines:
            if re.match(r"(old|new):", line):
                line = turn_edit(line, own, everywhere)
            out.append(line)
        with open(path, "w", encoding="utf-8") as f:
            f.write("\n".join(out))


own_maps = {}


def turn_edit(line, own, everywhere):
    line = re.sub(r"(?<=[\w)]) \.(?=[a-z0-9])", ".", line)
    line = re.sub(r"Rattle·(\w+)(?:·(?:specs|proofs)(?=\.(?:specs|proofs)\.))?", r"Rattle.\1", line)
    line = re.sub(r"(?<=[{ ])_([^\w\s{}_]+)_(?=[,}])", r"◌\1◌", line)

    def change(token, before):
        if token in own:
            return own[token]
        if token in everywhere:
            return everywhere[token]
        return respell(token, before) if token != "result" else token

    head, _, rest = line.partition(":")
    return head + ":" + turn_text(rest, change)


if __name__ == "__main__":
    sys.exit(main())
