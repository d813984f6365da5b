#!/usr/bin/env python3
"""Turns proofs of the older form, proofs/F/Proof.antt, to Invariants.antt and Answers.antt.

usage: python3 tools/answers.py crates/NAME [F..]     the crates below it have to prove; F: folders below proofs/

An older proof names the step that it is at and goes back by `.before`; today every step is a field of one record. The
check tells both names of each goal and step (`rt check --generated FOLDER --old-names`). What is not sure is printed,
and `rt check` decides. Needed as long as unfinished work in the older form is to be brought back (docs/PORT.md).
"""

import json
import os
import re
import subprocess
import sys
import tempfile

WORD = r"[^\s(){}\[\].,;:=λ]+"
FIELDS = r"(?:\.[^\s(){}\[\].,;:=λ]+)*"
KINDS = r"(?:(?:pub|abbrev|unfoldable|instance) )*"
PATH = re.compile(rf"(?<![\w.'₀-₉-])({WORD})({FIELDS})")
LET = re.compile(rf"let\s+({WORD})\s*=\s*({WORD})({FIELDS})\s+in\b")
AT_START = ("args", "requires", "ranges", "lifetimes", "well_formed", "utf8")
SCALARS = r"\s*(&|u8|u16|u32|u64|usize|bool|char)"


def norm(name):
    """A name without what port.py may have changed of it."""
    return re.sub(r"_lem$", "", name.replace("-", "_").lower())


def same(one, other):
    return [norm(it) for it in one] == [norm(it) for it in other]


class Crate:
    def __init__(self, folder):
        self.folder, self.name = os.path.abspath(folder), os.path.basename(os.path.abspath(folder))

    def parameters(self, callee):
        """Of a function of this repository: the parameters that are lent to be changed, and those that are no scalars."""
        crate, name = callee.split("::")[0], callee.split("::")[-1]
        for at, _, files in os.walk(os.path.join(os.path.dirname(self.folder), crate, "src")):
            for file in files:
                with open(os.path.join(at, file), encoding="utf-8") as it:
                    found = re.search(rf"\bfn\s+{re.escape(name)}\s*(?:<[^>]*>)?\(([^{{]*?)\)\s*(?:->|\n|\{{)", it.read())
                if found:
                    pairs = [p.split(":", 1) for p in re.split(r",(?![^<\[]*[>\]])", found.group(1)) if ":" in p]
                    lent = [n.strip() for n, t in pairs if re.match(r"\s*&('\w+ )?mut\b", t)]
                    return lent, [n.strip() for n, t in pairs if n.strip() in lent or not re.match(SCALARS, t)]
        return [], []


class Names:
    """The steps and goals of one function, older and today's."""

    def __init__(self, crate, info):
        self.crate, self.needs, self.asked = crate, info["needs"], [it[0] for it in info["asked_at"]]
        self.places = {it[0]: it for it in info["places"]}
        self.arms = {p[0]: a for p, a in zip(info["places"], info["arms"]) if a}
        self.loops = {norm(l[0][0]): (l[0][1], l[1], c) for l, c in zip(info["loops"], info["changed"])}
        self.said = []

    def back(self, place):
        """The place and those before it."""
        while place is not None:
            yield place
            place = self.places[place][1]

    def behind(self, place, fields):
        """Where `.before` leads, and the fields that are left."""
        while fields and fields[0] == "before":
            place, fields = self.places[place][1] or place, fields[1:]
        return place, fields

    def in_arm(self, place, fields):
        """The longest path of older fields of an arm that these fields begin with, in today's words."""
        best = None
        for at in self.back(place):
            for new, step, older in self.arms.get(at, (None, None, []))[2]:
                if norm(step) == norm(fields[0]) and older and same(older, fields[1 : 1 + len(older)]):
                    if best is None or len(older) > best[0]:
                        best = (len(older), [self.arms[at][0], new, *fields[1 + len(older) :]])
            if best:
                return best[1]
        return None

    def begins_arm(self, place, fields):
        return any(
            norm(step) == norm(fields[0]) and len(older) >= len(fields) and older[: len(fields) - 1] == fields[1:]
            for at in self.back(place)
            for _, step, older in self.arms.get(at, (None, None, []))[2]
        )

    def step(self, place, name):
        for wanted in (norm(name), re.sub(r"\d+$", "", norm(name))):
            for at in self.back(place):
                if norm(self.places[at][2][0]) == wanted:
                    return at
        return None

    def today(self, place, fields, goal_place):
        """The path in today's words."""
        if fields[0] in AT_START:
            return fields
        for start in (place, goal_place):
            if found := self.in_arm(start, fields):
                return found
        at = self.step(place, fields[0]) or self.step(goal_place, fields[0])
        if at is None:
            self.said.append(f"no step {'.'.join(fields)}")
            return fields
        (_, new), callee, tail = self.places[at][2], self.places[at][3], fields[1:]
        if tail and new.startswith("in_default") and re.match(r"rest$|keys\d*$", tail[0]):
            new += ".in_default-own"
        if len(tail) > 1 and tail[0] in ("new", "auto") and tail[1].isdigit() and callee:
            # a place in a tuple of tuples: 1.1.0 is the third
            ones = next((i for i, it in enumerate(tail[1:]) if it != "1"), len(tail) - 1)
            lent, all_of = self.crate.parameters(callee)
            known = lent if len(lent) == 1 else all_of[ones : ones + 1] or all_of[-1:]
            if known:
                tail = [tail[0], known[0], *tail[2 + ones :]]
            self.said += [] if len(lent) == 1 else [f"parameter {'.'.join(tail)} of {callee}"]
        return [new, *tail]

    def rewritten(self, body, goal_place, binder):
        """The body of an answer, each path in today's words; a `let` that only names a step goes."""
        named, out, i = {binder: (goal_place, [])}, "", 0

        def full(name, fields):
            place, before = named[name]
            return self.behind(place, before + [it for it in fields.split(".") if it])

        while True:
            let = next((it for it in LET.finditer(body, i) if it.group(2) in named), None)
            path = next((it for it in PATH.finditer(body, i) if it.group(1) in named), None)
            if path is None:
                return re.sub(r"(?<=[\w'])\.ptr(?![\w-])", ".ref_ptr", out + body[i:])
            if let and let.start() <= path.start():
                place, fields = full(let.group(2), let.group(3))
                out += body[i : let.start()]
                i = let.end()
                if fields and (fields[0] in AT_START or len(fields) > 1 and not self.begins_arm(place, fields)):
                    named.pop(let.group(1), None)
                    out += f"let {let.group(1)} = {'.'.join(['c', *self.today(place, fields, goal_place)])} in"
                else:
                    named[let.group(1)] = (place, fields)
                    i = re.compile(r"[ \t]*\n?[ \t]*").match(body, i).end() if out[-1:] in (" ", "\n") else i
                continue
            place, fields = full(path.group(1), path.group(2))
            out += body[i : path.start()] + ".".join(["c", *(self.today(place, fields, goal_place) if fields else [])])
            i = path.end()

    def goal(self, older):
        """The number of the goal with this older name."""
        names = [norm(older)]
        for front, other in (("overflow_", ""), ("slice_bounds_", "part_"), ("shared_slice_read_", "slice_read_")):
            names.append(re.sub("^" + front, other, names[0]))
        for which in (0, 1):
            for i, need in enumerate(self.needs):
                if norm(need[which]) in names:
                    return i
        return None


def blocks(text):
    """The declarations and comments of a file: a line at the margin and what is further in."""
    out = []
    for line in text.split("\n"):
        if line and not line[0].isspace() and line[0] not in ")}]":
            out.append([line])
        elif line.strip() and out:
            out[-1].append(line)
    return ["\n".join(it) for it in out]


def arguments(text):
    """The arguments of `tie.spec`."""
    out, depth, now = [], 0, ""
    for ch in text.split("tie.spec", 1)[1]:
        depth += (ch in "([{") - (ch in ")]}")
        if depth < 0:
            break
        if ch.isspace() and depth == 0:
            out, now = out + [now] * bool(now), ""
        else:
            now += ch
    return out + [now] * bool(now)


def parts(text):
    """The comments at the head, the imports, and the declarations with what stands under each."""
    head, uses, found, comments = [], [], [], []
    for it in blocks(text):
        if it.startswith("--"):
            (comments if uses or found else head).append(it)
        elif it.startswith("use "):
            uses += [] if re.search(r"\.(Statement|Tie|Lts)\b", it) else [it]
        elif it.startswith("unfolding "):
            found[-1]["unfolding"] = [it]
        elif re.match(rf"{KINDS}{WORD}\s*:(?!=)", it):
            name = re.match(rf"{KINDS}({WORD})", it).group(1)
            found.append({"name": name, "sig": it, "comments": comments, "unfolding": [], "clauses": []})
            comments = []
        else:
            found[-1]["clauses"] += comments + [it]
            comments = []
    return head, uses, found


def clause(name, text):
    found = re.match(rf"{re.escape(name)}((?:\s+{WORD})*)\s*=(.*)", text, re.S)
    return found.group(1).split(), found.group(2)


def invariant(names, it, kind, loop):
    """An invariant or a measure: today a function of one record."""
    name, variables, changed = names.loops[norm(loop)]
    now = [f"l.{'initial.' if c else ''}{v}" for v, c in zip(variables, changed)]
    now += [f"l.{v}" for v, c in zip(variables, changed) if c]
    binders, body = clause(it["name"], it["clauses"][0])
    if len(binders) != len(now):
        names.said.append(f"{it['name']} has {len(binders)} arguments for {len(now)}")
    by = {b: n for b, n in zip(binders, now) if b != "_"}
    body = re.sub(rf"(?<![.\w'-]){WORD}", lambda m: by.get(m.group(), m.group()), body)
    sig = f"abbrev pub {kind}-{name} : goal.{kind}-{name}"
    return "\n".join([*it["comments"], sig, *it["unfolding"], f"{kind}-{name} l ={body}"])


def answer(names, it, i, first):
    """The answer of goal i, or None where the check needs none."""
    name, out = names.needs[i][1], []
    for text in it["clauses"]:
        if text.startswith("--"):
            out.append(text)
            continue
        binders, body = clause(it["name"], text)
        if body.strip() == "search rules" and not it["unfolding"]:
            return None
        out.append(f"{name} c ={names.rewritten(body, names.asked[i], binders[0])}")
    return "\n".join([*(it["comments"] if first else []), f"pub {name} : goal.{name}", *it["unfolding"], *out])


def turn(crate, folder, function, info):
    with open(f"{folder}/Proof.antt", encoding="utf-8") as file:
        head, uses, found = parts(file.read())
    names, invariants, answers, helpers = Names(crate, info), [], [], []
    given = next((arguments("\n".join(it["clauses"])) for it in found if "statement M" in it["sig"]), [])
    given = given[2 * len(names.loops) :]
    if len(given) != len(names.needs):
        names.said.append(f"{len(given)} arguments for {len(names.needs)} goals: by their names")
        given = []
    for it in found:
        tie = re.search(r":\s*tie\.(\w+)-?(\S*)", it["sig"])
        if "statement M" in it["sig"]:
            for i, text in enumerate(given):
                inline = re.match(r"\(λ\s+(\S+)[^.]*\.\s*(.*)\)$", text, re.S)
                if inline and inline.group(2).strip() != "search rules":
                    name = names.needs[i][1]
                    body = names.rewritten(inline.group(2), names.asked[i], inline.group(1))
                    answers.append(f"pub {name} : goal.{name}\n{name} c = {body}")
        elif tie and tie.group(1) == "Need":
            places = [i for i, text in enumerate(given) if text == it["name"]] or [names.goal(tie.group(2))]
            names.said += [f"no goal {tie.group(2)}"] if places == [None] else []
            answers += [answer(names, it, i, i == places[0]) for i in places if i is not None]
        elif tie and tie.group(1) in ("invariant", "decreases"):
            invariants.append(invariant(names, it, tie.group(1), tie.group(2)))
        else:
            names.said += [f"{it['name']} takes a record of the check's"] if "tie." in it["sig"] else []
            helpers.append(it)
    # what an invariant speaks of stands with it
    shared = []
    while more := [h for h in helpers if h not in shared and re.search(rf"(?<![\w.'-]){re.escape(h['name'])}(?![\w'-])", "\n".join(invariants))]:
        shared += more
        for h in more:
            sig = h["sig"] if "pub " in h["sig"].split(":")[0] else re.sub(r"^((?:abbrev |unfoldable )?)", r"\1pub ", h["sig"])
            invariants.insert(0, "\n".join([*h["comments"], sig, *h["unfolding"], *h["clauses"]]))
    own = ["\n".join([*h["comments"], h["sig"], *h["unfolding"], *h["clauses"]]) for h in helpers if h not in shared]
    answers = own + [it for it in answers if it]
    # today a test is known as it is, and not only that `not` of it holds
    answers = [re.sub(r"not-(?:true|false)\s+_\s+(c\.if-not[^\s()]*)", r"\1", it) for it in answers]
    base = f"Rattle.{crate.name}.proofs.{function.replace('/', '.')}"
    brought = [f"use {base}.Invariants.{{{', '.join(h['name'] for h in shared)}}}"] if shared else []
    for file, module, text, extra in (("Invariants", "Given", invariants, []), ("Answers", "Goals", answers, brought)):
        if text:
            with open(f"{folder}/{file}.antt", "w", encoding="utf-8") as it:
                it.write("\n".join([*head, *uses, *extra, f"use {base}.{module} as goal", "", "\n\n".join(text), ""]))
    os.remove(f"{folder}/Proof.antt")
    return names.said


def main(argv):
    if not argv:
        print(__doc__)
        return 2
    crate = Crate(argv[0])
    with tempfile.TemporaryDirectory() as room:
        call = ["rt", "check", "--generated", f"{room}/names", "--old-names"]
        said = subprocess.run(call, cwd=crate.folder, capture_output=True, text=True).stdout
        if not os.path.exists(f"{room}/names/names.json"):
            print(said[-2000:])
            return 1
        with open(f"{room}/names/names.json", encoding="utf-8") as it:
            known = json.load(it)
    for at, _, files in sorted(os.walk(f"{crate.folder}/proofs")):
        function = os.path.relpath(at, f"{crate.folder}/proofs")
        if "Proof.antt" not in files or argv[1:] and function not in argv[1:]:
            continue
        info = known.get(f"Rattle-{crate.name}-proofs.{function.replace('/', '.')}.Lts")
        with open(f"{at}/Proof.antt", encoding="utf-8") as it:
            by_hand = "tie.spec" not in it.read()
        if info is None or by_hand:
            print(f"{function}: {'by hand' if by_hand else 'a function that it calls is not proved'}")
            continue
        for line in turn(crate, at, function, info):
            print(f"{function}: {line}")
    return 0


if __name__ == "__main__":
    sys.exit(main(sys.argv[1:]))
