#!/usr/bin/env python3
"""Counts the places in crates/*/src that docs/DESIGN-PASS.md speaks of, point by point: bench/forms.py [-v], at the top."""
import glob
import re
import sys
from collections import Counter, defaultdict

SHOW = "-v" in sys.argv
FILES = sorted(glob.glob("crates/*/src/**/*.rt", recursive=True))
TEXT = {f: re.sub(r"//.*", "", open(f).read()) for f in FILES}
PROOFS = [f for f in glob.glob("crates/*/proofs/**/Answers.antt", recursive=True) if "/out/" not in f]


def show(point, what, places):
    print(f"{point} {what}: {len(places)}")
    if SHOW:
        for place in places:
            print("   ", place)


def functions():
    for f, text in TEXT.items():
        for m in re.finditer(r"^( *)(?:pub )?(?:const )?fn (\w+)", text, re.M):
            end = re.compile(r"^%s\}" % m.group(1), re.M).search(text, m.end())
            whole = text[m.start() : end.end()] if end else text[m.start() :]
            yield f.split("/")[1] + "::" + m.group(2), whole


def parts(whole):
    """The signature, the clauses and the body of a function."""
    opening = re.search(r"(?:^|\))[^{}]*?(?=\n\s*(?:requires|ensures)|\s*\{\n)", whole)
    clauses = re.findall(r"(requires|ensures)(?: \w+)? \{ (.*) \}", whole)
    body = re.split(r"\n *\{\n|\{\n", re.sub(r"\n *(?:requires|ensures).*", "", whole), maxsplit=1)
    return whole.split("{")[0], clauses, body[1] if len(body) > 1 else ""


ALL = [(name, *parts(whole)) for name, whole in functions()]

# 1: own enums of the shape of Option or Result, and functions that answer by a number of an error
shaped = []
for f, text in TEXT.items():
    for m in re.finditer(r"enum (\w+)[^{]*\{(.*?)\n\}", text, re.S):
        cases = re.findall(r"^    (\w+)(\(.*\))?", m.group(2), re.M)
        bare = [c for c, v in cases if not v]
        refusing = [c for c, v in cases if re.search(r"Refused|Failed|Wrong|Missing|Told|Trouble|Error", c)]
        if len(cases) == 2 and (len(bare) == 1 or refusing):
            shaped.append(f"{f}: {m.group(1)}")
        elif len(cases) > 2 and refusing and any(v for c, v in cases if c not in refusing):
            shaped.append(f"{f}: {m.group(1)}")
show("1", "enums of the shape of Option or Result", shaped)
show("1", "functions that answer by an i32", [n for n, sig, _, _ in ALL if re.search(r"-> i32\b", sig)])

# 2: functions of one shape: alike when each name is replaced by its order of occurrence
shapes = defaultdict(list)
for name, sig, _, body in ALL:
    if body.count("\n") >= 3:
        order = {}
        plain = re.sub(r"\b[A-Za-z_]\w*\b", lambda m: str(order.setdefault(m.group(0), len(order))), body)
        shapes[re.sub(r"\s+|\b\d{2,}\b", " ", plain)].append(name)
show("2", "groups of functions of one shape", [", ".join(v) for v in shapes.values() if len(v) > 1])

# 3: loops that are no `for`
loops = [(n, x) for n, _, _, body in ALL for x in re.findall(r"^\s*((?:while|loop)\b.*) \{", body, re.M)]
show("3", "loops by while or loop", [f"{n}: {x}" for n, x in loops])
show("3", "of these, by an index against a bound", [f"{n}: {x}" for n, x in loops if re.match(r"while \w+ < ", x)])

# 4: a conversion by a function of its own; texts and slices compared or copied in a loop
show("4", "functions that are one cast", [n for n, _, _, body in ALL if re.match(r"\s*\w+ as \w+\s*\}?\s*$", body)])
alike = [n for n, _, _, body in ALL if re.search(r"(while|for) [^{]*\{\s*if (\w+)\[\w+\] != \w+\[\w+\]", body)]
copies = [n for n, _, _, body in ALL if re.search(r"(while|for) [^{]*\{\s*\w+\[(\w+)\] = \*?(\w+(\[\w+\])?|0);\s*(\w+ \+= 1;\s*)?\}", body)]
show("4", "slices compared in a loop", alike)
show("4", "slices copied or filled in a loop", copies)

# 5: facts that stand in the requires of three functions and more; parameters that travel together
facts = defaultdict(set)
for name, _, clauses, _ in ALL:
    for kind, clause in clauses:
        if kind == "requires":
            for fact in re.split(r" × ", clause.strip()):
                facts[fact.strip("() ")].add(name)
many = {k: v for k, v in facts.items() if len(v) >= 3}
show("5", "facts in the requires of three functions and more", [f"{k} ({len(v)})" for k, v in sorted(many.items())])
groups = Counter()
for name, sig, _, _ in ALL:
    names = re.findall(r"\b(\w+): &(?:mut )?\[", sig)
    for i in range(len(names) - 2):
        groups[tuple(names[i : i + 3])] += 1
show("5", "three lent slices side by side in three functions and more", [f"{', '.join(k)} ({n})" for k, n in groups.items() if n >= 3])

# 6: a slice with a count of it beside; searches by halving
counted = [n for n, sig, _, _ in ALL if re.search(r"&(?:mut )?\[\w+\],\s*(?:n|k|count|size): usize", sig)]
show("6", "a lent slice with a count beside", counted)
show("6", "searches by halving", [n for n, _, _, body in ALL if re.search(r"while 1 < \w+ \{\s*let half", body)])

# 7: a chain of tests or a match on which step or command to run, of four and more
show("7", "matches of four arms and more that run a step each", [n for n, _, _, body in ALL if re.search(r"match \w+[\w.()&]* \{(?:\s*\S*(?:Step|Task|Act|Command|Changing|Writing)::[^\n]*\n(?:[^\n]*\n)*?){4}", body)])
show("7", "chains of four else-ifs and more", [n for n, _, _, body in ALL if len(re.findall(r"else if ", body)) >= 4])

# 8: answers in proof files, and those that only name a tactic or a fact at hand
answers = [a for f in PROOFS for a in re.split(r"\n(?=pub \S+ : goal\.)", open(f).read()) if a.startswith("pub ")]
PATH = r"c\.[\w.'-]+"
SIMPLE = re.compile(r"(?:omega arith|refl|cc|tt|simp length-set \(omega arith\)|%s|omega \(\s*arith(?:, %s)*,?\s*\))$" % (PATH, PATH))
bodies = [" ".join(re.split(r"^\S+ c =", a, maxsplit=1, flags=re.M)[-1].split()) for a in answers]
print(f"8 answers: {len(answers)}")
print(f"8 of these, a tactic or a fact at hand alone: {sum(bool(SIMPLE.match(b)) for b in bodies)}")
