#!/usr/bin/env python3
"""tools/respell.py: brings the definitions, labels and lemmas of this repository to the kit's spelling: snake case, but for types and modules. Run once, after the kit's port.py.

usage: tools/respell.py [FOLDER]    the top of a checkout (default: this one)

A name is respelled where this repository declares it in specs/ or proofs/ with a dash or a capital inside, and everywhere that it is used: in specs/, proofs/, contracts and comments. Names of functions in src/, of the library and
of what Rattle generates (goals, steps) stay.
"""
import os
import re
import sys

root = os.path.abspath(sys.argv[1] if len(sys.argv) > 1 else os.path.join(os.path.dirname(os.path.realpath(__file__)), ".."))
IDENT = re.compile(r"[^\W\d][\w'-]*")
MARKS = r"(?:(?:pattern|unfoldable|abbrev|pub|axiom|constructor)\s+)*"
DECLARED = re.compile(r"^\s*(?:\|\s*)?" + MARKS + r"((?:[^\W\d][\w'-]*\s+)*[^\W\d][\w'-]*)\s+(?:\{[^}]*\}\s*)?:(?:\s|$)", re.M)
GENERATED = re.compile(r"\b(?:tie|goal|given|Rules|step)\.")
LIBRARY = re.compile(r"^\s*(?:ghost\s+)?use\s+(?!Rattle\.(?:%s)\.)([\w.·'-]+)\.\{([^}]*)\}", re.M)


def files(*endings):
    for folder, dirs, names in os.walk(os.path.join(root, "crates")):
        dirs[:] = sorted(d for d in dirs if d != "out")
        for name in sorted(names):
            if name.endswith(endings):
                yield os.path.join(folder, name)


def read(path):
    with open(path, encoding="utf-8") as f:
        return f.read()


def strip_comments(text):
    return re.sub(r"--[^\n]*", "", re.sub(r'"(?:\\.|[^"\\])*"', '""', text))


def odd(name):
    return ("-" in name.strip("-")) or (name[0].islower() and re.search(r"[A-Z]", name) is not None)


def snake(name):
    name = re.sub(r"(?<=[a-z0-9])([A-Z])", lambda m: "_" + m.group(1), name.replace("-", "_"))
    parts = name.split("_")
    return "_".join([p.lower() if re.fullmatch(r"[A-Z][a-z0-9']*|[A-Z]+", p) and i else p for i, p in enumerate(parts)])


def function_folder(path):
    """Whether the file is of the proof of a function: in a folder below proofs/."""
    parts = os.path.relpath(path, os.path.join(root, "crates")).split(os.sep)
    return parts[1] == "proofs" and len(parts) > 3


crate_names = sorted(d for d in os.listdir(os.path.join(root, "crates")) if os.path.isdir(os.path.join(root, "crates", d)))
LIBRARY = re.compile(LIBRARY.pattern % "|".join(crate_names), re.M)

# Facts that port.py respelled, in files that cite a definition whose name falls together with theirs.
FACTS = {
    "walker/proofs/Days.antt": {"answers_of": "answers_of_is"},
    "words/proofs/Statements.antt": {"is_digit": "is_digit_lem"},
    "exports/proofs/WalkOutcomes.antt": {"laid_out": "laid_out_is"},
    "stages/proofs/Keeping.antt": {"row_before": "row_before_is"},
}
# Names that are only bound: by a λ, a pattern or a bracket.
BOUND = """
Tells-Alike after-second after-squad after-whole all-matched answers-v checks-refused e-different e-differents e-early e-later e-misfiled e-one e-same e-sames e-three e-two
e-undecided e-unlike e-wrong e-zero finer-answer first-after form-begins form-ends is-end is-room none-changes not-early not-passed refused-checks says-false says-true second-after
yes-found
""".split()
names = set(BOUND)
tops = set()
plain = set()
local = {}
for path in files(".antt"):
    text = strip_comments(read(path))
    found = set()
    for m in DECLARED.finditer(text):
        end = text.find("\n", m.end())
        line = text[m.end(): end if end >= 0 else len(text)]
        if function_folder(path) and GENERATED.search(line) and not re.search(r"→|->|\(c :", line):
            continue
        for name in m.group(1).split():
            if odd(name) and not name.endswith("-spec"):
                found.add(name)
                if not m.group(0).lstrip("\n").startswith(" "):
                    tops.add(name)
    if function_folder(path):
        local[path] = found
    else:
        names |= found
        plain.update(n for m in DECLARED.finditer(text) for n in m.group(1).split() if not odd(n))

# What Rattle generates keeps its spelling: a name that some proof file takes from a generated module.
generated = set()
for path in files(".antt"):
    if not function_folder(path):
        continue
    text = strip_comments(read(path))
    for m in re.finditer(r"\b(?:tie|goal|given)\.([\w'-]+)", text):
        generated.add(m.group(1))
        generated.add(re.sub(r"^(?:Need|After|Before)-", "", m.group(1)))
    for m in DECLARED.finditer(text):
        end = text.find("\n", m.end())
        line = text[m.end(): end if end >= 0 else len(text)]
        if GENERATED.search(line) and not re.search(r"→|->|\(c :", line):
            generated.update(m.group(1).split())
both = sorted(names & generated)
if both:
    print("declared, and generated elsewhere:", *both)

new = {n: snake(n) for n in sorted(names)}
seen = {n: n for n in plain}
for n, s in sorted(new.items(), key=lambda it: "-" in it[0]):
    # A lemma that would have its function's name ends in _lem; a label that would have one is a fact on it.
    if s in seen and "-" in n:
        new[n] = s + ("_lem" if n in tops else "_is")
        print("fall together:", n, seen[s], "->", new[n])
    seen.setdefault(s, n)

here = set()
for path in files(".antt"):
    here |= set(IDENT.findall(strip_comments(read(path))))
taken = sorted(s for n, s in new.items() if s in here)
print(len(new), "names;", len(taken), "of them are spelled as something that is there already:", *taken)

changed = 0
for path in files(".antt", ".rt"):
    text = read(path)
    rust = path.endswith(".rt")
    imported = set()
    for m in LIBRARY.finditer(text):
        for item in m.group(2).split(","):
            imported.add(item.strip().split(" as ")[-1].strip())
    own = dict(new)
    if function_folder(path):
        own.update({n: snake(n) for n in local[path]})
        goals = set()
        stripped = strip_comments(text)
        for m in DECLARED.finditer(stripped):
            end = stripped.find("\n", m.end())
            line = stripped[m.end(): end if end >= 0 else len(stripped)]
            if GENERATED.search(line) and not re.search(r"→|->|\(c :", line):
                goals.update(m.group(1).split())
        for n in goals:
            own.pop(n, None)
    for n in imported:
        own.pop(n, None)
    own.update(FACTS.get(os.path.relpath(path, os.path.join(root, "crates")), {}))

    # In the proof of a function a label may also be a step of it, which has the name of the function that is called.
    steps = {n: snake(n) for n in own if function_folder(path) and own[n] != snake(n)}

    def word(m):
        n = m.group(0)
        if n in steps and re.match(r"\.(?:result|ensures|requires|new|old|args|before|auto|lifetimes)\b", m.string[m.end():]) and m.string[: m.start()].endswith("."):
            return steps[n]
        return own.get(n, n)

    out = []
    for line in text.split("\n"):
        cut = re.search(r"//", line) if rust else re.search(r"(?:^|\s)--(?=\s|$)", line)
        code, comment = (line[: cut.start()], line[cut.start():]) if cut else (line, "")
        pieces = re.split(r'("(?:\\.|[^"\\])*")', code)
        for i in range(0, len(pieces), 2):
            pieces[i] = IDENT.sub(word, pieces[i])
        # In a comment only names that are no English: with a capital inside, or after a module's name.
        comment = re.sub(r"(?<![\w'-])[a-z][\w']*[A-Z][\w']*(?![\w'-])", word, comment)
        comment = re.sub(r"(?<=[a-z]\.)[a-z][\w'-]*|(?<=`)[a-z][\w'-]*(?=`)", word, comment)
        out.append("".join(pieces) + comment)
    out = "\n".join(out)
    if out != text:
        with open(path, "w", encoding="utf-8") as f:
            f.write(out)
        changed += 1
print(changed, "files respelled")
