#!/usr/bin/env python3
"""Counts the places of docs/DESIGN-PASS.md in crates/*/src and lists them: `tools/places.py [-l] [FOLDER]`, -l with each place."""
import collections, glob, os, re, sys

LIST = "-l" in sys.argv
ROOT = ([a for a in sys.argv[1:] if a != "-l"] or ["."])[0]
files = {}
for path in sorted(glob.glob(os.path.join(ROOT, "crates/*/src/**/*.rt"), recursive=True)):
    text = open(path).read()
    name = os.path.relpath(path, os.path.join(ROOT, "crates"))
    # comments and ghost lines go
    files[name] = "\n".join("" if re.match(r"\s*(//|ghost use )", l) else l for l in text.split("\n"))


def functions():
    """(file, name, parameters, body) of each function, its clauses left out."""
    for name, text in files.items():
        for m in re.finditer(r"^( *)(?:pub(?:\([a-z]+\))? )?(?:const )?fn (\w+)(?:<[^>]*>)?\(", text, re.M):
            depth, i = 1, m.end()
            while depth:
                depth += {"(": 1, ")": -1}.get(text[i], 0)
                i += 1
            start = re.search(r"^" + m.group(1) + r"\{\n|\{\n", text[i:], re.M)
            end = re.search(r"^" + m.group(1) + r"\}$", text[i:], re.M)
            if start and end and start.start() < end.start():
                yield name, m.group(2), text[m.end() : i - 1], text[i + start.end() : i + end.start()]


def enums():
    for name, text in files.items():
        for m in re.finditer(r"enum (\w+)(?:<[^>]*>)? \{\n(.*?)^\}", text, re.S | re.M):
            yield name, m.group(1), [v for v in re.split(r",\s*\n", m.group(2)) if v.strip()]


def show(title, places):
    places = list(places)
    print(f"{len(places):4}  {title}")
    if LIST:
        for p in places:
            print("        ", p)


FUNCTIONS = list(functions())

# 1
show("1a enums of the shape of Option or Result: one bare case and one with a value, or a case Refused",
     (f"{n}: {e}" for n, e, v in enums() if any("Refused" in x for x in v) or (len(v) == 2 and sum("(" in x or "{" in x for x in v) == 1)))
show("1b flags in a struct",
     (f"{n}: {l.strip()}" for n, t in files.items() for l in re.findall(r"^ +(?:pub )?\w+: bool,$", t, re.M)))
show("1c numbers for kinds, causes, codes, locks and refusals: constants, fields, parameters, cases",
     (f"{n}: {l.strip()}" for n, t in files.items() for l in t.split("\n")
      if re.search(r"const [A-Z_]+: u8|\b(kind|lock|cause|n|code|place|number|which|tag): u(8|16|size)\b|\((u8)\),$|-> u8$", l)
      and not re.search(r"fn (bump|in_row|in_all|one_wrong|seconds_of|passing_of|failing_of|byte)\b", l)))

# 2
shapes = collections.defaultdict(list)
for n, f, _, body in FUNCTIONS:
    lines = [l for l in body.split("\n") if l.strip()]
    if len(lines) >= 2:
        shape = re.sub(r"\b(?!if|else|match|return|let|mut|for|while|in|true|false|as\b)[A-Za-z_]\w*(?:::\w+)*", "x", "\n".join(lines))
        shapes[re.sub(r"b?\"[^\"]*\"|\b\d[\w]*", "0", shape)].append(f"{n}: {f}")
show("2  functions whose body differs from another's by names, types and numbers alone",
     (", ".join(sorted(v)) for v in shapes.values() if len(v) > 1))

# 3
show("3  loops that count by hand", (f"{n}: {l.strip()}" for n, t in files.items() for l in t.split("\n") if re.match(r"\s*while ", l)))

# 4
show("4a tests written as a match whose arms are true and false, and comparisons by a loop",
     (f"{n}: {f}" for n, f, _, b in FUNCTIONS if re.search(r"=> true,", b) and re.search(r"=> false,", b) or f.startswith("same_")))
show("4b structs built by copying three or more fields of another",
     (f"{n}: {f}" for n, f, _, b in FUNCTIONS if any(c >= 3 for c in collections.Counter(
         m[1] for m in re.findall(r"\b(\w+): (\w+)\.\1,", b)).values())))
show("4c numbers put together from bytes by hand", (f"{n}: {l.strip()}" for n, t in files.items() for l in t.split("\n") if re.search(r"\* (256|65536)\b|\b(256|65536) \*", l)))
show("4d functions that print words or numbers piece by piece", (f"{n}: {f}" for n, f, _, b in FUNCTIONS if len(re.findall(r"\b(?:text|number|put_bytes|put_number)\(", b)) >= 1))

# 5
clauses = collections.Counter()
for n, t in files.items():
    for m in re.finditer(r"requires \{ (.*?) \}", t):
        for fact in re.split(r" × ", m.group(1)):
            clauses[n.split("/")[0] + ": " + fact.strip("()")] += 1
show("5a facts that stand in the requires of three or more functions of a crate", (f"{k} ({c})" for k, c in clauses.items() if c >= 3))
together = collections.defaultdict(set)
for n, f, params, _ in FUNCTIONS:
    ps = sorted(set(re.sub(r"\s+", " ", p.strip()) for p in params.split(",") if ":" in p))
    for i in range(len(ps)):
        for j in range(i):
            together[(n.split("/")[0], ps[j], ps[i])].add(f)
show("5b pairs of parameters that four or more functions of a crate take together",
     (f"{k[0]}: {k[1]}, {k[2]} ({len(v)})" for k, v in together.items() if len(v) >= 4))

# 6
show("6  arrays with a count beside them, cut by it, and runs that lie side by side",
     (f"{n}: {l.strip()}" for n, t in files.items() for l in t.split("\n") if re.search(r"\[\.\.\w+_count\]|pasts: &\[u16\], causes: &\[u8\]|^\s+pasts: &\[u16\],", l)))

# 7
show("7  a match on a number that picks the function to run",
     (f"{n}: {f}" for n, f, _, b in FUNCTIONS if len(re.findall(r"^\s+\d+ => \w[\w:]*\(.*\)\??,$", b, re.M)) >= 2))

# 8
answers = glob.glob(os.path.join(ROOT, "crates/*/proofs/**/Answers.antt"), recursive=True)
print(f"{len(answers):4}  8  functions with answers of their own, {sum(len(open(a).readlines()) for a in answers)} lines;",
      sum(len(open(a).readlines()) for a in glob.glob(os.path.join(ROOT, "crates/*/proofs/*.antt"))), "lines of lemmas")
