#!/usr/bin/env python3
"""Counts, by text, the places of older forms in crates/*/src, as docs/DESIGN-PASS.md lists them.

usage: tools/count_forms.py [COMMIT] [-l]    (without COMMIT the work tree; -l lists the places)
"""
import collections, re, subprocess, sys

args = [a for a in sys.argv[1:] if not a.startswith("-")]
show = "-l" in sys.argv
commit = args[0] if args else None


def out(*cmd):
    return subprocess.run(cmd, capture_output=True, text=True, check=True).stdout


def paths(pattern):
    names = out("git", "ls-tree", "-r", "--name-only", commit, "crates").split() if commit else \
        out("git", "ls-files", "-co", "--exclude-standard", "crates").split()
    return [n for n in names if re.fullmatch(pattern, n)]


def read(name):
    if commit:
        return out("git", "show", f"{commit}:{name}")
    with open(name) as f:
        return f.read()


files = {}
for n in paths(r"crates/\w+/src/[\w/]+\.rt"):
    try:
        files[n] = read(n)
    except FileNotFoundError:
        pass

found = collections.OrderedDict()


def search(point, what, regex, also=lambda name: True):
    for name, text in files.items():
        for m in re.finditer(regex, text, re.M):
            line = text.count("\n", 0, m.start()) + 1
            if also(name):
                found.setdefault((point, what), []).append(f"{name}:{line}: {' '.join(m[0].split())[:110]}")
    found.setdefault((point, what), [])


ANSWER = r"(?:true|false)"
search(1, "a result whose error is a bare number", r"-> Result<.*, u(?:8|16|32|64|128|size)>\n")
search(1, "a kind or a code as a number", r"\b(?:kind|plant): u8|fn \w+_code\(|Refusal::EndsEarly => 1,|let kind = ")
search(1, "a count or an answer with an optional refusal beside it", r"\(u32, Option<Fault<\w+>>\)|pub ended: Option<")
search(1, "an error handed on by hand", r"if let Err\((\w+)\) = [^{}]*\{\s*return Err\(\1\);\s*\}|Err\((\w+)\) => return Err\(\2\)")
search(1, "an Option or Result rebuilt case by case",
       r"Some\([^=;{}]*\) => Some\([^{}]*?None => None|Err\(_\) => None,\s*Ok|None => \w+,\s*Some\((\w+)\) => \1\b"
       r"|if let Err\(\w+\) = [^{}]*\{\s*return Some\(|if [^{}]* \{\s*None\s*\} else \{\s*Some\(\(\)\)")
search(1, "a yes or no by cases of an enum", rf"match [\w.()]+ \{{\s*(?:[\w:]+(?:\(_\))? => {ANSWER},\s*)+(?:_ => {ANSWER},\s*)?\}}")
search(3, "an index or a count that a loop counts", r"for [a-z_]+ in [0-9a-z]+\.\.[^{]*\{")
search(3, "a loop that goes on by hand", r"^\s*while (?!let)[^{]*\{")
search(4, "a row of zeros spelled out", r"Keep \{\s*station: 0,\s*taken: 0,\s*given: 0,\s*first: 0,\s*\}")
search(4, "equality or a conversion spelled out", r"fn same_\w+|fn \w+_code\(|fn refused\(refusal: Refusal, place")
search(4, "a copy field by field", r"= UnitState \{|let \w+ \{ \w+: _, \w+ \} = self;|let next = self\.pos;")
search(6, "a list and its length as a pair", r"-> \(\[u\d+; \d+\], usize\)")
search(6, "a list cut by hand", r"\.min\(rest\.len\(\)\)|if rest\.len\(\) < length")
search(7, "a step chosen by a number", r"match kind \{|match plant \{|if kind == 0|=> \(\d+, \d+, \d\)", lambda n: not n.endswith("tests.rt"))

# Functions, by their clauses and by the shape of their text.
FN = re.compile(r"^( *)(?:pub(?:\(crate\))? )?fn (\w+)[^;{]*?(?:\n[^\n]*?)*?\n\1\{\n(.*?)\n\1\}$", re.M | re.S)
clauses, params, shapes = (collections.defaultdict(set) for _ in range(3))
WORD = re.compile(r"[A-Za-z_]\w*|\d+|\S")
for name, text in files.items():
    if name.endswith("tests.rt"):
        continue
    for m in re.finditer(r"^ *(?:pub(?:\(crate\))? )?fn (\w+)(.*?)^ *\{$", text, re.M | re.S):
        head = m[2]
        me = f"{name}:{text.count(chr(10), 0, m.start()) + 1} {m[1]}"
        for c in re.finditer(r"(requires|ensures)\*? (?:\w+ )?\{ (.*?) \}$", head, re.M):
            clauses[c[1] + " " + c[2]].add(me)
        listed = [p.strip() for p in re.sub(r"\s+", " ", head.split(")")[0].split("(", 1)[-1]).split(",") if ":" in p]
        for i, p in enumerate(listed):
            for q in listed[i + 1:]:
                params[tuple(sorted((p, q)))].add(me)
        body = text[m.end():]
        end = re.search(r"^ {0,%d}\}$" % (len(m[0]) - len(m[0].lstrip())), body, re.M)
        body = body[: end.start()] if end else body
        code = re.sub(r"//.*", "", head[:0] + body)
        seen, shape = {}, []
        for w in WORD.findall(code):
            if re.match(r"[A-Za-z_]", w) and w not in ("for", "in", "if", "let", "match", "else", "return", "mut"):
                w = seen.setdefault(w, f"w{len(seen)}")
            elif w.isdigit():
                w = "n"
            shape.append(w)
        if len(shape) >= 24:
            shapes[" ".join(shape)].add(me)

found[(2, "functions whose text has the same shape")] = [", ".join(sorted(v)) for v in shapes.values() if len(v) > 1]
for (a, b) in (("rows: &[Row]", "cycle: u32"), ("program: usize", "address: u32"), ("layout: &Layout", "steps: &[Step]"), ("at: usize", "steps: &mut [Step]")):
    k = tuple(sorted((a, b)))
    found[(5, f"functions that take {a} and {b}")] = sorted(params.get(k, ()))
repeated = sorted((c, v) for c, v in clauses.items() if len(v) > 2)
found[(5, "clauses that stand word for word in three functions or more")] = [f"{len(v)} times: {c[:100]}" for c, v in repeated]

proofs = [read(n) for n in paths(r"crates/\w+/proofs/.+\.antt")]
found[(8, "files of answers")] = paths(r"crates/\w+/proofs/.*/Answers\.antt")
found[(8, "answers")] = [a for p in proofs for a in re.findall(r"^pub [\w+'.-]+ : goal\.", p, re.M)]
found[(8, "lines of proofs")] = [""] * sum(p.count("\n") for p in proofs)

for (point, what), places in sorted(found.items()):
    print(f"{point}  {len(places):5}  {what}")
    if show and what not in ("lines of proofs", "answers", "files of answers"):
        for p in places:
            print("          ", p)
