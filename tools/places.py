#!/usr/bin/env python3
"""Counts, in the code of all crates, the places that an older language leaves behind: POINT: COUNT, and
with -v each place. `--at COMMIT` reads a commit instead of the working tree."""
import re, subprocess, sys

at = sys.argv[sys.argv.index("--at") + 1] if "--at" in sys.argv else None
verbose = "-v" in sys.argv

def git(*words):
    return subprocess.run(["git", *words], capture_output=True, text=True, check=True).stdout

if at:
    names = [n for n in git("ls-tree", "-r", "--name-only", at, "crates").split() if "/src/" in n]
    files = {n: git("show", f"{at}:{n}") for n in names}
else:
    names = git("ls-files", "-co", "--exclude-standard", "crates").split()
    files = {}
    for n in names:
        if "/src/" in n:
            try:
                files[n] = open(n).read()
            except FileNotFoundError:
                pass
files = {n: t for n, t in files.items() if n.endswith(".rt")}

def line(text, i):
    return text.count("\n", 0, i) + 1

FN = re.compile(r"^( *)(?:#\[[^\n]*\]\n *)*(?:pub(?:\([a-z]+\))? )?(?:extern \"C\" )?fn (\w+)", re.M)

def functions():
    """name of file, line, function, comment above, parameters, result, clauses, body"""
    for n, t in sorted(files.items()):
        for m in FN.finditer(t):
            end = re.compile(r"^%s}" % m.group(1), re.M).search(t, m.end())
            whole = t[m.start():end.end() if end else len(t)]
            i = whole.find("(", whole.find("fn "))
            depth = 0
            for j in range(i, len(whole)):
                depth += {"(": 1, ")": -1}.get(whole[j], 0)
                if depth == 0:
                    break
            params = whole[i + 1:j]
            rest = whole[j + 1:]
            result = re.match(r"(?: -> ([^\n{;]*?))?(?=\s*(?:\n|\{|;))", rest)
            body = re.search(r"(?:^|\n)%s\{\n(.*)\n%s\}$" % (m.group(1), m.group(1)), whole, re.S)
            if not body:
                body = re.search(r" \{\n(.*)\n%s\}$" % m.group(1), whole, re.S)
            above = t[:m.start()].rstrip("\n").split("\n")
            k = len(above)
            while k and above[k - 1].strip().startswith(("//", "#[")):
                k -= 1
            clauses = re.findall(r"^ *(?:requires|ensures) (?:\w+ )?\{ (.*) \};?$", whole, re.M)
            yield (n, line(t, m.start(2)), m.group(2), " ".join(above[k:]), params,
                   (result.group(1) or "") if result else "", clauses, body.group(1) if body else "")

ALL = list(functions())
points = {}

def put(point, where):
    points.setdefault(point, []).append(where)

def grep(point, pattern, only=""):
    points.setdefault(point, [])
    for n, t in sorted(files.items()):
        if only in n:
            for m in re.finditer(pattern, t, re.M):
                put(point, f"{n}:{line(t, m.start())}: {m.group(0).strip()}")

# 1
grep("1a own variants None, Some, Ok or Err", r"^    (?:None|Some|Ok|Err)(?:\(\w+\))?,$")
grep("1b a Result in a Result", r"Result<Result<")
for n, l, f, above, params, result, clauses, body in ALL:
    if result == "bool" and "&mut" in params:
        put("1c a bool beside what is written", f"{n}:{l}: {f}")
    if result == "usize" and re.search(r"(,|\)|first \w+|) or (how many|`?\w+`?\.$|the number|where there is)", above):
        put("1d a number beyond the end for none", f"{n}:{l}: {f}")
grep("1e numbers for kinds and refusals", r"return \d+;|\b(?:kind|inverse) == 0|^ +(?:Layer|Part)::\w+ => \d+,$")

# 2
SHAPE = {}
for n, l, f, above, params, result, clauses, body in ALL:
    if not body:
        continue
    seen, out = {}, []
    code = "\n".join(x.split("//")[0] for x in (params + " -> " + result + "{" + body).split("\n"))
    for token in re.findall(r"\w+|[^\w\s]", code):
        if re.match(r"\d", token):
            token = "0"
        elif token not in ("let", "mut", "for", "in", "if", "else", "return", "match", "fn", "while", "Ok", "Err", "Some", "None", "self", "len"):
            token = seen.setdefault(token, "w%d" % len(seen))
        out.append(token)
    if len(out) >= 18:
        SHAPE.setdefault(" ".join(out), []).append(f"{n}:{l}: {f}")
points.setdefault("2 functions of one shape", [])
for places in SHAPE.values():
    if len(places) > 1:
        for p in places:
            put("2 functions of one shape", p)

# 3
grep("3a for over indices", r"^ *(?:'\w+: )?for \w+ in .*\.\..*\{$")
grep("3b while", r"^ *while .*\{$")

# 4
for n, l, f, above, params, result, clauses, body in ALL:
    if f in ("name", "from_name", "report", "layer_code", "part_code", "same", "told_of", "tell_refusal",
             "inverse_or_zero", "text", "lane_of", "word_of", "byte_of", "join"):
        put("4 conversion, equality, printing by hand", f"{n}:{l}: {f}")

# 5
for n, l, f, above, params, result, clauses, body in ALL:
    count = len(re.findall(r"\b\w+: ", params)) + (1 if "self" in params else 0)
    if count > 7:
        put("5a more than seven parameters", f"{n}:{l}: {f} {count}")
FACTS = {
    "5b the sizes are lawful": r"Lawful sizes\.now",
    "5c a seed has 32 bytes": r"length (?:seed|code_seed|decoy_seed|ticket_seed|mixing|decoy)\.now ≡ 32",
    "5d the hash is as start leaves it": r"(?:H\.Hash\.capacity|capacity) (?:hash|self)\.new ≡ (?:H\.Hash\.)?capacity (?:hash|self)\.old",
    "5e no entry of the support is a zero of g": r"≢ F\.Field\.ops\.zero\)*$",
}
for point, pattern in FACTS.items():
    points.setdefault(point, [])
    for n, l, f, above, params, result, clauses, body in ALL:
        if any(re.search(pattern, c) and (point[:2] != "5e" or "support" in c) for c in clauses):
            put(point, f"{n}:{l}: {f}")

# 6
for n, l, f, above, params, result, clauses, body in ALL:
    if re.search(r"\bwidth: usize|\bfront: usize", params):
        put("6a a matrix as bytes with a width", f"{n}:{l}: {f}")
grep("6b a block with a length beside", r"^    (?:used|taken|left): usize,$")

# 7
grep("7 switches and tables by macro or number", r"^macro_rules!|\bif (?:kind|inverse) == 0")

for point in sorted(points):
    print(f"{point}: {len(points[point])}")
    if verbose:
        for where in points[point]:
            print("   ", where)
