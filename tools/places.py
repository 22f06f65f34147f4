#!/usr/bin/env python3
"""Counts the places of docs/DESIGN-PASS.md: forms of the older language in crates/*/src.

    python3 tools/places.py [COMMIT]    of a commit, or of the files as they stand

It reads text and knows no types: what it prints is where to look, and the page says what each place is.
"""
import collections
import pathlib
import re
import subprocess
import sys

KEYWORDS = set("let mut while if else return match for in as loop true false".split())


def sources(commit):
    """Each file of crates/*/src with its text."""
    wanted = re.compile(r"crates/[^/]+/src/.*\.rt$")
    if commit is None:
        return {str(p): p.read_text() for p in sorted(pathlib.Path("crates").glob("*/src/**/*.rt"))}
    names = subprocess.check_output(["git", "ls-tree", "-r", "--name-only", commit], text=True).split("\n")
    return {n: subprocess.check_output(["git", "show", f"{commit}:{n}"], text=True) for n in names if wanted.match(n)}


def functions(files):
    """Each function: file, name, the text up to its body, the body's lines."""
    found = []
    for file, text in files.items():
        lines = text.split("\n")
        for i, line in enumerate(lines):
            head = re.match(r"(\s*)(?:pub )?(?:extern \"C\" )?fn (\w+)", line)
            if not head:
                continue
            end = next((k for k in range(i, len(lines)) if lines[k] == head.group(1) + "}"), i)
            if end == i:
                continue
            body = next(k for k in range(i, end) if lines[k].rstrip().endswith("{") and not re.search(r"(requires|ensures)[^}]*\{$", lines[k]))
            found.append((file.replace("crates/", "").replace("/src", ""), head.group(2), " ".join(lines[i : body + 1]), [l.strip() for l in lines[body + 1 : end]]))
    return found


def shape(body):
    """A body with its names numbered and its numerals alike."""
    names = {}

    def rename(word):
        w = word.group(0)
        if w in KEYWORDS:
            return w
        return "0" if w[0].isdigit() else names.setdefault(w, f"v{len(names)}")

    return re.sub(r"\b\w+\b", rename, re.sub(r"//.*", "", "\n".join(body)))


def parameters(head):
    return re.findall(r"[(,]\s*(?:mut )?(\w+):", re.split(r" requires| ensures", head)[0])


def show(title, places):
    print(f"\n{title}: {len(places)}")
    for place in places:
        print("   ", place)


def main():
    files = sources(sys.argv[1] if len(sys.argv) > 1 else None)
    fns = functions(files)
    enums, sentinels = [], []
    for file, text in files.items():
        short = file.replace("crates/", "").replace("/src", "")
        for e in re.finditer(r"^(?:pub )?enum (\w+) \{\n(.*?)^\}", text, re.M | re.S):
            cases = re.findall(r"^    (\w+)(\(.*\))?,", e.group(2), re.M)
            enums.append(f"{short} {e.group(1)}: " + ", ".join(a + b for a, b in cases))
        for c in re.finditer(r"^// (.*\bor (?:how many|the number of|`\w+` where|[0-9]+\b).*|.*0 where nothing.*)$", text, re.M):
            sentinels.append(f"{short}: {c.group(1)[:110]}")
    show("1. enums", enums)
    show("1. first comments that give a number for none", sentinels)

    groups = collections.defaultdict(list)
    for file, name, _, body in fns:
        if len(" ".join(body).split()) >= 4:
            groups[shape(body)].append(f"{file} {name}")
    show("2. functions of one shape", [" = ".join(g) for g in groups.values() if len(g) > 1])
    rooms = [f"{f} {n}" for f, n, _, b in fns if any(c > 1 for c in collections.Counter(re.findall(r"let mut (\w+) = (?:\[|most_)", "\n".join(b))).values())]
    show("2. functions with the same room in two sizes", rooms)

    counted, others = [], []
    for file, name, _, body in fns:
        text = "\n".join(body)
        for loop in re.finditer(r"^(?:'\w+: )?(while (.*)|loop) \{$", text, re.M):
            condition = loop.group(2) or ""
            steps = set(re.findall(r"^(\w+) [+-]= 1;", text[loop.start() :], re.M))
            (counted if steps & set(re.findall(r"\w+", condition)) else others).append(f"{file} {name}: {loop.group(1)}")
    show("3. loops that count an index by hand", counted)
    show("3. other loops by `while` and `loop`", others)
    show("3. loops by `for`", [f"{f} {n}" for f, n, _, b in fns for l in b if re.match(r"for .* \{$", l)])

    conversions = [f"{f} {n}" for f, n, _, b in fns if len(b) == 1 and re.fullmatch(r"\w+(\.0)? as \w+", b[0])]
    show("4. functions that only convert", conversions)
    show("4. functions that only compare or take the greater", [f"{f} {n}" for f, n, _, b in fns if re.fullmatch(r"if (\w+) < (\w+) \{\n(return )?\w+;?\n\}( else \{)?\n\w+(\n\})?|if (\w+) < (\w+) \{ \w+ \} else \{ \w+ \}", "\n".join(b)) or re.search(r"\bsame", n)])
    text = "\n".join(files.values())
    print("\n4. casts by `as`:", len(re.findall(r" as (?:usize|u64|u32|u16|u8)\b", text)))
    print("4. types that derive no more than Clone and Copy:", text.count("#[derive(Clone, Copy)]\n"), "of", text.count("#[derive("))

    facts = collections.Counter()
    for _, _, head, _ in fns:
        for clause in re.findall(r"requires (?:\w+ )?\{(.*?)\}(?=\s+(?:requires|ensures|\{)|$)", head):
            facts.update({part.strip() for part in clause.split("×")})
    show("5. facts that three or more functions require", [f"{n}: {f}" for f, n in facts.most_common() if n > 2])
    together = collections.Counter()
    for _, _, head, _ in fns:
        ps = parameters(head)
        together.update({tuple(ps[i : i + 3]) for i in range(len(ps) - 2)})
    show("5. three parameters that stand together in three or more functions", [f"{n}: {', '.join(t)}" for t, n in together.most_common() if n > 2])
    show("5. functions with more than ten parameters", [f"{f} {n}: {len(parameters(h))}" for f, n, h, _ in fns if len(parameters(h)) > 10])


main()
