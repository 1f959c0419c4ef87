"""Lists places in crates/*/src that may be written in a plainer form, a list for each of eight points; usage: places.py [POINT] [--count].
By text alone: it finds candidates, and docs/DESIGN-PASS.md says of each what it is and what became of it. Tests are left out of points 1 to 7."""

import collections
import pathlib
import re
import sys

ROOT = pathlib.Path(__file__).resolve().parent.parent / "crates"
TESTS = {"access_tests", "instruction_tests", "setup_tests", "showfile_tests", "store_tests"}
CODE = r"(?:kind|mode|refusal|code|fault)"


def sources():
    for path in sorted(ROOT.glob("*/src/**/*.rt")):
        if path.relative_to(ROOT).parts[0] not in TESTS:
            yield path, re.sub(r"//[^\n]*", "", path.read_text())


def functions():
    """Each function: its path, name, head and body."""
    for path, text in sources():
        for m in re.finditer(r"\bfn (\w+)", text):
            brace = re.search(r"\n *\{\n|\{\}|\) *(?:-> [^{;]*)?\{\n|;", text[m.start():])
            if not brace or brace[0] == ";":
                continue
            start = m.start() + brace.end()
            deep, i = 1, start
            while i < len(text) and deep:
                deep += (text[i] == "{") - (text[i] == "}")
                i += 1
            yield path, m[1], text[m.start():start], text[start:i]


def at(path, what):
    return f"{path.relative_to(ROOT)}: {what}"


def lines(pattern, keep=lambda m: True):
    for path, text in sources():
        for m in re.finditer(pattern, text):
            if keep(m):
                yield at(path, " ".join(m[0].split()))


def point1():
    for path, text in sources():
        for m in re.finditer(r"enum (\w+)[^{]*\{(.*?)\n\}", text, re.S):
            cases = re.findall(r"^    (\w+)( *[({][^\n]*)?", m[2], re.M)
            if len(cases) <= 3 and any(c[1] for c in cases):
                yield at(path, f"enum {m[1]} of {', '.join(c[0] for c in cases)}")
    yield from lines(r"\b\w+: bool,\n(?=[^)]*\n\})")
    yield from lines(r"-> Option<\w*(?:Refusal|Fault)>")
    for path, name, head, body in functions():
        if re.search(r"-> (?:usize|u8)\b", head) and re.search(r"return i;|=> 16\b", body):
            yield at(path, f"fn {name} answers a number for none")
    yield from lines(rf"\b{CODE}: (?:u8|u32)\b")
    yield from lines(r"fn nuvkerd_\w+\([^)]*\) -> u32")


def point2():
    """Functions whose bodies are alike but for names and numbers."""
    shapes = collections.defaultdict(list)
    for path, name, head, body in functions():
        words = re.findall(r"[A-Za-z_]\w*|[^\s\w]", body)
        if len(words) < 10:
            continue
        names = {}
        shape = []
        for w in words:
            if re.match(r"[A-Za-z_]", w) and w not in KEYWORDS:
                w = names.setdefault(w, f"x{len(names)}")
            elif w.isdigit():
                w = "0"
            shape.append(w)
        shapes[path.relative_to(ROOT).parts[0], " ".join(shape)].append(at(path, name))
    for places in shapes.values():
        if len(places) > 1:
            yield "; ".join(places)


KEYWORDS = {"if", "else", "match", "let", "mut", "return", "for", "in", "Some", "None", "Ok", "Err", "self", "while", "true", "false", "as", "f", "write"}


def point3():
    yield from lines(r"for \w+ in [^\n{]*\.\.[^\n{]*\{")
    yield from lines(r"for \([^)]*\) in [^\n{]*enumerate\(\)[^\n{]*\{")
    yield from lines(r"while [^\n]*\{|loop \{")
    yield from lines(r"\b(?:n|at|line|count|i) \+= 1;|= \w+\.saturating_add\(1\);")


def point4():
    for path, name, head, body in functions():
        if re.fullmatch(r"of|word|from_\w+|number|detail|turn_of|same\w*|kind|store|sheet_reason|kind_name|unopened|ended|refused", name):
            yield at(path, f"fn {name}")
        elif re.search(r"(\w)0\}?\{?n1|\{a\}\{b\}", body):
            yield at(path, f"fn {name} prints a list by hand")
    yield from lines(r"Err\(why\) => return Err\(\w+::\w+\(why\)\)|Err\(\w+\) => Err\(\w+::\w+[({]")
    yield from lines(r"Words \{\s*first: 0,\s*second: 0,\s*\}")


def point5():
    facts = collections.Counter()
    where = collections.defaultdict(list)
    for path, name, head, body in functions():
        for m in re.finditer(r"requires (?:\w+ )?\{ (.*?) \}\n", head):
            fact = re.sub(r"\.(?:now|old)\b", "", m[1])
            facts[fact] += 1
            where[fact].append(name)
    for fact, n in facts.most_common():
        if n >= 3:
            yield f"{n} contracts ask {fact}: {', '.join(where[fact])}"
    groups = collections.defaultdict(list)
    for path, name, head, body in functions():
        params = re.findall(r"\b(\w+): (?!\s)[^,()]+", head.split("requires")[0].split("ensures")[0].partition("(")[2])
        for i in range(len(params)):
            for j in range(i + 3, len(params) + 1):
                groups[tuple(params[i:j])].append(at(path, name))
    best = [g for g in groups if len(groups[g]) >= 3 and not any(set(g) < set(h) and len(groups[h]) >= len(groups[g]) for h in groups)]
    for g in sorted(best, key=lambda g: -len(groups[g])):
        yield f"{len(groups[g])} functions take {', '.join(g)}"


def point6():
    for path, text in sources():
        for m in re.finditer(r"struct (\w+)[^{;]*\{(.*?)\n\}", text, re.S):
            arrays = re.findall(r"^    (?:pub |pub\(crate\) )?(\w+): \[[^\]]*\]", m[2], re.M)
            if arrays:
                yield at(path, f"struct {m[1]} holds {', '.join(arrays)}" + (" beside a length" if re.search(r"\b(?:len|count|size): usize", m[2]) else ""))
    yield from lines(r"2 \* \w+ \+ 1\]")


def point7():
    for path, name, head, body in functions():
        flags = re.findall(r"\b(\w+): bool", head.split("requires")[0].split("ensures")[0])
        if flags:
            yield at(path, f"fn {name} is told by {', '.join(flags)}")
    yield from lines(r"match (?:layers|session\.task|places\.len\(\)|task) \{")


def point8():
    for crate in sorted(ROOT.iterdir()):
        files = list(crate.glob("proofs/**/*.antt"))
        if files:
            answers = sum(len(re.findall(r"^(?:abbrev )?pub ", f.read_text(), re.M)) for f in files)
            yield f"{crate.name}: {sum(len(f.read_text().splitlines()) for f in files)} lines, {answers} answers and lemmas"


if __name__ == "__main__":
    points = [int(a) for a in sys.argv[1:] if a.isdigit()] or range(1, 9)
    for p in points:
        found = list(globals()[f"point{p}"]())
        print(f"point {p}: {len(found)}")
        if "--count" not in sys.argv:
            for f in found:
                print("  " + f)
