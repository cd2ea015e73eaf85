#!/usr/bin/env python3
"""Counts and lists the places of older forms in crates/*/src: python3 tools/places.py [POINT]

Each rule looks at the text alone, so a place it lists may be right as it is; docs/DESIGN-PASS.md says which are.
"""
import difflib
import glob
import itertools
import re
import sys

ROOT = __file__.rsplit("/", 2)[0]


def files():
    for path in sorted(glob.glob(f"{ROOT}/crates/*/src/**/*.rt", recursive=True)):
        yield path[len(ROOT) + 1:], open(path).read()


def code(line):
    return line.split("//")[0]


def lines(pattern, skip=None):
    """The places at which a line of code fits."""
    found = []
    for path, text in files():
        for number, line in enumerate(text.split("\n"), 1):
            if re.search(pattern, code(line)) and not (skip and re.search(skip, code(line))):
                found.append((path, number, line.strip()))
    return found


def functions():
    """Each function: path, line, name, parameters, clauses, body."""
    for path, text in files():
        for m in re.finditer(r"^( *)(?:pub(?:\(crate\))? )?fn (\w+)", text, re.M):
            start = m.start()
            end = re.search(r"^" + m.group(1) + r"\}$|^" + m.group(1) + r" *\S.*;$(?=\n\n)", text[m.end():], re.M)
            whole = text[start:m.end() + end.end()] if end else text[start:]
            open_at = whole.find("(", m.end() - start)
            depth, i = 0, open_at
            while i < len(whole):
                depth += {"(": 1, ")": -1}.get(whole[i], 0)
                if depth == 0:
                    break
                i += 1
            params = whole[open_at + 1:i]
            rest = whole[i + 1:]
            body_at = re.search(r"^\s*\{$|\{\n", rest, re.M)
            clauses = re.findall(r"(requires|ensures) ?\w* ?\{ (.*) \}$", rest, re.M)
            body = rest[body_at.start():] if body_at else ""
            yield path, text[:start].count("\n") + 1, m.group(2), params, clauses, body


def shape(body):
    """The words of a body, where a number, a text, a type and a variable are only that."""
    met = {}
    tokens = re.findall(r'"(?:[^"\\\\]|\\\\.)*"|\'[^\']+\'|\w+|\S', re.sub(r"//.*", "", body))
    told = []
    for before, token, after in zip([""] + tokens, tokens, tokens[1:] + [""]):
        if token[0] in "\"'0123456789":
            told.append("0")
        elif token[0].isupper():
            told.append("T")
        elif re.match(r"\w", token) and before != "." and after not in "(!" and token not in KEYWORDS:
            told.append(f"v{met.setdefault(token, len(met))}")
        else:
            told.append(token)
    return told


KEYWORDS = set("if else match for in let mut return while as self true false ref".split())


def twins():
    """Functions whose bodies are alike but for numbers, texts, types and the names of variables; tests are left out."""
    shapes = []
    for path, line, name, _, _, body in functions():
        before = open(f"{ROOT}/{path}").read().split("\n")[line - 2] if line > 1 else ""
        told = shape(body)
        if len(told) >= 9 and "#[test]" not in before:
            shapes.append((path, line, name, told))
    return [(a[0], a[1], f"{a[2]} and {b[2]} ({b[0]}:{b[1]})") for a, b in itertools.combinations(shapes, 2)
            if difflib.SequenceMatcher(None, a[3], b[3], False).ratio() > 0.9]


def facts():
    """A `requires` that three or more functions have, and two parameters that three or more functions share."""
    found = []
    wants = {}
    shared = {}
    for path, line, name, params, clauses, _ in functions():
        for kind, text in clauses:
            if kind == "requires":
                wants.setdefault(re.sub(r"\.(now|old)", "", text), []).append((path, line, name))
        names = re.findall(r"(\w+): &?(?:'\w+ )?(?:mut )?[\w\[<&]", params)
        for pair in itertools.combinations(sorted(set(names) - {"rt", "f"}), 2):
            shared.setdefault((path.split("/")[1], pair), []).append((path, line, name))
    for text, at in wants.items():
        if len(at) >= 3:
            found.append((at[0][0], at[0][1], f"requires {text}: {', '.join(n for _, _, n in at)}"))
    for (crate, pair), at in shared.items():
        if len(at) >= 3:
            found.append((at[0][0], at[0][1], f"{pair[0]}, {pair[1]}: {', '.join(n for _, _, n in at)}"))
    return found


def enums():
    """Enums of two cases of which one or both hold one value, as Option and Result do."""
    found = []
    for path, text in files():
        for m in re.finditer(r"enum (\w+)[^{]*\{\n(.*?)\n\}", text, re.S):
            cases = re.findall(r"^    (\w+)(\(\w[^)]*\))?,", m.group(2), re.M)
            if len(cases) == 2 and any(held for _, held in cases):
                found.append((path, text[:m.start()].count("\n") + 1, f"enum {m.group(1)}"))
    return found


def altering_bool():
    return [(p, n, f"fn {f}") for p, n, f, params, _, body in functions()
            if "&mut" in params and re.search(r"-> bool", open(f"{ROOT}/{p}").read().split("\n", n - 1)[-1].split("{")[0])]


def taking_apart():
    """Conversions and words: a function that is one `match` whose arms are all constants or constructors."""
    found = []
    for path, line, name, _, _, body in functions():
        m = re.fullmatch(r"\s*\{\s*match [^{]*\{(.*)\}\s*\}", body, re.S)
        if m:
            arms = re.findall(r"=>\s*\{?\s*(.*?)\s*\}?,?\n", m.group(1) + "\n")
            if len(arms) > 1 and all(re.match(r"[\w\"'&(]", a) and not re.search(r"write|assert|println|return|\bmatch\b", a) for a in arms):
                found.append((path, line, f"fn {name}"))
    return found


POINTS = {
    "1": [
        ("an Option or Result taken apart by a `None` or `Err` arm", lambda: lines(r"\bNone => |\bErr\(_?\w*\) => ")),
        ("`let .. else`", lambda: lines(r"^\s*let .* else \{", skip=r"= if ")),
        ("a bool that says whether something was changed", altering_bool),
        ("a number for a kind or a side", lambda: lines(r"\b(side|kind|frame|rule)\b: u8")),
        ("an enum of the shape of Option or Result", enums),
    ],
    "2": [("two functions alike but for names and numbers", twins)],
    "3": [
        ("a loop over numbers", lambda: lines(r"\bfor \w+ in .*\.\.")),
        ("a `while`", lambda: lines(r"\bwhile ")),
        ("a count by hand", lambda: lines(r"[+-]= 1\b")),
    ],
    "4": [
        ("an impl of a trait of comparison, copying, conversion or printing", lambda: lines(r"impl.* (Clone|Copy|PartialEq|Eq|Ord|PartialOrd|From<.*>|TryFrom<.*>|FromStr|Default|fmt::Display|fmt::Debug) for")),
        ("fields compared one by one", lambda: lines(r"self\.[\w.%_ ]+ == other\.")),
        ("a function that is one table from values to values", taking_apart),
    ],
    "5": [("a fact in three contracts, or parameters that three functions share", facts)],
    "6": [
        ("an array with a length, a split or a start beside it", lambda: lines(r"^\s*(pub )?(len|split|first|number|end): (usize|u32)")),
        ("two lists side by side", lambda: lines(r"counts: &(mut )?\[|replies: (&|Vec)")),
    ],
    "7": [
        ("a struct made to carry one question", lambda: lines(r"impl(<.*>)? Predicate<")),
        ("a question as a trait's one function, and functions over it", lambda: lines(r"trait Predicate|P: Predicate")),
        ("a switch on which step to run", lambda: lines(r"match way ")),
    ],
}


def proofs():
    answers = sum(len(re.findall(r"^pub \S+ :", open(p).read(), re.M)) for p in glob.glob(f"{ROOT}/crates/*/proofs/**/Answers.antt", recursive=True))
    lemmas = sum(len(re.findall(r"^\s*(?:abbrev |unfoldable )?(?:pub )?[\w→'-]+ : ", open(p).read(), re.M))
                 for p in glob.glob(f"{ROOT}/crates/*/proofs/**/*.antt", recursive=True) if not re.search(r"/(Answers|Invariants)\.antt$", p))
    rows = sum(open(p).read().count("\n") for p in glob.glob(f"{ROOT}/crates/*/proofs/**/*.antt", recursive=True))
    print(f"8: {answers} answers, {lemmas} lemmas and definitions beside them, {rows} lines of proofs")


def main():
    wanted = sys.argv[1:]
    for point, rules in POINTS.items():
        if wanted and point not in wanted:
            continue
        for title, rule in rules:
            found = rule()
            print(f"{point}: {len(found)} places: {title}")
            for path, number, text in found:
                print(f"    {path}:{number}: {text[:110]}")
    if not wanted or "8" in wanted:
        proofs()


main()
