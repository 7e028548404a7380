#!/usr/bin/env python3
"""Lists the places of code that older Rattle asked for and today's has a plainer form for, by kind, in crates/*/src.

    python3 tools/places.py [CRATES-FOLDER] [KIND]

KIND is one of shapes, twins, loops, hands, bundles, buffers, switches; all without it. A last line counts each kind."""
import collections
import pathlib
import re
import sys

ROOT = pathlib.Path(sys.argv[1] if len(sys.argv) > 1 else "crates")
ONLY = sys.argv[2] if len(sys.argv) > 2 else None


def sources():
    for path in sorted(ROOT.glob("*/src/**/*.rt")):
        yield path.relative_to(ROOT), re.sub(r"//[^\n]*", "", path.read_text())


def functions(text):
    """Name, parameters, clauses and body of each function that has a body."""
    for match in re.finditer(r"\bfn (\w+)", text):
        opened = text.find("(", match.end())
        closed = matching(text, opened)
        start = body_start(text, closed)
        if start is None:
            continue
        end = matching(text, start)
        yield match.group(1), text[opened + 1 : closed], text[closed + 1 : start], text[start + 1 : end], match.start()


def matching(text, at):
    pairs = {"(": ")", "{": "}", "[": "]"}
    want, have, depth = text[at], pairs[text[at]], 0
    for i in range(at, len(text)):
        if text[i] == want:
            depth += 1
        elif text[i] == have:
            depth -= 1
            if depth == 0:
                return i
    return len(text) - 1


def body_start(text, at):
    """The brace that opens the body: clauses have braces of their own, behind a word."""
    i = at + 1
    while i < len(text):
        if text[i] == ";":
            return None
        if text[i] == "{":
            before = text[at + 1 : i].rstrip().split("\n")[-1]
            if re.search(r"\b(requires|ensures)\*?(\s+\w+)?\s*$", before):
                i = matching(text, i) + 1
                continue
            return i
        i += 1
    return None


def line(text, at):
    return text.count("\n", 0, at) + 1


def parameters(params):
    params = re.sub(r"\s+", " ", params)
    return [p.strip() for p in re.split(r",(?![^<(\[]*[>)\]])", params) if ":" in p]


def shapes(path, text):
    for match in re.finditer(r"enum (\w+)[^{]*\{", text):
        body = text[match.end() : matching(text, match.end() - 1)]
        variants = [v.strip() for v in re.split(r",(?![^({]*[)}])", body) if v.strip()]
        data = [v for v in variants if "(" in v or "{" in v]
        if len(variants) == 2 and (len(data) == 1 or len(data) == 2 and all(v.count(":") + v.count(",") == 0 for v in data)):
            yield line(text, match.start()), f"enum {match.group(1)} has the shape of Option or Result"
    for match in re.finditer(r"struct (\w+)[^{;]*\{", text):
        body = text[match.end() : matching(text, match.end() - 1)]
        fields = re.findall(r"(\w+): ([^,\n]+)", re.sub(r"ghost [^\n]*", "", body))
        if len(fields) == 2 and any(t.strip() == "bool" or t.strip().endswith("State") for _, t in fields):
            yield line(text, match.start()), f"struct {match.group(1)} is a flag with a value beside it"
    for name, params, clauses, body, at in functions(text):
        if re.search(r"-> u(8|16)\b", clauses) and (re.search(r"=> \d+,", body) or body.strip() == "0"):
            yield line(text, at), f"fn {name} gives a number for a case"
        if re.search(r"-> Option<", clauses) and re.search(r"^\s*\d+ => Some", body, re.M):
            yield line(text, at), f"fn {name} makes a case of a number"


def loops(path, text):
    for match in re.finditer(r"\bwhile [^\n]*|\bfor \w+ in [^\n{]*\.\.[^\n{]*", text):
        if "while let" not in match.group(0):
            yield line(text, match.start()), match.group(0).strip(" {")


def hands(path, text):
    for name, params, clauses, body, at in functions(text):
        if re.fullmatch(r"same|eq|equals|copy_of|text|number|from_number", name):
            yield line(text, at), f"fn {name}: equality, conversion or printing by hand"
        if re.search(r"=> true,\s*(.*=> true,\s*)*_ => false", body, re.S):
            yield line(text, at), f"fn {name}: a match for matches!"
        if re.search(r"Ok\((\w+)\) => Some\(\1\)|None => None|Err\((\w+)\) => Err\(\2\)", body):
            yield line(text, at), f"fn {name}: a match that hands None or an error on"


def buffers(path, text):
    for match in re.finditer(r"struct (\w+)[^{;]*\{", text):
        body = text[match.end() : matching(text, match.end() - 1)]
        body = re.sub(r"ghost [^\n]*", "", body)
        many = re.search(r"\[\w+; \w+\]|&'?\w* ?\[", body)
        if many and re.search(r": usize", body):
            yield line(text, match.start()), f"struct {match.group(1)} has a buffer or slice with a length or place beside it"


def switches(path, text):
    for match in re.finditer(r"\bmatch [^\n{]*\{", text):
        body = text[match.end() : matching(text, match.end() - 1)]
        arms = re.findall(r"=> (?:\{\s*)?([\w:.]+)\(([^()]*(?:\([^()]*\)[^()]*)*)\)", body)
        if len(arms) >= 2 and len(arms) == body.count("=>"):
            names = {name for name, _ in arms}
            args = {re.sub(r"\s+", " ", re.sub(r"\b[A-Z]\w*\b", "T", a)).strip(" ,") for _, a in arms}
            args = {re.sub(r"\b(booleans|characters|integers|bs|cs|is)\b", "table", a) for a in args}
            if len(names) >= 2 and len(args) == 1 and not names <= {"Some", "Ok", "Err", "write!"}:
                yield line(text, match.start()), "a match whose arms call different functions with the same arguments"


def twins(found):
    shapes_of = collections.defaultdict(list)
    for path, text in found:
        for name, params, clauses, body, at in functions(text):
            if len([l for l in body.split("\n") if l.strip()]) < 3 or "trials" in str(path):
                continue
            plain = re.sub(r"\"[^\"]*\"|b?'[^']*'", "S", body)
            plain = re.sub(r"\b\d[\w_]*\b", "N", plain)
            plain = re.sub(r"\b(booleans|characters|integers)\b", "table", plain)
            plain = re.sub(r"\b[A-Za-z_]\w*\b", lambda m: m.group(0) if m.group(0) in KEYWORDS else "x", plain)
            shapes_of[re.sub(r"\s+", "", plain)].append(f"{path}:{line(text, at)} fn {name}")
    return [group for group in shapes_of.values() if len(group) > 1]


KEYWORDS = {"match", "if", "else", "for", "in", "while", "let", "mut", "return", "Ok", "Err", "Some", "None", "as"}


def bundles(found):
    clauses_of, groups = collections.defaultdict(list), collections.defaultdict(list)
    for path, text in found:
        if "trials" in str(path):
            continue
        for name, params, clauses, body, at in functions(text):
            where = f"{path}:{line(text, at)} fn {name}"
            for match in re.finditer(r"(?:requires|ensures)(?: \w+)? \{", clauses):
                said = clauses[match.end() : matching(clauses, match.end() - 1)].strip()
                clauses_of[said].append(where)
            names = frozenset(parameters(params))
            for other in list(groups):
                common = names & other
                if len(common) >= 3 and common not in groups:
                    groups[common] = []
            if len(names) >= 3:
                groups.setdefault(names, [])
    for path, text in found:
        if "trials" in str(path):
            continue
        for name, params, clauses, body, at in functions(text):
            names = frozenset(parameters(params))
            for group in groups:
                if group <= names:
                    groups[group].append(f"{path}:{line(text, at)} fn {name}")
    kept = {g: w for g, w in groups.items() if len(w) >= 3}
    widest = [g for g in kept if not any(g < h and len(kept[h]) == len(kept[g]) for h in kept)]
    return [(sorted(g), kept[g]) for g in sorted(widest, key=lambda g: (-len(kept[g]), sorted(g)))], [
        (c, w) for c, w in sorted(clauses_of.items(), key=lambda e: -len(e[1])) if len(w) >= 3
    ]


def main():
    found = list(sources())
    counts = collections.Counter()
    for kind in (shapes, loops, hands, buffers, switches):
        if ONLY and ONLY != kind.__name__:
            continue
        for path, text in found:
            for at, what in kind(path, text):
                print(f"{kind.__name__}: {path}:{at}: {what}")
                counts[kind.__name__] += 1
    if not ONLY or ONLY == "twins":
        for group in twins(found):
            print("twins: " + "; ".join(group))
            counts["twins"] += 1
    if not ONLY or ONLY == "bundles":
        together, said = bundles(found)
        for names, where in together:
            print(f"bundles: {', '.join(names)} in {len(where)} functions, as {where[0]}")
            counts["bundles"] += 1
        for clause, where in said:
            print(f"bundles: clause {clause} in {len(where)} functions, as {where[0]}")
            counts["clauses"] += 1
    print("; ".join(f"{kind} {n}" for kind, n in sorted(counts.items())))


main()
