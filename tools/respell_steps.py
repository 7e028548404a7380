#!/usr/bin/env python3
"""Spells the names of steps and goals in proof files as Rattle now makes them: a name of the source keeps its spelling.

usage: python3 tools/respell_steps.py [CRATE ..]      at the top, after the kit's port.py and tools/respell.py
"""
import os
import re
import sys

WORDS = """in_ok in_err in_default slice_bounds slice_known offset_bounds range_from range_to overflow_add overflow_sub overflow_mul overflow_shl overflow_shr
overflow_cast overflow_step overflow_neg nonzero_div nonzero_rem as_slice as_mut_slice type_inv invariant_of copy_from_slice push_reserved from_residual as_str is_none is_some from_output""".split()
TOKEN = re.compile(r"[A-Za-z_][\w'+-]*")
IDENT = re.compile(r"[A-Za-z_]\w*")
CLAUSE = re.compile(r"^\s*(?:requires|ensures) (\w+) \{", re.M)


def clauses():
    """The names of all clauses: a record of what a call requires has a field for each."""
    names = set()
    for folder, dirs, files in os.walk("crates"):
        dirs[:] = [d for d in dirs if d != "out"]
        for name in files:
            if name.endswith(".rt"):
                with open(os.path.join(folder, name), encoding="utf-8") as f:
                    names |= {n for n in CLAUSE.findall(f.read()) if "_" in n}
    return names


def known(crate):
    names = set(WORDS) | clauses()
    for folder, _, files in os.walk(os.path.join("crates", crate, "src")):
        for name in files:
            with open(os.path.join(folder, name), encoding="utf-8") as f:
                text = re.sub(r"//.*", "", f.read())
            names |= {n for n in IDENT.findall(text) if "_" in n.strip("_")}
    return {n.replace("_", "-"): n for n in names}


def joined(token, names):
    if "-" not in token:
        return token
    out = []
    for piece in token.split("+"):
        parts, done, i = piece.split("-"), [], 0
        while i < len(parts):
            for j in range(len(parts), i, -1):
                if "-".join(parts[i:j]) in names and j > i + 1:
                    done.append(names["-".join(parts[i:j])])
                    i = j
                    break
            else:
                done.append(parts[i])
                i += 1
        out.append("-".join(done))
    return "+".join(out)


def main():
    for crate in sys.argv[1:] or sorted(os.listdir("crates")):
        names = known(crate)
        for folder, _, files in os.walk(os.path.join("crates", crate, "proofs")):
            for name in files:
                path = os.path.join(folder, name)
                with open(path, encoding="utf-8") as f:
                    text = f.read()
                if not name.endswith(".antt") or not re.search(r"\.(Goals|Given)\b", text):
                    continue
                lines = []
                for line in text.split("\n"):
                    if not line.startswith("use Rattle.std"):
                        line = TOKEN.sub(lambda m: joined(m.group(), names), line)
                    lines.append(line)
                new = "\n".join(lines)
                if new != text:
                    with open(path, "w", encoding="utf-8") as f:
                        f.write(new)


main()
