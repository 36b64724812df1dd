#!/usr/bin/env python3
"""Spells the project's own definitions and lemmas in snake case, as `cellOf` to `cell_of` and `is-listed` to `is_listed`.

usage: tools/respell.py COMMIT      at the top of the repository, right after port.py ran on COMMIT

The names are those that COMMIT defines in specs/ and proofs/: definitions, lemmas, constructors and record fields. Types and modules
keep theirs, and so do functions of src/, their parameters, exported names and strings. What a proof file answers goes by the names
that Rattle makes, and is left. Prints two old names that would fall together, and an old name whose new one stood for something else.
"""

import re
import subprocess
import sys
from pathlib import Path

TOKEN = re.compile(r"""[^\s(){}\[\].;,@"«»|`:]+""")
DEFINED = re.compile(r"^( *)((?:abbrev |unfoldable |pub )*)(record |data )?([^\s:(){};,.|]+)(?:\s*[({][^:]*:[^)}]*[)}])*\s*:(?=\s)")
ENDS = (".antt", ".rt", ".edit", ".md")


def snake(name):
    return re.sub(r"(?<=[a-z0-9])([A-Z])", lambda m: "_" + m[1].lower(), name).replace("-", "_")


def defined(text, answers):
    """The names that a file of specs/ or proofs/ defines; of a function's own proof, those that answer no goal."""
    module = False
    for line in text.splitlines():
        if line and not line[0].isspace() and not line.startswith("--"):
            module = line.startswith("module ")
        m = DEFINED.match(line)
        if not m or m[3] or line.lstrip().startswith("--"):
            continue
        indent, name = len(m[1]), m[4]
        if answers and ("tie." in line or "statement" in line or indent):
            continue
        if indent and not (module and indent == 2) and not line.lstrip().startswith("pub ") and not re.search(r"[a-z][A-Z]", name):
            continue
        yield name


def own_names(commit):
    files = subprocess.run(["git", "ls-tree", "-r", "--name-only", commit, "crates"], capture_output=True, text=True, check=True).stdout.split()
    names = set()
    for f in files:
        if f.endswith(".antt"):
            text = subprocess.run(["git", "show", f"{commit}:{f}"], capture_output=True, text=True, check=True).stdout
            names.update(defined(text, f.endswith("/Proof.antt")))
    return names


def told_apart(commit, table):
    """Of old names that fall together the lemma, the one with a dash, gets `_lem`. port.py may have made them one already: they are told
    apart by their order in COMMIT's file."""
    together = {}
    for old, it in table.items():
        together.setdefault(it, []).append(old)
    twice = {it: olds for it, olds in together.items() if len(olds) > 1}
    for it, olds in twice.items():
        for old in olds:
            if "-" in old:
                table[old] = it + "_lem"
                print(f"told apart: {old} is {it}_lem")
    return twice


def apart_in(commit, path, text, twice, table):
    run = subprocess.run(["git", "show", f"{commit}:{path}"], capture_output=True, text=True)
    for it, olds in twice.items():
        was = [t for t in TOKEN.findall(run.stdout) if t in olds or t == it]
        now = [t for t in TOKEN.findall(text) if t in olds or t == it]
        if len(was) != len(now):
            print(f"left: {path}: {it}: {len(was)} before, {len(now)} now")
            continue
        order = iter(was)
        text = TOKEN.sub(lambda m: (lambda w: table.get(w, w))(next(order)) if m[0] in olds or m[0] == it else m[0], text)
    return text


def main(commit):
    table = {n: snake(n) for n in own_names(commit) if snake(n) != n and not n[0].isupper() and "◌" not in n and "_" not in n}
    table["M-NORM"] = "M_NORM"
    table |= {n: snake(n) for n in ("neqP", "neqM", "srcP", "srcM")}
    twice = told_apart(commit, table)
    new = {it: old for old, it in table.items()}
    files = [Path(f) for f in subprocess.run(["git", "ls-files", "-co", "--exclude-standard"], capture_output=True, text=True, check=True).stdout.split("\n") if f.endswith(ENDS)]
    files = [f for f in files if f.exists()]
    meant = {}
    for f in files:
        if f.suffix in (".antt", ".rt"):
            for t in TOKEN.findall(f.read_text()):
                if t in new:
                    meant.setdefault(t, set()).add(str(f))
    for it, where in sorted(meant.items()):
        print(f"stood already: {it}, of {new[it]}, in {sorted(where)[:4]} and {max(len(where) - 4, 0)} more")
    for f in files:
        text = f.read_text()
        turned = apart_in(commit, f, text, twice, table) if f.suffix in (".antt", ".rt") else text
        turned = TOKEN.sub(lambda m: table.get(m[0], m[0]), turned)
        if turned != text:
            f.write_text(turned)


if __name__ == "__main__":
    if len(sys.argv) != 2 or sys.argv[1] in ("-h", "--help"):
        print(__doc__)
        raise SystemExit(0 if len(sys.argv) == 2 else 2)
    main(sys.argv[1])
