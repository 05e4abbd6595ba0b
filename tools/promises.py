#!/usr/bin/env python3
"""Lists every public function that may refuse, with its refusals, their numbers, and the clauses that say something of them.

    tools/promises.py [--silent] [CRATE ..]

It reads the sources in crates/*/src, but for those of tests and of their rows. A clause says something of the Err side where it speaks of the whole `result`, and not
only of what stands in an Ok (IfOk, OnOk, or the Ok of an equation under it). With --silent only the functions are listed of
whose Err no clause says anything. How much a clause says it can't tell: that is for a reader.
"""
import os, re, sys

top = os.path.join(os.path.dirname(os.path.abspath(__file__)), "..", "crates")
words = [w for w in sys.argv[1:] if not w.startswith("--")]
START = re.compile(r"^(\s*)(pub(?:\([^)]*\))? )?(?:const |unsafe )*fn (\w+)")


def numbers_of(crate):
    """Of each type of refusals of a crate its variants with their numbers, those that a method `number` gives."""
    found = {}
    for name, text in sources(crate):
        for enum in re.finditer(r"pub enum (\w+)(?:<[^>]*>)? \{\n(.*?)\n\}", text, re.S):
            variants = re.findall(r"^    (\w+)", enum[2], re.M)
            numbering = re.search(r"pub fn number\(.*?\n    }", text, re.S)
            told = dict(re.findall(rf"\b{enum[1]}::(\w+)[^=\n]*=> (\d+),", numbering[0] if numbering else ""))
            found[enum[1]] = [(v, told.get(v)) for v in variants]
    return found


def sources(crate):
    folder = os.path.join(top, crate, "src")
    for name in sorted(os.listdir(folder)):
        if name.endswith(".rt") and name != "tests.rt":
            yield name, open(os.path.join(folder, name)).read()


def head_of(lines, k):
    """The lines of a function from `fn` to its body or its end: its signature, and its clauses, each with its name."""
    signature, clauses, depth = [], [], 0
    while k < len(lines):
        line = lines[k]
        clause = re.match(r"\s+(ensures|requires)\b ?(\w*) ?(\{.*)", line)
        if clause:
            clauses.append([clause[1], clause[2], clause[3]])
        elif clauses and line.strip() not in ("{", ""):
            if line.strip().startswith("//"):
                break
            clauses[-1][2] += " " + line.strip()
        elif clauses or line.strip() == "{":
            break
        else:
            signature.append(line.strip())
        whole = " ".join(c[2] for c in clauses[-1:])
        if clauses and whole.count("{") == whole.count("}") and whole.endswith(";"):
            break
        if not clauses and (line.rstrip().endswith("{") or line.rstrip().endswith(";")):
            break
        k += 1
    return " ".join(signature), clauses


def speaks_of_err(text):
    """Whether a clause speaks of `result` elsewhere than as what has an Ok."""
    return bool(re.search(r"\bresult\b", re.sub(r"\b(IfOk|OnOk) \(?result\b", "", text)))


def functions(crate):
    """Each public function of a crate whose type is a Result: its file, its type, its name, the refusals' type, its clauses."""
    for name, text in sources(crate):
        lines, owner, is_shared = text.split("\n"), "", False
        for k, line in enumerate(lines):
            block = re.match(r"(pub )?(impl|trait)(?:<[^>]*>)? (.*?)\s*\{?$", line)
            if block:
                owner, is_shared = block[3].split(" for ")[-1].split("<")[0].split(":")[0], block[2] == "trait" and bool(block[1])
                is_of_trait = block[2] == "impl" and " for " in line
            elif line == "}":
                owner, is_shared = "", False
            start = START.match(line)
            if not start or not (start[2] == "pub " or (is_shared and start[1])):
                continue
            signature, clauses = head_of(lines, k)
            result = re.search(r"-> (io::|fmt::)?Result<(.*)>", signature)
            if result:
                refusals = "io::Error" if result[1] else result[2].rsplit(", ", 1)[-1].strip("() ").split("<")[0]
                yield name, f"{owner}::{start[3]}" if owner else start[3], refusals, [c for c in clauses if c[0] == "ensures"]


def main():
    crates = words or [crate for crate in sorted(os.listdir(top)) if not crate.endswith(("_rows", "_tests"))]
    every = {}
    for crate in sorted(os.listdir(top)):
        every.update(numbers_of(crate))
    total, silent = 0, 0
    for crate in crates:
        rows = []
        for name, function, refusals, clauses in functions(crate):
            said = [c[1] or "(its one clause)" for c in clauses if speaks_of_err(c[2])]
            total += 1
            silent += not said
            if said and "--silent" in sys.argv:
                continue
            kinds = ", ".join(f"{v} {n}" if n else v for v, n in every.get(refusals, [])) or "-"
            rows.append(f"| `{function}` ({name}) | {refusals}: {kinds} | {', '.join(said) or '**none**'} |")
        if rows:
            print(f"## {crate}\n\n| Function | Refusals | Clauses of the Err side |\n|---|---|---|\n" + "\n".join(rows) + "\n")
    print(f"{total} public functions that may refuse; of {silent} no clause speaks of the Err side")


if __name__ == "__main__":
    if "--help" in sys.argv[1:]:
        sys.exit(print(__doc__.strip()))
    main()
