#!/usr/bin/env python3
"""Tries the wrong bodies in crates/CRATE/wrong and crates/CRATE/must-fail: the prover has to refuse each.

    tools/wrong.py [--from FOLDER] [CRATE ..]

The gate tries the few in must-fail, each by a check of its own. Here those of one crate that change other functions are tried by
one check of these functions and of what they call: contracts stand for the bodies of what is called, so a wrong body is met by
its own function alone. It begins with the libraries that `rt ci` left in crates/*/out/rlib of this repository, or of FOLDER.
One that changes no function (a constant, a definition) is tried by a check of its whole crate. Of all crates where none is named.

A line is told for each: `refused`, and by what: `by its goal` where a promise can't be shown, `by its proof` where only the
written proof no longer fits; or `LET THROUGH`; or `NOT TRIED`, with the first line of what the checker said. The last line counts
them, and the status is 1 unless each was refused. Each takes some 40 seconds of a processor, all of them some five hours.
"""
import glob, os, re, shutil, subprocess, sys, tempfile, time

top = os.path.abspath(os.path.join(os.path.dirname(os.path.abspath(__file__)), ".."))
HEAD = re.compile(r"^(\s*)(?:pub(?:\([^)]*\))? )?(?:const )?(?:unsafe )?fn (\w+)")


class Edit:
    """A wrong body: which texts of which file it changes, and the functions that have them."""

    def __init__(self, path):
        self.name = os.path.basename(path).removesuffix(".edit")
        self.file, self.pairs = None, []
        for line in open(path):
            word, _, text = line.rstrip("\n").partition(": ")
            if word == "file":
                self.file = text
            elif word == "old":
                self.pairs.append([text, None])
            elif word == "new":
                self.pairs[-1][1] = text

    def applied(self, text):
        for old, new in self.pairs:
            if text.count(old) != 1:
                return None
            text = text.replace(old, new)
        return text

    def functions(self, text):
        """The paths of the functions that it changes; none where it changes something else."""
        if not self.file.startswith("src/"):
            return []
        found = [function_at(self.file, text, text.index(old)) for old, _ in self.pairs]
        return [] if None in found else sorted(set(found))


def plain(kind):
    """The word by which the checker names a type or a trait: without lifetimes, paths and signs, with its arguments behind it."""
    kind = re.sub(r"'\w+,? ?|&|mut |\bdyn ", "", kind)
    return "".join(part[:1].upper() + part[1:] for part in re.findall(r"\w+", re.sub(r"\w+::", "", kind)))


def function_at(file, text, place):
    """The path of the function whose text has this place."""
    lines = text[:place].count("\n")
    rows = text.split("\n")
    module = file.removeprefix("src/").removesuffix(".rt")
    path = [] if module in ("lib", "main") else module.removesuffix("/mod").split("/")
    for k in range(lines, -1, -1):
        if rows[k].startswith("}") and k < lines:
            return None
        head = HEAD.match(rows[k])
        if not head:
            continue
        if head[1]:
            for j in range(k, -1, -1):
                owner = re.match(r"impl(?:<.*?>)? (?:(.+?) for )?([^{]+?)(?: where .*)? ?\{?$", rows[j])
                if owner and owner[1]:
                    return "::".join(path + [plain(re.sub(r"<.*", "", owner[2])) + plain(owner[1]), head[2]])
                if owner:
                    return "::".join(path + [plain(re.sub(r"<.*", "", owner[2])), head[2]])
            return None
        return "::".join(path + [head[2]])
    return None


class Work:
    """A folder with a copy of one crate, beside the libraries of those below it; what a check found out serves the next one."""

    def __init__(self, crate, folder):
        self.crate, self.path = crate, tempfile.mkdtemp()
        os.makedirs(os.path.join(self.path, "tools"))
        shutil.copy(os.path.join(top, "tools", "check"), os.path.join(self.path, "tools"))
        shutil.copy(os.path.join(top, "crates.txt"), self.path)
        for place in glob.glob(os.path.join(top, "crates", "*")):
            own = os.path.join(self.path, "crates", os.path.basename(place))
            if os.path.basename(place) == crate:
                shutil.copytree(place, own, ignore=shutil.ignore_patterns("out"))
                continue
            os.makedirs(own)
            built = os.path.join(folder, "crates", os.path.basename(place), "out")
            for part in (built, *(os.path.join(place, name) for name in ("src", "specs", "proofs"))):
                if os.path.exists(part):
                    os.symlink(part, os.path.join(own, os.path.basename(part)))

    def checked(self, changes, functions):
        """What the checker says of the functions, or of the whole crate, with these texts in place of its own."""
        places = {os.path.join(self.path, "crates", self.crate, file): text for file, text in changes.items()}
        before = {place: open(place).read() for place in places}
        for place, text in places.items():
            open(place, "w").write(text)
        words = [os.path.join(self.path, "tools", "check"), self.crate]
        only = [word for function in functions for word in ("--only", function)]
        told = subprocess.run(words + only, capture_output=True, text=True)
        for place, text in before.items():
            open(place, "w").write(text)
        return told.stdout + told.stderr


def verdicts(crate, told):
    """Of each function that the checker speaks of, whether it is proved."""
    return {path: word for path, word in re.findall(rf"^fn {crate}::(\S+): (proved|not proved|no proof|could not tell)", told, re.M)}


def kind_of(told, function):
    """How a function was refused: by a goal that isn't met, or by a written proof that no longer fits."""
    place = function.replace("::", "/")
    own = [line for line in told.splitlines() if f"proofs/{place}/" in line and "error" in line]
    return "by its proof" if own else "by its goal"


def tried(work, batch, texts):
    """Tries some wrong bodies that change other functions each, and tells of those that the checker judged."""
    changes = {}
    for edit, functions in batch:
        now = edit.applied(changes.get(edit.file, texts[edit.file]))
        if now is None:
            return None
        changes[edit.file] = now
    asked = sorted({path for _, functions in batch for path in functions})
    told = work.checked(changes, asked)
    judged = verdicts(work.crate, told)
    ends = {}
    for edit, functions in batch:
        mine = [judged.get(path) for path in functions] or list(judged.values())
        if any(word in ("not proved", "no proof") for word in mine):
            refused = [path for path in functions if judged.get(path) != "proved"]
            ends[edit.name] = "refused " + (kind_of(told, refused[0]) if refused else "by the crate's check")
        elif mine and None not in mine and "could not tell" not in mine:
            ends[edit.name] = "LET THROUGH"
        else:
            said = [line for line in told.splitlines() if "error" in line or "no verdict" in line]
            ends[edit.name] = "NOT TRIED: " + (said[0][:200] if said else "the checker said nothing of its function")
    return ends


def batches(edits, texts):
    """The wrong bodies in as few batches as can be: in one each function is changed once."""
    rows = []
    for edit in edits:
        functions = edit.functions(texts[edit.file])
        for row in rows:
            taken = {path for _, others in row for path in others}
            if functions and not taken & set(functions) and all(others for _, others in row):
                row.append((edit, functions))
                break
        else:
            rows.append([(edit, functions)])
    return rows


def try_crate(crate, folder):
    """The end of each wrong body of a crate."""
    paths = sorted(glob.glob(os.path.join(top, "crates", crate, "wrong", "*.edit")) + glob.glob(os.path.join(top, "crates", crate, "must-fail", "*.edit")))
    edits, texts, ends = [], {}, {}
    for path in paths:
        edit = Edit(path)
        texts.setdefault(edit.file, open(os.path.join(top, "crates", crate, edit.file)).read())
        if edit.applied(texts[edit.file]) is None:
            ends[edit.name] = "NOT TRIED: its text doesn't stand there once"
        else:
            edits.append(edit)
    work = Work(crate, folder)
    for batch in batches(edits, texts):
        told = tried(work, batch, texts) or {}
        for edit, functions in batch:
            end = told.get(edit.name, "NOT TRIED")
            if end.startswith("NOT TRIED") and len(batch) > 1:
                end = (tried(work, [(edit, functions)], texts) or {}).get(edit.name, end)
            if end.startswith("NOT TRIED") and functions:
                end = (tried(work, [(edit, [])], texts) or {}).get(edit.name, end)
            ends[edit.name] = end
            print(f"{crate} {edit.name}: {end}", flush=True)
    shutil.rmtree(work.path, ignore_errors=True)
    return ends


def main():
    words, folder = sys.argv[1:], top
    if words[:1] == ["--from"]:
        folder, words = os.path.abspath(words[1]), words[2:]
    crates = words or sorted({place.split(os.sep)[-3] for place in glob.glob(os.path.join(top, "crates", "*", "wrong", "*.edit"))})
    began, ends = time.monotonic(), []
    for crate in crates:
        ends += try_crate(crate, folder).values()
    refused = sum(end.startswith("refused") for end in ends)
    print(f"{refused} of {len(ends)} refused, {sum(end == 'LET THROUGH' for end in ends)} let through, in {(time.monotonic() - began) / 60:.0f} minutes")
    sys.exit(0 if refused == len(ends) else 1)


if __name__ == "__main__":
    if "--help" in sys.argv[1:]:
        sys.exit(print(__doc__.strip()))
    main()
