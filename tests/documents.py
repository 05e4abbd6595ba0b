#!/usr/bin/env python3
"""Runs the commands of the pages, and compares what they print with what the page says.

    tests/documents.py PROGRAM [PAGE ..]

PROGRAM is the built uahist. In README.md, docs/TOUR.md and docs/OPERATIONS.md (or the pages that are named) a block that begins
with ```console has commands behind a `$`, each with what it prints below it. The blocks of a page run one after the other in a
folder of its own, with plant.toml and stdin of crates/uahist, and `uahist` and the scripts of tests to be called by name. A
command that serves without an end is stopped. What README shows of tools/quick has to be what that prints with this program, but
for the lines of the build. Links between pages have to lead to a file. Exit status 1 where one differs.
"""
import glob, importlib.machinery, importlib.util, os, re, shutil, signal, subprocess, sys, tempfile
import usage

here = os.path.dirname(os.path.abspath(__file__))
top = os.path.dirname(here)
PAGES = ["README.md", "docs/TOUR.md", "docs/OPERATIONS.md"]
ENDLESS = re.compile(r"uahist serve (?!.*--connections)")


def commands(page):
    """The commands of a page, each with what it has to print; of a block that sets up, none."""
    for kind, block in re.findall(r"^```(console|sh)\n(.*?)^```", open(page).read(), re.M | re.S):
        if kind == "sh":
            yield block, None
            continue
        for part in re.split(r"^\$ ", block, flags=re.M)[1:]:
            command, _, wanted = part.partition("\n")
            yield command, wanted


def set_up(block, folder, path):
    """Where a block that sets up ends, and the PATH then."""
    told = subprocess.run(["bash", "-ec", block + "\npwd; echo $PATH"], cwd=folder, env={**os.environ, "PATH": path}, stdout=subprocess.PIPE, text=True, check=True)
    return told.stdout.splitlines()[-2:]


def run(command, folder, path):
    """What a command prints; one without an end is stopped after two seconds."""
    process = subprocess.Popen(["bash", "-c", command], cwd=folder, env={**os.environ, "PATH": path}, stdin=subprocess.DEVNULL,
                               stdout=subprocess.PIPE, stderr=subprocess.STDOUT, text=True, start_new_session=True)
    try:
        return process.communicate(timeout=2 if ENDLESS.search(command) else 60)[0]
    except subprocess.TimeoutExpired:
        os.killpg(process.pid, signal.SIGKILL)
        return process.communicate()[0]


def wrong_commands(program, page):
    """How many commands of a page print something else, and how many there are."""
    wrong = count = 0
    with tempfile.TemporaryDirectory() as folder:
        os.mkdir(os.path.join(folder, "out"))
        os.symlink(program, os.path.join(folder, "out", "uahist"))
        for name in ("tests", "crates"):
            os.symlink(os.path.join(top, name), os.path.join(folder, name))
        path = os.environ["PATH"]
        for command, wanted in commands(os.path.join(top, page)):
            count += 1
            if wanted is None:
                folder, path = set_up(command, folder, path)
                continue
            printed = run(command, folder, path)
            if printed != wanted:
                wrong += 1
                print(f"{page}: $ {command}\n  wanted {wanted!r}\n  printed {printed!r}")
    return wrong, count


def played(program):
    """What tools/quick prints with the program, behind the build."""
    loader = importlib.machinery.SourceFileLoader("quick", os.path.join(top, "tools", "quick"))
    quick = importlib.util.module_from_spec(importlib.util.spec_from_loader("quick", loader))
    loader.exec_module(quick)
    with tempfile.TemporaryDirectory() as folder:
        return list(quick.play(program, quick.stored_settings(folder)))


def unshown_lines(program):
    """The lines of README's block of tools/quick that it doesn't print, in this order."""
    block = re.search(r"tools/quick\n.*?^```\n(.*?)^```", open(os.path.join(top, "README.md")).read(), re.M | re.S)[1]
    printed = iter(played(program))
    for line in block.splitlines():
        if line != ".." and not line.startswith(("Building", "out/uahist is built")) and line not in printed:
            yield line


def dead_links():
    """The links of the pages that lead to no file."""
    for page in glob.glob(os.path.join(top, "*.md")) + glob.glob(os.path.join(top, "*", "README.md")) + glob.glob(os.path.join(top, "docs", "*.md")):
        for link in re.findall(r"\]\(([^)#]+)(?:#[^)]*)?\)", re.sub(r"```.*?```|`[^`\n]*`", "", open(page).read(), flags=re.S)):
            if "://" not in link and not os.path.exists(os.path.join(os.path.dirname(page), link)):
                yield f"{os.path.relpath(page, top)}: {link}"


def main():
    usage.shown(__doc__, 1)
    program, wrong, count = os.path.abspath(sys.argv[1]), 0, 0
    for page in sys.argv[2:] or PAGES:
        differ, all_ = wrong_commands(program, page)
        wrong, count = wrong + differ, count + all_
    unshown = list(unshown_lines(program))
    for line in unshown:
        print(f"README shows of tools/quick: {line}")
    dead = list(dead_links())
    for link in dead:
        print(f"leads nowhere: {link}")
    print(f"{count} commands, {wrong} print something else; {len(unshown)} lines of tools/quick differ; {len(dead)} links lead nowhere")
    sys.exit(1 if wrong or unshown or dead else 0)


main()
