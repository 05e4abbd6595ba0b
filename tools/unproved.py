#!/usr/bin/env python3
"""Makes the program of these sources in some seven minutes of a processor, unproved.

    tools/unproved.py FOLDER [--light]

It is FOLDER/uahist, for the scripts of tests and bench: of the module that `rt try` makes. As it is, it tests on its way what unsafe code
asks, fills what isn't written yet, and takes two to three times the instructions of the proved program. With --light these tests
are taken out, and the functions that the sources mark are compiled into their callers: then `bench/run` tells some 2 to 8 in a hundred
more instructions than of the proved one, so that a change can be measured before it is proved. Needs gcc.
"""
import os, pathlib, re, shutil, signal, subprocess, sys, tempfile, time

top = os.path.dirname(os.path.dirname(os.path.abspath(__file__)))
TESTS = re.compile(r'call void @"rattle-llvm-checks::|call void @llvm\.memset\.p0\.i64\(ptr %r\d+, i8 -86,|call void @llvm\.trap\(\)')
MARK = re.compile(r"#\[inline\((always|never)\)\]\n(?:\s*#\[[^\n]*\]\n)*\s*(?:pub(?:\([a-z]+\))? )?fn (\w+)")
WORDS = {"always": "alwaysinline", "never": "noinline"}


def module(crate, folder, flags):
    """The module that `rt try` makes of a program or of tests, kept before it goes on to check it."""
    work = os.path.join(folder, "try")
    os.makedirs(work)
    said = open(os.path.join(folder, "said"), "wb")
    environment = {**os.environ, "TMPDIR": work}
    trying = subprocess.Popen(["rt", "try", *flags], cwd=crate, env=environment, stdin=subprocess.DEVNULL, stdout=said, stderr=said)
    try:
        while trying.poll() is None:
            for place, _, files in os.walk(work):
                path = os.path.join(place, "module.bc")
                # The first module only tries the checks. The compiler has begun once it opened the object: then the module is whole.
                if "module.bc" in files and len(files) > 1 and os.path.getsize(path) > 100_000:
                    return shutil.copy(path, folder)
            time.sleep(0.05)
        sys.exit(open(said.name).read())
    finally:
        trying.send_signal(signal.SIGTERM)
        trying.wait()


def kit():
    """The folder of the toolchain."""
    return os.path.dirname(subprocess.run(["rt", "doc"], stdout=subprocess.PIPE, text=True, check=True).stdout.strip())


def clang(folder, words):
    command = [os.path.join(kit(), "toolchain", "bin", "clang"), "--target=x86_64-unknown-linux-gnu", "-Wno-override-module", "-x", "ir"]
    subprocess.run([*command, *words], cwd=folder, check=True)


def linked(folder, code, level):
    """The program of a module, or of its text, as FOLDER/program."""
    clang(folder, [code, level, "-fPIE", "-fno-vectorize", "-fno-slp-vectorize", "-c", "-o", "program.o"])
    libraries = [os.path.join(kit(), "c", name) for name in ("libos_c.a", "liblibc_c.a")]
    subprocess.run(["gcc", "-o", "program", "program.o", *libraries, "-lm"], cwd=folder, check=True)
    return os.path.join(folder, "program")


def marks(crates):
    """What the sources say of functions: (crate, module, name) to a word of LLVM."""
    found = {}
    for path in pathlib.Path(crates).glob("*/src/**/*.rt"):
        crate = path.relative_to(crates).parts[0]
        place = "::".join(path.relative_to(os.path.join(crates, crate, "src")).with_suffix("").parts)
        for mark in MARK.finditer(path.read_text()):
            found[crate, place, mark[2]] = WORDS[mark[1]]
    return found


def lightened(folder, crates):
    """The text of FOLDER/module.bc without the tests, and with the marks of these crates."""
    clang(folder, ["module.bc", "-O1", "-Xclang", "-disable-llvm-passes", "-S", "-emit-llvm", "-o", "module.ll"])
    marked = marks(crates)
    with open(os.path.join(folder, "module.ll")) as text, open(os.path.join(folder, "light.ll"), "w") as out:
        for line in text:
            if TESTS.search(line):
                continue
            name = re.search(r'@"([^"]+)"\(', line) if line.startswith("define ") else None
            parts = re.sub(r"::<#\w+>", "", name[1]).split("::") if name else []
            # a function of a module, or of a type in it
            places = [("::".join(parts[1:end]), parts[-1]) for end in (-1, -2)] if len(parts) > 2 else []
            word = next((marked[parts[0], *place] for place in places if (parts[0], *place) in marked), None)
            out.write(line.replace(") #0 {", f") {word} #0 {{").replace(" sanitize_address", "") if word else line.replace(" sanitize_address", ""))
    return "light.ll"


def main():
    words = [w for w in sys.argv[1:] if w != "--light"]
    if len(words) != 1:
        sys.exit(__doc__)
    os.makedirs(words[0], exist_ok=True)
    with tempfile.TemporaryDirectory() as folder:
        module(os.path.join(top, "crates", "uahist"), folder, ["--steps", "1", "--", "answer"])
        light = "--light" in sys.argv
        made = linked(folder, lightened(folder, os.path.join(top, "crates")), "-O3") if light else linked(folder, "module.bc", "-O2")
        shutil.copy(made, os.path.join(words[0], "uahist"))


if __name__ == "__main__":
    if "--help" in sys.argv[1:]:
        sys.exit(print(__doc__.strip()))
    main()
