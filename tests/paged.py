#!/usr/bin/env python3
"""Opens the pages that `uahist history --html` prints in a browser, and compares what it shows with the CSV of the same history.

    tests/paged.py PROGRAM [ROUNDS [PICTURES]]

Each round (5, unless told) makes a store of random values, as `tests/printed.py` does, among them texts with tags, quotes and
letters that control a terminal, users with such names too, and a text of 64 KB. Of each variable a page of values and one of
modifications is opened in Chromium, without a window: each row of its table has to have the fields of the CSV's row, the title and
the heading have to be the node, no script may have run and nothing may be loaded. The path of its drawing and the texts at its edges
have to be those that a model of them here makes of the CSV, and its marks stand where the CSV of the modifications has a time more
than once; so it is of 20,000 numbers, some of which aren't good, and some corrected. Where PICTURES
is a folder, a picture of one page of each kind is left there. Exit status 1 where one differs, or where there is no Chromium.
"""
import collections, csv, datetime, html.parser, io, math, os, random, shutil, subprocess, sys, tempfile
import printed, running, usage
from printed import moment, NOW

BROWSER = next(filter(None, map(shutil.which, ("chromium", "chromium-browser", "google-chrome"))), None)
TEXTS = ["<b>bold</b>", "a\rb", "</td><script>document.title='ran'</script>", "a & b &amp; c &lt;", "\"q\" 'a'", "<!-- ", "]]>", "&#60;", "caf\u00e9",
         "tab\tend\nline", "\x1b[2Jgone", "\u0085next", "<" * 65_536]
USERS = ["ann", "<i>ben</i> & \"b\""]


def settings_in(folder):
    text = printed.SETTINGS.replace("ben, \"b\"", USERS[1]).format(store=os.path.join(folder, "one.db"))
    path = os.path.join(folder, "settings.toml")
    open(path, "w").write(text)
    return path


class Page(html.parser.HTMLParser):
    """What a browser made of a page: its title, its heading, its rows, its drawing's paths and edges, and the tags that it has."""

    def __init__(self, text):
        super().__init__(convert_charrefs=True)
        self.title, self.heading, self.rows, self.tags, self.within = "", "", [], set(), []
        self.paths, self.marks, self.edges = [], [], []
        self.feed(text)
        self.close()

    def handle_starttag(self, tag, attributes):
        self.tags.add(tag)
        if tag == "tr":
            self.rows.append([])
        if tag in ("td", "th"):
            self.rows[-1].append("")
        if tag == "path":
            (self.marks if dict(attributes).get("class") == "old" else self.paths).append(dict(attributes)["d"])
        if tag == "span":
            self.edges.append("")
        if tag not in ("meta", "link", "br"):
            self.within.append(tag)

    def handle_endtag(self, tag):
        while self.within and self.within.pop() != tag:
            pass

    def handle_data(self, data):
        inside = self.within[-1] if self.within else ""
        if inside == "title" and "svg" not in self.within:
            self.title += data
        if inside == "h1":
            self.heading += data
        if inside in ("td", "th"):
            self.rows[-1][-1] += data
        if inside == "span":
            self.edges[-1] += data


def browse(path, *flags):
    """What Chromium prints of a file."""
    words = [BROWSER, "--headless", "--no-sandbox", "--disable-gpu", "--no-first-run", f"--user-data-dir={os.path.dirname(path)}/profile", *flags, f"file://{path}"]
    return subprocess.run(words, stdout=subprocess.PIPE, stderr=subprocess.DEVNULL, timeout=120).stdout.decode()


def shown(text):
    """A text as a page shows it: without letters that HTML has no place for."""
    return "".join("?" if ord(c) < 32 and c not in "\t\n" or ord(c) == 127 else "\u00bf" if 128 <= ord(c) < 160 else c for c in text)


def ticks(text):
    """The moment that a page's time says, in steps of 100 ns; its picoseconds are left out."""
    at = datetime.datetime.strptime(text[:19], "%Y-%m-%dT%H:%M:%S") - datetime.datetime(1601, 1, 1)
    return (at.days * 86_400 + at.seconds) * 10_000_000 + int(text[20:27])


def number(value, status):
    """The number that a row's value is, if it is drawn."""
    if status != "Good" and int(status, 16) >= 0x40000000:
        return None
    try:
        number = {"true": 1.0, "false": 0.0}.get(value)
        number = float(value) if number is None else number
    except ValueError:
        return None
    return number if math.isfinite(number) else None


def place_of(time, first, whole):
    """The column of a time."""
    return 0 if time <= first else 999 if time - first >= whole else (time - first) * 999 // whole


def marking(rows, corrected):
    """The marks that a page of these rows has, of which those at these times were corrected."""
    moments = [(ticks(time), time[27:-1].ljust(4, "0"), time) for _, time, value, status in rows]
    known = [at for at, (_, _, value, status) in zip(moments, rows) if number(value, status) is not None]
    if not known:
        return []
    first, whole = known[0][0], known[-1][0] - known[0][0]
    places = {place_of(at[0], first, whole) for at in moments if at[2] in corrected and known[0][:2] <= at[:2] <= known[-1][:2]}
    return ["".join(f"M{place} 1000V950" for place in sorted(places))] if places else []


def drawing(rows):
    """The paths and the edges that a page of these rows has."""
    seen = [(ticks(time), number(value, status), time, value) for _, time, value, status in rows]
    known = [row for row in seen if row[1] is not None]
    if not known:
        return [], []
    low, high = min(known, key=lambda row: row[1]), max(known, key=lambda row: row[1])
    first, whole = known[0][0], known[-1][0] - known[0][0]
    half = high[1] * 0.5 - low[1] * 0.5

    def depth(value):
        return min(int((high[1] * 0.5 - value * 0.5) / half * 1000.0 + 0.5), 1000) if half > 0 else 500

    columns = {}
    for time, value, _, _ in seen:
        place = place_of(time, first, whole)
        columns.setdefault(place, []).append(None if value is None else depth(value))
    path, pen = "", None
    for place in sorted(columns):
        steps = [step for step in columns[place] if step is not None]
        if pen is not None:
            path += f"H{place}"
        if steps:
            opens = columns[place][0] is None
            path += f"M{place} {steps[0]}H{place}" if pen is None or opens else f"V{steps[0]}" if pen != steps[0] else ""
            for before, step in zip((steps[0], max(steps), min(steps)), (max(steps), min(steps), steps[-1])):
                path += f"V{step}" if before != step else ""
        pen = None if columns[place][-1] is None else steps[-1]
    return [path], [high[3], low[3], known[0][2], known[-1][2]]


def rows_of(text):
    return list(csv.reader(io.StringIO(text, newline=""), strict=True))


def wrong(program, settings, folder, name, changes):
    """What differs between a page and the CSV, if something does."""
    words = [program, "history", "--settings", settings, "--node", f"ns=1;s={name}", *(["--changes"] if changes else [])]
    plain, made = running.run([*words, "--csv"]), running.run([*words, "--html"])
    if (plain.status, made.status, made.said) != (0, 0, ""):
        return f"{words}: status {made.status} {made.said}"
    path = os.path.join(folder, "page.html")
    open(path, "wb").write(made.out)
    page = Page(browse(path, "--dump-dom"))
    rows = [[shown(field) for field in row[1:]] for row in rows_of(plain.out.decode())]
    node = shown(f"ns=1;s={name}")
    drawn = ([], []) if changes or name.startswith("text") else drawing(rows_of(plain.out.decode())[1:])
    if (page.paths, page.edges) != drawn:
        return f"{words}: drawn {page.paths} {page.edges}, not {drawn}"
    times = [] if changes else [row[1] for row in rows_of(running.run([*words, "--changes", "--csv"]).out.decode())[1:]]
    marked = marking(rows_of(plain.out.decode())[1:], {time for time, count in collections.Counter(times).items() if count > 1}) if drawn[0] else []
    if page.marks != marked:
        return f"{words}: marked {page.marks}, not {marked}"
    if page.rows != rows:
        return f"{words}: {page.rows}, not {rows}"
    if (page.title, page.heading) != (node, node):
        return f"{words}: title {page.title!r}, heading {page.heading!r}"
    return f"{words}: tags {page.tags}" if page.tags & {"script", "b", "i", "img", "iframe"} else None


def picture(program, settings, folder, name, changes, place):
    words = [program, "history", "--settings", settings, "--node", f"ns=1;s={name}", "--html", *(["--changes"] if changes else [])]
    path = os.path.join(folder, "picture.html")
    open(path, "wb").write(running.run(words).out)
    browse(path, "--hide-scrollbars", "--window-size=900,700", f"--screenshot={place}")


def many(program, folder, chance, count=20_000):
    """What differs where so many numbers are drawn, some of which aren't good."""
    settings, at, lines = settings_in(folder), NOW - 864_000_000_000, ["node,time,value,status"]
    for place in range(count):
        at += chance.choice([1, 10_000, 10_000_000])
        status = chance.choice(["Good"] * 50 + ["80000000", "40000000", "00A20000"])
        lines.append(f"ns=1;s=number,{moment(at)},{chance.gauss(0, 1) + math.sin(place / 2_000) * 10},{status}")
    running.run([program, "import", "--settings", settings, "--user", "ann"], ("\n".join(lines) + "\n").encode())
    corrected = [lines[0], *lines[7::997]]
    running.run([program, "import", "--settings", settings, "--user", "ann", "--perform", "replace"], ("\n".join(corrected) + "\n").encode())
    return wrong(program, settings, folder, "number", False)


def main():
    usage.shown(__doc__, 1)
    program = os.path.abspath(sys.argv[1])
    rounds = int(sys.argv[2]) if len(sys.argv) > 2 else 5
    if BROWSER is None:
        sys.exit("there is no Chromium: apt install chromium")
    chance, faults, asked = random.Random(5), [], 0
    printed.TEXTS[:], printed.USERS[:] = TEXTS, USERS
    with tempfile.TemporaryDirectory() as folder:
        settings = settings_in(folder)
        for _ in range(rounds):
            models = {name: printed.Model() for name in printed.VARIABLES}
            printed.play(program, settings, models, chance)
            for name in models:
                for changes in (False, True):
                    asked += 1
                    faults += filter(None, [wrong(program, settings, folder, name, changes)])
                    if len(sys.argv) > 3:
                        place = os.path.join(os.path.abspath(sys.argv[3]), f"{name.split(',')[0]}-{'changes' if changes else 'values'}.png")
                        picture(program, settings, folder, name, changes, place)
            running.forget(os.path.join(folder, "one.db"))
        asked += 1
        faults += filter(None, [many(program, folder, chance)])
    for fault in faults[:5]:
        print(fault[:2000])
    print(f"{asked} pages in {os.path.basename(BROWSER)}, {len(faults)} differ")
    sys.exit(1 if faults else 0)


if __name__ == "__main__":
    main()
