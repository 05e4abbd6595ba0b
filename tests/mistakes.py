#!/usr/bin/env python3
"""Shows what the built program tells of mistakes that are made where it is set up and called, and that no two causes are told alike.

    tests/mistakes.py PROGRAM [CHECK ..]

Each mistake is made by itself, in a copy of the settings of crates/uahist/data/plant.toml or in the words of a command. All that
is told on standard error has to be what stands here, and the exit status too. A mistake has a cause: where two mistakes are told
alike they have to be of one cause. Each line that this prints tells a mistake that is told so, or what was otherwise, and such as
are told alike; the exit status is 1 where something was otherwise.
"""
import itertools, os, shutil, socket, subprocess, sys, tempfile
import running, usage
from imported import answering
from opcua import u32

usage.shown(__doc__, 1)
here = os.path.dirname(os.path.abspath(__file__))
folder = tempfile.TemporaryDirectory()
os.chmod(folder.name, 0o755)
program = shutil.copy(os.path.abspath(sys.argv[1]), os.path.join(folder.name, "uahist"))
os.chmod(program, 0o755)
PORT = running.free_port()
PLANT = open(os.path.join(os.path.dirname(here), "crates", "uahist", "data", "plant.toml")).read().replace(':4840"', f':{PORT}"')
LISTEN = f'"127.0.0.1:{PORT}"'
USAGE = "usage: uahist answer [--settings FILE] [--hex] [--now N] | serve --settings FILE [--connections N] | dump --settings FILE | sync --settings FILE --peer ADDRESS [--check] [--verify] | history --settings FILE --node ID [--from T] [--to T] [--changes] [--csv] [--html] | import --settings FILE --user NAME [--perform insert|replace|update] [--server ADDRESS] [FILE.csv] | check --settings FILE [--store]"
NO_ADDRESS, HEADER = "not an address: want one as 127.0.0.1:4840", "node,time,value,status\n"
numbers = itertools.count(1)
held, told = [], []


def tell(is_so, what, seen=""):
    """Prints that something holds, or what was seen where it doesn't."""
    held.append(bool(is_so))
    print(what if is_so else f"OTHERWISE: {what}: {seen}", flush=True)


def run(words, given="", nobody=False):
    """What a command tells on standard error, and its status; where it is to be nobody's and this is root's, as nobody."""
    who = {"user": 65534, "group": 65534, "extra_groups": []} if nobody and os.geteuid() == 0 else {}
    try:
        done = subprocess.run([program, *words], input=given, cwd=folder.name, stdout=subprocess.PIPE, stderr=subprocess.PIPE, text=True, timeout=10, **who)
        return done.stderr, done.returncode
    except subprocess.TimeoutExpired:
        return "it goes on", None


def mistake(cause, what, words, lines, status, given="", nobody=False):
    """Makes a mistake, of which these lines have to be told."""
    want = "".join(f"uahist: {line}\n" for line in lines)
    said = run(words, given, nobody)
    tell(said == (want, status), f"{what}: {', '.join(lines)[:150]}", said)
    told.append((cause, what, said[0]))


def write(text, name=None, mode=0o644):
    """Settings in a file of their own."""
    name = name or f"{next(numbers)}.toml"
    path = os.path.join(folder.name, name)
    open(path, "wb").write(text if isinstance(text, bytes) else text.encode())
    os.chmod(path, mode)
    return name


def put(old, new, text=PLANT):
    """The settings with a text in the place of another, which stands there."""
    if old not in text:
        sys.exit(f"the settings have no {old!r}")
    return text.replace(old, new, 1)


def stored(path, text=PLANT):
    """The settings with a store."""
    return put("replica = 1\n", f"replica = 1\nstore = '{path}'\n", text)


def serve(name):
    return ["serve", "--settings", name, "--connections", "1"]


def of_settings(cause, what, text, lines, status=2, nobody=False, mode=0o644):
    """A mistake in the settings, which `serve` tells."""
    mistake(cause, what, serve(write(text, mode=mode)), lines, status, nobody=nobody)


class Server:
    """A server of some settings, while it is entered."""

    def __init__(self, text, port=PORT):
        self.name, self.port = write(text), port

    def __enter__(self):
        self.process = subprocess.Popen([program, "serve", "--settings", self.name], cwd=folder.name, stdin=subprocess.DEVNULL, stderr=subprocess.DEVNULL)
        if not running.listens(self.port, self.process):
            sys.exit("nobody listens")
        return self

    def __exit__(self, *met):
        self.process.kill()
        self.process.wait()


def words():
    """Words that are no command."""
    name, nothing = write(PLANT), "want a command, and after --perform insert, replace or update"
    lacking = "the following required arguments were not provided: "
    for cause, what, given, why in (
            ("they name no command", "no word", [], nothing),
            ("they name another command", "another command", ["show"], "unrecognized subcommand 'show'"),
            ("a word is no option", "another option", ["serve", "--settings", name, "--port", "4840"], "unexpected argument '--port' found"),
            ("a number isn't among those that are taken", "no connections", ["serve", "--settings", name, "--connections", "0"], "invalid value '0' for '--connections <N>': 0 is not in 1..=4294967295"),
            ("an option stands twice", "two files of settings", ["serve", "--settings", name, "--settings", name], "the argument '--settings <FILE>' cannot be used multiple times"),
            ("the settings are missing", "no settings", ["check"], lacking + "--settings <FILE>"),
            ("an option has no value", "an option without its value", ["check", "--settings"], "a value is required for '--settings <FILE>' but none was supplied"),
            ("the node is missing", "a history of no node", ["history", "--settings", name], lacking + "--node <ID>"),
            ("the user is missing", "an import by nobody", ["import", "--settings", name], lacking + "--user <NAME>"),
            ("a word too many", "an import from two files", ["import", "--settings", name, "--user", "ann", "a.csv", "b.csv"], "unexpected argument 'b.csv' found"),
            ("they name no command", "another way to import", ["import", "--settings", name, "--user", "ann", "--perform", "delete"], nothing)):
        mistake(cause, what, given, [USAGE, why], 2)
    for what, given in (("--help", ["--help"]), ("--version", ["--version"])):
        tell(run(given) == ("", 0), f"{what} is no mistake", run(given))


def files():
    """Settings that can't be read."""
    unread = "settings file can't be read"
    mistake("a file isn't there", "settings that aren't there", serve("none.toml"), [unread, "no such file"], 2)
    mistake("a file isn't there", "a dump by settings that aren't there", ["dump", "--settings", "none.toml"], [unread, "no such file"], 2)
    of_settings("a file isn't there", "a password file that isn't there", put('password = "boiler-7"', 'password_file = "none.password"'), [unread, "no such file"])
    os.makedirs(os.path.join(folder.name, "folder"), exist_ok=True)
    mistake("a file is a folder", "settings that are a folder", serve("folder"), [unread, "it is a folder"], 2)
    of_settings("a file may not be read", "settings that may not be read", PLANT, [unread, "not permitted"], nobody=True, mode=0)
    of_settings("a file isn't UTF-8", "settings in UTF-16", PLANT.encode("utf-16"), [unread, "it isn't UTF-8"])
    name = write(b"\xef\xbb\xbf" + PLANT.encode())
    tell(run(["check", "--settings", name]) == ("", 0), "a byte order mark before the settings is no mistake", run(["check", "--settings", name]))


def toml():
    """Settings that aren't TOML."""
    place = 1 + PLANT[:PLANT.index("listen = ")].count("\n")
    of_settings("it isn't TOML", "an address without quotes", put(LISTEN, LISTEN.strip('"')), ["settings refused (1)", f"line {place}", "it isn't TOML there"])
    of_settings("it isn't TOML", "a key twice", put("replica = 1\n", "replica = 1\nreplica = 1\n"), ["settings refused (1)", "line 7", "it isn't TOML there"])


def keys():
    """Keys that are missing, and such as there are none."""
    for place, text in (("[server] url", put(f'url = "opc.tcp://localhost:{PORT}"\n', "")), ("[[user]] 1, password", put('password = "boiler-7"\n', "")), ("[[variable]] 1, type", put('type = "Int32"\n', "")),
                        ("[[variable]] 2, id", put('id = "boiler.pressure"\n', "")), ("[door] listen", PLANT + "\n[door]\n"), ("[web] listen", PLANT + "\n[web]\n"), ("[[peer]] 1, every", PLANT + "\n[[peer]]\naddress = '192.0.2.2:4841'\n")):
        of_settings(f"{place} is missing", f"no {place}", text, ["settings refused (2)", place, "this key has to be there"])
    none = "there is no such key: want "
    for place, text, right in (("[archive] path", put("replica = 1\n", "replica = 1\npath = '/a'\n"), "id, replica, store, broken or index"),
                               ("[server] port", put("anonymous = false\n", "anonymous = false\nport = 1\n"), "listen, url, application, namespace, anonymous, anonymous_access, connections, waiting, strict, slow or logins"),
                               ("[[user]] 1, mail", put('name = "ann"\n', 'name = "ann"\nmail = "a@b"\n'), "name, password, password_file or access"), ("[[folder]] 1, folder", put('name = "Boiler"\n', 'name = "Boiler"\nfolder = "pump"\n'), "id or name"),
                               ("[[variable]] 2, unit", put('name = "Pressure"\n', 'name = "Pressure"\nunit = "bar"\n'), "id, name, type, array or folder"), ("[[peer]] 1, replica", PLANT + "\n[[peer]]\naddress = ''\nevery = 1\nreplica = 2\n", "address, every or check"),
                               ("[door] port", PLANT + "\n[door]\nlisten = ''\nport = 1\n", "listen, from, replicas or ahead"), ("[web] port", PLANT + "\n[web]\nlisten = ''\nport = 1\n", "listen or connections"), ("[log] file", PLANT + "\n[log]\nfile = ''\n", "events")):
        of_settings(f"{place} is no key", f"a key {place}", text, ["settings refused (4)", place, none + right])
    tables = "there is no such table: want [archive], [server], [[user]], [[folder]], [[variable]], [[peer]], [door], [web] or [log]"
    of_settings("variables is no table", "tables by the name variables", PLANT.replace("[[variable]]", "[[variables]]"), ["settings refused (4)", "variables", tables])


def values():
    """Keys that hold what they can't."""
    server = lambda more: put("anonymous = false\n", f"anonymous = false\n{more}\n")
    door = lambda more: f"{PLANT}\n[door]\nlisten = '127.0.0.1:1'\n{more}\n"
    text, truth, number = "want a text, or a table of this name", "want true or false", "want a whole number from 1 to 1000"
    access, replica = 'want "read" or "write"', "want a whole number from 1 to 64"
    name, password = "want a text, of a user one of 1 to 256 bytes that is neither another user's nor anonymous", "want a text, and no password_file beside it"
    cases = [("an id that is no UUID", "[archive] id", put('id = "3f2c8a10-5b7e-4d21-9c44-0a1b2c3d4e5f"', 'id = "plant-7"'), "want a UUID, as 3f2c8a10-5b1e-4c7d-9a60-2d8f4b6e7c90"),
             ("replica 65", "[archive] replica", put("replica = 1\n", "replica = 65\n"), replica), ("a replica in quotes", "[archive] replica", put("replica = 1\n", 'replica = "1"\n'), replica),
             ("another word behind broken", "[archive] broken", put("replica = 1\n", "replica = 1\nbroken = 'go on'\n"), 'want "stop" or "reopen", or no such key'),
             ("index in quotes", "[archive] index", put("replica = 1\n", "replica = 1\nindex = 'true'\n"), truth), ("an address that is a number", "[server] listen", put(LISTEN, str(PORT)), text), ("anonymous in quotes", "[server] anonymous", put("anonymous = false", 'anonymous = "no"'), truth),
             ("anonymous_access is none", "[server] anonymous_access", server("anonymous_access = 'none'"), access), ("strict is a number", "[server] strict", server("strict = 1"), truth),
             ("slow is 0", "[server] slow", server("slow = 0"), "want a whole number of milliseconds from 1 to 60000"), ("connections is 0", "[server] connections", server("connections = 0"), number),
             ("waiting is 0", "[server] waiting", server("waiting = 0"), "want a whole number of MiB from 1 to 65536"), ("logins is 0", "[server] logins", put("logins = 5", "logins = 0"), number),
             ("two users of one name", "[[user]] 1, name", put('name = "ben"', 'name = "ann"'), name), ("a user by the name anonymous", "[[user]] 1, name", put('name = "ann"', 'name = "anonymous"'), name), ("a user without a name", "[[user]] 2, name", put('name = "ben"', 'name = ""'), name),
             ("a password that is a number", "[[user]] 1, password", put('password = "boiler-7"', "password = 1234"), password), ("a password and its file", "[[user]] 1, password", put('password = "boiler-7"', 'password = "boiler-7"\npassword_file = "empty"'), password),
             ("a password file that is empty", "[[user]] 1, password_file", put('password = "boiler-7"', 'password_file = "empty"'), "want the path of a file whose first line isn't empty"),
             ("access is all", "[[user]] 1, access", put('name = "ann"', 'name = "ann"\naccess = "all"'), access), ("a variable without an id", "[[variable]] 1, id", put('id = "boiler.temperature"', 'id = ""'), "want a text that is no other id, of a variable one of 1 to 256 bytes"),
             ("a folder by its name", "[[variable]] 1, folder", put('folder = "boiler"', 'folder = "Boiler"'), "want the id of a [[folder]]"), ("array is 1", "[[variable]] 1, array", put('type = "Int32"', 'type = "Int32"\narray = 1'), truth),
             ("every is 0", "[[peer]] 1, every", PLANT + "\n[[peer]]\naddress = ''\nevery = 0\n", "want a whole number of seconds from 1 to 86400"), ("check in quotes", "[[peer]] 1, check", PLANT + "\n[[peer]]\naddress = ''\nevery = 1\ncheck = 'true'\n", truth), ("from is a text", "[door] from", door("from = '10.1.0.0/16'"), 'want an array of texts, as ["10.1.0.0/16"]'),
             ("replicas has 65", "[door] replicas", door("replicas = [2, 65]"), "want an array of whole numbers from 1 to 64"), ("ahead is 0", "[door] ahead", door("ahead = 0"), "want a whole number of seconds from 1 to 31536000"),
             ("the door is an array", "door", PLANT + "\n[[door]]\nlisten = ''\n", text), ("connections of browsers is 0", "[web] connections", PLANT + "\n[web]\nlisten = ''\nconnections = 0\n", number), ("events in quotes", "[log] events", PLANT + "\n[log]\nevents = 'true'\n", truth)]
    write("\n", "empty")
    for what, place, changed, why in cases:
        of_settings(f"{place} holds what it can't", what, changed, ["settings refused (3)", place, why])
    types = "want Boolean, SByte, Byte, Int16, UInt16, Int32, UInt32, Int64, UInt64, Float, Double, String, DateTime, Guid or ByteString"
    for kind in ("int32", "float32"):
        of_settings("a type that is none", f"the type {kind}", put('type = "Int32"', f'type = "{kind}"'), ["settings refused (5)", "[[variable]] 1, type", types])
    of_settings("an id twice", "two variables of one id", put('id = "boiler.pressure"', 'id = "boiler.temperature"'), ["settings refused (5)", "[[variable]] 2, id", "want a text that is no other id, of a variable one of 1 to 256 bytes"])
    more = "".join(f"\n[[variable]]\nid = 'v{n}'\nname = ''\ntype = 'Double'\n" for n in range(1000))
    of_settings("too many variables", "a thousand variables more", PLANT + more, ["settings refused (5)", f"{(PLANT + more).count('[[variable]]') + PLANT.count('[[folder]]')} folders and variables", "want at most 1000"])
    name = write(server("strict = true"), mode=0o644)
    mistake("others may read a password", "strict settings that all may read", serve(name), ["settings refused (3)", f"[server] strict, {name}", "want a file that its owner alone may write, and that not all may read if it has a password: chmod 640 it"], 2)
    name = write(put(f'"opc.tcp://localhost:{PORT}"', '"http://plant"'))
    tell(run(["check", "--settings", name]) == ("", 0), "a url of another scheme is warned of, and no mistake", run(["check", "--settings", name]))


def addresses():
    """Addresses that are none, another machine's, or in use."""
    name, peer = write(PLANT), "\n[[peer]]\naddress = 'plant:4841'\nevery = 60\n"
    for what, address in (("a name of a host", "localhost:4840"), ("an address without a port", "127.0.0.1"), ("a port above 65535", "127.0.0.1:80443")):
        of_settings("an address that is none", what, put(LISTEN, f'"{address}"'), ["address refused", NO_ADDRESS], 1)
    for what, address in (("a peer's name of a host", "localhost:4841"), ("a peer's URL", f"opc.tcp://127.0.0.1:{PORT}")):
        mistake("an address that is none", what, ["sync", "--settings", name, "--peer", address], ["address refused", NO_ADDRESS], 1)
    mistake("an address that is none", "a server's name of a host", ["import", "--settings", name, "--user", "ann", "--server", "localhost"], ["address refused", NO_ADDRESS], 1)
    of_settings("another machine's address", "an address of another machine", put(LISTEN, '"192.0.2.7:4840"'), ["address refused", "not an address of this machine"], 1)
    with socket.create_server(("127.0.0.1", PORT)):
        mistake("a port in use", "a port in use", serve(name), ["address refused", "port in use"], 1)
    if int(open("/proc/sys/net/ipv4/ip_unprivileged_port_start").read()) > 80:
        of_settings("a port of root's", "port 80, and not root", put(LISTEN, '"127.0.0.1:80"'), ["address refused", "not permitted: ports below 1024 are root's"], 1, nobody=True)
    else:
        print("port 80 wasn't tried: here it is anybody's")
    of_settings("a door's address that is none", "a door at a name of a host", PLANT + "\n[door]\nlisten = 'localhost:4841'\n", ["door's address refused", NO_ADDRESS], 1)
    of_settings("a door's port in use", "a door at the clients' address", PLANT + f"\n[door]\nlisten = {LISTEN}\n", ["door's address refused", "port in use"], 1)
    of_settings("a network that is none", "a network of 33 bits", PLANT + "\n[door]\nlisten = '127.0.0.1:4841'\nfrom = ['10.1.0.0/33']\n", ["door's network refused (1)", "not a network: want one as 10.1.0.0/16"], 1)
    of_settings("a peer's address that is none", "a peer by the name of a host", PLANT + peer, ["peer's address refused (1)", NO_ADDRESS], 1)
    of_settings("a page's address that is none", "a page at a name of a host", PLANT + "\n[web]\nlisten = 'localhost:8480'\n", ["page's address refused", NO_ADDRESS], 1)
    of_settings("a page's port in use", "a page at the clients' address", PLANT + f"\n[web]\nlisten = {LISTEN}\n", ["page's address refused", "port in use"], 1)
    port = running.free_port()
    for words_ in (["sync", "--settings", name, "--peer"], ["import", "--settings", name, "--user", "ann", "--server"]):
        mistake("nobody listens", f"{words_[0]}, and nobody listens there", [*words_, f"127.0.0.1:{port}"], ["address refused", "nobody listens there"], 1)
    mistake("no way to an address", "a peer at an address that is all machines'", ["sync", "--settings", name, "--peer", "255.255.255.255:4841"], ["address refused", "no way there"], 1)


def stores():
    """Stores that can't be opened, or are others'."""
    os.makedirs(os.path.join(folder.name, "shut"), exist_ok=True)
    os.chmod(os.path.join(folder.name, "shut"), 0o500)
    os.makedirs(os.path.join(folder.name, "folder"), exist_ok=True)
    write("hello\n", "text.db")
    of_settings("a store's folder isn't there", "a store in a folder that isn't there", stored("none/plant.db"), ["store refused (2)", "no such folder"], 3)
    of_settings("a store is a folder", "a store that is a folder", stored("folder"), ["store refused (2)", "it is a folder"], 3)
    of_settings("a store isn't permitted", "a store in a folder of another user", stored("shut/plant.db"), ["store refused (2)", "not permitted"], 3, nobody=True)
    of_settings("no store", "a store that is a text", stored("text.db"), ["store refused (2)", "no store of this program, or a damaged one, or its disk is full"], 3)
    one = write(stored("plant.db"))
    tell(run(["answer", "--settings", one]) == ("", 0), "a store is made", run(["answer", "--settings", one]))
    of_settings("another replica's store", "a store of another replica", put("replica = 1\n", "replica = 3\n", stored("plant.db")), ["store refused (3)", "it is of another replica than the settings'"], 3)
    of_settings("another archive's store", "a store of another archive", put("3f2c8a10", "3f2c8a11", stored("plant.db")), ["store refused (4)", "it is of another archive than the settings' id"], 3)
    with Server(stored("plant.db")):
        for command in (["dump"], ["check", "--store"], ["history", "--node", "ns=1;s=notes"], ["import", "--user", "ann"], ["sync", "--peer", f"127.0.0.1:{PORT}"]):
            mistake("a store in use", f"{command[0]}, while the store is served", [*command, "--settings", one], ["store refused (2)", "in use by another program"], 3)
    tell(run(["dump", "--settings", write(PLANT)]) == ("", 0), "a dump by settings without a store is no mistake", run(["dump", "--settings", write(PLANT)]))


def peers():
    """Peers that aren't of this archive, or have this machine's number."""
    port = running.free_port()
    call = lambda text: ["sync", "--settings", write(text), "--peer", f"127.0.0.1:{PORT}"]
    two = put("replica = 1\n", "replica = 2\n")
    with Server(PLANT):
        mistake("another archive", "a peer of another archive", call(put("3f2c8a10", "3f2c8a11", two)), ["exchange ended (2)", "the peer is of another archive: compare [archive] id"], 1)
        mistake("one number twice", "a peer of this replica's number", call(PLANT), ["exchange ended (5)", "the peer has this machine's number: compare [archive] replica"], 1)
    with Server(f"{PLANT}\n[door]\nlisten = '127.0.0.1:{port}'\n"):
        mistake("no peer's address", "the clients' address of a peer with a door", call(two), ["exchange ended (1)", "what came is no frame, or the peer hung up: is it the address of its door?"], 1)


def histories():
    """Options of a history that say nothing of their kind."""
    words_ = ["history", "--settings", write(PLANT), "--node"]
    mistake("a node that is none", "a node by its name", [*words_, "notes"], ["--node: want a node id, as ns=1;s=Temperature"], 2)
    mistake("a beginning that is no time", "from noon", [*words_, "ns=1;s=notes", "--from", "noon"], ["--from: want a time, as 2026-03-01T12:00:00Z"], 2)
    mistake("an end that is no time", "to noon", [*words_, "ns=1;s=notes", "--to", "noon"], ["--to: want a time, as 2026-03-01T12:00:00Z"], 2)


def imports():
    """Imports that are refused as a whole, and such of which a row is."""
    kept = stored("imported.db", put('name = "ben"', 'name = "ben"\naccess = "read"'))
    words_ = lambda user, text=kept: ["import", "--settings", write(text), "--user", user]
    for what, user in (("an import by nobody's name", "eva"), ("an import by who may only read", "ben"), ("an import by anonymous, who isn't let in", "anonymous")):
        mistake("no user who may write", what, words_(user), ["--user: want a user of the settings who may write"], 2, HEADER)
    mistake("rows can't be opened", "an import from a file that isn't there", [*words_("ann"), "none.csv"], ["rows refused: the file can't be opened", "no such file"], 2)
    mistake("rows are a folder", "an import from a folder", [*words_("ann"), "."], ["import ended: the rows can't be read"], 1)
    mistake("nowhere to write to", "an import without a store", words_("ann", PLANT), ["import refused: the settings name no store"], 2, HEADER)
    for what, rows in (("an import of nothing", ""), ("an import with semicolons", HEADER.replace(",", ";")), ("an import without a header", "ns=1;s=notes,@5,a,\n")):
        mistake("no header", what, words_("ann"), ["rows refused: want the header node,time,value,status"], 2, rows)
    mistake("a row is refused", "an import of a wrong row", words_("ann"), ["rows refused (1)"], 1, HEADER + "ns=1;s=notes,noon,a,\n")
    with Server(PLANT):
        other = put('password = "boiler-7"', 'password = "another"')
        mistake("another password", "an import by another password than the server's", [*words_("ann", other), "--server", f"127.0.0.1:{PORT}"], ["import ended: the server refused it (2149646336)", "80210000 Bad_IdentityTokenRejected: it doesn't know this user by this password"], 1, HEADER)
    for code, why in ((0x801F0000, "801F0000 Bad_UserAccessDenied: it doesn't let this user write"), (0x80200000, "80200000 Bad_IdentityTokenInvalid: it takes no such login"), (0x80560000, "80560000 Bad_TooManySessions: it has no room for one more session"),
                      (0x807D0000, "807D0000 Bad_TcpServerTooBusy: it has no room for one more connection"), (0x80030000, "the number is a status code of OPC UA")):
        busy = answering(b"ERRF\x10\0\0\0" + u32(code) + b"\xff\xff\xff\xff")
        mistake(f"a server refuses by {code:X}", f"an import into a server that answers {code:X}", [*words_("ann"), "--server", busy], [f"import ended: the server refused it ({code})", why], 1, HEADER)
    for cause, what, answer, lines in (("no server of clients", "an import into a page for browsers", b"HTTP/1.1 400 Bad Request\r\n\r\n", ["import ended: what came from the server is no answer", "that isn't the address of clients of a uahist, or of a server like it"]),
                                       ("a server hangs up", "an import into a server that hangs up", b"", ["import ended: the server closed the connection", "the rows that it answered stand; whether one more does isn't known"])):
        mistake(cause, what, [*words_("ann"), "--server", answering(answer)], lines, 1, HEADER)


checks = [words, files, toml, keys, values, addresses, stores, peers, histories, imports]
for check in checks:
    if not sys.argv[2:] or check.__name__ in sys.argv[2:]:
        try:
            check()
        except (Exception, SystemExit) as error:
            tell(False, f"{check.__name__} comes to its end", repr(error))
for text in sorted({said for _, _, said in told}):
    same = [(cause, what) for cause, what, said in told if said == text]
    if len({cause for cause, _ in same}) > 1:
        tell(False, f"no two causes are told by {text.splitlines()[0] if text else 'nothing'}", same)
    elif len(same) > 1:
        print(f"{len(same)} mistakes are told alike ({same[0][0]}): {'; '.join(what for _, what in same)}")
print(f"{held.count(True)} of {len(held)} things held of {len(told)} mistakes, of {len({cause for cause, _, _ in told})} causes, told by {len({said for _, _, said in told})} texts")
sys.exit(0 if all(held) else 1)
