"""Runs of the built program for the scripts beside it: each with what it ended by, its time and its greatest memory."""
import itertools, os, random, re, signal, socket, subprocess, tempfile, threading, time
from opcua import EPOCH

here = os.path.dirname(os.path.abspath(__file__))
NOW = EPOCH + 10 ** 12
PORTS = itertools.cycle(random.sample(range(10_000, 30_000), 20_000))

# The ways in which the program may end (docs/OPERATIONS.md): the exit status, and what it says on standard error.
STATED = [
    (0, r""),
    (0, r"connection ended \([1-4]\)\n"),  # of serve
    (2, r"usage: uahist answer [^\n]*\nuahist: [^\n]+\n"),
    (2, r"memory ran out before the command began\n"),
    (2, r"settings file can't be read\n(uahist: [^\n]{1,80}\n)?"),
    (2, r"settings refused \([1-6]\)\n(uahist: [^\n]{1,180}\n){0,2}"),
    (3, r"store refused \([1-4]\)\n(uahist: [^\n]{1,80}\n)?"),
    (3, r"store broken\nuahist: [^\n]{1,80}\n"),
    (2, r"bad hex\n"),
    (1, r"(door's |page's |)address refused\nuahist: [^\n]{1,80}\n"),
    (1, r"peer's address refused \(\d+\)\nuahist: [^\n]{1,80}\n"),
    (1, r"exchange ended \(\d+\)\nuahist: [^\n]{1,80}\n"),
    (1, r"a number was given to two records \(\d+\)\nuahist: [^\n]{1,80}\n"),
    (2, r"--(node|from|to): want a .*\n"),
    (1, r"history ended: a value of a type that has no text\n"),
    (2, r"--user: want a user of the settings who may write\n"),
    (2, r"import refused: the settings name no store\n"),
    (2, r"rows refused: want the header node,time,value,status\n"),
    (1, r"rows refused \(\d+\)\n"),
    (1, r"import ended: the rows can't be read\n"),
    (1, r"import ended: the server refused it \(\d+\)\nuahist: [^\n]{1,80}\n"),
    (1, r"import ended: the server closed the connection\nuahist: [^\n]{1,80}\n"),
    (1, r"import ended: what came from the server is no answer\nuahist: [^\n]{1,80}\n"),
    (1, r"import ended: (a request is too long|out of memory)\n"),
    (1, r"connection to the server ended \([1-4]\)\nuahist: [^\n]{1,80}\n"),
    (1, r"connection ended \([1-4]\)\n"),
]


class Run:
    """How a run ended."""

    def __init__(self, status, out, said, seconds, used):
        self.status, self.out, self.said, self.seconds = status, out, said, seconds
        self.processor, self.kilobytes = used.ru_utime + used.ru_stime, used.ru_maxrss

    def is_stated(self):
        said = self.said[8:] if self.said.startswith("uahist: ") else self.said
        return any(status == self.status and re.fullmatch(text, said) for status, text in STATED)


def weighed(words, given=b"", most=60):
    """Runs a program as `run` does, and tells its own greatest memory: GNU time starts it, whose memory is small."""
    with tempfile.NamedTemporaryFile() as told:
        done = run(["/usr/bin/time", "-f", "%M", "-q", "-o", told.name, *words], given, most)
        done.kilobytes = int(told.read().split()[-1])
        return done


def peak(pid):
    """The greatest memory so far of a program that runs, in kB."""
    return int(re.search(r"VmHWM:\s+(\d+)", open(f"/proc/{pid}/status").read())[1])


def run(words, given=b"", most=60, environment=None):
    """Runs a program on some input; one that goes on after so many seconds is stopped, and its status is -9.

    The memory that is told is at least that of this script, which started it.
    """
    with tempfile.TemporaryFile() as stdin, tempfile.TemporaryFile() as stdout, tempfile.TemporaryFile() as stderr:
        stdin.write(given)
        stdin.seek(0)
        begin = time.monotonic()
        process = subprocess.Popen(words, stdin=stdin, stdout=stdout, stderr=stderr, env=environment)
        return ended(process, stdout, stderr, begin, most)


def ended(process, stdout, stderr, begin, most):
    """Waits for a process, and tells how it ended."""
    timer = threading.Timer(most, os.kill, (process.pid, signal.SIGKILL))
    timer.start()
    _, code, used = os.wait4(process.pid, 0)
    timer.cancel()
    process.returncode = os.waitstatus_to_exitcode(code)
    stdout.seek(0)
    stderr.seek(0)
    return Run(process.returncode, stdout.read(), stderr.read().decode(errors="replace"), time.monotonic() - begin, used)


def free_port():
    """A port that nobody listens at: below those that callers are given, and none that was given out shortly before, so that a
    late call of one run meets no server of another."""
    while True:
        port = next(PORTS)
        with socket.socket() as probe:
            try:
                probe.bind(("127.0.0.1", port))
                return port
            except OSError:
                continue


def listed(name):
    """What the system tells of its sockets of this kind; nothing where it has none."""
    path = f"/proc/net/{name}"
    return open(path).read() if os.path.exists(path) else ""


def listens(port, process=None, most=10):
    """Waits until somebody listens at the port, and takes no connection of his; false where the process is over before."""
    until = time.monotonic() + most
    while not any(f":{port:04X} {'0' * digits}:0000 0A" in listed(name) for name, digits in (("tcp", 8), ("tcp6", 32))):
        if time.monotonic() > until or (process is not None and is_over(process)):
            return False
        time.sleep(0.001)
    return True


def is_over(process):
    """Whether a process has ended, which is left to be waited for."""
    return os.waitid(os.P_PID, process.pid, os.WEXITED | os.WNOHANG | os.WNOWAIT) is not None


def write_settings(path, source, replica=1, port=None, store=None):
    """The settings of a file beside this one, or of the plant, as those of a replica with a port and a store."""
    text = open(os.path.join(here, source)).read()
    kept = f"\nstore = '{store}'" if store else ""
    text = text.replace("replica = 1", f"replica = {replica}{kept}", 1)
    if port is not None:
        text = text.replace('listen = "127.0.0.1:4840"', f'listen = "127.0.0.1:{port}"')
    open(path, "w").write(text)
    return path


def built(source, name, folder):
    """A library of the C file beside this one."""
    path = os.path.join(folder, name)
    subprocess.run(["gcc", "-O1", "-shared", "-fPIC", "-o", path, os.path.join(here, source), "-ldl"], check=True)
    return path


def forget(store):
    """Removes a store's files."""
    for end in ("", "-wal", "-shm"):
        if os.path.exists(store + end):
            os.remove(store + end)
