"""What runners share: the table and the segments of the examples, the commands of a script, files, shims, and the count of
what passed."""
import concurrent.futures
import hashlib
import importlib.machinery
import importlib.util
import os
import pathlib
import re
import subprocess
import sys

TESTS = pathlib.Path(__file__).resolve().parent
TABLE = b"table sales\nday integer\nshop text\namount integer\n"
HEADER = b"day,shop,amount\n"
EAST = HEADER + b"1,a,10\n2,a,20\n2,b,5\n4,a,\n"
OTHER = EAST[:-1] + b"1\n"
WEST = HEADER + b"3,c,1\n"
COUNT = "SELECT count(*) FROM sales"


# ---- commands and replies


def declaration(table=TABLE):
    return b"T %d\n%s\n" % (len(table), table)


def segment(origin, number, content, node=1):
    return b"S %d %s %d %d\n%s\n" % (node, origin, number, len(content), content)


def query(text, node=1):
    text = text.encode() if isinstance(text, str) else text
    return b"Q %d %d\n%s\n" % (node, len(text), text)


def piece(content, node=1):
    return b"F %d %d\n%s\n" % (node, len(content), content)


def message(origin, number, content):
    return b"S %s %d %d\n%s\n" % (origin, number, len(content), content)


def answer(text):
    text = text.encode() if isinstance(text, str) else text
    return b"answer %d\n%s" % (len(text), text)


def first_reply(written):
    """The reply that begins there: an answer with its bytes, a list with its lines, and else a line."""
    line, _, rest = written.partition(b"\n")
    words = line.split()
    size = len(line) + 1
    if words[:1] == [b"answer"]:
        size += int(words[1])
    elif words[:1] == [b"list"]:
        size += sum(len(told) + 1 for told in rest.split(b"\n", int(words[1]))[: int(words[1])])
    return written[:size]


FIRST_SCRIPT = [
    (declaration(), b"ok\n"),
    (segment(b"east", 1, EAST), b"taken\n"),
    (b"L 1\n", b"list 1\neast 1 live 4\n"),
    (query(COUNT), answer("count\n4\n")),
    (b"R 1 east 1\n", b"retired\n"),
    (query(COUNT), answer("count\n0\n")),
]


# ---- files


def sealed(text):
    """A file of version 2: its text up to the line of the end, and the digest of that."""
    return text + b"H %s\n" % hashlib.sha256(text).hexdigest().encode()


def file_of(*records, table=TABLE):
    return sealed(b"WSX2\nT %d\n%s\n%sE %d\n" % (len(table), table, b"".join(records), len(records)))


# ---- runners


class Tally:
    """Counts what passed, and tells what did not."""

    def __init__(self):
        self.passed = self.failed = 0

    def wanted(self, name, got, want):
        if got == want:
            self.passed += 1
        else:
            self.failed += 1
            print(f"{name}: got {shown(got)}, wanted {shown(want)}", flush=True)

    def report(self, name, wrong):
        """Counts a case, of which it is told what is wrong, or None."""
        if wrong is None:
            self.passed += 1
        else:
            self.failed += 1
            print(f"{name}: {wrong}", flush=True)

    def end(self):
        print(f"{self.passed} passed, {self.failed} failed")
        sys.exit(1 if self.failed or not self.passed else 0)


def shown(it):
    text = repr(it)
    return text if len(text) <= 300 else text[:300] + ".."


def runner(name):
    """Another runner of this folder, as a module."""
    loader = importlib.machinery.SourceFileLoader(name, str(TESTS / name))
    module = importlib.util.module_from_spec(importlib.util.spec_from_loader(name, loader))
    loader.exec_module(module)
    return module


def answers_of(replies):
    """Each answer's text, and the line where a query is not answered."""
    while replies:
        line, _, replies = replies.partition(b"\n")
        word, _, length = line.partition(b" ")
        if word == b"answer":
            yield replies[: int(length)].decode()
            replies = replies[int(length) :]
        else:
            yield line.decode()


def written(program, script, seconds=60):
    """What the program writes for a script, and its status."""
    run = subprocess.run([program], input=script, capture_output=True, timeout=seconds)
    return run.stdout, run.returncode


def faults_of(status, out, err):
    """What a run wrote to standard error, but for the explanation of a refusal and the reason of a fault, if it gives them."""
    refused = out.split()[1:2] if status == 1 else []
    if refused and err.startswith(refused[0] + b": "):
        return b""
    return re.sub(rb"\A((?:read|write) fault): .+\n\Z", rb"\1\n", err)


def at_once(call, cases):
    """Calls for each case, as many at a time as there are processors; the results in the order of the cases."""
    with concurrent.futures.ThreadPoolExecutor(os.cpu_count()) as pool:
        yield from pool.map(call, cases)


# ---- shims


class Shim:
    """A small library that stands before the C library's, and tells on a descriptor of its own, TOLD, what it does."""

    def __init__(self, folder, name, source):
        self.library = pathlib.Path(folder) / f"{name}.so"
        text = pathlib.Path(folder) / f"{name}.c"
        text.write_text(source)
        subprocess.run(["cc", "-shared", "-fPIC", "-O1", "-w", "-o", self.library, text, "-ldl"], check=True)

    def run(self, words, given=b"", cwd=None, **settings):
        """The status, output and errors of a run, and what the library told."""
        reading, writing = os.pipe()
        environment = dict(os.environ, LD_PRELOAD=str(self.library), TOLD=str(writing))
        environment.update((name, str(value)) for name, value in settings.items())
        try:
            run = subprocess.run(words, input=given, capture_output=True, timeout=60, cwd=cwd, pass_fds=[writing], env=environment)
        finally:
            os.close(writing)
        with os.fdopen(reading, "rb") as told:
            return run.returncode, run.stdout, faults_of(run.returncode, run.stdout, run.stderr), told.read()
