"""What the queries of bench/queries take sqlite3, PostgreSQL and pandas, each where it is installed.

A peer has a name and a version; it loads the rows of a CSV file, and tells the processor's seconds of a query on so many
rows, the text of its answer and all its rows included. All work by one thread, on rows in memory, without an index, and
write the answer as CSV to /dev/null:

- sqlite3 copies its table into memory in each run, and tells the query's seconds by `.timer`.
- PostgreSQL is a server of its own in a temporary folder, on a socket there, started and stopped here; where the script is
  run as root, the server runs as the user postgres or nobody. Its tables are unlogged, vacuumed and analyzed, of `integer` and
  `text` compared by bytes (the locale C), and its settings are those in SERVER. The query stands in a COPY, and the server tells
  its seconds by `log_statement_stats`.
- pandas reads the file in each run, and has no SQL: bench/pandas_answers.py has what somebody would write in its place, by the name
  of the query, and tells the seconds of the answer and of `to_csv`. It is looked for where this script runs, and as Debian's package
  has it.

A query is given up when it has taken a minute of the processor, if nobody says otherwise.
"""
import functools
import os
import pathlib
import pwd
import re
import resource
import shutil
import signal
import statistics
import subprocess
import sys
import time

RUNS = 3
# one run of a query that takes longer than so many seconds is enough
LONG = 5
# seconds that a process may take to have its table, before the query: its limit is of the process
COPYING = 10
SERVER = {
    "fsync": "off",
    "autovacuum": "off",
    "shared_buffers": "512MB",
    "work_mem": "1GB",
    "max_wal_size": "4GB",
    "max_parallel_workers_per_gather": "0",
    "jit": "off",
}
# the queries in the words of pandas, and the status where there are none
ANSWERS = pathlib.Path(__file__).resolve().parent / "pandas_answers.py"
NO_WORDS = 3
COLUMNS = "day INTEGER, shop TEXT, amount INTEGER"


class GivenUp(Exception):
    """The query has taken longer than the patience."""


class Refused(Exception):
    """The peer does not know something in the query."""


def within(patience, words, **given):
    """What a process comes to that may take so many seconds of the processor beside what it takes to have its table."""
    most = patience + COPYING
    limit = lambda: resource.setrlimit(resource.RLIMIT_CPU, (most, most + 1))
    run = subprocess.run(words, capture_output=True, preexec_fn=limit, **given)
    if run.returncode == -signal.SIGXCPU:
        raise GivenUp
    return run


class Sqlite:
    name = "sqlite3"

    def __init__(self, folder):
        self.folder = folder

    @staticmethod
    def is_installed():
        return shutil.which("sqlite3")

    def version(self):
        return subprocess.run(["sqlite3", "--version"], stdout=subprocess.PIPE, check=True).stdout.decode().split()[0]

    def load(self, rows, lines):
        given = f"CREATE TABLE sales({COLUMNS});\n.import --csv --skip 1 {lines} sales\n"
        subprocess.run(["sqlite3", self.folder / f"{rows}.db"], input=given.encode(), check=True)

    def seconds(self, rows, name, query, patience):
        given = f"ATTACH '{self.folder / f'{rows}.db'}' AS file;\nCREATE TABLE sales AS SELECT * FROM file.sales;\n"
        given += f".timer on\n.mode csv\n.output /dev/null\n{query};\n"
        run = within(patience, ["sqlite3"], input=given.encode())
        if b"no such function" in run.stderr:
            raise Refused
        if run.returncode:
            sys.exit(f"sqlite3: {run.stderr.decode()}")
        user, system = re.findall(rb"user ([0-9.]+) sys ([0-9.]+)", run.stdout)[-1]
        return float(user) + float(system)

    def close(self):
        pass


def server_programs():
    """The folder of PostgreSQL's server programs, if there is one: Debian's is not where a shell looks."""
    found = [pathlib.Path(path).parent for path in [shutil.which("initdb")] if path]
    found += sorted(pathlib.Path("/usr/lib/postgresql").glob("*/bin"), key=lambda bin: -float(bin.parent.name))
    return next((folder for folder in found if all((folder / name).exists() for name in ("initdb", "postgres"))), None)


def other_user():
    """Whom the server is run as, in the words of subprocess: PostgreSQL refuses root."""
    if os.geteuid():
        return {}
    names = {user.pw_name: user for user in pwd.getpwall()}
    user = names.get("postgres") or names["nobody"]
    return {"user": user.pw_uid, "group": user.pw_gid, "extra_groups": []}


class Postgres:
    name = "postgresql"

    def __init__(self, folder):
        self.folder = folder
        self.programs = server_programs()
        whom = {"cwd": folder, **other_user()}
        if "user" in whom:
            folder.parent.chmod(0o755)
            os.chown(folder, whom["user"], whom["group"])
        words = ["-D", "data", "-U", "postgres", "--auth=trust", "--no-sync", "--locale=C", "--encoding=UTF8"]
        subprocess.run([self.programs / "initdb", *words], stdout=subprocess.DEVNULL, check=True, **whom)
        settings = [word for name, value in SERVER.items() for word in ("-c", f"{name}={value}")]
        words = [self.programs / "postgres", "-D", "data", "-k", folder, "-h", "", *settings]
        with open(folder / "log", "wb") as log:
            self.server = subprocess.Popen(words, stdout=log, stderr=log, **whom)
        while not (folder / ".s.PGSQL.5432").exists():
            if self.server.poll() is not None:
                sys.exit(f"postgres: {(folder / 'log').read_text()}")
            time.sleep(0.1)
        while subprocess.run(self.psql("-c", "SELECT 1"), capture_output=True).returncode:
            time.sleep(0.1)

    @staticmethod
    def is_installed():
        return server_programs() and shutil.which("psql")

    def psql(self, *words):
        return ["psql", "-XqAt", "-v", "ON_ERROR_STOP=1", "-h", self.folder, "-p", "5432", "-U", "postgres", *words]

    def version(self):
        told = subprocess.run(self.psql("-c", "SHOW server_version"), stdout=subprocess.PIPE, check=True)
        return told.stdout.decode().split()[0]

    def load(self, rows, lines):
        given = f"CREATE SCHEMA rows{rows};\nSET search_path = rows{rows};\nCREATE UNLOGGED TABLE sales({COLUMNS});\n"
        given += f"\\copy sales FROM '{lines}' (FORMAT csv, HEADER)\nVACUUM (FREEZE, ANALYZE) sales;\n"
        subprocess.run(self.psql(), input=given.encode(), check=True)

    def seconds(self, rows, name, query, patience):
        pipes = dict.fromkeys(("stdin", "stdout", "stderr"), subprocess.PIPE)
        with subprocess.Popen(self.psql(), **pipes) as psql:
            psql.stdin.write(b"SELECT pg_backend_pid();\n")
            psql.stdin.flush()
            process = int(psql.stdout.readline())
            given = f"SET search_path = rows{rows};\nSET client_min_messages = log;\nSET log_statement_stats = on;\n"
            given += f"COPY ({query}) TO '/dev/null' (FORMAT csv, HEADER);\n"
            told = self.watched(psql, given.encode(), process, patience)
        found = re.search(rb"([0-9.]+) s user, ([0-9.]+) s system, ", told)
        if psql.returncode or not found:
            sys.exit(f"psql: {told.decode()}")
        return float(found[1]) + float(found[2])

    @staticmethod
    def watched(psql, given, process, patience):
        """What psql tells on standard error. The query is given up when the server's process has taken too long."""
        while True:
            try:
                return psql.communicate(given, timeout=0.5)[1]
            except subprocess.TimeoutExpired:
                given = None  # it is on its way, and communicate takes no more
                used = pathlib.Path(f"/proc/{process}/stat").read_text().rsplit(")", 1)[1].split()[11:13]
                if sum(map(int, used)) / os.sysconf("SC_CLK_TCK") > patience:
                    os.kill(process, signal.SIGINT)
                    psql.communicate()
                    raise GivenUp from None

    def close(self):
        self.server.send_signal(signal.SIGINT)
        self.server.wait()


@functools.cache
def with_pandas():
    """A Python that has pandas, if there is one."""
    asked = [sys.executable, "/usr/bin/python3"]
    return next((python for python in asked if not subprocess.run([python, "-c", "import pandas"], capture_output=True).returncode), None)


class Pandas:
    name = "pandas"

    def __init__(self, folder):
        self.lines = {}

    @staticmethod
    def is_installed():
        return with_pandas()

    def version(self):
        words = [with_pandas(), "-c", "import pandas; print(pandas.__version__)"]
        return subprocess.run(words, stdout=subprocess.PIPE, check=True).stdout.decode().strip()

    def load(self, rows, lines):
        self.lines[rows] = lines

    def seconds(self, rows, name, query, patience):
        run = within(patience, [with_pandas(), ANSWERS, self.lines[rows], name])
        if run.returncode == NO_WORDS:
            raise Refused
        if run.returncode:
            sys.exit(f"pandas: {run.stderr.decode()}")
        return float(run.stdout)

    def close(self):
        pass


def installed(folder):
    """The peers that are installed, each with a folder of its own."""
    peers = []
    for peer in Sqlite, Postgres, Pandas:
        if peer.is_installed():
            (folder / peer.name).mkdir()
            peers.append(peer(folder / peer.name))
    return peers


def beside(peer, rows, name, query, patience):
    """What a query takes a peer: its seconds, the median of some runs; or that it takes longer than the patience; or that it is refused."""
    times = []
    try:
        while len(times) < RUNS and max(times, default=0) < LONG:
            times.append(peer.seconds(rows, name, query, patience))
    except GivenUp:
        return {"over": patience}
    except Refused:
        return {"refused": True}
    return {"seconds": statistics.median(times)}
