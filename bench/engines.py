"""The programs that are measured. A run of an engine runs one query so many times over both tables, or none at all.

`lq` and Mono load the tables in each run, and `load` is a run of none. `sqlite3` and PostgreSQL start from tables that were loaded once,
and `load` loads them from their files, as it was done then."""

import itertools
import os
import re
import resource
import shutil
import subprocess
import tempfile
import threading
import time
from collections import namedtuple

import tables

HERE = os.path.dirname(os.path.realpath(__file__))
# A command that takes so many seconds of the processor, or ten times as many by the clock, is ended; what its query takes is then only
# known to be more.
SECONDS = 60
CLOCK = 10
# A script of lq has at most so many bytes; so many statements at most are given to any other engine.
MOST_SCRIPT = 2**20
MOST_TIMES = 500_000
# So many lines, or bytes of a reply, are held at a time.
BLOCK = 1_000
# Seconds by the clock and of the processor, and the peak of memory in bytes. `start` is what this process has taken of memory, which a
# command that it starts counts as its own at first.
Run = namedtuple("Run", "clock processor peak start")


class NotServed(Exception):
    """The engine failed, or has no answer to the query."""


class NotEnded(Exception):
    """The command was ended after so many seconds by the clock and of the processor, of which the latter may be unknown."""

    def __init__(self, clock, processor=None):
        super().__init__(f"not ended in {clock:.0f} s")
        self.clock, self.processor = clock, processor


def repeated(line, times):
    """A line so many times, in blocks: memory that this process takes would be counted as that of the commands that it starts."""
    for done in range(0, times, BLOCK):
        yield line * min(BLOCK, times - done)


def timed(words, script=(), cwd=None, check=None):
    """Runs a command with texts, one after the other, as its standard input, and returns what it took. `check` looks at what it wrote."""
    with tempfile.TemporaryFile("w+") as given, tempfile.TemporaryFile() as out:
        given.writelines(script)
        given.seek(0)
        begun = time.perf_counter()
        process = subprocess.Popen(words, stdin=given, stdout=out, cwd=cwd)
        resource.prlimit(process.pid, resource.RLIMIT_CPU, (SECONDS, SECONDS))
        limit = threading.Timer(CLOCK * SECONDS, process.kill)
        limit.start()
        try:
            _, status, used = os.wait4(process.pid, 0)
        except BaseException:
            process.kill()
            raise
        finally:
            limit.cancel()
        clock = time.perf_counter() - begun
        process.returncode = os.waitstatus_to_exitcode(status)
        processor = used.ru_utime + used.ru_stime
        if process.returncode and (round(processor) >= SECONDS or clock >= CLOCK * SECONDS):
            raise NotEnded(clock, processor)
        if process.returncode:
            raise NotServed(f"{os.path.basename(words[0])}: status {process.returncode}, after {clock:.0f} s")
        if check:
            out.seek(0)
            check(out)
        return Run(clock, processor, used.ru_maxrss * 1024, resource.getrusage(resource.RUSAGE_SELF).ru_maxrss * 1024)


class Lq:
    """The program under test, over policies without row security and with all rights."""

    name = "lq"
    has_index = False

    def __init__(self, program, folder):
        self.program, self.folder = os.path.realpath(program), folder
        with open(f"{folder}/policy.toml", "w", encoding="utf-8") as file:
            file.write('role = [{name = "reader"}]\ngrant = [{name = "all", rights = ["employees.*", "depts.*"]}]\n')

    @staticmethod
    def line(query):
        return f"run {query.lq};\n"

    def most(self, query):
        return MOST_SCRIPT // len(self.line(query))

    def load(self):
        return self.run(None, 0)

    def run(self, query, times):
        words = [self.program, "--role", "reader", "--policy", "policy.toml", "employees.csv", "depts.csv"]
        return timed(words, [self.line(query) * times] if query else [], self.folder, lambda out: self.check(out, times))

    @staticmethod
    def check(out, times):
        """Each statement has to be answered by items or a value: a refusal or a fault isn't an answer that could be timed."""
        replies, is_begun = 0, False
        while part := out.readline(BLOCK):
            if not is_begun and not part.startswith((b'{"items":', b'{"value":')):
                raise NotServed(part[:64].decode(errors="replace").rstrip("\n"))
            is_begun = not part.endswith(b"\n")
            replies += not is_begun
        if replies != times:
            raise NotServed(f"{replies} replies to {times} statements")


SQL_TYPES = {"int": "integer", "int?": "integer", "string": "text"}


def tables_in_sql(create):
    for name, columns in (("employees", tables.EMPLOYEES), ("depts", tables.DEPTS)):
        yield name, f"{create} {name} ({', '.join(f'{column} {SQL_TYPES[kind]}' for column, kind in columns)});\n"


def indexes_in_sql():
    return "".join(f"create index {table}_{column} on {table} ({column});\n" for table, column in tables.INDEXED)


class Sqlite:
    """`sqlite3` with a memory database, without an index or with one on each column that is used."""

    def __init__(self, folder, has_index):
        self.name, self.has_index = "sqlite3, index" if has_index else "sqlite3", has_index
        self.folder, self.loaded = folder, f"{self.name}.db"
        self.loading = "".join(table for _, table in tables_in_sql("create table")) + ".mode csv\n"
        self.loading += ".import employees.plain employees\n.import depts.plain depts\n"
        self.loading += indexes_in_sql() + "analyze;\n" if has_index else ""
        self.ran([self.loading, f".save '{self.loaded}'\n"])

    @classmethod
    def started(cls, folder, _):
        return [cls(folder, has_index) for has_index in (False, True)]

    @staticmethod
    def is_there():
        return bool(shutil.which("sqlite3"))

    @staticmethod
    def most(_):
        return MOST_TIMES

    def ran(self, script):
        return timed(["sqlite3", "-bail", ":memory:"], script, self.folder)

    def load(self):
        return self.ran([self.loading])

    def run(self, query, times):
        script = [f".restore '{self.loaded}'\n"]
        if query:
            script = itertools.chain(script, [f".mode {'json' if query.is_record else 'list'}\n"], repeated(f"{query.sql};\n", times))
        return self.ran(script)


class Mono:
    """The same queries by .NET's Enumerable, run by Mono."""

    name = "Mono"
    has_index = False

    def __init__(self, folder, queries):
        self.folder, self.queries = folder, queries
        with open(f"{HERE}/linq.cs", encoding="utf-8") as file:
            text = file.read()
        cases = [f"            case {number}: {query.csharp}; break;" for number, query in enumerate(queries)]
        with open(f"{folder}/linq.cs", "w", encoding="utf-8") as file:
            file.write(text.replace("            // QUERIES", "\n".join(cases)))
        subprocess.run(["mcs", "-optimize+", "-out:linq.exe", "linq.cs"], cwd=folder, check=True)

    @classmethod
    def started(cls, folder, queries):
        return [cls(folder, queries)]

    @staticmethod
    def is_there():
        return bool(shutil.which("mcs") and shutil.which("mono"))

    @staticmethod
    def most(_):
        return MOST_TIMES

    def load(self):
        return self.run(None, 0)

    def run(self, query, times):
        number = self.queries.index(query) if query else 0
        return timed(["mono", "linq.exe", ".", str(number), str(times)], cwd=self.folder)


class Server:
    """A server of PostgreSQL of its own, with one worker, that listens on a socket in its folder only."""

    def __init__(self, folder):
        self.socket = f"{folder}/postgres"
        os.makedirs(self.socket)
        self.as_owner = ["setpriv", "--reuid=65534", "--regid=65534", "--clear-groups"] if os.geteuid() == 0 else []
        if self.as_owner:
            os.chmod(folder, 0o755)
            os.chown(self.socket, 65534, 65534)
        self.call("initdb", "-D", f"{self.socket}/db", "-A", "trust", "-U", "bench")
        options = f"-c listen_addresses= -c unix_socket_directories={self.socket} -c max_parallel_workers_per_gather=0"
        # No process of the server does anything besides; and where `psql` is ended, its session ends too.
        options += f" -c autovacuum=off -c statement_timeout={CLOCK * SECONDS}s"
        self.call("pg_ctl", "-D", f"{self.socket}/db", "-w", "-l", f"{self.socket}/log", "-o", options, "start")

    @staticmethod
    def programs():
        found = [it.path for it in os.scandir("/usr/lib/postgresql")] if os.path.isdir("/usr/lib/postgresql") else []
        return next((f"{it}/bin" for it in sorted(found) if os.access(f"{it}/bin/initdb", os.X_OK)), None)

    def call(self, program, *words):
        subprocess.run([*self.as_owner, f"{self.programs()}/{program}", *words], cwd=self.socket, stdout=subprocess.DEVNULL, check=True)

    def close(self):
        self.call("pg_ctl", "-D", f"{self.socket}/db", "-m", "immediate", "stop")


# Has psql tell what the process that serves it has taken.
SERVED = "select pg_backend_pid() as pid \\gset\n\\setenv SERVED_BY :pid\n\\! cat /proc/$SERVED_BY/stat /proc/$SERVED_BY/status >served\n"


class Postgres:
    """A session over tables of a database of its own, without an index or with one on each column that is used. What is measured is the
    process that serves it."""

    def __init__(self, folder, server, has_index):
        self.name, self.has_index = "PostgreSQL, index" if has_index else "PostgreSQL", has_index
        self.folder, self.server, self.database = folder, server, "with_index" if has_index else "without_index"
        server.call("createdb", "-h", server.socket, "-U", "bench", self.database)
        self.loading = "set client_min_messages = error;\n"
        for name, table in tables_in_sql("create unlogged table"):
            self.loading += f"drop table if exists {name};\n{table}\\copy {name} from '{name}.plain' csv\n"
        self.loading += indexes_in_sql() if has_index else ""
        # The server does so by itself after some time.
        self.loading += "vacuum analyze employees;\nvacuum analyze depts;\n"
        self.load()

    @classmethod
    def started(cls, folder, _):
        server = Server(folder)
        try:
            return [cls(folder, server, has_index) for has_index in (False, True)]
        except Exception:
            server.close()
            raise

    def close(self):
        if not self.has_index:
            self.server.close()

    @staticmethod
    def is_there():
        return bool(Server.programs() and shutil.which("psql"))

    @staticmethod
    def most(_):
        return MOST_TIMES

    def load(self):
        return self.ran([self.loading])

    def run(self, query, times):
        return self.ran(self.lines(query, times) if query else [])

    @staticmethod
    def lines(query, times):
        return repeated(f"select row_to_json(q) from ({query.sql}) q;\n" if query.is_record else f"{query.sql};\n", times)

    def ran(self, script):
        words = ["psql", "-qAt", "-v", "ON_ERROR_STOP=1", "-h", self.server.socket, "-U", "bench", "-d", self.database]
        try:
            taken = timed(words, itertools.chain(script, [SERVED]), self.folder)
        except NotEnded as late:
            # What was measured is `psql`.
            raise NotEnded(late.clock) from None
        with open(f"{self.folder}/served", encoding="utf-8") as file:
            told = file.read()
        peak = int(re.search(r"VmHWM:\s+(\d+) kB", told)[1]) * 1024
        return Run(taken.clock, self.ticks(told) / os.sysconf("SC_CLK_TCK"), peak, 0)

    @staticmethod
    def ticks(told):
        """The processor time of the process, of its own and of the system's, from its line in /proc."""
        fields = told.split("\n")[0].rpartition(") ")[2].split()
        return int(fields[11]) + int(fields[12])
