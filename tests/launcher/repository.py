"""A small repository in which a case tries the launcher, and what its calls print."""
import contextlib
import os
import re
import shutil
import signal
import subprocess
import tempfile
import time

HERE = os.path.dirname(os.path.realpath(__file__))
ROOT = os.path.dirname(os.path.dirname(HERE))
# Where a script that is wrong is tried, its first failure is enough, and nobody waits long for it.
STOPS_AT_FIRST = bool(os.environ.get("STOP_AT_FIRST"))
PATIENCE = 3 if STOPS_AT_FIRST else 60
CRATES = "# Each with what it uses.\nlow:\nleft: low thiserror\nright: low\nlq: left, right\n"
# The crates of the desk, of which a call of `lq` proves `aside` too, where a processor would be idle, and what it says then.
# They are listed in those cases alone that are about them, since it depends on the machine whether that happens.
DESK = "aside: low\nlq_desk: left, aside\n"
BESIDE = "lq: beside it, for ./desk: aside\n"
# The desk's own crate is proved beside a build of `lq` too, once `aside` is, where there is time.
DESK_BESIDE = BESIDE.replace("aside", "lq_desk")
# What the stand-in program does. Its first line, which the stand-in rt takes away, names it as a source.
PROGRAM = """// lq 1
[ $# -gt 0 ] || { echo 'usage: lq WORD ..' >&2; exit 2; }
echo "made of $made"
echo "in $PWD"
printf '[%s]\\n' "$@"
cat
exec 2>&1
case $1 in status=*) exit "${1#status=}" ;; esac
"""


class Wrong(Exception):
    pass


def want(what, found, wanted):
    if found != wanted:
        raise Wrong(f"{what}:\n--- found\n{found}\n--- wanted\n{wanted}")


def steady(text):
    """Replaces what differs from one run to the next: times, and the ends of a terminal's lines."""
    return re.sub(r"in (\d+ min )?\d+ s\b", "in N s", text.replace("\r\n", "\n"))


def without_extras(errors):
    """Returns what was printed without the lines that name the crates of the desk."""
    return errors.replace(BESIDE, "").replace(DESK_BESIDE, "")


class Repository:
    """A small repository with the launcher, in a folder with a blank in its name."""

    launcher = f"{ROOT}/lq"
    # Where a built one is, to be copied.
    built = None

    def __init__(self, room, built=True, desk=False):
        self.room, self.root = room, f"{room}/a repository"
        self.trace = f"{room}/trace"
        self.env = {**os.environ, "PATH": f"{HERE}:{os.environ['PATH']}", "RT_TRACE": self.trace, "RT_SECONDS": "0", "TMPDIR": room}
        open(self.trace, "w").close()
        if built and Repository.built:
            subprocess.run(["cp", "-r", Repository.built, self.root], check=True)
        else:
            self.fill()
            if built:
                self.build()
        if desk:
            self.write("crates.txt", CRATES + DESK)

    def fill(self):
        os.makedirs(self.root)
        shutil.copy(Repository.launcher, f"{self.root}/lq")
        shutil.copy(f"{ROOT}/desk", f"{self.root}/desk")
        os.chmod(f"{self.root}/lq", 0o755)
        shutil.copytree(f"{ROOT}/tools", f"{self.root}/tools")
        self.write("crates.txt", CRATES)
        for name in ("low", "left", "right", "aside"):
            self.write(f"crates/{name}/src/lib.rt", f"// {name} 1\n")
        self.write("crates/low/specs/Low.antt", "-- low\n")
        self.write("crates/low/proofs/a b.antt", "-- low\n")
        self.write("crates/low/must-fail/wrong.edit", "file: src/lib.rt\n")
        self.write("crates/lq/src/main.rt", PROGRAM)
        self.write("crates/lq_desk/src/main.rt", PROGRAM.replace("lq", "desk"))

    def write(self, path, text):
        os.makedirs(os.path.dirname(f"{self.root}/{path}"), exist_ok=True)
        with open(f"{self.root}/{path}", "w", encoding="utf-8") as it:
            it.write(text)

    def set_memory(self, size):
        """Has the build find so much free memory, in GiB."""
        with open(f"{self.root}/tools/build", encoding="utf-8") as it:
            told, asks = it.read(), "def free_memory():\n"
        if f"{self.root}/memory" not in told:
            given = f'    with open("{self.root}/memory") as it:\n        return int(it.read()) << 30\n'
            self.write("tools/build", told.replace(asks, f"{asks}{given}\n\ndef free_memory_of_the_machine():\n"))
        self.write("memory.new", str(size))
        os.replace(f"{self.root}/memory.new", f"{self.root}/memory")

    def traced(self, word="begin"):
        with open(self.trace, encoding="utf-8") as it:
            return [line.split()[1] for line in it if line.startswith(word)]

    def start(self, *words, cwd=None, by=None, **env):
        how = {"stdin": subprocess.PIPE, "stdout": subprocess.PIPE, "stderr": subprocess.PIPE, "start_new_session": True}
        return subprocess.Popen([by or f"{self.root}/lq", *words], cwd=cwd or self.room, env={**self.env, **env}, **how)

    def ran(self, started, given=""):
        """Returns what a started launcher printed on both outputs, and its status, once it has ended."""
        try:
            told = started.communicate(given.encode(), timeout=PATIENCE)
        except subprocess.TimeoutExpired:
            os.killpg(started.pid, signal.SIGKILL)
            raise Wrong("it doesn't end") from None
        return (*(steady(it.decode(errors="replace")) for it in told), started.returncode)

    def run(self, *words, given="", **how):
        return self.ran(self.start(*words, **how), given)

    def said(self, made="low 1, left 1, right 1, lq 1", words=("word",), given="", cwd=None):
        """Returns what the program prints, built from such sources."""
        return f"made of {made}\nin {cwd or self.room}\n" + "".join(f"[{it}]\n" for it in words) + given

    def opening(self):
        return f"lq: proving and building the program, which takes some minutes the first time; the log is {self.root}/out/build.log\n"

    def crates(self, names=("low", "left", "right", "lq")):
        return "".join(f"lq: proving crate {at} of 4: {name}\n" for at, name in enumerate(names, 1))

    def building(self):
        return self.opening() + self.crates() + "lq: proved and built in N s\n"

    def failing(self, crate, what="proved"):
        return (
            "lq:   note: src/lib.rt:1:1: it is not proved that what the function ensures holds when it returns\n"
            f"lq:   fn {crate}::wrong: no proof: expected answers in ./proofs/wrong/Answers.antt\n"
            "lq:   rattle build: nothing was built, since only a proved crate is built\n"
            f"lq: the program was not built: {crate} was not {what}; {self.root}/out/build.log has all that rt said\n"
        )

    def build(self):
        want("the first call", self.run("word"), (self.said(), self.building(), 0))
        open(self.trace, "w").close()

    def is_fresh(self, without=()):
        """Wants a call to run the program as it is: nothing is said, and neither rt nor python is started, nor these."""
        with tempfile.TemporaryDirectory(dir=self.room) as no:
            for name in ("rt", "python3", *without):
                with open(f"{no}/{name}", "w", encoding="utf-8") as it:
                    it.write(f"#!/bin/sh\necho '{name} was started' >&2\nexit 1\n")
                os.chmod(f"{no}/{name}", 0o755)
            want("a fresh call", self.run("word", PATH=f"{no}:{self.env['PATH']}"), (self.said(), "", 0))

    def is_built_anew(self, made, *proved):
        """Wants a call to build first, and rt to prove just these crates."""
        open(self.trace, "w").close()
        out, errors, status = self.run("word")
        want("a call after a change", (out, without_extras(errors), status), (self.said(made), self.building(), 0))
        want("what was proved", sorted(self.traced()), sorted(proved))

    def wait_for(self, crate):
        until = time.monotonic() + PATIENCE
        while crate not in self.traced():
            if time.monotonic() > until:
                raise Wrong(f"{crate} is not proved")
            time.sleep(0.01)

    def all_ended(self, crate=None):
        """Wants each rt to have ended that has begun a proof, or the proof of this crate."""
        with open(self.trace, encoding="utf-8") as it:
            for number in {int(line.split()[2]) for line in it if crate in (None, line.split()[1])}:
                until = time.monotonic() + PATIENCE
                while os.path.exists(f"/proc/{number}"):
                    if time.monotonic() > until:
                        raise Wrong("a child goes on")
                    time.sleep(0.01)
