"""One run of a program, checked and measured."""

import filecmp
import os
import re
import shutil
import subprocess
import tempfile

SECONDS = 600
# Counts the instructions that a program executes, those of the system aside: the same count whatever else the machine does.
COUNTER = ["valgrind", "--tool=cachegrind", "--cache-sim=no", "--cachegrind-out-file=/dev/null"]


class Failure(Exception):
    """The program did something else than it has to."""


def policy_over(table):
    """A policy file in which no table has row security, and everybody all rights on the one of this file."""
    name = table.removesuffix(".csv")
    with open(name + ".toml", "w") as file:
        file.write(f'role = [{{name = "reader"}}]\ngrant = [{{name = "all", rights = ["{name}.*"]}}]\n')
    return name + ".toml"


def check_counter():
    if shutil.which(COUNTER[0]) is None:
        raise Failure(f"{COUNTER[0]} is not installed, by which instructions are counted")


def ended(words, script, reply):
    """Runs a command with the script in a file as its standard input, and returns the processor time in seconds and the peak of
    memory in bytes. It has to end with status 0, with nothing on standard error, and with exactly the reply in a file."""
    with open(script, "rb") as stdin, open("out", "wb") as out, open("err", "wb") as err:
        process = subprocess.Popen(["timeout", str(SECONDS), *words], stdin=stdin, stdout=out, stderr=err)
        _, status, used = os.wait4(process.pid, 0)
        process.returncode = os.waitstatus_to_exitcode(status)
    if process.returncode != 0:
        raise Failure(f"{script}: status {process.returncode}")
    if os.path.getsize("err") != 0:
        raise Failure(f"{script}: something on standard error")
    if not filecmp.cmp("out", reply, shallow=False):
        raise Failure(f"{script}: another standard output than expected")
    return used.ru_utime + used.ru_stime, used.ru_maxrss * 1024


def words_of(program, table, policy):
    return [program, "--role", "reader", "--policy", policy or policy_over(table), table]


def run(program, table, script, reply, policy=None):
    """A run over the table file `table`, with the script, the whole expected standard output and the policies in files (none: those
    of `policy_over`): its processor time in seconds and its peak of memory in bytes."""
    return ended(words_of(program, table, policy), script, reply)


def count(program, table, script, reply, policy=None):
    """The instructions of such a run."""
    return counted(lambda counter: ended([*counter, *words_of(program, table, policy)], script, reply))


def count_command(words):
    """The instructions of a command without standard input, which has to end with status 0."""
    return counted(lambda counter: subprocess.run([*counter, *words], stdin=subprocess.DEVNULL, stdout=subprocess.DEVNULL, check=True))


def counted(start):
    """Has a run started by the words that count its instructions, and returns how many there were."""
    with tempfile.NamedTemporaryFile("r") as told:
        start([*COUNTER, f"--log-file={told.name}"])
        found = re.search(r"I +refs: +([\d,]+)", told.read())
    if not found:
        raise Failure("the instructions were not counted")
    return int(found[1].replace(",", ""))
