"""Runs programs on decks: what they write, their instructions, their processor time, their memory."""
import os
import re
import shlex
import subprocess
import sys
import tempfile

HERE = os.path.dirname(os.path.abspath(__file__))
OURS = os.environ.get("PROGRAM", os.path.join(HERE, "../crates/deck_runner/out/deck_runner"))
PATHS = os.environ.get("PATHS_PROGRAM", os.path.join(HERE, "../crates/path_runner/out/path_runner"))
AUDIT = os.environ.get("AUDIT_PROGRAM", os.path.join(HERE, "../crates/audit_runner/out/audit_runner"))
# A copy or a fill by one instruction (rep movsb) is counted once a byte, whereas a loop of wide ones isn't: so no program uses the first.
THRESHOLDS = "glibc.cpu.x86_rep_movsb_threshold=1000000000:glibc.cpu.x86_rep_stosb_threshold=1000000000"
COUNTED = {**os.environ, "GLIBC_TUNABLES": THRESHOLDS}
EVENT = re.compile(rb"^(?:START|END|BACK|PAIR|UNPAIR|FAIL|REPAIR) ", re.M)


def stop(why):
    sys.exit(f"{os.path.basename(sys.argv[0])}: {why}")


def program_at(path):
    if not os.access(path, os.X_OK):
        stop("there is no program yet: run rt ci first")
    return [os.path.abspath(path)]


def words_of(command):
    return shlex.split(command)


def report(program, deck, word="run"):
    return subprocess.run([*program, word], input=deck.encode(), capture_output=True, check=True).stdout


def events(text):
    return len(EVENT.findall(text))


def instructions(program, deck="", word="run"):
    """By callgrind, which counts the same each time."""
    counter = ["valgrind", "--tool=callgrind", "--callgrind-out-file=/dev/null", "--trace-children=yes"]
    words = [*counter, *program, *word.split()]
    told = subprocess.run(words, input=deck.encode(), env=COUNTED, stdout=subprocess.DEVNULL, stderr=subprocess.PIPE, check=True)
    return int(re.findall(rb"Collected : (\d+)", told.stderr)[-1])


def timed(words, file=None, **environment):
    """The processor time of a command, in seconds, and the most memory that was resident, in KiB."""
    with open(file or os.devnull, "rb") as source, tempfile.TemporaryFile("w+") as told:
        # /usr/bin/time is small, so that the memory isn't that of this program before it became the command
        command = ["/usr/bin/time", "-f", "%M", *words]
        started = subprocess.Popen(command, stdin=source, stdout=subprocess.DEVNULL, stderr=told, env={**os.environ, **environment})
        _, status, used = os.wait4(started.pid, 0)
        started.returncode = os.waitstatus_to_exitcode(status)
        told.seek(0)
        memory = told.read().split()
    if started.returncode:
        stop(f"{' '.join(words)} ended with status {started.returncode}")
    return used.ru_utime + used.ru_stime, int(memory[-1])


def seconds_and_memory(programs, deck, word="run", times=5):
    """For each program the least processor time of some runs in turn, and the most memory."""
    found = [[] for _ in programs]
    with tempfile.NamedTemporaryFile("w") as file:
        file.write(deck)
        file.flush()
        for _ in range(times):
            for program, runs in zip(programs, found):
                runs.append(timed([*program, word], file.name))
    return [(min(seconds for seconds, _ in runs), max(memory for _, memory in runs)) for runs in found]
