"""Runs decks with the word `paths`, and has a program replay each history: replay_histories.py REPLAY [COUNT] [orders] [FOLDER | COMMAND]

tests/stress/paths builds REPLAY, and says the rest.
"""
import glob
import os
import random
import shlex
import subprocess
import sys

from path_decks import deck_of

replay, *words = sys.argv[1:]
TOP = os.path.dirname(os.path.dirname(os.path.dirname(os.path.abspath(__file__))))
PROGRAM = os.path.abspath(os.environ.get("PATHS_PROGRAM", f"{TOP}/crates/path_runner/out/path_runner"))
LIMIT = float(os.environ.get("LIMIT", "20"))
KEPT = os.environ.get("KEEP", "/tmp/stress_paths")
PROCESSORS = sorted(os.sched_getaffinity(0))
COUNTS = ["programs", "commands", "checked", "turns of another path", "CFW lines", "left", "lost tracks"]
# Lines of which no digit may be another one.
FIRM = (b"END ", b"DATA ", b"SENSE ", b"OVER ", b"LEFT ", b"UNUSED ")


def decks(source, count, orders):
    if source and os.path.isdir(source):
        paths = sorted(glob.glob(f"{source}/**/*.deck", recursive=True))
        return ((os.path.basename(path).removesuffix(".deck"), open(path, "rb").read()) for path in paths)
    numbers = range(1, count + 1)
    if source is None:
        return ((number, deck_of(number, orders).encode()) for number in numbers)
    return ((number, subprocess.run([*shlex.split(source), str(number)], capture_output=True, check=True).stdout) for number in numbers)


def run(deck, processors):
    """What a run wrote, or why there is nothing to replay."""
    pinned = lambda: os.sched_setaffinity(0, processors)
    try:
        ran = subprocess.run([PROGRAM, "paths"], input=deck, capture_output=True, timeout=LIMIT, preexec_fn=pinned)
    except subprocess.TimeoutExpired:
        return b"", f"no end within {LIMIT:.0f} seconds"
    return ran.stdout, f"status {ran.returncode}" if ran.returncode else ""


def replayed(deck, history):
    front = deck if deck.endswith(b"\n") else deck + b"\n"
    ran = subprocess.run([replay, "orders"], input=front + b"REPORT\n" + history, capture_output=True)
    return ran.stdout.decode().split() or ["no", "0", "the replay broke off"]


def spoiled(history, draw):
    """The history with another digit in a line, and without that line."""
    lines = history.splitlines(True)
    at = draw.choice([i for i, line in enumerate(lines) if line.startswith(FIRM)])
    where = draw.choice([i for i, byte in enumerate(lines[at]) if chr(byte).isdigit()])
    digit = b"%d" % ((int(lines[at][where : where + 1]) + 1) % 10)
    other = lines[at][:where] + digit + lines[at][where + 1 :]
    return [b"".join([*lines[:at], *line, *lines[at + 1 :]]) for line in ([other], [])]


def tell(name, what, deck, history):
    os.makedirs(KEPT, exist_ok=True)
    for end, text in (("deck", deck), ("history", history)):
        with open(f"{KEPT}/{name}.{end}", "wb") as file:
            file.write(text)
    print(f"deck {name}: {what} (kept in {KEPT})", flush=True)


def main():
    if not os.access(PROGRAM, os.X_OK):
        sys.exit("tests/stress/paths: there is no program yet: run rt ci first")
    orders = "orders" in words
    count = next((int(word) for word in words if word.isdigit()), 200)
    source = next((word for word in words if word != "orders" and not word.isdigit()), None)
    total, ran, refused, bad, spoils, unseen = [0] * len(COUNTS), 0, 0, 0, 0, 0
    for name, deck in decks(source, count, orders):
        processors = PROCESSORS[: 1 + ran % len(PROCESSORS)]
        history, why = run(deck, processors)
        if why == "status 1":
            refused += 1
            continue
        ran += 1
        verdict, *told = ["no"] if why else replayed(deck, history)
        if verdict != "yes":
            bad += 1
            tell(name, f"{why or 'line ' + ' '.join(told)}, on {len(processors)} processors", deck, history)
            continue
        total = [sum(it) for it in zip(total, map(int, told))]
        for text in spoiled(history, random.Random(ran)):
            spoils += 1
            if replayed(deck, text)[0] == "yes":
                unseen += 1
                tell(f"{name}-spoiled", "a history that was spoiled here is replayed", deck, text)
    print(f"{ran:,} decks run, {refused:,} refused: {bad:,} differ; {unseen:,} of {spoils:,} spoiled histories weren't found")
    print(", ".join(f"{all:,} {what}" for all, what in zip(total, COUNTS)))
    return bad or unseen or not ran


sys.exit(1 if main() else 0)
