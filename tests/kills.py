#!/usr/bin/env python3
"""Kills `set` and `remove` on real files at random moments, restores what is left, and looks at the records.

    kills.py [RUNS [SEED]]     200 runs unless told

Each run copies a file, starts a command on it, kills it after a random part of the time that the command takes, and
reads the records: of the file itself where an opening accepts it, else of what `restore` makes of it. They must be
those before the command or those after it, and those after it where the command had answered 0. A new file that has
no header yet has no records. The last line is `kills: N runs, M restored, L lost`; the status is 1 where L isn't 0.
"""
import os
import random
import shutil
import signal
import subprocess
import sys
import tempfile
import time

sys.path.insert(0, os.path.dirname(os.path.abspath(__file__)))
from rows import PROGRAM, hash_file  # noqa: E402

HELD = {b"key %d" % i: b"value %d" % i for i in range(300)}
FILE = hash_file([(0, [(1, key, value) for key, value in HELD.items()])], len(HELD), 1)
LONG = b"v" * 100000


def without(records, key):
    return {k: v for k, v in records.items() if k != key}


# A name, the file before (none where absent), the words, and the records before and after.
COMMANDS = [
    ("a set of a new key", FILE, ["set", "x.tkh", "new", LONG], HELD, {**HELD, b"new": LONG}),
    ("a set over a record", FILE, ["set", "x.tkh", "key 7", LONG], HELD, {**HELD, b"key 7": LONG}),
    ("a remove", FILE, ["remove", "x.tkh", "key 9"], HELD, without(HELD, b"key 9")),
    ("a set of a new file", None, ["set", "x.tkh", "new", LONG], {}, {b"new": LONG}),
]


def records_of(text):
    """The records of a valid file, by its blocks in their order."""
    at, records = int.from_bytes(text[20:28], "big"), {}
    while at < len(text):
        body = text[at + 24:]
        key_length, value_length = int.from_bytes(body[2:4], "big"), int.from_bytes(body[4:8], "big")
        key, value = body[16:16 + key_length], body[16 + key_length:16 + key_length + value_length]
        if body[0] == 1:
            records[key] = value
        elif body[0] == 2:
            records.pop(key, None)
        else:
            records.clear()
        at += int.from_bytes(text[at + 4:at + 12], "big")
    return records


def run(folder, words):
    return subprocess.run([PROGRAM, *words], cwd=folder, stdin=subprocess.DEVNULL, capture_output=True, timeout=60)


def begin(folder, text):
    """Makes the folder's one file, or no file."""
    shutil.rmtree(folder, ignore_errors=True)
    os.makedirs(folder)
    if text is not None:
        with open(os.path.join(folder, "x.tkh"), "wb") as it:
            it.write(text)


def kill_after(folder, words, seconds):
    """Runs a command, kills it after so long, and answers its status."""
    end = time.perf_counter() + seconds
    with subprocess.Popen([PROGRAM, *words], cwd=folder, stdin=subprocess.DEVNULL, stdout=subprocess.DEVNULL, stderr=subprocess.DEVNULL) as it:
        while time.perf_counter() < end and it.poll() is None:
            pass
        it.send_signal(signal.SIGKILL)
        return it.wait()


def left(folder):
    """The records that are left, and whether they were restored. None where a command ends as it should not."""
    path = os.path.join(folder, "x.tkh")
    if not os.path.exists(path) or os.path.getsize(path) == 0:
        return {}, False
    if run(folder, ["get", "x.tkh", "no such key"]).returncode == 6:
        with open(path, "rb") as it:
            return records_of(it.read()), False
    ended = run(folder, ["restore", "x.tkh", "y.tkh"])
    if ended.returncode == 3 and ended.stderr == b"file 0 refused at place 0\n":
        return {}, True
    if ended.returncode != 0 or run(folder, ["get", "y.tkh", "no such key"]).returncode != 6:
        return None, True
    with open(os.path.join(folder, "y.tkh"), "rb") as it:
        return records_of(it.read()), True


def one(folder, dice, command):
    """One run: whether records were restored, and what is wrong, if anything is."""
    name, text, words, before, after = command
    begin(folder, text)
    start = time.perf_counter()
    run(folder, words)
    whole = time.perf_counter() - start
    begin(folder, text)
    status = kill_after(folder, words, dice.random() * whole)
    records, restored = left(folder)
    if records is None:
        return restored, f"{name}: the restore was refused"
    if records != after and (status == 0 or records != before):
        return restored, f"{name}: {len(records)} records after status {status}"
    return restored, None


def main():
    runs = int(sys.argv[1]) if len(sys.argv) > 1 else 200
    seed = int(sys.argv[2]) if len(sys.argv) > 2 else random.randrange(2**32)
    if not os.access(PROGRAM, os.X_OK):
        print("kills: skipped, since the program isn't built")
        return int(os.environ.get("CI") == "true")
    dice, restored, lost = random.Random(seed), 0, 0
    with tempfile.TemporaryDirectory() as top:
        for number in range(runs):
            was, fault = one(os.path.join(top, "run"), dice, COMMANDS[number % len(COMMANDS)])
            restored += was
            if fault:
                lost += 1
                print(f"seed {seed}, run {number}: {fault}")
    print(f"kills: {runs} runs, {restored} restored, {lost} lost")
    return int(lost > 0)


if __name__ == "__main__":
    sys.exit(main())
