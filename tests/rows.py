#!/usr/bin/env python3
"""Runs the built program on worked rows, each in a folder of its own.

A row is a list of steps. A step gives the words, and what is wanted of the status, the two streams and the files.
The rows end with the line `rows: N passed, M failed`. A row that this machine can't show is left out with a word. Where
the program isn't built all are left out; that is a failure only where the environment has CI=true.
"""
import hashlib
import os
import subprocess
import sys
import tempfile

HOME = os.path.dirname(os.path.dirname(os.path.abspath(__file__)))
PROGRAM = os.path.join(HOME, "crates", "tkrzw_dbm_util", "out", "tkrzw_dbm_util")
# It runs PROGRAM, and would build it only where there is none.
SCRIPT = os.path.join(HOME, "bin", "tkrzw_dbm_util")
# Stands in words for the row's folder.
HERE = "{here}"


def fnv(data, width):
    """FNV-1a of 32 or 64 bits."""
    value, factor = {32: (2166136261, 16777619), 64: (14695981039346656037, 1099511628211)}[width]
    for byte in data:
        value = (value ^ byte) * factor % 2**width
    return value


def mix(key):
    x = fnv(key, 64)
    x ^= x >> 33
    x = x * 0xFF51AFD7ED558CCD % 2**64
    x ^= x >> 33
    x = x * 0xC4CEB9FE1A85EC53 % 2**64
    return x ^ x >> 33


def block(kind, last, number, key, value, place, link):
    """The text of a block, written from the format's description alone."""
    room = 44 + len(key) + len(value)
    extent = max(48, (room + 7) // 8 * 8)
    at = place.to_bytes(8, "big")
    head = b"TKB1" + extent.to_bytes(8, "big")
    body = bytes([kind, last]) + len(key).to_bytes(2, "big") + len(value).to_bytes(4, "big")
    body += number.to_bytes(8, "big") + key + value
    text = head + fnv(head + at, 32).to_bytes(4, "big") + link.to_bytes(8, "big")
    text += body + fnv(body + at, 32).to_bytes(4, "big")
    return text + bytes(extent - len(text))


def hash_file(groups, count, next_number, p=10, kind=1, order=0):
    """The file of a list of groups (number, [(kind, key, value)])."""
    base = 64 + 8 * 2**p
    heads = [0] * 2**p
    blocks = b""
    for number, changes in groups:
        for i, (what, key, value) in enumerate(changes):
            bucket = mix(key) >> (64 - p)
            place = base + len(blocks)
            blocks += block(what, int(i + 1 == len(changes)), number, key, value, place, heads[bucket])
            heads[bucket] = place
    static = b"TKPHASH\n" + bytes([kind, 1, p, order]) + bytes(8) + base.to_bytes(8, "big")
    closing = (base + len(blocks)).to_bytes(8, "big") + count.to_bytes(8, "big")
    closing += next_number.to_bytes(8, "big") + bytes(4)
    text = static + fnv(static, 32).to_bytes(4, "big") + closing + fnv(closing, 32).to_bytes(4, "big")
    return text + b"".join(head.to_bytes(8, "big") for head in heads) + blocks


def one_set(key, value):
    return hash_file([(0, [(1, key, value)])], 1, 1)


class ReadOnly(bytes):
    """The text of a file that may not be written."""


class Step:
    """Words, and what is wanted. `files` are all files of the folder after it, by name. `out_to` takes standard output."""

    def __init__(self, words, status, out=b"", err=b"", files=None, sums=None, out_to=None, program=PROGRAM):
        self.words, self.status, self.out, self.err = words, status, out, err
        self.files, self.sums = files or {}, sums or {}
        self.out_to, self.program = out_to, program


def flipped(text, at):
    """The text with the lowest bit of one byte flipped."""
    return text[:at] + bytes([text[at] ^ 1]) + text[at + 1:]


# What can be at fault in a file of two sets in one bucket, in the order in which an opening looks, with the place.
FAULTS = [
    ("header", 0), ("kind", 8), ("closing part", 32), ("body", 120), ("number", 120), ("link", 136), ("group", 120), ("head", 64), ("count", 32)]


def crafted(*faults):
    """A file of the sets of a to 1 and of b to 22, with these faults."""
    kind, order = (3, 1) if "kind" in faults else (1, 0)
    number, last = int("number" not in faults), int("group" not in faults)
    link = 72 + 8 * ("link" in faults)
    blocks = block(1, 1, 0, b"a", b"1", 72, 0) + block(1, last, number, b"b", b"22", 120, link)
    if "body" in faults:
        blocks = flipped(blocks, 48 + 40)
    static = b"TKPHASH\n" + bytes([kind, 1, 0, order]) + bytes(8) + (72).to_bytes(8, "big")
    count, after = 2 + ("count" in faults), 2 + 2**62 * ("next" in faults)
    closing = (168).to_bytes(8, "big") + count.to_bytes(8, "big") + after.to_bytes(8, "big") + bytes(4)
    head = 120 - 48 * ("head" in faults)
    parts = [static + fnv(static, 32).to_bytes(4, "big"), closing + fnv(closing, 32).to_bytes(4, "big")]
    if "header" in faults:
        parts[0] = flipped(parts[0], 31)
    if "closing part" in faults:
        parts[1] = flipped(parts[1], 31)
    return parts[0] + parts[1] + head.to_bytes(8, "big") + blocks


def each_from(i):
    """This fault and all that an opening looks for later."""
    return [what for what, _ in FAULTS[i:]] + ["next"]


def left_open():
    """The closing part of a file that is open."""
    return bytes(28) + fnv(bytes(28), 32).to_bytes(4, "big")


def refused(text, place):
    """The three commands refuse a file at a place, and leave it."""
    err = b"file 0 refused at place %d\n" % place
    return {"x.tkh": text}, [Step([*words], 3, err=err, files={"x.tkh": text}) for words in (
        ("get", "x.tkh", "a"), ("set", "x.tkh", "c", "3"), ("remove", "x.tkh", "a"))]


def table(texts):
    """Files that are refused, each at its place."""
    files = {f"{i}.tkh": text for i, (text, _) in enumerate(texts)}
    return files, [Step([*words], 3, err=b"file 0 refused at place %d\n" % place, files=files) for i, (_, place) in enumerate(texts)
                   for words in (("get", f"{i}.tkh", "a"), ("set", f"{i}.tkh", "c", "3"), ("remove", f"{i}.tkh", "a"))]


def restored(records, **header):
    """The file to which records are restored: one group of them, in hash order."""
    group = [(1, key, value) for key, value in sorted(records, key=lambda record: (mix(record[0]), record[0]))]
    return hash_file([(0, group)] if group else [], len(group), int(bool(group)), **header)


def restores(text, records, **header):
    """An image is restored to these records, and stays."""
    new = restored(records, **header)
    return {"x.tkh": text}, [
        Step(["restore", "x.tkh", "y.tkh"], 0, files={"x.tkh": text, "y.tkh": new}),
        Step(["restore", "y.tkh", "z.tkh"], 0, files={"x.tkh": text, "y.tkh": new, "z.tkh": new})]


FIRST = one_set(b"a", b"1")
SECOND = hash_file([(0, [(1, b"a", b"1")]), (1, [(1, b"b", b"22")])], 2, 2)
AGAIN = hash_file([(0, [(1, b"a", b"1")]), (1, [(1, b"a", b"2")])], 1, 2)
REMOVED = hash_file([(0, [(1, b"a", b"1")]), (1, [(2, b"a", b"")])], 0, 2)
REMOVED_TWICE = hash_file([(0, [(1, b"a", b"1")]), (1, [(2, b"a", b"")])], 0, 3)
# A file that is longer than what is read at once, with a block across the end of what was read.
LARGE = hash_file([(0, [(1, b"a", b"x" * 700000)]), (1, [(1, b"b", b"y" * 700000)]), (2, [(1, b"c", b"1")])], 3, 3)
# A file whose value has, at its place, the text of a block.
INSIDE = one_set(b"a", block(1, 1, 1, b"x", b"y", 8256 + 41, 0))
LETTERS = one_set("\u00e9\u4e16".encode(), "\u00fc".encode())
LATE = hash_file([(0, [(1, b"a", b"1")])], 1, 2**62 + 1)
# Two sets of each key in one group of each; the later value counts.
MANY = hash_file([(i, [(1, b"key %d" % i, b"old"), (1, b"key %d" % i, b"value %d" % i)]) for i in range(1500)], 1500, 1500)
# One set, and then a group of two sets that is cut in its last block.
CUT = hash_file([(0, [(1, b"c", b"3")]), (1, [(1, b"a", b"1"), (1, b"b", b"2")])], 3, 2)[:8390]
PAGES = hash_file([(0, [(1, b"a", b"1")])], 1, 1, kind=3, order=1)
UPDATING = hash_file([(0, [(1, b"a", b"1")])], 1, 1, kind=2)
LONG_KEY = b"k" * 65535
# One word of an argument list holds at most 131,071 bytes on Linux, so longer values are tested in the crates.
LONG_VALUE = b"v" * 131000

ROWS = {
    "a first set": ({}, [Step(["set", "x.tkh", "a", "1"], 0, files={"x.tkh": FIRST}, sums={
        "x.tkh": "f29e9ec124db06157950f787e12d9e04fd1274e46db1693e06f613cb45e2ca1b"})]),
    "an empty file counts as absent": ({"x.tkh": b""}, [Step(["set", "x.tkh", "a", "1"], 0, files={"x.tkh": FIRST})]),
    "an empty key and value": ({}, [Step(["set", "e.tkh", "", ""], 0, files={"e.tkh": one_set(b"", b"")})]),
    "a lone dash is no option": ({}, [Step(["set", "d.tkh", "-", "-"], 0, files={"d.tkh": one_set(b"-", b"-")})]),
    "a key at its limit": ({}, [Step(["set", "k.tkh", LONG_KEY, "v"], 0, files={"k.tkh": one_set(LONG_KEY, b"v")})]),
    "a long value": ({}, [Step(["set", "v.tkh", "k", LONG_VALUE], 0, files={"v.tkh": one_set(b"k", LONG_VALUE)})]),
    "a key of more than one byte a letter": ({}, [
        Step(["set", "u.tkh", "\u00e9\u4e16", "\u00fc"], 0, files={"u.tkh": one_set("\u00e9\u4e16".encode(), "\u00fc".encode())})]),
    "a key above its limit": ({}, [Step(["set", "k.tkh", LONG_KEY + b"k", "v"], 1, err=b"usage\n")]),
    "no words": ({}, [Step([], 1, err=b"usage\n")]),
    "too few words": ({}, [Step(["set", "x.tkh", "a"], 1, err=b"usage\n")]),
    "too many words": ({}, [Step(["set", "x.tkh", "a", "1", "2"], 1, err=b"usage\n")]),
    "an unknown command": ({}, [Step(["put", "x.tkh", "a", "1"], 1, err=b"usage\n")]),
    "an unknown option": ({}, [Step(["set", "x.tkh", "a", "-1"], 1, err=b"usage\n")]),
    "an unknown ending": ({}, [Step(["set", "x.foo", "a", "1"], 1, err=b"usage\n")]),
    "words that are no text": ({}, [Step(["set", "x.tkh", b"\xff", "1"], 1, err=b"usage\n")]),
    "a folder in the way": ({"x.tkh/in": b"?"}, [Step(["set", "x.tkh", "a", "1"], 4, err=b"fault\n", files={"x.tkh/in": b"?"})]),
    "a folder that isn't there": ({}, [Step(["set", "no/x.tkh", "a", "1"], 4, err=b"fault\n")]),
    "a file in a folder that is there": ({"in/kept": b"?"}, [
        Step(["set", "in/x.tkh", "a", "1"], 0, files={"in/kept": b"?", "in/x.tkh": FIRST}),
        Step(["set", "in/x.tkh", "b", "22"], 0, files={"in/kept": b"?", "in/x.tkh": SECOND}),
        Step(["get", "in/x.tkh", "b"], 0, out=b"22\n", files={"in/kept": b"?", "in/x.tkh": SECOND})]),
    "an absolute name": ({"in/kept": b"?"}, [
        Step(["set", HERE + "/in/x.tkh", "a", "1"], 0, files={"in/kept": b"?", "in/x.tkh": FIRST}),
        Step(["set", "in/x.tkh", "b", "22"], 0, files={"in/kept": b"?", "in/x.tkh": SECOND}),
        Step(["get", HERE + "/in/x.tkh", "b"], 0, out=b"22\n", files={"in/kept": b"?", "in/x.tkh": SECOND})]),
    "a full standard output": ({"x.tkh": FIRST}, [
        Step(["get", "x.tkh", "a"], 4, err=b"fault\n", files={"x.tkh": FIRST}, out_to="/dev/full"),
        Step(["get", "x.tkh", "nokey"], 6, err=b"answer NOT_FOUND_ERROR\n", files={"x.tkh": FIRST}, out_to="/dev/full"),
        Step(["set", "x.tkh", "b", "22"], 0, files={"x.tkh": SECOND}, out_to="/dev/full")]),
    "a file that may not be written": ({"x.tkh": ReadOnly(SECOND)}, [
        Step(["get", "x.tkh", "b"], 0, out=b"22\n", files={"x.tkh": SECOND}),
        Step(["set", "x.tkh", "c", "3"], 4, err=b"fault\n", files={"x.tkh": SECOND}),
        Step(["remove", "x.tkh", "a"], 4, err=b"fault\n", files={"x.tkh": SECOND})]),
    "the repository's own script": ({"x.tkh": SECOND}, [
        Step(["get", "x.tkh", "b"], 0, out=b"22\n", files={"x.tkh": SECOND}, program=SCRIPT)]),
    "a file that has bytes": ({"x.tkh": b"?"}, [
        Step(["set", "x.tkh", "a", "1"], 3, err=b"file 0 refused at place 0\n", files={"x.tkh": b"?"})]),
    "a second set": ({}, [
        Step(["set", "x.tkh", "a", "1"], 0, files={"x.tkh": FIRST}),
        Step(["set", "x.tkh", "b", "22"], 0, files={"x.tkh": SECOND}, sums={
            "x.tkh": "d017116b683365f8cb50f829dadf78f225a03b2e7b12f29cb56497057b6ce708"})]),
    "a key is set again": ({"x.tkh": FIRST}, [
        Step(["set", "x.tkh", "a", "2"], 0, files={"x.tkh": AGAIN}),
        Step(["get", "x.tkh", "a"], 0, out=b"2\n", files={"x.tkh": AGAIN})]),
    "a value is printed": ({"x.tkh": SECOND}, [
        Step(["get", "x.tkh", "a"], 0, out=b"1\n", files={"x.tkh": SECOND}),
        Step(["get", "x.tkh", "b"], 0, out=b"22\n", files={"x.tkh": SECOND})]),
    "an empty value is printed": ({"e.tkh": one_set(b"", b"")}, [
        Step(["get", "e.tkh", ""], 0, out=b"\n", files={"e.tkh": one_set(b"", b"")})]),
    "a key and a value with bytes above 7f": ({"u.tkh": LETTERS}, [
        Step(["get", "u.tkh", "\u00e9\u4e16"], 0, out="\u00fc\n".encode(), files={"u.tkh": LETTERS})]),
    "a key behind the end of the options": ({}, [
        Step(["set", "o.tkh", "--", "-k", "--"], 0, files={"o.tkh": one_set(b"-k", b"--")}),
        Step(["get", "--", "o.tkh", "-k"], 0, out=b"--\n", files={"o.tkh": one_set(b"-k", b"--")})]),
    "no record": ({"x.tkh": FIRST}, [
        Step(["get", "x.tkh", "nokey"], 6, err=b"answer NOT_FOUND_ERROR\n", files={"x.tkh": FIRST}),
        Step(["get", "x.foo", "a"], 1, err=b"usage\n", files={"x.tkh": FIRST})]),
    "no file": ({}, [
        Step(["get", "absent.tkh", "a"], 3, err=b"file 0 refused at place 0\n"),
        Step(["remove", "absent.tkh", "a"], 3, err=b"file 0 refused at place 0\n")]),
    "an empty file has no record": ({"x.tkh": b""}, [
        Step(["get", "x.tkh", "a"], 3, err=b"file 0 refused at place 0\n", files={"x.tkh": b""}),
        Step(["remove", "x.tkh", "a"], 3, err=b"file 0 refused at place 0\n", files={"x.tkh": b""})]),
    "a removed key": ({"x.tkh": FIRST}, [
        Step(["remove", "x.tkh", "a"], 0, files={"x.tkh": REMOVED}),
        Step(["get", "x.tkh", "a"], 6, err=b"answer NOT_FOUND_ERROR\n", files={"x.tkh": REMOVED}),
        Step(["remove", "x.tkh", "a"], 6, err=b"answer NOT_FOUND_ERROR\n", files={"x.tkh": REMOVED_TWICE}),
        Step(["set", "x.tkh", "a", "3"], 0, files={"x.tkh": hash_file(
            [(0, [(1, b"a", b"1")]), (1, [(2, b"a", b"")]), (3, [(1, b"a", b"3")])], 1, 4)})]),
    "many records": ({"m.tkh": MANY}, [
        Step(["get", "m.tkh", "key 7"], 0, out=b"value 7\n", files={"m.tkh": MANY}),
        Step(["get", "m.tkh", "key 1499"], 0, out=b"value 1499\n", files={"m.tkh": MANY}),
        Step(["get", "m.tkh", "key 1500"], 6, err=b"answer NOT_FOUND_ERROR\n", files={"m.tkh": MANY})]),
    "a file longer than a piece": ({"l.tkh": LARGE}, [
        Step(["get", "l.tkh", "c"], 0, out=b"1\n", files={"l.tkh": LARGE}),
        Step(["get", "l.tkh", "b"], 0, out=b"y" * 700000 + b"\n", files={"l.tkh": LARGE})]),
    "a long file with a flipped byte at its end": ({"l.tkh": flipped(LARGE, len(LARGE) - 3)}, [
        Step(["get", "l.tkh", "c"], 3, err=b"file 0 refused at place %d\n" % (len(LARGE) - 48), files={"l.tkh": flipped(LARGE, len(LARGE) - 3)})]),
    "a file cut by one byte": refused(SECOND[:-1], 32),
    "a byte too many": refused(SECOND + b"\0", 32),
    "another file's first letters": refused(b"!" + SECOND[1:], 0),
    "a flipped byte of the header": refused(flipped(SECOND, 15), 0),
    "a flipped byte of the closing part": refused(flipped(SECOND, 47), 32),
    "a file that was left open": refused(SECOND[:32] + left_open() + SECOND[64:], 32),
    "a flipped byte of a head": refused(flipped(SECOND, 64 + 8 * (mix(b"a") >> 54) + 7), 64 + 8 * (mix(b"a") >> 54)),
    "a flipped byte of an unused head": refused(flipped(SECOND, 64 + 8 * 1023), 64 + 8 * 1023),
    "a flipped byte of a block's head": refused(flipped(SECOND, 8256 + 11), 8256),
    "a flipped byte of a block's link": refused(flipped(SECOND, 8304 + 23), 8304 + 16),
    "a flipped byte of a block's body": refused(flipped(SECOND, 8256 + 40), 8256),
    "a flipped byte of a block's padding": refused(flipped(SECOND, 8303), 8256),
    "a number used twice": refused(hash_file([(0, [(1, b"a", b"1")]), (0, [(1, b"b", b"2")])], 2, 1), 8304),
    "a wrong count of records": refused(hash_file([(0, [(1, b"a", b"1")])], 2, 1), 32),
    "a next number that is used": refused(hash_file([(5, [(1, b"a", b"1")])], 1, 5), 32),
    "a next number that is too great to write": ({"x.tkh": LATE}, [
        Step(["set", "x.tkh", "b", "2"], 3, err=b"file 0 refused at place 48\n", files={"x.tkh": LATE}),
        Step(["remove", "x.tkh", "a"], 3, err=b"file 0 refused at place 48\n", files={"x.tkh": LATE}),
        Step(["get", "x.tkh", "a"], 0, out=b"1\n", files={"x.tkh": LATE})]),
    "a link that leads to its own block": refused(
        hash_file([(0, [(1, b"a", b"1")])], 1, 1, p=0)[:88] + (72).to_bytes(8, "big") + hash_file([(0, [(1, b"a", b"1")])], 1, 1, p=0)[96:], 88),
    "a file without its last group": refused(SECOND[:8304], 32),
    "each byte of the header changed": table([(flipped(FIRST, at), 32 * (at // 32)) for at in range(64)]),
    "each fault before all later ones": table([(crafted(*each_from(i)), place) for i, (_, place) in enumerate(FAULTS)]),
    "each fault alone": table([(crafted(what), place) for what, place in FAULTS]),
    "no fault but a great next number": ({"x.tkh": crafted("next")}, [
        Step(["set", "x.tkh", "c", "3"], 3, err=b"file 0 refused at place 48\n", files={"x.tkh": crafted("next")}),
        Step(["remove", "x.tkh", "a"], 3, err=b"file 0 refused at place 48\n", files={"x.tkh": crafted("next")}),
        Step(["get", "x.tkh", "b"], 0, out=b"22\n", files={"x.tkh": crafted("next")})]),
    "a link of an earlier block before a body of a later one": refused(
        crafted("body")[:88] + (8).to_bytes(8, "big") + crafted("body")[96:], 88),
    "a block's text inside a value": ({"x.tkh": INSIDE}, [
        Step(["get", "x.tkh", "x"], 6, err=b"answer NOT_FOUND_ERROR\n", files={"x.tkh": INSIDE}),
        Step(["get", "x.tkh", "a"], 0, out=INSIDE[8256 + 41:8256 + 41 + 48] + b"\n", files={"x.tkh": INSIDE})]),
    "a group that is cut off is not restored": ({"m.tkh": CUT}, [
        Step(["get", "m.tkh", "c"], 3, err=b"file 0 refused at place 32\n", files={"m.tkh": CUT}),
        Step(["restore", "m.tkh", "n.tkh"], 0, files={"m.tkh": CUT, "n.tkh": one_set(b"c", b"3")}),
        Step(["get", "n.tkh", "c"], 0, out=b"3\n", files={"m.tkh": CUT, "n.tkh": one_set(b"c", b"3")}),
        Step(["get", "n.tkh", "a"], 6, err=b"answer NOT_FOUND_ERROR\n", files={"m.tkh": CUT, "n.tkh": one_set(b"c", b"3")})]),
    "a file that was left open is restored": restores(SECOND[:32] + left_open() + SECOND[64:], [(b"a", b"1"), (b"b", b"22")]),
    "a closed file is restored": restores(AGAIN, [(b"a", b"2")]),
    "a file without records is restored": restores(REMOVED, []),
    "a file that is cut in its padding is restored whole": restores(SECOND[:-1], [(b"a", b"1"), (b"b", b"22")]),
    "heads and links are not looked at": restores(SECOND[:64] + b"\xff" * 8192 + SECOND[8256:8272] + b"\xff" * 8 + SECOND[8280:], [(b"a", b"1"), (b"b", b"22")]),
    "what stands behind a broken block is not restored": restores(flipped(MANY, 8256 + 56 * 3 + 40), [(b"key 0", b"value 0")]),
    "many records are restored": restores(MANY[:-7], [(b"key %d" % i, b"value %d" % i) for i in range(1499)]),
    "a header alone is restored": restores(SECOND[:32], []),
    "tree pages are restored, and refused when they are opened": ({"x.tkh": PAGES}, [
        Step(["restore", "x.tkh", "y.tkh"], 0, files={"x.tkh": PAGES, "y.tkh": PAGES}),
        Step(["get", "y.tkh", "a"], 3, err=b"file 0 refused at place 8\n", files={"x.tkh": PAGES, "y.tkh": PAGES})]),
    "a file of another kind is not restored": ({"x.tkh": UPDATING}, [
        Step(["restore", "x.tkh", "y.tkh"], 3, err=b"file 0 refused at place 8\n", files={"x.tkh": UPDATING})]),
    "no file to restore": ({"e.tkh": b"", "h.tkh": flipped(SECOND, 31), "b.tkh": b"?"}, [
        Step(["restore", old, new], 3, err=b"file 0 refused at place 0\n", files={"e.tkh": b"", "h.tkh": flipped(SECOND, 31), "b.tkh": b"?"})
        for old in ("absent.tkh", "e.tkh", "h.tkh", "b.tkh") for new in ("y.tkh", "b.tkh", "e.tkh") if old != new]),
    "a new file that has bytes": ({"x.tkh": SECOND, "y.tkh": b"?"}, [
        Step(["restore", "x.tkh", "y.tkh"], 7, err=b"file 1 exists\n", files={"x.tkh": SECOND, "y.tkh": b"?"})]),
    "a new file that is empty": ({"x.tkh": FIRST, "y.tkh": b""}, [
        Step(["restore", "--", "x.tkh", "y.tkh"], 0, files={"x.tkh": FIRST, "y.tkh": FIRST})]),
    "words that restore nothing": ({"x.tkh": FIRST}, [
        Step(["restore", *words], 1, err=b"usage\n", files={"x.tkh": FIRST})
        for words in ((), ("x.tkh",), ("x.tkh", "x.tkh"), ("x.tkh", "y.tkt"), ("x.tkh", "y.tkh", "z.tkh"), ("x.tkh", "y.tkh", "--force"))]),
    "a file of tree pages": refused(hash_file([(0, [(1, b"a", b"1")])], 1, 1, kind=3, order=1), 8),
}


def found_in(folder):
    found = {}
    for top, _, names in os.walk(folder):
        for name in names:
            path = os.path.join(top, name)
            with open(path, "rb") as it:
                found[os.path.relpath(path, folder)] = it.read()
    return found


def run(folder, step):
    """Runs a step in its row's folder."""
    words = [word.replace(HERE, folder) if isinstance(word, str) else word for word in step.words]
    with open(step.out_to or os.devnull, "wb") as taker:
        out = taker if step.out_to else subprocess.PIPE
        return subprocess.run([step.program, *words], cwd=folder, stdin=subprocess.DEVNULL, stdout=out, stderr=subprocess.PIPE, timeout=60)


def wrong(folder, step):
    """What is not as the step wants it."""
    ran = run(folder, step)
    files = found_in(folder)
    faults = []
    for what, got, wanted in [
        ("status", ran.returncode, step.status),
        ("standard output", ran.stdout or b"", step.out),
        ("standard error", ran.stderr, step.err),
        ("names of files", sorted(files), sorted(step.files)),
    ]:
        if got != wanted:
            faults.append(f"{what}: {got!r} and not {wanted!r}")
    for name, text in step.files.items():
        if name in files and files[name] != text:
            at = next((i for i, (a, b) in enumerate(zip(files[name], text)) if a != b), min(len(files[name]), len(text)))
            faults.append(f"{name}: {len(files[name])} bytes and not {len(text)}, first other at {at}")
    for name, wanted in step.sums.items():
        if hashlib.sha256(files.get(name, b"")).hexdigest() != wanted:
            faults.append(f"{name}: another sum")
    return faults


def make(folder, files):
    """Writes a row's files, and answers whether each has the mode that it wants."""
    bound = True
    for name, text in files.items():
        path = os.path.join(folder, name)
        os.makedirs(os.path.dirname(path), exist_ok=True)
        with open(path, "wb") as it:
            it.write(text)
        if isinstance(text, ReadOnly):
            os.chmod(path, 0o444)
            bound = bound and not os.access(path, os.W_OK)
    return bound


def passes(name, files, steps):
    """Whether a row passes, or None where this machine can't show it."""
    for step in steps:
        if step.out_to and not os.path.exists(step.out_to):
            print(f"{name}: left out, since there is no {step.out_to}")
            return None
    with tempfile.TemporaryDirectory() as folder:
        if not make(folder, files):
            print(f"{name}: left out, since this user may write every file")
            return None
        for number, step in enumerate(steps, 1):
            for fault in wrong(folder, step):
                print(f"{name}, step {number}: {fault}")
                return False
    return True


def main():
    if not os.access(PROGRAM, os.X_OK):
        if os.environ.get("CI") != "true":
            print("rows: skipped, since the program isn't built")
            return 0
        print("the program isn't built, so no row was run")
        print(f"rows: 0 passed, {len(ROWS)} failed")
        return 1
    results = [passes(name, files, steps) for name, (files, steps) in ROWS.items()]
    print(f"rows: {results.count(True)} passed, {results.count(False)} failed")
    return int(False in results)


if __name__ == "__main__":
    sys.exit(main())
