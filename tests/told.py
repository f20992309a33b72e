#!/usr/bin/env python3
"""Decides whether the output of a script is told: by one order of its calls, in which a plain map gives every line.

    told.py SCRIPT OUTPUT [--order NAME] [--workers N] [--records FLAT] [--read_only] [--limit N --size N]

It reads docs/FORMATS.md's grammar of scripts and output by itself, and shares nothing with the crates. Lines with a number
are made on a map in the order of their numbers; a line without one must have a cause at a point between its worker's number
before it and the one after it. `--order` is hash (the default), bytes, case, decimal or hex; `--records` names a flat text
of the first records; `--limit` with `--size` (the file's length at the opening) judges FULL for an appending hash file.
With no words it runs its own rows. The gate doesn't run it yet, since nothing makes an output so far.
"""
import sys

STATUSES = """SUCCESS SYSTEM_ERROR NOT_IMPLEMENTED_ERROR PRECONDITION_ERROR INVALID_ARGUMENT_ERROR NOT_FOUND_ERROR
INFEASIBLE_ERROR DUPLICATION_ERROR BROKEN_DATA_ERROR NO_MEMORY FULL LIMIT TOO_LONG""".split()
ONLY_READ = "get getmulti count sync first last next previous jump lower upper iget".split()
NEED_ORDER = "last previous lower upper".split()
NEED_PLACE = "next previous iremove iget iset".split()
MAX_KEY, MAX_VALUE, LEAST = 65_535, 16_777_215, -(2**63)
KEEP, DROP = ("keep",), ("drop",)


class Refused(Exception):
    pass


def fail_unless(holds, why):
    if not holds:
        raise Refused(why)


def mix(key):
    x = 14695981039346656037
    for byte in key:
        x = (x ^ byte) * 1099511628211 % 2**64
    x ^= x >> 33
    x = x * 0xFF51AFD7ED558CCD % 2**64
    x ^= x >> 33
    x = x * 0xC4CEB9FE1A85EC53 % 2**64
    return x ^ x >> 33


def leading(text, digits, base):
    end = 0
    while end < len(text) and text[end:end + 1] in digits:
        end += 1
    return min(int(text[:end] or b"0", base), 2**127 - 1)


def decimal_of(key):
    sign = -1 if key[:1] == b"-" else 1
    return sign * leading(key[1:] if key[:1] in (b"+", b"-") else key, [b"%d" % d for d in range(10)], 10)


def hex_of(key):
    return leading(key, [bytes([b]) for b in b"0123456789abcdefABCDEF"], 16)


ORDERS = {
    "hash": lambda k: (mix(k), k),
    "bytes": lambda k: k,
    "case": lambda k: (k.lower(), k),
    "decimal": lambda k: (decimal_of(k), k),
    "hex": lambda k: (hex_of(k), k),
}


def unescape(field):
    out, at = bytearray(), 0
    while at < len(field):
        if field[at] != 0x5C:
            out.append(field[at])
            at += 1
            continue
        short = {b"t": 9, b"n": 10, b"\\": 0x5C}.get(field[at + 1:at + 2])
        if short is not None:
            out.append(short)
            at += 2
            continue
        digits = field[at + 2:at + 4]
        good = len(digits) == 2 and all(bytes([d]) in [bytes([b]) for b in b"0123456789abcdefABCDEF"] for d in digits)
        fail_unless(field[at + 1:at + 2] == b"x" and good, "a bad escape")
        out.append(int(digits, 16))
        at += 4
    return bytes(out)


def lines_of(text):
    lines = text.split(b"\n")
    return lines[:-1] if lines[-1] == b"" else lines


def number_in(field, most):
    fail_unless(field and all(48 <= b <= 57 for b in field) and int(field) <= most, "no such number")
    return int(field)


def signed_in(field):
    return -number_in(field[1:], 2**63) if field[:1] == b"-" else number_in(field, 2**63 - 1)


def key_in(field):
    fail_unless(len(field) <= MAX_KEY, "a key that is too long")
    return field


def value_in(field):
    fail_unless(len(field) <= MAX_VALUE, "a value that is too long")
    return field


def form_in(words):
    def form(field):
        if field in words:
            return field
        fail_unless(field[:1] == b"=", "no such form")
        return b"=" + value_in(field[1:])
    return form


def word_in(*words):
    def word(field):
        fail_unless(field in words, "no such word")
        return field
    return word


EXPECTED, DESIRED = form_in([b"absent", b"any"]), form_in([b"remove", b"leave"])
FLAG = word_in(b"0", b"1")
KINDS = {
    "get": [key_in], "remove": [key_in], "set": [key_in, value_in], "add": [key_in, value_in],
    "append": [key_in, value_in, lambda d: d], "cas": [key_in, EXPECTED, DESIRED],
    "increment": [key_in, signed_in, signed_in], "rekey": [key_in, key_in, word_in(b"-", b"o", b"c", b"oc")],
    "pop": [], "each": [value_in], "count": [], "clear": [], "sync": [word_in(b"hard", b"soft")],
    "first": [], "last": [], "next": [], "previous": [], "iremove": [], "jump": [key_in],
    "lower": [key_in, FLAG], "upper": [key_in, FLAG], "iget": [], "iset": [value_in],
}


def grouped(fields, size):
    fail_unless(len(fields) % size == 0, "a group that lacks a field")
    return [fields[at:at + size] for at in range(0, len(fields), size)]


def step_in(fields):
    op, key, value = fields
    word_in(b"get", b"set", b"add", b"append", b"remove")(op)
    fail_unless(op not in (b"get", b"remove") or value == b"", "a value where there is none")
    return op, key_in(key), value_in(value)


def call_in(name, fields):
    if name in KINDS:
        fail_unless(len(fields) == len(KINDS[name]), "another number of arguments")
        return [read(field) for read, field in zip(KINDS[name], fields)]
    if name == "getmulti":
        fail_unless(1 <= len(fields) <= 256, "1 to 256 keys")
        return [key_in(field) for field in fields]
    if name == "multi":
        steps = [step_in(step) for step in grouped(fields, 3)]
        fail_unless(1 <= len(steps) <= 256, "1 to 256 steps")
        return steps
    fail_unless(name == "casmulti" and fields, "no such call")
    many = number_in(fields[0], 256)
    fail_unless(2 * many <= len(fields) - 1, "fewer pairs")
    expected = [(key_in(k), EXPECTED(e)) for k, e in grouped(fields[1:1 + 2 * many], 2)]
    desired = [(key_in(k), DESIRED(d)) for k, d in grouped(fields[1 + 2 * many:], 2)]
    fail_unless(len(desired) <= 256 and expected + desired, "1 to 256 pairs")
    return [expected, desired]


def script_in(text, workers):
    """The lines of a script: worker, name, arguments."""
    lines = []
    for number, line in enumerate(lines_of(text), 1):
        try:
            fields = [unescape(field) for field in line.split(b"\t")]
            fail_unless(len(fields) >= 2, "no call")
            name = fields[1].decode("latin1")
            lines.append((number_in(fields[0], workers - 1), name, call_in(name, fields[2:])))
        except Refused as why:
            raise Refused(f"script line {number}: {why}") from None
    return lines


def output_in(text):
    """The lines of an output: number or None, worker, line, status, fields."""
    fail_unless(text == b"" or text.endswith(b"\n"), "the output's last line has no LF")
    found = []
    for line in lines_of(text):
        parts = line.split(b"\t")
        fail_unless(len(parts) >= 4, "an output line lacks a field")
        number = None if parts[0] == b"-" else number_in(parts[0], 2**64 - 1)
        status = parts[3].decode("latin1")
        fail_unless(status in STATUSES, f"no status {status}")
        fields = []
        for part in parts[4:]:
            fail_unless(part == b"" or part[:1] == b"=", "a field is empty or begins with =")
            fields.append(unescape(part[1:]) if part else None)
        found.append((number, number_in(parts[1], 63), number_in(parts[2], 10**6), status, fields))
    return found


class Map:
    """The plain map: records, and the touches of the call that is being made."""

    def __init__(self, order, records=()):
        self.place = ORDERS[order]
        self.unordered = order == "hash"
        self.records = dict(records)

    def keys(self):
        return sorted(self.records, key=self.place)

    def search(self, up, key=None, inclusive=False):
        keys = self.keys() if up else self.keys()[::-1]
        for other in keys:
            a, b = self.place(other), None if key is None else self.place(key)
            if key is None or (inclusive and a == b) or (a > b if up else a < b):
                return other
        return None

    def touch(self, key, action):
        if action[0] == "put":
            self.records[key] = action[1]
        elif action == DROP:
            self.records.pop(key, None)

    def run(self, plans):
        """Makes the plans in turn; the values that they saw, or the length of the first that is too long."""
        before, seen = dict(self.records), []
        for key, act in plans:
            was = self.records.get(key)
            action = act(was)
            seen.append(was)
            if action[0] == "put" and len(action[1]) > MAX_VALUE:
                self.records = before
                return None
            self.touch(key, action)
        return seen


def put(value):
    return lambda was: ("put", value)


def always(action):
    return lambda was: action


def is_met(form, was):
    if form == b"absent":
        return was is None
    return was is not None and (form == b"any" or form[1:] == was)


def wanted(form):
    return {b"remove": DROP, b"leave": KEEP}.get(form, ("put", form[1:]))


def counted(n, initial, was):
    """Status, number and action of an increment."""
    if was is not None and len(was) != 8:
        return "INVALID_ARGUMENT_ERROR", None, KEEP
    number = initial if was is None else int.from_bytes(was, "big", signed=True)
    if n == LEAST:
        return "SUCCESS", number, KEEP
    if not LEAST <= number + n < 2**63:
        return "INFEASIBLE_ERROR", None, KEEP
    return "SUCCESS", number + n, ("put", (number + n).to_bytes(8, "big", signed=True))


def one(m, key, status, fields, act):
    return status, fields, m.run([(key, act)])


def op_act(op, value):
    return {
        b"get": always(KEEP), b"set": put(value), b"remove": lambda was: KEEP if was is None else DROP,
        b"add": lambda was: ("put", value) if was is None else KEEP,
        b"append": lambda was: ("put", (was or b"") + value),
    }[op]


def there(found):
    return "NOT_FOUND_ERROR" if found is None else "SUCCESS"


def key_reply(m, name, args):
    """Status, fields and what was seen, of a call at keys; what was seen is None where a value was too long."""
    was = m.records.get(args[0]) if name in KINDS and args else None
    if name == "get":
        return one(m, args[0], there(was), [was], always(KEEP))
    if name == "remove":
        return one(m, args[0], there(was), [], op_act(b"remove", b""))
    if name == "set":
        return one(m, args[0], "SUCCESS", [], put(args[1]))
    if name == "add":
        return one(m, args[0], "SUCCESS" if was is None else "DUPLICATION_ERROR", [], op_act(b"add", args[1]))
    if name == "append":
        return one(m, args[0], "SUCCESS", [], put(args[1] if was is None else was + args[2] + args[1]))
    if name == "cas":
        met = is_met(args[1], was)
        return one(m, args[0], "SUCCESS" if met else "INFEASIBLE_ERROR", [was], always(wanted(args[2]) if met else KEEP))
    if name == "increment":
        status, number, action = counted(args[1], args[2], was)
        return one(m, args[0], status, [None if number is None else b"%d" % number], always(action))
    if name == "getmulti":
        values = [m.records.get(key) for key in args]
        return there(None if None in values else 0), values, m.run([(key, always(KEEP)) for key in args])
    if name == "casmulti":
        met = all(is_met(form, m.records.get(key)) for key, form in args[0])
        plans = [(key, always(KEEP)) for key, _ in args[0]]
        plans += [(key, always(wanted(form) if met else KEEP)) for key, form in args[1]]
        return "SUCCESS" if met else "INFEASIBLE_ERROR", [], m.run(plans)
    if name == "multi":
        seen = m.run([(key, op_act(op, value)) for op, key, value in args])
        return "SUCCESS", seen if seen is not None else [None] * len(args), seen
    return rekey_reply(m, *args)


def rekey_reply(m, old, new, flags):
    was = m.records.get(old)
    if old == new or was is None:
        return there(was), [], []
    if new in m.records and b"o" not in flags:
        return "DUPLICATION_ERROR", [], []
    drop = KEEP if b"c" in flags else DROP
    return "SUCCESS", [], m.run([(new, put(was)), (old, always(drop))])


def whole_reply(m, name, args):
    if name == "each":
        seen = m.run([(key, lambda was: ("put", was + args[0])) for key in m.keys()])
        return "SUCCESS", [b"%d" % len(m.records)], seen
    if name == "pop":
        found = m.search(True)
        fields = [None, None] if found is None else [found, m.records.pop(found)]
        return there(found), fields, []
    if name == "count":
        return "SUCCESS", [b"%d" % len(m.records)], []
    if name == "clear":
        m.records = {}
    return "SUCCESS", [], []


def at(found):
    return None if found is None else ("at", found)


def iterator_reply(m, name, args, place):
    """Status, fields, what was seen and the new place, of a call of the iterator that is asked."""
    key = place[1] if place else None
    if name in ("first", "last"):
        return "SUCCESS", [], [], at(m.search(name == "first"))
    if name in ("lower", "upper"):
        return "SUCCESS", [], [], at(m.search(name == "upper", args[0], args[1] == b"1"))
    if name == "jump" and m.unordered:
        return there(m.records.get(args[0])), [], [], at(args[0] if args[0] in m.records else None)
    if name == "jump":
        return "SUCCESS", [], [], at(m.search(True, args[0], True))
    if name == "previous":
        return "SUCCESS", [], [], at(m.search(False, key, place[0] == "after"))
    if name == "next" and place[0] == "at":
        return "SUCCESS", [], [], at(m.search(True, key))
    found = key if place[0] == "at" else m.search(True, key)
    if name == "next":
        return there(found), [], [], None if found is None else ("after", found)
    return at_record(m, name, args, place, found)


def at_record(m, name, args, place, found):
    was = m.records.get(found) if found is not None else None
    stays = place if place[0] == "at" else at(found)
    if name == "iget":
        return there(was), [None, None] if was is None else [found, was], [], stays
    if name == "iset":
        return there(was), [], m.run([(found, put(args[0]))]) if was is not None else [], stays
    if was is not None:
        m.touch(found, DROP)
        return "SUCCESS", [], [], ("after", found)
    return "NOT_FOUND_ERROR", [], [], stays


def reply(m, name, args, place):
    """Makes a call: status, fields and the new place of its worker's iterator."""
    if name in NEED_PLACE + ["first", "last", "jump", "lower", "upper"]:
        status, fields, seen, place = iterator_reply(m, name, args, place)
    elif name in ("each", "pop", "count", "clear", "sync"):
        status, fields, seen = whole_reply(m, name, args)
    else:
        status, fields, seen = key_reply(m, name, args)
    return ("TOO_LONG", [None] * len(fields), place) if seen is None else (status, fields, place)


def early(m, writable, name, place):
    if name in NEED_ORDER and m.unordered:
        return "NOT_IMPLEMENTED_ERROR"
    if name in NEED_PLACE and place is None:
        return "NOT_FOUND_ERROR"
    return "PRECONDITION_ERROR" if name not in ONLY_READ and not writable else None


def extents(before, after, cleared):
    """What the net changes of a call take in an appending hash file."""
    def extent(*parts):
        return max(48, (44 + sum(map(len, parts)) + 7) // 8 * 8)
    if cleared:
        return extent()
    keys = [k for k in {**before, **after} if before.get(k) != after.get(k)]
    return sum(extent(k, after[k]) if k in after else extent(k) for k in keys)


class Checker:
    def __init__(self, script, output, m, writable=True, limit=None, size=0):
        self.script, self.output, self.map, self.writable = script, output, m, writable
        self.limit, self.size = limit, size
        self.places = {}
        self.states = [dict(m.records)]  # the records before each number
        self.sizes = [size]

    def numbers(self):
        """The places of lines by their numbers, which are 0 to n - 1, each once, and rise for each worker."""
        by_number, last = {}, {}
        for i, (number, worker, _, _, _) in enumerate(self.output):
            if number is None:
                continue
            fail_unless(number not in by_number, f"number {number} stands at two lines")
            fail_unless(number > last.get(worker, -1), f"line {i + 1}: its worker's numbers fall")
            by_number[number] = i
            last[worker] = number
        fail_unless(sorted(by_number) == list(range(len(by_number))), "the numbers have a gap")
        return [by_number[n] for n in range(len(by_number))]

    def make(self, i):
        """The line of the next number, made on the map so far."""
        worker, name, args = self.script[i]
        _, _, _, status, fields = self.output[i]
        place = self.places.get(worker)
        fail_unless(early(self.map, self.writable, name, place) is None, f"line {i + 1}: it isn't asked, and has a number")
        before = dict(self.map.records)
        wanted_status, wanted_fields, place = reply(self.map, name, args, place)
        if status == "SYSTEM_ERROR":
            wanted_status, wanted_fields = status, [None] * len(wanted_fields)
        else:
            self.places[worker] = place
        fail_unless(status == wanted_status, f"line {i + 1}: {status}, and the map gives {wanted_status}")
        fail_unless(fields == wanted_fields, f"line {i + 1}: the fields are {fields}, and the map gives {wanted_fields}")
        taken = extents(before, self.map.records, name == "clear")
        over = self.limit is not None and taken and self.sizes[-1] + taken > self.limit
        fail_unless(not over or status == "SYSTEM_ERROR", f"line {i + 1}: it is over the limit, and was made")
        self.states.append(dict(self.map.records))
        self.sizes.append(self.sizes[-1] + taken)

    def is_full(self, i, low, high):
        """Over the limit at a point from low to high."""
        worker, name, args = self.script[i]
        for n in range(low, high + 1):
            m = Map("hash", self.states[n])
            m.place, m.unordered = self.map.place, self.map.unordered
            reply(m, name, args, self.places_at.get(worker))
            taken = extents(self.states[n], m.records, name == "clear")
            if taken and self.sizes[n] + taken > self.limit:
                return True
        return False

    def unnumbered(self, i, low, high, failed):
        """A line without a number has a cause."""
        worker, name, _ = self.script[i]
        _, _, _, status, fields = self.output[i]
        fail_unless(fields == [], f"line {i + 1}: no number, and fields")
        if status == "NO_MEMORY":
            return
        soon = early(self.map, self.writable, name, self.places_at.get(worker))
        fail_unless(soon is None or status == soon, f"line {i + 1}: {status} where the answer is {soon}")
        if soon is not None:
            return
        causes = {"SYSTEM_ERROR": True, "BROKEN_DATA_ERROR": failed}
        if status == "FULL" and self.limit is not None:
            causes["FULL"] = self.is_full(i, low, high)
        fail_unless(causes.get(status, False), f"line {i + 1}: {status} without a number, and no cause")

    def check(self):
        fail_unless(len(self.output) == len(self.script), "another number of lines")
        for i, (_, worker, line, _, _) in enumerate(self.output):
            fail_unless((worker, line) == (self.script[i][0], i + 1), f"line {i + 1}: another worker or line")
        order = self.numbers()
        after = {}  # each worker's iterator behind its numbered lines
        for i in order:
            self.make(i)
            after[i] = self.places.get(self.script[i][0])
        failed = any(status == "SYSTEM_ERROR" for _, _, _, status, _ in self.output)
        self.places_at, low, ended = {}, {}, set()
        for i, (number, worker, _, status, _) in enumerate(self.output):
            fail_unless(worker not in ended or status == "NO_MEMORY", f"line {i + 1}: its worker had ended")
            if status == "NO_MEMORY":
                fail_unless(number is None, f"line {i + 1}: NO_MEMORY with a number")
                ended.add(worker)
            if number is not None:
                self.places_at[worker], low[worker] = after[i], number + 1
                continue
            later = [o[0] for o in self.output[i + 1:] if o[1] == worker and o[0] is not None]
            self.unnumbered(i, low.get(worker, 0), later[0] if later else len(order), failed)


def records_in(text):
    """The records of a flat text."""
    fail_unless(text[:8] == b"TKPFLAT\n", "no flat text")
    records, at_byte = {}, 8
    while at_byte < len(text):
        key, value = int.from_bytes(text[at_byte:at_byte + 2], "big"), int.from_bytes(text[at_byte + 2:at_byte + 6], "big")
        at_byte += 6
        records[text[at_byte:at_byte + key]] = text[at_byte + key:at_byte + key + value]
        at_byte += key + value
    return records


def fault_of(script, output, order="hash", workers=64, records=(), **more):
    """Why the output isn't told of the script, or none."""
    try:
        Checker(script_in(script, workers), output_in(output), Map(order, records), **more).check()
    except Refused as why:
        return str(why)
    return None


def bars(text):
    return text.replace("|", "\t").encode("latin1")


# A script, an output, more words for the checker, and whether it is told; `|` stands for a TAB.
ROWS = [
    ("0|set|a|1\n0|get|a\n0|get|b\n", "0|0|1|SUCCESS\n1|0|2|SUCCESS|=1\n2|0|3|NOT_FOUND_ERROR|\n", {}, True),
    ("0|set|a|1\n0|get|a\n", "0|0|1|SUCCESS\n1|0|2|SUCCESS|=2\n", {}, False),
    ("0|set|a|1\n0|get|a\n", "1|0|1|SUCCESS\n0|0|2|NOT_FOUND_ERROR|\n", {}, False),
    ("0|set|a|1\n1|get|a\n", "1|0|1|SUCCESS\n0|1|2|NOT_FOUND_ERROR|\n", {}, True),
    ("0|set|a|1\n1|get|a\n", "1|0|1|SUCCESS\n1|1|2|SUCCESS|=1\n", {}, False),
    ("0|set|a|1\n1|get|a\n", "0|0|1|SUCCESS\n2|1|2|SUCCESS|=1\n", {}, False),
    ("0|set|a|1\n1|get|a\n", "0|0|1|SUCCESS\n", {}, False),
    ("0|set|a|1\n1|get|a\n", "0|0|1|SUCCESS\n-|1|2|NO_MEMORY\n", {}, True),
    ("0|count\n0|count\n", "-|0|1|NO_MEMORY\n0|0|2|SUCCESS|=0\n", {}, False),
    ("0|set|a|1\n0|rekey|a|a|-\n0|get|a\n0|rekey|z|z|oc\n", "0|0|1|SUCCESS\n1|0|2|SUCCESS\n2|0|3|SUCCESS|=1\n3|0|4|NOT_FOUND_ERROR\n", {}, True),
    ("0|set|a|1\n0|casmulti|2|a|=1|b|=9|a|=5|b|=6\n0|get|a\n", "0|0|1|SUCCESS\n1|0|2|INFEASIBLE_ERROR\n2|0|3|SUCCESS|=1\n", {}, True),
    ("0|multi|append|k|x|append|k|y\n0|get|k\n", "0|0|1|SUCCESS||=x\n1|0|2|SUCCESS|=xy\n", {}, True),
    ("0|increment|n|9223372036854775807|0\n0|increment|n|1|0\n0|increment|m|-9223372036854775808|7\n0|get|m\n",
     "0|0|1|SUCCESS|=9223372036854775807\n1|0|2|INFEASIBLE_ERROR|\n2|0|3|SUCCESS|=7\n3|0|4|NOT_FOUND_ERROR|\n", {}, True),
    ("0|set|b|1\n0|set|d|2\n0|lower|b|0\n0|iget\n0|lower|c|0\n0|iget\n",
     "0|0|1|SUCCESS\n1|0|2|SUCCESS\n2|0|3|SUCCESS\n-|0|4|NOT_FOUND_ERROR\n3|0|5|SUCCESS\n4|0|6|SUCCESS|=b|=1\n", {"order": "bytes"}, True),
    ("0|last\n", "-|0|1|NOT_IMPLEMENTED_ERROR\n", {}, True),
    ("0|last\n", "0|0|1|SUCCESS\n", {}, False),
    ("0|set|a|1\n0|get|a\n", "-|0|1|PRECONDITION_ERROR\n0|0|2|NOT_FOUND_ERROR|\n", {"writable": False}, True),
    ("0|set|a|1\n", "-|0|1|PRECONDITION_ERROR\n", {}, False),
    ("0|set|a|1\n0|set|b|2\n0|get|b\n", "0|0|1|SUCCESS\n-|0|2|FULL\n1|0|3|NOT_FOUND_ERROR|\n", {"limit": 120, "size": 72}, True),
    ("0|set|a|1\n0|set|b|2\n", "0|0|1|SUCCESS\n1|0|2|SUCCESS\n", {"limit": 120, "size": 72}, False),
    ("0|set|a|1\n0|get|a\n", "-|0|1|FULL\n0|0|2|NOT_FOUND_ERROR|\n", {"limit": 120, "size": 72}, False),
    ("0|get|a\n", "-|0|1|BROKEN_DATA_ERROR\n", {}, False),
    ("0|set|a|1\n0|get|a\n", "0|0|1|SYSTEM_ERROR\n-|0|2|BROKEN_DATA_ERROR\n", {}, True),
    ("0|get|a\n", "0|0|1|SYSTEM_ERROR|=1\n", {}, False),
    ("0|set|k1|v\n0|set|k2|v\n0|first\n0|iremove\n0|next\n0|iremove\n0|count\n",
     "0|0|1|SUCCESS\n1|0|2|SUCCESS\n2|0|3|SUCCESS\n3|0|4|SUCCESS\n4|0|5|SUCCESS\n5|0|6|NOT_FOUND_ERROR\n6|0|7|SUCCESS|=1\n", {"order": "bytes"}, True),
    ("0|set|b|2\n0|set|a|1\n0|pop\n0|count\n0|each|x\n0|get|b\n",
     "0|0|1|SUCCESS\n1|0|2|SUCCESS\n2|0|3|SUCCESS|=a|=1\n3|0|4|SUCCESS|=1\n4|0|5|SUCCESS|=1\n5|0|6|SUCCESS|=2x\n", {"order": "bytes"}, True),
    ("0|got|a\n", "0|0|1|SUCCESS\n", {}, False),
]


def run_rows():
    failed = 0
    for i, (script, output, more, told) in enumerate(ROWS):
        why = fault_of(bars(script), bars(output), **more)
        if (why is None) != told:
            failed += 1
            print(f"row {i}: {why or 'told'}")
    print(f"told: {len(ROWS) - failed} passed, {failed} failed")
    return 1 if failed else 0


def main(words):
    if not words:
        return run_rows()
    script, output, *rest = words
    more, limits = {"workers": 64}, {}
    while rest:
        word = rest.pop(0)
        if word == "--read_only":
            more["writable"] = False
        elif word == "--order":
            more["order"] = rest.pop(0)
        elif word == "--records":
            with open(rest.pop(0), "rb") as it:
                more["records"] = records_in(it.read())
        elif word in ("--workers", "--limit", "--size"):
            limits[word[2:]] = int(rest.pop(0))
        else:
            print(__doc__)
            return 2
    with open(script, "rb") as it, open(output, "rb") as out:
        why = fault_of(it.read(), out.read(), **{**more, **limits})
    print(why or "told")
    return 1 if why else 0


if __name__ == "__main__":
    sys.exit(main(sys.argv[1:]))
