#!/usr/bin/env python3
"""What `cells replay` answers, as a plain Python program over dictionaries and the json module.

It is what bench/replay measures the program against, and answers the same bytes to the same lines. It shares
nothing with the program: the rules are written here once more. What is a text of JSON is as the json module has
it, which may differ at deep nesting and at numbers that no float holds.
"""
import json
import re
import sys

OPERATIONS = 64
BODY = 32_768
LINES = 4_096
OPEN_LEASES = 4_096
LEASES_A_PAGE = 100
CLAIMS_A_PAGE = 64
GREATEST_IDENTIFIER = 2**63 - 1
GREATEST_NUMBER = 2**64 - 1
GREATEST_CELL = 999
GREATEST_ATTEMPT = 2**62 - 1
WIDTHS = {1: 1_000_000}

KINDS = ("organization", "group", "project", "user")
ALPHABETS = {
    "organization_path": re.compile(r"[^a-z0-9_.-]"),
    "route": re.compile(r"[^a-z0-9_.\-/]"),
    "address": re.compile(r'[^!-~]|["\\]'),
    "ssh_key": re.compile(r"[^0-9a-f]"),
    "pages_domain": re.compile(r"[^a-z0-9.-]"),
}
SEGMENT = re.compile(r"[a-z0-9_][a-z0-9_.-]{0,62}")
LABEL = re.compile(r"(?!-)[a-z0-9-]{1,63}(?<!-)")
RESERVED = frozenset("admin api assets dashboard explore files help import oauth profile search uploads".split())
CAPITALS = str.maketrans("ABCDEFGHIJKLMNOPQRSTUVWXYZ", "abcdefghijklmnopqrstuvwxyz")
SIMPLE = re.compile(r"[0-9a-fA-F]{32}")
HYPHENATED = re.compile(r"([0-9a-fA-F]{8})-([0-9a-fA-F]{4})-([0-9a-fA-F]{4})-([0-9a-fA-F]{4})-([0-9a-fA-F]{12})")


class Fault(Exception):
    """A body is no request; its words name the reason, and its member where it is."""

    def __init__(self, words, member=None):
        self.words, self.member = words, member

    def body(self):
        if self.member is None:
            return {"fault": self.words}
        return {"fault": self.words, "member": self.member}


# Reading

def is_segment(part):
    return SEGMENT.fullmatch(part) is not None and not part.endswith((".", ".git", ".atom"))


def key_value(bucket, text):
    """The value that a bucket reads from a text, or None."""
    if not text or len(text.encode()) > 255:
        return None
    value = text.translate(CAPITALS)
    if ALPHABETS[bucket].search(value):
        return None
    if bucket == "organization_path":
        return value if is_segment(value) and value not in RESERVED else None
    if bucket == "route":
        parts = value.split("/")
        good = len(parts) <= 20 and all(map(is_segment, parts)) and parts[0] not in RESERVED
        return value if good else None
    if bucket == "ssh_key":
        return value if len(value) == 64 else None
    if bucket == "pages_domain":
        labels = value.split(".")
        return value if 2 <= len(labels) <= 8 and all(map(LABEL.fullmatch, labels)) else None
    return value


def lease_named(text):
    """The lease (cell, epoch, attempt) that a text of a UUID names, or None."""
    size = len(text)
    if size == 38 and text[0] == "{" and text[-1] == "}":
        text = text[1:-1]
    elif size == 45 and text.startswith("urn:uuid:"):
        text = text[9:]
    if size == 32:
        digits = text if SIMPLE.fullmatch(text) else None
    else:
        found = HYPHENATED.fullmatch(text)
        digits = "".join(found.groups()) if found else None
    if digits is None or digits[12:16] != "8000":
        return None
    low = int(digits[16:], 16)
    lease = int(digits[:4], 16), int(digits[4:12], 16), low & GREATEST_ATTEMPT
    within = 1 <= lease[0] <= GREATEST_CELL and 1 <= lease[1] and 1 <= lease[2]
    return lease if within and low >> 62 == 2 else None


def member(body, name, kind):
    if name not in body:
        raise Fault("missing", name)
    if type(body[name]) is not kind:
        raise Fault("wrong kind", name)
    return body[name]


def number(body, name, low, high):
    if name not in body:
        raise Fault("missing", name)
    value = body[name]
    if type(value) is not int:
        raise Fault("bad value" if type(value) is float else "wrong kind", name)
    if not low <= value <= high:
        raise Fault("bad value", name)
    return value


def cell_of(body):
    return number(body, "cell", 1, GREATEST_CELL)


def lease_of(body, name="lease"):
    lease = lease_named(member(body, name, str))
    if lease is None:
        raise Fault("bad value", name)
    return lease


def bucket_of(body):
    bucket = member(body, "bucket", str)
    if bucket not in ALPHABETS:
        raise Fault("bad value", "bucket")
    return bucket


def value_of(body, bucket):
    value = key_value(bucket, member(body, "value", str))
    if value is None:
        raise Fault("bad value", "value")
    return value


def create_of(element):
    """A create as its key, and its subject, subject_id, table and row."""
    if type(element) is not dict:
        raise Fault("wrong kind", "creates")
    bucket = bucket_of(element)
    value = value_of(element, bucket)
    subject = member(element, "subject", str)
    if subject not in KINDS:
        raise Fault("bad value", "subject")
    subject_id = number(element, "subject_id", 1, GREATEST_IDENTIFIER)
    table = number(element, "table", 1, 7)
    row = number(element, "row", 1, GREATEST_IDENTIFIER)
    return (bucket, value), subject, subject_id, table, row


def destroy_of(element):
    if type(element) is not dict:
        raise Fault("wrong kind", "destroys")
    bucket = bucket_of(element)
    return bucket, value_of(element, bucket)


def whole_number(text):
    """Digits as an integer; a number that no u64 is, as a float, which is a bad value everywhere."""
    return float(text) if text == "-0" else int(text)


def refuse_constant(text):
    raise ValueError(text)


DECODER = json.JSONDecoder(parse_constant=refuse_constant, parse_int=whole_number)


def body_of(line):
    try:
        text = line.decode()
        body = DECODER.decode(text)
        if "\\u" in text:
            json.dumps(body, ensure_ascii=False).encode()  # half a surrogate pair is no text
    except (ValueError, RecursionError):
        raise Fault("not json") from None
    if type(body) is not dict:
        raise Fault("not json")
    return body


# Writing

def lease_text(lease):
    cell, epoch, attempt = lease
    low = (2 << 62) + attempt
    return f"{cell:04x}{epoch >> 16:04x}-{epoch & 0xFFFF:04x}-8000-{low >> 48:04x}-{low & 0xFFFFFFFFFFFF:012x}"


def keyed(reply, key, **more):
    return {"bucket": key[0], **more, **reply, "value": key[1]}


# The service

class Service:
    """An empty service that knows cell 1, with one range given to it."""

    def __init__(self):
        self.holder = {}  # key: (cell, subject, subject_id, table, row)
        self.begun = {}  # lease: (creates, destroys)
        self.named = {}  # key: the open lease that names it
        self.open = {}  # cell: how many leases are open
        self.settled = {}  # lease: "committed" or "rolled_back"
        self.given = [(1, 1, 1, WIDTHS[1])]  # cell, number, low, high

    def answer(self, body):
        ask = member(body, "ask", str)
        if ask not in ASKS:
            raise Fault("bad value", "ask")
        return ASKS[ask](self, body)

    def covers(self, cell, row):
        return any(c == cell and low <= row <= high for c, _, low, high in self.given)

    def refusal(self, lease, creates, destroys, keys):
        """Why a lease that is neither open nor settled is not opened, as members of the reply."""
        cell = lease[0]
        if not 1 <= len(keys) <= OPERATIONS:
            return {"n": len(keys), "result": "count"}
        seen = set()
        for key in keys:
            if key in seen:
                return keyed({"result": "twice"}, key)
            seen.add(key)
        for create in creates:
            if not self.covers(cell, create[4]):
                return {"id": create[4], "result": "foreign_id"}
        if self.open.get(cell, 0) >= OPEN_LEASES:
            return {"result": "too_many_open"}
        for place, key in enumerate(keys):
            held = self.holder.get(key)
            if place < len(creates):
                if held is not None:
                    return keyed({"owner": held[0], "result": "owned"}, key)
            elif held is None or held[0] != cell:
                return keyed({"result": "not_owned"}, key)
            by = self.named.get(key)
            if by is not None:
                return keyed({"by": lease_text(by), "result": "leased"}, key)
        return None

    def begun_as(self, lease, creates, destroys):
        if lease in self.settled:
            return {"how": self.settled[lease], "result": "settled"}
        if lease in self.begun:
            same = self.begun[lease] == (creates, destroys)
            return {"result": "ok" if same else "other_operations"}
        keys = [create[0] for create in creates] + destroys
        reason = self.refusal(lease, creates, destroys, keys)
        if reason is not None:
            return reason
        self.begun[lease] = creates, destroys
        self.named.update(dict.fromkeys(keys, lease))
        self.open[lease[0]] = self.open.get(lease[0], 0) + 1
        return {"result": "ok"}

    def begin(self, body):
        lease = lease_of(body)
        creates = [create_of(element) for element in member(body, "creates", list)]
        destroys = [destroy_of(element) for element in member(body, "destroys", list)]
        if lease[0] not in WIDTHS:
            return no_cell(lease[0])
        return {"lease": lease_text(lease), "reply": "begun", **self.begun_as(lease, creates, destroys)}

    def close(self, lease, how):
        creates, destroys = self.begun.pop(lease)
        for create in creates:
            del self.named[create[0]]
        for key in destroys:
            del self.named[key]
        self.open[lease[0]] -= 1
        self.settled[lease] = how
        return creates, destroys

    def committed_as(self, lease):
        if lease in self.begun:
            creates, destroys = self.close(lease, "committed")
            for key in destroys:
                self.holder.pop(key, None)
            for key, *about in creates:
                self.holder[key] = (lease[0], *about)
            return "ok"
        return {"committed": "ok", "rolled_back": "was_rolled_back", None: "unknown"}[self.settled.get(lease)]

    def commit(self, body):
        lease = lease_of(body)
        if lease[0] not in WIDTHS:
            return no_cell(lease[0])
        return {"lease": lease_text(lease), "reply": "committed", "result": self.committed_as(lease)}

    def rollback(self, body):
        lease = lease_of(body)
        if lease[0] not in WIDTHS:
            return no_cell(lease[0])
        if lease in self.begun:
            self.close(lease, "rolled_back")
        result = "ok" if self.settled.setdefault(lease, "rolled_back") == "rolled_back" else "was_committed"
        return {"lease": lease_text(lease), "reply": "rolled_back", "result": result}

    def list(self, body):
        cell = cell_of(body)
        if "after" in body and body["after"] is None:
            after = (0, 0, 0)
        else:
            after = lease_of(body, "after")
        if cell not in WIDTHS:
            return no_cell(cell)
        leases = sorted(lease for lease in self.begun if lease[0] == cell and lease > after)
        texts = [lease_text(lease) for lease in leases[:LEASES_A_PAGE]]
        return {"cell": cell, "leases": texts, "more": len(leases) > LEASES_A_PAGE, "reply": "leases"}

    def range(self, body):
        cell = cell_of(body)
        asked = number(body, "number", 1, GREATEST_NUMBER)
        reply = {"cell": cell, "number": asked, "reply": "ranged"}
        if cell not in WIDTHS:
            return {**reply, "result": "unknown_cell"}
        mine = [(low, high) for c, _, low, high in self.given if c == cell]
        if asked > len(mine) + 1:
            return {**reply, "next": len(mine) + 1, "result": "too_far"}
        if asked <= len(mine):
            low, high = mine[asked - 1]
            return {**reply, "low": low, "high": high, "result": "ok"}
        last = self.given[-1][3] if self.given else 0
        if last + WIDTHS[cell] > GREATEST_IDENTIFIER:
            return {**reply, "last": last, "result": "exhausted"}
        self.given.append((cell, asked, last + 1, last + WIDTHS[cell]))
        return {**reply, "low": last + 1, "high": last + WIDTHS[cell], "result": "ok"}

    def claims(self, body):
        cell = cell_of(body)
        bucket = bucket_of(body)
        first = number(body, "first", 0, GREATEST_NUMBER)
        last = number(body, "last", first, GREATEST_NUMBER)
        after = number(body, "after", 0, GREATEST_IDENTIFIER)
        if cell not in WIDTHS:
            return no_cell(cell)
        found = sorted(
            (held[4], key[1], held)
            for key, held in self.holder.items()
            if held[0] == cell and key[0] == bucket and first <= held[4] <= last and held[4] > after
        )
        items = [
            {"row": row, "subject": held[1], "subject_id": held[2], "table": held[3], "value": value}
            for row, value, held in found[:CLAIMS_A_PAGE]
        ]
        return {"after": after, "bucket": bucket, "cell": cell, "first": first, "items": items, "last": last,
                "more": len(found) > CLAIMS_A_PAGE, "reply": "claims"}


ASKS = {"begin": Service.begin, "commit": Service.commit, "rollback": Service.rollback, "list": Service.list,
        "range": Service.range, "claims": Service.claims}
ENCODER = json.JSONEncoder(separators=(",", ":"), sort_keys=True)


def no_cell(cell):
    return {"cell": cell, "reply": "no_cell"}


def replay(source, out):
    service = Service()
    for given, line in enumerate(source):
        line = line.removesuffix(b"\n")
        if given >= LINES or len(line) > BODY:
            out.write(b"script %d\n" % (given + 1))
            return 4
        if not line:
            continue
        try:
            reply = service.answer(body_of(line))
        except Fault as fault:
            reply = fault.body()
        out.write(ENCODER.encode(reply).encode() + b"\n")
    return 0


if __name__ == "__main__":
    status = replay(sys.stdin.buffer, sys.stdout.buffer)
    sys.stdout.buffer.flush()
    sys.exit(status)
