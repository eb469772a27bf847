#!/usr/bin/env python3
"""What record_bench does, as a plain Python program over dictionaries: bench/records measures the program against it.

Words: how many users, and `times` (the group stands behind them) or `first` (it stands before them).
"""
import re
import sys
import time

PROJECTS, RENAMES, PATHS = 30, 100, 1_000
OPERATIONS = 64
ORGANIZATION, GROUP, PROJECT, USER = range(1, 5)
ABOVE = {GROUP: (ORGANIZATION, GROUP), PROJECT: (GROUP, USER), USER: (ORGANIZATION,)}
BUCKET = {ORGANIZATION: "organization_path", GROUP: "route", PROJECT: "route", USER: "route"}
SEGMENT = re.compile(r"[a-z0-9_][a-z0-9_.-]{0,62}")
RESERVED = frozenset("admin api assets dashboard explore files help import oauth profile search uploads".split())


class Refused(Exception):
    """A rule speaks against a change."""


class Record:
    __slots__ = ("kind", "parent", "name", "below")

    def __init__(self, kind, parent, name):
        self.kind, self.parent, self.name, self.below = kind, parent, name, []


class Tree:
    def __init__(self):
        self.records, self.claimed, self.used, self.version = {}, {}, 0, 0

    def key(self, kind, parent, name):
        """The key of a record, if it is one."""
        value = name.lower()
        while kind in (GROUP, PROJECT) and parent:
            above = self.records[parent]
            if above.kind not in (GROUP, USER):
                break
            value = above.name.lower() + "/" + value
            kind, parent = above.kind, above.parent
        parts = value.split("/")
        good = len(value) <= 255 and len(parts) <= 20 and parts[0] not in RESERVED and all(
            SEGMENT.fullmatch(part) and not part.endswith((".", ".git", ".atom")) for part in parts)
        if not good or "/" in name:
            raise Refused("bad name")
        return value

    def operations_of_create(self, kind, parent, name):
        if kind == ORGANIZATION:
            if parent != 0:
                raise Refused("no such record")
        elif parent not in self.records:
            raise Refused("no such record")
        elif self.records[parent].kind not in ABOVE[kind]:
            raise Refused("wrong kind")
        key = BUCKET[kind], self.key(kind, parent, name)
        if key in self.claimed:
            raise Refused("taken here")
        return [(key, self.used + 1)], []

    def create(self, kind, parent, name):
        (created,), _ = self.operations_of_create(kind, parent, name)
        self.used += 1
        self.version += 1
        self.records[self.used] = Record(kind, parent, name)
        if parent:
            self.records[parent].below.append(self.used)
        self.claimed[created[0]] = created[1]
        return self.used

    def below(self, number):
        """The record and those whose routes go on from its own, in order."""
        found, left = [], [number]
        while left:
            number = left.pop()
            found.append(number)
            if self.records[number].kind in (GROUP, USER):
                left += [n for n in self.records[number].below if self.records[n].kind in (GROUP, PROJECT)]
        return sorted(found)

    def rename(self, number, name):
        record = self.records.get(number)
        if record is None:
            raise Refused("no such record")
        if record.name.lower() == name.lower():
            raise Refused("same")
        moved = self.below(number)
        olds = [(BUCKET[self.records[n].kind], self.key(self.records[n].kind, self.records[n].parent, self.records[n].name))
                for n in moved]
        earlier, record.name = record.name, name
        try:
            news = [(BUCKET[self.records[n].kind],
                     self.key(self.records[n].kind, self.records[n].parent, self.records[n].name)) for n in moved]
            if any(new in self.claimed for new in news):
                raise Refused("taken here")
            if 2 * len(moved) > OPERATIONS:
                raise Refused("too many")
        except Refused:
            record.name = earlier
            raise
        for old in olds:
            del self.claimed[old]
        for new, n in zip(news, moved):
            self.claimed[new] = n
        self.version += 1

    def find_path(self, path):
        """The record of the longest claimed route that is the path or is followed in it by a slash."""
        found, end = None, 0
        for _ in range(20):
            end = path.find("/", end)
            here = self.claimed.get(("route", path if end < 0 else path[:end]))
            found = here if here is not None else found
            if end < 0:
                break
            end += 1
        return found


def each(number, begun):
    return (time.perf_counter_ns() - begun) // max(1, number)


def create_group(tree):
    group = tree.create(GROUP, 1, "group")
    for n in range(PROJECTS):
        tree.create(PROJECT, group, f"project-{n}")
    return group


def create_users(tree, users):
    begun = time.perf_counter_ns()
    for n in range(users):
        tree.create(USER, 1, f"user-{n}")
    return each(users, begun)


def main():
    users, word = int(sys.argv[1]), sys.argv[2]
    tree = Tree()
    tree.create(ORGANIZATION, 0, "organization")
    if word == "first":
        group = create_group(tree)
        create = create_users(tree, users)
    else:
        create = create_users(tree, users)
        group = create_group(tree)
    begun = time.perf_counter_ns()
    for n in range(RENAMES):
        tree.rename(group, f"group-{n}")
    rename = each(RENAMES, begun)
    paths = [f"group-99/project-{n % PROJECTS}/issues" for n in range(PATHS)]
    begun = time.perf_counter_ns()
    found = sum(tree.find_path(path) is not None for path in paths)
    find_path = each(PATHS, begun)
    print(f"{users} users, {len(tree.records)} records, {found} paths found, version {tree.version}")
    print(f"create {create} ns\nrename {rename} ns\nfind_path {find_path} ns")


if __name__ == "__main__":
    main()
