#!/usr/bin/env python3
"""Runs scripts, lanes, scripts with a journal, with dwellings and of a leader's messages over
examples/small with one allocation refused, for one allocation after another, and compares each output, and what a
journal then has, with what the definitions allow, by a model that shares nothing with the program.
Loading makes few of them, and the first batch one for each shard of the key book: each of the first
400 and of the last 400 is refused, and each 20th between; with `all`, each one.

    growths.py PROGRAM FOLDER [all] [WORD ..]

PROGRAM is the built program. `cc` makes a small library that stands before the system's allocator
and refuses the allocation whose number it is given, and no other. FOLDER is examples/small. With
words, only the cases whose names have one of them are run. It prints each output that the
definitions don't allow, and then ends with status 1.
"""
import collections
import copy
import csv
import io
import os
import subprocess
import sys
import tempfile
import typing

sys.dont_write_bytecode = True
HERE = os.path.dirname(os.path.abspath(__file__))
sys.path.insert(0, f"{HERE}/../clients")
import journal

# What refuses one allocation: that of the number in REFUSED, from 1, none for 0. Each call of malloc
# and realloc is one; they are counted in the file COUNTED.
REFUSER = r"""
#define _GNU_SOURCE
#include <dlfcn.h>
#include <fcntl.h>
#include <stdatomic.h>
#include <stdlib.h>
#include <sys/mman.h>

static atomic_long *made;
static long refused;
static void *(*system_malloc)(size_t);
static void *(*system_realloc)(void *, size_t);

__attribute__((constructor)) static void begin(void) {
    system_malloc = dlsym(RTLD_NEXT, "malloc");
    system_realloc = dlsym(RTLD_NEXT, "realloc");
    int file = open(getenv("COUNTED"), O_RDWR);
    void *page = mmap(NULL, 4096, PROT_READ | PROT_WRITE, MAP_SHARED, file, 0);
    refused = atol(getenv("REFUSED"));
    made = page;
}

static int is_refused(void) {
    return made && atomic_fetch_add(made, 1) + 1 == refused;
}

void *malloc(size_t size) {
    if (!system_malloc) system_malloc = dlsym(RTLD_NEXT, "malloc");
    return is_refused() ? NULL : system_malloc(size);
}

void *realloc(void *old, size_t size) {
    if (!system_realloc) system_realloc = dlsym(RTLD_NEXT, "realloc");
    return is_refused() ? NULL : system_realloc(old, size);
}
"""
MEMORY, UNKEPT, TOTAL = "memory\n", "unkept\n", "Total"
DONE, NO_MEMORY, DISK_FAULT = 0, 9, 12
ALL = "no reply is memory"
# How many allocations at both ends are refused one by one, which between, and how many beyond.
ENDS, STRIDE, BEYOND = 400, 20, 20
FILES = ("classes", "recodes", "ptable", "people")
UNITS = ("dwellings", "links")
# How far ahead a message may be.
MOST_AHEAD = 64
# The lines, and whether they are answered as lanes, as a script, as one with a journal, with
# dwellings or of a leader's messages.
CASES = {
    "add, amend and drop": ("script", """
custodian add 105 9 SEX=2 AGE=65+ AREA=E1
custodian amend 101 SEX=2
custodian drop 104
custodian publish
a table SEX
custodian add 104 7 SEX=2 AGE=16-64 AREA=E2
custodian publish
a table AREA by SEX with totals
"""),
    "a person who came and left": ("script", """
custodian add 200 9 SEX=1 AGE=65+ AREA=E1
custodian amend 200 AGE=0-15
custodian drop 200
custodian publish
a table SEX
custodian add 200 10 SEX=1 AGE=65+ AREA=E1
custodian publish
"""),
    "a cache of one cube": ("script", """
custodian cache 1
a table SEX
a table AREA
a table AREA
custodian drop 104
custodian publish
a table AREA
a table SEX
custodian stats
custodian clear
custodian stats
"""),
    "what may be asked": ("script", """
a describe
a table SEX
custodian describe AGE2
a describe AREA
custodian stats
"""),
    "two publications": ("script", """
custodian drop 104
custodian publish
custodian publish
a table SEX
"""),
    "cache and stats": ("script", """
a table SEX
a table SEX
custodian stats
custodian cache 200
custodian clear
custodian stats
a table AREA by SEX with totals
a table AREA by SEX with totals
custodian stats
"""),
    "a wider cube that is behind": ("script", """
a table AREA by SEX
custodian drop 104
custodian publish
a table SEX
a table AREA
custodian stats
"""),
    "a packed cube": ("script", """
custodian drop 104
custodian publish
a table AREA by AGE by SEX
a table SEX
custodian drop 102
custodian publish
a table AREA by AGE by SEX
custodian stats
"""),
    "many edits, some of one person": ("script", """
custodian drop 101
custodian drop 102
custodian drop 103
custodian drop 104
custodian publish
a table SEX
custodian add 101 200 SEX=1 AGE=0-15 AREA=E1
custodian amend 101 AREA=E2
custodian amend 101 SEX=2
custodian add 102 100 SEX=1 AGE=16-64 AREA=E1
custodian publish
a table AREA by SEX with totals
"""),
    "records and rules in one batch": ("script", """
a table SEX
custodian pvalue 3 64 5
custodian drop 104
custodian threshold 1
custodian pvalue 3 64 4
custodian publish
a table SEX
custodian threshold 8
custodian publish
a table SEX
custodian stats
"""),
    "tables of earlier releases": ("script", """
custodian drop 104
custodian pvalue 3 64 5
custodian publish
a at 0 table SEX
a at 1 table SEX
custodian add 104 7 SEX=2 AGE=16-64 AREA=E2
custodian publish
a at 1 table AREA by SEX with totals
a at 3 table SEX
custodian at 0 table AREA by AGE by SEX
custodian at 2 table SEX
custodian oldest 2
custodian oldest 1
custodian publish
custodian oldest 2
custodian publish
a at 1 table SEX
a at 2 table SEX
custodian stats
"""),
    "a batch beside a table": ("lanes", """
custodian drop 104
custodian publish
ana table SEX
--
ana table SEX
"""),
    "three lanes in two phases": ("lanes", """
custodian drop 104
custodian publish
a table SEX
b table AREA by SEX with totals
a table SEX
--
b table SEX
custodian add 104 7 SEX=2 AGE=16-64 AREA=E2
custodian publish
a table SEX
"""),
    "an earlier release beside a batch": ("lanes", """
custodian drop 104
custodian publish
a at 0 table SEX
b at 1 table SEX
--
a at 1 table SEX
custodian at 0 table SEX
"""),
    "a journal": ("keep", """
custodian drop 104
custodian publish
a table SEX
custodian publish
custodian add 104 7 SEX=2 AGE=16-64 AREA=E2
custodian publish
custodian publish
a table AREA by SEX with totals
"""),
    "a journal that is played": ("keep", """
a table AREA by SEX with totals
custodian pvalue 3 64 5
custodian amend 200 SEX=2
custodian publish
custodian add 104 8 SEX=1 AGE=65+ AREA=E1
custodian publish
custodian publish
a table SEX
"""),
    "dwellings": ("units", """
a dwellings SEX with totals
a table SEX
custodian drop 101
custodian dwellings AREA by SEX with totals
custodian publish
custodian dwellings AREA by SEX with totals
a dwellings AGE
a at 0 table SEX
custodian drop 102
custodian threshold 2
custodian publish
a dwellings SEX by AREA with totals
custodian stats
"""),
    "messages out of order": ("follow", """
leader begin 3
leader add 104 7 SEX=2 AGE=16-64 AREA=E2
leader end
leader begin 2
leader add 105 30 SEX=2 AGE=0-15 AREA=E2
leader threshold 1
leader end
a table SEX
leader begin 1
leader drop 104
leader end
a table SEX
leader begin 1
leader drop 104
leader end
leader begin 2
leader add 105 30 SEX=2 AGE=0-15 AREA=E2
leader threshold 1
leader end
leader begin 68
leader drop 101
leader end
a table AREA by SEX with totals
leader restart
leader end
a table SEX
"""),
}
# The lines of a run that leaves the journal with which a case begins.
EARLIER = {
    "a journal that is played": """
custodian add 200 9 SEX=1 AGE=65+ AREA=E1
custodian drop 104
custodian publish
custodian threshold 1
custodian publish
""",
}


def rows_of(path):
    with open(path, encoding="ascii", newline="") as file:
        return list(csv.DictReader(file))


class Release(typing.NamedTuple):
    """The persons of a release, the pvalues that were set, its threshold, and the number of the
    oldest release that it shows."""

    people: tuple
    pvalues: dict
    threshold: int
    oldest: int


class Model:
    """What the definitions say of tables of this folder, where all is small and the threshold of
    the first release is 0."""

    def __init__(self, folder):
        self.codes, self.labels = collections.defaultdict(list), collections.defaultdict(list)
        for row in rows_of(f"{folder}/classes.csv"):
            self.codes[row["variable"]].append(row["code"])
            self.labels[row["variable"]].append(row["label"])
        self.groups, self.bases = collections.defaultdict(dict), {}
        for row in rows_of(f"{folder}/recodes.csv"):
            self.groups[row["recode"]][row["code"]] = row["group"]
            self.bases[row["recode"]] = row["variable"]
        self.pvalues = {(int(row["pcv"]), int(row["ckey"])): int(row["pvalue"])
                        for row in rows_of(f"{folder}/ptable.csv")}
        people = tuple(tuple(sorted(row.items())) for row in rows_of(f"{folder}/people.csv"))
        self.first = Release(people, {}, 0, 0)
        self.keys = {row["dwelling"]: int(row["dwelling_key"])
                     for row in rows_of(f"{folder}/dwellings.csv")}
        self.homes = {row["person"]: row["dwelling"] for row in rows_of(f"{folder}/links.csv")}

    def keys_in(self, word, records):
        """The keys of what is counted among records: of persons, or each dwelling's once."""
        if word == "table":
            return [int(one["record_key"]) for one in records]
        homes = {self.homes[one["person"]] for one in records if one["person"] in self.homes}
        return [self.keys[home] for home in homes]

    def shown(self, keys, release):
        count, key = len(keys), sum(keys) % 256
        value = count + (self.pvalues | release.pvalues).get((count, key), 0)
        return "c" if value < release.threshold else str(value)

    def table(self, number, release, query):
        """The reply to `table NAME [by NAME] [with totals]` at a release, or to one of dwellings."""
        words = query.split()
        totals = words[-2:] == ["with", "totals"]
        names = [word for word in words[1:-2 if totals else None] if word != "by"]
        entries = [self.codes[name] + [TOTAL] * totals for name in names]
        records = [dict(one) for one in release.people]
        lines = [f"release {number}", ",".join([*names, "count"])]
        cells = [()]
        for entry in entries:
            cells = [(*cell, code) for cell in cells for code in entry]
        for cell in cells:
            inside = [one for one in records
                      if all(code in (TOTAL, one[name]) for name, code in zip(names, cell))]
            shown = self.shown(self.keys_in(words[0], inside), release)
            lines.append(",".join([*cell, shown]))
        return "".join(line + "\n" for line in [*lines, "."])

    def description(self, line):
        """The reply to `describe`, or to `describe NAME`."""
        name = line.removeprefix("describe").strip()
        if not name:
            rows = [("name", "kind", "categories")]
            rows += [(it, "variable", len(codes)) for it, codes in self.codes.items()]
            rows += [(it, f"recode of {self.bases[it]}", len(set(groups.values())))
                     for it, groups in self.groups.items()]
        elif name in self.codes:
            rows = [("code", "label"), *zip(self.codes[name], self.labels[name])]
        else:
            codes = self.codes[self.bases[name]]
            rows = [("group", "code"), *((self.groups[name][code], code) for code in codes)]
        text = io.StringIO()
        csv.writer(text, lineterminator="\n").writerows(rows)
        return f"{line}\n{text.getvalue()}.\n"

    def reply(self, chain, line):
        """The reply to a query, or to one behind `at N`, where these are the releases, or to what
        may be asked."""
        last = len(chain) - 1
        if line.startswith("describe"):
            return self.description(line)
        if not line.startswith("at "):
            return self.table(last, chain[last], line)
        _, number, query = line.split(" ", 2)
        if int(number) > last:
            return f"refused 10 NoSuchRelease {last}\n"
        if int(number) < chain[last].oldest:
            return f"refused 11 Withdrawn {chain[last].oldest}\n"
        return self.table(int(number), chain[int(number)], query)


def keys_of(people):
    """The record key of each person."""
    return {dict(one)["person"]: dict(one)["record_key"] for one in people}


def edited(release, keys, edit, number):
    """A release after an edit, which is to have this number; None where it can't be made. Persons
    of earlier releases and edits have these keys; a new person's key is put there."""
    word, *rest = edit.split()
    if word == "pvalue":
        row, key, pvalue = map(int, rest)
        return release._replace(pvalues=release.pvalues | {(row, key): pvalue})
    if word == "threshold":
        return release._replace(threshold=int(rest[0]))
    if word == "oldest":
        oldest = int(rest[0])
        return release._replace(oldest=oldest) if release.oldest <= oldest <= number else None
    people = edited_people(release.people, keys, word, *rest)
    return None if people is None else release._replace(people=people)


def edited_people(people, keys, word, person, *rest):
    old = next((dict(one) for one in people if dict(one)["person"] == person), None)
    others = [one for one in people if dict(one)["person"] != person]
    if word == "drop":
        return tuple(others) if old else None
    if word == "add":
        key, *rest = rest
        if old or keys.setdefault(person, key) != key:
            return None
        old = {"person": person, "record_key": key}
    elif old is None:
        return None
    new = old | dict(setting.split("=") for setting in rest)
    return (*others, tuple(sorted(new.items())))


def cut(text):
    """The replies of a text: tables and lists as a whole, others a line each."""
    replies, table = [], ""
    for line in text.splitlines(keepends=True):
        table += line
        if not table.startswith(("release ", "describe")) or line == ".\n":
            replies.append(table)
            table = ""
    return replies if not table else None


class Custodian:
    """The chain and the held edits, led by the custodian's lines and their replies."""

    lane = "custodian"

    def __init__(self, model, chain):
        self.model, self.chain, self.held = model, list(chain), []
        self.keys = {person: key for release in chain
                     for person, key in keys_of(release.people).items()}

    def allows(self, line, reply):
        if reply == MEMORY:
            return True
        release, keys = self.chain[-1], dict(self.keys)
        if line.startswith(("table ", "dwellings ", "at ", "describe")):
            return reply == self.model.reply(self.chain, line)
        if line.startswith("stats"):
            return reply.startswith(f"stats release {len(self.chain) - 1} looks ")
        if line.startswith("cache "):
            return reply == f"{line}\n"
        if line == "clear":
            return reply == "cleared\n"
        if line != "publish":
            self.held.append(line)
            return reply == f"held {len(self.held)}\n"
        if not self.held:
            return reply == "refused batch 0 5 Nothing\n"
        held, self.held = self.held, []
        for place, edit in enumerate(held, 1):
            release = edited(release, keys, edit, len(self.chain))
            if release is None:
                # (perhaps an edit before it found no memory, so this one doesn't follow)
                return reply.startswith(f"refused batch {place} ")
        self.chain.append(release)
        self.keys = keys
        return reply == f"published {len(self.chain) - 1}\n"


class Keeper(Custodian):
    """A custodian with a journal: the batches that it has, and whether it may be live and may not."""

    def __init__(self, model, chain):
        super().__init__(model, chain)
        self.batches, self.further = [], None
        self.may_be_live, self.may_be_closed = True, False

    def follows(self):
        release, keys = self.chain[-1], dict(self.keys)
        for edit in self.held:
            release = edited(release, keys, edit, len(self.chain))
            if release is None:
                return False
        return bool(self.held)

    def allows(self, line, reply):
        if line != "publish" or not self.follows():
            return super().allows(line, reply)
        if reply == MEMORY:
            # (before the batch is put, or after that, which closes the journal)
            if self.may_be_live:
                self.may_be_closed, self.further = True, list(self.held)
            return True
        if reply == UNKEPT:
            self.may_be_live = False
            return self.may_be_closed
        held = list(self.held)
        if not self.may_be_live or not super().allows(line, reply):
            return False
        self.may_be_closed, self.further = False, None
        self.batches.append(held)
        return True

    def may_leave(self, batches):
        """Whether a journal may have these."""
        if batches == self.batches:
            return self.may_be_live
        return self.may_be_closed and batches == [*self.batches, self.further]


class Follower(Custodian):
    """A follower: the chain that it has reached, the messages that wait, by their numbers, and the
    one that has begun, led by the leader's lines and their replies. Where a message waits longer
    than it must, an allocation was refused for it."""

    lane = "leader"

    def __init__(self, model, chain):
        super().__init__(model, chain)
        self.window, self.begun, self.keys_at = {}, None, [self.keys]

    def applied(self, edits):
        """Applies the edits of the next message; whether they can be."""
        release, keys = self.chain[-1], dict(self.keys_at[-1])
        for edit in edits:
            release = edited(release, keys, edit, len(self.chain))
            if release is None:
                return False
        self.chain.append(release)
        self.keys_at.append(keys)
        self.window.pop(len(self.chain) - 1, None)
        return True

    def restart(self):
        del self.chain[1:], self.keys_at[1:]
        self.window, self.begun = {}, None

    def delivers(self, number, edits, reply):
        """Whether this may be the reply to the end of a message."""
        before = len(self.chain) - 1
        if number == before + 1:
            if not self.applied(edits):
                return reply.startswith("refused batch ")
        elif before + 1 < number <= before + MOST_AHEAD:
            self.window.setdefault(number, edits)
        while reply != f"at {len(self.chain) - 1}\n" and len(self.chain) in self.window:
            if not reply.startswith("at ") or not self.applied(self.window[len(self.chain)]):
                break
        now = len(self.chain) - 1
        if now > before:
            return reply == f"at {now}\n"
        word = "old" if number <= now else "far" if number > now + MOST_AHEAD else "kept"
        return reply == f"{word} {now}\n"

    def allows(self, line, reply):
        word, *rest = line.split()
        if word == "begin":
            self.begun = (int(rest[0]), [])
            return reply == f"begun {rest[0]}\n"
        if word == "restart":
            self.restart()
            return reply == "restarted\n"
        if self.begun is None:
            return reply == "refused leader\n"
        if reply == MEMORY:
            self.begun = None
            return True
        number, edits = self.begun
        if word == "end":
            self.begun = None
            return self.delivers(number, edits, reply)
        edits.append(line)
        return reply == f"held {len(edits)}\n"


# Who answers a command's own lane, if that isn't the custodian alone.
OWN = {"keep": Keeper, "follow": Follower}


def allows_script(custodian, lines, text):
    model, replies = custodian.model, cut(text)
    if replies is None or len(replies) != len(lines):
        return False
    for line, reply in zip(lines, replies):
        lane, words = line.split(" ", 1)
        if lane == custodian.lane:
            if not custodian.allows(words, reply):
                return False
        elif reply not in (MEMORY, model.reply(custodian.chain, words)):
            return False
    return True


def allows_phase(model, lanes, custodian, last, texts):
    """Whether these are texts of a phase's lanes from the custodian's chain and held edits on."""
    begun = len(custodian.chain) - 1
    for line, reply in zip(lanes.get("custodian", []), texts.get("custodian", [])):
        if not custodian.allows(line, reply):
            return False
    for lane, replies in texts.items():
        if len(replies) != len(lanes[lane]):
            return False
        if lane == "custodian":
            continue
        seen = max(begun, last.get(lane, 0))
        for line, reply in zip(lanes[lane], replies):
            if reply == MEMORY:
                continue
            seen = next((number for number in range(seen, len(custodian.chain))
                         if reply == model.reply(custodian.chain[:number + 1], line)), None)
            if seen is None:
                return False
        last[lane] = seen
    return True


def allows_lanes(model, lines, text):
    """The number of phases that the text has, each allowed; None where one isn't."""
    phases, lane = [{}], None
    for line in lines:
        if line == "--":
            phases.append({})
        else:
            lane, words = line.split(" ", 1)
            phases[-1].setdefault(lane, []).append(words)
    # (a phase has its lanes in the order in which the script first names them)
    order = list(dict.fromkeys(line.split(" ", 1)[0] for line in lines if line != "--"))
    phases = [{lane: lanes[lane] for lane in order if lane in lanes} for lanes in phases]
    parts = text.split("phase ")
    if parts[0] or len(parts) - 1 > len(phases):
        return None
    custodian, last = Custodian(model, [model.first]), {}
    for number, (lanes, part) in enumerate(zip(phases, parts[1:]), 1):
        head, rest = part.split("\n", 1)
        if head != str(number):
            return None
        texts = {}
        for piece in ("\n" + rest).split("\nlane ")[1:]:
            name, replies = (piece if piece.endswith("\n") else piece + "\n").split("\n", 1)
            texts[name] = cut(replies)
        if list(texts) != list(lanes) or None in texts.values():
            return None
        if not allows_phase(model, lanes, custodian, last, texts):
            return None
    return len(parts) - 1, len(phases)


def allowed(custodian, command, lines, status, text):
    """How a run ended, in a word; None where the definitions don't allow it. It leads a custodian
    who begins the lines to their end."""
    if command == "keep" and (status, text) == (DISK_FAULT, "fault disk\n"):
        return "the disk failed"
    if status == NO_MEMORY:
        if not text.endswith("fault memory\n"):
            return None
        before = text.removesuffix("fault memory\n")
        if command == "lanes" and before:
            return "no memory" if allows_lanes(custodian.model, lines, before) else None
        return None if before else "no memory"
    if status != DONE:
        return None
    if command == "lanes":
        told = allows_lanes(custodian.model, lines, text)
        if not told or told[0] != told[1]:
            return None
    elif not allows_script(custodian, lines, text):
        return None
    end = (ALL, "one is memory", "more are memory")[min(text.count(MEMORY), 2)]
    return f"{end}, later ones are unkept" if UNKEPT in text else end


def run(program, refuser, number, command, words):
    """How a run with that allocation refused ends, what it prints, and how many it made."""
    counted = f"{refuser}.counted"
    with open(counted, "wb") as out:
        out.write(bytes(4096))
    environment = os.environ | {"LD_PRELOAD": refuser, "REFUSED": str(number), "COUNTED": counted}
    done = subprocess.run([program, command, *words], capture_output=True, env=environment,
                          timeout=60, check=False)
    with open(counted, "rb") as file:
        made = int.from_bytes(file.read(8), "little")
    return done.returncode, done.stdout.decode("ascii"), made


def build_refuser(folder):
    """Makes the library that refuses an allocation, `refuser.so`."""
    source = f"{folder}/refuser.c"
    with open(source, "w", encoding="ascii") as out:
        out.write(REFUSER)
    words = ["cc", "-O2", "-shared", "-fPIC", "-o", f"{folder}/refuser.so", source, "-ldl"]
    subprocess.run(words, check=True)


def numbers_to_refuse(most, each):
    """Which allocations are refused of so many: each one, or those at both ends and some between."""
    last = most + BEYOND
    if each or last <= 2 * ENDS:
        return range(1, last + 1)
    between = range(ENDS + 1, most - ENDS, STRIDE)
    return [*range(1, ENDS + 1), *between, *range(most - ENDS, last + 1)]


class Case:
    """A case, in a folder where it has its script and its journal, with what it begins from."""

    def __init__(self, program, small, folder, model, name):
        self.program, self.small, self.folder = program, small, folder
        self.command, text = CASES[name]
        self.lines = text.strip().splitlines()
        self.classes = journal.read_classes(f"{small}/classes.csv")
        self.start = OWN.get(self.command, Custodian)(model, [model.first])
        # (the bytes of the journal; none where there is no such file)
        self.first = b""
        if name in EARLIER:
            lines = EARLIER[name].strip().splitlines()
            status, text, _ = self.run(0, lines)
            if status != DONE or not allows_script(self.start, lines, text):
                sys.exit(f"{name}, before: {status} {text}")
            with open(f"{folder}/journal", "rb") as file:
                self.first = file.read()

    def run(self, number, lines):
        """How a run of these lines with that allocation refused ends, what it prints, and how many
        allocations it made."""
        script, path = f"{self.folder}/script.txt", f"{self.folder}/journal"
        with open(script, "w", encoding="ascii") as out:
            out.writelines(line + "\n" for line in lines)
        if os.path.exists(path):
            os.remove(path)
        if self.first:
            with open(path, "wb") as out:
                out.write(self.first)
        files = [f"{self.small}/{file}.csv" for file in FILES]
        between = [f"{self.small}/{file}.csv" for file in UNITS if self.command == "units"]
        if self.command == "keep":
            between = [path]
        return run(self.program, f"{self.folder}/refuser.so", number, self.command,
                   [*files, "0", *between, script])

    def batches(self):
        """The batches of the journal, each as its lines."""
        path = f"{self.folder}/journal"
        if not os.path.exists(path):
            return []
        return [journal.lines(number, edits, self.classes)[1:-1]
                for number, edits in enumerate(journal.batches(path), 1)]

    def end(self, number):
        """How a run with that allocation refused ended, in a word, or None where the definitions
        don't allow it, or what its journal has; its status and text; and its allocations."""
        status, text, made = self.run(number, self.lines)
        custodian = copy.deepcopy(self.start)
        end = allowed(custodian, self.command, self.lines, status, text)
        if self.command == "keep" and end:
            before = self.start if status != DONE else custodian
            if not before.may_leave(self.batches()):
                end = None
        return end, f"status {status}\n{text}", made


def main(program, small, *chosen):
    each, words = "all" in chosen, [word for word in chosen if word != "all"]
    model, failed = Model(small), 0
    with tempfile.TemporaryDirectory() as folder:
        build_refuser(folder)
        for name in CASES:
            if words and not any(word in name for word in words):
                continue
            case = Case(program, small, folder, model, name)
            end, told, most = case.end(0)
            if end != ALL:
                sys.exit(f"{name}: {told}")
            ends = collections.Counter()
            for number in numbers_to_refuse(most, each):
                end, told, _ = case.end(number)
                if end is None:
                    failed += 1
                    print(f"{name}, allocation {number}: {told}")
                ends[end] += 1
            print(f"{name} ({case.command}): {most} allocations, {sum(ends.values())} refused: "
                  f"{dict(ends)}", flush=True)
    sys.exit(1 if failed else 0)


if __name__ == "__main__":
    main(*sys.argv[1:])
