#!/usr/bin/env python3
"""Prints the line of `gen PERSONS START`, by a model of the definitions that shares nothing with the
program: the files of `generate.py`, tables counted anew from the list of persons, and the replies
where memory suffices.

    summary.py PERSONS START
"""
import sys

from generate import AGES, AMENDS, AREAS, KEYS, ROUNDS, SEXES, TENURES
from generate import person_lines, ptable_lines, script_lines

THRESHOLD = 10
CAPACITY = 64
TOTAL = "Total"
DECADES = list(dict.fromkeys(f"g{int(age) // 10}" for age in AGES))


def read_ptable(start):
    lines = list(ptable_lines(start))[1:]
    return {(int(p), int(k)): int(v) for p, k, v in (line.strip().split(",") for line in lines)}


def read_people(start, persons):
    people = {}
    for line in person_lines(start, persons):
        person, key, area, age, sex, tenure = line.strip().split(",")
        people[int(person)] = {"key": int(key), "AREA": area, "AGE10": f"g{int(age) // 10}",
                               "SEX": sex, "TENURE": tenure}
    return people


def shown(count, key_sum, ptable):
    """The text of a cell: the row by the count, the pvalue by row and cell key, which is the key sum
    modulo the key range, and the threshold."""
    row = count if count <= 750 else 501 + (count - 1) % 250
    value = count + (ptable.get((row, key_sum % KEYS), 0) if count else 0)
    return "c" if value < THRESHOLD else str(value)


def table(release, people, ptable, first, second, categories, totals, keep):
    cells = {}
    for one in people.values():
        if not keep(one):
            continue
        for a in (one[first], TOTAL) if totals else (one[first],):
            for b in (one[second], TOTAL) if totals else (one[second],):
                count, key_sum = cells.get((a, b), (0, 0))
                cells[a, b] = count + 1, key_sum + one["key"]
    yield f"release {release}\n{first},{second},count\n"
    entries = [codes + [TOTAL] if totals else codes for codes in categories]
    for a in entries[0]:
        for b in entries[1]:
            yield f"{a},{b},{shown(*cells.get((a, b), (0, 0)), ptable)}\n"
    yield ".\n"


def replies(start, persons):
    ptable, people = read_ptable(start), read_people(start, persons)
    revised, release, held, cubes, looks, hits = {}, 0, 0, set(), 0, 0
    for line in script_lines(start, persons):
        lane, rest = line.rstrip("\n").split(" ", 1)
        if rest == "table AREA by SEX with totals":
            variables = frozenset(["AREA", "SEX"])
            text = table(release, people, ptable, "AREA", "SEX", (AREAS, SEXES), True,
                         lambda one: True)
        elif rest == "table AGE10 by TENURE where SEX in (1)":
            variables = frozenset(["AGE", "TENURE", "SEX"])
            text = table(release, people, ptable, "AGE10", "TENURE", (DECADES, TENURES), False,
                         lambda one: one["SEX"] == "1")
        elif rest.startswith("amend "):
            _, person, setting = rest.split(" ")
            revised[int(person)] = setting.removeprefix("TENURE=")
            held += 1
            yield f"held {held}\n"
            continue
        elif rest == "publish":
            for person, tenure in revised.items():
                people[person]["TENURE"] = tenure
            release, held, revised = release + 1, 0, {}
            yield f"published {release}\n"
            continue
        else:
            assert rest == "stats", line
            yield (f"stats release {release} looks {looks} hits {hits} entries {len(cubes)} "
                   f"capacity {CAPACITY}\n")
            continue
        looks, hits = looks + 1, hits + (variables in cubes)
        cubes.add(variables)
        yield from text


def main(persons, start):
    text = "".join(replies(int(start), int(persons))).encode("ascii")
    lines, total = text.count(b"\n"), sum(text) % 2**32
    print(f"gen {persons} {start} lines {lines} bytes {len(text)} sum {total}")


if __name__ == "__main__":
    main(*sys.argv[1:])
