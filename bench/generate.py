#!/usr/bin/env python3
"""Writes the generated input into a folder: classes.csv, recodes.csv, ptable.csv, people.csv and,
where there are persons, script.txt.

    generate.py FOLDER START PERSONS [shuffled]

The same START and PERSONS give the same bytes, those of `tb_gen`. Persons are numbered from 1 and
come in ascending order; with `shuffled` the same lines come in another order, which is the same
each time.
"""
import random
import sys

AREAS = [f"a{n}" for n in range(100)]
AGES = [str(n) for n in range(101)]
SEXES = ["1", "2"]
TENURES = ["1", "2", "3", "4", "5"]
VARIABLES = [("AREA", AREAS), ("AGE", AGES), ("SEX", SEXES), ("TENURE", TENURES)]

LAST_ROW = 750
KEYS = 256

ROUNDS, AMENDS = 10, 50
TABLES = [
    "a table AREA by SEX with totals\n",
    "b table AGE10 by TENURE where SEX in (1)\n",
    "a table AREA by SEX with totals\n",
]


def draws(state):
    """The values of a linear congruential generator that begins at this state."""
    while True:
        state = (1664525 * state + 1013904223) % 2**32
        yield state // 65536


def class_lines():
    yield "variable,code,label\n"
    for name, codes in VARIABLES:
        for code in codes:
            yield f"{name},{code},{code}\n"


def recode_lines():
    yield "recode,variable,code,group\n"
    for age in AGES:
        yield f"AGE10,AGE,{age},g{int(age) // 10}\n"


def ptable_lines(start):
    draw = draws((start + 1) % 2**32)
    yield "pcv,ckey,pvalue\n"
    for pcv in range(1, LAST_ROW + 1):
        for ckey in range(KEYS):
            yield f"{pcv},{ckey},{max(-pcv, next(draw) % 5 - 2)}\n"


def person_lines(start, persons):
    draw = draws(start % 2**32)
    for person in range(1, persons + 1):
        key = next(draw) % KEYS
        area, age, sex, tenure = (codes[next(draw) % len(codes)] for _, codes in VARIABLES)
        yield f"{person},{key},{area},{age},{sex},{tenure}\n"


def script_lines(start, persons):
    draw = draws((start + 2) % 2**32)
    for _ in range(ROUNDS):
        yield from TABLES
        for _ in range(AMENDS):
            person = 1 + next(draw) % persons
            tenure = TENURES[next(draw) % len(TENURES)]
            yield f"custodian amend {person} TENURE={tenure}\n"
        yield "custodian publish\n"
    yield "custodian stats\n"


def write(path, lines):
    with open(path, "w", encoding="ascii", newline="") as out:
        out.writelines(lines)


def main(folder, start, persons, order="ascending"):
    start, persons = int(start), int(persons)
    write(f"{folder}/classes.csv", class_lines())
    write(f"{folder}/recodes.csv", recode_lines())
    write(f"{folder}/ptable.csv", ptable_lines(start))
    if persons > 0:
        write(f"{folder}/script.txt", script_lines(start, persons))
    people = person_lines(start, persons)
    if order == "shuffled":
        people = list(people)
        random.Random(start).shuffle(people)
    header = ",".join(["person", "record_key"] + [name for name, _ in VARIABLES]) + "\n"
    with open(f"{folder}/people.csv", "w", encoding="ascii", newline="") as out:
        out.write(header)
        out.writelines(people)


if __name__ == "__main__":
    main(*sys.argv[1:])
