"""Makes the files of docs/ANALYSIS.md: 20,000 persons of a made-up country, the same each time.

    make.py FOLDER

Areas are of different sizes, and some are older than others. The perturbation table has the same
pvalues in each row, in an order of its own, with the mean 0; rows 1 to 3 have narrower ones, since
no count may fall below 0.
"""
import random
import sys

SEED = 20_000
PERSONS, AREAS, KEYS, LAST_ROW = 20_000, 60, 256, 750
TENURES = {"own": 9, "loan": 8, "social": 4, "private": 6}
# How many of the 256 cell keys have a pvalue of that size, with either sign, by the row.
PVALUES = {
    1: {0: 96, 1: 80},
    2: {0: 100, 1: 44, 2: 34},
    3: {0: 72, 1: 44, 2: 31, 3: 17},
    4: {0: 56, 1: 44, 2: 31, 3: 17, 4: 8},
}
AGE_GROUPS = [f"{n}-{n + 9}" for n in range(0, 90, 10)] + ["90+"]


def pvalues_of(row):
    sizes = PVALUES[min(row, max(PVALUES))]
    signed = [(size, count) for size, count in sizes.items()]
    signed += [(-size, count) for size, count in sizes.items() if size]
    return [pvalue for pvalue, count in signed for _ in range(count)]


def class_lines():
    yield "variable,code,label"
    for number in range(1, AREAS + 1):
        yield f"AREA,A{number:02},Area {number}"
    yield from ("SEX,f,Female", "SEX,m,Male")
    for age in range(101):
        yield f"AGE,{age},{age}"
    for code in TENURES:
        yield f"TENURE,{code},{code}"


def recode_lines():
    yield "recode,variable,code,group"
    for age in range(101):
        yield f"AGE10,AGE,{age},{AGE_GROUPS[min(age // 10, 9)]}"
    for age in range(101):
        yield f"AGE3,AGE,{age},{'young' if age < 18 else 'working' if age < 65 else 'old'}"


def ptable_lines(draw):
    yield "pcv,ckey,pvalue"
    for row in range(1, LAST_ROW + 1):
        pvalues = pvalues_of(row)
        draw.shuffle(pvalues)
        for key, pvalue in enumerate(pvalues):
            yield f"{row},{key},{pvalue}"


def age_of(draw, older):
    return min(100, int(draw.betavariate(1.3 + older, 1.9) * 98))


def people_lines(draw):
    yield "person,record_key,AREA,SEX,AGE,TENURE"
    areas = [f"A{number:02}" for number in range(1, AREAS + 1)]
    sizes = [draw.lognormvariate(0, 0.9) for _ in areas]
    older = {area: draw.uniform(-0.2, 0.5) for area in areas}
    for person in range(1, PERSONS + 1):
        (area,) = draw.choices(areas, sizes)
        age = age_of(draw, older[area])
        # Women live longer.
        sex = "f" if draw.random() < 0.49 + max(0, age - 60) * 0.005 else "m"
        weights = [weight * (1 + (code == "own") * age / 40) for code, weight in TENURES.items()]
        (tenure,) = draw.choices(list(TENURES), weights)
        yield f"{person},{draw.randrange(KEYS)},{area},{sex},{age},{tenure}"


def main(folder):
    draw = random.Random(SEED)
    for name, lines in (
        ("classes", class_lines()),
        ("recodes", recode_lines()),
        ("ptable", ptable_lines(draw)),
        ("people", people_lines(draw)),
    ):
        with open(f"{folder}/{name}.csv", "w", encoding="ascii", newline="") as out:
            out.writelines(f"{line}\n" for line in lines)


if __name__ == "__main__":
    main(*sys.argv[1:])
