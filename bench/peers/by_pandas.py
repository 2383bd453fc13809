"""One table by pandas, as the statistician's package does it: counts and sums of record keys by group, and
the perturbation table merged by row and cell key.

    by_pandas.py FOLDER THRESHOLD OUT

Prints the seconds of loading, of the table from the persons, and of the table from counts that are kept.
"""
import sys
import time

import pandas

DIMENSIONS, TOTAL = ["AREA", "SEX"], "Total"


def load(folder):
    classes = pandas.read_csv(f"{folder}/classes.csv", dtype=str)
    codes = {name: list(group["code"]) for name, group in classes.groupby("variable", sort=False)}
    types = {name: pandas.CategoricalDtype(values) for name, values in codes.items()}
    people = pandas.read_csv(f"{folder}/people.csv", dtype=types)
    ptable = pandas.read_csv(f"{folder}/ptable.csv")
    return codes, people, ptable


def count(people):
    cells = people.groupby(DIMENSIONS, observed=False)["record_key"].agg(["size", "sum"])
    return cells.rename(columns={"size": "n", "sum": "key"}).reset_index()


def with_totals(cells):
    """The cells, and those of each margin, whose counts and keys are sums of theirs."""
    parts = []
    for kept in (DIMENSIONS, DIMENSIONS[:1], DIMENSIONS[1:], []):
        if kept:
            part = cells.groupby(kept, observed=False)[["n", "key"]].sum().reset_index()
        else:
            part = cells[["n", "key"]].sum().to_frame().T
        for name in DIMENSIONS:
            part[name] = part[name].astype(str) if name in kept else TOTAL
        parts.append(part)
    return pandas.concat(parts)


def perturbed(cells, ptable):
    cells = cells.assign(ckey=cells["key"] % 256)
    cells["pcv"] = cells["n"].where(cells["n"] <= 750, 501 + (cells["n"] - 1) % 250)
    cells = cells.merge(ptable, on=["pcv", "ckey"], how="left")
    cells["shown"] = cells["n"] + cells["pvalue"].fillna(0).astype(int)
    return cells


def text_of(cells, codes, threshold):
    for name in DIMENSIONS:
        cells[name] = pandas.Categorical(cells[name], [*codes[name], TOTAL])
    cells = cells.sort_values(DIMENSIONS)
    shown = cells["shown"].astype(str).where(cells["shown"] >= threshold, "c")
    lines = cells["AREA"].astype(str) + "," + cells["SEX"].astype(str) + "," + shown
    return "AREA,SEX,count\n" + "\n".join(lines) + "\n"


def main(folder, threshold, out):
    began = time.perf_counter()
    codes, people, ptable = load(folder)
    loaded = time.perf_counter()
    cells = count(people)
    text = text_of(perturbed(with_totals(cells), ptable), codes, int(threshold))
    cold = time.perf_counter()
    again = text_of(perturbed(with_totals(cells), ptable), codes, int(threshold))
    kept = time.perf_counter()
    if again != text:
        sys.exit("another table")
    with open(out, "w", encoding="ascii") as file:
        file.write(text)
    print(loaded - began, cold - loaded, kept - cold)


if __name__ == "__main__":
    main(*sys.argv[1:])
