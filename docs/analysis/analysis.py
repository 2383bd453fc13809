"""What perturbation does to three tables: asks a server, and compares with the microdata.

    analysis.py PORT PEOPLE PNG

An analyst has the tables alone; that the microdata are at hand is for this page.
"""
import sys

import matplotlib

matplotlib.use("Agg")
import pandas
from matplotlib import pyplot

import tablebuilder

TABLES = {
    "AGE10 by SEX": {},
    "AREA by SEX": {"totals": True},
    "AREA by AGE10 by TENURE": {},
}
COLOURS = ("tab:blue", "tab:orange", "tab:green")


def counts_of(people, frame):
    """The true count of each place of a table."""
    names = list(frame.columns[:-1])
    counts = []
    for place in frame[names].itertuples(index=False):
        are = pandas.Series(True, people.index)
        for name, code in zip(names, place):
            if code != "Total":
                are &= people[name] == code
        counts.append(int(are.sum()))
    return counts


def read_people(path):
    people = pandas.read_csv(path, dtype=str)
    first = people["AGE"].astype(int) // 10 * 10
    people["AGE10"] = (first.astype(str) + "-" + (first + 9).astype(str)).where(first < 90, "90+")
    return people


def main(port, path, png):
    people = read_people(path)
    figure, (left, middle, right) = pyplot.subplots(1, 3, figsize=(13, 4.2))
    with tablebuilder.connect(int(port), timeout=60) as session:
        for colour, (query, more) in zip(COLOURS, TABLES.items()):
            frame = session.table(query, **more).frame()
            frame["true"] = counts_of(people, frame)
            shown = frame.dropna()
            difference = (shown["count"] - shown["true"]).astype(int)
            relative = (difference.abs() / shown["true"].clip(lower=1)).median()
            print(
                f"{query}: {len(frame):,} places, {len(frame) - len(shown):,} hidden;"
                f" difference mean {difference.mean():+.2f}, deviation {difference.std():.2f},"
                f" from {difference.min()} to {difference.max()}; median relative {relative:.1%}"
            )
            left.loglog(shown["true"] + 1, shown["count"] + 1, ".", color=colour, label=query)
            middle.semilogx(shown["true"] + 1, difference, ".", color=colour, alpha=0.5)
            if more:
                parts = frame[(frame["SEX"] != "Total") & (frame["AREA"] != "Total")]
                sums = parts.groupby("AREA", observed=True)["count"].sum()
                whole = frame[(frame["SEX"] == "Total") & (frame["AREA"] != "Total")]
                gaps = (sums.to_numpy() - whole["count"].to_numpy()).astype(int)
    print(f"areas where both sexes add up to the area's own count: {sum(gaps == 0)} of {len(gaps)}")
    left.set(xlabel="true count + 1", ylabel="shown count + 1", title="shown by true count")
    left.legend()
    middle.set(xlabel="true count + 1", ylabel="shown - true", title="what is added")
    right.hist(gaps, bins=range(gaps.min(), gaps.max() + 2), align="left", rwidth=0.8)
    right.set(xlabel="women + men - area", ylabel="areas", title="sums of shown counts")
    figure.tight_layout()
    figure.savefig(png, dpi=80, metadata={"Software": None})


if __name__ == "__main__":
    main(*sys.argv[1:])
