#!/usr/bin/env python3
"""Runs the two analyses of docs/ANALYSIS.md against a server over the 20,000 persons of `make.py`.

    run.py PROGRAM FOLDER [update]

FOLDER gets the files. What an analysis prints is compared with what the page has under its name;
with `update` the page and the drawings beside this file are written anew. Without it they stay, and
the status is 0 where the page has what was printed.
"""
import contextlib
import os
import re
import shutil
import subprocess
import sys

sys.dont_write_bytecode = True
HERE = os.path.dirname(os.path.abspath(__file__))
TOP = os.path.dirname(os.path.dirname(HERE))
sys.path[:0] = [HERE, f"{TOP}/bench"]
import make
from serve import Server, killed_at_last

PAGE = f"{TOP}/docs/ANALYSIS.md"
FILES = ("classes.csv", "recodes.csv", "ptable.csv", "people.csv")
THRESHOLD = "5"
PATIENCE = 600
PYTHON = os.environ.get("PYTHON", "python3")


def blocks():
    """What each analysis printed, as the page has it."""
    return re.compile(r"(^```(python|R)-output\n)(.*?)(^```$)", re.S | re.M)


def output_of(words, **more):
    told = subprocess.run(words, stdout=subprocess.PIPE, timeout=PATIENCE, check=True, **more)
    return told.stdout.decode()


def analyses(program, folder, drawings):
    people, ptable = f"{folder}/people.csv", f"{folder}/ptable.csv"
    words = [program, "serve", *(f"{folder}/{name}" for name in FILES), THRESHOLD]
    with contextlib.ExitStack() as stack:
        server = stack.enter_context(killed_at_last(Server(words, folder, 1, 1_000)))
        port = str(server.first + 1)
        path = {**os.environ, "PYTHONPATH": f"{TOP}/clients/python"}
        script = f"{HERE}/analysis.py"
        words = [PYTHON, "-B", script, port, people, f"{drawings}/python.png"]
        found = {"python": output_of(words, env=path)}
        words = ["Rscript", "--vanilla", f"{HERE}/analysis.R", f"{TOP}/clients/r/R/tablebuilder.R"]
        found["R"] = output_of([*words, port, people, ptable, f"{drawings}/r.png"])
    return found


def look_for_tools():
    """Ends with what is missing, if anything is."""
    words = [PYTHON, "-c", "import pandas, matplotlib"]
    if subprocess.run(words, stderr=subprocess.DEVNULL, check=False).returncode:
        sys.exit(
            f"{PYTHON} has no pandas or no matplotlib: apt-get install python3-pandas"
            " python3-matplotlib, and PYTHON=/usr/bin/python3 where another python3 comes first"
        )
    if shutil.which("Rscript") is None:
        sys.exit("Rscript isn't there: apt-get install r-base-core")


def main():
    look_for_tools()
    program, folder, *more = sys.argv[1:]
    program, folder = map(os.path.abspath, (program, folder))
    os.makedirs(folder, exist_ok=True)
    make.main(folder)
    found = analyses(program, folder, HERE if more == ["update"] else folder)
    with open(PAGE, encoding="utf-8") as file:
        page = file.read()
    wanted = blocks().sub(lambda it: f"{it[1]}{found[it[2]]}{it[4]}", page)
    if more == ["update"]:
        with open(PAGE, "w", encoding="utf-8") as file:
            file.write(wanted)
    elif wanted != page:
        print("docs/ANALYSIS.md has other numbers than these:")
        for name, text in found.items():
            print(f"--- {name}\n{text}", end="")
        return 1
    print("written" if more else "the two analyses print what docs/ANALYSIS.md has")
    return 0


if __name__ == "__main__":
    sys.exit(main())
