"""Runs each example of docs/GUIDE.md over examples/small and compares what is printed.

Usage: guide.py PROGRAM GUIDE FOLDER

FOLDER has the small files; an example that names another folder, as `over=wide`, is run over the files
of that one beside it. An example that names a file has the lines of that file. Journals are in a folder
of their own, which is empty at first: the examples that name the same one, as
`journal=revisions.journal`, are run over one file, in their order.
"""

import os
import re
import subprocess
import sys
import tempfile
import typing

FILES = ("classes.csv", "recodes.csv", "ptable.csv", "people.csv")
UNITS = ("dwellings.csv", "links.csv")
EXAMPLE = re.compile(
    r"^```(?P<command>script|lanes|keep|follow|units)(?: threshold=(?P<threshold>\d+))?(?: file=(?P<file>\S+))?"
    r"(?: over=(?P<over>\w+))?(?: journal=(?P<journal>\S+))?\n"
    r"(?P<script>.*?)^```\n```output\n(?P<output>.*?)^```$",
    re.S | re.M,
)


class Example(typing.NamedTuple):
    command: str
    threshold: str
    file: typing.Optional[str]
    over: typing.Optional[str]
    journal: typing.Optional[str]
    script: str
    output: str


def examples_of(guide):
    with open(guide, encoding="utf-8") as file:
        found = EXAMPLE.finditer(file.read())
    named = ("file", "over", "journal", "script", "output")
    return [Example(it["command"], it["threshold"] or "0", *it.group(*named)) for it in found]


def write(folder, name, text):
    path = os.path.join(folder, name)
    with open(path, "w", encoding="utf-8") as file:
        file.write(text)
    return path


def inputs_of(folder, example):
    """The files over which an example is run; FOLDER has the small ones."""
    if example.over is not None:
        folder = os.path.join(folder, "..", example.over)
    return [os.path.abspath(os.path.join(folder, name)) for name in FILES]


def words_between(folder, example, journals):
    """The arguments between the inputs and the script: the threshold, and the file of the example's
    journal, if it has one, in the folder of journals, or the files of dwellings."""
    journal = [] if example.journal is None else [os.path.join(journals, example.journal)]
    names = UNITS if example.command == "units" else ()
    units = [os.path.abspath(os.path.join(folder, name)) for name in names]
    return [example.threshold, *journal, *units]


def wrong_by_program(program, folder, examples):
    """How many examples the program doesn't print so."""
    wrong = 0
    with tempfile.TemporaryDirectory() as scratch, tempfile.TemporaryDirectory() as journals:
        for example in examples:
            script = write(scratch, "script.txt", example.script)
            between = words_between(folder, example, journals)
            words = [program, example.command, *inputs_of(folder, example), *between, script]
            done = subprocess.run(words, capture_output=True, check=False)
            if done.stdout.decode() != example.output or done.returncode != 0:
                wrong += 1
                print(f"differs (status {done.returncode}):\n{example.script}printed:")
                print(f"{done.stdout.decode()}the page has:\n{example.output}")
    return wrong


def unlike_files(folder, examples):
    """The examples that aren't their file's."""
    for example in examples:
        if example.file is not None:
            with open(os.path.join(folder, example.file), encoding="utf-8") as file:
                if file.read() != example.script:
                    yield f"{example.file} and the page"


def main():
    program, guide, folder = sys.argv[1:]
    examples = examples_of(guide)
    unlike = list(unlike_files(folder, examples))
    for what in unlike:
        print(f"differ: {what}")
    wrong = wrong_by_program(program, folder, examples)
    print(f"{len(examples)} examples, {wrong} differ")
    return 1 if wrong or unlike or not examples else 0


if __name__ == "__main__":
    sys.exit(main())
