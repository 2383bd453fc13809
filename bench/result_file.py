"""Where the rows of a bench are written, beside the standard output."""
import contextlib
import io
import os
import sys

FOLDER = os.path.join(os.path.dirname(os.path.abspath(__file__)), "results")


class Both(io.TextIOBase):
    """A text that goes to two places."""

    def __init__(self, first, second):
        super().__init__()
        self.first, self.second = first, second

    def write(self, text):
        self.first.write(text)
        return self.second.write(text)

    def flush(self):
        self.first.flush()


@contextlib.contextmanager
def rows_written(name, folder=FOLDER):
    """What is printed inside also stands in `name`.txt of the folder, once all of it is there: where
    the bench ends before that, the rows of the last one stay."""
    rows = io.StringIO()
    with contextlib.redirect_stdout(Both(sys.stdout, rows)):
        yield
    os.makedirs(folder, exist_ok=True)
    path = os.path.join(folder, f"{name}.txt")
    with open(f"{path}.new", "w", encoding="utf-8") as out:
        out.write(rows.getvalue())
    os.replace(f"{path}.new", path)
