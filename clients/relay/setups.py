"""The files of a release 0, and the digests of the chains on it."""

from __future__ import annotations

import hashlib
from typing import NamedTuple, Sequence

import journal
from faults import Stop

__all__ = ["SetupFiles", "digest_after"]

# The RECODES of a server without recodes.
NO_FILE = "-"


class SetupFiles(NamedTuple):
    """The classification, and the digest of all files and the threshold: that of an empty chain."""

    classes: journal.Classes
    digest: str

    @classmethod
    def read(cls, words: Sequence[str]) -> SetupFiles:
        """The setup of CLASSES, RECODES, PTABLE, PEOPLE and THRESHOLD.

        Raises
        ------
        Stop
            Where a file can't be read, CLASSES is no classification, or THRESHOLD no number.
        """
        *paths, threshold = words
        if not (threshold.isascii() and threshold.isdigit()):
            raise Stop(f"{threshold} is no threshold")
        try:
            digest = _digest_of(paths, int(threshold))
            return cls(journal.read_classes(paths[0]), digest)
        except journal.BadClasses as fault:
            raise Stop(f"{paths[0]}: {fault}") from fault
        except OSError as fault:
            raise Stop(f"{fault.filename}: {fault.strerror}") from fault

    @property
    def variable(self) -> str:
        """The variable whose table is the shortest."""
        return min(self.classes.variables, key=lambda it: len(it[1]))[0]


def _digest_of(paths: Sequence[str], threshold: int) -> str:
    whole = hashlib.sha256(b"the setup of a chain\n")
    for path in paths:
        # (each part by a digest of its own length, so that no two lists of files are one text)
        whole.update(b"none" if path == NO_FILE else _digest_of_file(path))
    whole.update(str(threshold).encode())
    return whole.hexdigest()


def _digest_of_file(path: str) -> bytes:
    part = hashlib.sha256()
    with open(path, "rb") as file:
        while data := file.read(1 << 20):
            part.update(data)
    return part.digest()


def digest_after(before: str, payload: bytes) -> str:
    """The digest of a chain that goes on with the batch of this payload."""
    return hashlib.sha256(bytes.fromhex(before) + payload).hexdigest()
