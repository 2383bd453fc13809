"""Puts the batches of a host's journal into the stream."""

from __future__ import annotations

import os
import time
from typing import NoReturn, Optional

import journal
import tablebuilder

from faults import Away, Gone, Stop, Teller
from setups import SetupFiles, digest_after
from streams import Entry, Last, Stream

__all__ = ["Feed", "JournalFile"]

# How often the journal is looked at; how long the port is left alone between two questions for a
# release that hasn't come, at first and at most, and by how much more each time; and how long to
# wait before who wasn't there is tried again.
LOOK_SECONDS, FIRST_SECONDS, MOST_SECONDS, LONGER = 0.005, 0.002, 0.25, 1.5
AGAIN_SECONDS, PATIENCE = 0.5, 60
# A session at the port has 1,000,000 lines at most, and ends where nothing came for 900 seconds: a
# line `#`, which has no reply, is sent each minute.
MOST_LINES, STAY_SECONDS = 990_000, 60


class JournalFile:
    """A journal's file that is read while a program writes it, and the digest of what was read."""

    def __init__(self, path: str, digest: str) -> None:
        self.path, self.digest = path, digest
        try:
            self._file = open(path, "rb", buffering=0)
        except FileNotFoundError as fault:
            raise Away(f"{path}: {fault.strerror}") from fault
        except OSError as fault:
            raise Stop(f"{path}: {fault.strerror}") from fault
        self._reader, self._seen = journal.Reader(self._file), os.fstat(self._file.fileno())

    def __enter__(self) -> JournalFile:
        return self

    def __exit__(self, *_: object) -> None:
        self._file.close()

    @property
    def number(self) -> int:
        """How many batches were read."""
        return self._reader.number

    def next(self) -> Optional[bytes]:
        """The payload of the next batch, or None as long as there is none."""
        try:
            payload = self._reader.next()
        except journal.Error as fault:
            raise Stop(f"{self.path}: {fault}") from fault
        if payload is not None:
            self.digest = digest_after(self.digest, payload)
        return payload

    def has_changed(self) -> bool:
        """Whether the path has another file now, or one that has fewer bytes than it had."""
        try:
            found = os.stat(self.path)
        except OSError:
            return True
        before, self._seen = self._seen, found
        return not os.path.samestat(before, found) or found.st_size < before.st_size


class Feed:
    """Follows the journal of a host that has an analysts' port at an address."""

    def __init__(
        self,
        path: str,
        address: tuple[str, int],
        files: SetupFiles,
        stream: Stream,
        teller: Teller,
    ) -> None:
        self._path, self._address = path, address
        self._files, self._stream, self._teller = files, stream, teller
        self._release = self._lines = 0
        self._said = time.monotonic()

    def run(self) -> NoReturn:
        while True:
            try:
                with self._session() as session:
                    self._follow(session)
            except Gone as fault:
                self._teller.tell(f"{fault}; trying again")
                time.sleep(AGAIN_SECONDS)

    def _session(self) -> tablebuilder.Session:
        host, port = self._address
        self._lines = 0
        try:
            return tablebuilder.connect(port, host, timeout=PATIENCE)
        except OSError as fault:
            raise Gone(f"{host}:{port}: {fault.strerror or fault}") from fault

    def _ask(self, session: tablebuilder.Session) -> None:
        """Asks which release the port has now."""
        self._lines, self._said = self._lines + 1, time.monotonic()
        host, port = self._address
        try:
            self._release = session.table(self._files.variable).release
        except tablebuilder.OlderRelease as fault:
            # (the server began anew, or another one did at this address)
            self._release = fault.release
        except tablebuilder.OutOfMemory:
            self._teller.tell(f"{host}:{port}: memory; trying again")
        except tablebuilder.Refused as fault:
            raise Stop(f"{host}:{port}: `{fault.line}`: {fault.reply}: other CLASSES") from fault
        except (tablebuilder.Error, OSError) as fault:
            raise Gone(f"{host}:{port}: {fault}") from fault

    def _stay(self, session: tablebuilder.Session) -> None:
        """Says something, once nothing was said for a while, so that the session goes on."""
        if time.monotonic() - self._said < STAY_SECONDS:
            return
        self._lines, self._said = self._lines + 1, time.monotonic()
        host, port = self._address
        try:
            session.stay()
        except (tablebuilder.Error, OSError) as fault:
            raise Gone(f"{host}:{port}: {fault}") from fault

    def _follow(self, session: tablebuilder.Session) -> None:
        """Feeds until the session has had its lines, as long as there is one."""
        while self._lines < MOST_LINES:
            # (first: who answers has the journal's file, and what it says of a release is of that)
            self._release = 0
            self._ask(session)
            try:
                with JournalFile(self._path, self._files.digest) as file:
                    self._pass_over_fed(file)
                    while self._lines < MOST_LINES and self._feed_next(session, file):
                        pass
            except Gone:
                raise
            except Away as fault:
                # (the session is kept: a port has so many of them, and Redis may be away for long)
                self._teller.tell(f"{fault}; trying again")
                time.sleep(AGAIN_SECONDS)

    def _pass_over_fed(self, file: JournalFile) -> None:
        """Reads the batches that the stream has, which must be the journal's."""
        last = self._stream.last()
        while file.number < last.number:
            if file.next() is None:
                raise Stop(
                    f"{file.path} has {file.number} batches, and the stream {self._stream.name} has"
                    f" {last.number}: it is a journal from a backup, or another one"
                )
        if last.number > 0 and file.digest != last.digest:
            raise Stop(self._why_other(file, last))
        self._teller.tell(f"feeding {self._stream.name} from batch {last.number + 1} on")

    def _why_other(self, file: JournalFile, last: Last) -> str:
        name = self._stream.name
        if not last.digest:
            return f"the stream {name} hasn't its last entry any more: begin another one"
        if last.files != self._files.digest:
            return f"the stream {name} is one of other files, or of another threshold"
        return (
            f"the first {last.number} batches of {file.path} aren't those of the stream {name}: it"
            " is a journal from a backup, or another one"
        )

    def _feed_next(self, session: tablebuilder.Session, file: JournalFile) -> bool:
        """Feeds the next batch, or waits a moment; False where the file is to be read anew."""
        before, payload = file.digest, file.next()
        if payload is None:
            self._stay(session)
            time.sleep(LOOK_SECONDS)
            return not file.has_changed()
        return self._is_published(session, file) and self._is_added(file, before, payload)

    def _is_published(self, session: tablebuilder.Session, file: JournalFile) -> bool:
        """Waits until the port prints a release that has the batch that was read last; False where
        the file isn't the same any more, or the session has had its lines."""
        pause = FIRST_SECONDS
        while self._release < file.number:
            if file.has_changed() or self._lines >= MOST_LINES:
                return False
            self._ask(session)
            if self._release < file.number:
                time.sleep(pause)
                pause = min(pause * LONGER, MOST_SECONDS)
        return not file.has_changed()

    def _is_added(self, file: JournalFile, before: str, payload: bytes) -> bool:
        """Adds the batch that was read last; False where the stream doesn't end before it."""
        lines = self._lines_of(file, payload)
        entry = Entry(file.number, before, file.digest, self._files.digest, lines)
        last = self._stream.add(entry)
        # (the same entry may be there by a call of which no answer came)
        return (last.number, last.digest) == (entry.number, entry.digest)

    def _lines_of(self, file: JournalFile, payload: bytes) -> list[str]:
        try:
            edits = journal.edits_of(payload)
            _, *lines, _ = journal.lines(file.number, edits, self._files.classes)
            return lines
        except ValueError as fault:
            raise Stop(f"{file.path}: record {file.number}: {fault}") from fault
        except journal.DoesNotFit as fault:
            raise Stop(f"{file.path}: {fault}: other CLASSES") from fault
