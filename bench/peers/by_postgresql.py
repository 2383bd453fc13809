"""One table by PostgreSQL: `group by`, and a join with the perturbation table, over a server of its own in
a folder of its own, which is taken away at the end.

    by_postgresql.py FOLDER THRESHOLD OUT

Prints the seconds of loading, of the table from the persons, and of the table from counts that are kept.
It runs as the user `postgres` where it is begun by root, who may not run that server.
"""
import glob
import os
import pwd
import re
import shutil
import subprocess
import sys
import tempfile

from queries import COUNTS, FILES, KEPT_TABLE, TABLE

BINARIES = sorted(glob.glob("/usr/lib/postgresql/*/bin"))


def become_postgres(folder):
    """The words before a command, so that it isn't run by root."""
    if os.geteuid() != 0:
        return []
    user = pwd.getpwnam("postgres")
    os.chown(folder, user.pw_uid, user.pw_gid)
    return ["setpriv", f"--reuid={user.pw_uid}", f"--regid={user.pw_gid}", "--clear-groups"]


def script_of(folder, threshold, out):
    """What `psql` is to do, in three parts that are timed."""
    yield "\\timing on\n"
    for name, columns in FILES.items():
        yield f"create table {name} ({', '.join(map(' '.join, columns))});\n"
        yield f"\\copy {name} from '{folder}/{name}.csv' with (format csv, header)\n"
    yield "create index pairs on ptable (pcv, ckey);\nanalyze;\n\\echo loaded\n"
    cold, kept = (query.format(threshold=threshold) for query in (TABLE, KEPT_TABLE))
    yield "\\pset format unaligned\n\\pset fieldsep ','\n\\pset tuples_only on\n"
    yield f"\\o {out}\n{cold};\n\\o\n\\echo cold\n"
    yield f"create table counts as {COUNTS};\nanalyze counts;\n\\echo made\n"
    yield f"\\o {out}.again\n{kept};\n\\o\n\\echo kept\n"


def seconds_of(told):
    """The sums of what `psql` timed before each word."""
    sums, part = [], 0.0
    for line in told.splitlines():
        time = re.match(r"Time: ([0-9.]+) ms", line)
        if time:
            part += float(time[1]) / 1e3
        elif line in ("loaded", "cold", "made", "kept"):
            sums.append(part)
            part = 0.0
    return sums


def run(folder, threshold, room):
    def call(*words, **more):
        return subprocess.run([*own, *words], check=True, capture_output=True, text=True, **more)

    own = become_postgres(room)
    binaries, data = BINARIES[-1], f"{room}/data"
    call(f"{binaries}/initdb", "-D", data, "-A", "trust", "-U", "postgres", cwd=room)
    options = f"-c listen_addresses= -c unix_socket_directories={room} -c shared_buffers=256MB"
    call(f"{binaries}/pg_ctl", "-D", data, "-l", f"{room}/log", "-o", options, "-w", "start", cwd=room)
    try:
        script = "".join(script_of(folder, threshold, f"{room}/out"))
        words = [f"{binaries}/psql", "-X", "-q", "-v", "ON_ERROR_STOP=1", "-h", room, "-U", "postgres"]
        return seconds_of(call(*words, input=script, cwd=room).stdout)
    finally:
        call(f"{binaries}/pg_ctl", "-D", data, "-m", "immediate", "stop", cwd=room)


def main(folder, threshold, out):
    room = tempfile.mkdtemp(prefix="tablebuilder-postgresql-")
    try:
        loaded, cold, _, kept = run(os.path.abspath(folder), int(threshold), room)
        texts = []
        for path in (f"{room}/out", f"{room}/out.again"):
            with open(path, encoding="ascii") as file:
                texts.append("AREA,SEX,count\n" + file.read())
        if texts[0] != texts[1]:
            sys.exit("another table")
        with open(out, "w", encoding="ascii") as file:
            file.write(texts[0])
        print(loaded, cold, kept)
    finally:
        shutil.rmtree(room)


if __name__ == "__main__":
    main(*sys.argv[1:])
