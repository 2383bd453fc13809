#!/usr/bin/env python3
"""Says how many checks, builds or the like this machine takes at a time.

    lanes.py KILOBYTES

As many as there are processors, and memory for, where one takes so many kilobytes; at least one. A
control group may hold both to less than the machine has.
"""

import os
import sys

GROUPS = "/sys/fs/cgroup"


def words_in(path):
    """The words of a file; none where it can't be read."""
    try:
        with open(path, encoding="utf-8") as file:
            return file.read().split()
    except OSError:
        return []


def groups_of(kind):
    """The folders of the control groups that hold this process, of one kind or of the newer form."""
    yield from (f"{GROUPS}/{kind}", GROUPS)
    for word in words_in("/proc/self/cgroup"):
        _, kinds, path = word.split(":", 2)
        if kind in kinds.split(","):
            yield f"{GROUPS}/{kind}{path}"
        elif not kinds:
            yield f"{GROUPS}{path}"


def number_in(folder, name):
    """The number that a file of a control group begins with; none where there is none, or no limit."""
    word = next(iter(words_in(f"{folder}/{name}")), "")
    return int(word) if word.isdigit() else None


def processors():
    """How many this process may use."""
    most = len(os.sched_getaffinity(0))
    for folder in groups_of("cpu"):
        limits = words_in(f"{folder}/cpu.max")
        limits = limits or [*words_in(f"{folder}/cpu.cfs_quota_us"), *words_in(f"{folder}/cpu.cfs_period_us")]
        if len(limits) == 2 and limits[0].isdigit():
            most = min(most, round(int(limits[0]) / int(limits[1])))
    return max(1, most)


def number_of(name, words):
    """The number behind a name among these words; 0 where the name isn't there."""
    return int(words[words.index(name) + 1]) if name in words else 0


def kilobytes():
    """How much memory is to be had; what files were read into it counts as free."""
    room = number_of("MemAvailable:", words_in("/proc/meminfo"))
    for folder in groups_of("memory"):
        cached = number_of("inactive_file", words_in(f"{folder}/memory.stat"))
        for limit, use in (("memory.max", "memory.current"), ("memory.limit_in_bytes", "memory.usage_in_bytes")):
            most, held = number_in(folder, limit), number_in(folder, use)
            if most is not None and held is not None:
                room = min(room, (most - held + cached) // 1024)
    return room


def lanes(each):
    return max(1, min(processors(), kilobytes() // each))


if __name__ == "__main__":
    print(lanes(int(sys.argv[1])))
