#!/usr/bin/env python3
"""measure.py ROUNDS INPUT OUTPUT WORD.. [+ OUTPUT WORD..].. runs each list of words with INPUT as standard input and its
OUTPUT as standard output. In each round every list runs once, so that a slow moment of the machine falls on all of them. It
prints a line for each list: the best wall time in seconds, the highest peak memory in MiB, and the exit status. It can't tell
a peak below its own memory, some 13 MiB, from that."""

import os
import sys
import time


def once(source, target, words):
    """Runs the words once. That the files are opened, and the output emptied, isn't counted."""
    with open(source, "rb") as given, open(target, "wb") as got, open(os.devnull, "wb") as told:
        streams = [(os.POSIX_SPAWN_DUP2, file.fileno(), at) for at, file in enumerate((given, got, told))]
        start = time.monotonic()
        child = os.posix_spawnp(words[0], words, os.environ, file_actions=streams)
        _, status, usage = os.wait4(child, 0)
        taken = time.monotonic() - start
    return taken, usage.ru_maxrss / 1024, os.waitstatus_to_exitcode(status)


def lists_of(words):
    """The lists between the words `+`."""
    lists = [[]]
    for word in words:
        if word == "+":
            lists.append([])
        else:
            lists[-1].append(word)
    return lists


def main():
    """Runs the lists in rounds."""
    rounds, source, lists = int(sys.argv[1]), sys.argv[2], lists_of(sys.argv[3:])
    runs = [[] for _ in lists]
    for _ in range(rounds):
        for done, (target, *words) in zip(runs, lists):
            done.append(once(source, target, words))
    for done in runs:
        print(f"{min(run[0] for run in done):.3f} {max(run[1] for run in done):.1f} {done[0][2]}")


main()
