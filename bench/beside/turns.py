#!/usr/bin/env python3
"""Nanoseconds a turn of a counting loop: turns.py COMMAND..., in which ROUNDS stands for a number of rounds.

A round is 150,000 turns. The processor time of a few rounds is taken from that of many, so that the start is not
counted; of each the least of several tries, since what else the computer does can only add to it.
"""

import resource
import subprocess
import sys

TURNS, FEW, MANY, TRIES = 150000, 1, 101, 5


def processor_time():
    used = resource.getrusage(resource.RUSAGE_CHILDREN)
    return used.ru_utime + used.ru_stime


def seconds(command, rounds):
    start = processor_time()
    subprocess.run([word.replace("ROUNDS", str(rounds)) for word in command], stdout=subprocess.DEVNULL, check=True)
    return processor_time() - start


def least(command, rounds):
    return min(seconds(command, rounds) for _ in range(TRIES))


def main():
    command = sys.argv[1:]
    took = least(command, MANY) - least(command, FEW)
    print(f"{took / (MANY - FEW) / TURNS * 1e9:.1f}")


main()
