#!/usr/bin/env python3
"""Prints a schedule: which core takes a step, in what order, and what bytes come into ports between the steps.

  schedule.py 1000                          a thousand steps of core 0
  schedule.py 1000 --cores 2                of cores 0 and 1 in turn
  schedule.py 1000 --weights 3,1            three steps of core 0 for each one of core 1, in turn
  schedule.py 1000 --cores 2 --random 7     each step of a core drawn at random, by the seed 7; by weights where they are given
  schedule.py 1000 --cores 2 --start 1=500  core 1 takes no step before the 500 first steps
  schedule.py 1000 --text 0='hello'         the bytes of a text into port 0, spread over the steps
  schedule.py 1000 --at 500=0='hello'       the same, but all at once after the first 500 steps
  schedule.py 1000 --every 12=50            a byte 0 into port 12 after each 50 steps

The count of a step is the number of steps before it, so counts never fall.
"""
import argparse
import random
import sys

MOST = 1_000_000


def pair(text):
    """`N=REST`, a number and what stands after it."""
    number, _, rest = text.partition("=")
    if not rest or not number.isdecimal():
        raise argparse.ArgumentTypeError(f"not of the form N=...: {text}")
    return int(number), rest


def text_at(text):
    """`STEP=PORT=TEXT`, a step, a port and a text."""
    step, rest = pair(text)
    port, what = pair(rest)
    return step, port, what


def numbers(text):
    return [int(part) for part in text.split(",")]


def turns(weights, may_run):
    """Cores in turn for ever, each as often in a row as its weight; one that may not run yet is passed over."""
    while True:
        for core, weight in enumerate(weights):
            for _ in range(weight):
                if may_run(core):
                    yield core


def draws(weights, may_run, seed):
    """Cores drawn by their weights; one that may not run yet is drawn again."""
    source = random.Random(seed)
    cores = range(len(weights))
    while True:
        core = source.choices(cores, weights)[0]
        if may_run(core):
            yield core


def inputs_of(given):
    """How many steps come before each input, its port and its byte, in order."""
    texts = [(port, byte) for port, text in given.text for byte in text.encode()]
    spread = [(1 + number * given.steps // len(texts), *put) for number, put in enumerate(texts)]
    timed = [(step, port, byte) for step, port, text in given.at for byte in text.encode()]
    regular = [(step, port, 0) for port, period in given.every for step in range(period, given.steps + 1, period)]
    return sorted(spread + timed + regular, key=lambda put: put[0])


def main():
    options = argparse.ArgumentParser(description=__doc__, formatter_class=argparse.RawDescriptionHelpFormatter)
    options.add_argument("steps", type=int, help="how many steps all cores take together")
    options.add_argument("--cores", type=int, default=1, help="cores 0 to N - 1 take them, one as often as the other")
    options.add_argument("--weights", type=numbers, help="how often each core, from core 0 on, in the place of --cores")
    options.add_argument("--random", type=int, metavar="SEED", help="in the order of a random source with this seed")
    options.add_argument("--start", type=pair, action="append", default=[], metavar="CORE=STEP",
                         help="the core takes no step before this one")
    options.add_argument("--text", type=pair, action="append", default=[], metavar="PORT=TEXT",
                         help="the bytes of a text go into the port")
    options.add_argument("--at", type=text_at, action="append", default=[], metavar="STEP=PORT=TEXT",
                         help="the bytes of a text go into the port after this many steps")
    options.add_argument("--every", type=pair, action="append", default=[], metavar="PORT=STEPS",
                         help="a byte 0 goes into the port each time after this many steps")
    given = options.parse_args()

    weights = given.weights or [1] * given.cores
    starts = {core: int(step) for core, step in given.start}
    given.every = [(port, int(period)) for port, period in given.every]
    if any(period == 0 for _, period in given.every):
        sys.exit("a byte after each 0 steps")
    inputs = inputs_of(given)
    if given.steps + len(inputs) > MOST:
        sys.exit(f"more than {MOST} events")
    if all(weight == 0 for weight in weights) or min(weights) < 0:
        sys.exit("no core takes a step")
    if all(starts.get(core, 0) > 0 for core, weight in enumerate(weights) if weight):
        sys.exit("no core takes the first step")

    taken = 0
    may_run = lambda core: starts.get(core, 0) <= taken
    order = turns(weights, may_run) if given.random is None else draws(weights, may_run, given.random)
    put = 0
    while True:
        while put < len(inputs) and inputs[put][0] <= taken:
            print(f"i {inputs[put][1]} {inputs[put][2]}")
            put += 1
        if taken == given.steps:
            break
        print(f"s {next(order)} {taken}")
        taken += 1


if __name__ == "__main__":
    main()
