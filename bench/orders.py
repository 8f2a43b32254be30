"""Designs in which what is driven, waited on or due comes in another order than the one in which a simulation keeps it. Each is linear in its
number, or nearly so, in whatever order it comes.
"""
import random
from dataclasses import dataclass
from typing import Callable

from crowds import clock, top


@dataclass
class Order:
    """A design: its title, what makes it of a number, the numbers of which it is made, the bound on frames, and the seconds that the last is to take at most."""
    title: str
    make: Callable[[int], list[str]]
    counts: tuple[int, int, int]
    steps: int
    aim: float


def falling(count):
    return list(reversed(range(count)))


def shuffled(count):
    numbers = list(range(count))
    random.Random(1).shuffle(numbers)
    return numbers


DELAYS = ["    %one = const time 0s 1d", "    %two = const time 0s 2d"]


def driven(count, numbers, delay=lambda number: "one"):
    """An entity that drives so many signals at each edge of a clock, in the order of these numbers."""
    signals = [f"    %s{k} = sig i1 %z" for k in range(count)]
    drives = [f"    drv i1$ %s{k}, %x after %{delay(k)}" for k in numbers]
    head = ["entity @top () -> () {", "    %z = const i1 0"] + DELAYS + ["    %clk = sig i1 %z", "    inst @clock () -> (%clk)"]
    return clock() + head + signals + ["    %x = prb i1$ %clk"] + drives + ["}"]


def bits_of_one_array(count):
    """An entity that drives the bits of one array, the last bit first."""
    head = ["entity @top () -> () {", "    %z = const i1 0"] + DELAYS
    signals = ["    %clk = sig i1 %z", "    inst @clock () -> (%clk)", f"    %w = [{count} x i1 %z]", f"    %s = sig [{count} x i1] %w"]
    drives = [line for k in falling(count) for line in (f"    %b{k} = extf i1$ %s, {k}", f"    drv i1$ %b{k}, %x after %one")]
    return clock() + head + signals + ["    %x = prb i1$ %clk"] + drives + ["}"]


def at(kind, number):
    """A delay of some kind, each number another one."""
    return {"time": f"{10_000_000 + number}fs", "delta": f"10000000fs {number + 1}d", "epsilon": f"10000000fs 0d {number + 1}e"}[kind]


def pending_of_many(kind, numbers):
    """Processes of which each drives a signal once, after a delay of its own."""
    lines = []
    for instance, number in enumerate(numbers):
        lines += [f"proc @p{instance} () -> (i1$ %s) {{", "entry:", "    %one = const i1 1", f"    %t = const time {at(kind, number)}",
                  "    drv i1$ %s, %one after %t", "    halt", "}"]
    count = len(numbers)
    return lines + clock() + top([f"s{k}" for k in range(count)], [f"inst @p{k} () -> (%s{k})" for k in range(count)])


def pending_of_one(kind, numbers):
    """A process that drives a signal after many delays, at once."""
    lines = ["proc @p () -> (i1$ %s) {", "entry:", "    %one = const i1 1"]
    for k, number in enumerate(numbers):
        lines += [f"    %t{k} = const time {at(kind, number)}", f"    drv i1$ %s, %one after %t{k}"]
    return lines + ["    halt", "}"] + clock() + top(["s"], ["inst @p () -> (%s)"])


def pending_frame_by_frame(kind, numbers):
    """A process that drives a signal once in each delta step, after delays of which none is like another."""
    lines = ["proc @p () -> (i1$ %s) {", "entry:", "    %one = const i1 1", "    %step = const time 0s 1d", "    br %b0"]
    for k, number in enumerate(numbers):
        lines += [f"b{k}:", f"    %t{k} = const time {at(kind, number)}", f"    drv i1$ %s, %one after %t{k}", f"    wait %b{k + 1} for %step"]
    return lines + [f"b{len(numbers)}:", "    halt", "}"] + clock() + top(["s"], ["inst @p () -> (%s)"])


def waits_in_two_orders(count):
    """A process that waits in turn on so many signals, and on the same the other way about."""
    names = [f"%s{k}" for k in range(count)]
    body = ["proc @p (i1$ %clk, " + ", ".join(f"i1$ {name}" for name in names) + ") -> () {", "entry:", f"    wait %then, %clk, {', '.join(names)}",
            "then:", f"    wait %entry, {', '.join(reversed(names))}, %clk", "}"]
    return clock() + body + top([name[1:] for name in names], [f"inst @p (%clk, {', '.join(names)}) -> ()"])


ALL = (
    Order("signals driven, the last first", lambda n: driven(n, falling(n)), (7_500, 15_000, 30_000), 20, 1),
    Order("signals driven at random", lambda n: driven(n, shuffled(n)), (7_500, 15_000, 30_000), 20, 1),
    Order("signals driven after two delays in turn", lambda n: driven(n, range(n), lambda k: ("one", "two")[k % 2]), (7_500, 15_000, 30_000), 20, 1),
    Order("bits of one array driven, the last first", bits_of_one_array, (8_000, 16_000, 32_000), 20, 2),
    Order("processes with drives pending, the last first", lambda n: pending_of_many("time", falling(n)), (7_500, 15_000, 30_000), 3, 2),
    Order("processes with drives pending at random", lambda n: pending_of_many("time", shuffled(n)), (7_500, 15_000, 30_000), 3, 2),
    Order("processes with drives pending, deltas at random", lambda n: pending_of_many("delta", shuffled(n)), (7_500, 15_000, 30_000), 3, 2),
    Order("processes with drives pending, epsilons at random", lambda n: pending_of_many("epsilon", shuffled(n)), (7_500, 15_000, 30_000), 3, 2),
    Order("drives of one process pending, the last first", lambda n: pending_of_one("time", falling(n)), (8_000, 16_000, 32_000), 3, 2),
    Order("drives of one process pending at random", lambda n: pending_of_one("time", shuffled(n)), (8_000, 16_000, 32_000), 3, 2),
    Order("drives pending, one a frame, the last first", lambda n: pending_frame_by_frame("time", falling(n)), (5_000, 10_000, 20_000), 30_000, 3),
    Order("drives pending, one a frame, at random", lambda n: pending_frame_by_frame("time", shuffled(n)), (5_000, 10_000, 20_000), 30_000, 2),
    Order("drives pending, one a frame, deltas at random", lambda n: pending_frame_by_frame("delta", shuffled(n)), (5_000, 10_000, 20_000), 30_000, 3),
    Order("signals of two waits in two orders", waits_in_two_orders, (15_000, 30_000, 60_000), 400, 5),
)
