"""Designs in which very many instances or signals do the same at one instant, each with the words by which it is simulated."""


def clock():
    """A process that turns a clock each nanosecond, without end."""
    return ["proc @clock () -> (i1$ %clk) {", "entry:", "    %half = const time 1ns", "    %now = const time 0s 1d", "    %old = prb i1$ %clk",
            "    %new = not i1 %old", "    drv i1$ %clk, %new after %now", "    wait %entry for %half", "}"]


def top(signals, instances):
    """An entity with a clock, these signals of one bit and these instances."""
    return ["entity @top () -> () {", "    %z = const i1 0", "    %clk = sig i1 %z", "    inst @clock () -> (%clk)"] + [f"    %{s} = sig i1 %z" for s in signals] + [f"    {i}" for i in instances] + ["}"]


def two_delays(count):
    """So many processes, each of which drives one signal after one delta step and another one after two."""
    body = ["proc @p (i1$ %clk) -> (i1$ %a, i1$ %b) {", "entry:", "    %one = const time 0s 1d", "    %two = const time 0s 2d", "    %x = prb i1$ %clk",
            "    drv i1$ %a, %x after %one", "    drv i1$ %b, %x after %two", "    wait %entry, %clk", "}"]
    return clock() + body + top([f"{name}{k}" for k in range(count) for name in "ab"], [f"inst @p (%clk) -> (%a{k}, %b{k})" for k in range(count)])


def waits_that_change(count):
    """So many processes, all of which wait in turn on a clock and on the signal that follows it."""
    body = ["proc @p (i1$ %clk, i1$ %late) -> () {", "entry:", "    wait %then, %clk", "then:", "    wait %entry, %late", "}",
            "proc @follow (i1$ %clk) -> (i1$ %late) {", "entry:", "    %one = const time 0s 1d", "    %x = prb i1$ %clk", "    drv i1$ %late, %x after %one",
            "    wait %entry, %clk", "}"]
    return clock() + body + top(["late"], ["inst @follow (%clk) -> (%late)"] + ["inst @p (%clk, %late) -> ()"] * count)


def one_wait(count):
    """So many signals that all change at one instant, and a process that waits on all of them."""
    names = ", ".join(f"%s{k}" for k in range(count))
    body = ["proc @follow (i1$ %clk) -> (i1$ %late) {", "entry:", "    %one = const time 0s 1d", "    %x = prb i1$ %clk", "    drv i1$ %late, %x after %one",
            "    wait %entry, %clk", "}", "proc @all (" + ", ".join(f"i1$ %s{k}" for k in range(count)) + ") -> () {", "entry:", f"    wait %entry, {names}", "}"]
    return clock() + body + top([f"s{k}" for k in range(count)], [f"inst @follow (%clk) -> (%s{k})" for k in range(count)] + [f"inst @all ({names}) -> ()"])


# the title of each design, what makes it of a number, and the bound on frames
ALL = (
    ("processes with two delays", two_delays, 20),
    ("processes whose waits change", waits_that_change, 20),
    ("signals of one wait", one_wait, 20),
)
