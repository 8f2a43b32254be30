"""Inputs that are made to be hard for `llhd lower`, each with the lines of its log: at the limits of the language, or of a shape that a careless
algorithm takes quadratic time or memory for. Each is well formed.
"""
import dataclasses
from typing import Callable, Iterable

# the processor time and the memory that an input is to take at most, and where it is cut off
SLOW_SECONDS = 10
MEGABYTES = 1_000
SECONDS = 120
MOST_MEGABYTES = 4_000


@dataclasses.dataclass
class Limit:
    """A hostile input: what it is, its text in pieces, what `lower` says of it, and how long the lowered text is, where that is asked."""
    title: str
    make: Callable[[], Iterable[str]]
    log: str
    length: int | None = None

    def fault(self, run, out, log):
        """What is not as it should be with a run that wrote these files; nothing where all is well."""
        faults = []
        if run.code is None:
            faults.append(f"cut off after {SECONDS} s of the processor")
        elif run.code:
            faults.append(f"ended with {run.code}")
        elif log.read_text(errors="replace") != self.log or self.length not in (None, out.stat().st_size):
            faults.append("another answer")
        if run.processor > SLOW_SECONDS:
            faults.append(f"more than {SLOW_SECONDS} s")
        if run.megabytes > MEGABYTES:
            faults.append(f"more than {MEGABYTES:,} MB")
        return ", ".join(faults)


# ---- as much text as a unit may have ------------------------------------------------------------------------------------

def calls():
    """Fifteen functions, each of which calls the next twice: with its calls replaced the process has 65,536 instructions."""
    lines = ["proc @p () -> () {", "entry:", "    call void @g0 ()", "    %z = const i1 0", "    wait %entry", "}"]
    for k in range(14):
        lines += [f"func @g{k} () void {{", "entry:"] + [f"    call void @g{k + 1} ()"] * 2 + ["    ret", "}"]
    return lines + ["func @g14 () void {", "entry:", "    ret", "}"]


def long_block():
    """One block of 65,536 instructions, of which each but the last uses the one before: a term as deep."""
    yield from ("proc @p (i32$ %a) -> (i32$ %q) {", "entry:", "    %t = const time 0s 1d", "    %v0 = prb i32$ %a")
    for k in range(65_532):
        yield f"    %v{k + 1} = add i32 %v{k}, %v0"
    yield from ("    drv i32$ %q, %v65532 after %t", "    wait %entry, %a", "}")


def constants_in_a_loop():
    """2,613 constants in a loop of 25 turns: a region of 65,536 instructions."""
    lines = ["proc @p (i32$ %a) -> (i32$ %q) {", "entry:", "    %z = const i32 0", "    %one = const i32 1", "    %n = const i32 25",
             "    %t = const time 0s 1d", "    %ap = prb i32$ %a", "    %i = var i32 %z", "    %s = var i32 %z", "    br %loop", "loop:"]
    lines += [f"    %k{k} = const i32 0" for k in range(2_613)]
    return lines + ["    %sp = ld i32* %s", "    %sn = add i32 %sp, %ap", "    st i32* %s, %sn", "    %ip = ld i32* %i",
                    "    %in = add i32 %ip, %one", "    st i32* %i, %in", "    %c = ult i32 %in, %n", "    br %c, %done, %loop", "done:",
                    "    %r = ld i32* %s", "    drv i32$ %q, %r after %t", "    wait %entry, %a", "}"]


# ---- wide values --------------------------------------------------------------------------------------------------------

def wide_choice():
    """A choice between two arrays of 32,768 elements: the array of both has as many bits as a type may have."""
    ty = "[32768 x i1]"
    return [f"proc @p ({ty}$ %x, {ty}$ %y, i1$ %s) -> ({ty}$ %q) {{", "entry:", "    %t = const time 0s 1d", f"    %xp = prb {ty}$ %x",
            f"    %yp = prb {ty}$ %y", "    %sp = prb i1$ %s", "    br %sp, %zero, %one", "zero:", "    br %join", "one:", "    br %join", "join:",
            f"    %v = phi {ty} [%xp, %zero], [%yp, %one]", f"    drv {ty}$ %q, %v after %t", "    wait %entry, %x, %y, %s", "}"]


def elements_one_by_one():
    """Each element of an array of 32,768 is waited on and probed for itself, and all are put together again."""
    count = 32_767
    yield from ("proc @p ([32768 x i1]$ %b) -> (i1$ %q) {", "entry:")
    for k in range(count):
        yield f"    %w{k} = extf i1$ %b, {k}"
    yield "    %t = const time 0s 1d"
    yield "    wait %entry, " + ", ".join(f"%w{k}" for k in range(count))
    yield "}"


def array_of_values():
    """An array literal of 32,768 elements, chosen from by a signal."""
    yield from ("proc @p (i2$ %a, i15$ %s) -> (i2$ %q) {", "entry:", "    %t = const time 0s 1d", "    %x = prb i2$ %a", "    %i = prb i15$ %s",
                "    %n = not i2 %x")
    yield "    %all = [i2 " + ", ".join(("%x", "%n")[k % 3 == 0] for k in range(32_768)) + "]"
    yield from ("    %v = mux i2 %all, %i", "    drv i2$ %q, %v after %t", "    wait %entry, %a, %s", "}")


def declarations():
    """255 declarations of a struct with 65,536 fields: a lowered text of almost 64 MiB."""
    for _ in range(255):
        yield "declare @d({" + ",".join(["i1"] * 65_536) + "})void"


# ---- control ------------------------------------------------------------------------------------------------------------

def case_chain(arms, driven):
    """A `case` of so many arms, which drives in each arm or once behind all."""
    yield from ("proc @p (i32$ %a, i16$ %s) -> (i32$ %q) {", "entry:", "    %t = const time 0s 1d", "    %x = prb i32$ %a", "    %o = prb i16$ %s",
                "    %r = var i32 %x", "    br %ask0")
    for k in range(arms):
        other = f"%ask{k + 1}" if k + 1 < arms else "%done"
        act = f"drv i32$ %q, %v{k} after %t" if driven else f"st i32* %r, %v{k}"
        yield from (f"ask{k}:", f"    %k{k} = const i16 {k}", f"    %is{k} = eq i16 %o, %k{k}", f"    br %is{k}, {other}, %do{k}",
                    f"do{k}:", f"    %m{k} = const i32 {k * 77 + 1}", f"    %v{k} = umul i32 %x, %m{k}", f"    {act}", "    br %done")
    yield "done:"
    if not driven:
        yield from ("    %v = ld i32* %r", "    drv i32$ %q, %v after %t")
    yield from ("    wait %entry, %a, %s", "}")


def ladder(count):
    """So many `if` one behind the other, each of which may change a variable, and as many values that are used behind them all."""
    ty = f"[{count} x i1]"
    yield from (f"proc @p ({ty}$ %a, i32$ %b) -> (i32$ %q, i1$ %odd) {{", "entry:", "    %t = const time 0s 1d", f"    %x = prb {ty}$ %a",
                "    %y = prb i32$ %b", "    %r = var i32 %y", "    %p0 = const i1 0", "    br %if0")
    for k in range(count):
        yield from (f"if{k}:", f"    %c{k} = extf i1 %x, {k}", f"    br %c{k}, %if{k + 1}, %do{k}",
                    f"do{k}:", f"    %o{k} = ld i32* %r", f"    %n{k} = add i32 %o{k}, %y", f"    st i32* %r, %n{k}", f"    br %if{k + 1}")
    yield f"if{count}:"
    for k in range(count):
        yield f"    %p{k + 1} = xor i1 %p{k}, %c{k}"
    yield from ("    %v = ld i32* %r", "    drv i32$ %q, %v after %t", f"    drv i1$ %odd, %p{count} after %t", "    wait %entry, %a, %b", "}")


def early_exits(count, used):
    """So many tests, before each of which a variable of its own is set and any of which may end the round; so many variables are used in the end."""
    ty = f"[{count} x i1]"
    outputs = ", ".join(f"i8$ %q{k}" for k in range(used))
    yield from (f"proc @p ({ty}$ %a, i8$ %b) -> ({outputs}) {{", "entry:", "    %t = const time 0s 1d", f"    %x = prb {ty}$ %a",
                "    %y = prb i8$ %b", "    %z = const i8 0")
    for k in range(count):
        yield f"    %r{k} = var i8 %z"
    yield "    br %if0"
    for k in range(count):
        other = f"%if{k + 1}" if k + 1 < count else "%out"
        yield from (f"if{k}:", f"    st i8* %r{k}, %y", f"    %c{k} = extf i1 %x, {k}", f"    br %c{k}, {other}, %out")
    yield "out:"
    for k in range(used):
        yield from (f"    %v{k} = ld i8* %r{k}", f"    drv i8$ %q{k}, %v{k} after %t")
    yield from ("    wait %entry, %a, %b", "}")


def cells(count, ifs, setting, arms=1):
    """So many cells, which are loaded where the way ends that leads through so many `if`. They are set in a last arm behind all, in a first arm
    that leads past all, or each in the next `if`; with more arms at such a place each sets some."""
    yield from (f"proc @p ([{ifs} x i1]$ %a, [8 x i1]$ %b) -> (i1$ %odd) {{", "entry:", "    %t = const time 0s 1d", f"    %x = prb [{ifs} x i1]$ %a",
                "    %y = prb [8 x i1]$ %b", "    %p0 = const i1 0")
    yield from (f"    %r{k} = var i1 %p0" for k in range(count))
    yield from choice(arms, count, "%if0") if setting == "first" else ("    br %if0",)
    for k in range(ifs):
        yield from (f"if{k}:", f"    %c{k} = extf i1 %x, {k}", f"    br %c{k}, %if{k + 1}, %do{k}", f"do{k}:")
        yield from (f"    st i1* %r{j}, %c{k}" for j in range(k * count // ifs, (k + 1) * count // ifs) if setting == "each")
        yield f"    br %if{k + 1}"
    yield f"if{ifs}:"
    yield from choice(arms, count, "%join") if setting == "last" else ("    br %join",)
    yield "join:"
    for k in range(count):
        yield from (f"    %v{k} = ld i1* %r{k}", f"    %p{k + 1} = xor i1 %p{k}, %v{k}")
    yield from (f"    drv i1$ %odd, %p{count} after %t", "    wait %entry, %a, %b", "}")


def choice(arms, count, other):
    """Goes to one of these arms, each of which sets some of the cells, or elsewhere."""
    for k in range(arms):
        yield from (f"    %b{k} = extf i1 %y, {k}", f"    br %b{k}, %ask{k}, %arm{k}", f"arm{k}:")
        yield from (f"    st i1* %r{j}, %b{k}" for j in range(k, count, arms))
        yield from ("    br %join", f"ask{k}:")
    yield f"    br {other}"


# ---- edges --------------------------------------------------------------------------------------------------------------

def clocks(count, more=0):
    """A register of so many clocks: its condition has two atoms for each, and so many more of enables."""
    clock, enable = [f"%c{k}" for k in range(count)], [f"%e{k}" for k in range(more)]
    arguments = ", ".join(f"i1$ {name}" for name in clock + enable)
    waits = ", ".join(clock)
    lines = [f"proc @p ({arguments}, i32$ %d) -> (i32$ %q) {{", "init:"]
    lines += [f"    %b{k} = prb i1$ %c{k}" for k in range(count)] + [f"    wait %check, {waits}", "check:", "    %any0 = const i1 0"]
    for k in range(count):
        lines += [f"    %n{k} = prb i1$ %c{k}", f"    %x{k} = neq i1 %b{k}, %n{k}", f"    %up{k} = and i1 %x{k}, %n{k}"]
        gate = f"%up{k}"
        if k < more:
            lines += [f"    %g{k} = prb i1$ %e{k}", f"    %on{k} = and i1 %up{k}, %g{k}"]
            gate = f"%on{k}"
        lines.append(f"    %any{k + 1} = or i1 %any{k}, {gate}")
    return lines + [f"    br %any{count}, %init, %event", "event:", "    %v = prb i32$ %d", "    %t = const time 0s 1d",
                    "    drv i32$ %q, %v after %t", "    br %init", "}"]


def drives_under_an_edge(count):
    """So many signals that are driven at one edge."""
    outputs = ", ".join(f"i32$ %q{k}" for k in range(count))
    yield from (f"proc @p (i1$ %clk, i32$ %d) -> ({outputs}) {{", "init:", "    %c0 = prb i1$ %clk", "    wait %check, %clk", "check:",
                "    %c1 = prb i1$ %clk", "    %x = neq i1 %c0, %c1", "    %up = and i1 %x, %c1", "    br %up, %init, %event", "event:",
                "    %t = const time 0s 1d", "    %v0 = prb i32$ %d")
    for k in range(count):
        yield from (f"    %v{k + 1} = add i32 %v{k}, %v0", f"    drv i32$ %q{k}, %v{k + 1} after %t")
    yield from ("    br %init", "}")


def conditions_at_an_edge(count):
    """So many signals, each driven at one edge where an enable of its own is 1."""
    enables = ", ".join(f"i1$ %e{k}" for k in range(count))
    outputs = ", ".join(f"i32$ %q{k}" for k in range(count))
    yield from (f"proc @p (i1$ %clk, {enables}, i32$ %d) -> ({outputs}) {{", "init:", "    %c0 = prb i1$ %clk", "    wait %check, %clk", "check:",
                "    %c1 = prb i1$ %clk", "    %x = neq i1 %c0, %c1", "    %up = and i1 %x, %c1", "    br %up, %init, %event", "event:",
                "    %t = const time 0s 1d", "    %v = prb i32$ %d")
    for k in range(count):
        yield from (f"    %g{k} = prb i1$ %e{k}", f"    drv i32$ %q{k}, %v after %t if %g{k}")
    yield from ("    br %init", "}")


# ---- things that are looked up ------------------------------------------------------------------------------------------

def parts_from_the_lowest_bit(count):
    """So many parts of one value, each of which begins at its lowest bit."""
    ty = f"[{count} x i1]"
    yield from (f"proc @p ({ty}$ %a) -> (i1$ %odd) {{", "entry:", "    %t = const time 0s 1d", f"    %x = prb {ty}$ %a", "    %p0 = const i1 0")
    for k in range(1, count):
        yield from (f"    %w{k} = exts [{k} x i1] %x, 0, {k}", f"    %b{k} = extf i1 %w{k}, {k - 1}", f"    %p{k} = xor i1 %p{k - 1}, %b{k}")
    yield from (f"    drv i1$ %odd, %p{count - 1} after %t", "    wait %entry, %a", "}")


def delays(count):
    """So many signals that are driven, each after a number of delta steps of its own."""
    outputs = ", ".join(f"i1$ %q{k}" for k in range(count))
    yield from (f"proc @p (i1$ %a) -> ({outputs}) {{", "entry:", "    %x = prb i1$ %a")
    for k in range(count):
        yield from (f"    %t{k} = const time 0s {k + 1}d", f"    drv i1$ %q{k}, %x after %t{k}")
    yield from ("    wait %entry, %a", "}")


def names_that_are_taken(count):
    """So many arguments that are named as the values of the entity would be."""
    names = [f"%v{k}" for k in range(count)]
    yield from ("proc @p (" + ", ".join(f"i1$ {name}" for name in names) + ") -> (i1$ %odd) {", "entry:", "    %t = const time 0s 1d", "    %p0 = const i1 0")
    for k, name in enumerate(names):
        yield from (f"    %x{k} = prb i1$ {name}", f"    %p{k + 1} = xor i1 %p{k}, %x{k}")
    yield from (f"    drv i1$ %odd, %p{count} after %t", "    wait %entry, " + ", ".join(names), "}")


# ---- a processor --------------------------------------------------------------------------------------------------------

# operations and comparisons with the number by which an instruction's function is told
ALU = (("add", 0), ("shl", 1), ("slt", 2), ("ult", 3), ("xor", 4), ("shr", 5), ("or", 6), ("and", 7))
LONG = (("umul", 0), ("smul", 1), ("umul", 2), ("umul", 3), ("sdiv", 4), ("udiv", 5), ("srem", 6), ("urem", 7))
BRANCHES = (("eq", 0), ("neq", 1), ("slt", 4), ("sge", 5), ("ult", 6), ("uge", 7))
COMPARISONS = ("eq", "neq", "slt", "sge", "ult", "uge")


def instructions():
    """Opcode, function and extension of each instruction, its operation, its second operand and where its result goes."""
    rows = [(0x33, code, 0, op, "b", "register") for op, code in ALU] + [(0x33, 0, 32, "sub", "b", "register"), (0x33, 5, 32, "sar", "b", "register")]
    rows += [(0x33, code, 1, op, "b", "register") for op, code in LONG]
    rows += [(0x13, code, None, op, "m", "register") for op, code in ALU]
    rows += [(0x63, code, None, op, "b", "branch") for op, code in BRANCHES]
    rows += [(0x03, code, None, "add", "m", "load") for code in (0, 1, 2, 4, 5)] + [(0x23, code, None, "add", "m", "store") for code in (0, 1, 2)]
    return rows + [(0x6F, None, None, "add", "m", "jump"), (0x67, 0, None, "add", "m", "jump"), (0x37, None, None, "or", "m", "register")]


def processor():
    """A combinational process that executes one instruction in the manner of RISC-V: a chain of tests, with an arm for each instruction."""
    regs = "[32 x i32]"
    lines = [f"proc @p (i32$ %pc, i32$ %word, {regs}$ %regs, i32$ %loaded) -> ({regs}$ %next, i32$ %goes, i32$ %address, i32$ %stored) {{", "entry:",
             "    %t = const time 0s 1d", "    %z = const i32 0", "    %four = const i32 4", "    %p = prb i32$ %pc", "    %w = prb i32$ %word",
             f"    %r = prb {regs}$ %regs", "    %l = prb i32$ %loaded", "    %op = exts i7 %w, 0, 7", "    %f3 = exts i3 %w, 12, 3",
             "    %f7 = exts i7 %w, 25, 7", "    %to = exts i5 %w, 7, 5", "    %p4 = add i32 %p, %four", "    %out = var i32 %z",
             "    %pcv = var i32 %p4", "    %addr = var i32 %z", "    %data = var i32 %z", "    br %ask0"]
    rows = instructions()
    for k, row in enumerate(rows):
        lines += test(k, row, f"%ask{k + 1}" if k + 1 < len(rows) else "%done") + arm(k, *row[3:])
    lines += ["done:", "    %result = ld i32* %out", "    %npc = ld i32* %pcv", "    %na = ld i32* %addr", "    %nd = ld i32* %data", "    br %put0"]
    for k in range(32):
        lines += [f"put{k}:", f"    %pk{k} = const i5 {k}", f"    %pe{k} = eq i5 %to, %pk{k}", f"    %pq{k} = extf i32$ %next, {k}",
                  f"    %po{k} = extf i32 %r, {k}", f"    %pa{k} = [i32 %po{k}, %result]", f"    %pv{k} = mux i32 %pa{k}, %pe{k}",
                  f"    drv i32$ %pq{k}, %pv{k} after %t", f"    br %put{k + 1}"]
    return lines + ["put32:", "    drv i32$ %goes, %npc after %t", "    drv i32$ %address, %na after %t", "    drv i32$ %stored, %nd after %t",
                    "    wait %entry, %pc, %word, %regs, %loaded", "}"]


def test(k, row, other):
    """The lines that ask whether the word is this instruction."""
    opcode, function, extension = row[:3]
    lines = [f"ask{k}:", f"    %ko{k} = const i7 {opcode}", f"    %is{k}.0 = eq i7 %op, %ko{k}"]
    last = 0
    for ty, value, name, number in (("i3", "%f3", "kf", function), ("i7", "%f7", "ke", extension)):
        if number is not None:
            lines += [f"    %{name}{k} = const {ty} {number}", f"    %q{name}{k} = eq {ty} {value}, %{name}{k}",
                      f"    %is{k}.{last + 1} = and i1 %is{k}.{last}, %q{name}{k}"]
            last += 1
    return lines + [f"    br %is{k}.{last}, {other}, %do{k}", f"do{k}:"]


def arm(k, op, second, goes):
    """The lines of an instruction: its immediate from its pieces, its result, and the program's next place."""
    n = lambda name: f"%{name}.{k}"
    lines = [f"    {n('m0')} = exts i12 %w, 20, 12", f"    {n('sg')} = exts i1 %w, 31, 1", f"    {n('hi')} = const i32 4294963200",
             f"    {n('fs')} = [i32 %z, {n('hi')}]", f"    {n('ext')} = mux i32 {n('fs')}, {n('sg')}",
             f"    {n('m1')} = inss i32 %z, {n('m0')}, 0, 12"]
    for j in range(16):
        before = f"%i{k}.{j - 1}" if j else "%z"
        lines += [f"    %u{k}.{j} = exts i2 %w, {j * 2}, 2", f"    %i{k}.{j} = inss i32 {before}, %u{k}.{j}, {30 - j * 2}, 2"]
    lines += [f"    {n('mix')} = xor i32 {n('m1')}, %i{k}.15", f"    {n('m')} = or i32 {n('mix')}, {n('ext')}",
              f"    {n('k')} = const i5 0"] + operand(n, "a", 15) + operand(n, "b", 20)
    x, y = n("a"), n("b") if second == "b" else n("m")
    if op in COMPARISONS:
        lines += [f"    {n('cmp')} = {op} i32 {x}, {y}", f"    {n('v')} = inss i32 %z, {n('cmp')}, 0, 1"]
    elif op == "sar":
        lines += [f"    {n('sb')} = exts i1 {x}, 31, 1", f"    {n('ones')} = not i32 %z", f"    {n('fill')} = [i32 %z, {n('ones')}]",
                  f"    {n('in')} = mux i32 {n('fill')}, {n('sb')}", f"    {n('n')} = exts i5 {y}, 0, 5",
                  f"    {n('v')} = shr i32 {x}, i32 {n('in')}, i5 {n('n')}"]
    elif op in ("shl", "shr"):
        lines += [f"    {n('n')} = exts i5 {y}, 0, 5", f"    {n('v')} = {op} i32 {x}, i32 %z, i5 {n('n')}"]
    else:
        lines.append(f"    {n('v')} = {op} i32 {x}, {y}")
    return lines + finish(n, goes)


def operand(n, name, at):
    """A register that the word names at a place; register 0 reads as 0."""
    index, zero, held, both = (n(f"{name}{word}") for word in ("index", "zero", "held", "both"))
    return [f"    {index} = exts i5 %w, {at}, 5", f"    {zero} = eq i5 {index}, {n('k')}", f"    {held} = mux i32 %r, {index}",
            f"    {both} = [i32 {held}, %z]", f"    {n(name)} = mux i32 {both}, {zero}"]


def finish(n, goes):
    """Where the result of an instruction goes."""
    jump = [f"    {n('tgt')} = add i32 %p, {n('m')}"]
    if goes == "branch":
        jump += [f"    {n('two')} = [i32 %p4, {n('tgt')}]", f"    {n('np')} = mux i32 {n('two')}, {n('cmp')}", f"    st i32* %pcv, {n('np')}"]
    elif goes == "jump":
        jump += ["    st i32* %out, %p4", f"    st i32* %pcv, {n('v')}"]
    elif goes == "load":
        jump += [f"    st i32* %addr, {n('v')}", "    st i32* %out, %l"]
    elif goes == "store":
        jump += [f"    st i32* %addr, {n('v')}", f"    st i32* %data, {n('b')}"]
    else:
        jump = [f"    st i32* %out, {n('v')}"]
    return jump + ["    br %done"]


# ---- all of them --------------------------------------------------------------------------------------------------------

COMB, EDGE = "lowered @p comb\n", "lowered @p edge\n"


def all_limits():
    return [
        Limit("65,536 instructions, in one block", long_block, COMB),
        Limit("65,536 instructions, by calls", calls, COMB),
        Limit("2,613 constants in 25 turns", constants_in_a_loop, COMB),
        Limit("a choice of 32,768 elements", wide_choice, COMB),
        Limit("32,767 elements waited on", elements_one_by_one, COMB),
        Limit("an array of 32,768 values", array_of_values, COMB),
        Limit(f"a processor, {size(processor()):,} instructions", processor, COMB),
        Limit("a case of 200 arms, one drive", lambda: case_chain(200, False), COMB),
        Limit("a case of 200 arms, 200 drives", lambda: case_chain(200, True), COMB),
        Limit("an edge of 11 atoms", lambda: clocks(5, 1), EDGE),
        Limit("an edge of 12 atoms", lambda: clocks(6), EDGE),
        Limit("an edge of 14 atoms", lambda: clocks(7), "left @p TooManyAtoms\n"),
        Limit("500 drives at an edge", lambda: drives_under_an_edge(500), EDGE),
        Limit("1,000 drives at an edge", lambda: drives_under_an_edge(1000), EDGE),
        Limit("10,000 drives at an edge", lambda: drives_under_an_edge(10_000), EDGE),
        Limit("4,000 conditions at an edge", lambda: conditions_at_an_edge(4000), EDGE),
        Limit("8,000 conditions at an edge", lambda: conditions_at_an_edge(8000), EDGE),
        Limit("20,000 parts from the lowest bit", lambda: parts_from_the_lowest_bit(20_000), COMB),
        Limit("20,000 delays", lambda: delays(20_000), COMB),
        Limit("30,000 arguments named as values", lambda: names_that_are_taken(30_000), COMB),
        Limit("1,000 ifs, 1,000 values used later", lambda: ladder(1000), COMB),
        Limit("2,000 ifs, 2,000 values used later", lambda: ladder(2000), COMB),
        Limit("4,000 ifs, 4,000 values used later", lambda: ladder(4000), COMB),
        Limit("4,000 exits, 1 of 4,000 variables", lambda: early_exits(4000, 1), COMB),
        Limit("1,000 exits, 1,000 variables", lambda: early_exits(1000, 1000), "left @p EntityTooLarge\n"),
        Limit("2,000 exits, 2,000 variables", lambda: early_exits(2000, 2000), "left @p EntityTooLarge\n"),
        Limit("4,000 exits, 4,000 variables", lambda: early_exits(4000, 4000), "left @p EntityTooLarge\n"),
        Limit("2,000 cells, 2,000 ifs before all", lambda: cells(2000, 2000, "last"), COMB),
        Limit("8,000 cells, 8,000 ifs before all", lambda: cells(8000, 8000, "last"), COMB),
        Limit("8,000 cells, 8,000 ifs before 8 arms", lambda: cells(8000, 8000, "last", 8), COMB),
        Limit("8,000 cells, 8,000 ifs beside all", lambda: cells(8000, 8000, "first"), COMB),
        Limit("8,000 cells, each in one of 8,000 ifs", lambda: cells(8000, 8000, "each"), COMB),
        Limit("255 declarations of 65,536 fields", declarations, "", 66_851_565),
    ]


def size(lines):
    """How many instructions stand in a unit's lines."""
    return sum(line.startswith("    ") for line in lines)
