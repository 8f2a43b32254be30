"""Units in which it is hard to tell whether a value is defined on each path to its use. Each is well formed; `check` is to take time as its text."""


def function(lines):
    """A function of a condition, with these lines after its entry's first ones."""
    return ["func @f (i1 %c) i8 {", "entry:", "    %v = const i8 1"] + lines + ["    ret i8 %v", "}"]


def ladder(count):
    """Two rails of so many blocks in all: from each block control goes on along its rail or crosses to the other one, and each uses a value of the entry."""
    rungs = count // 2
    lines = ["    br %c, %l0, %r0"]
    for k in range(rungs):
        onward = [f"%l{k + 1}", f"%r{k + 1}"] if k + 1 < rungs else ["%end", "%end"]
        for rail, (straight, across) in zip("lr", (onward, onward[::-1])):
            lines += [f"{rail}{k}:", f"    %{rail}{k} = not i8 %v", f"    br %c, {straight}, {across}"]
    return function(lines + ["end:"])


def crossed_phis(count):
    """The same rails, where each block merges what the two blocks before it gave."""
    rungs = count // 2
    lines = ["    br %c, %l0, %r0", "l0:", "    %l0 = not i8 %v", "    br %c, %l1, %r1", "r0:", "    %r0 = not i8 %v", "    br %c, %r1, %l1"]
    for k in range(1, rungs):
        onward = [f"%l{k + 1}", f"%r{k + 1}"] if k + 1 < rungs else ["%end", "%end"]
        for rail, (straight, across) in zip("lr", (onward, onward[::-1])):
            lines += [f"{rail}{k}:", f"    %{rail}{k} = phi i8 [%l{k - 1}, %l{k - 1}], [%r{k - 1}, %r{k - 1}]", f"    br %c, {straight}, {across}"]
    return function(lines + ["end:"])


def nested_ifs(count):
    """So many conditions, each within the one before, as a front end writes them: behind each its two ways join."""
    depth = count // 4
    lines = ["    br %i0"]
    for k in range(depth):
        lines += [f"i{k}:", f"    %x{k} = not i8 %{'v' if k == 0 else f'x{k - 1}'}", f"    br %c, %e{k}, %t{k}", f"t{k}:", f"    br %{f'i{k + 1}' if k + 1 < depth else f'j{k}'}"]
    for k in reversed(range(depth)):
        inner = f"t{k}" if k + 1 == depth else f"j{k + 1}"
        value = f"x{k}" if k + 1 == depth else f"p{k + 1}"
        lines += [f"e{k}:", f"    br %j{k}", f"j{k}:", f"    %p{k} = phi i8 [%{value}, %{inner}], [%x{k}, %e{k}]", f"    br %{f'j{k - 1}' if k else 'end'}"]
    return function(lines + ["end:"])


def chain_of_blocks(count):
    """So many blocks one behind the other; each uses the value of the block before it and that of the one half way back."""
    lines = ["    br %b0", "b0:", "    %x0 = not i8 %v"]
    for k in range(1, count):
        lines += [f"    br %b{k}", f"b{k}:", f"    %x{k} = add i8 %x{k - 1}, %x{k // 2}"]
    return function(lines)


def one_long_wait(count):
    """So many signals that one `wait` of another block names."""
    lines = [f"proc @p (i{128}$ %a) -> () {{", "entry:"] + [f"    %s{k} = exts i1$ %a, {k % 128}, 1" for k in range(count)]
    return lines + ["    br %loop", "loop:", "    wait %loop, " + ", ".join(f"%s{k}" for k in range(count)), "}"]


def many_arrays(count):
    """So many values that the arrays of another block are made of."""
    names = [f"%x{k}" for k in range(count)]
    arrays = [f"    %a{k} = [i8 " + ", ".join(names[k:k + 256]) + "]" for k in range(0, count, 16)]
    return function([f"    {name} = not i8 %v" for name in names] + ["    br %next", "next:"] + arrays)


# the title of each unit, what makes it of a number, and the least of the three numbers that are tried
ALL = (
    ("a ladder of blocks", ladder, 8_000),
    ("crossed phis", crossed_phis, 8_000),
    ("nested ifs", nested_ifs, 8_000),
    ("a chain of blocks", chain_of_blocks, 8_000),
    ("signals of a wait", one_long_wait, 8_000),
    ("values of arrays", many_arrays, 8_000),
)
