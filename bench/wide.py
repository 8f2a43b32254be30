"""Files of which the types are wide and used often: `check` is to take time and memory as their text. Each is well formed, and of about so many bytes."""

def struct(fields):
    """A struct of so many integers of one bit."""
    return "{" + ", ".join(["i1"] * fields) + "}"


def ports(size):
    """`inst` of an entity whose ports are signals of structs."""
    count = int((size / 8) ** 0.5)
    ty = struct(count // 2)
    names = ", ".join(["%s"] * count)
    yield f"entity @low (" + ", ".join(f"{ty}$ %a{k}" for k in range(count)) + ") -> () {\n}\n"
    yield f"entity @top ({ty}$ %s) -> () {{\n" + f"    inst @low ({names}) -> ()\n" * (size // 2 // (4 * count)) + "}\n"


def calls(size):
    """Functions that hand one struct of many fields to each of many calls."""
    ty = struct(size // 64)
    yield f"func @low ({ty} %a) void {{\nentry:\n    ret\n}}\n"
    for k in range(2):
        yield f"func @f{k} ({ty} %x) void {{\nentry:\n" + "    call void @low (%x)\n" * (size * 3 // 200) + "    ret\n}\n"


def edges(size):
    """A `phi` of a wide struct, with an edge from each of many blocks."""
    count = size // 128
    ty = struct(size // 64)
    lines = [f"func @f ({ty} %x, i1 %c) {ty} {{", "entry:", "    br %c, %a0, %b0"]
    for k in range(count):
        lines += [f"a{k}:", f"    br %c, %join, %b{k}", f"b{k}:", f"    br %c, %join, %{f'a{k + 1}' if k + 1 < count else 'last'}"]
    lines += ["last:", "    br %join", "join:"]
    names = [f"{c}{k}" for k in range(count) for c in "ab"] + ["last"]
    yield "\n".join(lines) + "\n    %p = phi " + ty + " " + ", ".join(f"[%x, %{name}]" for name in names) + f"\n    ret {ty} %p\n}}\n"


def triggers(size):
    """A register of a wide struct, with many triggers."""
    ty = struct(size // 64)
    yield f"entity @e ({ty}$ %d, i1$ %c) -> ({ty}$ %q) {{\n    %v = prb {ty}$ %d\n    %t = prb i1$ %c\n    reg {ty}$ %q, "
    yield ", ".join(["[%v, rise %t]"] * (size // 30)) + "\n}\n"


def elements(size):
    """Arrays of structs: as many bits as a type may have."""
    ty = struct(256)
    row = f"    %r# = [{ty} " + ", ".join(["%x"] * 256) + "]\n"
    yield f"func @f ({ty} %x) void {{\nentry:\n" + "".join(row.replace("#", str(k)) for k in range(size // len(row))) + "    ret\n}\n"


def results(size):
    """Calls and returns of a wide struct: each writes it."""
    ty = struct(1_000)
    yield f"func @f ({ty} %x) {ty} {{\nentry:\n    ret {ty} %x\n}}\nfunc @g ({ty} %x) void {{\nentry:\n"
    yield "".join(f"    %r{k} = call {ty} @f (%x)\n" for k in range(size // 4_000)) + "    ret\n}\n"


def kinds(size):
    """Many structs that differ in their last fields alone, each used once."""
    lines = []
    for k in range(size // 420):
        ty = "{" + ", ".join(["i1"] * 40 + [f"i{k % 128 + 1}", f"i{k // 128 % 128 + 1}", f"i{k // 16_384 + 1}"]) + "}"
        lines.append(f"func @f{k} ({ty} %x) {ty} {{\nentry:\n    ret {ty} %x\n}}\n")
    yield "".join(lines)


ALL = {"ports": ports, "calls": calls, "edges": edges, "triggers": triggers, "elements": elements, "results": results, "kinds": kinds}
