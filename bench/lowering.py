"""Designs for `llhd lower`: files of many small processes, and designs that are written twice, in LLHD and in Verilog."""


# ---- many small processes -----------------------------------------------------------------------------------------------

CLOCKED = """proc @ff{k} (i1$ %clk, i32$ %d) -> (i32$ %q) {{
init:
    %c0 = prb i1$ %clk
    wait %check, %clk
check:
    %c1 = prb i1$ %clk
    %changed = neq i1 %c0, %c1
    %rises = and i1 %changed, %c1
    br %rises, %init, %event
event:
    %v = prb i32$ %d
    %t = const time 0s 1d
    drv i32$ %q, %v after %t
    br %init
}}
"""

COMBINATIONAL = """proc @sum{k} (i32$ %a, i32$ %b, i1$ %on) -> (i32$ %s) {{
entry:
    %x = prb i32$ %a
    %e = prb i1$ %on
    %t = const time 0s 1d
    drv i32$ %s, %x after %t
    br %e, %done, %add
add:
    %y = prb i32$ %b
    %z = add i32 %x, %y
    drv i32$ %s, %z after %t
    br %done
done:
    wait %entry, %a, %b, %on
}}
"""

ONCE = """proc @start{k} () -> (i32$ %q) {{
entry:
    %v = const i32 {k}
    %t = const time 1ns
    drv i32$ %q, %v after %t
    halt
}}
"""


def small_processes(megabytes):
    """Texts of clocked, combinational and once processes in turn, of so many million bytes together and no more."""
    size, k = 0, 0
    while True:
        text = (CLOCKED, COMBINATIONAL, ONCE)[k % 3].format(k=k)
        size += len(text)
        if size > megabytes * 1_000_000:
            return
        yield text
        k += 1


# ---- designs in both languages ------------------------------------------------------------------------------------------

def top(signals, instances):
    """An entity with 32-bit signals, a clock and a reset, and these instances: the module that stands around the processes."""
    lines = ["entity @top () -> () {", "    %low = const i1 0", "    %zero = const i32 0", "    %clk = sig i1 %low", "    %rst = sig i1 %low"]
    lines += [f"    %{name} = sig i32 %zero" for name in signals]
    return "\n".join(lines + instances + ["}"]) + "\n"


def module(lines):
    return "module top(input clk, input rst);\n" + "".join(lines) + "endmodule\n"


def registers(count):
    """Registers with an asynchronous reset, one behind the other."""
    llhd = [top((f"q{k}" for k in range(count + 1)), [f"    inst @r{k} (%clk, %rst, %q{k}) -> (%q{k + 1})" for k in range(count)])]
    verilog = [f"  reg [31:0] q{k};\n" for k in range(count + 1)]
    for k in range(count):
        llhd.append(f"""proc @r{k} (i1$ %clk, i1$ %rst, i32$ %d) -> (i32$ %q) {{
init:
    %c0 = prb i1$ %clk
    %r0 = prb i1$ %rst
    wait %check, %clk, %rst
check:
    %c1 = prb i1$ %clk
    %r1 = prb i1$ %rst
    %cx = neq i1 %c0, %c1
    %rises = and i1 %cx, %c1
    %rx = neq i1 %r0, %r1
    %resets = and i1 %rx, %r1
    %go = or i1 %rises, %resets
    br %go, %init, %event
event:
    %t = const time 0s 1d
    br %r1, %load, %reset
reset:
    %z = const i32 0
    drv i32$ %q, %z after %t
    br %init
load:
    %v = prb i32$ %d
    drv i32$ %q, %v after %t
    br %init
}}
""")
        verilog.append(f"  always @(posedge clk or posedge rst) if (rst) q{k + 1} <= 0; else q{k + 1} <= q{k};\n")
    return "".join(llhd), module(verilog)


ARMS = (("add", "+"), ("sub", "-"), ("and", "&"), ("or", "|"), ("xor", "^"), ("umul", "*"))


def cases(count):
    """Combinational processes that choose one of six operations by an opcode, each with the result of the one before."""
    llhd = [top((f"s{k}" for k in range(count + 1)), [f"    inst @c{k} (%s{k}, %s0) -> (%s{k + 1})" for k in range(count)])]
    verilog = [f"  reg [31:0] s{k};\n" for k in range(count + 1)]
    for k in range(count):
        llhd.append(case_process(k))
        arms = "".join(f"    {i}: s{k + 1} = s{k} {sign} s0;\n" for i, (_, sign) in enumerate(ARMS))
        verilog.append(f"  always @* case (s{k}[2:0])\n{arms}    default: s{k + 1} = s{k};\n  endcase\n")
    return "".join(llhd), module(verilog)


def case_process(k):
    lines = [f"proc @c{k} (i32$ %a, i32$ %b) -> (i32$ %s) {{", "entry:", "    %x = prb i32$ %a", "    %y = prb i32$ %b",
             "    %t = const time 0s 1d", "    %o = exts i3 %x, 0, 3", "    br %ask0"]
    for i, (op, _) in enumerate(ARMS):
        other = f"%ask{i + 1}" if i + 1 < len(ARMS) else "%rest"
        lines += [f"ask{i}:", f"    %k{i} = const i3 {i}", f"    %is{i} = eq i3 %o, %k{i}", f"    br %is{i}, {other}, %do{i}",
                  f"do{i}:", f"    %v{i} = {op} i32 %x, %y", f"    drv i32$ %s, %v{i} after %t", "    br %done"]
    return "\n".join(lines + ["rest:", "    drv i32$ %s, %x after %t", "    br %done", "done:", "    wait %entry, %a, %b", "}"]) + "\n"


def pipeline(count):
    """Adders with a register behind each, as a filter is written."""
    instances = [f"    inst @add{k} (%q{k}, %q0) -> (%d{k})\n    inst @stage{k} (%clk, %d{k}) -> (%q{k + 1})" for k in range(count)]
    llhd = [top([f"q{k}" for k in range(count + 1)] + [f"d{k}" for k in range(count)], instances)]
    verilog = [f"  reg [31:0] q{k};\n" for k in range(count + 1)] + [f"  reg [31:0] d{k};\n" for k in range(count)]
    for k in range(count):
        llhd.append(CLOCKED.format(k=k).replace(f"@ff{k} ", f"@stage{k} "))
        llhd.append(f"""proc @add{k} (i32$ %a, i32$ %b) -> (i32$ %s) {{
entry:
    %x = prb i32$ %a
    %y = prb i32$ %b
    %z = add i32 %x, %y
    %t = const time 0s 1d
    drv i32$ %s, %z after %t
    wait %entry, %a, %b
}}
""")
        verilog.append(f"  always @* d{k} = q{k} + q0;\n  always @(posedge clk) q{k + 1} <= d{k};\n")
    return "".join(llhd), module(verilog)
