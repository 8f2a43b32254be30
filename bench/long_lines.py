"""Lines of so many bytes, each the only long one of its file: `check` is to take no more than some bytes of memory for each of theirs."""


def repeated(head, piece, tail, size):
    """A line of about so many bytes: this head, the piece again and again with a comma between, and this tail."""
    return f"{head}{piece}" + f",{piece}" * ((size - len(head) - len(tail)) // (len(piece) + 1)) + tail


def nested(fields, size):
    """A declaration whose types are structs of so many fields, of which the first is such a struct again, as deep as a type may nest."""
    ty = "i1"
    for _ in range(15):
        ty = "{" + ty + ",i1" * (fields - 1) + "}"
    return [repeated("declare @f (", ty, ") void", size)]


def operands(size):
    """A call with very many operands; it is refused for their number."""
    return ["func @f (i1 %a) void {", "entry:", repeated("    call void @f (", "%a", ")", size), "    ret", "}"]


def signal_types(size):
    """A declaration with very many signals."""
    return [repeated("declare @f (", "i1$", ") -> ()", size)]


def refused(size):
    """A line that spells nothing, for a letter at its end."""
    return [repeated("declare @f (", "i1$", ") -> ()x", size)]


# the title of each file, and what makes it of a number of bytes
ALL = (
    ("operands of a call", operands),
    ("signals of a declaration", signal_types),
    ("structs of one field", lambda size: nested(1, size)),
    ("structs of two fields", lambda size: nested(2, size)),
    ("structs of three fields", lambda size: nested(3, size)),
    ("a line that is refused", refused),
)
