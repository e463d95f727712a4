"""Draws scripts of docs/SUPPORT.md at random: sessions in which calls are accepted and refused, and now and then a line
that is no command."""

SOURCES = (
    "PUSHIMM 40\nSTOP",
    "PUSHIMM 40\nPUSHIMMF 2.5\nSTOREOFF 0\nSTOP",
    "a: PUSHIMM 1\nADDSP -1\nJUMP a",
    "PUSHIMM 3\nb: DUP\nPUSHIMM 1\nSUB\nDUP\nJUMPC b\nSTOP",
    "PUSHIMMCH 72\nDUP\nWRITECH\nWRITECH\nSTOP",
    "PUSHIMMPA 2\nJSRIND\nPUSHFBR\nLINK\nADDSP 3\nPOPSP",
    "PUSHIMMF -0.0\nISNIL\nPUSHIMMF #7FC00000\nSTOP",
    "PUSHSP\nPUSHIMM 2147483647\nADD\nPUSHIMM 1\nADD",
    "PUSHIMM 7\nPUSHIMM 0\nDIV",
    "JUMP nowhere",
    "PUSHIMM",
    "STOP $ // a forbidden byte",
    "",
)
FORMULAS = ("2 + 3 * (a - 1)", "-a / b", "1 / 0", "", "2 + * 3", "x", "2147483648", "((a))", "a--b")
NAMES = ("one", "two", "three_3")
NUMBERS = (0, 1, 2, 3, 5, 8, 9, 16, 100, 1000, 1000000, 1000001, 2**32, 2**64 - 1)
SIZES = (0, 1, 2, 3, 4, 5, 8, 16, 33, 256, 257, 1000, 1001, 8192, 8193, 65535)
WRONG_LINES = (
    "stpe", "reset 1 2", "step 0", "back 10001", "run", "run 18446744073709551616", "load nothing", "expect x"
)


def sizes(chooser):
    """Mostly such as a reset takes."""
    if chooser.random() < 0.2:
        return " ".join(str(chooser.choice(SIZES)) for _ in range(3))
    return f"{chooser.choice((1, 2, 4, 16))} {chooser.choice((0, 3, 6, 16, 64))} {chooser.choice((0, 1, 4))}"


def depths(chooser):
    words = (chooser.choice(("-", "0", "1", "2", "3", "65534", "65535")) for _ in range(chooser.randint(0, 7)))
    return " ".join(("depths", str(chooser.choice(NUMBERS)), *words))


def image(chooser):
    data = bytes(chooser.choice((0, 1, 4, 64, 128, 255, chooser.randrange(256))) for _ in range(chooser.randint(0, 30)))
    return f"image {chooser.choice(NAMES)}\n{data.hex(' ')} // by hand\nend"


def expected(chooser):
    return chooser.choice(("expect 0", "expect 0 1", "expect 9", "expect 0 2 1 INT 40", "expect 10 // or another"))


def command(chooser):
    name, number = chooser.choice(NAMES), chooser.choice(NUMBERS)
    count = chooser.choice(("", "", f" {chooser.randint(1, 12)}"))
    return chooser.choice(
        (
            f"program\n{chooser.choice(SOURCES)}\nend",
            f"formula {chooser.choice(FORMULAS)}",
            f"reset {sizes(chooser)}",
            f"step{count}",
            f"step{count}",
            f"step{count}",
            f"back{count}",
            f"run {number}",
            f"run {chooser.randint(0, 40)}",
            f"forget {chooser.choice((0, 1, 2, number))}",
            "dwell",
            f"why {chooser.choice((0, 1, 2, number))}",
            "show",
            f"show {chooser.choice((0, 1, number))}",
            depths(chooser),
            f"save {name}",
            f"load {name}{chooser.choice(('', ' ' + sizes(chooser)))}",
            image(chooser),
            "list",
            f"pack {name}",
            f"unpack {name}",
            expected(chooser),
            chooser.choice(("", "// a comment", "\t// another")),
        )
    )


def script(chooser, count):
    """So many commands, behind one that keeps bytes under each NAME, so that few lines are none."""
    lines = [f"image {name}\n01 00 08\nend" for name in NAMES]
    lines += [f"program\n{chooser.choice(SOURCES)}\nend", "reset 16 32 4"]
    lines += [command(chooser) for _ in range(count)]
    if chooser.random() < 0.2:
        lines.append(chooser.choice(WRONG_LINES))
    ending = chooser.choice(("\n", "\r\n"))
    return ending.join("\n".join(lines).split("\n")).encode("ascii")
