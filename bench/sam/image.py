"""The packer and the unpacker: document 01, "Image", and request h of document 02."""

from .table import (CHARACTER, INTEGER, KINDS, NAMES, NO_OPERAND, OFFSET, PATTERN, PROGRAM_LIMIT, TARGET, WORD,
                    make_place, operand_in_range, signed, table_sound)

IMAGE_SIZE = 4866  # "Output 4,866 bytes, rest zero, length told"
COUNT_WIDTH = 11
CODE_WIDTH = 6

# "32 bits (codes 1, 2), 11 signed (39, 42, 43), 11 unsigned (targets) or none"; PUSHIMMCH's "7 bits in the image"
OPERAND_WIDTH = {NO_OPERAND: 0, INTEGER: 32, PATTERN: 32, OFFSET: 11, TARGET: 11, CHARACTER: 7}


class Damaged(Exception):
    """A refusal of an image: its number."""


def field(value, width):
    """The lowest `width` bits of a value, most significant first, as a string of 0 and 1."""
    return format(value % (1 << width), f"0{width}b") if width else ""


def write_fields(fields, image):
    """How many bytes these fields take from the image's start, with "zeros to a byte"."""
    bits = "".join(fields)
    bits += "0" * (-len(bits) % 8)
    size = len(bits) // 8
    image[:size] = int(bits, 2).to_bytes(size, "big")
    return size


def pack(table, length, image):
    """(number, length of the image)."""
    if len(image) != IMAGE_SIZE:
        return 31, 0
    image[:] = bytes(IMAGE_SIZE)
    if not table_sound(table, length):
        return 10, 0
    fields = [field(length, COUNT_WIDTH)]
    for place in table[:length]:
        code = place >> 32
        fields.append(field(code, CODE_WIDTH) + field(place % WORD, OPERAND_WIDTH[KINDS[code]]))
    return 0, write_fields(fields, image)


class BitReader:
    """Reads fields from the left: 41 where the bits run out."""

    def __init__(self, image):
        self.bits = "".join(format(byte, "08b") for byte in image)
        self.at = 0

    def take(self, width):
        if self.at + width > len(self.bits):
            raise Damaged(41)
        value = int(self.bits[self.at : self.at + width] or "0", 2)
        self.at += width
        return value

    def check_end(self):
        """45: "padding not zero or bytes left over" """
        rest = self.bits[self.at :]
        if len(rest) >= 8 or "1" in rest:
            raise Damaged(45)


def read_place(reader, length):
    code = reader.take(CODE_WIDTH)
    if code >= len(NAMES):
        raise Damaged(43)
    kind = KINDS[code]
    operand = reader.take(OPERAND_WIDTH[kind])
    if kind == OFFSET:
        operand = signed(operand, 11) % WORD
    if not operand_in_range(kind, operand, length):
        raise Damaged(44)
    return make_place(code, operand)


def read_image(image):
    reader = BitReader(image)
    length = reader.take(COUNT_WIDTH)
    if length > PROGRAM_LIMIT:
        raise Damaged(42)
    places = [read_place(reader, length) for _ in range(length)]
    reader.check_end()
    return places


def unpack(image, table):
    """(number, program length); the table is written, or zeroed where the image is refused."""
    if len(table) != PROGRAM_LIMIT:
        return 31, 0
    table[:] = [0] * PROGRAM_LIMIT
    try:
        places = read_image(image)
    except Damaged as damage:
        return damage.args[0], 0
    table[: len(places)] = places
    return 0, len(places)
