"""The lines and words of a script of docs/SUPPORT.md, and what a word may be: for replay.py alone. All are bytes."""

import re

import sam

NUMBER_LIMIT = 2**64 - 1  # "A number is one to twenty digits and below 2^64."
SIZE_LIMIT = 65535  # of what is lent: "each 0 to 65,535"
DEPTH_LIMIT = 65535  # "A DEPTH is a number up to 65,535"
SHOWN_LIMIT = 80  # bytes of a word that are repeated on standard error

COMMENT = b"//"
BLANKS = b" \t"  # "Words have spaces or tabs between them."
NOT_REACHED = b"-"
WORD_FORM = re.compile(rb"[^ \t]+")
NUMBER_FORM = re.compile(rb"[0-9]{1,20}\Z")
NAME_FORM = re.compile(rb"[A-Za-z][A-Za-z0-9_]{0,31}\Z")  # "a letter, then up to 31 letters, digits or `_`"
BYTE_FORM = re.compile(rb"[0-9A-Fa-f]{2}\Z")  # "two hex digits of either case"


class NoCommand(Exception):
    """Why a line is no command, and its number, where that is not the line that the command begins at."""

    def __init__(self, why, line=None):
        super().__init__(why)
        self.line = line


# ---- lines and words


def lines_of(text):
    """ "A line ends with LF, or with CR LF; the last may lack it." """
    *ended, last = text.split(b"\n")
    lines = [line[:-1] if line.endswith(b"\r") else line for line in ended]
    return lines + [last] if last else lines


def without_comment(line):
    return line.split(COMMENT, 1)[0].strip(BLANKS)


def words_of(line):
    return WORD_FORM.findall(without_comment(line))


def command_of(line):
    """A command's name and the words behind it: of a formula the rest of the line is one, "without its comment and the
    spaces and tabs around it"."""
    name, *words = words_of(line)
    return name, [without_comment(line)[len(name) :].strip(BLANKS)] if name == b"formula" else words


def shown(word):
    """A word of the script as it may stand on standard error, whatever its bytes are."""
    text = "".join(chr(byte) if 32 <= byte <= 126 else f"\\x{byte:02X}" for byte in word[:SHOWN_LIMIT])
    return f"'{text}'" if len(word) <= SHOWN_LIMIT else f"'{text}..'"


# ---- what a word may be


def is_number(word, low=0, high=NUMBER_LIMIT):
    return bool(NUMBER_FORM.match(word)) and low <= int(word) <= high


def number_of(word, what, low=0, high=NUMBER_LIMIT):
    if not is_number(word, low, high):
        raise NoCommand(f"{what} is a number of {low} to {high}, and not {shown(word)}")
    return int(word)


def sizes_of(words):
    return [number_of(word, what, high=SIZE_LIMIT) for word, what in zip(words, ("N", "H", "OUTPUT"))]


def name_of(word):
    if not NAME_FORM.match(word):
        raise NoCommand(f"a NAME is a letter, then up to 31 letters, digits or '_', and not {shown(word)}")
    return word


def is_depth(word):
    return word == NOT_REACHED or is_number(word, high=DEPTH_LIMIT)


def depth_list(words, where=""):
    for word in words:
        if not is_depth(word):
            raise NoCommand(f"a depth is a number of 0 to {DEPTH_LIMIT} or '-', and not {shown(word)}{where}")
    return [sam.NOT_REACHED if word == NOT_REACHED else int(word) for word in words]


def file_of(word, path):
    """The bytes of a FILE, which has this path. One with a NUL is no path, and Python says so with a ValueError."""
    try:
        with open(path, "rb") as file:
            return file.read()
    except (FileNotFoundError, ValueError):
        raise NoCommand(f"there is no file {shown(word)}") from None
    except OSError as reason:
        raise NoCommand(f"the file {shown(word)} cannot be read: {reason.strerror}") from None
