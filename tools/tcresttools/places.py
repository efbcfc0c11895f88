"""Where in a file of TOML each key and each byte of a string stands.

Python's own reader gives values and no places. This one gives places, and checks nothing: whether a text is TOML says
the program. It follows TOML 1.1, which the program reads, so both line ends of `\\r\\n` count as bytes of a string.
"""

from __future__ import annotations

from dataclasses import dataclass, field

BYTE_ORDER_MARK = b"\xef\xbb\xbf"
BLANKS = b" \t"
LINE_ENDS = b"\r\n"
BARE_KEY = frozenset(b"ABCDEFGHIJKLMNOPQRSTUVWXYZabcdefghijklmnopqrstuvwxyz0123456789_-")
ESCAPES = {"b": "\b", "t": "\t", "n": "\n", "f": "\f", "r": "\r", "e": "\x1b", '"': '"', "\\": "\\"}
HEX_ESCAPES = {"x": 2, "u": 4, "U": 8}


class NoPlaces(Exception):
    """The text has not the form that places are read from."""


@dataclass(frozen=True)
class Place:
    """A place in a file: line and column from 1, both as an editor counts them, and the line's text."""

    line: int
    column: int
    text: str

    def caret(self) -> str:
        """The line, and below it a caret at the column."""
        before = self.text[: self.column - 1]
        return self.text + "\n" + "".join("\t" if c == "\t" else " " for c in before) + "^"


def place_at(data: bytes, offset: int) -> Place:
    """The place of a byte of a file; a byte order mark counts for nothing."""
    first = len(BYTE_ORDER_MARK) if data.startswith(BYTE_ORDER_MARK) else 0
    offset = min(max(offset, first), len(data))
    begin = max(data.rfind(b"\n", 0, offset) + 1, first)
    end = data.find(b"\n", offset)
    line = data[begin : len(data) if end < 0 else end].rstrip(b"\r").decode("utf-8", "replace")
    return Place(data.count(b"\n", 0, offset) + 1, len(data[begin:offset].decode("utf-8", "replace")) + 1, line)


@dataclass
class Node:
    """A value: the bytes of the file that it takes, and what it holds."""

    start: int
    end: int
    string: bytes | None = None
    bytes_at: list[int] = field(default_factory=list)
    members: dict[str, Member] | None = None
    items: list[Node] | None = None


@dataclass
class Member:
    """A key with its value, and where the key stands."""

    key_at: int
    node: Node


class Reader:
    """Reads one file from its front."""

    def __init__(self, data: bytes) -> None:
        self.data = data
        self.at = len(BYTE_ORDER_MARK) if data.startswith(BYTE_ORDER_MARK) else 0

    def look(self, count: int = 1) -> bytes:
        return self.data[self.at : self.at + count]

    def take(self, wanted: bytes) -> bool:
        if not self.data.startswith(wanted, self.at):
            return False
        self.at += len(wanted)
        return True

    def need(self, wanted: bytes) -> None:
        if not self.take(wanted):
            raise NoPlaces(f"byte {self.at}")

    def skip_blanks(self) -> None:
        while self.look() and self.look() in BLANKS:
            self.at += 1

    def skip_lines(self) -> None:
        """Blanks, line ends and comments."""
        while self.look():
            if self.look() == b"#":
                end = self.data.find(b"\n", self.at)
                self.at = len(self.data) if end < 0 else end
            elif self.look() in BLANKS + LINE_ENDS:
                self.at += 1
            else:
                return

    def document(self) -> Node:
        root = Node(self.at, len(self.data), members={})
        table = root
        self.skip_lines()
        while self.look():
            if self.look() == b"[":
                table = self.header(root)
            else:
                self.key_and_value(table)
            self.skip_lines()
        return root

    def header(self, root: Node) -> Node:
        start = self.at
        many = self.take(b"[[")
        if not many:
            self.need(b"[")
        path = self.key_path()
        self.need(b"]]" if many else b"]")
        table = root
        for name, key_at in path[:-1]:
            table = self.inside(table, name, key_at)
        name, key_at = path[-1]
        if not many:
            return self.inside(table, name, key_at)
        array = members_of(table).setdefault(name, Member(key_at, Node(start, start, items=[]))).node
        if array.items is None:
            raise NoPlaces(f"byte {start}")
        array.items.append(Node(start, self.at, members={}))
        return array.items[-1]

    def inside(self, table: Node, name: str, key_at: int) -> Node:
        """The table of this name in a table, or the last one of an array of tables."""
        node = members_of(table).setdefault(name, Member(key_at, Node(key_at, key_at, members={}))).node
        return node.items[-1] if node.items else node

    def key_path(self) -> list[tuple[str, int]]:
        path = []
        while True:
            self.skip_blanks()
            key_at = self.at
            if self.look() in (b'"', b"'"):
                path.append(((self.string().string or b"").decode(), key_at))
            else:
                while self.look() and self.look()[0] in BARE_KEY:
                    self.at += 1
                if self.at == key_at:
                    raise NoPlaces(f"byte {key_at}")
                path.append((self.data[key_at : self.at].decode(), key_at))
            self.skip_blanks()
            if not self.take(b"."):
                return path

    def key_and_value(self, table: Node) -> None:
        path = self.key_path()
        self.need(b"=")
        self.skip_blanks()
        for name, key_at in path[:-1]:
            table = self.inside(table, name, key_at)
        name, key_at = path[-1]
        members_of(table)[name] = Member(key_at, self.value())

    def value(self) -> Node:
        first = self.look()
        if first and first in b"\"'":
            return self.string()
        if first == b"[":
            return self.array()
        if first == b"{":
            return self.inline_table()
        start = self.at
        while self.look() and self.look() not in (b",", b"]", b"}", b"#", b"\n", b"\r"):
            self.at += 1
        end = start + len(self.data[start : self.at].rstrip(BLANKS))
        if end == start:
            raise NoPlaces(f"byte {start}")
        return Node(start, end)

    def array(self) -> Node:
        start = self.at
        self.need(b"[")
        items = []
        self.skip_lines()
        while not self.take(b"]"):
            items.append(self.value())
            self.skip_lines()
            if not self.take(b","):
                self.need(b"]")
                break
            self.skip_lines()
        return Node(start, self.at, items=items)

    def inline_table(self) -> Node:
        table = Node(self.at, self.at, members={})
        self.need(b"{")
        self.skip_lines()
        while not self.take(b"}"):
            self.key_and_value(table)
            self.skip_lines()
            if not self.take(b","):
                self.need(b"}")
                break
            self.skip_lines()
        table.end = self.at
        return table

    def string(self) -> Node:
        start, quote = self.at, self.look()
        multi = self.take(quote * 3)
        if multi:
            self.take(b"\n") or self.take(b"\r\n")
        else:
            self.need(quote)
        found, bytes_at = bytearray(), []
        while not self.closes(quote, multi):
            at = self.at
            piece = self.piece(quote, multi)
            found += piece
            bytes_at += [at] * len(piece)
        bytes_at.append(self.at - len(quote) * (3 if multi else 1))
        return Node(start, self.at, string=bytes(found), bytes_at=bytes_at)

    def closes(self, quote: bytes, multi: bool) -> bool:
        """Takes the end of the string; of more than three quotes the last three are it."""
        if not multi:
            return self.take(quote)
        if self.look(4) == quote * 4:
            return False
        return self.take(quote * 3)

    def piece(self, quote: bytes, multi: bool) -> bytes:
        """The bytes that the next byte, or the next escape, stands for."""
        byte = self.look()
        if not byte or (not multi and byte in LINE_ENDS):
            raise NoPlaces(f"byte {self.at}")
        if byte == b"\\" and quote == b'"':
            self.at += 1
            return self.escape(multi)
        self.at += 1
        return byte

    def escape(self, multi: bool) -> bytes:
        letter = self.look().decode("latin-1")
        if letter in ESCAPES:
            self.at += 1
            return ESCAPES[letter].encode()
        if letter in HEX_ESCAPES:
            digits = self.data[self.at + 1 : self.at + 1 + HEX_ESCAPES[letter]]
            self.at += 1 + HEX_ESCAPES[letter]
            try:
                return chr(int(digits, 16)).encode()
            except (ValueError, OverflowError):
                raise NoPlaces(f"byte {self.at}") from None
        if not multi:
            raise NoPlaces(f"byte {self.at}")
        while self.look() and self.look() in BLANKS + LINE_ENDS:
            self.at += 1
        return b""


def members_of(table: Node) -> dict[str, Member]:
    """The keys of a table."""
    if table.members is None:
        raise NoPlaces(f"byte {table.start}")
    return table.members


def read_places(data: bytes) -> Node:
    """The tree of a file's keys and values with their places."""
    try:
        return Reader(data).document()
    except (UnicodeDecodeError, RecursionError):
        raise NoPlaces("no text") from None
