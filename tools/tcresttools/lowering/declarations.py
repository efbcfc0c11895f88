"""Reads declarations: types, variables with their first values, and functions."""

from __future__ import annotations

from typing import Any

from .expressions import FLOATING, Expressions, characters

from .kinds import (
    BOOL, CHAR, INT, VOID, Array, CType, Field, Integer, Pointer, Record, Signature, Void, cells, leaves,
    place_fields, shown,
)  # fmt: skip
from .scopes import Names, kind_of, place_of
from .told import Place, Refused
from .tree import Const, FunctionText, Initial, Storage, Variable


class Declarations:
    """Reads the declarations of a file."""

    def __init__(self, names: Names) -> None:
        self.names = names
        self.expressions = Expressions(names, self.type_of)
        # Each record that was read, by its node, which several declarations may share.
        self.records: dict[int, tuple[Any, Record]] = {}

    # Types.

    def type_of(self, node: Any) -> CType:
        """The type that a node says."""
        match kind_of(node):
            case "TypeDecl" | "Typename" | "Decl" | "Typedef":
                self.check_volatile(node)
                return self.type_of(node.type)
            case "PtrDecl":
                return Pointer(self.type_of(node.type))
            case "ArrayDecl":
                return self.array_of(node)
            case "FuncDecl":
                return self.signature_of(node)
            case "IdentifierType":
                return self.named_type(node)
            case "Struct" | "Union":
                return self.record_of(node)
            case "Enum":
                self.read_enum(node)
                return INT
        raise Refused(place_of(node), f"`{kind_of(node)}` is no type that can be carried over")

    def check_volatile(self, node: Any) -> None:
        if "volatile" in (getattr(node, "quals", None) or []) and kind_of(node) == "TypeDecl":
            name = getattr(node, "declname", None)
            text = (
                f"`volatile`{f' of `{name}`' if name else ''} is left out: nothing but the program itself sets its"
                f" variables"
            )
            self.names.shared.notes.warn(place_of(node), text)

    def array_of(self, node: Any) -> Array:
        of = self.type_of(node.type)
        length = self.expressions.constant(node.dim) if node.dim is not None else None
        if length is not None and length < 0:
            raise Refused(place_of(node), "an array of less than no elements")
        return Array(of, length)

    def signature_of(self, node: Any) -> Signature:
        """The type of a function. Parameters that are arrays are pointers."""
        found: list[CType] = []
        for parameter in node.args.params if node.args else []:
            if kind_of(parameter) == "EllipsisParam":
                raise Refused(place_of(node), "a function with `...`: give each parameter a name and a type")
            kind = INT if kind_of(parameter) == "ID" else self.type_of(parameter.type)
            if isinstance(kind, Array):
                kind = Pointer(kind.of)
            if isinstance(kind, Signature) or (isinstance(kind, Pointer) and isinstance(kind.to, Signature)):
                raise Refused(
                    place_of(parameter), "a pointer to a function: choose by a number, and call in a `switch`"
                )
            if not isinstance(kind, Void):
                found.append(kind)
        return Signature(self.type_of(node.type), tuple(found))

    def named_type(self, node: Any) -> CType:
        """A type of one or more words."""
        words = list(node.names)
        if len(words) == 1 and (named := self.names.type_named(words[0])) is not None:
            return named
        if "float" in words or "double" in words or "_Complex" in words:
            raise Refused(place_of(node), FLOATING)
        if "void" in words:
            return VOID
        if "_Bool" in words:
            return BOOL
        if not set(words) <= {"signed", "unsigned", "char", "short", "int", "long"}:
            raise Refused(place_of(node), f"`{' '.join(words)}` is no type that is known here")
        signed = "unsigned" not in words
        options, notes = self.names.shared.options, self.names.shared.notes
        if words.count("long") == 1 and options.long_bits == 32:
            notes.tell(None, "`long` has 32 bits here, as on the machine; --long 64 makes it 64")
        bits = 8 if "char" in words else 16 if "short" in words else 32
        if "long" in words:
            bits = 64 if words.count("long") == 2 else options.long_bits
        return Integer(bits, signed, bits // 8)

    def record_of(self, node: Any) -> Record:
        """A struct or a union, which may be declared before it is defined."""
        if id(node) in self.records:
            return self.records[id(node)][1]
        at, union = place_of(node), kind_of(node) == "Union"
        name = node.name or f"at line {at.line}"
        known = None
        if node.name is not None:
            known = self.names.inner.records.get(name) if node.decls is not None else self.names.record_named(name)
        record = known or self.shared_record(node, name, union)
        if self.names.inner is self.names.outer:
            self.names.shared.records.setdefault((name, union, str(node.coord)), record)
        if known is None:
            self.names.inner.records[name] = record
        if node.decls is None:
            return record
        if any(record is other for _, other in self.records.values()):
            raise Refused(at, f"`{shown(record)}` is defined twice")
        self.records[id(node)] = (node, record)
        found = [self.field_of(record, member) for member in node.decls if kind_of(member) == "Decl"]
        fields = [member for members in found for member in members]
        if record.fields is not None:
            if [(one.name, one.type) for one in fields] != [(one.name, one.type) for one in record.fields]:
                raise Refused(at, f"`{shown(record)}` has other members in another file")
            return record
        record.fields = fields
        if union and any(isinstance(kind, Pointer) for member in record.fields for _, kind in leaves(member.type)):
            raise Refused(at, "a union with a pointer, whose bits there are none of: use a struct")
        place_fields(record)
        return record

    def shared_record(self, node: Any, name: str, union: bool) -> Record:
        """A record that this file mentions for the first time; that of a header is the one of the files before."""
        known = self.names.shared.records.get((name, union, str(node.coord)))
        return known if known is not None and self.names.inner is self.names.outer else Record(name, union)

    def field_of(self, record: Record, node: Any) -> list[Field]:
        """A member; the members of a nameless record are members of the one around it."""
        kind = self.type_of(node.type)
        if node.bitsize is not None:
            return self.bit_field(record, node, kind)
        if isinstance(kind, Array) and kind.length is None:
            raise Refused(place_of(node), "a member without a length: give the array one")
        if isinstance(kind, Pointer) and isinstance(kind.to, Signature):
            raise Refused(place_of(node), "a pointer to a function: choose by a number, and call in a `switch`")
        if node.name is None:
            raise Refused(place_of(node), "a member without a name: name it, and use the name")
        return [Field(node.name, kind)]

    def bit_field(self, record: Record, node: Any, kind: CType) -> list[Field]:
        """A bit field takes a word of its own; its bits are kept."""
        if record.union or not isinstance(kind, Integer):
            raise Refused(place_of(node), "a bit field that is looked at in another way: use shifts and masks")
        record.bit_fields = True
        bits = self.expressions.constant(node.bitsize)
        return [Field(node.name, Integer(bits, kind.signed, kind.size, kind.boolean))] if node.name else []

    def read_enum(self, node: Any) -> None:
        """The constants of an enum."""
        value = 0
        for entry in node.values.enumerators if node.values else []:
            if entry.value is not None:
                value = self.expressions.constant(entry.value)
            self.names.inner.names[entry.name] = Const(INT, place_of(entry), value)
            value += 1

    # Variables.

    def typedef(self, node: Any) -> None:
        self.names.inner.types[node.name] = self.type_of(node.type)

    def variable(self, node: Any, storage: Storage) -> Variable | None:
        """A declaration of a variable or a function; none where it declares none."""
        kind, at = self.type_of(node), place_of(node)
        if isinstance(kind, Signature):
            self.function(node.name, kind, at, "static" in node.storage)
            return None
        if node.name is None:
            return None
        if isinstance(kind, Pointer) and isinstance(kind.to, Signature):
            raise Refused(at, "a pointer to a function: choose by a number, and call in a `switch`")
        if isinstance(kind, Void):
            raise Refused(at, f"`{node.name}` has no type that a variable can have")
        if "extern" in node.storage or storage is Storage.GLOBAL:
            return self.outer_variable(node, kind, at)
        storage = Storage.STATIC if "static" in node.storage else storage
        made = Variable(node.name, kind, storage, at, self.names.function)
        self.names.inner.names[node.name] = made
        self.begin_with(made, node.init)
        if storage is Storage.STATIC:
            self.names.shared.globals.append(made)
        elif self.names.function is not None:
            self.names.function.locals.append(made)
        return made

    def outer_variable(self, node: Any, kind: CType, at: Place) -> Variable:
        """A variable outside functions, which several declarations may tell of."""
        shared = self.names.shared
        private = "static" in node.storage
        known = self.names.outer.names.get(node.name) if private else shared.names.get(node.name)
        if isinstance(known, FunctionText | Const):
            raise Refused(at, f"`{node.name}` is declared in two ways")
        if known is None:
            known = Variable(node.name, kind, Storage.GLOBAL, at)
            shared.globals.append(known)
            if not private:
                shared.names[node.name] = known
        elif isinstance(kind, Array) and isinstance(known.type, Array) and known.type.length is None:
            known.type = kind
        elif known.type != kind and not (isinstance(kind, Array) and kind.length is None):
            raise Refused(at, f"`{node.name}` is declared as `{shown(known.type)}` and as `{shown(kind)}`")
        self.names.inner.names[node.name] = known
        self.names.outer.names.setdefault(node.name, known)
        self.begin_with(known, node.init)
        return known

    def begin_with(self, variable: Variable, node: Any) -> None:
        """The first value of a variable, and the length of an array that has it from there."""
        if node is not None:
            variable.initial = self.initial(variable.type, node, 0)
            if isinstance(variable.type, Array) and variable.type.length is None:
                step = cells(variable.type.of)
                most = max((item.word for item in variable.initial), default=-1)
                variable.type = Array(variable.type.of, most // step + 1)

    # First values.

    def initial(self, kind: CType, node: Any, word: int) -> list[Initial]:
        """The first values of a variable, or of a part of one, from its word on."""
        if kind_of(node) == "InitList":
            return self.braced(kind, node, word)
        if is_text(kind, node):
            return self.text_value(kind, node, word)
        value = self.expressions.value(node)
        if isinstance(kind, Record):
            if value.type is not kind:
                raise Refused(place_of(node), f"`{shown(kind)}` begins with a list in braces, or with another one")
            return [Initial(word, kind, value)]
        return [Initial(word, kind, self.expressions.converted(value, kind))]

    def text_value(self, kind: CType, node: Any, word: int) -> list[Initial]:
        """The characters of a string in an array."""
        assert isinstance(kind, Array)
        numbers = [*characters(node.value[node.value.index('"') + 1 : -1]), 0]
        length = len(numbers) if kind.length is None else kind.length
        numbers = (numbers + [0] * length)[:length]
        of = kind.of
        assert isinstance(of, Integer)
        return [
            Initial(word + at, of, Const(of, place_of(node), of.wrapped(number))) for at, number in enumerate(numbers)
        ]

    def braced(self, kind: CType, node: Any, word: int) -> list[Initial]:
        """A list in braces."""
        entries = list(node.exprs or [])
        if len(entries) == 1 and is_text(kind, entries[0]):
            return self.text_value(kind, entries[0], word)
        if not isinstance(kind, Array | Record):
            return self.initial(kind, entries[0], word)
        cursor = Cursor(entries)
        found = self.parts(kind, cursor, word, outer=True)
        if cursor.at < len(entries):
            raise Refused(place_of(entries[cursor.at]), "more first values than there is room for")
        return found

    def parts(self, kind: CType, cursor: Cursor, word: int, outer: bool) -> list[Initial]:
        """First values for the parts of an array or a record, as far as they reach."""
        found: list[Initial] = []
        number = 0
        while not cursor.ended:
            entry = cursor.entry
            if kind_of(entry) == "NamedInitializer":
                if not outer:
                    break
                number = self.designated(kind, entry.name[0], place_of(entry))
            part = part_of(kind, number)
            if part is None:
                break
            found += self.part(part[1], cursor, word + part[0])
            number += 1
        return found

    def part(self, kind: CType, cursor: Cursor, word: int) -> list[Initial]:
        """First values for one part: one entry, or as many as it takes where the braces are left out."""
        entry = cursor.entry
        named = kind_of(entry) == "NamedInitializer"
        value = entry.expr if named else entry
        if named and len(entry.name) > 1:
            return self.inner_part(kind, cursor, word)
        whole = kind_of(value) == "InitList" or is_text(kind, value) or not isinstance(kind, Array | Record)
        if whole or (isinstance(kind, Record) and self.is_record(value, kind)):
            cursor.at += 1
            return self.initial(kind, value, word)
        if named:
            raise Refused(place_of(entry), "a first value for an array or a struct: write it in braces")
        return self.parts(kind, cursor, word, outer=False)

    def inner_part(self, kind: CType, cursor: Cursor, word: int) -> list[Initial]:
        """A first value for a part of a part, as `.a.b = 5`. C goes on behind that part; here the next one is named."""
        entry = cursor.entry
        for name in entry.name[1:]:
            if not isinstance(kind, Array | Record):
                raise Refused(place_of(entry), "a part of what has no parts")
            part = part_of(kind, self.designated(kind, name, place_of(entry)))
            if part is None:
                raise Refused(place_of(entry), "a first value for a part that there is not")
            word, kind = word + part[0], part[1]
        cursor.at += 1
        if not cursor.ended and kind_of(cursor.entry) != "NamedInitializer":
            raise Refused(place_of(cursor.entry), "a value after that of a part of a part: name its part too")
        return self.initial(kind, entry.expr, word)

    def is_record(self, node: Any, kind: Record) -> bool:
        """The node is a value of this record."""
        if kind_of(node) not in ("ID", "StructRef", "ArrayRef", "UnaryOp", "FuncCall", "Assignment"):
            return False
        return self.expressions.read(node).type is kind

    def designated(self, kind: CType, name: Any, at: Place) -> int:
        """The number of the part that is named."""
        if isinstance(kind, Array):
            return self.expressions.constant(name)
        assert isinstance(kind, Record)
        member = kind.field_named(name.name, at)
        return (kind.fields or []).index(member)

    # Functions.

    def function(self, name: str, kind: Signature, at: Place, private: bool) -> FunctionText:
        """The function of a name, which may be declared several times."""
        shared = self.names.shared
        known = self.names.outer.names.get(name) or (None if private else shared.names.get(name))
        if isinstance(known, Variable | Const):
            raise Refused(at, f"`{name}` is declared in two ways")
        if known is None:
            known = FunctionText(name, kind, at)
            if not private:
                shared.names[name] = known
        elif known.type.result != kind.result:
            raise Refused(
                at, f"`{name}` is declared with two results, `{shown(known.type.result)}` and `{shown(kind.result)}`"
            )
        elif kind.parameters and known.body is None:
            known.type = kind
        self.names.outer.names[name] = known
        if known not in shared.functions:
            shared.functions.append(known)
        return known


class Cursor:
    """How far the entries of a list are taken."""

    def __init__(self, entries: list[Any]) -> None:
        self.entries = entries
        self.at = 0

    @property
    def ended(self) -> bool:
        return self.at >= len(self.entries)

    @property
    def entry(self) -> Any:
        return self.entries[self.at]


def is_text(kind: CType, node: Any) -> bool:
    """A string that is the first value of an array of characters."""
    if kind_of(node) != "Constant" or node.type != "string":
        return False
    return isinstance(kind, Array) and isinstance(kind.of, Integer) and kind.of.bits == CHAR.bits


def part_of(kind: CType, number: int) -> tuple[int, CType] | None:
    """The first word and the type of a part; none where there is none."""
    if isinstance(kind, Array):
        return (number * cells(kind.of), kind.of) if kind.length is None or number < kind.length else None
    assert isinstance(kind, Record)
    members = kind.fields or []
    if number >= len(members) or (kind.union and number > 0):
        return None
    return members[number].word, members[number].type
