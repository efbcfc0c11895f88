"""Reads expressions: names to variables, types to values, implied conversions to `Convert`."""

from __future__ import annotations

import re
from collections.abc import Callable
from typing import Any

from . import arithmetic

from .kinds import (
    CHAR, INT, LONG_LONG, UNSIGNED, UNSIGNED_LONG_LONG, VOID, Array, CType, Integer, Pointer, Record, Signature, Void,
    common, promoted, shown, size,
)  # fmt: skip
from .scopes import Names, kind_of, place_of
from .told import Place, Refused

from .tree import (
    AddressOf, Assign, Binary, Call, Comma, Compare, Conditional, Const, Convert, Decay, Deref, Expression,
    FunctionText, Initial, Logic, Member, PointerGap, PointerMove, Ref, Step, Storage, Unary, Update, Variable,
)  # fmt: skip

ESCAPE = re.compile(r"\\(x[0-9A-Fa-f]+|[0-7]{1,3}|.)", re.S)
LETTERS = {"n": 10, "t": 9, "r": 13, "a": 7, "b": 8, "f": 12, "v": 11, "e": 27}
FLOATING = "floating point: write whole numbers with a fixed point, as `x * 3 >> 2` for 0.75 x"


def characters(text: str) -> list[int]:
    """The numbers of the characters between quotes, as `char` has them."""
    found, at = [], 0
    while at < len(text):
        match = ESCAPE.match(text, at)
        if match is None:
            found += list(text[at].encode())
            at += 1
            continue
        word = match.group(1)
        number = (
            int(word[1:], 16) if word[0] == "x" and len(word) > 1 else int(word, 8) if word[0] in "01234567" else -1
        )
        found.append(number if number >= 0 else LETTERS.get(word, ord(word)))
        at = match.end()
    return [CHAR.wrapped(number) for number in found]


def folded(expression: Expression) -> Expression:
    """A number where the operands are numbers, and else the expression."""
    at = expression.at
    match expression:
        case Unary(Integer() as kind, _, sign, Const(_, _, value)):
            return Const(kind, at, arithmetic.unary(sign, value, kind))
        case Binary(kind, _, sign, Const(_, _, left), Const(_, _, right)):
            found = arithmetic.binary(sign, left, right, kind)
            return expression if found is None else Const(kind, at, found)
        case Compare(kind, _, sign, Const(_, _, left), Const(_, _, right)):
            return Const(kind, at, int(arithmetic.COMPARISONS[sign](left, right)))
        case Logic(kind, _, sign, Const(_, _, left), right):
            if (left != 0) == (sign == "||"):
                return Const(kind, at, int(sign == "||"))
            return Const(kind, at, int(right.value != 0)) if isinstance(right, Const) else expression
        case Conditional(_, _, Const(_, _, value), then, other):
            return then if value else other
        case Convert(Integer() as kind, _, Const(Integer(), _, value)):
            return Const(kind, at, kind.wrapped(value))
    return expression


def is_null(expression: Expression) -> bool:
    """A null pointer: the number 0, also as a pointer."""
    while isinstance(expression, Convert):
        expression = expression.operand
    return isinstance(expression, Const) and expression.value == 0


class Expressions:
    """Reads the expressions of a file. Types are read by what is given."""

    def __init__(self, names: Names, read_type: Callable[[Any], CType]) -> None:
        self.names = names
        self.read_type = read_type

    # What is used as a value.

    def value(self, node: Any) -> Expression:
        """An expression as a value: an array is a pointer."""
        found = self.read(node)
        if isinstance(found.type, Array):
            return Decay(Pointer(found.type.of), found.at, found)
        return found

    def number(self, node: Any) -> Expression:
        """An expression that is a number."""
        found = self.value(node)
        if not isinstance(found.type, Integer):
            raise Refused(found.at, f"a number is needed here, and this is `{shown(found.type)}`")
        return found

    def condition(self, node: Any) -> Expression:
        """An expression that is true or false: a number or a pointer."""
        found = self.value(node)
        if not isinstance(found.type, Integer | Pointer):
            raise Refused(found.at, f"`{shown(found.type)}` is neither true nor false")
        return found

    def constant(self, node: Any) -> int:
        """An expression whose value the text says."""
        found = self.number(node)
        if not isinstance(found, Const):
            raise Refused(found.at, "a constant is needed here: write the number, a `#define` or an `enum`")
        return found.value

    # Each kind of node.

    def read(self, node: Any) -> Expression:
        """An expression as it stands, arrays as arrays."""
        name = kind_of(node)
        reader = getattr(self, f"read_{name}", None)
        if name == "CompoundLiteral":
            raise Refused(place_of(node), "a value of a type in brackets: declare a variable that begins with it")
        if reader is None:
            raise Refused(place_of(node), f"`{name}` is nothing that can be carried over")
        found: Expression = reader(node)
        return found

    def read_Constant(self, node: Any) -> Expression:
        at, text = place_of(node), node.value
        if node.type == "string":
            return self.string(at, text)
        if node.type == "char":
            found = characters(text[text.index("'") + 1 : -1])
            if len(found) != 1:
                raise Refused(at, "a constant of several characters: write the number")
            return Const(INT, at, found[0])
        if "float" in node.type or "double" in node.type:
            raise Refused(at, FLOATING)
        return self.whole_number(at, text.lower())

    def whole_number(self, at: Place, text: str) -> Const:
        """A number, in the first type of C99 that holds it."""
        digits = text.rstrip("ul")
        suffix = text[len(digits) :]
        decimal = not (digits.startswith("0") and len(digits) > 1)
        base = 10 if decimal else 16 if digits.startswith("0x") else 2 if digits.startswith("0b") else 8
        value = int(digits, base)
        long_bits = 64 if "ll" in suffix else self.names.shared.options.long_bits if "l" in suffix else 32
        for bits in (32, 64):
            for signed in (True, False):
                kind = {(32, True): INT, (32, False): UNSIGNED, (64, True): LONG_LONG}.get(
                    (bits, signed), UNSIGNED_LONG_LONG
                )
                fits = bits >= long_bits and value <= kind.high and not (signed and "u" in suffix)
                if fits and (signed or not decimal or "u" in suffix):
                    if bits == 64 and not suffix:
                        text = f"{value} is `{shown(kind)}` in C99, and was `unsigned long` before: write a suffix"
                        self.names.shared.notes.warn(at, text)
                    return Const(kind, at, value)
        raise Refused(at, f"{value} is above 64 bits")

    def string(self, at: Place, text: str) -> Expression:
        """A string, as an array of its own."""
        numbers = [*characters(text[text.index('"') + 1 : -1]), 0]
        kind = Array(CHAR, len(numbers))
        made = Variable("text", kind, Storage.STATIC, at, self.names.function)
        made.initial = [Initial(word, CHAR, Const(CHAR, at, number)) for word, number in enumerate(numbers)]
        self.names.shared.globals.append(made)
        return Ref(kind, at, made)

    def read_ID(self, node: Any) -> Expression:
        at, found = place_of(node), self.names.meaning(node.name)
        if found is None:
            raise Refused(at, f"the name `{node.name}` is not declared")
        if isinstance(found, Const):
            return Const(found.type, at, found.value)
        if isinstance(found, FunctionText):
            text = (
                f"`{node.name}` is a function used as a value: there are no pointers to functions, so call it by"
                f" its name"
            )
            raise Refused(at, text)
        return Ref(found.type, at, found)

    def read_ArrayRef(self, node: Any) -> Expression:
        at, base, index = place_of(node), self.value(node.name), self.value(node.subscript)
        if isinstance(base.type, Integer):
            base, index = index, base
        return self.deref(at, self.moved(at, "+", base, index))

    def deref(self, at: Place, pointer: Expression) -> Expression:
        """What a pointer points to."""
        if not isinstance(pointer.type, Pointer):
            raise Refused(at, f"`{shown(pointer.type)}` is no pointer")
        if isinstance(pointer.type.to, Void | Signature):
            raise Refused(at, f"what `{shown(pointer.type)}` points to has no value here")
        if isinstance(pointer, Decay) and not isinstance(pointer.array.type, Array):
            raise Refused(at, "this is no array")
        return Deref(pointer.type.to, at, pointer)

    def read_StructRef(self, node: Any) -> Expression:
        at = place_of(node)
        record = self.read(node.name) if node.type == "." else self.deref(at, self.value(node.name))
        if not isinstance(record.type, Record):
            raise Refused(at, f"`{shown(record.type)}` has no members")
        member = record.type.field_named(node.field.name, at)
        return Member(member.type, at, record, member)

    def read_UnaryOp(self, node: Any) -> Expression:
        at, sign = place_of(node), node.op
        if sign == "sizeof":
            return self.size_of(node)
        if sign == "&":
            return self.address_of(at, node.expr)
        if sign == "*":
            return self.deref(at, self.value(node.expr))
        if sign in ("++", "--", "p++", "p--"):
            target = self.target(node.expr)
            return Step(target.type, at, target, sign.endswith("--"), sign.startswith("p"))
        if sign == "!":
            return folded(Unary(INT, at, "!", self.condition(node.expr)))
        if sign not in ("+", "-", "~"):
            raise Refused(at, f"the sign `{sign}` can't be carried over")
        operand = self.number(node.expr)
        operand = self.converted(operand, promoted(operand.type))
        return operand if sign == "+" else folded(Unary(operand.type, at, sign, operand))

    def size_of(self, node: Any) -> Expression:
        """`sizeof`, of a type or of an expression."""
        at = place_of(node)
        kind = self.read_type(node.expr) if kind_of(node.expr) == "Typename" else self.read(node.expr).type
        if isinstance(kind, Record) and kind.bit_fields:
            raise Refused(at, "the size of a struct with bit fields is the compiler's own: write the number")
        return Const(UNSIGNED, at, size(kind))

    def address_of(self, at: Place, node: Any) -> Expression:
        """`&x`; of an element it is the moved pointer."""
        target = self.read(node)
        if isinstance(target, Deref):
            return target.pointer
        self.check_target(target)
        if (
            isinstance(target, Member)
            and isinstance(target.type, Integer)
            and in_union(target)
            and target.type.size < 4
        ):
            raise Refused(at, "the address of a byte in a union: read it by its name, or use shifts and masks")
        if (
            isinstance(target, Member)
            and isinstance(target.type, Integer)
            and target.type.bits not in (1, 8, 16, 32, 64)
        ):
            raise Refused(at, "a bit field has no address")
        note_address(target)
        return AddressOf(Pointer(target.type), at, target)

    def target(self, node: Any) -> Expression:
        """What can be assigned to."""
        found = self.read(node)
        self.check_target(found)
        if isinstance(found.type, Array):
            raise Refused(found.at, "an array can't be assigned: copy its elements")
        return found

    def check_target(self, found: Expression) -> None:
        if isinstance(found, Member):
            return self.check_target(found.record)
        if not isinstance(found, Ref | Deref):
            raise Refused(found.at, "this has no place in memory that could be set")
        return None

    def read_BinaryOp(self, node: Any) -> Expression:
        at, sign = place_of(node), node.op
        if sign in ("&&", "||"):
            return folded(Logic(INT, at, sign, self.condition(node.left), self.condition(node.right)))
        left, right = self.value(node.left), self.value(node.right)
        pointers = isinstance(left.type, Pointer) or isinstance(right.type, Pointer)
        if sign in arithmetic.COMPARISONS:
            return self.compared(at, sign, left, right)
        if pointers:
            return self.pointer_sum(at, sign, left, right)
        self.check_numbers(at, sign, left, right)
        return self.worked(at, sign, left, right)

    def check_numbers(self, at: Place, sign: str, *values: Expression) -> None:
        for value in values:
            if not isinstance(value.type, Integer):
                raise Refused(at, f"`{sign}` is not defined on `{shown(value.type)}`")

    def worked(self, at: Place, sign: str, left: Expression, right: Expression) -> Expression:
        """Arithmetic on two numbers."""
        kind = work_type(sign, left.type, right.type)
        other = promoted(right.type) if sign in ("<<", ">>") else kind
        left, right = self.converted(left, kind), self.converted(right, other)
        if sign in ("<<", ">>"):
            right = self.converted(right, INT) if isinstance(right, Const) else right
        return folded(Binary(kind, at, sign, left, right))

    def compared(self, at: Place, sign: str, left: Expression, right: Expression) -> Expression:
        """A comparison of numbers or of pointers."""
        if isinstance(left.type, Pointer) or isinstance(right.type, Pointer):
            kind = left.type if isinstance(left.type, Pointer) else right.type
            left, right = self.converted(left, kind), self.converted(right, kind)
        else:
            self.check_numbers(at, sign, left, right)
            kind = common(left.type, right.type)
            left, right = self.converted(left, kind), self.converted(right, kind)
        return folded(Compare(INT, at, sign, left, right))

    def pointer_sum(self, at: Place, sign: str, left: Expression, right: Expression) -> Expression:
        """A pointer moved, or the gap of two."""
        if isinstance(left.type, Pointer) and isinstance(right.type, Pointer):
            if sign != "-":
                raise Refused(at, f"`{sign}` is not defined on two pointers")
            return PointerGap(INT, at, left, right)
        if isinstance(right.type, Pointer) and sign == "+":
            left, right = right, left
        if sign not in ("+", "-"):
            raise Refused(at, f"`{sign}` is not defined on a pointer: a pointer is an index here, and has no bits")
        return self.moved(at, sign, left, right)

    def moved(self, at: Place, sign: str, pointer: Expression, count: Expression) -> PointerMove:
        """A pointer and a number of elements."""
        if not isinstance(pointer.type, Pointer) or not isinstance(count.type, Integer):
            raise Refused(at, "a pointer and a number are needed here")
        if isinstance(pointer.type.to, Void | Signature):
            raise Refused(at, f"`{shown(pointer.type)}` can't be moved, since its elements have no size")
        return PointerMove(pointer.type, at, sign, pointer, self.converted(count, promoted(count.type)))

    def read_Assignment(self, node: Any) -> Expression:
        at, sign = place_of(node), node.op[:-1]
        target, value = self.target(node.lvalue), self.value(node.rvalue)
        if not sign:
            return Assign(target.type, at, target, self.converted(value, target.type))
        if isinstance(target.type, Pointer):
            if sign not in ("+", "-") or not isinstance(value.type, Integer):
                raise Refused(at, f"`{sign}=` is not defined on a pointer")
            return Update(target.type, at, sign, target, self.converted(value, promoted(value.type)), target.type)
        self.check_numbers(at, sign, target, value)
        work = work_type(sign, target.type, value.type)
        other = promoted(value.type) if sign in ("<<", ">>") else work
        return Update(target.type, at, sign, target, self.converted(value, other), work)

    def read_TernaryOp(self, node: Any) -> Expression:
        at, condition = place_of(node), self.condition(node.cond)
        then, other = self.value(node.iftrue), self.value(node.iffalse)
        if isinstance(then.type, Integer) and isinstance(other.type, Integer):
            kind: CType = common(then.type, other.type)
        elif isinstance(then.type, Pointer) and not is_null(then):
            kind = then.type
        else:
            kind = other.type if isinstance(other.type, Pointer) else then.type
        return folded(Conditional(kind, at, condition, self.converted(then, kind), self.converted(other, kind)))

    def read_Cast(self, node: Any) -> Expression:
        kind = self.read_type(node.to_type)
        return self.converted(self.value(node.expr), kind, cast=True)

    def read_ExprList(self, node: Any) -> Expression:
        found = self.value(node.exprs[0])
        for part in node.exprs[1:]:
            following = self.value(part)
            found = Comma(following.type, following.at, found, following)
        return found

    def read_FuncCall(self, node: Any) -> Expression:
        at = place_of(node)
        if kind_of(node.name) != "ID":
            raise Refused(at, "a call through a pointer: call the function by its name, in a `switch` over a number")
        found = self.names.meaning(node.name.name)
        shared = self.names.shared
        if isinstance(found, Variable | Const):
            raise Refused(at, "a call through a pointer: call the function by its name, in a `switch` over a number")
        undeclared = found is None
        if found is None:
            found = FunctionText(node.name.name, Signature(INT, ()), at)
            known = shared.names.setdefault(node.name.name, found)
            found = known if isinstance(known, FunctionText) else found
        arguments = [self.value(argument) for argument in (node.args.exprs if node.args else [])]
        made = Call(found.type.result, at, found, arguments)
        (shared.undeclared if undeclared else shared.calls).append(made)
        if self.names.function is not None:
            self.names.function.calls.append(made)
        return made

    # Conversions.

    def converted(self, value: Expression, kind: CType, cast: bool = False) -> Expression:
        """A value as one of another type."""
        at, own = value.at, value.type
        if own == kind:
            return value
        if isinstance(kind, Void):
            return Convert(VOID, at, value)
        if isinstance(kind, Integer) and isinstance(own, Integer):
            return folded(Convert(kind, at, value))
        if isinstance(kind, Integer) and kind.boolean and isinstance(own, Pointer):
            return Convert(kind, at, Compare(INT, at, "!=", value, Const(own, at, 0)))
        if isinstance(kind, Pointer) and is_null(value):
            return Const(kind, at, 0)
        if isinstance(kind, Pointer) and isinstance(own, Pointer):
            return Convert(kind, at, value)
        if isinstance(kind, Pointer) and isinstance(own, Integer):
            raise Refused(at, "a number as a pointer: there are no addresses here, so point to a variable or an array")
        if isinstance(kind, Integer) and isinstance(own, Pointer):
            raise Refused(
                at, "a pointer as a number: a pointer is an index here, so use the difference of two pointers"
            )
        raise Refused(at, f"`{shown(own)}` can't be turned into `{shown(kind)}`")


def work_type(sign: str, left: CType, right: CType) -> Integer:
    """The type in which C works `left sign right` out."""
    if sign in ("<<", ">>"):
        kind = promoted(left)
        assert isinstance(kind, Integer)
        return kind
    return common(left, right)


def in_union(target: Expression) -> bool:
    """The value stands inside a union."""
    while isinstance(target, Member):
        if isinstance(target.record.type, Record) and target.record.type.union:
            return True
        target = target.record
    return False


def note_address(target: Expression) -> None:
    """The variable that a value stands in has its address taken."""
    while isinstance(target, Member):
        target = target.record
    if isinstance(target, Ref):
        target.variable.addressed = True
