"""Declares each variable of a function where it is needed: with its first value, where that comes first."""

from __future__ import annotations

from .subset import (
    Branch, Declaration, Function, Invoke, Iterations, Labelled, Local, Mentions, Name, Set, Stmt, expressions_of,
    names_in, own_mentions, parts,
)  # fmt: skip


def declared(function: Function) -> Function:
    """The function with its declarations."""
    mentions = Mentions()
    for local in function.locals:
        declare(function.body, local, mentions)
    function.locals = []
    return function


def declare(body: list[Stmt], local: Local, mentions: Mentions) -> None:
    """Puts the declaration of a variable as far inside as it may stand."""
    first = first_set(body, local.name, mentions)
    if first is not None:
        first.declares = True
        return
    outer = next((at for at, line in enumerate(body) if local.name in mentions.of(line)), None)
    if outer is not None:
        body.insert(outer, Declaration(body[outer].at, local))


def first_set(body: list[Stmt], name: str, mentions: Mentions) -> Set | Invoke | None:
    """The innermost statement that sets a variable before anything in its block reads it; all mentions stand in that
    block.
    """
    statements, found = body, None
    while True:
        users = [line for line in statements if name in mentions.of(line)]
        if not users:
            return None
        if sets_first(users[0], name):
            assert isinstance(users[0], Set | Invoke)
            found = users[0]
        inner = only_part(users, name, mentions)
        if inner is None:
            return found
        statements = inner


def sets_first(statement: Stmt, name: str) -> bool:
    """The statement sets the variable whatever was before, and reads it not."""
    if not isinstance(statement, Set | Invoke) or not isinstance(statement.target, Name):
        return False
    if statement.target.name != name:
        return False
    return all(name not in names_in(expr) for expr in expressions_of(statement))


def only_part(users: list[Stmt], name: str, mentions: Mentions) -> list[Stmt] | None:
    """The statements inside the only user that alone mention the variable; none where there are several, or a head
    does.
    """
    if len(users) != 1 or not isinstance(users[0], Branch | Iterations | Labelled):
        return None
    user = users[0]
    if name in own_mentions(user):
        return None
    inner = [part for part in parts(user) if any(name in mentions.of(line) for line in part)]
    return inner[0] if len(inner) == 1 else None
