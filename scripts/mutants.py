# SPDX-License-Identifier: MIT OR Apache-2.0
"""Mutants: the small bugs that can be planted in a source, each by another text in place of one part of it.

Those of Python come from its syntax tree: a comparison turned, a constant one larger or smaller, arguments exchanged, a
call left out, an early return or a loop that runs once, `and` for `or`, `+` for `-`, the other branch, a default changed, an
exception passed over or let through. Those of C and Perl come from the text of a line."""
from __future__ import annotations

import ast
import re
from typing import Callable, Iterator, NamedTuple, Union

TURNED = {"<": "<=", "<=": "<", ">": ">=", ">=": ">", "==": "!=", "!=": "==", "in": "not in", "not in": "in", "is": "is not",
          "is not": "is", "and": "or", "or": "and", "&&": "||", "||": "&&", "+": "-", "-": "+"}
SIGNS = {ast.Lt: "<", ast.LtE: "<=", ast.Gt: ">", ast.GtE: ">=", ast.Eq: "==", ast.NotEq: "!=", ast.In: "in",
         ast.NotIn: "not in", ast.Is: "is", ast.IsNot: "is not", ast.And: "and", ast.Or: "or", ast.Add: "+", ast.Sub: "-"}
PLAIN = (ast.Name, ast.Attribute, ast.Call, ast.Subscript, ast.NamedExpr)
LEAVES = (ast.Return, ast.Raise, ast.Continue)
NOT_EXCHANGED = ("max", "min", "isinstance", "check")  # whose arguments have no order, or can have no other
Node = Union[ast.expr, ast.stmt]
IN_TEXT = ast.JoinedStr  # the places in such a text are those of no file
CACHE = "lru_cache"  # whose arguments bound memory
# What is exchanged in a line of C or Perl, and by what.
OF_TEXT: tuple[tuple[str, "str | Callable[[re.Match[str]], str]"], ...] = (
    (r" (<=?|>=?|==|!=|&&|\|\||\+|-) ", lambda found: f" {TURNED[found[1]]} "),
    (r"(?<![\w.$%])\d+(?![\w.])", lambda found: str(int(found[0]) + 1)),
    (r"(?<![\w.$%])[1-9]\d*(?![\w.])", lambda found: str(int(found[0]) - 1)),
    (r"^( +)(?:[\w:>$-]+\(.*\)|\*?[\w.>-]+(?:\[[^]]*\])? [-+*/|&<>]*= [^;]*|continue);$", r"\1;"),
    (r"\breturn (?!(?:0|false|NULL|RRDI_OK);)[^;]+;", "return 0;"),
    (r"(?<=[( ])!(?=[\w($])", ""))
# Comments, texts, documentation and what the preprocessor reads.
NO_CODE = (r"""/\*.*?\*/|"(?:\\.|[^"\\\n])*"|'(?:\\.|[^'\\\n])*'|^=\w.*?^=cut|^__END__.*|"""
           r"""^ *#(?:\\\n|[^\n])*|(?<= )(?://|# )[^\n]*""")


class Mutant(NamedTuple):
    """A bug: its file, the bytes that it replaces, the new ones, and the lines that run it. `names` are those by which
    functions use it if it runs when its module is imported."""
    file: str
    begin: int
    end: int
    new: bytes
    lines: tuple[int, ...]
    names: tuple[str, ...] = ()

    def planted(self, data: bytes) -> bytes:
        return data[:self.begin] + self.new + data[self.end:]

    def row(self, data: bytes) -> tuple[str, str, str]:
        """Returns what names the mutant in the list of survivors: the file, and the first line that it changes, both ways."""
        at = data.count(b"\n", 0, self.begin)
        old, new = data.decode().split("\n"), self.planted(data).decode().split("\n")
        more = f" {new[at + 1].strip()}" if self.new.startswith(b"\n") else ""
        return self.file, part(old[at]), (part(new[at]) or "(nothing)") + more


def part(line: str) -> str:
    """Returns a line as a part of a row, whose parts have ` | ` between them."""
    return line.strip().replace(" | ", "|")


class Place(NamedTuple):
    """The part of a file in which a node stands."""
    statement: ast.stmt
    function: "ast.FunctionDef | None"


class Finder:
    """Finds the mutants of a Python file."""

    def __init__(self, file: str, data: bytes) -> None:
        self.file, self.data = file, data
        self.starts = [0]
        for line in data.split(b"\n"):
            self.starts.append(self.starts[-1] + len(line) + 1)

    def begin(self, node: Node) -> int:
        return self.starts[node.lineno - 1] + node.col_offset

    def end(self, node: Node) -> int:
        return self.starts[(node.end_lineno or 0) - 1] + (node.end_col_offset or 0)

    def text(self, node: Node) -> bytes:
        return self.data[self.begin(node):self.end(node)]

    def all(self) -> Iterator[Mutant]:
        tree = ast.parse(self.data)
        for statement in tree.body:
            yield from self.below(statement, Place(statement, None))

    def below(self, node: ast.AST, place: Place) -> Iterator[Mutant]:
        """Yields the mutants of a node and of those below it."""
        if isinstance(node, (ast.FunctionDef, ast.stmt)):
            place = Place(node, node if isinstance(node, ast.FunctionDef) else place.function)
        for begin, end, new in self.changes(node):
            yield self.mutant(begin, end, new, node, place)
        skipped = [getattr(node, name, None) for name in ("annotation", "returns")]
        for child in ast.iter_child_nodes(node):
            is_cache = isinstance(child, ast.Call) and name_of(child.func) == CACHE
            if not is_cache and not isinstance(child, IN_TEXT) and not any(child is one for one in skipped):
                yield from self.below(child, place)

    def mutant(self, begin: int, end: int, new: bytes, node: ast.AST, place: Place) -> Mutant:
        first, names = getattr(node, "lineno", place.statement.lineno), tuple(names_set(place.statement))
        if place.function is None and names:
            return Mutant(self.file, begin, end, new, (), names)
        if place.statement is place.function:  # a default runs when the function is made
            return Mutant(self.file, begin, end, new, tuple(line.lineno for line in place.function.body))
        return Mutant(self.file, begin, end, new, tuple({first, place.statement.lineno}))

    def changes(self, node: ast.AST) -> Iterator[tuple[int, int, bytes]]:
        """Yields what can replace a part of a node: from where, to where, and by what."""
        if isinstance(node, ast.Compare):
            yield from self.turned([node.left, *node.comparators], [SIGNS[type(sign)] for sign in node.ops])
        elif isinstance(node, ast.BoolOp):
            yield from self.turned(node.values, [SIGNS[type(node.op)]] * (len(node.values) - 1))
        elif isinstance(node, ast.BinOp) and type(node.op) in SIGNS and not is_text(node.left) and not is_text(node.right):
            yield from self.turned([node.left, node.right], [SIGNS[type(node.op)]])
        elif isinstance(node, ast.arguments):
            yield from ((self.begin(value), self.end(value), b'""') for value in (*node.defaults, *node.kw_defaults)
                        if isinstance(value, ast.Constant) and isinstance(value.value, str) and value.value)
        elif isinstance(node, ast.Constant):
            yield from self.other_constants(node)
        elif isinstance(node, ast.UnaryOp) and isinstance(node.op, ast.Not):
            yield self.begin(node), self.begin(node) + len(b"not"), b""
        elif isinstance(node, ast.Call):
            yield from self.exchanged(node)
        elif isinstance(node, ast.IfExp):
            yield self.begin(node), self.end(node), b"%s if %s else %s" % tuple(
                map(self.text, (node.orelse, node.test, node.body)))
        yield from self.other_statements(node)

    def turned(self, values: list[ast.expr], signs: list[str]) -> Iterator[tuple[int, int, bytes]]:
        for left, right, sign in zip(values, values[1:], signs):
            begin, end = self.end(left), self.begin(right)
            pattern = re.escape(sign).replace(r"\ ", r"\s+").encode()
            found = re.search(rb"(?<![<>=!\w])" + pattern + rb"(?![=\w])", self.data[begin:end])
            if found:
                yield begin + found.start(), begin + found.end(), TURNED[sign].encode()

    def other_constants(self, node: ast.Constant) -> Iterator[tuple[int, int, bytes]]:
        begin, end = self.begin(node), self.end(node)
        if isinstance(node.value, bool):
            yield begin, end, str(not node.value).encode()
        elif isinstance(node.value, (int, float)):
            for value in {node.value + 1, max(node.value - 1, 0)} - {node.value}:
                yield begin, end, str(value).encode()

    def exchanged(self, node: ast.Call) -> Iterator[tuple[int, int, bytes]]:
        if name_of(node.func) in NOT_EXCHANGED:
            return
        for one, other in zip(node.args, node.args[1:]):
            texts = self.text(one), self.text(other)
            if texts[0] != texts[1] and not isinstance(one, ast.Starred) and not isinstance(other, ast.Starred):
                between = self.data[self.end(one):self.begin(other)]
                yield self.begin(one), self.end(other), texts[1] + between + texts[0]

    def other_statements(self, node: ast.AST) -> Iterator[tuple[int, int, bytes]]:
        if isinstance(node, ast.Raise) or isinstance(node, ast.Expr) and isinstance(node.value, ast.Call):
            yield self.begin(node), self.end(node), b"pass"
        elif isinstance(node, (ast.If, ast.While, ast.IfExp)) and isinstance(node.test, PLAIN) \
                and self.text(node.test) != b"TYPE_CHECKING":
            yield self.begin(node.test), self.end(node.test), b"not (%s)" % self.text(node.test)
        elif isinstance(node, ast.Return) and node.value and self.text(node.value) not in (b"None", b"False"):
            yield self.begin(node.value), self.end(node.value), b"None"
        elif isinstance(node, ast.ExceptHandler) and not isinstance(node.body[0], ast.Raise):
            yield self.begin(node.body[0]), self.end(node.body[-1]), b"raise"
        elif isinstance(node, ast.FunctionDef) and len(node.body) > 1 and not isinstance(node.body[-1], LEAVES):
            yield self.begin(node.body[-1]), self.end(node.body[-1]), b"return"
        elif isinstance(node, ast.For) and not isinstance(node.body[-1], LEAVES):
            yield from self.once(node.body[-1])

    def once(self, last: ast.stmt) -> Iterator[tuple[int, int, bytes]]:
        indent = self.data[self.starts[last.lineno - 1]:self.begin(last)]
        if not indent.strip():
            yield self.end(last), self.end(last), b"\n" + indent + b"break"


def name_of(function: ast.expr) -> str:
    return str(getattr(function, "id", getattr(function, "attr", "")))


def is_text(node: "ast.expr | None") -> bool:
    return isinstance(node, ast.JoinedStr) or isinstance(node, ast.Constant) and isinstance(node.value, (str, bytes))


def names_set(statement: ast.stmt) -> Iterator[str]:
    """Yields the names that a statement gives a value."""
    for node in ast.walk(statement):
        if isinstance(node, ast.Name) and isinstance(node.ctx, ast.Store):
            yield node.id


def code_of(text: str) -> str:
    """Returns C or Perl with spaces in place of what is no code."""
    return re.sub(NO_CODE, lambda found: re.sub(r"[^\n]", " ", found[0]), text, flags=re.DOTALL | re.MULTILINE)


def mutants_of_text(file: str, data: bytes) -> Iterator[Mutant]:
    """Yields the mutants of a file of C or Perl, whose other characters than ASCII are in comments only."""
    code = code_of(data.decode("latin-1"))
    for pattern, new in OF_TEXT:
        for found in re.finditer(pattern, code, re.MULTILINE):
            text = new(found) if callable(new) else found.expand(new)
            yield Mutant(file, *found.span(), text.encode(), (code.count("\n", 0, found.start()) + 1,))


def mutants_of(file: str, data: bytes) -> list[Mutant]:
    """Returns the mutants of a file, in the order of their places, each once."""
    found = Finder(file, data).all() if file.endswith(".py") else mutants_of_text(file, data)
    return sorted(set(found), key=lambda mutant: mutant[1:4])
