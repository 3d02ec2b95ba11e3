"""Reads a job for the page: its statements, and the places in them that instructions may come from.

It takes every program that the program wsc accepts, and prints it again with other words at some places: so
`statements.py` finds out which instructions a place stands for.
"""

import re

from wavescalar.faults import Fault
from wavescalar.isa import OPERATORS
from wavescalar.numbered import sections

LEXEME = re.compile(rb"[ \t\r\n]+|#[^\n]*|[A-Za-z_]\w*|\d+|<<|>>|<=|>=|==|!=|[-(){}\[\],;=+*/%&|^~!<>]")
# The binary operators, loosest first.
LEVELS = (("|",), ("^",), ("&",), ("==", "!="), ("<", "<=", ">", ">="), ("<<", ">>"), ("+", "-"), ("*", "/", "%"))
# The instruction of each operator; a unary one has a constant beside it.
OPERATION = {it.sign: word for word, it in OPERATORS.items()}


class Site:
    """A place in a statement: its kind, its word, and the number of its statement.

    The kinds are `number`, `binary`, `unary`, `load`, `store`, `print`, `read`, `give`, `take`; of `print` and
    `read` the word is empty.
    """

    def __init__(self, kind: str, word: str, statement: int):
        self.kind, self.word, self.statement = kind, word, statement


class Source:
    """The statements of a job, in the order of the text: each where it begins and ends, a `while` and an `if`
    up to the end of its condition; the sites; and the site at the root of each condition, or None where that is a
    variable alone. `parts` is the text as it is printed again: words, sites by their numbers, and the ends of
    conditions, each with its statement."""

    def __init__(self, text: str):
        self.statements: list[list[int]] = []
        self.sites: list[Site] = []
        self.roots: dict[int, int | None] = {}
        self.parts: list[str | int | tuple[str, int]] = []
        self.text = "\n".join(sections(text)[0][0])
        self.tokens: list[tuple[str, int, int]] = []
        data, at = self.text.encode(errors="surrogateescape"), 0
        while at < len(data):
            found = LEXEME.match(data, at)
            if not found:
                raise Fault("the job can't be read")
            if found[0][:1] not in b" \t\r\n#":
                self.tokens.append((found[0].decode(), at, found.end()))
            at = found.end()
        self.at = 0
        while self.at < len(self.tokens):
            self.declaration()

    # Lexemes.
    def next(self) -> str:
        """The lexeme that stands here, or nothing at the end."""
        return self.tokens[self.at][0] if self.at < len(self.tokens) else ""

    def take(self, *wanted: str) -> str:
        """The lexeme that stands here, which is printed again."""
        word = self.lexeme(*wanted)
        self.parts.append(word + " ")
        return word

    def lexeme(self, *wanted: str) -> str:
        """The lexeme that stands here, which is one of these, if any are named."""
        word = self.next()
        if not word or wanted and word not in wanted:
            raise Fault("the job can't be read")
        self.at += 1
        return word

    def site(self, kind: str, word: str = "") -> int:
        """A site that is printed here."""
        self.sites.append(Site(kind, word, len(self.statements) - 1))
        self.parts.append(len(self.sites) - 1)
        return len(self.sites) - 1

    # Statements.
    def begin(self) -> int:
        """A statement begins here: its number."""
        self.statements.append([self.tokens[self.at][1], 0])
        return len(self.statements) - 1

    def end(self, number: int) -> None:
        """It ends behind the last lexeme."""
        self.statements[number][1] = self.tokens[self.at - 1][2]

    def declaration(self) -> None:
        """An array, or a procedure."""
        if self.next() == "array":
            while self.take() != ";":
                pass
            return
        self.take("proc")
        while self.take() != "{":
            pass
        while self.next() == "var":
            while self.take() != ";":
                pass
        self.statements_to_brace()

    def statements_to_brace(self) -> None:
        """Statements, up to the brace that closes them."""
        while self.next() != "}":
            self.statement()
        self.take("}")

    def statement(self) -> None:
        """A statement of any kind."""
        number, word = self.begin(), self.next()
        if word in ("if", "while"):
            self.branch(number, word)
            return
        if word in ("print", "return"):
            self.lexeme()
            self.site("print") if word == "print" else self.parts.append("return ")
            self.expression()
        elif word in ("give", "take"):
            self.lexeme()
            self.parts.append(f"{word} ")
            self.site(word, self.lexeme())
            self.take(",")
            self.expression() if word == "take" else self.take()
        elif word == "read":
            self.lexeme()
            self.site("read")
            self.take()
        else:
            self.assignment()
        self.take(";")
        self.end(number)

    def branch(self, number: int, word: str) -> None:
        """An `if` or a `while`, with its condition and its blocks."""
        self.take(word)
        self.take("(")
        self.roots[number] = self.expression()
        self.parts.append(("condition", number))
        self.take(")")
        self.end(number)
        self.take("{")
        self.statements_to_brace()
        if word == "if" and self.next() == "else":
            self.take("else")
            self.take("{")
            self.statements_to_brace()

    def assignment(self) -> None:
        """To a variable or a cell, from an expression or a call; or a call alone."""
        if self.tokens[self.at + 1][0] == "[":
            self.site("store", self.lexeme())
            self.take("[")
            self.expression()
            self.take("]")
            self.take("=")
            self.expression()
            return
        if self.tokens[self.at + 1][0] == "=":
            self.take()
            self.take("=")
        if self.tokens[self.at + 1][0] != "(" or not re.match(r"[A-Za-z_]", self.next()):
            self.expression()
            return
        self.take()
        self.take("(")
        while self.next() != ")":
            self.take(",") if self.next() == "," else self.expression()
        self.take(")")

    # Expressions: each gives the site at its root, or nothing; all are printed with parentheses.
    def expression(self, level: int = 0) -> int | None:
        """Operators of this level, and those that bind more."""
        if level == len(LEVELS):
            return self.unary()
        here = len(self.parts)
        root = self.expression(level + 1)
        while self.next() in LEVELS[level]:
            self.parts.insert(here, "(")
            root = self.site("binary", self.lexeme())
            self.expression(level + 1)
            self.parts.append(")")
        return root

    def unary(self) -> int | None:
        """A unary operator with what it stands before, or a word, a cell, or an expression in parentheses."""
        word = self.next()
        if word in ("~", "!", "-"):
            self.parts.append("(")
            root: int | None = self.site("unary", self.lexeme())
            self.unary()
            self.parts.append(")")
            return root
        if word == "(":
            self.take("(")
            root = self.expression()
            self.take(")")
            return root
        if word.isdigit():
            return self.site("number", self.lexeme())
        if self.tokens[self.at + 1][0] == "[":
            root = self.site("load", self.lexeme())
            self.take("[")
            self.expression()
            self.take("]")
            return root
        self.take()
        return None

    def printed(self, words: dict[int, str], compared: dict[int, int] | None = None) -> str:
        """The program with these words at its sites; a site that isn't named keeps its own. The condition of each
        statement in `compared` is compared with a number."""
        out = []
        for part in self.parts:
            if isinstance(part, str):
                out.append(part)
            elif isinstance(part, tuple):
                out.append(f"== {compared[part[1]]} " if compared and part[1] in compared else "")
            else:
                site = self.sites[part]
                usual = {"print": "print", "read": "read"}.get(site.kind, site.word)
                out.append(f"{words.get(part, usual)} ")
        return "".join(out)
