"""The tokens of justfiles: the words and marks of a line, the lines of a body, and what strings stand for."""

import dataclasses
import re

# What opens a string, a format string or a command, after a letter that may stand before it.
OPENING = re.compile(r"([xf]?)('''|\"\"\"|'|\")|()(```|`)")
NAME = re.compile(r"[A-Za-z_][A-Za-z0-9_-]*")
COMMENT = re.compile(r"#[^\n]*")
MARK = re.compile(r"&&|\|\||==|=~|!=|!~|\+\+|:=|::|[()\[\]{},=+*/!?@$:]")
BLANKS = re.compile(r"[ \t]+")
BLANKS_OF_LINES = re.compile(r"(?:[ \t]|\\\n)+")
BLANK_LINE = re.compile(r"[ \t]*(?:\n|\Z)")
COMMENT_LINES = re.compile(r"(?:#[^\n]*\n)*")
BEFORE_BODY = re.compile(r"(?:[ \t]*\n|#[^\n]*\n)*")
INDENTATION = re.compile(r"[ \t]+(?![ \t\n])(?!\Z)")
# A text in a body's line; four braces belong to it, two begin an expression.
BODY_TEXT = re.compile(r"(?:\{\{\{\{|(?!\{\{)[^\n])+")
ESCAPE = re.compile(r"\\(?:([nrt\"\\])|(\n)|u\{([0-9A-Fa-f]{1,6})\}|(.)|\Z)", re.DOTALL)
ESCAPED = {"n": "\n", "r": "\r", "t": "\t", '"': '"', "\\": "\\"}


class Unread(Exception):
    """A text that is no justfile, or says what is not read here."""


@dataclasses.dataclass(frozen=True)
class Token:
    """A token. Its kind is `name`, `string`, `command`, `format` or `comment`, or the mark itself."""

    kind: str
    text: str
    # The number of its line, from 1.
    line: int
    # The tokens of each expression in a format string.
    inner: tuple = ()


class Scanner:
    """A text, of which tokens and lines are taken from the front.

    A carriage return before a line end belongs to it; elsewhere only strings, commands, comments and texts of bodies
    have one.
    """

    def __init__(self, text):
        self.text = text.replace("\r\n", "\n")
        self.at = 0

    def is_over(self):
        return self.at == len(self.text)

    def begins(self, front):
        return self.text.startswith(front, self.at)

    def takes(self, front):
        """Takes this text if it comes here, and says whether it did."""
        is_here = self.begins(front)
        if is_here:
            self.at += len(front)
        return is_here

    def take(self, pattern):
        """The text of the pattern that comes here, or nothing."""
        match = pattern.match(self.text, self.at)
        if not match:
            return ""
        self.at = match.end()
        return match.group()

    def step(self, count):
        self.at += count
        if self.at > len(self.text):
            raise Unread("a string without an end")

    def code(self, in_braces=False):
        """The tokens up to the line end, or up to the braces that end an expression.

        In brackets a line end is white space.
        """
        found = []
        depth = 0
        while True:
            self.take(BLANKS if in_braces else BLANKS_OF_LINES)
            if in_braces and depth == 0 and self.takes("}}"):
                return found
            if self.is_over() or self.begins("\n") and (in_braces or depth == 0):
                if in_braces:
                    raise Unread("an expression without an end")
                self.takes("\n")
                return found
            if not self.takes("\n"):
                found.append(self.token())
                depth += found[-1].kind in ("(", "[", "{")
                depth -= found[-1].kind in (")", "]", "}")

    def token(self):
        """The token that comes here."""
        start = self.at
        line = self.text.count("\n", 0, start) + 1
        opening = OPENING.match(self.text, start)
        if opening:
            self.at = opening.end()
            kind, inner = self.pass_string(opening.group(1), opening.group(2) or opening.group(4))
            return Token(kind, self.text[start:self.at], line, inner)
        for kind, pattern in (("name", NAME), ("comment", COMMENT), (None, MARK)):
            text = self.take(pattern)
            if text:
                return Token(kind or text, text, line)
        raise Unread(f"no token in line {line}")

    def pass_string(self, letter, mark):
        """The kind of the string, and the tokens of the expressions in it."""
        inner = []
        while not self.takes(mark):
            if mark[0] == '"' and self.begins("\\"):
                self.step(2)
            elif letter == "f" and self.begins("{{{{"):
                self.step(4)
            elif letter == "f" and self.takes("{{"):
                inner.append(tuple(self.code(in_braces=True)))
            else:
                self.step(1)
        kind = "command" if mark[0] == "`" else "format" if letter == "f" else "string"
        return kind, tuple(inner)

    def body(self):
        """The lines of the body that comes here, or none. Each line is a row of texts and of the tokens of expressions."""
        start = self.at
        self.take(BEFORE_BODY)
        first = INDENTATION.match(self.text, self.at)
        if not first:
            self.at = start
            return []
        if len(set(first.group())) > 1:
            raise Unread("spaces and tabs in one indentation")
        lines = []
        while not self.is_over() and (self.begins((" ", "\t")) or BLANK_LINE.match(self.text, self.at)):
            lines.append(self.body_line(first.group()))
        while lines and not lines[-1]:
            lines.pop()
        return lines

    def body_line(self, indentation):
        """The line of a body with this indentation; a blank one has nothing in it."""
        if BLANK_LINE.match(self.text, self.at):
            self.take(BLANK_LINE)
            return ()
        if not self.takes(indentation):
            raise Unread("another indentation")
        pieces = []
        while not self.is_over() and not self.takes("\n"):
            text = self.take(BODY_TEXT)
            if not text:
                self.takes("{{")
            pieces.append(text or tuple(self.code(in_braces=True)))
        return tuple(pieces)


def unindented(text):
    """The text without the indentation that its lines share (tree_expressions, Indentation: `unindented`)."""
    lines = re.findall(r"[^\n]*\n|[^\n]+", text)
    runs = [line[:len(line) - len(line.lstrip(" \t"))] for line in lines if line.strip(" \t\n")]
    shared = min(runs, key=len, default="")
    while not all(run.startswith(shared) for run in runs):
        shared = shared[:-1]
    kept = [line[len(shared):] if line.strip(" \t\n") else "\n" for line in lines]
    for outer in (0, -1):
        if lines and not lines[outer].strip(" \t\n"):
            kept[outer] = ""
    return "".join(kept)


def unescaped(match):
    """What an escape stands for."""
    letter, line_end, digits, _ = match.groups()
    if letter:
        return ESCAPED[letter]
    if line_end:
        return ""
    value = int(digits, 16) if digits else 0x110000
    if value >= 0x110000 or 0xD800 <= value < 0xE000:
        raise Unread("an escape that is none")
    return chr(value)


def cooked(written):
    """What a string stands for, where the expander changes nothing (tree_expressions, Cooking: `cooked`)."""
    opening = OPENING.match(written)
    mark = opening.group(2)
    text = written[opening.end():-len(mark)]
    if len(mark) == 3:
        text = unindented(text)
    return ESCAPE.sub(unescaped, text) if mark[0] == '"' else text
