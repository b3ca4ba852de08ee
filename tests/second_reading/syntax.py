"""Justfiles as items: expressions (tree_expressions, Shape), attributes, recipes and items (tree_items, Files)."""

import dataclasses

from tokens import BLANK_LINE, COMMENT, COMMENT_LINES, Scanner, Unread, cooked

# How loosely an operator binds, and what may stand on its left and its right (parse_expressions, Operators).
RANKS = {
    "||": (6, 5, 6), "&&": (5, 4, 5), "==": (4, 3, 3), "!=": (4, 3, 3), "=~": (4, 3, 3), "!~": (4, 3, 3),
    "++": (3, 2, 3), "+": (2, 1, 2), "/": (2, 1, 2),
}
VALUE_SETTINGS = ("dotenv-command", "dotenv-filename", "dotenv-path", "tempdir", "working-directory")
INTERPRETER_SETTINGS = ("script-interpreter", "shell", "windows-shell")
STRING_SETTINGS = ("indentation", "minimum-version")
TRUTH_SETTINGS = (
    "allow-duplicate-recipes", "allow-duplicate-variables", "default-list", "default-script", "dotenv-load",
    "dotenv-override", "dotenv-required", "export", "fallback", "guards", "ignore-comments", "lazy", "lists", "no-cd",
    "no-exit-message", "positional-arguments", "quiet", "share-subsequents", "unstable", "windows-powershell",
)
EXPRESSION_ATTRIBUTES = ("confirm", "env", "script")
STRING_ATTRIBUTES = ("doc", "extension", "group", "metadata", "working-directory")
SYSTEM_ATTRIBUTES = ("android", "dragonfly", "freebsd", "linux", "macos", "netbsd", "openbsd", "unix", "windows")
PLAIN_ATTRIBUTES = SYSTEM_ATTRIBUTES + (
    "cache", "default", "exit-message", "no-cd", "no-exit-message", "no-quiet", "parallel", "positional-arguments",
    "private",
)


def shape(name, fields):
    """A class of values, which are equal where their fields are."""
    return dataclasses.make_dataclass(name, fields.split(), frozen=True)


# Expressions.
Literal = shape("Literal", "written")
Command = shape("Command", "written")
Format = shape("Format", "parts")
Variable = shape("Variable", "name")
Call = shape("Call", "name arguments")
# The message is None where there is none.
Assertion = shape("Assertion", "condition message")
Group = shape("Group", "inner")
Listing = shape("Listing", "elements")
# What comes otherwise is None where there is no `else`.
Choice = shape("Choice", "condition then otherwise")
Negation = shape("Negation", "inner")
Rooted = shape("Rooted", "inner")
Binary = shape("Binary", "operator left right")

# An attribute: its name, its expressions, and the options of an `arg` with the parameter that they are for.
Attribute = shape("Attribute", "name values parameter is_flag value")
# The kind of a parameter is `+`, `*` or empty.
Parameter = shape("Parameter", "kind name default")
# Each argument is an expression, and whether it has a star.
Dependency = shape("Dependency", "path arguments")
# Values of settings.
Truth = shape("Truth", "value")
Value = shape("Value", "expression")
Interpreter = shape("Interpreter", "expressions")
String = shape("String", "written")

# Items, each with the line of its name.
Alias = shape("Alias", "line attributes name target")
Assignment = shape("Assignment", "line attributes export name value")
Comment = shape("Comment", "line attributes text")
Function = shape("Function", "line attributes name parameters body")
Import = shape("Import", "line attributes optional path")
Module = shape("Module", "line attributes optional name path")
# A line of a body is a row of texts and expressions.
Recipe = shape("Recipe", "line attributes name parameters priors subsequents body")
Set = shape("Set", "line attributes name value")
Unexport = shape("Unexport", "line attributes name")


class Words:
    """Tokens that are taken from the front. A file that goes on otherwise than is expected is refused as unread."""

    def __init__(self, tokens):
        self.tokens = list(tokens)

    def kind(self, place=0):
        """The kind of the token at a place, or nothing behind the last."""
        return self.tokens[place].kind if place < len(self.tokens) else ""

    def text(self, place=0):
        return self.tokens[place].text if place < len(self.tokens) else ""

    def accept(self, kind):
        """The token that comes, if it is of the kind."""
        return self.tokens.pop(0) if self.kind() == kind else None

    def expect(self, kind):
        token = self.accept(kind)
        if token is None:
            raise Unread(f"{self.text() or 'the end'} in place of {kind}")
        return token

    def keyword(self, text):
        """Whether that name comes, which is taken."""
        return self.text() == text and self.accept("name") is not None

    def name(self):
        return self.expect("name").text

    def ends(self, place=0):
        """Whether a line ends at the place, perhaps after a comment."""
        return self.kind(place) == "" or self.kind(place) == "comment"

    def end(self):
        if not self.ends():
            raise Unread(f"{self.text()} at the end of a line")

    def row(self, closing, element):
        """Elements up to the closing mark, a comma after each, which the last may lack."""
        found = []
        while not self.accept(closing):
            found.append(element())
            if not self.accept(","):
                self.expect(closing)
                break
        return tuple(found)


# ---- expressions (parse_expressions, Grammar)


def expression(words, rank=6):
    """An expression that binds no looser than the rank."""
    if rank >= 1 and words.accept("!"):
        left, own = Negation(expression(words, 1)), 1
    elif rank >= 2 and words.accept("/"):
        left, own = Rooted(expression(words, 2)), 2
    else:
        left, own = primary(words), 0
    while True:
        operator = words.kind()
        binds, left_rank, right_rank = RANKS.get(operator, (7, 0, 0))
        if binds > rank or own > left_rank:
            return left
        words.expect(operator)
        left, own = Binary(operator, left, expression(words, right_rank)), binds


def primary(words):
    """An expression without operators outside of brackets."""
    if words.kind() == "name":
        return named(words)
    if words.accept("("):
        inner = expression(words)
        words.expect(")")
        return Group(inner)
    if words.accept("["):
        return Listing(words.row("]", lambda: expression(words)))
    if words.kind() == "string":
        return Literal(words.expect("string").text)
    if words.kind() == "command":
        return Command(words.expect("command").text)
    return Format(tuple(whole(tokens) for tokens in words.expect("format").inner))


def whole(tokens):
    """The expression that all of these tokens are."""
    words = Words(tokens)
    found = expression(words)
    if words.kind():
        raise Unread(f"{words.text()} after an expression")
    return found


def named(words):
    """A choice, a call or a variable."""
    name = words.name()
    if name == "if":
        return choice(words)
    if not words.accept("("):
        return Variable(name)
    if name != "assert":
        return Call(name, words.row(")", lambda: expression(words)))
    parts = words.row(")", lambda: expression(words))
    if len(parts) not in (1, 2):
        raise Unread("an assertion without a condition")
    return Assertion(parts[0], parts[1] if len(parts) == 2 else None)


def choice(words):
    """What stands after `if`."""
    condition = expression(words)
    then = braced(words)
    if not words.keyword("else"):
        return Choice(condition, then, None)
    return Choice(condition, then, choice(words) if words.keyword("if") else braced(words))


def braced(words):
    words.expect("{")
    inner = expression(words)
    words.expect("}")
    return inner


# ---- attributes (parse_attributes, Lines)


def attributes_of(scanner):
    """The attributes that come here, line by line."""
    found = []
    while scanner.begins("["):
        words = Words(scanner.code())
        words.expect("[")
        found += words.row("]", lambda: attribute(words))
        words.end()
        scanner.take(COMMENT_LINES)
    return tuple(found)


def attribute(words):
    name = words.name()
    if name == "arg":
        return with_options(words)
    values = ()
    if name in EXPRESSION_ATTRIBUTES:
        values = arguments(words, lambda: expression(words))
    elif name in STRING_ATTRIBUTES:
        arguments(words, lambda: words.expect("string"))
    elif name not in PLAIN_ATTRIBUTES:
        raise Unread(f"the attribute {name}")
    return Attribute(name, values, None, False, None)


def arguments(words, element):
    """A string after a colon, or a row in parentheses, or nothing."""
    if words.accept(":"):
        return (Literal(words.expect("string").text),)
    return words.row(")", element) if words.accept("(") else ()


def with_options(words):
    """The rest of an `arg`."""
    words.expect("(")
    parameter = cooked(words.expect("string").text)
    options = {}
    if words.accept(","):
        options = dict(words.row(")", lambda: option(words)))
    else:
        words.expect(")")
    return Attribute("arg", (), parameter, "flag" in options, options.get("value"))


def option(words):
    """The name of an option, and its expression where it is `value`."""
    name = words.name()
    if not words.accept("="):
        return name, None
    return name, expression(words) if name == "value" else words.expect("string")


# ---- recipes (parse_recipes, Headers)


def path_of(words):
    names = [words.name()]
    while words.accept("::"):
        names.append(words.name())
    return tuple(names)


def parameters_of(words):
    found = []
    while words.kind() in ("+", "*", "$", "name"):
        found.append(parameter(words))
    return tuple(found)


def parameter(words):
    kind = words.kind() if words.kind() in ("+", "*") else ""
    words.accept(kind)
    words.accept("$")
    name = words.name()
    return Parameter(kind, name, expression(words, 0) if words.accept("=") else None)


def dependencies_of(words):
    found = []
    while words.kind() in ("(", "name"):
        found.append(dependency(words))
    return tuple(found)


def dependency(words):
    if not words.accept("("):
        return Dependency(path_of(words), ())
    path = path_of(words)
    found = []
    while not words.accept(")"):
        starred = words.accept("*") is not None
        found.append((expression(words), starred))
    return Dependency(path, tuple(found))


def recipe(words, attributes, scanner):
    words.accept("@")
    token = words.expect("name")
    parameters = parameters_of(words)
    words.expect(":")
    priors = dependencies_of(words)
    is_followed = words.accept("&&") is not None
    subsequents = dependencies_of(words) if is_followed else ()
    if is_followed and not subsequents:
        raise Unread("nothing behind `&&`")
    words.end()
    body = tuple(tuple(piece if isinstance(piece, str) else whole(piece) for piece in line) for line in scanner.body())
    return Recipe(token.line, attributes, token.text, parameters, priors, subsequents, body)


# ---- items (parse_items, Items and Reading)


def kind_of_item(words):
    """What the item is, by its first words."""
    if words.kind() != "name":
        return "recipe"
    first, second = words.text(), words.kind(1)
    if second == ":=":
        return "assignment"
    if second == "(":
        return "function"
    if first == "import" and second in ("string", "?"):
        return "import"
    if first == "mod" and second == "?":
        return "mod"
    return kind_by_two(words, first) if second == "name" else "recipe"


def kind_by_two(words, first):
    """The same where two names come first."""
    if words.kind(2) == ":=":
        return {"export": "assignment", "eager": "assignment", "alias": "alias", "set": "set"}.get(first, "recipe")
    if words.ends(2):
        return first if first in ("set", "unexport", "mod") else "recipe"
    if words.kind(2) == "string" and first == "mod":
        return "mod"
    is_worded = {first, words.text(1)} == {"export", "eager"}
    return "assignment" if is_worded and (words.kind(2), words.kind(3)) == ("name", ":=") else "recipe"


def alias(words, attributes):
    words.name()
    token = words.expect("name")
    words.expect(":=")
    return Alias(token.line, attributes, token.text, path_of(words))


def assignment(words, attributes):
    export = False
    while words.kind(1) != ":=":
        export = words.name() == "export" or export
    token = words.expect("name")
    words.expect(":=")
    return Assignment(token.line, attributes, export, token.text, expression(words))


def function(words, attributes):
    token = words.expect("name")
    words.expect("(")
    parameters = words.row(")", words.name)
    words.expect(":=")
    return Function(token.line, attributes, token.text, parameters, expression(words))


def imported(words, attributes):
    token = words.expect("name")
    optional = words.accept("?") is not None
    return Import(token.line, attributes, optional, cooked(words.expect("string").text))


def module(words, attributes):
    words.name()
    optional = words.accept("?") is not None
    token = words.expect("name")
    path = cooked(words.expect("string").text) if words.kind() == "string" else None
    return Module(token.line, attributes, optional, token.text, path)


def setting(words, attributes):
    words.name()
    token = words.expect("name")
    return Set(token.line, attributes, token.text, value_of_setting(words, token.text))


def value_of_setting(words, name):
    """The value in the form that the setting has (parse_items, Names: `forms`)."""
    if name in TRUTH_SETTINGS:
        text = words.name() if words.accept(":=") else "true"
        if text not in ("true", "false"):
            raise Unread(f"the truth value {text}")
        return Truth(text == "true")
    words.expect(":=")
    if name in VALUE_SETTINGS:
        return Value(expression(words))
    if name in INTERPRETER_SETTINGS:
        words.expect("[")
        return Interpreter(words.row("]", lambda: expression(words)))
    if name in STRING_SETTINGS:
        return String(words.expect("string").text)
    raise Unread(f"the setting {name}")


def unexport(words, attributes):
    words.name()
    token = words.expect("name")
    return Unexport(token.line, attributes, token.text)


ITEMS = {
    "alias": alias, "assignment": assignment, "function": function, "import": imported, "mod": module, "set": setting,
    "unexport": unexport,
}


def item_of(scanner):
    """The comment or item that comes here."""
    line = scanner.text.count("\n", 0, scanner.at) + 1
    if scanner.begins("#"):
        text = scanner.take(COMMENT)
        scanner.takes("\n")
        return Comment(line, (), text)
    if scanner.begins((" ", "\t")):
        raise Unread(f"white space before line {line}")
    attributes = attributes_of(scanner)
    words = Words(scanner.code())
    kind = kind_of_item(words)
    if kind == "recipe":
        return recipe(words, attributes, scanner)
    item = ITEMS[kind](words, attributes)
    words.end()
    return item


def items_of(text):
    """The items of a file in order, without blank lines."""
    scanner = Scanner(text)
    items = []
    while not scanner.is_over():
        if BLANK_LINE.match(scanner.text, scanner.at):
            scanner.take(BLANK_LINE)
        else:
            items.append(item_of(scanner))
    return items
