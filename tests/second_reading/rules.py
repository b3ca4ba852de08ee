"""Which rules a world breaks, with the fields of each as they are told: `Breaks` and `Broken` of meaning_rules, Rules."""

import collections

from meaning import (
    are_said, closed, disabled, files_of, imports_of, is_clean, is_enabled, is_on, kept, keeps, key_from, may_mean, modules,
    modules_in, named, neighbours, owns, reached, submodules, twice,
)
from names import (
    CONSTANTS, COUNTS, OfCall, OfVariable, cycles, depends_on, inner, is_cycle, is_module_path, is_overridden,
    is_recipe_path, kept_reads, leads_to, occurrences, parts_of, recipes_at, takes,
)
from syntax import Assertion, Assignment, Binary, Choice, Function, Import, Listing, Negation, Recipe, Set, Unexport

Rule = collections.namedtuple("Rule", "name fields")

# Rules on single files and where they lead (`is_of_files`), other rules of sources, and rules of names (`is_of_sources`).
OF_FILES = ("missing root", "missing import", "circular import", "missing module", "ambiguous module")
OF_SOURCES = OF_FILES + (
    "redefinition", "duplicate variable", "duplicate set", "duplicate unexport", "export unexported",
    "unknown alias target", "unstable feature", "lists needed", "cache left out", "attribute conflict",
    "extra leading whitespace", "guard and infallible",
)
OF_NAMES = (
    "undefined variable", "unknown function", "function argument count", "circular variable", "unknown dependency",
    "circular recipe", "dependency argument count", "unknown override", "module as recipe",
)
CONFLICTS = (("no-cd", "working-directory"), ("exit-message", "no-exit-message"))
DUPLICATES = {"setting": "duplicate set", "unexport": "duplicate unexport", "variable": "duplicate variable"}


def rule(name, *fields):
    """A rule with its fields as they are told: paths with `::` between their names, and numbers by their digits."""
    return Rule(name, tuple("::".join(field) if isinstance(field, tuple) else str(field) for field in fields))


def has(item, name):
    return any(attribute.name == name for attribute in item.attributes)


def items_in(w, own):
    """The items in the files of a module (`InModule`)."""
    return [item for file in files_of(w, own) for _, item in w.has(file)]


def standing(w, own):
    """The same without those for another system (`Stands`)."""
    return [item for item in items_in(w, own) if is_enabled(item)]


def standing_recipes(w, own):
    return [item for item in standing(w, own) if isinstance(item, Recipe)]


# ---- single files, and where they lead


def of_root(w):
    if not is_clean(w.root) or not w.there(w.root):
        yield rule("missing root", w.root)


def of_imports(w):
    for file in reached(w):
        for _, item in w.has(file):
            if isinstance(item, Import) and not item.optional:
                key = key_from(file, item.path)
                if key is None or not w.there(key):
                    yield rule("missing import", item.path if key is None else key)


def of_rounds(w):
    """`IsRound`: by imports alone, or by a submodule and then by both."""
    for current in reached(w):
        for other in imports_of(w, current):
            if current in files_of(w, other):
                yield rule("circular import", current, other)
        for _, other in submodules(w, current):
            if current in closed([other], lambda file: neighbours(w, file)):
                yield rule("circular import", current, other)


def of_modules(w):
    for file in reached(w):
        for module in modules_in(w, file):
            keys = may_mean(w, file, module)
            if not keys and not module.optional:
                yield rule("missing module", module.name)
            if len(keys) > 1:
                yield rule("ambiguous module", module.name, *keys)


# ---- definitions


def of_names_twice(w, own):
    for kind, name in twice(w, own):
        yield rule(DUPLICATES.get(kind, "redefinition"), name)


def of_exports(w, own):
    unexports = [item.name for item in items_in(w, own) if isinstance(item, Unexport)]
    for item in standing(w, own):
        if isinstance(item, Assignment) and item.export and item.name in unexports:
            yield rule("export unexported", item.name)


def of_aliases(w, own):
    for one in kept(w, own, "alias"):
        target = one.item.target
        if is_module_path(w, own, target):
            yield rule("module as recipe", target)
        elif not is_recipe_path(w, own, target):
            yield rule("unknown alias target", one.name, target)


# ---- features


def unstable_of(item):
    """The features that an item uses and that have to be asked for (`UsesUnstable`)."""
    if isinstance(item, Function):
        yield "defined functions"
    if isinstance(item, Recipe) and has(item, "cache"):
        yield "[cache]"
    if isinstance(item, Set) and item.name == "lists":
        yield "lists"


def of_unstable(w, own):
    for item in items_in(w, own):
        for feature in unstable_of(item):
            if not is_on(w, own, "unstable"):
                yield rule("unstable feature", feature)


def own_lists(is_condition, e):
    """The features of lists that an expression itself is."""
    if isinstance(e, Listing):
        return ["list literal"]
    if isinstance(e, Negation):
        return ["!"]
    if isinstance(e, Choice) and e.otherwise is None:
        return ["if without else"]
    if isinstance(e, Binary) and e.operator == "++":
        return ["++"]
    is_comparison = isinstance(e, Binary) and e.operator in ("==", "!=", "=~", "!~")
    return ["comparison"] if is_comparison and not is_condition else []


def lists_in(is_condition, e):
    """The features of lists that an expression uses, which is or isn't a condition (`lists_in`)."""
    found = own_lists(is_condition, e)
    for place, other in enumerate(inner(e)):
        found += lists_in(isinstance(e, (Choice, Assertion)) and place == 0, other)
    return found


def lists_of(item):
    """The features of lists that an item uses (`UsesList`)."""
    found = [feature for part in parts_of(item) for feature in lists_in(False, part.said)]
    if isinstance(item, Recipe):
        found += ["starred argument" for one in item.priors + item.subsequents for _, starred in one.arguments if starred]
    return found


def of_lists(w, own):
    for item in standing(w, own):
        for feature in lists_of(item):
            if not is_on(w, own, "lists"):
                yield rule("lists needed", feature)


# ---- recipes


def first_of(line):
    """The text with which a line begins, if it does."""
    return line[0] if line and isinstance(line[0], str) else ""


def last_of(line):
    return line[-1] if line and isinstance(line[-1], str) else ""


def begins_shebang(recipe):
    return bool(recipe.body) and first_of(recipe.body[0]).startswith("#!")


def is_script(w, own, recipe):
    """`IsScript`."""
    return is_on(w, own, "default-script") or has(recipe, "script") or begins_shebang(recipe)


def own_lines(recipe):
    """The lines that don't go on with the one before (`IsOwnLine`)."""
    return [
        line for place, line in enumerate(recipe.body) if place == 0 or not last_of(recipe.body[place - 1]).endswith("\\")
    ]


def sigils_of(text):
    """The marks at the front of a text, each once (tree_items, Lines: `read_sigils`)."""
    found = ""
    for letter in text:
        if letter not in "@-?" or letter in found:
            break
        found += letter
    return found


def of_lines(w, own):
    """`IsBodyFault`."""
    for recipe in standing_recipes(w, own):
        for line in [] if is_script(w, own, recipe) else own_lines(recipe):
            if first_of(line).startswith((" ", "\t")):
                yield rule("extra leading whitespace")
            if is_on(w, own, "guards") and {"?", "-"} <= set(sigils_of(first_of(line))):
                yield rule("guard and infallible")


def of_attributes(w, own):
    for recipe in standing_recipes(w, own):
        if has(recipe, "cache"):
            yield rule("cache left out", recipe.name)
        for one, other in CONFLICTS:
            if has(recipe, one) and has(recipe, other):
                yield rule("attribute conflict", recipe.name, one, other)
        if has(recipe, "script") and begins_shebang(recipe):
            yield rule("attribute conflict", recipe.name, "script", "#!")


# ---- names


def looked_at(w, own):
    """Each occurrence in what a module keeps, with the parameters that are seen there (`IsLooked`, `HasPart`)."""
    return [
        (part.sees, occurrence)
        for one in kept(w, own) for part in parts_of(one.item) for occurrence in occurrences(part.said)
    ]


def of_variables(w, own):
    for sees, occurrence in looked_at(w, own):
        if isinstance(occurrence, OfVariable):
            name = occurrence.name
            if name not in sees and not named(w, own, "variable", name) and name not in CONSTANTS:
                yield rule("undefined variable", name)


def of_calls(w, own):
    for _, occurrence in looked_at(w, own):
        if isinstance(occurrence, OfCall):
            name, count = occurrence.name, occurrence.count
            function = keeps(w, own, "function", name)
            if not function and name not in COUNTS:
                yield rule("unknown function", name)
            elif count not in ([len(function.item.parameters)] if function else COUNTS[name]):
                yield rule("function argument count", name, count)


def of_variable_cycles(w, own):
    names = [one.name for one in kept(w, own, "variable")]
    for cycle in cycles(names, lambda name: kept_reads(w, own, name)):
        yield rule("circular variable", *cycle)


# ---- dependencies


def disabled_at(w, own, path):
    """The recipe of the path that another system disables, the first in reading order (`FirstDisabledTakesOther`).

    There is one for each module to which the path leads.
    """
    rows = [[row.item for row in disabled(w, one) if row.name == path[-1]] for one in leads_to(w, own, path[:-1])]
    return [row[0] for row in rows if row]


def of_dependency(w, own, recipe, dependency, is_disabled):
    """What is wrong with a dependency of a recipe that is kept, or of one that is disabled (`Misses`, `MissesAll`)."""
    path, count = dependency.path, len(dependency.arguments)
    others = disabled_at(w, own, path) if is_disabled else []
    is_known = is_recipe_path(w, own, path) or is_module_path(w, own, path)
    if is_module_path(w, own, path):
        yield rule("module as recipe", path)
    if not is_known and not others:
        yield rule("unknown dependency", recipe.name, path)
    for other in recipes_at(w, own, path) + ([] if is_known else others):
        if not takes(other, count):
            yield rule("dependency argument count", recipe.name, path, count)


def of_dependencies(w, own):
    rows = [(one.item, False) for one in kept(w, own, "recipe")] + [(one.item, True) for one in disabled(w, own)]
    for recipe, is_disabled in rows:
        for dependency in recipe.priors + recipe.subsequents:
            yield from of_dependency(w, own, recipe, dependency, is_disabled)


def recipe_step(w):
    """From a recipe, by its module's path and its name, to those on which it depends."""
    return lambda one: [after for path, own in modules(w) if path == one[0] for after in depends_on(w, path, own, one[1])]


def of_recipe_cycles(w):
    starts = [(path, one.name) for path, own in modules(w) for one in kept(w, own, "recipe")]
    for cycle in cycles(starts, recipe_step(w)):
        yield rule("circular recipe", *[name for _, name in cycle])


def of_overrides(w, overrides):
    for written in overrides:
        if not is_overridden(w, written):
            yield rule("unknown override", written)


# ---- all of them

BY_FILE = (of_root, of_imports, of_rounds, of_modules)
BY_MODULE = (
    of_names_twice, of_exports, of_aliases, of_unstable, of_lists, of_lines, of_attributes, of_variables, of_calls,
    of_variable_cycles, of_dependencies,
)


def broken(w, overrides):
    """The rules that are broken under these overrides (`Broken`), but for the one on constants.

    Of cycles there are those in which nothing stands twice.
    """
    found = [one for of in BY_FILE for one in of(w)]
    if are_said(w):
        found += [one for own in owns(w) for of in BY_MODULE for one in of(w, own)]
        found += list(of_recipe_cycles(w)) + list(of_overrides(w, overrides))
    return list(dict.fromkeys(found))


def is_broken(w, overrides, told):
    """Whether a rule is broken with just these fields."""
    if told.name == "circular variable":
        return are_said(w) and any(is_cycle(told.fields, lambda name: kept_reads(w, own, name)) for own in owns(w))
    if told.name == "circular recipe":
        # What a recipe depends on stands in its module or below it, so a cycle stands in one module.
        walks = [[(path, name) for name in told.fields] for path, _ in modules(w)]
        return are_said(w) and any(is_cycle(walk, recipe_step(w)) for walk in walks)
    return told in broken(w, overrides)
