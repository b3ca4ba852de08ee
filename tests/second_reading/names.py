"""What expressions name and read, and where paths of names and overrides lead: definitions of meaning_rules over lists."""

import dataclasses

from meaning import closed, is_defined, keeps, modules, submodules_of
from syntax import Assignment, Call, Function, Interpreter, Recipe, Set, Value, Variable, shape

# An occurrence of a variable, or of a call with so many arguments (Naming: `Occurrence`).
OfVariable = shape("OfVariable", "name")
OfCall = shape("OfCall", "name count")
# An expression, and the parameters that it sees (Naming: `Part`).
Part = shape("Part", "sees said")

# How many arguments built-in functions take (Fixed: `counts_of`); `_dir` may stand for `_directory`.
NONE = (
    "arch", "cache_directory", "config_directory", "config_local_directory", "data_directory", "data_local_directory",
    "executable_directory", "home_directory", "invocation_directory", "invocation_directory_native", "is_dependency",
    "just_executable", "just_pid", "just_version", "justfile", "justfile_directory", "module_directory", "module_file",
    "module_path", "num_cpus", "num_jobs", "os", "os_family", "recipe_name", "runtime_directory", "source_directory",
    "source_file",
)
ONE = (
    "bool", "canonicalize", "capitalize", "encode_uri_component", "env_var", "error", "extension", "file_name", "file_stem",
    "len", "lowercase", "parent_directory", "path_exists", "quote", "read", "require", "show", "trim", "trim_end",
    "trim_start", "uppercase", "which", "without_extension",
)
ONE_OR_TWO = ("env", "join_list", "split")
TWO = (
    "append", "env_var_or_default", "prepend", "trim_end_match", "trim_end_matches", "trim_start_match",
    "trim_start_matches",
)
MANY = 2 ** 64
COUNTS = {
    **dict.fromkeys(NONE, range(0, 1)), **dict.fromkeys(ONE, range(1, 2)), **dict.fromkeys(ONE_OR_TWO, range(1, 3)),
    **dict.fromkeys(TWO, range(2, 3)), "join": range(2, MANY), "replace": range(3, 4), "shell": range(1, MANY),
}
COUNTS.update({name.replace("_directory", "_dir"): counts for name, counts in COUNTS.items()})
COLORS = ("BLACK", "RED", "GREEN", "YELLOW", "BLUE", "MAGENTA", "CYAN", "WHITE")
# Fixed: `constants`.
CONSTANTS = COLORS + tuple("BG_" + color for color in COLORS) + (
    "HEX", "HEXLOWER", "HEXUPPER", "PATH_SEP", "PATH_VAR_SEP", "CLEAR", "NORMAL", "BOLD", "ITALIC", "UNDERLINE", "INVERT",
    "HIDE", "STRIKETHROUGH",
)


# ---- what expressions name (Naming)


def inner(e):
    """The expressions directly in an expression, in order."""
    found = []
    for field in dataclasses.fields(e):
        value = getattr(e, field.name)
        found += value if isinstance(value, tuple) else [value]
    return [value for value in found if dataclasses.is_dataclass(value)]


def occurrences(e):
    """Naming: `occurrences`."""
    own = []
    if isinstance(e, Variable):
        own = [OfVariable(e.name)]
    if isinstance(e, Call):
        own = [OfCall(e.name, len(e.arguments))]
    return own + [occurrence for other in inner(e) for occurrence in occurrences(other)]


def parts(sees, expressions):
    return [Part(tuple(sees), e) for e in expressions if e is not None]


def option_of(attributes, name):
    """The `arg` for the parameter, or None (Fixed: `value_of`, `is_flag`)."""
    return next((one for one in attributes if one.name == "arg" and one.parameter == name), None)


def parts_of_parameters(recipe):
    """A default and the value of an `arg` see the earlier parameters (Naming: `parts_of_parameters`)."""
    found = []
    for place, parameter in enumerate(recipe.parameters):
        earlier = [other.name for other in recipe.parameters[:place]]
        option = option_of(recipe.attributes, parameter.name)
        found += parts(earlier, [parameter.default, option and option.value])
    return found


def parts_of_recipe(recipe):
    """Naming: `parts_of_recipe`."""
    every = [parameter.name for parameter in recipe.parameters]
    found = []
    for attribute in recipe.attributes:
        found += parts([] if attribute.name == "env" else every, attribute.values)
    found += parts_of_parameters(recipe)
    for dependency in recipe.priors + recipe.subsequents:
        found += parts(every, [e for e, _ in dependency.arguments])
    return found + parts(every, [piece for line in recipe.body for piece in line if not isinstance(piece, str)])


def parts_of(item):
    """The expressions of an item (Naming: `parts_of`)."""
    if isinstance(item, Assignment):
        return parts([], [item.value])
    if isinstance(item, Function):
        return parts(item.parameters, [item.body])
    if isinstance(item, Recipe):
        return parts_of_recipe(item)
    if isinstance(item, Set) and isinstance(item.value, Value):
        return parts([], [item.value.expression])
    if isinstance(item, Set) and isinstance(item.value, Interpreter):
        return parts([], item.value.expressions)
    return []


# ---- what definitions read (Reading)


def called(w, own, part):
    """The parts of the functions of the module that a part calls (Reading: `CallsFunction`)."""
    names = [occurrence.name for occurrence in occurrences(part.said) if isinstance(occurrence, OfCall)]
    functions = [keeps(w, own, "function", name) for name in names]
    return [part for function in functions if function for part in parts_of(function.item)]


def names_variables(w, own, part):
    """The variables of the module that a part names itself (Reading: `NamesVariable`)."""
    names = [occurrence.name for occurrence in occurrences(part.said) if isinstance(occurrence, OfVariable)]
    return [name for name in names if name not in part.sees and keeps(w, own, "variable", name)]


def part_reads(w, own, part):
    """The variables that a part reads, also through called functions (Reading: `PartReads`)."""
    every = closed([part], lambda one: called(w, own, one))
    return [name for one in every for name in names_variables(w, own, one)]


def kept_reads(w, own, name):
    """The variables that a variable reads (Reading: `KeptReads`)."""
    variable = keeps(w, own, "variable", name)
    return [other for part in parts_of(variable.item) for other in part_reads(w, own, part)] if variable else []


def is_cycle(names, step):
    """Whether each leads to the next, and the last is the first (Reading: `IsVariableCycle`; Depending: `IsRecipeCycle`)."""
    return len(names) > 1 and names[0] == names[-1] and all(after in step(one) for one, after in zip(names, names[1:]))


def cycles(starts, step):
    """The cycles in which nothing else stands twice."""
    walks = [[start] for start in starts]
    found = []
    while walks:
        walks = [walk + [after] for walk in walks for after in dict.fromkeys(step(walk[-1]))]
        found += [walk for walk in walks if walk[0] == walk[-1]]
        walks = [walk for walk in walks if len(set(walk)) == len(walk)]
    return found


# ---- where paths lead (Depending)


def leads_to(w, own, names):
    """The own files of the modules to which names of submodules lead (Depending: `LeadsTo`)."""
    owns = [own]
    for name in names:
        owns = [key for one in owns for other, key in submodules_of(w, one) if other == name]
    return owns


def is_module_path(w, own, path):
    """Depending: `IsModulePath`."""
    return leads_to(w, own, path) != []


def is_recipe_path(w, own, path):
    """Depending: `IsRecipePath`."""
    return any(is_defined(w, one, "recipe", path[-1]) for one in leads_to(w, own, path[:-1]))


def recipes_at(w, own, path):
    """The recipes to which a path leads, which are kept (Depending: `LeadsToRecipe`)."""
    found = [keeps(w, one, "recipe", path[-1]) for one in leads_to(w, own, path[:-1])]
    return [one.item for one in found if one]


def is_required(recipe, parameter):
    """Depending: `is_required`."""
    option = option_of(recipe.attributes, parameter.name)
    return parameter.default is None and parameter.kind != "*" and not (option and option.is_flag)


def takes(recipe, count):
    """Whether a recipe takes so many values (Depending: `takes`)."""
    required = sum(is_required(recipe, parameter) for parameter in recipe.parameters)
    is_open = bool(recipe.parameters) and recipe.parameters[-1].kind != ""
    return required <= count and (is_open or count <= len(recipe.parameters))


def depends_on(w, path, own, name):
    """The recipes on which one that is kept depends, by their modules' paths and their names (Depending: `DependsOn`)."""
    recipe = keeps(w, own, "recipe", name)
    listed = recipe.item.priors + recipe.item.subsequents if recipe else ()
    return [(path + one.path[:-1], one.path[-1]) for one in listed if recipes_at(w, own, one.path)]


# ---- overrides (Overriding)


def is_overridden(w, written):
    """Whether the override names a variable of a module (Overriding: `IsOverridden`)."""
    names = tuple(written.split("::"))
    return any(path == names[:-1] and is_defined(w, own, "variable", names[-1]) for path, own in modules(w))
