"""Worlds, reached files, modules, reading orders, and what modules keep: the definitions of meaning_rules/Worlds over lists.

A set that is closed under something is made by going round until nothing is new.
"""

import collections

from syntax import Alias, Assignment, Function, Import, Module, Recipe, SYSTEM_ATTRIBUTES, Set, Truth, Unexport, items_of

# A definition of a module: its kind and name, the file and the place in it, and the item.
Definition = collections.namedtuple("Definition", "kind name key place item")
# Which names are told apart (Keeping: `space_of`).
SPACES = {
    "alias": "recipes", "function": "functions", "recipe": "recipes", "setting": "settings", "submodule": "recipes",
    "variable": "variables", "unexport": "unexports",
}


class World:
    """What the rules look at (Given: `World`): which files there are, and what they say. The system is Linux."""

    def __init__(self, root, texts):
        self.root = root
        self.texts = texts
        self.items = {}

    def there(self, key):
        return key in self.texts

    def said(self, key):
        """The items of the file, or None where there is no file. A text that can't be read is refused."""
        if key in self.texts and key not in self.items:
            self.items[key] = items_of(self.texts[key])
        return self.items.get(key)

    def has(self, key):
        """Each item of the file with its place (Sources: `Has`)."""
        return list(enumerate(self.said(key) or []))


def closed(start, step):
    """The least list with these elements that is closed under the step."""
    found = list(start)
    while True:
        new = [other for one in found for other in step(one) if other not in found]
        if not new:
            return found
        found += dict.fromkeys(new)


# ---- paths (modules_compilation, Paths)


def is_clean(path):
    return all(part not in ("", ".", "..") for part in path.split("/"))


def front(text):
    return next((mark for mark in ("/", "~/") if text.startswith(mark)), "")


def parts_from(file, path):
    """The folders and the name to which the path leads from the file's folder, or None."""
    folder = []
    for part in file[len(front(file)):].split("/")[:-1] + path.split("/"):
        if part == ".." and not folder:
            return None
        if part == "..":
            folder = folder[:-1]
        elif part not in ("", "."):
            folder = folder + [part]
    return folder


def key_from(file, path):
    """The key that a path names in a file, or None."""
    if front(path):
        return path
    parts = parts_from(file, path)
    return front(file) + "/".join(parts) if parts else None


def folder_from(file, path):
    """The folder that a path names in a file, as the text before the names in it, or None."""
    if front(path):
        return path + "/"
    parts = parts_from(file, path)
    return None if parts is None else front(file) + "".join(part + "/" for part in parts)


# ---- files (Sources)


def is_enabled(item):
    """Whether no attribute names a system, or one names this one or its family (Sources: `enabled`)."""
    systems = [one.name for one in item.attributes if one.name in SYSTEM_ATTRIBUTES]
    return not systems or "unix" in systems or "linux" in systems


def imports_of(w, file):
    """The files that a file imports, in their order (Modules: `imports_of`)."""
    keys = [key_from(file, item.path) for _, item in w.has(file) if isinstance(item, Import)]
    return [key for key in keys if key is not None and w.there(key)]


def leads(w, own, count):
    """The files to which so many imports lead (Sources: `Leads`)."""
    files = [own]
    for _ in range(count):
        files = list(dict.fromkeys(other for file in files for other in imports_of(w, file)))
    return files


def files_of(w, own):
    """The files of the module with that file as its own (Sources: `IsFileOf`)."""
    return closed([own], lambda file: imports_of(w, file))


def depth(w, own, file):
    """The least number of imports that lead to a file of the module (Sources: `IsDepth`)."""
    return next(count for count in range(len(w.texts) + 1) if file in leads(w, own, count))


def is_in_folder(file, path, key):
    """Whether the key stands for the folder that the path names (Sources: `InFolder`)."""
    folder = folder_from(file, path)
    if folder is None or not key.startswith(folder):
        return False
    name = key[len(folder):]
    return name == "mod.just" or name.lower() in ("justfile", ".justfile")


def may(w, file, module, key):
    """Whether the file at the key is named (Sources: `May`)."""
    if module.path is None:
        return key_from(file, module.name + ".just") == key or is_in_folder(file, module.name, key)
    named = key_from(file, module.path)
    is_no_key = named is None or not w.there(named)
    return named == key or is_no_key and is_in_folder(file, module.path, key)


def may_mean(w, file, module):
    """The files that a submodule may mean, in byte order (Sources: `MayMean`)."""
    return [key for key in sorted(w.texts) if may(w, file, module, key)]


def modules_in(w, file):
    """The enabled submodules that stand in a file, whatever they mean (Sources: `HasModule`)."""
    return [item for _, item in w.has(file) if isinstance(item, Module) and is_enabled(item)]


def submodules(w, file):
    """The names of a file's submodules that may mean one file, each with it (Sources: `IsSubmodule`)."""
    rows = [(module.name, may_mean(w, file, module)) for module in modules_in(w, file)]
    return [(name, keys[0]) for name, keys in rows if len(keys) == 1]


def neighbours(w, file):
    """The files to which an import or a submodule leads."""
    return imports_of(w, file) + [key for _, key in submodules(w, file)]


def reached(w):
    """The reached files (Sources: `Reached`)."""
    return closed([w.root], lambda file: neighbours(w, file))


def are_said(w):
    """Whether each file that is reached says something (Sources: `AreSaid`)."""
    return all(w.said(key) is not None for key in reached(w))


# ---- modules (Modules, Order)


def submodules_of(w, own):
    """The names of a module's submodules, each with its file."""
    return [row for file in files_of(w, own) for row in submodules(w, file)]


def modules_below(w, path, own, above):
    """The module and those below it, in order of their names; none below a file that is one of those above."""
    found = [(path, own)]
    if own not in above:
        for name, key in sorted(submodules_of(w, own)):
            found += modules_below(w, path + (name,), key, above + (own,))
    return found


def modules(w):
    """The path of each module with its own file (Modules: `IsModule`).

    Where a file is a module below itself there are more paths, of the same files.
    """
    return list(dict.fromkeys(modules_below(w, (), w.root, ())))


def owns(w):
    """The files that modules have as their own."""
    return list(dict.fromkeys(own for _, own in modules(w)))


def first_texts(texts):
    """Each text where it stands first."""
    return list(dict.fromkeys(texts))


def is_in_order(w, own, files):
    """Whether the files stand in reading order (Order: `IsInOrder`)."""
    imported = [key for file in files for key in imports_of(w, file)]
    is_whole = files[0] == own and files == first_texts([own] + imported)
    return is_whole and all(
        any(file in imports_of(w, other) for other in files[:place]) for place, file in enumerate(files) if place > 0
    )


def reading_order(w, own):
    """The module's files in reading order (Modules: `IsReadingOrder`), by going round until nothing changes."""
    files = [own]
    for _ in range(len(w.texts) + 1):
        files = first_texts([own] + [key for file in files for key in imports_of(w, file)])
    return files


# ---- definitions (Keeping)

KINDS = {
    Alias: "alias", Assignment: "variable", Function: "function", Module: "submodule", Recipe: "recipe", Set: "setting",
    Unexport: "unexport",
}


def defined_by(item):
    """The kind of what an item defines, or None (Keeping: `defined_by`)."""
    return KINDS.get(type(item)) if is_enabled(item) else None


def is_taken(w, file, item):
    """Whether the file of a submodule is there (Keeping: `IsTaken`)."""
    return not isinstance(item, Module) or may_mean(w, file, item) != []


def definitions(w, own):
    """The definitions in the files of a module (Keeping: `Defines`)."""
    return [
        Definition(defined_by(item), item.name, key, place, item)
        for key in files_of(w, own) for place, item in w.has(key) if defined_by(item) and is_taken(w, key, item)
    ]


def named(w, own, kind, name):
    """The definitions of the kind and name."""
    return [one for one in definitions(w, own) if (one.kind, one.name) == (kind, name)]


def is_defined(w, own, kind, name):
    """Keeping: `IsDefined`."""
    return named(w, own, kind, name) != []


def is_on(w, own, name):
    """Whether a setting that is not dropped is true (Keeping: `IsOn`)."""
    return any(one.item.value == Truth(True) for one in named(w, own, "setting", name))


def may_both(w, own, kind, other):
    """Whether two definitions of these kinds may have one name (Keeping: `MayBoth`)."""
    if (kind, other) == ("recipe", "recipe"):
        return is_on(w, own, "allow-duplicate-recipes")
    return (kind, other) == ("variable", "variable") and is_on(w, own, "allow-duplicate-variables")


def twice(w, own):
    """The kinds and names of which a module has two definitions, where it may have one (Keeping: `IsTwice`)."""
    rows = definitions(w, own)
    return [
        (one.kind, one.name) for one in rows for other in rows
        if one.name == other.name and SPACES[one.kind] == SPACES[other.kind]
        and (one.key, one.place) != (other.key, other.place) and not may_both(w, own, one.kind, other.kind)
    ]


def keeps(w, own, kind, name):
    """The definition that a module keeps, or None (Keeping: `KeepsAt`).

    It is in the first file in reading order that has one the last.
    """
    rows = named(w, own, kind, name)
    for key in reading_order(w, own):
        places = [one for one in rows if one.key == key]
        if places:
            return max(places, key=lambda one: one.place)
    return None


def kept(w, own, kind=None):
    """All definitions that a module keeps, or those of a kind, in byte order of their names."""
    names = {(one.kind, one.name) for one in definitions(w, own) if kind in (None, one.kind)}
    return [keeps(w, own, *row) for row in sorted(names)]


def disabled(w, own):
    """The recipes that another system disables, by name, file and place (Keeping: `IsDisabled`; Compiled: `AreDisabled`)."""
    files = reading_order(w, own)
    rows = [
        (item.name, files.index(key), place, key, item)
        for key in files for place, item in w.has(key) if isinstance(item, Recipe) and not is_enabled(item)
    ]
    rows.sort(key=lambda row: row[:3])
    return [Definition("recipe", name, key, place, item) for name, _, place, key, item in rows]
