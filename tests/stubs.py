"""Compares the stubs of the Python package with the package: whether each says the same names, parameters, defaults,
bases and fields as the other. Run in a Python that has the package, it prints a line for each difference, and how many
names it compared.

usage: stubs.py"""
import ast, inspect, sys


def is_public(name):
    return not name.startswith("_") or (name.startswith("__") and name.endswith("__"))


def parameters_of(node):
    """The parameters of a function in the stubs: the name, the kind, and whether there is a default."""
    given, kinds = node.args, inspect.Parameter
    first = given.posonlyargs + given.args
    missing = len(first) - len(given.defaults)
    found = [(it.arg, kinds.POSITIONAL_OR_KEYWORD, at >= missing) for at, it in enumerate(first)]
    found += [(it.arg, kinds.VAR_POSITIONAL, False) for it in [given.vararg] if it]
    return found + [(it.arg, kinds.KEYWORD_ONLY, default is not None)
                    for it, default in zip(given.kwonlyargs, given.kw_defaults)]


def parameters_in(function):
    """The same of a function of the package."""
    there = inspect.signature(function).parameters.values()
    return [(it.name, it.kind, it.default is not it.empty) for it in there]


def types_of(node):
    """The parameters of a function in the stubs that have no type, and its result if that has none."""
    given = node.args
    named = [*given.posonlyargs, *given.args, *([given.vararg] if given.vararg else []), *given.kwonlyargs]
    without = [it.arg for it in named if it.annotation is None and it.arg != "self"]
    return without + (["return"] if node.returns is None else [])


def in_function(name, node, there):
    """Differences of a function."""
    found, wanted = parameters_of(node), parameters_in(there)
    if found != wanted:
        yield f"{name}: {found} in the stubs, {wanted} in the package"
    for it in types_of(node):
        yield f"{name}: {it} has no type"


def in_tuple(name, node, there):
    """Differences of a named tuple: its fields and their defaults."""
    fields = [it for it in node.body if isinstance(it, ast.AnnAssign)]
    found = [(it.target.id, it.value is not None) for it in fields]
    wanted = [(it, it in there._field_defaults) for it in there._fields]
    if found != wanted:
        yield f"{name}: the fields {found} in the stubs, {wanted} in the package"


def names_of(there, is_tuple):
    """The public names that a class of the package adds to its bases; of an exception, those of its class alone."""
    base = tuple if is_tuple else there.__mro__[1]
    has = {name for name in vars(there) if is_public(name) and vars(there)[name] is not vars(base).get(name)}
    dull = {"__module__", "__doc__", "__dict__", "__weakref__", "__reduce__", "__new__", "__repr__", "__slots__",
            "__match_args__", "__getnewargs__", "__orig_bases__"}
    return has - dull - (set(there._fields) if is_tuple else set()) - {"status"}


def in_class(name, node, there):
    """Differences of a class: its bases, its methods and its fields."""
    is_tuple = hasattr(there, "_fields")
    if is_tuple:
        yield from in_tuple(name, node, there)
    else:
        wanted = [it.__name__ for it in there.__bases__ if it is not object]
        found = [it.id for it in node.bases]
        if found != wanted:
            yield f"{name}: the bases {found} in the stubs, {wanted} in the package"
    methods = {it.name: it for it in node.body if isinstance(it, ast.FunctionDef)}
    fields = {it.target.id for it in node.body if isinstance(it, ast.AnnAssign)}
    for it in names_of(there, is_tuple) - set(methods) - fields:
        yield f"{name}.{it} isn't in the stubs"
    for it, method in methods.items():
        known = inspect.getattr_static(there, it, None)
        if known is None:
            yield f"{name}.{it} isn't in the package"
        elif inspect.isfunction(known):
            yield from in_function(f"{name}.{it}", method, known)


def in_package(tree, package):
    """Differences of the whole, and the names that were compared."""
    stubs = {it.name: it for it in tree.body if isinstance(it, (ast.FunctionDef, ast.ClassDef))}
    values = {it.target.id for it in tree.body if isinstance(it, ast.AnnAssign)}
    own = {name for name, it in vars(package).items()
           if not name.startswith("_") and getattr(it, "__module__", None) == package.__name__}
    found = [f"{it} isn't in the stubs" for it in sorted(own - set(stubs))]
    found += [f"{it} isn't in the package" for it in sorted((set(stubs) | values) - set(vars(package)))]
    for name in sorted(set(stubs) & own):
        node, there = stubs[name], getattr(package, name)
        found += (in_class if isinstance(node, ast.ClassDef) else in_function)(name, node, there)
    return found, len(stubs) + len(values)


def main():
    import sqrescue
    with open(sqrescue.__file__ + "i") as file:
        found, count = in_package(ast.parse(file.read()), sqrescue)
    print(*found, f"{count} names", sep="\n")
    return bool(found) or count < 40


if __name__ == "__main__":
    sys.exit(main())
