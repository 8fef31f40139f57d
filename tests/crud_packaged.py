"""For tests/crud.py: the package for Python."""
import types

import fallowtime as module

results = module
concern = types.SimpleNamespace
type_of = type


def opened(folder, number):
    """A store of its own for a test."""
    return module.open(folder / f"{number}.db")


def fitting(_name, arguments):
    """The arguments of a method as it takes them."""
    return arguments


def is_cursor(answer):
    return hasattr(answer, "to_list")


def is_refusal(error, _wanted):
    """Whether an error is a refusal by name; a test may want another one."""
    return isinstance(error, NotImplementedError)
