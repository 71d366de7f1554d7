"""No modules of the workbench import each other, not even in functions or for types."""

import ast
import builtins
import os
import unittest

from common import TOP

PACKAGE = os.path.join(TOP, "workbench/nooks_bench")


def modules() -> list[str]:
    return sorted(name[:-3] for name in os.listdir(PACKAGE) if name.endswith(".py") and name != "__init__.py")


def imported(name: str) -> set[str]:
    """The modules of the package that a module imports, anywhere in its text."""
    with open(os.path.join(PACKAGE, name + ".py"), encoding="utf-8") as file:
        tree = ast.parse(file.read())
    found: set[str] = set()
    for node in ast.walk(tree):
        if isinstance(node, ast.ImportFrom) and node.level == 1:
            found |= {node.module} if node.module else {each.name for each in node.names}
    return found & set(modules())


def cycle(graph: dict[str, set[str]]) -> list[str]:
    """The modules that are in import cycles or import such modules; empty if there are none."""
    left = {name: set(below) for name, below in graph.items()}
    while True:
        free = [name for name, below in left.items() if not below]
        if not free:
            return sorted(left)
        left = {name: below - set(free) for name, below in left.items() if name not in free}


class Imports(unittest.TestCase):
    def test_there_is_no_cycle(self):
        graph = {name: imported(name) for name in modules()}
        self.assertIn("words", graph["explain_report"])
        self.assertEqual(cycle(graph), [])

    def test_a_cycle_is_found(self):
        self.assertEqual(cycle({"a": {"b"}, "b": {"c"}, "c": {"b"}, "d": set()}), ["a", "b", "c"])

    def test_no_module_has_the_name_of_a_builtin(self):
        self.assertEqual([name for name in modules() if name in dir(builtins)], [])


if __name__ == "__main__":
    unittest.main()
