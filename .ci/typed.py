#!/usr/bin/env python3
"""typed.py [--write]: each function of the public module, of tools/cga_city_lib, of .ci/ and of bench/ has its types.

.ci/untyped.txt lists the modules that lack some yet: it may only get shorter. A module that isn't listed has a type at each
parameter and result. With --write the list is written, without the modules that have all their types by now."""
import argparse
import ast
import sys
from pathlib import Path
from typing import Iterator, List, Tuple

TOP = Path(__file__).resolve().parent.parent
LIST = TOP / ".ci" / "untyped.txt"
MODULES = ("tools/cga_city.py", "tools/cga_city_lib/*.py", ".ci/*.py", "bench/*.py")


def functions(tree: ast.AST) -> Iterator[Tuple[ast.FunctionDef, bool]]:
    """Each function, and whether it is a method, whose first parameter is the object."""
    for node in ast.walk(tree):
        for child in ast.iter_child_nodes(node):
            if isinstance(child, ast.FunctionDef):
                is_static = any(getattr(it, "id", "") == "staticmethod" for it in child.decorator_list)
                yield child, isinstance(node, ast.ClassDef) and not is_static


def is_typed(function: ast.FunctionDef, is_method: bool) -> bool:
    given = function.args
    parameters = [*given.posonlyargs, *given.args][is_method:] + given.kwonlyargs
    has_result = function.returns is not None or function.name == "__init__"
    return has_result and all(it.annotation is not None for it in parameters)


def untyped(path: Path) -> List[str]:
    tree = ast.parse(path.read_text(encoding="utf-8"))
    return [f"{it.lineno}: {it.name}" for it, is_method in functions(tree) if not is_typed(it, is_method)]


def faults(listed: List[str], lacking: List[Tuple[str, List[str]]]) -> List[str]:
    rows = [f"{name}:{row}" for name, rows in lacking if name not in listed for row in rows]
    return [f"{row} lacks the type of a parameter or of its result" for row in rows]


def main() -> int:
    parser = argparse.ArgumentParser(description=__doc__, formatter_class=argparse.RawDescriptionHelpFormatter)
    parser.add_argument("--write", action="store_true", help="list the modules that lack types")
    is_written = parser.parse_args().write
    paths = sorted(path for form in MODULES for path in TOP.glob(form))
    lacking = [(str(path.relative_to(TOP)), untyped(path)) for path in paths]
    if is_written:
        LIST.write_text("".join(f"{name}\n" for name, rows in lacking if rows), encoding="utf-8")
    listed = LIST.read_text(encoding="utf-8").splitlines()
    found = faults(listed, lacking)
    print("".join(f"{fault}\n" for fault in found), end="")
    print(f"{len(lacking)} modules, {sum(bool(rows) for _, rows in lacking)} of them lack types, {len(found)} faults")
    return 1 if found else 0


if __name__ == "__main__":
    sys.exit(main())
