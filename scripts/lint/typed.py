#!/usr/bin/env python3
"""Whether the filters stay documented and typed.

    scripts/lint/typed.py

Each function of `ch10/` has a docstring, but for those within functions, those with two underscores, and methods that do what one
of the same name does in a class of `ch10/` that has one. And fewer than 20 lines name the type `Any`: what libraries without types
give has names of its own (`ch10.arrays.Foreign`, `ch10.standard.Value`). Status 1, and a line for each, where that is not so.
"""
import ast
import pathlib
import re
import sys
from typing import Dict, Iterator, List, Set, Tuple

MOST = 19  # lines with `Any`
TOP = pathlib.Path(__file__).resolve().parents[2]
Class = Tuple[List[str], Set[str]]  # the classes that it stands on, and its methods that are documented


def functions(tree: ast.AST, of: str = '') -> Iterator[Tuple[str, ast.FunctionDef]]:
    """The functions and methods of a module, each with the name of its class."""
    for node in ast.iter_child_nodes(tree):
        if isinstance(node, ast.FunctionDef):
            yield of, node
        elif isinstance(node, ast.ClassDef):
            yield from functions(node, node.name)


def classes(trees: Dict[str, ast.Module]) -> Dict[str, Class]:
    """All classes by their names."""
    found: Dict[str, Class] = {}
    for tree in trees.values():
        for node in ast.walk(tree):
            if isinstance(node, ast.ClassDef):
                documented = {one.name for _, one in functions(ast.Module(node.body, [])) if ast.get_docstring(one)}
                found[node.name] = [base.id for base in node.bases if isinstance(base, ast.Name)], documented
    return found


def is_said_above(name: str, of: str, known: Dict[str, Class]) -> bool:
    """Whether a method is documented in a class that this one stands on."""
    return any(base in known and (name in known[base][1] or is_said_above(name, base, known)) for base in known.get(of, ([],))[0])


def main() -> int:
    """Prints what is wrong, and answers the status."""
    paths = sorted((TOP / 'ch10').glob('*.py'))
    trees = {path.name: ast.parse(path.read_text(encoding='utf-8')) for path in paths}
    known = classes(trees)
    bad = ['ch10/%s:%d: %s has no docstring' % (file, node.lineno, node.name) for file, tree in trees.items()
           for of, node in functions(tree)
           if not node.name.startswith('__') and ast.get_docstring(node) is None and not is_said_above(node.name, of, known)]
    lines = [(path.name, line) for path in paths for line in path.read_text(encoding='utf-8').split('\n')
             if re.search(r'\bAny\b', line)]
    if len(lines) > MOST:
        bad.append('ch10: %d lines with Any, more than %d' % (len(lines), MOST))
    print('\n'.join(bad) if bad else 'typed: %d functions, %d lines with Any' % (
        sum(1 for tree in trees.values() for _ in functions(tree)), len(lines)))
    return bool(bad)


if __name__ == '__main__':
    sys.exit(main())
