"""The package as a whole: every docstring's example runs, mypy finds nothing, functions are short, the installed package works from another folder, and the versions are one."""
from __future__ import annotations

import ast
import doctest
import importlib
import inspect
import os
import pkgutil
import re
import shutil
import subprocess
import sys
import tempfile
import unittest

import setting

import cottontuff

MODULES = [importlib.import_module(f'cottontuff.{found.name}') for found in pkgutil.iter_modules(cottontuff.__path__) if found.name != '__main__']
# Modules that a user does not call: their functions serve `read` and `write`.
INNER = {'carrying', 'fitting', 'hearing', 'msh41', 'quiet'}


def load_tests(loader: unittest.TestLoader, tests: unittest.TestSuite, pattern: str | None) -> unittest.TestSuite:
    """The examples of all docstrings, beside the tests below."""
    for module in [cottontuff, *MODULES]:
        tests.addTests(doctest.DocTestSuite(module))
    return tests


class Package(unittest.TestCase):
    def test_mypy(self) -> None:
        mypy = shutil.which('mypy', path='/usr/bin') or shutil.which('mypy')
        if mypy is None:
            self.skipTest('mypy is not installed')
        with tempfile.TemporaryDirectory() as cache:
            run = subprocess.run([mypy, '--strict', '--cache-dir', cache, '--python-executable', sys.executable, str(setting.PACKAGE)], capture_output=True, text=True)
        self.assertEqual(run.returncode, 0, run.stdout)

    def test_functions_are_short(self) -> None:
        long = []
        for path in sorted(setting.PACKAGE.glob('*.py')):
            for node in ast.walk(ast.parse(path.read_text())):
                if isinstance(node, ast.FunctionDef) and (node.end_lineno or 0) - node.lineno >= 40:
                    long.append(f'{path.name}:{node.lineno} {node.name}')
        self.assertEqual(long, [])

    def test_public_functions_have_examples(self) -> None:
        bare = []
        for module in MODULES:
            name = module.__name__.split('.')[-1]
            for called, function in inspect.getmembers(module, inspect.isfunction):
                own = function.__module__ == module.__name__ and not called.startswith(('_', 'do_'))
                if own and name not in INNER and '>>>' not in (function.__doc__ or ''):
                    bare.append(f'{name}.{called}')
        self.assertEqual(bare, [])

    def test_one_version(self) -> None:
        made = re.search(r'^VERSION = (.*)$', (setting.ROOT / 'Makefile').read_text(), re.M)
        self.assertEqual(made and made[1], cottontuff.VERSION)

    def test_install(self) -> None:
        bare = {name: value for name, value in os.environ.items() if not name.startswith(('COTTONTUFF', 'PYTHON'))}
        bare['PYTHON'] = sys.executable
        with tempfile.TemporaryDirectory() as folder:
            run = subprocess.run([setting.ROOT / 'python' / 'install', folder], env={**bare, 'COTTONTUFF_LIBRARY': os.environ['COTTONTUFF_LIBRARY']}, capture_output=True, text=True)
            self.assertEqual(run.returncode, 0, run.stdout + run.stderr)
            self.assertIn('the helper gives the table of the plain form', run.stdout)
            said = subprocess.run([f'{folder}/bin/cottontuff', '--version'], cwd='/', env=bare, capture_output=True, text=True)
            self.assertEqual(said.stdout, f'cottontuff {cottontuff.VERSION}\n')
            read = subprocess.run([f'{folder}/bin/cottontuff', 'measure', str(setting.mesh_file('small-ball'))], cwd='/', env=bare, capture_output=True, text=True)
            self.assertIn('1,855 tetrahedra', read.stdout, read.stderr)
            subprocess.run([setting.ROOT / 'python' / 'install', '--uninstall', folder], env=bare, check=True, capture_output=True)
            left = [name for _, _, names in os.walk(folder) for name in names]
            self.assertEqual(left, [])


if __name__ == '__main__':
    unittest.main()
