#!/usr/bin/env python3
"""Runs the tests of this package as it is here, without installing it: all of them, or those that are named. Those of
numpy are skipped where it isn't there.

usage: python3 bindings/python/tests/run.py [NAME..]   (such as streams, or streams.Parts.test_arguments)"""
import os
import subprocess
import sys
import tempfile

TESTS = os.path.dirname(os.path.abspath(__file__))
PACKAGE = os.path.dirname(TESTS)


def passes(name, environment):
    """Whether the tests of a file pass, or those of it that are named. Each file has a process of its own, because one
    of them changes what Python has of the system."""
    file, _, test = name.partition(".")
    print(f"{name}:", flush=True)
    command = [sys.executable, os.path.join(TESTS, f"test_{file}.py"), *filter(None, [test])]
    return subprocess.run(command, env=environment).returncode == 0


def main():
    sys.path.insert(0, PACKAGE)
    import backend  # by which pip makes the library, too

    files = sorted(name[5:-3] for name in os.listdir(TESTS) if name.startswith("test_") and name.endswith(".py"))
    names = sys.argv[1:] or files
    unknown = [name for name in names if name.partition(".")[0] not in files]
    if unknown:
        sys.exit(f"run: {', '.join(unknown)} isn't one of {', '.join(files)}")
    with tempfile.TemporaryDirectory() as folder:
        library = os.path.abspath(backend.shared_library(folder))
        more = {"PYTHONPATH": PACKAGE, "HOUND_C_LIBRARY": library, "PYTHONDONTWRITEBYTECODE": "1"}
        failed = [name for name in names if not passes(name, {**os.environ, **more})]
    print(f"run: {len(names) - len(failed)} passed, {len(failed)} failed{': ' * bool(failed)}{', '.join(failed)}")
    sys.exit(bool(failed))


if __name__ == "__main__":
    sys.dont_write_bytecode = True
    main()
