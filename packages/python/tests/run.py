"""Runs the tests of this folder with the package that is installed, and prints how many passed. See ../test.

A test that is skipped since there is `no TOOL` fails, unless the variable WITHOUT, a list of words, has the tool."""
import os
import re
import sys
import unittest

HERE = os.path.dirname(os.path.abspath(__file__))
sys.path.insert(0, HERE)
tests = unittest.defaultTestLoader.discover(HERE, top_level_dir=HERE)
count = tests.countTestCases()
result = unittest.TextTestRunner().run(tests)
failed = len(result.failures) + len(result.errors) + len(result.unexpectedSuccesses)
passed = count - failed - len(result.skipped)
for test, why in result.skipped:
    print(f"left out: {test.id()} ({why})")
    tools = re.fullmatch("no (.*)", why)
    if tools and not {*tools[1].split(" and ")} <= {*os.environ.get("WITHOUT", "").split()}:
        print(f"install {tools[1]}, or name it in the variable WITHOUT")
        failed += 1
print(f"{passed} passed, {failed} failed")
sys.exit(1 if failed or passed <= 0 else 0)
