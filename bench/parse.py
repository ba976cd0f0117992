#!/usr/bin/env python3
"""Time `parse` of the r.mapcalc language on a text of 65,535 bytes and 999 tokens: the best of 5.

The program runs the proved test that reads this text a hundred times, so run `rt test` in
crates/cell_calc_tests first.
"""
import os
import subprocess
import time

ROOT = os.path.dirname(os.path.dirname(os.path.abspath(__file__)))
TESTS = f"{ROOT}/crates/cell_calc_tests/out/cell_calc_tests_tests"


def seconds(test):
    start = time.perf_counter()
    subprocess.run([TESTS, test], check=True, capture_output=True)
    return time.perf_counter() - start


longest = min(seconds("limits::the_longest_text") for _ in range(5))
print(f"parse: {longest / 100 * 1000:.3f} ms for a text of 65535 bytes and 999 tokens")
