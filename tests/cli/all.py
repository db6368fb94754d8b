"""Runs every test on an installed tree; the last line is `N passed, M failed`, and the exit status 1 where one failed.

    all.py TREE [PART...]    PART is a file of this folder, without .py; all of them where none is given
"""

import importlib
import signal
import sys
import time

import tree

PARTS = "played asked files reading writing statuses changes merging many bench words installed library packing repository".split()


def outcome(function):
    """What a test came to, and why."""
    try:
        function()
        return "passed", ""
    except tree.Skipped as why:
        return "skipped", str(why)
    except Exception as why:  # a test that ends otherwise than by its own checks has failed, too
        return "failed", f"{type(why).__name__}: {why}" if not isinstance(why, AssertionError) else str(why)


def feel_signals():
    """Where the tests are started behind nohup or &, some are ignored, and every program that is started would ignore them too."""
    signal.signal(signal.SIGINT, signal.default_int_handler)
    for number in (signal.SIGHUP, signal.SIGQUIT, signal.SIGTERM):
        signal.signal(number, signal.SIG_DFL)


def main():
    feel_signals()
    counts = {"passed": 0, "failed": 0, "skipped": 0}
    for part in sys.argv[2:] or PARTS:
        del tree.TESTS[:]
        importlib.import_module(part)
        began = time.monotonic()
        for title, function in tree.TESTS:
            how, why = outcome(function)
            counts[how] += 1
            if why:
                print(f"{part}: {title}: {how}: {why}", flush=True)
        print(f"{part}: {len(tree.TESTS)} tests, {time.monotonic() - began:.1f} s", flush=True)
    if counts["skipped"]:
        print(f"{counts['skipped']} skipped")
    print(f"{counts['passed']} passed, {counts['failed']} failed")
    return 1 if counts["failed"] else 0


if __name__ == "__main__":
    sys.exit(main())
