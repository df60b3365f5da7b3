"""Runs tests inside KLayout, which is started by a script of its own and not by unittest."""
import sys
import traceback


def failures(names, call):
    """How many tests fail of those among `names`, of which each is called by `call`; says what failed, and how many passed."""
    failed = 0
    tests = [(name, value) for name, value in names.items() if name.startswith("test_")]
    for name, test in tests:
        try:
            call(test)
        except Exception:
            failed += 1
            print("FAILED %s" % name)
            traceback.print_exc(file=sys.stdout)
    print("%d passed, %d failed" % (len(tests) - failed, failed))
    sys.stdout.flush()
    return failed
