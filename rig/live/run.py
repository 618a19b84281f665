"""The tests of `rig serve` on pseudo-terminals, with real processes: run.py BIN SEED [WORD], BIN being the folder of the
rig's programs; only the tests that have WORD in their name, if it is given. RUN is the emulator or nothing. One line for
each test, last 'N passed, M failed'. Most of the time is waiting for quiet, so several run at once."""
import os
import signal
import sys
import tempfile
import traceback
from concurrent.futures import ThreadPoolExecutor
from random import Random

import test_answers
import test_editions
import test_held
import test_keeping
import test_line
import test_meeting
import test_running
from line import Missed, Site

AT_ONCE = 4
PARTS = test_answers, test_editions, test_keeping, test_held, test_line, test_meeting, test_running


def fault_of(test, programs, random):
    """What was wrong, or nothing."""
    with tempfile.TemporaryDirectory() as folder:
        os.chmod(folder, 0o755)
        site = Site(programs, folder)
        try:
            test(site, random)
        except Missed as missed:
            return str(missed)
        except Exception:
            return traceback.format_exc()
        finally:
            site.close()
    return ""


def main(programs, seed, word=""):
    signal.signal(signal.SIGINT, signal.default_int_handler)  # which whoever runs this in the background has ignored
    failed = 0
    tests = [t for part in PARTS for t in part.TESTS if word in t[0]]
    with ThreadPoolExecutor(AT_ONCE) as pool:
        results = [(name, pool.submit(fault_of, test, programs, Random(f"{seed} {name}"))) for name, test in tests]
        for name, result in results:
            fault = result.result()
            print(f"{'FAILED' if fault else 'ok':8}{name}", flush=True)
            if fault:
                failed += 1
                print("".join(f"        {line}\n" for line in [f"seed {seed}", *fault.splitlines()]), end="")
    print(f"{len(tests) - failed} passed, {failed} failed")
    return failed > 0


sys.exit(main(*sys.argv[1:]))
