"""Cases that are tried by several threads, each with a file of its own, and counted."""

import collections
import concurrent.futures
import sys
import threading

from cases import Cases
from sendings import Wrong, removed

MOST_WRONG = 20


class Sweep(Cases):
    """What came of all cases so far."""

    def __init__(self, program, workers):
        super().__init__(program.brk)
        self.program, self.workers = program, workers

    def tally(self, cases, one, most):
        """Calls `one(case, path)` for each case. It returns the words under which the case is counted, or raises Wrong."""
        counts, wrongs, lock = collections.Counter(), [], threading.Lock()
        turns = iter(cases)

        def work(worker):
            path = self.program.path(f"worker-{worker}/desk.db")
            while len(wrongs) < most:
                with lock:
                    case = next(turns, None)
                if case is None:
                    break
                try:
                    came = one(case, path)
                except Wrong as error:
                    with lock:
                        wrongs.append(f"{case}: {error}")
                    continue
                with lock:
                    counts.update(came)
            removed(path)

        with concurrent.futures.ThreadPoolExecutor(self.workers) as pool:
            for future in [pool.submit(work, worker) for worker in range(self.workers)]:
                future.result()
        return counts, wrongs

    def sweep(self, title, cases, one):
        """Tries cases that all have to be right, and prints what came of them."""
        counts, wrongs = self.tally(cases, one, MOST_WRONG)
        self.passed += counts["tried"]
        self.failed += len(wrongs)
        told = ", ".join(f"{count} {words}" for words, count in sorted(counts.items()) if words != "tried")
        print(f"{'WRONG' if wrongs else 'ok   '} {title}: {counts['tried']} tried: {told or 'none'}", flush=True)
        for wrong in sorted(wrongs):
            print(f"WRONG {title}: {wrong}", flush=True)

    def control(self, title, cases, one):
        """Tries cases of which some have to be wrong: the checks of the trial find losses."""
        cases = list(cases)
        _, wrongs = self.tally(cases, one, sys.maxsize)
        self.tell(f"control, {title}: {len(wrongs)} of {len(cases)} found wrong, as some have to be", wrongs != [])
