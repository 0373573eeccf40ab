"""How long calls take."""

import time


def least(calls, runs):
    """Of each call, in turn: so what else the machine does falls on all of them."""
    counts, best = [], [float("inf")] * len(calls)
    for call, given in calls:
        start = time.process_time_ns()
        for _ in range(4):
            call(given)
        counts.append(1 + int(1e7 / (1 + (time.process_time_ns() - start) / 4)))
    for _ in range(runs):
        for i, (call, given) in enumerate(calls):
            start = time.process_time_ns()
            for _ in range(counts[i]):
                call(given)
            best[i] = min(best[i], (time.process_time_ns() - start) / counts[i])
    return best
