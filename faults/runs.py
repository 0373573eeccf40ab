"""The crate of runs, `faults/runs`: built with `faults/heap.c` as its heap, run, and judged."""

import building
from expected import RUNS

USES = ["serde_ipld_dagcbor", "dagcbor_blocks", "ipld_links", "files_car", "types_serde", "serde", "arrayvec"]


def judge(lines, report):
    """Each run is judged by what `expected.py` wants for it; and each name that `expected.py` lists was run to its end."""
    counts, wrong, ended = dict.fromkeys(RUNS, 0), {}, set()
    for line in lines:
        name, n, reached, said = line.split("\t", 3)
        reached = reached == "true"
        counts[name] = counts.get(name, 0) + 1
        wanted = RUNS.get(name)
        n = int(n) if n != "all" else 0
        if wanted is None or name in ended or not wanted.is_right(reached, n, said):
            wrong.setdefault(name, []).append((n, reached, said[:200]))
        if not reached:
            ended.add(name)
    for name, count in counts.items():
        if name not in ended:
            wrong.setdefault(name, []).append("no run with nothing refused")
        report(name, count, wrong.get(name, []))


def sweep(root, folder, report):
    crate, heap = f"{root}/faults/runs", f"{root}/faults/heap.c"
    lines, fault = building.build_and_run(root, crate, USES, heap, folder)
    if fault:
        report("the crate of runs", 1, [fault])
    else:
        judge(lines, report)
