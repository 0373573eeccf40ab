"""The program `dagcar`, asked for each line: DAG-JSON both ways, which is also data to be written, and CAR files."""

import os
import subprocess

from lines import serve

PROGRAM = os.environ.get("DAGCAR", f"{os.environ['REPO']}/dagcar")


def asked(word, given):
    ran = subprocess.run([PROGRAM, word], input=given, capture_output=True)
    if ran.returncode:
        raise ValueError
    return ran.stdout


def files(file):
    lines = [it.split() for it in asked("list", file).decode().splitlines()]
    told = [it[1] for it in lines if it[0] == "root"], [it[0] for it in lines if it[0] != "root"]
    return " ".join(",".join(them) or "-" for them in told)


make = lambda text: asked("make", text).hex()
serve(None, writing=lambda line: make(line.encode()), dag_json=make, to_dag_json=lambda block: asked("show", block).strip().hex(), files=files)
