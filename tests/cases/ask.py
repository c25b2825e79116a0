"""Ask a program of tests/oracle about many pickles: a line in for each, a line out for each."""

import os
import subprocess

FOLDER = os.path.join(os.path.dirname(os.path.abspath(__file__)), "..", "oracle", "target", "bin")
ORACLE, TRACE = os.path.join(FOLDER, "oracle"), os.path.join(FOLDER, "trace")
BATCH_CASES, BATCH_BYTES = 5000, 4 << 20


def present():
    return os.path.exists(ORACLE) and os.path.exists(TRACE)


def hexed(data):
    return data.hex() or "-"


def ask(program, verb, pickles):
    """The answers, in order."""
    lines = "".join(verb + " " + hexed(data) + "\n" for data in pickles)
    done = subprocess.run([program], input=lines.encode(), stdout=subprocess.PIPE, check=True)
    answers = done.stdout.decode().split("\n")[:-1]
    if len(answers) != len(pickles):
        raise RuntimeError("%s: %d answers to %d questions" % (program, len(answers), len(pickles)))
    return answers


def batches(cases):
    """Cut (kind, pickle) pairs into lists that are neither long nor heavy."""
    batch, size = [], 0
    for case in cases:
        batch.append(case)
        size += len(case[1])
        if len(batch) >= BATCH_CASES or size >= BATCH_BYTES:
            yield batch
            batch, size = [], 0
    if batch:
        yield batch


def expected(pickles):
    """What RULES, part A, demands of the prefix reading."""
    return ask(TRACE, "expect", pickles)


def rust(pickles):
    """What the unchanged Rust's prefix reading answers."""
    return ask(ORACLE, "prefix", pickles)
