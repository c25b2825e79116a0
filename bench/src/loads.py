"""CPython's side: reads requests on standard input, answers each with a line.

`pickle N` and N bytes: a pickle more; the answer is empty, or says why it cannot be loaded. `run I CALLS`: loads pickle I so
often; the answer is the nanoseconds that this took."""
import gc
import pickle
import sys
import time
from itertools import repeat

pickles = []


def add(length):
    pickles.append(sys.stdin.buffer.read(length))
    try:
        pickle.loads(pickles[-1], encoding="bytes")
    except Exception as error:
        return type(error).__name__
    return ""


def run(index, calls):
    loads, data = pickle.loads, pickles[index]
    start = time.perf_counter_ns()
    for _ in repeat(None, calls):
        loads(data, encoding="bytes")
    return time.perf_counter_ns() - start


gc.disable()    # as timeit has it
for line in iter(sys.stdin.buffer.readline, b""):
    word, *numbers = line.split()
    print({b"pickle": add, b"run": run}[word](*map(int, numbers)), flush=True)
