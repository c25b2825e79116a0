"""What the program replay_literal reads and prints, against the oracle's answers: frames in, a line out for each pickle."""
import os
import subprocess
import sys

ROOT = os.path.join(os.path.dirname(os.path.abspath(__file__)), "..", "..")
sys.path.insert(0, os.path.join(ROOT, "tests", "cases"))
TEXT_KINDS = {4, 5, 11}
CODES = b"ILFSVpgJKMG\x8a\x8bUTXc"


def frames(pickles):
    return b"".join(len(p).to_bytes(2, "little") + p for p in pickles)


def line(answer):
    """An answer of the oracle in the program's words."""
    fields = answer.split(" ")
    if fields[0] == "refused":
        return "\t".join(fields)
    if fields[0] != "value" or fields[2] != "1":
        return answer
    words = [int(fields[3][16 * i:16 * i + 16], 16) for i in range(4)]
    kind, word = words[0], words[1]
    if kind in TEXT_KINDS:
        word = words[2] >> 32 if kind == 11 else 0
    return "value\t%s\t%d\t%016x\t%s" % (fields[1], kind, word, fields[4])


def program(pickles):
    """What the proved program prints, a line a pickle."""
    done = subprocess.run([os.path.join(ROOT, "tests", "run"), "replay_literal"], input=frames(pickles),
                          stdout=subprocess.PIPE, check=True)
    return done.stdout.decode().split("\n")[:-1]
