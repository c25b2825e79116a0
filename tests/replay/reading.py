"""What the program replay_reading reads and prints: cases in, a line with the answer out for each."""
PREFIX, WHOLE = 0, 1


def case(call, pickle):
    return bytes([call]) + len(pickle).to_bytes(4, "little") + pickle


def line(answer):
    """The line for an answer of the oracle, `value LENGTH COUNT WORDS TEXT` or `refused NUMBER DETAIL`."""
    kind, *fields = answer.split(" ")
    if kind == "value":
        length, count, words, text = fields
        return "\t".join(["0", "0", length, count, words, "" if text == "-" else text]) + "\n"
    if kind == "refused":
        return "\t".join(fields + ["0", "0"]) + "\n"
    raise RuntimeError("the oracle answers " + answer)
