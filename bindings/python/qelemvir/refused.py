"""Why the library refuses."""

# By number; those that are left out are of later requests.
NAMES = dict(enumerate((
    "ShortRoom", "TooLong", "EndOfInput", "UnsupportedOpcode", "UnsupportedProtocol", "StackUnderflow", "MissingMemo",
    "InvalidLiteral", "IntegerTooLarge", "Invalid", "TrailingData", "StackFull", "MarksFull", "MemoFull", "NodesFull",
    "LinksFull", "TooDeep", "TooManyValues", "TextFull", "FloatOutside", "BadTable", "OutputFull",
), 1))
NAMES.update({23: "BadLengths", 24: "SheetShape", 25: "UnwritableName", 26: "OutsideProfile"})

# By number and detail; None for those whose detail may be any.
WORDS = {
    (1, 0): "a lent room is shorter than stated",
    (2, 0): "the pickle is longer than 65,536 bytes",
    (3, 0): "the pickle ends too early",
    (4, None): "the opcode with byte {:02x} is not read",
    (5, None): "protocol {} is not read",
    (6, 0): "an opcode needs more than is on the stack",
    (7, None): "nothing was put under the memo number {}",
    (8, 0): "a literal is not of the right form, or its number does not fit",
    (9, 0): "an integer does not fit into 64 bits",
    (10, 1): "a length is negative",
    (10, 2): "a key of a dict has no value",
    (10, 3): "items are added to what is no list",
    (10, 4): "entries are added to what is no dict",
    (10, 5): "an object's class is no class",
    (10, 6): "an object's arguments are no tuple",
    (10, 7): "a state is given to what is no object",
    (11, 0): "bytes are left after the pickle",
    (12, 0): "the stack would hold more than 2,048 values",
    (13, 0): "there would be more than 256 marks",
    (14, 0): "the memo would hold more than 1,024 numbers",
    (15, 0): "the opcodes would make more than 4,096 values",
    (16, 0): "there would be more than 8,192 links to items",
    (17, 0): "the value is more than 64 deep",
    (18, 0): "the value holds more than 2,048 values",
    (19, 0): "the value has more than 65,536 bytes of text",
    (20, 0): "a float literal is outside of what is read exactly",
    (21, 1): "the table is not well formed",
    (21, 2): "the second table is not well formed",
    (22, 0): "the lent output is too short",
    (23, 0): "the lengths of the sheets do not add up to the bytes",
    (24, 0): "the value is no sheet",
    (25, 0): "a module or a name has a newline or ends with CR, and could not be read back",
    (26, None): "the opcode with byte {:02x} is not for plain data",
}


class Refused(Exception):
    """A call of the library refused. `number` and `detail` are the library's, `name` is its name for the number, and the message
    says it in words. A number of a later version of the library, which this package does not know, has the name "Other"."""

    def __init__(self, number, detail):
        super().__init__(number, detail)
        self.number = number
        self.detail = detail

    @property
    def name(self):
        return NAMES.get(self.number, "Other")

    def __str__(self):
        words = WORDS.get((self.number, self.detail)) or WORDS.get((self.number, None)) or "refused"
        return "%s (%s: number %d, detail %d)" % (words.format(self.detail), self.name, self.number, self.detail)
