/* Qelemvir: reads, writes, orders, lists and scores pickles of Python 2 (protocols 0 to 2), without calling anything that they name.

   The functions are those of the static library that `./prove pickle_c` makes, an archive for x86-64 with the System V calling
   convention. Each is proved to accept all inputs, to end, and to touch nothing but what it is lent: it keeps nothing and allocates
   nothing, and may be called from several threads at once with slices of their own. A slice is a pointer and a length in elements.
   The pointer must be valid and aligned for its element, also where the length is 0; no slice that is written may overlap another.

   A value is a table of records of four words and a text. Records stand in preorder, their texts in the same order without gaps:

     word 0               word 1        word 2                           word 3
     None                 0             0                                0
     Bool, I64, F64       its bits      0                                0
     Bytes, String        text place    length                           0
     List .. FrozenSet    items         records in it with itself        0
     Dict                 entries       records in it with itself        0
     Global               text place    module length * 2^32 + name's    0
     Object               as Global for its class                        records in it with itself

   A name's text follows its module's directly. After an Object stand its arguments, as a Tuple, and then its state if it has one;
   a Dict alternates key and value. Set items and dict keys stand in strictly ascending order. */
#ifndef QELEMVIR_H
#define QELEMVIR_H

#include <stddef.h>
#include <stdint.h>

#ifdef __cplusplus
extern "C" {
#endif

/* What a call but compare and score answers, and what the batch answers to each sheet. A refusal has length and count 0, and has changed
   no output. */
struct qelemvir_answer {
    uint64_t number; /* 0, or why it refuses: enum qelemvir_refusal */
    uint64_t detail; /* 0 unless said there */
    uint64_t length; /* bytes read or written; 0 of the batch itself */
    uint64_t count;  /* records of a reading; else 0 */
};
#define QELEMVIR_ANSWER 4 /* the words of an answer, its four numbers in this order */

/* What compare answers. */
struct qelemvir_compared {
    uint64_t number; /* 0 or QELEMVIR_BAD_TABLE */
    uint64_t detail; /* of QELEMVIR_BAD_TABLE: 1 for the first table, 2 for the second */
    int64_t sign;    /* -1, 0 or 1; 0 where it refuses */
};

/* What score answers. */
struct qelemvir_scored {
    uint64_t number; /* 0, QELEMVIR_BAD_TABLE or QELEMVIR_SHEET_SHAPE */
    uint64_t detail; /* 1 of QELEMVIR_BAD_TABLE, else 0 */
    uint64_t score;  /* at most 20,000; 0 where it refuses */
    uint64_t items;  /* how many items were answered, at most 200; 0 where it refuses */
};

/* Why a call refuses. The readings test 1, then 2, then go opcode by opcode; 17, 18, 19 and then 11 come after STOP. */
enum qelemvir_refusal {
    QELEMVIR_SHORT_ROOM = 1,           /* a lent room or output is shorter than stated: nothing was touched */
    QELEMVIR_TOO_LONG = 2,             /* the pickle's slice is longer than QELEMVIR_MOST_BYTES */
    QELEMVIR_END_OF_INPUT = 3,         /* the pickle ends before its STOP */
    QELEMVIR_UNSUPPORTED_OPCODE = 4,   /* none of protocols 0 to 2, or INST, OBJ, a persistent id, an extension; detail: the byte */
    QELEMVIR_UNSUPPORTED_PROTOCOL = 5, /* above 2; detail: the number */
    QELEMVIR_STACK_UNDERFLOW = 6,      /* an opcode, or STOP, needs a value or mark that is not there */
    QELEMVIR_MISSING_MEMO = 7,         /* a GET of a memo number that was never put; detail: the number */
    QELEMVIR_INVALID_LITERAL = 8,      /* a line or text without its opcode's form, or an INT or LONG outside 64 bits */
    QELEMVIR_INTEGER_TOO_LARGE = 9,    /* a LONG1 or LONG4 outside 64 bits */
    QELEMVIR_INVALID = 10,             /* something other than what an opcode needs; detail: enum qelemvir_invalid */
    QELEMVIR_TRAILING_DATA = 11,       /* bytes are left behind STOP (the whole reading only) */
    QELEMVIR_STACK_FULL = 12,          /* more than QELEMVIR_MOST_STACK values on the stack */
    QELEMVIR_MARKS_FULL = 13,          /* more than QELEMVIR_MOST_MARKS marks open */
    QELEMVIR_MEMO_FULL = 14,           /* more than QELEMVIR_MOST_MEMO different memo numbers */
    QELEMVIR_NODES_FULL = 15,          /* more than QELEMVIR_MOST_NODES values made by opcodes */
    QELEMVIR_LINKS_FULL = 16,          /* more than QELEMVIR_MOST_LINKS items in lists, tuples and (two each) dict entries */
    QELEMVIR_TOO_DEEP = 17,            /* nested deeper than QELEMVIR_MOST_DEPTH, the argument of a set being a level */
    QELEMVIR_TOO_MANY_VALUES = 18,     /* more than QELEMVIR_MOST_VALUES values, the argument of a set and equal keys or items counted */
    QELEMVIR_TEXT_FULL = 19,           /* more than QELEMVIR_MOST_TEXT bytes of text, counted over the same values */
    QELEMVIR_FLOAT_OUTSIDE = 20,       /* inf, nan, or a FLOAT, not zero, with digits above 2^53 or a power of ten outside -22 to 22 */
    QELEMVIR_BAD_TABLE = 21,           /* a table is not well formed; detail: 1, or 2 for the second table of compare */
    QELEMVIR_OUTPUT_FULL = 22,         /* what is to be written is longer than the lent output */
    QELEMVIR_BAD_LENGTHS = 23,         /* the sheets' lengths do not add up to the buffer's (qelemvir_from_bytes_batch): nothing was touched */
    QELEMVIR_SHEET_SHAPE = 24,         /* a value is no sheet (qelemvir_score) */
    QELEMVIR_UNWRITABLE_NAME = 25,     /* to_bytes of a Global, or an Object's class, whose module or name has a newline or ends with CR */
    QELEMVIR_OUTSIDE_PROFILE = 26      /* an opcode that is not for plain data (the plain readings only); detail: the byte */
};

/* The details of QELEMVIR_INVALID. */
enum qelemvir_invalid {
    QELEMVIR_INVALID_LENGTH = 1,     /* a BINSTRING with a negative length */
    QELEMVIR_INVALID_DICT_ITEMS = 2, /* a key without its value */
    QELEMVIR_INVALID_LIST = 3,       /* APPEND or APPENDS to something that is no list */
    QELEMVIR_INVALID_DICT = 4,       /* SETITEM or SETITEMS on something that is no dict */
    QELEMVIR_INVALID_CLASS = 5,      /* REDUCE or NEWOBJ of something that is no global */
    QELEMVIR_INVALID_ARGUMENTS = 6,  /* REDUCE or NEWOBJ with arguments that are no tuple */
    QELEMVIR_INVALID_OBJECT = 7      /* BUILD on something that is no object */
};

/* A record's kind: word 0 modulo QELEMVIR_KINDS. */
enum qelemvir_kind {
    QELEMVIR_KIND_NONE = 0,
    QELEMVIR_KIND_BOOL = 1,
    QELEMVIR_KIND_I64 = 2,
    QELEMVIR_KIND_F64 = 3,
    QELEMVIR_KIND_BYTES = 4,
    QELEMVIR_KIND_STRING = 5, /* valid UTF-8, as module and name are */
    QELEMVIR_KIND_LIST = 6,
    QELEMVIR_KIND_TUPLE = 7,
    QELEMVIR_KIND_SET = 8,
    QELEMVIR_KIND_FROZENSET = 9,
    QELEMVIR_KIND_DICT = 10,
    QELEMVIR_KIND_GLOBAL = 11,
    QELEMVIR_KIND_OBJECT = 12
};
#define QELEMVIR_KINDS 16

/* What word 0 of an Object has besides its kind. */
#define QELEMVIR_OBJECT_NEW 16   /* made by NEWOBJ, not by REDUCE */
#define QELEMVIR_OBJECT_STATE 32 /* a state follows its arguments */

#define QELEMVIR_RECORD 4 /* words of a record */

/* The numbers that stop a reading: so much is accepted, one more is refused. */
#define QELEMVIR_MOST_BYTES 65536
#define QELEMVIR_MOST_STACK 2048
#define QELEMVIR_MOST_MARKS 256
#define QELEMVIR_MOST_MEMO 1024
#define QELEMVIR_MOST_NODES 4096
#define QELEMVIR_MOST_LINKS 8192
#define QELEMVIR_MOST_DEPTH 64
#define QELEMVIR_MOST_VALUES 2048
#define QELEMVIR_MOST_TEXT 65536

/* What a reading is lent, in elements: working rooms and two outputs, table and text. Longer slices do, and keep what is behind. */
/* from rooms.txt, by tests/rooms: lengths */
#define QELEMVIR_NODES 8192
#define QELEMVIR_OWNERS 8192
#define QELEMVIR_CHILDREN 8192
#define QELEMVIR_STACK 2048
#define QELEMVIR_MARKS 256
#define QELEMVIR_KEYS 2048
#define QELEMVIR_HELD 1024
#define QELEMVIR_UNESCAPED 65536
#define QELEMVIR_STARTS 4098
#define QELEMVIR_SORTED 16384
#define QELEMVIR_MEASURES 4096
#define QELEMVIR_TABLE 8192
#define QELEMVIR_TEXT 65536
/* end of lengths */

/* Outputs of these lengths, in bytes, never give QELEMVIR_OUTPUT_FULL. */
#define QELEMVIR_OUTPUT_MAX 122883  /* of to_bytes */
#define QELEMVIR_LISTING_MAX 370688 /* of list */

/* The parameters of a reading behind what it reads. */
/* from rooms.txt, by tests/rooms: parameters */
#define QELEMVIR_LENT                         \
    uint64_t *nodes, size_t nodes_len,        \
    uint16_t *owners, size_t owners_len,      \
    uint16_t *children, size_t children_len,  \
    uint16_t *stack, size_t stack_len,        \
    uint16_t *marks, size_t marks_len,        \
    uint32_t *keys, size_t keys_len,          \
    uint16_t *held, size_t held_len,          \
    uint8_t *unescaped, size_t unescaped_len, \
    uint16_t *starts, size_t starts_len,      \
    uint16_t *sorted, size_t sorted_len,      \
    uint64_t *measures, size_t measures_len,  \
    uint64_t *table, size_t table_len,        \
    uint8_t *text, size_t text_len
/* end of parameters */

/* Read the pickle at the start of the slice. On success `length` is the bytes read and `count` the records in `table`; of `table` and
   `text` only what is filled has changed, and the table is well formed. The rooms may hold anything before. After every answer but
   QELEMVIR_SHORT_ROOM they are zero up to their stated lengths. */
struct qelemvir_answer qelemvir_from_bytes_prefix(const uint8_t *pickle, size_t pickle_len, QELEMVIR_LENT);

/* Read a pickle that is the whole slice: the same answer, but for QELEMVIR_TRAILING_DATA exactly where the prefix reading succeeds
   and leaves bytes. */
struct qelemvir_answer qelemvir_from_bytes(const uint8_t *pickle, size_t pickle_len, QELEMVIR_LENT);

/* Read a night's sheets, which stand end to end in a buffer, each as from_bytes reads it by itself. `lengths` has the length of each;
   `answers` is filled with number, detail, length and count of each, and kept behind the last. `table` and `text` hold the value of the
   last sheet that was accepted, behind it what the ones before it left, or all they held before if none was. Its own answer is
   QELEMVIR_SHORT_ROOM, also where there are fewer than four answers a sheet; then QELEMVIR_BAD_LENGTHS exactly where the lengths, added
   without wrapping, are not the buffer's; else 0, whatever the sheets' answers are. Both refusals touch nothing, the rooms included; else
   these are zero as after a reading. */
struct qelemvir_answer qelemvir_from_bytes_batch(const uint8_t *sheets, size_t sheets_len, const uint64_t *lengths, size_t lengths_len,
                                                 uint64_t *answers, size_t answers_len, QELEMVIR_LENT);

/* from_bytes_prefix and from_bytes of plain data only: GLOBAL, REDUCE, NEWOBJ, BUILD and the text PUT and GET give QELEMVIR_OUTSIDE_PROFILE, before
   their operand is read. What they accept, the two above accept with the same answer, table and text, and it contains no Set,
   FrozenSet, Global or Object. */
struct qelemvir_answer qelemvir_plain_from_bytes_prefix(const uint8_t *pickle, size_t pickle_len, QELEMVIR_LENT);
struct qelemvir_answer qelemvir_plain_from_bytes(const uint8_t *pickle, size_t pickle_len, QELEMVIR_LENT);

/* The length of a well-formed table's text, which a reading does not return and the calls below ask for. */
size_t qelemvir_text_len(const uint64_t *words, size_t words_len, size_t count);

/* Write a value as a pickle of protocol 2: BAD_TABLE, then UNWRITABLE_NAME exactly where a name in it could not be read back, then
   OUTPUT_FULL exactly where the pickle is longer than the output, else `length` bytes at its start, what stands behind being kept.
   `text_len` must be the length of the table's text, here and below. */
struct qelemvir_answer qelemvir_to_bytes(const uint64_t *words, size_t words_len, size_t count, const uint8_t *text, size_t text_len,
                                         uint8_t *output, size_t output_len);

/* Write a line for each record: depth from 0, kind, content, with tabs between. Of texts and names a backslash is written as two, any
   other byte from 20 to 7E hex as itself, the rest as \x and two lower-case hex digits: two values with the same listing are the same
   value. Refusals and output as for to_bytes, but for UNWRITABLE_NAME:
   every name is listed. */
struct qelemvir_answer qelemvir_list(const uint64_t *words, size_t words_len, size_t count, const uint8_t *text, size_t text_len,
                                     uint8_t *output, size_t output_len);

/* The total order of two values: by kind; false before true; integers by value, floats by IEEE totalOrder, text by bytes, sequences
   item by item, dicts by key and value pairs, globals by module and name, objects by class, arguments, new, state. */
struct qelemvir_compared qelemvir_compare(const uint64_t *first, size_t first_len, size_t first_count,
                                          const uint8_t *first_text, size_t first_text_len,
                                          const uint64_t *second, size_t second_len, size_t second_count,
                                          const uint8_t *second_text, size_t second_text_len);

/* The score of a sheet: a Dict with the Bytes keys `answers` (Dict, I64 item number 1 to 200 to I64 answer 0 to max), `reverse` (Set of
   answered item numbers), `max` (I64, 1 to 100) and `flipped` (Bool); other keys do not matter. BAD_TABLE, then SHEET_SHAPE exactly where
   the value is none. The score is the sum of the answers if `flipped` is true; else each reversed item counts max less its answer. */
struct qelemvir_scored qelemvir_score(const uint64_t *words, size_t words_len, size_t count, const uint8_t *text, size_t text_len);

/* The working rooms at their stated lengths: make one, use it for any number of readings, one at a time. */
/* from rooms.txt, by tests/rooms: struct */
struct qelemvir_rooms {
    uint64_t nodes[QELEMVIR_NODES];
    uint16_t owners[QELEMVIR_OWNERS];
    uint16_t children[QELEMVIR_CHILDREN];
    uint16_t stack[QELEMVIR_STACK];
    uint16_t marks[QELEMVIR_MARKS];
    uint32_t keys[QELEMVIR_KEYS];
    uint16_t held[QELEMVIR_HELD];
    uint8_t unescaped[QELEMVIR_UNESCAPED];
    uint16_t starts[QELEMVIR_STARTS];
    uint16_t sorted[QELEMVIR_SORTED];
    uint64_t measures[QELEMVIR_MEASURES];
}; /* 252 KB */
/* end of struct */

/* The arguments of a reading behind what it reads, in such rooms; `table` and `text` have QELEMVIR_TABLE words and QELEMVIR_TEXT bytes. */
/* from rooms.txt, by tests/rooms: arguments */
#define QELEMVIR_LEND(rooms, table, text)   \
    (rooms)->nodes, QELEMVIR_NODES,         \
    (rooms)->owners, QELEMVIR_OWNERS,       \
    (rooms)->children, QELEMVIR_CHILDREN,   \
    (rooms)->stack, QELEMVIR_STACK,         \
    (rooms)->marks, QELEMVIR_MARKS,         \
    (rooms)->keys, QELEMVIR_KEYS,           \
    (rooms)->held, QELEMVIR_HELD,           \
    (rooms)->unescaped, QELEMVIR_UNESCAPED, \
    (rooms)->starts, QELEMVIR_STARTS,       \
    (rooms)->sorted, QELEMVIR_SORTED,       \
    (rooms)->measures, QELEMVIR_MEASURES,   \
    table, QELEMVIR_TABLE,                  \
    text, QELEMVIR_TEXT
/* end of arguments */

/* from_bytes_prefix in such rooms. */
static inline struct qelemvir_answer qelemvir_read_prefix(struct qelemvir_rooms *rooms, const uint8_t *pickle, size_t pickle_len,
                                                          uint64_t *table, uint8_t *text)
{
    return qelemvir_from_bytes_prefix(pickle, pickle_len, QELEMVIR_LEND(rooms, table, text));
}

/* from_bytes in such rooms. */
static inline struct qelemvir_answer qelemvir_read(struct qelemvir_rooms *rooms, const uint8_t *pickle, size_t pickle_len,
                                                   uint64_t *table, uint8_t *text)
{
    return qelemvir_from_bytes(pickle, pickle_len, QELEMVIR_LEND(rooms, table, text));
}

/* plain_from_bytes_prefix in such rooms. */
static inline struct qelemvir_answer qelemvir_read_plain_prefix(struct qelemvir_rooms *rooms, const uint8_t *pickle, size_t pickle_len,
                                                                uint64_t *table, uint8_t *text)
{
    return qelemvir_plain_from_bytes_prefix(pickle, pickle_len, QELEMVIR_LEND(rooms, table, text));
}

/* plain_from_bytes in such rooms. */
static inline struct qelemvir_answer qelemvir_read_plain(struct qelemvir_rooms *rooms, const uint8_t *pickle, size_t pickle_len,
                                                         uint64_t *table, uint8_t *text)
{
    return qelemvir_plain_from_bytes(pickle, pickle_len, QELEMVIR_LEND(rooms, table, text));
}

/* from_bytes_batch in such rooms, of `count` sheets, with as many answers. */
static inline struct qelemvir_answer qelemvir_read_batch(struct qelemvir_rooms *rooms, const uint8_t *sheets, size_t sheets_len,
                                                         const uint64_t *lengths, struct qelemvir_answer *answers, size_t count,
                                                         uint64_t *table, uint8_t *text)
{
    return qelemvir_from_bytes_batch(sheets, sheets_len, lengths, count, (uint64_t *)answers, QELEMVIR_ANSWER * count,
                                     QELEMVIR_LEND(rooms, table, text));
}

#ifdef __cplusplus
}
#endif

#endif
