/* caller: makes the library's calls and holds what they do against what is due.

   Requests come on standard input in the form that wire.py gives them. For each that comes out otherwise than due there is a line
   on standard output, the request's tag, a tab and what differs; the last line is `done` and the number of requests of each call.
   A request that dies or takes a minute, a batch ten, is told in the same way, and ends the program.

   Everything that is lent is dirty: filled with noise, and with more noise before and behind it, which no call may touch. */
#include <signal.h>
#include <stdarg.h>
#include <stdint.h>
#include <stdio.h>
#include <stdlib.h>
#include <string.h>
#include <unistd.h>

#include "qelemvir.h"

enum call { VALUE, PREFIX, WHOLE, WRITE, LIST, COMPARE, LAWS, SCORE, BATCH, PLAIN_PREFIX, PLAIN_WHOLE, CALLS };
static const char *const names[CALLS] = {"value", "from_bytes_prefix", "from_bytes", "to_bytes", "list", "compare", "compare's laws", "score",
                                         "from_bytes_batch", "plain_from_bytes_prefix", "plain_from_bytes"};

/* A request; words and bytes follow it, filled up to a whole number of words. */
struct request {
    uint64_t call, tag, seed;        /* the seed chooses the noise and how much longer than stated slices are */
    uint64_t number, detail, length; /* the answer due; of compare `length` is the sign, of score the score, of a batch how many sheets */
    uint64_t which, size;            /* a reading, batch: a slice and how much longer it is; VALUE: words lent, count; COMPARE: slots; SCORE: -, items */
    uint64_t words, bytes;
};

static unsigned long long done[CALLS];

static void differs(const struct request *r, const char *format, ...)
{
    va_list arguments;
    va_start(arguments, format);
    printf("%llu\t%s: ", (unsigned long long)r->tag, names[r->call]);
    vprintf(format, arguments);
    printf("\n");
    va_end(arguments);
}

static void fail(const char *why)
{
    fprintf(stderr, "caller: %s\n", why);
    exit(2);
}

/* The next number of splitmix64. */
static uint64_t mix(uint64_t x)
{
    x += 0x9E3779B97F4A7C15u;
    x = (x ^ (x >> 30)) * 0xBF58476D1CE4E5B9u;
    x = (x ^ (x >> 27)) * 0x94D049BB133111EBu;
    return x ^ (x >> 31);
}

/* Noise, and at how many places the noise for a seed may begin: what is left behind the last covers all that is lent. */
#define NOISE_WORDS 196608
#define NOISE_STARTS 65536
static uint64_t noise[NOISE_WORDS];

static void make_noise(void)
{
    for (size_t i = 0; i < NOISE_WORDS; i++)
        noise[i] = mix(i);
}

static const uint8_t *noise_of(uint64_t seed)
{
    return (const uint8_t *)(noise + mix(seed) % NOISE_STARTS);
}

/* Lent memory: `bytes` of it, with a gap before and behind. */
#define GAP 64
struct memory {
    uint8_t *at;
    size_t bytes;
    const uint8_t *was; /* what it was filled with; like `at`, it has its gap before it */
};

static struct memory new_memory(size_t bytes)
{
    size_t all = (GAP + bytes + GAP + 63) / 64 * 64;
    uint8_t *made = aligned_alloc(64, all);
    if (!made)
        fail("no memory");
    return (struct memory){made + GAP, bytes, NULL};
}

static void make_dirty(struct memory *m, uint64_t seed)
{
    m->was = noise_of(seed) + GAP;
    memcpy(m->at - GAP, m->was - GAP, GAP + m->bytes + GAP);
}

/* Whether it is as it was from a place on, and in the gap before it. */
static int kept_from(const struct memory *m, size_t from)
{
    return memcmp(m->at - GAP, m->was - GAP, GAP) == 0 && memcmp(m->at + from, m->was + from, m->bytes - from + GAP) == 0;
}

static int is_zero(const uint8_t *at, size_t bytes)
{
    return at[0] == 0 && memcmp(at, at + 1, bytes - 1) == 0;
}

/* The slices of a reading, by number, element, name and stated length. */
/* from rooms.txt, by tests/rooms: slices */
#define ROOMS 11
#define SLICES 13
#define EACH_ROOM(of)                             \
    of(0, uint64_t, nodes, QELEMVIR_NODES)        \
    of(1, uint16_t, owners, QELEMVIR_OWNERS)      \
    of(2, uint16_t, children, QELEMVIR_CHILDREN)  \
    of(3, uint16_t, stack, QELEMVIR_STACK)        \
    of(4, uint16_t, marks, QELEMVIR_MARKS)        \
    of(5, uint32_t, keys, QELEMVIR_KEYS)          \
    of(6, uint16_t, held, QELEMVIR_HELD)          \
    of(7, uint8_t, unescaped, QELEMVIR_UNESCAPED) \
    of(8, uint16_t, starts, QELEMVIR_STARTS)      \
    of(9, uint16_t, sorted, QELEMVIR_SORTED)      \
    of(10, uint64_t, measures, QELEMVIR_MEASURES)
#define EACH_OUTPUT(of)                     \
    of(11, uint64_t, table, QELEMVIR_TABLE) \
    of(12, uint8_t, text, QELEMVIR_TEXT)
/* end of slices */

#define ROOM(i, type, name, stated) {#name, sizeof(type), stated, offsetof(struct qelemvir_rooms, name), {0}, 0},
#define OUTPUT(i, type, name, stated) {#name, sizeof(type), stated, 0, {0}, 0},
static struct {
    const char *name;
    size_t element, stated, offset; /* the offset: of a room in the header's struct */
    struct memory memory;
    size_t length;
} slices[SLICES] = {EACH_ROOM(ROOM) EACH_OUTPUT(OUTPUT)};
static struct memory *const table = &slices[ROOMS].memory, *const text = &slices[ROOMS + 1].memory;

/* The answers of a batch: as a slice it stands behind those of a reading. */
#define ANSWERS SLICES
#define MOST_SHEETS 1024
static struct memory answers;

/* The value last given and the two before it, with noise behind the words. */
#define VALUES 3
#define MOST_WORDS 16384
#define MOST_TEXT 131072
static struct value {
    struct memory words, text;
    size_t words_len, count, text_len;
} values[VALUES];
static unsigned current;

/* The value last given, or the one before it, and so on. */
static const struct value *given(uint64_t before)
{
    return &values[(current + VALUES - before % VALUES) % VALUES];
}

/* Output of list and to_bytes. */
#define LONGER 256
static struct memory output;

static void make_memory(void)
{
    for (size_t i = 0; i < SLICES; i++)
        slices[i].memory = new_memory(slices[i].element * slices[i].stated);
    for (size_t i = 0; i < VALUES; i++) {
        values[i].words = new_memory(sizeof(uint64_t) * MOST_WORDS);
        values[i].text = new_memory(MOST_TEXT);
    }
    output = new_memory(QELEMVIR_LISTING_MAX + LONGER);
    answers = new_memory(sizeof(uint64_t) * (QELEMVIR_ANSWER * MOST_SHEETS + LONGER));
}

static void take_value(const struct request *r, const uint8_t *data)
{
    current = (current + 1) % VALUES;
    struct value *v = &values[current];
    if (r->which > MOST_WORDS || r->words > r->which || r->bytes > MOST_TEXT)
        fail("a value that is too large");
    make_dirty(&v->words, r->seed);
    memcpy(v->words.at, data, sizeof(uint64_t) * r->words);
    memcpy(v->text.at, data + sizeof(uint64_t) * r->words, r->bytes);
    v->words_len = r->which;
    v->count = r->size;
    v->text_len = r->bytes;
}

static void check_answer(const struct request *r, struct qelemvir_answer got, struct qelemvir_answer due)
{
    if (got.number == due.number && got.detail == due.detail && got.length == due.length && got.count == due.count)
        return;
    differs(r, "number %llu detail %llu length %llu count %llu, due is %llu %llu %llu %llu",
            (unsigned long long)got.number, (unsigned long long)got.detail, (unsigned long long)got.length,
            (unsigned long long)got.count, (unsigned long long)due.number, (unsigned long long)due.detail,
            (unsigned long long)due.length, (unsigned long long)due.count);
}

/* Each slice dirty, as long as stated or up to a gap longer; the request may say another length for one. */
static void lend(const struct request *r)
{
    for (size_t i = 0; i < SLICES; i++) {
        uint64_t longer = mix(r->seed + SLICES + i);
        slices[i].length = slices[i].stated + (longer % 2 ? longer / 2 % (GAP / slices[i].element + 1) : 0);
        if (i == r->which)
            slices[i].length = r->size + slices[i].stated;
        make_dirty(&slices[i].memory, r->seed + i);
    }
}

static struct qelemvir_answer reading(uint64_t call, const uint8_t *pickle, size_t pickle_len)
{
#define LENT(i, type, name, stated) , (type *)slices[i].memory.at, slices[i].length
#define ALL EACH_ROOM(LENT) EACH_OUTPUT(LENT)
    switch (call) {
    case PREFIX:
        return qelemvir_from_bytes_prefix(pickle, pickle_len ALL);
    case WHOLE:
        return qelemvir_from_bytes(pickle, pickle_len ALL);
    case PLAIN_PREFIX:
        return qelemvir_plain_from_bytes_prefix(pickle, pickle_len ALL);
    default:
        return qelemvir_plain_from_bytes(pickle, pickle_len ALL);
    }
}

/* After ShortRoom, and BadLengths, every room is as it was; else it is zero up to its stated length, and as it was behind that. */
static void check_rooms(const struct request *r)
{
    for (size_t i = 0; i < ROOMS; i++) {
        const struct memory *room = &slices[i].memory;
        int touched = r->number != QELEMVIR_SHORT_ROOM && r->number != QELEMVIR_BAD_LENGTHS;
        if (touched && !is_zero(room->at, room->bytes))
            differs(r, "room %s is not zero", slices[i].name);
        if (!kept_from(room, touched ? room->bytes : 0))
            differs(r, "room %s has changed where it must not", slices[i].name);
    }
}

/* The outputs have the current value, if nothing is refused, and are as they were behind it. */
static void check_filled(const struct request *r)
{
    const struct value *v = given(0);
    size_t filled = r->number ? 0 : sizeof(uint64_t) * QELEMVIR_RECORD * v->count, written = r->number ? 0 : v->text_len;
    if (memcmp(table->at, v->words.at, filled) != 0) {
        const uint64_t *got = (uint64_t *)table->at, *due = (uint64_t *)v->words.at;
        size_t k = 0;
        while (got[k] == due[k])
            k++;
        differs(r, "word %zu of the table is %llx, due is %llx", k, (unsigned long long)got[k], (unsigned long long)due[k]);
    }
    if (memcmp(text->at, v->text.at, written) != 0)
        differs(r, "the text differs");
    if (!kept_from(table, filled))
        differs(r, "the table has changed behind what is filled");
    if (!kept_from(text, written))
        differs(r, "the text has changed behind what is filled");
}

/* The same of a reading, and that the value has its length of text. */
static void check_value(const struct request *r)
{
    const struct value *v = given(0);
    check_filled(r);
    if (r->number == 0) {
        size_t length = qelemvir_text_len((uint64_t *)table->at, slices[ROOMS].length, v->count);
        if (length != v->text_len)
            differs(r, "text_len is %zu, due is %zu", length, v->text_len);
    }
}

/* The header's own full reading, in its struct of rooms. */
static void check_in_rooms(const struct request *r, const uint8_t *pickle, struct qelemvir_answer due)
{
    static struct qelemvir_rooms rooms;
    memcpy(&rooms, noise_of(r->seed), sizeof rooms);
    make_dirty(table, r->seed);
    make_dirty(text, r->seed);
    struct qelemvir_answer (*const call)(struct qelemvir_rooms *, const uint8_t *, size_t, uint64_t *, uint8_t *) =
        r->call == PREFIX ? qelemvir_read_prefix : qelemvir_read;
    check_answer(r, call(&rooms, pickle, r->bytes, (uint64_t *)table->at, text->at), due);
    check_value(r);
    for (size_t i = 0; i < ROOMS; i++)
        if (!is_zero((uint8_t *)&rooms + slices[i].offset, slices[i].memory.bytes))
            differs(r, "room %s of the struct is not zero", slices[i].name);
}

static void check_reading(const struct request *r, const uint8_t *pickle)
{
    struct qelemvir_answer due = {r->number, r->detail, r->length, r->number ? 0 : given(0)->count};
    lend(r);
    check_answer(r, reading(r->call, pickle, r->bytes), due);
    check_rooms(r);
    check_value(r);
    if ((r->call == PREFIX || r->call == WHOLE) && r->number != QELEMVIR_SHORT_ROOM && mix(r->seed) % 16 == 0)
        check_in_rooms(r, pickle, due);
}

static void check_sheet(const struct request *r, size_t sheet, const uint64_t *got, const uint64_t *due, const char *whose)
{
    if (memcmp(got, due, sizeof(uint64_t) * QELEMVIR_ANSWER) != 0)
        differs(r, "sheet %zu: number %llu detail %llu length %llu count %llu, %s %llu %llu %llu %llu", sheet,
                (unsigned long long)got[0], (unsigned long long)got[1], (unsigned long long)got[2], (unsigned long long)got[3], whose,
                (unsigned long long)due[0], (unsigned long long)due[1], (unsigned long long)due[2], (unsigned long long)due[3]);
}

/* Separate calls, one for each sheet, with the same noise in the outputs before the first: they answer as the batch did, and leave the
   outputs as it left them. */
static void check_separately(const struct request *r, const uint64_t *lengths, const uint8_t *sheets)
{
    static uint64_t batch_table[QELEMVIR_TABLE + GAP];
    static uint8_t batch_text[QELEMVIR_TEXT + GAP];
    size_t table_bytes = table->bytes + GAP, text_bytes = text->bytes + GAP;
    memcpy(batch_table, table->at, table_bytes);
    memcpy(batch_text, text->at, text_bytes);
    lend(r);
    for (size_t i = 0; i < r->length; i++) {
        struct qelemvir_answer by_itself = reading(WHOLE, sheets, lengths[i]);
        const uint64_t numbers[QELEMVIR_ANSWER] = {by_itself.number, by_itself.detail, by_itself.length, by_itself.count};
        check_sheet(r, i, (uint64_t *)answers.at + QELEMVIR_ANSWER * i, numbers, "a separate call answers");
        sheets += lengths[i];
    }
    if (memcmp(batch_table, table->at, table_bytes) != 0)
        differs(r, "separate calls leave another table");
    if (memcmp(batch_text, text->at, text_bytes) != 0)
        differs(r, "separate calls leave another text");
}

/* The header's own batch, in its struct of rooms: the same answers. */
static void check_batch_in_rooms(const struct request *r, const uint64_t *lengths, const uint8_t *sheets, const uint64_t *due)
{
    static struct qelemvir_rooms rooms;
    static struct qelemvir_answer got[MOST_SHEETS];
    memcpy(&rooms, noise_of(r->seed), sizeof rooms);
    make_dirty(table, r->seed);
    make_dirty(text, r->seed);
    check_answer(r, qelemvir_read_batch(&rooms, sheets, r->bytes, lengths, got, r->length, (uint64_t *)table->at, text->at),
                 (struct qelemvir_answer){0, 0, 0, 0});
    check_filled(r);
    for (size_t i = 0; i < r->length; i++)
        check_sheet(r, i, (uint64_t *)&got[i], due + QELEMVIR_ANSWER * i, "in the struct of rooms due is");
}

/* A batch of the sheets that the bytes are, end to end. The words are their lengths and, if it is due to succeed, the answers due. */
static void check_batch(const struct request *r, const uint8_t *data)
{
    const uint64_t *lengths = (const uint64_t *)data, *due = lengths + r->length;
    const uint8_t *sheets = data + sizeof(uint64_t) * r->words;
    size_t places = QELEMVIR_ANSWER * r->length, filled = r->number ? 0 : sizeof(uint64_t) * places;
    size_t lent = places + (r->which == ANSWERS ? r->size : mix(r->seed) % LONGER);
    if (r->length > MOST_SHEETS || r->words != r->length + filled / sizeof(uint64_t) || lent > places + LONGER)
        fail("a batch that is none");
    lend(r);
    answers.bytes = sizeof(uint64_t) * lent;
    make_dirty(&answers, r->seed + ANSWERS);
    struct qelemvir_answer got = qelemvir_from_bytes_batch(sheets, r->bytes, lengths, r->length, (uint64_t *)answers.at, lent ALL);
    check_answer(r, got, (struct qelemvir_answer){r->number, r->detail, 0, 0});
    check_rooms(r);
    check_filled(r);
    if (!kept_from(&answers, filled))
        differs(r, "the answers have changed where they must not");
    if (r->number != 0)
        return;
    for (size_t i = 0; i < r->length; i++)
        check_sheet(r, i, (uint64_t *)answers.at + QELEMVIR_ANSWER * i, due + QELEMVIR_ANSWER * i, "due is");
    check_separately(r, lengths, sheets);
    if (mix(r->seed) % 4 == 0)
        check_batch_in_rooms(r, lengths, sheets, due);
}

/* to_bytes or list of the current value with an output of so many bytes. */
static void check_output_of(const struct request *r, const uint8_t *due, size_t length)
{
    const struct value *v = given(0);
    int fits = r->number == 0 && r->bytes <= length;
    struct qelemvir_answer wanted = {fits ? 0 : r->number ? r->number : QELEMVIR_OUTPUT_FULL, r->detail, fits ? r->bytes : 0, 0};
    output.bytes = length;
    make_dirty(&output, r->seed + length);
    struct qelemvir_answer got = (r->call == WRITE ? qelemvir_to_bytes : qelemvir_list)(
        (uint64_t *)v->words.at, v->words_len, v->count, v->text.at, v->text_len, output.at, length);
    check_answer(r, got, wanted);
    if (memcmp(output.at, due, fits ? r->bytes : 0) != 0)
        differs(r, "the bytes written differ");
    if (!kept_from(&output, fits ? r->bytes : 0))
        differs(r, "the output has changed where it must not");
}

/* An output that is exactly long enough, one byte short, and longer; none at all for a table that is refused. */
static void check_output(const struct request *r, const uint8_t *due)
{
    if (r->bytes > QELEMVIR_LISTING_MAX)
        fail("an output that is too long");
    check_output_of(r, due, r->bytes);
    if (r->bytes > 0)
        check_output_of(r, due, r->bytes - 1);
    check_output_of(r, due, r->bytes + 1 + mix(r->seed) % LONGER);
}

static struct qelemvir_compared compared(const struct value *a, const struct value *b)
{
    return qelemvir_compare((uint64_t *)a->words.at, a->words_len, a->count, a->text.at, a->text_len, (uint64_t *)b->words.at,
                            b->words_len, b->count, b->text.at, b->text_len);
}

static void check_compare(const struct request *r)
{
    struct qelemvir_compared got = compared(given(r->which), given(r->size));
    if (got.number != r->number || got.detail != r->detail || got.sign != (int64_t)r->length)
        differs(r, "number %llu detail %llu sign %lld, due is %llu %llu %lld", (unsigned long long)got.number,
                (unsigned long long)got.detail, (long long)got.sign, (unsigned long long)r->number, (unsigned long long)r->detail,
                (long long)r->length);
}

/* The same records up to their counts, and the same text. */
static int identical(const struct value *a, const struct value *b)
{
    return a->count == b->count && a->text_len == b->text_len &&
           memcmp(a->words.at, b->words.at, sizeof(uint64_t) * QELEMVIR_RECORD * a->count) == 0 &&
           memcmp(a->text.at, b->text.at, a->text_len) == 0;
}

/* Of the three values last given: the sign is turned round with the arguments, transitive, and 0 for identical tables alone. */
static void check_laws(const struct request *r)
{
    int64_t sign[VALUES][VALUES];
    for (size_t i = 0; i < VALUES; i++)
        for (size_t j = 0; j < VALUES; j++) {
            struct qelemvir_compared got = compared(given(i), given(j));
            sign[i][j] = got.sign;
            if (got.number != 0 || got.detail != 0 || got.sign < -1 || got.sign > 1)
                differs(r, "number %llu detail %llu sign %lld of values %zu and %zu", (unsigned long long)got.number,
                        (unsigned long long)got.detail, (long long)got.sign, i, j);
            if ((got.sign == 0) != identical(given(i), given(j)))
                differs(r, "sign %lld of values %zu and %zu", (long long)got.sign, i, j);
        }
    for (size_t i = 0; i < VALUES; i++)
        for (size_t j = 0; j < VALUES; j++) {
            if (sign[i][j] != -sign[j][i])
                differs(r, "sign %lld of values %zu and %zu, not turned round", (long long)sign[i][j], i, j);
            for (size_t k = 0; k < VALUES; k++)
                if (sign[i][j] < 0 && sign[j][k] < 0 && sign[i][k] >= 0)
                    differs(r, "value %zu is before %zu and that before %zu, but not the first before the last", i, j, k);
        }
}

static void check_score(const struct request *r)
{
    const struct value *v = given(0);
    struct qelemvir_scored got = qelemvir_score((uint64_t *)v->words.at, v->words_len, v->count, v->text.at, v->text_len);
    if (got.number != r->number || got.detail != r->detail || got.score != r->length || got.items != r->size)
        differs(r, "number %llu detail %llu score %llu items %llu, due is %llu %llu %llu %llu", (unsigned long long)got.number,
                (unsigned long long)got.detail, (unsigned long long)got.score, (unsigned long long)got.items,
                (unsigned long long)r->number, (unsigned long long)r->detail, (unsigned long long)r->length,
                (unsigned long long)r->size);
}

static const struct request *at_work;

static void died(int signal)
{
    differs(at_work, "died of signal %d", signal);
    fflush(stdout);
    _exit(3);
}

static void answer_request(const struct request *r, const uint8_t *data)
{
    at_work = r;
    alarm(r->call == BATCH ? 600 : 60);
    switch (r->call) {
    case VALUE:
        take_value(r, data);
        break;
    case PREFIX:
    case WHOLE:
    case PLAIN_PREFIX:
    case PLAIN_WHOLE:
        check_reading(r, data);
        break;
    case WRITE:
    case LIST:
        check_output(r, data);
        break;
    case COMPARE:
        check_compare(r);
        break;
    case LAWS:
        check_laws(r);
        break;
    case SCORE:
        check_score(r);
        break;
    case BATCH:
        check_batch(r, data);
        break;
    default:
        fail("no such call");
    }
    done[r->call]++;
}

/* A request with its data, in words; nothing at the end of input. */
static uint64_t *next_request(void)
{
    static uint64_t *room;
    static size_t words;
    struct request r;
    size_t head = sizeof r / sizeof(uint64_t);
    if (fread(&r, sizeof r, 1, stdin) != 1)
        return NULL;
    size_t data = r.words + (r.bytes + 7) / 8;
    if (head + data > words) {
        words = 2 * (head + data);
        free(room);
        room = malloc(sizeof(uint64_t) * words);
        if (!room)
            fail("no memory");
    }
    memcpy(room, &r, sizeof r);
    if (fread(room + head, sizeof(uint64_t), data, stdin) != data)
        fail("a request that breaks off");
    return room;
}

int main(void)
{
    const int deadly[] = {SIGSEGV, SIGBUS, SIGILL, SIGFPE, SIGABRT, SIGALRM};
    for (size_t i = 0; i < sizeof deadly / sizeof deadly[0]; i++)
        signal(deadly[i], died);
    make_noise();
    make_memory();
    for (uint64_t *r; (r = next_request());)
        answer_request((const struct request *)r, (const uint8_t *)r + sizeof(struct request));
    printf("done");
    for (size_t i = 0; i < CALLS; i++)
        printf(" %llu", done[i]);
    printf("\n");
    return 0;
}
