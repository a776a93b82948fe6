/* Measures the most stack that each function of the C interface takes, and compares it with the figures of the header. A call is
 * made on a stack of its own that was painted before, and the deepest word that it changed tells. The same call of a function that
 * does nothing, whose need is its return address, is taken off. Everything is done with two paints, since a call may store a word
 * that looks like one of them.
 *
 * The calls: steps that are accepted and steps that are refused; the files that the arguments name; the largest models with scaled
 * rows and with fitted ones and a drift, and every pair of kinds of sets, and those with two of a kind cut at every length and with
 * every third byte changed; growth, and models that are not calm; directions, guards and steps that aren't there, slacks that no
 * step is within, and lists and memory of a wrong length.
 *
 * What is measured is how far the stack pointer went: each deepest path ends in a function that pushes registers.
 * Returns 1 where a need is above its figure, or a figure above twice the need, or a call isn't answered as it should be. */
#define _XOPEN_SOURCE 600
#include "pepperscarp.h"

#include <stdio.h>
#include <string.h>
#include <ucontext.h>

static int wrong = 0;

/* ---- the call */

enum { STEP, SWEEP, JUDGE, LISTING, WRITE, CALM, SLACK_LIMIT, STEPS_WITHIN, FUNCTIONS };

typedef uint64_t step_function(size_t, const int32_t *, int64_t *, int64_t *);
typedef uint64_t list_function(const uint8_t *, size_t, size_t, int64_t *, size_t, int64_t *, size_t);
/* The listing and the writing: on x86-64 a size_t is a uint64_t. */
typedef uint64_t bytes_function(const uint8_t *, size_t, uint8_t *, size_t);
typedef uint64_t calm_function(const uint8_t *, size_t);
/* The limit of a step and the steps within a slack, for the same reason. */
typedef uint64_t slack_function(const uint8_t *, size_t, uint64_t);

/* The functions that `call` calls. It can't know which they are. */
static step_function *volatile step_called;
static list_function *volatile list_called;
static bytes_function *volatile bytes_called;
static calm_function *volatile calm_called;
static slack_function *volatile slack_called;

static int function;
static size_t n, length, number, rows, room;
static int32_t matrix[36];
static int64_t r[6], e[6];
static const uint8_t *file;
static int64_t bounds[PEPPERSCARP_STEPS_MOST + 1], slacks[PEPPERSCARP_STEPS_MOST + 1];
static uint8_t out[PEPPERSCARP_LISTING_ROOM];
static uint64_t answer;

static void call(void)
{
    switch (function) {
    case STEP:
        answer = step_called(n, matrix, r, e);
        break;
    case LISTING:
    case WRITE:
        answer = bytes_called(file, length, out, room);
        break;
    case CALM:
        answer = calm_called(file, length);
        break;
    case SLACK_LIMIT:
    case STEPS_WITHIN:
        answer = slack_called(file, length, number);
        break;
    default:
        answer = list_called(file, length, number, bounds, rows, slacks, rows);
    }
}

/* Functions that do nothing. They store nothing either, as c/test compiles them, with -O2. */

static uint64_t no_step(size_t a, const int32_t *b, int64_t *c, int64_t *d)
{
    (void)a, (void)b, (void)c, (void)d;
    return 0;
}

static uint64_t no_list(const uint8_t *a, size_t b, size_t c, int64_t *d, size_t f, int64_t *g, size_t h)
{
    (void)a, (void)b, (void)c, (void)d, (void)f, (void)g, (void)h;
    return 0;
}

static uint64_t no_bytes(const uint8_t *a, size_t b, uint8_t *c, size_t d)
{
    (void)a, (void)b, (void)c, (void)d;
    return 0;
}

static uint64_t no_calm(const uint8_t *a, size_t b)
{
    (void)a, (void)b;
    return 0;
}

static uint64_t no_slack(const uint8_t *a, size_t b, uint64_t c)
{
    (void)a, (void)b, (void)c;
    return 0;
}

/* ---- the painted stack */

#define WORDS 8192
#define RETURN_ADDRESS 8
static uint64_t stack[WORDS];

/* How deep the call goes in a stack of this paint, in bytes from its top. */
static size_t depth(uint64_t paint)
{
    ucontext_t inside, outside;
    size_t i;
    for (i = 0; i < WORDS; i++)
        stack[i] = paint;
    if (getcontext(&inside) != 0) {
        wrong = 1;
        return 0;
    }
    inside.uc_stack.ss_sp = stack;
    inside.uc_stack.ss_size = sizeof stack;
    inside.uc_link = &outside;
    makecontext(&inside, call, 0);
    if (swapcontext(&outside, &inside) != 0)
        wrong = 1;
    for (i = 0; i < WORDS && stack[i] == paint; i++)
        ;
    return (WORDS - i) * sizeof stack[0];
}

/* The deeper of the two paints. A step starts from the same r and e in both. */
static size_t deepest(void)
{
    int64_t old_r[6], old_e[6];
    size_t one, other;
    memcpy(old_r, r, sizeof r);
    memcpy(old_e, e, sizeof e);
    one = depth(UINT64_C(0x5A5A5A5A5A5A5A5A));
    memcpy(r, old_r, sizeof r);
    memcpy(e, old_e, sizeof e);
    other = depth(UINT64_C(0xA5A5A5A5A5A5A5A5));
    return one > other ? one : other;
}

static size_t idle[FUNCTIONS], need[FUNCTIONS];

/* Makes the call that was laid out, and keeps the largest need of its function. */
static void measure(int which)
{
    size_t taken;
    function = which;
    step_called = pepperscarp_step;
    list_called = which == SWEEP ? pepperscarp_sweep : pepperscarp_judge;
    bytes_called = which == WRITE ? pepperscarp_write : pepperscarp_listing;
    calm_called = pepperscarp_calm;
    slack_called = which == SLACK_LIMIT ? pepperscarp_slack_limit : pepperscarp_steps_within;
    taken = deepest() - idle[which] + RETURN_ADDRESS;
    if (taken > need[which])
        need[which] = taken;
}

static void measure_idle(void)
{
    step_called = no_step;
    list_called = no_list;
    bytes_called = no_bytes;
    calm_called = no_calm;
    slack_called = no_slack;
    for (function = 0; function < FUNCTIONS; function++)
        idle[function] = deepest();
}

/* ---- steps */

static void step(size_t coordinates, int32_t entry, int64_t first, int64_t error, int64_t last, unsigned expected)
{
    size_t i, k;
    n = coordinates;
    for (i = 0; i < 6; i++) {
        for (k = 0; k < 6; k++)
            matrix[6 * i + k] = i < n && k < n ? entry : 0;
        r[i] = i < n ? first : 0;
        e[i] = i < n ? error : 0;
    }
    r[5] += last;
    measure(STEP);
    if (PEPPERSCARP_NUMBER(answer) != expected)
        wrong = 1;
}

static void steps(void)
{
    size_t i;
    for (i = 1; i <= 6; i++) {
        step(i, 65536, 1048576, 0, 0, PEPPERSCARP_FINISHED);
        step(i, -65535, -1048577, 3, 0, PEPPERSCARP_FINISHED);
        step(i, 131072, 1073741823, 1, 0, PEPPERSCARP_FINISHED);
        step(i, 131073, 1048576, 0, 0, PEPPERSCARP_INVALID);
        step(i, 1, 1048576, -1, 0, PEPPERSCARP_INVALID);
        step(i, 1, 1073741824, 1, 0, PEPPERSCARP_INVALID);
        step(i, 1, INT64_MIN, INT64_MAX, 0, PEPPERSCARP_INVALID);
    }
    step(5, 1, 1, 0, 1, PEPPERSCARP_INVALID);
    step(0, 1, 1, 0, 0, PEPPERSCARP_INVALID);
    step(7, 1, 1, 0, 0, PEPPERSCARP_INVALID);
    step(SIZE_MAX, 1, 1, 0, 0, PEPPERSCARP_INVALID);
}

/* ---- files */

static void one_call(int which, size_t asked, size_t lent)
{
    number = asked;
    rows = lent;
    room = lent;
    measure(which);
}

/* The writing with so much room: a file that the sweep refused has the same number, any other has the one that is expected. */
static void write_call(size_t lent, unsigned said, unsigned expected)
{
    one_call(WRITE, 0, lent);
    if (PEPPERSCARP_NUMBER(answer) != (PEPPERSCARP_FILE_REFUSED(said) ? said : expected))
        wrong = 1;
}

/* A question about a calm model: a file that the sweep refused has the same number, a model that is not calm has 26, and any other
 * the number that is expected. */
static void slack_call(int which, uint64_t asked, unsigned said, int calm, unsigned expected)
{
    one_call(which, asked, 0);
    if (PEPPERSCARP_NUMBER(answer) != (PEPPERSCARP_FILE_REFUSED(said) ? said : calm ? expected : PEPPERSCARP_NOT_CALM))
        wrong = 1;
}

/* Whether the model is calm, a step of 0 to K and one beyond, and slacks that all steps are within and none. */
static void calm_calls(size_t k, unsigned said)
{
    int calm;
    one_call(CALM, 0, 0);
    calm = PEPPERSCARP_FIGURE(answer) == 1;
    if (PEPPERSCARP_NUMBER(answer) != (PEPPERSCARP_FILE_REFUSED(said) ? said : PEPPERSCARP_FINISHED))
        wrong = 1;
    if (!PEPPERSCARP_FILE_REFUSED(said) && calm && said == PEPPERSCARP_GROWTH)
        wrong = 1;
    slack_call(SLACK_LIMIT, k, said, calm, PEPPERSCARP_FINISHED);
    slack_call(SLACK_LIMIT, k + 1, said, calm, PEPPERSCARP_NO_SUCH_STEP);
    slack_call(STEPS_WITHIN, UINT64_MAX, said, calm, PEPPERSCARP_FINISHED);
    slack_call(STEPS_WITHIN, 1, said, calm, PEPPERSCARP_SLACK_TOO_SMALL);
}

/* The sweep of direction 0, the judge of guard 0, the text, the written file and the questions about a calm model, with what
 * PEPPERSCARP_NUMBER says of the sweep. */
static unsigned plain_calls(const uint8_t *bytes, size_t count)
{
    unsigned said;
    size_t k = count < 4 ? 1 : bytes[2] + 256u * bytes[3];
    k = k == 0 ? PEPPERSCARP_STEPS_DEFAULT : k;
    k = k <= PEPPERSCARP_STEPS_MOST ? k : PEPPERSCARP_STEPS_MOST;
    file = bytes;
    length = count;
    one_call(SWEEP, 0, k + 1);
    said = PEPPERSCARP_NUMBER(answer);
    one_call(JUDGE, 0, k + 1);
    one_call(LISTING, 0, sizeof out);
    if (answer == 0)
        wrong = 1;
    write_call(PEPPERSCARP_WRITE_ROOM, said, PEPPERSCARP_FINISHED);
    calm_calls(k, said);
    return said;
}

/* The same, then a direction and a guard that aren't there, and lists and memory that are too short. */
static unsigned all_calls(const uint8_t *bytes, size_t count)
{
    unsigned said = plain_calls(bytes, count);
    int which;
    for (which = SWEEP; which <= JUDGE; which++) {
        one_call(which, 16, PEPPERSCARP_STEPS_MOST + 1);
        one_call(which, 0, 0);
    }
    one_call(LISTING, 0, sizeof out - 1);
    if (answer != 0)
        wrong = 1;
    write_call(0, said, PEPPERSCARP_TOO_SHORT);
    return said;
}

struct model {
    uint8_t bytes[2048];
    size_t length;
};

static void put(struct model *m, int64_t value, int count)
{
    uint64_t bits = (uint64_t)value;
    while (count-- > 0) {
        m->bytes[m->length++] = (uint8_t)(bits & 255u);
        bits >>= 8;
    }
}

static void put_point(struct model *m, int kind, int32_t first)
{
    int i;
    put(m, kind, 1);
    for (i = 0; i < 6; i++)
        put(m, first + i, 4);
}

/* The records of a set: 0 a box, 1 a zonotope of 8 generators, 2 a list of 16 vertices. */
static void put_set(struct model *m, int first_kind, int set)
{
    int i;
    switch (set) {
    case 0:
        put_point(m, first_kind, -1000);
        put_point(m, first_kind + 1, 1000);
        break;
    case 1:
        put_point(m, first_kind + 2, 10);
        for (i = 0; i < 8; i++)
            put_point(m, first_kind + 3, 100 - 30 * i);
        break;
    default:
        for (i = 0; i < 16; i++)
            put_point(m, first_kind + 4, 1000 - 120 * i);
    }
}

#define NO_INPUT 3
#define SCALED 0x02
#define FITTED 0x03

/* The largest model: 6 coordinates, 256 steps, 16 directions, 16 guards. Its rows are of this kind, and all entries are the same.
 * One with fitted rows has a drift. An input set of NO_INPUT has no records. */
static struct model largest(int kind, int32_t entry, int initial, int input)
{
    struct model m;
    double factor = entry / 65536.0;
    int64_t bits;
    int i, k;
    memcpy(&bits, &factor, sizeof bits);
    m.length = 0;
    put(&m, 0x01, 1);
    put(&m, 6, 1);
    put(&m, PEPPERSCARP_STEPS_MOST, 2);
    for (i = 0; i < 6; i++) {
        put(&m, kind, 1);
        put(&m, i, 1);
        for (k = 0; k < 6; k++)
            put(&m, kind == FITTED ? bits : entry, kind == FITTED ? 8 : 4);
    }
    if (kind == FITTED)
        put_point(&m, 0x05, -500);
    put_set(&m, 0x10, initial);
    if (input != NO_INPUT)
        put_set(&m, 0x20, input);
    for (i = 0; i < 16; i++)
        put_point(&m, 0x30, 50 * i - 400);
    for (i = 0; i < 16; i++) {
        put(&m, 0x40, 1);
        put(&m, i, 1);
        put(&m, 100000 * i, 8);
    }
    put(&m, 0xFF, 1);
    return m;
}

static void models(int kind)
{
    int initial, input;
    size_t i;
    struct model m, changed;
    for (initial = 0; initial < 3; initial++)
        for (input = 0; input <= NO_INPUT; input++) {
            m = largest(kind, 10000, initial, input);
            if (all_calls(m.bytes, m.length) != PEPPERSCARP_FINISHED)
                wrong = 1;
            for (i = 0; initial == input && i < m.length; i++) {
                if (plain_calls(m.bytes, i) != 1)
                    wrong = 1;
                if (i % 3 != 0)
                    continue;
                changed = m;
                changed.bytes[i] = (uint8_t)~changed.bytes[i];
                plain_calls(changed.bytes, changed.length);
            }
            m = largest(kind, 131072, initial, input);
            if (all_calls(m.bytes, m.length) != PEPPERSCARP_GROWTH)
                wrong = 1;
        }
}

/* ---- the figures */

static void write_count(size_t count)
{
    if (count < 1000)
        printf("%zu", count);
    else
        printf("%zu,%03zu", count / 1000, count % 1000);
}

int main(int count, char **words)
{
    static const char *const names[FUNCTIONS] = {"step",  "sweep", "judge",       "listing",
                                                 "write", "calm",  "slack_limit", "steps_within"};
    static const size_t figures[FUNCTIONS] = {
        PEPPERSCARP_STEP_STACK,  PEPPERSCARP_SWEEP_STACK, PEPPERSCARP_JUDGE_STACK,       PEPPERSCARP_LISTING_STACK,
        PEPPERSCARP_WRITE_STACK, PEPPERSCARP_CALM_STACK,  PEPPERSCARP_SLACK_LIMIT_STACK, PEPPERSCARP_STEPS_WITHIN_STACK};
    static uint8_t read[4096];
    struct model m = largest(SCALED, 10000, 0, 0);
    FILE *in;
    size_t got;
    int i;

    /* What the dynamic linker does at the first call of memcpy and memset isn't measured. */
    pepperscarp_listing(m.bytes, m.length, out, sizeof out);
    measure_idle();
    steps();
    models(SCALED);
    models(FITTED);
    for (i = 1; i < count; i++) {
        in = fopen(words[i], "rb");
        if (in == NULL) {
            perror(words[i]);
            return 1;
        }
        got = fread(read, 1, sizeof read, in);
        fclose(in);
        all_calls(read, got);
    }

    printf("stack: ");
    for (i = 0; i < FUNCTIONS; i++) {
        printf("%s%s ", i == 0 ? "" : ", ", names[i]);
        write_count(need[i]);
    }
    printf(" bytes\n");
    if (wrong)
        printf("stack: a call wasn't answered as it should be\n");
    for (i = 0; i < FUNCTIONS; i++)
        if (need[i] > figures[i] || figures[i] > 2 * need[i]) {
            printf("stack: the header says %zu for %s, and the need is %zu\n", figures[i], names[i], need[i]);
            wrong = 1;
        }
    return wrong;
}
