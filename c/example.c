/* The C interface in use. Makes the specification's sample file (Listing 8), sweeps its direction, judges its guards, sweeps the
 * same model with a fitted row, sweeps and judges the model of Figures 24, which has a drift, judges levels at and beside bounds
 * and at both ends of 64 bits, makes two steps of Figures 5 and two of Figures 17, lists the sample in one call, writes the one
 * file of models that were saved in several ways, asks which models of Figures 33 are calm, compares the slacks of Figures 34 and
 * 35 with their limits, and shows refusals: six files, a direction with growth (Figures 8), calls that ask for what isn't there,
 * memory that is too small, a model that is not calm, and slacks that no step is within. What it writes is compared with
 * expected.txt. Returns 1 where a call is refused that should not be, or finishes that should not, or changes memory that it
 * should not, or where a slack is above its limit, or a number is taken for one that refuses the file and isn't, or the other way
 * round. */
#include "pepperscarp.h"

#include <inttypes.h>
#include <stdio.h>
#include <string.h>

/* ---- a model file of one coordinate, or of two */

struct file {
    uint8_t bytes[2048];
    size_t length;
};

/* A whole number of so many bytes, low byte first. */
static void put(struct file *f, int64_t value, int count)
{
    uint64_t bits = (uint64_t)value;
    while (count-- > 0) {
        f->bytes[f->length++] = (uint8_t)(bits & 255u);
        bits >>= 8;
    }
}

/* Six numbers, of which the first counts and the others have to be zero. */
static void put_six(struct file *f, int32_t first)
{
    int i;
    put(f, first, 4);
    for (i = 1; i < 6; i++)
        put(f, 0, 4);
}

static void put_record(struct file *f, uint8_t kind, int32_t first)
{
    put(f, kind, 1);
    put_six(f, first);
}

static struct file model(int steps)
{
    struct file f;
    f.length = 0;
    put(&f, 0x01, 1);
    put(&f, 1, 1);
    put(&f, steps, 2);
    return f;
}

/* The row in whole numbers of 1/65,536. */
static void put_scaled(struct file *f, int32_t entry)
{
    put(f, 0x02, 1);
    put(f, 0, 1);
    put_six(f, entry);
}

/* The row in numbers of binary64, which a double is here. */
static void put_fitted(struct file *f, double entry)
{
    int64_t bits;
    int i;
    memcpy(&bits, &entry, sizeof bits);
    put(f, 0x03, 1);
    put(f, 0, 1);
    put(f, bits, 8);
    for (i = 1; i < 6; i++)
        put(f, 0, 8);
}

static void put_drift(struct file *f, int32_t entry)
{
    put_record(f, 0x05, entry);
}

/* The boxes [low, high] of the initial and the input set, and direction 1. Without an input set its records are left out, and the
 * input is zero. */
static void put_sets(struct file *f, const int32_t initial[2], const int32_t input[2])
{
    put_record(f, 0x10, initial[0]);
    put_record(f, 0x11, initial[1]);
    if (input != NULL) {
        put_record(f, 0x20, input[0]);
        put_record(f, 0x21, input[1]);
    }
    put_record(f, 0x30, 1);
}

static void put_guard(struct file *f, int64_t level)
{
    put(f, 0x40, 1);
    put(f, 0, 1);
    put(f, level, 8);
}

static void put_guards(struct file *f, const int64_t *levels, size_t count)
{
    size_t i;
    for (i = 0; i < count; i++)
        put_guard(f, levels[i]);
}

static void put_end(struct file *f)
{
    put(f, 0xFF, 1);
}

/* A model of two coordinates with these rows. Its sets are the point zero. */
static struct file plane(int32_t a, int32_t b, int32_t c, int32_t d)
{
    const int32_t rows[2][2] = {{a, b}, {c, d}};
    struct file f;
    int i, k;
    f.length = 0;
    put(&f, 0x01, 1);
    put(&f, 2, 1);
    put(&f, 1, 2);
    for (i = 0; i < 2; i++) {
        put(&f, 0x02, 1);
        put(&f, i, 1);
        for (k = 0; k < 6; k++)
            put(&f, k < 2 ? rows[i][k] : 0, 4);
    }
    put_record(&f, 0x14, 0);
    put_record(&f, 0x30, 1);
    put_end(&f);
    return f;
}

/* ---- calls, and what they answer */

static int wrong = 0;

static int64_t bounds[PEPPERSCARP_STEPS_MOST + 1];
static int64_t slacks[PEPPERSCARP_STEPS_MOST + 1];

/* Notes an answer that isn't the expected one. */
static void expect(unsigned number, uint64_t answer)
{
    if (PEPPERSCARP_NUMBER(answer) != number)
        wrong = 1;
}

static void write_refusal(uint64_t answer)
{
    printf("refused %u at %" PRIu64 "\n", PEPPERSCARP_NUMBER(answer), PEPPERSCARP_FIGURE(answer));
}

static void sweep(const struct file *f, size_t length, size_t direction, size_t rows, unsigned number)
{
    uint64_t answer = pepperscarp_sweep(f->bytes, length, direction, bounds, rows, slacks, rows);
    size_t k;
    expect(number, answer);
    switch (PEPPERSCARP_NUMBER(answer)) {
    case PEPPERSCARP_FINISHED:
        printf("dir %zu spare %" PRIu64 "\n", direction, PEPPERSCARP_FIGURE(answer));
        for (k = 0; k < rows; k++)
            printf("%zu %" PRId64 " %" PRId64 "\n", k, bounds[k], slacks[k]);
        break;
    case PEPPERSCARP_GROWTH:
        printf("dir %zu growth %" PRIu64 "\n", direction, PEPPERSCARP_FIGURE(answer));
        break;
    case PEPPERSCARP_NOT_THERE:
        printf("dir %zu isn't there\n", direction);
        break;
    case PEPPERSCARP_WRONG_LENGTH:
        printf("dir %zu not swept into %zu rows\n", direction, rows);
        break;
    default:
        write_refusal(answer);
    }
}

static void judge(const struct file *f, size_t guard, size_t rows, unsigned number)
{
    uint64_t answer = pepperscarp_judge(f->bytes, f->length, guard, bounds, rows, slacks, rows);
    expect(number, answer);
    if (PEPPERSCARP_NUMBER(answer) == PEPPERSCARP_NOT_THERE) {
        printf("guard %zu isn't there\n", guard);
        return;
    }
    if (PEPPERSCARP_NUMBER(answer) != PEPPERSCARP_FINISHED) {
        write_refusal(answer);
        return;
    }
    switch (PEPPERSCARP_VERDICT(answer)) {
    case PEPPERSCARP_HIT:
        printf("guard %zu HIT %" PRIu64 "\n", guard, PEPPERSCARP_FIGURE(answer));
        break;
    case PEPPERSCARP_UNKNOWN:
        printf("guard %zu UNKNOWN %" PRIu64 "\n", guard, PEPPERSCARP_FIGURE(answer));
        break;
    case PEPPERSCARP_CLEAR:
        printf("guard %zu CLEAR\n", guard);
        break;
    default:
        wrong = 1;
    }
}

static void step(size_t n, const int32_t matrix[36], int64_t r[6], int64_t e[6], unsigned number)
{
    uint64_t answer = pepperscarp_step(n, matrix, r, e);
    expect(number, answer);
    printf("step %u: r %" PRId64 " e %" PRId64 " sum %" PRIu64 "\n", PEPPERSCARP_NUMBER(answer), r[0], e[0],
           PEPPERSCARP_FIGURE(answer));
}

/* From this place on the bytes are still 255. */
static void expect_255(const uint8_t *bytes, size_t from, size_t count)
{
    for (; from < count; from++)
        if (bytes[from] != 255)
            wrong = 1;
}

static uint8_t text[PEPPERSCARP_LISTING_ROOM];

/* The text of a file, with so much room. The bytes behind it stay as they were. */
static void list(const struct file *f, size_t room, int finished)
{
    size_t count;
    memset(text, 255, sizeof text);
    count = pepperscarp_listing(f->bytes, f->length, text, room);
    if ((count != 0) != finished)
        wrong = 1;
    expect_255(text, count, sizeof text);
    printf("%zu bytes of text\n", count);
    fwrite(text, 1, count, stdout);
}

static uint8_t written[PEPPERSCARP_WRITE_ROOM];

/* The one file of a file's model, with so much room, compared with the file that it should be. The bytes behind it stay as they
 * were. */
static void write_one(const struct file *f, const struct file *one, size_t room, unsigned number)
{
    uint64_t answer;
    size_t count = 0;
    memset(written, 255, sizeof written);
    answer = pepperscarp_write(f->bytes, f->length, written, room);
    expect(number, answer);
    switch (PEPPERSCARP_NUMBER(answer)) {
    case PEPPERSCARP_FINISHED:
        count = PEPPERSCARP_FIGURE(answer);
        printf("%zu bytes written as %zu\n", f->length, count);
        if (count != one->length || memcmp(written, one->bytes, count) != 0)
            wrong = 1;
        break;
    case PEPPERSCARP_TOO_SHORT:
        printf("not written into %zu bytes\n", room);
        break;
    default:
        write_refusal(answer);
    }
    expect_255(written, count, sizeof written);
}

/* The answers of calm, slack_limit and steps_within have no verdict, and their own numbers, 26 to 28, come without a figure. */
static void expect_plain(unsigned number, uint64_t answer)
{
    expect(number, answer);
    if (PEPPERSCARP_VERDICT(answer) != 0)
        wrong = 1;
    if (!PEPPERSCARP_FILE_REFUSED(answer) && number != PEPPERSCARP_FINISHED && PEPPERSCARP_FIGURE(answer) != 0)
        wrong = 1;
}

static void calm(const struct file *f, size_t length, unsigned number)
{
    uint64_t answer = pepperscarp_calm(f->bytes, length);
    expect_plain(number, answer);
    if (PEPPERSCARP_IS_CALM(answer))
        printf("calm\n");
    else if (PEPPERSCARP_NUMBER(answer) != PEPPERSCARP_FINISHED)
        write_refusal(answer);
    else if (PEPPERSCARP_FIGURE(answer) == 0)
        printf("not calm\n");
    else
        wrong = 1;
}

static void slack_limit(const struct file *f, size_t length, size_t k, unsigned number)
{
    uint64_t answer = pepperscarp_slack_limit(f->bytes, length, k);
    expect_plain(number, answer);
    switch (PEPPERSCARP_NUMBER(answer)) {
    case PEPPERSCARP_FINISHED:
        printf("limit of step %zu: %" PRIu64 "\n", k, PEPPERSCARP_FIGURE(answer));
        break;
    case PEPPERSCARP_NOT_CALM:
        printf("limit of step %zu: not calm\n", k);
        break;
    case PEPPERSCARP_NO_SUCH_STEP:
        printf("limit of step %zu: no such step\n", k);
        break;
    default:
        write_refusal(answer);
    }
}

static void steps_within(const struct file *f, size_t length, uint64_t slack, unsigned number)
{
    uint64_t answer = pepperscarp_steps_within(f->bytes, length, slack);
    expect_plain(number, answer);
    switch (PEPPERSCARP_NUMBER(answer)) {
    case PEPPERSCARP_FINISHED:
        printf("within %" PRIu64 ": up to step %" PRIu64 "\n", slack, PEPPERSCARP_FIGURE(answer));
        break;
    case PEPPERSCARP_NOT_CALM:
        printf("within %" PRIu64 ": not calm\n", slack);
        break;
    case PEPPERSCARP_SLACK_TOO_SMALL:
        printf("within %" PRIu64 ": no step\n", slack);
        break;
    default:
        write_refusal(answer);
    }
}

/* The slack of each step of direction 0 beside its limit, which it isn't above. The limit doesn't fall. */
static void limits(const struct file *f, size_t rows)
{
    uint64_t limit, before = 0;
    size_t k;
    expect(PEPPERSCARP_FINISHED, pepperscarp_sweep(f->bytes, f->length, 0, bounds, rows, slacks, rows));
    for (k = 0; k < rows; k++) {
        limit = PEPPERSCARP_FIGURE(pepperscarp_slack_limit(f->bytes, f->length, k));
        printf("%zu slack %" PRId64 " limit %" PRIu64 "\n", k, slacks[k], limit);
        if ((uint64_t)slacks[k] > limit || limit < before)
            wrong = 1;
        before = limit;
    }
}

/* Of each number that an answer has room for, with some verdict and figure beside it, whether it refuses the file. The argument is
 * taken once. */
static void expect_file_refused(void)
{
    static const int refused[256] = {0, 1, 1, 1, 1, 1, 1, 1, 1, 1, 1, 0, 0, 0, 0, 1, 1, 1};
    uint64_t answers[256];
    const uint64_t *next = answers;
    unsigned number;
    for (number = 0; number < 256; number++)
        answers[number] = number + 256u * (255u - number) + 65536u * (uint64_t)number;
    for (number = 0; number < 256; number++)
        if (PEPPERSCARP_FILE_REFUSED(*next++) != refused[number])
            wrong = 1;
    if (next != answers + 256)
        wrong = 1;
}

/* Whether every element of the lists is still -1. */
static void expect_kept(void)
{
    size_t k;
    for (k = 0; k <= PEPPERSCARP_STEPS_MOST; k++)
        if (bounds[k] != -1 || slacks[k] != -1)
            wrong = 1;
}

int main(void)
{
    static const int32_t none[2] = {0, 0};
    static const int32_t to_one[2] = {0, 1};
    static const int32_t to_five[2] = {0, 5};
    static const int32_t to_half_a_million[2] = {0, 500000};
    static const int32_t to_a_hundred_thousand[2] = {0, 100000};
    /* The sample's bounds are 0, 1, 2 and 2, its slacks 0, 0, 1 and 1. */
    static const int64_t beside_sample[] = {INT64_MIN, -1, 0, 1, 2, 3, INT64_MAX};
    /* With inputs up to 5 the bounds are 0, 5, 8 and 9, and the slacks the same: bound - slack is 0, 5, 7 and 8. */
    static const int64_t beside_rising[] = {4, 5, 6, 7, 8, 9, 10};
    enum { BESIDE_SAMPLE = sizeof beside_sample / sizeof beside_sample[0] };
    enum { BESIDE_RISING = sizeof beside_rising / sizeof beside_rising[0] };
    static const int32_t fading[36] = {1};
    static const int32_t halving[36] = {32};
    int64_t r[6] = {1048576};
    int64_t e[6] = {0};
    struct file sample = model(3), fitted = model(3), beyond = model(3), growing = model(11);
    struct file drifting = model(2), too_far = model(3), together = model(3), unclean;
    struct file borders = model(3), rising = model(3);
    struct file otherwise = model(3), unstated = model(0), outright = model(PEPPERSCARP_STEPS_DEFAULT);
    struct file at_one = model(1), above_one = model(1), at_minus_one = model(1), below_minus_one = model(1);
    struct file calm_rows = plane(0, 65536, 0, 65536), calm_columns = plane(0, 0, 65536, 65536);
    struct file opposite = plane(40000, 0, -40000, 0), fading_slowly = model(4), driven = model(5);
    int64_t level;
    size_t guard;

    put_scaled(&sample, 32768);
    put_sets(&sample, none, to_one);
    put_fitted(&fitted, 0.5);
    put_sets(&fitted, none, to_one);
    put_fitted(&beyond, 2.5);
    put_sets(&beyond, none, to_one);
    put_scaled(&growing, 131072);
    put_sets(&growing, none, NULL);
    put_scaled(&drifting, 65536);
    put_drift(&drifting, 3);
    put_sets(&drifting, none, none);
    put_guard(&drifting, 5);
    put_guard(&drifting, 6);
    put_scaled(&borders, 32768);
    put_sets(&borders, none, to_one);
    put_guards(&borders, beside_sample, BESIDE_SAMPLE);
    put_scaled(&rising, 32768);
    put_sets(&rising, none, to_five);
    put_guards(&rising, beside_rising, BESIDE_RISING);
    put_scaled(&too_far, 32768);
    put_drift(&too_far, -1048577);
    put_sets(&too_far, none, to_one);
    put_scaled(&together, 32768);
    put_drift(&together, 1048576);
    put_sets(&together, none, to_one);
    put_fitted(&otherwise, 0.5);
    put_drift(&otherwise, 0);
    put_sets(&otherwise, none, to_one);
    put_scaled(&unstated, 32768);
    put_sets(&unstated, none, none);
    put_scaled(&outright, 32768);
    put_sets(&outright, none, NULL);
    put_scaled(&at_one, 65536);
    put_sets(&at_one, none, NULL);
    put_fitted(&above_one, 65537 / 65536.0);
    put_sets(&above_one, none, NULL);
    put_fitted(&at_minus_one, -1.0);
    put_sets(&at_minus_one, none, NULL);
    put_scaled(&below_minus_one, -65537);
    put_sets(&below_minus_one, none, NULL);
    put_scaled(&fading_slowly, 65535);
    put_sets(&fading_slowly, to_half_a_million, none);
    put_scaled(&driven, 65535);
    put_drift(&driven, 80000);
    put_sets(&driven, none, to_a_hundred_thousand);
    for (level = 1; level <= 3; level++) {
        put_guard(&sample, level);
        put_guard(&otherwise, level);
    }
    put_end(&sample);
    put_end(&fitted);
    put_end(&beyond);
    put_end(&growing);
    put_end(&drifting);
    put_end(&borders);
    put_end(&rising);
    put_end(&too_far);
    put_end(&together);
    put_end(&otherwise);
    put_end(&unstated);
    put_end(&outright);
    put_end(&at_one);
    put_end(&above_one);
    put_end(&at_minus_one);
    put_end(&below_minus_one);
    put_end(&fading_slowly);
    put_end(&driven);
    unclean = sample;
    unclean.bytes[10] = 1; /* the second entry of the row */

    printf("sample %zu bytes\n", sample.length);
    sweep(&sample, sample.length, 0, 4, PEPPERSCARP_FINISHED);
    judge(&sample, 0, 4, PEPPERSCARP_FINISHED);
    judge(&sample, 1, 4, PEPPERSCARP_FINISHED);
    judge(&sample, 2, 4, PEPPERSCARP_FINISHED);

    printf("fitted %zu bytes\n", fitted.length);
    sweep(&fitted, fitted.length, 0, 4, PEPPERSCARP_FINISHED);

    printf("drifting %zu bytes\n", drifting.length);
    sweep(&drifting, drifting.length, 0, 3, PEPPERSCARP_FINISHED);
    judge(&drifting, 0, 3, PEPPERSCARP_FINISHED);
    judge(&drifting, 1, 3, PEPPERSCARP_FINISHED);

    printf("borders %zu bytes\n", borders.length);
    for (guard = 0; guard < BESIDE_SAMPLE; guard++)
        judge(&borders, guard, 4, PEPPERSCARP_FINISHED);
    list(&borders, sizeof text, 1);

    printf("rising %zu bytes\n", rising.length);
    sweep(&rising, rising.length, 0, 4, PEPPERSCARP_FINISHED);
    for (guard = 0; guard < BESIDE_RISING; guard++)
        judge(&rising, guard, 4, PEPPERSCARP_FINISHED);

    step(1, fading, r, e, PEPPERSCARP_FINISHED);
    step(1, fading, r, e, PEPPERSCARP_FINISHED);
    step(7, fading, r, e, PEPPERSCARP_INVALID);

    r[0] = -2097152;
    e[0] = 0;
    step(1, halving, r, e, PEPPERSCARP_FINISHED);
    step(1, halving, r, e, PEPPERSCARP_FINISHED);

    list(&sample, sizeof text, 1);
    list(&sample, sizeof text - 1, 0);

    write_one(&sample, &sample, sizeof written, PEPPERSCARP_FINISHED);
    write_one(&otherwise, &sample, sample.length, PEPPERSCARP_FINISHED);
    write_one(&unstated, &outright, sizeof written, PEPPERSCARP_FINISHED);
    write_one(&outright, &outright, sizeof written, PEPPERSCARP_FINISHED);
    write_one(&otherwise, &sample, sample.length - 1, PEPPERSCARP_TOO_SHORT);
    write_one(&unclean, &sample, 0, 16);

    printf("one, and more than one\n");
    calm(&at_one, at_one.length, PEPPERSCARP_FINISHED);
    calm(&above_one, above_one.length, PEPPERSCARP_FINISHED);
    calm(&at_minus_one, at_minus_one.length, PEPPERSCARP_FINISHED);
    calm(&below_minus_one, below_minus_one.length, PEPPERSCARP_FINISHED);
    printf("rows, columns and signs\n");
    calm(&calm_rows, calm_rows.length, PEPPERSCARP_FINISHED);
    calm(&calm_columns, calm_columns.length, PEPPERSCARP_FINISHED);
    calm(&opposite, opposite.length, PEPPERSCARP_FINISHED);

    printf("fading slowly\n");
    calm(&fading_slowly, fading_slowly.length, PEPPERSCARP_FINISHED);
    limits(&fading_slowly, 5);
    slack_limit(&fading_slowly, fading_slowly.length, 4, PEPPERSCARP_FINISHED);
    slack_limit(&fading_slowly, fading_slowly.length, 5, PEPPERSCARP_NO_SUCH_STEP);
    slack_limit(&fading_slowly, fading_slowly.length, SIZE_MAX, PEPPERSCARP_NO_SUCH_STEP);
    steps_within(&fading_slowly, fading_slowly.length, 0, PEPPERSCARP_SLACK_TOO_SMALL);
    steps_within(&fading_slowly, fading_slowly.length, 1, PEPPERSCARP_SLACK_TOO_SMALL);
    steps_within(&fading_slowly, fading_slowly.length, 2, PEPPERSCARP_FINISHED);
    steps_within(&fading_slowly, fading_slowly.length, 3, PEPPERSCARP_FINISHED);
    steps_within(&fading_slowly, fading_slowly.length, UINT64_MAX, PEPPERSCARP_FINISHED);
    printf("driven\n");
    limits(&driven, 6);
    steps_within(&driven, driven.length, 2, PEPPERSCARP_FINISHED);
    printf("growing\n");
    calm(&growing, growing.length, PEPPERSCARP_FINISHED);
    slack_limit(&growing, growing.length, 0, PEPPERSCARP_NOT_CALM);
    slack_limit(&growing, growing.length, SIZE_MAX, PEPPERSCARP_NOT_CALM);
    steps_within(&growing, growing.length, 2, PEPPERSCARP_NOT_CALM);
    steps_within(&growing, growing.length, 0, PEPPERSCARP_NOT_CALM);

    memset(bounds, 255, sizeof bounds);
    memset(slacks, 255, sizeof slacks);
    sweep(&sample, 0, 0, 4, 1);
    sweep(&sample, 185, 0, 4, 1);
    sweep(&beyond, beyond.length, 0, 4, 15);
    sweep(&unclean, unclean.length, 0, 4, 16);
    sweep(&too_far, too_far.length, 0, 4, 17);
    judge(&together, 0, 4, 17);
    sweep(&sample, sample.length, 1, 4, PEPPERSCARP_NOT_THERE);
    sweep(&sample, sample.length, 0, 3, PEPPERSCARP_WRONG_LENGTH);
    judge(&sample, 3, 4, PEPPERSCARP_NOT_THERE);
    sweep(&growing, growing.length, 0, 12, PEPPERSCARP_GROWTH);
    calm(&sample, 185, 1);
    slack_limit(&too_far, too_far.length, SIZE_MAX, 17);
    steps_within(&unclean, unclean.length, 0, 16);
    expect_kept();
    expect_file_refused();
    return wrong;
}
