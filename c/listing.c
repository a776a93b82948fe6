/* Writes the listing of the model file that its argument names, as the program `envelope` does (docs/SPECIFICATION.md), by calls of
 * the C interface alone: directions and guards are asked for in order until one isn't there. With --whole in front of the name the
 * text comes from one call.
 * Returns 1 where the file can't be read or an answer comes that the specification doesn't list. */
#include "pepperscarp.h"

#include <inttypes.h>
#include <stdio.h>
#include <string.h>

/* As many bytes as the program reads at most. */
static uint8_t file[2048];
static size_t length;

static int64_t bounds[PEPPERSCARP_STEPS_MOST + 1];
static int64_t slacks[PEPPERSCARP_STEPS_MOST + 1];

static uint8_t text[PEPPERSCARP_LISTING_ROOM];

/* K, by the head. A file too short to say is refused whatever the lists are. */
static size_t steps(void)
{
    size_t said = length < 4 ? 1 : file[2] + 256u * file[3];
    if (said == 0)
        said = PEPPERSCARP_STEPS_DEFAULT;
    return said <= PEPPERSCARP_STEPS_MOST ? said : PEPPERSCARP_STEPS_MOST;
}

/* The lines of a direction, 1; or 0 where there is none such. */
static int write_direction(size_t direction, size_t rows, uint64_t answer)
{
    size_t k;
    switch (PEPPERSCARP_NUMBER(answer)) {
    case PEPPERSCARP_FINISHED:
        printf("dir %zu spare %" PRIu64 "\n", direction, PEPPERSCARP_FIGURE(answer));
        for (k = 0; k < rows; k++)
            printf("%zu %" PRId64 " %" PRId64 "\n", k, bounds[k], slacks[k]);
        return 1;
    case PEPPERSCARP_GROWTH:
        printf("dir %zu growth %" PRIu64 "\n", direction, PEPPERSCARP_FIGURE(answer));
        return 1;
    default:
        return 0;
    }
}

/* The line of a guard, 1; or 0 where there is none such. */
static int write_guard(size_t guard, uint64_t answer)
{
    static const char *const words[] = {"", "HIT", "UNKNOWN", "CLEAR"};
    unsigned verdict = PEPPERSCARP_VERDICT(answer);
    if (PEPPERSCARP_NUMBER(answer) == PEPPERSCARP_FINISHED && (verdict < PEPPERSCARP_HIT || PEPPERSCARP_CLEAR < verdict))
        return 0;
    switch (PEPPERSCARP_NUMBER(answer)) {
    case PEPPERSCARP_FINISHED:
        printf("guard %zu %s", guard, words[verdict]);
        if (verdict != PEPPERSCARP_CLEAR)
            printf(" %" PRIu64, PEPPERSCARP_FIGURE(answer));
        printf("\n");
        return 1;
    case PEPPERSCARP_GROWTH:
        printf("guard %zu GROWTH %" PRIu64 "\n", guard, PEPPERSCARP_FIGURE(answer));
        return 1;
    default:
        return 0;
    }
}

int main(int count, char **words)
{
    int whole = count == 3 && strcmp(words[1], "--whole") == 0;
    FILE *in;
    size_t rows, i;
    uint64_t answer;
    if (count != 2 + whole) {
        fprintf(stderr, "usage: listing [--whole] FILE\n");
        return 1;
    }
    in = fopen(words[1 + whole], "rb");
    if (in == NULL) {
        perror(words[1 + whole]);
        return 1;
    }
    length = fread(file, 1, sizeof file, in);
    if (ferror(in)) {
        perror(words[1 + whole]);
        return 1;
    }
    fclose(in);
    if (whole) {
        i = pepperscarp_listing(file, length, text, sizeof text);
        return i == 0 || fwrite(text, 1, i, stdout) != i;
    }
    rows = steps() + 1;

    answer = pepperscarp_sweep(file, length, 0, bounds, rows, slacks, rows);
    if (PEPPERSCARP_FILE_REFUSED(answer)) {
        printf("refused %u at %" PRIu64 "\n", PEPPERSCARP_NUMBER(answer), PEPPERSCARP_FIGURE(answer));
        return 0;
    }
    printf("model %d %zu\n", file[1], rows - 1);
    for (i = 0; write_direction(i, rows, answer); i++)
        answer = pepperscarp_sweep(file, length, i + 1, bounds, rows, slacks, rows);
    if (PEPPERSCARP_NUMBER(answer) != PEPPERSCARP_NOT_THERE)
        return 1;
    i = 0;
    do
        answer = pepperscarp_judge(file, length, i, bounds, rows, slacks, rows);
    while (write_guard(i++, answer));
    return PEPPERSCARP_NUMBER(answer) != PEPPERSCARP_NOT_THERE;
}
