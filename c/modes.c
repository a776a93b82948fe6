/* Lists the files that the arguments name, writes the one file of each model, and asks the questions about a calm model, under each
 * rounding mode of floating-point arithmetic, with and without the flushing of subnormal numbers to zero, and compares texts,
 * written files and answers with those of the usual mode. What the calls leave of the modes is compared too. Returns 1 where
 * something differs. */
#include "pepperscarp.h"

#include <stdio.h>
#include <string.h>
#include <xmmintrin.h>

/* Bits of the register MXCSR: the four rounding modes, what is flushed, and the flags, which a call may set. */
#define ROUNDING(mode) ((mode) << 13)
#define FLUSHED 0x8040u
#define FLAGS 0x003Fu

static uint8_t file[4096];

/* What the calls answer and leave for one file. */
struct reply {
    size_t length;
    uint64_t answer, calm, limit, within;
    uint8_t text[PEPPERSCARP_LISTING_ROOM], written[PEPPERSCARP_WRITE_ROOM];
};

static struct reply usual, other;

static void call(struct reply *r, size_t length)
{
    memset(r->text, 0, r->length);
    memset(r->written, 0, sizeof r->written);
    r->length = pepperscarp_listing(file, length, r->text, sizeof r->text);
    r->answer = pepperscarp_write(file, length, r->written, sizeof r->written);
    r->calm = pepperscarp_calm(file, length);
    r->limit = pepperscarp_slack_limit(file, length, 1);
    r->within = pepperscarp_steps_within(file, length, 100);
}

static int differ(void)
{
    return other.length != usual.length || other.answer != usual.answer || other.calm != usual.calm ||
           other.limit != usual.limit || other.within != usual.within ||
           memcmp(other.text, usual.text, usual.length) != 0 ||
           memcmp(other.written, usual.written, sizeof usual.written) != 0;
}

int main(int count, char **words)
{
    const unsigned start = _mm_getcsr() & ~FLAGS;
    unsigned mode, set, left;
    size_t length;
    FILE *in;
    int i, wrong = 0;
    for (i = 1; i < count; i++) {
        in = fopen(words[i], "rb");
        if (in == NULL) {
            perror(words[i]);
            return 1;
        }
        length = fread(file, 1, sizeof file, in);
        fclose(in);
        call(&usual, length);
        for (mode = 0; mode < 8; mode++) {
            set = start | ROUNDING(mode & 3u) | (mode & 4u ? FLUSHED : 0u);
            _mm_setcsr(set);
            call(&other, length);
            left = _mm_getcsr() & ~FLAGS;
            _mm_setcsr(start);
            if (left != set || differ()) {
                printf("modes: %s differs in mode %u\n", words[i], mode);
                wrong = 1;
            }
        }
    }
    printf("modes: %d files in 8 modes\n", count - 1);
    return wrong;
}
