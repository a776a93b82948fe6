/* Pepperscarp: envelopes of stepped linear models, from C and C++. docs/SPECIFICATION.md says what the figures are.
 *
 * Answers. Every call is answered, whatever the values. A refusal by any function but the listing has a number, 1 to 17, 22 or 26
 * to 28 (the specification's "Refusals" says what each means), and leaves the lent memory as it was.
 *
 * Memory. Pointers must not be null, not even for a list of no elements; each must lead to as many elements as its length says;
 * and memory that is written must overlap nothing else that the same call is lent. Lists of int32_t stand at a multiple of 4 bytes
 * and lists of int64_t at a multiple of 8; `file` and `out` may stand anywhere.
 *
 * Threads. The functions keep no state: the archive has no memory of its own that could be written, and a call touches what it is
 * lent and its stack. Any number of threads may call at once, and a call may be made from a signal handler or an interrupt while
 * another is under way, where there is stack for both. Calls under way together may read the same memory; what one of them writes
 * the others must not be lent.
 *
 * Linking. libpepperscarp.a is for x86-64 and the System V calling convention, in ELF: Linux, not Windows. It needs memcpy and
 * memset and nothing else: no start-up, no allocation, no system call. The stack pointer is a multiple of 16 at the call, as the
 * convention has it. The code stores nothing below the stack pointer (no red zone). It uses xmm registers (SSE2) for moves, whole
 * numbers and, in fitted rows, binary64 numbers; a kernel has to save these around a call. There is no other floating-point
 * arithmetic, and neither the rounding mode nor the flushing of subnormal numbers makes a difference to what is answered.
 * Floating-point exceptions have to be masked, as they are when a program starts: a fitted row may hold NaNs and subnormal
 * numbers. A call may set the sticky exception flags of MXCSR, and changes nothing else there.
 *
 * Another processor. There is no archive for one, and `tools/archive` makes none. Either take finished tables along: list or sweep
 * the models on an x86-64 computer. Or run tools/exact.py there, which is slow, and tested and not proved. Or write the step anew
 * from the specification's "Recurrence" and test it against pepperscarp_step on many values. The proofs are about the source of
 * this archive and say nothing of another version.
 */
#ifndef PEPPERSCARP_H
#define PEPPERSCARP_H

#include <stddef.h>
#include <stdint.h>

#ifdef __cplusplus
extern "C" {
#endif

/* What every function but the listing returns is one number, number + 256 * verdict + 65536 * figure. These take it apart. A call
 * has finished where PEPPERSCARP_NUMBER is 0; the returned value itself is then seldom 0. */
#define PEPPERSCARP_NUMBER(answer) ((unsigned)((uint64_t)(answer) & 255u))
#define PEPPERSCARP_VERDICT(answer) ((unsigned)(((uint64_t)(answer) >> 8) & 255u))
#define PEPPERSCARP_FIGURE(answer) ((uint64_t)(answer) >> 16)

/* Numbers. 1 to 10 and 15 to 17 refuse the file, and the figure is the offset of the record at fault; for 10, of the first byte
 * behind the end; the file's length where no byte is left. 15 is for a fitted row alone: one of its first n entries is not finite,
 * or is beyond 2 in magnitude. 16 is for a row, drift, point or direction that has something other than zero beyond its first n
 * entries, and comes before all else that its body is refused for. 17 is for a drift one of whose first n entries is beyond
 * 1,048,576 in magnitude, and for a point of the input set with which the set's reach in a coordinate and the drift's magnitude
 * there are more than that together. */
#define PEPPERSCARP_FINISHED 0u
#define PEPPERSCARP_INVALID 11u         /* a step's values break a rule */
#define PEPPERSCARP_NOT_THERE 12u       /* no such direction, or no such guard */
#define PEPPERSCARP_WRONG_LENGTH 13u    /* a list has other than K + 1 elements */
#define PEPPERSCARP_GROWTH 14u          /* growth; the figure is the first such step */
#define PEPPERSCARP_TOO_SHORT 22u       /* what would be written is longer than the room for it */
#define PEPPERSCARP_NOT_CALM 26u        /* the model is not calm; no limit of its slacks is known */
#define PEPPERSCARP_NO_SUCH_STEP 27u    /* the step is beyond K */
#define PEPPERSCARP_SLACK_TOO_SMALL 28u /* the slack is below the limit of step 0, which is 2 */

/* Whether an answer refuses the file, 1 or 0. */
#define PEPPERSCARP_FILE_REFUSED(answer) pepperscarp_file_refused((uint64_t)(answer))
static inline int pepperscarp_file_refused(uint64_t answer)
{
    unsigned number = PEPPERSCARP_NUMBER(answer);
    return (1u <= number && number <= 10u) || (15u <= number && number <= 17u);
}

/* Verdicts of a judge that finished. A level is reached only above it; a value equal to it does not reach it. */
#define PEPPERSCARP_HIT 1u     /* some run is above the level at the step that the figure names, the first that is certain */
#define PEPPERSCARP_UNKNOWN 2u /* not settled; the figure is the first step whose bound is above the level */
#define PEPPERSCARP_CLEAR 3u   /* no run is above the level at any step */

/* The most stack that a call takes, in bytes, its return address among them. All but the step have 2,000 bytes of it as room for
 * memcpy and memset; their binding by the dynamic linker at the first call fits too (measured with glibc). Frames are touched page
 * by page from above, so that a guard page of 4,096 bytes stops a call that has too little stack. c/test measures the eight, and
 * refuses a figure that is below the need or above twice the need. */
#define PEPPERSCARP_STEP_STACK 512
#define PEPPERSCARP_SWEEP_STACK 16384
#define PEPPERSCARP_JUDGE_STACK 18432
#define PEPPERSCARP_LISTING_STACK 26624
#define PEPPERSCARP_WRITE_STACK 16384
#define PEPPERSCARP_CALM_STACK 12288
#define PEPPERSCARP_SLACK_LIMIT_STACK 12288
#define PEPPERSCARP_STEPS_WITHIN_STACK 14336

/* The most steps that a model has. Lists of one more suffice for every model, lent with a length of K + 1. */
#define PEPPERSCARP_STEPS_MOST 256

/* The steps of a model whose file's head says 0. */
#define PEPPERSCARP_STEPS_DEFAULT 120

/* One step of a working direction. Takes the number n of coordinates, 1 to 6; the matrix in six rows of six, in units of
 * 1/65,536; the direction r in units of 1/1,048,576 and its errors e in half units, zero beyond n. A direction d starts with
 * r[i] = 1,048,576 * d[i] and e[i] = 0.
 * Number 0: r and e of the next step stand in place of the old ones, and the figure is their growth sum, the largest of
 * |r[i]| + half of e[i], each half rounded up. A figure above 1,073,741,824 is growth: a sweep refuses the direction there, and the
 * next call answers 11. (Before version 0.4.0 e counted units, and r was rounded down.)
 * Number 11: for n outside 1 to 6, a matrix entry outside -131,072 to 131,072, a value beyond n that isn't zero, an e below 0, or
 * a growth sum of r and e above 1,073,741,824. */
uint64_t pepperscarp_step(size_t n, const int32_t matrix[36], int64_t r[6], int64_t e[6]);

/* The sweep of one direction of a model file. Takes the file's bytes, the direction's number from 0, and two lists of K + 1
 * elements, where K is the model's number of steps: bytes 2 and 3 of the file, counted from 0, low byte first, and
 * PEPPERSCARP_STEPS_DEFAULT where they say 0.
 * Number 0: the lists have the bound and the slack of steps 0 to K, and the figure is the spare figure, 0 to 10. No run of the
 * model passes a bound, and some run comes within its slack. Entries of fitted rows are rounded to multiples of 1/65,536 first, and
 * the bounds are those of the rounded matrix: a run of the numbers before rounding may pass one.
 * Numbers 1 to 10 and 15 to 17: the file is refused. 12: it has no such direction. 13: a list has other than K + 1 elements. 14:
 * growth. The first that applies is answered, in this order. 11 never comes: the model of a file that is read breaks no rule.
 * (Before version 0.5.0 there was no 15, before 0.6.0 no 17, and before 0.7.0 no 16: what stood beyond n was ignored.) */
uint64_t pepperscarp_sweep(const uint8_t *file, size_t file_length, size_t direction, int64_t *bounds, size_t bounds_length,
                           int64_t *slacks, size_t slacks_length);

/* The judge of one guard of a model file. Takes the guard's number from 0, the rest as for the sweep.
 * Number 0, with a verdict: HIT or UNKNOWN with its step as the figure, or CLEAR with figure 0. The lists have the sweep of the
 * guard's direction. HIT needs a bound - slack above the level, UNKNOWN a bound above it; a bound equal to the level calls for
 * neither. At the step of an UNKNOWN the exact largest value is no farther from the level than the slack. A guard at INT64_MIN is
 * HIT at step 0, and one at INT64_MAX is CLEAR.
 * Numbers 1 to 10 and 13 to 17: as for the sweep. 12: the file has no such guard.
 * (Before version 0.8.0 a value equal to the level reached it too. A level one count lower in the file, -22801 in place of -22800,
 * keeps the verdicts and steps of versions 0.4.0 to 0.7.2; INT64_MIN keeps them as it is.) */
uint64_t pepperscarp_judge(const uint8_t *file, size_t file_length, size_t guard, int64_t *bounds, size_t bounds_length,
                           int64_t *slacks, size_t slacks_length);

/* Room for every listing, in bytes. */
#define PEPPERSCARP_LISTING_ROOM 270000

/* The whole text that the program `envelope` writes for a model file: its listing, or its refusal. Takes the file's bytes and room
 * for at least PEPPERSCARP_LISTING_ROOM bytes.
 * Returns how many bytes of text stand at the start of `out`; no zero follows them, and what lies behind them is as it was.
 * Returns 0, with `out` as it was, where it has less room. (Verdicts are those of the judge, so they changed in version 0.8.0.) */
size_t pepperscarp_listing(const uint8_t *file, size_t file_length, uint8_t *out, size_t out_length);

/* Room for every file that is written, in bytes. */
#define PEPPERSCARP_WRITE_ROOM 1546

/* The one file of a model. Takes the bytes of a model file, and room for what is written; PEPPERSCARP_WRITE_ROOM bytes suffice for
 * every model. However the model was saved, the same bytes are written: the head names the steps, a fitted row becomes the scaled
 * row of its rounded entries, a drift of zeros and an input box of zeros are left out, and all else stands as it stood in the file.
 * Two files have the same bytes written for them just where their models are equal in every stored number.
 * Number 0: the written file stands at the start of `out`, and the figure is its length; what lies behind it is as it was. Reading
 * it gives the same model.
 * Numbers 1 to 10 and 15 to 17: the file is refused. 22: `out` is shorter than what would be written. The first that applies is
 * answered, in this order, and `out` is as it was. 11 never comes, as for the sweep. A file can't be written over itself: `out`
 * must not overlap `file`. (New in version 0.7.2.) */
uint64_t pepperscarp_write(const uint8_t *file, size_t file_length, uint8_t *out, size_t out_length);

/* Whether the model of a file is calm: in each column of its matrix the magnitudes of the entries, in units of 1/65,536, sum to at
 * most 65,536. Entries of fitted rows are rounded first. Takes the file's bytes.
 * Number 0: the figure is 1 if the model is calm, and 0 if it is not. No direction of a calm model is refused for growth: sweep and
 * judge never answer 14 for it.
 * Numbers 1 to 10 and 15 to 17: the file is refused. 11 never comes, as for the sweep. (New after version 0.8.0.)
 * PEPPERSCARP_IS_CALM(answer) is 1 if the model is calm, and 0 if it is not or the file is refused. The answer itself is no truth
 * value: it is 0 for a model that is not calm, and not 0 for a refused file. */
#define PEPPERSCARP_IS_CALM(answer) (PEPPERSCARP_NUMBER(answer) == PEPPERSCARP_FINISHED && PEPPERSCARP_FIGURE(answer) == 1u)
uint64_t pepperscarp_calm(const uint8_t *file, size_t file_length);

/* The limit of the slacks of a calm model at a step. Takes the file's bytes and the step, 0 to K.
 * Number 0: the figure is the limit. At step k this is (k * X + k * (k - 1) / 2 * Y + 1) / 1,048,576, rounded up, plus 1. X adds up
 * the reaches of the initial set in the n coordinates, and Y those of the input set and the magnitudes of the drift. No slack that
 * sweep or judge leaves for this step is above the limit, whatever the direction. At step 0 the limit is 2; it does not fall from
 * one step to the next, and it is 197,378 at most.
 * Numbers 1 to 10 and 15 to 17: the file is refused. 26: the model is not calm. 27: the step is beyond K. The first that applies is
 * answered, in this order. 11 never comes, as for the sweep. (New after version 0.8.0.) */
uint64_t pepperscarp_slack_limit(const uint8_t *file, size_t file_length, size_t step);

/* How many steps of a calm model stay within a slack. Takes the file's bytes and any slack.
 * Number 0: the figure is the largest step k of 0 to K such that the limit of every step from 0 to k is at most this slack. So no
 * slack that sweep or judge leaves for these steps is above it, whatever the direction. Slacks of later steps may be within it too.
 * Numbers 1 to 10 and 15 to 17: the file is refused. 26: the model is not calm. 28: there is no such step, since the slack is 0 or
 * 1 and the limit of step 0 is 2. The first that applies is answered, in this order. 11 never comes, as for the sweep. (New after
 * version 0.8.0.) */
uint64_t pepperscarp_steps_within(const uint8_t *file, size_t file_length, uint64_t slack);

#ifdef __cplusplus
}
#endif

#endif
