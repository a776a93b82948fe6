/* Calls the C interface from sixteen threads at once. One thread alone first calls every function for every file that an argument
 * names, and keeps every answer and every byte of the lent memory. Then sixteen threads, which start together, make the same calls
 * again, each from another file on and with memory of its own, and compare. Half of the threads lend a copy of the file, the others
 * all the same bytes. What a thread lends is aligned no better than the header asks, with every remainder.
 * Returns 1 where a file can't be read, a thread can't be started or anything differs. */
#define _XOPEN_SOURCE 600
#include "pepperscarp.h"

#include <pthread.h>
#include <stdio.h>
#include <stdlib.h>
#include <string.h>

#define THREADS 16
#define ROUNDS 2
#define STEPS 64
#define LIST (PEPPERSCARP_STEPS_MOST + 1)
#define FILE_MOST 2048
#define FILL 0xC3

/* ---- what one thread alone got */

struct model {
    uint8_t bytes[FILE_MOST];
    size_t length;
    uint8_t *kept;
    size_t kept_length, kept_room;
};

static struct model *models;
static size_t model_count;

/* ---- a thread and what it lends, with room to move each list */

struct worker {
    int alone;
    size_t number; /* 0 to 15; where its lists stand follows from it */
    size_t place;  /* in what is kept of the file */
    size_t calls, differences;
    int32_t matrix[36 + 3];
    int64_t r[6 + 1], e[6 + 1];
    int64_t bounds[LIST + 1], slacks[LIST + 1];
    uint8_t file[FILE_MOST + THREADS];
    uint8_t out[PEPPERSCARP_LISTING_ROOM + THREADS];
};

/* Keeps the bytes, where this is the thread alone; compares them with what it kept, where not. */
static void note(struct worker *w, struct model *m, const void *bytes, size_t count)
{
    if (w->alone) {
        if (m->kept_length + count > m->kept_room) {
            m->kept_room = 2 * m->kept_room + count;
            m->kept = realloc(m->kept, m->kept_room);
            if (m->kept == NULL)
                abort();
        }
        memcpy(m->kept + m->kept_length, bytes, count);
        m->kept_length += count;
    } else {
        if (m->kept_length - w->place < count || memcmp(m->kept + w->place, bytes, count) != 0) {
            w->differences++;
            return;
        }
        w->place += count;
    }
}

static void note_answer(struct worker *w, struct model *m, uint64_t answer)
{
    w->calls++;
    note(w, m, &answer, sizeof answer);
}

/* ---- the calls for one file */

/* Steps of a direction, from figures that follow from the file's place; every eighth step is refused. */
static void steps(struct worker *w, struct model *m)
{
    int32_t *matrix = w->matrix + w->number % 4;
    int64_t *r = w->r + w->number % 2, *e = w->e + w->number / 2 % 2;
    size_t which = (size_t)(m - models), n = 1 + which % 6, i, k;
    for (i = 0; i < 6; i++) {
        for (k = 0; k < 6; k++)
            matrix[6 * i + k] = i < n && k < n ? (int32_t)((which * 7919 + i * 104729 + k * 1299709) % 20000) - 10000 : 0;
        r[i] = i < n ? (int64_t)(1048576 * (i + 1) + which) : 0;
        e[i] = 0;
    }
    for (i = 0; i < STEPS; i++) {
        note_answer(w, m, pepperscarp_step(i % 8 == 7 ? 7 : n, matrix, r, e));
        note(w, m, r, 6 * sizeof r[0]);
        note(w, m, e, 6 * sizeof e[0]);
    }
}

/* K as the file's head says, if it has one and it is not too large. */
static size_t steps_of(const struct model *m)
{
    size_t k = m->length < 4 ? 1 : m->bytes[2] + 256u * m->bytes[3];
    k = k == 0 ? PEPPERSCARP_STEPS_DEFAULT : k;
    return k <= PEPPERSCARP_STEPS_MOST ? k : PEPPERSCARP_STEPS_MOST;
}

/* The sweep of each direction or the judge of each guard, to the first that is refused for anything but growth. */
static void lists(struct worker *w, struct model *m, const uint8_t *file, int judged)
{
    int64_t *bounds = w->bounds + w->number % 2, *slacks = w->slacks + w->number / 2 % 2;
    size_t k = steps_of(m), i = 0;
    uint64_t answer;
    do {
        memset(bounds, FILL, LIST * sizeof bounds[0]);
        memset(slacks, FILL, LIST * sizeof slacks[0]);
        if (judged)
            answer = pepperscarp_judge(file, m->length, i++, bounds, k + 1, slacks, k + 1);
        else
            answer = pepperscarp_sweep(file, m->length, i++, bounds, k + 1, slacks, k + 1);
        note_answer(w, m, answer);
        note(w, m, bounds, LIST * sizeof bounds[0]);
        note(w, m, slacks, LIST * sizeof slacks[0]);
    } while (PEPPERSCARP_NUMBER(answer) == PEPPERSCARP_FINISHED || PEPPERSCARP_NUMBER(answer) == PEPPERSCARP_GROWTH);
}

/* What a call answered and wrote. The bytes behind it, up to the end of the room, stay as they were. */
static void note_bytes(struct worker *w, struct model *m, uint64_t answer, const uint8_t *out, size_t count, size_t room)
{
    size_t rest = room - count;
    note_answer(w, m, answer);
    note(w, m, out, count);
    if (rest > 0 && (out[count] != FILL || memcmp(out + count, out + count + 1, rest - 1) != 0))
        w->differences++;
}

static void listing(struct worker *w, struct model *m, const uint8_t *file)
{
    uint8_t *text = w->out + w->number;
    size_t count;
    memset(text, FILL, PEPPERSCARP_LISTING_ROOM);
    count = pepperscarp_listing(file, m->length, text, PEPPERSCARP_LISTING_ROOM);
    note_bytes(w, m, count, text, count, PEPPERSCARP_LISTING_ROOM);
    if (count == 0)
        w->differences++;
}

/* The writing, with room for every file and with none. */
static void writing(struct worker *w, struct model *m, const uint8_t *file)
{
    uint8_t *out = w->out + w->number;
    uint64_t answer;
    size_t count;
    memset(out, FILL, PEPPERSCARP_WRITE_ROOM);
    answer = pepperscarp_write(file, m->length, out, 0);
    note_bytes(w, m, answer, out, 0, PEPPERSCARP_WRITE_ROOM);
    answer = pepperscarp_write(file, m->length, out, PEPPERSCARP_WRITE_ROOM);
    count = PEPPERSCARP_NUMBER(answer) == PEPPERSCARP_FINISHED ? PEPPERSCARP_FIGURE(answer) : 0;
    note_bytes(w, m, answer, out, count, PEPPERSCARP_WRITE_ROOM);
}

/* The questions about a calm model: each eighth step, one beyond the last, and slacks up to the limit of the last step. */
static void calm(struct worker *w, struct model *m, const uint8_t *file)
{
    size_t k, last = steps_of(m);
    uint64_t limit, slack;
    note_answer(w, m, pepperscarp_calm(file, m->length));
    for (k = 0; k <= last; k += 8)
        note_answer(w, m, pepperscarp_slack_limit(file, m->length, k));
    note_answer(w, m, pepperscarp_slack_limit(file, m->length, last + 1));
    limit = pepperscarp_slack_limit(file, m->length, last);
    note_answer(w, m, limit);
    limit = PEPPERSCARP_NUMBER(limit) == PEPPERSCARP_FINISHED ? PEPPERSCARP_FIGURE(limit) : 2;
    for (slack = 0; slack <= limit; slack += 1 + limit / 16)
        note_answer(w, m, pepperscarp_steps_within(file, m->length, slack));
    note_answer(w, m, pepperscarp_steps_within(file, m->length, UINT64_MAX));
}

static void all_calls(struct worker *w, struct model *m)
{
    const uint8_t *file = m->bytes;
    w->place = 0;
    if (w->number % 2 == 1) {
        memcpy(w->file + w->number, m->bytes, m->length);
        file = w->file + w->number;
    }
    steps(w, m);
    lists(w, m, file, 0);
    lists(w, m, file, 1);
    listing(w, m, file);
    writing(w, m, file);
    calm(w, m, file);
    if (!w->alone && w->place != m->kept_length)
        w->differences++;
}

/* ---- sixteen threads */

static pthread_barrier_t start;

static void *work(void *argument)
{
    struct worker *w = argument;
    size_t i;
    pthread_barrier_wait(&start);
    for (i = 0; i < ROUNDS * model_count; i++)
        all_calls(w, &models[(i + w->number * model_count / THREADS) % model_count]);
    return NULL;
}

static struct worker *new_worker(size_t number, int alone)
{
    struct worker *w = calloc(1, sizeof *w);
    if (w == NULL)
        abort();
    w->number = number;
    w->alone = alone;
    return w;
}

int main(int count, char **words)
{
    pthread_t threads[THREADS];
    struct worker *workers[THREADS], *first = new_worker(0, 1);
    size_t calls = 0, differences = 0, i;
    FILE *in;

    if (count < 2) {
        fprintf(stderr, "usage: threads FILE..\n");
        return 1;
    }
    model_count = (size_t)count - 1;
    models = calloc(model_count, sizeof *models);
    if (models == NULL || pthread_barrier_init(&start, NULL, THREADS) != 0)
        return 1;
    for (i = 0; i < model_count; i++) {
        in = fopen(words[i + 1], "rb");
        if (in == NULL) {
            perror(words[i + 1]);
            return 1;
        }
        models[i].length = fread(models[i].bytes, 1, FILE_MOST, in);
        fclose(in);
        all_calls(first, &models[i]);
    }
    differences = first->differences;
    free(first);

    for (i = 0; i < THREADS; i++) {
        workers[i] = new_worker(i, 0);
        if (pthread_create(&threads[i], NULL, work, workers[i]) != 0) {
            fprintf(stderr, "threads: thread %zu can't be started\n", i);
            return 1;
        }
    }
    for (i = 0; i < THREADS; i++) {
        if (pthread_join(threads[i], NULL) != 0)
            return 1;
        calls += workers[i]->calls;
        differences += workers[i]->differences;
        free(workers[i]);
    }
    printf("threads: %d threads, %zu files, %zu calls, %zu differences\n", THREADS, model_count, calls, differences);
    return differences != 0;
}
