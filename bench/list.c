/* One font for bench/run. `list FILE` writes its listing, as tftopl does. `list FILE times` prints what calls in one process need and take:
 * entries of pair room, bytes of findings and of listing (0 where the listing does not fit), and then nanoseconds of a verdict, of a listing
 * and of clearing all that is lent, each with as many entries as are needed and with the largest pair room. `list FILE stack` prints the bytes
 * of stack that a verdict, a listing, and all calls that settle no pairs take. */
#define _POSIX_C_SOURCE 200809L
#include <math.h>
#include <pthread.h>
#include <stdalign.h>
#include <stdio.h>
#include <stdlib.h>
#include <string.h>
#include <time.h>

#include "nyelgomir.h"

enum { BATCHES = 51 };
static const double BATCH_NANOSECONDS = 2e6;

/* Static, so that the system clears them page by page as they are touched. */
static uint8_t file[1 << 18];
static uint8_t copy[NYELGOMIR_COPY_BYTES(NYELGOMIR_LARGEST_LF)];
static uint8_t findings[NYELGOMIR_FINDINGS_BYTES(NYELGOMIR_LARGEST_LF)];
static uint32_t pairs[NYELGOMIR_PAIR_ENTRIES];
static uint8_t listing[1 << 24];

static size_t file_len;
static size_t pairs_len = NYELGOMIR_PAIR_ENTRIES;
static size_t answer[3];

static uint8_t judge(void)
{
    return nyelgomir_verdict(file, file_len, copy, sizeof copy, findings, sizeof findings, pairs, pairs_len, answer);
}

static uint8_t list(void)
{
    return nyelgomir_listing(file, file_len, copy, sizeof copy, findings, sizeof findings, pairs, pairs_len, listing, sizeof listing, answer);
}

static size_t copied, found, listed;

static uint8_t clear(void)
{
    memset(copy, 0, copied);
    memset(findings, 0, found);
    memset(pairs, 0, pairs_len * sizeof *pairs);
    memset(listing, 0, listed);
    return 0;
}

static double now(void)
{
    struct timespec time;
    clock_gettime(CLOCK_MONOTONIC, &time);
    return 1e9 * (double)time.tv_sec + (double)time.tv_nsec;
}

/* One kind of call with one length of pair room, and the nanoseconds of its fastest batch: one that the machine did not interrupt. A batch is
 * long enough for the clock. */
struct measure {
    uint8_t (*act)(void);
    size_t room;
    size_t calls;
    double fastest;
};

static double batch(struct measure *m)
{
    pairs_len = m->room;
    double start = now();
    for (size_t i = 0; i < m->calls; i++)
        m->act();
    double time = now() - start;
    if (time < m->fastest)
        m->fastest = time;
    return time;
}

static struct measure prepared(uint8_t act(void), size_t room)
{
    struct measure m = {.act = act, .room = room, .calls = 1};
    while (batch(&m) < BATCH_NANOSECONDS)
        m.calls *= 2;
    m.fastest = INFINITY;
    return m;
}

/* The fewest entries with which the font is judged. */
static size_t least_room(void)
{
    size_t few = 0, enough = NYELGOMIR_PAIR_ENTRIES;
    while (few < enough) {
        pairs_len = (few + enough) / 2;
        if (judge() == NYELGOMIR_ACCEPTED)
            enough = pairs_len;
        else
            few = pairs_len + 1;
    }
    return enough;
}

/* The kinds of call take turns, so that what else the machine does falls on all alike. */
static void print_times(void)
{
    size_t few = least_room(), all = pairs_len = NYELGOMIR_PAIR_ENTRIES;
    list();
    copied = NYELGOMIR_COPY_BYTES(256 * file[0] + file[1]);
    found = answer[1];
    listed = answer[2];
    printf("%zu %zu %zu", few, found, listed);
    struct measure measures[] = {prepared(judge, few), prepared(judge, all), prepared(list, few),
                                 prepared(list, all),  prepared(clear, few), prepared(clear, all)};
    size_t kinds = sizeof measures / sizeof *measures;
    for (size_t turn = 0; turn < BATCHES; turn++)
        for (size_t i = 0; i < kinds; i++)
            batch(&measures[i]);
    for (size_t i = 0; i < kinds; i++)
        printf(" %.0f", measures[i].fastest / (double)measures[i].calls);
    putchar('\n');
}

/* A thread's stack, painted before a call: what the call has touched is no longer so. */
enum { PAINT = 165 };
static alignas(4096) uint8_t stack[1 << 23];

static uint8_t rest(void)
{
    return 0;
}

static uint8_t ask_the_others(void)
{
    uint16_t sizes[NYELGOMIR_SIZES];
    size_t part[2];
    double lengths[NYELGOMIR_EYE_LENGTHS];
    uint8_t decimal[NYELGOMIR_DECIMAL_BYTES], text[NYELGOMIR_SENTENCE_BYTES];
    nyelgomir_sizes(file, file_len, sizes);
    nyelgomir_subfile(file, file_len, NYELGOMIR_PARAM, part);
    nyelgomir_eye_lengths(file, file_len, 'A', lengths);
    nyelgomir_decimal(UINT32_MAX, decimal);
    nyelgomir_finding_words(NYELGOMIR_PIECE_MISSING, UINT16_MAX, 3, text, sizeof text);
    nyelgomir_number_words(NYELGOMIR_NO_SUCH_CHARACTER, text, sizeof text);
    nyelgomir_verdict_words(NYELGOMIR_LOOPING, text, sizeof text);
    return 0;
}

static void *there(void *act)
{
    (*(uint8_t(**)(void))act)();
    return NULL;
}

static size_t touched(uint8_t act(void))
{
    pthread_attr_t attributes;
    pthread_t thread;
    memset(stack, PAINT, sizeof stack);
    pthread_attr_init(&attributes);
    if (pthread_attr_setstack(&attributes, stack, sizeof stack) != 0 || pthread_create(&thread, &attributes, there, &act) != 0)
        exit(2);
    pthread_join(thread, NULL);
    pthread_attr_destroy(&attributes);
    size_t kept = 0;
    while (stack[kept] == PAINT)
        kept++;
    return sizeof stack - kept;
}

static void print_stack(void)
{
    size_t thread = touched(rest);
    printf("%zu %zu %zu\n", touched(judge) - thread, touched(list) - thread, touched(ask_the_others) - thread);
}

int main(int argc, char **argv)
{
    FILE *in = argc > 1 ? fopen(argv[1], "rb") : NULL;
    if (in == NULL)
        return 2;
    file_len = fread(file, 1, sizeof file, in);
    fclose(in);
    if (argc > 2) {
        strcmp(argv[2], "stack") == 0 ? print_stack() : print_times();
        return 0;
    }
    uint8_t number = list();
    fwrite(listing, 1, answer[2], stdout);
    return number;
}
