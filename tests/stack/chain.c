/* The deepest trees: chains of 4,095 records, each call in a thread with one MiB of stack that was painted before, so
   that the bytes it used can be counted. */
#include "futtockram.h"
#include <pthread.h>
#include <stdio.h>
#include <stdlib.h>
#include <string.h>

enum { SLOTS = FTK_MOST_SLOTS, WORDS = FTK_WORDS(SLOTS), STACK = 1 << 20, PAINT = 0xA5 };

static uint32_t table[WORDS];
static uint64_t out[FTK_NUMBERS];
static int passed = 0;

static uint32_t rising(uint32_t k) { return k; }
static uint32_t falling(uint32_t k) { return SLOTS + 1 - k; }
static uint32_t zigzag(uint32_t k) { return k % 2 ? (k + 1) / 2 : SLOTS + 1 - k / 2; }

static void fill(uint32_t (*key)(uint32_t))
{
    ftk_start(table, WORDS, out);
    for (uint32_t k = 1; k <= SLOTS; k++)
        ftk_post(table, WORDS, key(k), 7, FTK_POURED, out);
}

static void check(void) { ftk_check(table, WORDS, out); }
static void rank(void) { ftk_rank(table, WORDS, SLOTS, out); }
static void total(void) { ftk_total(table, WORDS, UINT32_MAX, out); }
static void worth(void) { ftk_worth(table, WORDS, out); }
static void tidy(void) { ftk_tidy(table, WORDS, 1, out); }
static void find(void) { ftk_find(table, WORDS, SLOTS / 2 + 1, out); }
static void drop(void) { ftk_drop(table, WORDS, SLOTS / 2 + 1, out); }

static void *in_thread(void *call)
{
    (*(void (**)(void))call)();
    return NULL;
}

static void fail(const char *chain, const char *name)
{
    printf("FAILED  %s, %s\n%d passed, 1 failed\n", chain, name, passed);
    exit(1);
}

/* The bytes of stack that a call used, those that the thread itself takes among them. */
static size_t used_by(void (*call)(void))
{
    unsigned char *stack = aligned_alloc(4096, STACK);
    pthread_attr_t how;
    pthread_t thread;
    memset(stack, PAINT, STACK);
    if (pthread_attr_init(&how) || pthread_attr_setstack(&how, stack, STACK) ||
        pthread_create(&thread, &how, in_thread, &call) || pthread_join(thread, NULL))
        fail("the thread", "could not run");
    size_t clean = 0;
    while (clean < STACK && stack[clean] == PAINT)
        clean++;
    free(stack);
    return STACK - clean;
}

static void each(const char *chain, uint32_t (*key)(uint32_t))
{
    struct {
        const char *name;
        void (*call)(void);
        size_t number; /* which of the five numbers is held to what is wanted */
        uint64_t wanted;
    } calls[] = {
        { "check", check, FTK_CODE, FTK_ACCEPTED },
        { "rank", rank, FTK_CODE, FTK_ACCEPTED },
        { "total", total, FTK_VALUE, 7 * (uint64_t)SLOTS },
        { "worth", worth, FTK_CODE, FTK_ACCEPTED },
        { "find", find, FTK_VALUE, 7 },
        { "tidy", tidy, FTK_VALUE, 1 },
        { "drop", drop, FTK_CODE, FTK_ACCEPTED },
    };
    fill(key);
    for (size_t i = 0; i < sizeof calls / sizeof *calls; i++) {
        size_t used = used_by(calls[i].call);
        if (out[FTK_CODE] != FTK_ACCEPTED || out[calls[i].number] != calls[i].wanted)
            fail(chain, calls[i].name);
        printf("ok  %s, %s: %zu bytes\n", chain, calls[i].name, used);
        passed++;
    }
}

int main(void)
{
    each("rising", rising);
    each("falling", falling);
    each("zigzag", zigzag);
    printf("%d passed, 0 failed\n", passed);
    return 0;
}
