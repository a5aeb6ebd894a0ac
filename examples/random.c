/* Many calls of the judge with random lengths and random or spoiled texts. After a refusal both buffers must be as they
   were, after a verdict what lies behind the rows and behind the text. Each buffer is allocated at its exact length, so
   that valgrind sees a byte read or written past it.

   usage: random [CALLS [SEED]] */
#include "sgram_judge.h"

#include <stdio.h>
#include <stdlib.h>
#include <string.h>

static uint64_t state;

static uint32_t next(void)
{
    state = state * 6364136223846793005u + 1442695040888963407u;
    return (uint32_t)(state >> 33);
}

static uint32_t below(uint32_t n)
{
    return n == 0 ? 0 : next() % n;
}

static void *room(size_t length)
{
    void *p = malloc(length == 0 ? 1 : length);
    if (p == NULL)
        exit(2);
    return p;
}

static void scatter(uint8_t *bytes, size_t length)
{
    for (size_t i = 0; i < length; i++)
        bytes[i] = (uint8_t)next();
}

/* a sheet of short distances and few rows, and random commands behind a power-up */
static size_t trace_of(char *text, uint32_t *rows, uint32_t *clocks)
{
    static const char *start[] = {"LLHLL\t0\t100\t00000000\n", "LLLLL\t0\t01%u\t00000000\n", "LHHHL\t0\t000\t00000000\n",
                                  "LLLHL\t0\t000\t00000000\n", "LHHHL\t0\t000\t00000000\n", "LLLHL\t0\t000\t00000000\n",
                                  "LHHHL\t0\t000\t00000000\n"};
    static const char *levels[] = {"LHHHL", "LLHHL", "LLHHH", "LHLLL", "LHLHL", "LHLLH", "LLHLL", "HLLLL", "LHHLL", "LLLHL", "LLLLH"};
    *rows = below(6);
    *clocks = 7 + below(60);
    int n = sprintf(text, "1\t%u\t1\t1\t1\t2048\t2\t1\t1\t1\t4\t5120\t0\n", (unsigned)*rows);
    for (uint32_t i = 0; i < *clocks; i++) {
        if (i < 7)
            n += sprintf(text + n, start[i], (unsigned)below(4));
        else
            n += sprintf(text + n, "%s\t%X\t%03X\t%08X\n", levels[below(11)], (unsigned)below(16), (unsigned)(below(2) * 512 + below(6)), (unsigned)next());
    }
    return (size_t)n;
}

static size_t spoil(char *text, size_t length)
{
    uint32_t at = below((uint32_t)length);
    switch (below(5)) {
    case 0: /* cut off */
        return at;
    case 1: /* a byte left out */
        memmove(text + at, text + at + 1, length - at - 1);
        return length - 1;
    case 2: /* a byte put in */
        memmove(text + at + 1, text + at, length - at);
        text[at] = (char)next();
        return length + 1;
    case 3: /* a byte changed */
        text[at] = (char)next();
        return length;
    default: /* the sheet changed */
        text[below(30)] = (char)('0' + below(10));
        return length;
    }
}

static size_t text_of(char *text, uint32_t *rows, uint32_t *clocks)
{
    size_t length = trace_of(text, rows, clocks);
    uint32_t kind = below(20);
    if (kind == 0) { /* any bytes */
        length = below(300);
        scatter((uint8_t *)text, length);
    } else if (kind == 1) { /* about as long as allowed, or longer */
        size_t full = 65536 - 40 + below(80);
        while (length < full) {
            memcpy(text + length, "LHHHL\t0\t000\t00000000\n", 21);
            length += 21;
        }
        *clocks = 3200;
    } else if (kind < 10) {
        length = spoil(text, length);
    }
    return length;
}

/* at, one short of or anywhere around what is needed */
static size_t around(size_t needed)
{
    switch (below(4)) {
    case 0:
        return needed;
    case 1:
        return needed == 0 ? 0 : needed - 1;
    case 2:
        return below((uint32_t)(needed + 1));
    default:
        return needed + below(100);
    }
}

static int wrong(const char *what, long call)
{
    printf("call %ld: %s\n", call, what);
    return 1;
}

static int one_call(long call, uint64_t *outcomes)
{
    static char work[70000];
    uint32_t rows, clocks;
    size_t length = text_of(work, &rows, &clocks);
    size_t planes_length = around(2048 * (size_t)rows);
    size_t out_length = around(16 * (size_t)clocks + 64);
    uint8_t *text = room(length), *planes = room(planes_length), *out = room(out_length);
    uint8_t *planes_before = room(planes_length), *out_before = room(out_length);
    memcpy(text, work, length);
    scatter(planes, planes_length);
    scatter(out, out_length);
    memcpy(planes_before, planes, planes_length);
    memcpy(out_before, out, out_length);

    sgram_verdict v = sgram_judge(text, length, planes, planes_length, out, out_length);
    int bad = 0;
    if (memcmp(text, work, length) != 0)
        bad |= wrong("the text has changed", call);
    if (v.number != 0) {
        if (v.number > 8 || v.written != 0 || (v.place != 0) != (v.number == 1 || v.number == 6))
            bad |= wrong("no such refusal", call);
        if (memcmp(planes, planes_before, planes_length) != 0 || memcmp(out, out_before, out_length) != 0)
            bad |= wrong("a refusal has written", call);
        outcomes[v.number <= 8 ? v.number : 0]++;
    } else {
        work[length] = 0;
        size_t used = 2048 * strtoul(strchr(work, '\t') + 1, NULL, 10);
        if (v.written > out_length || used > planes_length || v.place != 0)
            bad |= wrong("more than there is", call);
        else if (memcmp(planes + used, planes_before + used, planes_length - used) != 0
                 || memcmp(out + v.written, out_before + v.written, out_length - v.written) != 0)
            bad |= wrong("written past the end", call);
        else if (v.written < 12 || out[v.written - 1] != '\n')
            bad |= wrong("no verdict", call);
        outcomes[0]++;
    }
    free(text);
    free(planes);
    free(out);
    free(planes_before);
    free(out_before);
    return bad;
}

int main(int argc, char **argv)
{
    long calls = argc > 1 ? atol(argv[1]) : 3000;
    state = argc > 2 ? strtoul(argv[2], NULL, 10) : 1;
    uint64_t outcomes[9] = {0};
    long failed = 0;
    for (long i = 0; i < calls; i++)
        failed += one_call(i, outcomes);
    printf("verdicts %lu; refused by 1: %lu, 2: %lu, 3: %lu, 5: %lu, 6: %lu, 7: %lu, 8: %lu\n", (unsigned long)outcomes[0],
           (unsigned long)outcomes[1], (unsigned long)outcomes[2], (unsigned long)outcomes[3], (unsigned long)outcomes[5],
           (unsigned long)outcomes[6], (unsigned long)outcomes[7], (unsigned long)outcomes[8]);
    printf("%ld passed, %ld failed\n", calls - failed, failed);
    return failed != 0;
}
