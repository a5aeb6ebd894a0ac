/* A host in C: judges a trace of its own, and shows two refusals. */
#include "sgram_judge.h"

#include <stdio.h>
#include <string.h>

#define ROWS 4

static const char trace[] =
    "1\t4\t1\t1\t1\t2048\t2\t1\t1\t1\t4\t5120\t0\n"
    "LLHLL\t0\t100\t00000000\n" /* PRE of both banks */
    "LLLLL\t0\t010\t00000000\n" /* LMR: length 1, latency 1 */
    "LHHHL\t0\t000\t00000000\n"
    "LLLHL\t0\t000\t00000000\n" /* REF */
    "LHHHL\t0\t000\t00000000\n"
    "LLLHL\t0\t000\t00000000\n" /* REF: power-up ends */
    "LHHHL\t0\t000\t00000000\n"
    "LLHHL\t0\t003\t00000000\n" /* ACT of row 3 in bank A */
    "LHLLL\t8\t005\t12345678\n" /* WR of column 5, lane 3 held back */
    "LHLHL\t0\t005\t00000000\n" /* RD of it */
    "LHHHL\t0\t000\t00000000\n"
    "LLHHL\t0\t003\t00000000\n"; /* ACT again: a fault */

/* the word in row r and column c of bank A */
static uint32_t word_of(const uint8_t *planes, unsigned r, unsigned c)
{
    uint32_t word = 0;
    for (unsigned i = 0; i < 32; i++)
        word |= (uint32_t)(planes[2048 * r + 64 * i + c / 8] >> (c % 8) & 1) << i;
    return word;
}

static void show(sgram_verdict verdict, const uint8_t *out)
{
    if (verdict.number == 0)
        fwrite(out, 1, verdict.written, stdout);
    else if (verdict.place != 0)
        printf("refused\t%u\t%u\n", (unsigned)verdict.number, (unsigned)verdict.place);
    else
        printf("refused\t%u\n", (unsigned)verdict.number);
}

int main(void)
{
    static uint8_t planes[2048 * ROWS];
    static uint8_t out[16 * 12 + 64];
    const uint8_t *text = (const uint8_t *)trace;
    size_t length = strlen(trace);

    sgram_verdict verdict = sgram_judge(text, length, planes, sizeof planes, out, sizeof out);
    show(verdict, out);
    if (verdict.number != 0)
        return 1;
    printf("row 3, column 5 of bank A holds %08X\n", (unsigned)word_of(planes, 3, 5));

    /* a byte of plane memory too few */
    show(sgram_judge(text, length, planes, sizeof planes - 1, out, sizeof out), out);
    /* the last line without its end */
    show(sgram_judge(text, length - 1, planes, sizeof planes, out, sizeof out), out);
    return 0;
}
