/* The judge of pin traces for a 256K x 32 synchronous graphics RAM. docs/JUDGE.md has the form of the text and of the
   output. */
#ifndef SGRAM_JUDGE_H
#define SGRAM_JUDGE_H

#include <stddef.h>
#include <stdint.h>

#ifdef __cplusplus
extern "C" {
#endif

typedef struct {
    /* 0 for a verdict, else the number of the refusal */
    uint32_t number;
    /* the place of the field under 1, the number of the line under 6, else 0 */
    uint32_t place;
    /* how many bytes of the output were written; 0 under a refusal */
    size_t written;
} sgram_verdict;

/* Judges a text: runs its clocks on a device just switched on, its cells all zero, and writes what the device drove,
   its banks at the end, and the verdict.

   The caller lends three buffers, each a pointer that is not null and a length in bytes. They must not overlap, and
   nothing else may touch them during the call. That is all that is asked: any lengths and any bytes are answered.

   A refusal writes nothing, in either buffer. The reasons are sought in this order, and the first that applies counts:
     8  the text has more than 65,536 bytes
     5  it has no well-formed sheet line
     1  a field of the sheet is out of range; place is that of the first, from 1
     2  the sheet's ret is too small for its n
     3  the planes are shorter than 2,048 bytes for each of the sheet's rows
     6  a clock line is ill-formed; place is the number of the first, the sheet line being 1
     7  the output is shorter than 16 bytes for each clock line and 64 more

   A verdict has the number 0. The output's first `written` bytes then hold the text, and those behind it what they held.
   The planes' first 2,048 bytes for each of the sheet's rows then hold the cells after the last clock that was no
   fault: bit i of the word in row r, column c of bank b (A is 0, B is 1) is bit c % 8 of byte
   2048 r + 64 i + 32 b + c / 8. Those behind them hold what they held.

   Nothing is allocated, and nothing is kept from one call to the next. */
sgram_verdict sgram_judge(const uint8_t *text, size_t text_length,
                          uint8_t *planes, size_t planes_length,
                          uint8_t *out, size_t out_length);

#ifdef __cplusplus
}
#endif

#endif
