/* Judges standard input with plane memory and output of given lengths, and writes the answer as the program does.

   usage: judge-call PLANES OUTPUT < TRACE */
#include "sgram_judge.h"

#include <stdio.h>
#include <stdlib.h>

static uint8_t *room(size_t length)
{
    uint8_t *bytes = malloc(length == 0 ? 1 : length);
    if (bytes == NULL)
        exit(2);
    return bytes;
}

int main(int argc, char **argv)
{
    if (argc != 3)
        return 2;
    size_t planes_length = strtoul(argv[1], NULL, 10), out_length = strtoul(argv[2], NULL, 10);
    static uint8_t text[1 << 20];
    size_t length = fread(text, 1, sizeof text, stdin);
    uint8_t *planes = room(planes_length), *out = room(out_length);
    for (size_t i = 0; i < planes_length; i++)
        planes[i] = (uint8_t)(31 * i + 7);
    sgram_verdict v = sgram_judge(text, length, planes, planes_length, out, out_length);
    if (v.number == 0)
        fwrite(out, 1, v.written, stdout);
    else if (v.place != 0)
        printf("refused\t%u\t%u\n", (unsigned)v.number, (unsigned)v.place);
    else
        printf("refused\t%u\n", (unsigned)v.number);
    free(planes);
    free(out);
    return 0;
}
