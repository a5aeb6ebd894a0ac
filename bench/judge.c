/* A plain judge in C, and the proved one beside it: the same trace through both, their answers and buffers compared, and
   the least time of each. The two take turns, so that the machine's moods meet both.
   usage: judge ROUNDS < TRACE */
#define PLANES
#define NO_MAIN
#include "model.c"

#include "sgram_judge.h"
#include <time.h>

typedef struct { uint64_t low, high; } range;
static const range ranges[13] = {{1, 3}, {0, 512}, {1, 15}, {1, 15}, {1, 31}, {2048, 65535}, {1, 63}, {1, 15}, {1, 7}, {1, 7},
                                 {2, 1024}, {0, 2147483648u}, {0, 65535}};

static int digit_of(uint8_t c) { return c >= '0' && c <= '9' ? c - '0' : c >= 'A' && c <= 'F' ? c - 'A' + 10 : -1; }

/* the sheet line's fields; answers its length, or 0 */
static size_t sheet_line(const uint8_t *text, size_t length, uint64_t *fields) {
    size_t at = 0;
    for (int i = 0; i < 13; i++) {
        size_t start = at;
        uint64_t value = 0;
        for (; at < length && at - start < 11 && text[at] >= '0' && text[at] <= '9'; at++) value = 10 * value + (text[at] - '0');
        size_t width = at - start;
        if (width == 0 || width > 10 || (width > 1 && text[start] == '0')) return 0;
        if (at >= length || text[at] != (i < 12 ? '\t' : '\n')) return 0;
        fields[i] = value;
        at++;
    }
    return at;
}

static int hex_of(const uint8_t *l, int digits, uint32_t *value) {
    uint32_t v = 0;
    for (int i = 0; i < digits; i++) {
        int d = digit_of(l[i]);
        if (d < 0) return 0;
        v = v << 4 | (uint32_t)d;
    }
    *value = v;
    return 1;
}

static int clock_line(const uint8_t *l, pins *p) {
    if (l[5] != '\t' || l[7] != '\t' || l[11] != '\t' || l[20] != '\n') return 0;
    for (int i = 0; i < 5; i++) if (l[i] != 'H' && l[i] != 'L') return 0;
    uint32_t dqm, address, dq;
    if (!hex_of(l + 6, 1, &dqm) || !hex_of(l + 8, 3, &address) || address > 0x3ff || !hex_of(l + 12, 8, &dq)) return 0;
    *p = (pins){l[0] == 'H', l[1] == 'H', l[2] == 'H', l[3] == 'H', l[4] == 'H', dqm, address, dq};
    return 1;
}

static uint8_t *put_text(uint8_t *out, const char *text) { while (*text) *out++ = *text++; return out; }

static uint8_t *put_decimal(uint8_t *out, uint64_t n) {
    uint8_t digits[20];
    int k = 0;
    do digits[k++] = '0' + n % 10; while (n /= 10);
    while (k) *out++ = digits[--k];
    return out;
}

static uint8_t *put_hex(uint8_t *out, int digits, uint32_t n) {
    for (int i = digits - 1; i >= 0; i--) *out++ = "0123456789ABCDEF"[n >> (4 * i) & 15];
    return out;
}

static uint8_t *put_bank(uint8_t *out, char name, const bank *k) {
    *out++ = name;
    if (!k->active) return put_text(out, "\tidle\n");
    out = put_decimal(put_text(out, "\tactive\t"), k->row);
    return put_text(out, k->masked ? "\tmasked\n" : "\tplain\n");
}

static sgram_verdict refused(uint32_t number, uint32_t place) { return (sgram_verdict){number, place, 0}; }

static sgram_verdict plain_judge(const uint8_t *text, size_t length, uint8_t *planes, size_t planes_length, uint8_t *out, size_t out_length) {
    static device d;
    static pins ps[3200];
    uint64_t fields[13];
    if (length > 65536) return refused(8, 0);
    size_t body = sheet_line(text, length, fields);
    if (body == 0) return refused(5, 0);
    for (int i = 0; i < 13; i++) if (fields[i] < ranges[i].low || fields[i] > ranges[i].high) return refused(1, i + 1);
    if (fields[11] < 1024 * fields[10] + 1024) return refused(2, 0);
    if (planes_length < 2048 * fields[1]) return refused(3, 0);
    size_t count = 0;
    for (size_t at = body; at < length; at += 21, count++)
        if (length - at < 21 || !clock_line(text + at, &ps[count])) return refused(6, count + 2);
    if (out_length < 16 * count + 64) return refused(7, 0);
    uint32_t *s = (uint32_t *)&d.s;
    for (int i = 0; i < 13; i++) s[i] = fields[i];
    memset(planes, 0, 2048 * fields[1]);
    d.cells = planes;
    switch_on(&d);
    uint8_t *end = out;
    for (size_t i = 0; i < count; i++) {
        uint32_t word;
        uint8_t lanes = do_clock(&d, &ps[i], &word);
        if (!lanes) continue;
        end = put_decimal(end, i + 1);
        *end++ = '\t';
        end = put_hex(end, 1, lanes);
        *end++ = '\t';
        end = put_hex(end, 8, word);
        *end++ = '\n';
    }
    end = put_bank(put_bank(end, 'A', &d.banks[0]), 'B', &d.banks[1]);
    if (d.fault) {
        end = put_decimal(put_text(end, "fault\t"), d.fault);
        *end++ = '\t';
        end = put_decimal(end, d.fault_clock);
    } else end = put_decimal(put_text(end, "ok\t"), count);
    *end++ = '\n';
    return (sgram_verdict){0, 0, (size_t)(end - out)};
}

static double now(void) {
    struct timespec t;
    clock_gettime(CLOCK_PROCESS_CPUTIME_ID, &t);
    return t.tv_sec * 1e6 + t.tv_nsec / 1e3;
}

typedef sgram_verdict call(const uint8_t *, size_t, uint8_t *, size_t, uint8_t *, size_t);

int main(int argc, char **argv) {
    if (argc != 2) { fprintf(stderr, "usage: judge ROUNDS < TRACE\n"); return 2; }
    static uint8_t text[1 << 17], planes[2][2048 * 512], out[2][16 * 3200 + 64];
    static call *const calls[2] = {plain_judge, sgram_judge};
    size_t length = fread(text, 1, sizeof text, stdin);
    double best[2] = {1e12, 1e12};
    sgram_verdict v[2];
    for (long r = strtol(argv[1], 0, 10); r > 0; r--)
        for (int k = 0; k < 2; k++) {
            double start = now();
            v[k] = calls[k](text, length, planes[k], sizeof planes[k], out[k], sizeof out[k]);
            double took = now() - start;
            if (took < best[k]) best[k] = took;
        }
    if (v[0].number != v[1].number || v[0].place != v[1].place || v[0].written != v[1].written
        || memcmp(out[0], out[1], sizeof out[0]) || memcmp(planes[0], planes[1], sizeof planes[0])) {
        puts("the two differ");
        return 1;
    }
    printf("%zu bytes: plain C %.0f us, proved %.0f us, %.2f times\n", length, best[0], best[1], best[1] / best[0]);
    return best[1] > 2 * best[0];
}
