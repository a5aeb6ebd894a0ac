/* A plain model of the pin rules, for comparing speed: docs/RULES.md in C, with words as cells, or with bit planes where
   PLANES is defined.
   usage: model ROUNDS < TRACE */
#include <stdint.h>
#include <stdio.h>
#include <stdlib.h>
#include <string.h>

#define NEVER UINT64_MAX

typedef struct { uint8_t cs, ras, cas, we, dsf, dqm; uint16_t address; uint32_t dq; } pins;
typedef struct { uint32_t cl, rows, rcd, rp, ras, rasmax, rc, rrd, wr, bwc, n, ret, pup; } sheet;
typedef struct { int active, masked; uint32_t row; uint64_t opened, closed, written; } bank;
enum { INHBT, NOP, BST, RD, WR, BW, ACT, ACTM, PRE, REF, LMR, LSMR };

typedef struct {
    sheet s;
    uint64_t clock, refreshed, loaded, blocked, fault_clock;
    bank banks[2];
    uint32_t length, interleaved, mask, colour;
    int burst, burst_write, burst_bank, burst_interleaved;
    uint32_t burst_from, burst_next, burst_length;
    uint8_t reads[3], dqms[2];
    uint32_t words[3];
    int closed, mode_loaded, refreshes;
    uint64_t marks[1024];
    uint32_t head;
    uint8_t drove, fault;
#ifdef PLANES
    uint8_t *cells;
#else
    uint32_t *cells;
#endif
} device;

static void switch_on(device *d) {
    d->clock = 0;
    d->refreshed = d->loaded = d->blocked = NEVER;
    for (int b = 0; b < 2; b++) d->banks[b] = (bank){0, 0, 0, NEVER, NEVER, NEVER};
    d->length = 1; d->interleaved = 0; d->mask = d->colour = 0;
    d->burst = 0;
    memset(d->reads, 0, sizeof d->reads); memset(d->dqms, 0, sizeof d->dqms); memset(d->words, 0, sizeof d->words);
    d->closed = d->mode_loaded = d->refreshes = 0;
    d->head = 0; d->drove = 0; d->fault = 0; d->fault_clock = 0;
}

static int decode(const pins *p) {
    if (p->cs) return INHBT;
    switch (p->ras << 2 | p->cas << 1 | p->we) {
    case 7: return NOP;
    case 6: return BST;
    case 5: return RD;
    case 4: return p->dsf ? BW : WR;
    case 3: return p->dsf ? ACTM : ACT;
    case 2: return PRE;
    case 1: return REF;
    default: return p->dsf ? LSMR : LMR;
    }
}

static int brief(uint64_t since, uint32_t least, uint64_t t) { return since != NEVER && t < since + least; }
static int over(uint64_t since, uint32_t most, uint64_t t) { return since != NEVER && t > since + most; }
static int ready(const device *d) { return d->mode_loaded && d->refreshes >= 2; }
static int early(const device *d, const bank *k, uint64_t t) {
    return k->active && (brief(k->opened, d->s.ras, t) || brief(k->written, d->s.wr, t));
}
static uint32_t wide(uint32_t lanes) {
    return 255u * ((lanes & 1) | (lanes & 2) << 7 | (lanes & 4) << 14 | (lanes & 8) << 21);
}

/* The fault at clock t, or 0. */
static int judge(const device *d, int c, uint32_t a, uint64_t t, int writes, uint8_t lanes) {
    const sheet *s = &d->s;
    const bank *A = &d->banks[0], *B = &d->banks[1];
    const bank *k = &d->banks[a >> 9 & 1], *o = &d->banks[~a >> 9 & 1];
    int quiet = c <= BST, a8 = a >> 8 & 1, any = A->active || B->active;
    if (t == 1ull << 62) return 11;
    if (ready(d) && over(d->marks[d->head], s->ret, t)) return 12;
    if ((A->active && over(A->opened, s->rasmax, t)) || (B->active && over(B->opened, s->rasmax, t))) return 13;
    if (!quiet && !ready(d)) {
        int fits = (c == PRE && a8) || ((c == REF || c == LMR) && d->closed);
        if (t <= s->pup || !fits) return 14;
    }
    if (!quiet && (brief(d->refreshed, s->rc, t) || brief(d->loaded, 2, t))) return 15;
    switch (c) {
    case RD: case WR: case BW: if (a8) return 16; break;
    case ACT: case ACTM: if ((a & 511) >= s->rows) return 16; break;
    case LMR: if ((a & 7) > 3 || (a >> 4 & 7) != s->cl || a > 127) return 16; break;
    case LSMR: if (a != 0 && a != 0x20 && a != 0x40) return 16; break;
    }
    switch (c) {
    case RD: case WR: case BW: if (!k->active) return 17; break;
    case ACT: case ACTM: if (k->active) return 17; break;
    case REF: case LMR: if (any) return 17; break;
    case LSMR:
        if (d->burst) return 17;
        for (uint32_t i = 0; i < s->cl; i++) if (d->reads[i]) return 17;
        break;
    }
    switch (c) {
    case RD: case WR: case BW:
        if (brief(k->opened, s->rcd, t) || brief(d->blocked, s->bwc, t)) return 18;
        break;
    case ACT: case ACTM:
        if (brief(k->closed, s->rp, t) || brief(k->opened, s->rc, t) || brief(o->opened, s->rrd, t)) return 18;
        break;
    case PRE:
        if ((a8 || k == A) && early(d, A, t)) return 18;
        if ((a8 || k == B) && early(d, B, t)) return 18;
        break;
    case REF:
        if (brief(A->opened, s->rc, t) || brief(B->opened, s->rc, t)) return 18;
        /* fall through */
    case LMR:
        if (brief(A->closed, s->rp, t) || brief(B->closed, s->rp, t)) return 18;
        break;
    case LSMR: if (brief(d->blocked, s->bwc, t)) return 18; break;
    }
    if (writes && (lanes || d->drove)) return 19;
    return 0;
}

#ifdef PLANES
/* bit column % 8 of the byte, and of each 64th behind it */
static uint8_t *spot(device *d, int b, uint32_t row, uint32_t column) { return d->cells + 2048 * row + 32 * b + column / 8; }
static uint32_t take(device *d, int b, uint32_t row, uint32_t column) {
    const uint8_t *p = spot(d, b, row, column);
    uint32_t word = 0;
    for (int i = 0; i < 32; i++) word |= (uint32_t)(p[64 * i] >> (column & 7) & 1) << i;
    return word;
}
static void paint(uint8_t *p, uint32_t columns, uint32_t reach, uint32_t colour) {
    for (int i = 0; i < 32; i++) {
        uint8_t m = reach >> i & 1 ? columns >> (i & 24) : 0;
        p[64 * i] = (p[64 * i] & ~m) | ((colour >> i & 1 ? 255 : 0) & m);
    }
}
static void store(device *d, int b, uint32_t row, uint32_t column, uint32_t reach, uint32_t word) {
    paint(spot(d, b, row, column), 0x01010101u << (column & 7), reach, word);
}
static void block(device *d, int b, uint32_t row, uint32_t column, uint32_t columns, uint32_t reach) {
    paint(spot(d, b, row, column), columns, reach, d->colour);
}
#else
static uint32_t *spot(device *d, int b, uint32_t row) { return d->cells + b * d->s.rows * 256 + row * 256; }
static uint32_t take(device *d, int b, uint32_t row, uint32_t column) { return spot(d, b, row)[column]; }
static void store(device *d, int b, uint32_t row, uint32_t column, uint32_t reach, uint32_t word) {
    uint32_t *cell = spot(d, b, row) + column;
    *cell = (*cell & ~reach) | (word & reach);
}
static void block(device *d, int b, uint32_t row, uint32_t column, uint32_t columns, uint32_t reach) {
    uint32_t *eight = spot(d, b, row) + (column & ~7u);
    for (int i = 0; i < 8; i++) {
        uint32_t m = ((columns >> i & 0x01010101u) * 255u) & reach;
        eight[i] = (eight[i] & ~m) | (d->colour & m);
    }
}
#endif

static uint8_t do_clock(device *d, const pins *p, uint32_t *word) {
    *word = 0;
    if (d->fault) return 0;
    int c = decode(p);
    uint32_t a = p->address & 1023, dqm = p->dqm & 15, cl = d->s.cl;
    uint64_t t = d->clock + 1;
    int a8 = a >> 8 & 1, b = a >> 9 & 1;
    /* the burst whose beat is done now */
    int burst = d->burst, bw = d->burst_write, bb = d->burst_bank, bi = d->burst_interleaved;
    uint32_t from = d->burst_from, next = d->burst_next, length = d->burst_length;
    if (c == RD || c == WR) {
        burst = 1; bw = c == WR; bb = b; bi = d->interleaved; from = a & 255; next = 0; length = d->length;
    } else if (c == BST || c == BW || (c == PRE && (a8 || bb == b))) burst = 0;
    int writes = c == BW || (burst && bw), takes = c != BW && burst && !bw;
    uint8_t lanes = d->reads[0] ? 15 - d->dqms[0] : 0;
    int f = judge(d, c, a, t, writes, lanes);
    if (f) { d->fault = f; d->fault_clock = t; return 0; }
    *word = d->words[0] & wide(lanes);
    int beat_bank = c == BW ? b : bb;
    uint32_t column = a & 255, taken = 0;
    if (c != BW && burst)
        column = (from & ~(length - 1)) + (bi ? (from & (length - 1)) ^ next : (from + next) & (length - 1));
    if (writes || takes) {
        bank *k = &d->banks[beat_bank];
        uint32_t reach = wide(15 - dqm) & (k->masked ? d->mask : 0xffffffffu);
        if (takes) taken = take(d, beat_bank, k->row, column);
        else if (c == BW) block(d, beat_bank, k->row, column, p->dq, reach);
        else store(d, beat_bank, k->row, column, reach, p->dq);
    }
    /* what moves */
    int was = ready(d);
    d->clock = t;
    if (c == ACT || c == ACTM) {
        bank *k = &d->banks[b];
        k->active = 1; k->masked = c == ACTM; k->row = a & 511; k->opened = t;
    } else if (c == PRE) {
        for (int i = 0; i < 2; i++) {
            bank *k = &d->banks[i];
            if (!a8 && i != b) continue;
            if (k->active || (a8 && !was)) k->closed = t;
            k->active = 0;
        }
        if (a8) d->closed = 1;
    } else if (c == LMR) {
        d->length = 1u << (a & 7); d->interleaved = a >> 3 & 1; d->mode_loaded = 1; d->loaded = t;
    } else if (c == LSMR) {
        if (a == 0x20) d->mask = p->dq;
        if (a == 0x40) d->colour = p->dq;
        d->loaded = t;
    } else if (c == REF) {
        if (d->refreshes < 2) d->refreshes++;
        d->refreshed = t;
        if (was) { d->marks[d->head] = t; if (++d->head == d->s.n) d->head = 0; }
    } else if (c == BW) d->blocked = t;
    if (!was && ready(d)) { for (uint32_t i = 0; i < d->s.n; i++) d->marks[i] = t; d->head = 0; }
    if (writes && dqm != 15) d->banks[beat_bank].written = t;
    d->burst = burst && next + 1 < length; d->burst_write = bw; d->burst_bank = bb; d->burst_interleaved = bi;
    d->burst_from = from; d->burst_next = next + 1; d->burst_length = length;
    for (uint32_t i = 0; i + 1 < cl; i++) { d->reads[i] = d->reads[i + 1]; d->words[i] = d->words[i + 1]; }
    d->reads[cl - 1] = takes; d->words[cl - 1] = taken;
    d->dqms[0] = d->dqms[1]; d->dqms[1] = dqm;
    d->drove = lanes;
    return lanes;
}

#ifndef NO_MAIN
int main(int argc, char **argv) {
    if (argc != 2) { fprintf(stderr, "usage: model ROUNDS < TRACE\n"); return 1; }
    uint32_t rounds = strtoul(argv[1], 0, 10);
    static char text[1 << 17];
    size_t size = fread(text, 1, sizeof text - 1, stdin);
    text[size] = 0;
    device *d = calloc(1, sizeof *d);
    uint32_t *f = (uint32_t *)&d->s;
    char *at = text;
    for (int i = 0; i < 13; i++) f[i] = strtoul(at, &at, 10);
    at++;
    size_t count = (text + size - at) / 21;
    pins *ps = calloc(count + 1, sizeof *ps);
    for (size_t i = 0; i < count; i++) {
        char *l = at + 21 * i;
        ps[i] = (pins){l[0] == 'H', l[1] == 'H', l[2] == 'H', l[3] == 'H', l[4] == 'H', 0, 0, 0};
        ps[i].dqm = strtoul(l + 6, 0, 16); ps[i].address = strtoul(l + 8, 0, 16); ps[i].dq = strtoul(l + 12, 0, 16);
    }
    d->cells = calloc(512 * 512, 4);
    uint32_t total = 0;
    for (uint32_t r = 0; r < rounds; r++) {
        uint32_t sum = 0, word;
        switch_on(d);
        for (size_t i = 0; i < count; i++) {
            uint8_t lanes = do_clock(d, &ps[i], &word);
            sum = (sum << 1 | sum >> 31) ^ word ^ lanes;
        }
        total ^= sum;
    }
    if (d->fault) fprintf(stderr, "fault %u at %llu\n", d->fault, (unsigned long long)d->fault_clock);
    printf("%zu clocks, %u rounds, sum %u\n", count, rounds, total);
    return 0;
}
#endif
