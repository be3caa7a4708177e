/* A stand-in for the proved library, with one mistake planted: MISTAKE is its number in mistakes.txt, 0 for none.
 *
 * It shows that the tests from outside find what they are for. It is a third implementation of document 01, packed and
 * in place where the reference is plain, so without a mistake it also holds the reference to a second reading.
 * No gate uses it: the library itself is crates/host/out/libhost.a. */
#include <string.h>
#include "wickerbell.h"

#ifndef MISTAKE
#define MISTAKE 0
#endif

struct automaton { unsigned initial; uint16_t accepting; uint16_t step[16][16]; };

static unsigned moved(const struct automaton *m, unsigned set, unsigned x) {
    unsigned to = 0;
    for (; set; set &= set - 1) to |= m->step[x][__builtin_ctz(set)];
    return to;
}

static uint32_t load(const uint8_t *s, size_t length, unsigned states, struct automaton *m, uint64_t *place) {
    int started = 0;
    memset(m, 0, sizeof *m);
    *place = length / 4 * 4;
    if (length % 4) return 1;
    for (size_t i = 0; i < length; i += 4) {
        const uint8_t *r = s + i;
        *place = i;
        if (r[0] == 'T') {
            if (r[1] >= states || r[2] > 15 || r[3] >= states) return 4;
            if (m->step[r[2]][r[1]] >> r[3] & 1) return 5;
            m->step[r[2]][r[1]] |= 1u << r[3];
            continue;
        }
        if (r[0] != 'I' && r[0] != 'F') return 2;
        if (MISTAKE == 6 && r[1] >= states) return 4;
        if (r[2] || r[3]) return 3;
        if (r[1] >= states) return 4;
        if (r[0] == 'F') {
            if (m->accepting >> r[1] & 1) return 5;
            m->accepting |= 1u << r[1];
        } else {
            if (started && !(MISTAKE == 21 && m->initial != r[1])) return 5;
            m->initial = r[1];
            started = 1;
        }
    }
    *place = MISTAKE == 20 ? 0 : length;
    return started ? 0 : 6;
}

/* ---- a rule's contexts: bit 8q + q' */

struct context { uint64_t reach, through; };

static unsigned row(uint64_t pairs, unsigned q) { return pairs >> 8 * q & 255; }

static struct context nothing(const struct automaton *b) {
    struct context c = {0, 0};
    for (unsigned q = 0; q < 8; q++) {
        c.reach |= 1ull << 9 * q;
        if (b->accepting >> q & 1) c.through |= 1ull << 9 * q;
    }
    return c;
}

static struct context longer(const struct automaton *b, struct context c, unsigned x, int whole) {
    struct context to = {0, 0};
    for (unsigned q = 0; q < 8; q++) {
        uint64_t reach = moved(b, row(c.reach, q), x), through = moved(b, row(c.through, q), x);
        if (MISTAKE == 10 && !whole) through = b->accepting >> q & 1 ? reach : 0; /* forget what the middle met */
        through |= reach & b->accepting;
        to.reach |= reach << 8 * q;
        to.through |= through << 8 * q;
    }
    return to;
}

/* The states from which the period, for ever, is accepted: those that lead by rounds to a round through acceptance and back. */
static int accepted(unsigned target, struct context v) {
    uint8_t star[8];
    unsigned reached = target;
    for (unsigned q = 0; q < 8; q++) star[q] = row(v.reach, q) | 1u << q;
    for (unsigned m = 0; m < 8; m++)
        for (unsigned q = 0; q < 8; q++)
            if (star[q] >> m & 1) star[q] |= star[m];
    for (unsigned q = 0; q < 8; q++)
        if (target >> q & 1) reached |= star[q];
    for (unsigned q = 0; q < 8; q++)
        for (unsigned r = 0; r < 8; r++) {
            if (!(reached >> q & 1) || !(row(v.through, q) >> r & 1)) continue;
            if (MISTAKE == 9) return 1;
            if (MISTAKE == 8 ? q == r : star[r] >> q & 1) return 1;
        }
    return 0;
}

/* ---- the walk */

struct walk {
    struct automaton a, b;
    uint64_t S, P, u, w, p, t;
    uint32_t *U, *W, *links;
    uint64_t *contexts;
};

static int covers(unsigned old, unsigned new, int smallest) { return smallest ? !(old & ~new) : !(new & ~old); }

/* Grows a stem table; its length, or S + 1 where it is full. */
static uint64_t stems(struct walk *k, uint32_t *table, int smallest) {
    uint64_t n = 1;
    table[0] = 1u << k->b.initial | k->a.initial << 8;
    for (uint64_t taken = 0; taken < n; taken++)
        for (unsigned i = 0; i < 16; i++) {
            unsigned x = MISTAKE == 23 ? 15 - i : i;
            unsigned target = moved(&k->b, table[taken] & 255, x);
            for (unsigned to = k->a.step[x][table[taken] >> 8 & 15]; to; to &= to - 1) {
                unsigned state = __builtin_ctz(to);
                uint64_t e = 0;
                while (e < n && !((MISTAKE == 7 || (table[e] >> 8 & 15) == state) && covers(table[e] & 255, target, smallest))) e++;
                if (e < n) continue;
                if (n == k->S) return n + 1;
                table[n++] = target | state << 8 | x << 12 | (uint32_t)taken << 16;
            }
        }
    return n;
}

/* Grows the period table of an accepting state on the rows of a target; its length, or P + 1 where it is full. */
static uint64_t periods(struct walk *k, unsigned s, unsigned target) {
    uint64_t n = 0, rows = 0;
    for (unsigned q = 0; q < 8; q++)
        if (MISTAKE == 24 || target >> q & 1) rows |= 255ull << 8 * q;
    for (uint64_t taken = 65535; taken == 65535 || taken < n; taken = taken == 65535 ? 0 : taken + 1) {
        int first = taken == 65535;
        unsigned from = first ? s : k->links[taken] & 15;
        struct context c = first ? nothing(&k->b) : (struct context){k->contexts[2 * taken], k->contexts[2 * taken + 1]};
        for (unsigned x = 0; x < 16; x++) {
            struct context d = longer(&k->b, c, x, first);
            for (unsigned to = k->a.step[x][from]; to; to &= to - 1) {
                unsigned state = __builtin_ctz(to);
                uint64_t e = 0;
                while (e < n && !((k->links[e] & 15) == state && !(k->contexts[2 * e] & rows & ~d.reach) && !(k->contexts[2 * e + 1] & rows & ~d.through))) e++;
                if (e < n) continue;
                if (n == k->P - (MISTAKE == 14 && k->P > 1)) return k->P + 1;
                k->links[n] = state | x << 4 | (uint32_t)taken << 16;
                k->contexts[2 * n] = d.reach;
                k->contexts[2 * n + 1] = d.through;
                n++;
            }
        }
    }
    return n;
}

/* Looks for a rejected pair: 0 none, 1 found, 9 full. */
static uint32_t search(struct walk *k, uint64_t *found_u, uint64_t *found_v) {
    for (unsigned s = 0; s < 16; s++) {
        uint64_t n = 0;
        int built = 0;
        if (!(k->a.accepting >> s & 1)) continue;
        for (uint64_t w = 0; w < k->w; w++) {
            unsigned rows = k->W[w] & 255;
            if ((k->W[w] >> 8 & 15) != s) continue;
            if (MISTAKE != 1 || !built) n = periods(k, s, rows);
            built = 1;
            if (n > k->P) {
                k->p = k->P;
                if (MISTAKE == 29) k->t = 0;
                return 9;
            }
            if (n > k->p || MISTAKE == 11) k->p = n;
            for (uint64_t i = 0; i < k->u * n; i++) {
                uint64_t u = MISTAKE == 12 ? i % k->u : i / n, v = MISTAKE == 12 ? i / k->u : i % n;
                unsigned target = k->U[u] & 255;
                if ((k->U[u] >> 8 & 15) != s || target & ~rows || (k->links[v] & 15) != s) continue;
                k->t++;
                if (accepted(target, (struct context){k->contexts[2 * v], k->contexts[2 * v + 1]})) continue;
                if (MISTAKE == 3) k->t--;
                *found_u = u;
                *found_v = v;
                return 1;
            }
        }
    }
    return 0;
}

/* Writes a word back to front along its parents, and gives its length. */
static uint64_t spell(const uint32_t *table, uint64_t at, unsigned shift, uint32_t root, uint8_t *out) {
    uint64_t length = 0;
    for (uint64_t e = at; e != root; e = table[e] >> 16) length++;
    uint64_t free = length;
    for (uint64_t e = at; e != root; e = table[e] >> 16) {
        free--;
        out[MISTAKE == 13 && root == 0 ? length - 1 - free : free] = table[e] >> shift & 15;
    }
    return length;
}

uint32_t wickerbell_decide(const uint8_t *model, size_t model_length, const uint8_t *rule, size_t rule_length,
                           uint64_t S, uint64_t P, uint32_t *U, size_t U_length, uint32_t *W, size_t W_length,
                           uint32_t *links, size_t links_length, uint64_t *contexts, size_t contexts_length,
                           uint8_t *stem, size_t stem_length, uint8_t *period, size_t period_length,
                           uint64_t *out, size_t out_length) {
    struct walk k = {.S = S, .P = P, .U = U, .W = W, .links = links, .contexts = contexts};
    uint64_t answer[9] = {0}, u = 0, v = 0;
    int tight = S < 1 || S > (MISTAKE == 28 ? 4095 : 4096) || P < 1 || P > 65535 || U_length < S || W_length < S || links_length < P
        || contexts_length < 2 * P || stem_length < S || period_length < P || out_length < (MISTAKE == 25 ? 8 : 9);
    answer[0] = load(model, model_length, 16, &k.a, &answer[2]);
    if (!answer[0] && MISTAKE == 15 && tight) {
        answer[0] = 7;
        answer[2] = 0;
    } else if (!answer[0]) {
        answer[1] = 1;
        answer[0] = load(rule, rule_length, 8, &k.b, &answer[2]);
    }
    if (!answer[0]) {
        answer[1] = answer[2] = 0;
        if (tight) {
            answer[0] = 7;
        } else {
            uint32_t found = 0;
            k.u = stems(&k, U, 1);
            if (k.u > S) {
                k.u = answer[2] = S;
                answer[0] = 8;
                if (MISTAKE == 16) W[0] = U[0];
            } else {
                k.w = stems(&k, W, MISTAKE == 2);
                if (k.w > S) {
                    k.w = answer[2] = S;
                    answer[0] = 8;
                    answer[1] = 1;
                } else {
                    found = search(&k, &u, &v);
                }
            }
            if (found == 9) {
                answer[0] = 9;
                answer[2] = P;
            }
            if (found == 1) {
                answer[7] = spell(U, u, 12, 0, stem);
                answer[8] = spell(links, v, 4, 65535, period);
                if (MISTAKE == 5 && answer[7] < S) stem[answer[7]] = 0;
            }
            if (MISTAKE == 22 && k.u < S) U[k.u] = 0;
            memset(links, 0, (P - (MISTAKE == 4 && found == 1)) * sizeof *links);
            memset(contexts, 0, (2 * P + (MISTAKE == 17 && contexts_length > 2 * P)) * sizeof *contexts);
            answer[3] = k.u, answer[4] = k.w, answer[5] = k.p, answer[6] = k.t;
        }
    }
    if (out_length >= 9) memcpy(out, answer, sizeof answer);
    return (uint32_t)answer[0];
}

/* ---- the lasso test: sixteen rows */

uint32_t wickerbell_lasso(const uint8_t *records, size_t records_length, const uint8_t *stem, size_t stem_length,
                          const uint8_t *period, size_t period_length) {
    struct automaton m;
    uint64_t place;
    uint32_t refused = load(records, records_length, 16, &m, &place);
    uint16_t reach[16], through[16];
    unsigned set, limit = MISTAKE == 19 ? 16 : 15;
    int above = 0;
    if (refused) return 100 + refused;
    for (size_t i = 0; i < stem_length; i++) above |= stem[i] > limit;
    if (MISTAKE == 18 && above) return 111;
    if (!period_length) return 110;
    for (size_t i = 0; i < period_length; i++) above |= period[i] > limit;
    if (above) return 111;
    set = 1u << m.initial;
    for (size_t i = 0; i < stem_length; i++) set = moved(&m, set, stem[i] & 15);
    for (unsigned q = 0; q < 16; q++) {
        reach[q] = 1u << q;
        through[q] = reach[q] & m.accepting;
        for (size_t i = MISTAKE == 26 && period_length > 5; i < period_length; i++) {
            through[q] = moved(&m, through[q], period[i] & 15);
            reach[q] = moved(&m, reach[q], period[i] & 15);
            through[q] |= reach[q] & m.accepting;
        }
    }
    uint16_t star[16];
    for (unsigned q = 0; q < 16; q++) star[q] = reach[q] | 1u << q;
    for (unsigned k = 0; k < 16; k++)
        for (unsigned q = 0; q < 16; q++)
            if (star[q] >> k & 1) star[q] |= star[k];
    for (unsigned q0 = 0; q0 < 16; q0++)
        for (unsigned q = 0; q < 16; q++)
            for (unsigned r = 0; r < 16; r++)
                if ((set >> q0 & 1) && (star[q0] >> q & 1) && (through[q] >> r & 1) && (star[r] >> q & 1)) return 1;
    return 0;
}
