/* A stand-in for the program, over the stand-in library. */
#include <stdio.h>
#include <stdlib.h>
#include "wickerbell.h"

#ifndef MISTAKE
#define MISTAKE 0
#endif

enum { BYTES = MISTAKE == 30 ? 16457 : 16456, S = 4096, P = 2048 };

static uint8_t model[BYTES], rule[BYTES], stem[S], period[P];
static uint32_t U[S], W[S], links[P];
static uint64_t contexts[2 * P], row[9];

static size_t whole(const char *name, uint8_t *bytes) {
    FILE *file = fopen(name, "rb");
    size_t length = file ? fread(bytes, 1, BYTES, file) : 0;
    if (file) fclose(file);
    return length;
}

static void word(const char *name, const uint8_t *letters, uint64_t length) {
    printf("%s:%s", name, MISTAKE == 27 && !length ? " " : "");
    for (uint64_t i = 0; i < length; i++) printf(" %d", letters[i]);
    putchar('\n');
}

int main(void) {
    size_t model_length = whole("model.rec", model), rule_length = whole("rule.rec", rule);
    wickerbell_decide(model, model_length, rule, rule_length, S, P, U, S, W, S, links, P, contexts, 2 * P, stem, S, period, P, row, 9);
    if (row[0]) printf("REFUSED %llu %llu %llu\n", (unsigned long long)row[0], (unsigned long long)row[1], (unsigned long long)row[2]);
    else puts(row[8] ? "NOT INCLUDED" : "INCLUDED");
    printf("U=%llu W=%llu P=%llu T=%llu\n", (unsigned long long)row[3], (unsigned long long)row[4], (unsigned long long)row[5], (unsigned long long)row[6]);
    if (row[8]) {
        word("stem", stem, row[7]);
        word("period", period, row[8]);
    }
    return 0;
}
