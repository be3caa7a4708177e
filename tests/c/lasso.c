/* What the dispatch desk's host does, in C: calls the lasso test, and once the whole decision, through include/wickerbell.h.
 * Prints one line for each answer that is not the wanted one, and ends with 1 if there was any. */
#include <stdio.h>
#include <stdlib.h>
#include <string.h>
#include "wickerbell.h"

enum { MILLION = 1000000 };

static int calls, wrong;

static void holds(const char *what, uint64_t is, uint64_t wanted) {
    calls++;
    if (is == wanted) return;
    wrong++;
    printf("lasso.c: %s is %llu and should be %llu\n", what, (unsigned long long)is, (unsigned long long)wanted);
}

/* A slice of a C string literal, which may hold zero bytes. An empty one still has a pointer that is not null. */
#define SLICE(literal) (const uint8_t *)(literal), sizeof(literal) - 1

#define M8 SLICE("I\0\0\0" "F\1\0\0" "T\0\0\1" "T\1\0\0")
#define M9 SLICE("I\0\0\0" "F\0\0\0" "T\0\0\1" "T\1\0\1")
#define EMPTY SLICE("")
#define ZERO SLICE("\0")

static void samples(void) {
    holds("M8, the loop takes two periods", wickerbell_lasso(M8, EMPTY, ZERO), 1);
    holds("M9, the accepting state is left for good", wickerbell_lasso(M9, EMPTY, ZERO), 0);
    holds("M8 after a stem", wickerbell_lasso(M8, SLICE("\0\0\0"), ZERO), 1);
    holds("M8 by a dead letter", wickerbell_lasso(M8, EMPTY, SLICE("\1")), 0);
}

static void refusals(void) {
    holds("1, three bytes", wickerbell_lasso(SLICE("I\0\0"), EMPTY, ZERO), 101);
    holds("1, before what is wrong in a record", wickerbell_lasso(SLICE("X\0\0\0" "I"), EMPTY, ZERO), 101);
    holds("2, a kind that is none", wickerbell_lasso(SLICE("I\0\0\0" "X\0\0\0"), EMPTY, ZERO), 102);
    holds("3, byte 2 of I", wickerbell_lasso(SLICE("I\0\1\0"), EMPTY, ZERO), 103);
    holds("3, byte 3 of F, before 4", wickerbell_lasso(SLICE("I\0\0\0" "F\20\0\1"), EMPTY, ZERO), 103);
    holds("4, a state", wickerbell_lasso(SLICE("I\20\0\0"), EMPTY, ZERO), 104);
    holds("4, a letter", wickerbell_lasso(SLICE("I\0\0\0" "T\0\20\0"), EMPTY, ZERO), 104);
    holds("5, the same T", wickerbell_lasso(SLICE("I\0\0\0" "T\1\2\3" "T\1\2\3"), EMPTY, ZERO), 105);
    holds("5, the same F", wickerbell_lasso(SLICE("F\7\0\0" "I\0\0\0" "F\7\0\0"), EMPTY, ZERO), 105);
    holds("5, a second I", wickerbell_lasso(SLICE("I\0\0\0" "I\1\0\0"), EMPTY, ZERO), 105);
    holds("6, no record at all", wickerbell_lasso(EMPTY, EMPTY, ZERO), 106);
    holds("6, no I record", wickerbell_lasso(SLICE("F\0\0\0"), EMPTY, ZERO), 106);
    holds("10, an empty period", wickerbell_lasso(M8, EMPTY, EMPTY), 110);
    holds("10, before a bad letter in the stem", wickerbell_lasso(M8, SLICE("\20"), EMPTY), 110);
    holds("11, in the stem", wickerbell_lasso(M8, SLICE("\0\20"), ZERO), 111);
    holds("11, in the period", wickerbell_lasso(M8, EMPTY, SLICE("\0\377")), 111);
    holds("the records first", wickerbell_lasso(EMPTY, SLICE("\20"), EMPTY), 106);
    holds("everything empty", wickerbell_lasso(EMPTY, EMPTY, EMPTY), 106);
}

/* A public trip (0) a million times over; then with one test trip (1), which is dead in M8, or a bad letter at the end. */
static void long_words(void) {
    uint8_t *word = calloc(MILLION, 1);
    if (!word) {
        wrong++;
        puts("lasso.c: no memory for a million letters");
        return;
    }
    holds("a stem of a million letters", wickerbell_lasso(M8, word, MILLION, ZERO), 1);
    holds("a period of a million letters", wickerbell_lasso(M8, EMPTY, word, MILLION), 1);
    holds("a period of 999,999 letters, two rounds", wickerbell_lasso(M8, EMPTY, word, MILLION - 1), 1);
    holds("both", wickerbell_lasso(M8, word, MILLION, word, MILLION), 1);
    holds("both, rejected", wickerbell_lasso(M9, word, MILLION, word, MILLION), 0);
    word[MILLION - 1] = 1;
    holds("a dead last letter of the stem", wickerbell_lasso(M8, word, MILLION, ZERO), 0);
    holds("a dead last letter of the period", wickerbell_lasso(M8, EMPTY, word, MILLION), 0);
    word[MILLION - 1] = 16;
    holds("a bad last letter of the stem", wickerbell_lasso(M8, word, MILLION, ZERO), 111);
    holds("a bad last letter of the period", wickerbell_lasso(M8, EMPTY, word, MILLION), 111);
    free(word);
}

/* M1 by the whole decision, as README shows it: any trips for ever, under the rule that public trips come again and again. */
static void decision(void) {
    enum { S = 16, P = 16 };
    uint32_t smallest[S], largest[S], links[P];
    uint64_t contexts[2 * P], row[WICKERBELL_ROW_LENGTH];
    uint8_t stem[S], period[P];
    memset(stem, 0xa5, sizeof stem);
    memset(period, 0xa5, sizeof period);
    memset(links, 0xa5, sizeof links);
    uint32_t number = wickerbell_decide(SLICE("I\0\0\0" "F\0\0\0" "T\0\0\0" "T\0\1\0"),
                                        SLICE("I\0\0\0" "F\1\0\0" "T\0\0\1" "T\0\1\0" "T\1\0\1" "T\1\1\0"),
                                        S, P, smallest, S, largest, S, links, P, contexts, 2 * P, stem, S, period, P,
                                        row, WICKERBELL_ROW_LENGTH);
    holds("M1's number", number, 0);
    holds("M1's number in the row", row[WICKERBELL_NUMBER], 0);
    holds("M1's tests", row[WICKERBELL_T], 2);
    holds("M1's stem length", row[WICKERBELL_STEM_LENGTH], 0);
    holds("M1's period length", row[WICKERBELL_PERIOD_LENGTH], 1);
    holds("M1's period: a test trip", period[0], 1);
    holds("the byte behind it", period[1], 0xa5);
    holds("the first byte of an empty stem", stem[0], 0xa5);
    holds("a link", links[P - 1], 0);
    holds("a row of eight", wickerbell_decide(SLICE("I\0\0\0"), SLICE("I\0\0\0"), S, P, smallest, S, largest, S, links, P,
                                              contexts, 2 * P, stem, S, period, P, row, 8), 7);
}

int main(void) {
    samples();
    refusals();
    long_words();
    decision();
    printf("lasso.c: %d answers, %d wrong\n", calls, wrong);
    return wrong != 0;
}
