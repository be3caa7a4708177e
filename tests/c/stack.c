/* How much stack the library needs: each function is called on a thread whose stack is filled with a pattern beforehand, with the
 * largest room. Ends with 1 if a call needs more than 512 KiB, half of what include/wickerbell.h asks for. */
#define _DEFAULT_SOURCE
#include <pthread.h>
#include <stdio.h>
#include <stdlib.h>
#include <string.h>
#include "wickerbell.h"

enum { S = 4096, P = 65535, STACK = 1 << 20, MOST = STACK / 2, PATTERN = 0xa5 };

static uint32_t smallest[S], largest[S], links[P];
static uint64_t contexts[2 * P], row[WICKERBELL_ROW_LENGTH];
static uint8_t stem[S], period[P];

#define SLICE(literal) (const uint8_t *)(literal), sizeof(literal) - 1
#define ANY_TRIPS SLICE("I\0\0\0" "F\0\0\0" "T\0\0\0" "T\0\1\0")
#define PUBLIC_AGAIN SLICE("I\0\0\0" "F\1\0\0" "T\0\0\1" "T\0\1\0" "T\1\0\1" "T\1\1\0")

static void *nothing(void *arg) { return arg; }

static void *decide(void *answer) {
    *(uint32_t *)answer = wickerbell_decide(ANY_TRIPS, PUBLIC_AGAIN, S, P, smallest, S, largest, S, links, P, contexts, 2 * P,
                                            stem, S, period, P, row, WICKERBELL_ROW_LENGTH);
    return answer;
}

static void *lasso(void *answer) {
    *(uint32_t *)answer = wickerbell_lasso(PUBLIC_AGAIN, SLICE("\1"), SLICE("\0\1"));
    return answer;
}

/* The bytes of its stack that a thread has written to, from the top down; 0 where there is no thread. */
static size_t used(void *(*call)(void *), uint32_t *answer) {
    pthread_attr_t attributes;
    pthread_t thread;
    size_t untouched = 0;
    uint8_t *stack = aligned_alloc(4096, STACK);
    if (!stack) return 0;
    memset(stack, PATTERN, STACK);
    int failed = pthread_attr_init(&attributes) || pthread_attr_setstack(&attributes, stack, STACK) ||
                 pthread_create(&thread, &attributes, call, answer) || pthread_join(thread, NULL);
    while (untouched < STACK && stack[untouched] == PATTERN) untouched++;
    free(stack);
    return failed ? 0 : STACK - untouched;
}

static int told(const char *name, void *(*call)(void *), uint32_t wanted, size_t thread) {
    uint32_t answer = 99;
    size_t bytes = used(call, &answer);
    int wrong = answer != wanted || bytes <= thread || bytes - thread > MOST;
    printf("stack.c: %s answers %u and needs %zu bytes of stack%s\n", name, answer, bytes - thread, wrong ? ", which is wrong" : "");
    return wrong;
}

int main(void) {
    uint32_t ignored;
    size_t thread = used(nothing, &ignored);
    return told("wickerbell_decide", decide, 0, thread) | told("wickerbell_lasso", lasso, 1, thread);
}
