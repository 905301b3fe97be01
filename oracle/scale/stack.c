/* Prints how many bytes of stack one call of vk_prove_into takes, and of vk_shorten and vk_expand of the tree found, for the questions that nest deepest (docs/STACK.md).
 * The call runs on a thread whose stack was filled with a pattern; what an empty thread takes is taken off. */
#include "vakelumba.h"
#include <pthread.h>
#include <stdio.h>
#include <stdlib.h>
#include <string.h>

enum { ONE = 0, BOTTOM = 1, TOP = 2, ZERO = 3, ATOM = 4, TENSOR = 6, WITH = 8, PLUS = 9, LOLLI = 10, WHY_NOT = 12 };
enum { STACK = 2 << 20, PATTERN = 0xA5 };

static uint16_t memory[VK_MEMORY_WORDS];
static uint64_t work[VK_MAX_BUDGET];
static uint8_t out[65538], sent[65538], back[65538], question[512];
static size_t length, written, sent_length, back_length;
static struct vk_counters counters;

static void put(uint8_t byte) { question[length++] = byte; }

/* A one-sided question: its linear formulas follow, `end` ends it. */
static void begin(void) {
    length = 0;
    for (int k = 0; k < 6; k++) put(1);
}

static void end(void) {
    size_t zone = length - 6;
    question[4] = (uint8_t)(zone >> 8), question[5] = (uint8_t)zone;
    put(0), put(0);
    question[1] = (uint8_t)((length - 3) >> 8), question[2] = (uint8_t)(length - 3);
}

static void *prove(void *answer) {
    *(uint8_t *)answer = vk_prove_into(&counters, question, length, 64, VK_MAX_BUDGET, true, memory, VK_MEMORY_WORDS, work, VK_MAX_BUDGET, out, sizeof out, &written);
    return NULL;
}

static void *shorten(void *answer) {
    *(uint8_t *)answer = vk_shorten(question, length, out, written, memory, VK_MEMORY_WORDS, sent, sizeof sent, &sent_length);
    return NULL;
}

static void *expand(void *answer) {
    *(uint8_t *)answer = vk_expand(question, length, sent, sent_length, memory, VK_MEMORY_WORDS, back, sizeof back, &back_length);
    return NULL;
}

static void *nothing(void *answer) {
    *(uint8_t *)answer = 0;
    return NULL;
}

static size_t taken(void *(*run)(void *), uint8_t *answer) {
    uint8_t *stack = aligned_alloc(4096, STACK);
    pthread_attr_t attributes;
    pthread_t thread;
    size_t untouched = 0;
    memset(stack, PATTERN, STACK);
    pthread_attr_init(&attributes);
    pthread_attr_setstack(&attributes, stack, STACK);
    if (pthread_create(&thread, &attributes, run, answer) != 0 || pthread_join(thread, NULL) != 0) exit(1);
    while (stack[untouched] == PATTERN) untouched++;
    free(stack);
    return STACK - untouched;
}

/* n formulas of one tag, each the left part of the one before, the others being leaves. */
static void nested(uint8_t tag, int n, uint8_t leaf) {
    begin();
    for (int k = 0; k < n; k++) put(tag);
    for (int k = 0; k <= n; k++) put(leaf);
    end();
}

static void implications(int n) {
    begin();
    for (int k = 0; k < n; k++) put(LOLLI), put(BOTTOM);
    put(BOTTOM);
    end();
}

/* n implications, one in the other, then Top tensor n more of them, then Top tensor Zero: 2n implications on one path, and at most n + 1 formulas. */
static void implications_twice(int n) {
    begin();
    for (int k = 0; k < n; k++) put(LOLLI), put(BOTTOM);
    put(TENSOR), put(TOP);
    for (int k = 0; k < n; k++) put(LOLLI), put(BOTTOM);
    put(TENSOR), put(TOP), put(ZERO);
    end();
}

/* WhyNot and Dereliction in turn, beside a name. */
static void why_nots(int n) {
    begin();
    for (int k = 0; k < n; k++) put(WHY_NOT);
    put(ONE), put(ATOM), put(0), put(1);
    end();
}

static void asked(const char *what) {
    uint8_t answer;
    size_t bytes;
    vk_reset(memory, VK_MEMORY_WORDS);
    bytes = taken(prove, &answer) - taken(nothing, &(uint8_t){0});
    printf("%-44s answer %d, depth %2zu: %zu bytes", what, answer, counters.reached, bytes);
    if (answer == VK_OK) {
        uint8_t shortened, expanded;
        bytes = taken(shorten, &shortened) - taken(nothing, &(uint8_t){0});
        printf("; shorten %d: %zu", shortened, bytes);
        bytes = taken(expand, &expanded) - taken(nothing, &(uint8_t){0});
        printf("; expand %d: %zu", expanded, bytes);
    }
    printf("\n");
}

/* 1, and so many implications 1 -o (1 -o ..) below one another: each is spelled out on the way. */
static void spelled(int n) {
    begin();
    for (int k = 0; k < n; k++) put(LOLLI), put(ONE);
    put(ONE);
    end();
}

int main(void) {
    nested(TENSOR, 62, ONE), asked("62 nested tensors of One");
    nested(TENSOR, 63, ONE), asked("63 nested tensors of One");
    nested(WITH, 62, TOP), asked("62 nested Withs of Top");
    nested(WITH, 63, TOP), asked("63 nested Withs of Top");
    nested(PLUS, 62, ONE), asked("62 nested Pluses of One");
    nested(PLUS, 63, ONE), asked("63 nested Pluses of One");
    why_nots(32), asked("32 WhyNots, each derelicted");
    implications(28), asked("28 implications, one in the other");
    implications(29), asked("29 implications, one in the other");
    implications_twice(30), asked("60 implications on one path");
    spelled(20), asked("20 implications from One, one in the other");
    spelled(21), asked("21 implications from One, one in the other");
    return 0;
}
