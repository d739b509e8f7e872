/* What an input of the fuzzer asks for. Its first four bytes say what is tried, the budget, the flags, and a number to pick by; the rest is
 * a text. */
#include "fuzzing.h"
#include "inputs.h"
#include <stdlib.h>
#include <string.h>

static const uint32_t budgets[16] = {1, 2, 3, 5, 8, 13, 30, 64, 100, 200, 300, 500, 1000, 2000, 3000, 5000};

int LLVMFuzzerInitialize(int *argc, char ***argv) {
    (void)argc, (void)argv;
    begin();
    return 0;
}

/* Cuts a text at its first 0xFF, which no program and no schedule has. Whether there is one. */
static bool cut(text whole, text *first, text *second) {
    const char *at = whole.size ? memchr(whole.at, 0xFF, whole.size) : 0;
    if (!at) return false;
    *first = (text){whole.at, (size_t)(at - (const char *)whole.at)};
    *second = (text){at + 1, whole.size - first->size - 1};
    return true;
}

/* Numbers of the text's first twelve bytes, mostly within a little of what calls take. */
static void try_numbers(text whole, uint32_t flags, unsigned pick) {
    static const enum kind kinds[] = {TELL, RUN, TRACE, RUN_NET, SPAN, STEPS, CIRCUIT, REPLAY_TRACE};
    asked it = {kinds[pick % 8], .flags = pick & 16 ? pick : pick >> 2 & 3};
    if (whole.size < 12) return;
    memcpy(&it.budget, whole.at, 4);
    memcpy(&it.from, (const char *)whole.at + 4, 4);
    memcpy(&it.most, (const char *)whole.at + 8, 4);
    if (flags & 1) it.budget %= 10001;
    if (flags & 2) it.from %= 20000;
    if (flags & 4) it.most %= 20000;
    /* (a program that doesn't end would take its whole budget) */
    if (it.budget > 20000 && it.budget <= GOI_BUDGET_MAX && !(flags & 8)) it.budget %= 20000;
    it.program = (text){(const char *)whole.at + 12, whole.size - 12};
    numbers(it);
}

/* One call, and the same with six of its requests for memory refused: the first, the last, and others. */
static void try_memory(text whole, uint32_t budget, uint32_t flags, unsigned pick) {
    static const enum kind kinds[] = {TELL, RUN, TRACE, CHECK, NET, RUN_NET, REPLAY, RUN, SPAN, STEPS, CIRCUIT, REPLAY_TRACE, EACH};
    asked it = {kinds[pick % 13], .program = whole, .budget = budget, .most = 1000};
    it.flags = it.kind == RUN ? flags & 3 : it.kind == SPAN ? flags & 7 : flags & 1;
    it.from = it.kind == CIRCUIT || it.kind == EACH ? 1 : 0;
    if ((it.kind == REPLAY || it.kind == REPLAY_TRACE) && !cut(whole, &it.program, &it.schedule)) return;
    given found = make(it);
    for (unsigned k = 0; found.requests && k < 6; k++) {
        long number = k == 0 ? 0 : k == 1 ? found.requests - 1 : (long)(pick * 7919u + k * 131071u) % found.requests;
        refuse(it, &found, number);
    }
    free(found.text);
}

int LLVMFuzzerTestOneInput(const uint8_t *data, size_t size) {
    text first, second, whole = {data + HEAD, size - HEAD};
    if (size < HEAD || size > (1 << 20) + 100000) return 0;
    uint32_t budget = budgets[data[1] & 15], flags = data[2];
    unsigned pick = data[3] + 256u * data[1];
    /* (a walk that grows takes a sanitizer's heap long) */
    if (SANITIZED && budget > 1000) budget = 1000;
    texts_at_end = !(flags & 64);
    switch (data[0] % WHATS) {
    case A_LISTING: try_listing(whole, budget, flags, pick); break;
    case A_SCHEDULE:
        if (cut(whole, &first, &second)) try_schedule(first, second, pick);
        break;
    case SOME_NUMBERS: try_numbers(whole, flags, pick); break;
    case NO_MEMORY: try_memory(whole, budget, flags, pick); break;
    case A_FUNCTION: try_function(whole, budget, flags % (ARGUMENTS + 1), pick); break;
    default: try_program(whole, budget, flags, pick);
    }
    return 0;
}
