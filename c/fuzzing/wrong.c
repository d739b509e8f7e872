/* Sixteen wrong libraries, by the number WRONG, of which `c/fuzz --wrong` tries that each is found. The linker hands the calls of the
 * harness to these functions (--wrap), and what they hand on to the library. */
#define _GNU_SOURCE
#include "goi.h"
#include <stdlib.h>
#include <string.h>

#define RUN_WORDS const void *text, size_t text_size, uint32_t budget, uint32_t flags, void *out, size_t out_size, size_t *needed
#define NET_WORDS const void *text, size_t text_size, uint32_t budget, bool schedule, void *out, size_t out_size, size_t *needed
goi_status __real_goi_run(RUN_WORDS);
goi_status __real_goi_run_net(NET_WORDS);
goi_status __wrap_goi_run(RUN_WORDS);
goi_status __wrap_goi_run_net(NET_WORDS);
#define FIND_WORDS const void *text, size_t text_size, uint32_t taken, goi_fault *fault
#define EACH_WORDS \
    const void *text, size_t text_size, uint32_t arguments, const uint64_t *values, size_t count, uint32_t budget, goi_answer *answers, \
        size_t rows, void *out, size_t out_size, size_t *needed
#define STEPS_WORDS \
    const void *text, size_t text_size, uint32_t budget, uint32_t from, uint32_t most, void *out, size_t out_size, size_t *needed
#define TRACE_WORDS \
    const void *text, size_t text_size, const void *schedule, size_t schedule_size, uint32_t from, uint32_t most, void *out, \
        size_t out_size, size_t *needed
goi_status __real_goi_span(RUN_WORDS);
goi_status __wrap_goi_span(RUN_WORDS);
goi_status __real_goi_find_fault(FIND_WORDS);
goi_status __wrap_goi_find_fault(FIND_WORDS);
goi_status __real_goi_tell_each(EACH_WORDS);
goi_status __wrap_goi_tell_each(EACH_WORDS);
goi_status __real_goi_steps(STEPS_WORDS);
goi_status __wrap_goi_steps(STEPS_WORDS);
goi_status __real_goi_replay_trace(TRACE_WORDS);
goi_status __wrap_goi_replay_trace(TRACE_WORDS);
typedef struct {
    size_t ok;
    void *block;
} tried;
tried rattle_alloc(size_t size, size_t align);

goi_status __wrap_goi_run(RUN_WORDS) {
    goi_status status = __real_goi_run(text, text_size, budget, flags, out, out_size, needed);
    unsigned char *at = out;
    (void)at;
#if WRONG == 1 /* a byte behind the text is changed */
    if (status == GOI_OK && *needed < out_size) at[*needed] = 1;
#elif WRONG == 2 /* memory is kept */
    if (status == GOI_REFUSED) rattle_alloc(10, 1);
#elif WRONG == 3 /* the byte behind the program is read */
    if (text_size && ((const volatile char *)text)[text_size]) return status;
#elif WRONG == 4 /* a digit of a product's value is another one */
    if (status == GOI_OK && memchr(text, '*', text_size)) at[6] ^= 1;
#elif WRONG == 5 /* something is written where there is no room */
    if (status == GOI_NO_ROOM && out_size) at[0] = 0;
#elif WRONG == 6 /* a run without a value is called done */
    if (status == GOI_NO_VALUE) status = GOI_OK;
#elif WRONG == 7 /* a schedule has another move */
    if (status == GOI_OK && flags & GOI_SCHEDULE && *needed > 40) at[*needed - 6] ^= 1;
#elif WRONG == 8 /* a long program takes more of the stack than GOI_STACK_SIZE */
    if (text_size > 60) {
        volatile char big[5 << 20];
        for (size_t k = 0; k < sizeof big; k += 4096) big[sizeof big - 1 - k] = 1;
    }
#elif WRONG == 9 /* the place of a fault is one off, behind ten bytes */
    if (status == GOI_REFUSED && text_size > 10 && at[*needed - 2] == ')') at[*needed - 3] ^= 1;
#endif
    return status;
}

/* Whether a number of the text has a zero in front; it is then taken out of the copy. */
static bool without_zero(char *text, size_t *size) {
    for (size_t k = 0; k + 2 < *size; k++)
        if (text[k] == ' ' && text[k + 1] == '0' && text[k + 2] >= '0' && text[k + 2] <= '9') {
            memmove(text + k + 1, text + k + 2, --*size - k - 1);
            return true;
        }
    return false;
}

goi_status __wrap_goi_run_net(NET_WORDS) {
#if WRONG == 10 /* a number with a zero in front is read */
    char *copy = malloc(text_size + 1);
    size_t size = text_size;
    memcpy(copy, text, text_size);
    while (without_zero(copy, &size)) {}
    goi_status status = __real_goi_run_net(copy, size, budget, schedule, out, out_size, needed);
    free(copy);
    return status;
#else
    (void)without_zero, (void)rattle_alloc;
    return __real_goi_run_net(text, text_size, budget, schedule, out, out_size, needed);
#endif
}

goi_status __wrap_goi_span(RUN_WORDS) {
    goi_status status = __real_goi_span(text, text_size, budget, flags, out, out_size, needed);
#if WRONG == 11 /* a run of thirty-odd moves has other moves */
    char *at = status == GOI_OK ? memmem(out, *needed, "\nmoves 3", 8) : 0;
    if (at) at[7] = '4';
#elif WRONG == 12 /* something is written where there is no room */
    if (status == GOI_NO_ROOM && out_size > 3) ((char *)out)[0] = 1;
#endif
    return status;
}

goi_status __wrap_goi_find_fault(FIND_WORDS) {
    goi_status status = __real_goi_find_fault(text, text_size, taken, fault);
#if WRONG == 13 /* a place behind twenty bytes is one off */
    if (fault->place > 20 && fault->place != GOI_NO_PLACE) fault->place++;
#endif
    return status;
}

goi_status __wrap_goi_tell_each(EACH_WORDS) {
    goi_status status = __real_goi_tell_each(text, text_size, arguments, values, count, budget, answers, rows, out, out_size, needed);
#if WRONG == 14 /* the second row is one less, where it is much */
    if (status == GOI_OK && rows > 1 && answers[1].value > 1000) answers[1].value--;
#endif
    return status;
}

goi_status __wrap_goi_steps(STEPS_WORDS) {
    goi_status status = __real_goi_steps(text, text_size, budget, from, most, out, out_size, needed);
#if WRONG == 15 /* a long reduction keeps memory */
    if (status == GOI_OK && *needed > 200) rattle_alloc(10, 1);
#endif
    return status;
}

goi_status __wrap_goi_replay_trace(TRACE_WORDS) {
    goi_status status = __real_goi_replay_trace(text, text_size, schedule, schedule_size, from, most, out, out_size, needed);
#if WRONG == 16 /* a schedule without an end is called done */
    if (status == GOI_BAD_FILE) status = GOI_OK;
#endif
    return status;
}
