/* How much of the stack calls take: each call with the text of each file is made in a thread whose stack was painted, and the part that
 * lost its paint is measured; then in a thread whose stack has GOI_STACK_SIZE bytes in all.
 *
 * The last line is `N passed, M failed`, and the line before it says how much was taken at the most. */
#define _GNU_SOURCE
#include "goi.h"
#include <pthread.h>
#include <stdio.h>
#include <stdlib.h>
#include <string.h>
#include <sys/mman.h>

static char text[(1 << 20) + 1], schedule[1 << 20], listing[1 << 24], out[1 << 24];
static size_t size, schedule_size, listing_size;
static int passed, failed;
static const char *const calls[] = {"run", "run by value", "check", "net", "replay", "trace", "span", "circuit", "replay with a trace",
                                    "a function's rows", "a fault", "steps", "run-net"};
enum { CALLS = sizeof calls / sizeof *calls };

static void *work(void *at) {
    size_t needed;
    goi_status status;
    goi_answer answers[2];
    goi_fault fault;
    static const uint64_t none;
    switch (*(int *)at) {
    case 0: status = goi_run(text, size, GOI_BUDGET_MAX, 0, out, sizeof out, &needed); break;
    case 1: status = goi_run(text, size, GOI_BUDGET_MAX, GOI_BY_VALUE, out, sizeof out, &needed); break;
    case 2: status = goi_check(text, size, true, out, sizeof out, &needed); break;
    case 3: status = goi_net(text, size, out, sizeof out, &needed); break;
    case 4: status = goi_replay(text, size, schedule, schedule_size, out, sizeof out, &needed); break;
    case 5: status = goi_trace(text, size, 1000, 0, 0, 1000, out, sizeof out, &needed); break;
    case 6: status = goi_span(text, size, GOI_BUDGET_MAX, GOI_PROFILE, out, sizeof out, &needed); break;
    case 7: status = goi_circuit(text, size, GOI_CELLS, GOI_FORKS, out, sizeof out, &needed); break;
    case 8: status = goi_replay_trace(text, size, schedule, schedule_size, 0, 1000, out, sizeof out, &needed); break;
    case 9: status = goi_tell_each(text, size, 0, &none, 0, GOI_BUDGET_MAX, answers, 2, out, sizeof out, &needed); break;
    case 10: status = goi_find_fault(text, size, GOI_AS_NUMBER, &fault); break;
    case 11: status = goi_steps(text, size, 100, 0, 100, out, sizeof out, &needed); break;
    default: status = goi_run_net(listing, listing_size, GOI_BUDGET_MAX, false, out, sizeof out, &needed);
    }
    return status == GOI_OK || status == GOI_NO_VALUE ? at : 0;
}

/* Makes a call on a stack of so many bytes; answers how many lost their paint, or -1 where it has no answer. */
static long taken(int which, size_t room) {
    unsigned char *stack = mmap(0, room, PROT_READ | PROT_WRITE, MAP_PRIVATE | MAP_ANONYMOUS | MAP_NORESERVE, -1, 0);
    pthread_attr_t attr;
    pthread_t thread;
    void *done = 0;
    size_t k = 0;
    if (stack == MAP_FAILED) return perror("stack"), -1;
    memset(stack, 0xA5, room);
    pthread_attr_init(&attr);
    pthread_attr_setstack(&attr, stack, room);
    if (pthread_create(&thread, &attr, work, &which)) return perror("thread"), -1;
    pthread_join(thread, &done);
    while (k < room && stack[k] == 0xA5) k++;
    munmap(stack, room);
    return done ? (long)(room - k) : -1;
}

int main(int argc, char **argv) {
    long most = 0;
    const char *deepest = "none", *by = "none";
    for (int i = 1; i < argc; i++) {
        FILE *file = fopen(argv[i], "rb");
        size_t needed = 0;
        if (!file) return perror(argv[i]), 1;
        size = fread(text, 1, sizeof text, file);
        fclose(file);
        /* a schedule of its own to replay, and the listing of its net */
        schedule_size = listing_size = 0;
        if (goi_net(text, size, listing, sizeof listing, &needed) == GOI_OK) listing_size = needed;
        if (goi_run(text, size, 1000, GOI_SCHEDULE, out, sizeof out, &needed) != GOI_REFUSED && needed < sizeof schedule) {
            char *at = memmem(out, needed, "schedule ", 9);
            if (at) memcpy(schedule, at, schedule_size = needed - (size_t)(at - out));
        }
        for (int which = 0; which < CALLS; which++) {
            long took = taken(which, (size_t)64 << 20);
            /* (not each of them has a translation, or is a number) */
            if (took < 0) continue;
            if (took > most) most = took, deepest = argv[i], by = calls[which];
            if (took <= (long)GOI_STACK_SIZE && taken(which, GOI_STACK_SIZE) > 0) passed++;
            else failed++, printf("FAILED %s of %s took %ld KiB\n", calls[which], argv[i], took >> 10);
        }
    }
    printf("at the most %ld KiB of the stack, by %s of %s\n%d passed, %d failed\n", most >> 10, by, deepest, passed, failed);
    return failed != 0;
}
