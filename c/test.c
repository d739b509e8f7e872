/* Tests goi.h against the library: worked rows of each call, rows of functions, faults in numbers, each size of the buffer, each request
 * for memory refused in turn, and several threads.
 *
 * Linked with -Wl,--wrap=malloc,--wrap=realloc,--wrap=free, so that requests can be counted and refused. The last line is
 * `N passed, M failed`. */
#include "goi.h"
#include <pthread.h>
#include <stdio.h>
#include <stdlib.h>
#include <string.h>

static int passed, failed;
#define TRY(what, holds)                                                                                                                 \
    do {                                                                                                                                 \
        if (holds) passed++;                                                                                                             \
        else failed++, printf("FAILED %s (line %d)\n", what, __LINE__);                                                                  \
    } while (0)

/* ---- a heap that counts, and refuses the request of a number */

void *__real_malloc(size_t);
void *__real_realloc(void *, size_t);
void __real_free(void *);
void *__wrap_malloc(size_t);
void *__wrap_realloc(void *, size_t);
void __wrap_free(void *);
static __thread long live, requests, refused = -1;
void *__wrap_malloc(size_t n) {
    void *at;
    if (requests++ == refused) return 0;
    at = __real_malloc(n);
    if (at) live++;
    return at;
}
void *__wrap_realloc(void *old, size_t n) {
    void *at;
    if (requests++ == refused) return 0;
    at = __real_realloc(old, n);
    if (at && !old) live++;
    return at;
}
void __wrap_free(void *at) {
    if (at) live--;
    __real_free(at);
}

/* ---- calls as one kind */

typedef struct {
    const char *call, *text, *other;
    uint32_t budget, flags;
    goi_status status;
    const char *out;
} row;

static goi_answer told;
static goi_status call(const row *r, goi_answer *answer, void *out, size_t size, size_t *needed) {
    size_t n = strlen(r->text);
    if (!strcmp(r->call, "tell")) return goi_tell(r->text, n, r->budget, r->flags, answer, out, size, needed);
    if (!strcmp(r->call, "run")) return goi_run(r->text, n, r->budget, r->flags, out, size, needed);
    /* the whole trace, or that of one move, the second */
    if (!strcmp(r->call, "trace"))
        return goi_trace(r->text, n, r->budget, r->flags, r->other ? 1 : 0, r->other ? 1 : GOI_TRACED_MAX, out, size, needed);
    if (!strcmp(r->call, "run_net")) return goi_run_net(r->text, n, r->budget, r->flags != 0, out, size, needed);
    if (!strcmp(r->call, "check")) return goi_check(r->text, n, r->flags != 0, out, size, needed);
    if (!strcmp(r->call, "net")) return goi_net(r->text, n, out, size, needed);
    if (!strcmp(r->call, "span")) return goi_span(r->text, n, r->budget, r->flags, out, size, needed);
    /* (the flags are how many steps are told at most) */
    if (!strcmp(r->call, "steps")) return goi_steps(r->text, n, r->budget, 0, r->flags, out, size, needed);
    if (!strcmp(r->call, "version_text")) return goi_version_text(out, size, needed);
    /* (the budget is the move with which the trace begins, and the flags are how many moves it has at most) */
    if (!strcmp(r->call, "replay_trace"))
        return goi_replay_trace(r->text, n, r->other, strlen(r->other), r->budget, r->flags, out, size, needed);
    /* (the flags are the number of arguments; it is called at two rows of 6, 4) */
    if (!strcmp(r->call, "each")) {
        static const uint64_t given[] = {6, 4, 6, 4, 6, 4};
        goi_answer answers[2];
        goi_status status = goi_tell_each(r->text, n, r->flags, given, r->flags * 2, r->budget, answers, 2, out, size, needed);
        *answer = answers[1];
        return status;
    }
    return goi_replay(r->text, n, r->other, strlen(r->other), out, size, needed);
}

#define DOUBLE "(fun x:nat. x + x) 3"
#define OVERFLOW "succ 18446744073709551615"
#define DOUBLE_NET                                                                                                                       \
    "net 1\nwire 0 value 0 nat\nwire 1 var 0 nat\nwire 2 value 0 nat\nwire 3 var 0 nat\nwire 4 var 0 nat\n"                              \
    "wire 5 value 0 nat\nwire 6 value 0 nat -> nat\nwire 7 value 1 nat\nwire 8 bang 0 nat\nwire 9 value 0 nat\n"                         \
    "node 0 Der 0 1\nnode 1 Der 2 3\nnode 2 Con 1 3 4\nnode 3 Plus 0 2 5\nnode 4 Lam 5 4 6\nnode 5 Const 3 7\n"                          \
    "node 6 Box 7 8\nnode 7 App 6 8 9\nnode 8 Root 9\nend\n"

#define ONE_NET "net 1\nwire 0 value 0 nat\nnode 0 Const 1 0\nnode 1 Root 0\nend\n"

#define TRACE "trace 1\n"
#define MOVE_0 "move 0 worker 0 ticket 0 node 0 Const conclusion conclusion ? up 0 - - => 1 down 0 - -\n"
#define MOVE_1 "move 1 worker 0 ticket 0 node 1 Root value - 1 down 0 - - => answer 1\n"

static const row rows[] = {
    {"run", DOUBLE, 0, 10000, 0, GOI_OK, "value 6\nmoves 30\n"},
    {"run", DOUBLE, 0, 30, 0, GOI_OK, "value 6\nmoves 30\n"},
    {"run", DOUBLE, 0, 29, 0, GOI_NO_VALUE, "no value\nmoves 29\n"},
    {"run", OVERFLOW, 0, 10000, 0, GOI_OK, "value overflow\nmoves 4\n"},
    {"run", "fix y:nat. y", 0, 77, 0, GOI_NO_VALUE, "no value\nmoves 77\n"},
    {"run", "4", 0, 10000, GOI_BY_VALUE, GOI_OK, "value 4\nmoves 34\n"},
    {"run", "1", 0, 10000, GOI_SCHEDULE, GOI_OK, "value 1\nmoves 2\nschedule 2\n0 2\nend\n"},
    {"run", "fst (1, 2)", 0, 10000, GOI_BY_VALUE, GOI_REFUSED, "refused: ByValuePair(0)\n"},
    {"run", "", 0, 10000, 0, GOI_REFUSED, "refused: Unexpected(0)\n"},
    {"run", "fun x:nat. x", 0, 10000, 0, GOI_REFUSED, "refused: NotGround\n"},
    {"run", "x", 0, 10000, 0, GOI_REFUSED, "refused: Unbound(0)\n"},
    {"run", "1", 0, 0, 0, GOI_BAD_CALL, ""},
    {"run", "1", 0, GOI_BUDGET_MAX + 1, 0, GOI_BAD_CALL, ""},
    {"run", "1", 0, 10000, 4, GOI_BAD_CALL, ""},
    {"run", ")", 0, 0, 0, GOI_BAD_CALL, ""},
    /* each constant, at its limit */
    {"run", "fix y:nat. y", 0, GOI_BUDGET, 0, GOI_NO_VALUE, "no value\nmoves 10000\n"},
    {"run", "1", 0, GOI_BUDGET_MAX, 0, GOI_OK, "value 1\nmoves 2\n"},
    {"run", "1", 0, UINT32_MAX, 0, GOI_BAD_CALL, ""},
    {"run", "18446744073709551615", 0, 2, 0, GOI_OK, "value 18446744073709551615\nmoves 2\n"},
    {"trace", "1", 0, 10000, 0, GOI_OK, "value 1\nmoves 2\n" TRACE "live 0 ? up 0 - -\n" MOVE_0 MOVE_1 "end\n"},
    {"trace", "1", "second", 10000, 0, GOI_OK, "value 1\nmoves 2\n" TRACE "live 0 1 down 0 - -\n" MOVE_1 "end\n"},
    {"trace", "fun x:nat. x", 0, 10000, 0, GOI_REFUSED, "refused: NotGround\n"},
    {"trace", "1", 0, 10000, 2, GOI_BAD_CALL, ""},
    {"trace", "1", 0, 0, 0, GOI_BAD_CALL, ""},
    {"run_net", DOUBLE_NET, 0, 10000, 0, GOI_OK, "value 6\nmoves 30\n"},
    {"run_net", DOUBLE_NET, 0, 29, 0, GOI_NO_VALUE, "no value\nmoves 29\n"},
    {"run_net", ONE_NET, 0, GOI_BUDGET_MAX, 1, GOI_OK, "value 1\nmoves 2\nschedule 2\n0 2\nend\n"},
    {"run_net", "net 2\n", 0, 10000, 0, GOI_BAD_FILE, "refused: BadLine(1)\n"},
    {"run_net", "net 1\nwire 0 value 1 nat\nnode 0 Const 5 0\nnode 1 Root 0\nend\n", 0, 10000, 0, GOI_BAD_FILE,
     "refused: NotSound(DepthClash(1))\n"},
    {"run_net", DOUBLE_NET, 0, 0, 0, GOI_BAD_CALL, ""},
    {"run_net", DOUBLE_NET, 0, GOI_BUDGET_MAX + 1, 0, GOI_BAD_CALL, ""},
    {"check", "fun x:nat. x", 0, 0, 0, GOI_OK, "type nat -> nat\n"},
    {"check", "fun x:nat. x", 0, 0, 1, GOI_OK, "type nat -> nat\nterm fun x:nat. x\n"},
    {"check", "1 2", 0, 0, 0, GOI_REFUSED, "refused: FunctionWanted(0)\n"},
    {"net", DOUBLE, 0, 0, 0, GOI_OK, DOUBLE_NET},
    {"net", "(", 0, 0, 0, GOI_REFUSED, "refused: Unexpected(1)\n"},
    {"replay", "1", "schedule 1\n0\n0\nend\n", 0, 0, GOI_OK, "value 1\nmoves 2\n"},
    {"replay", "1", "schedule 1\n0\nend\n", 0, 0, GOI_NO_VALUE, "no value\nmoves 1\n"},
    {"replay", "1", "schedule 1\n7\nend\n", 0, 0, GOI_BAD_FILE, "refused: NotLive(0,7)\n"},
    {"replay", "1", "schedule\n", 0, 0, GOI_BAD_FILE, "refused: BadHeader\n"},
    {"replay", ")", "schedule\n", 0, 0, GOI_REFUSED, "refused: Unexpected(0)\n"},
    {"replay", "1", "schedule 1\n4294967295\nend\n", 0, 0, GOI_BAD_FILE, "refused: NotLive(0,4294967295)\n"},
    {"replay_trace", "1", "schedule 1\n0\n0\nend\n", 0, 9, GOI_OK, "value 1\nmoves 2\n" TRACE "live 0 ? up 0 - -\n" MOVE_0 MOVE_1 "end\n"},
    {"replay_trace", "1", "schedule 1\n0\nend\n", 0, 9, GOI_NO_VALUE, "no value\nmoves 1\n" TRACE "live 0 ? up 0 - -\n" MOVE_0 "end\n"},
    {"replay_trace", "1", "schedule 1\n0\n0\nend\n", 1, 1, GOI_OK, "value 1\nmoves 2\n" TRACE "live 0 1 down 0 - -\n" MOVE_1 "end\n"},
    {"replay_trace", "1", "schedule 1\n0\n0\nend\n", GOI_FROM_MAX, GOI_TRACED_MAX, GOI_OK, "value 1\nmoves 2\n" TRACE "end\n"},
    {"replay_trace", "1", "schedule 1\n7\nend\n", 0, 9, GOI_BAD_FILE, "refused: NotLive(0,7)\n"},
    {"replay_trace", ")", "schedule\n", 0, 9, GOI_REFUSED, "refused: Unexpected(0)\n"},
    {"replay_trace", "1", "schedule 1\nend\n", GOI_FROM_MAX + 1, 1, GOI_BAD_CALL, ""},
    {"replay_trace", "1", "schedule 1\nend\n", 0, 0, GOI_BAD_CALL, ""},
    {"replay_trace", "1", "schedule 1\nend\n", 0, GOI_TRACED_MAX + 1, GOI_BAD_CALL, ""},
    {"steps", "1 + 2", 0, GOI_BUDGET_MAX, GOI_STEPS_MAX, GOI_OK, "value 3\nsteps 1\nstep 0 plus 0 5 1 + 2\nend 1 3\n"},
    {"steps", "fix x:nat. x", 0, 1, 1, GOI_NO_VALUE, "no value\nsteps 1\nstep 0 fix 0 12 fix x:nat. x\nstop 1 budget\n"},
    {"steps", "fun x:nat. x", 0, 1, 1, GOI_REFUSED, "refused: NotGround\n"},
    {"steps", "1", 0, 0, 1, GOI_BAD_CALL, ""},
    {"steps", "1", 0, GOI_BUDGET_MAX + 1, 1, GOI_BAD_CALL, ""},
    {"steps", "1", 0, 1, 0, GOI_BAD_CALL, ""},
    {"steps", "1", 0, 1, GOI_STEPS_MAX + 1, GOI_BAD_CALL, ""},
    {"span", "1", 0, 10000, 0, GOI_OK, "value 1\nmoves 2\nrounds 2\nwidest 1\n"},
    {"span", "1", 0, 10000, GOI_SCHEDULE, GOI_OK, "value 1\nmoves 2\nrounds 2\nwidest 1\nschedule 2\n0 2\nend\n"},
    {"span", "1", 0, 10000, GOI_PROFILE, GOI_OK,
     "value 1\nmoves 2\nrounds 2\nwidest 1\nround 1 live 1 moves 1\nround 2 live 1 moves 2\n"},
    {"span", "4", 0, 10000, GOI_BY_VALUE, GOI_OK, "value 4\nmoves 34\nrounds 34\nwidest 1\n"},
    {"span", "fst (1, 2)", 0, 10000, GOI_BY_VALUE, GOI_REFUSED, "refused: ByValuePair(0)\n"},
    {"span", "x", 0, 10000, 0, GOI_REFUSED, "refused: Unbound(0)\n"},
    {"span", "1", 0, GOI_BUDGET_MAX, 0, GOI_OK, "value 1\nmoves 2\nrounds 2\nwidest 1\n"},
    {"span", "1", 0, GOI_BUDGET_MAX + 1, 0, GOI_BAD_CALL, ""},
    {"span", "1", 0, 0, 0, GOI_BAD_CALL, ""},
    {"span", "1", 0, 10000, 8, GOI_BAD_CALL, ""},
    {"each", "fun x:nat. fun y:nat. x - y", 0, 10000, 2, GOI_OK, ""},
    {"each", "fun x:nat. x + x", 0, 29, 1, GOI_NO_VALUE, ""},
    {"each", "fun x:nat. x + x", 0, 30, 1, GOI_OK, ""},
    {"each", "7", 0, 2, 0, GOI_OK, ""},
    {"each", "7", 0, GOI_BUDGET_MAX, 0, GOI_OK, ""},
    {"each", "7", 0, 2, 1, GOI_REFUSED, "refused: NotGround\n"},
    {"each", "fun x:nat. x", 0, 2, 0, GOI_REFUSED, "refused: NotGround\n"},
    {"each", "fun x:nat. y", 0, 2, 1, GOI_REFUSED, "refused: Unbound(11)\n"},
    {"each", "fun x:nat. x", 0, 0, 1, GOI_BAD_CALL, ""},
    {"each", "fun x:nat. x", 0, GOI_BUDGET_MAX + 1, 1, GOI_BAD_CALL, ""},
    {"tell", DOUBLE, 0, 30, 0, GOI_OK, ""},
    {"tell", DOUBLE, 0, 29, 0, GOI_NO_VALUE, ""},
    {"tell", ")", 0, 100, 0, GOI_REFUSED, "refused: Unexpected(0)\n"},
    {"tell", "fst (1, 2)", 0, 100, GOI_BY_VALUE, GOI_REFUSED, "refused: ByValuePair(0)\n"},
    {"tell", "4", 0, 100, GOI_SCHEDULE, GOI_BAD_CALL, ""},
    {"tell", "4", 0, 0, 0, GOI_BAD_CALL, ""},
    {"tell", "4", 0, GOI_BUDGET_MAX, 0, GOI_OK, ""},
    {"tell", "4", 0, GOI_BUDGET_MAX + 1, 0, GOI_BAD_CALL, ""},
};

static void try_row(const row *r) {
    static char out[8192], blank[8192];
    size_t n = strlen(r->out), size, needed;
    long whole, k;
    memset(blank, 0x5A, sizeof blank);
    /* each size of the buffer up to one more than the text */
    for (size = 0; size <= n + 1; size++) {
        int fits = n <= size;
        goi_status status;
        memcpy(out, blank, sizeof out);
        needed = 99999;
        status = call(r, &told, out, size, &needed);
        TRY(r->text, status == (fits ? r->status : GOI_NO_ROOM) && needed == n);
        TRY(r->text, !memcmp(out, r->out, fits ? n : 0) && !memcmp(out + (fits ? n : 0), blank, sizeof out - (fits ? n : 0)));
        TRY(r->text, live == 0);
    }
    /* each request for memory refused in turn */
    requests = 0;
    call(r, &told, out, sizeof out, &needed);
    whole = requests;
    for (k = 0; k < whole; k++) {
        goi_status status;
        memcpy(out, blank, sizeof out);
        requests = 0, refused = k;
        status = call(r, &told, out, sizeof out, &needed);
        TRY(r->text, status == GOI_NO_MEMORY && needed == 0 && !memcmp(out, blank, sizeof out) && live == 0);
    }
    refused = -1;
}

/* ---- numbers */

static void try_tell(const char *text, uint32_t budget, uint32_t flags, goi_status status, uint64_t value, uint32_t moves, uint32_t kind) {
    char line[GOI_LINE_SIZE];
    size_t needed;
    goi_answer a = {7, 7, 7};
    TRY(text, goi_tell(text, strlen(text), budget, flags, &a, line, sizeof line, &needed) == status);
    TRY(text, a.value == value && a.moves == moves && a.kind == kind);
}

static int is_answer(const goi_answer *a, uint64_t value, uint32_t moves, uint32_t kind) {
    return a->value == value && a->moves == moves && a->kind == kind;
}

/* Rows of a function: each answer is that of its own row, and there is none where there is no run. */
static void try_each(void) {
    static const char minus[] = "fun x:nat. fun y:nat. x - y", twice[] = "fun x:nat. x + x";
    static const char loop[] = "fun x:nat. ifz x then 1 else (fix y:nat. y)";
    static const uint64_t values[] = {9, 4, 4, 9, UINT64_MAX, 1, 0, UINT64_MAX};
    goi_answer answers[8], alone;
    char line[GOI_LINE_SIZE], text[128];
    size_t needed, i;
    memset(answers, 0x5A, sizeof answers);
    TRY("rows", goi_tell_each(minus, sizeof minus - 1, 2, values, 8, 10000, answers, 4, line, sizeof line, &needed) == GOI_OK && !needed);
    for (i = 0; i < 4; i++) {
        int n = sprintf(text, "(%s) %llu %llu", minus, (unsigned long long)values[2 * i], (unsigned long long)values[2 * i + 1]);
        TRY("a row", goi_tell(text, (size_t)n, 10000, 0, &alone, line, sizeof line, &needed) == GOI_OK);
        TRY("a row", is_answer(&answers[i], alone.value, alone.moves, alone.kind));
    }
    TRY("rows", answers[4].kind == 0x5A5A5A5A);
    TRY("overflow", goi_tell_each(twice, sizeof twice - 1, 1, values + 3, 2, 30, answers, 2, line, sizeof line, &needed) == GOI_OK);
    TRY("overflow", is_answer(&answers[0], 18, 30, GOI_NUMBER) && is_answer(&answers[1], 0, 30, GOI_OVERFLOW));
    TRY("no value", goi_tell_each(loop, sizeof loop - 1, 1, values + 5, 2, 500, answers, 2, line, sizeof line, &needed) == GOI_NO_VALUE);
    TRY("no value", is_answer(&answers[0], 0, 500, GOI_NONE) && answers[1].value == 1 && answers[1].kind == GOI_NUMBER);
    TRY("no rows", goi_tell_each(twice, sizeof twice - 1, 1, values, 0, 1, answers, 0, line, sizeof line, &needed) == GOI_OK);
    TRY("no rows", goi_tell_each(minus, sizeof minus - 1, 1, values, 0, 1, answers, 0, line, sizeof line, &needed) == GOI_REFUSED);
    TRY("too few", goi_tell_each(minus, sizeof minus - 1, 2, values, 7, 9, answers, 4, line, sizeof line, &needed) == GOI_BAD_CALL);
    for (i = 0; i < 4; i++) TRY("too few", is_answer(&answers[i], 0, 0, GOI_NONE));
    TRY("too many", goi_tell_each(minus, sizeof minus - 1, 2, values, 8, 9, answers, 3, line, sizeof line, &needed) == GOI_BAD_CALL);
    TRY("none", goi_tell_each("7", 1, 0, values, 1, 9, answers, 3, line, sizeof line, &needed) == GOI_BAD_CALL);
    /* as many numbers as 64 bits have of the product */
    TRY("wide", goi_tell_each("7", 1, UINT32_MAX, values, 1, 9, answers, 1, line, sizeof line, &needed) == GOI_BAD_CALL);
    memset(answers, 0x5A, sizeof answers);
    TRY("refused", goi_tell_each(minus, sizeof minus - 1, 1, values, 4, 9, answers, 4, line, sizeof line, &needed) == GOI_REFUSED);
    for (i = 0; i < 4; i++) TRY("refused", is_answer(&answers[i], 0, 0, GOI_NONE));
    /* each request for memory refused in turn: no answer is left */
    {
        long whole, k;
        requests = 0;
        goi_tell_each(minus, sizeof minus - 1, 2, values, 8, 10000, answers, 4, line, sizeof line, &needed);
        whole = requests;
        for (k = 0; k < whole; k++) {
            memset(answers, 0x5A, sizeof answers);
            requests = 0, refused = k;
            TRY("no memory",
                goi_tell_each(minus, sizeof minus - 1, 2, values, 8, 10000, answers, 4, line, sizeof line, &needed) == GOI_NO_MEMORY);
            for (i = 0; i < 4; i++) TRY("no memory", is_answer(&answers[i], 0, 0, GOI_NONE));
            TRY("no memory", live == 0 && answers[4].kind == 0x5A5A5A5A);
        }
        refused = -1;
    }
}

/* ---- faults as numbers */

static void try_fault(const char *text, const char *schedule, uint32_t taken, uint32_t status, uint32_t kind, uint32_t place,
                      uint32_t ticket) {
    goi_fault f = {7, 7, 7, 7};
    size_t n = strlen(text);
    long whole, k;
    goi_status found;
    requests = 0;
    found = schedule ? goi_find_schedule_fault(text, n, schedule, strlen(schedule), &f) : goi_find_fault(text, n, taken, &f);
    whole = requests;
    TRY(text, found == status && f.status == status && f.kind == kind && f.place == place && f.ticket == ticket && live == 0);
    for (k = 0; k < whole; k++) {
        requests = 0, refused = k;
        found = schedule ? goi_find_schedule_fault(text, n, schedule, strlen(schedule), &f) : goi_find_fault(text, n, taken, &f);
        TRY(text, found == GOI_NO_MEMORY && f.status == 0 && f.kind == 0 && f.place == GOI_NO_PLACE && f.ticket == 0 && live == 0);
    }
    refused = -1;
}

static void try_faults(void) {
    static const char bad_net[] = "net 1\nwire 0 value 1 nat\nnode 0 Const 5 0\nnode 1 Root 0\nend\n";
    enum { P = GOI_REFUSED, F = GOI_BAD_FILE };
    try_fault("1", 0, GOI_AS_PROGRAM, 0, 0, GOI_NO_PLACE, 0);
    try_fault("1", 0, GOI_AS_NUMBER, 0, 0, GOI_NO_PLACE, 0);
    try_fault("1", 0, GOI_AS_BY_VALUE, 0, 0, GOI_NO_PLACE, 0);
    try_fault(ONE_NET, 0, GOI_AS_LISTING, 0, 0, GOI_NO_PLACE, 0);
    try_fault("1", 0, GOI_AS_FUNCTION(0), 0, 0, GOI_NO_PLACE, 0);
    try_fault("fix y:nat. y", 0, GOI_AS_NUMBER, 0, 0, GOI_NO_PLACE, 0);
    try_fault("fun x:nat. x", 0, GOI_AS_PROGRAM, 0, 0, GOI_NO_PLACE, 0);
    try_fault("fun x:nat. x", 0, GOI_AS_FUNCTION(1), 0, 0, GOI_NO_PLACE, 0);
    try_fault("fun x:nat. x", 0, GOI_AS_FUNCTION(2), P, GOI_FAULT_NOT_GROUND, GOI_NO_PLACE, 0);
    try_fault("fun x:nat. x", 0, GOI_AS_FUNCTION(0), P, GOI_FAULT_NOT_GROUND, GOI_NO_PLACE, 0);
    try_fault("1", 0, UINT32_MAX, P, GOI_FAULT_NOT_GROUND, GOI_NO_PLACE, 0);
    try_fault("fun x:nat. x", 0, GOI_AS_NUMBER, P, GOI_FAULT_NOT_GROUND, GOI_NO_PLACE, 0);
    try_fault("1 + \xff", 0, GOI_AS_NUMBER, P, GOI_FAULT_NOT_TEXT, 4, 0);
    try_fault("1 + $", 0, GOI_AS_PROGRAM, P, GOI_FAULT_BAD_TOKEN, 4, 0);
    try_fault("18446744073709551616", 0, GOI_AS_BY_VALUE, P, GOI_FAULT_NUMBER_TOO_WIDE, 0, 0);
    try_fault("1 +", 0, GOI_AS_FUNCTION(3), P, GOI_FAULT_UNEXPECTED, 3, 0);
    try_fault("1 + y", 0, GOI_AS_NUMBER, P, GOI_FAULT_UNBOUND, 4, 0);
    try_fault("1 2", 0, GOI_AS_PROGRAM, P, GOI_FAULT_FUNCTION_WANTED, 0, 0);
    try_fault("(fun x:nat. x) (fun x:nat. x)", 0, GOI_AS_NUMBER, P, GOI_FAULT_ARGUMENT_MISMATCH, 16, 0);
    try_fault("succ (1, 2)", 0, GOI_AS_NUMBER, P, GOI_FAULT_NAT_WANTED, 5, 0);
    try_fault("fix y:nat. (y, y)", 0, GOI_AS_NUMBER, P, GOI_FAULT_FIX_MISMATCH, 11, 0);
    try_fault("fst 1", 0, GOI_AS_NUMBER, P, GOI_FAULT_PAIR_WANTED, 4, 0);
    try_fault("fst (1, 2)", 0, GOI_AS_BY_VALUE, P, GOI_FAULT_BY_VALUE_PAIR, 0, 0);
    try_fault("fix y:nat. y", 0, GOI_AS_BY_VALUE, P, GOI_FAULT_BY_VALUE_FIX, 0, 0);
    try_fault("net 2\n", 0, GOI_AS_LISTING, F, GOI_FAULT_BAD_LINE, 1, 0);
    try_fault(bad_net, 0, GOI_AS_LISTING, F, GOI_FAULT_DEPTH_CLASH, 1, 0);
    try_fault("net 1\nend\n", 0, GOI_AS_LISTING, F, GOI_FAULT_ROOT_COUNT, 0, 0);
    try_fault("1", "schedule 1\n0\nend\n", 0, 0, 0, GOI_NO_PLACE, 0);
    try_fault("1", "schedule 1\n7\nend\n", 0, F, GOI_FAULT_NOT_LIVE, 0, 7);
    try_fault("1", "schedule 1\n0\n0\n0\nend\n", 0, F, GOI_FAULT_AFTER_ANSWER, 2, 0);
    try_fault("1", "schedule\n", 0, F, GOI_FAULT_BAD_HEADER, GOI_NO_PLACE, 0);
    try_fault("1", "schedule 1\nx\nend\n", 0, F, GOI_FAULT_BAD_LINE, 2, 0);
    try_fault("1", "schedule 1\n4294967296\nend\n", 0, F, GOI_FAULT_TICKET_TOO_WIDE, 2, 0);
    try_fault("1", "schedule 1\n0\n", 0, F, GOI_FAULT_NO_END, GOI_NO_PLACE, 0);
    try_fault(")", "schedule\n", 0, P, GOI_FAULT_UNEXPECTED, 0, 0);
}

/* ---- circuits */

static void try_circuit(uint32_t cells, uint32_t forks, goi_status status) {
    static const char end[] = "endmodule\n`default_nettype wire\n// verilator lint_restore\n";
    static char out[1 << 16];
    size_t needed = 7, last = sizeof end - 1;
    TRY("circuit", goi_circuit("1", 1, cells, forks, out, sizeof out, &needed) == status && (needed > 0) == (status == GOI_OK));
    TRY("circuit", status != GOI_OK || (needed > last && !memcmp(out + needed - last, end, last)));
}

/* The circuit of a function, which has this port and not the other one; or with no port the line of the fault. */
static void try_ports(const char *text, const char *port, const char *other) {
    static char out[1 << 16];
    size_t needed = 0;
    goi_status status = goi_circuit(text, strlen(text), GOI_CELLS, GOI_FORKS, out, sizeof out - 1, &needed);
    TRY("ports", status == (port ? GOI_OK : GOI_REFUSED) && needed < sizeof out);
    out[needed < sizeof out ? needed : 0] = 0;
    TRY("ports", port ? strstr(out, port) && !strstr(out, other) : !strcmp(out, "refused: NotGround\n"));
}

/* ---- long texts, by how they begin and end */

static void try_ends(const row *r, const char *begins, const char *ends) {
    static char out[1 << 16];
    size_t needed = 0, b = strlen(begins), e = strlen(ends);
    TRY(r->text, call(r, &told, out, sizeof out, &needed) == r->status && needed >= b + e);
    TRY(r->text, needed >= b + e && !memcmp(out, begins, b) && !memcmp(out + needed - e, ends, e));
}

/* Runs of which the report is long: 20 digits of a value, and 1,812,624 moves. With GOI_LINE_SIZE bytes there is room for it. */
static void try_line(void) {
    static const char text[] = "(fix f:nat->nat. fun n:nat. ifz n then 18446744073709551615 else n * 0 + f (pred n)) 300";
    char line[GOI_LINE_SIZE];
    size_t needed = 0;
    goi_status status = goi_run(text, sizeof text - 1, GOI_BUDGET_MAX, 0, line, sizeof line, &needed);
    TRY("a long line", status == GOI_OK && needed >= 41 && !memcmp(line, "value 18446744073709551615\nmoves ", 33));
}

static void *many(void *at) {
    const row *r = at;
    char out[8192];
    goi_answer answer;
    size_t needed, n = strlen(r->out);
    long good = 0;
    int i;
    for (i = 0; i < 300; i++)
        good += call(r, &answer, out, sizeof out, &needed) == r->status && needed == n && !memcmp(out, r->out, n);
    return (void *)good;
}

int main(void) {
    enum { THREADS = 8 };
    pthread_t threads[THREADS];
    size_t i;
    TRY("version", goi_version() == GOI_VERSION_NUMBER);
    for (i = 0; i < sizeof rows / sizeof *rows; i++) try_row(&rows[i]);

    try_tell(DOUBLE, 30, 0, GOI_OK, 6, 30, GOI_NUMBER);
    try_tell(DOUBLE, 29, 0, GOI_NO_VALUE, 0, 29, GOI_NONE);
    try_tell("18446744073709551615", 100, 0, GOI_OK, UINT64_MAX, 2, GOI_NUMBER);
    try_tell(OVERFLOW, 30, 0, GOI_OK, 0, 4, GOI_OVERFLOW);
    try_tell("4", 100, GOI_BY_VALUE, GOI_OK, 4, 34, GOI_NUMBER);
    try_tell(")", 100, 0, GOI_REFUSED, 0, 0, GOI_NONE);
    try_tell("4", 100, 2, GOI_BAD_CALL, 0, 0, GOI_NONE);
    try_tell("4", GOI_BUDGET_MAX + 1, 0, GOI_BAD_CALL, 0, 0, GOI_NONE);
    try_tell("fix y:nat. y", GOI_BUDGET, 0, GOI_NO_VALUE, 0, 10000, GOI_NONE);
    try_line();
    try_each();
    try_faults();
    try_circuit(GOI_CELLS, GOI_FORKS, GOI_OK);
    try_circuit(1, 1, GOI_OK);
    try_circuit(GOI_CELLS_MAX, GOI_FORKS_MAX, GOI_OK);
    try_circuit(0, 1, GOI_BAD_CALL);
    try_circuit(GOI_CELLS_MAX + 1, 1, GOI_BAD_CALL);
    try_circuit(GOI_CELLS, 0, GOI_BAD_CALL);
    try_circuit(GOI_CELLS, GOI_FORKS_MAX + 1, GOI_BAD_CALL);
    try_ports("fun x:nat. x", "  input wire [63:0] arg0\n", "arg1");
    try_ports("fun x:nat. fun y:nat. x + y", "  input wire [63:0] arg1\n", "arg2");
    try_ports("1", "module goi (", "arg0");
    try_ports("(1, 2)", 0, 0);
    try_ports("fun f:nat->nat. f 0", 0, 0);
    {
        char line[GOI_LINE_SIZE];
        size_t needed = 0;
        TRY("version", goi_version_text(line, sizeof line, &needed) == GOI_OK && needed == 10);
        TRY("version", !memcmp(line, "goi 1.1.0\n", 10));
        TRY("version", goi_version_text(line, needed - 1, &needed) == GOI_NO_ROOM);
    }

    /* each flag where the text is long, and both together */
    {
        static const row both = {"run", "4", 0, 10000, GOI_BY_VALUE + GOI_SCHEDULE, GOI_OK, ""};
        static const row traced = {"trace", "4", 0, 10000, GOI_BY_VALUE, GOI_OK, ""};
        static const row by_name = {"run", "4", 0, 10000, GOI_SCHEDULE, GOI_OK, ""};
        try_ends(&both, "value 4\nmoves 34\nschedule 2\n", "\nend\n");
        try_ends(&traced, "value 4\nmoves 34\ntrace 1\n", "=> answer 4\nend\n");
        try_ends(&by_name, "value 4\nmoves 2\nschedule 2\n", "0 2\nend\n");
    }

    /* a part of a trace outside its range */
    {
        char out[1];
        size_t needed;
        TRY("from", goi_trace("1", 1, 100, 0, GOI_FROM_MAX + 1, 1, out, 1, &needed) == GOI_BAD_CALL && needed == 0);
        TRY("most", goi_trace("1", 1, 100, 0, 0, GOI_TRACED_MAX + 1, out, 1, &needed) == GOI_BAD_CALL && needed == 0);
        TRY("most", goi_trace("1", 1, 100, 0, 0, 0, out, 1, &needed) == GOI_BAD_CALL && needed == 0);
    }
    /* and at its limits: behind the last move there is no line */
    {
        char out[256];
        size_t needed;
        TRY("from", goi_trace("1", 1, GOI_BUDGET_MAX, 0, GOI_FROM_MAX, 1, out, sizeof out, &needed) == GOI_OK);
        TRY("from", needed == 28 && !memcmp(out, "value 1\nmoves 2\ntrace 1\nend\n", 28));
        TRY("most", goi_trace("1", 1, 100, 0, 1, GOI_TRACED_MAX, out, sizeof out, &needed) == GOI_OK);
        TRY("most", goi_trace("1", 1, GOI_BUDGET_MAX + 1, 0, 0, 1, out, sizeof out, &needed) == GOI_BAD_CALL);
    }

    for (i = 0; i < THREADS; i++) pthread_create(&threads[i], 0, many, (void *)&rows[i * 4]);
    for (i = 0; i < THREADS; i++) {
        void *good;
        pthread_join(threads[i], &good);
        TRY("threads", (long)good == 300);
    }
    printf("%d passed, %d failed\n", passed, failed);
    return failed != 0;
}
