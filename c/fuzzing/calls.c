/* Calls of goi.h, each on a stack of GOI_STACK_SIZE bytes, on texts and rooms next to pages that nobody may touch. */
#define _GNU_SOURCE
#include "fuzzing.h"
#include <signal.h>
#include <stdarg.h>
#include <stdio.h>
#include <stdlib.h>
#include <string.h>
#include <sys/mman.h>
#include <ucontext.h>

enum { PAGE = 4096, BLANK = 0xA5, CANARIES = 300 };

bool texts_at_end = true;
static uint8_t *program_room, *schedule_room, *out_room, *stack;
static ucontext_t caller, callee;

static const char *const names[KINDS] = {"tell", "run", "trace", "run_net", "check", "net", "replay", "span", "steps", "circuit",
                                         "replay_trace", "tell_each", "find_fault", "find_schedule_fault"};
/* The names of faults, by their numbers from 1 on. */
static const char *const faults[] = {
    "", "NotText", "BadToken", "NumberTooWide", "Unexpected", "TooDeep", "TooLarge", "TooLong", "Unbound", "FunctionWanted",
    "ArgumentMismatch", "NatWanted", "FixMismatch", "PairWanted", "NotGround", "ByValueFix", "ByValuePair", "ByValueDeep", "BadHeader",
    "BadLine", "NoEnd", "NotOfTerm", "LooseWire", "TypeClash", "DepthClash", "RootCount", "TicketTooWide", "NotLive", "AfterAnswer"};

const char *name_of(enum kind kind) {
    return names[kind];
}

void finding(const char *form, ...) {
    va_list words;
    va_start(words, form);
    fprintf(stderr, "FINDING: ");
    vfprintf(stderr, form, words);
    fprintf(stderr, "\n");
    va_end(words);
    abort();
}

static uint8_t *guarded(size_t size) {
    uint8_t *at = mmap(0, size + 2 * PAGE, PROT_NONE, MAP_PRIVATE | MAP_ANONYMOUS | MAP_NORESERVE, -1, 0);
    if (at == MAP_FAILED || mprotect(at + PAGE, size, PROT_READ | PROT_WRITE)) abort();
    return at + PAGE;
}

void begin(void) {
    /* (where the stack is at its end, the signal is handled on another one) */
    static uint8_t other[1 << 16];
    stack_t spare = {.ss_sp = other, .ss_size = sizeof other};
    program_room = guarded(TEXT_ROOM);
    schedule_room = guarded(TEXT_ROOM);
    out_room = guarded(OUT_ROOM);
    stack = guarded(GOI_STACK_SIZE);
    sigaltstack(&spare, 0);
}

/* ---- one call */

/* A call with its room, and its status. */
static struct {
    asked it;
    uint8_t *out;
    size_t size, needed;
    goi_answer answer, each[ROWS];
    goi_fault fault;
    goi_status status;
} now;

static void call(void) {
    const void *t = now.it.program.at, *s = now.it.schedule.at;
    size_t n = now.it.program.size, m = now.it.schedule.size;
    switch (now.it.kind) {
    case TELL: now.status = goi_tell(t, n, now.it.budget, now.it.flags, &now.answer, now.out, now.size, &now.needed); break;
    case RUN: now.status = goi_run(t, n, now.it.budget, now.it.flags, now.out, now.size, &now.needed); break;
    case TRACE:
        now.status = goi_trace(t, n, now.it.budget, now.it.flags, now.it.from, now.it.most, now.out, now.size, &now.needed);
        break;
    case RUN_NET: now.status = goi_run_net(t, n, now.it.budget, now.it.flags != 0, now.out, now.size, &now.needed); break;
    case CHECK: now.status = goi_check(t, n, now.it.flags != 0, now.out, now.size, &now.needed); break;
    case NET: now.status = goi_net(t, n, now.out, now.size, &now.needed); break;
    case SPAN: now.status = goi_span(t, n, now.it.budget, now.it.flags, now.out, now.size, &now.needed); break;
    case STEPS: now.status = goi_steps(t, n, now.it.budget, now.it.from, now.it.most, now.out, now.size, &now.needed); break;
    case CIRCUIT: now.status = goi_circuit(t, n, now.it.from, now.it.most, now.out, now.size, &now.needed); break;
    case REPLAY_TRACE: now.status = goi_replay_trace(t, n, s, m, now.it.from, now.it.most, now.out, now.size, &now.needed); break;
    case EACH:
        now.status = goi_tell_each(t, n, now.it.from, now.it.values, ROWS * (size_t)now.it.from, now.it.budget, now.each, ROWS, now.out,
                                   now.size, &now.needed);
        break;
    case FIND: now.status = goi_find_fault(t, n, now.it.flags, &now.fault); break;
    case FIND_IN_SCHEDULE: now.status = goi_find_schedule_fault(t, n, s, m, &now.fault); break;
    default: now.status = goi_replay(t, n, s, m, now.out, now.size, &now.needed);
    }
}

/* Makes the call of `now`. Whatever it took from the heap is given back. Sanitizers want the stack that they know. */
static void enter(void) {
    long blocks = heap.blocks, bytes = heap.bytes;
    if (SANITIZED) {
        call();
    } else {
        getcontext(&callee);
        callee.uc_stack.ss_sp = stack;
        callee.uc_stack.ss_size = GOI_STACK_SIZE;
        callee.uc_link = &caller;
        makecontext(&callee, call, 0);
        swapcontext(&caller, &callee);
    }
    if (heap.blocks != blocks || heap.bytes != bytes)
        finding("%s keeps %ld blocks with %ld bytes, status %u", names[now.it.kind], heap.blocks - blocks, heap.bytes - bytes, now.status);
}

static text placed(uint8_t *room, text it) {
    uint8_t *at = texts_at_end ? room + TEXT_ROOM - it.size : room;
    if (it.size) memmove(at, it.at, it.size);
    return (text){at, it.size};
}

/* Puts the call into `now`, with so much room at the end of what is writable. */
static void prepare(asked it, size_t room) {
    it.program = placed(program_room, it.program);
    it.schedule = placed(schedule_room, it.schedule);
    now.it = it;
    now.out = out_room + OUT_ROOM - room;
    now.size = room;
    now.needed = 0x5A5A5A5A;
    now.answer = (goi_answer){0x1111, 0x2222, 0x3333};
    for (int k = 0; k < ROWS; k++) now.each[k] = now.answer;
    now.fault = (goi_fault){0x4444, 0x5555, 0x6666, 0x7777};
}

static bool may_be(enum kind kind, goi_status status) {
    switch (kind) {
    case TELL: case RUN: case TRACE: case SPAN: case STEPS: case EACH:
        return status == GOI_OK || status == GOI_REFUSED || status == GOI_NO_VALUE;
    case RUN_NET: return status == GOI_OK || status == GOI_NO_VALUE || status == GOI_BAD_FILE;
    case CHECK: case NET: case CIRCUIT: return status == GOI_OK || status == GOI_REFUSED;
    default: return status == GOI_OK || status == GOI_REFUSED || status == GOI_NO_VALUE || status == GOI_BAD_FILE;
    }
}

static bool is_blank(const uint8_t *at, size_t size) {
    for (size_t k = 0; k < size; k++)
        if (at[k] != BLANK) return false;
    return true;
}

/* What goi.h says of an answer in numbers. */
static void look_at_answer(void) {
    goi_answer a = now.answer;
    bool known = now.status == GOI_OK ? a.kind == GOI_NUMBER || a.kind == GOI_OVERFLOW : a.kind == GOI_NONE;
    if (!known || (a.kind != GOI_NUMBER && a.value)) finding("tell: status %u, kind %u, value %lu", now.status, a.kind, (long)a.value);
    if (a.moves > now.it.budget || (now.status == GOI_NO_VALUE && a.moves != now.it.budget)) finding("tell: %u moves", a.moves);
    if ((now.status == GOI_OK || now.status == GOI_NO_VALUE) && now.needed) finding("tell: a line of %zu bytes", now.needed);
}

static given found_now(long before) {
    given found = {now.status, now.needed, 0, now.answer, {now.each[0], now.each[1]}, heap.requests - before};
    if (now.status != GOI_NO_ROOM && now.status != GOI_NO_MEMORY) {
        found.text = malloc(now.needed + 1);
        memcpy(found.text, now.out, now.needed);
        found.text[now.needed] = 0;
    }
    return found;
}

given make(asked it) {
    const char *name = names[it.kind];
    bool is_told = it.kind == TELL || it.kind == EACH; /* (in numbers: only the line of a fault is text) */
    size_t room = is_told ? GOI_LINE_SIZE : OUT_ROOM, ends = room < CANARIES ? room : CANARIES;
    long before = heap.requests;
    /* canaries where the text may begin, and at the end of the room */
    prepare(it, room);
    memset(now.out, BLANK, room < (1 << 16) ? room : 1 << 16);
    memset(now.out + room - ends, BLANK, ends);
    enter();
    if (now.status == GOI_NO_MEMORY && heap.refused) {
        if (now.needed || !is_blank(now.out, ends)) finding("%s without memory: %zu bytes", name, now.needed);
        if (it.kind == TELL && (now.answer.kind || now.answer.value)) finding("tell without memory has an answer");
        for (int k = 0; k < ROWS && it.kind == EACH; k++)
            if (now.each[k].kind || now.each[k].value || now.each[k].moves) finding("tell_each without memory has an answer");
        return found_now(before);
    }
    if (now.status == GOI_NO_ROOM) {
        if (is_told || now.needed <= room || !is_blank(now.out, ends)) finding("%s: no room in %zu bytes", name, room);
        return found_now(before);
    }
    if (!may_be(it.kind, now.status)) finding("%s: status %u", name, now.status);
    if (now.needed > room) finding("%s: %zu bytes in %zu", name, now.needed, room);
    for (size_t k = now.needed; k < room && k < now.needed + CANARIES && k < 1 << 16; k++)
        if (now.out[k] != BLANK) finding("%s: byte %zu behind %zu is changed", name, k, now.needed);
    for (size_t k = room - ends; k < room; k++)
        if (k >= now.needed && now.out[k] != BLANK) finding("%s: the last bytes are changed", name);
    if (now.status == GOI_REFUSED || now.status == GOI_BAD_FILE) {
        bool is_line = now.needed >= 10 && now.needed <= GOI_LINE_SIZE;
        is_line = is_line && !memcmp(now.out, "refused: ", 9) && now.out[now.needed - 1] == '\n';
        if (!is_line) finding("%s: a line of refusal of %zu bytes", name, now.needed);
    }
    if (it.kind == TELL) look_at_answer();
    return found_now(before);
}

/* The same call with so much room: it has the same text, or there is too little room and nothing is written. */
static void again(asked it, const given *found, size_t room) {
    const char *name = names[it.kind];
    prepare(it, room);
    memset(now.out, BLANK, room);
    if (room < OUT_ROOM) now.out[-1] = 0x77;
    enter();
    if (now.needed != found->size) finding("%s in %zu bytes wants %zu, and wanted %zu", name, room, now.needed, found->size);
    if (room < OUT_ROOM && now.out[-1] != 0x77) finding("%s: the byte before the room is changed", name);
    if (room >= found->size) {
        if (now.status != found->status || memcmp(now.out, found->text, found->size)) finding("%s differs in %zu bytes", name, room);
    } else if (now.status != GOI_NO_ROOM || !is_blank(now.out, room)) {
        finding("%s in %zu of %zu bytes: status %u", name, room, found->size, now.status);
    }
}

void squeeze(asked it, const given *found) {
    if (!found->text) return;
    again(it, found, found->size);
    if (!found->size) return;
    again(it, found, found->size - 1);
    again(it, found, found->size / 2);
    again(it, found, 0);
}

void refuse(asked it, const given *found, long number) {
    given other;
    heap.refuse = heap.requests + number;
    heap.refused = false;
    other = make(it);
    heap.refuse = -1;
    if (other.status != GOI_NO_MEMORY) {
        if (!heap.refused) finding("%s makes fewer requests than before", names[it.kind]);
        if (other.status != found->status || other.size != found->size || (other.text && memcmp(other.text, found->text, found->size)))
            finding("%s with request %ld refused has another answer", names[it.kind], number);
    }
    free(other.text);
}

/* The line of a fault. */
static void line_of(goi_fault it, char *to) {
    const char *name = it.kind < sizeof faults / sizeof *faults ? faults[it.kind] : "?";
    bool of_net = !strcmp(name, "LooseWire") || !strcmp(name, "TypeClash") || !strcmp(name, "DepthClash") || !strcmp(name, "RootCount");
    char in[GOI_LINE_SIZE];
    if (it.place == GOI_NO_PLACE) snprintf(in, sizeof in, "%s", name);
    else if (!strcmp(name, "NotLive")) snprintf(in, sizeof in, "%s(%u,%u)", name, it.place, it.ticket);
    else snprintf(in, sizeof in, "%s(%u)", name, it.place);
    sprintf(to, of_net ? "refused: NotSound(%s)\n" : "refused: %s\n", in);
}

void find(asked it, const given *found) {
    char line[2 * GOI_LINE_SIZE];
    if (!found->text) return;
    prepare(it, 0);
    enter();
    if (found->status == GOI_REFUSED || found->status == GOI_BAD_FILE) {
        line_of(now.fault, line);
        if (now.status != found->status || now.fault.status != found->status || strcmp(line, found->text))
            finding("%s: status %u, %s, and the call says %s", names[it.kind], now.status, line, found->text);
    } else if (now.status != GOI_OK || now.fault.status || now.fault.kind || now.fault.place != GOI_NO_PLACE) {
        finding("%s finds fault %u of status %u where there is none", names[it.kind], now.fault.kind, now.status);
    }
}

void numbers(asked it) {
    bool taken = it.kind == CIRCUIT || it.kind == REPLAY_TRACE || (it.budget >= 1 && it.budget <= 10000000);
    if (it.kind == SPAN) taken = taken && it.flags <= 7;
    if (it.kind == STEPS) taken = taken && it.from <= 10000000 && it.most >= 1 && it.most <= 100000;
    if (it.kind == CIRCUIT) taken = it.from >= 1 && it.from <= 1048575 && it.most >= 1 && it.most <= 1024;
    if (it.kind == REPLAY_TRACE) taken = it.from <= 10000000 && it.most >= 1 && it.most <= 1000000;
    if (it.kind == TELL || it.kind == TRACE) taken = taken && it.flags <= 1;
    if (it.kind == RUN) taken = taken && it.flags <= 3;
    if (it.kind == TRACE) taken = taken && it.from <= 10000000 && it.most >= 1 && it.most <= 1000000;
    prepare(it, 1 << 16);
    memset(now.out, BLANK, 1 << 16);
    enter();
    if (taken == (now.status == GOI_BAD_CALL))
        finding("%s with budget %u, flags %u, from %u, most %u: status %u", names[it.kind], it.budget, it.flags, it.from, it.most,
                now.status);
    if (taken) return;
    if (now.needed || !is_blank(now.out, 1 << 16)) finding("%s with wrong numbers gives %zu bytes", names[it.kind], now.needed);
    if (it.kind == TELL && (now.answer.kind || now.answer.value)) finding("tell with wrong numbers has an answer");
}
