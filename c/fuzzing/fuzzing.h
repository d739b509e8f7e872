/* What the parts of the harness share. */
#ifndef FUZZING_H
#define FUZZING_H

#include "goi.h"

#if defined(__has_feature)
#if __has_feature(address_sanitizer) || __has_feature(memory_sanitizer)
#define SANITIZED 1
#endif
#endif
#ifndef SANITIZED
#define SANITIZED 0
#endif

/* ---- the heap */

struct heap {
    long blocks, bytes; /* that are out */
    long requests;      /* that were made */
    long refuse;        /* the number of the request that is refused; -1 for none */
    bool refused;       /* whether it was */
};
extern struct heap heap;

/* ---- calls */

enum kind { TELL, RUN, TRACE, RUN_NET, CHECK, NET, REPLAY, SPAN, STEPS, CIRCUIT, REPLAY_TRACE, EACH, FIND, FIND_IN_SCHEDULE, KINDS };
enum { ROWS = 2, ARGUMENTS = 4 };

/* A text that somebody else owns. */
typedef struct {
    const void *at;
    size_t size;
} text;

/* A call of goi.h. What it doesn't take is left 0. A flag of goi_run_net and goi_check is `flags` not 0, and so is what a text is taken for
 * in goi_find_fault. A circuit has `from` cells and `most` forks, and a function takes `from` numbers, in each of ROWS rows. */
typedef struct {
    enum kind kind;
    text program; /* or the listing */
    text schedule;
    uint32_t budget, flags, from, most;
    uint64_t values[ROWS * ARGUMENTS];
} asked;

/* What came of it. The text is the caller's to free. */
typedef struct {
    goi_status status;
    size_t size;
    char *text; /* with a NUL behind it; null where there was no room */
    goi_answer answer;
    goi_answer each[ROWS];
    long requests;
} given;

/* Room for the texts and for what comes out, each between two pages that nobody may touch. */
enum { TEXT_ROOM = 2 << 20, OUT_ROOM = 8 << 20 };

void begin(void);
/* Whether texts end at a page that nobody may touch, or begin at one. */
extern bool texts_at_end;

/* Makes a call with room to spare, and looks over what any call owes: status, room, canaries, the heap. */
given make(asked it);
/* Makes it once more with exactly the room that its text takes, with a byte less, with half, and with none. */
void squeeze(asked it, const given *found);
/* A call whose request for memory of some number is refused: there was no memory, or the same comes as before. */
void refuse(asked it, const given *found, long number);
/* The first fault of the text, as what it is taken for or as a program with a schedule, is that of the line that was found, if one was. */
void find(asked it, const given *found);
/* A call with these numbers: whether it is taken is as goi.h says. */
void numbers(asked it);

/* Says what was found, and ends. */
void finding(const char *form, ...) __attribute__((noreturn, format(printf, 1, 2)));
const char *name_of(enum kind kind);

/* ---- what holds between calls */

void try_program(text program, uint32_t budget, uint32_t flags, unsigned pick);
void try_listing(text listing, uint32_t budget, uint32_t flags, unsigned pick);
void try_schedule(text program, text schedule, unsigned pick);
void try_function(text function, uint32_t budget, uint32_t arguments, unsigned pick);

#endif
