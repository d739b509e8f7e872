/* What holds between calls on one text, for every text. */
#define _GNU_SOURCE
#include "fuzzing.h"
#include <ctype.h>
#include <stdio.h>
#include <stdlib.h>
#include <string.h>

static char made_up[TEXT_ROOM]; /* a text that is made of another one */
enum { PROGRAM_BYTES = 1 << 20 };

static bool runs(const given *it) {
    return it->status == GOI_OK || it->status == GOI_NO_VALUE;
}

static bool begins(const given *it, const given *with) {
    return it->size >= with->size && !memcmp(it->text, with->text, with->size);
}

/* Both calls gave the same, where both gave something. */
static void are_same(const char *what, const given *a, const given *b) {
    if (!a->text || !b->text) return;
    if (a->status != b->status || a->size != b->size || memcmp(a->text, b->text, a->size))
        finding("%s: status %u and %u\n--- %.2000s\n--- %.2000s", what, a->status, b->status, a->text, b->text);
}

/* The name of a fault, as in "refused: TooDeep(5)". */
static bool is_fault(const given *it, const char *name) {
    size_t n = strlen(name);
    return it->status == GOI_REFUSED && !strncmp(it->text + 9, name, n) && strchr("(\n", it->text[9 + n]);
}

static bool same_fault(const given *a, const given *b) {
    size_t n = strcspn(a->text + 9, "(\n");
    return n == strcspn(b->text + 9, "(\n") && !memcmp(a->text + 9, b->text + 9, n);
}

static given run_of(text program, uint32_t budget, uint32_t flags) {
    return make((asked){RUN, .program = program, .budget = budget, .flags = flags});
}

/* ---- a program's calls */

static void try_tell(text program, uint32_t budget, uint32_t by_value, const given *run) {
    given told = make((asked){TELL, .program = program, .budget = budget, .flags = by_value});
    char line[GOI_LINE_SIZE + 1];
    if (told.status != run->status) finding("tell has status %u, and run %u", told.status, run->status);
    if (told.status == GOI_REFUSED) {
        are_same("tell and run", &told, run);
    } else {
        goi_answer a = told.answer;
        if (a.kind == GOI_NUMBER) snprintf(line, sizeof line, "value %lu\nmoves %u\n", (unsigned long)a.value, a.moves);
        else snprintf(line, sizeof line, "%s\nmoves %u\n", a.kind ? "value overflow" : "no value", a.moves);
        if (strcmp(line, run->text)) finding("tell has %s, and run %s", line, run->text);
    }
    free(told.text);
}

/* The line of a move in a trace, or null. */
static const char *move_in(const given *trace, uint32_t number) {
    char begin[32];
    snprintf(begin, sizeof begin, "\nmove %u ", number);
    return strstr(trace->text, begin);
}

/* The trace has the run's lines in front, a line for each move, and the run's value at its end. A part of it is in the whole. */
static void try_trace(asked it, const given *run, unsigned pick) {
    given trace = make(it), part;
    uint32_t moves = 0, first;
    char end[64];
    if (!trace.text || !runs(run)) {
        are_same("trace and run", &trace, run);
        free(trace.text);
        return;
    }
    if (trace.status != run->status || !begins(&trace, run)) finding("the trace's lines aren't the run's");
    for (const char *at = trace.text; (at = strstr(at, "\nmove ")); at++) moves++;
    if (moves != (uint32_t)atol(strstr(run->text, "moves ") + 6)) finding("a trace of %u moves of %s", moves, run->text);
    if (run->status == GOI_OK) {
        int n = snprintf(end, sizeof end, "=> answer %.*s\nend\n", (int)strcspn(run->text + 6, "\n"), run->text + 6);
        if (trace.size < (size_t)n || strcmp(trace.text + trace.size - n, end)) finding("the trace doesn't end with %s", end);
    }
    if (moves > 1) {
        first = pick % moves;
        it.from = first, it.most = 1 + pick % 7;
        part = make(it);
        const char *here = move_in(&part, first), *there = move_in(&trace, first);
        if (!here || !there || strncmp(here, there, strcspn(here + 1, "\n") + 1))
            finding("the part from move %u isn't in the trace", first);
        squeeze(it, &part);
        free(part.text);
    }
    free(trace.text);
}

/* The program that `check` prints runs as the program does, and is printed as itself. */
static void try_check(text program, uint32_t budget, uint32_t by_value, const given *run, bool small) {
    asked it = {CHECK, .program = program, .flags = 1};
    given term = make(it), type = make((asked){CHECK, .program = program});
    if (small) squeeze(it, &term);
    if (term.status != type.status) finding("check has status %u, and with the program %u", type.status, term.status);
    find((asked){FIND, .program = program, .flags = GOI_AS_PROGRAM}, &type);
    if (runs(run) && strcmp(type.text, "type nat\n")) finding("the type of what runs: %s", type.text);
    if (term.status == GOI_OK && term.text) {
        char *at = strstr(term.text, "\nterm ");
        if (!at || !begins(&term, &type)) finding("check prints %.200s", term.text);
        text printed = {at + 6, term.size - (size_t)(at + 6 - term.text)};
        given same_run = run_of(printed, budget, by_value), same_term = make((asked){CHECK, .program = printed, .flags = 1});
        if (runs(run)) are_same("a run of the printed program", &same_run, run);
        are_same("the printed program, printed", &same_term, &term);
        free(same_run.text), free(same_term.text);
    }
    free(term.text), free(type.text);
}

/* What is printed of the program can be read: its net runs as it does, and its schedule replays to its run. */
static void try_printed(text program, uint32_t budget, uint32_t by_value, const given *run, const given *scheduled, unsigned pick) {
    given net = make((asked){NET, .program = program}), other;
    if (net.status == GOI_OK && net.size < TEXT_ROOM && !by_value) {
        other = make((asked){RUN_NET, .program = {net.text, net.size}, .budget = budget, .flags = 1});
        are_same("run-net of the program's net", &other, scheduled);
        free(other.text);
    }
    free(net.text);
    if (runs(run) && !by_value && scheduled->text && scheduled->size - run->size < TEXT_ROOM) {
        asked it = {REPLAY, .program = program, .schedule = {scheduled->text + run->size, scheduled->size - run->size}};
        other = make(it);
        are_same("replay of the run's schedule", &other, run);
        if (pick & 1) squeeze(it, &other);
        free(other.text);
    }
}

/* The first two lines of a report, as a call of its own. */
static given lines_of(const given *it) {
    given lines = *it;
    const char *first = strchr(it->text, '\n'), *second = first ? strchr(first + 1, '\n') : 0;
    if (!second) finding("a report without two lines: %.200s", it->text);
    lines.size = (size_t)(second + 1 - it->text);
    lines.text = strndup(it->text, lines.size);
    return lines;
}

static bool same_line(const char *a, const char *b) {
    size_t n = strcspn(a, "\n");
    return n == strcspn(b, "\n") && !memcmp(a, b, n);
}

/* The rounds come to the run's value and moves, where they come to one, and their schedule replays to what they come to. */
static void try_span(text program, uint32_t budget, uint32_t by_value, const given *run, unsigned pick) {
    asked it = {SPAN, .program = program, .budget = budget, .flags = by_value | GOI_SCHEDULE | (pick & GOI_PROFILE)};
    given span = make(it), lines, again;
    if (!runs(run) || !span.text) {
        are_same("span and run", &span, run);
        free(span.text);
        return;
    }
    if (span.status != run->status) finding("span has status %u, and run %u", span.status, run->status);
    lines = lines_of(&span);
    if (span.status == GOI_OK) are_same("span and run", &lines, run);
    const char *schedule = strstr(span.text, "\nschedule 2\n");
    if (!schedule) finding("span has no schedule: %.200s", span.text);
    if (!by_value && span.size < TEXT_ROOM) {
        again = make((asked){REPLAY, .program = program, .schedule = {schedule + 1, span.size - (size_t)(schedule + 1 - span.text)}});
        are_same("replay of the rounds", &again, &lines);
        free(again.text);
    }
    if (pick & 1) squeeze(it, &span);
    free(lines.text), free(span.text);
}

/* A reduction comes to the run's value, and so does the run of a term of it, where both come to one. */
static void try_steps(text program, uint32_t budget, const given *run, unsigned pick) {
    asked it = {STEPS, .program = program, .budget = budget > 300 ? 300 : budget, .from = pick & 3, .most = 1 + (pick >> 2 & 7)};
    given steps = make(it), other;
    if (run->status == GOI_REFUSED || !steps.text) {
        are_same("steps and run", &steps, run);
        free(steps.text);
        return;
    }
    if (!runs(&steps)) finding("steps has status %u, and run %u", steps.status, run->status);
    if (steps.status == GOI_OK && run->status == GOI_OK && !same_line(steps.text, run->text)) finding("steps: %.100s", steps.text);
    const char *at = strstr(steps.text, "\nstep "), *term = at ? at + 1 : 0;
    for (int k = 0; k < 5 && term; k++) term = strchr(term, ' ') + 1;
    if (term && strcspn(term, "\n") < TEXT_ROOM) {
        other = run_of((text){term, strcspn(term, "\n")}, budget, 0);
        if (!runs(&other) && !is_fault(&other, "TooDeep") && !is_fault(&other, "TooLarge") && !is_fault(&other, "TooLong"))
            finding("a term of a reduction: %s", other.text);
        if (other.status == GOI_OK && run->status == GOI_OK && !same_line(other.text, run->text)) finding("a term has %s", other.text);
        free(other.text);
    }
    if (pick & 1) squeeze(it, &steps);
    free(steps.text);
}

/* What runs has a circuit, whose module has the ports of a circuit and no argument. */
static void try_circuit(text program, const given *run, unsigned pick) {
    static const char *const parts[] = {"\nmodule goi (\n", "input wire clk", "input wire rst", "output reg done",
                                        "output reg [64:0] result", "output reg full", "\nendmodule"};
    asked it = {CIRCUIT, .program = program, .from = 1 + pick * 15u % GOI_CELLS_MAX, .most = 1 + pick % GOI_FORKS_MAX};
    given circuit = make(it);
    if (run->status == GOI_REFUSED && circuit.status == GOI_REFUSED) are_same("circuit and run", &circuit, run);
    if (runs(run) && circuit.status != GOI_OK) finding("what runs has no circuit: %s", circuit.text);
    if (circuit.status == GOI_OK && circuit.text) {
        if (strncmp(circuit.text, "// goi circuit 1: ", 18)) finding("a circuit that begins with %.200s", circuit.text);
        for (size_t k = 0; k < sizeof parts / sizeof *parts; k++)
            if (!strstr(circuit.text, parts[k])) finding("a circuit without %s", parts[k]);
        if (runs(run) && strstr(circuit.text, "[63:0] arg0")) finding("a program's circuit with an argument");
    }
    if (pick & 1) squeeze(it, &circuit);
    free(circuit.text);
}

/* A function at each row of numbers is what its application to them runs to. */
void try_function(text function, uint32_t budget, uint32_t arguments, unsigned pick) {
    asked it = {EACH, .program = function, .budget = budget, .from = arguments};
    for (uint32_t k = 0; k < ROWS * arguments; k++) it.values[k] = (k * 7 + pick) % 11 == 3 ? UINT64_MAX - (pick & 1) : pick >> k & 7;
    given told = make(it);
    squeeze(it, &told);
    find((asked){FIND, .program = function, .flags = GOI_AS_FUNCTION(arguments)}, &told);
    for (uint32_t row = 0; row < ROWS && runs(&told) && function.size + 100 < TEXT_ROOM; row++) {
        size_t n = function.size;
        char line[GOI_LINE_SIZE];
        goi_answer a = told.each[row];
        made_up[0] = '(';
        memcpy(made_up + 1, function.at, n++);
        n += sprintf(made_up + n, "\n)");
        for (uint32_t k = 0; k < arguments; k++) n += sprintf(made_up + n, " %lu", (unsigned long)it.values[row * arguments + k]);
        given run = run_of((text){made_up, n}, budget, 0);
        if (a.kind == GOI_NUMBER) snprintf(line, sizeof line, "value %lu\nmoves %u\n", (unsigned long)a.value, a.moves);
        else snprintf(line, sizeof line, "%s\nmoves %u\n", a.kind ? "value overflow" : "no value", a.moves);
        /* (the application may be too deep or too long) */
        if (runs(&run) ? strcmp(line, run.text) : strncmp(run.text, "refused: Too", 12))
            finding("a row has %s, and its application %s", line, run.text);
        free(run.text);
    }
    free(told.text);
}

/* ---- a program respelled */

static bool is_keyword(const char *at, size_t size) {
    static const char *const words[] = {"fun", "fix", "ifz", "then", "else", "succ", "pred", "fst", "snd", "nat"};
    for (size_t k = 0; k < sizeof words / sizeof *words; k++)
        if (strlen(words[k]) == size && !memcmp(words[k], at, size)) return true;
    return false;
}

/* Writes the program with longer names, zeros in front of its numbers and other comments, and answers its length; 0 where it isn't ASCII
 * or too long. */
static size_t respelled(text program, char *to) {
    const char *at = program.at, *end = at + program.size;
    size_t n = 0;
    while (at < end) {
        const char *from = at;
        if (n + program.size + 16 > TEXT_ROOM || (*at & 0x80)) return 0;
        if (*at == '#') {
            while (at < end && *at != '\n')
                if (*at++ & 0x80) return 0;
            n += sprintf(to + n, "#\"");
        } else if (isdigit((unsigned char)*at)) {
            while (at < end && isdigit((unsigned char)*at)) at++;
            n += sprintf(to + n, "00%.*s", (int)(at - from), from);
        } else if (isalpha((unsigned char)*at) || *at == '_') {
            while (at < end && (isalnum((unsigned char)*at) || *at == '_')) at++;
            if (at < end && (*at & 0x80)) return 0;
            n += sprintf(to + n, "%.*s%s", (int)(at - from), from, is_keyword(from, at - from) ? "" : "q");
        } else {
            to[n++] = *at++;
        }
    }
    return n < PROGRAM_BYTES ? n : 0;
}

/* With blanks in front a fault is so much further on, and the run is the same. */
static void try_blanks(text program, uint32_t budget, uint32_t flags, const given *run) {
    static const char blanks[] = "#x\n  ";
    size_t n = sizeof blanks - 1;
    char wanted[GOI_LINE_SIZE + 16], *place;
    if (program.size + n > PROGRAM_BYTES || program.size + n > TEXT_ROOM) return;
    memcpy(made_up, blanks, n);
    memcpy(made_up + n, program.at, program.size);
    given moved = run_of((text){made_up, n + program.size}, budget, flags);
    place = run->status == GOI_REFUSED ? strchr(run->text, '(') : 0;
    if (place) {
        snprintf(wanted, sizeof wanted, "%.*s(%lu)\n", (int)(place - run->text), run->text, strtoul(place + 1, 0, 10) + n);
        if (moved.status != GOI_REFUSED || strcmp(moved.text, wanted)) finding("behind blanks: %s, wanted %s", moved.text, wanted);
    } else {
        are_same("behind blanks", &moved, run);
    }
    free(moved.text);
}

/* In parentheses the run is the same, where it isn't too deep or too long. */
static void try_parentheses(text program, uint32_t budget, uint32_t flags, const given *run) {
    size_t n = program.size;
    if (n + 6 > TEXT_ROOM || !runs(run)) return;
    memcpy(made_up, "( \t", 3);
    memcpy(made_up + 3, program.at, n);
    memcpy(made_up + 3 + n, "\n)#", 3);
    given inside = run_of((text){made_up, n + 6}, budget, flags);
    if (!is_fault(&inside, "TooDeep") && !is_fault(&inside, "TooLong")) are_same("in parentheses", &inside, run);
    free(inside.text);
}

/* Under other names the run is the same, and so is the fault. */
static void try_names(text program, uint32_t budget, uint32_t flags, const given *run) {
    size_t n = respelled(program, made_up);
    if (!n) return;
    given other = run_of((text){made_up, n}, budget, flags);
    if (run->status != GOI_REFUSED) are_same("respelled", &other, run);
    else if (!is_fault(run, "TooLong") && (other.status != GOI_REFUSED || !same_fault(&other, run)))
        finding("respelled: %s, was %s", other.text, run->text);
    free(other.text);
}

void try_program(text program, uint32_t budget, uint32_t flags, unsigned pick) {
    uint32_t by_value = flags & GOI_BY_VALUE, both = by_value | GOI_SCHEDULE;
    asked it = {RUN, .program = program, .budget = budget, .flags = by_value}, scheduled_it = it;
    given run = make(it), scheduled;
    scheduled_it.flags = both;
    scheduled = make(scheduled_it);
    if (scheduled.status != run.status || (scheduled.text && !begins(&scheduled, &run))) finding("with a schedule the run is another one");
    squeeze(it, &run);
    if (flags & 4) squeeze(scheduled_it, &scheduled);
    try_tell(program, budget, by_value, &run);
    try_trace((asked){TRACE, .program = program, .budget = budget, .flags = by_value, .most = GOI_TRACED_MAX}, &run, pick);
    try_check(program, budget, by_value, &run, flags & 8);
    try_printed(program, budget, by_value, &run, &scheduled, pick);
    try_blanks(program, budget, by_value, &run);
    try_parentheses(program, budget, both, &scheduled);
    try_names(program, budget, by_value, &run);
    find((asked){FIND, .program = program, .flags = by_value ? GOI_AS_BY_VALUE : GOI_AS_NUMBER}, &run);
    if (pick % 3 == 0) try_span(program, budget, by_value, &run, pick);
    if (pick % 3 == 1 && !by_value) try_steps(program, budget, &run, pick);
    if (pick % 3 == 2 && !by_value) try_circuit(program, &run, pick);
    free(run.text), free(scheduled.text);
}

/* ---- listings and schedules */

/* A listing that is taken is the very text that `goi net` prints: without its end, with a line more, or with a zero in front of one of its
 * numbers it is refused. */
void try_listing(text listing, uint32_t budget, uint32_t flags, unsigned pick) {
    asked it = {RUN_NET, .program = listing, .budget = budget, .flags = flags & 1};
    given run = make(it), other;
    size_t n = listing.size, at;
    squeeze(it, &run);
    find((asked){FIND, .program = listing, .flags = GOI_AS_LISTING}, &run);
    if (runs(&run) && n + 8 < TEXT_ROOM) {
        const char *whole = listing.at;
        it.program = (text){whole, n - 4}; /* without "end\n" */
        other = make(it);
        if (other.status != GOI_BAD_FILE) finding("a listing without an end has status %u", other.status);
        free(other.text);
        it.program = (text){made_up, n + 1};
        memcpy(made_up, whole, n);
        made_up[n] = '\n';
        other = make(it);
        if (other.status != GOI_BAD_FILE) finding("a listing with a line more has status %u", other.status);
        free(other.text);
        at = pick * 7919u % n;
        while (at < n && !(isdigit((unsigned char)whole[at]) && whole[at - 1] == ' ')) at++;
        if (at < n) {
            memcpy(made_up, whole, at);
            made_up[at] = '0';
            memcpy(made_up + at + 1, whole + at, n - at);
            other = make(it);
            if (other.status != GOI_BAD_FILE) finding("a listing with a zero in front of a number has status %u", other.status);
            free(other.text);
        }
    }
    free(run.text);
}

/* A replay makes as many moves as the schedule has, and is the same when it is made again, and with its trace behind it. */
void try_schedule(text program, text schedule, unsigned pick) {
    asked it = {REPLAY, .program = program, .schedule = schedule};
    given replay = make(it), other = make(it);
    are_same("a replay, twice", &other, &replay);
    if (pick & 1) squeeze(it, &replay);
    find((asked){FIND_IN_SCHEDULE, .program = program, .schedule = schedule}, &replay);
    asked traced_it = {REPLAY_TRACE, .program = program, .schedule = schedule, .from = pick & 15, .most = 1 + (pick >> 4 & 15)};
    given traced = make(traced_it);
    if (!runs(&replay)) are_same("a replay's trace and the replay", &traced, &replay);
    else if (traced.text && (traced.status != replay.status || !begins(&traced, &replay)
                             || strncmp(traced.text + replay.size, "trace 1\n", 8)))
        finding("the trace of a replay begins otherwise: %.200s", traced.text);
    if (pick & 2) squeeze(traced_it, &traced);
    free(traced.text);
    if (runs(&replay)) {
        /* behind its end nothing may come */
        size_t n = schedule.size;
        free(other.text);
        memcpy(made_up, schedule.at, n);
        made_up[n] = '\n';
        it.schedule = (text){made_up, n + 1};
        other = make(it);
        if (other.status != GOI_BAD_FILE) finding("a schedule with a line more has status %u", other.status);
    }
    free(other.text), free(replay.text);
}
