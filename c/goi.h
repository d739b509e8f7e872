/* goi.h -- a geometry-of-interaction machine for PCF, in process
 *
 * PCF is Plotkin's typed language of numbers, functions and fixed points. A call takes the text of a closed program and does one task
 * with it. What comes of it depends on the bytes and numbers that are handed in alone, and a call keeps nothing.
 *
 *     #include <goi.h>
 *
 *     const char *text = "(fun x:nat. x + x) 3";
 *     goi_answer answer;
 *     char line[GOI_LINE_SIZE];
 *     size_t needed;
 *     goi_status status = goi_tell(text, strlen(text), GOI_BUDGET, 0, &answer, line, sizeof line, &needed);
 *     // status == GOI_OK, answer.kind == GOI_NUMBER, answer.value == 6, answer.moves == 30
 *
 * Each call is proved to do what its comment says, for every text, every budget and every size of the buffer; the clause is named behind
 * it, and the definitions are in crates/goi_c/specs and crates/goi_tasks/specs. No proof reaches this header: that it declares what the
 * library has is looked over by c/test.c alone.
 *
 * Status: where the task can be done with the text, the status is the task's own, or GOI_NO_ROOM, or GOI_NO_MEMORY; where the text has
 * a fault, it is that of its first fault, or one of these two. Nothing else can stand in the way of an answer. (Owns)
 *
 * What a caller owes, and nothing checks:
 *   - `text` points to `text_size` bytes that stay as they are during the call. They need no NUL behind them, and a NUL among them is a
 *     byte like any other, which no program has.
 *   - `out` points to `out_size` bytes that are the caller's alone, and so do `answer`, `fault` and `needed` to one value each, and
 *     `answers` to as many as there are rows. `values` points to as many numbers as it says, which stay as they are. None of them
 *     overlaps another or the text.
 *   - No pointer is NULL, not even with a size of 0.
 *   - The stack has GOI_STACK_SIZE bytes free. A main thread of Linux has. A thread may have less (2 MiB in Rust, 512 KiB on a Mac, 128
 *     KiB with musl): a program that is nested as deeply as the limits allow then ends the process. Give such a thread a stack of its
 *     own size (pthread_attr_setstacksize), or take texts from nobody who would nest them so.
 *   - No call is made from a signal handler, nor in the child of a fork of a process with threads.
 *
 * Threads: calls may be made from any number of threads at once. They share nothing but malloc, realloc and free. A call starts no
 * thread and takes no lock, and runs its program by one worker: nothing that it tells depends on how many workers there are, but for the
 * schedule, which is the one worker's.
 *
 * Memory: a call asks the process's malloc for what it needs, and gives it all back before it returns. Where there is none it answers
 * GOI_NO_MEMORY; it never ends the process. It writes no file, no stream and no global, and reads none.
 *
 * Time: a call has no limit but its budget of moves and the limits of a program's text (1 MiB, 32,768 nodes). It can't be interrupted.
 */
#ifndef GOI_H
#define GOI_H

#include <stdbool.h>
#include <stddef.h>
#include <stdint.h>

#ifdef __cplusplus
extern "C" {
#endif

/* The version of this header. The library's own is told by goi_version(). The first number goes up where a call changes or goes, and the
 * second where one is added. */
#define GOI_VERSION_MAJOR 1
#define GOI_VERSION_MINOR 1
#define GOI_VERSION_PATCH 0
#define GOI_VERSION_NUMBER (GOI_VERSION_MAJOR * 10000 + GOI_VERSION_MINOR * 100 + GOI_VERSION_PATCH)

/* What a call answers: the statuses of the program `goi`. 3, a file that can't be read, doesn't come, since no file is read. */
typedef uint32_t goi_status;
enum {
    GOI_OK = 0,        /* done */
    GOI_REFUSED = 1,   /* the program has a fault, and the line that tells it is given */
    GOI_BAD_CALL = 2,  /* the numbers ask for nothing: one of them is outside its range, or there is no such flag; nothing is given */
    GOI_NO_ROOM = 4,   /* `out` is too small: *needed bytes are wanted, and nothing was written */
    GOI_NO_VALUE = 5,  /* the program came to no value within the budget, or the schedule to none */
    GOI_NO_MEMORY = 6, /* malloc gave none; nothing is given */
    GOI_BAD_FILE = 7   /* the schedule or the listing has a fault, and the line that tells it is given */
};

/* The default budget of `goi run`, and the most that a run may be allowed. The least is 1. */
#define GOI_BUDGET 10000u
#define GOI_BUDGET_MAX 10000000u

/* Enough for the line of any fault, and for any report of a run without its schedule: with so much room, goi_tell never answers
 * GOI_NO_ROOM, nor do goi_run and goi_run_net where no schedule is asked for. (HasRoom) */
#define GOI_LINE_SIZE 64

/* How much of the stack a call may take. The deepest programs that were tried took 2,133 KiB; no proof says so. */
#define GOI_STACK_SIZE (4u << 20)

/* The last move with which a part of a trace may begin, and the most moves that it may have. The least are 0 and 1. */
#define GOI_FROM_MAX 10000000u
#define GOI_TRACED_MAX 1000000u

/* The same of the steps of a reduction: the last one to begin with is GOI_FROM_MAX too. */
#define GOI_STEPS_MAX 100000u

/* The cells of a circuit and its forks, as `goi circuit` takes them: by default and the most. The least of both is 1. */
#define GOI_CELLS 1023u
#define GOI_CELLS_MAX 1048575u
#define GOI_FORKS 63u
#define GOI_FORKS_MAX 1024u

/* The most numbers that a function may take. */
#define GOI_ARGUMENTS_MAX 1000u

/* Flags of a run, to be added up. */
#define GOI_BY_VALUE 1u /* call by value, in place of call by name */
#define GOI_SCHEDULE 2u /* goi_run and goi_span only: the schedule is told behind the lines */
#define GOI_PROFILE 4u  /* goi_span only: there is a line for each round */

/* What a run came to, in numbers. */
typedef struct goi_answer {
    uint64_t value; /* the value where the kind is GOI_NUMBER, else 0 */
    uint32_t moves; /* the moves that were made */
    uint32_t kind;  /* GOI_NONE, GOI_NUMBER or GOI_OVERFLOW */
} goi_answer;
enum {
    GOI_NONE = 0,    /* no value */
    GOI_NUMBER = 1,  /* the number in `value` */
    GOI_OVERFLOW = 2 /* a number past 64 bits was met, and the program's value is `overflow` */
};

/* What a text is taken for, where its first fault is asked for. */
#define GOI_AS_PROGRAM 0u           /* a program of any type, as goi_check takes it */
#define GOI_AS_NUMBER 1u            /* one of type `nat`, as goi_run, goi_tell, goi_trace, goi_span, goi_steps and goi_net do */
#define GOI_AS_BY_VALUE 2u          /* one that is run with GOI_BY_VALUE */
#define GOI_AS_LISTING 3u           /* the listing of a program's net, as goi_run_net takes it */
#define GOI_AS_FUNCTION(n) (4u + (n)) /* a function of n numbers, as goi_tell_each takes it */

/* A fault in numbers: what its line says in words. */
typedef struct goi_fault {
    uint32_t status; /* GOI_REFUSED where a program has it, GOI_BAD_FILE where a schedule or a listing has, and GOI_OK for no fault */
    uint32_t kind;   /* one of the faults below, and 0 for no fault */
    uint32_t place;  /* a byte of a program, a line or an entry of a file, or N as below; GOI_NO_PLACE for none */
    uint32_t ticket; /* with GOI_FAULT_NOT_LIVE the ticket, else 0 */
} goi_fault;
#define GOI_NO_PLACE UINT32_MAX
enum {
    GOI_FAULT_NOT_TEXT = 1,           /* from here on the bytes are not UTF-8 */
    GOI_FAULT_BAD_TOKEN = 2,          /* no token begins here */
    GOI_FAULT_NUMBER_TOO_WIDE = 3,    /* a number above 2^64 - 1 */
    GOI_FAULT_UNEXPECTED = 4,         /* no program goes on with this */
    GOI_FAULT_TOO_DEEP = 5,           /* nested too deeply */
    GOI_FAULT_TOO_LARGE = 6,          /* with this the program has too many nodes */
    GOI_FAULT_TOO_LONG = 7,           /* longer than its limit; a schedule has the line that is too much */
    GOI_FAULT_UNBOUND = 8,            /* a name that nothing binds */
    GOI_FAULT_FUNCTION_WANTED = 9,    /* applied, and no function */
    GOI_FAULT_ARGUMENT_MISMATCH = 10, /* an argument of another type */
    GOI_FAULT_NAT_WANTED = 11,        /* a number is wanted */
    GOI_FAULT_FIX_MISMATCH = 12,      /* the body of a fix is of another type */
    GOI_FAULT_PAIR_WANTED = 13,       /* a pair is wanted */
    GOI_FAULT_NOT_GROUND = 14,        /* of another type than is wanted */
    GOI_FAULT_BY_VALUE_FIX = 15,      /* a fix without a translation by value */
    GOI_FAULT_BY_VALUE_PAIR = 16,     /* a pair, by value */
    GOI_FAULT_BY_VALUE_DEEP = 17,     /* too high to be translated by value */
    GOI_FAULT_BAD_HEADER = 18,        /* the first line is another one */
    GOI_FAULT_BAD_LINE = 19,          /* this line is another one */
    GOI_FAULT_NO_END = 20,            /* there is no line `end` */
    GOI_FAULT_NOT_OF_TERM = 21,       /* a sound net, and that of no program */
    GOI_FAULT_LOOSE_WIRE = 22,        /* wire N has not two ends */
    GOI_FAULT_TYPE_CLASH = 23,        /* the wires of node N have other types */
    GOI_FAULT_DEPTH_CLASH = 24,       /* the wires of node N are at other depths */
    GOI_FAULT_ROOT_COUNT = 25,        /* the net has N roots */
    GOI_FAULT_TICKET_TOO_WIDE = 26,   /* a ticket above 2^32 - 1 */
    GOI_FAULT_NOT_LIVE = 27,          /* entry N has a ticket that is not live */
    GOI_FAULT_AFTER_ANSWER = 28       /* entry N comes behind the answer */
};

/* Runs the program within a budget of moves, and tells in numbers what it came to.
 *
 * GOI_OK: `answer` has the program's value, by name or with GOI_BY_VALUE by value, and the number of moves of its run, which is at most
 * the budget. GOI_NO_VALUE: the run has no answer within the budget, and `answer` has the budget as its moves. GOI_REFUSED: `out` has
 * the line of the first fault, as in "refused: Unexpected(0)\n", without a NUL behind it. Wherever there is no value, `answer` has
 * kind GOI_NONE and value 0. *needed is how long the line is, and 0 where there is none. (CallsTell) */
goi_status goi_tell(const void *text, size_t text_size, uint32_t budget, uint32_t flags, goi_answer *answer, void *out, size_t out_size,
                    size_t *needed);

/* Runs the function of a text at each row of `arguments` numbers, within a budget of moves for each row, and tells in numbers what each
 * came to: answers[i] is that of the numbers from values[i * arguments] on. The text is read, typed and built once, at each call.
 *
 * GOI_OK: each of the `rows` answers has what goi_tell tells of the text `(F) v1 .. vn`: the value of the function at these numbers, by
 * name, with the number of moves of its run. GOI_NO_VALUE: so it is, and a row has no value within the budget: its answer has kind
 * GOI_NONE and the budget as its moves. GOI_REFUSED: the text has a fault, or is no function of type `nat -> .. -> nat` of so many numbers
 * (NotGround), or they are more than GOI_ARGUMENTS_MAX; `out` has the line. GOI_BAD_CALL: `values_count` isn't `arguments * rows`, or
 * the budget is outside its range. Where no row was run, and with GOI_NO_MEMORY, each answer has kind GOI_NONE, value 0 and no moves.
 * (CallsEach) */
goi_status goi_tell_each(const void *text, size_t text_size, uint32_t arguments, const uint64_t *values, size_t values_count,
                         uint32_t budget, goi_answer *answers, size_t rows, void *out, size_t out_size, size_t *needed);

/* Runs the program, and gives back what `goi run` prints: "value 6\nmoves 30\n", or "no value\nmoves 10000\n" with GOI_NO_VALUE, and
 * behind it the schedule where the flags ask for it. Below, `out` is filled in the same way: whole, from its start, with *needed the
 * length; or not at all, with GOI_NO_ROOM and *needed the length that is wanted. The bytes behind the text stay. (CallsRun) */
goi_status goi_run(const void *text, size_t text_size, uint32_t budget, uint32_t flags, void *out, size_t out_size, size_t *needed);

/* Runs the program, and gives back what `goi trace` prints with `--from` and `--most`: the two lines of goi_run, and behind them the
 * trace of the run from move `from` on, counted from 0, of at most `most` moves. The flags are 0 or GOI_BY_VALUE. (CallsTrace) */
goi_status goi_trace(const void *text, size_t text_size, uint32_t budget, uint32_t flags, uint32_t from, uint32_t most, void *out,
                     size_t out_size, size_t *needed);

/* Does what goi_run does for the program whose net the text lists, as `goi run-net`. (CallsListed) */
goi_status goi_run_net(const void *text, size_t text_size, uint32_t budget, bool schedule, void *out, size_t out_size, size_t *needed);

/* Gives back the program's type, as in "type nat -> nat\n", and with `term` the program itself, as `goi check` does. (CallsTask) */
goi_status goi_check(const void *text, size_t text_size, bool term, void *out, size_t out_size, size_t *needed);

/* Gives back the listing of the program's net, as `goi net` does. (CallsTask) */
goi_status goi_net(const void *text, size_t text_size, void *out, size_t out_size, size_t *needed);

/* Runs a schedule, as goi_run tells it, on the net of the program, as `goi replay` does. (CallsReplay) */
goi_status goi_replay(const void *text, size_t text_size, const void *schedule, size_t schedule_size, void *out, size_t out_size,
                      size_t *needed);

/* Does what goi_replay does, and gives back behind the two lines the trace of the schedule's moves from move `from` on, counted from 0, of
 * at most `most` moves, as `goi replay --trace` does. (CallsReplayTrace) */
goi_status goi_replay_trace(const void *text, size_t text_size, const void *schedule, size_t schedule_size, uint32_t from, uint32_t most,
                            void *out, size_t out_size, size_t *needed);

/* Runs the program in rounds, and gives back what `goi span` prints: its value, its moves, its rounds and their greatest width, with
 * GOI_PROFILE a line for each round, and with GOI_SCHEDULE the schedule of the rounds. The flags are a sum of GOI_BY_VALUE and these two.
 * (CallsSpan) */
goi_status goi_span(const void *text, size_t text_size, uint32_t budget, uint32_t flags, void *out, size_t out_size, size_t *needed);

/* Rewrites the program by name, at most `budget` steps, and gives back what `goi steps` prints: the value or `no value`, the number of steps,
 * and the terms from step `from` on, counted from 0, of at most `most` steps, each with the part that is rewritten next. (CallsSteps) */
goi_status goi_steps(const void *text, size_t text_size, uint32_t budget, uint32_t from, uint32_t most, void *out, size_t out_size,
                     size_t *needed);

/* Gives back the circuit of the program's net, with so many cells and forks, as `goi circuit` prints it: of a function of numbers it has a
 * port for each argument. What has a fault for it has the same one as GOI_AS_NUMBER. (CallsCircuit) */
goi_status goi_circuit(const void *text, size_t text_size, uint32_t cells, uint32_t forks, void *out, size_t out_size, size_t *needed);

/* Tells the first fault of a text in numbers, as what it is taken for (GOI_AS_..): that of the line which the calls give for it. GOI_OK: it
 * has none. GOI_REFUSED or GOI_BAD_FILE: `fault` has it. With GOI_OK and GOI_NO_MEMORY `fault` has no fault: status and kind 0, and no
 * place. No more than one move of a program is made. (CallsFind, LinesOfMarks) */
goi_status goi_find_fault(const void *text, size_t text_size, uint32_t taken, goi_fault *fault);

/* Does the same for a program's text, or else for a schedule that is to be run on the program's net, as goi_replay. (CallsFindSchedule) */
goi_status goi_find_schedule_fault(const void *text, size_t text_size, const void *schedule, size_t schedule_size, goi_fault *fault);

/* The version of the library, as GOI_VERSION_NUMBER has it. (version) */
uint32_t goi_version(void);

/* Gives back the library's name and version in a line of less than GOI_LINE_SIZE bytes, as in "goi 1.1.0\n". (version_text)
 * By which kit a library was proved and built is told by `pkg-config --variable=kit goi`. */
goi_status goi_version_text(void *out, size_t out_size, size_t *needed);

#ifdef __cplusplus
}
#endif

/* The same for C++11: faults are thrown, and a function of numbers is an object. Each call has the stack of its caller. */
#if defined(__cplusplus) && __cplusplus >= 201103L
#include <initializer_list>
#include <new>
#include <stdexcept>
#include <string>
#include <utility>
#include <vector>

namespace goi {

/* The program has a fault. what() is its line without "refused: ", as in "Unexpected(0)", and fault has it in numbers. */
class refused : public std::runtime_error {
public:
    refused(const std::string &line, const goi_fault &found) : std::runtime_error(line), fault(found) {}
    const goi_fault fault;
};

/* Throws what a status says: refused, std::bad_alloc for no memory, std::invalid_argument for a number outside its range. */
inline void judge(goi_status status, const std::string &text, uint32_t taken, const char *line, size_t size) {
    if (status == GOI_NO_MEMORY) throw std::bad_alloc();
    if (status == GOI_BAD_CALL) throw std::invalid_argument("goi: a number is outside its range");
    if (status != GOI_REFUSED) return;
    goi_fault fault;
    if (goi_find_fault(text.data(), text.size(), taken, &fault) == GOI_NO_MEMORY) throw std::bad_alloc();
    throw refused(std::string(line, size).substr(9, size - 10), fault);
}

/* What the program comes to. */
inline goi_answer tell(const std::string &text, uint32_t budget = GOI_BUDGET, bool by_value = false) {
    goi_answer answer;
    char line[GOI_LINE_SIZE];
    size_t needed;
    goi_status status = goi_tell(text.data(), text.size(), budget, by_value ? GOI_BY_VALUE : 0u, &answer, line, sizeof line, &needed);
    judge(status, text, by_value ? GOI_AS_BY_VALUE : GOI_AS_NUMBER, line, needed);
    return answer;
}

/* A text of type `nat -> .. -> nat`, of so many numbers. It is looked at when it is made, and read again at each call of `each`. */
class function {
public:
    function(std::string text, uint32_t arguments) : text_(std::move(text)), arguments_(arguments) { each({}); }

    /* What it comes to at these rows, one behind the other. */
    std::vector<goi_answer> each(const std::vector<uint64_t> &values, uint32_t budget = GOI_BUDGET) const {
        return rows(values, arguments_ == 0 ? 0 : values.size() / arguments_, budget);
    }

    /* What it comes to at these numbers. */
    goi_answer operator()(std::initializer_list<uint64_t> numbers, uint32_t budget = GOI_BUDGET) const {
        return rows(std::vector<uint64_t>(numbers), 1, budget)[0];
    }

private:
    std::vector<goi_answer> rows(const std::vector<uint64_t> &values, size_t count, uint32_t budget) const {
        std::vector<goi_answer> answers(count);
        char line[GOI_LINE_SIZE];
        size_t needed;
        uint64_t none = 0;
        goi_answer no_answer;
        goi_status status =
            goi_tell_each(text_.data(), text_.size(), arguments_, values.empty() ? &none : values.data(), values.size(), budget,
                          answers.empty() ? &no_answer : answers.data(), count, line, sizeof line, &needed);
        judge(status, text_, GOI_AS_FUNCTION(arguments_), line, needed);
        return answers;
    }

    std::string text_;
    uint32_t arguments_;
};

} /* namespace goi */
#endif

#endif
