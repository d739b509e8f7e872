/* A mutator that knows the listing of a net: it changes a wire, a node or their order, and numbers the lines anew, so that what comes of it
 * is a listing again, and most of the time one that is read to its end. Other inputs are left to the fuzzer's own. */
#include "fuzzing.h"
#include "inputs.h"
#include <stdio.h>
#include <stdlib.h>
#include <string.h>

size_t LLVMFuzzerMutate(uint8_t *data, size_t size, size_t most);
size_t LLVMFuzzerCustomMutator(uint8_t *data, size_t size, size_t most, unsigned seed);

enum { LINES = 2000, NUMBERS = 4 };

typedef struct {
    const char *at;
    size_t size;
} word;

typedef struct {
    word kind, type;
    unsigned depth;
} wire;

/* A node's numbers are wires, but the first one of a Const, which is its value. */
typedef struct {
    word name;
    unsigned long numbers[NUMBERS];
    unsigned count;
} node;

static struct {
    wire wires[LINES];
    node nodes[LINES];
    unsigned wire_count, node_count;
} net;
static unsigned state;

static unsigned below(unsigned most) {
    state = state * 1103515245u + 12345u;
    return most ? (state >> 8) % most : 0;
}

static bool is(word it, const char *name) {
    return it.size == strlen(name) && !memcmp(it.at, name, it.size);
}

static word named(const char *name) {
    return (word){name, strlen(name)};
}

/* ---- reading and printing */

static word next_word(const char **at, const char *end) {
    const char *from = *at;
    while (*at < end && **at != ' ' && **at != '\n') ++*at;
    word found = {from, (size_t)(*at - from)};
    if (*at < end && **at == ' ') ++*at;
    return found;
}

static bool number_in(word it, unsigned long *number) {
    char digits[24], *end;
    if (!it.size || it.size >= sizeof digits) return false;
    memcpy(digits, it.at, it.size);
    digits[it.size] = 0;
    *number = strtoul(digits, &end, 10);
    return !*end;
}

/* Reads a listing into `net`; whether it is one, as far as its lines go. */
static bool read_net(const char *at, const char *end) {
    unsigned long number;
    if (end - at < 6 || memcmp(at, "net 1\n", 6)) return false;
    at += 6;
    net.wire_count = net.node_count = 0;
    while (at < end) {
        word first = next_word(&at, end);
        if (is(first, "end")) return true;
        if (!number_in(next_word(&at, end), &number)) return false;
        if (is(first, "wire") && net.wire_count < LINES - 2) {
            wire *it = &net.wires[net.wire_count++];
            it->kind = next_word(&at, end);
            if (!number_in(next_word(&at, end), &number)) return false;
            it->depth = number;
            it->type = (word){at, 0};
            while (at < end && *at != '\n') at++;
            it->type.size = (size_t)(at - it->type.at);
        } else if (is(first, "node") && net.node_count < LINES - 2) {
            node *it = &net.nodes[net.node_count++];
            it->name = next_word(&at, end);
            for (it->count = 0; at < end && *at != '\n' && it->count < NUMBERS; it->count++)
                if (!number_in(next_word(&at, end), &it->numbers[it->count])) return false;
        } else {
            return false;
        }
        if (at < end && *at == '\n') at++;
    }
    return false;
}

/* Prints `net`; its length, or 0 where it is too long. */
static size_t print_net(char *to, size_t most) {
    size_t n = snprintf(to, most, "net 1\n");
    for (unsigned k = 0; k < net.wire_count; k++) {
        wire *it = &net.wires[k];
        if (n + it->type.size + it->kind.size + 64 > most) return 0;
        n += sprintf(to + n, "wire %u %.*s %u %.*s\n", k, (int)it->kind.size, it->kind.at, it->depth, (int)it->type.size, it->type.at);
    }
    for (unsigned k = 0; k < net.node_count; k++) {
        node *it = &net.nodes[k];
        if (n + it->name.size + 200 > most) return 0;
        n += sprintf(to + n, "node %u %.*s", k, (int)it->name.size, it->name.at);
        for (unsigned i = 0; i < it->count; i++) n += sprintf(to + n, " %lu", it->numbers[i]);
        n += sprintf(to + n, "\n");
    }
    if (n + 4 > most) return 0;
    return n + sprintf(to + n, "end\n");
}

/* ---- changes */

static unsigned first_wire(const node *it) {
    return is(it->name, "Const") ? 1 : 0;
}

/* Numbers all wires from `from` on up or down by one in the nodes. */
static void renumber(unsigned from, int by) {
    for (unsigned k = 0; k < net.node_count; k++)
        for (unsigned i = first_wire(&net.nodes[k]); i < net.nodes[k].count; i++)
            if (net.nodes[k].numbers[i] >= from) net.nodes[k].numbers[i] += by;
}

static void add_wire(unsigned at, wire it) {
    memmove(&net.wires[at + 1], &net.wires[at], (net.wire_count++ - at) * sizeof it);
    net.wires[at] = it;
    renumber(at, 1);
}

static void add_node(unsigned at, node it) {
    memmove(&net.nodes[at + 1], &net.nodes[at], (net.node_count++ - at) * sizeof it);
    net.nodes[at] = it;
}

/* Puts a Succ or a Pred behind a node whose last wire is a number's: what reads that wire reads the new one. */
static void add_step(unsigned at) {
    node *before = &net.nodes[at];
    unsigned long old = before->count ? before->numbers[before->count - 1] : 0;
    if (!before->count || old >= net.wire_count || !is(net.wires[old].type, "nat")) return;
    add_wire(old + 1, net.wires[old]);
    for (unsigned k = 0; k < net.node_count; k++)
        for (unsigned i = first_wire(&net.nodes[k]); k != at && i < net.nodes[k].count; i++)
            if (net.nodes[k].numbers[i] == old) net.nodes[k].numbers[i] = old + 1;
    add_node(at + 1, (node){named(below(2) ? "Succ" : "Pred"), {old, old + 1}, 2});
}

/* Exchanges the numbers of two wires everywhere: the same net, listed in another order. */
static void exchange_wires(unsigned a, unsigned b) {
    wire it = net.wires[a];
    net.wires[a] = net.wires[b], net.wires[b] = it;
    for (unsigned k = 0; k < net.node_count; k++)
        for (unsigned i = first_wire(&net.nodes[k]); i < net.nodes[k].count; i++) {
            unsigned long *n = &net.nodes[k].numbers[i];
            *n = *n == a ? b : *n == b ? a : *n;
        }
}

static void change_wire(wire *it) {
    static const char *const kinds[] = {"value", "bang", "var"};
    static const char *const types[] = {"nat", "nat -> nat", "nat * nat", "(nat -> nat) -> nat", "nat -> nat -> nat"};
    switch (below(4)) {
    case 0: it->kind = named(kinds[below(3)]); break;
    case 1: it->type = below(2) ? net.wires[below(net.wire_count)].type : named(types[below(5)]); break;
    default: it->depth += below(2) ? 1 : -1;
    }
}

static void change_node(node *it) {
    static const char *const names[] = {"Const", "Succ", "Pred", "Plus", "Minus", "Times", "Ifz", "Der", "Con", "Weak",
                                        "Lam", "App", "Box", "Door", "FixBox", "Pair", "Fst", "Snd", "Root"};
    /* of the same number of wires, so that the net stays whole, every other time */
    static const char *const pairs[] = {"Plus", "Minus", "Times"}, *const steps[] = {"Succ", "Pred"}, *const sides[] = {"Fst", "Snd"};
    unsigned i = below(it->count);
    switch (below(6)) {
    case 0: it->name = named(names[below(sizeof names / sizeof *names)]); break;
    case 1: case 2:
        if (is(it->name, "Plus") || is(it->name, "Minus") || is(it->name, "Times")) it->name = named(pairs[below(3)]);
        else if (is(it->name, "Succ") || is(it->name, "Pred")) it->name = named(steps[below(2)]);
        else if (is(it->name, "Fst") || is(it->name, "Snd")) it->name = named(sides[below(2)]);
        else if (is(it->name, "Const")) it->numbers[0] = below(2) ? below(20) : ~0ul - below(2);
        break;
    case 3:
        if (it->count) it->numbers[i] = below(net.wire_count + 1);
        break;
    case 4:
        if (it->count) it->numbers[i] += below(2) ? 1 : -1;
        break;
    default:
        if (it->count > 1) {
            unsigned long first = it->numbers[0];
            it->numbers[0] = it->numbers[it->count - 1], it->numbers[it->count - 1] = first;
        }
    }
}

static void change(void) {
    unsigned w = below(net.wire_count), n = below(net.node_count), other = below(net.node_count);
    node it = net.nodes[n];
    switch (below(9)) {
    case 0: change_wire(&net.wires[w]); break;
    case 1: case 2: case 3: change_node(&net.nodes[n]); break;
    case 4: exchange_wires(w, below(net.wire_count)); break;
    case 5: net.nodes[n] = net.nodes[other], net.nodes[other] = it; break;
    case 6: case 7: add_step(n); break;
    default:
        if (below(2)) add_node(other, it);
        else if (net.node_count > 1) memmove(&net.nodes[n], &net.nodes[n + 1], (--net.node_count - n) * sizeof it);
    }
}

size_t LLVMFuzzerCustomMutator(uint8_t *data, size_t size, size_t most, unsigned seed) {
    static char printed[1 << 20];
    state = seed;
    if (size > HEAD && data[0] % WHATS == A_LISTING && below(8)) {
        const char *text = (const char *)data + HEAD;
        if (read_net(text, text + size - HEAD) && net.wire_count && net.node_count) {
            for (unsigned k = below(3) + 1; k; k--) change();
            size_t n = print_net(printed, sizeof printed);
            if (n && n + HEAD <= most) {
                memcpy(data + HEAD, printed, n);
                return HEAD + n;
            }
        }
    }
    return LLVMFuzzerMutate(data, size, most);
}
