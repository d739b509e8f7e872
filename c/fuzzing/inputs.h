/* The first byte of an input says what is tried. c/fuzz makes its seeds by the same numbers. */
#ifndef INPUTS_H
#define INPUTS_H

enum { A_PROGRAM, A_LISTING, A_SCHEDULE, SOME_NUMBERS, NO_MEMORY, A_FUNCTION, WHATS };
enum { HEAD = 4 };

#endif
