/*
 * What lies between a caller on another processor and the library, which is x86-64 code: one desk
 * of shared memory. near.c lays a call out on it, far.c has the library answer it there.
 */
#ifndef DESK_H
#define DESK_H

#include "meliphrast.h"

/* Room for a slice of any length that the tests lend, and the bytes around it that must stay. */
#define ROOM (1 << 20)
#define GUARD 64
#define GUARD_BYTE 0xA5

/* Where far.c finds the desk. */
#define DESK_FILE 3

/* The most plain numbers that a call takes: a book and its terms. */
#define NUMBERS 13

typedef enum {
    LENGTH, CHECK, FRESH, OPEN, STRIKE, ENTER, CORRECT, WITHDRAW, TAKE_BACK,
    READ, RESIDUAL, CHANGES, EVALUATE, COMPARE, PASS_LIST, EVALUATE_FILE
} call;

typedef union {
    uint64_t number;
    rtk_lengths lengths;
    rtk_count count;
    rtk_evaluation evaluation;
    rtk_comparison comparison;
} answer;

/* A lent slice, as far off a multiple of eight as the caller's. */
typedef struct {
    uint64_t start;
    uint64_t length;
    uint8_t bytes[GUARD + 8 + ROOM + GUARD];
} lent;

/* The second slice is the list. */
typedef struct {
    uint64_t call;
    uint64_t numbers[NUMBERS];
    answer answer;
    lent slices[2];
} desk;

#endif
