/*
 * The register of RTK field tests: sixteen books in one lent slice of RTK_LENGTH bytes.
 *
 * Lengths are whole numbers of 0.1 mm ("units"), figures are millimetres. A slice is a pointer
 * and a length; it is lent for the one call, at any address, and may hold anything. Every call
 * on a register looks at its form first, but for rtk_fresh, which looks at its length alone. A
 * refused call changes no byte of register or list.
 *
 * The caller sees to it that the bytes of a slice can be read for all of its length, and written
 * where the pointer is not to const; that no pointer is NULL, not even one with a length of 0;
 * that register and list have no byte in common; and that during a call nobody else writes to its
 * slices, nor reads those that it may write. The library keeps nothing between calls: on
 * different registers they can run side by side, and so can calls that only read the same one.
 *
 * A call gives RTK_ACCEPTED or the number of its refusal. In a record every field beside a
 * refusal is 0, but for series, set and quantity beside RTK_SUSPECT.
 */
#ifndef MELIPHRAST_H
#define MELIPHRAST_H

#include <stddef.h>
#include <stdint.h>

#ifdef __cplusplus
extern "C" {
#endif

/* The published length of a register in bytes, and its books, numbered from 1. */
#define RTK_LENGTH 29696
#define RTK_BOOKS 16

/* Where several refusals apply to a call on a register the lowest number is given; a file meets
 * RTK_FORM, RTK_TERMS, RTK_FAR, RTK_SHORT, RTK_SUSPECT in that order. */
enum {
    RTK_ACCEPTED = 0,
    RTK_REGISTER = 1, /* wrong length, or not in form */
    RTK_PLACE = 2,    /* book not 1 to 16, place out of range, or axis not 1 or 2 */
    RTK_OPEN = 3,     /* opening an open book */
    RTK_TERMS = 4,    /* a term out of its range */
    RTK_CLOSED = 5,   /* any other call on a closed book */
    RTK_FILLED = 6,   /* entering at a filled place */
    RTK_EMPTY = 7,    /* correcting, withdrawing or reading an empty place */
    RTK_FAR = 8,      /* a coordinate more than 100,000 from its point */
    RTK_NOTHING = 9,  /* taking back when there is no change to take back */
    RTK_SHORT = 10,   /* residual, evaluation or comparison with any of 30 places empty */
    RTK_SUSPECT = 11, /* evaluation or comparison of a book that fails screening */
    RTK_ZERO = 12,    /* comparison whose second book has sum 0 on that axis */
    RTK_ROOM = 13,    /* list shorter than the number of books on it */
    RTK_FORM = 14     /* file not of the form */
};

/* The axis of a comparison. */
enum { RTK_XY = 1, RTK_H = 2 };

/* The quantity beside RTK_SUSPECT. */
enum { RTK_DISTANCE = 1, RTK_HEIGHT = 2 };

/* A reading, or fifteen times a residual, in units. */
typedef struct {
    uint64_t refusal;
    int64_t x;
    int64_t y;
    int64_t h;
} rtk_lengths;

typedef struct {
    uint64_t refusal;
    uint64_t count;
} rtk_count;

/* The candidate's sheet: four deviations in millimetres. */
typedef struct {
    double s_x;
    double s_y;
    double s_xy;
    double s_h;
} rtk_sheet;

/* One verdict: 1 within or 0 beyond, and two figures that show it and do not decide it. */
typedef struct {
    uint64_t within;
    double deviation;
    double bound;
} rtk_mark;

typedef struct {
    uint64_t refusal;
    uint64_t series;
    uint64_t set;
    uint64_t quantity;
    rtk_sheet sheet;
    rtk_mark xy;
    rtk_mark h;
} rtk_evaluation;

/* 1 the same population, 0 not the same. */
typedef struct {
    uint64_t refusal;
    uint64_t series;
    uint64_t set;
    uint64_t quantity;
    uint64_t same;
} rtk_comparison;

/* RTK_LENGTH, asked of the library. */
uint64_t rtk_length(void);

/* The form check apart: RTK_ACCEPTED or RTK_REGISTER. */
uint64_t rtk_check(const uint8_t *register_, size_t length);

/* Closes every book, whatever the bytes held before; meets only a wrong length. */
uint64_t rtk_fresh(uint8_t *register_, size_t length);

/* Opens a closed book with its terms: the nominal distance D* (1 to 500,000) and height
 * difference h* (-500,000 to 500,000), the screening's s and the stated sigmas (1 to 10,000),
 * and the approximate values of points 1 and 2 (-100,000,000,000 to 100,000,000,000, on each
 * axis at most 500,000 apart). */
uint64_t rtk_open(uint8_t *register_, size_t length, uint64_t book, int64_t d, int64_t h,
                  int64_t s_xy, int64_t s_h, int64_t sigma_xy, int64_t sigma_h, int64_t x1,
                  int64_t y1, int64_t h1, int64_t x2, int64_t y2, int64_t h2);

/* Closes an open book: readings and changes are gone, its number is free again. */
uint64_t rtk_strike(uint8_t *register_, size_t length, uint64_t book);

/* Enters a reading at an empty place: series 1 to 3, set 1 to 5, point 1 or 2. */
uint64_t rtk_enter(uint8_t *register_, size_t length, uint64_t book, uint64_t series,
                   uint64_t set, uint64_t point, int64_t x, int64_t y, int64_t h);

/* Corrects the reading at a filled place. */
uint64_t rtk_correct(uint8_t *register_, size_t length, uint64_t book, uint64_t series,
                     uint64_t set, uint64_t point, int64_t x, int64_t y, int64_t h);

/* Withdraws the reading at a filled place. */
uint64_t rtk_withdraw(uint8_t *register_, size_t length, uint64_t book, uint64_t series,
                      uint64_t set, uint64_t point);

/* Takes back the latest change not yet taken back; the latest 32 are kept for it. */
uint64_t rtk_take_back(uint8_t *register_, size_t length, uint64_t book);

/* The reading at a filled place. */
rtk_lengths rtk_read(const uint8_t *register_, size_t length, uint64_t book, uint64_t series,
                     uint64_t set, uint64_t point);

/* Fifteen times the residual, mean minus reading, at a place of a full book. */
rtk_lengths rtk_residual(const uint8_t *register_, size_t length, uint64_t book,
                         uint64_t series, uint64_t set, uint64_t point);

/* How many changes can be taken back, 0 to 32. */
rtk_count rtk_changes(const uint8_t *register_, size_t length, uint64_t book);

/* The figures and verdicts of a full book. */
rtk_evaluation rtk_evaluate(const uint8_t *register_, size_t length, uint64_t book);

/* The first book against the second on RTK_XY or RTK_H. */
rtk_comparison rtk_compare(const uint8_t *register_, size_t length, uint64_t first,
                           uint64_t second, uint64_t axis);

/* Writes the numbers of the books that pass, rising, one byte each, from the list's start, and
 * counts them; the bytes behind them stay. RTK_BOOKS bytes always have room. */
rtk_count rtk_pass_list(const uint8_t *register_, size_t length, uint8_t *list,
                        size_t list_length);

/* Reads a field file of any bytes and evaluates it; touches no register. */
rtk_evaluation rtk_evaluate_file(const uint8_t *file, size_t length);

#ifdef __cplusplus
}
#endif

#endif
