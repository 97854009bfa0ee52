/*
 * The library's functions on a processor that is not x86-64, for the tests: each call is laid out
 * on the desk and answered by far.c, which runs under an emulator.
 */
#define _GNU_SOURCE
#include "desk.h"

#include <fcntl.h>
#include <pthread.h>
#include <stdio.h>
#include <stdlib.h>
#include <string.h>
#include <sys/mman.h>
#include <unistd.h>

/* A far program, its desk, and whose turn it is. */
typedef struct {
    pthread_mutex_t turn;
    desk *between;
    int ask, hear;
} side;

/* Two, so that the tests of two threads do not wait for each other. */
static side sides[2] = {{.turn = PTHREAD_MUTEX_INITIALIZER}, {.turn = PTHREAD_MUTEX_INITIALIZER}};

static void must(int holds, const char *what)
{
    if (holds)
        return;
    fprintf(stderr, "the library under the emulator: %s\n", what);
    abort();
}

/* In the child: RUN runs FAR, which finds its turns on 0 and 1 and the desk on DESK_FILE. */
static void begin_far(int shared, int asked, int heard)
{
    if (dup2(shared, DESK_FILE) == DESK_FILE && dup2(asked, 0) == 0 && dup2(heard, 1) == 1)
        execl(RUN, RUN, FAR, (char *)NULL);
    _exit(1);
}

/* A file under a number above those that the child gives away. */
static int above(int file)
{
    int moved = fcntl(file, F_DUPFD_CLOEXEC, DESK_FILE + 1);
    must(moved > DESK_FILE, "no number for a file");
    close(file);
    return moved;
}

static void begin(side *s)
{
    int there[2], back[2];
    int shared = above(memfd_create("desk", MFD_CLOEXEC));
    must(ftruncate(shared, sizeof *s->between) == 0, "no shared memory");
    s->between = mmap(NULL, sizeof *s->between, PROT_READ | PROT_WRITE, MAP_SHARED, shared, 0);
    must(s->between != MAP_FAILED, "no shared memory");
    must(pipe2(there, O_CLOEXEC) == 0 && pipe2(back, O_CLOEXEC) == 0, "no pipe");
    int asked = above(there[0]), heard = above(back[1]);
    pid_t child = fork();
    must(child >= 0, "not begun");
    if (child == 0)
        begin_far(shared, asked, heard);
    close(asked);
    close(heard);
    close(shared);
    s->ask = there[1];
    s->hear = back[0];
}

/* A side for one call alone: the first, or the second where the first is taken. */
static side *taken(void)
{
    side *s = pthread_mutex_trylock(&sides[0].turn) == 0 ? &sides[0] : &sides[1];
    if (s == &sides[1])
        pthread_mutex_lock(&s->turn);
    if (s->between == NULL)
        begin(s);
    return s;
}

static void lend(lent *to, const uint8_t *from, size_t length)
{
    must(length <= ROOM, "a slice is too long for the desk");
    to->start = GUARD + (uintptr_t)from % 8;
    to->length = length;
    memset(to->bytes, GUARD_BYTE, to->start);
    memset(to->bytes + to->start + length, GUARD_BYTE, GUARD);
    if (length > 0)
        memcpy(to->bytes + to->start, from, length);
}

static int all_guard(const uint8_t *bytes, size_t length)
{
    size_t same = 0;
    while (same < length && bytes[same] == GUARD_BYTE)
        same++;
    return same == length;
}

/* The bytes come back whatever the call was declared to do with them. */
static void give_back(const lent *from, const uint8_t *to)
{
    const uint8_t *bytes = from->bytes + from->start;
    must(all_guard(from->bytes, from->start), "it wrote before a slice");
    must(all_guard(bytes + from->length, GUARD), "it wrote behind a slice");
    if (from->length > 0 && memcmp(to, bytes, from->length) != 0)
        memcpy((uint8_t *)to, bytes, from->length);
}

static answer both(call c, const uint8_t *bytes, size_t length, const uint8_t *list,
                   size_t list_length, const uint64_t *numbers, size_t count)
{
    char token = 0;
    side *s = taken();
    desk *between = s->between;
    between->call = c;
    memcpy(between->numbers, numbers, count * sizeof *numbers);
    lend(&between->slices[0], bytes, length);
    lend(&between->slices[1], list, list_length);
    must(write(s->ask, &token, 1) == 1 && read(s->hear, &token, 1) == 1, "it ended");
    answer given = between->answer;
    give_back(&between->slices[0], bytes);
    give_back(&between->slices[1], list);
    pthread_mutex_unlock(&s->turn);
    return given;
}

/* A call with one slice and plain numbers, a negative one as its 64 bits. */
#define ASK(call, bytes, length, ...)                                                             \
    both(call, bytes, length, NULL, 0, (const uint64_t[]){__VA_ARGS__},                           \
         sizeof((const uint64_t[]){__VA_ARGS__}) / sizeof(uint64_t))
#define PLACE book, series, set, point
#define READING (uint64_t)x, (uint64_t)y, (uint64_t)h

uint64_t rtk_length(void)
{
    return ASK(LENGTH, NULL, 0, 0).number;
}

uint64_t rtk_check(const uint8_t *register_, size_t length)
{
    return ASK(CHECK, register_, length, 0).number;
}

uint64_t rtk_fresh(uint8_t *register_, size_t length)
{
    return ASK(FRESH, register_, length, 0).number;
}

uint64_t rtk_open(uint8_t *register_, size_t length, uint64_t book, int64_t d, int64_t h,
                  int64_t s_xy, int64_t s_h, int64_t sigma_xy, int64_t sigma_h, int64_t x1,
                  int64_t y1, int64_t h1, int64_t x2, int64_t y2, int64_t h2)
{
    return ASK(OPEN, register_, length, book, (uint64_t)d, (uint64_t)h, (uint64_t)s_xy,
               (uint64_t)s_h, (uint64_t)sigma_xy, (uint64_t)sigma_h, (uint64_t)x1, (uint64_t)y1,
               (uint64_t)h1, (uint64_t)x2, (uint64_t)y2, (uint64_t)h2)
        .number;
}

uint64_t rtk_strike(uint8_t *register_, size_t length, uint64_t book)
{
    return ASK(STRIKE, register_, length, book).number;
}

uint64_t rtk_enter(uint8_t *register_, size_t length, uint64_t book, uint64_t series, uint64_t set,
                   uint64_t point, int64_t x, int64_t y, int64_t h)
{
    return ASK(ENTER, register_, length, PLACE, READING).number;
}

uint64_t rtk_correct(uint8_t *register_, size_t length, uint64_t book, uint64_t series,
                     uint64_t set, uint64_t point, int64_t x, int64_t y, int64_t h)
{
    return ASK(CORRECT, register_, length, PLACE, READING).number;
}

uint64_t rtk_withdraw(uint8_t *register_, size_t length, uint64_t book, uint64_t series,
                      uint64_t set, uint64_t point)
{
    return ASK(WITHDRAW, register_, length, PLACE).number;
}

uint64_t rtk_take_back(uint8_t *register_, size_t length, uint64_t book)
{
    return ASK(TAKE_BACK, register_, length, book).number;
}

rtk_lengths rtk_read(const uint8_t *register_, size_t length, uint64_t book, uint64_t series,
                     uint64_t set, uint64_t point)
{
    return ASK(READ, register_, length, PLACE).lengths;
}

rtk_lengths rtk_residual(const uint8_t *register_, size_t length, uint64_t book, uint64_t series,
                         uint64_t set, uint64_t point)
{
    return ASK(RESIDUAL, register_, length, PLACE).lengths;
}

rtk_count rtk_changes(const uint8_t *register_, size_t length, uint64_t book)
{
    return ASK(CHANGES, register_, length, book).count;
}

rtk_evaluation rtk_evaluate(const uint8_t *register_, size_t length, uint64_t book)
{
    return ASK(EVALUATE, register_, length, book).evaluation;
}

rtk_comparison rtk_compare(const uint8_t *register_, size_t length, uint64_t first,
                           uint64_t second, uint64_t axis)
{
    return ASK(COMPARE, register_, length, first, second, axis).comparison;
}

rtk_count rtk_pass_list(const uint8_t *register_, size_t length, uint8_t *list, size_t list_length)
{
    return both(PASS_LIST, register_, length, list, list_length, NULL, 0).count;
}

rtk_evaluation rtk_evaluate_file(const uint8_t *file, size_t length)
{
    return ASK(EVALUATE_FILE, file, length, 0).evaluation;
}
