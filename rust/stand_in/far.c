/* The x86-64 side: has the library answer each call that is laid out on the desk. */
#include "desk.h"

/* What the C library gives, declared here: its headers are those of another processor. */
extern long read(int file, void *to, size_t length);
extern long write(int file, const void *from, size_t length);
extern void *mmap(void *at, size_t length, int may, int how, int file, long from);

#define READ_AND_WRITE 3
#define SHARED 1

/* The calls on a register that give a number. */
static uint64_t number(const desk *d, uint8_t *r, size_t n)
{
    const uint64_t *w = d->numbers;
    const int64_t *i = (const int64_t *)w;
    switch ((call)d->call) {
    case LENGTH: return rtk_length();
    case CHECK: return rtk_check(r, n);
    case FRESH: return rtk_fresh(r, n);
    case OPEN:
        return rtk_open(r, n, w[0], i[1], i[2], i[3], i[4], i[5], i[6], i[7], i[8], i[9], i[10],
                        i[11], i[12]);
    case STRIKE: return rtk_strike(r, n, w[0]);
    case ENTER: return rtk_enter(r, n, w[0], w[1], w[2], w[3], i[4], i[5], i[6]);
    case CORRECT: return rtk_correct(r, n, w[0], w[1], w[2], w[3], i[4], i[5], i[6]);
    case WITHDRAW: return rtk_withdraw(r, n, w[0], w[1], w[2], w[3]);
    case TAKE_BACK: return rtk_take_back(r, n, w[0]);
    default: __builtin_trap();
    }
}

static answer answered(desk *d)
{
    const uint64_t *w = d->numbers;
    lent *first = &d->slices[0], *list = &d->slices[1];
    uint8_t *r = first->bytes + first->start;
    size_t n = first->length;
    switch ((call)d->call) {
    case READ: return (answer){.lengths = rtk_read(r, n, w[0], w[1], w[2], w[3])};
    case RESIDUAL: return (answer){.lengths = rtk_residual(r, n, w[0], w[1], w[2], w[3])};
    case CHANGES: return (answer){.count = rtk_changes(r, n, w[0])};
    case EVALUATE: return (answer){.evaluation = rtk_evaluate(r, n, w[0])};
    case COMPARE: return (answer){.comparison = rtk_compare(r, n, w[0], w[1], w[2])};
    case PASS_LIST:
        return (answer){.count = rtk_pass_list(r, n, list->bytes + list->start, list->length)};
    case EVALUATE_FILE: return (answer){.evaluation = rtk_evaluate_file(r, n)};
    default: return (answer){.number = number(d, r, n)};
    }
}

int main(void)
{
    desk *d = mmap(0, sizeof *d, READ_AND_WRITE, SHARED, DESK_FILE, 0);
    char turn;
    if (d == (void *)-1)
        return 1;
    while (read(0, &turn, 1) == 1) {
        d->answer = answered(d);
        if (write(1, &turn, 1) != 1)
            return 1;
    }
    return 0;
}
