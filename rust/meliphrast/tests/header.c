/* Prints what the header says of records and numbers, then calls the library through it. */
#include "meliphrast.h"

#include <stdio.h>
#include <string.h>

#define SIZE(record) printf("%s %zu\n", #record, sizeof(record))
#define FIELD(record, field)                                                                      \
    printf("%s.%s %s %zu\n", #record, #field, TYPE(((record *)0)->field), offsetof(record, field))
/* A field's type by its Rust name. */
#define TYPE(field)                                                                               \
    _Generic((field), uint64_t: "u64", int64_t: "i64", double: "f64", rtk_sheet: "Sheet",         \
             rtk_mark: "Mark")
#define NUMBER(name) printf("%s %d\n", #name, (int)name)

static void records(void)
{
    SIZE(rtk_lengths);
    FIELD(rtk_lengths, refusal);
    FIELD(rtk_lengths, x);
    FIELD(rtk_lengths, y);
    FIELD(rtk_lengths, h);
    SIZE(rtk_count);
    FIELD(rtk_count, refusal);
    FIELD(rtk_count, count);
    SIZE(rtk_sheet);
    FIELD(rtk_sheet, s_x);
    FIELD(rtk_sheet, s_y);
    FIELD(rtk_sheet, s_xy);
    FIELD(rtk_sheet, s_h);
    SIZE(rtk_mark);
    FIELD(rtk_mark, within);
    FIELD(rtk_mark, deviation);
    FIELD(rtk_mark, bound);
}

static void answers(void)
{
    SIZE(rtk_evaluation);
    FIELD(rtk_evaluation, refusal);
    FIELD(rtk_evaluation, series);
    FIELD(rtk_evaluation, set);
    FIELD(rtk_evaluation, quantity);
    FIELD(rtk_evaluation, sheet);
    FIELD(rtk_evaluation, xy);
    FIELD(rtk_evaluation, h);
    SIZE(rtk_comparison);
    FIELD(rtk_comparison, refusal);
    FIELD(rtk_comparison, series);
    FIELD(rtk_comparison, set);
    FIELD(rtk_comparison, quantity);
    FIELD(rtk_comparison, same);
}

static void numbers(void)
{
    NUMBER(RTK_LENGTH);
    NUMBER(RTK_BOOKS);
    NUMBER(RTK_XY);
    NUMBER(RTK_H);
    NUMBER(RTK_DISTANCE);
    NUMBER(RTK_HEIGHT);
    NUMBER(RTK_REGISTER);
    NUMBER(RTK_PLACE);
    NUMBER(RTK_OPEN);
    NUMBER(RTK_TERMS);
    NUMBER(RTK_CLOSED);
    NUMBER(RTK_FILLED);
    NUMBER(RTK_EMPTY);
    NUMBER(RTK_FAR);
    NUMBER(RTK_NOTHING);
    NUMBER(RTK_SHORT);
    NUMBER(RTK_SUSPECT);
    NUMBER(RTK_ZERO);
    NUMBER(RTK_ROOM);
    NUMBER(RTK_FORM);
}

static uint8_t bytes[RTK_LENGTH];

/* Fills a book, every reading on its point but for x and h of the first one. */
static void fill(uint64_t book, int64_t first_x, int64_t first_h)
{
    uint64_t series, set, point;
    rtk_open(bytes, sizeof bytes, book, 100000, 0, 150, 250, 20, 20, 0, 0, 0, 100000, 0, 0);
    for (series = 1; series <= 3; series++)
        for (set = 1; set <= 5; set++)
            for (point = 1; point <= 2; point++)
                rtk_enter(bytes, sizeof bytes, book, series, set, point,
                          point == 1 ? 0 : 100000, 0, 0);
    rtk_correct(bytes, sizeof bytes, book, 1, 1, 1, first_x, 0, first_h);
}

static void show_mark(const char *axis, rtk_mark mark)
{
    printf("%s %s %.0f %.0f\n", axis, mark.within == 1 ? "WITHIN" : "BEYOND",
           mark.deviation * 1024, mark.bound * 1024);
}

static void calls(void)
{
    uint8_t list[RTK_BOOKS];
    rtk_evaluation evaluation;
    rtk_lengths lengths;
    memset(bytes, 170, sizeof bytes);
    printf("check %d\n", (int)rtk_check(bytes, sizeof bytes));
    printf("fresh %d\n", (int)rtk_fresh(bytes, sizeof bytes));
    fill(3, 126, 133);
    fill(16, 127, 100);
    evaluation = rtk_evaluate(bytes, sizeof bytes, 3);
    show_mark("XY", evaluation.xy);
    show_mark("H", evaluation.h);
    printf("sheet %.0f %.0f %.0f %.0f\n", evaluation.sheet.s_x * 1024,
           evaluation.sheet.s_y * 1024, evaluation.sheet.s_xy * 1024,
           evaluation.sheet.s_h * 1024);
    lengths = rtk_residual(bytes, sizeof bytes, 3, 1, 1, 1);
    printf("residual %d %d %d\n", (int)lengths.x, (int)lengths.y, (int)lengths.h);
    printf("compare %d\n", (int)rtk_compare(bytes, sizeof bytes, 3, 16, RTK_H).same);
    printf("list %d", (int)rtk_pass_list(bytes, sizeof bytes, list, sizeof list).count);
    printf(" %d\n", list[0]);
    rtk_withdraw(bytes, sizeof bytes, 3, 2, 4, 1);
    printf("short %d\n", (int)rtk_evaluate(bytes, sizeof bytes, 3).refusal);
    printf("changes %d\n", (int)rtk_changes(bytes, sizeof bytes, 3).count);
    rtk_take_back(bytes, sizeof bytes, 3);
    lengths = rtk_read(bytes, sizeof bytes, 3, 1, 1, 1);
    printf("read %d %d %d\n", (int)lengths.x, (int)lengths.y, (int)lengths.h);
    rtk_strike(bytes, sizeof bytes, 3);
    printf("closed %d\n", (int)rtk_read(bytes, sizeof bytes, 3, 1, 1, 1).refusal);
    printf("file %d\n", (int)rtk_evaluate_file(bytes, 5000).refusal);
    printf("length %d\n", (int)rtk_length());
}

int main(void)
{
    records();
    answers();
    numbers();
    calls();
    return 0;
}
