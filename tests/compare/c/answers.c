/* Prints every field of an answer of each kind, and of a refusal, of every operation, and what a
 * refused schedule, a refused writing of a record and a refused opening of a sheet leave in their
 * lent lists; then what is answered where every list that is empty is a null pointer. */
#include <inttypes.h>
#include <stdio.h>

#include "planner.h"

static const uint64_t sizes[4] = {100, 100, 900, 100};
static const uint64_t ticks[4] = {0, 1, 2, 3};
static const uint64_t standing[4] = {0, 1, 1, 3};
static const uint64_t rates[2] = {250, 1000};
static const uint64_t rows[2] = {10250, 5000};
static const uint64_t none[1] = {0};
/* The recording above at 300 bits per second: 28 + 8 x 4 + 4 x 1 bytes. */
static const uint8_t sheet[64] = {
    4, 0, 0, 0, 28, 0, 0, 0, 44, 0, 0, 0, 1, 0, 0, 0, 60, 0, 0, 0, 1, 0, 0, 0, 1, 0, 0, 0,
    100, 0, 0, 0, 100, 0, 0, 0, 0x84, 3, 0, 0, 100, 0, 0, 0, 0, 0, 0, 0, 1, 0, 0, 0, 2, 0, 0, 0,
    3, 0, 0, 0, 0x2c, 1, 0, 0};

static void head(const char *name, uint64_t kind, uint64_t number, uint64_t place) {
    printf("%s %" PRIu64 " %" PRIu64 " %" PRIu64, name, kind, number, place);
}

static void judgement(const char *name, PlannerJudgement r) {
    head(name, r.kind, r.number, r.place);
    printf("\n");
}

static void verdict(const char *name, PlannerVerdict r) {
    head(name, r.kind, r.number, r.place);
    printf(" %" PRIu64 " %" PRIu64 "\n", r.picture, r.units);
}

static void bucket(const char *name, PlannerBucket r) {
    head(name, r.kind, r.number, r.place);
    printf(" %" PRIu64 " %" PRIu64 "\n", r.buffer, r.fullness);
}

static void seconds(const char *name, PlannerSeconds r) {
    head(name, r.kind, r.number, r.place);
    printf(" %g %g\n", r.wait, r.fill);
}

static void reading(const char *name, PlannerPanelReading r) {
    head(name, r.kind, r.number, r.place);
    printf(" %g %g\n", r.wait, r.limit);
}

static void position(const char *name, PlannerPosition r) {
    head(name, r.kind, r.number, r.place);
    printf(" %" PRIu64 "\n", r.next);
}

static void length(const char *name, PlannerLength r) {
    head(name, r.kind, r.number, r.place);
    printf(" %" PRIu64 "\n", r.bits);
}

static void row(const char *name, PlannerRow r) {
    head(name, r.kind, r.number, r.place);
    printf(" %" PRIu64 " %" PRIu64 "\n", r.rate, r.size);
}

static void record_read(const char *name, PlannerParamsRead r) {
    const PlannerParams *p = &r.params;
    head(name, r.kind, r.number, r.place);
    printf(" %" PRIu64 " %zu %" PRIu64 " %" PRIu64, r.next, p->cpb_cnt, p->bit_rate_scale,
           p->cpb_size_scale);
    printf(" %" PRIu64 " %" PRIu64 " %" PRIu64 " %" PRIu64 "\n",
           p->initial_cpb_removal_delay_length_minus1, p->cpb_removal_delay_length_minus1,
           p->dpb_output_delay_length_minus1, p->time_offset_length);
    for (size_t i = 0; i < 32; i++) {
        if (i < p->cpb_cnt || p->bit_rate_value_minus1[i] != 0 ||
            p->cpb_size_value_minus1[i] != 0 || p->cbr_flag[i] != 0) {
            printf("row %zu %" PRIu64 " %" PRIu64 " %" PRIu64 "\n", i,
                   p->bit_rate_value_minus1[i], p->cpb_size_value_minus1[i], p->cbr_flag[i]);
        }
    }
}

static void sheet_opened(const char *name, PlannerSheet r) {
    head(name, r.kind, r.number, r.place);
    printf(" %" PRIu64 " %" PRIu64 " %" PRIu64 " %" PRIu64 "\n", r.pictures, r.rates, r.ts, r.nu);
}

static void text(const char *name, PlannerText r, const uint8_t *bytes) {
    head(name, r.kind, r.number, r.place);
    printf(" %" PRIu64 " %" PRIu64 " %" PRIu64 "\n", r.length, r.sheet_number, r.sheet_place);
    printf("%.*s", (int)r.length, (const char *)bytes);
}

static void byte_list(const char *name, const uint8_t *bytes, size_t length) {
    printf("%s", name);
    for (size_t i = 0; i < length; i++) {
        printf(" %02x", (unsigned)bytes[i]);
    }
    printf("\n");
}

static void list(const char *name, const uint64_t *entries, size_t length) {
    printf("%s", name);
    for (size_t i = 0; i < length; i++) {
        printf(" %" PRIu64, entries[i]);
    }
    printf("\n");
}

static void empty_lists(PlannerParams params) {
    uint64_t entries[4] = {7, 7, 7, 7};
    uint8_t printed[80];

    judgement("judge", planner_judge(NULL, 0, NULL, 0, 1, 1));
    judgement("judge", planner_judge(sizes, 4, NULL, 0, 1, 1));
    verdict("verdict", planner_verdict(NULL, 0, NULL, 0, 1, 1, 300, 900, 500));
    verdict("schedule", planner_schedule(NULL, 0, NULL, 0, 1, 1, 300, 900, 500, 0, NULL, 0, NULL,
                                         0));
    verdict("schedule", planner_schedule(sizes, 4, ticks, 4, 1, 1, 300, 900, 500, 0, NULL, 0, NULL,
                                         0));
    bucket("least", planner_least(NULL, 0, NULL, 0, 1, 1, 300));
    judgement("table", planner_table(NULL, 0, NULL, 0, 1, 1, NULL, 0, 0, NULL, 0, NULL, 0));
    judgement("table", planner_table(sizes, 4, ticks, 4, 1, 1, NULL, 0, 0, NULL, 0, NULL, 0));
    judgement("table", planner_table(sizes, 4, ticks, 4, 1, 1, rates, 2, 0, NULL, 0, NULL, 0));
    bucket("look_up", planner_look_up(NULL, 0, NULL, 0, NULL, 0, 1, 1, 11, 625));
    position("write_params", planner_write_params(params, NULL, 0, 0));
    record_read("read_params", planner_read_params(NULL, 0, 0));
    verdict("row_verdict", planner_row_verdict(NULL, 0, NULL, 0, 1, 1, params, 0, 500));
    sheet_opened("open_sheet", planner_open_sheet(NULL, 0, NULL, 0, NULL, 0, NULL, 0));
    sheet_opened("open_sheet", planner_open_sheet(sheet, 64, NULL, 0, NULL, 0, NULL, 0));
    sheet_opened("open_sheet", planner_open_sheet(sheet, 64, entries, 4, NULL, 0, NULL, 0));
    list("sizes", entries, 4);
    text("sheet_text", planner_sheet_text(NULL, 0, printed, 80), printed);
    text("sheet_text", planner_sheet_text(sheet, 64, NULL, 0), printed);
}

int main(void) {
    uint64_t first[5] = {7, 7, 7, 7, 7};
    uint64_t second[6] = {8, 8, 8, 8, 8, 8};
    uint64_t one[1] = {9};
    uint8_t printed[80];
    uint8_t bytes[8] = {0xff, 0xff, 0xff, 0xff, 0xff, 0xff, 0xff, 0xff};
    PlannerParams params = {2, 1, 3, {4, 5}, {7, 6}, {0, 1}, 23, 22, 21, 24};

    printf("version %" PRIu64 "\n", planner_version());
    judgement("judge", planner_judge(sizes, 4, ticks, 4, 1, 1));
    judgement("judge", planner_judge(sizes, 4, standing, 4, 1, 1));
    judgement("judge", planner_judge(none, 0, none, 0, 1, 1));
    verdict("verdict", planner_verdict(sizes, 4, ticks, 4, 1, 1, 300, 900, 500));
    verdict("verdict", planner_verdict(sizes, 4, ticks, 4, 1, 1, 300, 899, 500));
    verdict("verdict", planner_verdict(sizes, 4, ticks, 4, 1, 1, 300, 900, 901));
    verdict("schedule", planner_schedule(sizes, 4, ticks, 4, 1, 1, 300, 900, 500, 2, first, 5,
                                         second, 6));
    list("starts", first, 5);
    list("ends", second, 6);
    verdict("schedule", planner_schedule(sizes, 4, ticks, 4, 1, 1, 300, 900, 500, 1, first, 5,
                                         second, 6));
    list("starts", first, 5);
    list("ends", second, 6);
    bucket("least", planner_least(sizes, 4, ticks, 4, 1, 1, 300));
    bucket("least", planner_least(sizes, 4, ticks, 4, 1, 1, 0));
    judgement("table", planner_table(sizes, 4, ticks, 4, 1, 1, rates, 2, 3, first, 5, second, 6));
    list("buffers", first, 5);
    list("fullnesses", second, 6);
    judgement("table", planner_table(sizes, 4, ticks, 4, 1, 1, none, 1, 0, first, 5, second, 6));
    bucket("look_up", planner_look_up(rates, 2, rows, 2, rows, 2, 1, 1, 11, 625));
    bucket("look_up", planner_look_up(rates, 2, rows, 2, sizes, 2, 1, 1, 65537, 625));
    seconds("seconds", planner_seconds(1000, 20000, 10000));
    seconds("seconds", planner_seconds(0, 20000, 10000));
    reading("panel", planner_panel(1000, 20000, 10000, 10.0));
    reading("panel", planner_panel(1000, 20000, 10000, 9.5));
    reading("panel", planner_panel(1000, 20000, 10000, -0.0));
    judgement("judge_params", planner_judge_params(params));
    length("params_length", planner_params_length(params));
    row("params_row", planner_params_row(params, 0));
    row("params_row", planner_params_row(params, 1));
    row("params_row", planner_params_row(params, 2));
    position("write_params", planner_write_params(params, bytes, 8, 3));
    byte_list("bytes", bytes, 8);
    record_read("read_params", planner_read_params(bytes, 8, 3));
    record_read("read_params", planner_read_params(bytes, 7, 3));
    position("write_params", planner_write_params(params, bytes, 7, 4));
    verdict("row_verdict", planner_row_verdict(sizes, 4, ticks, 4, 1, 1, params, 0, 500));
    verdict("row_verdict", planner_row_verdict(sizes, 4, ticks, 4, 1, 1, params, 0, 99));
    verdict("row_verdict", planner_row_verdict(sizes, 4, ticks, 4, 1, 1, params, 1, 500));
    verdict("row_verdict", planner_row_verdict(sizes, 4, ticks, 4, 1, 1, params, 2, 500));
    params.cbr_flag[1] = 2;
    judgement("judge_params", planner_judge_params(params));
    length("params_length", planner_params_length(params));
    row("params_row", planner_params_row(params, 2));
    position("write_params", planner_write_params(params, bytes, 8, 4));
    byte_list("bytes", bytes, 8);
    bytes[3] = 0xff;
    record_read("read_params", planner_read_params(bytes, 8, 3));
    sheet_opened("open_sheet", planner_open_sheet(sheet, 64, first, 5, second, 6, one, 1));
    list("sizes", first, 5);
    list("ticks", second, 6);
    list("rates", one, 1);
    sheet_opened("open_sheet", planner_open_sheet(sheet, 63, first, 5, second, 6, one, 1));
    sheet_opened("open_sheet", planner_open_sheet(sheet, 64, second, 6, first, 3, one, 1));
    list("sizes", second, 6);
    list("ticks", first, 5);
    text("sheet_text", planner_sheet_text(sheet, 64, printed, 80), printed);
    text("sheet_text", planner_sheet_text(sheet, 63, printed, 80), printed);
    text("sheet_text", planner_sheet_text(sheet, 64, printed, 29), printed);
    params.cbr_flag[1] = 1;
    empty_lists(params);
    return 0;
}
