/* The leaky bucket planner for C: the operations of libplanner.a, their answers, and every number
 * that these are made of.
 *
 * What the caller owes:
 * - Every list is a pointer and its length in entries. The pointer is valid and aligned for that
 *   many entries. For an empty list, of length 0, it may be null: nothing is read or written there.
 * - A list that is written overlaps no other list of the call. Lists that are only read may be one
 *   and the same.
 * - While a call runs, nothing else writes its lists, nor reads those that it writes.
 * Nothing else is owed: any numbers get an answer.
 *
 * What the caller gets:
 * - Every list stays the caller's. The planner keeps no pointer, allocates nothing and remembers
 *   nothing from one call to the next.
 * - A refusal has kind PLANNER_KIND_REFUSED, its number and its place; all figures are 0 and the
 *   lists that the call could have written are unchanged. Of several faults the lowest number is
 *   given, but for a parameter record and a sheet in the order that their operations name.
 * - Any other answer has number 0 and place 0; a figure that its kind does not name is 0.
 *
 * Linking: cc program.c $(pkg-config --cflags --libs kashuloden) where the library is installed,
 * otherwise cc -I include program.c libplanner.a. The archive is for Linux on x86-64, needs nothing
 * but memcpy and memset, and may become part of a shared object.
 *
 * Threads: the library keeps nothing, so calls need no lock; what is owed about lists holds between
 * threads too. A stack of 192 KiB is enough for every call: the lists of a sheet are there in
 * planner_sheet_text, twice, and in planner_open_sheet, 64 KiB each time.
 */
#ifndef PLANNER_H
#define PLANNER_H

#include <stddef.h>
#include <stdint.h>

/* The version of this header. planner_version gives that of the library which is linked: where the
 * two differ, structs or numbers may. */
#define PLANNER_VERSION_MAJOR 0
#define PLANNER_VERSION_MINOR 2
#define PLANNER_VERSION_PATCH 0
#define PLANNER_VERSION \
    (PLANNER_VERSION_MAJOR * 10000 + PLANNER_VERSION_MINOR * 100 + PLANNER_VERSION_PATCH)

/* Kinds of an answer. A struct with one kind beside the refusal has PLANNER_KIND_GIVEN. */
#define PLANNER_KIND_REFUSED 0
#define PLANNER_KIND_GIVEN 1
#define PLANNER_KIND_HOLDS 1  /* PlannerVerdict */
#define PLANNER_KIND_LATE 2   /* PlannerVerdict */
#define PLANNER_KIND_WITHIN 1 /* PlannerPanelReading */
#define PLANNER_KIND_OVER 2   /* PlannerPanelReading */
#define PLANNER_KIND_TABLE 1  /* PlannerText */
#define PLANNER_KIND_LINE 2   /* PlannerText */

/* Numbers of refusals, with what each says. The operations say at which place. */
#define PLANNER_REFUSAL_PICTURES 1  /* no picture, or too many */
#define PLANNER_REFUSAL_LENGTHS 2   /* lists of different length */
#define PLANNER_REFUSAL_CLOCK 3     /* ts, nu or span out of range */
#define PLANNER_REFUSAL_SIZE 4      /* a picture's size out of range */
#define PLANNER_REFUSAL_TICK 5      /* a tick not above the one before, or too far from the first */
#define PLANNER_REFUSAL_RATE 6      /* rate, rate count or row out of range, or rates not rising */
#define PLANNER_REFUSAL_BUCKET 7    /* buffer or start fullness out of range */
#define PLANNER_REFUSAL_ROOM 8      /* too little room in a lent list */
#define PLANNER_REFUSAL_SHORT 9     /* the bits end inside the record, or start is past the end */
#define PLANNER_REFUSAL_FIELD 10    /* a field of the record breaks its range or its rule */
#define PLANNER_REFUSAL_CONSTANT 11 /* the row's rate is constant */
#define PLANNER_REFUSAL_SHEET 12    /* the sheet's header or length is not as it has to be */
#define PLANNER_REFUSAL_LIMIT 13    /* the panel's limit is no finite number above 0 */

/* Limits, of type uint64_t. Where the smallest is not named it is 1. */
#define PLANNER_PICTURES_MAX UINT64_C(4096)       /* pictures in the lists of a recording */
#define PLANNER_SHEET_PICTURES_MAX UINT64_C(4096) /* pictures in a sheet */
#define PLANNER_SIZE_MAX UINT64_C(16777216)       /* bits in one picture */
#define PLANNER_SPAN_MAX UINT64_C(65536)          /* ticks from first picture to last, from 0 */
#define PLANNER_TS_MAX UINT64_C(131072)           /* time_scale */
#define PLANNER_NU_MAX UINT64_C(65536)            /* num_units_in_tick */
#define PLANNER_RATE_MAX UINT64_C(134217728)      /* bits per second */
#define PLANNER_ROWS_MAX UINT64_C(32)             /* rates in a list, rows in a table */
#define PLANNER_BUCKET_MAX UINT64_C(68719476736)  /* bits in a buffer, and so in a start fullness */
#define PLANNER_CPB_CNT_MAX UINT64_C(32)          /* rows in a parameter record */
#define PLANNER_VALUE_MAX UINT64_C(4294967294)    /* a coded rate or size, from 0 */
#define PLANNER_ZEROS_MAX UINT64_C(32)            /* leading zeros at which a code is refused */
#define PLANNER_SCALE_WIDTH UINT64_C(4)           /* bits of a scale */
#define PLANNER_LENGTH_WIDTH UINT64_C(5)          /* bits of a length */
#define PLANNER_RATE_SHIFT UINT64_C(6)            /* rate = (value + 1) x 2^(6 + scale) */
#define PLANNER_SIZE_SHIFT UINT64_C(4)            /* size = (value + 1) x 2^(4 + scale) */
#define PLANNER_BYTES_MAX UINT64_C(536870912)     /* bytes of a byte list that count, from 0 */
#define PLANNER_HEADER_BYTES UINT64_C(28)         /* bytes of a sheet's header */
#define PLANNER_SHEET_BYTES_MAX UINT64_C(32924)   /* bytes of the largest sheet */
#define PLANNER_TEXT_MAX UINT64_C(2048)           /* bytes enough for every printed text */

#ifdef __cplusplus
extern "C" {
#endif

/* Given: passed, or the table is written. */
typedef struct PlannerJudgement {
    uint64_t kind;
    uint64_t number;
    uint64_t place;
} PlannerJudgement;

/* Holds; or late, with the first late picture (counted from 0) and how many units of 1/(R x TS)
 * second late it is. */
typedef struct PlannerVerdict {
    uint64_t kind;
    uint64_t number;
    uint64_t place;
    uint64_t picture;
    uint64_t units;
} PlannerVerdict;

/* Given: buffer and start fullness in bits. */
typedef struct PlannerBucket {
    uint64_t kind;
    uint64_t number;
    uint64_t place;
    uint64_t buffer;
    uint64_t fullness;
} PlannerBucket;

/* Given: wait and fill time in seconds. */
typedef struct PlannerSeconds {
    uint64_t kind;
    uint64_t number;
    uint64_t place;
    double wait;
    double fill;
} PlannerSeconds;

/* Within, with the wait in seconds; or over, with wait and limit. */
typedef struct PlannerPanelReading {
    uint64_t kind;
    uint64_t number;
    uint64_t place;
    double wait;
    double limit;
} PlannerPanelReading;

/* A parameter record, by the names of H.264 E.1.2, and that many rows as cpb_cnt says, the first
 * entries of the three lists.
 * CAUTION: cpb_cnt is the number of rows, from 1 on, and not cpb_cnt_minus1. Every field whose name
 * ends in _minus1 is as coded: one less than what it stands for.
 * Entries after the rows are 0 in a record that was read and not looked at in any other. Coded
 * rates rise strictly from row to row and coded sizes do not rise; cbr_flag is 0 or 1.
 * planner_params_row gives rate and size of a row in bits. */
typedef struct PlannerParams {
    size_t cpb_cnt;
    uint64_t bit_rate_scale;
    uint64_t cpb_size_scale;
    uint64_t bit_rate_value_minus1[PLANNER_CPB_CNT_MAX];
    uint64_t cpb_size_value_minus1[PLANNER_CPB_CNT_MAX];
    uint64_t cbr_flag[PLANNER_CPB_CNT_MAX];
    uint64_t initial_cpb_removal_delay_length_minus1;
    uint64_t cpb_removal_delay_length_minus1;
    uint64_t dpb_output_delay_length_minus1;
    uint64_t time_offset_length;
} PlannerParams;

/* Given: the record and the first bit position after it. */
typedef struct PlannerParamsRead {
    uint64_t kind;
    uint64_t number;
    uint64_t place;
    uint64_t next;
    PlannerParams params;
} PlannerParamsRead;

/* Given: the first bit position after the record. */
typedef struct PlannerPosition {
    uint64_t kind;
    uint64_t number;
    uint64_t place;
    uint64_t next;
} PlannerPosition;

/* Given: how many bits a record takes. */
typedef struct PlannerLength {
    uint64_t kind;
    uint64_t number;
    uint64_t place;
    uint64_t bits;
} PlannerLength;

/* Given: rate in bits per second and size in bits of a row of a record. */
typedef struct PlannerRow {
    uint64_t kind;
    uint64_t number;
    uint64_t place;
    uint64_t rate;
    uint64_t size;
} PlannerRow;

/* Given: how many pictures and rates a sheet has, and its clock. */
typedef struct PlannerSheet {
    uint64_t kind;
    uint64_t number;
    uint64_t place;
    uint64_t pictures;
    uint64_t rates;
    uint64_t ts;
    uint64_t nu;
} PlannerSheet;

/* Table, or line: how many bytes of the sheet's table, or of the line of its refusal, were printed.
 * sheet_number and sheet_place are that refusal's; number and place are 0, since the call itself
 * was not refused. */
typedef struct PlannerText {
    uint64_t kind;
    uint64_t number;
    uint64_t place;
    uint64_t length;
    uint64_t sheet_number;
    uint64_t sheet_place;
} PlannerText;

/* The arguments that several operations share:
 *   sizes     bits of each picture; the picture count is the length of this list
 *   ticks     removal tick of each picture, strictly rising from any first value
 *   ts, nu    time_scale and num_units_in_tick: a tick lasts nu/ts seconds
 *   rate      bits per second
 *   buffer    bits of the buffer
 *   fullness  start fullness in bits, from 1 to buffer
 *   at        first entry to write in both lent lists; each needs room from there on, and entries
 *             before it and after the last one written stay untouched
 *   bytes     of a record, bits, of each byte the highest first; only the first 2^29 bytes count
 *   start     bit position at which a record starts, counted from 0 */

/* The version of the library: PLANNER_VERSION of the header that belongs to it. */
uint64_t planner_version(void);

/* Judges a recording and its clock.
 * Refusals: 1 (picture count), 2 (lists of different length) and 3 (ts or nu) at 0; 4 (a size) and
 * 5 (a tick) at the first such picture. */
PlannerJudgement planner_judge(const uint64_t *sizes, size_t sizes_length, const uint64_t *ticks,
                               size_t ticks_length, uint64_t ts, uint64_t nu);

/* Says whether a bucket holds a recording at a rate. A late picture is an answer, no refusal.
 * Refusals: 1 to 5 as planner_judge; 6 (rate) and 7 (buffer or fullness) at 0. */
PlannerVerdict planner_verdict(const uint64_t *sizes, size_t sizes_length, const uint64_t *ticks,
                               size_t ticks_length, uint64_t ts, uint64_t nu, uint64_t rate,
                               uint64_t buffer, uint64_t fullness);

/* Writes arrival start and arrival end of every picture, in units of 1/(R x TS) second, to two lent
 * lists, whether a picture is late or not, and answers the verdict.
 * Refusals: 1 to 7 as planner_verdict; 8 (too little room in one of the lists) at 0. */
PlannerVerdict planner_schedule(const uint64_t *sizes, size_t sizes_length, const uint64_t *ticks,
                                size_t ticks_length, uint64_t ts, uint64_t nu, uint64_t rate,
                                uint64_t buffer, uint64_t fullness, size_t at, uint64_t *starts,
                                size_t starts_length, uint64_t *ends, size_t ends_length);

/* Gives the least buffer and the least start fullness of a recording at a rate.
 * Refusals: 1 to 5 as planner_judge; 6 (rate) at 0. */
PlannerBucket planner_least(const uint64_t *sizes, size_t sizes_length, const uint64_t *ticks,
                            size_t ticks_length, uint64_t ts, uint64_t nu, uint64_t rate);

/* Writes the least buffer and the least start fullness at every rate of a strictly rising list to
 * two lent lists.
 * Refusals: 1 to 5 as planner_judge; 6 at 0 for the number of rates, otherwise at the first rate
 * out of range or not rising; 8 (too little room in one of the lists) at 0. */
PlannerJudgement planner_table(const uint64_t *sizes, size_t sizes_length, const uint64_t *ticks,
                               size_t ticks_length, uint64_t ts, uint64_t nu,
                               const uint64_t *rates, size_t rates_length, size_t at,
                               uint64_t *buffers, size_t buffers_length, uint64_t *fullnesses,
                               size_t fullnesses_length);

/* Gives buffer and start fullness for any rate from a table: rates strictly rising, and the buffer
 * and start fullness of every row. span is the recording's last tick less its first. Below the
 * first row the answer may be larger than any buffer that the other operations accept.
 * Refusals: 2 (lists of different length) and 3 (ts, nu or span) at 0; 6 at 0 for the number of
 * rows, at its row for a rate of the table, at 0 for the rate asked, in this order; 7 (buffer or
 * fullness) at the first such row. */
PlannerBucket planner_look_up(const uint64_t *rates, size_t rates_length, const uint64_t *buffers,
                              size_t buffers_length, const uint64_t *fullnesses,
                              size_t fullnesses_length, uint64_t ts, uint64_t nu, uint64_t span,
                              uint64_t rate);

/* Gives the wait, fullness/rate, and the fill time, buffer/rate, each rounded once.
 * Refusals: 6 (rate) and 7 (buffer or fullness) at 0. */
PlannerSeconds planner_seconds(uint64_t rate, uint64_t buffer, uint64_t fullness);

/* Compares the wait with the driver's limit in seconds; a wait equal to the limit is within.
 * Refusals: 6 and 7 as planner_seconds; 13 (the limit is no finite number above 0) at 0. */
PlannerPanelReading planner_panel(uint64_t rate, uint64_t buffer, uint64_t fullness, double limit);

/* Judges a parameter record. One that is passed can be written wherever there is room for it.
 * Refusals: 10, as planner_write_params has it. */
PlannerJudgement planner_judge_params(PlannerParams params);

/* Gives the number of bits that planner_write_params writes for a record.
 * Refusals: 10, as planner_write_params has it. */
PlannerLength planner_params_length(PlannerParams params);

/* Gives rate and size of a row of a parameter record, counted from 0. Both may be larger than what
 * the other operations accept.
 * Refusals: 10 of the record as planner_write_params; then 6 at 0 (no such row). */
PlannerRow planner_params_row(PlannerParams params, size_t row);

/* Reads a parameter record at a bit position. On refusal the record is all zero and next is 0.
 * CAUTION: the bytes have to be without emulation prevention. In a NAL unit as it is sent, a byte 3
 * stands after every two bytes 0 that a byte below 4 would follow; the caller takes it out first.
 * Left in, it is read as bits of the record, and a record that nobody wrote may come out with no
 * refusal.
 * Refusals: 9 (the bits end inside the record, or the start is past the end) at 0; 10 (a field
 * breaks its range or its rule) at the row of that field, at 0 for a field outside the rows. The
 * first of these in bit order is given. */
PlannerParamsRead planner_read_params(const uint8_t *bytes, size_t bytes_length, uint64_t start);

/* Writes a parameter record at a bit position; only the record's own bits change.
 * Refusals: 10 (a field breaks its range or its rule) at the row of the first such field in bit
 * order, at 0 for a field outside the rows; then 8 (too little room) at 0. */
PlannerPosition planner_write_params(PlannerParams params, uint8_t *bytes, size_t bytes_length,
                                     uint64_t start);

/* Says whether a row of a parameter record, counted from 0, holds a recording from a start fullness
 * on: the row's rate and size are the bucket's.
 * Refusals: 10 of the record as planner_write_params; then 6 at 0 (no such row); then the lowest of
 * 1 to 7 as planner_verdict and 11 (the row has cbr_flag 1) at the row. */
PlannerVerdict planner_row_verdict(const uint64_t *sizes, size_t sizes_length,
                                   const uint64_t *ticks, size_t ticks_length, uint64_t ts,
                                   uint64_t nu, PlannerParams params, size_t row,
                                   uint64_t fullness);

/* Opens a sheet: little-endian words of 32 bits, a header of seven (picture count n, offset of the
 * sizes, of the ticks, rate count m, offset of the rates, ts, nu), then n sizes, n ticks and m
 * rates, 28 + 8 x n + 4 x m bytes in all. Writes sizes, ticks and rates to the first entries of
 * three lent lists; PLANNER_SHEET_PICTURES_MAX entries in each of the first two and
 * PLANNER_ROWS_MAX in the third are always enough.
 * Refusals: 12 (fewer than 28 bytes) at 0; then 1 (picture count) and 6 (rate count) at 0; then 12
 * (an offset, or the length) at 0; then the lowest of 3 to 5 as planner_judge, 6 at the first rate
 * out of range or not rising and 8 (too little room in one of the lists) at 0. */
PlannerSheet planner_open_sheet(const uint8_t *bytes, size_t bytes_length, uint64_t *sizes,
                                size_t sizes_length, uint64_t *ticks, size_t ticks_length,
                                uint64_t *rates, size_t rates_length);

/* Prints to the front of a lent list of bytes the text of a sheet: its table of least figures, or
 * the line of its refusal, which is then an answer and no refusal of this call. PLANNER_TEXT_MAX
 * bytes are always enough; nothing ends the text but its length.
 * Refusals: 8 (too little room for the text) at 0. */
PlannerText planner_sheet_text(const uint8_t *bytes, size_t bytes_length, uint8_t *text,
                               size_t text_length);

#ifdef __cplusplus
}
#endif

#endif
