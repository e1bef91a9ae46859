/* Provokes each refusal through the public calls and compares its number with the name that lamp.h gives it. Only 9 is
 * never given: a table that falls, for which it once stood, is planned. Makes practice cards and tables of the
 * catalogue module, explains sheets and plans with lists of counts too, and compares every byte of their buffers; of
 * the acts of a sitting it compares the sitting that they give back and every record. Prints each fault and how many
 * answers and buffers were compared; fails if there is a fault.
 *
 *   gcc -std=c11 -Wall -Wextra -Werror -Iinclude host/refusals.c target/staticlib/liblamp.a -o target/host/refusals
 */
#include <inttypes.h>
#include <stdio.h>
#include <string.h>

#include "lamp.h"

/* Document 01's card A: 3 modules, top step 2, 3 slots; the table is 1 2 4, the loads are 6 0 2. */
#define CARD_A                                                                                                       \
    0x44, 0x4C, 0x53, 0x01, 0x00, 0x03, 0x02, 0x03, 0x00, 0x03, 0x00, 0x00, 0x00, 0x02, 0x00, 0x00, 0x00, 0x01, 0x00, \
        0x00, 0x00, 0x02, 0x00, 0x00, 0x00, 0x04, 0x00, 0x00, 0x00, 0x06, 0x00, 0x00, 0x00, 0x02, 0x00
enum { LENGTH_A = 35 };

/* Card A with one byte changed, or cut: the refusals that every call on a card checks. */
static const struct {
    enum lamp_refusal wanted;
    size_t length, at;
    uint8_t byte;
} damages[] = {
    {LAMP_NOT_A_CARD, 16, 0, 0x44},            /* cut to 16 bytes */
    {LAMP_NOT_A_CARD, LENGTH_A, 2, 0x00},      /* the mark's last byte */
    {LAMP_WRONG_VERSION, LENGTH_A, 3, 2},      /* version 2 */
    {LAMP_RACK_SIZE, LENGTH_A, 5, 0},          /* no modules */
    {LAMP_RACK_SIZE, LENGTH_A, 6, 201},        /* top step 201 */
    {LAMP_SLOT_COUNT, LENGTH_A, 8, 4},         /* 1,027 slots */
    {LAMP_CARD_LENGTH, LENGTH_A - 1, 0, 0x44}, /* cut to 34 bytes */
    {LAMP_PRICE_RANGE, LENGTH_A, 12, 0xFF},    /* the warm-up price's highest byte */
    {LAMP_PRICE_RANGE, LENGTH_A, 16, 0xFF},    /* the cool-down price's */
    {LAMP_PRICE_RANGE, LENGTH_A, 28, 0xFF},    /* that of F(2) */
    {LAMP_NOT_CONVEX, LENGTH_A, 21, 3},        /* the table 1 3 4 */
    {LAMP_LOAD_RANGE, LENGTH_A, 29, 7},        /* load 7 on 3 modules */
};

/* The practice cards of starts 1,950 and 4,294,967,255, as lamp.h has them. */
static const uint8_t card_1950[] = {0x44, 0x4C, 0x53, 0x01, 0x00, 0x60, 0x03, 0x00, 0x00, 0xBE, 0x01,
                                    0x00, 0x00, 0x02, 0x02, 0x00, 0x00, 0xAA, 0x01, 0x00, 0x00, 0xAD,
                                    0x01, 0x00, 0x00, 0xB2, 0x01, 0x00, 0x00, 0xBA, 0x01, 0x00, 0x00};
static const uint8_t card_4294967255[] = {0x44, 0x4C, 0x53, 0x01, 0x00, 0x76, 0x02, 0x01, 0x00, 0x17, 0x00,
                                          0x00, 0x00, 0x7B, 0x02, 0x00, 0x00, 0xF5, 0x02, 0x00, 0x00, 0xFA,
                                          0x02, 0x00, 0x00, 0x02, 0x03, 0x00, 0x00, 0xC5, 0x00};

/* A practice card that is asked for, and what is then written. The start has 64 bits, of which C gives the call the low
 * 32; the others must not count. */
struct practice {
    enum lamp_refusal wanted; /* or 0 */
    uint64_t start;
    size_t length;
    const uint8_t *made;
    size_t written;
};
static const struct practice practices[] = {
    {0, 1950, 33, card_1950, 33},                                          /* just the card's length */
    {0, 1950, 34, card_1950, 33},                                          /* one byte more */
    {0, 1950, LAMP_MAX_PRACTICE, card_1950, 33},                           /* enough for every start */
    {0, UINT64_C(0xFFFFFFFF00000000) + 1950, 33, card_1950, 33},           /* bits above the low 32 */
    {0, 4294967255, 31, card_4294967255, 31},                              /* a card with a load */
    {LAMP_BUFFER_TOO_SHORT, 1950, 32, card_1950, 0},                       /* one byte less */
    {LAMP_BUFFER_TOO_SHORT, 1950, 0, card_1950, 0},                        /* no byte at all */
    {LAMP_BUFFER_TOO_SHORT, 6548, LAMP_MAX_PRACTICE - 1, card_1950, 0},    /* a longest card, one byte less */
    {LAMP_ZERO_START, 0, LAMP_MAX_PRACTICE, card_1950, 0},                 /* enough for every start */
    {LAMP_ZERO_START, 0, 0, card_1950, 0},                                 /* 14 is tested before 10 */
    {LAMP_ZERO_START, UINT64_C(1) << 32, LAMP_MAX_PRACTICE, card_1950, 0}, /* bits above the low 32, and no other */
};

/* F(0) to F(3) of the catalogue module as a card's fields: 400 403 407 412. */
static const uint8_t catalogue[] = {0x90, 1, 0, 0, 0x93, 1, 0, 0, 0x97, 1, 0, 0, 0x9C, 1, 0, 0};

/* A table of the catalogue module that is asked for, and how many bytes are then written. */
struct table {
    enum lamp_refusal wanted; /* or 0 */
    uint64_t top;
    size_t length, written;
};
static const struct table tables[] = {
    {0, 1, 8, 8},                                                 /* just the table's length */
    {0, 2, 12, 12},                                               /* the same for top 2 */
    {0, 3, 17, 16},                                               /* one byte more */
    {0, 3, LAMP_MAX_TABLE, 16},                                   /* enough for every top */
    {LAMP_BUFFER_TOO_SHORT, 1, 7, 0},                             /* one byte less */
    {LAMP_BUFFER_TOO_SHORT, 1, 0, 0},                             /* no byte at all */
    {LAMP_BUFFER_TOO_SHORT, 200, LAMP_MAX_TABLE - 1, 0},          /* the longest table, one byte less */
    {LAMP_RACK_SIZE, 0, LAMP_MAX_TABLE, 0},                       /* top 0 */
    {LAMP_RACK_SIZE, 0, 0, 0},                                    /* 3 is tested before 10 */
    {LAMP_RACK_SIZE, 201, LAMP_MAX_TABLE + 4, 0},                 /* one above the largest top */
    {LAMP_RACK_SIZE, 201, 0, 0},                                  /* 3 is tested before 10 */
    {LAMP_RACK_SIZE, 256 + 2, LAMP_MAX_TABLE, 0},                 /* the low 8 bits are 2 */
    {LAMP_RACK_SIZE, 65536 + 2, LAMP_MAX_TABLE, 0},               /* the low 16 bits are 2 */
    {LAMP_RACK_SIZE, (UINT64_C(1) << 32) + 2, LAMP_MAX_TABLE, 0}, /* the low 32 bits are 2 */
    {LAMP_RACK_SIZE, (UINT64_C(1) << 63) + 2, LAMP_MAX_TABLE, 0}, /* the low 63 bits are 2 */
    {LAMP_RACK_SIZE, UINT64_MAX, 0, 0},                           /* -1, as C hands it on */
};

/* Sheets of card A, whose least cost is 32. The first is document 01's example D with one byte more, which is given to
 * the call once. The second is example D with its last byte 0. */
static const uint8_t example_d[] = {2, 2, 2, LAMP_OFF, 0, LAMP_OFF, 2, LAMP_OFF, LAMP_OFF, LAMP_OFF};
static const uint8_t last_active[] = {2, 2, 2, LAMP_OFF, 0, LAMP_OFF, 2, LAMP_OFF, 0};
static const uint8_t of_exact_plan[] = {2, 2, 2, 0, LAMP_OFF, LAMP_OFF, 2, LAMP_OFF, LAMP_OFF};
static const uint8_t brighter[] = {2, 2, 2, 1, LAMP_OFF, LAMP_OFF, 2, LAMP_OFF, LAMP_OFF};
static const uint8_t off_between[] = {2, 2, 2, LAMP_OFF, LAMP_OFF, LAMP_OFF, 2, LAMP_OFF, LAMP_OFF};
static const uint8_t step_3[] = {2, 2, 2, LAMP_OFF, 0, LAMP_OFF, 2, LAMP_OFF, 3};
static const uint8_t dark[] = {2, 2, 2, LAMP_OFF, 0, LAMP_OFF, 1, LAMP_OFF, LAMP_OFF};
static const uint8_t dark_and_254[] = {0, 2, 2, 254, 0, LAMP_OFF, 2, LAMP_OFF, LAMP_OFF};

/* A sheet that is explained on card A, which asks for 12 bytes of work, and what is then given. */
struct explanation {
    struct lamp_points wanted;
    const uint8_t *sheet;
    size_t sheet_len, work_len;
};
static const struct explanation explanations[] = {
    {{0, 0, 0, 0}, of_exact_plan, 9, 12},                 /* just the work bytes asked for */
    {{0, 0, 5, 0}, example_d, 9, 12},                     /* cost 37 */
    {{0, 1, 5, 5}, last_active, 9, 12},                   /* cost 43 */
    {{0, 1, 0, 0}, brighter, 9, 13},                      /* cost 33, one byte more */
    {{0, 0, 0, 4}, off_between, 9, 16},                   /* cost 36, four bytes more */
    {{LAMP_BUFFER_TOO_SHORT, 0, 0, 0}, example_d, 9, 11}, /* one byte less */
    {{LAMP_BUFFER_TOO_SHORT, 0, 0, 0}, example_d, 9, 0},  /* no byte at all */
    {{LAMP_BUFFER_TOO_SHORT, 0, 0, 0}, example_d, 8, 11}, /* 10 is tested before 11 */
    {{LAMP_BUFFER_TOO_SHORT, 0, 0, 0}, step_3, 9, 11},    /* and before 12 */
    {{LAMP_BUFFER_TOO_SHORT, 0, 0, 0}, dark, 9, 11},      /* and before 13 */
    {{LAMP_WRONG_LENGTH, 0, 0, 0}, example_d, 8, 12},     /* a sheet of one byte less */
    {{LAMP_WRONG_LENGTH, 0, 0, 0}, example_d, 10, 16},    /* a sheet of one byte more */
    {{LAMP_WRONG_LENGTH, 0, 0, 0}, example_d, 0, 12},     /* no byte at all */
    {{LAMP_WRONG_LENGTH, 0, 0, 0}, dark_and_254, 8, 12},  /* 11 is tested before 12 and 13 */
    {{LAMP_ENTRY_RANGE, 0, 0, 0}, step_3, 9, 12},         /* step 3 of module 3 in slot 3 */
    {{LAMP_ENTRY_RANGE, 0, 0, 0}, dark_and_254, 9, 13},   /* 12 is tested before 13 */
    {{LAMP_LOAD_NOT_SERVED, 0, 0, 0}, dark, 9, 12},       /* light 1 for load 2 */
};

/* Lists of counts for card A's rack of three. The last three end with no 3, though a low byte may be 3. */
static const uint16_t all_counts[] = {0, 1, 2, 3, 4}, one_and_three[] = {0, 1, 3}, two_and_three[] = {0, 2, 3};
static const uint16_t three[] = {0, 3}, from_one[] = {1, 2, 3}, from_256[] = {256, 1, 3}, equal[] = {0, 3, 3};
static const uint16_t back[] = {0, 4, 3}, to_259[] = {0, 1, 256 + 3}, to_4[] = {0, 2, 4}, to_65535[] = {0, 1, 65535};

/* A list that card A is planned with, and what is then given. A plan has 3 bytes, and the work 3 for each entry. */
struct group {
    enum lamp_refusal wanted; /* or 0 */
    uint64_t cost;
    uint8_t plan[3];
    const uint16_t *list;
    size_t list_len;
    uint64_t ratio;
    size_t plan_len, work_len;
};
static const struct group groups[] = {
    {0, 32, {3, 1, 1}, all_counts, 4, 1, 3, 12},                   /* just the bytes asked for */
    {0, 32, {3, 1, 1}, one_and_three, 3, 2, 3, 9},                 /* a gap of just twice the gap before it */
    {0, 32, {3, 1, 1}, one_and_three, 3, LAMP_MAX_RATIO, 4, 11},   /* the largest ratio, and some bytes more */
    {0, 33, {3, 2, 2}, two_and_three, 3, 2, 3, 10},                /* the entry after 0 is just the ratio */
    {0, 35, {3, 3, 3}, three, 2, 3, 3, 6},                         /* all modules or none */
    {LAMP_COUNT_LIST, 0, {0}, one_and_three, 3, 0, 3, 9},          /* ratio 0 */
    {LAMP_COUNT_LIST, 0, {0}, one_and_three, 3, LAMP_MAX_RATIO + 1, 3, 9},
    {LAMP_COUNT_LIST, 0, {0}, one_and_three, 3, 256 + 2, 3, 9},    /* the low 8 bits are 2 */
    {LAMP_COUNT_LIST, 0, {0}, one_and_three, 3, (UINT64_C(1) << 32) + 2, 3, 9},
    {LAMP_COUNT_LIST, 0, {0}, one_and_three, 3, UINT64_MAX, 3, 9}, /* -1, as C hands it on */
    {LAMP_COUNT_LIST, 0, {0}, one_and_three, 3, 1, 3, 9},          /* a gap of twice the gap before it */
    {LAMP_COUNT_LIST, 0, {0}, two_and_three, 3, 1, 3, 9},          /* the entry after 0 is above the ratio */
    {LAMP_COUNT_LIST, 0, {0}, three, 2, 2, 3, 9},                  /* the same with two entries */
    {LAMP_COUNT_LIST, 0, {0}, three, 1, 3, 3, 9},                  /* one entry */
    {LAMP_COUNT_LIST, 0, {0}, three, 0, 3, 3, 9},                  /* no entry at all */
    {LAMP_COUNT_LIST, 0, {0}, NULL, 0, 3, 3, 9},                   /* and no list */
    {LAMP_COUNT_LIST, 0, {0}, all_counts, 3, 1, 3, 12},            /* the last entry is 2 */
    {LAMP_COUNT_LIST, 0, {0}, all_counts, 5, 1, 3, 15},            /* the last entry is 4 */
    {LAMP_COUNT_LIST, 0, {0}, from_one, 3, 2, 3, 9},               /* the first entry is 1 */
    {LAMP_COUNT_LIST, 0, {0}, from_256, 3, 2, 3, 9},               /* the first entry's low byte is 0 */
    {LAMP_COUNT_LIST, 0, {0}, equal, 3, 3, 3, 9},                  /* two entries are equal */
    {LAMP_COUNT_LIST, 0, {0}, back, 3, 4, 3, 9},                   /* an entry is below the one before it */
    {LAMP_COUNT_LIST, 0, {0}, to_259, 3, LAMP_MAX_RATIO, 3, 9},    /* the last entry's low byte is 3 */
    {LAMP_COUNT_LIST, 0, {0}, to_4, 3, 2, 3, 9},                   /* the last entry is 4, and all else is kept */
    {LAMP_COUNT_LIST, 0, {0}, to_65535, 3, LAMP_MAX_RATIO, 3, 9},  /* the largest number of 16 bits */
    {LAMP_COUNT_LIST, 0, {0}, from_one, 3, 2, 2, 9},               /* 18 is tested before 10, for the plan */
    {LAMP_COUNT_LIST, 0, {0}, from_one, 3, 2, 3, 8},               /* and for the work */
    {LAMP_COUNT_LIST, 0, {0}, one_and_three, 3, 0, 0, 0},          /* and for both */
    {LAMP_BUFFER_TOO_SHORT, 0, {0}, one_and_three, 3, 2, 2, 9},    /* one byte of the plan less */
    {LAMP_BUFFER_TOO_SHORT, 0, {0}, one_and_three, 3, 2, 3, 8},    /* one byte of the work less */
    {LAMP_BUFFER_TOO_SHORT, 0, {0}, all_counts, 4, 1, 3, 9},       /* enough for three entries */
    {LAMP_BUFFER_TOO_SHORT, 0, {0}, one_and_three, 3, 2, 0, 0},    /* no byte at all */
};

static unsigned compared, looked, faults;
static uint8_t card[LENGTH_A] = {CARD_A}, plan[3] = {3, 1, 1};
static uint8_t sheet[9] = {2, 2, 2, 0, LAMP_OFF, LAMP_OFF, 2, LAMP_OFF, LAMP_OFF};
static uint8_t area[9], work[30];

/* Every number that a call gives has words in lamp.h. */
static void expect_words(uint64_t number)
{
    if (strcmp(lamp_words(number), lamp_words(UINT64_MAX)) != 0)
        return;
    faults++;
    printf("number %" PRIu64 " has no words in lamp.h\n", number);
}

static void compare(const char *call, struct lamp_answer found, uint64_t number, uint64_t cost)
{
    expect_words(found.number);
    compared++;
    if (found.number == number && found.cost == cost)
        return;
    faults++;
    printf("%s: number %" PRIu64 ", cost %" PRIu64 ", where lamp.h says %" PRIu64 " and cost %" PRIu64 "\n", call,
           found.number, found.cost, number, cost);
}

static void expect(const char *call, struct lamp_answer found, enum lamp_refusal wanted)
{
    compare(call, found, (uint64_t)wanted, 0);
}

static void expect_cost(const char *call, struct lamp_answer found, uint64_t cost)
{
    compare(call, found, 0, cost);
}

static void expect_bytes(const char *call, const uint8_t *found, const uint8_t *wanted, size_t length)
{
    looked++;
    if (memcmp(found, wanted, length) == 0)
        return;
    faults++;
    printf("%s: the bytes are not those that lamp.h says\n", call);
}

static void print_points(const char *words, struct lamp_points points)
{
    printf("%s number %" PRIu64 ", spread %" PRIu64 ", swaps %" PRIu64 ", counts %" PRIu64 "\n", words, points.number,
           points.spread, points.swaps, points.counts);
}

/* Explains a sheet with work bytes that hold `paint`. After a success just the bytes asked for are zero, and after a
 * refusal all are as they were, also those before the buffer and beyond its length. */
static void expect_points(const uint8_t *bytes, size_t length, struct explanation explanation, int paint)
{
    const struct lamp_points wanted = explanation.wanted;
    uint8_t found[20], left[20];
    struct lamp_points given;

    memset(found, paint, sizeof found);
    memset(left, paint, sizeof left);
    if (wanted.number == 0)
        memset(left + 2, 0, 12);
    given = lamp_explain(bytes, length, explanation.sheet, explanation.sheet_len, found + 2, explanation.work_len);
    expect_bytes("lamp_explain", found, left, sizeof found);
    compared++;
    if (memcmp(&given, &wanted, sizeof given) == 0)
        return;
    faults++;
    print_points("lamp_explain gives", given);
    print_points("where lamp.h says", wanted);
}

/* A byte that is written with the value it had is not seen, so each sheet is explained over two values. */
static void explain_sheets(void)
{
    for (size_t k = 0; k < sizeof explanations / sizeof explanations[0]; k++) {
        expect_points(card, LENGTH_A, explanations[k], 0x5A);
        expect_points(card, LENGTH_A, explanations[k], 0xA5);
    }
}

/* A refusal of the card comes before those of the work buffer and of the sheet. */
static void refuse_explaining(size_t length, enum lamp_refusal wanted)
{
    for (size_t k = 0; k < sizeof explanations / sizeof explanations[0]; k++) {
        struct explanation refused = explanations[k];

        refused.wanted = (struct lamp_points){(uint64_t)wanted, 0, 0, 0};
        expect_points(card, length, refused, 0x5A);
    }
}

/* Plans with a list, over bytes that hold `paint`. After a success the plan is there and just the work bytes asked for
 * are zero, and after a refusal all are as they were, also those before each buffer and beyond its length. */
static void expect_group(size_t length, const struct group *group, enum lamp_refusal wanted, int paint)
{
    uint8_t found_plan[8], left_plan[8], found_work[20], left_work[20];
    const char *call = "lamp_plan_groups";

    memset(found_plan, paint, sizeof found_plan);
    memset(left_plan, paint, sizeof left_plan);
    memset(found_work, paint, sizeof found_work);
    memset(left_work, paint, sizeof left_work);
    if (wanted == 0) {
        memcpy(left_plan + 2, group->plan, 3);
        memset(left_work + 2, 0, 3 * group->list_len);
    }
    compare(call,
            lamp_plan_groups(card, length, group->list, group->list_len, group->ratio, found_plan + 2, group->plan_len,
                             found_work + 2, group->work_len),
            (uint64_t)wanted, wanted == 0 ? group->cost : 0);
    expect_bytes(call, found_plan, left_plan, sizeof found_plan);
    expect_bytes(call, found_work, left_work, sizeof found_work);
}

/* Each list is planned with over two values, as the sheets are explained. */
static void plan_groups(void)
{
    for (size_t k = 0; k < sizeof groups / sizeof groups[0]; k++) {
        expect_group(LENGTH_A, &groups[k], groups[k].wanted, 0x5A);
        expect_group(LENGTH_A, &groups[k], groups[k].wanted, 0xA5);
    }
}

/* A refusal of the card comes before those of the list and of the buffers. */
static void refuse_groups(size_t length, enum lamp_refusal wanted)
{
    for (size_t k = 0; k < sizeof groups / sizeof groups[0]; k++)
        expect_group(length, &groups[k], wanted, 0x5A);
}

/* The sittings that the acts are handed, and the list that they are lent. One submission of two is used. */
static const struct lamp_sitting unopened, opened = {1, 2, 1, 32}, closed = {2, 2, 1, 32}, spent = {1, 2, 2, 32};
static const struct lamp_seat lent[] = {{37, 7, 1, 0}, {0, 0, 0, 0}};
enum { SEATS = sizeof lent / sizeof lent[0] };
static struct lamp_seat seats[SEATS] = {{37, 7, 1, 0}, {0, 0, 0, 0}};

/* An act that refuses alters no record, and gives back a sitting. Its cost and its marked are 0. */
static void refuse(const char *act, struct lamp_reply found, enum lamp_refusal wanted, struct lamp_sitting sitting)
{
    expect(act, (struct lamp_answer){found.number, found.cost}, wanted);
    looked += 2;
    if (found.marked == 0 && memcmp(&found.sitting, &sitting, sizeof sitting) == 0 &&
        memcmp(seats, lent, sizeof seats) == 0)
        return;
    faults++;
    printf("%s: marked, the sitting or the records are not those that lamp.h says\n", act);
}

/* The two acts on a card, with all that they are lent. */
static struct lamp_reply open_with(struct lamp_sitting sitting, uint16_t caller, uint64_t allowance, size_t length)
{
    return lamp_sitting_open(sitting, caller, allowance, card, length, area, 3, work, 12, seats, SEATS);
}

static struct lamp_reply submit_with(struct lamp_sitting sitting, uint16_t caller, size_t length, size_t sheet_len)
{
    return lamp_sitting_submit(sitting, caller, card, length, sheet, sheet_len, seats, SEATS);
}

/* Refusals 1 to 8, by every call that reads a card. */
static void refuse_card(size_t length, enum lamp_refusal wanted)
{
    refuse("lamp_sitting_open", open_with(opened, 7, 0, length), wanted, opened);
    refuse("lamp_sitting_submit", submit_with(spent, 0, length, 8), wanted, spent);
    expect("lamp_check_card", lamp_check_card(card, length), wanted);
    expect("lamp_running_cost", lamp_running_cost(card, length, 3, 4), wanted);
    expect("lamp_plan_exact", lamp_plan_exact(card, length, area, 3, work, 12), wanted);
    expect("lamp_plan_coarse", lamp_plan_coarse(card, length, area, 3, work, 30), wanted);
    expect("lamp_sheet", lamp_sheet(card, length, plan, 3, area, 9), wanted);
    expect("lamp_mark", lamp_mark(card, length, sheet, 9), wanted);
    refuse_explaining(length, wanted);
    refuse_groups(length, wanted);
}

/* Refusal 10: buffers that are too short. */
static void refuse_planning(void)
{
    expect("lamp_plan_exact", lamp_plan_exact(card, LENGTH_A, area, 2, work, 12), LAMP_BUFFER_TOO_SHORT);
    expect("lamp_plan_exact", lamp_plan_exact(card, LENGTH_A, area, 3, work, 11), LAMP_BUFFER_TOO_SHORT);
    expect("lamp_plan_coarse", lamp_plan_coarse(card, LENGTH_A, area, 3, work, 29), LAMP_BUFFER_TOO_SHORT);
    expect("lamp_sheet", lamp_sheet(card, LENGTH_A, plan, 3, area, 8), LAMP_BUFFER_TOO_SHORT);
    refuse("lamp_sitting_open", lamp_sitting_open(opened, 7, 0, card, LENGTH_A, area, 2, work, 12, seats, SEATS),
           LAMP_BUFFER_TOO_SHORT, opened);
    refuse("lamp_sitting_open", lamp_sitting_open(opened, 0, 1, card, LENGTH_A, area, 3, work, 11, seats, SEATS),
           LAMP_BUFFER_TOO_SHORT, opened);
}

/* Where 9 was once given, for a table that falls, no call refuses. Both planners find a plan that lets module 1 burn on
 * through slot 2, which has load 0: at step 1, since step 0 costs more. */
static void plan_falling(void)
{
    uint8_t falling[LENGTH_A] = {CARD_A};

    falling[17] = 3; /* the table 3 2 4 */
    expect("lamp_check_card", lamp_check_card(falling, LENGTH_A), 0);
    expect_cost("lamp_running_cost", lamp_running_cost(falling, LENGTH_A, 1, 0), 2);
    expect_cost("lamp_plan_exact", lamp_plan_exact(falling, LENGTH_A, area, 3, work, 12), 33);
    expect_bytes("lamp_plan_exact", area, plan, 3);
    memset(area, 0, sizeof area);
    expect_cost("lamp_plan_coarse", lamp_plan_coarse(falling, LENGTH_A, area, 3, work, 30), 33);
    expect_bytes("lamp_plan_coarse", area, plan, 3);
    expect_cost("lamp_sheet", lamp_sheet(falling, LENGTH_A, plan, 3, area, 9), 33);
    expect_bytes("lamp_sheet", area, brighter, 9);
    expect_cost("lamp_mark", lamp_mark(falling, LENGTH_A, brighter, 9), 33);
    expect_cost("lamp_mark", lamp_mark(falling, LENGTH_A, sheet, 9), 34); /* step 0 of slot 2 as it is handed in */
    expect_points(falling, LENGTH_A, (struct explanation){{0, 0, 0, 0}, brighter, 9, 12}, 0x5A);
    expect_points(falling, LENGTH_A, (struct explanation){{0, 1, 0, 0}, of_exact_plan, 9, 12}, 0x5A);
    expect("lamp_plan_coarse", lamp_plan_coarse(falling, LENGTH_A, area, 3, work, 29), LAMP_BUFFER_TOO_SHORT);
}

/* Refusals 11 to 13, and 3 where there is no card: counts, plans and sheets that are handed in. A sheet with more light
 * than the load is accepted. */
static void refuse_handed_in(void)
{
    uint8_t higher[3] = {3, 1, 4}, darker[3] = {2, 1, 1};

    expect("lamp_sheet", lamp_sheet(card, LENGTH_A, plan, 2, area, 9), LAMP_WRONG_LENGTH);
    expect("lamp_mark", lamp_mark(card, LENGTH_A, sheet, 8), LAMP_WRONG_LENGTH);

    expect("lamp_running_cost", lamp_running_cost(card, LENGTH_A, 4, 4), LAMP_ENTRY_RANGE);
    expect("lamp_sheet", lamp_sheet(card, LENGTH_A, higher, 3, area, 9), LAMP_ENTRY_RANGE);
    sheet[8] = 3;
    expect("lamp_mark", lamp_mark(card, LENGTH_A, sheet, 9), LAMP_ENTRY_RANGE);
    expect("lamp_rounded_count", lamp_rounded_count(7, 6), LAMP_ENTRY_RANGE);
    expect("lamp_rounded_count", lamp_rounded_count(0, 201), LAMP_RACK_SIZE);
    expect("lamp_rounded_count", lamp_rounded_count(1, 0), LAMP_RACK_SIZE); /* 3 is tested before 12 */

    expect("lamp_running_cost", lamp_running_cost(card, LENGTH_A, 2, 5), LAMP_LOAD_NOT_SERVED);
    expect("lamp_sheet", lamp_sheet(card, LENGTH_A, darker, 3, area, 9), LAMP_LOAD_NOT_SERVED);
    sheet[8] = 1; /* light 3 for load 2 */
    expect_cost("lamp_mark", lamp_mark(card, LENGTH_A, sheet, 9), 39);
    sheet[6] = 1; /* light 2 */
    expect_cost("lamp_mark", lamp_mark(card, LENGTH_A, sheet, 9), 37);
    sheet[6] = 0; /* light 1 */
    expect("lamp_mark", lamp_mark(card, LENGTH_A, sheet, 9), LAMP_LOAD_NOT_SERVED);
}

/* Refusal 15: acts that the caller has no right to, by role or as the sitting stands. They come before 16 and 17. */
static void refuse_callers(void)
{
    refuse("lamp_sitting_open", open_with(opened, 7, 0, LENGTH_A), LAMP_NOT_PERMITTED, opened);
    refuse("lamp_sitting_seat", lamp_sitting_seat(opened, 7, 7, seats, SEATS), LAMP_NOT_PERMITTED, opened);
    refuse("lamp_sitting_seat", lamp_sitting_seat(unopened, 0, 0, seats, SEATS), LAMP_NOT_PERMITTED, unopened);
    refuse("lamp_sitting_seat", lamp_sitting_seat(closed, 0, 8, seats, SEATS), LAMP_NOT_PERMITTED, closed);
    refuse("lamp_sitting_close", lamp_sitting_close(opened, 7), LAMP_NOT_PERMITTED, opened);
    refuse("lamp_sitting_close", lamp_sitting_close(unopened, 0), LAMP_NOT_PERMITTED, unopened);
    refuse("lamp_sitting_close", lamp_sitting_close(closed, 0), LAMP_NOT_PERMITTED, closed);
    refuse("lamp_sitting_submit", submit_with(spent, 0, LENGTH_A, 8), LAMP_NOT_PERMITTED, spent);
    refuse("lamp_sitting_submit", submit_with(unopened, 7, LENGTH_A, 9), LAMP_NOT_PERMITTED, unopened);
    refuse("lamp_sitting_submit", submit_with(closed, 8, LENGTH_A, 9), LAMP_NOT_PERMITTED, closed);
    refuse("lamp_sitting_least", lamp_sitting_least(unopened, 0, seats, SEATS), LAMP_NOT_PERMITTED, unopened);
    refuse("lamp_sitting_least", lamp_sitting_least(opened, 7, seats, SEATS), LAMP_NOT_PERMITTED, opened);
    refuse("lamp_sitting_least", lamp_sitting_least(opened, 8, seats, SEATS), LAMP_NOT_PERMITTED, opened);
    refuse("lamp_sitting_lowest", lamp_sitting_lowest(unopened, 0, 7, seats, SEATS), LAMP_NOT_PERMITTED, unopened);
    refuse("lamp_sitting_lowest", lamp_sitting_lowest(opened, 8, 7, seats, SEATS), LAMP_NOT_PERMITTED, opened);
    refuse("lamp_sitting_lowest", lamp_sitting_lowest(opened, 7, 0, seats, SEATS), LAMP_NOT_PERMITTED, opened);
    refuse("lamp_sitting_used", lamp_sitting_used(opened, 7), LAMP_NOT_PERMITTED, opened);
    refuse("lamp_sitting_used", lamp_sitting_used(unopened, 0), LAMP_NOT_PERMITTED, unopened);
}

/* Refusals 16 and 17, which come before those of a sheet, and these, which use a submission. */
static void refuse_seats(void)
{
    struct lamp_sitting used = opened;

    refuse("lamp_sitting_seat", lamp_sitting_seat(opened, 0, 0, seats, SEATS), LAMP_SEAT_UNAVAILABLE, opened);
    refuse("lamp_sitting_seat", lamp_sitting_seat(opened, 0, 7, seats, SEATS), LAMP_SEAT_UNAVAILABLE, opened);
    refuse("lamp_sitting_seat", lamp_sitting_seat(opened, 0, 8, seats, 1), LAMP_SEAT_UNAVAILABLE, opened);
    refuse("lamp_sitting_seat", lamp_sitting_seat(opened, 0, 8, NULL, 0), LAMP_SEAT_UNAVAILABLE, opened);
    refuse("lamp_sitting_submit", submit_with(spent, 8, LENGTH_A, 8), LAMP_SEAT_UNAVAILABLE, spent);
    refuse("lamp_sitting_least", lamp_sitting_least(closed, 8, seats, SEATS), LAMP_SEAT_UNAVAILABLE, closed);
    refuse("lamp_sitting_lowest", lamp_sitting_lowest(opened, 0, 8, seats, SEATS), LAMP_SEAT_UNAVAILABLE, opened);
    refuse("lamp_sitting_lowest", lamp_sitting_lowest(closed, 0, 0, seats, SEATS), LAMP_SEAT_UNAVAILABLE, closed);

    refuse("lamp_sitting_open", open_with(closed, 0, 0, LENGTH_A), LAMP_ALLOWANCE_SPENT, closed);
    refuse("lamp_sitting_open", open_with(opened, 0, LAMP_MAX_ALLOWANCE + 1, LENGTH_A), LAMP_ALLOWANCE_SPENT, opened);
    refuse("lamp_sitting_open", open_with(unopened, 0, UINT64_MAX, LENGTH_A), LAMP_ALLOWANCE_SPENT, unopened);
    refuse("lamp_sitting_submit", submit_with(spent, 7, LENGTH_A, 8), LAMP_ALLOWANCE_SPENT, spent);

    used.submissions++;
    refuse("lamp_sitting_submit", submit_with(opened, 7, LENGTH_A, 8), LAMP_WRONG_LENGTH, used);
    sheet[8] = 3;
    refuse("lamp_sitting_submit", submit_with(opened, 7, LENGTH_A, 9), LAMP_ENTRY_RANGE, used);
    sheet[8] = LAMP_OFF;
    sheet[0] = 1;
    refuse("lamp_sitting_submit", submit_with(opened, 7, LENGTH_A, 9), LAMP_LOAD_NOT_SERVED, used);
    sheet[0] = 2;
}

/* Four acts as a host calls them that leaves something above the 16 bits of a caller and of a candidate. gcc itself
 * leaves zeros there. So each act is called as if its caller and its candidate had 64 bits, which System V C hands over
 * in the same registers. The compiler cannot tell which functions these are. */
typedef struct lamp_reply of_caller(struct lamp_sitting, uint64_t);
typedef struct lamp_reply of_seats(struct lamp_sitting, uint64_t, struct lamp_seat *, size_t);
typedef struct lamp_reply of_candidate(struct lamp_sitting, uint64_t, uint64_t, struct lamp_seat *, size_t);
static of_caller *volatile whole_used = (of_caller *)(void (*)(void))lamp_sitting_used;
static of_seats *volatile whole_least = (of_seats *)(void (*)(void))lamp_sitting_least;
static of_candidate *volatile whole_seat = (of_candidate *)(void (*)(void))lamp_sitting_seat;
static of_candidate *volatile whole_lowest = (of_candidate *)(void (*)(void))lamp_sitting_lowest;

/* Only the low 16 bits of a caller and a candidate count, whatever is above them. */
static void read_by_low_bits(uint64_t above)
{
    struct lamp_reply found = whole_lowest(opened, above + 7, above + 7, seats, SEATS);

    expect_cost("lamp_sitting_lowest", (struct lamp_answer){found.number, found.cost}, 37);
    found = whole_lowest(opened, above, above + 7, seats, SEATS);
    expect_cost("lamp_sitting_lowest", (struct lamp_answer){found.number, found.cost}, 37);
    found = whole_least(closed, above + 7, seats, SEATS);
    expect_cost("lamp_sitting_least", (struct lamp_answer){found.number, found.cost}, closed.least);
    found = whole_used(opened, above);
    expect_cost("lamp_sitting_used", (struct lamp_answer){found.number, found.cost}, opened.submissions);
    refuse("lamp_sitting_lowest", whole_lowest(opened, above + 8, above + 7, seats, SEATS), LAMP_NOT_PERMITTED, opened);
    refuse("lamp_sitting_seat", whole_seat(opened, above, above, seats, SEATS), LAMP_SEAT_UNAVAILABLE, opened);
    refuse("lamp_sitting_seat", whole_seat(opened, above, above + 7, seats, SEATS), LAMP_SEAT_UNAVAILABLE, opened);
}

static struct lamp_answer low_half(uint64_t start, uint8_t *bytes, size_t length)
{
    return lamp_practice_card((uint32_t)start, bytes, length);
}

/* The compiler cannot tell which function this is. So all 64 bits are handed to low_half, which may leave the high half
 * in the register in which it hands on the start. */
static struct lamp_answer (*volatile any_half)(uint64_t, uint8_t *, size_t) = low_half;

/* Makes a card over bytes that hold `paint`. Then the first are those of the card, and all others are as they were,
 * also those beyond the length. */
static void expect_practice(const struct practice *practice, int paint)
{
    uint8_t found[LAMP_MAX_PRACTICE + 1], left[LAMP_MAX_PRACTICE + 1];

    memset(found, paint, sizeof found);
    memset(left, paint, sizeof left);
    memcpy(left, practice->made, practice->written);
    expect("lamp_practice_card", any_half(practice->start, found, practice->length), practice->wanted);
    looked++;
    if (memcmp(found, left, sizeof found) == 0)
        return;
    faults++;
    printf("lamp_practice_card: start %" PRIu64 " with %zu bytes does not leave the bytes that lamp.h says\n",
           practice->start, practice->length);
}

/* A byte that is written with the value it had is not seen, so each card is made over two values. */
static void make_practice(void)
{
    for (size_t k = 0; k < sizeof practices / sizeof practices[0]; k++) {
        expect_practice(&practices[k], 0x5A);
        expect_practice(&practices[k], 0xA5);
    }
}

/* A longest card is made in a buffer of just the header's size, and it is accepted with that length. */
static void make_longest(void)
{
    uint8_t made[LAMP_MAX_PRACTICE];
    struct practice longest = {0, 6548, sizeof made, made, sizeof made};

    expect("lamp_practice_card", lamp_practice_card(6548, made, sizeof made), 0);
    expect("lamp_check_card", lamp_check_card(made, sizeof made), 0);
    expect_practice(&longest, 0x5A);
    expect_practice(&longest, 0xA5);
}

/* Writes a table over bytes that hold `paint`. Then the first are those of the table, and all others are as they were,
 * also those beyond the length. */
static void expect_table(const struct table *table, int paint)
{
    uint8_t found[LAMP_MAX_TABLE + 8], left[LAMP_MAX_TABLE + 8];

    memset(found, paint, sizeof found);
    memset(left, paint, sizeof left);
    memcpy(left, catalogue, table->written);
    expect("lamp_catalogue_table", lamp_catalogue_table(table->top, found, table->length), table->wanted);
    looked++;
    if (memcmp(found, left, sizeof found) == 0)
        return;
    faults++;
    printf("lamp_catalogue_table: top %" PRIu64 " with %zu bytes does not leave the bytes that lamp.h says\n",
           table->top, table->length);
}

/* Each table is written over two values, as the practice cards are. */
static void write_tables(void)
{
    for (size_t k = 0; k < sizeof tables / sizeof tables[0]; k++) {
        expect_table(&tables[k], 0x5A);
        expect_table(&tables[k], 0xA5);
    }
}

/* A card whose table the call writes behind its first 17 bytes is accepted, and its running costs are the entries. All
 * else decides: the same card with a price above its bound is refused by 6, and with a load above it by 8. */
static void check_catalogue_card(void)
{
    uint8_t made[LAMP_MAX_CARD] = {0x44, 0x4C, 0x53, 1, 0, 1, 200, 1};
    const size_t loads_at = 17 + LAMP_MAX_TABLE, length = loads_at + 2;

    expect("lamp_catalogue_table", lamp_catalogue_table(made[6], made + 17, LAMP_MAX_TABLE), 0);
    expect("lamp_check_card", lamp_check_card(made, length), 0);
    for (uint64_t k = 0; k <= 200; k++)
        expect_cost("lamp_running_cost", lamp_running_cost(made, length, 1, k), 400 + 3 * k + k * (k - (k > 0)) / 2);
    made[loads_at] = 201;
    expect("lamp_check_card", lamp_check_card(made, length), LAMP_LOAD_RANGE);
    made[12] = 0xFF;
    expect("lamp_check_card", lamp_check_card(made, length), LAMP_PRICE_RANGE);
}

/* A table of top 4 in a card with Q 3 and one slot. With the length that top makes the card is refused by 5. With the
 * length that Q makes it is accepted, and its load is 418, the low half of F(4): 139 modules of top step 3 give 417. */
static void check_other_top(void)
{
    uint8_t made[LAMP_MAX_CARD] = {0x44, 0x4C, 0x53, 1, 0, 140, 3, 1};
    const size_t loads_at = 17 + 4 * (3 + 1);

    expect("lamp_catalogue_table", lamp_catalogue_table(4, made + 17, LAMP_MAX_TABLE), 0);
    expect("lamp_check_card", lamp_check_card(made, loads_at + 4 + 2), LAMP_CARD_LENGTH);
    expect("lamp_check_card", lamp_check_card(made, loads_at + 2), 0);
    made[5] = 139;
    expect("lamp_check_card", lamp_check_card(made, loads_at + 2), LAMP_LOAD_RANGE);
}

int main(void)
{
    for (size_t k = 0; k < sizeof damages / sizeof damages[0]; k++) {
        uint8_t before = card[damages[k].at];

        card[damages[k].at] = damages[k].byte;
        refuse_card(damages[k].length, damages[k].wanted);
        card[damages[k].at] = before;
    }
    refuse_planning();
    refuse_callers();
    refuse_seats();
    read_by_low_bits(UINT64_C(0x10000));
    read_by_low_bits(UINT64_C(0x8000000000000000));
    read_by_low_bits(UINT64_C(0xFFFFFFFFFFFF0000));
    explain_sheets();
    plan_groups();
    plan_falling();
    refuse_handed_in();
    make_practice();
    make_longest();
    write_tables();
    check_catalogue_card();
    check_other_top();
    printf("refusals: %u answers and %u buffers compared with lamp.h, %u faults\n", compared, looked, faults);
    return faults != 0;
}
