/* Compares the limits that lamp.h names with the rules of documents 01 and 02 and with the library, and measures the
 * stack that each call uses. Prints a line for each call, each fault, and how many comparisons were made; fails if
 * there is a fault. host/build builds it.
 */
#define _XOPEN_SOURCE 700
#include <inttypes.h>
#include <stdio.h>
#include <stdlib.h>
#include <string.h>
#include <ucontext.h>

#include "lamp.h"

/* The names of lamp.h can be used by the preprocessor. */
#if LAMP_CARD_VERSION < 1 || LAMP_MAX_CARD < 1 || LAMP_MAX_PLAN < 1 || LAMP_MAX_EXACT_WORK < 1 || \
    LAMP_MAX_COARSE_WORK < 1 || LAMP_MAX_SHEET < 1 || LAMP_MAX_PRACTICE < 1 || LAMP_MAX_TABLE < 1 || \
    LAMP_MAX_LIST < 1 || LAMP_MAX_RATIO < 1 || LAMP_MAX_SEATS < 1 || LAMP_MAX_ALLOWANCE < 1 || \
    LAMP_MAX_STACK < 1 || LAMP_OFF < 1
#error "a limit of lamp.h is not a positive number"
#endif

/* The bounds of document 01, the most slots of a practice card (02, section 1), the most seats and submissions of a
 * sitting (02, section 4), and the most entries of a list of counts and the largest ratio (02, section 8). They stand
 * here and nowhere else in this file. */
enum { MODULES = 200, TOP_STEP = 200, SLOTS = 1024, PRICE = 500000000, ENTRY = 1000000, PRACTICE_SLOTS = 64 };
enum { SEATS = 32, ALLOWANCE = 1000, LIST = 201, RATIO = 200 };

/* The sizes that the documents' rules give for these bounds, and the places of a card's fields. */
enum {
    CARD_BYTES = 17 + 4 * (TOP_STEP + 1) + 2 * SLOTS,
    PLAN_BYTES = SLOTS,
    EXACT_BYTES = (MODULES + 1) * SLOTS,
    COARSE_BYTES = 10 * SLOTS,
    SHEET_BYTES = MODULES * SLOTS,
    PRACTICE_BYTES = 17 + 4 * (TOP_STEP + 1) + 2 * PRACTICE_SLOTS,
    TABLE_BYTES = 4 * (TOP_STEP + 1),
    TABLE_AT = 17,
    LOADS_AT = TABLE_AT + 4 * (TOP_STEP + 1)
};

/* The stack on which a call is measured, the bytes that a function of known size writes on it, and the number of which
 * LAMP_MAX_STACK is a multiple. */
enum { STACK_BYTES = 1 << 20, KNOWN_BYTES = 4096, KNOWN_FRAME = 64, STACK_UNIT = 256 };

/* A start whose practice card is as long as one can be, and how many practice cards are looked at in a row. */
enum { LONGEST_START = 6548, STARTS = 100000 };

static uint8_t card[CARD_BYTES], plan[PLAN_BYTES], work[EXACT_BYTES], sheet[SHEET_BYTES], practice[PRACTICE_BYTES];
static uint8_t table[TABLE_BYTES];
static uint16_t list[LIST + 1];
static struct lamp_seat seats[SEATS + 1];
static unsigned compared, faults;
static size_t largest_stack; /* of the calls measured so far */

/* Counts a comparison, and a fault if it does not hold. */
static int counted(int holds)
{
    compared++;
    faults += !holds;
    return holds;
}

static void compare(const char *subject, const char *property, uint64_t found, uint64_t wanted)
{
    if (!counted(found == wanted))
        printf("%s, %s: %" PRIu64 " found, %" PRIu64 " wanted\n", subject, property, found, wanted);
}

static void compare_range(const char *subject, const char *property, uint64_t found, uint64_t least, uint64_t most)
{
    if (!counted(least <= found && found <= most))
        printf("%s, %s: %" PRIu64 " found, %" PRIu64 " to %" PRIu64 " wanted\n", subject, property, found, least, most);
}

static void put(size_t at, uint64_t value, size_t bytes)
{
    for (size_t k = 0; k < bytes; k++)
        card[at + k] = (uint8_t)(value >> (8 * k));
}

/* A convex table from 0 to its bound: it rises all the way, or it falls all the way. */
static void put_table(int falling)
{
    for (uint64_t k = 0; k <= TOP_STEP; k++) {
        uint64_t from = falling ? TOP_STEP - k : k;
        put(TABLE_AT + 4 * k, ENTRY * from * from / (TOP_STEP * TOP_STEP), 4);
    }
}

/* The largest show: every field at its bound, a rising convex table that ends at its bound, changing loads. */
static void make_card(void)
{
    memcpy(card, "DLS", 3);
    put(3, LAMP_CARD_VERSION, 2);
    put(5, MODULES, 1);
    put(6, TOP_STEP, 1);
    put(7, SLOTS, 2);
    put(9, PRICE, 4);
    put(13, PRICE, 4);
    put_table(0);
    for (uint64_t slot = 0; slot < SLOTS; slot++) /* the first load is at its bound */
        put(LOADS_AT + 2 * slot, (MODULES * TOP_STEP + slot * 7919) % (MODULES * TOP_STEP + 1), 2);
    for (uint16_t k = 0; k <= LIST; k++) /* all counts of the rack, and one entry more */
        list[k] = k;
}

/* The header's sizes are those of the rules. */
static void compare_sizes(void)
{
    compare("LAMP_MAX_CARD", "bytes", LAMP_MAX_CARD, CARD_BYTES);
    compare("LAMP_MAX_PLAN", "bytes", LAMP_MAX_PLAN, PLAN_BYTES);
    compare("LAMP_MAX_EXACT_WORK", "bytes", LAMP_MAX_EXACT_WORK, EXACT_BYTES);
    compare("LAMP_MAX_COARSE_WORK", "bytes", LAMP_MAX_COARSE_WORK, COARSE_BYTES);
    compare("LAMP_MAX_SHEET", "bytes", LAMP_MAX_SHEET, SHEET_BYTES);
    compare("LAMP_MAX_PRACTICE", "bytes", LAMP_MAX_PRACTICE, PRACTICE_BYTES);
    compare("LAMP_MAX_TABLE", "bytes", LAMP_MAX_TABLE, TABLE_BYTES);
    compare("LAMP_MAX_LIST", "entries", LAMP_MAX_LIST, LIST);
    compare("LAMP_MAX_RATIO", "ratio", LAMP_MAX_RATIO, RATIO);
    compare("LAMP_MAX_SEATS", "records", LAMP_MAX_SEATS, SEATS);
    compare("LAMP_MAX_ALLOWANCE", "submissions", LAMP_MAX_ALLOWANCE, ALLOWANCE);
}

/* Writes one field of the largest card, and puts back what was there once the card has been checked. */
static void compare_field(const char *what, size_t at, size_t bytes, uint64_t value, uint64_t wanted)
{
    uint8_t before[4];

    memcpy(before, card + at, bytes);
    put(at, value, bytes);
    compare(what, "number", lamp_check_card(card, sizeof card).number, wanted);
    memcpy(card + at, before, bytes);
}

/* The library's bounds are those of this file: the largest card is accepted, and one above each bound is refused. */
static void compare_bounds(void)
{
    compare("the largest card", "number", lamp_check_card(card, LAMP_MAX_CARD).number, 0);
    compare("a card of one byte less", "number", lamp_check_card(card, LAMP_MAX_CARD - 1).number, LAMP_CARD_LENGTH);
    compare_field("version", 3, 2, LAMP_CARD_VERSION + 1, LAMP_WRONG_VERSION);
    compare_field("modules", 5, 1, MODULES + 1, LAMP_RACK_SIZE);
    compare_field("top step", 6, 1, TOP_STEP + 1, LAMP_RACK_SIZE);
    compare_field("slots", 7, 2, SLOTS + 1, LAMP_SLOT_COUNT);
    compare_field("warm-up price", 9, 4, PRICE + 1, LAMP_PRICE_RANGE);
    compare_field("cool-down price", 13, 4, PRICE + 1, LAMP_PRICE_RANGE);
    compare_field("F(Q)", LOADS_AT - 4, 4, ENTRY + 1, LAMP_PRICE_RANGE);
    compare_field("load", LOADS_AT, 2, MODULES * TOP_STEP + 1, LAMP_LOAD_RANGE);
}

/* What the measured calls are given, and what they answer. */
static struct {
    uint64_t card_len, plan_len, work_len, sheet_len, practice_len, table_len, count, load, modules, state, seats_len;
    uint64_t list_len, ratio;
} given;
static struct lamp_answer answer;
static struct lamp_reply reply;

static void check_card(void)
{
    answer = lamp_check_card(card, given.card_len);
}

static void running_cost(void)
{
    answer = lamp_running_cost(card, given.card_len, given.count, given.load);
}

static void plan_exact(void)
{
    answer = lamp_plan_exact(card, given.card_len, plan, given.plan_len, work, given.work_len);
}

static void plan_coarse(void)
{
    answer = lamp_plan_coarse(card, given.card_len, plan, given.plan_len, work, given.work_len);
}

static void plan_groups(void)
{
    answer = lamp_plan_groups(card, given.card_len, list, given.list_len, given.ratio, plan, given.plan_len, work,
                              given.work_len);
}

static void make_sheet(void)
{
    answer = lamp_sheet(card, given.card_len, plan, given.plan_len, sheet, given.sheet_len);
}

static void mark(void)
{
    answer = lamp_mark(card, given.card_len, sheet, given.sheet_len);
}

static void explain(void)
{
    struct lamp_points points = lamp_explain(card, given.card_len, sheet, given.sheet_len, work, given.work_len);

    answer = (struct lamp_answer){points.number, points.spread + points.swaps + points.counts};
}

static void rounded_count(void)
{
    answer = lamp_rounded_count(given.count, given.modules);
}

static void practice_card(void)
{
    answer = lamp_practice_card(LONGEST_START, practice, given.practice_len);
}

static void catalogue_table(void)
{
    answer = lamp_catalogue_table(TOP_STEP, table, given.table_len);
}

/* The sitting that an act is handed. */
static struct lamp_sitting handed(void)
{
    return (struct lamp_sitting){given.state, LAMP_MAX_ALLOWANCE, 0, 1};
}

/* The number and the cost that the caller of an act is told. */
static void tell(void)
{
    answer = (struct lamp_answer){reply.number, reply.cost};
}

static void open_sitting(void)
{
    reply = lamp_sitting_open(handed(), 0, LAMP_MAX_ALLOWANCE, card, given.card_len, plan, given.plan_len, work,
                              given.work_len, seats, given.seats_len);
    tell();
}

/* In a full list the last seat is that of candidate LAMP_MAX_SEATS. Its record is emptied before the candidate is
 * seated there. */
static void seat(void)
{
    seats[LAMP_MAX_SEATS - 1].candidate = 0;
    reply = lamp_sitting_seat(handed(), 0, LAMP_MAX_SEATS, seats, given.seats_len);
    tell();
}

static void close_sitting(void)
{
    reply = lamp_sitting_close(handed(), 0);
    tell();
}

static void submit(void)
{
    reply = lamp_sitting_submit(handed(), LAMP_MAX_SEATS, card, given.card_len, sheet, given.sheet_len, seats,
                                given.seats_len);
    tell();
}

static void least(void)
{
    reply = lamp_sitting_least(handed(), LAMP_MAX_SEATS, seats, given.seats_len);
    tell();
}

static void lowest(void)
{
    reply = lamp_sitting_lowest(handed(), LAMP_MAX_SEATS, LAMP_MAX_SEATS, seats, given.seats_len);
    tell();
}

static void used(void)
{
    reply = lamp_sitting_used(handed(), 0);
    tell();
}

static void nothing(void)
{
}

static void write_known_bytes(void)
{
    volatile uint8_t bytes[KNOWN_BYTES];

    for (size_t k = 0; k < sizeof bytes; k++)
        bytes[k] = 0;
}

static void no_stack(void)
{
    printf("limits: a function cannot be run on a stack of its own\n");
    exit(1);
}

/* The deepest byte that a function changes on a stack full of the byte `paint`, counted from the stack's top. Filling
 * the stack also binds memset, so that the dynamic linker does not run while a call is measured. */
static size_t depth(void (*function)(void), int paint)
{
    static _Alignas(16) uint8_t stack[STACK_BYTES];
    static ucontext_t here, there;
    size_t untouched = 0;

    memset(stack, paint, sizeof stack);
    if (getcontext(&there) != 0)
        no_stack();
    there.uc_stack.ss_sp = stack;
    there.uc_stack.ss_size = sizeof stack;
    there.uc_link = &here;
    makecontext(&there, function, 0);
    if (swapcontext(&here, &there) != 0)
        no_stack();
    while (untouched < sizeof stack && stack[untouched] == paint)
        untouched++;
    return sizeof stack - untouched;
}

/* The bytes of stack that a function uses beyond an empty one. A byte that is written with the value it had is not
 * seen; so two fillings are tried, and the larger figure is taken. */
static size_t stack_of(void (*function)(void))
{
    size_t first = depth(function, 0x5A) - depth(nothing, 0x5A);
    size_t second = depth(function, 0xA5) - depth(nothing, 0xA5);

    return first > second ? first : second;
}

/* Each call, the work bytes and the state of the sitting that it is given, and which of the given numbers makes it
 * refuse when it is one less. The planner over a list stands here twice, since it refuses a list before it looks at
 * its buffers. The order matters: the sheet is made from the exact plan, and then it is marked and explained. The calls
 * that read no card come last. */
static const struct call {
    const char *name;
    void (*make)(void);
    size_t work_len;
    uint64_t state, *lessened;
    enum lamp_refusal refusal;
} calls[] = {
    {"lamp_check_card", check_card, 0, 0, &given.card_len, LAMP_CARD_LENGTH},
    {"lamp_running_cost", running_cost, 0, 0, &given.count, LAMP_LOAD_NOT_SERVED},
    {"lamp_plan_coarse", plan_coarse, LAMP_MAX_COARSE_WORK, 0, &given.work_len, LAMP_BUFFER_TOO_SHORT},
    {"lamp_plan_groups", plan_groups, LAMP_MAX_EXACT_WORK, 0, &given.work_len, LAMP_BUFFER_TOO_SHORT},
    {"lamp_plan_groups", plan_groups, LAMP_MAX_EXACT_WORK, 0, &given.list_len, LAMP_COUNT_LIST},
    {"lamp_plan_exact", plan_exact, LAMP_MAX_EXACT_WORK, 0, &given.work_len, LAMP_BUFFER_TOO_SHORT},
    {"lamp_sheet", make_sheet, 0, 0, &given.sheet_len, LAMP_BUFFER_TOO_SHORT},
    {"lamp_mark", mark, 0, 0, &given.sheet_len, LAMP_WRONG_LENGTH},
    {"lamp_explain", explain, LAMP_MAX_EXACT_WORK, 0, &given.work_len, LAMP_BUFFER_TOO_SHORT},
    {"lamp_sitting_open", open_sitting, LAMP_MAX_EXACT_WORK, 0, &given.work_len, LAMP_BUFFER_TOO_SHORT},
    {"lamp_sitting_submit", submit, 0, 1, &given.sheet_len, LAMP_WRONG_LENGTH},
    {"lamp_rounded_count", rounded_count, 0, 0, &given.modules, LAMP_ENTRY_RANGE},
    {"lamp_practice_card", practice_card, 0, 0, &given.practice_len, LAMP_BUFFER_TOO_SHORT},
    {"lamp_catalogue_table", catalogue_table, 0, 0, &given.table_len, LAMP_BUFFER_TOO_SHORT},
    {"lamp_sitting_seat", seat, 0, 1, &given.seats_len, LAMP_SEAT_UNAVAILABLE},
    {"lamp_sitting_close", close_sitting, 0, 1, &given.state, LAMP_NOT_PERMITTED},
    {"lamp_sitting_least", least, 0, 2, &given.state, LAMP_NOT_PERMITTED},
    {"lamp_sitting_lowest", lowest, 0, 1, &given.seats_len, LAMP_SEAT_UNAVAILABLE},
    {"lamp_sitting_used", used, 0, 1, &given.state, LAMP_NOT_PERMITTED},
};
enum { CALLS = sizeof calls / sizeof calls[0], CALLS_ON_A_CARD = CALLS - 8 };

/* A list of LAMP_MAX_SEATS seats that are all taken, by the candidates from 1 on, and one record more. */
static void fill_seats(void)
{
    for (uint16_t k = 0; k <= LAMP_MAX_SEATS; k++)
        seats[k] = (struct lamp_seat){0, (uint16_t)(k + 1), 0, 0};
}

/* Gives the calls the largest show, with buffers of just the header's sizes. */
static void give_largest(size_t work_len, uint64_t state)
{
    given.state = state;
    given.seats_len = LAMP_MAX_SEATS;
    fill_seats();
    given.card_len = LAMP_MAX_CARD;
    given.plan_len = LAMP_MAX_PLAN;
    given.work_len = work_len;
    given.sheet_len = LAMP_MAX_SHEET;
    given.practice_len = LAMP_MAX_PRACTICE;
    given.table_len = LAMP_MAX_TABLE;
    given.count = MODULES;
    given.load = MODULES * TOP_STEP;
    given.modules = MODULES;
    given.list_len = LAMP_MAX_LIST;
    given.ratio = LAMP_MAX_RATIO;
    memset(work, LAMP_OFF, sizeof work);
}

static size_t work_bytes_left(size_t length)
{
    size_t left = 0;

    for (size_t k = 0; k < length; k++)
        left += work[k] != 0;
    return left;
}

/* Makes a call on the largest show, then with one of its numbers one less, and compares its answers and its stack.
 * `show` says which table the show has. */
static void measure(const struct call *call, const char *show)
{
    size_t accepted, refused;

    give_largest(call->work_len, call->state);
    accepted = stack_of(call->make);
    compare(call->name, "number", answer.number, 0);
    if (call->work_len != 0)
        compare(call->name, "work bytes that are not zero", work_bytes_left(call->work_len), 0);

    *call->lessened -= 1;
    refused = stack_of(call->make);
    compare(call->name, "number when it refuses", answer.number, call->refusal);

    printf("%s: %zu bytes of stack on %s, %zu when it refuses\n", call->name, accepted, show, refused);
    compare_range(call->name, "stack", accepted, 1, LAMP_MAX_STACK);
    compare_range(call->name, "stack when it refuses", refused, 1, LAMP_MAX_STACK);
    largest_stack = accepted > largest_stack ? accepted : largest_stack;
    largest_stack = refused > largest_stack ? refused : largest_stack;
}

/* A plan buffer of one byte less is refused too. */
static void compare_plan_length(void)
{
    give_largest(LAMP_MAX_COARSE_WORK, 0);
    given.plan_len = LAMP_MAX_PLAN - 1;
    plan_coarse();
    compare("lamp_plan_coarse", "number for a short plan", answer.number, LAMP_BUFFER_TOO_SHORT);
    given.work_len = LAMP_MAX_EXACT_WORK;
    plan_exact();
    compare("lamp_plan_exact", "number for a short plan", answer.number, LAMP_BUFFER_TOO_SHORT);
    plan_groups();
    compare("lamp_plan_groups", "number for a short plan", answer.number, LAMP_BUFFER_TOO_SHORT);
}

/* The library's bounds of a list and a ratio are those of this file. The list of all counts keeps the rules with every
 * ratio from 1 to the largest, and then the cost is the exact planner's. */
static void compare_lists(void)
{
    uint64_t planned = 0, least;

    give_largest(LAMP_MAX_EXACT_WORK, 0);
    plan_exact();
    least = answer.cost;
    for (given.ratio = 0; given.ratio <= RATIO + 1; given.ratio++) {
        plan_groups();
        planned += answer.number == 0 && answer.cost == least;
    }
    compare("ratios 0 to 201", "plans of the exact planner's cost", planned, RATIO);
    compare("ratio 201", "number", answer.number, LAMP_COUNT_LIST);
    given.ratio = 0;
    plan_groups();
    compare("ratio 0", "number", answer.number, LAMP_COUNT_LIST);
    given.ratio = RATIO;
    given.list_len = LIST + 1;
    plan_groups();
    compare("a list of 202 entries", "number", answer.number, LAMP_COUNT_LIST);
}

/* The sheet of the exact plan has no points above the least. Without its last byte it is not explained. */
static void compare_explained(void)
{
    give_largest(LAMP_MAX_EXACT_WORK, 0);
    plan_exact();
    make_sheet();
    explain();
    compare("lamp_explain", "number for the exact plan's sheet", answer.number, 0);
    compare("lamp_explain", "points of the exact plan's sheet", answer.cost, 0);
    given.sheet_len = LAMP_MAX_SHEET - 1;
    explain();
    compare("lamp_explain", "number for a short sheet", answer.number, LAMP_WRONG_LENGTH);
}

/* The library's seats and allowance are those of this file: the largest allowance is accepted and one more is not, an
 * opening empties just the seats of a list, and just as many candidates are seated. */
static void compare_sitting(void)
{
    size_t emptied = 0, seated = 0;

    fill_seats();
    reply = lamp_sitting_open(handed(), 0, ALLOWANCE + 1, card, sizeof card, plan, sizeof plan, work, sizeof work,
                              seats, SEATS + 1);
    compare("an allowance of 1,001", "number", reply.number, LAMP_ALLOWANCE_SPENT);
    reply = lamp_sitting_open(handed(), 0, ALLOWANCE, card, sizeof card, plan, sizeof plan, work, sizeof work, seats,
                              SEATS + 1);
    compare("an allowance of 1,000", "number", reply.number, 0);
    for (size_t k = 0; k <= SEATS; k++)
        emptied += seats[k].candidate == 0;
    compare("an opening with 33 records", "empty records", emptied, SEATS);
    for (uint16_t k = 0; k <= SEATS + 1; k++)
        seated += lamp_sitting_seat(reply.sitting, 0, (uint16_t)(100 + k), seats, SEATS + 1).number == 0;
    compare("a list of 33 records", "seated candidates", seated, SEATS);
}

/* Buffers of length 0 may be NULL: no card at all, a show without slots, no list, no room for a practice card or a
 * table, no seat. */
static void compare_empty(void)
{
    put(7, 0, 2);
    compare("no card", "number", lamp_check_card(NULL, 0).number, LAMP_NOT_A_CARD);
    compare("empty exact plan", "number", lamp_plan_exact(card, LOADS_AT, NULL, 0, NULL, 0).number, 0);
    compare("empty coarse plan", "number", lamp_plan_coarse(card, LOADS_AT, NULL, 0, NULL, 0).number, 0);
    compare("empty plan of a list", "number",
            lamp_plan_groups(card, LOADS_AT, list, LIST, 1, NULL, 0, NULL, 0).number, 0);
    compare("no list", "number", lamp_plan_groups(card, LOADS_AT, NULL, 0, 1, NULL, 0, NULL, 0).number,
            LAMP_COUNT_LIST);
    compare("sheet of an empty plan", "number", lamp_sheet(card, LOADS_AT, NULL, 0, NULL, 0).number, 0);
    compare("empty sheet", "number", lamp_mark(card, LOADS_AT, NULL, 0).number, 0);
    compare("empty sheet, explained", "number", lamp_explain(card, LOADS_AT, NULL, 0, NULL, 0).number, 0);
    given.state = 1;
    compare("a sitting of an empty plan", "number",
            lamp_sitting_open(handed(), 0, 1, card, LOADS_AT, NULL, 0, NULL, 0, NULL, 0).number, 0);
    compare("an empty sheet and no seat", "number",
            lamp_sitting_submit(handed(), 1, card, LOADS_AT, NULL, 0, NULL, 0).number, LAMP_SEAT_UNAVAILABLE);
    put(7, SLOTS, 2);
    compare("no seat to take", "number", lamp_sitting_seat(handed(), 0, 1, NULL, 0).number, LAMP_SEAT_UNAVAILABLE);
    compare("no seat to read", "number", lamp_sitting_lowest(handed(), 1, 1, NULL, 0).number, LAMP_SEAT_UNAVAILABLE);
    compare("no seat, the supervisor", "number", lamp_sitting_least(handed(), 0, NULL, 0).number, 0);
    compare("no room for a card", "number", lamp_practice_card(1, NULL, 0).number, LAMP_BUFFER_TOO_SHORT);
    compare("no room and start 0", "number", lamp_practice_card(0, NULL, 0).number, LAMP_ZERO_START);
    compare("no room for a table", "number", lamp_catalogue_table(TOP_STEP, NULL, 0).number, LAMP_BUFFER_TOO_SHORT);
    compare("no room and top 201", "number", lamp_catalogue_table(TOP_STEP + 1, NULL, 0).number, LAMP_RACK_SIZE);
}

/* The length of a practice card, which its fields tell. It is 0 if the card is not made in the header's size, or not
 * accepted. */
static size_t practice_length(uint32_t start)
{
    size_t length;

    if (lamp_practice_card(start, practice, LAMP_MAX_PRACTICE).number != 0)
        return 0;
    length = 17 + 4 * (practice[6] + (size_t)1) + 2 * (practice[7] + (size_t)256 * practice[8]);
    return length <= LAMP_MAX_PRACTICE && lamp_check_card(practice, length).number == 0 ? length : 0;
}

/* The header's size is enough for the starts `stride`, 2 * `stride` and so on, and one of their cards needs it. */
static void compare_practice(const char *starts, uint32_t stride)
{
    size_t made = 0, longest = 0;

    for (uint32_t k = 1; k <= STARTS; k++) {
        size_t length = practice_length(k * stride);

        made += length != 0;
        longest = length > longest ? length : longest;
    }
    compare(starts, "practice cards made and accepted", made, STARTS);
    compare(starts, "bytes of the longest practice card", longest, LAMP_MAX_PRACTICE);
}

/* The header's size is enough for every top, and just the tops from 1 to the top step's bound have a table. The last
 * table needs the size, and a card of the largest show with it is accepted. */
static void compare_tables(void)
{
    uint64_t written = 0, first = 0, last = 0;

    for (uint64_t top = 0; top <= 70000; top++)
        if (lamp_catalogue_table(top, table, LAMP_MAX_TABLE).number == 0) {
            written++;
            first = first == 0 ? top : first;
            last = top;
        }
    compare("tops 0 to 70,000", "tables written", written, TOP_STEP);
    compare("tops 0 to 70,000", "first top with a table", first, 1);
    compare("tops 0 to 70,000", "last top with a table", last, TOP_STEP);
    lamp_catalogue_table(TOP_STEP, card + TABLE_AT, TABLE_BYTES);
    compare("the largest card, catalogue module", "number", lamp_check_card(card, sizeof card).number, 0);
}

/* All points of the dearest sheet above the least are of its counts. At the least cost every module starts once and is
 * active in every slot, since one more slot costs less than one more start. */
static void compare_dearest_points(uint64_t cost)
{
    const uint64_t slots = SLOTS, least = MODULES * (2 * (uint64_t)PRICE + slots * ENTRY);
    struct lamp_points points = lamp_explain(card, LAMP_MAX_CARD, sheet, LAMP_MAX_SHEET, work, LAMP_MAX_EXACT_WORK);

    compare("the dearest sheet, explained", "number", points.number, 0);
    compare("the dearest sheet", "spread", points.spread, 0);
    compare("the dearest sheet", "swaps", points.swaps, 0);
    compare("the dearest sheet", "counts", points.counts, cost - least);
}

/* The dearest sheet: every entry and price is at its bound, and each module starts as often as it can and is active as
 * long as it then can. It is active in slot 1 and in every slot of even number: in half of the slots and one more, with
 * half as many starts as there are slots. */
static void compare_dearest(void)
{
    const uint64_t starts = SLOTS / 2;

    for (uint64_t k = 0; k <= TOP_STEP; k++)
        put(TABLE_AT + 4 * k, ENTRY, 4);
    for (uint64_t slot = 1; slot <= SLOTS; slot++) {
        int active = slot == 1 || slot % 2 == 0;
        put(LOADS_AT + 2 * (slot - 1), active ? MODULES * TOP_STEP : 0, 2);
        memset(sheet + MODULES * (slot - 1), active ? TOP_STEP : LAMP_OFF, MODULES);
    }
    answer = lamp_mark(card, LAMP_MAX_CARD, sheet, LAMP_MAX_SHEET);
    compare("the dearest sheet", "cost", answer.cost, MODULES * (starts * 2 * PRICE + (starts + 1) * ENTRY));
    compare_range("the dearest sheet", "cost", answer.cost, 1, UINT64_C(103000000000000) - 1);
    compare_dearest_points(answer.cost);
}

/* These comparisons hand over buffers of the rules' sizes with the header's lengths. So the two must agree before. */
static void compare_with_library(void)
{
    make_card();
    compare_bounds();
    compare_range("a function of known size", "stack", stack_of(write_known_bytes), KNOWN_BYTES,
                  KNOWN_BYTES + KNOWN_FRAME);
    for (size_t k = 0; k < CALLS; k++)
        measure(&calls[k], "the largest show");
    put_table(1);
    for (size_t k = 0; k < CALLS_ON_A_CARD; k++)
        measure(&calls[k], "the largest show with a falling table");
    compare("LAMP_MAX_STACK", "bytes", LAMP_MAX_STACK, (largest_stack + STACK_UNIT - 1) / STACK_UNIT * STACK_UNIT);
    compare_plan_length();
    compare_lists();
    compare_explained();
    compare_sitting();
    compare_empty();
    compare("the longest start", "bytes of the practice card", practice_length(LONGEST_START), LAMP_MAX_PRACTICE);
    compare_practice("starts 1 to 100,000", 1);
    compare_practice("starts over all 32 bits", UINT32_MAX / STARTS);
    compare_tables();
    compare_dearest();
}

int main(void)
{
    compare_sizes();
    if (faults == 0)
        compare_with_library();
    printf("limits: %u compared, %u faults\n", compared, faults);
    return faults != 0;
}
