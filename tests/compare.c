/* Two releases of the library in one program: calls of all kinds with the same random input, accepted and refused, and every field of
 * every answer and every byte of every buffer that a call may write compared, those beyond what was lent too. tests/compare builds and runs it. */
#include "lamp.h"
#include <stdio.h>
#include <stdlib.h>
#include <string.h>

#define GUARD 16
#define MOST_SEATS 40
#define MOST_LIST 210
#define EACH_CALL(X) \
    X(check_card) X(running_cost) X(plan_exact) X(plan_coarse) X(plan_groups) X(sheet) X(mark) X(explain) X(rounded_count) X(practice_card) \
    X(catalogue_table) X(sitting_open) X(sitting_seat) X(sitting_close) X(sitting_submit) X(sitting_least) X(sitting_lowest) X(sitting_used)

/* Each call of the release before, under its name with before_ in front. */
#define BEFORE(call) extern __typeof__(lamp_##call) before_lamp_##call;
EACH_CALL(BEFORE)
#define CALL_NUMBER(call) CALL_##call,
enum { EACH_CALL(CALL_NUMBER) CALLS };
#define CALL_NAME(call) #call,
static const char *const names[CALLS] = {EACH_CALL(CALL_NAME)};

static uint64_t state;
static uint64_t draw(void)
{
    state ^= state << 13;
    state ^= state >> 7;
    state ^= state << 17;
    return state * 0x2545F4914F6CDD1Du;
}
static uint64_t below(uint64_t n) { return draw() % n; }

/* What a call is handed: the same twice, but for the buffers that it may write. */
static uint8_t card[LAMP_MAX_CARD + 64];
static size_t card_len, modules, top, slots;
static uint16_t list[MOST_LIST];
static uint8_t plans[2][LAMP_MAX_PLAN + 64], works[2][LAMP_MAX_EXACT_WORK + 64], sheets[2][LAMP_MAX_SHEET + 64], areas[2][LAMP_MAX_CARD + 64];
static struct lamp_seat seats[2][MOST_SEATS + 1];
static struct lamp_reply replies[2];
static uint64_t counted[CALLS][32];

static void put(size_t at, size_t width, uint64_t value)
{
    for (size_t k = 0; k < width; k++)
        card[at + k] = (uint8_t)(value >> 8 * k);
}

/* A card that is accepted: mostly small, one in 50 of any size; tables that fall, stay and rise. */
static void make_card(void)
{
    int large = below(50) == 0;
    modules = 1 + below(large ? 200 : below(4) ? 6 : 40);
    top = 1 + below(large ? 200 : 6);
    slots = below(large ? below(8) ? 65 : 1025 : 8);
    uint64_t most = below(3) ? 10 : below(2) ? 1000 : 500000000;
    memcpy(card, "DLS", 3);
    put(3, 2, 1);
    put(5, 1, modules);
    put(6, 1, top);
    put(7, 2, slots);
    put(9, 4, below(most + 1));
    put(13, 4, below(most + 1));
    int64_t entry = 2000, difference = below(3) ? 0 : -(int64_t)below(6);
    for (size_t k = 0; k <= top; k++) {
        put(17 + 4 * k, 4, (uint64_t)entry);
        entry += difference;
        difference += below(3) ? 0 : (int64_t)below(4);
    }
    for (size_t t = 0; t < slots; t++)
        put(17 + 4 * (top + 1) + 2 * t, 2, below(8) ? below(modules * top + 1) : modules * top);
    card_len = 17 + 4 * (top + 1) + 2 * slots;
}

/* Half of the cards stay as made; the others have a byte changed, are cut or made longer, or are noise. */
static void spoil_card(void)
{
    size_t whole = card_len;
    switch (below(8)) {
    case 0: put(below(17), 1, below(256)); break;
    case 1: put(below(whole), 1, below(256)); break;
    case 2: card_len = below(2) ? whole - 1 : below(whole); break;
    case 3:
        if (below(2))
            card_len = whole + 1 + below(20);
        else
            for (size_t k = below(5); k < whole; k++)
                card[k] = (uint8_t)draw();
    }
}

/* A length for an area that is asked for `asked` bytes. */
static size_t some_length(size_t asked, size_t most)
{
    size_t length = below(8) ? asked + below(GUARD) : below(2) ? asked - (asked > 0) : below(asked + 1);
    return length < most ? length : most;
}

/* Noise in a buffer, the same in its twin. `used` is all that a call may reach. */
static void fill(uint8_t *first, uint8_t *second, size_t used)
{
    uint8_t byte = (uint8_t)draw();
    for (size_t k = 0; k < used; k++)
        first[k] = (uint8_t)(byte + 7 * k);
    memcpy(second, first, used);
}

/* A plan with counts that mostly serve, or a sheet with steps that mostly do. */
static void fill_plan(uint8_t *plan, size_t len)
{
    int full = below(2) == 0;
    for (size_t t = 0; t < len; t++)
        plan[t] = (uint8_t)(full ? modules - (modules > 1 && below(3) == 0) : below(60) ? below(modules + 1) : draw());
}
static void fill_sheet(uint8_t *sheet, size_t len)
{
    int full = (int)below(3);
    for (size_t x = 0; x < len; x++)
        sheet[x] = (uint8_t)(full ? top - (full > 1 && below(9) == 0) : below(300) ? below(2) ? LAMP_OFF : below(top + 1) : draw());
    for (size_t x = 0; full > 1 && x < len; x++)
        if (below(12) == 0)
            sheet[x] = LAMP_OFF;
}

static struct lamp_sitting some_sitting(void)
{
    struct lamp_sitting s = {below(20) ? below(3) ? 1 : below(3) : draw(), below(30) ? 1 + below(1000) : draw(), 0, draw()};
    s.submissions = below(4) ? below(s.allowance ? s.allowance : 1) : below(2) ? s.allowance : draw();
    return s;
}
static size_t fill_seats(void)
{
    for (size_t k = 0; k < MOST_SEATS + 1; k++)
        seats[0][k] = (struct lamp_seat){below(2) ? draw() : below(4000), (uint16_t)(below(3) ? below(40) : below(2) ? 0 : draw()),
                                         (uint16_t)(below(8) ? below(2) : draw()), (uint32_t)(below(2) ? 0 : draw())};
    memcpy(seats[1], seats[0], sizeof seats[0]);
    return below(4) ? 32 : below(MOST_SEATS + 1);
}
static size_t fill_list(uint64_t ratio)
{
    uint64_t entry = 0;
    size_t len = 0;
    for (; entry <= modules && len < MOST_LIST; len++) {
        list[len] = (uint16_t)entry;
        uint64_t next = entry ? 1 + below(entry * ratio > entry ? entry * (ratio - 1) + 1 : 1) : 1;
        entry += entry < modules && entry + next > modules ? modules - entry : next;
    }
    if (len && below(5) == 0)
        list[below(len)] = (uint16_t)(below(2) ? below(210) : draw());
    return below(10) ? len : below(len + 3);
}

static struct lamp_reply of_answer(struct lamp_answer a) { return (struct lamp_reply){a.number, a.cost, 0, {0, 0, 0, 0}}; }
static struct lamp_reply of_points(struct lamp_points p) { return (struct lamp_reply){p.number, p.spread, p.swaps, {p.counts, 0, 0, 0}}; }

#define BOTH(call, wrap, ...)                            \
    for (k = 0; k < 2; k++)                              \
        replies[k] = wrap((k ? lamp_##call : before_lamp_##call)(__VA_ARGS__))

/* The other numbers that a call is handed, and the lengths of what is lent. */
static size_t plan_len, work_len, sheet_len, area_len, seats_len, list_len;
static uint64_t ratio, allowance, number, rack, load, count;
static uint16_t caller, candidate;
static uint32_t start;
static struct lamp_sitting sitting;

static void draw_numbers(int call)
{
    int supervised = call == CALL_sitting_submit ? below(8) == 0 : below(2) == 0;
    ratio = below(8) ? 2 + below(2) : below(210);
    allowance = below(6) ? 1 + below(1000) : draw();
    number = below(3) ? below(260) : draw();
    rack = below(4) ? below(203) : draw();
    load = below(4) ? below(modules * top + 2) : draw();
    count = below(5) ? below(modules + 2) : draw();
    caller = (uint16_t)(supervised ? 0 : below(40));
    candidate = (uint16_t)(below(3) ? below(40) : caller);
    start = (uint32_t)(below(40) ? draw() : 0);
    sitting = some_sitting();
}

static void draw_buffers(int call)
{
    size_t asked = (call == CALL_plan_coarse ? 10 : modules + 1) * slots;
    if (call == CALL_plan_groups)
        list_len = fill_list(ratio), asked = list_len * slots;
    plan_len = call == CALL_sheet && below(9) ? slots : some_length(slots, LAMP_MAX_PLAN + GUARD);
    sheet_len = call != CALL_sheet && below(9) ? modules * slots : some_length(modules * slots, LAMP_MAX_SHEET + GUARD);
    work_len = some_length(asked, LAMP_MAX_EXACT_WORK + GUARD);
    area_len = 0;
    if (call == CALL_practice_card)
        area_len = below(4) ? LAMP_MAX_PRACTICE : below(LAMP_MAX_PRACTICE + GUARD);
    if (call == CALL_catalogue_table)
        area_len = some_length(number < 300 ? 4 * (number + 1) : 0, LAMP_MAX_TABLE + GUARD);
    fill(plans[0], plans[1], plan_len + GUARD);
    fill(works[0], works[1], work_len + GUARD);
    fill(areas[0], areas[1], area_len + GUARD);
    fill(sheets[0], sheets[1], sheet_len + GUARD);
    if (call == CALL_sheet)
        fill_plan(plans[0], plan_len), memcpy(plans[1], plans[0], plan_len);
    else
        fill_sheet(sheets[0], sheet_len), memcpy(sheets[1], sheets[0], sheet_len);
    seats_len = fill_seats();
}

/* One call of each release on the same input. */
static void call_both(int call)
{
    int k;
    switch (call) {
    case CALL_check_card: BOTH(check_card, of_answer, card, card_len); break;
    case CALL_running_cost: BOTH(running_cost, of_answer, card, card_len, count, load); break;
    case CALL_plan_exact: BOTH(plan_exact, of_answer, card, card_len, plans[k], plan_len, works[k], work_len); break;
    case CALL_plan_coarse: BOTH(plan_coarse, of_answer, card, card_len, plans[k], plan_len, works[k], work_len); break;
    case CALL_plan_groups:
        BOTH(plan_groups, of_answer, card, card_len, list, list_len, ratio, plans[k], plan_len, works[k], work_len);
        break;
    case CALL_sheet: BOTH(sheet, of_answer, card, card_len, plans[k], plan_len, sheets[k], sheet_len); break;
    case CALL_mark: BOTH(mark, of_answer, card, card_len, sheets[k], sheet_len); break;
    case CALL_explain: BOTH(explain, of_points, card, card_len, sheets[k], sheet_len, works[k], work_len); break;
    case CALL_rounded_count: BOTH(rounded_count, of_answer, number, rack); break;
    case CALL_practice_card: BOTH(practice_card, of_answer, start, areas[k], area_len); break;
    case CALL_catalogue_table: BOTH(catalogue_table, of_answer, number, areas[k], area_len); break;
    case CALL_sitting_open:
        BOTH(sitting_open, , sitting, caller, allowance, card, card_len, plans[k], plan_len, works[k], work_len, seats[k], seats_len);
        break;
    case CALL_sitting_seat: BOTH(sitting_seat, , sitting, caller, candidate, seats[k], seats_len); break;
    case CALL_sitting_close: BOTH(sitting_close, , sitting, caller); break;
    case CALL_sitting_submit:
        BOTH(sitting_submit, , sitting, caller, card, card_len, sheets[k], sheet_len, seats[k], seats_len);
        break;
    case CALL_sitting_least: BOTH(sitting_least, , sitting, caller, seats[k], seats_len); break;
    case CALL_sitting_lowest: BOTH(sitting_lowest, , sitting, caller, candidate, seats[k], seats_len); break;
    case CALL_sitting_used: BOTH(sitting_used, , sitting, caller); break;
    }
}

static void compare(int call, uint64_t turn)
{
    make_card();
    spoil_card();
    draw_numbers(call);
    draw_buffers(call);
    call_both(call);
    if (memcmp(&replies[0], &replies[1], sizeof replies[0]) || memcmp(seats[0], seats[1], sizeof seats[0])
        || memcmp(plans[0], plans[1], plan_len + GUARD) || memcmp(works[0], works[1], work_len + GUARD)
        || memcmp(sheets[0], sheets[1], sheet_len + GUARD) || memcmp(areas[0], areas[1], area_len + GUARD)) {
        printf("%s differs at call %llu\n", names[call], (unsigned long long)turn);
        exit(1);
    }
    counted[call][replies[0].number < 31 ? replies[0].number : 31]++;
}

int main(int argc, char **argv)
{
    uint64_t turns = argc > 1 ? strtoull(argv[1], 0, 10) : 10000000, seed = argc > 2 ? strtoull(argv[2], 0, 10) : 1;
    state = seed * 0x9E3779B97F4A7C15u + 1;
    for (uint64_t turn = 0; turn < turns; turn++)
        compare((int)(turn % CALLS), turn);
    for (int call = 0; call < CALLS; call++) {
        printf("%-16s", names[call]);
        for (int number = 0; number < 32; number++)
            if (counted[call][number])
                printf(" %d:%llu", number, (unsigned long long)counted[call][number]);
        printf("\n");
    }
    printf("%llu calls, no difference\n", (unsigned long long)turns);
    return 0;
}
