/* Times the library's calls beside the same algorithms in plain C (plain.c), in one run, and prints ratios and growth.
 * Each figure is the fastest of many rounds; library and C take turns, on the same buffers. The planners are also timed on many shows,
 * beside the search through columns too; there each figure is the median of the shows. */
#define _POSIX_C_SOURCE 200809L
#include <inttypes.h>
#include <stdio.h>
#include <stdlib.h>
#include <string.h>
#include <time.h>

#include "lamp.h"
#include "plain.h"

enum { ROUNDS = 60, STARTS = 10000, LOWEST = 80, TIMES = 10000, LAST = LAMP_MAX_SEATS, TOPS = 200, TABLES = 100 };
enum { SHOWS = 301, DEAR = 14600 };
enum { RACKS = 201, COUNTS = 202, PAIRS = (RACKS + 1) * (COUNTS + 1) };

/* What is measured. The acts after SUBMIT are so short that a round makes each of them TIMES times. */
enum { EXACT, COARSE, SHEET, MARKING, GROUPS, EXPLAIN, PRACTICE, TABLE, ROUNDED, OPEN, SUBMIT, SEAT, CLOSE, LEAST, LOWEST_COST, USED, ALL };
static const char *names[ALL] = {"exact", "coarse", "sheet", "marking", "groups", "explain", "practice", "table", "rounded",
                                 "open", "submit", "seat", "close", "least", "lowest", "used"};

static uint8_t card[LAMP_MAX_CARD], plan[LAMP_MAX_PLAN], work[LAMP_MAX_EXACT_WORK], sheet[LAMP_MAX_SHEET];
static uint8_t practice[LAMP_MAX_PRACTICE], practice_of_c[LAMP_MAX_PRACTICE];
static uint8_t table[LAMP_MAX_TABLE + 1], table_of_c[LAMP_MAX_TABLE + 1];
static uint16_t list[LAMP_MAX_LIST];
static size_t list_len;
static struct lamp_seat seats[LAMP_MAX_SEATS];
static struct lamp_reply reply;
static struct lamp_points points;
static size_t card_len;

static void put(size_t at, uint64_t value, size_t bytes)
{
    for (size_t k = 0; k < bytes; k++)
        card[at + k] = (uint8_t)(value >> (8 * k));
}

static uint64_t state;

/* A random number below n. */
static uint64_t below(uint64_t n)
{
    state ^= state << 13, state ^= state >> 7, state ^= state << 17;
    return (state >> 20) % n;
}

/* A load for each slot, from 0 to what the rack gives: random ones, or slowly rising and falling ones, or one for all slots. */
enum { RANDOM, SLOW, CONSTANT, LOADS };
static const char *loads_names[LOADS] = {"random", "slow", "constant"};

static void put_loads(int loads)
{
    uint64_t q = card[6], t = card[7] + 256u * card[8], most = card[5] * q, way = 0;
    for (uint64_t k = 0; k < t; k++) {
        if (k == 0 || loads == RANDOM)
            way = below(most + 1);
        else if (loads == SLOW)
            way = (way + below(most / 50 + 1)) % (2 * most);
        put(17 + 4 * (q + 1) + 2 * k, way <= most ? way : 2 * most - way, 2);
    }
}

/* A card with the catalogue module's table, each entry higher by `dear`, and new loads. */
static void make_dear_card(uint64_t m, uint64_t q, uint64_t t, uint64_t up, uint64_t down, uint64_t dear, int loads)
{
    memcpy(card, "DLS", 3);
    put(3, 1, 2), put(5, m, 1), put(6, q, 1), put(7, t, 2), put(9, up, 4), put(13, down, 4);
    for (uint64_t k = 0; k <= q; k++)
        put(17 + 4 * k, dear + 400 + 3 * k + k * (k - (k > 0)) / 2, 4);
    card_len = 17 + 4 * (q + 1) + 2 * t;
    put_loads(loads);
}

/* A card with that table and with random loads, which are the same at each call. */
static void make_card(uint64_t m, uint64_t q, uint64_t t)
{
    state = 88172645463325252u;
    make_dear_card(m, q, t, 900, 700, 0, RANDOM);
}

/* The same card with a convex table that falls up to step LOWEST and rises from there on. */
static void put_falling_table(void)
{
    for (int64_t k = 0; k <= card[6]; k++)
        put(17 + 4 * (size_t)k, (uint64_t)(400 + (k - LOWEST) * (k - LOWEST)), 4);
}

static double now(void)
{
    struct timespec t;
    clock_gettime(CLOCK_MONOTONIC, &t);
    return (double)t.tv_sec * 1e6 + (double)t.tv_nsec / 1e3;
}

typedef struct lamp_answer (*planner)(const uint8_t *, size_t, uint8_t *, size_t, uint8_t *, size_t);
static size_t slots, modules;

typedef struct lamp_answer (*maker)(uint32_t, uint8_t *, size_t);

/* Makes the cards of starts 1 to STARTS, each over the one before it. The number is 0 if none was refused. */
static struct lamp_answer make_practice(maker make)
{
    struct lamp_answer all = {0, 0};
    for (uint32_t start = 1; start <= STARTS; start++)
        all.number |= make(start, practice, sizeof practice).number;
    return all;
}

/* The library and C make the same cards, and leave the same bytes after each. */
static void compare_practice(void)
{
    for (uint32_t start = 1; start <= STARTS; start++) {
        memset(practice, 0xA5, sizeof practice);
        memset(practice_of_c, 0xA5, sizeof practice_of_c);
        struct lamp_answer first = lamp_practice_card(start, practice, sizeof practice);
        struct lamp_answer second = plain_practice(start, practice_of_c, sizeof practice_of_c);
        if (first.number != second.number || first.cost != second.cost || memcmp(practice, practice_of_c, sizeof practice)) {
            printf("the two disagree: start %" PRIu32 "\n", start);
            exit(1);
        }
    }
}

typedef struct lamp_answer (*writer)(uint64_t, uint8_t *, size_t);

/* Writes the tables of tops 1 to TOPS, and all of them TABLES times, each over the one before it. */
static struct lamp_answer write_tables(writer write)
{
    struct lamp_answer all = {0, 0};
    for (int k = 0; k < TABLES; k++)
        for (uint64_t top = 1; top <= TOPS; top++)
            all.number |= write(top, table, sizeof table).number;
    return all;
}

/* The library and C answer the same, and leave the same bytes, with a buffer of this length. */
static void compare_table(uint64_t top, size_t length)
{
    memset(table, 0xA5, sizeof table);
    memset(table_of_c, 0xA5, sizeof table_of_c);
    struct lamp_answer first = lamp_catalogue_table(top, table, length);
    struct lamp_answer second = plain_table(top, table_of_c, length);
    if (first.number != second.number || first.cost != second.cost || memcmp(table, table_of_c, sizeof table)) {
        printf("the two disagree: top %" PRIu64 ", %zu bytes\n", top, length);
        exit(1);
    }
}

/* Every top, and 0 and 201, each with every length. */
static void compare_tables(void)
{
    for (uint64_t top = 0; top <= TOPS + 1; top++)
        for (size_t length = 0; length <= sizeof table; length++)
            compare_table(top, length);
}

typedef struct lamp_answer (*rounder)(uint64_t, uint64_t);

/* Rounds the counts 0 to COUNTS in the racks of 0 to RACKS modules. Half of the pairs are refused, so the cost is the sum of
 * all numbers and costs. */
static inline __attribute__((always_inline)) struct lamp_answer round_counts(rounder rounded)
{
    struct lamp_answer all = {0, 0};
    for (uint64_t m = 0; m <= RACKS; m++)
        for (uint64_t n = 0; n <= COUNTS; n++) {
            struct lamp_answer one = rounded(n, m);
            all.cost += one.number + one.cost;
        }
    return all;
}

/* A call takes some two nanoseconds, to which a call through a pointer or another place of the loop adds up to a third. So
 * each function is called by its name, from a loop of its own, and the two loops lie alike. */
static __attribute__((noinline, aligned(64))) struct lamp_answer round_by_library(void)
{
    return round_counts(lamp_rounded_count);
}

static __attribute__((noinline, aligned(64))) struct lamp_answer round_by_c(void)
{
    return round_counts(plain_rounded);
}

/* The library and C answer the same for each count and rack. */
static void compare_counts(void)
{
    for (uint64_t m = 0; m <= RACKS; m++)
        for (uint64_t n = 0; n <= COUNTS; n++) {
            struct lamp_answer first = lamp_rounded_count(n, m), second = plain_rounded(n, m);
            if (first.number != second.number || first.cost != second.cost) {
                printf("the two disagree: count %" PRIu64 ", modules %" PRIu64 "\n", n, m);
                exit(1);
            }
        }
}

/* The candidates 1 to LAST are seated. The acts are those of the last one, so that every seat is looked at. */
static void seat_all(void)
{
    for (uint16_t k = 0; k < LAST; k++)
        seats[k] = (struct lamp_seat){0, (uint16_t)(k + 1), 0, 0};
}

/* An act on a card. Each round is handed the same sitting, so that the allowance is never used up. */
static struct lamp_answer run_on_card(int which, int plain)
{
    struct lamp_sitting s = {1, LAMP_MAX_ALLOWANCE, 0, 1};
    if (which == OPEN)
        reply = (plain ? plain_open : lamp_sitting_open)(s, 0, LAMP_MAX_ALLOWANCE, card, card_len, plan, slots, work,
                                                         (modules + 1) * slots, seats, LAMP_MAX_SEATS);
    else
        reply = (plain ? plain_submit : lamp_sitting_submit)(s, LAST, card, card_len, sheet, modules * slots, seats, LAMP_MAX_SEATS);
    return (struct lamp_answer){reply.number, reply.cost};
}

/* An act without a card. The last record is emptied before each seating. */
static void run_once(int which, int plain)
{
    struct lamp_sitting open = {1, LAMP_MAX_ALLOWANCE, 7, 1}, closed = {2, LAMP_MAX_ALLOWANCE, 7, 1};
    switch (which) {
    case SEAT:
        seats[LAST - 1].candidate = 0;
        reply = (plain ? plain_seat : lamp_sitting_seat)(open, 0, LAST, seats, LAMP_MAX_SEATS);
        break;
    case CLOSE:
        reply = (plain ? plain_close : lamp_sitting_close)(open, 0);
        break;
    case LEAST:
        reply = (plain ? plain_least : lamp_sitting_least)(closed, LAST, seats, LAMP_MAX_SEATS);
        break;
    case LOWEST_COST:
        reply = (plain ? plain_lowest : lamp_sitting_lowest)(open, LAST, LAST, seats, LAMP_MAX_SEATS);
        break;
    default:
        reply = (plain ? plain_used : lamp_sitting_used)(open, 0);
    }
}

static struct lamp_answer run_acts(int which, int plain)
{
    struct lamp_answer all = {0, 0};
    for (int k = 0; k < TIMES; k++) {
        run_once(which, plain);
        all.number |= reply.number;
        all.cost += reply.cost;
    }
    return all;
}

/* The three numbers together stand for a cost. */
static struct lamp_answer run_explain(int plain)
{
    points = (plain ? plain_explain : lamp_explain)(card, card_len, sheet, modules * slots, work, (modules + 1) * slots);
    return (struct lamp_answer){points.number, points.spread + points.swaps + points.counts};
}

static struct lamp_answer run(int which, int plain)
{
    planner planners[2][2] = {{lamp_plan_exact, plain_exact}, {lamp_plan_coarse, plain_coarse}};
    switch (which) {
    case EXACT:
    case COARSE:
        return planners[which][plain](card, card_len, plan, slots, work, which ? 10 * slots : (modules + 1) * slots);
    case SHEET:
        return (plain ? plain_sheet : lamp_sheet)(card, card_len, plan, slots, sheet, modules * slots);
    case MARKING:
        return (plain ? plain_mark : lamp_mark)(card, card_len, sheet, modules * slots);
    case GROUPS:
        return (plain ? plain_groups : lamp_plan_groups)(card, card_len, list, list_len, LAMP_MAX_RATIO, plan, slots, work,
                                                         list_len * slots);
    case EXPLAIN:
        return run_explain(plain);
    case PRACTICE:
        return make_practice(plain ? plain_practice : lamp_practice_card);
    case TABLE:
        return write_tables(plain ? plain_table : lamp_catalogue_table);
    case ROUNDED:
        return plain ? round_by_c() : round_by_library();
    case OPEN:
    case SUBMIT:
        return run_on_card(which, plain);
    default:
        return run_acts(which, plain);
    }
}

/* The library and C give the same answer, plan and sheet, of an explanation the same three numbers, and of an act the same reply
 * and records. */
static struct lamp_answer compare(int which)
{
    static uint8_t first_plan[sizeof plan], first_sheet[sizeof sheet];
    static struct lamp_seat first_seats[LAMP_MAX_SEATS];
    seat_all();
    struct lamp_answer first = run(which, 0);
    struct lamp_reply first_reply = reply;
    struct lamp_points first_points = points;
    memcpy(first_plan, plan, sizeof plan);
    memcpy(first_sheet, sheet, sizeof sheet);
    memcpy(first_seats, seats, sizeof seats);
    seat_all();
    struct lamp_answer second = run(which, 1);
    if (first.number != 0 || second.number != 0 || first.cost != second.cost || memcmp(first_plan, plan, sizeof plan) ||
        memcmp(first_sheet, sheet, sizeof sheet) || memcmp(first_seats, seats, sizeof seats) ||
        memcmp(&first_reply, &reply, sizeof reply) || memcmp(&first_points, &points, sizeof points)) {
        printf("the two disagree: %s, %" PRIu64 " %" PRIu64 "\n", names[which], first.cost, second.cost);
        exit(1);
    }
    return first;
}

/* The microseconds of a round, which gives that cost. */
static double timed(int which, int plain, uint64_t cost)
{
    double began = now();
    struct lamp_answer answer = run(which, plain);
    double took = now() - began;
    if (answer.cost != cost)
        exit(1);
    return took;
}

/* The fastest round of the library and of C, in microseconds. */
static void measure(int which, double best[2])
{
    uint64_t cost = compare(which).cost;
    best[0] = best[1] = 1e18;
    for (int round = 0; round < ROUNDS; round++)
        for (int plain = 0; plain < 2; plain++) {
            double took = timed(which, plain, cost);
            if (took < best[plain])
                best[plain] = took;
        }
}

/* The fastest round of each of some calls of the library, at most three, in microseconds; they take turns. */
static void take_turns(const int *calls, int count, double *best)
{
    uint64_t costs[3];
    for (int k = 0; k < count; k++) {
        costs[k] = compare(calls[k]).cost;
        best[k] = 1e18;
    }
    seat_all();
    for (int round = 0; round < ROUNDS; round++)
        for (int k = 0; k < count; k++) {
            double took = timed(calls[k], 0, costs[k]);
            if (took < best[k])
                best[k] = took;
        }
}

/* How many times as long as another call of the library one takes. */
static double beside(int which, int other)
{
    double best[2];
    take_turns((const int[]){which, other}, 2, best);
    return best[0] / best[1];
}

/* How many times as long as two other calls of the library together one takes. */
static double beside_both(int which, int first, int second)
{
    double best[3];
    take_turns((const int[]){which, first, second}, 3, best);
    return best[0] / (best[1] + best[2]);
}

static void print_line(const char *name, const double best[2])
{
    printf("%-8s %10.1f %10.1f %8.2f\n", name, best[0], best[1], best[0] / best[1]);
}

/* Measures the planners, the sheet and marking on the card. */
static void measure_card(void)
{
    double best[2];
    for (int which = EXACT; which <= MARKING; which++) {
        /* sheet and marking take the plan and the sheet of the exact plan */
        if (which == SHEET)
            run(EXACT, 0);
        measure(which, best);
        print_line(names[which], best);
    }
}

static void reverse(uint8_t *row)
{
    for (size_t low = 0, high = modules - 1; low < high; low++, high--) {
        uint8_t byte = row[low];
        row[low] = row[high];
        row[high] = byte;
    }
}

/* A sheet on which all three numbers of an explanation are above 0: that of the plan with the least counts that serve, in each
 * slot with the last of its modules a step brighter, and in every second slot with the modules in reverse. */
static void make_dear_sheet(void)
{
    uint64_t top = card[6];
    for (size_t t = 0; t < slots; t++) {
        const uint8_t *load = card + 17 + 4 * (top + 1) + 2 * t;
        plan[t] = (uint8_t)((load[0] + 256u * load[1] + top - 1) / top);
    }
    run(SHEET, 0);
    for (size_t t = 0; t < slots; t++) {
        uint8_t *row = sheet + t * modules;
        if (plan[t] > 0 && row[plan[t] - 1] < top)
            row[plan[t] - 1]++;
        if (t % 2 == 1)
            reverse(row);
    }
}

/* Measures the explanation of that sheet, beside C and beside the exact planner and marking, and puts back the sheet of the
 * exact plan. */
static void measure_explain(void)
{
    double best[2];
    make_dear_sheet();
    measure(EXPLAIN, best);
    print_line(names[EXPLAIN], best);
    printf("explain: spread %" PRIu64 ", swaps %" PRIu64 ", counts %" PRIu64 "\n", points.spread, points.swaps, points.counts);
    printf("explain beside exact and marking: %.2f times the time\n", beside_both(EXPLAIN, EXACT, MARKING));
    run(EXACT, 0);
    run(SHEET, 0);
}

/* A list of so many counts from 0 to the full rack, with gaps that differ by at most 1. */
static void make_list(size_t entries)
{
    list_len = entries;
    for (size_t k = 0; k < entries; k++)
        list[k] = (uint16_t)(modules * k / (entries - 1));
}

/* Measures the planner over lists of some lengths, beside C, and over all counts beside the exact planner, whose plan and sheet
 * are then there again. */
static void measure_groups(void)
{
    static const size_t lengths[] = {10, 50, LAMP_MAX_LIST};
    double best[2];
    for (size_t k = 0; k < sizeof lengths / sizeof lengths[0]; k++) {
        make_list(lengths[k]);
        measure(GROUPS, best);
        printf("%s with a list of %zu entries\n", names[GROUPS], list_len);
        print_line(names[GROUPS], best);
    }
    printf("groups with all counts beside exact: %.2f times the time\n", beside(GROUPS, EXACT));
    run(EXACT, 0);
    run(SHEET, 0);
}

/* Measures the acts of a sitting on the card, whose sheet is there. */
static void measure_sitting(void)
{
    double best[2];
    printf("a sitting on this card with 32 seats, the last five acts 10,000 times each\n");
    for (int which = OPEN; which <= USED; which++) {
        measure(which, best);
        print_line(names[which], best);
    }
    printf("submit beside marking: %.2f times the time\n", beside(SUBMIT, MARKING));
    printf("open beside exact: %.2f times the time\n", beside(OPEN, EXACT));
}

/* How many times as long as on a card of that size the exact planner takes on the largest one. The two take turns. */
static double growth(size_t m, size_t t)
{
    double best[2] = {1e18, 1e18};
    for (int round = 0; round < ROUNDS; round++)
        for (int large = 0; large < 2; large++) {
            make_card(modules = large ? 200 : m, 200, slots = large ? 1024 : t);
            double began = now();
            run(EXACT, 0);
            double took = now() - began;
            if (took < best[large])
                best[large] = took;
        }
    return best[1] / best[0];
}

/* What is measured of a show: the library, the search through columns in C and the thresholds in C on it, the library on a show with
 * half the modules, and how many different counts the plan has. */
enum { LIBRARY, SEARCH, THRESHOLDS, WAYS, HALF = WAYS, DIFFERENT, FIGURES };
static const planner ways[2][WAYS] = {{lamp_plan_exact, plain_exact_search, plain_exact},
                                      {lamp_plan_coarse, plain_coarse_search, plain_coarse}};

/* Plans the card one way and gives the time. The work bytes asked for are then 0. */
static double plan_once(int which, int way, struct lamp_answer *answer)
{
    size_t asked = which == COARSE ? 10 * slots : (modules + 1) * slots;
    memset(work, 0xA5, asked);
    double began = now();
    *answer = ways[which][way](card, card_len, plan, slots, work, asked);
    double took = now() - began;
    if (answer->number != 0 || work[0] != 0 || memcmp(work, work + 1, asked - 1)) {
        printf("refused, or the work bytes are not 0: %s, way %d\n", names[which], way);
        exit(1);
    }
    return took;
}

/* Plans the card each way, beginning with another one for each show. All ways give the same cost and plan. */
static void plan_show(int which, int show, double *times)
{
    static uint8_t first_plan[sizeof plan];
    struct lamp_answer first = {0, 0}, answer;
    for (int k = 0; k < WAYS; k++) {
        int way = (show + k) % WAYS;
        times[way] = plan_once(which, way, &answer);
        if (k == 0) {
            first = answer;
            memcpy(first_plan, plan, slots);
        }
        if (answer.cost != first.cost || memcmp(first_plan, plan, slots)) {
            printf("the three disagree: %s, show %d, way %d\n", names[which], show, way);
            exit(1);
        }
    }
}

static int in_order(const void *first, const void *second)
{
    double a = *(const double *)first, b = *(const double *)second;
    return (a > b) - (a < b);
}

/* How many different counts the plan has. */
static int different_counts(void)
{
    uint8_t seen[256] = {0};
    int n = 0;
    for (size_t t = 0; t < slots; t++) {
        n += !seen[plan[t]];
        seen[plan[t]] = 1;
    }
    return n;
}

/* The medians over shows with new loads each. */
static void measure_shows(int which, int spread, int loads, double median[FIGURES])
{
    static double all[FIGURES][SHOWS];
    uint64_t price = spread ? 8000 : 800, dear = spread ? DEAR : 0;
    for (int show = 0; show < SHOWS; show++) {
        struct lamp_answer answer;
        double one[FIGURES];
        make_dear_card(modules = 100, 200, slots = 1024, price, price, dear, loads);
        one[HALF] = plan_once(which, LIBRARY, &answer);
        make_dear_card(modules = 200, 200, slots = 1024, price, price, dear, loads);
        plan_show(which, show, one);
        one[DIFFERENT] = different_counts();
        for (int k = 0; k < FIGURES; k++)
            all[k][show] = one[k];
    }
    for (int k = 0; k < FIGURES; k++) {
        qsort(all[k], SHOWS, sizeof all[k][0], in_order);
        median[k] = all[k][SHOWS / 2];
    }
}

/* A line for each table and kind of loads. On the spread table each entry is so dear that the counts of an exact plan spread over the
 * rack, if its loads do. */
static void measure_kinds(int which)
{
    for (int spread = 0; spread < 2; spread++)
        for (int loads = 0; loads < LOADS; loads++) {
            double m[FIGURES];
            measure_shows(which, spread, loads, m);
            if (which == EXACT && spread && loads != CONSTANT && m[DIFFERENT] < 100) {
                printf("the counts do not spread over the rack\n");
                exit(1);
            }
            printf("%-7s %-10s %-9s %8.1f %8.1f %10.1f %9.2f %9.2f %9.2f %7.2f %7.0f\n", names[which], spread ? "spread" : "catalogue",
                   loads_names[loads], m[LIBRARY], m[SEARCH], m[THRESHOLDS], m[LIBRARY] / m[SEARCH], m[LIBRARY] / m[THRESHOLDS],
                   m[SEARCH] / m[THRESHOLDS], m[LIBRARY] / m[HALF], m[DIFFERENT]);
        }
}

static void measure_many_shows(void)
{
    printf("m 200, Q 200, T 1,024 (microseconds, medians of %d shows with new loads each)\n", SHOWS);
    printf("l: library, s: search in C, t: thresholds in C; growth: the library, m 100 to 200; counts: different ones in a plan\n");
    printf("%-7s %-10s %-9s %8s %8s %10s %9s %9s %9s %7s %7s\n", "call", "table", "loads", "library", "search", "thresholds", "l / s",
           "l / t", "s / t", "growth", "counts");
    measure_kinds(EXACT);
    measure_kinds(COARSE);
}

int main(void)
{
    double best[2];
    modules = 200, slots = 1024;
    make_card(modules, 200, slots);
    printf("m 200, Q 200, T 1,024 (microseconds, fastest of %d)\n", ROUNDS);
    printf("%-8s %10s %10s %8s\n", "call", "library", "C -O3", "ratio");
    measure_card();
    measure_groups();
    measure_explain();
    measure_sitting();
    put_falling_table();
    printf("the same card with a table that falls up to step %d\n", LOWEST);
    measure_card();
    measure_groups();
    measure_explain();
    compare_practice();
    measure(PRACTICE, best);
    printf("the cards of starts 1 to 10,000\n");
    print_line(names[PRACTICE], best);
    compare_tables();
    measure(TABLE, best);
    printf("the catalogue module's tables of tops 1 to %d, %d times each\n", TOPS, TABLES);
    print_line(names[TABLE], best);
    printf("table: %.1f nanoseconds a call, in C %.1f\n", best[0] * 1e3 / (TOPS * TABLES), best[1] * 1e3 / (TOPS * TABLES));
    compare_counts();
    measure(ROUNDED, best);
    printf("the rounded counts of 0 to %d in racks of 0 to %d\n", COUNTS, RACKS);
    print_line(names[ROUNDED], best);
    printf("rounded: %.2f nanoseconds a call, in C %.2f\n", best[0] * 1e3 / PAIRS, best[1] * 1e3 / PAIRS);
    printf("exact, T 512 to 1,024: %.2f times the time\n", growth(200, 512));
    printf("exact, m 100 to 200: %.2f times the time\n", growth(100, 1024));
    measure_many_shows();
    return 0;
}
