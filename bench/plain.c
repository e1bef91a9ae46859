/* The same algorithms hand-written in C, for bench.c to compare with, and the planners once more by the search through columns, which
 * does not use that running costs are convex. Each checks the card as the library does. They use that the table of an accepted card
 * is convex: G and the active step of a step then need no search. */
#include "plain.h"

#include <string.h>

struct show {
    uint64_t modules, top, slots, up, down;
    const uint8_t *table, *loads;
    uint64_t lowest; /* for the running cost and the sheet */
};

/* On x86-64 the bytes of a number in memory are those of a card's field. gcc makes one load of a copy, and not of bytes that are added up. */
static uint64_t two(const uint8_t *s)
{
    uint16_t value;
    memcpy(&value, s, 2);
    return value;
}

static uint64_t four(const uint8_t *s)
{
    uint32_t value;
    memcpy(&value, s, 4);
    return value;
}

static uint64_t entry(const struct show *i, uint64_t k) { return four(i->table + 4 * k); }
static uint64_t load(const struct show *i, uint64_t t) { return two(i->loads + 2 * t); }

static uint64_t read_card(const uint8_t *card, size_t len, struct show *i)
{
    if (len < 17 || card[0] != 0x44 || card[1] != 0x4C || card[2] != 0x53)
        return 1;
    if (two(card + 3) != 1)
        return 2;
    *i = (struct show){card[5], card[6], two(card + 7), four(card + 9), four(card + 13), card + 17, card + 17 + 4 * (card[6] + 1), 0};
    if (i->modules < 1 || i->modules > 200 || i->top < 1 || i->top > 200)
        return 3;
    if (i->slots > 1024)
        return 4;
    if (len != 17 + 4 * (i->top + 1) + 2 * i->slots)
        return 5;
    if (i->up > 500000000 || i->down > 500000000)
        return 6;
    for (uint64_t k = 0; k <= i->top; k++)
        if (entry(i, k) > 1000000)
            return 6;
    for (uint64_t k = 0; k + 1 < i->top; k++)
        if (entry(i, k) + entry(i, k + 2) < 2 * entry(i, k + 1))
            return 7;
    for (uint64_t t = 0; t < i->slots; t++)
        if (load(i, t) > i->modules * i->top)
            return 8;
    return 0;
}

/* The lowest step, found once a card: the smallest step of least cost. A convex table falls up to it and not beyond. */
static uint64_t lowest_step(const struct show *i)
{
    uint64_t k = 0;
    while (k < i->top && entry(i, k + 1) < entry(i, k))
        k++;
    return k;
}

/* The active step of a step: the lowest step for each below it, and from there on each for itself. */
static uint64_t active_step(const struct show *i, uint64_t k) { return k < i->lowest ? i->lowest : k; }

static uint64_t running_cost(const struct show *i, uint64_t n, uint64_t l)
{
    if (n == 0)
        return 0;
    uint64_t q = l / n, r = l % n;
    if (q < i->lowest) /* all n are active at the lowest step */
        return n * entry(i, i->lowest);
    uint64_t low = (n - r) * entry(i, q);
    return r == 0 ? low : low + r * entry(i, q + 1);
}

/* The cost of a plan that serves: what the counts cost to run, and both prices for each module that starts. */
static uint64_t plan_cost(const struct show *i, const uint8_t *plan)
{
    uint64_t cost = 0, before = 0;
    for (uint64_t t = 0; t < i->slots; t++) {
        uint64_t n = plan[t];
        cost += running_cost(i, n, load(i, t));
        if (before < n)
            cost += (i->up + i->down) * (n - before);
        before = n;
    }
    return cost;
}

static struct lamp_answer refused(uint64_t number) { return (struct lamp_answer){number, 0}; }

/* The least plan by columns: a cost for each slot and place. It takes a time that grows with slots times places. */
static struct lamp_answer search(const struct show *i, const uint64_t *counts, size_t width, uint8_t *plan, uint8_t *work,
                                 size_t asked)
{
    uint64_t column[201], price = i->up + i->down;
    for (size_t j = 0; j < width; j++)
        column[j] = price * counts[j];
    for (uint64_t t = 0; t < i->slots; t++) {
        uint64_t l = load(i, t);
        uint8_t *places = work + t * width;
        size_t last = width - 1;
        column[last] += running_cost(i, counts[last], l);
        places[last] = (uint8_t)last;
        for (size_t j = last; j-- > 0;) {
            uint64_t above = column[j + 1];
            uint8_t place = places[j + 1];
            if (l <= counts[j] * i->top) {
                uint64_t own = column[j] + running_cost(i, counts[j], l);
                if (own <= above) {
                    above = own;
                    place = (uint8_t)j;
                }
            }
            column[j] = above;
            places[j] = place;
        }
        for (size_t j = 1; j < width; j++) {
            uint64_t raised = column[j - 1] + price * (counts[j] - counts[j - 1]);
            if (raised <= column[j]) {
                column[j] = raised;
                places[j] = places[j - 1];
            }
        }
    }
    size_t place = 0;
    for (uint64_t t = i->slots; t-- > 0;) {
        place = work[t * width + place];
        plan[t] = (uint8_t)counts[place];
    }
    memset(work, 0, asked);
    return (struct lamp_answer){0, column[0]};
}

/* What is known of a slot and a place of the list: the least plan is not at the place or above; it is just if it is in the next
 * slot; it is at the place or above. */
enum { OFF, KEEP, ON };

/* Marks each slot for the place `digit` above the plan's. `lead` is how much dearer the slots before make that place than the one
 * below it. A slot before with another place settles it: nothing if that place is above, the whole price if it is below. So it is
 * for the first slot, before which no module is on. */
static void forward(const struct show *i, const uint64_t *counts, size_t last, size_t digit, const uint8_t *plan, uint8_t *marks)
{
    int before = -1;
    uint64_t lead = 0;
    for (uint64_t t = 0; t < i->slots; t++) {
        size_t place = plan[t] + digit;
        if (place > last) {
            marks[t] = OFF;
            before = plan[t];
            continue;
        }
        uint64_t l = load(i, t), n = counts[place], below = counts[place - 1], price = (i->up + i->down) * (n - below);
        if (plan[t] != before)
            lead = plan[t] < before ? 0 : price;
        before = plan[t];
        if (below * i->top < l) {
            marks[t] = ON;
            lead = 0;
            continue;
        }
        uint64_t with = lead + running_cost(i, n, l), without = running_cost(i, below, l);
        marks[t] = (uint8_t)((with < without) + (with < without + price));
        lead = with < without ? 0 : with - without;
        if (lead > price)
            lead = price;
    }
}

/* Raises the plan by the digit where the marks say so. After the last slot no module is on. */
static void backward(uint64_t slots, size_t digit, uint8_t *plan, const uint8_t *marks)
{
    size_t after = 0;
    for (uint64_t t = slots; t-- > 0;) {
        size_t place = plan[t] + digit;
        if (marks[t] + (place <= after) >= 2)
            plan[t] = (uint8_t)place;
        after = plan[t];
    }
}

/* The least plan by thresholds: its places are found a binary digit at a time, the highest first, which is right since the running
 * cost of an accepted card is convex in the count. It takes a time that grows with slots times digits. */
static struct lamp_answer thresholds(const struct show *i, const uint64_t *counts, size_t width, uint8_t *plan, uint8_t *work,
                                     size_t asked)
{
    size_t last = width - 1, digit = 1;
    while (2 * digit <= last)
        digit *= 2;
    memset(plan, 0, i->slots);
    for (; digit > 0; digit /= 2) {
        forward(i, counts, last, digit, plan, work);
        backward(i->slots, digit, plan, work);
    }
    for (uint64_t t = 0; t < i->slots; t++)
        plan[t] = (uint8_t)counts[plan[t]];
    memset(work, 0, asked);
    return (struct lamp_answer){0, plan_cost(i, plan)};
}

typedef struct lamp_answer (*finder)(const struct show *, const uint64_t *, size_t, uint8_t *, uint8_t *, size_t);

static struct lamp_answer exact_by(finder find, const uint8_t *card, size_t card_len, uint8_t *plan, size_t plan_len, uint8_t *work,
                                   size_t work_len)
{
    struct show i;
    uint64_t number = read_card(card, card_len, &i);
    if (number)
        return refused(number);
    size_t asked = (i.modules + 1) * i.slots;
    if (plan_len < i.slots || work_len < asked)
        return refused(10);
    i.lowest = lowest_step(&i);
    uint64_t counts[201];
    for (size_t j = 0; j <= i.modules; j++)
        counts[j] = j;
    return find(&i, counts, i.modules + 1, plan, work, asked);
}

struct lamp_answer plain_exact(const uint8_t *card, size_t card_len, uint8_t *plan, size_t plan_len, uint8_t *work, size_t work_len)
{
    return exact_by(thresholds, card, card_len, plan, plan_len, work, work_len);
}

struct lamp_answer plain_exact_search(const uint8_t *card, size_t card_len, uint8_t *plan, size_t plan_len, uint8_t *work, size_t work_len)
{
    return exact_by(search, card, card_len, plan, plan_len, work, work_len);
}

static struct lamp_answer coarse_by(finder find, const uint8_t *card, size_t card_len, uint8_t *plan, size_t plan_len, uint8_t *work,
                                    size_t work_len)
{
    struct show i;
    uint64_t number = read_card(card, card_len, &i);
    if (number)
        return refused(number);
    if (plan_len < i.slots || work_len < 10 * i.slots)
        return refused(10);
    i.lowest = lowest_step(&i);
    uint64_t counts[10] = {0};
    size_t width = 1;
    for (uint64_t power = 1; power <= i.modules; power *= 2)
        counts[width++] = power;
    if (counts[width - 1] != i.modules)
        counts[width++] = i.modules;
    return find(&i, counts, width, plan, work, 10 * i.slots);
}

struct lamp_answer plain_coarse(const uint8_t *card, size_t card_len, uint8_t *plan, size_t plan_len, uint8_t *work, size_t work_len)
{
    return coarse_by(thresholds, card, card_len, plan, plan_len, work, work_len);
}

struct lamp_answer plain_coarse_search(const uint8_t *card, size_t card_len, uint8_t *plan, size_t plan_len, uint8_t *work,
                                       size_t work_len)
{
    return coarse_by(search, card, card_len, plan, plan_len, work, work_len);
}

/* Whether a list of counts and its ratio keep the rules. The first gap may be the ratio, and each later one the ratio times the
 * gap before it. */
static int keeps_rules(const uint16_t *list, size_t width, uint64_t ratio, uint64_t modules)
{
    if (ratio < 1 || ratio > 200 || width < 2 || width > 201 || list[0] != 0 || list[width - 1] != modules)
        return 0;
    uint64_t most = ratio;
    for (size_t j = 1; j < width; j++) {
        if (list[j] <= list[j - 1])
            return 0;
        uint64_t gap = (uint64_t)list[j] - list[j - 1];
        if (gap > most)
            return 0;
        most = ratio * gap;
    }
    return 1;
}

struct lamp_answer plain_groups(const uint8_t *card, size_t card_len, const uint16_t *list, size_t list_len, uint64_t ratio, uint8_t *plan,
                                size_t plan_len, uint8_t *work, size_t work_len)
{
    struct show i;
    uint64_t number = read_card(card, card_len, &i);
    if (number)
        return refused(number);
    if (!keeps_rules(list, list_len, ratio, i.modules))
        return refused(18);
    if (plan_len < i.slots || work_len < list_len * i.slots)
        return refused(10);
    i.lowest = lowest_step(&i);
    uint64_t counts[201];
    for (size_t j = 0; j < list_len; j++)
        counts[j] = list[j];
    return thresholds(&i, counts, list_len, plan, work, list_len * i.slots);
}

struct lamp_answer plain_sheet(const uint8_t *card, size_t card_len, const uint8_t *plan, size_t plan_len, uint8_t *sheet, size_t sheet_len)
{
    struct show i;
    uint64_t number = read_card(card, card_len, &i);
    if (number)
        return refused(number);
    if (sheet_len < i.modules * i.slots)
        return refused(10);
    if (plan_len != i.slots)
        return refused(11);
    for (uint64_t t = 0; t < i.slots; t++)
        if (plan[t] > i.modules)
            return refused(12);
    for (uint64_t t = 0; t < i.slots; t++)
        if (load(&i, t) > plan[t] * i.top)
            return refused(13);
    i.lowest = lowest_step(&i);
    uint64_t cost = plan_cost(&i, plan);
    for (uint64_t t = 0; t < i.slots; t++) {
        uint8_t *row = sheet + t * i.modules;
        uint64_t n = plan[t], q = 0, r = 0;
        if (n) {
            q = load(&i, t) / n;
            r = load(&i, t) % n;
        }
        memset(row, (int)active_step(&i, q + 1), r);
        memset(row + r, (int)active_step(&i, q), n - r);
        memset(row + n, 255, i.modules - n);
    }
    return (struct lamp_answer){0, cost};
}

struct lamp_answer plain_mark(const uint8_t *card, size_t card_len, const uint8_t *sheet, size_t sheet_len)
{
    struct show i;
    uint64_t number = read_card(card, card_len, &i);
    if (number)
        return refused(number);
    size_t m = i.modules, all = m * i.slots;
    if (sheet_len != all)
        return refused(11);
    for (size_t x = 0; x < all; x++)
        if (sheet[x] > i.top && sheet[x] != 255)
            return refused(12);
    for (uint64_t t = 0; t < i.slots; t++) {
        uint64_t light = 0;
        for (size_t k = 0; k < m; k++)
            light += sheet[t * m + k] == 255 ? 0 : sheet[t * m + k];
        if (light < load(&i, t))
            return refused(13);
    }
    uint64_t cost = 0;
    for (size_t x = 0; x < all; x++) {
        uint8_t before = x < m ? 255 : sheet[x - m], now = sheet[x];
        if (now != 255) {
            cost += entry(&i, now);
            if (before == 255)
                cost += i.up;
        } else if (before != 255) {
            cost += i.down;
        }
    }
    for (size_t x = all < m ? all : all - m; x < all; x++)
        if (sheet[x] != 255)
            cost += i.down;
    return (struct lamp_answer){0, cost};
}

static uint32_t draw(uint32_t *s)
{
    *s ^= *s << 13;
    *s ^= *s >> 17;
    return *s ^= *s << 5;
}

/* Each gives the place after the field. */
static uint8_t *put_two(uint8_t *at, uint16_t value)
{
    memcpy(at, &value, 2);
    return at + 2;
}

static uint8_t *put_four(uint8_t *at, uint32_t value)
{
    memcpy(at, &value, 4);
    return at + 4;
}

/* F(1) to F(Q), after F(0). Each difference but the first is larger than the one before it by a draw. */
static uint8_t *put_table(uint8_t *at, uint32_t *s, uint32_t entry, uint32_t top)
{
    uint32_t difference = draw(s) % 11;
    at = put_four(at, entry += difference);
    for (uint32_t k = 1; k < top; k++) {
        difference += draw(s) % 4;
        at = put_four(at, entry += difference);
    }
    return at;
}

struct lamp_answer plain_practice(uint32_t start, uint8_t *card, size_t card_len)
{
    uint32_t s = start;
    if (start == 0)
        return refused(14);
    uint32_t m = 1 + draw(&s) % 200, q = 1 + draw(&s) % 200, t = draw(&s) % 65;
    if (card_len < 17 + 4 * (q + 1) + 2 * t)
        return refused(10);
    memcpy(card, "DLS\1", 5);
    card[5] = (uint8_t)m;
    card[6] = (uint8_t)q;
    uint8_t *at = put_two(card + 7, (uint16_t)t);
    at = put_four(at, draw(&s) % 1001);
    at = put_four(at, draw(&s) % 1001);
    uint32_t entry = draw(&s) % 1001;
    at = put_four(at, entry);
    at = put_table(at, &s, entry, q);
    for (uint32_t slot = 0; slot < t; slot++)
        at = put_two(at, (uint16_t)(draw(&s) % (m * q + 1)));
    return (struct lamp_answer){0, 0};
}

/* The catalogue module's table. */
static const uint32_t catalogue[201] = {
    400, 403, 407, 412, 418, 425, 433, 442, 452, 463, 475, 488, 502, 517, 533, 550, 568, 587, 607, 628, 650, 673, 697,
    722, 748, 775, 803, 832, 862, 893, 925, 958, 992, 1027, 1063, 1100, 1138, 1177, 1217, 1258, 1300, 1343, 1387,
    1432, 1478, 1525, 1573, 1622, 1672, 1723, 1775, 1828, 1882, 1937, 1993, 2050, 2108, 2167, 2227, 2288, 2350, 2413,
    2477, 2542, 2608, 2675, 2743, 2812, 2882, 2953, 3025, 3098, 3172, 3247, 3323, 3400, 3478, 3557, 3637, 3718, 3800,
    3883, 3967, 4052, 4138, 4225, 4313, 4402, 4492, 4583, 4675, 4768, 4862, 4957, 5053, 5150, 5248, 5347, 5447, 5548,
    5650, 5753, 5857, 5962, 6068, 6175, 6283, 6392, 6502, 6613, 6725, 6838, 6952, 7067, 7183, 7300, 7418, 7537, 7657,
    7778, 7900, 8023, 8147, 8272, 8398, 8525, 8653, 8782, 8912, 9043, 9175, 9308, 9442, 9577, 9713, 9850, 9988, 10127,
    10267, 10408, 10550, 10693, 10837, 10982, 11128, 11275, 11423, 11572, 11722, 11873, 12025, 12178, 12332, 12487,
    12643, 12800, 12958, 13117, 13277, 13438, 13600, 13763, 13927, 14092, 14258, 14425, 14593, 14762, 14932, 15103,
    15275, 15448, 15622, 15797, 15973, 16150, 16328, 16507, 16687, 16868, 17050, 17233, 17417, 17602, 17788, 17975,
    18163, 18352, 18542, 18733, 18925, 19118, 19312, 19507, 19703, 19900, 20098, 20297, 20497, 20698, 20900,
};

struct lamp_answer plain_table(uint64_t top, uint8_t *table, size_t table_len)
{
    if (top < 1 || top > 200)
        return refused(3);
    if (table_len < 4 * (top + 1))
        return refused(10);
    for (uint64_t k = 0; k <= top; k++)
        table = put_four(table, catalogue[k]);
    return (struct lamp_answer){0, 0};
}

/* The value of the rounded count's case. The last cases come first, since they have the most counts. */
static uint64_t case_value(uint64_t count)
{
    if (count > 128)
        return 200;
    if (count > 64)
        return 128;
    if (count > 32)
        return 64;
    if (count > 16)
        return 32;
    if (count > 8)
        return 16;
    if (count > 4)
        return 8;
    if (count > 2)
        return 4;
    return count;
}

struct lamp_answer plain_rounded(uint64_t count, uint64_t modules)
{
    if (modules < 1 || modules > 200)
        return refused(3);
    if (count > modules)
        return refused(12);
    uint64_t value = case_value(count);
    return (struct lamp_answer){0, value < modules ? value : modules};
}

enum { OPEN = 1, CLOSED = 2, SEATS = 32, ALLOWANCE = 1000 };

/* The acts of a sitting. Two of them read the card, and then plan or mark it as above, which reads it once more; that takes
 * well under a hundredth of their time. */
static struct lamp_reply not_done(uint64_t number, struct lamp_sitting s) { return (struct lamp_reply){number, 0, 0, s}; }
static struct lamp_reply done(uint64_t cost, struct lamp_sitting s) { return (struct lamp_reply){0, cost, 0, s}; }
static size_t seats_of(size_t records) { return records < SEATS ? records : SEATS; }

/* The first seat of a candidate, or of nobody for 0. Where there is none, it is the number of seats. */
static size_t place_of(const struct lamp_seat *seats, size_t n, uint16_t candidate)
{
    size_t k = 0;
    while (k < n && seats[k].candidate != candidate)
        k++;
    return k;
}

struct lamp_reply plain_open(struct lamp_sitting s, uint16_t caller, uint64_t allowance, const uint8_t *card, size_t card_len, uint8_t *plan,
                             size_t plan_len, uint8_t *work, size_t work_len, struct lamp_seat *seats, size_t seats_len)
{
    struct show i;
    uint64_t number = read_card(card, card_len, &i);
    if (number)
        return not_done(number, s);
    if (plan_len < i.slots || work_len < (i.modules + 1) * i.slots)
        return not_done(10, s);
    if (caller != 0)
        return not_done(15, s);
    if (allowance < 1 || allowance > ALLOWANCE)
        return not_done(17, s);
    uint64_t least = plain_exact(card, card_len, plan, plan_len, work, work_len).cost;
    memset(seats, 0, seats_of(seats_len) * sizeof *seats);
    return done(least, (struct lamp_sitting){OPEN, allowance, 0, least});
}

struct lamp_reply plain_seat(struct lamp_sitting s, uint16_t caller, uint16_t candidate, struct lamp_seat *seats, size_t seats_len)
{
    size_t n = seats_of(seats_len), empty;
    if (caller != 0 || s.state != OPEN)
        return not_done(15, s);
    if (candidate == 0 || place_of(seats, n, candidate) < n || (empty = place_of(seats, n, 0)) == n)
        return not_done(16, s);
    seats[empty] = (struct lamp_seat){0, candidate, 0, 0};
    return done(0, s);
}

struct lamp_reply plain_close(struct lamp_sitting s, uint16_t caller)
{
    if (caller != 0 || s.state != OPEN)
        return not_done(15, s);
    s.state = CLOSED;
    return done(0, s);
}

struct lamp_reply plain_submit(struct lamp_sitting s, uint16_t caller, const uint8_t *card, size_t card_len, const uint8_t *sheet,
                               size_t sheet_len, struct lamp_seat *seats, size_t seats_len)
{
    struct show i;
    uint64_t number = read_card(card, card_len, &i);
    if (number)
        return not_done(number, s);
    if (caller == 0 || s.state != OPEN)
        return not_done(15, s);
    size_t n = seats_of(seats_len), at = place_of(seats, n, caller);
    if (at == n)
        return not_done(16, s);
    if (s.submissions >= s.allowance)
        return not_done(17, s);
    s.submissions++;
    struct lamp_answer marked = plain_mark(card, card_len, sheet, sheet_len);
    if (marked.number)
        return not_done(marked.number, s);
    if (!seats[at].marked || marked.cost < seats[at].lowest)
        seats[at].lowest = marked.cost;
    seats[at].marked = 1;
    return done(marked.cost, s);
}

static int is_unopened(const struct lamp_sitting *s) { return s->state != OPEN && s->state != CLOSED; }

struct lamp_reply plain_least(struct lamp_sitting s, uint16_t caller, const struct lamp_seat *seats, size_t seats_len)
{
    size_t n = seats_of(seats_len);
    if (is_unopened(&s) || (caller != 0 && s.state != CLOSED))
        return not_done(15, s);
    if (caller != 0 && place_of(seats, n, caller) == n)
        return not_done(16, s);
    return done(s.least, s);
}

struct lamp_reply plain_lowest(struct lamp_sitting s, uint16_t caller, uint16_t candidate, const struct lamp_seat *seats, size_t seats_len)
{
    size_t n = seats_of(seats_len), at;
    if (is_unopened(&s) || (caller != 0 && caller != candidate))
        return not_done(15, s);
    if (candidate == 0 || (at = place_of(seats, n, candidate)) == n)
        return not_done(16, s);
    return seats[at].marked ? (struct lamp_reply){0, seats[at].lowest, 1, s} : done(0, s);
}

struct lamp_reply plain_used(struct lamp_sitting s, uint16_t caller)
{
    return caller != 0 || is_unopened(&s) ? not_done(15, s) : done(s.submissions, s);
}

/* How many modules of a row are active. A rack has at most 200, so the number fits a byte, and gcc looks at 16 modules at a
 * time. */
static uint8_t active(const uint8_t *row, size_t m)
{
    uint8_t n = 0;
    for (size_t k = 0; k < m; k++)
        n += row[k] != 255;
    return n;
}

/* How many modules of a row are active that were off in the row before it. */
static uint8_t started(const uint8_t *before, const uint8_t *row, size_t m)
{
    uint8_t n = 0;
    for (size_t k = 0; k < m; k++)
        n += (before[k] == 255) & (row[k] != 255);
    return n;
}

/* The explanation of a sheet that serves and costs `cost`, where `least` is the least cost. Into each slot but the first, the
 * modules that start beyond the rise of the count are swapped for as many that stop. */
static struct lamp_points points_of(const struct show *i, const uint8_t *sheet, uint64_t cost, uint64_t least)
{
    uint64_t price = i->up + i->down, as_plan = 0, swapped = 0, before = 0;
    for (uint64_t t = 0; t < i->slots; t++) {
        const uint8_t *row = sheet + t * i->modules;
        uint64_t n = active(row, i->modules), rise = n > before ? n - before : 0;
        as_plan += running_cost(i, n, load(i, t)) + price * rise;
        if (t > 0)
            swapped += started(row - i->modules, row, i->modules) - rise;
        before = n;
    }
    return (struct lamp_points){0, cost - price * swapped - as_plan, price * swapped, as_plan - least};
}

static struct lamp_points unexplained(uint64_t number) { return (struct lamp_points){number, 0, 0, 0}; }

/* The card is read once more to mark the sheet, and once more to plan, which takes well under a hundredth of the time. */
struct lamp_points plain_explain(const uint8_t *card, size_t card_len, const uint8_t *sheet, size_t sheet_len, uint8_t *work, size_t work_len)
{
    struct show i;
    uint8_t plan[1024];
    uint64_t number = read_card(card, card_len, &i);
    if (number)
        return unexplained(number);
    if (work_len < (i.modules + 1) * i.slots)
        return unexplained(10);
    struct lamp_answer marked = plain_mark(card, card_len, sheet, sheet_len);
    if (marked.number)
        return unexplained(marked.number);
    i.lowest = lowest_step(&i);
    return points_of(&i, sheet, marked.cost, plain_exact(card, card_len, plan, sizeof plan, work, work_len).cost);
}
