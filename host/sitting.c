/* A small host that plays one sitting on document 01's card A and prints what each caller is told. Two candidates are
 * seated, a third one is not. They submit the sheets of document 01's example D, one with more light than the load of
 * slot 3, one with too little light there, the planner's own, and one more than the allowance has.
 *
 * In the repository, and in a release folder:
 *   gcc -std=c11 -O2 -Wall -Wextra -Wswitch-enum -pedantic -Werror -Iinclude host/sitting.c target/staticlib/liblamp.a
 *   gcc -std=c11 -O2 -Wall -Wextra -Wswitch-enum -pedantic -Werror -Iinclude samples/sitting.c lib/liblamp.a
 */
#include <inttypes.h>
#include <stddef.h>
#include <stdio.h>

#include "lamp.h"

/* The records as the library has them: their sizes and the places of their fields. */
_Static_assert(sizeof(struct lamp_seat) == 16, "a seat has 16 bytes");
_Static_assert(sizeof(struct lamp_sitting) == 32, "a sitting has 32 bytes");
_Static_assert(sizeof(struct lamp_reply) == 56, "a reply has 56 bytes");
_Static_assert(offsetof(struct lamp_seat, lowest) == 0 && offsetof(struct lamp_seat, candidate) == 8 &&
                   offsetof(struct lamp_seat, marked) == 10 && offsetof(struct lamp_seat, reserved) == 12,
               "the fields of a seat");
_Static_assert(offsetof(struct lamp_sitting, state) == 0 && offsetof(struct lamp_sitting, allowance) == 8 &&
                   offsetof(struct lamp_sitting, submissions) == 16 && offsetof(struct lamp_sitting, least) == 24,
               "the fields of a sitting");
_Static_assert(offsetof(struct lamp_reply, number) == 0 && offsetof(struct lamp_reply, cost) == 8 &&
                   offsetof(struct lamp_reply, marked) == 16 && offsetof(struct lamp_reply, sitting) == 24,
               "the fields of a reply");

enum { SUPERVISOR = 0, FIRST = 4021, SECOND = 17, UNSEATED = 99, ALLOWANCE = 5, SEATS = 3 };

static const uint8_t card[] = {0x44, 0x4C, 0x53, 0x01, 0x00, 0x03, 0x02, 0x03, 0x00, 0x03, 0x00, 0x00,
                               0x00, 0x02, 0x00, 0x00, 0x00, 0x01, 0x00, 0x00, 0x00, 0x02, 0x00, 0x00,
                               0x00, 0x04, 0x00, 0x00, 0x00, 0x06, 0x00, 0x00, 0x00, 0x02, 0x00};
static uint8_t plan[3], work[12];

/* What the host keeps between two acts. It begins unopened. */
static struct lamp_sitting sitting;
static struct lamp_seat seats[SEATS];

/* Who acts, for the line of the act. */
static void print_caller(uint16_t caller)
{
    if (caller == SUPERVISOR)
        printf("supervisor");
    else
        printf("candidate %d", caller);
}

/* What a success gives: no cost, a cost, or a lowest cost if there is one. */
enum given { DONE, COST, LOWEST };

/* Keeps the sitting for the next act, and prints what the caller is told. */
static void tell(struct lamp_reply reply, enum given given)
{
    sitting = reply.sitting;
    if (reply.number != 0)
        printf("refused %" PRIu64 "\n", reply.number);
    else if (given == DONE)
        printf("done\n");
    else if (given == LOWEST && reply.marked == 0)
        printf("none\n");
    else
        printf("%" PRIu64 "\n", reply.cost);
}

static void open_sitting(uint16_t caller, uint64_t allowance)
{
    print_caller(caller);
    printf(" opens with %" PRIu64 " submissions: ", allowance);
    tell(lamp_sitting_open(sitting, caller, allowance, card, sizeof card, plan, sizeof plan, work, sizeof work, seats,
                           SEATS),
         COST);
}

static void seat(uint16_t caller, uint16_t candidate)
{
    print_caller(caller);
    printf(" seats candidate %d: ", candidate);
    tell(lamp_sitting_seat(sitting, caller, candidate, seats, SEATS), DONE);
}

static void close_sitting(uint16_t caller)
{
    print_caller(caller);
    printf(" closes: ");
    tell(lamp_sitting_close(sitting, caller), DONE);
}

/* The sheets differ in slot 2 and slot 3 alone. */
static void submit(uint16_t caller, const uint8_t slot_2[3], const uint8_t slot_3[3])
{
    uint8_t sheet[9] = {2, 2, 2, slot_2[0], slot_2[1], slot_2[2], slot_3[0], slot_3[1], slot_3[2]};

    print_caller(caller);
    printf(" submits a sheet: ");
    tell(lamp_sitting_submit(sitting, caller, card, sizeof card, sheet, sizeof sheet, seats, SEATS), COST);
}

static void read_least(uint16_t caller)
{
    print_caller(caller);
    printf(" reads the least cost: ");
    tell(lamp_sitting_least(sitting, caller, seats, SEATS), COST);
}

static void read_lowest(uint16_t caller, uint16_t candidate)
{
    print_caller(caller);
    printf(" reads the lowest cost of candidate %d: ", candidate);
    tell(lamp_sitting_lowest(sitting, caller, candidate, seats, SEATS), LOWEST);
}

static void read_used(uint16_t caller)
{
    print_caller(caller);
    printf(" reads the submissions used: ");
    tell(lamp_sitting_used(sitting, caller), COST);
}

/* What the host has kept. It shows this to no candidate. */
static void print_kept(void)
{
    printf("the host keeps: state %" PRIu64 ", %" PRIu64 " of %" PRIu64 " submissions used, least cost %" PRIu64 "\n",
           sitting.state, sitting.submissions, sitting.allowance, sitting.least);
    for (int place = 0; place < SEATS; place++)
        printf("record %d: candidate %d, marked %d, lowest %" PRIu64 "\n", place + 1, seats[place].candidate,
               seats[place].marked, seats[place].lowest);
}

int main(void)
{
    static const uint8_t swapped[3] = {LAMP_OFF, 0, LAMP_OFF}, kept[3] = {0, LAMP_OFF, LAMP_OFF};
    static const uint8_t just[3] = {2, LAMP_OFF, LAMP_OFF}, darker[3] = {1, LAMP_OFF, LAMP_OFF};
    static const uint8_t with_0[3] = {2, LAMP_OFF, 0}, with_1[3] = {2, LAMP_OFF, 1};

    read_used(SUPERVISOR);
    open_sitting(FIRST, ALLOWANCE);
    open_sitting(SUPERVISOR, 0);
    open_sitting(SUPERVISOR, ALLOWANCE);
    seat(SUPERVISOR, FIRST);
    seat(SUPERVISOR, SECOND);
    seat(SUPERVISOR, FIRST);
    seat(SECOND, UNSEATED);

    submit(FIRST, swapped, with_0);
    submit(FIRST, swapped, just);
    submit(FIRST, swapped, with_1);
    submit(UNSEATED, swapped, just);
    read_lowest(FIRST, FIRST);
    read_lowest(FIRST, SECOND);
    read_lowest(SUPERVISOR, SECOND);
    read_least(FIRST);
    read_least(SUPERVISOR);
    submit(SECOND, swapped, darker);
    submit(SECOND, kept, just);
    submit(FIRST, kept, just);
    read_used(SUPERVISOR);

    close_sitting(SECOND);
    close_sitting(SUPERVISOR);
    submit(SECOND, kept, just);
    seat(SUPERVISOR, UNSEATED);
    read_least(SECOND);
    read_least(UNSEATED);
    read_lowest(SECOND, SECOND);
    close_sitting(SUPERVISOR);
    print_kept();
    return 0;
}
