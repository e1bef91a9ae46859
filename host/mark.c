/* A small host: marks the two sheets of document 01's example D, one with more light than the load of slot 3, and two
 * that are refused, the first for too little light in slot 3; then plans the card and marks the planner's own sheet.
 *
 *   gcc -std=c11 -Wall -Wextra -Werror -Iinclude host/mark.c target/staticlib/liblamp.a -o target/host/mark
 */
#include <inttypes.h>
#include <stdio.h>

#include "lamp.h"

static const uint8_t card[] = {0x44, 0x4C, 0x53, 0x01, 0x00, 0x03, 0x02, 0x03, 0x00, 0x03, 0x00, 0x00,
                               0x00, 0x02, 0x00, 0x00, 0x00, 0x01, 0x00, 0x00, 0x00, 0x02, 0x00, 0x00,
                               0x00, 0x04, 0x00, 0x00, 0x00, 0x06, 0x00, 0x00, 0x00, 0x02, 0x00};

/* The words of document 01 for the refusals of a sheet on an accepted card; the others by their number alone. */
static const char *word(uint64_t number)
{
    switch (number) {
    /* tests/words.py writes the lines from here on, from include/refusals.txt. */
    case LAMP_WRONG_LENGTH: return " (roll)";
    case LAMP_ENTRY_RANGE: return " (entry)";
    case LAMP_LOAD_NOT_SERVED: return " (light)";
    /* tests/words.py writes the lines up to here. */
    default: return "";
    }
}

static void print(struct lamp_answer answer)
{
    if (answer.number != 0)
        printf("refused %" PRIu64 "%s\n", answer.number, word(answer.number));
    else
        printf("%" PRIu64 "\n", answer.cost);
}

int main(void)
{
    uint8_t sheet[9] = {2, 2, 2, LAMP_OFF, 0, LAMP_OFF, 2, LAMP_OFF, LAMP_OFF};
    uint8_t plan[3], work[12];

    print(lamp_mark(card, sizeof card, sheet, sizeof sheet));
    sheet[8] = 0;
    print(lamp_mark(card, sizeof card, sheet, sizeof sheet));
    sheet[8] = 1;
    print(lamp_mark(card, sizeof card, sheet, sizeof sheet));
    sheet[6] = 0;
    print(lamp_mark(card, sizeof card, sheet, sizeof sheet));
    sheet[8] = 3;
    print(lamp_mark(card, sizeof card, sheet, sizeof sheet));

    print(lamp_plan_exact(card, sizeof card, plan, sizeof plan, work, sizeof work));
    print(lamp_sheet(card, sizeof card, plan, sizeof plan, sheet, sizeof sheet));
    print(lamp_mark(card, sizeof card, sheet, sizeof sheet));
    return 0;
}
