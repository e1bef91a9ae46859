/* A host to copy from. It plans a card exactly and lists the plan, and marks a sheet if it is given one.
 *
 *   host CARD [SHEET]
 *
 * CARD is a file that holds a card, SHEET a file that holds a sheet of m * T bytes. The exit status is 0 if all was
 * done, 1 if a call refused, with the reason on standard error, and 2 for wrong use, a file that cannot be read, a lack
 * of memory, or output that was not written whole. Unless all calls succeed, nothing is printed on standard output.
 *
 * In the repository, and in a release folder:
 *   gcc -std=c11 -O2 -Wall -Wextra -Wswitch-enum -pedantic -Werror -Iinclude host/host.c target/staticlib/liblamp.a
 *   gcc -std=c11 -O2 -Wall -Wextra -Wswitch-enum -pedantic -Werror -Iinclude samples/host.c lib/liblamp.a
 */
#include <inttypes.h>
#include <stdio.h>
#include <stdlib.h>

#include "lamp.h"

enum { DONE = 0, REFUSED = 1, FAILED = 2 };

/* A card, the sizes that its fields give, and the buffers of its show. A card of more than LAMP_MAX_CARD bytes is
 * refused, however long it is, so one byte more is all that is read of it. */
struct show {
    uint8_t card[LAMP_MAX_CARD + 1];
    size_t card_len;
    size_t modules, slots, work_len, sheet_len;
    uint8_t *plan, *work, *sheet;
};

static int refused(struct lamp_answer answer)
{
    fprintf(stderr, "refused %" PRIu64 ": %s\n", answer.number, lamp_words(answer.number));
    return REFUSED;
}

static int failed(const char *what, const char *name)
{
    fprintf(stderr, "host: %s%s\n", what, name);
    return FAILED;
}

/* Reads a file, but no more of it than `room` bytes. Gives 0 if the file cannot be read. */
static int read_file(const char *name, uint8_t *bytes, size_t room, size_t *length)
{
    FILE *file = fopen(name, "rb");
    int readable;

    if (file == NULL)
        return 0;
    *length = fread(bytes, 1, room, file);
    readable = !ferror(file);
    fclose(file);
    return readable;
}

/* Makes the buffers of an accepted card, as long as its fields ask for. For a show without slots that is no byte at
 * all, and malloc may give NULL for no byte, so each buffer gets one byte more. Gives 0 if memory is lacking. */
static int make_buffers(struct show *show)
{
    show->modules = show->card[5];
    show->slots = show->card[7] + (size_t)256 * show->card[8];
    show->work_len = (show->modules + 1) * show->slots;
    show->sheet_len = show->modules * show->slots;
    show->plan = malloc(show->slots + 1);
    show->work = malloc(show->work_len + 1);
    show->sheet = malloc(show->sheet_len + 1);
    return show->plan != NULL && show->work != NULL && show->sheet != NULL;
}

/* Reads and checks a card, makes its buffers, plans it and makes the sheet of the plan. */
static int plan_card(struct show *show, const char *name, uint64_t *least)
{
    struct lamp_answer answer;

    if (!read_file(name, show->card, sizeof show->card, &show->card_len))
        return failed("cannot read ", name);
    answer = lamp_check_card(show->card, show->card_len);
    if (answer.number != 0)
        return refused(answer);
    if (!make_buffers(show))
        return failed("out of memory", "");
    answer = lamp_plan_exact(show->card, show->card_len, show->plan, show->slots, show->work, show->work_len);
    if (answer.number != 0)
        return refused(answer);
    *least = answer.cost;
    answer = lamp_sheet(show->card, show->card_len, show->plan, show->slots, show->sheet, show->sheet_len);
    return answer.number != 0 ? refused(answer) : DONE;
}

/* Reads and marks a sheet. The buffer has room for one byte more, so that a sheet that is too long is seen to be. */
static int mark_sheet(const struct show *show, const char *name, uint64_t *cost)
{
    uint8_t *sheet = malloc(show->sheet_len + 1);
    struct lamp_answer answer = {0, 0};
    size_t length;
    int status = DONE;

    if (sheet == NULL)
        return failed("out of memory", "");
    if (read_file(name, sheet, show->sheet_len + 1, &length))
        answer = lamp_mark(show->card, show->card_len, sheet, length);
    else
        status = failed("cannot read ", name);
    free(sheet);
    *cost = answer.cost;
    return answer.number != 0 ? refused(answer) : status;
}

/* Prints the steps of one slot, and '-' for each module that is off. */
static void print_row(const uint8_t *row, size_t modules)
{
    for (size_t module = 0; module < modules; module++) {
        if (row[module] == LAMP_OFF)
            printf(" -");
        else
            printf(" %d", row[module]);
    }
    printf("\n");
}

static void print_show(const struct show *show, uint64_t least)
{
    printf("cost %" PRIu64 "\nplan", least);
    for (size_t slot = 0; slot < show->slots; slot++)
        printf(" %d", show->plan[slot]);
    printf("\n");
    for (size_t slot = 0; slot < show->slots; slot++) {
        printf("slot %zu:", slot + 1);
        print_row(show->sheet + slot * show->modules, show->modules);
    }
}

/* Plans the card and marks the sheet, if there is one, and then prints. No sheet costs less than the exact plan. */
static int plan_and_print(struct show *show, const char *card, const char *sheet)
{
    uint64_t least = 0, cost = 0;
    int status = plan_card(show, card, &least);

    if (status == DONE && sheet != NULL)
        status = mark_sheet(show, sheet, &cost);
    if (status != DONE)
        return status;
    print_show(show, least);
    if (sheet != NULL)
        printf("sheet costs %" PRIu64 ", %" PRIu64 " above the least\n", cost, cost - least);
    return DONE;
}

/* Closes standard output. Gives 0 if not all that was printed could be written. */
static int close_output(void)
{
    int written = !ferror(stdout);

    return fclose(stdout) == 0 && written;
}

int main(int argc, char **argv)
{
    static struct show show;
    int status;

    if (argc != 2 && argc != 3)
        return failed("usage: host CARD [SHEET]", "");
    status = plan_and_print(&show, argv[1], argc == 3 ? argv[2] : NULL);
    free(show.plan);
    free(show.work);
    free(show.sheet);
    if (status == DONE && !close_output())
        return failed("output not written whole", "");
    return status;
}
