/* A day at the lost property counter, told by a C program over the static library. */
#include "../tavumxa.h"

#include <stdio.h>
#include <stdlib.h>
#include <string.h>

struct act {
    const char *words;
    const char *line;
};

static const char roster[] =
    "P,0,0\nP,1,9\nP,2,10\nP,3,17\nP,4,31\n"
    "S,0,0\nS,1,9\nS,2,17\nS,3,9\nS,4,9\nS,5,17\nS,6,17\nS,7,18\n";

/* Finds which of two trains the owner is on, and would tell the counter whether the engraving is 1987. */
#define COMPARING \
    "01000500000000000304060200000003040000060000000001000500000000010500000000000000" \
    "03040602000000040400000600000000010005000000000207000000000000000700000000000000"
#define LEAKING "02040602000007c3040000060000000001000100000000010700000000000000"

static const struct act day[] = {
    {"the traveller at the window notes that a ring was handed in", "L,0,0,1\n"},
    {"the clerk for jewellery notes the metal of the ring", "L,1,1,79\n"},
    {"the back office for jewellery notes the engraving", "L,3,2,1987\n"},
    {"the clerk for money notes the sum in a purse", "L,2,7,250\n"},
    {"the traveller at the window asks for the engraving", "V,0,2\n"},
    {"the traveller at the window says 1986, from the first train", "L,0,3,1986\n"},
    {"the traveller at the window says 1987, from the second train", "L,0,4,1987\n"},
    {"the clerk for jewellery runs the sheet that compares", "R,1,100," COMPARING "\n"},
    {"the clerk for jewellery asks which train the owner is on", "V,1,5\n"},
    {"the back office for jewellery asks which train the owner is on", "V,3,5\n"},
    {"the clerk for jewellery runs the sheet that would tell", "R,1,100," LEAKING "\n"},
    {"the clerk for jewellery asks for the metal of the ring", "V,1,1\n"},
    {"the clerk for money asks for the engraving", "V,2,2\n"},
};
enum { ACTS = sizeof day / sizeof day[0] };

/* An answer in words: what a call gives depends on its kind, the first letter of its line. */
static void tell(const struct act *act, unsigned number, unsigned row, long value)
{
    printf("  %s: ", act->words);
    if (number == 31)
        printf("refused with fault %u at row %u\n", number, row);
    else if (number != 0)
        printf("refused with fault %u\n", number);
    else if (act->line[0] == 'V')
        printf("%ld\n", value);
    else if (act->line[0] == 'R')
        printf("done in %ld turns\n", value);
    else
        printf("done\n");
}

int main(void)
{
    char input[2048];
    strcpy(input, roster);
    for (size_t i = 0; i < ACTS; i++)
        strcat(input, day[i].line);
    size_t length = strlen(input), room = tavumxa_room_for((const uint8_t *)input, length), size = 0;
    char *out = calloc(room + 1, 1);
    if (!out || !tavumxa_respond((const uint8_t *)input, length, (uint8_t *)out, room, &size))
        return EXIT_FAILURE;
    puts("A day at the box:");
    char *line = strtok(out, "\n");
    for (size_t i = 0; i < ACTS; i++, line = strtok(NULL, "\n")) {
        unsigned number, row, byte;
        long value;
        if (!line || sscanf(line, "%u,%u,%u,%ld", &number, &row, &byte, &value) != 4)
            return EXIT_FAILURE;
        tell(&day[i], number, row, value);
    }
    free(out);
    return EXIT_SUCCESS;
}
