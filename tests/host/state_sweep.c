// compare_states of every two states of three bits.
#include "state_calls.h"

static unsigned swept[ORDERS];

// Puts three letters into the rows of a state, by a number below 27.
static void put_letters(struct state_draft *s, int state, unsigned number)
{
    for (size_t i = 0; i < s->widths; i++) {
        s->mask[state][i] = s->value[state][i] = 0;
        for (unsigned k = 0; k < s->width[i]; k++, number /= 3) {
            s->mask[state][i] |= (uint32_t)(number % 3 == 2) << k;
            s->value[state][i] |= (uint32_t)(number % 3 == 1) << k;
        }
    }
}

void sweep_states(void)
{
    static const uint8_t widths[3][3] = {{3}, {1, 2}, {1, 1, 1}};
    static struct state_draft s;
    for (size_t rows = 1; rows <= 3; rows++) {
        s.widths = s.masks[0] = s.masks[1] = s.values[0] = s.values[1] = rows;
        for (size_t i = 0; i < rows; i++)
            s.width[i] = widths[rows - 1][i];
        for (unsigned n = 0; n < 27 * 27; n++) {
            put_letters(&s, 0, n / 27);
            put_letters(&s, 1, n % 27);
            swept[judge_states(&s).result]++;
        }
    }
}

int report_state_sweep(void)
{
    return report_counts("every two states of three bits, equal, inside, around, none", NULL, swept, ORDERS);
}
