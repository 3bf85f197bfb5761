/* The seat run on one square deck and three seats; prints a line a record, as seatlist does. Floats are written by their bits. */
#include <stdio.h>
#include "seats.h"

static const uint32_t ship[] = {
    1, 0x3F000000, 2, 52, 72, 124, 32, 156, 8, 164, 16, 180, 16, /* decks, reach 0.5, steps; offset and length of V, N, P, C, H */
    0, 0, 0, 0, 0, 2, 0x40800000, 0, 2, 2, 0x40800000, 0x40800000, 4, 2, 0, 0x40800000, 6, 2, /* V: (0,0) (4,0) (4,4) (0,4) */
    0, SEATS_OUTSIDE, 0, SEATS_OUTSIDE, 0, SEATS_OUTSIDE, 0, SEATS_OUTSIDE, /* N: polygon 0 and the outside at each vertex */
    0, 4, 0, 1, 2, 3, 0x3F800000, 0x3F800000, 0x40400000, 0x40400000}; /* P and C: one polygon; H: heights 1, 1, 3, 3 */
static const uint32_t seats[3][SEATS_SEAT_SIZE / 4] = { /* (1, 1), (5, 5), (-0.5, 2) */
    {0x3F800000, 0x3F800000, SEATS_ANY_DECK}, {0x40A00000, 0x40A00000, SEATS_ANY_DECK}, {0xBF000000, 0x40000000, SEATS_ANY_DECK}};

int main(void)
{
    static const uint8_t blocked[SEATS_BLOCKED_SIZE];
    static uint32_t r[3][SEATS_RECORD_SIZE / 4];
    int count = (int)seats_run((const uint8_t *)ship, sizeof ship, blocked, sizeof blocked, (const uint8_t *)seats, sizeof seats,
                               (uint8_t *)r, sizeof r);
    for (int i = 0; i < count; i++)
        if (r[i][0] == SEATS_NO_POLYGON)
            printf("%d none %u\n", i, r[i][7]);
        else
            printf("%d placed %u %u %08X %08X %08X %u %u %u %u\n", i, r[i][0] >> 24, r[i][0] & 0xFFFFFF, r[i][1], r[i][2], r[i][4],
                   r[i][5], r[i][6], r[i][7], r[i][8]);
    if (count < 0)
        printf("refused %d\n", -count);
    return count < 0;
}
