/* Letters put at one of two sites, one by one or in bursts, a packet of each, and these taken at the other: what a letter
 * costs.
 * usage: typed LETTERS end|random|bursts */
#include <stdint.h>
#include <stdio.h>
#include <stdlib.h>
#include <string.h>
#include <time.h>
#include "treedoc.h"

enum { BURST = 20 };

static uint64_t seed = 12345;

static uint32_t below(uint32_t most)
{
    seed = seed * 6364136223846793005ull + 1442695040888963407ull;
    return (uint32_t)((seed >> 33) % most);
}

/* Nanoseconds of the processor. */
static double spent(void)
{
    struct timespec time;
    clock_gettime(CLOCK_PROCESS_CPUTIME_ID, &time);
    return time.tv_sec * 1e9 + time.tv_nsec;
}

int main(int words, char **word)
{
    if (words != 3) return 2;
    uint32_t letters = (uint32_t)atoi(word[1]);
    bool at_random = !strcmp(word[2], "random");
    uint32_t step = strcmp(word[2], "bursts") ? 1 : BURST, steps = letters / step;
    letters = steps * step;
    td_session one = TD_SESSION, other = TD_SESSION;
    if (td_version() != TD_VERSION || td_open(1, 2, &one) || td_open(2, 2, &other)) return 1;
    uint8_t (*packets)[TD_PACKET_ROOM] = calloc(steps, TD_PACKET_ROOM);
    size_t *lengths = calloc(steps, sizeof *lengths), bytes = 0;
    uint8_t *text = calloc(2, letters + 1);
    if (!packets || !lengths || !text) return 1;
    memset(packets, 1, (size_t)steps * TD_PACKET_ROOM);
    double begun = spent();
    for (uint32_t i = 0; i < steps; i++) {
        uint8_t burst[BURST];
        for (uint32_t j = 0; j < step; j++) burst[j] = (uint8_t)('a' + (i * step + j) % 26);
        uint32_t index = at_random ? below(i + 1) : i * step;
        td_answer put = step == 1 ? td_insert(&one, index, burst, 1) : td_paste(&one, index, burst, step);
        if (put.status != TD_MADE) return 1;
        td_written packet = td_packet(&one, i + 1, packets[i], TD_PACKET_ROOM);
        if (packet.status != TD_DONE) return 1;
        lengths[i] = packet.len;
        bytes += packet.len;
    }
    double typed = spent();
    for (uint32_t i = 0; i < steps; i++) {
        td_change change;
        if (td_receive(&other, packets[i], lengths[i]).status != TD_NEW) return 1;
        td_changed(&other, &change);
        if (change.kind != TD_PUT) return 1;
    }
    double taken = spent();
    td_written whole = td_text(&one, text, letters + 1);
    if (whole.len != letters || td_text(&other, text + letters + 1, letters + 1).len != letters ||
        memcmp(text, text + letters + 1, letters)) return 1;
    printf("%.0f %.0f %.1f\n", (typed - begun) / letters, (taken - typed) / letters, (double)bytes / letters);
    td_close(&one);
    td_close(&other);
    free(packets);
    free(lengths);
    free(text);
    return 0;
}
