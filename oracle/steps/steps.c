/* steps COUNT: begins a call, hands it so many idle events one at a time, and a tick that settles it, for a counter of instructions to watch: what
 * the steps cost is the difference of two runs. */
#include <stdint.h>
#include <stdio.h>
#include <stdlib.h>

#include "bintrochis.h"

int main(int count, char **words) {
    static uint64_t state[sizeof(struct bintrochis_state) / sizeof(uint64_t)];
    static uint8_t request[BINTROCHIS_LONGEST_REQUEST];
    const int events = count > 1 ? atoi(words[1]) : 0;
    int refused = bintrochis_door_begin(7, 1, 0xf190, 0, 0, 0, 1000, 5000, 0, UINT16_MAX, 0, request, 0, request, sizeof request, state);
    for (int i = 0; i < events; i++) {
        refused |= bintrochis_door_event(state, request, sizeof request, (uint32_t)i, 1, 0, 0, 0, request, 0);
    }
    refused |= bintrochis_door_tick(state, 1001);
    printf("%d events, outcome %d, refused %d\n", events, (int)state[0], refused);
    return refused;
}
