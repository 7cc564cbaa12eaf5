/* Runs a program natively, as plain C, at the addresses that it has in a run of the library: tools/program compiles it beside the program's own file.
 *
 * Reads the number of words of the state, then operations of 4 words, and writes of each what the function returned, 136 words of the reply and a digest
 * of the state. */
#define _DEFAULT_SOURCE
#include "githoppu_program.h"
#include <inttypes.h>
#include <stdio.h>
#include <string.h>
#include <sys/mman.h>

static void *placed(uint64_t address, uint64_t bytes) {
    void *at = mmap((void *)(uintptr_t)address, bytes, PROT_READ | PROT_WRITE, MAP_PRIVATE | MAP_ANONYMOUS | MAP_FIXED_NOREPLACE, -1, 0);
    return at == MAP_FAILED ? NULL : at;
}

static uint64_t mixed(uint64_t so_far, uint64_t word) {
    uint64_t product = (so_far ^ word) * 0x9E3779B97F4A7C15u;
    return product ^ product >> 29;
}

int main(void) {
    uint64_t words, request[144];
    uint64_t *state, *seen, *reply;
    if (scanf("%" SCNu64, &words) != 1)
        return 2;
    state = placed((uint64_t)1 << 32, 8 * words);
    seen = placed((uint64_t)2 << 32, sizeof request);
    reply = placed((uint64_t)3 << 32, 136 * sizeof *reply);
    if (!state || !seen || !reply)
        return 3;
    for (;;) {
        uint64_t returned, digest = 14695981039346656037u, i;
        memset(request, 0, sizeof request);
        for (i = 0; i < 4; i++)
            if (scanf("%" SCNu64, &request[i]) != 1)
                return 0;
        memcpy(seen, request, sizeof request);
        memset(reply, 0, 136 * sizeof *reply);
        returned = githoppu_run(seen, reply, state, 8 * words);
        printf("%" PRIu64, returned);
        for (i = 0; i < 136; i++)
            printf(" %" PRIu64, reply[i]);
        for (i = 0; i < words; i++)
            digest = mixed(digest, state[i]);
        printf(" %" PRIu64 "\n", digest);
    }
}
