/* A data structure of one's own for Githoppu: sequential C over words, compiled to BPF (RFC 9669).
 *
 *   tools/program FILE.c -o FILE.h          compiles and links it, with clang, to a constant for C, and says what is wrong, by the line
 *   tools/program FILE.c --test             runs it natively and in an interpreter, side by side
 *
 * One operation is one call of GITHOPPU_RUN. It sees
 *   request   144 words, read only. Word 0 says which operation it is, and whether it only reads: GITHOPPU_UPDATE(n), GITHOPPU_READ(n)
 *   reply     136 words, zeros at first: words 8 to 143 of the reply that the caller gets, where word 0 is 1 and word 1 what the function returned
 *   state     `size` bytes, zeros at first. It stands at the same address in each run, so pointers into it may be kept in it
 * and a stack of 4,096 bytes, 512 for each call within another, at most 7 deep. Constants may be read. There are no variables outside functions, no
 * calls of other functions than those of the file, no floats.
 *
 * Each access is checked: a bad address, one that is no multiple of its size, a store to the state in an operation that only reads, a store too many
 * (256 in one operation), or more instructions than the fuel allows end the operation. It then changes nothing, and word 0 of the reply is the fault's number.
 */
#ifndef GITHOPPU_PROGRAM_H
#define GITHOPPU_PROGRAM_H

#include <stdint.h>

/* Word 0 of a request: the number of the operation, and whether it only reads. */
#define GITHOPPU_UPDATE(n) ((uint64_t)(n) << 1)
#define GITHOPPU_READ(n) ((uint64_t)(n) << 1 | 1)

/* The update that a program gets once for each image of another program that it takes over, before all other operations: it then finds the state as the
 * program before left it, and brings it into its own form. Word 1 of the request is that program's fingerprint, all other words are 0. What ends by a
 * fault leaves the state as it was, so an upgrade has its fuel and its 256 stores as any operation has; a program that knows no upgrade just returns.
 * A caller may ask for this operation too: who upgrades notes it in the state, and does it once. */
#define GITHOPPU_UPGRADE (UINT64_MAX - 1)

/* Word 0 of a reply. Of a fault, word 1 is the number of the instruction and word 2 the address. */
enum githoppu_run_status {
    GITHOPPU_RAN = 1,             /* the function returned, word 1 is what it returned */
    GITHOPPU_BAD_ADDRESS = 2,     /* no place that may be loaded from or stored to */
    GITHOPPU_UNALIGNED = 3,       /* an address that is no multiple of the bytes that are loaded or stored */
    GITHOPPU_STORE_IN_READ = 4,   /* a store to the state in an operation that only reads */
    GITHOPPU_TOO_MANY_STORES = 5, /* more than 256 stores to the state */
    GITHOPPU_OUT_OF_FUEL = 6,     /* more instructions than an operation may take */
    GITHOPPU_TOO_DEEP = 7,        /* more than 7 calls within one another */
    GITHOPPU_NO_INSTRUCTION = 8   /* no instruction is there: no program that was validated ends so */
};

#if defined(__GNUC__)
#define GITHOPPU_MAYBE_UNUSED __attribute__((unused))
#else
#define GITHOPPU_MAYBE_UNUSED
#endif

#ifdef __cplusplus
extern "C"
#endif
uint64_t githoppu_run(const uint64_t *request, uint64_t *reply, void *state, uint64_t size);

/* The head of the function: its body follows. */
#define GITHOPPU_RUN \
    uint64_t githoppu_run(GITHOPPU_MAYBE_UNUSED const uint64_t *request, GITHOPPU_MAYBE_UNUSED uint64_t *reply, \
                          GITHOPPU_MAYBE_UNUSED void *state, GITHOPPU_MAYBE_UNUSED uint64_t size)

#endif
