/* The bench's rivals in C: the calls of include/fadc250.h that it times, with the same arrays, answers and refusals.
   `plain_` has one early exit a sample or word, `sse2_` is written by hand with the instructions that every x86-64
   processor has. Both are peer.c, compiled twice. */
#ifndef PEER_H
#define PEER_H

#include <stddef.h>
#include <stdint.h>

#define PEER_CALLS(rival)                                                                                           \
    uint32_t rival##_set_up(const uint64_t *settings, size_t n, uint64_t *state, size_t m);                         \
    uint32_t rival##_open_block(uint64_t *state, size_t m, uint32_t *words, size_t w, uint32_t number,              \
                                uint32_t events);                                                                   \
    uint32_t rival##_open_event(uint64_t *state, size_t m, uint32_t number, uint64_t time);                         \
    uint32_t rival##_post(uint64_t *state, size_t m, uint16_t *store, size_t s, uint32_t channel,                   \
                          const uint16_t *window, size_t n);                                                        \
    uint32_t rival##_close(uint64_t *state, size_t m, const uint16_t *store, size_t s, uint32_t *words, size_t w);  \
    uint32_t rival##_close_with_scalers(uint64_t *state, size_t m, const uint16_t *store, size_t s,                 \
                                        uint32_t *words, size_t w);                                                 \
    uint64_t rival##_finish(uint64_t *state, size_t m, uint32_t *words, size_t w);                                  \
    uint32_t rival##_count(uint64_t *state, size_t m, const uint16_t *frames, size_t n);                            \
    uint32_t rival##_latch(uint64_t *state, size_t m);                                                              \
    uint32_t rival##_reset(uint64_t *state, size_t m);                                                              \
    uint32_t rival##_find(const uint64_t *settings, size_t n, uint32_t channel, const uint16_t *window, size_t len, \
                          uint32_t *out, size_t o);                                                                 \
    uint64_t rival##_check(const uint8_t *bytes, size_t n);

PEER_CALLS(plain)
PEER_CALLS(sse2)

/* Reads all bytes and does nothing with them but one "or" for 16: what no check of them can be faster than. */
uint64_t sse2_read(const uint8_t *bytes, size_t n);

#endif
