/* The calls that a library offers to be timed: numbers and bytes over its public calls.
 *
 * `repeat`, at least 1: how often the work is done from new. What is the same each time (settings, the request that
 * is asked, the output's memory) is made once. The answer is that of the last time.
 * `out`: takes the bytes of the last time; of length 0 where none are wanted, and the answer is the same then.
 * Answers: 0 or more as said below; -1 refused; -2 want of memory; -3 `out` is too short; -4 an argument is out of
 * range.
 *
 * `settings`: 0 the server's default, 1 the same with its endpoint a hundred times, 2 the same with 65535 chunks to a
 * message. A server's channel id is 1. A client takes frames of `buffer` bytes, messages of 1048576 bytes and 64
 * chunks, names opc.tcp://localhost:4840, and counts from 1. `piece`: bytes of a piece, 0 for all in one.
 */
#ifndef UA_BENCH_H
#define UA_BENCH_H
#include <stddef.h>
#include <stdint.h>

/* The length of `in`: what a call costs. */
int64_t ua_nothing(const uint8_t *in, size_t in_len);

/* A new server is fed `in` at one moment. Answer: requests handed on << 32 | length of the reply. `out`: the reply. */
int64_t ua_answer(uint32_t settings, const uint8_t *in, size_t in_len, size_t piece, int64_t moment, uint32_t repeat,
                  uint8_t *out, size_t out_len);

/* Reads a value of the built-in type with that number (1 to 25; 100 more: an array of it, for 6, 12, 17, 23, 24).
 * Answer: the bytes used. */
int64_t ua_value_read(uint32_t kind, const uint8_t *in, size_t in_len, uint32_t repeat);

/* Reads it once, and writes it. Answer: the length written. `out`: the spelling. */
int64_t ua_value_write(uint32_t kind, const uint8_t *in, size_t in_len, uint32_t repeat, uint8_t *out, size_t out_len);

/* Reads the body of a request (what 0) or of a response (1), and writes it. Answer: the length written.
 * `out`: the body. */
int64_t ua_body(uint32_t what, const uint8_t *in, size_t in_len, uint32_t repeat, uint8_t *out, size_t out_len);

/* `in` is MSG frames, which are put together by new assemblies with these limits. Answer: the sum of the messages'
 * lengths. `out`: the last message. */
int64_t ua_assemble(uint32_t max_message, uint32_t max_chunks, const uint8_t *in, size_t in_len, uint32_t repeat,
                    uint8_t *out, size_t out_len);

/* Cuts a body into MSG frames: channel 1, token 1, request id 2, numbers from 2. Answer: the bytes written.
 * `out`: the frames. */
int64_t ua_cut(uint32_t part_limit, const uint8_t *in, size_t in_len, uint32_t repeat, uint8_t *out, size_t out_len);

/* A client alone hears the first `opening` bytes of `down` (Acknowledge and open response), asks the request with
 * that body `asks` times, and hears the rest of `down`. Answer: answers << 32 | bytes it sent. `out`: these bytes. */
int64_t ua_client(uint32_t buffer, const uint8_t *body, size_t body_len, const uint8_t *down, size_t down_len,
                  size_t opening, uint32_t asks, uint32_t part_limit, size_t piece, uint32_t repeat,
                  uint8_t *out, size_t out_len);

/* A client and a server open a channel; then in each round the client renews where `renew` is 1, asks `asks` times,
 * and all that was said is delivered. Answer: answers << 32 | bytes delivered. `out`: these bytes, in order. */
int64_t ua_converse(uint32_t settings, uint32_t buffer, const uint8_t *body, size_t body_len, uint32_t rounds,
                    uint32_t asks, uint32_t renew, uint32_t part_limit, uint32_t repeat, uint8_t *out, size_t out_len);
#endif
