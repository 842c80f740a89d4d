/* Workloads, and the libraries that they run on. */
#ifndef LOADS_H
#define LOADS_H
#include "inputs.h"

/* The calls of ua_bench.h. */
typedef struct {
    const char *name;
    int64_t (*nothing)(const uint8_t *, size_t);
    int64_t (*answer)(uint32_t, const uint8_t *, size_t, size_t, int64_t, uint32_t, uint8_t *, size_t);
    int64_t (*value_read)(uint32_t, const uint8_t *, size_t, uint32_t);
    int64_t (*value_write)(uint32_t, const uint8_t *, size_t, uint32_t, uint8_t *, size_t);
    int64_t (*body)(uint32_t, const uint8_t *, size_t, uint32_t, uint8_t *, size_t);
    int64_t (*assemble)(uint32_t, uint32_t, const uint8_t *, size_t, uint32_t, uint8_t *, size_t);
    int64_t (*cut)(uint32_t, const uint8_t *, size_t, uint32_t, uint8_t *, size_t);
    int64_t (*client)(uint32_t, const uint8_t *, size_t, const uint8_t *, size_t, size_t, uint32_t, uint32_t, size_t,
                      uint32_t, uint8_t *, size_t);
    int64_t (*converse)(uint32_t, uint32_t, const uint8_t *, size_t, uint32_t, uint32_t, uint32_t, uint32_t, uint32_t,
                        uint8_t *, size_t);
} calls;

extern const calls product;
/* The calls of a shared library; the driver ends where it does not offer them. */
calls calls_of(const char *path);

enum work { NOTHING, ANSWER, READ, WRITE, BODY, ASSEMBLE, CUT, CLIENT, CONVERSE };

typedef struct {
    const char *name, *unit;
    uint32_t units; /* of a repetition */
    enum work work;
    uint32_t a, b, c; /* settings and piece; type; what; chunks; part; see run */
    bytes (*input)(void);
    int64_t wanted; /* the answer, by the sizes of the frames; -1: the length of the input */
} load;

extern const load loads[];
extern const size_t load_count;

int64_t run(const load *l, const calls *c, const bytes *in, uint32_t repeat, uint8_t *out, size_t out_len);
/* The answer that is wanted. */
int64_t wanted(const load *l, const bytes *in);
/* Bytes that a repetition has to copy at the least: what is kept, and what is written. */
size_t least_bytes(const load *l, const bytes *in, int64_t answer);
#endif
