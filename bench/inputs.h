/* Bytes that workloads are made of. */
#ifndef INPUTS_H
#define INPUTS_H
#include <stddef.h>
#include <stdint.h>

typedef struct {
    uint8_t *at;
    size_t len, room;
} bytes;

enum service { FIND, ENDPOINTS };

void put(bytes *b, const void *from, size_t n);
void put_u32(bytes *b, uint32_t n);

/* Frames, appended. */
void put_hello(bytes *b, uint32_t buffer);
void put_open(bytes *b);
void put_request(bytes *b, enum service s, uint32_t number);
void put_requests(bytes *b, enum service s, uint32_t count); /* numbers and request ids from 2 */
void put_close(bytes *b);
void put_parts(bytes *b, const bytes *body, size_t part);

/* Bodies. */
bytes body_of(enum service s);
bytes other_body(size_t n); /* a request of another service, of n bytes in all */

/* Variants and arrays of n elements, each behind its first byte, where it has one. */
bytes int32s(int variant, uint32_t n);
bytes strings(int variant, uint32_t n); /* of 16 bytes */
bytes byte_string(uint32_t n);
bytes data_values(uint32_t n);
bytes node_ids(uint32_t n);
bytes deep_values(uint32_t levels); /* a DataValue in a list in a DataValue, and so on */
#endif
