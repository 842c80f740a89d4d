#include "inputs.h"
#include <stdio.h>
#include <stdlib.h>
#include <string.h>

void put(bytes *b, const void *from, size_t n) {
    if (b->room - b->len < n) {
        b->room = (b->len + n) * 2;
        b->at = realloc(b->at, b->room);
        if (!b->at) {
            fputs("bench: no memory\n", stderr);
            exit(2);
        }
    }
    memcpy(b->at + b->len, from, n);
    b->len += n;
}

void put_u32(bytes *b, uint32_t n) {
    uint8_t le[4] = {(uint8_t)n, (uint8_t)(n >> 8), (uint8_t)(n >> 16), (uint8_t)(n >> 24)};
    put(b, le, 4);
}

static void put_byte(bytes *b, uint8_t n) { put(b, &n, 1); }

static void put_hex(bytes *b, const char *digits) {
    unsigned n;
    for (; *digits; digits += 2) {
        sscanf(digits, "%2x", &n);
        put_byte(b, (uint8_t)n);
    }
}

static void put_text(bytes *b, const char *text) {
    put_u32(b, (uint32_t)strlen(text));
    put(b, text, strlen(text));
}

/* --- frames (OPC 10000-6, 6.7.2 and 7.1.2) --- */

static const char URL[] = "opc.tcp://localhost:4840";
static const char NO_SECURITY[] = "http://opcfoundation.org/UA/SecurityPolicy#None";

/* Type, flag, and room for the size, which the end fills in. */
static size_t begin(bytes *b, const char *name) {
    size_t start = b->len;
    put(b, name, 4);
    put_u32(b, 0);
    return start;
}

static void end(bytes *b, size_t start) {
    size_t n = b->len - start;
    for (int i = 0; i < 4; i++) b->at[start + 4 + i] = (uint8_t)(n >> 8 * i);
}

/* Channel 1, token 1, the number, the request id. */
static size_t begin_chunk(bytes *b, const char *name, uint32_t number, uint32_t id) {
    size_t start = begin(b, name);
    put_u32(b, 1);
    put_u32(b, 1);
    put_u32(b, number);
    put_u32(b, id);
    return start;
}

void put_hello(bytes *b, uint32_t buffer) {
    size_t start = begin(b, "HELF");
    put_u32(b, 0);
    put_u32(b, buffer);
    put_u32(b, buffer);
    put_u32(b, 0);
    put_u32(b, 0);
    put_text(b, URL);
    end(b, start);
}

/* An encoding id, and a request header that has a handle and nothing else. */
static void put_head(bytes *b, uint16_t id, uint32_t handle) {
    uint8_t node[4] = {1, 0, (uint8_t)id, (uint8_t)(id >> 8)};
    put(b, node, 4);
    put_hex(b, "00000000000000000000");
    put_u32(b, handle);
    put_hex(b, "00000000FFFFFFFF00000000000000");
}

void put_open(bytes *b) {
    size_t start = begin(b, "OPNF");
    put_u32(b, 0);
    put_text(b, NO_SECURITY);
    put_hex(b, "FFFFFFFFFFFFFFFF");
    put_u32(b, 1);
    put_u32(b, 1);
    put_head(b, 446, 1);
    put_hex(b, "000000000000000001000000FFFFFFFF00000000");
    end(b, start);
}

bytes body_of(enum service s) {
    bytes b = {0};
    put_head(&b, s == FIND ? 422 : 428, 2);
    put_text(&b, URL);
    put_hex(&b, "FFFFFFFFFFFFFFFF");
    return b;
}

void put_request(bytes *b, enum service s, uint32_t number) {
    bytes body = body_of(s);
    size_t start = begin_chunk(b, "MSGF", number, number);
    put(b, body.at, body.len);
    end(b, start);
    free(body.at);
}

void put_requests(bytes *b, enum service s, uint32_t count) {
    for (uint32_t i = 0; i < count; i++) put_request(b, s, i + 2);
}

void put_close(bytes *b) {
    size_t start = begin_chunk(b, "CLOF", 3, 3);
    put_head(b, 452, 3);
    end(b, start);
}

bytes other_body(size_t n) {
    bytes b = {0};
    put_head(&b, 461, 2);
    for (size_t i = b.len; i < n; i++) put_byte(&b, (uint8_t)(i * 31 >> 3));
    return b;
}

void put_parts(bytes *b, const bytes *body, size_t part) {
    uint32_t number = 2;
    for (size_t from = 0; from < body->len; from += part) {
        size_t n = body->len - from < part ? body->len - from : part;
        size_t start = begin_chunk(b, from + n < body->len ? "MSGC" : "MSGF", number++, 2);
        put(b, body->at + from, n);
        end(b, start);
    }
}

/* --- values (OPC 10000-6, 5.2.2) --- */

/* A Variant's first byte says which type its list holds. */
static bytes list_of(int variant, uint8_t type, uint32_t n) {
    bytes b = {0};
    if (variant) put_byte(&b, 0x80 | type);
    put_u32(&b, n);
    return b;
}

bytes int32s(int variant, uint32_t n) {
    bytes b = list_of(variant, 6, n);
    for (uint32_t i = 0; i < n; i++) put_u32(&b, i * 2654435761u);
    return b;
}

bytes strings(int variant, uint32_t n) {
    bytes b = list_of(variant, 12, n);
    char text[32];
    for (uint32_t i = 0; i < n; i++) {
        snprintf(text, sizeof text, "text %011u", i);
        put_text(&b, text);
    }
    return b;
}

bytes byte_string(uint32_t n) {
    bytes b = list_of(0, 0, n), body = other_body(n);
    put(&b, body.at, body.len);
    free(body.at);
    return b;
}

bytes data_values(uint32_t n) {
    bytes b = list_of(1, 23, n);
    for (uint32_t i = 0; i < n; i++) {
        put_hex(&b, "3F06");
        put_u32(&b, i);
        put_hex(&b, "0000000000112233445566770F2700112233445566770100");
    }
    return b;
}

bytes node_ids(uint32_t n) {
    bytes b = list_of(1, 17, n);
    char text[16];
    for (uint32_t i = 0; i < n; i++) {
        switch (i % 4) {
        case 0:
            put_byte(&b, 0);
            put_byte(&b, (uint8_t)i);
            break;
        case 1:
            put_hex(&b, "0105");
            put_byte(&b, (uint8_t)i);
            put_byte(&b, (uint8_t)(i >> 8));
            break;
        case 2:
            put_hex(&b, "020001");
            put_u32(&b, i);
            break;
        default:
            put_hex(&b, "030100");
            snprintf(text, sizeof text, "n%07u", i);
            put_text(&b, text);
        }
    }
    return b;
}

bytes deep_values(uint32_t levels) {
    bytes b = {0};
    for (uint32_t i = 0; i + 2 < levels; i += 2) put_hex(&b, "019701000000");
    put_hex(&b, "010601000000");
    return b;
}
