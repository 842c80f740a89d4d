#include "loads.h"
#include "ua_bench.h"
#include <dlfcn.h>
#include <stdio.h>
#include <stdlib.h>
#include <string.h>

const calls product = {"product",   ua_nothing,  ua_answer, ua_value_read, ua_value_write,
                       ua_body, ua_assemble, ua_cut,    ua_client,     ua_converse};

static void *found(void *library, const char *name) {
    void *call = dlsym(library, name);
    if (!call) {
        fprintf(stderr, "bench: no %s\n", name);
        exit(2);
    }
    return call;
}

calls calls_of(const char *path) {
    calls c = {.name = "other"};
    void *library = dlopen(path, RTLD_NOW | RTLD_LOCAL);
    if (!library) {
        fprintf(stderr, "bench: %s\n", dlerror());
        exit(2);
    }
    *(void **)&c.nothing = found(library, "ua_nothing");
    *(void **)&c.answer = found(library, "ua_answer");
    *(void **)&c.value_read = found(library, "ua_value_read");
    *(void **)&c.value_write = found(library, "ua_value_write");
    *(void **)&c.body = found(library, "ua_body");
    *(void **)&c.assemble = found(library, "ua_assemble");
    *(void **)&c.cut = found(library, "ua_cut");
    *(void **)&c.client = found(library, "ua_client");
    *(void **)&c.converse = found(library, "ua_converse");
    return c;
}

/* --- inputs --- */

/* Hello, open request, requests; a buffer of 8192 cuts long answers. */
static bytes connection(uint32_t buffer, enum service s, uint32_t requests) {
    bytes b = {0};
    put_hello(&b, buffer);
    put_open(&b);
    put_requests(&b, s, requests);
    return b;
}

static bytes hello(void) {
    bytes b = {0};
    put_hello(&b, 65535);
    return b;
}

static bytes no_bytes(void) { return (bytes){0}; }

static bytes one_find(void) {
    bytes b = connection(65535, FIND, 1);
    put_close(&b);
    return b;
}

static bytes many_finds(void) { return connection(65535, FIND, 2000); }
static bytes many_endpoints(void) { return connection(8192, ENDPOINTS, 100); }

static bytes parts_of(size_t len, size_t part) {
    bytes b = {0}, body = other_body(len);
    put_parts(&b, &body, part);
    free(body.at);
    return b;
}

static bytes sent_parts(size_t len, size_t part) {
    bytes b = connection(65535, FIND, 0), parts = parts_of(len, part);
    put(&b, parts.at, parts.len);
    free(parts.at);
    return b;
}

enum { MIB = 1048576, MOST_PARTS = 65535 };

static bytes parts_of_65511(void) { return parts_of(MIB, 65511); }
static bytes parts_of_17(void) { return parts_of(MIB, 17); }
static bytes parts_of_1(void) { return parts_of(MOST_PARTS, 1); }
static bytes sent_65511(void) { return sent_parts(MIB, 65511); }
static bytes sent_17(void) { return sent_parts(MIB, 17); }
static bytes sent_1(void) { return sent_parts(MOST_PARTS, 1); }
static bytes body_of_a_mib(void) { return other_body(MIB); }
static bytes body_of_65535(void) { return other_body(MOST_PARTS); }
static bytes int32_variant(void) { return int32s(1, 100000); }
static bytes int32_array(void) { return int32s(0, 100000); }
static bytes string_variant(void) { return strings(1, 100000); }
static bytes string_array(void) { return strings(0, 100000); }
static bytes bytes_of_a_mib(void) { return byte_string(MIB); }
static bytes data_value_variant(void) { return data_values(10000); }
static bytes node_id_variant(void) { return node_ids(10000); }
static bytes deep(void) { return deep_values(100); }
static bytes find_body(void) { return body_of(FIND); }
static bytes endpoints_body(void) { return body_of(ENDPOINTS); }

/* What the server says to the input. */
static bytes reply_to(uint32_t settings, bytes in) {
    bytes b = {0};
    int64_t n = product.answer(settings, in.at, in.len, 0, 0, 1, NULL, 0);
    b.room = b.len = (size_t)(n & 0xFFFFFFFF);
    b.at = malloc(b.room + 1);
    if (n < 0 || !b.at || product.answer(settings, in.at, in.len, 0, 0, 1, b.at, b.len) != n) exit(2);
    free(in.at);
    return b;
}

static bytes find_answers(void) { return reply_to(0, connection(65535, FIND, 64)); }
static bytes endpoints_answers(void) { return reply_to(1, connection(8192, ENDPOINTS, 64)); }

/* Acknowledge and open response. */
enum { OPENED = 28 + 135 };

/* The body of one answer in one frame. */
static bytes response(uint32_t settings, enum service s, uint32_t buffer) {
    bytes b = reply_to(settings, connection(buffer, s, 1));
    b.len -= OPENED + 24;
    memmove(b.at, b.at + OPENED + 24, b.len);
    return b;
}

static bytes find_response(void) { return response(0, FIND, 65535); }
static bytes endpoints_response(void) { return response(1, ENDPOINTS, 65535); }

/* --- the table --- */

#define PAIR(high, low) ((int64_t)(high) << 32 | (low))

const load loads[] = {
    {"nothing", "call", 1, NOTHING, 0, 0, 0, hello, 56},
    {"new-server", "server", 1, ANSWER, 0, 0, 0, no_bytes, 0},
    {"connection", "connection", 1, ANSWER, 0, 0, 0, one_find, PAIR(1, OPENED + 134)},
    {"connection-bytewise", "connection", 1, ANSWER, 0, 1, 0, one_find, PAIR(1, OPENED + 134)},
    {"find-2000", "request", 2000, ANSWER, 0, 0, 0, many_finds, PAIR(2000, OPENED + 2000 * 134)},
    {"find-2000-by-4096", "request", 2000, ANSWER, 0, 4096, 0, many_finds, PAIR(2000, OPENED + 2000 * 134)},
    {"find-2000-bytewise", "request", 2000, ANSWER, 0, 1, 0, many_finds, PAIR(2000, OPENED + 2000 * 134)},
    {"endpoints-100", "request", 100, ANSWER, 1, 0, 0, many_endpoints, PAIR(100, OPENED + 100 * (26032 + 4 * 24))},
    {"int32-read", "element", 100000, READ, 24, 0, 0, int32_variant, -1},
    {"int32-write", "element", 100000, WRITE, 24, 0, 0, int32_variant, -1},
    {"string-read", "element", 100000, READ, 24, 0, 0, string_variant, -1},
    {"string-write", "element", 100000, WRITE, 24, 0, 0, string_variant, -1},
    {"data-value-read", "element", 10000, READ, 24, 0, 0, data_value_variant, -1},
    {"data-value-write", "element", 10000, WRITE, 24, 0, 0, data_value_variant, -1},
    {"node-id-read", "element", 10000, READ, 24, 0, 0, node_id_variant, -1},
    {"node-id-write", "element", 10000, WRITE, 24, 0, 0, node_id_variant, -1},
    {"depth-100-read", "level", 100, READ, 23, 0, 0, deep, -1},
    {"depth-100-write", "level", 100, WRITE, 23, 0, 0, deep, -1},
    {"int32-array-read", "element", 100000, READ, 106, 0, 0, int32_array, -1},
    {"int32-array-write", "element", 100000, WRITE, 106, 0, 0, int32_array, -1},
    {"string-array-read", "element", 100000, READ, 112, 0, 0, string_array, -1},
    {"bytes-of-1-MiB-read", "KiB", 1024, READ, 15, 0, 0, bytes_of_a_mib, -1},
    {"bytes-of-1-MiB-write", "KiB", 1024, WRITE, 15, 0, 0, bytes_of_a_mib, -1},
    {"assemble-65511", "KiB", 1024, ASSEMBLE, 64, 0, 0, parts_of_65511, MIB},
    {"assemble-17", "part", 61681, ASSEMBLE, MOST_PARTS, 0, 0, parts_of_17, MIB},
    {"assemble-1", "part", MOST_PARTS, ASSEMBLE, MOST_PARTS, 0, 0, parts_of_1, MOST_PARTS},
    {"server-parts-65511", "KiB", 1024, ANSWER, 0, 0, 0, sent_65511, PAIR(1, OPENED + 52)},
    {"server-parts-65511-by-4096", "KiB", 1024, ANSWER, 0, 4096, 0, sent_65511, PAIR(1, OPENED + 52)},
    {"server-parts-17", "part", 61681, ANSWER, 2, 0, 0, sent_17, PAIR(1, OPENED + 52)},
    {"server-parts-1", "part", MOST_PARTS, ANSWER, 2, 0, 0, sent_1, PAIR(1, OPENED + 52)},
    {"cut-65511", "KiB", 1024, CUT, 65511, 0, 0, body_of_a_mib, MIB + 17 * 24},
    {"cut-1", "part", MOST_PARTS, CUT, 1, 0, 0, body_of_65535, MOST_PARTS * 25},
    {"client-64", "answer", 64, CLIENT, 65535, FIND, 0, find_answers, PAIR(64, 56 + 132 + 64 * 93)},
    {"client-64-bytewise", "answer", 64, CLIENT, 65535, FIND, 1, find_answers, PAIR(64, 56 + 132 + 64 * 93)},
    {"client-64-endpoints", "answer", 64, CLIENT, 8192, ENDPOINTS, 0, endpoints_answers, PAIR(64, 56 + 132 + 64 * 93)},
    {"both-ends-640", "request", 640, CONVERSE, 0, 64, 0, find_body, PAIR(640, 56 + 132 + OPENED + 640 * (93 + 134))},
    {"both-ends-640-endpoints", "request", 640, CONVERSE, 1, 64, 0, endpoints_body,
     PAIR(640, 56 + 132 + OPENED + 640 * (93 + 26032 + 4 * 24))},
    {"both-ends-10-renewals", "round", 10, CONVERSE, 0, 1, 1, find_body,
     PAIR(10, 56 + 132 + OPENED + 10 * (132 + 135 + 93 + 134))},
    {"request-body", "message", 1, BODY, 0, 0, 0, find_body, -1},
    {"response-body", "message", 1, BODY, 1, 0, 0, find_response, -1},
    {"response-body-100-endpoints", "message", 1, BODY, 1, 0, 0, endpoints_response, -1},
};

const size_t load_count = sizeof loads / sizeof *loads;

int64_t run(const load *l, const calls *c, const bytes *in, uint32_t repeat, uint8_t *out, size_t out_len) {
    const uint8_t *at = in->at;
    size_t n = in->len;
    int64_t answer = 0;
    bytes body = {0};
    switch (l->work) {
    case NOTHING:
        for (uint32_t i = 0; i < repeat; i++) answer = c->nothing(at, n);
        return answer;
    case ANSWER: return c->answer(l->a, at, n, l->b, 0, repeat, out, out_len);
    case READ: return c->value_read(l->a, at, n, repeat);
    case WRITE: return c->value_write(l->a, at, n, repeat, out, out_len);
    case BODY: return c->body(l->a, at, n, repeat, out, out_len);
    case ASSEMBLE: return c->assemble(MIB, l->a, at, n, repeat, out, out_len);
    case CUT: return c->cut(l->a, at, n, repeat, out, out_len);
    case CLIENT: break;
    case CONVERSE: /* 8192 bytes to a frame where answers are long */
        return c->converse(l->a, l->a ? 8192 : 65535, at, n, 10, l->b, l->c, 8168, repeat, out, out_len);
    }
    body = body_of(l->b);
    answer = c->client(l->a, body.at, body.len, at, n, OPENED, 64, 8168, l->c, repeat, out, out_len);
    free(body.at);
    return answer;
}

int64_t wanted(const load *l, const bytes *in) { return l->wanted < 0 ? (int64_t)in->len : l->wanted; }

size_t least_bytes(const load *l, const bytes *in, int64_t answer) {
    size_t n = (size_t)(answer & 0xFFFFFFFF);
    switch (l->work) {
    case NOTHING:
    case READ:
    case ASSEMBLE: return in->len;
    case CONVERSE:
    case WRITE:
    case CUT: return n;
    default: return in->len + n;
    }
}
