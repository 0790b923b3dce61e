/* A look at each pointer, before what is proved is called: there a pointer is never null. Where a length is 0 the pointer may
 * be null, and one to a byte of this file is passed in its place. */
#include "zq.h"

/* The exports of the crate zq_c, each as zq.h says it, but for null pointers. */
uint32_t zq_proved_open(const uint8_t *head, size_t head_len, zq_handle *handle, uint64_t *bad_line);
uint32_t zq_proved_open_bus(const uint8_t *head, size_t head_len, zq_handle *handle, uint64_t *bad_line);
uint32_t zq_proved_call(zq_handle *handle, const uint8_t *line, size_t line_len, uint8_t *out, size_t room, size_t *len);
uint32_t zq_proved_print(zq_handle *handle, uint8_t *out, size_t room, size_t *len);
void zq_proved_close(zq_handle *handle);
uint32_t zq_proved_next_deadline(zq_handle *handle, uint64_t *deadline);
uint32_t zq_proved_keys_meet(const uint8_t *a, size_t a_len, const uint8_t *b, size_t b_len, bool *meet);
uint32_t zq_proved_key_includes(const uint8_t *a, size_t a_len, const uint8_t *b, size_t b_len, bool *includes);

/* No byte of it is read or written, since the length is 0. */
static uint8_t nothing[1];

#define SOME(pointer, length) ((length) ? (pointer) : nothing)
#define LACKS(pointer, length) (!(pointer) && (length))

uint32_t zq_open(const uint8_t *head, size_t head_len, zq_handle *handle, uint64_t *bad_line) {
    if (!handle || !bad_line || LACKS(head, head_len)) return ZQ_NULL;
    return zq_proved_open(SOME(head, head_len), head_len, handle, bad_line);
}

uint32_t zq_open_bus(const uint8_t *head, size_t head_len, zq_handle *handle, uint64_t *bad_line) {
    if (!handle || !bad_line || LACKS(head, head_len)) return ZQ_NULL;
    return zq_proved_open_bus(SOME(head, head_len), head_len, handle, bad_line);
}

uint32_t zq_call(zq_handle *handle, const uint8_t *line, size_t line_len, uint8_t *out, size_t room, size_t *len) {
    if (!handle || !len || LACKS(line, line_len) || LACKS(out, room)) return ZQ_NULL;
    return zq_proved_call(handle, SOME(line, line_len), line_len, SOME(out, room), room, len);
}

uint32_t zq_print(zq_handle *handle, uint8_t *out, size_t room, size_t *len) {
    if (!handle || !len || LACKS(out, room)) return ZQ_NULL;
    return zq_proved_print(handle, SOME(out, room), room, len);
}

uint32_t zq_close(zq_handle *handle) {
    if (!handle) return ZQ_NULL;
    zq_proved_close(handle);
    return ZQ_OK;
}

uint32_t zq_next_deadline(zq_handle *handle, uint64_t *deadline) {
    if (!handle || !deadline) return ZQ_NULL;
    return zq_proved_next_deadline(handle, deadline);
}

uint32_t zq_keys_meet(const uint8_t *a, size_t a_len, const uint8_t *b, size_t b_len, bool *meet) {
    if (!meet || LACKS(a, a_len) || LACKS(b, b_len)) return ZQ_NULL;
    return zq_proved_keys_meet(SOME(a, a_len), a_len, SOME(b, b_len), b_len, meet);
}

uint32_t zq_key_includes(const uint8_t *a, size_t a_len, const uint8_t *b, size_t b_len, bool *includes) {
    if (!includes || LACKS(a, a_len) || LACKS(b, b_len)) return ZQ_NULL;
    return zq_proved_key_includes(SOME(a, a_len), a_len, SOME(b, b_len), b_len, includes);
}

const char *zq_name(uint32_t status) {
    static const char *const names[] = {
        "ZQ_OK", "ZQ_BAD_LINE", "ZQ_NO_MEMORY", "ZQ_UNPRINTED", "ZQ_SHORT", "ZQ_CLOSED", "ZQ_IN_USE",
        "ZQ_NOTHING", "ZQ_BAD_KEY", "ZQ_SPENT", "ZQ_NO_LOCAL", "ZQ_NO_FREE_ID", "ZQ_NULL",
    };
    return status < sizeof names / sizeof *names ? names[status] : "unknown";
}
