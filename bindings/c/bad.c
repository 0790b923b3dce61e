/* Gives each function what it should not be given, and wants the status that zq.h names for it. */
#include <stdio.h>
#include <string.h>
#include "zq.h"

static int wrong;

static void want(const char *what, uint32_t got, uint32_t wanted) {
    if (got == wanted) return;
    printf("%s: %s, not %s\n", what, zq_name(got), zq_name(wanted));
    wrong += 1;
}

#define TEXT(text) (const uint8_t *)(text), sizeof(text) - 1

static const char head[] = "config 1 10000 north:client local\n";

/* Null pointers. */
static void nulls(zq_handle *handle) {
    uint8_t out[64];
    size_t len = 0;
    uint64_t bad = 0;
    bool yes = false;
    want("open without a head", zq_open(NULL, 3, handle, &bad), ZQ_NULL);
    want("open without a handle", zq_open(TEXT(head), NULL, &bad), ZQ_NULL);
    want("open without a place for the bad line", zq_open(TEXT(head), handle, NULL), ZQ_NULL);
    want("open_bus without a head", zq_open_bus(NULL, 3, handle, &bad), ZQ_NULL);
    want("open of nothing", zq_open(NULL, 0, handle, &bad), ZQ_BAD_LINE);
    want("call without a handle", zq_call(NULL, TEXT("poll 0"), out, sizeof out, &len), ZQ_NULL);
    want("call without a line", zq_call(handle, NULL, 3, out, sizeof out, &len), ZQ_NULL);
    want("call without room", zq_call(handle, TEXT("poll 0"), NULL, 3, &len), ZQ_NULL);
    want("call without a length", zq_call(handle, TEXT("poll 0"), out, sizeof out, NULL), ZQ_NULL);
    want("print without a handle", zq_print(NULL, out, sizeof out, &len), ZQ_NULL);
    want("close without a handle", zq_close(NULL), ZQ_NULL);
    want("next_deadline without a place", zq_next_deadline(handle, NULL), ZQ_NULL);
    want("keys_meet without a key", zq_keys_meet(NULL, 1, TEXT("a"), &yes), ZQ_NULL);
    want("key_includes without a place", zq_key_includes(TEXT("a"), TEXT("a"), NULL), ZQ_NULL);
}

/* A handle that has nothing. */
static void closed(zq_handle *handle) {
    uint8_t out[64];
    size_t len = 0;
    uint64_t deadline = 0;
    want("call of nothing", zq_call(handle, TEXT("poll 0"), out, sizeof out, &len), ZQ_CLOSED);
    want("print of nothing", zq_print(handle, out, sizeof out, &len), ZQ_CLOSED);
    want("next_deadline of nothing", zq_next_deadline(handle, &deadline), ZQ_CLOSED);
    want("close of nothing", zq_close(handle), ZQ_OK);
}

/* Heads and lines that are bad, and a short buffer. */
static void bad_lines(zq_handle *handle) {
    static const char opened[] = "= opened 0\n";
    uint8_t out[64];
    size_t len = 0;
    uint64_t bad = 0, deadline = 0;
    want("a head without regions", zq_open(TEXT("config 1 10000\n"), handle, &bad), ZQ_BAD_LINE);
    want("its line", (uint32_t)bad, 1);
    want("a head with a call", zq_open(TEXT("config 1 10000 north:client local\npoll 0\n"), handle, &bad), ZQ_BAD_LINE);
    want("its line", (uint32_t)bad, 2);
    want("a bus without local", zq_open_bus(TEXT("config 1 10000 north:client\n"), handle, &bad), ZQ_NO_LOCAL);
    closed(handle);
    want("open", zq_open(TEXT(head), handle, &bad), ZQ_OK);
    want("open again", zq_open(TEXT(head), handle, &bad), ZQ_IN_USE);
    want("open_bus again", zq_open_bus(TEXT(head), handle, &bad), ZQ_IN_USE);
    want("no word", zq_call(handle, NULL, 0, out, sizeof out, &len), ZQ_BAD_LINE);
    want("no call", zq_call(handle, TEXT("opn local 10 client north -"), out, sizeof out, &len), ZQ_BAD_LINE);
    want("a newline", zq_call(handle, TEXT("poll 0\n"), out, sizeof out, &len), ZQ_BAD_LINE);
    want("two lines", zq_call(handle, TEXT("poll 0\npoll 1"), out, sizeof out, &len), ZQ_BAD_LINE);
    want("a newline in a payload", zq_call(handle, TEXT("ask 0 1 0:s:k all - 0 0 a\nb 0"), out, sizeof out, &len), ZQ_BAD_LINE);
    want("a zero byte", zq_call(handle, TEXT("poll\0 0"), out, sizeof out, &len), ZQ_BAD_LINE);
    want("no UTF-8", zq_call(handle, TEXT("open local 10 client north \xff"), out, sizeof out, &len), ZQ_BAD_LINE);
    want("a short buffer", zq_call(handle, TEXT("open local 10 client north -"), out, 5, &len), ZQ_SHORT);
    want("its length", (uint32_t)len, sizeof opened - 1);
    want("no buffer", zq_print(handle, NULL, 0, &len), ZQ_SHORT);
    want("a print, once more", zq_print(handle, out, len, &len), ZQ_OK);
    want("what it is", (uint32_t)(len != sizeof opened - 1 || memcmp(out, opened, len)), 0);
    want("no deadline", zq_next_deadline(handle, &deadline), ZQ_NOTHING);
    want("close", zq_close(handle), ZQ_OK);
    closed(handle);
}

/* Texts that are no keys. */
static void keys(void) {
    bool yes = false;
    want("two keys", zq_keys_meet(TEXT("a/**"), TEXT("a/b"), &yes), ZQ_OK);
    want("which meet", yes, true);
    want("two keys", zq_key_includes(TEXT("a/b"), TEXT("a/**"), &yes), ZQ_OK);
    want("of which the first does not include the second", yes, false);
    want("no key", zq_keys_meet(TEXT("a//b"), TEXT("a"), &yes), ZQ_BAD_KEY);
    want("an empty key", zq_key_includes(TEXT("a"), NULL, 0, &yes), ZQ_BAD_KEY);
    want("a key that is no UTF-8", zq_keys_meet(TEXT("**"), TEXT("a\xff"), &yes), ZQ_BAD_KEY);
}

int main(void) {
    zq_handle handle = ZQ_EMPTY;
    nulls(&handle);
    closed(&handle);
    bad_lines(&handle);
    keys();
    return wrong != 0;
}
