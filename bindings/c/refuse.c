/* Says the lines of a script, with each allocation refused in turn, and wants the same print: refuse [-s] SCRIPT. It is linked
 * with -Wl,--wrap=malloc,--wrap=realloc. A line that finds no memory is said again, and one whose print finds none is asked
 * for it. A bus that is spent ends its run: what was printed before is compared, and that its puts go on. */
#include <stdio.h>
#include <stdlib.h>
#include <string.h>
#include "zq.h"

static unsigned long made, refused_at;
static bool counting;

void *__real_malloc(size_t n);
void *__real_realloc(void *p, size_t n);
void *__wrap_malloc(size_t n) { return counting && ++made == refused_at ? NULL : __real_malloc(n); }
void *__wrap_realloc(void *p, size_t n) { return counting && ++made == refused_at ? NULL : __real_realloc(p, n); }

static uint8_t text[1 << 20], whole[1 << 22], part[1 << 22];
static uint8_t out[1 << 20];
static unsigned long again, asked, spent;
static bool storages;

/* Opens what the script's first lines say, and tells where the other lines begin. */
static const uint8_t *open_all(zq_handle *handle, size_t size) {
    static const char load[] = "config 1 10000 north:client local\n";
    const uint8_t *begin = storages ? (const uint8_t *)load : text, *end = begin + (storages ? sizeof load - 1 : 0);
    uint64_t bad = 0;
    uint32_t status;
    for (int n = 0; !storages && n < 3; n++) {
        const uint8_t *stop = memchr(text + (end - begin), '\n', size - (size_t)(end - begin));
        if (!stop || (n && memcmp(end, "start ", 6) && memcmp(end, "best ", 5))) break;
        end = stop + 1;
    }
    while ((status = (storages ? zq_open_bus : zq_open)(begin, (size_t)(end - begin), handle, &bad)) == ZQ_NO_MEMORY) again += 1;
    if (status) {
        printf("%s\n", zq_name(status));
        exit(1);
    }
    return storages ? text : end;
}

/* The print of the script; how long it is. */
static size_t run(size_t size, uint8_t *print) {
    zq_handle handle = ZQ_EMPTY;
    size_t len = 0, total = 0;
    counting = true;
    const uint8_t *line = open_all(&handle, size), *end = text + size;
    while (line < end) {
        const uint8_t *stop = memchr(line, '\n', (size_t)(end - line));
        if (!stop) stop = end;
        uint32_t status = zq_call(&handle, line, (size_t)(stop - line), out, sizeof out, &len);
        while (status == ZQ_NO_MEMORY) {
            again += 1;
            status = zq_call(&handle, line, (size_t)(stop - line), out, sizeof out, &len);
        }
        while (status == ZQ_UNPRINTED || status == ZQ_NO_MEMORY) {
            asked += 1;
            status = zq_print(&handle, out, sizeof out, &len);
        }
        if (status == ZQ_SPENT) {
            spent += 1;
            status = zq_call(&handle, (const uint8_t *)"get ** all", 10, out, sizeof out, &len);
            if (status || len != 14 || memcmp(out, "refused Spent\n", 14)) exit(1);
            break;
        }
        if (status) {
            counting = false;
            printf("%s\n", zq_name(status));
            exit(1);
        }
        memcpy(print + total, out, len);
        total += len;
        line = stop + 1;
    }
    zq_close(&handle);
    counting = false;
    return total;
}

int main(int argc, char **argv) {
    storages = argc > 2;
    FILE *file = fopen(argv[argc - 1], "rb");
    size_t size = file ? fread(text, 1, sizeof text, file) : 0;
    if (!size) return 3;
    size_t wanted = run(size, whole);
    unsigned long all = made, wrong = 0;
    for (refused_at = 1; refused_at <= all; refused_at++) {
        unsigned long before = spent;
        made = 0;
        size_t got = run(size, part);
        if ((got != wanted && spent == before) || got > wanted || memcmp(part, whole, got)) wrong += 1;
    }
    printf("%s: %lu allocations refused in turn: %lu lines said again, %lu prints asked for again, %lu buses spent, %lu wrong\n", argv[argc - 1], all, again, asked, spent, wrong);
    return wrong != 0;
}
