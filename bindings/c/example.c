/* Says the lines of a script to a gateway, or of a script for storages to a bus, and prints what they are answered:
 *
 *     example [-s] [-t] [SCRIPT]
 *
 * Without SCRIPT the lines are those of the first query of README.md. -s: they are of storages. -t: prints calls a second
 * in place of what they are answered. Where a line is bad it prints `bad line N` in place of all else, and ends with status 2, as
 * `zq replay` does. */
#include <stdio.h>
#include <stdlib.h>
#include <string.h>
#include <time.h>
#include "zq.h"

static const char first_query[] =
    "config 1 10000 north:client local\n"
    "open local 10 client north -\nopen local 11 client north -\nqueryable 0 1 0:s:k c 0 0\n"
    "ask 1 7 0:s:k all - 0 0 hi 0\nreply 0 1 0:s:k ok yo\nfinal 0 1\nsent 0\n";

/* The lines of a script, one after another. */
typedef struct {
    const char *at, *end;
    unsigned long number;
} lines;

typedef struct {
    const char *at;
    size_t len;
} line;

static bool next_line(lines *from, line *to) {
    if (from->at == from->end) return false;
    const char *stop = memchr(from->at, '\n', (size_t)(from->end - from->at));
    to->at = from->at;
    to->len = (size_t)((stop ? stop : from->end) - from->at);
    from->at = stop ? stop + 1 : from->end;
    from->number += 1;
    return true;
}

static char *read_all(const char *name, size_t *len) {
    FILE *file = fopen(name, "rb");
    char *text = NULL;
    if (!file || fseek(file, 0, SEEK_END)) {
        perror(name);
        exit(3);
    }
    *len = (size_t)ftell(file);
    rewind(file);
    text = malloc(*len + 1);
    if (!text || fread(text, 1, *len, file) != *len) exit(3);
    fclose(file);
    return text;
}

/* All prints so far, in room that grows. */
static struct {
    uint8_t *at;
    size_t room, len;
} prints;

/* Says a line; what it is answered comes behind the prints so far. */
static uint32_t say(zq_handle *handle, line said) {
    size_t len = 0;
    uint32_t status = zq_call(handle, (const uint8_t *)said.at, said.len, prints.at + prints.len, prints.room - prints.len, &len);
    while (status == ZQ_SHORT || status == ZQ_UNPRINTED) {
        prints.room = 2 * (prints.len + len) + 4096;
        prints.at = realloc(prints.at, prints.room);
        if (!prints.at) exit(5);
        status = zq_print(handle, prints.at + prints.len, prints.room - prints.len, &len);
    }
    if (!status) prints.len += len;
    return status;
}

/* Opens a gateway by the lines before the calls: those that begin with `config`, `start` and `best`. */
static uint32_t open_gateway(lines *from, zq_handle *handle, uint64_t *bad) {
    const char *begin = from->at;
    lines ahead = *from;
    line it;
    while (next_line(&ahead, &it)) {
        bool heads = ahead.number == 1 || (ahead.number <= 3 && ((it.len > 6 && !memcmp(it.at, "start ", 6)) || (it.len > 5 && !memcmp(it.at, "best ", 5))));
        if (!heads) break;
        *from = ahead;
    }
    return zq_open((const uint8_t *)begin, (size_t)(from->at - begin), handle, bad);
}

int main(int argc, char **argv) {
    static const char load[] = "config 1 10000 north:client local\n";
    bool storages = false, timed = false;
    size_t size = sizeof first_query - 1;
    char *text = (char *)first_query;
    for (int i = 1; i < argc; i++) {
        if (!strcmp(argv[i], "-s")) storages = true;
        else if (!strcmp(argv[i], "-t")) timed = true;
        else text = read_all(argv[i], &size);
    }
    lines script = {text, text + size, 0};
    zq_handle handle = ZQ_EMPTY;
    uint64_t bad = 0, calls = 0;
    uint32_t status = storages ? zq_open_bus((const uint8_t *)load, sizeof load - 1, &handle, &bad) : open_gateway(&script, &handle, &bad);
    if (status == ZQ_BAD_LINE) {
        printf("bad line %lu\n", (unsigned long)bad);
        return 2;
    }
    if (status) {
        fprintf(stderr, "%s\n", zq_name(status));
        return 5;
    }
    struct timespec begun, ended;
    clock_gettime(CLOCK_MONOTONIC, &begun);
    for (line it; next_line(&script, &it); calls++) {
        status = say(&handle, it);
        if (status) break;
    }
    clock_gettime(CLOCK_MONOTONIC, &ended);
    if (timed) {
        double s = (double)(ended.tv_sec - begun.tv_sec) + 1e-9 * (double)(ended.tv_nsec - begun.tv_nsec);
        printf("C: %lu calls, %lu bytes, %.3f s, %.0f calls a second\n", (unsigned long)calls, (unsigned long)prints.len, s, (double)calls / s);
    }
    zq_close(&handle);
    if (status == ZQ_BAD_LINE) printf("bad line %lu\n", script.number);
    else if (status) fprintf(stderr, "%s\n", zq_name(status));
    else if (!timed) fwrite(prints.at, 1, prints.len, stdout);
    free(prints.at);
    if (text != first_query) free(text);
    return status == ZQ_BAD_LINE ? 2 : status ? 5 : 0;
}
