/* Reads a matrix in a text from standard input, modulo 42013, in one of two ways that a program in C may take: by fscanf, or from blocks by
   hand, entry by entry, neither with the checks that a reader owes. It prints the sum of what it kept, and the microseconds.
   usage: readers scanf|hand */
#include <stdint.h>
#include <stdio.h>
#include <stdlib.h>
#include <string.h>
#include <time.h>

enum { PRIME = 42013, BLOCK = 1 << 16 };

static uint32_t *rows, *columns, *values;
static size_t count, room;

static void keep(uint32_t row, uint32_t column, int64_t value) {
    if (count == room) {
        room = room ? 2 * room : 1 << 16;
        rows = realloc(rows, room * sizeof *rows);
        columns = realloc(columns, room * sizeof *columns);
        values = realloc(values, room * sizeof *values);
        if (!rows || !columns || !values) exit(1);
    }
    int64_t residue = value % PRIME;
    rows[count] = row;
    columns[count] = column;
    values[count++] = residue < 0 ? residue + PRIME : residue;
}

static void by_scanf(void) {
    unsigned row, column;
    long value;
    if (fscanf(stdin, "%u %u M", &row, &column) != 2) exit(1);
    while (fscanf(stdin, "%u %u %ld", &row, &column, &value) == 3 && row) keep(row, column, value);
}

static unsigned char block[BLOCK];
static size_t at, end;

static int next(void) {
    if (at == end) {
        at = 0;
        end = fread(block, 1, BLOCK, stdin);
        if (!end) return -1;
    }
    return block[at++];
}

static int64_t number(void) {
    int c = next(), minus = 0;
    while (c == ' ' || c == '\n' || c == 'M') c = next();
    if (c == '-') minus = 1, c = next();
    int64_t found = 0;
    for (; c >= '0' && c <= '9'; c = next()) found = 10 * found + (c - '0');
    return minus ? -found : found;
}

static void by_hand(void) {
    number();
    number();
    for (;;) {
        uint32_t row = number(), column = number();
        int64_t value = number();
        if (!row) return;
        keep(row, column, value);
    }
}

int main(int argc, char **argv) {
    if (argc != 2) return 2;
    struct timespec from, to;
    clock_gettime(CLOCK_MONOTONIC, &from);
    if (!strcmp(argv[1], "scanf")) by_scanf();
    else by_hand();
    clock_gettime(CLOCK_MONOTONIC, &to);
    uint64_t sum = 0;
    for (size_t k = 0; k < count; k++) sum += values[k];
    fprintf(stderr, "%zu entries, sum %llu\n", count, (unsigned long long)sum);
    printf("%ld\n", (to.tv_sec - from.tv_sec) * 1000000 + (to.tv_nsec - from.tv_nsec) / 1000);
    return 0;
}
