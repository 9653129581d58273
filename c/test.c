/* Calls libspasm from C: the answers of a small matrix, what is refused, room that is too short, and several threads at once. It prints
   a line for each thing that is not as it should be, and ends with their number. */
#include "spasm.h"

#include <pthread.h>
#include <stdio.h>
#include <stdlib.h>
#include <string.h>

enum { PLACES = 9, CALLERS = 8, TURNS = 200 };

static int failures = 0;

static void expect(int holds, const char *what) {
    if (!holds) {
        printf("c/test.c: %s\n", what);
        failures++;
    }
}

/* [2 4 1; 1 2 0; 3 6 1] modulo 7: the third row is the sum of the others. */
static const uint32_t rows[] = {0, 0, 0, 1, 1, 2, 2, 2};
static const uint32_t columns[] = {0, 1, 2, 0, 1, 0, 1, 2};
static const uint64_t values[] = {2, 4, 1, 1, 2, 3, 6, 1};
static const spasm_matrix matrix = {rows, 8, columns, 8, values, 8, 3, 3, 7};

/* Memory of just the size that is asked, so that AddressSanitizer sees what is read or written behind it. */
static spasm_room room_of(size_t places) {
    spasm_room room = {malloc(places * sizeof(uint32_t)), places, malloc(places * sizeof(uint32_t)), places,
                       malloc(places * sizeof(uint64_t)), places, 77, 77};
    for (size_t k = 0; k < places; k++) {
        room.rows[k] = room.columns[k] = 99;
        room.values[k] = 99;
    }
    return room;
}

static void let_go(spasm_room *room) {
    free(room->rows);
    free(room->columns);
    free(room->values);
}

/* Whether an answer has these entries, `wanted` of them, each a row, a column and a value. */
static int has(const spasm_room *room, uint32_t height, size_t wanted, const unsigned entries[][3]) {
    if (room->needed != wanted || room->height != height) {
        return 0;
    }
    for (size_t k = 0; k < wanted; k++) {
        if (room->rows[k] != entries[k][0] || room->columns[k] != entries[k][1] || room->values[k] != entries[k][2]) {
            return 0;
        }
    }
    return 1;
}

static const unsigned form[][3] = {{0, 0, 1}, {0, 1, 2}, {1, 2, 1}};
static const unsigned null[][3] = {{0, 0, 5}, {0, 1, 1}};
static const unsigned left[][3] = {{0, 0, 6}, {0, 1, 6}, {0, 2, 1}};
static const unsigned solution[][3] = {{2, 0, 1}};

static void answers(void) {
    uint32_t rank = 77;
    expect(spasm_rank(&matrix, &rank) == SPASM_OK && rank == 2, "spasm_rank");
    spasm_room it = room_of(3);
    expect(spasm_rref(&matrix, &it) == SPASM_OK && has(&it, 2, 3, form), "spasm_rref");
    expect(spasm_kernel(&matrix, &it) == SPASM_OK && has(&it, 1, 2, null), "spasm_kernel");
    expect(spasm_left_kernel(&matrix, &it) == SPASM_OK && has(&it, 1, 3, left), "spasm_left_kernel");
    expect(spasm_inverse(&matrix, &it) == SPASM_SINGULAR && has(&it, 1, 2, null), "spasm_inverse");

    const uint32_t side_rows[] = {0, 2}, side_columns[] = {0, 0};
    const uint64_t side_values[] = {1, 1};
    spasm_matrix side = {side_rows, 2, side_columns, 2, side_values, 2, 3, 1, 7};
    expect(spasm_solve(&matrix, &side, &it) == SPASM_OK && has(&it, 3, 1, solution), "spasm_solve");
    side.rows++, side.rows_length = side.columns_length = side.values_length = 1;
    expect(spasm_solve(&matrix, &side, &it) == SPASM_REFUTED && has(&it, 1, 3, left), "spasm_solve, refuted");
    let_go(&it);

    uint32_t pivot_rows[3], pivot_columns[3];
    spasm_places pivots = {pivot_rows, 3, pivot_columns, 3, 77};
    expect(spasm_pivots(&matrix, &pivots) == SPASM_OK && pivots.needed >= 1 && pivots.needed <= 2, "spasm_pivots");
    pivots.rows_length = 0;
    expect(spasm_pivots(&matrix, &pivots) == SPASM_NO_ROOM, "spasm_pivots without room");
    expect(spasm_version() >= 10000, "spasm_version");
    expect(strcmp(spasm_processor(), "x86-64-v2") == 0 || strcmp(spasm_processor(), "x86-64-v3") == 0, "spasm_processor");
}

static void refusals(void) {
    spasm_matrix bad[] = {matrix, matrix, matrix, matrix, matrix};
    bad[0].rows_length = 7, bad[1].values_length = 7, bad[2].height = 2, bad[3].width = 2, bad[4].modulus = 6;
    for (size_t k = 0; k < sizeof bad / sizeof bad[0]; k++) {
        uint32_t rank = 77;
        spasm_room it = room_of(1);
        expect(spasm_rank(&bad[k], &rank) == SPASM_BAD_INPUT && rank == 77, "bad input of spasm_rank");
        expect(spasm_rref(&bad[k], &it) == SPASM_BAD_INPUT && it.values[0] == 99, "bad input of spasm_rref");
        expect(spasm_kernel(&bad[k], &it) == SPASM_BAD_INPUT && it.values[0] == 99, "bad input of spasm_kernel");
        expect(spasm_solve(&bad[k], &bad[k], &it) == SPASM_BAD_INPUT, "bad input of spasm_solve");
        let_go(&it);
    }
    spasm_room short_of_one = room_of(1);
    expect(spasm_kernel(&matrix, &short_of_one) == SPASM_NO_ROOM && short_of_one.needed == 2, "spasm_kernel without room");
    let_go(&short_of_one);
    for (size_t places = 0; places < 3; places++) {
        spasm_room it = room_of(places);
        expect(spasm_rref(&matrix, &it) == SPASM_NO_ROOM && it.needed == 3 && it.height == 2, "spasm_rref without room");
        for (size_t k = 0; k < places; k++) {
            expect(it.rows[k] == 99 && it.columns[k] == 99 && it.values[k] == 99, "room that was too short");
        }
        let_go(&it);
    }
}

/* Each caller has an answer of its own; the matrix is shared. */
static void *caller(void *fails) {
    for (int turn = 0; turn < TURNS; turn++) {
        spasm_room it = room_of(PLACES);
        if (spasm_rref(&matrix, &it) != SPASM_OK || !has(&it, 2, 3, form)) {
            ++*(int *)fails;
        }
        let_go(&it);
    }
    return NULL;
}

static void at_once(void) {
    pthread_t threads[CALLERS];
    int fails[CALLERS] = {0};
    for (int k = 0; k < CALLERS; k++) {
        expect(pthread_create(&threads[k], NULL, caller, &fails[k]) == 0, "a thread");
    }
    for (int k = 0; k < CALLERS; k++) {
        pthread_join(threads[k], NULL);
        expect(fails[k] == 0, "an answer to one of several callers at once");
    }
}

int main(void) {
    answers();
    refusals();
    at_once();
    if (failures == 0) {
        printf("c/test.c: all as it should be\n");
    }
    return failures > 125 ? 125 : failures;
}
