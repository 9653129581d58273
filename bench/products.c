/* What the products of a dense elimination take by themselves, in C: those of 2000 x 2000 residues modulo 42013, 64 pivots at a time, with
   no pivots to find and no factor to make, by so many threads, which wait for one another without sleeping. Before, one thread is busy for
   as long as a program takes to read such a matrix. It prints the microseconds. So this tells how many times as fast several threads can
   be on the processors of this machine. */
#include <immintrin.h>
#include <pthread.h>
#include <stdatomic.h>
#include <stdint.h>
#include <stdio.h>
#include <stdlib.h>
#include <string.h>
#include <time.h>

enum { SIZE = 2000, PIVOTS = 64, ROWS = 32, LANES = 8, MODULUS = 42013, BEFORE = 500 };

static uint32_t *matrix[SIZE], *units[SIZE];
static uint64_t one, above, above_quotient;
static int workers, first;
static atomic_int next, begun, done, ended;

static double milliseconds(void) {
    struct timespec t;

    clock_gettime(CLOCK_MONOTONIC, &t);
    return t.tv_sec * 1e3 + t.tv_nsec / 1e6;
}

static __m256i residues(__m256i x) {
    return _mm256_min_epu32(x, _mm256_sub_epi32(x, _mm256_set1_epi32(MODULUS)));
}

static __m256i times(__m256i y, uint64_t factor, uint64_t quotient) {
    __m256i estimate = _mm256_srli_epi64(_mm256_mul_epu32(y, _mm256_set1_epi64x(quotient)), 32);
    __m256i rest = _mm256_sub_epi64(_mm256_mul_epu32(y, _mm256_set1_epi64x(factor)), _mm256_mul_epu32(estimate, _mm256_set1_epi64x(MODULUS)));

    return residues(_mm256_and_si256(rest, _mm256_set1_epi64x(0xffffffff)));
}

static __m256i folded(__m256i sums) {
    __m256i low = _mm256_and_si256(sums, _mm256_set1_epi64x(0xffffffff));

    return residues(_mm256_add_epi32(times(low, 1, one), times(_mm256_srli_epi64(sums, 32), above, above_quotient)));
}

static __m128i narrow(__m256i x) {
    return _mm256_castsi256_si128(_mm256_permutevar8x32_epi32(x, _mm256_setr_epi32(0, 2, 4, 6, 0, 0, 0, 0)));
}

/* Adds the products of four rows of coefficients with a tile to four rows of entries, and writes these. */
static void add_tile(uint64_t (*by)[PIVOTS], uint32_t (*tile)[LANES], uint32_t (*entries)[LANES], uint32_t **rows, int start) {
    __m256i sums[4][2];

    memset(sums, 0, sizeof sums);
    for (int k = 0; k < PIVOTS; k++) {
        __m256i left = _mm256_cvtepu32_epi64(_mm_loadu_si128((void *)tile[k]));
        __m256i right = _mm256_cvtepu32_epi64(_mm_loadu_si128((void *)(tile[k] + 4)));

        for (int i = 0; i < 4; i++) {
            __m256i factor = _mm256_set1_epi64x(by[i][k]);

            sums[i][0] = _mm256_add_epi64(sums[i][0], _mm256_mul_epu32(factor, left));
            sums[i][1] = _mm256_add_epi64(sums[i][1], _mm256_mul_epu32(factor, right));
        }
    }
    for (int i = 0; i < 4; i++) {
        __m256i sum = _mm256_set_m128i(narrow(folded(sums[i][1])), narrow(folded(sums[i][0])));

        _mm256_storeu_si256((void *)(rows[i] + start), residues(_mm256_add_epi32(sum, _mm256_loadu_si256((void *)entries[i]))));
    }
}

/* Takes 64 pivots out of so many rows, tile by tile. */
static void reduce(uint32_t **rows, int count) {
    static __thread uint64_t by[ROWS][PIVOTS];
    static __thread uint32_t tile[PIVOTS][LANES], entries[ROWS][LANES];
    int end = SIZE;

    for (int t = 0; t < count; t++)
        for (int k = 0; k < PIVOTS; k++) by[t][k] = rows[t][first + k];
    while (end > first) {
        int start = end < LANES ? 0 : end - LANES;

        for (int k = 0; k < PIVOTS; k++) memcpy(tile[k], units[first + k] + start, sizeof tile[k]);
        for (int t = 0; t < count; t++) memcpy(entries[t], rows[t] + start, sizeof entries[t]);
        for (int t = 0; t < count; t += 4) add_tile(by + t, tile, entries + t, rows + t, start);
        end = start;
    }
}

static void reduce_pieces(void) {
    int at;

    while ((at = atomic_fetch_add(&next, ROWS)) < SIZE) reduce(matrix + at, (at + ROWS < SIZE ? ROWS : SIZE - at) & ~3);
}

static void *work(void *argument) {
    (void)argument;
    for (int seen = 0;; seen++) {
        while (atomic_load(&begun) == seen)
            if (atomic_load(&ended)) return NULL;
        reduce_pieces();
        atomic_fetch_add(&done, 1);
    }
}

int main(int count, char **words) {
    pthread_t threads[64];
    double start;

    workers = count > 1 ? atoi(words[1]) : 1;
    if (workers < 1 || workers > 64) return 2;
    one = (1ULL << 32) / MODULUS;
    above = (1ULL << 32) % MODULUS;
    above_quotient = (above << 32) / MODULUS;
    for (int i = 0; i < SIZE; i++) {
        matrix[i] = malloc(SIZE * sizeof **matrix);
        units[i] = malloc(SIZE * sizeof **units);
        for (int j = 0; j < SIZE; j++) {
            matrix[i][j] = rand() % MODULUS;
            units[i][j] = rand() % MODULUS;
        }
    }
    start = milliseconds();
    while (milliseconds() - start < BEFORE) reduce(matrix, ROWS);
    start = milliseconds();
    for (int i = 1; i < workers; i++) pthread_create(threads + i, NULL, work, NULL);
    for (first = 0; first + PIVOTS <= SIZE; first += PIVOTS) {
        atomic_store(&next, first);
        atomic_store(&done, 0);
        atomic_fetch_add(&begun, 1);
        reduce_pieces();
        while (atomic_load(&done) < workers - 1) {}
    }
    printf("%.0f\n", 1e3 * (milliseconds() - start));
    atomic_store(&ended, 1);
    for (int i = 1; i < workers; i++) pthread_join(threads[i], NULL);
    return 0;
}
