/* Times FLINT on a matrix read as SMS text from standard input, for comparison: `flint rref P` or `flint rank P`.
   Prints the answer's number of rows and the seconds of the elimination alone. */
#include <flint/flint.h>
#include <flint/nmod_mat.h>
#include <stdio.h>
#include <string.h>
#include <time.h>

static double now(void) {
    struct timespec t;
    clock_gettime(CLOCK_MONOTONIC, &t);
    return t.tv_sec + t.tv_nsec * 1e-9;
}

int main(int argc, char **argv) {
    long m, n, i, j, v;
    char letter;
    unsigned long p;
    nmod_mat_t matrix;
    double start;
    long rank;

    if (argc != 3 || sscanf(argv[2], "%lu", &p) != 1) return 2;
    if (scanf("%ld %ld %c", &m, &n, &letter) != 3) return 3;
    nmod_mat_init(matrix, m, n, p);
    while (scanf("%ld %ld %ld", &i, &j, &v) == 3 && i != 0) {
        long r = v % (long) p;
        nmod_mat_entry(matrix, i - 1, j - 1) = r < 0 ? r + p : r;
    }
    start = now();
    rank = strcmp(argv[1], "rref") == 0 ? nmod_mat_rref(matrix) : nmod_mat_rank(matrix);
    printf("%ld %.4f\n", rank, now() - start);
    nmod_mat_clear(matrix);
    return 0;
}
