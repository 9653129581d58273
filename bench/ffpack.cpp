// Times fflas-ffpack's rank of a matrix read as SMS text from standard input, for comparison: `ffpack P`.
// Prints the rank and the seconds of the elimination alone; nothing for a modulus that products of doubles don't hold.
#include <givaro/modular.h>
#include <fflas-ffpack/fflas-ffpack.h>
#include <chrono>
#include <cstdio>
#include <cstdlib>

int main(int argc, char **argv) {
    typedef Givaro::Modular<double> Field;
    long m, n, i, j, v;
    char letter;

    if (argc != 2) return 2;
    long p = atol(argv[1]);
    if (p < 2 || p > 94906265) return 0;
    if (scanf("%ld %ld %c", &m, &n, &letter) != 3) return 3;
    Field field(p);
    Field::Element_ptr matrix = FFLAS::fflas_new(field, m, n);
    FFLAS::fzero(field, m, n, matrix, n);
    while (scanf("%ld %ld %ld", &i, &j, &v) == 3 && i != 0) field.init(matrix[(i - 1) * n + j - 1], (double) (v % p));
    auto start = std::chrono::steady_clock::now();
    size_t rank = FFPACK::Rank(field, m, n, matrix, n);
    double seconds = std::chrono::duration<double>(std::chrono::steady_clock::now() - start).count();
    printf("%zu %.4f\n", rank, seconds);
    FFLAS::fflas_delete(matrix);
    return 0;
}
