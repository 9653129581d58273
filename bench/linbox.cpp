// The seconds that LinBox's sparse elimination with reordering takes for the rank of the matrix on standard input, modulo the prime that
// the word says: it prints the rank and the seconds, reading aside; with a second word `read` the microseconds of reading alone.
#include <linbox/linbox-config.h>
#include <givaro/modular.h>
#include <linbox/matrix/sparse-matrix.h>
#include <linbox/solutions/methods.h>
#include <linbox/solutions/rank.h>
#include <chrono>
#include <cstdlib>
#include <iostream>

using Field = Givaro::Modular<double>;

int main(int argc, char** argv) {
    if (argc != 2 && argc != 3) return 2;
    Field field(std::atol(argv[1]));
    LinBox::SparseMatrix<Field, LinBox::SparseMatrixFormat::SparseSeq> matrix(field);
    auto begin = std::chrono::steady_clock::now();
    matrix.read(std::cin);
    if (argc == 3) {
        auto reading = std::chrono::steady_clock::now() - begin;
        std::cout << std::chrono::duration_cast<std::chrono::microseconds>(reading).count() << std::endl;
        return 0;
    }
    LinBox::Method::SparseElimination method;
    method.pivotStrategy = LinBox::PivotStrategy::Linear;
    size_t rank;
    auto start = std::chrono::steady_clock::now();
    LinBox::rankInPlace(rank, matrix, method);
    std::chrono::duration<double> time = std::chrono::steady_clock::now() - start;
    std::cout << rank << " " << time.count() << std::endl;
}
