# Ranks and kernels of Sage's matrices over prime fields by the program spasm: load("spasm.sage").
import os, subprocess

def spasm_run(command, A):
    """What the program writes for A."""
    if not (A.base_ring().is_field() and A.base_ring().is_prime_field() and A.base_ring().is_finite()):
        raise TypeError("the matrix isn't over a finite prime field")
    lines = ["%d %d M" % A.dimensions()]
    lines += ["%d %d %d" % (i + 1, j + 1, A[i, j]) for i, j in A.nonzero_positions()]
    words = [os.environ.get("SPASM", "spasm"), command, "--modulus", str(A.base_ring().order())]
    run = subprocess.run(words, input="\n".join(lines + ["0 0 0", ""]), capture_output=True, text=True)
    if run.returncode != 0:
        raise RuntimeError(run.stderr.strip() or "status %d" % run.returncode)
    return run.stdout

def spasm_rank(A):
    """The rank of A."""
    return ZZ(spasm_run("rank", A).split()[1])

def spasm_kernel(A):
    """A basis of all x with A x = 0, a vector in each row: A.right_kernel_matrix(basis="pivot")."""
    header, *entries, _ = [line.split() for line in spasm_run("kernel", A).splitlines()]
    values = {(int(i) - 1, int(j) - 1): int(v) for i, j, v in entries}
    return matrix(A.base_ring(), int(header[0]), int(header[1]), values, sparse=True)
