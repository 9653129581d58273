load("spasm.sage")
A = matrix(GF(7), [[2, 4, 1], [1, 2, 0], [3, 6, 1]], sparse=True)
print("rank", spasm_rank(A))
print("kernel", spasm_kernel(A).rows())
p = 2^48 - 59
B = matrix(GF(p), [[1, -1, 0], [0, 1, -1]])
print("kernel", spasm_kernel(B).rows())
for C in (A, B, random_matrix(GF(65537), 20, 30, density=0.1, sparse=True)):
    print(spasm_rank(C) == C.rank(), spasm_kernel(C) == C.right_kernel_matrix(basis="pivot"))
try:
    spasm_run("rang", A)
except RuntimeError as fault:
    print(fault)
