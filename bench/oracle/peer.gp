\\ Answers the cases of judge.py by PARI. It wants `cases` and `target` to be set.
put(number, command, word, M, rows, columns) =
{
  my(values = if (rows * columns, concat(vector(rows, i, vector(columns, j, lift(M[i, j])))), []));
  write(target, strjoin(concat([Str(number), command, word, Str(rows), Str(columns)], apply(v -> Str(v), values)), " "));
};

\\ The reduced echelon form: the leads are the columns that don't depend on those before them.
rref(M) =
{
  my(leads = []);
  for (j = 1, #M, if (matrank(vecextract(M, concat(leads, j))) > #leads, leads = concat(leads, j)));
  [leads, if (#leads, matinverseimage(vecextract(M, leads), M), 0)];
};

\\ The basis of the kernel in which each row ends with a 1 where the others are 0: by the echelon form of matker's basis, read from right to left.
put_kernel(number, command, word, A, most) =
{
  my(K = matker(A), n = #A, k = #K, form);
  if (k == 0, put(number, command, word, 0, 0, n); return);
  form = rref(matrix(k, n, i, j, K[n + 1 - j, i]))[2];
  put(number, command, word, matrix(k, n, i, j, form[k + 1 - i, n + 1 - j]), min(k, most), n);
};

\\ The solution that is 0 at every column without a lead.
reduced_solution(A, b) =
{
  my(form = rref(concat(A, b)), x = vector(#A)~ * A[1, 1]);
  for (i = 1, #form[1], x[form[1][i]] = form[2][i, #A + 1]);
  x;
};

answer(number, p, rows, column) =
{
  my(A = matrix(#rows, #rows[1], i, j, rows[i][j]) * Mod(1, p), b = column~ * Mod(1, p), m = #rows, n = #A, r = matrank(A), k, x, y);
  put(number, "rank", "rank", Mat(r), 1, 1);
  put(number, "rref", "matrix", rref(A)[2], r, n);
  put_kernel(number, "kernel", "matrix", A, n);
  put_kernel(number, "leftkernel", "matrix", A~, m);
  if (#matinverseimage(A, b) || b == 0,
    x = reduced_solution(A, b); put(number, "solve", "solution", Mat(x), n, 1),
    y = reduced_solution(concat(A, b)~, (concat(vector(n), 1) * Mod(1, p))~); put(number, "solve", "none", Mat(y)~, 1, m));
  k = min(m, n);
  A = A[1 .. k, 1 .. k];
  if (matrank(A) == k, put(number, "inverse", "inverse", A^-1, k, k), put_kernel(number, "inverse", "singular", A, 1));
};

for (number = 1, #cases, answer(number, cases[number][1], cases[number][2], cases[number][3]));
