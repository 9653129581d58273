\\ Ranks and kernels of PARI's matrices modulo a prime by the program spasm: read("spasm.gp").

\\ The lines that the program writes for A modulo p. externstr doesn't tell the exit status, so the shell writes it as the last line.
spasm_run(command, A, p) =
{
  my(text = List([Str(matsize(A)[1], " ", #A, " M")]), file = externstr("mktemp")[1], program = getenv("SPASM"), lines);
  if (!program, program = "spasm");
  A = lift(A * Mod(1, p));
  for (j = 1, #A, for (i = 1, #A[, j], if (A[i, j], listput(text, Str(i, " ", j, " ", A[i, j])))));
  write(file, strjoin(concat(Vec(text), ["0 0 0"]), "\n"));
  lines = externstr(Str("'", program, "' ", command, " --modulus ", p, " <", file, "; echo $?; rm ", file));
  if (lines[#lines] != "0", error("spasm ended with the status ", lines[#lines]));
  lines[1 .. #lines - 1];
};

\\ The rank of A modulo p.
spasm_rank(A, p) = eval(strsplit(spasm_run("rank", A, p)[1], " ")[2]);

\\ A basis of all x with A x = 0 modulo p, a vector in each column, as matker(A * Mod(1, p)) has them.
spasm_kernel(A, p) =
{
  my(lines = [strsplit(line, " ") | line <- spasm_run("kernel", A, p)], K = matrix(eval(lines[1][2]), eval(lines[1][1])));
  for (k = 2, #lines - 1, K[eval(lines[k][2]), eval(lines[k][1])] = eval(lines[k][3]));
  K * Mod(1, p);
};
