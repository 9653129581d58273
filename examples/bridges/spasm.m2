-- Ranks and kernels of Macaulay2's matrices over ZZ/p by the program spasm: load "spasm.m2".

-- The lines that the program writes for A. lift gives residues from -p/2 to p/2; a text may have them.
spasmRun = (command, A) -> (
    text := temporaryFileName();
    file := openOut text;
    file << numRows A << " " << numColumns A << " M" << newline;
    scan(numRows A, i -> scan(numColumns A, j -> if A_(i, j) != 0 then
        file << i + 1 << " " << j + 1 << " " << lift(A_(i, j), ZZ) << newline));
    file << "0 0 0" << newline << close;
    program := getenv "SPASM";
    if program == "" then program = "spasm";
    status := run concatenate("'", program, "' ", command, " --modulus ", toString char ring A, " <", text, " >", text, ".out");
    if status != 0 then error("spasm ended with the status ", toString status);
    apply(lines get(text | ".out"), line -> separate(" ", line)))

-- The rank of A.
spasmRank = A -> value (spasmRun("rank", A))#0#1

-- A basis of all x with A x = 0 as the columns of a matrix: gens ker A has a basis of the same space.
spasmKernel = A -> (
    F := ring A;
    header := first (answer := spasmRun("kernel", A));
    entriesOf := apply(drop(drop(answer, 1), -1), word -> (value word#1 - 1, value word#0 - 1) => (value word#2)_F);
    map(F^(value header#1), F^(value header#0), entriesOf))
