# Answers the cases of judge.py by GAP. It wants Cases and Target to be set.
Output := OutputTextFile(Target, false);;
SetPrintFormattingStatus(Output, false);

Put := function(number, command, word, matrix, rows, columns)
    local row, value;
    PrintTo(Output, number, " ", command, " ", word, " ", rows, " ", columns);
    for row in matrix{[1 .. rows]} do
        for value in row do PrintTo(Output, " ", value); od;
    od;
    PrintTo(Output, "\n");
end;;

Lifted := matrix -> List(matrix, row -> List(row, Int));;

# The reduced echelon form without its zero rows.
Form := function(matrix)
    local form;
    form := TriangulizedMat(matrix);
    return Filtered(form, row -> not IsZero(row));
end;;

# The basis of all x with A x = 0 in which each row ends with a 1 where the others are 0: by the form of NullspaceMat's basis, read from right to left.
PivotKernel := function(matrix)
    local basis;
    basis := NullspaceMat(TransposedMat(matrix));
    if Length(basis) = 0 then return basis; fi;
    return Reversed(List(Form(List(basis, Reversed)), Reversed));
end;;

# The solution that is 0 at every column without a lead.
ReducedSolution := function(matrix, column)
    local x, row;
    x := List(matrix[1], v -> Zero(v));
    for row in Form(List([1 .. Length(matrix)], i -> Concatenation(matrix[i], [column[i]]))) do
        x[PositionNonZero(row)] := row[Length(row)];
    od;
    return x;
end;;

Answer := function(number, p, rows, column)
    local one, A, b, m, n, y, k, kernel;
    one := One(GF(p));
    A := rows * one; b := column * one; m := Length(A); n := Length(A[1]);
    Put(number, "rank", "rank", [[RankMat(A)]], 1, 1);
    Put(number, "rref", "matrix", Lifted(Form(A)), RankMat(A), n);
    kernel := PivotKernel(A);
    Put(number, "kernel", "matrix", Lifted(kernel), Length(kernel), n);
    kernel := PivotKernel(TransposedMat(A));
    Put(number, "leftkernel", "matrix", Lifted(kernel), Length(kernel), m);
    if SolutionMat(TransposedMat(A), b) <> fail then
        Put(number, "solve", "solution", List(Lifted([ReducedSolution(A, b)])[1], v -> [v]), n, 1);
    else
        y := ReducedSolution(Concatenation(TransposedMat(A), [b]), Concatenation(List([1 .. n], j -> 0 * one), [one]));
        Put(number, "solve", "none", Lifted([y]), 1, m);
    fi;
    k := Minimum(m, n);
    A := List([1 .. k], i -> A[i]{[1 .. k]});
    if RankMat(A) = k then
        Put(number, "inverse", "inverse", Lifted(Inverse(A)), k, k);
    else
        Put(number, "inverse", "singular", Lifted(PivotKernel(A)), 1, k);
    fi;
end;;

for number in [1 .. Length(Cases)] do CallFuncList(Answer, Concatenation([number], Cases[number])); od;
CloseStream(Output);
QUIT;
