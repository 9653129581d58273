# Ranks and kernels of GAP's matrices over prime fields by the program spasm: Read("spasm.g").

# The lines that the program writes for A over GF(p), in words. Without formatting GAP cuts no line. Int takes elements above 65536 too.
SpasmRun := function(command, A, p)
    local folder, input, output, text, program, status, i, j;
    folder := DirectoryTemporary();
    text := OutputTextFile(Filename(folder, "in"), false);
    SetPrintFormattingStatus(text, false);
    PrintTo(text, Length(A), " ", Length(A[1]), " M\n");
    for i in [1 .. Length(A)] do
        for j in PositionsProperty(A[i], v -> not IsZero(v)) do AppendTo(text, i, " ", j, " ", Int(A[i][j]), "\n"); od;
    od;
    AppendTo(text, "0 0 0\n"); CloseStream(text);
    program := Filename(DirectoriesSystemPrograms(), "spasm");
    if IsBound(GAPInfo.SystemEnvironment.SPASM) then program := GAPInfo.SystemEnvironment.SPASM; fi;
    input := InputTextFile(Filename(folder, "in")); output := OutputTextFile(Filename(folder, "out"), false);
    status := Process(folder, program, input, output, [command, "--modulus", String(p)]);
    CloseStream(input); CloseStream(output);
    if status <> 0 then Error("spasm ended with the status ", status); fi;
    return List(SplitString(StringFile(Filename(folder, "out")), "\n"), line -> SplitString(line, " "));
end;
SpasmRank := {A, p} -> Int(SpasmRun("rank", A, p)[1][2]);
SpasmNullspace := function(A, p) # a basis of all y with y A = 0, a vector in each row: one basis of the space of NullspaceMat(A)
    local lines, basis, k;
    lines := SpasmRun("leftkernel", A, p);
    basis := NullMat(Int(lines[1][1]), Int(lines[1][2]), GF(p));
    for k in [2 .. Length(lines) - 1] do basis[Int(lines[k][1])][Int(lines[k][2])] := Int(lines[k][3]) * One(GF(p)); od;
    return basis;
end;
