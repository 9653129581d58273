Read("spasm.g");
A := [[2, 4, 1], [1, 2, 0], [3, 6, 1]] * One(GF(7));;
Print("rank ", SpasmRank(A, 7), "\n");
Print("kernel ", List(SpasmNullspace(A, 7), row -> List(row, Int)), "\n");
p := 2^48 - 59;;
B := [[1, 0], [-1, 1], [0, -1]] * One(GF(p));;
Print("kernel ", List(SpasmNullspace(B, p), row -> List(row, Int)), "\n");
for q in [65521, 65537] do
    C := List([1 .. 30], i -> List([1 .. 20], function(j) if Random(1, 10) = 1 then return Random(GF(q)); fi; return Zero(GF(q)); end));;
    K := SpasmNullspace(C, q);;
    Print(SpasmRank(C, q) = RankMat(C), " ", IsZero(K * C), " ", Length(K) = 30 - RankMat(C), "\n");
od;
BreakOnError := false;;
Print(CALL_WITH_CATCH(SpasmRun, ["rang", A, 7])[1], "\n");
QUIT;
