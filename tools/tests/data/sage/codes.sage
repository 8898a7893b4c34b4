load("tools/code_tables.sage.py")
SubmitCode("hamming", codes.HammingCode(GF(2), 3))
SubmitCode("golay", codes.GolayCode(GF(2)))
SubmitCode("reed-muller", codes.BinaryReedMullerCode(1, 4))
SubmitDelsarte("delsarte", 16, 6)
SubmitDelsarte("odd", 13, 5)
SubmitDelsarte("johnson", 8, 4, 4)
SubmitDelsarte("larger", 22, 6)
SubmitCode("zero", LinearCode(matrix(GF(2), 0, 5)), distance=5)
for id, code in ("Upper", codes.HammingCode(GF(2), 3)), ("even", codes.ParityCheckCode(GF(2), 5)), ("ternary", codes.GolayCode(GF(3))), ("long", codes.HammingCode(GF(2), 5)):
    try:
        SubmitCode(id, code)
    except ValueError as refusal:
        print("#", refusal)
