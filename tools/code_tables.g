# Submissions of GUAVA's codes, for GAP: SubmitCode("id", C) prints the submission of a binary code, linear or not.
#
#     gap> Read("tools/code_tables.g");
#     gap> SubmitCode("hamming", HammingCode(3, GF(2)));
#     # GUAVA says: a linear [7,4,3]1 Hamming (3,2) code over GF(2)
#     # the distance 3 was computed from a generator matrix
#     submit hamming
#     kind = "cosets"
#     n = 7
#     d = 3
#     basis = ["1110000", "1001100", "0101010", "1101001"]
#     representatives = ["0000000"]
#     end
#
# SubmitCode("id", C, "FILE") appends it to a file; where that has a submission of the id already, as at a second run, that is refused. The
# distance is not the one in GUAVA's description of the code: of a linear code it is computed by MinimumDistance from a generator matrix, and of
# any other here, from all pairs of words. A code of one word has no distance: state one as SubmitCode("id", C, "FILE" or "", d). The words of an
# unrestricted code are written one by one, with their weight where all have the same; tools/submit_words.py writes them over their kernel.
# SubmitCode("id", C, "FILE" or "", d or fail, ["TEXT", ..]) lets the document cite where the code comes from: at most 16 texts, each of 1 to
# 200 bytes of printable ASCII. What is refused is an error that says why, and nothing is written. The program checks all of it anew.

if LoadPackage("guava", false) <> true then
    Error("code_tables: refused: GAP's package GUAVA isn't there: install it");
fi;

# The greatest length and the greatest distance of the table.
CodeTables_Last := 30;

# The digits of a codeword.
CodeTables_Digits := word -> Concatenation(List(VectorCodeword(word), function(x)
    if IsZero(x) then return "0"; fi;
    return "1";
end));

# A key with a list of texts.
CodeTables_List := function(name, texts)
    local text;
    text := JoinStringsWithSeparator(List(texts, t -> Concatenation("\"", t, "\"")), ", ");
    if Length(text) > 100 then
        text := Concatenation("\n  ", JoinStringsWithSeparator(List(texts, t -> Concatenation("\"", t, "\"")), ",\n  "));
    fi;
    return Concatenation(name, " = [", text, "]\n");
end;

# The least distance of a list of words, infinity for one word.
CodeTables_Distance := function(words)
    local least, i, j;
    least := infinity;
    for i in [1 .. Length(words)] do
        for j in [1 .. i - 1] do
            least := Minimum(least, Number([1 .. Length(words[i])], p -> words[i][p] <> words[j][p]));
        od;
    od;
    return least;
end;

# Refuses what the documents have no form for.
CodeTables_Check := function(id, code)
    local first, rest;
    first := "abcdefghijklmnopqrstuvwxyz";
    rest := Concatenation(first, "0123456789-_");
    if Length(id) < 1 or Length(id) > 32 or not id[1] in first or not ForAll(id, c -> c in rest) then
        Error("code_tables: refused: \"", id, "\" is no id: 1 to 32 lower-case letters, digits, - and _, a letter first");
    fi;
    if not IsCode(code) or Size(LeftActingDomain(code)) <> 2 then
        Error("code_tables: refused: no binary code");
    fi;
    if WordLength(code) > CodeTables_Last then
        Error("code_tables: refused: the code has length ", WordLength(code), ", and the table ends at ", CodeTables_Last);
    fi;
end;

# Refuses what no document can cite.
CodeTables_CheckCites := function(cites)
    local at;
    if not IsList(cites) or not ForAll(cites, IsString) then
        Error("code_tables: refused: cites are a list of texts");
    fi;
    if Length(cites) > 16 then
        Error("code_tables: refused: ", Length(cites), " cites, and a document has at most 16");
    fi;
    for at in [1 .. Length(cites)] do
        if Length(cites[at]) < 1 or Length(cites[at]) > 200 then
            Error("code_tables: refused: cite ", at, " has ", Length(cites[at]), " bytes, and a cite has 1 to 200");
        fi;
        if not ForAll(cites[at], c -> IntChar(c) in [32 .. 126]) then
            Error("code_tables: refused: cite ", at, " has another sign than those of printable ASCII");
        fi;
    od;
end;

# The keys of a document that cites texts: none where there are none.
CodeTables_Cites := function(cites)
    if Length(cites) = 0 then
        return "";
    fi;
    return Concatenation("format = 2\n", CodeTables_List("cites", List(cites, t -> ReplacedString(ReplacedString(t, "\\", "\\\\"), "\"", "\\\""))));
end;

# The distance to state: that of the code, or the stated one, which is no greater.
CodeTables_Stated := function(d, stated)
    if stated <> fail then
        if d < stated then
            Error("code_tables: refused: the distance is ", d, ", below the stated ", stated);
        fi;
        d := stated;
    fi;
    if d = infinity then
        Error("code_tables: refused: one word has no distance: state one");
    fi;
    if d < 3 or d > CodeTables_Last then
        Error("code_tables: refused: the distance is ", d, ", and the table has the distances 3 to ", CodeTables_Last);
    fi;
    return d;
end;

# The keys of a linear code: a basis of it, and the zero word.
CodeTables_Linear := function(code)
    local basis, zero;
    zero := ListWithIdenticalEntries(WordLength(code), '0');
    basis := [];
    if Dimension(code) > 0 then
        basis := List(GeneratorMat(code), row -> CodeTables_Digits(Codeword(row)));
    fi;
    return Concatenation(CodeTables_List("basis", basis), CodeTables_List("representatives", [zero]));
end;

# The keys of any other code: its words, and their weight where all have the same.
CodeTables_Words := function(words, d)
    local weights, text;
    weights := Set(words, x -> Number(x, c -> c = '1'));
    text := "";
    if Length(weights) = 1 and IsEvenInt(d) then
        text := Concatenation("w = ", String(weights[1]), "\n");
    fi;
    return Concatenation(text, CodeTables_List("words", words));
end;

# The submission of a code, as a text.
CodeTables_Submission := function(id, code, stated, cites)
    local linear, words, d, kind, keys, least, from;
    CodeTables_Check(id, code);
    CodeTables_CheckCites(cites);
    linear := IsLinearCode(code);
    words := [];
    if not linear then
        words := Set(List(AsSSortedList(code), CodeTables_Digits));
        d := CodeTables_Distance(words);
    elif Dimension(code) > 0 then
        d := MinimumDistance(GeneratorMatCode(GeneratorMat(code), GF(2)));
    else
        d := infinity;
    fi;
    least := d;
    d := CodeTables_Stated(d, stated);
    if linear then
        kind := "cosets";
        keys := CodeTables_Linear(code);
        from := "a generator matrix";
    else
        kind := "words";
        keys := CodeTables_Words(words, d);
        from := "all pairs of words";
    fi;
    if d = least then
        from := Concatenation("the distance ", String(d), " was computed from ", from);
    else
        from := Concatenation("the distance ", String(d), " was stated");
    fi;
    return Concatenation("# GUAVA says: ", NormalizedWhitespace(String(code)), "\n# ", from, "\nsubmit ", id, "\n", CodeTables_Cites(cites), "kind = \"", kind, "\"\nn = ", String(WordLength(code)), "\nd = ", String(d), "\n",
        keys, "end\n");
end;

# Refuses a file that has a submission of the id.
CodeTables_CheckFile := function(id, file)
    local old;
    old := fail;
    if IsExistingFile(file) then
        old := StringFile(file);
    fi;
    if old <> fail and Concatenation("submit ", id) in SplitString(ReplacedString(old, "\r", ""), "\n") then
        Error("code_tables: refused: ", file, " has a submission of ", id, " already");
    fi;
end;

# SubmitCode(id, code[, file[, distance[, cites]]]): see above. A stream without formatting breaks no line at 80 columns.
SubmitCode := function(id, code, more...)
    local stated, cites, text, stream;
    stated := fail;
    cites := [];
    if Length(more) > 1 then
        stated := more[2];
    fi;
    if Length(more) > 2 then
        cites := more[3];
    fi;
    text := CodeTables_Submission(id, code, stated, cites);
    if Length(more) > 0 and more[1] <> "" then
        CodeTables_CheckFile(id, more[1]);
        stream := OutputTextFile(more[1], true);
        if stream = fail then
            Error("code_tables: refused: ", more[1], " can't be written");
        fi;
    else
        stream := OutputTextUser();
    fi;
    SetPrintFormattingStatus(stream, false);
    PrintTo(stream, text);
    CloseStream(stream);
end;
