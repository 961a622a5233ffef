#!/usr/bin/env python3
"""Habits of old listings that the machine refuses. `try` and `lint` tell what to write instead; docs/PORTING.md has the same as a
table, which `tools/habits.py` prints and `tools/habits.py --check` compares.

A habit is a statement as old listings have it, the code that it gets, what the line has (from the code's column on where the
pattern begins with ^), what to write instead, and lines of a program that do so."""
import os
import re
import sys
from dataclasses import dataclass


@dataclass
class Habit:
    form: str
    code: str
    pattern: str
    instead: str
    runs: str

    def is_of(self, text, code, column):
        """Whether a line that got this code is of this habit."""
        shown = text[int(column) - 1:] if column and self.pattern.startswith("^") else text
        return self.code == code and re.search(self.pattern, shown, re.IGNORECASE) is not None


HABITS = [Habit(*row) for row in [
    # Numbers
    ("X=RND(1)", "S27", r"^RND\(", "draw numbers by a rule of your own", "S=1:S=MOD(S*30103,99999989):X=S/99999989"),
    ("X=SIN(1)", "S27", r"^(SIN|COS|TAN)\(", "a series: FNS and FNC of examples/functions.bas; the tangent is FNS(X)/FNC(X)",
     "DEFFNS(X)=X*(1-X^2/6*(1-X^2/20*(1-X^2/42))) / PRINT FNS(.5)"),
    ("X=ARCTAN(1)", "S27", r"^ARC(SIN|COS|TAN)\(", "a series: FNT of examples/functions.bas; ARCSIN(X) is FNT(X/SQR(1-X^2))",
     "DEFFNH(X)=X/(1+SQR(1+X^2)) / PRINT FNH(1)"),
    ("X=EXP(1)", "S27", r"^EXP\(", "a series: FNE of examples/functions.bas", "DEFFNE(X)=(1+X/64*(1+X/128*(1+X/192)))^64 / PRINT FNE(1)"),
    ("X=LOG(2)", "S27", r"^LOG\(", "a series: FNL of examples/functions.bas", "DEFFNZ(X)=(X-1)/(X+1) / PRINT FNZ(2)"),
    ("X=#PI", "S27", r"^#PI", "the number itself, 3.14159265359", "X=3.14159265359"),
    ("X=2^(-3)", "C65", r"\^ *\(? *-", "1 over the power: 1/2^3", "X=1/2^3"),
    ("X=1/1.01^360", "C65", r"\^", "a power of a power, since exponents go to 255: 1/(1.01^12)^30", "X=1/(1.01^12)^30"),
    ("PRINT 2**3", "S17", r"^\*", "2^3", "PRINT 2^3"),
    ("A=B=0", "S25", r"^= *", "several receivers stand before one sign: A,B=0", "A,B=0"),
    ("X=ATN(1)", "S25", r"\b(ATN|ASC|INSTR)\b", "the words of other BASICs are not read: ARCTAN is a series, ASC(A$) is VAL(A$), INSTR is POS(",
     'A$="B":X=VAL(A$):Y=POS(A$="B")'),
    # Strings
    ('A$=""', "S18", r'^""', 'a blank, for which unset and blank strings stand: A$=" ", and IF A$=" "', 'A$=" " / IF A$=" " THEN 30 / END'),
    ("A$=LEFT$(B$,3)", "S18", r"^(LEFT|MID|RIGHT|CHR)\$", "a part is STR(B$,1,3), a byte is BIN(65)", "A$=STR(B$,1,3):A$=BIN(65)"),
    ("A$=A$+B$", "S25", r"^\+", "strings are joined by &", 'A$=A$&B$'),
    ("ADD(A$,B$)", "S14", r"^(ADDC?|AND|OR|XOR|BOOL *[0-9A-F]) *\(", "as an assignment: A$=A$ ADD B$, A$=A$ AND HEX(7F)",
     'A$="A":B$=HEX(01):A$=A$ ADD B$:A$=A$ AND HEX(7F)'),
    ('INIT("*")A$', "S19", r'^"', "the byte in hexadecimal: INIT(2A)A$", "INIT(2A)A$"),
    ("HEXPRINT A$", "S27", r"^HEXPRINT", "PRINT HEXOF(A$)", "PRINT HEXOF(A$)"),
    ("HEXPACK A$ FROM B$", "S27", r"^HEX(UN)?PACK", "byte by byte: BIN( makes one of a number, VAL( a number of one", "A$=BIN(65):PRINT VAL(A$)"),
    # Arrays
    ("DIM A(300,2)", "P50", r"\b(DIM|COM)\b", "one dimension goes to 4000 and two to 255 each: DIM A(2,255), or A(600) and the place reckoned", "DIM A(600)"),
    ("A(1)=5", "P59", r".", "name the array first: DIM A(10)", "DIM A(10):A(1)=5"),
    ("MAT PRINT A", "S27", r"\bMAT PRINT\b", "a loop: FOR I=1 TO 3:PRINT A(I);:NEXT I", "DIM A(3):FOR I=1 TO 3:PRINT A(I);:NEXT I"),
    ("MAT READ A", "S27", r"\bMAT (READ|INPUT)\b", "a loop: FOR I=1 TO 3:READ A(I):NEXT I", "DIM A(3):FOR I=1 TO 3:READ A(I):NEXT I / DATA 1,2,3"),
    ("MAT B=INV(A)", "S27", r"\bINV\(", "an elimination of your own, row by row", "DIM A(2,2),B(2,2):MAT B=IDN"),
    # The order of a program
    ("IF A=1 GOTO 20", "S22", r"\bIF\b.*\bGO ?(TO|SUB)\b", "THEN before it: IF A=1 THEN 20", "IF A=1 THEN 20 / END"),
    ("GO TO 20", "S12", r"\bGO TO\b", "in one word: GOTO 20", "GOTO 20 / END"),
    ("GOSUB '10(A)", "S15", r"^'", "no blank before the sign: GOSUB'10(A)", "GOSUB'10(A):END / DEFFN'10(B):RETURN"),
    ("NEXT I,J", "S25", r"\bNEXT [A-Z]\d? *,", "one by one: NEXT I:NEXT J", "FOR J=1 TO 2:FOR I=1 TO 2:NEXT I:NEXT J"),
    ("RESTORE 5", "S25", r"\bRESTORE *\d", "RESTORE LINE and the number of the line", "RESTORE LINE 20:READ A / DATA 5"),
    ("ON ERROR GOTO 100", "S17", r"\bON *ERROR\b", "ERROR after the statement that may fail: X=1/A:ERROR GOTO 100",
     'X=1/A:ERROR PRINT "DIVIDED BY ZERO"'),
    ("TRACE", "S12", r"\bTRACE\b", "leave it out; in a session halt the program, look at its variables, and CONTINUE", "PRINT A"),
    ('STOP "HERE"#', "S25", r"^#", "leave the # out: STOP \"HERE\"", 'STOP "HERE"'),
    # At the terminal
    ('INPUT "N",A', "X73", r"\bINPUT\b", 'an answer that is no number ends the program unless ERROR stands after it: INPUT "N",A:ERROR GOTO 10',
     'INPUT "N",A:ERROR PRINT "A NUMBER":GOTO 10'),
    ('INPUT "N";A', "S13", r"\bINPUT *\"[^\"]*\" *;", 'a comma: INPUT "N",A', 'INPUT "N",A:ERROR GOTO 10'),
    ('LINPUT "N"-A$', "S13", r"^-", 'a comma: LINPUT "N",A$; what the variable has is not offered', 'LINPUT "N",A$'),
    ("PRINTUSING 900", "S13", r"\bPRINT ?USING *\d+ *(:|$)", "values after it, or PRINT and the text of the image", 'PRINTUSING 20,5 / %## PIECES'),
    ('PRINT "A" "B"', "S25", r'\bPRINT\b[^:]*["\)] *["A-Z]', "a semicolon or a comma between two items", 'PRINT "A";"B"'),
    # Devices
    ("SELECT PRINT 215(132)", "S25", r"\bSELECT PRINT *[0-9A-F]{3} *\(", "leave the width out: a printer has 132 bytes a line, and the terminal 80", "SELECT PRINT 215"),
    ('SELECT PRINT 215:PRINT "X"', "P48", r"\bSELECT PRINT\b", "give the machine the printer: b2 try --printer FILE, or [[printer]] in a boot file", 'SELECT PRINT 215:PRINT "X"'),
    ('LOAD T,"PART2"', "P48", r"\bT\b", "give the machine the disk: b2 try --disk IMAGE, or [[platter]] in a boot file", "LIMITS T,A,B,C"),
    ("SELECT CI 001", "S22", r"\bSELECT *(CI|CO|INPUT|LIST|TAPE|P\d)\b", "leave it out: a program has the one terminal of its partition", "SELECT PRINT 005"),
    ("SELECT #1", "S22", r"^#", 'a slot needs none: a file is opened in it, DATALOAD DC OPEN T,#1,"NAME", or by T/D12,#1 on another disk',
     'DATASAVE DC OPEN T,#1,5,"F":DATALOAD DC OPEN T,#1,"F"'),
    ("DATASAVE DC CLOSE", "S25", r"\bDATA ?SAVE DC CLOSE", "leave it out: another file opened in the slot closes it, and so does CLEAR", 'DATASAVE DC OPEN T,5,"G"'),
    ('SAVE DC T("P")', "S13", r"\bSAVE (DC )?T *\(\"", 'the name once more, after SCRATCH: SCRATCH T,"P":SAVE T,("P"),"P"', 'SAVE T,"P":SCRATCH T,"P":SAVE T,("P"),"P"'),
    ('LOAD DC T "P" 100,200', "S25", r"\bLOAD\b.*\" *,? *\d", 'LOAD takes no lines: type CLEAR P 100,200 before it; in a program LOAD replaces all lines', "LIMITS T,A,B,C"),
    ('SCRATCH F "P"', "S27", r"^[FR]\b", 'T, or T/D12 for another disk: SCRATCH T,"P"', 'DATASAVE DC OPEN T,5,"H":SCRATCH T,"H"'),
    ("DATALOAD BA T(0,L)A$()", "S27", r"\bDATA ?(LOAD|SAVE) *(BA|DA)\b", "records of a file by DATALOAD DC and DATASAVE DC; sectors are not reached by their numbers",
     'DATASAVE DC OPEN T,5,"S":DATASAVE DC A$'),
    ("$RELEASE TERMINAL TO 2", "S25", r"\$RELEASE *TERMINAL *TO\b", "leave TO and the partition out: the order in the boot file says whose it is then", "$RELEASE TERMINAL"),
    ("$GIO/005", "S27", r"^\$(GIO|IF|TRAN|FORMAT|INIT|MSG|PSTAT)", "leave it out: no program talks to a device by itself", "PRINT"),
]]


def cell(text):
    return " ".join(f"`{line}`" for line in text.split(" / ")) if text else ""


def table():
    lines = ["| Form | Code | Instead | Runs |", "|---|---|---|---|"]
    return "\n".join(lines + [f"| {cell(it.form)} | `{it.code}` | {it.instead} | {cell(it.runs)} |" for it in HABITS])


def check():
    with open(os.path.join(os.path.dirname(os.path.realpath(__file__)), "..", "docs", "PORTING.md"), encoding="utf-8") as page:
        return table() in page.read()


if __name__ == "__main__":
    if sys.argv[1:] == ["--check"]:
        sys.exit(0 if check() else "habits: docs/PORTING.md hasn't this table; tools/habits.py prints it")
    print(table())
