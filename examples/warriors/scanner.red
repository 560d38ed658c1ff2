;redcode-94
;name Pair Scanner
;author this project
;strategy Compares two cells that are `gap` apart, goes on by `step`, and bombs both if they differ.
;assert CORESIZE % 20 == 0

; What to learn here: indirect operands, and labels inside an EQU.
;
; The code is eight lines long. The scanner looks at line 8 and every tenth cell after it, round the
; core, so it never looks at itself. The assertion makes sure of that after the first round too.

gap     EQU   10
step    EQU   20
first   EQU   (last + 1)        ; the line after the last one, as seen from where it is used

        ORG   look

move    ADD   by, look          ; ADD.F: both numbers of `look` go on by `step`
look    SNE   first, first+gap  ; skips the next line where the two cells are different
        JMP   move
        MOV   bomb, *look       ; `*` goes through the A-number of `look`,
        MOV   bomb, @look       ; `@` through its B-number
        JMP   move
by      DAT   #step, #step
last                            ; a label alone belongs to the next instruction,
bomb    DAT   0, 0              ; which may have several

        END
