;redcode-94
;name Plain Dwarf
;author this project
;strategy Throws a bomb at every fourth cell, downwards from itself.
;assert CORESIZE % 4 == 0

; What to learn here: a line, a label, an EQU and the start.
;
; A line is a label (if any), an opcode, and one or two operands with a comma between them. A
; semicolon begins a comment, except in `;assert`: if its expression is 0, the text is refused.

step    EQU   4                 ; from here on `step` is read as 4

        ORG   throw             ; the first task starts at the label `throw`

bomb    DAT   #0, #-step        ; the bomb, and in its B-number the aim
throw   MOV   bomb, @bomb       ; a label is the distance to it here: this is MOV.I $-1, @-1
        SUB   #step, bomb       ; the aim goes down by four cells
        JMP   throw             ; again

        END                     ; nothing below this line is read
