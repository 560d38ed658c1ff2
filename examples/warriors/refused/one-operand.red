;redcode-94
;name One Operand Short
;author this project
;strategy Is refused: MOV needs two operands.
;assert CORESIZE % 4 == 0

; Only DAT, JMP, SPL and NOP may have one operand; DAT and NOP may have none.

        ORG   throw

bomb    DAT   #0, #-4
throw   MOV   bomb
        SUB   #4, bomb
        JMP   throw

        END
