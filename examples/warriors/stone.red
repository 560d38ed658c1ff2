From: a newcomer
Subject: my first posting
(All lines up to the one that begins with the word below are ignored: a mail header does no harm.)
;redcode-94
;name Slow Stone
;author this project
;strategy A bomber with ever more tasks, so that one bomb does not stop it.
;assert CORESIZE == 8000

; What to learn here: modifiers, and that an EQU stands for its tokens, not for a number.

jump    EQU   3000+45           ; two tokens and a sign; there are no parentheses round them
twice   EQU   2*(jump)          ; so they are written here, else this would be 2*3000+45

        ORG   split

bomb    DAT   >1, 0
split   SPL   #0, 0             ; SPL.B: goes on at the next line, and makes one more task here
throw   MOV   bomb, @aim        ; MOV.I, the whole instruction, since no operand is `#`
        ADD   #jump, aim        ; ADD.AB, since the A-operand is `#`: adds to the B-number of `aim`
        JMP   throw
aim     DAT   0, twice          ; DAT.F $0, $6090, which a load file spells $-1910

        END
