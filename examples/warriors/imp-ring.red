;redcode-94
;name Seven Imps
;author this project
;strategy Seven tasks, each with an imp that copies itself a seventh of the core further on.
;assert (CORESIZE + 1) % 7 == 0

; What to learn here: a table made by FOR with a counter, labels before FOR, and predefined names.

points  EQU   7
part    EQU   ((CORESIZE + 1) / points)         ; CORESIZE is the size of the core: 8001 / 7 is 1143

        ORG   start

; The last label before FOR is the counter; earlier ones are labels of the next instruction.
; `start FOR 3` would make a counter of `start`!

start i FOR   3
        SPL   1                                 ; eight tasks in the end
        ROF
        JMP   >pick                             ; each task goes to the next line of the table
pick    DAT   #0, #table

table i FOR   points                            ; i is 1, 2, .. 7: the block is here seven times
        JMP   imp + part*(i-1)                  ; an operand is any expression
        ROF
        DAT   0, 0                              ; the eighth task is not needed: it ends here

imp     MOV   0, part                           ; seven imps, a seventh of the core apart

        END
