;redcode-94
;name Plain Replicator
;author this project
;strategy Copies itself twice in every round; eight tasks make one copy of eight cells.
;assert CORESIZE == 8000 && MAXPROCESSES >= 64

; What to learn here: FOR without a counter, and operands that change what they point to.

size    EQU   8                 ; tasks, and cells of a copy
there   EQU   2365              ; where the copies go
beyond  EQU   -1111

        FOR   3                 ; the line between FOR and ROF, three times
        SPL   1                 ; each doubles the tasks: 2, 4, 8
        ROF

; `}` uses the A-number of its cell and raises it by 1 afterwards, `>` does so with the B-number.
; `{` and `<` lower the number by 1 first, and then use it.

copy    SPL   @copy, there      ; a new task in the copy to be; `@copy` is the B-number of this line
        MOV   }copy, >copy      ; each task copies one cell: the first cell 0, the second cell 1, ..
        MOV   bomb, >there/5    ; a bomb on the way, wherever that cell points
        MOV   {copy, <leave     ; and a second copy, from its last cell to its first
leave   JMP   @leave, beyond+size
bomb    DAT   <1, <1

        END
