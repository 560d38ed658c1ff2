;redcode-94
;name Open Press
;author this project
;strategy A paper of eight tasks; where its two copies and its three bombs go, and what a bomb
;strategy lowers, is open.
;assert CORESIZE == 8000 && MAXLENGTH >= 11 && MAXPROCESSES >= 64

; FIRST: where the first copy goes, counted from its line. SECOND: where the second one ends,
; likewise. BOMBS, OTHER: where two bombs go, counted from their lines; the third goes as far as
; both together. LOWER: which cell a bomb that is executed lowers, counted from the bomb.
; 376*376*99*99*40 are 55425047040 settings.
;@tune FIRST 300 7800 20 1300
;@tune SECOND 300 7800 20 3060
;@tune BOMBS 100 7940 80 820
;@tune OTHER 100 7940 80 5220
;@tune LOWER 67 7867 200 2667

        ORG   start

start   SPL   1, <-420          ; each of the three doubles the tasks: eight
        SPL   1, <-613
        SPL   1, <-871

paper   SPL   @0, <FIRST        ; a task in the copy to be ..
        MOV   }-1, >-1          ; .. and the eight tasks copy eight cells
        MOV   bomb, BOMBS
        MOV   bomb, <OTHER
        MOV   bomb, BOMBS+OTHER
        MOV   {paper, <leave    ; a second copy, from its last cell to its first
leave   JMP   @0, >SECOND
bomb    DAT   <LOWER, <1

        END
