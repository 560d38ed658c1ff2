;redcode-94
;name Open Paper
;author this project
;strategy A paper of eight tasks; where its two copies and its bombs go is open.
;assert CORESIZE == 8000 && MAXPROCESSES >= 64

; 16 places of each copy and 9 of the bombs are 2304 settings.
;@tune FIRST 300 7800 500 1300
;@tune SECOND 550 8050 500 3050
;@tune BOMBS 425 3625 400 825

        ORG   start

start   SPL   1, <-420          ; each of the three doubles the tasks: eight
        SPL   1, <-613
        SPL   1, <-871

paper   SPL   @0, <FIRST        ; a task in the copy to be ..
        MOV   }-1, >-1          ; .. and the eight tasks copy eight cells
again   SPL   @0, {SECOND
        MOV   }-1, >-1
        MOV   bomb, }BOMBS
        MOV   {again, <leave    ; a third copy, from its last cell to its first
leave   JMP   @0, >FIRST+SECOND
bomb    DAT   <2667, <1

        END
