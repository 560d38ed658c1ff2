;redcode-94
;name Open Stone
;author this project
;strategy A bomber with ever more tasks, whose step and first aim are open.
;assert CORESIZE == 8000

; Each of the two lines below leaves a constant open: its name, its least and greatest value, the
; step from one value to the next, and the value that a search begins with. 21 steps and 13 first
; aims are 273 settings.
;@tune STEP 3005 3085 4 3045
;@tune FIRST 1000 7000 500 3000

        ORG   split

bomb    DAT   >1, 0
split   SPL   #0, 0             ; one more task in each round
throw   MOV   bomb, @aim
        ADD   #STEP, aim
        JMP   throw
aim     DAT   0, FIRST          ; counted from this line

        END
