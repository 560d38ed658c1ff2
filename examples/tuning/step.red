;redcode-94
;name Open Step
;author this project
;strategy A bomber with ever more tasks, of which the step alone is open.
;assert CORESIZE == 8000

;@tune STEP 3005 3085 4 3045

        ORG   split

bomb    DAT   >1, 0
split   SPL   #0, 0             ; one more task in each round
throw   MOV   bomb, @aim
        ADD   #STEP, aim
        JMP   throw
aim     DAT   0, 3000           ; counted from this line

        END
