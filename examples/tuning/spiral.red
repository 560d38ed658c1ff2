;redcode-94
;name Open Spiral
;author this project
;strategy Launches a spiral of imps and bombs behind it; the bomber's step, aim and trail are open.
;assert CORESIZE == 8000 && MAXPROCESSES >= 64

; 14 steps, 13 first aims and 10 trails are 1820 settings.
;@tune STEP 3005 3057 4 3045
;@tune AIM 1000 7000 500 3000
;@tune TRAIL 200 2000 200 800

leap    EQU   2667              ; three leaps are the core and one cell

        ORG   start

start   SPL   split, <-TRAIL    ; one task for the bomber
        SPL   1, {-TRAIL        ; and four for the spiral
        SPL   1, <-TRAIL
        SPL   turn
        JMP   imp
turn    ADD.A #leap, -1         ; each pair of tasks is sent a leap further on
        DJN.B -2, #6

bomb    DAT   >1, 0
split   SPL   #0, <-TRAIL
throw   MOV   bomb, @aim
        ADD   #STEP, aim
        JMP   throw
aim     DAT   0, AIM            ; counted from this line
imp     MOV.I #leap/3, leap

        END
