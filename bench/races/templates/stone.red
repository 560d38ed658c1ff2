;redcode-94
;name Open Quarry
;author this project
;strategy Carries a bomber with ever more tasks away from its text, which stays as a decoy.
;strategy Its place, step, first aim, trail and gate are open.
;assert CORESIZE == 8000 && MAXLENGTH >= 15

; STEP: an odd multiple of 5. FIRST: the first bomb, counted from `aim`: a multiple of 5, so that no
; bomb hits the code but `bomb` and `aim`, which go on with what it writes there.
; AWAY: where the bomber goes, counted from its text. TRAIL: how far below it the decrements begin
; that run down the core. GATE: how far below it imps are hit.
; 300*313*60*46*8 are 2073312000 settings.
;@tune STEP 1005 3995 10 3045
;@tune FIRST 100 7900 25 3000
;@tune AWAY 1000 6900 100 4000
;@tune TRAIL 50 1850 40 290
;@tune GATE 4 18 2 8

        ORG   go

go i    FOR   6
        MOV   {from, <to        ; from the last cell of the bomber to its first
        ROF
        JMP   split+AWAY, <-400
from    DAT   last, 0
to      DAT   0, last+AWAY

bomb    DAT   >1, 0
split   SPL   #0, <-GATE        ; one more task in each round
throw   MOV   bomb, @aim
        ADD   #STEP, aim
        DJN.F throw, <-TRAIL
aim     DAT   0, FIRST
last
        END
