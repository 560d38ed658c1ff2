;redcode-94
;name Open Millrace
;author this project
;strategy Carries a stone away, leaves its text as a decoy, and launches a spiral of eight imps.
;strategy Where stone and imps go, the stone's step and two aims, and its trail are open.
;assert CORESIZE == 8000 && MAXLENGTH >= 36 && MAXPROCESSES >= 64

; STEP: an odd multiple of 8, as the stone has seven cells and a free one.
; AIM: where the first bomb goes, a multiple of 8 counted from the bomb: no such cell but the bomb
; is the stone's. OTHER: where the second one goes; 2 more than a multiple of 8, the free cell.
; AWAY: where the stone ends, counted from the last line. PLACE: where the imps begin, likewise.
; TRAIL: how far below the stone the decrements begin that run down the core.
; 188*49*49*59*59*46 are 72278954888 settings.
;@tune STEP 1000 3992 16 3032
;@tune AIM 80 7760 160 2480
;@tune OTHER 82 7762 160 6482
;@tune AWAY 1000 6800 100 4000
;@tune PLACE 1050 6850 100 2050
;@tune TRAIL 50 1850 40 290

leap    EQU     2667                    ; three leaps are the core and one cell

        ORG     go

go      MOV.I   imp, imp+PLACE
        FOR     7
        MOV.I   {from, <to              ; from the last cell of the stone to its first
        ROF
        SPL     @to, <-300              ; one task for the stone
        MOV.I   gone, to

; A tree of seven splits, each of them three tasks deep: the imps begin in the order of the leaves.
        SPL     right
        SPL     leftr
        SPL     leaf1
        JMP     imp+PLACE
leaf1   JMP     imp+PLACE+leap
leftr   SPL     leaf3
        JMP     imp+PLACE+(2*leap)
leaf3   JMP     imp+PLACE+(3*leap)
right   SPL     rightr
        SPL     leaf5
        JMP     imp+PLACE+(4*leap)
leaf5   JMP     imp+PLACE+(5*leap)
rightr  SPL     leaf7
        JMP     imp+PLACE+(6*leap)
leaf7   JMP     imp+PLACE+(7*leap)

gone    DAT     1, 1                    ; nothing points at the stone any more
from    DAT     last, 0
to      DAT     0, imp+AWAY

stone   SPL     #0, <-9                 ; a gate for imps that come from below
throw   MOV.I   bomb, @bomb             ; the bomb has both aims, and takes them along
        MOV.I   bomb, *bomb
        ADD.F   by, bomb
        DJN.F   throw, <-TRAIL
bomb    DAT     <OTHER, <AIM
by      DAT     STEP, STEP
last
imp     MOV.I   #1, leap

        END
