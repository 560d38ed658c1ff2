;redcode-94
;name Open Toll House
;author this project
;strategy Carries itself away, throws jumps to the pit that it left behind, then clears the core.
;strategy The step, the first fang, how many, where it goes, a decoy and the gate are open.
;assert CORESIZE == 8000 && MAXLENGTH >= 28 && MAXPROCESSES >= 64

; STEP: a multiple of 5. All fangs go to cells that are a multiple of 5 away from `fang`: there the
; code has nothing that it needs, and the pit has no cell at all.
; FIRST: the first fang, counted from `fang`. FANGS: how many; 1600 are one round of the core.
; AWAY: where the vampire goes, counted from its text. DECOY: where a cell is left for scanners,
; counted from there too. GATE: how far before the vampire the gate of its clear is.
; 200*77*37*60*30*6 are 6153840000 settings.
;@tune STEP 1005 2995 10 1915
;@tune FIRST 105 7705 100 2105
;@tune FANGS 150 1590 40 790
;@tune AWAY 1000 6900 100 4000
;@tune DECOY 600 7560 240 6120
;@tune GATE 7 32 5 12

        ORG     go

move    DAT     -STEP, STEP
fang    JMP     (trap-fang)-AWAY-FIRST, FIRST
throw   MOV.I   fang, @fang
        ADD.F   move, fang
        DJN.B   throw, #FANGS
        JMP     clear, <-300            ; over a cell that fangs may hit
        DAT     0, 0
clear   SPL     #0, <fang-GATE-4
        MOV.I   dust, >fang-GATE        ; the gate is empty: the first wipe goes onto it, and
        DJN.F   -1, >fang-GATE          ; from then on it aims behind the code
dust    DAT     <2667, GATE+12
        DAT     0, 0                    ; fangs may hit this one too

trap    SPL     #0, >-400               ; whoever comes here splits, and each of them splits again
        SPL     -1, >-401
        JMP     -2, >-402

go      MOV.I   trap, fang+DECOY
i       FOR     11
        MOV.I   move+i-1, move+AWAY+i-1
        ROF
        JMP     throw+AWAY, <-300

        END
