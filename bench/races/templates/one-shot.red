;redcode-94
;name Open Match
;author this project
;strategy Compares cells in pairs, and clears the core from the first pair on that differs.
;strategy The step, the pair, the first look, where the clear begins, and a trail are open.
;assert CORESIZE == 8000 && MAXLENGTH >= 12

; STEP: from one pair to the next. GAP: between the two cells of a pair. FIRST: the first pair.
; LEAD: how far before the second cell of the pair the clear begins. TRAIL: how far below the
; scanner each look lowers a cell.
; 751*37*79*21*50 are 2304931650 settings.
;@tune STEP 1000 4000 4 3044
;@tune GAP 3 39 1 6
;@tune FIRST 100 7900 100 3000
;@tune LEAD 0 60 3 15
;@tune TRAIL 20 1980 40 100

        ORG   scan

at      DAT   FIRST, FIRST+GAP  ; both counted from here
by      DAT   STEP, STEP
more    ADD.F by, at
scan    SNE.I *at, @at
        JMP   more, <-TRAIL
        SLT   #last-at+GAP, at  ; the scanner itself is no find
        JMP   more, <-TRAIL
        SUB   #LEAD, at
        SPL   #0, }at
        MOV   dust, >at
        DJN.F -1, }by
dust    DAT   <2667, last-at+2
last
        END
