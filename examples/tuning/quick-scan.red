;redcode-94
;name Open Look
;author this project
;strategy Looks at ten pairs of cells, bombs what it finds; the distances and the bombs are open.
;assert CORESIZE == 8000 && MAXLENGTH >= 38

; EVERY: from one pair of cells to the next. BEFORE: how far before what it found the bombs begin.
; BOMBS: how many. 15, 9 and 8 values make 1080 settings.
;@tune EVERY 480 760 20 700
;@tune BEFORE 4 20 2 12
;@tune BOMBS 10 45 5 25

looks   EQU   10
far     EQU   (2*MINDISTANCE)
half    EQU   (EVERY/2)

        ORG   scans

scans i FOR   looks
        SEQ   scans + far + EVERY*(looks+1-i), scans + far + EVERY*(looks+1-i) + half
        JMP   hit&i
        ROF
        JMP   gate              ; all alike: nothing is there

i       FOR   looks
hit&i   ADD   by, aim
        ROF
strike  MOV   bomb, >aim
        MOV   bomb, }aim
        DJN   strike, #BOMBS
gate    JMP   gate, <gate-3

aim     DAT   #scans + far + half - BEFORE, #scans + far - BEFORE
by      DAT   #EVERY, #EVERY
bomb    DAT   0, 0

        END
