;redcode-94
;name Quick Look
;author this project
;strategy Looks at ten pairs of cells in its first ten cycles, bombs what it finds, waits at a gate.
;assert CORESIZE == 8000 && MAXLENGTH >= 38

; What to learn here: two tables by FOR that belong together through joined names, and CURLINE.

looks   EQU   10
far     EQU   (2*MINDISTANCE)                   ; MINDISTANCE: no opponent is nearer than that
every   EQU   700
half    EQU   (every/2)
before  EQU   12                                ; the bombs begin this far before what was found

; Each look compares two cells, `half` apart. If they are alike, SEQ skips the jump.
; `scans` is a label, so `scans + 900` is the same place of the core in every line.

        ORG   scans

scans i FOR   looks
        SEQ   scans + far + every*(looks+1-i), scans + far + every*(looks+1-i) + half
        JMP   hit&i
        ROF
        JMP   gate                              ; all alike: nothing is there

; A jump to hit03 runs through hit03, hit04, .. hit10, so the aim goes on by `every` eight times,
; which is looks+1-3.

i       FOR   looks
hit&i   ADD   by, aim
        ROF
strike  MOV   bomb, >aim                        ; bombs upwards from one cell,
        MOV   bomb, }aim                        ; and from the other
        DJN   strike, #25                       ; 25 times: the number that DJN lowers is its own
gate    JMP   gate, <gate-3

aim     DAT   #scans + far + half - before, #scans + far - before
by      DAT   #every, #every
bomb    DAT   CURLINE, 0                        ; CURLINE: the number of instructions before this

        END
