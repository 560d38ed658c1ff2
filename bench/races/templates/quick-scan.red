;redcode-94
;name Open Turnstile
;author this project
;strategy Looks at 24 pairs of cells in its first 36 cycles and bombs what it finds; then carries
;strategy a stunning bomber away, which clears in the end. Looks, volley and bomber are open.
;assert CORESIZE == 8000 && MAXLENGTH >= 84

; EVERY: from one look to the next. The last look ends before 200+12*600+300+100, and the core goes
; on for more than MINDISTANCE cells after that.
; GAP: between the two cells of a pair.
; AWAY: where the bomber goes, counted from its text.
; STEP: an odd multiple of 10, as the bomber's code leaves two of ten cells free for its bombs.
; AIM: where the first bomb goes, counted from there. COUNT: how many pairs; 800 are all.
; 39*49*60*150*79*36 are 48913956000 settings.
;@tune EVERY 410 600 5 580
;@tune GAP 4 100 2 12
;@tune AWAY 1000 6900 100 3500
;@tune STEP 1010 3990 20 3310
;@tune AIM 100 7900 100 1500
;@tune COUNT 100 800 20 700

far     EQU     200
half    EQU     (EVERY/2)
back    EQU     8                       ; how far before the cell that it found the volley begins

        ORG     scan

; Three looks are a row. Of each row the first look lowers the pointer `pick`, and the third raises
; it: so `pick` and the entry of a row tell where the look was, and no look has a number of its own.

scan
i       FOR     4
        SNE.I   scan+far+(EVERY*(3*i-2)), scan+far+(EVERY*(3*i-2))+GAP
        SEQ.I   scan+far+(EVERY*(3*i-2))+half, scan+far+(EVERY*(3*i-2))+half+GAP
        JMP     row&i, {pick
        SNE.I   scan+far+(EVERY*(3*i-1)), scan+far+(EVERY*(3*i-1))+GAP
        SEQ.I   scan+far+(EVERY*(3*i-1))+half, scan+far+(EVERY*(3*i-1))+half+GAP
        JMP     row&i, 0
        SNE.I   scan+far+(EVERY*(3*i)), scan+far+(EVERY*(3*i))+GAP
        SEQ.I   scan+far+(EVERY*(3*i))+half, scan+far+(EVERY*(3*i))+half+GAP
        JMP     row&i, }pick
        ROF
        JMP     boot, <-400             ; all alike: nothing is there

row04   ADD.F   three, found
row03   ADD.F   three, found
row02   ADD.F   three, found
row01   ADD.F   *pick, found
        SNE.I   *found, @found          ; the first pair of the look, or
        ADD.F   second, found           ; the second
        SUB.F   lead, found
shoot   MOV.I   shot, >found
        MOV.I   shot, }found
        DJN.B   shoot, #20

boot i  FOR     13
        MOV.I   {from, <to              ; from the last cell of the bomber to its first
        ROF
        JMP     hail+AWAY, <-400
from    DAT     last, 0
to      DAT     0, last+AWAY

found   DAT     scan+far+GAP, scan+far
one     DAT     EVERY, EVERY
two     DAT     2*EVERY, 2*EVERY
three   DAT     3*EVERY, 3*EVERY
pick    DAT     two, 0
second  DAT     half, half
lead    DAT     back, back
shot    DAT     <7, <11

hail    MOV.I   stun, >aim
        MOV.I   hold, @aim
        ADD.AB  #STEP-1, aim
        DJN.B   hail, #COUNT
        SPL     #0, <hail-9
        MOV.I   dust, >hail-5           ; the gate is empty: the first wipe goes onto it, and
        DJN.F   -1, >hail-5             ; from then on it aims behind the code
dust    DAT     <2667, 20
        DAT     0, 0                    ; these two cells are hit when AIM has come round
        DAT     0, 0
stun    SPL     #0, <-5
hold    JMP     -1, <-7
aim     DAT     0, hail+8+AIM
last
        END
