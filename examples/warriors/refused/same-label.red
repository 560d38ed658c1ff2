;redcode-94
;name Twice the Same Label
;author this project
;strategy Is refused: two lines have the label `loop`. The later one is named.
;assert 1

; A joined name is a new label in each copy of a block: `loop&i` would be loop01, loop02, loop03.

i       FOR   3
loop    ADD   #i, 0
        ROF
        JMP   loop

        END
