;redcode-94
;name Broom
;author this project
;strategy Overwrites the core, from its end upwards, with ever more tasks, until it meets itself.
;assert CORESIZE >= 1000 && MAXLENGTH >= 10

; What to learn here: operators in expressions, and END with a start.

far     EQU   CORESIZE/3

aim     DAT   #0, #behind + 2           ; the next cell to be written: two cells behind the code
sweep   SPL   #0, >aim                  ; more and more tasks run the two lines below
wipe    MOV   bomb, >aim                ; writes a bomb and goes on
        DJN.F wipe, >aim                ; lowers the numbers of the next cell; jumps until both were 1
bomb    DAT   <far + (far % 2 == 0), <-far/2    ; 2666 is even, and true is 1: <2667, <-1333
behind  DAT   0, 0

        END   sweep                     ; the start, as with ORG; if both are there, ORG counts
