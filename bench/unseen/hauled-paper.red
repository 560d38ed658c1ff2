;redcode-94
;name Carbon Copy
;author this project
;strategy a paper that splits before it copies and poisons what it passes
;assert 1
        org     start
start   spl     1, <-200
        mov.i   -1, 0
        spl     1, 0
one     spl     @0, <1802
        mov.i   }-1, >-1
        spl     @0, >3677
        mov.i   }-1, >-1
        mov.x   poison, }-1740
        mov.i   poison, <2411
        mov.i   {one+2, <two
two     jmp     @0, >-619
poison  dat     <2667, <5334
        end
