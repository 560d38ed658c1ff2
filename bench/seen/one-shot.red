;redcode-94
;name Single Match
;author this project
;strategy scans by equal differences and clears from the first find on
;assert 1
step    equ 3044
        org     scan
at      dat     step, step+6
more    sub.f   by, at
scan    seq.x   *at, @at
        jmp     found, <-77
        sne.i   -step/2, step/2
        djn.a   more, #1500
by      dat     -step, -step
found   mul.a   #1, at
        slt.ab  #24, at
        jmp     more, }-9
clear   spl     #0, }at
        mov.i   shade, >at
        djn.f   clear+1, }by
shade   dat     <-6, 14
        end
