;redcode-94
;name Eight Doors
;author this project
;strategy looks at eight places first, drops bombs where something is, then is a stone
;assert 1
gap     equ 731
        org     look
look    sne.i   1*gap, 1*gap+9
        seq.i   2*gap, 2*gap+9
        jmp     near, #gap
        sne.x   4*gap, 4*gap+13
        seq.x   6*gap, 6*gap+13
        jmp     far, #4*gap
        sne.i   8*gap, 8*gap+7
        seq.i   9*gap, 9*gap+7
        jmp     far, #8*gap
        jmp     stone, <-60
near    add.ab  #look, at
far     mov.b   -2, at
        add.ab  #far-look, at
        mov.i   bomb, >at
        add.ab  #5, at
        djn     -2, #8
stone   spl     #0, <-31
        mov.i   bomb, @at
        add.ab  #2667, at
        djn.f   -2, <-2003
at      dat     0, 900
bomb    dat     <5, <9
        end
