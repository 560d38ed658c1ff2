;redcode-94
;name Long Teeth
;author this project
;strategy throws jumps to a pit that splits and clears, then clears itself
;assert 1
step    equ 2365
        org     bite
fang    jmp     pit-aim, step
bite    mov.i   fang, @fang
        add.f   move, fang
        jmz.f   bite, *fang
        mov.ba  fang, wide
        djn     bite, #900
        jmp     end1, {wide
move    dat     -step, step
wide    dat     0, 0
aim     equ     0
pit     mov.i   kill, <-30
        spl     -1, >wide
        add.x   kill, pit
        jmp     pit, }-40
kill    dat     3, 7
end1    spl     #0, {-20
        mov.i   kill, >wide
        djn.x   -1, >-900
        end
