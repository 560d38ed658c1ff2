;redcode-94
;name Gravel and Ghosts
;author this project
;strategy booted perpetual mod-5 stone, three-point ring launched from a spl # stream
;assert 1
ist     equ 2667
step    equ 2365
away    equ 3517
        org     go
go      mov.i   bomb, *bp
        mov.i   sjmp, {bp
        mov.i   sadd, {bp
        mov.i   smov, {bp
        mov.i   sspl, {bp
        spl     *bp, <-1500
        mov.i   imp, imp+40
        spl     #1, <-2500
        add.a   #ist, ijmp
ijmp    jmp     imp+40-ist, <-2700
imp     mov.i   #1, ist
bp      dat     away, 0
sspl    spl     #step, #step
smov    mov.i   bomb, @sjmp
sadd    add.ab  sspl, sjmp
sjmp    jmp     smov, step+1
bomb    dat     <2667, <5334
        end
