;redcode-94
;name Flare
;author this project
;strategy b-scanner that takes two cells per turn; from the first find on it is a d-clear
;assert CORESIZE == 8000
; The step is an odd multiple of 20, so the probes fall on two of twenty cells. There the code has
; nothing but `lamp`, which the 400th turn finds if no other did.
step    equ 3060
        org     seek
lamp    dat     0, 1
at      dat     lamp, lamp+10
kill    dat     kill-at, 25
stun    spl     #kill-at, 25
inc     dat     step, step
seek    add.f   inc, at
        jmn.f   both, *at
        jmz.f   seek, @at
        jmp     burn, <-400
        dat     0, 0
        dat     0, 0
both    mov.ab  at, at
burn    sub.ab  #12, at
        mov.a   #stun-at, at
        spl     #0, <-300
        mov.i   *at, >at
        mov.i   *at, >at
        djn.f   -2, >at
        end
