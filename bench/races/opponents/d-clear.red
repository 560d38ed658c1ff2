;redcode-94
;name Dredger
;author this project
;strategy carries a d-clear away from its own text, which stays as a decoy; spl, dat, dat
;assert CORESIZE == 8000
away    equ 3190
        org     boot
gate    dat     mud1-gate, 40
mud3    dat     mud3-gate, 20
mud2    dat     mud3-gate, 20
mud1    spl     #mud2-gate, 20
        for     3
        dat     0, 0
        rof
clear   spl     #0, >gate
dig     mov.i   *gate, >gate
        mov.i   *gate, >gate
        djn.f   dig, <gate-200
boot    mov.i   gate, gate+away
        mov.i   mud1, mud1+away
        mov.i   mud2, mud2+away
        mov.i   mud3, mud3+away
i       for     4
        mov.i   clear+i-1, clear+away+i-1
        rof
        jmp     clear+away, <-250
        end
