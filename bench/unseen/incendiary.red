;redcode-94
;name Tinder Roof
;author this project
;strategy mov fire and spl pairs laid backwards, finishing in a djn clear
;assert 1
step    equ 3220
        org     lp
gt      dat     0, 60
fire    mov.i   -1, <-1
spk     spl     0, <1
lp      mov.i   spk, @hit
        mov.i   fire, *hit
        sub.f   dlt, hit
        djn.b   lp, cnt
        spl     0, <gt-9
        mov.i   cbm, >gt
        djn.f   -1, <gt-40
dlt     dat     step, step
cnt     dat     0, 390
hit     dat     -step+6, -step+5
cbm     dat     <-16, <-17
        end
