;redcode-94
;name Hailcaster
;author this project
;strategy self-splitting spl/dat bomber, then every task is turned into a gate clear
;assert 1
step    equ 3020
        org     go
gate    dat     -50, 60
go      spl     #0, <gate-12
lp      mov.i   sbm, @ptr
        mov.i   dbm, *ptr
        sub.f   inc, ptr
        djn.b   lp, #380
        mov.i   jl, lp
jc      spl     #0, <gate-8
        mov.i   clr, >gate
        djn.f   -1, >gate
ptr     dat     -step+7, -step+6
inc     dat     step, step
sbm     spl     #0, <-step
dbm     dat     >-1, >1
clr     dat     <2667, 20
jl      jmp     jc-lp, <-40
        end
