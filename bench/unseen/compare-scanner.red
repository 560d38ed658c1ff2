;redcode-94
;name Twin Lantern
;author this project
;strategy cmp.i scanner, spl carpet over hits, then dat core clear
;assert 1
step    equ 3364
gap     equ 12
        org     scan
scan    add.f   inc, cmpl
cmpl    cmp.i   step-gap, step
        slt.ab  #40, cmpl
cnt     djn.b   scan, #1600
        jmz.b   cc, cnt
        mov.b   cmpl, cur
        add.ab  #cmpl-cur-gap-2, cur
wipe    mov.i   spb, >cur
        djn.b   wipe, #gap+4
        mov.ab  #gap+4, -1
        jmp     scan, <-900
inc     dat     step, step
cur     dat     0, 20
spb     spl     #0, <-1
cc      spl     #0, <-20
        mov.i   dbm, >cur
        djn.f   -1, <-1200
dbm     dat     <-8, <2667
        end
