;redcode-94
;name Quarry Stream
;author this project
;strategy spl/dat bomber with a djn stream; its last bomb breaks the loop and opens a clear
;assert CORESIZE == 8000
; Every cell counts modulo 8: the spl bombs go where `stream` is, the dat bombs where `grit` is.
step    equ 3032
away    equ 4417
        org     boot
boot i  for     10
        mov.i   {from, <to
        rof
        spl     *to, <-211
        mov.i   boot-5, from
        mov.i   boot-5, to
from    dat     last, 0
to      dat     lp+away, lp+away+10
lp      mov.i   rock, @aim
        mov.i   grit, *aim
        add.f   inc, aim
stream  djn.f   lp, <-190
rock    spl     #0, <-20
        mov.i   grit, >lp-6
        djn.f   -1, >lp-6
grit    dat     <-16, 20
aim     dat     grit+step, stream+step
inc     dat     step, step
last
        end
