;redcode-94
;name Garden Shears
;author this project
;strategy compares cells in pairs, stuns what differs with spl and jmp, and clears in the end
;assert CORESIZE == 8000
; The probes fall on two of twenty cells, the one before `blade` and the one after `stun`.
gap     equ 16
step    equ 5620
        org     open
blade   dat     0, 0
by      dat     step, step
open    add.f   by, pair
pair    sne.i   blade-1+step, blade-1+step+gap
more    djn.b   open, #400
        mov.f   pair, blade
        mov.i   stun, >blade
        mov.i   hold, >blade
        mov.i   stun, }blade
        mov.i   hold, }blade
        jmn.b   open, more
        spl     #0, <blade-20
        mov.i   rust, >blade-3
        djn.f   -1, >blade-3
stun    spl     #0, 0
        dat     0, 0
hold    jmp     -1, 0
rust    dat     <2667, 25
        end
