;redcode-94
;name Badger Pit
;author this project
;strategy dwarf that lays jmp traps into a spl pit, then clears
;assert 1
step    equ 3020
        org     lp
pit     spl     0, <-700
        mov.i   kil, <kp
        jmp     pit, <-900
kil     dat     <1, <-1
kp      dat     0, -60
trap    jmp     pit-step-10, step+10
lp      mov.i   trap, @trap
        add.f   dl, trap
        djn.b   lp, #395
        spl     #0, <-120
        mov.i   kil, >cg
        djn.f   -1, >cg
dl      dat     -step, step
cg      dat     0, 30
        end
