;redcode-94
;name Moved House
;author this project
;strategy copies a stone to a far place and leaves a false one behind
;assert 1
far     equ 4021
step    equ 1143
        org     boot
boot    mov.i   {from, <from
        mov.i   {from, <from
        mov.i   {from, <from
        mov.i   {from, <from
        mov.i   {from, <from
        spl     @from, <-90
        sub.x   from, from
        div.f   #2, -30
        mov.i   trash, }-500
        djn     -1, #60
trash   dat     0, 0
from    dat     last+1, far
stone   mov.i   4, 1
        mov.i   {step, <3-step
        add.f   2, -2
        djn.f   -2, <-40
last    dat     step, -step
        end
