;redcode-94
;name Kindling
;author Per-Olof K.
;strategy paper with an anti-imp bomb in it
;assert CORESIZE==8000
;kill Kindling

p1 equ 4201
p2 equ 1907
copy equ v for 3
     equ mov.i }pp, >pp
     equ rof
jump equ jmp @0, >p2

f
g   spl 1, >p2
h   spl 1, >p1
    mov.i -1, 0
pp  spl @0, <p1
    copy
    mov.i #1, {1
    mov.i ai, }-p1
    jump
ai  dat.f <2667, <5334

n   for CORESIZE/800
k&n nop k&n, <h+n
    rof

    end f
