;redcode-94
;name Origami Ring
;author this project
;strategy a parallel paper of eight tasks, of which every copy streams a three-point ring
;assert 1
dA      equ 3205
dB      equ 4611
ist     equ 2667
        org     go
go      spl     1, {-500
        spl     1, {-700
        spl     1, {-900
pap     spl     @0, >dA
        mov.i   }pap, >pap
pap2    spl     @0, >dB
        mov.i   }pap2, >pap2
        spl     #0, <-1333
        add.a   #ist, lau
lau     jmp     imp-ist*9, <-1336
imp     mov.i   #dA, ist
        end
