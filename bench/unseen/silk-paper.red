;redcode-94
;name Silk Ledger
;author this project
;strategy a silk of 8 tasks with a two-way copy, a bombing line and a reverse copy
;assert 1
dA      equ 1278
dB      equ 3039
dC      equ 5364
        org     boot
boot    spl     1, <-420
        spl     1, <-613
        spl     1, <-871
silk    spl     @0, <dA
        mov.i   }-1, >-1
silk2   spl     @0, {dB
        mov.i   }-1, >-1
        mov.i   bomb, }925
        mov.i   {silk2, <silk3
silk3   jmp     @0, >dC
bomb    dat     <2667, <1
        end
