;redcode-94
;name Tidewater
;author this project
;strategy a silk of six tasks: one copy forwards, one backwards, and two bombs on the way
;assert CORESIZE == 8000
dA      equ 4380
dB      equ 2819
        org     boot
boot    spl     1, <-333
        mov.i   -1, 0
        spl     1, <-777
silk    spl     @0, <dA
        mov.i   }silk, >silk
        mov.i   foam, }1257
        mov.i   {silk, <ebb
ebb     jmp     @0, >dB
foam    dat     <2667, <5334
        end
