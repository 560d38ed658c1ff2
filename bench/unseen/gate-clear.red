;redcode-94
;name Toll Bridge
;author this project
;strategy imp gate with a three-pass (spl, dat, dat) core clear
;assert 1
        org     go
gate    dat     b1-gate, 200
b3      dat     b3-gate, 22
b2      dat     b3-gate, 22
b1      spl     #b2-gate, 22
        for     6
        dat     0, 0
        rof
go      spl     #0, <gate-1
        spl     #0, <gate-1
lp      mov.i   *gate, >gate
        mov.i   *gate, >gate
        djn.f   lp, >gate
        end
