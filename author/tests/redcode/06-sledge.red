;redcode-94
;name sledge
;author ___dm___
;strategy oneshot: scan till something shows, then clear d-clear style
;assert 1

S equ 14
F equ (2*S+5)
bomb1 equ dat 1, 15
bomb2 equ spl #1, 15
looks equ sne.i F+4000*0, F+7
      equ add.f step, looksat
      equ jmz.f looksat, <-50

org looksat

step dat S,S
looksat sne.i F,F+7
        add.f step,looksat
        jmz.f -2,@looksat
        sub.ab #3,looksat
        mov looksat,gate
        spl #,<-9
        mov *slow,>gate
        djn.f -1,>gate
slow    spl bm,0
gate    dat 0,0
bm      bomb2
        bomb1
        end
looks: unused so far, might use it when unrolling
