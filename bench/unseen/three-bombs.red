;redcode-94
;name Whirl Of Three
;author this project
;strategy 0.6c bomber: jmp, spl and an indirect third bomb per loop; counted, then clear
;assert 1
hop     equ 270
step    equ 3*hop
        org     lp
jb      jmp     hop, <-1
sb      spl     #0, hop
inc     dat     step, step
lp      mov.i   jb, *ptr
        mov.i   sb, @ptr
ptr     mov.i   814-hop, @814
        add.f   inc, ptr
        djn.b   lp, #264
        jmp     clr, <-300
        dat     0, 0
cp      dat     20, 30
clr     spl     #0, <cp-30
        mov.i   cb, >cp
        djn.f   -1, >cp
cb      dat     <2667, <-10
        end
