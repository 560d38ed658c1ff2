;redcode-94
;name Quick Shears
;author this project
;strategy quickscan with a bombing run, then a sne scissors scan and clear
;assert 1
qd      equ 100
gap     equ 7
        org     q0
q0
k       for     10
        seq.i   q0+400+k*700, q0+400+k*700+qd
        mov.ab  #q0+400+k*700-qp, qp
        rof
        jmz.b   scz, qp
        seq.i   @qp, *qz
        jmp     qatk, <-200
        add.ab  #qd, qp
qatk    add.ab  #-30, qp
qlp     mov.i   qb, @qp
        add.ab  #4, qp
        djn.b   qlp, #18
        jmp     scz, <-350
qp      dat     0, 0
qz      dat     3, 0
qb      dat     <4, <8
        for     8
        dat     0, 0
        rof
scz     add.f   sin, sct
sct     sne.i   60+gap, 60
        djn.b   scz, scn
        jmz.b   sclr, scn
        mov.i   sbm, *sct
        mov.i   sbm, @sct
        mov.b   sct, sg
        add.ab  #sct-sg-3, sg
        mov.i   sbm, >sg
        mov.i   sbm, >sg
        mov.i   sbm, >sg
        mov.i   sbm, >sg
        djn.b   scz, scn
sclr    spl     #0, <-15
        mov.i   cbm, >cg
        djn.f   -1, >cg
sg      dat     0, 0
sin     dat     2*gap, 2*gap
scn     dat     0, 555
cg      dat     0, 20
sbm     spl     #0, 0
cbm     dat     <2667, <-12
        end
