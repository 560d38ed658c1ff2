;redcode-94
;name Bee Line
;author this project
;strategy looks for a B-number that is not zero, splits there, and wipes when it has come round
;assert 1
step    equ 12
        org     seek
seek    add.ab  #step, look
look    jmz.b   seek, 200
        slt.b   look, limit
        jmp     wipe, <-70
        mov.b   look, hit
        add.ab  #look-hit, hit
        mov.i   stun, @hit
        mov.i   jump, <hit
        jmn.b   seek, look
hit     dat     0, 0
limit   dat     0, -60
stun    spl     #0, 0
jump    jmp     -1, 0
wipe    spl     #0, <look
        mov.i   limit, >hit
        djn.b   wipe+1, >hit
        end
