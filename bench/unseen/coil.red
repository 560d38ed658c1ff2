;redcode-94
;name Slow Coil
;author this project
;strategy launches a spiral of imps through a chain of jumps and counts down behind it
;assert 1
leap    equ 2667
        org     start
start   spl     fall, <-55
        spl     1, {700
        spl     1, <701
        spl     turn, 0
        jmp     imp+leap*0, 0
turn    add.a   #leap, -1
        djn.b   -2, #6
fall    mov.i   imp, imp-200
        spl     #0, }-300
        sub.ba  #3, -2
        djn.x   fall+1, {-701
imp     mov.i   #leap/3, leap
        end
