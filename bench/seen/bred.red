;redcode-94
;name Seventh Litter
;author this project
;strategy a loop as a program for breeding warriors might leave it: no instruction is as taught
;assert 1
        org     first
        dat.x   <231, #-14
first   spl.ab  >3, {812
        mov.i   <-7, }1944
        spl.x   $-1, <533
        mov.x   {-3, <2791
        sub.ba  }4, >-1207
        djn.ba  <-4, {317
        mov.i   }-5, >-389
        slt.f   <2, {-61
        jmn.a   >-7, <1450
        djn.i   *-3, <-2211
        add.x   }1, @-6
        nop.b   <-90, }77
        jmp.a   $-10, <-355
        end
