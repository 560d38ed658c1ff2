;redcode-94
;name Ninth Litter
;author this project
;strategy another loop as breeding might leave it, which copies itself now and then
;assert 1
        org     grow
grow    spl.i   #417, >-211
        mov.i   }-1, >1289
        spl.f   $-2, }-60
        mov.f   <9, {-2417
        mov.i   }-4, {2083
        seq.ba  >-6, <71
        jmz.x   *-3, <-14
        mov.ab  >-8, <3001
        djn.ab  $-8, {-7
        sne.f   }-9, <1203
        jmp.x   >-7, }-5
        dat.a   #13, <-4
        end
