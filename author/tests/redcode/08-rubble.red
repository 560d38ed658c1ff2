;redcode-94
;name Rubble
;author Anders (the other one)
;strategy dat bomber w. incendiary carpet, 1994 vintage
;assert CORESIZE==8000 || CORESIZE==8192

dist    EQU 2365
incen   EQU mov  dist, <-dist
hose    EQU spl  0,    <-dist-5

Rocks   mov  sp, <dest
        mov  mv, @dest
        sub  #dist, dest
        djn  Rocks, <2880
        jmp  Finish
dest    dat  #0, #dist*2

mv      incen
sp      hose

for 0
----- the end game (v 2.2: it wasn't here in v 2.1, silly me) -----
If we survive 1500 passes or so then the "incendiaries" have either hit
something or there's nothing to hit: 100% pure luck @ this point.
rof

Finish  spl  0,  <-12
        mov  2,  <-2
        jmp  -1
        dat  <-13
        END  Rocks
