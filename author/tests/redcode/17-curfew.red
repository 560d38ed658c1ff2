From: abrandt@example.edu (A. Brandt)
To: koth
Subject: curfew (isn't it late?)

;redcode
;name Curfew
;author A. Brandt
;strategy '88 style: stone with "mov <-1" trick, runs under 94 rules too
;assert CORESIZE == 8000 && MAXCYCLES > 1

inc     equ     -190
trick   equ     mov     <half , tgt
tgt     equ     inc*20
half    equ     (CORESIZE/2)

start   spl     0,      <half+3
loop    trick
        add     #inc,   loop
        djn     loop,   <half-41
        mov     wire,   <start-5
        jmp     -1

wire    dat     <inc,   <-inc

guard   for     CURLINE+inc+200
shield  dat     #0,     #0
        rof

        end     start

Changes:
  - 1.1: inc was 190, should've been -190. Doh.
