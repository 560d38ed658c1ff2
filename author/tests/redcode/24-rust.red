;redcode-94
;name Rust never sleeps
;author Neil (no, not that one)
;strategy core clear in three phases: spl, spl/dat, dat
;assert CORESIZE==8000

ptr equ (c1-11)
phase equ spl #r3-c1+11, 30

org c0

c0 mov.i  r0,    ptr
   mov.i  r2,    ptr-2
c1 spl    #,     >ptr
   mov.i  *ptr,  >ptr
   djn.f  c1+1,  >ptr
   dat    #4
   dat    #,     #5
phase_b equ 14
r0 dat    r1-c1+11, 30
r1 spl    #r2-c1+11, 30
r2 phase
r3 dat    2667,  phase_b*2+2
   end c0

; name of the game is speed, so no boot
; version 0.2: swapped r1 & r2
; date it yourself...
; "Out of the blue and into the black..." must be a core clear, then
; changes after 0.2: swapped r1 & r2
