;redcode-94
;name Keel Haul
;author A. Soderberg
;strategy Scanner that doesn't wipe but drags a JMP to its pit
;strategy 0.5c
;assert CORESIZE==8000
rope equ 37
haul equ add.f cap, sea
     equ sne.i *sea, @sea
     equ djn.f -2, <-1500
cap equ hook+1 ; i.e. the cell after it
plank equ jmp pit-rope, {rope

org deck
deck haul
  mov hook, *sea
  mov hook, @sea
  jmn.b deck, deck
sea dat rope*2, rope*3
hook plank
  dat rope*2, rope*2
pit spl #, {-rope
  mov sea-3, <deck-5
  jmp pit, >deck-6

crew for (pit-deck)/2
  dat pit, crew
rof
barrel
end deck
