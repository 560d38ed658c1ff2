;redcode-94
;name PinPrick
;author Saskia
;strategy smallest scanner i could get; uses  jmz @  as look + hit
;assert (q=CORESIZE)==8000&&q%4==0

d equ 4
hit equ }1
miss equ <3, 1
x
y
z add #d, look
look jmz.f z, d
  mov.i zap, @look
  slt.ab #30, look
  jmp go, hit
  jmp miss
go spl #, {9
  mov zap, >x-2
  jmp -1, {8
zap dat #d, 11

  for z-x+CORESIZE/4000
  dat >1
  rof
end x
