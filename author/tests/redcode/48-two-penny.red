;redcode-94
;name Two Penny Imp
;author K.
;assert CORESIZE==8000
;strategy two imps, one penny each

pen equ 1
penny equ mov.i #1, pen
toss equ spl head, }900

go toss
tail penny
p for 2*(CORESIZE==8000)
  nop p, <go-900*p
rof
head penny

for 0
Yes, it's that short. "Brevity is..."
rof
end go
it works
