;redcode-94
;name Half Life
;author Gregor Wietzorek
;strategy paper/clear hybrid
;strategy 1st body copies, 2nd body bombs, 3rd body hopes
;assert CORESIZE==8000 && MAXPROCESSES>1000

; -- optimized constants ------
c01 equ 3620
c02 equ 1270
c03 equ -2411
; -----------------------------
hop equ c&n
run equ spl @0, <hop

	org	s
s	spl	2
	spl	2
	spl	1
n	for	3
b&n	run
	mov.i	}b&n,	>b&n
	rof
	mov	dbm,	<200
	mov	{b03,	<1
	djn	@0,	#c01
dbm	dat	<c02,	<c03

for 0
TODO: try "mov {b02, {b03"; it's 3 cycles faster, but there's a hole @ +7
rof
