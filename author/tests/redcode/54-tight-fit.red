;redcode-94
;name Tight Fit
;author G. Moreau
;strategy fills all of the 100 lines, to the last one
;strategy body = clear; skirt = decoys by the formula on the blackboard
;assert CORESIZE==8000 && MAXLENGTH==100

body	equ	#BODY-2
skirt	equ	dat	(s*s+s)%37,	s*MINDISTANCE
hem	equ	nop	>s,	}CORESIZE/s

	org	BODY
	dat	0,	0
BODY	spl	#,	<-2
	mov.i	FIN,	>BODY-1
	mov.i	FIN,	>BODY-1
	jmp	-2,	{0
FIN	dat	<2667,	body
s	for	(MAXLENGTH-CURLINE)/2
	skirt
	hem
	rof
	for	MAXLENGTH-CURLINE
	dat	MAXPROCESSES
	rof
	end

for 0
Too late, this isn't even parsed: it's after END!
rof
