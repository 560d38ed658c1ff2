;redcode-94
;name Cinderblock
;author m. pawlak
;strategy big static decoy wall, stone boots out, decoys get the bullets
;assert CORESIZE==8000&&MAXLENGTH==100

move	equ	mov.i	{stone,	<tgt
brick	equ	dat	i*j+1,	<i-j
row	equ	wall&i

	org	go
go	move
	move
	move
	move
	jmp	@tgt,	>tgt
tgt	dat	#,	#4321
stone	dat	sd,	0
	spl	#,	<-3
	mov.i	{2117,	-2116
	add.f	sd,	-1
	djn.f	-2,	<-2119
sd	dat	2117,	-2117

for 0
========================================================================
 wall: 6 rows of 9 bricks, then it's filled up.  Don't put a 'jmp' here!
 (fixed: row 7 wasn't there because of the limit; "100 lines" - label)
========================================================================
rof

wall
i	for	6
row
j	for	9
	brick
	rof
	rof
	for	MAXLENGTH-CURLINE
	dat	wall01,	wall06+CURLINE*3
	rof
	end
