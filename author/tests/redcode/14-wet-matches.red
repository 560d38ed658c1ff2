;redcode-94
;name Wet Matches
;author Ian O.
;strategy quickscan -> one-shot clear
;strategy
;strategy "wet" because it fails to light about half of the time
;assert CORESIZE==8000 && MAXLENGTH==100 && MINDISTANCE==100

sp	equ	71
pa	equ	seq.i	first+n*sp*5,	first+n*sp*5+sp
	equ	mov.ab	#first+n*sp*5-found,	found
first	equ	(scan+300)

	org	scan
scan
n	for	6
	pa
	rof
	jmz.b	wide,	found
found	equ	pt
shoot	add.ab	#-5,	pt
wide	spl	#,	}pt
	mov.i	match,	>pt
	mov.i	match,	>pt
	djn.f	-2,	>pt
pt	dat	#,	0
match	dat	>-1,	30

for 0
	the old scan (slower, don't use):
n	for	6
	jmz.f	shoot+n,	first+n*sp
	rof
	n.b.: if you're reading this, "hello" from rainy Cork ^_^
rof
	end
