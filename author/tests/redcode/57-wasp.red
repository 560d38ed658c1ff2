;redcode-94
;name Wasp
;author T.Nakagawa
;strategy qscan/1-shot, hits w/ three kinds of bombs
;strategy
;strategy v7 - v8 lost on my pc :(
;assert CORESIZE==8000

buzz	equ	311
sting01	equ	spl	#,	}-1
sting02	equ	mov.i	@0,	{0
sting03	equ	dat	<2,	<3
where	equ	nest+buzz*n
try	equ	seq.i	where,	where+buzz/2
	equ	mov.ab	#where-tgt,	tgt

	org	nest
nest
n	for	7
	try
	rof
	jmz.b	swarm,	tgt
k	for	3
	mov.i	s&k,	>tgt
	rof
tgt	nop	0,	0
swarm	spl	#,	<-5
	mov.i	s03,	>tgt
	djn.f	-1,	>tgt-1
k	for	3
s&k	sting&k
	rof
	end

for 0
Don't kill this wasp: it's "protected" ;-)
rof
