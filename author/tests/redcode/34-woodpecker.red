;redcode-94
;name Woodpecker
;author Ana Lucia
;strategy scanner w/ 2 comparisons per add; wipes with mov.i #/} tricks
;strategy
;kill Woodpecker
;assert CORESIZE==8000 && MAXPROCESSES>=200

peck	EQU	seq.i	*beak,	@beak
	EQU	jmp	tree,	<-700
trunk	EQU	(CORESIZE/2-MAXLENGTH)
beakstep EQU	trunk/19

	ORG	fly
nest
egg
fly	add.f	wing,	beak
	peck
	sub.x	#-13,	beak
	peck
	djn.b	fly,	#CORESIZE/4
	jmp	done
wing	dat	beakstep,	beakstep
beak	dat	trunk,	13

tree	mov.ab	#-5,	len
bore	mov.i	sap,	}beak
len	jmn.b	bore,	#0
	jmp	fly,	>beak
sap	spl	#,	1
done	spl	#,	<nest-3
	mov	4,	>nest-2
	djn.f	-1,	>nest-2

FOR 0
  "knock, knock" -- 'who''s there?' -- <the process count, I'm afraid>
ROF
	dat	<5334,	#19
	END	fly
