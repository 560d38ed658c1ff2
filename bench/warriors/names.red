;redcode-94
;name Names
;author this project
;strategy A hundred lines, each with names that stand for names.
;assert 1

e00     EQU   10
e01     EQU   17
e02     EQU   51
e03     EQU   14
e04     EQU   25
e05     EQU   47
e06     EQU   (e04 - e05)
e07     EQU   (e04 - e00)
e08     EQU   (e07 - e03)
e09     EQU   (e03 - e07)
e10     EQU   (e09 - e04)
e11     EQU   (e04 + e03)
e12     EQU   (e10 - e06)
e13     EQU   (e05 + e09)
e14     EQU   (e10 + e12)
e15     EQU   (e07 + e11)
e16     EQU   (e11 - e08)
e17     EQU   (e13 * e11)
e18     EQU   (e10 - e14)
e19     EQU   (e18 + e13)
e20     EQU   (e12 + e14)
e21     EQU   (e14 - e19)
e22     EQU   (e15 + e17)
e23     EQU   (e17 - e21)

        ORG   l00

l00     JMZ   e01, *l08 + e00
l01     JMP   e09, <l53 + e12
l02     SLT   {e04, >l17 + e09
l03     SPL   @e11, l08 + e05
l04     SUB   e09, <l24 + e05
l05     SEQ   *e11, @l79 + e03
l06     JMN   {e22, l72 + e02
l07     JMP   }e17, *l08 + e00
l08     JMP   *e21, l51 + e11
l09     DAT   e21, l22 + e11
l10     DAT   {e06, <l42 + e15
l11     MOD   *e04, l45 + e00
l12     SEQ   e22, >l87 + e06
l13     DIV   }e15, #l51 + e05
l14     ADD   *e18, l03 + e00
l15     SLT   @e21, *l37 + e08
l16     MUL   >e06, >l84 + e13
l17     JMN   >e02, {l81 + e00
l18     SLT   *e09, l18 + e00
l19     MOV   }e15, >l61 + e15
l20     DJN   }e05, >l96 + e10
l21     JMN   <e12, <l76 + e06
l22     DIV   }e18, }l31 + e06
l23     MOD   e13, }l89 + e07
l24     SEQ   @e12, >l37 + e10
l25     SEQ   #e01, }l69 + e13
l26     ADD   e15, *l19 + e12
l27     JMP   e12, l28 + e03
l28     SNE   e19, <l83 + e11
l29     DAT   >e14, @l19 + e01
l30     MOD   {e11, @l21 + e11
l31     SEQ   e04, >l00 + e02
l32     ADD   *e17, >l95 + e06
l33     JMZ   e16, }l55 + e05
l34     JMZ   {e07, {l53 + e05
l35     SPL   *e08, @l87 + e15
l36     DJN   {e06, >l01 + e04
l37     MOV   }e08, {l50 + e08
l38     SUB   *e18, #l68 + e06
l39     SNE   >e14, #l49 + e06
l40     MOV   <e03, #l50 + e08
l41     ADD   e12, }l00 + e02
l42     JMP   >e17, #l24 + e10
l43     JMZ   <e17, *l77 + e07
l44     SPL   e16, @l61 + e13
l45     JMZ   {e10, <l54 + e10
l46     JMN   @e04, <l11 + e13
l47     MOD   >e02, l06 + e01
l48     DAT   #e11, @l37 + e04
l49     JMP   @e20, @l17 + e13
l50     SLT   @e08, {l09 + e14
l51     MOD   }e14, *l84 + e08
l52     SNE   {e06, #l74 + e11
l53     MOD   <e14, l49 + e07
l54     DJN   >e12, #l82 + e07
l55     MOD   #e09, }l30 + e04
l56     SPL   }e10, @l26 + e08
l57     SPL   e02, }l72 + e09
l58     MUL   {e19, #l73 + e01
l59     SPL   {e08, }l37 + e07
l60     SPL   <e00, *l79 + e00
l61     SUB   <e06, #l94 + e15
l62     SLT   *e09, #l03 + e02
l63     MOD   >e05, #l48 + e13
l64     DAT   >e10, l05 + e14
l65     SNE   <e02, l31 + e12
l66     SLT   <e06, l80 + e15
l67     JMZ   {e21, l63 + e03
l68     SPL   e14, @l55 + e11
l69     MUL   #e17, }l57 + e04
l70     MOD   *e01, l80 + e09
l71     JMP   e13, <l93 + e11
l72     ADD   >e05, >l06 + e05
l73     DIV   e07, >l07 + e01
l74     JMZ   #e15, #l35 + e06
l75     SPL   @e10, @l93 + e05
l76     MUL   *e11, <l63 + e11
l77     ADD   <e09, <l42 + e10
l78     DAT   }e05, l37 + e04
l79     SEQ   *e12, l37 + e01
l80     SUB   e10, {l78 + e11
l81     ADD   #e21, *l28 + e00
l82     JMN   }e23, #l69 + e11
l83     DIV   <e13, l38 + e14
l84     SLT   @e02, #l96 + e01
l85     JMN   e21, #l95 + e04
l86     DIV   @e17, }l58 + e02
l87     SUB   @e04, l27 + e01
l88     ADD   @e19, @l80 + e08
l89     SNE   e17, >l39 + e07
l90     DAT   <e18, <l44 + e07
l91     SPL   <e23, @l39 + e03
l92     DJN   e06, <l78 + e11
l93     SNE   *e11, l68 + e13
l94     MOD   e22, }l12 + e10
l95     JMN   @e22, {l13 + e01
l96     SUB   e12, *l15 + e01
l97     MUL   *e03, }l95 + e06
l98     ADD   <e17, >l54 + e07
l99     JMZ   }e23, >l70 + e13

        END
