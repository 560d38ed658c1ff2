;redcode-94
;name Plain
;author this project
;strategy A hundred lines for a stopwatch; no warrior to be afraid of.
;assert 1

        ORG   l00

l00     JMN      -761, *815
l01     JMZ.AB   <l35 + 28, -538
l02     DAT.I    >750, l82 + 17
l03     SUB      <l35 + 24, *-571
l04     MOV.F    l28, -624
l05     MUL.AB   #l21, {l26 - 2
l06     SNE      }49, 763
l07     SNE.F    <l83, }-1470
l08     MUL      l78 + 45, @l29
l09     JMZ.X    #l54 + 22, >-1400
l10     JMN.X    #40, *-92
l11     SPL      }-702, <l80 - 22
l12     MUL.F    l19 + 41, #l63
l13     JMZ      l92 - 7, l79
l14     SUB.AB   @l06 + 48, -174
l15     SNE      {l38, }1674
l16     SEQ.AB   {-1266, {-285
l17     MOD      }l94, 233
l18     MUL.F    @l61, {-647
l19     SLT.I    l37 + 2, 1040
l20     SNE.AB   }-1108, #l49 - 13
l21     SNE.I    >l47, }l82
l22     DIV.X    {l49 - 23, }-1061
l23     SEQ      @l36, #l14
l24     SLT.F    l64, }l93
l25     SNE.AB   630, *46
l26     MOV.I    l13 - 26, *1956
l27     JMN.I    @l61 + 31, }l10
l28     DAT.X    l19 - 30, {l08 - 36
l29     DIV      #12, @-114
l30     MOV.I    *-563, @1321
l31     MOD.I    }l97 - 2, }l25 - 11
l32     JMP.AB   l22, }l10
l33     MOD.F    l72, *-1109
l34     JMP.AB   *l09, }l88
l35     DAT      >l10, -1015
l36     DIV      #84, l37
l37     SPL.I    #14, *1186
l38     JMP      <1297, *l19
l39     ADD.I    }l56, >-484
l40     DAT      {1826, l51 - 45
l41     SPL      *-496, l84
l42     SNE      l24 + 33, #6
l43     DJN      >l88, l69
l44     SNE.I    l91 + 7, {l32 + 30
l45     MOV.F    >l68, #8
l46     DAT.AB   {1782, l11 - 29
l47     SUB      #27, -429
l48     JMN.AB   #l29, l57
l49     SLT.I    @608, l40
l50     DIV.F    #40, <l75 - 38
l51     DIV.X    #l69, >-1177
l52     MOD.I    l44, }l36
l53     MOV.AB   {1904, -1997
l54     JMZ.AB   }l56, <-1486
l55     DAT      @-1198, <l45
l56     MUL.F    l39, {1882
l57     DIV      #15, -1105
l58     JMN      *l02, <-873
l59     JMN.AB   }-676, }l57 - 37
l60     JMN.I    #l52, >l94 + 42
l61     JMP.I    @-1110, <-1093
l62     DJN.AB   {l17, -1032
l63     JMN.AB   >-1796, @l24
l64     DAT.I    #7, <619
l65     SUB      >l75, *l07
l66     ADD.AB   l54, >l09 - 5
l67     MOV.F    -391, }l84 + 20
l68     SPL.I    >l04, *l04
l69     MOV      <l23 - 29, <l08 - 8
l70     DJN.X    }l99 + 15, <1557
l71     SUB      *l95 + 17, {l29
l72     DIV.F    <l57, @l37 + 23
l73     SEQ.I    {-1899, {-58
l74     SNE      <-1508, l43 - 8
l75     SEQ.F    @l30 - 47, -1382
l76     JMZ.AB   <l86, <l34
l77     DAT.AB   *l99 + 41, >441
l78     DAT.X    l76, {l25 - 40
l79     JMZ      l08, {l44 - 19
l80     JMN      {l02, #l21 - 31
l81     ADD.X    {l22 - 10, }-831
l82     SUB.X    *l26 - 14, #34
l83     MOD.I    @l04, @l77 + 48
l84     SEQ.AB   {l98 - 6, #l86 + 43
l85     MUL.AB   {l60, >-313
l86     JMP      @l74, #l28
l87     JMZ.F    }l44, {l16
l88     MOV      @l85, @-700
l89     MUL      @1321, #76
l90     DAT      -1467, @l00
l91     ADD.F    l72 + 42, *792
l92     SLT.F    l08 + 7, >l51
l93     JMP.AB   <l07, >489
l94     DAT      }l05, >l32
l95     SNE      @796, >-687
l96     JMN.X    l69, #70
l97     DJN.AB   #l07 - 5, {-449
l98     MOV.AB   <-109, }l06
l99     DJN      {643, @l11 + 4

        END
