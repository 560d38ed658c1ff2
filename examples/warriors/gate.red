;redcode-94
;name Gate with Decoys
;author this project
;strategy Waits for imps at a gate. A scanner that comes by finds the decoys first.
;assert MAXLENGTH >= 3*4 + 2

; What to learn here: nested blocks, and names that are joined from a stem and counters.

rows    EQU   3
columns EQU   4
ahead   EQU   2                         ; how far before the gate the trap is

        ORG   gate

gate    JMP   gate, <gate-ahead         ; jumps to itself for ever, and lowers a number each time

; `cell&i&j` becomes one name: the stem and both counters, in at least two digits each. So this
; makes the labels cell0101, cell0102, .. cell0304, each on its own line.

i       FOR   rows
j       FOR   columns
cell&i&j DAT  cell&i&j - gate, i*10 + j ; a label minus a label is the number of lines between them
        ROF
        ROF

        JMP   cell0101                  ; never reached. The joined names are names like others

        END
