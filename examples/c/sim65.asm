; What a program in sim65's own file format finds at FFF4 to FFF9: open, close, read, write, args, exit. A BRK stands at
; each of these six, so the address behind it tells which one is wanted. tools/execute lays this into the boot ROM at
; FA00, or into the host's at D000, and fills in the words in front.
;   &D8,&D9 the file, and how much was done   &DA,&DB the buffer     &DC,&DD the C stack, or the file
;   &DE,&DF how much there is to do           &FC A at an interrupt
        org &FA00
other:  word 0              ; +0: the machine's own interrupt
entry:  word 0              ; +2: where the program begins
block:  word 0              ; +4: the arguments: how many, the length of all in two bytes, and each with a 0 behind it
place:  byte 0              ; +6: where in the zero page the C stack's pointer stands
        JMP (entry)         ; +7
irq:    STA &FC             ; +10
        PLA
        PHA
        AND #&10
        BNE break
own:    LDA &FC
        JMP (other)
break:  STX &D8
        TSX
        LDA &0103,X
        CMP #&FF
        BNE crash
        LDA &0102,X         ; a BRK pushes the address of the byte behind the next one
        CMP #&F6
        BCC crash
        CMP #&FC
        BCS crash
        SBC #&F5            ; (C is clear)
        ASL A
        TAX
        LDA hooks,X
        STA &DA
        LDA hooks+1,X
        STA &DB
        PLP
        PLA
        PLA
        LDX &D8
        LDA &FC
        JMP (&00DA)
crash:  LDX &D8
        JMP own
hooks:  word open, close, read, write, args, exit

; open: there are no files. Its parameters, Y bytes, go.
open:   TYA
        LDX place
        CLC
        ADC &00,X
        STA &00,X
        BCC wrong
        INC &01,X
wrong:  LDA #&FF
        TAX
        RTS
close:  CPX #0
        BNE wrong
        CMP #3
        BCS wrong
        TXA
        RTS

; read and write: AX how much, and on the C stack the buffer and the file.
read:   JSR params
        LDA &D8
        ORA &D9
        BNE wrong
input:  JSR count
        BEQ told
        JSR &FFE0
        BCS told
        LDY #0
        STA (&DA),Y
        JSR on
        JMP input
write:  JSR params
        LDA &D9
        BNE wrong
        LDA &D8
        BEQ wrong
        CMP #3
        BCS wrong
        STA &DC
        LDA #0
        STA &D8
output: JSR count
        BEQ told
        LDY #0
        LDA (&DA),Y
        LDY &DC
        CPY #1
        BNE error
        JSR &FFEE
        JMP written
error:  JSR &FFD4
written: JSR on
        JMP output
told:   LDA &D8
        LDX &D9
        RTS
count:  LDA &DE             ; Z is set where nothing is left
        ORA &DF
        RTS
on:     INC &DA
        BNE same
        INC &DB
same:   INC &D8
        BNE less
        INC &D9
less:   LDA &DE
        BNE low
        DEC &DF
low:    DEC &DE
        RTS
params: STA &DE
        STX &DF
        JSR pop
        STA &DA
        LDA &D9
        STA &DB
pop:    LDX place           ; a word off the C stack
        LDA &00,X
        STA &DC
        LDA &01,X
        STA &DD
        LDA #2
        CLC
        ADC &00,X
        STA &00,X
        BCC word
        INC &01,X
word:   LDY #1
        LDA (&DC),Y
        STA &D9
        DEY
        LDA (&DC),Y
        STA &D8
        RTS

; args: puts argv at the address AX, and how many there are in AX. Texts and pointers go on the C stack.
args:   PHA
        TXA
        PHA
        LDA block           ; &DC,&DD: the block, and then behind its length
        STA &DC
        LDA block+1
        STA &DD
        LDX place
        LDY #1
        SEC
        LDA &00,X
        SBC (&DC),Y
        STA &00,X
        STA &DA
        INY
        LDA &01,X
        SBC (&DC),Y
        STA &01,X
        STA &DB
        LDY #1
        LDA (&DC),Y
        STA &DE
        INY
        LDA (&DC),Y
        STA &DF
        LDA &DC             ; the texts
        CLC
        ADC #3
        STA &DC
        BCC texts
        INC &DD
texts:  JSR count
        BEQ array
        LDY #0
        LDA (&DC),Y
        STA (&DA),Y
        INC &DC
        BNE letter
        INC &DD
letter: JSR on
        JMP texts
array:  LDX place           ; the pointers, below them
        LDA &00,X
        STA &DC             ; the first text
        LDA &01,X
        STA &DD
        LDA block
        STA &D8
        LDA block+1
        STA &D9
        LDY #0
        LDA (&D8),Y
        STA &DE             ; how many
        SEC
        ROL A               ; twice that and one, and one more below
        STA &DF
        CLC
        LDA &00,X
        SBC &DF
        STA &00,X
        STA &DA
        BCS page
        DEC &01,X
page:   LDA &01,X
        STA &DB
        PLA                 ; argv
        STA &D9
        PLA
        STA &D8
        LDA &DA
        STA (&D8),Y
        INY
        LDA &DB
        STA (&D8),Y
        LDA &DE
        PHA
each:   LDY #0
        LDA &DE
        BEQ end
        LDA &DC
        STA (&DA),Y
        INY
        LDA &DD
        STA (&DA),Y
        LDA &DA
        CLC
        ADC #2
        STA &DA
        BCC skip
        INC &DB
skip:   LDY #0
        LDA (&DC),Y
        PHP
        INC &DC
        BNE right
        INC &DD
right:  PLP
        BNE skip
        DEC &DE
        JMP each
end:    TYA
        STA (&DA),Y
        INY
        STA (&DA),Y
        TAX
        PLA
        RTS

; exit: status A.
exit:   LDX other+1         ; in which ROM it is
        CPX #&F8
        BCS second
        JMP &C003
second: JMP &F803
