; The language of tools/execute --os, in slot 15: it runs a program from a disc by commands, on the host or on the second
; processor. What is written by OSWRCH goes to the printer's latch too. The host halts at the program's end.
;   &8100 a command before the program's      &81FF 80: keys come from a script      &8200 the program's command
;   On the RAM card: &FD00 to &FD02 how many bytes of output      &FD03 how the program ended, as host.asm's &F0, and
;   &FD04 the status, which is the user flag (OSBYTE 1)
        org &8000
        JMP enter
        JMP service
        byte &C2, &0C, 1, 82, 117, 110, 0, 40, 67, 41, 0

enter:  CMP #1
        BEQ begin
        RTS
begin:  LDX #&FF
        TXS
        CLD
        CLI
        LDA #<broken
        STA &0202           ; BRKV
        LDA #>broken
        STA &0203
        LDX #0
        JSR tell
        LDX #0              ; (another ROM does not see this one's texts)
copy:   LDA &8100,X
        STA &0600,X
        LDA &8200,X
        STA &0700,X
        INX
        BNE copy
        LDY #&06
        JSR &FFF7
        LDX #0
        LDY #&07
        JSR &FFF7
        LDA #241
        LDX #0
        LDY #255
        JSR &FFF4
        TXA
        TAY
        LDX #1
        BNE tell
broken: LDX #2
tell:   LDA #165            ; to the host's service entry: X is 0 at the start, or how it ended; Y the status
        JMP &FFF4

; An OSBYTE that the system does not know: &EF to &F1 have A, X and Y.
service: CMP #7
        BNE no
        LDA &EF
        CMP #165
        BNE not
        LDA &F0
        BNE ended
        LDA #<wrch          ; WRCHV and RDCHV, by their extended vectors
        STA &0DB4
        LDA #>wrch
        STA &0DB5
        LDA #<rdch
        STA &0DB7
        LDA #>rdch
        STA &0DB8
        LDA &F4
        STA &0DB6
        STA &0DB9
        LDA #&15
        STA &020E
        LDA #&18
        STA &0210
        LDA #&FF
        STA &020F
        STA &0211
        LDA #0
        RTS
not:    LDA #7
no:     RTS
ended:  LDX &F1
        STX &FD04
halt:   STA &FD03
        byte &02

wrch:   PHA
        LDA &FD02
        BNE much
        PLA
        STA &FC10
        INC &FD00
        BNE shown
        INC &FD01
        BNE shown
        INC &FD02
shown:  JMP &FFCB
much:   LDA #5
        BNE halt

; A key that nobody presses: the input has ended, or is still to come.
rdch:   TXA
        PHA
        TYA
        PHA
        LDA &81FF
        ORA &FF
        BMI pass
        LDA #198            ; the *EXEC file, if it has not ended
        LDX #0
        LDY #255
        JSR &FFF4
        TXA
        BEQ none
        LDA #127
        JSR &FFF4
        TXA
        BEQ pass
none:   LDA #128            ; what is in the keyboard's buffer
        LDX #255
        LDY #255
        JSR &FFF4
        TXA
        BNE pass
        LDA #6
        BNE halt
pass:   PLA
        TAY
        PLA
        TAX
        JMP &FFC8
