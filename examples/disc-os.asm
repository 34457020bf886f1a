; Reads sector 2 of track 0 by interrupts of the disc controller, and writes it to sector 7 of track 5. &70 counts bytes, &72 is set
; where a command has ended, and &73 is &40 while a sector is read and &80 while one is written.
        org &C000
start:  LDX #&FF
        TXS
        LDA #&29        ; drive 0, side 0, single density, no reset
        STA &FE80
        LDA #&40
        STA &73
        LDA #2
        STA &FE86
        LDA #&80        ; read the sector
        JSR do
        LDA #0
        STA &73
        LDA #5
        STA &FE87
        LDA #&10        ; seek the track
        JSR do
        LDA #&80
        STA &73
        LDA #7
        STA &FE86
        LDA #&A0        ; write the sector
        JSR do
here:   JMP here

do:     LDX #0
        STX &70
        STX &72
        STA &FE84
wait:   LDX &72
        BEQ wait
        RTS

nmi:    PHA
        TXA
        PHA
        LDX &70
        LDA &FE84       ; the status, whose reading ends the interrupt of a command
        BIT &73
        BVS read
        BMI write
ended:  INC &72
        JMP out
read:   AND #&02
        BEQ ended
        LDA &FE87
        STA &3000,X
        INC &70
        JMP out
write:  AND #&02
        BEQ ended
        LDA &3000,X
        STA &FE87
        INC &70
out:    PLA
        TAX
        PLA
        RTI

        org &FFFA
        word nmi, start, start
