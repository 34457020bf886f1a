; A timer interrupts the host each 10,000 microseconds, which works on in between and leaves the second processor alone.
        org &C000
start:  LDX #255
        TXS
        LDA #&00
        STA &FEE0
ready:  BIT &FEE0
        BPL ready
        LDA &FEE1
        LDA #&40        ; timer 1 runs free
        STA &FE4B
        LDA #<9998
        STA &FE44
        LDA #>9998
        STA &FE45
        LDA #&C0        ; and asks for interrupts
        STA &FE4E
        LDX #0
        CLI
next:   LDA &20F0,X
        CLC
        ADC &70
        STA &70
        BCC same
        INC &71
same:   LSR A
        PHA
        EOR &C000,X
        STA &20F0,X
        PLA
        STA (&72),Y
        JSR sub
        INX
        BNE next
        INY
        JMP next
sub:    LDA &71
        AND #&0F
        ORA #&10
        STA &73
        RTS
irq:    PHA
        LDA &FE44       ; the timer asks no more
        INC &74
        LDA &71
        STA &75
        PLA
        RTI

        org &FFFA
        word start, start, irq
