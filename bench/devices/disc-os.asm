; A disc that turns: a search for a sector, and the busy program meanwhile.
        org &C000
start:  NOP
        LDA #&29
        STA &FE80
        LDA #&14
        STA &FE86
        LDA #&80
        STA &FE84
again:   LDX #0
next:   LDA &20F0,X
        CLC
        ADC &70
        STA &70
        BCC same
        INC &71
same:   LSR A
        PHA
        EOR &C000,X
        STA &20F0,X
        PLA
        STA (&72),Y
        JSR sub
        INX
        BNE next
        INY
        JMP next
sub:    LDA &71
        AND #&0F
        ORA #&10
        STA &73
        RTS
nmi:    PHA
        LDA &FE84
        LDA #&80
        STA &FE84
        PLA
        RTI
irq:    RTI
        org &FFFA
        word nmi, start, irq
