; The busy program with a screen of 40 characters a line, at 1 MHz.
        org &C000
start:  NOP
        LDA #&88
        STA &FE20
        LDA #&00
        STA &FE00
        LDA #&3F
        STA &FE01
        LDA #&01
        STA &FE00
        LDA #&28
        STA &FE01
        LDA #&02
        STA &FE00
        LDA #&31
        STA &FE01
        LDA #&03
        STA &FE00
        LDA #&24
        STA &FE01
        LDA #&04
        STA &FE00
        LDA #&26
        STA &FE01
        LDA #&05
        STA &FE00
        LDA #&00
        STA &FE01
        LDA #&06
        STA &FE00
        LDA #&20
        STA &FE01
        LDA #&07
        STA &FE00
        LDA #&22
        STA &FE01
        LDA #&08
        STA &FE00
        LDA #&01
        STA &FE01
        LDA #&09
        STA &FE00
        LDA #&07
        STA &FE01
        LDA #&0A
        STA &FE00
        LDA #&67
        STA &FE01
        LDA #&0B
        STA &FE00
        LDA #&08
        STA &FE01
        LDA #&0C
        STA &FE00
        LDA #&0B
        STA &FE01
        LDA #&0D
        STA &FE00
        LDA #&00
        STA &FE01
again:   LDX #0
next:   LDA &20F0,X
        CLC
        ADC &70
        STA &70
        BCC same
        INC &71
same:   LSR A
        PHA
        EOR &C000,X
        STA &20F0,X
        PLA
        STA (&72),Y
        JSR sub
        INX
        BNE next
        INY
        JMP next
sub:    LDA &71
        AND #&0F
        ORA #&10
        STA &73
        RTS
nmi:    RTI
irq:    RTI
        org &FFFA
        word nmi, start, irq
