; A whole disc read by NMI, a byte each 64 microseconds, with a screen of 80 characters and the busy program meanwhile.
        org &C000
start:  NOP
        LDA #&9C
        STA &FE20
        LDA #&00
        STA &FE00
        LDA #&7F
        STA &FE01
        LDA #&01
        STA &FE00
        LDA #&50
        STA &FE01
        LDA #&02
        STA &FE00
        LDA #&62
        STA &FE01
        LDA #&03
        STA &FE00
        LDA #&28
        STA &FE01
        LDA #&04
        STA &FE00
        LDA #&26
        STA &FE01
        LDA #&05
        STA &FE00
        LDA #&00
        STA &FE01
        LDA #&06
        STA &FE00
        LDA #&20
        STA &FE01
        LDA #&07
        STA &FE00
        LDA #&22
        STA &FE01
        LDA #&08
        STA &FE00
        LDA #&01
        STA &FE01
        LDA #&09
        STA &FE00
        LDA #&07
        STA &FE01
        LDA #&0A
        STA &FE00
        LDA #&67
        STA &FE01
        LDA #&0B
        STA &FE00
        LDA #&08
        STA &FE01
        LDA #&0C
        STA &FE00
        LDA #&06
        STA &FE01
        LDA #&0D
        STA &FE00
        LDA #&00
        STA &FE01
        LDA #&29
        STA &FE80
        LDA #&00
        STA &FE86
        LDA #&90
        STA &FE84
again:   LDX #0
next:   LDA &20F0,X
        CLC
        ADC &70
        STA &70
        BCC same
        INC &71
same:   LSR A
        PHA
        EOR &C000,X
        STA &20F0,X
        PLA
        STA (&72),Y
        JSR sub
        INX
        BNE next
        INY
        JMP next
sub:    LDA &71
        AND #&0F
        ORA #&10
        STA &73
        RTS
nmi:    PHA
        LDA &FE84
        AND #2
        BEQ over
        LDA &FE87
        STA &0700,X
        PLA
        RTI
over:   LDA #0
        STA &FE86
        LDA #&90
        STA &FE84
        PLA
        RTI
irq:    RTI
        org &FFFA
        word nmi, start, irq
