; A screen of 80 characters, interrupts of vertical sync and each 10 milliseconds, and reads of the keyboard, as an operating system makes them.
        org &C000
start:  NOP
        LDA #&9C
        STA &FE20
        LDA #&00
        STA &FE00
        LDA #&7F
        STA &FE01
        LDA #&01
        STA &FE00
        LDA #&50
        STA &FE01
        LDA #&02
        STA &FE00
        LDA #&62
        STA &FE01
        LDA #&03
        STA &FE00
        LDA #&28
        STA &FE01
        LDA #&04
        STA &FE00
        LDA #&26
        STA &FE01
        LDA #&05
        STA &FE00
        LDA #&00
        STA &FE01
        LDA #&06
        STA &FE00
        LDA #&20
        STA &FE01
        LDA #&07
        STA &FE00
        LDA #&22
        STA &FE01
        LDA #&08
        STA &FE00
        LDA #&01
        STA &FE01
        LDA #&09
        STA &FE00
        LDA #&07
        STA &FE01
        LDA #&0A
        STA &FE00
        LDA #&67
        STA &FE01
        LDA #&0B
        STA &FE00
        LDA #&08
        STA &FE01
        LDA #&0C
        STA &FE00
        LDA #&06
        STA &FE01
        LDA #&0D
        STA &FE00
        LDA #&00
        STA &FE01
        LDA #&40
        STA &FE4B
        LDA #&7F
        STA &FE43
        LDA #&0F
        STA &FE42
        LDA #&03
        STA &FE40
        LDA #&04
        STA &FE4C
        LDA #&C2
        STA &FE4E
        LDA #&0E
        STA &FE44
        LDA #&27
        STA &FE45
        CLI
again:   LDX #0
next:   LDA &20F0,X
        CLC
        ADC &70
        STA &70
        BCC same
        INC &71
same:   LSR A
        PHA
        EOR &C000,X
        STA &20F0,X
        PLA
        STA (&72),Y
        JSR sub
        INX
        BNE next
        INY
        JMP next
sub:    LDA &71
        AND #&0F
        ORA #&10
        STA &73
        RTS
nmi:    RTI
irq:    PHA
        TXA
        PHA
        LDA &FE4D
        AND #2
        BEQ timer
        STA &FE4D
        INC &0390
        JMP over
timer:  LDA &FE44
        LDX #9
keys:   STX &FE4F
        LDA &FE4F
        DEX
        BPL keys
        INC &0391
over:   PLA
        TAX
        PLA
        RTI
        org &FFFA
        word nmi, start, irq
