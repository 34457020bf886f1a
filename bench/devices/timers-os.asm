; The busy program with both timers of the system's 6522, which interrupt each millisecond.
        org &C000
start:  NOP
        LDA #&40
        STA &FE4B
        LDA #&E0
        STA &FE4E
        LDA #&E6
        STA &FE44
        LDA #&E6
        STA &FE48
        LDA #&03
        STA &FE45
        LDA #&03
        STA &FE49
        CLI
again:   LDX #0
next:   LDA &20F0,X
        CLC
        ADC &70
        STA &70
        BCC same
        INC &71
same:   LSR A
        PHA
        EOR &C000,X
        STA &20F0,X
        PLA
        STA (&72),Y
        JSR sub
        INX
        BNE next
        INY
        JMP next
sub:    LDA &71
        AND #&0F
        ORA #&10
        STA &73
        RTS
nmi:    RTI
irq:    PHA
        LDA &FE44
        LDA #3
        STA &FE49
        PLA
        RTI
        org &FFFA
        word nmi, start, irq
