; The busy program, and a timer's interrupt each 10 milliseconds with 100 stores and 16 reads of the keyboard.
        org &C000
start:  NOP
        LDA #&40
        STA &FE4B
        LDA #&C0
        STA &FE4E
        LDA #&0E
        STA &FE44
        LDA #&27
        STA &FE45
        CLI
again:   LDX #0
next:   LDA &20F0,X
        CLC
        ADC &70
        STA &70
        BCC same
        INC &71
same:   LSR A
        PHA
        EOR &C000,X
        STA &20F0,X
        PLA
        STA (&72),Y
        JSR sub
        INX
        BNE next
        INY
        JMP next
sub:    LDA &71
        AND #&0F
        ORA #&10
        STA &73
        RTS
nmi:    RTI
irq:    PHA
        TXA
        PHA
        LDA &FE44
        LDX #100
more:   INC &0380,X
        DEX
        BNE more
        LDX #15
keys:   STX &FE4F
        LDA &FE4F
        DEX
        BPL keys
        PLA
        TAX
        PLA
        RTI
        org &FFFA
        word nmi, start, irq
