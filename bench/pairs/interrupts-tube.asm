; Tells the host by register 1 that it is ready, works without end, and takes the byte of each interrupt and of each NMI.
        org &F800
start:  LDX #255
        TXS
        INX
copy:   LDA &F800,X     ; the boot ROM goes with the first access to the Tube
        STA &F800,X
        LDA &FF00,X
        STA &FF00,X
        INX
        BNE copy
        LDA &FEFD       ; register 3 is empty
        STA &FEF9
        CLI
next:   LDA &2000,X
        CLC
        ADC &70
        STA &70
        BCC same
        INC &71
same:   LSR A
        PHA
        EOR &F800,X
        STA &2000,X
        PLA
        STA (&72),Y
        JSR sub
        INX
        BNE next
        INY
        JMP next
sub:    LDA &71
        AND #&0F
        ORA #&10
        STA &73
        RTS
irq:    PHA
        LDA &FEF9
        INC &74
        PLA
        RTI
nmi:    PHA
        LDA &FEFD
        INC &75
        PLA
        RTI

        org &FFFA
        word nmi, start, irq
