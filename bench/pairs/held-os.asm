; Holds the second processor in reset for ever, and works without end.
        org &C000
start:  LDA #&A0
        STA &FEE0
        LDX #0
next:   LDA &20F0,X
        CLC
        ADC &70
        STA &70
        INX
        STA &20F0,X
        JMP next

        org &FFFC
        word start, 0
