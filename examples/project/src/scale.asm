; A routine: A times X, as 16 bits in X (low) and A (high). &70 to &72 are its own.
        org &1900
scale:  STA &70
        STX &71
        LDA #0
        STA &72
        LDY #8
bit:    LSR &71
        BCC none
        CLC
        ADC &70
none:   ROR A
        ROR &72
        DEY
        BNE bit
        LDX &72
        RTS
