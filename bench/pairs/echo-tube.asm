; Sends byte after byte by register 2, and takes each back before the next.
        org &F800
start:  LDX #0
copy:   LDA &F800,X     ; the boot ROM goes with the first access to the Tube
        STA &F800,X
        LDA &FF00,X
        STA &FF00,X
        INX
        BNE copy
next:   BIT &FEFA
        BVC next
        STX &FEFB
        INX
wait:   BIT &FEFA
        BPL wait
        LDA &FEFB
        ADC &70
        STA &70
        JMP next
        org &FFFA
        word start, start, start
