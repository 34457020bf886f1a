; Sends a byte by register 1 about each 30 microseconds, which is empty mostly.
        org &F800
start:  LDX #0
copy:   LDA &F800,X     ; the boot ROM goes with the first access to the Tube
        STA &F800,X
        LDA &FF00,X
        STA &FF00,X
        INX
        BNE copy
send:   BIT &FEF8
        BVC send
        STX &FEF9
        LDY #16
wait:   DEY
        BNE wait
        INX
        JMP send

        org &FFFA
        word start, start, start
