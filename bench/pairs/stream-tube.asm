; Sends bytes by register 1 without end, each as soon as there is room.
        org &F800
start:  LDX #0
copy:   LDA &F800,X     ; the boot ROM goes with the first access to the Tube
        STA &F800,X
        LDA &FF00,X
        STA &FF00,X
        INX
        BNE copy
send:   BIT &FEF8
        BVC send
        LDA &F800,X
        STA &FEF9
        INX
        JMP send

        org &FFFA
        word start, start, start
