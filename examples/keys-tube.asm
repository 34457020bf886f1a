; Keeps each byte of register 1 of the Tube, from &80 on.
        org &F800
start:  LDX #63
copy:   LDA &F800,X     ; the boot ROM goes with the first access to the Tube
        STA &F800,X
        DEX
        BPL copy
        INX
wait:   BIT &FEF8
        BPL wait
        LDA &FEF9
        STA &80,X
        INX
        JMP wait

        org &FFFA
        word start, start, start
