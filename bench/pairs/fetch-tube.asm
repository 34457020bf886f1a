; Takes a byte of register 2 about each 800 microseconds, and works in between: no interrupt tells it of the next one.
        org &F800
start:  LDX #0
copy:   LDA &F800,X     ; the boot ROM goes with the first access to the Tube
        STA &F800,X
        LDA &FF00,X
        STA &FF00,X
        INX
        BNE copy
take:   BIT &FEFA
        BPL take
        LDA &FEFB
        LDY #250
work:   INC &80
        DEY
        BNE work
        JMP take

        org &FFFA
        word start, start, start
