; Makes byte after byte, sends each by register 2, and takes it back before the next.
        org &F800
start:  LDX #0
copy:   LDA &F800,X     ; the boot ROM goes with the first access to the Tube
        STA &F800,X
        LDA &FF00,X
        STA &FF00,X
        INX
        BNE copy
next:   LDY #16         ; sixteen steps of a shift register
        LDA &70
shift:  ASL A
        ROL &71
        BCC same
        EOR #&2D
same:   DEY
        BNE shift
        STA &70
room:   BIT &FEFA
        BVC room
        STA &FEFB
wait:   BIT &FEFA
        BPL wait
        LDA &FEFB
        CLC
        ADC &72
        STA &72
        JMP next
        org &FFFA
        word start, start, start
