; Waits for a byte of register 1 by its status, without end where none comes.
        org &F800
start:  LDX #0
copy:   LDA &F800,X     ; the boot ROM goes with the first access to the Tube
        STA &F800,X
        LDA &FF00,X
        STA &FF00,X
        INX
        BNE copy
poll:   BIT &FEF8
        BPL poll
        LDA &FEF9
        INC &80
        JMP poll

        org &FFFA
        word start, start, start
