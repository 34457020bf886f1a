; A boot ROM of the second processor: it copies itself to the RAM below, and sends two letters.
        org &F800
        LDX #31
copy:   LDA &F800,X
        STA &F800,X
        DEX
        BPL copy
        LDA #&48
        STA &FEF9
        LDA #&49
        STA &FEF9
stop:   JMP stop
        org &FFFC
        word &F800, 0
