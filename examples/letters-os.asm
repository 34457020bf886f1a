; An operating system that waits for two bytes from the Tube's register 1, and keeps them from 0070 on.
        org &C000
        LDX #0
wait:   LDA &FEE0
        BPL wait
        LDA &FEE1
        STA &70,X
        INX
        CPX #2
        BNE wait
here:   JMP here
        org &FFFC
        word &C000, 0
