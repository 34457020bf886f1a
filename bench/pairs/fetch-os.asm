; Sends bytes by register 2 without end, each as soon as there is room.
        org &C000
start:  LDX #0
wait:   BIT &FEE2
        BVC wait
        STX &FEE3
        INX
        JMP wait

        org &FFFC
        word start, 0
