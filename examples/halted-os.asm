; At power-on it halts itself: 02 is none of the 151 opcodes. BREAK leaves the memory, so that it goes on the second time.
        org &C000
start:  LDA &70
        BNE back
        INC &70
        byte &02
back:   INC &71
here:   JMP here
        org &FFFC
        word start, start
