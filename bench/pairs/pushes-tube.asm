; Pushes without end, so that it writes in every third cycle, and leaves the Tube alone.
        org &F800
start:  LDX #0
next:   PHA
        PHA
        PHA
        PHA
        PHA
        PHA
        PHA
        PHA
        PHA
        PHA
        PHA
        PHA
        JMP next

        org &FFFC
        word start, 0
