; An OS of the host that jumps to itself.
        org &C000
start:  JMP start
        org &FFFC
        word start, 0
