; A boot ROM of the second processor that does nothing.
        org &F800
loop:   JMP loop
        org &FFFC
        word loop, 0
