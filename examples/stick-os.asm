; It reads channel 1 of the analogue converter four times, in eight bits, and keeps what it reads from 0070 on.
        org &C000
        LDX #0
begin:  LDA #1
        STA &FEC0               ; channel 1: the conversion begins
wait:   LDA &FEC0
        BMI wait                ; bit 7 is set until its end
        LDA &FEC1               ; the high byte
        STA &70,X
        INX
        CPX #4
        BNE begin
here:   JMP here
        org &FFFC
        word &C000, 0
