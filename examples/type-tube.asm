; The second processor of a typed text: it sends back each letter, and after RETURN the whole line once
; more, from its last letter to its first.
        org &F800
start:  LDX #127
copy:   LDA &F800,X     ; the boot ROM goes with the first access to the Tube: what runs is a copy
        STA &F800,X
        DEX
        BPL copy
        TXS
line:   LDX #0          ; letters of the line, at &0200 and on
wait:   BIT &FEF8       ; bit 7: the host has sent a byte
        BPL wait
        LDA &FEF9
        CMP #127
        BEQ delete
        JSR send
        CMP #13
        BEQ turn
        STA &0200,X
        INX
        JMP wait
delete: CPX #0
        BEQ wait
        DEX
        JSR send
        JMP wait
turn:   CPX #0          ; backwards, and a new line
        BEQ end
        DEX
        LDA &0200,X
        JSR send
        JMP turn
end:    LDA #13
        JSR send
        JMP line

send:   BIT &FEF8       ; bit 6: there is room for a byte
        BVC send
        STA &FEF9
        RTS

        org &FFFA
        word start, start, start
