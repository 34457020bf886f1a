; A program for tools/execute in our assembler, for either part: it writes its arguments, a line each, and ends with the
; number of them as its status. The block of arguments lies at FC00, or in the host at D200: their number, the length of
; all texts in two bytes, and the texts, each with a 0 behind it; the first is the program's name.
;   &70,&71 the next letter    &72 how many are left
        org &0800
        LDA #&03
        STA &70
        LDA #&FC
        STA &71
        LDA &FC00
        STA &72
        LDY #0
name:   JSR next            ; the name is passed over
        BNE name
line:   DEC &72
        BEQ done
letter: JSR next
        BEQ end
        JSR &FFEE           ; OSWRCH
        JMP letter
end:    LDA #10
        JSR &FFEE
        JMP line
done:   LDX &FC00
        DEX
        TXA
        RTS                 ; the status is A

next:   LDA (&70),Y
        PHP
        INC &70
        BNE same
        INC &71
same:   PLP
        RTS
