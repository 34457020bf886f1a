; The second processor's boot ROM: the operating system's calls go through the Tube to the host, as
; Acorn's Application Note 004 describes it. It was written from public interfaces alone.
.setcpu "65C02"
.include "tube.inc"

; --- Memory: programs have 00 to ED, and 0300 up to `top` ---
prog    = $EE           ; where the current program is entered
number  = $F0
top     = $F2           ; the end of memory for programs
entry   = $F4           ; where the next program is entered
move    = $F6           ; the next byte of a transfer
str     = $F8           ; a text
blk     = $FA           ; a control block
irq_a   = $FC
error   = $FD
escape  = $FF
BRKV    = $0202
IRQ1V   = $0204
IRQ2V   = $0206
CLIV    = $0208
BYTEV   = $020A
WORDV   = $020C
WRCHV   = $020E
RDCHV   = $0210
FILEV   = $0212
ARGSV   = $0214
BGETV   = $0216
BPUTV   = $0218
GBPBV   = $021A
FINDV   = $021C
EVNTV   = $0220
line    = $0236         ; a line of commands, or an error of the host
NMIV    = $FFFA
END     = $F800
START   = $0800         ; the start of memory for programs

.segment "CODE"
reset:  SEI
        CLD
        LDX #$FF
        TXS
        STZ blk                 ; this ROM goes to the RAM below it, but for the Tube's addresses
        LDA #>END
        STA blk+1
        LDY #0
@copy:  LDA (blk),Y
        STA (blk),Y
        INY
        BNE :+
        INC blk+1
        BEQ @copied
:       CPY #<R1S
        BNE @copy
        LDA blk+1
        CMP #>R1S
        BNE @copy
        LDY #0
        INC blk+1
        BNE @copy
@copied:
        LDX #vectors_end-vectors-1
:       LDA vectors,X
        STA $0200,X
        DEX
        BPL :-
        STZ escape
        STZ top
        LDA #>END
        STA top+1
        LDA #<prompt
        STA prog
        LDA #>prompt
        STA prog+1
        LDX #$FF
:       INX                     ; the first line, and its 0
        LDA title,X
        JSR OSWRCH
        TAY
        BNE :-
        CLI
        JSR answer              ; a program or a language of the host's choice
prompt: LDX #$FF
        TXS
        CLI
        LDA #'*'
        JSR OSWRCH
        LDA #0
        LDX #<line_block
        LDY #>line_block
        JSR OSWORD
        BCS @escape
        LDX #<line
        LDY #>line
        JSR OSCLI
        BRA prompt
@escape:
        LDA #126
        JSR OSBYTE
        BRK
        .byte 17, "Escape", 0
title:  .byte 10, "beebtube Tube 64K", 10, 10, 13, 0
line_block:
        .word line
        .byte 200, 32, 255

; An error that no program takes: it is printed.
brkv:   LDX #$FF
        TXS
        JSR OSNEWL
        LDY #1
:       LDA (error),Y
        BEQ :+
        JSR OSWRCH
        INY
        BNE :-
:       JSR OSNEWL
        BRA prompt

; --- Registers 2 and 4: a byte at a time ---

out:    BIT R2S
        BVC out
        STA R2
        RTS
in:     BIT R2S
        BPL in
        LDA R2
        RTS
r4_in:  BIT R4S
        BPL r4_in
        LDA R4
        RTS
; The text at str + Y, up to its 0D, which comes after 255 bytes at the latest.
out_text:
        LDA (str),Y
        CPY #$FF
        BNE :+
        LDA #13
:       JSR out
        INY
        CMP #13
        BNE out_text
        RTS
; Y bytes of the block: the last comes first.
out_block:
        DEY
        LDA (blk),Y
        JSR out
        TYA
        BNE out_block
        RTS
in_block:
        DEY
        JSR in
        STA (blk),Y
        TYA
        BNE in_block
        RTS

; --- Calls ---

oswrch: BIT R1S
        BVC oswrch
        STA R1
        RTS
osrdch: LDA #$00
        JSR out
; C and A as the host has them after a call.
in_c_a: JSR in
        ASL A
        JMP in

oscli:  PHA
        STX str
        STY str+1
        LDY #$FF
@skip:  INY
        LDA (str),Y
        CMP #' '
        BEQ @skip
        CMP #'*'
        BEQ @skip
        LDX #go-words
        JSR look_up
        BCS cmd_go
        LDX #help-words
        JSR look_up
        BCC @send
        PHY
        LDX #0
:       LDA help_text,X
        JSR OSWRCH
        INX
        CPX #help_end-help_text
        BNE :-
        PLY
@send:  LDA #$02
        JSR out
        LDY #0
        JSR out_text
        JSR answer
        PLA
        RTS
; The host's answer to a command: with bit 7 set a program is entered, and comes back with RTS.
answer: JSR in
        BPL :+
        JMP enter
:       RTS

; C is set if the text at str + Y begins with the word at X, which may be shortened; Y is after it.
look_up:
        PHY
        LDA (str),Y
        CMP #'.'
        BEQ @no
@next:  LDA words,X
        BEQ @end
        LDA (str),Y
        INY
        CMP #'.'
        BEQ @yes
        AND #$DF
        INX
        CMP words-1,X
        BEQ @next
@no:    PLY
        CLC
        RTS
@end:   LDA (str),Y             ; not where the word goes on
        AND #$DF
        CMP #'A'
        BCC @yes
        CMP #'Z'+1
        BCC @no
@yes:   PLA
        SEC
        RTS
words:
go:     .byte "GO", 0
help:   .byte "HELP", 0
help_text:
        .byte 10, 13, "beebtube Tube 1", 10, 13
help_end:

; *GO, *GO ADDRESS: the current program, or one that is at an address.
cmd_go: LDX #1
:       LDA prog,X
        STA entry,X
        DEX
        BPL :-
        BRA @skip
@next:  INY
@skip:  LDA (str),Y
        CMP #' '
        BEQ @next
        CMP #13
        BEQ @enter
        STZ entry
        STZ entry+1
@digit: LDA (str),Y
        CMP #13
        BEQ @enter
        CMP #'a'
        BCC :+
        AND #$DF
:       SEC
        SBC #'0'
        CMP #10
        BCC @value
        SBC #7
        CMP #10
        BCC @bad
        CMP #16
        BCS @bad
@value: LDX #4
:       ASL entry
        ROL entry+1
        DEX
        BNE :-
        ORA entry
        STA entry
        INY
        BRA @digit
@bad:   BRK
        .byte 252, "Bad address", 0
@enter: JSR enter
        PLA
        RTS

; The program at `entry` becomes the current one. A paged ROM has to be a language of this processor.
enter:  LDA entry
        STA prog
        LDA entry+1
        STA prog+1
        LDY #7
        LDA (prog),Y
        CLC
        ADC prog
        STA str
        LDA prog+1
        ADC #0
        STA str+1
        LDY #3
:       LDA (str),Y
        CMP copyright,Y
        BNE @go
        DEY
        BPL :-
        LDY #6
        LDA (prog),Y
        BIT #$40
        BEQ @no_language
        AND #$0D                ; 0 and 2: the 6502
        BNE @not_ours
        LDA prog
        STA top
        LDA prog+1
        STA top+1
        LDA str                 ; the error is the text that is after its title
        STA error
        LDA str+1
        STA error+1
@go:    CLC
        LDA #1
        JMP (prog)
@no_language:
        BRK
        .byte 249, "This is not a language", 0
@not_ours:
        BRK
        .byte 249, "I cannot run this code", 0
copyright:
        .byte 0, "(C)"

osbyte: CMP #$80
        BCS @high
        PHA
        LDA #$04
        JSR out
        TXA
        JSR out
        PLA
        JSR out
        PHA
        JSR in
        TAX
        PLA
        RTS
@high:  CMP #$82
        BEQ @machine
        CMP #$83
        BEQ @start
        CMP #$84
        BEQ @top
        PHA
        LDA #$06
        JSR out
        TXA
        JSR out
        TYA
        JSR out
        PLA
        JSR out
        CMP #$8E                ; a language is entered
        BNE :+
        JMP answer
:       CMP #$9D                ; OSBPUT, without an answer
        BEQ @end
        PHA
        JSR in
        ASL A
        JSR in
        TAY
        JSR in
        TAX
        PLA
@end:   RTS
@machine:
        LDX #0
        LDY #0
        RTS
@start: LDX #<START
        LDY #>START
        RTS
@top:   LDX top
        LDY top+1
        RTS

osword: JSR block_at
        PHA
        TAX
        BEQ @line
        LDA #$08
        JSR out
        TXA
        JSR out
        TXA
        BPL @known
        LDY #1                  ; 80 and up: the block has both lengths
        LDA (blk),Y
        TAX
        LDA (blk)
        BRA @lengths
@known: CMP #word_out-word_in
        BCC :+
        LDX #word_out-word_in
:       LDY word_in-1,X
        LDA word_out-1,X
        TAX
        TYA
@lengths:
        TAY
        JSR out
        TYA
        BEQ :+
        JSR out_block
:       TXA
        TAY
        JSR out
        TYA
        BEQ :+
        JSR in_block
:       PLA
        RTS
@line:  LDA #$0A
        JSR out
        LDY #5
        JSR out_block
        LDA (blk)
        STA str
        LDY #1
        LDA (blk),Y
        STA str+1
        LDY #0
        JSR in
        BMI @escape
:       JSR in
        STA (str),Y
        INY
        CMP #13
        BNE :-
        DEY
        PLA
        CLC
        RTS
@escape:
        PLA
        SEC
        RTS
; The bytes that OSWORD 1 to 20 take and give, and last those of all others up to 7F.
word_in:
        .byte 0, 5, 0, 5, 5, 5, 8, 14, 4, 1, 1, 5, 0, 16, 32, 16, 13, 0, 8, 128, 16
word_out:
        .byte 5, 0, 5, 0, 5, 0, 0, 0, 5, 9, 5, 0, 8, 25, 1, 13, 13, 128, 8, 128, 16

osfile: PHY
        PHX
        JSR block_at
        PHA
        LDA (blk)               ; the name
        STA str
        LDY #1
        LDA (blk),Y
        STA str+1
        LDA blk                 ; and what is after its address
        CLC
        ADC #2
        STA blk
        BCC :+
        INC blk+1
:       LDA #$14
        JSR out
        LDY #16
        JSR out_block
        TAY
        JSR out_text
        PLA
        JSR out
        JSR in
        LDY #16
        BRA block_back
osgbpb: PHY
        PHX
        JSR block_at
        PHA
        LDA #$16
        JSR out
        LDY #13
        JSR out_block
        PLA
        JSR out
        LDY #13
        JSR in_block
        PLX
        PLY
        JMP in_c_a
block_back:
        PHA
        JSR in_block
        PLA
        PLX
        PLY
        RTS
block_at:
        STX blk
        STY blk+1
        RTS

osargs: PHA
        LDA #$0C
        JSR out
        TYA
        JSR out
        PHX
        PHY
        STX blk                 ; in page 0
        STZ blk+1
        LDY #4
        JSR out_block
        PLY
        PLX
        PLA
        JSR out
        JSR in
        PHY
        PHX
        LDY #4
        BRA block_back

osfind: PHA
        LDA #$12
        JSR out
        PLA
        JSR out
        CMP #0
        BEQ @close
        PHY
        PHX
        STX str
        STY str+1
        LDY #0
        JSR out_text
        PLX
        PLY
        JMP in
@close: TYA
        JSR out
        JSR in
        LDA #0
        RTS
osbget: LDA #$0E
        JSR out
        TYA
        JSR out
        JMP in_c_a
osbput: PHA
        LDA #$10
        JSR out
        TYA
        JSR out
        PLA
        JSR out
        PHA
        JSR in
        PLA
        RTS

; --- Calls that this side has not ---

userv:
none:   BRK
        .byte 255, "Bad", 0
nothing:
        RTS

; --- Interrupts ---

irq:    STA irq_a
        PLA
        PHA
        AND #$10
        BNE @brk
        JMP (IRQ1V)
@brk:   PHX
        TSX
        LDA $0103,X
        SEC
        SBC #1
        STA error
        LDA $0104,X
        SBC #0
        STA error+1
        PLX
        LDA irq_a
        CLI
        JMP (BRKV)
irq1:   BIT R4S
        BMI r4
        BIT R1S
        BMI r1
        JMP (IRQ2V)
irq2:   LDA irq_a
        RTI

; Register 1: the state of ESCAPE, with bit 7 set, or an event.
r1:     LDA R1
        BMI @escape
        PHX
        PHY
        JSR @in
        TAY
        JSR @in
        TAX
        JSR @in
        JSR @event
        PLY
        PLX
        LDA irq_a
        RTI
@escape:
        ASL A
        STA escape
        LDA irq_a
        RTI
@in:    BIT R1S
        BPL @in
        LDA R1
        RTS
@event: JMP (EVNTV)

; Register 4: an error, with bit 7 set, or a transfer.
r4:     LDA R4
        BPL transfer
        JSR in                  ; a byte that only says that the text follows
        STZ line
        LDY #1
        JSR in                  ; its number
        STA line,Y
:       INY
        JSR in
        STA line,Y
        BNE :-
        CLI                     ; BRKV has the stack as it is, as on the host
        JMP line
transfer:
        PHX
        PHY
        TAX
        JSR r4_in               ; whose it is
        CPX #5
        BEQ @release
        JSR r4_in               ; the address: its highest byte is the first
        JSR r4_in
        JSR r4_in
        STA move+1
        JSR r4_in
        STA move
        CPX #4
        BNE :+
        STA entry
        LDA move+1
        STA entry+1
:       LDA nmi_low,X
        STA NMIV
        LDA nmi_high,X
        STA NMIV+1
        LDA R3                  ; what is left there of an earlier transfer
        LDA R3
        TXA
        LSR A
        BCC @go
        BIT R3S                 ; to this side: no interrupt because the other way is empty
        BVC @go
        STA R3
@go:    JSR r4_in               ; now it begins
        LDY #0
        CPX #6
        BEQ @from
        BCC @end
@to:    BIT R3S
        BPL @to
        LDA R3
        STA (move),Y
        INY
        BNE @to
        BRA @end
@from:  LDA (move),Y
:       BIT R3S
        BVC :-
        STA R3
        INY
        BNE @from
        BRA @end
@release:
        LDA #<nmi_none
        STA NMIV
        LDA #>nmi_none
        STA NMIV+1
@end:   PLY
        PLX
        LDA irq_a
        RTI

; Each NMI moves what one transfer of register 3 has.
nmi_low:
        .lobytes nmi_byte_from, nmi_byte_to, nmi_pair_from, nmi_pair_to
        .lobytes nmi_none, nmi_none, nmi_none, nmi_none
nmi_high:
        .hibytes nmi_byte_from, nmi_byte_to, nmi_pair_from, nmi_pair_to
        .hibytes nmi_none, nmi_none, nmi_none, nmi_none
.macro next
        INC move
        BNE :+
        INC move+1
:
.endmacro
nmi_byte_from:
        PHA
        LDA (move)
        STA R3
        next
        PLA
        RTI
nmi_byte_to:
        PHA
        LDA R3
        STA (move)
        next
        PLA
        RTI
nmi_pair_from:
        PHA
        LDA (move)
        STA R3
        next
        LDA (move)
        STA R3
        next
        PLA
        RTI
nmi_pair_to:
        PHA
        LDA R3
        STA (move)
        next
        LDA R3
        STA (move)
        next
        PLA
        RTI
nmi_none:
        PHA
        LDA R3
        STA R3
        PLA
        RTI

vectors:
        .word userv, brkv, irq1, irq2, oscli, osbyte, osword, oswrch, osrdch
        .word osfile, osargs, osbget, osbput, osgbpb, osfind, none
        .word nothing, none, none, none, none, none, none, none
        .word none, none, none
vectors_end:

.segment "VECTORS"
        .byte vectors_end-vectors
        .word vectors
        JMP none                ; FFB9: no paged ROMs
        JMP none                ; FFBC
        JMP none                ; FFBF
        JMP none                ; FFC2: GSINIT and GSREAD are the host's
        JMP none                ; FFC5
        JMP osrdch              ; FFC8
        JMP oswrch              ; FFCB
        JMP (FINDV)
        JMP (GBPBV)
        JMP (BPUTV)
        JMP (BGETV)
        JMP (ARGSV)
        JMP (FILEV)
        JMP (RDCHV)
        CMP #13                 ; FFE3
        BNE OSWRCH
OSNEWL: LDA #10                 ; FFE7
        JSR OSWRCH
        LDA #13                 ; FFEC
OSWRCH: JMP (WRCHV)             ; FFEE
OSWORD: JMP (WORDV)             ; FFF1
OSBYTE: JMP (BYTEV)             ; FFF4
OSCLI:  JMP (CLIV)              ; FFF7
        .word nmi_none, reset, irq
        .assert OSNEWL = $FFE7 && OSWRCH = $FFEE && OSCLI = $FFF7, error, "the entry points"
