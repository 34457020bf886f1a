; A monitor as a language: memory, registers, a disassembly, and the operating system's commands.
.setcpu "6502"
OSASCI = $FFE3
OSNEWL = $FFE7
OSWRCH = $FFEE
OSWORD = $FFF1
OSBYTE = $FFF4
OSCLI  = $FFF7
BRKV   = $0202
text   = $F2            ; the text of a command, of the operating system
error  = $FD

at     = $70            ; an address that goes on
last   = $72            ; an end
number = $74
digits = $76
left   = $77
opcode = $78
regs   = $79            ; A X Y P S
pc     = $7E
block  = $80            ; of OSWORD 0
line   = $0700
escape = $FF

        JMP enter
        JMP service
        .byte $C2, <copyright, 1
title:  .byte "Monitor", 0, "1", 0
copyright = *-1
        .byte "(C) beebtube", 0

service:
        CMP #4
        BEQ @command
        CMP #9
        BNE @no
        PHA
        TYA
        PHA
        TXA
        PHA
        LDX #0
:       LDA help,X
        BEQ :+
        JSR OSASCI
        INX
        BNE :-
:       PLA
        TAX
        PLA
        TAY
        PLA
@no:    RTS
@command:                       ; *MON
        TYA
        PHA
        TXA
        PHA
        LDX #0
@next:  LDA (text),Y
        CMP #'.'
        BEQ @is
        AND #$DF
        CMP word,X
        BNE @not
        INY
        INX
        CPX #3
        BNE @next
        LDA (text),Y
        CMP #'!'
        BCS @not
@is:    PLA
        TAX
        PLA
        LDA #142
        JMP OSBYTE
@not:   PLA
        TAX
        PLA
        TAY
        LDA #4
        RTS
word:   .byte "MON"
help:   .byte 13, "Monitor 1", 13, "  MON", 13, 0

enter:  CMP #1
        BEQ :+
        RTS
:       LDX #$FF
        TXS
        CLD
        CLI
        LDA #<broken
        STA BRKV
        LDA #>broken
        STA BRKV+1
        LDX #4
        LDA #0
:       STA regs,X
        DEX
        BPL :-
        LDA #$FF
        STA regs+4
        LDA #0
        STA at
        STA pc
        LDA #$20
        STA at+1
        STA pc+1
again:  LDX #$FF
        TXS
prompt: LDA #'>'
        JSR OSWRCH
        LDX #4
:       LDA line_block,X
        STA block,X
        DEX
        BPL :-
        LDA #0
        LDX #<block
        LDY #>block
        JSR OSWORD
        BCS stopped
        JSR command
        JMP prompt
line_block:
        .word line
        .byte 120, 32, 255
stopped:
        LDA #126
        JSR OSBYTE
        BRK
        .byte 17, "Escape", 0

; BRK: registers are kept if a program did it, and the message is printed.
broken: STA regs
        STX regs+1
        STY regs+2
        JSR OSNEWL
        LDY #1
        LDA (error),Y
        BEQ @program
:       LDA (error),Y
        BEQ :+
        JSR OSASCI
        INY
        BNE :-
:       JSR OSNEWL
        JMP again
@program:
        PLA
        STA regs+3
        PLA
        PLA
        LDA error
        SEC
        SBC #1
        STA pc
        LDA error+1
        SBC #0
        STA pc+1
        TSX
        STX regs+4
        JSR registers
        JMP again

command:
        LDX #0
        JSR spaces
        CMP #13
        BEQ @end
        CMP #'*'
        BEQ @star
        AND #$DF
        LDY #letters_end-letters-1
:       CMP letters,Y
        BEQ @found
        DEY
        BPL :-
        JMP bad
@found: TYA
        ASL A
        TAY
        LDA routines+1,Y
        PHA
        LDA routines,Y
        PHA
        INX
        JSR spaces
@end:   RTS
@star:  TXA
        CLC
        ADC #<line
        TAX
        LDA #>line
        ADC #0
        TAY
        JMP OSCLI
letters:
        .byte "MDSFRGHB"
letters_end:
routines:
        .word memory-1, listing-1, set-1, fill-1, show_registers-1, go-1, help_text-1, break_at-1

help_text:
        LDX #0
:       LDA usage,X
        BEQ :+
        JSR OSASCI
        INX
        BNE :-
:       RTS
usage:  .byte "M from to     memory", 13
        .byte "D from to     disassembly", 13
        .byte "S at bytes    set memory", 13
        .byte "F from to byte  fill", 13
        .byte "R             registers", 13
        .byte "R r byte      set A, X, Y, P or S", 13
        .byte "G at          go", 13
        .byte "B at          put a BRK there", 13
        .byte "*COMMAND      operating system", 13, 0

spaces: LDA line,X
        CMP #' '
        BNE :+
        INX
        BNE spaces
:       RTS

; A hexadecimal number at X of the line: C is set if none is there.
hex:    JSR spaces
        LDA #0
        STA number
        STA number+1
        STA digits
@next:  LDA line,X
        CMP #'a'
        BCC :+
        AND #$DF
:       CMP #'0'
        BCC @end
        CMP #'9'+1
        BCC @digit
        CMP #'A'
        BCC @end
        CMP #'F'+1
        BCS @end
        SBC #6
@digit: AND #$0F
        LDY #4
:       ASL number
        ROL number+1
        DEY
        BNE :-
        ORA number
        STA number
        INX
        INC digits
        BNE @next
@end:   LDA digits
        SEC
        BEQ @no
        LDA line,X              ; a space or the end follows
        CMP #' '
        BEQ @good
        CMP #13
        BNE bad
@good:  CLC
@no:    RTS
bad:    BRK
        .byte 252, "Bad command", 0

; FROM and TO: without a TO it is FROM plus A.
range:  PHA
        JSR hex
        BCS :+
        LDA number
        STA at
        LDA number+1
        STA at+1
:       JSR hex
        PLA
        BCC :+
        CLC
        ADC at
        STA last
        LDA at+1
        ADC #0
        STA last+1
        RTS
:       LDA number
        STA last
        LDA number+1
        STA last+1
        RTS
; Is at beyond last? Then C is set.
beyond: LDA last
        CMP at
        LDA last+1
        SBC at+1
        ROL A                   ; C becomes its opposite
        EOR #1
        LSR A
        BIT escape
        BPL :+
        JMP stopped
:       RTS
next:   INC at
        BNE :+
        INC at+1
:       RTS

memory: LDA #$3F
        JSR range
@line:  LDA at+1
        JSR byte
        LDA at
        JSR byte
        LDY #0
:       JSR space
        LDA (at),Y
        JSR byte
        INY
        CPY #8
        BNE :-
        JSR space
        LDY #0
:       LDA (at),Y
        CMP #32
        BCC @dot
        CMP #127
        BCC @show
@dot:   LDA #'.'
@show:  JSR OSWRCH
        INY
        CPY #8
        BNE :-
        JSR OSNEWL
        CLC
        LDA at
        ADC #8
        STA at
        BCC :+
        INC at+1
        BEQ @end
:       JSR beyond
        BCC @line
@end:   RTS

set:    JSR hex
        BCC :+
        JMP bad
:
        LDA number
        STA at
        LDA number+1
        STA at+1
@next:  JSR hex
        BCS @end
        LDA number
        LDY #0
        STA (at),Y
        JSR next
        JMP @next
@end:   RTS

fill:   LDA #0
        JSR range
        JSR hex
        BCC @next
        JMP bad
@next:  LDA number
        LDY #0
        STA (at),Y
        JSR next
        JSR beyond
        BCC @next
        RTS

break_at:
        JSR hex
        BCC :+
        JMP bad
:       LDA number
        STA at
        LDA number+1
        STA at+1
        LDA #0
        TAY
        STA (at),Y
        RTS

go:     JSR hex
        BCS :+
        LDA number
        STA pc
        LDA number+1
        STA pc+1
:       LDA regs+3
        PHA
        LDX regs+1
        LDY regs+2
        LDA regs
        PLP
        JSR @go
        PHP
        STA regs
        STX regs+1
        STY regs+2
        PLA
        STA regs+3
        CLD
        RTS
@go:    JMP (pc)

show_registers:
        CMP #13
        BEQ registers
        LDY #4
:       CMP reg_names,Y
        BEQ :+
        DEY
        BPL :-
        JMP bad
:       TYA
        PHA
        INX
        JSR hex
        PLA
        TAY
        BCC :+
        JMP bad
:       LDA number
        STA regs,Y
registers:
        LDA #'P'
        JSR OSWRCH
        LDA #'C'
        JSR OSWRCH
        LDA #'='
        JSR OSWRCH
        LDA pc+1
        JSR byte
        LDA pc
        JSR byte
        LDX #0
:       JSR space
        LDA reg_names,X
        JSR OSWRCH
        LDA #'='
        JSR OSWRCH
        LDA regs,X
        JSR byte
        INX
        CPX #5
        BNE :-
        JMP OSNEWL
reg_names:
        .byte "AXYPS"

space:  LDA #' '
        JMP OSWRCH
byte:   PHA
        LSR A
        LSR A
        LSR A
        LSR A
        JSR @digit
        PLA
        AND #$0F
@digit: CMP #10
        BCC :+
        ADC #6
:       ADC #'0'
        JMP OSWRCH

; --- Disassembly ---

listing:
        LDA #$20
        JSR range
@line:  LDA at+1
        JSR byte
        LDA at
        JSR byte
        JSR space
        LDY #0
        LDA (at),Y
        STA opcode
        LSR A
        TAX
        LDA op_mode,X
        BCC :+
        LSR A
        LSR A
        LSR A
        LSR A
:       AND #$0F
        TAX
        STX left
        LDA lengths,X
        STA digits
        LDY #0
@bytes: LDA (at),Y              ; the bytes, in three columns
        CPY digits
        BCC @byte
        JSR space
        JSR space
        JMP @after
@byte:  JSR byte
@after: JSR space
        INY
        CPY #3
        BNE @bytes
        LDX opcode
        LDA op_name,X
        BNE @known
        LDA #'?'
        JSR OSWRCH
        JMP @next
@known: SEC                     ; three letters a name
        SBC #1
        STA number
        ASL A
        ADC number
        TAX
        LDY #3
:       LDA names,X
        JSR OSWRCH
        INX
        DEY
        BNE :-
        LDX left
        BEQ @next
        JSR space
        TXA                     ; the operand, by a text for its mode
        ASL A
        ASL A
        ASL A
        TAX
@text:  LDA operands,X
        BEQ @next
        CMP #'1'
        BEQ @one
        CMP #'2'
        BEQ @two
        CMP #'3'
        BEQ @branch
        JSR OSWRCH
@more:  INX
        BNE @text
@two:   LDY #2
        LDA (at),Y
        JSR byte
@one:   LDY #1
        LDA (at),Y
        JSR byte
        JMP @more
@branch:
        LDY #1
        LDA (at),Y
        JSR target
        LDA number+1
        JSR byte
        LDA number
        JSR byte
        JMP @more
@next:  JSR OSNEWL
        LDX digits
:       JSR next
        DEX
        BNE :-
        JSR beyond
        BCS :+
        JMP @line
:       RTS

; The target of a branch with distance A at at.
target: STA number
        LDY #0
        CMP #$80
        BCC :+
        DEY
:       STY number+1
        CLC
        LDA number
        ADC #2
        STA number
        BCC :+
        INC number+1
:       CLC
        LDA number
        ADC at
        STA number
        LDA number+1
        ADC at+1
        STA number+1
        RTS

lengths:
        .byte 1,1,2,2,2,2,3,3,3,2,2,3,2
; Eight bytes a mode: 1 is a byte, 2 an address, 3 a branch's target.
.macro operand sign
        .byte sign
        .res 8-.strlen(sign), 0
.endmacro
operands:
        operand ""
        operand "A"
        operand "#&1"
        operand "&1"
        operand "&1,X"
        operand "&1,Y"
        operand "&2"
        operand "&2,X"
        operand "&2,Y"
        operand "(&1,X)"
        operand "(&1),Y"
        operand "(&2)"
        operand "&3"
.include "opcodes.s"
