; OSCLI: the commands, texts and numbers.

; Each command: its name, the high and the low byte of its routine, and what it gets in A.
.macro command name, routine, value
        .byte name, >(routine), <(routine), value
.endmacro
commands:
        command "CAT", cmd_fsc, 5
        command "FX", cmd_fx, 0
        command "BASIC", cmd_basic, 0
        command "CODE", cmd_byte, 136
        command "EXEC", cmd_exec, 0
        command "HELP", cmd_help, 0
        command "KEY", cmd_key, 0
        command "LOAD", cmd_load, 0
        command "LINE", cmd_line, 1
        command "MOTOR", cmd_byte, 137
        command "OPT", cmd_byte, 139
        command "RUN", cmd_fsc, 4
        command "ROM", cmd_byte, 141
        command "SAVE", cmd_save, 0
        command "SPOOL", cmd_spool, 0
        command "TAPE", cmd_byte, 140
        command "TV", cmd_byte, 144
        .byte $FF

oscli:  STX text
        STY text+1
        LDA #8                  ; FSC 8: a command comes
        JSR fsc
        LDY #0
@skip:  JSR skip
        INY
        CMP #'*'
        BEQ @skip
        DEY
        CMP #13
        BEQ @end
        CMP #'|'                ; a comment
        BEQ @end
        CMP #'/'
        BEQ @slash
        STY cmd_y
        LDX #0
@command:
        LDY cmd_y
@letter:
        LDA commands,X
        BMI @whole
        LDA (text),Y
        CMP #'.'
        BEQ @short
        JSR upper
        CMP commands,X
        BNE @other
        INX
        INY
        BNE @letter
@other: LDA commands,X
        BMI :+
        INX
        BNE @other
:       CMP #$FF
        BEQ @unknown
        INX
        INX
        INX
        LDA commands,X
        CMP #$FF
        BNE @command
        BEQ @unknown
@whole: LDA (text),Y            ; not where the word goes on
        JSR letter
        BCS @other
        BCC @found
@short: INY
:       LDA commands,X
        BMI @found
        INX
        BNE :-
@found: JSR skip
        LDA commands,X
        PHA
        LDA commands+1,X
        PHA
        LDA commands+2,X
        STA cmd_a
        PLA
        STA cmd
        PLA
        STA cmd+1
        LDA cmd_a
        JMP (cmd)
@end:   RTS
@slash: INY
        JSR skip
        LDA #2
        BNE fsc_text
@unknown:
        LDY cmd_y
        LDX #4
        JSR service
        CPX #0
        BEQ @end
        LDY cmd_y
        LDA #3
        BNE fsc_text
cmd_fsc:
; FSC A with the text from Y on.
fsc_text:
        PHA
        JSR text_at
        PLA
        JMP fsc
; X and Y become the address of the text from Y on.
text_at:
        TYA
        CLC
        ADC text
        TAX
        LDA #0
        ADC text+1
        TAY
        RTS

cmd_line:
        JSR text_at
        LDA #1
        JMP user_call

; The text from Y on without its spaces: A is the first, Z is set at its end.
skip:   LDA (text),Y
        CMP #' '
        BNE :+
        INY
        BNE skip
:       CMP #13
        RTS
; The same, and one comma.
comma:  JSR skip
        CMP #','
        BNE :+
        INY
        JMP skip
:       CMP #13
        RTS
upper:  CMP #'a'
        BCC :+
        CMP #'z'+1
        BCS :+
        AND #$DF
:       RTS
; C is set if A is a letter.
letter: JSR upper
        CMP #'A'
        BCC @no
        CMP #'Z'+1
        BCS @no2
        SEC
        RTS
@no2:   CLC
@no:    RTS

; --- Numbers ---

; A decimal number up to 255 from Y on: in A. C is set if none is there.
decimal:
        JSR comma
        JSR digit
        BCS @no
        STA os_temp
@more:  LDA (text),Y
        JSR digit
        BCS @end
        PHA
        LDA os_temp
        CMP #26
        BCS bad_command
        ASL A                   ; ten times
        STA os_temp
        ASL A
        ASL A
        ADC os_temp
        STA os_temp
        BCS bad_command
        PLA
        ADC os_temp
        BCS bad_command
        STA os_temp
        JMP @more
@end:   LDA os_temp
        CLC
@no:    RTS
; The digit at Y, which is passed: C is set if it is none.
digit:  SEC
        SBC #'0'
        CMP #10
        BCS :+
        INY
:       RTS
bad_command:
        BRK
        .byte 254, "Bad command", 0

; The hexadecimal digits from Y on go to four bytes at fsc_block + X. C is set if none is there.
hex:    JSR skip
        LDA #0
        STA fsc_block,X
        STA fsc_block+1,X
        STA fsc_block+2,X
        STA fsc_block+3,X
        STA save_digits
@next:  LDA (text),Y
        JSR upper
        CMP #'0'
        BCC @end
        CMP #'9'+1
        BCC @digit
        CMP #'A'
        BCC @end
        CMP #'F'+1
        BCS @end
        SBC #6                  ; C is clear: seven
@digit: AND #$0F
        STA os_temp
        STY cmd_y
        LDY #4
:       ASL fsc_block,X
        ROL fsc_block+1,X
        ROL fsc_block+2,X
        ROL fsc_block+3,X
        DEY
        BNE :-
        LDA os_temp
        ORA fsc_block,X
        STA fsc_block,X
        LDY cmd_y
        INY
        INC save_digits
        BNE @next
@end:   LDA save_digits
        CMP #1
        LDA (text),Y
        BCC :+
        CMP #' '                ; a space or the end follows
        BEQ @good
        CMP #13
        BEQ @good
        JMP bad_address
@good:  CLC
        RTS
:       SEC
        RTS
bad_address:
        BRK
        .byte 252, "Bad address", 0

; --- *FX and the commands that are OSBYTE calls ---

cmd_fx: JSR decimal
        BCS fx_bad
cmd_byte:
        STA fx_args
        LDA #0
        STA fx_args+1
        STA fx_args+2
        JSR decimal
        BCS @call
        STA fx_args+1
        JSR decimal
        BCS @call
        STA fx_args+2
@call:  JSR comma
        BNE fx_bad
        LDX fx_args+1
        LDY fx_args+2
        LDA fx_args
        JSR OSBYTE
        BVS fx_bad
        RTS
fx_bad: JMP bad_command

cmd_basic:
        LDX basic_rom
        BMI :+
        LDA #142
        JMP OSBYTE
:       JMP bad_command

cmd_help:
        STY help_y
        JSR print
        .byte 13, "beebtube OS 1", 13, 0
        LDY help_y
        LDX #9
        JMP service

; --- Function keys ---

cmd_key:
        JSR decimal
        BCS @bad
        CMP #16
        BCS @bad
        STA soft_key
        JSR comma
        SEC
        JSR gsinit
        STY cmd_y
        LDX soft_length         ; a string that is being read may not move
        BEQ :+
        BRK
        .byte 250, "Key in use", 0
@bad:   BRK
        .byte 251, "Bad key", 0
:       LDX soft_key            ; its old string goes: what is behind it moves down
        SEC
        LDA soft+1,X
        SBC soft,X
        STA os_temp
        LDA soft,X
        TAX
@down:  TXA
        CLC
        ADC os_temp
        BCS @moved
        TAY
        LDA soft,Y
        STA soft,X
        INX
        BNE @down
@moved: LDX soft_key
@less:  INX
        SEC
        LDA soft,X
        SBC os_temp
        STA soft,X
        CPX #$10
        BNE @less
        LDY cmd_y               ; the new one comes byte by byte
@byte:  JSR gsread
        BCS @done
        PHA
        STY cmd_y
        LDA soft+$10
        BEQ @bad                ; no room
        LDX soft_key
        LDA soft+1,X
        STA os_temp
        LDX soft+$10
@up:    CPX os_temp
        BEQ @put
        LDA soft-1,X
        STA soft,X
        DEX
        BNE @up
@put:   PLA
        STA soft,X
        LDX soft_key
@more:  INX
        INC soft,X
        CPX #$10
        BNE @more
        LDY cmd_y
        JMP @byte
@done:  RTS

; --- GSINIT and GSREAD: a text with | codes, and with quotes ---

; C tells that a space does not end the text. Flags: bit 7 in quotes, bit 6 spaces are taken.
gsinit: LDA #0
        ROR A
        LSR A
        STA gs_flags
        JSR skip
        CMP #34
        BNE @end
        INY
        LDA gs_flags
        ORA #$80
        STA gs_flags
        LDA (text),Y
@end:   CMP #13
        RTS

; The next character in A; C is set at the end, V if it came by a code with |!.
gsread: LDA #0
        STA gs_char
@again: LDA (text),Y
        CMP #13
        BNE :+
        BIT gs_flags
        BPL @end
        BRK
        .byte 253, "Bad string", 0
:       BIT gs_flags
        BMI @quoted
        BVS @char
        CMP #' '
        BNE @char
@end:   SEC
        RTS
@quoted:
        CMP #34
        BNE @char
        INY
        LDA (text),Y
        CMP #34                 ; two are one
        BEQ @plain
        JSR skip
        SEC
        RTS
@char:  CMP #'|'
        BNE @plain
        INY
        LDA (text),Y
        CMP #'|'
        BEQ @plain
        CMP #34
        BEQ @plain
        CMP #'!'
        BNE @control
        INY
        LDA #$80
        STA gs_char
        BNE @again
@control:
        CMP #13
        BEQ @end
        CMP #'?'
        BNE :+
        LDA #127
        BNE @plain
:       CMP #64
        BCC @plain
        AND #$1F
@plain: INY
        ORA gs_char
        CLV
        BIT gs_char
        BPL :+
        BIT vbit
:       CLC
        RTS

; --- Files ---

; The name from Y on: its address goes to the block, and Y behind it.
file_name:
        JSR skip
        BEQ @bad
        TYA
        PHA
        JSR text_at
        STX fsc_block
        STY fsc_block+1
        PLA
        TAY
        LDA (text),Y
        CMP #34
        BEQ @quoted
:       INY
        LDA (text),Y
        CMP #13
        BEQ @end
        CMP #' '
        BNE :-
@end:   JMP skip
@quoted:
        INY
        LDA (text),Y
        CMP #13
        BEQ @end
        CMP #34
        BNE @quoted
        INY
        JMP skip
@bad:   JMP bad_command

cmd_load:
        JSR file_name
        LDX #2
        JSR hex
        LDA #0
        ROL A                   ; 1: the file's own address
        STA fsc_block+6
        JSR skip
        BNE @bad
        LDA #$FF
        BNE file_call
@bad:   JMP bad_address

cmd_save:
        JSR file_name
        LDX #10
        JSR hex
        BCS @bad
        JSR skip
        CMP #'+'
        PHP
        BNE :+
        INY
:       LDX #14
        JSR hex
        BCS @bad
        PLP
        BNE @end
        LDX #0                  ; a length: the end is behind it
        CLC
        LDA #4
        STA os_temp
:       LDA fsc_block+10,X
        ADC fsc_block+14,X
        STA fsc_block+14,X
        INX
        DEC os_temp
        BNE :-
@end:   LDX #3                  ; without others the start is where it is entered and loaded
:       LDA fsc_block+10,X
        STA fsc_block+2,X
        STA fsc_block+6,X
        DEX
        BPL :-
        JSR skip
        BEQ @go
        LDX #6
        JSR hex
        BCS @bad
        JSR skip
        BEQ @go
        LDX #2
        JSR hex
        BCS @bad
        JSR skip
        BNE @bad
@go:    LDA #0
        BEQ file_call
@bad:   JMP bad_address
file_call:
        LDX #<fsc_block
        LDY #>fsc_block
        JMP OSFILE

cmd_exec:
        LDX #exec-variables
        LDA #$40
        BNE stream
cmd_spool:
        LDX #spool-variables
        LDA #$80
; The file of variable X is closed, and the one that is named is opened for A.
stream: STA fx_args
        STX fx_args+1
        STY cmd_y
        LDY variables,X
        BEQ :+
        LDA #0
        STA variables,X
        JSR OSFIND
:       LDY cmd_y
        JSR skip
        BEQ @end
        JSR text_at
        LDA fx_args
        JSR OSFIND
        TAY
        BNE :+
        BRK
        .byte 214, "File not found", 0
:       LDX fx_args+1
        TYA
        STA variables,X
@end:   RTS
