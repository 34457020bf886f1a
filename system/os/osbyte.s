; OSBYTE.

osbyte: PHA
        PHP
        SEI
        STA byte_a
        STX byte_x
        STY byte_y
        CMP #166
        BCS @variable
        CMP #22                 ; 0 to 21, and 117 to 160 behind them
        BCC @known
        CMP #117
        BCC @unknown
        CMP #161
        BCS @unknown
        SBC #117-22-1           ; C is clear
@known: ASL A
        TAX
        LDA byte_table+1,X
        STA t_from
        LDA byte_table,X
        STA t_skip
        JMP @call
@variable:
        LDA #>(osbyte_variable-1)
        STA t_from
        LDA #<(osbyte_variable-1)
        STA t_skip
        JMP @call
@unknown:
        LDA #>(osbyte_unknown-1)
        STA t_from
        LDA #<(osbyte_unknown-1)
        STA t_skip
@call:  LDX t_skip
        LDY t_from
        PLP                     ; the caller's I
        JSR @go
        PLA
        RTS
@go:    TYA
        PHA
        TXA
        PHA
        LDX byte_x
        LDY byte_y
        LDA byte_a
        CLV
        RTS

byte_table:
        .word osbyte_0-1, osbyte_1-1, osbyte_2-1, osbyte_3-1, osbyte_4-1, osbyte_5-1
        .word osbyte_6-1, nothing-1, nothing-1, osbyte_9-1, osbyte_10-1
        .word osbyte_11-1, osbyte_12-1, osbyte_13-1, osbyte_14-1, osbyte_15-1, osbyte_16-1
        .word adc_begin-1, soft_clear-1, osbyte_19-1, explode-1, osbyte_21-1
        ; 117 and up
        .word osbyte_117-1, osbyte_118-1, osbyte_119-1, osbyte_120-1, osbyte_121-1
        .word osbyte_122-1, osbyte_123-1, escape_clear-1, escape_set-1, osbyte_126-1
        .word osbyte_127-1, osbyte_128-1, osbyte_129-1, osbyte_130-1, osbyte_131-1
        .word osbyte_132-1, osbyte_133-1, osbyte_134-1, osbyte_135-1, osbyte_136-1
        .word nothing-1, insv_y-1, osbyte_139-1, nothing-1, nothing-1, enter-1
        .word service-1, osbyte_144-1, osbyte_145-1, osbyte_146-1, osbyte_147-1
        .word osbyte_148-1, osbyte_149-1, osbyte_150-1, osbyte_151-1, osbyte_152-1
        .word insert_checked-1, osbyte_154-1, osbyte_155-1, osbyte_156-1, osbyte_157-1
        .word nothing-1, nothing-1, osbyte_160-1

osbyte_unknown:
        LDX #7
        JSR service
        CPX #1
        LDX byte_x
        BCC :+
        LDX #$FF
        BIT vbit
:       RTS

osbyte_variable:
        LDY byte_a
        LDA variables-166,Y
        TAX
        AND byte_y
        EOR byte_x
        STA variables-166,Y
        LDA variables-165,Y
        TAY
        RTS

osbyte_0:
        CPX #0
        BNE :+
        BRK
        .byte 247, "beebtube OS", 0
:       LDX #1
        RTS
osbyte_1:
        LDY #user_flag-variables
        BNE swap
osbyte_4:
        TXA
        PHA
        JSR edit_end
        PLA
        TAX
        LDY #edit_state-variables
        BNE swap
osbyte_5:
        LDY #printer-variables
        JSR swap
        TXA
        PHA
        JSR osbyte_123
        LDA #5
        JSR printer_call
        PLA
        TAX
        RTS
osbyte_6:
        LDY #printer_skip-variables
        BNE swap
osbyte_9:
        LDY #flash_mark-variables
        BNE set_flash
osbyte_10:
        LDY #flash_space-variables
set_flash:
        JSR swap
        LDA #1                  ; it changes at once
        STA flash_count
        RTS
osbyte_11:
        LDY #repeat_first-variables
        BNE swap
osbyte_12:
        CPX #0
        BNE :+
        LDA #50                 ; 0: both as at the start
        STA repeat_first
        LDX #8
:       LDY #repeat_next-variables
        BNE swap
osbyte_16:
        CPX #5
        BCC :+
        LDX #4
:       TXA
        PHA
        JSR adc_begin
        PLA
        TAX
        LDY #adc_most-variables
; Variable Y becomes X: X is what it was.
swap:   TXA
        LDX variables,Y
        STA variables,Y
        RTS

; Input: 0 keyboard, 1 RS423, 2 keyboard.
osbyte_2:
        TXA
        AND #1
        LDX input_source
        STA input_source
        RTS
osbyte_3:
        LDY #destination-variables
        BNE swap

osbyte_13:
        LDA #0
        BEQ set_event
osbyte_14:
        LDA #1
set_event:
        CPX #10
        BCS @no
        LDY events,X
        STA events,X
        TYA
        TAX
@no:    RTS

osbyte_15:
        CPX #0
        BNE @input
        LDX #8
:       JSR osbyte_21
        DEX
        BPL :-
        RTS
@input: LDA input_source
        AND #1
        TAX
osbyte_21:
        CPX #9
        BCS @no
        CPX #0
        BNE :+
        LDA #0
        STA soft_length
:       TXA
        PHA
        CMP #4
        BCC :+
        CMP #8
        BCS :+
        TAY
        LDA #0
        STA snd_on-4,Y
        STA snd_amp-4,Y
:       BIT vbit
        JSR count_purge
        PLA
        TAX
@no:    RTS

osbyte_19:
        PHP
        CLI
        LDA vsync_count
:       CMP vsync_count
        BEQ :-
        PLP
        RTS

osbyte_117:
        LDX vdu_status
        RTS
osbyte_118:
        JSR leds
        LDX key_status
        RTS
osbyte_119:
        LDX #$10
        JSR service             ; a paged ROM may forbid it
        CPX #0
        BEQ no_exec
        LDA #0
        LDY spool
        BEQ exec_close
        STA spool
        JSR OSFIND
exec_close:
        LDA #0
        LDY exec
        BEQ no_exec
        STA exec
        JSR OSFIND
no_exec:
        RTS
osbyte_120:
        STX key_last
        STY key_before
        LDA #1
        STA key_active
        RTS

; X with bit 7: is that key down? Else the first key from X up.
osbyte_121:
        TXA
        BPL scan_from
        AND #$7F
        TAX
        JSR key_read
        AND #$80
        STA os_temp
        TXA
        ORA os_temp
        TAX
        RTS
osbyte_122:
        LDA #$10
; SHIFT, CTRL and the links, below 10, give no interrupt: each is looked at.
scan_from:
        TAX
@low:   CPX #$10
        BCS @scan
        JSR key_read
        BMI @end
        INX
        BNE @low
@scan:  TXA
        CLC
        JMP key_scan
@end:   RTS

osbyte_123:
        LDA #0
        STA printer_on
        RTS

; An ESCAPE is taken note of: what was under way is dropped.
osbyte_126:
        LDX #0
        BIT escape
        BPL @none
        JSR escape_clear
        LDA escape_effect
        BNE :+
        LDA #0
        STA page_lines
        JSR exec_close
        LDX #0
        JSR osbyte_15
:       LDX #$FF
@none:  RTS

osbyte_127:
        LDA #1                  ; the end of file X: FSC 1
        JMP fsc
osbyte_139:
        LDA #0                  ; *OPT: FSC 0
fsc:    JMP (FSCV)

osbyte_128:
        TXA
        BMI @buffer
        BEQ @fire
        CPX #5
        BCS @zero
        LDY adc_high-1,X
        LDA adc_low-1,X
        TAX
        RTS
@zero:  LDX #0
        LDY #0
        RTS
@fire:  LDA SYSB
        ROR A
        ROR A
        ROR A
        ROR A
        EOR #3
        AND #3
        TAX
        LDY adc_last
        LDA #0
        STA adc_last
        RTS
@buffer:
        EOR #$FF
        TAX
        CPX #9
        BCS @zero
        CPX #2                  ; inputs: what is there; outputs: the room
        CLV
        JMP count_purge

; INKEY: a key within a time, or whether a key is down.
osbyte_129:
        TYA
        BMI @key
        SEI
        STX inkey
        STY inkey+1
        CLI
@wait:  BIT escape
        BMI @escape
        JSR next_char
        BCC @got
        LDA inkey+1             ; the high byte first: an interrupt between these may borrow from it
        ORA inkey
        BNE @wait
        LDX #$FF
        LDY #$FF
        SEC
        RTS
@got:   TAX
        LDY #0
        RTS
@escape:
        LDX #27
        LDY #27
        SEC
        RTS
@key:   TXA
        BEQ @machine
        EOR #$7F
        AND #$7F
        TAX
        JSR key_read
        LDX #0
        LDY #0
        CMP #$80
        BCC :+
        DEX
        DEY
:       CLC
        RTS
@machine:
        LDX #$FF
        RTS

osbyte_130:
        LDX #$FF
        LDY #$FF
        RTS
osbyte_131:
        LDX #0
        LDY hwm
        RTS
osbyte_132:
        LDX mode
        JMP mode_start
osbyte_133:
        TXA
        AND #7
        TAX
mode_start:
        LDY mode_page,X
        LDX #0
        RTS
osbyte_134:
        LDX col
        LDY row
        BIT vdu_status
        BVC :+
        LDX in_col
        LDY in_row
:       TXA
        SEC
        SBC tw_left
        TAX
        TYA
        SEC
        SBC tw_top
        TAY
        RTS
osbyte_135:
        LDA editing
        PHA
        BEQ :+
        JSR edit_off
:       JSR read_char
        TAX
        PLA
        BEQ :+
        TXA
        PHA
        JSR edit_on
        PLA
        TAX
:       LDY mode
        RTS
osbyte_136:
        LDA #0
user_call:
        JMP (USERV)
insv_y: TYA
        JMP insert
osbyte_144:
        LDA tv_interlace
        PHA
        TYA
        AND #1
        STA tv_interlace
        LDA tv_shift
        PHA
        STX tv_shift
        PLA
        TAX
        PLA
        TAY
        RTS
osbyte_145:
        CLV
        JMP remove_y
osbyte_152:
        BIT vbit
remove_y:
        JSR remove
        TAY
        RTS
osbyte_146:
        LDY $FC00,X
        RTS
osbyte_147:
        TYA
        STA $FC00,X
        RTS
osbyte_148:
        LDY $FD00,X
        RTS
osbyte_149:
        TYA
        STA $FD00,X
        RTS
osbyte_150:
        LDY $FE00,X
        RTS
osbyte_151:
        TYA
        STA $FE00,X
        RTS
osbyte_154:
        TXA
        JMP set_ula
osbyte_155:
        TXA
        EOR #7
        STA palette_copy
        STA PALETTE
        RTS
osbyte_156:
        LDX #0
        RTS
osbyte_157:
        TXA
        JMP OSBPUT
osbyte_160:
        LDY $0301,X
        LDA $0300,X
        TAX
        RTS

; --- Function keys ---

; All strings become empty: they stand one behind the other, from their starts up to the next.
soft_clear:
        LDA #$11
        LDX #$10
:       STA soft,X
        DEX
        BPL :-
        LDA #0
        STA soft_state
        STA soft_length
        RTS
