; OSWORD.

osword: PHA
        PHP
        SEI
        STA byte_a
        STX byte_x
        STY byte_y
        CMP #14
        BCS @other
        ASL A
        TAX
        LDA word_table+1,X
        STA t_from
        LDA word_table,X
        STA t_skip
        LDX t_skip
        LDY t_from
        PLP
        JSR @go
        PLA
        RTS
@go:    TYA
        PHA
        TXA
        PHA
        LDY #0
        LDX #0
        RTS
@other: CMP #$E0
        BCC @service
        PLP
        LDX byte_x
        LDY byte_y
        JSR user_call
        PLA
        RTS
@service:
        PLP
        LDX #8
        JSR service
        CPX #0
        BEQ :+
        BIT vbit
:       PLA
        RTS

word_table:
        .word osword_0-1, osword_1-1, osword_2-1, osword_3-1, osword_4-1, osword_5-1
        .word osword_6-1, osword_7-1, osword_8-1, osword_9-1, osword_10-1, osword_11-1
        .word osword_12-1, osword_13-1

; A line: its address, its most, its lowest and highest codes. Y is its length, C is set by ESCAPE.
osword_0:
        LDY #4
:       LDA (byte_x),Y
        STA line_most-2,Y
        DEY
        CPY #1
        BNE :-
        LDA (byte_x),Y
        STA line_ptr+1
        DEY
        LDA (byte_x),Y
        STA line_ptr
        STY page_lines
        CLI
@next:  JSR OSRDCH
        BCS @escape
        CMP #127
        BEQ @delete
        CMP #21
        BEQ @all
        STA (line_ptr),Y
        CMP #13
        BEQ @end
        CPY line_most
        BCS @bell
        CMP line_low
        BCC @show
        CMP line_high
        BEQ @take
        BCS @show
@take:  INY
@show:  JSR OSWRCH
        JMP @next
@bell:  LDA #7
        BNE @show
@delete:
        CPY #0
        BEQ @next
        DEY
        LDA #127
        BNE @show
@all:   CPY #0
        BEQ @next
        LDA #127
        JSR OSWRCH
        DEY
        JMP @all
@end:   JSR OSNEWL
        CLC
@escape:
        LDA escape
        ROL A
        ROR A
        RTS

osword_1:
        LDX timer_switch
        LDY #0
:       LDA variables+$5B,X     ; the lowest byte is the last
        STA (byte_x),Y
        DEX
        INY
        CPY #5
        BNE :-
        RTS
osword_2:
        LDA timer_switch
        EOR #$0F
        TAX
        PHA
        PHP
        SEI
        LDY #0
:       LDA (byte_x),Y
        STA variables+$5B,X
        DEX
        INY
        CPY #5
        BNE :-
        PLP
        PLA
        STA timer_switch
        RTS
osword_3:
        LDX #4
:       LDA interval,X
        STA (byte_x),Y
        INY
        DEX
        BPL :-
        RTS
osword_4:
        LDX #4
        PHP
        SEI
:       LDA (byte_x),Y
        STA interval,X
        INY
        DEX
        BPL :-
        PLP
        RTS
osword_5:
        JSR io_ptr
        LDA (cmd,X)
        STA (byte_x),Y
        RTS
osword_6:
        JSR io_ptr
        LDA (byte_x),Y
        STA (cmd,X)
        RTS
io_ptr: LDA (byte_x),Y
        STA cmd
        INY
        LDA (byte_x),Y
        STA cmd+1
        LDY #4
        RTS

; The colour of a point.
osword_9:
        LDA pixels
        BEQ @none
:       LDA (byte_x),Y
        STA wx,Y
        INY
        CPY #4
        BNE :-
        JSR to_pixels
        JSR read_point
        BCC :+
@none:  LDA #$FF
:       LDY #4
        STA (byte_x),Y
        RTS
; The pattern of a character.
osword_10:
        LDA (byte_x),Y
        JSR glyph
        LDY #7
:       LDA (ptr),Y
        INY
        STA (byte_x),Y
        DEY
        DEY
        BPL :-
        RTS
osword_11:
        LDA (byte_x),Y
        AND colours
        TAX
        LDA palette,X
        INY
        STA (byte_x),Y
        LDA #0
:       INY
        STA (byte_x),Y
        CPY #4
        BNE :-
        RTS
osword_12:
        LDA (byte_x),Y
        PHA
        INY
        LDA (byte_x),Y
        TAY
        PLA
        JMP set_palette
; The last two points of graphics, in units.
osword_13:
        LDY #3
:       LDA cur,Y
        PHA
        LDA ext,Y
        PHA
        LDA old,Y
        STA cur,Y
        DEY
        BPL :-
        JSR ext_from_cur
        LDY #3
:       LDA ext,Y
        STA (byte_x),Y
        DEY
        BPL :-
        LDY #0
        LDX #4
:       PLA
        STA ext,Y
        PLA
        STA cur,Y
        INY
        DEX
        BNE :-
        LDY #0
:       LDA ext,Y
        INY
        INY
        INY
        INY
        STA (byte_x),Y
        DEY
        DEY
        DEY
        CPY #4
        BNE :-
        RTS
