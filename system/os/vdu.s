; The VDU driver: codes, text, windows, scrolling, colours and modes.

; A is a code. C is set if the code goes to a printer that is switched on.
vdu:    BIT vdu_status
        BVC @plain
        PHA
        JSR edit_off
        PLA
        JSR vdu_act
        PHP
        JSR edit_on
        PLP
        RTS
@plain: ; falls through

vdu_act:
        LDX vdu_queue
        BEQ @first
        STA params_end-256,X    ; X is negative
        INX
        STX vdu_queue
        BNE @none
        LDX vdu_code
        DEX
        BEQ @print              ; VDU 1
        BIT vdu_status
        BMI @none
        JSR @go
@none:  CLC
        RTS
@go:    JMP (vdu_jump)
@print: LDA vdu_status
        LSR A
        RTS

@first: CMP #127
        BEQ @act
        CMP #32
        BCC @act
        BIT vdu_status
        BMI @none
        JSR show
        JMP @print
@act:   TAX
        BPL :+
        LDX #0
:       CMP #127
        BNE :+
        LDX #32                 ; DELETE is the last of the table
:       STX vdu_code
        LDA vdu_low,X
        STA vdu_jump
        LDA vdu_high,X
        STA vdu_jump+1
        LDA vdu_counts,X
        BEQ @now
        EOR #$FF
        CLC
        ADC #1
        STA vdu_queue
        CLC
        RTS
@now:   CPX #6                  ; VDU 6 acts after VDU 21
        BEQ @do
        BIT vdu_status
        BMI @none
@do:    TXA
        PHA
        JSR @go
        PLA
        CMP #8
        BCC @none
        CMP #14
        BCC @print
        CMP #32
        BEQ @print
        BNE @none

vdu_counts:
        .byte 0,1,0,0,0,0,0,0,0,0,0,0,0,0,0,0,0,1,2,5,0,0,1,9,8,5,0,0,4,4,0,2,0

.define VDU_TABLE nothing, nothing, v_printer_on, v_printer_off, v_text, v_join, v_enable, v_bell, v_left, v_right, v_down, v_up, v_clear, v_return, v_page_on, v_page_off, v_clg, v_colour, v_gcol, v_palette, v_defaults, v_disable, v_mode, v_23, v_gwindow, v_plot, v_windows, nothing, v_twindow, v_origin, v_home, v_tab, v_delete
vdu_low:  .lobytes VDU_TABLE
vdu_high: .hibytes VDU_TABLE

v_printer_on:
        LDA #2
        JSR printer_call
        LDA #$01
        BNE status_set
v_printer_off:
        LDA #3
        JSR printer_call
        LDA #$FE
        BNE status_clear
v_page_on:
        LDA #0
        STA page_lines
        LDA #$04
        BNE status_set
v_page_off:
        LDA #$FB
        BNE status_clear
v_disable:
        LDA #$80
status_set:
        ORA vdu_status
        STA vdu_status
nothing:
        RTS
v_enable:
        LDA #$7F
status_clear:
        AND vdu_status
        STA vdu_status
        RTS
v_join: LDA pixels
        BEQ nothing             ; no graphics in this mode
        LDA #$20
        JSR status_set
        LDA #$20
        JMP cursor_shape
v_text: LDA #$DF
        JSR status_clear
        LDA cursor_start
; The shape of the cursor: A goes to register 10.
cursor_shape:
        LDX #10
; Register X of the 6845 becomes A.
crtc:   STX CRTC
        STA CRTC+1
        RTS

v_bell: LDA bell                ; the channel
        AND #$07
        STA sound_block
        LDA #0
        STA sound_block+1
        STA sound_block+3
        STA sound_block+5
        STA sound_block+7
        LDA bell+1              ; an amplitude, less one, times 8; or an envelope
        BPL @env
        LSR A
        LSR A
        LSR A
        ORA #$E0
        CLC
        ADC #1
        BCC :+
        LDA #0
        BEQ :+
@env:   LSR A
        LSR A
        LSR A
        CLC
        ADC #1
:       STA sound_block+2
        BPL :+
        DEC sound_block+3
:       LDA bell+2
        STA sound_block+4
        LDA bell+3
        STA sound_block+6
        JSR sound_room          ; a full queue drops the bell
        BCS nothing
        LDX #<sound_block
        LDY #>sound_block
        LDA #7
        JMP OSWORD

; --- The place of the cursor ---

; The offset of row Y from the start of the screen goes to t0, t1.
row_offset:
        LDA #0
        STA t0
        LDA row_bytes+1
        LSR A
        BNE @wide
        BCS @half
        TYA                     ; 40 bytes: 8 and 32
        ASL A
        ASL A
        ASL A
        STA t0
        LDX #0
        STX t1
        ASL A
        ROL t1
        ASL A
        ROL t1
        ADC t0
        STA t0
        BCC :+
        INC t1
:       RTS
@half:  TYA                     ; 320 bytes: 256 and 64
        LSR A
        ROR t0
        LSR A
        ROR t0
        STA t1
        TYA
        CLC
        ADC t1
        STA t1
        RTS
@wide:  TYA                     ; 640 bytes: 512 and 128
        LSR A
        ROR t0
        STA t1
        TYA
        ASL A
        ADC t1
        STA t1
        RTS

; The byte of column X, row Y: not wrapped in t0, t1, wrapped in cell.
address:
        TXA
        PHA
        JSR row_offset
        PLA
        LDX #0
        STX t3
        LDX char_bytes
        DEX
        BEQ @add
        INX
        ASL A
        ROL t3
        ASL A
        ROL t3
        ASL A
        ROL t3
        CPX #8
        BEQ @add
        ASL A
        ROL t3
        CPX #16
        BEQ @add
        ASL A
        ROL t3
@add:   CLC
        ADC t0
        STA t0
        LDA t1
        ADC t3
        STA t1
        CLC
        LDA t0
        ADC start
        STA t0
        STA cell
        LDA t1
        ADC start+1
        STA t1
        BPL :+
        SEC
        SBC screen_len
:       STA cell+1
        RTS

; The text cursor's cell, and the 6845's cursor.
place:  LDX col
        LDY row
        JSR address
        LDA t0
        STA cursor_addr
        LDA t1
        STA cursor_addr+1
        BIT vdu_status
        BVS crtc_done           ; the input cursor has the 6845
; The 6845's cursor at t0, t1.
crtc_cursor:
        LDX #14
; Registers X and X + 1 of the 6845 become the character address of t0, t1.
crtc_address:
        LDA mode
        CMP #7
        BEQ @text
        LDA t1
        LSR A
        ROR t0
        LSR A
        ROR t0
        LSR A
        ROR t0
        JMP @put
@text:  LDA t1
        SEC
        SBC #$54
@put:   JSR crtc
        INX
        LDA t0
        JMP crtc
crtc_done:
        RTS

; --- Characters ---

show:   TAX
        LDA vdu_status
        AND #$20
        BEQ :+
        TXA
        JMP join_show
:       TXA
        JSR draw
v_right:
        LDA vdu_status
        AND #$20
        BEQ :+
        JMP join_right
:       LDX col
        CPX tw_right
        BCS :+
        INC col
        JMP place
:       LDA tw_left
        STA col
v_down: LDA vdu_status
        AND #$20
        BEQ :+
        JMP join_down
:       LDA vdu_status
        AND #$04
        BEQ @go
        JSR paged
@go:    LDX row
        CPX tw_bottom
        BCC :+
        JSR pause
        JSR scroll_up
        JMP place
:       INC row
        JMP place

v_left: LDA vdu_status
        AND #$20
        BEQ :+
        JMP join_left
:       LDX tw_left
        CPX col
        BCS :+
        DEC col
        JMP place
:       LDA tw_right
        STA col
v_up:   LDA vdu_status
        AND #$20
        BEQ :+
        JMP join_up
:       LDX tw_top
        CPX row
        BCS :+
        DEC row
        JMP place
:       JSR scroll_down
        JMP place

v_return:
        LDA vdu_status
        AND #$20
        BEQ :+
        JMP join_return
:       LDA #$BF                ; it ends cursor editing
        JSR status_clear
        LDA tw_left
        STA col
        JMP place

v_home: LDA vdu_status
        AND #$20
        BEQ home
        JMP join_home
home:   LDA tw_left
        STA col
        LDA tw_top
        STA row
        JMP place

v_tab:  LDA params_end-2
        CLC
        ADC tw_left
        BCS @no
        TAX
        LDA params_end-1
        CLC
        ADC tw_top
        BCS @no
        TAY
        CPX tw_right
        BEQ :+
        BCS @no
:       CPY tw_bottom
        BEQ :+
        BCS @no
:       STX col
        STY row
        JMP place
@no:    RTS

v_delete:
        JSR v_left
        LDA vdu_status
        AND #$20
        BEQ :+
        JMP join_delete
:       LDA #32
        JSR draw
        RTS

; In paged mode a window of lines, less a quarter, may pass before SHIFT is wanted.
paged:  LDA tw_bottom
        CMP row
        BNE @no                 ; only where it would scroll
        SEC
        SBC tw_top
        STA t4
        LSR A
        LSR A
        STA t5
        LDA t4
        SEC
        SBC t5
        CMP page_lines
        BCS @more
        LDA #0
        STA page_lines
        LDX #7                  ; both LEDs
        JSR led_on
        LDX #6
        JSR led_on
@wait:  BIT escape
        BMI @on
        JSR shift_down
        BPL @wait
@on:    JSR leds
@more:  INC page_lines
@no:    RTS

; CTRL and SHIFT together hold up a scroll.
pause:  LDX #0
        JSR key_read
        BPL @no
        INX
        JSR key_read
        BMI pause
@no:    RTS

; The pattern of character A: its address goes to ptr.
glyph:  PHA
        AND #$1F
        ASL A
        ASL A
        ASL A
        STA ptr
        PLA
        LSR A
        LSR A
        LSR A
        LSR A
        LSR A
        TAX
        LDA font_pages-1,X
        STA ptr+1
        RTS

; Character A at the cursor.
draw:   LDX mode
        CPX #7
        BNE @dots
        JSR to_teletext
        LDY #0
        STA (cell),Y
        RTS
@dots:  JSR glyph
        LDX char_bytes
        CPX #16
        BEQ @two
        BCS @four
        LDY #7
@one:   LDA (ptr),Y
        ORA text_or
        EOR text_eor
        STA (cell),Y
        DEY
        BPL @one
        RTS
@two:   LDY #7
:       LDA (ptr),Y
        PHA
        LSR A
        LSR A
        LSR A
        LSR A
        TAX
        LDA nibbles,X
        ORA text_or
        EOR text_eor
        STA (cell),Y
        TYA
        ORA #8
        TAY
        PLA
        AND #$0F
        TAX
        LDA nibbles,X
        ORA text_or
        EOR text_eor
        STA (cell),Y
        TYA
        AND #7
        TAY
        DEY
        BPL :-
        RTS
@four:  LDY #7
@row:   STY t4
        LDA (ptr),Y
        STA t5
@pair:  LDA #0
        ASL t5
        ROL A
        ASL t5
        ROL A
        TAX
        LDA pairs,X
        ORA text_or
        EOR text_eor
        STA (cell),Y
        TYA
        CLC
        ADC #8
        TAY
        CMP #32
        BCC @pair
        LDY t4
        DEY
        BPL @row
        RTS

nibbles:
        .byte $00,$11,$22,$33,$44,$55,$66,$77,$88,$99,$AA,$BB,$CC,$DD,$EE,$FF

; The teletext chip has #, _ and the pound sign at other codes.
to_teletext:
        LDX #2
:       CMP codes_sent,X
        BEQ :+
        DEX
        BPL :-
        RTS
:       LDA codes_shown,X
        RTS
from_teletext:
        LDX #2
:       CMP codes_shown,X
        BEQ :+
        DEX
        BPL :-
        RTS
:       LDA codes_sent,X
        RTS
codes_sent:  .byte $23,$5F,$60
codes_shown: .byte $5F,$60,$23

; The character at the cursor: in A, 0 if it is none.
read_char:
        LDX col
        LDY row
        BIT vdu_status
        BVC :+
        LDX in_col
        LDY in_row
:       JSR address
        LDX char_bytes
        LDY #0
        LDA (cell),Y
        DEX
        BEQ from_teletext
        LDX #$80                ; the bits of a dot, and the dots of a byte
        LDA char_bytes
        LDY #8
        CMP #16
        BCC :+
        LDX #$88
        LDY #4
        CMP #16
        BEQ :+
        LDX #$AA
        LDY #2
:       STX span_from
        STY span_n
        LDX #7
@row:   TXA
        TAY
@byte:  LDA (cell),Y
        EOR bg
        STA t5
        LDA span_n
        STA t3
@dot:   LDA t5
        AND span_from
        CMP #1                  ; C: the dot is not the background
        ROL pat,X
        ASL t5
        DEC t3
        BNE @dot
        TYA
        CLC
        ADC #8
        TAY
        CMP char_bytes
        BCC @byte
        DEX
        BPL @row
        LDA #32
        STA t5
@try:   LDA t5
        CMP #127
        BEQ @next
        JSR glyph
        LDY #7
:       LDA (ptr),Y
        CMP pat,Y
        BNE @next
        DEY
        BPL :-
        LDA t5
        RTS
@next:  INC t5
        BNE @try
        LDA #0
        RTS

; --- Clearing and scrolling ---

; t2 cells from cell on become the background.
blank_cells:
        LDA mode
        CMP #7
        BNE :+
        LDA #32
        BNE @go
:       LDA bg
@go:    STA t3
@cell:  LDY char_bytes
        LDA t3
:       DEY
        STA (cell),Y
        BNE :-
        LDX #cell
        JSR next_cell
        DEC t2
        BNE @cell
        RTS

; The pointer at X goes on by a cell, and wraps.
next_cell:
        CLC
        LDA 0,X
        ADC char_bytes
        STA 0,X
        BCC @no
        INC 1,X
        LDA 1,X
        BPL @no
        SEC
        SBC screen_len
        STA 1,X
@no:    RTS

; Row Y of the window becomes blank.
blank_row:
        LDX tw_left
        JSR address
        JSR window_width
        STA t2
        JMP blank_cells
window_width:
        SEC
        LDA tw_right
        SBC tw_left
        CLC
        ADC #1
        RTS

; Row t4 becomes what row t5 is, within the window.
copy_row:
        LDX tw_left
        LDY t5
        JSR address
        LDA cell
        STA ptr
        LDA cell+1
        STA ptr+1
        LDX tw_left
        LDY t4
        JSR address
        JSR window_width
        STA t2
@cell:  LDY char_bytes
:       DEY
        LDA (ptr),Y
        STA (cell),Y
        TYA
        BNE :-
        LDX #ptr
        JSR next_cell
        LDX #cell
        JSR next_cell
        DEC t2
        BNE @cell
        RTS

scroll_up:
        LDA vdu_status
        AND #$08
        BNE @soft
        CLC
        LDA start
        ADC row_bytes
        STA start
        LDA start+1
        ADC row_bytes+1
        BPL :+
        SEC
        SBC screen_len
:       STA start+1
        JSR show_start
        LDY tw_bottom
        JMP blank_row
@soft:  LDA tw_top
        STA t4
@row:   LDX t4
        CPX tw_bottom
        BCS @last
        INX
        STX t5
        JSR copy_row
        INC t4
        BNE @row
@last:  LDY tw_bottom
        JMP blank_row

scroll_down:
        LDA vdu_status
        AND #$08
        BNE @soft
        SEC
        LDA start
        SBC row_bytes
        STA start
        LDA start+1
        SBC row_bytes+1
        CMP screen_page
        BCS :+
        CLC
        ADC screen_len
:       STA start+1
        JSR show_start
        LDY tw_top
        JMP blank_row
@soft:  LDA tw_bottom
        STA t4
@row:   LDX t4
        CPX tw_top
        BEQ @last
        DEX
        STX t5
        JSR copy_row
        DEC t4
        BPL @row
@last:  LDY tw_top
        JMP blank_row

; The 6845 shows the screen from start on.
show_start:
        LDA start
        STA t0
        LDA start+1
        STA t1
        LDX #12
        JMP crtc_address

v_clear:
        LDA vdu_status
        AND #$20
        BEQ clear
        JSR v_clg
        JMP join_home
clear:  LDA vdu_status
        AND #$08
        BNE @soft
        LDA #0
        STA start
        STA cell
        LDA screen_page
        STA start+1
        STA cell+1
        JSR show_start
        LDX bg
        LDA mode
        CMP #7
        BNE :+
        LDX #32
:       TXA
        LDY #0
@fill:  STA (cell),Y
        INY
        STA (cell),Y
        INY
        BNE @fill
        INC cell+1
        BIT cell+1
        BPL @fill
        JMP home
@soft:  LDA tw_top
        STA t4
:       LDY t4
        JSR blank_row
        INC t4
        LDA tw_bottom
        CMP t4
        BCS :-
        JMP home

; --- Windows ---

v_windows:
        LDA #$F7
        JSR status_clear
        LDX mode
        LDA mode_right,X
        STA tw_right
        LDA mode_bottom,X
        STA tw_bottom
        LDA #0
        STA tw_left
        STA tw_top
        LDX #3
:       STA ext,X
        STA origin,X
        STA old,X
        STA cur,X
        STA gw_left,X
        DEX
        BPL :-
        JSR full_graphics
        JSR width_bytes
        JMP home
full_graphics:
        LDX mode
        LDY mode_right,X
        INY                     ; columns of eight dots each
        TYA
        STA gw_right
        LDA #0
        STA gw_right+1
        LDY #3
:       ASL gw_right
        ROL gw_right+1
        DEY
        BNE :-
        LDA gw_right
        BNE :+
        DEC gw_right+1
:       DEC gw_right
        STY gw_top+1
        LDA #255
        STA gw_top
        RTS
width_bytes:
        JSR window_width
        STA window_bytes
        LDA #0
        STA window_bytes+1
        LDA char_bytes
:       LSR A
        BCS :+
        ASL window_bytes
        ROL window_bytes+1
        BCC :-
:       RTS

v_twindow:
        LDX mode
        LDA params_end-2        ; right
        CMP params_end-4        ; left
        BCC @no
        CMP mode_right,X
        BEQ :+
        BCS @no
:       LDA params_end-3        ; bottom
        CMP params_end-1        ; top
        BCC @no
        CMP mode_bottom,X
        BEQ :+
        BCS @no
:       STA tw_bottom
        LDA params_end-1
        STA tw_top
        LDA params_end-4
        STA tw_left
        LDA params_end-2
        STA tw_right
        LDA #$08
        JSR status_set
        JSR width_bytes
        LDA tw_right
        CMP col
        BCC @home
        LDA col
        CMP tw_left
        BCC @home
        LDA tw_bottom
        CMP row
        BCC @home
        LDA row
        CMP tw_top
        BCC @home
@no:    RTS
@home:  JMP home

; --- Colours ---

; The byte of logical colour A.
colour_byte:
        AND colours
        CLC
        ADC colours
        TAX
        LDA colour_bytes,X
        RTS
colour_bytes:
        .byte $00,$00,$FF
        .byte $00,$0F,$F0,$FF
four_colours:
        .byte 0,1,3,7
pairs:  .byte $00,$55,$AA,$FF
        .byte $00,$03,$0C,$0F,$30,$33,$3C,$3F,$C0,$C3,$CC,$CF,$F0,$F3,$FC,$FF

v_colour:
        LDA params_end-1
        BMI @back
        JSR colour_byte
        STA fg
        JMP text_masks
@back:  JSR colour_byte
        STA bg
text_masks:
        LDA fg
        EOR #$FF
        STA text_eor
        EOR bg
        STA text_or
        RTS

v_gcol: LDA params_end-1
        BMI @back
        JSR colour_byte
        STA gr_fg
        LDA params_end-2
        STA gr_fg_mode
        RTS
@back:  JSR colour_byte
        STA gr_bg
        LDA params_end-2
        STA gr_bg_mode
        RTS

v_palette:
        LDA params_end-5
        LDY params_end-4
; Logical colour A becomes the actual colour Y.
set_palette:
        AND colours
        TAX
        TYA
        AND #$0F
        STA palette,X
        EOR #$07
        STA t4
        STX t5
        LDY #15
@entry: TYA                     ; the logical colour of entry Y
        LDX colours
        CPX #3
        BEQ @four
        BCS @is
        LSR A                   ; two colours: bit 3
        LSR A
        LSR A
        BPL @is
@four:  LSR A                   ; four colours: bits 3 and 1
        AND #1
        TAX
        TYA
        LSR A
        LSR A
        AND #2
        CPX #1
        ADC #0
@is:    CMP t5
        BNE @other
        TYA
        ASL A
        ASL A
        ASL A
        ASL A
        ORA t4
        STA palette_copy
        STA PALETTE
@other: DEY
        BPL @entry
        RTS

v_defaults:
        LDA #0
        STA gr_fg_mode
        STA gr_bg_mode
        STA bg
        STA gr_bg
        LDA #7
        JSR colour_byte
        STA fg
        STA gr_fg
        JSR text_masks
        LDA mode
        CMP #7
        BEQ @no
        LDX colours
@each:  TXA
        PHA
        LDY #7                  ; two colours: black and white
        LDA colours
        CMP #3
        BCC @two
        BEQ @four
        TXA
        TAY
        BCS @put
@two:   TXA
        BNE @put
        TAY
        BEQ @put
@four:  LDY four_colours,X
@put:   PLA
        PHA
        JSR set_palette
        PLA
        TAX
        DEX
        BPL @each
@no:    RTS
; --- Modes ---

mode_colours: .byte 1,3,15,1,1,3,1,0
mode_pixels:  .byte 7,3,1,0,7,3,0,0
mode_char:    .byte 8,16,32,8,8,16,8,1
mode_ula:     .byte $9C,$D8,$F4,$9C,$88,$C4,$88,$4B
mode_page:    .byte $30,$30,$30,$40,$58,$58,$60,$7C
mode_right:   .byte 79,39,19,79,39,19,39,39
mode_bottom:  .byte 31,31,31,24,31,31,24,24
mode_type:    .byte 0,0,0,1,2,2,3,4
mode_left:    .byte $80,$88,$AA,0,$80,$88,0,0
mode_ones:    .byte $01,$11,$55,0,$01,$11,0,0
; By the type of the memory map.
type_bytes:   .byte 128,128,64,64,40
type_pages:   .byte 2,2,1,1,0
type_latch4:  .byte $04,$04,$0C,$0C,$0C ; bit 4 of the latch
type_latch5:  .byte $0D,$05,$0D,$05,$05 ; bit 5
type_timing:  .byte 0,12,24,36,48
timings:      ; registers 0 to 11 of the 6845
        .byte $7F,$50,$62,$28,$26,$00,$20,$22,$01,$07,$67,$08
        .byte $7F,$50,$62,$28,$1E,$02,$19,$1B,$01,$09,$67,$09
        .byte $3F,$28,$31,$24,$26,$00,$20,$22,$01,$07,$67,$08
        .byte $3F,$28,$31,$24,$1E,$02,$19,$1B,$01,$09,$67,$09
        .byte $3F,$28,$33,$24,$1E,$02,$19,$1B,$93,$12,$72,$13

v_mode: LDA params_end-1
        AND #7
set_mode:
        TAX
        STX mode
        LDA mode_colours,X
        STA colours
        LDA mode_pixels,X
        STA pixels
        LDA mode_char,X
        STA char_bytes
        LDA mode_left,X
        STA left_mask
        LDA mode_ones,X
        STA right_mask
        LDA mode_page,X
        STA screen_page
        STA start+1
        SEC
        LDA #$80
        SBC screen_page
        STA screen_len
        LDA #0
        STA start
        LDY mode_type,X
        STY map_type
        LDA type_bytes,Y
        STA row_bytes
        LDA type_pages,Y
        STA row_bytes+1
        LDA type_latch4,Y
        STA SYSB
        LDA type_latch5,Y
        STA SYSB
        LDA vdu_status
        AND #$01                ; the printer stays on
        STA vdu_status
        LDA mode_ula,X
        JSR set_ula
        LDA #0
        STA editing
        LDX map_type
        LDY type_timing,X
        CPX #4
        BNE @timing
        TYA                     ; interlaced lines count by two: from line 0 of a row, not from an odd one
        PHA
        LDX #8
        LDA #0
        JSR crtc
        INX
        JSR crtc
        LDY #4                  ; 32 lines later it is there
        TAX
:       DEX
        BNE :-
        DEY
        BNE :-
        PLA
        TAY
@timing:
        LDX #0
@next:  LDA timings,Y
        CPX #10
        BNE :+
        STA cursor_start
:       CPX #8
        BNE :+
        EOR tv_interlace
:       CPX #7
        BNE :+
        CLC
        ADC tv_shift
:       JSR crtc
        INY
        INX
        CPX #12
        BNE @next
        JSR v_defaults
        JSR v_windows
        JMP clear

; The video ULA's control register becomes A.
set_ula:
        PHP
        SEI
        STA ula_copy
        STA ULA
        PLP
        RTS

; --- VDU 23 ---

v_23:   LDA params
        CMP #32
        BCS @define
        CMP #1
        BEQ @cursor
        BCS @other
        LDA params+1            ; VDU 23,0: a register of the 6845
        AND #31
        TAX
        LDA params+2
        CPX #7
        BNE :+
        CLC
        ADC tv_shift
:       CPX #8
        BNE :+
        EOR tv_interlace
:       CPX #10
        BNE :+
        STA cursor_start
:       JMP crtc
@cursor:
        LDA vdu_status
        AND #$20
        BNE @no
        LDA cursor_start
        LDX params+1
        BNE :+
        LDA #$20
:       JMP cursor_shape
@other: CLC
        JMP (VDUV)
@define:
        JSR own_glyph
        LDY #7
:       LDA params+1,Y
        STA (ptr),Y
        DEY
        BPL :-
@no:    RTS

; Where the pattern of character A is to be written: in RAM.
own_glyph:
        JSR glyph
        CMP #$C0
        BCC @no                 ; it is in RAM already
        LDA #>user_font         ; in its place one of the 32 characters that are always there
        STA ptr+1
@no:    RTS

; OSBYTE 20: X blocks of 32 characters have memory of their own.
explode:
        LDX #6
:       LDA font_rom,X
        STA font_pages,X
        DEX
        BPL :-
        LDA byte_x
        CMP #7
        BCC :+
        LDA #6
:       STA font_state
        LDY hwm_primary
        LDX #1                  ; the first block has 0C00
@block: CPX font_state
        BEQ :+
        BCS @done
:       STX t3
        LDA font_order,X
        TAX
        LDA font_pages,X
        STA ptr+1
        STY cell+1
        TYA
        STA font_pages,X
        LDY #0
        STY ptr
        STY cell
:       LDA (ptr),Y
        STA (cell),Y
        INY
        BNE :-
        LDY cell+1
        INY
        LDX t3
        INX
        BNE @block
@done:  STY hwm
        LDX #$11                ; paged ROMs hear of it
        JSR service
        LDX hwm
        RTS
font_rom:   .byte >font, >font+1, >font+2, >user_font, >user_font, >user_font, >user_font
font_order: .byte 3, 4, 5, 6, 0, 1, 2

; --- Cursor editing: the output cursor is a block, and the 6845 shows the input cursor ---

; The block is taken away before a code acts.
edit_off:
        LDA editing
        BEQ edit_done
        LDA #0
        STA editing
        LDX col
        LDY row
        JSR address
        LDA mode
        CMP #7
        BNE edit_flip
        LDA under
        LDY #0
        STA (cell),Y
        RTS
edit_flip:
        LDY char_bytes
:       DEY
        LDA (cell),Y
        EOR #$FF
        STA (cell),Y
        TYA
        BNE :-
edit_done:
        RTS
; It is shown again, where editing goes on.
edit_on:
        BIT vdu_status
        BVC edit_done
        LDA editing
        BNE edit_done
        INC editing
        JSR place
        LDA mode
        CMP #7
        BNE @flip
        LDY #0
        LDA (cell),Y
        STA under
        LDA #$7F
        STA (cell),Y
        BNE @in
@flip:  JSR edit_flip
@in:    LDX in_col
        LDY in_row
        JSR address
        JMP crtc_cursor

; Editing begins.
edit_begin:
        BIT vdu_status
        BVS edit_done
        LDA vdu_status
        AND #$A0                ; not after VDU 21 or VDU 5
        BNE edit_done
        LDA col
        STA in_col
        LDA row
        STA in_row
        LDA #$40
        JSR status_set
        JMP edit_on
; Editing ends.
edit_end:
        BIT vdu_status
        BVC edit_done
        JSR edit_off
        LDA #$BF
        JSR status_clear
        JMP place

; The input cursor moves by a cursor key: A is 8C left, 8D right, 8E down, 8F up.
edit_move:
        PHA
        JSR edit_begin
        JSR edit_off
        PLA
        BIT vdu_status
        BVC edit_done
        CMP #$8D
        BEQ @right
        BCC @left
        CMP #$8E
        BEQ @down
@up:    LDA in_row
        CMP tw_top
        BEQ @top
        DEC in_row
        JMP edit_on
@top:   LDA tw_bottom
        STA in_row
        JMP edit_on
@down:  LDA in_row
        CMP tw_bottom
        BEQ @bottom
        INC in_row
        JMP edit_on
@bottom:
        LDA tw_top
        STA in_row
        JMP edit_on
@left:  LDA in_col
        CMP tw_left
        BEQ :+
        DEC in_col
        JMP edit_on
:       LDA tw_right
        STA in_col
        JMP @up
@right: LDA in_col
        CMP tw_right
        BEQ :+
        INC in_col
        JMP edit_on
:       LDA tw_left
        STA in_col
        JMP @down

; COPY: the character under the input cursor, 0 with a bell if there is none.
edit_copy:
        BIT vdu_status
        BVC @no
        JSR edit_off
        JSR read_char
        PHA
        JSR edit_on
        PLA
        BEQ @no
        PHA
        LDA #$8D
        JSR edit_move
        PLA
        RTS
@no:    LDA #7
        JSR OSWRCH
        LDA #0
        RTS
