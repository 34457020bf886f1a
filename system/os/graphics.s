; Graphics: PLOT, windows, VDU 5, and reading a pixel.

; --- Points ---

; The plotted colour by A, the last two bits of a plot code: 1 foreground, 2 inverse, 3 background.
plot_colour:
        AND #3
        CMP #2
        BEQ mask_invert
        BCS @back
        LDX gr_fg_mode
        LDA gr_fg
        JMP colour_masks
@back:  LDX gr_bg_mode
        LDA gr_bg
; The masks of the byte A with action X: 0 store, 1 OR, 2 AND, 3 EOR, 4 invert.
colour_masks:
        DEX
        BMI mask_store
        BEQ mask_or
        DEX
        BEQ mask_and
        DEX
        BEQ mask_eor
mask_invert:
        LDX #0
        LDA #$FF
        BNE mask_put
mask_store:
        LDX #$FF
        EOR #$FF
        JMP mask_put
mask_or:
        STA gr_or
        LDA #0
        STA gr_eor
        RTS
mask_and:
        EOR #$FF
        STA gr_or
        STA gr_eor
        RTS
mask_eor:
        LDX #0
mask_put:
        STX gr_or
        STA gr_eor
        RTS
plot_invert:
        LDX #4
        BNE colour_masks

; C is set if the point wx, wy is outside the graphics window.
outside:
        LDX #0
        JSR @axis
        BCS @no
        LDX #2
@axis:  SEC                     ; below the lower bound?
        LDA wx,X
        SBC gw_left,X
        LDA wx+1,X
        SBC gw_left+1,X
        BVC :+
        EOR #$80
:       ASL A
        BCS @no
        SEC                     ; above the upper one?
        LDA gw_right,X
        SBC wx,X
        LDA gw_right+1,X
        SBC wx+1,X
        BVC :+
        EOR #$80
:       ASL A
@no:    RTS

; The sides of the window beyond which the point wx, wy is: in A, a bit for each of the four.
sides_of:
        LDA #0
        STA t5
        LDX #2
@axis:  SEC
        LDA gw_right,X
        SBC wx,X
        LDA gw_right+1,X
        SBC wx+1,X
        JSR signed
        ROL t5
        SEC
        LDA wx,X
        SBC gw_left,X
        LDA wx+1,X
        SBC gw_left+1,X
        JSR signed
        ROL t5
        DEX
        DEX
        BPL @axis
        LDA t5
        RTS

; The byte of the point wx, wy goes to gr_ptr, its mask to mask.
point:  LDA wy
        EOR #$FF
        PHA
        LSR A
        LSR A
        LSR A
        TAY
        JSR row_offset
        PLA
        AND #7
        ORA t0
        STA t0
        LDA wx+1
        STA t3
        LDA wx
        LDX pixels
        CPX #3
        BEQ @four
        BCS @eight
        ASL A
        ROL t3
@four:  ASL A
        ROL t3
@eight: AND #$F8
        CLC
        ADC t0
        STA t0
        LDA t1
        ADC t3
        STA t1
        CLC
        LDA t0
        ADC start
        STA gr_ptr
        LDA t1
        ADC start+1
        BPL :+
        SEC
        SBC screen_len
:       STA gr_ptr+1
        LDA wx
        AND pixels
        TAX
        LDA left_mask
@shift: DEX
        BMI :+
        LSR A
        BPL @shift
:       STA mask
        RTS

; The point wx, wy is plotted, if it is in the window.
plot_point:
        JSR outside
        BCS plot_done
        JSR point
; The masked pixels of the byte at gr_ptr are plotted.
plot_byte:
        LDY #0
        LDA gr_or
        AND mask
        ORA (gr_ptr),Y
        STA t5
        LDA gr_eor
        AND mask
        EOR t5
        STA (gr_ptr),Y
plot_done:
        RTS

; The logical colour of the point wx, wy: in A; C is set outside the window.
read_point:
        JSR outside
        BCS plot_done
        JSR point
        LDA wx
        AND pixels
        TAX
        LDY #0
        LDA (gr_ptr),Y
@shift: DEX
        BMI @bits
        ASL A
        JMP @shift
@bits:  LDX pixels
        STY t5
        CPX #3
        BEQ @two
        BCS @one
        ASL A                   ; bits 7, 5, 3, 1
        ROL t5
        ASL A
        ASL A
        ROL t5
        ASL A
        ASL A
        ROL t5
        ASL A
        ASL A
        JMP @last
@two:   ASL A                   ; bits 7, 3
        ROL t5
        ASL A
        ASL A
        ASL A
@one:   ASL A
@last:  ROL t5
        LDA t5
        CLC
        RTS

; --- Spans ---

; The points from xa to xb at height wy are plotted, within the window.
span:   LDX #2
        JSR outside_y
        BCS plot_done
        SEC                     ; xa to the left of xb
        LDA xb
        SBC xa
        LDA xb+1
        SBC xa+1
        BVC :+
        EOR #$80
:       BPL @order
        LDX #1
:       LDA xa,X
        LDY xb,X
        STA xb,X
        TYA
        STA xa,X
        DEX
        BPL :-
@order: SEC                     ; xa from the window's left edge on
        LDA xa
        SBC gw_left
        LDA xa+1
        SBC gw_left+1
        BVC :+
        EOR #$80
:       BPL @left
        LDX #1
:       LDA gw_left,X
        STA xa,X
        DEX
        BPL :-
@left:  SEC
        LDA gw_right
        SBC xb
        LDA gw_right+1
        SBC xb+1
        BVC :+
        EOR #$80
:       BPL @right
        LDX #1
:       LDA gw_right,X
        STA xb,X
        DEX
        BPL :-
@right: SEC
        LDA xb
        SBC xa
        LDA xb+1
        SBC xa+1
        BVC :+
        EOR #$80
:       BPL :+
        RTS
:       LDA xa
        STA wx
        LDA xa+1
        STA wx+1
        JSR point
        LDA xb                  ; whole bytes between both ends
        ORA pixels
        SEC
        SBC xa
        STA span_n
        LDA xb+1
        SBC xa+1
        LDX pixels
:       LSR A
        ROR span_n
        PHA
        TXA
        LSR A
        TAX
        PLA
        CPX #0
        BNE :-
        JSR from_mask           ; from the first point on
        STA span_from
        LDA xb
        AND pixels
        TAX
        LDA left_mask
:       DEX
        BMI :+
        LSR A
        BPL :-
:       STA mask
        JSR from_mask
        EOR #$FF
        ORA mask                ; up to the last point
        LDX span_n
        BNE @many
        AND span_from
        STA mask
        JMP plot_byte
@many:  PHA
        LDA span_from
        STA mask
        JSR plot_byte
        LDA #$FF
        STA mask
@next:  CLC
        LDA gr_ptr
        ADC #8
        STA gr_ptr
        BCC :+
        INC gr_ptr+1
        LDA gr_ptr+1
        BPL :+
        SBC screen_len          ; C is set
        STA gr_ptr+1
:       DEC span_n
        BEQ @end
        JSR plot_byte
        JMP @next
@end:   PLA
        STA mask
        JMP plot_byte

; The mask of the point in mask and all points to its right in the byte: in A.
from_mask:
        LDA mask
        STA t5
:       LSR t5
        BCS :+
        ORA t5
        BCC :-
:       RTS

; C is set if wy is outside the window.
outside_y:
        SEC
        LDA wy
        SBC gw_bottom
        LDA wy+1
        SBC gw_bottom+1
        BVC :+
        EOR #$80
:       ASL A
        BCS @no
        SEC
        LDA gw_top
        SBC wy
        LDA gw_top+1
        SBC wy+1
        BVC :+
        EOR #$80
:       ASL A
@no:    RTS

v_clg:  LDA pixels
        BEQ @no
        LDA #3
        JSR plot_colour
        LDA gw_bottom
        STA wy
        LDA gw_bottom+1
        STA wy+1
@row:   LDX #1
:       LDA gw_left,X
        STA xa,X
        LDA gw_right,X
        STA xb,X
        DEX
        BPL :-
        JSR span
        LDA wy
        CMP gw_top
        INC wy
        BCC @row
@no:    RTS

; --- Windows and origin ---

v_origin:
        LDX #3
:       LDA params_end-4,X
        STA origin,X
        DEX
        BPL :-
        JMP ext_from_cur

; The corners come as left, bottom, right, top.
v_gwindow:
        LDA pixels
        BEQ @no
        LDX #0
        JSR @corner
        LDX #4
        JSR @corner
        LDX #2                  ; left is not above right, nor bottom above top
@order: SEC
        LDA new+4,X
        SBC new,X
        LDA new+5,X
        SBC new+1,X
        BMI @no
        DEX
        DEX
        BPL @order
        LDA new+1
        ORA new+3
        BMI @no
        JSR @beyond
        BCS @no
        LDX #7
:       LDA new,X
        STA gw_left,X
        DEX
        BPL :-
@no:    RTS
@corner:
        LDY #0
:       LDA params_end-8,X
        STA wx,Y
        INX
        INY
        CPY #4
        BNE :-
        TXA
        PHA
        JSR to_pixels
        PLA
        TAX
        LDY #3
:       DEX
        LDA wx,Y
        STA new,X
        DEY
        BPL :-
        RTS
@beyond:                        ; right and top within the screen
        LDX mode
        LDA mode_right,X
        STA t0
        LDA new+5
        LSR A
        STA t1
        LDA new+4
        ROR A
        LSR t1
        ROR A
        LSR t1
        ROR A
        LDX t1
        BNE @yes
        CMP t0
        BEQ :+
        BCS @yes
:       LDA new+7
        BNE @yes
        CLC
        RTS
@yes:   SEC
        RTS

; wx, wy in units of 1280 by 1024 from the origin become pixels.
to_pixels:
        LDX #0
        JSR @add
        LDX #2
        JSR @add
        LDX #2
        JSR @half
        JSR @half
        JSR x_shift
        LDX #0
:       JSR @half
        DEY
        BNE :-
        RTS
@half:  LDA wx+1,X
        CMP #$80
        ROR wx+1,X
        ROR wx,X
        RTS
@add:   CLC
        LDA wx,X
        ADC origin,X
        STA wx,X
        LDA wx+1,X
        ADC origin+1,X
        STA wx+1,X
        RTS

; Y: a unit along x is so many halvings away from a pixel: 1 for 640 pixels, 2 for 320, 3 for 160.
x_shift:
        LDY #1
        LDX mode
        LDA mode_right,X
:       CMP #79
        BCS :+
        SEC
        ROL A
        INY
        BNE :-
:       RTS

; The graphics cursor in units, from the one in pixels.
ext_from_cur:
        LDX #3
:       LDA cur,X
        STA ext,X
        DEX
        BPL :-
        LDX #2
        JSR @twice
        JSR @twice
        JSR x_shift
        LDX #0
:       JSR @twice
        DEY
        BNE :-
        JSR @less
        LDX #2
@less:  SEC
        LDA ext,X
        SBC origin,X
        STA ext,X
        LDA ext+1,X
        SBC origin+1,X
        STA ext+1,X
        RTS
@twice: ASL ext,X
        ROL ext+1,X
        RTS

; --- PLOT ---

v_plot: LDA pixels
        BNE :+
        SEC
        JMP (VDUV)
:       LDA params_end-5
        STA plot_k
        LDX #3
@new:   LDA params_end-4,X
        STA wx,X
        DEX
        BPL @new
        LDA plot_k
        AND #4
        BNE @absolute
        LDX #0
        JSR @add
        LDX #2
        JSR @add
@absolute:
        LDX #3
:       LDA wx,X
        STA ext,X
        DEX
        BPL :-
        JSR to_pixels
        LDX #3
:       LDA wx,X
        STA new,X
        DEX
        BPL :-
        LDA plot_k
        AND #3
        BEQ @done
        CMP #2
        BEQ :+
        JSR plot_colour
        JMP :++
:       JSR plot_invert
:       LDA plot_k
        BPL :+
        JMP @unknown
:       CMP #64
        BCC @line
        AND #$38
        BEQ @point
        CMP #$08
        BEQ @sides
        CMP #$10
        BEQ @triangle
        CMP #$18
        BEQ @side
@unknown:
        SEC
        JSR @user
        JMP @done
@user:  JMP (VDUV)
@line:  JSR line
        JMP @done
@point: JSR plot_point
        JMP @done
@triangle:
        JSR triangle
        JMP @done
@sides: LDA #1
        BNE :+
@side:  LDA #0
:       JSR sides
@done:  LDX #3
:       LDA cur,X
        STA old,X
        LDA new,X
        STA cur,X
        DEX
        BPL :-
        RTS
@add:   CLC
        LDA wx,X
        ADC ext,X
        STA wx,X
        LDA wx+1,X
        ADC ext+1,X
        STA wx+1,X
        RTS

; From the new point to the right, and to the left too where A is 1. PLOT 72 to 79 fills while
; the points have the background's colour, 88 to 95 until one has it.
sides:  PHA
        LDX #3
:       LDA new,X
        STA wx,X
        DEX
        BPL :-
        JSR @is
        BNE @none
        JSR @bounds
        PLA
        BEQ @right
@left:  JSR @less
        JSR @is
        BNE @right
        LDX #1
:       LDA wx,X
        STA xa,X
        DEX
        BPL :-
        BMI @left
@right: LDX #1
:       LDA new,X
        STA wx,X
        DEX
        BPL :-
@more:  INC wx
        BNE :+
        INC wx+1
:       JSR @is
        BNE @fill
        LDX #1
:       LDA wx,X
        STA xb,X
        DEX
        BPL :-
        BMI @more
@fill:  LDX #1                  ; the cursor goes to the right end, and before it to the left one
:       LDA xb,X
        STA new,X
        DEX
        BPL :-
        JSR @keep
        JMP span
@none:  PLA
        RTS
@bounds:
        LDX #1
:       LDA wx,X
        STA xa,X
        STA xb,X
        DEX
        BPL :-
        RTS
@less:  LDA wx
        BNE :+
        DEC wx+1
:       DEC wx
        RTS
; Z is set if the point wx, wy is to be filled.
@is:    JSR read_point
        BCS @out
        PHA
        LDA gr_bg
        JSR byte_colour
        STA t5
        LDA plot_k
        AND #$10
        BNE @until
        PLA
        CMP t5
        RTS
@until: PLA
        CMP t5
        BEQ @out
        LDA #0
        RTS
@out:   LDA #1
        RTS
@keep:  LDX #3                  ; cur in units follows
:       LDA new,X
        STA cur,X
        DEX
        BPL :-
        JSR ext_from_cur
        LDX #1
:       LDA xa,X
        STA cur,X
        DEX
        BPL :-
        RTS

; The logical colour of the byte A of eight dots.
byte_colour:
        STA t4
        LDA colours
:       PHA
        JSR colour_byte
        CMP t4
        BEQ :+
        PLA
        SEC
        SBC #1
        BPL :-
        LDA #0
        RTS
:       PLA
        RTS

; --- Lines ---

; From cur to new. Of the plot code bit 3 leaves the last point out, bit 5 the first, and bit 4
; each second one.
line:   LDX #2                  ; differences and directions
@axis:  SEC
        LDA new,X
        SBC cur,X
        STA dx,X
        LDA new+1,X
        SBC cur+1,X
        STA dx+1,X
        LDY #1
        ASL A
        BCC :+
        SEC
        LDA #0
        SBC dx,X
        STA dx,X
        LDA #0
        SBC dx+1,X
        STA dx+1,X
        LDY #$FF
:       TYA
        PHA
        LDA cur,X
        STA wx,X
        LDA cur+1,X
        STA wx+1,X
        DEX
        DEX
        BPL @axis
        PLA
        STA sx
        PLA
        STA sy
        LDA plot_k              ; a whole line along x is a span
        AND #$38
        BNE @steps
        LDA dy
        ORA dy+1
        BNE @steps
        LDX #1
:       LDA cur,X
        STA xa,X
        LDA new,X
        STA xb,X
        DEX
        BPL :-
        JMP span
@steps: LDA #0                  ; with both ends in the window the byte goes along with the point
        STA dots
        JSR sides_of
        STA fast
        LDX #3
:       LDA new,X
        STA wx,X
        DEX
        BPL :-
        JSR sides_of
        TAX
        AND fast
        BEQ :+
        RTS                     ; both ends are beyond the same side
:       TXA
        ORA fast
        STA fast
        LDX #3
:       LDA cur,X
        STA wx,X
        DEX
        BPL :-
        LDA fast
        BNE :+
        JSR point
:
        LDX #0                  ; X, Y: the longer axis and the shorter one
        LDY #2
        LDA dx
        CMP dy
        LDA dx+1
        SBC dy+1
        BCS :+
        LDX #2
        LDY #0
:       STX lx
        STY ly
        LDA dx,X
        STA count
        LDA dx+1,X
        STA count+1
        LSR A
        STA err+1
        LDA dx,X
        ROR A
        STA err
        LDA plot_k
        AND #$20
        BNE @step
@point: LDA plot_k
        AND #$10
        BEQ :+
        LDA dots
        EOR #1
        STA dots
        BEQ @step
:       LDA plot_k              ; is it the last, and left out?
        AND #$08
        BEQ :+
        LDA count
        ORA count+1
        BEQ @done
:       LDA fast
        BNE @slow
        JSR plot_byte
        JMP @step
@slow:  JSR plot_point
@step:  LDA count
        BNE :+
        ORA count+1
        BEQ @done
        DEC count+1
:       DEC count
        LDX lx
        JSR @move
        LDY ly
        SEC
        LDA err
        SBC dx,Y
        STA err
        LDA err+1
        SBC dx+1,Y
        STA err+1
        BCS @point
        LDX lx
        LDA err
        ADC dx,X                ; C is clear
        STA err
        LDA err+1
        ADC dx+1,X
        STA err+1
        LDX ly
        JSR @move
        JMP @point
@done:  RTS
@move:  LDA fast
        BEQ step_byte
        LDA sx
        CPX #0
        BEQ :+
        LDA sy
:       ASL A
        BCS @back
        INC wx,X
        BNE :+
        INC wx+1,X
:       RTS
@back:  LDA wx,X
        BNE :+
        DEC wx+1,X
:       DEC wx,X
        RTS

; The byte and its mask move by a point along axis X: 0 by sx, 2 by sy.
step_byte:
        CPX #0
        BNE @y
        LDA sx
        BMI @left
        LSR mask
        BCC @end
        LDA left_mask
        STA mask
        CLC
        LDA gr_ptr
        ADC #8
        STA gr_ptr
        BCC @end
        INC gr_ptr+1
        LDA gr_ptr+1
        BPL @end
        SBC screen_len          ; C is set
        STA gr_ptr+1
        RTS
@left:  ASL mask
        BCC @end
        LDA right_mask
        STA mask
        LDA gr_ptr
        SBC #8                  ; C is set
        STA gr_ptr
        BCS @end
        DEC gr_ptr+1
@below: LDA gr_ptr+1
        CMP screen_page
        BCS @end
        ADC screen_len          ; C is clear
        STA gr_ptr+1
@end:   RTS
@y:     LDA gr_ptr
        AND #7
        BIT sy
        BMI @down
        TAX
        BEQ @row
        DEC gr_ptr
        RTS
@row:   SEC
        LDA gr_ptr
        SBC row_bytes
        ORA #7
        STA gr_ptr
        LDA gr_ptr+1
        SBC row_bytes+1
        STA gr_ptr+1
        BNE @below
@down:  CMP #7
        BEQ @next
        INC gr_ptr
        RTS
@next:  LDA gr_ptr
        AND #$F8
        CLC
        ADC row_bytes
        STA gr_ptr
        LDA gr_ptr+1
        ADC row_bytes+1
        BPL :+
        SEC
        SBC screen_len
:       STA gr_ptr+1
        RTS

; --- Triangles ---

; The triangle of old, cur and new: a span a line between two edges.
triangle:
        LDA #$0F                ; nothing to do if all points are beyond the same side
        STA fast
        LDY #0
@point: LDX #0
:       LDA old,Y
        STA wx,X
        INY
        INX
        CPX #4
        BNE :-
        JSR @sides
        CPY #4
        BEQ @second
        LDX #3
:       LDA new,X
        STA wx,X
        DEX
        BPL :-
        JSR @sides
        BEQ @sort
@none:  RTS
@second:
        LDY #cur-old
        BNE @point
@sides: JSR sides_of
        AND fast
        STA fast
        RTS
@sort:  LDX #3
:       LDA old,X
        STA pts,X
        LDA cur,X
        STA pts+4,X
        LDA new,X
        STA pts+8,X
        DEX
        BPL :-
        LDX #0                  ; in order of height
        JSR @order
        LDX #4
        JSR @order
        LDX #0
        JSR @order
        LDA pts+2
        STA wy
        LDA pts+3
        STA wy+1
        CMP pts+11
        BNE @edges
        LDA pts+2
        CMP pts+10
        BNE @edges
        LDX #0                  ; it is flat: one span over all three
        JSR @flat
        LDX #4
        JSR @flat
        LDX #0
        JSR @flat
        LDX #1
:       LDA pts,X
        STA xa,X
        LDA pts+8,X
        STA xb,X
        DEX
        BPL :-
        JMP span
@edges: LDX #0                  ; the long edge, and the lower short one
        LDY #0
        LDA #8
        JSR edge_from
        LDX #9
        LDY #0
        LDA #4
        JSR edge_from
@line:  LDA wy                  ; the upper short edge begins at the middle point
        CMP pts+6
        BNE @span
        LDA wy+1
        CMP pts+7
        BNE @span
        LDX #9
        LDY #4
        LDA #8
        JSR edge_from
@span:  LDX #1
:       LDA edge,X
        STA xa,X
        LDA edge+9,X
        STA xb,X
        DEX
        BPL :-
        JSR span
        LDA wy
        CMP pts+10
        BNE :+
        LDA wy+1
        CMP pts+11
        BEQ @done
:       INC wy
        BNE :+
        INC wy+1
:       LDX #0
        JSR edge_step
        LDX #9
        JSR edge_step
        JMP @line
@done:  RTS
; Points X and X + 4 in order of y, or of x.
@flat:  SEC
        LDA pts+4,X
        SBC pts,X
        LDA pts+5,X
        SBC pts+1,X
        JMP @signed
@order: SEC
        LDA pts+6,X
        SBC pts+2,X
        LDA pts+7,X
        SBC pts+3,X
@signed:
        BVC :+
        EOR #$80
:       BPL @done
        LDY #4
:       LDA pts,X
        PHA
        LDA pts+4,X
        STA pts,X
        PLA
        STA pts+4,X
        INX
        DEY
        BNE :-
        RTS

; Edge X, an offset, goes from point Y to point A: x, error, dx, dy, direction.
edge_from:
        STY t4
        STA t3
        LDA pts,Y
        STA edge,X
        LDA pts+1,Y
        STA edge+1,X
        LDY t3
        LDA pts+2,Y
        LDY t4
        SEC
        SBC pts+2,Y
        STA edge+6,X
        LDY t3
        LDA pts+3,Y
        LDY t4
        SBC pts+3,Y
        STA edge+7,X
        LSR A
        STA edge+3,X
        LDA edge+6,X
        ROR A
        STA edge+2,X
        LDA #1
        STA edge+8,X
        LDY t3
        LDA pts,Y
        LDY t4
        SEC
        SBC pts,Y
        STA edge+4,X
        LDY t3
        LDA pts+1,Y
        LDY t4
        SBC pts+1,Y
        STA edge+5,X
        BPL :+
        LDA #0
        STA edge+8,X
        SEC
        SBC edge+4,X
        STA edge+4,X
        LDA #0
        SBC edge+5,X
        STA edge+5,X
:       RTS

; Edge X goes up by one line.
edge_step:
        CLC
        LDA edge+2,X
        ADC edge+4,X
        STA edge+2,X
        LDA edge+3,X
        ADC edge+5,X
        STA edge+3,X
        LDA edge+6,X
        ORA edge+7,X
        BEQ @done
@less:  LDA edge+2,X
        CMP edge+6,X
        LDA edge+3,X
        SBC edge+7,X
        BCC @done
        STA edge+3,X
        LDA edge+2,X
        SBC edge+6,X            ; C is set: the borrow is in the byte above already
        STA edge+2,X
        LDA edge+8,X
        BEQ @back
        INC edge,X
        BNE @less
        INC edge+1,X
        JMP @less
@back:  LDA edge,X
        BNE :+
        DEC edge+1,X
:       DEC edge,X
        JMP @less
@done:  RTS

; --- VDU 5: characters at the graphics cursor ---

join_show:
        JSR glyph
        LDY #7
:       LDA (ptr),Y
        STA pat,Y
        DEY
        BPL :-
        LDA #1
        JSR plot_colour
        JSR join_pattern
        JMP join_right
join_delete:
        LDY #7
        LDA #$FF
:       STA pat,Y
        DEY
        BPL :-
        LDA #3
        JSR plot_colour
join_pattern:
        LDA cur+2
        STA wy
        LDA cur+3
        STA wy+1
        LDY #0
@row:   STY lx
        LDA pat,Y
        STA ly
        LDA cur
        STA wx
        LDA cur+1
        STA wx+1
@dot:   ASL ly
        BCC :+
        JSR plot_point
:       INC wx
        BNE :+
        INC wx+1
:       LDA ly
        BNE @dot
        LDA wy
        BNE :+
        DEC wy+1
:       DEC wy
        LDY lx
        INY
        CPY #8
        BNE @row
        RTS

join_right:
        LDX #0
        JSR join_more
        LDX #0
        JSR beyond
        BCC join_end
        JSR join_return
join_down:
        LDX #2
        JSR join_less
        LDX #2
        JSR short
        BCC join_end
        LDX #1
:       LDA gw_top,X
        STA cur+2,X
        DEX
        BPL :-
        BMI join_end
join_left:
        LDX #0
        JSR join_less
        LDX #0
        JSR short
        BCC join_end
        SEC
        LDA gw_right
        SBC #7
        STA cur
        LDA gw_right+1
        SBC #0
        STA cur+1
join_up:
        LDX #2
        JSR join_more
        LDX #2
        JSR beyond
        BCC join_end
        LDA gw_bottom
        ADC #6                  ; C is set
        STA cur+2
        LDA #0
        STA cur+3
join_end:
        JMP ext_from_cur
join_home:
        LDA gw_top
        STA cur+2
        LDA gw_top+1
        STA cur+3
join_return:
        LDA gw_left
        STA cur
        LDA gw_left+1
        STA cur+1
        JMP ext_from_cur
join_more:
        CLC
        LDA cur,X
        ADC #8
        STA cur,X
        BCC :+
        INC cur+1,X
:       RTS
join_less:
        SEC
        LDA cur,X
        SBC #8
        STA cur,X
        BCS :+
        DEC cur+1,X
:       RTS
; C is set if the cursor is above the window's upper bound on axis X; below its lower bound.
beyond: SEC
        LDA gw_right,X
        SBC cur,X
        LDA gw_right+1,X
        SBC cur+1,X
        JMP signed
short:  SEC
        LDA cur,X
        SBC gw_left,X
        LDA cur+1,X
        SBC gw_left+1,X
signed: BVC :+
        EOR #$80
:       ASL A
        RTS
