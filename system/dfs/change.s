; Entries of the catalogue that come, go and move, so that at each moment each file has a whole
; entry on the disc: a run that ends between two bytes leaves no name with another file's place.
; The first entry of a name is the one that counts, and an entry whose name is cleared is none.

; The catalogue in memory is about to change: the private pages get it, as it is on the disc.
begin_change:
        LDX rom
        LDA rom_work,X
        STA old0+1
        CLC
        ADC #1
        STA old1+1
        LDY #0
        STY old0
        STY old1
        STY has_new
        STY forward
:       LDA cat0,Y
        STA (old0),Y
        LDA cat1,Y
        STA (old1),Y
        INY
        BNE :-
        LDA count               ; nothing is behind its files
        LSR A
        LSR A
        LSR A
        JSR offset
        BEQ @end
        TAY
:       LDA #0
        STA (old0),Y
        STA (old1),Y
        INY
        BNE :-
@end:   RTS

; The catalogue in memory goes to the disc, a window of entries after the other. Each window is
; first written behind all entries; then its names are cleared, its places are written, and its
; names. Windows go down, or up, so that none covers the only entry of a file. Behind 31 entries
; nothing can be written: then a window is one entry, whose file has another.
end_change:
        SED
        CLC
        LDA cat1+4
        ADC #1
        STA cat1+4
        CLD
        JSR clear_rest
        JSR what_changes
        BCS :+
        JMP @last
:       LDA top_at
        CMP #31
        BEQ @fixed
        BIT has_new
        BPL @fixed
        JSR offset              ; the new one is there from now on
        TAY
        LDX #0
:       LDA ent0,X
        STA (old0),Y
        LDA ent1,X
        STA (old1),Y
        INY
        INX
        CPX #8
        BNE :-
        INC top_at
@fixed: LDA top_at
        JSR set_count
        CMP #248
        BNE @window             ; else no window is written behind them
        JSR put_names
        JSR put_places
@window:
        LDA high_at
        SEC
        SBC low_at
        BNE :+
        JMP @names
:       STA t0                  ; the window: what is free, and one at least
        LDA #31
        SEC
        SBC top_at
        BNE :+
        LDA #1
:       CMP t0
        BCC :+
        LDA t0
:       BIT forward
        BMI @up
        STA t0
        LDA high_at
        STA win_end
        SEC
        SBC t0
        STA win_at
        STA high_at
        JMP @have
@up:    LDX low_at
        STX win_at
        CLC
        ADC low_at
        STA win_end
        STA low_at
@have:  LDA top_at
        CMP #31
        BEQ @bare
        JSR copy_names          ; with the names of the window before, which stand in front
        LDA top_at
        JSR copy_places
        LDA win_end
        SEC
        SBC win_at
        CLC
        ADC top_at
        JSR set_count
        JSR put_names
        JSR put_places
@bare:  LDA win_at
        JSR offset
        TAY
        LDA win_end
        JSR offset
        STA stop_at
        LDA #0
:       STA (old0),Y
        INY
        CPY stop_at
        BNE :-
        JSR put_names
        LDA win_at
        JSR copy_places
        JSR put_places
        LDA win_at
        JSR copy_names
        LDA top_at
        CMP #31
        BNE @next
        JSR put_names
@next:  JMP @window
@names: JSR put_names
@last:  LDA #>cat1
        JSR put_second
        LDA #>cat0
        JMP put_first

; low_at, high_at and top_at. C is clear if no entry changes.
what_changes:
        LDY #5
        LDA (old1),Y            ; the larger count
        CMP count
        BCS :+
        LDA count
:       LSR A
        LSR A
        LSR A
        STA top_at
        LDY #8
@low:   LDA (old0),Y
        CMP cat0,Y
        BNE @differs
        LDA (old1),Y
        CMP cat1,Y
        BNE @differs
        INY
        BNE @low
        CLC
        RTS
@differs:
        JSR slot_of
        STA low_at
        LDY #0
@high:  DEY
        LDA (old0),Y
        CMP cat0,Y
        BNE :+
        LDA (old1),Y
        CMP cat1,Y
        BEQ @high
:       JSR slot_of
        ADC #1
        STA high_at
        SEC
        RTS
; A: the number of the entry at offset Y.
slot_of:
        TYA
        LSR A
        LSR A
        LSR A
        SEC
        SBC #1
        CLC
        RTS
; A: the offset of entry A.
offset: CLC
        ADC #1
        ASL A
        ASL A
        ASL A
        RTS
set_count:
        ASL A
        ASL A
        ASL A
        LDY #5
        STA (old1),Y
        RTS

; The window's names, or places, go to the disc's entries from A on.
copy_names:
        JSR copy_range
:       LDA cat0,X
        STA (old0),Y
        INY
        INX
        CPX stop_at
        BNE :-
        RTS
copy_places:
        JSR copy_range
:       LDA cat1,X
        STA (old1),Y
        INY
        INX
        CPX stop_at
        BNE :-
        RTS
copy_range:
        JSR offset
        TAY
        LDA win_end
        JSR offset
        STA stop_at
        LDA win_at
        JSR offset
        TAX
        RTS

put_names:
        LDA old0+1
put_first:
        LDX #0
        BEQ put_half
put_places:
        LDA old1+1
put_second:
        LDX #1
put_half:
        STA adr+1
        STX first
        LDA #0
        STA adr
        STA first+1
        STA len
        STA len+2
        LDA #1
        STA len+1
        JMP write
