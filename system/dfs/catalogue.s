; Names, and the catalogue: 0E00 has the names and 0F00 the places of `cat_drive`.

; --- Names ---

; The word at text + Y goes to `word`, up to 0, and cy is behind it. C is set if there is none.
read_word:
        CLC
        JSR GSINIT
        BEQ @none
        LDX #0
@char:  JSR GSREAD
        BCS @end
        CPX #20
        BCS bad_name
        STA word,X
        INX
        BNE @char
@end:   LDA #0
        STA word,X
        STY cy
        CLC
        RTS
@none:  STY cy
        SEC
        RTS
bad_name:
        JSR fail
        .byte 204, "Bad name", 0
bad_drive:
        JSR fail
        .byte 205, "Bad drive", 0
syntax: JSR fail
        .byte 220, "Syntax", 0

; The word becomes `drive`, `dir` and `pat`; what it lacks is the current one. A is 0 if it has no
; name.
parse:  LDA cur_drive
        STA drive
        LDA cur_dir
        STA dir
parse_in:
        LDX #0
        LDA word
        CMP #':'
        BNE @dir
        LDA word+1
        SEC
        SBC #'0'
        CMP #4
        BCS bad_drive
        STA drive
        LDX #2
        LDA word,X
        BEQ @name
        CMP #'.'
        BNE bad_name
        INX
@dir:   LDA word,X
        BEQ @name
        LDA word+1,X
        CMP #'.'
        BNE @name
        LDA word,X
        JSR name_char
        STA dir
        INX
        INX
@name:  LDY #0
@char:  LDA word,X
        BEQ @end
        CPY #7
        BCS bad_name
        JSR name_char
        STA pat,Y
        INX
        INY
        BNE @char
@end:   STA pat,Y
        TYA
        RTS
name_char:
        CMP #'!'
        BCC bad_name_far
        CMP #127
        BCS bad_name_far
        CMP #'.'
        BEQ bad_name_far
        CMP #':'
        BEQ bad_name_far
        CMP #34
        BEQ bad_name_far
        RTS
; The word has to be one whole name.
parse_name:
        JSR parse
one_name:
        LDX pat
        BEQ bad_name_far
        LDX #0
        LDA dir
@char:  CMP #'#'
        BEQ bad_name_far
        CMP #'*'
        BEQ bad_name_far
        LDA pat,X
        INX
        CMP #0
        BNE @char
        RTS
bad_name_far:
        JMP bad_name
; The text at blk + 0 and 1 is a name.
name_of_block:
        LDY #0
        LDA (blk),Y
        STA text
        INY
        LDA (blk),Y
        STA text+1
        LDY #0
        JSR read_word
        BCS bad_name_far
        JMP parse_name

capital:
        CMP #'a'
        BCC :+
        CMP #'z'+1
        BCS :+
        AND #$DF
:       RTS

; C is set if entry Y has the name `pat` in `dir`, in which # is any character and * any of them.
matches:
        STY slot
        LDA dir
        CMP #'#'
        BEQ @name
        CMP #'*'
        BEQ @name
        JSR capital
        STA t0
        LDA cat0+7,Y
        AND #$7F
        JSR capital
        CMP t0
        CLC
        BNE @out
@name:  LDX #0
:       LDA cat0,Y
        AND #$7F
        CMP #' '
        BEQ :+
        JSR capital
        STA nam,X
        INY
        INX
        CPX #7
        BNE :-
:       LDA #0
        STA nam,X
        LDA #$FF
        STA star
        LDX #0
        LDY #0
@next:  LDA pat,X
        CMP #'*'
        BNE @one
        INX
        STX star
        STY mark
        BNE @next
@one:   LDA nam,Y
        BEQ @ended
        LDA pat,X
        CMP #'#'
        BEQ @same
        JSR capital
        CMP nam,Y
        BEQ @same
        LDX star                ; the star takes one more
        CPX #$FF
        BEQ @no
        INC mark
        LDY mark
        BNE @next
@same:  INX
        INY
        BNE @next
@ended: LDA pat,X
        CMP #1
        BCC @yes
@no:    CLC
@out:   LDY slot
        RTS
@yes:   SEC
        BCS @out

; --- The catalogue ---

; The catalogue of `drive`. While the motor runs it is the same as before. C is set after a fault,
; if `quiet`.
get_cat:
        LDA cat_drive
        CMP drive
        BNE @read
        LDA COMMAND
        BMI @good
@read:  LDA #$FF
        STA cat_drive
        JSR at_catalogue
        JSR read
        BCS @end
        LDA count               ; is it one?
        AND #7
        BNE @bad
        LDA count
        CMP #249
        BCS @bad
        JSR tidy
        LDA drive
        STA cat_drive
@good:  CLC
@end:   RTS
@bad:   BIT quiet
        BMI @end
        JSR fail
        .byte 199, "Bad catalogue", 0
; What a change that did not end has left is no entry: one whose name is cleared, and a second one
; of a name.
tidy:   LDY count
        BEQ @end
@entry: STY slot_end
        LDA cat0,Y
        BEQ @out
        LDA cat0+7,Y
        AND #$7F
        BEQ @out
        LDX #8
@other: CPX slot_end
        BCS @next
        STX slot
:       LDA cat0,X
        EOR cat0,Y
        AND #$7F
        BNE @differs
        INX
        INY
        TXA
        AND #7
        BNE :-
        LDY slot_end
@out:   JSR take_out
@next:  LDA slot_end
        SEC
        SBC #8
        TAY
        BNE @entry
@end:   RTS
@differs:
        LDY slot_end
        LDA slot
        CLC
        ADC #8
        TAX
        BNE @other
at_catalogue:
        LDA #0
        STA adr
        STA first
        STA first+1
        STA len
        STA len+2
        LDA #>cat0
        STA adr+1
        LDA #2
        STA len+1
        RTS

; The catalogue is written, and counts that. Behind its files there are zeros.
put_cat:
        SED
        CLC
        LDA cat1+4
        ADC #1
        STA cat1+4
        CLD
        JSR clear_rest
        JSR at_catalogue
        JMP write
clear_rest:
        LDX count
        LDA #0
:       CPX #248
        BEQ :+
        STA cat0+8,X
        STA cat1+8,X
        INX
        BNE :-
:       RTS

; The first entry with the name, and the next behind Y: in Y. C is set if there is one.
find_first:
        LDY #0
find_next:
        CPY count
        BCS @no
        TYA
        ADC #8
        TAY
        JSR matches
        BCC find_next
        RTS
@no:    CLC
        RTS
; The entry of a name that has to be there.
find:   JSR get_cat
        JSR find_first
        BCS :+
not_found:
        JSR fail
        .byte 214, "Not found", 0
:       RTS

; C is set if entry Y is locked.
is_locked:
        LDA cat0+7,Y
        ASL A
        RTS
not_locked:
        JSR is_locked
        BCC :+
        JSR fail
        .byte 195, "Locked", 0
:       RTS

; Entry Y goes out.
take_out:
        CPY count
        BCS @end
        LDA cat0+8,Y
        STA cat0,Y
        LDA cat1+8,Y
        STA cat1,Y
        INY
        BNE take_out
@end:   LDA count
        SEC
        SBC #8
        STA count
        RTS

; The new entry comes in: those on later sectors are before it. It is at `slot` then.
put_in: LDA count
        CMP #248
        BCC :+
        JSR fail
        .byte 190, "Cat full", 0
:       LDY #0
@next:  CPY count
        BCS @here
        TYA
        ADC #8
        TAY
        LDA cat1+6,Y            ; its sector less the new one's
        AND #3
        STA t0
        LDA ent1+6
        AND #3
        STA t1
        LDA cat1+7,Y
        CMP ent1+7
        BNE @other
        LDA t0
        CMP t1
        BNE @high
        LDA ent1+4              ; the same: those without bytes are behind
        ORA ent1+5
        BNE @full
        LDA ent1+6
        AND #$30
        BEQ @next
@full:  LDA cat1+4,Y
        ORA cat1+5,Y
        BNE @next
        LDA cat1+6,Y
        AND #$30
        BNE @next
        BEQ @before
@other: LDA t0
@high:  SBC t1
        BCS @next
@before:
        TYA
        SEC
        SBC #8
        TAY
@here:  TYA
        CLC
        ADC #8
        STA slot
        LDA count               ; the others move
        ADC #7
        TAX
@up:    CPX slot
        BCC @moved
        LDA cat0,X
        STA cat0+8,X
        LDA cat1,X
        STA cat1+8,X
        DEX
        BNE @up
@moved: LDX #0
        LDY slot
:       LDA ent0,X
        STA cat0,Y
        LDA ent1,X
        STA cat1,Y
        INY
        INX
        CPX #8
        BNE :-
        LDA count
        CLC
        ADC #8
        STA count
        RTS

; The new entry's name: `pat` with spaces, and `dir`.
name_entry:
        LDX #0
:       LDA pat,X
        BEQ :+
        STA ent0,X
        INX
        BNE :-
:       LDA #' '
:       CPX #7
        BEQ :+
        STA ent0,X
        INX
        BNE :-
:       LDA dir
        STA ent0+7
        RTS

; --- Places ---

; first and need: the first sector of entry Y, and the number of them.
place_of:
        LDA cat1+7,Y
        STA first
        LDA cat1+6,Y
        AND #3
        STA first+1
; need: the sectors of entry Y.
need_of:
        JSR length_of
; The sectors of `size` bytes.
need_size:
        LDA size
        CMP #1
        LDA size+1
        ADC #0
        STA need
        LDA size+2
        ADC #0
        STA need+1
        RTS
; size: the length of entry Y.
length_of:
        LDA cat1+4,Y
        STA size
        LDA cat1+5,Y
        STA size+1
        LDA cat1+6,Y
        LSR A
        LSR A
        LSR A
        LSR A
        AND #3
        STA size+2
        RTS
; total: the sectors of the disc.
get_total:
        LDA cat1+7
        STA total
        LDA cat1+6
        AND #3
        STA total+1
        RTS

; C is set if `need` sectors from first on are free, but for those of entry `opened`. Else into is
; behind what is there.
is_free:
        JSR get_total
        CLC
        LDA first
        ADC need
        STA from
        LDA first+1
        ADC need+1
        STA from+1
        LDA total
        CMP from
        LDA total+1
        SBC from+1
        BCC @past
        LDY #0
@next:  CPY count
        BCS @end
        TYA
        ADC #8
        TAY
        CPY opened
        BEQ @next
        LDA cat1+6,Y            ; it begins behind?
        AND #3
        STA t0
        LDA cat1+7,Y
        CMP from
        LDA t0
        SBC from+1
        BCS @next
        LDA cat1+4,Y            ; where it ends
        CMP #1
        LDA cat1+5,Y
        ADC cat1+7,Y
        STA into
        LDA t0
        ADC #0
        STA into+1
        LDA cat1+6,Y
        LSR A
        LSR A
        LSR A
        LSR A
        AND #3
        CLC
        ADC into+1
        STA into+1
        LDA first
        CMP into
        LDA first+1
        SBC into+1
        BCS @next
        CLC
@end:   RTS
@past:  LDA #$FF                ; nothing further has room
        STA into
        STA into+1
        RTS
; first: the first of the lowest free sectors that are `need`. C is set if there are none.
find_gap:
        LDA #2
        STA first
        LDA #0
        STA first+1
        STA opened
@try:   JSR is_free
        BCS @found
        LDA into
        STA first
        LDA into+1
        STA first+1
        CMP #$FF
        BNE @try
        RTS
@found: CLC
        RTS
