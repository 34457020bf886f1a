; main's argc and argv, for programs that want them. The block has their number, the length of their texts, and the texts; these are copied to the
; top of the C stack, and the pointers to them are put below.

        .constructor    initmainargs, 24
        .import         __argc, __argv
        .import         __STACKTOP__, __ARGUMENTS__
        .include        "zeropage.inc"

        .segment        "ONCE"

initmainargs:
        lda     __ARGUMENTS__
        sta     __argc
        sec
        lda     sp
        sbc     __ARGUMENTS__+1
        sta     sp
        sta     ptr2
        sta     ptr3                    ; the first text
        lda     sp+1
        sbc     __ARGUMENTS__+2
        sta     sp+1
        sta     ptr2+1
        sta     ptr3+1
        lda     #<(__ARGUMENTS__+3)
        ldx     #>(__ARGUMENTS__+3)
        sta     ptr1
        stx     ptr1+1
        ldy     #0
copy:   lda     ptr2                    ; up to the top of the stack
        cmp     #<__STACKTOP__
        bne     byte
        lda     ptr2+1
        cmp     #>__STACKTOP__
        beq     array
byte:   lda     (ptr1),y
        sta     (ptr2),y
        inc     ptr1
        bne     :+
        inc     ptr1+1
:       inc     ptr2
        bne     copy
        inc     ptr2+1
        bne     copy
array:  lda     __argc                  ; room for the pointers and a 0
        sec
        rol     a
        sta     tmp1
        clc
        lda     sp
        sbc     tmp1
        sta     sp
        sta     ptr2
        sta     __argv
        bcs     :+
        dec     sp+1
:       lda     sp+1
        sta     ptr2+1
        sta     __argv+1
        ldx     __argc
each:   dex
        bmi     last
        ldy     #0
        lda     ptr3
        sta     (ptr2),y
        iny
        lda     ptr3+1
        sta     (ptr2),y
        lda     ptr2
        clc
        adc     #2
        sta     ptr2
        bcc     :+
        inc     ptr2+1
:       ldy     #0
skip:   lda     (ptr3),y                ; to behind the text's 0
        php
        inc     ptr3
        bne     :+
        inc     ptr3+1
:       plp
        bne     skip
        beq     each
last:   lda     #0
        tay
        sta     (ptr2),y
        iny
        sta     (ptr2),y
        rts
