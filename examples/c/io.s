; read, write, open and close of C programs, by the calls of the operating system. File 0 is the input, 1 the output, 2
; that of errors; there are no others.

        .export         _open, _close, _read, _write
        .import         popax, addysp
        .import         __directerrno
        .include        "zeropage.inc"
        .include        "errno.inc"

OSRDCH  := $FFE0                        ; a byte of the input; C is set at its end
OSWRCH  := $FFEE                        ; a byte to the output
OSBPUT  := $FFD4                        ; a byte to file Y

_open:  jsr     addysp                  ; Y bytes of parameters
        lda     #ENOENT
        jmp     __directerrno

_close: cpx     #0
        bne     wrong
        cmp     #3
        bcs     wrong
        txa
        rts

; int read (int file, void* buffer, unsigned count)
_read:  jsr     parameters
        bne     wrong                   ; Z: the file is 0
more:   jsr     left
        beq     told
        jsr     OSRDCH
        bcs     told
        ldy     #0
        sta     (ptr1),y
        jsr     on
        jmp     more

; int write (int file, const void* buffer, unsigned count)
_write: jsr     parameters
        beq     wrong
        lda     tmp1
        cmp     #3
        bcs     wrong
out:    jsr     left
        beq     told
        ldy     #0
        lda     (ptr1),y
        ldy     tmp1
        dey
        bne     error
        jsr     OSWRCH
        jmp     next
error:  iny
        jsr     OSBPUT
next:   jsr     on
        jmp     out

told:   lda     ptr2
        ldx     ptr2+1
        rts
wrong:  lda     #EBADF
        jmp     __directerrno

; ptr1 the buffer, ptr2 how much is done, ptr3 how much is left, tmp1 the file; Z: it is 0.
parameters:
        sta     ptr3
        stx     ptr3+1
        jsr     popax
        sta     ptr1
        stx     ptr1+1
        jsr     popax
        cpx     #0
        beq     :+
        lda     #$FF
:       sta     tmp1
        ldx     #0
        stx     ptr2
        stx     ptr2+1
        cmp     #0
        rts
left:   lda     ptr3
        ora     ptr3+1
        rts
on:     inc     ptr1
        bne     :+
        inc     ptr1+1
:       inc     ptr2
        bne     :+
        inc     ptr2+1
:       lda     ptr3
        bne     :+
        dec     ptr3+1
:       dec     ptr3
        rts
