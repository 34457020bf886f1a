; A disc as a source text: the catalogue of Acorn's DFS in sectors 0 and 1, and two files. As an image whose
; name ends in .dsd it has a second side with a catalogue and a file of its own, since such an image has
; both sides of each track in turn.
        org 0
        byte 83,79,85,82,67,69,32,68            ; the title: SOURCE DISC
        byte 78,79,84,69,83,32,32,36            ; NOTES in $
        byte 33,66,79,79,84,32,32,164           ; !BOOT in $, locked: bit 7 of the folder's letter
        org &0100
        byte 73,83,67,0
        byte &12,16,&33,&20                     ; cycle 12, two files, *EXEC at boot, 800 sectors
        word &1900,&1900,24                     ; NOTES: load, start, length,
        byte &00,2                              ; their high bits, and its first sector
        word &0000,&FFFF,12
        byte &C0,3
        org &0200
        byte 87,114,105,116,116,101,110,32,105,110,32,97,32,115,111,117,114,99,101,46,13
        byte 79,75,13                           ; Written in a source. OK
        org &0300
        byte 42,84,89,80,69,32,78,79,84,69,83,13 ; *TYPE NOTES
; Side 1, track 0.
        org &0A00
        byte 83,73,68,69,32,79,78,69            ; the title: SIDE ONE
        byte 66,65,67,75,32,32,32,65            ; BACK in A
        org &0B00
        byte 0,0,0,0
        byte &01,8,&03,&20                      ; cycle 01, one file, nothing at boot, 800 sectors
        word &2000,&2000,5
        byte &00,2
        org &0C00
        byte 66,97,99,107,13                    ; Back
