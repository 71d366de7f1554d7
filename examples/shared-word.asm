; A block driver whose reads share a word.
;
; A read logs the block that it is asked for. A kernel service leaves its result in r1, so the number of the block is
; saved in a word of the data area. All contexts share this word: another read may write its own number there before
; this one loads it again.
;
; read and write begin with the first block in r1, the count in r2 and the buffer's address in r3.

.class block
.entry init init
.entry read read
.entry write write
.entry get none
.entry set none

.data
block:  .word 0             ; the block that is to be read

.text
init:   KCALL 3             ; r1 is 0, the class block
        RET r0

read:   ST r1 r0 block
        KCALL 7             ; log
        LD r1 r0 block
        LI r5 16            ; words of a block
        LI r6 1             ; the command to load
rblk:   OUT r1 1            ; the block register
        OUT r6 0
        LI r7 0
rword:  IN r8 2
        ST r8 r3 0
        ADDI r3 r3 1
        ADDI r7 r7 1
        BLT r7 r5 rword
        ADDI r1 r1 1
        SUB r2 r6
        BNE r2 r0 rblk
        RET r0

write:  LI r5 16
        LI r6 1
        LI r9 2             ; the command to store
wblk:   OUT r1 1
        LI r7 0
wword:  LD r8 r3 0
        OUT r8 2
        ADDI r3 r3 1
        ADDI r7 r7 1
        BLT r7 r5 wword
        OUT r9 0
        ADDI r1 r1 1
        SUB r2 r6
        BNE r2 r0 wblk
        RET r0

none:   FAULT
