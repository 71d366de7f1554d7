; The driver of read-ahead.asm, fixed: the count of the uses of the disk's buffer has all 32 bits of its word, and no
; run is long enough to bring it back to an earlier value.
;
; read and write begin with the first block in r1, the count in r2 and the buffer's address in r3.

.class block
.entry init init
.entry read read
.entry write write
.entry get none
.entry set none

.data
ahead:  .word 65535         ; the block in the disk's buffer that was read ahead, 65535 for none
turns:  .word 0

.text
init:   KCALL 3             ; r1 is 0, the class block
        RET r0

read:   LI r5 16            ; words of a block
        LI r6 1             ; the command to load
rblk:   LD r8 r0 ahead
        BEQ r8 r1 rcopy
        OUT r1 1            ; the block register
        OUT r6 0
        JAL r13 use
rcopy:  LI r7 0
rword:  IN r8 2             ; the next word of the disk's buffer
        ST r8 r3 0
        ADDI r3 r3 1
        ADDI r7 r7 1
        BLT r7 r5 rword
        ADDI r1 r1 1
        SUB r2 r6
        BNE r2 r0 rblk
        OUT r1 1            ; read ahead
        OUT r6 0
        JAL r13 use
        MOV r11 r1          ; a kernel service sets r1
        KCALL 8             ; yield
        LD r8 r0 turns
        BNE r8 r10 rdone    ; another call used the buffer
        ST r11 r0 ahead
rdone:  RET r0

write:  LI r5 16
        LI r6 1
        LI r9 2             ; the command to store
wblk:   OUT r1 1
        LI r7 0
wword:  LD r8 r3 0
        OUT r8 2
        ADDI r3 r3 1
        ADDI r7 r7 1
        BLT r7 r5 wword
        OUT r9 0
        ADDI r1 r1 1
        SUB r2 r6
        BNE r2 r0 wblk
        JAL r13 use
        RET r0

; the disk's buffer has other words now; r10 is the new count of its uses
use:    LI r7 65535
        ST r7 r0 ahead
        LD r10 r0 turns
        ADDI r10 r10 1
        ST r10 r0 turns
        JR r13

none:   FAULT
