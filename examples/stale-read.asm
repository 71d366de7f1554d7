; A block driver that remembers which block it read last, and does not notice that a write overwrites the buffer.
;
; A read leaves its last block in the disk's own buffer. `last` has the number of that block, so a read that begins with
; it need not load it again. But a write fills the same buffer, and leaves `last` as it is: the next read of that block
; copies the words that were written to another one.
;
; read and write begin with the first block in r1, the count in r2 and the buffer's address in r3.

.class block
.entry init init
.entry read read
.entry write write
.entry get none
.entry set none

.data
last:   .word 65535         ; the block in the disk's buffer, 65535 for none

.text
init:   KCALL 3             ; r1 is 0, the class block
        RET r0

read:   LI r5 16            ; words of a block
        LI r6 1             ; the command to load
rblk:   OUT r1 1            ; the block register; the buffer stays
        LD r8 r0 last
        BEQ r8 r1 rcopy     ; it is there already
        OUT r6 0
        ST r1 r0 last
rcopy:  LI r7 0
rword:  IN r8 2             ; the next word of the disk's buffer
        ST r8 r3 0
        ADDI r3 r3 1
        ADDI r7 r7 1
        BLT r7 r5 rword
        ADDI r1 r1 1
        SUB r2 r6
        BNE r2 r0 rblk
        RET r0

write:  LI r5 16
        LI r6 1
        LI r9 2             ; the command to store
wblk:   OUT r1 1
        LI r7 0
wword:  LD r8 r3 0
        OUT r8 2
        ADDI r3 r3 1
        ADDI r7 r7 1
        BLT r7 r5 wword
        OUT r9 0
        ADDI r1 r1 1
        SUB r2 r6
        BNE r2 r0 wblk
        RET r0              ; `last` is not what is in the buffer now

none:   FAULT               ; get and set are not served
