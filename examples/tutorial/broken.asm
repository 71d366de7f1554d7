; The driver of the tutorial: it reads and writes a disk, block by block.

.class block
.entry init init
.entry read read
.entry write write
.entry get other
.entry set other

init:   LI r1 0             ; the class block
        KCALL 3             ; register the driver
        LI r1 0
        RET r1              ; status 0: ready

; r1 is the first block, r2 the number of blocks, r3 the buffer's address.

read:   LI r5 16            ; words of a block
        LI r6 1             ; the command to load
rblock: OUT r1 1            ; choose the block
        OUT r6 0            ; load it into the device's buffer
        LI r7 0             ; words done
rword:  IN r8 2             ; the next word of the device's buffer
        ST r8 r3 0          ; to the caller's buffer
        ADDI r3 r3 1
        ADDI r7 r7 1
        BLT r7 r5 rword
        ADDI r1 r1 1        ; the next block
        SUB r2 r6
        BNE r2 r0 rblock
        RET r0

write:  LI r5 16
        LI r6 1
        LI r9 2             ; the command to store
        LI r7 0
wblock: OUT r1 1
wword:  LD r8 r3 0          ; the next word of the caller's buffer
        OUT r8 2            ; to the device's buffer
        ADDI r3 r3 1
        ADDI r7 r7 1
        BLT r7 r5 wword
        OUT r9 0            ; store the device's buffer into the block
        ADDI r1 r1 1
        SUB r2 r6
        BNE r2 r0 wblock
        RET r0

other:  FAULT               ; get and set are not served yet
