; A block driver that reads the status after each command, and replies 256 + i if block i of the call failed.
;
; read and write begin with the first block in r1, the count in r2 and the buffer's address in r3.
; get and set begin with the key in r1; get has the buffer in r3, set the value in r2.

.class block
.entry init init
.entry read read
.entry write write
.entry get get
.entry set set

; init: kernel service 3 registers the driver under its class, 0 for block; then reply 0
init:   LI r1 0
        KCALL 3
        LI r1 0
        RET r1

read:   LI r5 16            ; words of a block
        LI r6 1             ; the command to load
        LI r11 256          ; the reply if this block fails
rblk:   OUT r1 1            ; the block register
        OUT r6 0
        IN r10 3            ; the status of the command: 0 if it was done
        BNE r10 r0 bad
        LI r7 0
rword:  IN r8 2             ; the next word of the disk's buffer
        ST r8 r3 0
        ADDI r3 r3 1
        ADDI r7 r7 1
        BLT r7 r5 rword
        ADDI r1 r1 1
        ADDI r11 r11 1
        SUB r2 r6
        BNE r2 r0 rblk
        RET r0

write:  LI r5 16
        LI r6 1
        LI r9 2             ; the command to store
        LI r11 256
wblk:   OUT r1 1
        LI r7 0
wword:  LD r8 r3 0
        OUT r8 2
        ADDI r3 r3 1
        ADDI r7 r7 1
        BLT r7 r5 wword
        OUT r9 0
        IN r10 3
        BNE r10 r0 bad
        ADDI r1 r1 1
        ADDI r11 r11 1
        SUB r2 r6
        BNE r2 r0 wblk
        RET r0

bad:    RET r11

; get: the device's register of this key, into the buffer
get:    LI r5 1
        BEQ r1 r5 g1
        LI r5 2
        BEQ r1 r5 g2
        LI r5 3
        BEQ r1 r5 g3
        IN r6 8
        JMP gend
g1:     IN r6 9
        JMP gend
g2:     IN r6 10
        JMP gend
g3:     IN r6 11
gend:   ST r6 r3 0
        RET r0

; set: the value, to the device's register of this key
set:    LI r5 1
        BEQ r1 r5 s1
        LI r5 2
        BEQ r1 r5 s2
        LI r5 3
        BEQ r1 r5 s3
        OUT r2 8
        RET r0
s1:     OUT r2 9
        RET r0
s2:     OUT r2 10
        RET r0
s3:     OUT r2 11
        RET r0
