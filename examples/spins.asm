; A block driver with a lock, for which its reads wait by yielding.
;
; A read takes the lock `busy`, selects its block, and yields before it loads it. Another read that finds the lock taken
; yields until it is free. No read can change what another one selected. But a call has 32 bursts: one that waits while
; the other is not scheduled uses them up, and the driver has failed.
;
; read begins with the first block in r1, the count in r2 and the buffer's address in r3.

.class block
.entry init init
.entry read read
.entry write none
.entry get none
.entry set none

.data
busy:   .word 0             ; 1 while a read has the disk

.text
init:   KCALL 3             ; r1 is 0, the class block
        RET r0

read:   MOV r11 r1          ; a kernel service sets r1
        LI r5 16            ; words of a block
        LI r6 1             ; the command to load, and the lock taken
lock:   LD r8 r0 busy
        BEQ r8 r0 free
        KCALL 8             ; yield
        JMP lock
free:   ST r6 r0 busy
rblk:   OUT r11 1           ; the block register
        KCALL 8
        OUT r6 0
        LI r7 0
rword:  IN r8 2
        ST r8 r3 0
        ADDI r3 r3 1
        ADDI r7 r7 1
        BLT r7 r5 rword
        ADDI r11 r11 1
        SUB r2 r6
        BNE r2 r0 rblk
        ST r0 r0 busy
        RET r0

none:   FAULT
