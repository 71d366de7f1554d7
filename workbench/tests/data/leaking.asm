; A sound driver for the tests: a play of less than 4 samples does not free its memory, and object 7 is borrowed at open
; and given back at close.

.class sound
.entry init init
.entry open open
.entry play play
.entry close close
.entry get none
.entry set none

init:   LI r1 2
        KCALL 3
        LI r1 16            ; a buffer for the driver's whole life
        KCALL 1
        LI r1 0
        RET r1

open:   LI r1 7
        KCALL 4
        RET r0

close:  LI r1 7
        KCALL 5
        RET r0

play:   MOV r9 r2
        MOV r1 r2
        KCALL 1
        MOV r10 r1
        LI r6 1
        MOV r7 r9
next:   LD r8 r3 0
        OUT r8 0
        ADDI r3 r3 1
        SUB r7 r6
        BNE r7 r0 next
        LI r5 4
        BLT r9 r5 end
        MOV r1 r10
        KCALL 2
end:    RET r0

none:   FAULT
