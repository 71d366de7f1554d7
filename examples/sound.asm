; A sound driver: each sample is played at once.
;
; play begins with the number of samples in r2 and the buffer's address in r3.
; get and set begin with the key in r1; get has the buffer in r3, set the value in r2.

.class sound
.entry init init
.entry open open
.entry play play
.entry close close
.entry get get
.entry set set

; init: kernel service 3 registers the driver under its class, 2 for sound; then reply 0
init:   LI r1 2
        KCALL 3
        LI r1 0
        RET r1

open:   RET r0

close:  RET r0

play:   LI r6 1
pl:     LD r8 r3 0
        OUT r8 0
        ADDI r3 r3 1
        SUB r2 r6
        BNE r2 r0 pl
        RET r0

; get: the device's register of this key, into the buffer
get:    LI r5 1
        BEQ r1 r5 g1
        LI r5 2
        BEQ r1 r5 g2
        LI r5 3
        BEQ r1 r5 g3
        IN r6 8
        JMP gend
g1:     IN r6 9
        JMP gend
g2:     IN r6 10
        JMP gend
g3:     IN r6 11
gend:   ST r6 r3 0
        RET r0

; set: the value, to the device's register of this key
set:    LI r5 1
        BEQ r1 r5 s1
        LI r5 2
        BEQ r1 r5 s2
        LI r5 3
        BEQ r1 r5 s3
        OUT r2 8
        RET r0
s1:     OUT r2 9
        RET r0
s2:     OUT r2 10
        RET r0
s3:     OUT r2 11
        RET r0
