; A sound driver whose loop plays two samples at a time. For an odd number of samples it plays one word too many.
;
; play begins with the number of samples in r2 and the buffer's address in r3.

.class sound
.entry init init
.entry open done
.entry play play
.entry close done
.entry get none
.entry set none

init:   LI r1 2             ; the class sound
        KCALL 3
done:   RET r0

play:   LD r8 r3 0
        OUT r8 0
        LD r8 r3 1          ; in the last pair, this may be after the samples
        OUT r8 0
        ADDI r3 r3 2
        ADDI r6 r6 2        ; the number of samples played
        BLT r6 r2 play
        RET r0

none:   FAULT               ; get and set are not served
