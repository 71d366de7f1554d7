; A net driver that takes every frame out of the ring and hands none up, so that each recv finds nothing.
;
; It keeps its contract: when it replies to a recv, no frame waits in the ring.

.class net
.entry init init
.entry send none
.entry poll poll
.entry get none
.entry set none

init:   LI r1 1
        KCALL 3             ; register, with the class net
        LI r1 0
        RET r1

poll:   LI r6 2             ; the command that takes the oldest frame out of the ring
next:   IN r2 3             ; the length of that frame, 0 if there is none
        BEQ r2 r0 end
        OUT r6 0
        JMP next
end:    RET r0

none:   FAULT
