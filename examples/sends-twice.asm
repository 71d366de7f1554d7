; A net driver that sends urgent frames twice, to be sure: those whose first word is 911.
;
; The device keeps the transmit length and the buffer after a send, so the same command sends the same frame again. The
; class allows one frame for each send.
;
; send begins with the length in r2 and the buffer's address in r3. r14 has the first address after the stack page.

.class net
.entry init init
.entry send send
.entry poll poll
.entry get none
.entry set none

init:   LI r1 1             ; the class net
        KCALL 3
        LI r1 0
        RET r1

send:   LI r4 911
        LD r5 r3 0          ; the first word
        OUT r2 1            ; the transmit length
        LI r6 1             ; the command to send
snext:  LD r8 r3 0
        OUT r8 2            ; the next word of the transmit buffer
        ADDI r3 r3 1
        SUB r2 r6
        BNE r2 r0 snext
        OUT r6 0
        BNE r5 r4 sdone
        OUT r6 0            ; once more
sdone:  RET r0

poll:   IN r2 3             ; the length of the ring's oldest frame, 0 if there is none
        BEQ r2 r0 pend
        MOV r7 r2
        MOV r9 r14
        LI r5 64
        SUB r9 r5           ; the stack page's first address
        MOV r10 r9
        LI r6 1
pnext:  IN r8 4             ; the frame's next word
        ST r8 r9 0
        ADDI r9 r9 1
        SUB r7 r6
        BNE r7 r0 pnext
        LI r6 2             ; the command that takes the frame off the ring
        OUT r6 0
        MOV r1 r10
        KCALL 6             ; r2 words at r1 are a received frame
pend:   RET r0

none:   FAULT               ; get and set are not served
