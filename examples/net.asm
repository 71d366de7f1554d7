; A net driver: it sends a frame word by word, and hands a received frame up from the stack page.
;
; send begins with the length in r2 and the buffer's address in r3. r14 has the first address after the stack page.
; get and set begin with the key in r1; get has the buffer in r3, set the value in r2.

.class net
.entry init init
.entry send send
.entry poll poll
.entry get get
.entry set set

; init: kernel service 3 registers the driver under its class, 1 for net; then reply 0
init:   LI r1 1
        KCALL 3
        LI r1 0
        RET r1

send:   OUT r2 1            ; the transmit length
        LI r6 1             ; the command to send
snext:  LD r8 r3 0
        OUT r8 2            ; the next word of the transmit buffer
        ADDI r3 r3 1
        SUB r2 r6
        BNE r2 r0 snext
        OUT r6 0
        RET r0

poll:   IN r2 3             ; the length of the ring's oldest frame, 0 if there is none
        BEQ r2 r0 pend
        MOV r7 r2
        MOV r9 r14
        LI r5 64
        SUB r9 r5           ; the stack page's first address
        MOV r10 r9
        LI r6 1
pnext:  IN r8 4             ; the frame's next word
        ST r8 r9 0
        ADDI r9 r9 1
        SUB r7 r6
        BNE r7 r0 pnext
        LI r6 2             ; the command that takes the frame off the ring
        OUT r6 0
        MOV r1 r10
        KCALL 6             ; r2 words at r1 are a received frame
pend:   RET r0

; get: the device's register of this key, into the buffer
get:    LI r5 1
        BEQ r1 r5 g1
        LI r5 2
        BEQ r1 r5 g2
        LI r5 3
        BEQ r1 r5 g3
        IN r6 8
        JMP gend
g1:     IN r6 9
        JMP gend
g2:     IN r6 10
        JMP gend
g3:     IN r6 11
gend:   ST r6 r3 0
        RET r0

; set: the value, to the device's register of this key
set:    LI r5 1
        BEQ r1 r5 s1
        LI r5 2
        BEQ r1 r5 s2
        LI r5 3
        BEQ r1 r5 s3
        OUT r2 8
        RET r0
s1:     OUT r2 9
        RET r0
s2:     OUT r2 10
        RET r0
s3:     OUT r2 11
        RET r0
