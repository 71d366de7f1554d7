; A net driver whose sends race with each other.
;
; A send gives the device the frame's length, logs it, and then gives it the words. The log is a kernel service: another
; send may come in between, and then the device has that one's length.
;
; send begins with the length in r2, get with the key in r1; both have the buffer's address in r3.

.class net
.entry init init
.entry send send
.entry poll none
.entry get get
.entry set none

init:   LI r1 1
        KCALL 3             ; register, with the class net
        LI r1 0
        RET r1

send:   OUT r2 1            ; the transmit length
        KCALL 7             ; log
        LI r6 1
snext:  LD r8 r3 0
        OUT r8 2            ; the next word of the transmit buffer
        ADDI r3 r3 1
        SUB r2 r6
        BNE r2 r0 snext
        OUT r6 0            ; send
        RET r0

; get: register 0 alone
get:    IN r6 8
        ST r6 r3 0
        RET r0

none:   FAULT
