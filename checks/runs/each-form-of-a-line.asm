.class block ; a driver
start: .entry init start
.entry read 1
.entry write 0x1
.entry get last
.entry set 01
LI,r1,0x10
last: RET r0
.word 7
.data
word: .word word
.word 0xABCDEF12
