; a driver
.class block
.entry set 01
.entry init start
.entry read 1
.entry get last
.entry write 0x1 ; before get in the class's order
.data
zero: .word 0xABCDEF12
second: .word second
.text
start: LI r1 zero

loop: BNE r1 r0 loop
.word 7
.word 0x17000000
last:
.data
.word 1
