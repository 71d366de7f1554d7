.class sound
.entry init 0
.entry open 0
.entry play 0
.entry close 0
.entry get 0
.entry set 2047
