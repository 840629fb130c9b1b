nop
 nop 5
