	.file	"switch.c"
	.option pic
	.attribute arch, "rv64i2p1_m2p0"
	.attribute unaligned_access, 0
	.attribute stack_align, 16
	.text
	.align	2
	.globl	f
	.type	f, @function
f:
	li	a5,5
	bgtu	a0,a5,.L2
	lla	a4,.L4
	slli	a0,a0,2
	add	a0,a0,a4
	lw	a5,0(a0)
	add	a5,a5,a4
	jr	a5
	.section	.rodata
	.align	2
	.align	2
.L4:
	.word	.L9-.L4
	.word	.L8-.L4
	.word	.L10-.L4
	.word	.L6-.L4
	.word	.L5-.L4
	.word	.L3-.L4
	.text
.L10:
	li	a0,9
	ret
.L9:
	li	a0,5
	ret
.L8:
	lw	a0,.LANCHOR0+8
	ret
.L6:
	li	a0,4
	ret
.L5:
	li	a0,77
	ret
.L3:
	lw	a0,.LANCHOR0+4
	ret
.L2:
	andi	a0,a0,3
	slli	a0,a0,2
	lla	a5,.LANCHOR0
	add	a5,a5,a0
	lw	a0,0(a5)
	ret
	.size	f, .-f
	.globl	x
	.data
	.align	3
	.set	.LANCHOR0,. + 0
	.type	x, @object
	.size	x, 16
x:
	.word	1
	.word	2
	.word	3
	.word	4
	.ident	"GCC: (Debian 12.2.0-13) 12.2.0"
	.section	.note.GNU-stack,"",@progbits
