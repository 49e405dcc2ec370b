/*
 * SPDX-License-Identifier: ISC
 *
 * Written by `make generated` from the proved crate ring_c: do not edit.
 * Kit: rattle-kit-13b logic dac8208d650f15bf
 * Git trees: ring_core cea59fb45dc0 ring a6bdd1eb9bfb ring_text b637680a9628 ring_password_hash 9f2ce58da2d2 ring_merkle f1c32e3106f7 ring_schedules 89afbc8fb064 ring_tokens 77106ca2f06a ring_c 79f4af531afd
 * Instructions: put in the place of proved functions by instructions.py, git blob bd4cc2bd973e
 */

#if defined(__x86_64__) && defined(_WIN32)
	.text
	.p2align 4
ring.digest.context.digest_counted:
.seh_proc ring.digest.context.digest_counted
	pushq %r15
	.seh_pushreg %r15
	pushq %r14
	.seh_pushreg %r14
	pushq %r13
	.seh_pushreg %r13
	pushq %r12
	.seh_pushreg %r12
	pushq %rsi
	.seh_pushreg %rsi
	pushq %rdi
	.seh_pushreg %rdi
	pushq %rbp
	.seh_pushreg %rbp
	pushq %rbx
	.seh_pushreg %rbx
	subq $552, %rsp
	.seh_stackalloc 552
	.seh_endprologue
	movq %rcx, %rsi
	xorps %xmm0, %xmm0
	movaps %xmm0, 144(%rsp)
	cmpb $2, %dl
	setb %al
	movq %r9, %rcx
	shrq $61, %rcx
	setne %cl
	testb %cl, %al
	je .LBB0_2
	movb $1, (%rsi)
	movups %xmm0, 1(%rsi)
	movups %xmm0, 17(%rsi)
	movups %xmm0, 33(%rsi)
	movups %xmm0, 49(%rsi)
	movb $0, 65(%rsi)
	jmp .LBB0_6
.LBB0_2:
	movq %r8, 56(%rsp)
	xorl %ecx, %ecx
	cmpb $2, %dl
	setae %cl
	movzbl %dl, %eax
	leal (,%rax,4), %r10d
	leaq .Lswitch.table.v2_yz_digest_each.183(%rip), %r11
	movl (%r10,%r11), %r8d
	leaq .Lswitch.table.v2_yz_digest_each.184(%rip), %rdi
	movl (%r10,%rdi), %r10d
	shll $3, %eax
	leaq .Lswitch.table.v2_yz_digest_each.185(%rip), %rdi
	movq (%rax,%rdi), %rdi
	leaq .Lswitch.table.v2_yz_digest_each.186(%rip), %r14
	movq (%rax,%r14), %r14
	leaq .Lswitch.table.v2_yz_digest_each.187(%rip), %r15
	movq (%rax,%r15), %r15
	leaq .Lswitch.table.v2_yz_digest_each.188(%rip), %r12
	movq (%rax,%r12), %r12
	leaq .Lswitch.table.v2_yz_digest_each.189(%rip), %r13
	movq (%rax,%r13), %r13
	leaq .Lswitch.table.v2_yz_digest_each.190(%rip), %rbp
	movq (%rax,%rbp), %rbp
	leaq .Lswitch.table.v2_yz_digest_each.191(%rip), %rbx
	movq (%rax,%rbx), %rbx
	leaq .Lswitch.table.v2_yz_digest_each.192(%rip), %r11
	movq (%rax,%r11), %rax
	movaps %xmm0, 64(%rsp)
	movl %r8d, 80(%rsp)
	movl %r10d, 84(%rsp)
	movq %rdi, 88(%rsp)
	movq %r14, 96(%rsp)
	movq %r15, 104(%rsp)
	movq %r12, 112(%rsp)
	movq %r13, 120(%rsp)
	movq %rbp, 128(%rsp)
	movq %rbx, 136(%rsp)
	movq %rax, 144(%rsp)
	movb %dl, 152(%rsp)
	shll $6, %ecx
	addq $64, %rcx
	xorl %eax, %eax
	cmpq %rcx, %r9
	jae .LBB0_4
	xorl %r10d, %r10d
	movq 656(%rsp), %rbx
	movq 56(%rsp), %r8
	jmp .LBB0_5
.LBB0_4:
	leaq 80(%rsp), %rax
	movq 656(%rsp), %rbx
	movq %rbx, 32(%rsp)
	movl %edx, %ecx
	movq %rax, %rdx
	movq 56(%rsp), %r8
	movq %r9, %rdi
	callq ring.digest.block_context.run_blocks
	movq %rdx, %rcx
	subq %rdx, %rdi
	movq 72(%rsp), %r10
	addq 64(%rsp), %rdi
	adcq $0, %r10
	movq $-1, %rdx
	cmovbq %rdx, %r10
	movq %rax, %r8
	movq %rdi, %rax
	cmovbq %rdx, %rax
	movq %rax, 64(%rsp)
	movq %r10, 72(%rsp)
	movzbl 152(%rsp), %edx
	movq %rcx, %r9
.LBB0_5:
	xorps %xmm0, %xmm0
	movaps %xmm0, 208(%rsp)
	movaps %xmm0, 192(%rsp)
	movaps %xmm0, 176(%rsp)
	movaps %xmm0, 160(%rsp)
	addq %r9, %rax
	adcq $0, %r10
	movq $-1, %rcx
	cmovbq %rcx, %rax
	cmovbq %rcx, %r10
	movaps %xmm0, 288(%rsp)
	movaps %xmm0, 304(%rsp)
	movaps %xmm0, 320(%rsp)
	movaps %xmm0, 336(%rsp)
	movaps %xmm0, 352(%rsp)
	movaps %xmm0, 368(%rsp)
	movaps %xmm0, 384(%rsp)
	movaps %xmm0, 400(%rsp)
	movaps %xmm0, 416(%rsp)
	movaps %xmm0, 432(%rsp)
	movaps %xmm0, 448(%rsp)
	movaps %xmm0, 464(%rsp)
	movaps %xmm0, 480(%rsp)
	movaps %xmm0, 496(%rsp)
	movaps %xmm0, 512(%rsp)
	movaps %xmm0, 528(%rsp)
	leaq 288(%rsp), %rdi
	movq %rdi, 40(%rsp)
	movq %r10, 32(%rsp)
	movl %edx, %ecx
	movl %edx, %ebp
	movq %r8, %rdx
	movq %r9, %r8
	movq %rax, %r9
	callq ring.digest.block_context.write_tail
	movq %rbx, 32(%rsp)
	leaq 160(%rsp), %rcx
	leaq 64(%rsp), %rdx
	movq %rdi, %r8
	movq %rax, %r9
	callq ring.digest.block_context.BlockContext.output_after
	movaps 160(%rsp), %xmm0
	movaps 176(%rsp), %xmm1
	movaps 192(%rsp), %xmm2
	movaps 208(%rsp), %xmm3
	movaps %xmm3, 272(%rsp)
	movaps %xmm2, 256(%rsp)
	movaps %xmm1, 240(%rsp)
	movaps %xmm0, 224(%rsp)
	movb $0, (%rsi)
	movaps 224(%rsp), %xmm0
	movaps 240(%rsp), %xmm1
	movaps 256(%rsp), %xmm2
	movaps 272(%rsp), %xmm3
	movups %xmm0, 1(%rsi)
	movups %xmm1, 17(%rsi)
	movups %xmm2, 33(%rsi)
	movups %xmm3, 49(%rsi)
	movb %bpl, 65(%rsi)
.LBB0_6:
	addq $552, %rsp
	popq %rbx
	popq %rbp
	popq %rdi
	popq %rsi
	popq %r12
	popq %r13
	popq %r14
	popq %r15
	retq
	.seh_endproc
	.section .rdata,"dr"
	.p2align 4, 0x0
.LCPI1_0:
	.byte 3
	.byte 2
	.byte 1
	.byte 0
	.byte 7
	.byte 6
	.byte 5
	.byte 4
	.byte 11
	.byte 10
	.byte 9
	.byte 8
	.byte 15
	.byte 14
	.byte 13
	.byte 12
.LCPI1_1:
	.long 1116352408
	.long 1899447441
	.long 3049323471
	.long 3921009573
.LCPI1_2:
	.long 961987163
	.long 1508970993
	.long 2453635748
	.long 2870763221
.LCPI1_3:
	.long 3624381080
	.long 310598401
	.long 607225278
	.long 1426881987
.LCPI1_4:
	.long 1925078388
	.long 2162078206
	.long 2614888103
	.long 3248222580
.LCPI1_5:
	.long 1518500249
	.long 1518500249
	.long 1518500249
	.long 1518500249
.LCPI1_6:
	.byte 7
	.byte 6
	.byte 5
	.byte 4
	.byte 3
	.byte 2
	.byte 1
	.byte 0
	.byte 15
	.byte 14
	.byte 13
	.byte 12
	.byte 11
	.byte 10
	.byte 9
	.byte 8
.LCPI1_7:
	.quad -5349999486874862801
	.quad -1606136188198331460
.LCPI1_8:
	.quad 4794697086780616226
	.quad 8158064640168781261
.LCPI1_9:
	.quad -7908458776815382629
	.quad -6116909921290321640
.LCPI1_10:
	.quad 4131703408338449720
	.quad 6480981068601479193
.LCPI1_11:
	.quad 2608012711638119052
	.quad 6128411473006802146
.LCPI1_12:
	.quad -2880145864133508542
	.quad 1334009975649890238
.LCPI1_13:
	.quad 8268148722764581231
	.quad -9160688886553864527
.LCPI1_14:
	.quad -7215885187991268811
	.quad -4495734319001033068
	.text
	.p2align 4
ring.digest.block_context.run_blocks:
.seh_proc ring.digest.block_context.run_blocks
	pushq %r15
	.seh_pushreg %r15
	pushq %r14
	.seh_pushreg %r14
	pushq %r13
	.seh_pushreg %r13
	pushq %r12
	.seh_pushreg %r12
	pushq %rsi
	.seh_pushreg %rsi
	pushq %rdi
	.seh_pushreg %rdi
	pushq %rbx
	.seh_pushreg %rbx
	subq $528, %rsp
	.seh_stackalloc 528
	movdqa %xmm9, 512(%rsp)
	.seh_savexmm %xmm9, 512
	movdqa %xmm8, 496(%rsp)
	.seh_savexmm %xmm8, 496
	movdqa %xmm7, 480(%rsp)
	.seh_savexmm %xmm7, 480
	movdqa %xmm6, 464(%rsp)
	.seh_savexmm %xmm6, 464
	.seh_endprologue
	movq %r9, %rdi
	movq %r8, %rsi
	movq %rdx, %r14
	movq 624(%rsp), %rbx
	cmpb $0, (%rdx)
	je .LBB1_1
	addq $4, %r14
	movq %rdi, %r15
	andq $-64, %r15
	movl %edi, %r12d
	andl $63, %r12d
	pxor %xmm0, %xmm0
	testb %cl, %cl
	je .LBB1_6
	movdqa %xmm0, 128(%rsp)
	movdqa %xmm0, 112(%rsp)
	movdqa %xmm0, 96(%rsp)
	movdqa %xmm0, 80(%rsp)
	movzbl yz_instructions(%rip), %eax
	testb %al, %al
	je .LBB1_11
	movq %r14, %rcx
	movq %rsi, %rdx
	movq %r15, %r8
	movq %rbx, %r9
	callq ring_core.digest.sha2.by_instruction.run_blocks.0a683a1c7ad27461
	jmp .LBB1_14
.LBB1_1:
	movq %rdi, %r15
	shrq $7, %r15
	je .LBB1_4
	addq $8, %r14
	leaq 96(%rsi), %r12
	.p2align 4
.LBB1_3:
	movdqa .LCPI1_6(%rip), %xmm8
	movdqu -96(%r12), %xmm0
	movdqu -80(%r12), %xmm3
	movdqu -64(%r12), %xmm1
	movdqu -48(%r12), %xmm2
	pshufb %xmm8, %xmm0
	pshufb %xmm8, %xmm3
	pshufb %xmm8, %xmm1
	pshufb %xmm8, %xmm2
	movdqu -32(%r12), %xmm5
	pshufb %xmm8, %xmm5
	movdqu -16(%r12), %xmm6
	pshufb %xmm8, %xmm6
	movdqu 16(%r12), %xmm4
	pshufb %xmm8, %xmm4
	movdqu (%r12), %xmm7
	pshufb %xmm8, %xmm7
	movdqa .LCPI1_7(%rip), %xmm8
	paddq %xmm3, %xmm8
	movdqa .LCPI1_8(%rip), %xmm9
	paddq %xmm0, %xmm9
	movdqu %xmm9, 80(%rsp)
	movdqu %xmm8, 96(%rsp)
	movdqa .LCPI1_9(%rip), %xmm8
	paddq %xmm2, %xmm8
	movdqa .LCPI1_10(%rip), %xmm9
	paddq %xmm1, %xmm9
	movdqu %xmm9, 112(%rsp)
	movdqu %xmm8, 128(%rsp)
	movdqa .LCPI1_11(%rip), %xmm8
	paddq %xmm6, %xmm8
	movdqa .LCPI1_12(%rip), %xmm9
	paddq %xmm5, %xmm9
	movdqu %xmm9, 144(%rsp)
	movdqu %xmm8, 160(%rsp)
	movdqa .LCPI1_13(%rip), %xmm8
	paddq %xmm7, %xmm8
	movdqa .LCPI1_14(%rip), %xmm9
	paddq %xmm4, %xmm9
	movdqu %xmm9, 192(%rsp)
	movdqu %xmm8, 176(%rsp)
	movdqa %xmm3, 304(%rsp)
	movdqa %xmm0, 320(%rsp)
	movdqa %xmm1, 288(%rsp)
	movdqa %xmm2, 272(%rsp)
	leaq 272(%rsp), %rax
	movq %rax, 40(%rsp)
	movdqa %xmm5, 256(%rsp)
	leaq 256(%rsp), %rax
	movq %rax, 48(%rsp)
	movdqa %xmm6, 240(%rsp)
	leaq 240(%rsp), %rax
	movq %rax, 56(%rsp)
	movdqa %xmm7, 224(%rsp)
	leaq 224(%rsp), %rax
	movq %rax, 64(%rsp)
	movdqa %xmm4, 208(%rsp)
	leaq 208(%rsp), %rax
	movq %rax, 72(%rsp)
	leaq 288(%rsp), %rax
	movq %rax, 32(%rsp)
	leaq 80(%rsp), %rcx
	leaq 320(%rsp), %r8
	leaq 304(%rsp), %r9
	movq %r14, %rdx
	callq ring_core.digest.sha2.by_fours.run_ahead.34389943500e16fa
	movq (%rbx), %rax
	movq 8(%rbx), %rcx
	addq $1, %rax
	adcq $0, %rcx
	movq $-1, %rdx
	cmovbq %rdx, %rcx
	cmovbq %rdx, %rax
	movq %rax, (%rbx)
	movq %rcx, 8(%rbx)
	subq $-128, %r12
	decq %r15
	jne .LBB1_3
.LBB1_4:
	movq %rdi, %r15
	andq $-128, %r15
	andl $127, %edi
	movq %rdi, %r12
	jmp .LBB1_14
.LBB1_6:
	movdqa %xmm0, 128(%rsp)
	movdqa %xmm0, 112(%rsp)
	movdqa %xmm0, 96(%rsp)
	movdqa %xmm0, 80(%rsp)
	movzbl yz_instructions(%rip), %eax
	testb %al, %al
	je .LBB1_7
	movq %r14, %rcx
	movq %rsi, %rdx
	movq %r15, %r8
	movq %rbx, %r9
	callq ring_core.digest.sha1.by_instruction.run_blocks.2f3a0559ae3dd27e
	jmp .LBB1_14
.LBB1_11:
	shrq $6, %rdi
	je .LBB1_14
	leaq 48(%rsi), %r13
	.p2align 4
.LBB1_13:
	movdqa .LCPI1_0(%rip), %xmm0
	movdqu -48(%r13), %xmm1
	movdqu -32(%r13), %xmm2
	movdqu -16(%r13), %xmm3
	movdqu (%r13), %xmm4
	pshufb %xmm0, %xmm1
	pshufb %xmm0, %xmm2
	pshufb %xmm0, %xmm3
	pshufb %xmm0, %xmm4
	movdqa .LCPI1_1(%rip), %xmm0
	paddd %xmm1, %xmm0
	movdqa %xmm0, 80(%rsp)
	movdqa .LCPI1_2(%rip), %xmm0
	paddd %xmm2, %xmm0
	movdqa %xmm0, 96(%rsp)
	movdqa .LCPI1_3(%rip), %xmm0
	paddd %xmm3, %xmm0
	movdqa %xmm0, 112(%rsp)
	movdqa .LCPI1_4(%rip), %xmm0
	paddd %xmm4, %xmm0
	movdqa %xmm0, 128(%rsp)
	movdqa %xmm2, 432(%rsp)
	movdqa %xmm1, 448(%rsp)
	movdqa %xmm3, 416(%rsp)
	movdqa %xmm4, 400(%rsp)
	leaq 400(%rsp), %rax
	movq %rax, 40(%rsp)
	leaq 416(%rsp), %rax
	movq %rax, 32(%rsp)
	leaq 80(%rsp), %rcx
	leaq 448(%rsp), %r8
	leaq 432(%rsp), %r9
	movq %r14, %rdx
	callq ring_core.digest.sha2.by_fours.run_ahead.99accd9fe8f0e06d
	movq (%rbx), %rax
	movq 8(%rbx), %rcx
	addq $1, %rax
	adcq $0, %rcx
	movq $-1, %rdx
	cmovbq %rdx, %rcx
	cmovbq %rdx, %rax
	movq %rax, (%rbx)
	movq %rcx, 8(%rbx)
	addq $64, %r13
	decq %rdi
	jne .LBB1_13
	jmp .LBB1_14
.LBB1_7:
	shrq $6, %rdi
	je .LBB1_14
	leaq 48(%rsi), %r13
	.p2align 4
.LBB1_9:
	movdqa .LCPI1_0(%rip), %xmm0
	movdqu -48(%r13), %xmm1
	movdqu -32(%r13), %xmm2
	movdqu -16(%r13), %xmm3
	movdqu (%r13), %xmm4
	pshufb %xmm0, %xmm1
	pshufb %xmm0, %xmm2
	pshufb %xmm0, %xmm3
	pshufb %xmm0, %xmm4
	movdqa .LCPI1_5(%rip), %xmm0
	movdqa %xmm1, %xmm5
	paddd %xmm0, %xmm5
	movdqa %xmm5, 80(%rsp)
	movdqa %xmm2, %xmm5
	paddd %xmm0, %xmm5
	movdqa %xmm5, 96(%rsp)
	movdqa %xmm3, %xmm5
	paddd %xmm0, %xmm5
	movdqa %xmm5, 112(%rsp)
	paddd %xmm4, %xmm0
	movdqa %xmm0, 128(%rsp)
	movdqa %xmm2, 368(%rsp)
	movdqa %xmm1, 384(%rsp)
	movdqa %xmm3, 352(%rsp)
	movdqa %xmm4, 336(%rsp)
	leaq 336(%rsp), %rax
	movq %rax, 40(%rsp)
	leaq 352(%rsp), %rax
	movq %rax, 32(%rsp)
	leaq 80(%rsp), %rcx
	leaq 384(%rsp), %r8
	leaq 368(%rsp), %r9
	movq %r14, %rdx
	callq ring_core.digest.sha1.by_fours.run_ahead
	movq (%rbx), %rax
	movq 8(%rbx), %rcx
	addq $1, %rax
	adcq $0, %rcx
	movq $-1, %rdx
	cmovbq %rdx, %rcx
	cmovbq %rdx, %rax
	movq %rax, (%rbx)
	movq %rcx, 8(%rbx)
	addq $64, %r13
	decq %rdi
	jne .LBB1_9
.LBB1_14:
	addq %r15, %rsi
	movq %rsi, %rax
	movq %r12, %rdx
	movaps 464(%rsp), %xmm6
	movaps 480(%rsp), %xmm7
	movaps 496(%rsp), %xmm8
	movaps 512(%rsp), %xmm9
	addq $528, %rsp
	popq %rbx
	popq %rdi
	popq %rsi
	popq %r12
	popq %r13
	popq %r14
	popq %r15
	retq
	.seh_endproc
	.p2align 4
ring_core.digest.sha2.by_fours.run_ahead.34389943500e16fa:
.seh_proc ring_core.digest.sha2.by_fours.run_ahead.34389943500e16fa
	pushq %r15
	.seh_pushreg %r15
	pushq %r14
	.seh_pushreg %r14
	pushq %r13
	.seh_pushreg %r13
	pushq %r12
	.seh_pushreg %r12
	pushq %rsi
	.seh_pushreg %rsi
	pushq %rdi
	.seh_pushreg %rdi
	pushq %rbp
	.seh_pushreg %rbp
	pushq %rbx
	.seh_pushreg %rbx
	subq $200, %rsp
	.seh_stackalloc 200
	movdqa %xmm15, 176(%rsp)
	.seh_savexmm %xmm15, 176
	movdqa %xmm14, 160(%rsp)
	.seh_savexmm %xmm14, 160
	movdqa %xmm13, 144(%rsp)
	.seh_savexmm %xmm13, 144
	movdqa %xmm12, 128(%rsp)
	.seh_savexmm %xmm12, 128
	movdqa %xmm11, 112(%rsp)
	.seh_savexmm %xmm11, 112
	movdqa %xmm10, 96(%rsp)
	.seh_savexmm %xmm10, 96
	movdqa %xmm9, 80(%rsp)
	.seh_savexmm %xmm9, 80
	movdqa %xmm8, 64(%rsp)
	.seh_savexmm %xmm8, 64
	movaps %xmm7, 48(%rsp)
	.seh_savexmm %xmm7, 48
	movaps %xmm6, 32(%rsp)
	.seh_savexmm %xmm6, 32
	.seh_endprologue
	movq %rcx, 16(%rsp)
	movq 344(%rsp), %rax
	movdqa (%rax), %xmm4
	movq 336(%rsp), %rax
	movdqa (%rax), %xmm7
	movq 328(%rsp), %rax
	movdqa (%rax), %xmm6
	movq 320(%rsp), %rax
	movdqa (%rax), %xmm5
	movq 312(%rsp), %rax
	movdqa (%rax), %xmm3
	movq 304(%rsp), %rax
	movdqa (%rax), %xmm0
	movdqa (%r9), %xmm1
	movdqa (%r8), %xmm2
	movq (%rdx), %r14
	movq 8(%rdx), %rsi
	movq 16(%rdx), %r13
	movq 24(%rdx), %rbx
	movq 32(%rdx), %r8
	movq 40(%rdx), %r9
	movq 48(%rdx), %rax
	movq %rdx, 24(%rsp)
	movq 56(%rdx), %r10
	xorl %edx, %edx
	.p2align 4
.LBB2_1:
	movq %rdx, 8(%rsp)
	movq %r8, %r15
	shldq $41, %r15, %r15
	xorq %r8, %r15
	shldq $60, %r15, %r15
	movdqa %xmm0, %xmm8
	palignr $8, %xmm1, %xmm8
	movdqa %xmm1, %xmm9
	palignr $8, %xmm2, %xmm9
	movdqa %xmm4, %xmm10
	palignr $8, %xmm7, %xmm10
	movdqa %xmm10, %xmm12
	psrlq $7, %xmm12
	movdqa %xmm10, %xmm11
	psllq $57, %xmm11
	por %xmm12, %xmm11
	pxor %xmm10, %xmm11
	movdqa %xmm11, %xmm13
	psrlq $1, %xmm13
	psllq $63, %xmm11
	por %xmm13, %xmm11
	pxor %xmm12, %xmm11
	paddq %xmm7, %xmm11
	movdqa %xmm7, %xmm13
	palignr $8, %xmm6, %xmm13
	movdqa %xmm9, %xmm7
	psrlq $7, %xmm7
	movdqa %xmm8, %xmm15
	psrlq $7, %xmm15
	movdqa %xmm8, %xmm14
	psllq $57, %xmm14
	por %xmm15, %xmm14
	movdqa %xmm9, %xmm12
	psllq $57, %xmm12
	por %xmm7, %xmm12
	pxor %xmm9, %xmm12
	pxor %xmm8, %xmm14
	movdqa %xmm14, %xmm8
	psrlq $1, %xmm8
	psllq $63, %xmm14
	por %xmm8, %xmm14
	movdqa %xmm12, %xmm8
	psrlq $1, %xmm8
	psllq $63, %xmm12
	por %xmm8, %xmm12
	pxor %xmm7, %xmm12
	pxor %xmm15, %xmm14
	movdqa %xmm4, %xmm7
	psrlq $42, %xmm7
	movdqa %xmm4, %xmm8
	psllq $22, %xmm8
	por %xmm7, %xmm8
	pxor %xmm4, %xmm8
	movdqa %xmm8, %xmm7
	psrlq $19, %xmm7
	psllq $45, %xmm8
	por %xmm7, %xmm8
	movdqa %xmm4, %xmm9
	psrlq $6, %xmm9
	pxor %xmm8, %xmm9
	movdqa %xmm13, %xmm8
	psrlq $7, %xmm8
	movdqa %xmm13, %xmm7
	psllq $57, %xmm7
	por %xmm8, %xmm7
	pxor %xmm13, %xmm7
	movdqa %xmm7, %xmm15
	psrlq $1, %xmm15
	psllq $63, %xmm7
	por %xmm15, %xmm7
	xorq %r8, %r15
	shldq $50, %r15, %r15
	movq %rax, %r12
	xorq %r9, %r12
	andq %r8, %r12
	xorq %rax, %r12
	addq %r10, %r12
	addq %r15, %r12
	movq 16(%rsp), %rcx
	addq (%rcx), %r12
	pxor %xmm8, %xmm7
	movq %r14, %r10
	shldq $59, %r10, %r10
	xorq %r14, %r10
	shldq $58, %r10, %r10
	xorq %r14, %r10
	shldq $36, %r10, %r10
	movq %rsi, %r15
	xorq %r14, %r15
	movq %r13, %r11
	xorq %rsi, %r11
	andq %r15, %r11
	xorq %rsi, %r11
	addq %r10, %r11
	addq %r12, %r11
	addq %rbx, %r12
	paddq %xmm6, %xmm7
	movdqa %xmm6, %xmm8
	movq %r12, %r10
	shldq $41, %r10, %r10
	palignr $8, %xmm5, %xmm8
	xorq %r12, %r10
	shldq $60, %r10, %r10
	xorq %r12, %r10
	shldq $50, %r10, %r10
	movq %r9, %rdi
	xorq %r8, %rdi
	andq %r12, %rdi
	addq 8(%rcx), %rax
	xorq %r9, %rdi
	movq %r11, %rbx
	shldq $59, %rbx, %rbx
	addq %rdi, %rax
	xorq %r11, %rbx
	shldq $58, %rbx, %rbx
	addq %r10, %rax
	xorq %r11, %rbx
	shldq $36, %rbx, %rbx
	movq %r11, %r10
	xorq %r14, %r10
	andq %r10, %r15
	xorq %r14, %r15
	addq %rbx, %r15
	addq %rax, %r15
	addq %r13, %rax
	paddq %xmm13, %xmm1
	paddq %xmm14, %xmm1
	movq %rax, %rdi
	shldq $41, %rdi, %rdi
	paddq %xmm8, %xmm2
	xorq %rax, %rdi
	shldq $60, %rdi, %rdi
	paddq %xmm9, %xmm2
	xorq %rax, %rdi
	shldq $50, %rdi, %rdi
	paddq %xmm12, %xmm2
	movq %r12, %rbx
	xorq %r8, %rbx
	andq %rax, %rbx
	xorq %r8, %rbx
	addq 16(%rcx), %r9
	addq %rbx, %r9
	addq %rdi, %r9
	movq %r15, %rdi
	shldq $59, %rdi, %rdi
	xorq %r15, %rdi
	shldq $58, %rdi, %rdi
	xorq %r15, %rdi
	shldq $36, %rdi, %rdi
	movq %r15, %rbp
	xorq %r11, %rbp
	andq %rbp, %r10
	xorq %r11, %r10
	addq %rdi, %r10
	addq %r9, %r10
	addq %rsi, %r9
	movdqa %xmm2, %xmm6
	psrlq $42, %xmm6
	movdqa %xmm2, %xmm9
	psllq $22, %xmm9
	por %xmm6, %xmm9
	pxor %xmm2, %xmm9
	movdqa %xmm9, %xmm6
	psrlq $19, %xmm6
	psllq $45, %xmm9
	por %xmm6, %xmm9
	movdqa %xmm2, %xmm6
	psrlq $6, %xmm6
	movq %r9, %rsi
	shldq $41, %rsi, %rsi
	pxor %xmm9, %xmm6
	xorq %r9, %rsi
	shldq $60, %rsi, %rsi
	paddq %xmm6, %xmm1
	xorq %r9, %rsi
	shldq $50, %rsi, %rsi
	movq %rax, %rdi
	xorq %r12, %rdi
	addq 24(%rcx), %r8
	andq %r9, %rdi
	movq %r10, %rbx
	shldq $59, %rbx, %rbx
	xorq %r12, %rdi
	xorq %r10, %rbx
	shldq $58, %rbx, %rbx
	addq %rdi, %r8
	xorq %r10, %rbx
	shldq $36, %rbx, %rbx
	addq %rsi, %r8
	movq %r10, %rsi
	xorq %r15, %rsi
	andq %rsi, %rbp
	xorq %r15, %rbp
	addq %rbx, %rbp
	addq %r8, %rbp
	addq %r14, %r8
	leaq .Lstatic.5(%rip), %r14
	movdqu 128(%rdx,%r14), %xmm6
	movdqu 144(%rdx,%r14), %xmm13
	movdqu 160(%rdx,%r14), %xmm12
	movdqu 176(%rdx,%r14), %xmm9
	paddq %xmm1, %xmm13
	paddq %xmm2, %xmm6
	movdqu %xmm6, (%rcx)
	movdqu %xmm13, 16(%rcx)
	movq %r8, %rdi
	shldq $41, %rdi, %rdi
	xorq %r8, %rdi
	shldq $60, %rdi, %rdi
	movdqa %xmm8, %xmm13
	psrlq $7, %xmm13
	movdqa %xmm8, %xmm6
	psllq $57, %xmm6
	por %xmm13, %xmm6
	pxor %xmm8, %xmm6
	movdqa %xmm6, %xmm8
	psrlq $1, %xmm8
	psllq $63, %xmm6
	por %xmm8, %xmm6
	pxor %xmm13, %xmm6
	paddq %xmm5, %xmm6
	movdqa %xmm5, %xmm8
	palignr $8, %xmm3, %xmm8
	movdqa %xmm8, %xmm13
	psrlq $7, %xmm13
	movdqa %xmm8, %xmm5
	psllq $57, %xmm5
	por %xmm13, %xmm5
	pxor %xmm8, %xmm5
	movdqa %xmm5, %xmm8
	psrlq $1, %xmm8
	psllq $63, %xmm5
	por %xmm8, %xmm5
	pxor %xmm13, %xmm5
	paddq %xmm3, %xmm5
	movdqa %xmm3, %xmm8
	palignr $8, %xmm0, %xmm8
	movdqa %xmm8, %xmm13
	psrlq $7, %xmm13
	movdqa %xmm8, %xmm3
	psllq $57, %xmm3
	por %xmm13, %xmm3
	pxor %xmm8, %xmm3
	movdqa %xmm3, %xmm8
	psrlq $1, %xmm8
	psllq $63, %xmm3
	por %xmm8, %xmm3
	xorq %r8, %rdi
	shldq $50, %rdi, %rdi
	pxor %xmm13, %xmm3
	movq %r9, %rbx
	xorq %rax, %rbx
	andq %r8, %rbx
	xorq %rax, %rbx
	addq 32(%rcx), %r12
	addq %rbx, %r12
	addq %rdi, %r12
	movq %rbp, %rbx
	shldq $59, %rbx, %rbx
	xorq %rbp, %rbx
	shldq $58, %rbx, %rbx
	xorq %rbp, %rbx
	shldq $36, %rbx, %rbx
	movq %rbp, %rdi
	xorq %r10, %rdi
	andq %rdi, %rsi
	xorq %r10, %rsi
	addq %rbx, %rsi
	addq %r12, %rsi
	addq %r11, %r12
	movq %r12, %r11
	shldq $41, %r11, %r11
	paddq %xmm10, %xmm0
	xorq %r12, %r11
	shldq $60, %r11, %r11
	paddq %xmm3, %xmm0
	xorq %r12, %r11
	shldq $50, %r11, %r11
	movq %r8, %rbx
	xorq %r9, %rbx
	addq 40(%rcx), %rax
	andq %r12, %rbx
	movq %rsi, %r13
	shldq $59, %r13, %r13
	xorq %r9, %rbx
	xorq %rsi, %r13
	shldq $58, %r13, %r13
	addq %rbx, %rax
	xorq %rsi, %r13
	shldq $36, %r13, %r13
	addq %r11, %rax
	movq %rsi, %rbx
	xorq %rbp, %rbx
	andq %rbx, %rdi
	xorq %rbp, %rdi
	addq %r13, %rdi
	addq %rax, %rdi
	addq %r15, %rax
	movdqa %xmm1, %xmm3
	psrlq $42, %xmm3
	movdqa %xmm1, %xmm8
	psllq $22, %xmm8
	por %xmm3, %xmm8
	pxor %xmm1, %xmm8
	movdqa %xmm8, %xmm3
	psrlq $19, %xmm3
	psllq $45, %xmm8
	por %xmm3, %xmm8
	movdqa %xmm1, %xmm3
	psrlq $6, %xmm3
	pxor %xmm8, %xmm3
	movq %rax, %r11
	shldq $41, %r11, %r11
	paddq %xmm3, %xmm0
	xorq %rax, %r11
	shldq $60, %r11, %r11
	xorq %rax, %r11
	shldq $50, %r11, %r11
	movdqa %xmm0, %xmm3
	psrlq $42, %xmm3
	movdqa %xmm0, %xmm8
	psllq $22, %xmm8
	por %xmm3, %xmm8
	pxor %xmm0, %xmm8
	movdqa %xmm8, %xmm3
	psrlq $19, %xmm3
	psllq $45, %xmm8
	por %xmm3, %xmm8
	movdqa %xmm0, %xmm3
	psrlq $6, %xmm3
	pxor %xmm8, %xmm3
	movdqa %xmm2, %xmm8
	movq %r12, %r15
	xorq %r8, %r15
	andq %rax, %r15
	xorq %r8, %r15
	addq 48(%rcx), %r9
	addq %r15, %r9
	addq %r11, %r9
	movq %rdi, %r11
	shldq $59, %r11, %r11
	xorq %rdi, %r11
	shldq $58, %r11, %r11
	xorq %rdi, %r11
	shldq $36, %r11, %r11
	movq %rdi, %r13
	xorq %rsi, %r13
	andq %r13, %rbx
	xorq %rsi, %rbx
	addq %r11, %rbx
	addq %r9, %rbx
	addq %r10, %r9
	movq %r9, %r10
	shldq $41, %r10, %r10
	palignr $8, %xmm4, %xmm8
	xorq %r9, %r10
	shldq $60, %r10, %r10
	paddq %xmm8, %xmm5
	xorq %r9, %r10
	shldq $50, %r10, %r10
	paddq %xmm5, %xmm3
	movq %rax, %r11
	xorq %r12, %r11
	andq %r9, %r11
	xorq %r12, %r11
	addq 56(%rcx), %r8
	addq %r11, %r8
	addq %r10, %r8
	movq %rbx, %r10
	shldq $59, %r10, %r10
	xorq %rbx, %r10
	shldq $58, %r10, %r10
	xorq %rbx, %r10
	shldq $36, %r10, %r10
	movq %rbx, %r15
	xorq %rdi, %r15
	andq %r15, %r13
	xorq %rdi, %r13
	addq %r10, %r13
	addq %r8, %r13
	addq %rbp, %r8
	paddq %xmm3, %xmm9
	paddq %xmm0, %xmm12
	movdqu %xmm12, 32(%rcx)
	movdqu %xmm9, 48(%rcx)
	movq %r8, %r10
	shldq $41, %r10, %r10
	xorq %r8, %r10
	shldq $60, %r10, %r10
	xorq %r8, %r10
	shldq $50, %r10, %r10
	movq %r9, %r11
	xorq %rax, %r11
	andq %r8, %r11
	xorq %rax, %r11
	addq 64(%rcx), %r12
	addq %r11, %r12
	movq %r13, %r11
	shldq $59, %r11, %r11
	addq %r10, %r12
	xorq %r13, %r11
	shldq $58, %r11, %r11
	xorq %r13, %r11
	shldq $36, %r11, %r11
	movq %r13, %rdx
	xorq %rbx, %rdx
	andq %rdx, %r15
	xorq %rbx, %r15
	addq %r11, %r15
	addq %r12, %r15
	addq %rsi, %r12
	movdqa %xmm0, %xmm5
	palignr $8, %xmm1, %xmm5
	movdqa %xmm1, %xmm9
	movq %r12, %r10
	shldq $41, %r10, %r10
	palignr $8, %xmm2, %xmm9
	xorq %r12, %r10
	shldq $60, %r10, %r10
	paddq %xmm9, %xmm6
	xorq %r12, %r10
	shldq $50, %r10, %r10
	paddq %xmm5, %xmm7
	movq %r8, %r11
	xorq %r9, %r11
	andq %r12, %r11
	xorq %r9, %r11
	addq 72(%rcx), %rax
	addq %r11, %rax
	addq %r10, %rax
	movq %r15, %r10
	shldq $59, %r10, %r10
	xorq %r15, %r10
	shldq $58, %r10, %r10
	xorq %r15, %r10
	shldq $36, %r10, %r10
	movq %r15, %r11
	xorq %r13, %r11
	andq %r11, %rdx
	xorq %r13, %rdx
	addq %r10, %rdx
	addq %rax, %rdx
	addq %rdi, %rax
	movdqa %xmm3, %xmm5
	psrlq $42, %xmm5
	movdqa %xmm3, %xmm9
	psllq $22, %xmm9
	por %xmm5, %xmm9
	pxor %xmm3, %xmm9
	movdqa %xmm9, %xmm5
	psrlq $19, %xmm5
	psllq $45, %xmm9
	por %xmm5, %xmm9
	movdqa %xmm3, %xmm5
	psrlq $6, %xmm5
	movq %rax, %r10
	shldq $41, %r10, %r10
	pxor %xmm9, %xmm5
	xorq %rax, %r10
	shldq $60, %r10, %r10
	paddq %xmm6, %xmm5
	xorq %rax, %r10
	shldq $50, %r10, %r10
	movq %r12, %rsi
	xorq %r8, %rsi
	addq 80(%rcx), %r9
	andq %rax, %rsi
	movq %rdx, %rbp
	shldq $59, %rbp, %rbp
	xorq %r8, %rsi
	xorq %rdx, %rbp
	shldq $58, %rbp, %rbp
	addq %rsi, %r9
	xorq %rdx, %rbp
	shldq $36, %rbp, %rbp
	addq %r10, %r9
	movq %rdx, %rdi
	xorq %r15, %rdi
	andq %rdi, %r11
	xorq %r15, %r11
	addq %rbp, %r11
	addq %r9, %r11
	addq %rbx, %r9
	movdqa %xmm5, %xmm6
	psrlq $42, %xmm6
	movdqa %xmm5, %xmm9
	psllq $22, %xmm9
	por %xmm6, %xmm9
	pxor %xmm5, %xmm9
	movdqa %xmm9, %xmm6
	psrlq $19, %xmm6
	psllq $45, %xmm9
	por %xmm6, %xmm9
	movdqa %xmm5, %xmm6
	psrlq $6, %xmm6
	pxor %xmm9, %xmm6
	movq %r9, %r10
	shldq $41, %r10, %r10
	paddq %xmm7, %xmm6
	xorq %r9, %r10
	shldq $60, %r10, %r10
	xorq %r9, %r10
	shldq $50, %r10, %r10
	movq %rax, %rsi
	xorq %r12, %rsi
	andq %r9, %rsi
	addq 88(%rcx), %r8
	xorq %r12, %rsi
	movq %r11, %rbp
	shldq $59, %rbp, %rbp
	addq %rsi, %r8
	xorq %r11, %rbp
	shldq $58, %rbp, %rbp
	addq %r10, %r8
	xorq %r11, %rbp
	shldq $36, %rbp, %rbp
	movq %r11, %rbx
	xorq %rdx, %rbx
	andq %rbx, %rdi
	xorq %rdx, %rdi
	addq %rbp, %rdi
	addq %r8, %rdi
	addq %r13, %r8
	movq 8(%rsp), %r10
	movdqu 192(%r10,%r14), %xmm7
	movq 8(%rsp), %r10
	movdqu 208(%r10,%r14), %xmm9
	paddq %xmm6, %xmm9
	paddq %xmm5, %xmm7
	movdqu %xmm7, 64(%rcx)
	movdqu %xmm9, 80(%rcx)
	movq %r8, %r10
	shldq $41, %r10, %r10
	xorq %r8, %r10
	shldq $60, %r10, %r10
	movdqa %xmm8, %xmm7
	psrlq $7, %xmm7
	movdqa %xmm8, %xmm9
	psllq $57, %xmm9
	por %xmm7, %xmm9
	pxor %xmm8, %xmm9
	movdqa %xmm9, %xmm8
	psrlq $1, %xmm8
	psllq $63, %xmm9
	por %xmm8, %xmm9
	xorq %r8, %r10
	shldq $50, %r10, %r10
	movq %r9, %rsi
	xorq %rax, %rsi
	addq 96(%rcx), %r12
	andq %r8, %rsi
	movq %rdi, %rbp
	shldq $59, %rbp, %rbp
	xorq %rax, %rsi
	xorq %rdi, %rbp
	shldq $58, %rbp, %rbp
	addq %rsi, %r12
	xorq %rdi, %rbp
	shldq $36, %rbp, %rbp
	addq %r10, %r12
	movq %rdi, %r13
	xorq %r11, %r13
	andq %r13, %rbx
	xorq %r11, %rbx
	addq %rbp, %rbx
	addq %r12, %rbx
	movq %r12, %r10
	addq %r15, %r10
	pxor %xmm7, %xmm9
	movdqa %xmm5, %xmm7
	palignr $8, %xmm3, %xmm7
	paddq %xmm4, %xmm9
	movdqa %xmm3, %xmm4
	palignr $8, %xmm0, %xmm4
	paddq %xmm7, %xmm9
	paddq %xmm4, %xmm11
	movq %r10, %rsi
	shldq $41, %rsi, %rsi
	xorq %r10, %rsi
	shldq $60, %rsi, %rsi
	xorq %r10, %rsi
	shldq $50, %rsi, %rsi
	movq %r8, %r15
	xorq %r9, %r15
	andq %r10, %r15
	xorq %r9, %r15
	addq 104(%rcx), %rax
	addq %r15, %rax
	movq %rbx, %r15
	shldq $59, %r15, %r15
	addq %rsi, %rax
	xorq %rbx, %r15
	shldq $58, %r15, %r15
	xorq %rbx, %r15
	shldq $36, %r15, %r15
	movq %rbx, %rsi
	xorq %rdi, %rsi
	andq %rsi, %r13
	xorq %rdi, %r13
	addq %r15, %r13
	addq %rax, %r13
	addq %rdx, %rax
	movdqa %xmm6, %xmm4
	psrlq $42, %xmm4
	movdqa %xmm6, %xmm8
	psllq $22, %xmm8
	por %xmm4, %xmm8
	pxor %xmm6, %xmm8
	movdqa %xmm8, %xmm4
	psrlq $19, %xmm4
	psllq $45, %xmm8
	por %xmm4, %xmm8
	movdqa %xmm6, %xmm7
	psrlq $6, %xmm7
	pxor %xmm8, %xmm7
	paddq %xmm11, %xmm7
	movq %rax, %r15
	shldq $41, %r15, %r15
	movq %r10, %r12
	xorq %r8, %r12
	andq %rax, %r12
	addq 112(%rcx), %r9
	xorq %r8, %r12
	movdqa %xmm7, %xmm4
	psrlq $42, %xmm4
	movdqa %xmm7, %xmm8
	psllq $22, %xmm8
	por %xmm4, %xmm8
	pxor %xmm7, %xmm8
	movdqa %xmm8, %xmm4
	psrlq $19, %xmm4
	psllq $45, %xmm8
	por %xmm4, %xmm8
	movdqa %xmm7, %xmm4
	psrlq $6, %xmm4
	pxor %xmm8, %xmm4
	addq 120(%rcx), %r8
	paddq %xmm9, %xmm4
	movq 8(%rsp), %rdx
	movdqu 224(%rdx,%r14), %xmm8
	movq 8(%rsp), %rdx
	movdqu 240(%rdx,%r14), %xmm9
	paddq %xmm7, %xmm8
	movdqu %xmm8, 96(%rcx)
	xorq %rax, %r15
	shldq $60, %r15, %r15
	xorq %rax, %r15
	shldq $50, %r15, %r15
	addq %r12, %r9
	addq %r15, %r9
	movq %r13, %rdx
	shldq $59, %rdx, %rdx
	xorq %r13, %rdx
	shldq $58, %rdx, %rdx
	xorq %r13, %rdx
	shldq $36, %rdx, %rdx
	movq %r13, %r14
	xorq %rbx, %r14
	andq %r14, %rsi
	xorq %rbx, %rsi
	addq %rdx, %rsi
	addq %r9, %rsi
	addq %r11, %r9
	movq %r9, %rdx
	shldq $41, %rdx, %rdx
	xorq %r9, %rdx
	shldq $60, %rdx, %rdx
	paddq %xmm4, %xmm9
	movdqu %xmm9, 112(%rcx)
	xorq %r9, %rdx
	shldq $50, %rdx, %rdx
	movq %rax, %r11
	xorq %r10, %r11
	andq %r9, %r11
	xorq %r10, %r11
	addq %r11, %r8
	movq %rsi, %r11
	shldq $59, %r11, %r11
	addq %rdx, %r8
	movq 8(%rsp), %rdx
	xorq %rsi, %r11
	shldq $58, %r11, %r11
	xorq %rsi, %r11
	shldq $36, %r11, %r11
	movq %rsi, %r15
	xorq %r13, %r15
	andq %r15, %r14
	xorq %r13, %r14
	addq %r11, %r14
	addq %r8, %r14
	addq %rdi, %r8
	subq $-128, %rdx
	cmpq $512, %rdx
	jne .LBB2_1
	movq %r8, %rdx
	shldq $41, %rdx, %rdx
	xorq %r8, %rdx
	shldq $60, %rdx, %rdx
	xorq %r8, %rdx
	shldq $50, %rdx, %rdx
	movq %rax, %r11
	xorq %r9, %r11
	andq %r8, %r11
	xorq %rax, %r11
	addq %r11, %r10
	addq %rdx, %r10
	movq 16(%rsp), %rcx
	addq (%rcx), %r10
	movq %r14, %rdx
	shldq $59, %rdx, %rdx
	xorq %r14, %rdx
	shldq $58, %rdx, %rdx
	xorq %r14, %rdx
	shldq $36, %rdx, %rdx
	movq %rsi, %r11
	xorq %r14, %r11
	andq %r11, %r15
	xorq %rsi, %r15
	addq %rdx, %r15
	addq %r10, %r15
	addq %rbx, %r10
	movq %r10, %rdx
	shldq $41, %rdx, %rdx
	xorq %r10, %rdx
	shldq $60, %rdx, %rdx
	xorq %r10, %rdx
	shldq $50, %rdx, %rdx
	movq %r9, %rdi
	xorq %r8, %rdi
	andq %r10, %rdi
	xorq %r9, %rdi
	addq 8(%rcx), %rax
	addq %rdi, %rax
	addq %rdx, %rax
	movq %r15, %rdx
	shldq $59, %rdx, %rdx
	xorq %r15, %rdx
	shldq $58, %rdx, %rdx
	xorq %r15, %rdx
	shldq $36, %rdx, %rdx
	movq %r15, %rbx
	xorq %r14, %rbx
	andq %rbx, %r11
	xorq %r14, %r11
	addq %rdx, %r11
	addq %rax, %r11
	addq %r13, %rax
	movq %rax, %rdx
	shldq $41, %rdx, %rdx
	xorq %rax, %rdx
	shldq $60, %rdx, %rdx
	xorq %rax, %rdx
	shldq $50, %rdx, %rdx
	movq %r10, %rdi
	xorq %r8, %rdi
	andq %rax, %rdi
	xorq %r8, %rdi
	addq 16(%rcx), %r9
	addq %rdi, %r9
	addq %rdx, %r9
	movq %r11, %rdx
	shldq $59, %rdx, %rdx
	xorq %r11, %rdx
	shldq $58, %rdx, %rdx
	xorq %r11, %rdx
	shldq $36, %rdx, %rdx
	movq %r11, %rdi
	xorq %r15, %rdi
	andq %rdi, %rbx
	xorq %r15, %rbx
	addq %rdx, %rbx
	addq %r9, %rbx
	addq %rsi, %r9
	movq %r9, %rdx
	shldq $41, %rdx, %rdx
	xorq %r9, %rdx
	shldq $60, %rdx, %rdx
	xorq %r9, %rdx
	shldq $50, %rdx, %rdx
	movq %rax, %rsi
	xorq %r10, %rsi
	andq %r9, %rsi
	xorq %r10, %rsi
	addq 24(%rcx), %r8
	addq %rsi, %r8
	addq %rdx, %r8
	movq %rbx, %rdx
	shldq $59, %rdx, %rdx
	xorq %rbx, %rdx
	shldq $58, %rdx, %rdx
	xorq %rbx, %rdx
	shldq $36, %rdx, %rdx
	movq %rbx, %rsi
	xorq %r11, %rsi
	andq %rsi, %rdi
	xorq %r11, %rdi
	addq %rdx, %rdi
	addq %r8, %rdi
	addq %r14, %r8
	movq %r8, %rdx
	shldq $41, %rdx, %rdx
	xorq %r8, %rdx
	shldq $60, %rdx, %rdx
	xorq %r8, %rdx
	shldq $50, %rdx, %rdx
	movq %r9, %r14
	xorq %rax, %r14
	andq %r8, %r14
	xorq %rax, %r14
	addq 32(%rcx), %r10
	addq %r14, %r10
	addq %rdx, %r10
	movq %rdi, %rdx
	shldq $59, %rdx, %rdx
	xorq %rdi, %rdx
	shldq $58, %rdx, %rdx
	xorq %rdi, %rdx
	shldq $36, %rdx, %rdx
	movq %rdi, %r14
	xorq %rbx, %r14
	andq %r14, %rsi
	xorq %rbx, %rsi
	addq %rdx, %rsi
	addq %r10, %rsi
	addq %r15, %r10
	movq %r10, %rdx
	shldq $41, %rdx, %rdx
	xorq %r10, %rdx
	shldq $60, %rdx, %rdx
	xorq %r10, %rdx
	shldq $50, %rdx, %rdx
	movq %r8, %r15
	xorq %r9, %r15
	andq %r10, %r15
	xorq %r9, %r15
	addq 40(%rcx), %rax
	addq %r15, %rax
	addq %rdx, %rax
	movq %rsi, %rdx
	shldq $59, %rdx, %rdx
	xorq %rsi, %rdx
	shldq $58, %rdx, %rdx
	xorq %rsi, %rdx
	shldq $36, %rdx, %rdx
	movq %rsi, %r15
	xorq %rdi, %r15
	andq %r15, %r14
	xorq %rdi, %r14
	addq %rdx, %r14
	addq %rax, %r14
	addq %r11, %rax
	movq %rax, %rdx
	shldq $41, %rdx, %rdx
	xorq %rax, %rdx
	shldq $60, %rdx, %rdx
	xorq %rax, %rdx
	shldq $50, %rdx, %rdx
	movq %r10, %r11
	xorq %r8, %r11
	andq %rax, %r11
	xorq %r8, %r11
	addq 48(%rcx), %r9
	addq %r11, %r9
	addq %rdx, %r9
	movq %r14, %rdx
	shldq $59, %rdx, %rdx
	xorq %r14, %rdx
	shldq $58, %rdx, %rdx
	xorq %r14, %rdx
	shldq $36, %rdx, %rdx
	movq %r14, %r12
	xorq %rsi, %r12
	andq %r12, %r15
	xorq %rsi, %r15
	addq %rdx, %r15
	addq %r9, %r15
	addq %rbx, %r9
	movq %r9, %rdx
	shldq $41, %rdx, %rdx
	xorq %r9, %rdx
	shldq $60, %rdx, %rdx
	xorq %r9, %rdx
	shldq $50, %rdx, %rdx
	movq %rax, %r11
	xorq %r10, %r11
	andq %r9, %r11
	xorq %r10, %r11
	addq 56(%rcx), %r8
	addq %r11, %r8
	addq %rdx, %r8
	movq %r15, %rdx
	shldq $59, %rdx, %rdx
	xorq %r15, %rdx
	shldq $58, %rdx, %rdx
	xorq %r15, %rdx
	shldq $36, %rdx, %rdx
	movq %r15, %rbx
	xorq %r14, %rbx
	andq %rbx, %r12
	xorq %r14, %r12
	addq %rdx, %r12
	addq %r8, %r12
	addq %rdi, %r8
	movq %r8, %rdx
	shldq $41, %rdx, %rdx
	xorq %r8, %rdx
	shldq $60, %rdx, %rdx
	xorq %r8, %rdx
	shldq $50, %rdx, %rdx
	movq %r9, %r11
	xorq %rax, %r11
	andq %r8, %r11
	xorq %rax, %r11
	addq 64(%rcx), %r10
	addq %r11, %r10
	addq %rdx, %r10
	movq %r12, %rdx
	shldq $59, %rdx, %rdx
	xorq %r12, %rdx
	shldq $58, %rdx, %rdx
	xorq %r12, %rdx
	shldq $36, %rdx, %rdx
	movq %r12, %rdi
	xorq %r15, %rdi
	andq %rdi, %rbx
	xorq %r15, %rbx
	addq %rdx, %rbx
	addq %r10, %rbx
	addq %rsi, %r10
	movq %r10, %rdx
	shldq $41, %rdx, %rdx
	xorq %r10, %rdx
	shldq $60, %rdx, %rdx
	xorq %r10, %rdx
	shldq $50, %rdx, %rdx
	movq %r8, %r11
	xorq %r9, %r11
	andq %r10, %r11
	xorq %r9, %r11
	addq 72(%rcx), %rax
	addq %r11, %rax
	addq %rdx, %rax
	movq %rbx, %rdx
	shldq $59, %rdx, %rdx
	xorq %rbx, %rdx
	shldq $58, %rdx, %rdx
	xorq %rbx, %rdx
	shldq $36, %rdx, %rdx
	movq %rbx, %r11
	xorq %r12, %r11
	andq %r11, %rdi
	xorq %r12, %rdi
	addq %rdx, %rdi
	addq %rax, %rdi
	addq %r14, %rax
	movq %rax, %rdx
	shldq $41, %rdx, %rdx
	xorq %rax, %rdx
	shldq $60, %rdx, %rdx
	xorq %rax, %rdx
	shldq $50, %rdx, %rdx
	movq %r10, %rsi
	xorq %r8, %rsi
	andq %rax, %rsi
	xorq %r8, %rsi
	addq 80(%rcx), %r9
	addq %rsi, %r9
	addq %rdx, %r9
	movq %rdi, %rdx
	shldq $59, %rdx, %rdx
	xorq %rdi, %rdx
	shldq $58, %rdx, %rdx
	xorq %rdi, %rdx
	shldq $36, %rdx, %rdx
	movq %rdi, %rsi
	xorq %rbx, %rsi
	andq %rsi, %r11
	xorq %rbx, %r11
	addq %rdx, %r11
	addq %r9, %r11
	addq %r15, %r9
	movq %r9, %rdx
	shldq $41, %rdx, %rdx
	xorq %r9, %rdx
	shldq $60, %rdx, %rdx
	xorq %r9, %rdx
	shldq $50, %rdx, %rdx
	movq %rax, %r14
	xorq %r10, %r14
	andq %r9, %r14
	xorq %r10, %r14
	addq 88(%rcx), %r8
	addq %r14, %r8
	addq %rdx, %r8
	movq %r11, %r14
	shldq $59, %r14, %r14
	xorq %r11, %r14
	shldq $58, %r14, %r14
	xorq %r11, %r14
	shldq $36, %r14, %r14
	movq %r11, %rdx
	xorq %rdi, %rdx
	andq %rdx, %rsi
	xorq %rdi, %rsi
	addq %r14, %rsi
	addq %r8, %rsi
	addq %r12, %r8
	movq %r8, %r14
	shldq $41, %r14, %r14
	xorq %r8, %r14
	shldq $60, %r14, %r14
	xorq %r8, %r14
	shldq $50, %r14, %r14
	movq %r9, %r15
	xorq %rax, %r15
	andq %r8, %r15
	xorq %rax, %r15
	addq 96(%rcx), %r10
	addq %r15, %r10
	addq %r14, %r10
	movq %rsi, %r15
	shldq $59, %r15, %r15
	xorq %rsi, %r15
	shldq $58, %r15, %r15
	xorq %rsi, %r15
	shldq $36, %r15, %r15
	movq %rsi, %r14
	xorq %r11, %r14
	andq %r14, %rdx
	xorq %r11, %rdx
	addq %r15, %rdx
	addq %r10, %rdx
	addq %rbx, %r10
	movq %r10, %rbx
	shldq $41, %rbx, %rbx
	xorq %r10, %rbx
	shldq $60, %rbx, %rbx
	xorq %r10, %rbx
	shldq $50, %rbx, %rbx
	movq %r8, %r15
	xorq %r9, %r15
	andq %r10, %r15
	xorq %r9, %r15
	addq 104(%rcx), %rax
	addq %r15, %rax
	movq %rdx, %r15
	shldq $59, %r15, %r15
	addq %rbx, %rax
	xorq %rdx, %r15
	shldq $58, %r15, %r15
	xorq %rdx, %r15
	shldq $36, %r15, %r15
	movq %rdx, %rbx
	xorq %rsi, %rbx
	andq %rbx, %r14
	xorq %rsi, %r14
	addq %r15, %r14
	addq %rax, %r14
	movq %r14, %r15
	shldq $59, %r15, %r15
	xorq %r14, %r15
	shldq $58, %r15, %r15
	xorq %r14, %r15
	shldq $36, %r15, %r15
	movq %r14, %r12
	xorq %rdx, %r12
	andq %r12, %rbx
	xorq %rdx, %rbx
	addq %r15, %rbx
	addq %rdi, %rax
	movq %r10, %rdi
	xorq %r8, %rdi
	addq 112(%rcx), %r9
	movq 24(%rsp), %r13
	addq 32(%r13), %rsi
	andq %rax, %rdi
	xorq %r8, %rdi
	addq %r9, %rdi
	movq %rax, %r9
	shldq $41, %r9, %r9
	movq 120(%rcx), %r15
	xorq %rax, %r9
	shldq $60, %r9, %r9
	xorq %rax, %r9
	shldq $50, %r9, %r9
	addq %r9, %rdi
	addq %rdi, %rbx
	movq %rbx, %r9
	xorq %r14, %r9
	andq %r12, %r9
	movq 56(%r13), %rcx
	xorq %r14, %r9
	addq (%r13), %r9
	movdqu 8(%r13), %xmm0
	addq %rdx, 24(%r13)
	movq %rbx, %rdx
	shldq $59, %rdx, %rdx
	xorq %rbx, %rdx
	shldq $58, %rdx, %rdx
	xorq %rbx, %rdx
	movq %rbx, %xmm1
	addq %r8, %r15
	addq %r11, %rdi
	addq %r10, %rcx
	movq %rax, %xmm2
	xorq %r10, %rax
	andq %rdi, %rax
	xorq %r10, %rax
	addq %r15, %rax
	movq %rdi, %r8
	shldq $41, %r8, %r8
	xorq %rdi, %r8
	shldq $60, %r8, %r8
	xorq %rdi, %r8
	shldq $50, %r8, %r8
	addq %r8, %rax
	movq %rdi, %xmm3
	shldq $36, %rdx, %rdx
	addq %r9, %rdx
	addq %rax, %rsi
	addq %rax, %rdx
	movq %r14, %xmm4
	movdqu 40(%r13), %xmm5
	movq %rdx, (%r13)
	punpcklqdq %xmm4, %xmm1
	paddq %xmm0, %xmm1
	movdqu %xmm1, 8(%r13)
	movq %rsi, 32(%r13)
	punpcklqdq %xmm2, %xmm3
	paddq %xmm5, %xmm3
	movdqu %xmm3, 40(%r13)
	movq %rcx, 56(%r13)
	movaps 32(%rsp), %xmm6
	movaps 48(%rsp), %xmm7
	movaps 64(%rsp), %xmm8
	movaps 80(%rsp), %xmm9
	movaps 96(%rsp), %xmm10
	movaps 112(%rsp), %xmm11
	movaps 128(%rsp), %xmm12
	movaps 144(%rsp), %xmm13
	movaps 160(%rsp), %xmm14
	movaps 176(%rsp), %xmm15
	addq $200, %rsp
	popq %rbx
	popq %rbp
	popq %rdi
	popq %rsi
	popq %r12
	popq %r13
	popq %r14
	popq %r15
	retq
	.seh_endproc
	.section .rdata,"dr"
	.p2align 4, 0x0
.LCPI3_0:
	.byte 15
	.byte 14
	.byte 13
	.byte 12
	.byte 11
	.byte 10
	.byte 9
	.byte 8
	.byte 7
	.byte 6
	.byte 5
	.byte 4
	.byte 3
	.byte 2
	.byte 1
	.byte 0
	.text
	.p2align 4
ring_core.digest.sha1.by_instruction.run_blocks.2f3a0559ae3dd27e:
.seh_proc ring_core.digest.sha1.by_instruction.run_blocks.2f3a0559ae3dd27e
	pushq %rsi
	.seh_pushreg %rsi
	subq $64, %rsp
	.seh_stackalloc 64
	movaps %xmm9, 48(%rsp)
	.seh_savexmm %xmm9, 48
	movaps %xmm8, 32(%rsp)
	.seh_savexmm %xmm8, 32
	movaps %xmm7, 16(%rsp)
	.seh_savexmm %xmm7, 16
	movaps %xmm6, (%rsp)
	.seh_savexmm %xmm6, 0
	.seh_endprologue
	movdqu (%rcx), %xmm2
	movl 16(%rcx), %r10d
	movsd 20(%rcx), %xmm0
	shldl $2, %r10d, %r10d
	movl 28(%rcx), %eax
	movd %r10d, %xmm1
	pslldq $12, %xmm1
	shrq $6, %r8
	je .LBB3_4
	pshufd $27, %xmm2, %xmm3
	movq (%r9), %r10
	movq 8(%r9), %r11
	addq $48, %rdx
	.p2align 4
.LBB3_2:
	movdqa %xmm3, %xmm2
	movdqa .LCPI3_0(%rip), %xmm7
	movdqu -48(%rdx), %xmm6
	movdqu -32(%rdx), %xmm5
	movdqu -16(%rdx), %xmm4
	movdqu (%rdx), %xmm3
	pshufb %xmm7, %xmm6
	pshufb %xmm7, %xmm5
	pshufb %xmm7, %xmm4
	pshufb %xmm7, %xmm3
	movdqa %xmm1, %xmm7
	sha1nexte %xmm6, %xmm7
	movdqa %xmm2, %xmm8
	sha1rnds4 $0, %xmm7, %xmm8
	sha1msg1 %xmm5, %xmm6
	pxor %xmm4, %xmm6
	sha1msg2 %xmm3, %xmm6
	movdqa %xmm2, %xmm7
	sha1nexte %xmm5, %xmm7
	movaps %xmm8, %xmm9
	sha1rnds4 $0, %xmm7, %xmm9
	sha1msg1 %xmm4, %xmm5
	pxor %xmm3, %xmm5
	sha1msg2 %xmm6, %xmm5
	sha1nexte %xmm4, %xmm8
	movaps %xmm9, %xmm7
	sha1rnds4 $0, %xmm8, %xmm7
	sha1msg1 %xmm3, %xmm4
	xorps %xmm6, %xmm4
	sha1msg2 %xmm5, %xmm4
	sha1nexte %xmm3, %xmm9
	movaps %xmm7, %xmm8
	sha1rnds4 $0, %xmm9, %xmm8
	sha1msg1 %xmm6, %xmm3
	xorps %xmm5, %xmm3
	sha1msg2 %xmm4, %xmm3
	sha1nexte %xmm6, %xmm7
	movaps %xmm8, %xmm9
	sha1rnds4 $0, %xmm7, %xmm9
	sha1msg1 %xmm5, %xmm6
	xorps %xmm4, %xmm6
	sha1msg2 %xmm3, %xmm6
	sha1nexte %xmm5, %xmm8
	movaps %xmm9, %xmm7
	sha1rnds4 $1, %xmm8, %xmm7
	sha1msg1 %xmm4, %xmm5
	xorps %xmm3, %xmm5
	sha1msg2 %xmm6, %xmm5
	sha1nexte %xmm4, %xmm9
	movaps %xmm7, %xmm8
	sha1rnds4 $1, %xmm9, %xmm8
	sha1msg1 %xmm3, %xmm4
	xorps %xmm6, %xmm4
	sha1msg2 %xmm5, %xmm4
	sha1nexte %xmm3, %xmm7
	movaps %xmm8, %xmm9
	sha1rnds4 $1, %xmm7, %xmm9
	sha1msg1 %xmm6, %xmm3
	xorps %xmm5, %xmm3
	sha1msg2 %xmm4, %xmm3
	sha1nexte %xmm6, %xmm8
	movaps %xmm9, %xmm7
	sha1rnds4 $1, %xmm8, %xmm7
	sha1msg1 %xmm5, %xmm6
	xorps %xmm4, %xmm6
	sha1msg2 %xmm3, %xmm6
	sha1nexte %xmm5, %xmm9
	movaps %xmm7, %xmm8
	sha1rnds4 $1, %xmm9, %xmm8
	sha1msg1 %xmm4, %xmm5
	xorps %xmm3, %xmm5
	sha1msg2 %xmm6, %xmm5
	sha1nexte %xmm4, %xmm7
	movaps %xmm8, %xmm9
	sha1rnds4 $2, %xmm7, %xmm9
	sha1msg1 %xmm3, %xmm4
	xorps %xmm6, %xmm4
	sha1msg2 %xmm5, %xmm4
	sha1nexte %xmm3, %xmm8
	movaps %xmm9, %xmm7
	sha1rnds4 $2, %xmm8, %xmm7
	sha1msg1 %xmm6, %xmm3
	xorps %xmm5, %xmm3
	sha1msg2 %xmm4, %xmm3
	sha1nexte %xmm6, %xmm9
	movaps %xmm7, %xmm8
	sha1rnds4 $2, %xmm9, %xmm8
	sha1msg1 %xmm5, %xmm6
	xorps %xmm4, %xmm6
	sha1msg2 %xmm3, %xmm6
	sha1nexte %xmm5, %xmm7
	movaps %xmm8, %xmm9
	sha1rnds4 $2, %xmm7, %xmm9
	sha1msg1 %xmm4, %xmm5
	xorps %xmm3, %xmm5
	sha1msg2 %xmm6, %xmm5
	sha1nexte %xmm4, %xmm8
	movaps %xmm9, %xmm7
	sha1rnds4 $2, %xmm8, %xmm7
	sha1msg1 %xmm3, %xmm4
	xorps %xmm6, %xmm4
	sha1msg2 %xmm5, %xmm4
	sha1nexte %xmm3, %xmm9
	movaps %xmm7, %xmm8
	sha1rnds4 $3, %xmm9, %xmm8
	sha1msg1 %xmm6, %xmm3
	xorps %xmm5, %xmm3
	sha1msg2 %xmm4, %xmm3
	sha1nexte %xmm6, %xmm7
	movaps %xmm8, %xmm6
	sha1rnds4 $3, %xmm7, %xmm6
	sha1nexte %xmm5, %xmm8
	movaps %xmm6, %xmm5
	sha1rnds4 $3, %xmm8, %xmm5
	sha1nexte %xmm4, %xmm6
	movaps %xmm5, %xmm4
	sha1rnds4 $3, %xmm6, %xmm4
	sha1nexte %xmm3, %xmm5
	movaps %xmm4, %xmm3
	sha1rnds4 $3, %xmm5, %xmm3
	paddd %xmm2, %xmm3
	pxor %xmm2, %xmm2
	sha1nexte %xmm2, %xmm1
	sha1nexte %xmm1, %xmm4
	movdqa %xmm4, %xmm2
	psrld $30, %xmm2
	pslld $2, %xmm4
	movdqa %xmm4, %xmm1
	por %xmm2, %xmm1
	addq $1, %r10
	adcq $0, %r11
	movq $-1, %rsi
	cmovbq %rsi, %r11
	cmovbq %rsi, %r10
	movq %r11, 8(%r9)
	movq %r10, (%r9)
	addq $64, %rdx
	decq %r8
	jne .LBB3_2
	pshufd $27, %xmm3, %xmm2
.LBB3_4:
	pextrd $3, %xmm1, %edx
	shldl $30, %edx, %edx
	movdqu %xmm2, (%rcx)
	movl %edx, 16(%rcx)
	movlps %xmm0, 20(%rcx)
	movl %eax, 28(%rcx)
	movaps (%rsp), %xmm6
	movaps 16(%rsp), %xmm7
	movaps 32(%rsp), %xmm8
	movaps 48(%rsp), %xmm9
	addq $64, %rsp
	popq %rsi
	retq
	.seh_endproc
	.section .rdata,"dr"
	.p2align 4, 0x0
.LCPI4_0:
	.long 1518500249
	.long 1518500249
	.long 1518500249
	.long 1518500249
.LCPI4_1:
	.long 1859775393
	.long 1859775393
	.long 1859775393
	.long 1859775393
.LCPI4_2:
	.long 2400959708
	.long 2400959708
	.long 2400959708
	.long 2400959708
.LCPI4_3:
	.long 3395469782
	.long 3395469782
	.long 3395469782
	.long 3395469782
	.text
	.p2align 4
ring_core.digest.sha1.by_fours.run_ahead:
.seh_proc ring_core.digest.sha1.by_fours.run_ahead
	pushq %rsi
	.seh_pushreg %rsi
	pushq %rdi
	.seh_pushreg %rdi
	pushq %rbx
	.seh_pushreg %rbx
	subq $80, %rsp
	.seh_stackalloc 80
	movaps %xmm10, 64(%rsp)
	.seh_savexmm %xmm10, 64
	movaps %xmm9, 48(%rsp)
	.seh_savexmm %xmm9, 48
	movaps %xmm8, 32(%rsp)
	.seh_savexmm %xmm8, 32
	movaps %xmm7, 16(%rsp)
	.seh_savexmm %xmm7, 16
	movaps %xmm6, (%rsp)
	.seh_savexmm %xmm6, 0
	.seh_endprologue
	movq 144(%rsp), %rax
	movdqa (%rax), %xmm1
	movdqa (%r8), %xmm4
	movdqa (%r9), %xmm2
	movq 152(%rsp), %rax
	movdqa (%rax), %xmm3
	movl (%rdx), %r9d
	movl 4(%rdx), %r8d
	movl 8(%rdx), %eax
	movl 12(%rdx), %esi
	movdqa %xmm3, %xmm0
	psrldq $4, %xmm0
	movdqa %xmm2, %xmm8
	palignr $8, %xmm4, %xmm8
	pxor %xmm4, %xmm8
	pxor %xmm1, %xmm8
	pxor %xmm0, %xmm8
	movdqa %xmm8, %xmm0
	psrld $31, %xmm0
	paddd %xmm8, %xmm8
	por %xmm0, %xmm8
	movdqa %xmm8, %xmm0
	pslldq $12, %xmm0
	movdqa %xmm0, %xmm5
	psrld $31, %xmm5
	paddd %xmm0, %xmm0
	por %xmm5, %xmm0
	movl %r9d, %r10d
	shldl $5, %r10d, %r10d
	movl %esi, %r11d
	xorl %eax, %r11d
	andl %r8d, %r11d
	xorl %esi, %r11d
	addl 16(%rdx), %r10d
	addl (%rcx), %r10d
	shldl $30, %r8d, %r8d
	addl %r11d, %r10d
	movl %r10d, %edi
	shldl $5, %edi, %edi
	pxor %xmm8, %xmm0
	movl %eax, %r11d
	xorl %r8d, %r11d
	andl %r9d, %r11d
	xorl %eax, %r11d
	addl %esi, %r11d
	addl 4(%rcx), %r11d
	addl %edi, %r11d
	shldl $30, %r9d, %r9d
	movl %r11d, %esi
	shldl $5, %esi, %esi
	movl %r8d, %edi
	xorl %r9d, %edi
	andl %r10d, %edi
	xorl %r8d, %edi
	addl 8(%rcx), %eax
	addl %edi, %eax
	addl %esi, %eax
	shldl $30, %r10d, %r10d
	movl %eax, %esi
	shldl $5, %esi, %esi
	movl %r10d, %edi
	xorl %r9d, %edi
	andl %r11d, %edi
	addl 12(%rcx), %r8d
	xorl %r9d, %edi
	addl %edi, %r8d
	shldl $30, %r11d, %r11d
	addl %esi, %r8d
	movdqa .LCPI4_0(%rip), %xmm5
	paddd %xmm0, %xmm5
	movdqu %xmm5, (%rcx)
	movdqa %xmm0, %xmm5
	psrldq $4, %xmm5
	movdqa %xmm1, %xmm6
	palignr $8, %xmm2, %xmm6
	pxor %xmm2, %xmm6
	pxor %xmm3, %xmm6
	pxor %xmm5, %xmm6
	movdqa %xmm6, %xmm5
	psrld $31, %xmm5
	paddd %xmm6, %xmm6
	por %xmm5, %xmm6
	movdqa %xmm6, %xmm7
	pslldq $12, %xmm7
	movdqa %xmm7, %xmm5
	psrld $31, %xmm5
	paddd %xmm7, %xmm7
	por %xmm5, %xmm7
	movl %r8d, %esi
	shldl $5, %esi, %esi
	pxor %xmm6, %xmm7
	movl %r11d, %edi
	xorl %r10d, %edi
	andl %eax, %edi
	xorl %r10d, %edi
	addl 16(%rcx), %r9d
	addl %edi, %r9d
	addl %esi, %r9d
	shldl $30, %eax, %eax
	movl %r9d, %esi
	shldl $5, %esi, %esi
	movl %eax, %edi
	xorl %r11d, %edi
	andl %r8d, %edi
	xorl %r11d, %edi
	addl 20(%rcx), %r10d
	addl %edi, %r10d
	addl %esi, %r10d
	shldl $30, %r8d, %r8d
	movl %r10d, %esi
	shldl $5, %esi, %esi
	movl %r8d, %edi
	xorl %eax, %edi
	andl %r9d, %edi
	addl 24(%rcx), %r11d
	xorl %eax, %edi
	addl %edi, %r11d
	shldl $30, %r9d, %r9d
	addl %esi, %r11d
	movl %r11d, %esi
	shldl $5, %esi, %esi
	movl %r9d, %edi
	xorl %r8d, %edi
	andl %r10d, %edi
	xorl %r8d, %edi
	addl 28(%rcx), %eax
	addl %edi, %eax
	addl %esi, %eax
	shldl $30, %r10d, %r10d
	movdqa .LCPI4_1(%rip), %xmm9
	movdqa %xmm7, %xmm5
	paddd %xmm9, %xmm5
	movdqu %xmm5, 16(%rcx)
	movdqa %xmm7, %xmm5
	psrldq $4, %xmm5
	movdqa %xmm3, %xmm6
	palignr $8, %xmm1, %xmm6
	pxor %xmm1, %xmm6
	pxor %xmm0, %xmm6
	pxor %xmm5, %xmm6
	movdqa %xmm6, %xmm5
	psrld $31, %xmm5
	paddd %xmm6, %xmm6
	por %xmm5, %xmm6
	movdqa %xmm6, %xmm5
	pslldq $12, %xmm5
	movdqa %xmm5, %xmm10
	psrld $31, %xmm10
	paddd %xmm5, %xmm5
	por %xmm10, %xmm5
	movl %eax, %esi
	shldl $5, %esi, %esi
	movl %r10d, %edi
	xorl %r9d, %edi
	andl %r11d, %edi
	xorl %r9d, %edi
	addl 32(%rcx), %r8d
	addl %edi, %r8d
	addl %esi, %r8d
	shldl $30, %r11d, %r11d
	movl %r8d, %esi
	shldl $5, %esi, %esi
	movl %r11d, %edi
	xorl %r10d, %edi
	andl %eax, %edi
	addl 36(%rcx), %r9d
	xorl %r10d, %edi
	addl %edi, %r9d
	shldl $30, %eax, %eax
	addl %esi, %r9d
	movl %r9d, %esi
	shldl $5, %esi, %esi
	pxor %xmm6, %xmm5
	movl %eax, %edi
	xorl %r11d, %edi
	andl %r8d, %edi
	xorl %r11d, %edi
	addl 40(%rcx), %r10d
	addl %edi, %r10d
	addl %esi, %r10d
	shldl $30, %r8d, %r8d
	movl %r10d, %esi
	shldl $5, %esi, %esi
	movl %r8d, %edi
	xorl %eax, %edi
	andl %r9d, %edi
	xorl %eax, %edi
	addl 44(%rcx), %r11d
	addl %edi, %r11d
	addl %esi, %r11d
	shldl $30, %r9d, %r9d
	movdqa %xmm5, %xmm6
	paddd %xmm9, %xmm6
	movdqu %xmm6, 32(%rcx)
	movdqa %xmm5, %xmm6
	psrldq $4, %xmm6
	palignr $8, %xmm3, %xmm8
	pxor %xmm3, %xmm8
	pxor %xmm7, %xmm8
	pxor %xmm6, %xmm8
	movdqa %xmm8, %xmm6
	psrld $31, %xmm6
	paddd %xmm8, %xmm8
	por %xmm6, %xmm8
	movdqa %xmm8, %xmm6
	pslldq $12, %xmm6
	movdqa %xmm6, %xmm10
	psrld $31, %xmm10
	paddd %xmm6, %xmm6
	por %xmm10, %xmm6
	movl %r11d, %esi
	shldl $5, %esi, %esi
	movl %r9d, %edi
	xorl %r8d, %edi
	andl %r10d, %edi
	xorl %r8d, %edi
	addl 48(%rcx), %eax
	addl %edi, %eax
	addl %esi, %eax
	shldl $30, %r10d, %r10d
	movl %eax, %esi
	shldl $5, %esi, %esi
	movl %r10d, %edi
	xorl %r9d, %edi
	andl %r11d, %edi
	addl 52(%rcx), %r8d
	xorl %r9d, %edi
	addl %edi, %r8d
	shldl $30, %r11d, %r11d
	addl %esi, %r8d
	movl %r8d, %esi
	shldl $5, %esi, %esi
	pxor %xmm8, %xmm6
	movl %r11d, %edi
	xorl %r10d, %edi
	andl %eax, %edi
	xorl %r10d, %edi
	addl 56(%rcx), %r9d
	addl %edi, %r9d
	addl %esi, %r9d
	shldl $30, %eax, %eax
	movl %r9d, %esi
	shldl $5, %esi, %esi
	movl %eax, %edi
	xorl %r11d, %edi
	andl %r8d, %edi
	xorl %r11d, %edi
	addl 60(%rcx), %r10d
	addl %edi, %r10d
	addl %esi, %r10d
	shldl $30, %r8d, %r8d
	movdqa %xmm6, %xmm10
	paddd %xmm9, %xmm10
	movdqu %xmm10, 48(%rcx)
	palignr $8, %xmm5, %xmm8
	pxor %xmm2, %xmm4
	pxor %xmm0, %xmm4
	pxor %xmm8, %xmm4
	movdqa %xmm4, %xmm8
	psrld $30, %xmm8
	movl %r10d, %esi
	shldl $5, %esi, %esi
	pslld $2, %xmm4
	movl %r8d, %edi
	xorl %eax, %edi
	andl %r9d, %edi
	xorl %eax, %edi
	addl (%rcx), %r11d
	addl %edi, %r11d
	addl %esi, %r11d
	shldl $30, %r9d, %r9d
	movl %r11d, %esi
	shldl $5, %esi, %esi
	movl %r9d, %edi
	xorl %r8d, %edi
	andl %r10d, %edi
	xorl %r8d, %edi
	addl 4(%rcx), %eax
	addl %edi, %eax
	addl %esi, %eax
	shldl $30, %r10d, %r10d
	movl %eax, %esi
	shldl $5, %esi, %esi
	movl %r10d, %edi
	xorl %r9d, %edi
	andl %r11d, %edi
	addl 8(%rcx), %r8d
	xorl %r9d, %edi
	addl %edi, %r8d
	shldl $30, %r11d, %r11d
	addl %esi, %r8d
	movl %r8d, %esi
	shldl $5, %esi, %esi
	por %xmm8, %xmm4
	movl %r11d, %edi
	xorl %r10d, %edi
	andl %eax, %edi
	xorl %r10d, %edi
	addl 12(%rcx), %r9d
	addl %edi, %r9d
	addl %esi, %r9d
	shldl $30, %eax, %eax
	movdqa %xmm4, %xmm8
	paddd %xmm9, %xmm8
	movdqu %xmm8, (%rcx)
	movdqa %xmm4, %xmm8
	palignr $8, %xmm6, %xmm8
	pxor %xmm1, %xmm2
	pxor %xmm7, %xmm2
	pxor %xmm8, %xmm2
	movdqa %xmm2, %xmm8
	psrld $30, %xmm8
	pslld $2, %xmm2
	por %xmm8, %xmm2
	movl %r9d, %esi
	shldl $5, %esi, %esi
	movl %eax, %edi
	xorl %r11d, %edi
	xorl %r8d, %edi
	addl 16(%rcx), %r10d
	addl %edi, %r10d
	addl %esi, %r10d
	shldl $30, %r8d, %r8d
	movl %r10d, %esi
	shldl $5, %esi, %esi
	movl %r8d, %edi
	xorl %eax, %edi
	xorl %r9d, %edi
	addl 20(%rcx), %r11d
	addl %edi, %r11d
	addl %esi, %r11d
	shldl $30, %r9d, %r9d
	movl %r11d, %esi
	shldl $5, %esi, %esi
	movl %r9d, %edi
	xorl %r8d, %edi
	xorl %r10d, %edi
	addl 24(%rcx), %eax
	addl %edi, %eax
	addl %esi, %eax
	shldl $30, %r10d, %r10d
	movl %eax, %esi
	shldl $5, %esi, %esi
	movl %r10d, %edi
	xorl %r9d, %edi
	xorl %r11d, %edi
	addl 28(%rcx), %r8d
	addl %edi, %r8d
	addl %esi, %r8d
	shldl $30, %r11d, %r11d
	paddd %xmm2, %xmm9
	movdqu %xmm9, 16(%rcx)
	movdqa %xmm2, %xmm8
	palignr $8, %xmm4, %xmm8
	pxor %xmm3, %xmm1
	pxor %xmm5, %xmm1
	pxor %xmm8, %xmm1
	movdqa %xmm1, %xmm8
	psrld $30, %xmm8
	pslld $2, %xmm1
	movl %r8d, %esi
	shldl $5, %esi, %esi
	movl %r11d, %edi
	xorl %r10d, %edi
	addl 32(%rcx), %r9d
	xorl %eax, %edi
	addl %edi, %r9d
	shldl $30, %eax, %eax
	addl %esi, %r9d
	movl %r9d, %esi
	shldl $5, %esi, %esi
	movl %eax, %edi
	xorl %r11d, %edi
	addl 36(%rcx), %r10d
	xorl %r8d, %edi
	addl %edi, %r10d
	shldl $30, %r8d, %r8d
	addl %esi, %r10d
	movl %r10d, %esi
	shldl $5, %esi, %esi
	movl %r8d, %edi
	xorl %eax, %edi
	addl 40(%rcx), %r11d
	xorl %r9d, %edi
	addl %edi, %r11d
	shldl $30, %r9d, %r9d
	addl %esi, %r11d
	movl %r11d, %esi
	shldl $5, %esi, %esi
	por %xmm8, %xmm1
	movl %r9d, %edi
	xorl %r8d, %edi
	xorl %r10d, %edi
	addl 44(%rcx), %eax
	addl %edi, %eax
	addl %esi, %eax
	shldl $30, %r10d, %r10d
	movdqa .LCPI4_2(%rip), %xmm8
	movdqa %xmm1, %xmm9
	paddd %xmm8, %xmm9
	movdqu %xmm9, 32(%rcx)
	movdqa %xmm1, %xmm9
	palignr $8, %xmm2, %xmm9
	pxor %xmm0, %xmm3
	pxor %xmm6, %xmm3
	pxor %xmm9, %xmm3
	movdqa %xmm3, %xmm9
	psrld $30, %xmm9
	pslld $2, %xmm3
	por %xmm9, %xmm3
	movl %eax, %esi
	shldl $5, %esi, %esi
	movl %r10d, %edi
	xorl %r9d, %edi
	xorl %r11d, %edi
	addl 48(%rcx), %r8d
	addl %edi, %r8d
	addl %esi, %r8d
	shldl $30, %r11d, %r11d
	movl %r8d, %esi
	shldl $5, %esi, %esi
	movl %r11d, %edi
	xorl %r10d, %edi
	xorl %eax, %edi
	addl 52(%rcx), %r9d
	addl %edi, %r9d
	addl %esi, %r9d
	shldl $30, %eax, %eax
	movl %r9d, %esi
	shldl $5, %esi, %esi
	movl %eax, %edi
	xorl %r11d, %edi
	xorl %r8d, %edi
	addl 56(%rcx), %r10d
	addl %edi, %r10d
	addl %esi, %r10d
	shldl $30, %r8d, %r8d
	movl %r10d, %esi
	shldl $5, %esi, %esi
	movl %r8d, %edi
	xorl %eax, %edi
	xorl %r9d, %edi
	addl 60(%rcx), %r11d
	addl %edi, %r11d
	addl %esi, %r11d
	shldl $30, %r9d, %r9d
	movdqa %xmm3, %xmm9
	palignr $8, %xmm1, %xmm9
	pxor %xmm7, %xmm0
	pxor %xmm4, %xmm0
	pxor %xmm9, %xmm0
	movdqa %xmm0, %xmm9
	psrld $30, %xmm9
	pslld $2, %xmm0
	por %xmm9, %xmm0
	movdqa %xmm0, %xmm9
	palignr $8, %xmm3, %xmm9
	movdqa %xmm3, %xmm10
	paddd %xmm8, %xmm10
	movdqu %xmm10, 48(%rcx)
	movl %r11d, %esi
	shldl $5, %esi, %esi
	movl %r9d, %edi
	xorl %r8d, %edi
	addl (%rcx), %eax
	xorl %r10d, %edi
	addl %edi, %eax
	shldl $30, %r10d, %r10d
	addl %esi, %eax
	movl %eax, %esi
	shldl $5, %esi, %esi
	movl %r10d, %edi
	xorl %r9d, %edi
	addl 4(%rcx), %r8d
	xorl %r11d, %edi
	addl %edi, %r8d
	shldl $30, %r11d, %r11d
	addl %esi, %r8d
	movl %r8d, %esi
	shldl $5, %esi, %esi
	movl %r11d, %edi
	xorl %r10d, %edi
	addl 8(%rcx), %r9d
	xorl %eax, %edi
	addl %edi, %r9d
	shldl $30, %eax, %eax
	addl %esi, %r9d
	movl %r9d, %esi
	shldl $5, %esi, %esi
	movl %eax, %edi
	xorl %r11d, %edi
	addl 12(%rcx), %r10d
	xorl %r8d, %edi
	addl %edi, %r10d
	shldl $30, %r8d, %r8d
	addl %esi, %r10d
	movdqa %xmm0, %xmm10
	paddd %xmm8, %xmm10
	movdqu %xmm10, (%rcx)
	pxor %xmm5, %xmm7
	pxor %xmm2, %xmm7
	pxor %xmm9, %xmm7
	movdqa %xmm7, %xmm9
	psrld $30, %xmm9
	pslld $2, %xmm7
	por %xmm9, %xmm7
	movl %r10d, %esi
	shldl $5, %esi, %esi
	movl %r8d, %edi
	xorl %eax, %edi
	xorl %r9d, %edi
	addl 16(%rcx), %r11d
	addl %edi, %r11d
	addl %esi, %r11d
	shldl $30, %r9d, %r9d
	movl %r11d, %esi
	shldl $5, %esi, %esi
	movl %r9d, %edi
	xorl %r8d, %edi
	xorl %r10d, %edi
	addl 20(%rcx), %eax
	addl %edi, %eax
	addl %esi, %eax
	shldl $30, %r10d, %r10d
	movl %eax, %esi
	shldl $5, %esi, %esi
	movl %r10d, %edi
	xorl %r9d, %edi
	xorl %r11d, %edi
	addl 24(%rcx), %r8d
	addl %edi, %r8d
	addl %esi, %r8d
	shldl $30, %r11d, %r11d
	movl %r8d, %esi
	shldl $5, %esi, %esi
	movl %r11d, %edi
	xorl %r10d, %edi
	xorl %eax, %edi
	addl 28(%rcx), %r9d
	addl %edi, %r9d
	addl %esi, %r9d
	shldl $30, %eax, %eax
	movdqa %xmm7, %xmm9
	palignr $8, %xmm0, %xmm9
	pxor %xmm6, %xmm5
	pxor %xmm1, %xmm5
	pxor %xmm9, %xmm5
	movdqa %xmm5, %xmm9
	psrld $30, %xmm9
	pslld $2, %xmm5
	por %xmm9, %xmm5
	movdqa %xmm5, %xmm9
	palignr $8, %xmm7, %xmm9
	movdqa %xmm7, %xmm10
	paddd %xmm8, %xmm10
	movdqu %xmm10, 16(%rcx)
	movl %r9d, %esi
	shldl $5, %esi, %esi
	movl %r8d, %edi
	xorl %eax, %edi
	movl %eax, %ebx
	xorl %r11d, %ebx
	andl %edi, %ebx
	xorl %eax, %ebx
	addl 32(%rcx), %r10d
	addl %ebx, %r10d
	addl %esi, %r10d
	shldl $30, %r8d, %r8d
	movl %r10d, %esi
	shldl $5, %esi, %esi
	pxor %xmm4, %xmm6
	pxor %xmm3, %xmm6
	movl %r9d, %edi
	xorl %r8d, %edi
	movl %r8d, %ebx
	xorl %eax, %ebx
	andl %edi, %ebx
	addl 36(%rcx), %r11d
	xorl %r8d, %ebx
	addl %ebx, %r11d
	shldl $30, %r9d, %r9d
	addl %esi, %r11d
	movl %r11d, %esi
	shldl $5, %esi, %esi
	movl %r10d, %edi
	xorl %r9d, %edi
	movl %r9d, %ebx
	xorl %r8d, %ebx
	andl %edi, %ebx
	xorl %r9d, %ebx
	addl 40(%rcx), %eax
	addl %ebx, %eax
	addl %esi, %eax
	shldl $30, %r10d, %r10d
	movl %eax, %esi
	shldl $5, %esi, %esi
	movl %r11d, %edi
	xorl %r10d, %edi
	movl %r10d, %ebx
	xorl %r9d, %ebx
	andl %edi, %ebx
	xorl %r10d, %ebx
	addl 44(%rcx), %r8d
	addl %ebx, %r8d
	addl %esi, %r8d
	shldl $30, %r11d, %r11d
	paddd %xmm5, %xmm8
	movdqu %xmm8, 32(%rcx)
	pxor %xmm9, %xmm6
	movdqa %xmm6, %xmm8
	psrld $30, %xmm8
	pslld $2, %xmm6
	movl %r8d, %esi
	shldl $5, %esi, %esi
	por %xmm8, %xmm6
	movl %eax, %edi
	xorl %r11d, %edi
	movl %r11d, %ebx
	xorl %r10d, %ebx
	andl %edi, %ebx
	addl 48(%rcx), %r9d
	xorl %r11d, %ebx
	addl %ebx, %r9d
	shldl $30, %eax, %eax
	addl %esi, %r9d
	movl %r9d, %esi
	shldl $5, %esi, %esi
	movl %r8d, %edi
	xorl %eax, %edi
	movl %eax, %ebx
	xorl %r11d, %ebx
	andl %edi, %ebx
	xorl %eax, %ebx
	addl 52(%rcx), %r10d
	addl %ebx, %r10d
	addl %esi, %r10d
	shldl $30, %r8d, %r8d
	movl %r10d, %esi
	shldl $5, %esi, %esi
	movl %r9d, %edi
	xorl %r8d, %edi
	movl %r8d, %ebx
	xorl %eax, %ebx
	andl %edi, %ebx
	xorl %r8d, %ebx
	addl 56(%rcx), %r11d
	addl %ebx, %r11d
	addl %esi, %r11d
	shldl $30, %r9d, %r9d
	movl %r11d, %esi
	shldl $5, %esi, %esi
	movl %r10d, %edi
	xorl %r9d, %edi
	movl %r9d, %ebx
	xorl %r8d, %ebx
	andl %edi, %ebx
	xorl %r9d, %ebx
	addl 60(%rcx), %eax
	addl %ebx, %eax
	addl %esi, %eax
	shldl $30, %r10d, %r10d
	movdqa .LCPI4_3(%rip), %xmm8
	movdqa %xmm6, %xmm9
	palignr $8, %xmm5, %xmm9
	pxor %xmm2, %xmm4
	pxor %xmm0, %xmm4
	pxor %xmm9, %xmm4
	movdqa %xmm4, %xmm9
	psrld $30, %xmm9
	pslld $2, %xmm4
	por %xmm9, %xmm4
	movdqa %xmm4, %xmm9
	palignr $8, %xmm6, %xmm9
	movdqa %xmm6, %xmm10
	paddd %xmm8, %xmm10
	movdqu %xmm10, 48(%rcx)
	movl %eax, %esi
	shldl $5, %esi, %esi
	movl %r11d, %edi
	xorl %r10d, %edi
	movl %r10d, %ebx
	xorl %r9d, %ebx
	andl %edi, %ebx
	xorl %r10d, %ebx
	addl (%rcx), %r8d
	addl %ebx, %r8d
	addl %esi, %r8d
	shldl $30, %r11d, %r11d
	movl %r8d, %esi
	shldl $5, %esi, %esi
	pxor %xmm1, %xmm2
	pxor %xmm7, %xmm2
	movl %eax, %edi
	xorl %r11d, %edi
	movl %r11d, %ebx
	xorl %r10d, %ebx
	andl %edi, %ebx
	addl 4(%rcx), %r9d
	xorl %r11d, %ebx
	addl %ebx, %r9d
	shldl $30, %eax, %eax
	addl %esi, %r9d
	movl %r9d, %esi
	shldl $5, %esi, %esi
	pxor %xmm3, %xmm1
	movl %r8d, %edi
	xorl %eax, %edi
	movl %eax, %ebx
	xorl %r11d, %ebx
	andl %edi, %ebx
	addl 8(%rcx), %r10d
	xorl %eax, %ebx
	addl %ebx, %r10d
	shldl $30, %r8d, %r8d
	addl %esi, %r10d
	movl %r10d, %esi
	shldl $5, %esi, %esi
	movl %r9d, %edi
	xorl %r8d, %edi
	movl %r8d, %ebx
	xorl %eax, %ebx
	andl %edi, %ebx
	xorl %r8d, %ebx
	addl 12(%rcx), %r11d
	addl %ebx, %r11d
	addl %esi, %r11d
	shldl $30, %r9d, %r9d
	pxor %xmm9, %xmm2
	movdqa %xmm2, %xmm7
	psrld $30, %xmm7
	pslld $2, %xmm2
	por %xmm7, %xmm2
	movdqa %xmm2, %xmm7
	palignr $8, %xmm4, %xmm7
	paddd %xmm8, %xmm4
	movl %r11d, %esi
	shldl $5, %esi, %esi
	movdqu %xmm4, (%rcx)
	movl %r10d, %edi
	xorl %r9d, %edi
	movl %r9d, %ebx
	xorl %r8d, %ebx
	andl %edi, %ebx
	addl 16(%rcx), %eax
	xorl %r9d, %ebx
	addl %ebx, %eax
	shldl $30, %r10d, %r10d
	addl %esi, %eax
	movl %eax, %esi
	shldl $5, %esi, %esi
	pxor %xmm3, %xmm0
	movl %r11d, %edi
	xorl %r10d, %edi
	movl %r10d, %ebx
	xorl %r9d, %ebx
	andl %edi, %ebx
	addl 20(%rcx), %r8d
	xorl %r10d, %ebx
	addl %ebx, %r8d
	shldl $30, %r11d, %r11d
	addl %esi, %r8d
	movl %r8d, %esi
	shldl $5, %esi, %esi
	movl %eax, %edi
	xorl %r11d, %edi
	movl %r11d, %ebx
	xorl %r10d, %ebx
	andl %edi, %ebx
	xorl %r11d, %ebx
	addl 24(%rcx), %r9d
	addl %ebx, %r9d
	addl %esi, %r9d
	shldl $30, %eax, %eax
	movl %r9d, %esi
	shldl $5, %esi, %esi
	movl %r8d, %edi
	xorl %eax, %edi
	movl %eax, %ebx
	xorl %r11d, %ebx
	andl %edi, %ebx
	xorl %eax, %ebx
	addl 28(%rcx), %r10d
	addl %ebx, %r10d
	addl %esi, %r10d
	shldl $30, %r8d, %r8d
	pxor %xmm5, %xmm1
	pxor %xmm7, %xmm1
	movdqa %xmm1, %xmm3
	psrld $30, %xmm3
	pslld $2, %xmm1
	por %xmm3, %xmm1
	movdqa %xmm1, %xmm3
	palignr $8, %xmm2, %xmm1
	paddd %xmm8, %xmm2
	movl %r10d, %esi
	shldl $5, %esi, %esi
	movdqu %xmm2, 16(%rcx)
	movl %r9d, %edi
	xorl %r8d, %edi
	movl %r8d, %ebx
	xorl %eax, %ebx
	andl %edi, %ebx
	addl 32(%rcx), %r11d
	xorl %r8d, %ebx
	addl %ebx, %r11d
	shldl $30, %r9d, %r9d
	addl %esi, %r11d
	movl %r11d, %esi
	shldl $5, %esi, %esi
	pxor %xmm6, %xmm0
	movl %r10d, %edi
	xorl %r9d, %edi
	movl %r9d, %ebx
	xorl %r8d, %ebx
	andl %edi, %ebx
	addl 36(%rcx), %eax
	xorl %r9d, %ebx
	addl %ebx, %eax
	shldl $30, %r10d, %r10d
	addl %esi, %eax
	movl %eax, %esi
	shldl $5, %esi, %esi
	movl %r11d, %edi
	xorl %r10d, %edi
	movl %r10d, %ebx
	xorl %r9d, %ebx
	andl %edi, %ebx
	xorl %r10d, %ebx
	addl 40(%rcx), %r8d
	addl %ebx, %r8d
	addl %esi, %r8d
	shldl $30, %r11d, %r11d
	movl %r8d, %esi
	shldl $5, %esi, %esi
	movl %eax, %edi
	xorl %r11d, %edi
	movl %r11d, %ebx
	xorl %r10d, %ebx
	andl %edi, %ebx
	xorl %r11d, %ebx
	addl 44(%rcx), %r9d
	addl %ebx, %r9d
	addl %esi, %r9d
	shldl $30, %eax, %eax
	paddd %xmm8, %xmm3
	movdqu %xmm3, 32(%rcx)
	pxor %xmm1, %xmm0
	movdqa %xmm0, %xmm1
	psrld $30, %xmm1
	pslld $2, %xmm0
	movl %r9d, %esi
	shldl $5, %esi, %esi
	movl %eax, %edi
	xorl %r11d, %edi
	addl 48(%rcx), %r10d
	xorl %r8d, %edi
	addl %edi, %r10d
	shldl $30, %r8d, %r8d
	addl %esi, %r10d
	movl %r10d, %esi
	shldl $5, %esi, %esi
	movl %r8d, %edi
	xorl %eax, %edi
	addl 52(%rcx), %r11d
	xorl %r9d, %edi
	addl %edi, %r11d
	shldl $30, %r9d, %r9d
	addl %esi, %r11d
	movl %r11d, %esi
	shldl $5, %esi, %esi
	movl %r9d, %edi
	xorl %r8d, %edi
	addl 56(%rcx), %eax
	xorl %r10d, %edi
	addl %edi, %eax
	shldl $30, %r10d, %r10d
	addl %esi, %eax
	movl %eax, %esi
	shldl $5, %esi, %esi
	por %xmm1, %xmm0
	movl %r10d, %edi
	xorl %r9d, %edi
	xorl %r11d, %edi
	addl 60(%rcx), %r8d
	addl %edi, %r8d
	addl %esi, %r8d
	shldl $30, %r11d, %r11d
	paddd %xmm8, %xmm0
	movdqu %xmm0, 48(%rcx)
	movl %r8d, %esi
	shldl $5, %esi, %esi
	movl %r11d, %edi
	xorl %r10d, %edi
	xorl %eax, %edi
	addl (%rcx), %r9d
	addl %edi, %r9d
	addl %esi, %r9d
	shldl $30, %eax, %eax
	movl %r9d, %esi
	shldl $5, %esi, %esi
	movl %eax, %edi
	xorl %r11d, %edi
	xorl %r8d, %edi
	addl 4(%rcx), %r10d
	addl %edi, %r10d
	addl %esi, %r10d
	shldl $30, %r8d, %r8d
	movl %r10d, %esi
	shldl $5, %esi, %esi
	movl %r8d, %edi
	xorl %eax, %edi
	xorl %r9d, %edi
	addl 8(%rcx), %r11d
	addl %edi, %r11d
	addl %esi, %r11d
	shldl $30, %r9d, %r9d
	movl %r11d, %esi
	shldl $5, %esi, %esi
	movl %r9d, %edi
	xorl %r8d, %edi
	xorl %r10d, %edi
	addl 12(%rcx), %eax
	addl %edi, %eax
	addl %esi, %eax
	shldl $30, %r10d, %r10d
	movl %eax, %esi
	shldl $5, %esi, %esi
	movl %r10d, %edi
	xorl %r9d, %edi
	xorl %r11d, %edi
	addl 16(%rcx), %r8d
	addl %edi, %r8d
	addl %esi, %r8d
	shldl $30, %r11d, %r11d
	movl %r8d, %esi
	shldl $5, %esi, %esi
	movl %r11d, %edi
	xorl %r10d, %edi
	xorl %eax, %edi
	addl 20(%rcx), %r9d
	addl %edi, %r9d
	addl %esi, %r9d
	shldl $30, %eax, %eax
	movl %r9d, %esi
	shldl $5, %esi, %esi
	movl %eax, %edi
	xorl %r11d, %edi
	xorl %r8d, %edi
	addl 24(%rcx), %r10d
	addl %edi, %r10d
	addl %esi, %r10d
	shldl $30, %r8d, %r8d
	movl %r10d, %esi
	shldl $5, %esi, %esi
	movl %r8d, %edi
	xorl %eax, %edi
	xorl %r9d, %edi
	addl 28(%rcx), %r11d
	addl %edi, %r11d
	addl %esi, %r11d
	shldl $30, %r9d, %r9d
	movl %r11d, %esi
	shldl $5, %esi, %esi
	movl %r9d, %edi
	xorl %r8d, %edi
	xorl %r10d, %edi
	addl 32(%rcx), %eax
	addl %edi, %eax
	addl %esi, %eax
	shldl $30, %r10d, %r10d
	movl %eax, %esi
	shldl $5, %esi, %esi
	movl %r10d, %edi
	xorl %r9d, %edi
	xorl %r11d, %edi
	addl 36(%rcx), %r8d
	addl %edi, %r8d
	addl %esi, %r8d
	shldl $30, %r11d, %r11d
	movl %r8d, %esi
	shldl $5, %esi, %esi
	movl %r11d, %edi
	xorl %r10d, %edi
	xorl %eax, %edi
	addl 40(%rcx), %r9d
	addl %edi, %r9d
	addl %esi, %r9d
	shldl $30, %eax, %eax
	movl %r9d, %esi
	shldl $5, %esi, %esi
	movl %eax, %edi
	xorl %r11d, %edi
	xorl %r8d, %edi
	addl 44(%rcx), %r10d
	addl %edi, %r10d
	addl %esi, %r10d
	shldl $30, %r8d, %r8d
	movd %xmm0, %esi
	movl %r10d, %edi
	shldl $5, %edi, %edi
	movl %r8d, %ebx
	xorl %eax, %ebx
	xorl %r9d, %ebx
	addl %r11d, %esi
	addl %ebx, %esi
	addl %edi, %esi
	shldl $30, %r9d, %r9d
	movl %esi, %r11d
	shldl $5, %r11d, %r11d
	movl %r9d, %edi
	xorl %r8d, %edi
	xorl %r10d, %edi
	addl 52(%rcx), %eax
	addl %edi, %eax
	addl %r11d, %eax
	shldl $30, %r10d, %r10d
	movl %eax, %r11d
	shldl $5, %r11d, %r11d
	movl %r10d, %edi
	xorl %r9d, %edi
	xorl %esi, %edi
	addl 56(%rcx), %r8d
	addl %edi, %r8d
	addl %r11d, %r8d
	shldl $30, %esi, %esi
	movd %r8d, %xmm0
	shldl $5, %r8d, %r8d
	movl %esi, %r11d
	xorl %r10d, %r11d
	xorl %eax, %r11d
	shldl $30, %eax, %eax
	movl (%rdx), %edi
	addl 60(%rcx), %edi
	addl %r9d, %edi
	addl %r11d, %edi
	addl %r8d, %edi
	movl %edi, (%rdx)
	movdqu 4(%rdx), %xmm1
	pinsrd $1, %eax, %xmm0
	pinsrd $2, %esi, %xmm0
	pinsrd $3, %r10d, %xmm0
	paddd %xmm1, %xmm0
	movdqu %xmm0, 4(%rdx)
	movaps (%rsp), %xmm6
	movaps 16(%rsp), %xmm7
	movaps 32(%rsp), %xmm8
	movaps 48(%rsp), %xmm9
	movaps 64(%rsp), %xmm10
	addq $80, %rsp
	popq %rbx
	popq %rdi
	popq %rsi
	retq
	.seh_endproc
	.section .rdata,"dr"
	.p2align 4, 0x0
.LCPI5_0:
	.byte 3
	.byte 2
	.byte 1
	.byte 0
	.byte 7
	.byte 6
	.byte 5
	.byte 4
	.byte 11
	.byte 10
	.byte 9
	.byte 8
	.byte 15
	.byte 14
	.byte 13
	.byte 12
.LCPI5_1:
	.long 1116352408
	.long 1899447441
	.long 3049323471
	.long 3921009573
.LCPI5_2:
	.long 961987163
	.long 1508970993
	.long 2453635748
	.long 2870763221
.LCPI5_3:
	.long 3624381080
	.long 310598401
	.long 607225278
	.long 1426881987
.LCPI5_4:
	.long 1925078388
	.long 2162078206
	.long 2614888103
	.long 3248222580
.LCPI5_5:
	.long 3835390401
	.long 4022224774
	.long 264347078
	.long 604807628
.LCPI5_6:
	.long 770255983
	.long 1249150122
	.long 1555081692
	.long 1996064986
.LCPI5_7:
	.long 2554220882
	.long 2821834349
	.long 2952996808
	.long 3210313671
.LCPI5_8:
	.long 3336571891
	.long 3584528711
	.long 113926993
	.long 338241895
.LCPI5_9:
	.long 666307205
	.long 773529912
	.long 1294757372
	.long 1396182291
.LCPI5_10:
	.long 1695183700
	.long 1986661051
	.long 2177026350
	.long 2456956037
.LCPI5_11:
	.long 2730485921
	.long 2820302411
	.long 3259730800
	.long 3345764771
.LCPI5_12:
	.long 3516065817
	.long 3600352804
	.long 4094571909
	.long 275423344
.LCPI5_13:
	.long 430227734
	.long 506948616
	.long 659060556
	.long 883997877
.LCPI5_14:
	.long 958139571
	.long 1322822218
	.long 1537002063
	.long 1747873779
.LCPI5_15:
	.long 1955562222
	.long 2024104815
	.long 2227730452
	.long 2361852424
.LCPI5_16:
	.long 2428436474
	.long 2756734187
	.long 3204031479
	.long 3329325298
	.text
	.p2align 4
ring_core.digest.sha2.by_instruction.run_blocks.0a683a1c7ad27461:
.seh_proc ring_core.digest.sha2.by_instruction.run_blocks.0a683a1c7ad27461
	subq $72, %rsp
	.seh_stackalloc 72
	movdqa %xmm9, 48(%rsp)
	.seh_savexmm %xmm9, 48
	movdqa %xmm8, 32(%rsp)
	.seh_savexmm %xmm8, 32
	movdqa %xmm7, 16(%rsp)
	.seh_savexmm %xmm7, 16
	movaps %xmm6, (%rsp)
	.seh_savexmm %xmm6, 0
	.seh_endprologue
	movq 16(%rcx), %xmm0
	pshufd $225, %xmm0, %xmm5
	pinsrd $2, 4(%rcx), %xmm5
	pinsrd $3, (%rcx), %xmm5
	movq 24(%rcx), %xmm0
	pshufd $225, %xmm0, %xmm6
	pinsrd $2, 12(%rcx), %xmm6
	pinsrd $3, 8(%rcx), %xmm6
	shrq $6, %r8
	je .LBB5_3
	movq (%r9), %rax
	movq 8(%r9), %r10
	addq $48, %rdx
	.p2align 4
.LBB5_2:
	movdqa .LCPI5_0(%rip), %xmm0
	movdqu -48(%rdx), %xmm4
	movdqu -32(%rdx), %xmm3
	movdqu -16(%rdx), %xmm2
	movdqu (%rdx), %xmm1
	pshufb %xmm0, %xmm4
	pshufb %xmm0, %xmm3
	pshufb %xmm0, %xmm2
	pshufb %xmm0, %xmm1
	movdqa .LCPI5_1(%rip), %xmm0
	paddd %xmm4, %xmm0
	movdqa %xmm6, %xmm7
	sha256rnds2 %xmm0, %xmm5, %xmm7
	movdqa %xmm5, %xmm8
	movdqa %xmm1, %xmm9
	pshufd $238, %xmm0, %xmm0
	palignr $4, %xmm2, %xmm9
	sha256msg1 %xmm3, %xmm4
	sha256rnds2 %xmm0, %xmm7, %xmm8
	paddd %xmm9, %xmm4
	movdqa .LCPI5_2(%rip), %xmm0
	paddd %xmm3, %xmm0
	sha256msg2 %xmm1, %xmm4
	sha256rnds2 %xmm0, %xmm8, %xmm7
	pshufd $238, %xmm0, %xmm0
	movdqa %xmm4, %xmm9
	palignr $4, %xmm1, %xmm9
	sha256msg1 %xmm2, %xmm3
	sha256rnds2 %xmm0, %xmm7, %xmm8
	paddd %xmm9, %xmm3
	movdqa .LCPI5_3(%rip), %xmm0
	paddd %xmm2, %xmm0
	sha256msg2 %xmm4, %xmm3
	sha256rnds2 %xmm0, %xmm8, %xmm7
	pshufd $238, %xmm0, %xmm0
	movdqa %xmm3, %xmm9
	palignr $4, %xmm4, %xmm9
	sha256msg1 %xmm1, %xmm2
	sha256rnds2 %xmm0, %xmm7, %xmm8
	paddd %xmm9, %xmm2
	movdqa .LCPI5_4(%rip), %xmm0
	paddd %xmm1, %xmm0
	sha256msg2 %xmm3, %xmm2
	sha256rnds2 %xmm0, %xmm8, %xmm7
	pshufd $238, %xmm0, %xmm0
	movdqa %xmm2, %xmm9
	palignr $4, %xmm3, %xmm9
	sha256msg1 %xmm4, %xmm1
	sha256rnds2 %xmm0, %xmm7, %xmm8
	paddd %xmm9, %xmm1
	movdqa .LCPI5_5(%rip), %xmm0
	paddd %xmm4, %xmm0
	sha256msg2 %xmm2, %xmm1
	sha256rnds2 %xmm0, %xmm8, %xmm7
	pshufd $238, %xmm0, %xmm0
	movdqa %xmm1, %xmm9
	palignr $4, %xmm2, %xmm9
	sha256msg1 %xmm3, %xmm4
	sha256rnds2 %xmm0, %xmm7, %xmm8
	paddd %xmm9, %xmm4
	movdqa .LCPI5_6(%rip), %xmm0
	paddd %xmm3, %xmm0
	sha256msg2 %xmm1, %xmm4
	sha256rnds2 %xmm0, %xmm8, %xmm7
	pshufd $238, %xmm0, %xmm0
	movdqa %xmm4, %xmm9
	palignr $4, %xmm1, %xmm9
	sha256msg1 %xmm2, %xmm3
	sha256rnds2 %xmm0, %xmm7, %xmm8
	paddd %xmm9, %xmm3
	movdqa .LCPI5_7(%rip), %xmm0
	paddd %xmm2, %xmm0
	sha256msg2 %xmm4, %xmm3
	sha256rnds2 %xmm0, %xmm8, %xmm7
	pshufd $238, %xmm0, %xmm0
	movdqa %xmm3, %xmm9
	palignr $4, %xmm4, %xmm9
	sha256msg1 %xmm1, %xmm2
	sha256rnds2 %xmm0, %xmm7, %xmm8
	paddd %xmm9, %xmm2
	movdqa .LCPI5_8(%rip), %xmm0
	paddd %xmm1, %xmm0
	sha256msg2 %xmm3, %xmm2
	sha256rnds2 %xmm0, %xmm8, %xmm7
	pshufd $238, %xmm0, %xmm0
	movdqa %xmm2, %xmm9
	palignr $4, %xmm3, %xmm9
	sha256msg1 %xmm4, %xmm1
	sha256rnds2 %xmm0, %xmm7, %xmm8
	paddd %xmm9, %xmm1
	movdqa .LCPI5_9(%rip), %xmm0
	paddd %xmm4, %xmm0
	sha256msg2 %xmm2, %xmm1
	sha256rnds2 %xmm0, %xmm8, %xmm7
	pshufd $238, %xmm0, %xmm0
	movdqa %xmm1, %xmm9
	palignr $4, %xmm2, %xmm9
	sha256msg1 %xmm3, %xmm4
	sha256rnds2 %xmm0, %xmm7, %xmm8
	paddd %xmm9, %xmm4
	movdqa .LCPI5_10(%rip), %xmm0
	paddd %xmm3, %xmm0
	sha256msg2 %xmm1, %xmm4
	sha256rnds2 %xmm0, %xmm8, %xmm7
	pshufd $238, %xmm0, %xmm0
	movdqa %xmm4, %xmm9
	palignr $4, %xmm1, %xmm9
	sha256msg1 %xmm2, %xmm3
	sha256rnds2 %xmm0, %xmm7, %xmm8
	paddd %xmm9, %xmm3
	movdqa .LCPI5_11(%rip), %xmm0
	paddd %xmm2, %xmm0
	sha256msg2 %xmm4, %xmm3
	sha256rnds2 %xmm0, %xmm8, %xmm7
	pshufd $238, %xmm0, %xmm0
	movdqa %xmm3, %xmm9
	palignr $4, %xmm4, %xmm9
	sha256msg1 %xmm1, %xmm2
	sha256rnds2 %xmm0, %xmm7, %xmm8
	paddd %xmm9, %xmm2
	movdqa .LCPI5_12(%rip), %xmm0
	paddd %xmm1, %xmm0
	sha256msg2 %xmm3, %xmm2
	sha256rnds2 %xmm0, %xmm8, %xmm7
	pshufd $238, %xmm0, %xmm0
	movdqa %xmm2, %xmm9
	palignr $4, %xmm3, %xmm9
	sha256msg1 %xmm4, %xmm1
	sha256rnds2 %xmm0, %xmm7, %xmm8
	paddd %xmm9, %xmm1
	paddd .LCPI5_13(%rip), %xmm4
	sha256msg2 %xmm2, %xmm1
	movdqa %xmm4, %xmm0
	sha256rnds2 %xmm0, %xmm8, %xmm7
	pshufd $238, %xmm4, %xmm0
	sha256rnds2 %xmm0, %xmm7, %xmm8
	paddd .LCPI5_14(%rip), %xmm3
	movdqa %xmm3, %xmm0
	sha256rnds2 %xmm0, %xmm8, %xmm7
	pshufd $238, %xmm3, %xmm0
	sha256rnds2 %xmm0, %xmm7, %xmm8
	paddd .LCPI5_15(%rip), %xmm2
	movdqa %xmm2, %xmm0
	sha256rnds2 %xmm0, %xmm8, %xmm7
	pshufd $238, %xmm2, %xmm0
	paddd .LCPI5_16(%rip), %xmm1
	sha256rnds2 %xmm0, %xmm7, %xmm8
	movdqa %xmm1, %xmm0
	sha256rnds2 %xmm0, %xmm8, %xmm7
	pshufd $238, %xmm1, %xmm0
	addq $1, %rax
	adcq $0, %r10
	sha256rnds2 %xmm0, %xmm7, %xmm8
	movq $-1, %r11
	cmovbq %r11, %r10
	paddd %xmm7, %xmm6
	cmovbq %r11, %rax
	paddd %xmm8, %xmm5
	movq %r10, 8(%r9)
	movq %rax, (%r9)
	addq $64, %rdx
	decq %r8
	jne .LBB5_2
.LBB5_3:
	movdqa %xmm5, %xmm0
	shufps $187, %xmm6, %xmm0
	movups %xmm0, (%rcx)
	shufps $17, %xmm6, %xmm5
	movups %xmm5, 16(%rcx)
	movaps (%rsp), %xmm6
	movaps 16(%rsp), %xmm7
	movaps 32(%rsp), %xmm8
	movaps 48(%rsp), %xmm9
	addq $72, %rsp
	retq
	.seh_endproc
	.p2align 4
ring_core.digest.sha2.by_fours.run_ahead.99accd9fe8f0e06d:
.seh_proc ring_core.digest.sha2.by_fours.run_ahead.99accd9fe8f0e06d
	pushq %r15
	.seh_pushreg %r15
	pushq %r14
	.seh_pushreg %r14
	pushq %r13
	.seh_pushreg %r13
	pushq %r12
	.seh_pushreg %r12
	pushq %rsi
	.seh_pushreg %rsi
	pushq %rdi
	.seh_pushreg %rdi
	pushq %rbp
	.seh_pushreg %rbp
	pushq %rbx
	.seh_pushreg %rbx
	subq $136, %rsp
	.seh_stackalloc 136
	movdqa %xmm12, 112(%rsp)
	.seh_savexmm %xmm12, 112
	movdqa %xmm11, 96(%rsp)
	.seh_savexmm %xmm11, 96
	movdqa %xmm10, 80(%rsp)
	.seh_savexmm %xmm10, 80
	movdqa %xmm9, 64(%rsp)
	.seh_savexmm %xmm9, 64
	movdqa %xmm8, 48(%rsp)
	.seh_savexmm %xmm8, 48
	movdqa %xmm7, 32(%rsp)
	.seh_savexmm %xmm7, 32
	movdqa %xmm6, 16(%rsp)
	.seh_savexmm %xmm6, 16
	.seh_endprologue
	movq 248(%rsp), %rax
	movdqa (%rax), %xmm2
	movq 240(%rsp), %rax
	movdqa (%rax), %xmm1
	movdqa (%r9), %xmm3
	movdqa (%r8), %xmm0
	movl (%rdx), %edi
	movl 4(%rdx), %ebx
	movl 8(%rdx), %ebp
	movl 12(%rdx), %r15d
	movl 16(%rdx), %r8d
	movl 20(%rdx), %r9d
	movl 24(%rdx), %eax
	movq %rdx, 8(%rsp)
	movl 28(%rdx), %r11d
	xorl %edx, %edx
	.p2align 4
.LBB6_1:
	movl %r8d, %r14d
	shldl $18, %r14d, %r14d
	xorl %r8d, %r14d
	shldl $27, %r14d, %r14d
	xorl %r8d, %r14d
	shldl $26, %r14d, %r14d
	movl %eax, %esi
	xorl %r9d, %esi
	andl %r8d, %esi
	xorl %eax, %esi
	addl %r11d, %esi
	addl %r14d, %esi
	addl (%rcx), %esi
	movl %edi, %r12d
	shldl $23, %r12d, %r12d
	xorl %edi, %r12d
	shldl $21, %r12d, %r12d
	xorl %edi, %r12d
	shldl $30, %r12d, %r12d
	movl %ebx, %r10d
	xorl %edi, %r10d
	movl %ebp, %r14d
	xorl %ebx, %r14d
	andl %r10d, %r14d
	xorl %ebx, %r14d
	addl %r12d, %r14d
	addl %esi, %r14d
	addl %r15d, %esi
	movdqa %xmm1, %xmm9
	palignr $4, %xmm3, %xmm9
	movdqa %xmm9, %xmm4
	psrld $11, %xmm4
	movdqa %xmm9, %xmm5
	pslld $21, %xmm5
	por %xmm4, %xmm5
	pxor %xmm9, %xmm5
	movdqa %xmm5, %xmm4
	psrld $7, %xmm4
	pslld $25, %xmm5
	por %xmm4, %xmm5
	psrld $3, %xmm9
	pxor %xmm5, %xmm9
	paddd %xmm3, %xmm9
	palignr $4, %xmm0, %xmm3
	movdqa %xmm2, %xmm7
	palignr $4, %xmm1, %xmm7
	movdqa %xmm3, %xmm4
	psrld $11, %xmm4
	movdqa %xmm3, %xmm5
	pslld $21, %xmm5
	por %xmm4, %xmm5
	pxor %xmm3, %xmm5
	movdqa %xmm5, %xmm4
	psrld $7, %xmm4
	pslld $25, %xmm5
	por %xmm4, %xmm5
	psrld $3, %xmm3
	pxor %xmm5, %xmm3
	movl %esi, %r15d
	shldl $18, %r15d, %r15d
	xorl %esi, %r15d
	shldl $27, %r15d, %r15d
	xorl %esi, %r15d
	shldl $26, %r15d, %r15d
	movl %r9d, %r12d
	xorl %r8d, %r12d
	andl %esi, %r12d
	xorl %r9d, %r12d
	addl 4(%rcx), %eax
	addl %r12d, %eax
	movl %r14d, %r12d
	shldl $23, %r12d, %r12d
	addl %r15d, %eax
	xorl %r14d, %r12d
	shldl $21, %r12d, %r12d
	xorl %r14d, %r12d
	shldl $30, %r12d, %r12d
	movl %r14d, %r13d
	xorl %edi, %r13d
	andl %r13d, %r10d
	xorl %edi, %r10d
	addl %r12d, %r10d
	addl %eax, %r10d
	addl %ebp, %eax
	pshufd $250, %xmm2, %xmm5
	movdqa %xmm5, %xmm4
	psrlq $19, %xmm4
	movdqa %xmm5, %xmm6
	psrlq $17, %xmm6
	pxor %xmm4, %xmm6
	psrld $10, %xmm5
	pxor %xmm6, %xmm5
	pxor %xmm4, %xmm4
	shufps $8, %xmm4, %xmm5
	paddd %xmm7, %xmm0
	movl %eax, %ebp
	shldl $18, %ebp, %ebp
	paddd %xmm5, %xmm0
	xorl %eax, %ebp
	shldl $27, %ebp, %ebp
	paddd %xmm3, %xmm0
	xorl %eax, %ebp
	shldl $26, %ebp, %ebp
	movl %esi, %r15d
	xorl %r8d, %r15d
	addl 8(%rcx), %r9d
	andl %eax, %r15d
	movl %r10d, %r11d
	shldl $23, %r11d, %r11d
	xorl %r8d, %r15d
	xorl %r10d, %r11d
	shldl $21, %r11d, %r11d
	addl %r15d, %r9d
	xorl %r10d, %r11d
	shldl $30, %r11d, %r11d
	addl %ebp, %r9d
	movl %r10d, %r12d
	xorl %r14d, %r12d
	andl %r12d, %r13d
	xorl %r14d, %r13d
	addl %r11d, %r13d
	addl %r9d, %r13d
	addl %ebx, %r9d
	pshufd $80, %xmm0, %xmm3
	movdqa %xmm3, %xmm5
	psrlq $19, %xmm5
	movdqa %xmm3, %xmm6
	psrlq $17, %xmm6
	pxor %xmm5, %xmm6
	psrld $10, %xmm3
	pxor %xmm6, %xmm3
	pxor %xmm5, %xmm5
	movl %r9d, %r11d
	shldl $18, %r11d, %r11d
	shufps $128, %xmm3, %xmm5
	xorl %r9d, %r11d
	shldl $27, %r11d, %r11d
	paddd %xmm0, %xmm5
	xorl %r9d, %r11d
	shldl $26, %r11d, %r11d
	movl %eax, %ebx
	xorl %esi, %ebx
	addl 12(%rcx), %r8d
	andl %r9d, %ebx
	movl %r13d, %ebp
	shldl $23, %ebp, %ebp
	xorl %esi, %ebx
	xorl %r13d, %ebp
	shldl $21, %ebp, %ebp
	addl %ebx, %r8d
	xorl %r13d, %ebp
	shldl $30, %ebp, %ebp
	addl %r11d, %r8d
	movl %r13d, %r15d
	xorl %r10d, %r15d
	andl %r15d, %r12d
	xorl %r10d, %r12d
	addl %ebp, %r12d
	addl %r8d, %r12d
	addl %edi, %r8d
	leaq .Lstatic.7(%rip), %r11
	movdqu 64(%rdx,%r11), %xmm3
	movdqu 80(%rdx,%r11), %xmm10
	movdqu 96(%rdx,%r11), %xmm8
	movdqu 112(%rdx,%r11), %xmm6
	movl %r8d, %r11d
	shldl $18, %r11d, %r11d
	paddd %xmm5, %xmm3
	xorl %r8d, %r11d
	shldl $27, %r11d, %r11d
	movdqu %xmm3, (%rcx)
	xorl %r8d, %r11d
	shldl $26, %r11d, %r11d
	movl %r9d, %edi
	xorl %eax, %edi
	addl 16(%rcx), %esi
	andl %r8d, %edi
	movl %r12d, %ebx
	shldl $23, %ebx, %ebx
	xorl %eax, %edi
	xorl %r12d, %ebx
	shldl $21, %ebx, %ebx
	addl %edi, %esi
	xorl %r12d, %ebx
	shldl $30, %ebx, %ebx
	addl %r11d, %esi
	movl %r12d, %ebp
	xorl %r13d, %ebp
	andl %ebp, %r15d
	xorl %r13d, %r15d
	addl %ebx, %r15d
	addl %esi, %r15d
	addl %r14d, %esi
	palignr $4, %xmm2, %xmm0
	movl %esi, %edi
	shldl $18, %edi, %edi
	paddd %xmm0, %xmm9
	xorl %esi, %edi
	shldl $27, %edi, %edi
	xorl %esi, %edi
	shldl $26, %edi, %edi
	movl %r8d, %r11d
	xorl %r9d, %r11d
	andl %esi, %r11d
	addl 20(%rcx), %eax
	xorl %r9d, %r11d
	movl %r15d, %r14d
	shldl $23, %r14d, %r14d
	addl %r11d, %eax
	xorl %r15d, %r14d
	shldl $21, %r14d, %r14d
	addl %edi, %eax
	xorl %r15d, %r14d
	shldl $30, %r14d, %r14d
	movl %r15d, %ebx
	xorl %r12d, %ebx
	andl %ebx, %ebp
	xorl %r12d, %ebp
	addl %r14d, %ebp
	addl %eax, %ebp
	addl %r10d, %eax
	pshufd $250, %xmm5, %xmm11
	movdqa %xmm11, %xmm3
	psrlq $19, %xmm3
	movdqa %xmm11, %xmm12
	psrlq $17, %xmm12
	pxor %xmm3, %xmm12
	psrld $10, %xmm11
	pxor %xmm12, %xmm11
	shufps $8, %xmm4, %xmm11
	paddd %xmm9, %xmm11
	movl %eax, %r10d
	shldl $18, %r10d, %r10d
	xorl %eax, %r10d
	shldl $27, %r10d, %r10d
	xorl %eax, %r10d
	shldl $26, %r10d, %r10d
	movl %esi, %r11d
	xorl %r8d, %r11d
	andl %eax, %r11d
	xorl %r8d, %r11d
	addl 24(%rcx), %r9d
	addl %r11d, %r9d
	movl %ebp, %edi
	shldl $23, %edi, %edi
	addl %r10d, %r9d
	xorl %ebp, %edi
	shldl $21, %edi, %edi
	xorl %ebp, %edi
	shldl $30, %edi, %edi
	movl %ebp, %r11d
	xorl %r15d, %r11d
	andl %r11d, %ebx
	xorl %r15d, %ebx
	addl %edi, %ebx
	addl %r9d, %ebx
	addl %r13d, %r9d
	pshufd $80, %xmm11, %xmm9
	movdqa %xmm9, %xmm3
	psrlq $19, %xmm3
	movdqa %xmm9, %xmm12
	psrlq $17, %xmm12
	pxor %xmm3, %xmm12
	psrld $10, %xmm9
	movl %r9d, %r10d
	shldl $18, %r10d, %r10d
	pxor %xmm12, %xmm9
	xorl %r9d, %r10d
	shldl $27, %r10d, %r10d
	pxor %xmm3, %xmm3
	xorl %r9d, %r10d
	shldl $26, %r10d, %r10d
	shufps $128, %xmm9, %xmm3
	movl %eax, %edi
	xorl %esi, %edi
	andl %r9d, %edi
	xorl %esi, %edi
	addl 28(%rcx), %r8d
	addl %edi, %r8d
	addl %r10d, %r8d
	movl %ebx, %r10d
	shldl $23, %r10d, %r10d
	xorl %ebx, %r10d
	shldl $21, %r10d, %r10d
	xorl %ebx, %r10d
	shldl $30, %r10d, %r10d
	movl %ebx, %r13d
	xorl %ebp, %r13d
	andl %r13d, %r11d
	xorl %ebp, %r11d
	addl %r10d, %r11d
	addl %r8d, %r11d
	addl %r12d, %r8d
	movl %r8d, %r10d
	shldl $18, %r10d, %r10d
	paddd %xmm11, %xmm3
	xorl %r8d, %r10d
	shldl $27, %r10d, %r10d
	paddd %xmm3, %xmm10
	xorl %r8d, %r10d
	shldl $26, %r10d, %r10d
	movdqu %xmm10, 16(%rcx)
	movl %r9d, %edi
	xorl %eax, %edi
	andl %r8d, %edi
	xorl %eax, %edi
	addl 32(%rcx), %esi
	addl %edi, %esi
	addl %r10d, %esi
	movl %r11d, %r10d
	shldl $23, %r10d, %r10d
	xorl %r11d, %r10d
	shldl $21, %r10d, %r10d
	xorl %r11d, %r10d
	shldl $30, %r10d, %r10d
	movl %r11d, %edi
	xorl %ebx, %edi
	andl %edi, %r13d
	xorl %ebx, %r13d
	addl %r10d, %r13d
	addl %esi, %r13d
	addl %r15d, %esi
	palignr $4, %xmm5, %xmm11
	movdqa %xmm7, %xmm9
	psrld $11, %xmm9
	movdqa %xmm7, %xmm10
	pslld $21, %xmm10
	por %xmm9, %xmm10
	pxor %xmm7, %xmm10
	movdqa %xmm10, %xmm9
	psrld $7, %xmm9
	pslld $25, %xmm10
	por %xmm9, %xmm10
	psrld $3, %xmm7
	movl %esi, %r10d
	shldl $18, %r10d, %r10d
	pxor %xmm10, %xmm7
	xorl %esi, %r10d
	shldl $27, %r10d, %r10d
	paddd %xmm1, %xmm7
	xorl %esi, %r10d
	shldl $26, %r10d, %r10d
	paddd %xmm11, %xmm7
	movl %r8d, %r14d
	xorl %r9d, %r14d
	andl %esi, %r14d
	xorl %r9d, %r14d
	addl 36(%rcx), %eax
	addl %r14d, %eax
	addl %r10d, %eax
	movl %r13d, %r10d
	shldl $23, %r10d, %r10d
	xorl %r13d, %r10d
	shldl $21, %r10d, %r10d
	xorl %r13d, %r10d
	shldl $30, %r10d, %r10d
	movl %r13d, %r14d
	xorl %r11d, %r14d
	andl %r14d, %edi
	xorl %r11d, %edi
	addl %r10d, %edi
	addl %eax, %edi
	addl %ebp, %eax
	pshufd $250, %xmm3, %xmm9
	movdqa %xmm9, %xmm1
	psrlq $19, %xmm1
	movdqa %xmm9, %xmm10
	psrlq $17, %xmm10
	pxor %xmm1, %xmm10
	psrld $10, %xmm9
	pxor %xmm10, %xmm9
	movl %eax, %ebp
	shldl $18, %ebp, %ebp
	shufps $8, %xmm4, %xmm9
	xorl %eax, %ebp
	shldl $27, %ebp, %ebp
	paddd %xmm7, %xmm9
	xorl %eax, %ebp
	shldl $26, %ebp, %ebp
	movl %esi, %r10d
	xorl %r8d, %r10d
	addl 40(%rcx), %r9d
	andl %eax, %r10d
	movl %edi, %r15d
	shldl $23, %r15d, %r15d
	xorl %r8d, %r10d
	xorl %edi, %r15d
	shldl $21, %r15d, %r15d
	addl %r10d, %r9d
	xorl %edi, %r15d
	shldl $30, %r15d, %r15d
	addl %ebp, %r9d
	movl %edi, %r12d
	xorl %r13d, %r12d
	andl %r12d, %r14d
	xorl %r13d, %r14d
	addl %r15d, %r14d
	addl %r9d, %r14d
	addl %ebx, %r9d
	pshufd $80, %xmm9, %xmm7
	movdqa %xmm7, %xmm1
	psrlq $19, %xmm1
	movdqa %xmm7, %xmm10
	psrlq $17, %xmm10
	pxor %xmm1, %xmm10
	psrld $10, %xmm7
	pxor %xmm10, %xmm7
	pxor %xmm1, %xmm1
	movl %r9d, %ebx
	shldl $18, %ebx, %ebx
	shufps $128, %xmm7, %xmm1
	xorl %r9d, %ebx
	shldl $27, %ebx, %ebx
	paddd %xmm9, %xmm1
	xorl %r9d, %ebx
	shldl $26, %ebx, %ebx
	movl %eax, %r10d
	xorl %esi, %r10d
	addl 44(%rcx), %r8d
	andl %r9d, %r10d
	movl %r14d, %ebp
	shldl $23, %ebp, %ebp
	xorl %esi, %r10d
	xorl %r14d, %ebp
	shldl $21, %ebp, %ebp
	addl %r10d, %r8d
	xorl %r14d, %ebp
	shldl $30, %ebp, %ebp
	addl %ebx, %r8d
	movl %r14d, %r15d
	xorl %edi, %r15d
	andl %r15d, %r12d
	xorl %edi, %r12d
	addl %ebp, %r12d
	addl %r8d, %r12d
	addl %r11d, %r8d
	paddd %xmm1, %xmm8
	movl %r8d, %r11d
	shldl $18, %r11d, %r11d
	movdqu %xmm8, 32(%rcx)
	xorl %r8d, %r11d
	shldl $27, %r11d, %r11d
	xorl %r8d, %r11d
	shldl $26, %r11d, %r11d
	movl %r9d, %r10d
	xorl %eax, %r10d
	andl %r8d, %r10d
	addl 48(%rcx), %esi
	xorl %eax, %r10d
	movl %r12d, %ebx
	shldl $23, %ebx, %ebx
	addl %r10d, %esi
	xorl %r12d, %ebx
	shldl $21, %ebx, %ebx
	addl %r11d, %esi
	xorl %r12d, %ebx
	shldl $30, %ebx, %ebx
	movl %r12d, %ebp
	xorl %r14d, %ebp
	andl %ebp, %r15d
	xorl %r14d, %r15d
	addl %ebx, %r15d
	addl %esi, %r15d
	movl %esi, %r11d
	addl %r13d, %r11d
	palignr $4, %xmm3, %xmm9
	movdqa %xmm0, %xmm7
	psrld $11, %xmm7
	movdqa %xmm0, %xmm8
	pslld $21, %xmm8
	por %xmm7, %xmm8
	pxor %xmm0, %xmm8
	movdqa %xmm8, %xmm7
	psrld $7, %xmm7
	pslld $25, %xmm8
	por %xmm7, %xmm8
	psrld $3, %xmm0
	pxor %xmm8, %xmm0
	movl %r11d, %esi
	shldl $18, %esi, %esi
	xorl %r11d, %esi
	shldl $27, %esi, %esi
	xorl %r11d, %esi
	shldl $26, %esi, %esi
	movl %r8d, %r10d
	xorl %r9d, %r10d
	andl %r11d, %r10d
	xorl %r9d, %r10d
	addl 52(%rcx), %eax
	addl %r10d, %eax
	movl %r15d, %r10d
	shldl $23, %r10d, %r10d
	paddd %xmm2, %xmm0
	xorl %r15d, %r10d
	shldl $21, %r10d, %r10d
	paddd %xmm9, %xmm0
	xorl %r15d, %r10d
	shldl $30, %r10d, %r10d
	addl %esi, %eax
	movl %r15d, %ebx
	xorl %r12d, %ebx
	andl %ebx, %ebp
	xorl %r12d, %ebp
	addl %r10d, %ebp
	addl %eax, %ebp
	addl %edi, %eax
	pshufd $250, %xmm1, %xmm2
	movdqa %xmm2, %xmm7
	psrlq $19, %xmm7
	movdqa %xmm2, %xmm8
	psrlq $17, %xmm8
	pxor %xmm7, %xmm8
	psrld $10, %xmm2
	pxor %xmm8, %xmm2
	shufps $8, %xmm4, %xmm2
	movl %eax, %r10d
	shldl $18, %r10d, %r10d
	xorl %eax, %r10d
	shldl $27, %r10d, %r10d
	xorl %eax, %r10d
	shldl $26, %r10d, %r10d
	movl %r11d, %esi
	xorl %r8d, %esi
	andl %eax, %esi
	xorl %r8d, %esi
	addl 56(%rcx), %r9d
	addl %esi, %r9d
	movl %ebp, %esi
	shldl $23, %esi, %esi
	paddd %xmm0, %xmm2
	xorl %ebp, %esi
	shldl $21, %esi, %esi
	addl %r10d, %r9d
	xorl %ebp, %esi
	shldl $30, %esi, %esi
	movl %ebp, %edi
	xorl %r15d, %edi
	andl %edi, %ebx
	xorl %r15d, %ebx
	addl %esi, %ebx
	addl %r9d, %ebx
	addl %r14d, %r9d
	pshufd $80, %xmm2, %xmm0
	movdqa %xmm0, %xmm7
	psrlq $19, %xmm7
	movdqa %xmm0, %xmm8
	psrlq $17, %xmm8
	pxor %xmm7, %xmm8
	psrld $10, %xmm0
	pxor %xmm8, %xmm0
	shufps $128, %xmm0, %xmm4
	paddd %xmm2, %xmm4
	movl %r9d, %r10d
	shldl $18, %r10d, %r10d
	xorl %r9d, %r10d
	shldl $27, %r10d, %r10d
	xorl %r9d, %r10d
	shldl $26, %r10d, %r10d
	movl %eax, %esi
	xorl %r11d, %esi
	andl %r9d, %esi
	xorl %r11d, %esi
	addl 60(%rcx), %r8d
	addl %esi, %r8d
	movl %ebx, %r14d
	shldl $23, %r14d, %r14d
	addl %r10d, %r8d
	xorl %ebx, %r14d
	shldl $21, %r14d, %r14d
	xorl %ebx, %r14d
	shldl $30, %r14d, %r14d
	movl %ebx, %esi
	xorl %ebp, %esi
	andl %esi, %edi
	xorl %ebp, %edi
	addl %r14d, %edi
	addl %r8d, %edi
	addl %r12d, %r8d
	paddd %xmm4, %xmm6
	movdqu %xmm6, 48(%rcx)
	addq $64, %rdx
	movdqa %xmm5, %xmm0
	movdqa %xmm4, %xmm2
	cmpq $192, %rdx
	jne .LBB6_1
	movl %r8d, %edx
	shldl $18, %edx, %edx
	xorl %r8d, %edx
	shldl $27, %edx, %edx
	xorl %r8d, %edx
	shldl $26, %edx, %edx
	movl %eax, %r10d
	xorl %r9d, %r10d
	andl %r8d, %r10d
	xorl %eax, %r10d
	addl %r10d, %r11d
	addl %edx, %r11d
	addl (%rcx), %r11d
	movl %edi, %edx
	shldl $23, %edx, %edx
	xorl %edi, %edx
	shldl $21, %edx, %edx
	xorl %edi, %edx
	shldl $30, %edx, %edx
	movl %ebx, %r10d
	xorl %edi, %r10d
	andl %r10d, %esi
	xorl %ebx, %esi
	addl %edx, %esi
	addl %r11d, %esi
	addl %r15d, %r11d
	movl %r11d, %edx
	shldl $18, %edx, %edx
	xorl %r11d, %edx
	shldl $27, %edx, %edx
	xorl %r11d, %edx
	shldl $26, %edx, %edx
	movl %r9d, %r14d
	xorl %r8d, %r14d
	andl %r11d, %r14d
	xorl %r9d, %r14d
	addl 4(%rcx), %eax
	addl %r14d, %eax
	addl %edx, %eax
	movl %esi, %edx
	shldl $23, %edx, %edx
	xorl %esi, %edx
	shldl $21, %edx, %edx
	xorl %esi, %edx
	shldl $30, %edx, %edx
	movl %esi, %r14d
	xorl %edi, %r14d
	andl %r14d, %r10d
	xorl %edi, %r10d
	addl %edx, %r10d
	addl %eax, %r10d
	addl %ebp, %eax
	movl %eax, %edx
	shldl $18, %edx, %edx
	xorl %eax, %edx
	shldl $27, %edx, %edx
	xorl %eax, %edx
	shldl $26, %edx, %edx
	movl %r11d, %ebp
	xorl %r8d, %ebp
	andl %eax, %ebp
	xorl %r8d, %ebp
	addl 8(%rcx), %r9d
	addl %ebp, %r9d
	addl %edx, %r9d
	movl %r10d, %edx
	shldl $23, %edx, %edx
	xorl %r10d, %edx
	shldl $21, %edx, %edx
	xorl %r10d, %edx
	shldl $30, %edx, %edx
	movl %r10d, %ebp
	xorl %esi, %ebp
	andl %ebp, %r14d
	xorl %esi, %r14d
	addl %edx, %r14d
	addl %r9d, %r14d
	addl %ebx, %r9d
	movl %r9d, %edx
	shldl $18, %edx, %edx
	xorl %r9d, %edx
	shldl $27, %edx, %edx
	xorl %r9d, %edx
	shldl $26, %edx, %edx
	movl %eax, %ebx
	xorl %r11d, %ebx
	andl %r9d, %ebx
	xorl %r11d, %ebx
	addl 12(%rcx), %r8d
	addl %ebx, %r8d
	addl %edx, %r8d
	movl %r14d, %edx
	shldl $23, %edx, %edx
	xorl %r14d, %edx
	shldl $21, %edx, %edx
	xorl %r14d, %edx
	shldl $30, %edx, %edx
	movl %r14d, %ebx
	xorl %r10d, %ebx
	andl %ebx, %ebp
	xorl %r10d, %ebp
	addl %edx, %ebp
	addl %r8d, %ebp
	addl %edi, %r8d
	movl %r8d, %edx
	shldl $18, %edx, %edx
	xorl %r8d, %edx
	shldl $27, %edx, %edx
	xorl %r8d, %edx
	shldl $26, %edx, %edx
	movl %r9d, %edi
	xorl %eax, %edi
	andl %r8d, %edi
	xorl %eax, %edi
	addl 16(%rcx), %r11d
	addl %edi, %r11d
	addl %edx, %r11d
	movl %ebp, %edx
	shldl $23, %edx, %edx
	xorl %ebp, %edx
	shldl $21, %edx, %edx
	xorl %ebp, %edx
	shldl $30, %edx, %edx
	movl %ebp, %r15d
	xorl %r14d, %r15d
	andl %r15d, %ebx
	xorl %r14d, %ebx
	addl %edx, %ebx
	addl %r11d, %ebx
	addl %esi, %r11d
	movl %r11d, %edx
	shldl $18, %edx, %edx
	xorl %r11d, %edx
	shldl $27, %edx, %edx
	xorl %r11d, %edx
	shldl $26, %edx, %edx
	movl %r8d, %esi
	xorl %r9d, %esi
	andl %r11d, %esi
	xorl %r9d, %esi
	addl 20(%rcx), %eax
	addl %esi, %eax
	addl %edx, %eax
	movl %ebx, %edx
	shldl $23, %edx, %edx
	xorl %ebx, %edx
	shldl $21, %edx, %edx
	xorl %ebx, %edx
	shldl $30, %edx, %edx
	movl %ebx, %r12d
	xorl %ebp, %r12d
	andl %r12d, %r15d
	xorl %ebp, %r15d
	addl %edx, %r15d
	addl %eax, %r15d
	addl %r10d, %eax
	movl %eax, %edx
	shldl $18, %edx, %edx
	xorl %eax, %edx
	shldl $27, %edx, %edx
	xorl %eax, %edx
	shldl $26, %edx, %edx
	movl %r11d, %r10d
	xorl %r8d, %r10d
	andl %eax, %r10d
	xorl %r8d, %r10d
	addl 24(%rcx), %r9d
	addl %r10d, %r9d
	addl %edx, %r9d
	movl %r15d, %edx
	shldl $23, %edx, %edx
	xorl %r15d, %edx
	shldl $21, %edx, %edx
	xorl %r15d, %edx
	shldl $30, %edx, %edx
	movl %r15d, %r13d
	xorl %ebx, %r13d
	andl %r13d, %r12d
	xorl %ebx, %r12d
	addl %edx, %r12d
	addl %r9d, %r12d
	addl %r14d, %r9d
	movl %r9d, %edx
	shldl $18, %edx, %edx
	xorl %r9d, %edx
	shldl $27, %edx, %edx
	xorl %r9d, %edx
	shldl $26, %edx, %edx
	movl %eax, %r10d
	xorl %r11d, %r10d
	andl %r9d, %r10d
	xorl %r11d, %r10d
	addl 28(%rcx), %r8d
	addl %r10d, %r8d
	addl %edx, %r8d
	movl %r12d, %edx
	shldl $23, %edx, %edx
	xorl %r12d, %edx
	shldl $21, %edx, %edx
	xorl %r12d, %edx
	shldl $30, %edx, %edx
	movl %r12d, %r14d
	xorl %r15d, %r14d
	andl %r14d, %r13d
	xorl %r15d, %r13d
	addl %edx, %r13d
	addl %r8d, %r13d
	addl %ebp, %r8d
	movl %r8d, %edx
	shldl $18, %edx, %edx
	xorl %r8d, %edx
	shldl $27, %edx, %edx
	xorl %r8d, %edx
	shldl $26, %edx, %edx
	movl %r9d, %r10d
	xorl %eax, %r10d
	andl %r8d, %r10d
	xorl %eax, %r10d
	addl 32(%rcx), %r11d
	addl %r10d, %r11d
	addl %edx, %r11d
	movl %r13d, %edx
	shldl $23, %edx, %edx
	xorl %r13d, %edx
	shldl $21, %edx, %edx
	xorl %r13d, %edx
	shldl $30, %edx, %edx
	movl %r13d, %edi
	xorl %r12d, %edi
	andl %edi, %r14d
	xorl %r12d, %r14d
	addl %edx, %r14d
	addl %r11d, %r14d
	addl %ebx, %r11d
	movl %r11d, %edx
	shldl $18, %edx, %edx
	xorl %r11d, %edx
	shldl $27, %edx, %edx
	xorl %r11d, %edx
	shldl $26, %edx, %edx
	movl %r8d, %r10d
	xorl %r9d, %r10d
	andl %r11d, %r10d
	xorl %r9d, %r10d
	addl 36(%rcx), %eax
	addl %r10d, %eax
	addl %edx, %eax
	movl %r14d, %edx
	shldl $23, %edx, %edx
	xorl %r14d, %edx
	shldl $21, %edx, %edx
	xorl %r14d, %edx
	shldl $30, %edx, %edx
	movl %r14d, %r10d
	xorl %r13d, %r10d
	andl %r10d, %edi
	xorl %r13d, %edi
	addl %edx, %edi
	addl %eax, %edi
	addl %r15d, %eax
	movl %eax, %edx
	shldl $18, %edx, %edx
	xorl %eax, %edx
	shldl $27, %edx, %edx
	xorl %eax, %edx
	shldl $26, %edx, %edx
	movl %r11d, %esi
	xorl %r8d, %esi
	andl %eax, %esi
	xorl %r8d, %esi
	addl 40(%rcx), %r9d
	addl %esi, %r9d
	addl %edx, %r9d
	movl %edi, %edx
	shldl $23, %edx, %edx
	xorl %edi, %edx
	shldl $21, %edx, %edx
	xorl %edi, %edx
	shldl $30, %edx, %edx
	movl %edi, %esi
	xorl %r14d, %esi
	andl %esi, %r10d
	xorl %r14d, %r10d
	addl %edx, %r10d
	addl %r9d, %r10d
	addl %r12d, %r9d
	movl %r9d, %edx
	shldl $18, %edx, %edx
	xorl %r9d, %edx
	shldl $27, %edx, %edx
	xorl %r9d, %edx
	shldl $26, %edx, %edx
	movl %eax, %ebx
	xorl %r11d, %ebx
	andl %r9d, %ebx
	xorl %r11d, %ebx
	addl 44(%rcx), %r8d
	addl %ebx, %r8d
	addl %edx, %r8d
	movl %r10d, %edx
	shldl $23, %edx, %edx
	xorl %r10d, %edx
	shldl $21, %edx, %edx
	xorl %r10d, %edx
	shldl $30, %edx, %edx
	movl %r10d, %ebx
	xorl %edi, %ebx
	andl %ebx, %esi
	xorl %edi, %esi
	addl %edx, %esi
	addl %r8d, %esi
	addl %r13d, %r8d
	movl %r8d, %edx
	shldl $18, %edx, %edx
	xorl %r8d, %edx
	shldl $27, %edx, %edx
	xorl %r8d, %edx
	shldl $26, %edx, %edx
	movl %r9d, %ebp
	xorl %eax, %ebp
	andl %r8d, %ebp
	xorl %eax, %ebp
	addl 48(%rcx), %r11d
	addl %ebp, %r11d
	addl %edx, %r11d
	movl %esi, %edx
	shldl $23, %edx, %edx
	xorl %esi, %edx
	shldl $21, %edx, %edx
	xorl %esi, %edx
	shldl $30, %edx, %edx
	movl %esi, %ebp
	xorl %r10d, %ebp
	andl %ebp, %ebx
	xorl %r10d, %ebx
	addl %edx, %ebx
	addl %r11d, %ebx
	addl %r14d, %r11d
	movl %r11d, %edx
	shldl $18, %edx, %edx
	xorl %r11d, %edx
	shldl $27, %edx, %edx
	xorl %r11d, %edx
	shldl $26, %edx, %edx
	movl %r8d, %r14d
	xorl %r9d, %r14d
	andl %r11d, %r14d
	xorl %r9d, %r14d
	addl 52(%rcx), %eax
	addl %r14d, %eax
	movl %ebx, %r15d
	shldl $23, %r15d, %r15d
	addl %edx, %eax
	xorl %ebx, %r15d
	shldl $21, %r15d, %r15d
	xorl %ebx, %r15d
	shldl $30, %r15d, %r15d
	movl %ebx, %r14d
	xorl %esi, %r14d
	andl %r14d, %ebp
	xorl %esi, %ebp
	addl %r15d, %ebp
	addl %eax, %ebp
	movl %ebp, %edx
	shldl $23, %edx, %edx
	xorl %ebp, %edx
	shldl $21, %edx, %edx
	xorl %ebp, %edx
	shldl $30, %edx, %edx
	movl %ebp, %r15d
	xorl %ebx, %r15d
	andl %r15d, %r14d
	xorl %ebx, %r14d
	addl %edx, %r14d
	addl %edi, %eax
	movl %r11d, %edi
	xorl %r8d, %edi
	addl 56(%rcx), %r9d
	movq 8(%rsp), %r12
	addl 16(%r12), %esi
	andl %eax, %edi
	xorl %r8d, %edi
	addl %r9d, %edi
	movl %eax, %edx
	shldl $18, %edx, %edx
	movl 60(%rcx), %ecx
	xorl %eax, %edx
	shldl $27, %edx, %edx
	xorl %eax, %edx
	shldl $26, %edx, %edx
	addl %edx, %edi
	addl %edi, %r14d
	movl %r14d, %r9d
	shldl $23, %r9d, %r9d
	xorl %r14d, %r9d
	shldl $21, %r9d, %r9d
	xorl %r14d, %r9d
	movd %r14d, %xmm0
	movl %r14d, %edx
	xorl %ebp, %edx
	andl %r15d, %edx
	movl 28(%r12), %r14d
	xorl %ebp, %edx
	addl (%r12), %edx
	movq 4(%r12), %xmm1
	addl %ebx, 12(%r12)
	addl %r8d, %ecx
	addl %r11d, %r14d
	addl %r10d, %edi
	movl %eax, %r8d
	xorl %r11d, %r8d
	andl %edi, %r8d
	xorl %r11d, %r8d
	addl %ecx, %r8d
	movl %edi, %ecx
	shldl $18, %ecx, %ecx
	xorl %edi, %ecx
	shldl $27, %ecx, %ecx
	xorl %edi, %ecx
	movd %edi, %xmm2
	pinsrd $1, %eax, %xmm2
	shldl $26, %ecx, %ecx
	addl %ecx, %r8d
	shldl $30, %r9d, %r9d
	addl %edx, %r9d
	addl %r8d, %esi
	addl %r8d, %r9d
	pinsrd $1, %ebp, %xmm0
	movq 20(%r12), %xmm3
	movl %r9d, (%r12)
	paddd %xmm1, %xmm0
	movq %xmm0, 4(%r12)
	movl %esi, 16(%r12)
	paddd %xmm3, %xmm2
	movq %xmm2, 20(%r12)
	movl %r14d, 28(%r12)
	movaps 16(%rsp), %xmm6
	movaps 32(%rsp), %xmm7
	movaps 48(%rsp), %xmm8
	movaps 64(%rsp), %xmm9
	movaps 80(%rsp), %xmm10
	movaps 96(%rsp), %xmm11
	movaps 112(%rsp), %xmm12
	addq $136, %rsp
	popq %rbx
	popq %rbp
	popq %rdi
	popq %rsi
	popq %r12
	popq %r13
	popq %r14
	popq %r15
	retq
	.seh_endproc
	.section .rdata,"dr"
	.p2align 4, 0x0
.LCPI7_0:
	.byte 7
	.byte 6
	.byte 5
	.byte 4
	.byte 3
	.byte 2
	.byte 1
	.byte 0
	.zero 1
	.zero 1
	.zero 1
	.zero 1
	.zero 1
	.zero 1
	.zero 1
	.zero 1
	.text
	.p2align 4
ring.digest.block_context.write_tail:
.seh_proc ring.digest.block_context.write_tail
	pushq %r15
	.seh_pushreg %r15
	pushq %r14
	.seh_pushreg %r14
	pushq %rsi
	.seh_pushreg %rsi
	pushq %rdi
	.seh_pushreg %rdi
	pushq %rbp
	.seh_pushreg %rbp
	pushq %rbx
	.seh_pushreg %rbx
	subq $40, %rsp
	.seh_stackalloc 40
	.seh_endprologue
	movq %r9, %rsi
	movq %r8, %r14
	movl %ecx, %ebp
	movq 128(%rsp), %r15
	xorl %eax, %eax
	cmpb $2, %cl
	setb %cl
	setae %al
	leaq (%r8,%rax,8), %rdi
	addq $8, %rdi
	xorb $7, %cl
	shrq %cl, %rdi
	incq %rdi
	shlq %cl, %rdi
	movq 136(%rsp), %rbx
	movq %rbx, %rax
	subq %rdx, %rax
	cmpq %r8, %rax
	jae .LBB7_21
	cmpq $4, %r14
	setb %cl
	cmpq $32, %rax
	setb %al
	orb %cl, %al
	je .LBB7_3
	xorl %eax, %eax
	jmp .LBB7_12
.LBB7_21:
	movq %rbx, %rcx
	movq %r14, %r8
	callq memmove
	jmp .LBB7_17
.LBB7_3:
	cmpq $32, %r14
	jae .LBB7_5
	xorl %eax, %eax
	jmp .LBB7_9
.LBB7_5:
	movq %r14, %rax
	andq $-32, %rax
	xorl %ecx, %ecx
	.p2align 4
.LBB7_6:
	movups (%rdx,%rcx), %xmm0
	movups 16(%rdx,%rcx), %xmm1
	movups %xmm0, (%rbx,%rcx)
	movups %xmm1, 16(%rbx,%rcx)
	addq $32, %rcx
	cmpq %rcx, %rax
	jne .LBB7_6
	cmpq %rax, %r14
	je .LBB7_17
	testb $28, %r14b
	je .LBB7_12
.LBB7_9:
	movq %rax, %rcx
	movq %r14, %rax
	andq $-4, %rax
	.p2align 4
.LBB7_10:
	movl (%rdx,%rcx), %r8d
	movl %r8d, (%rbx,%rcx)
	addq $4, %rcx
	cmpq %rcx, %rax
	jne .LBB7_10
	cmpq %rax, %r14
	je .LBB7_17
.LBB7_12:
	movq %r14, %r8
	movq %rax, %rcx
	andq $3, %r8
	je .LBB7_15
	movq %rax, %rcx
	.p2align 4
.LBB7_14:
	movzbl (%rdx,%rcx), %r9d
	movb %r9b, (%rbx,%rcx)
	incq %rcx
	decq %r8
	jne .LBB7_14
.LBB7_15:
	subq %r14, %rax
	cmpq $-4, %rax
	ja .LBB7_17
	.p2align 4
.LBB7_16:
	movzbl (%rdx,%rcx), %eax
	movb %al, (%rbx,%rcx)
	movzbl 1(%rdx,%rcx), %eax
	movb %al, 1(%rbx,%rcx)
	movzbl 2(%rdx,%rcx), %eax
	movb %al, 2(%rbx,%rcx)
	movzbl 3(%rdx,%rcx), %eax
	movb %al, 3(%rbx,%rcx)
	addq $4, %rcx
	cmpq %rcx, %r14
	jne .LBB7_16
.LBB7_17:
	movb $-128, (%rbx,%r14)
	movq %r15, %rax
	shrq $61, %rax
	jne .LBB7_22
	shldq $3, %rsi, %r15
	movq %r15, %xmm0
	movq %rsi, %xmm1
	psllq $3, %xmm1
	punpcklqdq %xmm1, %xmm0
	cmpb $2, %bpl
	jb .LBB7_20
	movdqa %xmm0, %xmm1
	pshufb .LCPI7_0(%rip), %xmm1
	movq %xmm1, -16(%rbx,%rdi)
.LBB7_20:
	pextrb $9, %xmm0, %eax
	shlq $48, %rax
	shlq $59, %rsi
	pextrb $14, %xmm0, %ecx
	orq %rax, %rsi
	shll $8, %ecx
	pextrb $15, %xmm0, %eax
	orl %ecx, %eax
	pextrb $13, %xmm0, %ecx
	shll $16, %ecx
	orl %eax, %ecx
	pextrb $12, %xmm0, %eax
	shll $24, %eax
	orl %ecx, %eax
	pextrb $11, %xmm0, %ecx
	shlq $32, %rcx
	orq %rax, %rcx
	pextrb $10, %xmm0, %eax
	shlq $40, %rax
	orq %rcx, %rax
	orq %rsi, %rax
	movq %rax, -8(%rbx,%rdi)
	movq %rdi, %rax
	addq $40, %rsp
	popq %rbx
	popq %rbp
	popq %rdi
	popq %rsi
	popq %r14
	popq %r15
	retq
.LBB7_22:
	ud2
	.seh_endproc
	.section .rdata,"dr"
	.p2align 4, 0x0
.LCPI8_0:
	.byte 3
	.byte 2
	.byte 1
	.byte 0
	.byte 7
	.byte 6
	.byte 5
	.byte 4
	.byte 11
	.byte 10
	.byte 9
	.byte 8
	.byte 15
	.byte 14
	.byte 13
	.byte 12
.LCPI8_1:
	.long 1116352408
	.long 1899447441
	.long 3049323471
	.long 3921009573
.LCPI8_2:
	.long 961987163
	.long 1508970993
	.long 2453635748
	.long 2870763221
.LCPI8_3:
	.long 3624381080
	.long 310598401
	.long 607225278
	.long 1426881987
.LCPI8_4:
	.long 1925078388
	.long 2162078206
	.long 2614888103
	.long 3248222580
.LCPI8_5:
	.long 1518500249
	.long 1518500249
	.long 1518500249
	.long 1518500249
.LCPI8_6:
	.byte 7
	.byte 6
	.byte 5
	.byte 4
	.byte 3
	.byte 2
	.byte 1
	.byte 0
	.byte 15
	.byte 14
	.byte 13
	.byte 12
	.byte 11
	.byte 10
	.byte 9
	.byte 8
.LCPI8_7:
	.quad -5349999486874862801
	.quad -1606136188198331460
.LCPI8_8:
	.quad 4794697086780616226
	.quad 8158064640168781261
.LCPI8_9:
	.quad -7908458776815382629
	.quad -6116909921290321640
.LCPI8_10:
	.quad 4131703408338449720
	.quad 6480981068601479193
.LCPI8_11:
	.quad 2608012711638119052
	.quad 6128411473006802146
.LCPI8_12:
	.quad -2880145864133508542
	.quad 1334009975649890238
.LCPI8_13:
	.quad 8268148722764581231
	.quad -9160688886553864527
.LCPI8_14:
	.quad -7215885187991268811
	.quad -4495734319001033068
	.text
	.p2align 4
ring.digest.block_context.BlockContext.output_after:
.seh_proc ring.digest.block_context.BlockContext.output_after
	pushq %r15
	.seh_pushreg %r15
	pushq %r14
	.seh_pushreg %r14
	pushq %r12
	.seh_pushreg %r12
	pushq %rsi
	.seh_pushreg %rsi
	pushq %rdi
	.seh_pushreg %rdi
	pushq %rbx
	.seh_pushreg %rbx
	subq $632, %rsp
	.seh_stackalloc 632
	movdqa %xmm9, 608(%rsp)
	.seh_savexmm %xmm9, 608
	movdqa %xmm8, 592(%rsp)
	.seh_savexmm %xmm8, 592
	movdqa %xmm7, 576(%rsp)
	.seh_savexmm %xmm7, 576
	movdqa %xmm6, 560(%rsp)
	.seh_savexmm %xmm6, 560
	.seh_endprologue
	movq %r9, %r14
	movq %r8, %rbx
	movq %rcx, %rsi
	movq 720(%rsp), %rdi
	xorps %xmm0, %xmm0
	movaps %xmm0, 288(%rsp)
	movaps %xmm0, 272(%rsp)
	movaps %xmm0, 256(%rsp)
	movaps %xmm0, 240(%rsp)
	cmpb $0, 16(%rdx)
	je .LBB8_1
	movdqu 20(%rdx), %xmm0
	movdqu 36(%rdx), %xmm1
	movdqa %xmm1, 96(%rsp)
	movdqa %xmm0, 80(%rsp)
	movq %r14, %r8
	andq $-64, %r8
	cmpb $0, 88(%rdx)
	je .LBB8_6
	pxor %xmm0, %xmm0
	movdqa %xmm0, 160(%rsp)
	movdqa %xmm0, 144(%rsp)
	movdqa %xmm0, 128(%rsp)
	movdqa %xmm0, 112(%rsp)
	movzbl yz_instructions(%rip), %eax
	testb %al, %al
	je .LBB8_11
	leaq 80(%rsp), %rcx
	movq %rbx, %rdx
	movq %rdi, %r9
	callq ring_core.digest.sha2.by_instruction.run_blocks.0a683a1c7ad27461
	jmp .LBB8_14
.LBB8_1:
	movdqu 24(%rdx), %xmm0
	movdqu 40(%rdx), %xmm1
	movdqu 56(%rdx), %xmm2
	movdqu 72(%rdx), %xmm3
	movdqa %xmm3, 288(%rsp)
	movdqa %xmm2, 272(%rsp)
	movdqa %xmm1, 256(%rsp)
	movdqa %xmm0, 240(%rsp)
	shrq $7, %r14
	je .LBB8_4
	addq $96, %rbx
	.p2align 4
.LBB8_3:
	movdqa .LCPI8_6(%rip), %xmm8
	movdqu -96(%rbx), %xmm0
	movdqu -80(%rbx), %xmm3
	movdqu -64(%rbx), %xmm1
	movdqu -48(%rbx), %xmm2
	pshufb %xmm8, %xmm0
	pshufb %xmm8, %xmm3
	pshufb %xmm8, %xmm1
	pshufb %xmm8, %xmm2
	movdqu -32(%rbx), %xmm5
	pshufb %xmm8, %xmm5
	movdqu -16(%rbx), %xmm6
	pshufb %xmm8, %xmm6
	movdqu 16(%rbx), %xmm4
	pshufb %xmm8, %xmm4
	movdqu (%rbx), %xmm7
	pshufb %xmm8, %xmm7
	movdqa .LCPI8_7(%rip), %xmm8
	paddq %xmm3, %xmm8
	movdqa .LCPI8_8(%rip), %xmm9
	paddq %xmm0, %xmm9
	movdqu %xmm9, 112(%rsp)
	movdqu %xmm8, 128(%rsp)
	movdqa .LCPI8_9(%rip), %xmm8
	paddq %xmm2, %xmm8
	movdqa .LCPI8_10(%rip), %xmm9
	paddq %xmm1, %xmm9
	movdqu %xmm9, 144(%rsp)
	movdqu %xmm8, 160(%rsp)
	movdqa .LCPI8_11(%rip), %xmm8
	paddq %xmm6, %xmm8
	movdqa .LCPI8_12(%rip), %xmm9
	paddq %xmm5, %xmm9
	movdqu %xmm9, 176(%rsp)
	movdqu %xmm8, 192(%rsp)
	movdqa .LCPI8_13(%rip), %xmm8
	paddq %xmm7, %xmm8
	movdqa .LCPI8_14(%rip), %xmm9
	paddq %xmm4, %xmm9
	movdqu %xmm9, 224(%rsp)
	movdqu %xmm8, 208(%rsp)
	movdqa %xmm3, 400(%rsp)
	movdqa %xmm0, 416(%rsp)
	movdqa %xmm1, 384(%rsp)
	movdqa %xmm2, 368(%rsp)
	leaq 368(%rsp), %rax
	movq %rax, 40(%rsp)
	movdqa %xmm5, 352(%rsp)
	leaq 352(%rsp), %rax
	movq %rax, 48(%rsp)
	movdqa %xmm6, 336(%rsp)
	leaq 336(%rsp), %rax
	movq %rax, 56(%rsp)
	movdqa %xmm7, 320(%rsp)
	leaq 320(%rsp), %rax
	movq %rax, 64(%rsp)
	movdqa %xmm4, 304(%rsp)
	leaq 304(%rsp), %rax
	movq %rax, 72(%rsp)
	leaq 384(%rsp), %rax
	movq %rax, 32(%rsp)
	leaq 112(%rsp), %rcx
	leaq 240(%rsp), %rdx
	leaq 416(%rsp), %r8
	leaq 400(%rsp), %r9
	callq ring_core.digest.sha2.by_fours.run_ahead.34389943500e16fa
	movq (%rdi), %rax
	movq 8(%rdi), %rcx
	addq $1, %rax
	adcq $0, %rcx
	movq $-1, %rdx
	cmovbq %rdx, %rcx
	cmovbq %rdx, %rax
	movq %rax, (%rdi)
	movq %rcx, 8(%rdi)
	subq $-128, %rbx
	decq %r14
	jne .LBB8_3
.LBB8_4:
	movdqa 240(%rsp), %xmm0
	movdqa 256(%rsp), %xmm1
	movdqa 272(%rsp), %xmm2
	movdqa 288(%rsp), %xmm3
	movdqa .LCPI8_6(%rip), %xmm4
	pshufb %xmm4, %xmm1
	pshufb %xmm4, %xmm0
	pshufb %xmm4, %xmm3
	pshufb %xmm4, %xmm2
	jmp .LBB8_15
.LBB8_6:
	pxor %xmm0, %xmm0
	movdqa %xmm0, 160(%rsp)
	movdqa %xmm0, 144(%rsp)
	movdqa %xmm0, 128(%rsp)
	movdqa %xmm0, 112(%rsp)
	movzbl yz_instructions(%rip), %eax
	testb %al, %al
	je .LBB8_7
	leaq 80(%rsp), %rcx
	movq %rbx, %rdx
	movq %rdi, %r9
	callq ring_core.digest.sha1.by_instruction.run_blocks.2f3a0559ae3dd27e
	jmp .LBB8_14
.LBB8_11:
	shrq $6, %r14
	je .LBB8_14
	addq $48, %rbx
	.p2align 4
.LBB8_13:
	movdqa .LCPI8_0(%rip), %xmm0
	movdqu -48(%rbx), %xmm1
	movdqu -32(%rbx), %xmm2
	movdqu -16(%rbx), %xmm3
	movdqu (%rbx), %xmm4
	pshufb %xmm0, %xmm1
	pshufb %xmm0, %xmm2
	pshufb %xmm0, %xmm3
	pshufb %xmm0, %xmm4
	movdqa .LCPI8_1(%rip), %xmm0
	paddd %xmm1, %xmm0
	movdqa %xmm0, 112(%rsp)
	movdqa .LCPI8_2(%rip), %xmm0
	paddd %xmm2, %xmm0
	movdqa %xmm0, 128(%rsp)
	movdqa .LCPI8_3(%rip), %xmm0
	paddd %xmm3, %xmm0
	movdqa %xmm0, 144(%rsp)
	movdqa .LCPI8_4(%rip), %xmm0
	paddd %xmm4, %xmm0
	movdqa %xmm0, 160(%rsp)
	movdqa %xmm2, 528(%rsp)
	movdqa %xmm1, 544(%rsp)
	movdqa %xmm3, 512(%rsp)
	movdqa %xmm4, 496(%rsp)
	leaq 496(%rsp), %rax
	movq %rax, 40(%rsp)
	leaq 512(%rsp), %rax
	movq %rax, 32(%rsp)
	leaq 112(%rsp), %rcx
	leaq 80(%rsp), %rdx
	leaq 544(%rsp), %r8
	leaq 528(%rsp), %r9
	callq ring_core.digest.sha2.by_fours.run_ahead.99accd9fe8f0e06d
	movq (%rdi), %rax
	movq 8(%rdi), %rcx
	addq $1, %rax
	adcq $0, %rcx
	movq $-1, %rdx
	cmovbq %rdx, %rcx
	cmovbq %rdx, %rax
	movq %rax, (%rdi)
	movq %rcx, 8(%rdi)
	addq $64, %rbx
	decq %r14
	jne .LBB8_13
	jmp .LBB8_14
.LBB8_7:
	shrq $6, %r14
	je .LBB8_14
	movq (%rdi), %r15
	movq 8(%rdi), %r12
	addq $48, %rbx
	.p2align 4
.LBB8_9:
	movdqa .LCPI8_0(%rip), %xmm0
	movdqu -48(%rbx), %xmm1
	movdqu -32(%rbx), %xmm2
	movdqu -16(%rbx), %xmm3
	movdqu (%rbx), %xmm4
	pshufb %xmm0, %xmm1
	pshufb %xmm0, %xmm2
	pshufb %xmm0, %xmm3
	pshufb %xmm0, %xmm4
	movdqa .LCPI8_5(%rip), %xmm0
	movdqa %xmm1, %xmm5
	paddd %xmm0, %xmm5
	movdqa %xmm5, 112(%rsp)
	movdqa %xmm2, %xmm5
	paddd %xmm0, %xmm5
	movdqa %xmm5, 128(%rsp)
	movdqa %xmm3, %xmm5
	paddd %xmm0, %xmm5
	movdqa %xmm5, 144(%rsp)
	paddd %xmm4, %xmm0
	movdqa %xmm0, 160(%rsp)
	movdqa %xmm2, 464(%rsp)
	movdqa %xmm1, 480(%rsp)
	movdqa %xmm3, 448(%rsp)
	movdqa %xmm4, 432(%rsp)
	leaq 432(%rsp), %rax
	movq %rax, 40(%rsp)
	leaq 448(%rsp), %rax
	movq %rax, 32(%rsp)
	leaq 112(%rsp), %rcx
	leaq 80(%rsp), %rdx
	leaq 480(%rsp), %r8
	leaq 464(%rsp), %r9
	callq ring_core.digest.sha1.by_fours.run_ahead
	addq $1, %r15
	adcq $0, %r12
	movq $-1, %rax
	cmovbq %rax, %r12
	cmovbq %rax, %r15
	movq %r12, 8(%rdi)
	movq %r15, (%rdi)
	addq $64, %rbx
	decq %r14
	jne .LBB8_9
.LBB8_14:
	movdqa 80(%rsp), %xmm0
	movdqa 96(%rsp), %xmm1
	movdqa .LCPI8_0(%rip), %xmm2
	pshufb %xmm2, %xmm1
	pshufb %xmm2, %xmm0
	pxor %xmm2, %xmm2
	pxor %xmm3, %xmm3
.LBB8_15:
	movdqu %xmm0, (%rsi)
	movdqu %xmm1, 16(%rsi)
	movdqu %xmm2, 32(%rsi)
	movdqu %xmm3, 48(%rsi)
	movaps 560(%rsp), %xmm6
	movaps 576(%rsp), %xmm7
	movaps 592(%rsp), %xmm8
	movaps 608(%rsp), %xmm9
	addq $632, %rsp
	popq %rbx
	popq %rdi
	popq %rsi
	popq %r12
	popq %r14
	popq %r15
	retq
	.seh_endproc
	.section .rdata,"dr"
	.p2align 4, 0x0
.LCPI9_0:
	.byte 3
	.byte 2
	.byte 1
	.byte 0
	.byte 7
	.byte 6
	.byte 5
	.byte 4
	.byte 11
	.byte 10
	.byte 9
	.byte 8
	.byte 15
	.byte 14
	.byte 13
	.byte 12
.LCPI9_1:
	.long 1518500249
	.long 1518500249
	.long 1518500249
	.long 1518500249
.LCPI9_2:
	.long 1859775393
	.long 1859775393
	.long 1859775393
	.long 1859775393
.LCPI9_3:
	.long 2400959708
	.long 2400959708
	.long 2400959708
	.long 2400959708
.LCPI9_4:
	.long 3395469782
	.long 3395469782
	.long 3395469782
	.long 3395469782
	.text
	.p2align 4
ring.digest.lanes.algorithms.InVectorSha1RunBlocks64.run_blocks.39d837fb76adf98f:
.seh_proc ring.digest.lanes.algorithms.InVectorSha1RunBlocks64.run_blocks.39d837fb76adf98f
	subq $488, %rsp
	.seh_stackalloc 488
	movaps %xmm15, 464(%rsp)
	.seh_savexmm %xmm15, 464
	movaps %xmm14, 448(%rsp)
	.seh_savexmm %xmm14, 448
	movaps %xmm13, 432(%rsp)
	.seh_savexmm %xmm13, 432
	movaps %xmm12, 416(%rsp)
	.seh_savexmm %xmm12, 416
	movaps %xmm11, 400(%rsp)
	.seh_savexmm %xmm11, 400
	movaps %xmm10, 384(%rsp)
	.seh_savexmm %xmm10, 384
	movaps %xmm9, 368(%rsp)
	.seh_savexmm %xmm9, 368
	movaps %xmm8, 352(%rsp)
	.seh_savexmm %xmm8, 352
	movaps %xmm7, 336(%rsp)
	.seh_savexmm %xmm7, 336
	movaps %xmm6, 320(%rsp)
	.seh_savexmm %xmm6, 320
	.seh_endprologue
	movd (%rdx), %xmm10
	pinsrd $1, 64(%rdx), %xmm10
	pinsrd $2, 128(%rdx), %xmm10
	pinsrd $3, 192(%rdx), %xmm10
	movdqa .LCPI9_0(%rip), %xmm0
	movd 4(%rdx), %xmm12
	pinsrd $1, 68(%rdx), %xmm12
	pinsrd $2, 132(%rdx), %xmm12
	pinsrd $3, 196(%rdx), %xmm12
	pshufb %xmm0, %xmm10
	movd 8(%rdx), %xmm9
	pinsrd $1, 72(%rdx), %xmm9
	pinsrd $2, 136(%rdx), %xmm9
	pinsrd $3, 200(%rdx), %xmm9
	pshufb %xmm0, %xmm12
	movd 12(%rdx), %xmm11
	pinsrd $1, 76(%rdx), %xmm11
	pinsrd $2, 140(%rdx), %xmm11
	pinsrd $3, 204(%rdx), %xmm11
	pshufb %xmm0, %xmm9
	movdqa %xmm9, 128(%rsp)
	movd 16(%rdx), %xmm14
	pinsrd $1, 80(%rdx), %xmm14
	pinsrd $2, 144(%rdx), %xmm14
	pinsrd $3, 208(%rdx), %xmm14
	pshufb %xmm0, %xmm11
	movdqa %xmm11, 48(%rsp)
	movd 20(%rdx), %xmm15
	pinsrd $1, 84(%rdx), %xmm15
	pinsrd $2, 148(%rdx), %xmm15
	pinsrd $3, 212(%rdx), %xmm15
	pshufb %xmm0, %xmm14
	movdqa %xmm14, 144(%rsp)
	movd 24(%rdx), %xmm1
	pinsrd $1, 88(%rdx), %xmm1
	pinsrd $2, 152(%rdx), %xmm1
	pinsrd $3, 216(%rdx), %xmm1
	movdqa %xmm1, %xmm2
	pshufb %xmm0, %xmm15
	movdqa %xmm15, 16(%rsp)
	movd 28(%rdx), %xmm1
	pinsrd $1, 92(%rdx), %xmm1
	pinsrd $2, 156(%rdx), %xmm1
	pinsrd $3, 220(%rdx), %xmm1
	pshufb %xmm0, %xmm2
	movdqa %xmm2, 112(%rsp)
	movd 32(%rdx), %xmm2
	pinsrd $1, 96(%rdx), %xmm2
	pinsrd $2, 160(%rdx), %xmm2
	pinsrd $3, 224(%rdx), %xmm2
	movdqa %xmm2, %xmm3
	pshufb %xmm0, %xmm1
	movdqa %xmm1, 64(%rsp)
	movd 36(%rdx), %xmm1
	pinsrd $1, 100(%rdx), %xmm1
	pinsrd $2, 164(%rdx), %xmm1
	pinsrd $3, 228(%rdx), %xmm1
	movdqa %xmm1, %xmm2
	pshufb %xmm0, %xmm3
	movdqa %xmm3, 208(%rsp)
	movd 40(%rdx), %xmm1
	pinsrd $1, 104(%rdx), %xmm1
	pinsrd $2, 168(%rdx), %xmm1
	pinsrd $3, 232(%rdx), %xmm1
	movdqa %xmm1, %xmm4
	pshufb %xmm0, %xmm2
	movdqa %xmm2, (%rsp)
	movd 44(%rdx), %xmm1
	pinsrd $1, 108(%rdx), %xmm1
	pinsrd $2, 172(%rdx), %xmm1
	pinsrd $3, 236(%rdx), %xmm1
	movdqa %xmm1, %xmm2
	pshufb %xmm0, %xmm4
	movdqa %xmm4, 192(%rsp)
	movd 48(%rdx), %xmm1
	pinsrd $1, 112(%rdx), %xmm1
	pinsrd $2, 176(%rdx), %xmm1
	pinsrd $3, 240(%rdx), %xmm1
	pshufb %xmm0, %xmm2
	movdqa %xmm2, 32(%rsp)
	movd 52(%rdx), %xmm2
	pinsrd $1, 116(%rdx), %xmm2
	pinsrd $2, 180(%rdx), %xmm2
	pinsrd $3, 244(%rdx), %xmm2
	movdqa %xmm2, %xmm3
	pshufb %xmm0, %xmm1
	movdqa %xmm1, 176(%rsp)
	movd 56(%rdx), %xmm1
	pinsrd $1, 120(%rdx), %xmm1
	pinsrd $2, 184(%rdx), %xmm1
	pinsrd $3, 248(%rdx), %xmm1
	movdqa %xmm1, %xmm2
	pshufb %xmm0, %xmm3
	movdqa %xmm3, 224(%rsp)
	movd 60(%rdx), %xmm1
	pinsrd $1, 124(%rdx), %xmm1
	pinsrd $2, 188(%rdx), %xmm1
	pinsrd $3, 252(%rdx), %xmm1
	pshufb %xmm0, %xmm2
	movdqa %xmm2, 160(%rsp)
	pshufb %xmm0, %xmm1
	movdqa %xmm1, 96(%rsp)
	movdqu (%rcx), %xmm7
	movdqa %xmm7, %xmm0
	psrld $27, %xmm0
	movdqa %xmm7, %xmm4
	pslld $5, %xmm4
	por %xmm0, %xmm4
	movdqu 16(%rcx), %xmm8
	movdqu 48(%rcx), %xmm6
	movdqa %xmm8, %xmm0
	pandn %xmm6, %xmm0
	movdqa %xmm6, 272(%rsp)
	movdqu 32(%rcx), %xmm1
	movdqa %xmm1, %xmm2
	movdqa %xmm1, %xmm13
	pand %xmm8, %xmm2
	por %xmm0, %xmm2
	movdqu 64(%rcx), %xmm0
	movdqa %xmm0, 304(%rsp)
	paddd %xmm0, %xmm4
	paddd %xmm2, %xmm4
	movdqa %xmm8, 288(%rsp)
	movdqa %xmm8, %xmm0
	psrld $2, %xmm0
	pslld $30, %xmm8
	por %xmm0, %xmm8
	movdqa .LCPI9_1(%rip), %xmm3
	paddd %xmm3, %xmm4
	paddd %xmm10, %xmm4
	movdqa %xmm4, %xmm0
	psrld $27, %xmm0
	movdqa %xmm4, %xmm2
	pslld $5, %xmm2
	por %xmm0, %xmm2
	movdqa %xmm8, %xmm0
	pand %xmm7, %xmm0
	movdqa %xmm7, %xmm1
	pandn %xmm13, %xmm1
	movdqa %xmm13, 240(%rsp)
	por %xmm0, %xmm1
	paddd %xmm6, %xmm1
	paddd %xmm12, %xmm1
	paddd %xmm3, %xmm1
	paddd %xmm2, %xmm1
	movdqa %xmm7, 256(%rsp)
	movdqa %xmm7, %xmm0
	psrld $2, %xmm0
	pslld $30, %xmm7
	por %xmm0, %xmm7
	movdqa %xmm1, %xmm0
	psrld $27, %xmm0
	movdqa %xmm1, %xmm2
	pslld $5, %xmm2
	por %xmm0, %xmm2
	movdqa %xmm4, %xmm0
	pandn %xmm8, %xmm0
	movdqa %xmm7, %xmm5
	pand %xmm4, %xmm5
	por %xmm0, %xmm5
	movdqa %xmm9, %xmm6
	paddd %xmm13, %xmm6
	paddd %xmm5, %xmm6
	paddd %xmm3, %xmm6
	paddd %xmm2, %xmm6
	movdqa %xmm4, %xmm2
	psrld $2, %xmm2
	pslld $30, %xmm4
	por %xmm2, %xmm4
	movdqa %xmm6, %xmm2
	psrld $27, %xmm2
	movdqa %xmm6, %xmm5
	pslld $5, %xmm5
	por %xmm2, %xmm5
	movdqa %xmm4, %xmm2
	pand %xmm1, %xmm2
	movdqa %xmm1, %xmm13
	pandn %xmm7, %xmm13
	por %xmm2, %xmm13
	paddd %xmm11, %xmm8
	paddd %xmm13, %xmm8
	paddd %xmm3, %xmm8
	movdqa %xmm3, %xmm9
	paddd %xmm5, %xmm8
	movdqa %xmm1, %xmm2
	psrld $2, %xmm2
	pslld $30, %xmm1
	por %xmm2, %xmm1
	movdqa %xmm8, %xmm2
	psrld $27, %xmm2
	movdqa %xmm8, %xmm5
	pslld $5, %xmm5
	por %xmm2, %xmm5
	movdqa %xmm1, %xmm2
	pand %xmm6, %xmm2
	movdqa %xmm6, %xmm13
	pandn %xmm4, %xmm13
	por %xmm2, %xmm13
	paddd %xmm14, %xmm7
	paddd %xmm13, %xmm7
	paddd %xmm3, %xmm7
	paddd %xmm5, %xmm7
	movdqa %xmm6, %xmm2
	psrld $2, %xmm2
	pslld $30, %xmm6
	por %xmm2, %xmm6
	movdqa %xmm7, %xmm2
	psrld $27, %xmm2
	movdqa %xmm7, %xmm5
	pslld $5, %xmm5
	por %xmm2, %xmm5
	movdqa %xmm6, %xmm2
	pand %xmm8, %xmm2
	movdqa %xmm8, %xmm13
	pandn %xmm1, %xmm13
	por %xmm2, %xmm13
	paddd %xmm15, %xmm4
	paddd %xmm13, %xmm4
	paddd %xmm3, %xmm4
	paddd %xmm5, %xmm4
	movdqa %xmm8, %xmm2
	psrld $2, %xmm2
	pslld $30, %xmm8
	por %xmm2, %xmm8
	movdqa %xmm4, %xmm2
	psrld $27, %xmm2
	movdqa %xmm4, %xmm5
	pslld $5, %xmm5
	por %xmm2, %xmm5
	movdqa %xmm8, %xmm2
	pand %xmm7, %xmm2
	movdqa %xmm7, %xmm13
	pandn %xmm6, %xmm13
	por %xmm2, %xmm13
	paddd 112(%rsp), %xmm1
	paddd %xmm13, %xmm1
	paddd %xmm3, %xmm1
	paddd %xmm5, %xmm1
	movdqa %xmm7, %xmm2
	psrld $2, %xmm2
	pslld $30, %xmm7
	por %xmm2, %xmm7
	movdqa %xmm1, %xmm2
	psrld $27, %xmm2
	movdqa %xmm1, %xmm5
	pslld $5, %xmm5
	por %xmm2, %xmm5
	movdqa %xmm7, %xmm2
	pand %xmm4, %xmm2
	movdqa %xmm4, %xmm13
	pandn %xmm8, %xmm13
	por %xmm2, %xmm13
	paddd 64(%rsp), %xmm6
	paddd %xmm13, %xmm6
	paddd %xmm3, %xmm6
	paddd %xmm5, %xmm6
	movdqa %xmm4, %xmm2
	psrld $2, %xmm2
	pslld $30, %xmm4
	por %xmm2, %xmm4
	movdqa %xmm6, %xmm2
	psrld $27, %xmm2
	movdqa %xmm6, %xmm5
	pslld $5, %xmm5
	por %xmm2, %xmm5
	movdqa %xmm4, %xmm2
	pand %xmm1, %xmm2
	movdqa %xmm1, %xmm13
	pandn %xmm7, %xmm13
	por %xmm2, %xmm13
	movdqa 208(%rsp), %xmm15
	paddd %xmm15, %xmm8
	paddd %xmm13, %xmm8
	paddd %xmm3, %xmm8
	paddd %xmm5, %xmm8
	movdqa %xmm1, %xmm2
	psrld $2, %xmm2
	pslld $30, %xmm1
	por %xmm2, %xmm1
	movdqa %xmm8, %xmm2
	psrld $27, %xmm2
	movdqa %xmm8, %xmm5
	pslld $5, %xmm5
	por %xmm2, %xmm5
	movdqa %xmm1, %xmm2
	pand %xmm6, %xmm2
	movdqa %xmm6, %xmm13
	pandn %xmm4, %xmm13
	por %xmm2, %xmm13
	paddd (%rsp), %xmm7
	paddd %xmm13, %xmm7
	paddd %xmm3, %xmm7
	paddd %xmm5, %xmm7
	movdqa %xmm6, %xmm2
	psrld $2, %xmm2
	pslld $30, %xmm6
	por %xmm2, %xmm6
	movdqa %xmm7, %xmm2
	psrld $27, %xmm2
	movdqa %xmm7, %xmm5
	pslld $5, %xmm5
	por %xmm2, %xmm5
	movdqa %xmm6, %xmm2
	pand %xmm8, %xmm2
	movdqa %xmm8, %xmm13
	pandn %xmm1, %xmm13
	por %xmm2, %xmm13
	paddd 192(%rsp), %xmm4
	paddd %xmm13, %xmm4
	paddd %xmm3, %xmm4
	paddd %xmm5, %xmm4
	movdqa %xmm8, %xmm2
	psrld $2, %xmm2
	pslld $30, %xmm8
	por %xmm2, %xmm8
	movdqa %xmm4, %xmm2
	psrld $27, %xmm2
	movdqa %xmm4, %xmm5
	pslld $5, %xmm5
	por %xmm2, %xmm5
	movdqa %xmm8, %xmm2
	pand %xmm7, %xmm2
	movdqa %xmm7, %xmm13
	pandn %xmm6, %xmm13
	por %xmm2, %xmm13
	paddd 32(%rsp), %xmm1
	paddd %xmm13, %xmm1
	paddd %xmm3, %xmm1
	paddd %xmm5, %xmm1
	movdqa %xmm7, %xmm2
	psrld $2, %xmm2
	pslld $30, %xmm7
	por %xmm2, %xmm7
	movdqa %xmm1, %xmm2
	psrld $27, %xmm2
	movdqa %xmm1, %xmm5
	pslld $5, %xmm5
	por %xmm2, %xmm5
	movdqa %xmm7, %xmm2
	pand %xmm4, %xmm2
	movdqa %xmm4, %xmm13
	pandn %xmm8, %xmm13
	por %xmm2, %xmm13
	paddd 176(%rsp), %xmm6
	paddd %xmm13, %xmm6
	paddd %xmm3, %xmm6
	paddd %xmm5, %xmm6
	movdqa %xmm4, %xmm2
	psrld $2, %xmm2
	pslld $30, %xmm4
	por %xmm2, %xmm4
	movdqa %xmm6, %xmm2
	psrld $27, %xmm2
	movdqa %xmm6, %xmm5
	pslld $5, %xmm5
	por %xmm2, %xmm5
	movdqa %xmm4, %xmm2
	pand %xmm1, %xmm2
	movdqa %xmm1, %xmm13
	pandn %xmm7, %xmm13
	por %xmm2, %xmm13
	movdqa 224(%rsp), %xmm3
	paddd %xmm3, %xmm8
	paddd %xmm13, %xmm8
	paddd %xmm9, %xmm8
	paddd %xmm5, %xmm8
	movdqa %xmm1, %xmm2
	psrld $2, %xmm2
	pslld $30, %xmm1
	por %xmm2, %xmm1
	movdqa %xmm8, %xmm2
	psrld $27, %xmm2
	movdqa %xmm8, %xmm5
	pslld $5, %xmm5
	por %xmm2, %xmm5
	movdqa %xmm1, %xmm2
	pand %xmm6, %xmm2
	movdqa %xmm6, %xmm13
	pandn %xmm4, %xmm13
	por %xmm2, %xmm13
	movdqa 160(%rsp), %xmm14
	paddd %xmm14, %xmm7
	paddd %xmm13, %xmm7
	paddd %xmm9, %xmm7
	paddd %xmm5, %xmm7
	movdqa %xmm6, %xmm2
	psrld $2, %xmm2
	pslld $30, %xmm6
	por %xmm2, %xmm6
	movdqa %xmm7, %xmm2
	psrld $27, %xmm2
	movdqa %xmm7, %xmm5
	pslld $5, %xmm5
	por %xmm2, %xmm5
	movdqa %xmm6, %xmm2
	pand %xmm8, %xmm2
	movdqa %xmm8, %xmm13
	pandn %xmm1, %xmm13
	por %xmm2, %xmm13
	movdqa 96(%rsp), %xmm0
	paddd %xmm0, %xmm4
	paddd %xmm13, %xmm4
	paddd %xmm9, %xmm4
	paddd %xmm5, %xmm4
	movdqa %xmm8, %xmm2
	psrld $2, %xmm2
	pslld $30, %xmm8
	por %xmm2, %xmm8
	movdqa 128(%rsp), %xmm2
	pxor %xmm2, %xmm10
	pxor %xmm3, %xmm15
	pxor %xmm10, %xmm15
	movdqa %xmm15, %xmm5
	psrld $31, %xmm5
	paddd %xmm15, %xmm15
	por %xmm5, %xmm15
	movdqa 48(%rsp), %xmm11
	pxor %xmm11, %xmm12
	movdqa (%rsp), %xmm3
	pxor %xmm14, %xmm3
	pxor %xmm12, %xmm3
	movdqa %xmm3, %xmm5
	psrld $31, %xmm5
	paddd %xmm3, %xmm3
	por %xmm5, %xmm3
	movdqa %xmm3, %xmm12
	movdqa %xmm8, %xmm5
	pand %xmm7, %xmm5
	movdqa %xmm7, %xmm10
	pandn %xmm6, %xmm10
	por %xmm5, %xmm10
	movdqa %xmm7, %xmm5
	psrld $2, %xmm5
	pslld $30, %xmm7
	por %xmm5, %xmm7
	movdqa %xmm7, %xmm5
	pand %xmm4, %xmm5
	movdqa %xmm4, %xmm13
	pandn %xmm8, %xmm13
	por %xmm5, %xmm13
	movdqa %xmm4, %xmm5
	psrld $27, %xmm5
	movdqa %xmm4, %xmm3
	pslld $5, %xmm3
	por %xmm5, %xmm3
	paddd %xmm15, %xmm1
	paddd %xmm10, %xmm1
	paddd %xmm9, %xmm1
	paddd %xmm3, %xmm1
	movdqa %xmm1, %xmm3
	psrld $27, %xmm3
	movdqa %xmm1, %xmm5
	pslld $5, %xmm5
	por %xmm3, %xmm5
	paddd %xmm12, %xmm6
	movdqa %xmm12, 80(%rsp)
	paddd %xmm13, %xmm6
	paddd %xmm9, %xmm6
	paddd %xmm5, %xmm6
	movdqa %xmm4, %xmm3
	psrld $2, %xmm3
	pslld $30, %xmm4
	por %xmm3, %xmm4
	movdqa 144(%rsp), %xmm10
	movdqa %xmm2, %xmm3
	pxor %xmm10, %xmm3
	movdqa 192(%rsp), %xmm2
	pxor %xmm0, %xmm2
	pxor %xmm3, %xmm2
	movdqa %xmm2, %xmm3
	psrld $31, %xmm3
	paddd %xmm2, %xmm2
	por %xmm3, %xmm2
	movdqa %xmm11, %xmm14
	movdqa 16(%rsp), %xmm11
	pxor %xmm11, %xmm14
	pxor 32(%rsp), %xmm14
	pxor %xmm15, %xmm14
	movdqa %xmm14, %xmm3
	psrld $31, %xmm3
	paddd %xmm14, %xmm14
	por %xmm3, %xmm14
	movdqa %xmm4, %xmm3
	pand %xmm1, %xmm3
	movdqa %xmm1, %xmm5
	pandn %xmm7, %xmm5
	por %xmm3, %xmm5
	movdqa %xmm1, %xmm3
	psrld $2, %xmm3
	pslld $30, %xmm1
	por %xmm3, %xmm1
	movdqa %xmm1, %xmm3
	pand %xmm6, %xmm3
	movdqa %xmm6, %xmm13
	pandn %xmm4, %xmm13
	por %xmm3, %xmm13
	movdqa %xmm6, %xmm3
	psrld $27, %xmm3
	movdqa %xmm6, %xmm0
	pslld $5, %xmm0
	por %xmm3, %xmm0
	paddd %xmm2, %xmm8
	movdqa %xmm2, %xmm9
	movdqa %xmm2, 128(%rsp)
	paddd %xmm5, %xmm8
	movdqa .LCPI9_1(%rip), %xmm2
	paddd %xmm2, %xmm8
	paddd %xmm0, %xmm8
	movdqa %xmm8, %xmm0
	psrld $27, %xmm0
	movdqa %xmm8, %xmm3
	pslld $5, %xmm3
	por %xmm0, %xmm3
	paddd %xmm14, %xmm7
	movdqa %xmm14, 48(%rsp)
	paddd %xmm13, %xmm7
	paddd %xmm2, %xmm7
	paddd %xmm3, %xmm7
	movdqa %xmm6, %xmm0
	psrld $2, %xmm0
	pslld $30, %xmm6
	por %xmm0, %xmm6
	movdqa %xmm10, %xmm2
	movdqa 112(%rsp), %xmm10
	pxor %xmm10, %xmm2
	pxor 176(%rsp), %xmm2
	pxor %xmm12, %xmm2
	movdqa %xmm2, %xmm0
	psrld $31, %xmm0
	paddd %xmm2, %xmm2
	por %xmm0, %xmm2
	movdqa 64(%rsp), %xmm13
	pxor %xmm13, %xmm11
	pxor 224(%rsp), %xmm11
	pxor %xmm9, %xmm11
	movdqa %xmm11, %xmm0
	psrld $31, %xmm0
	paddd %xmm11, %xmm11
	por %xmm0, %xmm11
	movdqa %xmm11, %xmm9
	movdqa %xmm11, 16(%rsp)
	movdqa %xmm6, %xmm0
	pxor %xmm1, %xmm0
	pxor %xmm8, %xmm0
	movdqa %xmm8, %xmm3
	psrld $2, %xmm3
	pslld $30, %xmm8
	por %xmm3, %xmm8
	movdqa %xmm7, %xmm3
	psrld $27, %xmm3
	movdqa %xmm7, %xmm5
	pslld $5, %xmm5
	por %xmm3, %xmm5
	paddd %xmm2, %xmm4
	movdqa %xmm2, 144(%rsp)
	paddd %xmm0, %xmm4
	movdqa .LCPI9_2(%rip), %xmm11
	paddd %xmm11, %xmm4
	paddd %xmm5, %xmm4
	movdqa %xmm4, %xmm0
	psrld $27, %xmm0
	movdqa %xmm4, %xmm3
	pslld $5, %xmm3
	por %xmm0, %xmm3
	movdqa %xmm8, %xmm0
	pxor %xmm6, %xmm0
	pxor %xmm7, %xmm0
	paddd %xmm9, %xmm1
	paddd %xmm0, %xmm1
	paddd %xmm11, %xmm1
	paddd %xmm3, %xmm1
	movdqa %xmm7, %xmm0
	psrld $2, %xmm0
	pslld $30, %xmm7
	por %xmm0, %xmm7
	movdqa 208(%rsp), %xmm11
	pxor %xmm11, %xmm10
	pxor 160(%rsp), %xmm10
	pxor %xmm14, %xmm10
	movdqa %xmm10, %xmm0
	psrld $31, %xmm0
	paddd %xmm10, %xmm10
	por %xmm0, %xmm10
	movdqa %xmm13, %xmm14
	movdqa (%rsp), %xmm9
	pxor %xmm9, %xmm14
	pxor 96(%rsp), %xmm14
	pxor %xmm2, %xmm14
	movdqa %xmm14, %xmm0
	psrld $31, %xmm0
	paddd %xmm14, %xmm14
	por %xmm0, %xmm14
	movdqa %xmm7, %xmm0
	pxor %xmm8, %xmm0
	pxor %xmm4, %xmm0
	movdqa %xmm4, %xmm3
	psrld $2, %xmm3
	pslld $30, %xmm4
	por %xmm3, %xmm4
	movdqa %xmm1, %xmm3
	psrld $27, %xmm3
	movdqa %xmm1, %xmm5
	pslld $5, %xmm5
	por %xmm3, %xmm5
	paddd %xmm10, %xmm6
	movdqa %xmm10, %xmm12
	movdqa %xmm10, 112(%rsp)
	paddd %xmm0, %xmm6
	movdqa .LCPI9_2(%rip), %xmm10
	paddd %xmm10, %xmm6
	paddd %xmm5, %xmm6
	movdqa %xmm6, %xmm0
	psrld $27, %xmm0
	movdqa %xmm6, %xmm3
	pslld $5, %xmm3
	por %xmm0, %xmm3
	movdqa %xmm4, %xmm0
	pxor %xmm7, %xmm0
	pxor %xmm1, %xmm0
	paddd %xmm14, %xmm8
	movdqa %xmm14, 64(%rsp)
	paddd %xmm0, %xmm8
	paddd %xmm10, %xmm8
	paddd %xmm3, %xmm8
	movdqa %xmm1, %xmm0
	psrld $2, %xmm0
	pslld $30, %xmm1
	por %xmm0, %xmm1
	movdqa 192(%rsp), %xmm10
	pxor %xmm10, %xmm11
	pxor %xmm15, %xmm11
	movdqa 16(%rsp), %xmm0
	pxor %xmm0, %xmm11
	movdqa %xmm11, %xmm0
	psrld $31, %xmm0
	paddd %xmm11, %xmm11
	por %xmm0, %xmm11
	movdqa %xmm9, %xmm3
	movdqa 32(%rsp), %xmm13
	pxor %xmm13, %xmm3
	pxor 80(%rsp), %xmm3
	pxor %xmm12, %xmm3
	movdqa %xmm3, %xmm0
	psrld $31, %xmm0
	paddd %xmm3, %xmm3
	por %xmm0, %xmm3
	movdqa %xmm3, %xmm2
	movdqa %xmm1, %xmm0
	pxor %xmm4, %xmm0
	pxor %xmm6, %xmm0
	movdqa %xmm6, %xmm3
	psrld $2, %xmm3
	pslld $30, %xmm6
	por %xmm3, %xmm6
	movdqa %xmm8, %xmm3
	psrld $27, %xmm3
	movdqa %xmm8, %xmm5
	pslld $5, %xmm5
	por %xmm3, %xmm5
	paddd %xmm11, %xmm7
	movdqa %xmm11, 208(%rsp)
	paddd %xmm0, %xmm7
	movdqa .LCPI9_2(%rip), %xmm9
	paddd %xmm9, %xmm7
	paddd %xmm5, %xmm7
	movdqa %xmm7, %xmm0
	psrld $27, %xmm0
	movdqa %xmm7, %xmm3
	pslld $5, %xmm3
	por %xmm0, %xmm3
	movdqa %xmm6, %xmm0
	pxor %xmm1, %xmm0
	pxor %xmm8, %xmm0
	paddd %xmm2, %xmm4
	movdqa %xmm2, %xmm12
	movdqa %xmm2, (%rsp)
	paddd %xmm0, %xmm4
	paddd %xmm9, %xmm4
	paddd %xmm3, %xmm4
	movdqa %xmm8, %xmm0
	psrld $2, %xmm0
	pslld $30, %xmm8
	por %xmm0, %xmm8
	movdqa %xmm10, %xmm2
	movdqa 176(%rsp), %xmm10
	pxor %xmm10, %xmm2
	pxor 128(%rsp), %xmm2
	pxor %xmm14, %xmm2
	movdqa %xmm2, %xmm0
	psrld $31, %xmm0
	paddd %xmm2, %xmm2
	por %xmm0, %xmm2
	movdqa 224(%rsp), %xmm9
	pxor %xmm9, %xmm13
	pxor 48(%rsp), %xmm13
	pxor %xmm11, %xmm13
	movdqa %xmm13, %xmm0
	psrld $31, %xmm0
	paddd %xmm13, %xmm13
	por %xmm0, %xmm13
	movdqa %xmm13, %xmm11
	movdqa %xmm13, 32(%rsp)
	movdqa %xmm8, %xmm0
	pxor %xmm6, %xmm0
	pxor %xmm7, %xmm0
	movdqa %xmm7, %xmm3
	psrld $2, %xmm3
	pslld $30, %xmm7
	por %xmm3, %xmm7
	movdqa %xmm4, %xmm3
	psrld $27, %xmm3
	movdqa %xmm4, %xmm5
	pslld $5, %xmm5
	por %xmm3, %xmm5
	paddd %xmm2, %xmm1
	movdqa %xmm2, 192(%rsp)
	paddd %xmm0, %xmm1
	movdqa .LCPI9_2(%rip), %xmm13
	paddd %xmm13, %xmm1
	paddd %xmm5, %xmm1
	movdqa %xmm1, %xmm0
	psrld $27, %xmm0
	movdqa %xmm1, %xmm3
	pslld $5, %xmm3
	por %xmm0, %xmm3
	movdqa %xmm7, %xmm0
	pxor %xmm8, %xmm0
	pxor %xmm4, %xmm0
	paddd %xmm11, %xmm6
	paddd %xmm0, %xmm6
	paddd %xmm13, %xmm6
	paddd %xmm3, %xmm6
	movdqa %xmm4, %xmm0
	psrld $2, %xmm0
	pslld $30, %xmm4
	por %xmm0, %xmm4
	movdqa 160(%rsp), %xmm11
	pxor %xmm11, %xmm10
	pxor 144(%rsp), %xmm10
	pxor %xmm12, %xmm10
	movdqa %xmm10, %xmm0
	psrld $31, %xmm0
	paddd %xmm10, %xmm10
	por %xmm0, %xmm10
	movdqa %xmm9, %xmm12
	movdqa 96(%rsp), %xmm14
	pxor %xmm14, %xmm12
	pxor 16(%rsp), %xmm12
	pxor %xmm2, %xmm12
	movdqa %xmm12, %xmm0
	psrld $31, %xmm0
	paddd %xmm12, %xmm12
	por %xmm0, %xmm12
	movdqa %xmm4, %xmm0
	pxor %xmm7, %xmm0
	pxor %xmm1, %xmm0
	movdqa %xmm1, %xmm3
	psrld $2, %xmm3
	pslld $30, %xmm1
	por %xmm3, %xmm1
	movdqa %xmm6, %xmm3
	psrld $27, %xmm3
	movdqa %xmm6, %xmm5
	pslld $5, %xmm5
	por %xmm3, %xmm5
	paddd %xmm10, %xmm8
	movdqa %xmm10, %xmm2
	movdqa %xmm10, 176(%rsp)
	paddd %xmm0, %xmm8
	paddd %xmm13, %xmm8
	paddd %xmm5, %xmm8
	movdqa %xmm8, %xmm0
	psrld $27, %xmm0
	movdqa %xmm8, %xmm3
	pslld $5, %xmm3
	por %xmm0, %xmm3
	movdqa %xmm1, %xmm0
	pxor %xmm4, %xmm0
	pxor %xmm6, %xmm0
	paddd %xmm12, %xmm7
	movdqa %xmm12, 224(%rsp)
	paddd %xmm0, %xmm7
	paddd %xmm13, %xmm7
	paddd %xmm3, %xmm7
	movdqa %xmm6, %xmm0
	psrld $2, %xmm0
	pslld $30, %xmm6
	por %xmm0, %xmm6
	pxor %xmm15, %xmm11
	pxor 112(%rsp), %xmm11
	pxor 32(%rsp), %xmm11
	movdqa %xmm11, %xmm0
	psrld $31, %xmm0
	paddd %xmm11, %xmm11
	por %xmm0, %xmm11
	movdqa %xmm11, %xmm10
	movdqa %xmm14, %xmm3
	movdqa 80(%rsp), %xmm11
	pxor %xmm11, %xmm3
	pxor 64(%rsp), %xmm3
	pxor %xmm2, %xmm3
	movdqa %xmm3, %xmm0
	psrld $31, %xmm0
	paddd %xmm3, %xmm3
	por %xmm0, %xmm3
	movdqa %xmm3, %xmm9
	movdqa %xmm6, %xmm0
	pxor %xmm1, %xmm0
	pxor %xmm8, %xmm0
	movdqa %xmm8, %xmm3
	psrld $2, %xmm3
	pslld $30, %xmm8
	por %xmm3, %xmm8
	movdqa %xmm7, %xmm3
	psrld $27, %xmm3
	movdqa %xmm7, %xmm5
	pslld $5, %xmm5
	por %xmm3, %xmm5
	paddd %xmm10, %xmm4
	movdqa %xmm10, 160(%rsp)
	paddd %xmm0, %xmm4
	movdqa %xmm13, %xmm2
	paddd %xmm13, %xmm4
	paddd %xmm5, %xmm4
	movdqa %xmm4, %xmm0
	psrld $27, %xmm0
	movdqa %xmm4, %xmm3
	pslld $5, %xmm3
	por %xmm0, %xmm3
	movdqa %xmm8, %xmm0
	pxor %xmm6, %xmm0
	pxor %xmm7, %xmm0
	paddd %xmm9, %xmm1
	movdqa %xmm9, %xmm13
	movdqa %xmm9, 96(%rsp)
	paddd %xmm0, %xmm1
	paddd %xmm2, %xmm1
	movdqa %xmm2, %xmm9
	paddd %xmm3, %xmm1
	movdqa %xmm7, %xmm0
	psrld $2, %xmm0
	pslld $30, %xmm7
	por %xmm0, %xmm7
	movdqa 128(%rsp), %xmm2
	pxor %xmm2, %xmm15
	pxor 208(%rsp), %xmm15
	pxor %xmm12, %xmm15
	movdqa %xmm15, %xmm0
	psrld $31, %xmm0
	paddd %xmm15, %xmm15
	por %xmm0, %xmm15
	movdqa %xmm11, %xmm12
	movdqa 48(%rsp), %xmm14
	pxor %xmm14, %xmm12
	pxor (%rsp), %xmm12
	pxor %xmm10, %xmm12
	movdqa %xmm12, %xmm0
	psrld $31, %xmm0
	paddd %xmm12, %xmm12
	por %xmm0, %xmm12
	movdqa %xmm7, %xmm0
	pxor %xmm8, %xmm0
	pxor %xmm4, %xmm0
	movdqa %xmm4, %xmm3
	psrld $2, %xmm3
	pslld $30, %xmm4
	por %xmm3, %xmm4
	movdqa %xmm1, %xmm3
	psrld $27, %xmm3
	movdqa %xmm1, %xmm5
	pslld $5, %xmm5
	por %xmm3, %xmm5
	paddd %xmm15, %xmm6
	paddd %xmm0, %xmm6
	paddd %xmm9, %xmm6
	paddd %xmm5, %xmm6
	movdqa %xmm6, %xmm0
	psrld $27, %xmm0
	movdqa %xmm6, %xmm3
	pslld $5, %xmm3
	por %xmm0, %xmm3
	movdqa %xmm4, %xmm0
	pxor %xmm7, %xmm0
	pxor %xmm1, %xmm0
	paddd %xmm12, %xmm8
	movdqa %xmm12, 80(%rsp)
	paddd %xmm0, %xmm8
	paddd %xmm9, %xmm8
	movdqa %xmm9, %xmm11
	paddd %xmm3, %xmm8
	movdqa %xmm1, %xmm0
	psrld $2, %xmm0
	pslld $30, %xmm1
	por %xmm0, %xmm1
	movdqa 144(%rsp), %xmm9
	pxor %xmm9, %xmm2
	pxor 192(%rsp), %xmm2
	pxor %xmm13, %xmm2
	movdqa %xmm2, %xmm0
	psrld $31, %xmm0
	paddd %xmm2, %xmm2
	por %xmm0, %xmm2
	movdqa 16(%rsp), %xmm10
	pxor %xmm10, %xmm14
	pxor 32(%rsp), %xmm14
	pxor %xmm15, %xmm14
	movdqa %xmm14, %xmm0
	psrld $31, %xmm0
	paddd %xmm14, %xmm14
	por %xmm0, %xmm14
	movdqa %xmm1, %xmm0
	pxor %xmm4, %xmm0
	pxor %xmm6, %xmm0
	movdqa %xmm6, %xmm3
	psrld $2, %xmm3
	pslld $30, %xmm6
	por %xmm3, %xmm6
	movdqa %xmm8, %xmm3
	psrld $27, %xmm3
	movdqa %xmm8, %xmm5
	pslld $5, %xmm5
	por %xmm3, %xmm5
	paddd %xmm2, %xmm7
	movdqa %xmm2, 128(%rsp)
	paddd %xmm0, %xmm7
	paddd %xmm11, %xmm7
	paddd %xmm5, %xmm7
	movdqa %xmm7, %xmm0
	psrld $27, %xmm0
	movdqa %xmm7, %xmm3
	pslld $5, %xmm3
	por %xmm0, %xmm3
	movdqa %xmm6, %xmm0
	pxor %xmm1, %xmm0
	pxor %xmm8, %xmm0
	paddd %xmm14, %xmm4
	movdqa %xmm14, 48(%rsp)
	paddd %xmm0, %xmm4
	paddd %xmm11, %xmm4
	movdqa %xmm11, %xmm13
	paddd %xmm3, %xmm4
	movdqa %xmm8, %xmm0
	psrld $2, %xmm0
	pslld $30, %xmm8
	por %xmm0, %xmm8
	movdqa %xmm9, %xmm3
	movdqa 112(%rsp), %xmm11
	pxor %xmm11, %xmm3
	pxor 176(%rsp), %xmm3
	pxor %xmm12, %xmm3
	movdqa %xmm3, %xmm0
	psrld $31, %xmm0
	paddd %xmm3, %xmm3
	por %xmm0, %xmm3
	movdqa %xmm3, %xmm9
	movdqa %xmm10, %xmm3
	movdqa 64(%rsp), %xmm12
	pxor %xmm12, %xmm3
	pxor 224(%rsp), %xmm3
	pxor %xmm2, %xmm3
	movdqa %xmm3, %xmm0
	psrld $31, %xmm0
	paddd %xmm3, %xmm3
	por %xmm0, %xmm3
	movdqa %xmm3, %xmm2
	movdqa %xmm8, %xmm0
	pxor %xmm6, %xmm0
	pxor %xmm7, %xmm0
	movdqa %xmm7, %xmm3
	psrld $2, %xmm3
	pslld $30, %xmm7
	por %xmm3, %xmm7
	movdqa %xmm4, %xmm3
	psrld $27, %xmm3
	movdqa %xmm4, %xmm5
	pslld $5, %xmm5
	por %xmm3, %xmm5
	paddd %xmm9, %xmm1
	movdqa %xmm9, %xmm10
	movdqa %xmm9, 144(%rsp)
	paddd %xmm0, %xmm1
	movdqa %xmm13, %xmm9
	paddd %xmm13, %xmm1
	paddd %xmm5, %xmm1
	movdqa %xmm1, %xmm0
	psrld $27, %xmm0
	movdqa %xmm1, %xmm3
	pslld $5, %xmm3
	por %xmm0, %xmm3
	movdqa %xmm7, %xmm0
	pxor %xmm8, %xmm0
	pxor %xmm4, %xmm0
	paddd %xmm2, %xmm6
	movdqa %xmm2, %xmm13
	movdqa %xmm2, 16(%rsp)
	paddd %xmm0, %xmm6
	paddd %xmm9, %xmm6
	paddd %xmm3, %xmm6
	movdqa %xmm4, %xmm0
	psrld $2, %xmm0
	pslld $30, %xmm4
	por %xmm0, %xmm4
	movdqa %xmm11, %xmm3
	movdqa 208(%rsp), %xmm11
	pxor %xmm11, %xmm3
	pxor 160(%rsp), %xmm3
	pxor %xmm14, %xmm3
	movdqa %xmm3, %xmm0
	psrld $31, %xmm0
	paddd %xmm3, %xmm3
	por %xmm0, %xmm3
	movdqa %xmm3, %xmm9
	movdqa %xmm12, %xmm14
	movdqa (%rsp), %xmm2
	pxor %xmm2, %xmm14
	pxor 96(%rsp), %xmm14
	pxor %xmm10, %xmm14
	movdqa %xmm14, %xmm0
	psrld $31, %xmm0
	paddd %xmm14, %xmm14
	por %xmm0, %xmm14
	movdqa %xmm4, %xmm0
	pxor %xmm7, %xmm0
	pxor %xmm1, %xmm0
	movdqa %xmm1, %xmm3
	psrld $2, %xmm3
	pslld $30, %xmm1
	por %xmm3, %xmm1
	movdqa %xmm6, %xmm3
	psrld $27, %xmm3
	movdqa %xmm6, %xmm5
	pslld $5, %xmm5
	por %xmm3, %xmm5
	paddd %xmm9, %xmm8
	movdqa %xmm9, 112(%rsp)
	paddd %xmm0, %xmm8
	movdqa .LCPI9_2(%rip), %xmm10
	paddd %xmm10, %xmm8
	paddd %xmm5, %xmm8
	movdqa %xmm8, %xmm0
	psrld $27, %xmm0
	movdqa %xmm8, %xmm3
	pslld $5, %xmm3
	por %xmm0, %xmm3
	movdqa %xmm1, %xmm0
	pxor %xmm4, %xmm0
	pxor %xmm6, %xmm0
	paddd %xmm14, %xmm7
	movdqa %xmm14, 64(%rsp)
	paddd %xmm0, %xmm7
	paddd %xmm10, %xmm7
	paddd %xmm3, %xmm7
	movdqa %xmm6, %xmm0
	psrld $2, %xmm0
	pslld $30, %xmm6
	por %xmm0, %xmm6
	movdqa 192(%rsp), %xmm10
	pxor %xmm10, %xmm11
	pxor %xmm15, %xmm11
	pxor %xmm13, %xmm11
	movdqa %xmm11, %xmm0
	psrld $31, %xmm0
	paddd %xmm11, %xmm11
	por %xmm0, %xmm11
	movdqa 32(%rsp), %xmm12
	pxor %xmm12, %xmm2
	pxor 80(%rsp), %xmm2
	pxor %xmm9, %xmm2
	movdqa %xmm2, %xmm0
	psrld $31, %xmm0
	paddd %xmm2, %xmm2
	por %xmm0, %xmm2
	movdqa %xmm2, (%rsp)
	movdqa %xmm6, %xmm0
	pxor %xmm1, %xmm0
	movdqa %xmm8, %xmm3
	pand %xmm0, %xmm3
	pandn %xmm6, %xmm0
	por %xmm3, %xmm0
	movdqa %xmm8, %xmm3
	psrld $2, %xmm3
	pslld $30, %xmm8
	por %xmm3, %xmm8
	movdqa %xmm8, %xmm3
	pxor %xmm6, %xmm3
	movdqa %xmm7, %xmm5
	pand %xmm3, %xmm5
	pandn %xmm8, %xmm3
	por %xmm5, %xmm3
	movdqa %xmm7, %xmm5
	psrld $27, %xmm5
	movdqa %xmm7, %xmm13
	pslld $5, %xmm13
	por %xmm5, %xmm13
	movdqa %xmm11, 208(%rsp)
	paddd %xmm11, %xmm4
	paddd %xmm0, %xmm4
	movdqa .LCPI9_3(%rip), %xmm9
	paddd %xmm9, %xmm4
	paddd %xmm13, %xmm4
	movdqa %xmm4, %xmm0
	psrld $27, %xmm0
	movdqa %xmm4, %xmm5
	pslld $5, %xmm5
	por %xmm0, %xmm5
	paddd %xmm2, %xmm1
	paddd %xmm3, %xmm1
	paddd %xmm9, %xmm1
	paddd %xmm5, %xmm1
	movdqa %xmm7, %xmm0
	psrld $2, %xmm0
	pslld $30, %xmm7
	por %xmm0, %xmm7
	movdqa %xmm10, %xmm2
	movdqa 176(%rsp), %xmm10
	pxor %xmm10, %xmm2
	pxor 128(%rsp), %xmm2
	pxor %xmm14, %xmm2
	movdqa %xmm2, %xmm0
	psrld $31, %xmm0
	paddd %xmm2, %xmm2
	por %xmm0, %xmm2
	movdqa %xmm12, %xmm9
	movdqa 224(%rsp), %xmm14
	pxor %xmm14, %xmm9
	pxor 48(%rsp), %xmm9
	pxor %xmm11, %xmm9
	movdqa %xmm9, %xmm0
	psrld $31, %xmm0
	paddd %xmm9, %xmm9
	por %xmm0, %xmm9
	movdqa %xmm9, 32(%rsp)
	movdqa %xmm7, %xmm0
	pxor %xmm8, %xmm0
	movdqa %xmm4, %xmm3
	pand %xmm0, %xmm3
	pandn %xmm7, %xmm0
	por %xmm3, %xmm0
	movdqa %xmm4, %xmm3
	psrld $2, %xmm3
	pslld $30, %xmm4
	por %xmm3, %xmm4
	movdqa %xmm4, %xmm3
	pxor %xmm7, %xmm3
	movdqa %xmm1, %xmm5
	pand %xmm3, %xmm5
	pandn %xmm4, %xmm3
	por %xmm5, %xmm3
	movdqa %xmm1, %xmm5
	psrld $27, %xmm5
	movdqa %xmm1, %xmm13
	pslld $5, %xmm13
	por %xmm5, %xmm13
	paddd %xmm2, %xmm6
	movdqa %xmm2, %xmm12
	movdqa %xmm2, 192(%rsp)
	paddd %xmm0, %xmm6
	movdqa .LCPI9_3(%rip), %xmm2
	paddd %xmm2, %xmm6
	paddd %xmm13, %xmm6
	movdqa %xmm6, %xmm0
	psrld $27, %xmm0
	movdqa %xmm6, %xmm5
	pslld $5, %xmm5
	por %xmm0, %xmm5
	paddd %xmm9, %xmm8
	paddd %xmm3, %xmm8
	paddd %xmm2, %xmm8
	paddd %xmm5, %xmm8
	movdqa %xmm1, %xmm0
	psrld $2, %xmm0
	pslld $30, %xmm1
	por %xmm0, %xmm1
	movdqa %xmm10, %xmm3
	movdqa 160(%rsp), %xmm10
	pxor %xmm10, %xmm3
	pxor 144(%rsp), %xmm3
	pxor (%rsp), %xmm3
	movdqa %xmm3, %xmm0
	psrld $31, %xmm0
	paddd %xmm3, %xmm3
	por %xmm0, %xmm3
	movdqa %xmm3, %xmm2
	movdqa 96(%rsp), %xmm11
	pxor %xmm11, %xmm14
	pxor 16(%rsp), %xmm14
	pxor %xmm12, %xmm14
	movdqa %xmm14, %xmm0
	psrld $31, %xmm0
	paddd %xmm14, %xmm14
	por %xmm0, %xmm14
	movdqa %xmm14, %xmm12
	movdqa %xmm1, %xmm0
	pxor %xmm4, %xmm0
	movdqa %xmm6, %xmm3
	pand %xmm0, %xmm3
	pandn %xmm1, %xmm0
	por %xmm3, %xmm0
	movdqa %xmm6, %xmm3
	psrld $2, %xmm3
	pslld $30, %xmm6
	por %xmm3, %xmm6
	movdqa %xmm6, %xmm3
	pxor %xmm1, %xmm3
	movdqa %xmm8, %xmm5
	pand %xmm3, %xmm5
	pandn %xmm6, %xmm3
	por %xmm5, %xmm3
	movdqa %xmm8, %xmm5
	psrld $27, %xmm5
	movdqa %xmm8, %xmm13
	pslld $5, %xmm13
	por %xmm5, %xmm13
	paddd %xmm2, %xmm7
	movdqa %xmm2, %xmm9
	movdqa %xmm2, 176(%rsp)
	paddd %xmm0, %xmm7
	movdqa .LCPI9_3(%rip), %xmm14
	paddd %xmm14, %xmm7
	paddd %xmm13, %xmm7
	movdqa %xmm7, %xmm0
	psrld $27, %xmm0
	movdqa %xmm7, %xmm5
	pslld $5, %xmm5
	por %xmm0, %xmm5
	paddd %xmm12, %xmm4
	paddd %xmm3, %xmm4
	paddd %xmm14, %xmm4
	paddd %xmm5, %xmm4
	movdqa %xmm8, %xmm0
	psrld $2, %xmm0
	pslld $30, %xmm8
	por %xmm0, %xmm8
	movdqa %xmm10, %xmm2
	pxor %xmm15, %xmm2
	pxor 112(%rsp), %xmm2
	pxor 32(%rsp), %xmm2
	movdqa %xmm2, %xmm0
	psrld $31, %xmm0
	paddd %xmm2, %xmm2
	por %xmm0, %xmm2
	movdqa %xmm11, %xmm3
	movdqa 80(%rsp), %xmm11
	pxor %xmm11, %xmm3
	pxor 64(%rsp), %xmm3
	pxor %xmm9, %xmm3
	movdqa %xmm3, %xmm0
	psrld $31, %xmm0
	paddd %xmm3, %xmm3
	por %xmm0, %xmm3
	movdqa %xmm3, %xmm9
	movdqa %xmm3, 96(%rsp)
	movdqa %xmm8, %xmm0
	pxor %xmm6, %xmm0
	movdqa %xmm7, %xmm3
	pand %xmm0, %xmm3
	pandn %xmm8, %xmm0
	por %xmm3, %xmm0
	movdqa %xmm7, %xmm3
	psrld $2, %xmm3
	pslld $30, %xmm7
	por %xmm3, %xmm7
	movdqa %xmm7, %xmm3
	pxor %xmm8, %xmm3
	movdqa %xmm4, %xmm5
	pand %xmm3, %xmm5
	pandn %xmm7, %xmm3
	por %xmm5, %xmm3
	movdqa %xmm4, %xmm5
	psrld $27, %xmm5
	movdqa %xmm4, %xmm13
	pslld $5, %xmm13
	por %xmm5, %xmm13
	paddd %xmm2, %xmm1
	movdqa %xmm2, 160(%rsp)
	paddd %xmm0, %xmm1
	paddd %xmm14, %xmm1
	paddd %xmm13, %xmm1
	movdqa %xmm1, %xmm0
	psrld $27, %xmm0
	movdqa %xmm1, %xmm5
	pslld $5, %xmm5
	por %xmm0, %xmm5
	paddd %xmm9, %xmm6
	paddd %xmm3, %xmm6
	paddd %xmm14, %xmm6
	paddd %xmm5, %xmm6
	movdqa %xmm4, %xmm0
	psrld $2, %xmm0
	pslld $30, %xmm4
	por %xmm0, %xmm4
	movdqa 128(%rsp), %xmm10
	pxor %xmm10, %xmm15
	pxor 208(%rsp), %xmm15
	pxor %xmm12, %xmm15
	movdqa %xmm15, %xmm0
	psrld $31, %xmm0
	paddd %xmm15, %xmm15
	por %xmm0, %xmm15
	movdqa %xmm11, %xmm9
	movdqa 48(%rsp), %xmm14
	pxor %xmm14, %xmm9
	pxor (%rsp), %xmm9
	pxor %xmm2, %xmm9
	movdqa %xmm9, %xmm0
	psrld $31, %xmm0
	paddd %xmm9, %xmm9
	por %xmm0, %xmm9
	movdqa %xmm9, 80(%rsp)
	movdqa %xmm4, %xmm0
	pxor %xmm7, %xmm0
	movdqa %xmm1, %xmm3
	pand %xmm0, %xmm3
	pandn %xmm4, %xmm0
	por %xmm3, %xmm0
	movdqa %xmm1, %xmm3
	psrld $2, %xmm3
	pslld $30, %xmm1
	por %xmm3, %xmm1
	movdqa %xmm1, %xmm3
	pxor %xmm4, %xmm3
	movdqa %xmm6, %xmm5
	pand %xmm3, %xmm5
	pandn %xmm1, %xmm3
	por %xmm5, %xmm3
	movdqa %xmm6, %xmm5
	psrld $27, %xmm5
	movdqa %xmm6, %xmm13
	pslld $5, %xmm13
	por %xmm5, %xmm13
	paddd %xmm15, %xmm8
	paddd %xmm0, %xmm8
	movdqa .LCPI9_3(%rip), %xmm2
	paddd %xmm2, %xmm8
	paddd %xmm13, %xmm8
	movdqa %xmm8, %xmm0
	psrld $27, %xmm0
	movdqa %xmm8, %xmm5
	pslld $5, %xmm5
	por %xmm0, %xmm5
	paddd %xmm9, %xmm7
	paddd %xmm3, %xmm7
	paddd %xmm2, %xmm7
	paddd %xmm5, %xmm7
	movdqa %xmm6, %xmm0
	psrld $2, %xmm0
	pslld $30, %xmm6
	por %xmm0, %xmm6
	movdqa %xmm10, %xmm9
	movdqa 144(%rsp), %xmm2
	pxor %xmm2, %xmm9
	pxor 192(%rsp), %xmm9
	pxor 96(%rsp), %xmm9
	movdqa %xmm9, %xmm0
	psrld $31, %xmm0
	paddd %xmm9, %xmm9
	por %xmm0, %xmm9
	pxor 16(%rsp), %xmm14
	pxor 32(%rsp), %xmm14
	pxor %xmm15, %xmm14
	movdqa %xmm14, %xmm0
	psrld $31, %xmm0
	paddd %xmm14, %xmm14
	por %xmm0, %xmm14
	movdqa %xmm14, 48(%rsp)
	movdqa %xmm6, %xmm0
	pxor %xmm1, %xmm0
	movdqa %xmm8, %xmm3
	pand %xmm0, %xmm3
	pandn %xmm6, %xmm0
	por %xmm3, %xmm0
	movdqa %xmm8, %xmm3
	psrld $2, %xmm3
	pslld $30, %xmm8
	por %xmm3, %xmm8
	movdqa %xmm8, %xmm3
	pxor %xmm6, %xmm3
	movdqa %xmm7, %xmm5
	pand %xmm3, %xmm5
	pandn %xmm8, %xmm3
	por %xmm5, %xmm3
	movdqa %xmm7, %xmm5
	psrld $27, %xmm5
	movdqa %xmm7, %xmm13
	pslld $5, %xmm13
	por %xmm5, %xmm13
	paddd %xmm9, %xmm4
	movdqa %xmm9, 128(%rsp)
	paddd %xmm0, %xmm4
	movdqa .LCPI9_3(%rip), %xmm10
	paddd %xmm10, %xmm4
	paddd %xmm13, %xmm4
	movdqa %xmm4, %xmm0
	psrld $27, %xmm0
	movdqa %xmm4, %xmm5
	pslld $5, %xmm5
	por %xmm0, %xmm5
	paddd %xmm14, %xmm1
	paddd %xmm3, %xmm1
	paddd %xmm10, %xmm1
	paddd %xmm5, %xmm1
	movdqa %xmm7, %xmm0
	psrld $2, %xmm0
	pslld $30, %xmm7
	por %xmm0, %xmm7
	movdqa 112(%rsp), %xmm11
	pxor %xmm11, %xmm2
	pxor 176(%rsp), %xmm2
	pxor 80(%rsp), %xmm2
	movdqa %xmm2, %xmm0
	psrld $31, %xmm0
	paddd %xmm2, %xmm2
	por %xmm0, %xmm2
	movdqa 16(%rsp), %xmm3
	movdqa 64(%rsp), %xmm14
	pxor %xmm14, %xmm3
	pxor %xmm12, %xmm3
	pxor %xmm9, %xmm3
	movdqa %xmm3, %xmm0
	psrld $31, %xmm0
	paddd %xmm3, %xmm3
	por %xmm0, %xmm3
	movdqa %xmm3, %xmm9
	movdqa %xmm7, %xmm0
	pxor %xmm8, %xmm0
	movdqa %xmm4, %xmm3
	pand %xmm0, %xmm3
	pandn %xmm7, %xmm0
	por %xmm3, %xmm0
	movdqa %xmm4, %xmm3
	psrld $2, %xmm3
	pslld $30, %xmm4
	por %xmm3, %xmm4
	movdqa %xmm4, %xmm3
	pxor %xmm7, %xmm3
	movdqa %xmm1, %xmm5
	pand %xmm3, %xmm5
	pandn %xmm4, %xmm3
	por %xmm5, %xmm3
	movdqa %xmm1, %xmm5
	psrld $27, %xmm5
	movdqa %xmm1, %xmm13
	pslld $5, %xmm13
	por %xmm5, %xmm13
	paddd %xmm2, %xmm6
	movdqa %xmm2, 144(%rsp)
	paddd %xmm0, %xmm6
	paddd %xmm10, %xmm6
	paddd %xmm13, %xmm6
	movdqa %xmm6, %xmm0
	psrld $27, %xmm0
	movdqa %xmm6, %xmm5
	pslld $5, %xmm5
	por %xmm0, %xmm5
	paddd %xmm9, %xmm8
	movdqa %xmm9, 16(%rsp)
	paddd %xmm3, %xmm8
	paddd %xmm10, %xmm8
	paddd %xmm5, %xmm8
	movdqa %xmm1, %xmm0
	psrld $2, %xmm0
	pslld $30, %xmm1
	por %xmm0, %xmm1
	movdqa %xmm11, %xmm10
	movdqa 208(%rsp), %xmm11
	pxor %xmm11, %xmm10
	pxor 160(%rsp), %xmm10
	pxor 48(%rsp), %xmm10
	movdqa %xmm10, %xmm0
	psrld $31, %xmm0
	paddd %xmm10, %xmm10
	por %xmm0, %xmm10
	pxor (%rsp), %xmm14
	pxor 96(%rsp), %xmm14
	pxor %xmm2, %xmm14
	movdqa %xmm14, %xmm0
	psrld $31, %xmm0
	paddd %xmm14, %xmm14
	por %xmm0, %xmm14
	movdqa %xmm14, %xmm2
	movdqa %xmm14, 64(%rsp)
	movdqa %xmm1, %xmm0
	pxor %xmm4, %xmm0
	movdqa %xmm6, %xmm3
	pand %xmm0, %xmm3
	pandn %xmm1, %xmm0
	por %xmm3, %xmm0
	movdqa %xmm6, %xmm3
	psrld $2, %xmm3
	pslld $30, %xmm6
	por %xmm3, %xmm6
	movdqa %xmm6, %xmm3
	pxor %xmm1, %xmm3
	movdqa %xmm8, %xmm5
	pand %xmm3, %xmm5
	pandn %xmm6, %xmm3
	por %xmm5, %xmm3
	movdqa %xmm8, %xmm5
	psrld $27, %xmm5
	movdqa %xmm8, %xmm13
	pslld $5, %xmm13
	por %xmm5, %xmm13
	paddd %xmm10, %xmm7
	movdqa %xmm10, 112(%rsp)
	paddd %xmm0, %xmm7
	movdqa .LCPI9_3(%rip), %xmm14
	paddd %xmm14, %xmm7
	paddd %xmm13, %xmm7
	movdqa %xmm7, %xmm0
	psrld $27, %xmm0
	movdqa %xmm7, %xmm5
	pslld $5, %xmm5
	por %xmm0, %xmm5
	paddd %xmm2, %xmm4
	paddd %xmm3, %xmm4
	paddd %xmm14, %xmm4
	paddd %xmm5, %xmm4
	movdqa %xmm8, %xmm0
	psrld $2, %xmm0
	pslld $30, %xmm8
	por %xmm0, %xmm8
	movdqa 192(%rsp), %xmm14
	pxor %xmm14, %xmm11
	pxor %xmm15, %xmm11
	pxor %xmm9, %xmm11
	movdqa %xmm11, %xmm0
	psrld $31, %xmm0
	paddd %xmm11, %xmm11
	por %xmm0, %xmm11
	movdqa %xmm11, %xmm9
	movdqa (%rsp), %xmm11
	pxor 32(%rsp), %xmm11
	pxor 80(%rsp), %xmm11
	pxor %xmm10, %xmm11
	movdqa %xmm11, %xmm0
	psrld $31, %xmm0
	paddd %xmm11, %xmm11
	por %xmm0, %xmm11
	movdqa %xmm11, (%rsp)
	movdqa %xmm8, %xmm0
	pxor %xmm6, %xmm0
	movdqa %xmm7, %xmm3
	pand %xmm0, %xmm3
	pandn %xmm8, %xmm0
	por %xmm3, %xmm0
	movdqa %xmm7, %xmm3
	psrld $2, %xmm3
	pslld $30, %xmm7
	por %xmm3, %xmm7
	movdqa %xmm7, %xmm3
	pxor %xmm8, %xmm3
	movdqa %xmm4, %xmm5
	pand %xmm3, %xmm5
	pandn %xmm7, %xmm3
	por %xmm5, %xmm3
	movdqa %xmm4, %xmm5
	psrld $27, %xmm5
	movdqa %xmm4, %xmm13
	pslld $5, %xmm13
	por %xmm5, %xmm13
	movdqa %xmm9, 208(%rsp)
	paddd %xmm9, %xmm1
	paddd %xmm0, %xmm1
	movdqa .LCPI9_3(%rip), %xmm10
	paddd %xmm10, %xmm1
	paddd %xmm13, %xmm1
	movdqa %xmm1, %xmm0
	psrld $27, %xmm0
	movdqa %xmm1, %xmm5
	pslld $5, %xmm5
	por %xmm0, %xmm5
	paddd %xmm11, %xmm6
	paddd %xmm3, %xmm6
	paddd %xmm10, %xmm6
	paddd %xmm5, %xmm6
	movdqa %xmm4, %xmm0
	psrld $2, %xmm0
	pslld $30, %xmm4
	por %xmm0, %xmm4
	movdqa 176(%rsp), %xmm10
	pxor %xmm10, %xmm14
	pxor 128(%rsp), %xmm14
	pxor 64(%rsp), %xmm14
	movdqa %xmm14, %xmm0
	psrld $31, %xmm0
	paddd %xmm14, %xmm14
	por %xmm0, %xmm14
	movdqa 32(%rsp), %xmm3
	pxor %xmm12, %xmm3
	pxor 48(%rsp), %xmm3
	pxor %xmm9, %xmm3
	movdqa %xmm3, %xmm0
	psrld $31, %xmm0
	paddd %xmm3, %xmm3
	por %xmm0, %xmm3
	movdqa %xmm3, %xmm2
	movdqa %xmm4, %xmm0
	pxor %xmm7, %xmm0
	movdqa %xmm1, %xmm3
	pand %xmm0, %xmm3
	pandn %xmm4, %xmm0
	por %xmm3, %xmm0
	movdqa %xmm1, %xmm3
	psrld $2, %xmm3
	pslld $30, %xmm1
	por %xmm3, %xmm1
	movdqa %xmm1, %xmm3
	pxor %xmm4, %xmm3
	movdqa %xmm6, %xmm5
	pand %xmm3, %xmm5
	pandn %xmm1, %xmm3
	por %xmm5, %xmm3
	movdqa %xmm6, %xmm5
	psrld $27, %xmm5
	movdqa %xmm6, %xmm13
	pslld $5, %xmm13
	por %xmm5, %xmm13
	paddd %xmm14, %xmm8
	movdqa %xmm14, %xmm11
	movdqa %xmm14, 192(%rsp)
	paddd %xmm0, %xmm8
	movdqa .LCPI9_3(%rip), %xmm9
	paddd %xmm9, %xmm8
	paddd %xmm13, %xmm8
	movdqa %xmm8, %xmm0
	psrld $27, %xmm0
	movdqa %xmm8, %xmm5
	pslld $5, %xmm5
	por %xmm0, %xmm5
	paddd %xmm2, %xmm7
	movdqa %xmm2, %xmm14
	movdqa %xmm2, 32(%rsp)
	paddd %xmm3, %xmm7
	paddd %xmm9, %xmm7
	paddd %xmm5, %xmm7
	movdqa %xmm6, %xmm0
	psrld $2, %xmm0
	pslld $30, %xmm6
	por %xmm0, %xmm6
	movdqa %xmm10, %xmm13
	movdqa 160(%rsp), %xmm10
	pxor %xmm10, %xmm13
	pxor 144(%rsp), %xmm13
	pxor (%rsp), %xmm13
	movdqa %xmm13, %xmm0
	psrld $31, %xmm0
	paddd %xmm13, %xmm13
	por %xmm0, %xmm13
	movdqa 96(%rsp), %xmm9
	pxor %xmm9, %xmm12
	pxor 16(%rsp), %xmm12
	pxor %xmm11, %xmm12
	movdqa %xmm12, %xmm0
	psrld $31, %xmm0
	paddd %xmm12, %xmm12
	por %xmm0, %xmm12
	movdqa %xmm6, %xmm0
	pxor %xmm1, %xmm0
	pxor %xmm8, %xmm0
	movdqa %xmm8, %xmm3
	psrld $2, %xmm3
	pslld $30, %xmm8
	por %xmm3, %xmm8
	movdqa %xmm7, %xmm3
	psrld $27, %xmm3
	movdqa %xmm7, %xmm5
	pslld $5, %xmm5
	por %xmm3, %xmm5
	paddd %xmm13, %xmm4
	movdqa %xmm13, 176(%rsp)
	paddd %xmm0, %xmm4
	movdqa .LCPI9_4(%rip), %xmm2
	paddd %xmm2, %xmm4
	paddd %xmm5, %xmm4
	movdqa %xmm4, %xmm0
	psrld $27, %xmm0
	movdqa %xmm4, %xmm3
	pslld $5, %xmm3
	por %xmm0, %xmm3
	movdqa %xmm8, %xmm0
	pxor %xmm6, %xmm0
	pxor %xmm7, %xmm0
	paddd %xmm12, %xmm1
	paddd %xmm0, %xmm1
	paddd %xmm2, %xmm1
	paddd %xmm3, %xmm1
	movdqa %xmm7, %xmm0
	psrld $2, %xmm0
	pslld $30, %xmm7
	por %xmm0, %xmm7
	movdqa %xmm10, %xmm2
	pxor %xmm15, %xmm2
	pxor 112(%rsp), %xmm2
	pxor %xmm14, %xmm2
	movdqa %xmm2, %xmm0
	psrld $31, %xmm0
	paddd %xmm2, %xmm2
	por %xmm0, %xmm2
	movdqa 80(%rsp), %xmm11
	pxor %xmm11, %xmm9
	pxor 64(%rsp), %xmm9
	pxor %xmm13, %xmm9
	movdqa %xmm9, %xmm0
	psrld $31, %xmm0
	paddd %xmm9, %xmm9
	por %xmm0, %xmm9
	movdqa %xmm9, %xmm13
	movdqa %xmm7, %xmm0
	pxor %xmm8, %xmm0
	pxor %xmm4, %xmm0
	movdqa %xmm4, %xmm3
	psrld $2, %xmm3
	pslld $30, %xmm4
	por %xmm3, %xmm4
	movdqa %xmm1, %xmm3
	psrld $27, %xmm3
	movdqa %xmm1, %xmm5
	pslld $5, %xmm5
	por %xmm3, %xmm5
	paddd %xmm2, %xmm6
	movdqa %xmm2, %xmm10
	movdqa %xmm2, 160(%rsp)
	paddd %xmm0, %xmm6
	movdqa .LCPI9_4(%rip), %xmm14
	paddd %xmm14, %xmm6
	paddd %xmm5, %xmm6
	movdqa %xmm6, %xmm0
	psrld $27, %xmm0
	movdqa %xmm6, %xmm3
	pslld $5, %xmm3
	por %xmm0, %xmm3
	movdqa %xmm4, %xmm0
	pxor %xmm7, %xmm0
	pxor %xmm1, %xmm0
	paddd %xmm9, %xmm8
	movdqa %xmm9, 96(%rsp)
	paddd %xmm0, %xmm8
	paddd %xmm14, %xmm8
	paddd %xmm3, %xmm8
	movdqa %xmm1, %xmm0
	psrld $2, %xmm0
	pslld $30, %xmm1
	por %xmm0, %xmm1
	movdqa 128(%rsp), %xmm2
	pxor %xmm2, %xmm15
	pxor 208(%rsp), %xmm15
	pxor %xmm12, %xmm15
	movdqa %xmm15, %xmm0
	psrld $31, %xmm0
	paddd %xmm15, %xmm15
	por %xmm0, %xmm15
	movdqa %xmm11, %xmm9
	movdqa 48(%rsp), %xmm11
	pxor %xmm11, %xmm9
	pxor (%rsp), %xmm9
	pxor %xmm10, %xmm9
	movdqa %xmm9, %xmm0
	psrld $31, %xmm0
	paddd %xmm9, %xmm9
	por %xmm0, %xmm9
	movdqa %xmm9, 80(%rsp)
	movdqa %xmm1, %xmm0
	pxor %xmm4, %xmm0
	pxor %xmm6, %xmm0
	movdqa %xmm6, %xmm3
	psrld $2, %xmm3
	pslld $30, %xmm6
	por %xmm3, %xmm6
	movdqa %xmm8, %xmm3
	psrld $27, %xmm3
	movdqa %xmm8, %xmm5
	pslld $5, %xmm5
	por %xmm3, %xmm5
	paddd %xmm15, %xmm7
	paddd %xmm0, %xmm7
	paddd %xmm14, %xmm7
	paddd %xmm5, %xmm7
	movdqa %xmm7, %xmm0
	psrld $27, %xmm0
	movdqa %xmm7, %xmm3
	pslld $5, %xmm3
	por %xmm0, %xmm3
	movdqa %xmm6, %xmm0
	pxor %xmm1, %xmm0
	pxor %xmm8, %xmm0
	paddd %xmm9, %xmm4
	paddd %xmm0, %xmm4
	paddd %xmm14, %xmm4
	paddd %xmm3, %xmm4
	movdqa %xmm8, %xmm0
	psrld $2, %xmm0
	pslld $30, %xmm8
	por %xmm0, %xmm8
	movdqa %xmm2, %xmm9
	movdqa 144(%rsp), %xmm10
	pxor %xmm10, %xmm9
	pxor 192(%rsp), %xmm9
	pxor %xmm13, %xmm9
	movdqa %xmm9, %xmm0
	psrld $31, %xmm0
	paddd %xmm9, %xmm9
	por %xmm0, %xmm9
	movdqa 16(%rsp), %xmm13
	pxor %xmm13, %xmm11
	pxor 32(%rsp), %xmm11
	pxor %xmm15, %xmm11
	movdqa %xmm11, %xmm0
	psrld $31, %xmm0
	paddd %xmm11, %xmm11
	por %xmm0, %xmm11
	movdqa %xmm11, 48(%rsp)
	movdqa %xmm8, %xmm0
	pxor %xmm6, %xmm0
	pxor %xmm7, %xmm0
	movdqa %xmm7, %xmm3
	psrld $2, %xmm3
	pslld $30, %xmm7
	por %xmm3, %xmm7
	movdqa %xmm4, %xmm3
	psrld $27, %xmm3
	movdqa %xmm4, %xmm5
	pslld $5, %xmm5
	por %xmm3, %xmm5
	paddd %xmm9, %xmm1
	movdqa %xmm9, 128(%rsp)
	paddd %xmm0, %xmm1
	paddd %xmm14, %xmm1
	paddd %xmm5, %xmm1
	movdqa %xmm1, %xmm0
	psrld $27, %xmm0
	movdqa %xmm1, %xmm3
	pslld $5, %xmm3
	por %xmm0, %xmm3
	movdqa %xmm7, %xmm0
	pxor %xmm8, %xmm0
	pxor %xmm4, %xmm0
	paddd %xmm11, %xmm6
	paddd %xmm0, %xmm6
	paddd %xmm14, %xmm6
	paddd %xmm3, %xmm6
	movdqa %xmm4, %xmm0
	psrld $2, %xmm0
	pslld $30, %xmm4
	por %xmm0, %xmm4
	movdqa 112(%rsp), %xmm11
	pxor %xmm11, %xmm10
	pxor 176(%rsp), %xmm10
	pxor 80(%rsp), %xmm10
	movdqa %xmm10, %xmm0
	psrld $31, %xmm0
	paddd %xmm10, %xmm10
	por %xmm0, %xmm10
	movdqa 64(%rsp), %xmm14
	pxor %xmm14, %xmm13
	pxor %xmm12, %xmm13
	pxor %xmm9, %xmm13
	movdqa %xmm13, %xmm0
	psrld $31, %xmm0
	paddd %xmm13, %xmm13
	por %xmm0, %xmm13
	movdqa %xmm13, 16(%rsp)
	movdqa %xmm4, %xmm0
	pxor %xmm7, %xmm0
	pxor %xmm1, %xmm0
	movdqa %xmm1, %xmm3
	psrld $2, %xmm3
	pslld $30, %xmm1
	por %xmm3, %xmm1
	movdqa %xmm6, %xmm3
	psrld $27, %xmm3
	movdqa %xmm6, %xmm5
	pslld $5, %xmm5
	por %xmm3, %xmm5
	paddd %xmm10, %xmm8
	movdqa %xmm10, 144(%rsp)
	paddd %xmm0, %xmm8
	movdqa .LCPI9_4(%rip), %xmm2
	paddd %xmm2, %xmm8
	paddd %xmm5, %xmm8
	movdqa %xmm8, %xmm0
	psrld $27, %xmm0
	movdqa %xmm8, %xmm3
	pslld $5, %xmm3
	por %xmm0, %xmm3
	movdqa %xmm1, %xmm0
	pxor %xmm4, %xmm0
	pxor %xmm6, %xmm0
	paddd %xmm13, %xmm7
	paddd %xmm0, %xmm7
	paddd %xmm2, %xmm7
	paddd %xmm3, %xmm7
	movdqa %xmm6, %xmm0
	psrld $2, %xmm0
	pslld $30, %xmm6
	por %xmm0, %xmm6
	movdqa 208(%rsp), %xmm2
	pxor %xmm2, %xmm11
	pxor 160(%rsp), %xmm11
	pxor 48(%rsp), %xmm11
	movdqa %xmm11, %xmm0
	psrld $31, %xmm0
	paddd %xmm11, %xmm11
	por %xmm0, %xmm11
	movdqa (%rsp), %xmm9
	pxor %xmm9, %xmm14
	pxor 96(%rsp), %xmm14
	pxor %xmm10, %xmm14
	movdqa %xmm14, %xmm0
	psrld $31, %xmm0
	paddd %xmm14, %xmm14
	por %xmm0, %xmm14
	movdqa %xmm6, %xmm0
	pxor %xmm1, %xmm0
	pxor %xmm8, %xmm0
	movdqa %xmm8, %xmm3
	psrld $2, %xmm3
	pslld $30, %xmm8
	por %xmm3, %xmm8
	movdqa %xmm7, %xmm3
	psrld $27, %xmm3
	movdqa %xmm7, %xmm5
	pslld $5, %xmm5
	por %xmm3, %xmm5
	paddd %xmm11, %xmm4
	movdqa %xmm11, %xmm13
	movdqa %xmm11, 112(%rsp)
	paddd %xmm0, %xmm4
	movdqa .LCPI9_4(%rip), %xmm11
	paddd %xmm11, %xmm4
	paddd %xmm5, %xmm4
	movdqa %xmm4, %xmm0
	psrld $27, %xmm0
	movdqa %xmm4, %xmm3
	pslld $5, %xmm3
	por %xmm0, %xmm3
	movdqa %xmm8, %xmm0
	pxor %xmm6, %xmm0
	pxor %xmm7, %xmm0
	paddd %xmm14, %xmm1
	movdqa %xmm14, %xmm10
	movdqa %xmm14, 64(%rsp)
	paddd %xmm0, %xmm1
	paddd %xmm11, %xmm1
	paddd %xmm3, %xmm1
	movdqa %xmm7, %xmm0
	psrld $2, %xmm0
	pslld $30, %xmm7
	por %xmm0, %xmm7
	movdqa %xmm2, %xmm3
	movdqa 192(%rsp), %xmm2
	pxor %xmm2, %xmm3
	pxor %xmm15, %xmm3
	pxor 16(%rsp), %xmm3
	movdqa %xmm3, %xmm0
	psrld $31, %xmm0
	paddd %xmm3, %xmm3
	por %xmm0, %xmm3
	movdqa %xmm3, %xmm14
	movdqa %xmm9, %xmm3
	movdqa 32(%rsp), %xmm9
	pxor %xmm9, %xmm3
	pxor 80(%rsp), %xmm3
	pxor %xmm13, %xmm3
	movdqa %xmm3, %xmm0
	psrld $31, %xmm0
	paddd %xmm3, %xmm3
	por %xmm0, %xmm3
	movdqa %xmm3, %xmm13
	movdqa %xmm3, (%rsp)
	movdqa %xmm7, %xmm0
	pxor %xmm8, %xmm0
	pxor %xmm4, %xmm0
	movdqa %xmm4, %xmm3
	psrld $2, %xmm3
	pslld $30, %xmm4
	por %xmm3, %xmm4
	movdqa %xmm1, %xmm3
	psrld $27, %xmm3
	movdqa %xmm1, %xmm5
	pslld $5, %xmm5
	por %xmm3, %xmm5
	paddd %xmm14, %xmm6
	paddd %xmm0, %xmm6
	paddd %xmm11, %xmm6
	paddd %xmm5, %xmm6
	movdqa %xmm6, %xmm0
	psrld $27, %xmm0
	movdqa %xmm6, %xmm3
	pslld $5, %xmm3
	por %xmm0, %xmm3
	movdqa %xmm4, %xmm0
	pxor %xmm7, %xmm0
	pxor %xmm1, %xmm0
	paddd %xmm13, %xmm8
	paddd %xmm0, %xmm8
	paddd %xmm11, %xmm8
	paddd %xmm3, %xmm8
	movdqa %xmm1, %xmm0
	psrld $2, %xmm0
	pslld $30, %xmm1
	por %xmm0, %xmm1
	movdqa 176(%rsp), %xmm13
	pxor %xmm13, %xmm2
	pxor 128(%rsp), %xmm2
	pxor %xmm10, %xmm2
	movdqa %xmm2, %xmm0
	psrld $31, %xmm0
	paddd %xmm2, %xmm2
	por %xmm0, %xmm2
	movdqa %xmm2, %xmm11
	movdqa %xmm9, %xmm3
	pxor %xmm12, %xmm3
	pxor 48(%rsp), %xmm3
	pxor %xmm14, %xmm3
	movdqa %xmm3, %xmm0
	psrld $31, %xmm0
	paddd %xmm3, %xmm3
	por %xmm0, %xmm3
	movdqa %xmm3, %xmm10
	movdqa %xmm1, %xmm0
	pxor %xmm4, %xmm0
	pxor %xmm6, %xmm0
	movdqa %xmm6, %xmm3
	psrld $2, %xmm3
	pslld $30, %xmm6
	por %xmm3, %xmm6
	movdqa %xmm8, %xmm3
	psrld $27, %xmm3
	movdqa %xmm8, %xmm5
	pslld $5, %xmm5
	por %xmm3, %xmm5
	paddd %xmm2, %xmm7
	paddd %xmm0, %xmm7
	movdqa .LCPI9_4(%rip), %xmm14
	paddd %xmm14, %xmm7
	paddd %xmm5, %xmm7
	movdqa %xmm7, %xmm0
	psrld $27, %xmm0
	movdqa %xmm7, %xmm3
	pslld $5, %xmm3
	por %xmm0, %xmm3
	movdqa %xmm6, %xmm0
	pxor %xmm1, %xmm0
	pxor %xmm8, %xmm0
	paddd %xmm10, %xmm4
	paddd %xmm0, %xmm4
	paddd %xmm14, %xmm4
	paddd %xmm3, %xmm4
	movdqa %xmm8, %xmm0
	psrld $2, %xmm0
	pslld $30, %xmm8
	por %xmm0, %xmm8
	movdqa 160(%rsp), %xmm2
	movdqa %xmm13, %xmm3
	pxor %xmm2, %xmm3
	pxor 144(%rsp), %xmm3
	pxor (%rsp), %xmm3
	movdqa %xmm3, %xmm0
	psrld $31, %xmm0
	paddd %xmm3, %xmm3
	por %xmm0, %xmm3
	movdqa %xmm3, %xmm13
	movdqa 96(%rsp), %xmm9
	pxor %xmm9, %xmm12
	pxor 16(%rsp), %xmm12
	pxor %xmm11, %xmm12
	movdqa %xmm12, %xmm0
	psrld $31, %xmm0
	paddd %xmm12, %xmm12
	por %xmm0, %xmm12
	movdqa %xmm8, %xmm0
	pxor %xmm6, %xmm0
	pxor %xmm7, %xmm0
	movdqa %xmm7, %xmm3
	psrld $2, %xmm3
	pslld $30, %xmm7
	por %xmm3, %xmm7
	movdqa %xmm4, %xmm3
	psrld $27, %xmm3
	movdqa %xmm4, %xmm5
	pslld $5, %xmm5
	por %xmm3, %xmm5
	paddd %xmm13, %xmm1
	paddd %xmm0, %xmm1
	paddd %xmm14, %xmm1
	paddd %xmm5, %xmm1
	movdqa %xmm1, %xmm0
	psrld $27, %xmm0
	movdqa %xmm1, %xmm3
	pslld $5, %xmm3
	por %xmm0, %xmm3
	paddd %xmm6, %xmm12
	movdqa %xmm7, %xmm0
	pxor %xmm8, %xmm0
	pxor %xmm4, %xmm0
	paddd %xmm0, %xmm12
	paddd %xmm14, %xmm12
	paddd %xmm3, %xmm12
	movdqa %xmm4, %xmm0
	psrld $2, %xmm0
	pslld $30, %xmm4
	por %xmm0, %xmm4
	pxor %xmm2, %xmm15
	pxor 112(%rsp), %xmm15
	pxor %xmm10, %xmm15
	movdqa %xmm15, %xmm0
	psrld $31, %xmm0
	paddd %xmm15, %xmm15
	por %xmm0, %xmm15
	movdqa 80(%rsp), %xmm3
	pxor %xmm9, %xmm3
	pxor 64(%rsp), %xmm3
	pxor %xmm13, %xmm3
	movdqa %xmm3, %xmm0
	psrld $31, %xmm0
	paddd %xmm3, %xmm3
	por %xmm0, %xmm3
	movdqa %xmm3, %xmm9
	movdqa %xmm4, %xmm0
	pxor %xmm7, %xmm0
	pxor %xmm1, %xmm0
	movdqa %xmm1, %xmm3
	psrld $2, %xmm3
	pslld $30, %xmm1
	por %xmm3, %xmm1
	movdqa %xmm12, %xmm3
	psrld $27, %xmm3
	movdqa %xmm12, %xmm5
	pslld $5, %xmm5
	por %xmm3, %xmm5
	paddd %xmm8, %xmm15
	movdqa %xmm1, %xmm3
	pxor %xmm4, %xmm3
	pxor %xmm12, %xmm3
	paddd %xmm0, %xmm15
	paddd %xmm14, %xmm15
	paddd %xmm5, %xmm15
	movdqa %xmm15, %xmm0
	psrld $27, %xmm0
	movdqa %xmm15, %xmm5
	pslld $5, %xmm5
	por %xmm0, %xmm5
	movdqa %xmm12, %xmm0
	psrld $2, %xmm0
	pslld $30, %xmm12
	por %xmm0, %xmm12
	paddd 256(%rsp), %xmm9
	paddd %xmm7, %xmm9
	paddd %xmm3, %xmm9
	paddd %xmm14, %xmm9
	paddd %xmm5, %xmm9
	paddd 288(%rsp), %xmm15
	paddd 240(%rsp), %xmm12
	paddd 272(%rsp), %xmm1
	paddd 304(%rsp), %xmm4
	movdqu %xmm9, (%rcx)
	movdqu %xmm15, 16(%rcx)
	movdqu %xmm12, 32(%rcx)
	movdqu %xmm1, 48(%rcx)
	movdqu %xmm4, 64(%rcx)
	movq (%r8), %rax
	movq 8(%r8), %rcx
	addq $4, %rax
	adcq $0, %rcx
	movq $-1, %rdx
	cmovbq %rdx, %rcx
	cmovbq %rdx, %rax
	movq %rax, (%r8)
	movq %rcx, 8(%r8)
	movaps 320(%rsp), %xmm6
	movaps 336(%rsp), %xmm7
	movaps 352(%rsp), %xmm8
	movaps 368(%rsp), %xmm9
	movaps 384(%rsp), %xmm10
	movaps 400(%rsp), %xmm11
	movaps 416(%rsp), %xmm12
	movaps 432(%rsp), %xmm13
	movaps 448(%rsp), %xmm14
	movaps 464(%rsp), %xmm15
	addq $488, %rsp
	retq
	.seh_endproc
	.section .rdata,"dr"
	.p2align 4, 0x0
.LCPI10_0:
	.byte 3
	.byte 2
	.byte 1
	.byte 0
	.byte 7
	.byte 6
	.byte 5
	.byte 4
	.byte 11
	.byte 10
	.byte 9
	.byte 8
	.byte 15
	.byte 14
	.byte 13
	.byte 12
.LCPI10_1:
	.long 1116352408
	.long 1116352408
	.long 1116352408
	.long 1116352408
.LCPI10_2:
	.long 1899447441
	.long 1899447441
	.long 1899447441
	.long 1899447441
.LCPI10_3:
	.long 3049323471
	.long 3049323471
	.long 3049323471
	.long 3049323471
.LCPI10_4:
	.long 3921009573
	.long 3921009573
	.long 3921009573
	.long 3921009573
.LCPI10_5:
	.long 961987163
	.long 961987163
	.long 961987163
	.long 961987163
.LCPI10_6:
	.long 1508970993
	.long 1508970993
	.long 1508970993
	.long 1508970993
.LCPI10_7:
	.long 2453635748
	.long 2453635748
	.long 2453635748
	.long 2453635748
.LCPI10_8:
	.long 2870763221
	.long 2870763221
	.long 2870763221
	.long 2870763221
.LCPI10_9:
	.long 3624381080
	.long 3624381080
	.long 3624381080
	.long 3624381080
.LCPI10_10:
	.long 310598401
	.long 310598401
	.long 310598401
	.long 310598401
.LCPI10_11:
	.long 607225278
	.long 607225278
	.long 607225278
	.long 607225278
.LCPI10_12:
	.long 1426881987
	.long 1426881987
	.long 1426881987
	.long 1426881987
.LCPI10_13:
	.long 1925078388
	.long 1925078388
	.long 1925078388
	.long 1925078388
.LCPI10_14:
	.long 2162078206
	.long 2162078206
	.long 2162078206
	.long 2162078206
.LCPI10_15:
	.long 2614888103
	.long 2614888103
	.long 2614888103
	.long 2614888103
.LCPI10_16:
	.long 3248222580
	.long 3248222580
	.long 3248222580
	.long 3248222580
	.text
	.p2align 4
ring.digest.lanes.algorithms.InVectorSha256RunBlocks64.run_blocks.39d837fb76adf98f:
.seh_proc ring.digest.lanes.algorithms.InVectorSha256RunBlocks64.run_blocks.39d837fb76adf98f
	subq $776, %rsp
	.seh_stackalloc 776
	movaps %xmm15, 752(%rsp)
	.seh_savexmm %xmm15, 752
	movaps %xmm14, 736(%rsp)
	.seh_savexmm %xmm14, 736
	movaps %xmm13, 720(%rsp)
	.seh_savexmm %xmm13, 720
	movaps %xmm12, 704(%rsp)
	.seh_savexmm %xmm12, 704
	movaps %xmm11, 688(%rsp)
	.seh_savexmm %xmm11, 688
	movaps %xmm10, 672(%rsp)
	.seh_savexmm %xmm10, 672
	movaps %xmm9, 656(%rsp)
	.seh_savexmm %xmm9, 656
	movaps %xmm8, 640(%rsp)
	.seh_savexmm %xmm8, 640
	movaps %xmm7, 624(%rsp)
	.seh_savexmm %xmm7, 624
	movaps %xmm6, 608(%rsp)
	.seh_savexmm %xmm6, 608
	.seh_endprologue
	movd (%rdx), %xmm5
	pinsrd $1, 64(%rdx), %xmm5
	pinsrd $2, 128(%rdx), %xmm5
	pinsrd $3, 192(%rdx), %xmm5
	movdqa .LCPI10_0(%rip), %xmm0
	movd 4(%rdx), %xmm6
	pinsrd $1, 68(%rdx), %xmm6
	pinsrd $2, 132(%rdx), %xmm6
	pinsrd $3, 196(%rdx), %xmm6
	pshufb %xmm0, %xmm5
	movd 8(%rdx), %xmm9
	pinsrd $1, 72(%rdx), %xmm9
	pinsrd $2, 136(%rdx), %xmm9
	pinsrd $3, 200(%rdx), %xmm9
	pshufb %xmm0, %xmm6
	movd 12(%rdx), %xmm13
	pinsrd $1, 76(%rdx), %xmm13
	pinsrd $2, 140(%rdx), %xmm13
	pinsrd $3, 204(%rdx), %xmm13
	pshufb %xmm0, %xmm9
	movd 16(%rdx), %xmm1
	pinsrd $1, 80(%rdx), %xmm1
	pinsrd $2, 144(%rdx), %xmm1
	pinsrd $3, 208(%rdx), %xmm1
	pshufb %xmm0, %xmm13
	movd 20(%rdx), %xmm14
	pinsrd $1, 84(%rdx), %xmm14
	pinsrd $2, 148(%rdx), %xmm14
	pinsrd $3, 212(%rdx), %xmm14
	pshufb %xmm0, %xmm1
	movdqa %xmm1, 80(%rsp)
	movd 24(%rdx), %xmm1
	pinsrd $1, 88(%rdx), %xmm1
	pinsrd $2, 152(%rdx), %xmm1
	pinsrd $3, 216(%rdx), %xmm1
	pshufb %xmm0, %xmm14
	movd 28(%rdx), %xmm2
	pinsrd $1, 92(%rdx), %xmm2
	pinsrd $2, 156(%rdx), %xmm2
	pinsrd $3, 220(%rdx), %xmm2
	pshufb %xmm0, %xmm1
	movdqa %xmm1, 176(%rsp)
	movd 32(%rdx), %xmm1
	pinsrd $1, 96(%rdx), %xmm1
	pinsrd $2, 160(%rdx), %xmm1
	pinsrd $3, 224(%rdx), %xmm1
	pshufb %xmm0, %xmm2
	movdqa %xmm2, 128(%rsp)
	movd 36(%rdx), %xmm2
	pinsrd $1, 100(%rdx), %xmm2
	pinsrd $2, 164(%rdx), %xmm2
	pinsrd $3, 228(%rdx), %xmm2
	pshufb %xmm0, %xmm1
	movdqa %xmm1, 112(%rsp)
	movd 40(%rdx), %xmm1
	pinsrd $1, 104(%rdx), %xmm1
	pinsrd $2, 168(%rdx), %xmm1
	pinsrd $3, 232(%rdx), %xmm1
	pshufb %xmm0, %xmm2
	movdqa %xmm2, 96(%rsp)
	movd 44(%rdx), %xmm2
	pinsrd $1, 108(%rdx), %xmm2
	pinsrd $2, 172(%rdx), %xmm2
	pinsrd $3, 236(%rdx), %xmm2
	pshufb %xmm0, %xmm1
	movdqa %xmm1, 192(%rsp)
	movd 48(%rdx), %xmm1
	pinsrd $1, 112(%rdx), %xmm1
	pinsrd $2, 176(%rdx), %xmm1
	pinsrd $3, 240(%rdx), %xmm1
	pshufb %xmm0, %xmm2
	movdqa %xmm2, 48(%rsp)
	movd 52(%rdx), %xmm2
	pinsrd $1, 116(%rdx), %xmm2
	pinsrd $2, 180(%rdx), %xmm2
	pinsrd $3, 244(%rdx), %xmm2
	pshufb %xmm0, %xmm1
	movdqa %xmm1, (%rsp)
	movd 56(%rdx), %xmm1
	pinsrd $1, 120(%rdx), %xmm1
	pinsrd $2, 184(%rdx), %xmm1
	pinsrd $3, 248(%rdx), %xmm1
	pshufb %xmm0, %xmm2
	movdqa %xmm2, 32(%rsp)
	movd 60(%rdx), %xmm2
	pinsrd $1, 124(%rdx), %xmm2
	pinsrd $2, 188(%rdx), %xmm2
	pinsrd $3, 252(%rdx), %xmm2
	pshufb %xmm0, %xmm1
	movdqa %xmm1, 16(%rsp)
	pshufb %xmm0, %xmm2
	movdqa %xmm2, 64(%rsp)
	movdqu 64(%rcx), %xmm15
	movdqa %xmm15, %xmm0
	psrld $14, %xmm0
	movdqa %xmm15, %xmm1
	pslld $18, %xmm1
	por %xmm0, %xmm1
	pxor %xmm15, %xmm1
	movdqa %xmm1, %xmm0
	psrld $5, %xmm0
	pslld $27, %xmm1
	por %xmm0, %xmm1
	pxor %xmm15, %xmm1
	movdqa %xmm1, %xmm0
	psrld $6, %xmm0
	pslld $26, %xmm1
	por %xmm0, %xmm1
	movdqu 96(%rcx), %xmm8
	movdqa %xmm15, %xmm0
	pandn %xmm8, %xmm0
	movdqu 80(%rcx), %xmm10
	movdqa %xmm10, %xmm2
	pand %xmm15, %xmm2
	por %xmm0, %xmm2
	movdqu 112(%rcx), %xmm0
	movdqa %xmm5, 160(%rsp)
	movdqa %xmm0, 384(%rsp)
	paddd %xmm0, %xmm5
	paddd %xmm1, %xmm5
	paddd %xmm2, %xmm5
	movdqu (%rcx), %xmm11
	movdqa %xmm11, %xmm0
	psrld $9, %xmm0
	movdqa %xmm11, %xmm2
	pslld $23, %xmm2
	por %xmm0, %xmm2
	pxor %xmm11, %xmm2
	movdqa %xmm2, %xmm0
	psrld $11, %xmm0
	pslld $21, %xmm2
	por %xmm0, %xmm2
	pxor %xmm11, %xmm2
	movdqa %xmm2, %xmm0
	psrld $2, %xmm0
	pslld $30, %xmm2
	por %xmm0, %xmm2
	movdqu 16(%rcx), %xmm12
	movdqa %xmm12, %xmm3
	pxor %xmm11, %xmm3
	movdqa %xmm3, %xmm0
	pandn %xmm12, %xmm0
	movdqu 32(%rcx), %xmm7
	movdqa %xmm7, %xmm1
	pand %xmm3, %xmm1
	por %xmm0, %xmm1
	paddd %xmm2, %xmm1
	paddd .LCPI10_1(%rip), %xmm5
	paddd %xmm5, %xmm1
	movdqu 48(%rcx), %xmm0
	movdqa %xmm0, 320(%rsp)
	paddd %xmm0, %xmm5
	movdqa %xmm5, %xmm0
	psrld $14, %xmm0
	movdqa %xmm5, %xmm2
	pslld $18, %xmm2
	por %xmm0, %xmm2
	pxor %xmm5, %xmm2
	movdqa %xmm2, %xmm0
	psrld $5, %xmm0
	pslld $27, %xmm2
	por %xmm0, %xmm2
	pxor %xmm5, %xmm2
	movdqa %xmm2, %xmm0
	psrld $6, %xmm0
	pslld $26, %xmm2
	por %xmm0, %xmm2
	movdqa %xmm5, %xmm0
	pandn %xmm10, %xmm0
	movdqa %xmm15, %xmm4
	pand %xmm5, %xmm4
	por %xmm0, %xmm4
	movdqa %xmm6, 256(%rsp)
	movdqa %xmm8, 416(%rsp)
	paddd %xmm8, %xmm6
	paddd %xmm4, %xmm6
	paddd %xmm2, %xmm6
	movdqa %xmm1, %xmm0
	psrld $9, %xmm0
	movdqa %xmm1, %xmm4
	pslld $23, %xmm4
	por %xmm0, %xmm4
	pxor %xmm1, %xmm4
	movdqa %xmm4, %xmm0
	psrld $11, %xmm0
	pslld $21, %xmm4
	por %xmm0, %xmm4
	pxor %xmm1, %xmm4
	movdqa %xmm4, %xmm0
	psrld $2, %xmm0
	pslld $30, %xmm4
	por %xmm0, %xmm4
	movdqa %xmm1, %xmm2
	pxor %xmm11, %xmm2
	pand %xmm2, %xmm3
	pxor %xmm11, %xmm3
	paddd %xmm4, %xmm3
	paddd .LCPI10_2(%rip), %xmm6
	paddd %xmm6, %xmm3
	movdqa %xmm7, 336(%rsp)
	paddd %xmm7, %xmm6
	movdqa %xmm6, %xmm0
	psrld $14, %xmm0
	movdqa %xmm6, %xmm4
	pslld $18, %xmm4
	por %xmm0, %xmm4
	pxor %xmm6, %xmm4
	movdqa %xmm4, %xmm0
	psrld $5, %xmm0
	pslld $27, %xmm4
	por %xmm0, %xmm4
	pxor %xmm6, %xmm4
	movdqa %xmm4, %xmm0
	psrld $6, %xmm0
	pslld $26, %xmm4
	por %xmm0, %xmm4
	movdqa %xmm6, %xmm0
	pandn %xmm15, %xmm0
	movdqa %xmm5, %xmm8
	pand %xmm6, %xmm8
	por %xmm0, %xmm8
	movdqa %xmm9, 144(%rsp)
	movdqa %xmm9, %xmm7
	movdqa %xmm10, 400(%rsp)
	paddd %xmm10, %xmm7
	paddd %xmm8, %xmm7
	paddd %xmm4, %xmm7
	movdqa %xmm3, %xmm0
	psrld $9, %xmm0
	movdqa %xmm3, %xmm8
	pslld $23, %xmm8
	por %xmm0, %xmm8
	pxor %xmm3, %xmm8
	movdqa %xmm8, %xmm0
	psrld $11, %xmm0
	pslld $21, %xmm8
	por %xmm0, %xmm8
	pxor %xmm3, %xmm8
	movdqa %xmm8, %xmm0
	psrld $2, %xmm0
	pslld $30, %xmm8
	por %xmm0, %xmm8
	movdqa %xmm3, %xmm4
	pxor %xmm1, %xmm4
	pand %xmm4, %xmm2
	pxor %xmm1, %xmm2
	paddd %xmm8, %xmm2
	paddd .LCPI10_3(%rip), %xmm7
	paddd %xmm7, %xmm2
	movdqa %xmm12, 352(%rsp)
	paddd %xmm12, %xmm7
	movdqa %xmm7, %xmm0
	psrld $14, %xmm0
	movdqa %xmm7, %xmm9
	pslld $18, %xmm9
	por %xmm0, %xmm9
	pxor %xmm7, %xmm9
	movdqa %xmm9, %xmm0
	psrld $5, %xmm0
	pslld $27, %xmm9
	por %xmm0, %xmm9
	pxor %xmm7, %xmm9
	movdqa %xmm9, %xmm0
	psrld $6, %xmm0
	pslld $26, %xmm9
	por %xmm0, %xmm9
	movdqa %xmm7, %xmm0
	pandn %xmm5, %xmm0
	movdqa %xmm6, %xmm10
	pand %xmm7, %xmm10
	por %xmm0, %xmm10
	movdqa %xmm13, 240(%rsp)
	movdqa %xmm15, 432(%rsp)
	paddd %xmm15, %xmm13
	paddd %xmm10, %xmm13
	paddd %xmm9, %xmm13
	movdqa %xmm2, %xmm0
	psrld $9, %xmm0
	movdqa %xmm2, %xmm9
	pslld $23, %xmm9
	por %xmm0, %xmm9
	pxor %xmm2, %xmm9
	movdqa %xmm9, %xmm0
	psrld $11, %xmm0
	pslld $21, %xmm9
	por %xmm0, %xmm9
	pxor %xmm2, %xmm9
	movdqa %xmm9, %xmm0
	psrld $2, %xmm0
	pslld $30, %xmm9
	por %xmm0, %xmm9
	movdqa %xmm2, %xmm0
	pxor %xmm3, %xmm0
	pand %xmm0, %xmm4
	pxor %xmm3, %xmm4
	paddd %xmm9, %xmm4
	paddd .LCPI10_4(%rip), %xmm13
	paddd %xmm13, %xmm4
	movdqa %xmm11, 368(%rsp)
	paddd %xmm11, %xmm13
	movdqa %xmm13, %xmm9
	psrld $14, %xmm9
	movdqa %xmm13, %xmm11
	pslld $18, %xmm11
	por %xmm9, %xmm11
	pxor %xmm13, %xmm11
	movdqa %xmm11, %xmm9
	psrld $5, %xmm9
	pslld $27, %xmm11
	por %xmm9, %xmm11
	pxor %xmm13, %xmm11
	movdqa %xmm11, %xmm9
	psrld $6, %xmm9
	pslld $26, %xmm11
	por %xmm9, %xmm11
	movdqa %xmm14, 208(%rsp)
	paddd %xmm6, %xmm14
	movdqa %xmm13, %xmm9
	pandn %xmm6, %xmm9
	movdqa %xmm7, %xmm6
	pand %xmm13, %xmm6
	por %xmm9, %xmm6
	paddd 80(%rsp), %xmm5
	paddd %xmm5, %xmm6
	paddd %xmm11, %xmm6
	movdqa %xmm4, %xmm5
	psrld $9, %xmm5
	movdqa %xmm4, %xmm9
	pslld $23, %xmm9
	por %xmm5, %xmm9
	pxor %xmm4, %xmm9
	movdqa %xmm9, %xmm5
	psrld $11, %xmm5
	pslld $21, %xmm9
	por %xmm5, %xmm9
	pxor %xmm4, %xmm9
	movdqa %xmm9, %xmm5
	psrld $2, %xmm5
	pslld $30, %xmm9
	por %xmm5, %xmm9
	movdqa %xmm4, %xmm5
	pxor %xmm2, %xmm5
	pand %xmm5, %xmm0
	pxor %xmm2, %xmm0
	paddd %xmm9, %xmm0
	paddd .LCPI10_5(%rip), %xmm6
	paddd %xmm6, %xmm0
	paddd %xmm1, %xmm6
	movdqa %xmm6, %xmm1
	psrld $14, %xmm1
	movdqa %xmm6, %xmm11
	pslld $18, %xmm11
	por %xmm1, %xmm11
	pxor %xmm6, %xmm11
	movdqa %xmm11, %xmm1
	psrld $5, %xmm1
	pslld $27, %xmm11
	por %xmm1, %xmm11
	pxor %xmm6, %xmm11
	movdqa %xmm11, %xmm1
	psrld $6, %xmm1
	pslld $26, %xmm11
	por %xmm1, %xmm11
	movdqa %xmm6, %xmm1
	pandn %xmm7, %xmm1
	movdqa %xmm13, %xmm9
	pand %xmm6, %xmm9
	por %xmm1, %xmm9
	paddd %xmm14, %xmm9
	paddd %xmm11, %xmm9
	movdqa %xmm0, %xmm1
	psrld $9, %xmm1
	movdqa %xmm0, %xmm10
	pslld $23, %xmm10
	por %xmm1, %xmm10
	pxor %xmm0, %xmm10
	movdqa %xmm10, %xmm1
	psrld $11, %xmm1
	pslld $21, %xmm10
	por %xmm1, %xmm10
	pxor %xmm0, %xmm10
	movdqa %xmm10, %xmm1
	psrld $2, %xmm1
	pslld $30, %xmm10
	por %xmm1, %xmm10
	movdqa %xmm0, %xmm1
	pxor %xmm4, %xmm1
	pand %xmm1, %xmm5
	pxor %xmm4, %xmm5
	paddd %xmm10, %xmm5
	paddd .LCPI10_6(%rip), %xmm9
	paddd %xmm9, %xmm5
	paddd %xmm3, %xmm9
	movdqa %xmm9, %xmm3
	psrld $14, %xmm3
	movdqa %xmm9, %xmm10
	pslld $18, %xmm10
	por %xmm3, %xmm10
	pxor %xmm9, %xmm10
	movdqa %xmm10, %xmm3
	psrld $5, %xmm3
	pslld $27, %xmm10
	por %xmm3, %xmm10
	pxor %xmm9, %xmm10
	movdqa %xmm10, %xmm3
	psrld $6, %xmm3
	pslld $26, %xmm10
	por %xmm3, %xmm10
	movdqa 128(%rsp), %xmm11
	paddd %xmm13, %xmm11
	movdqa %xmm9, %xmm3
	pandn %xmm13, %xmm3
	movdqa %xmm6, %xmm8
	pand %xmm9, %xmm8
	por %xmm3, %xmm8
	paddd 176(%rsp), %xmm7
	paddd %xmm7, %xmm8
	paddd %xmm10, %xmm8
	movdqa %xmm5, %xmm3
	psrld $9, %xmm3
	movdqa %xmm5, %xmm7
	pslld $23, %xmm7
	por %xmm3, %xmm7
	pxor %xmm5, %xmm7
	movdqa %xmm7, %xmm3
	psrld $11, %xmm3
	pslld $21, %xmm7
	por %xmm3, %xmm7
	pxor %xmm5, %xmm7
	movdqa %xmm7, %xmm3
	psrld $2, %xmm3
	pslld $30, %xmm7
	por %xmm3, %xmm7
	movdqa %xmm5, %xmm3
	pxor %xmm0, %xmm3
	pand %xmm3, %xmm1
	pxor %xmm0, %xmm1
	paddd %xmm7, %xmm1
	paddd .LCPI10_7(%rip), %xmm8
	paddd %xmm8, %xmm1
	paddd %xmm2, %xmm8
	movdqa %xmm8, %xmm2
	psrld $14, %xmm2
	movdqa %xmm8, %xmm7
	pslld $18, %xmm7
	por %xmm2, %xmm7
	pxor %xmm8, %xmm7
	movdqa %xmm7, %xmm2
	psrld $5, %xmm2
	pslld $27, %xmm7
	por %xmm2, %xmm7
	pxor %xmm8, %xmm7
	movdqa %xmm7, %xmm2
	psrld $6, %xmm2
	pslld $26, %xmm7
	por %xmm2, %xmm7
	movdqa %xmm8, %xmm2
	pandn %xmm6, %xmm2
	movdqa %xmm9, %xmm10
	pand %xmm8, %xmm10
	por %xmm2, %xmm10
	paddd %xmm11, %xmm10
	paddd %xmm7, %xmm10
	movdqa %xmm1, %xmm2
	psrld $9, %xmm2
	movdqa %xmm1, %xmm7
	pslld $23, %xmm7
	por %xmm2, %xmm7
	pxor %xmm1, %xmm7
	movdqa %xmm7, %xmm2
	psrld $11, %xmm2
	pslld $21, %xmm7
	por %xmm2, %xmm7
	pxor %xmm1, %xmm7
	movdqa %xmm7, %xmm2
	psrld $2, %xmm2
	pslld $30, %xmm7
	por %xmm2, %xmm7
	paddd .LCPI10_8(%rip), %xmm10
	movdqa %xmm1, %xmm2
	pxor %xmm5, %xmm2
	pand %xmm2, %xmm3
	pxor %xmm5, %xmm3
	paddd %xmm7, %xmm3
	paddd %xmm10, %xmm3
	paddd %xmm4, %xmm10
	movdqa %xmm10, %xmm4
	psrld $14, %xmm4
	movdqa %xmm10, %xmm11
	pslld $18, %xmm11
	por %xmm4, %xmm11
	pxor %xmm10, %xmm11
	movdqa %xmm11, %xmm4
	psrld $5, %xmm4
	pslld $27, %xmm11
	por %xmm4, %xmm11
	pxor %xmm10, %xmm11
	movdqa %xmm11, %xmm4
	psrld $6, %xmm4
	pslld $26, %xmm11
	por %xmm4, %xmm11
	movdqa 96(%rsp), %xmm7
	paddd %xmm9, %xmm7
	movdqa %xmm10, %xmm12
	pandn %xmm9, %xmm12
	movdqa %xmm8, %xmm4
	pand %xmm10, %xmm4
	por %xmm12, %xmm4
	paddd 112(%rsp), %xmm6
	paddd %xmm6, %xmm4
	paddd %xmm11, %xmm4
	movdqa %xmm3, %xmm6
	psrld $9, %xmm6
	movdqa %xmm3, %xmm9
	pslld $23, %xmm9
	por %xmm6, %xmm9
	pxor %xmm3, %xmm9
	movdqa %xmm9, %xmm6
	psrld $11, %xmm6
	pslld $21, %xmm9
	por %xmm6, %xmm9
	pxor %xmm3, %xmm9
	movdqa %xmm9, %xmm6
	psrld $2, %xmm6
	pslld $30, %xmm9
	por %xmm6, %xmm9
	movdqa %xmm3, %xmm6
	pxor %xmm1, %xmm6
	pand %xmm6, %xmm2
	pxor %xmm1, %xmm2
	paddd %xmm9, %xmm2
	paddd .LCPI10_9(%rip), %xmm4
	paddd %xmm4, %xmm2
	paddd %xmm0, %xmm4
	movdqa %xmm4, %xmm0
	psrld $14, %xmm0
	movdqa %xmm4, %xmm11
	pslld $18, %xmm11
	por %xmm0, %xmm11
	pxor %xmm4, %xmm11
	movdqa %xmm11, %xmm0
	psrld $5, %xmm0
	pslld $27, %xmm11
	por %xmm0, %xmm11
	pxor %xmm4, %xmm11
	movdqa %xmm11, %xmm0
	psrld $6, %xmm0
	pslld $26, %xmm11
	por %xmm0, %xmm11
	movdqa %xmm4, %xmm0
	pandn %xmm8, %xmm0
	movdqa %xmm10, %xmm9
	pand %xmm4, %xmm9
	por %xmm0, %xmm9
	paddd %xmm7, %xmm9
	paddd %xmm11, %xmm9
	movdqa %xmm2, %xmm0
	psrld $9, %xmm0
	movdqa %xmm2, %xmm11
	pslld $23, %xmm11
	por %xmm0, %xmm11
	pxor %xmm2, %xmm11
	movdqa %xmm11, %xmm0
	psrld $11, %xmm0
	pslld $21, %xmm11
	por %xmm0, %xmm11
	pxor %xmm2, %xmm11
	movdqa %xmm11, %xmm0
	psrld $2, %xmm0
	pslld $30, %xmm11
	por %xmm0, %xmm11
	movdqa %xmm2, %xmm7
	pxor %xmm3, %xmm7
	pand %xmm7, %xmm6
	pxor %xmm3, %xmm6
	paddd %xmm11, %xmm6
	paddd .LCPI10_10(%rip), %xmm9
	paddd %xmm9, %xmm6
	paddd %xmm5, %xmm9
	movdqa %xmm9, %xmm0
	psrld $14, %xmm0
	movdqa %xmm9, %xmm5
	pslld $18, %xmm5
	por %xmm0, %xmm5
	pxor %xmm9, %xmm5
	movdqa %xmm5, %xmm0
	psrld $5, %xmm0
	pslld $27, %xmm5
	por %xmm0, %xmm5
	pxor %xmm9, %xmm5
	movdqa %xmm5, %xmm0
	psrld $6, %xmm0
	pslld $26, %xmm5
	por %xmm0, %xmm5
	movdqa 48(%rsp), %xmm13
	paddd %xmm10, %xmm13
	movdqa %xmm9, %xmm12
	pandn %xmm10, %xmm12
	movdqa %xmm4, %xmm0
	pand %xmm9, %xmm0
	por %xmm12, %xmm0
	paddd 192(%rsp), %xmm8
	paddd %xmm8, %xmm0
	paddd %xmm5, %xmm0
	movdqa %xmm6, %xmm5
	psrld $9, %xmm5
	movdqa %xmm6, %xmm8
	pslld $23, %xmm8
	por %xmm5, %xmm8
	pxor %xmm6, %xmm8
	movdqa %xmm8, %xmm5
	psrld $11, %xmm5
	pslld $21, %xmm8
	por %xmm5, %xmm8
	pxor %xmm6, %xmm8
	movdqa %xmm8, %xmm5
	psrld $2, %xmm5
	pslld $30, %xmm8
	por %xmm5, %xmm8
	paddd .LCPI10_11(%rip), %xmm0
	movdqa %xmm6, %xmm5
	pxor %xmm2, %xmm5
	pand %xmm5, %xmm7
	pxor %xmm2, %xmm7
	paddd %xmm8, %xmm7
	paddd %xmm0, %xmm7
	paddd %xmm1, %xmm0
	movdqa %xmm0, %xmm1
	psrld $14, %xmm1
	movdqa %xmm0, %xmm8
	pslld $18, %xmm8
	por %xmm1, %xmm8
	pxor %xmm0, %xmm8
	movdqa %xmm8, %xmm1
	psrld $5, %xmm1
	pslld $27, %xmm8
	por %xmm1, %xmm8
	pxor %xmm0, %xmm8
	movdqa %xmm8, %xmm1
	psrld $6, %xmm1
	pslld $26, %xmm8
	por %xmm1, %xmm8
	movdqa %xmm0, %xmm10
	pandn %xmm4, %xmm10
	movdqa %xmm9, %xmm1
	pand %xmm0, %xmm1
	por %xmm10, %xmm1
	paddd %xmm13, %xmm1
	paddd %xmm8, %xmm1
	movdqa %xmm7, %xmm8
	psrld $9, %xmm8
	movdqa %xmm7, %xmm10
	pslld $23, %xmm10
	por %xmm8, %xmm10
	pxor %xmm7, %xmm10
	movdqa %xmm10, %xmm8
	psrld $11, %xmm8
	pslld $21, %xmm10
	por %xmm8, %xmm10
	pxor %xmm7, %xmm10
	movdqa %xmm10, %xmm8
	psrld $2, %xmm8
	pslld $30, %xmm10
	por %xmm8, %xmm10
	movdqa %xmm7, %xmm12
	pxor %xmm6, %xmm12
	pand %xmm12, %xmm5
	pxor %xmm6, %xmm5
	paddd %xmm10, %xmm5
	paddd .LCPI10_12(%rip), %xmm1
	paddd %xmm1, %xmm5
	paddd %xmm3, %xmm1
	movdqa %xmm1, %xmm3
	psrld $14, %xmm3
	movdqa %xmm1, %xmm10
	pslld $18, %xmm10
	por %xmm3, %xmm10
	pxor %xmm1, %xmm10
	movdqa %xmm10, %xmm3
	psrld $5, %xmm3
	pslld $27, %xmm10
	por %xmm3, %xmm10
	pxor %xmm1, %xmm10
	movdqa %xmm10, %xmm3
	psrld $6, %xmm3
	pslld $26, %xmm10
	por %xmm3, %xmm10
	movdqa 32(%rsp), %xmm8
	paddd %xmm9, %xmm8
	movdqa %xmm1, %xmm15
	pandn %xmm9, %xmm15
	movdqa %xmm0, %xmm3
	pand %xmm1, %xmm3
	por %xmm15, %xmm3
	paddd (%rsp), %xmm4
	paddd %xmm4, %xmm3
	paddd %xmm10, %xmm3
	movdqa %xmm5, %xmm4
	psrld $9, %xmm4
	movdqa %xmm5, %xmm9
	pslld $23, %xmm9
	por %xmm4, %xmm9
	pxor %xmm5, %xmm9
	movdqa %xmm9, %xmm4
	psrld $11, %xmm4
	pslld $21, %xmm9
	por %xmm4, %xmm9
	pxor %xmm5, %xmm9
	movdqa %xmm9, %xmm4
	psrld $2, %xmm4
	pslld $30, %xmm9
	por %xmm4, %xmm9
	movdqa %xmm5, %xmm4
	pxor %xmm7, %xmm4
	pand %xmm4, %xmm12
	pxor %xmm7, %xmm12
	paddd %xmm9, %xmm12
	paddd .LCPI10_13(%rip), %xmm3
	paddd %xmm3, %xmm12
	paddd %xmm2, %xmm3
	movdqa %xmm3, %xmm2
	psrld $14, %xmm2
	movdqa %xmm3, %xmm9
	pslld $18, %xmm9
	por %xmm2, %xmm9
	pxor %xmm3, %xmm9
	movdqa %xmm9, %xmm2
	psrld $5, %xmm2
	pslld $27, %xmm9
	por %xmm2, %xmm9
	pxor %xmm3, %xmm9
	movdqa %xmm9, %xmm2
	psrld $6, %xmm2
	pslld $26, %xmm9
	por %xmm2, %xmm9
	movdqa %xmm3, %xmm2
	pandn %xmm0, %xmm2
	movdqa %xmm1, %xmm15
	pand %xmm3, %xmm15
	por %xmm2, %xmm15
	paddd %xmm8, %xmm15
	paddd %xmm9, %xmm15
	movdqa %xmm12, %xmm2
	psrld $9, %xmm2
	movdqa %xmm12, %xmm8
	pslld $23, %xmm8
	por %xmm2, %xmm8
	pxor %xmm12, %xmm8
	movdqa %xmm8, %xmm2
	psrld $11, %xmm2
	pslld $21, %xmm8
	por %xmm2, %xmm8
	pxor %xmm12, %xmm8
	movdqa %xmm8, %xmm2
	psrld $2, %xmm2
	pslld $30, %xmm8
	por %xmm2, %xmm8
	movdqa %xmm12, %xmm13
	pxor %xmm5, %xmm13
	pand %xmm13, %xmm4
	pxor %xmm5, %xmm4
	paddd %xmm8, %xmm4
	paddd .LCPI10_14(%rip), %xmm15
	paddd %xmm15, %xmm4
	paddd %xmm6, %xmm15
	movdqa %xmm15, %xmm6
	psrld $14, %xmm6
	movdqa %xmm15, %xmm8
	pslld $18, %xmm8
	por %xmm6, %xmm8
	pxor %xmm15, %xmm8
	movdqa %xmm8, %xmm6
	psrld $5, %xmm6
	pslld $27, %xmm8
	por %xmm6, %xmm8
	pxor %xmm15, %xmm8
	movdqa %xmm8, %xmm6
	psrld $6, %xmm6
	pslld $26, %xmm8
	por %xmm6, %xmm8
	movdqa 64(%rsp), %xmm11
	movdqa %xmm11, %xmm6
	paddd %xmm1, %xmm6
	movdqa %xmm15, %xmm10
	pandn %xmm1, %xmm10
	movdqa %xmm3, %xmm9
	pand %xmm15, %xmm9
	por %xmm10, %xmm9
	movdqa 16(%rsp), %xmm2
	paddd %xmm2, %xmm0
	paddd %xmm0, %xmm9
	paddd %xmm8, %xmm9
	movdqa %xmm4, %xmm0
	psrld $9, %xmm0
	movdqa %xmm4, %xmm8
	pslld $23, %xmm8
	por %xmm0, %xmm8
	pxor %xmm4, %xmm8
	movdqa %xmm8, %xmm0
	psrld $11, %xmm0
	pslld $21, %xmm8
	por %xmm0, %xmm8
	pxor %xmm4, %xmm8
	movdqa %xmm8, %xmm0
	psrld $2, %xmm0
	pslld $30, %xmm8
	por %xmm0, %xmm8
	movdqa %xmm4, %xmm1
	pxor %xmm12, %xmm1
	pand %xmm1, %xmm13
	pxor %xmm12, %xmm13
	paddd %xmm8, %xmm13
	movdqa %xmm11, %xmm8
	paddd .LCPI10_15(%rip), %xmm9
	paddd %xmm9, %xmm13
	paddd %xmm7, %xmm9
	movdqa %xmm9, %xmm0
	psrld $14, %xmm0
	movdqa %xmm9, %xmm7
	pslld $18, %xmm7
	por %xmm0, %xmm7
	pxor %xmm9, %xmm7
	movdqa %xmm7, %xmm0
	psrld $5, %xmm0
	pslld $27, %xmm7
	por %xmm0, %xmm7
	pxor %xmm9, %xmm7
	movdqa %xmm7, %xmm0
	psrld $6, %xmm0
	pslld $26, %xmm7
	por %xmm0, %xmm7
	movdqa %xmm9, %xmm0
	pandn %xmm3, %xmm0
	movdqa %xmm15, %xmm10
	pand %xmm9, %xmm10
	por %xmm0, %xmm10
	paddd %xmm6, %xmm10
	paddd %xmm7, %xmm10
	movdqa %xmm13, %xmm0
	psrld $9, %xmm0
	movdqa %xmm13, %xmm6
	pslld $23, %xmm6
	por %xmm0, %xmm6
	pxor %xmm13, %xmm6
	movdqa %xmm6, %xmm0
	psrld $11, %xmm0
	pslld $21, %xmm6
	por %xmm0, %xmm6
	pxor %xmm13, %xmm6
	movdqa %xmm6, %xmm0
	psrld $2, %xmm0
	pslld $30, %xmm6
	por %xmm0, %xmm6
	movdqa %xmm13, %xmm0
	pand %xmm1, %xmm0
	pandn %xmm4, %xmm1
	por %xmm0, %xmm1
	movdqa %xmm2, %xmm0
	paddd .LCPI10_16(%rip), %xmm10
	paddd %xmm6, %xmm1
	paddd %xmm10, %xmm1
	paddd %xmm5, %xmm10
	xorl %eax, %eax
	.p2align 4
.LBB10_1:
	movdqa %xmm8, 64(%rsp)
	movdqa %xmm0, %xmm2
	psrld $2, %xmm0
	movdqa %xmm2, %xmm5
	pslld $30, %xmm5
	por %xmm0, %xmm5
	movdqa 256(%rsp), %xmm14
	movdqa %xmm14, %xmm0
	psrld $11, %xmm0
	movdqa %xmm14, %xmm6
	pslld $21, %xmm6
	por %xmm0, %xmm6
	pxor %xmm2, %xmm5
	movdqa %xmm2, 16(%rsp)
	movdqa %xmm5, %xmm0
	psrld $17, %xmm0
	pslld $15, %xmm5
	por %xmm0, %xmm5
	pxor %xmm14, %xmm6
	movdqa %xmm6, %xmm0
	pslld $25, %xmm6
	psrld $7, %xmm0
	por %xmm0, %xmm6
	movdqa %xmm14, %xmm7
	psrld $3, %xmm7
	pxor %xmm6, %xmm7
	movdqa %xmm8, %xmm6
	psrld $2, %xmm6
	movdqa %xmm8, %xmm0
	pslld $30, %xmm0
	por %xmm6, %xmm0
	pxor %xmm8, %xmm0
	movdqa %xmm0, %xmm6
	psrld $17, %xmm6
	pslld $15, %xmm0
	por %xmm6, %xmm0
	movdqa 160(%rsp), %xmm6
	paddd 96(%rsp), %xmm6
	paddd %xmm7, %xmm6
	movdqa %xmm6, 160(%rsp)
	movdqa 144(%rsp), %xmm8
	movdqa %xmm8, %xmm6
	psrld $11, %xmm6
	movdqa %xmm8, %xmm7
	pslld $21, %xmm7
	por %xmm6, %xmm7
	pxor %xmm8, %xmm7
	movdqa %xmm8, 144(%rsp)
	movdqa %xmm7, %xmm6
	psrld $7, %xmm6
	pslld $25, %xmm7
	por %xmm6, %xmm7
	psrld $3, %xmm8
	pxor %xmm7, %xmm8
	movdqa %xmm10, %xmm7
	psrld $14, %xmm7
	movdqa %xmm10, %xmm6
	pslld $18, %xmm6
	por %xmm7, %xmm6
	paddd 192(%rsp), %xmm14
	paddd %xmm8, %xmm14
	pxor %xmm10, %xmm6
	movdqa %xmm6, %xmm7
	pslld $27, %xmm6
	psrld $5, %xmm7
	por %xmm7, %xmm6
	movdqa %xmm2, %xmm8
	psrld $10, %xmm8
	pxor %xmm5, %xmm8
	pxor %xmm10, %xmm6
	movdqa %xmm6, %xmm5
	pslld $26, %xmm6
	psrld $6, %xmm5
	por %xmm5, %xmm6
	movdqa %xmm10, %xmm5
	pandn %xmm15, %xmm5
	movdqa %xmm9, %xmm7
	pand %xmm10, %xmm7
	por %xmm5, %xmm7
	paddd %xmm3, %xmm7
	movdqa 160(%rsp), %xmm11
	paddd %xmm8, %xmm11
	movdqa %xmm1, %xmm3
	psrld $9, %xmm3
	movdqa %xmm1, %xmm8
	pslld $23, %xmm8
	por %xmm3, %xmm8
	pxor %xmm1, %xmm8
	movdqa %xmm8, %xmm3
	psrld $11, %xmm3
	pslld $21, %xmm8
	por %xmm3, %xmm8
	pxor %xmm1, %xmm8
	movdqa %xmm8, %xmm3
	psrld $2, %xmm3
	pslld $30, %xmm8
	por %xmm3, %xmm8
	paddd %xmm6, %xmm7
	movdqa %xmm13, %xmm2
	pxor %xmm1, %xmm2
	movdqa %xmm2, %xmm3
	pandn %xmm13, %xmm3
	movdqa %xmm4, %xmm5
	pand %xmm2, %xmm5
	por %xmm3, %xmm5
	leaq .Lstatic.7(%rip), %rdx
	movd 64(%rax,%rdx), %xmm3
	pshufd $0, %xmm3, %xmm3
	paddd %xmm11, %xmm3
	paddd %xmm7, %xmm3
	paddd %xmm8, %xmm5
	movdqa 64(%rsp), %xmm6
	psrld $10, %xmm6
	pxor %xmm0, %xmm6
	paddd %xmm3, %xmm5
	paddd %xmm12, %xmm3
	movdqa %xmm3, %xmm7
	psrld $14, %xmm7
	movdqa %xmm3, %xmm0
	pslld $18, %xmm0
	por %xmm7, %xmm0
	paddd %xmm6, %xmm14
	pxor %xmm3, %xmm0
	movdqa %xmm0, %xmm6
	pslld $27, %xmm0
	psrld $5, %xmm6
	por %xmm6, %xmm0
	pxor %xmm3, %xmm0
	movdqa %xmm0, %xmm6
	psrld $6, %xmm6
	pslld $26, %xmm0
	por %xmm6, %xmm0
	movdqa %xmm3, %xmm6
	pandn %xmm9, %xmm6
	movdqa %xmm10, %xmm7
	pand %xmm3, %xmm7
	por %xmm6, %xmm7
	movd 68(%rax,%rdx), %xmm6
	pshufd $0, %xmm6, %xmm6
	paddd %xmm14, %xmm15
	paddd %xmm6, %xmm15
	paddd %xmm7, %xmm15
	movdqa %xmm5, %xmm6
	psrld $9, %xmm6
	movdqa %xmm5, %xmm7
	pslld $23, %xmm7
	por %xmm6, %xmm7
	pxor %xmm5, %xmm7
	movdqa %xmm7, %xmm6
	psrld $11, %xmm6
	pslld $21, %xmm7
	por %xmm6, %xmm7
	pxor %xmm5, %xmm7
	movdqa %xmm7, %xmm6
	psrld $2, %xmm6
	pslld $30, %xmm7
	por %xmm6, %xmm7
	movdqa %xmm5, %xmm6
	pxor %xmm1, %xmm6
	movdqa %xmm6, 272(%rsp)
	pand %xmm6, %xmm2
	pxor %xmm1, %xmm2
	paddd %xmm7, %xmm2
	movdqa %xmm11, 160(%rsp)
	movdqa %xmm11, %xmm6
	psrld $2, %xmm6
	movdqa %xmm11, %xmm7
	pslld $30, %xmm7
	por %xmm6, %xmm7
	pxor %xmm11, %xmm7
	movdqa %xmm7, %xmm6
	psrld $17, %xmm6
	pslld $15, %xmm7
	por %xmm6, %xmm7
	movdqa %xmm11, %xmm6
	psrld $10, %xmm6
	pxor %xmm7, %xmm6
	movdqa 240(%rsp), %xmm12
	movdqa %xmm12, %xmm7
	psrld $11, %xmm7
	movdqa %xmm12, %xmm8
	pslld $21, %xmm8
	por %xmm7, %xmm8
	pxor %xmm12, %xmm8
	movdqa %xmm8, %xmm7
	psrld $7, %xmm7
	pslld $25, %xmm8
	por %xmm7, %xmm8
	paddd %xmm0, %xmm15
	movdqa %xmm12, %xmm0
	psrld $3, %xmm0
	pxor %xmm8, %xmm0
	movdqa 144(%rsp), %xmm11
	paddd 48(%rsp), %xmm11
	paddd %xmm0, %xmm11
	paddd %xmm6, %xmm11
	paddd %xmm15, %xmm2
	paddd %xmm4, %xmm15
	movdqa %xmm14, %xmm4
	psrld $2, %xmm4
	movdqa %xmm14, %xmm0
	movdqa %xmm14, 256(%rsp)
	pslld $30, %xmm0
	por %xmm4, %xmm0
	movdqa 80(%rsp), %xmm7
	movdqa %xmm7, %xmm4
	psrld $11, %xmm4
	movdqa %xmm7, %xmm6
	pslld $21, %xmm6
	por %xmm4, %xmm6
	pxor %xmm7, %xmm6
	movdqa %xmm7, 80(%rsp)
	movdqa %xmm6, %xmm4
	psrld $7, %xmm4
	pslld $25, %xmm6
	por %xmm4, %xmm6
	pxor %xmm14, %xmm0
	movdqa %xmm0, %xmm4
	psrld $17, %xmm4
	pslld $15, %xmm0
	por %xmm4, %xmm0
	movdqa %xmm7, %xmm4
	psrld $3, %xmm4
	pxor %xmm6, %xmm4
	paddd (%rsp), %xmm12
	paddd %xmm4, %xmm12
	psrld $10, %xmm14
	pxor %xmm0, %xmm14
	paddd %xmm14, %xmm12
	movdqa %xmm15, %xmm4
	psrld $14, %xmm4
	movdqa %xmm15, %xmm0
	pslld $18, %xmm0
	por %xmm4, %xmm0
	movdqa %xmm15, %xmm4
	pandn %xmm10, %xmm4
	movdqa %xmm3, %xmm6
	pand %xmm15, %xmm6
	por %xmm4, %xmm6
	pxor %xmm15, %xmm0
	movdqa %xmm0, %xmm4
	psrld $5, %xmm4
	pslld $27, %xmm0
	por %xmm4, %xmm0
	movd 72(%rax,%rdx), %xmm4
	pshufd $0, %xmm4, %xmm7
	paddd %xmm9, %xmm7
	pxor %xmm15, %xmm0
	movdqa %xmm0, %xmm4
	psrld $6, %xmm4
	pslld $26, %xmm0
	por %xmm4, %xmm0
	paddd %xmm11, %xmm7
	paddd %xmm6, %xmm7
	movdqa %xmm2, %xmm9
	movdqa %xmm2, %xmm4
	psrld $9, %xmm4
	movdqa %xmm2, %xmm6
	pslld $23, %xmm6
	por %xmm4, %xmm6
	paddd %xmm0, %xmm7
	pxor %xmm2, %xmm6
	movdqa %xmm6, %xmm0
	pslld $21, %xmm6
	psrld $11, %xmm0
	por %xmm0, %xmm6
	pxor %xmm2, %xmm6
	movdqa %xmm6, %xmm0
	psrld $2, %xmm0
	pslld $30, %xmm6
	por %xmm0, %xmm6
	movdqa %xmm2, %xmm14
	pxor %xmm5, %xmm14
	movdqa 272(%rsp), %xmm8
	pand %xmm14, %xmm8
	pxor %xmm5, %xmm8
	paddd %xmm6, %xmm8
	movdqa %xmm7, %xmm4
	paddd %xmm7, %xmm8
	paddd %xmm13, %xmm4
	movdqa %xmm4, %xmm2
	psrld $14, %xmm2
	movdqa %xmm4, %xmm0
	movdqa %xmm4, %xmm7
	pslld $18, %xmm0
	por %xmm2, %xmm0
	movdqa %xmm4, %xmm2
	pandn %xmm3, %xmm2
	movdqa %xmm15, %xmm4
	pand %xmm7, %xmm4
	por %xmm2, %xmm4
	pxor %xmm7, %xmm0
	movdqa %xmm7, 288(%rsp)
	movdqa %xmm0, %xmm2
	psrld $5, %xmm2
	pslld $27, %xmm0
	por %xmm2, %xmm0
	movd 76(%rax,%rdx), %xmm2
	pshufd $0, %xmm2, %xmm2
	paddd %xmm10, %xmm2
	paddd %xmm12, %xmm2
	paddd %xmm4, %xmm2
	movdqa %xmm2, %xmm13
	movdqa %xmm8, %xmm4
	psrld $9, %xmm4
	movdqa %xmm8, %xmm2
	pslld $23, %xmm2
	por %xmm4, %xmm2
	pxor %xmm8, %xmm2
	movdqa %xmm2, %xmm4
	psrld $11, %xmm4
	pslld $21, %xmm2
	por %xmm4, %xmm2
	pxor %xmm7, %xmm0
	movdqa %xmm0, %xmm4
	psrld $6, %xmm4
	pslld $26, %xmm0
	por %xmm4, %xmm0
	movdqa %xmm11, 144(%rsp)
	movdqa %xmm11, %xmm4
	psrld $2, %xmm4
	movdqa %xmm11, %xmm6
	pslld $30, %xmm6
	por %xmm4, %xmm6
	pxor %xmm11, %xmm6
	movdqa %xmm6, %xmm4
	psrld $17, %xmm4
	pslld $15, %xmm6
	por %xmm4, %xmm6
	movdqa %xmm11, %xmm4
	psrld $10, %xmm4
	pxor %xmm6, %xmm4
	movdqa 208(%rsp), %xmm10
	movdqa %xmm10, %xmm6
	psrld $11, %xmm6
	movdqa %xmm10, %xmm7
	pslld $21, %xmm7
	por %xmm6, %xmm7
	pxor %xmm10, %xmm7
	movdqa %xmm7, %xmm6
	psrld $7, %xmm6
	pslld $25, %xmm7
	por %xmm6, %xmm7
	movdqa %xmm8, %xmm11
	pxor %xmm8, %xmm2
	movdqa %xmm2, %xmm6
	psrld $2, %xmm6
	pslld $30, %xmm2
	por %xmm6, %xmm2
	movdqa %xmm10, %xmm6
	psrld $3, %xmm6
	pxor %xmm7, %xmm6
	paddd %xmm0, %xmm13
	movdqa 80(%rsp), %xmm8
	paddd 32(%rsp), %xmm8
	paddd %xmm6, %xmm8
	paddd %xmm4, %xmm8
	movdqa %xmm11, %xmm7
	movdqa %xmm9, 592(%rsp)
	pxor %xmm9, %xmm7
	pand %xmm7, %xmm14
	pxor %xmm9, %xmm14
	paddd %xmm2, %xmm14
	movdqa %xmm12, 240(%rsp)
	movdqa %xmm12, %xmm0
	psrld $2, %xmm0
	movdqa %xmm12, %xmm2
	pslld $30, %xmm2
	por %xmm0, %xmm2
	pxor %xmm12, %xmm2
	movdqa %xmm2, %xmm0
	psrld $17, %xmm0
	pslld $15, %xmm2
	por %xmm0, %xmm2
	movdqa %xmm12, %xmm0
	psrld $10, %xmm0
	pxor %xmm2, %xmm0
	movdqa 176(%rsp), %xmm6
	movdqa %xmm6, %xmm2
	psrld $11, %xmm2
	movdqa %xmm6, %xmm4
	pslld $21, %xmm4
	por %xmm2, %xmm4
	pxor %xmm6, %xmm4
	movdqa %xmm4, %xmm2
	psrld $7, %xmm2
	pslld $25, %xmm4
	por %xmm2, %xmm4
	movdqa %xmm6, %xmm2
	psrld $3, %xmm2
	pxor %xmm4, %xmm2
	paddd %xmm13, %xmm14
	paddd %xmm1, %xmm13
	movdqa %xmm10, %xmm9
	paddd 16(%rsp), %xmm9
	paddd %xmm2, %xmm9
	paddd %xmm0, %xmm9
	movdqa %xmm9, 208(%rsp)
	movdqa %xmm13, %xmm0
	psrld $14, %xmm0
	movdqa %xmm13, %xmm1
	pslld $18, %xmm1
	por %xmm0, %xmm1
	pxor %xmm13, %xmm1
	movdqa %xmm1, %xmm0
	pslld $27, %xmm1
	psrld $5, %xmm0
	por %xmm0, %xmm1
	movdqa %xmm13, %xmm0
	pandn %xmm15, %xmm0
	movdqa 288(%rsp), %xmm2
	movdqa %xmm2, %xmm4
	pand %xmm13, %xmm4
	por %xmm0, %xmm4
	movd 80(%rax,%rdx), %xmm0
	pshufd $0, %xmm0, %xmm6
	paddd %xmm3, %xmm6
	paddd %xmm8, %xmm6
	paddd %xmm4, %xmm6
	pxor %xmm13, %xmm1
	movdqa %xmm13, 544(%rsp)
	movdqa %xmm1, %xmm0
	psrld $6, %xmm0
	pslld $26, %xmm1
	por %xmm0, %xmm1
	movdqa %xmm14, %xmm3
	psrld $9, %xmm3
	movdqa %xmm14, %xmm0
	pslld $23, %xmm0
	por %xmm3, %xmm0
	pxor %xmm14, %xmm0
	movdqa %xmm0, %xmm3
	psrld $11, %xmm3
	pslld $21, %xmm0
	por %xmm3, %xmm0
	pxor %xmm14, %xmm0
	movdqa %xmm14, 304(%rsp)
	movdqa %xmm0, %xmm3
	psrld $2, %xmm3
	pslld $30, %xmm0
	por %xmm3, %xmm0
	paddd %xmm1, %xmm6
	movd 84(%rax,%rdx), %xmm1
	pshufd $0, %xmm1, %xmm12
	paddd %xmm15, %xmm12
	movdqa %xmm11, 272(%rsp)
	pxor %xmm11, %xmm14
	movdqa %xmm14, 576(%rsp)
	pand %xmm14, %xmm7
	pxor %xmm11, %xmm7
	paddd %xmm0, %xmm7
	movdqa %xmm8, %xmm0
	psrld $2, %xmm0
	movdqa %xmm8, %xmm1
	pslld $30, %xmm1
	por %xmm0, %xmm1
	pxor %xmm8, %xmm1
	movdqa %xmm8, 80(%rsp)
	movdqa %xmm1, %xmm0
	psrld $17, %xmm0
	pslld $15, %xmm1
	por %xmm0, %xmm1
	movdqa %xmm6, %xmm15
	paddd %xmm6, %xmm7
	paddd %xmm5, %xmm15
	psrld $10, %xmm8
	pxor %xmm1, %xmm8
	movdqa %xmm8, 560(%rsp)
	movdqa %xmm15, %xmm0
	psrld $14, %xmm0
	movdqa %xmm15, %xmm14
	pslld $18, %xmm14
	por %xmm0, %xmm14
	movdqa 128(%rsp), %xmm1
	movdqa %xmm1, %xmm0
	psrld $11, %xmm0
	movdqa %xmm1, %xmm4
	pslld $21, %xmm4
	por %xmm0, %xmm4
	pxor %xmm1, %xmm4
	movdqa %xmm4, %xmm0
	psrld $7, %xmm0
	pslld $25, %xmm4
	por %xmm0, %xmm4
	movdqa %xmm4, 528(%rsp)
	movdqa 112(%rsp), %xmm5
	movdqa %xmm5, %xmm0
	psrld $11, %xmm0
	movdqa %xmm5, %xmm1
	pslld $21, %xmm1
	por %xmm0, %xmm1
	movdqa %xmm15, %xmm0
	pandn %xmm2, %xmm0
	movdqa %xmm13, %xmm4
	pand %xmm15, %xmm4
	por %xmm0, %xmm4
	pxor %xmm5, %xmm1
	movdqa %xmm1, %xmm0
	pslld $25, %xmm1
	psrld $7, %xmm0
	por %xmm0, %xmm1
	movdqa %xmm1, 512(%rsp)
	movdqa 96(%rsp), %xmm10
	movdqa %xmm10, %xmm0
	psrld $11, %xmm0
	movdqa %xmm10, %xmm1
	pslld $21, %xmm1
	por %xmm0, %xmm1
	pxor %xmm10, %xmm1
	movdqa %xmm1, %xmm0
	psrld $7, %xmm0
	pslld $25, %xmm1
	por %xmm0, %xmm1
	movdqa %xmm1, 496(%rsp)
	movdqa %xmm7, %xmm2
	movdqa %xmm7, %xmm0
	psrld $9, %xmm0
	movdqa %xmm7, %xmm10
	pslld $23, %xmm10
	por %xmm0, %xmm10
	movdqa 192(%rsp), %xmm7
	movdqa %xmm7, %xmm5
	psrld $11, %xmm5
	movdqa %xmm7, %xmm0
	pslld $21, %xmm0
	por %xmm5, %xmm0
	pxor %xmm7, %xmm0
	movdqa %xmm0, %xmm5
	psrld $7, %xmm5
	pslld $25, %xmm0
	por %xmm5, %xmm0
	movdqa %xmm0, 480(%rsp)
	paddd %xmm9, %xmm12
	paddd %xmm4, %xmm12
	movdqa %xmm12, 224(%rsp)
	movdqa 48(%rsp), %xmm0
	movdqa %xmm0, %xmm5
	psrld $11, %xmm5
	movdqa %xmm0, %xmm9
	pslld $21, %xmm9
	por %xmm5, %xmm9
	pxor %xmm0, %xmm9
	movdqa %xmm9, %xmm5
	psrld $7, %xmm5
	pslld $25, %xmm9
	por %xmm5, %xmm9
	movdqa (%rsp), %xmm0
	movdqa %xmm0, %xmm6
	psrld $11, %xmm6
	movdqa %xmm0, %xmm4
	movdqa %xmm0, (%rsp)
	pslld $21, %xmm4
	por %xmm6, %xmm4
	pxor %xmm15, %xmm14
	movdqa %xmm14, %xmm6
	psrld $5, %xmm6
	pslld $27, %xmm14
	por %xmm6, %xmm14
	pxor %xmm0, %xmm4
	movdqa %xmm4, %xmm6
	pslld $25, %xmm4
	psrld $7, %xmm6
	por %xmm6, %xmm4
	movdqa 32(%rsp), %xmm0
	movdqa %xmm0, %xmm8
	psrld $11, %xmm8
	movdqa %xmm0, %xmm1
	pslld $21, %xmm1
	por %xmm8, %xmm1
	pxor %xmm0, %xmm1
	movdqa %xmm1, %xmm8
	psrld $7, %xmm8
	pslld $25, %xmm1
	por %xmm8, %xmm1
	pxor %xmm2, %xmm10
	movdqa %xmm10, %xmm8
	psrld $11, %xmm8
	pslld $21, %xmm10
	por %xmm8, %xmm10
	movdqa 16(%rsp), %xmm0
	movdqa %xmm0, %xmm11
	psrld $11, %xmm11
	movdqa %xmm0, %xmm8
	pslld $21, %xmm8
	por %xmm11, %xmm8
	pxor %xmm0, %xmm8
	movdqa %xmm8, %xmm11
	psrld $7, %xmm11
	pslld $25, %xmm8
	por %xmm11, %xmm8
	movdqa %xmm7, %xmm0
	movdqa 64(%rsp), %xmm7
	movdqa %xmm7, %xmm12
	psrld $11, %xmm12
	movdqa %xmm7, %xmm11
	pslld $21, %xmm11
	por %xmm12, %xmm11
	pxor %xmm15, %xmm14
	movdqa %xmm14, %xmm12
	psrld $6, %xmm12
	pslld $26, %xmm14
	por %xmm12, %xmm14
	pxor %xmm7, %xmm11
	movdqa %xmm11, %xmm12
	pslld $25, %xmm11
	psrld $7, %xmm12
	por %xmm12, %xmm11
	movdqa 160(%rsp), %xmm5
	movdqa %xmm5, %xmm3
	psrld $11, %xmm3
	movdqa %xmm5, %xmm13
	pslld $21, %xmm13
	por %xmm3, %xmm13
	pxor %xmm5, %xmm13
	movdqa %xmm13, %xmm12
	psrld $7, %xmm12
	pslld $25, %xmm13
	por %xmm12, %xmm13
	pxor %xmm2, %xmm10
	movdqa %xmm10, %xmm12
	psrld $2, %xmm12
	pslld $30, %xmm10
	por %xmm12, %xmm10
	movdqa %xmm5, %xmm3
	psrld $3, %xmm3
	pxor %xmm13, %xmm3
	movdqa 224(%rsp), %xmm6
	paddd %xmm14, %xmm6
	movdqa 176(%rsp), %xmm12
	paddd %xmm7, %xmm12
	paddd %xmm7, %xmm3
	movdqa %xmm3, 224(%rsp)
	psrld $3, %xmm7
	pxor %xmm11, %xmm7
	movdqa 16(%rsp), %xmm3
	paddd %xmm3, %xmm7
	movdqa %xmm7, 464(%rsp)
	psrld $3, %xmm3
	pxor %xmm8, %xmm3
	movdqa 32(%rsp), %xmm7
	paddd %xmm7, %xmm3
	movdqa %xmm3, 16(%rsp)
	movdqa %xmm7, %xmm3
	psrld $3, %xmm3
	pxor %xmm1, %xmm3
	movdqa (%rsp), %xmm1
	paddd %xmm1, %xmm3
	movdqa %xmm3, 32(%rsp)
	psrld $3, %xmm1
	pxor %xmm4, %xmm1
	movdqa 48(%rsp), %xmm3
	paddd %xmm3, %xmm1
	movdqa %xmm1, 64(%rsp)
	movdqa %xmm3, %xmm1
	psrld $3, %xmm1
	pxor %xmm9, %xmm1
	paddd %xmm0, %xmm1
	movdqa %xmm1, (%rsp)
	psrld $3, %xmm0
	pxor 480(%rsp), %xmm0
	movdqa 96(%rsp), %xmm11
	paddd %xmm11, %xmm0
	movdqa %xmm0, 48(%rsp)
	psrld $3, %xmm11
	pxor 496(%rsp), %xmm11
	movdqa 112(%rsp), %xmm8
	paddd %xmm8, %xmm11
	psrld $3, %xmm8
	pxor 512(%rsp), %xmm8
	movdqa 128(%rsp), %xmm0
	paddd %xmm0, %xmm8
	psrld $3, %xmm0
	pxor 528(%rsp), %xmm0
	movdqa %xmm12, %xmm3
	paddd %xmm0, %xmm3
	paddd 560(%rsp), %xmm3
	movdqa %xmm2, %xmm0
	movdqa %xmm2, %xmm13
	movdqa 304(%rsp), %xmm1
	pxor %xmm1, %xmm0
	movdqa 576(%rsp), %xmm12
	pand %xmm0, %xmm12
	pxor %xmm1, %xmm12
	paddd %xmm10, %xmm12
	movdqa 208(%rsp), %xmm2
	movdqa %xmm2, %xmm1
	psrld $2, %xmm1
	movdqa %xmm2, %xmm4
	pslld $30, %xmm4
	por %xmm1, %xmm4
	pxor %xmm2, %xmm4
	movdqa %xmm4, %xmm1
	psrld $17, %xmm1
	pslld $15, %xmm4
	por %xmm1, %xmm4
	paddd %xmm6, %xmm12
	paddd 592(%rsp), %xmm6
	movdqa %xmm2, %xmm1
	psrld $10, %xmm1
	pxor %xmm4, %xmm1
	paddd %xmm5, %xmm8
	paddd %xmm1, %xmm8
	movdqa %xmm6, %xmm1
	psrld $14, %xmm1
	movdqa %xmm6, %xmm4
	pslld $18, %xmm4
	por %xmm1, %xmm4
	pxor %xmm6, %xmm4
	movdqa %xmm4, %xmm1
	psrld $5, %xmm1
	pslld $27, %xmm4
	por %xmm1, %xmm4
	pxor %xmm6, %xmm4
	movdqa %xmm4, %xmm1
	psrld $6, %xmm1
	pslld $26, %xmm4
	por %xmm1, %xmm4
	movdqa %xmm15, %xmm1
	pand %xmm6, %xmm1
	movdqa %xmm6, %xmm5
	movdqa %xmm6, %xmm14
	movdqa 544(%rsp), %xmm2
	pandn %xmm2, %xmm5
	por %xmm5, %xmm1
	movd 88(%rax,%rdx), %xmm5
	pshufd $0, %xmm5, %xmm7
	paddd %xmm3, %xmm7
	paddd 288(%rsp), %xmm7
	paddd %xmm1, %xmm7
	movdqa %xmm12, %xmm1
	psrld $9, %xmm1
	movdqa %xmm12, %xmm5
	pslld $23, %xmm5
	por %xmm1, %xmm5
	paddd %xmm4, %xmm7
	pxor %xmm12, %xmm5
	movdqa %xmm5, %xmm1
	pslld $21, %xmm5
	psrld $11, %xmm1
	por %xmm1, %xmm5
	pxor %xmm12, %xmm5
	movdqa %xmm5, %xmm1
	psrld $2, %xmm1
	pslld $30, %xmm5
	por %xmm1, %xmm5
	movdqa %xmm12, %xmm4
	movdqa %xmm13, 448(%rsp)
	pxor %xmm13, %xmm4
	pand %xmm4, %xmm0
	pxor %xmm13, %xmm0
	paddd %xmm5, %xmm0
	paddd %xmm7, %xmm0
	paddd 272(%rsp), %xmm7
	movdqa %xmm7, %xmm5
	psrld $14, %xmm5
	movdqa %xmm7, %xmm1
	pslld $18, %xmm1
	por %xmm5, %xmm1
	movdqa %xmm7, %xmm5
	pandn %xmm15, %xmm5
	movdqa %xmm15, %xmm6
	movdqa %xmm14, %xmm10
	movdqa %xmm14, %xmm15
	pand %xmm7, %xmm10
	por %xmm5, %xmm10
	movd 92(%rax,%rdx), %xmm5
	pshufd $0, %xmm5, %xmm13
	paddd %xmm8, %xmm13
	paddd %xmm2, %xmm13
	pxor %xmm7, %xmm1
	movdqa %xmm1, %xmm5
	psrld $5, %xmm5
	pslld $27, %xmm1
	por %xmm5, %xmm1
	paddd %xmm10, %xmm13
	movdqa %xmm0, %xmm5
	psrld $9, %xmm5
	movdqa %xmm0, %xmm10
	pslld $23, %xmm10
	por %xmm5, %xmm10
	pxor %xmm0, %xmm10
	movdqa %xmm10, %xmm5
	psrld $11, %xmm5
	pslld $21, %xmm10
	por %xmm5, %xmm10
	pxor %xmm7, %xmm1
	movdqa %xmm1, %xmm5
	psrld $6, %xmm5
	pslld $26, %xmm1
	por %xmm5, %xmm1
	pxor %xmm0, %xmm10
	movdqa %xmm10, %xmm5
	pslld $30, %xmm10
	psrld $2, %xmm5
	por %xmm5, %xmm10
	movdqa %xmm3, 176(%rsp)
	movdqa %xmm3, %xmm5
	psrld $2, %xmm5
	movdqa %xmm3, %xmm9
	pslld $30, %xmm9
	por %xmm5, %xmm9
	pxor %xmm3, %xmm9
	movdqa %xmm9, %xmm5
	psrld $17, %xmm5
	pslld $15, %xmm9
	por %xmm5, %xmm9
	paddd %xmm1, %xmm13
	psrld $10, %xmm3
	pxor %xmm9, %xmm3
	movdqa %xmm0, %xmm9
	pxor %xmm12, %xmm9
	pand %xmm9, %xmm4
	pxor %xmm12, %xmm4
	paddd %xmm10, %xmm4
	paddd 256(%rsp), %xmm11
	paddd %xmm3, %xmm11
	paddd %xmm13, %xmm4
	paddd 304(%rsp), %xmm13
	movdqa %xmm8, 128(%rsp)
	movdqa %xmm8, %xmm1
	psrld $2, %xmm1
	movdqa %xmm8, %xmm5
	pslld $30, %xmm5
	por %xmm1, %xmm5
	pxor %xmm8, %xmm5
	movdqa %xmm5, %xmm1
	psrld $17, %xmm1
	pslld $15, %xmm5
	por %xmm1, %xmm5
	movdqa %xmm8, %xmm1
	psrld $10, %xmm1
	pxor %xmm5, %xmm1
	movdqa 48(%rsp), %xmm14
	paddd 144(%rsp), %xmm14
	paddd %xmm1, %xmm14
	movdqa %xmm13, %xmm5
	psrld $14, %xmm5
	movdqa %xmm13, %xmm1
	pslld $18, %xmm1
	por %xmm5, %xmm1
	pxor %xmm13, %xmm1
	movdqa %xmm1, %xmm5
	pslld $27, %xmm1
	psrld $5, %xmm5
	por %xmm5, %xmm1
	movdqa %xmm13, %xmm5
	movdqa %xmm15, %xmm3
	pandn %xmm15, %xmm5
	movdqa %xmm7, %xmm10
	pand %xmm13, %xmm10
	por %xmm5, %xmm10
	movd 96(%rax,%rdx), %xmm5
	pshufd $0, %xmm5, %xmm15
	paddd %xmm11, %xmm15
	paddd %xmm6, %xmm15
	paddd %xmm10, %xmm15
	pxor %xmm13, %xmm1
	movdqa %xmm1, %xmm2
	psrld $6, %xmm2
	pslld $26, %xmm1
	por %xmm2, %xmm1
	movdqa %xmm4, %xmm2
	psrld $9, %xmm2
	movdqa %xmm4, %xmm5
	pslld $23, %xmm5
	por %xmm2, %xmm5
	pxor %xmm4, %xmm5
	movdqa %xmm5, %xmm2
	psrld $11, %xmm2
	pslld $21, %xmm5
	por %xmm2, %xmm5
	pxor %xmm4, %xmm5
	movdqa %xmm5, %xmm2
	psrld $2, %xmm2
	pslld $30, %xmm5
	por %xmm2, %xmm5
	paddd %xmm1, %xmm15
	movdqa %xmm4, %xmm6
	pxor %xmm0, %xmm6
	pand %xmm6, %xmm9
	pxor %xmm0, %xmm9
	paddd %xmm5, %xmm9
	paddd %xmm15, %xmm9
	paddd 448(%rsp), %xmm15
	movdqa %xmm15, %xmm2
	psrld $14, %xmm2
	movdqa %xmm15, %xmm10
	pslld $18, %xmm10
	por %xmm2, %xmm10
	pxor %xmm15, %xmm10
	movdqa %xmm10, %xmm2
	pslld $27, %xmm10
	psrld $5, %xmm2
	por %xmm2, %xmm10
	movdqa %xmm15, %xmm2
	pandn %xmm7, %xmm2
	movdqa %xmm13, %xmm5
	pand %xmm15, %xmm5
	por %xmm2, %xmm5
	movd 100(%rax,%rdx), %xmm2
	pshufd $0, %xmm2, %xmm2
	paddd %xmm14, %xmm2
	paddd %xmm3, %xmm2
	paddd %xmm5, %xmm2
	pxor %xmm15, %xmm10
	movdqa %xmm10, %xmm3
	psrld $6, %xmm3
	pslld $26, %xmm10
	por %xmm3, %xmm10
	movdqa %xmm9, %xmm5
	psrld $9, %xmm5
	movdqa %xmm9, %xmm3
	pslld $23, %xmm3
	por %xmm5, %xmm3
	pxor %xmm9, %xmm3
	movdqa %xmm3, %xmm5
	psrld $11, %xmm5
	pslld $21, %xmm3
	por %xmm5, %xmm3
	pxor %xmm9, %xmm3
	movdqa %xmm3, %xmm5
	psrld $2, %xmm5
	pslld $30, %xmm3
	por %xmm5, %xmm3
	paddd %xmm10, %xmm2
	movdqa %xmm11, 112(%rsp)
	movdqa %xmm11, %xmm5
	psrld $2, %xmm5
	movdqa %xmm11, %xmm10
	pslld $30, %xmm10
	por %xmm5, %xmm10
	pxor %xmm11, %xmm10
	movdqa %xmm10, %xmm5
	psrld $17, %xmm5
	pslld $15, %xmm10
	por %xmm5, %xmm10
	psrld $10, %xmm11
	pxor %xmm10, %xmm11
	movdqa (%rsp), %xmm1
	paddd 240(%rsp), %xmm1
	paddd %xmm11, %xmm1
	movdqa %xmm1, %xmm11
	movdqa %xmm9, %xmm5
	pxor %xmm4, %xmm5
	pand %xmm5, %xmm6
	pxor %xmm4, %xmm6
	paddd %xmm3, %xmm6
	movdqa %xmm14, 48(%rsp)
	movdqa %xmm14, %xmm3
	psrld $2, %xmm3
	movdqa %xmm14, %xmm10
	pslld $30, %xmm10
	por %xmm3, %xmm10
	pxor %xmm14, %xmm10
	movdqa %xmm10, %xmm3
	psrld $17, %xmm3
	pslld $15, %xmm10
	por %xmm3, %xmm10
	paddd %xmm2, %xmm6
	paddd %xmm12, %xmm2
	psrld $10, %xmm14
	pxor %xmm10, %xmm14
	movdqa 64(%rsp), %xmm8
	paddd 80(%rsp), %xmm8
	paddd %xmm14, %xmm8
	movdqa %xmm2, %xmm3
	psrld $14, %xmm3
	movdqa %xmm2, %xmm10
	pslld $18, %xmm10
	por %xmm3, %xmm10
	pxor %xmm2, %xmm10
	movdqa %xmm10, %xmm3
	psrld $5, %xmm3
	pslld $27, %xmm10
	por %xmm3, %xmm10
	pxor %xmm2, %xmm10
	movdqa %xmm10, %xmm3
	psrld $6, %xmm3
	pslld $26, %xmm10
	por %xmm3, %xmm10
	movdqa %xmm15, %xmm3
	pand %xmm2, %xmm3
	movdqa %xmm2, %xmm14
	pandn %xmm13, %xmm14
	por %xmm14, %xmm3
	movd 104(%rax,%rdx), %xmm14
	pshufd $0, %xmm14, %xmm14
	paddd %xmm1, %xmm14
	paddd %xmm7, %xmm14
	paddd %xmm3, %xmm14
	movdqa %xmm6, %xmm3
	psrld $9, %xmm3
	movdqa %xmm6, %xmm1
	pslld $23, %xmm1
	por %xmm3, %xmm1
	paddd %xmm10, %xmm14
	pxor %xmm6, %xmm1
	movdqa %xmm1, %xmm3
	pslld $21, %xmm1
	psrld $11, %xmm3
	por %xmm3, %xmm1
	pxor %xmm6, %xmm1
	movdqa %xmm1, %xmm3
	psrld $2, %xmm3
	pslld $30, %xmm1
	por %xmm3, %xmm1
	movdqa %xmm6, %xmm7
	pxor %xmm9, %xmm7
	pand %xmm7, %xmm5
	pxor %xmm9, %xmm5
	paddd %xmm1, %xmm5
	paddd %xmm14, %xmm5
	paddd %xmm0, %xmm14
	movdqa %xmm14, %xmm0
	psrld $14, %xmm0
	movdqa %xmm14, %xmm3
	pslld $18, %xmm3
	por %xmm0, %xmm3
	movdqa %xmm14, %xmm0
	pandn %xmm15, %xmm0
	movdqa %xmm2, %xmm1
	pand %xmm14, %xmm1
	por %xmm0, %xmm1
	movd 108(%rax,%rdx), %xmm0
	pshufd $0, %xmm0, %xmm0
	paddd %xmm8, %xmm0
	paddd %xmm13, %xmm0
	pxor %xmm14, %xmm3
	movdqa %xmm3, %xmm10
	psrld $5, %xmm10
	pslld $27, %xmm3
	por %xmm10, %xmm3
	paddd %xmm1, %xmm0
	movdqa %xmm5, %xmm1
	psrld $9, %xmm1
	movdqa %xmm5, %xmm10
	pslld $23, %xmm10
	por %xmm1, %xmm10
	pxor %xmm5, %xmm10
	movdqa %xmm10, %xmm1
	psrld $11, %xmm1
	pslld $21, %xmm10
	por %xmm1, %xmm10
	pxor %xmm14, %xmm3
	movdqa %xmm3, %xmm1
	psrld $6, %xmm1
	pslld $26, %xmm3
	por %xmm1, %xmm3
	pxor %xmm5, %xmm10
	movdqa %xmm10, %xmm1
	pslld $30, %xmm10
	psrld $2, %xmm1
	por %xmm1, %xmm10
	movdqa %xmm11, (%rsp)
	movdqa %xmm11, %xmm1
	psrld $2, %xmm1
	movdqa %xmm11, %xmm13
	pslld $30, %xmm13
	por %xmm1, %xmm13
	pxor %xmm11, %xmm13
	movdqa %xmm13, %xmm1
	psrld $17, %xmm1
	pslld $15, %xmm13
	por %xmm1, %xmm13
	paddd %xmm3, %xmm0
	psrld $10, %xmm11
	pxor %xmm13, %xmm11
	movdqa %xmm5, %xmm12
	pxor %xmm6, %xmm12
	pand %xmm12, %xmm7
	pxor %xmm6, %xmm7
	paddd %xmm10, %xmm7
	movdqa 32(%rsp), %xmm13
	paddd 208(%rsp), %xmm13
	paddd %xmm11, %xmm13
	paddd %xmm0, %xmm7
	paddd %xmm4, %xmm0
	movdqa %xmm8, 64(%rsp)
	movdqa %xmm8, %xmm1
	psrld $2, %xmm1
	movdqa %xmm8, %xmm3
	pslld $30, %xmm3
	por %xmm1, %xmm3
	pxor %xmm8, %xmm3
	movdqa %xmm3, %xmm1
	psrld $17, %xmm1
	pslld $15, %xmm3
	por %xmm1, %xmm3
	psrld $10, %xmm8
	pxor %xmm3, %xmm8
	movdqa 16(%rsp), %xmm3
	paddd 176(%rsp), %xmm3
	paddd %xmm8, %xmm3
	movdqa %xmm3, %xmm11
	movdqa %xmm0, %xmm1
	psrld $14, %xmm1
	movdqa %xmm0, %xmm4
	pslld $18, %xmm4
	por %xmm1, %xmm4
	pxor %xmm0, %xmm4
	movdqa %xmm4, %xmm1
	pslld $27, %xmm4
	psrld $5, %xmm1
	por %xmm1, %xmm4
	movdqa %xmm0, %xmm1
	pandn %xmm2, %xmm1
	movdqa %xmm14, %xmm10
	pand %xmm0, %xmm10
	por %xmm1, %xmm10
	movd 112(%rax,%rdx), %xmm1
	pshufd $0, %xmm1, %xmm3
	paddd %xmm13, %xmm3
	paddd %xmm15, %xmm3
	paddd %xmm10, %xmm3
	pxor %xmm0, %xmm4
	movdqa %xmm4, %xmm1
	psrld $6, %xmm1
	pslld $26, %xmm4
	por %xmm1, %xmm4
	movdqa %xmm7, %xmm1
	psrld $9, %xmm1
	movdqa %xmm7, %xmm10
	pslld $23, %xmm10
	por %xmm1, %xmm10
	pxor %xmm7, %xmm10
	movdqa %xmm10, %xmm1
	psrld $11, %xmm1
	pslld $21, %xmm10
	por %xmm1, %xmm10
	pxor %xmm7, %xmm10
	movdqa %xmm10, %xmm1
	psrld $2, %xmm1
	pslld $30, %xmm10
	por %xmm1, %xmm10
	paddd %xmm4, %xmm3
	movdqa %xmm7, %xmm4
	pxor %xmm5, %xmm4
	pand %xmm4, %xmm12
	pxor %xmm5, %xmm12
	paddd %xmm10, %xmm12
	paddd %xmm3, %xmm12
	paddd %xmm9, %xmm3
	movdqa %xmm3, %xmm1
	psrld $14, %xmm1
	movdqa %xmm3, %xmm9
	pslld $18, %xmm9
	por %xmm1, %xmm9
	pxor %xmm3, %xmm9
	movdqa %xmm9, %xmm1
	pslld $27, %xmm9
	psrld $5, %xmm1
	por %xmm1, %xmm9
	movdqa %xmm3, %xmm1
	pandn %xmm14, %xmm1
	movdqa %xmm0, %xmm10
	pand %xmm3, %xmm10
	por %xmm1, %xmm10
	movd 116(%rax,%rdx), %xmm1
	pshufd $0, %xmm1, %xmm15
	paddd %xmm11, %xmm15
	paddd %xmm2, %xmm15
	paddd %xmm10, %xmm15
	pxor %xmm3, %xmm9
	movdqa %xmm9, %xmm1
	psrld $6, %xmm1
	pslld $26, %xmm9
	por %xmm1, %xmm9
	movdqa %xmm12, %xmm1
	psrld $9, %xmm1
	movdqa %xmm12, %xmm10
	pslld $23, %xmm10
	por %xmm1, %xmm10
	pxor %xmm12, %xmm10
	movdqa %xmm10, %xmm1
	psrld $11, %xmm1
	pslld $21, %xmm10
	por %xmm1, %xmm10
	pxor %xmm12, %xmm10
	movdqa %xmm10, %xmm1
	psrld $2, %xmm1
	pslld $30, %xmm10
	por %xmm1, %xmm10
	paddd %xmm9, %xmm15
	movdqa %xmm13, 32(%rsp)
	movdqa %xmm13, %xmm1
	psrld $2, %xmm1
	movdqa %xmm13, %xmm2
	pslld $30, %xmm2
	por %xmm1, %xmm2
	pxor %xmm13, %xmm2
	movdqa %xmm2, %xmm1
	psrld $17, %xmm1
	pslld $15, %xmm2
	por %xmm1, %xmm2
	movdqa %xmm13, %xmm1
	psrld $10, %xmm1
	pxor %xmm2, %xmm1
	movdqa 464(%rsp), %xmm8
	paddd 128(%rsp), %xmm8
	paddd %xmm1, %xmm8
	movdqa %xmm12, %xmm13
	pxor %xmm7, %xmm13
	pand %xmm13, %xmm4
	pxor %xmm7, %xmm4
	paddd %xmm10, %xmm4
	movdqa %xmm11, 16(%rsp)
	movdqa %xmm11, %xmm1
	psrld $2, %xmm1
	movdqa %xmm11, %xmm9
	pslld $30, %xmm9
	por %xmm1, %xmm9
	pxor %xmm11, %xmm9
	movdqa %xmm9, %xmm1
	psrld $17, %xmm1
	pslld $15, %xmm9
	por %xmm1, %xmm9
	paddd %xmm15, %xmm4
	paddd %xmm6, %xmm15
	movdqa %xmm11, %xmm1
	psrld $10, %xmm1
	pxor %xmm9, %xmm1
	movdqa 224(%rsp), %xmm2
	paddd 112(%rsp), %xmm2
	paddd %xmm1, %xmm2
	movdqa %xmm15, %xmm6
	psrld $14, %xmm6
	movdqa %xmm15, %xmm1
	pslld $18, %xmm1
	por %xmm6, %xmm1
	pxor %xmm15, %xmm1
	movdqa %xmm1, %xmm6
	psrld $5, %xmm6
	pslld $27, %xmm1
	por %xmm6, %xmm1
	pxor %xmm15, %xmm1
	movdqa %xmm1, %xmm6
	psrld $6, %xmm6
	pslld $26, %xmm1
	por %xmm6, %xmm1
	movdqa %xmm3, %xmm6
	pand %xmm15, %xmm6
	movdqa %xmm15, %xmm9
	pandn %xmm0, %xmm9
	por %xmm9, %xmm6
	movd 120(%rax,%rdx), %xmm9
	pshufd $0, %xmm9, %xmm9
	paddd %xmm8, %xmm9
	paddd %xmm14, %xmm9
	paddd %xmm6, %xmm9
	movdqa %xmm4, %xmm6
	psrld $9, %xmm6
	movdqa %xmm4, %xmm10
	pslld $23, %xmm10
	por %xmm6, %xmm10
	paddd %xmm1, %xmm9
	pxor %xmm4, %xmm10
	movdqa %xmm10, %xmm1
	pslld $21, %xmm10
	psrld $11, %xmm1
	por %xmm1, %xmm10
	pxor %xmm4, %xmm10
	movdqa %xmm10, %xmm1
	psrld $2, %xmm1
	pslld $30, %xmm10
	por %xmm1, %xmm10
	movdqa %xmm4, %xmm1
	pxor %xmm12, %xmm1
	pand %xmm1, %xmm13
	pxor %xmm12, %xmm13
	paddd %xmm10, %xmm13
	paddd %xmm9, %xmm13
	paddd %xmm5, %xmm9
	movdqa %xmm9, %xmm5
	psrld $14, %xmm5
	movdqa %xmm9, %xmm14
	pslld $18, %xmm14
	por %xmm5, %xmm14
	pxor %xmm9, %xmm14
	movdqa %xmm14, %xmm5
	psrld $5, %xmm5
	pslld $27, %xmm14
	por %xmm5, %xmm14
	pxor %xmm9, %xmm14
	movdqa %xmm14, %xmm5
	psrld $6, %xmm5
	pslld $26, %xmm14
	por %xmm5, %xmm14
	movdqa %xmm15, %xmm5
	pand %xmm9, %xmm5
	movdqa %xmm9, %xmm6
	pandn %xmm3, %xmm6
	por %xmm6, %xmm5
	movd 124(%rax,%rdx), %xmm6
	pshufd $0, %xmm6, %xmm10
	paddd %xmm2, %xmm10
	paddd %xmm0, %xmm10
	paddd %xmm5, %xmm10
	movdqa %xmm13, %xmm0
	psrld $9, %xmm0
	movdqa %xmm13, %xmm5
	pslld $23, %xmm5
	por %xmm0, %xmm5
	paddd %xmm14, %xmm10
	pxor %xmm13, %xmm5
	movdqa %xmm5, %xmm0
	pslld $21, %xmm5
	psrld $11, %xmm0
	por %xmm0, %xmm5
	pxor %xmm13, %xmm5
	movdqa %xmm5, %xmm0
	psrld $2, %xmm0
	pslld $30, %xmm5
	por %xmm0, %xmm5
	movdqa %xmm13, %xmm0
	pand %xmm1, %xmm0
	pandn %xmm4, %xmm1
	por %xmm0, %xmm1
	paddd %xmm5, %xmm1
	paddd %xmm10, %xmm1
	paddd %xmm7, %xmm10
	movaps 48(%rsp), %xmm0
	movaps %xmm0, 96(%rsp)
	movaps (%rsp), %xmm0
	movaps %xmm0, 192(%rsp)
	movaps 64(%rsp), %xmm0
	movaps %xmm0, 48(%rsp)
	movaps 32(%rsp), %xmm0
	movaps %xmm0, (%rsp)
	movaps 16(%rsp), %xmm0
	movaps %xmm0, 32(%rsp)
	addq $64, %rax
	movdqa %xmm8, %xmm0
	movdqa %xmm2, %xmm8
	cmpq $192, %rax
	jne .LBB10_1
	paddd 368(%rsp), %xmm1
	paddd 352(%rsp), %xmm13
	paddd 336(%rsp), %xmm4
	paddd 320(%rsp), %xmm12
	paddd 432(%rsp), %xmm10
	paddd 400(%rsp), %xmm9
	paddd 416(%rsp), %xmm15
	paddd 384(%rsp), %xmm3
	movdqu %xmm1, (%rcx)
	movdqu %xmm13, 16(%rcx)
	movdqu %xmm4, 32(%rcx)
	movdqu %xmm12, 48(%rcx)
	movdqu %xmm10, 64(%rcx)
	movdqu %xmm9, 80(%rcx)
	movdqu %xmm15, 96(%rcx)
	movdqu %xmm3, 112(%rcx)
	movq (%r8), %rax
	movq 8(%r8), %rcx
	addq $4, %rax
	adcq $0, %rcx
	movq $-1, %rdx
	cmovbq %rdx, %rcx
	cmovbq %rdx, %rax
	movq %rax, (%r8)
	movq %rcx, 8(%r8)
	movaps 608(%rsp), %xmm6
	movaps 624(%rsp), %xmm7
	movaps 640(%rsp), %xmm8
	movaps 656(%rsp), %xmm9
	movaps 672(%rsp), %xmm10
	movaps 688(%rsp), %xmm11
	movaps 704(%rsp), %xmm12
	movaps 720(%rsp), %xmm13
	movaps 736(%rsp), %xmm14
	movaps 752(%rsp), %xmm15
	addq $776, %rsp
	retq
	.seh_endproc
	.p2align 4
ring.raw.context.RawContext.run:
.seh_proc ring.raw.context.RawContext.run
	pushq %r15
	.seh_pushreg %r15
	pushq %r14
	.seh_pushreg %r14
	pushq %r13
	.seh_pushreg %r13
	pushq %r12
	.seh_pushreg %r12
	pushq %rsi
	.seh_pushreg %rsi
	pushq %rdi
	.seh_pushreg %rdi
	pushq %rbp
	.seh_pushreg %rbp
	pushq %rbx
	.seh_pushreg %rbx
	subq $216, %rsp
	.seh_stackalloc 216
	.seh_endprologue
	movq %rcx, %rsi
	movl (%rcx), %ecx
	xorl %eax, %eax
	decl %ecx
	cmpl $4, %ecx
	ja .LBB11_64
	movq %r9, %r14
	movq %r8, %rdi
	movq %rdx, %rbx
	movl $128, %r8d
	leaq .LJTI11_0(%rip), %rdx
	movslq (%rdx,%rcx,4), %rcx
	addq %rdx, %rcx
	jmpq *%rcx
.LBB11_2:
	movl $64, %r8d
	movb $1, %al
	xorl %ecx, %ecx
	movl 4(%rsi), %edx
	cmpl %edx, %r8d
	ja .LBB11_6
	jmp .LBB11_17
.LBB11_3:
	movb $4, %cl
	xorl %eax, %eax
	movl 4(%rsi), %edx
	cmpl %edx, %r8d
	jbe .LBB11_17
.LBB11_6:
	movq 8(%rsi), %r13
	movq 16(%rsi), %rbp
	testb %al, %al
	je .LBB11_12
	xorps %xmm0, %xmm0
	movaps %xmm0, 128(%rsp)
	movq %r13, 48(%rsp)
	movq %rbp, 56(%rsp)
	leaq 64(%rsp), %r12
	movl $1, 64(%rsp)
	movups 24(%rsi), %xmm1
	movups 40(%rsi), %xmm2
	shufps $136, %xmm2, %xmm1
	movups %xmm1, 68(%rsp)
	movups 56(%rsi), %xmm1
	movups 72(%rsi), %xmm2
	shufps $136, %xmm2, %xmm1
	movups %xmm1, 84(%rsp)
	movups %xmm0, 100(%rsp)
	movups %xmm0, 116(%rsp)
	movl $0, 132(%rsp)
	movb %cl, 136(%rsp)
	leaq 88(%rsi), %r15
	testq %rdx, %rdx
	je .LBB11_72
	movl $64, %r13d
	subq %rdx, %r13
	leaq (%r15,%rdx), %rax
	movq %rax, %r8
	subq %rbx, %r8
	cmpq %r13, %r8
	jae .LBB11_18
	cmpq $4, %r13
	jb .LBB11_11
	leaq (%rsi,%rdx), %r8
	subq %rbx, %r8
	addq $88, %r8
	cmpq $32, %r8
	jae .LBB11_22
.LBB11_11:
	xorl %r8d, %r8d
	jmp .LBB11_69
.LBB11_12:
	leaq 24(%rsi), %rax
	movups (%rax), %xmm0
	movups 16(%rax), %xmm1
	movups 32(%rax), %xmm2
	movups 48(%rax), %xmm3
	movaps %xmm3, 192(%rsp)
	movaps %xmm2, 176(%rsp)
	movaps %xmm1, 160(%rsp)
	movaps %xmm0, 144(%rsp)
	xorps %xmm4, %xmm4
	movaps %xmm4, 128(%rsp)
	movq %rbp, 56(%rsp)
	movq %r13, 48(%rsp)
	leaq 64(%rsp), %r12
	movq $0, 64(%rsp)
	movups %xmm0, 72(%rsp)
	movups %xmm1, 88(%rsp)
	movups %xmm2, 104(%rsp)
	movups %xmm3, 120(%rsp)
	movb %cl, 136(%rsp)
	leaq 88(%rsi), %r15
	testq %rdx, %rdx
	je .LBB11_42
	movl $128, %r13d
	subq %rdx, %r13
	leaq (%r15,%rdx), %rax
	movq %rax, %r8
	subq %rbx, %r8
	cmpq %r13, %r8
	jae .LBB11_19
	cmpl $124, %edx
	jbe .LBB11_20
	xorl %edx, %edx
	jmp .LBB11_40
.LBB11_4:
	movb $2, %cl
	movl 4(%rsi), %edx
	cmpl %edx, %r8d
	ja .LBB11_6
.LBB11_17:
	xorl %eax, %eax
	jmp .LBB11_64
.LBB11_5:
	movb $3, %cl
	xorl %eax, %eax
	movl 4(%rsi), %edx
	cmpl %edx, %r8d
	jbe .LBB11_17
	jmp .LBB11_6
.LBB11_16:
	movl $64, %r8d
	movb $1, %al
	movb $1, %cl
	movl 4(%rsi), %edx
	cmpl %edx, %r8d
	ja .LBB11_6
	jmp .LBB11_17
.LBB11_18:
	movl %ecx, %ebp
	movq %rax, %rcx
	movq %rbx, %rdx
	movq %r13, %r8
	callq memmove
	movl %ebp, %ecx
	jmp .LBB11_71
.LBB11_19:
	movl %ecx, %ebp
	movq %rax, %rcx
	movq %rbx, %rdx
	movq %r13, %r8
	callq memmove
	movl %ebp, %ecx
	jmp .LBB11_41
.LBB11_20:
	leaq (%rsi,%rdx), %r8
	subq %rbx, %r8
	addq $88, %r8
	cmpq $32, %r8
	jae .LBB11_24
	xorl %edx, %edx
	jmp .LBB11_40
.LBB11_22:
	cmpq $32, %r13
	jae .LBB11_26
	xorl %r8d, %r8d
	jmp .LBB11_30
.LBB11_24:
	cmpl $96, %edx
	jbe .LBB11_32
	xorl %edx, %edx
	jmp .LBB11_37
.LBB11_26:
	movq %r13, %r8
	andq $-32, %r8
	addq %rsi, %rdx
	addq $104, %rdx
	xorl %r9d, %r9d
	.p2align 4
.LBB11_27:
	movups (%rbx,%r9), %xmm0
	movups 16(%rbx,%r9), %xmm1
	movups %xmm0, -16(%rdx,%r9)
	movups %xmm1, (%rdx,%r9)
	addq $32, %r9
	cmpq %r9, %r8
	jne .LBB11_27
	cmpq %r8, %r13
	je .LBB11_71
	testb $28, %r13b
	je .LBB11_69
.LBB11_30:
	movq %r8, %rdx
	movq %r13, %r8
	andq $-4, %r8
	.p2align 4
.LBB11_31:
	movl (%rbx,%rdx), %r9d
	movl %r9d, (%rax,%rdx)
	addq $4, %rdx
	cmpq %rdx, %r8
	jne .LBB11_31
	jmp .LBB11_70
.LBB11_32:
	movl %r13d, %edx
	andl $-32, %edx
	movups (%rbx), %xmm0
	movups 16(%rbx), %xmm1
	movups %xmm0, (%rax)
	movups %xmm1, 16(%rax)
	cmpq $32, %rdx
	je .LBB11_35
	movups 32(%rbx), %xmm0
	movups 48(%rbx), %xmm1
	movups %xmm0, 32(%rax)
	movups %xmm1, 48(%rax)
	cmpl $64, %edx
	je .LBB11_35
	movups 64(%rbx), %xmm0
	movups 80(%rbx), %xmm1
	movups %xmm0, 64(%rax)
	movups %xmm1, 80(%rax)
.LBB11_35:
	cmpl %edx, %r13d
	je .LBB11_41
	testb $28, %r13b
	je .LBB11_40
.LBB11_37:
	movq %rdx, %r8
	movl %r13d, %edx
	andl $-4, %edx
	.p2align 4
.LBB11_38:
	movl (%rbx,%r8), %r9d
	movl %r9d, (%rax,%r8)
	addq $4, %r8
	cmpq %r8, %rdx
	jne .LBB11_38
	cmpl %edx, %r13d
	je .LBB11_41
	.p2align 4
.LBB11_40:
	movzbl (%rbx,%rdx), %r8d
	movb %r8b, (%rax,%rdx)
	incq %rdx
	cmpq %rdx, %r13
	jne .LBB11_40
.LBB11_41:
	addq %r13, %rbx
	subq %r13, %rdi
	movq %r14, 32(%rsp)
	movl $128, %r13d
	movl $128, %r9d
	movq %r12, %rdx
	movq %r15, %r8
	callq ring.digest.block_context.run_blocks
	subq %rdx, %r13
	addq 48(%rsp), %r13
	movq 56(%rsp), %rbp
	adcq $0, %rbp
	movq $-1, %rax
	cmovbq %rax, %rbp
	cmovbq %rax, %r13
	movq %r13, 48(%rsp)
	movq %rbp, 56(%rsp)
	movzbl 136(%rsp), %ecx
.LBB11_42:
	xorl %eax, %eax
	cmpb $2, %cl
	setae %al
	shll $6, %eax
	addq $64, %rax
	cmpq %rax, %rdi
	jb .LBB11_44
	movq %r14, 32(%rsp)
	movq %r12, %rdx
	movq %rbx, %r8
	movq %rdi, %r9
	callq ring.digest.block_context.run_blocks
	subq %rdx, %rdi
	movq 56(%rsp), %rbp
	addq 48(%rsp), %rdi
	adcq $0, %rbp
	movq $-1, %rcx
	cmovbq %rcx, %rbp
	movq %rdi, %r13
	cmovbq %rcx, %r13
	movq %rax, %rbx
	movq %r13, 48(%rsp)
	movq %rbp, 56(%rsp)
	movq %rdx, %rdi
.LBB11_44:
	testq %rdi, %rdi
	je .LBB11_65
	movq %r15, %rax
	subq %rbx, %rax
	cmpq %rdi, %rax
	jae .LBB11_78
	cmpq $4, %rdi
	jb .LBB11_47
	movq %rsi, %rax
	subq %rbx, %rax
	addq $88, %rax
	cmpq $32, %rax
	jae .LBB11_50
.LBB11_47:
	xorl %eax, %eax
.LBB11_59:
	movq %rdi, %rdx
	movq %rax, %rcx
	andq $3, %rdx
	je .LBB11_62
	movq %rax, %rcx
	.p2align 4
.LBB11_61:
	movzbl (%rbx,%rcx), %r8d
	movb %r8b, (%r15,%rcx)
	incq %rcx
	decq %rdx
	jne .LBB11_61
.LBB11_62:
	subq %rdi, %rax
	cmpq $-4, %rax
	ja .LBB11_65
	.p2align 4
.LBB11_63:
	movzbl (%rbx,%rcx), %eax
	movb %al, 88(%rsi,%rcx)
	movzbl 1(%rbx,%rcx), %eax
	movb %al, 89(%rsi,%rcx)
	movzbl 2(%rbx,%rcx), %eax
	movb %al, 90(%rsi,%rcx)
	movzbl 3(%rbx,%rcx), %eax
	movb %al, 91(%rsi,%rcx)
	addq $4, %rcx
	cmpq %rcx, %rdi
	jne .LBB11_63
	jmp .LBB11_65
.LBB11_50:
	cmpq $32, %rdi
	jae .LBB11_52
	xorl %eax, %eax
	jmp .LBB11_56
.LBB11_52:
	movq %rdi, %rax
	andq $-32, %rax
	xorl %ecx, %ecx
	.p2align 4
.LBB11_53:
	movups (%rbx,%rcx), %xmm0
	movups 16(%rbx,%rcx), %xmm1
	movups %xmm0, 88(%rsi,%rcx)
	movups %xmm1, 104(%rsi,%rcx)
	addq $32, %rcx
	cmpq %rcx, %rax
	jne .LBB11_53
	cmpq %rax, %rdi
	je .LBB11_65
	testb $28, %dil
	je .LBB11_59
.LBB11_56:
	movq %rax, %rcx
	movq %rdi, %rax
	andq $-4, %rax
	.p2align 4
.LBB11_57:
	movl (%rbx,%rcx), %edx
	movl %edx, (%r15,%rcx)
	addq $4, %rcx
	cmpq %rcx, %rax
	jne .LBB11_57
	cmpq %rax, %rdi
	je .LBB11_65
	jmp .LBB11_59
.LBB11_69:
	movzbl (%rbx,%r8), %edx
	movb %dl, (%rax,%r8)
	incq %r8
.LBB11_70:
	cmpq %r8, %r13
	jne .LBB11_69
.LBB11_71:
	addq %r13, %rbx
	subq %r13, %rdi
	movq %r14, 32(%rsp)
	movl $64, %r13d
	movl $64, %r9d
	movq %r12, %rdx
	movq %r15, %r8
	callq ring.digest.block_context.run_blocks
	subq %rdx, %r13
	addq 48(%rsp), %r13
	movq 56(%rsp), %rbp
	adcq $0, %rbp
	movq $-1, %rax
	cmovbq %rax, %rbp
	cmovbq %rax, %r13
	movq %r13, 48(%rsp)
	movq %rbp, 56(%rsp)
	movzbl 136(%rsp), %ecx
.LBB11_72:
	xorl %eax, %eax
	cmpb $2, %cl
	setae %al
	shll $6, %eax
	addq $64, %rax
	cmpq %rax, %rdi
	jb .LBB11_74
	movq %r14, 32(%rsp)
	movq %r12, %rdx
	movq %rbx, %r8
	movq %rdi, %r9
	callq ring.digest.block_context.run_blocks
	subq %rdx, %rdi
	movq 56(%rsp), %rbp
	addq 48(%rsp), %rdi
	adcq $0, %rbp
	movq $-1, %rcx
	cmovbq %rcx, %rbp
	movq %rdi, %r13
	cmovbq %rcx, %r13
	movq %rax, %rbx
	movq %r13, 48(%rsp)
	movq %rbp, 56(%rsp)
	movq %rdx, %rdi
.LBB11_74:
	testq %rdi, %rdi
	je .LBB11_65
	movq %r15, %rax
	subq %rbx, %rax
	cmpq %rdi, %rax
	jae .LBB11_78
	cmpq $4, %rdi
	jb .LBB11_77
	movq %rsi, %rax
	subq %rbx, %rax
	addq $88, %rax
	cmpq $32, %rax
	jae .LBB11_81
.LBB11_77:
	xorl %eax, %eax
.LBB11_90:
	movq %rdi, %rdx
	movq %rax, %rcx
	andq $3, %rdx
	je .LBB11_93
	movq %rax, %rcx
	.p2align 4
.LBB11_92:
	movzbl (%rbx,%rcx), %r8d
	movb %r8b, (%r15,%rcx)
	incq %rcx
	decq %rdx
	jne .LBB11_92
.LBB11_93:
	subq %rdi, %rax
	cmpq $-4, %rax
	ja .LBB11_65
	.p2align 4
.LBB11_94:
	movzbl (%rbx,%rcx), %eax
	movb %al, 88(%rsi,%rcx)
	movzbl 1(%rbx,%rcx), %eax
	movb %al, 89(%rsi,%rcx)
	movzbl 2(%rbx,%rcx), %eax
	movb %al, 90(%rsi,%rcx)
	movzbl 3(%rbx,%rcx), %eax
	movb %al, 91(%rsi,%rcx)
	addq $4, %rcx
	cmpq %rcx, %rdi
	jne .LBB11_94
	jmp .LBB11_65
.LBB11_78:
	movq %r15, %rcx
	movq %rbx, %rdx
	movq %rdi, %r8
	callq memmove
.LBB11_65:
	movl %edi, 4(%rsi)
	movq %r13, 8(%rsi)
	movq %rbp, 16(%rsi)
	cmpb $0, 64(%rsp)
	je .LBB11_67
	pmovzxdq 68(%rsp), %xmm0
	pmovzxdq 76(%rsp), %xmm1
	pmovzxdq 84(%rsp), %xmm2
	pmovzxdq 92(%rsp), %xmm3
	jmp .LBB11_68
.LBB11_67:
	movdqu 72(%rsp), %xmm0
	movdqu 88(%rsp), %xmm1
	movdqu 104(%rsp), %xmm2
	movdqu 120(%rsp), %xmm3
.LBB11_68:
	movdqu %xmm0, 24(%rsi)
	movdqu %xmm1, 40(%rsi)
	movdqu %xmm2, 56(%rsi)
	movdqu %xmm3, 72(%rsi)
	movb $1, %al
.LBB11_64:
	addq $216, %rsp
	popq %rbx
	popq %rbp
	popq %rdi
	popq %rsi
	popq %r12
	popq %r13
	popq %r14
	popq %r15
	retq
.LBB11_81:
	cmpq $32, %rdi
	jae .LBB11_83
	xorl %eax, %eax
	jmp .LBB11_87
.LBB11_83:
	movq %rdi, %rax
	andq $-32, %rax
	xorl %ecx, %ecx
	.p2align 4
.LBB11_84:
	movups (%rbx,%rcx), %xmm0
	movups 16(%rbx,%rcx), %xmm1
	movups %xmm0, 88(%rsi,%rcx)
	movups %xmm1, 104(%rsi,%rcx)
	addq $32, %rcx
	cmpq %rcx, %rax
	jne .LBB11_84
	cmpq %rax, %rdi
	je .LBB11_65
	testb $28, %dil
	je .LBB11_90
.LBB11_87:
	movq %rax, %rcx
	movq %rdi, %rax
	andq $-4, %rax
	.p2align 4
.LBB11_88:
	movl (%rbx,%rcx), %edx
	movl %edx, (%r15,%rcx)
	addq $4, %rcx
	cmpq %rcx, %rax
	jne .LBB11_88
	cmpq %rax, %rdi
	je .LBB11_65
	jmp .LBB11_90
	.section .rdata,"dr"
	.p2align 2, 0x0
.LJTI11_0:
	.long .LBB11_2-.LJTI11_0
	.long .LBB11_16-.LJTI11_0
	.long .LBB11_4-.LJTI11_0
	.long .LBB11_5-.LJTI11_0
	.long .LBB11_3-.LJTI11_0
	.text
	.seh_endproc
	.section .rdata,"dr"
	.p2align 4, 0x0
.LCPI12_0:
	.zero 16,54
.LCPI12_1:
	.zero 16,92
	.text
	.p2align 4
ring.hmac.key.Key.new_counted:
.seh_proc ring.hmac.key.Key.new_counted
	pushq %r15
	.seh_pushreg %r15
	pushq %r14
	.seh_pushreg %r14
	pushq %r13
	.seh_pushreg %r13
	pushq %r12
	.seh_pushreg %r12
	pushq %rsi
	.seh_pushreg %rsi
	pushq %rdi
	.seh_pushreg %rdi
	pushq %rbp
	.seh_pushreg %rbp
	pushq %rbx
	.seh_pushreg %rbx
	subq $952, %rsp
	.seh_stackalloc 952
	movaps %xmm6, 928(%rsp)
	.seh_savexmm %xmm6, 928
	.seh_endprologue
	movl %edx, %r13d
	movq %rcx, %rsi
	movq 1056(%rsp), %rax
	xorps %xmm0, %xmm0
	movaps %xmm0, 336(%rsp)
	movaps %xmm0, 592(%rsp)
	movaps %xmm0, 608(%rsp)
	movaps %xmm0, 624(%rsp)
	movaps %xmm0, 640(%rsp)
	movl $0, 656(%rsp)
	movaps %xmm0, 160(%rsp)
	movaps %xmm0, 512(%rsp)
	movaps %xmm0, 528(%rsp)
	movaps %xmm0, 544(%rsp)
	movaps %xmm0, 560(%rsp)
	movl $0, 576(%rsp)
	movaps %xmm0, 176(%rsp)
	movq $0, 191(%rsp)
	movaps %xmm0, 432(%rsp)
	movaps %xmm0, 416(%rsp)
	movaps %xmm0, 400(%rsp)
	movaps %xmm0, 384(%rsp)
	movw $0, 448(%rsp)
	xorl %edi, %edi
	cmpb $2, %dl
	setae %dil
	shll $6, %edi
	addq $64, %rdi
	cmpq %rdi, %r9
	jbe .LBB12_1
	movq %rax, 32(%rsp)
	leaq 384(%rsp), %rcx
	movl %r13d, %edx
	callq ring.digest.context.digest_counted
	cmpb $0, 384(%rsp)
	je .LBB12_3
	movb $1, (%rsi)
	xorps %xmm0, %xmm0
	movups %xmm0, 16(%rsi)
	movups %xmm0, 32(%rsi)
	movups %xmm0, 48(%rsi)
	movups %xmm0, 64(%rsi)
	movups %xmm0, 80(%rsi)
	movups %xmm0, 96(%rsi)
	movups %xmm0, 112(%rsi)
	movups %xmm0, 128(%rsi)
	movups %xmm0, 144(%rsi)
	movups %xmm0, 160(%rsi)
	movups %xmm0, 176(%rsi)
	movups %xmm0, 192(%rsi)
	jmp .LBB12_10
.LBB12_1:
	movaps %xmm0, 784(%rsp)
	movaps %xmm0, 768(%rsp)
	movaps %xmm0, 752(%rsp)
	movaps %xmm0, 736(%rsp)
	movaps %xmm0, 720(%rsp)
	movaps %xmm0, 704(%rsp)
	movaps %xmm0, 688(%rsp)
	movaps %xmm0, 672(%rsp)
	leaq 672(%rsp), %rcx
	movq %r8, %rdx
	movq %r9, %r8
	callq memcpy
	movaps 672(%rsp), %xmm0
	movaps 688(%rsp), %xmm1
	movaps 704(%rsp), %xmm2
	movaps 720(%rsp), %xmm3
	movaps %xmm0, 208(%rsp)
	movaps %xmm1, 224(%rsp)
	movaps %xmm2, 240(%rsp)
	movaps %xmm3, 256(%rsp)
	movaps 736(%rsp), %xmm0
	movaps %xmm0, 272(%rsp)
	movaps 752(%rsp), %xmm0
	movaps %xmm0, 288(%rsp)
	movaps 768(%rsp), %xmm0
	movaps %xmm0, 304(%rsp)
	movaps 784(%rsp), %xmm0
	jmp .LBB12_9
.LBB12_3:
	movups 385(%rsp), %xmm0
	movups 401(%rsp), %xmm1
	movups 417(%rsp), %xmm2
	movups 433(%rsp), %xmm3
	movaps %xmm3, 96(%rsp)
	movaps %xmm2, 80(%rsp)
	movaps %xmm1, 64(%rsp)
	movaps %xmm0, 48(%rsp)
	movzbl 449(%rsp), %eax
	movb %al, 112(%rsp)
	leaq .LJTI12_0(%rip), %rcx
	movslq (%rcx,%rax,4), %rax
	addq %rcx, %rax
	jmpq *%rax
.LBB12_5:
	leaq 832(%rsp), %rcx
	movl $32, %r14d
	jmp .LBB12_8
.LBB12_7:
	leaq 864(%rsp), %rcx
	movl $64, %r14d
	jmp .LBB12_8
.LBB12_4:
	leaq 820(%rsp), %rcx
	movl $20, %r14d
	jmp .LBB12_8
.LBB12_6:
	leaq 848(%rsp), %rcx
	movl $48, %r14d
.LBB12_8:
	movl $128, %r8d
	subq %r14, %r8
	xorl %edx, %edx
	callq memset
	leaq 800(%rsp), %rcx
	leaq 48(%rsp), %rdx
	movq %r14, %r8
	callq memcpy
	movups 800(%rsp), %xmm0
	movups 816(%rsp), %xmm1
	movups 832(%rsp), %xmm2
	movups 848(%rsp), %xmm3
	movaps %xmm0, 208(%rsp)
	movaps %xmm1, 224(%rsp)
	movaps %xmm2, 240(%rsp)
	movaps %xmm3, 256(%rsp)
	movups 864(%rsp), %xmm0
	movaps %xmm0, 272(%rsp)
	movups 880(%rsp), %xmm0
	movaps %xmm0, 288(%rsp)
	movups 896(%rsp), %xmm0
	movaps %xmm0, 304(%rsp)
	movups 912(%rsp), %xmm0
.LBB12_9:
	movaps %xmm0, 320(%rsp)
	xorps %xmm6, %xmm6
	movaps %xmm6, 128(%rsp)
	movaps .LCPI12_0(%rip), %xmm0
	movaps 208(%rsp), %xmm1
	xorps %xmm0, %xmm1
	movaps 224(%rsp), %xmm2
	xorps %xmm0, %xmm2
	movaps %xmm1, 384(%rsp)
	movaps %xmm2, 400(%rsp)
	movaps 240(%rsp), %xmm1
	xorps %xmm0, %xmm1
	movaps 256(%rsp), %xmm2
	xorps %xmm0, %xmm2
	movaps %xmm1, 416(%rsp)
	movaps %xmm2, 432(%rsp)
	movaps 272(%rsp), %xmm1
	xorps %xmm0, %xmm1
	movaps 288(%rsp), %xmm2
	xorps %xmm0, %xmm2
	movaps %xmm1, 448(%rsp)
	movaps %xmm2, 464(%rsp)
	movaps 304(%rsp), %xmm1
	xorps %xmm0, %xmm1
	xorps 320(%rsp), %xmm0
	movaps %xmm1, 480(%rsp)
	movaps %xmm0, 496(%rsp)
	movzbl %r13b, %eax
	leal (,%rax,4), %ecx
	leaq .Lswitch.table.v2_yz_digest_each.183(%rip), %rdx
	movl (%rcx,%rdx), %r8d
	movl %r8d, 152(%rsp)
	leaq .Lswitch.table.v2_yz_digest_each.184(%rip), %rdx
	movl (%rcx,%rdx), %r9d
	movl %r9d, 148(%rsp)
	shll $3, %eax
	leaq .Lswitch.table.v2_yz_digest_each.185(%rip), %rcx
	movq (%rax,%rcx), %r10
	movq %r10, 376(%rsp)
	leaq .Lswitch.table.v2_yz_digest_each.186(%rip), %rcx
	movq (%rax,%rcx), %r11
	movq %r11, 368(%rsp)
	leaq .Lswitch.table.v2_yz_digest_each.187(%rip), %rcx
	movq (%rax,%rcx), %r14
	movq %r14, 360(%rsp)
	leaq .Lswitch.table.v2_yz_digest_each.188(%rip), %rcx
	movq (%rax,%rcx), %rbp
	movq %rbp, 352(%rsp)
	leaq .Lswitch.table.v2_yz_digest_each.189(%rip), %rcx
	movq (%rax,%rcx), %rbx
	leaq .Lswitch.table.v2_yz_digest_each.190(%rip), %rcx
	movq (%rax,%rcx), %r12
	leaq .Lswitch.table.v2_yz_digest_each.191(%rip), %rcx
	movq (%rax,%rcx), %r15
	leaq .Lswitch.table.v2_yz_digest_each.192(%rip), %rcx
	movq (%rax,%rcx), %rax
	movaps %xmm6, 48(%rsp)
	leaq 64(%rsp), %rdx
	movl %r8d, 64(%rsp)
	movl %r9d, 68(%rsp)
	movq %r10, 72(%rsp)
	movq %r11, 80(%rsp)
	movq %r14, 88(%rsp)
	movq %rbp, 96(%rsp)
	movq %rbx, 104(%rsp)
	movq %r12, 112(%rsp)
	movq %r15, 120(%rsp)
	movq %rax, 128(%rsp)
	movq %rax, %rbp
	movb %r13b, 136(%rsp)
	movq 1056(%rsp), %r14
	movq %r14, 32(%rsp)
	leaq 384(%rsp), %r8
	movl %r13d, %ecx
	movq %rdi, %r9
	callq ring.digest.block_context.run_blocks
	movq %rdi, %rax
	subq %rdx, %rax
	movq 56(%rsp), %rcx
	addq 48(%rsp), %rax
	adcq $0, %rcx
	movq $-1, %rdx
	cmovbq %rdx, %rcx
	cmovbq %rdx, %rax
	movq %rax, 48(%rsp)
	movq %rcx, 56(%rsp)
	movzbl 64(%rsp), %eax
	movl %eax, 156(%rsp)
	movzbl 136(%rsp), %eax
	movb %al, 47(%rsp)
	movq 48(%rsp), %rax
	movq %rax, 336(%rsp)
	movq 56(%rsp), %rax
	movq %rax, 344(%rsp)
	movups 68(%rsp), %xmm0
	movaps %xmm0, 592(%rsp)
	movups 84(%rsp), %xmm0
	movaps %xmm0, 608(%rsp)
	movups 100(%rsp), %xmm0
	movaps %xmm0, 624(%rsp)
	movups 116(%rsp), %xmm0
	movaps %xmm0, 640(%rsp)
	movl 132(%rsp), %eax
	movl %eax, 656(%rsp)
	movaps %xmm6, 128(%rsp)
	movaps .LCPI12_1(%rip), %xmm0
	movaps 208(%rsp), %xmm1
	xorps %xmm0, %xmm1
	movaps 224(%rsp), %xmm2
	xorps %xmm0, %xmm2
	movaps %xmm1, 384(%rsp)
	movaps %xmm2, 400(%rsp)
	movaps 240(%rsp), %xmm1
	xorps %xmm0, %xmm1
	movaps 256(%rsp), %xmm2
	xorps %xmm0, %xmm2
	movaps %xmm1, 416(%rsp)
	movaps %xmm2, 432(%rsp)
	movaps 272(%rsp), %xmm1
	xorps %xmm0, %xmm1
	movaps 288(%rsp), %xmm2
	xorps %xmm0, %xmm2
	movaps %xmm1, 448(%rsp)
	movaps 304(%rsp), %xmm1
	xorps %xmm0, %xmm1
	xorps 320(%rsp), %xmm0
	movaps %xmm2, 464(%rsp)
	movaps %xmm1, 480(%rsp)
	movaps %xmm0, 496(%rsp)
	movaps %xmm6, 48(%rsp)
	leaq 64(%rsp), %rdx
	movl 152(%rsp), %eax
	movl %eax, 64(%rsp)
	movl 148(%rsp), %eax
	movl %eax, 68(%rsp)
	movq 376(%rsp), %rax
	movq %rax, 72(%rsp)
	movq 368(%rsp), %rax
	movq %rax, 80(%rsp)
	movq 360(%rsp), %rax
	movq %rax, 88(%rsp)
	movq 352(%rsp), %rax
	movq %rax, 96(%rsp)
	movq %rbx, 104(%rsp)
	movq %r12, 112(%rsp)
	movq %r15, 120(%rsp)
	movq %rbp, 128(%rsp)
	movb %r13b, 136(%rsp)
	movq %r14, 32(%rsp)
	leaq 384(%rsp), %r8
	movl %r13d, %ecx
	movq %rdi, %r9
	callq ring.digest.block_context.run_blocks
	subq %rdx, %rdi
	movq 56(%rsp), %rax
	addq 48(%rsp), %rdi
	adcq $0, %rax
	movq $-1, %rcx
	cmovbq %rcx, %rax
	cmovbq %rcx, %rdi
	movq %rdi, 48(%rsp)
	movq %rax, 56(%rsp)
	movzbl 64(%rsp), %ecx
	movzbl 136(%rsp), %eax
	movq 48(%rsp), %rdx
	movq %rdx, 160(%rsp)
	movq 56(%rsp), %rdx
	movq %rdx, 168(%rsp)
	movups 68(%rsp), %xmm0
	movaps %xmm0, 512(%rsp)
	movups 84(%rsp), %xmm0
	movaps %xmm0, 528(%rsp)
	movups 100(%rsp), %xmm0
	movaps %xmm0, 544(%rsp)
	movups 116(%rsp), %xmm0
	movaps %xmm0, 560(%rsp)
	movl 132(%rsp), %edx
	movl %edx, 576(%rsp)
	movq 160(%rsp), %rdx
	movq %rdx, 183(%rsp)
	movq 168(%rsp), %rdx
	movq %rdx, 191(%rsp)
	movb $0, (%rsi)
	movaps 336(%rsp), %xmm0
	movups %xmm0, 16(%rsi)
	movl 156(%rsp), %edx
	movl %edx, 32(%rsi)
	movaps 592(%rsp), %xmm0
	movaps 608(%rsp), %xmm1
	movaps 624(%rsp), %xmm2
	movaps 640(%rsp), %xmm3
	movups %xmm0, 36(%rsi)
	movups %xmm1, 52(%rsi)
	movups %xmm2, 68(%rsi)
	movups %xmm3, 84(%rsi)
	movl 656(%rsp), %edx
	movl %edx, 100(%rsi)
	movzbl 47(%rsp), %edx
	movb %dl, 104(%rsi)
	movaps 176(%rsp), %xmm0
	movups %xmm0, 105(%rsi)
	movq 191(%rsp), %rdx
	movq %rdx, 120(%rsi)
	movl %ecx, 128(%rsi)
	movaps 512(%rsp), %xmm0
	movaps 528(%rsp), %xmm1
	movaps 544(%rsp), %xmm2
	movaps 560(%rsp), %xmm3
	movups %xmm0, 132(%rsi)
	movups %xmm1, 148(%rsi)
	movups %xmm2, 164(%rsi)
	movups %xmm3, 180(%rsi)
	movl 576(%rsp), %ecx
	movl %ecx, 196(%rsi)
	movb %al, 200(%rsi)
	movl $0, 204(%rsi)
	movl $0, 201(%rsi)
.LBB12_10:
	movaps 928(%rsp), %xmm6
	addq $952, %rsp
	popq %rbx
	popq %rbp
	popq %rdi
	popq %rsi
	popq %r12
	popq %r13
	popq %r14
	popq %r15
	retq
	.section .rdata,"dr"
	.p2align 2, 0x0
.LJTI12_0:
	.long .LBB12_4-.LJTI12_0
	.long .LBB12_5-.LJTI12_0
	.long .LBB12_6-.LJTI12_0
	.long .LBB12_7-.LJTI12_0
	.long .LBB12_5-.LJTI12_0
	.text
	.seh_endproc
	.p2align 4
ring.hmac.sign_counted:
.seh_proc ring.hmac.sign_counted
	pushq %r15
	.seh_pushreg %r15
	pushq %r14
	.seh_pushreg %r14
	pushq %r12
	.seh_pushreg %r12
	pushq %rsi
	.seh_pushreg %rsi
	pushq %rdi
	.seh_pushreg %rdi
	pushq %rbx
	.seh_pushreg %rbx
	subq $696, %rsp
	.seh_stackalloc 696
	movaps %xmm6, 672(%rsp)
	.seh_savexmm %xmm6, 672
	.seh_endprologue
	movq %rcx, %rsi
	xorps %xmm0, %xmm0
	movaps %xmm0, 128(%rsp)
	movzbl 88(%rdx), %ebx
	cmpb $2, %bl
	setb %al
	movabsq $2305843009213693887, %rcx
	cmpq %rcx, %r9
	seta %cl
	testb %al, %cl
	je .LBB13_2
	movb $1, (%rsi)
	movups %xmm0, 1(%rsi)
	movups %xmm0, 17(%rsi)
	movups %xmm0, 33(%rsi)
	movups %xmm0, 49(%rsi)
	movb $0, 65(%rsi)
	jmp .LBB13_5
.LBB13_2:
	movq %rdx, %rdi
	movq 784(%rsp), %r15
	xorl %edx, %edx
	cmpb $2, %bl
	setae %dl
	movzbl 16(%rdi), %r10d
	movq (%rdi), %rax
	movq 8(%rdi), %rcx
	movq %rax, 48(%rsp)
	movq %rcx, 56(%rsp)
	movl %r10d, 64(%rsp)
	movl 84(%rdi), %r10d
	movl %r10d, 132(%rsp)
	movups 20(%rdi), %xmm0
	movups 36(%rdi), %xmm1
	movups 52(%rdi), %xmm2
	movups 68(%rdi), %xmm3
	movups %xmm3, 116(%rsp)
	movups %xmm2, 100(%rsp)
	movups %xmm1, 84(%rsp)
	movups %xmm0, 68(%rsp)
	movb %bl, 136(%rsp)
	shll $6, %edx
	addq $64, %rdx
	cmpq %rdx, %r9
	jb .LBB13_4
	leaq 64(%rsp), %rdx
	movq %r15, 32(%rsp)
	movl %ebx, %ecx
	movq %r9, %rbx
	callq ring.digest.block_context.run_blocks
	subq %rdx, %rbx
	movq 56(%rsp), %rcx
	addq 48(%rsp), %rbx
	adcq $0, %rcx
	movq $-1, %r9
	cmovbq %r9, %rcx
	movq %rax, %r8
	movq %rbx, %rax
	cmovbq %r9, %rax
	movq %rax, 48(%rsp)
	movq %rcx, 56(%rsp)
	movzbl 136(%rsp), %ebx
	movq %rdx, %r9
.LBB13_4:
	xorps %xmm6, %xmm6
	movaps %xmm6, 192(%rsp)
	movaps %xmm6, 176(%rsp)
	movaps %xmm6, 160(%rsp)
	movaps %xmm6, 144(%rsp)
	addq %r9, %rax
	adcq $0, %rcx
	movq $-1, %r12
	cmovbq %r12, %rax
	cmovbq %r12, %rcx
	movaps %xmm6, 272(%rsp)
	movaps %xmm6, 288(%rsp)
	movaps %xmm6, 304(%rsp)
	movaps %xmm6, 320(%rsp)
	movaps %xmm6, 336(%rsp)
	movaps %xmm6, 352(%rsp)
	movaps %xmm6, 368(%rsp)
	movaps %xmm6, 384(%rsp)
	movaps %xmm6, 400(%rsp)
	movaps %xmm6, 416(%rsp)
	movaps %xmm6, 432(%rsp)
	movaps %xmm6, 448(%rsp)
	movaps %xmm6, 464(%rsp)
	movaps %xmm6, 480(%rsp)
	movaps %xmm6, 496(%rsp)
	movaps %xmm6, 512(%rsp)
	leaq 272(%rsp), %r14
	movq %r14, 40(%rsp)
	movq %rcx, 32(%rsp)
	movl %ebx, %ecx
	movq %r8, %rdx
	movq %r9, %r8
	movq %rax, %r9
	callq ring.digest.block_context.write_tail
	movq %r15, 32(%rsp)
	leaq 144(%rsp), %rcx
	leaq 48(%rsp), %rdx
	movq %r14, %r8
	movq %rax, %r9
	callq ring.digest.block_context.BlockContext.output_after
	movaps 144(%rsp), %xmm0
	movaps 160(%rsp), %xmm1
	movaps 176(%rsp), %xmm2
	movaps 192(%rsp), %xmm3
	movaps %xmm3, 656(%rsp)
	movaps %xmm2, 640(%rsp)
	movaps %xmm1, 624(%rsp)
	movaps %xmm0, 608(%rsp)
	movaps %xmm0, 528(%rsp)
	movaps %xmm1, 544(%rsp)
	movaps %xmm2, 560(%rsp)
	movaps %xmm3, 576(%rsp)
	movb %bl, 592(%rsp)
	movzbl %bl, %eax
	leaq .Lswitch.table.v2_yz_webhook_verify_stripe(%rip), %rcx
	movq (%rcx,%rax,8), %r8
	movaps %xmm6, 208(%rsp)
	movaps %xmm6, 224(%rsp)
	movaps %xmm6, 240(%rsp)
	movaps %xmm6, 256(%rsp)
	movq 104(%rdi), %rax
	movq 96(%rdi), %r9
	addq %r8, %r9
	adcq $0, %rax
	cmovbq %r12, %r9
	leaq 96(%rdi), %rbx
	cmovbq %r12, %rax
	movaps %xmm6, 512(%rsp)
	movaps %xmm6, 496(%rsp)
	movaps %xmm6, 480(%rsp)
	movaps %xmm6, 464(%rsp)
	movaps %xmm6, 448(%rsp)
	movaps %xmm6, 432(%rsp)
	movaps %xmm6, 416(%rsp)
	movaps %xmm6, 400(%rsp)
	movaps %xmm6, 384(%rsp)
	movaps %xmm6, 368(%rsp)
	movaps %xmm6, 352(%rsp)
	movaps %xmm6, 336(%rsp)
	movaps %xmm6, 320(%rsp)
	movaps %xmm6, 304(%rsp)
	movaps %xmm6, 288(%rsp)
	movaps %xmm6, 272(%rsp)
	movzbl 184(%rdi), %ecx
	movq %r14, 40(%rsp)
	movq %rax, 32(%rsp)
	leaq 528(%rsp), %rdx
	callq ring.digest.block_context.write_tail
	movq %r15, 32(%rsp)
	leaq 208(%rsp), %rcx
	movq %rbx, %rdx
	movq %r14, %r8
	movq %rax, %r9
	callq ring.digest.block_context.BlockContext.output_after
	movzbl 184(%rdi), %eax
	movb $0, (%rsi)
	movaps 208(%rsp), %xmm0
	movaps 224(%rsp), %xmm1
	movaps 240(%rsp), %xmm2
	movaps 256(%rsp), %xmm3
	movups %xmm0, 1(%rsi)
	movups %xmm1, 17(%rsi)
	movups %xmm2, 33(%rsi)
	movups %xmm3, 49(%rsi)
	movb %al, 65(%rsi)
.LBB13_5:
	movaps 672(%rsp), %xmm6
	addq $696, %rsp
	popq %rbx
	popq %rdi
	popq %rsi
	popq %r12
	popq %r14
	popq %r15
	retq
	.seh_endproc
	.p2align 4
ring.hkdf.rounds.write_output:
.seh_proc ring.hkdf.rounds.write_output
	pushq %r15
	.seh_pushreg %r15
	pushq %r14
	.seh_pushreg %r14
	pushq %r13
	.seh_pushreg %r13
	pushq %r12
	.seh_pushreg %r12
	pushq %rsi
	.seh_pushreg %rsi
	pushq %rdi
	.seh_pushreg %rdi
	pushq %rbp
	.seh_pushreg %rbp
	pushq %rbx
	.seh_pushreg %rbx
	subq $312, %rsp
	.seh_stackalloc 312
	.seh_endprologue
	movq %r9, %r12
	movq %r8, %r14
	movq %rdx, %rsi
	movq %rcx, %r15
	movq 424(%rsp), %rdx
	movq 416(%rsp), %rdi
	xorps %xmm0, %xmm0
	movaps %xmm0, 288(%rsp)
	movaps %xmm0, 272(%rsp)
	movaps %xmm0, 256(%rsp)
	movaps %xmm0, 240(%rsp)
	movb $0, 304(%rsp)
	movaps %xmm0, 160(%rsp)
	movaps %xmm0, 176(%rsp)
	movaps %xmm0, 192(%rsp)
	movaps %xmm0, 208(%rsp)
	movb $0, 224(%rsp)
	movzbl 88(%rcx), %eax
	leaq .Lswitch.table.v2_yz_webhook_verify_stripe(%rip), %rcx
	movq (%rcx,%rax,8), %rbp
	movq %rdx, 56(%rsp)
	movq %r8, 40(%rsp)
	movq %rsi, 32(%rsp)
	movb $1, 48(%rsp)
	leaq .Lstatic.8(%rip), %r8
	xorl %ebx, %ebx
	leaq 240(%rsp), %rcx
	movq %r15, %rdx
	xorl %r9d, %r9d
	callq ring.hkdf.rounds.round
	movzbl 304(%rsp), %eax
	movb %al, 144(%rsp)
	movaps 240(%rsp), %xmm0
	movaps 256(%rsp), %xmm1
	movaps 272(%rsp), %xmm2
	movaps 288(%rsp), %xmm3
	movaps %xmm3, 128(%rsp)
	movaps %xmm2, 112(%rsp)
	movaps %xmm1, 96(%rsp)
	movaps %xmm0, 80(%rsp)
	cmpq %rdi, %rbp
	jae .LBB14_3
	movq %rsi, 72(%rsp)
	movq %r14, 64(%rsp)
	movb $2, %r14b
	xorl %ebx, %ebx
	movq %r15, %rsi
	.p2align 4
.LBB14_2:
	leaq (%r12,%rbx), %rcx
	movzbl 144(%rsp), %eax
	movq %r12, %r15
	leaq .Lswitch.table.v2_yz_webhook_verify_stripe(%rip), %rdx
	movq (%rdx,%rax,8), %r12
	leaq 80(%rsp), %r13
	movq %r13, %rdx
	movq %r12, %r8
	callq memcpy
	addq %rbp, %rbx
	movq 424(%rsp), %rax
	movq %rax, 56(%rsp)
	movb %r14b, 48(%rsp)
	movq 64(%rsp), %rax
	movq %rax, 40(%rsp)
	movq 72(%rsp), %rax
	movq %rax, 32(%rsp)
	leaq 160(%rsp), %rcx
	movq %rsi, %rdx
	movq %r13, %r8
	movq %r12, %r9
	movq %r15, %r12
	callq ring.hkdf.rounds.round
	movzbl 224(%rsp), %eax
	movb %al, 144(%rsp)
	movaps 160(%rsp), %xmm0
	movaps 176(%rsp), %xmm1
	movaps 192(%rsp), %xmm2
	movaps 208(%rsp), %xmm3
	movaps %xmm3, 128(%rsp)
	movaps %xmm2, 112(%rsp)
	movaps %xmm1, 96(%rsp)
	movaps %xmm0, 80(%rsp)
	incb %r14b
	subq %rbp, %rdi
	cmpq %rdi, %rbp
	jb .LBB14_2
.LBB14_3:
	addq %rbx, %r12
	leaq 80(%rsp), %rdx
	movq %r12, %rcx
	movq %rdi, %r8
	callq memcpy
	nop
	addq $312, %rsp
	popq %rbx
	popq %rbp
	popq %rdi
	popq %rsi
	popq %r12
	popq %r13
	popq %r14
	popq %r15
	retq
	.seh_endproc
	.p2align 4
ring.hkdf.rounds.round:
.seh_proc ring.hkdf.rounds.round
	pushq %r15
	.seh_pushreg %r15
	pushq %r14
	.seh_pushreg %r14
	pushq %r12
	.seh_pushreg %r12
	pushq %rsi
	.seh_pushreg %rsi
	pushq %rdi
	.seh_pushreg %rdi
	pushq %rbp
	.seh_pushreg %rbp
	pushq %rbx
	.seh_pushreg %rbx
	subq $800, %rsp
	.seh_stackalloc 800
	.seh_endprologue
	movq %r9, %rbx
	movq %r8, %r14
	movq %rcx, %rsi
	movq 920(%rsp), %rdi
	movzbl 912(%rsp), %ebp
	movq 904(%rsp), %r12
	movb $0, 47(%rsp)
	xorps %xmm0, %xmm0
	movaps %xmm0, 48(%rsp)
	movaps %xmm0, 64(%rsp)
	movaps %xmm0, 80(%rsp)
	movaps %xmm0, 96(%rsp)
	movw $0, 112(%rsp)
	movzbl 16(%rdx), %eax
	movl 84(%rdx), %ecx
	movl %ecx, 212(%rsp)
	movups 20(%rdx), %xmm1
	movups 36(%rdx), %xmm2
	movups 52(%rdx), %xmm3
	movups 68(%rdx), %xmm4
	movups %xmm4, 196(%rsp)
	movups %xmm3, 180(%rsp)
	movups %xmm2, 164(%rsp)
	movups %xmm1, 148(%rsp)
	movq (%rdx), %rcx
	movq 8(%rdx), %r8
	movzbl 88(%rdx), %r9d
	movzbl 112(%rdx), %r10d
	movl 180(%rdx), %r11d
	movl %r11d, 452(%rsp)
	movups 164(%rdx), %xmm1
	movups %xmm1, 436(%rsp)
	movups 148(%rdx), %xmm1
	movups %xmm1, 420(%rsp)
	movups 132(%rdx), %xmm1
	movups %xmm1, 404(%rsp)
	movups 116(%rdx), %xmm1
	movups %xmm1, 388(%rsp)
	movq 96(%rdx), %r11
	movq 104(%rdx), %r15
	movzbl 184(%rdx), %edx
	movq %rcx, 128(%rsp)
	movq %r8, 136(%rsp)
	movl %eax, 144(%rsp)
	movb %r9b, 216(%rsp)
	movups %xmm0, 217(%rsp)
	movups %xmm0, 233(%rsp)
	movups %xmm0, 249(%rsp)
	movups %xmm0, 265(%rsp)
	movups %xmm0, 281(%rsp)
	movups %xmm0, 297(%rsp)
	movups %xmm0, 313(%rsp)
	movups %xmm0, 329(%rsp)
	movups %xmm0, 345(%rsp)
	movq $0, 360(%rsp)
	movq %r11, 368(%rsp)
	movq %r15, 376(%rsp)
	movl %r10d, 384(%rsp)
	movb %dl, 456(%rsp)
	movl $0, 457(%rsp)
	movl $0, 460(%rsp)
	leaq 464(%rsp), %r15
	leaq 128(%rsp), %rdx
	movl $336, %r8d
	movq %r15, %rcx
	callq memcpy
	movq %r15, %rcx
	movq %r14, %rdx
	movq %rbx, %r8
	movq %rdi, %r9
	callq ring.digest.context.Context.update_counted
	testq %r12, %r12
	je .LBB15_3
	movq 896(%rsp), %rbx
	addq $8, %rbx
	.p2align 4
.LBB15_2:
	movq -8(%rbx), %rdx
	movq (%rbx), %r8
	leaq 464(%rsp), %rcx
	movq %rdi, %r9
	callq ring.digest.context.Context.update_counted
	addq $16, %rbx
	decq %r12
	jne .LBB15_2
.LBB15_3:
	movb %bpl, 47(%rsp)
	leaq 464(%rsp), %rbx
	leaq 47(%rsp), %rdx
	movl $1, %r8d
	movq %rbx, %rcx
	movq %rdi, %r9
	callq ring.digest.context.Context.update_counted
	leaq 128(%rsp), %r14
	movl $336, %r8d
	movq %r14, %rcx
	movq %rbx, %rdx
	callq memcpy
	leaq 48(%rsp), %rcx
	movq %r14, %rdx
	movq %rdi, %r8
	callq ring.hmac.context.Context.sign_counted
	cmpb $0, 48(%rsp)
	jne .LBB15_5
	movzbl 113(%rsp), %eax
	movb %al, 64(%rsi)
	movups 49(%rsp), %xmm0
	movups 65(%rsp), %xmm1
	movups 81(%rsp), %xmm2
	movups 97(%rsp), %xmm3
	movups %xmm3, 48(%rsi)
	movups %xmm2, 32(%rsi)
	movups %xmm1, 16(%rsi)
	movups %xmm0, (%rsi)
	addq $800, %rsp
	popq %rbx
	popq %rbp
	popq %rdi
	popq %rsi
	popq %r12
	popq %r14
	popq %r15
	retq
.LBB15_5:
	ud2
	.seh_endproc
	.p2align 4
ring.digest.context.Context.update_counted:
.seh_proc ring.digest.context.Context.update_counted
	pushq %r15
	.seh_pushreg %r15
	pushq %r14
	.seh_pushreg %r14
	pushq %r13
	.seh_pushreg %r13
	pushq %r12
	.seh_pushreg %r12
	pushq %rsi
	.seh_pushreg %rsi
	pushq %rdi
	.seh_pushreg %rdi
	pushq %rbp
	.seh_pushreg %rbp
	pushq %rbx
	.seh_pushreg %rbx
	subq $40, %rsp
	.seh_stackalloc 40
	.seh_endprologue
	movq %rdx, %rdi
	movq %rcx, %rsi
	movzbl 88(%rcx), %ebp
	movq 224(%rcx), %r15
	xorl %r12d, %r12d
	cmpb $2, %bpl
	setae %r12b
	shll $6, %r12d
	addq $64, %r12
	movq %r12, %r13
	subq %r15, %r13
	leaq 96(%rcx), %rbx
	movq %r8, %r14
	subq %r13, %r14
	jae .LBB16_4
	addq %r15, %rbx
	movq %rbx, %rax
	subq %rdi, %rax
	cmpq %r8, %rax
	jae .LBB16_9
	cmpq $4, %r8
	jb .LBB16_3
	leaq (%r15,%rsi), %rax
	subq %rdi, %rax
	addq $96, %rax
	cmpq $32, %rax
	jae .LBB16_14
.LBB16_3:
	xorl %eax, %eax
.LBB16_25:
	movq %r8, %rdx
	movq %rax, %rcx
	andq $3, %rdx
	je .LBB16_28
	movq %rax, %rcx
	.p2align 4
.LBB16_27:
	movzbl (%rdi,%rcx), %r9d
	movb %r9b, (%rbx,%rcx)
	incq %rcx
	decq %rdx
	jne .LBB16_27
.LBB16_28:
	subq %r8, %rax
	cmpq $-4, %rax
	ja .LBB16_31
	leaq (%r15,%rsi), %rax
	addq $99, %rax
	.p2align 4
.LBB16_30:
	movzbl (%rdi,%rcx), %edx
	movb %dl, -3(%rax,%rcx)
	movzbl 1(%rdi,%rcx), %edx
	movb %dl, -2(%rax,%rcx)
	movzbl 2(%rdi,%rcx), %edx
	movb %dl, -1(%rax,%rcx)
	movzbl 3(%rdi,%rcx), %edx
	movb %dl, (%rax,%rcx)
	addq $4, %rcx
	cmpq %rcx, %r8
	jne .LBB16_30
	jmp .LBB16_31
.LBB16_4:
	testq %r15, %r15
	je .LBB16_10
	leaq (%rbx,%r15), %rcx
	movq %rcx, %rax
	subq %rdi, %rax
	cmpq %r13, %rax
	jae .LBB16_11
	cmpq $4, %r13
	jb .LBB16_8
	leaq (%r15,%rsi), %rax
	subq %rdi, %rax
	addq $96, %rax
	cmpq $32, %rax
	jae .LBB16_16
.LBB16_8:
	xorl %eax, %eax
	jmp .LBB16_38
.LBB16_9:
	movq %rbx, %rcx
	movq %rdi, %rdx
	movq %r8, %rdi
	callq memmove
	movq %rdi, %r8
.LBB16_31:
	addq %r8, %r15
	movq %r15, %r14
	jmp .LBB16_67
.LBB16_10:
	movq %r9, %r15
	movq %r8, %r14
	jmp .LBB16_43
.LBB16_11:
	movq %rdi, %rdx
	movq %r13, %r8
	movq %r9, %r15
	callq memmove
	movq %r15, %r9
	jmp .LBB16_40
.LBB16_14:
	cmpq $32, %r8
	jae .LBB16_18
	xorl %eax, %eax
	jmp .LBB16_22
.LBB16_16:
	cmpq $32, %r13
	jae .LBB16_32
	xorl %eax, %eax
	jmp .LBB16_36
.LBB16_18:
	movq %r8, %rax
	andq $-32, %rax
	leaq (%r15,%rsi), %rcx
	addq $112, %rcx
	xorl %edx, %edx
	.p2align 4
.LBB16_19:
	movups (%rdi,%rdx), %xmm0
	movups 16(%rdi,%rdx), %xmm1
	movups %xmm0, -16(%rcx,%rdx)
	movups %xmm1, (%rcx,%rdx)
	addq $32, %rdx
	cmpq %rdx, %rax
	jne .LBB16_19
	cmpq %rax, %r8
	je .LBB16_31
	testb $28, %r8b
	je .LBB16_25
.LBB16_22:
	movq %rax, %rcx
	movq %r8, %rax
	andq $-4, %rax
	.p2align 4
.LBB16_23:
	movl (%rdi,%rcx), %edx
	movl %edx, (%rbx,%rcx)
	addq $4, %rcx
	cmpq %rcx, %rax
	jne .LBB16_23
	cmpq %rax, %r8
	je .LBB16_31
	jmp .LBB16_25
.LBB16_32:
	movq %r13, %rax
	andq $-32, %rax
	leaq (%r15,%rsi), %rdx
	addq $112, %rdx
	xorl %r8d, %r8d
	.p2align 4
.LBB16_33:
	movups (%rdi,%r8), %xmm0
	movups 16(%rdi,%r8), %xmm1
	movups %xmm0, -16(%rdx,%r8)
	movups %xmm1, (%rdx,%r8)
	addq $32, %r8
	cmpq %r8, %rax
	jne .LBB16_33
	cmpq %rax, %r13
	je .LBB16_40
	testb $28, %r13b
	je .LBB16_38
.LBB16_36:
	movq %rax, %rdx
	movq %r13, %rax
	andq $-4, %rax
	.p2align 4
.LBB16_37:
	movl (%rdi,%rdx), %r8d
	movl %r8d, (%rcx,%rdx)
	addq $4, %rdx
	cmpq %rdx, %rax
	jne .LBB16_37
	jmp .LBB16_39
.LBB16_38:
	movzbl (%rdi,%rax), %edx
	movb %dl, (%rcx,%rax)
	incq %rax
.LBB16_39:
	cmpq %rax, %r13
	jne .LBB16_38
.LBB16_40:
	addq %r13, %rdi
	cmpb $2, %bpl
	setb %al
	movzbl 88(%rsi), %ebp
	cmpb $2, %bpl
	setae %cl
	testb %cl, %al
	je .LBB16_42
	movq %r9, %r15
	jmp .LBB16_43
.LBB16_42:
	leaq 16(%rsi), %rdx
	movq %r9, %r15
	movq %r9, 32(%rsp)
	movl %ebp, %ecx
	movq %rbx, %r8
	movq %r12, %r9
	callq ring.digest.block_context.run_blocks
	subq %rdx, %r12
	addq (%rsi), %r12
	movq 8(%rsi), %rax
	adcq $0, %rax
	movq $-1, %rcx
	cmovbq %rcx, %rax
	cmovbq %rcx, %r12
	movq %r12, (%rsi)
	movq %rax, 8(%rsi)
	movzbl 88(%rsi), %ebp
.LBB16_43:
	xorl %eax, %eax
	cmpb $2, %bpl
	setae %al
	shll $6, %eax
	addq $64, %rax
	cmpq %rax, %r14
	jb .LBB16_45
	leaq 16(%rsi), %rdx
	movq %r15, 32(%rsp)
	movl %ebp, %ecx
	movq %rdi, %r8
	movq %r14, %r9
	callq ring.digest.block_context.run_blocks
	subq %rdx, %r14
	addq (%rsi), %r14
	movq 8(%rsi), %rcx
	adcq $0, %rcx
	movq $-1, %r8
	cmovbq %r8, %rcx
	cmovbq %r8, %r14
	movq %rax, %rdi
	movq %r14, (%rsi)
	movq %rcx, 8(%rsi)
	movq %rdx, %r14
.LBB16_45:
	testq %r14, %r14
	je .LBB16_49
	movq %rbx, %rax
	subq %rdi, %rax
	cmpq %r14, %rax
	jae .LBB16_50
	cmpq $4, %r14
	jb .LBB16_48
	movq %rsi, %rax
	subq %rdi, %rax
	addq $96, %rax
	cmpq $32, %rax
	jae .LBB16_53
.LBB16_48:
	xorl %eax, %eax
.LBB16_62:
	movq %r14, %rdx
	movq %rax, %rcx
	andq $3, %rdx
	je .LBB16_65
	movq %rax, %rcx
	.p2align 4
.LBB16_64:
	movzbl (%rdi,%rcx), %r8d
	movb %r8b, (%rbx,%rcx)
	incq %rcx
	decq %rdx
	jne .LBB16_64
.LBB16_65:
	subq %r14, %rax
	cmpq $-4, %rax
	ja .LBB16_67
	.p2align 4
.LBB16_66:
	movzbl (%rdi,%rcx), %eax
	movb %al, 96(%rsi,%rcx)
	movzbl 1(%rdi,%rcx), %eax
	movb %al, 97(%rsi,%rcx)
	movzbl 2(%rdi,%rcx), %eax
	movb %al, 98(%rsi,%rcx)
	movzbl 3(%rdi,%rcx), %eax
	movb %al, 99(%rsi,%rcx)
	addq $4, %rcx
	cmpq %rcx, %r14
	jne .LBB16_66
	jmp .LBB16_67
.LBB16_49:
	xorl %r14d, %r14d
	jmp .LBB16_67
.LBB16_50:
	movq %rbx, %rcx
	movq %rdi, %rdx
	movq %r14, %r8
	callq memmove
.LBB16_67:
	movq %r14, 224(%rsi)
	addq $40, %rsp
	popq %rbx
	popq %rbp
	popq %rdi
	popq %rsi
	popq %r12
	popq %r13
	popq %r14
	popq %r15
	retq
.LBB16_53:
	cmpq $32, %r14
	jae .LBB16_55
	xorl %eax, %eax
	jmp .LBB16_59
.LBB16_55:
	movq %r14, %rax
	andq $-32, %rax
	xorl %ecx, %ecx
	.p2align 4
.LBB16_56:
	movups (%rdi,%rcx), %xmm0
	movups 16(%rdi,%rcx), %xmm1
	movups %xmm0, 96(%rsi,%rcx)
	movups %xmm1, 112(%rsi,%rcx)
	addq $32, %rcx
	cmpq %rcx, %rax
	jne .LBB16_56
	cmpq %rax, %r14
	je .LBB16_67
	testb $28, %r14b
	je .LBB16_62
.LBB16_59:
	movq %rax, %rcx
	movq %r14, %rax
	andq $-4, %rax
	.p2align 4
.LBB16_60:
	movl (%rdi,%rcx), %edx
	movl %edx, (%rbx,%rcx)
	addq $4, %rcx
	cmpq %rcx, %rax
	jne .LBB16_60
	cmpq %rax, %r14
	je .LBB16_67
	jmp .LBB16_62
	.seh_endproc
	.p2align 4
ring.hmac.context.Context.sign_counted:
.seh_proc ring.hmac.context.Context.sign_counted
	pushq %r15
	.seh_pushreg %r15
	pushq %r14
	.seh_pushreg %r14
	pushq %rsi
	.seh_pushreg %rsi
	pushq %rdi
	.seh_pushreg %rdi
	pushq %rbp
	.seh_pushreg %rbp
	pushq %rbx
	.seh_pushreg %rbx
	subq $872, %rsp
	.seh_stackalloc 872
	movaps %xmm6, 848(%rsp)
	.seh_savexmm %xmm6, 848
	.seh_endprologue
	movq %r8, %rdi
	movq %rdx, %r14
	movq %rcx, %rsi
	movzbl 256(%rdx), %ebp
	movzbl 328(%rdx), %ebx
	leaq 608(%rsp), %rcx
	movl $240, %r8d
	callq memcpy
	xorps %xmm6, %xmm6
	movaps %xmm6, 512(%rsp)
	movups 240(%r14), %xmm0
	movaps %xmm0, 432(%rsp)
	movl %ebp, 448(%rsp)
	movl 324(%r14), %eax
	movl %eax, 516(%rsp)
	movups 260(%r14), %xmm0
	movups 276(%r14), %xmm1
	movups 292(%r14), %xmm2
	movups 308(%r14), %xmm3
	movups %xmm0, 452(%rsp)
	movups %xmm1, 468(%rsp)
	movups %xmm2, 484(%rsp)
	movups %xmm3, 500(%rsp)
	movq 832(%rsp), %r8
	movq 616(%rsp), %rax
	movq 608(%rsp), %r9
	addq %r8, %r9
	adcq $0, %rax
	movq $-1, %r15
	cmovbq %r15, %rax
	cmovbq %r15, %r9
	movzbl 696(%rsp), %ecx
	xorl %edx, %edx
	cmpb $2, %cl
	movabsq $2305843009213693951, %r10
	cmovaeq %r10, %rdx
	cmovaeq %r15, %r10
	movb %bl, 520(%rsp)
	cmpq %r9, %r10
	sbbq %rax, %rdx
	jae .LBB17_1
	movb $1, (%rsi)
	movups %xmm6, 1(%rsi)
	movups %xmm6, 17(%rsi)
	movups %xmm6, 33(%rsi)
	movups %xmm6, 49(%rsi)
	movb $0, 65(%rsi)
	jmp .LBB17_2
.LBB17_1:
	leaq 704(%rsp), %rdx
	movaps %xmm6, 48(%rsp)
	movaps %xmm6, 64(%rsp)
	movaps %xmm6, 80(%rsp)
	movaps %xmm6, 96(%rsp)
	movaps %xmm6, 176(%rsp)
	movaps %xmm6, 192(%rsp)
	movaps %xmm6, 208(%rsp)
	movaps %xmm6, 224(%rsp)
	movaps %xmm6, 240(%rsp)
	movaps %xmm6, 256(%rsp)
	movaps %xmm6, 272(%rsp)
	movaps %xmm6, 288(%rsp)
	movaps %xmm6, 304(%rsp)
	movaps %xmm6, 320(%rsp)
	movaps %xmm6, 336(%rsp)
	movaps %xmm6, 352(%rsp)
	movaps %xmm6, 368(%rsp)
	movaps %xmm6, 384(%rsp)
	movaps %xmm6, 400(%rsp)
	movaps %xmm6, 416(%rsp)
	leaq 176(%rsp), %r14
	movq %r14, 40(%rsp)
	movq %rax, 32(%rsp)
	callq ring.digest.block_context.write_tail
	movq %rdi, 32(%rsp)
	leaq 48(%rsp), %rcx
	leaq 608(%rsp), %rdx
	movq %r14, %r8
	movq %rax, %r9
	callq ring.digest.block_context.BlockContext.output_after
	movzbl 696(%rsp), %eax
	movaps 48(%rsp), %xmm0
	movaps 64(%rsp), %xmm1
	movaps 80(%rsp), %xmm2
	movaps 96(%rsp), %xmm3
	movaps %xmm0, 528(%rsp)
	movaps %xmm1, 544(%rsp)
	movaps %xmm2, 560(%rsp)
	movaps %xmm3, 576(%rsp)
	movb %al, 592(%rsp)
	leaq .Lswitch.table.v2_yz_webhook_verify_stripe(%rip), %rcx
	movq (%rcx,%rax,8), %r8
	movaps %xmm6, 112(%rsp)
	movaps %xmm6, 128(%rsp)
	movaps %xmm6, 144(%rsp)
	movaps %xmm6, 160(%rsp)
	movq 440(%rsp), %rax
	movq 432(%rsp), %r9
	addq %r8, %r9
	adcq $0, %rax
	cmovbq %r15, %r9
	cmovbq %r15, %rax
	movaps %xmm6, 176(%rsp)
	movaps %xmm6, 192(%rsp)
	movaps %xmm6, 208(%rsp)
	movaps %xmm6, 224(%rsp)
	movaps %xmm6, 240(%rsp)
	movaps %xmm6, 256(%rsp)
	movaps %xmm6, 272(%rsp)
	movaps %xmm6, 288(%rsp)
	movaps %xmm6, 304(%rsp)
	movaps %xmm6, 320(%rsp)
	movaps %xmm6, 336(%rsp)
	movaps %xmm6, 352(%rsp)
	movaps %xmm6, 368(%rsp)
	movaps %xmm6, 384(%rsp)
	movaps %xmm6, 400(%rsp)
	movaps %xmm6, 416(%rsp)
	movq %r14, 40(%rsp)
	movq %rax, 32(%rsp)
	leaq 528(%rsp), %rdx
	movl %ebx, %ecx
	callq ring.digest.block_context.write_tail
	movq %rdi, 32(%rsp)
	leaq 112(%rsp), %rcx
	leaq 432(%rsp), %rdx
	movq %r14, %r8
	movq %rax, %r9
	callq ring.digest.block_context.BlockContext.output_after
	movb $0, (%rsi)
	movaps 112(%rsp), %xmm0
	movaps 128(%rsp), %xmm1
	movaps 144(%rsp), %xmm2
	movaps 160(%rsp), %xmm3
	movups %xmm0, 1(%rsi)
	movups %xmm1, 17(%rsi)
	movups %xmm2, 33(%rsi)
	movups %xmm3, 49(%rsi)
	movb %bl, 65(%rsi)
.LBB17_2:
	movaps 848(%rsp), %xmm6
	addq $872, %rsp
	popq %rbx
	popq %rbp
	popq %rdi
	popq %rsi
	popq %r14
	popq %r15
	retq
	.seh_endproc
	.p2align 4
ring_schedules.label.fill_by_label:
.seh_proc ring_schedules.label.fill_by_label
	pushq %rsi
	.seh_pushreg %rsi
	pushq %rdi
	.seh_pushreg %rdi
	subq $200, %rsp
	.seh_stackalloc 200
	.seh_endprologue
	movq 272(%rsp), %rax
	movq 256(%rsp), %r10
	movl %eax, %r11d
	rolw $8, %r11w
	movw %r11w, 62(%rsp)
	leal 6(%r8), %r11d
	movb %r11b, 61(%rsp)
	movb %r10b, 60(%rsp)
	leaq 62(%rsp), %r11
	movq %r11, 64(%rsp)
	movq $2, 72(%rsp)
	leaq 61(%rsp), %r11
	movq %r11, 80(%rsp)
	movq $1, 88(%rsp)
	leaq .Lstatic.9(%rip), %r11
	movq %r11, 96(%rsp)
	movq $6, 104(%rsp)
	movq %rdx, 112(%rsp)
	movq %r8, 120(%rsp)
	leaq 60(%rsp), %rdx
	movq %rdx, 128(%rsp)
	movq $1, 136(%rsp)
	movq %r9, 144(%rsp)
	movq %r10, 152(%rsp)
	movzbl 88(%rcx), %r9d
	leaq .Lswitch.table.ring_schedules.label.fill_by_label(%rip), %rdx
	cmpq (%rdx,%r9,8), %rax
	ja .LBB18_2
	xorl %edx, %edx
	addq %r10, %r8
	setb %dl
	addq $10, %r8
	adcq $0, %rdx
	xorps %xmm0, %xmm0
	leaq .Lswitch.table.v2_yz_webhook_verify_stripe(%rip), %r10
	movq (%r10,%r9,8), %r10
	xorl %r11d, %r11d
	cmpb $2, %r9b
	movabsq $2305843009213693951, %r9
	cmovbq %r11, %r9
	movabsq $2305843009213693886, %rsi
	movq $-130, %rdi
	cmovbq %rsi, %rdi
	cmpq %r10, %rax
	cmovaq %r10, %r11
	movaps %xmm0, 176(%rsp)
	subq %r11, %rdi
	sbbq $0, %r9
	movaps %xmm0, 160(%rsp)
	cmpq %r8, %rdi
	sbbq %rdx, %r9
	jb .LBB18_2
	movq 264(%rsp), %r9
	leaq 160(%rsp), %rdx
	movq %rdx, 40(%rsp)
	movq %rax, 32(%rsp)
	leaq 64(%rsp), %rdx
	movl $6, %r8d
	callq ring.hkdf.rounds.write_output
	nop
	addq $200, %rsp
	popq %rdi
	popq %rsi
	retq
.LBB18_2:
	ud2
	.seh_endproc
	.p2align 4
ring_c.otp.write:
.seh_proc ring_c.otp.write
	pushq %r15
	.seh_pushreg %r15
	pushq %r14
	.seh_pushreg %r14
	pushq %r12
	.seh_pushreg %r12
	pushq %rsi
	.seh_pushreg %rsi
	pushq %rdi
	.seh_pushreg %rdi
	pushq %rbp
	.seh_pushreg %rbp
	pushq %rbx
	.seh_pushreg %rbx
	subq $880, %rsp
	.seh_stackalloc 880
	.seh_endprologue
	movq %r8, %r10
	movq %rdx, %r8
	movl %ecx, %edx
	decl %edx
	movl $1, %eax
	cmpl $3, %edx
	ja .LBB19_14
	movq 992(%rsp), %rsi
	leaq -6(%rsi), %rcx
	movl $4, %eax
	cmpq $3, %rcx
	jae .LBB19_14
	movl $8, %eax
	cmpb $1, %r9b
	jne .LBB19_14
	xorps %xmm0, %xmm0
	movaps %xmm0, 48(%rsp)
	movaps %xmm0, 64(%rsp)
	movaps %xmm0, 80(%rsp)
	movaps %xmm0, 96(%rsp)
	movaps %xmm0, 112(%rsp)
	movaps %xmm0, 128(%rsp)
	movaps %xmm0, 144(%rsp)
	movaps %xmm0, 160(%rsp)
	movaps %xmm0, 176(%rsp)
	movaps %xmm0, 192(%rsp)
	movaps %xmm0, 208(%rsp)
	movaps %xmm0, 224(%rsp)
	movups %xmm0, 239(%rsp)
	movaps %xmm0, 256(%rsp)
	movaps %xmm0, 272(%rsp)
	movaps %xmm0, 480(%rsp)
	movaps %xmm0, 464(%rsp)
	movaps %xmm0, 448(%rsp)
	movaps %xmm0, 432(%rsp)
	movaps %xmm0, 416(%rsp)
	movaps %xmm0, 400(%rsp)
	movaps %xmm0, 384(%rsp)
	movaps %xmm0, 368(%rsp)
	movaps %xmm0, 352(%rsp)
	movaps %xmm0, 336(%rsp)
	movaps %xmm0, 320(%rsp)
	movaps %xmm0, 304(%rsp)
	movaps %xmm0, 288(%rsp)
	testq %r10, %r10
	je .LBB19_4
	leaq 256(%rsp), %r15
	movq %r15, 32(%rsp)
	leaq 288(%rsp), %rcx
	movq %r10, %r9
	callq ring.hmac.key.Key.new_counted
	cmpb $0, 288(%rsp)
	je .LBB19_7
	xorps %xmm0, %xmm0
	movups %xmm0, 239(%rsp)
	movups %xmm0, 223(%rsp)
	movups %xmm0, 207(%rsp)
	movups %xmm0, 191(%rsp)
	movups %xmm0, 175(%rsp)
	movups %xmm0, 159(%rsp)
	movups %xmm0, 143(%rsp)
	movups %xmm0, 127(%rsp)
	movups %xmm0, 111(%rsp)
	movups %xmm0, 95(%rsp)
	movups %xmm0, 79(%rsp)
	movups %xmm0, 63(%rsp)
	movl $8, %eax
	jmp .LBB19_14
.LBB19_4:
	movups %xmm0, 239(%rsp)
	movups %xmm0, 223(%rsp)
	movups %xmm0, 207(%rsp)
	movups %xmm0, 191(%rsp)
	movups %xmm0, 175(%rsp)
	movups %xmm0, 159(%rsp)
	movups %xmm0, 143(%rsp)
	movups %xmm0, 127(%rsp)
	movups %xmm0, 111(%rsp)
	movups %xmm0, 95(%rsp)
	movups %xmm0, 79(%rsp)
	movups %xmm0, 63(%rsp)
	jmp .LBB19_14
.LBB19_7:
	movq 976(%rsp), %r12
	leaq 304(%rsp), %rdx
	leaq 63(%rsp), %rdi
	movl $192, %r8d
	movq %rdi, %rcx
	callq memcpy
	leaq 688(%rsp), %rbx
	movl $192, %r8d
	movq %rbx, %rcx
	movq %rdi, %rdx
	callq memcpy
	leaq 496(%rsp), %r14
	movl $192, %r8d
	movq %r14, %rcx
	movq %rbx, %rdx
	callq memcpy
	xorps %xmm0, %xmm0
	movaps %xmm0, 272(%rsp)
	movaps %xmm0, 256(%rsp)
	movaps %xmm0, 288(%rsp)
	movaps %xmm0, 304(%rsp)
	movaps %xmm0, 320(%rsp)
	movaps %xmm0, 336(%rsp)
	movw $0, 352(%rsp)
	bswapq %r12
	movq %r12, 40(%rsp)
	movq %r15, 32(%rsp)
	leaq 288(%rsp), %rdi
	leaq 40(%rsp), %r8
	movl $8, %r9d
	movq %rdi, %rcx
	movq %r14, %rdx
	callq ring.hmac.sign_counted
	cmpb $0, 288(%rsp)
	jne .LBB19_15
	movq 984(%rsp), %rcx
	movups 289(%rsp), %xmm0
	movups 305(%rsp), %xmm1
	movups 321(%rsp), %xmm2
	movups 337(%rsp), %xmm3
	movaps %xmm3, 96(%rsp)
	movaps %xmm2, 80(%rsp)
	movaps %xmm1, 64(%rsp)
	movaps %xmm0, 48(%rsp)
	movzbl 353(%rsp), %eax
	movb %al, 112(%rsp)
	leaq .LJTI19_0(%rip), %rdx
	movslq (%rdx,%rax,4), %rax
	addq %rdx, %rax
	jmpq *%rax
.LBB19_10:
	leaq 80(%rsp), %rax
	jmp .LBB19_13
.LBB19_12:
	leaq 112(%rsp), %rax
	jmp .LBB19_13
.LBB19_9:
	leaq 68(%rsp), %rax
	jmp .LBB19_13
.LBB19_11:
	leaq 96(%rsp), %rax
.LBB19_13:
	movzbl -1(%rax), %edx
	andl $15, %edx
	leaq .Lswitch.table.ring_tokens.otp.find_hotp_counted(%rip), %r8
	movl $-129, %eax
	andl 48(%rsp,%rdx), %eax
	bswapl %eax
	xorl %edx, %edx
	divl -24(%r8,%rsi,4)
	imulq $1801439851, %rdx, %rax
	shrq $54, %rax
	orl $48, %eax
	imulq $1125899907, %rdx, %r8
	shrq $50, %r8
	imull $205, %r8d, %r9d
	shrl $10, %r9d
	andl $62, %r9d
	leal (%r9,%r9,4), %r9d
	subb %r9b, %r8b
	orb $48, %r8b
	imulq $351843721, %rdx, %r9
	shrq $45, %r9
	imull $26215, %r9d, %r10d
	shrl $17, %r10d
	andl $-2, %r10d
	leal (%r10,%r10,4), %r10d
	subl %r10d, %r9d
	imulq $1759218605, %rdx, %r10
	shrq $44, %r10
	imull $52429, %r10d, %r11d
	shrl $18, %r11d
	andl $-2, %r11d
	leal (%r11,%r11,4), %r11d
	subl %r11d, %r10d
	imulq $274877907, %rdx, %r11
	shrq $38, %r11
	imulq $429496730, %r11, %rbx
	shrq $32, %rbx
	addl %ebx, %ebx
	leal (%rbx,%rbx,4), %ebx
	subl %ebx, %r11d
	orl $48, %r11d
	imulq $1374389535, %rdx, %rbx
	shrq $37, %rbx
	imulq $429496730, %rbx, %r14
	shrq $32, %r14
	addl %r14d, %r14d
	leal (%r14,%r14,4), %ebp
	subl %ebp, %ebx
	orl $48, %ebx
	imulq $1717986919, %rdx, %r14
	shrq $34, %r14
	imulq $429496730, %r14, %r15
	shrq $32, %r15
	addl %r15d, %r15d
	leal (%r15,%r15,4), %r15d
	negl %r15d
	addl %r14d, %r15d
	addl $48, %r15d
	addl %r14d, %r14d
	leal (%r14,%r14,4), %r14d
	negl %r14d
	addl %r14d, %edx
	addl $48, %edx
	shlq $56, %rdx
	shlq $48, %r15
	orq %rdx, %r15
	shlq $40, %rbx
	shlq $32, %r11
	orq %rbx, %r11
	orq %r15, %r11
	orl $48, %r10d
	shll $24, %r10d
	orq %r11, %r10
	orl $48, %r9d
	shll $16, %r9d
	orq %r10, %r9
	movzbl %r8b, %edx
	shll $8, %edx
	orq %r9, %rdx
	orq %rax, %rdx
	movq %rdx, 288(%rsp)
	subq %rsi, %rdi
	addq $8, %rdi
	movq %rdi, %rdx
	movq %rsi, %r8
	callq memcpy
	xorl %eax, %eax
.LBB19_14:
	addq $880, %rsp
	popq %rbx
	popq %rbp
	popq %rdi
	popq %rsi
	popq %r12
	popq %r14
	popq %r15
	retq
.LBB19_15:
	ud2
	.section .rdata,"dr"
	.p2align 2, 0x0
.LJTI19_0:
	.long .LBB19_9-.LJTI19_0
	.long .LBB19_10-.LJTI19_0
	.long .LBB19_11-.LJTI19_0
	.long .LBB19_12-.LJTI19_0
	.long .LBB19_10-.LJTI19_0
	.text
	.seh_endproc
	.p2align 4
ring_tokens.otp.find_hotp_counted:
.seh_proc ring_tokens.otp.find_hotp_counted
	pushq %r15
	.seh_pushreg %r15
	pushq %r14
	.seh_pushreg %r14
	pushq %r13
	.seh_pushreg %r13
	pushq %r12
	.seh_pushreg %r12
	pushq %rsi
	.seh_pushreg %rsi
	pushq %rdi
	.seh_pushreg %rdi
	pushq %rbp
	.seh_pushreg %rbp
	pushq %rbx
	.seh_pushreg %rbx
	subq $248, %rsp
	.seh_stackalloc 248
	.seh_endprologue
	movq %rdx, 72(%rsp)
	movq %rcx, 64(%rsp)
	movq %r8, 56(%rsp)
	testq %r8, %r8
	je .LBB20_14
	movq 368(%rsp), %r15
	movq 360(%rsp), %r12
	movq 352(%rsp), %r13
	leal 6(%r9), %eax
	movzbl %al, %eax
	leaq 80(%rsp), %rdi
	movq %rax, 48(%rsp)
	subq %rax, %rdi
	addq $8, %rdi
	movzbl %r9b, %eax
	movq %rax, 40(%rsp)
	xorl %ebx, %ebx
	jmp .LBB20_2
	.p2align 4
.LBB20_13:
	incq %rbx
	cmpq 56(%rsp), %rbx
	je .LBB20_14
.LBB20_2:
	movq %rbx, %r14
	addq 72(%rsp), %r14
	jb .LBB20_14
	xorps %xmm0, %xmm0
	movaps %xmm0, 176(%rsp)
	movaps %xmm0, 192(%rsp)
	movaps %xmm0, 208(%rsp)
	movaps %xmm0, 224(%rsp)
	movw $0, 240(%rsp)
	movq %r14, %rax
	bswapq %rax
	movq %rax, 88(%rsp)
	movq %r15, 32(%rsp)
	leaq 176(%rsp), %rcx
	leaq 88(%rsp), %r8
	movl $8, %r9d
	movq 64(%rsp), %rdx
	callq ring.hmac.sign_counted
	cmpb $0, 176(%rsp)
	jne .LBB20_16
	leaq 177(%rsp), %rax
	movups (%rax), %xmm0
	movups 16(%rax), %xmm1
	movups 32(%rax), %xmm2
	movups 48(%rax), %xmm3
	movaps %xmm3, 144(%rsp)
	movaps %xmm2, 128(%rsp)
	movaps %xmm1, 112(%rsp)
	movaps %xmm0, 96(%rsp)
	movzbl 64(%rax), %eax
	movb %al, 160(%rsp)
	leaq .LJTI20_0(%rip), %rcx
	movslq (%rcx,%rax,4), %rdx
	addq %rcx, %rdx
	leaq 116(%rsp), %rax
	jmpq *%rdx
.LBB20_5:
	leaq 128(%rsp), %rax
	jmp .LBB20_8
.LBB20_7:
	leaq 160(%rsp), %rax
	jmp .LBB20_8
.LBB20_6:
	leaq 144(%rsp), %rax
	.p2align 4
.LBB20_8:
	movzbl -1(%rax), %ecx
	andl $15, %ecx
	leaq .Lswitch.table.ring_tokens.otp.find_hotp_counted(%rip), %r8
	movl $-129, %eax
	andl 96(%rsp,%rcx), %eax
	bswapl %eax
	xorl %edx, %edx
	movq 40(%rsp), %rcx
	divl (%r8,%rcx,4)
	imulq $1801439851, %rdx, %rax
	shrq $54, %rax
	orl $48, %eax
	imulq $1125899907, %rdx, %rcx
	shrq $50, %rcx
	imull $205, %ecx, %r8d
	shrl $10, %r8d
	andl $62, %r8d
	leal (%r8,%r8,4), %r8d
	subb %r8b, %cl
	orb $48, %cl
	imulq $351843721, %rdx, %r8
	shrq $45, %r8
	imull $26215, %r8d, %r9d
	shrl $17, %r9d
	andl $-2, %r9d
	leal (%r9,%r9,4), %r9d
	subl %r9d, %r8d
	imulq $1759218605, %rdx, %r9
	shrq $44, %r9
	imull $52429, %r9d, %r10d
	shrl $18, %r10d
	andl $-2, %r10d
	leal (%r10,%r10,4), %r10d
	subl %r10d, %r9d
	imulq $274877907, %rdx, %r10
	shrq $38, %r10
	imulq $429496730, %r10, %r11
	shrq $32, %r11
	addl %r11d, %r11d
	leal (%r11,%r11,4), %r11d
	subl %r11d, %r10d
	orl $48, %r10d
	imulq $1374389535, %rdx, %r11
	shrq $37, %r11
	imulq $429496730, %r11, %rsi
	shrq $32, %rsi
	addl %esi, %esi
	leal (%rsi,%rsi,4), %esi
	subl %esi, %r11d
	orl $48, %r11d
	imulq $1717986919, %rdx, %rsi
	shrq $34, %rsi
	imulq $429496730, %rsi, %rbp
	shrq $32, %rbp
	addl %ebp, %ebp
	leal (%rbp,%rbp,4), %ebp
	negl %ebp
	addl %esi, %ebp
	addl $48, %ebp
	addl %esi, %esi
	leal (%rsi,%rsi,4), %esi
	negl %esi
	addl %esi, %edx
	addl $48, %edx
	shlq $56, %rdx
	shlq $48, %rbp
	orq %rdx, %rbp
	shlq $40, %r11
	shlq $32, %r10
	orq %r11, %r10
	orq %rbp, %r10
	orl $48, %r9d
	shll $24, %r9d
	orq %r10, %r9
	orl $48, %r8d
	shll $16, %r8d
	orq %r9, %r8
	movzbl %cl, %ecx
	shll $8, %ecx
	orq %r8, %rcx
	orq %rax, %rcx
	movq %rcx, 80(%rsp)
	cmpq 48(%rsp), %r12
	jne .LBB20_13
	movq 16(%r15), %rax
	movq 24(%r15), %rdx
	xorl %ecx, %ecx
	xorl %r8d, %r8d
	.p2align 4
.LBB20_10:
	movzbl (%r13,%r8), %r9d
	xorb (%rdi,%r8), %r9b
	orb %r9b, %cl
	addq $1, %rax
	adcq $0, %rdx
	movq $-1, %r9
	cmovbq %r9, %rdx
	cmovbq %r9, %rax
	movq %rdx, 24(%r15)
	movq %rax, 16(%r15)
	incq %r8
	cmpq %r8, %r12
	jne .LBB20_10
	testb %cl, %cl
	jne .LBB20_13
	movb $1, %al
	jmp .LBB20_15
.LBB20_14:
	xorl %r14d, %r14d
	xorl %eax, %eax
.LBB20_15:
	movq %r14, %rdx
	addq $248, %rsp
	popq %rbx
	popq %rbp
	popq %rdi
	popq %rsi
	popq %r12
	popq %r13
	popq %r14
	popq %r15
	retq
.LBB20_16:
	ud2
	.section .rdata,"dr"
	.p2align 2, 0x0
.LJTI20_0:
	.long .LBB20_8-.LJTI20_0
	.long .LBB20_5-.LJTI20_0
	.long .LBB20_6-.LJTI20_0
	.long .LBB20_7-.LJTI20_0
	.long .LBB20_5-.LJTI20_0
	.text
	.seh_endproc
	.section .rdata,"dr"
	.p2align 4, 0x0
.LCPI21_0:
	.byte 65
	.byte 66
	.byte 67
	.byte 68
	.byte 69
	.byte 70
	.byte 71
	.byte 72
	.byte 73
	.byte 74
	.byte 75
	.byte 76
	.byte 77
	.byte 78
	.byte 79
	.byte 80
.LCPI21_1:
	.byte 81
	.byte 82
	.byte 83
	.byte 84
	.byte 85
	.byte 86
	.byte 87
	.byte 88
	.byte 89
	.byte 90
	.byte 97
	.byte 98
	.byte 99
	.byte 100
	.byte 101
	.byte 102
.LCPI21_2:
	.byte 103
	.byte 104
	.byte 105
	.byte 106
	.byte 107
	.byte 108
	.byte 109
	.byte 110
	.byte 111
	.byte 112
	.byte 113
	.byte 114
	.byte 115
	.byte 116
	.byte 117
	.byte 118
.LCPI21_3:
	.byte 119
	.byte 120
	.byte 121
	.byte 122
	.byte 48
	.byte 49
	.byte 50
	.byte 51
	.byte 52
	.byte 53
	.byte 54
	.byte 55
	.byte 56
	.byte 57
	.byte 45
	.byte 95
.LCPI21_4:
	.byte 0
	.byte 1
	.byte 2
	.byte 3
	.byte 4
	.byte 5
	.byte 6
	.byte 7
	.byte 8
	.byte 9
	.byte 10
	.byte 11
	.byte 12
	.byte 13
	.byte 14
	.byte 15
.LCPI21_5:
	.byte 63
	.byte 255
	.byte 26
	.byte 27
	.byte 28
	.byte 29
	.byte 30
	.byte 31
	.byte 32
	.byte 33
	.byte 34
	.byte 35
	.byte 36
	.byte 37
	.byte 38
	.byte 39
	.text
	.p2align 4
ring_tokens.put.put_base64url:
.seh_proc ring_tokens.put.put_base64url
	pushq %rsi
	.seh_pushreg %rsi
	subq $400, %rsp
	.seh_stackalloc 400
	.seh_endprologue
	movq %r9, %rax
	movq %r8, %rsi
	movq 448(%rsp), %r9
	xorps %xmm0, %xmm0
	movups %xmm0, 372(%rsp)
	movups %xmm0, 362(%rsp)
	movups %xmm0, 346(%rsp)
	movups %xmm0, 330(%rsp)
	movups %xmm0, 314(%rsp)
	movups %xmm0, 298(%rsp)
	movups %xmm0, 282(%rsp)
	movups %xmm0, 266(%rsp)
	movups %xmm0, 250(%rsp)
	movups %xmm0, 234(%rsp)
	movups %xmm0, 218(%rsp)
	movups %xmm0, 202(%rsp)
	movaps %xmm0, 48(%rsp)
	movaps .LCPI21_0(%rip), %xmm0
	movaps %xmm0, 64(%rsp)
	movaps .LCPI21_1(%rip), %xmm0
	movaps %xmm0, 80(%rsp)
	movaps .LCPI21_2(%rip), %xmm0
	movaps %xmm0, 96(%rsp)
	movdqa .LCPI21_3(%rip), %xmm0
	movdqa %xmm0, 112(%rsp)
	pcmpeqd %xmm0, %xmm0
	movdqa %xmm0, 128(%rsp)
	movdqa %xmm0, 144(%rsp)
	movdqu %xmm0, 157(%rsp)
	movabsq $4050765991993409342, %r8
	movq %r8, 173(%rsp)
	movl $1010514489, 181(%rsp)
	movb $61, 185(%rsp)
	movl $-1, 186(%rsp)
	movl $-1, 189(%rsp)
	movaps .LCPI21_4(%rip), %xmm1
	movups %xmm1, 193(%rsp)
	movabsq $1663540288323457296, %r8
	movq %r8, 209(%rsp)
	movw $6424, 217(%rsp)
	movl $-1, 219(%rsp)
	movaps .LCPI21_5(%rip), %xmm1
	movups %xmm1, 223(%rsp)
	movabsq $3399704436437297448, %r8
	movq %r8, 239(%rsp)
	movl $858927408, 247(%rsp)
	movdqu %xmm0, 251(%rsp)
	movdqu %xmm0, 267(%rsp)
	movdqu %xmm0, 283(%rsp)
	movdqu %xmm0, 299(%rsp)
	movdqu %xmm0, 315(%rsp)
	movdqu %xmm0, 331(%rsp)
	movdqu %xmm0, 347(%rsp)
	movdqu %xmm0, 363(%rsp)
	movq $-1, 376(%rsp)
	movl $33554493, 384(%rsp)
	addq %rsi, %rcx
	subq %rsi, %rdx
	movq %rdx, 40(%rsp)
	movq %rcx, 32(%rsp)
	leaq 48(%rsp), %rcx
	leaq 64(%rsp), %rdx
	movq %rax, %r8
	callq base64.engine.general_purpose.GeneralPurpose.encode_slice
	cmpb $0, 48(%rsp)
	jne .LBB21_2
	addq 56(%rsp), %rsi
	movq %rsi, %rax
	addq $400, %rsp
	popq %rsi
	retq
.LBB21_2:
	ud2
	.seh_endproc
	.p2align 4
base64.engine.general_purpose.GeneralPurpose.encode_slice:
.seh_proc base64.engine.general_purpose.GeneralPurpose.encode_slice
	pushq %r15
	.seh_pushreg %r15
	pushq %r14
	.seh_pushreg %r14
	pushq %r13
	.seh_pushreg %r13
	pushq %r12
	.seh_pushreg %r12
	pushq %rsi
	.seh_pushreg %rsi
	pushq %rdi
	.seh_pushreg %rdi
	pushq %rbp
	.seh_pushreg %rbp
	pushq %rbx
	.seh_pushreg %rbx
	subq $16, %rsp
	.seh_stackalloc 16
	.seh_endprologue
	movq %r9, %r10
	movq %rdx, %r9
	movabsq $-6148914691236517205, %r12
	movq %r10, %rax
	mulq %r12
	movq %r10, %rax
	shrq $62, %rax
	cmpl $2, %eax
	ja .LBB22_8
	shrq %rdx
	leaq (%rdx,%rdx,2), %rax
	movq %r10, %r14
	subq %rax, %r14
	leaq (,%rdx,4), %rsi
	movq %rsi, %r11
	testq %r14, %r14
	je .LBB22_7
	cmpb $0, 321(%r9)
	je .LBB22_3
	movq %rsi, %r11
	subq $-4, %r11
	jne .LBB22_7
	jmp .LBB22_8
.LBB22_3:
	movq %rsi, %r11
	cmpq $1, %r14
	jne .LBB22_5
	orq $2, %r11
.LBB22_7:
	cmpq %r11, 128(%rsp)
	jae .LBB22_9
.LBB22_8:
	movw $1, (%rcx)
	movq $0, 8(%rcx)
	jmp .LBB22_25
.LBB22_5:
	orq $3, %r11
	cmpq %r11, 128(%rsp)
	jb .LBB22_8
.LBB22_9:
	movq %rax, (%rsp)
	movq 120(%rsp), %rdi
	cmpq $8, %r10
	jae .LBB22_11
	xorl %eax, %eax
	leaq (%rax,%rax), %r10
	subq %r10, %rdx
	ja .LBB22_15
	jmp .LBB22_17
.LBB22_11:
	movq %rdx, %r15
	addq $-2, %r10
	movq %r10, %rax
	mulq %r12
	movq %rdx, %rax
	shrq $2, %rax
	xorl %edx, %edx
	movq %r8, %r10
	.p2align 4
.LBB22_12:
	movq (%r10), %r12
	bswapq %r12
	movq %r12, %r13
	shrq $58, %r13
	movzbl (%r9,%r13), %ebp
	movb %bpl, (%rdi,%rdx,8)
	movq %r12, %r13
	shrq $52, %r13
	andl $63, %r13d
	movzbl (%r9,%r13), %ebp
	movb %bpl, 1(%rdi,%rdx,8)
	movq %r12, %r13
	shrq $46, %r13
	andl $63, %r13d
	movzbl (%r9,%r13), %ebp
	movb %bpl, 2(%rdi,%rdx,8)
	movq %r12, %r13
	shrq $40, %r13
	andl $63, %r13d
	movzbl (%r9,%r13), %ebp
	movb %bpl, 3(%rdi,%rdx,8)
	movq %r12, %r13
	shrq $34, %r13
	andl $63, %r13d
	movzbl (%r9,%r13), %ebp
	movb %bpl, 4(%rdi,%rdx,8)
	movq %r12, %r13
	shrq $28, %r13
	andl $63, %r13d
	movzbl (%r9,%r13), %ebp
	movb %bpl, 5(%rdi,%rdx,8)
	movl %r12d, %r13d
	shrl $22, %r13d
	andl $63, %r13d
	movzbl (%r9,%r13), %ebp
	movb %bpl, 6(%rdi,%rdx,8)
	shrl $16, %r12d
	andl $63, %r12d
	movzbl (%r9,%r12), %ebp
	movb %bpl, 7(%rdi,%rdx,8)
	incq %rdx
	addq $6, %r10
	cmpq %rdx, %rax
	jne .LBB22_12
	movq %r15, %rdx
	leaq (%rax,%rax), %r10
	subq %r10, %rdx
	jbe .LBB22_17
.LBB22_15:
	leaq (%rdi,%rax,8), %r10
	leaq (%rax,%rax,2), %rax
	leaq (%r8,%rax,2), %rax
	addq $2, %rax
	.p2align 4
.LBB22_16:
	movzbl -2(%rax), %ebp
	movzbl -1(%rax), %ebx
	movzbl (%rax), %r13d
	movl %ebp, %r15d
	shrl $2, %r15d
	movzbl (%r9,%r15), %r15d
	shll $4, %ebp
	andl $48, %ebp
	movl %ebx, %r12d
	shrl $4, %r12d
	orl %ebp, %r12d
	movzbl (%r9,%r12), %ebp
	andl $15, %ebx
	movl %r13d, %r12d
	shrl $6, %r12d
	leal (%r12,%rbx,4), %ebx
	movzbl (%r9,%rbx), %ebx
	andl $63, %r13d
	movzbl (%r9,%r13), %r12d
	shll $24, %r12d
	shll $16, %ebx
	shll $8, %ebp
	orl %r15d, %ebp
	orl %ebx, %ebp
	orl %r12d, %ebp
	leaq 12(%rsp), %rbx
	movq %r10, %r15
	subq %rbx, %r15
	cmpq $3, %r15
	movl %ebp, (%r10)
	addq $4, %r10
	addq $3, %rax
	decq %rdx
	jne .LBB22_16
.LBB22_17:
	cmpq $1, %r14
	je .LBB22_21
	cmpq $2, %r14
	jne .LBB22_24
	movq (%rsp), %rdx
	movzbl (%r8,%rdx), %eax
	movzbl 1(%r8,%rdx), %edx
	movl %eax, %r8d
	shrl $2, %r8d
	movzbl (%r9,%r8), %r8d
	shll $4, %eax
	andl $48, %eax
	movl %edx, %r10d
	shrl $4, %r10d
	orl %eax, %r10d
	movzbl (%r9,%r10), %eax
	andl $15, %edx
	movzbl (%r9,%rdx,4), %edx
	movb %r8b, (%rdi,%rsi)
	movb %al, 1(%rdi,%rsi)
	movb %dl, 2(%rdi,%rsi)
	cmpb $0, 321(%r9)
	je .LBB22_24
	addq %rsi, %rdi
	movzbl 320(%r9), %eax
	addq $3, %rdi
	xorl %edx, %edx
	jmp .LBB22_23
.LBB22_21:
	movq (%rsp), %rax
	movzbl (%r8,%rax), %eax
	movl %eax, %edx
	shrl $2, %edx
	movzbl (%r9,%rdx), %edx
	shll $4, %eax
	andl $48, %eax
	movzbl (%r9,%rax), %eax
	shll $8, %eax
	orl %edx, %eax
	movw %ax, (%rdi,%rsi)
	cmpb $1, 321(%r9)
	jne .LBB22_24
	addq %rsi, %rdi
	movzbl 320(%r9), %eax
	movb %al, 2(%rdi)
	addq $2, %rdi
	movl $1, %edx
.LBB22_23:
	movb %al, (%rdi,%rdx)
.LBB22_24:
	movw $0, (%rcx)
	movq %r11, 8(%rcx)
.LBB22_25:
	addq $16, %rsp
	popq %rbx
	popq %rbp
	popq %rdi
	popq %rsi
	popq %r12
	popq %r13
	popq %r14
	popq %r15
	retq
	.seh_endproc
	.p2align 4
ring_text.cut.cut_at:
.seh_proc ring_text.cut.cut_at
	pushq %rsi
	.seh_pushreg %rsi
	pushq %rdi
	.seh_pushreg %rdi
	pushq %rbx
	.seh_pushreg %rbx
	subq $96, %rsp
	.seh_stackalloc 96
	movdqa %xmm11, 80(%rsp)
	.seh_savexmm %xmm11, 80
	movdqa %xmm10, 64(%rsp)
	.seh_savexmm %xmm10, 64
	movdqa %xmm9, 48(%rsp)
	.seh_savexmm %xmm9, 48
	movdqa %xmm8, 32(%rsp)
	.seh_savexmm %xmm8, 32
	movdqa %xmm7, 16(%rsp)
	.seh_savexmm %xmm7, 16
	movdqa %xmm6, (%rsp)
	.seh_savexmm %xmm6, 0
	.seh_endprologue
	movq %rcx, %rax
	cmpq $32, %r8
	jae .LBB23_1
	testq %r8, %r8
	je .LBB23_3
	xorl %ebx, %ebx
	.p2align 4
.LBB23_5:
	cmpb %r9b, (%rdx,%rbx)
	je .LBB23_40
	incq %rbx
	cmpq %rbx, %r8
	jne .LBB23_5
.LBB23_3:
	xorl %ecx, %ecx
	xorl %edx, %edx
	xorl %ebx, %ebx
	xorl %r9d, %r9d
	xorl %r8d, %r8d
	jmp .LBB23_41
.LBB23_1:
	movzbl %r9b, %ecx
	movd %ecx, %xmm0
	pxor %xmm1, %xmm1
	pshufb %xmm1, %xmm0
	leaq -64(%r8), %r10
	xorl %r11d, %r11d
.LBB23_8:
	movq %r8, %rcx
	subq %r11, %rcx
	cmpq $191, %rcx
	jbe .LBB23_9
	movdqu (%rdx,%r11), %xmm1
	movdqu 16(%rdx,%r11), %xmm2
	movdqu 32(%rdx,%r11), %xmm3
	movdqu 48(%rdx,%r11), %xmm4
	pcmpeqb %xmm0, %xmm4
	pcmpeqb %xmm0, %xmm3
	pcmpeqb %xmm0, %xmm1
	pmovmskb %xmm1, %ecx
	pcmpeqb %xmm0, %xmm2
	pmovmskb %xmm2, %esi
	shll $16, %esi
	orl %ecx, %esi
	pmovmskb %xmm3, %ecx
	shlq $32, %rcx
	orq %rsi, %rcx
	pmovmskb %xmm4, %edi
	shlq $48, %rdi
	leaq 64(%r11), %rsi
	orq %rcx, %rdi
	jne .LBB23_38
	movq %r8, %rcx
	subq %rsi, %rcx
	cmpq $128, %rcx
	jb .LBB23_18
	subq $-128, %r11
	movq %r11, %rsi
	.p2align 4
.LBB23_15:
	movdqu -64(%rdx,%rsi), %xmm8
	movdqu -48(%rdx,%rsi), %xmm7
	movdqu -32(%rdx,%rsi), %xmm6
	movdqu -16(%rdx,%rsi), %xmm3
	pcmpeqb %xmm0, %xmm7
	pcmpeqb %xmm0, %xmm8
	pcmpeqb %xmm0, %xmm6
	pcmpeqb %xmm0, %xmm3
	movdqu (%rdx,%rsi), %xmm5
	movdqu 16(%rdx,%rsi), %xmm4
	pcmpeqb %xmm0, %xmm4
	pcmpeqb %xmm0, %xmm5
	movdqu 32(%rdx,%rsi), %xmm2
	movdqu 48(%rdx,%rsi), %xmm1
	pcmpeqb %xmm0, %xmm1
	pcmpeqb %xmm0, %xmm2
	movdqa %xmm5, %xmm9
	por %xmm2, %xmm9
	movdqa %xmm4, %xmm10
	por %xmm1, %xmm10
	movdqa %xmm8, %xmm11
	por %xmm6, %xmm11
	por %xmm9, %xmm11
	movdqa %xmm7, %xmm9
	por %xmm3, %xmm9
	por %xmm10, %xmm9
	por %xmm11, %xmm9
	pmovmskb %xmm9, %r11d
	testl %r11d, %r11d
	jne .LBB23_22
	subq $-128, %rsi
	addq $-128, %rcx
	cmpq $127, %rcx
	ja .LBB23_15
	addq $-64, %rsi
.LBB23_18:
	movq %rsi, %r11
	cmpq $32, %rcx
	jb .LBB23_30
	movq %r8, %rcx
	subq %r11, %rcx
	.p2align 4
.LBB23_20:
	movdqu (%rdx,%r11), %xmm1
	movdqu 16(%rdx,%r11), %xmm2
	pcmpeqb %xmm0, %xmm1
	pmovmskb %xmm1, %edi
	pcmpeqb %xmm0, %xmm2
	pmovmskb %xmm2, %esi
	shll $16, %esi
	orl %edi, %esi
	jne .LBB23_37
	addq $-32, %rcx
	addq $32, %r11
	cmpq $31, %rcx
	ja .LBB23_20
	jmp .LBB23_30
	.p2align 4
.LBB23_9:
	cmpq $64, %rcx
	jb .LBB23_26
	.p2align 4
.LBB23_10:
	movdqu (%rdx,%r11), %xmm4
	movdqu 16(%rdx,%r11), %xmm3
	movdqu 32(%rdx,%r11), %xmm2
	movdqu 48(%rdx,%r11), %xmm1
	movdqa %xmm3, %xmm5
	pcmpeqb %xmm0, %xmm5
	movdqa %xmm4, %xmm6
	pcmpeqb %xmm0, %xmm6
	movdqa %xmm1, %xmm7
	pcmpeqb %xmm0, %xmm7
	por %xmm5, %xmm7
	movdqa %xmm2, %xmm5
	pcmpeqb %xmm0, %xmm5
	por %xmm6, %xmm5
	por %xmm7, %xmm5
	pmovmskb %xmm5, %esi
	testl %esi, %esi
	jne .LBB23_32
	addq $64, %r11
	addq $-64, %rcx
	cmpq $63, %rcx
	ja .LBB23_10
	jmp .LBB23_26
.LBB23_32:
	cmpq $64, %rcx
	jb .LBB23_26
.LBB23_33:
	pcmpeqb %xmm0, %xmm1
	pcmpeqb %xmm0, %xmm2
	pcmpeqb %xmm0, %xmm4
	pmovmskb %xmm4, %ecx
	pcmpeqb %xmm0, %xmm3
	pmovmskb %xmm3, %esi
	shll $16, %esi
	orl %ecx, %esi
	pmovmskb %xmm2, %ecx
	shlq $32, %rcx
	orq %rsi, %rcx
	pmovmskb %xmm1, %edi
	shlq $48, %rdi
	orq %rcx, %rdi
	jne .LBB23_42
	movq %r10, %rcx
	subq %r11, %rcx
	.p2align 4
.LBB23_35:
	cmpq $64, %rcx
	jb .LBB23_25
	movdqu 64(%rdx,%r11), %xmm4
	movdqu 80(%rdx,%r11), %xmm3
	movdqu 96(%rdx,%r11), %xmm2
	movdqu 112(%rdx,%r11), %xmm1
	movdqa %xmm3, %xmm5
	pcmpeqb %xmm0, %xmm5
	movdqa %xmm4, %xmm6
	pcmpeqb %xmm0, %xmm6
	movdqa %xmm1, %xmm7
	pcmpeqb %xmm0, %xmm7
	por %xmm5, %xmm7
	movdqa %xmm2, %xmm5
	pcmpeqb %xmm0, %xmm5
	por %xmm6, %xmm5
	por %xmm7, %xmm5
	pmovmskb %xmm5, %esi
	addq $-64, %rcx
	addq $64, %r11
	testl %esi, %esi
	je .LBB23_35
	jmp .LBB23_33
.LBB23_25:
	addq $64, %r11
	.p2align 4
.LBB23_26:
	cmpq $32, %rcx
	jb .LBB23_30
	movq %r8, %rcx
	subq %r11, %rcx
	.p2align 4
.LBB23_28:
	movdqu (%rdx,%r11), %xmm1
	movdqu 16(%rdx,%r11), %xmm2
	pcmpeqb %xmm0, %xmm1
	pmovmskb %xmm1, %edi
	pcmpeqb %xmm0, %xmm2
	pmovmskb %xmm2, %esi
	shll $16, %esi
	orl %edi, %esi
	jne .LBB23_37
	addq $-32, %rcx
	addq $32, %r11
	cmpq $31, %rcx
	ja .LBB23_28
.LBB23_30:
	movdqu -32(%rdx,%r8), %xmm1
	movdqu -16(%rdx,%r8), %xmm2
	pcmpeqb %xmm0, %xmm1
	pmovmskb %xmm1, %ecx
	pcmpeqb %xmm0, %xmm2
	pmovmskb %xmm2, %edi
	shll $16, %edi
	orl %ecx, %edi
	movl %r11d, %ecx
	subl %r8d, %ecx
	addb $32, %cl
	shrq %cl, %rdi
	movq %r11, %rsi
	movq %r8, %rcx
.LBB23_31:
	movq %rsi, %r11
	movq %rcx, %rsi
	testq %rdi, %rdi
	jne .LBB23_38
	jmp .LBB23_7
.LBB23_37:
	movl %esi, %edi
	leaq 32(%r11), %rsi
	.p2align 4
.LBB23_38:
	rep 	bsfq %rdi, %rcx
	leaq (%rcx,%r11), %rbx
	cmpb %r9b, (%rdx,%rbx)
	je .LBB23_40
	movq $-2, %rbx
	rolq %cl, %rbx
	andq %rbx, %rdi
	jne .LBB23_38
.LBB23_7:
	movq %rsi, %r11
	cmpq %r8, %rsi
	jb .LBB23_8
	jmp .LBB23_3
.LBB23_22:
	pmovmskb %xmm8, %ecx
	pmovmskb %xmm7, %r11d
	shll $16, %r11d
	orl %ecx, %r11d
	pmovmskb %xmm6, %ecx
	shlq $32, %rcx
	orq %r11, %rcx
	pmovmskb %xmm3, %edi
	shlq $48, %rdi
	orq %rcx, %rdi
	je .LBB23_24
	leaq -64(%rsi), %r11
	jmp .LBB23_38
.LBB23_24:
	leaq 64(%rsi), %rcx
	pmovmskb %xmm5, %r11d
	pmovmskb %xmm4, %edi
	shll $16, %edi
	orl %r11d, %edi
	pmovmskb %xmm2, %r11d
	shlq $32, %r11
	orq %rdi, %r11
	pmovmskb %xmm1, %edi
	shlq $48, %rdi
	orq %r11, %rdi
	jmp .LBB23_31
.LBB23_42:
	leaq 64(%r11), %rsi
	jmp .LBB23_38
.LBB23_40:
	leaq 1(%rbx), %rcx
	leaq (%rdx,%rbx), %r9
	incq %r9
	subq %rcx, %r8
	movl $1, %ecx
.LBB23_41:
	movq %rcx, (%rax)
	movq %rdx, 8(%rax)
	movq %rbx, 16(%rax)
	movq %r9, 24(%rax)
	movq %r8, 32(%rax)
	movaps (%rsp), %xmm6
	movaps 16(%rsp), %xmm7
	movaps 32(%rsp), %xmm8
	movaps 48(%rsp), %xmm9
	movaps 64(%rsp), %xmm10
	movaps 80(%rsp), %xmm11
	addq $96, %rsp
	popq %rbx
	popq %rdi
	popq %rsi
	retq
	.seh_endproc
	.section .rdata,"dr"
	.p2align 4, 0x0
.LCPI24_0:
	.byte 65
	.byte 66
	.byte 67
	.byte 68
	.byte 69
	.byte 70
	.byte 71
	.byte 72
	.byte 73
	.byte 74
	.byte 75
	.byte 76
	.byte 77
	.byte 78
	.byte 79
	.byte 80
.LCPI24_1:
	.byte 81
	.byte 82
	.byte 83
	.byte 84
	.byte 85
	.byte 86
	.byte 87
	.byte 88
	.byte 89
	.byte 90
	.byte 97
	.byte 98
	.byte 99
	.byte 100
	.byte 101
	.byte 102
.LCPI24_2:
	.byte 103
	.byte 104
	.byte 105
	.byte 106
	.byte 107
	.byte 108
	.byte 109
	.byte 110
	.byte 111
	.byte 112
	.byte 113
	.byte 114
	.byte 115
	.byte 116
	.byte 117
	.byte 118
.LCPI24_3:
	.byte 119
	.byte 120
	.byte 121
	.byte 122
	.byte 48
	.byte 49
	.byte 50
	.byte 51
	.byte 52
	.byte 53
	.byte 54
	.byte 55
	.byte 56
	.byte 57
	.byte 45
	.byte 95
.LCPI24_4:
	.byte 0
	.byte 1
	.byte 2
	.byte 3
	.byte 4
	.byte 5
	.byte 6
	.byte 7
	.byte 8
	.byte 9
	.byte 10
	.byte 11
	.byte 12
	.byte 13
	.byte 14
	.byte 15
.LCPI24_5:
	.byte 63
	.byte 255
	.byte 26
	.byte 27
	.byte 28
	.byte 29
	.byte 30
	.byte 31
	.byte 32
	.byte 33
	.byte 34
	.byte 35
	.byte 36
	.byte 37
	.byte 38
	.byte 39
	.text
	.p2align 4
ring_tokens.decoded.decode_over:
.seh_proc ring_tokens.decoded.decode_over
	subq $408, %rsp
	.seh_stackalloc 408
	.seh_endprologue
	movq %rdx, %r10
	movq %rcx, %rax
	xorps %xmm0, %xmm0
	movups %xmm0, 388(%rsp)
	movups %xmm0, 378(%rsp)
	movups %xmm0, 362(%rsp)
	movups %xmm0, 346(%rsp)
	movups %xmm0, 330(%rsp)
	movups %xmm0, 314(%rsp)
	movups %xmm0, 298(%rsp)
	movups %xmm0, 282(%rsp)
	movups %xmm0, 266(%rsp)
	movups %xmm0, 250(%rsp)
	movups %xmm0, 234(%rsp)
	movups %xmm0, 218(%rsp)
	movaps %xmm0, 48(%rsp)
	movaps %xmm0, 64(%rsp)
	movaps .LCPI24_0(%rip), %xmm0
	movaps %xmm0, 80(%rsp)
	movaps .LCPI24_1(%rip), %xmm0
	movaps %xmm0, 96(%rsp)
	movaps .LCPI24_2(%rip), %xmm0
	movaps %xmm0, 112(%rsp)
	movdqa .LCPI24_3(%rip), %xmm0
	movdqa %xmm0, 128(%rsp)
	pcmpeqd %xmm0, %xmm0
	movdqu %xmm0, 173(%rsp)
	movdqa %xmm0, 160(%rsp)
	movdqa %xmm0, 144(%rsp)
	movabsq $4050765991993409342, %rcx
	movq %rcx, 189(%rsp)
	movl $1010514489, 197(%rsp)
	movb $61, 201(%rsp)
	movl $-1, 202(%rsp)
	movl $-1, 205(%rsp)
	movaps .LCPI24_4(%rip), %xmm1
	movups %xmm1, 209(%rsp)
	movabsq $1663540288323457296, %rcx
	movq %rcx, 225(%rsp)
	movw $6424, 233(%rsp)
	movl $-1, 235(%rsp)
	movaps .LCPI24_5(%rip), %xmm1
	movups %xmm1, 239(%rsp)
	movabsq $3399704436437297448, %rcx
	movq %rcx, 255(%rsp)
	movl $858927408, 263(%rsp)
	movdqu %xmm0, 267(%rsp)
	movdqu %xmm0, 283(%rsp)
	movdqu %xmm0, 299(%rsp)
	movdqu %xmm0, 315(%rsp)
	movdqu %xmm0, 331(%rsp)
	movdqu %xmm0, 347(%rsp)
	movdqu %xmm0, 363(%rsp)
	movdqu %xmm0, 379(%rsp)
	movq $-1, 392(%rsp)
	movl $33554493, 400(%rsp)
	movq %r9, 40(%rsp)
	movq %r8, 32(%rsp)
	leaq 48(%rsp), %rcx
	leaq 80(%rsp), %rdx
	movq %rax, %r8
	movq %r10, %r9
	callq base64.engine.general_purpose.GeneralPurpose.decode_slice_unchecked
	cmpb $0, 48(%rsp)
	sete %al
	jne .LBB24_1
	movq 56(%rsp), %rdx
	addq $408, %rsp
	retq
.LBB24_1:
	xorl %edx, %edx
	addq $408, %rsp
	retq
	.seh_endproc
	.p2align 4
base64.engine.general_purpose.GeneralPurpose.decode_slice_unchecked:
.seh_proc base64.engine.general_purpose.GeneralPurpose.decode_slice_unchecked
	pushq %r15
	.seh_pushreg %r15
	pushq %r14
	.seh_pushreg %r14
	pushq %r13
	.seh_pushreg %r13
	pushq %r12
	.seh_pushreg %r12
	pushq %rsi
	.seh_pushreg %rsi
	pushq %rdi
	.seh_pushreg %rdi
	pushq %rbp
	.seh_pushreg %rbp
	pushq %rbx
	.seh_pushreg %rbx
	subq $56, %rsp
	.seh_stackalloc 56
	.seh_endprologue
	movq %r9, %rsi
	movq %rdx, %r11
	movzbl 320(%rdx), %r10d
	movzbl 322(%rdx), %r9d
	movzbl 323(%rdx), %eax
	movl %eax, 36(%rsp)
	movl %esi, %eax
	andl $3, %eax
	cmpl $1, %eax
	jne .LBB25_3
	movzbl -1(%r8,%rsi), %edx
	cmpb %r10b, %dl
	je .LBB25_3
	movzbl %dl, %eax
	cmpb $-1, 64(%r11,%rax)
	je .LBB25_26
.LBB25_3:
	movb %r10b, 7(%rsp)
	movb %r9b, 15(%rsp)
	movq 168(%rsp), %rax
	cmpq $1, %rsi
	movq %rsi, %rdi
	adcq $-1, %rdi
	movq %rdi, %r9
	movabsq $-6148914691236517205, %rdx
	mulq %rdx
	shrq $2, %r9
	shrq %rdx
	cmpq %r9, %rdx
	jb .LBB25_61
	movq %rcx, 24(%rsp)
	movq %r9, 48(%rsp)
	testq %r9, %r9
	je .LBB25_11
	movq 160(%rsp), %rax
	leaq 2(%rax), %rdx
	movl $3, %eax
	movq 48(%rsp), %r9
	.p2align 4
.LBB25_6:
	movzbl -3(%r8,%rax), %r14d
	movzbl 64(%r11,%r14), %r10d
	movzbl -2(%r8,%rax), %r15d
	movzbl 64(%r11,%r15), %ebp
	movzbl -1(%r8,%rax), %r13d
	movzbl 64(%r11,%r13), %r12d
	movzbl (%r8,%rax), %ebx
	cmpb $-1, %r12b
	je .LBB25_17
	cmpb $-1, %r10b
	je .LBB25_17
	cmpb $-1, %bpl
	je .LBB25_17
	movzbl 64(%r11,%rbx), %ecx
	cmpb $-1, %cl
	je .LBB25_17
	shlb $2, %r10b
	movl %ebp, %ebx
	shrb $4, %bl
	addb %r10b, %bl
	shlb $4, %bpl
	movl %r12d, %r10d
	shrb $2, %r10b
	addb %bpl, %r10b
	shlb $6, %r12b
	addb %r12b, %cl
	movb %bl, -2(%rdx)
	movb %r10b, -1(%rdx)
	movb %cl, (%rdx)
	addq $3, %rdx
	addq $4, %rax
	decq %r9
	jne .LBB25_6
.LBB25_11:
	andq $-4, %rdi
	movq %rsi, %r15
	subq %rdi, %r15
	jne .LBB25_15
	xorl %ebx, %ebx
	xorl %r10d, %r10d
	xorl %ebp, %ebp
	xorl %r13d, %r13d
	xorl %eax, %eax
	xorl %r9d, %r9d
	xorl %edx, %edx
	xorl %r12d, %r12d
	movq 24(%rsp), %rcx
	testq %rsi, %rsi
	je .LBB25_22
.LBB25_13:
	cmpq $1, %rax
	ja .LBB25_22
	orq %rdi, %rax
	movl $1, %r10d
	xorl %edx, %edx
	movl $1, %r8d
	movq %rax, %r9
	jmp .LBB25_51
.LBB25_15:
	movzbl (%r8,%rdi), %edx
	movzbl 7(%rsp), %ebx
	cmpb %bl, %dl
	movq 24(%rsp), %rcx
	jne .LBB25_18
	xorl %r9d, %r9d
	jmp .LBB25_50
.LBB25_17:
	leaq -1(%rax), %rcx
	cmpb $-1, %r12b
	cmovneq %rax, %rcx
	movzbl %r13b, %edx
	movzbl %bl, %r8d
	cmovel %edx, %r8d
	leaq -2(%rax), %r9
	addq $-3, %rax
	cmpb $-1, %bpl
	cmovneq %rcx, %r9
	movzbl %r15b, %ecx
	cmovnel %r8d, %ecx
	cmpb $-1, %r10b
	cmoveq %rax, %r9
	movzbl %r14b, %edx
	cmovnel %ecx, %edx
	movl $1, %r10d
	xorl %r8d, %r8d
	xorl %r12d, %r12d
	movq 24(%rsp), %rcx
	jmp .LBB25_52
.LBB25_18:
	movzbl %dl, %eax
	movzbl 64(%r11,%rax), %r12d
	cmpb $-1, %r12b
	je .LBB25_31
	movl $0, 8(%rsp)
	movb %r12b, 8(%rsp)
	movl 8(%rsp), %r9d
	cmpq $1, %r15
	jne .LBB25_32
	movl %r9d, %r10d
	shrl $8, %r10d
	movl %r9d, %ebp
	shrl $16, %ebp
	movl %r9d, %r13d
	shrl $24, %r13d
	movl $1, %eax
	movq $0, 16(%rsp)
	movq %r9, %rbx
.LBB25_21:
	shlb $2, %bl
	movq 16(%rsp), %r9
	testq %rsi, %rsi
	jne .LBB25_13
.LBB25_22:
	movl 36(%rsp), %r8d
	testl %r8d, %r8d
	je .LBB25_28
	cmpl $2, %r8d
	jne .LBB25_27
	testq %r9, %r9
	je .LBB25_28
.LBB25_25:
	movl $3, %r8d
	movl $1, %r10d
	jmp .LBB25_48
.LBB25_26:
	decq %rsi
	movl $1, %r10d
	xorl %r8d, %r8d
	movq %rsi, %r9
	jmp .LBB25_51
.LBB25_27:
	addl %eax, %r9d
	testb $3, %r9b
	jne .LBB25_25
.LBB25_28:
	cmpq $3, %rax
	je .LBB25_36
	cmpq $2, %rax
	jne .LBB25_40
	movl %r10d, %r8d
	andb $15, %r8b
	jmp .LBB25_37
.LBB25_31:
	xorl %r9d, %r9d
.LBB25_49:
	movl %edx, %ebx
	jmp .LBB25_50
.LBB25_32:
	movq %r9, %r10
	addq %rdi, %r8
	movzbl 1(%r8), %edx
	movl $1, %r9d
	cmpb %bl, %dl
	jne .LBB25_33
.LBB25_50:
	addq %rdi, %r9
	movl $1, %r10d
	xorl %r8d, %r8d
	movl %ebx, %edx
	jmp .LBB25_51
.LBB25_36:
	movl %ebp, %r8d
	andb $3, %r8b
.LBB25_37:
	testb %r8b, %r8b
	je .LBB25_40
	cmpb $0, 15(%rsp)
	jne .LBB25_40
	leaq (%rdi,%rax), %r9
	decq %r9
	movl $2, %r8d
	movl $1, %r10d
	jmp .LBB25_52
.LBB25_40:
	movq 48(%rsp), %rdx
	leaq (%rdx,%rdx,2), %rdx
	addq %rax, %rax
	leaq (%rax,%rax,2), %r8
	shrq $3, %r8
	movq 168(%rsp), %rax
	subq %rdx, %rax
	cmpq %r8, %rax
	jb .LBB25_61
	testq %r8, %r8
	je .LBB25_47
	movl %r10d, %eax
	shrb $4, %al
	addb %bl, %al
	shlb $4, %r10b
	movl %ebp, %r9d
	shrb $2, %r9b
	addb %r10b, %r9b
	cmpq $2, %r8
	je .LBB25_45
	cmpq $1, %r8
	jne .LBB25_46
	movq 160(%rsp), %r9
	movb %al, (%r9,%rdx)
	jmp .LBB25_47
.LBB25_33:
	movzbl %dl, %eax
	movzbl 64(%r11,%rax), %r12d
	cmpb $-1, %r12b
	je .LBB25_49
	movl %r10d, 8(%rsp)
	movb %r12b, 9(%rsp)
	movl 8(%rsp), %ebx
	movl %ebx, %r10d
	shrl $8, %r10d
	movl %ebx, %ebp
	shrl $16, %ebp
	movl %ebx, %r13d
	shrl $24, %r13d
	cmpq $2, %r15
	jne .LBB25_53
	movl $2, %eax
	movq $0, 16(%rsp)
	jmp .LBB25_21
.LBB25_45:
	movzbl %r9b, %r9d
	shll $8, %r9d
	movzbl %al, %eax
	orl %r9d, %eax
	movq 160(%rsp), %r9
	movw %ax, (%r9,%rdx)
	jmp .LBB25_47
.LBB25_46:
	shlb $6, %bpl
	addb %r13b, %bpl
	movzbl %r9b, %r9d
	shll $8, %r9d
	movzbl %al, %eax
	orl %r9d, %eax
	movq 160(%rsp), %r9
	movw %ax, (%r9,%rdx)
	movb %bpl, 2(%r9,%rdx)
.LBB25_47:
	addq %rdx, %r8
	xorl %r10d, %r10d
.LBB25_48:
	xorl %r9d, %r9d
	xorl %edx, %edx
.LBB25_51:
	xorl %r12d, %r12d
.LBB25_52:
	movq %r10, (%rcx)
	movq %r8, 8(%rcx)
	movq %r9, 16(%rcx)
	movb %dl, 24(%rcx)
	movb %r12b, 25(%rcx)
	addq $56, %rsp
	popq %rbx
	popq %rbp
	popq %rdi
	popq %rsi
	popq %r12
	popq %r13
	popq %r14
	popq %r15
	retq
.LBB25_53:
	movl $2, %r14d
	xorl %r9d, %r9d
	movq $0, 16(%rsp)
	movl $2, %eax
	jmp .LBB25_56
.LBB25_54:
	movq 16(%rsp), %r10
	testq %r10, %r10
	cmoveq %r14, %r9
	incq %r10
	movq %r10, 16(%rsp)
	movq 40(%rsp), %rbx
.LBB25_55:
	orb %r13b, %bl
	movl %r13d, %r10d
	shrl $8, %r10d
	movl %r13d, %ebp
	shrl $16, %ebp
	shrl $24, %r13d
	incq %r14
	cmpq %r14, %r15
	je .LBB25_21
.LBB25_56:
	movq %rbx, 40(%rsp)
	shll $24, %r13d
	movzbl %bpl, %ebx
	shll $16, %ebx
	orl %r13d, %ebx
	shll $8, %r10d
	movzwl %r10w, %r13d
	orl %ebx, %r13d
	movzbl (%r8,%r14), %r10d
	movzbl 7(%rsp), %ebx
	cmpb %bl, %r10b
	je .LBB25_54
	cmpq $0, 16(%rsp)
	jne .LBB25_50
	movzbl %r10b, %edx
	movzbl 64(%r11,%rdx), %r12d
	cmpb $-1, %r12b
	je .LBB25_60
	movzbl 40(%rsp), %edx
	orl %edx, %r13d
	movl %r13d, 8(%rsp)
	movb %r12b, 8(%rsp,%rax)
	movl 8(%rsp), %ebx
	incq %rax
	movl %ebx, %r13d
	andl $-256, %r13d
	movq $0, 16(%rsp)
	movl %r10d, %edx
	jmp .LBB25_55
.LBB25_60:
	movq %r14, %r9
	movl %r10d, %ebx
	jmp .LBB25_50
.LBB25_61:
	ud2
	.seh_endproc
	.p2align 4
ring_merkle.paths.write_proof:
.seh_proc ring_merkle.paths.write_proof
	pushq %r15
	.seh_pushreg %r15
	pushq %r14
	.seh_pushreg %r14
	pushq %r13
	.seh_pushreg %r13
	pushq %r12
	.seh_pushreg %r12
	pushq %rsi
	.seh_pushreg %rsi
	pushq %rdi
	.seh_pushreg %rdi
	pushq %rbp
	.seh_pushreg %rbp
	pushq %rbx
	.seh_pushreg %rbx
	subq $136, %rsp
	.seh_stackalloc 136
	.seh_endprologue
	movq %rdx, %rax
	movq %rcx, %rdx
	movq 256(%rsp), %rsi
	movq 240(%rsp), %r12
	xorps %xmm0, %xmm0
	movaps %xmm0, 112(%rsp)
	movaps %xmm0, 96(%rsp)
	movaps %xmm0, 64(%rsp)
	movaps %xmm0, 80(%rsp)
	leaq 1(%r8), %rcx
	cmpq %rax, %rcx
	jne .LBB26_4
	testb %r9b, %r9b
	jne .LBB26_3
	leaq 96(%rsp), %rcx
	movq %rax, %r8
	movq %rsi, %r9
	callq ring_merkle.paths.tree_root_counted
	movaps 96(%rsp), %xmm0
	movaps 112(%rsp), %xmm1
	movups %xmm1, 16(%r12)
	movups %xmm0, (%r12)
	jmp .LBB26_3
.LBB26_4:
	movq %r8, %rdi
	movq %rax, %rcx
	shrq %rcx
	movq %rax, %r10
	subq %rcx, %r10
	movl $1, %r8d
	cmpq $2, %r10
	jb .LBB26_6
	decq %r10
	movl $127, %ecx
	bsrq %r10, %rcx
	xorl $63, %ecx
	negb %cl
	shlq %cl, %r8
.LBB26_6:
	movq 248(%rsp), %r13
	movq %r8, %rcx
	shlq $5, %rcx
	addq %rdx, %rcx
	subq %r8, %rax
	movq %rdi, %rbx
	movl %r9d, %ebp
	subq %r8, %rbx
	jae .LBB26_8
	movq %rdx, %r14
	movq %r8, %r15
	movq %rcx, %rdx
	movq %rax, %r8
	movq %rdi, %rbx
	jmp .LBB26_9
.LBB26_8:
	movq %rcx, %r14
	movq %rax, %r15
.LBB26_9:
	decq %r13
	leaq 64(%rsp), %rcx
	movq %rsi, %r9
	callq ring_merkle.paths.tree_root_counted
	movq %r13, %rax
	shlq $5, %rax
	movaps 64(%rsp), %xmm0
	movaps 80(%rsp), %xmm1
	movups %xmm1, 16(%r12,%rax)
	movups %xmm0, (%r12,%rax)
	cmpq %rdi, %rbx
	sete %al
	movl %ebp, %r9d
	andb %al, %r9b
	movq %rsi, 48(%rsp)
	movq %r13, 40(%rsp)
	movq %r12, 32(%rsp)
	movq %r14, %rcx
	movq %r15, %rdx
	movq %rbx, %r8
	callq ring_merkle.paths.write_proof
	nop
.LBB26_3:
	addq $136, %rsp
	popq %rbx
	popq %rbp
	popq %rdi
	popq %rsi
	popq %r12
	popq %r13
	popq %r14
	popq %r15
	retq
	.seh_endproc
	.p2align 4
ring_merkle.paths.tree_root_counted:
.seh_proc ring_merkle.paths.tree_root_counted
	pushq %r15
	.seh_pushreg %r15
	pushq %r14
	.seh_pushreg %r14
	pushq %r13
	.seh_pushreg %r13
	pushq %r12
	.seh_pushreg %r12
	pushq %rsi
	.seh_pushreg %rsi
	pushq %rdi
	.seh_pushreg %rdi
	pushq %rbp
	.seh_pushreg %rbp
	pushq %rbx
	.seh_pushreg %rbx
	subq $2392, %rsp
	.seh_stackalloc 2392
	movaps %xmm6, 2368(%rsp)
	.seh_savexmm %xmm6, 2368
	.seh_endprologue
	movq %r9, %rdi
	movq %r8, %rbx
	movq %rdx, %r14
	movq %rcx, %rsi
	xorps %xmm6, %xmm6
	movaps %xmm6, 256(%rsp)
	movaps %xmm6, 240(%rsp)
	leaq 312(%rsp), %rcx
	movl $2056, %r8d
	xorl %edx, %edx
	callq memset
	testq %rbx, %rbx
	je .LBB27_8
	leaq 49(%rsp), %r15
	xorl %r12d, %r12d
	jmp .LBB27_2
	.p2align 4
.LBB27_4:
	movaps 144(%rsp), %xmm0
	movaps 160(%rsp), %xmm1
	movups %xmm1, 328(%rsp,%r13)
	movups %xmm0, 312(%rsp,%r13)
.LBB27_7:
	incq %r12
	cmpq %rbx, %r12
	je .LBB27_8
.LBB27_2:
	movq %r12, %rax
	shlq $5, %rax
	movups (%r14,%rax), %xmm0
	movups 16(%r14,%rax), %xmm1
	movaps %xmm1, 160(%rsp)
	movaps %xmm0, 144(%rsp)
	movq 2360(%rsp), %rbp
	leaq 1(%rbp), %rax
	movq %rax, 2360(%rsp)
	xorl %r13d, %r13d
	.p2align 4
.LBB27_3:
	testb $1, %bpl
	je .LBB27_4
	leaq (%rsp,%r13), %rax
	addq $312, %rax
	xorps %xmm0, %xmm0
	movaps %xmm0, 48(%rsp)
	movaps %xmm0, 64(%rsp)
	movb $0, 80(%rsp)
	leaq .Lstatic.20(%rip), %rcx
	movq %rcx, 96(%rsp)
	movq $1, 104(%rsp)
	movq %rax, 112(%rsp)
	movq $32, 120(%rsp)
	leaq 144(%rsp), %rax
	movq %rax, 128(%rsp)
	movq $32, 136(%rsp)
	leaq 48(%rsp), %rcx
	leaq 96(%rsp), %rdx
	movl $3, %r8d
	movq %rdi, %r9
	callq ring_merkle.hash.hash_pieces
	cmpb $0, 48(%rsp)
	jne .LBB27_22
	movups (%r15), %xmm0
	movups 16(%r15), %xmm1
	movaps %xmm1, 160(%rsp)
	movaps %xmm0, 144(%rsp)
	shrq %rbp
	addq $32, %r13
	cmpq $2048, %r13
	jne .LBB27_3
	jmp .LBB27_7
.LBB27_8:
	movaps %xmm6, 176(%rsp)
	movaps %xmm6, 192(%rsp)
	movq 2360(%rsp), %rbx
	movb $1, %al
	leaq 49(%rsp), %r14
	xorl %r15d, %r15d
.LBB27_9:
	leaq 1(%r15), %rdx
	shlq $5, %r15
	leaq (%rsp,%r15), %rcx
	addq $312, %rcx
	movq %rdx, %r15
	.p2align 4
.LBB27_10:
	testb $1, %bl
	jne .LBB27_11
	shrq %rbx
	incq %r15
	addq $32, %rcx
	cmpq $65, %r15
	jne .LBB27_10
	jmp .LBB27_18
	.p2align 4
.LBB27_11:
	testb $1, %al
	je .LBB27_15
	movups (%rcx), %xmm0
	movups 16(%rcx), %xmm1
	jmp .LBB27_13
	.p2align 4
.LBB27_15:
	movaps 176(%rsp), %xmm0
	movaps 192(%rsp), %xmm1
	movaps %xmm1, 160(%rsp)
	movaps %xmm0, 144(%rsp)
	xorps %xmm0, %xmm0
	movaps %xmm0, 48(%rsp)
	movaps %xmm0, 64(%rsp)
	movb $0, 80(%rsp)
	leaq .Lstatic.20(%rip), %rax
	movq %rax, 96(%rsp)
	movq $1, 104(%rsp)
	movq %rcx, 112(%rsp)
	movq $32, 120(%rsp)
	leaq 144(%rsp), %rax
	movq %rax, 128(%rsp)
	movq $32, 136(%rsp)
	leaq 48(%rsp), %rcx
	leaq 96(%rsp), %rdx
	movl $3, %r8d
	movq %rdi, %r9
	callq ring_merkle.hash.hash_pieces
	cmpb $0, 48(%rsp)
	jne .LBB27_22
	movups (%r14), %xmm0
	movups 16(%r14), %xmm1
.LBB27_13:
	movaps %xmm1, 224(%rsp)
	movaps %xmm0, 208(%rsp)
	movaps 208(%rsp), %xmm0
	movaps 224(%rsp), %xmm1
	movaps %xmm1, 288(%rsp)
	movaps %xmm0, 272(%rsp)
	movaps %xmm0, 176(%rsp)
	movaps %xmm1, 192(%rsp)
	shrq %rbx
	xorl %eax, %eax
	cmpq $64, %r15
	jne .LBB27_9
	jmp .LBB27_14
.LBB27_18:
	testb $1, %al
	je .LBB27_14
	xorps %xmm0, %xmm0
	movaps %xmm0, 112(%rsp)
	movaps %xmm0, 96(%rsp)
	movb $0, 128(%rsp)
	leaq 96(%rsp), %rcx
	leaq 40(%rsp), %rdx
	xorl %r8d, %r8d
	movq %rdi, %r9
	callq ring_merkle.hash.hash_pieces
	cmpb $0, 96(%rsp)
	jne .LBB27_22
	movups 97(%rsp), %xmm0
	movups 113(%rsp), %xmm1
	jmp .LBB27_21
.LBB27_14:
	movaps 176(%rsp), %xmm0
	movaps 192(%rsp), %xmm1
.LBB27_21:
	movaps %xmm1, 64(%rsp)
	movaps %xmm0, 48(%rsp)
	movaps 48(%rsp), %xmm0
	movaps 64(%rsp), %xmm1
	movaps %xmm1, 256(%rsp)
	movaps %xmm0, 240(%rsp)
	movups %xmm1, 16(%rsi)
	movups %xmm0, (%rsi)
	movaps 2368(%rsp), %xmm6
	addq $2392, %rsp
	popq %rbx
	popq %rbp
	popq %rdi
	popq %rsi
	popq %r12
	popq %r13
	popq %r14
	popq %r15
	retq
.LBB27_22:
	ud2
	.seh_endproc
	.section .rdata,"dr"
	.p2align 4, 0x0
.LCPI28_0:
	.quad 2270897968188319884
	.quad 1541459225
.LCPI28_1:
	.quad 4354685563809803909
	.quad 5840696474933916986
.LCPI28_2:
	.long 1
	.long 1779033703
	.zero 4
	.zero 4
.LCPI28_3:
	.long 1
	.long 1779033703
	.long 0
	.long 0
	.text
	.p2align 4
ring_merkle.hash.hash_pieces:
.seh_proc ring_merkle.hash.hash_pieces
	pushq %r15
	.seh_pushreg %r15
	pushq %r14
	.seh_pushreg %r14
	pushq %r12
	.seh_pushreg %r12
	pushq %rsi
	.seh_pushreg %rsi
	pushq %rdi
	.seh_pushreg %rdi
	pushq %rbp
	.seh_pushreg %rbp
	pushq %rbx
	.seh_pushreg %rbx
	subq $1040, %rsp
	.seh_stackalloc 1040
	movaps %xmm6, 1024(%rsp)
	.seh_savexmm %xmm6, 1024
	.seh_endprologue
	movq %r9, %rdi
	movq %r8, %rbx
	movq %rdx, %r14
	movq %rcx, %rsi
	xorps %xmm0, %xmm0
	movaps %xmm0, 128(%rsp)
	movaps %xmm0, 112(%rsp)
	movaps %xmm0, 96(%rsp)
	movaps %xmm0, 80(%rsp)
	movb $0, 144(%rsp)
	movaps %xmm0, 48(%rsp)
	movaps %xmm0, 64(%rsp)
	testq %r8, %r8
	je .LBB28_5
	movq 8(%r14), %rax
	xorl %ecx, %ecx
	cmpq $1, %rbx
	je .LBB28_4
	addq 24(%r14), %rax
	setb %cl
	cmpq $2, %rbx
	je .LBB28_4
	addq 40(%r14), %rax
	adcq $0, %rcx
.LBB28_4:
	shrq $61, %rax
	orq %rcx, %rax
	jne .LBB28_13
.LBB28_5:
	movaps %xmm0, 224(%rsp)
	movl $1, 240(%rsp)
	movl $1779033703, 244(%rsp)
	movabsq $4354685563809803909, %rax
	movq %rax, 248(%rsp)
	movabsq $5840696474933916986, %rax
	movq %rax, 256(%rsp)
	movabsq $2270897968188319884, %rax
	movq %rax, 264(%rsp)
	movq $1541459225, 272(%rsp)
	movups %xmm0, 280(%rsp)
	movups %xmm0, 296(%rsp)
	movb $1, 312(%rsp)
	leaq 313(%rsp), %r15
	movups %xmm0, 313(%rsp)
	movups %xmm0, 329(%rsp)
	movups %xmm0, 345(%rsp)
	movups %xmm0, 361(%rsp)
	movups %xmm0, 377(%rsp)
	movups %xmm0, 393(%rsp)
	movups %xmm0, 409(%rsp)
	movups %xmm0, 425(%rsp)
	movups %xmm0, 441(%rsp)
	movq $0, 456(%rsp)
	testq %rbx, %rbx
	je .LBB28_6
	shlq $4, %rbx
	xorl %r12d, %r12d
	.p2align 4
.LBB28_8:
	movq (%r14,%r12), %rdx
	movq 8(%r14,%r12), %r8
	leaq 224(%rsp), %rcx
	movq %rdi, %r9
	callq ring.digest.context.Context.update_counted
	addq $16, %r12
	cmpq %r12, %rbx
	jne .LBB28_8
	movq 224(%rsp), %rbx
	movq 232(%rsp), %r12
	movsd 240(%rsp), %xmm3
	movups 248(%rsp), %xmm2
	movups 264(%rsp), %xmm1
	movups 280(%rsp), %xmm0
	movups 296(%rsp), %xmm4
	movzbl 312(%rsp), %ebp
	jmp .LBB28_10
.LBB28_6:
	xorl %ebx, %ebx
	movaps .LCPI28_0(%rip), %xmm1
	movaps .LCPI28_1(%rip), %xmm2
	movsd .LCPI28_3(%rip), %xmm3
	movb $1, %bpl
	xorl %r12d, %r12d
	xorps %xmm4, %xmm4
.LBB28_10:
	movq %rbx, 784(%rsp)
	movq %r12, 792(%rsp)
	movlps %xmm3, 800(%rsp)
	movups %xmm2, 808(%rsp)
	movups %xmm1, 824(%rsp)
	movups %xmm0, 840(%rsp)
	movups %xmm4, 856(%rsp)
	movb %bpl, 872(%rsp)
	leaq 873(%rsp), %rcx
	movl $151, %r8d
	movq %r15, %rdx
	callq memcpy
	movq 1008(%rsp), %r8
	addq %r8, %rbx
	adcq $0, %r12
	movq $-1, %rax
	cmovbq %rax, %r12
	cmovbq %rax, %rbx
	xorl %ecx, %ecx
	cmpb $2, %bpl
	movabsq $2305843009213693951, %rdx
	cmovaeq %rdx, %rcx
	cmovbq %rdx, %rax
	cmpq %rbx, %rax
	sbbq %r12, %rcx
	jae .LBB28_11
.LBB28_13:
	movb $1, (%rsi)
	xorps %xmm0, %xmm0
	movups %xmm0, 1(%rsi)
	movups %xmm0, 17(%rsi)
	jmp .LBB28_12
.LBB28_11:
	leaq 880(%rsp), %rdx
	xorps %xmm6, %xmm6
	movaps %xmm6, 160(%rsp)
	movaps %xmm6, 176(%rsp)
	movaps %xmm6, 192(%rsp)
	movaps %xmm6, 208(%rsp)
	movaps %xmm6, 464(%rsp)
	movaps %xmm6, 480(%rsp)
	movaps %xmm6, 496(%rsp)
	movaps %xmm6, 512(%rsp)
	movaps %xmm6, 528(%rsp)
	movaps %xmm6, 544(%rsp)
	movaps %xmm6, 560(%rsp)
	movaps %xmm6, 576(%rsp)
	movaps %xmm6, 592(%rsp)
	movaps %xmm6, 608(%rsp)
	movaps %xmm6, 624(%rsp)
	movaps %xmm6, 640(%rsp)
	movaps %xmm6, 656(%rsp)
	movaps %xmm6, 672(%rsp)
	movaps %xmm6, 688(%rsp)
	movaps %xmm6, 704(%rsp)
	leaq 464(%rsp), %r14
	movq %r14, 40(%rsp)
	movq %r12, 32(%rsp)
	movl %ebp, %ecx
	movq %rbx, %r9
	callq ring.digest.block_context.write_tail
	movq %rdi, 32(%rsp)
	leaq 160(%rsp), %rcx
	leaq 784(%rsp), %rdx
	movq %r14, %r8
	movq %rax, %r9
	callq ring.digest.block_context.BlockContext.output_after
	movzbl 872(%rsp), %eax
	movaps 160(%rsp), %xmm0
	movaps 176(%rsp), %xmm1
	movaps 192(%rsp), %xmm2
	movaps 208(%rsp), %xmm3
	movaps %xmm3, 768(%rsp)
	movaps %xmm2, 752(%rsp)
	movaps %xmm1, 736(%rsp)
	movaps %xmm0, 720(%rsp)
	movaps %xmm0, 80(%rsp)
	movaps %xmm1, 96(%rsp)
	movaps %xmm2, 112(%rsp)
	movaps %xmm3, 128(%rsp)
	movb %al, 144(%rsp)
	movaps %xmm6, 480(%rsp)
	movaps %xmm6, 464(%rsp)
	leaq .Lswitch.table.v2_yz_webhook_verify_stripe(%rip), %rcx
	movq (%rcx,%rax,8), %r8
	leaq 464(%rsp), %rcx
	leaq 80(%rsp), %rdx
	callq memcpy
	movaps 464(%rsp), %xmm0
	movaps 480(%rsp), %xmm1
	movaps %xmm0, 48(%rsp)
	movaps %xmm1, 64(%rsp)
	movb $0, (%rsi)
	movaps 48(%rsp), %xmm0
	movaps 64(%rsp), %xmm1
	movups %xmm0, 1(%rsi)
	movups %xmm1, 17(%rsi)
.LBB28_12:
	movaps 1024(%rsp), %xmm6
	addq $1040, %rsp
	popq %rbx
	popq %rbp
	popq %rdi
	popq %rsi
	popq %r12
	popq %r14
	popq %r15
	retq
	.seh_endproc
	.p2align 4
ring_merkle.paths.write_path:
.seh_proc ring_merkle.paths.write_path
	pushq %r15
	.seh_pushreg %r15
	pushq %r14
	.seh_pushreg %r14
	pushq %r12
	.seh_pushreg %r12
	pushq %rsi
	.seh_pushreg %rsi
	pushq %rdi
	.seh_pushreg %rdi
	pushq %rbx
	.seh_pushreg %rbx
	subq $88, %rsp
	.seh_stackalloc 88
	.seh_endprologue
	xorps %xmm0, %xmm0
	movaps %xmm0, 64(%rsp)
	movaps %xmm0, 48(%rsp)
	cmpq $1, %rdx
	je .LBB29_7
	movq %rcx, %rax
	movq %rdx, %rcx
	shrq %rcx
	movq %rdx, %r11
	subq %rcx, %r11
	movl $1, %r10d
	cmpq $2, %r11
	jb .LBB29_3
	decq %r11
	movl $127, %ecx
	bsrq %r11, %rcx
	xorl $63, %ecx
	negb %cl
	shlq %cl, %r10
.LBB29_3:
	movq 184(%rsp), %rsi
	movq 176(%rsp), %r15
	movq %r10, %rcx
	shlq $5, %rcx
	addq %rax, %rcx
	subq %r10, %rdx
	movq %r8, %rdi
	movq %r9, %r12
	subq %r10, %rdi
	jae .LBB29_5
	movq %rax, %rbx
	movq %r10, %r14
	movq %rcx, %rax
	movq %rdx, %r10
	movq %r8, %rdi
	jmp .LBB29_6
.LBB29_5:
	movq %rcx, %rbx
	movq %rdx, %r14
.LBB29_6:
	decq %r15
	leaq 48(%rsp), %rcx
	movq %rax, %rdx
	movq %r10, %r8
	movq %rsi, %r9
	callq ring_merkle.paths.tree_root_counted
	movq %r15, %rax
	shlq $5, %rax
	movaps 48(%rsp), %xmm0
	movaps 64(%rsp), %xmm1
	movq %r12, %r9
	movups %xmm1, 16(%r12,%rax)
	movups %xmm0, (%r12,%rax)
	movq %rsi, 40(%rsp)
	movq %r15, 32(%rsp)
	movq %rbx, %rcx
	movq %r14, %rdx
	movq %rdi, %r8
	callq ring_merkle.paths.write_path
	nop
.LBB29_7:
	addq $88, %rsp
	popq %rbx
	popq %rdi
	popq %rsi
	popq %r12
	popq %r14
	popq %r15
	retq
	.seh_endproc
	.p2align 4
ring_merkle.consistency.leads_to_both:
.seh_proc ring_merkle.consistency.leads_to_both
	pushq %r15
	.seh_pushreg %r15
	pushq %r14
	.seh_pushreg %r14
	pushq %r13
	.seh_pushreg %r13
	pushq %r12
	.seh_pushreg %r12
	pushq %rsi
	.seh_pushreg %rsi
	pushq %rdi
	.seh_pushreg %rdi
	pushq %rbp
	.seh_pushreg %rbp
	pushq %rbx
	.seh_pushreg %rbx
	subq $392, %rsp
	.seh_stackalloc 392
	.seh_endprologue
	movq %r9, %rbx
	movq %r8, %r14
	movq 496(%rsp), %r13
	xorl %eax, %eax
	testq %r8, %r8
	je .LBB30_3
	movq %r14, %rsi
	movq %rdx, %r11
	.p2align 4
.LBB30_2:
	movl %r11d, %r8d
	andl $1, %r8d
	movq %r11, %r9
	xorq %rsi, %r9
	xorl %r10d, %r10d
	orq %r8, %r9
	setne %r10b
	addq %r10, %rax
	shrq %r11
	shrq %rsi
	jne .LBB30_2
.LBB30_3:
	cmpq %rax, %r13
	jne .LBB30_4
	movq %rdx, 72(%rsp)
	movq 520(%rsp), %r15
	movups (%rcx), %xmm0
	movq %rcx, 120(%rsp)
	movups 16(%rcx), %xmm1
	movaps %xmm0, 80(%rsp)
	movaps %xmm1, 96(%rsp)
	testq %r13, %r13
	je .LBB30_20
	leaq 161(%rsp), %r12
	xorl %ebp, %ebp
	movq 72(%rsp), %rdi
	movq %r14, %rsi
	jmp .LBB30_8
	.p2align 4
.LBB30_13:
	movq %rdi, %rax
	movq %rsi, %rdi
.LBB30_19:
	movq %rdi, %rsi
	shrq %rsi
	shrq %rax
	incq %rbp
	movq %rax, %rdi
	cmpq %r13, %rbp
	je .LBB30_20
.LBB30_8:
	testb $1, %dil
	sete %al
	cmpq %rsi, %rdi
	setne %cl
	testb %al, %cl
	jne .LBB30_11
	movq %rbp, %rax
	shlq $5, %rax
	addq %rbx, %rax
	xorps %xmm0, %xmm0
	movaps %xmm0, 160(%rsp)
	movaps %xmm0, 176(%rsp)
	movb $0, 192(%rsp)
	leaq .Lstatic.20(%rip), %rcx
	movq %rcx, 240(%rsp)
	movq $1, 248(%rsp)
	movq %rax, 256(%rsp)
	movq $32, 264(%rsp)
	leaq 80(%rsp), %rax
	movq %rax, 272(%rsp)
	movq $32, 280(%rsp)
	leaq 160(%rsp), %rcx
	leaq 240(%rsp), %rdx
	movl $3, %r8d
	movq %r15, %r9
	callq ring_merkle.hash.hash_pieces
	cmpb $0, 160(%rsp)
	jne .LBB30_22
	movups (%r12), %xmm0
	movups 16(%r12), %xmm1
	jmp .LBB30_12
	.p2align 4
.LBB30_11:
	movaps 80(%rsp), %xmm0
	movaps 96(%rsp), %xmm1
.LBB30_12:
	movaps %xmm1, 144(%rsp)
	movaps %xmm0, 128(%rsp)
	movaps 128(%rsp), %xmm0
	movaps 144(%rsp), %xmm1
	movaps %xmm1, 368(%rsp)
	movaps %xmm0, 352(%rsp)
	movaps %xmm0, 80(%rsp)
	movaps %xmm1, 96(%rsp)
	testb $1, %dil
	jne .LBB30_13
	testq %rdi, %rdi
	je .LBB30_13
	cmpq %rsi, %rdi
	jne .LBB30_13
	movq %rdi, %rcx
	movq %rdi, %rax
	.p2align 4
.LBB30_17:
	shrq %rax
	shrq %rdi
	testq %rcx, %rcx
	je .LBB30_19
	andl $2, %ecx
	movq %rax, %rcx
	je .LBB30_17
	jmp .LBB30_19
.LBB30_20:
	movq 504(%rsp), %r12
	movaps 80(%rsp), %xmm0
	movaps 96(%rsp), %xmm1
	movaps %xmm1, 224(%rsp)
	movaps %xmm0, 208(%rsp)
	movaps %xmm0, 320(%rsp)
	movaps %xmm1, 336(%rsp)
	movq %r15, 56(%rsp)
	movq %r13, 48(%rsp)
	movq %rbx, 40(%rsp)
	movq 120(%rsp), %rax
	movq %rax, 32(%rsp)
	leaq 208(%rsp), %rcx
	movq 72(%rsp), %rdx
	movq %r14, %r8
	movb $1, %r9b
	callq ring_merkle.place.Place.climb
	movaps 208(%rsp), %xmm0
	movaps 224(%rsp), %xmm1
	movaps %xmm1, 304(%rsp)
	movaps %xmm0, 288(%rsp)
	leaq 320(%rsp), %rcx
	movq %r12, %rdx
	callq ring_merkle.hash.is_same
	testb %al, %al
	je .LBB30_4
	movq 512(%rsp), %rdx
	leaq 288(%rsp), %rcx
	callq ring_merkle.hash.is_same
	jmp .LBB30_5
.LBB30_4:
	xorl %eax, %eax
.LBB30_5:
	addq $392, %rsp
	popq %rbx
	popq %rbp
	popq %rdi
	popq %rsi
	popq %r12
	popq %r13
	popq %r14
	popq %r15
	retq
.LBB30_22:
	ud2
	.seh_endproc
	.p2align 4
ring_merkle.place.Place.climb:
.seh_proc ring_merkle.place.Place.climb
	pushq %r15
	.seh_pushreg %r15
	pushq %r14
	.seh_pushreg %r14
	pushq %r13
	.seh_pushreg %r13
	pushq %r12
	.seh_pushreg %r12
	pushq %rsi
	.seh_pushreg %rsi
	pushq %rdi
	.seh_pushreg %rdi
	pushq %rbp
	.seh_pushreg %rbp
	pushq %rbx
	.seh_pushreg %rbx
	subq $280, %rsp
	.seh_stackalloc 280
	.seh_endprologue
	movq %rcx, 168(%rsp)
	movq 400(%rsp), %r12
	movq 384(%rsp), %rax
	xorps %xmm0, %xmm0
	movaps %xmm0, 256(%rsp)
	movaps %xmm0, 240(%rsp)
	movups (%rax), %xmm0
	movups 16(%rax), %xmm1
	movaps %xmm0, 80(%rsp)
	movaps %xmm1, 96(%rsp)
	testq %r12, %r12
	je .LBB31_16
	movl %r9d, %ebx
	movq %r8, %r15
	movq %rdx, %rdi
	movq 408(%rsp), %r14
	movq 392(%rsp), %r13
	leaq 33(%rsp), %rbp
	xorl %esi, %esi
	jmp .LBB31_2
	.p2align 4
.LBB31_11:
	movq %rdi, %rax
	movq %r15, %rdi
.LBB31_15:
	movq %rdi, %r15
	shrq %r15
	shrq %rax
	incq %rsi
	movq %rax, %rdi
	cmpq %r12, %rsi
	je .LBB31_16
.LBB31_2:
	movq %rsi, %rax
	shlq $5, %rax
	addq %r13, %rax
	testb $1, %dil
	sete %cl
	cmpq %r15, %rdi
	setne %dl
	testb %cl, %dl
	jne .LBB31_5
	xorps %xmm0, %xmm0
	movaps %xmm0, 32(%rsp)
	movaps %xmm0, 48(%rsp)
	movb $0, 64(%rsp)
	leaq .Lstatic.20(%rip), %rcx
	movq %rcx, 120(%rsp)
	movq $1, 128(%rsp)
	movq %rax, 136(%rsp)
	movq $32, 144(%rsp)
	leaq 80(%rsp), %rax
	movq %rax, 152(%rsp)
	movq $32, 160(%rsp)
	leaq 32(%rsp), %rcx
	leaq 120(%rsp), %rdx
	movl $3, %r8d
	movq %r14, %r9
	callq ring_merkle.hash.hash_pieces
	cmpb $0, 32(%rsp)
	jne .LBB31_17
	movups (%rbp), %xmm0
	movups 16(%rbp), %xmm1
	jmp .LBB31_10
	.p2align 4
.LBB31_5:
	testb %bl, %bl
	je .LBB31_8
	xorps %xmm0, %xmm0
	movaps %xmm0, 32(%rsp)
	movaps %xmm0, 48(%rsp)
	movb $0, 64(%rsp)
	leaq .Lstatic.20(%rip), %rcx
	movq %rcx, 120(%rsp)
	movq $1, 128(%rsp)
	leaq 80(%rsp), %rcx
	movq %rcx, 136(%rsp)
	movq $32, 144(%rsp)
	movq %rax, 152(%rsp)
	movq $32, 160(%rsp)
	leaq 32(%rsp), %rcx
	leaq 120(%rsp), %rdx
	movl $3, %r8d
	movq %r14, %r9
	callq ring_merkle.hash.hash_pieces
	cmpb $0, 32(%rsp)
	jne .LBB31_17
	movups (%rbp), %xmm0
	movups 16(%rbp), %xmm1
	jmp .LBB31_9
	.p2align 4
.LBB31_8:
	movaps 80(%rsp), %xmm0
	movaps 96(%rsp), %xmm1
.LBB31_9:
	movaps %xmm1, 192(%rsp)
	movaps %xmm0, 176(%rsp)
	movaps 176(%rsp), %xmm0
	movaps 192(%rsp), %xmm1
.LBB31_10:
	movaps %xmm1, 224(%rsp)
	movaps %xmm0, 208(%rsp)
	movl %edi, %eax
	andl $1, %eax
	movaps 208(%rsp), %xmm0
	movaps 224(%rsp), %xmm1
	movaps %xmm1, 256(%rsp)
	movaps %xmm0, 240(%rsp)
	movaps %xmm0, 80(%rsp)
	movaps %xmm1, 96(%rsp)
	movq %rdi, %rcx
	xorq %r15, %rcx
	testq %rdi, %rdi
	sete %dl
	orq %rax, %rcx
	setne %al
	orb %dl, %al
	jne .LBB31_11
	movq %rdi, %rcx
	movq %rdi, %rax
	.p2align 4
.LBB31_13:
	shrq %rax
	shrq %rdi
	testq %rcx, %rcx
	je .LBB31_15
	andl $2, %ecx
	movq %rax, %rcx
	je .LBB31_13
	jmp .LBB31_15
.LBB31_16:
	movaps 80(%rsp), %xmm0
	movaps 96(%rsp), %xmm1
	movq 168(%rsp), %rax
	movups %xmm1, 16(%rax)
	movups %xmm0, (%rax)
	addq $280, %rsp
	popq %rbx
	popq %rbp
	popq %rdi
	popq %rsi
	popq %r12
	popq %r13
	popq %r14
	popq %r15
	retq
.LBB31_17:
	ud2
	.seh_endproc
	.p2align 4
ring_merkle.hash.is_same:
	movzbl (%rcx), %eax
	cmpb (%rdx), %al
	jne .LBB32_32
	movzbl 1(%rcx), %eax
	cmpb 1(%rdx), %al
	jne .LBB32_32
	movzbl 2(%rcx), %eax
	cmpb 2(%rdx), %al
	jne .LBB32_32
	movzbl 3(%rcx), %eax
	cmpb 3(%rdx), %al
	jne .LBB32_32
	movzbl 4(%rcx), %eax
	cmpb 4(%rdx), %al
	jne .LBB32_32
	movzbl 5(%rcx), %eax
	cmpb 5(%rdx), %al
	jne .LBB32_32
	movzbl 6(%rcx), %eax
	cmpb 6(%rdx), %al
	jne .LBB32_32
	movzbl 7(%rcx), %eax
	cmpb 7(%rdx), %al
	jne .LBB32_32
	movzbl 8(%rcx), %eax
	cmpb 8(%rdx), %al
	jne .LBB32_32
	movzbl 9(%rcx), %eax
	cmpb 9(%rdx), %al
	jne .LBB32_32
	movzbl 10(%rcx), %eax
	cmpb 10(%rdx), %al
	jne .LBB32_32
	movzbl 11(%rcx), %eax
	cmpb 11(%rdx), %al
	jne .LBB32_32
	movzbl 12(%rcx), %eax
	cmpb 12(%rdx), %al
	jne .LBB32_32
	movzbl 13(%rcx), %eax
	cmpb 13(%rdx), %al
	jne .LBB32_32
	movzbl 14(%rcx), %eax
	cmpb 14(%rdx), %al
	jne .LBB32_32
	movzbl 15(%rcx), %eax
	cmpb 15(%rdx), %al
	jne .LBB32_32
	movzbl 16(%rcx), %eax
	cmpb 16(%rdx), %al
	jne .LBB32_32
	movzbl 17(%rcx), %eax
	cmpb 17(%rdx), %al
	jne .LBB32_32
	movzbl 18(%rcx), %eax
	cmpb 18(%rdx), %al
	jne .LBB32_32
	movzbl 19(%rcx), %eax
	cmpb 19(%rdx), %al
	jne .LBB32_32
	movzbl 20(%rcx), %eax
	cmpb 20(%rdx), %al
	jne .LBB32_32
	movzbl 21(%rcx), %eax
	cmpb 21(%rdx), %al
	jne .LBB32_32
	movzbl 22(%rcx), %eax
	cmpb 22(%rdx), %al
	jne .LBB32_32
	movzbl 23(%rcx), %eax
	cmpb 23(%rdx), %al
	jne .LBB32_32
	movzbl 24(%rcx), %eax
	cmpb 24(%rdx), %al
	jne .LBB32_32
	movzbl 25(%rcx), %eax
	cmpb 25(%rdx), %al
	jne .LBB32_32
	movzbl 26(%rcx), %eax
	cmpb 26(%rdx), %al
	jne .LBB32_32
	movzbl 27(%rcx), %eax
	cmpb 27(%rdx), %al
	jne .LBB32_32
	movzbl 28(%rcx), %eax
	cmpb 28(%rdx), %al
	jne .LBB32_32
	movzbl 29(%rcx), %eax
	cmpb 29(%rdx), %al
	jne .LBB32_32
	movzbl 30(%rcx), %eax
	cmpb 30(%rdx), %al
	jne .LBB32_32
	movzbl 31(%rcx), %eax
	cmpb 31(%rdx), %al
	sete %al
	retq
.LBB32_32:
	xorl %eax, %eax
	retq
	.section .rdata,"dr"
	.p2align 4, 0x0
.LCPI33_0:
	.byte 65
	.byte 66
	.byte 67
	.byte 68
	.byte 69
	.byte 70
	.byte 71
	.byte 72
	.byte 73
	.byte 74
	.byte 75
	.byte 76
	.byte 77
	.byte 78
	.byte 79
	.byte 80
.LCPI33_1:
	.byte 81
	.byte 82
	.byte 83
	.byte 84
	.byte 85
	.byte 86
	.byte 87
	.byte 88
	.byte 89
	.byte 90
	.byte 97
	.byte 98
	.byte 99
	.byte 100
	.byte 101
	.byte 102
.LCPI33_2:
	.byte 103
	.byte 104
	.byte 105
	.byte 106
	.byte 107
	.byte 108
	.byte 109
	.byte 110
	.byte 111
	.byte 112
	.byte 113
	.byte 114
	.byte 115
	.byte 116
	.byte 117
	.byte 118
.LCPI33_3:
	.byte 119
	.byte 120
	.byte 121
	.byte 122
	.byte 48
	.byte 49
	.byte 50
	.byte 51
	.byte 52
	.byte 53
	.byte 54
	.byte 55
	.byte 56
	.byte 57
	.byte 43
	.byte 47
.LCPI33_4:
	.byte 0
	.byte 1
	.byte 2
	.byte 3
	.byte 4
	.byte 5
	.byte 6
	.byte 7
	.byte 8
	.byte 9
	.byte 10
	.byte 11
	.byte 12
	.byte 13
	.byte 14
	.byte 15
.LCPI33_5:
	.byte 26
	.byte 27
	.byte 28
	.byte 29
	.byte 30
	.byte 31
	.byte 32
	.byte 33
	.byte 34
	.byte 35
	.byte 36
	.byte 37
	.byte 38
	.byte 39
	.byte 40
	.byte 41
	.text
	.p2align 4
ring_password_hash.stored.Stored.parse:
.seh_proc ring_password_hash.stored.Stored.parse
	pushq %r15
	.seh_pushreg %r15
	pushq %r14
	.seh_pushreg %r14
	pushq %r13
	.seh_pushreg %r13
	pushq %r12
	.seh_pushreg %r12
	pushq %rsi
	.seh_pushreg %rsi
	pushq %rdi
	.seh_pushreg %rdi
	pushq %rbp
	.seh_pushreg %rbp
	pushq %rbx
	.seh_pushreg %rbx
	movl $9704, %eax
	callq yz_probe_stack
	subq %rax, %rsp
	.seh_stackalloc 9704
	movaps %xmm6, 9680(%rsp)
	.seh_savexmm %xmm6, 9680
	.seh_endprologue
	movq %r8, %rdi
	movq %rdx, %rbx
	movq %rcx, %rsi
	leaq 8656(%rsp), %rcx
	movl $1024, %r8d
	xorl %edx, %edx
	callq memset
	leaq 7632(%rsp), %rcx
	movl $1024, %r8d
	xorl %edx, %edx
	callq memset
	leaq 2512(%rsp), %rcx
	movl $1024, %r8d
	xorl %edx, %edx
	callq memset
	leaq 1488(%rsp), %rcx
	movl $1024, %r8d
	xorl %edx, %edx
	callq memset
	cmpq $1024, %rdi
	jbe .LBB33_1
	movw $1, (%rsi)
	addq $8, %rsi
	movl $2072, %r8d
	movq %rsi, %rcx
	xorl %edx, %edx
	callq memset
	jmp .LBB33_51
.LBB33_1:
	movq %rsi, 48(%rsp)
	xorl %r13d, %r13d
	.p2align 4
.LBB33_2:
	movabsq $506097522914230528, %rax
	movq %rax, 112(%rsp)
	movl $185207048, 120(%rsp)
	movzbl 112(%rsp,%r13), %esi
	leaq 6608(%rsp), %rcx
	movl $1024, %r8d
	xorl %edx, %edx
	callq memset
	leaq 5584(%rsp), %rcx
	movl $1024, %r8d
	xorl %edx, %edx
	callq memset
	leaq .Lswitch.table.ring_password_hash.stored.Stored.parse.170(%rip), %rax
	movq (%rax,%rsi,8), %rax
	movq %rdi, %r14
	subq %rax, %r14
	jae .LBB33_3
.LBB33_6:
	leaq 2512(%rsp), %rcx
	movl $1024, %r8d
	xorl %edx, %edx
	callq memset
	leaq 1488(%rsp), %rcx
	movl $1024, %r8d
	xorl %edx, %edx
	callq memset
	incq %r13
	cmpq $12, %r13
	jne .LBB33_2
	jmp .LBB33_36
	.p2align 4
.LBB33_3:
	leaq .Lswitch.table.ring_password_hash.stored.Stored.parse.rel(%rip), %rcx
	movslq (%rcx,%rsi,4), %rdx
	leaq (%rbx,%rax), %r15
	xorl %r8d, %r8d
	.p2align 4
.LBB33_5:
	movzbl (%rbx,%r8), %r9d
	leaq (%rdx,%r8), %r10
	cmpb (%rcx,%r10), %r9b
	jne .LBB33_6
	incq %r8
	cmpq %r8, %rax
	jne .LBB33_5
	movl $32, %r12d
	movb $36, %r9b
	leaq .LJTI33_0(%rip), %rax
	movslq (%rax,%rsi,4), %rcx
	addq %rax, %rcx
	jmpq *%rcx
.LBB33_8:
	movl $20, %r12d
	jmp .LBB33_11
.LBB33_9:
	movl $64, %r12d
	jmp .LBB33_11
.LBB33_12:
	cmpq $2, %r14
	jb .LBB33_20
	cmpb $105, (%r15)
	jne .LBB33_20
	cmpb $61, 1(%r15)
	jne .LBB33_20
	leaq -2(%r14), %r8
	leaq 2(%r15), %rdx
	movb $1, %bpl
	jmp .LBB33_16
.LBB33_10:
	movl $64, %r12d
	movb $58, %r9b
	.p2align 4
.LBB33_11:
	xorl %ebp, %ebp
	movq %r14, %r8
	movq %r15, %rdx
.LBB33_16:
	pxor %xmm0, %xmm0
	movdqa %xmm0, 480(%rsp)
	movdqa %xmm0, 464(%rsp)
	movq $0, 496(%rsp)
	leaq 464(%rsp), %rcx
	callq ring_text.cut.cut_at
	cmpb $1, 464(%rsp)
	jne .LBB33_19
	movq 472(%rsp), %rcx
	movq 480(%rsp), %rdx
	callq ring_text.number.number_in
	cmpb $1, %al
	jne .LBB33_19
	movabsq $-4294967296, %rcx
	leaq (%rdx,%rcx), %rax
	incq %rcx
	cmpq %rcx, %rax
	jae .LBB33_53
.LBB33_19:
	testb %bpl, %bpl
	je .LBB33_6
.LBB33_20:
	leaq .Lstatic.23(%rip), %rax
	movq %rax, 32(%rsp)
	leaq .Lstatic.21(%rip), %r12
	leaq 464(%rsp), %rcx
	movq %r15, %rdx
	movq %r14, %r8
	movq %r12, %r9
	callq ring_password_hash.text.two_counts
	cmpb $1, 464(%rsp)
	jne .LBB33_23
	movl 476(%rsp), %eax
	leal -10(%rax), %ecx
	cmpl $54, %ecx
	ja .LBB33_6
	movl 472(%rsp), %ecx
	shlq $32, %rcx
	incq %rcx
	movq 480(%rsp), %r14
	movq 488(%rsp), %r15
	jmp .LBB33_26
.LBB33_23:
	movq %r12, 32(%rsp)
	leaq .Lstatic.23(%rip), %r9
	leaq 128(%rsp), %rcx
	movq %r15, %rdx
	movq %r14, %r8
	callq ring_password_hash.text.two_counts
	cmpb $1, 128(%rsp)
	jne .LBB33_6
	movl 136(%rsp), %eax
	leal -10(%rax), %ecx
	cmpl $54, %ecx
	ja .LBB33_6
	movl 140(%rsp), %ecx
	shlq $32, %rcx
	orq $2, %rcx
	movq 144(%rsp), %r14
	movq 152(%rsp), %r15
.LBB33_26:
	movq %rcx, 56(%rsp)
	movl %eax, %r12d
	jmp .LBB33_27
.LBB33_53:
	movq 488(%rsp), %r14
	movq 496(%rsp), %r15
	shlq $32, %rdx
	movq %rdx, 56(%rsp)
.LBB33_27:
	leaq 4560(%rsp), %rcx
	movl $1024, %r8d
	xorl %edx, %edx
	callq memset
	leaq 3536(%rsp), %rcx
	movl $1024, %r8d
	xorl %edx, %edx
	callq memset
	leaq .Lswitch.table.ring_password_hash.stored.put_text(%rip), %rax
	movzbl (%rsi,%rax), %ebp
	pxor %xmm0, %xmm0
	movdqa %xmm0, 480(%rsp)
	movdqa %xmm0, 464(%rsp)
	movq $0, 496(%rsp)
	leaq 464(%rsp), %rcx
	movq %r14, %rdx
	movq %r15, %r8
	movb $36, %r9b
	callq ring_text.cut.cut_at
	cmpb $1, 464(%rsp)
	jne .LBB33_6
	movq 472(%rsp), %rdx
	movq 480(%rsp), %r8
	leaq 4560(%rsp), %r9
	movl %ebp, %ecx
	callq ring_password_hash.text.decode_into
	cmpb $1, %al
	jne .LBB33_6
	movq %rdx, %r14
	testq %rdx, %rdx
	je .LBB33_34
	movq 488(%rsp), %rdx
	movq 496(%rsp), %r8
	movl %esi, %eax
	addb $-4, %al
	cmpb $7, %al
	jae .LBB33_31
.LBB33_37:
	movl %esi, %eax
	leaq .LJTI33_1(%rip), %r9
	movslq (%r9,%rax,4), %rax
	addq %r9, %rax
	jmpq *%rax
.LBB33_38:
	movb $2, %cl
	leaq 3536(%rsp), %r9
	callq ring_password_hash.text.decode_into
	cmpb $1, %al
	je .LBB33_49
	jmp .LBB33_34
.LBB33_31:
	xorl %eax, %eax
	.p2align 4
.LBB33_32:
	cmpq %rax, %r14
	je .LBB33_37
	cmpb $36, 4560(%rsp,%rax)
	leaq 1(%rax), %rax
	jne .LBB33_32
	jmp .LBB33_34
.LBB33_40:
	movb $4, %cl
	leaq 3536(%rsp), %r9
	callq ring_password_hash.text.decode_into
	cmpb $1, %al
	je .LBB33_49
	jmp .LBB33_34
.LBB33_39:
	movb $1, %cl
	leaq 3536(%rsp), %r9
	callq ring_password_hash.text.decode_into
	cmpb $1, %al
	je .LBB33_49
	jmp .LBB33_34
.LBB33_47:
	movb $3, %cl
	leaq 3536(%rsp), %r9
	callq ring_password_hash.text.decode_into
	cmpb $1, %al
	jne .LBB33_34
.LBB33_49:
	cmpq %r12, %rdx
	je .LBB33_50
.LBB33_34:
	leaq 2512(%rsp), %rcx
	leaq 6608(%rsp), %rdx
	movl $1024, %r8d
	callq memcpy
	leaq 1488(%rsp), %rcx
	leaq 5584(%rsp), %rdx
	movl $1024, %r8d
	callq memcpy
	incq %r13
	cmpq $12, %r13
	jne .LBB33_2
	jmp .LBB33_36
.LBB33_41:
	leaq 464(%rsp), %rsi
	movq %r8, %r15
	movl $1024, %r8d
	movq %rsi, %rcx
	movq %rdx, %rbp
	xorl %edx, %edx
	callq memset
	xorps %xmm6, %xmm6
	leaq 265(%rsp), %rcx
	movups %xmm6, (%rcx)
	movups %xmm6, 16(%rcx)
	movups %xmm6, 32(%rcx)
	movups %xmm6, 48(%rcx)
	movups %xmm6, 64(%rcx)
	movups %xmm6, 80(%rcx)
	movups %xmm6, 96(%rcx)
	movups %xmm6, 112(%rcx)
	movups %xmm6, 128(%rcx)
	movups %xmm6, 144(%rcx)
	movups %xmm6, 160(%rcx)
	movups %xmm6, 171(%rcx)
	movaps .LCPI33_0(%rip), %xmm0
	movaps %xmm0, 128(%rsp)
	movaps .LCPI33_1(%rip), %xmm0
	movaps %xmm0, 144(%rsp)
	movaps .LCPI33_2(%rip), %xmm0
	movaps %xmm0, 160(%rsp)
	movdqa .LCPI33_3(%rip), %xmm0
	movdqa %xmm0, 176(%rsp)
	pcmpeqd %xmm0, %xmm0
	movdqa %xmm0, -73(%rcx)
	movdqa %xmm0, -57(%rcx)
	movdqu %xmm0, -46(%rcx)
	movabsq $3906085701296324414, %rax
	movq %rax, 235(%rsp)
	movl $976828471, 243(%rsp)
	movw $15419, 247(%rsp)
	movb $61, 249(%rsp)
	movl $-1, -12(%rcx)
	movl $-1, -15(%rcx)
	movaps .LCPI33_4(%rip), %xmm1
	movups %xmm1, 257(%rsp)
	movabsq $1663540288323457296, %rax
	movq %rax, 273(%rsp)
	movw $6424, 281(%rsp)
	movl $-1, 18(%rcx)
	movw $-1, 22(%rcx)
	movaps .LCPI33_5(%rip), %xmm1
	movups %xmm1, 289(%rsp)
	movabsq $3544384782113450794, %rax
	movq %rax, 305(%rsp)
	movw $13106, 313(%rsp)
	movdqu %xmm0, 50(%rcx)
	movdqu %xmm0, 66(%rcx)
	movdqu %xmm0, 82(%rcx)
	movdqu %xmm0, 98(%rcx)
	movdqu %xmm0, 114(%rcx)
	movdqu %xmm0, 130(%rcx)
	movdqu %xmm0, 146(%rcx)
	movdqu %xmm0, 162(%rcx)
	movq $-1, 175(%rcx)
	movl $16777533, 448(%rsp)
	movl $1024, %r8d
	movq %rsi, %rcx
	xorl %edx, %edx
	callq memset
	movaps %xmm6, 80(%rsp)
	movaps %xmm6, 64(%rsp)
	movq $0, 96(%rsp)
	leaq 64(%rsp), %rcx
	movq %rbp, %rdx
	movq %r15, %r8
	movb $58, %r9b
	callq ring_text.cut.cut_at
	cmpb $1, 64(%rsp)
	jne .LBB33_34
	movq 72(%rsp), %rdx
	movq 80(%rsp), %r8
	leaq 3536(%rsp), %r9
	movb $2, %cl
	callq ring_password_hash.text.decode_into
	cmpb $1, %al
	jne .LBB33_34
	movq %rdx, %r15
	movq 88(%rsp), %r8
	movq 96(%rsp), %r9
	pxor %xmm0, %xmm0
	movdqa %xmm0, 80(%rsp)
	movdqa %xmm0, 64(%rsp)
	movq %rsi, 32(%rsp)
	movq $1024, 40(%rsp)
	leaq 64(%rsp), %rcx
	leaq 128(%rsp), %rdx
	callq base64.engine.general_purpose.GeneralPurpose.decode_slice_unchecked
	cmpb $0, 64(%rsp)
	jne .LBB33_34
	cmpq $32, %r15
	jne .LBB33_34
	cmpq $32, 72(%rsp)
	jne .LBB33_34
	movdqu 464(%rsp), %xmm0
	movups 480(%rsp), %xmm1
	movups %xmm1, 3584(%rsp)
	movdqu %xmm0, 3568(%rsp)
	movl $10, %esi
.LBB33_50:
	movq 56(%rsp), %rax
	movq %rax, %r15
	shrq $32, %r15
	shll $8, %eax
	movzwl %ax, %ebp
	orl %esi, %ebp
	leaq 2512(%rsp), %rdi
	leaq 4560(%rsp), %rdx
	movl $1024, %r8d
	movq %rdi, %rcx
	callq memcpy
	leaq 1488(%rsp), %rbx
	leaq 3536(%rsp), %rdx
	movl $1024, %r8d
	movq %rbx, %rcx
	callq memcpy
	movq 48(%rsp), %rsi
	movw $0, (%rsi)
	movl %ebp, 8(%rsi)
	movl %r15d, 12(%rsi)
	leaq 16(%rsi), %rcx
	movl $1024, %r8d
	movq %rdi, %rdx
	callq memcpy
	movq %r14, 1040(%rsi)
	leaq 1048(%rsi), %rcx
	movl $1024, %r8d
	movq %rbx, %rdx
	callq memcpy
	movq %r12, 2072(%rsi)
	jmp .LBB33_51
.LBB33_36:
	movq 48(%rsp), %rsi
	movw $1, (%rsi)
	movq $0, 8(%rsi)
	leaq 16(%rsi), %rcx
	leaq 8656(%rsp), %rdx
	movl $1024, %r8d
	callq memcpy
	movq $0, 1040(%rsi)
	leaq 1048(%rsi), %rcx
	leaq 7632(%rsp), %rdx
	movl $1024, %r8d
	callq memcpy
	movq $0, 2072(%rsi)
.LBB33_51:
	movaps 9680(%rsp), %xmm6
	addq $9704, %rsp
	popq %rbx
	popq %rbp
	popq %rdi
	popq %rsi
	popq %r12
	popq %r13
	popq %r14
	popq %r15
	retq
	.section .rdata,"dr"
	.p2align 2, 0x0
.LJTI33_0:
	.long .LBB33_11-.LJTI33_0
	.long .LBB33_8-.LJTI33_0
	.long .LBB33_11-.LJTI33_0
	.long .LBB33_9-.LJTI33_0
	.long .LBB33_12-.LJTI33_0
	.long .LBB33_12-.LJTI33_0
	.long .LBB33_9-.LJTI33_0
	.long .LBB33_8-.LJTI33_0
	.long .LBB33_11-.LJTI33_0
	.long .LBB33_9-.LJTI33_0
	.long .LBB33_10-.LJTI33_0
	.long .LBB33_8-.LJTI33_0
.LJTI33_1:
	.long .LBB33_38-.LJTI33_1
	.long .LBB33_38-.LJTI33_1
	.long .LBB33_39-.LJTI33_1
	.long .LBB33_39-.LJTI33_1
	.long .LBB33_47-.LJTI33_1
	.long .LBB33_47-.LJTI33_1
	.long .LBB33_38-.LJTI33_1
	.long .LBB33_40-.LJTI33_1
	.long .LBB33_40-.LJTI33_1
	.long .LBB33_40-.LJTI33_1
	.long .LBB33_41-.LJTI33_1
	.long .LBB33_39-.LJTI33_1
	.text
	.seh_endproc
	.p2align 4
ring_text.number.number_in:
.seh_proc ring_text.number.number_in
	pushq %rsi
	.seh_pushreg %rsi
	pushq %rdi
	.seh_pushreg %rdi
	pushq %rbx
	.seh_pushreg %rbx
	subq $48, %rsp
	.seh_stackalloc 48
	.seh_endprologue
	movq %rdx, %r8
	testq %rdx, %rdx
	je .LBB34_3
	xorl %eax, %eax
	cmpq $1, %r8
	jne .LBB34_4
	xorl %r9d, %r9d
	xorl %edx, %edx
	jmp .LBB34_7
.LBB34_3:
	xorps %xmm0, %xmm0
	movaps %xmm0, 16(%rsp)
	movaps %xmm0, (%rsp)
	movq $0, 32(%rsp)
	movl $40, %r11d
	xorl %r9d, %r9d
	xorl %edx, %edx
	jmp .LBB34_13
.LBB34_4:
	movq %r8, %r10
	andq $-2, %r10
	xorl %r11d, %r11d
	xorl %r9d, %r9d
	xorl %edx, %edx
	.p2align 4
.LBB34_5:
	movzbl (%rcx,%rdx), %ebx
	movzbl 1(%rcx,%rdx), %esi
	subb $48, %bl
	movzbl %bl, %edi
	cmovbl %r11d, %edi
	leaq (%r9,%r9,4), %r9
	movzbl %dil, %edi
	leaq (%rdi,%r9,2), %r9
	subb $48, %sil
	movzbl %sil, %esi
	cmovbl %r11d, %esi
	leaq (%r9,%r9,4), %r9
	movzbl %sil, %esi
	leaq (%rsi,%r9,2), %r9
	addq $2, %rdx
	cmpq %rdx, %r10
	jne .LBB34_5
	testb $1, %r8b
	je .LBB34_8
.LBB34_7:
	movzbl (%rcx,%rdx), %edx
	subb $48, %dl
	movzbl %dl, %edx
	cmovbl %eax, %edx
	leaq (%r9,%r9,4), %rax
	movzbl %dl, %edx
	leaq (%rdx,%rax,2), %r9
.LBB34_8:
	xorps %xmm0, %xmm0
	movaps %xmm0, 16(%rsp)
	movaps %xmm0, (%rsp)
	movq $0, 32(%rsp)
	movl $40, %r11d
	movq %r9, %rdx
	cmpq $10000, %r9
	jb .LBB34_11
	movq %r9, %r10
	.p2align 4
.LBB34_10:
	movabsq $3777893186295716171, %rdx
	movq %r10, %rax
	mulq %rdx
	shrq $11, %rdx
	imull $10000, %edx, %eax
	movl %r10d, %esi
	subl %eax, %esi
	imull $5243, %esi, %eax
	shrl $19, %eax
	imull $100, %eax, %edi
	subl %edi, %esi
	movzwl %si, %esi
	leaq .Lstatic.22(%rip), %rdi
	movzwl (%rdi,%rsi,2), %esi
	movw %si, -2(%rsp,%r11)
	movzwl (%rdi,%rax,2), %eax
	movw %ax, -4(%rsp,%r11)
	addq $-4, %r11
	cmpq $99999999, %r10
	movq %rdx, %r10
	ja .LBB34_10
.LBB34_11:
	cmpq $99, %rdx
	ja .LBB34_15
	cmpq $9, %rdx
	ja .LBB34_14
.LBB34_13:
	orb $48, %dl
	movb %dl, -1(%rsp,%r11)
	decq %r11
	movl $40, %eax
	subq %r11, %rax
	cmpq %r8, %rax
	je .LBB34_19
	jmp .LBB34_23
.LBB34_15:
	movl %edx, %eax
	shrl $2, %eax
	movzwl %ax, %eax
	imull $5243, %eax, %eax
	shrl $17, %eax
	imull $100, %eax, %r10d
	movl %edx, %esi
	subl %r10d, %esi
	movzwl %si, %esi
	leaq .Lstatic.22(%rip), %r10
	movzwl (%r10,%rsi,2), %esi
	movw %si, -2(%rsp,%r11)
	cmpq $999, %rdx
	ja .LBB34_17
	orb $48, %al
	movb %al, -3(%rsp,%r11)
	addq $-3, %r11
	movl $40, %eax
	subq %r11, %rax
	cmpq %r8, %rax
	je .LBB34_19
	jmp .LBB34_23
.LBB34_14:
	leaq .Lstatic.22(%rip), %rax
	movzwl (%rax,%rdx,2), %eax
	movw %ax, -2(%rsp,%r11)
	addq $-2, %r11
	movl $40, %eax
	subq %r11, %rax
	cmpq %r8, %rax
	je .LBB34_19
	jmp .LBB34_23
.LBB34_17:
	movzwl %ax, %eax
	movzwl (%r10,%rax,2), %eax
	movw %ax, -4(%rsp,%r11)
	addq $-4, %r11
	movl $40, %eax
	subq %r11, %rax
	cmpq %r8, %rax
	jne .LBB34_23
.LBB34_19:
	movb $1, %al
	cmpq $40, %r11
	je .LBB34_24
	leaq (%rsp,%r11), %rdx
	xorl %r10d, %r10d
	.p2align 4
.LBB34_22:
	movzbl (%rdx,%r10), %r11d
	cmpb (%rcx,%r10), %r11b
	jne .LBB34_23
	incq %r10
	cmpq %r10, %r8
	jne .LBB34_22
	jmp .LBB34_24
.LBB34_23:
	xorl %r9d, %r9d
	xorl %eax, %eax
.LBB34_24:
	movq %r9, %rdx
	addq $48, %rsp
	popq %rbx
	popq %rdi
	popq %rsi
	retq
	.seh_endproc
	.p2align 4
ring_password_hash.text.two_counts:
.seh_proc ring_password_hash.text.two_counts
	pushq %r14
	.seh_pushreg %r14
	pushq %rsi
	.seh_pushreg %rsi
	pushq %rdi
	.seh_pushreg %rdi
	pushq %rbx
	.seh_pushreg %rbx
	subq $104, %rsp
	.seh_stackalloc 104
	movaps %xmm6, 80(%rsp)
	.seh_savexmm %xmm6, 80
	.seh_endprologue
	cmpq $2, %r8
	jb .LBB35_15
	movzbl (%rdx), %eax
	cmpb (%r9), %al
	jne .LBB35_15
	movzbl 1(%rdx), %eax
	cmpb 1(%r9), %al
	jne .LBB35_15
	movq %rcx, %rsi
	addq $2, %rdx
	addq $-2, %r8
	xorps %xmm6, %xmm6
	movaps %xmm6, 48(%rsp)
	movaps %xmm6, 32(%rsp)
	movq $0, 64(%rsp)
	leaq 32(%rsp), %rcx
	movb $44, %r9b
	callq ring_text.cut.cut_at
	cmpb $1, 32(%rsp)
	jne .LBB35_16
	movq 40(%rsp), %rcx
	movq 48(%rsp), %rdx
	callq ring_text.number.number_in
	cmpb $1, %al
	jne .LBB35_16
	movabsq $-4294967296, %rdi
	leaq (%rdx,%rdi), %rax
	leaq 1(%rdi), %rbx
	cmpq %rbx, %rax
	jae .LBB35_6
.LBB35_16:
	movups %xmm6, 16(%rsi)
	movups %xmm6, (%rsi)
	jmp .LBB35_13
.LBB35_15:
	xorps %xmm0, %xmm0
	movups %xmm0, 16(%rcx)
	movups %xmm0, (%rcx)
.LBB35_13:
	movaps 80(%rsp), %xmm6
	addq $104, %rsp
	popq %rbx
	popq %rdi
	popq %rsi
	popq %r14
	retq
.LBB35_6:
	movq 64(%rsp), %r8
	cmpq $2, %r8
	jb .LBB35_14
	movq 176(%rsp), %rcx
	movq 56(%rsp), %rax
	movzbl (%rax), %r9d
	cmpb (%rcx), %r9b
	jne .LBB35_14
	movzbl 1(%rax), %r9d
	cmpb 1(%rcx), %r9b
	jne .LBB35_14
	movq %rdx, %r14
	addq $2, %rax
	addq $-2, %r8
	xorps %xmm0, %xmm0
	movaps %xmm0, 48(%rsp)
	movaps %xmm0, 32(%rsp)
	movq $0, 64(%rsp)
	leaq 32(%rsp), %rcx
	movq %rax, %rdx
	movb $36, %r9b
	callq ring_text.cut.cut_at
	cmpb $1, 32(%rsp)
	jne .LBB35_14
	movq 40(%rsp), %rcx
	movq 48(%rsp), %rdx
	callq ring_text.number.number_in
	cmpb $1, %al
	jne .LBB35_14
	addq %rdx, %rdi
	cmpq %rbx, %rdi
	jae .LBB35_12
.LBB35_14:
	xorps %xmm0, %xmm0
	movups %xmm0, 16(%rsi)
	movups %xmm0, (%rsi)
	jmp .LBB35_13
.LBB35_12:
	movups 56(%rsp), %xmm0
	movq $1, (%rsi)
	movl %r14d, 8(%rsi)
	movl %edx, 12(%rsi)
	movups %xmm0, 16(%rsi)
	jmp .LBB35_13
	.seh_endproc
	.section .rdata,"dr"
	.p2align 4, 0x0
.LCPI36_0:
	.byte 65
	.byte 66
	.byte 67
	.byte 68
	.byte 69
	.byte 70
	.byte 71
	.byte 72
	.byte 73
	.byte 74
	.byte 75
	.byte 76
	.byte 77
	.byte 78
	.byte 79
	.byte 80
.LCPI36_1:
	.byte 81
	.byte 82
	.byte 83
	.byte 84
	.byte 85
	.byte 86
	.byte 87
	.byte 88
	.byte 89
	.byte 90
	.byte 97
	.byte 98
	.byte 99
	.byte 100
	.byte 101
	.byte 102
.LCPI36_2:
	.byte 103
	.byte 104
	.byte 105
	.byte 106
	.byte 107
	.byte 108
	.byte 109
	.byte 110
	.byte 111
	.byte 112
	.byte 113
	.byte 114
	.byte 115
	.byte 116
	.byte 117
	.byte 118
.LCPI36_3:
	.byte 119
	.byte 120
	.byte 121
	.byte 122
	.byte 48
	.byte 49
	.byte 50
	.byte 51
	.byte 52
	.byte 53
	.byte 54
	.byte 55
	.byte 56
	.byte 57
	.byte 43
	.byte 47
.LCPI36_4:
	.byte 0
	.byte 1
	.byte 2
	.byte 3
	.byte 4
	.byte 5
	.byte 6
	.byte 7
	.byte 8
	.byte 9
	.byte 10
	.byte 11
	.byte 12
	.byte 13
	.byte 14
	.byte 15
.LCPI36_5:
	.byte 26
	.byte 27
	.byte 28
	.byte 29
	.byte 30
	.byte 31
	.byte 32
	.byte 33
	.byte 34
	.byte 35
	.byte 36
	.byte 37
	.byte 38
	.byte 39
	.byte 40
	.byte 41
.LCPI36_6:
	.byte 119
	.byte 120
	.byte 121
	.byte 122
	.byte 48
	.byte 49
	.byte 50
	.byte 51
	.byte 52
	.byte 53
	.byte 54
	.byte 55
	.byte 56
	.byte 57
	.byte 46
	.byte 47
	.text
	.p2align 4
ring_password_hash.text.decode_into:
.seh_proc ring_password_hash.text.decode_into
	pushq %rsi
	.seh_pushreg %rsi
	pushq %rdi
	.seh_pushreg %rdi
	pushq %rbp
	.seh_pushreg %rbp
	pushq %rbx
	.seh_pushreg %rbx
	subq $1288, %rsp
	.seh_stackalloc 1288
	movaps %xmm7, 1264(%rsp)
	.seh_savexmm %xmm7, 1264
	movaps %xmm6, 1248(%rsp)
	.seh_savexmm %xmm6, 1248
	.seh_endprologue
	movq %r9, %rdi
	movl %ecx, %ebp
	movq %r8, %rbx
	movq %rdx, %rsi
	xorps %xmm6, %xmm6
	movups %xmm6, 547(%rsp)
	movups %xmm6, 531(%rsp)
	movups %xmm6, 515(%rsp)
	movups %xmm6, 499(%rsp)
	movups %xmm6, 483(%rsp)
	movups %xmm6, 467(%rsp)
	movups %xmm6, 451(%rsp)
	movups %xmm6, 435(%rsp)
	movups %xmm6, 419(%rsp)
	movups %xmm6, 403(%rsp)
	movups %xmm6, 387(%rsp)
	movups %xmm6, 371(%rsp)
	movb $0, 563(%rsp)
	leaq 576(%rsp), %rcx
	movl $324, %r8d
	xorl %edx, %edx
	callq memset
	movl $0, 56(%rsp)
	movw $0, 60(%rsp)
	movaps %xmm6, 96(%rsp)
	movaps %xmm6, 112(%rsp)
	movaps %xmm6, 128(%rsp)
	movaps %xmm6, 144(%rsp)
	movaps %xmm6, 160(%rsp)
	movaps %xmm6, 176(%rsp)
	movaps %xmm6, 192(%rsp)
	movaps %xmm6, 208(%rsp)
	movq $0, 221(%rsp)
	leaq 912(%rsp), %rcx
	movl $324, %r8d
	xorl %edx, %edx
	callq memset
	movaps .LCPI36_0(%rip), %xmm0
	movaps %xmm0, 240(%rsp)
	movaps .LCPI36_1(%rip), %xmm1
	movaps %xmm1, 256(%rsp)
	movaps .LCPI36_2(%rip), %xmm2
	movaps %xmm2, 272(%rsp)
	movaps .LCPI36_3(%rip), %xmm7
	movaps %xmm7, 288(%rsp)
	pcmpeqd %xmm5, %xmm5
	movdqa %xmm5, 304(%rsp)
	movdqa %xmm5, 320(%rsp)
	movdqu %xmm5, 331(%rsp)
	movabsq $3906085701296324414, %rdx
	movq %rdx, 347(%rsp)
	movl $976828471, 355(%rsp)
	movw $15419, 359(%rsp)
	movb $61, 361(%rsp)
	movl $-1, 362(%rsp)
	movl $-1, 365(%rsp)
	movaps .LCPI36_4(%rip), %xmm3
	movups %xmm3, 369(%rsp)
	movabsq $1663540288323457296, %rax
	movq %rax, 385(%rsp)
	movw $6424, 393(%rsp)
	movw $-1, 399(%rsp)
	movl $-1, 395(%rsp)
	movaps .LCPI36_5(%rip), %xmm4
	movups %xmm4, 401(%rsp)
	movabsq $3544384782113450794, %rcx
	movq %rcx, 417(%rsp)
	movw $13106, 425(%rsp)
	movdqu %xmm5, 427(%rsp)
	movdqu %xmm5, 443(%rsp)
	movdqu %xmm5, 459(%rsp)
	movdqu %xmm5, 475(%rsp)
	movdqu %xmm5, 491(%rsp)
	movdqu %xmm5, 507(%rsp)
	movdqu %xmm5, 523(%rsp)
	movdqu %xmm5, 539(%rsp)
	movq $-1, 552(%rsp)
	movl $16777533, 560(%rsp)
	movaps %xmm0, 576(%rsp)
	movaps %xmm1, 592(%rsp)
	movaps %xmm2, 608(%rsp)
	movaps %xmm7, 624(%rsp)
	movdqa %xmm5, 640(%rsp)
	movdqa %xmm5, 656(%rsp)
	movdqu %xmm5, 667(%rsp)
	movq %rdx, 683(%rsp)
	movl $976828471, 691(%rsp)
	movw $15419, 695(%rsp)
	movb $61, 697(%rsp)
	movl $-1, 701(%rsp)
	movl $-1, 698(%rsp)
	movups %xmm3, 705(%rsp)
	movq %rax, 721(%rsp)
	movw $6424, 729(%rsp)
	movw $-1, 735(%rsp)
	movl $-1, 731(%rsp)
	movups %xmm4, 737(%rsp)
	movq %rcx, 753(%rsp)
	movw $13106, 761(%rsp)
	movdqu %xmm5, 875(%rsp)
	movdqu %xmm5, 859(%rsp)
	movdqu %xmm5, 843(%rsp)
	movdqu %xmm5, 827(%rsp)
	movdqu %xmm5, 811(%rsp)
	movdqu %xmm5, 795(%rsp)
	movdqu %xmm5, 779(%rsp)
	movdqu %xmm5, 763(%rsp)
	movq $-1, 888(%rsp)
	movl $33554493, 896(%rsp)
	movzbl %bpl, %edx
	leaq .LJTI36_0(%rip), %r8
	movslq (%r8,%rdx,4), %rdx
	addq %r8, %rdx
	jmpq *%rdx
.LBB36_1:
	movq %rdi, %rax
	subq %rsi, %rax
	cmpq %rbx, %rax
	jae .LBB36_48
	cmpq $4, %rbx
	setb %cl
	cmpq $32, %rax
	setb %al
	orb %cl, %al
	je .LBB36_49
	xorl %ecx, %ecx
	jmp .LBB36_58
.LBB36_4:
	xorl %edx, %edx
	jmp .LBB36_6
	.p2align 4
.LBB36_5:
	incq %rdx
	cmpq $64, %rdx
	je .LBB36_26
.LBB36_6:
	leaq .Lstatic.46(%rip), %r8
	movzbl (%rdx,%r8), %r9d
	leal -32(%r9), %r10d
	cmpb $94, %r10b
	ja .LBB36_17
	xorl %r10d, %r10d
	jmp .LBB36_9
	.p2align 4
.LBB36_8:
	incq %r11
	movq %r11, %r10
	cmpq $64, %r11
	je .LBB36_5
.LBB36_9:
	cmpq %r10, %rdx
	je .LBB36_11
	cmpb (%r10,%r8), %r9b
	je .LBB36_17
.LBB36_11:
	leaq 1(%r10), %r11
	cmpq %rdx, %r11
	je .LBB36_13
	cmpb 1(%r10,%r8), %r9b
	je .LBB36_17
.LBB36_13:
	incq %r11
	cmpq %rdx, %r11
	je .LBB36_15
	cmpb 2(%r10,%r8), %r9b
	je .LBB36_17
.LBB36_15:
	incq %r11
	cmpq %rdx, %r11
	je .LBB36_8
	cmpb 3(%r10,%r8), %r9b
	jne .LBB36_8
.LBB36_17:
	ud2
.LBB36_18:
	movaps %xmm6, 80(%rsp)
	movaps %xmm6, 64(%rsp)
	movq %rdi, 32(%rsp)
	movq $1024, 40(%rsp)
	leaq 64(%rsp), %rcx
	leaq 240(%rsp), %rdx
	jmp .LBB36_19
.LBB36_21:
	movaps %xmm6, 80(%rsp)
	movaps %xmm6, 64(%rsp)
	movq %rdi, 32(%rsp)
	movq $1024, 40(%rsp)
	leaq 64(%rsp), %rcx
	leaq 576(%rsp), %rdx
	jmp .LBB36_19
.LBB36_22:
	movq %rbx, %rcx
	shrq %rcx
	xorl %eax, %eax
	.p2align 4
.LBB36_23:
	cmpq %rax, %rbx
	je .LBB36_28
	movzbl (%rsi,%rax), %edx
	addb $-91, %dl
	incq %rax
	cmpb $-26, %dl
	jb .LBB36_23
	jmp .LBB36_25
.LBB36_26:
	movw $-1, 60(%rsp)
	movl $-1, 56(%rsp)
	pcmpeqd %xmm5, %xmm5
	movdqa %xmm5, 96(%rsp)
	movdqa %xmm5, 112(%rsp)
	movdqa %xmm5, 128(%rsp)
	movdqa %xmm5, 144(%rsp)
	movdqa %xmm5, 160(%rsp)
	movdqa %xmm5, 176(%rsp)
	movdqa %xmm5, 192(%rsp)
	movdqa %xmm5, 208(%rsp)
	movq $-1, 221(%rsp)
	movaps %xmm0, 912(%rsp)
	movaps %xmm1, 928(%rsp)
	movaps %xmm2, 944(%rsp)
	movaps .LCPI36_6(%rip), %xmm0
	movaps %xmm0, 960(%rsp)
	movdqa %xmm5, 976(%rsp)
	movdqa %xmm5, 992(%rsp)
	movdqu %xmm5, 1006(%rsp)
	movabsq $4123106164818067262, %rdx
	movq %rdx, 1022(%rsp)
	movabsq $-3267609798, %rdx
	movq %rdx, 1030(%rsp)
	movl $-1, 1037(%rsp)
	movups %xmm3, 1041(%rsp)
	movq %rax, 1057(%rsp)
	movw $6424, 1065(%rsp)
	movl 56(%rsp), %eax
	movl %eax, 1067(%rsp)
	movzwl 60(%rsp), %eax
	movw %ax, 1071(%rsp)
	movups %xmm4, 1073(%rsp)
	movq %rcx, 1089(%rsp)
	movw $13106, 1097(%rsp)
	leaq 1099(%rsp), %rcx
	leaq 96(%rsp), %rdx
	movl $133, %r8d
	callq memcpy
	movl $33554493, 1232(%rsp)
	xorps %xmm0, %xmm0
	movaps %xmm0, 80(%rsp)
	movaps %xmm0, 64(%rsp)
	movq %rdi, 32(%rsp)
	movq $1024, 40(%rsp)
	leaq 64(%rsp), %rcx
	leaq 912(%rsp), %rdx
.LBB36_19:
	movq %rsi, %r8
	movq %rbx, %r9
	callq base64.engine.general_purpose.GeneralPurpose.decode_slice_unchecked
	cmpb $0, 64(%rsp)
	sete %al
	jne .LBB36_20
	movq 72(%rsp), %rbx
	jmp .LBB36_65
.LBB36_20:
	xorl %ebx, %ebx
	jmp .LBB36_65
.LBB36_28:
	testb $1, %bl
	jne .LBB36_25
	movb $1, %al
	testq %rcx, %rcx
	je .LBB36_63
	xorl %edx, %edx
	jmp .LBB36_33
.LBB36_31:
	addb $-48, %r9b
.LBB36_32:
	shlb $4, %r8b
	addb %r9b, %r8b
	movb %r8b, (%rdi,%rdx)
	incq %rdx
	cmpq %rdx, %rcx
	je .LBB36_64
.LBB36_33:
	movzbl (%rsi,%rdx,2), %r8d
	cmpb $48, %r8b
	jb .LBB36_25
	movzbl 1(%rsi,%rdx,2), %r9d
	cmpb $57, %r8b
	ja .LBB36_36
	addb $-48, %r8b
	jmp .LBB36_41
.LBB36_36:
	cmpb $65, %r8b
	jb .LBB36_25
	cmpb $70, %r8b
	ja .LBB36_39
	addb $-55, %r8b
	jmp .LBB36_41
.LBB36_39:
	leal -97(%r8), %r10d
	cmpb $5, %r10b
	ja .LBB36_25
	addb $-87, %r8b
.LBB36_41:
	cmpb $48, %r9b
	jb .LBB36_25
	cmpb $57, %r9b
	jbe .LBB36_31
	cmpb $65, %r9b
	jb .LBB36_25
	cmpb $70, %r9b
	ja .LBB36_46
	addb $-55, %r9b
	jmp .LBB36_32
.LBB36_46:
	leal -97(%r9), %r10d
	cmpb $5, %r10b
	ja .LBB36_25
	addb $-87, %r9b
	jmp .LBB36_32
.LBB36_25:
	xorl %ecx, %ecx
	xorl %eax, %eax
.LBB36_64:
	movq %rcx, %rbx
	jmp .LBB36_65
.LBB36_48:
	movq %rdi, %rcx
	movq %rsi, %rdx
	movq %rbx, %r8
	callq memmove
	movb $1, %al
	jmp .LBB36_65
.LBB36_49:
	cmpq $32, %rbx
	jae .LBB36_51
	xorl %ecx, %ecx
	jmp .LBB36_55
.LBB36_51:
	movq %rbx, %rcx
	andq $-32, %rcx
	xorl %eax, %eax
	.p2align 4
.LBB36_52:
	movups (%rsi,%rax), %xmm0
	movups 16(%rsi,%rax), %xmm1
	movups %xmm0, (%rdi,%rax)
	movups %xmm1, 16(%rdi,%rax)
	addq $32, %rax
	cmpq %rax, %rcx
	jne .LBB36_52
	movb $1, %al
	cmpq %rcx, %rbx
	je .LBB36_65
	testb $28, %bl
	je .LBB36_58
.LBB36_55:
	movq %rcx, %rax
	movq %rbx, %rcx
	andq $-4, %rcx
	.p2align 4
.LBB36_56:
	movl (%rsi,%rax), %edx
	movl %edx, (%rdi,%rax)
	addq $4, %rax
	cmpq %rax, %rcx
	jne .LBB36_56
	movb $1, %al
	cmpq %rcx, %rbx
	je .LBB36_65
.LBB36_58:
	movq %rbx, %rax
	movq %rcx, %rdx
	andq $3, %rax
	je .LBB36_61
	movq %rcx, %rdx
	.p2align 4
.LBB36_60:
	movzbl (%rsi,%rdx), %r8d
	movb %r8b, (%rdi,%rdx)
	incq %rdx
	decq %rax
	jne .LBB36_60
.LBB36_61:
	subq %rbx, %rcx
	movb $1, %al
	cmpq $-4, %rcx
	ja .LBB36_65
	.p2align 4
.LBB36_62:
	movzbl (%rsi,%rdx), %ecx
	movb %cl, (%rdi,%rdx)
	movzbl 1(%rsi,%rdx), %ecx
	movb %cl, 1(%rdi,%rdx)
	movzbl 2(%rsi,%rdx), %ecx
	movb %cl, 2(%rdi,%rdx)
	movzbl 3(%rsi,%rdx), %ecx
	movb %cl, 3(%rdi,%rdx)
	addq $4, %rdx
	cmpq %rdx, %rbx
	jne .LBB36_62
.LBB36_65:
	movq %rbx, %rdx
	movaps 1248(%rsp), %xmm6
	movaps 1264(%rsp), %xmm7
	addq $1288, %rsp
	popq %rbx
	popq %rbp
	popq %rdi
	popq %rsi
	retq
.LBB36_63:
	xorl %ecx, %ecx
	jmp .LBB36_64
	.section .rdata,"dr"
	.p2align 2, 0x0
.LJTI36_0:
	.long .LBB36_1-.LJTI36_0
	.long .LBB36_22-.LJTI36_0
	.long .LBB36_18-.LJTI36_0
	.long .LBB36_21-.LJTI36_0
	.long .LBB36_4-.LJTI36_0
	.text
	.seh_endproc
	.p2align 4
ring_password_hash.stored.put_text:
.seh_proc ring_password_hash.stored.put_text
	pushq %r15
	.seh_pushreg %r15
	pushq %r14
	.seh_pushreg %r14
	pushq %r13
	.seh_pushreg %r13
	pushq %r12
	.seh_pushreg %r12
	pushq %rsi
	.seh_pushreg %rsi
	pushq %rdi
	.seh_pushreg %rdi
	pushq %rbp
	.seh_pushreg %rbp
	pushq %rbx
	.seh_pushreg %rbx
	subq $40, %rsp
	.seh_stackalloc 40
	.seh_endprologue
	movl %r8d, %r14d
	movl %edx, %eax
	movq %rcx, %rsi
	movb $36, %bpl
	movb $1, %r13b
	movl $15, %edi
	leaq .Lstatic.31(%rip), %rdx
	movzbl %al, %r12d
	leaq .LJTI37_0(%rip), %rax
	movslq (%rax,%r12,4), %rcx
	addq %rax, %rcx
	jmpq *%rcx
.LBB37_2:
	movl $14, %edi
	leaq .Lstatic.24(%rip), %rdx
	jmp .LBB37_12
.LBB37_6:
	movl $12, %edi
	leaq .Lstatic.28(%rip), %rdx
	jmp .LBB37_12
.LBB37_5:
	movl $14, %edi
	leaq .Lstatic.27(%rip), %rdx
	jmp .LBB37_12
.LBB37_9:
	leaq .Lstatic.32(%rip), %rdx
	jmp .LBB37_12
.LBB37_3:
	movl $12, %edi
	leaq .Lstatic.25(%rip), %rdx
	jmp .LBB37_12
.LBB37_4:
	movl $14, %edi
	leaq .Lstatic.26(%rip), %rdx
	jmp .LBB37_12
.LBB37_7:
	movl $3, %edi
	movb $1, %al
	leaq .Lstatic.29(%rip), %rdx
	jmp .LBB37_13
.LBB37_1:
	xorl %eax, %eax
	jmp .LBB37_14
.LBB37_10:
	leaq .Lstatic.32(%rip), %rdx
	xorl %eax, %eax
	jmp .LBB37_14
.LBB37_11:
	movb $58, %bpl
	movl $14, %edi
	leaq .Lstatic.33(%rip), %rdx
	jmp .LBB37_12
.LBB37_8:
	movl $8, %edi
	leaq .Lstatic.30(%rip), %rdx
.LBB37_12:
	xorl %eax, %eax
.LBB37_13:
	xorl %r13d, %r13d
.LBB37_14:
	movl %r9d, %r15d
	movq %rsi, %rcx
	subq %rdx, %rcx
	cmpq %rdi, %rcx
	jae .LBB37_17
	movl %edi, %ecx
	andl $3, %ecx
	testb %al, %al
	je .LBB37_18
	xorl %eax, %eax
	jmp .LBB37_21
.LBB37_17:
	movq %rsi, %rcx
	movq %rdi, %r8
	callq memmove
	jmp .LBB37_23
.LBB37_18:
	movl %edi, %r8d
	andl $-4, %r8d
	xorl %eax, %eax
	.p2align 4
.LBB37_19:
	movzbl (%rdx,%rax), %r9d
	movb %r9b, (%rsi,%rax)
	movzbl 1(%rdx,%rax), %r9d
	movb %r9b, 1(%rsi,%rax)
	movzbl 2(%rdx,%rax), %r9d
	movb %r9b, 2(%rsi,%rax)
	movzbl 3(%rdx,%rax), %r9d
	movb %r9b, 3(%rsi,%rax)
	addq $4, %rax
	cmpq %rax, %r8
	jne .LBB37_19
	testq %rcx, %rcx
	je .LBB37_23
.LBB37_21:
	addq %rax, %rdx
	addq %rsi, %rax
	xorl %r8d, %r8d
	.p2align 4
.LBB37_22:
	movzbl (%rdx,%r8), %r9d
	movb %r9b, (%rax,%r8)
	incq %r8
	cmpq %r8, %rcx
	jne .LBB37_22
.LBB37_23:
	movq 168(%rsp), %rbx
	cmpb $2, %r14b
	je .LBB37_32
	movzbl %r14b, %eax
	cmpl $1, %eax
	jne .LBB37_25
	leaq (%rsi,%rdi), %rax
	addq $2, %rdi
	leaq .Lstatic.21(%rip), %rcx
	movq %rax, %rdx
	subq %rcx, %rdx
	cmpq $1, %rdx
	movw $15721, (%rax)
	movq %rsi, %rcx
	movq %rdi, %rdx
	movq %r15, %r8
	movb $44, %r9b
	callq ring_password_hash.text.put_number
	cmpb $1, %al
	sete %al
	cmpq $1023, %rdx
	setb %cl
	andb %al, %cl
	cmpb $1, %cl
	jne .LBB37_30
	leaq (%rsi,%rdx), %rax
	addq $2, %rdx
	leaq .Lstatic.23(%rip), %rcx
	movq %rax, %r8
	subq %rcx, %r8
	cmpq $1, %r8
	movw $15724, (%rax)
	movq %rsi, %rcx
	movq %rbx, %r8
	jmp .LBB37_34
.LBB37_32:
	leaq (%rsi,%rdi), %rax
	addq $2, %rdi
	leaq .Lstatic.23(%rip), %rcx
	movq %rax, %rdx
	subq %rcx, %rdx
	cmpq $1, %rdx
	movw $15724, (%rax)
	movq %rsi, %rcx
	movq %rdi, %rdx
	movq %rbx, %r8
	movb $44, %r9b
	callq ring_password_hash.text.put_number
	cmpb $1, %al
	sete %al
	cmpq $1023, %rdx
	setb %cl
	andb %al, %cl
	cmpb $1, %cl
	jne .LBB37_30
	leaq (%rsi,%rdx), %rax
	addq $2, %rdx
	leaq .Lstatic.21(%rip), %rcx
	movq %rax, %r8
	subq %rcx, %r8
	cmpq $1, %r8
	movw $15721, (%rax)
	movq %rsi, %rcx
	movq %r15, %r8
.LBB37_34:
	movb $36, %r9b
	callq ring_password_hash.text.put_number
	cmpb $1, %al
	je .LBB37_36
	jmp .LBB37_30
.LBB37_25:
	movzbl %r13b, %edx
	leal (%rdx,%rdx), %r8d
	leaq .Lstatic.21(%rip), %rax
	leaq .Lstatic.8(%rip), %rcx
	testb %dl, %dl
	movq %rcx, %rdx
	cmovneq %rax, %rdx
	leaq (%r8,%rdi), %r14
	addq %rsi, %rdi
	movq %rdi, %r9
	subq %rdx, %r9
	cmpq %r8, %r9
	jae .LBB37_26
	movzbl (%rdx), %edx
	movb %dl, (%rdi)
	testb %r13b, %r13b
	cmovneq %rax, %rcx
	movzbl 1(%rcx), %eax
	movb %al, 1(%rdi)
	jmp .LBB37_28
.LBB37_26:
	movq %rdi, %rcx
	callq memcpy
.LBB37_28:
	movq %rsi, %rcx
	movq %r14, %rdx
	movq %r15, %r8
	movl %ebp, %r9d
	callq ring_password_hash.text.put_number
	cmpb $1, %al
	jne .LBB37_30
.LBB37_36:
	movq 152(%rsp), %rax
	movq 144(%rsp), %r9
	leaq .Lswitch.table.ring_password_hash.stored.put_text(%rip), %rcx
	movzbl (%r12,%rcx), %r8d
	movq %rax, 32(%rsp)
	movq %rsi, %rcx
	callq ring_password_hash.text.put_field
	cmpb $1, %al
	setne %al
	cmpq $1024, %rdx
	setae %cl
	orb %al, %cl
	je .LBB37_37
.LBB37_30:
	xorl %edx, %edx
	xorl %eax, %eax
.LBB37_46:
	addq $40, %rsp
	popq %rbx
	popq %rbp
	popq %rdi
	popq %rsi
	popq %r12
	popq %r13
	popq %r14
	popq %r15
	retq
.LBB37_37:
	movq 160(%rsp), %r9
	movq %rdx, %rax
	incq %rdx
	movb $36, (%rsi,%rax)
	leaq .LJTI37_1(%rip), %rax
	movslq (%rax,%r12,4), %rcx
	addq %rax, %rcx
	jmpq *%rcx
.LBB37_38:
	movb $2, %r8b
	jmp .LBB37_44
.LBB37_40:
	movb $4, %r8b
	jmp .LBB37_44
.LBB37_39:
	movb $1, %r8b
	jmp .LBB37_44
.LBB37_43:
	movb $3, %r8b
.LBB37_44:
	movq %rbx, 32(%rsp)
	movq %rsi, %rcx
.LBB37_45:
	callq ring_password_hash.text.put_field
	jmp .LBB37_46
.LBB37_41:
	movq $32, 32(%rsp)
	movq %rsi, %rcx
	movb $2, %r8b
	movq %r9, %rdi
	callq ring_password_hash.text.put_field
	cmpb $1, %al
	sete %al
	cmpq $1024, %rdx
	setb %cl
	andb %al, %cl
	cmpb $1, %cl
	jne .LBB37_30
	movq %rdx, %rax
	addq $-32, %rbx
	movq %rdi, %r9
	addq $32, %r9
	incq %rdx
	movb $58, (%rsi,%rax)
	movq %rbx, 32(%rsp)
	movq %rsi, %rcx
	movb $2, %r8b
	jmp .LBB37_45
	.section .rdata,"dr"
	.p2align 2, 0x0
.LJTI37_0:
	.long .LBB37_2-.LJTI37_0
	.long .LBB37_3-.LJTI37_0
	.long .LBB37_4-.LJTI37_0
	.long .LBB37_5-.LJTI37_0
	.long .LBB37_1-.LJTI37_0
	.long .LBB37_10-.LJTI37_0
	.long .LBB37_7-.LJTI37_0
	.long .LBB37_8-.LJTI37_0
	.long .LBB37_12-.LJTI37_0
	.long .LBB37_9-.LJTI37_0
	.long .LBB37_11-.LJTI37_0
	.long .LBB37_6-.LJTI37_0
.LJTI37_1:
	.long .LBB37_38-.LJTI37_1
	.long .LBB37_38-.LJTI37_1
	.long .LBB37_39-.LJTI37_1
	.long .LBB37_39-.LJTI37_1
	.long .LBB37_43-.LJTI37_1
	.long .LBB37_43-.LJTI37_1
	.long .LBB37_38-.LJTI37_1
	.long .LBB37_40-.LJTI37_1
	.long .LBB37_40-.LJTI37_1
	.long .LBB37_40-.LJTI37_1
	.long .LBB37_41-.LJTI37_1
	.long .LBB37_39-.LJTI37_1
	.text
	.seh_endproc
	.p2align 4
ring_password_hash.text.put_number:
.seh_proc ring_password_hash.text.put_number
	pushq %rsi
	.seh_pushreg %rsi
	pushq %rdi
	.seh_pushreg %rdi
	pushq %rbx
	.seh_pushreg %rbx
	subq $80, %rsp
	.seh_stackalloc 80
	.seh_endprologue
	movq %r8, %r10
	movq %rdx, %r11
	xorps %xmm0, %xmm0
	movaps %xmm0, 48(%rsp)
	movaps %xmm0, 32(%rsp)
	movq $0, 64(%rsp)
	movl $40, %esi
	cmpq $10000, %r8
	jb .LBB38_1
	.p2align 4
.LBB38_2:
	movabsq $3777893186295716171, %rdx
	movq %r10, %rax
	mulq %rdx
	shrq $11, %rdx
	imull $10000, %edx, %eax
	movl %r10d, %r8d
	subl %eax, %r8d
	imull $5243, %r8d, %eax
	shrl $19, %eax
	imull $100, %eax, %edi
	subl %edi, %r8d
	movzwl %r8w, %r8d
	leaq .Lstatic.22(%rip), %rdi
	movzwl (%rdi,%r8,2), %r8d
	movw %r8w, 30(%rsp,%rsi)
	movzwl (%rdi,%rax,2), %eax
	movw %ax, 28(%rsp,%rsi)
	addq $-4, %rsi
	cmpq $99999999, %r10
	movq %rdx, %r10
	ja .LBB38_2
	cmpq $99, %rdx
	ja .LBB38_7
.LBB38_4:
	cmpq $9, %rdx
	ja .LBB38_6
	orb $48, %dl
	movb %dl, 31(%rsp,%rsi)
	decq %rsi
	jmp .LBB38_10
.LBB38_1:
	movq %r10, %rdx
	cmpq $99, %rdx
	jbe .LBB38_4
.LBB38_7:
	movl %edx, %eax
	shrl $2, %eax
	movzwl %ax, %eax
	imull $5243, %eax, %eax
	shrl $17, %eax
	imull $100, %eax, %r8d
	movl %edx, %r10d
	subl %r8d, %r10d
	movzwl %r10w, %r10d
	leaq .Lstatic.22(%rip), %r8
	movzwl (%r8,%r10,2), %r10d
	movw %r10w, 30(%rsp,%rsi)
	cmpq $999, %rdx
	ja .LBB38_9
	orb $48, %al
	movb %al, 29(%rsp,%rsi)
	addq $-3, %rsi
	jmp .LBB38_10
.LBB38_6:
	leaq .Lstatic.22(%rip), %rax
	movzwl (%rax,%rdx,2), %eax
	movw %ax, 30(%rsp,%rsi)
	addq $-2, %rsi
	jmp .LBB38_10
.LBB38_9:
	movzwl %ax, %eax
	movzwl (%r8,%rax,2), %eax
	movw %ax, 28(%rsp,%rsi)
	addq $-4, %rsi
.LBB38_10:
	xorl %edx, %edx
	movq %r11, %r10
	movl $0, %eax
	subq $1024, %r10
	ja .LBB38_15
	movl $40, %r8d
	subq %rsi, %r8
	negq %r10
	cmpq %r8, %r10
	jb .LBB38_15
	movl %r9d, %ebx
	leaq (%rsp,%rsi), %rdx
	addq $32, %rdx
	leaq (%r8,%r11), %rdi
	movq %rcx, %rsi
	addq %rcx, %r11
	movq %r11, %rcx
	callq memcpy
	cmpq $1023, %rdi
	jbe .LBB38_14
	xorl %edx, %edx
	xorl %eax, %eax
	jmp .LBB38_15
.LBB38_14:
	movq %rdi, %rdx
	movb %bl, (%rsi,%rdi)
	incq %rdx
	movb $1, %al
.LBB38_15:
	addq $80, %rsp
	popq %rbx
	popq %rdi
	popq %rsi
	retq
	.seh_endproc
	.section .rdata,"dr"
	.p2align 4, 0x0
.LCPI39_0:
	.byte 65
	.byte 66
	.byte 67
	.byte 68
	.byte 69
	.byte 70
	.byte 71
	.byte 72
	.byte 73
	.byte 74
	.byte 75
	.byte 76
	.byte 77
	.byte 78
	.byte 79
	.byte 80
.LCPI39_1:
	.byte 81
	.byte 82
	.byte 83
	.byte 84
	.byte 85
	.byte 86
	.byte 87
	.byte 88
	.byte 89
	.byte 90
	.byte 97
	.byte 98
	.byte 99
	.byte 100
	.byte 101
	.byte 102
.LCPI39_2:
	.byte 103
	.byte 104
	.byte 105
	.byte 106
	.byte 107
	.byte 108
	.byte 109
	.byte 110
	.byte 111
	.byte 112
	.byte 113
	.byte 114
	.byte 115
	.byte 116
	.byte 117
	.byte 118
.LCPI39_3:
	.byte 119
	.byte 120
	.byte 121
	.byte 122
	.byte 48
	.byte 49
	.byte 50
	.byte 51
	.byte 52
	.byte 53
	.byte 54
	.byte 55
	.byte 56
	.byte 57
	.byte 43
	.byte 47
.LCPI39_4:
	.byte 0
	.byte 1
	.byte 2
	.byte 3
	.byte 4
	.byte 5
	.byte 6
	.byte 7
	.byte 8
	.byte 9
	.byte 10
	.byte 11
	.byte 12
	.byte 13
	.byte 14
	.byte 15
.LCPI39_5:
	.byte 26
	.byte 27
	.byte 28
	.byte 29
	.byte 30
	.byte 31
	.byte 32
	.byte 33
	.byte 34
	.byte 35
	.byte 36
	.byte 37
	.byte 38
	.byte 39
	.byte 40
	.byte 41
.LCPI39_6:
	.byte 119
	.byte 120
	.byte 121
	.byte 122
	.byte 48
	.byte 49
	.byte 50
	.byte 51
	.byte 52
	.byte 53
	.byte 54
	.byte 55
	.byte 56
	.byte 57
	.byte 46
	.byte 47
	.text
	.p2align 4
ring_password_hash.text.put_field:
.seh_proc ring_password_hash.text.put_field
	pushq %r14
	.seh_pushreg %r14
	pushq %rsi
	.seh_pushreg %rsi
	pushq %rdi
	.seh_pushreg %rdi
	pushq %rbp
	.seh_pushreg %rbp
	pushq %rbx
	.seh_pushreg %rbx
	subq $1264, %rsp
	.seh_stackalloc 1264
	movaps %xmm7, 1248(%rsp)
	.seh_savexmm %xmm7, 1248
	movaps %xmm6, 1232(%rsp)
	.seh_savexmm %xmm6, 1232
	.seh_endprologue
	movq %r9, %rdi
	movl %r8d, %ebp
	movq %rdx, %rsi
	movq %rcx, %r14
	movq 1344(%rsp), %rbx
	xorps %xmm6, %xmm6
	movups %xmm6, 531(%rsp)
	movups %xmm6, 515(%rsp)
	movups %xmm6, 499(%rsp)
	movups %xmm6, 483(%rsp)
	movups %xmm6, 467(%rsp)
	movups %xmm6, 451(%rsp)
	movups %xmm6, 435(%rsp)
	movups %xmm6, 419(%rsp)
	movups %xmm6, 403(%rsp)
	movups %xmm6, 387(%rsp)
	movups %xmm6, 371(%rsp)
	movups %xmm6, 355(%rsp)
	movb $0, 547(%rsp)
	leaq 560(%rsp), %rcx
	movl $324, %r8d
	xorl %edx, %edx
	callq memset
	movl $0, 56(%rsp)
	movw $0, 60(%rsp)
	movaps %xmm6, 80(%rsp)
	movaps %xmm6, 96(%rsp)
	movaps %xmm6, 112(%rsp)
	movaps %xmm6, 128(%rsp)
	movaps %xmm6, 144(%rsp)
	movaps %xmm6, 160(%rsp)
	movaps %xmm6, 176(%rsp)
	movaps %xmm6, 192(%rsp)
	movq $0, 205(%rsp)
	leaq 896(%rsp), %rcx
	movl $324, %r8d
	xorl %edx, %edx
	callq memset
	movaps .LCPI39_0(%rip), %xmm0
	movaps %xmm0, 224(%rsp)
	movaps .LCPI39_1(%rip), %xmm1
	movaps %xmm1, 240(%rsp)
	movaps .LCPI39_2(%rip), %xmm2
	movaps %xmm2, 256(%rsp)
	movaps .LCPI39_3(%rip), %xmm7
	movaps %xmm7, 272(%rsp)
	pcmpeqd %xmm5, %xmm5
	movdqa %xmm5, 288(%rsp)
	movdqa %xmm5, 304(%rsp)
	movdqu %xmm5, 315(%rsp)
	movabsq $3906085701296324414, %rdx
	movq %rdx, 331(%rsp)
	movl $976828471, 339(%rsp)
	movw $15419, 343(%rsp)
	movb $61, 345(%rsp)
	movl $-1, 346(%rsp)
	movl $-1, 349(%rsp)
	movaps .LCPI39_4(%rip), %xmm3
	movups %xmm3, 353(%rsp)
	movabsq $1663540288323457296, %rax
	movq %rax, 369(%rsp)
	movw $6424, 377(%rsp)
	movw $-1, 383(%rsp)
	movl $-1, 379(%rsp)
	movaps .LCPI39_5(%rip), %xmm4
	movups %xmm4, 385(%rsp)
	movabsq $3544384782113450794, %rcx
	movq %rcx, 401(%rsp)
	movw $13106, 409(%rsp)
	movdqu %xmm5, 411(%rsp)
	movdqu %xmm5, 427(%rsp)
	movdqu %xmm5, 443(%rsp)
	movdqu %xmm5, 459(%rsp)
	movdqu %xmm5, 475(%rsp)
	movdqu %xmm5, 491(%rsp)
	movdqu %xmm5, 507(%rsp)
	movdqu %xmm5, 523(%rsp)
	movq $-1, 536(%rsp)
	movl $16777533, 544(%rsp)
	movaps %xmm0, 560(%rsp)
	movaps %xmm1, 576(%rsp)
	movaps %xmm2, 592(%rsp)
	movaps %xmm7, 608(%rsp)
	movdqa %xmm5, 624(%rsp)
	movdqa %xmm5, 640(%rsp)
	movdqu %xmm5, 651(%rsp)
	movq %rdx, 667(%rsp)
	movl $976828471, 675(%rsp)
	movw $15419, 679(%rsp)
	movb $61, 681(%rsp)
	movl $-1, 685(%rsp)
	movl $-1, 682(%rsp)
	movups %xmm3, 689(%rsp)
	movq %rax, 705(%rsp)
	movw $6424, 713(%rsp)
	movw $-1, 719(%rsp)
	movl $-1, 715(%rsp)
	movups %xmm4, 721(%rsp)
	movq %rcx, 737(%rsp)
	movw $13106, 745(%rsp)
	movdqu %xmm5, 859(%rsp)
	movdqu %xmm5, 843(%rsp)
	movdqu %xmm5, 827(%rsp)
	movdqu %xmm5, 811(%rsp)
	movdqu %xmm5, 795(%rsp)
	movdqu %xmm5, 779(%rsp)
	movdqu %xmm5, 763(%rsp)
	movdqu %xmm5, 747(%rsp)
	movq $-1, 872(%rsp)
	movl $33554493, 880(%rsp)
	movzbl %bpl, %edx
	leaq .LJTI39_0(%rip), %r8
	movslq (%r8,%rdx,4), %rdx
	addq %r8, %rdx
	jmpq *%rdx
.LBB39_1:
	cmpq $1025, %rsi
	setae %al
	movl $1024, %ecx
	subq %rsi, %rcx
	cmpq %rbx, %rcx
	setb %cl
	orb %al, %cl
	jne .LBB39_25
	leaq (%rbx,%rsi), %rdx
	leaq (%r14,%rsi), %rcx
	movq %rcx, %rax
	subq %rdi, %rax
	cmpq %rbx, %rax
	jae .LBB39_31
	cmpq $4, %rbx
	jb .LBB39_4
	cmpq $32, %rax
	jae .LBB39_43
.LBB39_4:
	xorl %r8d, %r8d
.LBB39_52:
	movq %rbx, %rax
	movq %r8, %r9
	andq $3, %rax
	je .LBB39_55
	movq %r8, %r9
	.p2align 4
.LBB39_54:
	movzbl (%rdi,%r9), %r10d
	movb %r10b, (%rcx,%r9)
	incq %r9
	decq %rax
	jne .LBB39_54
.LBB39_55:
	subq %rbx, %r8
	movb $1, %al
	cmpq $-4, %r8
	ja .LBB39_30
	leaq (%rsi,%r14), %rcx
	addq $3, %rcx
	.p2align 4
.LBB39_57:
	movzbl (%rdi,%r9), %r8d
	movb %r8b, -3(%rcx,%r9)
	movzbl 1(%rdi,%r9), %r8d
	movb %r8b, -2(%rcx,%r9)
	movzbl 2(%rdi,%r9), %r8d
	movb %r8b, -1(%rcx,%r9)
	movzbl 3(%rdi,%r9), %r8d
	movb %r8b, (%rcx,%r9)
	addq $4, %r9
	cmpq %r9, %rbx
	jne .LBB39_57
	jmp .LBB39_30
.LBB39_5:
	xorl %edx, %edx
	jmp .LBB39_7
	.p2align 4
.LBB39_6:
	incq %rdx
	cmpq $64, %rdx
	je .LBB39_26
.LBB39_7:
	leaq .Lstatic.46(%rip), %r8
	movzbl (%rdx,%r8), %r9d
	leal -32(%r9), %r10d
	cmpb $94, %r10b
	ja .LBB39_18
	xorl %r10d, %r10d
	jmp .LBB39_10
	.p2align 4
.LBB39_9:
	incq %r11
	movq %r11, %r10
	cmpq $64, %r11
	je .LBB39_6
.LBB39_10:
	cmpq %r10, %rdx
	je .LBB39_12
	cmpb (%r10,%r8), %r9b
	je .LBB39_18
.LBB39_12:
	leaq 1(%r10), %r11
	cmpq %rdx, %r11
	je .LBB39_14
	cmpb 1(%r10,%r8), %r9b
	je .LBB39_18
.LBB39_14:
	incq %r11
	cmpq %rdx, %r11
	je .LBB39_16
	cmpb 2(%r10,%r8), %r9b
	je .LBB39_18
.LBB39_16:
	incq %r11
	cmpq %rdx, %r11
	je .LBB39_9
	cmpb 3(%r10,%r8), %r9b
	jne .LBB39_9
.LBB39_18:
	ud2
.LBB39_19:
	movaps %xmm6, 64(%rsp)
	cmpq $1024, %rsi
	ja .LBB39_27
	addq %rsi, %r14
	movl $1024, %eax
	subq %rsi, %rax
	movq %rax, 40(%rsp)
	movq %r14, 32(%rsp)
	leaq 64(%rsp), %rcx
	leaq 224(%rsp), %rdx
	jmp .LBB39_29
.LBB39_21:
	movaps %xmm6, 64(%rsp)
	cmpq $1024, %rsi
	ja .LBB39_27
	addq %rsi, %r14
	movl $1024, %eax
	subq %rsi, %rax
	movq %rax, 40(%rsp)
	movq %r14, 32(%rsp)
	leaq 64(%rsp), %rcx
	leaq 560(%rsp), %rdx
	jmp .LBB39_29
.LBB39_23:
	cmpq $1024, %rsi
	ja .LBB39_25
	leaq (%rbx,%rbx), %rdx
	movl $1024, %eax
	subq %rsi, %rax
	cmpq %rdx, %rax
	jae .LBB39_32
.LBB39_25:
	xorl %eax, %eax
	xorl %edx, %edx
	jmp .LBB39_30
.LBB39_26:
	movw $-1, 60(%rsp)
	movl $-1, 56(%rsp)
	pcmpeqd %xmm5, %xmm5
	movdqa %xmm5, 80(%rsp)
	movdqa %xmm5, 96(%rsp)
	movdqa %xmm5, 112(%rsp)
	movdqa %xmm5, 128(%rsp)
	movdqa %xmm5, 144(%rsp)
	movdqa %xmm5, 160(%rsp)
	movdqa %xmm5, 176(%rsp)
	movdqa %xmm5, 192(%rsp)
	movq $-1, 205(%rsp)
	movaps %xmm0, 896(%rsp)
	movaps %xmm1, 912(%rsp)
	movaps %xmm2, 928(%rsp)
	movaps .LCPI39_6(%rip), %xmm0
	movaps %xmm0, 944(%rsp)
	movdqa %xmm5, 960(%rsp)
	movdqa %xmm5, 976(%rsp)
	movdqu %xmm5, 990(%rsp)
	movabsq $4123106164818067262, %rdx
	movq %rdx, 1006(%rsp)
	movabsq $-3267609798, %rdx
	movq %rdx, 1014(%rsp)
	movl $-1, 1021(%rsp)
	movups %xmm3, 1025(%rsp)
	movq %rax, 1041(%rsp)
	movw $6424, 1049(%rsp)
	movl 56(%rsp), %eax
	movl %eax, 1051(%rsp)
	movzwl 60(%rsp), %eax
	movw %ax, 1055(%rsp)
	movups %xmm4, 1057(%rsp)
	movq %rcx, 1073(%rsp)
	movw $13106, 1081(%rsp)
	leaq 1083(%rsp), %rcx
	leaq 80(%rsp), %rdx
	movl $133, %r8d
	callq memcpy
	movl $33554493, 1216(%rsp)
	xorps %xmm0, %xmm0
	movaps %xmm0, 64(%rsp)
	cmpq $1024, %rsi
	jbe .LBB39_28
.LBB39_27:
	xorl %edx, %edx
	xorl %eax, %eax
	jmp .LBB39_30
.LBB39_28:
	addq %rsi, %r14
	movl $1024, %eax
	subq %rsi, %rax
	movq %rax, 40(%rsp)
	movq %r14, 32(%rsp)
	leaq 64(%rsp), %rcx
	leaq 896(%rsp), %rdx
.LBB39_29:
	movq %rdi, %r8
	movq %rbx, %r9
	callq base64.engine.general_purpose.GeneralPurpose.encode_slice
	addq 72(%rsp), %rsi
	xorl %edx, %edx
	cmpb $0, 64(%rsp)
	sete %al
	cmoveq %rsi, %rdx
.LBB39_30:
	movaps 1232(%rsp), %xmm6
	movaps 1248(%rsp), %xmm7
	addq $1264, %rsp
	popq %rbx
	popq %rbp
	popq %rdi
	popq %rsi
	popq %r14
	retq
.LBB39_31:
	movq %rdx, %rsi
	movq %rdi, %rdx
	movq %rbx, %r8
	callq memmove
	movq %rsi, %rdx
	movb $1, %al
	jmp .LBB39_30
.LBB39_32:
	leaq (%r14,%rsi), %rax
	testq %rbx, %rbx
	js .LBB39_18
	je .LBB39_42
	cmpq $1, %rbx
	jne .LBB39_38
	xorl %ecx, %ecx
	jmp .LBB39_41
.LBB39_38:
	movabsq $9223372036854775806, %r8
	andq %rbx, %r8
	leaq (%rsi,%r14), %r9
	addq $3, %r9
	xorl %ecx, %ecx
	.p2align 4
.LBB39_39:
	movzbl (%rdi,%rcx), %r10d
	movl %r10d, %r11d
	shrl $4, %r11d
	leaq .Lstatic.48(%rip), %r14
	movzbl (%r11,%r14), %r11d
	movb %r11b, -3(%r9,%rcx,2)
	andl $15, %r10d
	movzbl (%r10,%r14), %r10d
	movb %r10b, -2(%r9,%rcx,2)
	movzbl 1(%rdi,%rcx), %r10d
	movl %r10d, %r11d
	shrl $4, %r11d
	movzbl (%r11,%r14), %r11d
	movb %r11b, -1(%r9,%rcx,2)
	andl $15, %r10d
	movzbl (%r10,%r14), %r10d
	movb %r10b, (%r9,%rcx,2)
	addq $2, %rcx
	cmpq %rcx, %r8
	jne .LBB39_39
	testb $1, %bl
	je .LBB39_42
.LBB39_41:
	movzbl (%rdi,%rcx), %r8d
	movl %r8d, %r9d
	shrl $4, %r9d
	leaq .Lstatic.48(%rip), %r10
	movzbl (%r9,%r10), %r9d
	movb %r9b, (%rax,%rcx,2)
	andl $15, %r8d
	movzbl (%r8,%r10), %r8d
	movb %r8b, 1(%rax,%rcx,2)
.LBB39_42:
	addq %rsi, %rdx
	movb $1, %al
	jmp .LBB39_30
.LBB39_43:
	cmpq $32, %rbx
	jae .LBB39_45
	xorl %r8d, %r8d
	jmp .LBB39_49
.LBB39_45:
	movq %rbx, %r8
	andq $-32, %r8
	leaq (%rsi,%r14), %rax
	addq $16, %rax
	xorl %r9d, %r9d
.LBB39_46:
	movups (%rdi,%r9), %xmm0
	movups 16(%rdi,%r9), %xmm1
	movups %xmm0, -16(%rax,%r9)
	movups %xmm1, (%rax,%r9)
	addq $32, %r9
	cmpq %r9, %r8
	jne .LBB39_46
	movb $1, %al
	cmpq %r8, %rbx
	je .LBB39_30
	testb $28, %bl
	je .LBB39_52
.LBB39_49:
	movq %r8, %rax
	movq %rbx, %r8
	andq $-4, %r8
	.p2align 4
.LBB39_50:
	movl (%rdi,%rax), %r9d
	movl %r9d, (%rcx,%rax)
	addq $4, %rax
	cmpq %rax, %r8
	jne .LBB39_50
	movb $1, %al
	cmpq %r8, %rbx
	je .LBB39_30
	jmp .LBB39_52
	.section .rdata,"dr"
	.p2align 2, 0x0
.LJTI39_0:
	.long .LBB39_1-.LJTI39_0
	.long .LBB39_23-.LJTI39_0
	.long .LBB39_19-.LJTI39_0
	.long .LBB39_21-.LJTI39_0
	.long .LBB39_5-.LJTI39_0
	.text
	.seh_endproc
	.p2align 4
ring_password_hash.derived.derive:
.seh_proc ring_password_hash.derived.derive
	pushq %r14
	.seh_pushreg %r14
	pushq %rsi
	.seh_pushreg %rsi
	pushq %rdi
	.seh_pushreg %rdi
	pushq %rbx
	.seh_pushreg %rbx
	subq $824, %rsp
	.seh_stackalloc 824
	movaps %xmm6, 800(%rsp)
	.seh_savexmm %xmm6, 800
	.seh_endprologue
	movq %r9, %rax
	movq %rdx, %r10
	movq 928(%rsp), %rbx
	movq 912(%rsp), %rsi
	movl 904(%rsp), %edx
	movq 896(%rsp), %r9
	movzbl %cl, %ecx
	leaq .LJTI40_0(%rip), %r11
	movslq (%r11,%rcx,4), %rcx
	addq %r11, %rcx
	jmpq *%rcx
.LBB40_1:
	movb $1, %cl
	jmp .LBB40_4
.LBB40_3:
	movb $3, %cl
	jmp .LBB40_4
.LBB40_2:
	xorl %ecx, %ecx
.LBB40_4:
	movq 920(%rsp), %r11
	movq %rbx, 64(%rsp)
	movq %r11, 56(%rsp)
	movq %rsi, 48(%rsp)
	movq %r8, 40(%rsp)
	movq %r10, 32(%rsp)
	movq %rax, %r8
	callq ring.pbkdf2.derive_in.128
.LBB40_11:
	movaps 800(%rsp), %xmm6
	addq $824, %rsp
	popq %rbx
	popq %rdi
	popq %rsi
	popq %r14
	retq
.LBB40_5:
	xorps %xmm6, %xmm6
	movaps %xmm6, 336(%rsp)
	movaps %xmm6, 320(%rsp)
	movq %rbx, 64(%rsp)
	leaq 320(%rsp), %rcx
	movq %rcx, 48(%rsp)
	movq %r8, 40(%rsp)
	movq %r10, 32(%rsp)
	movq $32, 56(%rsp)
	movb $1, %cl
	movq %rax, %r8
	callq ring.pbkdf2.derive_in.128
	movl %eax, %ecx
	movb $1, %al
	testb %cl, %cl
	jne .LBB40_11
	movaps %xmm6, 592(%rsp)
	movaps %xmm6, 608(%rsp)
	movaps %xmm6, 624(%rsp)
	movaps %xmm6, 640(%rsp)
	movaps %xmm6, 656(%rsp)
	movaps %xmm6, 672(%rsp)
	movaps %xmm6, 688(%rsp)
	movaps %xmm6, 704(%rsp)
	movaps %xmm6, 720(%rsp)
	movaps %xmm6, 736(%rsp)
	movaps %xmm6, 752(%rsp)
	movaps %xmm6, 768(%rsp)
	movaps %xmm6, 784(%rsp)
	movaps %xmm6, 240(%rsp)
	movaps %xmm6, 256(%rsp)
	movaps %xmm6, 272(%rsp)
	movaps %xmm6, 288(%rsp)
	movw $0, 304(%rsp)
	movaps %xmm6, 208(%rsp)
	movaps %xmm6, 192(%rsp)
	movaps %xmm6, 176(%rsp)
	movaps %xmm6, 160(%rsp)
	movw $0, 224(%rsp)
	movaps %xmm6, 80(%rsp)
	movaps %xmm6, 96(%rsp)
	movaps %xmm6, 112(%rsp)
	movaps %xmm6, 128(%rsp)
	movw $0, 144(%rsp)
	movq %rbx, 32(%rsp)
	leaq 592(%rsp), %rcx
	leaq 320(%rsp), %r8
	movl $32, %r9d
	movb $1, %dl
	callq ring.hmac.key.Key.new_counted
	cmpb $0, 592(%rsp)
	jne .LBB40_12
	leaq 608(%rsp), %rdi
	movq %rbx, 32(%rsp)
	leaq .Lstatic.55(%rip), %r8
	leaq 240(%rsp), %rcx
	movl $10, %r9d
	movq %rdi, %rdx
	callq ring.hmac.sign_counted
	cmpb $0, 240(%rsp)
	jne .LBB40_12
	movups 241(%rsp), %xmm0
	movups 257(%rsp), %xmm1
	movups 273(%rsp), %xmm2
	movups 289(%rsp), %xmm3
	movaps %xmm3, 560(%rsp)
	movaps %xmm2, 544(%rsp)
	movaps %xmm1, 528(%rsp)
	movaps %xmm0, 512(%rsp)
	movzbl 305(%rsp), %eax
	movb %al, 576(%rsp)
	leaq .Lswitch.table.v2_yz_webhook_verify_stripe(%rip), %r14
	movq (%r14,%rax,8), %r9
	movq %rbx, 32(%rsp)
	leaq 160(%rsp), %rcx
	leaq 512(%rsp), %r8
	movb $1, %dl
	callq ring.digest.context.digest_counted
	cmpb $0, 160(%rsp)
	jne .LBB40_12
	movzbl 225(%rsp), %eax
	movb %al, 496(%rsp)
	movups 161(%rsp), %xmm0
	movups 177(%rsp), %xmm1
	movups 193(%rsp), %xmm2
	movups 209(%rsp), %xmm3
	movaps %xmm3, 480(%rsp)
	movaps %xmm2, 464(%rsp)
	movaps %xmm1, 448(%rsp)
	movaps %xmm0, 432(%rsp)
	movq %rbx, 32(%rsp)
	leaq .Lstatic.56(%rip), %r8
	leaq 80(%rsp), %rcx
	movl $10, %r9d
	movq %rdi, %rdx
	callq ring.hmac.sign_counted
	cmpb $0, 80(%rsp)
	jne .LBB40_12
	movzbl 145(%rsp), %eax
	movb %al, 416(%rsp)
	movups 81(%rsp), %xmm0
	movups 97(%rsp), %xmm1
	movups 113(%rsp), %xmm2
	movups 129(%rsp), %xmm3
	movaps %xmm3, 400(%rsp)
	movaps %xmm2, 384(%rsp)
	movaps %xmm1, 368(%rsp)
	movaps %xmm0, 352(%rsp)
	movzbl 496(%rsp), %eax
	movq (%r14,%rax,8), %r8
	leaq 432(%rsp), %rdx
	movq %rsi, %rcx
	callq memcpy
	movzbl 416(%rsp), %eax
	movq (%r14,%rax,8), %r8
	addq $32, %rsi
	leaq 352(%rsp), %rdx
	movq %rsi, %rcx
	callq memcpy
	xorl %eax, %eax
	jmp .LBB40_11
.LBB40_12:
	ud2
	.section .rdata,"dr"
	.p2align 2, 0x0
.LJTI40_0:
	.long .LBB40_1-.LJTI40_0
	.long .LBB40_2-.LJTI40_0
	.long .LBB40_1-.LJTI40_0
	.long .LBB40_3-.LJTI40_0
	.long .LBB40_1-.LJTI40_0
	.long .LBB40_3-.LJTI40_0
	.long .LBB40_3-.LJTI40_0
	.long .LBB40_2-.LJTI40_0
	.long .LBB40_1-.LJTI40_0
	.long .LBB40_3-.LJTI40_0
	.long .LBB40_5-.LJTI40_0
	.long .LBB40_2-.LJTI40_0
	.text
	.seh_endproc
	.p2align 4
ring.pbkdf2.derive_in.128:
.seh_proc ring.pbkdf2.derive_in.128
	pushq %r15
	.seh_pushreg %r15
	pushq %r14
	.seh_pushreg %r14
	pushq %r13
	.seh_pushreg %r13
	pushq %r12
	.seh_pushreg %r12
	pushq %rsi
	.seh_pushreg %rsi
	pushq %rdi
	.seh_pushreg %rdi
	pushq %rbp
	.seh_pushreg %rbp
	pushq %rbx
	.seh_pushreg %rbx
	subq $2792, %rsp
	.seh_stackalloc 2792
	.seh_endprologue
	movq %r9, %r10
	movq 2904(%rsp), %r9
	movabsq $2305843009213693884, %r11
	xorps %xmm0, %xmm0
	movaps %xmm0, 112(%rsp)
	movaps %xmm0, 96(%rsp)
	movaps %xmm0, 80(%rsp)
	cmpb $2, %cl
	setb %bl
	leaq 67(%r11), %rax
	cmpq %rax, %r9
	seta %sil
	movb $1, %al
	testb %sil, %bl
	jne .LBB41_14
	movq 2920(%rsp), %r12
	cmpb $2, %cl
	setb %bl
	testq %r12, %r12
	setne %sil
	cmpq %r11, %r10
	setae %r11b
	andb %bl, %r11b
	testb %sil, %r11b
	jne .LBB41_14
	movzbl %cl, %r13d
	leaq .Lswitch.table.ring.pbkdf2.derive_in.128(%rip), %r11
	cmpq (%r11,%r13,8), %r12
	ja .LBB41_14
	movq %r8, %r15
	movq %r10, %r14
	movl %edx, %ebx
	movq 2928(%rsp), %rax
	movq 2896(%rsp), %r8
	movaps %xmm0, 352(%rsp)
	movaps %xmm0, 336(%rsp)
	movaps %xmm0, 320(%rsp)
	movaps %xmm0, 304(%rsp)
	movaps %xmm0, 288(%rsp)
	movaps %xmm0, 272(%rsp)
	movaps %xmm0, 256(%rsp)
	movaps %xmm0, 240(%rsp)
	movaps %xmm0, 224(%rsp)
	movaps %xmm0, 208(%rsp)
	movaps %xmm0, 192(%rsp)
	movaps %xmm0, 176(%rsp)
	movaps %xmm0, 160(%rsp)
	movq %rax, 32(%rsp)
	leaq 160(%rsp), %rax
	movl %ecx, %edx
	movq %rax, %rcx
	movl %edx, %ebp
	callq ring.hmac.key.Key.new_counted
	cmpb $0, 160(%rsp)
	jne .LBB41_15
	leaq 176(%rsp), %rdx
	leaq 2400(%rsp), %rsi
	movl $192, %r8d
	movq %rsi, %rcx
	callq memcpy
	leaq 2592(%rsp), %rdi
	movl $192, %r8d
	movq %rdi, %rcx
	movq %rsi, %rdx
	callq memcpy
	movq %r15, 144(%rsp)
	movq %r14, 152(%rsp)
	movb %bpl, 80(%rsp)
	movq %rdi, 88(%rsp)
	movq $1, 96(%rsp)
	leaq 144(%rsp), %rax
	movq %rax, 104(%rsp)
	movq $1, 112(%rsp)
	movl %ebx, 120(%rsp)
	movq %r12, 128(%rsp)
	movq $0, 56(%rsp)
	leaq 1888(%rsp), %rcx
	movl $512, %r8d
	xorl %edx, %edx
	callq memset
	leaq 160(%rsp), %rcx
	movl $1728, %r8d
	xorl %edx, %edx
	callq memset
	testq %r12, %r12
	je .LBB41_13
	movq $0, 48(%rsp)
	movl $1, 56(%rsp)
	movq $0, 64(%rsp)
	movl $1, %esi
	xorl %r12d, %r12d
	movq %r13, 72(%rsp)
	.p2align 4
.LBB41_6:
	leaq 80(%rsp), %rcx
	leaq 48(%rsp), %rdx
	callq ring.pbkdf2.rounds.rounds_from
	movl $1, %edi
	leal -2(%r13), %ecx
	cmpl $3, %ecx
	jb .LBB41_10
	testl %r13d, %r13d
	je .LBB41_9
	movzbl yz_instructions(%rip), %ecx
	testb %cl, %cl
	jne .LBB41_10
.LBB41_9:
	xorl %ecx, %ecx
	cmpl $4, %eax
	setae %cl
	leaq (%rcx,%rcx,2), %rdi
	incq %rdi
.LBB41_10:
	xorl %r15d, %r15d
	movl $512, %r8d
	leaq 1888(%rsp), %rcx
	xorl %edx, %edx
	callq memset
	movl $1, 160(%rsp)
	xorps %xmm0, %xmm0
	leaq 164(%rsp), %rax
	movups %xmm0, (%rax)
	movups %xmm0, 16(%rax)
	movups %xmm0, 32(%rax)
	movups %xmm0, 48(%rax)
	movl $0, 64(%rax)
	movl $1, 232(%rsp)
	movups %xmm0, 120(%rax)
	movups %xmm0, 104(%rax)
	movups %xmm0, 88(%rax)
	movups %xmm0, 72(%rax)
	movl $0, 136(%rax)
	movl $1, 304(%rsp)
	movups %xmm0, 192(%rax)
	movups %xmm0, 176(%rax)
	movups %xmm0, 160(%rax)
	movups %xmm0, 144(%rax)
	movl $0, 208(%rax)
	movl $1, 376(%rsp)
	movups %xmm0, 264(%rax)
	movups %xmm0, 248(%rax)
	movups %xmm0, 232(%rax)
	movups %xmm0, 216(%rax)
	movl $0, 280(%rax)
	movl $1, 448(%rsp)
	movups %xmm0, 336(%rax)
	movups %xmm0, 320(%rax)
	movups %xmm0, 304(%rax)
	movups %xmm0, 288(%rax)
	movl $0, 352(%rax)
	movl $1, 520(%rsp)
	movups %xmm0, 408(%rax)
	movups %xmm0, 392(%rax)
	movups %xmm0, 376(%rax)
	movups %xmm0, 360(%rax)
	movl $0, 424(%rax)
	movl $1, 592(%rsp)
	movups %xmm0, 480(%rax)
	movups %xmm0, 464(%rax)
	movups %xmm0, 448(%rax)
	movups %xmm0, 432(%rax)
	movl $0, 496(%rax)
	movl $1, 664(%rsp)
	movups %xmm0, 552(%rax)
	movups %xmm0, 536(%rax)
	movups %xmm0, 520(%rax)
	movups %xmm0, 504(%rax)
	movl $0, 568(%rax)
	movl $1, 736(%rsp)
	movups %xmm0, 624(%rax)
	movups %xmm0, 608(%rax)
	movups %xmm0, 592(%rax)
	movups %xmm0, 576(%rax)
	movl $0, 640(%rax)
	movl $1, 808(%rsp)
	movups %xmm0, 696(%rax)
	movups %xmm0, 680(%rax)
	movups %xmm0, 664(%rax)
	movups %xmm0, 648(%rax)
	movl $0, 712(%rax)
	movl $1, 880(%rsp)
	movups %xmm0, 768(%rax)
	movups %xmm0, 752(%rax)
	movups %xmm0, 736(%rax)
	movups %xmm0, 720(%rax)
	movl $0, 784(%rax)
	movl $1, 952(%rsp)
	movups %xmm0, 840(%rax)
	movups %xmm0, 824(%rax)
	movups %xmm0, 808(%rax)
	movups %xmm0, 792(%rax)
	movl $0, 856(%rax)
	movl $1, 1024(%rsp)
	movups %xmm0, 912(%rax)
	movups %xmm0, 896(%rax)
	movups %xmm0, 880(%rax)
	movups %xmm0, 864(%rax)
	movl $0, 928(%rax)
	movl $1, 1096(%rsp)
	movups %xmm0, 984(%rax)
	movups %xmm0, 968(%rax)
	movups %xmm0, 952(%rax)
	movups %xmm0, 936(%rax)
	movl $0, 1000(%rax)
	movl $1, 1168(%rsp)
	movups %xmm0, 1056(%rax)
	movups %xmm0, 1040(%rax)
	movups %xmm0, 1024(%rax)
	movups %xmm0, 1008(%rax)
	movl $0, 1072(%rax)
	movl $1, 1240(%rsp)
	movups %xmm0, 1128(%rax)
	movups %xmm0, 1112(%rax)
	movups %xmm0, 1096(%rax)
	movups %xmm0, 1080(%rax)
	movl $0, 1144(%rax)
	movl $1, 1312(%rsp)
	movups %xmm0, 1200(%rax)
	movups %xmm0, 1184(%rax)
	movups %xmm0, 1168(%rax)
	movups %xmm0, 1152(%rax)
	movl $0, 1216(%rax)
	movl $1, 1384(%rsp)
	movups %xmm0, 1272(%rax)
	movups %xmm0, 1256(%rax)
	movups %xmm0, 1240(%rax)
	movups %xmm0, 1224(%rax)
	movl $0, 1288(%rax)
	movl $1, 1456(%rsp)
	movups %xmm0, 1344(%rax)
	movups %xmm0, 1328(%rax)
	movups %xmm0, 1312(%rax)
	movups %xmm0, 1296(%rax)
	movl $0, 1360(%rax)
	movl $1, 1528(%rsp)
	movups %xmm0, 1416(%rax)
	movups %xmm0, 1400(%rax)
	movups %xmm0, 1384(%rax)
	movups %xmm0, 1368(%rax)
	movl $0, 1432(%rax)
	movl $1, 1600(%rsp)
	movups %xmm0, 1488(%rax)
	movups %xmm0, 1472(%rax)
	movups %xmm0, 1456(%rax)
	movups %xmm0, 1440(%rax)
	movl $0, 1504(%rax)
	movl $1, 1672(%rsp)
	movups %xmm0, 1560(%rax)
	movups %xmm0, 1544(%rax)
	movups %xmm0, 1528(%rax)
	movups %xmm0, 1512(%rax)
	movl $0, 1576(%rax)
	movl $1, 1744(%rsp)
	movups %xmm0, 1632(%rax)
	movups %xmm0, 1616(%rax)
	movups %xmm0, 1600(%rax)
	movups %xmm0, 1584(%rax)
	movl $0, 1648(%rax)
	movl $1, 1816(%rsp)
	movups %xmm0, 1704(%rax)
	movups %xmm0, 1688(%rax)
	movups %xmm0, 1672(%rax)
	movups %xmm0, 1656(%rax)
	movl $0, 1720(%rax)
	movq 2928(%rsp), %rbp
	movq %rbp, 32(%rsp)
	leaq 80(%rsp), %rbx
	leaq 48(%rsp), %rdx
	leaq 160(%rsp), %r14
	movq %rbx, %rcx
	movq %rdi, %r8
	movq %r14, %r9
	callq ring.pbkdf2.rounds.set_starts
	movq %rbp, 32(%rsp)
	movq %rbx, %rcx
	movq %r14, %rdx
	leaq 1888(%rsp), %rbx
	movq %rbx, %r8
	movq %rdi, %r9
	callq ring.pbkdf2.rounds.write_rounds.128
	leaq .Lswitch.table.v2_yz_webhook_verify_stripe(%rip), %rax
	movq (%rax,%r13,8), %r14
	movq (%rax,%r13,8), %rbp
	movq 2920(%rsp), %r13
	.p2align 4
.LBB41_11:
	movq %r12, %rcx
	movq %r13, %r8
	subq %r12, %r8
	leaq (%r12,%rbp), %rax
	cmpq %r8, %rbp
	sbbq $-1, %r15
	xorl %r12d, %r12d
	cmpq %r8, %rbp
	cmovbq %rax, %r12
	movl %esi, %eax
	incl %eax
	cmpq %r8, %rbp
	movl $1, %esi
	cmovbl %eax, %esi
	cmpq %r14, %r8
	cmovaeq %r14, %r8
	addq 2912(%rsp), %rcx
	movq %rbx, %rdx
	callq memcpy
	addq $64, %rbx
	decq %rdi
	jne .LBB41_11
	movq %r15, 48(%rsp)
	movl %esi, 56(%rsp)
	movl $0, 60(%rsp)
	movq %r12, 64(%rsp)
	testq %r15, %r15
	movq 72(%rsp), %r13
	je .LBB41_6
.LBB41_13:
	xorl %eax, %eax
.LBB41_14:
	addq $2792, %rsp
	popq %rbx
	popq %rbp
	popq %rdi
	popq %rsi
	popq %r12
	popq %r13
	popq %r14
	popq %r15
	retq
.LBB41_15:
	ud2
	.seh_endproc
	.p2align 4
ring.pbkdf2.rounds.rounds_from:
.seh_proc ring.pbkdf2.rounds.rounds_from
	pushq %rsi
	.seh_pushreg %rsi
	pushq %rdi
	.seh_pushreg %rdi
	pushq %rbx
	.seh_pushreg %rbx
	.seh_endprologue
	movq (%rdx), %r8
	movq 16(%rcx), %r9
	cmpq %r9, %r8
	jae .LBB42_8
	movq 16(%rdx), %r11
	movzbl (%rcx), %edx
	leaq .Lswitch.table.v2_yz_webhook_verify_stripe(%rip), %r10
	movq (%r10,%rdx,8), %rdi
	movq 48(%rcx), %rcx
	movq %rcx, %rbx
	subq %r11, %rbx
	cmpq %rbx, %rdi
	sbbq $-1, %r8
	movl $1, %eax
	cmpq %r9, %r8
	jae .LBB42_9
	addq %rdi, %r11
	xorl %esi, %esi
	cmpq %rbx, %rdi
	cmovbq %r11, %rsi
	movq (%r10,%rdx,8), %rdi
	movq %rcx, %rbx
	subq %rsi, %rbx
	cmpq %rbx, %rdi
	sbbq $-1, %r8
	movl $2, %eax
	cmpq %r9, %r8
	jae .LBB42_9
	addq %rdi, %rsi
	xorl %r11d, %r11d
	cmpq %rbx, %rdi
	cmovbq %rsi, %r11
	movq (%r10,%rdx,8), %rdi
	movq %rcx, %rbx
	subq %r11, %rbx
	cmpq %rbx, %rdi
	sbbq $-1, %r8
	movl $3, %eax
	cmpq %r9, %r8
	jae .LBB42_9
	addq %rdi, %r11
	xorl %esi, %esi
	cmpq %rbx, %rdi
	cmovbq %r11, %rsi
	movq (%r10,%rdx,8), %r11
	movq %rcx, %rbx
	subq %rsi, %rbx
	cmpq %rbx, %r11
	sbbq $-1, %r8
	movl $4, %eax
	cmpq %r9, %r8
	jae .LBB42_9
	addq %r11, %rsi
	xorl %edi, %edi
	cmpq %rbx, %r11
	cmovbq %rsi, %rdi
	movq (%r10,%rdx,8), %rsi
	movq %rcx, %rbx
	subq %rdi, %rbx
	cmpq %rbx, %rsi
	sbbq $-1, %r8
	movl $5, %eax
	cmpq %r9, %r8
	jae .LBB42_9
	addq %rsi, %rdi
	xorl %r11d, %r11d
	cmpq %rbx, %rsi
	cmovbq %rdi, %r11
	movq (%r10,%rdx,8), %rsi
	movq %rcx, %rdi
	subq %r11, %rdi
	cmpq %rdi, %rsi
	sbbq $-1, %r8
	movl $6, %eax
	cmpq %r9, %r8
	jae .LBB42_9
	addq %rsi, %r11
	xorl %eax, %eax
	cmpq %rdi, %rsi
	cmovaeq %rax, %r11
	subq %r11, %rcx
	cmpq %rcx, (%r10,%rdx,8)
	sbbq $-1, %r8
	cmpq %r9, %r8
	adcq $7, %rax
	popq %rbx
	popq %rdi
	popq %rsi
	retq
.LBB42_8:
	xorl %eax, %eax
.LBB42_9:
	popq %rbx
	popq %rdi
	popq %rsi
	retq
	.seh_endproc
	.p2align 4
ring.pbkdf2.rounds.set_starts:
.seh_proc ring.pbkdf2.rounds.set_starts
	pushq %r15
	.seh_pushreg %r15
	pushq %r14
	.seh_pushreg %r14
	pushq %r13
	.seh_pushreg %r13
	pushq %r12
	.seh_pushreg %r12
	pushq %rsi
	.seh_pushreg %rsi
	pushq %rdi
	.seh_pushreg %rdi
	pushq %rbp
	.seh_pushreg %rbp
	pushq %rbx
	.seh_pushreg %rbx
	subq $760, %rsp
	.seh_stackalloc 760
	movaps %xmm6, 736(%rsp)
	.seh_savexmm %xmm6, 736
	.seh_endprologue
	movq %r9, %rsi
	movq %rcx, 144(%rsp)
	movq (%rdx), %r12
	movl 8(%rdx), %ebp
	movq 16(%rdx), %r13
	leaq 516(%rsp), %r14
	shlq $3, %r8
	leaq (%r8,%r8,8), %rax
	movq %rax, 152(%rsp)
	addq $1156, %rsi
	xorl %edi, %edi
	.p2align 4
.LBB43_1:
	leaq (%r12,%r12,2), %rax
	shlq $6, %rax
	movq %r12, %r8
	shlq $4, %r8
	movq 144(%rsp), %rdx
	movq 8(%rdx), %rcx
	movq 24(%rdx), %r9
	movq (%r9,%r8), %rdx
	movq 8(%r9,%r8), %r8
	movl %ebp, %r9d
	bswapl %r9d
	movl %r9d, 60(%rsp)
	movzbl 16(%rcx,%rax), %r9d
	movl 84(%rcx,%rax), %r10d
	movl %r10d, 128(%rsp)
	movups 20(%rcx,%rax), %xmm0
	movups 36(%rcx,%rax), %xmm1
	movups 52(%rcx,%rax), %xmm2
	movups 68(%rcx,%rax), %xmm3
	movaps %xmm3, 112(%rsp)
	movaps %xmm2, 96(%rsp)
	movaps %xmm1, 80(%rsp)
	movaps %xmm0, 64(%rsp)
	movl %r9d, -1156(%rsi,%rdi)
	movaps 64(%rsp), %xmm0
	movaps 80(%rsp), %xmm1
	movaps 96(%rsp), %xmm2
	movaps 112(%rsp), %xmm3
	movups %xmm0, -1152(%rsi,%rdi)
	movups %xmm1, -1136(%rsi,%rdi)
	movups %xmm2, -1120(%rsi,%rdi)
	movups %xmm3, -1104(%rsi,%rdi)
	movl 128(%rsp), %r9d
	movl %r9d, -1088(%rsi,%rdi)
	movzbl 112(%rcx,%rax), %r9d
	movl 180(%rcx,%rax), %r10d
	movl %r10d, 128(%rsp)
	movups 116(%rcx,%rax), %xmm0
	movups 132(%rcx,%rax), %xmm1
	movups 148(%rcx,%rax), %xmm2
	movups 164(%rcx,%rax), %xmm3
	movaps %xmm3, 112(%rsp)
	movaps %xmm2, 96(%rsp)
	movaps %xmm1, 80(%rsp)
	movaps %xmm0, 64(%rsp)
	movl %r9d, -580(%rsi,%rdi)
	movaps 64(%rsp), %xmm0
	movaps 80(%rsp), %xmm1
	movaps 96(%rsp), %xmm2
	movaps 112(%rsp), %xmm3
	movups %xmm0, -576(%rsi,%rdi)
	movups %xmm1, -560(%rsi,%rdi)
	movups %xmm2, -544(%rsi,%rdi)
	movups %xmm3, -528(%rsi,%rdi)
	movl 128(%rsp), %r9d
	movl %r9d, -512(%rsi,%rdi)
	movzbl 16(%rcx,%rax), %r9d
	movl 84(%rcx,%rax), %r10d
	movl %r10d, 64(%r14)
	movups 20(%rcx,%rax), %xmm0
	movups 36(%rcx,%rax), %xmm1
	movups 52(%rcx,%rax), %xmm2
	movups 68(%rcx,%rax), %xmm3
	movups %xmm3, 48(%r14)
	movups %xmm2, 32(%r14)
	movups %xmm1, 16(%r14)
	movups %xmm0, (%r14)
	movq (%rcx,%rax), %r10
	movq 8(%rcx,%rax), %r11
	movzbl 88(%rcx,%rax), %eax
	movq %r10, 496(%rsp)
	movq %r11, 504(%rsp)
	movl %r9d, 512(%rsp)
	movb %al, 584(%rsp)
	xorps %xmm6, %xmm6
	movups %xmm6, 197(%r14)
	movups %xmm6, 181(%r14)
	movups %xmm6, 165(%r14)
	movups %xmm6, 149(%r14)
	movups %xmm6, 133(%r14)
	movups %xmm6, 117(%r14)
	movups %xmm6, 101(%r14)
	movups %xmm6, 85(%r14)
	movups %xmm6, 69(%r14)
	movq $0, 212(%r14)
	leaq 496(%rsp), %r15
	movq %r15, %rcx
	movq 864(%rsp), %rbx
	movq %rbx, %r9
	callq ring.digest.context.Context.update_counted
	leaq 60(%rsp), %rdx
	movl $4, %r8d
	movq %r15, %rcx
	movq %rbx, %r9
	callq ring.digest.context.Context.update_counted
	movq 504(%rsp), %rax
	movq 720(%rsp), %r8
	movq 496(%rsp), %r9
	addq %r8, %r9
	adcq $0, %rax
	movq $-1, %rcx
	cmovbq %rcx, %rax
	cmovbq %rcx, %r9
	movaps %xmm6, 160(%rsp)
	movaps %xmm6, 176(%rsp)
	movaps %xmm6, 192(%rsp)
	movaps %xmm6, 208(%rsp)
	movaps %xmm6, 224(%rsp)
	movaps %xmm6, 240(%rsp)
	movaps %xmm6, 256(%rsp)
	movaps %xmm6, 272(%rsp)
	movaps %xmm6, 288(%rsp)
	movaps %xmm6, 304(%rsp)
	movaps %xmm6, 320(%rsp)
	movaps %xmm6, 336(%rsp)
	movaps %xmm6, 352(%rsp)
	movaps %xmm6, 368(%rsp)
	movaps %xmm6, 384(%rsp)
	movaps %xmm6, 400(%rsp)
	movzbl 584(%rsp), %ecx
	leaq 160(%rsp), %rbx
	movq %rbx, 40(%rsp)
	movq %rax, 32(%rsp)
	leaq 592(%rsp), %rdx
	callq ring.digest.block_context.write_tail
	movzbl 512(%rsp), %ecx
	movl 64(%r14), %edx
	leaq 428(%rsp), %r15
	movl %edx, 64(%r15)
	movups (%r14), %xmm0
	movups 16(%r14), %xmm1
	movups 32(%r14), %xmm2
	movups 48(%r14), %xmm3
	movups %xmm3, 48(%r15)
	movups %xmm2, 32(%r15)
	movups %xmm1, 16(%r15)
	movups %xmm0, (%r15)
	movl %ecx, 424(%rsp)
	movzbl 584(%rsp), %ecx
	movq 864(%rsp), %rdx
	movq %rdx, 32(%rsp)
	leaq 424(%rsp), %rdx
	movq %rbx, %r8
	movq %rax, %r9
	callq ring.digest.block_context.run_blocks
	movzbl 424(%rsp), %eax
	movups (%r15), %xmm0
	movups 16(%r15), %xmm1
	movups 32(%r15), %xmm2
	movups 48(%r15), %xmm3
	movaps %xmm0, 64(%rsp)
	movaps %xmm1, 80(%rsp)
	movaps %xmm2, 96(%rsp)
	movaps %xmm3, 112(%rsp)
	movl 64(%r15), %ecx
	movl %ecx, 128(%rsp)
	movl %eax, -4(%rsi,%rdi)
	movaps 64(%rsp), %xmm0
	movaps 80(%rsp), %xmm1
	movaps 96(%rsp), %xmm2
	movaps 112(%rsp), %xmm3
	movups %xmm0, (%rsi,%rdi)
	movups %xmm1, 16(%rsi,%rdi)
	movups %xmm2, 32(%rsi,%rdi)
	movups %xmm3, 48(%rsi,%rdi)
	movl 128(%rsp), %eax
	movl %eax, 64(%rsi,%rdi)
	movq 144(%rsp), %rdx
	movzbl (%rdx), %eax
	leaq .Lswitch.table.v2_yz_webhook_verify_stripe(%rip), %rcx
	movq (%rcx,%rax,8), %rax
	movq 48(%rdx), %rcx
	subq %r13, %rcx
	addq %rax, %r13
	cmpq %rcx, %rax
	sbbq $-1, %r12
	xorl %edx, %edx
	cmpq %rcx, %rax
	cmovaeq %rdx, %r13
	incl %ebp
	cmpq %rcx, %rax
	movl $1, %eax
	cmovael %eax, %ebp
	addq $72, %rdi
	cmpq %rdi, 152(%rsp)
	jne .LBB43_1
	movaps 736(%rsp), %xmm6
	addq $760, %rsp
	popq %rbx
	popq %rbp
	popq %rdi
	popq %rsi
	popq %r12
	popq %r13
	popq %r14
	popq %r15
	retq
	.seh_endproc
	.p2align 4
ring.pbkdf2.rounds.write_rounds.128:
.seh_proc ring.pbkdf2.rounds.write_rounds.128
	subq $40, %rsp
	.seh_stackalloc 40
	.seh_endprologue
	movq 80(%rsp), %rax
	movzbl (%rcx), %r10d
	leaq .LJTI44_0(%rip), %r11
	movslq (%r11,%r10,4), %r10
	addq %r11, %r10
	jmpq *%r10
.LBB44_1:
	cmpq $4, %r9
	jne .LBB44_17
	movq %rax, %r9
	callq ring.pbkdf2.rounds.xor_iterates.16ac977ec51d9eb8
	nop
	addq $40, %rsp
	retq
.LBB44_3:
	cmpq $4, %r9
	jne .LBB44_11
	movq %rax, 32(%rsp)
	movl $4, %r9d
	callq ring.pbkdf2.rounds.xor_iterates.198a8405ffd9f092
	nop
	addq $40, %rsp
	retq
.LBB44_5:
	cmpq $4, %r9
	jne .LBB44_13
	movq %rax, 32(%rsp)
	movl $4, %r9d
	callq ring.pbkdf2.rounds.xor_iterates.1781a4570e9cf8d4
	nop
	addq $40, %rsp
	retq
.LBB44_7:
	cmpq $4, %r9
	jne .LBB44_15
	movq %rax, 32(%rsp)
	movl $4, %r9d
	callq ring.pbkdf2.rounds.xor_iterates.a07252785532c1ed
	nop
	addq $40, %rsp
	retq
.LBB44_9:
	cmpq $4, %r9
	jne .LBB44_18
	movq %rax, %r9
	callq ring.pbkdf2.rounds.xor_iterates.30ff0c2b65f6b8fe
	nop
	addq $40, %rsp
	retq
.LBB44_11:
	movq %rax, 32(%rsp)
	callq ring.pbkdf2.rounds.xor_iterates.198a8405ffd9f092
	nop
	addq $40, %rsp
	retq
.LBB44_13:
	movq %rax, 32(%rsp)
	callq ring.pbkdf2.rounds.xor_iterates.1781a4570e9cf8d4
	nop
	addq $40, %rsp
	retq
.LBB44_15:
	movq %rax, 32(%rsp)
	callq ring.pbkdf2.rounds.xor_iterates.a07252785532c1ed
	nop
	addq $40, %rsp
	retq
.LBB44_17:
	movq %rax, 32(%rsp)
	callq ring.pbkdf2.rounds.xor_iterates.524f7a1c66a8a9c8
	nop
	addq $40, %rsp
	retq
.LBB44_18:
	movq %rax, 32(%rsp)
	callq ring.pbkdf2.rounds.xor_iterates.bde0e74171f856d8
	nop
	addq $40, %rsp
	retq
	.section .rdata,"dr"
	.p2align 2, 0x0
.LJTI44_0:
	.long .LBB44_1-.LJTI44_0
	.long .LBB44_9-.LJTI44_0
	.long .LBB44_5-.LJTI44_0
	.long .LBB44_7-.LJTI44_0
	.long .LBB44_3-.LJTI44_0
	.text
	.seh_endproc
	.section .rdata,"dr"
	.p2align 4, 0x0
.LCPI45_0:
	.byte 128
	.byte 128
	.byte 128
	.byte 128
	.byte 128
	.byte 128
	.byte 128
	.byte 128
	.byte 128
	.byte 128
	.byte 128
	.byte 128
	.byte 3
	.byte 2
	.byte 1
	.byte 0
.LCPI45_1:
	.byte 3
	.byte 2
	.byte 1
	.byte 0
	.byte 7
	.byte 6
	.byte 5
	.byte 4
	.byte 11
	.byte 10
	.byte 9
	.byte 8
	.byte 128
	.byte 128
	.byte 128
	.byte 128
.LCPI45_2:
	.byte 128
	.byte 128
	.byte 128
	.byte 128
	.byte 128
	.byte 128
	.byte 128
	.byte 128
	.byte 128
	.byte 128
	.byte 128
	.byte 128
	.byte 7
	.byte 6
	.byte 5
	.byte 4
.LCPI45_3:
	.byte 128
	.byte 128
	.byte 128
	.byte 128
	.byte 128
	.byte 128
	.byte 128
	.byte 128
	.byte 128
	.byte 128
	.byte 128
	.byte 128
	.byte 11
	.byte 10
	.byte 9
	.byte 8
.LCPI45_4:
	.byte 7
	.byte 6
	.byte 5
	.byte 4
	.byte 11
	.byte 10
	.byte 9
	.byte 8
	.byte 15
	.byte 14
	.byte 13
	.byte 12
	.byte 3
	.byte 2
	.byte 1
	.byte 0
	.text
	.p2align 4
ring.pbkdf2.rounds.xor_iterates.16ac977ec51d9eb8:
.seh_proc ring.pbkdf2.rounds.xor_iterates.16ac977ec51d9eb8
	pushq %r15
	.seh_pushreg %r15
	pushq %r14
	.seh_pushreg %r14
	pushq %rsi
	.seh_pushreg %rsi
	pushq %rdi
	.seh_pushreg %rdi
	pushq %rbp
	.seh_pushreg %rbp
	pushq %rbx
	.seh_pushreg %rbx
	subq $824, %rsp
	.seh_stackalloc 824
	movaps %xmm14, 800(%rsp)
	.seh_savexmm %xmm14, 800
	movaps %xmm13, 784(%rsp)
	.seh_savexmm %xmm13, 784
	movaps %xmm12, 768(%rsp)
	.seh_savexmm %xmm12, 768
	movaps %xmm11, 752(%rsp)
	.seh_savexmm %xmm11, 752
	movaps %xmm10, 736(%rsp)
	.seh_savexmm %xmm10, 736
	movaps %xmm9, 720(%rsp)
	.seh_savexmm %xmm9, 720
	movaps %xmm8, 704(%rsp)
	.seh_savexmm %xmm8, 704
	movaps %xmm7, 688(%rsp)
	.seh_savexmm %xmm7, 688
	movaps %xmm6, 672(%rsp)
	.seh_savexmm %xmm6, 672
	.seh_endprologue
	movq %r9, %rdi
	movq %r8, %rsi
	movq %rdx, %r14
	movq %rcx, %rbx
	xorps %xmm6, %xmm6
	movaps %xmm6, 272(%rsp)
	movaps %xmm6, 256(%rsp)
	movaps %xmm6, 240(%rsp)
	movaps %xmm6, 224(%rsp)
	movaps %xmm6, 208(%rsp)
	movaps %xmm6, 192(%rsp)
	movaps %xmm6, 176(%rsp)
	movaps %xmm6, 160(%rsp)
	leaq 160(%rsp), %rcx
	callq ring.digest.lanes.algorithms.InVectorLaneStates.new.1dec229e782056ab
	leaq 576(%r14), %rdx
	movaps %xmm6, 144(%rsp)
	movaps %xmm6, 128(%rsp)
	movaps %xmm6, 112(%rsp)
	movaps %xmm6, 96(%rsp)
	movaps %xmm6, 80(%rsp)
	movaps %xmm6, 64(%rsp)
	movaps %xmm6, 48(%rsp)
	movaps %xmm6, 32(%rsp)
	leaq 32(%rsp), %rcx
	callq ring.digest.lanes.algorithms.InVectorLaneStates.new.1dec229e782056ab
	movaps 272(%rsp), %xmm0
	movaps %xmm0, 656(%rsp)
	movaps 256(%rsp), %xmm0
	movaps %xmm0, 640(%rsp)
	movaps 240(%rsp), %xmm0
	movaps %xmm0, 624(%rsp)
	movaps 224(%rsp), %xmm0
	movaps %xmm0, 608(%rsp)
	movaps 160(%rsp), %xmm0
	movaps 176(%rsp), %xmm1
	movaps 192(%rsp), %xmm2
	movaps 208(%rsp), %xmm3
	movaps %xmm3, 592(%rsp)
	movaps %xmm2, 576(%rsp)
	movaps %xmm1, 560(%rsp)
	movaps %xmm0, 544(%rsp)
	movaps 32(%rsp), %xmm0
	movaps 48(%rsp), %xmm1
	movaps 64(%rsp), %xmm2
	movaps 80(%rsp), %xmm3
	movaps %xmm0, 416(%rsp)
	movaps %xmm1, 432(%rsp)
	movaps %xmm2, 448(%rsp)
	movaps %xmm3, 464(%rsp)
	movaps 96(%rsp), %xmm0
	movaps %xmm0, 480(%rsp)
	movaps 112(%rsp), %xmm0
	movaps %xmm0, 496(%rsp)
	movaps 128(%rsp), %xmm0
	movaps %xmm0, 512(%rsp)
	movaps 144(%rsp), %xmm0
	movaps %xmm0, 528(%rsp)
	addq $1152, %r14
	movaps %xmm6, 32(%rsp)
	movaps %xmm6, 48(%rsp)
	movaps %xmm6, 64(%rsp)
	movaps %xmm6, 80(%rsp)
	movaps %xmm6, 96(%rsp)
	movaps %xmm6, 112(%rsp)
	movaps %xmm6, 128(%rsp)
	movaps %xmm6, 144(%rsp)
	leaq 32(%rsp), %r15
	movq %r15, %rcx
	movq %r14, %rdx
	callq ring.digest.lanes.algorithms.InVectorLaneStates.new.1dec229e782056ab
	movaps 528(%rsp), %xmm0
	movaps %xmm0, 272(%rsp)
	movaps 512(%rsp), %xmm0
	movaps %xmm0, 256(%rsp)
	movaps 496(%rsp), %xmm0
	movaps %xmm0, 240(%rsp)
	movaps 480(%rsp), %xmm0
	movaps %xmm0, 224(%rsp)
	movaps 416(%rsp), %xmm0
	movaps 432(%rsp), %xmm1
	movaps 448(%rsp), %xmm2
	movaps 464(%rsp), %xmm3
	movaps %xmm3, 208(%rsp)
	movaps %xmm2, 192(%rsp)
	movaps %xmm1, 176(%rsp)
	movaps %xmm0, 160(%rsp)
	leaq 160(%rsp), %rcx
	movq %r15, %rdx
	movq %rdi, %r8
	callq ring_core.digest.sha1.lanes.sha1_block_of_words_lanes_counted.05c973651951cdff
	movdqa 160(%rsp), %xmm7
	movdqa 176(%rsp), %xmm14
	movdqa 192(%rsp), %xmm11
	movdqa 208(%rsp), %xmm8
	movdqa 224(%rsp), %xmm13
	movdqa 240(%rsp), %xmm12
	movdqa 256(%rsp), %xmm10
	movdqa 272(%rsp), %xmm9
	movdqa %xmm7, 288(%rsp)
	movdqa %xmm14, 304(%rsp)
	movdqa %xmm11, 320(%rsp)
	movdqa %xmm8, 336(%rsp)
	movdqa %xmm13, 352(%rsp)
	movdqa %xmm12, 368(%rsp)
	movdqa %xmm10, 384(%rsp)
	movdqa %xmm9, 400(%rsp)
	movl 40(%rbx), %ebp
	cmpl $2, %ebp
	jb .LBB45_3
	decl %ebp
	.p2align 4
.LBB45_2:
	movaps 656(%rsp), %xmm0
	movaps %xmm0, 144(%rsp)
	movaps 640(%rsp), %xmm0
	movaps %xmm0, 128(%rsp)
	movaps 624(%rsp), %xmm0
	movaps %xmm0, 112(%rsp)
	movaps 608(%rsp), %xmm0
	movaps %xmm0, 96(%rsp)
	movaps 544(%rsp), %xmm0
	movaps 560(%rsp), %xmm1
	movaps 576(%rsp), %xmm2
	movaps 592(%rsp), %xmm3
	movaps %xmm3, 80(%rsp)
	movaps %xmm2, 64(%rsp)
	movaps %xmm1, 48(%rsp)
	movaps %xmm0, 32(%rsp)
	leaq 32(%rsp), %rbx
	leaq 288(%rsp), %r14
	movq %rbx, %rcx
	movq %r14, %rdx
	movq %rdi, %r8
	callq ring_core.digest.sha1.lanes.sha1_block_of_words_lanes_counted.05c973651951cdff
	movaps 528(%rsp), %xmm0
	movaps %xmm0, 400(%rsp)
	movaps 512(%rsp), %xmm0
	movaps %xmm0, 384(%rsp)
	movaps 496(%rsp), %xmm0
	movaps %xmm0, 368(%rsp)
	movaps 480(%rsp), %xmm0
	movaps %xmm0, 352(%rsp)
	movaps 416(%rsp), %xmm0
	movaps 432(%rsp), %xmm1
	movaps 448(%rsp), %xmm2
	movaps 464(%rsp), %xmm3
	movaps %xmm3, 336(%rsp)
	movaps %xmm2, 320(%rsp)
	movaps %xmm1, 304(%rsp)
	movaps %xmm0, 288(%rsp)
	movq %r14, %rcx
	movq %rbx, %rdx
	movq %rdi, %r8
	callq ring_core.digest.sha1.lanes.sha1_block_of_words_lanes_counted.05c973651951cdff
	pxor 288(%rsp), %xmm7
	pxor 304(%rsp), %xmm14
	pxor 320(%rsp), %xmm11
	pxor 336(%rsp), %xmm8
	pxor 352(%rsp), %xmm13
	pxor 368(%rsp), %xmm12
	pxor 384(%rsp), %xmm10
	pxor 400(%rsp), %xmm9
	decl %ebp
	jne .LBB45_2
.LBB45_3:
	movdqa %xmm7, %xmm1
	punpckldq %xmm14, %xmm1
	punpcklqdq %xmm11, %xmm1
	movdqa %xmm13, %xmm2
	punpckldq %xmm12, %xmm2
	punpcklqdq %xmm10, %xmm2
	movdqa .LCPI45_0(%rip), %xmm3
	movdqa %xmm8, %xmm4
	pshufb %xmm3, %xmm4
	movdqa .LCPI45_1(%rip), %xmm0
	pshufb %xmm0, %xmm1
	por %xmm4, %xmm1
	movdqa %xmm9, %xmm4
	pshufb %xmm3, %xmm4
	pshufb %xmm0, %xmm2
	por %xmm4, %xmm2
	movdqu %xmm2, 16(%rsi)
	movdqu %xmm1, (%rsi)
	movups %xmm6, 48(%rsi)
	movups %xmm6, 32(%rsi)
	pshufd $85, %xmm7, %xmm1
	pblendw $12, %xmm14, %xmm1
	shufps $212, %xmm11, %xmm1
	pshufd $85, %xmm13, %xmm2
	pblendw $12, %xmm12, %xmm2
	shufps $212, %xmm10, %xmm2
	movdqa .LCPI45_2(%rip), %xmm3
	movdqa %xmm8, %xmm4
	pshufb %xmm3, %xmm4
	pshufb %xmm0, %xmm1
	por %xmm4, %xmm1
	movdqa %xmm9, %xmm4
	pshufb %xmm3, %xmm4
	pshufb %xmm0, %xmm2
	por %xmm4, %xmm2
	movdqu %xmm2, 80(%rsi)
	movdqu %xmm1, 64(%rsi)
	movups %xmm6, 112(%rsi)
	movups %xmm6, 96(%rsi)
	punpckhdq %xmm14, %xmm7
	movdqa %xmm7, %xmm1
	pblendw $240, %xmm11, %xmm1
	movdqa %xmm13, %xmm2
	punpckhdq %xmm12, %xmm2
	pblendw $240, %xmm10, %xmm2
	movdqa .LCPI45_3(%rip), %xmm3
	movdqa %xmm8, %xmm4
	pshufb %xmm3, %xmm4
	pshufb %xmm0, %xmm1
	por %xmm4, %xmm1
	movdqa %xmm9, %xmm4
	pshufb %xmm3, %xmm4
	pshufb %xmm0, %xmm2
	por %xmm4, %xmm2
	movdqu %xmm2, 144(%rsi)
	movdqu %xmm1, 128(%rsi)
	movups %xmm6, 176(%rsi)
	movups %xmm6, 160(%rsi)
	shufps $254, %xmm11, %xmm7
	pshufd $255, %xmm13, %xmm0
	pshufd $238, %xmm12, %xmm1
	pblendw $243, %xmm0, %xmm1
	shufps $244, %xmm10, %xmm1
	palignr $12, %xmm9, %xmm1
	movdqa .LCPI45_4(%rip), %xmm0
	pshufb %xmm0, %xmm1
	palignr $12, %xmm8, %xmm7
	pshufb %xmm0, %xmm7
	movdqu %xmm7, 192(%rsi)
	movdqu %xmm1, 208(%rsi)
	movups %xmm6, 240(%rsi)
	movups %xmm6, 224(%rsi)
	movaps 672(%rsp), %xmm6
	movaps 688(%rsp), %xmm7
	movaps 704(%rsp), %xmm8
	movaps 720(%rsp), %xmm9
	movaps 736(%rsp), %xmm10
	movaps 752(%rsp), %xmm11
	movaps 768(%rsp), %xmm12
	movaps 784(%rsp), %xmm13
	movaps 800(%rsp), %xmm14
	addq $824, %rsp
	popq %rbx
	popq %rbp
	popq %rdi
	popq %rsi
	popq %r14
	popq %r15
	retq
	.seh_endproc
	.p2align 4
ring.digest.lanes.algorithms.InVectorLaneStates.new.1dec229e782056ab:
.seh_proc ring.digest.lanes.algorithms.InVectorLaneStates.new.1dec229e782056ab
	subq $40, %rsp
	.seh_stackalloc 40
	movaps %xmm7, 16(%rsp)
	.seh_savexmm %xmm7, 16
	movaps %xmm6, (%rsp)
	.seh_savexmm %xmm6, 0
	.seh_endprologue
	cmpb $1, (%rdx)
	jne .LBB46_5
	cmpb $1, 72(%rdx)
	jne .LBB46_5
	cmpb $1, 144(%rdx)
	jne .LBB46_5
	cmpb $1, 216(%rdx)
	jne .LBB46_5
	movd 32(%rdx), %xmm0
	pinsrd $1, 104(%rdx), %xmm0
	pinsrd $2, 176(%rdx), %xmm0
	pinsrd $3, 248(%rdx), %xmm0
	movd 28(%rdx), %xmm1
	pinsrd $1, 100(%rdx), %xmm1
	pinsrd $2, 172(%rdx), %xmm1
	pinsrd $3, 244(%rdx), %xmm1
	movd 24(%rdx), %xmm2
	pinsrd $1, 96(%rdx), %xmm2
	pinsrd $2, 168(%rdx), %xmm2
	pinsrd $3, 240(%rdx), %xmm2
	movd 20(%rdx), %xmm3
	pinsrd $1, 92(%rdx), %xmm3
	pinsrd $2, 164(%rdx), %xmm3
	pinsrd $3, 236(%rdx), %xmm3
	movd 16(%rdx), %xmm4
	pinsrd $1, 88(%rdx), %xmm4
	pinsrd $2, 160(%rdx), %xmm4
	pinsrd $3, 232(%rdx), %xmm4
	movd 12(%rdx), %xmm5
	pinsrd $1, 84(%rdx), %xmm5
	pinsrd $2, 156(%rdx), %xmm5
	pinsrd $3, 228(%rdx), %xmm5
	movd 8(%rdx), %xmm6
	pinsrd $1, 80(%rdx), %xmm6
	pinsrd $2, 152(%rdx), %xmm6
	pinsrd $3, 224(%rdx), %xmm6
	movd 4(%rdx), %xmm7
	pinsrd $1, 76(%rdx), %xmm7
	pinsrd $2, 148(%rdx), %xmm7
	pinsrd $3, 220(%rdx), %xmm7
	movdqu %xmm7, (%rcx)
	movdqu %xmm6, 16(%rcx)
	movdqu %xmm5, 32(%rcx)
	movdqu %xmm4, 48(%rcx)
	movdqu %xmm3, 64(%rcx)
	movdqu %xmm2, 80(%rcx)
	movdqu %xmm1, 96(%rcx)
	movdqu %xmm0, 112(%rcx)
	movaps (%rsp), %xmm6
	movaps 16(%rsp), %xmm7
	addq $40, %rsp
	retq
.LBB46_5:
	ud2
	.seh_endproc
	.section .rdata,"dr"
	.p2align 4, 0x0
.LCPI47_0:
	.long 1518500249
	.long 1518500249
	.long 1518500249
	.long 1518500249
.LCPI47_1:
	.long 3665983897
	.long 3665983897
	.long 3665983897
	.long 3665983897
.LCPI47_2:
	.long 1518500921
	.long 1518500921
	.long 1518500921
	.long 1518500921
.LCPI47_3:
	.long 672
	.long 672
	.long 672
	.long 672
.LCPI47_4:
	.long 2147483648
	.long 2147483648
	.long 2147483648
	.long 2147483648
.LCPI47_5:
	.long 1859775393
	.long 1859775393
	.long 1859775393
	.long 1859775393
.LCPI47_6:
	.long 2400959708
	.long 2400959708
	.long 2400959708
	.long 2400959708
.LCPI47_7:
	.long 3395469782
	.long 3395469782
	.long 3395469782
	.long 3395469782
	.text
	.p2align 4
ring_core.digest.sha1.lanes.sha1_block_of_words_lanes_counted.05c973651951cdff:
.seh_proc ring_core.digest.sha1.lanes.sha1_block_of_words_lanes_counted.05c973651951cdff
	subq $488, %rsp
	.seh_stackalloc 488
	movaps %xmm15, 464(%rsp)
	.seh_savexmm %xmm15, 464
	movaps %xmm14, 448(%rsp)
	.seh_savexmm %xmm14, 448
	movaps %xmm13, 432(%rsp)
	.seh_savexmm %xmm13, 432
	movaps %xmm12, 416(%rsp)
	.seh_savexmm %xmm12, 416
	movaps %xmm11, 400(%rsp)
	.seh_savexmm %xmm11, 400
	movaps %xmm10, 384(%rsp)
	.seh_savexmm %xmm10, 384
	movaps %xmm9, 368(%rsp)
	.seh_savexmm %xmm9, 368
	movaps %xmm8, 352(%rsp)
	.seh_savexmm %xmm8, 352
	movaps %xmm7, 336(%rsp)
	.seh_savexmm %xmm7, 336
	movaps %xmm6, 320(%rsp)
	.seh_savexmm %xmm6, 320
	.seh_endprologue
	movdqu (%rdx), %xmm14
	movdqu 16(%rdx), %xmm10
	movdqa %xmm10, 208(%rsp)
	movdqu 32(%rdx), %xmm13
	movdqu (%rcx), %xmm9
	movdqu 16(%rcx), %xmm5
	movdqa %xmm5, 288(%rsp)
	movdqu 32(%rcx), %xmm3
	movdqu 48(%rcx), %xmm2
	movdqu 64(%rcx), %xmm1
	movdqa %xmm1, 304(%rsp)
	movdqa %xmm9, %xmm0
	psrld $27, %xmm0
	movdqa %xmm9, %xmm4
	pslld $5, %xmm4
	por %xmm0, %xmm4
	movdqa %xmm5, %xmm0
	pandn %xmm2, %xmm0
	movdqa %xmm2, 272(%rsp)
	movdqa %xmm3, %xmm6
	movdqa %xmm3, %xmm7
	pand %xmm5, %xmm6
	por %xmm0, %xmm6
	movdqa .LCPI47_0(%rip), %xmm3
	movdqa %xmm14, %xmm0
	paddd %xmm1, %xmm0
	paddd %xmm4, %xmm0
	paddd %xmm3, %xmm6
	paddd %xmm0, %xmm6
	movdqa %xmm5, %xmm0
	psrld $2, %xmm0
	movdqa %xmm5, %xmm4
	pslld $30, %xmm4
	por %xmm0, %xmm4
	movdqa %xmm6, %xmm0
	psrld $27, %xmm0
	movdqa %xmm6, %xmm5
	pslld $5, %xmm5
	por %xmm0, %xmm5
	movdqa %xmm4, %xmm0
	pand %xmm9, %xmm0
	movdqa %xmm9, %xmm8
	movdqa %xmm7, %xmm1
	movdqa %xmm7, 240(%rsp)
	pandn %xmm7, %xmm8
	por %xmm0, %xmm8
	movdqa %xmm10, %xmm7
	paddd %xmm2, %xmm7
	paddd %xmm8, %xmm7
	paddd %xmm3, %xmm7
	paddd %xmm5, %xmm7
	movdqa %xmm9, %xmm5
	movdqa %xmm9, 256(%rsp)
	movdqa %xmm9, %xmm0
	psrld $2, %xmm0
	pslld $30, %xmm5
	por %xmm0, %xmm5
	movdqa %xmm7, %xmm0
	psrld $27, %xmm0
	movdqa %xmm7, %xmm9
	pslld $5, %xmm9
	por %xmm0, %xmm9
	movdqa %xmm6, %xmm0
	pandn %xmm4, %xmm0
	movdqa %xmm5, %xmm10
	pand %xmm6, %xmm10
	por %xmm0, %xmm10
	movdqa %xmm13, %xmm8
	paddd %xmm1, %xmm8
	paddd %xmm10, %xmm8
	paddd %xmm3, %xmm8
	paddd %xmm9, %xmm8
	movdqa %xmm6, %xmm0
	psrld $2, %xmm0
	pslld $30, %xmm6
	por %xmm0, %xmm6
	movdqa %xmm8, %xmm0
	psrld $27, %xmm0
	movdqa %xmm8, %xmm9
	pslld $5, %xmm9
	por %xmm0, %xmm9
	movdqa %xmm6, %xmm0
	pand %xmm7, %xmm0
	movdqa %xmm7, %xmm10
	pandn %xmm5, %xmm10
	por %xmm0, %xmm10
	movdqu 48(%rdx), %xmm0
	paddd %xmm0, %xmm4
	paddd %xmm10, %xmm4
	paddd %xmm3, %xmm4
	paddd %xmm9, %xmm4
	movdqa %xmm7, %xmm9
	psrld $2, %xmm9
	pslld $30, %xmm7
	por %xmm9, %xmm7
	movdqa %xmm4, %xmm9
	psrld $27, %xmm9
	movdqa %xmm4, %xmm10
	pslld $5, %xmm10
	por %xmm9, %xmm10
	movdqa %xmm7, %xmm9
	pand %xmm8, %xmm9
	movdqa %xmm8, %xmm11
	pandn %xmm6, %xmm11
	por %xmm9, %xmm11
	movdqu 64(%rdx), %xmm12
	paddd %xmm12, %xmm5
	paddd %xmm11, %xmm5
	paddd %xmm3, %xmm5
	paddd %xmm10, %xmm5
	movdqa %xmm8, %xmm9
	psrld $2, %xmm9
	pslld $30, %xmm8
	por %xmm9, %xmm8
	movdqa %xmm5, %xmm9
	psrld $27, %xmm9
	movdqa %xmm5, %xmm10
	pslld $5, %xmm10
	por %xmm9, %xmm10
	movdqa %xmm8, %xmm11
	pand %xmm4, %xmm11
	movdqa %xmm4, %xmm9
	pandn %xmm7, %xmm9
	por %xmm11, %xmm9
	paddd %xmm6, %xmm9
	paddd %xmm10, %xmm9
	movdqa %xmm4, %xmm6
	psrld $2, %xmm6
	pslld $30, %xmm4
	por %xmm6, %xmm4
	paddd .LCPI47_1(%rip), %xmm9
	movdqa %xmm9, %xmm6
	psrld $27, %xmm6
	movdqa %xmm9, %xmm10
	pslld $5, %xmm10
	por %xmm6, %xmm10
	movdqa %xmm4, %xmm11
	pand %xmm5, %xmm11
	movdqa %xmm5, %xmm6
	pandn %xmm8, %xmm6
	por %xmm11, %xmm6
	paddd %xmm7, %xmm6
	paddd %xmm3, %xmm6
	paddd %xmm10, %xmm6
	movdqa %xmm5, %xmm7
	psrld $2, %xmm7
	pslld $30, %xmm5
	por %xmm7, %xmm5
	movdqa %xmm6, %xmm7
	psrld $27, %xmm7
	movdqa %xmm6, %xmm10
	pslld $5, %xmm10
	por %xmm7, %xmm10
	movdqa %xmm5, %xmm11
	pand %xmm9, %xmm11
	movdqa %xmm9, %xmm7
	pandn %xmm4, %xmm7
	por %xmm11, %xmm7
	paddd %xmm8, %xmm7
	paddd %xmm3, %xmm7
	paddd %xmm10, %xmm7
	movdqa %xmm9, %xmm8
	psrld $2, %xmm8
	pslld $30, %xmm9
	por %xmm8, %xmm9
	movdqa %xmm7, %xmm8
	psrld $27, %xmm8
	movdqa %xmm7, %xmm10
	pslld $5, %xmm10
	por %xmm8, %xmm10
	movdqa %xmm9, %xmm11
	pand %xmm6, %xmm11
	movdqa %xmm6, %xmm8
	pandn %xmm5, %xmm8
	por %xmm11, %xmm8
	paddd %xmm4, %xmm8
	paddd %xmm3, %xmm8
	paddd %xmm10, %xmm8
	movdqa %xmm6, %xmm4
	psrld $2, %xmm4
	pslld $30, %xmm6
	por %xmm4, %xmm6
	movdqa %xmm8, %xmm4
	psrld $27, %xmm4
	movdqa %xmm8, %xmm10
	pslld $5, %xmm10
	por %xmm4, %xmm10
	movdqa %xmm6, %xmm11
	pand %xmm7, %xmm11
	movdqa %xmm7, %xmm4
	pandn %xmm9, %xmm4
	por %xmm11, %xmm4
	paddd %xmm5, %xmm4
	paddd %xmm3, %xmm4
	paddd %xmm10, %xmm4
	movdqa %xmm7, %xmm5
	psrld $2, %xmm5
	pslld $30, %xmm7
	por %xmm5, %xmm7
	movdqa %xmm4, %xmm5
	psrld $27, %xmm5
	movdqa %xmm4, %xmm10
	pslld $5, %xmm10
	por %xmm5, %xmm10
	movdqa %xmm7, %xmm11
	pand %xmm8, %xmm11
	movdqa %xmm8, %xmm5
	pandn %xmm6, %xmm5
	por %xmm11, %xmm5
	paddd %xmm9, %xmm5
	paddd %xmm3, %xmm5
	paddd %xmm10, %xmm5
	movdqa %xmm8, %xmm9
	psrld $2, %xmm9
	pslld $30, %xmm8
	por %xmm9, %xmm8
	movdqa %xmm5, %xmm9
	psrld $27, %xmm9
	movdqa %xmm5, %xmm10
	pslld $5, %xmm10
	por %xmm9, %xmm10
	movdqa %xmm8, %xmm11
	pand %xmm4, %xmm11
	movdqa %xmm4, %xmm1
	pandn %xmm7, %xmm1
	por %xmm11, %xmm1
	paddd %xmm6, %xmm1
	paddd %xmm3, %xmm1
	paddd %xmm10, %xmm1
	movdqa %xmm4, %xmm6
	psrld $2, %xmm6
	pslld $30, %xmm4
	por %xmm6, %xmm4
	movdqa %xmm1, %xmm6
	psrld $27, %xmm6
	movdqa %xmm1, %xmm10
	pslld $5, %xmm10
	por %xmm6, %xmm10
	movdqa %xmm4, %xmm6
	pand %xmm5, %xmm6
	movdqa %xmm5, %xmm2
	pandn %xmm8, %xmm2
	por %xmm6, %xmm2
	paddd %xmm7, %xmm2
	paddd %xmm3, %xmm2
	paddd %xmm10, %xmm2
	movdqa %xmm5, %xmm6
	psrld $2, %xmm6
	pslld $30, %xmm5
	por %xmm6, %xmm5
	movdqa %xmm2, %xmm6
	psrld $27, %xmm6
	movdqa %xmm2, %xmm7
	pslld $5, %xmm7
	por %xmm6, %xmm7
	movdqa %xmm5, %xmm6
	pand %xmm1, %xmm6
	movdqa %xmm1, %xmm10
	pandn %xmm4, %xmm10
	por %xmm6, %xmm10
	paddd %xmm8, %xmm10
	paddd %xmm3, %xmm10
	paddd %xmm7, %xmm10
	movdqa %xmm1, %xmm6
	psrld $2, %xmm6
	pslld $30, %xmm1
	por %xmm6, %xmm1
	movdqa %xmm10, %xmm6
	psrld $27, %xmm6
	movdqa %xmm10, %xmm7
	pslld $5, %xmm7
	por %xmm6, %xmm7
	movdqa %xmm1, %xmm6
	pand %xmm2, %xmm6
	movdqa %xmm2, %xmm15
	pandn %xmm5, %xmm15
	por %xmm6, %xmm15
	paddd %xmm4, %xmm15
	paddd %xmm3, %xmm15
	paddd %xmm7, %xmm15
	movdqa %xmm2, %xmm4
	psrld $2, %xmm4
	pslld $30, %xmm2
	por %xmm4, %xmm2
	movdqa %xmm15, %xmm4
	psrld $27, %xmm4
	movdqa %xmm15, %xmm6
	pslld $5, %xmm6
	por %xmm4, %xmm6
	movdqa %xmm2, %xmm4
	pand %xmm10, %xmm4
	movdqa %xmm10, %xmm11
	pandn %xmm1, %xmm11
	por %xmm4, %xmm11
	paddd %xmm5, %xmm11
	paddd %xmm6, %xmm11
	movdqa %xmm10, %xmm4
	psrld $2, %xmm4
	pslld $30, %xmm10
	por %xmm4, %xmm10
	pxor %xmm13, %xmm14
	movdqa %xmm14, %xmm4
	psrld $31, %xmm4
	paddd %xmm14, %xmm14
	por %xmm4, %xmm14
	movdqa %xmm14, %xmm8
	movdqa 208(%rsp), %xmm14
	pxor %xmm0, %xmm14
	movdqa %xmm14, %xmm4
	psrld $31, %xmm4
	paddd %xmm14, %xmm14
	por %xmm4, %xmm14
	movdqa %xmm10, %xmm4
	pand %xmm15, %xmm4
	movdqa %xmm15, %xmm5
	pandn %xmm2, %xmm5
	por %xmm4, %xmm5
	movdqa %xmm15, %xmm4
	psrld $2, %xmm4
	pslld $30, %xmm15
	por %xmm4, %xmm15
	paddd .LCPI47_2(%rip), %xmm11
	movdqa %xmm15, %xmm4
	pand %xmm11, %xmm4
	movdqa %xmm11, %xmm6
	pandn %xmm10, %xmm6
	por %xmm4, %xmm6
	movdqa %xmm11, %xmm4
	psrld $27, %xmm4
	movdqa %xmm11, %xmm7
	pslld $5, %xmm7
	por %xmm4, %xmm7
	paddd %xmm8, %xmm1
	movdqa %xmm8, 224(%rsp)
	paddd %xmm5, %xmm1
	paddd %xmm3, %xmm1
	paddd %xmm7, %xmm1
	movdqa %xmm1, %xmm4
	psrld $27, %xmm4
	movdqa %xmm1, %xmm5
	pslld $5, %xmm5
	por %xmm4, %xmm5
	paddd %xmm14, %xmm2
	paddd %xmm6, %xmm2
	paddd %xmm3, %xmm2
	paddd %xmm5, %xmm2
	movdqa %xmm11, %xmm4
	psrld $2, %xmm4
	pslld $30, %xmm11
	por %xmm4, %xmm11
	pxor %xmm8, %xmm0
	movdqa .LCPI47_4(%rip), %xmm9
	pxor %xmm0, %xmm9
	movdqa %xmm0, %xmm4
	paddd %xmm4, %xmm4
	movdqa %xmm9, %xmm5
	psrld $31, %xmm5
	por %xmm4, %xmm5
	movdqa %xmm5, %xmm8
	movdqa %xmm5, 32(%rsp)
	movdqa %xmm11, %xmm4
	pand %xmm1, %xmm4
	movdqa %xmm1, %xmm6
	pandn %xmm15, %xmm6
	por %xmm4, %xmm6
	movdqa %xmm1, %xmm4
	psrld $2, %xmm4
	pslld $30, %xmm1
	por %xmm4, %xmm1
	movdqa %xmm1, %xmm4
	pand %xmm2, %xmm4
	movdqa %xmm2, %xmm5
	pandn %xmm11, %xmm5
	por %xmm4, %xmm5
	movdqa %xmm2, %xmm4
	psrld $27, %xmm4
	movdqa %xmm2, %xmm7
	pslld $5, %xmm7
	por %xmm4, %xmm7
	pxor %xmm12, %xmm13
	movdqa %xmm13, %xmm4
	pxor .LCPI47_3(%rip), %xmm4
	psrld $31, %xmm13
	paddd %xmm4, %xmm4
	por %xmm4, %xmm13
	paddd %xmm13, %xmm10
	movdqa %xmm13, 96(%rsp)
	paddd %xmm6, %xmm10
	paddd %xmm3, %xmm10
	paddd %xmm7, %xmm10
	movdqa %xmm10, %xmm6
	psrld $27, %xmm6
	movdqa %xmm10, %xmm7
	pslld $5, %xmm7
	por %xmm6, %xmm7
	paddd %xmm8, %xmm15
	paddd %xmm5, %xmm15
	paddd %xmm3, %xmm15
	paddd %xmm7, %xmm15
	movdqa %xmm2, %xmm3
	psrld $2, %xmm3
	pslld $30, %xmm2
	por %xmm3, %xmm2
	pcmpeqd %xmm5, %xmm5
	pxor %xmm4, %xmm5
	movdqa %xmm13, %xmm3
	paddd %xmm3, %xmm3
	psrld $31, %xmm5
	por %xmm3, %xmm5
	movdqa %xmm5, %xmm8
	movdqa %xmm2, %xmm3
	pxor %xmm1, %xmm3
	pxor %xmm10, %xmm3
	movdqa %xmm10, %xmm4
	psrld $2, %xmm4
	pslld $30, %xmm10
	por %xmm4, %xmm10
	movdqa %xmm15, %xmm4
	psrld $27, %xmm4
	movdqa %xmm15, %xmm5
	pslld $5, %xmm5
	por %xmm4, %xmm5
	movdqa %xmm14, 208(%rsp)
	pxor %xmm14, %xmm12
	movdqa %xmm12, %xmm4
	psrld $31, %xmm4
	paddd %xmm12, %xmm12
	por %xmm12, %xmm4
	paddd %xmm4, %xmm11
	movdqa %xmm4, %xmm7
	paddd %xmm3, %xmm11
	movdqa .LCPI47_5(%rip), %xmm6
	paddd %xmm6, %xmm11
	paddd %xmm5, %xmm11
	movdqa %xmm11, %xmm3
	psrld $27, %xmm3
	movdqa %xmm11, %xmm4
	pslld $5, %xmm4
	por %xmm3, %xmm4
	movdqa %xmm10, %xmm3
	pxor %xmm2, %xmm3
	pxor %xmm15, %xmm3
	paddd %xmm8, %xmm1
	paddd %xmm3, %xmm1
	paddd %xmm6, %xmm1
	paddd %xmm4, %xmm1
	movdqa %xmm15, %xmm3
	psrld $2, %xmm3
	pslld $30, %xmm15
	por %xmm3, %xmm15
	pslld $2, %xmm0
	psrld $30, %xmm9
	por %xmm0, %xmm9
	movdqa %xmm7, %xmm0
	movdqa %xmm7, %xmm13
	movdqa %xmm7, 128(%rsp)
	pxor .LCPI47_3(%rip), %xmm0
	paddd %xmm0, %xmm0
	psrld $31, %xmm12
	por %xmm0, %xmm12
	movdqa %xmm15, %xmm0
	pxor %xmm10, %xmm0
	pxor %xmm11, %xmm0
	movdqa %xmm11, %xmm3
	psrld $2, %xmm3
	pslld $30, %xmm11
	por %xmm3, %xmm11
	movdqa %xmm1, %xmm3
	psrld $27, %xmm3
	movdqa %xmm1, %xmm4
	pslld $5, %xmm4
	por %xmm3, %xmm4
	paddd %xmm9, %xmm2
	movdqa %xmm9, 48(%rsp)
	paddd %xmm0, %xmm2
	paddd %xmm6, %xmm2
	paddd %xmm4, %xmm2
	movdqa %xmm2, %xmm0
	psrld $27, %xmm0
	movdqa %xmm2, %xmm3
	pslld $5, %xmm3
	por %xmm0, %xmm3
	movdqa %xmm11, %xmm0
	pxor %xmm15, %xmm0
	pxor %xmm1, %xmm0
	paddd %xmm12, %xmm10
	movdqa %xmm12, (%rsp)
	paddd %xmm0, %xmm10
	paddd %xmm6, %xmm10
	paddd %xmm3, %xmm10
	movdqa %xmm1, %xmm0
	psrld $2, %xmm0
	pslld $30, %xmm1
	por %xmm0, %xmm1
	movdqa %xmm8, %xmm3
	movdqa %xmm8, %xmm7
	movdqa %xmm8, 16(%rsp)
	pxor 224(%rsp), %xmm3
	movdqa %xmm3, %xmm0
	psrld $31, %xmm0
	paddd %xmm3, %xmm3
	por %xmm0, %xmm3
	movdqa %xmm3, %xmm5
	movdqa %xmm9, %xmm3
	pxor %xmm14, %xmm3
	movdqa %xmm3, %xmm0
	psrld $31, %xmm0
	paddd %xmm3, %xmm3
	por %xmm0, %xmm3
	movdqa %xmm3, %xmm4
	movdqa %xmm1, %xmm0
	pxor %xmm11, %xmm0
	pxor %xmm2, %xmm0
	movdqa %xmm2, %xmm3
	psrld $2, %xmm3
	pslld $30, %xmm2
	por %xmm3, %xmm2
	movdqa %xmm10, %xmm3
	psrld $27, %xmm3
	movdqa %xmm10, %xmm14
	pslld $5, %xmm14
	por %xmm3, %xmm14
	movdqa %xmm5, 144(%rsp)
	paddd %xmm5, %xmm15
	paddd %xmm0, %xmm15
	paddd %xmm6, %xmm15
	paddd %xmm14, %xmm15
	movdqa %xmm15, %xmm0
	psrld $27, %xmm0
	movdqa %xmm15, %xmm3
	pslld $5, %xmm3
	por %xmm0, %xmm3
	movdqa %xmm2, %xmm0
	pxor %xmm1, %xmm0
	pxor %xmm10, %xmm0
	paddd %xmm4, %xmm11
	movdqa %xmm4, %xmm8
	paddd %xmm0, %xmm11
	paddd %xmm6, %xmm11
	paddd %xmm3, %xmm11
	movdqa %xmm10, %xmm0
	psrld $2, %xmm0
	pslld $30, %xmm10
	por %xmm0, %xmm10
	movdqa %xmm12, %xmm3
	pxor 96(%rsp), %xmm3
	movdqa %xmm3, %xmm0
	psrld $31, %xmm0
	paddd %xmm3, %xmm3
	por %xmm0, %xmm3
	movdqa %xmm3, %xmm4
	movdqa %xmm5, %xmm3
	pxor 32(%rsp), %xmm3
	movdqa %xmm3, %xmm0
	psrld $31, %xmm0
	paddd %xmm3, %xmm3
	por %xmm0, %xmm3
	movdqa %xmm10, %xmm0
	pxor %xmm2, %xmm0
	pxor %xmm15, %xmm0
	movdqa %xmm15, %xmm14
	psrld $2, %xmm14
	pslld $30, %xmm15
	por %xmm14, %xmm15
	movdqa %xmm11, %xmm14
	psrld $27, %xmm14
	movdqa %xmm11, %xmm12
	pslld $5, %xmm12
	por %xmm14, %xmm12
	movdqa %xmm4, 160(%rsp)
	paddd %xmm4, %xmm1
	paddd %xmm0, %xmm1
	paddd %xmm6, %xmm1
	paddd %xmm12, %xmm1
	movdqa %xmm1, %xmm0
	psrld $27, %xmm0
	movdqa %xmm1, %xmm12
	pslld $5, %xmm12
	por %xmm0, %xmm12
	movdqa %xmm15, %xmm0
	pxor %xmm10, %xmm0
	pxor %xmm11, %xmm0
	paddd %xmm3, %xmm2
	movdqa %xmm3, %xmm5
	movdqa %xmm3, 64(%rsp)
	paddd %xmm0, %xmm2
	paddd %xmm6, %xmm2
	paddd %xmm12, %xmm2
	movdqa %xmm11, %xmm0
	psrld $2, %xmm0
	pslld $30, %xmm11
	por %xmm0, %xmm11
	movdqa %xmm8, %xmm3
	movdqa %xmm8, 112(%rsp)
	pxor %xmm13, %xmm3
	movdqa %xmm3, %xmm0
	psrld $31, %xmm0
	paddd %xmm3, %xmm3
	por %xmm0, %xmm3
	movdqa %xmm7, %xmm12
	pxor %xmm4, %xmm12
	movdqa %xmm12, %xmm14
	movdqa .LCPI47_3(%rip), %xmm7
	pxor %xmm7, %xmm14
	psrld $31, %xmm12
	paddd %xmm14, %xmm14
	por %xmm12, %xmm14
	movdqa %xmm11, %xmm12
	pxor %xmm15, %xmm12
	pxor %xmm1, %xmm12
	movdqa %xmm1, %xmm9
	psrld $2, %xmm9
	pslld $30, %xmm1
	por %xmm9, %xmm1
	movdqa %xmm2, %xmm9
	psrld $27, %xmm9
	movdqa %xmm2, %xmm13
	pslld $5, %xmm13
	por %xmm9, %xmm13
	paddd %xmm3, %xmm10
	movdqa %xmm3, 192(%rsp)
	paddd %xmm12, %xmm10
	movdqa .LCPI47_5(%rip), %xmm0
	paddd %xmm0, %xmm10
	paddd %xmm13, %xmm10
	movdqa %xmm10, %xmm9
	psrld $27, %xmm9
	movdqa %xmm10, %xmm12
	pslld $5, %xmm12
	por %xmm9, %xmm12
	movdqa %xmm1, %xmm9
	pxor %xmm11, %xmm9
	pxor %xmm2, %xmm9
	paddd %xmm14, %xmm15
	paddd %xmm9, %xmm15
	paddd %xmm0, %xmm15
	paddd %xmm12, %xmm15
	movdqa %xmm2, %xmm9
	psrld $2, %xmm9
	pslld $30, %xmm2
	por %xmm9, %xmm2
	movdqa 48(%rsp), %xmm0
	movdqa 224(%rsp), %xmm4
	pxor %xmm4, %xmm0
	pxor %xmm5, %xmm0
	movdqa %xmm0, %xmm9
	psrld $31, %xmm9
	paddd %xmm0, %xmm0
	por %xmm9, %xmm0
	movdqa 208(%rsp), %xmm6
	movdqa %xmm6, %xmm9
	pxor (%rsp), %xmm9
	pxor %xmm3, %xmm9
	pxor %xmm9, %xmm7
	psrld $31, %xmm9
	paddd %xmm7, %xmm7
	por %xmm9, %xmm7
	movdqa %xmm7, 80(%rsp)
	movdqa %xmm2, %xmm9
	pxor %xmm1, %xmm9
	pxor %xmm10, %xmm9
	movdqa %xmm10, %xmm12
	psrld $2, %xmm12
	pslld $30, %xmm10
	por %xmm12, %xmm10
	movdqa %xmm15, %xmm12
	psrld $27, %xmm12
	movdqa %xmm15, %xmm13
	pslld $5, %xmm13
	por %xmm12, %xmm13
	paddd %xmm0, %xmm11
	movdqa %xmm0, 176(%rsp)
	paddd %xmm9, %xmm11
	movdqa .LCPI47_5(%rip), %xmm3
	paddd %xmm3, %xmm11
	paddd %xmm13, %xmm11
	movdqa %xmm11, %xmm9
	psrld $27, %xmm9
	movdqa %xmm11, %xmm12
	pslld $5, %xmm12
	por %xmm9, %xmm12
	movdqa %xmm10, %xmm9
	pxor %xmm2, %xmm9
	pxor %xmm15, %xmm9
	paddd %xmm7, %xmm1
	paddd %xmm9, %xmm1
	paddd %xmm3, %xmm1
	paddd %xmm12, %xmm1
	movdqa %xmm15, %xmm9
	psrld $2, %xmm9
	pslld $30, %xmm15
	por %xmm9, %xmm15
	movdqa %xmm4, %xmm7
	movdqa 96(%rsp), %xmm5
	pxor %xmm5, %xmm7
	pxor 144(%rsp), %xmm7
	pxor %xmm14, %xmm7
	movdqa %xmm7, %xmm9
	psrld $31, %xmm9
	paddd %xmm7, %xmm7
	por %xmm9, %xmm7
	movdqa 32(%rsp), %xmm4
	pxor %xmm4, %xmm6
	pxor %xmm8, %xmm6
	pxor %xmm0, %xmm6
	movdqa %xmm6, %xmm9
	psrld $31, %xmm9
	paddd %xmm6, %xmm6
	por %xmm9, %xmm6
	movdqa %xmm15, %xmm9
	pxor %xmm10, %xmm9
	pxor %xmm11, %xmm9
	movdqa %xmm11, %xmm12
	psrld $2, %xmm12
	pslld $30, %xmm11
	por %xmm12, %xmm11
	movdqa %xmm1, %xmm12
	psrld $27, %xmm12
	movdqa %xmm1, %xmm13
	pslld $5, %xmm13
	por %xmm12, %xmm13
	paddd %xmm7, %xmm2
	movdqa %xmm7, 224(%rsp)
	paddd %xmm9, %xmm2
	movdqa .LCPI47_5(%rip), %xmm3
	paddd %xmm3, %xmm2
	paddd %xmm13, %xmm2
	movdqa %xmm2, %xmm9
	psrld $27, %xmm9
	movdqa %xmm2, %xmm12
	pslld $5, %xmm12
	por %xmm9, %xmm12
	movdqa %xmm11, %xmm9
	pxor %xmm15, %xmm9
	pxor %xmm1, %xmm9
	paddd %xmm6, %xmm10
	movdqa %xmm6, %xmm8
	movdqa %xmm6, 208(%rsp)
	paddd %xmm9, %xmm10
	paddd %xmm3, %xmm10
	paddd %xmm12, %xmm10
	movdqa %xmm1, %xmm9
	psrld $2, %xmm9
	pslld $30, %xmm1
	por %xmm9, %xmm1
	movdqa 128(%rsp), %xmm6
	pxor %xmm6, %xmm5
	pxor 160(%rsp), %xmm5
	pxor 80(%rsp), %xmm5
	movdqa %xmm5, %xmm9
	psrld $31, %xmm9
	paddd %xmm5, %xmm5
	por %xmm9, %xmm5
	movdqa %xmm5, %xmm3
	movdqa 16(%rsp), %xmm5
	pxor %xmm5, %xmm4
	pxor 64(%rsp), %xmm4
	pxor %xmm7, %xmm4
	movdqa %xmm4, %xmm9
	psrld $31, %xmm9
	paddd %xmm4, %xmm4
	por %xmm9, %xmm4
	movdqa %xmm4, 32(%rsp)
	movdqa %xmm1, %xmm9
	pxor %xmm11, %xmm9
	pxor %xmm2, %xmm9
	movdqa %xmm2, %xmm12
	psrld $2, %xmm12
	pslld $30, %xmm2
	por %xmm12, %xmm2
	movdqa %xmm10, %xmm12
	psrld $27, %xmm12
	movdqa %xmm10, %xmm13
	pslld $5, %xmm13
	por %xmm12, %xmm13
	paddd %xmm3, %xmm15
	movdqa %xmm3, 96(%rsp)
	paddd %xmm9, %xmm15
	movdqa .LCPI47_5(%rip), %xmm0
	paddd %xmm0, %xmm15
	paddd %xmm13, %xmm15
	movdqa %xmm15, %xmm9
	psrld $27, %xmm9
	movdqa %xmm15, %xmm12
	pslld $5, %xmm12
	por %xmm9, %xmm12
	movdqa %xmm2, %xmm9
	pxor %xmm1, %xmm9
	pxor %xmm10, %xmm9
	paddd %xmm4, %xmm11
	paddd %xmm9, %xmm11
	paddd %xmm0, %xmm11
	paddd %xmm12, %xmm11
	movdqa %xmm10, %xmm9
	psrld $2, %xmm9
	pslld $30, %xmm10
	por %xmm9, %xmm10
	pxor 48(%rsp), %xmm6
	pxor 192(%rsp), %xmm6
	pxor %xmm8, %xmm6
	movdqa %xmm6, %xmm9
	psrld $31, %xmm9
	paddd %xmm6, %xmm6
	por %xmm9, %xmm6
	movdqa %xmm5, %xmm8
	movdqa (%rsp), %xmm4
	pxor %xmm4, %xmm8
	pxor %xmm14, %xmm8
	pxor %xmm3, %xmm8
	movdqa %xmm8, %xmm9
	psrld $31, %xmm9
	paddd %xmm8, %xmm8
	por %xmm9, %xmm8
	movdqa %xmm10, %xmm9
	pxor %xmm2, %xmm9
	pxor %xmm15, %xmm9
	movdqa %xmm15, %xmm12
	psrld $2, %xmm12
	pslld $30, %xmm15
	por %xmm12, %xmm15
	movdqa %xmm11, %xmm12
	psrld $27, %xmm12
	movdqa %xmm11, %xmm13
	pslld $5, %xmm13
	por %xmm12, %xmm13
	paddd %xmm6, %xmm1
	movdqa %xmm6, %xmm0
	movdqa %xmm6, 128(%rsp)
	paddd %xmm9, %xmm1
	movdqa .LCPI47_5(%rip), %xmm3
	paddd %xmm3, %xmm1
	paddd %xmm13, %xmm1
	movdqa %xmm1, %xmm9
	psrld $27, %xmm9
	movdqa %xmm1, %xmm12
	pslld $5, %xmm12
	por %xmm9, %xmm12
	movdqa %xmm15, %xmm9
	pxor %xmm10, %xmm9
	pxor %xmm11, %xmm9
	paddd %xmm8, %xmm2
	movdqa %xmm8, %xmm6
	movdqa %xmm8, 16(%rsp)
	paddd %xmm9, %xmm2
	paddd %xmm3, %xmm2
	paddd %xmm12, %xmm2
	movdqa %xmm11, %xmm9
	psrld $2, %xmm9
	pslld $30, %xmm11
	por %xmm9, %xmm11
	movdqa 48(%rsp), %xmm8
	movdqa 144(%rsp), %xmm5
	pxor %xmm5, %xmm8
	pxor 176(%rsp), %xmm8
	pxor 32(%rsp), %xmm8
	movdqa %xmm8, %xmm9
	psrld $31, %xmm9
	paddd %xmm8, %xmm8
	por %xmm9, %xmm8
	movdqa 112(%rsp), %xmm3
	pxor %xmm3, %xmm4
	pxor 80(%rsp), %xmm4
	pxor %xmm0, %xmm4
	movdqa %xmm4, %xmm9
	psrld $31, %xmm9
	paddd %xmm4, %xmm4
	por %xmm9, %xmm4
	movdqa %xmm4, (%rsp)
	movdqa %xmm11, %xmm9
	pxor %xmm15, %xmm9
	pxor %xmm1, %xmm9
	movdqa %xmm1, %xmm12
	psrld $2, %xmm12
	pslld $30, %xmm1
	por %xmm12, %xmm1
	movdqa %xmm2, %xmm12
	psrld $27, %xmm12
	movdqa %xmm2, %xmm13
	pslld $5, %xmm13
	por %xmm12, %xmm13
	paddd %xmm8, %xmm10
	movdqa %xmm8, 48(%rsp)
	paddd %xmm9, %xmm10
	movdqa .LCPI47_5(%rip), %xmm0
	paddd %xmm0, %xmm10
	paddd %xmm13, %xmm10
	movdqa %xmm10, %xmm9
	psrld $27, %xmm9
	movdqa %xmm10, %xmm12
	pslld $5, %xmm12
	por %xmm9, %xmm12
	movdqa %xmm1, %xmm9
	pxor %xmm11, %xmm9
	pxor %xmm2, %xmm9
	paddd %xmm4, %xmm15
	paddd %xmm9, %xmm15
	paddd %xmm0, %xmm15
	paddd %xmm12, %xmm15
	movdqa %xmm2, %xmm9
	psrld $2, %xmm9
	pslld $30, %xmm2
	por %xmm9, %xmm2
	movdqa 160(%rsp), %xmm4
	pxor %xmm4, %xmm5
	pxor 224(%rsp), %xmm5
	pxor %xmm6, %xmm5
	movdqa %xmm5, %xmm9
	psrld $31, %xmm9
	paddd %xmm5, %xmm5
	por %xmm9, %xmm5
	movdqa %xmm3, %xmm6
	movdqa 64(%rsp), %xmm0
	pxor %xmm0, %xmm6
	pxor 208(%rsp), %xmm6
	pxor %xmm8, %xmm6
	movdqa %xmm6, %xmm9
	psrld $31, %xmm9
	paddd %xmm6, %xmm6
	por %xmm9, %xmm6
	movdqa %xmm2, %xmm9
	pxor %xmm1, %xmm9
	movdqa %xmm10, %xmm12
	pand %xmm9, %xmm12
	pandn %xmm2, %xmm9
	por %xmm12, %xmm9
	movdqa %xmm10, %xmm12
	psrld $2, %xmm12
	pslld $30, %xmm10
	por %xmm12, %xmm10
	movdqa %xmm10, %xmm12
	pxor %xmm2, %xmm12
	movdqa %xmm15, %xmm13
	pand %xmm12, %xmm13
	pandn %xmm10, %xmm12
	por %xmm13, %xmm12
	movdqa %xmm15, %xmm13
	psrld $27, %xmm13
	movdqa %xmm15, %xmm8
	pslld $5, %xmm8
	por %xmm13, %xmm8
	movdqa %xmm5, 144(%rsp)
	paddd %xmm5, %xmm11
	paddd %xmm9, %xmm11
	movdqa .LCPI47_6(%rip), %xmm7
	paddd %xmm7, %xmm11
	paddd %xmm8, %xmm11
	movdqa %xmm11, %xmm8
	psrld $27, %xmm8
	movdqa %xmm11, %xmm9
	pslld $5, %xmm9
	por %xmm8, %xmm9
	paddd %xmm6, %xmm1
	movdqa %xmm6, 112(%rsp)
	paddd %xmm12, %xmm1
	paddd %xmm7, %xmm1
	paddd %xmm9, %xmm1
	movdqa %xmm15, %xmm8
	psrld $2, %xmm8
	pslld $30, %xmm15
	por %xmm8, %xmm15
	movdqa 192(%rsp), %xmm3
	pxor %xmm3, %xmm4
	pxor 96(%rsp), %xmm4
	pxor (%rsp), %xmm4
	movdqa %xmm4, %xmm8
	psrld $31, %xmm8
	paddd %xmm4, %xmm4
	por %xmm8, %xmm4
	movdqa %xmm0, %xmm7
	pxor %xmm14, %xmm7
	pxor 32(%rsp), %xmm7
	pxor %xmm5, %xmm7
	movdqa %xmm7, %xmm8
	psrld $31, %xmm8
	paddd %xmm7, %xmm7
	por %xmm8, %xmm7
	movdqa %xmm7, 64(%rsp)
	movdqa %xmm15, %xmm8
	pxor %xmm10, %xmm8
	movdqa %xmm11, %xmm9
	pand %xmm8, %xmm9
	pandn %xmm15, %xmm8
	por %xmm9, %xmm8
	movdqa %xmm11, %xmm9
	psrld $2, %xmm9
	pslld $30, %xmm11
	por %xmm9, %xmm11
	movdqa %xmm11, %xmm9
	pxor %xmm15, %xmm9
	movdqa %xmm1, %xmm12
	pand %xmm9, %xmm12
	pandn %xmm11, %xmm9
	por %xmm12, %xmm9
	movdqa %xmm1, %xmm12
	psrld $27, %xmm12
	movdqa %xmm1, %xmm13
	pslld $5, %xmm13
	por %xmm12, %xmm13
	paddd %xmm4, %xmm2
	movdqa %xmm4, 160(%rsp)
	paddd %xmm8, %xmm2
	movdqa .LCPI47_6(%rip), %xmm5
	paddd %xmm5, %xmm2
	paddd %xmm13, %xmm2
	movdqa %xmm2, %xmm8
	psrld $27, %xmm8
	movdqa %xmm2, %xmm12
	pslld $5, %xmm12
	por %xmm8, %xmm12
	paddd %xmm7, %xmm10
	paddd %xmm9, %xmm10
	paddd %xmm5, %xmm10
	paddd %xmm12, %xmm10
	movdqa %xmm1, %xmm8
	psrld $2, %xmm8
	pslld $30, %xmm1
	por %xmm8, %xmm1
	movdqa %xmm3, %xmm0
	movdqa 176(%rsp), %xmm3
	pxor %xmm3, %xmm0
	pxor 128(%rsp), %xmm0
	pxor %xmm6, %xmm0
	movdqa %xmm0, %xmm8
	psrld $31, %xmm8
	paddd %xmm0, %xmm0
	por %xmm8, %xmm0
	movdqa 80(%rsp), %xmm6
	pxor %xmm6, %xmm14
	pxor 16(%rsp), %xmm14
	pxor %xmm4, %xmm14
	movdqa %xmm14, %xmm8
	psrld $31, %xmm8
	paddd %xmm14, %xmm14
	por %xmm8, %xmm14
	movdqa %xmm1, %xmm8
	pxor %xmm11, %xmm8
	movdqa %xmm2, %xmm9
	pand %xmm8, %xmm9
	pandn %xmm1, %xmm8
	por %xmm9, %xmm8
	movdqa %xmm2, %xmm9
	psrld $2, %xmm9
	pslld $30, %xmm2
	por %xmm9, %xmm2
	movdqa %xmm2, %xmm9
	pxor %xmm1, %xmm9
	movdqa %xmm10, %xmm12
	pand %xmm9, %xmm12
	pandn %xmm2, %xmm9
	por %xmm12, %xmm9
	movdqa %xmm10, %xmm12
	psrld $27, %xmm12
	movdqa %xmm10, %xmm13
	pslld $5, %xmm13
	por %xmm12, %xmm13
	paddd %xmm0, %xmm15
	movdqa %xmm0, 192(%rsp)
	paddd %xmm8, %xmm15
	paddd %xmm5, %xmm15
	paddd %xmm13, %xmm15
	movdqa %xmm15, %xmm8
	psrld $27, %xmm8
	movdqa %xmm15, %xmm12
	pslld $5, %xmm12
	por %xmm8, %xmm12
	paddd %xmm14, %xmm11
	paddd %xmm9, %xmm11
	paddd %xmm5, %xmm11
	paddd %xmm12, %xmm11
	movdqa %xmm10, %xmm8
	psrld $2, %xmm8
	pslld $30, %xmm10
	por %xmm8, %xmm10
	movdqa 224(%rsp), %xmm5
	pxor %xmm5, %xmm3
	pxor 48(%rsp), %xmm3
	pxor 64(%rsp), %xmm3
	movdqa %xmm3, %xmm8
	psrld $31, %xmm8
	paddd %xmm3, %xmm3
	por %xmm8, %xmm3
	movdqa 208(%rsp), %xmm7
	pxor %xmm7, %xmm6
	pxor (%rsp), %xmm6
	pxor %xmm0, %xmm6
	movdqa %xmm6, %xmm8
	psrld $31, %xmm8
	paddd %xmm6, %xmm6
	por %xmm8, %xmm6
	movdqa %xmm6, %xmm0
	movdqa %xmm6, 80(%rsp)
	movdqa %xmm10, %xmm8
	pxor %xmm2, %xmm8
	movdqa %xmm15, %xmm9
	pand %xmm8, %xmm9
	pandn %xmm10, %xmm8
	por %xmm9, %xmm8
	movdqa %xmm15, %xmm9
	psrld $2, %xmm9
	pslld $30, %xmm15
	por %xmm9, %xmm15
	movdqa %xmm15, %xmm9
	pxor %xmm10, %xmm9
	movdqa %xmm11, %xmm12
	pand %xmm9, %xmm12
	pandn %xmm15, %xmm9
	por %xmm12, %xmm9
	movdqa %xmm11, %xmm12
	psrld $27, %xmm12
	movdqa %xmm11, %xmm13
	pslld $5, %xmm13
	por %xmm12, %xmm13
	movdqa %xmm3, 176(%rsp)
	paddd %xmm3, %xmm1
	paddd %xmm8, %xmm1
	movdqa .LCPI47_6(%rip), %xmm6
	paddd %xmm6, %xmm1
	paddd %xmm13, %xmm1
	movdqa %xmm1, %xmm8
	psrld $27, %xmm8
	movdqa %xmm1, %xmm12
	pslld $5, %xmm12
	por %xmm8, %xmm12
	paddd %xmm0, %xmm2
	paddd %xmm9, %xmm2
	paddd %xmm6, %xmm2
	paddd %xmm12, %xmm2
	movdqa %xmm11, %xmm8
	psrld $2, %xmm8
	pslld $30, %xmm11
	por %xmm8, %xmm11
	movdqa 96(%rsp), %xmm0
	pxor %xmm0, %xmm5
	pxor 144(%rsp), %xmm5
	pxor %xmm14, %xmm5
	movdqa %xmm5, %xmm8
	psrld $31, %xmm8
	paddd %xmm5, %xmm5
	por %xmm8, %xmm5
	movdqa %xmm5, %xmm6
	movdqa 32(%rsp), %xmm4
	pxor %xmm4, %xmm7
	pxor 112(%rsp), %xmm7
	pxor %xmm3, %xmm7
	movdqa %xmm7, %xmm8
	psrld $31, %xmm8
	paddd %xmm7, %xmm7
	por %xmm8, %xmm7
	movdqa %xmm11, %xmm8
	pxor %xmm15, %xmm8
	movdqa %xmm1, %xmm9
	pand %xmm8, %xmm9
	pandn %xmm11, %xmm8
	por %xmm9, %xmm8
	movdqa %xmm1, %xmm9
	psrld $2, %xmm9
	pslld $30, %xmm1
	por %xmm9, %xmm1
	movdqa %xmm1, %xmm9
	pxor %xmm11, %xmm9
	movdqa %xmm2, %xmm12
	pand %xmm9, %xmm12
	pandn %xmm1, %xmm9
	por %xmm12, %xmm9
	movdqa %xmm2, %xmm12
	psrld $27, %xmm12
	movdqa %xmm2, %xmm13
	pslld $5, %xmm13
	por %xmm12, %xmm13
	paddd %xmm5, %xmm10
	paddd %xmm8, %xmm10
	movdqa .LCPI47_6(%rip), %xmm5
	paddd %xmm5, %xmm10
	paddd %xmm13, %xmm10
	movdqa %xmm10, %xmm8
	psrld $27, %xmm8
	movdqa %xmm10, %xmm12
	pslld $5, %xmm12
	por %xmm8, %xmm12
	paddd %xmm7, %xmm15
	paddd %xmm9, %xmm15
	paddd %xmm5, %xmm15
	paddd %xmm12, %xmm15
	movdqa %xmm2, %xmm8
	psrld $2, %xmm8
	pslld $30, %xmm2
	por %xmm8, %xmm2
	pxor 128(%rsp), %xmm0
	pxor 160(%rsp), %xmm0
	pxor 80(%rsp), %xmm0
	movdqa %xmm0, %xmm8
	psrld $31, %xmm8
	paddd %xmm0, %xmm0
	por %xmm8, %xmm0
	pxor 16(%rsp), %xmm4
	pxor 64(%rsp), %xmm4
	pxor %xmm6, %xmm4
	movdqa %xmm4, %xmm8
	psrld $31, %xmm8
	paddd %xmm4, %xmm4
	por %xmm8, %xmm4
	movdqa %xmm2, %xmm8
	pxor %xmm1, %xmm8
	movdqa %xmm10, %xmm9
	pand %xmm8, %xmm9
	pandn %xmm2, %xmm8
	por %xmm9, %xmm8
	movdqa %xmm10, %xmm9
	psrld $2, %xmm9
	pslld $30, %xmm10
	por %xmm9, %xmm10
	movdqa %xmm10, %xmm9
	pxor %xmm2, %xmm9
	movdqa %xmm15, %xmm12
	pand %xmm9, %xmm12
	pandn %xmm10, %xmm9
	por %xmm12, %xmm9
	movdqa %xmm15, %xmm12
	psrld $27, %xmm12
	movdqa %xmm15, %xmm13
	pslld $5, %xmm13
	por %xmm12, %xmm13
	paddd %xmm0, %xmm11
	movdqa %xmm0, %xmm3
	movdqa %xmm0, 96(%rsp)
	paddd %xmm8, %xmm11
	movdqa %xmm5, %xmm0
	paddd %xmm5, %xmm11
	paddd %xmm13, %xmm11
	movdqa %xmm11, %xmm8
	psrld $27, %xmm8
	movdqa %xmm11, %xmm12
	pslld $5, %xmm12
	por %xmm8, %xmm12
	movdqa %xmm4, %xmm5
	movdqa %xmm4, 32(%rsp)
	paddd %xmm4, %xmm1
	paddd %xmm9, %xmm1
	paddd %xmm0, %xmm1
	paddd %xmm12, %xmm1
	movdqa %xmm15, %xmm8
	psrld $2, %xmm8
	pslld $30, %xmm15
	por %xmm8, %xmm15
	movdqa 128(%rsp), %xmm0
	pxor 48(%rsp), %xmm0
	pxor 192(%rsp), %xmm0
	pxor %xmm7, %xmm0
	movdqa %xmm0, %xmm8
	psrld $31, %xmm8
	paddd %xmm0, %xmm0
	por %xmm8, %xmm0
	movdqa 16(%rsp), %xmm4
	pxor (%rsp), %xmm4
	pxor %xmm14, %xmm4
	pxor %xmm3, %xmm4
	movdqa %xmm4, %xmm8
	psrld $31, %xmm8
	paddd %xmm4, %xmm4
	por %xmm8, %xmm4
	movdqa %xmm4, 16(%rsp)
	movdqa %xmm15, %xmm8
	pxor %xmm10, %xmm8
	movdqa %xmm11, %xmm9
	pand %xmm8, %xmm9
	pandn %xmm15, %xmm8
	por %xmm9, %xmm8
	movdqa %xmm11, %xmm9
	psrld $2, %xmm9
	pslld $30, %xmm11
	por %xmm9, %xmm11
	movdqa %xmm11, %xmm9
	pxor %xmm15, %xmm9
	movdqa %xmm1, %xmm12
	pand %xmm9, %xmm12
	pandn %xmm11, %xmm9
	por %xmm12, %xmm9
	movdqa %xmm1, %xmm12
	psrld $27, %xmm12
	movdqa %xmm1, %xmm13
	pslld $5, %xmm13
	por %xmm12, %xmm13
	movdqa %xmm0, 128(%rsp)
	paddd %xmm0, %xmm2
	paddd %xmm8, %xmm2
	movdqa .LCPI47_6(%rip), %xmm3
	paddd %xmm3, %xmm2
	paddd %xmm13, %xmm2
	movdqa %xmm2, %xmm8
	psrld $27, %xmm8
	movdqa %xmm2, %xmm12
	pslld $5, %xmm12
	por %xmm8, %xmm12
	paddd %xmm4, %xmm10
	paddd %xmm9, %xmm10
	paddd %xmm3, %xmm10
	paddd %xmm12, %xmm10
	movdqa %xmm1, %xmm8
	psrld $2, %xmm8
	pslld $30, %xmm1
	por %xmm8, %xmm1
	movdqa 48(%rsp), %xmm9
	pxor 144(%rsp), %xmm9
	pxor 176(%rsp), %xmm9
	pxor %xmm5, %xmm9
	movdqa %xmm9, %xmm8
	psrld $31, %xmm8
	paddd %xmm9, %xmm9
	por %xmm8, %xmm9
	movdqa %xmm9, %xmm4
	movdqa (%rsp), %xmm3
	movdqa 112(%rsp), %xmm5
	pxor %xmm5, %xmm3
	pxor 80(%rsp), %xmm3
	pxor %xmm0, %xmm3
	movdqa %xmm3, %xmm8
	psrld $31, %xmm8
	paddd %xmm3, %xmm3
	por %xmm8, %xmm3
	movdqa %xmm3, (%rsp)
	movdqa %xmm1, %xmm8
	pxor %xmm11, %xmm8
	movdqa %xmm2, %xmm9
	pand %xmm8, %xmm9
	pandn %xmm1, %xmm8
	por %xmm9, %xmm8
	movdqa %xmm2, %xmm9
	psrld $2, %xmm9
	pslld $30, %xmm2
	por %xmm9, %xmm2
	movdqa %xmm2, %xmm9
	pxor %xmm1, %xmm9
	movdqa %xmm10, %xmm12
	pand %xmm9, %xmm12
	pandn %xmm2, %xmm9
	por %xmm12, %xmm9
	movdqa %xmm10, %xmm12
	psrld $27, %xmm12
	movdqa %xmm10, %xmm13
	pslld $5, %xmm13
	por %xmm12, %xmm13
	paddd %xmm4, %xmm15
	movdqa %xmm4, 48(%rsp)
	paddd %xmm8, %xmm15
	movdqa .LCPI47_6(%rip), %xmm0
	paddd %xmm0, %xmm15
	paddd %xmm13, %xmm15
	movdqa %xmm15, %xmm8
	psrld $27, %xmm8
	movdqa %xmm15, %xmm12
	pslld $5, %xmm12
	por %xmm8, %xmm12
	paddd %xmm3, %xmm11
	paddd %xmm9, %xmm11
	paddd %xmm0, %xmm11
	paddd %xmm12, %xmm11
	movdqa %xmm10, %xmm8
	psrld $2, %xmm8
	pslld $30, %xmm10
	por %xmm8, %xmm10
	movdqa 144(%rsp), %xmm0
	pxor 160(%rsp), %xmm0
	pxor %xmm6, %xmm0
	pxor 16(%rsp), %xmm0
	movdqa %xmm0, %xmm8
	psrld $31, %xmm8
	paddd %xmm0, %xmm0
	por %xmm8, %xmm0
	movdqa %xmm5, %xmm3
	movdqa 64(%rsp), %xmm5
	pxor %xmm5, %xmm3
	pxor %xmm7, %xmm3
	pxor %xmm4, %xmm3
	movdqa %xmm3, %xmm8
	psrld $31, %xmm8
	paddd %xmm3, %xmm3
	por %xmm8, %xmm3
	movdqa %xmm3, 112(%rsp)
	movdqa %xmm10, %xmm8
	pxor %xmm2, %xmm8
	movdqa %xmm15, %xmm9
	pand %xmm8, %xmm9
	pandn %xmm10, %xmm8
	por %xmm9, %xmm8
	movdqa %xmm15, %xmm9
	psrld $2, %xmm9
	pslld $30, %xmm15
	por %xmm9, %xmm15
	movdqa %xmm15, %xmm9
	pxor %xmm10, %xmm9
	movdqa %xmm11, %xmm12
	pand %xmm9, %xmm12
	pandn %xmm15, %xmm9
	por %xmm12, %xmm9
	movdqa %xmm11, %xmm12
	psrld $27, %xmm12
	movdqa %xmm11, %xmm13
	pslld $5, %xmm13
	por %xmm12, %xmm13
	movdqa %xmm0, 144(%rsp)
	paddd %xmm0, %xmm1
	paddd %xmm8, %xmm1
	movdqa .LCPI47_6(%rip), %xmm4
	paddd %xmm4, %xmm1
	paddd %xmm13, %xmm1
	movdqa %xmm1, %xmm8
	psrld $27, %xmm8
	movdqa %xmm1, %xmm12
	pslld $5, %xmm12
	por %xmm8, %xmm12
	paddd %xmm3, %xmm2
	paddd %xmm9, %xmm2
	paddd %xmm4, %xmm2
	paddd %xmm12, %xmm2
	movdqa %xmm11, %xmm8
	psrld $2, %xmm8
	pslld $30, %xmm11
	por %xmm8, %xmm11
	movdqa 160(%rsp), %xmm3
	movdqa 192(%rsp), %xmm4
	pxor %xmm4, %xmm3
	pxor 96(%rsp), %xmm3
	pxor (%rsp), %xmm3
	movdqa %xmm3, %xmm8
	psrld $31, %xmm8
	paddd %xmm3, %xmm3
	por %xmm8, %xmm3
	movdqa %xmm5, %xmm9
	pxor %xmm14, %xmm9
	pxor 32(%rsp), %xmm9
	pxor %xmm0, %xmm9
	movdqa %xmm9, %xmm8
	psrld $31, %xmm8
	paddd %xmm9, %xmm9
	por %xmm8, %xmm9
	movdqa %xmm9, %xmm0
	movdqa %xmm9, 64(%rsp)
	movdqa %xmm11, %xmm8
	pxor %xmm15, %xmm8
	movdqa %xmm1, %xmm9
	pand %xmm8, %xmm9
	pandn %xmm11, %xmm8
	por %xmm9, %xmm8
	movdqa %xmm1, %xmm9
	psrld $2, %xmm9
	pslld $30, %xmm1
	por %xmm9, %xmm1
	movdqa %xmm1, %xmm9
	pxor %xmm11, %xmm9
	movdqa %xmm2, %xmm12
	pand %xmm9, %xmm12
	pandn %xmm1, %xmm9
	por %xmm12, %xmm9
	movdqa %xmm2, %xmm12
	psrld $27, %xmm12
	movdqa %xmm2, %xmm13
	pslld $5, %xmm13
	por %xmm12, %xmm13
	paddd %xmm3, %xmm10
	movdqa %xmm3, 160(%rsp)
	paddd %xmm8, %xmm10
	movdqa .LCPI47_6(%rip), %xmm5
	paddd %xmm5, %xmm10
	paddd %xmm13, %xmm10
	movdqa %xmm10, %xmm8
	psrld $27, %xmm8
	movdqa %xmm10, %xmm12
	pslld $5, %xmm12
	por %xmm8, %xmm12
	paddd %xmm0, %xmm15
	paddd %xmm9, %xmm15
	paddd %xmm5, %xmm15
	paddd %xmm12, %xmm15
	movdqa %xmm2, %xmm8
	psrld $2, %xmm8
	pslld $30, %xmm2
	por %xmm8, %xmm2
	movdqa %xmm4, %xmm0
	movdqa 176(%rsp), %xmm4
	pxor %xmm4, %xmm0
	pxor 128(%rsp), %xmm0
	pxor 112(%rsp), %xmm0
	movdqa %xmm0, %xmm8
	psrld $31, %xmm8
	paddd %xmm0, %xmm0
	por %xmm8, %xmm0
	movdqa 80(%rsp), %xmm5
	pxor %xmm5, %xmm14
	pxor 16(%rsp), %xmm14
	pxor %xmm3, %xmm14
	movdqa %xmm14, %xmm8
	psrld $31, %xmm8
	paddd %xmm14, %xmm14
	por %xmm8, %xmm14
	movdqa %xmm2, %xmm8
	pxor %xmm1, %xmm8
	pxor %xmm10, %xmm8
	movdqa %xmm10, %xmm9
	psrld $2, %xmm9
	pslld $30, %xmm10
	por %xmm9, %xmm10
	movdqa %xmm15, %xmm9
	psrld $27, %xmm9
	movdqa %xmm15, %xmm12
	pslld $5, %xmm12
	por %xmm9, %xmm12
	paddd %xmm0, %xmm11
	movdqa %xmm0, %xmm3
	movdqa %xmm0, 192(%rsp)
	paddd %xmm8, %xmm11
	movdqa .LCPI47_7(%rip), %xmm13
	paddd %xmm13, %xmm11
	paddd %xmm12, %xmm11
	movdqa %xmm11, %xmm8
	psrld $27, %xmm8
	movdqa %xmm11, %xmm9
	pslld $5, %xmm9
	por %xmm8, %xmm9
	movdqa %xmm10, %xmm8
	pxor %xmm2, %xmm8
	pxor %xmm15, %xmm8
	paddd %xmm14, %xmm1
	paddd %xmm8, %xmm1
	paddd %xmm13, %xmm1
	paddd %xmm9, %xmm1
	movdqa %xmm15, %xmm8
	psrld $2, %xmm8
	pslld $30, %xmm15
	por %xmm8, %xmm15
	movdqa %xmm4, %xmm0
	pxor %xmm6, %xmm0
	pxor 48(%rsp), %xmm0
	pxor 64(%rsp), %xmm0
	movdqa %xmm0, %xmm8
	psrld $31, %xmm8
	paddd %xmm0, %xmm0
	por %xmm8, %xmm0
	pxor %xmm7, %xmm5
	pxor (%rsp), %xmm5
	pxor %xmm3, %xmm5
	movdqa %xmm5, %xmm8
	psrld $31, %xmm8
	paddd %xmm5, %xmm5
	por %xmm8, %xmm5
	movdqa %xmm15, %xmm8
	pxor %xmm10, %xmm8
	pxor %xmm11, %xmm8
	movdqa %xmm11, %xmm9
	psrld $2, %xmm9
	pslld $30, %xmm11
	por %xmm9, %xmm11
	movdqa %xmm1, %xmm9
	psrld $27, %xmm9
	movdqa %xmm1, %xmm12
	pslld $5, %xmm12
	por %xmm9, %xmm12
	paddd %xmm0, %xmm2
	movdqa %xmm0, 176(%rsp)
	paddd %xmm8, %xmm2
	movdqa .LCPI47_7(%rip), %xmm13
	paddd %xmm13, %xmm2
	paddd %xmm12, %xmm2
	movdqa %xmm2, %xmm8
	psrld $27, %xmm8
	movdqa %xmm2, %xmm9
	pslld $5, %xmm9
	por %xmm8, %xmm9
	movdqa %xmm11, %xmm8
	pxor %xmm15, %xmm8
	pxor %xmm1, %xmm8
	paddd %xmm5, %xmm10
	movdqa %xmm5, %xmm4
	movdqa %xmm5, 80(%rsp)
	paddd %xmm8, %xmm10
	paddd %xmm13, %xmm10
	paddd %xmm9, %xmm10
	movdqa %xmm1, %xmm8
	psrld $2, %xmm8
	pslld $30, %xmm1
	por %xmm8, %xmm1
	movdqa 96(%rsp), %xmm3
	pxor %xmm3, %xmm6
	pxor 144(%rsp), %xmm6
	pxor %xmm14, %xmm6
	movdqa %xmm6, %xmm8
	psrld $31, %xmm8
	paddd %xmm6, %xmm6
	por %xmm8, %xmm6
	movdqa 32(%rsp), %xmm5
	pxor %xmm5, %xmm7
	pxor 112(%rsp), %xmm7
	pxor %xmm0, %xmm7
	movdqa %xmm7, %xmm8
	psrld $31, %xmm8
	paddd %xmm7, %xmm7
	por %xmm8, %xmm7
	movdqa %xmm1, %xmm8
	pxor %xmm11, %xmm8
	pxor %xmm2, %xmm8
	movdqa %xmm2, %xmm9
	psrld $2, %xmm9
	pslld $30, %xmm2
	por %xmm9, %xmm2
	movdqa %xmm10, %xmm9
	psrld $27, %xmm9
	movdqa %xmm10, %xmm12
	pslld $5, %xmm12
	por %xmm9, %xmm12
	paddd %xmm6, %xmm15
	paddd %xmm8, %xmm15
	paddd %xmm13, %xmm15
	paddd %xmm12, %xmm15
	movdqa %xmm15, %xmm8
	psrld $27, %xmm8
	movdqa %xmm15, %xmm9
	pslld $5, %xmm9
	por %xmm8, %xmm9
	movdqa %xmm2, %xmm8
	pxor %xmm1, %xmm8
	pxor %xmm10, %xmm8
	paddd %xmm7, %xmm11
	paddd %xmm8, %xmm11
	paddd %xmm13, %xmm11
	paddd %xmm9, %xmm11
	movdqa %xmm10, %xmm8
	psrld $2, %xmm8
	pslld $30, %xmm10
	por %xmm8, %xmm10
	movdqa %xmm3, %xmm9
	movdqa 128(%rsp), %xmm13
	pxor %xmm13, %xmm9
	pxor 160(%rsp), %xmm9
	pxor %xmm4, %xmm9
	movdqa %xmm9, %xmm8
	psrld $31, %xmm8
	paddd %xmm9, %xmm9
	por %xmm8, %xmm9
	movdqa %xmm9, %xmm4
	movdqa %xmm5, %xmm9
	movdqa 16(%rsp), %xmm0
	pxor %xmm0, %xmm9
	pxor 64(%rsp), %xmm9
	pxor %xmm6, %xmm9
	movdqa %xmm9, %xmm8
	psrld $31, %xmm8
	paddd %xmm9, %xmm9
	por %xmm8, %xmm9
	movdqa %xmm9, %xmm3
	movdqa %xmm9, 32(%rsp)
	movdqa %xmm10, %xmm8
	pxor %xmm2, %xmm8
	pxor %xmm15, %xmm8
	movdqa %xmm15, %xmm9
	psrld $2, %xmm9
	pslld $30, %xmm15
	por %xmm9, %xmm15
	movdqa %xmm11, %xmm9
	psrld $27, %xmm9
	movdqa %xmm11, %xmm12
	pslld $5, %xmm12
	por %xmm9, %xmm12
	paddd %xmm4, %xmm1
	movdqa %xmm4, 96(%rsp)
	paddd %xmm8, %xmm1
	movdqa .LCPI47_7(%rip), %xmm5
	paddd %xmm5, %xmm1
	paddd %xmm12, %xmm1
	movdqa %xmm1, %xmm8
	psrld $27, %xmm8
	movdqa %xmm1, %xmm9
	pslld $5, %xmm9
	por %xmm8, %xmm9
	movdqa %xmm15, %xmm8
	pxor %xmm10, %xmm8
	pxor %xmm11, %xmm8
	paddd %xmm3, %xmm2
	paddd %xmm8, %xmm2
	paddd %xmm5, %xmm2
	paddd %xmm9, %xmm2
	movdqa %xmm11, %xmm8
	psrld $2, %xmm8
	pslld $30, %xmm11
	por %xmm8, %xmm11
	movdqa %xmm13, %xmm9
	movdqa 48(%rsp), %xmm3
	pxor %xmm3, %xmm9
	pxor 192(%rsp), %xmm9
	pxor %xmm7, %xmm9
	movdqa %xmm9, %xmm8
	psrld $31, %xmm8
	paddd %xmm9, %xmm9
	por %xmm8, %xmm9
	movdqa %xmm9, %xmm13
	pxor (%rsp), %xmm0
	pxor %xmm14, %xmm0
	pxor %xmm4, %xmm0
	movdqa %xmm0, %xmm8
	psrld $31, %xmm8
	paddd %xmm0, %xmm0
	por %xmm8, %xmm0
	movdqa %xmm0, %xmm4
	movdqa %xmm0, 16(%rsp)
	movdqa %xmm11, %xmm8
	pxor %xmm15, %xmm8
	pxor %xmm1, %xmm8
	movdqa %xmm1, %xmm9
	psrld $2, %xmm9
	pslld $30, %xmm1
	por %xmm9, %xmm1
	movdqa %xmm2, %xmm9
	psrld $27, %xmm9
	movdqa %xmm2, %xmm12
	pslld $5, %xmm12
	por %xmm9, %xmm12
	paddd %xmm13, %xmm10
	movdqa %xmm13, %xmm0
	movdqa %xmm13, 128(%rsp)
	paddd %xmm8, %xmm10
	paddd %xmm5, %xmm10
	paddd %xmm12, %xmm10
	movdqa %xmm10, %xmm8
	psrld $27, %xmm8
	movdqa %xmm10, %xmm9
	pslld $5, %xmm9
	por %xmm8, %xmm9
	movdqa %xmm1, %xmm8
	pxor %xmm11, %xmm8
	pxor %xmm2, %xmm8
	paddd %xmm4, %xmm15
	paddd %xmm8, %xmm15
	paddd %xmm5, %xmm15
	paddd %xmm9, %xmm15
	movdqa %xmm2, %xmm8
	psrld $2, %xmm8
	pslld $30, %xmm2
	por %xmm8, %xmm2
	movdqa %xmm3, %xmm13
	movdqa 144(%rsp), %xmm5
	pxor %xmm5, %xmm13
	pxor 176(%rsp), %xmm13
	pxor 32(%rsp), %xmm13
	movdqa %xmm13, %xmm8
	psrld $31, %xmm8
	paddd %xmm13, %xmm13
	por %xmm8, %xmm13
	movdqa (%rsp), %xmm9
	movdqa 112(%rsp), %xmm4
	pxor %xmm4, %xmm9
	pxor 80(%rsp), %xmm9
	pxor %xmm0, %xmm9
	movdqa %xmm9, %xmm8
	psrld $31, %xmm8
	paddd %xmm9, %xmm9
	por %xmm8, %xmm9
	movdqa %xmm9, %xmm0
	movdqa %xmm9, (%rsp)
	movdqa %xmm2, %xmm8
	pxor %xmm1, %xmm8
	pxor %xmm10, %xmm8
	movdqa %xmm10, %xmm9
	psrld $2, %xmm9
	pslld $30, %xmm10
	por %xmm9, %xmm10
	movdqa %xmm15, %xmm9
	psrld $27, %xmm9
	movdqa %xmm15, %xmm12
	pslld $5, %xmm12
	por %xmm9, %xmm12
	paddd %xmm13, %xmm11
	movdqa %xmm13, 48(%rsp)
	paddd %xmm8, %xmm11
	movdqa .LCPI47_7(%rip), %xmm3
	paddd %xmm3, %xmm11
	paddd %xmm12, %xmm11
	movdqa %xmm11, %xmm8
	psrld $27, %xmm8
	movdqa %xmm11, %xmm9
	pslld $5, %xmm9
	por %xmm8, %xmm9
	movdqa %xmm10, %xmm8
	pxor %xmm2, %xmm8
	pxor %xmm15, %xmm8
	paddd %xmm0, %xmm1
	paddd %xmm8, %xmm1
	paddd %xmm3, %xmm1
	paddd %xmm9, %xmm1
	movdqa %xmm15, %xmm8
	psrld $2, %xmm8
	pslld $30, %xmm15
	por %xmm8, %xmm15
	movdqa %xmm5, %xmm0
	movdqa 160(%rsp), %xmm3
	pxor %xmm3, %xmm0
	pxor %xmm6, %xmm0
	pxor 16(%rsp), %xmm0
	movdqa %xmm0, %xmm8
	psrld $31, %xmm8
	paddd %xmm0, %xmm0
	por %xmm8, %xmm0
	movdqa %xmm0, %xmm5
	pxor 64(%rsp), %xmm4
	pxor %xmm7, %xmm4
	pxor %xmm13, %xmm4
	movdqa %xmm4, %xmm8
	psrld $31, %xmm8
	paddd %xmm4, %xmm4
	por %xmm8, %xmm4
	movdqa %xmm4, %xmm0
	movdqa %xmm4, 112(%rsp)
	movdqa %xmm15, %xmm8
	pxor %xmm10, %xmm8
	pxor %xmm11, %xmm8
	movdqa %xmm11, %xmm9
	psrld $2, %xmm9
	pslld $30, %xmm11
	por %xmm9, %xmm11
	movdqa %xmm1, %xmm9
	psrld $27, %xmm9
	movdqa %xmm1, %xmm12
	pslld $5, %xmm12
	por %xmm9, %xmm12
	paddd %xmm5, %xmm2
	movdqa %xmm5, %xmm13
	paddd %xmm8, %xmm2
	movdqa .LCPI47_7(%rip), %xmm4
	paddd %xmm4, %xmm2
	paddd %xmm12, %xmm2
	movdqa %xmm2, %xmm8
	psrld $27, %xmm8
	movdqa %xmm2, %xmm9
	pslld $5, %xmm9
	por %xmm8, %xmm9
	movdqa %xmm11, %xmm8
	pxor %xmm15, %xmm8
	pxor %xmm1, %xmm8
	paddd %xmm0, %xmm10
	paddd %xmm8, %xmm10
	paddd %xmm4, %xmm10
	paddd %xmm9, %xmm10
	movdqa %xmm1, %xmm8
	psrld $2, %xmm8
	pslld $30, %xmm1
	por %xmm8, %xmm1
	movdqa 192(%rsp), %xmm5
	pxor %xmm5, %xmm3
	pxor 96(%rsp), %xmm3
	pxor (%rsp), %xmm3
	movdqa %xmm3, %xmm8
	psrld $31, %xmm8
	paddd %xmm3, %xmm3
	por %xmm8, %xmm3
	movdqa 64(%rsp), %xmm8
	pxor %xmm14, %xmm8
	pxor 32(%rsp), %xmm8
	pxor %xmm13, %xmm8
	movdqa %xmm8, %xmm4
	psrld $31, %xmm4
	paddd %xmm8, %xmm8
	por %xmm4, %xmm8
	movdqa %xmm8, %xmm12
	movdqa %xmm1, %xmm4
	pxor %xmm11, %xmm4
	pxor %xmm2, %xmm4
	movdqa %xmm2, %xmm8
	psrld $2, %xmm8
	pslld $30, %xmm2
	por %xmm8, %xmm2
	movdqa %xmm10, %xmm8
	psrld $27, %xmm8
	movdqa %xmm10, %xmm9
	pslld $5, %xmm9
	por %xmm8, %xmm9
	paddd %xmm3, %xmm15
	paddd %xmm4, %xmm15
	movdqa .LCPI47_7(%rip), %xmm0
	paddd %xmm0, %xmm15
	paddd %xmm9, %xmm15
	movdqa %xmm15, %xmm4
	psrld $27, %xmm4
	movdqa %xmm15, %xmm8
	pslld $5, %xmm8
	por %xmm4, %xmm8
	movdqa %xmm2, %xmm4
	pxor %xmm1, %xmm4
	pxor %xmm10, %xmm4
	paddd %xmm12, %xmm11
	paddd %xmm4, %xmm11
	paddd %xmm0, %xmm11
	paddd %xmm8, %xmm11
	movdqa %xmm10, %xmm4
	psrld $2, %xmm4
	pslld $30, %xmm10
	por %xmm4, %xmm10
	movdqa 176(%rsp), %xmm0
	pxor %xmm0, %xmm5
	pxor 128(%rsp), %xmm5
	pxor 112(%rsp), %xmm5
	movdqa %xmm5, %xmm4
	psrld $31, %xmm4
	paddd %xmm5, %xmm5
	por %xmm4, %xmm5
	movdqa %xmm5, %xmm9
	movdqa 80(%rsp), %xmm13
	pxor %xmm13, %xmm14
	pxor 16(%rsp), %xmm14
	pxor %xmm3, %xmm14
	movdqa %xmm14, %xmm3
	psrld $31, %xmm3
	paddd %xmm14, %xmm14
	por %xmm3, %xmm14
	movdqa %xmm10, %xmm3
	pxor %xmm2, %xmm3
	pxor %xmm15, %xmm3
	movdqa %xmm15, %xmm4
	psrld $2, %xmm4
	pslld $30, %xmm15
	por %xmm4, %xmm15
	movdqa %xmm11, %xmm4
	psrld $27, %xmm4
	movdqa %xmm11, %xmm5
	pslld $5, %xmm5
	por %xmm4, %xmm5
	paddd %xmm9, %xmm1
	paddd %xmm3, %xmm1
	movdqa .LCPI47_7(%rip), %xmm8
	paddd %xmm8, %xmm1
	paddd %xmm5, %xmm1
	movdqa %xmm1, %xmm3
	psrld $27, %xmm3
	movdqa %xmm1, %xmm4
	pslld $5, %xmm4
	por %xmm3, %xmm4
	paddd %xmm2, %xmm14
	movdqa %xmm15, %xmm2
	pxor %xmm10, %xmm2
	pxor %xmm11, %xmm2
	paddd %xmm2, %xmm14
	paddd %xmm8, %xmm14
	paddd %xmm4, %xmm14
	movdqa %xmm11, %xmm2
	psrld $2, %xmm2
	pslld $30, %xmm11
	por %xmm2, %xmm11
	pxor %xmm0, %xmm6
	pxor 48(%rsp), %xmm6
	pxor %xmm12, %xmm6
	movdqa %xmm6, %xmm2
	psrld $31, %xmm2
	paddd %xmm6, %xmm6
	por %xmm2, %xmm6
	pxor %xmm13, %xmm7
	pxor (%rsp), %xmm7
	pxor %xmm9, %xmm7
	movdqa %xmm7, %xmm2
	psrld $31, %xmm2
	paddd %xmm7, %xmm7
	por %xmm2, %xmm7
	movdqa %xmm11, %xmm2
	pxor %xmm15, %xmm2
	pxor %xmm1, %xmm2
	movdqa %xmm1, %xmm3
	psrld $2, %xmm3
	pslld $30, %xmm1
	por %xmm3, %xmm1
	movdqa %xmm14, %xmm3
	psrld $27, %xmm3
	movdqa %xmm14, %xmm4
	pslld $5, %xmm4
	por %xmm3, %xmm4
	paddd %xmm10, %xmm6
	movdqa %xmm1, %xmm3
	pxor %xmm11, %xmm3
	pxor %xmm14, %xmm3
	paddd %xmm2, %xmm6
	paddd %xmm8, %xmm6
	paddd %xmm4, %xmm6
	movdqa %xmm6, %xmm2
	psrld $27, %xmm2
	movdqa %xmm6, %xmm4
	pslld $5, %xmm4
	por %xmm2, %xmm4
	movdqa %xmm14, %xmm2
	psrld $2, %xmm2
	pslld $30, %xmm14
	por %xmm2, %xmm14
	paddd 256(%rsp), %xmm7
	paddd %xmm15, %xmm7
	paddd %xmm3, %xmm7
	paddd %xmm8, %xmm7
	paddd %xmm4, %xmm7
	paddd 288(%rsp), %xmm6
	paddd 240(%rsp), %xmm14
	paddd 272(%rsp), %xmm1
	paddd 304(%rsp), %xmm11
	movdqu %xmm7, (%rcx)
	movdqu %xmm6, 16(%rcx)
	movdqu %xmm14, 32(%rcx)
	movdqu %xmm1, 48(%rcx)
	movdqu %xmm11, 64(%rcx)
	movq (%r8), %rax
	movq 8(%r8), %rcx
	addq $4, %rax
	adcq $0, %rcx
	movq $-1, %rdx
	cmovbq %rdx, %rcx
	cmovbq %rdx, %rax
	movq %rax, (%r8)
	movq %rcx, 8(%r8)
	movaps 320(%rsp), %xmm6
	movaps 336(%rsp), %xmm7
	movaps 352(%rsp), %xmm8
	movaps 368(%rsp), %xmm9
	movaps 384(%rsp), %xmm10
	movaps 400(%rsp), %xmm11
	movaps 416(%rsp), %xmm12
	movaps 432(%rsp), %xmm13
	movaps 448(%rsp), %xmm14
	movaps 464(%rsp), %xmm15
	addq $488, %rsp
	retq
	.seh_endproc
	.section .rdata,"dr"
	.p2align 4, 0x0
.LCPI48_0:
	.zero 4
	.long 2147483648
	.long 0
	.long 0
.LCPI48_1:
	.long 1518500249
	.long 1518500249
	.long 1518500249
	.long 1518500249
.LCPI48_2:
	.long 1518500249
	.long 1518500249
	.long 1518500249
	.long 1518500921
.LCPI48_3:
	.long 0
	.long 0
	.long 0
	.long 672
.LCPI48_4:
	.byte 3
	.byte 2
	.byte 1
	.byte 0
	.byte 7
	.byte 6
	.byte 5
	.byte 4
	.byte 11
	.byte 10
	.byte 9
	.byte 8
	.byte 15
	.byte 14
	.byte 13
	.byte 12
.LCPI48_5:
	.long 0
	.long 2147483648
	.long 0
	.long 0
	.text
	.p2align 4
ring.pbkdf2.rounds.xor_iterates.524f7a1c66a8a9c8:
.seh_proc ring.pbkdf2.rounds.xor_iterates.524f7a1c66a8a9c8
	pushq %r15
	.seh_pushreg %r15
	pushq %r14
	.seh_pushreg %r14
	pushq %r13
	.seh_pushreg %r13
	pushq %r12
	.seh_pushreg %r12
	pushq %rsi
	.seh_pushreg %rsi
	pushq %rdi
	.seh_pushreg %rdi
	pushq %rbp
	.seh_pushreg %rbp
	pushq %rbx
	.seh_pushreg %rbx
	subq $552, %rsp
	.seh_stackalloc 552
	.seh_endprologue
	xorps %xmm0, %xmm0
	movaps %xmm0, 64(%rsp)
	movaps %xmm0, 48(%rsp)
	cmpb $1, (%rdx)
	jne .LBB48_21
	cmpb $1, 576(%rdx)
	jne .LBB48_21
	movups 4(%rdx), %xmm0
	movups 20(%rdx), %xmm1
	movaps %xmm1, 96(%rsp)
	movaps %xmm0, 80(%rsp)
	movdqu 580(%rdx), %xmm2
	movups 596(%rdx), %xmm3
	movaps %xmm0, 480(%rsp)
	movaps %xmm1, 496(%rsp)
	movdqa %xmm2, 512(%rsp)
	movaps %xmm3, 528(%rsp)
	movaps %xmm0, 416(%rsp)
	movaps %xmm1, 432(%rsp)
	movdqa %xmm2, 448(%rsp)
	movaps %xmm3, 464(%rsp)
	cmpb $1, 1152(%rdx)
	jne .LBB48_21
	movq %rcx, %r14
	movq %r9, 208(%rsp)
	movq %r8, 216(%rsp)
	movq 656(%rsp), %rbx
	movups 1156(%rdx), %xmm0
	movups 1172(%rdx), %xmm1
	movaps %xmm1, 160(%rsp)
	movaps %xmm0, 144(%rsp)
	movaps 512(%rsp), %xmm0
	movdqa 528(%rsp), %xmm1
	movaps %xmm0, 176(%rsp)
	movdqa %xmm1, 192(%rsp)
	xorps %xmm0, %xmm0
	movaps %xmm0, 128(%rsp)
	movaps %xmm0, 112(%rsp)
	movaps %xmm0, 96(%rsp)
	movaps %xmm0, 80(%rsp)
	movzbl yz_instructions(%rip), %eax
	testb %al, %al
	je .LBB48_4
	leaq 176(%rsp), %rcx
	leaq 144(%rsp), %rdx
	movq %rbx, %r8
	callq ring_core.digest.sha1.by_instruction.run_words.2f3a0559ae3dd27e
	jmp .LBB48_6
.LBB48_4:
	movdqa 144(%rsp), %xmm1
	movq .LCPI48_5(%rip), %xmm2
	pinsrd $0, 160(%rsp), %xmm2
	movdqa .LCPI48_1(%rip), %xmm3
	movdqa %xmm1, %xmm4
	paddd %xmm3, %xmm4
	movdqa %xmm4, 80(%rsp)
	movdqa %xmm2, %xmm4
	paddd %xmm3, %xmm4
	movdqa %xmm4, 96(%rsp)
	movdqa %xmm3, 112(%rsp)
	movaps .LCPI48_2(%rip), %xmm3
	movaps %xmm3, 128(%rsp)
	movdqa %xmm2, 384(%rsp)
	movdqa %xmm1, 400(%rsp)
	movaps %xmm0, 368(%rsp)
	movaps .LCPI48_3(%rip), %xmm0
	movaps %xmm0, 352(%rsp)
	leaq 352(%rsp), %rax
	movq %rax, 40(%rsp)
	leaq 368(%rsp), %rax
	movq %rax, 32(%rsp)
	leaq 80(%rsp), %rcx
	leaq 176(%rsp), %rdx
	leaq 400(%rsp), %r8
	leaq 384(%rsp), %r9
	callq ring_core.digest.sha1.by_fours.run_ahead
	movq (%rbx), %rax
	movq 8(%rbx), %rcx
	addq $1, %rax
	adcq $0, %rcx
	movq $-1, %rdx
	cmovbq %rdx, %rcx
	cmovbq %rdx, %rax
	movq %rax, (%rbx)
	movq %rcx, 8(%rbx)
.LBB48_6:
	movl 176(%rsp), %ebp
	movq 180(%rsp), %rsi
	movq 188(%rsp), %r13
	movq 196(%rsp), %r12
	movl 204(%rsp), %r15d
	movl %ebp, 48(%rsp)
	movq %rsi, 52(%rsp)
	movq %r13, 60(%rsp)
	movq %r12, 68(%rsp)
	movl %r15d, 76(%rsp)
	movl 40(%r14), %r14d
	movq %r13, %rax
	shrq $32, %rax
	cmpl $2, %r14d
	jb .LBB48_7
	leaq 448(%rsp), %rdi
	decl %r14d
	jmp .LBB48_14
	.p2align 4
.LBB48_19:
	leaq 48(%rsp), %rcx
	leaq 144(%rsp), %rdx
	movq %rbx, %r8
	callq ring_core.digest.sha1.by_instruction.run_words.2f3a0559ae3dd27e
.LBB48_20:
	movl 64(%rsp), %eax
	movl %esi, %edx
	shrq $32, %rsi
	movl %r13d, %r8d
	shrq $32, %r13
	movl %r12d, %r9d
	shrq $32, %r12
	xorl 48(%rsp), %ebp
	movl 52(%rsp), %ecx
	xorl %edx, %ecx
	xorl 56(%rsp), %esi
	movl 60(%rsp), %edx
	xorl %r8d, %edx
	xorl %eax, %r13d
	movl 68(%rsp), %r8d
	xorl %r9d, %r8d
	xorl 72(%rsp), %r12d
	xorl 76(%rsp), %r15d
	shlq $32, %rsi
	orq %rsi, %rcx
	movl %r13d, %r9d
	shlq $32, %r13
	orq %r13, %rdx
	shlq $32, %r12
	orq %r12, %r8
	movq %r8, %r12
	movq %rdx, %r13
	movq %rcx, %rsi
	decl %r14d
	je .LBB48_8
.LBB48_14:
	movaps 416(%rsp), %xmm0
	movdqa 432(%rsp), %xmm1
	movdqa %xmm1, 160(%rsp)
	movaps %xmm0, 144(%rsp)
	xorps %xmm0, %xmm0
	movaps %xmm0, 128(%rsp)
	movaps %xmm0, 112(%rsp)
	movaps %xmm0, 96(%rsp)
	movaps %xmm0, 80(%rsp)
	movzbl yz_instructions(%rip), %ecx
	testb %cl, %cl
	je .LBB48_15
	leaq 144(%rsp), %rcx
	leaq 48(%rsp), %rdx
	movq %rbx, %r8
	callq ring_core.digest.sha1.by_instruction.run_words.2f3a0559ae3dd27e
	jmp .LBB48_17
	.p2align 4
.LBB48_15:
	movdqa 48(%rsp), %xmm1
	movq .LCPI48_5(%rip), %xmm2
	pinsrd $0, %eax, %xmm2
	movdqa .LCPI48_1(%rip), %xmm3
	movdqa %xmm1, %xmm4
	paddd %xmm3, %xmm4
	movdqa %xmm4, 80(%rsp)
	movdqa %xmm2, %xmm4
	paddd %xmm3, %xmm4
	movdqa %xmm4, 96(%rsp)
	movdqa %xmm3, 112(%rsp)
	movaps .LCPI48_2(%rip), %xmm3
	movaps %xmm3, 128(%rsp)
	movdqa %xmm2, 320(%rsp)
	movdqa %xmm1, 336(%rsp)
	movaps %xmm0, 304(%rsp)
	movaps .LCPI48_3(%rip), %xmm0
	movaps %xmm0, 288(%rsp)
	leaq 288(%rsp), %rax
	movq %rax, 40(%rsp)
	leaq 304(%rsp), %rax
	movq %rax, 32(%rsp)
	leaq 80(%rsp), %rcx
	leaq 144(%rsp), %rdx
	leaq 336(%rsp), %r8
	leaq 320(%rsp), %r9
	callq ring_core.digest.sha1.by_fours.run_ahead
	movq (%rbx), %rax
	movq 8(%rbx), %rcx
	addq $1, %rax
	adcq $0, %rcx
	movq $-1, %rdx
	cmovbq %rdx, %rcx
	cmovbq %rdx, %rax
	movq %rax, (%rbx)
	movq %rcx, 8(%rbx)
.LBB48_17:
	movups (%rdi), %xmm0
	movdqu 16(%rdi), %xmm1
	movaps %xmm0, 48(%rsp)
	movdqa %xmm1, 64(%rsp)
	xorps %xmm0, %xmm0
	movaps %xmm0, 128(%rsp)
	movaps %xmm0, 112(%rsp)
	movaps %xmm0, 96(%rsp)
	movaps %xmm0, 80(%rsp)
	movzbl yz_instructions(%rip), %eax
	testb %al, %al
	jne .LBB48_19
	movdqa 144(%rsp), %xmm1
	movq .LCPI48_5(%rip), %xmm2
	pinsrd $0, 160(%rsp), %xmm2
	movdqa .LCPI48_1(%rip), %xmm3
	movdqa %xmm1, %xmm4
	paddd %xmm3, %xmm4
	movdqa %xmm4, 80(%rsp)
	movdqa %xmm2, %xmm4
	paddd %xmm3, %xmm4
	movdqa %xmm4, 96(%rsp)
	movdqa %xmm3, 112(%rsp)
	movaps .LCPI48_2(%rip), %xmm3
	movaps %xmm3, 128(%rsp)
	movdqa %xmm2, 256(%rsp)
	movdqa %xmm1, 272(%rsp)
	movaps %xmm0, 240(%rsp)
	movaps .LCPI48_3(%rip), %xmm0
	movaps %xmm0, 224(%rsp)
	leaq 224(%rsp), %rax
	movq %rax, 40(%rsp)
	leaq 240(%rsp), %rax
	movq %rax, 32(%rsp)
	leaq 80(%rsp), %rcx
	leaq 48(%rsp), %rdx
	leaq 272(%rsp), %r8
	leaq 256(%rsp), %r9
	callq ring_core.digest.sha1.by_fours.run_ahead
	movq (%rbx), %rax
	movq 8(%rbx), %rcx
	addq $1, %rax
	adcq $0, %rcx
	movq $-1, %rdx
	cmovbq %rdx, %rcx
	cmovbq %rdx, %rax
	movq %rax, (%rbx)
	movq %rcx, 8(%rbx)
	jmp .LBB48_20
.LBB48_7:
	movl %eax, %r9d
	movq %rsi, %rcx
	movq %r13, %rdx
	movq %r12, %r8
.LBB48_8:
	movl %r8d, %eax
	shrq $32, %r8
	movl %ecx, %r10d
	movd %r9d, %xmm0
	pinsrd $1, %eax, %xmm0
	pinsrd $2, %r8d, %xmm0
	shrq $32, %rcx
	pinsrd $3, %r15d, %xmm0
	movd %ebp, %xmm1
	pinsrd $1, %r10d, %xmm1
	pinsrd $2, %ecx, %xmm1
	pinsrd $3, %edx, %xmm1
	movdqa .LCPI48_4(%rip), %xmm2
	pshufb %xmm2, %xmm1
	pshufb %xmm2, %xmm0
	movq 216(%rsp), %rax
	movdqu %xmm0, 16(%rax)
	movdqu %xmm1, (%rax)
	pxor %xmm2, %xmm2
	movdqu %xmm2, 48(%rax)
	movdqu %xmm2, 32(%rax)
	movq 208(%rsp), %rcx
	cmpq $1, %rcx
	je .LBB48_12
	movdqu %xmm1, 64(%rax)
	movdqu %xmm0, 80(%rax)
	movdqu %xmm2, 112(%rax)
	movdqu %xmm2, 96(%rax)
	cmpq $2, %rcx
	je .LBB48_12
	movdqu %xmm1, 128(%rax)
	movdqu %xmm0, 144(%rax)
	movdqu %xmm2, 176(%rax)
	movdqu %xmm2, 160(%rax)
	cmpq $3, %rcx
	je .LBB48_12
	movdqu %xmm1, 192(%rax)
	movdqu %xmm0, 208(%rax)
	movdqu %xmm2, 240(%rax)
	movdqu %xmm2, 224(%rax)
.LBB48_12:
	addq $552, %rsp
	popq %rbx
	popq %rbp
	popq %rdi
	popq %rsi
	popq %r12
	popq %r13
	popq %r14
	popq %r15
	retq
.LBB48_21:
	ud2
	.seh_endproc
	.section .rdata,"dr"
	.p2align 4, 0x0
.LCPI49_0:
	.long 0
	.long 0
	.long 2147483648
	.zero 4
.LCPI49_1:
	.long 672
	.long 0
	.long 0
	.long 0
.LCPI49_2:
	.long 672
	.text
	.p2align 4
ring_core.digest.sha1.by_instruction.run_words.2f3a0559ae3dd27e:
.seh_proc ring_core.digest.sha1.by_instruction.run_words.2f3a0559ae3dd27e
	subq $72, %rsp
	.seh_stackalloc 72
	movaps %xmm9, 48(%rsp)
	.seh_savexmm %xmm9, 48
	movaps %xmm8, 32(%rsp)
	.seh_savexmm %xmm8, 32
	movaps %xmm7, 16(%rsp)
	.seh_savexmm %xmm7, 16
	movaps %xmm6, (%rsp)
	.seh_savexmm %xmm6, 0
	.seh_endprologue
	movdqu (%rcx), %xmm0
	movl 16(%rcx), %eax
	shldl $2, %eax, %eax
	pshufd $27, %xmm0, %xmm5
	movd %eax, %xmm1
	pslldq $12, %xmm1
	movdqu (%rdx), %xmm2
	pshufd $27, %xmm2, %xmm4
	movdqa .LCPI49_0(%rip), %xmm2
	pinsrd $3, 16(%rdx), %xmm2
	movdqa %xmm1, %xmm3
	sha1nexte %xmm4, %xmm3
	movdqa %xmm5, %xmm6
	sha1rnds4 $0, %xmm3, %xmm6
	sha1msg1 %xmm2, %xmm4
	movss .LCPI49_2(%rip), %xmm3
	sha1msg2 %xmm3, %xmm4
	sha1nexte %xmm2, %xmm5
	movaps %xmm6, %xmm7
	sha1rnds4 $0, %xmm5, %xmm7
	xorps %xmm5, %xmm5
	sha1msg1 %xmm5, %xmm2
	xorps %xmm3, %xmm2
	sha1msg2 %xmm4, %xmm2
	sha1nexte %xmm5, %xmm6
	movaps %xmm7, %xmm8
	sha1rnds4 $0, %xmm6, %xmm8
	xorps %xmm6, %xmm6
	sha1msg1 %xmm3, %xmm6
	xorps %xmm4, %xmm6
	sha1msg2 %xmm2, %xmm6
	sha1nexte %xmm3, %xmm7
	movaps %xmm8, %xmm9
	sha1rnds4 $0, %xmm7, %xmm9
	sha1msg1 %xmm4, %xmm3
	xorps %xmm2, %xmm3
	sha1msg2 %xmm6, %xmm3
	sha1nexte %xmm4, %xmm8
	movaps %xmm9, %xmm7
	sha1rnds4 $0, %xmm8, %xmm7
	sha1msg1 %xmm2, %xmm4
	xorps %xmm6, %xmm4
	sha1msg2 %xmm3, %xmm4
	sha1nexte %xmm2, %xmm9
	movaps %xmm7, %xmm8
	sha1rnds4 $1, %xmm9, %xmm8
	sha1msg1 %xmm6, %xmm2
	xorps %xmm3, %xmm2
	sha1msg2 %xmm4, %xmm2
	sha1nexte %xmm6, %xmm7
	movaps %xmm8, %xmm9
	sha1rnds4 $1, %xmm7, %xmm9
	sha1msg1 %xmm3, %xmm6
	xorps %xmm4, %xmm6
	sha1msg2 %xmm2, %xmm6
	sha1nexte %xmm3, %xmm8
	movaps %xmm9, %xmm7
	sha1rnds4 $1, %xmm8, %xmm7
	sha1msg1 %xmm4, %xmm3
	xorps %xmm2, %xmm3
	sha1msg2 %xmm6, %xmm3
	sha1nexte %xmm4, %xmm9
	movaps %xmm7, %xmm8
	sha1rnds4 $1, %xmm9, %xmm8
	sha1msg1 %xmm2, %xmm4
	xorps %xmm6, %xmm4
	sha1msg2 %xmm3, %xmm4
	sha1nexte %xmm2, %xmm7
	movaps %xmm8, %xmm9
	sha1rnds4 $1, %xmm7, %xmm9
	sha1msg1 %xmm6, %xmm2
	xorps %xmm3, %xmm2
	sha1msg2 %xmm4, %xmm2
	sha1nexte %xmm6, %xmm8
	movaps %xmm9, %xmm7
	sha1rnds4 $2, %xmm8, %xmm7
	sha1msg1 %xmm3, %xmm6
	xorps %xmm4, %xmm6
	sha1msg2 %xmm2, %xmm6
	sha1nexte %xmm3, %xmm9
	movaps %xmm7, %xmm8
	sha1rnds4 $2, %xmm9, %xmm8
	sha1msg1 %xmm4, %xmm3
	xorps %xmm2, %xmm3
	sha1msg2 %xmm6, %xmm3
	sha1nexte %xmm4, %xmm7
	movaps %xmm8, %xmm9
	sha1rnds4 $2, %xmm7, %xmm9
	sha1msg1 %xmm2, %xmm4
	xorps %xmm6, %xmm4
	sha1msg2 %xmm3, %xmm4
	sha1nexte %xmm2, %xmm8
	movaps %xmm9, %xmm7
	sha1rnds4 $2, %xmm8, %xmm7
	sha1msg1 %xmm6, %xmm2
	xorps %xmm3, %xmm2
	sha1msg2 %xmm4, %xmm2
	sha1nexte %xmm6, %xmm9
	movaps %xmm7, %xmm8
	sha1rnds4 $2, %xmm9, %xmm8
	sha1msg1 %xmm3, %xmm6
	xorps %xmm4, %xmm6
	sha1msg2 %xmm2, %xmm6
	sha1nexte %xmm3, %xmm7
	movaps %xmm8, %xmm9
	sha1rnds4 $3, %xmm7, %xmm9
	sha1msg1 %xmm4, %xmm3
	xorps %xmm2, %xmm3
	sha1msg2 %xmm6, %xmm3
	sha1nexte %xmm4, %xmm8
	movaps %xmm9, %xmm4
	sha1rnds4 $3, %xmm8, %xmm4
	sha1nexte %xmm2, %xmm9
	movaps %xmm4, %xmm2
	sha1rnds4 $3, %xmm9, %xmm2
	sha1nexte %xmm6, %xmm4
	movaps %xmm2, %xmm6
	sha1rnds4 $3, %xmm4, %xmm6
	sha1nexte %xmm3, %xmm2
	movaps %xmm6, %xmm3
	sha1rnds4 $3, %xmm2, %xmm3
	sha1nexte %xmm5, %xmm1
	sha1nexte %xmm1, %xmm6
	pshufd $27, %xmm3, %xmm1
	paddd %xmm0, %xmm1
	movdqu %xmm1, (%rcx)
	extractps $3, %xmm6, 16(%rcx)
	movq (%r8), %rax
	movq 8(%r8), %rcx
	addq $1, %rax
	adcq $0, %rcx
	movq $-1, %rdx
	cmovbq %rdx, %rcx
	cmovbq %rdx, %rax
	movq %rax, (%r8)
	movq %rcx, 8(%r8)
	movaps (%rsp), %xmm6
	movaps 16(%rsp), %xmm7
	movaps 32(%rsp), %xmm8
	movaps 48(%rsp), %xmm9
	addq $72, %rsp
	retq
	.seh_endproc
	.section .rdata,"dr"
	.p2align 4, 0x0
.LCPI50_0:
	.byte 128
	.byte 128
	.byte 128
	.byte 128
	.byte 128
	.byte 128
	.byte 128
	.byte 128
	.byte 128
	.byte 128
	.byte 128
	.byte 128
	.byte 3
	.byte 2
	.byte 1
	.byte 0
.LCPI50_1:
	.byte 3
	.byte 2
	.byte 1
	.byte 0
	.byte 7
	.byte 6
	.byte 5
	.byte 4
	.byte 11
	.byte 10
	.byte 9
	.byte 8
	.byte 128
	.byte 128
	.byte 128
	.byte 128
.LCPI50_2:
	.byte 128
	.byte 128
	.byte 128
	.byte 128
	.byte 128
	.byte 128
	.byte 128
	.byte 128
	.byte 128
	.byte 128
	.byte 128
	.byte 128
	.byte 7
	.byte 6
	.byte 5
	.byte 4
.LCPI50_3:
	.byte 128
	.byte 128
	.byte 128
	.byte 128
	.byte 128
	.byte 128
	.byte 128
	.byte 128
	.byte 128
	.byte 128
	.byte 128
	.byte 128
	.byte 11
	.byte 10
	.byte 9
	.byte 8
.LCPI50_4:
	.byte 7
	.byte 6
	.byte 5
	.byte 4
	.byte 11
	.byte 10
	.byte 9
	.byte 8
	.byte 15
	.byte 14
	.byte 13
	.byte 12
	.byte 3
	.byte 2
	.byte 1
	.byte 0
	.text
	.p2align 4
ring.pbkdf2.rounds.xor_iterates.30ff0c2b65f6b8fe:
.seh_proc ring.pbkdf2.rounds.xor_iterates.30ff0c2b65f6b8fe
	pushq %r15
	.seh_pushreg %r15
	pushq %r14
	.seh_pushreg %r14
	pushq %rsi
	.seh_pushreg %rsi
	pushq %rdi
	.seh_pushreg %rdi
	pushq %rbp
	.seh_pushreg %rbp
	pushq %rbx
	.seh_pushreg %rbx
	subq $824, %rsp
	.seh_stackalloc 824
	movaps %xmm14, 800(%rsp)
	.seh_savexmm %xmm14, 800
	movaps %xmm13, 784(%rsp)
	.seh_savexmm %xmm13, 784
	movaps %xmm12, 768(%rsp)
	.seh_savexmm %xmm12, 768
	movaps %xmm11, 752(%rsp)
	.seh_savexmm %xmm11, 752
	movaps %xmm10, 736(%rsp)
	.seh_savexmm %xmm10, 736
	movaps %xmm9, 720(%rsp)
	.seh_savexmm %xmm9, 720
	movaps %xmm8, 704(%rsp)
	.seh_savexmm %xmm8, 704
	movaps %xmm7, 688(%rsp)
	.seh_savexmm %xmm7, 688
	movaps %xmm6, 672(%rsp)
	.seh_savexmm %xmm6, 672
	.seh_endprologue
	movq %r9, %rdi
	movq %r8, %rsi
	movq %rdx, %r14
	movq %rcx, %rbx
	xorps %xmm6, %xmm6
	movaps %xmm6, 272(%rsp)
	movaps %xmm6, 256(%rsp)
	movaps %xmm6, 240(%rsp)
	movaps %xmm6, 224(%rsp)
	movaps %xmm6, 208(%rsp)
	movaps %xmm6, 192(%rsp)
	movaps %xmm6, 176(%rsp)
	movaps %xmm6, 160(%rsp)
	leaq 160(%rsp), %rcx
	callq ring.digest.lanes.algorithms.InVectorLaneStates.new.9dc9dac1e561153e
	leaq 576(%r14), %rdx
	movaps %xmm6, 144(%rsp)
	movaps %xmm6, 128(%rsp)
	movaps %xmm6, 112(%rsp)
	movaps %xmm6, 96(%rsp)
	movaps %xmm6, 80(%rsp)
	movaps %xmm6, 64(%rsp)
	movaps %xmm6, 48(%rsp)
	movaps %xmm6, 32(%rsp)
	leaq 32(%rsp), %rcx
	callq ring.digest.lanes.algorithms.InVectorLaneStates.new.9dc9dac1e561153e
	movaps 272(%rsp), %xmm0
	movaps %xmm0, 656(%rsp)
	movaps 256(%rsp), %xmm0
	movaps %xmm0, 640(%rsp)
	movaps 240(%rsp), %xmm0
	movaps %xmm0, 624(%rsp)
	movaps 224(%rsp), %xmm0
	movaps %xmm0, 608(%rsp)
	movaps 160(%rsp), %xmm0
	movaps 176(%rsp), %xmm1
	movaps 192(%rsp), %xmm2
	movaps 208(%rsp), %xmm3
	movaps %xmm3, 592(%rsp)
	movaps %xmm2, 576(%rsp)
	movaps %xmm1, 560(%rsp)
	movaps %xmm0, 544(%rsp)
	movaps 32(%rsp), %xmm0
	movaps 48(%rsp), %xmm1
	movaps 64(%rsp), %xmm2
	movaps 80(%rsp), %xmm3
	movaps %xmm0, 416(%rsp)
	movaps %xmm1, 432(%rsp)
	movaps %xmm2, 448(%rsp)
	movaps %xmm3, 464(%rsp)
	movaps 96(%rsp), %xmm0
	movaps %xmm0, 480(%rsp)
	movaps 112(%rsp), %xmm0
	movaps %xmm0, 496(%rsp)
	movaps 128(%rsp), %xmm0
	movaps %xmm0, 512(%rsp)
	movaps 144(%rsp), %xmm0
	movaps %xmm0, 528(%rsp)
	addq $1152, %r14
	movaps %xmm6, 32(%rsp)
	movaps %xmm6, 48(%rsp)
	movaps %xmm6, 64(%rsp)
	movaps %xmm6, 80(%rsp)
	movaps %xmm6, 96(%rsp)
	movaps %xmm6, 112(%rsp)
	movaps %xmm6, 128(%rsp)
	movaps %xmm6, 144(%rsp)
	leaq 32(%rsp), %r15
	movq %r15, %rcx
	movq %r14, %rdx
	callq ring.digest.lanes.algorithms.InVectorLaneStates.new.9dc9dac1e561153e
	movaps 528(%rsp), %xmm0
	movaps %xmm0, 272(%rsp)
	movaps 512(%rsp), %xmm0
	movaps %xmm0, 256(%rsp)
	movaps 496(%rsp), %xmm0
	movaps %xmm0, 240(%rsp)
	movaps 480(%rsp), %xmm0
	movaps %xmm0, 224(%rsp)
	movaps 416(%rsp), %xmm0
	movaps 432(%rsp), %xmm1
	movaps 448(%rsp), %xmm2
	movaps 464(%rsp), %xmm3
	movaps %xmm3, 208(%rsp)
	movaps %xmm2, 192(%rsp)
	movaps %xmm1, 176(%rsp)
	movaps %xmm0, 160(%rsp)
	leaq 160(%rsp), %rcx
	movq %r15, %rdx
	movq %rdi, %r8
	callq ring_core.digest.sha2.lanes.block_of_words_lanes_counted.302711f8c02ab38b
	movdqa 160(%rsp), %xmm7
	movdqa 176(%rsp), %xmm14
	movdqa 192(%rsp), %xmm11
	movdqa 208(%rsp), %xmm8
	movdqa 224(%rsp), %xmm13
	movdqa 240(%rsp), %xmm12
	movdqa 256(%rsp), %xmm10
	movdqa 272(%rsp), %xmm9
	movdqa %xmm7, 288(%rsp)
	movdqa %xmm14, 304(%rsp)
	movdqa %xmm11, 320(%rsp)
	movdqa %xmm8, 336(%rsp)
	movdqa %xmm13, 352(%rsp)
	movdqa %xmm12, 368(%rsp)
	movdqa %xmm10, 384(%rsp)
	movdqa %xmm9, 400(%rsp)
	movl 40(%rbx), %ebp
	cmpl $2, %ebp
	jb .LBB50_3
	decl %ebp
	.p2align 4
.LBB50_2:
	movaps 656(%rsp), %xmm0
	movaps %xmm0, 144(%rsp)
	movaps 640(%rsp), %xmm0
	movaps %xmm0, 128(%rsp)
	movaps 624(%rsp), %xmm0
	movaps %xmm0, 112(%rsp)
	movaps 608(%rsp), %xmm0
	movaps %xmm0, 96(%rsp)
	movaps 544(%rsp), %xmm0
	movaps 560(%rsp), %xmm1
	movaps 576(%rsp), %xmm2
	movaps 592(%rsp), %xmm3
	movaps %xmm3, 80(%rsp)
	movaps %xmm2, 64(%rsp)
	movaps %xmm1, 48(%rsp)
	movaps %xmm0, 32(%rsp)
	leaq 32(%rsp), %rbx
	leaq 288(%rsp), %r14
	movq %rbx, %rcx
	movq %r14, %rdx
	movq %rdi, %r8
	callq ring_core.digest.sha2.lanes.block_of_words_lanes_counted.302711f8c02ab38b
	movaps 528(%rsp), %xmm0
	movaps %xmm0, 400(%rsp)
	movaps 512(%rsp), %xmm0
	movaps %xmm0, 384(%rsp)
	movaps 496(%rsp), %xmm0
	movaps %xmm0, 368(%rsp)
	movaps 480(%rsp), %xmm0
	movaps %xmm0, 352(%rsp)
	movaps 416(%rsp), %xmm0
	movaps 432(%rsp), %xmm1
	movaps 448(%rsp), %xmm2
	movaps 464(%rsp), %xmm3
	movaps %xmm3, 336(%rsp)
	movaps %xmm2, 320(%rsp)
	movaps %xmm1, 304(%rsp)
	movaps %xmm0, 288(%rsp)
	movq %r14, %rcx
	movq %rbx, %rdx
	movq %rdi, %r8
	callq ring_core.digest.sha2.lanes.block_of_words_lanes_counted.302711f8c02ab38b
	pxor 288(%rsp), %xmm7
	pxor 304(%rsp), %xmm14
	pxor 320(%rsp), %xmm11
	pxor 336(%rsp), %xmm8
	pxor 352(%rsp), %xmm13
	pxor 368(%rsp), %xmm12
	pxor 384(%rsp), %xmm10
	pxor 400(%rsp), %xmm9
	decl %ebp
	jne .LBB50_2
.LBB50_3:
	movdqa %xmm7, %xmm1
	punpckldq %xmm14, %xmm1
	punpcklqdq %xmm11, %xmm1
	movdqa %xmm13, %xmm2
	punpckldq %xmm12, %xmm2
	punpcklqdq %xmm10, %xmm2
	movdqa .LCPI50_0(%rip), %xmm3
	movdqa %xmm8, %xmm4
	pshufb %xmm3, %xmm4
	movdqa .LCPI50_1(%rip), %xmm0
	pshufb %xmm0, %xmm1
	por %xmm4, %xmm1
	movdqa %xmm9, %xmm4
	pshufb %xmm3, %xmm4
	pshufb %xmm0, %xmm2
	por %xmm4, %xmm2
	movdqu %xmm2, 16(%rsi)
	movdqu %xmm1, (%rsi)
	movups %xmm6, 48(%rsi)
	movups %xmm6, 32(%rsi)
	pshufd $85, %xmm7, %xmm1
	pblendw $12, %xmm14, %xmm1
	shufps $212, %xmm11, %xmm1
	pshufd $85, %xmm13, %xmm2
	pblendw $12, %xmm12, %xmm2
	shufps $212, %xmm10, %xmm2
	movdqa .LCPI50_2(%rip), %xmm3
	movdqa %xmm8, %xmm4
	pshufb %xmm3, %xmm4
	pshufb %xmm0, %xmm1
	por %xmm4, %xmm1
	movdqa %xmm9, %xmm4
	pshufb %xmm3, %xmm4
	pshufb %xmm0, %xmm2
	por %xmm4, %xmm2
	movdqu %xmm2, 80(%rsi)
	movdqu %xmm1, 64(%rsi)
	movups %xmm6, 112(%rsi)
	movups %xmm6, 96(%rsi)
	punpckhdq %xmm14, %xmm7
	movdqa %xmm7, %xmm1
	pblendw $240, %xmm11, %xmm1
	movdqa %xmm13, %xmm2
	punpckhdq %xmm12, %xmm2
	pblendw $240, %xmm10, %xmm2
	movdqa .LCPI50_3(%rip), %xmm3
	movdqa %xmm8, %xmm4
	pshufb %xmm3, %xmm4
	pshufb %xmm0, %xmm1
	por %xmm4, %xmm1
	movdqa %xmm9, %xmm4
	pshufb %xmm3, %xmm4
	pshufb %xmm0, %xmm2
	por %xmm4, %xmm2
	movdqu %xmm2, 144(%rsi)
	movdqu %xmm1, 128(%rsi)
	movups %xmm6, 176(%rsi)
	movups %xmm6, 160(%rsi)
	shufps $254, %xmm11, %xmm7
	pshufd $255, %xmm13, %xmm0
	pshufd $238, %xmm12, %xmm1
	pblendw $243, %xmm0, %xmm1
	shufps $244, %xmm10, %xmm1
	palignr $12, %xmm9, %xmm1
	movdqa .LCPI50_4(%rip), %xmm0
	pshufb %xmm0, %xmm1
	palignr $12, %xmm8, %xmm7
	pshufb %xmm0, %xmm7
	movdqu %xmm7, 192(%rsi)
	movdqu %xmm1, 208(%rsi)
	movups %xmm6, 240(%rsi)
	movups %xmm6, 224(%rsi)
	movaps 672(%rsp), %xmm6
	movaps 688(%rsp), %xmm7
	movaps 704(%rsp), %xmm8
	movaps 720(%rsp), %xmm9
	movaps 736(%rsp), %xmm10
	movaps 752(%rsp), %xmm11
	movaps 768(%rsp), %xmm12
	movaps 784(%rsp), %xmm13
	movaps 800(%rsp), %xmm14
	addq $824, %rsp
	popq %rbx
	popq %rbp
	popq %rdi
	popq %rsi
	popq %r14
	popq %r15
	retq
	.seh_endproc
	.p2align 4
ring.digest.lanes.algorithms.InVectorLaneStates.new.9dc9dac1e561153e:
.seh_proc ring.digest.lanes.algorithms.InVectorLaneStates.new.9dc9dac1e561153e
	subq $40, %rsp
	.seh_stackalloc 40
	movaps %xmm7, 16(%rsp)
	.seh_savexmm %xmm7, 16
	movaps %xmm6, (%rsp)
	.seh_savexmm %xmm6, 0
	.seh_endprologue
	cmpb $1, (%rdx)
	jne .LBB51_5
	cmpb $1, 72(%rdx)
	jne .LBB51_5
	cmpb $1, 144(%rdx)
	jne .LBB51_5
	cmpb $1, 216(%rdx)
	jne .LBB51_5
	movd 32(%rdx), %xmm0
	pinsrd $1, 104(%rdx), %xmm0
	pinsrd $2, 176(%rdx), %xmm0
	pinsrd $3, 248(%rdx), %xmm0
	movd 28(%rdx), %xmm1
	pinsrd $1, 100(%rdx), %xmm1
	pinsrd $2, 172(%rdx), %xmm1
	pinsrd $3, 244(%rdx), %xmm1
	movd 24(%rdx), %xmm2
	pinsrd $1, 96(%rdx), %xmm2
	pinsrd $2, 168(%rdx), %xmm2
	pinsrd $3, 240(%rdx), %xmm2
	movd 20(%rdx), %xmm3
	pinsrd $1, 92(%rdx), %xmm3
	pinsrd $2, 164(%rdx), %xmm3
	pinsrd $3, 236(%rdx), %xmm3
	movd 16(%rdx), %xmm4
	pinsrd $1, 88(%rdx), %xmm4
	pinsrd $2, 160(%rdx), %xmm4
	pinsrd $3, 232(%rdx), %xmm4
	movd 12(%rdx), %xmm5
	pinsrd $1, 84(%rdx), %xmm5
	pinsrd $2, 156(%rdx), %xmm5
	pinsrd $3, 228(%rdx), %xmm5
	movd 8(%rdx), %xmm6
	pinsrd $1, 80(%rdx), %xmm6
	pinsrd $2, 152(%rdx), %xmm6
	pinsrd $3, 224(%rdx), %xmm6
	movd 4(%rdx), %xmm7
	pinsrd $1, 76(%rdx), %xmm7
	pinsrd $2, 148(%rdx), %xmm7
	pinsrd $3, 220(%rdx), %xmm7
	movdqu %xmm7, (%rcx)
	movdqu %xmm6, 16(%rcx)
	movdqu %xmm5, 32(%rcx)
	movdqu %xmm4, 48(%rcx)
	movdqu %xmm3, 64(%rcx)
	movdqu %xmm2, 80(%rcx)
	movdqu %xmm1, 96(%rcx)
	movdqu %xmm0, 112(%rcx)
	movaps (%rsp), %xmm6
	movaps 16(%rsp), %xmm7
	addq $40, %rsp
	retq
.LBB51_5:
	ud2
	.seh_endproc
	.section .rdata,"dr"
	.p2align 4, 0x0
.LCPI52_0:
	.long 1116352408
	.long 1116352408
	.long 1116352408
	.long 1116352408
.LCPI52_1:
	.long 1899447441
	.long 1899447441
	.long 1899447441
	.long 1899447441
.LCPI52_2:
	.long 3049323471
	.long 3049323471
	.long 3049323471
	.long 3049323471
.LCPI52_3:
	.long 3921009573
	.long 3921009573
	.long 3921009573
	.long 3921009573
.LCPI52_4:
	.long 961987163
	.long 961987163
	.long 961987163
	.long 961987163
.LCPI52_5:
	.long 1508970993
	.long 1508970993
	.long 1508970993
	.long 1508970993
.LCPI52_6:
	.long 2453635748
	.long 2453635748
	.long 2453635748
	.long 2453635748
.LCPI52_7:
	.long 2870763221
	.long 2870763221
	.long 2870763221
	.long 2870763221
.LCPI52_8:
	.long 1476897432
	.long 1476897432
	.long 1476897432
	.long 1476897432
.LCPI52_9:
	.long 310598401
	.long 310598401
	.long 310598401
	.long 310598401
.LCPI52_10:
	.long 607225278
	.long 607225278
	.long 607225278
	.long 607225278
.LCPI52_11:
	.long 1426881987
	.long 1426881987
	.long 1426881987
	.long 1426881987
.LCPI52_12:
	.long 1925078388
	.long 1925078388
	.long 1925078388
	.long 1925078388
.LCPI52_13:
	.long 2162078206
	.long 2162078206
	.long 2162078206
	.long 2162078206
.LCPI52_14:
	.long 2614888103
	.long 2614888103
	.long 2614888103
	.long 2614888103
.LCPI52_15:
	.long 3248223348
	.long 3248223348
	.long 3248223348
	.long 3248223348
.LCPI52_16:
	.long 2147483648
	.long 2147483648
	.long 2147483648
	.long 2147483648
.LCPI52_17:
	.long 768
	.long 768
	.long 768
	.long 768
	.text
	.p2align 4
ring_core.digest.sha2.lanes.block_of_words_lanes_counted.302711f8c02ab38b:
.seh_proc ring_core.digest.sha2.lanes.block_of_words_lanes_counted.302711f8c02ab38b
	subq $744, %rsp
	.seh_stackalloc 744
	movaps %xmm15, 720(%rsp)
	.seh_savexmm %xmm15, 720
	movdqa %xmm14, 704(%rsp)
	.seh_savexmm %xmm14, 704
	movaps %xmm13, 688(%rsp)
	.seh_savexmm %xmm13, 688
	movaps %xmm12, 672(%rsp)
	.seh_savexmm %xmm12, 672
	movaps %xmm11, 656(%rsp)
	.seh_savexmm %xmm11, 656
	movaps %xmm10, 640(%rsp)
	.seh_savexmm %xmm10, 640
	movaps %xmm9, 624(%rsp)
	.seh_savexmm %xmm9, 624
	movaps %xmm8, 608(%rsp)
	.seh_savexmm %xmm8, 608
	movaps %xmm7, 592(%rsp)
	.seh_savexmm %xmm7, 592
	movaps %xmm6, 576(%rsp)
	.seh_savexmm %xmm6, 576
	.seh_endprologue
	movdqu (%rdx), %xmm4
	movdqu 16(%rdx), %xmm7
	movdqu (%rcx), %xmm12
	movdqu 16(%rcx), %xmm10
	movdqu 32(%rcx), %xmm8
	movdqu 64(%rcx), %xmm11
	movdqu 80(%rcx), %xmm9
	movdqu 96(%rcx), %xmm6
	movdqu 112(%rcx), %xmm3
	movdqa %xmm11, %xmm0
	psrld $14, %xmm0
	movdqa %xmm11, %xmm1
	pslld $18, %xmm1
	por %xmm0, %xmm1
	pxor %xmm11, %xmm1
	movdqa %xmm1, %xmm0
	psrld $5, %xmm0
	pslld $27, %xmm1
	por %xmm0, %xmm1
	pxor %xmm11, %xmm1
	movdqa %xmm1, %xmm0
	psrld $6, %xmm0
	pslld $26, %xmm1
	por %xmm0, %xmm1
	movdqa %xmm11, %xmm0
	pandn %xmm6, %xmm0
	movdqa %xmm9, %xmm2
	pand %xmm11, %xmm2
	por %xmm0, %xmm2
	movdqa %xmm4, 208(%rsp)
	movdqa %xmm3, 432(%rsp)
	paddd %xmm3, %xmm4
	paddd %xmm2, %xmm4
	paddd %xmm1, %xmm4
	paddd .LCPI52_0(%rip), %xmm4
	movdqu 48(%rcx), %xmm3
	movdqa %xmm12, %xmm0
	psrld $9, %xmm0
	movdqa %xmm12, %xmm1
	pslld $23, %xmm1
	por %xmm0, %xmm1
	pxor %xmm12, %xmm1
	movdqa %xmm1, %xmm0
	psrld $11, %xmm0
	pslld $21, %xmm1
	por %xmm0, %xmm1
	pxor %xmm12, %xmm1
	movdqa %xmm1, %xmm0
	psrld $2, %xmm0
	pslld $30, %xmm1
	por %xmm0, %xmm1
	movdqa %xmm10, %xmm2
	pxor %xmm12, %xmm2
	movdqa %xmm2, %xmm0
	pandn %xmm10, %xmm0
	movdqa %xmm8, %xmm5
	pand %xmm2, %xmm5
	por %xmm0, %xmm5
	paddd %xmm1, %xmm5
	paddd %xmm4, %xmm5
	movdqa %xmm3, 320(%rsp)
	paddd %xmm3, %xmm4
	movdqa %xmm4, %xmm0
	psrld $14, %xmm0
	movdqa %xmm4, %xmm1
	pslld $18, %xmm1
	por %xmm0, %xmm1
	pxor %xmm4, %xmm1
	movdqa %xmm1, %xmm0
	psrld $5, %xmm0
	pslld $27, %xmm1
	por %xmm0, %xmm1
	pxor %xmm4, %xmm1
	movdqa %xmm1, %xmm0
	psrld $6, %xmm0
	pslld $26, %xmm1
	por %xmm0, %xmm1
	movdqa %xmm4, %xmm0
	pandn %xmm9, %xmm0
	movdqa %xmm11, %xmm3
	pand %xmm4, %xmm3
	por %xmm0, %xmm3
	movdqa %xmm7, 192(%rsp)
	movdqa %xmm6, 416(%rsp)
	paddd %xmm6, %xmm7
	paddd %xmm3, %xmm7
	paddd %xmm1, %xmm7
	paddd .LCPI52_1(%rip), %xmm7
	movdqa %xmm5, %xmm0
	psrld $9, %xmm0
	movdqa %xmm5, %xmm1
	pslld $23, %xmm1
	por %xmm0, %xmm1
	pxor %xmm5, %xmm1
	movdqa %xmm1, %xmm0
	psrld $11, %xmm0
	pslld $21, %xmm1
	por %xmm0, %xmm1
	pxor %xmm5, %xmm1
	movdqa %xmm1, %xmm0
	psrld $2, %xmm0
	pslld $30, %xmm1
	por %xmm0, %xmm1
	movdqa %xmm5, %xmm0
	pxor %xmm12, %xmm0
	pand %xmm0, %xmm2
	pxor %xmm12, %xmm2
	paddd %xmm1, %xmm2
	paddd %xmm7, %xmm2
	movdqa %xmm8, 368(%rsp)
	paddd %xmm8, %xmm7
	movdqa %xmm7, %xmm1
	psrld $14, %xmm1
	movdqa %xmm7, %xmm3
	pslld $18, %xmm3
	por %xmm1, %xmm3
	pxor %xmm7, %xmm3
	movdqa %xmm3, %xmm1
	psrld $5, %xmm1
	pslld $27, %xmm3
	por %xmm1, %xmm3
	pxor %xmm7, %xmm3
	movdqa %xmm3, %xmm1
	psrld $6, %xmm1
	pslld $26, %xmm3
	por %xmm1, %xmm3
	movdqa %xmm7, %xmm1
	pandn %xmm11, %xmm1
	movdqa %xmm4, %xmm8
	pand %xmm7, %xmm8
	por %xmm1, %xmm8
	movdqu 32(%rdx), %xmm6
	movdqa %xmm6, 160(%rsp)
	movdqa %xmm9, 400(%rsp)
	paddd %xmm9, %xmm6
	paddd %xmm8, %xmm6
	paddd %xmm3, %xmm6
	movdqa %xmm2, %xmm1
	psrld $9, %xmm1
	movdqa %xmm2, %xmm3
	pslld $23, %xmm3
	por %xmm1, %xmm3
	pxor %xmm2, %xmm3
	movdqa %xmm3, %xmm1
	psrld $11, %xmm1
	pslld $21, %xmm3
	por %xmm1, %xmm3
	pxor %xmm2, %xmm3
	movdqa %xmm3, %xmm1
	psrld $2, %xmm1
	pslld $30, %xmm3
	por %xmm1, %xmm3
	movdqa %xmm2, %xmm1
	pxor %xmm5, %xmm1
	pand %xmm1, %xmm0
	pxor %xmm5, %xmm0
	paddd %xmm3, %xmm0
	paddd .LCPI52_2(%rip), %xmm6
	paddd %xmm6, %xmm0
	movdqa %xmm10, 352(%rsp)
	paddd %xmm10, %xmm6
	movdqa %xmm6, %xmm3
	psrld $14, %xmm3
	movdqa %xmm6, %xmm8
	pslld $18, %xmm8
	por %xmm3, %xmm8
	pxor %xmm6, %xmm8
	movdqa %xmm8, %xmm3
	psrld $5, %xmm3
	pslld $27, %xmm8
	por %xmm3, %xmm8
	pxor %xmm6, %xmm8
	movdqa %xmm8, %xmm3
	psrld $6, %xmm3
	pslld $26, %xmm8
	por %xmm3, %xmm8
	movdqa %xmm6, %xmm3
	pandn %xmm4, %xmm3
	movdqa %xmm7, %xmm10
	pand %xmm6, %xmm10
	por %xmm3, %xmm10
	movdqu 48(%rdx), %xmm9
	movdqa %xmm9, 128(%rsp)
	movdqa %xmm11, 384(%rsp)
	paddd %xmm11, %xmm9
	paddd %xmm10, %xmm9
	paddd %xmm8, %xmm9
	movdqa %xmm0, %xmm3
	psrld $9, %xmm3
	movdqa %xmm0, %xmm8
	pslld $23, %xmm8
	por %xmm3, %xmm8
	pxor %xmm0, %xmm8
	movdqa %xmm8, %xmm3
	psrld $11, %xmm3
	pslld $21, %xmm8
	por %xmm3, %xmm8
	pxor %xmm0, %xmm8
	movdqa %xmm8, %xmm3
	psrld $2, %xmm3
	pslld $30, %xmm8
	por %xmm3, %xmm8
	movdqa %xmm0, %xmm3
	pxor %xmm2, %xmm3
	pand %xmm3, %xmm1
	pxor %xmm2, %xmm1
	paddd %xmm8, %xmm1
	paddd .LCPI52_3(%rip), %xmm9
	paddd %xmm9, %xmm1
	movdqa %xmm12, 336(%rsp)
	paddd %xmm12, %xmm9
	movdqa %xmm9, %xmm10
	psrld $14, %xmm10
	movdqa %xmm9, %xmm8
	pslld $18, %xmm8
	por %xmm10, %xmm8
	pxor %xmm9, %xmm8
	movdqa %xmm8, %xmm10
	psrld $5, %xmm10
	pslld $27, %xmm8
	por %xmm10, %xmm8
	pxor %xmm9, %xmm8
	movdqa %xmm8, %xmm10
	psrld $6, %xmm10
	pslld $26, %xmm8
	por %xmm10, %xmm8
	movdqu 80(%rdx), %xmm10
	movdqa %xmm10, 112(%rsp)
	paddd %xmm7, %xmm10
	movdqa %xmm9, %xmm11
	pandn %xmm7, %xmm11
	movdqa %xmm6, %xmm7
	pand %xmm9, %xmm7
	por %xmm11, %xmm7
	movdqu 64(%rdx), %xmm11
	movdqa %xmm11, 176(%rsp)
	paddd %xmm11, %xmm4
	paddd %xmm4, %xmm7
	paddd %xmm8, %xmm7
	movdqa %xmm1, %xmm4
	psrld $9, %xmm4
	movdqa %xmm1, %xmm8
	pslld $23, %xmm8
	por %xmm4, %xmm8
	pxor %xmm1, %xmm8
	movdqa %xmm8, %xmm4
	psrld $11, %xmm4
	pslld $21, %xmm8
	por %xmm4, %xmm8
	pxor %xmm1, %xmm8
	movdqa %xmm8, %xmm4
	psrld $2, %xmm4
	pslld $30, %xmm8
	por %xmm4, %xmm8
	movdqa %xmm1, %xmm4
	pxor %xmm0, %xmm4
	pand %xmm4, %xmm3
	pxor %xmm0, %xmm3
	paddd %xmm8, %xmm3
	paddd .LCPI52_4(%rip), %xmm7
	paddd %xmm7, %xmm3
	paddd %xmm5, %xmm7
	movdqa %xmm7, %xmm5
	psrld $14, %xmm5
	movdqa %xmm7, %xmm11
	pslld $18, %xmm11
	por %xmm5, %xmm11
	pxor %xmm7, %xmm11
	movdqa %xmm11, %xmm5
	psrld $5, %xmm5
	pslld $27, %xmm11
	por %xmm5, %xmm11
	pxor %xmm7, %xmm11
	movdqa %xmm11, %xmm5
	psrld $6, %xmm5
	pslld $26, %xmm11
	por %xmm5, %xmm11
	movdqa %xmm7, %xmm5
	pandn %xmm6, %xmm5
	movdqa %xmm9, %xmm8
	pand %xmm7, %xmm8
	por %xmm5, %xmm8
	paddd %xmm10, %xmm8
	paddd %xmm11, %xmm8
	movdqa %xmm3, %xmm5
	psrld $9, %xmm5
	movdqa %xmm3, %xmm10
	pslld $23, %xmm10
	por %xmm5, %xmm10
	pxor %xmm3, %xmm10
	movdqa %xmm10, %xmm5
	psrld $11, %xmm5
	pslld $21, %xmm10
	por %xmm5, %xmm10
	pxor %xmm3, %xmm10
	movdqa %xmm10, %xmm5
	psrld $2, %xmm5
	pslld $30, %xmm10
	por %xmm5, %xmm10
	movdqa %xmm3, %xmm5
	pxor %xmm1, %xmm5
	pand %xmm5, %xmm4
	pxor %xmm1, %xmm4
	paddd %xmm10, %xmm4
	paddd .LCPI52_5(%rip), %xmm8
	paddd %xmm8, %xmm4
	paddd %xmm2, %xmm8
	movdqa %xmm8, %xmm10
	psrld $14, %xmm10
	movdqa %xmm8, %xmm2
	pslld $18, %xmm2
	por %xmm10, %xmm2
	pxor %xmm8, %xmm2
	movdqa %xmm2, %xmm10
	psrld $5, %xmm10
	pslld $27, %xmm2
	por %xmm10, %xmm2
	pxor %xmm8, %xmm2
	movdqa %xmm2, %xmm10
	psrld $6, %xmm10
	pslld $26, %xmm2
	por %xmm10, %xmm2
	movdqu 112(%rdx), %xmm11
	movdqa %xmm11, 96(%rsp)
	paddd %xmm9, %xmm11
	movdqa %xmm8, %xmm10
	pandn %xmm9, %xmm10
	movdqa %xmm7, %xmm9
	pand %xmm8, %xmm9
	por %xmm10, %xmm9
	movdqu 96(%rdx), %xmm10
	movdqa %xmm10, 144(%rsp)
	paddd %xmm10, %xmm6
	paddd %xmm6, %xmm9
	paddd %xmm2, %xmm9
	movdqa %xmm4, %xmm2
	psrld $9, %xmm2
	movdqa %xmm4, %xmm6
	pslld $23, %xmm6
	por %xmm2, %xmm6
	pxor %xmm4, %xmm6
	movdqa %xmm6, %xmm2
	psrld $11, %xmm2
	pslld $21, %xmm6
	por %xmm2, %xmm6
	pxor %xmm4, %xmm6
	movdqa %xmm6, %xmm2
	psrld $2, %xmm2
	pslld $30, %xmm6
	por %xmm2, %xmm6
	movdqa %xmm4, %xmm2
	pxor %xmm3, %xmm2
	pand %xmm2, %xmm5
	pxor %xmm3, %xmm5
	paddd %xmm6, %xmm5
	paddd .LCPI52_6(%rip), %xmm9
	paddd %xmm9, %xmm5
	paddd %xmm0, %xmm9
	movdqa %xmm9, %xmm0
	psrld $14, %xmm0
	movdqa %xmm9, %xmm6
	pslld $18, %xmm6
	por %xmm0, %xmm6
	pxor %xmm9, %xmm6
	movdqa %xmm6, %xmm0
	psrld $5, %xmm0
	pslld $27, %xmm6
	por %xmm0, %xmm6
	pxor %xmm9, %xmm6
	movdqa %xmm6, %xmm0
	psrld $6, %xmm0
	pslld $26, %xmm6
	por %xmm0, %xmm6
	movdqa %xmm9, %xmm0
	pandn %xmm7, %xmm0
	movdqa %xmm8, %xmm10
	pand %xmm9, %xmm10
	por %xmm0, %xmm10
	paddd %xmm11, %xmm10
	paddd %xmm6, %xmm10
	movdqa %xmm5, %xmm0
	psrld $9, %xmm0
	movdqa %xmm5, %xmm11
	pslld $23, %xmm11
	por %xmm0, %xmm11
	pxor %xmm5, %xmm11
	movdqa %xmm11, %xmm0
	psrld $11, %xmm0
	pslld $21, %xmm11
	por %xmm0, %xmm11
	pxor %xmm5, %xmm11
	movdqa %xmm11, %xmm0
	psrld $2, %xmm0
	pslld $30, %xmm11
	por %xmm0, %xmm11
	paddd .LCPI52_7(%rip), %xmm10
	movdqa %xmm5, %xmm6
	pxor %xmm4, %xmm6
	pand %xmm6, %xmm2
	pxor %xmm4, %xmm2
	paddd %xmm11, %xmm2
	paddd %xmm10, %xmm2
	paddd %xmm1, %xmm10
	movdqa %xmm10, %xmm0
	psrld $14, %xmm0
	movdqa %xmm10, %xmm1
	pslld $18, %xmm1
	por %xmm0, %xmm1
	pxor %xmm10, %xmm1
	movdqa %xmm1, %xmm0
	psrld $5, %xmm0
	pslld $27, %xmm1
	por %xmm0, %xmm1
	pxor %xmm10, %xmm1
	movdqa %xmm1, %xmm0
	psrld $6, %xmm0
	pslld $26, %xmm1
	por %xmm0, %xmm1
	movdqa %xmm10, %xmm0
	pandn %xmm8, %xmm0
	movdqa %xmm9, %xmm13
	pand %xmm10, %xmm13
	por %xmm0, %xmm13
	paddd %xmm7, %xmm13
	paddd %xmm1, %xmm13
	movdqa %xmm2, %xmm0
	psrld $9, %xmm0
	movdqa %xmm2, %xmm7
	pslld $23, %xmm7
	por %xmm0, %xmm7
	pxor %xmm2, %xmm7
	movdqa %xmm7, %xmm0
	psrld $11, %xmm0
	pslld $21, %xmm7
	por %xmm0, %xmm7
	pxor %xmm2, %xmm7
	movdqa %xmm7, %xmm0
	psrld $2, %xmm0
	pslld $30, %xmm7
	por %xmm0, %xmm7
	movdqa %xmm2, %xmm1
	pxor %xmm5, %xmm1
	pand %xmm1, %xmm6
	pxor %xmm5, %xmm6
	paddd %xmm7, %xmm6
	paddd .LCPI52_8(%rip), %xmm13
	paddd %xmm13, %xmm6
	paddd %xmm3, %xmm13
	movdqa %xmm13, %xmm0
	psrld $14, %xmm0
	movdqa %xmm13, %xmm3
	pslld $18, %xmm3
	por %xmm0, %xmm3
	pxor %xmm13, %xmm3
	movdqa %xmm3, %xmm0
	psrld $5, %xmm0
	pslld $27, %xmm3
	por %xmm0, %xmm3
	pxor %xmm13, %xmm3
	movdqa %xmm3, %xmm0
	psrld $6, %xmm0
	pslld $26, %xmm3
	por %xmm0, %xmm3
	movdqa %xmm13, %xmm0
	pandn %xmm9, %xmm0
	movdqa %xmm10, %xmm12
	pand %xmm13, %xmm12
	por %xmm0, %xmm12
	paddd %xmm8, %xmm12
	paddd %xmm3, %xmm12
	movdqa %xmm6, %xmm0
	psrld $9, %xmm0
	movdqa %xmm6, %xmm3
	pslld $23, %xmm3
	por %xmm0, %xmm3
	pxor %xmm6, %xmm3
	movdqa %xmm3, %xmm0
	psrld $11, %xmm0
	pslld $21, %xmm3
	por %xmm0, %xmm3
	pxor %xmm6, %xmm3
	movdqa %xmm3, %xmm0
	psrld $2, %xmm0
	pslld $30, %xmm3
	por %xmm0, %xmm3
	paddd .LCPI52_9(%rip), %xmm12
	movdqa %xmm6, %xmm0
	pxor %xmm2, %xmm0
	pand %xmm0, %xmm1
	pxor %xmm2, %xmm1
	paddd %xmm3, %xmm1
	paddd %xmm12, %xmm1
	paddd %xmm4, %xmm12
	movdqa %xmm12, %xmm3
	psrld $14, %xmm3
	movdqa %xmm12, %xmm4
	pslld $18, %xmm4
	por %xmm3, %xmm4
	pxor %xmm12, %xmm4
	movdqa %xmm4, %xmm3
	psrld $5, %xmm3
	pslld $27, %xmm4
	por %xmm3, %xmm4
	pxor %xmm12, %xmm4
	movdqa %xmm4, %xmm3
	psrld $6, %xmm3
	pslld $26, %xmm4
	por %xmm3, %xmm4
	movdqa %xmm12, %xmm3
	pandn %xmm10, %xmm3
	movdqa %xmm13, %xmm8
	pand %xmm12, %xmm8
	por %xmm3, %xmm8
	paddd %xmm9, %xmm8
	paddd %xmm4, %xmm8
	movdqa %xmm1, %xmm3
	psrld $9, %xmm3
	movdqa %xmm1, %xmm4
	pslld $23, %xmm4
	por %xmm3, %xmm4
	pxor %xmm1, %xmm4
	movdqa %xmm4, %xmm3
	psrld $11, %xmm3
	pslld $21, %xmm4
	por %xmm3, %xmm4
	pxor %xmm1, %xmm4
	movdqa %xmm4, %xmm3
	psrld $2, %xmm3
	pslld $30, %xmm4
	por %xmm3, %xmm4
	movdqa %xmm1, %xmm7
	pxor %xmm6, %xmm7
	pand %xmm7, %xmm0
	pxor %xmm6, %xmm0
	paddd %xmm4, %xmm0
	paddd .LCPI52_10(%rip), %xmm8
	paddd %xmm8, %xmm0
	paddd %xmm5, %xmm8
	movdqa %xmm8, %xmm3
	psrld $14, %xmm3
	movdqa %xmm8, %xmm4
	pslld $18, %xmm4
	por %xmm3, %xmm4
	pxor %xmm8, %xmm4
	movdqa %xmm4, %xmm3
	psrld $5, %xmm3
	pslld $27, %xmm4
	por %xmm3, %xmm4
	pxor %xmm8, %xmm4
	movdqa %xmm4, %xmm3
	psrld $6, %xmm3
	pslld $26, %xmm4
	por %xmm3, %xmm4
	movdqa %xmm8, %xmm3
	pandn %xmm13, %xmm3
	movdqa %xmm12, %xmm9
	pand %xmm8, %xmm9
	por %xmm3, %xmm9
	paddd %xmm10, %xmm9
	paddd %xmm4, %xmm9
	movdqa %xmm0, %xmm3
	psrld $9, %xmm3
	movdqa %xmm0, %xmm4
	pslld $23, %xmm4
	por %xmm3, %xmm4
	pxor %xmm0, %xmm4
	movdqa %xmm4, %xmm3
	psrld $11, %xmm3
	pslld $21, %xmm4
	por %xmm3, %xmm4
	pxor %xmm0, %xmm4
	movdqa %xmm4, %xmm3
	psrld $2, %xmm3
	pslld $30, %xmm4
	por %xmm3, %xmm4
	paddd .LCPI52_11(%rip), %xmm9
	movdqa %xmm0, %xmm11
	pxor %xmm1, %xmm11
	pand %xmm11, %xmm7
	pxor %xmm1, %xmm7
	paddd %xmm4, %xmm7
	paddd %xmm9, %xmm7
	paddd %xmm2, %xmm9
	movdqa %xmm9, %xmm2
	psrld $14, %xmm2
	movdqa %xmm9, %xmm4
	pslld $18, %xmm4
	por %xmm2, %xmm4
	pxor %xmm9, %xmm4
	movdqa %xmm4, %xmm2
	psrld $5, %xmm2
	pslld $27, %xmm4
	por %xmm2, %xmm4
	pxor %xmm9, %xmm4
	movdqa %xmm4, %xmm2
	psrld $6, %xmm2
	pslld $26, %xmm4
	por %xmm2, %xmm4
	movdqa %xmm9, %xmm2
	pandn %xmm12, %xmm2
	movdqa %xmm8, %xmm3
	pand %xmm9, %xmm3
	por %xmm2, %xmm3
	paddd %xmm13, %xmm3
	paddd %xmm4, %xmm3
	movdqa %xmm7, %xmm2
	psrld $9, %xmm2
	movdqa %xmm7, %xmm4
	pslld $23, %xmm4
	por %xmm2, %xmm4
	pxor %xmm7, %xmm4
	movdqa %xmm4, %xmm2
	psrld $11, %xmm2
	pslld $21, %xmm4
	por %xmm2, %xmm4
	pxor %xmm7, %xmm4
	movdqa %xmm4, %xmm2
	psrld $2, %xmm2
	pslld $30, %xmm4
	por %xmm2, %xmm4
	movdqa %xmm7, %xmm5
	pxor %xmm0, %xmm5
	pand %xmm5, %xmm11
	pxor %xmm0, %xmm11
	paddd %xmm4, %xmm11
	paddd .LCPI52_12(%rip), %xmm3
	paddd %xmm3, %xmm11
	paddd %xmm6, %xmm3
	movdqa %xmm3, %xmm2
	psrld $14, %xmm2
	movdqa %xmm3, %xmm4
	pslld $18, %xmm4
	por %xmm2, %xmm4
	pxor %xmm3, %xmm4
	movdqa %xmm4, %xmm2
	psrld $5, %xmm2
	pslld $27, %xmm4
	por %xmm2, %xmm4
	pxor %xmm3, %xmm4
	movdqa %xmm4, %xmm2
	psrld $6, %xmm2
	pslld $26, %xmm4
	por %xmm2, %xmm4
	movdqa %xmm3, %xmm2
	pandn %xmm8, %xmm2
	movdqa %xmm9, %xmm15
	pand %xmm3, %xmm15
	por %xmm2, %xmm15
	paddd %xmm12, %xmm15
	paddd %xmm4, %xmm15
	movdqa %xmm11, %xmm2
	psrld $9, %xmm2
	movdqa %xmm11, %xmm6
	pslld $23, %xmm6
	por %xmm2, %xmm6
	pxor %xmm11, %xmm6
	movdqa %xmm6, %xmm2
	psrld $11, %xmm2
	pslld $21, %xmm6
	por %xmm2, %xmm6
	pxor %xmm11, %xmm6
	movdqa %xmm6, %xmm2
	psrld $2, %xmm2
	pslld $30, %xmm6
	por %xmm2, %xmm6
	paddd .LCPI52_13(%rip), %xmm15
	movdqa %xmm11, %xmm4
	pxor %xmm7, %xmm4
	pand %xmm4, %xmm5
	pxor %xmm7, %xmm5
	paddd %xmm6, %xmm5
	paddd %xmm15, %xmm5
	paddd %xmm1, %xmm15
	movdqa %xmm15, %xmm1
	psrld $14, %xmm1
	movdqa %xmm15, %xmm2
	pslld $18, %xmm2
	por %xmm1, %xmm2
	pxor %xmm15, %xmm2
	movdqa %xmm2, %xmm1
	psrld $5, %xmm1
	pslld $27, %xmm2
	por %xmm1, %xmm2
	pxor %xmm15, %xmm2
	movdqa %xmm2, %xmm1
	psrld $6, %xmm1
	pslld $26, %xmm2
	por %xmm1, %xmm2
	movdqa %xmm15, %xmm1
	pandn %xmm9, %xmm1
	movdqa %xmm3, %xmm6
	pand %xmm15, %xmm6
	por %xmm1, %xmm6
	paddd %xmm8, %xmm6
	paddd %xmm2, %xmm6
	movdqa %xmm5, %xmm1
	psrld $9, %xmm1
	movdqa %xmm5, %xmm8
	pslld $23, %xmm8
	por %xmm1, %xmm8
	pxor %xmm5, %xmm8
	movdqa %xmm8, %xmm1
	psrld $11, %xmm1
	pslld $21, %xmm8
	por %xmm1, %xmm8
	pxor %xmm5, %xmm8
	movdqa %xmm8, %xmm1
	psrld $2, %xmm1
	pslld $30, %xmm8
	por %xmm1, %xmm8
	movdqa %xmm5, %xmm2
	pxor %xmm11, %xmm2
	pand %xmm2, %xmm4
	pxor %xmm11, %xmm4
	paddd %xmm8, %xmm4
	paddd .LCPI52_14(%rip), %xmm6
	paddd %xmm6, %xmm4
	paddd %xmm0, %xmm6
	movdqa %xmm6, %xmm0
	psrld $14, %xmm0
	movdqa %xmm6, %xmm1
	pslld $18, %xmm1
	por %xmm0, %xmm1
	pxor %xmm6, %xmm1
	movdqa %xmm1, %xmm0
	psrld $5, %xmm0
	pslld $27, %xmm1
	por %xmm0, %xmm1
	pxor %xmm6, %xmm1
	movdqa %xmm1, %xmm0
	psrld $6, %xmm0
	pslld $26, %xmm1
	por %xmm0, %xmm1
	movdqa %xmm6, %xmm0
	pandn %xmm3, %xmm0
	movdqa %xmm15, %xmm13
	pand %xmm6, %xmm13
	por %xmm0, %xmm13
	paddd %xmm9, %xmm13
	paddd %xmm1, %xmm13
	movdqa %xmm4, %xmm0
	psrld $9, %xmm0
	movdqa %xmm4, %xmm1
	pslld $23, %xmm1
	por %xmm0, %xmm1
	pxor %xmm4, %xmm1
	movdqa %xmm1, %xmm0
	psrld $11, %xmm0
	pslld $21, %xmm1
	por %xmm0, %xmm1
	pxor %xmm4, %xmm1
	movdqa %xmm1, %xmm0
	psrld $2, %xmm0
	pslld $30, %xmm1
	por %xmm0, %xmm1
	movdqa %xmm4, %xmm0
	pand %xmm2, %xmm0
	pandn %xmm5, %xmm2
	por %xmm0, %xmm2
	paddd .LCPI52_15(%rip), %xmm13
	paddd %xmm1, %xmm2
	paddd %xmm13, %xmm2
	paddd %xmm7, %xmm13
	xorl %eax, %eax
	movaps .LCPI52_16(%rip), %xmm0
	movaps %xmm0, 80(%rsp)
	movdqa .LCPI52_17(%rip), %xmm7
	pxor %xmm9, %xmm9
	pxor %xmm1, %xmm1
	pxor %xmm10, %xmm10
	xorps %xmm0, %xmm0
	pxor %xmm8, %xmm8
	pxor %xmm12, %xmm12
	movdqa %xmm12, (%rsp)
	.p2align 4
.LBB52_1:
	movdqa %xmm9, 288(%rsp)
	movdqa %xmm1, 224(%rsp)
	movaps %xmm0, 272(%rsp)
	movdqa %xmm8, 48(%rsp)
	movdqa %xmm10, %xmm0
	psrld $2, %xmm0
	movdqa %xmm10, %xmm1
	pslld $30, %xmm1
	por %xmm0, %xmm1
	movdqa 192(%rsp), %xmm14
	movdqa %xmm14, %xmm0
	psrld $11, %xmm0
	movdqa %xmm7, %xmm12
	movdqa %xmm14, %xmm7
	movdqa %xmm10, 32(%rsp)
	pslld $21, %xmm7
	por %xmm0, %xmm7
	pxor %xmm10, %xmm1
	movdqa %xmm1, %xmm0
	psrld $17, %xmm0
	pslld $15, %xmm1
	por %xmm0, %xmm1
	pxor %xmm14, %xmm7
	movdqa %xmm7, %xmm0
	pslld $25, %xmm7
	psrld $7, %xmm0
	por %xmm0, %xmm7
	movdqa %xmm14, %xmm8
	psrld $3, %xmm8
	pxor %xmm7, %xmm8
	movdqa %xmm12, 64(%rsp)
	movdqa %xmm12, %xmm7
	psrld $2, %xmm7
	movdqa %xmm12, %xmm0
	pslld $30, %xmm0
	por %xmm7, %xmm0
	pxor %xmm12, %xmm0
	movdqa %xmm0, %xmm7
	psrld $17, %xmm7
	pslld $15, %xmm0
	por %xmm7, %xmm0
	movdqa 208(%rsp), %xmm12
	paddd %xmm9, %xmm12
	paddd %xmm8, %xmm12
	movdqa 160(%rsp), %xmm9
	movdqa %xmm9, %xmm7
	psrld $11, %xmm7
	movdqa %xmm9, %xmm8
	pslld $21, %xmm8
	por %xmm7, %xmm8
	pxor %xmm9, %xmm8
	movdqa %xmm8, %xmm7
	psrld $7, %xmm7
	pslld $25, %xmm8
	por %xmm7, %xmm8
	psrld $3, %xmm9
	pxor %xmm8, %xmm9
	movdqa %xmm13, %xmm8
	psrld $14, %xmm8
	movdqa %xmm13, %xmm7
	pslld $18, %xmm7
	por %xmm8, %xmm7
	paddd 224(%rsp), %xmm14
	paddd %xmm9, %xmm14
	movdqa %xmm14, %xmm10
	pxor %xmm13, %xmm7
	movdqa %xmm7, %xmm8
	pslld $27, %xmm7
	psrld $5, %xmm8
	por %xmm8, %xmm7
	movdqa 32(%rsp), %xmm9
	psrld $10, %xmm9
	pxor %xmm1, %xmm9
	pxor %xmm13, %xmm7
	movdqa %xmm7, %xmm1
	pslld $26, %xmm7
	psrld $6, %xmm1
	por %xmm1, %xmm7
	movdqa %xmm13, %xmm1
	pandn %xmm15, %xmm1
	movdqa %xmm6, %xmm8
	pand %xmm13, %xmm8
	por %xmm1, %xmm8
	paddd %xmm3, %xmm8
	paddd %xmm9, %xmm12
	movdqa %xmm2, %xmm1
	psrld $9, %xmm1
	movdqa %xmm2, %xmm3
	pslld $23, %xmm3
	por %xmm1, %xmm3
	pxor %xmm2, %xmm3
	movdqa %xmm3, %xmm1
	psrld $11, %xmm1
	pslld $21, %xmm3
	por %xmm1, %xmm3
	pxor %xmm2, %xmm3
	movdqa %xmm3, %xmm1
	psrld $2, %xmm1
	pslld $30, %xmm3
	por %xmm1, %xmm3
	paddd %xmm7, %xmm8
	movdqa %xmm4, %xmm9
	pxor %xmm2, %xmm9
	movdqa %xmm9, %xmm7
	pandn %xmm4, %xmm7
	movdqa %xmm5, %xmm1
	pand %xmm9, %xmm1
	por %xmm7, %xmm1
	leaq .Lstatic.7(%rip), %rdx
	movd 64(%rax,%rdx), %xmm7
	pshufd $0, %xmm7, %xmm7
	paddd %xmm12, %xmm7
	paddd %xmm8, %xmm7
	paddd %xmm3, %xmm1
	movdqa 64(%rsp), %xmm3
	psrld $10, %xmm3
	pxor %xmm0, %xmm3
	paddd %xmm7, %xmm1
	paddd %xmm11, %xmm7
	movdqa %xmm7, %xmm8
	psrld $14, %xmm8
	movdqa %xmm7, %xmm0
	pslld $18, %xmm0
	por %xmm8, %xmm0
	paddd %xmm3, %xmm10
	pxor %xmm7, %xmm0
	movdqa %xmm0, %xmm3
	pslld $27, %xmm0
	psrld $5, %xmm3
	por %xmm3, %xmm0
	pxor %xmm7, %xmm0
	movdqa %xmm0, %xmm3
	psrld $6, %xmm3
	pslld $26, %xmm0
	por %xmm3, %xmm0
	movdqa %xmm7, %xmm3
	pandn %xmm6, %xmm3
	movdqa %xmm13, %xmm8
	pand %xmm7, %xmm8
	por %xmm3, %xmm8
	movd 68(%rax,%rdx), %xmm3
	pshufd $0, %xmm3, %xmm3
	paddd %xmm10, %xmm15
	paddd %xmm3, %xmm15
	paddd %xmm8, %xmm15
	movdqa %xmm1, %xmm3
	psrld $9, %xmm3
	movdqa %xmm1, %xmm8
	pslld $23, %xmm8
	por %xmm3, %xmm8
	pxor %xmm1, %xmm8
	movdqa %xmm1, 16(%rsp)
	movdqa %xmm8, %xmm3
	psrld $11, %xmm3
	pslld $21, %xmm8
	por %xmm3, %xmm8
	pxor %xmm1, %xmm8
	movdqa %xmm8, %xmm3
	psrld $2, %xmm3
	pslld $30, %xmm8
	por %xmm3, %xmm8
	movdqa %xmm1, %xmm3
	pxor %xmm2, %xmm3
	movdqa %xmm3, 256(%rsp)
	movdqa %xmm9, %xmm1
	pand %xmm3, %xmm1
	pxor %xmm2, %xmm1
	paddd %xmm8, %xmm1
	movdqa %xmm12, 208(%rsp)
	movdqa %xmm12, %xmm3
	psrld $2, %xmm3
	movdqa %xmm12, %xmm8
	pslld $30, %xmm8
	por %xmm3, %xmm8
	pxor %xmm12, %xmm8
	movdqa %xmm8, %xmm3
	psrld $17, %xmm3
	pslld $15, %xmm8
	por %xmm3, %xmm8
	psrld $10, %xmm12
	pxor %xmm8, %xmm12
	movdqa 128(%rsp), %xmm11
	movdqa %xmm11, %xmm8
	psrld $11, %xmm8
	movdqa %xmm11, %xmm9
	pslld $21, %xmm9
	por %xmm8, %xmm9
	pxor %xmm11, %xmm9
	movdqa %xmm9, %xmm8
	psrld $7, %xmm8
	pslld $25, %xmm9
	por %xmm8, %xmm9
	paddd %xmm0, %xmm15
	movdqa %xmm11, %xmm0
	psrld $3, %xmm0
	pxor %xmm9, %xmm0
	movdqa 160(%rsp), %xmm14
	paddd 272(%rsp), %xmm14
	paddd %xmm0, %xmm14
	paddd %xmm12, %xmm14
	paddd %xmm15, %xmm1
	paddd %xmm5, %xmm15
	movdqa %xmm10, %xmm3
	psrld $2, %xmm3
	movdqa %xmm10, %xmm0
	movdqa %xmm10, 192(%rsp)
	pslld $30, %xmm0
	por %xmm3, %xmm0
	movdqa 176(%rsp), %xmm12
	movdqa %xmm12, %xmm3
	psrld $11, %xmm3
	movdqa %xmm12, %xmm5
	pslld $21, %xmm5
	por %xmm3, %xmm5
	pxor %xmm12, %xmm5
	movdqa %xmm5, %xmm3
	psrld $7, %xmm3
	pslld $25, %xmm5
	por %xmm3, %xmm5
	pxor %xmm10, %xmm0
	movdqa %xmm0, %xmm3
	psrld $17, %xmm3
	pslld $15, %xmm0
	por %xmm3, %xmm0
	movdqa %xmm12, %xmm3
	psrld $3, %xmm3
	pxor %xmm5, %xmm3
	paddd 48(%rsp), %xmm11
	paddd %xmm3, %xmm11
	movdqa %xmm10, %xmm3
	psrld $10, %xmm3
	pxor %xmm0, %xmm3
	paddd %xmm3, %xmm11
	movdqa %xmm11, %xmm8
	movdqa %xmm11, 128(%rsp)
	movdqa %xmm15, %xmm3
	psrld $14, %xmm3
	movdqa %xmm15, %xmm0
	pslld $18, %xmm0
	por %xmm3, %xmm0
	movdqa %xmm15, %xmm3
	pandn %xmm13, %xmm3
	movdqa %xmm7, %xmm5
	pand %xmm15, %xmm5
	por %xmm3, %xmm5
	pxor %xmm15, %xmm0
	movdqa %xmm0, %xmm3
	psrld $5, %xmm3
	pslld $27, %xmm0
	por %xmm3, %xmm0
	movd 72(%rax,%rdx), %xmm3
	pshufd $0, %xmm3, %xmm9
	paddd %xmm6, %xmm9
	pxor %xmm15, %xmm0
	movdqa %xmm0, %xmm3
	psrld $6, %xmm3
	pslld $26, %xmm0
	por %xmm3, %xmm0
	paddd %xmm14, %xmm9
	paddd %xmm5, %xmm9
	movdqa %xmm1, %xmm3
	psrld $9, %xmm3
	movdqa %xmm1, %xmm5
	pslld $23, %xmm5
	por %xmm3, %xmm5
	paddd %xmm0, %xmm9
	pxor %xmm1, %xmm5
	movdqa %xmm1, %xmm11
	movdqa %xmm5, %xmm0
	pslld $21, %xmm5
	psrld $11, %xmm0
	por %xmm0, %xmm5
	pxor %xmm1, %xmm5
	movdqa %xmm5, %xmm0
	psrld $2, %xmm0
	pslld $30, %xmm5
	por %xmm0, %xmm5
	movdqa %xmm1, %xmm10
	movdqa 16(%rsp), %xmm1
	pxor %xmm1, %xmm10
	movdqa 256(%rsp), %xmm0
	pand %xmm10, %xmm0
	pxor %xmm1, %xmm0
	paddd %xmm5, %xmm0
	movdqa %xmm9, %xmm5
	paddd %xmm9, %xmm0
	movdqa %xmm0, %xmm6
	paddd %xmm4, %xmm5
	movdqa %xmm5, %xmm3
	psrld $14, %xmm3
	movdqa %xmm5, %xmm0
	pslld $18, %xmm0
	por %xmm3, %xmm0
	movdqa %xmm5, %xmm3
	pandn %xmm7, %xmm3
	movdqa %xmm15, %xmm4
	pand %xmm5, %xmm4
	por %xmm3, %xmm4
	pxor %xmm5, %xmm0
	movdqa %xmm5, 304(%rsp)
	movdqa %xmm0, %xmm3
	psrld $5, %xmm3
	pslld $27, %xmm0
	por %xmm3, %xmm0
	movd 76(%rax,%rdx), %xmm3
	pshufd $0, %xmm3, %xmm3
	paddd %xmm13, %xmm3
	paddd %xmm8, %xmm3
	paddd %xmm4, %xmm3
	movdqa %xmm3, %xmm13
	movdqa %xmm6, %xmm8
	movdqa %xmm6, %xmm4
	psrld $9, %xmm4
	movdqa %xmm6, %xmm3
	pslld $23, %xmm3
	por %xmm4, %xmm3
	pxor %xmm6, %xmm3
	movdqa %xmm3, %xmm4
	psrld $11, %xmm4
	pslld $21, %xmm3
	por %xmm4, %xmm3
	pxor %xmm5, %xmm0
	movdqa %xmm0, %xmm4
	psrld $6, %xmm4
	pslld $26, %xmm0
	por %xmm4, %xmm0
	movdqa %xmm14, 160(%rsp)
	movdqa %xmm14, %xmm4
	psrld $2, %xmm4
	movdqa %xmm14, %xmm5
	pslld $30, %xmm5
	por %xmm4, %xmm5
	pxor %xmm14, %xmm5
	movdqa %xmm5, %xmm4
	psrld $17, %xmm4
	pslld $15, %xmm5
	por %xmm4, %xmm5
	movdqa %xmm14, %xmm4
	psrld $10, %xmm4
	pxor %xmm5, %xmm4
	movdqa 112(%rsp), %xmm9
	movdqa %xmm9, %xmm5
	psrld $11, %xmm5
	movdqa %xmm9, %xmm6
	pslld $21, %xmm6
	por %xmm5, %xmm6
	pxor %xmm9, %xmm6
	movdqa %xmm6, %xmm5
	psrld $7, %xmm5
	pslld $25, %xmm6
	por %xmm5, %xmm6
	movdqa %xmm8, %xmm14
	pxor %xmm8, %xmm3
	movdqa %xmm3, %xmm5
	psrld $2, %xmm5
	pslld $30, %xmm3
	por %xmm5, %xmm3
	movdqa %xmm9, %xmm5
	psrld $3, %xmm5
	pxor %xmm6, %xmm5
	paddd %xmm0, %xmm13
	paddd (%rsp), %xmm12
	paddd %xmm5, %xmm12
	paddd %xmm4, %xmm12
	movdqa %xmm12, %xmm8
	movdqa %xmm14, %xmm6
	movdqa %xmm11, 560(%rsp)
	pxor %xmm11, %xmm6
	pand %xmm6, %xmm10
	pxor %xmm11, %xmm10
	paddd %xmm3, %xmm10
	movdqa 128(%rsp), %xmm11
	movdqa %xmm11, %xmm0
	psrld $2, %xmm0
	movdqa %xmm11, %xmm3
	pslld $30, %xmm3
	por %xmm0, %xmm3
	pxor %xmm11, %xmm3
	movdqa %xmm3, %xmm0
	psrld $17, %xmm0
	pslld $15, %xmm3
	por %xmm0, %xmm3
	movdqa %xmm11, %xmm0
	psrld $10, %xmm0
	pxor %xmm3, %xmm0
	movdqa 144(%rsp), %xmm5
	movdqa %xmm5, %xmm3
	psrld $11, %xmm3
	movdqa %xmm5, %xmm4
	pslld $21, %xmm4
	por %xmm3, %xmm4
	pxor %xmm5, %xmm4
	movdqa %xmm4, %xmm3
	psrld $7, %xmm3
	pslld $25, %xmm4
	por %xmm3, %xmm4
	movdqa %xmm5, %xmm3
	psrld $3, %xmm3
	pxor %xmm4, %xmm3
	paddd %xmm13, %xmm10
	paddd %xmm2, %xmm13
	movdqa 32(%rsp), %xmm11
	paddd %xmm11, %xmm9
	paddd %xmm3, %xmm9
	paddd %xmm0, %xmm9
	movdqa %xmm9, 112(%rsp)
	movdqa %xmm13, %xmm0
	psrld $14, %xmm0
	movdqa %xmm13, %xmm2
	pslld $18, %xmm2
	por %xmm0, %xmm2
	pxor %xmm13, %xmm2
	movdqa %xmm2, %xmm0
	pslld $27, %xmm2
	psrld $5, %xmm0
	por %xmm0, %xmm2
	movdqa %xmm13, %xmm0
	pandn %xmm15, %xmm0
	movdqa 304(%rsp), %xmm5
	movdqa %xmm5, %xmm3
	pand %xmm13, %xmm3
	por %xmm0, %xmm3
	movd 80(%rax,%rdx), %xmm0
	pshufd $0, %xmm0, %xmm4
	paddd %xmm7, %xmm4
	paddd %xmm12, %xmm4
	paddd %xmm3, %xmm4
	pxor %xmm13, %xmm2
	movdqa %xmm13, 512(%rsp)
	movdqa %xmm2, %xmm0
	psrld $6, %xmm0
	pslld $26, %xmm2
	por %xmm0, %xmm2
	movdqa %xmm10, %xmm3
	psrld $9, %xmm3
	movdqa %xmm10, %xmm0
	pslld $23, %xmm0
	por %xmm3, %xmm0
	pxor %xmm10, %xmm0
	movdqa %xmm0, %xmm3
	psrld $11, %xmm3
	pslld $21, %xmm0
	por %xmm3, %xmm0
	pxor %xmm10, %xmm0
	movdqa %xmm10, 544(%rsp)
	movdqa %xmm0, %xmm3
	psrld $2, %xmm3
	pslld $30, %xmm0
	por %xmm3, %xmm0
	paddd %xmm2, %xmm4
	movd 84(%rax,%rdx), %xmm2
	pshufd $0, %xmm2, %xmm3
	paddd %xmm15, %xmm3
	movdqa %xmm14, 256(%rsp)
	pxor %xmm14, %xmm10
	movdqa %xmm10, 240(%rsp)
	pand %xmm10, %xmm6
	pxor %xmm14, %xmm6
	paddd %xmm0, %xmm6
	movdqa %xmm12, %xmm0
	psrld $2, %xmm0
	movdqa %xmm12, %xmm2
	pslld $30, %xmm2
	por %xmm0, %xmm2
	pxor %xmm12, %xmm2
	movdqa %xmm12, 176(%rsp)
	movdqa %xmm2, %xmm0
	psrld $17, %xmm0
	pslld $15, %xmm2
	por %xmm0, %xmm2
	movdqa %xmm4, %xmm15
	paddd %xmm4, %xmm6
	paddd %xmm1, %xmm15
	psrld $10, %xmm8
	pxor %xmm2, %xmm8
	movdqa %xmm8, 528(%rsp)
	movdqa %xmm15, %xmm0
	psrld $14, %xmm0
	movdqa %xmm15, %xmm4
	pslld $18, %xmm4
	por %xmm0, %xmm4
	movdqa 96(%rsp), %xmm2
	movdqa %xmm2, %xmm0
	psrld $11, %xmm0
	movdqa %xmm2, %xmm1
	pslld $21, %xmm1
	por %xmm0, %xmm1
	pxor %xmm2, %xmm1
	movdqa %xmm1, %xmm0
	psrld $7, %xmm0
	pslld $25, %xmm1
	por %xmm0, %xmm1
	movdqa %xmm1, 496(%rsp)
	movdqa 80(%rsp), %xmm1
	movdqa %xmm1, %xmm0
	psrld $11, %xmm0
	movdqa %xmm1, %xmm2
	movdqa %xmm1, 80(%rsp)
	pslld $21, %xmm2
	por %xmm0, %xmm2
	movdqa %xmm15, %xmm0
	pandn %xmm5, %xmm0
	movdqa %xmm13, %xmm5
	pand %xmm15, %xmm5
	por %xmm0, %xmm5
	pxor %xmm1, %xmm2
	movdqa %xmm2, %xmm0
	pslld $25, %xmm2
	psrld $7, %xmm0
	por %xmm0, %xmm2
	movdqa 288(%rsp), %xmm1
	movdqa %xmm1, %xmm0
	psrld $11, %xmm0
	movdqa %xmm1, %xmm12
	pslld $21, %xmm12
	por %xmm0, %xmm12
	pxor %xmm1, %xmm12
	movdqa %xmm12, %xmm0
	psrld $7, %xmm0
	pslld $25, %xmm12
	por %xmm0, %xmm12
	movdqa %xmm6, %xmm0
	movdqa %xmm6, %xmm1
	psrld $9, %xmm1
	movdqa %xmm6, %xmm14
	pslld $23, %xmm14
	por %xmm1, %xmm14
	movdqa 224(%rsp), %xmm7
	movdqa %xmm7, %xmm6
	psrld $11, %xmm6
	movdqa %xmm7, %xmm1
	pslld $21, %xmm1
	por %xmm6, %xmm1
	pxor %xmm7, %xmm1
	movdqa %xmm1, %xmm6
	psrld $7, %xmm6
	pslld $25, %xmm1
	por %xmm6, %xmm1
	paddd %xmm9, %xmm3
	paddd %xmm5, %xmm3
	movdqa %xmm3, 16(%rsp)
	movdqa 272(%rsp), %xmm3
	movdqa %xmm3, %xmm6
	psrld $11, %xmm6
	movdqa %xmm3, %xmm5
	pslld $21, %xmm5
	por %xmm6, %xmm5
	pxor %xmm3, %xmm5
	movdqa %xmm5, %xmm6
	psrld $7, %xmm6
	pslld $25, %xmm5
	por %xmm6, %xmm5
	movdqa 48(%rsp), %xmm9
	movdqa %xmm9, %xmm6
	psrld $11, %xmm6
	movdqa %xmm9, %xmm7
	pslld $21, %xmm7
	por %xmm6, %xmm7
	pxor %xmm15, %xmm4
	movdqa %xmm4, %xmm6
	psrld $5, %xmm6
	pslld $27, %xmm4
	por %xmm6, %xmm4
	pxor %xmm9, %xmm7
	movdqa %xmm7, %xmm6
	pslld $25, %xmm7
	psrld $7, %xmm6
	por %xmm6, %xmm7
	movdqa (%rsp), %xmm3
	movdqa %xmm3, %xmm6
	psrld $11, %xmm6
	movdqa %xmm3, %xmm9
	pslld $21, %xmm9
	por %xmm6, %xmm9
	pxor %xmm3, %xmm9
	movdqa %xmm9, %xmm6
	psrld $7, %xmm6
	pslld $25, %xmm9
	por %xmm6, %xmm9
	pxor %xmm0, %xmm14
	movdqa %xmm14, %xmm6
	psrld $11, %xmm6
	pslld $21, %xmm14
	por %xmm6, %xmm14
	movdqa %xmm11, %xmm6
	psrld $11, %xmm6
	movdqa %xmm11, %xmm10
	pslld $21, %xmm10
	por %xmm6, %xmm10
	pxor %xmm11, %xmm10
	movdqa %xmm10, %xmm6
	psrld $7, %xmm6
	pslld $25, %xmm10
	por %xmm6, %xmm10
	movdqa 64(%rsp), %xmm8
	movdqa %xmm8, %xmm11
	psrld $11, %xmm11
	movdqa %xmm8, %xmm6
	pslld $21, %xmm6
	por %xmm11, %xmm6
	pxor %xmm15, %xmm4
	movdqa %xmm4, %xmm11
	psrld $6, %xmm11
	pslld $26, %xmm4
	por %xmm11, %xmm4
	pxor %xmm8, %xmm6
	movdqa %xmm6, %xmm11
	pslld $25, %xmm6
	psrld $7, %xmm11
	por %xmm11, %xmm6
	movdqa 208(%rsp), %xmm11
	movdqa %xmm11, %xmm3
	psrld $11, %xmm3
	movdqa %xmm11, %xmm13
	pslld $21, %xmm13
	por %xmm3, %xmm13
	pxor %xmm11, %xmm13
	movdqa %xmm11, %xmm3
	movdqa %xmm13, %xmm11
	psrld $7, %xmm11
	pslld $25, %xmm13
	por %xmm11, %xmm13
	pxor %xmm0, %xmm14
	movdqa %xmm14, %xmm11
	psrld $2, %xmm11
	pslld $30, %xmm14
	por %xmm11, %xmm14
	movdqa %xmm3, %xmm11
	psrld $3, %xmm11
	pxor %xmm13, %xmm11
	movdqa 16(%rsp), %xmm13
	paddd %xmm4, %xmm13
	movdqa 144(%rsp), %xmm4
	paddd %xmm8, %xmm4
	paddd %xmm8, %xmm11
	movdqa %xmm11, 480(%rsp)
	psrld $3, %xmm8
	pxor %xmm6, %xmm8
	movdqa 32(%rsp), %xmm6
	paddd %xmm6, %xmm8
	movdqa %xmm8, 464(%rsp)
	psrld $3, %xmm6
	pxor %xmm10, %xmm6
	movdqa (%rsp), %xmm8
	paddd %xmm8, %xmm6
	movdqa %xmm6, 32(%rsp)
	movdqa %xmm8, %xmm6
	psrld $3, %xmm6
	pxor %xmm9, %xmm6
	movdqa 48(%rsp), %xmm8
	paddd %xmm8, %xmm6
	movdqa %xmm6, 64(%rsp)
	movdqa %xmm8, %xmm6
	psrld $3, %xmm6
	pxor %xmm7, %xmm6
	movdqa 272(%rsp), %xmm7
	paddd %xmm7, %xmm6
	movdqa %xmm6, 16(%rsp)
	movdqa %xmm7, %xmm6
	psrld $3, %xmm6
	pxor %xmm5, %xmm6
	movdqa 224(%rsp), %xmm5
	paddd %xmm5, %xmm6
	movdqa %xmm6, 48(%rsp)
	psrld $3, %xmm5
	pxor %xmm1, %xmm5
	movdqa 288(%rsp), %xmm10
	paddd %xmm10, %xmm5
	movdqa %xmm5, (%rsp)
	psrld $3, %xmm10
	pxor %xmm12, %xmm10
	movdqa 80(%rsp), %xmm12
	paddd %xmm12, %xmm10
	psrld $3, %xmm12
	pxor %xmm2, %xmm12
	movdqa 96(%rsp), %xmm1
	paddd %xmm1, %xmm12
	psrld $3, %xmm1
	pxor 496(%rsp), %xmm1
	movdqa %xmm4, %xmm2
	paddd %xmm1, %xmm2
	paddd 528(%rsp), %xmm2
	movdqa %xmm2, %xmm6
	movdqa %xmm0, %xmm5
	movdqa %xmm0, %xmm8
	movdqa 544(%rsp), %xmm7
	pxor %xmm7, %xmm5
	movdqa 240(%rsp), %xmm9
	pand %xmm5, %xmm9
	pxor %xmm7, %xmm9
	paddd %xmm14, %xmm9
	movdqa 112(%rsp), %xmm2
	movdqa %xmm2, %xmm0
	psrld $2, %xmm0
	movdqa %xmm2, %xmm1
	pslld $30, %xmm1
	por %xmm0, %xmm1
	pxor %xmm2, %xmm1
	movdqa %xmm1, %xmm0
	psrld $17, %xmm0
	pslld $15, %xmm1
	por %xmm0, %xmm1
	movdqa %xmm13, %xmm4
	paddd %xmm13, %xmm9
	paddd 560(%rsp), %xmm4
	movdqa %xmm2, %xmm0
	psrld $10, %xmm0
	pxor %xmm1, %xmm0
	paddd %xmm3, %xmm12
	paddd %xmm0, %xmm12
	movdqa %xmm4, %xmm0
	psrld $14, %xmm0
	movdqa %xmm4, %xmm2
	pslld $18, %xmm2
	por %xmm0, %xmm2
	pxor %xmm4, %xmm2
	movdqa %xmm2, %xmm0
	psrld $5, %xmm0
	pslld $27, %xmm2
	por %xmm0, %xmm2
	pxor %xmm4, %xmm2
	movdqa %xmm2, %xmm0
	psrld $6, %xmm0
	pslld $26, %xmm2
	por %xmm0, %xmm2
	movdqa %xmm15, %xmm11
	movdqa %xmm15, %xmm0
	pand %xmm4, %xmm0
	movdqa %xmm4, %xmm1
	movdqa %xmm4, %xmm3
	movdqa 512(%rsp), %xmm4
	pandn %xmm4, %xmm1
	por %xmm1, %xmm0
	movd 88(%rax,%rdx), %xmm1
	pshufd $0, %xmm1, %xmm1
	paddd %xmm6, %xmm1
	movdqa %xmm6, %xmm13
	paddd 304(%rsp), %xmm1
	paddd %xmm0, %xmm1
	movdqa %xmm9, %xmm0
	psrld $9, %xmm0
	movdqa %xmm9, %xmm6
	pslld $23, %xmm6
	por %xmm0, %xmm6
	paddd %xmm2, %xmm1
	pxor %xmm9, %xmm6
	movdqa %xmm6, %xmm0
	pslld $21, %xmm6
	psrld $11, %xmm0
	por %xmm0, %xmm6
	pxor %xmm9, %xmm6
	movdqa %xmm6, %xmm0
	psrld $2, %xmm0
	pslld $30, %xmm6
	por %xmm0, %xmm6
	movdqa %xmm9, %xmm15
	movdqa %xmm8, 448(%rsp)
	pxor %xmm8, %xmm15
	pand %xmm15, %xmm5
	pxor %xmm8, %xmm5
	paddd %xmm6, %xmm5
	paddd %xmm1, %xmm5
	paddd 256(%rsp), %xmm1
	movdqa %xmm1, %xmm2
	psrld $14, %xmm2
	movdqa %xmm1, %xmm0
	pslld $18, %xmm0
	por %xmm2, %xmm0
	movdqa %xmm1, %xmm2
	pandn %xmm11, %xmm2
	movdqa %xmm11, %xmm14
	movdqa %xmm3, %xmm6
	pand %xmm1, %xmm6
	por %xmm2, %xmm6
	movd 92(%rax,%rdx), %xmm2
	pshufd $0, %xmm2, %xmm11
	paddd %xmm12, %xmm11
	paddd %xmm4, %xmm11
	pxor %xmm1, %xmm0
	movdqa %xmm0, %xmm2
	psrld $5, %xmm2
	pslld $27, %xmm0
	por %xmm2, %xmm0
	paddd %xmm6, %xmm11
	movdqa %xmm5, %xmm6
	psrld $9, %xmm6
	movdqa %xmm5, %xmm2
	pslld $23, %xmm2
	por %xmm6, %xmm2
	pxor %xmm5, %xmm2
	movdqa %xmm2, %xmm6
	psrld $11, %xmm6
	pslld $21, %xmm2
	por %xmm6, %xmm2
	pxor %xmm1, %xmm0
	movdqa %xmm0, %xmm6
	psrld $6, %xmm6
	pslld $26, %xmm0
	por %xmm6, %xmm0
	pxor %xmm5, %xmm2
	movdqa %xmm2, %xmm6
	pslld $30, %xmm2
	psrld $2, %xmm6
	por %xmm6, %xmm2
	movdqa %xmm13, 144(%rsp)
	movdqa %xmm13, %xmm6
	psrld $2, %xmm6
	movdqa %xmm13, %xmm8
	pslld $30, %xmm8
	por %xmm6, %xmm8
	pxor %xmm13, %xmm8
	movdqa %xmm8, %xmm6
	psrld $17, %xmm6
	pslld $15, %xmm8
	por %xmm6, %xmm8
	paddd %xmm0, %xmm11
	movdqa %xmm13, %xmm0
	psrld $10, %xmm0
	pxor %xmm8, %xmm0
	movdqa %xmm5, %xmm13
	movdqa %xmm9, 240(%rsp)
	pxor %xmm9, %xmm13
	pand %xmm13, %xmm15
	pxor %xmm9, %xmm15
	paddd %xmm2, %xmm15
	paddd 192(%rsp), %xmm10
	paddd %xmm0, %xmm10
	paddd %xmm11, %xmm15
	paddd %xmm7, %xmm11
	movdqa %xmm12, 96(%rsp)
	movdqa %xmm12, %xmm0
	psrld $2, %xmm0
	movdqa %xmm12, %xmm2
	pslld $30, %xmm2
	por %xmm0, %xmm2
	pxor %xmm12, %xmm2
	movdqa %xmm2, %xmm0
	psrld $17, %xmm0
	pslld $15, %xmm2
	por %xmm0, %xmm2
	psrld $10, %xmm12
	pxor %xmm2, %xmm12
	movdqa (%rsp), %xmm2
	paddd 160(%rsp), %xmm2
	paddd %xmm12, %xmm2
	movdqa %xmm2, %xmm9
	movdqa %xmm11, %xmm2
	psrld $14, %xmm2
	movdqa %xmm11, %xmm0
	pslld $18, %xmm0
	por %xmm2, %xmm0
	pxor %xmm11, %xmm0
	movdqa %xmm0, %xmm2
	pslld $27, %xmm0
	psrld $5, %xmm2
	por %xmm2, %xmm0
	movdqa %xmm11, %xmm2
	pandn %xmm3, %xmm2
	movdqa %xmm1, %xmm8
	pand %xmm11, %xmm8
	por %xmm2, %xmm8
	movd 96(%rax,%rdx), %xmm2
	pshufd $0, %xmm2, %xmm6
	paddd %xmm10, %xmm6
	paddd %xmm14, %xmm6
	paddd %xmm8, %xmm6
	pxor %xmm11, %xmm0
	movdqa %xmm0, %xmm2
	psrld $6, %xmm2
	pslld $26, %xmm0
	por %xmm2, %xmm0
	movdqa %xmm15, %xmm2
	psrld $9, %xmm2
	movdqa %xmm15, %xmm4
	pslld $23, %xmm4
	por %xmm2, %xmm4
	pxor %xmm15, %xmm4
	movdqa %xmm4, %xmm2
	psrld $11, %xmm2
	pslld $21, %xmm4
	por %xmm2, %xmm4
	pxor %xmm15, %xmm4
	movdqa %xmm4, %xmm2
	psrld $2, %xmm2
	pslld $30, %xmm4
	por %xmm2, %xmm4
	paddd %xmm0, %xmm6
	movdqa %xmm15, %xmm7
	pxor %xmm5, %xmm7
	pand %xmm7, %xmm13
	pxor %xmm5, %xmm13
	paddd %xmm4, %xmm13
	paddd %xmm6, %xmm13
	paddd 448(%rsp), %xmm6
	movdqa %xmm6, %xmm4
	psrld $14, %xmm4
	movdqa %xmm6, %xmm0
	pslld $18, %xmm0
	por %xmm4, %xmm0
	pxor %xmm6, %xmm0
	movdqa %xmm0, %xmm4
	pslld $27, %xmm0
	psrld $5, %xmm4
	por %xmm4, %xmm0
	movdqa %xmm6, %xmm4
	pandn %xmm1, %xmm4
	movdqa %xmm11, %xmm8
	pand %xmm6, %xmm8
	por %xmm4, %xmm8
	movd 100(%rax,%rdx), %xmm4
	pshufd $0, %xmm4, %xmm2
	movdqa %xmm9, %xmm4
	paddd %xmm9, %xmm2
	paddd %xmm3, %xmm2
	paddd %xmm8, %xmm2
	pxor %xmm6, %xmm0
	movdqa %xmm0, %xmm8
	psrld $6, %xmm8
	pslld $26, %xmm0
	por %xmm8, %xmm0
	movdqa %xmm13, %xmm14
	psrld $9, %xmm14
	movdqa %xmm13, %xmm8
	pslld $23, %xmm8
	por %xmm14, %xmm8
	pxor %xmm13, %xmm8
	movdqa %xmm8, %xmm14
	psrld $11, %xmm14
	pslld $21, %xmm8
	por %xmm14, %xmm8
	pxor %xmm13, %xmm8
	movdqa %xmm8, %xmm14
	psrld $2, %xmm14
	pslld $30, %xmm8
	por %xmm14, %xmm8
	paddd %xmm0, %xmm2
	movdqa %xmm10, 80(%rsp)
	movdqa %xmm10, %xmm0
	psrld $2, %xmm0
	movdqa %xmm10, %xmm14
	pslld $30, %xmm14
	por %xmm0, %xmm14
	pxor %xmm10, %xmm14
	movdqa %xmm14, %xmm0
	psrld $17, %xmm0
	pslld $15, %xmm14
	por %xmm0, %xmm14
	movdqa %xmm10, %xmm0
	psrld $10, %xmm0
	pxor %xmm14, %xmm0
	movdqa 48(%rsp), %xmm9
	paddd 128(%rsp), %xmm9
	paddd %xmm0, %xmm9
	movdqa %xmm13, %xmm0
	pxor %xmm15, %xmm0
	pand %xmm0, %xmm7
	pxor %xmm15, %xmm7
	paddd %xmm8, %xmm7
	movdqa %xmm4, %xmm3
	movdqa %xmm4, %xmm8
	psrld $2, %xmm8
	movdqa %xmm4, %xmm14
	pslld $30, %xmm14
	por %xmm8, %xmm14
	pxor %xmm4, %xmm14
	movdqa %xmm4, (%rsp)
	movdqa %xmm14, %xmm8
	psrld $17, %xmm8
	pslld $15, %xmm14
	por %xmm8, %xmm14
	paddd %xmm2, %xmm7
	paddd 240(%rsp), %xmm2
	psrld $10, %xmm3
	pxor %xmm14, %xmm3
	movdqa 16(%rsp), %xmm12
	paddd 176(%rsp), %xmm12
	paddd %xmm3, %xmm12
	movdqa %xmm2, %xmm3
	psrld $14, %xmm3
	movdqa %xmm2, %xmm8
	pslld $18, %xmm8
	por %xmm3, %xmm8
	pxor %xmm2, %xmm8
	movdqa %xmm8, %xmm3
	psrld $5, %xmm3
	pslld $27, %xmm8
	por %xmm3, %xmm8
	pxor %xmm2, %xmm8
	movdqa %xmm8, %xmm3
	psrld $6, %xmm3
	pslld $26, %xmm8
	por %xmm3, %xmm8
	movdqa %xmm6, %xmm3
	pand %xmm2, %xmm3
	movdqa %xmm2, %xmm14
	pandn %xmm11, %xmm14
	por %xmm14, %xmm3
	movd 104(%rax,%rdx), %xmm14
	pshufd $0, %xmm14, %xmm14
	paddd %xmm9, %xmm14
	paddd %xmm1, %xmm14
	paddd %xmm3, %xmm14
	movdqa %xmm7, %xmm1
	psrld $9, %xmm1
	movdqa %xmm7, %xmm3
	pslld $23, %xmm3
	por %xmm1, %xmm3
	paddd %xmm8, %xmm14
	pxor %xmm7, %xmm3
	movdqa %xmm3, %xmm1
	pslld $21, %xmm3
	psrld $11, %xmm1
	por %xmm1, %xmm3
	pxor %xmm7, %xmm3
	movdqa %xmm3, %xmm1
	psrld $2, %xmm1
	pslld $30, %xmm3
	por %xmm1, %xmm3
	movdqa %xmm7, %xmm1
	pxor %xmm13, %xmm1
	pand %xmm1, %xmm0
	pxor %xmm13, %xmm0
	paddd %xmm3, %xmm0
	paddd %xmm14, %xmm0
	paddd %xmm5, %xmm14
	movdqa %xmm14, %xmm5
	psrld $14, %xmm5
	movdqa %xmm14, %xmm3
	pslld $18, %xmm3
	por %xmm5, %xmm3
	movdqa %xmm14, %xmm5
	pandn %xmm6, %xmm5
	movdqa %xmm2, %xmm4
	pand %xmm14, %xmm4
	por %xmm5, %xmm4
	movd 108(%rax,%rdx), %xmm5
	pshufd $0, %xmm5, %xmm8
	paddd %xmm12, %xmm8
	paddd %xmm11, %xmm8
	pxor %xmm14, %xmm3
	movdqa %xmm3, %xmm5
	psrld $5, %xmm5
	pslld $27, %xmm3
	por %xmm5, %xmm3
	paddd %xmm4, %xmm8
	movdqa %xmm0, %xmm4
	psrld $9, %xmm4
	movdqa %xmm0, %xmm5
	pslld $23, %xmm5
	por %xmm4, %xmm5
	pxor %xmm0, %xmm5
	movdqa %xmm5, %xmm4
	psrld $11, %xmm4
	pslld $21, %xmm5
	por %xmm4, %xmm5
	pxor %xmm14, %xmm3
	movdqa %xmm3, %xmm4
	psrld $6, %xmm4
	pslld $26, %xmm3
	por %xmm4, %xmm3
	pxor %xmm0, %xmm5
	movdqa %xmm5, %xmm4
	pslld $30, %xmm5
	psrld $2, %xmm4
	por %xmm4, %xmm5
	movdqa %xmm9, 48(%rsp)
	movdqa %xmm9, %xmm4
	psrld $2, %xmm4
	movdqa %xmm9, %xmm11
	pslld $30, %xmm11
	por %xmm4, %xmm11
	pxor %xmm9, %xmm11
	movdqa %xmm11, %xmm4
	psrld $17, %xmm4
	pslld $15, %xmm11
	por %xmm4, %xmm11
	paddd %xmm3, %xmm8
	psrld $10, %xmm9
	pxor %xmm11, %xmm9
	movdqa %xmm0, %xmm11
	pxor %xmm7, %xmm11
	pand %xmm11, %xmm1
	pxor %xmm7, %xmm1
	paddd %xmm5, %xmm1
	movdqa 64(%rsp), %xmm10
	paddd 112(%rsp), %xmm10
	paddd %xmm9, %xmm10
	paddd %xmm8, %xmm1
	paddd %xmm15, %xmm8
	movdqa %xmm12, 16(%rsp)
	movdqa %xmm12, %xmm3
	psrld $2, %xmm3
	movdqa %xmm12, %xmm4
	pslld $30, %xmm4
	por %xmm3, %xmm4
	pxor %xmm12, %xmm4
	movdqa %xmm4, %xmm3
	psrld $17, %xmm3
	pslld $15, %xmm4
	por %xmm3, %xmm4
	psrld $10, %xmm12
	pxor %xmm4, %xmm12
	movdqa 32(%rsp), %xmm9
	paddd 144(%rsp), %xmm9
	paddd %xmm12, %xmm9
	movdqa %xmm8, %xmm3
	psrld $14, %xmm3
	movdqa %xmm8, %xmm5
	pslld $18, %xmm5
	por %xmm3, %xmm5
	pxor %xmm8, %xmm5
	movdqa %xmm5, %xmm3
	pslld $27, %xmm5
	psrld $5, %xmm3
	por %xmm3, %xmm5
	movdqa %xmm8, %xmm3
	pandn %xmm2, %xmm3
	movdqa %xmm14, %xmm4
	pand %xmm8, %xmm4
	por %xmm3, %xmm4
	movd 112(%rax,%rdx), %xmm3
	pshufd $0, %xmm3, %xmm3
	paddd %xmm10, %xmm3
	paddd %xmm6, %xmm3
	paddd %xmm4, %xmm3
	pxor %xmm8, %xmm5
	movdqa %xmm5, %xmm4
	psrld $6, %xmm4
	pslld $26, %xmm5
	por %xmm4, %xmm5
	movdqa %xmm1, %xmm4
	psrld $9, %xmm4
	movdqa %xmm1, %xmm6
	pslld $23, %xmm6
	por %xmm4, %xmm6
	pxor %xmm1, %xmm6
	movdqa %xmm6, %xmm4
	psrld $11, %xmm4
	pslld $21, %xmm6
	por %xmm4, %xmm6
	pxor %xmm1, %xmm6
	movdqa %xmm6, %xmm4
	psrld $2, %xmm4
	pslld $30, %xmm6
	por %xmm4, %xmm6
	paddd %xmm5, %xmm3
	movdqa %xmm1, %xmm5
	pxor %xmm0, %xmm5
	pand %xmm5, %xmm11
	pxor %xmm0, %xmm11
	paddd %xmm6, %xmm11
	paddd %xmm3, %xmm11
	paddd %xmm13, %xmm3
	movdqa %xmm3, %xmm4
	psrld $14, %xmm4
	movdqa %xmm3, %xmm6
	pslld $18, %xmm6
	por %xmm4, %xmm6
	pxor %xmm3, %xmm6
	movdqa %xmm6, %xmm4
	pslld $27, %xmm6
	psrld $5, %xmm4
	por %xmm4, %xmm6
	movdqa %xmm3, %xmm4
	pandn %xmm14, %xmm4
	movdqa %xmm8, %xmm13
	pand %xmm3, %xmm13
	por %xmm4, %xmm13
	movd 116(%rax,%rdx), %xmm4
	pshufd $0, %xmm4, %xmm15
	paddd %xmm9, %xmm15
	paddd %xmm2, %xmm15
	paddd %xmm13, %xmm15
	pxor %xmm3, %xmm6
	movdqa %xmm6, %xmm2
	psrld $6, %xmm2
	pslld $26, %xmm6
	por %xmm2, %xmm6
	movdqa %xmm11, %xmm2
	psrld $9, %xmm2
	movdqa %xmm11, %xmm13
	pslld $23, %xmm13
	por %xmm2, %xmm13
	pxor %xmm11, %xmm13
	movdqa %xmm13, %xmm2
	psrld $11, %xmm2
	pslld $21, %xmm13
	por %xmm2, %xmm13
	pxor %xmm11, %xmm13
	movdqa %xmm13, %xmm2
	psrld $2, %xmm2
	pslld $30, %xmm13
	por %xmm2, %xmm13
	paddd %xmm6, %xmm15
	movdqa %xmm10, 64(%rsp)
	movdqa %xmm10, %xmm2
	psrld $2, %xmm2
	movdqa %xmm10, %xmm4
	pslld $30, %xmm4
	por %xmm2, %xmm4
	pxor %xmm10, %xmm4
	movdqa %xmm4, %xmm2
	psrld $17, %xmm2
	pslld $15, %xmm4
	por %xmm2, %xmm4
	movdqa %xmm10, %xmm2
	psrld $10, %xmm2
	pxor %xmm4, %xmm2
	movdqa 464(%rsp), %xmm10
	movdqa 96(%rsp), %xmm12
	paddd %xmm12, %xmm10
	paddd %xmm2, %xmm10
	movdqa %xmm11, %xmm4
	pxor %xmm1, %xmm4
	pand %xmm4, %xmm5
	pxor %xmm1, %xmm5
	paddd %xmm13, %xmm5
	movdqa %xmm9, 32(%rsp)
	movdqa %xmm9, %xmm2
	psrld $2, %xmm2
	movdqa %xmm9, %xmm6
	pslld $30, %xmm6
	por %xmm2, %xmm6
	pxor %xmm9, %xmm6
	movdqa %xmm6, %xmm2
	psrld $17, %xmm2
	pslld $15, %xmm6
	por %xmm2, %xmm6
	paddd %xmm15, %xmm5
	paddd %xmm7, %xmm15
	movdqa %xmm9, %xmm2
	psrld $10, %xmm2
	pxor %xmm6, %xmm2
	movdqa 480(%rsp), %xmm9
	paddd 80(%rsp), %xmm9
	paddd %xmm2, %xmm9
	movdqa %xmm15, %xmm6
	psrld $14, %xmm6
	movdqa %xmm15, %xmm2
	pslld $18, %xmm2
	por %xmm6, %xmm2
	pxor %xmm15, %xmm2
	movdqa %xmm2, %xmm6
	psrld $5, %xmm6
	pslld $27, %xmm2
	por %xmm6, %xmm2
	pxor %xmm15, %xmm2
	movdqa %xmm2, %xmm6
	psrld $6, %xmm6
	pslld $26, %xmm2
	por %xmm6, %xmm2
	movdqa %xmm3, %xmm7
	pand %xmm15, %xmm7
	movdqa %xmm15, %xmm6
	pandn %xmm8, %xmm6
	por %xmm6, %xmm7
	movd 120(%rax,%rdx), %xmm6
	pshufd $0, %xmm6, %xmm6
	paddd %xmm10, %xmm6
	paddd %xmm14, %xmm6
	paddd %xmm7, %xmm6
	movdqa %xmm5, %xmm7
	psrld $9, %xmm7
	movdqa %xmm5, %xmm13
	pslld $23, %xmm13
	por %xmm7, %xmm13
	paddd %xmm2, %xmm6
	pxor %xmm5, %xmm13
	movdqa %xmm13, %xmm2
	pslld $21, %xmm13
	psrld $11, %xmm2
	por %xmm2, %xmm13
	pxor %xmm5, %xmm13
	movdqa %xmm13, %xmm2
	psrld $2, %xmm2
	pslld $30, %xmm13
	por %xmm2, %xmm13
	movdqa %xmm5, %xmm2
	pxor %xmm11, %xmm2
	pand %xmm2, %xmm4
	pxor %xmm11, %xmm4
	paddd %xmm13, %xmm4
	paddd %xmm6, %xmm4
	paddd %xmm0, %xmm6
	movdqa %xmm6, %xmm7
	psrld $14, %xmm7
	movdqa %xmm6, %xmm0
	pslld $18, %xmm0
	por %xmm7, %xmm0
	pxor %xmm6, %xmm0
	movdqa %xmm0, %xmm7
	psrld $5, %xmm7
	pslld $27, %xmm0
	por %xmm7, %xmm0
	pxor %xmm6, %xmm0
	movdqa %xmm0, %xmm7
	psrld $6, %xmm7
	pslld $26, %xmm0
	por %xmm7, %xmm0
	movdqa %xmm15, %xmm7
	pand %xmm6, %xmm7
	movdqa %xmm6, %xmm13
	pandn %xmm3, %xmm13
	por %xmm13, %xmm7
	movd 124(%rax,%rdx), %xmm13
	pshufd $0, %xmm13, %xmm13
	movdqa %xmm9, %xmm14
	paddd %xmm9, %xmm13
	paddd %xmm8, %xmm13
	paddd %xmm7, %xmm13
	movdqa %xmm4, %xmm7
	psrld $9, %xmm7
	movdqa %xmm4, %xmm8
	pslld $23, %xmm8
	por %xmm7, %xmm8
	paddd %xmm0, %xmm13
	pxor %xmm4, %xmm8
	movdqa %xmm8, %xmm0
	pslld $21, %xmm8
	psrld $11, %xmm0
	por %xmm0, %xmm8
	pxor %xmm4, %xmm8
	movdqa %xmm8, %xmm0
	psrld $2, %xmm0
	pslld $30, %xmm8
	por %xmm0, %xmm8
	movdqa %xmm4, %xmm0
	pand %xmm2, %xmm0
	pandn %xmm5, %xmm2
	por %xmm0, %xmm2
	paddd %xmm8, %xmm2
	paddd %xmm13, %xmm2
	paddd %xmm1, %xmm13
	movdqa %xmm12, 96(%rsp)
	movdqa (%rsp), %xmm9
	movdqa 48(%rsp), %xmm1
	movaps 16(%rsp), %xmm0
	movdqa 64(%rsp), %xmm8
	movaps 32(%rsp), %xmm7
	movaps %xmm7, (%rsp)
	addq $64, %rax
	movdqa %xmm14, %xmm7
	cmpq $192, %rax
	jne .LBB52_1
	paddd 336(%rsp), %xmm2
	paddd 352(%rsp), %xmm4
	paddd 368(%rsp), %xmm5
	paddd 320(%rsp), %xmm11
	paddd 384(%rsp), %xmm13
	paddd 400(%rsp), %xmm6
	paddd 416(%rsp), %xmm15
	paddd 432(%rsp), %xmm3
	movdqu %xmm2, (%rcx)
	movdqu %xmm4, 16(%rcx)
	movdqu %xmm5, 32(%rcx)
	movdqu %xmm11, 48(%rcx)
	movdqu %xmm13, 64(%rcx)
	movdqu %xmm6, 80(%rcx)
	movdqu %xmm15, 96(%rcx)
	movdqu %xmm3, 112(%rcx)
	movq (%r8), %rax
	movq 8(%r8), %rcx
	addq $4, %rax
	adcq $0, %rcx
	movq $-1, %rdx
	cmovbq %rdx, %rcx
	cmovbq %rdx, %rax
	movq %rax, (%r8)
	movq %rcx, 8(%r8)
	movaps 576(%rsp), %xmm6
	movaps 592(%rsp), %xmm7
	movaps 608(%rsp), %xmm8
	movaps 624(%rsp), %xmm9
	movaps 640(%rsp), %xmm10
	movaps 656(%rsp), %xmm11
	movaps 672(%rsp), %xmm12
	movaps 688(%rsp), %xmm13
	movaps 704(%rsp), %xmm14
	movaps 720(%rsp), %xmm15
	addq $744, %rsp
	retq
	.seh_endproc
	.section .rdata,"dr"
	.p2align 4, 0x0
.LCPI53_0:
	.long 1116352408
	.long 1899447441
	.long 3049323471
	.long 3921009573
.LCPI53_1:
	.long 961987163
	.long 1508970993
	.long 2453635748
	.long 2870763221
.LCPI53_2:
	.long 1476897432
	.long 310598401
	.long 607225278
	.long 1426881987
.LCPI53_3:
	.long 1925078388
	.long 2162078206
	.long 2614888103
	.long 3248223348
.LCPI53_4:
	.long 2147483648
	.long 0
	.long 0
	.long 0
.LCPI53_5:
	.long 0
	.long 0
	.long 0
	.long 768
.LCPI53_6:
	.byte 3
	.byte 2
	.byte 1
	.byte 0
	.byte 7
	.byte 6
	.byte 5
	.byte 4
	.byte 11
	.byte 10
	.byte 9
	.byte 8
	.byte 15
	.byte 14
	.byte 13
	.byte 12
.LCPI53_7:
	.long 2147483648
	.text
	.p2align 4
ring.pbkdf2.rounds.xor_iterates.bde0e74171f856d8:
.seh_proc ring.pbkdf2.rounds.xor_iterates.bde0e74171f856d8
	pushq %r15
	.seh_pushreg %r15
	pushq %r14
	.seh_pushreg %r14
	pushq %r13
	.seh_pushreg %r13
	pushq %r12
	.seh_pushreg %r12
	pushq %rsi
	.seh_pushreg %rsi
	pushq %rdi
	.seh_pushreg %rdi
	pushq %rbp
	.seh_pushreg %rbp
	pushq %rbx
	.seh_pushreg %rbx
	subq $552, %rsp
	.seh_stackalloc 552
	.seh_endprologue
	xorps %xmm0, %xmm0
	movaps %xmm0, 64(%rsp)
	movaps %xmm0, 48(%rsp)
	cmpb $1, (%rdx)
	jne .LBB53_21
	cmpb $1, 576(%rdx)
	jne .LBB53_21
	movups 4(%rdx), %xmm0
	movups 20(%rdx), %xmm1
	movaps %xmm1, 96(%rsp)
	movaps %xmm0, 80(%rsp)
	movups 580(%rdx), %xmm2
	movups 596(%rdx), %xmm3
	movaps %xmm0, 480(%rsp)
	movaps %xmm1, 496(%rsp)
	movaps %xmm2, 512(%rsp)
	movaps %xmm3, 528(%rsp)
	movaps %xmm0, 416(%rsp)
	movaps %xmm1, 432(%rsp)
	movaps %xmm2, 448(%rsp)
	movaps %xmm3, 464(%rsp)
	cmpb $1, 1152(%rdx)
	jne .LBB53_21
	movq %rcx, %r14
	movq %r9, 208(%rsp)
	movq %r8, 216(%rsp)
	movq 656(%rsp), %rbx
	movups 1156(%rdx), %xmm0
	movups 1172(%rdx), %xmm1
	movaps %xmm1, 160(%rsp)
	movaps %xmm0, 144(%rsp)
	movaps 512(%rsp), %xmm0
	movdqa 528(%rsp), %xmm1
	movaps %xmm0, 176(%rsp)
	movdqa %xmm1, 192(%rsp)
	xorps %xmm0, %xmm0
	movaps %xmm0, 128(%rsp)
	movaps %xmm0, 112(%rsp)
	movaps %xmm0, 96(%rsp)
	movaps %xmm0, 80(%rsp)
	movzbl yz_instructions(%rip), %eax
	testb %al, %al
	je .LBB53_4
	leaq 176(%rsp), %rcx
	leaq 144(%rsp), %rdx
	movq %rbx, %r8
	callq ring_core.digest.sha2.by_instruction.run_words.0a683a1c7ad27461
	jmp .LBB53_6
.LBB53_4:
	movdqa 144(%rsp), %xmm0
	movdqa 160(%rsp), %xmm1
	movdqa .LCPI53_0(%rip), %xmm2
	paddd %xmm0, %xmm2
	movdqa %xmm2, 80(%rsp)
	movdqa .LCPI53_1(%rip), %xmm2
	paddd %xmm1, %xmm2
	movdqa %xmm2, 96(%rsp)
	movaps .LCPI53_2(%rip), %xmm2
	movaps %xmm2, 112(%rsp)
	movaps .LCPI53_3(%rip), %xmm2
	movaps %xmm2, 128(%rsp)
	movdqa %xmm1, 384(%rsp)
	movdqa %xmm0, 400(%rsp)
	movss .LCPI53_7(%rip), %xmm0
	movaps %xmm0, 368(%rsp)
	movaps .LCPI53_5(%rip), %xmm0
	movaps %xmm0, 352(%rsp)
	leaq 352(%rsp), %rax
	movq %rax, 40(%rsp)
	leaq 368(%rsp), %rax
	movq %rax, 32(%rsp)
	leaq 80(%rsp), %rcx
	leaq 176(%rsp), %rdx
	leaq 400(%rsp), %r8
	leaq 384(%rsp), %r9
	callq ring_core.digest.sha2.by_fours.run_ahead.99accd9fe8f0e06d
	movq (%rbx), %rax
	movq 8(%rbx), %rcx
	addq $1, %rax
	adcq $0, %rcx
	movq $-1, %rdx
	cmovbq %rdx, %rcx
	cmovbq %rdx, %rax
	movq %rax, (%rbx)
	movq %rcx, 8(%rbx)
.LBB53_6:
	movl 176(%rsp), %r15d
	movq 180(%rsp), %rsi
	movq 188(%rsp), %rdi
	movq 196(%rsp), %r12
	movl 204(%rsp), %ebp
	movl %r15d, 48(%rsp)
	movq %rsi, 52(%rsp)
	movq %rdi, 60(%rsp)
	movq %r12, 68(%rsp)
	movl %ebp, 76(%rsp)
	movl 40(%r14), %r14d
	cmpl $2, %r14d
	jb .LBB53_7
	leaq 448(%rsp), %r13
	decl %r14d
	jmp .LBB53_14
	.p2align 4
.LBB53_19:
	leaq 48(%rsp), %rcx
	leaq 144(%rsp), %rdx
	movq %rbx, %r8
	callq ring_core.digest.sha2.by_instruction.run_words.0a683a1c7ad27461
.LBB53_20:
	movl %esi, %ecx
	shrq $32, %rsi
	movl %edi, %edx
	shrq $32, %rdi
	movl %r12d, %r8d
	shrq $32, %r12
	xorl 48(%rsp), %r15d
	movl 52(%rsp), %eax
	xorl %ecx, %eax
	xorl 56(%rsp), %esi
	movl 60(%rsp), %ecx
	xorl %edx, %ecx
	xorl 64(%rsp), %edi
	movl 68(%rsp), %edx
	xorl %r8d, %edx
	xorl 72(%rsp), %r12d
	xorl 76(%rsp), %ebp
	shlq $32, %rsi
	orq %rsi, %rax
	shlq $32, %rdi
	orq %rdi, %rcx
	shlq $32, %r12
	orq %r12, %rdx
	movq %rdx, %r12
	movq %rcx, %rdi
	movq %rax, %rsi
	decl %r14d
	je .LBB53_8
.LBB53_14:
	movaps 416(%rsp), %xmm0
	movdqa 432(%rsp), %xmm1
	movdqa %xmm1, 160(%rsp)
	movaps %xmm0, 144(%rsp)
	xorps %xmm0, %xmm0
	movaps %xmm0, 128(%rsp)
	movaps %xmm0, 112(%rsp)
	movaps %xmm0, 96(%rsp)
	movaps %xmm0, 80(%rsp)
	movzbl yz_instructions(%rip), %eax
	testb %al, %al
	je .LBB53_15
	leaq 144(%rsp), %rcx
	leaq 48(%rsp), %rdx
	movq %rbx, %r8
	callq ring_core.digest.sha2.by_instruction.run_words.0a683a1c7ad27461
	jmp .LBB53_17
	.p2align 4
.LBB53_15:
	movdqa 48(%rsp), %xmm0
	movdqa 64(%rsp), %xmm1
	movdqa .LCPI53_0(%rip), %xmm2
	paddd %xmm0, %xmm2
	movdqa %xmm2, 80(%rsp)
	movdqa .LCPI53_1(%rip), %xmm2
	paddd %xmm1, %xmm2
	movdqa %xmm2, 96(%rsp)
	movaps .LCPI53_2(%rip), %xmm2
	movaps %xmm2, 112(%rsp)
	movaps .LCPI53_3(%rip), %xmm2
	movaps %xmm2, 128(%rsp)
	movdqa %xmm1, 320(%rsp)
	movdqa %xmm0, 336(%rsp)
	movss .LCPI53_7(%rip), %xmm0
	movaps %xmm0, 304(%rsp)
	movaps .LCPI53_5(%rip), %xmm0
	movaps %xmm0, 288(%rsp)
	leaq 288(%rsp), %rax
	movq %rax, 40(%rsp)
	leaq 304(%rsp), %rax
	movq %rax, 32(%rsp)
	leaq 80(%rsp), %rcx
	leaq 144(%rsp), %rdx
	leaq 336(%rsp), %r8
	leaq 320(%rsp), %r9
	callq ring_core.digest.sha2.by_fours.run_ahead.99accd9fe8f0e06d
	movq (%rbx), %rax
	movq 8(%rbx), %rcx
	addq $1, %rax
	adcq $0, %rcx
	movq $-1, %rdx
	cmovbq %rdx, %rcx
	cmovbq %rdx, %rax
	movq %rax, (%rbx)
	movq %rcx, 8(%rbx)
.LBB53_17:
	movups (%r13), %xmm0
	movdqu 16(%r13), %xmm1
	movaps %xmm0, 48(%rsp)
	movdqa %xmm1, 64(%rsp)
	xorps %xmm0, %xmm0
	movaps %xmm0, 128(%rsp)
	movaps %xmm0, 112(%rsp)
	movaps %xmm0, 96(%rsp)
	movaps %xmm0, 80(%rsp)
	movzbl yz_instructions(%rip), %eax
	testb %al, %al
	jne .LBB53_19
	movdqa 144(%rsp), %xmm0
	movdqa 160(%rsp), %xmm1
	movdqa .LCPI53_0(%rip), %xmm2
	paddd %xmm0, %xmm2
	movdqa %xmm2, 80(%rsp)
	movdqa .LCPI53_1(%rip), %xmm2
	paddd %xmm1, %xmm2
	movdqa %xmm2, 96(%rsp)
	movaps .LCPI53_2(%rip), %xmm2
	movaps %xmm2, 112(%rsp)
	movaps .LCPI53_3(%rip), %xmm2
	movaps %xmm2, 128(%rsp)
	movdqa %xmm1, 256(%rsp)
	movdqa %xmm0, 272(%rsp)
	movss .LCPI53_7(%rip), %xmm0
	movaps %xmm0, 240(%rsp)
	movaps .LCPI53_5(%rip), %xmm0
	movaps %xmm0, 224(%rsp)
	leaq 224(%rsp), %rax
	movq %rax, 40(%rsp)
	leaq 240(%rsp), %rax
	movq %rax, 32(%rsp)
	leaq 80(%rsp), %rcx
	leaq 48(%rsp), %rdx
	leaq 272(%rsp), %r8
	leaq 256(%rsp), %r9
	callq ring_core.digest.sha2.by_fours.run_ahead.99accd9fe8f0e06d
	movq (%rbx), %rax
	movq 8(%rbx), %rcx
	addq $1, %rax
	adcq $0, %rcx
	movq $-1, %rdx
	cmovbq %rdx, %rcx
	cmovbq %rdx, %rax
	movq %rax, (%rbx)
	movq %rcx, 8(%rbx)
	jmp .LBB53_20
.LBB53_7:
	movq %rsi, %rax
	movq %rdi, %rcx
	movq %r12, %rdx
.LBB53_8:
	movl %edx, %r8d
	shrq $32, %rdx
	movl %ecx, %r9d
	movl %eax, %r10d
	shrq $32, %rax
	movd %r15d, %xmm0
	pinsrd $1, %r10d, %xmm0
	pinsrd $2, %eax, %xmm0
	shrq $32, %rcx
	pinsrd $3, %r9d, %xmm0
	movd %ecx, %xmm1
	pinsrd $1, %r8d, %xmm1
	pinsrd $2, %edx, %xmm1
	pinsrd $3, %ebp, %xmm1
	movdqa .LCPI53_6(%rip), %xmm2
	pshufb %xmm2, %xmm1
	pshufb %xmm2, %xmm0
	movq 216(%rsp), %rax
	movdqu %xmm0, (%rax)
	movdqu %xmm1, 16(%rax)
	pxor %xmm2, %xmm2
	movdqu %xmm2, 48(%rax)
	movdqu %xmm2, 32(%rax)
	movq 208(%rsp), %rcx
	cmpq $1, %rcx
	je .LBB53_12
	movdqu %xmm0, 64(%rax)
	movdqu %xmm1, 80(%rax)
	movdqu %xmm2, 112(%rax)
	movdqu %xmm2, 96(%rax)
	cmpq $2, %rcx
	je .LBB53_12
	movdqu %xmm0, 128(%rax)
	movdqu %xmm1, 144(%rax)
	movdqu %xmm2, 176(%rax)
	movdqu %xmm2, 160(%rax)
	cmpq $3, %rcx
	je .LBB53_12
	movdqu %xmm0, 192(%rax)
	movdqu %xmm1, 208(%rax)
	movdqu %xmm2, 240(%rax)
	movdqu %xmm2, 224(%rax)
.LBB53_12:
	addq $552, %rsp
	popq %rbx
	popq %rbp
	popq %rdi
	popq %rsi
	popq %r12
	popq %r13
	popq %r14
	popq %r15
	retq
.LBB53_21:
	ud2
	.seh_endproc
	.section .rdata,"dr"
	.p2align 4, 0x0
.LCPI54_0:
	.long 1116352408
	.long 1899447441
	.long 3049323471
	.long 3921009573
.LCPI54_1:
	.long 0
	.long 0
	.long 0
	.long 768
.LCPI54_2:
	.long 961987163
	.long 1508970993
	.long 2453635748
	.long 2870763221
.LCPI54_3:
	.zero 4
	.long 0
	.long 0
	.long 768
.LCPI54_4:
	.long 2147483648
	.long 0
	.long 0
	.long 0
.LCPI54_5:
	.long 1476897432
	.long 310598401
	.long 607225278
	.long 1426881987
.LCPI54_6:
	.long 607225278
	.long 1426881987
	.long 607225278
	.long 1426881987
.LCPI54_7:
	.long 1925078388
	.long 2162078206
	.long 2614888103
	.long 3248223348
.LCPI54_8:
	.long 2614888103
	.long 3248223348
	.long 2614888103
	.long 3248223348
.LCPI54_9:
	.long 3835390401
	.long 4022224774
	.long 264347078
	.long 604807628
.LCPI54_10:
	.long 770255983
	.long 1249150122
	.long 1555081692
	.long 1996064986
.LCPI54_11:
	.long 2554220882
	.long 2821834349
	.long 2952996808
	.long 3210313671
.LCPI54_12:
	.long 3336571891
	.long 3584528711
	.long 113926993
	.long 338241895
.LCPI54_13:
	.long 666307205
	.long 773529912
	.long 1294757372
	.long 1396182291
.LCPI54_14:
	.long 1695183700
	.long 1986661051
	.long 2177026350
	.long 2456956037
.LCPI54_15:
	.long 2730485921
	.long 2820302411
	.long 3259730800
	.long 3345764771
.LCPI54_16:
	.long 3516065817
	.long 3600352804
	.long 4094571909
	.long 275423344
.LCPI54_17:
	.long 430227734
	.long 506948616
	.long 659060556
	.long 883997877
.LCPI54_18:
	.long 958139571
	.long 1322822218
	.long 1537002063
	.long 1747873779
.LCPI54_19:
	.long 1955562222
	.long 2024104815
	.long 2227730452
	.long 2361852424
.LCPI54_20:
	.long 2428436474
	.long 2756734187
	.long 3204031479
	.long 3329325298
.LCPI54_21:
	.long 2147483648
	.text
	.p2align 4
ring_core.digest.sha2.by_instruction.run_words.0a683a1c7ad27461:
.seh_proc ring_core.digest.sha2.by_instruction.run_words.0a683a1c7ad27461
	subq $56, %rsp
	.seh_stackalloc 56
	movaps %xmm8, 32(%rsp)
	.seh_savexmm %xmm8, 32
	movaps %xmm7, 16(%rsp)
	.seh_savexmm %xmm7, 16
	movaps %xmm6, (%rsp)
	.seh_savexmm %xmm6, 0
	.seh_endprologue
	movq 16(%rcx), %xmm0
	pshufd $225, %xmm0, %xmm5
	pinsrd $2, 4(%rcx), %xmm5
	pinsrd $3, (%rcx), %xmm5
	movq 24(%rcx), %xmm0
	pshufd $225, %xmm0, %xmm6
	pinsrd $2, 12(%rcx), %xmm6
	pinsrd $3, 8(%rcx), %xmm6
	movdqu (%rdx), %xmm3
	movdqu 16(%rdx), %xmm2
	movdqa .LCPI54_0(%rip), %xmm0
	paddd %xmm3, %xmm0
	movdqa %xmm6, %xmm7
	sha256rnds2 %xmm0, %xmm5, %xmm7
	pshufd $238, %xmm0, %xmm0
	movdqa %xmm5, %xmm8
	sha256rnds2 %xmm0, %xmm7, %xmm8
	sha256msg1 %xmm2, %xmm3
	movaps .LCPI54_1(%rip), %xmm1
	sha256msg2 %xmm1, %xmm3
	movdqa .LCPI54_2(%rip), %xmm0
	paddd %xmm2, %xmm0
	sha256rnds2 %xmm0, %xmm8, %xmm7
	pshufd $238, %xmm0, %xmm0
	sha256rnds2 %xmm0, %xmm7, %xmm8
	movdqa %xmm3, %xmm0
	palignr $4, .LCPI54_3(%rip), %xmm0
	movss .LCPI54_21(%rip), %xmm4
	sha256msg1 %xmm4, %xmm2
	paddd %xmm0, %xmm2
	sha256msg2 %xmm3, %xmm2
	movaps .LCPI54_5(%rip), %xmm0
	sha256rnds2 %xmm0, %xmm8, %xmm7
	movaps .LCPI54_6(%rip), %xmm0
	sha256rnds2 %xmm0, %xmm7, %xmm8
	movdqa %xmm2, %xmm0
	palignr $4, %xmm3, %xmm0
	sha256msg1 %xmm1, %xmm4
	paddd %xmm0, %xmm4
	sha256msg2 %xmm2, %xmm4
	movaps .LCPI54_7(%rip), %xmm0
	sha256rnds2 %xmm0, %xmm8, %xmm7
	movaps .LCPI54_8(%rip), %xmm0
	sha256rnds2 %xmm0, %xmm7, %xmm8
	movdqa %xmm4, %xmm0
	palignr $4, %xmm2, %xmm0
	sha256msg1 %xmm3, %xmm1
	paddd %xmm0, %xmm1
	sha256msg2 %xmm4, %xmm1
	movdqa .LCPI54_9(%rip), %xmm0
	paddd %xmm3, %xmm0
	sha256rnds2 %xmm0, %xmm8, %xmm7
	pshufd $238, %xmm0, %xmm0
	sha256rnds2 %xmm0, %xmm7, %xmm8
	movdqa %xmm1, %xmm0
	palignr $4, %xmm4, %xmm0
	sha256msg1 %xmm2, %xmm3
	paddd %xmm0, %xmm3
	sha256msg2 %xmm1, %xmm3
	movdqa .LCPI54_10(%rip), %xmm0
	paddd %xmm2, %xmm0
	sha256rnds2 %xmm0, %xmm8, %xmm7
	pshufd $238, %xmm0, %xmm0
	sha256rnds2 %xmm0, %xmm7, %xmm8
	movdqa %xmm3, %xmm0
	palignr $4, %xmm1, %xmm0
	sha256msg1 %xmm4, %xmm2
	paddd %xmm0, %xmm2
	sha256msg2 %xmm3, %xmm2
	movdqa .LCPI54_11(%rip), %xmm0
	paddd %xmm4, %xmm0
	sha256rnds2 %xmm0, %xmm8, %xmm7
	pshufd $238, %xmm0, %xmm0
	sha256rnds2 %xmm0, %xmm7, %xmm8
	movdqa %xmm2, %xmm0
	palignr $4, %xmm3, %xmm0
	sha256msg1 %xmm1, %xmm4
	paddd %xmm0, %xmm4
	sha256msg2 %xmm2, %xmm4
	movdqa .LCPI54_12(%rip), %xmm0
	paddd %xmm1, %xmm0
	sha256rnds2 %xmm0, %xmm8, %xmm7
	pshufd $238, %xmm0, %xmm0
	sha256rnds2 %xmm0, %xmm7, %xmm8
	movdqa %xmm4, %xmm0
	palignr $4, %xmm2, %xmm0
	sha256msg1 %xmm3, %xmm1
	paddd %xmm0, %xmm1
	sha256msg2 %xmm4, %xmm1
	movdqa .LCPI54_13(%rip), %xmm0
	paddd %xmm3, %xmm0
	sha256rnds2 %xmm0, %xmm8, %xmm7
	pshufd $238, %xmm0, %xmm0
	sha256rnds2 %xmm0, %xmm7, %xmm8
	movdqa %xmm1, %xmm0
	palignr $4, %xmm4, %xmm0
	sha256msg1 %xmm2, %xmm3
	paddd %xmm0, %xmm3
	sha256msg2 %xmm1, %xmm3
	movdqa .LCPI54_14(%rip), %xmm0
	paddd %xmm2, %xmm0
	sha256rnds2 %xmm0, %xmm8, %xmm7
	pshufd $238, %xmm0, %xmm0
	sha256rnds2 %xmm0, %xmm7, %xmm8
	movdqa %xmm3, %xmm0
	palignr $4, %xmm1, %xmm0
	sha256msg1 %xmm4, %xmm2
	paddd %xmm0, %xmm2
	sha256msg2 %xmm3, %xmm2
	movdqa .LCPI54_15(%rip), %xmm0
	paddd %xmm4, %xmm0
	sha256rnds2 %xmm0, %xmm8, %xmm7
	pshufd $238, %xmm0, %xmm0
	sha256rnds2 %xmm0, %xmm7, %xmm8
	movdqa %xmm2, %xmm0
	palignr $4, %xmm3, %xmm0
	sha256msg1 %xmm1, %xmm4
	paddd %xmm0, %xmm4
	sha256msg2 %xmm2, %xmm4
	movdqa .LCPI54_16(%rip), %xmm0
	paddd %xmm1, %xmm0
	sha256rnds2 %xmm0, %xmm8, %xmm7
	pshufd $238, %xmm0, %xmm0
	sha256rnds2 %xmm0, %xmm7, %xmm8
	movdqa %xmm4, %xmm0
	palignr $4, %xmm2, %xmm0
	sha256msg1 %xmm3, %xmm1
	paddd %xmm0, %xmm1
	sha256msg2 %xmm4, %xmm1
	paddd .LCPI54_17(%rip), %xmm3
	movdqa %xmm3, %xmm0
	sha256rnds2 %xmm0, %xmm8, %xmm7
	pshufd $238, %xmm3, %xmm0
	paddd .LCPI54_18(%rip), %xmm2
	sha256rnds2 %xmm0, %xmm7, %xmm8
	movdqa %xmm2, %xmm0
	sha256rnds2 %xmm0, %xmm8, %xmm7
	pshufd $238, %xmm2, %xmm0
	sha256rnds2 %xmm0, %xmm7, %xmm8
	paddd .LCPI54_19(%rip), %xmm4
	movdqa %xmm4, %xmm0
	sha256rnds2 %xmm0, %xmm8, %xmm7
	pshufd $238, %xmm4, %xmm0
	sha256rnds2 %xmm0, %xmm7, %xmm8
	paddd .LCPI54_20(%rip), %xmm1
	movdqa %xmm1, %xmm0
	sha256rnds2 %xmm0, %xmm8, %xmm7
	pshufd $238, %xmm1, %xmm0
	sha256rnds2 %xmm0, %xmm7, %xmm8
	paddd %xmm5, %xmm8
	paddd %xmm6, %xmm7
	movdqa %xmm8, %xmm0
	shufps $187, %xmm7, %xmm0
	movups %xmm0, (%rcx)
	shufps $17, %xmm7, %xmm8
	movups %xmm8, 16(%rcx)
	movq (%r8), %rax
	movq 8(%r8), %rcx
	addq $1, %rax
	adcq $0, %rcx
	movq $-1, %rdx
	cmovbq %rdx, %rcx
	cmovbq %rdx, %rax
	movq %rax, (%r8)
	movq %rcx, 8(%r8)
	movaps (%rsp), %xmm6
	movaps 16(%rsp), %xmm7
	movaps 32(%rsp), %xmm8
	addq $56, %rsp
	retq
	.seh_endproc
	.section .rdata,"dr"
	.p2align 4, 0x0
.LCPI55_0:
	.quad -9223372036854775808
	.quad 0
.LCPI55_1:
	.quad 4794697086780616226
	.quad 8158064640168781261
.LCPI55_2:
	.quad -5349999486874862801
	.quad -1606136188198331460
.LCPI55_3:
	.quad 4131703408338449720
	.quad 6480981068601479193
.LCPI55_4:
	.quad 1314913260039393179
	.quad -6116909921290321640
.LCPI55_5:
	.quad 2608012711638119052
	.quad 6128411473006802146
.LCPI55_6:
	.quad -2880145864133508542
	.quad 1334009975649890238
.LCPI55_7:
	.quad -7215885187991268811
	.quad -4495734319001031660
.LCPI55_8:
	.quad 8268148722764581231
	.quad -9160688886553864527
.LCPI55_9:
	.byte 0
	.byte 0
	.byte 0
	.byte 0
	.byte 0
	.byte 0
	.byte 0
	.byte 0
	.byte 128
	.byte 5
	.byte 0
	.byte 0
	.byte 0
	.byte 0
	.byte 0
	.byte 0
.LCPI55_10:
	.byte 7
	.byte 6
	.byte 5
	.byte 4
	.byte 3
	.byte 2
	.byte 1
	.byte 0
	.byte 15
	.byte 14
	.byte 13
	.byte 12
	.byte 11
	.byte 10
	.byte 9
	.byte 8
.LCPI55_11:
	.quad -9223372036854775808
	.text
	.p2align 4
ring.pbkdf2.rounds.xor_iterates.1781a4570e9cf8d4:
.seh_proc ring.pbkdf2.rounds.xor_iterates.1781a4570e9cf8d4
	pushq %r15
	.seh_pushreg %r15
	pushq %r14
	.seh_pushreg %r14
	pushq %r13
	.seh_pushreg %r13
	pushq %r12
	.seh_pushreg %r12
	pushq %rsi
	.seh_pushreg %rsi
	pushq %rdi
	.seh_pushreg %rdi
	pushq %rbx
	.seh_pushreg %rbx
	subq $1072, %rsp
	.seh_stackalloc 1072
	movaps %xmm15, 1056(%rsp)
	.seh_savexmm %xmm15, 1056
	movaps %xmm14, 1040(%rsp)
	.seh_savexmm %xmm14, 1040
	movaps %xmm13, 1024(%rsp)
	.seh_savexmm %xmm13, 1024
	movaps %xmm12, 1008(%rsp)
	.seh_savexmm %xmm12, 1008
	movaps %xmm11, 992(%rsp)
	.seh_savexmm %xmm11, 992
	movaps %xmm10, 976(%rsp)
	.seh_savexmm %xmm10, 976
	movdqa %xmm9, 960(%rsp)
	.seh_savexmm %xmm9, 960
	movaps %xmm8, 944(%rsp)
	.seh_savexmm %xmm8, 944
	movaps %xmm7, 928(%rsp)
	.seh_savexmm %xmm7, 928
	movaps %xmm6, 912(%rsp)
	.seh_savexmm %xmm6, 912
	.seh_endprologue
	xorps %xmm0, %xmm0
	movaps %xmm0, 320(%rsp)
	movaps %xmm0, 304(%rsp)
	movaps %xmm0, 288(%rsp)
	cmpb $0, (%rdx)
	jne .LBB55_11
	cmpb $0, 576(%rdx)
	jne .LBB55_11
	movups 8(%rdx), %xmm0
	movups 24(%rdx), %xmm1
	movups 40(%rdx), %xmm2
	movups 56(%rdx), %xmm3
	movaps %xmm3, 192(%rsp)
	movaps %xmm2, 176(%rsp)
	movaps %xmm1, 160(%rsp)
	movaps %xmm0, 144(%rsp)
	movups 584(%rdx), %xmm4
	movups 600(%rdx), %xmm5
	movups 616(%rdx), %xmm6
	movups 632(%rdx), %xmm7
	movaps %xmm0, 336(%rsp)
	movaps %xmm1, 352(%rsp)
	movaps %xmm2, 368(%rsp)
	movaps %xmm3, 384(%rsp)
	movaps %xmm4, 400(%rsp)
	movaps %xmm5, 416(%rsp)
	movaps %xmm6, 432(%rsp)
	movaps %xmm7, 448(%rsp)
	cmpb $0, 1152(%rdx)
	jne .LBB55_11
	movq %r9, %rdi
	movq %r8, %rsi
	movq %rcx, %rbx
	movq 1168(%rsp), %r14
	movdqu 1160(%rdx), %xmm0
	movdqu 1176(%rdx), %xmm2
	movdqu 1192(%rdx), %xmm1
	movaps 400(%rsp), %xmm3
	movaps 416(%rsp), %xmm4
	movaps 432(%rsp), %xmm5
	movaps 448(%rsp), %xmm6
	movaps %xmm5, 112(%rsp)
	movaps %xmm4, 96(%rsp)
	movaps %xmm3, 80(%rsp)
	movaps %xmm6, 128(%rsp)
	movsd .LCPI55_11(%rip), %xmm7
	movdqa .LCPI55_1(%rip), %xmm3
	paddq %xmm0, %xmm3
	movdqa .LCPI55_2(%rip), %xmm4
	paddq %xmm2, %xmm4
	movdqu %xmm4, 160(%rsp)
	movdqu %xmm3, 144(%rsp)
	movdqa .LCPI55_3(%rip), %xmm3
	paddq %xmm1, %xmm3
	movaps .LCPI55_4(%rip), %xmm4
	movups %xmm4, 192(%rsp)
	movdqu %xmm3, 176(%rsp)
	movaps .LCPI55_5(%rip), %xmm15
	movups %xmm15, 224(%rsp)
	movaps .LCPI55_6(%rip), %xmm10
	movups %xmm10, 208(%rsp)
	movaps .LCPI55_7(%rip), %xmm6
	movups %xmm6, 256(%rsp)
	movaps .LCPI55_8(%rip), %xmm13
	movups %xmm13, 240(%rsp)
	movdqa %xmm2, 880(%rsp)
	movdqa %xmm0, 896(%rsp)
	movdqa %xmm1, 864(%rsp)
	movaps %xmm7, 848(%rsp)
	leaq 848(%rsp), %rax
	movq %rax, 40(%rsp)
	pxor %xmm0, %xmm0
	movdqa %xmm0, 832(%rsp)
	leaq 832(%rsp), %rax
	movq %rax, 48(%rsp)
	movdqa %xmm0, 816(%rsp)
	leaq 816(%rsp), %rax
	movq %rax, 56(%rsp)
	movdqa %xmm0, 800(%rsp)
	leaq 800(%rsp), %rax
	movq %rax, 64(%rsp)
	movaps .LCPI55_9(%rip), %xmm14
	movaps %xmm14, 784(%rsp)
	leaq 784(%rsp), %rax
	movq %rax, 72(%rsp)
	leaq 864(%rsp), %rax
	movq %rax, 32(%rsp)
	leaq 144(%rsp), %rcx
	leaq 80(%rsp), %rdx
	leaq 896(%rsp), %r8
	leaq 880(%rsp), %r9
	callq ring_core.digest.sha2.by_fours.run_ahead.34389943500e16fa
	movq (%r14), %r15
	movq 8(%r14), %r12
	addq $1, %r15
	adcq $0, %r12
	movq $-1, %rax
	cmovbq %rax, %r12
	cmovbq %rax, %r15
	movq %r15, (%r14)
	movq %r12, 8(%r14)
	movdqa 80(%rsp), %xmm2
	movdqa 96(%rsp), %xmm3
	movdqa 112(%rsp), %xmm5
	movdqa 128(%rsp), %xmm4
	movdqa %xmm2, 272(%rsp)
	movl 40(%rbx), %ebx
	cmpl $2, %ebx
	jb .LBB55_6
	leaq 400(%rsp), %r13
	decl %ebx
	movdqa %xmm3, %xmm0
	movdqa %xmm5, %xmm1
	.p2align 4
.LBB55_5:
	movdqa %xmm5, 464(%rsp)
	movdqa %xmm4, 480(%rsp)
	movdqa %xmm3, 496(%rsp)
	movdqa %xmm2, 512(%rsp)
	movaps 336(%rsp), %xmm2
	movaps 352(%rsp), %xmm3
	movaps 368(%rsp), %xmm4
	movaps 384(%rsp), %xmm5
	movaps %xmm5, 128(%rsp)
	movaps %xmm4, 112(%rsp)
	movaps %xmm3, 96(%rsp)
	movaps %xmm2, 80(%rsp)
	movdqa 272(%rsp), %xmm2
	movaps %xmm7, %xmm11
	movdqa .LCPI55_1(%rip), %xmm7
	movdqa %xmm2, %xmm3
	paddq %xmm7, %xmm3
	movdqa .LCPI55_2(%rip), %xmm9
	movdqa %xmm0, %xmm4
	paddq %xmm9, %xmm4
	movdqu %xmm4, 160(%rsp)
	movdqu %xmm3, 144(%rsp)
	movaps %xmm6, %xmm12
	movaps %xmm10, %xmm6
	movdqa .LCPI55_3(%rip), %xmm10
	movdqa %xmm1, %xmm3
	paddq %xmm10, %xmm3
	movaps .LCPI55_4(%rip), %xmm4
	movups %xmm4, 192(%rsp)
	movdqu %xmm3, 176(%rsp)
	movups %xmm15, 224(%rsp)
	movups %xmm6, 208(%rsp)
	movups %xmm12, 256(%rsp)
	movups %xmm13, 240(%rsp)
	movdqa %xmm0, 752(%rsp)
	movdqa %xmm2, 768(%rsp)
	movdqa %xmm1, 736(%rsp)
	movaps %xmm11, 720(%rsp)
	leaq 720(%rsp), %rax
	movq %rax, 40(%rsp)
	xorps %xmm8, %xmm8
	movaps %xmm8, 704(%rsp)
	leaq 704(%rsp), %rax
	movq %rax, 48(%rsp)
	movaps %xmm8, 688(%rsp)
	leaq 688(%rsp), %rax
	movq %rax, 56(%rsp)
	movaps %xmm8, 672(%rsp)
	leaq 672(%rsp), %rax
	movq %rax, 64(%rsp)
	movaps %xmm14, 656(%rsp)
	leaq 656(%rsp), %rax
	movq %rax, 72(%rsp)
	leaq 736(%rsp), %rax
	movq %rax, 32(%rsp)
	leaq 144(%rsp), %rcx
	leaq 80(%rsp), %rdx
	leaq 768(%rsp), %r8
	leaq 752(%rsp), %r9
	callq ring_core.digest.sha2.by_fours.run_ahead.34389943500e16fa
	movups (%r13), %xmm0
	movups 16(%r13), %xmm1
	movups 32(%r13), %xmm2
	movups 48(%r13), %xmm3
	movaps %xmm0, 272(%rsp)
	movaps %xmm1, 288(%rsp)
	movaps %xmm2, 304(%rsp)
	movaps %xmm3, 320(%rsp)
	movdqa 80(%rsp), %xmm0
	movdqa 96(%rsp), %xmm1
	movdqa 112(%rsp), %xmm2
	paddq %xmm0, %xmm7
	paddq %xmm1, %xmm9
	movdqu %xmm9, 160(%rsp)
	movdqu %xmm7, 144(%rsp)
	movaps %xmm11, %xmm7
	paddq %xmm2, %xmm10
	movaps .LCPI55_4(%rip), %xmm3
	movups %xmm3, 192(%rsp)
	movdqu %xmm10, 176(%rsp)
	movaps %xmm6, %xmm10
	movaps %xmm12, %xmm6
	movups %xmm15, 224(%rsp)
	movups %xmm10, 208(%rsp)
	movups %xmm12, 256(%rsp)
	movups %xmm13, 240(%rsp)
	movdqa %xmm1, 624(%rsp)
	movdqa %xmm0, 640(%rsp)
	movdqa %xmm2, 608(%rsp)
	movaps %xmm11, 592(%rsp)
	leaq 592(%rsp), %rax
	movq %rax, 40(%rsp)
	movaps %xmm8, 576(%rsp)
	leaq 576(%rsp), %rax
	movq %rax, 48(%rsp)
	movaps %xmm8, 560(%rsp)
	leaq 560(%rsp), %rax
	movq %rax, 56(%rsp)
	movaps %xmm8, 544(%rsp)
	leaq 544(%rsp), %rax
	movq %rax, 64(%rsp)
	movaps %xmm14, 528(%rsp)
	leaq 528(%rsp), %rax
	movq %rax, 72(%rsp)
	leaq 608(%rsp), %rax
	movq %rax, 32(%rsp)
	leaq 144(%rsp), %rcx
	leaq 272(%rsp), %rdx
	leaq 640(%rsp), %r8
	leaq 624(%rsp), %r9
	callq ring_core.digest.sha2.by_fours.run_ahead.34389943500e16fa
	movdqa 464(%rsp), %xmm5
	movdqa 480(%rsp), %xmm4
	movdqa 496(%rsp), %xmm3
	movdqa 512(%rsp), %xmm2
	addq $2, %r15
	adcq $0, %r12
	movq $-1, %rax
	cmovbq %rax, %r12
	cmovbq %rax, %r15
	movq %r12, 8(%r14)
	movq %r15, (%r14)
	movdqa 288(%rsp), %xmm0
	movdqa 304(%rsp), %xmm1
	pxor %xmm1, %xmm5
	pxor 320(%rsp), %xmm4
	pxor %xmm0, %xmm3
	pxor 272(%rsp), %xmm2
	decl %ebx
	jne .LBB55_5
.LBB55_6:
	movdqa .LCPI55_10(%rip), %xmm0
	pshufb %xmm0, %xmm3
	pshufb %xmm0, %xmm2
	pshufb %xmm0, %xmm4
	pshufb %xmm0, %xmm5
	movdqu %xmm2, (%rsi)
	movdqu %xmm3, 16(%rsi)
	movdqu %xmm5, 32(%rsi)
	movdqu %xmm4, 48(%rsi)
	cmpq $1, %rdi
	je .LBB55_10
	movdqu %xmm2, 64(%rsi)
	movdqu %xmm3, 80(%rsi)
	movdqu %xmm5, 96(%rsi)
	movdqu %xmm4, 112(%rsi)
	cmpq $2, %rdi
	je .LBB55_10
	movdqu %xmm2, 128(%rsi)
	movdqu %xmm3, 144(%rsi)
	movdqu %xmm5, 160(%rsi)
	movdqu %xmm4, 176(%rsi)
	cmpq $3, %rdi
	je .LBB55_10
	movdqu %xmm2, 192(%rsi)
	movdqu %xmm3, 208(%rsi)
	movdqu %xmm5, 224(%rsi)
	movdqu %xmm4, 240(%rsi)
.LBB55_10:
	movaps 912(%rsp), %xmm6
	movaps 928(%rsp), %xmm7
	movaps 944(%rsp), %xmm8
	movaps 960(%rsp), %xmm9
	movaps 976(%rsp), %xmm10
	movaps 992(%rsp), %xmm11
	movaps 1008(%rsp), %xmm12
	movaps 1024(%rsp), %xmm13
	movaps 1040(%rsp), %xmm14
	movaps 1056(%rsp), %xmm15
	addq $1072, %rsp
	popq %rbx
	popq %rdi
	popq %rsi
	popq %r12
	popq %r13
	popq %r14
	popq %r15
	retq
.LBB55_11:
	ud2
	.seh_endproc
	.section .rdata,"dr"
	.p2align 4, 0x0
.LCPI56_0:
	.quad 4794697086780616226
	.quad 8158064640168781261
.LCPI56_1:
	.quad -5349999486874862801
	.quad -1606136188198331460
.LCPI56_2:
	.quad 4131703408338449720
	.quad 6480981068601479193
.LCPI56_3:
	.quad -7908458776815382629
	.quad -6116909921290321640
.LCPI56_4:
	.quad 2608012711638119052
	.quad 6128411473006802146
.LCPI56_5:
	.quad 6343226172721267266
	.quad 1334009975649890238
.LCPI56_6:
	.quad -7215885187991268811
	.quad -4495734319001031532
.LCPI56_7:
	.quad 8268148722764581231
	.quad -9160688886553864527
.LCPI56_8:
	.quad -9223372036854775808
	.quad 0
.LCPI56_9:
	.byte 0
	.byte 0
	.byte 0
	.byte 0
	.byte 0
	.byte 0
	.byte 0
	.byte 0
	.byte 0
	.byte 6
	.byte 0
	.byte 0
	.byte 0
	.byte 0
	.byte 0
	.byte 0
.LCPI56_10:
	.byte 7
	.byte 6
	.byte 5
	.byte 4
	.byte 3
	.byte 2
	.byte 1
	.byte 0
	.byte 15
	.byte 14
	.byte 13
	.byte 12
	.byte 11
	.byte 10
	.byte 9
	.byte 8
.LCPI56_11:
	.quad -9223372036854775808
	.text
	.p2align 4
ring.pbkdf2.rounds.xor_iterates.a07252785532c1ed:
.seh_proc ring.pbkdf2.rounds.xor_iterates.a07252785532c1ed
	pushq %r15
	.seh_pushreg %r15
	pushq %r14
	.seh_pushreg %r14
	pushq %r13
	.seh_pushreg %r13
	pushq %r12
	.seh_pushreg %r12
	pushq %rsi
	.seh_pushreg %rsi
	pushq %rdi
	.seh_pushreg %rdi
	pushq %rbx
	.seh_pushreg %rbx
	subq $1072, %rsp
	.seh_stackalloc 1072
	movaps %xmm15, 1056(%rsp)
	.seh_savexmm %xmm15, 1056
	movdqa %xmm14, 1040(%rsp)
	.seh_savexmm %xmm14, 1040
	movaps %xmm13, 1024(%rsp)
	.seh_savexmm %xmm13, 1024
	movaps %xmm12, 1008(%rsp)
	.seh_savexmm %xmm12, 1008
	movaps %xmm11, 992(%rsp)
	.seh_savexmm %xmm11, 992
	movaps %xmm10, 976(%rsp)
	.seh_savexmm %xmm10, 976
	movaps %xmm9, 960(%rsp)
	.seh_savexmm %xmm9, 960
	movaps %xmm8, 944(%rsp)
	.seh_savexmm %xmm8, 944
	movaps %xmm7, 928(%rsp)
	.seh_savexmm %xmm7, 928
	movaps %xmm6, 912(%rsp)
	.seh_savexmm %xmm6, 912
	.seh_endprologue
	xorps %xmm0, %xmm0
	movaps %xmm0, 320(%rsp)
	cmpb $0, (%rdx)
	jne .LBB56_11
	cmpb $0, 576(%rdx)
	jne .LBB56_11
	movups 8(%rdx), %xmm0
	movups 24(%rdx), %xmm1
	movups 40(%rdx), %xmm2
	movups 56(%rdx), %xmm3
	movaps %xmm3, 192(%rsp)
	movaps %xmm2, 176(%rsp)
	movaps %xmm1, 160(%rsp)
	movaps %xmm0, 144(%rsp)
	movups 584(%rdx), %xmm4
	movups 600(%rdx), %xmm5
	movups 616(%rdx), %xmm6
	movups 632(%rdx), %xmm7
	movaps %xmm0, 336(%rsp)
	movaps %xmm1, 352(%rsp)
	movaps %xmm2, 368(%rsp)
	movaps %xmm3, 384(%rsp)
	movaps %xmm4, 400(%rsp)
	movaps %xmm5, 416(%rsp)
	movaps %xmm6, 432(%rsp)
	movaps %xmm7, 448(%rsp)
	cmpb $0, 1152(%rdx)
	jne .LBB56_11
	movq %r9, %rdi
	movq %r8, %rsi
	movq %rcx, %rbx
	movq 1168(%rsp), %r14
	movaps 400(%rsp), %xmm3
	movaps 416(%rsp), %xmm4
	movaps 432(%rsp), %xmm5
	movdqa 448(%rsp), %xmm6
	movdqu 1160(%rdx), %xmm0
	movdqu 1176(%rdx), %xmm7
	movdqu 1192(%rdx), %xmm1
	movdqu 1208(%rdx), %xmm2
	movaps %xmm5, 112(%rsp)
	movaps %xmm4, 96(%rsp)
	movaps %xmm3, 80(%rsp)
	movdqa %xmm6, 128(%rsp)
	movdqa .LCPI56_0(%rip), %xmm3
	paddq %xmm0, %xmm3
	movdqa .LCPI56_1(%rip), %xmm4
	paddq %xmm7, %xmm4
	movdqu %xmm4, 160(%rsp)
	movdqu %xmm3, 144(%rsp)
	movdqa .LCPI56_2(%rip), %xmm3
	paddq %xmm1, %xmm3
	movdqa .LCPI56_3(%rip), %xmm4
	paddq %xmm2, %xmm4
	movdqu %xmm4, 192(%rsp)
	movdqu %xmm3, 176(%rsp)
	movaps .LCPI56_4(%rip), %xmm15
	movups %xmm15, 224(%rsp)
	movaps .LCPI56_5(%rip), %xmm8
	movups %xmm8, 208(%rsp)
	movaps .LCPI56_6(%rip), %xmm9
	movups %xmm9, 256(%rsp)
	movaps .LCPI56_7(%rip), %xmm13
	movups %xmm13, 240(%rsp)
	movdqa %xmm7, 880(%rsp)
	movdqa %xmm0, 896(%rsp)
	movdqa %xmm1, 864(%rsp)
	movdqa %xmm2, 848(%rsp)
	leaq 848(%rsp), %rax
	movq %rax, 40(%rsp)
	movsd .LCPI56_11(%rip), %xmm7
	movaps %xmm7, 832(%rsp)
	leaq 832(%rsp), %rax
	movq %rax, 48(%rsp)
	pxor %xmm0, %xmm0
	movdqa %xmm0, 816(%rsp)
	leaq 816(%rsp), %rax
	movq %rax, 56(%rsp)
	movdqa %xmm0, 800(%rsp)
	leaq 800(%rsp), %rax
	movq %rax, 64(%rsp)
	movaps .LCPI56_9(%rip), %xmm12
	movaps %xmm12, 784(%rsp)
	leaq 784(%rsp), %rax
	movq %rax, 72(%rsp)
	leaq 864(%rsp), %rax
	movq %rax, 32(%rsp)
	leaq 144(%rsp), %rcx
	leaq 80(%rsp), %rdx
	leaq 896(%rsp), %r8
	leaq 880(%rsp), %r9
	callq ring_core.digest.sha2.by_fours.run_ahead.34389943500e16fa
	movq (%r14), %r15
	movq 8(%r14), %r12
	addq $1, %r15
	adcq $0, %r12
	movq $-1, %rax
	cmovbq %rax, %r12
	cmovbq %rax, %r15
	movq %r15, (%r14)
	movq %r12, 8(%r14)
	movdqa 80(%rsp), %xmm2
	movdqa 96(%rsp), %xmm5
	movdqa 112(%rsp), %xmm3
	movdqa 128(%rsp), %xmm4
	movdqa %xmm2, 272(%rsp)
	movdqa %xmm5, 288(%rsp)
	movdqa %xmm3, 304(%rsp)
	movl 40(%rbx), %ebx
	cmpl $2, %ebx
	jb .LBB56_6
	leaq 400(%rsp), %r13
	decl %ebx
	movdqa %xmm5, %xmm1
	movdqa %xmm4, %xmm0
	.p2align 4
.LBB56_5:
	movdqa %xmm5, 464(%rsp)
	movdqa %xmm4, 480(%rsp)
	movdqa %xmm3, 496(%rsp)
	movdqa %xmm2, 512(%rsp)
	movaps 336(%rsp), %xmm2
	movaps 352(%rsp), %xmm3
	movaps 368(%rsp), %xmm4
	movaps 384(%rsp), %xmm5
	movaps %xmm5, 128(%rsp)
	movaps %xmm4, 112(%rsp)
	movaps %xmm3, 96(%rsp)
	movaps %xmm2, 80(%rsp)
	movdqa 272(%rsp), %xmm2
	movdqa 304(%rsp), %xmm3
	movdqa .LCPI56_0(%rip), %xmm6
	movdqa %xmm2, %xmm4
	paddq %xmm6, %xmm4
	movaps %xmm8, %xmm10
	movdqa .LCPI56_1(%rip), %xmm8
	movdqa %xmm1, %xmm5
	paddq %xmm8, %xmm5
	movdqu %xmm5, 160(%rsp)
	movdqu %xmm4, 144(%rsp)
	movaps %xmm7, %xmm11
	movdqa .LCPI56_2(%rip), %xmm7
	movdqa %xmm3, %xmm4
	paddq %xmm7, %xmm4
	movdqa .LCPI56_3(%rip), %xmm14
	movdqa %xmm0, %xmm5
	paddq %xmm14, %xmm5
	movdqu %xmm5, 192(%rsp)
	movdqu %xmm4, 176(%rsp)
	movups %xmm15, 224(%rsp)
	movups %xmm10, 208(%rsp)
	movups %xmm9, 256(%rsp)
	movups %xmm13, 240(%rsp)
	movdqa %xmm1, 752(%rsp)
	movdqa %xmm2, 768(%rsp)
	movdqa %xmm3, 736(%rsp)
	movdqa %xmm0, 720(%rsp)
	leaq 720(%rsp), %rax
	movq %rax, 40(%rsp)
	movaps %xmm11, 704(%rsp)
	leaq 704(%rsp), %rax
	movq %rax, 48(%rsp)
	pxor %xmm0, %xmm0
	movdqa %xmm0, 688(%rsp)
	leaq 688(%rsp), %rax
	movq %rax, 56(%rsp)
	movdqa %xmm0, 672(%rsp)
	leaq 672(%rsp), %rax
	movq %rax, 64(%rsp)
	movaps %xmm12, 656(%rsp)
	leaq 656(%rsp), %rax
	movq %rax, 72(%rsp)
	leaq 736(%rsp), %rax
	movq %rax, 32(%rsp)
	leaq 144(%rsp), %rcx
	leaq 80(%rsp), %rdx
	leaq 768(%rsp), %r8
	leaq 752(%rsp), %r9
	callq ring_core.digest.sha2.by_fours.run_ahead.34389943500e16fa
	movups (%r13), %xmm0
	movups 16(%r13), %xmm1
	movups 32(%r13), %xmm2
	movups 48(%r13), %xmm3
	movaps %xmm0, 272(%rsp)
	movaps %xmm1, 288(%rsp)
	movaps %xmm2, 304(%rsp)
	movaps %xmm3, 320(%rsp)
	movdqa 80(%rsp), %xmm0
	movdqa 96(%rsp), %xmm1
	movdqa 112(%rsp), %xmm2
	movdqa 128(%rsp), %xmm3
	paddq %xmm0, %xmm6
	paddq %xmm1, %xmm8
	movdqu %xmm8, 160(%rsp)
	movaps %xmm10, %xmm8
	movdqu %xmm6, 144(%rsp)
	paddq %xmm2, %xmm7
	paddq %xmm3, %xmm14
	movdqu %xmm14, 192(%rsp)
	movdqu %xmm7, 176(%rsp)
	movaps %xmm11, %xmm7
	movups %xmm15, 224(%rsp)
	movups %xmm10, 208(%rsp)
	movups %xmm9, 256(%rsp)
	movups %xmm13, 240(%rsp)
	movdqa %xmm1, 624(%rsp)
	movdqa %xmm0, 640(%rsp)
	movdqa %xmm2, 608(%rsp)
	movdqa %xmm3, 592(%rsp)
	leaq 592(%rsp), %rax
	movq %rax, 40(%rsp)
	movaps %xmm11, 576(%rsp)
	leaq 576(%rsp), %rax
	movq %rax, 48(%rsp)
	pxor %xmm0, %xmm0
	movdqa %xmm0, 560(%rsp)
	leaq 560(%rsp), %rax
	movq %rax, 56(%rsp)
	movdqa %xmm0, 544(%rsp)
	leaq 544(%rsp), %rax
	movq %rax, 64(%rsp)
	movaps %xmm12, 528(%rsp)
	leaq 528(%rsp), %rax
	movq %rax, 72(%rsp)
	leaq 608(%rsp), %rax
	movq %rax, 32(%rsp)
	leaq 144(%rsp), %rcx
	leaq 272(%rsp), %rdx
	leaq 640(%rsp), %r8
	leaq 624(%rsp), %r9
	callq ring_core.digest.sha2.by_fours.run_ahead.34389943500e16fa
	movdqa 464(%rsp), %xmm5
	movdqa 480(%rsp), %xmm4
	movdqa 496(%rsp), %xmm3
	movdqa 512(%rsp), %xmm2
	addq $2, %r15
	adcq $0, %r12
	movq $-1, %rax
	cmovbq %rax, %r12
	cmovbq %rax, %r15
	movq %r12, 8(%r14)
	movq %r15, (%r14)
	movdqa 288(%rsp), %xmm1
	movdqa 320(%rsp), %xmm0
	pxor %xmm0, %xmm4
	pxor 304(%rsp), %xmm3
	pxor %xmm1, %xmm5
	pxor 272(%rsp), %xmm2
	decl %ebx
	jne .LBB56_5
.LBB56_6:
	movdqa .LCPI56_10(%rip), %xmm0
	pshufb %xmm0, %xmm5
	pshufb %xmm0, %xmm2
	pshufb %xmm0, %xmm4
	pshufb %xmm0, %xmm3
	movdqu %xmm2, (%rsi)
	movdqu %xmm5, 16(%rsi)
	movdqu %xmm3, 32(%rsi)
	movdqu %xmm4, 48(%rsi)
	cmpq $1, %rdi
	je .LBB56_10
	movdqu %xmm2, 64(%rsi)
	movdqu %xmm5, 80(%rsi)
	movdqu %xmm3, 96(%rsi)
	movdqu %xmm4, 112(%rsi)
	cmpq $2, %rdi
	je .LBB56_10
	movdqu %xmm2, 128(%rsi)
	movdqu %xmm5, 144(%rsi)
	movdqu %xmm3, 160(%rsi)
	movdqu %xmm4, 176(%rsi)
	cmpq $3, %rdi
	je .LBB56_10
	movdqu %xmm2, 192(%rsi)
	movdqu %xmm5, 208(%rsi)
	movdqu %xmm3, 224(%rsi)
	movdqu %xmm4, 240(%rsi)
.LBB56_10:
	movaps 912(%rsp), %xmm6
	movaps 928(%rsp), %xmm7
	movaps 944(%rsp), %xmm8
	movaps 960(%rsp), %xmm9
	movaps 976(%rsp), %xmm10
	movaps 992(%rsp), %xmm11
	movaps 1008(%rsp), %xmm12
	movaps 1024(%rsp), %xmm13
	movaps 1040(%rsp), %xmm14
	movaps 1056(%rsp), %xmm15
	addq $1072, %rsp
	popq %rbx
	popq %rdi
	popq %rsi
	popq %r12
	popq %r13
	popq %r14
	popq %r15
	retq
.LBB56_11:
	ud2
	.seh_endproc
	.section .rdata,"dr"
	.p2align 4, 0x0
.LCPI57_0:
	.quad 4794697086780616226
	.quad 8158064640168781261
.LCPI57_1:
	.quad -5349999486874862801
	.quad -1606136188198331460
.LCPI57_2:
	.quad -7908458776815382629
	.quad -6116909921290321640
.LCPI57_3:
	.quad -5091668628516326088
	.quad 6480981068601479193
.LCPI57_4:
	.quad 2608012711638119052
	.quad 6128411473006802146
.LCPI57_5:
	.quad -2880145864133508542
	.quad 1334009975649890238
.LCPI57_6:
	.quad -7215885187991268811
	.quad -4495734319001031788
.LCPI57_7:
	.quad 8268148722764581231
	.quad -9160688886553864527
.LCPI57_8:
	.quad -9223372036854775808
	.quad 0
.LCPI57_9:
	.byte 0
	.byte 0
	.byte 0
	.byte 0
	.byte 0
	.byte 0
	.byte 0
	.byte 0
	.byte 0
	.byte 5
	.byte 0
	.byte 0
	.byte 0
	.byte 0
	.byte 0
	.byte 0
.LCPI57_10:
	.byte 7
	.byte 6
	.byte 5
	.byte 4
	.byte 3
	.byte 2
	.byte 1
	.byte 0
	.byte 15
	.byte 14
	.byte 13
	.byte 12
	.byte 11
	.byte 10
	.byte 9
	.byte 8
.LCPI57_11:
	.quad -9223372036854775808
	.text
	.p2align 4
ring.pbkdf2.rounds.xor_iterates.198a8405ffd9f092:
.seh_proc ring.pbkdf2.rounds.xor_iterates.198a8405ffd9f092
	pushq %r15
	.seh_pushreg %r15
	pushq %r14
	.seh_pushreg %r14
	pushq %r13
	.seh_pushreg %r13
	pushq %r12
	.seh_pushreg %r12
	pushq %rsi
	.seh_pushreg %rsi
	pushq %rdi
	.seh_pushreg %rdi
	pushq %rbx
	.seh_pushreg %rbx
	subq $1072, %rsp
	.seh_stackalloc 1072
	movaps %xmm15, 1056(%rsp)
	.seh_savexmm %xmm15, 1056
	movaps %xmm14, 1040(%rsp)
	.seh_savexmm %xmm14, 1040
	movaps %xmm13, 1024(%rsp)
	.seh_savexmm %xmm13, 1024
	movaps %xmm12, 1008(%rsp)
	.seh_savexmm %xmm12, 1008
	movaps %xmm11, 992(%rsp)
	.seh_savexmm %xmm11, 992
	movaps %xmm10, 976(%rsp)
	.seh_savexmm %xmm10, 976
	movaps %xmm9, 960(%rsp)
	.seh_savexmm %xmm9, 960
	movaps %xmm8, 944(%rsp)
	.seh_savexmm %xmm8, 944
	movaps %xmm7, 928(%rsp)
	.seh_savexmm %xmm7, 928
	movaps %xmm6, 912(%rsp)
	.seh_savexmm %xmm6, 912
	.seh_endprologue
	xorps %xmm0, %xmm0
	movaps %xmm0, 320(%rsp)
	movaps %xmm0, 304(%rsp)
	movaps %xmm0, 288(%rsp)
	cmpb $0, (%rdx)
	jne .LBB57_11
	cmpb $0, 576(%rdx)
	jne .LBB57_11
	movups 8(%rdx), %xmm0
	movups 24(%rdx), %xmm1
	movups 40(%rdx), %xmm2
	movups 56(%rdx), %xmm3
	movaps %xmm3, 192(%rsp)
	movaps %xmm2, 176(%rsp)
	movaps %xmm1, 160(%rsp)
	movaps %xmm0, 144(%rsp)
	movups 584(%rdx), %xmm4
	movups 600(%rdx), %xmm5
	movups 616(%rdx), %xmm6
	movups 632(%rdx), %xmm7
	movaps %xmm0, 336(%rsp)
	movaps %xmm1, 352(%rsp)
	movaps %xmm2, 368(%rsp)
	movaps %xmm3, 384(%rsp)
	movaps %xmm4, 400(%rsp)
	movaps %xmm5, 416(%rsp)
	movaps %xmm6, 432(%rsp)
	movaps %xmm7, 448(%rsp)
	cmpb $0, 1152(%rdx)
	jne .LBB57_11
	movq %r9, %rdi
	movq %r8, %rsi
	movq %rcx, %rbx
	movq 1168(%rsp), %r14
	movaps 400(%rsp), %xmm0
	movaps 416(%rsp), %xmm1
	movaps 432(%rsp), %xmm2
	movaps 448(%rsp), %xmm3
	movdqu 1160(%rdx), %xmm4
	movdqu 1176(%rdx), %xmm5
	movaps %xmm3, 128(%rsp)
	movaps %xmm2, 112(%rsp)
	movaps %xmm1, 96(%rsp)
	movaps %xmm0, 80(%rsp)
	movdqa .LCPI57_0(%rip), %xmm0
	paddq %xmm4, %xmm0
	movdqa .LCPI57_1(%rip), %xmm1
	paddq %xmm5, %xmm1
	movdqu %xmm1, 160(%rsp)
	movdqu %xmm0, 144(%rsp)
	movaps .LCPI57_2(%rip), %xmm8
	movups %xmm8, 192(%rsp)
	movaps .LCPI57_3(%rip), %xmm9
	movups %xmm9, 176(%rsp)
	movaps .LCPI57_4(%rip), %xmm10
	movups %xmm10, 224(%rsp)
	movaps .LCPI57_5(%rip), %xmm7
	movups %xmm7, 208(%rsp)
	movaps .LCPI57_6(%rip), %xmm15
	movups %xmm15, 256(%rsp)
	movaps .LCPI57_7(%rip), %xmm13
	movups %xmm13, 240(%rsp)
	movdqa %xmm5, 880(%rsp)
	movdqa %xmm4, 896(%rsp)
	movsd .LCPI57_11(%rip), %xmm14
	movaps %xmm14, 864(%rsp)
	pxor %xmm0, %xmm0
	movdqa %xmm0, 848(%rsp)
	leaq 848(%rsp), %rax
	movq %rax, 40(%rsp)
	movdqa %xmm0, 832(%rsp)
	leaq 832(%rsp), %rax
	movq %rax, 48(%rsp)
	movdqa %xmm0, 816(%rsp)
	leaq 816(%rsp), %rax
	movq %rax, 56(%rsp)
	movdqa %xmm0, 800(%rsp)
	leaq 800(%rsp), %rax
	movq %rax, 64(%rsp)
	movdqa .LCPI57_9(%rip), %xmm0
	movdqa %xmm0, 784(%rsp)
	leaq 784(%rsp), %rax
	movq %rax, 72(%rsp)
	leaq 864(%rsp), %rax
	movq %rax, 32(%rsp)
	leaq 144(%rsp), %rcx
	leaq 80(%rsp), %rdx
	leaq 896(%rsp), %r8
	leaq 880(%rsp), %r9
	callq ring_core.digest.sha2.by_fours.run_ahead.34389943500e16fa
	movq (%r14), %r15
	movq 8(%r14), %r12
	addq $1, %r15
	adcq $0, %r12
	movq $-1, %rax
	cmovbq %rax, %r12
	cmovbq %rax, %r15
	movq %r15, (%r14)
	movq %r12, 8(%r14)
	movdqa 80(%rsp), %xmm1
	movdqa 96(%rsp), %xmm2
	movdqa 112(%rsp), %xmm3
	movdqa 128(%rsp), %xmm4
	movdqa %xmm1, 272(%rsp)
	movl 40(%rbx), %ebx
	cmpl $2, %ebx
	jb .LBB57_6
	leaq 400(%rsp), %r13
	decl %ebx
	movdqa %xmm2, %xmm0
	.p2align 4
.LBB57_5:
	movdqa %xmm4, 464(%rsp)
	movdqa %xmm3, 480(%rsp)
	movdqa %xmm2, 496(%rsp)
	movdqa %xmm1, 512(%rsp)
	movaps 336(%rsp), %xmm1
	movaps 352(%rsp), %xmm2
	movaps 368(%rsp), %xmm3
	movaps 384(%rsp), %xmm4
	movaps %xmm4, 128(%rsp)
	movaps %xmm3, 112(%rsp)
	movaps %xmm2, 96(%rsp)
	movaps %xmm1, 80(%rsp)
	movdqa 272(%rsp), %xmm1
	movaps %xmm9, %xmm12
	movdqa .LCPI57_0(%rip), %xmm9
	movdqa %xmm1, %xmm2
	paddq %xmm9, %xmm2
	movaps %xmm7, %xmm6
	movaps %xmm10, %xmm7
	movdqa .LCPI57_1(%rip), %xmm10
	movdqa %xmm0, %xmm3
	paddq %xmm10, %xmm3
	movdqu %xmm3, 160(%rsp)
	movdqu %xmm2, 144(%rsp)
	movups %xmm8, 192(%rsp)
	movups %xmm12, 176(%rsp)
	movups %xmm7, 224(%rsp)
	movups %xmm6, 208(%rsp)
	movups %xmm15, 256(%rsp)
	movups %xmm13, 240(%rsp)
	movdqa %xmm0, 752(%rsp)
	movdqa %xmm1, 768(%rsp)
	movaps %xmm14, 736(%rsp)
	movaps %xmm8, %xmm11
	xorps %xmm8, %xmm8
	movaps %xmm8, 720(%rsp)
	leaq 720(%rsp), %rax
	movq %rax, 40(%rsp)
	movaps %xmm8, 704(%rsp)
	leaq 704(%rsp), %rax
	movq %rax, 48(%rsp)
	movaps %xmm8, 688(%rsp)
	leaq 688(%rsp), %rax
	movq %rax, 56(%rsp)
	movaps %xmm8, 672(%rsp)
	leaq 672(%rsp), %rax
	movq %rax, 64(%rsp)
	movaps .LCPI57_9(%rip), %xmm0
	movaps %xmm0, 656(%rsp)
	leaq 656(%rsp), %rax
	movq %rax, 72(%rsp)
	leaq 736(%rsp), %rax
	movq %rax, 32(%rsp)
	leaq 144(%rsp), %rcx
	leaq 80(%rsp), %rdx
	leaq 768(%rsp), %r8
	leaq 752(%rsp), %r9
	callq ring_core.digest.sha2.by_fours.run_ahead.34389943500e16fa
	movups (%r13), %xmm0
	movups 16(%r13), %xmm1
	movups 32(%r13), %xmm2
	movups 48(%r13), %xmm3
	movaps %xmm0, 272(%rsp)
	movaps %xmm1, 288(%rsp)
	movaps %xmm2, 304(%rsp)
	movaps %xmm3, 320(%rsp)
	movdqa 80(%rsp), %xmm0
	movdqa 96(%rsp), %xmm1
	paddq %xmm0, %xmm9
	paddq %xmm1, %xmm10
	movdqu %xmm10, 160(%rsp)
	movaps %xmm7, %xmm10
	movaps %xmm6, %xmm7
	movdqu %xmm9, 144(%rsp)
	movaps %xmm12, %xmm9
	movups %xmm11, 192(%rsp)
	movups %xmm12, 176(%rsp)
	movups %xmm10, 224(%rsp)
	movups %xmm6, 208(%rsp)
	movups %xmm15, 256(%rsp)
	movups %xmm13, 240(%rsp)
	movdqa %xmm1, 624(%rsp)
	movdqa %xmm0, 640(%rsp)
	movaps %xmm14, 608(%rsp)
	movaps %xmm8, 592(%rsp)
	leaq 592(%rsp), %rax
	movq %rax, 40(%rsp)
	movaps %xmm8, 576(%rsp)
	leaq 576(%rsp), %rax
	movq %rax, 48(%rsp)
	movaps %xmm8, 560(%rsp)
	leaq 560(%rsp), %rax
	movq %rax, 56(%rsp)
	movaps %xmm8, 544(%rsp)
	movaps %xmm11, %xmm8
	movaps .LCPI57_9(%rip), %xmm0
	leaq 544(%rsp), %rax
	movq %rax, 64(%rsp)
	movaps %xmm0, 528(%rsp)
	leaq 528(%rsp), %rax
	movq %rax, 72(%rsp)
	leaq 608(%rsp), %rax
	movq %rax, 32(%rsp)
	leaq 144(%rsp), %rcx
	leaq 272(%rsp), %rdx
	leaq 640(%rsp), %r8
	leaq 624(%rsp), %r9
	callq ring_core.digest.sha2.by_fours.run_ahead.34389943500e16fa
	movdqa 464(%rsp), %xmm4
	movdqa 480(%rsp), %xmm3
	movdqa 496(%rsp), %xmm2
	movdqa 512(%rsp), %xmm1
	addq $2, %r15
	adcq $0, %r12
	movq $-1, %rax
	cmovbq %rax, %r12
	cmovbq %rax, %r15
	movq %r12, 8(%r14)
	movq %r15, (%r14)
	movdqa 288(%rsp), %xmm0
	pxor 320(%rsp), %xmm4
	pxor 304(%rsp), %xmm3
	pxor %xmm0, %xmm2
	pxor 272(%rsp), %xmm1
	decl %ebx
	jne .LBB57_5
.LBB57_6:
	movdqa .LCPI57_10(%rip), %xmm0
	pshufb %xmm0, %xmm2
	pshufb %xmm0, %xmm1
	pshufb %xmm0, %xmm4
	pshufb %xmm0, %xmm3
	movdqu %xmm1, (%rsi)
	movdqu %xmm2, 16(%rsi)
	movdqu %xmm3, 32(%rsi)
	movdqu %xmm4, 48(%rsi)
	cmpq $1, %rdi
	je .LBB57_10
	movdqu %xmm1, 64(%rsi)
	movdqu %xmm2, 80(%rsi)
	movdqu %xmm3, 96(%rsi)
	movdqu %xmm4, 112(%rsi)
	cmpq $2, %rdi
	je .LBB57_10
	movdqu %xmm1, 128(%rsi)
	movdqu %xmm2, 144(%rsi)
	movdqu %xmm3, 160(%rsi)
	movdqu %xmm4, 176(%rsi)
	cmpq $3, %rdi
	je .LBB57_10
	movdqu %xmm1, 192(%rsi)
	movdqu %xmm2, 208(%rsi)
	movdqu %xmm3, 224(%rsi)
	movdqu %xmm4, 240(%rsi)
.LBB57_10:
	movaps 912(%rsp), %xmm6
	movaps 928(%rsp), %xmm7
	movaps 944(%rsp), %xmm8
	movaps 960(%rsp), %xmm9
	movaps 976(%rsp), %xmm10
	movaps 992(%rsp), %xmm11
	movaps 1008(%rsp), %xmm12
	movaps 1024(%rsp), %xmm13
	movaps 1040(%rsp), %xmm14
	movaps 1056(%rsp), %xmm15
	addq $1072, %rsp
	popq %rbx
	popq %rdi
	popq %rsi
	popq %r12
	popq %r13
	popq %r14
	popq %r15
	retq
.LBB57_11:
	ud2
	.seh_endproc
	.p2align 4
ring_c.tls13.finished_tag:
.seh_proc ring_c.tls13.finished_tag
	pushq %r15
	.seh_pushreg %r15
	pushq %r14
	.seh_pushreg %r14
	pushq %r12
	.seh_pushreg %r12
	pushq %rsi
	.seh_pushreg %rsi
	pushq %rdi
	.seh_pushreg %rdi
	pushq %rbx
	.seh_pushreg %rbx
	subq $1448, %rsp
	.seh_stackalloc 1448
	movaps %xmm6, 1424(%rsp)
	.seh_savexmm %xmm6, 1424
	.seh_endprologue
	movl %edx, %ebx
	movq %rcx, %rsi
	xorps %xmm6, %xmm6
	movaps %xmm6, 624(%rsp)
	movaps %xmm6, 608(%rsp)
	movaps %xmm6, 592(%rsp)
	movaps %xmm6, 576(%rsp)
	movaps %xmm6, 560(%rsp)
	movaps %xmm6, 544(%rsp)
	movaps %xmm6, 528(%rsp)
	movaps %xmm6, 512(%rsp)
	movaps %xmm6, 496(%rsp)
	movaps %xmm6, 480(%rsp)
	movaps %xmm6, 464(%rsp)
	movaps %xmm6, 448(%rsp)
	movaps %xmm6, 64(%rsp)
	movaps %xmm6, 80(%rsp)
	movaps %xmm6, 96(%rsp)
	movaps %xmm6, 112(%rsp)
	movb $0, 128(%rsp)
	movaps %xmm6, 368(%rsp)
	movaps %xmm6, 352(%rsp)
	movaps %xmm6, 336(%rsp)
	movaps %xmm6, 320(%rsp)
	movaps %xmm6, 304(%rsp)
	movaps %xmm6, 288(%rsp)
	movaps %xmm6, 272(%rsp)
	movaps %xmm6, 256(%rsp)
	movaps %xmm6, 240(%rsp)
	movaps %xmm6, 224(%rsp)
	movaps %xmm6, 208(%rsp)
	movaps %xmm6, 192(%rsp)
	movaps %xmm6, 176(%rsp)
	movaps %xmm6, 160(%rsp)
	movaps %xmm6, 144(%rsp)
	leaq 352(%rsp), %rax
	movq %rax, 32(%rsp)
	leaq 144(%rsp), %rcx
	callq ring.hmac.key.Key.new_counted
	cmpb $0, 144(%rsp)
	jne .LBB58_3
	leaq 160(%rsp), %rdx
	leaq 655(%rsp), %rdi
	movl $192, %r8d
	movq %rdi, %rcx
	callq memcpy
	leaq 1232(%rsp), %r14
	movl $192, %r8d
	movq %r14, %rcx
	movq %rdi, %rdx
	callq memcpy
	leaq 1040(%rsp), %r15
	movl $192, %r8d
	movq %r15, %rcx
	movq %r14, %rdx
	callq memcpy
	movaps %xmm6, 384(%rsp)
	movaps %xmm6, 400(%rsp)
	movaps %xmm6, 416(%rsp)
	movaps %xmm6, 432(%rsp)
	movzbl %bl, %eax
	leaq .Lswitch.table.v2_yz_webhook_verify_stripe(%rip), %rcx
	movq (%rcx,%rax,8), %rdi
	movq %rdi, 48(%rsp)
	leaq 384(%rsp), %r14
	movq %r14, 40(%rsp)
	movq $0, 32(%rsp)
	leaq .Lstatic.61(%rip), %rdx
	leaq .Lstatic.8(%rip), %r9
	movl $8, %r8d
	movq %r15, %rcx
	callq ring_schedules.label.fill_by_label
	movaps %xmm6, 144(%rsp)
	movaps %xmm6, 160(%rsp)
	movaps %xmm6, 176(%rsp)
	movaps %xmm6, 192(%rsp)
	movaps %xmm6, 208(%rsp)
	movaps %xmm6, 224(%rsp)
	movaps %xmm6, 240(%rsp)
	movaps %xmm6, 256(%rsp)
	movaps %xmm6, 272(%rsp)
	movaps %xmm6, 288(%rsp)
	movaps %xmm6, 304(%rsp)
	movaps %xmm6, 320(%rsp)
	movaps %xmm6, 336(%rsp)
	leaq 160(%rsp), %r15
	movaps %xmm6, 640(%rsp)
	movaps %xmm6, 656(%rsp)
	leaq 640(%rsp), %r12
	movq %r12, 32(%rsp)
	leaq 144(%rsp), %rcx
	movl %ebx, %edx
	movq %r14, %r8
	movq %rdi, %r9
	callq ring.hmac.key.Key.new_counted
	movzbl 144(%rsp), %ebx
	leaq 848(%rsp), %rcx
	movl $192, %r8d
	movq %r15, %rdx
	callq memcpy
	testb %bl, %bl
	jne .LBB58_3
	movq 1544(%rsp), %rdi
	movq 1536(%rsp), %rbx
	leaq 448(%rsp), %r14
	leaq 848(%rsp), %rdx
	movl $192, %r8d
	movq %r14, %rcx
	callq memcpy
	xorps %xmm0, %xmm0
	movaps %xmm0, 144(%rsp)
	movaps %xmm0, 160(%rsp)
	movaps %xmm0, 176(%rsp)
	movaps %xmm0, 192(%rsp)
	movw $0, 208(%rsp)
	movaps %xmm0, 640(%rsp)
	movaps %xmm0, 656(%rsp)
	movq %r12, 32(%rsp)
	leaq 144(%rsp), %rcx
	movq %r14, %rdx
	movq %rbx, %r8
	movq %rdi, %r9
	callq ring.hmac.sign_counted
	movups 145(%rsp), %xmm0
	movups 161(%rsp), %xmm1
	movups 177(%rsp), %xmm2
	movups 193(%rsp), %xmm3
	movaps %xmm0, 64(%rsp)
	movaps %xmm1, 80(%rsp)
	movaps %xmm2, 96(%rsp)
	movaps %xmm3, 112(%rsp)
	movzbl 209(%rsp), %eax
	movb %al, 128(%rsp)
	cmpb $0, 144(%rsp)
	jne .LBB58_3
	movzbl 128(%rsp), %eax
	movb %al, 64(%rsi)
	movaps 64(%rsp), %xmm0
	movaps 80(%rsp), %xmm1
	movaps 96(%rsp), %xmm2
	movaps 112(%rsp), %xmm3
	movups %xmm3, 48(%rsi)
	movups %xmm2, 32(%rsi)
	movups %xmm1, 16(%rsi)
	movups %xmm0, (%rsi)
	movaps 1424(%rsp), %xmm6
	addq $1448, %rsp
	popq %rbx
	popq %rdi
	popq %rsi
	popq %r12
	popq %r14
	popq %r15
	retq
.LBB58_3:
	ud2
	.seh_endproc
	.p2align 4
ring_tokens.webhook.is_named:
.seh_proc ring_tokens.webhook.is_named
	pushq %rsi
	.seh_pushreg %rsi
	pushq %rdi
	.seh_pushreg %rdi
	pushq %rbx
	.seh_pushreg %rbx
	subq $64, %rsp
	.seh_stackalloc 64
	.seh_endprologue
	movq 136(%rsp), %r11
	movq %r11, %rax
	xorps %xmm0, %xmm0
	movaps %xmm0, 48(%rsp)
	movaps %xmm0, 32(%rsp)
	movaps %xmm0, 16(%rsp)
	movaps %xmm0, (%rsp)
	subq %rdx, %rax
	jb .LBB59_8
	movq 128(%rsp), %r10
	movq %rdx, %rsi
	testq %rdx, %rdx
	je .LBB59_6
	xorl %esi, %esi
	.p2align 4
.LBB59_3:
	movzbl (%r10,%rsi), %ebx
	cmpb (%rcx,%rsi), %bl
	jne .LBB59_8
	incq %rsi
	cmpq %rsi, %rdx
	jne .LBB59_3
	movq %rdx, %rsi
	.p2align 4
.LBB59_6:
	cmpq %rsi, %r11
	je .LBB59_9
	movzbl (%r10,%rsi), %ecx
	addb $-91, %cl
	incq %rsi
	cmpb $-26, %cl
	jb .LBB59_6
	jmp .LBB59_8
.LBB59_9:
	movl %eax, %ecx
	andl $1, %ecx
	shrq %rax
	xorq %r9, %rax
	orq %rcx, %rax
	jne .LBB59_8
	testq %r9, %r9
	je .LBB59_11
	leaq (%rdx,%r10), %rcx
	incq %rcx
	xorl %edx, %edx
	jmp .LBB59_13
.LBB59_23:
	addb $-48, %r10b
.LBB59_29:
	shlb $4, %al
	addb %r10b, %al
	movb %al, (%rsp,%rdx)
	incq %rdx
	movb $1, %al
	cmpq %rdx, %r9
	je .LBB59_30
.LBB59_13:
	movzbl -1(%rcx,%rdx,2), %eax
	cmpb $48, %al
	jb .LBB59_8
	movzbl (%rcx,%rdx,2), %r10d
	cmpb $57, %al
	ja .LBB59_16
	addb $-48, %al
	jmp .LBB59_21
.LBB59_16:
	cmpb $65, %al
	jb .LBB59_8
	cmpb $70, %al
	ja .LBB59_19
	addb $-55, %al
	jmp .LBB59_21
.LBB59_19:
	leal -97(%rax), %r11d
	cmpb $5, %r11b
	ja .LBB59_8
	addb $-87, %al
.LBB59_21:
	cmpb $48, %r10b
	jb .LBB59_8
	cmpb $57, %r10b
	jbe .LBB59_23
	cmpb $65, %r10b
	jb .LBB59_8
	cmpb $70, %r10b
	ja .LBB59_27
	addb $-55, %r10b
	jmp .LBB59_29
.LBB59_27:
	leal -97(%r10), %r11d
	cmpb $5, %r11b
	ja .LBB59_8
	addb $-87, %r10b
	jmp .LBB59_29
.LBB59_8:
	xorl %eax, %eax
	testq %r9, %r9
	je .LBB59_33
.LBB59_30:
	movq 144(%rsp), %rcx
	movq 16(%rcx), %rdx
	movq 24(%rcx), %r11
	xorl %r10d, %r10d
	xorl %esi, %esi
	.p2align 4
.LBB59_31:
	movzbl (%rsp,%rsi), %ebx
	xorb (%r8,%rsi), %bl
	orb %bl, %r10b
	addq $1, %rdx
	adcq $0, %r11
	movq $-1, %rdi
	cmovbq %rdi, %r11
	cmovbq %rdi, %rdx
	movq %r11, 24(%rcx)
	movq %rdx, 16(%rcx)
	incq %rsi
	cmpq %rsi, %r9
	jne .LBB59_31
	testb %r10b, %r10b
	sete %cl
	andb %cl, %al
.LBB59_33:
	addq $64, %rsp
	popq %rbx
	popq %rdi
	popq %rsi
	retq
.LBB59_11:
	movb $1, %al
	jmp .LBB59_33
	.seh_endproc
	.globl yz_block_len
	.p2align 4
yz_block_len:
	decl %ecx
	cmpl $4, %ecx
	ja .LBB60_1
	movl %ecx, %eax
	leaq .Lswitch.table.v2_yz_hmac_update(%rip), %rcx
	movq (%rcx,%rax,8), %rax
	retq
.LBB60_1:
	xorl %eax, %eax
	retq
	.globl yz_clear
	.p2align 4
yz_clear:
.seh_proc yz_clear
	pushq %rsi
	.seh_pushreg %rsi
	pushq %rdi
	.seh_pushreg %rdi
	subq $40, %rsp
	.seh_stackalloc 40
	.seh_endprologue
	movq %rcx, %rdi
	xorl %eax, %eax
	testq %rcx, %rcx
	sete %cl
	testq %rdx, %rdx
	je .LBB61_4
	movq %rdx, %rsi
	movb %cl, %al
	shll $12, %eax
	addq %rax, %rdi
	decq %rsi
	je .LBB61_3
	movq %rdi, %rcx
	xorl %edx, %edx
	movq %rsi, %r8
	callq memset
.LBB61_3:
	movb $0, (%rdi,%rsi)
.LBB61_4:
	addq $40, %rsp
	popq %rdi
	popq %rsi
	retq
	.seh_endproc
	.globl v2_yz_digest
	.p2align 4
v2_yz_digest:
.seh_proc v2_yz_digest
	pushq %r15
	.seh_pushreg %r15
	pushq %r14
	.seh_pushreg %r14
	pushq %rsi
	.seh_pushreg %rsi
	pushq %rdi
	.seh_pushreg %rdi
	pushq %rbx
	.seh_pushreg %rbx
	subq $240, %rsp
	.seh_stackalloc 240
	.seh_endprologue
	xorl %r10d, %r10d
	testq %rdx, %rdx
	sete %r11b
	xorl %esi, %esi
	testq %r9, %r9
	sete %bl
	decl %ecx
	movl $1, %eax
	cmpl $4, %ecx
	ja .LBB62_4
	movq 320(%rsp), %r14
	movl %ecx, %r15d
	leaq .Lswitch.table.v2_yz_webhook_verify_stripe(%rip), %rdi
	movl $4, %eax
	cmpq (%rdi,%r15,8), %r14
	jne .LBB62_4
	movb %r11b, %r10b
	shll $12, %r10d
	addq %r10, %rdx
	xorps %xmm0, %xmm0
	movaps %xmm0, 48(%rsp)
	movaps %xmm0, 64(%rsp)
	movaps %xmm0, 80(%rsp)
	movaps %xmm0, 96(%rsp)
	movw $0, 112(%rsp)
	movaps %xmm0, 208(%rsp)
	movaps %xmm0, 224(%rsp)
	leaq 208(%rsp), %rax
	movq %rax, 32(%rsp)
	leaq 48(%rsp), %rax
	movl %ecx, %r10d
	movq %rax, %rcx
	movq %rdx, %rax
	movl %r10d, %edx
	movq %r8, %r10
	movq %rax, %r8
	movq %r9, %r14
	movq %r10, %r9
	callq ring.digest.context.digest_counted
	movups 49(%rsp), %xmm0
	movups 65(%rsp), %xmm1
	movups 81(%rsp), %xmm2
	movups 97(%rsp), %xmm3
	movaps %xmm0, 128(%rsp)
	movaps %xmm1, 144(%rsp)
	movaps %xmm2, 160(%rsp)
	movaps %xmm3, 176(%rsp)
	movzbl 113(%rsp), %eax
	movb %al, 192(%rsp)
	cmpb $0, 48(%rsp)
	movl $8, %eax
	jne .LBB62_4
	movq %r14, %rcx
	movb %bl, %sil
	shll $12, %esi
	addq %rsi, %rcx
	movzbl 192(%rsp), %eax
	movq (%rdi,%rax,8), %r8
	leaq 128(%rsp), %rdx
	callq memcpy
	xorl %eax, %eax
.LBB62_4:
	addq $240, %rsp
	popq %rbx
	popq %rdi
	popq %rsi
	popq %r14
	popq %r15
	retq
	.seh_endproc
	.section .rdata,"dr"
	.p2align 4, 0x0
.LCPI63_0:
	.long 1732584193
	.long 1732584193
	.long 1732584193
	.long 1732584193
.LCPI63_1:
	.long 4023233417
	.long 4023233417
	.long 4023233417
	.long 4023233417
.LCPI63_2:
	.long 2562383102
	.long 2562383102
	.long 2562383102
	.long 2562383102
.LCPI63_3:
	.long 271733878
	.long 271733878
	.long 271733878
	.long 271733878
.LCPI63_4:
	.long 3285377520
	.long 3285377520
	.long 3285377520
	.long 3285377520
.LCPI63_5:
	.byte 3
	.byte 2
	.byte 1
	.byte 0
	.byte 7
	.byte 6
	.byte 5
	.byte 4
	.byte 11
	.byte 10
	.byte 9
	.byte 8
	.byte 15
	.byte 14
	.byte 13
	.byte 12
.LCPI63_6:
	.long 1518500249
	.long 1518500249
	.long 1518500249
	.long 1518500249
.LCPI63_7:
	.long 1779033703
	.long 1779033703
	.long 1779033703
	.long 1779033703
.LCPI63_8:
	.long 3144134277
	.long 3144134277
	.long 3144134277
	.long 3144134277
.LCPI63_9:
	.long 1013904242
	.long 1013904242
	.long 1013904242
	.long 1013904242
.LCPI63_10:
	.long 2773480762
	.long 2773480762
	.long 2773480762
	.long 2773480762
.LCPI63_11:
	.long 1359893119
	.long 1359893119
	.long 1359893119
	.long 1359893119
.LCPI63_12:
	.long 2600822924
	.long 2600822924
	.long 2600822924
	.long 2600822924
.LCPI63_13:
	.long 528734635
	.long 528734635
	.long 528734635
	.long 528734635
.LCPI63_14:
	.long 1541459225
	.long 1541459225
	.long 1541459225
	.long 1541459225
.LCPI63_15:
	.long 1116352408
	.long 1899447441
	.long 3049323471
	.long 3921009573
.LCPI63_16:
	.long 961987163
	.long 1508970993
	.long 2453635748
	.long 2870763221
.LCPI63_17:
	.long 3624381080
	.long 310598401
	.long 607225278
	.long 1426881987
.LCPI63_18:
	.long 1925078388
	.long 2162078206
	.long 2614888103
	.long 3248222580
	.text
	.globl v2_yz_digest_each
	.p2align 4
v2_yz_digest_each:
.seh_proc v2_yz_digest_each
	pushq %r15
	.seh_pushreg %r15
	pushq %r14
	.seh_pushreg %r14
	pushq %r13
	.seh_pushreg %r13
	pushq %r12
	.seh_pushreg %r12
	pushq %rsi
	.seh_pushreg %rsi
	pushq %rdi
	.seh_pushreg %rdi
	pushq %rbp
	.seh_pushreg %rbp
	pushq %rbx
	.seh_pushreg %rbx
	subq $2680, %rsp
	.seh_stackalloc 2680
	movaps %xmm13, 2656(%rsp)
	.seh_savexmm %xmm13, 2656
	movaps %xmm12, 2640(%rsp)
	.seh_savexmm %xmm12, 2640
	movaps %xmm11, 2624(%rsp)
	.seh_savexmm %xmm11, 2624
	movaps %xmm10, 2608(%rsp)
	.seh_savexmm %xmm10, 2608
	movaps %xmm9, 2592(%rsp)
	.seh_savexmm %xmm9, 2592
	movaps %xmm8, 2576(%rsp)
	.seh_savexmm %xmm8, 2576
	movaps %xmm7, 2560(%rsp)
	.seh_savexmm %xmm7, 2560
	movaps %xmm6, 2544(%rsp)
	.seh_savexmm %xmm6, 2544
	.seh_endprologue
	xorl %r14d, %r14d
	testq %rdx, %rdx
	sete %bl
	xorl %r10d, %r10d
	testq %r9, %r9
	sete %r11b
	decl %ecx
	cmpl $4, %ecx
	ja .LBB63_1
	movq %rdx, %r15
	movq %r8, 72(%rsp)
	movq %r9, 232(%rsp)
	leaq .LJTI63_0(%rip), %rax
	movslq (%rax,%rcx,4), %rcx
	addq %rax, %rcx
	jmpq *%rcx
.LBB63_4:
	movl $20, %eax
	movb $1, %cl
	movl %ecx, 60(%rsp)
	movl $0, 56(%rsp)
	jmp .LBB63_9
.LBB63_6:
	movl $32, %eax
	movb $4, %cl
	jmp .LBB63_8
.LBB63_3:
	movl $48, %eax
	movb $2, %cl
	jmp .LBB63_8
.LBB63_7:
	movl $64, %eax
	movb $3, %cl
.LBB63_8:
	movl %ecx, 56(%rsp)
	movl $0, 60(%rsp)
	jmp .LBB63_9
.LBB63_5:
	movl $32, %eax
	movb $1, %cl
	movl %ecx, 60(%rsp)
	movb $1, %cl
	movl %ecx, 56(%rsp)
.LBB63_9:
	movq %rax, %rcx
	movq 72(%rsp), %rdx
	imulq %rdx, %rcx
	xorl %esi, %esi
	mulq %rdx
	cmovnoq %rcx, %rsi
	movl $4, %eax
	jo .LBB63_99
	movq 2784(%rsp), %rcx
	cmpq %rcx, %rsi
	jne .LBB63_99
	pxor %xmm0, %xmm0
	movdqa %xmm0, 96(%rsp)
	movzbl 56(%rsp), %eax
	leaq .Lswitch.table.v2_yz_webhook_verify_stripe(%rip), %r13
	movq %rax, 312(%rsp)
	movq (%r13,%rax,8), %rax
	movq %rax, %rdi
	movq 72(%rsp), %rdx
	imulq %rdx, %rdi
	xorl %esi, %esi
	mulq %rdx
	movdqa %xmm0, 80(%rsp)
	cmovnoq %rdi, %rsi
	movl $8, %eax
	jo .LBB63_99
	cmpq %rcx, %rsi
	jne .LBB63_99
	movb %bl, %r14b
	shll $12, %r14d
	leaq (%r15,%r14), %rcx
	movq %rcx, 712(%rsp)
	cmpq $0, 72(%rsp)
	sete %dl
	movl 60(%rsp), %ecx
	xorb $1, %cl
	orb %cl, %dl
	movl 56(%rsp), %ebx
	jne .LBB63_18
	leaq (%r15,%r14), %rdx
	movq 8(%rdx), %rdx
	shrq $61, %rdx
	jne .LBB63_99
	movabsq $2305843009213693951, %rdx
	leaq (%r14,%r15), %rdi
	addq $24, %rdi
	movq 72(%rsp), %rsi
	.p2align 4
.LBB63_16:
	decq %rsi
	je .LBB63_18
	cmpq %rdx, (%rdi)
	leaq 16(%rdi), %rdi
	jbe .LBB63_16
	jmp .LBB63_99
.LBB63_1:
	movl $1, %eax
	jmp .LBB63_99
.LBB63_18:
	pxor %xmm0, %xmm0
	movdqa %xmm0, 1552(%rsp)
	movdqa %xmm0, 1536(%rsp)
	movdqa %xmm0, 1520(%rsp)
	movdqa %xmm0, 1504(%rsp)
	movb %bl, 1568(%rsp)
	movdqu %xmm0, 1569(%rsp)
	movdqu %xmm0, 1585(%rsp)
	movdqu %xmm0, 1601(%rsp)
	movdqu %xmm0, 1617(%rsp)
	movb %bl, 1633(%rsp)
	movdqu %xmm0, 1634(%rsp)
	movdqu %xmm0, 1650(%rsp)
	movdqu %xmm0, 1666(%rsp)
	movdqu %xmm0, 1682(%rsp)
	movb %bl, 1698(%rsp)
	movdqu %xmm0, 1699(%rsp)
	movdqu %xmm0, 1715(%rsp)
	movdqu %xmm0, 1731(%rsp)
	movdqu %xmm0, 1747(%rsp)
	movb %bl, 1763(%rsp)
	movdqu %xmm0, 1764(%rsp)
	movdqu %xmm0, 1780(%rsp)
	movdqu %xmm0, 1796(%rsp)
	movdqu %xmm0, 1812(%rsp)
	movb %bl, 1828(%rsp)
	movdqu %xmm0, 1829(%rsp)
	movdqu %xmm0, 1845(%rsp)
	movdqu %xmm0, 1861(%rsp)
	movdqu %xmm0, 1877(%rsp)
	movb %bl, 1893(%rsp)
	movdqu %xmm0, 1894(%rsp)
	movdqu %xmm0, 1910(%rsp)
	movdqu %xmm0, 1926(%rsp)
	movdqu %xmm0, 1942(%rsp)
	movb %bl, 1958(%rsp)
	movdqu %xmm0, 1959(%rsp)
	movdqu %xmm0, 1975(%rsp)
	movdqu %xmm0, 1991(%rsp)
	movdqu %xmm0, 2007(%rsp)
	movb %bl, 2023(%rsp)
	movdqu %xmm0, 2072(%rsp)
	movdqu %xmm0, 2056(%rsp)
	movdqu %xmm0, 2040(%rsp)
	movdqu %xmm0, 2024(%rsp)
	movb %bl, 2088(%rsp)
	movdqu %xmm0, 2137(%rsp)
	movdqu %xmm0, 2121(%rsp)
	movdqu %xmm0, 2105(%rsp)
	movdqu %xmm0, 2089(%rsp)
	movb %bl, 2153(%rsp)
	movdqu %xmm0, 2202(%rsp)
	movdqu %xmm0, 2186(%rsp)
	movdqu %xmm0, 2170(%rsp)
	movdqu %xmm0, 2154(%rsp)
	movb %bl, 2218(%rsp)
	movdqu %xmm0, 2267(%rsp)
	movdqu %xmm0, 2251(%rsp)
	movdqu %xmm0, 2235(%rsp)
	movdqu %xmm0, 2219(%rsp)
	movb %bl, 2283(%rsp)
	movdqu %xmm0, 2332(%rsp)
	movdqu %xmm0, 2316(%rsp)
	movdqu %xmm0, 2300(%rsp)
	movdqu %xmm0, 2284(%rsp)
	movb %bl, 2348(%rsp)
	movdqu %xmm0, 2397(%rsp)
	movdqu %xmm0, 2381(%rsp)
	movdqu %xmm0, 2365(%rsp)
	movdqu %xmm0, 2349(%rsp)
	movb %bl, 2413(%rsp)
	movdqu %xmm0, 2462(%rsp)
	movdqu %xmm0, 2446(%rsp)
	movdqu %xmm0, 2430(%rsp)
	movdqu %xmm0, 2414(%rsp)
	movb %bl, 2478(%rsp)
	movdqu %xmm0, 2527(%rsp)
	movdqu %xmm0, 2511(%rsp)
	movdqu %xmm0, 2495(%rsp)
	movdqu %xmm0, 2479(%rsp)
	movb %bl, 2543(%rsp)
	movq 72(%rsp), %rax
	testq %rax, %rax
	je .LBB63_98
	movb %r11b, %r10b
	shll $12, %r10d
	addq %r10, 232(%rsp)
	movzbl %cl, %ecx
	shll $6, %ecx
	addq $64, %rcx
	movq %rcx, 728(%rsp)
	leaq (%r14,%r15), %rcx
	addq $8, %rcx
	movq %rcx, 704(%rsp)
	xorl %r14d, %r14d
	movq $0, 240(%rsp)
	jmp .LBB63_23
	.p2align 4
.LBB63_95:
	xorl %edi, %edi
	movq 240(%rsp), %rax
.LBB63_21:
	movq %rax, %rsi
	movq %rdi, %rax
	shlq $6, %rax
	addq %rdi, %rax
	leaq (%rsp,%rax), %rdx
	addq $1504, %rdx
	movzbl 1568(%rsp,%rax), %eax
	movq (%r13,%rax,8), %rdi
	movq 232(%rsp), %rax
	leaq (%rax,%rsi), %rcx
	movq %rdi, %r8
	callq memcpy
	movq %rdi, %rax
	addq %rsi, %rax
.LBB63_22:
	movq %rax, 240(%rsp)
	movq 72(%rsp), %rax
	cmpq %rax, %r14
	jae .LBB63_98
.LBB63_23:
	subq %r14, %rax
	cmpq $16, %rax
	movl $16, %ecx
	movq %rax, 720(%rsp)
	cmovbq %rax, %rcx
	leaq (%rcx,%r14), %rax
	movq %rax, 120(%rsp)
	shlq $4, %r14
	movq 712(%rsp), %rax
	addq %r14, %rax
	movq %rax, 264(%rsp)
	addq 704(%rsp), %r14
	movq %r14, 296(%rsp)
	xorl %edx, %edx
	movq %rcx, 304(%rsp)
	jmp .LBB63_24
	.p2align 4
.LBB63_36:
	leaq 80(%rsp), %rcx
	movq %rcx, 32(%rsp)
	movl %ebx, %ecx
	leaq 336(%rsp), %rdx
	movq %rax, %r8
	movq %rsi, %r9
	callq ring.digest.block_context.run_blocks
	subq %rdx, %rsi
	movq 328(%rsp), %rcx
	addq 320(%rsp), %rsi
	adcq $0, %rcx
	movq $-1, %r8
	cmovbq %r8, %rcx
	movq %rsi, %r9
	cmovbq %r8, %r9
	movq %r9, 320(%rsp)
	movq %rcx, 328(%rsp)
	movzbl 408(%rsp), %edi
	movq %rdx, %rsi
.LBB63_37:
	movq 120(%rsp), %r14
	pxor %xmm0, %xmm0
	movdqa %xmm0, 624(%rsp)
	movdqa %xmm0, 608(%rsp)
	movdqa %xmm0, 592(%rsp)
	movdqa %xmm0, 576(%rsp)
	addq %rsi, %r9
	adcq $0, %rcx
	movq $-1, %rdx
	cmovbq %rdx, %r9
	cmovbq %rdx, %rcx
	movdqa %xmm0, 736(%rsp)
	movdqa %xmm0, 752(%rsp)
	movdqa %xmm0, 768(%rsp)
	movdqa %xmm0, 784(%rsp)
	movdqa %xmm0, 800(%rsp)
	movdqa %xmm0, 816(%rsp)
	movdqa %xmm0, 832(%rsp)
	movdqa %xmm0, 848(%rsp)
	movdqa %xmm0, 864(%rsp)
	movdqa %xmm0, 880(%rsp)
	movdqa %xmm0, 896(%rsp)
	movdqa %xmm0, 912(%rsp)
	movdqa %xmm0, 928(%rsp)
	movdqa %xmm0, 944(%rsp)
	movdqa %xmm0, 960(%rsp)
	movdqa %xmm0, 976(%rsp)
	leaq 736(%rsp), %r12
	movq %r12, 40(%rsp)
	movq %rcx, 32(%rsp)
	movl %edi, %ecx
	movq %rax, %rdx
	movq %rsi, %r8
	callq ring.digest.block_context.write_tail
	leaq 80(%rsp), %rcx
	movq %rcx, 32(%rsp)
	leaq 576(%rsp), %rcx
	leaq 320(%rsp), %rdx
	movq %r12, %r8
	movq %rax, %r9
	callq ring.digest.block_context.BlockContext.output_after
	movdqa 576(%rsp), %xmm0
	movdqa 592(%rsp), %xmm1
	movdqa 608(%rsp), %xmm2
	movdqa 624(%rsp), %xmm3
	movdqa %xmm3, 208(%rsp)
	movdqa %xmm2, 192(%rsp)
	movdqa %xmm1, 176(%rsp)
	movdqa %xmm0, 160(%rsp)
	movq %rbp, %rax
	shlq $6, %rax
	addq %rbp, %rax
	incq %rbp
	movdqu %xmm3, 1552(%rsp,%rax)
	movdqu %xmm2, 1536(%rsp,%rax)
	movdqu %xmm1, 1520(%rsp,%rax)
	movdqu %xmm0, 1504(%rsp,%rax)
	movb %dil, 1568(%rsp,%rax)
	movq %rbp, %rdx
	movq 304(%rsp), %rcx
	cmpq %rcx, %rbp
	jae .LBB63_94
.LBB63_24:
	movq %rcx, %rax
	subq %rdx, %rax
	testb %bl, %bl
	je .LBB63_32
	cmpl $1, 312(%rsp)
	jne .LBB63_33
	movzbl yz_instructions(%rip), %ecx
	testb %cl, %cl
	jne .LBB63_33
	cmpq $4, %rax
	jb .LBB63_33
	movq %rdx, 64(%rsp)
	movq %rdx, %r15
	shlq $4, %r15
	movq 264(%rsp), %rax
	leaq (%rax,%r15), %rcx
	movq %rcx, 152(%rsp)
	movq 8(%rax,%r15), %r14
	movq 24(%rax,%r15), %rcx
	addq $8, %r14
	shrq $6, %r14
	addq $8, %rcx
	shrq $6, %rcx
	cmpq %r14, %rcx
	movq %r14, 272(%rsp)
	movq %rcx, 136(%rsp)
	cmovbq %rcx, %r14
	movq 40(%rax,%r15), %rcx
	addq $8, %rcx
	shrq $6, %rcx
	cmpq %r14, %rcx
	movq %rcx, 128(%rsp)
	cmovbq %rcx, %r14
	movq 56(%rax,%r15), %rax
	addq $8, %rax
	shrq $6, %rax
	cmpq %r14, %rax
	movq %rax, 248(%rsp)
	cmovbq %rax, %r14
	movaps .LCPI63_7(%rip), %xmm0
	movaps %xmm0, 576(%rsp)
	movaps .LCPI63_8(%rip), %xmm0
	movaps %xmm0, 592(%rsp)
	movaps .LCPI63_9(%rip), %xmm0
	movaps %xmm0, 608(%rsp)
	movaps .LCPI63_10(%rip), %xmm0
	movaps %xmm0, 624(%rsp)
	movaps .LCPI63_11(%rip), %xmm0
	movaps %xmm0, 640(%rsp)
	movaps .LCPI63_12(%rip), %xmm0
	movaps %xmm0, 656(%rsp)
	movaps .LCPI63_13(%rip), %xmm0
	movaps %xmm0, 672(%rsp)
	movdqa .LCPI63_14(%rip), %xmm0
	movdqa %xmm0, 688(%rsp)
	xorl %r13d, %r13d
	leaq 736(%rsp), %rsi
	movl $512, %r8d
	movq %rsi, %rcx
	xorl %edx, %edx
	callq memset
	addq 296(%rsp), %r15
	jmp .LBB63_29
	.p2align 4
.LBB63_71:
	leaq 576(%rsp), %rcx
	leaq 736(%rsp), %rdx
	leaq 80(%rsp), %r8
	callq ring.digest.lanes.algorithms.InVectorSha256RunBlocks64.run_blocks.39d837fb76adf98f
	cmpq %r14, %r13
	leaq 1(%r13), %r13
	je .LBB63_72
.LBB63_29:
	movq %r13, %rbx
	shlq $6, %rbx
	xorl %ebp, %ebp
	movq %rsi, %rdi
	jmp .LBB63_30
	.p2align 4
.LBB63_31:
	movq %r9, %rax
	andq $-64, %rax
	addq %rax, %rdx
	movl %r9d, %r8d
	andl $63, %r8d
	pxor %xmm0, %xmm0
	movdqa %xmm0, 560(%rsp)
	movdqa %xmm0, 544(%rsp)
	movdqa %xmm0, 528(%rsp)
	movdqa %xmm0, 512(%rsp)
	movdqa %xmm0, 496(%rsp)
	movdqa %xmm0, 480(%rsp)
	movdqa %xmm0, 464(%rsp)
	movdqa %xmm0, 448(%rsp)
	movdqa %xmm0, 432(%rsp)
	movdqa %xmm0, 416(%rsp)
	movdqa %xmm0, 400(%rsp)
	movdqa %xmm0, 384(%rsp)
	movdqa %xmm0, 368(%rsp)
	movdqa %xmm0, 352(%rsp)
	movdqa %xmm0, 336(%rsp)
	movdqa %xmm0, 320(%rsp)
	leaq 320(%rsp), %rax
	movq %rax, 40(%rsp)
	movq $0, 32(%rsp)
	movb $1, %cl
	callq ring.digest.block_context.write_tail
	shlq $6, %r12
	movdqu 320(%rsp,%r12), %xmm0
	movdqu 336(%rsp,%r12), %xmm1
	movdqu 352(%rsp,%r12), %xmm2
	movdqu 368(%rsp,%r12), %xmm3
	movdqu %xmm0, (%rdi)
	movdqu %xmm1, 16(%rdi)
	movdqu %xmm2, 32(%rdi)
	movdqu %xmm3, 48(%rdi)
.LBB63_70:
	addq $4, %rbp
	addq $64, %rdi
	cmpq $16, %rbp
	je .LBB63_71
.LBB63_30:
	movq -8(%r15,%rbp,4), %rdx
	movq (%r15,%rbp,4), %r9
	movq %r9, %rax
	shrq $6, %rax
	movq %r13, %r12
	subq %rax, %r12
	jae .LBB63_31
	addq %rbx, %rdx
	movq %rdi, %rax
	subq %rdx, %rax
	cmpq $63, %rax
	ja .LBB63_69
	movzbl (%rdx), %eax
	movb %al, (%rdi)
	movzbl 1(%rdx), %eax
	movb %al, 1(%rdi)
	movzbl 2(%rdx), %eax
	movb %al, 2(%rdi)
	movzbl 3(%rdx), %eax
	movb %al, 3(%rdi)
	movzbl 4(%rdx), %eax
	movb %al, 4(%rdi)
	movzbl 5(%rdx), %eax
	movb %al, 5(%rdi)
	movzbl 6(%rdx), %eax
	movb %al, 6(%rdi)
	movzbl 7(%rdx), %eax
	movb %al, 7(%rdi)
	movzbl 8(%rdx), %eax
	movb %al, 8(%rdi)
	movzbl 9(%rdx), %eax
	movb %al, 9(%rdi)
	movzbl 10(%rdx), %eax
	movb %al, 10(%rdi)
	movzbl 11(%rdx), %eax
	movb %al, 11(%rdi)
	movzbl 12(%rdx), %eax
	movb %al, 12(%rdi)
	movzbl 13(%rdx), %eax
	movb %al, 13(%rdi)
	movzbl 14(%rdx), %eax
	movb %al, 14(%rdi)
	movzbl 15(%rdx), %eax
	movb %al, 15(%rdi)
	movzbl 16(%rdx), %eax
	movb %al, 16(%rdi)
	movzbl 17(%rdx), %eax
	movb %al, 17(%rdi)
	movzbl 18(%rdx), %eax
	movb %al, 18(%rdi)
	movzbl 19(%rdx), %eax
	movb %al, 19(%rdi)
	movzbl 20(%rdx), %eax
	movb %al, 20(%rdi)
	movzbl 21(%rdx), %eax
	movb %al, 21(%rdi)
	movzbl 22(%rdx), %eax
	movb %al, 22(%rdi)
	movzbl 23(%rdx), %eax
	movb %al, 23(%rdi)
	movzbl 24(%rdx), %eax
	movb %al, 24(%rdi)
	movzbl 25(%rdx), %eax
	movb %al, 25(%rdi)
	movzbl 26(%rdx), %eax
	movb %al, 26(%rdi)
	movzbl 27(%rdx), %eax
	movb %al, 27(%rdi)
	movzbl 28(%rdx), %eax
	movb %al, 28(%rdi)
	movzbl 29(%rdx), %eax
	movb %al, 29(%rdi)
	movzbl 30(%rdx), %eax
	movb %al, 30(%rdi)
	movzbl 31(%rdx), %eax
	movb %al, 31(%rdi)
	movzbl 32(%rdx), %eax
	movb %al, 32(%rdi)
	movzbl 33(%rdx), %eax
	movb %al, 33(%rdi)
	movzbl 34(%rdx), %eax
	movb %al, 34(%rdi)
	movzbl 35(%rdx), %eax
	movb %al, 35(%rdi)
	movzbl 36(%rdx), %eax
	movb %al, 36(%rdi)
	movzbl 37(%rdx), %eax
	movb %al, 37(%rdi)
	movzbl 38(%rdx), %eax
	movb %al, 38(%rdi)
	movzbl 39(%rdx), %eax
	movb %al, 39(%rdi)
	movzbl 40(%rdx), %eax
	movb %al, 40(%rdi)
	movzbl 41(%rdx), %eax
	movb %al, 41(%rdi)
	movzbl 42(%rdx), %eax
	movb %al, 42(%rdi)
	movzbl 43(%rdx), %eax
	movb %al, 43(%rdi)
	movzbl 44(%rdx), %eax
	movb %al, 44(%rdi)
	movzbl 45(%rdx), %eax
	movb %al, 45(%rdi)
	movzbl 46(%rdx), %eax
	movb %al, 46(%rdi)
	movzbl 47(%rdx), %eax
	movb %al, 47(%rdi)
	movzbl 48(%rdx), %eax
	movb %al, 48(%rdi)
	movzbl 49(%rdx), %eax
	movb %al, 49(%rdi)
	movzbl 50(%rdx), %eax
	movb %al, 50(%rdi)
	movzbl 51(%rdx), %eax
	movb %al, 51(%rdi)
	movzbl 52(%rdx), %eax
	movb %al, 52(%rdi)
	movzbl 53(%rdx), %eax
	movb %al, 53(%rdi)
	movzbl 54(%rdx), %eax
	movb %al, 54(%rdi)
	movzbl 55(%rdx), %eax
	movb %al, 55(%rdi)
	movzbl 56(%rdx), %eax
	movb %al, 56(%rdi)
	movzbl 57(%rdx), %eax
	movb %al, 57(%rdi)
	movzbl 58(%rdx), %eax
	movb %al, 58(%rdi)
	movzbl 59(%rdx), %eax
	movb %al, 59(%rdi)
	movzbl 60(%rdx), %eax
	movb %al, 60(%rdi)
	movzbl 61(%rdx), %eax
	movb %al, 61(%rdi)
	movzbl 62(%rdx), %eax
	movb %al, 62(%rdi)
	movzbl 63(%rdx), %eax
	movb %al, 63(%rdi)
	jmp .LBB63_70
	.p2align 4
.LBB63_69:
	movdqu (%rdx), %xmm0
	movdqu 16(%rdx), %xmm1
	movdqu 32(%rdx), %xmm2
	movdqu 48(%rdx), %xmm3
	movdqu %xmm3, 48(%rdi)
	movdqu %xmm2, 32(%rdi)
	movdqu %xmm1, 16(%rdi)
	movdqu %xmm0, (%rdi)
	jmp .LBB63_70
	.p2align 4
.LBB63_32:
	cmpq $3, %rax
	ja .LBB63_38
.LBB63_33:
	movq %rdx, %rbp
	movq %rdx, %rcx
	shlq $4, %rcx
	movq 264(%rsp), %rdx
	movq (%rdx,%rcx), %rax
	movq 8(%rdx,%rcx), %rsi
	pxor %xmm0, %xmm0
	leaq 324(%rsp), %rcx
	movdqa %xmm0, 76(%rcx)
	movabsq $2305843009213693951, %rcx
	cmpq %rcx, %rsi
	seta %cl
	testb %cl, 60(%rsp)
	jne .LBB63_102
	leaq .Lswitch.table.v2_yz_digest_each.183(%rip), %rcx
	movq 312(%rsp), %r12
	movl (%rcx,%r12,4), %ecx
	leaq .Lswitch.table.v2_yz_digest_each.184(%rip), %rdx
	movl (%rdx,%r12,4), %edx
	leaq .Lswitch.table.v2_yz_digest_each.185(%rip), %r8
	movq (%r8,%r12,8), %r8
	leaq .Lswitch.table.v2_yz_digest_each.186(%rip), %r9
	movq (%r9,%r12,8), %r9
	leaq .Lswitch.table.v2_yz_digest_each.187(%rip), %r10
	movq (%r10,%r12,8), %r10
	leaq .Lswitch.table.v2_yz_digest_each.188(%rip), %r11
	movq (%r11,%r12,8), %r11
	leaq .Lswitch.table.v2_yz_digest_each.189(%rip), %rdi
	movq (%rdi,%r12,8), %rdi
	leaq .Lswitch.table.v2_yz_digest_each.190(%rip), %rbx
	movq (%rbx,%r12,8), %rbx
	leaq .Lswitch.table.v2_yz_digest_each.191(%rip), %r14
	movq (%r14,%r12,8), %r14
	leaq .Lswitch.table.v2_yz_digest_each.192(%rip), %r15
	movq (%r15,%r12,8), %r15
	movdqa %xmm0, 320(%rsp)
	movl %ecx, 336(%rsp)
	movl %edx, 340(%rsp)
	movq %r8, 344(%rsp)
	movq %r9, 352(%rsp)
	movq %r10, 360(%rsp)
	movq %r11, 368(%rsp)
	movq %rdi, 376(%rsp)
	movq %rbx, 384(%rsp)
	movq %r14, 392(%rsp)
	movq %r15, 400(%rsp)
	movl 56(%rsp), %ebx
	movb %bl, 408(%rsp)
	xorl %r9d, %r9d
	cmpq 728(%rsp), %rsi
	jae .LBB63_36
	movl %ebx, %edi
	xorl %ecx, %ecx
	jmp .LBB63_37
.LBB63_72:
	movq 64(%rsp), %rcx
	leaq 4(%rcx), %rax
	movq %rax, 256(%rsp)
	movq %rcx, %rax
	shlq $6, %rax
	addq %rcx, %rax
	addq %rsp, %rax
	addq $1504, %rax
	movq %rax, 288(%rsp)
	incq %r14
	movaps 576(%rsp), %xmm6
	movaps 592(%rsp), %xmm7
	movaps 608(%rsp), %xmm8
	movaps 624(%rsp), %xmm9
	movaps 688(%rsp), %xmm10
	movaps 672(%rsp), %xmm11
	movaps 656(%rsp), %xmm12
	movaps 640(%rsp), %xmm13
	movq %r14, 144(%rsp)
	shlq $6, %r14
	movq %r14, 280(%rsp)
	movq 136(%rsp), %rax
	movq 272(%rsp), %rcx
	cmpq %rax, %rcx
	cmovbq %rcx, %rax
	movq 128(%rsp), %rcx
	cmpq %rcx, %rax
	cmovaeq %rcx, %rax
	movq 248(%rsp), %rcx
	cmpq %rcx, %rax
	cmovaeq %rcx, %rax
	shlq $6, %rax
	movq %rax, 136(%rsp)
	xorl %r15d, %r15d
	.p2align 4
.LBB63_73:
	movaps %xmm6, 736(%rsp)
	movl 736(%rsp,%r15,4), %eax
	movaps %xmm7, 736(%rsp)
	movl 736(%rsp,%r15,4), %ecx
	movaps %xmm8, 736(%rsp)
	movl 736(%rsp,%r15,4), %edx
	movaps %xmm9, 736(%rsp)
	movl 736(%rsp,%r15,4), %r8d
	movaps %xmm13, 736(%rsp)
	movl 736(%rsp,%r15,4), %r9d
	movaps %xmm12, 736(%rsp)
	movl 736(%rsp,%r15,4), %r10d
	movaps %xmm11, 736(%rsp)
	movl 736(%rsp,%r15,4), %r11d
	movaps %xmm10, 736(%rsp)
	movl 736(%rsp,%r15,4), %esi
	movq %r15, %rdi
	shlq $4, %rdi
	movq 152(%rsp), %r14
	movq (%r14,%rdi), %rbx
	movq 8(%r14,%rdi), %r12
	movl $1, 320(%rsp)
	movl %eax, 324(%rsp)
	movl %ecx, 328(%rsp)
	movl %edx, 332(%rsp)
	movl %r8d, 336(%rsp)
	movl %r9d, 340(%rsp)
	movl %r10d, 344(%rsp)
	movl %r11d, 348(%rsp)
	movl %esi, 352(%rsp)
	pxor %xmm0, %xmm0
	leaq 324(%rsp), %rbp
	movdqu %xmm0, 48(%rbp)
	movdqu %xmm0, 32(%rbp)
	movl $0, 64(%rbp)
	movq %r12, %r14
	shrq $6, %r14
	movq 144(%rsp), %rax
	movq %rax, %rsi
	cmpq %rax, %r14
	movq %r12, 64(%rsp)
	jbe .LBB63_80
	movq %r12, %rdi
	movq 280(%rsp), %rcx
	subq %rcx, %rdi
	movdqa %xmm0, 784(%rsp)
	movdqa %xmm0, 768(%rsp)
	movdqa %xmm0, 752(%rsp)
	movdqa %xmm0, 736(%rsp)
	movzbl yz_instructions(%rip), %eax
	testb %al, %al
	je .LBB63_75
	leaq (%rbx,%rcx), %rdx
	andq $-64, %rdi
	leaq 80(%rsp), %r9
	movq %rbp, %rcx
	movq %rdi, %r8
	callq ring_core.digest.sha2.by_instruction.run_blocks.0a683a1c7ad27461
	jmp .LBB63_79
.LBB63_75:
	shrq $6, %rdi
	je .LBB63_79
	movq 80(%rsp), %rsi
	movq 88(%rsp), %r12
	negq %rdi
	movq 136(%rsp), %rax
	leaq (%rbx,%rax), %r13
	addq $112, %r13
	.p2align 4
.LBB63_77:
	movdqa .LCPI63_5(%rip), %xmm0
	movdqu -48(%r13), %xmm1
	movdqu -32(%r13), %xmm2
	movdqu -16(%r13), %xmm3
	movdqu (%r13), %xmm4
	pshufb %xmm0, %xmm1
	pshufb %xmm0, %xmm2
	pshufb %xmm0, %xmm3
	pshufb %xmm0, %xmm4
	movdqa .LCPI63_15(%rip), %xmm0
	paddd %xmm1, %xmm0
	movdqa %xmm0, 736(%rsp)
	movdqa .LCPI63_16(%rip), %xmm0
	paddd %xmm2, %xmm0
	movdqa %xmm0, 752(%rsp)
	movdqa .LCPI63_17(%rip), %xmm0
	paddd %xmm3, %xmm0
	movdqa %xmm0, 768(%rsp)
	movdqa .LCPI63_18(%rip), %xmm0
	paddd %xmm4, %xmm0
	movdqa %xmm0, 784(%rsp)
	movdqa %xmm2, 1344(%rsp)
	movdqa %xmm1, 1360(%rsp)
	movdqa %xmm3, 1328(%rsp)
	movdqa %xmm4, 1312(%rsp)
	leaq 1312(%rsp), %rax
	movq %rax, 40(%rsp)
	leaq 1328(%rsp), %rax
	movq %rax, 32(%rsp)
	leaq 736(%rsp), %rcx
	leaq 1360(%rsp), %r8
	leaq 1344(%rsp), %r9
	movq %rbp, %rdx
	callq ring_core.digest.sha2.by_fours.run_ahead.99accd9fe8f0e06d
	addq $1, %rsi
	adcq $0, %r12
	movq $-1, %rax
	cmovbq %rax, %r12
	cmovbq %rax, %rsi
	addq $64, %r13
	incq %rdi
	jne .LBB63_77
	movq %rsi, 80(%rsp)
	movq %r12, 88(%rsp)
	movq 64(%rsp), %r12
.LBB63_79:
	movq %r14, %rsi
.LBB63_80:
	leaq 8(%r12), %rbp
	shrq $6, %rbp
	cmpq %rbp, %rsi
	jbe .LBB63_81
.LBB63_90:
	cmpb $1, 320(%rsp)
	jne .LBB63_102
	movdqu 324(%rsp), %xmm0
	movdqu 340(%rsp), %xmm1
	movdqa .LCPI63_5(%rip), %xmm2
	pshufb %xmm2, %xmm0
	pshufb %xmm2, %xmm1
	movq %r15, %rax
	shlq $6, %rax
	addq %r15, %rax
	movq 288(%rsp), %rcx
	movdqu %xmm1, 16(%rcx,%rax)
	movdqu %xmm0, (%rcx,%rax)
	pxor %xmm0, %xmm0
	movdqu %xmm0, 32(%rcx,%rax)
	movdqu %xmm0, 48(%rcx,%rax)
	movb $1, 64(%rcx,%rax)
	incq %r15
	cmpq $4, %r15
	jne .LBB63_73
	jmp .LBB63_92
	.p2align 4
.LBB63_81:
	movq 64(%rsp), %r12
	movq %r12, %rdi
	andq $-64, %rdi
	addq %rbx, %rdi
	andl $63, %r12d
	incq %rbp
	movq %rsi, %rax
	shlq $6, %rax
	addq %rax, %rbx
	movq %r14, %rcx
	shlq $6, %rcx
	subq %rcx, %rax
	leaq (%rsp,%rax), %r13
	addq $736, %r13
	jmp .LBB63_82
	.p2align 4
.LBB63_88:
	leaq 160(%rsp), %rdx
	leaq 80(%rsp), %r9
	movl $64, %r8d
	leaq 324(%rsp), %rcx
	callq ring_core.digest.sha2.by_instruction.run_blocks.0a683a1c7ad27461
.LBB63_89:
	incq %rsi
	addq $64, %rbx
	addq $64, %r13
	cmpq %rsi, %rbp
	je .LBB63_90
.LBB63_82:
	cmpq %rsi, %r14
	jbe .LBB63_83
	leaq 160(%rsp), %rax
	subq %rbx, %rax
	cmpq $63, %rax
	movdqu (%rbx), %xmm0
	movdqu 16(%rbx), %xmm1
	movdqu 32(%rbx), %xmm2
	movdqu 48(%rbx), %xmm3
	movdqa %xmm3, 208(%rsp)
	movdqa %xmm2, 192(%rsp)
	movdqa %xmm1, 176(%rsp)
	movdqa %xmm0, 160(%rsp)
	cmpb $0, 320(%rsp)
	jne .LBB63_86
	jmp .LBB63_89
	.p2align 4
.LBB63_83:
	pxor %xmm0, %xmm0
	movdqa %xmm0, 976(%rsp)
	movdqa %xmm0, 960(%rsp)
	movdqa %xmm0, 944(%rsp)
	movdqa %xmm0, 928(%rsp)
	movdqa %xmm0, 912(%rsp)
	movdqa %xmm0, 896(%rsp)
	movdqa %xmm0, 880(%rsp)
	movdqa %xmm0, 864(%rsp)
	movdqa %xmm0, 848(%rsp)
	movdqa %xmm0, 832(%rsp)
	movdqa %xmm0, 816(%rsp)
	movdqa %xmm0, 800(%rsp)
	movdqa %xmm0, 784(%rsp)
	movdqa %xmm0, 768(%rsp)
	movdqa %xmm0, 752(%rsp)
	movdqa %xmm0, 736(%rsp)
	leaq 736(%rsp), %rax
	movq %rax, 40(%rsp)
	movq $0, 32(%rsp)
	movb $1, %cl
	movq %rdi, %rdx
	movq %r12, %r8
	movq 64(%rsp), %r9
	callq ring.digest.block_context.write_tail
	movdqu (%r13), %xmm0
	movdqu 16(%r13), %xmm1
	movdqu 32(%r13), %xmm2
	movdqu 48(%r13), %xmm3
	movdqa %xmm0, 160(%rsp)
	movdqa %xmm1, 176(%rsp)
	movdqa %xmm2, 192(%rsp)
	movdqa %xmm3, 208(%rsp)
	cmpb $0, 320(%rsp)
	je .LBB63_89
.LBB63_86:
	pxor %xmm0, %xmm0
	movdqa %xmm0, 784(%rsp)
	movdqa %xmm0, 768(%rsp)
	movdqa %xmm0, 752(%rsp)
	movdqa %xmm0, 736(%rsp)
	movzbl yz_instructions(%rip), %eax
	testb %al, %al
	jne .LBB63_88
	movdqa .LCPI63_5(%rip), %xmm0
	movdqa 160(%rsp), %xmm1
	movdqa 176(%rsp), %xmm2
	movdqa 192(%rsp), %xmm3
	movdqa 208(%rsp), %xmm4
	pshufb %xmm0, %xmm1
	pshufb %xmm0, %xmm2
	pshufb %xmm0, %xmm3
	pshufb %xmm0, %xmm4
	movdqa .LCPI63_15(%rip), %xmm0
	paddd %xmm1, %xmm0
	movdqa %xmm0, 736(%rsp)
	movdqa .LCPI63_16(%rip), %xmm0
	paddd %xmm2, %xmm0
	movdqa %xmm0, 752(%rsp)
	movdqa .LCPI63_17(%rip), %xmm0
	paddd %xmm3, %xmm0
	movdqa %xmm0, 768(%rsp)
	movdqa .LCPI63_18(%rip), %xmm0
	paddd %xmm4, %xmm0
	movdqa %xmm0, 784(%rsp)
	movdqa %xmm2, 1280(%rsp)
	movdqa %xmm1, 1296(%rsp)
	movdqa %xmm3, 1264(%rsp)
	movdqa %xmm4, 1248(%rsp)
	leaq 1248(%rsp), %rax
	movq %rax, 40(%rsp)
	leaq 1264(%rsp), %rax
	movq %rax, 32(%rsp)
	leaq 736(%rsp), %rcx
	leaq 1296(%rsp), %r8
	leaq 1280(%rsp), %r9
	leaq 324(%rsp), %rdx
	callq ring_core.digest.sha2.by_fours.run_ahead.99accd9fe8f0e06d
	movq 80(%rsp), %rax
	movq 88(%rsp), %rcx
	addq $1, %rax
	adcq $0, %rcx
	movq $-1, %rdx
	cmovbq %rdx, %rcx
	cmovbq %rdx, %rax
	movq %rax, 80(%rsp)
	movq %rcx, 88(%rsp)
	jmp .LBB63_89
.LBB63_38:
	movq %rdx, 64(%rsp)
	movq %rdx, %r15
	shlq $4, %r15
	movq 264(%rsp), %rax
	leaq (%rax,%r15), %rcx
	movq %rcx, 288(%rsp)
	movq 8(%rax,%r15), %r14
	movq 24(%rax,%r15), %rcx
	addq $8, %r14
	shrq $6, %r14
	addq $8, %rcx
	shrq $6, %rcx
	cmpq %r14, %rcx
	movq %r14, 152(%rsp)
	movq %rcx, 128(%rsp)
	cmovbq %rcx, %r14
	movq 40(%rax,%r15), %rcx
	addq $8, %rcx
	shrq $6, %rcx
	cmpq %r14, %rcx
	movq %rcx, 144(%rsp)
	cmovbq %rcx, %r14
	movq 56(%rax,%r15), %rax
	addq $8, %rax
	shrq $6, %rax
	cmpq %r14, %rax
	movq %rax, 248(%rsp)
	cmovbq %rax, %r14
	movaps .LCPI63_0(%rip), %xmm0
	movaps %xmm0, 576(%rsp)
	movaps .LCPI63_1(%rip), %xmm0
	movaps %xmm0, 592(%rsp)
	movaps .LCPI63_2(%rip), %xmm0
	movaps %xmm0, 608(%rsp)
	movaps .LCPI63_3(%rip), %xmm0
	movaps %xmm0, 624(%rsp)
	movdqa .LCPI63_4(%rip), %xmm0
	movdqa %xmm0, 640(%rsp)
	pxor %xmm0, %xmm0
	leaq 656(%rsp), %rax
	movdqa %xmm0, 32(%rax)
	movdqa %xmm0, 16(%rax)
	movdqa %xmm0, (%rax)
	xorl %r13d, %r13d
	leaq 736(%rsp), %rsi
	movl $512, %r8d
	movq %rsi, %rcx
	xorl %edx, %edx
	callq memset
	addq 296(%rsp), %r15
	jmp .LBB63_39
	.p2align 4
.LBB63_46:
	leaq 576(%rsp), %rcx
	leaq 736(%rsp), %rdx
	leaq 80(%rsp), %r8
	callq ring.digest.lanes.algorithms.InVectorSha1RunBlocks64.run_blocks.39d837fb76adf98f
	cmpq %r14, %r13
	leaq 1(%r13), %r13
	je .LBB63_47
.LBB63_39:
	movq %r13, %rbx
	shlq $6, %rbx
	xorl %ebp, %ebp
	movq %rsi, %rdi
	jmp .LBB63_40
	.p2align 4
.LBB63_41:
	movq %r9, %rax
	andq $-64, %rax
	addq %rax, %rdx
	movl %r9d, %r8d
	andl $63, %r8d
	pxor %xmm0, %xmm0
	movdqa %xmm0, 560(%rsp)
	movdqa %xmm0, 544(%rsp)
	movdqa %xmm0, 528(%rsp)
	movdqa %xmm0, 512(%rsp)
	movdqa %xmm0, 496(%rsp)
	movdqa %xmm0, 480(%rsp)
	movdqa %xmm0, 464(%rsp)
	movdqa %xmm0, 448(%rsp)
	movdqa %xmm0, 432(%rsp)
	movdqa %xmm0, 416(%rsp)
	movdqa %xmm0, 400(%rsp)
	movdqa %xmm0, 384(%rsp)
	movdqa %xmm0, 368(%rsp)
	movdqa %xmm0, 352(%rsp)
	movdqa %xmm0, 336(%rsp)
	movdqa %xmm0, 320(%rsp)
	leaq 320(%rsp), %rax
	movq %rax, 40(%rsp)
	movq $0, 32(%rsp)
	xorl %ecx, %ecx
	callq ring.digest.block_context.write_tail
	shlq $6, %r12
	movdqu 320(%rsp,%r12), %xmm0
	movdqu 336(%rsp,%r12), %xmm1
	movdqu 352(%rsp,%r12), %xmm2
	movdqu 368(%rsp,%r12), %xmm3
	movdqu %xmm0, (%rdi)
	movdqu %xmm1, 16(%rdi)
	movdqu %xmm2, 32(%rdi)
	movdqu %xmm3, 48(%rdi)
.LBB63_45:
	addq $4, %rbp
	addq $64, %rdi
	cmpq $16, %rbp
	je .LBB63_46
.LBB63_40:
	movq -8(%r15,%rbp,4), %rdx
	movq (%r15,%rbp,4), %r9
	movq %r9, %rax
	shrq $6, %rax
	movq %r13, %r12
	subq %rax, %r12
	jae .LBB63_41
	addq %rbx, %rdx
	movq %rdi, %rax
	subq %rdx, %rax
	cmpq $63, %rax
	ja .LBB63_44
	movzbl (%rdx), %eax
	movb %al, (%rdi)
	movzbl 1(%rdx), %eax
	movb %al, 1(%rdi)
	movzbl 2(%rdx), %eax
	movb %al, 2(%rdi)
	movzbl 3(%rdx), %eax
	movb %al, 3(%rdi)
	movzbl 4(%rdx), %eax
	movb %al, 4(%rdi)
	movzbl 5(%rdx), %eax
	movb %al, 5(%rdi)
	movzbl 6(%rdx), %eax
	movb %al, 6(%rdi)
	movzbl 7(%rdx), %eax
	movb %al, 7(%rdi)
	movzbl 8(%rdx), %eax
	movb %al, 8(%rdi)
	movzbl 9(%rdx), %eax
	movb %al, 9(%rdi)
	movzbl 10(%rdx), %eax
	movb %al, 10(%rdi)
	movzbl 11(%rdx), %eax
	movb %al, 11(%rdi)
	movzbl 12(%rdx), %eax
	movb %al, 12(%rdi)
	movzbl 13(%rdx), %eax
	movb %al, 13(%rdi)
	movzbl 14(%rdx), %eax
	movb %al, 14(%rdi)
	movzbl 15(%rdx), %eax
	movb %al, 15(%rdi)
	movzbl 16(%rdx), %eax
	movb %al, 16(%rdi)
	movzbl 17(%rdx), %eax
	movb %al, 17(%rdi)
	movzbl 18(%rdx), %eax
	movb %al, 18(%rdi)
	movzbl 19(%rdx), %eax
	movb %al, 19(%rdi)
	movzbl 20(%rdx), %eax
	movb %al, 20(%rdi)
	movzbl 21(%rdx), %eax
	movb %al, 21(%rdi)
	movzbl 22(%rdx), %eax
	movb %al, 22(%rdi)
	movzbl 23(%rdx), %eax
	movb %al, 23(%rdi)
	movzbl 24(%rdx), %eax
	movb %al, 24(%rdi)
	movzbl 25(%rdx), %eax
	movb %al, 25(%rdi)
	movzbl 26(%rdx), %eax
	movb %al, 26(%rdi)
	movzbl 27(%rdx), %eax
	movb %al, 27(%rdi)
	movzbl 28(%rdx), %eax
	movb %al, 28(%rdi)
	movzbl 29(%rdx), %eax
	movb %al, 29(%rdi)
	movzbl 30(%rdx), %eax
	movb %al, 30(%rdi)
	movzbl 31(%rdx), %eax
	movb %al, 31(%rdi)
	movzbl 32(%rdx), %eax
	movb %al, 32(%rdi)
	movzbl 33(%rdx), %eax
	movb %al, 33(%rdi)
	movzbl 34(%rdx), %eax
	movb %al, 34(%rdi)
	movzbl 35(%rdx), %eax
	movb %al, 35(%rdi)
	movzbl 36(%rdx), %eax
	movb %al, 36(%rdi)
	movzbl 37(%rdx), %eax
	movb %al, 37(%rdi)
	movzbl 38(%rdx), %eax
	movb %al, 38(%rdi)
	movzbl 39(%rdx), %eax
	movb %al, 39(%rdi)
	movzbl 40(%rdx), %eax
	movb %al, 40(%rdi)
	movzbl 41(%rdx), %eax
	movb %al, 41(%rdi)
	movzbl 42(%rdx), %eax
	movb %al, 42(%rdi)
	movzbl 43(%rdx), %eax
	movb %al, 43(%rdi)
	movzbl 44(%rdx), %eax
	movb %al, 44(%rdi)
	movzbl 45(%rdx), %eax
	movb %al, 45(%rdi)
	movzbl 46(%rdx), %eax
	movb %al, 46(%rdi)
	movzbl 47(%rdx), %eax
	movb %al, 47(%rdi)
	movzbl 48(%rdx), %eax
	movb %al, 48(%rdi)
	movzbl 49(%rdx), %eax
	movb %al, 49(%rdi)
	movzbl 50(%rdx), %eax
	movb %al, 50(%rdi)
	movzbl 51(%rdx), %eax
	movb %al, 51(%rdi)
	movzbl 52(%rdx), %eax
	movb %al, 52(%rdi)
	movzbl 53(%rdx), %eax
	movb %al, 53(%rdi)
	movzbl 54(%rdx), %eax
	movb %al, 54(%rdi)
	movzbl 55(%rdx), %eax
	movb %al, 55(%rdi)
	movzbl 56(%rdx), %eax
	movb %al, 56(%rdi)
	movzbl 57(%rdx), %eax
	movb %al, 57(%rdi)
	movzbl 58(%rdx), %eax
	movb %al, 58(%rdi)
	movzbl 59(%rdx), %eax
	movb %al, 59(%rdi)
	movzbl 60(%rdx), %eax
	movb %al, 60(%rdi)
	movzbl 61(%rdx), %eax
	movb %al, 61(%rdi)
	movzbl 62(%rdx), %eax
	movb %al, 62(%rdi)
	movzbl 63(%rdx), %eax
	movb %al, 63(%rdi)
	jmp .LBB63_45
	.p2align 4
.LBB63_44:
	movdqu (%rdx), %xmm0
	movdqu 16(%rdx), %xmm1
	movdqu 32(%rdx), %xmm2
	movdqu 48(%rdx), %xmm3
	movdqu %xmm3, 48(%rdi)
	movdqu %xmm2, 32(%rdi)
	movdqu %xmm1, 16(%rdi)
	movdqu %xmm0, (%rdi)
	jmp .LBB63_45
.LBB63_47:
	movq 64(%rsp), %rcx
	leaq 4(%rcx), %rax
	movq %rax, 256(%rsp)
	movq %rcx, %rax
	shlq $6, %rax
	addq %rcx, %rax
	addq %rsp, %rax
	addq $1504, %rax
	movq %rax, 136(%rsp)
	incq %r14
	movaps 576(%rsp), %xmm6
	movaps 592(%rsp), %xmm7
	movaps 608(%rsp), %xmm8
	movaps 624(%rsp), %xmm9
	movaps 688(%rsp), %xmm10
	movaps 672(%rsp), %xmm11
	movaps 656(%rsp), %xmm12
	movaps 640(%rsp), %xmm13
	movq %r14, 280(%rsp)
	shlq $6, %r14
	movq %r14, 272(%rsp)
	movq 128(%rsp), %rax
	movq 152(%rsp), %rcx
	cmpq %rax, %rcx
	cmovbq %rcx, %rax
	movq 144(%rsp), %rcx
	cmpq %rcx, %rax
	cmovaeq %rcx, %rax
	movq 248(%rsp), %rcx
	cmpq %rcx, %rax
	cmovaeq %rcx, %rax
	shlq $6, %rax
	movq %rax, 128(%rsp)
	xorl %edi, %edi
	leaq 324(%rsp), %r15
	.p2align 4
.LBB63_48:
	movaps %xmm6, 736(%rsp)
	movl 736(%rsp,%rdi,4), %eax
	movaps %xmm7, 736(%rsp)
	movl 736(%rsp,%rdi,4), %ecx
	movaps %xmm8, 736(%rsp)
	movl 736(%rsp,%rdi,4), %edx
	movaps %xmm9, 736(%rsp)
	movl 736(%rsp,%rdi,4), %r8d
	movaps %xmm13, 736(%rsp)
	movl 736(%rsp,%rdi,4), %r9d
	movaps %xmm12, 736(%rsp)
	movl 736(%rsp,%rdi,4), %r10d
	movaps %xmm11, 736(%rsp)
	movl 736(%rsp,%rdi,4), %r11d
	movaps %xmm10, 736(%rsp)
	movl 736(%rsp,%rdi,4), %esi
	movq %rdi, 144(%rsp)
	shlq $4, %rdi
	movq 288(%rsp), %r14
	movq (%r14,%rdi), %rbx
	movq 8(%r14,%rdi), %rbp
	movl $1, 320(%rsp)
	movl %eax, 324(%rsp)
	movl %ecx, 328(%rsp)
	movl %edx, 332(%rsp)
	movl %r8d, 336(%rsp)
	movl %r9d, 340(%rsp)
	movl %r10d, 344(%rsp)
	movl %r11d, 348(%rsp)
	movl %esi, 352(%rsp)
	pxor %xmm0, %xmm0
	leaq 324(%rsp), %rax
	movdqu %xmm0, 48(%rax)
	movdqu %xmm0, 32(%rax)
	movl $0, 64(%rax)
	movq %rbp, %rdi
	shrq $6, %rdi
	movq 280(%rsp), %rax
	movq %rax, %r14
	cmpq %rax, %rdi
	jbe .LBB63_55
	movq %rbp, %rsi
	movq 272(%rsp), %rcx
	subq %rcx, %rsi
	movdqa %xmm0, 784(%rsp)
	movdqa %xmm0, 768(%rsp)
	movdqa %xmm0, 752(%rsp)
	movdqa %xmm0, 736(%rsp)
	movzbl yz_instructions(%rip), %eax
	testb %al, %al
	je .LBB63_50
	leaq (%rbx,%rcx), %rdx
	andq $-64, %rsi
	leaq 80(%rsp), %r9
	movq %r15, %rcx
	movq %rsi, %r8
	callq ring_core.digest.sha1.by_instruction.run_blocks.2f3a0559ae3dd27e
	jmp .LBB63_54
.LBB63_50:
	shrq $6, %rsi
	je .LBB63_54
	movq 80(%rsp), %r14
	movq 88(%rsp), %r12
	negq %rsi
	movq 128(%rsp), %rax
	leaq (%rbx,%rax), %r13
	addq $112, %r13
	.p2align 4
.LBB63_52:
	movdqa .LCPI63_5(%rip), %xmm0
	movdqu -48(%r13), %xmm1
	movdqu -32(%r13), %xmm2
	movdqu -16(%r13), %xmm3
	movdqu (%r13), %xmm4
	pshufb %xmm0, %xmm1
	pshufb %xmm0, %xmm2
	pshufb %xmm0, %xmm3
	pshufb %xmm0, %xmm4
	movdqa .LCPI63_6(%rip), %xmm0
	movdqa %xmm1, %xmm5
	paddd %xmm0, %xmm5
	movdqa %xmm5, 736(%rsp)
	movdqa %xmm2, %xmm5
	paddd %xmm0, %xmm5
	movdqa %xmm5, 752(%rsp)
	movdqa %xmm3, %xmm5
	paddd %xmm0, %xmm5
	movdqa %xmm5, 768(%rsp)
	paddd %xmm4, %xmm0
	movdqa %xmm0, 784(%rsp)
	movdqa %xmm2, 1472(%rsp)
	movdqa %xmm1, 1488(%rsp)
	movdqa %xmm3, 1456(%rsp)
	movdqa %xmm4, 1440(%rsp)
	leaq 1440(%rsp), %rax
	movq %rax, 40(%rsp)
	leaq 1456(%rsp), %rax
	movq %rax, 32(%rsp)
	leaq 736(%rsp), %rcx
	leaq 1488(%rsp), %r8
	leaq 1472(%rsp), %r9
	movq %r15, %rdx
	callq ring_core.digest.sha1.by_fours.run_ahead
	addq $1, %r14
	adcq $0, %r12
	movq $-1, %rax
	cmovbq %rax, %r12
	cmovbq %rax, %r14
	addq $64, %r13
	incq %rsi
	jne .LBB63_52
	movq %r14, 80(%rsp)
	movq %r12, 88(%rsp)
.LBB63_54:
	movq %rdi, %r14
.LBB63_55:
	movq %rbp, 64(%rsp)
	addq $8, %rbp
	shrq $6, %rbp
	cmpq %rbp, %r14
	leaq 736(%rsp), %rsi
	jbe .LBB63_56
.LBB63_65:
	cmpb $1, 320(%rsp)
	jne .LBB63_102
	movdqu 324(%rsp), %xmm0
	movdqu 340(%rsp), %xmm1
	movdqa .LCPI63_5(%rip), %xmm2
	pshufb %xmm2, %xmm0
	pshufb %xmm2, %xmm1
	movq 144(%rsp), %rdi
	movq %rdi, %rax
	shlq $6, %rax
	addq %rdi, %rax
	movq 136(%rsp), %rcx
	movdqu %xmm1, 16(%rcx,%rax)
	movdqu %xmm0, (%rcx,%rax)
	incq %rdi
	pxor %xmm0, %xmm0
	movdqu %xmm0, 32(%rcx,%rax)
	movdqu %xmm0, 48(%rcx,%rax)
	movb $0, 64(%rcx,%rax)
	cmpq $4, %rdi
	jne .LBB63_48
	jmp .LBB63_92
	.p2align 4
.LBB63_56:
	movq 64(%rsp), %rax
	movq %rax, %r12
	andq $-64, %r12
	addq %rbx, %r12
	andl $63, %eax
	movq %rax, 152(%rsp)
	incq %rbp
	movq %r14, %rax
	shlq $6, %rax
	addq %rax, %rbx
	movq %rdi, %rcx
	shlq $6, %rcx
	subq %rcx, %rax
	leaq (%rsp,%rax), %r13
	addq $736, %r13
	jmp .LBB63_57
	.p2align 4
.LBB63_63:
	leaq 160(%rsp), %rdx
	leaq 80(%rsp), %r9
	movl $64, %r8d
	movq %r15, %rcx
	callq ring_core.digest.sha1.by_instruction.run_blocks.2f3a0559ae3dd27e
.LBB63_64:
	incq %r14
	addq $64, %rbx
	addq $64, %r13
	cmpq %r14, %rbp
	je .LBB63_65
.LBB63_57:
	cmpq %r14, %rdi
	jbe .LBB63_58
	leaq 160(%rsp), %rax
	subq %rbx, %rax
	cmpq $63, %rax
	movdqu (%rbx), %xmm0
	movdqu 16(%rbx), %xmm1
	movdqu 32(%rbx), %xmm2
	movdqu 48(%rbx), %xmm3
	movdqa %xmm3, 208(%rsp)
	movdqa %xmm2, 192(%rsp)
	movdqa %xmm1, 176(%rsp)
	movdqa %xmm0, 160(%rsp)
	cmpb $0, 320(%rsp)
	jne .LBB63_61
	jmp .LBB63_64
	.p2align 4
.LBB63_58:
	pxor %xmm0, %xmm0
	movdqa %xmm0, 976(%rsp)
	movdqa %xmm0, 960(%rsp)
	movdqa %xmm0, 944(%rsp)
	movdqa %xmm0, 928(%rsp)
	movdqa %xmm0, 912(%rsp)
	movdqa %xmm0, 896(%rsp)
	movdqa %xmm0, 880(%rsp)
	movdqa %xmm0, 864(%rsp)
	movdqa %xmm0, 848(%rsp)
	movdqa %xmm0, 832(%rsp)
	movdqa %xmm0, 816(%rsp)
	movdqa %xmm0, 800(%rsp)
	movdqa %xmm0, 784(%rsp)
	movdqa %xmm0, 768(%rsp)
	movdqa %xmm0, 752(%rsp)
	movdqa %xmm0, 736(%rsp)
	movq %rsi, 40(%rsp)
	movq $0, 32(%rsp)
	xorl %ecx, %ecx
	movq %r12, %rdx
	movq 152(%rsp), %r8
	movq 64(%rsp), %r9
	callq ring.digest.block_context.write_tail
	movdqu (%r13), %xmm0
	movdqu 16(%r13), %xmm1
	movdqu 32(%r13), %xmm2
	movdqu 48(%r13), %xmm3
	movdqa %xmm0, 160(%rsp)
	movdqa %xmm1, 176(%rsp)
	movdqa %xmm2, 192(%rsp)
	movdqa %xmm3, 208(%rsp)
	cmpb $0, 320(%rsp)
	je .LBB63_64
.LBB63_61:
	pxor %xmm0, %xmm0
	movdqa %xmm0, 784(%rsp)
	movdqa %xmm0, 768(%rsp)
	movdqa %xmm0, 752(%rsp)
	movdqa %xmm0, 736(%rsp)
	movzbl yz_instructions(%rip), %eax
	testb %al, %al
	jne .LBB63_63
	movq 80(%rsp), %r15
	movq 88(%rsp), %rsi
	addq $1, %r15
	adcq $0, %rsi
	movq $-1, %rax
	cmovbq %rax, %rsi
	cmovbq %rax, %r15
	movdqa .LCPI63_5(%rip), %xmm0
	movdqa 160(%rsp), %xmm1
	movdqa 176(%rsp), %xmm2
	movdqa 192(%rsp), %xmm3
	movdqa 208(%rsp), %xmm4
	pshufb %xmm0, %xmm1
	pshufb %xmm0, %xmm2
	pshufb %xmm0, %xmm3
	pshufb %xmm0, %xmm4
	movdqa .LCPI63_6(%rip), %xmm0
	movdqa %xmm1, %xmm5
	paddd %xmm0, %xmm5
	movdqa %xmm5, 736(%rsp)
	movdqa %xmm2, %xmm5
	paddd %xmm0, %xmm5
	movdqa %xmm5, 752(%rsp)
	movdqa %xmm3, %xmm5
	paddd %xmm0, %xmm5
	movdqa %xmm5, 768(%rsp)
	paddd %xmm4, %xmm0
	movdqa %xmm0, 784(%rsp)
	movdqa %xmm2, 1408(%rsp)
	movdqa %xmm1, 1424(%rsp)
	movdqa %xmm3, 1392(%rsp)
	movdqa %xmm4, 1376(%rsp)
	leaq 1376(%rsp), %rax
	movq %rax, 40(%rsp)
	leaq 1392(%rsp), %rax
	movq %rax, 32(%rsp)
	leaq 736(%rsp), %rcx
	leaq 1424(%rsp), %r8
	leaq 1408(%rsp), %r9
	leaq 324(%rsp), %rdx
	callq ring_core.digest.sha1.by_fours.run_ahead
	movq %rsi, 88(%rsp)
	leaq 736(%rsp), %rsi
	movq %r15, 80(%rsp)
	leaq 324(%rsp), %r15
	jmp .LBB63_64
	.p2align 4
.LBB63_92:
	movl 56(%rsp), %ebx
	leaq .Lswitch.table.v2_yz_webhook_verify_stripe(%rip), %r13
	movq 120(%rsp), %r14
	movq 256(%rsp), %rbp
	movq %rbp, %rdx
	movq 304(%rsp), %rcx
	cmpq %rcx, %rbp
	jb .LBB63_24
.LBB63_94:
	cmpq $1, 720(%rsp)
	je .LBB63_95
	movl %ecx, %ebx
	andl $30, %ebx
	xorl %edi, %edi
	leaq 1633(%rsp), %r14
	movq 232(%rsp), %r15
	movq 240(%rsp), %rax
	.p2align 4
.LBB63_97:
	leaq -129(%r14), %rdx
	movq %rax, %r12
	movzbl -65(%r14), %eax
	movq (%r13,%rax,8), %rsi
	leaq (%r15,%r12), %rcx
	movq %rsi, %r8
	callq memcpy
	addq %rsi, %r12
	leaq -64(%r14), %rdx
	movzbl (%r14), %eax
	movq (%r13,%rax,8), %rsi
	leaq (%r15,%r12), %rcx
	movq %rsi, %r8
	callq memcpy
	movq %r12, %rax
	addq %rsi, %rax
	addq $2, %rdi
	addq $130, %r14
	cmpq %rdi, %rbx
	jne .LBB63_97
	testb $1, 304(%rsp)
	movl 56(%rsp), %ebx
	movq 120(%rsp), %r14
	jne .LBB63_21
	jmp .LBB63_22
.LBB63_98:
	xorl %eax, %eax
.LBB63_99:
	movaps 2544(%rsp), %xmm6
	movaps 2560(%rsp), %xmm7
	movaps 2576(%rsp), %xmm8
	movaps 2592(%rsp), %xmm9
	movaps 2608(%rsp), %xmm10
	movaps 2624(%rsp), %xmm11
	movaps 2640(%rsp), %xmm12
	movaps 2656(%rsp), %xmm13
	addq $2680, %rsp
	popq %rbx
	popq %rbp
	popq %rdi
	popq %rsi
	popq %r12
	popq %r13
	popq %r14
	popq %r15
	retq
.LBB63_102:
	ud2
	.section .rdata,"dr"
	.p2align 2, 0x0
.LJTI63_0:
	.long .LBB63_4-.LJTI63_0
	.long .LBB63_5-.LJTI63_0
	.long .LBB63_3-.LJTI63_0
	.long .LBB63_7-.LJTI63_0
	.long .LBB63_6-.LJTI63_0
	.text
	.seh_endproc
	.globl v2_yz_digest_final
	.p2align 4
v2_yz_digest_final:
.seh_proc v2_yz_digest_final
	pushq %r15
	.seh_pushreg %r15
	pushq %r14
	.seh_pushreg %r14
	pushq %rsi
	.seh_pushreg %rsi
	pushq %rdi
	.seh_pushreg %rdi
	pushq %rbp
	.seh_pushreg %rbp
	pushq %rbx
	.seh_pushreg %rbx
	subq $552, %rsp
	.seh_stackalloc 552
	.seh_endprologue
	xorl %r10d, %r10d
	testq %rdx, %rdx
	sete %r11b
	movl (%rcx), %esi
	decl %esi
	movl $2, %eax
	cmpl $4, %esi
	ja .LBB64_16
	movq %r8, %r9
	movl %esi, %edi
	leaq .Lswitch.table.v2_yz_hmac_update(%rip), %rbx
	movl 4(%rcx), %r8d
	cmpq %r8, (%rbx,%rdi,8)
	jbe .LBB64_16
	leaq .Lswitch.table.v2_yz_webhook_verify_stripe(%rip), %r14
	movl $4, %eax
	cmpq (%r14,%rdi,8), %r9
	jne .LBB64_16
	xorps %xmm0, %xmm0
	movaps %xmm0, 272(%rsp)
	movaps %xmm0, 256(%rsp)
	movaps %xmm0, 240(%rsp)
	movl $128, %eax
	leaq .LJTI64_0(%rip), %r9
	movslq (%r9,%rsi,4), %rsi
	addq %r9, %rsi
	jmpq *%rsi
.LBB64_8:
	movl $64, %eax
	movb $1, %dil
	xorl %esi, %esi
	cmpl %r8d, %eax
	ja .LBB64_10
	jmp .LBB64_14
.LBB64_7:
	movb $4, %sil
	xorl %edi, %edi
	cmpl %r8d, %eax
	ja .LBB64_10
	jmp .LBB64_14
.LBB64_4:
	movb $2, %sil
	xorl %edi, %edi
	cmpl %r8d, %eax
	ja .LBB64_10
	jmp .LBB64_14
.LBB64_6:
	movb $3, %sil
	xorl %edi, %edi
	cmpl %r8d, %eax
	ja .LBB64_10
	jmp .LBB64_14
.LBB64_5:
	movl $64, %eax
	movb $1, %dil
	movb $1, %sil
	cmpl %r8d, %eax
	jbe .LBB64_14
.LBB64_10:
	movq 8(%rcx), %r9
	movq 16(%rcx), %rax
	testb %dil, %dil
	je .LBB64_11
	movaps %xmm0, 64(%rsp)
	movaps %xmm0, 48(%rsp)
	movl $0, 80(%rsp)
	movups 24(%rcx), %xmm1
	movups 40(%rcx), %xmm0
	shufps $136, %xmm0, %xmm1
	movups 56(%rcx), %xmm0
	movups 72(%rcx), %xmm2
	shufps $136, %xmm2, %xmm0
	movabsq $2305843009213693951, %rbx
	movl $1, %ebp
	xorl %edi, %edi
	jmp .LBB64_13
.LBB64_11:
	movq 28(%rcx), %xmm2
	movups 36(%rcx), %xmm0
	movups 52(%rcx), %xmm3
	movups 68(%rcx), %xmm4
	movl 84(%rcx), %edi
	movd 24(%rcx), %xmm1
	movl %edi, 80(%rsp)
	movaps %xmm4, 64(%rsp)
	movaps %xmm3, 48(%rsp)
	psllq $32, %xmm1
	punpcklqdq %xmm2, %xmm1
	movabsq $2305843009213693951, %rdi
	movq $-1, %rbx
	xorl %ebp, %ebp
.LBB64_13:
	movq %r9, 160(%rsp)
	movq %rax, 168(%rsp)
	movl %ebp, 176(%rsp)
	movdqu %xmm1, 180(%rsp)
	movups %xmm0, 196(%rsp)
	movaps 48(%rsp), %xmm0
	movaps 64(%rsp), %xmm1
	movups %xmm0, 212(%rsp)
	movups %xmm1, 228(%rsp)
	movl 80(%rsp), %ebp
	movl %ebp, 244(%rsp)
	addq %r8, %r9
	adcq $0, %rax
	movq $-1, %r15
	cmovbq %r15, %rax
	cmovbq %r15, %r9
	movb %sil, 248(%rsp)
	cmpq %r9, %rbx
	sbbq %rax, %rdi
	jae .LBB64_15
.LBB64_14:
	movl $8, %eax
	jmp .LBB64_16
.LBB64_15:
	movb %r11b, %r10b
	shll $12, %r10d
	addq %r10, %rdx
	addq $88, %rcx
	xorps %xmm0, %xmm0
	movaps %xmm0, 96(%rsp)
	movaps %xmm0, 112(%rsp)
	movaps %xmm0, 128(%rsp)
	movaps %xmm0, 144(%rsp)
	movaps %xmm0, 288(%rsp)
	movaps %xmm0, 304(%rsp)
	movaps %xmm0, 320(%rsp)
	movaps %xmm0, 336(%rsp)
	movaps %xmm0, 352(%rsp)
	movaps %xmm0, 368(%rsp)
	movaps %xmm0, 384(%rsp)
	movaps %xmm0, 400(%rsp)
	movaps %xmm0, 416(%rsp)
	movaps %xmm0, 432(%rsp)
	movaps %xmm0, 448(%rsp)
	movaps %xmm0, 464(%rsp)
	movaps %xmm0, 480(%rsp)
	movaps %xmm0, 496(%rsp)
	movaps %xmm0, 512(%rsp)
	movaps %xmm0, 528(%rsp)
	leaq 288(%rsp), %rbx
	movq %rbx, 40(%rsp)
	movq %rax, 32(%rsp)
	movq %rcx, %rax
	movl %esi, %ecx
	movq %rdx, %rdi
	movq %rax, %rdx
	callq ring.digest.block_context.write_tail
	leaq 256(%rsp), %rcx
	movq %rcx, 32(%rsp)
	leaq 96(%rsp), %rcx
	leaq 160(%rsp), %rdx
	movq %rbx, %r8
	movq %rax, %r9
	callq ring.digest.block_context.BlockContext.output_after
	movaps 96(%rsp), %xmm0
	movaps 112(%rsp), %xmm1
	movdqa 128(%rsp), %xmm2
	movaps 144(%rsp), %xmm3
	movaps %xmm0, 288(%rsp)
	movaps %xmm1, 304(%rsp)
	movdqa %xmm2, 320(%rsp)
	movaps %xmm3, 336(%rsp)
	movb %sil, 352(%rsp)
	movzbl %sil, %eax
	movq (%r14,%rax,8), %r8
	leaq 288(%rsp), %rdx
	movq %rdi, %rcx
	callq memcpy
	xorl %eax, %eax
.LBB64_16:
	addq $552, %rsp
	popq %rbx
	popq %rbp
	popq %rdi
	popq %rsi
	popq %r14
	popq %r15
	retq
	.section .rdata,"dr"
	.p2align 2, 0x0
.LJTI64_0:
	.long .LBB64_8-.LJTI64_0
	.long .LBB64_5-.LJTI64_0
	.long .LBB64_4-.LJTI64_0
	.long .LBB64_6-.LJTI64_0
	.long .LBB64_7-.LJTI64_0
	.text
	.seh_endproc
	.globl yz_digest_init
	.p2align 4
yz_digest_init:
.seh_proc yz_digest_init
	pushq %rsi
	.seh_pushreg %rsi
	pushq %rdi
	.seh_pushreg %rdi
	pushq %rbx
	.seh_pushreg %rbx
	subq $144, %rsp
	.seh_stackalloc 144
	.seh_endprologue
	leal -1(%rcx), %r10d
	cmpl $4, %r10d
	ja .LBB65_1
	movabsq $5840696474933916986, %rax
	movabsq $4354685563809803909, %r9
	movabsq $2270897968188319884, %r8
	leaq .LJTI65_0(%rip), %r11
	movslq (%r11,%r10,4), %r10
	addq %r11, %r10
	jmpq *%r10
.LBB65_4:
	movabsq $-4336155070024231818, %rax
	movabsq $-7441392446773286007, %r9
	movl $1732584193, %r11d
	xorl %r8d, %r8d
	xorl %r10d, %r10d
	jmp .LBB65_9
.LBB65_6:
	movabsq $1060366662362279074, %r10
	movabsq $3098927326965381290, %rsi
	movabsq $-4729309413028513390, %r8
	movabsq $-7626776825740460061, %rdi
	movabsq $-7622211418569250115, %rax
	movabsq $2563595384472711505, %rbx
	movabsq $-6965556091613846334, %r9
	movabsq $2463787394917988140, %r11
	jmp .LBB65_7
.LBB65_3:
	movabsq $5167115440072839076, %r10
	movabsq $-2662702644619276377, %rsi
	movabsq $-8163818279084223215, %r8
	movabsq $7436329637833083697, %rdi
	movabsq $1526699215303891257, %rax
	movabsq $-7973340178411365097, %rbx
	movabsq $7105036623409894663, %r9
	movabsq $-3766243637369397544, %r11
	jmp .LBB65_7
.LBB65_5:
	movq %r8, %rsi
	addq $1614566623, %rsi
	movq %r9, %rbx
	addq $1127041446, %rbx
	movq %rax, %rdi
	addq $144084375, %rdi
	movabsq $6620516959819538809, %r10
	movabsq $-7276294671716946913, %r8
	movabsq $-6534734903238641935, %rax
	movabsq $-4942790177534073029, %r9
	movabsq $7640891576956012808, %r11
.LBB65_7:
	xorps %xmm0, %xmm0
	movaps %xmm0, 112(%rsp)
	movaps %xmm0, 96(%rsp)
	movaps %xmm0, 80(%rsp)
	movaps %xmm0, 64(%rsp)
	movaps %xmm0, 48(%rsp)
	movaps %xmm0, 32(%rsp)
	movaps %xmm0, 16(%rsp)
	movaps %xmm0, (%rsp)
	movq $0, 127(%rsp)
	jmp .LBB65_10
.LBB65_8:
	movl $1541459225, %r10d
	movl $1779033703, %r11d
.LBB65_9:
	xorps %xmm0, %xmm0
	movaps %xmm0, 112(%rsp)
	movaps %xmm0, 96(%rsp)
	movaps %xmm0, 80(%rsp)
	movaps %xmm0, 64(%rsp)
	movaps %xmm0, 48(%rsp)
	movaps %xmm0, 32(%rsp)
	movaps %xmm0, 16(%rsp)
	movaps %xmm0, (%rsp)
	movq $0, 127(%rsp)
	movq %r8, %rsi
	shrq $32, %rsi
	movq %rax, %rdi
	shrq $32, %rdi
	movq %r9, %rbx
	shrq $32, %rbx
	andl $-1069171, %r9d
	andl $-1249905282, %eax
	andl $-1694144372, %r8d
.LBB65_10:
	movl %ecx, (%rdx)
	movups %xmm0, 4(%rdx)
	movl $0, 20(%rdx)
	movq %r11, 24(%rdx)
	movq %r9, 32(%rdx)
	movq %rbx, 40(%rdx)
	movq %rax, 48(%rdx)
	movq %rdi, 56(%rdx)
	movq %r8, 64(%rdx)
	movq %rsi, 72(%rdx)
	movq %r10, 80(%rdx)
	movups 7(%rsp), %xmm0
	movups 23(%rsp), %xmm1
	movups 39(%rsp), %xmm2
	movups 55(%rsp), %xmm3
	movups %xmm0, 88(%rdx)
	movups %xmm1, 104(%rdx)
	movups %xmm2, 120(%rdx)
	movups %xmm3, 136(%rdx)
	movups 71(%rsp), %xmm0
	movups %xmm0, 152(%rdx)
	movups 87(%rsp), %xmm0
	movups %xmm0, 168(%rdx)
	movups 103(%rsp), %xmm0
	movups %xmm0, 184(%rdx)
	movups 119(%rsp), %xmm0
	movups %xmm0, 200(%rdx)
	xorl %eax, %eax
.LBB65_11:
	addq $144, %rsp
	popq %rbx
	popq %rdi
	popq %rsi
	retq
.LBB65_1:
	movl $1, %eax
	jmp .LBB65_11
	.section .rdata,"dr"
	.p2align 2, 0x0
.LJTI65_0:
	.long .LBB65_4-.LJTI65_0
	.long .LBB65_8-.LJTI65_0
	.long .LBB65_3-.LJTI65_0
	.long .LBB65_5-.LJTI65_0
	.long .LBB65_6-.LJTI65_0
	.text
	.seh_endproc
	.globl v2_yz_digest_update
	.p2align 4
v2_yz_digest_update:
.seh_proc v2_yz_digest_update
	pushq %r14
	.seh_pushreg %r14
	pushq %rsi
	.seh_pushreg %rsi
	pushq %rdi
	.seh_pushreg %rdi
	pushq %rbp
	.seh_pushreg %rbp
	pushq %rbx
	.seh_pushreg %rbx
	subq $64, %rsp
	.seh_stackalloc 64
	.seh_endprologue
	xorl %r10d, %r10d
	testq %rdx, %rdx
	sete %r10b
	shll $12, %r10d
	leaq (%rdx,%r10), %rax
	xorps %xmm0, %xmm0
	movaps %xmm0, 48(%rsp)
	movaps %xmm0, 32(%rsp)
	movl (%rcx), %r9d
	decl %r9d
	cmpl $4, %r9d
	ja .LBB66_5
	movl %r9d, %r9d
	leaq .Lswitch.table.v2_yz_hmac_update(%rip), %r11
	movq (%r11,%r9,8), %r9
	movl 4(%rcx), %edi
	subq %rdi, %r9
	seta %r11b
	cmpq %r8, %r9
	seta %r9b
	andb %r11b, %r9b
	cmpb $1, %r9b
	jne .LBB66_5
	leaq (%rcx,%rdi), %r9
	addq $88, %r9
	movq %r9, %r11
	subq %rax, %r11
	cmpq %r8, %r11
	jae .LBB66_6
	cmpq $4, %r8
	jb .LBB66_4
	leaq (%rcx,%rdi), %r11
	subq %rax, %r11
	addq $88, %r11
	cmpq $32, %r11
	jae .LBB66_9
.LBB66_4:
	xorl %r11d, %r11d
.LBB66_18:
	movq %r8, %rbx
	movq %r11, %rsi
	andq $3, %rbx
	je .LBB66_21
	movq %r11, %rsi
	.p2align 4
.LBB66_20:
	movzbl (%rax,%rsi), %ebp
	movb %bpl, (%r9,%rsi)
	incq %rsi
	decq %rbx
	jne .LBB66_20
.LBB66_21:
	subq %r8, %r11
	cmpq $-4, %r11
	ja .LBB66_24
	leaq (%r10,%rdx), %rax
	addq $3, %rax
	leaq (%rdi,%rcx), %rdx
	addq $91, %rdx
	.p2align 4
.LBB66_23:
	movzbl -3(%rax,%rsi), %r9d
	movb %r9b, -3(%rdx,%rsi)
	movzbl -2(%rax,%rsi), %r9d
	movb %r9b, -2(%rdx,%rsi)
	movzbl -1(%rax,%rsi), %r9d
	movb %r9b, -1(%rdx,%rsi)
	movzbl (%rax,%rsi), %r9d
	movb %r9b, (%rdx,%rsi)
	addq $4, %rsi
	cmpq %rsi, %r8
	jne .LBB66_23
	jmp .LBB66_24
.LBB66_5:
	leaq 32(%rsp), %r9
	movq %rax, %rdx
	callq ring.raw.context.RawContext.run
	movl %eax, %ecx
	movl $2, %eax
	testb %cl, %cl
	jne .LBB66_25
	jmp .LBB66_26
.LBB66_6:
	movq %rcx, %rbx
	movq %r9, %rcx
	movq %rax, %rdx
	movq %r8, %rsi
	callq memmove
	movq %rbx, %rcx
	movq %rsi, %r8
.LBB66_24:
	addl %edi, %r8d
	movl %r8d, 4(%rcx)
.LBB66_25:
	xorl %eax, %eax
.LBB66_26:
	addq $64, %rsp
	popq %rbx
	popq %rbp
	popq %rdi
	popq %rsi
	popq %r14
	retq
.LBB66_9:
	cmpq $32, %r8
	jae .LBB66_11
	xorl %r11d, %r11d
	jmp .LBB66_15
.LBB66_11:
	movq %r8, %r11
	andq $-32, %r11
	leaq (%r10,%rdx), %rsi
	addq $16, %rsi
	leaq (%rdi,%rcx), %rbx
	addq $104, %rbx
	xorl %r14d, %r14d
	.p2align 4
.LBB66_12:
	movups -16(%rsi,%r14), %xmm0
	movups (%rsi,%r14), %xmm1
	movups %xmm0, -16(%rbx,%r14)
	movups %xmm1, (%rbx,%r14)
	addq $32, %r14
	cmpq %r14, %r11
	jne .LBB66_12
	cmpq %r11, %r8
	je .LBB66_24
	testb $28, %r8b
	je .LBB66_18
.LBB66_15:
	movq %r11, %rsi
	movq %r8, %r11
	andq $-4, %r11
	.p2align 4
.LBB66_16:
	movl (%rax,%rsi), %ebx
	movl %ebx, (%r9,%rsi)
	addq $4, %rsi
	cmpq %rsi, %r11
	jne .LBB66_16
	cmpq %r11, %r8
	je .LBB66_24
	jmp .LBB66_18
	.seh_endproc
	.globl yz_equal
	.p2align 4
yz_equal:
.seh_proc yz_equal
	pushq %rsi
	.seh_pushreg %rsi
	.seh_endprologue
	xorl %r11d, %r11d
	testq %rcx, %rcx
	sete %al
	xorl %esi, %esi
	testq %r8, %r8
	sete %r10b
	cmpq %r9, %rdx
	jne .LBB67_4
	testq %rdx, %rdx
	je .LBB67_6
	movb %al, %r11b
	shll $12, %r11d
	leaq (%rcx,%r11), %rax
	movb %r10b, %sil
	shll $12, %esi
	leaq (%r8,%rsi), %r9
	cmpq $4, %rdx
	jae .LBB67_7
	xorl %ecx, %ecx
	xorl %r10d, %r10d
	jmp .LBB67_16
.LBB67_4:
	xorl %eax, %eax
	popq %rsi
	retq
.LBB67_6:
	movb $1, %al
	popq %rsi
	retq
.LBB67_7:
	cmpq $32, %rdx
	jae .LBB67_9
	xorl %r10d, %r10d
	xorl %ecx, %ecx
	jmp .LBB67_13
.LBB67_9:
	movq %rdx, %r10
	andq $-32, %r10
	addq %rsi, %r8
	addq $16, %r8
	addq %r11, %rcx
	addq $16, %rcx
	pxor %xmm0, %xmm0
	xorl %r11d, %r11d
	pxor %xmm1, %xmm1
	.p2align 4
.LBB67_10:
	movdqu -16(%rcx,%r11), %xmm2
	movdqu (%rcx,%r11), %xmm3
	movdqu -16(%r8,%r11), %xmm4
	pxor %xmm2, %xmm4
	por %xmm4, %xmm1
	movdqu (%r8,%r11), %xmm2
	pxor %xmm3, %xmm2
	por %xmm2, %xmm0
	addq $32, %r11
	cmpq %r11, %r10
	jne .LBB67_10
	por %xmm1, %xmm0
	pshufd $238, %xmm0, %xmm1
	por %xmm0, %xmm1
	pshufd $85, %xmm1, %xmm0
	por %xmm1, %xmm0
	movdqa %xmm0, %xmm1
	psrld $16, %xmm1
	por %xmm0, %xmm1
	movdqa %xmm1, %xmm0
	psrlw $8, %xmm0
	por %xmm1, %xmm0
	movd %xmm0, %ecx
	cmpq %r10, %rdx
	je .LBB67_18
	testb $28, %dl
	je .LBB67_16
.LBB67_13:
	movq %r10, %r8
	movq %rdx, %r10
	andq $-4, %r10
	movzbl %cl, %ecx
	movd %ecx, %xmm0
	.p2align 4
.LBB67_14:
	movl (%r9,%r8), %ecx
	xorl (%rax,%r8), %ecx
	movd %ecx, %xmm1
	por %xmm1, %xmm0
	addq $4, %r8
	cmpq %r8, %r10
	jne .LBB67_14
	movdqa %xmm0, %xmm1
	psrld $16, %xmm1
	por %xmm0, %xmm1
	movdqa %xmm1, %xmm0
	psrlw $8, %xmm0
	por %xmm1, %xmm0
	movd %xmm0, %ecx
	jmp .LBB67_17
.LBB67_16:
	movzbl (%r9,%r10), %r8d
	xorb (%rax,%r10), %r8b
	orb %r8b, %cl
	incq %r10
.LBB67_17:
	cmpq %r10, %rdx
	jne .LBB67_16
.LBB67_18:
	testb %cl, %cl
	sete %al
	popq %rsi
	retq
	.seh_endproc
	.globl v2_yz_hkdf
	.p2align 4
v2_yz_hkdf:
.seh_proc v2_yz_hkdf
	pushq %r15
	.seh_pushreg %r15
	pushq %r14
	.seh_pushreg %r14
	pushq %r13
	.seh_pushreg %r13
	pushq %r12
	.seh_pushreg %r12
	pushq %rsi
	.seh_pushreg %rsi
	pushq %rdi
	.seh_pushreg %rdi
	pushq %rbp
	.seh_pushreg %rbp
	pushq %rbx
	.seh_pushreg %rbx
	subq $1512, %rsp
	.seh_stackalloc 1512
	movaps %xmm6, 1488(%rsp)
	.seh_savexmm %xmm6, 1488
	.seh_endprologue
	movq %r8, %r10
	movq %rdx, %r8
	movl %ecx, %edx
	movq 1640(%rsp), %rsi
	movq 1624(%rsp), %rdi
	xorl %ecx, %ecx
	testq %r8, %r8
	sete %r11b
	xorl %r14d, %r14d
	testq %r9, %r9
	sete %bl
	testq %rdi, %rdi
	sete %bpl
	testq %rsi, %rsi
	sete 63(%rsp)
	xorps %xmm0, %xmm0
	movups %xmm0, 655(%rsp)
	movaps %xmm0, 640(%rsp)
	movaps %xmm0, 624(%rsp)
	movaps %xmm0, 608(%rsp)
	movaps %xmm0, 592(%rsp)
	movaps %xmm0, 576(%rsp)
	movaps %xmm0, 560(%rsp)
	movaps %xmm0, 544(%rsp)
	movaps %xmm0, 528(%rsp)
	movaps %xmm0, 512(%rsp)
	movaps %xmm0, 496(%rsp)
	movaps %xmm0, 480(%rsp)
	movaps %xmm0, 464(%rsp)
	decl %edx
	movl $1, %eax
	cmpl $3, %edx
	ja .LBB68_16
	movq 1648(%rsp), %r13
	movl %edx, %r15d
	leaq .Lswitch.table.v2_yz_hkdf_expand_label(%rip), %r12
	movl $4, %eax
	cmpq (%r12,%r15,8), %r13
	movl $0, %r13d
	movl $0, %r12d
	ja .LBB68_16
	movq %r9, %r15
	movb %r11b, %cl
	shll $12, %ecx
	addq %rcx, %r8
	xorps %xmm6, %xmm6
	movaps %xmm6, 688(%rsp)
	movaps %xmm6, 672(%rsp)
	movaps %xmm6, 336(%rsp)
	movaps %xmm6, 320(%rsp)
	movaps %xmm6, 304(%rsp)
	movaps %xmm6, 288(%rsp)
	movaps %xmm6, 272(%rsp)
	movaps %xmm6, 256(%rsp)
	movaps %xmm6, 240(%rsp)
	movaps %xmm6, 224(%rsp)
	movaps %xmm6, 208(%rsp)
	movaps %xmm6, 192(%rsp)
	movaps %xmm6, 176(%rsp)
	movaps %xmm6, 160(%rsp)
	movaps %xmm6, 144(%rsp)
	leaq 672(%rsp), %rax
	movq %rax, 32(%rsp)
	leaq 144(%rsp), %rcx
	movq %r10, %r9
	callq ring.hmac.key.Key.new_counted
	cmpb $0, 144(%rsp)
	jne .LBB68_3
	movb %bl, %r14b
	shll $12, %r14d
	movq %r15, %rbx
	addq %r14, %rbx
	leaq 160(%rsp), %rdx
	leaq 895(%rsp), %r14
	movl $192, %r8d
	movq %r14, %rcx
	callq memcpy
	leaq 1296(%rsp), %r15
	movl $192, %r8d
	movq %r15, %rcx
	movq %r14, %rdx
	callq memcpy
	leaq 1088(%rsp), %r14
	movl $192, %r8d
	movq %r14, %rcx
	movq %r15, %rdx
	callq memcpy
	movaps %xmm6, 368(%rsp)
	movaps %xmm6, 352(%rsp)
	movaps %xmm6, 64(%rsp)
	movaps %xmm6, 80(%rsp)
	movaps %xmm6, 96(%rsp)
	movaps %xmm6, 112(%rsp)
	movw $0, 128(%rsp)
	leaq 352(%rsp), %r15
	movq %r15, 32(%rsp)
	leaq 64(%rsp), %rcx
	movq %r14, %rdx
	movq %rbx, %r8
	movq 1616(%rsp), %r9
	callq ring.hmac.sign_counted
	cmpb $0, 64(%rsp)
	je .LBB68_6
.LBB68_3:
	movl $8, %eax
.LBB68_16:
	movaps 1488(%rsp), %xmm6
	addq $1512, %rsp
	popq %rbx
	popq %rbp
	popq %rdi
	popq %rsi
	popq %r12
	popq %r13
	popq %r14
	popq %r15
	retq
.LBB68_6:
	movups 65(%rsp), %xmm0
	movups 81(%rsp), %xmm1
	movups 97(%rsp), %xmm2
	movups 113(%rsp), %xmm3
	movaps %xmm3, 432(%rsp)
	movaps %xmm2, 416(%rsp)
	movaps %xmm1, 400(%rsp)
	movaps %xmm0, 384(%rsp)
	movzbl 129(%rsp), %eax
	movb %al, 448(%rsp)
	movzbl 1176(%rsp), %edx
	leaq .Lswitch.table.v2_yz_webhook_verify_stripe(%rip), %rcx
	movq (%rcx,%rax,8), %r9
	xorps %xmm0, %xmm0
	movaps %xmm0, 336(%rsp)
	movaps %xmm0, 320(%rsp)
	movaps %xmm0, 304(%rsp)
	movaps %xmm0, 288(%rsp)
	movaps %xmm0, 272(%rsp)
	movaps %xmm0, 256(%rsp)
	movaps %xmm0, 240(%rsp)
	movaps %xmm0, 224(%rsp)
	movaps %xmm0, 208(%rsp)
	movaps %xmm0, 192(%rsp)
	movaps %xmm0, 176(%rsp)
	movaps %xmm0, 160(%rsp)
	movaps %xmm0, 144(%rsp)
	movq %r15, 32(%rsp)
	leaq 144(%rsp), %rcx
	leaq 384(%rsp), %r8
	callq ring.hmac.key.Key.new_counted
	cmpb $0, 144(%rsp)
	jne .LBB68_17
	movq 1632(%rsp), %r15
	movb %bpl, %r13b
	shll $12, %r13d
	addq %r13, %rdi
	leaq 160(%rsp), %rdx
	leaq 895(%rsp), %r14
	movl $192, %r8d
	movq %r14, %rcx
	callq memcpy
	leaq 687(%rsp), %rbx
	movl $192, %r8d
	movq %rbx, %rcx
	movq %r14, %rdx
	callq memcpy
	leaq 479(%rsp), %r14
	movl $192, %r8d
	movq %r14, %rcx
	movq %rbx, %rdx
	callq memcpy
	leaq 144(%rsp), %rcx
	movl $192, %r8d
	movq %r14, %rdx
	callq memcpy
	movq %rdi, 672(%rsp)
	movq %r15, 680(%rsp)
	movzbl 232(%rsp), %eax
	leaq .LJTI68_0(%rip), %rcx
	movslq (%rcx,%rax,4), %rdx
	addq %rcx, %rdx
	jmpq *%rdx
.LBB68_8:
	movl $8160, %ecx
	jmp .LBB68_12
.LBB68_9:
	xorps %xmm0, %xmm0
	movaps %xmm0, 896(%rsp)
	movaps %xmm0, 880(%rsp)
	movl $64, %ecx
	movq 1648(%rsp), %r10
	jmp .LBB68_14
.LBB68_10:
	movl $5100, %ecx
	jmp .LBB68_12
.LBB68_11:
	movl $12240, %ecx
.LBB68_12:
	movq 1648(%rsp), %r10
	cmpq %rcx, %r10
	ja .LBB68_17
	xorps %xmm0, %xmm0
	movaps %xmm0, 896(%rsp)
	movaps %xmm0, 880(%rsp)
	leaq .Lswitch.table.v2_yz_webhook_verify_stripe(%rip), %rcx
	movq (%rcx,%rax,8), %rcx
.LBB68_14:
	xorl %edx, %edx
	cmpb $2, %al
	movabsq $2305843009213693951, %r8
	cmovbq %rdx, %r8
	movabsq $2305843009213693886, %rax
	movq $-130, %r9
	cmovbq %rax, %r9
	cmpq %rcx, %r10
	cmovbeq %rdx, %rcx
	subq %rcx, %r9
	sbbq $0, %r8
	movl $8, %eax
	cmpq %r15, %r9
	sbbq $0, %r8
	jb .LBB68_16
	movzbl 63(%rsp), %eax
	movb %al, %r12b
	shll $12, %r12d
	addq %r12, %rsi
	leaq 880(%rsp), %rax
	movq %rax, 40(%rsp)
	movq %r10, 32(%rsp)
	leaq 144(%rsp), %rcx
	leaq 672(%rsp), %rdx
	movl $1, %r8d
	movq %rsi, %r9
	callq ring.hkdf.rounds.write_output
	xorl %eax, %eax
	jmp .LBB68_16
.LBB68_17:
	ud2
	.section .rdata,"dr"
	.p2align 2, 0x0
.LJTI68_0:
	.long .LBB68_10-.LJTI68_0
	.long .LBB68_8-.LJTI68_0
	.long .LBB68_11-.LJTI68_0
	.long .LBB68_9-.LJTI68_0
	.long .LBB68_8-.LJTI68_0
	.text
	.seh_endproc
	.globl v2_yz_hkdf_expand
	.p2align 4
v2_yz_hkdf_expand:
.seh_proc v2_yz_hkdf_expand
	pushq %r15
	.seh_pushreg %r15
	pushq %r14
	.seh_pushreg %r14
	pushq %r13
	.seh_pushreg %r13
	pushq %r12
	.seh_pushreg %r12
	pushq %rsi
	.seh_pushreg %rsi
	pushq %rdi
	.seh_pushreg %rdi
	pushq %rbp
	.seh_pushreg %rbp
	pushq %rbx
	.seh_pushreg %rbx
	subq $520, %rsp
	.seh_stackalloc 520
	.seh_endprologue
	movq %r8, %r10
	movq %rdx, %r8
	movl %ecx, %edx
	movq 632(%rsp), %rsi
	xorl %ecx, %ecx
	testq %r8, %r8
	sete %r11b
	xorl %edi, %edi
	testq %r9, %r9
	sete %bl
	xorl %r14d, %r14d
	testq %rsi, %rsi
	sete %bpl
	decl %edx
	movl $1, %eax
	cmpl $3, %edx
	ja .LBB69_13
	movq 640(%rsp), %r15
	movl %edx, %r12d
	leaq .Lswitch.table.v2_yz_hkdf_expand_label(%rip), %r13
	movl $4, %eax
	cmpq (%r13,%r12,8), %r15
	ja .LBB69_13
	movq %r9, %r13
	movb %r11b, %cl
	shll $12, %ecx
	addq %rcx, %r8
	xorps %xmm0, %xmm0
	movaps %xmm0, 64(%rsp)
	movaps %xmm0, 48(%rsp)
	movaps %xmm0, 288(%rsp)
	movaps %xmm0, 272(%rsp)
	movaps %xmm0, 256(%rsp)
	movaps %xmm0, 240(%rsp)
	movaps %xmm0, 224(%rsp)
	movaps %xmm0, 208(%rsp)
	movaps %xmm0, 192(%rsp)
	movaps %xmm0, 176(%rsp)
	movaps %xmm0, 160(%rsp)
	movaps %xmm0, 144(%rsp)
	movaps %xmm0, 128(%rsp)
	movaps %xmm0, 112(%rsp)
	movaps %xmm0, 96(%rsp)
	leaq 48(%rsp), %r12
	movq %r12, 32(%rsp)
	leaq 96(%rsp), %rcx
	movq %r10, %r9
	callq ring.hmac.key.Key.new_counted
	cmpb $0, 96(%rsp)
	je .LBB69_4
	movl $8, %eax
	jmp .LBB69_13
.LBB69_4:
	movb %bl, %dil
	shll $12, %edi
	addq %rdi, %r13
	leaq 112(%rsp), %rdx
	leaq 319(%rsp), %rdi
	movl $192, %r8d
	movq %rdi, %rcx
	callq memcpy
	leaq 111(%rsp), %rbx
	movl $192, %r8d
	movq %rbx, %rcx
	movq %rdi, %rdx
	callq memcpy
	leaq 304(%rsp), %rcx
	movl $192, %r8d
	movq %rbx, %rdx
	callq memcpy
	movq 624(%rsp), %r10
	movq %r13, 80(%rsp)
	movq %r10, 88(%rsp)
	movzbl 392(%rsp), %eax
	leaq .LJTI69_0(%rip), %rcx
	movslq (%rcx,%rax,4), %rdx
	addq %rcx, %rdx
	jmpq *%rdx
.LBB69_5:
	movl $8160, %ecx
	jmp .LBB69_9
.LBB69_7:
	xorps %xmm0, %xmm0
	movaps %xmm0, 64(%rsp)
	movaps %xmm0, 48(%rsp)
	movl $64, %ecx
	jmp .LBB69_11
.LBB69_8:
	movl $5100, %ecx
	jmp .LBB69_9
.LBB69_6:
	movl $12240, %ecx
.LBB69_9:
	cmpq %rcx, %r15
	ja .LBB69_14
	xorps %xmm0, %xmm0
	movaps %xmm0, 64(%rsp)
	movaps %xmm0, 48(%rsp)
	leaq .Lswitch.table.v2_yz_webhook_verify_stripe(%rip), %rcx
	movq (%rcx,%rax,8), %rcx
.LBB69_11:
	xorl %edx, %edx
	cmpb $2, %al
	movabsq $2305843009213693951, %r8
	cmovbq %rdx, %r8
	movabsq $2305843009213693886, %rax
	movq $-130, %r9
	cmovbq %rax, %r9
	cmpq %rcx, %r15
	cmovbeq %rdx, %rcx
	subq %rcx, %r9
	sbbq $0, %r8
	movl $8, %eax
	cmpq %r10, %r9
	sbbq $0, %r8
	jb .LBB69_13
	movb %bpl, %r14b
	shll $12, %r14d
	addq %r14, %rsi
	movq %r12, 40(%rsp)
	movq %r15, 32(%rsp)
	leaq 304(%rsp), %rcx
	leaq 80(%rsp), %rdx
	movl $1, %r8d
	movq %rsi, %r9
	callq ring.hkdf.rounds.write_output
	xorl %eax, %eax
.LBB69_13:
	addq $520, %rsp
	popq %rbx
	popq %rbp
	popq %rdi
	popq %rsi
	popq %r12
	popq %r13
	popq %r14
	popq %r15
	retq
.LBB69_14:
	ud2
	.section .rdata,"dr"
	.p2align 2, 0x0
.LJTI69_0:
	.long .LBB69_8-.LJTI69_0
	.long .LBB69_5-.LJTI69_0
	.long .LBB69_6-.LJTI69_0
	.long .LBB69_7-.LJTI69_0
	.long .LBB69_5-.LJTI69_0
	.text
	.seh_endproc
	.globl v2_yz_hkdf_expand_label
	.p2align 4
v2_yz_hkdf_expand_label:
.seh_proc v2_yz_hkdf_expand_label
	pushq %r15
	.seh_pushreg %r15
	pushq %r14
	.seh_pushreg %r14
	pushq %r13
	.seh_pushreg %r13
	pushq %r12
	.seh_pushreg %r12
	pushq %rsi
	.seh_pushreg %rsi
	pushq %rdi
	.seh_pushreg %rdi
	pushq %rbp
	.seh_pushreg %rbp
	pushq %rbx
	.seh_pushreg %rbx
	subq $536, %rsp
	.seh_stackalloc 536
	.seh_endprologue
	movq %r8, %r10
	movq %rdx, %r8
	movl %ecx, %edx
	movq 664(%rsp), %r12
	movq 648(%rsp), %rsi
	xorl %ecx, %ecx
	testq %r8, %r8
	sete %r11b
	xorl %ebp, %ebp
	testq %r9, %r9
	sete 69(%rsp)
	xorl %r15d, %r15d
	testq %rsi, %rsi
	sete 70(%rsp)
	xorl %r14d, %r14d
	testq %r12, %r12
	sete 71(%rsp)
	decl %edx
	movl $1, %eax
	cmpl $3, %edx
	ja .LBB70_6
	movq 672(%rsp), %r13
	movl %edx, %edi
	leaq .Lswitch.table.v2_yz_hkdf_expand_label(%rip), %rbx
	movl $4, %eax
	cmpq (%rbx,%rdi,8), %r13
	ja .LBB70_6
	movq 640(%rsp), %r13
	leaq -1(%r13), %rax
	cmpq $249, %rax
	setae %bl
	cmpq $256, 656(%rsp)
	setae %dil
	movl $8, %eax
	orb %bl, %dil
	jne .LBB70_6
	movq %r9, 72(%rsp)
	movb %r11b, %cl
	shll $12, %ecx
	addq %rcx, %r8
	xorps %xmm0, %xmm0
	movaps %xmm0, 96(%rsp)
	movaps %xmm0, 80(%rsp)
	movaps %xmm0, 304(%rsp)
	movaps %xmm0, 288(%rsp)
	movaps %xmm0, 272(%rsp)
	movaps %xmm0, 256(%rsp)
	movaps %xmm0, 240(%rsp)
	movaps %xmm0, 224(%rsp)
	movaps %xmm0, 208(%rsp)
	movaps %xmm0, 192(%rsp)
	movaps %xmm0, 176(%rsp)
	movaps %xmm0, 160(%rsp)
	movaps %xmm0, 144(%rsp)
	movaps %xmm0, 128(%rsp)
	movaps %xmm0, 112(%rsp)
	leaq 80(%rsp), %rax
	movq %rax, 32(%rsp)
	leaq 112(%rsp), %rcx
	movq %r10, %r9
	callq ring.hmac.key.Key.new_counted
	cmpb $0, 112(%rsp)
	je .LBB70_5
	movl $8, %eax
	jmp .LBB70_6
.LBB70_5:
	movzbl 69(%rsp), %eax
	movb %al, %bpl
	shll $12, %ebp
	movq 72(%rsp), %rdi
	addq %rbp, %rdi
	movzbl 70(%rsp), %eax
	movb %al, %r15b
	shll $12, %r15d
	addq %r15, %rsi
	movzbl 71(%rsp), %eax
	movb %al, %r14b
	shll $12, %r14d
	addq %r14, %r12
	leaq 128(%rsp), %rdx
	leaq 335(%rsp), %r14
	movl $192, %r8d
	movq %r14, %rcx
	callq memcpy
	leaq 127(%rsp), %r15
	movl $192, %r8d
	movq %r15, %rcx
	movq %r14, %rdx
	callq memcpy
	leaq 320(%rsp), %r14
	movl $192, %r8d
	movq %r14, %rcx
	movq %r15, %rdx
	callq memcpy
	movq 672(%rsp), %rax
	movq %rax, 48(%rsp)
	movq %r12, 40(%rsp)
	movq 656(%rsp), %rax
	movq %rax, 32(%rsp)
	movq %r14, %rcx
	movq %rdi, %rdx
	movq %r13, %r8
	movq %rsi, %r9
	callq ring_schedules.label.fill_by_label
	xorl %eax, %eax
.LBB70_6:
	addq $536, %rsp
	popq %rbx
	popq %rbp
	popq %rdi
	popq %rsi
	popq %r12
	popq %r13
	popq %r14
	popq %r15
	retq
	.seh_endproc
	.globl v2_yz_hkdf_extract
	.p2align 4
v2_yz_hkdf_extract:
.seh_proc v2_yz_hkdf_extract
	pushq %r15
	.seh_pushreg %r15
	pushq %r14
	.seh_pushreg %r14
	pushq %r13
	.seh_pushreg %r13
	pushq %r12
	.seh_pushreg %r12
	pushq %rsi
	.seh_pushreg %rsi
	pushq %rdi
	.seh_pushreg %rdi
	pushq %rbp
	.seh_pushreg %rbp
	pushq %rbx
	.seh_pushreg %rbx
	subq $680, %rsp
	.seh_stackalloc 680
	movaps %xmm6, 656(%rsp)
	.seh_savexmm %xmm6, 656
	.seh_endprologue
	movq 792(%rsp), %rsi
	xorl %r10d, %r10d
	testq %rdx, %rdx
	sete %r11b
	xorl %r14d, %r14d
	testq %r9, %r9
	sete %r12b
	xorl %r15d, %r15d
	testq %rsi, %rsi
	sete %bpl
	decl %ecx
	movl $1, %eax
	cmpl $3, %ecx
	ja .LBB71_5
	movq 800(%rsp), %rdi
	movl %ecx, %ebx
	leaq .Lswitch.table.v2_yz_tls13_finished_verify(%rip), %r13
	movl $4, %eax
	cmpq (%r13,%rbx,8), %rdi
	jne .LBB71_5
	movb %r11b, %r10b
	shll $12, %r10d
	addq %r10, %rdx
	xorps %xmm6, %xmm6
	movaps %xmm6, 240(%rsp)
	movaps %xmm6, 256(%rsp)
	movaps %xmm6, 272(%rsp)
	movaps %xmm6, 288(%rsp)
	movaps %xmm6, 304(%rsp)
	movaps %xmm6, 320(%rsp)
	movaps %xmm6, 336(%rsp)
	movaps %xmm6, 352(%rsp)
	movaps %xmm6, 368(%rsp)
	movaps %xmm6, 384(%rsp)
	movaps %xmm6, 400(%rsp)
	movaps %xmm6, 416(%rsp)
	movaps %xmm6, 432(%rsp)
	leaq 256(%rsp), %rdi
	movaps %xmm6, 48(%rsp)
	movaps %xmm6, 64(%rsp)
	leaq 48(%rsp), %rax
	movq %rax, 32(%rsp)
	leaq 240(%rsp), %rax
	movl %ecx, %r10d
	movq %rax, %rcx
	movq %rdx, %rax
	movl %r10d, %edx
	movq %r8, %r10
	movq %rax, %r8
	movq %r9, %r13
	movq %r10, %r9
	callq ring.hmac.key.Key.new_counted
	leaq 464(%rsp), %rcx
	movzbl 240(%rsp), %ebx
	movl $192, %r8d
	movq %rdi, %rdx
	callq memcpy
	movl $8, %eax
	testb %bl, %bl
	jne .LBB71_5
	movq %r13, %r9
	movq 784(%rsp), %rdi
	movb %r12b, %r14b
	shll $12, %r14d
	addq %r14, %r9
	leaq 240(%rsp), %r14
	movl $192, %r8d
	movq %r14, %rcx
	leaq 464(%rsp), %rdx
	movq %r9, %rbx
	callq memcpy
	movaps %xmm6, 48(%rsp)
	movaps %xmm6, 64(%rsp)
	movaps %xmm6, 80(%rsp)
	movaps %xmm6, 96(%rsp)
	movw $0, 112(%rsp)
	movaps %xmm6, 208(%rsp)
	movaps %xmm6, 224(%rsp)
	leaq 208(%rsp), %rax
	movq %rax, 32(%rsp)
	leaq 48(%rsp), %rcx
	movq %r14, %rdx
	movq %rbx, %r8
	movq %rdi, %r9
	callq ring.hmac.sign_counted
	movups 49(%rsp), %xmm0
	movups 65(%rsp), %xmm1
	movups 81(%rsp), %xmm2
	movups 97(%rsp), %xmm3
	movaps %xmm0, 128(%rsp)
	movaps %xmm1, 144(%rsp)
	movaps %xmm2, 160(%rsp)
	movaps %xmm3, 176(%rsp)
	movzbl 113(%rsp), %eax
	movb %al, 192(%rsp)
	cmpb $0, 48(%rsp)
	movl $8, %eax
	jne .LBB71_5
	movb %bpl, %r15b
	shll $12, %r15d
	addq %r15, %rsi
	movzbl 192(%rsp), %eax
	leaq .Lswitch.table.v2_yz_webhook_verify_stripe(%rip), %rcx
	movq (%rcx,%rax,8), %r8
	leaq 128(%rsp), %rdx
	movq %rsi, %rcx
	callq memcpy
	xorl %eax, %eax
.LBB71_5:
	movaps 656(%rsp), %xmm6
	addq $680, %rsp
	popq %rbx
	popq %rbp
	popq %rdi
	popq %rsi
	popq %r12
	popq %r13
	popq %r14
	popq %r15
	retq
	.seh_endproc
	.globl v2_yz_hmac_final
	.p2align 4
v2_yz_hmac_final:
.seh_proc v2_yz_hmac_final
	pushq %r15
	.seh_pushreg %r15
	pushq %r14
	.seh_pushreg %r14
	pushq %r13
	.seh_pushreg %r13
	pushq %r12
	.seh_pushreg %r12
	pushq %rsi
	.seh_pushreg %rsi
	pushq %rdi
	.seh_pushreg %rdi
	pushq %rbp
	.seh_pushreg %rbp
	pushq %rbx
	.seh_pushreg %rbx
	subq $936, %rsp
	.seh_stackalloc 936
	movaps %xmm6, 912(%rsp)
	.seh_savexmm %xmm6, 912
	.seh_endprologue
	xorl %r11d, %r11d
	testq %rdx, %rdx
	sete %bl
	xorps %xmm0, %xmm0
	movaps %xmm0, 192(%rsp)
	movaps %xmm0, 176(%rsp)
	movaps %xmm0, 160(%rsp)
	movaps %xmm0, 144(%rsp)
	movb $0, 208(%rsp)
	movl (%rcx), %esi
	leal -1(%rsi), %edi
	movl $2, %eax
	cmpl $4, %edi
	ja .LBB72_28
	movl %edi, %r10d
	leaq .Lswitch.table.v2_yz_hmac_update(%rip), %r15
	movq 8(%rcx), %r9
	cmpq (%r15,%r10,8), %r9
	movq 16(%rcx), %r10
	movq %r10, %r14
	sbbq $0, %r14
	jb .LBB72_28
	movq %r8, %r14
	movl 4(%rcx), %r8d
	cmpq %r8, (%r15,%rdi,8)
	jbe .LBB72_28
	movzbl %dil, %r12d
	leaq .Lswitch.table.v2_yz_webhook_verify_stripe(%rip), %r15
	movl $4, %eax
	cmpq (%r15,%r12,8), %r14
	jne .LBB72_28
	movaps %xmm0, 896(%rsp)
	movaps %xmm0, 880(%rsp)
	movaps %xmm0, 224(%rsp)
	movaps %xmm0, 240(%rsp)
	movaps %xmm0, 256(%rsp)
	movaps %xmm0, 272(%rsp)
	movb $0, 288(%rsp)
	movaps %xmm0, 304(%rsp)
	movaps %xmm0, 320(%rsp)
	movaps %xmm0, 336(%rsp)
	movaps %xmm0, 352(%rsp)
	movaps %xmm0, 368(%rsp)
	movaps %xmm0, 384(%rsp)
	cmpl $3, %esi
	movl $64, %esi
	movl $128, %eax
	cmovaeq %rax, %rsi
	cmpq %rsi, %r9
	movq %r10, %rsi
	sbbq $0, %rsi
	jb .LBB72_27
	leaq .LJTI72_0(%rip), %rsi
	movslq (%rsi,%rdi,4), %r14
	addq %rsi, %r14
	jmpq *%r14
.LBB72_10:
	movl $64, %eax
	movb $1, %bpl
	xorl %esi, %esi
	jmp .LBB72_11
.LBB72_9:
	movb $4, %sil
	xorl %ebp, %ebp
	jmp .LBB72_11
.LBB72_6:
	movb $2, %sil
	xorl %ebp, %ebp
	jmp .LBB72_11
.LBB72_8:
	movb $3, %sil
	xorl %ebp, %ebp
	jmp .LBB72_11
.LBB72_7:
	movl $64, %eax
	movb $1, %bpl
	movb $1, %sil
.LBB72_11:
	cmpl %r8d, %eax
	jbe .LBB72_27
	movaps %xmm0, 864(%rsp)
	movl $128, %eax
	leaq .LJTI72_1(%rip), %r14
	movslq (%r14,%rdi,4), %rdi
	addq %r14, %rdi
	jmpq *%rdi
.LBB72_17:
	movl $64, %eax
	movb $1, %r14b
	xorl %edi, %edi
	jmp .LBB72_18
.LBB72_16:
	movb $4, %dil
	xorl %r14d, %r14d
	jmp .LBB72_18
.LBB72_13:
	movb $2, %dil
	xorl %r14d, %r14d
	jmp .LBB72_18
.LBB72_15:
	movb $3, %dil
	xorl %r14d, %r14d
	jmp .LBB72_18
.LBB72_14:
	movl $64, %eax
	movb $1, %r14b
	movb $1, %dil
.LBB72_18:
	cmpl %r8d, %eax
	jbe .LBB72_27
	testb %r14b, %r14b
	je .LBB72_20
	movaps %xmm0, 64(%rsp)
	movaps %xmm0, 48(%rsp)
	movl $0, 80(%rsp)
	movups 24(%rcx), %xmm1
	movups 40(%rcx), %xmm0
	shufps $136, %xmm0, %xmm1
	movups 56(%rcx), %xmm0
	movups 72(%rcx), %xmm2
	shufps $136, %xmm2, %xmm0
	movabsq $2305843009213693951, %r14
	movl $1, %r12d
	xorl %eax, %eax
	jmp .LBB72_22
.LBB72_20:
	movq 28(%rcx), %xmm2
	movups 36(%rcx), %xmm0
	movups 52(%rcx), %xmm3
	movups 68(%rcx), %xmm4
	movl 84(%rcx), %eax
	movd 24(%rcx), %xmm1
	movl %eax, 80(%rsp)
	movaps %xmm4, 64(%rsp)
	movaps %xmm3, 48(%rsp)
	psllq $32, %xmm1
	punpcklqdq %xmm2, %xmm1
	movabsq $2305843009213693951, %rax
	movq $-1, %r14
	xorl %r12d, %r12d
.LBB72_22:
	movq %r9, 784(%rsp)
	movq %r10, 792(%rsp)
	movl %r12d, 800(%rsp)
	movdqu %xmm1, 804(%rsp)
	movups %xmm0, 820(%rsp)
	movaps 48(%rsp), %xmm0
	movaps 64(%rsp), %xmm1
	movups %xmm0, 836(%rsp)
	movups %xmm1, 852(%rsp)
	movl 80(%rsp), %r12d
	movl %r12d, 868(%rsp)
	addq %r8, %r9
	adcq $0, %r10
	movq $-1, %r12
	cmovbq %r12, %r10
	cmovbq %r12, %r9
	movb %dil, 872(%rsp)
	cmpq %r9, %r14
	sbbq %r10, %rax
	jae .LBB72_23
.LBB72_27:
	movl $8, %eax
.LBB72_28:
	movaps 912(%rsp), %xmm6
	addq $936, %rsp
	popq %rbx
	popq %rbp
	popq %rdi
	popq %rsi
	popq %r12
	popq %r13
	popq %r14
	popq %r15
	retq
.LBB72_23:
	movb %bl, %r11b
	shll $12, %r11d
	addq %r11, %rdx
	movq %rdx, %rbx
	movq %rcx, %r13
	leaq 88(%rcx), %rdx
	xorps %xmm6, %xmm6
	movaps %xmm6, 400(%rsp)
	movaps %xmm6, 416(%rsp)
	movaps %xmm6, 432(%rsp)
	movaps %xmm6, 448(%rsp)
	movaps %xmm6, 528(%rsp)
	movaps %xmm6, 544(%rsp)
	movaps %xmm6, 560(%rsp)
	movaps %xmm6, 576(%rsp)
	movaps %xmm6, 592(%rsp)
	movaps %xmm6, 608(%rsp)
	movaps %xmm6, 624(%rsp)
	movaps %xmm6, 640(%rsp)
	movaps %xmm6, 656(%rsp)
	movaps %xmm6, 672(%rsp)
	movaps %xmm6, 688(%rsp)
	movaps %xmm6, 704(%rsp)
	movaps %xmm6, 720(%rsp)
	movaps %xmm6, 736(%rsp)
	movaps %xmm6, 752(%rsp)
	movaps %xmm6, 768(%rsp)
	leaq 528(%rsp), %r14
	movq %r14, 40(%rsp)
	movq %r10, 32(%rsp)
	movl %edi, %ecx
	callq ring.digest.block_context.write_tail
	leaq 880(%rsp), %r12
	movq %r12, 32(%rsp)
	leaq 400(%rsp), %rcx
	leaq 784(%rsp), %rdx
	movq %r14, %r8
	movq %rax, %r9
	callq ring.digest.block_context.BlockContext.output_after
	movaps 400(%rsp), %xmm0
	movaps 416(%rsp), %xmm1
	movaps 432(%rsp), %xmm2
	movaps 448(%rsp), %xmm3
	movaps %xmm0, 224(%rsp)
	movaps %xmm1, 240(%rsp)
	movaps %xmm2, 256(%rsp)
	movaps %xmm3, 272(%rsp)
	movb %dil, 288(%rsp)
	testb %bpl, %bpl
	movl $64, %eax
	movl $128, %r9d
	cmovneq %rax, %r9
	je .LBB72_24
	movaps %xmm6, 112(%rsp)
	movaps %xmm6, 96(%rsp)
	movl $0, 128(%rsp)
	movups 216(%r13), %xmm1
	movups 232(%r13), %xmm0
	shufps $136, %xmm0, %xmm1
	movups 248(%r13), %xmm0
	movups 264(%r13), %xmm2
	shufps $136, %xmm2, %xmm0
	movl $1, %eax
	jmp .LBB72_26
.LBB72_24:
	movq 220(%r13), %xmm2
	movups 228(%r13), %xmm0
	movups 244(%r13), %xmm3
	movups 260(%r13), %xmm4
	movl 276(%r13), %eax
	movd 216(%r13), %xmm1
	movl %eax, 128(%rsp)
	movaps %xmm4, 112(%rsp)
	movaps %xmm3, 96(%rsp)
	psllq $32, %xmm1
	punpcklqdq %xmm2, %xmm1
	xorl %eax, %eax
.LBB72_26:
	movq %r9, 304(%rsp)
	movq $0, 312(%rsp)
	movl %eax, 320(%rsp)
	movdqu %xmm1, 324(%rsp)
	movups %xmm0, 340(%rsp)
	movaps 96(%rsp), %xmm0
	movaps 112(%rsp), %xmm1
	movups %xmm0, 356(%rsp)
	movups %xmm1, 372(%rsp)
	movl 128(%rsp), %eax
	movl %eax, 388(%rsp)
	movb %sil, 392(%rsp)
	movzbl %dil, %eax
	movq (%r15,%rax,8), %r8
	xorps %xmm0, %xmm0
	movaps %xmm0, 464(%rsp)
	movaps %xmm0, 480(%rsp)
	movaps %xmm0, 496(%rsp)
	movaps %xmm0, 512(%rsp)
	xorl %eax, %eax
	addq %r8, %r9
	setb %al
	movaps %xmm0, 528(%rsp)
	movaps %xmm0, 544(%rsp)
	movaps %xmm0, 560(%rsp)
	movaps %xmm0, 576(%rsp)
	movaps %xmm0, 592(%rsp)
	movaps %xmm0, 608(%rsp)
	movaps %xmm0, 624(%rsp)
	movaps %xmm0, 640(%rsp)
	movaps %xmm0, 656(%rsp)
	movaps %xmm0, 672(%rsp)
	movaps %xmm0, 688(%rsp)
	movaps %xmm0, 704(%rsp)
	movaps %xmm0, 720(%rsp)
	movaps %xmm0, 736(%rsp)
	movaps %xmm0, 752(%rsp)
	movaps %xmm0, 768(%rsp)
	movq %r14, 40(%rsp)
	movq %rax, 32(%rsp)
	leaq 224(%rsp), %rdx
	movl %esi, %ecx
	callq ring.digest.block_context.write_tail
	movq %r12, 32(%rsp)
	leaq 464(%rsp), %rcx
	leaq 304(%rsp), %rdx
	movq %r14, %r8
	movq %rax, %r9
	callq ring.digest.block_context.BlockContext.output_after
	movaps 464(%rsp), %xmm0
	movaps 480(%rsp), %xmm1
	movdqa 496(%rsp), %xmm2
	movaps 512(%rsp), %xmm3
	movaps %xmm0, 144(%rsp)
	movaps %xmm1, 160(%rsp)
	movdqa %xmm2, 176(%rsp)
	movaps %xmm3, 192(%rsp)
	movb %sil, 208(%rsp)
	movzbl %sil, %eax
	movq (%r15,%rax,8), %r8
	leaq 144(%rsp), %rdx
	movq %rbx, %rcx
	callq memcpy
	xorl %eax, %eax
	jmp .LBB72_28
	.section .rdata,"dr"
	.p2align 2, 0x0
.LJTI72_0:
	.long .LBB72_10-.LJTI72_0
	.long .LBB72_7-.LJTI72_0
	.long .LBB72_6-.LJTI72_0
	.long .LBB72_8-.LJTI72_0
	.long .LBB72_9-.LJTI72_0
.LJTI72_1:
	.long .LBB72_17-.LJTI72_1
	.long .LBB72_14-.LJTI72_1
	.long .LBB72_13-.LJTI72_1
	.long .LBB72_15-.LJTI72_1
	.long .LBB72_16-.LJTI72_1
	.text
	.seh_endproc
	.globl yz_hmac_init
	.p2align 4
yz_hmac_init:
.seh_proc yz_hmac_init
	subq $200, %rsp
	.seh_stackalloc 200
	movaps %xmm8, 176(%rsp)
	.seh_savexmm %xmm8, 176
	movaps %xmm7, 160(%rsp)
	.seh_savexmm %xmm7, 160
	movaps %xmm6, 144(%rsp)
	.seh_savexmm %xmm6, 144
	.seh_endprologue
	movl (%rcx), %r8d
	movl $2, %eax
	decl %r8d
	cmpl $4, %r8d
	ja .LBB73_9
	leaq .LJTI73_0(%rip), %r9
	movslq (%r9,%r8,4), %r8
	addq %r9, %r8
	jmpq *%r8
.LBB73_6:
	xorl %eax, %eax
	jmp .LBB73_7
.LBB73_4:
	movl $4, %eax
	jmp .LBB73_5
.LBB73_3:
	movl $3, %eax
.LBB73_5:
	movups 8(%rcx), %xmm4
	movups 24(%rcx), %xmm5
	movups 40(%rcx), %xmm6
	movups 56(%rcx), %xmm7
	movups 72(%rcx), %xmm0
	movups 88(%rcx), %xmm1
	movups 104(%rcx), %xmm2
	movups 120(%rcx), %xmm3
	xorps %xmm8, %xmm8
	movaps %xmm8, 112(%rsp)
	movaps %xmm8, 96(%rsp)
	movaps %xmm8, 80(%rsp)
	movaps %xmm8, 64(%rsp)
	movaps %xmm8, 48(%rsp)
	movaps %xmm8, 32(%rsp)
	movaps %xmm8, 16(%rsp)
	movaps %xmm8, (%rsp)
	movq $0, 127(%rsp)
	movl $128, %ecx
	jmp .LBB73_8
.LBB73_2:
	movl $1, %eax
.LBB73_7:
	movups 8(%rcx), %xmm4
	movups 24(%rcx), %xmm5
	movups 40(%rcx), %xmm6
	movups 56(%rcx), %xmm7
	movups 72(%rcx), %xmm0
	movups 88(%rcx), %xmm1
	movups 104(%rcx), %xmm2
	movups 120(%rcx), %xmm3
	xorps %xmm8, %xmm8
	movaps %xmm8, 112(%rsp)
	movaps %xmm8, 96(%rsp)
	movaps %xmm8, 80(%rsp)
	movaps %xmm8, 64(%rsp)
	movaps %xmm8, 48(%rsp)
	movaps %xmm8, 32(%rsp)
	movaps %xmm8, 16(%rsp)
	movaps %xmm8, (%rsp)
	movq $0, 127(%rsp)
	blendps $10, %xmm8, %xmm4
	blendps $10, %xmm8, %xmm5
	blendps $10, %xmm8, %xmm6
	blendps $10, %xmm8, %xmm7
	blendps $10, %xmm8, %xmm0
	blendps $10, %xmm8, %xmm1
	blendps $10, %xmm8, %xmm2
	blendps $10, %xmm8, %xmm3
	movl $64, %ecx
.LBB73_8:
	incl %eax
	movl %eax, (%rdx)
	movl $0, 4(%rdx)
	movq %rcx, 8(%rdx)
	movq $0, 16(%rdx)
	movups %xmm4, 24(%rdx)
	movups %xmm5, 40(%rdx)
	movups %xmm6, 56(%rdx)
	movups %xmm7, 72(%rdx)
	movups 7(%rsp), %xmm4
	movups 23(%rsp), %xmm5
	movups 39(%rsp), %xmm6
	movups 55(%rsp), %xmm7
	movups %xmm4, 88(%rdx)
	movups %xmm5, 104(%rdx)
	movups %xmm6, 120(%rdx)
	movups %xmm7, 136(%rdx)
	movups 71(%rsp), %xmm4
	movups %xmm4, 152(%rdx)
	movups 87(%rsp), %xmm4
	movups %xmm4, 168(%rdx)
	movups 103(%rsp), %xmm4
	movups %xmm4, 184(%rdx)
	movups 119(%rsp), %xmm4
	movups %xmm4, 200(%rdx)
	movups %xmm0, 216(%rdx)
	movups %xmm1, 232(%rdx)
	movups %xmm2, 248(%rdx)
	movups %xmm3, 264(%rdx)
	xorl %eax, %eax
.LBB73_9:
	movaps 144(%rsp), %xmm6
	movaps 160(%rsp), %xmm7
	movaps 176(%rsp), %xmm8
	addq $200, %rsp
	retq
	.section .rdata,"dr"
	.p2align 2, 0x0
.LJTI73_0:
	.long .LBB73_6-.LJTI73_0
	.long .LBB73_2-.LJTI73_0
	.long .LBB73_5-.LJTI73_0
	.long .LBB73_3-.LJTI73_0
	.long .LBB73_4-.LJTI73_0
	.text
	.seh_endproc
	.globl v2_yz_hmac_key_init
	.p2align 4
v2_yz_hmac_key_init:
.seh_proc v2_yz_hmac_key_init
	pushq %r15
	.seh_pushreg %r15
	pushq %r14
	.seh_pushreg %r14
	pushq %r13
	.seh_pushreg %r13
	pushq %r12
	.seh_pushreg %r12
	pushq %rsi
	.seh_pushreg %rsi
	pushq %rdi
	.seh_pushreg %rdi
	pushq %rbp
	.seh_pushreg %rbp
	pushq %rbx
	.seh_pushreg %rbx
	subq $328, %rsp
	.seh_stackalloc 328
	.seh_endprologue
	movl %ecx, %r10d
	decl %r10d
	movl $1, %eax
	cmpl $3, %r10d
	ja .LBB74_9
	movq %r9, %rsi
	movq %r8, %r9
	xorl %r8d, %r8d
	testq %rdx, %rdx
	sete %r8b
	shll $12, %r8d
	addq %rdx, %r8
	xorps %xmm0, %xmm0
	movaps %xmm0, 80(%rsp)
	movaps %xmm0, 96(%rsp)
	movaps %xmm0, 112(%rsp)
	movaps %xmm0, 128(%rsp)
	movaps %xmm0, 144(%rsp)
	movaps %xmm0, 160(%rsp)
	movaps %xmm0, 176(%rsp)
	movaps %xmm0, 192(%rsp)
	movaps %xmm0, 208(%rsp)
	movaps %xmm0, 224(%rsp)
	movaps %xmm0, 240(%rsp)
	movaps %xmm0, 256(%rsp)
	movaps %xmm0, 272(%rsp)
	movaps %xmm0, 288(%rsp)
	movaps %xmm0, 304(%rsp)
	leaq 288(%rsp), %rax
	movq %rax, 32(%rsp)
	leaq 80(%rsp), %rcx
	movl %r10d, %edx
	callq ring.hmac.key.Key.new_counted
	cmpb $0, 80(%rsp)
	movl $8, %eax
	jne .LBB74_9
	movq 120(%rsp), %rcx
	movq 128(%rsp), %r9
	movq 136(%rsp), %rdx
	movq 144(%rsp), %r10
	movzbl 208(%rsp), %ebp
	cmpb $0, 112(%rsp)
	je .LBB74_3
	movq %rdx, %r8
	movq %r9, %rdi
	movl %r10d, %eax
	movq %rax, 72(%rsp)
	movl %r9d, %r10d
	movl %ecx, %r9d
	movl %edx, %eax
	movq %rax, 64(%rsp)
	movl 116(%rsp), %eax
	shrq $32, %r8
	shrq $32, %rdi
	shrq $32, %rcx
	movq %rcx, %rdx
	movq %rax, %rcx
	jmp .LBB74_5
.LBB74_3:
	movq 152(%rsp), %rdi
	movq 160(%rsp), %rax
	movq %rax, 64(%rsp)
	movq 168(%rsp), %r8
	movq 176(%rsp), %rax
	movq %rax, 72(%rsp)
.LBB74_5:
	movq 216(%rsp), %rbx
	movq 224(%rsp), %r15
	movq 232(%rsp), %r14
	movzbl 184(%rsp), %r13d
	movq 240(%rsp), %r11
	testb %bpl, %bpl
	je .LBB74_6
	movq %r15, %rbp
	movq %r14, %r12
	movl %r11d, %eax
	movq %rax, 56(%rsp)
	movl %r15d, %r11d
	movl %ebx, %r15d
	movl %r14d, %eax
	movq %rax, 48(%rsp)
	movq %rdx, %rax
	movq %rcx, %rdx
	movq %r10, %rcx
	movq %rdi, %r10
	movq %r8, %rdi
	movl 212(%rsp), %r8d
	shrq $32, %rbx
	shrq $32, %rbp
	shrq $32, %r12
	movq %rbx, %r14
	movq %r8, %rbx
	movq %rdi, %r8
	movq %r10, %rdi
	movq %rcx, %r10
	movq %rdx, %rcx
	movq %rax, %rdx
	jmp .LBB74_8
.LBB74_6:
	movq 248(%rsp), %rbp
	movq 256(%rsp), %rax
	movq %rax, 48(%rsp)
	movq 264(%rsp), %r12
	movq 272(%rsp), %rax
	movq %rax, 56(%rsp)
.LBB74_8:
	incl %r13d
	movl %r13d, (%rsi)
	movl $0, 4(%rsi)
	movq %rcx, 8(%rsi)
	movq %r9, 16(%rsi)
	movq %rdx, 24(%rsi)
	movq %r10, 32(%rsi)
	movq %rdi, 40(%rsi)
	movq 64(%rsp), %rax
	movq %rax, 48(%rsi)
	movq %r8, 56(%rsi)
	movq 72(%rsp), %rax
	movq %rax, 64(%rsi)
	movq %rbx, 72(%rsi)
	movq %r15, 80(%rsi)
	movq %r14, 88(%rsi)
	movq %r11, 96(%rsi)
	movq %rbp, 104(%rsi)
	movq 48(%rsp), %rax
	movq %rax, 112(%rsi)
	movq %r12, 120(%rsi)
	movq 56(%rsp), %rax
	movq %rax, 128(%rsi)
	xorl %eax, %eax
.LBB74_9:
	addq $328, %rsp
	popq %rbx
	popq %rbp
	popq %rdi
	popq %rsi
	popq %r12
	popq %r13
	popq %r14
	popq %r15
	retq
	.seh_endproc
	.globl v2_yz_hmac_key_sign
	.p2align 4
v2_yz_hmac_key_sign:
.seh_proc v2_yz_hmac_key_sign
	pushq %r14
	.seh_pushreg %r14
	pushq %rsi
	.seh_pushreg %rsi
	pushq %rdi
	.seh_pushreg %rdi
	pushq %rbp
	.seh_pushreg %rbp
	pushq %rbx
	.seh_pushreg %rbx
	subq $544, %rsp
	.seh_stackalloc 544
	movaps %xmm6, 528(%rsp)
	.seh_savexmm %xmm6, 528
	.seh_endprologue
	movq %r8, %r10
	movq %rdx, %r8
	xorl %edx, %edx
	testq %r8, %r8
	sete %r11b
	xorl %esi, %esi
	testq %r9, %r9
	sete %bl
	movl (%rcx), %eax
	decl %eax
	cmpl $4, %eax
	ja .LBB75_1
	movq 624(%rsp), %rdi
	leaq .LJTI75_0(%rip), %r14
	movslq (%r14,%rax,4), %rax
	addq %r14, %rax
	jmpq *%rax
.LBB75_8:
	xorl %eax, %eax
	jmp .LBB75_9
.LBB75_6:
	movb $4, %al
	jmp .LBB75_7
.LBB75_3:
	movb $2, %al
	jmp .LBB75_7
.LBB75_5:
	movb $3, %al
.LBB75_7:
	movq 12(%rcx), %xmm3
	movups 20(%rcx), %xmm0
	movups 36(%rcx), %xmm4
	movups 52(%rcx), %xmm5
	movl 68(%rcx), %ebp
	pxor %xmm2, %xmm2
	pxor %xmm1, %xmm1
	pinsrd $1, 8(%rcx), %xmm1
	punpcklqdq %xmm3, %xmm1
	movl %ebp, 80(%rsp)
	movaps %xmm5, 64(%rsp)
	movaps %xmm4, 48(%rsp)
	movq 76(%rcx), %xmm4
	movups 84(%rcx), %xmm3
	movups 100(%rcx), %xmm5
	movups 116(%rcx), %xmm6
	movl 132(%rcx), %ebp
	pinsrd $1, 72(%rcx), %xmm2
	punpcklqdq %xmm4, %xmm2
	movl %ebp, 128(%rsp)
	movaps %xmm6, 112(%rsp)
	movaps %xmm5, 96(%rsp)
	movl $128, %r14d
	xorl %ecx, %ecx
	jmp .LBB75_10
.LBB75_4:
	movb $1, %al
.LBB75_9:
	movups 8(%rcx), %xmm1
	movups 24(%rcx), %xmm0
	shufps $136, %xmm0, %xmm1
	movups 40(%rcx), %xmm0
	movups 56(%rcx), %xmm2
	shufps $136, %xmm2, %xmm0
	xorps %xmm2, %xmm2
	movaps %xmm2, 64(%rsp)
	movaps %xmm2, 48(%rsp)
	movl $0, 80(%rsp)
	movaps %xmm2, 112(%rsp)
	movaps %xmm2, 96(%rsp)
	movl $0, 128(%rsp)
	movups 72(%rcx), %xmm2
	movups 88(%rcx), %xmm3
	shufps $136, %xmm3, %xmm2
	movups 104(%rcx), %xmm3
	movups 120(%rcx), %xmm4
	shufps $136, %xmm4, %xmm3
	movl $64, %r14d
	movl $1, %ecx
.LBB75_10:
	movq %r14, 224(%rsp)
	movq $0, 232(%rsp)
	movl %ecx, 240(%rsp)
	movdqu %xmm1, 244(%rsp)
	movups %xmm0, 260(%rsp)
	movaps 48(%rsp), %xmm0
	movaps 64(%rsp), %xmm1
	movups %xmm0, 276(%rsp)
	movups %xmm1, 292(%rsp)
	movl 80(%rsp), %ebp
	movl %ebp, 308(%rsp)
	movb %al, 312(%rsp)
	movl $0, 313(%rsp)
	movl $0, 316(%rsp)
	movq %r14, 320(%rsp)
	movq $0, 328(%rsp)
	movl %ecx, 336(%rsp)
	movdqu %xmm2, 340(%rsp)
	movups %xmm3, 356(%rsp)
	movl 128(%rsp), %ecx
	movl %ecx, 404(%rsp)
	movaps 96(%rsp), %xmm0
	movaps 112(%rsp), %xmm1
	movups %xmm1, 388(%rsp)
	movups %xmm0, 372(%rsp)
	movb %al, 408(%rsp)
	movl $0, 409(%rsp)
	movl $0, 412(%rsp)
	movzbl %al, %ecx
	leaq .Lswitch.table.v2_yz_webhook_verify_stripe(%rip), %r14
	movl $4, %eax
	cmpq (%r14,%rcx,8), %rdi
	jne .LBB75_13
	movq %r9, %rdi
	movb %r11b, %dl
	shll $12, %edx
	addq %rdx, %r8
	xorps %xmm0, %xmm0
	movaps %xmm0, 144(%rsp)
	movaps %xmm0, 160(%rsp)
	movaps %xmm0, 176(%rsp)
	movaps %xmm0, 192(%rsp)
	movw $0, 208(%rsp)
	movaps %xmm0, 496(%rsp)
	movaps %xmm0, 512(%rsp)
	leaq 496(%rsp), %rax
	movq %rax, 32(%rsp)
	leaq 144(%rsp), %rcx
	leaq 224(%rsp), %rdx
	movq %r10, %r9
	callq ring.hmac.sign_counted
	movups 145(%rsp), %xmm0
	movups 161(%rsp), %xmm1
	movdqu 177(%rsp), %xmm2
	movups 193(%rsp), %xmm3
	movaps %xmm0, 416(%rsp)
	movaps %xmm1, 432(%rsp)
	movdqa %xmm2, 448(%rsp)
	movaps %xmm3, 464(%rsp)
	movzbl 209(%rsp), %eax
	movb %al, 480(%rsp)
	cmpb $0, 144(%rsp)
	movl $8, %eax
	jne .LBB75_13
	movb %bl, %sil
	shll $12, %esi
	movq %rdi, %rcx
	addq %rsi, %rcx
	movzbl 480(%rsp), %eax
	movq (%r14,%rax,8), %r8
	leaq 416(%rsp), %rdx
	callq memcpy
	xorl %eax, %eax
	jmp .LBB75_13
.LBB75_1:
	movl $2, %eax
.LBB75_13:
	movaps 528(%rsp), %xmm6
	addq $544, %rsp
	popq %rbx
	popq %rbp
	popq %rdi
	popq %rsi
	popq %r14
	retq
	.section .rdata,"dr"
	.p2align 2, 0x0
.LJTI75_0:
	.long .LBB75_8-.LJTI75_0
	.long .LBB75_4-.LJTI75_0
	.long .LBB75_3-.LJTI75_0
	.long .LBB75_5-.LJTI75_0
	.long .LBB75_6-.LJTI75_0
	.text
	.seh_endproc
	.globl v2_yz_hmac_key_verify
	.p2align 4
v2_yz_hmac_key_verify:
.seh_proc v2_yz_hmac_key_verify
	pushq %rsi
	.seh_pushreg %rsi
	pushq %rdi
	.seh_pushreg %rdi
	pushq %rbx
	.seh_pushreg %rbx
	subq $544, %rsp
	.seh_stackalloc 544
	movaps %xmm6, 528(%rsp)
	.seh_savexmm %xmm6, 528
	.seh_endprologue
	movq %r9, %rsi
	movq %r8, %r9
	movq %rdx, %r8
	xorl %eax, %eax
	testq %rdx, %rdx
	sete %r10b
	xorl %edi, %edi
	testq %rsi, %rsi
	sete %bl
	movl (%rcx), %edx
	decl %edx
	cmpl $4, %edx
	ja .LBB76_1
	movb %r10b, %al
	shll $12, %eax
	addq %rax, %r8
	leaq .LJTI76_0(%rip), %rax
	movslq (%rax,%rdx,4), %rdx
	addq %rax, %rdx
	jmpq *%rdx
.LBB76_8:
	xorl %eax, %eax
	jmp .LBB76_9
.LBB76_6:
	movb $4, %al
	jmp .LBB76_7
.LBB76_3:
	movb $2, %al
	jmp .LBB76_7
.LBB76_5:
	movb $3, %al
.LBB76_7:
	movq 12(%rcx), %xmm3
	movups 20(%rcx), %xmm0
	movups 36(%rcx), %xmm4
	movups 52(%rcx), %xmm5
	movl 68(%rcx), %edx
	pxor %xmm2, %xmm2
	pxor %xmm1, %xmm1
	pinsrd $1, 8(%rcx), %xmm1
	punpcklqdq %xmm3, %xmm1
	movl %edx, 80(%rsp)
	movaps %xmm5, 64(%rsp)
	movaps %xmm4, 48(%rsp)
	movq 76(%rcx), %xmm4
	movups 84(%rcx), %xmm3
	movups 100(%rcx), %xmm5
	movups 116(%rcx), %xmm6
	movl 132(%rcx), %edx
	pinsrd $1, 72(%rcx), %xmm2
	punpcklqdq %xmm4, %xmm2
	movl %edx, 128(%rsp)
	movaps %xmm6, 112(%rsp)
	movaps %xmm5, 96(%rsp)
	movl $128, %edx
	xorl %ecx, %ecx
	jmp .LBB76_10
.LBB76_4:
	movb $1, %al
.LBB76_9:
	movups 8(%rcx), %xmm1
	movups 24(%rcx), %xmm0
	shufps $136, %xmm0, %xmm1
	movups 40(%rcx), %xmm0
	movups 56(%rcx), %xmm2
	shufps $136, %xmm2, %xmm0
	xorps %xmm2, %xmm2
	movaps %xmm2, 64(%rsp)
	movaps %xmm2, 48(%rsp)
	movl $0, 80(%rsp)
	movaps %xmm2, 112(%rsp)
	movaps %xmm2, 96(%rsp)
	movl $0, 128(%rsp)
	movups 72(%rcx), %xmm2
	movups 88(%rcx), %xmm3
	shufps $136, %xmm3, %xmm2
	movups 104(%rcx), %xmm3
	movups 120(%rcx), %xmm4
	shufps $136, %xmm4, %xmm3
	movl $64, %edx
	movl $1, %ecx
.LBB76_10:
	movq %rdx, 304(%rsp)
	movq $0, 312(%rsp)
	movl %ecx, 320(%rsp)
	movdqu %xmm1, 324(%rsp)
	movups %xmm0, 340(%rsp)
	movaps 48(%rsp), %xmm0
	movaps 64(%rsp), %xmm1
	movups %xmm0, 356(%rsp)
	movups %xmm1, 372(%rsp)
	movl 80(%rsp), %r10d
	movl %r10d, 388(%rsp)
	movb %al, 392(%rsp)
	movl $0, 393(%rsp)
	movl $0, 396(%rsp)
	movq %rdx, 400(%rsp)
	movq $0, 408(%rsp)
	movl %ecx, 416(%rsp)
	movdqu %xmm2, 420(%rsp)
	movups %xmm3, 436(%rsp)
	movl 128(%rsp), %ecx
	movl %ecx, 484(%rsp)
	movdqa 96(%rsp), %xmm0
	movdqa 112(%rsp), %xmm1
	movdqu %xmm1, 468(%rsp)
	movdqu %xmm0, 452(%rsp)
	movb %al, 488(%rsp)
	movl $0, 489(%rsp)
	movl $0, 492(%rsp)
	pxor %xmm0, %xmm0
	movdqa %xmm0, 512(%rsp)
	movdqa %xmm0, 496(%rsp)
	movdqa %xmm0, 192(%rsp)
	movdqa %xmm0, 176(%rsp)
	movdqa %xmm0, 160(%rsp)
	movdqa %xmm0, 144(%rsp)
	movw $0, 208(%rsp)
	leaq 496(%rsp), %rax
	movq %rax, 32(%rsp)
	leaq 144(%rsp), %rcx
	leaq 304(%rsp), %rdx
	callq ring.hmac.sign_counted
	movl $8, %eax
	cmpb $0, 144(%rsp)
	jne .LBB76_26
	movq 608(%rsp), %rcx
	movdqu 145(%rsp), %xmm0
	movdqu 161(%rsp), %xmm1
	movdqu 177(%rsp), %xmm2
	movdqu 193(%rsp), %xmm3
	movdqa %xmm3, 272(%rsp)
	movdqa %xmm2, 256(%rsp)
	movdqa %xmm1, 240(%rsp)
	movdqa %xmm0, 224(%rsp)
	movzbl 209(%rsp), %edx
	movb %dl, 288(%rsp)
	leaq .Lswitch.table.v2_yz_webhook_verify_stripe(%rip), %r8
	cmpq %rcx, (%r8,%rdx,8)
	jne .LBB76_26
	movb %bl, %dil
	shll $12, %edi
	leaq (%rsi,%rdi), %rax
	cmpq $4, %rcx
	jae .LBB76_15
	xorl %r8d, %r8d
	xorl %edx, %edx
	jmp .LBB76_14
.LBB76_1:
	movl $2, %eax
	jmp .LBB76_26
.LBB76_15:
	cmpq $32, %rcx
	jae .LBB76_17
	xorl %edx, %edx
	xorl %r8d, %r8d
	jmp .LBB76_21
.LBB76_17:
	movq %rcx, %rdx
	andq $-32, %rdx
	leaq (%rdi,%rsi), %r8
	addq $16, %r8
	pxor %xmm0, %xmm0
	xorl %r9d, %r9d
	pxor %xmm1, %xmm1
	.p2align 4
.LBB76_18:
	movdqu 224(%rsp,%r9), %xmm2
	movdqu 240(%rsp,%r9), %xmm3
	movdqu -16(%r8,%r9), %xmm4
	pxor %xmm2, %xmm4
	por %xmm4, %xmm1
	movdqu (%r8,%r9), %xmm2
	pxor %xmm3, %xmm2
	por %xmm2, %xmm0
	addq $32, %r9
	cmpq %r9, %rdx
	jne .LBB76_18
	por %xmm1, %xmm0
	pshufd $238, %xmm0, %xmm1
	por %xmm0, %xmm1
	pshufd $85, %xmm1, %xmm0
	por %xmm1, %xmm0
	movdqa %xmm0, %xmm1
	psrld $16, %xmm1
	por %xmm0, %xmm1
	movdqa %xmm1, %xmm0
	psrlw $8, %xmm0
	por %xmm1, %xmm0
	movd %xmm0, %r8d
	cmpq %rdx, %rcx
	je .LBB76_25
	testb $28, %cl
	je .LBB76_14
.LBB76_21:
	movq %rdx, %r9
	movq %rcx, %rdx
	andq $-4, %rdx
	movzbl %r8b, %r8d
	movd %r8d, %xmm0
	.p2align 4
.LBB76_22:
	movl (%rax,%r9), %r8d
	xorl 224(%rsp,%r9), %r8d
	movd %r8d, %xmm1
	por %xmm1, %xmm0
	addq $4, %r9
	cmpq %r9, %rdx
	jne .LBB76_22
	movdqa %xmm0, %xmm1
	psrld $16, %xmm1
	por %xmm0, %xmm1
	movdqa %xmm1, %xmm0
	psrlw $8, %xmm0
	por %xmm1, %xmm0
	movd %xmm0, %r8d
	jmp .LBB76_24
.LBB76_14:
	movzbl (%rax,%rdx), %r9d
	xorb 224(%rsp,%rdx), %r9b
	orb %r9b, %r8b
	incq %rdx
.LBB76_24:
	cmpq %rdx, %rcx
	jne .LBB76_14
.LBB76_25:
	xorl %eax, %eax
	testb %r8b, %r8b
	setne %al
	shll $3, %eax
.LBB76_26:
	movaps 528(%rsp), %xmm6
	addq $544, %rsp
	popq %rbx
	popq %rdi
	popq %rsi
	retq
	.section .rdata,"dr"
	.p2align 2, 0x0
.LJTI76_0:
	.long .LBB76_8-.LJTI76_0
	.long .LBB76_4-.LJTI76_0
	.long .LBB76_3-.LJTI76_0
	.long .LBB76_5-.LJTI76_0
	.long .LBB76_6-.LJTI76_0
	.text
	.seh_endproc
	.globl v2_yz_hmac_sign
	.p2align 4
v2_yz_hmac_sign:
.seh_proc v2_yz_hmac_sign
	pushq %r15
	.seh_pushreg %r15
	pushq %r14
	.seh_pushreg %r14
	pushq %r13
	.seh_pushreg %r13
	pushq %r12
	.seh_pushreg %r12
	pushq %rsi
	.seh_pushreg %rsi
	pushq %rdi
	.seh_pushreg %rdi
	pushq %rbp
	.seh_pushreg %rbp
	pushq %rbx
	.seh_pushreg %rbx
	subq $680, %rsp
	.seh_stackalloc 680
	movaps %xmm6, 656(%rsp)
	.seh_savexmm %xmm6, 656
	.seh_endprologue
	movq 792(%rsp), %rsi
	xorl %r10d, %r10d
	testq %rdx, %rdx
	sete %r11b
	xorl %r14d, %r14d
	testq %r9, %r9
	sete %r12b
	xorl %r15d, %r15d
	testq %rsi, %rsi
	sete %bpl
	decl %ecx
	movl $1, %eax
	cmpl $3, %ecx
	ja .LBB77_5
	movq 800(%rsp), %rdi
	movl %ecx, %ebx
	leaq .Lswitch.table.v2_yz_tls13_finished_verify(%rip), %r13
	movl $4, %eax
	cmpq (%r13,%rbx,8), %rdi
	jne .LBB77_5
	movb %r11b, %r10b
	shll $12, %r10d
	addq %r10, %rdx
	xorps %xmm6, %xmm6
	movaps %xmm6, 240(%rsp)
	movaps %xmm6, 256(%rsp)
	movaps %xmm6, 272(%rsp)
	movaps %xmm6, 288(%rsp)
	movaps %xmm6, 304(%rsp)
	movaps %xmm6, 320(%rsp)
	movaps %xmm6, 336(%rsp)
	movaps %xmm6, 352(%rsp)
	movaps %xmm6, 368(%rsp)
	movaps %xmm6, 384(%rsp)
	movaps %xmm6, 400(%rsp)
	movaps %xmm6, 416(%rsp)
	movaps %xmm6, 432(%rsp)
	leaq 256(%rsp), %rdi
	movaps %xmm6, 48(%rsp)
	movaps %xmm6, 64(%rsp)
	leaq 48(%rsp), %rax
	movq %rax, 32(%rsp)
	leaq 240(%rsp), %rax
	movl %ecx, %r10d
	movq %rax, %rcx
	movq %rdx, %rax
	movl %r10d, %edx
	movq %r8, %r10
	movq %rax, %r8
	movq %r9, %r13
	movq %r10, %r9
	callq ring.hmac.key.Key.new_counted
	leaq 464(%rsp), %rcx
	movzbl 240(%rsp), %ebx
	movl $192, %r8d
	movq %rdi, %rdx
	callq memcpy
	movl $8, %eax
	testb %bl, %bl
	jne .LBB77_5
	movq %r13, %r9
	movq 784(%rsp), %rdi
	movb %r12b, %r14b
	shll $12, %r14d
	addq %r14, %r9
	leaq 240(%rsp), %r14
	movl $192, %r8d
	movq %r14, %rcx
	leaq 464(%rsp), %rdx
	movq %r9, %rbx
	callq memcpy
	movaps %xmm6, 48(%rsp)
	movaps %xmm6, 64(%rsp)
	movaps %xmm6, 80(%rsp)
	movaps %xmm6, 96(%rsp)
	movw $0, 112(%rsp)
	movaps %xmm6, 208(%rsp)
	movaps %xmm6, 224(%rsp)
	leaq 208(%rsp), %rax
	movq %rax, 32(%rsp)
	leaq 48(%rsp), %rcx
	movq %r14, %rdx
	movq %rbx, %r8
	movq %rdi, %r9
	callq ring.hmac.sign_counted
	movups 49(%rsp), %xmm0
	movups 65(%rsp), %xmm1
	movups 81(%rsp), %xmm2
	movups 97(%rsp), %xmm3
	movaps %xmm0, 128(%rsp)
	movaps %xmm1, 144(%rsp)
	movaps %xmm2, 160(%rsp)
	movaps %xmm3, 176(%rsp)
	movzbl 113(%rsp), %eax
	movb %al, 192(%rsp)
	cmpb $0, 48(%rsp)
	movl $8, %eax
	jne .LBB77_5
	movb %bpl, %r15b
	shll $12, %r15d
	addq %r15, %rsi
	movzbl 192(%rsp), %eax
	leaq .Lswitch.table.v2_yz_webhook_verify_stripe(%rip), %rcx
	movq (%rcx,%rax,8), %r8
	leaq 128(%rsp), %rdx
	movq %rsi, %rcx
	callq memcpy
	xorl %eax, %eax
.LBB77_5:
	movaps 656(%rsp), %xmm6
	addq $680, %rsp
	popq %rbx
	popq %rbp
	popq %rdi
	popq %rsi
	popq %r12
	popq %r13
	popq %r14
	popq %r15
	retq
	.seh_endproc
	.globl v2_yz_hmac_update
	.p2align 4
v2_yz_hmac_update:
.seh_proc v2_yz_hmac_update
	pushq %r14
	.seh_pushreg %r14
	pushq %rsi
	.seh_pushreg %rsi
	pushq %rdi
	.seh_pushreg %rdi
	pushq %rbp
	.seh_pushreg %rbp
	pushq %rbx
	.seh_pushreg %rbx
	subq $64, %rsp
	.seh_stackalloc 64
	.seh_endprologue
	xorl %r11d, %r11d
	testq %rdx, %rdx
	sete %r11b
	shll $12, %r11d
	leaq (%rdx,%r11), %r10
	xorps %xmm0, %xmm0
	movaps %xmm0, 48(%rsp)
	movaps %xmm0, 32(%rsp)
	movl (%rcx), %r9d
	leal -1(%r9), %eax
	cmpl $4, %eax
	ja .LBB78_6
	movl %eax, %esi
	leaq .Lswitch.table.v2_yz_hmac_update(%rip), %rdi
	movq 8(%rcx), %rbx
	movq 16(%rcx), %r14
	movl $2, %eax
	cmpq (%rdi,%rsi,8), %rbx
	sbbq $0, %r14
	jb .LBB78_27
	xorl %eax, %eax
	cmpl $3, %r9d
	setae %al
	shll $6, %eax
	addq $64, %rax
	movl 4(%rcx), %edi
	subq %rdi, %rax
	seta %r9b
	cmpq %r8, %rax
	seta %al
	andb %r9b, %al
	cmpb $1, %al
	jne .LBB78_6
	leaq (%rcx,%rdi), %r9
	addq $88, %r9
	movq %r9, %rax
	subq %r10, %rax
	cmpq %r8, %rax
	jae .LBB78_7
	cmpq $4, %r8
	jb .LBB78_5
	leaq (%rcx,%rdi), %rax
	subq %r10, %rax
	addq $88, %rax
	cmpq $32, %rax
	jae .LBB78_10
.LBB78_5:
	xorl %eax, %eax
.LBB78_19:
	movq %r8, %rbx
	movq %rax, %rsi
	andq $3, %rbx
	je .LBB78_22
	movq %rax, %rsi
	.p2align 4
.LBB78_21:
	movzbl (%r10,%rsi), %ebp
	movb %bpl, (%r9,%rsi)
	incq %rsi
	decq %rbx
	jne .LBB78_21
.LBB78_22:
	subq %r8, %rax
	cmpq $-4, %rax
	ja .LBB78_25
	leaq (%r11,%rdx), %rax
	addq $3, %rax
	leaq (%rdi,%rcx), %rdx
	addq $91, %rdx
	.p2align 4
.LBB78_24:
	movzbl -3(%rax,%rsi), %r9d
	movb %r9b, -3(%rdx,%rsi)
	movzbl -2(%rax,%rsi), %r9d
	movb %r9b, -2(%rdx,%rsi)
	movzbl -1(%rax,%rsi), %r9d
	movb %r9b, -1(%rdx,%rsi)
	movzbl (%rax,%rsi), %r9d
	movb %r9b, (%rdx,%rsi)
	addq $4, %rsi
	cmpq %rsi, %r8
	jne .LBB78_24
	jmp .LBB78_25
.LBB78_6:
	leaq 32(%rsp), %r9
	movq %r10, %rdx
	callq ring.raw.context.RawContext.run
	movl %eax, %ecx
	movl $2, %eax
	testb %cl, %cl
	jne .LBB78_26
	jmp .LBB78_27
.LBB78_7:
	movq %rcx, %rbx
	movq %r9, %rcx
	movq %r10, %rdx
	movq %r8, %rsi
	callq memmove
	movq %rbx, %rcx
	movq %rsi, %r8
.LBB78_25:
	addl %edi, %r8d
	movl %r8d, 4(%rcx)
.LBB78_26:
	xorl %eax, %eax
.LBB78_27:
	addq $64, %rsp
	popq %rbx
	popq %rbp
	popq %rdi
	popq %rsi
	popq %r14
	retq
.LBB78_10:
	cmpq $32, %r8
	jae .LBB78_12
	xorl %eax, %eax
	jmp .LBB78_16
.LBB78_12:
	movq %r8, %rax
	andq $-32, %rax
	leaq (%r11,%rdx), %rsi
	addq $16, %rsi
	leaq (%rdi,%rcx), %rbx
	addq $104, %rbx
	xorl %r14d, %r14d
	.p2align 4
.LBB78_13:
	movups -16(%rsi,%r14), %xmm0
	movups (%rsi,%r14), %xmm1
	movups %xmm0, -16(%rbx,%r14)
	movups %xmm1, (%rbx,%r14)
	addq $32, %r14
	cmpq %r14, %rax
	jne .LBB78_13
	cmpq %rax, %r8
	je .LBB78_25
	testb $28, %r8b
	je .LBB78_19
.LBB78_16:
	movq %rax, %rsi
	movq %r8, %rax
	andq $-4, %rax
	.p2align 4
.LBB78_17:
	movl (%r10,%rsi), %ebx
	movl %ebx, (%r9,%rsi)
	addq $4, %rsi
	cmpq %rsi, %rax
	jne .LBB78_17
	cmpq %rax, %r8
	je .LBB78_25
	jmp .LBB78_19
	.seh_endproc
	.globl v2_yz_hmac_verify
	.p2align 4
v2_yz_hmac_verify:
.seh_proc v2_yz_hmac_verify
	pushq %r15
	.seh_pushreg %r15
	pushq %r14
	.seh_pushreg %r14
	pushq %r13
	.seh_pushreg %r13
	pushq %r12
	.seh_pushreg %r12
	pushq %rsi
	.seh_pushreg %rsi
	pushq %rdi
	.seh_pushreg %rdi
	pushq %rbp
	.seh_pushreg %rbp
	pushq %rbx
	.seh_pushreg %rbx
	subq $680, %rsp
	.seh_stackalloc 680
	movaps %xmm6, 656(%rsp)
	.seh_savexmm %xmm6, 656
	.seh_endprologue
	movq %r9, %rsi
	movl %ecx, %r10d
	movq 792(%rsp), %r12
	xorl %r14d, %r14d
	testq %r9, %r9
	sete %r13b
	testq %r12, %r12
	sete %bpl
	decl %r10d
	movl $1, %eax
	cmpl $3, %r10d
	ja .LBB79_18
	movq %r8, %r9
	xorl %r8d, %r8d
	testq %rdx, %rdx
	sete %r8b
	shll $12, %r8d
	addq %rdx, %r8
	xorps %xmm6, %xmm6
	movaps %xmm6, 240(%rsp)
	movaps %xmm6, 256(%rsp)
	movaps %xmm6, 272(%rsp)
	movaps %xmm6, 288(%rsp)
	movaps %xmm6, 304(%rsp)
	movaps %xmm6, 320(%rsp)
	movaps %xmm6, 336(%rsp)
	movaps %xmm6, 352(%rsp)
	movaps %xmm6, 368(%rsp)
	movaps %xmm6, 384(%rsp)
	movaps %xmm6, 400(%rsp)
	movaps %xmm6, 416(%rsp)
	movaps %xmm6, 432(%rsp)
	leaq 256(%rsp), %rdi
	movaps %xmm6, 48(%rsp)
	movaps %xmm6, 64(%rsp)
	leaq 48(%rsp), %rax
	movq %rax, 32(%rsp)
	leaq 240(%rsp), %rcx
	movl %r10d, %edx
	callq ring.hmac.key.Key.new_counted
	leaq 464(%rsp), %rbx
	movzbl 240(%rsp), %r15d
	movl $192, %r8d
	movq %rbx, %rcx
	movq %rdi, %rdx
	callq memcpy
	movl $8, %eax
	testb %r15b, %r15b
	movq %r12, %r15
	movl $0, %r12d
	jne .LBB79_18
	movq 784(%rsp), %rdi
	movb %r13b, %r14b
	shll $12, %r14d
	addq %r14, %rsi
	leaq 240(%rsp), %r14
	movl $192, %r8d
	movq %r14, %rcx
	movq %rbx, %rdx
	callq memcpy
	movaps %xmm6, 224(%rsp)
	movaps %xmm6, 208(%rsp)
	movaps %xmm6, 96(%rsp)
	movaps %xmm6, 80(%rsp)
	movaps %xmm6, 64(%rsp)
	movaps %xmm6, 48(%rsp)
	movw $0, 112(%rsp)
	leaq 208(%rsp), %rax
	movq %rax, 32(%rsp)
	leaq 48(%rsp), %rcx
	movq %r14, %rdx
	movq %rsi, %r8
	movq %rdi, %r9
	callq ring.hmac.sign_counted
	movl $8, %eax
	cmpb $0, 48(%rsp)
	jne .LBB79_18
	movq 800(%rsp), %rcx
	movdqu 49(%rsp), %xmm0
	movdqu 65(%rsp), %xmm1
	movdqu 81(%rsp), %xmm2
	movdqu 97(%rsp), %xmm3
	movdqa %xmm3, 176(%rsp)
	movdqa %xmm2, 160(%rsp)
	movdqa %xmm1, 144(%rsp)
	movdqa %xmm0, 128(%rsp)
	movzbl 113(%rsp), %edx
	movb %dl, 192(%rsp)
	leaq .Lswitch.table.v2_yz_webhook_verify_stripe(%rip), %r8
	cmpq %rcx, (%r8,%rdx,8)
	jne .LBB79_18
	movb %bpl, %r12b
	shll $12, %r12d
	leaq (%r15,%r12), %rax
	cmpq $4, %rcx
	jae .LBB79_7
	xorl %r8d, %r8d
	xorl %edx, %edx
	jmp .LBB79_6
.LBB79_7:
	cmpq $32, %rcx
	jae .LBB79_9
	xorl %edx, %edx
	xorl %r8d, %r8d
	jmp .LBB79_13
.LBB79_9:
	movq %rcx, %rdx
	andq $-32, %rdx
	leaq (%r12,%r15), %r8
	addq $16, %r8
	pxor %xmm0, %xmm0
	xorl %r9d, %r9d
	pxor %xmm1, %xmm1
	.p2align 4
.LBB79_10:
	movdqu 128(%rsp,%r9), %xmm2
	movdqu 144(%rsp,%r9), %xmm3
	movdqu -16(%r8,%r9), %xmm4
	pxor %xmm2, %xmm4
	por %xmm4, %xmm1
	movdqu (%r8,%r9), %xmm2
	pxor %xmm3, %xmm2
	por %xmm2, %xmm0
	addq $32, %r9
	cmpq %r9, %rdx
	jne .LBB79_10
	por %xmm1, %xmm0
	pshufd $238, %xmm0, %xmm1
	por %xmm0, %xmm1
	pshufd $85, %xmm1, %xmm0
	por %xmm1, %xmm0
	movdqa %xmm0, %xmm1
	psrld $16, %xmm1
	por %xmm0, %xmm1
	movdqa %xmm1, %xmm0
	psrlw $8, %xmm0
	por %xmm1, %xmm0
	movd %xmm0, %r8d
	cmpq %rdx, %rcx
	je .LBB79_17
	testb $28, %cl
	je .LBB79_6
.LBB79_13:
	movq %rdx, %r9
	movq %rcx, %rdx
	andq $-4, %rdx
	movzbl %r8b, %r8d
	movd %r8d, %xmm0
	.p2align 4
.LBB79_14:
	movl (%rax,%r9), %r8d
	xorl 128(%rsp,%r9), %r8d
	movd %r8d, %xmm1
	por %xmm1, %xmm0
	addq $4, %r9
	cmpq %r9, %rdx
	jne .LBB79_14
	movdqa %xmm0, %xmm1
	psrld $16, %xmm1
	por %xmm0, %xmm1
	movdqa %xmm1, %xmm0
	psrlw $8, %xmm0
	por %xmm1, %xmm0
	movd %xmm0, %r8d
	jmp .LBB79_16
.LBB79_6:
	movzbl (%rax,%rdx), %r9d
	xorb 128(%rsp,%rdx), %r9b
	orb %r9b, %r8b
	incq %rdx
.LBB79_16:
	cmpq %rdx, %rcx
	jne .LBB79_6
.LBB79_17:
	xorl %eax, %eax
	testb %r8b, %r8b
	setne %al
	shll $3, %eax
.LBB79_18:
	movaps 656(%rsp), %xmm6
	addq $680, %rsp
	popq %rbx
	popq %rbp
	popq %rdi
	popq %rsi
	popq %r12
	popq %r13
	popq %r14
	popq %r15
	retq
	.seh_endproc
	.globl v2_yz_hotp
	.p2align 4
v2_yz_hotp:
.seh_proc v2_yz_hotp
	subq $56, %rsp
	.seh_stackalloc 56
	.seh_endprologue
	movq 104(%rsp), %rax
	movq 96(%rsp), %r10
	xorl %r11d, %r11d
	testq %rdx, %rdx
	sete %r11b
	shll $12, %r11d
	addq %r11, %rdx
	xorl %r11d, %r11d
	testq %r10, %r10
	sete %r11b
	shll $12, %r11d
	addq %r10, %r11
	movq %rax, 48(%rsp)
	movq %r9, 32(%rsp)
	movq %r11, 40(%rsp)
	movb $1, %r9b
	callq ring_c.otp.write
	nop
	addq $56, %rsp
	retq
	.seh_endproc
	.globl v2_yz_hotp_find
	.p2align 4
v2_yz_hotp_find:
.seh_proc v2_yz_hotp_find
	pushq %r15
	.seh_pushreg %r15
	pushq %r14
	.seh_pushreg %r14
	pushq %r13
	.seh_pushreg %r13
	pushq %r12
	.seh_pushreg %r12
	pushq %rsi
	.seh_pushreg %rsi
	pushq %rdi
	.seh_pushreg %rdi
	pushq %rbp
	.seh_pushreg %rbp
	pushq %rbx
	.seh_pushreg %rbx
	subq $520, %rsp
	.seh_stackalloc 520
	.seh_endprologue
	movq %r9, %rdi
	movq %r8, %r9
	movq %rdx, %r8
	movl %ecx, %edx
	movq 640(%rsp), %r12
	xorl %ecx, %ecx
	testq %r8, %r8
	sete %r10b
	xorl %r14d, %r14d
	testq %r12, %r12
	sete %bpl
	decl %edx
	movl $1, %eax
	cmpl $3, %edx
	ja .LBB81_7
	movq 632(%rsp), %rsi
	addq $-6, %rsi
	movl $4, %eax
	cmpq $2, %rsi
	ja .LBB81_7
	xorps %xmm0, %xmm0
	movaps %xmm0, 80(%rsp)
	movaps %xmm0, 64(%rsp)
	movaps %xmm0, 288(%rsp)
	movaps %xmm0, 272(%rsp)
	movaps %xmm0, 256(%rsp)
	movaps %xmm0, 240(%rsp)
	movaps %xmm0, 224(%rsp)
	movaps %xmm0, 208(%rsp)
	movaps %xmm0, 192(%rsp)
	movaps %xmm0, 176(%rsp)
	movaps %xmm0, 160(%rsp)
	movaps %xmm0, 144(%rsp)
	movaps %xmm0, 128(%rsp)
	movaps %xmm0, 112(%rsp)
	movaps %xmm0, 96(%rsp)
	testq %r9, %r9
	je .LBB81_4
	movb %r10b, %cl
	shll $12, %ecx
	addq %rcx, %r8
	leaq 64(%rsp), %r13
	movq %r13, 32(%rsp)
	leaq 96(%rsp), %rcx
	callq ring.hmac.key.Key.new_counted
	cmpb $0, 96(%rsp)
	je .LBB81_5
.LBB81_4:
	movl $8, %eax
.LBB81_7:
	addq $520, %rsp
	popq %rbx
	popq %rbp
	popq %rdi
	popq %rsi
	popq %r12
	popq %r13
	popq %r14
	popq %r15
	retq
.LBB81_5:
	movq 648(%rsp), %rbx
	movb %bpl, %r14b
	shll $12, %r14d
	addq %r14, %r12
	leaq 112(%rsp), %rdx
	leaq 319(%rsp), %r14
	movl $192, %r8d
	movq %r14, %rcx
	callq memcpy
	leaq 111(%rsp), %r15
	movl $192, %r8d
	movq %r15, %rcx
	movq %r14, %rdx
	callq memcpy
	leaq 304(%rsp), %r14
	movl $192, %r8d
	movq %r14, %rcx
	movq %r15, %rdx
	callq memcpy
	xorps %xmm0, %xmm0
	movaps %xmm0, 80(%rsp)
	movaps %xmm0, 64(%rsp)
	movq %r13, 48(%rsp)
	movq %rbx, 40(%rsp)
	movq %r12, 32(%rsp)
	movq %r14, %rcx
	movq %rdi, %rdx
	movq 624(%rsp), %r8
	movl %esi, %r9d
	callq ring_tokens.otp.find_hotp_counted
	movl %eax, %ecx
	movl $8, %eax
	cmpb $1, %cl
	jne .LBB81_7
	movq 656(%rsp), %rax
	movq %rdx, (%rax)
	xorl %eax, %eax
	jmp .LBB81_7
	.seh_endproc
	.globl v2_yz_jws_sign
	.p2align 4
v2_yz_jws_sign:
.seh_proc v2_yz_jws_sign
	pushq %r15
	.seh_pushreg %r15
	pushq %r14
	.seh_pushreg %r14
	pushq %r13
	.seh_pushreg %r13
	pushq %r12
	.seh_pushreg %r12
	pushq %rsi
	.seh_pushreg %rsi
	pushq %rdi
	.seh_pushreg %rdi
	pushq %rbp
	.seh_pushreg %rbp
	pushq %rbx
	.seh_pushreg %rbx
	subq $728, %rsp
	.seh_stackalloc 728
	.seh_endprologue
	movq 840(%rsp), %rsi
	xorl %r11d, %r11d
	testq %rdx, %rdx
	sete %r14b
	testq %r9, %r9
	sete %bpl
	testq %rsi, %rsi
	sete %r13b
	addl $-2, %ecx
	movl $1, %eax
	cmpl $2, %ecx
	ja .LBB82_30
	movq %r8, %r10
	movq %rdx, %r8
	movq 832(%rsp), %rbx
	movabsq $-6148914691236517205, %rdx
	movq %rbx, %rax
	mulq %rdx
	movq %rbx, %rdi
	shrq $62, %rdi
	movl $4, %eax
	cmpl $2, %edi
	ja .LBB82_30
	shrq %rdx
	leaq (%rdx,%rdx,2), %rdi
	subq %rdi, %rbx
	shlq $2, %rdx
	movq %rdx, %rdi
	testq %rbx, %rbx
	je .LBB82_6
	movq %rdx, %rdi
	cmpq $1, %rbx
	jne .LBB82_5
	orq $2, %rdi
	jmp .LBB82_6
.LBB82_5:
	orq $3, %rdi
.LBB82_6:
	movl %ecx, %r15d
	leaq .Lswitch.table.v2_yz_jws_sign.206(%rip), %r12
	movq %r15, 56(%rsp)
	movq (%r12,%r15,8), %r12
	movq %r12, %r15
	notq %r15
	cmpq %r15, %rdi
	seta %r15b
	addq %rdi, %r12
	movq 848(%rsp), %rdi
	cmpq %rdi, %r12
	seta %dil
	orb %r15b, %dil
	movl $0, %edi
	movl $0, %r15d
	jne .LBB82_30
	movq %rdx, 48(%rsp)
	movq %r9, 40(%rsp)
	xorps %xmm0, %xmm0
	movaps %xmm0, 80(%rsp)
	movaps %xmm0, 64(%rsp)
	movaps %xmm0, 96(%rsp)
	movaps %xmm0, 112(%rsp)
	movaps %xmm0, 128(%rsp)
	movaps %xmm0, 144(%rsp)
	movaps %xmm0, 160(%rsp)
	movaps %xmm0, 176(%rsp)
	movaps %xmm0, 192(%rsp)
	movaps %xmm0, 208(%rsp)
	movaps %xmm0, 224(%rsp)
	movaps %xmm0, 240(%rsp)
	movaps %xmm0, 256(%rsp)
	movaps %xmm0, 272(%rsp)
	movaps %xmm0, 288(%rsp)
	movq $0, 304(%rsp)
	movq $0, 311(%rsp)
	movl %ecx, %eax
	shlb $4, %al
	addb $32, %al
	movzbl %al, %eax
	cmpq %rax, %r10
	jb .LBB82_29
	movb %r14b, %r11b
	shll $12, %r11d
	addq %r11, %r8
	leal 1(%rcx), %edx
	leaq 64(%rsp), %rax
	movq %rax, 32(%rsp)
	leaq 96(%rsp), %rax
	movq %rcx, %r14
	movq %rax, %rcx
	movq %r10, %r9
	callq ring.hmac.key.Key.new_counted
	cmpb $0, 96(%rsp)
	je .LBB82_9
.LBB82_29:
	movl $8, %eax
.LBB82_30:
	addq $728, %rsp
	popq %rbx
	popq %rbp
	popq %rdi
	popq %rsi
	popq %r12
	popq %r13
	popq %r14
	popq %r15
	retq
.LBB82_9:
	leaq 112(%rsp), %rdx
	leaq 319(%rsp), %rcx
	movl $192, %r8d
	callq memcpy
	leaq 512(%rsp), %r12
	leaq 304(%rsp), %rdx
	movl $207, %r8d
	movq %r12, %rcx
	callq memcpy
	leaq 97(%rsp), %rcx
	movl $207, %r8d
	movq %r12, %rdx
	callq memcpy
	movq %r14, %rax
	movb %al, 96(%rsp)
	xorps %xmm0, %xmm0
	movaps %xmm0, 528(%rsp)
	movaps %xmm0, 512(%rsp)
	movaps %xmm0, 352(%rsp)
	movaps %xmm0, 336(%rsp)
	movaps %xmm0, 320(%rsp)
	movaps %xmm0, 304(%rsp)
	movw $0, 368(%rsp)
	testq %rbx, %rbx
	je .LBB82_10
	cmpq $1, %rbx
	movq 48(%rsp), %rcx
	jne .LBB82_13
	orq $2, %rcx
	jmp .LBB82_14
.LBB82_10:
	movq 40(%rsp), %r9
	movq 48(%rsp), %rcx
	jmp .LBB82_15
.LBB82_13:
	orq $3, %rcx
.LBB82_14:
	movq 40(%rsp), %r9
.LBB82_15:
	movq 848(%rsp), %r14
	movq 56(%rsp), %rdx
	leaq .Lswitch.table.v2_yz_jws_sign.206(%rip), %r8
	addq (%r8,%rdx,8), %rcx
	jb .LBB82_29
	cmpq %rcx, %r14
	jb .LBB82_29
	cmpb $2, %al
	je .LBB82_22
	movzbl %al, %eax
	cmpl $1, %eax
	jne .LBB82_20
	leaq .Lstatic.12(%rip), %rax
	jmp .LBB82_23
.LBB82_22:
	leaq .Lstatic.13(%rip), %rax
	jmp .LBB82_23
.LBB82_20:
	addq $-44, %rcx
	movabsq $2305843009213693888, %rax
	cmpq %rax, %rcx
	jae .LBB82_29
	leaq .Lstatic.11(%rip), %rax
.LBB82_23:
	movb %bpl, %dil
	movb %r13b, %r15b
	shll $12, %edi
	shll $12, %r15d
	addq %rdi, %r9
	addq %r15, %rsi
	movq %rsi, %rcx
	subq %rax, %rcx
	cmpq $35, %rcx
	ja .LBB82_25
	movups (%rax), %xmm0
	movups 16(%rax), %xmm1
	movups %xmm0, (%rsi)
	movups %xmm1, 16(%rsi)
	movl 32(%rax), %eax
	movl %eax, 32(%rsi)
	jmp .LBB82_26
.LBB82_25:
	movl 32(%rax), %ecx
	movl %ecx, 32(%rsi)
	movups (%rax), %xmm0
	movups 16(%rax), %xmm1
	movups %xmm1, 16(%rsi)
	movups %xmm0, (%rsi)
.LBB82_26:
	movb $46, 36(%rsi)
	movq 832(%rsp), %rax
	movq %rax, 32(%rsp)
	movl $37, %r8d
	movq %rsi, %rcx
	movq %r14, %rdx
	callq ring_tokens.put.put_base64url
	movq %rax, %rbx
	leaq 112(%rsp), %rdx
	leaq 512(%rsp), %rax
	movq %rax, 32(%rsp)
	leaq 304(%rsp), %rcx
	movq %rsi, %r8
	movq %rbx, %r9
	callq ring.hmac.sign_counted
	cmpb $0, 304(%rsp)
	jne .LBB82_28
	movq 856(%rsp), %rdi
	leaq 305(%rsp), %r9
	movzbl 369(%rsp), %eax
	movb $46, (%rsi,%rbx)
	incq %rbx
	leaq .Lswitch.table.v2_yz_webhook_verify_stripe(%rip), %rcx
	movq (%rcx,%rax,8), %rax
	movq %rax, 32(%rsp)
	movq %rsi, %rcx
	movq %r14, %rdx
	movq %rbx, %r8
	callq ring_tokens.put.put_base64url
	movq %rax, (%rdi)
	xorl %eax, %eax
	jmp .LBB82_30
.LBB82_28:
	ud2
	.seh_endproc
	.globl v2_yz_jws_verify
	.p2align 4
v2_yz_jws_verify:
.seh_proc v2_yz_jws_verify
	pushq %r15
	.seh_pushreg %r15
	pushq %r14
	.seh_pushreg %r14
	pushq %r13
	.seh_pushreg %r13
	pushq %r12
	.seh_pushreg %r12
	pushq %rsi
	.seh_pushreg %rsi
	pushq %rdi
	.seh_pushreg %rdi
	pushq %rbp
	.seh_pushreg %rbp
	pushq %rbx
	.seh_pushreg %rbx
	subq $824, %rsp
	.seh_stackalloc 824
	.seh_endprologue
	movq 936(%rsp), %rsi
	xorl %r10d, %r10d
	testq %rdx, %rdx
	sete %r11b
	xorl %r14d, %r14d
	testq %r9, %r9
	sete %r15b
	xorl %ebp, %ebp
	testq %rsi, %rsi
	sete %r12b
	addl $-2, %ecx
	movl $1, %eax
	cmpl $2, %ecx
	ja .LBB83_5
	movq 928(%rsp), %rbx
	movl $4, %eax
	cmpq %rbx, 944(%rsp)
	jb .LBB83_5
	pxor %xmm0, %xmm0
	movdqa %xmm0, 96(%rsp)
	movdqa %xmm0, 80(%rsp)
	movdqa %xmm0, 608(%rsp)
	movdqa %xmm0, 624(%rsp)
	movdqa %xmm0, 640(%rsp)
	movdqa %xmm0, 656(%rsp)
	movdqa %xmm0, 672(%rsp)
	movdqa %xmm0, 688(%rsp)
	movdqa %xmm0, 704(%rsp)
	movdqa %xmm0, 720(%rsp)
	movdqa %xmm0, 736(%rsp)
	movdqa %xmm0, 752(%rsp)
	movdqa %xmm0, 768(%rsp)
	movdqa %xmm0, 784(%rsp)
	movdqa %xmm0, 800(%rsp)
	movq $0, 160(%rsp)
	movq $0, 167(%rsp)
	movl %ecx, %eax
	shlb $4, %al
	addb $32, %al
	movzbl %al, %eax
	cmpq %rax, %r8
	jb .LBB83_4
	movb %r11b, %r10b
	shll $12, %r10d
	addq %r10, %rdx
	leal 1(%rcx), %eax
	leaq 80(%rsp), %r10
	movq %r10, 32(%rsp)
	leaq 608(%rsp), %r10
	movq %rcx, %rdi
	movq %r10, %rcx
	movq %rdx, %r10
	movl %eax, %edx
	movq %r8, %rax
	movq %r10, %r8
	movq %r9, %r13
	movq %rax, %r9
	callq ring.hmac.key.Key.new_counted
	cmpb $0, 608(%rsp)
	jne .LBB83_4
	movq %r13, %rax
	movb %r15b, %r14b
	shll $12, %r14d
	addq %r14, %rax
	leaq 624(%rsp), %rdx
	leaq 175(%rsp), %rcx
	movl $192, %r8d
	movq %rdi, %r13
	movq %rax, %r14
	callq memcpy
	leaq 368(%rsp), %r15
	leaq 160(%rsp), %rdx
	movl $207, %r8d
	movq %r15, %rcx
	callq memcpy
	leaq 609(%rsp), %rcx
	movl $207, %r8d
	movq %r15, %rdx
	callq memcpy
	movb %r13b, 608(%rsp)
	pxor %xmm0, %xmm0
	movdqa %xmm0, 592(%rsp)
	movdqa %xmm0, 576(%rsp)
	movdqa %xmm0, 160(%rsp)
	movdqa %xmm0, 176(%rsp)
	movq $0, 192(%rsp)
	movdqa %xmm0, 368(%rsp)
	movdqa %xmm0, 384(%rsp)
	movq $0, 400(%rsp)
	leaq 160(%rsp), %rcx
	movq %r14, %r13
	movq %r14, %rdx
	movq %rbx, %r8
	movb $46, %r9b
	callq ring_text.cut.cut_at
	cmpb $1, 160(%rsp)
	jne .LBB83_4
	movq 168(%rsp), %rbx
	movq 176(%rsp), %r14
	movq 184(%rsp), %rdx
	movq 192(%rsp), %r8
	leaq 368(%rsp), %rcx
	movb $46, %r9b
	callq ring_text.cut.cut_at
	cmpb $1, 368(%rsp)
	jne .LBB83_4
	movq %rbx, 40(%rsp)
	movq %r14, %rbx
	movq 376(%rsp), %rax
	movq %rax, 64(%rsp)
	movq 384(%rsp), %r15
	leaq 1(%r14,%r15), %r9
	movq 392(%rsp), %rax
	movq %rax, 72(%rsp)
	movq 400(%rsp), %r14
	pxor %xmm0, %xmm0
	movdqa %xmm0, 416(%rsp)
	movdqa %xmm0, 400(%rsp)
	movdqa %xmm0, 384(%rsp)
	movdqa %xmm0, 368(%rsp)
	movw $0, 432(%rsp)
	leaq 624(%rsp), %rdx
	leaq 576(%rsp), %rax
	movq %rax, 32(%rsp)
	leaq 368(%rsp), %rcx
	movq %r13, %r8
	callq ring.hmac.sign_counted
	cmpb $0, 368(%rsp)
	jne .LBB83_4
	movq %r14, %r8
	movq 72(%rsp), %rdx
	movq %rbx, 48(%rsp)
	movq %r15, 56(%rsp)
	movdqu 369(%rsp), %xmm0
	movdqu 385(%rsp), %xmm1
	movdqu 401(%rsp), %xmm2
	movdqu 417(%rsp), %xmm3
	movdqa %xmm3, 128(%rsp)
	movdqa %xmm2, 112(%rsp)
	movdqa %xmm1, 96(%rsp)
	movdqa %xmm0, 80(%rsp)
	movzbl 433(%rsp), %eax
	movb %al, 144(%rsp)
	leaq .LJTI83_0(%rip), %rcx
	movslq (%rcx,%rax,4), %rax
	addq %rcx, %rax
	jmpq *%rax
.LBB83_10:
	movl $32, %r13d
	jmp .LBB83_14
.LBB83_11:
	movl $64, %r13d
	jmp .LBB83_14
.LBB83_12:
	movl $20, %r13d
	movb $1, %r14b
	jmp .LBB83_15
.LBB83_13:
	movl $48, %r13d
.LBB83_14:
	xorl %r14d, %r14d
.LBB83_15:
	movq %rdx, %rcx
	movq %r8, %rdx
	pxor %xmm0, %xmm0
	movdqa %xmm0, 224(%rsp)
	movdqa %xmm0, 208(%rsp)
	movdqa %xmm0, 192(%rsp)
	movdqa %xmm0, 176(%rsp)
	movdqa %xmm0, 160(%rsp)
	movq $0, 240(%rsp)
	cmpq $86, %r8
	jbe .LBB83_17
	xorl %eax, %eax
	xorl %ecx, %ecx
	jmp .LBB83_18
.LBB83_17:
	leaq 160(%rsp), %r8
	movl $88, %r9d
	callq ring_tokens.decoded.decode_over
	cmpb $1, %al
	sete %al
	cmpq %r13, %rdx
	sete %cl
.LBB83_18:
	testb %r14b, %r14b
	je .LBB83_20
	xorl %edx, %edx
	xorl %r8d, %r8d
	jmp .LBB83_24
.LBB83_20:
	movl %r13d, %edx
	andl $-32, %edx
	pxor %xmm0, %xmm0
	xorl %r8d, %r8d
	pxor %xmm1, %xmm1
.LBB83_21:
	movdqu 80(%rsp,%r8), %xmm2
	movdqu 96(%rsp,%r8), %xmm3
	movdqu 160(%rsp,%r8), %xmm4
	pxor %xmm2, %xmm4
	por %xmm4, %xmm1
	movdqu 176(%rsp,%r8), %xmm2
	pxor %xmm3, %xmm2
	por %xmm2, %xmm0
	addq $32, %r8
	cmpq %r8, %rdx
	jne .LBB83_21
	por %xmm1, %xmm0
	pshufd $238, %xmm0, %xmm1
	por %xmm0, %xmm1
	pshufd $85, %xmm1, %xmm0
	por %xmm1, %xmm0
	movdqa %xmm0, %xmm1
	psrld $16, %xmm1
	por %xmm0, %xmm1
	movdqa %xmm1, %xmm0
	psrlw $8, %xmm0
	por %xmm1, %xmm0
	movd %xmm0, %r8d
	cmpl %edx, %r13d
	je .LBB83_27
	testb $20, %r13b
	je .LBB83_126
.LBB83_24:
	movzbl %r8b, %r8d
	movd %r8d, %xmm0
.LBB83_25:
	movl 160(%rsp,%rdx), %r8d
	xorl 80(%rsp,%rdx), %r8d
	movd %r8d, %xmm1
	por %xmm1, %xmm0
	addq $4, %rdx
	cmpq %rdx, %r13
	jne .LBB83_25
	movdqa %xmm0, %xmm1
	psrld $16, %xmm1
	por %xmm0, %xmm1
	movdqa %xmm1, %xmm0
	psrlw $8, %xmm0
	por %xmm1, %xmm0
	movd %xmm0, %r8d
.LBB83_27:
	testb %r8b, %r8b
	sete %dl
	andb %al, %dl
	testb %cl, %dl
	je .LBB83_4
	movl %edi, %eax
	cmpq $36, 48(%rsp)
	jne .LBB83_65
	leaq .Lswitch.table.v2_yz_jws_verify(%rip), %rcx
	movq (%rcx,%rax,8), %rcx
	movq 40(%rsp), %rdx
	movzbl (%rdx), %edx
	cmpb (%rcx), %dl
	jne .LBB83_65
	movq 40(%rsp), %rdx
	movzbl 1(%rdx), %edx
	cmpb 1(%rcx), %dl
	jne .LBB83_65
	movq 40(%rsp), %rdx
	movzbl 2(%rdx), %edx
	cmpb 2(%rcx), %dl
	jne .LBB83_65
	movq 40(%rsp), %rdx
	movzbl 3(%rdx), %edx
	cmpb 3(%rcx), %dl
	jne .LBB83_65
	movq 40(%rsp), %rdx
	movzbl 4(%rdx), %edx
	cmpb 4(%rcx), %dl
	jne .LBB83_65
	movq 40(%rsp), %rdx
	movzbl 5(%rdx), %edx
	cmpb 5(%rcx), %dl
	jne .LBB83_65
	movq 40(%rsp), %rdx
	movzbl 6(%rdx), %edx
	cmpb 6(%rcx), %dl
	jne .LBB83_65
	movq 40(%rsp), %rdx
	movzbl 7(%rdx), %edx
	cmpb 7(%rcx), %dl
	jne .LBB83_65
	movq 40(%rsp), %rdx
	movzbl 8(%rdx), %edx
	cmpb 8(%rcx), %dl
	jne .LBB83_65
	movq 40(%rsp), %rdx
	movzbl 9(%rdx), %edx
	cmpb 9(%rcx), %dl
	jne .LBB83_65
	movq 40(%rsp), %rdx
	movzbl 10(%rdx), %edx
	cmpb 10(%rcx), %dl
	jne .LBB83_65
	movq 40(%rsp), %rdx
	movzbl 11(%rdx), %edx
	cmpb 11(%rcx), %dl
	jne .LBB83_65
	movq 40(%rsp), %rdx
	movzbl 12(%rdx), %edx
	cmpb 12(%rcx), %dl
	jne .LBB83_65
	movq 40(%rsp), %rdx
	movzbl 13(%rdx), %edx
	cmpb 13(%rcx), %dl
	jne .LBB83_65
	movq 40(%rsp), %rdx
	movzbl 14(%rdx), %edx
	cmpb 14(%rcx), %dl
	jne .LBB83_65
	movq 40(%rsp), %rdx
	movzbl 15(%rdx), %edx
	cmpb 15(%rcx), %dl
	jne .LBB83_65
	movq 40(%rsp), %rdx
	movzbl 16(%rdx), %edx
	cmpb 16(%rcx), %dl
	jne .LBB83_65
	movq 40(%rsp), %rdx
	movzbl 17(%rdx), %edx
	cmpb 17(%rcx), %dl
	jne .LBB83_65
	movq 40(%rsp), %rdx
	movzbl 18(%rdx), %edx
	cmpb 18(%rcx), %dl
	jne .LBB83_65
	movq 40(%rsp), %rdx
	movzbl 19(%rdx), %edx
	cmpb 19(%rcx), %dl
	jne .LBB83_65
	movq 40(%rsp), %rdx
	movzbl 20(%rdx), %edx
	cmpb 20(%rcx), %dl
	jne .LBB83_65
	movq 40(%rsp), %rdx
	movzbl 21(%rdx), %edx
	cmpb 21(%rcx), %dl
	jne .LBB83_65
	movq 40(%rsp), %rdx
	movzbl 22(%rdx), %edx
	cmpb 22(%rcx), %dl
	jne .LBB83_65
	movq 40(%rsp), %rdx
	movzbl 23(%rdx), %edx
	cmpb 23(%rcx), %dl
	jne .LBB83_65
	movq 40(%rsp), %rdx
	movzbl 24(%rdx), %edx
	cmpb 24(%rcx), %dl
	jne .LBB83_65
	movq 40(%rsp), %rdx
	movzbl 25(%rdx), %edx
	cmpb 25(%rcx), %dl
	jne .LBB83_65
	movq 40(%rsp), %rdx
	movzbl 26(%rdx), %edx
	cmpb 26(%rcx), %dl
	jne .LBB83_65
	movq 40(%rsp), %rdx
	movzbl 27(%rdx), %edx
	cmpb 27(%rcx), %dl
	jne .LBB83_65
	movq 40(%rsp), %rdx
	movzbl 28(%rdx), %edx
	cmpb 28(%rcx), %dl
	jne .LBB83_65
	movq 40(%rsp), %rdx
	movzbl 29(%rdx), %edx
	cmpb 29(%rcx), %dl
	jne .LBB83_65
	movq 40(%rsp), %rdx
	movzbl 30(%rdx), %edx
	cmpb 30(%rcx), %dl
	jne .LBB83_65
	movq 40(%rsp), %rdx
	movzbl 31(%rdx), %edx
	cmpb 31(%rcx), %dl
	jne .LBB83_65
	movq 40(%rsp), %rdx
	movzbl 32(%rdx), %edx
	cmpb 32(%rcx), %dl
	jne .LBB83_65
	movq 40(%rsp), %rdx
	movzbl 33(%rdx), %edx
	cmpb 33(%rcx), %dl
	jne .LBB83_65
	movq 40(%rsp), %rdx
	movzbl 34(%rdx), %edx
	cmpb 34(%rcx), %dl
	jne .LBB83_65
	movq 40(%rsp), %rdx
	movzbl 35(%rdx), %edx
	cmpb 35(%rcx), %dl
	je .LBB83_123
.LBB83_65:
	cmpq $36, 48(%rsp)
	jne .LBB83_102
	leaq .Lswitch.table.v2_yz_jws_verify.208(%rip), %rcx
	movq (%rcx,%rax,8), %rcx
	movq 40(%rsp), %rdx
	movzbl (%rdx), %edx
	cmpb (%rcx), %dl
	jne .LBB83_102
	movq 40(%rsp), %rdx
	movzbl 1(%rdx), %edx
	cmpb 1(%rcx), %dl
	jne .LBB83_102
	movq 40(%rsp), %rdx
	movzbl 2(%rdx), %edx
	cmpb 2(%rcx), %dl
	jne .LBB83_102
	movq 40(%rsp), %rdx
	movzbl 3(%rdx), %edx
	cmpb 3(%rcx), %dl
	jne .LBB83_102
	movq 40(%rsp), %rdx
	movzbl 4(%rdx), %edx
	cmpb 4(%rcx), %dl
	jne .LBB83_102
	movq 40(%rsp), %rdx
	movzbl 5(%rdx), %edx
	cmpb 5(%rcx), %dl
	jne .LBB83_102
	movq 40(%rsp), %rdx
	movzbl 6(%rdx), %edx
	cmpb 6(%rcx), %dl
	jne .LBB83_102
	movq 40(%rsp), %rdx
	movzbl 7(%rdx), %edx
	cmpb 7(%rcx), %dl
	jne .LBB83_102
	movq 40(%rsp), %rdx
	movzbl 8(%rdx), %edx
	cmpb 8(%rcx), %dl
	jne .LBB83_102
	movq 40(%rsp), %rdx
	movzbl 9(%rdx), %edx
	cmpb 9(%rcx), %dl
	jne .LBB83_102
	movq 40(%rsp), %rdx
	movzbl 10(%rdx), %edx
	cmpb 10(%rcx), %dl
	jne .LBB83_102
	movq 40(%rsp), %rdx
	movzbl 11(%rdx), %edx
	cmpb 11(%rcx), %dl
	jne .LBB83_102
	movq 40(%rsp), %rdx
	movzbl 12(%rdx), %edx
	cmpb 12(%rcx), %dl
	jne .LBB83_102
	movq 40(%rsp), %rdx
	movzbl 13(%rdx), %edx
	cmpb 13(%rcx), %dl
	jne .LBB83_102
	movq 40(%rsp), %rdx
	movzbl 14(%rdx), %edx
	cmpb 14(%rcx), %dl
	jne .LBB83_102
	movq 40(%rsp), %rdx
	movzbl 15(%rdx), %edx
	cmpb 15(%rcx), %dl
	jne .LBB83_102
	movq 40(%rsp), %rdx
	movzbl 16(%rdx), %edx
	cmpb 16(%rcx), %dl
	jne .LBB83_102
	movq 40(%rsp), %rdx
	movzbl 17(%rdx), %edx
	cmpb 17(%rcx), %dl
	jne .LBB83_102
	movq 40(%rsp), %rdx
	movzbl 18(%rdx), %edx
	cmpb 18(%rcx), %dl
	jne .LBB83_102
	movq 40(%rsp), %rdx
	movzbl 19(%rdx), %edx
	cmpb 19(%rcx), %dl
	jne .LBB83_102
	movq 40(%rsp), %rdx
	movzbl 20(%rdx), %edx
	cmpb 20(%rcx), %dl
	jne .LBB83_102
	movq 40(%rsp), %rdx
	movzbl 21(%rdx), %edx
	cmpb 21(%rcx), %dl
	jne .LBB83_102
	movq 40(%rsp), %rdx
	movzbl 22(%rdx), %edx
	cmpb 22(%rcx), %dl
	jne .LBB83_102
	movq 40(%rsp), %rdx
	movzbl 23(%rdx), %edx
	cmpb 23(%rcx), %dl
	jne .LBB83_102
	movq 40(%rsp), %rdx
	movzbl 24(%rdx), %edx
	cmpb 24(%rcx), %dl
	jne .LBB83_102
	movq 40(%rsp), %rdx
	movzbl 25(%rdx), %edx
	cmpb 25(%rcx), %dl
	jne .LBB83_102
	movq 40(%rsp), %rdx
	movzbl 26(%rdx), %edx
	cmpb 26(%rcx), %dl
	jne .LBB83_102
	movq 40(%rsp), %rdx
	movzbl 27(%rdx), %edx
	cmpb 27(%rcx), %dl
	jne .LBB83_102
	movq 40(%rsp), %rdx
	movzbl 28(%rdx), %edx
	cmpb 28(%rcx), %dl
	jne .LBB83_102
	movq 40(%rsp), %rdx
	movzbl 29(%rdx), %edx
	cmpb 29(%rcx), %dl
	jne .LBB83_102
	movq 40(%rsp), %rdx
	movzbl 30(%rdx), %edx
	cmpb 30(%rcx), %dl
	jne .LBB83_102
	movq 40(%rsp), %rdx
	movzbl 31(%rdx), %edx
	cmpb 31(%rcx), %dl
	jne .LBB83_102
	movq 40(%rsp), %rdx
	movzbl 32(%rdx), %edx
	cmpb 32(%rcx), %dl
	jne .LBB83_102
	movq 40(%rsp), %rdx
	movzbl 33(%rdx), %edx
	cmpb 33(%rcx), %dl
	jne .LBB83_102
	movq 40(%rsp), %rdx
	movzbl 34(%rdx), %edx
	cmpb 34(%rcx), %dl
	jne .LBB83_102
	movq 40(%rsp), %rdx
	movzbl 35(%rdx), %edx
	cmpb 35(%rcx), %dl
	je .LBB83_123
.LBB83_102:
	cmpq $20, 48(%rsp)
	jne .LBB83_4
	leaq .Lswitch.table.v2_yz_jws_verify.209(%rip), %rcx
	movq (%rcx,%rax,8), %rax
	movq 40(%rsp), %rcx
	movzbl (%rcx), %ecx
	cmpb (%rax), %cl
	jne .LBB83_4
	movq 40(%rsp), %rcx
	movzbl 1(%rcx), %ecx
	cmpb 1(%rax), %cl
	jne .LBB83_4
	movq 40(%rsp), %rcx
	movzbl 2(%rcx), %ecx
	cmpb 2(%rax), %cl
	jne .LBB83_4
	movq 40(%rsp), %rcx
	movzbl 3(%rcx), %ecx
	cmpb 3(%rax), %cl
	jne .LBB83_4
	movq 40(%rsp), %rcx
	movzbl 4(%rcx), %ecx
	cmpb 4(%rax), %cl
	jne .LBB83_4
	movq 40(%rsp), %rcx
	movzbl 5(%rcx), %ecx
	cmpb 5(%rax), %cl
	jne .LBB83_4
	movq 40(%rsp), %rcx
	movzbl 6(%rcx), %ecx
	cmpb 6(%rax), %cl
	jne .LBB83_4
	movq 40(%rsp), %rcx
	movzbl 7(%rcx), %ecx
	cmpb 7(%rax), %cl
	jne .LBB83_4
	movq 40(%rsp), %rcx
	movzbl 8(%rcx), %ecx
	cmpb 8(%rax), %cl
	jne .LBB83_4
	movq 40(%rsp), %rcx
	movzbl 9(%rcx), %ecx
	cmpb 9(%rax), %cl
	jne .LBB83_4
	movq 40(%rsp), %rcx
	movzbl 10(%rcx), %ecx
	cmpb 10(%rax), %cl
	jne .LBB83_4
	movq 40(%rsp), %rcx
	movzbl 11(%rcx), %ecx
	cmpb 11(%rax), %cl
	jne .LBB83_4
	movq 40(%rsp), %rcx
	movzbl 12(%rcx), %ecx
	cmpb 12(%rax), %cl
	jne .LBB83_4
	movq 40(%rsp), %rcx
	movzbl 13(%rcx), %ecx
	cmpb 13(%rax), %cl
	jne .LBB83_4
	movq 40(%rsp), %rcx
	movzbl 14(%rcx), %ecx
	cmpb 14(%rax), %cl
	jne .LBB83_4
	movq 40(%rsp), %rcx
	movzbl 15(%rcx), %ecx
	cmpb 15(%rax), %cl
	jne .LBB83_4
	movq 40(%rsp), %rcx
	movzbl 16(%rcx), %ecx
	cmpb 16(%rax), %cl
	jne .LBB83_4
	movq 40(%rsp), %rcx
	movzbl 17(%rcx), %ecx
	cmpb 17(%rax), %cl
	jne .LBB83_4
	movq 40(%rsp), %rcx
	movzbl 18(%rcx), %ecx
	cmpb 18(%rax), %cl
	jne .LBB83_4
	movq 40(%rsp), %rcx
	movzbl 19(%rcx), %ecx
	cmpb 19(%rax), %cl
	jne .LBB83_4
.LBB83_123:
	movb %r12b, %bpl
	shll $12, %ebp
	movq 952(%rsp), %rdi
	addq %rbp, %rsi
	movq 64(%rsp), %rcx
	movq 56(%rsp), %r15
.LBB83_124:
	cmpq $65, %r15
	jb .LBB83_127
	leaq 64(%rcx), %rbx
	addq $-64, %r15
	leaq 160(%rsp), %r8
	movl $64, %edx
	movl $66, %r9d
	callq ring_tokens.decoded.decode_over
	movq %rbx, %rcx
	testb $1, %al
	jne .LBB83_124
	jmp .LBB83_4
.LBB83_126:
	movzbl 160(%rsp,%rdx), %r9d
	xorb 80(%rsp,%rdx), %r9b
	orb %r9b, %r8b
	incq %rdx
	cmpq %rdx, %r13
	jne .LBB83_126
	jmp .LBB83_27
.LBB83_127:
	leaq 160(%rsp), %r8
	movl $66, %r9d
	movq %r15, %rdx
	callq ring_tokens.decoded.decode_over
	testb $1, %al
	je .LBB83_4
	movq 64(%rsp), %rcx
	movq 56(%rsp), %rdx
	movq %rsi, %r8
	movq 944(%rsp), %r9
	callq ring_tokens.decoded.decode_over
	movl %eax, %ecx
	movl $8, %eax
	cmpb $1, %cl
	jne .LBB83_5
	movq %rdx, (%rdi)
	xorl %eax, %eax
	jmp .LBB83_5
.LBB83_4:
	movl $8, %eax
.LBB83_5:
	addq $824, %rsp
	popq %rbx
	popq %rbp
	popq %rdi
	popq %rsi
	popq %r12
	popq %r13
	popq %r14
	popq %r15
	retq
	.section .rdata,"dr"
	.p2align 2, 0x0
.LJTI83_0:
	.long .LBB83_12-.LJTI83_0
	.long .LBB83_10-.LJTI83_0
	.long .LBB83_13-.LJTI83_0
	.long .LBB83_11-.LJTI83_0
	.long .LBB83_10-.LJTI83_0
	.text
	.seh_endproc
	.globl v2_yz_merkle_consistency_path
	.p2align 4
v2_yz_merkle_consistency_path:
.seh_proc v2_yz_merkle_consistency_path
	pushq %r15
	.seh_pushreg %r15
	pushq %r14
	.seh_pushreg %r14
	pushq %r13
	.seh_pushreg %r13
	pushq %r12
	.seh_pushreg %r12
	pushq %rsi
	.seh_pushreg %rsi
	pushq %rdi
	.seh_pushreg %rdi
	pushq %rbp
	.seh_pushreg %rbp
	pushq %rbx
	.seh_pushreg %rbx
	subq $104, %rsp
	.seh_stackalloc 104
	.seh_endprologue
	movq %r8, %r10
	xorl %r11d, %r11d
	testq %rcx, %rcx
	sete %bl
	xorl %esi, %esi
	testq %r9, %r9
	sete %dil
	testq %r8, %r8
	sete %r8b
	cmpq %r10, %rdx
	setbe %bpl
	movl $8, %eax
	orb %r8b, %bpl
	jne .LBB84_10
	xorps %xmm0, %xmm0
	movaps %xmm0, 80(%rsp)
	movaps %xmm0, 64(%rsp)
	leaq -1(%r10), %r8
	leaq -1(%rdx), %r15
	movq %r8, %r12
	testb $1, %r8b
	je .LBB84_2
	.p2align 4
.LBB84_4:
	movq %r12, %r14
	shrq %r12
	shrq %r15
	testb $2, %r14b
	jne .LBB84_4
	testq %r15, %r15
	je .LBB84_6
.LBB84_2:
	xorl %r14d, %r14d
	.p2align 4
.LBB84_3:
	movl %r12d, %r13d
	andl $1, %r13d
	movq %r12, %rbp
	xorq %r15, %rbp
	xorl %eax, %eax
	orq %r13, %rbp
	setne %al
	addq %rax, %r14
	shrq %r12
	shrq %r15
	jne .LBB84_3
.LBB84_7:
	leaq -1(%r10), %rax
	andq %r10, %rax
	cmpq $1, %rax
	sbbq $-1, %r14
	cmpq %r14, 208(%rsp)
	jae .LBB84_9
	movl $4, %eax
	jmp .LBB84_10
.LBB84_9:
	movb %bl, %r11b
	movb %dil, %sil
	shll $12, %r11d
	shll $12, %esi
	movq 216(%rsp), %rdi
	addq %r11, %rcx
	addq %rsi, %r9
	leaq 64(%rsp), %rax
	movq %rax, 48(%rsp)
	movq %r14, 40(%rsp)
	movq %r9, 32(%rsp)
	movb $1, %r9b
	callq ring_merkle.paths.write_proof
	movq %r14, (%rdi)
	xorl %eax, %eax
.LBB84_10:
	addq $104, %rsp
	popq %rbx
	popq %rbp
	popq %rdi
	popq %rsi
	popq %r12
	popq %r13
	popq %r14
	popq %r15
	retq
.LBB84_6:
	xorl %r14d, %r14d
	jmp .LBB84_7
	.seh_endproc
	.globl v2_yz_merkle_inclusion_path
	.p2align 4
v2_yz_merkle_inclusion_path:
.seh_proc v2_yz_merkle_inclusion_path
	pushq %r15
	.seh_pushreg %r15
	pushq %r14
	.seh_pushreg %r14
	pushq %r13
	.seh_pushreg %r13
	pushq %r12
	.seh_pushreg %r12
	pushq %rsi
	.seh_pushreg %rsi
	pushq %rdi
	.seh_pushreg %rdi
	pushq %rbp
	.seh_pushreg %rbp
	pushq %rbx
	.seh_pushreg %rbx
	subq $88, %rsp
	.seh_stackalloc 88
	.seh_endprologue
	xorl %r11d, %r11d
	testq %rcx, %rcx
	sete %dil
	xorl %r10d, %r10d
	testq %r9, %r9
	sete %bl
	movl $8, %eax
	cmpq %r8, %rdx
	jbe .LBB85_8
	xorps %xmm0, %xmm0
	movaps %xmm0, 64(%rsp)
	movaps %xmm0, 48(%rsp)
	movq %rdx, %rax
	decq %rax
	je .LBB85_2
	movq 192(%rsp), %r14
	xorl %esi, %esi
	movq %r8, %r15
	.p2align 4
.LBB85_5:
	movl %r15d, %r12d
	andl $1, %r12d
	movq %r15, %r13
	xorq %rax, %r13
	xorl %ebp, %ebp
	orq %r12, %r13
	setne %bpl
	addq %rbp, %rsi
	shrq %r15
	shrq %rax
	jne .LBB85_5
	cmpq %rsi, %r14
	jae .LBB85_3
	movl $4, %eax
	jmp .LBB85_8
.LBB85_2:
	xorl %esi, %esi
.LBB85_3:
	movq 200(%rsp), %r14
	movb %dil, %r11b
	shll $12, %r11d
	addq %r11, %rcx
	movb %bl, %r10b
	shll $12, %r10d
	addq %r10, %r9
	leaq 48(%rsp), %rax
	movq %rax, 40(%rsp)
	movq %rsi, 32(%rsp)
	callq ring_merkle.paths.write_path
	xorl %eax, %eax
	movq %rsi, (%r14)
.LBB85_8:
	addq $88, %rsp
	popq %rbx
	popq %rbp
	popq %rdi
	popq %rsi
	popq %r12
	popq %r13
	popq %r14
	popq %r15
	retq
	.seh_endproc
	.globl v2_yz_merkle_leaf
	.p2align 4
v2_yz_merkle_leaf:
.seh_proc v2_yz_merkle_leaf
	pushq %rsi
	.seh_pushreg %rsi
	subq $176, %rsp
	.seh_stackalloc 176
	.seh_endprologue
	movq %r8, %rsi
	xorl %eax, %eax
	testq %rcx, %rcx
	sete %al
	shll $12, %eax
	addq %rcx, %rax
	xorps %xmm0, %xmm0
	movaps %xmm0, 160(%rsp)
	movaps %xmm0, 144(%rsp)
	movaps %xmm0, 32(%rsp)
	movaps %xmm0, 48(%rsp)
	movb $0, 64(%rsp)
	leaq .Lstatic.6(%rip), %rcx
	movq %rcx, 80(%rsp)
	movq $1, 88(%rsp)
	movq %rax, 96(%rsp)
	movq %rdx, 104(%rsp)
	leaq 32(%rsp), %rcx
	leaq 80(%rsp), %rdx
	leaq 144(%rsp), %r9
	movl $2, %r8d
	callq ring_merkle.hash.hash_pieces
	movups 33(%rsp), %xmm0
	movups 49(%rsp), %xmm1
	movaps %xmm0, 112(%rsp)
	movaps %xmm1, 128(%rsp)
	cmpb $0, 32(%rsp)
	movl $8, %eax
	je .LBB86_1
	addq $176, %rsp
	popq %rsi
	retq
.LBB86_1:
	movaps 112(%rsp), %xmm0
	movaps 128(%rsp), %xmm1
	movups %xmm1, 16(%rsi)
	movups %xmm0, (%rsi)
	xorl %eax, %eax
	addq $176, %rsp
	popq %rsi
	retq
	.seh_endproc
	.globl v2_yz_merkle_root
	.p2align 4
v2_yz_merkle_root:
.seh_proc v2_yz_merkle_root
	pushq %rsi
	.seh_pushreg %rsi
	subq $96, %rsp
	.seh_stackalloc 96
	.seh_endprologue
	movq %r8, %rsi
	movq %rdx, %r8
	xorl %edx, %edx
	testq %rcx, %rcx
	sete %dl
	shll $12, %edx
	addq %rcx, %rdx
	xorps %xmm0, %xmm0
	movaps %xmm0, 32(%rsp)
	movaps %xmm0, 48(%rsp)
	movaps %xmm0, 64(%rsp)
	movaps %xmm0, 80(%rsp)
	leaq 32(%rsp), %rcx
	leaq 64(%rsp), %r9
	callq ring_merkle.paths.tree_root_counted
	movaps 32(%rsp), %xmm0
	movaps 48(%rsp), %xmm1
	movups %xmm1, 16(%rsi)
	movups %xmm0, (%rsi)
	xorl %eax, %eax
	addq $96, %rsp
	popq %rsi
	retq
	.seh_endproc
	.globl v2_yz_merkle_verify_consistency
	.p2align 4
v2_yz_merkle_verify_consistency:
.seh_proc v2_yz_merkle_verify_consistency
	pushq %rsi
	.seh_pushreg %rsi
	pushq %rdi
	.seh_pushreg %rdi
	pushq %rbp
	.seh_pushreg %rbp
	pushq %rbx
	.seh_pushreg %rbx
	subq $104, %rsp
	.seh_stackalloc 104
	.seh_endprologue
	movq 184(%rsp), %rsi
	movq 176(%rsp), %rax
	xorl %r11d, %r11d
	testq %rax, %rax
	sete %r10b
	xorps %xmm0, %xmm0
	movaps %xmm0, 80(%rsp)
	movaps %xmm0, 64(%rsp)
	testq %rcx, %rcx
	setne %bl
	cmpq %rcx, %r8
	seta %dil
	testq %rsi, %rsi
	setne %bpl
	andb %bl, %bpl
	testb %dil, %bpl
	jne .LBB88_2
	movl $8, %eax
	jmp .LBB88_11
.LBB88_2:
	movb %r10b, %r11b
	shll $12, %r11d
	leaq -1(%rcx), %rdi
	decq %r8
	testb $1, %dil
	jne .LBB88_4
	movq %rdi, %r10
	jmp .LBB88_6
.LBB88_4:
	movq %rdi, %rbx
	movq %rdi, %r10
	.p2align 4
.LBB88_5:
	shrq %r10
	shrq %r8
	testb $2, %bl
	movq %r10, %rbx
	jne .LBB88_5
.LBB88_6:
	addq %r11, %rax
	testq %rdi, %rcx
	jne .LBB88_7
	leaq 64(%rsp), %rcx
	movq %rcx, 56(%rsp)
	movq %r9, 48(%rsp)
	movq %rdx, 40(%rsp)
	movq %rsi, 32(%rsp)
	movq %rdx, %rcx
	movq %r10, %rdx
	movq %rax, %r9
	jmp .LBB88_9
.LBB88_7:
	leaq 32(%rax), %r11
	decq %rsi
	leaq 64(%rsp), %rcx
	movq %rcx, 56(%rsp)
	movq %r9, 48(%rsp)
	movq %rdx, 40(%rsp)
	movq %rsi, 32(%rsp)
	movq %rax, %rcx
	movq %r10, %rdx
	movq %r11, %r9
.LBB88_9:
	callq ring_merkle.consistency.leads_to_both
	movl %eax, %ecx
	movl $8, %eax
	testb %cl, %cl
	je .LBB88_11
	xorl %eax, %eax
.LBB88_11:
	addq $104, %rsp
	popq %rbx
	popq %rbp
	popq %rdi
	popq %rsi
	retq
	.seh_endproc
	.globl v2_yz_merkle_verify_inclusion
	.p2align 4
v2_yz_merkle_verify_inclusion:
.seh_proc v2_yz_merkle_verify_inclusion
	pushq %r15
	.seh_pushreg %r15
	pushq %r14
	.seh_pushreg %r14
	pushq %r12
	.seh_pushreg %r12
	pushq %rsi
	.seh_pushreg %rsi
	pushq %rdi
	.seh_pushreg %rdi
	pushq %rbx
	.seh_pushreg %rbx
	subq $136, %rsp
	.seh_stackalloc 136
	.seh_endprologue
	xorl %eax, %eax
	testq %r9, %r9
	sete %r11b
	xorps %xmm0, %xmm0
	movaps %xmm0, 80(%rsp)
	movaps %xmm0, 64(%rsp)
	movaps %xmm0, 112(%rsp)
	movaps %xmm0, 96(%rsp)
	cmpq %rdx, %r8
	jbe .LBB89_5
	movq 224(%rsp), %r10
	xorl %esi, %esi
	decq %r8
	je .LBB89_4
	movq %r8, %rdi
	movq %rdx, %rbx
	.p2align 4
.LBB89_3:
	movl %ebx, %r14d
	andl $1, %r14d
	movq %rbx, %r15
	xorq %rdi, %r15
	xorl %r12d, %r12d
	orq %r14, %r15
	setne %r12b
	addq %r12, %rsi
	shrq %rbx
	shrq %rdi
	jne .LBB89_3
.LBB89_4:
	cmpq %rsi, %r10
	jne .LBB89_5
	movb %r11b, %al
	shll $12, %eax
	movq 232(%rsp), %rsi
	addq %rax, %r9
	leaq 64(%rsp), %rax
	movq %rax, 56(%rsp)
	movq %r10, 48(%rsp)
	movq %r9, 40(%rsp)
	movq %rcx, 32(%rsp)
	leaq 96(%rsp), %rdi
	movq %rdi, %rcx
	movb $1, %r9b
	callq ring_merkle.place.Place.climb
	movq %rdi, %rcx
	movq %rsi, %rdx
	callq ring_merkle.hash.is_same
	xorb $1, %al
	movzbl %al, %eax
	shll $3, %eax
	jmp .LBB89_7
.LBB89_5:
	movl $8, %eax
.LBB89_7:
	addq $136, %rsp
	popq %rbx
	popq %rdi
	popq %rsi
	popq %r12
	popq %r14
	popq %r15
	retq
	.seh_endproc
	.globl yz_output_len
	.p2align 4
yz_output_len:
	decl %ecx
	cmpl $4, %ecx
	ja .LBB90_1
	movl %ecx, %eax
	leaq .Lswitch.table.v2_yz_webhook_verify_stripe(%rip), %rcx
	movq (%rcx,%rax,8), %rax
	retq
.LBB90_1:
	xorl %eax, %eax
	retq
	.globl yz_password_hash_info
	.p2align 4
yz_password_hash_info:
.seh_proc yz_password_hash_info
	pushq %r15
	.seh_pushreg %r15
	pushq %r14
	.seh_pushreg %r14
	pushq %r12
	.seh_pushreg %r12
	pushq %rsi
	.seh_pushreg %rsi
	pushq %rdi
	.seh_pushreg %rdi
	pushq %rbx
	.seh_pushreg %rbx
	subq $2120, %rsp
	.seh_stackalloc 2120
	.seh_endprologue
	movq %r9, %rsi
	movq %r8, %rdi
	movq %rdx, %r14
	xorl %r15d, %r15d
	testq %rcx, %rcx
	sete %r15b
	shll $12, %r15d
	addq %rcx, %r15
	xorl %ebx, %ebx
	leaq 40(%rsp), %r12
	movl $2080, %r8d
	movq %r12, %rcx
	xorl %edx, %edx
	callq memset
	movq %r12, %rcx
	movq %r15, %rdx
	movq %r14, %r8
	callq ring_password_hash.stored.Stored.parse
	cmpb $0, 40(%rsp)
	je .LBB91_1
	movl $4, %ebx
	cmpq $1024, %r14
	ja .LBB91_4
	movzbl 41(%rsp), %eax
	leaq .Lswitch.table.v2_yz_password_hash_verify(%rip), %rcx
	movl (%rcx,%rax,4), %ebx
	jmp .LBB91_4
.LBB91_1:
	movzbl 48(%rsp), %eax
	movl 52(%rsp), %ecx
	incl %eax
	movl %eax, (%rdi)
	movl %ecx, (%rsi)
.LBB91_4:
	movl %ebx, %eax
	addq $2120, %rsp
	popq %rbx
	popq %rdi
	popq %rsi
	popq %r12
	popq %r14
	popq %r15
	retq
	.seh_endproc
	.globl v2_yz_password_hash_new
	.p2align 4
v2_yz_password_hash_new:
.seh_proc v2_yz_password_hash_new
	pushq %r15
	.seh_pushreg %r15
	pushq %r14
	.seh_pushreg %r14
	pushq %r13
	.seh_pushreg %r13
	pushq %r12
	.seh_pushreg %r12
	pushq %rsi
	.seh_pushreg %rsi
	pushq %rdi
	.seh_pushreg %rdi
	pushq %rbp
	.seh_pushreg %rbp
	pushq %rbx
	.seh_pushreg %rbx
	movl $5288, %eax
	callq yz_probe_stack
	subq %rax, %rsp
	.seh_stackalloc 5288
	.seh_endprologue
	movq %r8, %r14
	movl %ecx, %r13d
	movq 5408(%rsp), %rsi
	movq 5392(%rsp), %r12
	xorl %ebx, %ebx
	testq %r8, %r8
	sete %r11b
	xorl %edi, %edi
	testq %r12, %r12
	sete %r10b
	xorl %ecx, %ecx
	testq %rsi, %rsi
	sete %r8b
	xorps %xmm0, %xmm0
	movaps %xmm0, 128(%rsp)
	movaps %xmm0, 112(%rsp)
	decl %r13d
	xorl %ebp, %ebp
	movl $1, %eax
	cmpl $12, %r13d
	cmovbl %r13d, %ebp
	jae .LBB92_20
	testl %edx, %edx
	je .LBB92_2
	movb %r11b, %bl
	shll $12, %ebx
	addq %rbx, %r14
	movb %r10b, %dil
	shll $12, %edi
	addq %rdi, %r12
	movb %r8b, %cl
	shll $12, %ecx
	addq %rcx, %rsi
	leaq 3272(%rsp), %r11
	leaq 3260(%rsp), %rax
	leaq 3304(%rsp), %rcx
	movzbl %r13b, %r10d
	movl $32, %edi
	movq %r9, 104(%rsp)
	movl %edx, 76(%rsp)
	movl $309, %r8d
	btl %r10d, %r8d
	jb .LBB92_7
	movl $1608, %r8d
	btl %r10d, %r8d
	jae .LBB92_5
	movl $64, %edi
	movq %rcx, %r11
	jmp .LBB92_7
.LBB92_2:
	movl $3, %eax
	jmp .LBB92_20
.LBB92_5:
	movl $20, %edi
	movq %rax, %r11
.LBB92_7:
	movq %r11, 88(%rsp)
	movq %rsi, 80(%rsp)
	leaq 144(%rsp), %rsi
	movl $1024, %r8d
	movq %rsi, %rcx
	xorl %edx, %edx
	callq memset
	movl %r13d, %eax
	andb $14, %al
	cmpb $4, %al
	sete %bl
	leaq 1168(%rsp), %r15
	movl $1024, %r8d
	movq %r15, %rcx
	xorl %edx, %edx
	callq memset
	movq %rdi, 96(%rsp)
	movq %rdi, 56(%rsp)
	movq %rsi, 48(%rsp)
	movq 104(%rsp), %rdi
	movq %rdi, 40(%rsp)
	movq %r14, 32(%rsp)
	movq %r15, %rcx
	movl %r13d, %edx
	movb %bl, 75(%rsp)
	movl %ebx, %r8d
	movl 76(%rsp), %r15d
	movl %r15d, %r9d
	callq ring_password_hash.stored.put_text
	cmpb $1, %al
	sete %al
	cmpq 5416(%rsp), %rdx
	setbe %cl
	testb %cl, %al
	je .LBB92_8
	testq %rdi, %rdi
	movq 96(%rsp), %rsi
	je .LBB92_14
	movq %rdi, %rbx
	addb $-4, %r13b
	cmpb $7, %r13b
	jae .LBB92_11
.LBB92_15:
	leaq 112(%rsp), %rax
	movq %rax, 64(%rsp)
	movq %rsi, 56(%rsp)
	leaq 144(%rsp), %rax
	movq %rax, 48(%rsp)
	movl %r15d, 40(%rsp)
	movq %rbx, 32(%rsp)
	movl %ebp, %ecx
	movq %r12, %rdx
	movq 5400(%rsp), %r8
	movq %r14, %r9
	callq ring_password_hash.derived.derive
	testb %al, %al
	je .LBB92_16
	movl $8, %eax
	jmp .LBB92_20
.LBB92_8:
	movl $4, %eax
	jmp .LBB92_20
.LBB92_11:
	xorl %eax, %eax
	.p2align 4
.LBB92_12:
	cmpq %rax, %rbx
	je .LBB92_15
	cmpb $36, (%r14,%rax)
	leaq 1(%rax), %rax
	jne .LBB92_12
.LBB92_14:
	movl $7, %eax
	jmp .LBB92_20
.LBB92_16:
	movl $1024, %r12d
	movl $1024, %eax
	subq %rbx, %rax
	cmpq $1024, %rbx
	movl $0, %r8d
	cmovbq %rax, %r8
	leaq (%rsp,%rbx), %rcx
	addq $4264, %rcx
	xorl %edx, %edx
	callq memset
	movq %rsi, %r13
	leaq 4264(%rsp), %rdi
	movq %rdi, %rcx
	movq %r14, %rdx
	movq %rbx, %r8
	callq memcpy
	subq %rsi, %r12
	movq 88(%rsp), %rcx
	xorl %edx, %edx
	movq %r12, %r8
	callq memset
	leaq 3240(%rsp), %r12
	leaq 144(%rsp), %rdx
	movq %r12, %rcx
	movq %rsi, %r8
	callq memcpy
	movb %bpl, 1168(%rsp)
	movzbl 75(%rsp), %esi
	movb %sil, 1169(%rsp)
	movw $0, 1170(%rsp)
	movl %r15d, 1172(%rsp)
	leaq 1176(%rsp), %r14
	movl $1024, %r8d
	movq %r14, %rcx
	movq %rdi, %rdx
	callq memcpy
	movq %rbx, 2200(%rsp)
	leaq 2208(%rsp), %rdi
	movl $1024, %r8d
	movq %rdi, %rcx
	movq %r12, %rdx
	callq memcpy
	movq %r13, 3232(%rsp)
	leaq 144(%rsp), %r12
	movl $1024, %r8d
	movq %r12, %rcx
	xorl %edx, %edx
	callq memset
	movq %r13, 56(%rsp)
	movq %rdi, 48(%rsp)
	movq %rbx, 40(%rsp)
	movq %r14, 32(%rsp)
	movq %r12, %rcx
	movl %ebp, %edx
	movl %esi, %r8d
	movl %r15d, %r9d
	callq ring_password_hash.stored.put_text
	cmpb $1, %al
	jne .LBB92_21
	movq %rdx, %rdi
	cmpq %rdx, 5416(%rsp)
	jb .LBB92_21
	leaq 144(%rsp), %rdx
	movq 80(%rsp), %rcx
	movq %rdi, %r8
	callq memcpy
	movq 5424(%rsp), %rax
	movq %rdi, (%rax)
	xorl %eax, %eax
.LBB92_20:
	addq $5288, %rsp
	popq %rbx
	popq %rbp
	popq %rdi
	popq %rsi
	popq %r12
	popq %r13
	popq %r14
	popq %r15
	retq
.LBB92_21:
	ud2
	.seh_endproc
	.globl yz_password_hash_salt
	.p2align 4
yz_password_hash_salt:
.seh_proc yz_password_hash_salt
	pushq %rsi
	.seh_pushreg %rsi
	pushq %rdi
	.seh_pushreg %rdi
	pushq %rbx
	.seh_pushreg %rbx
	subq $96, %rsp
	.seh_stackalloc 96
	.seh_endprologue
	xorl %r10d, %r10d
	testq %rdx, %rdx
	sete %dil
	xorl %r11d, %r11d
	testq %r9, %r9
	sete %bl
	xorps %xmm0, %xmm0
	movaps %xmm0, 32(%rsp)
	movq $0, 47(%rsp)
	decl %ecx
	movl $1, %eax
	cmpl $11, %ecx
	ja .LBB93_8
	addb $-4, %cl
	cmpb $7, %cl
	movl $16, %eax
	movl $22, %esi
	cmovbq %rax, %rsi
	movl $4, %eax
	cmpq %rsi, 160(%rsp)
	jb .LBB93_8
	movl $8, %eax
	cmpq $16, %r8
	jne .LBB93_8
	movb %dil, %r10b
	shll $12, %r10d
	movb %bl, %r11b
	shll $12, %r11d
	addq %r11, %r9
	movq (%rdx,%r10), %r11
	movq 8(%rdx,%r10), %r8
	cmpb $7, %cl
	jae .LBB93_4
	leaq 33(%rsp), %rdx
	movq %r11, 33(%rsp)
	movq %r8, 41(%rsp)
	movl $0, 49(%rsp)
	movw $0, 53(%rsp)
	movl $16, %r8d
	jmp .LBB93_7
.LBB93_4:
	bswapq %r8
	bswapq %r11
	movaps %xmm0, 64(%rsp)
	movq $0, 78(%rsp)
	xorl %r10d, %r10d
	.p2align 4
.LBB93_5:
	movq %r11, %rax
	shrq %rax
	movabsq $-8925843906633654007, %rdi
	mulq %rdi
	movq %rdx, %rcx
	shrq $4, %rcx
	movq %rcx, %rax
	shlq $6, %rax
	leaq (%rcx,%rcx), %rdx
	subq %rax, %rdx
	addq %r11, %rdx
	movabsq $297528130221121800, %r11
	imulq %rdx, %r11
	movl %edx, %ebx
	shll $4, %ebx
	movq %r8, %rax
	shrq %rax
	mulq %rdi
	shrq $4, %rdx
	leal (%rdx,%rdx), %eax
	addq %rdx, %r11
	shll $6, %edx
	subl %edx, %eax
	addl %eax, %r8d
	addl %ebx, %r8d
	imull $2115, %r8d, %eax
	shrl $17, %eax
	leaq (%rax,%r11), %rdx
	movl %eax, %r11d
	shll $6, %r11d
	addl %eax, %eax
	subl %r11d, %eax
	addl %r8d, %eax
	movzwl %ax, %eax
	leaq .Lstatic.57(%rip), %r8
	movzbl (%rax,%r8), %eax
	movb %al, 64(%rsp,%r10)
	incq %r10
	movq %rcx, %r11
	movq %rdx, %r8
	cmpq $22, %r10
	jne .LBB93_5
	movzwl 84(%rsp), %eax
	movw %ax, 53(%rsp)
	movl 80(%rsp), %eax
	movl %eax, 49(%rsp)
	leaq 33(%rsp), %rdx
	movaps 64(%rsp), %xmm0
	movups %xmm0, 33(%rsp)
	movl $22, %r8d
.LBB93_7:
	movq 168(%rsp), %rdi
	movq %r9, %rax
	subq %rdx, %rax
	cmpq %r8, %rax
	movq %r9, %rcx
	callq memcpy
	movq %rsi, (%rdi)
	xorl %eax, %eax
.LBB93_8:
	addq $96, %rsp
	popq %rbx
	popq %rdi
	popq %rsi
	retq
	.seh_endproc
	.globl v2_yz_password_hash_verify
	.p2align 4
v2_yz_password_hash_verify:
.seh_proc v2_yz_password_hash_verify
	pushq %r15
	.seh_pushreg %r15
	pushq %r14
	.seh_pushreg %r14
	pushq %r13
	.seh_pushreg %r13
	pushq %r12
	.seh_pushreg %r12
	pushq %rsi
	.seh_pushreg %rsi
	pushq %rdi
	.seh_pushreg %rdi
	pushq %rbp
	.seh_pushreg %rbp
	pushq %rbx
	.seh_pushreg %rbx
	movl $5288, %eax
	callq yz_probe_stack
	subq %rax, %rsp
	.seh_stackalloc 5288
	.seh_endprologue
	xorl %r15d, %r15d
	testq %r8, %r8
	sete %bpl
	pxor %xmm0, %xmm0
	movdqa %xmm0, 96(%rsp)
	movdqa %xmm0, 80(%rsp)
	movl $4, %eax
	cmpq $1024, %rdx
	ja .LBB94_22
	movq %rdx, %rdi
	movq %r8, %r12
	movq %r9, %rsi
	xorl %ebx, %ebx
	testq %rcx, %rcx
	sete %bl
	shll $12, %ebx
	addq %rcx, %rbx
	leaq 3208(%rsp), %r14
	movl $2080, %r8d
	movq %r14, %rcx
	xorl %edx, %edx
	callq memset
	movq %r14, %rcx
	movq %rbx, %rdx
	movq %rdi, %r8
	callq ring_password_hash.stored.Stored.parse
	cmpb $0, 3208(%rsp)
	je .LBB94_2
	movzbl 3209(%rsp), %ecx
	jmp .LBB94_21
.LBB94_2:
	movl 5392(%rsp), %edi
	leaq 3216(%rsp), %rdx
	leaq 112(%rsp), %rcx
	movl $2072, %r8d
	callq memcpy
	movl 116(%rsp), %r13d
	movb $1, %cl
	cmpl %r13d, %edi
	jb .LBB94_21
	movb %bpl, %r15b
	shll $12, %r15d
	movq %r12, %rdi
	addq %r15, %rdi
	leaq 2184(%rsp), %rbx
	movl $1024, %r8d
	movq %rbx, %rcx
	xorl %edx, %edx
	callq memset
	movq 2176(%rsp), %r14
	movq 1144(%rsp), %rax
	leaq 120(%rsp), %r9
	movzbl 112(%rsp), %ecx
	leaq 80(%rsp), %rdx
	movq %rdx, 64(%rsp)
	movq %r14, 56(%rsp)
	movq %rbx, 48(%rsp)
	movl %r13d, 40(%rsp)
	movq %rax, 32(%rsp)
	movq %rdi, %rdx
	movq %rsi, %r8
	callq ring_password_hash.derived.derive
	movb $2, %cl
	testb %al, %al
	jne .LBB94_21
	cmpq %r14, 2176(%rsp)
	jne .LBB94_21
	testq %r14, %r14
	je .LBB94_23
	cmpq $4, %r14
	jae .LBB94_9
	xorl %ecx, %ecx
	xorl %eax, %eax
	jmp .LBB94_8
.LBB94_21:
	movzbl %cl, %eax
	leaq .Lswitch.table.v2_yz_password_hash_verify(%rip), %rcx
	movl (%rcx,%rax,4), %eax
.LBB94_22:
	addq $5288, %rsp
	popq %rbx
	popq %rbp
	popq %rdi
	popq %rsi
	popq %r12
	popq %r13
	popq %r14
	popq %r15
	retq
.LBB94_23:
	xorl %eax, %eax
	jmp .LBB94_22
.LBB94_9:
	cmpq $32, %r14
	jae .LBB94_11
	xorl %eax, %eax
	xorl %ecx, %ecx
	jmp .LBB94_15
.LBB94_11:
	movq %r14, %rax
	andq $-32, %rax
	pxor %xmm0, %xmm0
	xorl %ecx, %ecx
	pxor %xmm1, %xmm1
.LBB94_12:
	movdqu 1152(%rsp,%rcx), %xmm2
	movdqu 1168(%rsp,%rcx), %xmm3
	movdqu 2184(%rsp,%rcx), %xmm4
	pxor %xmm2, %xmm4
	por %xmm4, %xmm1
	movdqu 2200(%rsp,%rcx), %xmm2
	pxor %xmm3, %xmm2
	por %xmm2, %xmm0
	addq $32, %rcx
	cmpq %rcx, %rax
	jne .LBB94_12
	por %xmm1, %xmm0
	pshufd $238, %xmm0, %xmm1
	por %xmm0, %xmm1
	pshufd $85, %xmm1, %xmm0
	por %xmm1, %xmm0
	movdqa %xmm0, %xmm1
	psrld $16, %xmm1
	por %xmm0, %xmm1
	movdqa %xmm1, %xmm0
	psrlw $8, %xmm0
	por %xmm1, %xmm0
	movd %xmm0, %ecx
	cmpq %rax, %r14
	je .LBB94_19
	testb $28, %r14b
	je .LBB94_8
.LBB94_15:
	movq %rax, %rdx
	movq %r14, %rax
	andq $-4, %rax
	movzbl %cl, %ecx
	movd %ecx, %xmm0
.LBB94_16:
	movl 2184(%rsp,%rdx), %ecx
	xorl 1152(%rsp,%rdx), %ecx
	movd %ecx, %xmm1
	por %xmm1, %xmm0
	addq $4, %rdx
	cmpq %rdx, %rax
	jne .LBB94_16
	movdqa %xmm0, %xmm1
	psrld $16, %xmm1
	por %xmm0, %xmm1
	movdqa %xmm1, %xmm0
	psrlw $8, %xmm0
	por %xmm1, %xmm0
	movd %xmm0, %ecx
	jmp .LBB94_18
.LBB94_8:
	movzbl 2184(%rsp,%rax), %edx
	xorb 1152(%rsp,%rax), %dl
	orb %dl, %cl
	incq %rax
.LBB94_18:
	cmpq %rax, %r14
	jne .LBB94_8
.LBB94_19:
	xorl %eax, %eax
	testb %cl, %cl
	setne %al
	shll $3, %eax
	jmp .LBB94_22
	.seh_endproc
	.globl v2_yz_pbkdf2_derive
	.p2align 4
v2_yz_pbkdf2_derive:
.seh_proc v2_yz_pbkdf2_derive
	pushq %r15
	.seh_pushreg %r15
	pushq %r14
	.seh_pushreg %r14
	pushq %r13
	.seh_pushreg %r13
	pushq %r12
	.seh_pushreg %r12
	pushq %rsi
	.seh_pushreg %rsi
	pushq %rdi
	.seh_pushreg %rdi
	pushq %rbp
	.seh_pushreg %rbp
	pushq %rbx
	.seh_pushreg %rbx
	subq $120, %rsp
	.seh_stackalloc 120
	.seh_endprologue
	movq 240(%rsp), %r11
	movq 224(%rsp), %r10
	xorl %r14d, %r14d
	testq %r8, %r8
	sete %r15b
	xorl %edi, %edi
	testq %r10, %r10
	sete %r12b
	xorl %esi, %esi
	testq %r11, %r11
	sete %bl
	decl %ecx
	movl $1, %eax
	cmpl $3, %ecx
	ja .LBB95_5
	testl %edx, %edx
	je .LBB95_2
	movq %r9, 72(%rsp)
	movl %ecx, %r13d
	movl $4, %eax
	leaq .Lswitch.table.v2_yz_pbkdf2_verify(%rip), %rbp
	movl %r15d, %r9d
	movl %ebx, %r15d
	movq 248(%rsp), %rbx
	cmpq %rbx, (%rbp,%r13,8)
	movl %r15d, %ebx
	movl %r9d, %r15d
	movq 72(%rsp), %r9
	movq 248(%rsp), %r13
	jb .LBB95_5
	movq 232(%rsp), %rax
	movb %r15b, %r14b
	shll $12, %r14d
	addq %r14, %r8
	movb %r12b, %dil
	shll $12, %edi
	addq %rdi, %r10
	movb %bl, %sil
	shll $12, %esi
	addq %rsi, %r11
	xorps %xmm0, %xmm0
	movaps %xmm0, 96(%rsp)
	movaps %xmm0, 80(%rsp)
	leaq 80(%rsp), %rsi
	movq %rsi, 64(%rsp)
	movq %r13, 56(%rsp)
	movq %r11, 48(%rsp)
	movq %rax, 40(%rsp)
	movq %r10, 32(%rsp)
	callq ring.pbkdf2.derive_in.128
	shlb $3, %al
	movzbl %al, %eax
	jmp .LBB95_5
.LBB95_2:
	movl $3, %eax
.LBB95_5:
	addq $120, %rsp
	popq %rbx
	popq %rbp
	popq %rdi
	popq %rsi
	popq %r12
	popq %r13
	popq %r14
	popq %r15
	retq
	.seh_endproc
	.globl v2_yz_pbkdf2_verify
	.p2align 4
v2_yz_pbkdf2_verify:
.seh_proc v2_yz_pbkdf2_verify
	pushq %r15
	.seh_pushreg %r15
	pushq %r14
	.seh_pushreg %r14
	pushq %r13
	.seh_pushreg %r13
	pushq %r12
	.seh_pushreg %r12
	pushq %rsi
	.seh_pushreg %rsi
	pushq %rdi
	.seh_pushreg %rdi
	pushq %rbp
	.seh_pushreg %rbp
	pushq %rbx
	.seh_pushreg %rbx
	subq $2680, %rsp
	.seh_stackalloc 2680
	.seh_endprologue
	movq %r8, %r11
	movq 2784(%rsp), %r8
	xorl %esi, %esi
	testq %r11, %r11
	sete %dil
	xorl %r14d, %r14d
	testq %r8, %r8
	sete %r13b
	xorl %r15d, %r15d
	cmpq $0, 2800(%rsp)
	sete %bl
	decl %ecx
	movl $1, %eax
	cmpl $3, %ecx
	ja .LBB96_24
	testl %edx, %edx
	je .LBB96_2
	xorps %xmm0, %xmm0
	movaps %xmm0, 112(%rsp)
	movaps %xmm0, 96(%rsp)
	movaps %xmm0, 160(%rsp)
	movaps %xmm0, 176(%rsp)
	movaps %xmm0, 192(%rsp)
	movl $8, %eax
	cmpq $0, 2808(%rsp)
	je .LBB96_24
	cmpl $2, %ecx
	setb %bpl
	movabsq $2305843009213693883, %r12
	leaq 68(%r12), %r10
	cmpq %r10, 2792(%rsp)
	seta %r10b
	cmpq %r12, %r9
	seta %r12b
	orb %r10b, %r12b
	testb %bpl, %r12b
	jne .LBB96_24
	movl %ecx, %ebp
	leaq .Lswitch.table.v2_yz_pbkdf2_verify(%rip), %r10
	movq 2808(%rsp), %r12
	movq %rbp, 128(%rsp)
	cmpq (%r10,%rbp,8), %r12
	ja .LBB96_24
	movq %r11, %rbp
	movl %ecx, %r12d
	movq %r9, 56(%rsp)
	movl %edx, 52(%rsp)
	movb %r13b, %r14b
	shll $12, %r14d
	addq %r14, %r8
	movaps %xmm0, 432(%rsp)
	movaps %xmm0, 416(%rsp)
	movaps %xmm0, 400(%rsp)
	movaps %xmm0, 384(%rsp)
	movaps %xmm0, 368(%rsp)
	movaps %xmm0, 352(%rsp)
	movaps %xmm0, 336(%rsp)
	movaps %xmm0, 320(%rsp)
	movaps %xmm0, 304(%rsp)
	movaps %xmm0, 288(%rsp)
	movaps %xmm0, 272(%rsp)
	movaps %xmm0, 256(%rsp)
	movaps %xmm0, 240(%rsp)
	leaq 96(%rsp), %rax
	movq %rax, 32(%rsp)
	leaq 240(%rsp), %rcx
	movl %r12d, %edx
	movq 2792(%rsp), %r9
	callq ring.hmac.key.Key.new_counted
	cmpb $0, 240(%rsp)
	jne .LBB96_25
	movb %dil, %sil
	shll $12, %esi
	addq %rsi, %rbp
	movb %bl, %r15b
	shll $12, %r15d
	movq 2800(%rsp), %rdi
	leaq (%rdi,%r15), %rax
	movq %rax, 144(%rsp)
	leaq 256(%rsp), %rdx
	leaq 2480(%rsp), %rbx
	movl $192, %r8d
	movq %rbx, %rcx
	callq memcpy
	movq %rbp, 224(%rsp)
	movq 56(%rsp), %rax
	movq %rax, 232(%rsp)
	movb %r12b, 160(%rsp)
	movq %rbx, 168(%rsp)
	movq $1, 176(%rsp)
	leaq 224(%rsp), %rax
	movq %rax, 184(%rsp)
	movq $1, 192(%rsp)
	movl 52(%rsp), %eax
	movl %eax, 200(%rsp)
	movq 2808(%rsp), %r14
	movq %r14, 208(%rsp)
	movq $1, 80(%rsp)
	xorl %esi, %esi
	leaq 1968(%rsp), %rcx
	movl $512, %r8d
	xorl %edx, %edx
	callq memset
	leaq 240(%rsp), %rcx
	movl $1728, %r8d
	xorl %edx, %edx
	callq memset
	movq $0, 72(%rsp)
	movq $0, 88(%rsp)
	leaq (%r15,%rdi), %rax
	incq %rax
	movq %rax, 136(%rsp)
	movl $1, %ebp
	movb $1, %r13b
	movl %r12d, 68(%rsp)
	jmp .LBB96_8
	.p2align 4
.LBB96_22:
	movq %rax, 112(%rsp)
	movq %rcx, 120(%rsp)
	movq %r9, 72(%rsp)
	movl %ebp, 80(%rsp)
	movl $0, 84(%rsp)
	movq %rsi, 88(%rsp)
	testq %r9, %r9
	movl 68(%rsp), %r12d
	jne .LBB96_23
.LBB96_8:
	leaq 160(%rsp), %rcx
	leaq 72(%rsp), %rdx
	callq ring.pbkdf2.rounds.rounds_from
	testb %r12b, %r12b
	je .LBB96_11
	movzbl %r12b, %ecx
	movl $1, %edx
	cmpl $1, %ecx
	jne .LBB96_12
	movzbl yz_instructions(%rip), %ecx
	testb %cl, %cl
	jne .LBB96_12
.LBB96_11:
	xorl %ecx, %ecx
	cmpl $4, %eax
	setae %cl
	leaq (%rcx,%rcx,2), %rdx
	incq %rdx
.LBB96_12:
	movq %rdx, 56(%rsp)
	xorl %r15d, %r15d
	leaq 1968(%rsp), %rcx
	movl $512, %r8d
	xorl %edx, %edx
	callq memset
	movl $1, 240(%rsp)
	xorps %xmm0, %xmm0
	leaq 256(%rsp), %rax
	movups %xmm0, -12(%rax)
	movups %xmm0, 4(%rax)
	movups %xmm0, 20(%rax)
	movups %xmm0, 36(%rax)
	movl $0, 52(%rax)
	movl $1, 312(%rsp)
	movups %xmm0, 108(%rax)
	movups %xmm0, 92(%rax)
	movups %xmm0, 76(%rax)
	movups %xmm0, 60(%rax)
	movl $0, 124(%rax)
	movl $1, 384(%rsp)
	movups %xmm0, 180(%rax)
	movups %xmm0, 164(%rax)
	movups %xmm0, 148(%rax)
	movups %xmm0, 132(%rax)
	movl $0, 196(%rax)
	movl $1, 456(%rsp)
	movups %xmm0, 252(%rax)
	movups %xmm0, 236(%rax)
	movups %xmm0, 220(%rax)
	movups %xmm0, 204(%rax)
	movl $0, 268(%rax)
	movl $1, 528(%rsp)
	movups %xmm0, 324(%rax)
	movups %xmm0, 308(%rax)
	movups %xmm0, 292(%rax)
	movups %xmm0, 276(%rax)
	movl $0, 340(%rax)
	movl $1, 600(%rsp)
	movups %xmm0, 396(%rax)
	movups %xmm0, 380(%rax)
	movups %xmm0, 364(%rax)
	movups %xmm0, 348(%rax)
	movl $0, 412(%rax)
	movl $1, 672(%rsp)
	movups %xmm0, 468(%rax)
	movups %xmm0, 452(%rax)
	movups %xmm0, 436(%rax)
	movups %xmm0, 420(%rax)
	movl $0, 484(%rax)
	movl $1, 744(%rsp)
	movups %xmm0, 540(%rax)
	movups %xmm0, 524(%rax)
	movups %xmm0, 508(%rax)
	movups %xmm0, 492(%rax)
	movl $0, 556(%rax)
	movl $1, 816(%rsp)
	movups %xmm0, 612(%rax)
	movups %xmm0, 596(%rax)
	movups %xmm0, 580(%rax)
	movups %xmm0, 564(%rax)
	movl $0, 628(%rax)
	movl $1, 888(%rsp)
	movups %xmm0, 684(%rax)
	movups %xmm0, 668(%rax)
	movups %xmm0, 652(%rax)
	movups %xmm0, 636(%rax)
	movl $0, 700(%rax)
	movl $1, 960(%rsp)
	movups %xmm0, 756(%rax)
	movups %xmm0, 740(%rax)
	movups %xmm0, 724(%rax)
	movups %xmm0, 708(%rax)
	movl $0, 772(%rax)
	movl $1, 1032(%rsp)
	movups %xmm0, 828(%rax)
	movups %xmm0, 812(%rax)
	movups %xmm0, 796(%rax)
	movups %xmm0, 780(%rax)
	movl $0, 844(%rax)
	movl $1, 1104(%rsp)
	movups %xmm0, 900(%rax)
	movups %xmm0, 884(%rax)
	movups %xmm0, 868(%rax)
	movups %xmm0, 852(%rax)
	movl $0, 916(%rax)
	movl $1, 1176(%rsp)
	movups %xmm0, 972(%rax)
	movups %xmm0, 956(%rax)
	movups %xmm0, 940(%rax)
	movups %xmm0, 924(%rax)
	movl $0, 988(%rax)
	movl $1, 1248(%rsp)
	movups %xmm0, 1044(%rax)
	movups %xmm0, 1028(%rax)
	movups %xmm0, 1012(%rax)
	movups %xmm0, 996(%rax)
	movl $0, 1060(%rax)
	movl $1, 1320(%rsp)
	movups %xmm0, 1116(%rax)
	movups %xmm0, 1100(%rax)
	movups %xmm0, 1084(%rax)
	movups %xmm0, 1068(%rax)
	movl $0, 1132(%rax)
	movl $1, 1392(%rsp)
	movups %xmm0, 1188(%rax)
	movups %xmm0, 1172(%rax)
	movups %xmm0, 1156(%rax)
	movups %xmm0, 1140(%rax)
	movl $0, 1204(%rax)
	movl $1, 1464(%rsp)
	movups %xmm0, 1260(%rax)
	movups %xmm0, 1244(%rax)
	movups %xmm0, 1228(%rax)
	movups %xmm0, 1212(%rax)
	movl $0, 1276(%rax)
	movl $1, 1536(%rsp)
	movups %xmm0, 1332(%rax)
	movups %xmm0, 1316(%rax)
	movups %xmm0, 1300(%rax)
	movups %xmm0, 1284(%rax)
	movl $0, 1348(%rax)
	movl $1, 1608(%rsp)
	movups %xmm0, 1404(%rax)
	movups %xmm0, 1388(%rax)
	movups %xmm0, 1372(%rax)
	movups %xmm0, 1356(%rax)
	movl $0, 1420(%rax)
	movl $1, 1680(%rsp)
	movups %xmm0, 1476(%rax)
	movups %xmm0, 1460(%rax)
	movups %xmm0, 1444(%rax)
	movups %xmm0, 1428(%rax)
	movl $0, 1492(%rax)
	movl $1, 1752(%rsp)
	movups %xmm0, 1548(%rax)
	movups %xmm0, 1532(%rax)
	movups %xmm0, 1516(%rax)
	movups %xmm0, 1500(%rax)
	movl $0, 1564(%rax)
	movl $1, 1824(%rsp)
	movups %xmm0, 1620(%rax)
	movups %xmm0, 1604(%rax)
	movups %xmm0, 1588(%rax)
	movups %xmm0, 1572(%rax)
	movl $0, 1636(%rax)
	movl $1, 1896(%rsp)
	movups %xmm0, 1692(%rax)
	movups %xmm0, 1676(%rax)
	movups %xmm0, 1660(%rax)
	movups %xmm0, 1644(%rax)
	movl $0, 1708(%rax)
	leaq 96(%rsp), %rdi
	movq %rdi, 32(%rsp)
	leaq 160(%rsp), %rbx
	leaq 72(%rsp), %rdx
	leaq 240(%rsp), %r12
	movq %rbx, %rcx
	movq 56(%rsp), %r8
	movq %r12, %r9
	callq ring.pbkdf2.rounds.set_starts
	movq %rdi, 32(%rsp)
	movq 56(%rsp), %rdi
	movq %rbx, %rcx
	movq %r12, %rdx
	leaq 1968(%rsp), %r8
	movq %rdi, %r9
	callq ring.pbkdf2.rounds.write_rounds.128
	leaq .Lswitch.table.v2_yz_tls13_finished_verify(%rip), %r8
	movq 128(%rsp), %rdx
	movq (%r8,%rdx,8), %r12
	movq 112(%rsp), %rax
	movq 120(%rsp), %rcx
	movq (%r8,%rdx,8), %r8
	leaq 1969(%rsp), %r10
	xorl %r9d, %r9d
	movq %r12, 152(%rsp)
	jmp .LBB96_13
	.p2align 4
.LBB96_15:
	xorl %r12d, %r12d
	xorl %r13d, %r13d
.LBB96_19:
	movl %r12d, %edx
	movq %r15, %rdi
	shlq $6, %rdi
	movq 144(%rsp), %rbx
	addq %rsi, %rbx
	addq %rsp, %rdi
	addq $1968, %rdi
	movzbl (%rbx,%r13), %r12d
	xorb (%rdi,%r13), %r12b
	orb %dl, %r12b
	addq $1, %rax
	adcq $0, %rcx
	movq $-1, %rdx
	cmovbq %rdx, %rcx
	cmovbq %rdx, %rax
.LBB96_20:
	testb %r12b, %r12b
	sete %dl
	movzbl 52(%rsp), %r13d
	andb %dl, %r13b
	movq 56(%rsp), %rdi
	movq 152(%rsp), %r12
.LBB96_21:
	movq %rsi, %rdx
	addq %r8, %rdx
	cmpq %r11, %r8
	sbbq $-1, %r9
	xorl %esi, %esi
	cmpq %r11, %r8
	cmovbq %rdx, %rsi
	movl %ebp, %edx
	incl %edx
	cmpq %r11, %r8
	movl $1, %ebp
	cmovbl %edx, %ebp
	incq %r15
	addq $64, %r10
	cmpq %rdi, %r15
	je .LBB96_22
.LBB96_13:
	movq %r14, %rbx
	subq %rsi, %rbx
	cmpq %r12, %rbx
	cmovaeq %r12, %rbx
	movq %r14, %r11
	subq %rsi, %r11
	je .LBB96_21
	movb %r13b, 52(%rsp)
	cmpq $1, %rbx
	je .LBB96_15
	movq %rbx, %r14
	andq $-2, %r14
	movq 136(%rsp), %rdx
	leaq (%rdx,%rsi), %rdi
	xorl %r12d, %r12d
	xorl %r13d, %r13d
	.p2align 4
.LBB96_17:
	movzbl -1(%rdi,%r13), %edx
	xorb -1(%r10,%r13), %dl
	orb %r12b, %dl
	movzbl (%rdi,%r13), %r12d
	xorb (%r10,%r13), %r12b
	orb %dl, %r12b
	addq $2, %rax
	adcq $0, %rcx
	movq $-1, %rdx
	cmovbq %rdx, %rcx
	cmovbq %rdx, %rax
	addq $2, %r13
	cmpq %r13, %r14
	jne .LBB96_17
	testb $1, %bl
	movq 2808(%rsp), %r14
	jne .LBB96_19
	jmp .LBB96_20
.LBB96_2:
	movl $3, %eax
	jmp .LBB96_24
.LBB96_23:
	notb %r13b
	movzbl %r13b, %eax
	andl $1, %eax
	shll $3, %eax
.LBB96_24:
	addq $2680, %rsp
	popq %rbx
	popq %rbp
	popq %rdi
	popq %rsi
	popq %r12
	popq %r13
	popq %r14
	popq %r15
	retq
.LBB96_25:
	ud2
	.seh_endproc
	.globl v2_yz_tls13_binder_key
	.p2align 4
v2_yz_tls13_binder_key:
.seh_proc v2_yz_tls13_binder_key
	pushq %r15
	.seh_pushreg %r15
	pushq %r14
	.seh_pushreg %r14
	pushq %r13
	.seh_pushreg %r13
	pushq %r12
	.seh_pushreg %r12
	pushq %rsi
	.seh_pushreg %rsi
	pushq %rdi
	.seh_pushreg %rdi
	pushq %rbp
	.seh_pushreg %rbp
	pushq %rbx
	.seh_pushreg %rbx
	subq $1720, %rsp
	.seh_stackalloc 1720
	movaps %xmm6, 1696(%rsp)
	.seh_savexmm %xmm6, 1696
	.seh_endprologue
	movq 1824(%rsp), %r12
	xorl %r14d, %r14d
	testq %rdx, %rdx
	sete %bl
	xorl %r13d, %r13d
	testq %r12, %r12
	sete %sil
	xorps %xmm0, %xmm0
	movups %xmm0, 1071(%rsp)
	movaps %xmm0, 1056(%rsp)
	movaps %xmm0, 1040(%rsp)
	movaps %xmm0, 1024(%rsp)
	movaps %xmm0, 1008(%rsp)
	movaps %xmm0, 992(%rsp)
	movaps %xmm0, 976(%rsp)
	movaps %xmm0, 960(%rsp)
	movaps %xmm0, 944(%rsp)
	movaps %xmm0, 928(%rsp)
	movaps %xmm0, 912(%rsp)
	movaps %xmm0, 896(%rsp)
	movaps %xmm0, 880(%rsp)
	decl %ecx
	movl $1, %eax
	cmpl $3, %ecx
	ja .LBB97_9
	movq 1832(%rsp), %rbp
	movl %ecx, %r10d
	leaq .Lswitch.table.v2_yz_tls13_finished_verify(%rip), %r11
	movl $4, %eax
	cmpq (%r11,%r10,8), %rbp
	jne .LBB97_9
	movl $8, %eax
	testq %r8, %r8
	je .LBB97_9
	movq %rdx, %r15
	movq %r8, %rdi
	movb %r9b, 59(%rsp)
	xorps %xmm6, %xmm6
	movaps %xmm6, 672(%rsp)
	movaps %xmm6, 688(%rsp)
	movaps %xmm6, 704(%rsp)
	movaps %xmm6, 720(%rsp)
	movaps %xmm6, 736(%rsp)
	movaps %xmm6, 752(%rsp)
	movaps %xmm6, 768(%rsp)
	movaps %xmm6, 784(%rsp)
	movaps %xmm6, 800(%rsp)
	movaps %xmm6, 816(%rsp)
	movaps %xmm6, 832(%rsp)
	movaps %xmm6, 848(%rsp)
	movups %xmm6, 863(%rsp)
	movq (%r11,%r10,8), %r9
	movaps %xmm6, 1104(%rsp)
	movaps %xmm6, 1088(%rsp)
	movaps %xmm6, 336(%rsp)
	movaps %xmm6, 320(%rsp)
	movaps %xmm6, 304(%rsp)
	movaps %xmm6, 288(%rsp)
	movaps %xmm6, 272(%rsp)
	movaps %xmm6, 256(%rsp)
	movaps %xmm6, 240(%rsp)
	movaps %xmm6, 224(%rsp)
	movaps %xmm6, 208(%rsp)
	movaps %xmm6, 192(%rsp)
	movaps %xmm6, 176(%rsp)
	movaps %xmm6, 160(%rsp)
	movaps %xmm6, 144(%rsp)
	leaq 1088(%rsp), %rax
	movq %rax, 32(%rsp)
	leaq .Lstatic.58(%rip), %r8
	leaq 144(%rsp), %rax
	movl %ecx, %edx
	movq %rax, %rcx
	movl %edx, 60(%rsp)
	callq ring.hmac.key.Key.new_counted
	cmpb $0, 144(%rsp)
	jne .LBB97_10
	movb %bl, %r14b
	shll $12, %r14d
	movq %r15, %rbx
	addq %r14, %rbx
	leaq 160(%rsp), %rdx
	leaq 367(%rsp), %r14
	movl $192, %r8d
	movq %r14, %rcx
	callq memcpy
	leaq 1504(%rsp), %r15
	movl $192, %r8d
	movq %r15, %rcx
	movq %r14, %rdx
	callq memcpy
	leaq 1296(%rsp), %r14
	movl $192, %r8d
	movq %r14, %rcx
	movq %r15, %rdx
	callq memcpy
	movaps %xmm6, 576(%rsp)
	movaps %xmm6, 560(%rsp)
	movaps %xmm6, 64(%rsp)
	movaps %xmm6, 80(%rsp)
	movaps %xmm6, 96(%rsp)
	movaps %xmm6, 112(%rsp)
	movw $0, 128(%rsp)
	leaq 560(%rsp), %r15
	movq %r15, 32(%rsp)
	leaq 64(%rsp), %rcx
	movq %r14, %rdx
	movq %rbx, %r8
	movq %rdi, %r9
	callq ring.hmac.sign_counted
	cmpb $0, 64(%rsp)
	je .LBB97_5
	movl $8, %eax
	jmp .LBB97_9
.LBB97_5:
	movups 65(%rsp), %xmm0
	movups 81(%rsp), %xmm1
	movups 97(%rsp), %xmm2
	movups 113(%rsp), %xmm3
	movaps %xmm3, 640(%rsp)
	movaps %xmm2, 624(%rsp)
	movaps %xmm1, 608(%rsp)
	movaps %xmm0, 592(%rsp)
	movzbl 129(%rsp), %eax
	movb %al, 656(%rsp)
	movzbl 1384(%rsp), %edx
	leaq .Lswitch.table.v2_yz_webhook_verify_stripe(%rip), %r14
	movq (%r14,%rax,8), %r9
	xorps %xmm6, %xmm6
	movaps %xmm6, 336(%rsp)
	movaps %xmm6, 320(%rsp)
	movaps %xmm6, 304(%rsp)
	movaps %xmm6, 288(%rsp)
	movaps %xmm6, 272(%rsp)
	movaps %xmm6, 256(%rsp)
	movaps %xmm6, 240(%rsp)
	movaps %xmm6, 224(%rsp)
	movaps %xmm6, 208(%rsp)
	movaps %xmm6, 192(%rsp)
	movaps %xmm6, 176(%rsp)
	movaps %xmm6, 160(%rsp)
	movaps %xmm6, 144(%rsp)
	movq %r15, 32(%rsp)
	leaq 144(%rsp), %rcx
	leaq 592(%rsp), %r8
	callq ring.hmac.key.Key.new_counted
	cmpb $0, 144(%rsp)
	jne .LBB97_10
	leaq 160(%rsp), %rdx
	leaq 367(%rsp), %rdi
	movl $192, %r8d
	movq %rdi, %rcx
	callq memcpy
	leaq 1103(%rsp), %rbx
	movl $192, %r8d
	movq %rbx, %rcx
	movq %rdi, %rdx
	callq memcpy
	leaq 687(%rsp), %rdi
	movl $192, %r8d
	movq %rdi, %rcx
	movq %rbx, %rdx
	callq memcpy
	leaq 895(%rsp), %rbx
	movl $192, %r8d
	movq %rbx, %rcx
	movq %rdi, %rdx
	callq memcpy
	leaq 144(%rsp), %rcx
	movl $192, %r8d
	movq %rbx, %rdx
	callq memcpy
	movaps %xmm6, 352(%rsp)
	movaps %xmm6, 368(%rsp)
	movaps %xmm6, 384(%rsp)
	movaps %xmm6, 400(%rsp)
	movw $0, 416(%rsp)
	movaps %xmm6, 672(%rsp)
	movaps %xmm6, 688(%rsp)
	leaq 672(%rsp), %rax
	movq %rax, 32(%rsp)
	leaq .Lstatic.8(%rip), %r8
	leaq 352(%rsp), %rcx
	movl 60(%rsp), %edx
	xorl %r9d, %r9d
	callq ring.digest.context.digest_counted
	movups 353(%rsp), %xmm0
	movups 369(%rsp), %xmm1
	movups 385(%rsp), %xmm2
	movups 401(%rsp), %xmm3
	movaps %xmm0, 1088(%rsp)
	movaps %xmm1, 1104(%rsp)
	movaps %xmm2, 1120(%rsp)
	movaps %xmm3, 1136(%rsp)
	movzbl 417(%rsp), %eax
	movb %al, 1152(%rsp)
	cmpb $0, 352(%rsp)
	jne .LBB97_10
	movb %sil, %r13b
	shll $12, %r13d
	addq %r13, %r12
	movaps 1088(%rsp), %xmm0
	movaps 1104(%rsp), %xmm1
	movaps 1120(%rsp), %xmm2
	movaps 1136(%rsp), %xmm3
	movaps %xmm3, 400(%rsp)
	movaps %xmm2, 384(%rsp)
	movaps %xmm1, 368(%rsp)
	movaps %xmm0, 352(%rsp)
	movzbl 1152(%rsp), %eax
	movb %al, 416(%rsp)
	movq (%r14,%rax,8), %rax
	leaq .Lstatic.59(%rip), %rcx
	leaq .Lstatic.60(%rip), %rdx
	testb $1, 59(%rsp)
	cmovneq %rcx, %rdx
	movq %rbp, 48(%rsp)
	movq %r12, 40(%rsp)
	movq %rax, 32(%rsp)
	leaq 144(%rsp), %rcx
	leaq 352(%rsp), %r9
	movl $10, %r8d
	callq ring_schedules.label.fill_by_label
	xorl %eax, %eax
.LBB97_9:
	movaps 1696(%rsp), %xmm6
	addq $1720, %rsp
	popq %rbx
	popq %rbp
	popq %rdi
	popq %rsi
	popq %r12
	popq %r13
	popq %r14
	popq %r15
	retq
.LBB97_10:
	ud2
	.seh_endproc
	.globl v2_yz_tls13_finished
	.p2align 4
v2_yz_tls13_finished:
.seh_proc v2_yz_tls13_finished
	pushq %r15
	.seh_pushreg %r15
	pushq %r14
	.seh_pushreg %r14
	pushq %r12
	.seh_pushreg %r12
	pushq %rsi
	.seh_pushreg %rsi
	pushq %rdi
	.seh_pushreg %rdi
	pushq %rbp
	.seh_pushreg %rbp
	pushq %rbx
	.seh_pushreg %rbx
	subq $208, %rsp
	.seh_stackalloc 208
	.seh_endprologue
	movq %r8, %r10
	movq %rdx, %r8
	movl %ecx, %edx
	movq 312(%rsp), %rsi
	xorl %edi, %edi
	testq %r8, %r8
	sete %r14b
	xorl %r11d, %r11d
	testq %r9, %r9
	sete %bpl
	xorl %ecx, %ecx
	testq %rsi, %rsi
	sete %bl
	xorps %xmm0, %xmm0
	movaps %xmm0, 48(%rsp)
	movaps %xmm0, 64(%rsp)
	movaps %xmm0, 80(%rsp)
	movaps %xmm0, 96(%rsp)
	movb $0, 112(%rsp)
	decl %edx
	movl $1, %eax
	cmpl $3, %edx
	ja .LBB98_5
	movl %edx, %eax
	leaq .Lswitch.table.v2_yz_tls13_finished_verify(%rip), %r15
	movq (%r15,%rax,8), %r12
	movl $4, %eax
	cmpq %r12, 320(%rsp)
	jne .LBB98_5
	cmpq %r12, %r10
	jne .LBB98_5
	movq 304(%rsp), %r15
	cmpq %r12, %r15
	jne .LBB98_5
	movb %r14b, %dil
	shll $12, %edi
	addq %rdi, %r8
	movb %bpl, %r11b
	shll $12, %r11d
	addq %r11, %r9
	movb %bl, %cl
	shll $12, %ecx
	addq %rcx, %rsi
	movq %r15, 40(%rsp)
	movq %r9, 32(%rsp)
	leaq 48(%rsp), %rcx
	movq %r10, %r9
	callq ring_c.tls13.finished_tag
	movaps 48(%rsp), %xmm0
	movaps 64(%rsp), %xmm1
	movaps 80(%rsp), %xmm2
	movaps 96(%rsp), %xmm3
	movaps %xmm3, 176(%rsp)
	movaps %xmm2, 160(%rsp)
	movaps %xmm1, 144(%rsp)
	movaps %xmm0, 128(%rsp)
	movzbl 112(%rsp), %eax
	movb %al, 192(%rsp)
	leaq .Lswitch.table.v2_yz_webhook_verify_stripe(%rip), %rcx
	movq (%rcx,%rax,8), %r8
	leaq 128(%rsp), %rdx
	movq %rsi, %rcx
	callq memcpy
	xorl %eax, %eax
.LBB98_5:
	addq $208, %rsp
	popq %rbx
	popq %rbp
	popq %rdi
	popq %rsi
	popq %r12
	popq %r14
	popq %r15
	retq
	.seh_endproc
	.globl v2_yz_tls13_finished_verify
	.p2align 4
v2_yz_tls13_finished_verify:
.seh_proc v2_yz_tls13_finished_verify
	pushq %r15
	.seh_pushreg %r15
	pushq %r14
	.seh_pushreg %r14
	pushq %r13
	.seh_pushreg %r13
	pushq %r12
	.seh_pushreg %r12
	pushq %rsi
	.seh_pushreg %rsi
	pushq %rdi
	.seh_pushreg %rdi
	pushq %rbp
	.seh_pushreg %rbp
	pushq %rbx
	.seh_pushreg %rbx
	subq $200, %rsp
	.seh_stackalloc 200
	.seh_endprologue
	movq %r8, %r10
	movq %rdx, %r8
	movl %ecx, %edx
	movq 312(%rsp), %rdi
	xorl %r11d, %r11d
	testq %r8, %r8
	sete %r15b
	xorl %ecx, %ecx
	testq %r9, %r9
	sete %r14b
	xorl %ebx, %ebx
	testq %rdi, %rdi
	sete %bpl
	pxor %xmm0, %xmm0
	movdqa %xmm0, 96(%rsp)
	movdqa %xmm0, 80(%rsp)
	movdqa %xmm0, 64(%rsp)
	movdqa %xmm0, 48(%rsp)
	movb $0, 112(%rsp)
	decl %edx
	movl $1, %eax
	cmpl $3, %edx
	ja .LBB99_17
	movq 304(%rsp), %r12
	movl %edx, %eax
	leaq .Lswitch.table.v2_yz_tls13_finished_verify(%rip), %rsi
	movq (%rsi,%rax,8), %rsi
	movq %r10, %r13
	xorq %rsi, %r13
	xorq %r12, %rsi
	movl $4, %eax
	orq %r13, %rsi
	jne .LBB99_17
	movq 320(%rsp), %rsi
	movb %r15b, %r11b
	shll $12, %r11d
	addq %r11, %r8
	movb %r14b, %cl
	shll $12, %ecx
	addq %rcx, %r9
	movq %r12, 40(%rsp)
	movq %r9, 32(%rsp)
	leaq 48(%rsp), %rcx
	movq %r10, %r9
	callq ring_c.tls13.finished_tag
	movdqa 48(%rsp), %xmm0
	movdqa 64(%rsp), %xmm1
	movdqa 80(%rsp), %xmm2
	movdqa 96(%rsp), %xmm3
	movdqa %xmm3, 176(%rsp)
	movdqa %xmm2, 160(%rsp)
	movdqa %xmm1, 144(%rsp)
	movdqa %xmm0, 128(%rsp)
	movzbl 112(%rsp), %ecx
	movb %cl, 192(%rsp)
	leaq .Lswitch.table.v2_yz_webhook_verify_stripe(%rip), %rdx
	movl $8, %eax
	cmpq %rsi, (%rdx,%rcx,8)
	jne .LBB99_17
	movb %bpl, %bl
	shll $12, %ebx
	leaq (%rdi,%rbx), %rax
	cmpq $4, %rsi
	jae .LBB99_6
	xorl %edx, %edx
	xorl %ecx, %ecx
	jmp .LBB99_5
.LBB99_6:
	cmpq $32, %rsi
	jae .LBB99_8
	xorl %ecx, %ecx
	xorl %edx, %edx
	jmp .LBB99_12
.LBB99_8:
	movq %rsi, %rcx
	andq $-32, %rcx
	leaq (%rbx,%rdi), %rdx
	addq $16, %rdx
	pxor %xmm0, %xmm0
	xorl %r8d, %r8d
	pxor %xmm1, %xmm1
	.p2align 4
.LBB99_9:
	movdqu 128(%rsp,%r8), %xmm2
	movdqu 144(%rsp,%r8), %xmm3
	movdqu -16(%rdx,%r8), %xmm4
	pxor %xmm2, %xmm4
	por %xmm4, %xmm1
	movdqu (%rdx,%r8), %xmm2
	pxor %xmm3, %xmm2
	por %xmm2, %xmm0
	addq $32, %r8
	cmpq %r8, %rcx
	jne .LBB99_9
	por %xmm1, %xmm0
	pshufd $238, %xmm0, %xmm1
	por %xmm0, %xmm1
	pshufd $85, %xmm1, %xmm0
	por %xmm1, %xmm0
	movdqa %xmm0, %xmm1
	psrld $16, %xmm1
	por %xmm0, %xmm1
	movdqa %xmm1, %xmm0
	psrlw $8, %xmm0
	por %xmm1, %xmm0
	movd %xmm0, %edx
	cmpq %rcx, %rsi
	je .LBB99_16
	testb $28, %sil
	je .LBB99_5
.LBB99_12:
	movq %rcx, %r8
	movq %rsi, %rcx
	andq $-4, %rcx
	movzbl %dl, %edx
	movd %edx, %xmm0
	.p2align 4
.LBB99_13:
	movl (%rax,%r8), %edx
	xorl 128(%rsp,%r8), %edx
	movd %edx, %xmm1
	por %xmm1, %xmm0
	addq $4, %r8
	cmpq %r8, %rcx
	jne .LBB99_13
	movdqa %xmm0, %xmm1
	psrld $16, %xmm1
	por %xmm0, %xmm1
	movdqa %xmm1, %xmm0
	psrlw $8, %xmm0
	por %xmm1, %xmm0
	movd %xmm0, %edx
	jmp .LBB99_15
.LBB99_5:
	movzbl (%rax,%rcx), %r8d
	xorb 128(%rsp,%rcx), %r8b
	orb %r8b, %dl
	incq %rcx
.LBB99_15:
	cmpq %rcx, %rsi
	jne .LBB99_5
.LBB99_16:
	xorl %eax, %eax
	testb %dl, %dl
	setne %al
	shll $3, %eax
.LBB99_17:
	addq $200, %rsp
	popq %rbx
	popq %rbp
	popq %rdi
	popq %rsi
	popq %r12
	popq %r13
	popq %r14
	popq %r15
	retq
	.seh_endproc
	.globl v2_yz_totp
	.p2align 4
v2_yz_totp:
.seh_proc v2_yz_totp
	pushq %rsi
	.seh_pushreg %rsi
	pushq %rdi
	.seh_pushreg %rdi
	subq $56, %rsp
	.seh_stackalloc 56
	.seh_endprologue
	movq %rdx, %r10
	movq 128(%rsp), %r11
	movq 120(%rsp), %rsi
	movl 112(%rsp), %eax
	testl %eax, %eax
	je .LBB100_1
	movl %eax, %edi
	movq %r9, %rax
	shrq $32, %rax
	je .LBB100_3
	movq %r9, %rax
	xorl %edx, %edx
	divq %rdi
	jmp .LBB100_5
.LBB100_1:
	xorl %r9d, %r9d
	xorl %eax, %eax
	jmp .LBB100_6
.LBB100_3:
	movl %r9d, %eax
	xorl %edx, %edx
	divl %edi
.LBB100_5:
	movb $1, %r9b
.LBB100_6:
	xorl %edi, %edi
	testq %rsi, %rsi
	sete %dil
	shll $12, %edi
	addq %rsi, %rdi
	xorl %edx, %edx
	testq %r10, %r10
	sete %dl
	shll $12, %edx
	addq %r10, %rdx
	movq %r11, 48(%rsp)
	movq %rax, 32(%rsp)
	movq %rdi, 40(%rsp)
	callq ring_c.otp.write
	nop
	addq $56, %rsp
	popq %rdi
	popq %rsi
	retq
	.seh_endproc
	.globl v2_yz_totp_find
	.p2align 4
v2_yz_totp_find:
.seh_proc v2_yz_totp_find
	pushq %r15
	.seh_pushreg %r15
	pushq %r14
	.seh_pushreg %r14
	pushq %r13
	.seh_pushreg %r13
	pushq %r12
	.seh_pushreg %r12
	pushq %rsi
	.seh_pushreg %rsi
	pushq %rdi
	.seh_pushreg %rdi
	pushq %rbp
	.seh_pushreg %rbp
	pushq %rbx
	.seh_pushreg %rbx
	subq $520, %rsp
	.seh_stackalloc 520
	.seh_endprologue
	movq %r8, %r10
	movq %rdx, %r8
	movl %ecx, %edx
	movq 656(%rsp), %r14
	xorl %ecx, %ecx
	testq %r8, %r8
	sete %r11b
	xorl %edi, %edi
	testq %r14, %r14
	sete %bl
	decl %edx
	movl $1, %eax
	cmpl $3, %edx
	ja .LBB101_10
	movq 648(%rsp), %rsi
	addq $-6, %rsi
	movl $4, %eax
	cmpq $2, %rsi
	ja .LBB101_10
	movl 624(%rsp), %ebp
	movl $8, %eax
	testl %ebp, %ebp
	je .LBB101_10
	xorps %xmm0, %xmm0
	movaps %xmm0, 80(%rsp)
	movaps %xmm0, 64(%rsp)
	movaps %xmm0, 288(%rsp)
	movaps %xmm0, 272(%rsp)
	movaps %xmm0, 256(%rsp)
	movaps %xmm0, 240(%rsp)
	movaps %xmm0, 224(%rsp)
	movaps %xmm0, 208(%rsp)
	movaps %xmm0, 192(%rsp)
	movaps %xmm0, 176(%rsp)
	movaps %xmm0, 160(%rsp)
	movaps %xmm0, 144(%rsp)
	movaps %xmm0, 128(%rsp)
	movaps %xmm0, 112(%rsp)
	movaps %xmm0, 96(%rsp)
	testq %r10, %r10
	je .LBB101_10
	movq %r9, %r13
	movb %r11b, %cl
	shll $12, %ecx
	addq %rcx, %r8
	leaq 64(%rsp), %r15
	movq %r15, 32(%rsp)
	leaq 96(%rsp), %rcx
	movq %r10, %r9
	callq ring.hmac.key.Key.new_counted
	movl $8, %eax
	cmpb $0, 96(%rsp)
	jne .LBB101_10
	movl 632(%rsp), %r12d
	movb %bl, %dil
	shll $12, %edi
	addq %rdi, %r14
	leaq 112(%rsp), %rdx
	leaq 319(%rsp), %rdi
	movl $192, %r8d
	movq %rdi, %rcx
	callq memcpy
	leaq 111(%rsp), %rbx
	movl $192, %r8d
	movq %rbx, %rcx
	movq %rdi, %rdx
	callq memcpy
	leaq 304(%rsp), %rcx
	movl $192, %r8d
	movq %rbx, %rdx
	callq memcpy
	xorps %xmm0, %xmm0
	movaps %xmm0, 80(%rsp)
	movaps %xmm0, 64(%rsp)
	movl %ebp, %ecx
	movq %r13, %rax
	movq %r13, %rdx
	shrq $32, %rdx
	je .LBB101_6
	xorl %edx, %edx
	divq %rcx
	jmp .LBB101_8
.LBB101_6:
	xorl %edx, %edx
	divl %ecx
.LBB101_8:
	movl %r12d, %ecx
	xorl %edx, %edx
	movq %rax, %r8
	subq %rcx, %r8
	cmovaeq %r8, %rdx
	movl 640(%rsp), %r8d
	addq %rax, %r8
	subq %rdx, %r8
	incq %r8
	movq %r15, 48(%rsp)
	movq 664(%rsp), %rax
	movq %rax, 40(%rsp)
	movq %r14, 32(%rsp)
	leaq 304(%rsp), %rcx
	movl %esi, %r9d
	callq ring_tokens.otp.find_hotp_counted
	cmpb $1, %al
	movl $8, %eax
	jne .LBB101_10
	movq 672(%rsp), %rax
	movq %rdx, (%rax)
	xorl %eax, %eax
.LBB101_10:
	addq $520, %rsp
	popq %rbx
	popq %rbp
	popq %rdi
	popq %rsi
	popq %r12
	popq %r13
	popq %r14
	popq %r15
	retq
	.seh_endproc
	.globl yz_version
	.p2align 4
yz_version:
	movl $512, %eax
	retq
	.globl v2_yz_webhook_verify_github
	.p2align 4
v2_yz_webhook_verify_github:
.seh_proc v2_yz_webhook_verify_github
	pushq %r15
	.seh_pushreg %r15
	pushq %r14
	.seh_pushreg %r14
	pushq %r13
	.seh_pushreg %r13
	pushq %r12
	.seh_pushreg %r12
	pushq %rsi
	.seh_pushreg %rsi
	pushq %rdi
	.seh_pushreg %rdi
	pushq %rbp
	.seh_pushreg %rbp
	pushq %rbx
	.seh_pushreg %rbx
	subq $600, %rsp
	.seh_stackalloc 600
	.seh_endprologue
	movq 704(%rsp), %r15
	xorl %r13d, %r13d
	testq %r8, %r8
	sete %bpl
	xorl %r12d, %r12d
	testq %r15, %r15
	sete %bl
	xorps %xmm0, %xmm0
	movaps %xmm0, 80(%rsp)
	movaps %xmm0, 64(%rsp)
	movaps %xmm0, 368(%rsp)
	movaps %xmm0, 352(%rsp)
	movaps %xmm0, 336(%rsp)
	movaps %xmm0, 320(%rsp)
	movaps %xmm0, 304(%rsp)
	movaps %xmm0, 288(%rsp)
	movaps %xmm0, 272(%rsp)
	movaps %xmm0, 256(%rsp)
	movaps %xmm0, 240(%rsp)
	movaps %xmm0, 224(%rsp)
	movaps %xmm0, 208(%rsp)
	movaps %xmm0, 192(%rsp)
	movaps %xmm0, 176(%rsp)
	testq %rdx, %rdx
	je .LBB103_2
	movq %r9, %rsi
	movq %r8, %rdi
	movq %rdx, %r9
	xorl %r8d, %r8d
	testq %rcx, %rcx
	sete %r8b
	shll $12, %r8d
	addq %rcx, %r8
	leaq 64(%rsp), %rax
	movq %rax, 32(%rsp)
	leaq 176(%rsp), %rcx
	movb $1, %dl
	callq ring.hmac.key.Key.new_counted
	cmpb $0, 176(%rsp)
	je .LBB103_3
.LBB103_2:
	movl $8, %eax
.LBB103_6:
	addq $600, %rsp
	popq %rbx
	popq %rbp
	popq %rdi
	popq %rsi
	popq %r12
	popq %r13
	popq %r14
	popq %r15
	retq
.LBB103_3:
	movb %bl, 63(%rsp)
	leaq 192(%rsp), %rdx
	leaq 399(%rsp), %rbx
	movl $192, %r8d
	movq %rbx, %rcx
	callq memcpy
	leaq 191(%rsp), %r14
	movl $192, %r8d
	movq %r14, %rcx
	movq %rbx, %rdx
	callq memcpy
	leaq 384(%rsp), %rcx
	movl $192, %r8d
	movq %r14, %rdx
	callq memcpy
	xorps %xmm0, %xmm0
	movaps %xmm0, 160(%rsp)
	movaps %xmm0, 144(%rsp)
	movl $8, %eax
	cmpb $1, 472(%rsp)
	jne .LBB103_6
	movb %bpl, %r13b
	shll $12, %r13d
	addq %r13, %rdi
	movaps %xmm0, 112(%rsp)
	movaps %xmm0, 96(%rsp)
	movaps %xmm0, 80(%rsp)
	movaps %xmm0, 64(%rsp)
	movw $0, 128(%rsp)
	leaq 144(%rsp), %rbx
	movq %rbx, 32(%rsp)
	leaq 64(%rsp), %rcx
	leaq 384(%rsp), %rdx
	movq %rdi, %r8
	movq %rsi, %r9
	callq ring.hmac.sign_counted
	movl $8, %eax
	cmpb $0, 64(%rsp)
	jne .LBB103_6
	movq 712(%rsp), %rax
	movzbl 63(%rsp), %ecx
	movb %cl, %r12b
	shll $12, %r12d
	addq %r12, %r15
	leaq 65(%rsp), %r8
	movzbl 129(%rsp), %ecx
	leaq .Lswitch.table.v2_yz_webhook_verify_stripe(%rip), %rdx
	movq (%rdx,%rcx,8), %r9
	movq %rbx, 48(%rsp)
	movq %rax, 40(%rsp)
	movq %r15, 32(%rsp)
	leaq .Lstatic.62(%rip), %rcx
	movl $7, %edx
	callq ring_tokens.webhook.is_named
	xorb $1, %al
	movzbl %al, %eax
	shll $3, %eax
	jmp .LBB103_6
	.seh_endproc
	.globl v2_yz_webhook_verify_hex
	.p2align 4
v2_yz_webhook_verify_hex:
.seh_proc v2_yz_webhook_verify_hex
	pushq %r15
	.seh_pushreg %r15
	pushq %r14
	.seh_pushreg %r14
	pushq %r13
	.seh_pushreg %r13
	pushq %r12
	.seh_pushreg %r12
	pushq %rsi
	.seh_pushreg %rsi
	pushq %rdi
	.seh_pushreg %rdi
	pushq %rbp
	.seh_pushreg %rbp
	pushq %rbx
	.seh_pushreg %rbx
	subq $600, %rsp
	.seh_stackalloc 600
	.seh_endprologue
	movq %r8, %r10
	movq %rdx, %r8
	movl %ecx, %edx
	movq 728(%rsp), %r15
	movq 712(%rsp), %rsi
	xorl %ecx, %ecx
	testq %r8, %r8
	sete %r11b
	xorl %r13d, %r13d
	testq %r9, %r9
	sete %dil
	xorl %ebx, %ebx
	testq %rsi, %rsi
	sete %r14b
	xorl %r12d, %r12d
	testq %r15, %r15
	sete %bpl
	decl %edx
	movl $1, %eax
	cmpl $3, %edx
	ja .LBB104_6
	movq %r9, 56(%rsp)
	xorps %xmm0, %xmm0
	movaps %xmm0, 80(%rsp)
	movaps %xmm0, 64(%rsp)
	movaps %xmm0, 368(%rsp)
	movaps %xmm0, 352(%rsp)
	movaps %xmm0, 336(%rsp)
	movaps %xmm0, 320(%rsp)
	movaps %xmm0, 304(%rsp)
	movaps %xmm0, 288(%rsp)
	movaps %xmm0, 272(%rsp)
	movaps %xmm0, 256(%rsp)
	movaps %xmm0, 240(%rsp)
	movaps %xmm0, 224(%rsp)
	movaps %xmm0, 208(%rsp)
	movaps %xmm0, 192(%rsp)
	movaps %xmm0, 176(%rsp)
	testq %r10, %r10
	je .LBB104_3
	movb %r11b, %cl
	shll $12, %ecx
	addq %rcx, %r8
	leaq 64(%rsp), %rax
	movq %rax, 32(%rsp)
	leaq 176(%rsp), %rcx
	movq %r10, %r9
	callq ring.hmac.key.Key.new_counted
	cmpb $0, 176(%rsp)
	je .LBB104_4
.LBB104_3:
	movl $8, %eax
.LBB104_6:
	addq $600, %rsp
	popq %rbx
	popq %rbp
	popq %rdi
	popq %rsi
	popq %r12
	popq %r13
	popq %r14
	popq %r15
	retq
.LBB104_4:
	movb %r14b, %bl
	shll $12, %ebx
	addq %rbx, %rsi
	leaq 192(%rsp), %rdx
	leaq 399(%rsp), %rbx
	movl $192, %r8d
	movq %rbx, %rcx
	callq memcpy
	leaq 191(%rsp), %r14
	movl $192, %r8d
	movq %r14, %rcx
	movq %rbx, %rdx
	callq memcpy
	leaq 384(%rsp), %rbx
	movl $192, %r8d
	movq %rbx, %rcx
	movq %r14, %rdx
	callq memcpy
	xorps %xmm0, %xmm0
	movaps %xmm0, 160(%rsp)
	movaps %xmm0, 144(%rsp)
	movaps %xmm0, 112(%rsp)
	movaps %xmm0, 96(%rsp)
	movaps %xmm0, 80(%rsp)
	movaps %xmm0, 64(%rsp)
	movw $0, 128(%rsp)
	leaq 144(%rsp), %r14
	movq %r14, 32(%rsp)
	leaq 64(%rsp), %rcx
	movq %rbx, %rdx
	movq %rsi, %r8
	movq 720(%rsp), %r9
	callq ring.hmac.sign_counted
	movl $8, %eax
	cmpb $0, 64(%rsp)
	jne .LBB104_6
	movq 736(%rsp), %rax
	movq 704(%rsp), %rdx
	movb %dil, %r13b
	shll $12, %r13d
	movq 56(%rsp), %rcx
	addq %r13, %rcx
	movb %bpl, %r12b
	shll $12, %r12d
	addq %r12, %r15
	leaq 65(%rsp), %r8
	movzbl 129(%rsp), %r9d
	leaq .Lswitch.table.v2_yz_webhook_verify_stripe(%rip), %r10
	movq (%r10,%r9,8), %r9
	movq %r14, 48(%rsp)
	movq %rax, 40(%rsp)
	movq %r15, 32(%rsp)
	callq ring_tokens.webhook.is_named
	xorb $1, %al
	movzbl %al, %eax
	shll $3, %eax
	jmp .LBB104_6
	.seh_endproc
	.globl v2_yz_webhook_verify_stripe
	.p2align 4
v2_yz_webhook_verify_stripe:
.seh_proc v2_yz_webhook_verify_stripe
	pushq %r15
	.seh_pushreg %r15
	pushq %r14
	.seh_pushreg %r14
	pushq %r13
	.seh_pushreg %r13
	pushq %r12
	.seh_pushreg %r12
	pushq %rsi
	.seh_pushreg %rsi
	pushq %rdi
	.seh_pushreg %rdi
	pushq %rbp
	.seh_pushreg %rbp
	pushq %rbx
	.seh_pushreg %rbx
	subq $1144, %rsp
	.seh_stackalloc 1144
	.seh_endprologue
	movq 1248(%rsp), %rbx
	xorl %r15d, %r15d
	testq %r8, %r8
	sete %bpl
	xorl %r14d, %r14d
	testq %rbx, %rbx
	sete %r12b
	xorps %xmm0, %xmm0
	movaps %xmm0, 208(%rsp)
	movaps %xmm0, 192(%rsp)
	movaps %xmm0, 464(%rsp)
	movaps %xmm0, 448(%rsp)
	movaps %xmm0, 432(%rsp)
	movaps %xmm0, 416(%rsp)
	movaps %xmm0, 400(%rsp)
	movaps %xmm0, 384(%rsp)
	movaps %xmm0, 368(%rsp)
	movaps %xmm0, 352(%rsp)
	movaps %xmm0, 336(%rsp)
	movaps %xmm0, 320(%rsp)
	movaps %xmm0, 304(%rsp)
	movaps %xmm0, 288(%rsp)
	movaps %xmm0, 272(%rsp)
	testq %rdx, %rdx
	je .LBB105_15
	movq %r9, %rsi
	movq %r8, %rdi
	movq %rdx, %r9
	xorl %r8d, %r8d
	testq %rcx, %rcx
	sete %r8b
	shll $12, %r8d
	addq %rcx, %r8
	leaq 192(%rsp), %rax
	movq %rax, 32(%rsp)
	leaq 272(%rsp), %rcx
	movb $1, %dl
	callq ring.hmac.key.Key.new_counted
	cmpb $0, 272(%rsp)
	je .LBB105_2
.LBB105_15:
	movl $8, %eax
.LBB105_16:
	addq $1144, %rsp
	popq %rbx
	popq %rbp
	popq %rdi
	popq %rsi
	popq %r12
	popq %r13
	popq %r14
	popq %r15
	retq
.LBB105_2:
	movq 288(%rsp), %rdx
	movq 296(%rsp), %r8
	movzbl 304(%rsp), %r10d
	movups 305(%rsp), %xmm0
	movaps %xmm0, 768(%rsp)
	movups 321(%rsp), %xmm0
	movaps %xmm0, 784(%rsp)
	movups 337(%rsp), %xmm0
	movaps %xmm0, 800(%rsp)
	movups 353(%rsp), %xmm0
	movaps %xmm0, 816(%rsp)
	movq 368(%rsp), %rax
	movq %rax, 831(%rsp)
	movzbl 376(%rsp), %ecx
	movq 392(%rsp), %r9
	movq 384(%rsp), %rax
	movq %rax, 184(%rsp)
	movzbl 400(%rsp), %r11d
	movups 401(%rsp), %xmm0
	movaps %xmm0, 64(%rsp)
	movups 417(%rsp), %xmm0
	movaps %xmm0, 80(%rsp)
	movups 433(%rsp), %xmm0
	movaps %xmm0, 96(%rsp)
	movups 449(%rsp), %xmm0
	movaps %xmm0, 112(%rsp)
	movq 464(%rsp), %rax
	movq %rax, 127(%rsp)
	movzbl 472(%rsp), %r13d
	movaps 768(%rsp), %xmm0
	movaps 784(%rsp), %xmm1
	movaps 800(%rsp), %xmm2
	movaps 816(%rsp), %xmm3
	movaps %xmm0, 688(%rsp)
	movaps %xmm1, 704(%rsp)
	movaps %xmm2, 720(%rsp)
	movaps %xmm3, 736(%rsp)
	movq 831(%rsp), %rax
	movq %rax, 751(%rsp)
	movaps 64(%rsp), %xmm0
	movaps 80(%rsp), %xmm1
	movaps 96(%rsp), %xmm2
	movaps 112(%rsp), %xmm3
	movaps %xmm0, 608(%rsp)
	movaps %xmm1, 624(%rsp)
	movaps %xmm2, 640(%rsp)
	movaps %xmm3, 656(%rsp)
	movq 127(%rsp), %rax
	movq %rax, 671(%rsp)
	xorps %xmm0, %xmm0
	movaps %xmm0, 1120(%rsp)
	movaps %xmm0, 1104(%rsp)
	movl $8, %eax
	cmpb $1, %cl
	jne .LBB105_16
	movq %r8, 176(%rsp)
	movq 1256(%rsp), %r8
	movaps %xmm0, 288(%rsp)
	movaps %xmm0, 272(%rsp)
	movq $0, 304(%rsp)
	cmpq $2, %r8
	jb .LBB105_16
	movb %r12b, %r14b
	shll $12, %r14d
	addq %r14, %rbx
	cmpb $116, (%rbx)
	jne .LBB105_16
	cmpb $61, 1(%rbx)
	jne .LBB105_16
	addq $2, %rbx
	addq $-2, %r8
	leaq 272(%rsp), %rcx
	movq %rdx, 168(%rsp)
	movq %rbx, %rdx
	movq %r9, %r12
	movb $44, %r9b
	movl %r10d, %r14d
	movl %r11d, %ebx
	callq ring_text.cut.cut_at
	movl $8, %eax
	cmpb $1, 272(%rsp)
	jne .LBB105_16
	movq 280(%rsp), %rcx
	movq 288(%rsp), %rdx
	movq %rcx, 152(%rsp)
	movq %rdx, 160(%rsp)
	callq ring_text.number.number_in
	cmpb $1, %al
	jne .LBB105_15
	xorl %eax, %eax
	addq 1272(%rsp), %rdx
	setb %al
	cmpq 1264(%rsp), %rdx
	sbbq $0, %rax
	movl $8, %eax
	jb .LBB105_16
	movq %r12, %r9
	movl %ebx, %r11d
	movq 296(%rsp), %rcx
	movq %rcx, 144(%rsp)
	movq 304(%rsp), %r12
	xorps %xmm0, %xmm0
	movaps %xmm0, 64(%rsp)
	movaps %xmm0, 80(%rsp)
	movaps %xmm0, 96(%rsp)
	movaps %xmm0, 112(%rsp)
	movb $1, %cl
	addb $-1, %cl
	movq %rsi, %rcx
	movq 160(%rsp), %rbx
	adcq %rbx, %rcx
	movw $0, 128(%rsp)
	setb %cl
	movzbl %cl, %ecx
	leaq (%rsi,%rbx), %rdx
	incq %rdx
	movabsq $2305843009213693888, %r8
	cmpq %r8, %rdx
	sbbq $0, %rcx
	jae .LBB105_16
	movb %bpl, %r15b
	shll $12, %r15d
	addq %r15, %rdi
	movl 755(%rsp), %eax
	movl %eax, 852(%rsp)
	movups 691(%rsp), %xmm1
	movups 707(%rsp), %xmm2
	movups 723(%rsp), %xmm3
	movups 739(%rsp), %xmm4
	movups %xmm4, 836(%rsp)
	movups %xmm3, 820(%rsp)
	movups %xmm2, 804(%rsp)
	movups %xmm1, 788(%rsp)
	movups 611(%rsp), %xmm1
	movups 627(%rsp), %xmm2
	movups 643(%rsp), %xmm3
	movups 659(%rsp), %xmm4
	movups %xmm1, 1028(%rsp)
	movups %xmm2, 1044(%rsp)
	movups %xmm3, 1060(%rsp)
	movups %xmm4, 1076(%rsp)
	movl 675(%rsp), %eax
	movl %eax, 1092(%rsp)
	movq 176(%rsp), %rax
	movq %rax, 776(%rsp)
	movq 168(%rsp), %rax
	movq %rax, 768(%rsp)
	movl %r14d, 784(%rsp)
	movb $1, 856(%rsp)
	movups %xmm0, 857(%rsp)
	movups %xmm0, 873(%rsp)
	movups %xmm0, 889(%rsp)
	movups %xmm0, 905(%rsp)
	movups %xmm0, 921(%rsp)
	movups %xmm0, 937(%rsp)
	movups %xmm0, 953(%rsp)
	movups %xmm0, 969(%rsp)
	movups %xmm0, 985(%rsp)
	movq $0, 1000(%rsp)
	movq 184(%rsp), %rax
	movq %rax, 1008(%rsp)
	movq %r9, 1016(%rsp)
	movl %r11d, 1024(%rsp)
	movb %r13b, 1096(%rsp)
	movl $0, 1100(%rsp)
	movl $0, 1097(%rsp)
	leaq 272(%rsp), %rbp
	leaq 768(%rsp), %r14
	movl $336, %r8d
	movq %rbp, %rcx
	movq %r14, %rdx
	callq memcpy
	leaq 1104(%rsp), %r15
	movq %rbp, %rcx
	movq 152(%rsp), %rdx
	movq %rbx, %r8
	movq %r15, %r9
	callq ring.digest.context.Context.update_counted
	leaq .Lstatic.10(%rip), %rdx
	movl $1, %r8d
	movq %rbp, %rcx
	movq %r15, %r9
	callq ring.digest.context.Context.update_counted
	movq %rbp, %rcx
	movq %rdi, %rdx
	movq %rsi, %r8
	movq %r15, %r9
	callq ring.digest.context.Context.update_counted
	movl $336, %r8d
	movq %r14, %rcx
	movq %rbp, %rdx
	callq memcpy
	leaq 64(%rsp), %rcx
	movq %r14, %rdx
	movq %r15, %r8
	callq ring.hmac.context.Context.sign_counted
	movl $8, %eax
	movups 65(%rsp), %xmm0
	movups 81(%rsp), %xmm1
	movups 97(%rsp), %xmm2
	movups 113(%rsp), %xmm3
	movaps %xmm0, 192(%rsp)
	movaps %xmm1, 208(%rsp)
	movaps %xmm2, 224(%rsp)
	movaps %xmm3, 240(%rsp)
	movzbl 129(%rsp), %ecx
	movb %cl, 256(%rsp)
	cmpb $0, 64(%rsp)
	jne .LBB105_16
	movzbl 256(%rsp), %eax
	leaq .Lswitch.table.v2_yz_webhook_verify_stripe(%rip), %rcx
	movq (%rcx,%rax,8), %rsi
	xorps %xmm0, %xmm0
	movaps %xmm0, 288(%rsp)
	movaps %xmm0, 272(%rsp)
	movq $0, 304(%rsp)
	leaq 272(%rsp), %rcx
	movq 144(%rsp), %r14
	movq %r14, %rdx
	movq %r12, %r8
	movb $44, %r9b
	callq ring_text.cut.cut_at
	xorl %edi, %edi
	cmpb $1, 272(%rsp)
	movl $0, %ebx
	jne .LBB105_14
	xorl %ebx, %ebx
.LBB105_13:
	movups 280(%rsp), %xmm0
	movq 296(%rsp), %r14
	movq 304(%rsp), %r12
	movq %r15, 48(%rsp)
	movups %xmm0, 32(%rsp)
	leaq .Lstatic.64(%rip), %rcx
	leaq 192(%rsp), %r8
	movl $3, %edx
	movq %rsi, %r9
	callq ring_tokens.webhook.is_named
	orb %al, %bl
	leaq 272(%rsp), %rcx
	movq %r14, %rdx
	movq %r12, %r8
	movb $44, %r9b
	callq ring_text.cut.cut_at
	cmpb $1, 272(%rsp)
	je .LBB105_13
.LBB105_14:
	movq %r15, 48(%rsp)
	movq %r12, 40(%rsp)
	movq %r14, 32(%rsp)
	leaq .Lstatic.64(%rip), %rcx
	leaq 192(%rsp), %r8
	movl $3, %edx
	movq %rsi, %r9
	callq ring_tokens.webhook.is_named
	xorb $1, %al
	movzbl %al, %eax
	shll $3, %eax
	testb $1, %bl
	cmovnel %edi, %eax
	jmp .LBB105_16
	.seh_endproc
	.section .rdata,"dr"
	.p2align 3, 0x0
.Lstatic.5:
	.ascii "\"\256(\327\230/\212B\315e\357#\221D7q/;M\354\317\373\300\265\274\333\211\201\245\333\265\3518\265H\363[\302V9\031\320\005\266\361\021\361Y\233O\031\257\244\202?\222\030\201m\332\325^\034\253B\002\003\243\230\252\007\330\276opE\001[\203\022\214\262\344N\276\2051$\342\264\377\325\303}\fUo\211{\362t]\276r\261\226\026;\376\261\336\2005\022\307%\247\006\334\233\224&i\317t\361\233\301\322J\361\236\301i\233\344\343%O8\206G\276\357\265\325\214\213\306\235\301\017e\234\254w\314\241\f$u\002+Yo,\351-\203\344\246n\252\204tJ\324\373A\275\334\251\260\\\265S\021\203\332\210\371v\253\337f\356RQ>\230\0202\264-m\3061\250?!\373\230\310'\003\260\344\016\357\276\307\177Y\277\302\217\250=\363\013\340\306%\247\n\223G\221\247\325o\202\003\340Qc\312\006pn\016\ng))\024\374/\322F\205\n\267'&\311&\\8!\033.\355*\304Z\374m,M\337\263\225\235\023\r8S\336c\257\213Ts\ne\250\262w<\273\njv\346\256\355G.\311\302\201;5\202\024\205,r\222d\003\361L\241\350\277\242\0010B\274Kf\032\250\221\227\370\320p\213K\3020\276T\006\243Ql\307\030R\357\326\031\350\222\321\020\251eU$\006\231\326* qW\2055\016\364\270\321\2732p\240j\020\310\320\322\270\026\301\244\031S\253AQ\bl7\036\231\353\216\337LwH'\250H\233\341\265\274\2604cZ\311\305\263\f\0349\313\212A\343J\252\330Ns\343cwO\312\234[\243\270\262\326\363o.h\374\262\357]\356\202\217t`/\027Coc\245xr\253\360\241\024x\310\204\3549d\032\b\002\307\214(\036c#\372\377\276\220\351\275\202\336\353lP\244\025y\306\262\367\243\371\276+Sr\343\362xq\306\234a&\352\316>'\312\007\302\300!\307\270\206\321\036\353\340\315\326}\332\352x\321n\356\177O}\365\272o\027r\252g\360\006\246\230\310\242\305}c\n\256\r\371\276\004\230?\021\033G\034\0235\013q\033\204}\004#\365w\333(\223$\307@{\253\3122\274\276\311\025\n\276\236<L\r\020\234\304g\035C\266B>\313\276\324\305L*~e\374\234)\177Y\354\372\326:\253o\313_\027XGJ\214\031Dl"
.Lstatic.6:
	.zero 1
	.p2align 2, 0x0
.Lstatic.7:
	.ascii "\230/\212B\221D7q\317\373\300\265\245\333\265\351[\302V9\361\021\361Y\244\202?\222\325^\034\253\230\252\007\330\001[\203\022\276\2051$\303}\fUt]\276r\376\261\336\200\247\006\334\233t\361\233\301\301i\233\344\206G\276\357\306\235\301\017\314\241\f$o,\351-\252\204tJ\334\251\260\\\332\210\371vRQ>\230m\3061\250\310'\003\260\307\177Y\277\363\013\340\306G\221\247\325Qc\312\006g))\024\205\n\267'8!\033.\374m,M\023\r8STs\ne\273\njv.\311\302\201\205,r\222\241\350\277\242Kf\032\250p\213K\302\243Ql\307\031\350\222\321$\006\231\326\2055\016\364p\240j\020\026\301\244\031\bl7\036LwH'\265\274\2604\263\f\0349J\252\330NO\312\234[\363o.h\356\202\217toc\245x\024x\310\204\b\002\307\214\372\377\276\220\353lP\244\367\243\371\276\362xq\306"
.Lstatic.8:
.Lstatic.9:
	.ascii "tls13 "
.Lstatic.10:
	.byte 46
.Lstatic.11:
	.ascii "eyJhbGciOiJIUzI1NiIsInR5cCI6IkpXVCJ9"
.Lstatic.12:
	.ascii "eyJhbGciOiJIUzM4NCIsInR5cCI6IkpXVCJ9"
.Lstatic.13:
	.ascii "eyJhbGciOiJIUzUxMiIsInR5cCI6IkpXVCJ9"
.Lstatic.14:
	.ascii "eyJ0eXAiOiJKV1QiLCJhbGciOiJIUzI1NiJ9"
.Lstatic.15:
	.ascii "eyJ0eXAiOiJKV1QiLCJhbGciOiJIUzM4NCJ9"
.Lstatic.16:
	.ascii "eyJ0eXAiOiJKV1QiLCJhbGciOiJIUzUxMiJ9"
.Lstatic.17:
	.ascii "eyJhbGciOiJIUzI1NiJ9"
.Lstatic.18:
	.ascii "eyJhbGciOiJIUzM4NCJ9"
.Lstatic.19:
	.ascii "eyJhbGciOiJIUzUxMiJ9"
.Lstatic.20:
	.byte 1
.Lstatic.21:
	.ascii "i="
.Lstatic.22:
	.ascii "00010203040506070809101112131415161718192021222324252627282930313233343536373839404142434445464748495051525354555657585960616263646566676869707172737475767778798081828384858687888990919293949596979899"
.Lstatic.23:
	.ascii "l="
.Lstatic.24:
	.ascii "pbkdf2_sha256$"
.Lstatic.25:
	.ascii "pbkdf2_sha1$"
.Lstatic.26:
	.ascii "pbkdf2:sha256:"
.Lstatic.27:
	.ascii "pbkdf2:sha512:"
.Lstatic.28:
	.ascii "pbkdf2:sha1:"
.Lstatic.29:
	.ascii "$7$"
.Lstatic.30:
	.ascii "$pbkdf2$"
.Lstatic.31:
	.ascii "$pbkdf2-sha256$"
.Lstatic.32:
	.ascii "$pbkdf2-sha512$"
.Lstatic.33:
	.ascii "SCRAM-SHA-256$"
.Lstatic.46:
	.ascii "ABCDEFGHIJKLMNOPQRSTUVWXYZabcdefghijklmnopqrstuvwxyz0123456789./"
.Lstatic.48:
	.ascii "0123456789abcdef"
.Lstatic.55:
	.ascii "Client Key"
.Lstatic.56:
	.ascii "Server Key"
.Lstatic.57:
	.ascii "abcdefghijklmnopqrstuvwxyzABCDEFGHIJKLMNOPQRSTUVWXYZ0123456789"
.Lstatic.58:
	.zero 64
.Lstatic.59:
	.ascii "ext binder"
.Lstatic.60:
	.ascii "res binder"
.Lstatic.61:
	.ascii "finished"
.Lstatic.62:
	.ascii "sha256="
.Lstatic.64:
	.ascii "v1="
	.p2align 3, 0x0
.Lswitch.table.ring_schedules.label.fill_by_label:
	.quad 5100
	.quad 8160
	.quad 12240
	.quad 16320
	.quad 8160
	.p2align 2, 0x0
.Lswitch.table.ring_tokens.otp.find_hotp_counted:
	.long 1000000
	.long 10000000
	.long 100000000
	.p2align 2, 0x0
.Lswitch.table.ring_password_hash.stored.Stored.parse.rel:
	.long .Lstatic.24-.Lswitch.table.ring_password_hash.stored.Stored.parse.rel
	.long .Lstatic.25-.Lswitch.table.ring_password_hash.stored.Stored.parse.rel
	.long .Lstatic.26-.Lswitch.table.ring_password_hash.stored.Stored.parse.rel
	.long .Lstatic.27-.Lswitch.table.ring_password_hash.stored.Stored.parse.rel
	.long .Lstatic.31-.Lswitch.table.ring_password_hash.stored.Stored.parse.rel
	.long .Lstatic.32-.Lswitch.table.ring_password_hash.stored.Stored.parse.rel
	.long .Lstatic.29-.Lswitch.table.ring_password_hash.stored.Stored.parse.rel
	.long .Lstatic.30-.Lswitch.table.ring_password_hash.stored.Stored.parse.rel
	.long .Lstatic.31-.Lswitch.table.ring_password_hash.stored.Stored.parse.rel
	.long .Lstatic.32-.Lswitch.table.ring_password_hash.stored.Stored.parse.rel
	.long .Lstatic.33-.Lswitch.table.ring_password_hash.stored.Stored.parse.rel
	.long .Lstatic.28-.Lswitch.table.ring_password_hash.stored.Stored.parse.rel
	.p2align 3, 0x0
.Lswitch.table.ring_password_hash.stored.Stored.parse.170:
	.quad 14
	.quad 12
	.quad 14
	.quad 14
	.quad 15
	.quad 15
	.quad 3
	.quad 8
	.quad 15
	.quad 15
	.quad 14
	.quad 12
.Lswitch.table.ring_password_hash.stored.put_text:
	.asciz "\000\000\000\000\003\003\002\004\004\004\002"
	.p2align 3, 0x0
.Lswitch.table.ring.pbkdf2.derive_in.128:
	.quad 85899345900
	.quad 137438953440
	.quad 206158430160
	.quad 274877906880
	.quad 137438953440
	.p2align 2, 0x0
.Lswitch.table.v2_yz_digest_each.183:
	.long 1
	.long 1
	.long 0
	.long 0
	.long 0
	.p2align 2, 0x0
.Lswitch.table.v2_yz_digest_each.184:
	.long 1732584193
	.long 1779033703
	.long 0
	.long 0
	.long 0
	.p2align 3, 0x0
.Lswitch.table.v2_yz_digest_each.185:
	.quad -7441392446773286007
	.quad 4354685563809803909
	.quad -3766243637369397544
	.quad 7640891576956012808
	.quad 2463787394917988140
	.p2align 3, 0x0
.Lswitch.table.v2_yz_digest_each.186:
	.quad -4336155070024231818
	.quad 5840696474933916986
	.quad 7105036623409894663
	.quad -4942790177534073029
	.quad -6965556091613846334
	.p2align 3, 0x0
.Lswitch.table.v2_yz_digest_each.187:
	.quad 0
	.quad 2270897968188319884
	.quad -7973340178411365097
	.quad 4354685564936845355
	.quad 2563595384472711505
	.p2align 3, 0x0
.Lswitch.table.v2_yz_digest_each.188:
	.quad 0
	.quad 1541459225
	.quad 1526699215303891257
	.quad -6534734903238641935
	.quad -7622211418569250115
	.p2align 3, 0x0
.Lswitch.table.v2_yz_digest_each.189:
	.quad 0
	.quad 0
	.quad 7436329637833083697
	.quad 5840696475078001361
	.quad -7626776825740460061
	.p2align 3, 0x0
.Lswitch.table.v2_yz_digest_each.190:
	.quad 0
	.quad 0
	.quad -8163818279084223215
	.quad -7276294671716946913
	.quad -4729309413028513390
	.p2align 3, 0x0
.Lswitch.table.v2_yz_digest_each.191:
	.quad 0
	.quad 0
	.quad -2662702644619276377
	.quad 2270897969802886507
	.quad 3098927326965381290
	.p2align 3, 0x0
.Lswitch.table.v2_yz_digest_each.192:
	.quad 0
	.quad 0
	.quad 5167115440072839076
	.quad 6620516959819538809
	.quad 1060366662362279074
	.p2align 3, 0x0
.Lswitch.table.v2_yz_hkdf_expand_label:
	.quad 5100
	.quad 8160
	.quad 12240
	.quad 16320
	.p2align 3, 0x0
.Lswitch.table.v2_yz_hmac_update:
	.quad 64
	.quad 64
	.quad 128
	.quad 128
	.quad 128
	.p2align 3, 0x0
.Lswitch.table.v2_yz_jws_sign.206:
	.quad 81
	.quad 102
	.quad 124
	.p2align 3, 0x0
.Lswitch.table.v2_yz_jws_verify:
	.quad .Lstatic.11
	.quad .Lstatic.12
	.quad .Lstatic.13
	.p2align 3, 0x0
.Lswitch.table.v2_yz_jws_verify.208:
	.quad .Lstatic.14
	.quad .Lstatic.15
	.quad .Lstatic.16
	.p2align 3, 0x0
.Lswitch.table.v2_yz_jws_verify.209:
	.quad .Lstatic.17
	.quad .Lstatic.18
	.quad .Lstatic.19
	.p2align 2, 0x0
.Lswitch.table.v2_yz_password_hash_verify:
	.long 5
	.long 6
	.long 8
	.long 7
	.long 4
	.long 8
	.p2align 3, 0x0
.Lswitch.table.v2_yz_pbkdf2_verify:
	.quad 85899345900
	.quad 137438953440
	.quad 206158430160
	.quad 274877906880
	.p2align 3, 0x0
.Lswitch.table.v2_yz_tls13_finished_verify:
	.quad 20
	.quad 32
	.quad 48
	.quad 64
	.p2align 3, 0x0
.Lswitch.table.v2_yz_webhook_verify_stripe:
	.quad 20
	.quad 32
	.quad 48
	.quad 64
	.quad 32
#endif
