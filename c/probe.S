/* SPDX-License-Identifier: ISC
 * Copyright 2026 the Yezdopin authors.
 *
 * Windows gives a thread its stack page by page, where the next page is touched. So a function
 * whose frame has a page or more calls this one before it makes the frame, with its size in rax. It
 * touches each page of the frame, from above, and keeps all registers. */
#if defined(__x86_64__) && defined(_WIN32)
	.text
	.p2align 4
	.globl yz_probe_stack
	.def yz_probe_stack; .scl 2; .type 32; .endef
	.seh_proc yz_probe_stack
yz_probe_stack:
	pushq %rax
	.seh_pushreg %rax
	pushq %rcx
	.seh_pushreg %rcx
	.seh_endprologue
	leaq 24(%rsp), %rcx /* the end of the frame, above both registers and the return address */
.Lnext:
	subq $4096, %rax
	jbe .Llast
	subq $4096, %rcx
	testb %al, (%rcx)
	jmp .Lnext
.Llast:
	subq %rax, %rcx
	testb %al, -4096(%rcx) /* the start of the frame */
	popq %rcx
	popq %rax
	ret
	.seh_endproc
#endif
