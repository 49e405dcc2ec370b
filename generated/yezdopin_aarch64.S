/*
 * SPDX-License-Identifier: ISC
 *
 * Written by `make generated` from the proved crate ring_c: do not edit.
 * Kit: rattle-kit-13b logic dac8208d650f15bf
 * Git trees: ring_core cea59fb45dc0 ring a6bdd1eb9bfb ring_text b637680a9628 ring_password_hash 9f2ce58da2d2 ring_merkle f1c32e3106f7 ring_schedules 89afbc8fb064 ring_tokens 77106ca2f06a ring_c 79f4af531afd
 * Instructions: put in the place of proved functions by instructions.py, git blob bd4cc2bd973e
 */

#if defined(__aarch64__) && (defined(__ELF__) || defined(__APPLE__))
#ifdef __APPLE__
#define L(NAME) L##NAME
#define CODE(NAME) .text
#define CONSTANTS(NAME, ...) .section __TEXT,__const
#define ADDRESSES(NAME) .section __DATA,__const
#define TYPE(NAME, KIND)
#define SIZE(NAME, BYTES)
#define HIDDEN(NAME) .private_extern NAME
#define NAMED(NAME) NAME:
#define PAGE(NAME) NAME@PAGE
#define IN_PAGE(NAME) NAME@PAGEOFF
#define memcpy _memcpy
#define memmove _memmove
#define memset _memset
#define yz_block_len _yz_block_len
#define yz_clear _yz_clear
#define yz_digest _yz_digest
#define yz_digest_each _yz_digest_each
#define yz_digest_final _yz_digest_final
#define yz_digest_init _yz_digest_init
#define yz_digest_update _yz_digest_update
#define yz_equal _yz_equal
#define yz_hkdf _yz_hkdf
#define yz_hkdf_expand _yz_hkdf_expand
#define yz_hkdf_expand_label _yz_hkdf_expand_label
#define yz_hkdf_extract _yz_hkdf_extract
#define yz_hmac_final _yz_hmac_final
#define yz_hmac_init _yz_hmac_init
#define yz_hmac_key_init _yz_hmac_key_init
#define yz_hmac_key_sign _yz_hmac_key_sign
#define yz_hmac_key_verify _yz_hmac_key_verify
#define yz_hmac_sign _yz_hmac_sign
#define yz_hmac_update _yz_hmac_update
#define yz_hmac_verify _yz_hmac_verify
#define yz_hotp _yz_hotp
#define yz_hotp_find _yz_hotp_find
#define yz_instructions _yz_instructions
#define yz_jws_sign _yz_jws_sign
#define yz_jws_verify _yz_jws_verify
#define yz_merkle_consistency_path _yz_merkle_consistency_path
#define yz_merkle_inclusion_path _yz_merkle_inclusion_path
#define yz_merkle_leaf _yz_merkle_leaf
#define yz_merkle_root _yz_merkle_root
#define yz_merkle_verify_consistency _yz_merkle_verify_consistency
#define yz_merkle_verify_inclusion _yz_merkle_verify_inclusion
#define yz_output_len _yz_output_len
#define yz_password_hash_info _yz_password_hash_info
#define yz_password_hash_new _yz_password_hash_new
#define yz_password_hash_salt _yz_password_hash_salt
#define yz_password_hash_verify _yz_password_hash_verify
#define yz_pbkdf2_derive _yz_pbkdf2_derive
#define yz_pbkdf2_verify _yz_pbkdf2_verify
#define yz_tls13_binder_key _yz_tls13_binder_key
#define yz_tls13_finished _yz_tls13_finished
#define yz_tls13_finished_verify _yz_tls13_finished_verify
#define yz_totp _yz_totp
#define yz_totp_find _yz_totp_find
#define yz_version _yz_version
#define yz_webhook_verify_github _yz_webhook_verify_github
#define yz_webhook_verify_hex _yz_webhook_verify_hex
#define yz_webhook_verify_stripe _yz_webhook_verify_stripe
#else
#define L(NAME) .L##NAME
#define CODE(NAME) .section .text.NAME,"ax",%progbits
#define CONSTANTS(NAME, ...) .section .rodata.NAME,__VA_ARGS__
#define ADDRESSES(NAME) .section .data.rel.ro.NAME,"aw",%progbits
#define TYPE(NAME, KIND) .type NAME, KIND
#define SIZE(NAME, BYTES) .size NAME, BYTES
#define HIDDEN(NAME) .hidden NAME
#define NAMED(NAME)
#define PAGE(NAME) NAME
#define IN_PAGE(NAME) :lo12:NAME
#endif
	.arch_extension sha2

	CODE(ring.digest.context.digest_counted)
	.p2align 2
/* ring::digest::context::digest_counted */
	TYPE(ring.digest.context.digest_counted, %function)
ring.digest.context.digest_counted:
	stp x29, x30, [sp, #-48]!
	stp x28, x21, [sp, #16]
	mov x29, sp
	stp x20, x19, [sp, #32]
	sub sp, sp, #0x1e0
	and w8, w1, #0xff
	mov w20, w1
	mov x19, x0
	cmp w8, #0x1
	stp xzr, xzr, [sp, #144]
	b.hi L(1_0)
	lsr x8, x3, #61
	cbz x8, L(1_0)
	movi v0.2d, #0x0
	mov w8, #0x1
	strb wzr, [x19, #65]
	strb w8, [x19]
	stur q0, [x19, #1]
	stur q0, [x19, #17]
	stur q0, [x19, #33]
	stur q0, [x19, #49]
	add sp, sp, #0x1e0
	ldp x20, x19, [sp, #32]
	ldp x28, x21, [sp, #16]
	ldp x29, x30, [sp], #48
	ret
L(1_0):
	adrp x8, PAGE(L(switch.table.yz_digest_each_wide.218))
	add x8, x8, IN_PAGE(L(switch.table.yz_digest_each_wide.218))
	and x9, x20, #0xff
	adrp x10, PAGE(L(switch.table.yz_digest_each_wide.219))
	add x10, x10, IN_PAGE(L(switch.table.yz_digest_each_wide.219))
	adrp x11, PAGE(L(switch.table.yz_digest_each_wide.220))
	add x11, x11, IN_PAGE(L(switch.table.yz_digest_each_wide.220))
	adrp x12, PAGE(L(switch.table.yz_digest_each_wide.221))
	add x12, x12, IN_PAGE(L(switch.table.yz_digest_each_wide.221))
	ldr w8, [x8, x9, lsl #2]
	ldr w10, [x10, x9, lsl #2]
	ldr x11, [x11, x9, lsl #3]
	ldr x12, [x12, x9, lsl #3]
	adrp x13, PAGE(L(switch.table.yz_digest_each_wide.222))
	add x13, x13, IN_PAGE(L(switch.table.yz_digest_each_wide.222))
	adrp x14, PAGE(L(switch.table.yz_digest_each_wide.223))
	add x14, x14, IN_PAGE(L(switch.table.yz_digest_each_wide.223))
	stp w8, w10, [sp, #80]
	adrp x10, PAGE(L(switch.table.yz_digest_each_wide.224))
	add x10, x10, IN_PAGE(L(switch.table.yz_digest_each_wide.224))
	stp x11, x12, [sp, #88]
	adrp x11, PAGE(L(switch.table.yz_digest_each_wide.225))
	add x11, x11, IN_PAGE(L(switch.table.yz_digest_each_wide.225))
	ldr x8, [x13, x9, lsl #3]
	ldr x13, [x14, x9, lsl #3]
	ldr x10, [x10, x9, lsl #3]
	ldr x11, [x11, x9, lsl #3]
	adrp x12, PAGE(L(switch.table.yz_digest_each_wide.227))
	add x12, x12, IN_PAGE(L(switch.table.yz_digest_each_wide.227))
	tst w20, #0xfe
	stp x8, x13, [sp, #104]
	adrp x8, PAGE(L(switch.table.yz_digest_each_wide.226))
	add x8, x8, IN_PAGE(L(switch.table.yz_digest_each_wide.226))
	stp x10, x11, [sp, #120]
	mov w10, #0x80
	mov w11, #0x40
	ldr x8, [x8, x9, lsl #3]
	ldr x9, [x12, x9, lsl #3]
	csel x10, x11, x10, eq
	cmp x3, x10
	stp xzr, xzr, [sp, #64]
	stp x8, x9, [sp, #136]
	strb w20, [sp, #152]
	b.cs L(1_1)
	mov x21, x4
	mov x8, xzr
	mov x9, xzr
	b L(1_2)
L(1_1):
	add x8, sp, #0x40
	mov w0, w20
	mov x20, x3
	add x1, x8, #0x10
	mov x21, x4
	bl ring.digest.block_context.run_blocks
	ldp x8, x9, [sp, #64]
	sub x10, x20, x1
	ldrb w20, [sp, #152]
	mov x2, x0
	mov x3, x1
	adds x8, x10, x8
	adcs x9, x9, xzr
	csinv x8, x8, xzr, cc
	csinv x9, x9, xzr, cc
	stp x8, x9, [sp, #64]
L(1_2):
	movi v0.2d, #0x0
	adds x8, x3, x8
	add x6, sp, #0xe0
	adcs x9, x9, xzr
	mov w0, w20
	mov x1, x2
	csinv x4, x8, xzr, cc
	csinv x5, x9, xzr, cc
	mov x2, x3
	stp q0, q0, [sp, #160]
	stp q0, q0, [sp, #192]
	stp q0, q0, [sp, #224]
	stp q0, q0, [sp, #256]
	stp q0, q0, [sp, #288]
	stp q0, q0, [sp, #320]
	stp q0, q0, [sp, #352]
	stp q0, q0, [sp, #384]
	stp q0, q0, [sp, #416]
	stp q0, q0, [sp, #448]
	bl ring.digest.block_context.write_tail
	mov x3, x0
	add x0, sp, #0xa0
	add x1, sp, #0x40
	add x2, sp, #0xe0
	mov x4, x21
	bl ring.digest.block_context.BlockContext.output_after
	ldp q1, q0, [sp, #192]
	strb wzr, [x19]
	ldp q3, q2, [sp, #160]
	strb w20, [x19, #65]
	stp q1, q0, [sp, #32]
	stp q3, q2, [sp]
	stur q3, [x19, #1]
	stur q2, [x19, #17]
	stur q1, [x19, #33]
	stur q0, [x19, #49]
	add sp, sp, #0x1e0
	ldp x20, x19, [sp, #32]
	ldp x28, x21, [sp, #16]
	ldp x29, x30, [sp], #48
	ret
	SIZE(ring.digest.context.digest_counted, 524)

	CODE(ring.digest.block_context.run_blocks)
	.p2align 2
/* ring::digest::block_context::run_blocks */
	TYPE(ring.digest.block_context.run_blocks, %function)
ring.digest.block_context.run_blocks:
	sub sp, sp, #0xd0
	ldrb w8, [x1]
	stp x24, x23, [sp, #160]
	mov x24, x3
	stp x22, x21, [sp, #176]
	mov x21, x1
	stp x20, x19, [sp, #192]
	mov x20, x4
	mov x19, x2
	stp x29, x30, [sp, #128]
	add x29, sp, #0x80
	str x25, [sp, #144]
	cbz w8, L(3_0)
	movi v0.2d, #0x0
	tst w0, #0xff
	and x22, x24, #0xffffffffffffffc0
	and x23, x24, #0x3f
	b.eq L(3_3)
	stp q0, q0, [sp]
	adrp x8, PAGE(yz_instructions)
	stp q0, q0, [sp, #32]
	ldrb w8, [x8, IN_PAGE(yz_instructions)]
	cbz w8, L(3_4)
	add x0, x21, #0x4
	mov x1, x19
	mov x2, x22
	mov x3, x20
	bl ring_core.digest.sha2.by_instruction.run_blocks.4b880bd721513749
	b L(3_8)
L(3_0):
	lsr x22, x24, #7
	cbz x22, L(3_2)
	add x23, x19, #0x40
L(3_1):
	ldp q2, q0, [x23, #-64]
	adrp x8, PAGE(L(201_4))
	ldp q4, q3, [x23, #-32]
	mov x0, sp
	ldr q5, [x8, IN_PAGE(L(201_4))]
	adrp x8, PAGE(L(201_5))
	add x1, x21, #0x8
	rev64 v1.16b, v0.16b
	rev64 v0.16b, v2.16b
	ldr q6, [x8, IN_PAGE(L(201_5))]
	adrp x8, PAGE(L(201_6))
	ldp q16, q7, [x23]
	ldp q19, q18, [x23, #32]
	ldr q17, [x8, IN_PAGE(L(201_6))]
	adrp x8, PAGE(L(201_7))
	rev64 v3.16b, v3.16b
	rev64 v2.16b, v4.16b
	ldr q20, [x8, IN_PAGE(L(201_7))]
	adrp x8, PAGE(L(201_9))
	add v21.2d, v1.2d, v6.2d
	add v22.2d, v0.2d, v5.2d
	rev64 v5.16b, v7.16b
	rev64 v7.16b, v18.16b
	ldr q18, [x8, IN_PAGE(L(201_9))]
	adrp x8, PAGE(L(201_8))
	rev64 v4.16b, v16.16b
	rev64 v6.16b, v19.16b
	ldr q19, [x8, IN_PAGE(L(201_8))]
	adrp x8, PAGE(L(201_11))
	add v16.2d, v3.2d, v20.2d
	add v17.2d, v2.2d, v17.2d
	ldr q20, [x8, IN_PAGE(L(201_11))]
	adrp x8, PAGE(L(201_10))
	stp q22, q21, [sp]
	add v18.2d, v5.2d, v18.2d
	ldr q21, [x8, IN_PAGE(L(201_10))]
	add v19.2d, v4.2d, v19.2d
	stp q17, q16, [sp, #32]
	add v16.2d, v7.2d, v20.2d
	add v17.2d, v6.2d, v21.2d
	stp q19, q18, [sp, #64]
	stp q17, q16, [sp, #96]
	bl ring_core.digest.sha2.by_fours.run_ahead.34389943500e16fa
	ldp x8, x9, [x20]
	add x23, x23, #0x80
	adds x8, x8, #0x1
	adcs x9, x9, xzr
	csinv x8, x8, xzr, cc
	csinv x9, x9, xzr, cc
	subs x22, x22, #0x1
	stp x8, x9, [x20]
	b.ne L(3_1)
L(3_2):
	and x22, x24, #0xffffffffffffff80
	and x23, x24, #0x7f
	b L(3_8)
L(3_3):
	stp q0, q0, [sp]
	adrp x8, PAGE(yz_instructions)
	stp q0, q0, [sp, #32]
	ldrb w8, [x8, IN_PAGE(yz_instructions)]
	cbz w8, L(3_6)
	add x0, x21, #0x4
	mov x1, x19
	mov x2, x22
	mov x3, x20
	bl ring_core.digest.sha1.by_instruction.run_blocks.87fcf8c0f9719b5d
	b L(3_8)
L(3_4):
	lsr x24, x24, #6
	cbz x24, L(3_8)
	add x25, x19, #0x20
L(3_5):
	ldp q0, q1, [x25, #-32]
	adrp x8, PAGE(L(201_0))
	ldp q2, q3, [x25], #64
	ldr q4, [x8, IN_PAGE(L(201_0))]
	adrp x8, PAGE(L(201_1))
	mov x0, sp
	rev32 v0.16b, v0.16b
	rev32 v1.16b, v1.16b
	ldr q5, [x8, IN_PAGE(L(201_1))]
	rev32 v2.16b, v2.16b
	adrp x8, PAGE(L(201_2))
	rev32 v3.16b, v3.16b
	ldr q6, [x8, IN_PAGE(L(201_2))]
	adrp x8, PAGE(L(201_3))
	add x1, x21, #0x4
	ldr q7, [x8, IN_PAGE(L(201_3))]
	add v4.4s, v0.4s, v4.4s
	add v5.4s, v1.4s, v5.4s
	add v6.4s, v2.4s, v6.4s
	add v7.4s, v3.4s, v7.4s
	stp q4, q5, [sp]
	stp q6, q7, [sp, #32]
	bl ring_core.digest.sha2.by_fours.run_ahead.99accd9fe8f0e06d
	ldp x8, x9, [x20]
	adds x8, x8, #0x1
	adcs x9, x9, xzr
	csinv x8, x8, xzr, cc
	csinv x9, x9, xzr, cc
	subs x24, x24, #0x1
	stp x8, x9, [x20]
	b.ne L(3_5)
	b L(3_8)
L(3_6):
	lsr x24, x24, #6
	cbz x24, L(3_8)
	add x25, x19, #0x20
L(3_7):
	ldp q0, q1, [x25, #-32]
	mov w8, #0x7999
	ldp q2, q3, [x25], #64
	movk w8, #0x5a82, lsl #16
	mov x0, sp
	add x1, x21, #0x4
	rev32 v0.16b, v0.16b
	rev32 v1.16b, v1.16b
	dup v4.4s, w8
	rev32 v2.16b, v2.16b
	rev32 v3.16b, v3.16b
	add v5.4s, v0.4s, v4.4s
	add v6.4s, v1.4s, v4.4s
	add v7.4s, v2.4s, v4.4s
	add v4.4s, v3.4s, v4.4s
	stp q5, q6, [sp]
	stp q7, q4, [sp, #32]
	bl ring_core.digest.sha1.by_fours.run_ahead
	ldp x8, x9, [x20]
	adds x8, x8, #0x1
	adcs x9, x9, xzr
	csinv x8, x8, xzr, cc
	csinv x9, x9, xzr, cc
	subs x24, x24, #0x1
	stp x8, x9, [x20]
	b.ne L(3_7)
L(3_8):
	add x0, x19, x22
	mov x1, x23
	ldr x25, [sp, #144]
	ldp x20, x19, [sp, #192]
	ldp x22, x21, [sp, #176]
	ldp x24, x23, [sp, #160]
	ldp x29, x30, [sp, #128]
	add sp, sp, #0xd0
	ret
	SIZE(ring.digest.block_context.run_blocks, 684)

	CODE(ring_core.digest.sha2.by_fours.run_ahead.34389943500e16fa)
	.p2align 2
/* ring_core::digest::sha2::by_fours::run_ahead::<#34389943500e16fa> */
	TYPE(ring_core.digest.sha2.by_fours.run_ahead.34389943500e16fa, %function)
ring_core.digest.sha2.by_fours.run_ahead.34389943500e16fa:
	stp x20, x19, [sp, #-16]!
	ldp x10, x11, [x1]
	adrp x8, PAGE(L(206_0))
	add x8, x8, IN_PAGE(L(206_0))
	ldp x12, x15, [x1, #16]
	ldp x13, x14, [x1, #32]
	mov w9, #0x4
	ldp x16, x17, [x1, #48]
L(5_0):
	ext v16.16b, v0.16b, v1.16b, #8
	shl v17.2d, v7.2d, #22
	bic x3, x16, x13
	ext v20.16b, v4.16b, v5.16b, #8
	ushr v21.2d, v7.2d, #6
	and x4, x14, x13
	ext v22.16b, v2.16b, v3.16b, #8
	eor x2, x11, x10
	orr x3, x4, x3
	usra v17.2d, v7.2d, #42
	bic x4, x11, x2
	and x7, x12, x2
	shl v18.2d, v16.2d, #57
	eor x6, x13, x13, ror #23
	add x20, x17, x3
	add v0.2d, v0.2d, v20.2d
	orr x3, x7, x4
	eor x7, x10, x10, ror #5
	eor v17.16b, v17.16b, v7.16b
	shl v25.2d, v22.2d, #57
	eor x6, x13, x6, ror #4
	usra v18.2d, v16.2d, #7
	ldp x5, x19, [x0]
	eor x7, x10, x7, ror #6
	ror x6, x6, #14
	subs x9, x9, #0x1
	shl v19.2d, v17.2d, #45
	usra v25.2d, v22.2d, #7
	eor v18.16b, v18.16b, v16.16b
	ushr v16.2d, v16.2d, #7
	add x17, x19, x16
	add x16, x20, x5
	ror x7, x7, #28
	usra v19.2d, v17.2d, #19
	add x6, x6, x16
	shl v17.2d, v18.2d, #63
	add x16, x3, x7
	add x3, x6, x15
	ldp x4, x5, [x0, #16]
	add x16, x16, x6
	eor v19.16b, v19.16b, v21.16b
	ext v21.16b, v1.16b, v2.16b, #8
	eor x15, x3, x3, ror #23
	usra v17.2d, v18.2d, #1
	ext v18.16b, v5.16b, v6.16b, #8
	eor x6, x16, x16, ror #5
	eor x15, x3, x15, ror #4
	add x4, x4, x14
	bic x14, x14, x3
	add v0.2d, v0.2d, v19.2d
	and x7, x13, x3
	eor x19, x16, x6, ror #6
	eor v16.16b, v17.16b, v16.16b
	shl v17.2d, v21.2d, #57
	orr x14, x7, x14
	add v1.2d, v1.2d, v18.2d
	eor x6, x16, x10
	ror x15, x15, #14
	and x2, x6, x2
	ror x7, x19, #28
	add x14, x17, x14
	add v0.2d, v0.2d, v16.2d
	usra v17.2d, v21.2d, #7
	eor x17, x2, x10
	add x15, x14, x15
	add x14, x7, x17
	add x5, x5, x13
	add x12, x15, x12
	add x14, x14, x15
	shl v16.2d, v0.2d, #22
	eor v19.16b, v17.16b, v21.16b
	ushr v21.2d, v21.2d, #7
	ushr v24.2d, v0.2d, #6
	eor x15, x12, x12, ror #23
	bic x13, x13, x12
	and x17, x3, x12
	eor x2, x14, x14, ror #5
	eor x19, x14, x16
	usra v16.2d, v0.2d, #42
	shl v17.2d, v19.2d, #63
	orr x13, x17, x13
	eor x17, x12, x15, ror #4
	eor x2, x14, x2, ror #6
	add x13, x4, x13
	and x4, x19, x6
	ldp x7, x15, [x0, #32]
	eor v16.16b, v16.16b, v0.16b
	usra v17.2d, v19.2d, #1
	ror x17, x17, #14
	ror x2, x2, #28
	add x13, x13, x17
	shl v23.2d, v16.2d, #45
	eor v19.16b, v17.16b, v21.16b
	ext v21.16b, v3.16b, v4.16b, #8
	add x17, x13, x11
	eor x11, x4, x16
	add x4, x7, x3
	eor x6, x17, x17, ror #23
	add x11, x2, x11
	bic x2, x3, x17
	usra v23.2d, v16.2d, #19
	add v1.2d, v1.2d, v19.2d
	ext v19.16b, v6.16b, v7.16b, #8
	add x13, x11, x13
	eor x11, x17, x6, ror #4
	and x3, x12, x17
	eor x6, x13, x13, ror #5
	orr x2, x3, x2
	eor v23.16b, v23.16b, v24.16b
	add x2, x5, x2
	ror x11, x11, #14
	add v2.2d, v2.2d, v19.2d
	eor x5, x13, x6, ror #6
	eor x6, x13, x14
	and x7, x6, x19
	add x11, x2, x11
	add v1.2d, v23.2d, v1.2d
	eor v23.16b, v25.16b, v22.16b
	ushr v22.2d, v22.2d, #7
	ror x5, x5, #28
	eor x7, x7, x14
	ldp x3, x2, [x0, #48]
	shl v24.2d, v1.2d, #22
	shl v25.2d, v23.2d, #63
	add x7, x5, x7
	add x5, x11, x10
	add x10, x15, x12
	add x11, x7, x11
	eor x15, x5, x5, ror #23
	bic x12, x12, x5
	and x7, x17, x5
	usra v24.2d, v1.2d, #42
	usra v25.2d, v23.2d, #1
	orr x12, x7, x12
	eor x15, x5, x15, ror #4
	eor x7, x11, x11, ror #5
	add x12, x4, x12
	eor x4, x11, x13
	add x2, x5, x2
	eor v23.16b, v24.16b, v1.16b
	eor v22.16b, v25.16b, v22.16b
	shl v24.2d, v21.2d, #57
	ror x15, x15, #14
	eor x7, x11, x7, ror #6
	and x6, x4, x6
	eor x6, x6, x13
	ldp q17, q16, [x8, #-96]
	shl v25.2d, v23.2d, #45
	add v2.2d, v22.2d, v2.2d
	usra v24.2d, v21.2d, #7
	add x12, x12, x15
	ror x7, x7, #28
	add x15, x12, x16
	add v17.2d, v17.2d, v0.2d
	add v16.2d, v16.2d, v1.2d
	usra v25.2d, v23.2d, #19
	ushr v23.2d, v1.2d, #6
	eor v22.16b, v24.16b, v21.16b
	ushr v21.2d, v21.2d, #7
	eor x16, x15, x15, ror #23
	add x6, x7, x6
	add x12, x6, x12
	bic x6, x17, x15
	and x7, x5, x15
	eor v23.16b, v25.16b, v23.16b
	shl v25.2d, v22.2d, #63
	eor x16, x15, x16, ror #4
	orr x6, x7, x6
	eor x7, x12, x12, ror #5
	add x17, x17, x3
	ror x16, x16, #14
	add x10, x10, x6
	eor x6, x12, x11
	add v2.2d, v2.2d, v23.2d
	shl v23.2d, v20.2d, #57
	usra v25.2d, v22.2d, #1
	ushr v22.2d, v20.2d, #7
	eor x7, x12, x7, ror #6
	add x10, x10, x16
	and x4, x6, x4
	add x14, x10, x14
	stp q17, q16, [x0]
	shl v24.2d, v2.2d, #22
	usra v23.2d, v20.2d, #7
	ror x7, x7, #28
	eor x16, x4, x11
	eor x4, x14, x14, ror #23
	add x16, x7, x16
	and x7, x15, x14
	usra v24.2d, v2.2d, #42
	eor v23.16b, v23.16b, v20.16b
	eor v20.16b, v25.16b, v21.16b
	ushr v21.2d, v2.2d, #6
	add x10, x16, x10
	eor x4, x14, x4, ror #4
	bic x16, x5, x14
	eor x3, x10, x10, ror #5
	eor v24.16b, v24.16b, v2.16b
	add v3.2d, v20.2d, v3.2d
	ext v20.16b, v7.16b, v0.16b, #8
	shl v25.2d, v23.2d, #63
	orr x16, x7, x16
	ror x4, x4, #14
	add x17, x17, x16
	eor x7, x10, x3, ror #6
	shl v26.2d, v24.2d, #45
	add x19, x17, x4
	eor x4, x10, x12
	add v3.2d, v3.2d, v20.2d
	usra v25.2d, v23.2d, #1
	and x17, x4, x6
	ror x6, x7, #28
	eor x17, x17, x12
	ext v23.16b, v0.16b, v1.16b, #8
	usra v26.2d, v24.2d, #19
	shl v24.2d, v18.2d, #57
	eor v22.16b, v25.16b, v22.16b
	add x5, x6, x17
	add x17, x19, x13
	add x13, x5, x19
	eor x5, x17, x17, ror #23
	bic x6, x15, x17
	eor v21.16b, v26.16b, v21.16b
	and x7, x14, x17
	usra v24.2d, v18.2d, #7
	add v4.2d, v22.2d, v4.2d
	eor x5, x17, x5, ror #4
	orr x7, x7, x6
	eor x6, x13, x13, ror #5
	ldp x3, x16, [x0, #64]
	add v3.2d, v21.2d, v3.2d
	ror x5, x5, #14
	add x2, x2, x7
	eor x7, x13, x10
	eor x6, x13, x6, ror #6
	add v4.2d, v4.2d, v23.2d
	and x4, x7, x4
	add x2, x2, x5
	add x15, x15, x3
	shl v25.2d, v3.2d, #22
	eor x19, x4, x10
	ror x6, x6, #28
	add x4, x2, x11
	eor v21.16b, v24.16b, v18.16b
	shl v24.2d, v19.2d, #57
	eor x3, x4, x4, ror #23
	add x11, x6, x19
	and x5, x17, x4
	usra v25.2d, v3.2d, #42
	add x11, x11, x2
	bic x2, x14, x4
	eor x3, x4, x3, ror #4
	orr x2, x5, x2
	eor x5, x11, x11, ror #5
	add x15, x15, x2
	shl v23.2d, v21.2d, #63
	usra v24.2d, v19.2d, #7
	eor v22.16b, v25.16b, v3.16b
	ror x3, x3, #14
	eor x5, x11, x5, ror #6
	ldp x6, x2, [x0, #80]
	ushr v18.2d, v18.2d, #7
	add x15, x15, x3
	eor x3, x11, x13
	ror x19, x5, #28
	shl v25.2d, v22.2d, #45
	and x7, x3, x7
	add x5, x15, x12
	eor x7, x7, x13
	usra v23.2d, v21.2d, #1
	eor v21.16b, v24.16b, v19.16b
	add x12, x19, x7
	eor x7, x5, x5, ror #23
	add x14, x14, x16
	usra v25.2d, v22.2d, #19
	ushr v22.2d, v3.2d, #6
	add x12, x12, x15
	bic x15, x17, x5
	eor x7, x5, x7, ror #4
	add x17, x17, x6
	eor x6, x12, x12, ror #5
	eor v18.16b, v23.16b, v18.16b
	and x16, x4, x5
	eor v22.16b, v25.16b, v22.16b
	orr x15, x16, x15
	ror x16, x7, #14
	eor x6, x12, x6, ror #6
	add x14, x14, x15
	eor x19, x12, x11
	ext v25.16b, v1.16b, v2.16b, #8
	shl v23.2d, v21.2d, #63
	add x14, x14, x16
	add v4.2d, v4.2d, v22.2d
	add v5.2d, v18.2d, v5.2d
	and x16, x19, x3
	ror x3, x6, #28
	eor x16, x16, x11
	add x2, x4, x2
	usra v23.2d, v21.2d, #1
	shl v18.2d, v20.2d, #57
	ushr v19.2d, v19.2d, #7
	shl v22.2d, v4.2d, #22
	add x3, x3, x16
	add x16, x14, x10
	add x10, x3, x14
	bic x14, x4, x16
	and x3, x5, x16
	eor x4, x16, x16, ror #23
	add v5.2d, v5.2d, v25.2d
	orr x14, x3, x14
	usra v22.2d, v4.2d, #42
	eor x3, x10, x10, ror #5
	add x14, x17, x14
	eor x6, x16, x4, ror #4
	eor x4, x10, x12
	usra v18.2d, v20.2d, #7
	eor x3, x10, x3, ror #6
	and x17, x4, x19
	eor v19.16b, v23.16b, v19.16b
	eor v22.16b, v22.16b, v4.16b
	ror x6, x6, #14
	eor x17, x17, x12
	ror x3, x3, #28
	ldp x7, x15, [x0, #96]
	add x6, x14, x6
	eor v18.16b, v18.16b, v20.16b
	add v6.2d, v19.2d, v6.2d
	shl v24.2d, v22.2d, #45
	add x14, x3, x17
	add x3, x6, x13
	add x14, x14, x6
	eor x6, x3, x3, ror #23
	add x17, x5, x7
	bic x13, x5, x3
	and x5, x16, x3
	shl v19.2d, v18.2d, #63
	usra v24.2d, v22.2d, #19
	ushr v22.2d, v4.2d, #6
	orr x7, x5, x13
	eor x6, x3, x6, ror #4
	add x2, x2, x7
	eor x7, x14, x14, ror #5
	add x19, x16, x15
	usra v19.2d, v18.2d, #1
	ext v18.16b, v2.16b, v3.16b, #8
	eor v21.16b, v24.16b, v22.16b
	ror x6, x6, #14
	eor x7, x14, x7, ror #6
	ushr v20.2d, v20.2d, #7
	ldp x5, x13, [x0, #112]
	add x15, x2, x6
	eor x6, x14, x10
	ror x7, x7, #28
	add v5.2d, v21.2d, v5.2d
	and x2, x6, x4
	add x4, x15, x11
	eor x2, x2, x10
	bic x16, x16, x4
	add v6.2d, v6.2d, v18.2d
	add x11, x7, x2
	and x7, x3, x4
	add x5, x3, x5
	shl v21.2d, v5.2d, #22
	add x2, x11, x15
	eor x11, x4, x4, ror #23
	ushr v22.2d, v5.2d, #6
	orr x15, x7, x16
	eor x16, x2, x2, ror #5
	eor x11, x4, x11, ror #4
	eor x7, x2, x14
	add x15, x17, x15
	usra v21.2d, v5.2d, #42
	eor x16, x2, x16, ror #6
	and x17, x7, x6
	ror x11, x11, #14
	eor x17, x17, x14
	add x13, x4, x13
	ror x16, x16, #28
	eor v17.16b, v21.16b, v5.16b
	add x11, x15, x11
	add x15, x16, x17
	add x17, x11, x12
	add x15, x15, x11
	eor x11, x17, x17, ror #23
	bic x12, x3, x17
	shl v21.2d, v17.2d, #45
	eor x3, x15, x15, ror #5
	and x16, x4, x17
	eor x11, x17, x11, ror #4
	orr x12, x16, x12
	eor x6, x15, x2
	eor x16, x15, x3, ror #6
	and x3, x6, x7
	add x12, x19, x12
	usra v21.2d, v17.2d, #19
	eor v17.16b, v19.16b, v20.16b
	ror x11, x11, #14
	ldp q18, q19, [x8, #-64]
	ror x16, x16, #28
	eor x3, x3, x2
	add x11, x12, x11
	eor v16.16b, v21.16b, v22.16b
	add v7.2d, v17.2d, v7.2d
	add x12, x16, x3
	add v17.2d, v19.2d, v3.2d
	add x16, x11, x10
	add x12, x12, x11
	eor x10, x16, x16, ror #23
	eor x3, x12, x12, ror #5
	bic x11, x4, x16
	add v6.2d, v6.2d, v16.2d
	add v16.2d, v18.2d, v2.2d
	and x7, x17, x16
	eor x10, x16, x10, ror #4
	eor x3, x12, x3, ror #6
	ext v19.16b, v3.16b, v4.16b, #8
	orr x11, x7, x11
	eor x7, x12, x15
	shl v18.2d, v6.2d, #22
	stp q16, q17, [x0, #32]
	ror x10, x10, #14
	and x6, x7, x6
	add x11, x5, x11
	ror x3, x3, #28
	ushr v21.2d, v6.2d, #6
	eor x5, x6, x15
	add x10, x11, x10
	usra v18.2d, v6.2d, #42
	add x11, x3, x5
	add x14, x10, x14
	add v7.2d, v7.2d, v19.2d
	eor x3, x14, x14, ror #23
	add x11, x11, x10
	eor x6, x11, x11, ror #5
	bic x10, x17, x14
	and x5, x16, x14
	eor v16.16b, v18.16b, v6.16b
	ldp q17, q18, [x8, #-32]
	eor x3, x14, x3, ror #4
	eor x6, x11, x6, ror #6
	orr x10, x5, x10
	add x10, x13, x10
	shl v20.2d, v16.2d, #45
	ror x5, x3, #14
	eor x3, x11, x12
	ror x4, x6, #28
	and x6, x3, x7
	eor x13, x6, x12
	add x5, x10, x5
	usra v20.2d, v16.2d, #19
	add v16.2d, v17.2d, v4.2d
	add v17.2d, v18.2d, v5.2d
	add x10, x4, x13
	add x13, x5, x2
	add x10, x10, x5
	eor v18.16b, v20.16b, v21.16b
	stp q16, q17, [x0, #64]
	ldp q16, q17, [x8], #128
	add v7.2d, v18.2d, v7.2d
	add v16.2d, v16.2d, v6.2d
	add v17.2d, v17.2d, v7.2d
	stp q16, q17, [x0, #96]
	b.ne L(5_0)
	eor x8, x13, x13, ror #23
	eor x9, x10, x10, ror #5
	bic x2, x16, x13
	and x4, x14, x13
	eor x5, x11, x10
	orr x2, x4, x2
	eor x8, x13, x8, ror #4
	eor x9, x10, x9, ror #6
	add x17, x17, x2
	ldp x6, x2, [x0]
	and x3, x3, x5
	ror x8, x8, #14
	ror x9, x9, #28
	eor x3, x3, x11
	add x17, x17, x6
	add x16, x2, x16
	add x17, x8, x17
	add x8, x3, x9
	add x8, x8, x17
	add x15, x17, x15
	eor x9, x15, x15, ror #23
	eor x17, x8, x8, ror #5
	bic x3, x14, x15
	and x4, x13, x15
	eor x2, x8, x10
	eor x9, x15, x9, ror #4
	eor x17, x8, x17, ror #6
	orr x3, x4, x3
	and x4, x2, x5
	add x16, x16, x3
	ror x9, x9, #14
	ror x17, x17, #28
	eor x3, x4, x10
	add x16, x16, x9
	add x9, x17, x3
	add x9, x9, x16
	add x16, x16, x12
	eor x12, x16, x16, ror #23
	eor x17, x9, x9, ror #5
	bic x5, x13, x16
	ldp x3, x4, [x0, #16]
	and x6, x15, x16
	eor x12, x16, x12, ror #4
	eor x17, x9, x17, ror #6
	orr x5, x6, x5
	add x14, x3, x14
	eor x3, x9, x8
	ror x12, x12, #14
	and x2, x3, x2
	ror x17, x17, #28
	add x14, x14, x5
	eor x2, x2, x8
	add x14, x14, x12
	add x13, x4, x13
	add x12, x17, x2
	add x12, x12, x14
	add x14, x14, x11
	eor x11, x14, x14, ror #23
	eor x17, x12, x12, ror #5
	bic x2, x15, x14
	and x5, x16, x14
	eor x4, x12, x9
	eor x11, x14, x11, ror #4
	eor x17, x12, x17, ror #6
	orr x2, x5, x2
	and x3, x4, x3
	add x13, x13, x2
	ror x11, x11, #14
	ror x17, x17, #28
	eor x2, x3, x9
	add x13, x13, x11
	add x11, x17, x2
	add x11, x11, x13
	add x17, x13, x10
	eor x10, x17, x17, ror #23
	eor x13, x11, x11, ror #5
	bic x5, x16, x17
	ldp x2, x3, [x0, #32]
	and x6, x14, x17
	eor x10, x17, x10, ror #4
	eor x13, x11, x13, ror #6
	orr x5, x6, x5
	add x15, x15, x2
	eor x2, x11, x12
	ror x10, x10, #14
	and x4, x2, x4
	ror x13, x13, #28
	add x15, x15, x5
	eor x4, x4, x12
	add x15, x15, x10
	add x16, x16, x3
	add x10, x13, x4
	add x10, x10, x15
	add x15, x15, x8
	eor x8, x15, x15, ror #23
	eor x13, x10, x10, ror #5
	bic x4, x14, x15
	and x5, x17, x15
	eor x3, x10, x11
	eor x8, x15, x8, ror #4
	eor x13, x10, x13, ror #6
	orr x4, x5, x4
	and x2, x3, x2
	add x16, x16, x4
	ror x8, x8, #14
	ror x13, x13, #28
	eor x2, x2, x11
	add x16, x16, x8
	add x8, x13, x2
	add x8, x8, x16
	add x16, x16, x9
	eor x9, x16, x16, ror #23
	eor x13, x8, x8, ror #5
	bic x5, x17, x16
	ldp x2, x4, [x0, #48]
	and x6, x15, x16
	eor x9, x16, x9, ror #4
	eor x13, x8, x13, ror #6
	orr x5, x6, x5
	add x14, x14, x2
	eor x2, x8, x10
	ror x9, x9, #14
	and x3, x2, x3
	ror x13, x13, #28
	add x14, x14, x5
	eor x3, x3, x10
	add x9, x14, x9
	add x17, x17, x4
	add x13, x13, x3
	add x13, x13, x9
	add x9, x9, x12
	eor x12, x9, x9, ror #23
	eor x14, x13, x13, ror #5
	bic x3, x15, x9
	and x5, x16, x9
	eor x4, x13, x8
	eor x12, x9, x12, ror #4
	eor x14, x13, x14, ror #6
	orr x3, x5, x3
	and x2, x4, x2
	add x17, x17, x3
	ror x12, x12, #14
	ror x14, x14, #28
	eor x2, x2, x8
	add x17, x17, x12
	add x12, x14, x2
	add x12, x12, x17
	add x17, x17, x11
	eor x11, x17, x17, ror #23
	eor x14, x12, x12, ror #5
	bic x5, x16, x17
	ldp x2, x3, [x0, #64]
	and x6, x9, x17
	eor x11, x17, x11, ror #4
	eor x14, x12, x14, ror #6
	orr x5, x6, x5
	add x15, x15, x2
	eor x2, x12, x13
	ror x11, x11, #14
	and x4, x2, x4
	ror x14, x14, #28
	add x15, x15, x5
	eor x4, x4, x13
	add x15, x15, x11
	add x16, x16, x3
	add x11, x14, x4
	add x10, x15, x10
	add x11, x11, x15
	eor x14, x10, x10, ror #23
	bic x4, x9, x10
	eor x15, x11, x11, ror #5
	and x5, x17, x10
	eor x3, x11, x12
	eor x14, x10, x14, ror #4
	orr x4, x5, x4
	and x2, x3, x2
	eor x15, x11, x15, ror #6
	add x16, x16, x4
	eor x2, x2, x12
	ror x14, x14, #14
	ror x15, x15, #28
	add x16, x16, x14
	add x14, x15, x2
	add x15, x16, x8
	add x14, x14, x16
	eor x8, x15, x15, ror #23
	bic x5, x17, x15
	eor x16, x14, x14, ror #5
	ldp x2, x4, [x0, #80]
	eor x8, x15, x8, ror #4
	and x6, x10, x15
	eor x16, x14, x16, ror #6
	orr x5, x6, x5
	add x9, x9, x2
	eor x2, x14, x11
	ror x8, x8, #14
	and x3, x2, x3
	ror x16, x16, #28
	add x9, x9, x5
	eor x3, x3, x11
	add x8, x9, x8
	add x17, x17, x4
	add x9, x16, x3
	add x13, x8, x13
	add x9, x9, x8
	eor x8, x13, x13, ror #23
	bic x3, x10, x13
	eor x16, x9, x9, ror #5
	and x5, x15, x13
	eor x4, x9, x14
	eor x8, x13, x8, ror #4
	orr x3, x5, x3
	and x2, x4, x2
	eor x16, x9, x16, ror #6
	add x17, x17, x3
	eor x2, x2, x14
	ror x8, x8, #14
	ror x16, x16, #28
	add x17, x17, x8
	add x8, x16, x2
	add x12, x17, x12
	add x8, x8, x17
	eor x16, x12, x12, ror #23
	bic x5, x15, x12
	eor x17, x8, x8, ror #5
	ldp x2, x3, [x0, #96]
	eor x16, x12, x16, ror #4
	and x6, x13, x12
	eor x17, x8, x17, ror #6
	orr x5, x6, x5
	add x10, x10, x2
	eor x2, x8, x9
	ror x16, x16, #14
	and x4, x2, x4
	ror x17, x17, #28
	add x10, x10, x5
	eor x4, x4, x9
	add x10, x10, x16
	add x15, x15, x3
	add x16, x17, x4
	add x16, x16, x10
	add x10, x10, x11
	eor x11, x10, x10, ror #23
	eor x17, x16, x16, ror #5
	bic x4, x13, x10
	and x5, x12, x10
	eor x3, x16, x8
	eor x11, x10, x11, ror #4
	eor x17, x16, x17, ror #6
	orr x4, x5, x4
	and x2, x3, x2
	add x15, x15, x4
	ror x11, x11, #14
	ror x17, x17, #28
	eor x2, x2, x8
	add x11, x15, x11
	add x15, x17, x2
	add x15, x15, x11
	add x11, x11, x14
	eor x14, x11, x11, ror #23
	eor x17, x15, x15, ror #5
	bic x4, x12, x11
	ldp x2, x0, [x0, #112]
	and x5, x10, x11
	eor x14, x11, x14, ror #4
	eor x17, x15, x17, ror #6
	eor x6, x15, x16
	and x3, x6, x3
	add x13, x13, x2
	orr x2, x5, x4
	ror x14, x14, #14
	ror x17, x17, #28
	add x13, x13, x2
	eor x2, x3, x16
	add x13, x13, x14
	add x12, x12, x0
	add x14, x17, x2
	add x9, x13, x9
	add x14, x14, x13
	ldp x17, x2, [x1, #16]
	eor x13, x9, x9, ror #23
	eor x0, x14, x14, ror #5
	and x3, x11, x9
	ldp x4, x5, [x1]
	eor x13, x9, x13, ror #4
	eor x0, x14, x0, ror #6
	add x16, x16, x2
	add x17, x15, x17
	bic x2, x10, x9
	bic x15, x15, x6
	and x6, x14, x6
	orr x2, x3, x2
	ror x13, x13, #14
	orr x15, x6, x15
	ror x0, x0, #28
	add x12, x12, x2
	add x15, x15, x4
	stp x17, x16, [x1, #16]
	add x12, x12, x13
	add x13, x15, x0
	ldp x15, x17, [x1, #32]
	add x13, x13, x12
	add x14, x14, x5
	stp x13, x14, [x1]
	add x8, x8, x15
	add x9, x9, x17
	add x8, x8, x12
	ldp x12, x13, [x1, #48]
	stp x8, x9, [x1, #32]
	add x8, x11, x12
	add x9, x10, x13
	stp x8, x9, [x1, #48]
	ldp x20, x19, [sp], #16
	ret
	SIZE(ring_core.digest.sha2.by_fours.run_ahead.34389943500e16fa, 3140)

	CODE(ring_core.digest.sha1.by_instruction.run_blocks.87fcf8c0f9719b5d)
	.p2align 2
/* ring_core::digest::sha1::by_instruction::run_blocks::<#87fcf8c0f9719b5d> */
	TYPE(ring_core.digest.sha1.by_instruction.run_blocks.87fcf8c0f9719b5d, %function)
ring_core.digest.sha1.by_instruction.run_blocks.87fcf8c0f9719b5d:
	ldr q0, [x0]
	lsr x10, x2, #6
	ldr w9, [x0, #16]
	ldur d1, [x0, #20]
	ldr w8, [x0, #28]
	cbz x10, L(7_1)
	ldp x13, x11, [x3]
	add x12, x1, #0x20
L(7_0):
	ldp q2, q3, [x12, #-32]
	mov w14, #0x7999
	movk w14, #0x5a82, lsl #16
	fmov s5, w9
	mov v7.16b, v0.16b
	dup v6.4s, w14
	mov w14, #0xeba1
	adds x13, x13, #0x1
	rev32 v2.16b, v2.16b
	rev32 v3.16b, v3.16b
	movk w14, #0x6ed9, lsl #16
	adcs x11, x11, xzr
	csinv x11, x11, xzr, cc
	csinv x13, x13, xzr, cc
	subs x10, x10, #0x1
	add v4.4s, v2.4s, v6.4s
	add v16.4s, v3.4s, v6.4s
	sha1c q7, s5, v4.4s
	ldp q4, q17, [x12], #64
	sha1h s5, s0
	stp x13, x11, [x3]
	rev32 v4.16b, v4.16b
	mov v18.16b, v7.16b
	sha1h s7, s7
	sha1c q18, s5, v16.4s
	add v16.4s, v4.4s, v6.4s
	rev32 v5.16b, v17.16b
	sha1su0 v2.4s, v3.4s, v4.4s
	mov v17.16b, v18.16b
	sha1su1 v2.4s, v5.4s
	sha1su0 v3.4s, v4.4s, v5.4s
	sha1c q17, s7, v16.4s
	sha1h s7, s18
	add v16.4s, v5.4s, v6.4s
	add v6.4s, v2.4s, v6.4s
	sha1su1 v3.4s, v2.4s
	sha1su0 v4.4s, v5.4s, v2.4s
	mov v18.16b, v17.16b
	sha1su1 v4.4s, v3.4s
	sha1su0 v5.4s, v2.4s, v3.4s
	sha1c q18, s7, v16.4s
	sha1h s7, s17
	dup v17.4s, w14
	sha1su1 v5.4s, v4.4s
	sha1su0 v2.4s, v3.4s, v4.4s
	mov w14, #0xbcdc
	movk w14, #0x8f1b, lsl #16
	mov v16.16b, v18.16b
	sha1su1 v2.4s, v5.4s
	sha1c q16, s7, v6.4s
	sha1h s6, s18
	add v7.4s, v3.4s, v17.4s
	sha1su0 v3.4s, v4.4s, v5.4s
	mov v18.16b, v16.16b
	sha1su1 v3.4s, v2.4s
	sha1p q18, s6, v7.4s
	sha1h s6, s16
	add v7.4s, v4.4s, v17.4s
	sha1su0 v4.4s, v5.4s, v2.4s
	mov v16.16b, v18.16b
	sha1su1 v4.4s, v3.4s
	sha1p q16, s6, v7.4s
	sha1h s6, s18
	add v7.4s, v5.4s, v17.4s
	sha1su0 v5.4s, v2.4s, v3.4s
	mov v18.16b, v16.16b
	sha1su1 v5.4s, v4.4s
	sha1p q18, s6, v7.4s
	sha1h s6, s16
	add v7.4s, v2.4s, v17.4s
	sha1su0 v2.4s, v3.4s, v4.4s
	mov v16.16b, v18.16b
	sha1su1 v2.4s, v5.4s
	sha1p q16, s6, v7.4s
	sha1h s6, s18
	add v7.4s, v3.4s, v17.4s
	dup v18.4s, w14
	sha1su0 v3.4s, v4.4s, v5.4s
	mov w14, #0xc1d6
	movk w14, #0xca62, lsl #16
	mov v17.16b, v16.16b
	sha1su1 v3.4s, v2.4s
	sha1p q17, s6, v7.4s
	sha1h s6, s16
	add v7.4s, v4.4s, v18.4s
	sha1su0 v4.4s, v5.4s, v2.4s
	mov v16.16b, v17.16b
	sha1su1 v4.4s, v3.4s
	sha1m q16, s6, v7.4s
	sha1h s6, s17
	add v7.4s, v5.4s, v18.4s
	sha1su0 v5.4s, v2.4s, v3.4s
	mov v17.16b, v16.16b
	sha1su1 v5.4s, v4.4s
	sha1m q17, s6, v7.4s
	sha1h s6, s16
	add v7.4s, v2.4s, v18.4s
	sha1su0 v2.4s, v3.4s, v4.4s
	mov v16.16b, v17.16b
	sha1su1 v2.4s, v5.4s
	sha1m q16, s6, v7.4s
	sha1h s6, s17
	add v7.4s, v3.4s, v18.4s
	sha1su0 v3.4s, v4.4s, v5.4s
	mov v17.16b, v16.16b
	sha1su1 v3.4s, v2.4s
	sha1m q17, s6, v7.4s
	sha1h s6, s16
	add v7.4s, v4.4s, v18.4s
	dup v18.4s, w14
	sha1su0 v4.4s, v5.4s, v2.4s
	mov v16.16b, v17.16b
	sha1su1 v4.4s, v3.4s
	sha1m q16, s6, v7.4s
	sha1h s6, s17
	add v7.4s, v5.4s, v18.4s
	sha1su0 v5.4s, v2.4s, v3.4s
	mov v17.16b, v16.16b
	sha1su1 v5.4s, v4.4s
	sha1p q17, s6, v7.4s
	sha1h s6, s16
	add v7.4s, v2.4s, v18.4s
	mov v16.16b, v17.16b
	sha1p q16, s6, v7.4s
	sha1h s6, s17
	add v7.4s, v3.4s, v18.4s
	add v3.4s, v4.4s, v18.4s
	mov v17.16b, v16.16b
	sha1h s2, s16
	sha1p q17, s6, v7.4s
	mov v4.16b, v17.16b
	sha1p q4, s2, v3.4s
	sha1h s2, s17
	add v3.4s, v5.4s, v18.4s
	mov v5.16b, v4.16b
	sha1p q5, s2, v3.4s
	sha1h s2, s4
	fmov w14, s2
	add v0.4s, v5.4s, v0.4s
	add w9, w14, w9
	b.ne L(7_0)
L(7_1):
	str q0, [x0]
	str w9, [x0, #16]
	stur d1, [x0, #20]
	str w8, [x0, #28]
	ret
	SIZE(ring_core.digest.sha1.by_instruction.run_blocks.87fcf8c0f9719b5d, 616)

	CODE(ring_core.digest.sha1.by_fours.run_ahead)
	.p2align 2
/* ring_core::digest::sha1::by_fours::run_ahead */
	TYPE(ring_core.digest.sha1.by_fours.run_ahead, %function)
ring_core.digest.sha1.by_fours.run_ahead:
	ext v4.16b, v0.16b, v1.16b, #8
	movi v16.2d, #0x0
	mov w8, #0x7999
	ext v18.16b, v1.16b, v2.16b, #8
	ext v19.16b, v2.16b, v3.16b, #8
	movk w8, #0x5a82, lsl #16
	ldp w10, w11, [x1]
	ldp w12, w13, [x1, #8]
	eor v4.16b, v4.16b, v0.16b
	ext v5.16b, v3.16b, v16.16b, #4
	mov w9, #0xeba1
	ldp w15, w16, [x0]
	ldr w14, [x1, #16]
	movk w9, #0x6ed9, lsl #16
	dup v20.4s, w8
	eor v4.16b, v4.16b, v2.16b
	ror w8, w10, #27
	and w3, w12, w11
	ldp w17, w2, [x0, #8]
	add w14, w14, w15
	eor v22.16b, v1.16b, v2.16b
	eor v4.16b, v4.16b, v5.16b
	dup v5.4s, v16.s[0]
	add w8, w14, w8
	add v17.4s, v4.4s, v4.4s
	usra v17.4s, v4.4s, #31
	ext v4.16b, v5.16b, v17.16b, #4
	add v6.4s, v4.4s, v4.4s
	usra v6.4s, v4.4s, #31
	eor v4.16b, v18.16b, v1.16b
	eor v7.16b, v6.16b, v17.16b
	eor v4.16b, v4.16b, v3.16b
	ext v6.16b, v7.16b, v16.16b, #4
	add v20.4s, v7.4s, v20.4s
	str q20, [x0]
	eor v4.16b, v4.16b, v6.16b
	add v6.4s, v4.4s, v4.4s
	usra v6.4s, v4.4s, #31
	ext v4.16b, v5.16b, v6.16b, #4
	add v18.4s, v4.4s, v4.4s
	usra v18.4s, v4.4s, #31
	eor v4.16b, v19.16b, v2.16b
	eor v6.16b, v18.16b, v6.16b
	eor v4.16b, v4.16b, v7.16b
	ext v18.16b, v6.16b, v16.16b, #4
	eor v18.16b, v4.16b, v18.16b
	dup v4.4s, w9
	bic w9, w13, w11
	ror w11, w11, #2
	orr w9, w3, w9
	bic w3, w12, w10
	add w8, w8, w9
	add w13, w13, w16
	add w12, w17, w12
	and w14, w11, w10
	ror w10, w10, #2
	ror w17, w8, #27
	orr w9, w14, w3
	add v19.4s, v18.4s, v18.4s
	add w9, w9, w13
	bic w13, w11, w8
	add w11, w2, w11
	add w9, w9, w17
	and w17, w10, w8
	ror w8, w8, #2
	orr w13, w17, w13
	ror w17, w9, #27
	usra v19.4s, v18.4s, #31
	add w12, w12, w13
	bic w13, w10, w9
	add v18.4s, v6.4s, v4.4s
	ldp w15, w16, [x0, #16]
	add w12, w12, w17
	and w17, w8, w9
	ror w9, w9, #2
	orr w13, w17, w13
	ror w17, w12, #27
	ext v21.16b, v5.16b, v19.16b, #4
	add w11, w11, w13
	add w10, w15, w10
	add w15, w16, w8
	ldp w14, w3, [x0, #24]
	bic w8, w8, w12
	and w13, w9, w12
	add w11, w11, w17
	ror w12, w12, #2
	orr w8, w13, w8
	ror w13, w11, #27
	add w8, w10, w8
	add w14, w14, w9
	bic w9, w9, w11
	and w10, w12, w11
	add w8, w8, w13
	ror w11, w11, #2
	orr w9, w10, w9
	ror w10, w8, #27
	add w17, w3, w12
	add w9, w15, w9
	bic w12, w12, w8
	and w15, w11, w8
	ldp w13, w16, [x0, #32]
	add w9, w9, w10
	ror w8, w8, #2
	orr w10, w15, w12
	ror w12, w9, #27
	add w10, w14, w10
	add v20.4s, v21.4s, v21.4s
	add w13, w13, w11
	bic w11, w11, w9
	and w14, w8, w9
	add w10, w10, w12
	ror w9, w9, #2
	orr w11, w14, w11
	ror w12, w10, #27
	add w11, w17, w11
	add w16, w8, w16
	ldp w14, w15, [x0, #40]
	bic w8, w8, w10
	and w17, w9, w10
	add w11, w11, w12
	ror w10, w10, #2
	orr w8, w17, w8
	ror w12, w11, #27
	add w8, w13, w8
	add w14, w9, w14
	bic w9, w9, w11
	and w13, w10, w11
	add w8, w8, w12
	ror w11, w11, #2
	orr w9, w13, w9
	ror w12, w8, #27
	usra v20.4s, v21.4s, #31
	add w9, w16, w9
	bic w16, w10, w8
	add w10, w10, w15
	ldp w13, w17, [x0, #48]
	add w9, w9, w12
	and w12, w11, w8
	ror w8, w8, #2
	orr w12, w12, w16
	ror w15, w9, #27
	eor v21.16b, v0.16b, v1.16b
	add w12, w14, w12
	bic w14, w11, w9
	and w16, w8, w9
	add w13, w11, w13
	orr w11, w16, w14
	add w12, w12, w15
	ror w14, w9, #2
	add w10, w10, w11
	ror w11, w12, #27
	ldp w15, w9, [x0, #56]
	add w16, w8, w17
	bic w8, w8, w12
	add w17, w10, w11
	and w11, w14, w12
	ror w10, w12, #2
	ror w12, w17, #27
	orr w8, w11, w8
	add w11, w14, w15
	bic w14, w14, w17
	add w13, w13, w8
	ror w8, w17, #2
	and w15, w10, w17
	add w12, w13, w12
	orr w13, w15, w14
	add w9, w10, w9
	ror w15, w12, #27
	bic w14, w10, w12
	and w17, w8, w12
	add w13, w16, w13
	orr w14, w17, w14
	ror w12, w12, #2
	add w13, w13, w15
	add w10, w11, w14
	mov w16, #0xbcdc
	ror w11, w13, #27
	bic w14, w8, w13
	and w15, w12, w13
	ror w13, w13, #2
	orr w14, w15, w14
	movk w16, #0x8f1b, lsl #16
	add w10, w10, w11
	add w9, w9, w14
	dup v0.4s, w16
	ror w11, w10, #27
	bic w14, w12, w10
	and w15, w13, w10
	ror w10, w10, #2
	orr w14, w15, w14
	ext v1.16b, v3.16b, v17.16b, #8
	add w9, w9, w11
	eor v17.16b, v20.16b, v19.16b
	bic w11, w13, w9
	and w15, w10, w9
	ror w17, w9, #2
	orr w11, w15, w11
	eor v19.16b, v2.16b, v3.16b
	eor v2.16b, v22.16b, v6.16b
	ldp w16, w15, [x0]
	eor v20.16b, v1.16b, v3.16b
	ext v23.16b, v17.16b, v16.16b, #4
	eor v16.16b, v3.16b, v7.16b
	add v22.4s, v17.4s, v4.4s
	eor v1.16b, v21.16b, v7.16b
	eor v21.16b, v7.16b, v6.16b
	add w8, w8, w16
	add w12, w12, w15
	ldp w16, w15, [x0, #8]
	add w11, w12, w11
	eor v3.16b, v20.16b, v6.16b
	stp q18, q22, [x0, #16]
	add w13, w13, w16
	ror w16, w9, #27
	add w9, w8, w14
	add w8, w10, w15
	eor v18.16b, v3.16b, v23.16b
	add w9, w9, w16
	ror w12, w9, #27
	bic w10, w10, w9
	and w14, w17, w9
	orr w10, w14, w10
	ror w16, w9, #2
	add v3.4s, v18.4s, v18.4s
	ldp w14, w15, [x0, #16]
	add w11, w11, w12
	add w10, w13, w10
	ror w12, w11, #27
	bic w13, w17, w11
	usra v3.4s, v18.4s, #31
	add w9, w17, w14
	and w14, w16, w11
	ror w11, w11, #2
	add w10, w10, w12
	orr w13, w14, w13
	add w15, w16, w15
	eor w12, w11, w16
	ror w16, w10, #27
	add w8, w8, w13
	eor w12, w12, w10
	ror w10, w10, #2
	ext v5.16b, v5.16b, v3.16b, #4
	ldp w14, w13, [x0, #24]
	add w8, w8, w16
	add w9, w9, w12
	ext v18.16b, v17.16b, v3.16b, #8
	ror w12, w8, #27
	ror w16, w8, #2
	add w14, w11, w14
	eor w11, w10, w11
	add w13, w10, w13
	add w9, w9, w12
	eor w8, w11, w8
	eor w10, w16, w10
	ror w11, w9, #27
	ror w12, w9, #2
	add w8, w15, w8
	eor w9, w10, w9
	add v7.4s, v5.4s, v5.4s
	eor v20.16b, v1.16b, v18.16b
	add w8, w8, w11
	eor w10, w12, w16
	add w9, w14, w9
	ror w11, w8, #27
	ror w15, w8, #2
	eor w8, w10, w8
	add w10, w13, w8
	usra v7.4s, v5.4s, #31
	shl v1.4s, v20.4s, #2
	add w8, w9, w11
	eor w9, w15, w12
	ror w11, w8, #27
	eor w14, w9, w8
	ror w8, w8, #2
	eor v5.16b, v7.16b, v3.16b
	usra v1.4s, v20.4s, #30
	eor v3.16b, v19.16b, v17.16b
	add w17, w10, w11
	eor w2, w8, w15
	eor v19.16b, v6.16b, v17.16b
	ldp w9, w10, [x0, #32]
	add v18.4s, v5.4s, v4.4s
	ext v22.16b, v5.16b, v1.16b, #8
	add v20.4s, v1.4s, v4.4s
	eor v7.16b, v16.16b, v5.16b
	eor v6.16b, v21.16b, v1.16b
	eor v16.16b, v17.16b, v5.16b
	add w11, w12, w10
	add w16, w16, w9
	ror w10, w17, #2
	ldp w13, w12, [x0, #40]
	add w16, w16, w14
	eor w14, w10, w8
	str q18, [x0, #48]
	str q20, [x0]
	eor v2.16b, v2.16b, v22.16b
	eor v21.16b, v5.16b, v1.16b
	add w9, w15, w13
	ror w15, w17, #27
	eor w13, w2, w17
	add w8, w8, w12
	add w11, w11, w13
	add w12, w16, w15
	shl v5.4s, v2.4s, #2
	ror w13, w12, #27
	ror w15, w12, #2
	eor w12, w14, w12
	ldp w14, w16, [x0, #48]
	add w11, w11, w13
	eor w13, w15, w10
	add w9, w9, w12
	eor w12, w13, w11
	ror w13, w11, #27
	ror w11, w11, #2
	add w10, w10, w14
	add w8, w8, w12
	add w16, w15, w16
	ldp w12, w14, [x0, #56]
	add w9, w9, w13
	eor w13, w11, w15
	usra v5.4s, v2.4s, #30
	ror w15, w9, #27
	eor w13, w13, w9
	ror w9, w9, #2
	add w12, w11, w12
	add w10, w10, w13
	add w8, w8, w15
	eor w11, w9, w11
	add w14, w9, w14
	ror w13, w8, #27
	eor w11, w11, w8
	ror w8, w8, #2
	add w11, w16, w11
	add v2.4s, v5.4s, v4.4s
	ext v4.16b, v1.16b, v5.16b, #8
	add w10, w10, w13
	eor w9, w8, w9
	eor v17.16b, v19.16b, v5.16b
	ldp w15, w16, [x0]
	ror w13, w10, #27
	eor w9, w9, w10
	ror w10, w10, #2
	add w9, w12, w9
	str q2, [x0, #16]
	eor v4.16b, v3.16b, v4.16b
	add w15, w8, w15
	add w11, w11, w13
	eor w8, w10, w8
	ror w12, w11, #27
	eor w8, w8, w11
	ror w11, w11, #2
	add w13, w10, w16
	add w8, w14, w8
	shl v3.4s, v4.4s, #2
	add w9, w9, w12
	eor w10, w11, w10
	eor v1.16b, v1.16b, v5.16b
	ldp w14, w16, [x0, #8]
	ror w12, w9, #27
	eor w10, w10, w9
	ror w9, w9, #2
	add w10, w15, w10
	usra v3.4s, v4.4s, #30
	add w14, w11, w14
	add w8, w8, w12
	eor w11, w9, w11
	ror w12, w8, #27
	eor w11, w11, w8
	ror w8, w8, #2
	add w15, w9, w16
	add w11, w13, w11
	ext v2.16b, v5.16b, v3.16b, #8
	add w10, w10, w12
	eor w9, w8, w9
	add v18.4s, v3.4s, v0.4s
	ror w12, w10, #27
	ror w13, w10, #2
	eor w9, w9, w10
	ldp w10, w16, [x0, #16]
	add w11, w11, w12
	eor w12, w13, w8
	add w9, w14, w9
	str q18, [x0, #32]
	eor v4.16b, v7.16b, v2.16b
	eor v7.16b, v16.16b, v3.16b
	add w8, w8, w10
	eor w10, w12, w11
	ror w12, w11, #27
	ror w11, w11, #2
	add w16, w13, w16
	add w10, w15, w10
	add w9, w9, w12
	shl v2.4s, v4.4s, #2
	eor v5.16b, v5.16b, v3.16b
	eor w12, w11, w13
	ror w13, w9, #27
	ldp w14, w15, [x0, #24]
	eor w12, w12, w9
	ror w9, w9, #2
	add w10, w10, w13
	ror w13, w10, #27
	add w8, w8, w12
	usra v2.4s, v4.4s, #30
	add w14, w11, w14
	eor w11, w9, w11
	add w12, w9, w15
	eor w11, w11, w10
	ror w10, w10, #2
	add w8, w8, w13
	add w11, w16, w11
	ror w16, w8, #27
	add v19.4s, v2.4s, v0.4s
	ldp w13, w15, [x0, #32]
	eor w9, w10, w9
	add w11, w11, w16
	ext v4.16b, v3.16b, v2.16b, #8
	eor w9, w9, w8
	ror w8, w8, #2
	ror w16, w11, #2
	add w9, w14, w9
	ror w14, w11, #27
	add w13, w10, w13
	eor w10, w8, w10
	add w15, w8, w15
	eor w8, w16, w8
	eor w10, w10, w11
	add w9, w9, w14
	str q19, [x0, #48]
	add w10, w12, w10
	bic w12, w16, w8
	and w8, w9, w8
	ror w14, w9, #27
	ror w9, w9, #2
	orr w8, w8, w12
	ldp w11, w12, [x0, #40]
	add w10, w10, w14
	eor w14, w9, w16
	add w8, w13, w8
	bic w13, w9, w14
	and w14, w10, w14
	eor v6.16b, v6.16b, v4.16b
	add w11, w16, w11
	ror w16, w10, #27
	ror w10, w10, #2
	add w12, w9, w12
	orr w13, w14, w13
	eor v16.16b, v21.16b, v2.16b
	add w8, w8, w16
	eor w9, w10, w9
	add w13, w15, w13
	bic w16, w10, w9
	and w9, w8, w9
	ror w15, w8, #27
	orr w9, w9, w16
	ror w8, w8, #2
	shl v4.4s, v6.4s, #2
	ldp w14, w16, [x0, #48]
	add w13, w13, w15
	add w9, w11, w9
	eor v3.16b, v3.16b, v2.16b
	ror w11, w13, #27
	usra v4.4s, v6.4s, #30
	add w14, w10, w14
	eor w10, w8, w10
	add w16, w8, w16
	bic w15, w8, w10
	and w10, w13, w10
	ror w13, w13, #2
	add w9, w9, w11
	orr w10, w10, w15
	add v18.4s, v4.4s, v0.4s
	eor w8, w13, w8
	add w10, w12, w10
	ext v6.16b, v2.16b, v4.16b, #8
	bic w11, w13, w8
	and w8, w9, w8
	eor v1.16b, v1.16b, v4.16b
	orr w8, w8, w11
	ror w11, w9, #27
	ror w9, w9, #2
	ldp w12, w15, [x0, #56]
	add w10, w10, w11
	add w8, w14, w8
	eor w11, w9, w13
	ror w14, w10, #27
	str q18, [x0]
	eor v17.16b, v17.16b, v6.16b
	add w12, w13, w12
	add w13, w9, w15
	bic w15, w9, w11
	and w11, w10, w11
	ror w10, w10, #2
	add w8, w8, w14
	orr w11, w11, w15
	ror w14, w8, #27
	shl v6.4s, v17.4s, #2
	eor w9, w10, w9
	add w11, w16, w11
	eor v2.16b, v2.16b, v4.16b
	bic w15, w10, w9
	and w9, w8, w9
	ror w8, w8, #2
	orr w9, w9, w15
	add w11, w11, w14
	usra v6.4s, v17.4s, #30
	ldp w15, w16, [x0]
	ror w14, w11, #27
	add w9, w12, w9
	eor w12, w8, w10
	ext v18.16b, v4.16b, v6.16b, #8
	add v17.4s, v6.4s, v0.4s
	eor v5.16b, v5.16b, v6.16b
	add w10, w10, w15
	ror w15, w11, #2
	and w11, w11, w12
	bic w12, w8, w12
	add w9, w9, w14
	orr w11, w11, w12
	ror w14, w9, #27
	eor w12, w15, w8
	add w11, w13, w11
	bic w13, w15, w12
	and w12, w9, w12
	ror w17, w9, #2
	add w9, w11, w14
	add w11, w8, w16
	orr w8, w12, w13
	ror w12, w9, #27
	eor v18.16b, v7.16b, v18.16b
	add w8, w10, w8
	eor w10, w17, w15
	str q17, [x0, #16]
	bic w13, w17, w10
	and w10, w9, w10
	add w12, w8, w12
	ror w8, w9, #2
	orr w9, w10, w13
	ror w10, w12, #27
	ldp w13, w14, [x0, #8]
	add w9, w11, w9
	eor w11, w8, w17
	shl v7.4s, v18.4s, #2
	add w9, w9, w10
	bic w10, w8, w11
	and w11, w12, w11
	ror w12, w12, #2
	add w13, w15, w13
	orr w10, w11, w10
	ror w11, w9, #27
	add w10, w13, w10
	usra v7.4s, v18.4s, #30
	eor w13, w12, w8
	mov w15, #0xc1d6
	add w10, w10, w11
	bic w11, w12, w13
	and w13, w9, w13
	ror w9, w9, #2
	orr w11, w13, w11
	add w13, w17, w14
	ror w14, w10, #27
	add w11, w13, w11
	movk w15, #0xca62, lsl #16
	eor w13, w9, w12
	add v19.4s, v7.4s, v0.4s
	dup v0.4s, w15
	bic w16, w9, w13
	and w13, w10, w13
	add w11, w11, w14
	orr w13, w13, w16
	ror w10, w10, #2
	ext v18.16b, v6.16b, v7.16b, #8
	ldp w16, w14, [x0, #16]
	str q19, [x0, #32]
	eor v3.16b, v3.16b, v7.16b
	add w8, w8, w16
	ror w16, w11, #27
	add w12, w12, w14
	add w8, w8, w13
	eor w13, w10, w9
	eor v18.16b, v16.16b, v18.16b
	add w8, w8, w16
	bic w16, w10, w13
	and w13, w11, w13
	ror w11, w11, #2
	orr w13, w13, w16
	ror w16, w8, #27
	add w12, w12, w13
	shl v16.4s, v18.4s, #2
	eor w15, w11, w10
	add w12, w12, w16
	bic w16, w11, w15
	and w15, w8, w15
	ror w8, w8, #2
	orr w15, w15, w16
	ror w14, w12, #27
	usra v16.4s, v18.4s, #30
	ldp w13, w16, [x0, #24]
	ext v17.16b, v7.16b, v16.16b, #8
	eor v2.16b, v2.16b, v16.16b
	add w9, w9, w13
	eor w13, w8, w11
	add w10, w10, w16
	add w9, w9, w15
	add w9, w9, w14
	bic w14, w8, w13
	and w13, w12, w13
	ror w15, w9, #27
	orr w13, w13, w14
	ror w12, w12, #2
	add w10, w10, w13
	eor v18.16b, v1.16b, v17.16b
	add v17.4s, v16.4s, v0.4s
	add w10, w10, w15
	eor w15, w12, w8
	bic w16, w12, w15
	and w15, w9, w15
	ror w9, w9, #2
	orr w15, w15, w16
	ror w14, w10, #27
	str q17, [x0, #48]
	ldp w13, w16, [x0, #32]
	shl v1.4s, v18.4s, #2
	add w11, w11, w13
	eor w13, w9, w12
	add w8, w8, w16
	add w11, w11, w15
	usra v1.4s, v18.4s, #30
	add w11, w11, w14
	bic w14, w9, w13
	and w13, w10, w13
	ror w15, w11, #27
	orr w13, w13, w14
	ror w10, w10, #2
	add w8, w8, w13
	add v17.4s, v1.4s, v0.4s
	ext v18.16b, v16.16b, v1.16b, #8
	add w8, w8, w15
	eor w15, w10, w9
	bic w16, w10, w15
	and w15, w11, w15
	ror w11, w11, #2
	orr w15, w15, w16
	ror w14, w8, #27
	str q17, [x0]
	ldp w13, w16, [x0, #40]
	eor v6.16b, v5.16b, v18.16b
	add w12, w12, w13
	eor w13, w11, w10
	add w9, w9, w16
	add w12, w12, w15
	shl v5.4s, v6.4s, #2
	add w12, w12, w14
	bic w14, w11, w13
	and w13, w8, w13
	orr w13, w13, w14
	ror w15, w12, #27
	ror w8, w8, #2
	add w9, w9, w13
	usra v5.4s, v6.4s, #30
	ldp w13, w16, [x0, #48]
	add w9, w9, w15
	eor w15, w8, w11
	ror w14, w9, #27
	eor w15, w15, w12
	ror w12, w12, #2
	add w10, w10, w13
	add w11, w11, w16
	add v6.4s, v5.4s, v0.4s
	add w10, w10, w15
	ext v1.16b, v1.16b, v5.16b, #8
	add w10, w10, w14
	eor w14, w12, w8
	ror w13, w10, #27
	eor w14, w14, w9
	ror w9, w9, #2
	add w11, w11, w14
	str q6, [x0, #16]
	add w11, w11, w13
	eor w14, w9, w12
	eor v3.16b, v3.16b, v1.16b
	ldp w13, w16, [x0, #56]
	eor w14, w14, w10
	ror w10, w10, #2
	ror w15, w11, #27
	shl v1.4s, v3.4s, #2
	add w8, w8, w13
	eor w13, w10, w9
	add w12, w12, w16
	add w8, w8, w14
	eor w13, w13, w11
	ror w11, w11, #2
	add w8, w8, w15
	add w12, w12, w13
	usra v1.4s, v3.4s, #30
	ror w14, w8, #27
	eor w15, w11, w10
	ldp w13, w16, [x0]
	add w12, w12, w14
	eor w15, w15, w8
	ror w8, w8, #2
	ror w14, w12, #27
	ext v3.16b, v5.16b, v1.16b, #8
	add v1.4s, v1.4s, v0.4s
	add w9, w9, w13
	add w10, w10, w16
	add w9, w9, w15
	add w9, w9, w14
	eor w14, w8, w11
	str q1, [x0, #32]
	ror w13, w9, #27
	eor w14, w14, w12
	ror w12, w12, #2
	add w10, w10, w14
	eor v2.16b, v2.16b, v3.16b
	add w10, w10, w13
	eor w14, w12, w8
	ldp w13, w16, [x0, #8]
	eor w14, w14, w9
	ror w9, w9, #2
	ror w15, w10, #27
	shl v3.4s, v2.4s, #2
	add w11, w11, w13
	eor w13, w9, w12
	add w8, w8, w16
	add w11, w11, w14
	eor w13, w13, w10
	ror w10, w10, #2
	add w11, w11, w15
	add w8, w8, w13
	usra v3.4s, v2.4s, #30
	ror w14, w11, #27
	eor w15, w10, w9
	ldp w13, w16, [x0, #16]
	add w8, w8, w14
	eor w15, w15, w11
	ror w11, w11, #2
	ror w14, w8, #27
	add v0.4s, v3.4s, v0.4s
	add w12, w12, w13
	add w9, w9, w16
	add w12, w12, w15
	add w12, w12, w14
	eor w14, w11, w10
	str q0, [x0, #48]
	ror w13, w12, #27
	eor w14, w14, w8
	ror w8, w8, #2
	add w9, w9, w14
	ldur q1, [x1, #4]
	add w9, w9, w13
	eor w14, w8, w11
	ldp w13, w16, [x0, #24]
	eor w14, w14, w12
	ror w12, w12, #2
	ror w15, w9, #27
	add w10, w10, w13
	eor w13, w12, w8
	add w11, w11, w16
	add w10, w10, w14
	eor w13, w13, w9
	ror w9, w9, #2
	add w10, w10, w15
	add w11, w11, w13
	ror w14, w10, #27
	eor w15, w9, w12
	ldp w13, w16, [x0, #32]
	add w11, w11, w14
	eor w15, w15, w10
	ror w10, w10, #2
	ror w14, w11, #27
	add w8, w8, w13
	add w12, w12, w16
	add w8, w8, w15
	add w8, w8, w14
	eor w14, w10, w9
	ror w13, w8, #27
	eor w14, w14, w11
	ror w11, w11, #2
	add w12, w12, w14
	add w12, w12, w13
	eor w14, w11, w10
	ldp w13, w16, [x0, #40]
	ror w15, w12, #27
	eor w14, w14, w8
	ror w8, w8, #2
	add w9, w9, w13
	eor w13, w8, w11
	add w10, w10, w16
	add w9, w9, w14
	eor w13, w13, w12
	ror w12, w12, #2
	add w9, w9, w15
	add w10, w10, w13
	fmov w15, s0
	ror w14, w9, #27
	add w10, w10, w14
	eor w14, w12, w8
	add w11, w11, w15
	ror w13, w10, #27
	eor w14, w14, w9
	ror w9, w9, #2
	add w13, w14, w13
	eor w14, w9, w12
	add w11, w11, w13
	eor w14, w14, w10
	ror w10, w10, #2
	ldp w13, w16, [x0, #52]
	ror w15, w11, #27
	add w8, w8, w13
	eor w13, w10, w9
	add w12, w12, w16
	add w8, w8, w14
	eor w13, w13, w11
	ror w11, w11, #2
	add w8, w8, w15
	add w12, w12, w13
	ror w14, w8, #27
	ror w13, w8, #2
	add w12, w12, w14
	ldr w14, [x1]
	fmov s0, w12
	ror w12, w12, #27
	mov v0.s[1], w13
	ldr w13, [x0, #60]
	mov v0.s[2], w11
	mov v0.s[3], w10
	eor w10, w11, w10
	add w11, w14, w13
	eor w8, w10, w8
	add w9, w11, w9
	add w8, w9, w8
	add w8, w8, w12
	add v0.4s, v0.4s, v1.4s
	str w8, [x1]
	stur q0, [x1, #4]
	ret
	SIZE(ring_core.digest.sha1.by_fours.run_ahead, 3344)

	CODE(ring_core.digest.sha2.by_instruction.run_blocks.4b880bd721513749)
	.p2align 2
/* ring_core::digest::sha2::by_instruction::run_blocks::<#4b880bd721513749> */
	TYPE(ring_core.digest.sha2.by_instruction.run_blocks.4b880bd721513749, %function)
ring_core.digest.sha2.by_instruction.run_blocks.4b880bd721513749:
	ldp q1, q0, [x0]
	lsr x8, x2, #6
	cbz x8, L(9_1)
	ldp x11, x9, [x3]
	add x10, x1, #0x20
L(9_0):
	ldp q2, q4, [x10, #-32]
	adrp x12, PAGE(L(201_12))
	mov v7.16b, v1.16b
	ldp q6, q17, [x10], #64
	adds x11, x11, #0x1
	rev32 v3.16b, v2.16b
	ldr q2, [x12, IN_PAGE(L(201_12))]
	rev32 v4.16b, v4.16b
	adrp x12, PAGE(L(201_13))
	adcs x9, x9, xzr
	ldr q16, [x12, IN_PAGE(L(201_13))]
	adrp x12, PAGE(L(201_14))
	csinv x9, x9, xzr, cc
	csinv x11, x11, xzr, cc
	subs x8, x8, #0x1
	add v5.4s, v3.4s, v2.4s
	mov v2.16b, v0.16b
	add v16.4s, v4.4s, v16.4s
	sha256su0 v3.4s, v4.4s
	stp x11, x9, [x3]
	sha256h q7, q0, v5.4s
	sha256h2 q2, q1, v5.4s
	rev32 v5.16b, v6.16b
	ldr q6, [x12, IN_PAGE(L(201_14))]
	adrp x12, PAGE(L(201_15))
	mov v18.16b, v7.16b
	sha256su0 v4.4s, v5.4s
	sha256h q18, q2, v16.4s
	sha256h2 q2, q7, v16.4s
	add v7.4s, v5.4s, v6.4s
	rev32 v6.16b, v17.16b
	ldr q16, [x12, IN_PAGE(L(201_15))]
	adrp x12, PAGE(L(201_16))
	mov v17.16b, v18.16b
	add v16.4s, v6.4s, v16.4s
	sha256su1 v3.4s, v5.4s, v6.4s
	sha256h q17, q2, v7.4s
	sha256h2 q2, q18, v7.4s
	ldr q7, [x12, IN_PAGE(L(201_16))]
	adrp x12, PAGE(L(201_17))
	sha256su0 v5.4s, v6.4s
	add v7.4s, v3.4s, v7.4s
	mov v18.16b, v17.16b
	sha256su1 v4.4s, v6.4s, v3.4s
	sha256su0 v6.4s, v3.4s
	sha256h q18, q2, v16.4s
	sha256h2 q2, q17, v16.4s
	ldr q16, [x12, IN_PAGE(L(201_17))]
	adrp x12, PAGE(L(201_18))
	sha256su1 v5.4s, v3.4s, v4.4s
	add v16.4s, v4.4s, v16.4s
	mov v17.16b, v18.16b
	sha256su0 v3.4s, v4.4s
	sha256su1 v6.4s, v4.4s, v5.4s
	sha256h q17, q2, v7.4s
	sha256h2 q2, q18, v7.4s
	ldr q7, [x12, IN_PAGE(L(201_18))]
	adrp x12, PAGE(L(201_19))
	sha256su0 v4.4s, v5.4s
	add v7.4s, v5.4s, v7.4s
	mov v18.16b, v17.16b
	sha256su1 v3.4s, v5.4s, v6.4s
	sha256su0 v5.4s, v6.4s
	sha256h q18, q2, v16.4s
	sha256h2 q2, q17, v16.4s
	ldr q16, [x12, IN_PAGE(L(201_19))]
	adrp x12, PAGE(L(201_20))
	sha256su1 v4.4s, v6.4s, v3.4s
	add v16.4s, v6.4s, v16.4s
	mov v17.16b, v18.16b
	sha256su0 v6.4s, v3.4s
	sha256su1 v5.4s, v3.4s, v4.4s
	sha256h q17, q2, v7.4s
	sha256h2 q2, q18, v7.4s
	ldr q7, [x12, IN_PAGE(L(201_20))]
	adrp x12, PAGE(L(201_21))
	add v7.4s, v3.4s, v7.4s
	mov v18.16b, v17.16b
	sha256su1 v6.4s, v4.4s, v5.4s
	sha256su0 v3.4s, v4.4s
	sha256h q18, q2, v16.4s
	sha256h2 q2, q17, v16.4s
	ldr q16, [x12, IN_PAGE(L(201_21))]
	adrp x12, PAGE(L(201_22))
	add v16.4s, v4.4s, v16.4s
	mov v17.16b, v18.16b
	sha256su1 v3.4s, v5.4s, v6.4s
	sha256su0 v4.4s, v5.4s
	sha256h q17, q2, v7.4s
	sha256h2 q2, q18, v7.4s
	ldr q7, [x12, IN_PAGE(L(201_22))]
	adrp x12, PAGE(L(201_23))
	add v7.4s, v5.4s, v7.4s
	mov v18.16b, v17.16b
	sha256su1 v4.4s, v6.4s, v3.4s
	sha256su0 v5.4s, v6.4s
	sha256h q18, q2, v16.4s
	sha256h2 q2, q17, v16.4s
	ldr q16, [x12, IN_PAGE(L(201_23))]
	adrp x12, PAGE(L(201_24))
	add v16.4s, v6.4s, v16.4s
	mov v17.16b, v18.16b
	sha256su1 v5.4s, v3.4s, v4.4s
	sha256su0 v6.4s, v3.4s
	sha256h q17, q2, v7.4s
	sha256h2 q2, q18, v7.4s
	ldr q7, [x12, IN_PAGE(L(201_24))]
	adrp x12, PAGE(L(201_25))
	add v7.4s, v3.4s, v7.4s
	mov v18.16b, v17.16b
	sha256su1 v6.4s, v4.4s, v5.4s
	sha256h q18, q2, v16.4s
	sha256h2 q2, q17, v16.4s
	ldr q16, [x12, IN_PAGE(L(201_25))]
	adrp x12, PAGE(L(201_26))
	add v16.4s, v4.4s, v16.4s
	mov v17.16b, v18.16b
	sha256h q17, q2, v7.4s
	sha256h2 q2, q18, v7.4s
	ldr q7, [x12, IN_PAGE(L(201_26))]
	adrp x12, PAGE(L(201_27))
	ldr q4, [x12, IN_PAGE(L(201_27))]
	add v7.4s, v5.4s, v7.4s
	mov v3.16b, v17.16b
	sha256h q3, q2, v16.4s
	sha256h2 q2, q17, v16.4s
	mov v5.16b, v3.16b
	sha256h q5, q2, v7.4s
	sha256h2 q2, q3, v7.4s
	add v3.4s, v6.4s, v4.4s
	mov v4.16b, v5.16b
	sha256h q4, q2, v3.4s
	sha256h2 q2, q5, v3.4s
	add v1.4s, v4.4s, v1.4s
	add v0.4s, v2.4s, v0.4s
	b.ne L(9_0)
L(9_1):
	stp q1, q0, [x0]
	ret
	SIZE(ring_core.digest.sha2.by_instruction.run_blocks.4b880bd721513749, 572)

	CODE(ring_core.digest.sha2.by_fours.run_ahead.99accd9fe8f0e06d)
	.p2align 2
/* ring_core::digest::sha2::by_fours::run_ahead::<#99accd9fe8f0e06d> */
	TYPE(ring_core.digest.sha2.by_fours.run_ahead.99accd9fe8f0e06d, %function)
ring_core.digest.sha2.by_fours.run_ahead.99accd9fe8f0e06d:
	str x19, [sp, #-16]!
	ldp w10, w11, [x1]
	ldp w14, w15, [x1, #8]
	ldp w12, w13, [x1, #16]
	ldp w16, w17, [x1, #24]
	adrp x8, PAGE(L(208_0))
	add x8, x8, IN_PAGE(L(208_0))
	mov w9, #0x3
L(11_0):
	zip2 v4.4s, v3.4s, v3.4s
	ext v6.16b, v0.16b, v1.16b, #4
	eor w2, w12, w12, ror #14
	bic w3, w16, w12
	and w4, w13, w12
	eor w5, w10, w10, ror #9
	ldp w7, w19, [x0]
	orr w3, w4, w3
	eor w2, w12, w2, ror #5
	eor w6, w11, w10
	ushr v5.2d, v4.2d, #19
	ushr v7.2d, v4.2d, #17
	shl v16.4s, v6.4s, #21
	ushr v4.4s, v4.4s, #10
	add w17, w17, w3
	eor w3, w10, w5, ror #11
	ror w2, w2, #6
	bic w4, w11, w6
	and w5, w14, w6
	eor v7.16b, v5.16b, v7.16b
	movi v5.2d, #0x0
	usra v16.4s, v6.4s, #11
	add w17, w17, w7
	ror w3, w3, #2
	orr w4, w5, w4
	add w17, w2, w17
	add w16, w19, w16
	subs x9, x9, #0x1
	eor v4.16b, v4.16b, v7.16b
	eor v16.16b, v16.16b, v6.16b
	ext v7.16b, v2.16b, v3.16b, #4
	ushr v6.4s, v6.4s, #3
	add w3, w4, w3
	add w2, w17, w15
	add w17, w3, w17
	eor w15, w2, w2, ror #14
	bic w3, w13, w2
	uzp1 v4.4s, v4.4s, v5.4s
	shl v17.4s, v16.4s, #25
	eor w4, w17, w17, ror #9
	add v0.4s, v0.4s, v7.4s
	eor w15, w2, w15, ror #5
	and w5, w12, w2
	eor w4, w17, w4, ror #11
	eor w7, w17, w10
	orr w3, w5, w3
	usra v17.4s, v16.4s, #7
	ror w15, w15, #6
	and w5, w7, w6
	mov v4.s[3], wzr
	ror w4, w4, #2
	add w16, w16, w3
	eor w3, w5, w10
	add w16, w16, w15
	eor v6.16b, v17.16b, v6.16b
	add w15, w4, w3
	add w14, w16, w14
	ldp w3, w5, [x0, #8]
	add v0.4s, v0.4s, v4.4s
	add w15, w15, w16
	eor w16, w14, w14, ror #14
	eor w4, w15, w15, ror #9
	and w6, w2, w14
	eor w19, w14, w16, ror #5
	add w13, w3, w13
	bic w3, w12, w14
	add v6.4s, v0.4s, v6.4s
	eor w4, w15, w4, ror #11
	eor w16, w15, w17
	orr w3, w6, w3
	and w6, w16, w7
	ror w7, w19, #6
	ror w4, w4, #2
	add w13, w13, w3
	eor w3, w6, w17
	zip1 v0.4s, v6.4s, v6.4s
	add w6, w13, w7
	add w12, w5, w12
	add w3, w4, w3
	add w13, w6, w11
	add w11, w3, w6
	eor w3, w13, w13, ror #14
	bic w4, w2, w13
	eor w5, w11, w11, ror #9
	and w6, w14, w13
	eor w7, w11, w15
	ushr v4.2d, v0.2d, #19
	ushr v16.2d, v0.2d, #17
	ushr v0.4s, v0.4s, #10
	eor w3, w13, w3, ror #5
	eor w5, w11, w5, ror #11
	orr w4, w6, w4
	and w16, w7, w16
	add w12, w12, w4
	eor v16.16b, v4.16b, v16.16b
	uzp1 v4.4s, v5.4s, v5.4s
	ror w3, w3, #6
	ror w4, w5, #2
	eor w16, w16, w15
	add w12, w12, w3
	eor v0.16b, v0.16b, v16.16b
	ext v16.16b, v1.16b, v2.16b, #4
	add w16, w4, w16
	add w3, w12, w10
	add w12, w16, w12
	eor w10, w3, w3, ror #14
	eor w4, w12, w12, ror #9
	and w6, w13, w3
	uzp1 v0.4s, v4.4s, v0.4s
	eor w19, w12, w11
	shl v17.4s, v16.4s, #21
	eor w10, w3, w10, ror #5
	eor w4, w12, w4, ror #11
	ldp w5, w16, [x0, #16]
	ror w10, w10, #6
	ror w4, w4, #2
	add v0.4s, v0.4s, v6.4s
	usra v17.4s, v16.4s, #11
	ext v6.16b, v3.16b, v6.16b, #4
	add w2, w5, w2
	bic w5, w14, w3
	add w14, w16, w14
	orr w5, w6, w5
	and w6, w19, w7
	zip2 v18.4s, v0.4s, v0.4s
	eor v17.16b, v17.16b, v16.16b
	ushr v16.4s, v16.4s, #3
	add w2, w2, w5
	eor w5, w6, w11
	add w10, w2, w10
	add w4, w4, w5
	add w2, w10, w17
	add w17, w4, w10
	ushr v19.2d, v18.2d, #19
	ushr v20.2d, v18.2d, #17
	ushr v18.4s, v18.4s, #10
	eor w10, w2, w2, ror #14
	eor w16, w17, w17, ror #9
	bic w4, w13, w2
	and w5, w3, w2
	eor w6, w17, w12
	eor v19.16b, v19.16b, v20.16b
	shl v20.4s, v17.4s, #25
	eor w10, w2, w10, ror #5
	eor w16, w17, w16, ror #11
	orr w4, w5, w4
	and w5, w6, w19
	ror w10, w10, #6
	add w14, w14, w4
	eor w4, w5, w12
	usra v20.4s, v17.4s, #7
	eor v17.16b, v18.16b, v19.16b
	shl v19.4s, v7.4s, #21
	ror w16, w16, #2
	add w10, w14, w10
	eor v16.16b, v20.16b, v16.16b
	uzp1 v17.4s, v17.4s, v5.4s
	usra v19.4s, v7.4s, #11
	add w14, w16, w4
	add w16, w10, w15
	ldp w15, w4, [x0, #24]
	add v1.4s, v16.4s, v1.4s
	add w14, w14, w10
	eor w10, w16, w16, ror #14
	mov v17.s[3], wzr
	eor w5, w14, w14, ror #9
	and w7, w2, w16
	eor w10, w16, w10, ror #5
	add w13, w13, w15
	bic w15, w3, w16
	add v1.4s, v1.4s, v6.4s
	eor w5, w14, w5, ror #11
	eor w19, w14, w17
	orr w15, w7, w15
	ror w10, w10, #6
	and w6, w19, w6
	add w13, w13, w15
	ror w15, w5, #2
	eor w5, w6, w17
	add v16.4s, v1.4s, v17.4s
	add w10, w13, w10
	add w13, w15, w5
	add w15, w10, w11
	add w10, w13, w10
	eor w11, w15, w15, ror #14
	add w13, w3, w4
	zip1 v1.4s, v16.4s, v16.4s
	eor w3, w10, w10, ror #9
	bic w4, w2, w15
	eor w11, w15, w11, ror #5
	and w5, w16, w15
	eor w6, w10, w14
	eor w3, w10, w3, ror #11
	orr w4, w5, w4
	and w5, w6, w19
	ror w11, w11, #6
	add w13, w13, w4
	eor w5, w5, w14
	ushr v17.2d, v1.2d, #19
	ushr v18.2d, v1.2d, #17
	ushr v1.4s, v1.4s, #10
	ror w3, w3, #2
	add w11, w13, w11
	add w12, w11, w12
	eor v17.16b, v17.16b, v18.16b
	eor v18.16b, v19.16b, v7.16b
	ushr v7.4s, v7.4s, #3
	add w13, w3, w5
	bic w7, w16, w12
	and w19, w15, w12
	add w11, w13, w11
	eor w13, w12, w12, ror #14
	orr w7, w19, w7
	eor v1.16b, v1.16b, v17.16b
	shl v17.4s, v18.4s, #25
	eor w5, w11, w11, ror #9
	ldp w4, w3, [x0, #32]
	eor w13, w12, w13, ror #5
	eor w5, w11, w5, ror #11
	uzp1 v1.4s, v4.4s, v1.4s
	usra v17.4s, v18.4s, #7
	add w4, w2, w4
	eor w2, w11, w10
	ror w13, w13, #6
	and w6, w2, w6
	add w4, w4, w7
	ror w5, w5, #2
	eor v7.16b, v17.16b, v7.16b
	eor w6, w6, w10
	add w4, w4, w13
	add v1.4s, v1.4s, v16.4s
	ext v16.16b, v0.16b, v16.16b, #4
	add w5, w5, w6
	add w13, w4, w17
	add w17, w5, w4
	add w16, w16, w3
	add v2.4s, v7.4s, v2.4s
	eor w4, w13, w13, ror #14
	eor w7, w17, w17, ror #9
	zip2 v19.4s, v1.4s, v1.4s
	bic w5, w15, w13
	and w6, w12, w13
	eor w4, w13, w4, ror #5
	orr w5, w6, w5
	eor w6, w17, w7, ror #11
	add v2.4s, v2.4s, v16.4s
	eor w3, w17, w11
	add w16, w16, w5
	ror w4, w4, #6
	and w2, w3, w2
	ror w6, w6, #2
	ushr v18.2d, v19.2d, #19
	ushr v20.2d, v19.2d, #17
	ushr v19.4s, v19.4s, #10
	add w4, w16, w4
	eor w5, w2, w11
	add w16, w4, w14
	add w14, w6, w5
	eor v18.16b, v18.16b, v20.16b
	eor w5, w16, w16, ror #14
	add w14, w14, w4
	ldp w7, w2, [x0, #40]
	eor w19, w14, w14, ror #9
	eor w5, w16, w5, ror #5
	bic w4, w12, w16
	eor v18.16b, v19.16b, v18.16b
	and w6, w13, w16
	add w15, w15, w7
	orr w4, w6, w4
	eor w7, w14, w19, ror #11
	ror w5, w5, #6
	eor w6, w14, w17
	add w15, w15, w4
	uzp1 v17.4s, v18.4s, v5.4s
	shl v18.4s, v6.4s, #21
	and w3, w6, w3
	ror w4, w7, #2
	add w15, w15, w5
	eor w5, w3, w17
	add w3, w15, w10
	add w12, w12, w2
	usra v18.4s, v6.4s, #11
	add w10, w4, w5
	eor w4, w3, w3, ror #14
	mov v17.s[3], wzr
	add w10, w10, w15
	and w5, w16, w3
	eor w15, w3, w4, ror #5
	bic w4, w13, w3
	eor w7, w10, w10, ror #9
	orr w2, w5, w4
	ror w15, w15, #6
	add w12, w12, w2
	eor w2, w10, w7, ror #11
	add v7.4s, v2.4s, v17.4s
	add w12, w12, w15
	eor w15, w10, w14
	ror w4, w2, #2
	and w5, w15, w6
	add w2, w12, w11
	zip1 v2.4s, v7.4s, v7.4s
	eor w11, w5, w14
	eor w5, w2, w2, ror #14
	add w11, w4, w11
	and w6, w3, w2
	eor w4, w2, w5, ror #5
	bic w5, w16, w2
	add w12, w11, w12
	orr w5, w6, w5
	ushr v16.2d, v2.2d, #19
	ushr v17.2d, v2.2d, #17
	ushr v2.4s, v2.4s, #10
	ldp w11, w6, [x0, #48]
	ror w4, w4, #6
	eor v16.16b, v16.16b, v17.16b
	eor v17.16b, v18.16b, v6.16b
	ushr v6.4s, v6.4s, #3
	add w11, w13, w11
	eor w13, w12, w12, ror #9
	add w16, w16, w6
	add w11, w11, w5
	eor v2.16b, v2.16b, v16.16b
	shl v16.4s, v17.4s, #25
	add w11, w11, w4
	eor w13, w12, w13, ror #11
	add w17, w11, w17
	eor w4, w12, w10
	eor w5, w17, w17, ror #14
	and w15, w4, w15
	uzp1 v2.4s, v4.4s, v2.4s
	usra v16.4s, v17.4s, #7
	ror w13, w13, #2
	eor w15, w15, w10
	eor w5, w17, w5, ror #5
	add w13, w13, w15
	eor v6.16b, v16.16b, v6.16b
	add w15, w13, w11
	ror w11, w5, #6
	add v2.4s, v2.4s, v7.4s
	ext v7.16b, v1.16b, v7.16b, #4
	bic w13, w3, w17
	and w5, w2, w17
	eor w7, w15, w15, ror #9
	add v3.4s, v6.4s, v3.4s
	orr w13, w5, w13
	eor w5, w15, w12
	zip2 v18.4s, v2.4s, v2.4s
	add w13, w16, w13
	eor w16, w15, w7, ror #11
	add w11, w13, w11
	and w13, w5, w4
	add v3.4s, v3.4s, v7.4s
	ror w4, w16, #2
	add w16, w11, w14
	eor w13, w13, w12
	eor w6, w16, w16, ror #14
	and w7, w17, w16
	ushr v17.2d, v18.2d, #19
	ushr v19.2d, v18.2d, #17
	ushr v18.4s, v18.4s, #10
	add w13, w4, w13
	add w14, w13, w11
	eor w13, w16, w6, ror #5
	bic w6, w2, w16
	eor v17.16b, v17.16b, v19.16b
	eor w4, w14, w14, ror #9
	orr w6, w7, w6
	ldp w11, w7, [x0, #56]
	eor w4, w14, w4, ror #11
	ror w13, w13, #6
	eor v17.16b, v18.16b, v17.16b
	ldur q18, [x8, #-48]
	add w11, w3, w11
	eor w3, w14, w15
	ror w4, w4, #2
	add v6.4s, v18.4s, v0.4s
	add w11, w11, w6
	and w5, w3, w5
	uzp1 v5.4s, v17.4s, v5.4s
	add w11, w11, w13
	eor w13, w5, w15
	add w4, w4, w13
	add w13, w11, w10
	str q6, [x0]
	add w11, w4, w11
	eor w10, w13, w13, ror #14
	ldur q6, [x8, #-32]
	eor w6, w11, w11, ror #9
	bic w4, w17, w13
	mov v5.s[3], wzr
	and w5, w16, w13
	eor w10, w13, w10, ror #5
	orr w4, w5, w4
	eor w5, w11, w6, ror #11
	add w6, w2, w7
	eor w2, w11, w14
	ror w10, w10, #6
	add w4, w6, w4
	ror w5, w5, #2
	and w3, w2, w3
	add v3.4s, v3.4s, v5.4s
	add v5.4s, v6.4s, v1.4s
	eor w3, w3, w14
	add w4, w4, w10
	add w10, w5, w3
	add w10, w10, w4
	add w12, w4, w12
	zip1 v6.4s, v3.4s, v3.4s
	str q5, [x0, #16]
	ldur q16, [x8, #-16]
	ushr v5.2d, v6.2d, #19
	ushr v7.2d, v6.2d, #17
	ushr v6.4s, v6.4s, #10
	eor v5.16b, v5.16b, v7.16b
	eor v5.16b, v6.16b, v5.16b
	add v6.4s, v16.4s, v2.4s
	uzp1 v4.4s, v4.4s, v5.4s
	str q6, [x0, #32]
	add v3.4s, v4.4s, v3.4s
	ldr q4, [x8], #64
	add v4.4s, v4.4s, v3.4s
	str q4, [x0, #48]
	b.ne L(11_0)
	eor w8, w12, w12, ror #14
	eor w9, w10, w10, ror #9
	bic w3, w16, w12
	and w4, w13, w12
	eor w5, w11, w10
	orr w3, w4, w3
	eor w8, w12, w8, ror #5
	eor w9, w10, w9, ror #11
	add w17, w17, w3
	and w2, w2, w5
	ldp w6, w3, [x0]
	ror w8, w8, #6
	ror w9, w9, #2
	eor w2, w2, w11
	add w17, w17, w6
	add w16, w3, w16
	add w17, w8, w17
	add w8, w2, w9
	add w8, w8, w17
	add w15, w17, w15
	eor w9, w15, w15, ror #14
	eor w17, w8, w8, ror #9
	bic w2, w13, w15
	and w4, w12, w15
	eor w3, w8, w10
	eor w9, w15, w9, ror #5
	eor w17, w8, w17, ror #11
	orr w2, w4, w2
	and w4, w3, w5
	add w16, w16, w2
	ror w9, w9, #6
	ror w17, w17, #2
	eor w2, w4, w10
	add w16, w16, w9
	add w9, w17, w2
	add w9, w9, w16
	add w16, w16, w14
	eor w14, w16, w16, ror #14
	eor w17, w9, w9, ror #9
	bic w5, w12, w16
	ldp w2, w4, [x0, #8]
	eor w14, w16, w14, ror #5
	eor w17, w9, w17, ror #11
	and w6, w15, w16
	orr w5, w6, w5
	add w13, w2, w13
	eor w2, w9, w8
	ror w14, w14, #6
	and w3, w2, w3
	ror w17, w17, #2
	add w13, w13, w5
	eor w3, w3, w8
	add w14, w13, w14
	add w12, w4, w12
	add w13, w17, w3
	add w13, w13, w14
	add w14, w14, w11
	eor w11, w14, w14, ror #14
	eor w17, w13, w13, ror #9
	bic w3, w15, w14
	and w5, w16, w14
	eor w4, w13, w9
	eor w11, w14, w11, ror #5
	eor w17, w13, w17, ror #11
	orr w3, w5, w3
	and w2, w4, w2
	add w12, w12, w3
	ror w11, w11, #6
	ror w17, w17, #2
	eor w2, w2, w9
	add w12, w12, w11
	add w11, w17, w2
	add w11, w11, w12
	add w17, w12, w10
	eor w10, w17, w17, ror #14
	eor w12, w11, w11, ror #9
	bic w5, w16, w17
	ldp w2, w3, [x0, #16]
	eor w10, w17, w10, ror #5
	eor w12, w11, w12, ror #11
	and w6, w14, w17
	orr w5, w6, w5
	add w15, w15, w2
	eor w2, w11, w13
	ror w10, w10, #6
	and w4, w2, w4
	ror w12, w12, #2
	add w15, w15, w5
	eor w4, w4, w13
	add w15, w15, w10
	add w16, w16, w3
	add w10, w12, w4
	add w10, w10, w15
	add w15, w15, w8
	eor w8, w15, w15, ror #14
	eor w12, w10, w10, ror #9
	bic w4, w14, w15
	and w5, w17, w15
	eor w3, w10, w11
	eor w8, w15, w8, ror #5
	eor w12, w10, w12, ror #11
	orr w4, w5, w4
	and w2, w3, w2
	add w16, w16, w4
	ror w8, w8, #6
	ror w12, w12, #2
	eor w2, w2, w11
	add w16, w16, w8
	add w8, w12, w2
	add w8, w8, w16
	add w16, w16, w9
	eor w9, w16, w16, ror #14
	eor w12, w8, w8, ror #9
	bic w5, w17, w16
	ldp w2, w4, [x0, #24]
	eor w9, w16, w9, ror #5
	eor w12, w8, w12, ror #11
	and w6, w15, w16
	orr w5, w6, w5
	add w14, w14, w2
	eor w2, w8, w10
	ror w9, w9, #6
	and w3, w2, w3
	ror w12, w12, #2
	add w14, w14, w5
	eor w3, w3, w10
	add w9, w14, w9
	add w17, w17, w4
	add w12, w12, w3
	add w12, w12, w9
	add w9, w9, w13
	eor w13, w9, w9, ror #14
	eor w14, w12, w12, ror #9
	bic w3, w15, w9
	and w5, w16, w9
	eor w4, w12, w8
	eor w13, w9, w13, ror #5
	eor w14, w12, w14, ror #11
	orr w3, w5, w3
	and w2, w4, w2
	add w17, w17, w3
	ror w13, w13, #6
	ror w14, w14, #2
	eor w2, w2, w8
	add w17, w17, w13
	add w13, w14, w2
	add w13, w13, w17
	add w17, w17, w11
	eor w11, w17, w17, ror #14
	eor w14, w13, w13, ror #9
	bic w5, w16, w17
	ldp w2, w3, [x0, #32]
	eor w11, w17, w11, ror #5
	eor w14, w13, w14, ror #11
	and w6, w9, w17
	orr w5, w6, w5
	add w15, w15, w2
	eor w2, w13, w12
	ror w11, w11, #6
	and w4, w2, w4
	ror w14, w14, #2
	add w15, w15, w5
	eor w4, w4, w12
	add w15, w15, w11
	add w16, w16, w3
	add w11, w14, w4
	add w10, w15, w10
	add w11, w11, w15
	eor w14, w10, w10, ror #14
	bic w4, w9, w10
	eor w15, w11, w11, ror #9
	and w5, w17, w10
	eor w3, w11, w13
	eor w14, w10, w14, ror #5
	orr w4, w5, w4
	and w2, w3, w2
	eor w15, w11, w15, ror #11
	add w16, w16, w4
	eor w2, w2, w13
	ror w14, w14, #6
	ror w15, w15, #2
	add w16, w16, w14
	add w14, w15, w2
	add w14, w14, w16
	add w16, w16, w8
	eor w8, w16, w16, ror #14
	eor w15, w14, w14, ror #9
	bic w5, w17, w16
	ldp w2, w4, [x0, #40]
	eor w8, w16, w8, ror #5
	eor w15, w14, w15, ror #11
	and w6, w10, w16
	orr w5, w6, w5
	add w9, w9, w2
	eor w2, w14, w11
	ror w8, w8, #6
	and w3, w2, w3
	ror w15, w15, #2
	add w9, w9, w5
	eor w3, w3, w11
	add w8, w9, w8
	add w17, w17, w4
	add w9, w15, w3
	add w15, w8, w12
	add w9, w9, w8
	eor w8, w15, w15, ror #14
	bic w3, w10, w15
	eor w12, w9, w9, ror #9
	and w5, w16, w15
	eor w4, w9, w14
	eor w8, w15, w8, ror #5
	orr w3, w5, w3
	and w2, w4, w2
	eor w12, w9, w12, ror #11
	add w17, w17, w3
	eor w2, w2, w14
	ror w8, w8, #6
	ror w12, w12, #2
	add w17, w17, w8
	add w8, w12, w2
	add w12, w17, w13
	add w8, w8, w17
	eor w13, w12, w12, ror #14
	bic w5, w16, w12
	eor w17, w8, w8, ror #9
	and w6, w15, w12
	ldp w2, w3, [x0, #48]
	eor w13, w12, w13, ror #5
	eor w17, w8, w17, ror #11
	orr w5, w6, w5
	add w10, w10, w2
	eor w2, w8, w9
	ror w13, w13, #6
	and w4, w2, w4
	ror w17, w17, #2
	add w10, w10, w5
	eor w4, w4, w9
	add w10, w10, w13
	add w16, w16, w3
	add w13, w17, w4
	add w13, w13, w10
	add w10, w10, w11
	eor w11, w10, w10, ror #14
	eor w17, w13, w13, ror #9
	bic w4, w15, w10
	and w5, w12, w10
	eor w3, w13, w8
	eor w11, w10, w11, ror #5
	eor w17, w13, w17, ror #11
	orr w4, w5, w4
	and w2, w3, w2
	add w16, w16, w4
	ror w11, w11, #6
	ror w17, w17, #2
	eor w2, w2, w8
	add w11, w16, w11
	add w16, w17, w2
	add w16, w16, w11
	add w11, w11, w14
	eor w14, w11, w11, ror #14
	eor w17, w16, w16, ror #9
	bic w4, w12, w11
	ldp w2, w0, [x0, #56]
	eor w14, w11, w14, ror #5
	eor w17, w16, w17, ror #11
	and w5, w10, w11
	eor w6, w16, w13
	add w15, w15, w2
	orr w2, w5, w4
	and w3, w6, w3
	ror w14, w14, #6
	ror w17, w17, #2
	add w15, w15, w2
	eor w2, w3, w13
	add w12, w12, w0
	add w14, w15, w14
	add w15, w17, w2
	add w15, w15, w14
	add w9, w14, w9
	ldp w17, w2, [x1, #8]
	eor w14, w9, w9, ror #14
	eor w0, w15, w15, ror #9
	and w3, w11, w9
	ldp w4, w5, [x1]
	eor w14, w9, w14, ror #5
	eor w0, w15, w0, ror #11
	add w13, w13, w2
	add w17, w16, w17
	bic w2, w10, w9
	bic w16, w16, w6
	and w6, w15, w6
	orr w2, w3, w2
	ror w14, w14, #6
	orr w16, w6, w16
	ror w0, w0, #2
	add w12, w12, w2
	add w16, w16, w4
	stp w17, w13, [x1, #8]
	add w12, w12, w14
	add w14, w16, w0
	ldp w16, w17, [x1, #16]
	add w13, w14, w12
	add w14, w15, w5
	stp w13, w14, [x1]
	add w8, w8, w16
	add w9, w9, w17
	add w8, w8, w12
	ldp w12, w13, [x1, #24]
	stp w8, w9, [x1, #16]
	add w8, w11, w12
	add w9, w10, w13
	stp w8, w9, [x1, #24]
	ldr x19, [sp], #16
	ret
	SIZE(ring_core.digest.sha2.by_fours.run_ahead.99accd9fe8f0e06d, 2980)

	CODE(ring.digest.block_context.write_tail)
	.p2align 2
/* ring::digest::block_context::write_tail */
	TYPE(ring.digest.block_context.write_tail, %function)
ring.digest.block_context.write_tail:
	stp x29, x30, [sp, #-80]!
	and w9, w0, #0xff
	mov w8, #0x10
	mov w10, #0x8
	cmp w9, #0x2
	mov w11, #0x6
	sub x9, x6, x1
	str x25, [sp, #16]
	csel x25, x10, x8, cc
	mov x29, sp
	stp x24, x23, [sp, #32]
	mov x23, x2
	cinc x24, x11, cs
	stp x22, x21, [sp, #48]
	mov x22, x5
	mov w21, w0
	stp x20, x19, [sp, #64]
	mov x20, x6
	cmp x9, x2
	mov x19, x4
	b.cs L(13_0)
	cmp x23, #0x8
	mov x8, xzr
	b.cc L(13_5)
	cmp x9, #0x20
	b.cc L(13_5)
	cmp x23, #0x20
	b.cs L(13_1)
	mov x8, xzr
	b L(13_3)
L(13_0):
	mov x0, x20
	mov x2, x23
	bl memmove
	b L(13_7)
L(13_1):
	and x9, x23, #0x18
	and x8, x23, #0xffffffffffffffe0
	add x10, x1, #0x10
	add x11, x20, #0x10
	and x12, x23, #0xffffffffffffffe0
L(13_2):
	ldp q0, q1, [x10, #-16]
	subs x12, x12, #0x20
	add x10, x10, #0x20
	stp q0, q1, [x11, #-16]
	add x11, x11, #0x20
	b.ne L(13_2)
	cmp x23, x8
	b.eq L(13_7)
	cbz x9, L(13_5)
L(13_3):
	mov x11, x8
	and x8, x23, #0xfffffffffffffff8
	sub x9, x11, x8
	add x10, x1, x11
	add x11, x20, x11
L(13_4):
	ldr d0, [x10], #8
	adds x9, x9, #0x8
	str d0, [x11], #8
	b.ne L(13_4)
	cmp x23, x8
	b.eq L(13_7)
L(13_5):
	sub x9, x23, x8
	add x10, x1, x8
	add x8, x20, x8
L(13_6):
	ldrb w11, [x10], #1
	subs x9, x9, #0x1
	strb w11, [x8], #1
	b.ne L(13_6)
L(13_7):
	lsr x8, x22, #61
	mov w9, #0x80
	strb w9, [x20, x23]
	cbnz x8, L(13_9)
	extr x9, x22, x19, #61
	add x8, x23, x25
	lsl x10, x19, #3
	lsr x8, x8, x24
	fmov d0, x9
	add x8, x8, #0x1
	lsl x0, x8, x24
	and w8, w21, #0xff
	mov v0.d[1], x10
	cmp w8, #0x2
	add x8, x20, x0
	b.cc L(13_8)
	rev64 v1.8b, v0.8b
	stur d1, [x8, #-16]
L(13_8):
	mov b1, v0.b[11]
	mov b2, v0.b[13]
	adrp x9, PAGE(L(201_28))
	movi v3.2d, #0xff
	adrp x10, PAGE(L(201_29))
	umov w11, v0.b[15]
	ldr q4, [x10, IN_PAGE(L(201_29))]
	umov w10, v0.b[9]
	ldr x25, [sp, #16]
	ldp x22, x21, [sp, #48]
	mov v1.b[4], v0.b[12]
	mov v2.b[4], v0.b[14]
	ldp x24, x23, [sp, #32]
	uxtl v1.2d, v1.2s
	uxtl v2.2d, v2.2s
	and v1.16b, v1.16b, v3.16b
	and v2.16b, v2.16b, v3.16b
	ldr q3, [x9, IN_PAGE(L(201_28))]
	umov w9, v0.b[10]
	ushl v2.2d, v2.2d, v3.2d
	ushl v1.2d, v1.2d, v4.2d
	lsl x9, x9, #40
	orr v1.16b, v1.16b, v2.16b
	orr x9, x9, x19, lsl #59
	ldp x20, x19, [sp, #64]
	ext v2.16b, v1.16b, v1.16b, #8
	orr x9, x9, x11
	orr v1.8b, v1.8b, v2.8b
	fmov x12, d1
	orr x10, x12, x10, lsl #48
	orr x9, x10, x9
	stur x9, [x8, #-8]
	ldp x29, x30, [sp], #80
	ret
L(13_9):
	brk #0x1
	SIZE(ring.digest.block_context.write_tail, 476)

	CODE(ring.digest.block_context.BlockContext.output_after)
	.p2align 2
/* ring::digest::block_context::BlockContext::output_after */
	TYPE(ring.digest.block_context.BlockContext.output_after, %function)
ring.digest.block_context.BlockContext.output_after:
	sub sp, sp, #0x130
	movi v0.2d, #0x0
	ldrb w9, [x1, #16]
	stp x20, x19, [sp, #288]
	mov x20, x4
	mov x8, x2
	mov x19, x0
	stp x29, x30, [sp, #224]
	add x29, sp, #0xe0
	str x28, [sp, #240]
	stp x24, x23, [sp, #256]
	stp x22, x21, [sp, #272]
	stp q0, q0, [sp, #32]
	stp q0, q0, [sp, #64]
	cbz w9, L(15_0)
	ldur q0, [x1, #20]
	ldur q1, [x1, #36]
	ldrb w9, [x1, #88]
	stp q0, q1, [sp]
	movi v0.2d, #0x0
	cbz w9, L(15_3)
	stp q0, q0, [sp, #96]
	adrp x9, PAGE(yz_instructions)
	stp q0, q0, [sp, #128]
	ldrb w9, [x9, IN_PAGE(yz_instructions)]
	cbz w9, L(15_4)
	mov x0, sp
	and x2, x3, #0xffffffffffffffc0
	mov x1, x8
	mov x3, x20
	bl ring_core.digest.sha2.by_instruction.run_blocks.4b880bd721513749
	b L(15_8)
L(15_0):
	ldur q0, [x1, #24]
	ldur q1, [x1, #40]
	lsr x21, x3, #7
	ldur q2, [x1, #56]
	stp q0, q1, [sp, #32]
	ldur q0, [x1, #72]
	stp q2, q0, [sp, #64]
	cbz x21, L(15_2)
	add x22, x8, #0x40
L(15_1):
	ldp q2, q0, [x22, #-64]
	adrp x8, PAGE(L(201_34))
	ldp q4, q3, [x22, #-32]
	add x0, sp, #0x60
	ldr q5, [x8, IN_PAGE(L(201_34))]
	adrp x8, PAGE(L(201_35))
	add x1, sp, #0x20
	rev64 v1.16b, v0.16b
	rev64 v0.16b, v2.16b
	ldr q6, [x8, IN_PAGE(L(201_35))]
	adrp x8, PAGE(L(201_36))
	ldp q16, q7, [x22]
	ldp q19, q18, [x22, #32]
	ldr q17, [x8, IN_PAGE(L(201_36))]
	adrp x8, PAGE(L(201_37))
	rev64 v3.16b, v3.16b
	rev64 v2.16b, v4.16b
	ldr q20, [x8, IN_PAGE(L(201_37))]
	adrp x8, PAGE(L(201_39))
	add v21.2d, v1.2d, v6.2d
	add v22.2d, v0.2d, v5.2d
	rev64 v5.16b, v7.16b
	rev64 v7.16b, v18.16b
	ldr q18, [x8, IN_PAGE(L(201_39))]
	adrp x8, PAGE(L(201_38))
	rev64 v4.16b, v16.16b
	rev64 v6.16b, v19.16b
	ldr q19, [x8, IN_PAGE(L(201_38))]
	adrp x8, PAGE(L(201_41))
	add v16.2d, v3.2d, v20.2d
	add v17.2d, v2.2d, v17.2d
	ldr q20, [x8, IN_PAGE(L(201_41))]
	adrp x8, PAGE(L(201_40))
	stp q22, q21, [sp, #96]
	add v18.2d, v5.2d, v18.2d
	ldr q21, [x8, IN_PAGE(L(201_40))]
	add v19.2d, v4.2d, v19.2d
	stp q17, q16, [sp, #128]
	add v16.2d, v7.2d, v20.2d
	add v17.2d, v6.2d, v21.2d
	stp q19, q18, [sp, #160]
	stp q17, q16, [sp, #192]
	bl ring_core.digest.sha2.by_fours.run_ahead.34389943500e16fa
	ldp x8, x9, [x20]
	add x22, x22, #0x80
	adds x8, x8, #0x1
	adcs x9, x9, xzr
	csinv x8, x8, xzr, cc
	csinv x9, x9, xzr, cc
	subs x21, x21, #0x1
	stp x8, x9, [x20]
	b.ne L(15_1)
L(15_2):
	ldr d0, [sp, #32]
	add x8, sp, #0x20
	ldr d2, [sp, #64]
	orr x9, x8, #0x8
	add x8, x8, #0x28
	ldr q1, [sp, #48]
	ld1 {v0.d}[1], [x9]
	ld1 {v2.d}[1], [x8]
	ldr q3, [sp, #80]
	rev64 v1.16b, v1.16b
	rev64 v3.16b, v3.16b
	rev64 v0.16b, v0.16b
	rev64 v2.16b, v2.16b
	b L(15_9)
L(15_3):
	stp q0, q0, [sp, #96]
	adrp x9, PAGE(yz_instructions)
	stp q0, q0, [sp, #128]
	ldrb w9, [x9, IN_PAGE(yz_instructions)]
	cbz w9, L(15_6)
	mov x0, sp
	and x2, x3, #0xffffffffffffffc0
	mov x1, x8
	mov x3, x20
	bl ring_core.digest.sha1.by_instruction.run_blocks.87fcf8c0f9719b5d
	b L(15_8)
L(15_4):
	lsr x21, x3, #6
	cbz x21, L(15_8)
	add x22, x8, #0x20
L(15_5):
	ldp q0, q1, [x22, #-32]
	adrp x8, PAGE(L(201_30))
	ldp q2, q3, [x22], #64
	ldr q4, [x8, IN_PAGE(L(201_30))]
	adrp x8, PAGE(L(201_31))
	add x0, sp, #0x60
	rev32 v0.16b, v0.16b
	rev32 v1.16b, v1.16b
	ldr q5, [x8, IN_PAGE(L(201_31))]
	rev32 v2.16b, v2.16b
	adrp x8, PAGE(L(201_32))
	rev32 v3.16b, v3.16b
	ldr q6, [x8, IN_PAGE(L(201_32))]
	adrp x8, PAGE(L(201_33))
	mov x1, sp
	ldr q7, [x8, IN_PAGE(L(201_33))]
	add v4.4s, v0.4s, v4.4s
	add v5.4s, v1.4s, v5.4s
	add v6.4s, v2.4s, v6.4s
	add v7.4s, v3.4s, v7.4s
	stp q4, q5, [sp, #96]
	stp q6, q7, [sp, #128]
	bl ring_core.digest.sha2.by_fours.run_ahead.99accd9fe8f0e06d
	ldp x8, x9, [x20]
	adds x8, x8, #0x1
	adcs x9, x9, xzr
	csinv x8, x8, xzr, cc
	csinv x9, x9, xzr, cc
	subs x21, x21, #0x1
	stp x8, x9, [x20]
	b.ne L(15_5)
	b L(15_8)
L(15_6):
	lsr x21, x3, #6
	cbz x21, L(15_8)
	ldp x24, x22, [x20]
	add x23, x8, #0x20
L(15_7):
	ldp q0, q1, [x23, #-32]
	mov w8, #0x7999
	ldp q2, q3, [x23], #64
	movk w8, #0x5a82, lsl #16
	add x0, sp, #0x60
	mov x1, sp
	rev32 v0.16b, v0.16b
	rev32 v1.16b, v1.16b
	dup v4.4s, w8
	rev32 v2.16b, v2.16b
	rev32 v3.16b, v3.16b
	add v5.4s, v0.4s, v4.4s
	add v6.4s, v1.4s, v4.4s
	add v7.4s, v2.4s, v4.4s
	add v4.4s, v3.4s, v4.4s
	stp q5, q6, [sp, #96]
	stp q7, q4, [sp, #128]
	bl ring_core.digest.sha1.by_fours.run_ahead
	adds x8, x24, #0x1
	adcs x9, x22, xzr
	csinv x22, x9, xzr, cc
	csinv x24, x8, xzr, cc
	subs x21, x21, #0x1
	stp x24, x22, [x20]
	b.ne L(15_7)
L(15_8):
	ldp d0, d1, [sp]
	movi v2.2d, #0x0
	movi v3.2d, #0x0
	mov v0.d[1], v1.d[0]
	ldr q1, [sp, #16]
	rev32 v1.16b, v1.16b
	rev32 v0.16b, v0.16b
L(15_9):
	stp q0, q1, [x19]
	ldp x22, x21, [sp, #272]
	stp q2, q3, [x19, #32]
	ldr x28, [sp, #240]
	ldp x20, x19, [sp, #288]
	ldp x24, x23, [sp, #256]
	ldp x29, x30, [sp, #224]
	add sp, sp, #0x130
	ret
	SIZE(ring.digest.block_context.BlockContext.output_after, 792)

	CODE(ring.digest.each.digest_in_lanes.341c8717c19b8f16)
	.p2align 2
/* ring::digest::each::digest_in_lanes::<#341c8717c19b8f16> */
	TYPE(ring.digest.each.digest_in_lanes.341c8717c19b8f16, %function)
ring.digest.each.digest_in_lanes.341c8717c19b8f16:
	stp x29, x30, [sp, #-96]!
	stp x28, x27, [sp, #16]
	mov x29, sp
	stp x26, x25, [sp, #32]
	stp x24, x23, [sp, #48]
	stp x22, x21, [sp, #64]
	stp x20, x19, [sp, #80]
	sub sp, sp, #0x470
	mov x19, x3
	mov x27, x1
	str xzr, [sp]
	stp x2, x0, [sp, #136]
	cbz x1, L(17_0)
	cmp x27, #0x5
	b.cs L(17_1)
	mov x8, xzr
	mov x28, #0xffffffffffffffff
	b L(17_3)
L(17_0):
	mov x28, #0xffffffffffffffff
	b L(17_5)
L(17_1):
	ands x8, x27, #0x3
	mov w9, #0x4
	movi v0.2d, #0xffffffffffffffff
	movi v1.2d, #0xffffffffffffffff
	csel x8, x9, x8, eq
	ldr x9, [sp, #144]
	sub x8, x27, x8
	add x9, x9, #0x28
	mov x10, x8
L(17_2):
	ldur d2, [x9, #-32]
	ldr d3, [x9]
	sub x11, x9, #0x10
	add x12, x9, #0x10
	mov w13, #0x8
	subs x10, x10, #0x4
	ld1 {v2.d}[1], [x11]
	mov w11, #0x1
	ld1 {v3.d}[1], [x12]
	dup v4.2d, x13
	dup v5.2d, x11
	add x9, x9, #0x40
	add v2.2d, v2.2d, v4.2d
	add v3.2d, v3.2d, v4.2d
	mov v4.16b, v5.16b
	usra v4.2d, v2.2d, #6
	usra v5.2d, v3.2d, #6
	cmhi v2.2d, v0.2d, v4.2d
	cmhi v3.2d, v1.2d, v5.2d
	bit v0.16b, v4.16b, v2.16b
	bit v1.16b, v5.16b, v3.16b
	b.ne L(17_2)
	cmhi v2.2d, v1.2d, v0.2d
	bif v0.16b, v1.16b, v2.16b
	ext v1.16b, v0.16b, v0.16b, #8
	cmhi d2, d1, d0
	bif v0.8b, v1.8b, v2.8b
	fmov x28, d0
L(17_3):
	ldr x9, [sp, #144]
	add x9, x9, x8, lsl #4
	sub x8, x27, x8
	add x9, x9, #0x8
L(17_4):
	ldr x10, [x9], #16
	add x10, x10, #0x8
	lsr x10, x10, #6
	add x11, x10, #0x1
	cmp x11, x28
	csinc x28, x28, x10, cs
	subs x8, x8, #0x1
	b.ne L(17_4)
L(17_5):
	mov w8, #0x2301
	movk w8, #0x6745, lsl #16
	dup v0.4s, w8
	mov w8, #0xab89
	movk w8, #0xefcd, lsl #16
	dup v1.4s, w8
	mov w8, #0xdcfe
	movk w8, #0x98ba, lsl #16
	dup v2.4s, w8
	mov w8, #0x5476
	movk w8, #0x1032, lsl #16
	stp q0, q1, [sp, #160]
	movi v0.2d, #0x0
	dup v3.4s, w8
	mov w8, #0xe1f0
	movk w8, #0xc3d2, lsl #16
	dup v1.4s, w8
	stp q2, q3, [sp, #192]
	stp q0, q0, [sp, #256]
	stp q1, q0, [sp, #224]
	stp q0, q0, [sp, #352]
	stp q0, q0, [sp, #384]
	stp q0, q0, [sp, #416]
	stp q0, q0, [sp, #448]
	stp q0, q0, [sp, #480]
	stp q0, q0, [sp, #512]
	stp q0, q0, [sp, #544]
	stp q0, q0, [sp, #576]
	stp q0, q0, [sp, #608]
	stp q0, q0, [sp, #640]
	stp q0, q0, [sp, #672]
	stp q0, q0, [sp, #704]
	stp q0, q0, [sp, #736]
	stp q0, q0, [sp, #768]
	stp q0, q0, [sp, #800]
	stp q0, q0, [sp, #832]
	cbz x28, L(17_13)
	cbz x27, L(17_12)
	mov x23, xzr
	b L(17_7)
L(17_6):
	add x0, sp, #0xa0
	add x1, sp, #0x160
	mov x2, x19
	bl ring.digest.lanes.algorithms.InVectorSha1RunBlocks64.run_blocks.39d837fb76adf98f
	add x23, x23, #0x1
	cmp x23, x28
	b.eq L(17_14)
L(17_7):
	ldr x8, [sp, #144]
	lsl x25, x23, #6
	add x26, sp, #0x160
	mov x22, x27
	add x20, x8, #0x8
	b L(17_10)
L(17_8):
	movi v0.2d, #0x0
	and x9, x4, #0xffffffffffffffc0
	and x2, x4, #0x3f
	add x1, x8, x9
	add x6, sp, #0x360
	mov w0, wzr
	mov x5, xzr
	add x24, sp, #0x360
	str q0, [sp, #1104]
	str q0, [sp, #1088]
	str q0, [sp, #1072]
	str q0, [sp, #1056]
	str q0, [sp, #1040]
	stp q0, q0, [sp, #880]
	stp q0, q0, [sp, #912]
	stp q0, q0, [sp, #944]
	stp q0, q0, [sp, #976]
	stp q0, q0, [sp, #1008]
	str q0, [sp, #864]
	bl ring.digest.block_context.write_tail
	add x8, x24, x21, lsl #6
	ldp q0, q1, [x8]
	stp q0, q1, [x26]
	ldp q0, q2, [x8, #32]
	stp q0, q2, [x26, #32]
L(17_9):
	subs x22, x22, #0x1
	add x20, x20, #0x10
	add x26, x26, #0x40
	b.eq L(17_6)
L(17_10):
	ldp x8, x4, [x20, #-8]
	lsr x9, x4, #6
	subs x21, x23, x9
	b.cs L(17_8)
	add x8, x8, x25
	sub x9, x26, x8
	cmp x9, #0x3f
	b.hi L(17_11)
	ldrb w9, [x8]
	strb w9, [x26]
	ldrb w9, [x8, #1]
	strb w9, [x26, #1]
	ldrb w9, [x8, #2]
	strb w9, [x26, #2]
	ldrb w9, [x8, #3]
	strb w9, [x26, #3]
	ldrb w9, [x8, #4]
	strb w9, [x26, #4]
	ldrb w9, [x8, #5]
	strb w9, [x26, #5]
	ldrb w9, [x8, #6]
	strb w9, [x26, #6]
	ldrb w9, [x8, #7]
	strb w9, [x26, #7]
	ldrb w9, [x8, #8]
	strb w9, [x26, #8]
	ldrb w9, [x8, #9]
	strb w9, [x26, #9]
	ldrb w9, [x8, #10]
	strb w9, [x26, #10]
	ldrb w9, [x8, #11]
	strb w9, [x26, #11]
	ldrb w9, [x8, #12]
	strb w9, [x26, #12]
	ldrb w9, [x8, #13]
	strb w9, [x26, #13]
	ldrb w9, [x8, #14]
	strb w9, [x26, #14]
	ldrb w9, [x8, #15]
	strb w9, [x26, #15]
	ldrb w9, [x8, #16]
	strb w9, [x26, #16]
	ldrb w9, [x8, #17]
	strb w9, [x26, #17]
	ldrb w9, [x8, #18]
	strb w9, [x26, #18]
	ldrb w9, [x8, #19]
	strb w9, [x26, #19]
	ldrb w9, [x8, #20]
	strb w9, [x26, #20]
	ldrb w9, [x8, #21]
	strb w9, [x26, #21]
	ldrb w9, [x8, #22]
	strb w9, [x26, #22]
	ldrb w9, [x8, #23]
	strb w9, [x26, #23]
	ldrb w9, [x8, #24]
	strb w9, [x26, #24]
	ldrb w9, [x8, #25]
	strb w9, [x26, #25]
	ldrb w9, [x8, #26]
	strb w9, [x26, #26]
	ldrb w9, [x8, #27]
	strb w9, [x26, #27]
	ldrb w9, [x8, #28]
	strb w9, [x26, #28]
	ldrb w9, [x8, #29]
	strb w9, [x26, #29]
	ldrb w9, [x8, #30]
	strb w9, [x26, #30]
	ldrb w9, [x8, #31]
	strb w9, [x26, #31]
	ldrb w9, [x8, #32]
	strb w9, [x26, #32]
	ldrb w9, [x8, #33]
	strb w9, [x26, #33]
	ldrb w9, [x8, #34]
	strb w9, [x26, #34]
	ldrb w9, [x8, #35]
	strb w9, [x26, #35]
	ldrb w9, [x8, #36]
	strb w9, [x26, #36]
	ldrb w9, [x8, #37]
	strb w9, [x26, #37]
	ldrb w9, [x8, #38]
	strb w9, [x26, #38]
	ldrb w9, [x8, #39]
	strb w9, [x26, #39]
	ldrb w9, [x8, #40]
	strb w9, [x26, #40]
	ldrb w9, [x8, #41]
	strb w9, [x26, #41]
	ldrb w9, [x8, #42]
	strb w9, [x26, #42]
	ldrb w9, [x8, #43]
	strb w9, [x26, #43]
	ldrb w9, [x8, #44]
	strb w9, [x26, #44]
	ldrb w9, [x8, #45]
	strb w9, [x26, #45]
	ldrb w9, [x8, #46]
	strb w9, [x26, #46]
	ldrb w9, [x8, #47]
	strb w9, [x26, #47]
	ldrb w9, [x8, #48]
	strb w9, [x26, #48]
	ldrb w9, [x8, #49]
	strb w9, [x26, #49]
	ldrb w9, [x8, #50]
	strb w9, [x26, #50]
	ldrb w9, [x8, #51]
	strb w9, [x26, #51]
	ldrb w9, [x8, #52]
	strb w9, [x26, #52]
	ldrb w9, [x8, #53]
	strb w9, [x26, #53]
	ldrb w9, [x8, #54]
	strb w9, [x26, #54]
	ldrb w9, [x8, #55]
	strb w9, [x26, #55]
	ldrb w9, [x8, #56]
	strb w9, [x26, #56]
	ldrb w9, [x8, #57]
	strb w9, [x26, #57]
	ldrb w9, [x8, #58]
	strb w9, [x26, #58]
	ldrb w9, [x8, #59]
	strb w9, [x26, #59]
	ldrb w9, [x8, #60]
	strb w9, [x26, #60]
	ldrb w9, [x8, #61]
	strb w9, [x26, #61]
	ldrb w9, [x8, #62]
	strb w9, [x26, #62]
	ldrb w8, [x8, #63]
	strb w8, [x26, #63]
	b L(17_9)
L(17_11):
	ldp q1, q0, [x8, #32]
	ldp q2, q3, [x8]
	stp q1, q0, [x26, #32]
	stp q2, q3, [x26]
	b L(17_9)
L(17_12):
	add x0, sp, #0xa0
	add x1, sp, #0x160
	mov x2, x19
	bl ring.digest.lanes.algorithms.InVectorSha1RunBlocks64.run_blocks.39d837fb76adf98f
	subs x28, x28, #0x1
	b.ne L(17_12)
	b L(17_24)
L(17_13):
	cbz x27, L(17_24)
L(17_14):
	ldr q0, [sp, #224]
	lsl x8, x28, #6
	mov x17, xzr
	str x27, [sp, #24]
	str q0, [sp, #112]
	ldr q0, [sp, #240]
	stp x8, x28, [sp, #8]
	str q0, [sp, #96]
	ldr q0, [sp, #256]
	str q0, [sp, #80]
	ldr q0, [sp, #272]
	str q0, [sp, #64]
	ldr q0, [sp, #208]
	str q0, [sp, #48]
	ldr q0, [sp, #160]
	str q0, [sp, #32]
L(17_15):
	ldr q1, [sp, #32]
	add x8, sp, #0x160
	mov w15, #0x1
	mov x24, x28
	str w15, [sp, #864]
	str q1, [sp, #352]
	ldp q0, q1, [sp, #176]
	ldr w9, [x8, x17, lsl #2]
	str x17, [sp, #152]
	str q0, [sp, #352]
	ldr q0, [sp, #48]
	ldr w10, [x8, x17, lsl #2]
	str q1, [sp, #352]
	ldr w11, [x8, x17, lsl #2]
	str q0, [sp, #352]
	ldr q0, [sp, #112]
	ldr w12, [x8, x17, lsl #2]
	str w9, [sp, #868]
	ldr x9, [sp, #144]
	str q0, [sp, #352]
	ldr q0, [sp, #96]
	ldr w13, [x8, x17, lsl #2]
	add x9, x9, x17, lsl #4
	str w10, [sp, #872]
	str q0, [sp, #352]
	ldr q0, [sp, #80]
	ldr w14, [x8, x17, lsl #2]
	ldp x22, x23, [x9]
	str q0, [sp, #352]
	ldr q0, [sp, #64]
	ldr w16, [x8, x17, lsl #2]
	str w11, [sp, #876]
	str q0, [sp, #352]
	movi v0.2d, #0x0
	lsr x20, x23, #6
	ldr w8, [x8, x17, lsl #2]
	str w12, [sp, #880]
	cmp x20, x28
	str w13, [sp, #884]
	str w8, [sp, #896]
	add x8, sp, #0x360
	str w14, [sp, #888]
	str w16, [sp, #892]
	stur q0, [x8, #36]
	stur q0, [x8, #52]
	stur wzr, [x8, #68]
	b.ls L(17_16)
	ldr x8, [sp, #8]
	add x1, sp, #0x360
	mov w0, wzr
	mov x4, x19
	add x2, x22, x8
	sub x3, x23, x8
	bl ring.digest.block_context.run_blocks
	mov x24, x20
L(17_16):
	add x8, x23, #0x8
	lsr x8, x8, #6
	cmp x24, x8
	b.ls L(17_18)
L(17_17):
	ldrb w8, [sp, #864]
	cmp w8, #0x1
	b.ne L(17_25)
	add x8, sp, #0x360
	ldr x17, [sp, #152]
	movi v2.2d, #0x0
	ldur d0, [x8, #4]
	ldur d1, [x8, #12]
	ldr x9, [sp, #136]
	ldp x28, x27, [sp, #16]
	mov v0.d[1], v1.d[0]
	ldur q1, [x8, #20]
	add x8, x17, x17, lsl #6
	add x17, x17, #0x1
	rev32 v1.16b, v1.16b
	add x8, x9, x8
	cmp x17, x27
	stp q2, q2, [x8, #32]
	rev32 v0.16b, v0.16b
	strb wzr, [x8, #64]
	stp q0, q1, [x8]
	b.ne L(17_15)
	b L(17_24)
L(17_18):
	lsl x9, x24, #6
	and x25, x23, #0xffffffffffffffc0
	add x21, x8, #0x1
	sub x26, x9, x20, lsl #6
	add x28, x22, x9
	b L(17_21)
L(17_19):
	add x8, sp, #0x360
	add x1, sp, #0x120
	mov w2, #0x40
	orr x0, x8, #0x4
	mov x3, x19
	bl ring_core.digest.sha1.by_instruction.run_blocks.87fcf8c0f9719b5d
L(17_20):
	add x24, x24, #0x1
	add x28, x28, #0x40
	add x26, x26, #0x40
	cmp x21, x24
	b.eq L(17_17)
L(17_21):
	cmp x20, x24
	b.ls L(17_22)
	ldp q0, q1, [x28]
	add x8, sp, #0x120
	sub x8, x8, x28
	cmp x8, #0x3f
	str q0, [sp, #288]
	ldp q0, q2, [x28, #32]
	ldrb w8, [sp, #864]
	stp q1, q0, [sp, #304]
	str q2, [sp, #336]
	cbnz w8, L(17_23)
	b L(17_20)
L(17_22):
	movi v0.2d, #0x0
	add x1, x22, x25
	and x2, x23, #0x3f
	add x6, sp, #0x160
	mov w0, wzr
	mov x4, x23
	mov x5, xzr
	add x27, sp, #0x160
	stp q0, q0, [sp, #352]
	stp q0, q0, [sp, #384]
	stp q0, q0, [sp, #416]
	stp q0, q0, [sp, #448]
	stp q0, q0, [sp, #480]
	stp q0, q0, [sp, #512]
	stp q0, q0, [sp, #544]
	stp q0, q0, [sp, #576]
	bl ring.digest.block_context.write_tail
	add x8, x27, x26
	ldp q0, q1, [x8]
	str q0, [sp, #288]
	ldp q0, q2, [x8, #32]
	ldrb w8, [sp, #864]
	stp q1, q0, [sp, #304]
	str q2, [sp, #336]
	cbz w8, L(17_20)
L(17_23):
	movi v0.2d, #0x0
	adrp x8, PAGE(yz_instructions)
	stp q0, q0, [sp, #352]
	stp q0, q0, [sp, #384]
	ldrb w8, [x8, IN_PAGE(yz_instructions)]
	cbnz w8, L(17_19)
	ldp q0, q1, [sp, #288]
	mov w8, #0x7999
	ldp q2, q3, [sp, #320]
	movk w8, #0x5a82, lsl #16
	dup v4.4s, w8
	ldp x8, x9, [x19]
	rev32 v0.16b, v0.16b
	rev32 v1.16b, v1.16b
	mov x25, x22
	rev32 v2.16b, v2.16b
	rev32 v3.16b, v3.16b
	add x0, sp, #0x160
	adds x8, x8, #0x1
	adcs x9, x9, xzr
	add v5.4s, v0.4s, v4.4s
	add v6.4s, v1.4s, v4.4s
	csinv x22, x8, xzr, cc
	add v7.4s, v2.4s, v4.4s
	add v4.4s, v3.4s, v4.4s
	add x8, sp, #0x360
	orr x1, x8, #0x4
	csinv x27, x9, xzr, cc
	stp q5, q6, [sp, #352]
	stp q7, q4, [sp, #384]
	bl ring_core.digest.sha1.by_fours.run_ahead
	stp x22, x27, [x19]
	mov x22, x25
	and x25, x23, #0xffffffffffffffc0
	b L(17_20)
L(17_24):
	add sp, sp, #0x470
	ldp x20, x19, [sp, #80]
	ldp x22, x21, [sp, #64]
	ldp x24, x23, [sp, #48]
	ldp x26, x25, [sp, #32]
	ldp x28, x27, [sp, #16]
	ldp x29, x30, [sp], #96
	ret
L(17_25):
	brk #0x1
	SIZE(ring.digest.each.digest_in_lanes.341c8717c19b8f16, 1992)

	CODE(ring.digest.lanes.algorithms.InVectorSha1RunBlocks64.run_blocks.39d837fb76adf98f)
	.p2align 2
/* ring::digest::lanes::algorithms::InVectorSha1RunBlocks64::run_blocks::<#39d837fb76adf98f> */
	TYPE(ring.digest.lanes.algorithms.InVectorSha1RunBlocks64.run_blocks.39d837fb76adf98f, %function)
ring.digest.lanes.algorithms.InVectorSha1RunBlocks64.run_blocks.39d837fb76adf98f:
	str d14, [sp, #-64]!
	ldp q3, q0, [x0]
	add x8, x1, #0x40
	ldp s7, s16, [x1]
	add x9, x1, #0x44
	ldp q1, q2, [x0, #32]
	add x10, x1, #0x84
	shl v5.4s, v3.4s, #5
	mov v17.16b, v0.16b
	ldr q4, [x0, #64]
	ld1 {v7.s}[1], [x8]
	add x8, x1, #0x80
	ld1 {v16.s}[1], [x9]
	shl v6.4s, v0.4s, #30
	add x9, x1, #0xc0
	stp d9, d8, [sp, #48]
	usra v5.4s, v3.4s, #27
	bsl v17.16b, v1.16b, v2.16b
	stp d11, d10, [sp, #32]
	ld1 {v7.s}[2], [x8]
	mov w8, #0x7999
	ld1 {v16.s}[2], [x10]
	movk w8, #0x5a82, lsl #16
	ldp s19, s21, [x1, #8]
	add v18.4s, v5.4s, v4.4s
	usra v6.4s, v0.4s, #2
	dup v5.4s, w8
	ld1 {v7.s}[3], [x9]
	add x9, x1, #0x48
	add x8, x1, #0xc4
	ld1 {v19.s}[1], [x9]
	ld1 {v16.s}[3], [x8]
	add x8, x1, #0x88
	add v17.4s, v18.4s, v17.4s
	mov v18.16b, v3.16b
	stp d13, d12, [sp, #16]
	rev32 v20.16b, v7.16b
	ldp s25, s27, [x1, #16]
	ld1 {v19.s}[2], [x8]
	rev32 v22.16b, v16.16b
	add x8, x1, #0xc8
	bsl v18.16b, v6.16b, v1.16b
	add v7.4s, v17.4s, v5.4s
	shl v16.4s, v3.4s, #30
	ldp s30, s31, [x1, #32]
	ld1 {v19.s}[3], [x8]
	add x8, x1, #0x4c
	add v23.4s, v20.4s, v7.4s
	ld1 {v21.s}[1], [x8]
	usra v16.4s, v3.4s, #2
	add v17.4s, v2.4s, v18.4s
	add x8, x1, #0x8c
	rev32 v18.16b, v19.16b
	ldp s12, s13, [x1, #56]
	mov v19.16b, v23.16b
	ld1 {v21.s}[2], [x8]
	add x8, x1, #0xcc
	add v7.4s, v22.4s, v17.4s
	shl v17.4s, v23.4s, #5
	bsl v19.16b, v16.16b, v6.16b
	add v24.4s, v18.4s, v1.4s
	ld1 {v21.s}[3], [x8]
	add v7.4s, v7.4s, v5.4s
	usra v17.4s, v23.4s, #27
	add x8, x1, #0x50
	ld1 {v25.s}[1], [x8]
	add x8, x1, #0x90
	eor v20.16b, v18.16b, v20.16b
	add v17.4s, v7.4s, v17.4s
	shl v7.4s, v23.4s, #30
	add v19.4s, v24.4s, v19.4s
	rev32 v24.16b, v21.16b
	ld1 {v25.s}[2], [x8]
	add x8, x1, #0xd0
	usra v7.4s, v23.4s, #2
	mov v21.16b, v17.16b
	shl v26.4s, v17.4s, #5
	add v19.4s, v19.4s, v5.4s
	ld1 {v25.s}[3], [x8]
	shl v23.4s, v17.4s, #30
	add v6.4s, v24.4s, v6.4s
	add x8, x1, #0x54
	eor v22.16b, v24.16b, v22.16b
	bsl v21.16b, v7.16b, v16.16b
	usra v26.4s, v17.4s, #27
	ld1 {v27.s}[1], [x8]
	usra v23.4s, v17.4s, #2
	add x8, x1, #0x94
	add v19.4s, v19.4s, v26.4s
	ld1 {v27.s}[2], [x8]
	add x8, x1, #0xd4
	add v21.4s, v6.4s, v21.4s
	rev32 v6.16b, v25.16b
	shl v26.4s, v19.4s, #5
	ld1 {v27.s}[3], [x8]
	add x8, x1, #0x58
	add v17.4s, v21.4s, v5.4s
	mov v21.16b, v19.16b
	add v25.4s, v6.4s, v16.4s
	shl v16.4s, v19.4s, #30
	eor v18.16b, v6.16b, v18.16b
	usra v26.4s, v19.4s, #27
	bsl v21.16b, v23.16b, v7.16b
	usra v16.4s, v19.4s, #2
	add v17.4s, v17.4s, v26.4s
	ldp s26, s29, [x1, #24]
	add v21.4s, v25.4s, v21.4s
	rev32 v25.16b, v27.16b
	shl v28.4s, v17.4s, #5
	ld1 {v26.s}[1], [x8]
	add x8, x1, #0x98
	shl v27.4s, v17.4s, #30
	add v19.4s, v21.4s, v5.4s
	mov v21.16b, v17.16b
	usra v28.4s, v17.4s, #27
	ld1 {v26.s}[2], [x8]
	add v7.4s, v25.4s, v7.4s
	add x8, x1, #0xd8
	usra v27.4s, v17.4s, #2
	eor v24.16b, v25.16b, v24.16b
	bsl v21.16b, v16.16b, v23.16b
	add v19.4s, v19.4s, v28.4s
	ld1 {v26.s}[3], [x8]
	add x8, x1, #0x5c
	ld1 {v29.s}[1], [x8]
	add x8, x1, #0x9c
	add v21.4s, v7.4s, v21.4s
	shl v28.4s, v19.4s, #5
	rev32 v7.16b, v26.16b
	ld1 {v29.s}[2], [x8]
	add x8, x1, #0xdc
	add v17.4s, v21.4s, v5.4s
	mov v21.16b, v19.16b
	usra v28.4s, v19.4s, #27
	add v23.4s, v7.4s, v23.4s
	ld1 {v29.s}[3], [x8]
	add x8, x1, #0x60
	ld1 {v30.s}[1], [x8]
	add x8, x1, #0xa0
	eor v6.16b, v7.16b, v6.16b
	bsl v21.16b, v27.16b, v16.16b
	add v28.4s, v17.4s, v28.4s
	shl v17.4s, v19.4s, #30
	rev32 v26.16b, v29.16b
	ld1 {v30.s}[2], [x8]
	add x8, x1, #0xe0
	usra v17.4s, v19.4s, #2
	shl v29.4s, v28.4s, #30
	add v21.4s, v23.4s, v21.4s
	shl v23.4s, v28.4s, #5
	add v16.4s, v26.4s, v16.4s
	ld1 {v30.s}[3], [x8]
	add x8, x1, #0x64
	usra v29.4s, v28.4s, #2
	ld1 {v31.s}[1], [x8]
	add x8, x1, #0xa4
	add v19.4s, v21.4s, v5.4s
	mov v21.16b, v28.16b
	usra v23.4s, v28.4s, #27
	eor v25.16b, v26.16b, v25.16b
	ld1 {v31.s}[2], [x8]
	add x8, x1, #0xe4
	bsl v21.16b, v17.16b, v27.16b
	add v23.4s, v19.4s, v23.4s
	ld1 {v31.s}[3], [x8]
	add x8, x1, #0x68
	mov v28.16b, v23.16b
	add v19.4s, v16.4s, v21.4s
	rev32 v16.16b, v30.16b
	shl v21.4s, v23.4s, #5
	ldp s30, s9, [x1, #40]
	bsl v28.16b, v29.16b, v17.16b
	add v19.4s, v19.4s, v5.4s
	usra v21.4s, v23.4s, #27
	add v27.4s, v16.4s, v27.4s
	ld1 {v30.s}[1], [x8]
	add x8, x1, #0xa8
	eor v7.16b, v16.16b, v7.16b
	add v21.4s, v19.4s, v21.4s
	shl v19.4s, v23.4s, #30
	add v28.4s, v27.4s, v28.4s
	rev32 v27.16b, v31.16b
	ld1 {v30.s}[2], [x8]
	add x8, x1, #0xe8
	shl v8.4s, v21.4s, #5
	usra v19.4s, v23.4s, #2
	shl v31.4s, v21.4s, #30
	add v23.4s, v28.4s, v5.4s
	mov v28.16b, v21.16b
	ld1 {v30.s}[3], [x8]
	add v17.4s, v27.4s, v17.4s
	add x8, x1, #0x6c
	eor v26.16b, v27.16b, v26.16b
	usra v8.4s, v21.4s, #27
	usra v31.4s, v21.4s, #2
	ld1 {v9.s}[1], [x8]
	bsl v28.16b, v19.16b, v29.16b
	add x8, x1, #0xac
	add v23.4s, v23.4s, v8.4s
	ld1 {v9.s}[2], [x8]
	add x8, x1, #0xec
	add v28.4s, v17.4s, v28.4s
	rev32 v17.16b, v30.16b
	shl v8.4s, v23.4s, #5
	ld1 {v9.s}[3], [x8]
	add x8, x1, #0x70
	add v21.4s, v28.4s, v5.4s
	mov v28.16b, v23.16b
	usra v8.4s, v23.4s, #27
	add v29.4s, v17.4s, v29.4s
	bsl v28.16b, v31.16b, v19.16b
	add v30.4s, v21.4s, v8.4s
	shl v21.4s, v23.4s, #30
	ldp s8, s11, [x1, #48]
	add v29.4s, v29.4s, v28.4s
	shl v10.4s, v30.4s, #5
	rev32 v28.16b, v9.16b
	ld1 {v8.s}[1], [x8]
	usra v21.4s, v23.4s, #2
	add x8, x1, #0xb0
	shl v9.4s, v30.4s, #30
	add v23.4s, v29.4s, v5.4s
	mov v29.16b, v30.16b
	usra v10.4s, v30.4s, #27
	ld1 {v8.s}[2], [x8]
	add v19.4s, v28.4s, v19.4s
	add x8, x1, #0xf0
	usra v9.4s, v30.4s, #2
	eor v24.16b, v24.16b, v28.16b
	bsl v29.16b, v21.16b, v31.16b
	add v23.4s, v23.4s, v10.4s
	ld1 {v8.s}[3], [x8]
	add x8, x1, #0x74
	ld1 {v11.s}[1], [x8]
	add x8, x1, #0xb4
	shl v10.4s, v23.4s, #5
	shl v30.4s, v23.4s, #30
	add v29.4s, v19.4s, v29.4s
	rev32 v19.16b, v8.16b
	mov v8.16b, v23.16b
	ld1 {v11.s}[2], [x8]
	add x8, x1, #0xf4
	usra v10.4s, v23.4s, #27
	usra v30.4s, v23.4s, #2
	add v29.4s, v29.4s, v5.4s
	bsl v8.16b, v9.16b, v21.16b
	add v31.4s, v19.4s, v31.4s
	ld1 {v11.s}[3], [x8]
	add x8, x1, #0x78
	ld1 {v12.s}[1], [x8]
	add x8, x1, #0xb8
	eor v6.16b, v6.16b, v19.16b
	add v10.4s, v29.4s, v10.4s
	add v31.4s, v31.4s, v8.4s
	rev32 v29.16b, v11.16b
	ld1 {v12.s}[2], [x8]
	add x8, x1, #0xf8
	shl v8.4s, v10.4s, #5
	mov v11.16b, v10.16b
	add v23.4s, v31.4s, v5.4s
	shl v31.4s, v10.4s, #30
	add v21.4s, v29.4s, v21.4s
	ld1 {v12.s}[3], [x8]
	add x8, x1, #0x7c
	usra v8.4s, v10.4s, #27
	bsl v11.16b, v30.16b, v9.16b
	ld1 {v13.s}[1], [x8]
	usra v31.4s, v10.4s, #2
	add x8, x1, #0xbc
	eor v25.16b, v25.16b, v29.16b
	add v14.4s, v23.4s, v8.4s
	ld1 {v13.s}[2], [x8]
	add x8, x1, #0xfc
	add v23.4s, v21.4s, v11.4s
	rev32 v21.16b, v12.16b
	eor v12.16b, v16.16b, v29.16b
	eor v16.16b, v17.16b, v16.16b
	shl v8.4s, v14.4s, #5
	mov v10.16b, v14.16b
	ld1 {v13.s}[3], [x8]
	add v23.4s, v23.4s, v5.4s
	eor v12.16b, v20.16b, v12.16b
	mov w8, #0xeba1
	add v9.4s, v21.4s, v9.4s
	movk w8, #0x6ed9, lsl #16
	eor v7.16b, v7.16b, v21.16b
	usra v8.4s, v14.4s, #27
	bsl v10.16b, v31.16b, v30.16b
	add v20.4s, v12.4s, v12.4s
	add v11.4s, v23.4s, v8.4s
	shl v8.4s, v14.4s, #30
	rev32 v23.16b, v13.16b
	add v9.4s, v9.4s, v10.4s
	usra v20.4s, v12.4s, #31
	shl v10.4s, v11.4s, #5
	usra v8.4s, v14.4s, #2
	mov v13.16b, v11.16b
	add v9.4s, v9.4s, v5.4s
	add v14.4s, v23.4s, v30.4s
	shl v30.4s, v11.4s, #30
	eor v26.16b, v26.16b, v23.16b
	eor v16.16b, v16.16b, v20.16b
	usra v10.4s, v11.4s, #27
	bsl v13.16b, v8.16b, v31.16b
	usra v30.4s, v11.4s, #2
	eor v11.16b, v27.16b, v21.16b
	eor v27.16b, v28.16b, v27.16b
	eor v28.16b, v29.16b, v28.16b
	eor v29.16b, v23.16b, v29.16b
	add v9.4s, v9.4s, v10.4s
	add v10.4s, v14.4s, v13.4s
	eor v11.16b, v22.16b, v11.16b
	add v14.4s, v20.4s, v31.4s
	shl v13.4s, v9.4s, #5
	mov v12.16b, v9.16b
	shl v31.4s, v9.4s, #30
	add v10.4s, v10.4s, v5.4s
	add v22.4s, v11.4s, v11.4s
	usra v13.4s, v9.4s, #27
	bsl v12.16b, v30.16b, v8.16b
	usra v31.4s, v9.4s, #2
	usra v22.4s, v11.4s, #31
	eor v9.16b, v17.16b, v23.16b
	eor v17.16b, v19.16b, v17.16b
	eor v19.16b, v21.16b, v19.16b
	eor v21.16b, v21.16b, v20.16b
	add v10.4s, v10.4s, v13.4s
	add v12.4s, v14.4s, v12.4s
	eor v9.16b, v18.16b, v9.16b
	add v14.4s, v22.4s, v8.4s
	eor v27.16b, v27.16b, v22.16b
	eor v23.16b, v23.16b, v22.16b
	shl v13.4s, v10.4s, #5
	shl v8.4s, v10.4s, #30
	add v11.4s, v12.4s, v5.4s
	mov v12.16b, v10.16b
	add v18.4s, v9.4s, v9.4s
	usra v13.4s, v10.4s, #27
	usra v8.4s, v10.4s, #2
	bsl v12.16b, v31.16b, v30.16b
	usra v18.4s, v9.4s, #31
	add v11.4s, v11.4s, v13.4s
	add v30.4s, v18.4s, v30.4s
	eor v17.16b, v17.16b, v18.16b
	add v12.4s, v14.4s, v12.4s
	shl v13.4s, v11.4s, #5
	mov v10.16b, v11.16b
	add v9.4s, v12.4s, v5.4s
	eor v12.16b, v24.16b, v20.16b
	eor v20.16b, v18.16b, v20.16b
	usra v13.4s, v11.4s, #27
	bsl v10.16b, v8.16b, v31.16b
	add v24.4s, v12.4s, v12.4s
	add v13.4s, v9.4s, v13.4s
	shl v9.4s, v11.4s, #30
	add v30.4s, v30.4s, v10.4s
	usra v24.4s, v12.4s, #31
	eor v12.16b, v6.16b, v22.16b
	shl v10.4s, v13.4s, #5
	usra v9.4s, v11.4s, #2
	mov v14.16b, v13.16b
	add v11.4s, v30.4s, v5.4s
	shl v30.4s, v13.4s, #30
	add v31.4s, v24.4s, v31.4s
	add v6.4s, v12.4s, v12.4s
	eor v28.16b, v28.16b, v24.16b
	usra v10.4s, v13.4s, #27
	bsl v14.16b, v9.16b, v8.16b
	eor v22.16b, v22.16b, v24.16b
	usra v30.4s, v13.4s, #2
	usra v6.4s, v12.4s, #31
	add v10.4s, v11.4s, v10.4s
	add v31.4s, v31.4s, v14.4s
	eor v12.16b, v30.16b, v9.16b
	add v13.4s, v6.4s, v8.4s
	eor v19.16b, v19.16b, v6.16b
	shl v11.4s, v10.4s, #5
	shl v8.4s, v10.4s, #30
	add v5.4s, v31.4s, v5.4s
	eor v31.16b, v25.16b, v18.16b
	eor v12.16b, v12.16b, v10.16b
	eor v18.16b, v18.16b, v6.16b
	usra v11.4s, v10.4s, #27
	usra v8.4s, v10.4s, #2
	add v25.4s, v31.4s, v31.4s
	add v10.4s, v13.4s, v12.4s
	eor v13.16b, v7.16b, v24.16b
	add v11.4s, v5.4s, v11.4s
	dup v5.4s, w8
	mov w8, #0xbcdc
	usra v25.4s, v31.4s, #31
	eor v31.16b, v8.16b, v30.16b
	add v7.4s, v13.4s, v13.4s
	movk w8, #0x8f1b, lsl #16
	shl v12.4s, v11.4s, #5
	add v10.4s, v10.4s, v5.4s
	add v9.4s, v25.4s, v9.4s
	eor v14.16b, v31.16b, v11.16b
	shl v31.4s, v11.4s, #30
	usra v7.4s, v13.4s, #31
	eor v13.16b, v26.16b, v6.16b
	eor v29.16b, v29.16b, v25.16b
	usra v12.4s, v11.4s, #27
	eor v24.16b, v25.16b, v24.16b
	add v9.4s, v9.4s, v14.4s
	usra v31.4s, v11.4s, #2
	add v30.4s, v7.4s, v30.4s
	add v26.4s, v13.4s, v13.4s
	eor v21.16b, v21.16b, v7.16b
	add v10.4s, v10.4s, v12.4s
	eor v6.16b, v6.16b, v7.16b
	add v12.4s, v9.4s, v5.4s
	eor v9.16b, v31.16b, v8.16b
	usra v26.4s, v13.4s, #31
	shl v11.4s, v10.4s, #5
	eor v14.16b, v9.16b, v10.16b
	shl v9.4s, v10.4s, #30
	add v8.4s, v26.4s, v8.4s
	eor v23.16b, v23.16b, v26.16b
	usra v11.4s, v10.4s, #27
	usra v9.4s, v10.4s, #2
	add v30.4s, v30.4s, v14.4s
	eor v14.16b, v16.16b, v25.16b
	eor v25.16b, v25.16b, v26.16b
	add v11.4s, v12.4s, v11.4s
	eor v12.16b, v9.16b, v31.16b
	add v13.4s, v30.4s, v5.4s
	add v16.4s, v14.4s, v14.4s
	shl v10.4s, v11.4s, #5
	shl v30.4s, v11.4s, #30
	eor v12.16b, v12.16b, v11.16b
	usra v16.4s, v14.4s, #31
	usra v10.4s, v11.4s, #27
	usra v30.4s, v11.4s, #2
	add v8.4s, v8.4s, v12.4s
	add v31.4s, v16.4s, v31.4s
	eor v20.16b, v20.16b, v16.16b
	add v10.4s, v13.4s, v10.4s
	eor v13.16b, v27.16b, v7.16b
	eor v7.16b, v16.16b, v7.16b
	add v12.4s, v8.4s, v5.4s
	eor v8.16b, v30.16b, v9.16b
	shl v11.4s, v10.4s, #5
	add v27.4s, v13.4s, v13.4s
	eor v14.16b, v8.16b, v10.16b
	shl v8.4s, v10.4s, #30
	usra v11.4s, v10.4s, #27
	usra v27.4s, v13.4s, #31
	usra v8.4s, v10.4s, #2
	add v31.4s, v31.4s, v14.4s
	eor v14.16b, v17.16b, v26.16b
	add v11.4s, v12.4s, v11.4s
	add v9.4s, v27.4s, v9.4s
	eor v22.16b, v22.16b, v27.16b
	eor v12.16b, v8.16b, v30.16b
	add v13.4s, v31.4s, v5.4s
	add v17.4s, v14.4s, v14.4s
	eor v26.16b, v26.16b, v27.16b
	shl v10.4s, v11.4s, #5
	shl v31.4s, v11.4s, #30
	eor v12.16b, v12.16b, v11.16b
	usra v17.4s, v14.4s, #31
	usra v10.4s, v11.4s, #27
	usra v31.4s, v11.4s, #2
	add v9.4s, v9.4s, v12.4s
	add v30.4s, v17.4s, v30.4s
	eor v18.16b, v18.16b, v17.16b
	add v10.4s, v13.4s, v10.4s
	eor v13.16b, v28.16b, v16.16b
	eor v16.16b, v16.16b, v17.16b
	add v12.4s, v9.4s, v5.4s
	eor v9.16b, v31.16b, v8.16b
	shl v11.4s, v10.4s, #5
	add v28.4s, v13.4s, v13.4s
	eor v14.16b, v9.16b, v10.16b
	shl v9.4s, v10.4s, #30
	usra v11.4s, v10.4s, #27
	usra v28.4s, v13.4s, #31
	usra v9.4s, v10.4s, #2
	add v30.4s, v30.4s, v14.4s
	eor v14.16b, v19.16b, v27.16b
	add v11.4s, v12.4s, v11.4s
	add v8.4s, v28.4s, v8.4s
	eor v24.16b, v24.16b, v28.16b
	eor v12.16b, v9.16b, v31.16b
	add v13.4s, v30.4s, v5.4s
	add v19.4s, v14.4s, v14.4s
	eor v27.16b, v28.16b, v27.16b
	shl v10.4s, v11.4s, #5
	shl v30.4s, v11.4s, #30
	eor v12.16b, v12.16b, v11.16b
	usra v19.4s, v14.4s, #31
	usra v10.4s, v11.4s, #27
	usra v30.4s, v11.4s, #2
	add v8.4s, v8.4s, v12.4s
	add v31.4s, v19.4s, v31.4s
	eor v23.16b, v23.16b, v19.16b
	eor v6.16b, v6.16b, v19.16b
	add v10.4s, v13.4s, v10.4s
	eor v13.16b, v29.16b, v17.16b
	add v12.4s, v8.4s, v5.4s
	eor v8.16b, v30.16b, v9.16b
	shl v11.4s, v10.4s, #5
	add v29.4s, v13.4s, v13.4s
	eor v14.16b, v8.16b, v10.16b
	shl v8.4s, v10.4s, #30
	usra v11.4s, v10.4s, #27
	usra v29.4s, v13.4s, #31
	usra v8.4s, v10.4s, #2
	add v31.4s, v31.4s, v14.4s
	eor v14.16b, v21.16b, v28.16b
	add v11.4s, v12.4s, v11.4s
	add v9.4s, v29.4s, v9.4s
	eor v25.16b, v25.16b, v29.16b
	eor v12.16b, v8.16b, v30.16b
	add v13.4s, v31.4s, v5.4s
	add v21.4s, v14.4s, v14.4s
	shl v10.4s, v11.4s, #5
	shl v31.4s, v11.4s, #30
	eor v12.16b, v12.16b, v11.16b
	usra v21.4s, v14.4s, #31
	usra v10.4s, v11.4s, #27
	usra v31.4s, v11.4s, #2
	add v9.4s, v9.4s, v12.4s
	eor v22.16b, v22.16b, v21.16b
	eor v7.16b, v7.16b, v21.16b
	add v10.4s, v13.4s, v10.4s
	add v13.4s, v21.4s, v30.4s
	add v30.4s, v23.4s, v23.4s
	add v12.4s, v9.4s, v5.4s
	eor v9.16b, v31.16b, v8.16b
	shl v11.4s, v10.4s, #5
	usra v30.4s, v23.4s, #31
	eor v14.16b, v9.16b, v10.16b
	shl v9.4s, v10.4s, #30
	usra v11.4s, v10.4s, #27
	add v8.4s, v30.4s, v8.4s
	eor v26.16b, v26.16b, v30.16b
	usra v9.4s, v10.4s, #2
	add v10.4s, v13.4s, v14.4s
	eor v13.16b, v20.16b, v29.16b
	add v11.4s, v12.4s, v11.4s
	eor v23.16b, v9.16b, v31.16b
	add v10.4s, v10.4s, v5.4s
	add v20.4s, v13.4s, v13.4s
	shl v12.4s, v11.4s, #5
	eor v14.16b, v23.16b, v11.16b
	shl v23.4s, v11.4s, #30
	usra v20.4s, v13.4s, #31
	usra v12.4s, v11.4s, #27
	add v8.4s, v8.4s, v14.4s
	usra v23.4s, v11.4s, #2
	add v13.4s, v20.4s, v31.4s
	add v31.4s, v22.4s, v22.4s
	eor v16.16b, v16.16b, v20.16b
	add v12.4s, v10.4s, v12.4s
	add v8.4s, v8.4s, v5.4s
	eor v10.16b, v23.16b, v9.16b
	usra v31.4s, v22.4s, #31
	shl v11.4s, v12.4s, #5
	eor v14.16b, v10.16b, v12.16b
	shl v10.4s, v12.4s, #30
	add v9.4s, v31.4s, v9.4s
	eor v27.16b, v27.16b, v31.16b
	usra v11.4s, v12.4s, #27
	usra v10.4s, v12.4s, #2
	add v8.4s, v8.4s, v11.4s
	add v11.4s, v13.4s, v14.4s
	eor v13.16b, v18.16b, v30.16b
	eor v22.16b, v10.16b, v23.16b
	shl v12.4s, v8.4s, #5
	add v11.4s, v11.4s, v5.4s
	add v18.4s, v13.4s, v13.4s
	eor v14.16b, v22.16b, v8.16b
	shl v22.4s, v8.4s, #30
	usra v12.4s, v8.4s, #27
	usra v18.4s, v13.4s, #31
	eor v13.16b, v24.16b, v20.16b
	add v9.4s, v9.4s, v14.4s
	usra v22.4s, v8.4s, #2
	eor v14.16b, v6.16b, v31.16b
	add v11.4s, v11.4s, v12.4s
	add v23.4s, v18.4s, v23.4s
	add v9.4s, v9.4s, v5.4s
	eor v12.16b, v22.16b, v10.16b
	add v6.4s, v14.4s, v14.4s
	shl v8.4s, v11.4s, #5
	shl v24.4s, v11.4s, #30
	eor v12.16b, v12.16b, v11.16b
	usra v6.4s, v14.4s, #31
	usra v8.4s, v11.4s, #27
	usra v24.4s, v11.4s, #2
	add v23.4s, v23.4s, v12.4s
	add v14.4s, v6.4s, v22.4s
	add v9.4s, v9.4s, v8.4s
	add v8.4s, v13.4s, v13.4s
	eor v12.16b, v24.16b, v22.16b
	shl v11.4s, v9.4s, #5
	usra v8.4s, v13.4s, #31
	add v13.4s, v23.4s, v5.4s
	eor v12.16b, v12.16b, v9.16b
	shl v23.4s, v9.4s, #30
	usra v11.4s, v9.4s, #27
	add v10.4s, v8.4s, v10.4s
	usra v23.4s, v9.4s, #2
	add v11.4s, v13.4s, v11.4s
	add v10.4s, v10.4s, v12.4s
	eor v13.16b, v25.16b, v18.16b
	eor v12.16b, v23.16b, v24.16b
	shl v9.4s, v11.4s, #5
	add v10.4s, v10.4s, v5.4s
	shl v22.4s, v11.4s, #30
	eor v12.16b, v12.16b, v11.16b
	add v25.4s, v13.4s, v13.4s
	usra v9.4s, v11.4s, #27
	usra v22.4s, v11.4s, #2
	usra v25.4s, v13.4s, #31
	add v10.4s, v10.4s, v9.4s
	add v9.4s, v14.4s, v12.4s
	eor v12.16b, v22.16b, v23.16b
	eor v14.16b, v7.16b, v8.16b
	add v24.4s, v25.4s, v24.4s
	shl v11.4s, v10.4s, #5
	add v13.4s, v9.4s, v5.4s
	eor v12.16b, v12.16b, v10.16b
	shl v9.4s, v10.4s, #30
	add v7.4s, v14.4s, v14.4s
	usra v11.4s, v10.4s, #27
	add v24.4s, v24.4s, v12.4s
	usra v9.4s, v10.4s, #2
	usra v7.4s, v14.4s, #31
	add v11.4s, v13.4s, v11.4s
	add v24.4s, v24.4s, v5.4s
	eor v13.16b, v26.16b, v6.16b
	eor v12.16b, v9.16b, v22.16b
	add v14.4s, v7.4s, v23.4s
	eor v27.16b, v27.16b, v7.16b
	shl v10.4s, v11.4s, #5
	shl v23.4s, v11.4s, #30
	add v26.4s, v13.4s, v13.4s
	eor v12.16b, v12.16b, v11.16b
	usra v10.4s, v11.4s, #27
	usra v23.4s, v11.4s, #2
	usra v26.4s, v13.4s, #31
	add v10.4s, v24.4s, v10.4s
	add v24.4s, v14.4s, v12.4s
	eor v12.16b, v23.16b, v9.16b
	eor v14.16b, v16.16b, v25.16b
	add v22.4s, v26.4s, v22.4s
	shl v11.4s, v10.4s, #5
	add v13.4s, v24.4s, v5.4s
	shl v24.4s, v10.4s, #30
	eor v12.16b, v12.16b, v10.16b
	add v16.4s, v14.4s, v14.4s
	usra v11.4s, v10.4s, #27
	usra v24.4s, v10.4s, #2
	add v22.4s, v22.4s, v12.4s
	usra v16.4s, v14.4s, #31
	add v11.4s, v13.4s, v11.4s
	eor v12.16b, v24.16b, v23.16b
	add v5.4s, v22.4s, v5.4s
	add v9.4s, v16.4s, v9.4s
	shl v10.4s, v11.4s, #5
	shl v22.4s, v11.4s, #30
	bsl v12.16b, v11.16b, v24.16b
	usra v10.4s, v11.4s, #27
	usra v22.4s, v11.4s, #2
	add v9.4s, v9.4s, v12.4s
	add v13.4s, v5.4s, v10.4s
	eor v10.16b, v17.16b, v19.16b
	dup v5.4s, w8
	add v17.4s, v27.4s, v27.4s
	eor v19.16b, v21.16b, v19.16b
	eor v21.16b, v21.16b, v20.16b
	eor v20.16b, v20.16b, v18.16b
	mov w8, #0xc1d6
	shl v11.4s, v13.4s, #5
	eor v12.16b, v10.16b, v18.16b
	eor v10.16b, v22.16b, v24.16b
	usra v17.4s, v27.4s, #31
	add v27.4s, v9.4s, v5.4s
	eor v19.16b, v19.16b, v6.16b
	eor v21.16b, v21.16b, v7.16b
	eor v20.16b, v20.16b, v16.16b
	eor v18.16b, v6.16b, v18.16b
	usra v11.4s, v13.4s, #27
	mov v9.16b, v10.16b
	shl v10.4s, v13.4s, #30
	eor v12.16b, v12.16b, v26.16b
	add v14.4s, v17.4s, v23.4s
	eor v19.16b, v19.16b, v17.16b
	eor v6.16b, v6.16b, v7.16b
	eor v7.16b, v7.16b, v16.16b
	movk w8, #0xca62, lsl #16
	bsl v9.16b, v13.16b, v22.16b
	add v11.4s, v27.4s, v11.4s
	eor v27.16b, v28.16b, v29.16b
	usra v10.4s, v13.4s, #2
	add v23.4s, v12.4s, v12.4s
	eor v29.16b, v29.16b, v30.16b
	eor v30.16b, v31.16b, v30.16b
	eor v31.16b, v31.16b, v8.16b
	eor v13.16b, v27.16b, v8.16b
	eor v8.16b, v8.16b, v25.16b
	eor v27.16b, v10.16b, v22.16b
	add v28.4s, v14.4s, v9.4s
	shl v9.4s, v11.4s, #5
	usra v23.4s, v12.4s, #31
	eor v29.16b, v29.16b, v25.16b
	eor v30.16b, v30.16b, v26.16b
	eor v13.16b, v13.16b, v16.16b
	eor v31.16b, v31.16b, v17.16b
	eor v25.16b, v26.16b, v25.16b
	mov v12.16b, v27.16b
	shl v27.4s, v11.4s, #30
	add v28.4s, v28.4s, v5.4s
	usra v9.4s, v11.4s, #27
	add v24.4s, v23.4s, v24.4s
	eor v29.16b, v29.16b, v23.16b
	eor v18.16b, v18.16b, v23.16b
	eor v26.16b, v26.16b, v17.16b
	eor v16.16b, v23.16b, v16.16b
	bsl v12.16b, v11.16b, v10.16b
	usra v27.4s, v11.4s, #2
	add v14.4s, v28.4s, v9.4s
	add v9.4s, v13.4s, v13.4s
	eor v28.16b, v27.16b, v10.16b
	add v24.4s, v24.4s, v12.4s
	shl v11.4s, v14.4s, #5
	usra v9.4s, v13.4s, #31
	mov v12.16b, v28.16b
	shl v28.4s, v14.4s, #30
	add v24.4s, v24.4s, v5.4s
	usra v11.4s, v14.4s, #27
	add v22.4s, v9.4s, v22.4s
	eor v21.16b, v21.16b, v9.16b
	eor v8.16b, v8.16b, v9.16b
	bsl v12.16b, v14.16b, v27.16b
	usra v28.4s, v14.4s, #2
	add v11.4s, v24.4s, v11.4s
	add v24.4s, v19.4s, v19.4s
	eor v13.16b, v28.16b, v27.16b
	add v22.4s, v22.4s, v12.4s
	shl v12.4s, v11.4s, #5
	usra v24.4s, v19.4s, #31
	shl v19.4s, v11.4s, #30
	bsl v13.16b, v11.16b, v28.16b
	add v22.4s, v22.4s, v5.4s
	usra v12.4s, v11.4s, #27
	add v14.4s, v24.4s, v10.4s
	usra v19.4s, v11.4s, #2
	add v10.4s, v29.4s, v29.4s
	eor v6.16b, v6.16b, v24.16b
	eor v23.16b, v23.16b, v24.16b
	add v22.4s, v22.4s, v12.4s
	add v11.4s, v14.4s, v13.4s
	eor v14.16b, v30.16b, v24.16b
	eor v13.16b, v19.16b, v28.16b
	usra v10.4s, v29.4s, #31
	shl v12.4s, v22.4s, #5
	add v11.4s, v11.4s, v5.4s
	shl v29.4s, v22.4s, #30
	bsl v13.16b, v22.16b, v19.16b
	add v27.4s, v10.4s, v27.4s
	add v30.4s, v14.4s, v14.4s
	eor v20.16b, v20.16b, v10.16b
	eor v25.16b, v25.16b, v10.16b
	usra v12.4s, v22.4s, #27
	usra v29.4s, v22.4s, #2
	add v22.4s, v21.4s, v21.4s
	usra v30.4s, v14.4s, #31
	add v27.4s, v27.4s, v13.4s
	add v11.4s, v11.4s, v12.4s
	eor v13.16b, v29.16b, v19.16b
	usra v22.4s, v21.4s, #31
	add v19.4s, v30.4s, v19.4s
	eor v18.16b, v18.16b, v30.16b
	eor v26.16b, v26.16b, v30.16b
	add v21.4s, v27.4s, v5.4s
	shl v12.4s, v11.4s, #5
	bsl v13.16b, v11.16b, v29.16b
	shl v27.4s, v11.4s, #30
	add v28.4s, v22.4s, v28.4s
	eor v31.16b, v31.16b, v22.16b
	eor v7.16b, v7.16b, v22.16b
	eor v24.16b, v24.16b, v22.16b
	usra v12.4s, v11.4s, #27
	usra v27.4s, v11.4s, #2
	add v28.4s, v28.4s, v13.4s
	add v21.4s, v21.4s, v12.4s
	eor v12.16b, v27.16b, v29.16b
	add v13.4s, v28.4s, v5.4s
	shl v11.4s, v21.4s, #5
	bsl v12.16b, v21.16b, v27.16b
	shl v28.4s, v21.4s, #30
	usra v11.4s, v21.4s, #27
	usra v28.4s, v21.4s, #2
	add v21.4s, v20.4s, v20.4s
	add v19.4s, v19.4s, v12.4s
	add v11.4s, v13.4s, v11.4s
	eor v13.16b, v28.16b, v27.16b
	usra v21.4s, v20.4s, #31
	add v20.4s, v19.4s, v5.4s
	shl v12.4s, v11.4s, #5
	bsl v13.16b, v11.16b, v28.16b
	shl v19.4s, v11.4s, #30
	add v14.4s, v21.4s, v29.4s
	add v29.4s, v31.4s, v31.4s
	eor v8.16b, v8.16b, v21.16b
	eor v16.16b, v16.16b, v21.16b
	usra v12.4s, v11.4s, #27
	usra v19.4s, v11.4s, #2
	add v11.4s, v14.4s, v13.4s
	usra v29.4s, v31.4s, #31
	add v20.4s, v20.4s, v12.4s
	eor v13.16b, v19.16b, v28.16b
	add v11.4s, v11.4s, v5.4s
	add v27.4s, v29.4s, v27.4s
	eor v6.16b, v6.16b, v29.16b
	shl v12.4s, v20.4s, #5
	bsl v13.16b, v20.16b, v19.16b
	shl v31.4s, v20.4s, #30
	usra v12.4s, v20.4s, #27
	usra v31.4s, v20.4s, #2
	add v20.4s, v18.4s, v18.4s
	add v27.4s, v27.4s, v13.4s
	add v11.4s, v11.4s, v12.4s
	eor v13.16b, v31.16b, v19.16b
	usra v20.4s, v18.4s, #31
	add v27.4s, v27.4s, v5.4s
	shl v12.4s, v11.4s, #5
	bsl v13.16b, v11.16b, v31.16b
	shl v18.4s, v11.4s, #30
	add v14.4s, v20.4s, v28.4s
	add v28.4s, v8.4s, v8.4s
	eor v25.16b, v25.16b, v20.16b
	eor v23.16b, v23.16b, v20.16b
	usra v12.4s, v11.4s, #27
	usra v18.4s, v11.4s, #2
	add v11.4s, v14.4s, v13.4s
	usra v28.4s, v8.4s, #31
	add v27.4s, v27.4s, v12.4s
	eor v13.16b, v18.16b, v31.16b
	add v11.4s, v11.4s, v5.4s
	add v14.4s, v28.4s, v19.4s
	add v19.4s, v6.4s, v6.4s
	eor v7.16b, v7.16b, v28.16b
	shl v12.4s, v27.4s, #5
	bsl v13.16b, v27.16b, v18.16b
	shl v8.4s, v27.4s, #30
	usra v19.4s, v6.4s, #31
	usra v12.4s, v27.4s, #27
	usra v8.4s, v27.4s, #2
	add v27.4s, v14.4s, v13.4s
	add v31.4s, v19.4s, v31.4s
	eor v24.16b, v24.16b, v19.16b
	add v11.4s, v11.4s, v12.4s
	eor v13.16b, v8.16b, v18.16b
	add v27.4s, v27.4s, v5.4s
	shl v12.4s, v11.4s, #5
	bsl v13.16b, v11.16b, v8.16b
	shl v6.4s, v11.4s, #30
	usra v12.4s, v11.4s, #27
	usra v6.4s, v11.4s, #2
	add v31.4s, v31.4s, v13.4s
	add v12.4s, v27.4s, v12.4s
	add v27.4s, v25.4s, v25.4s
	eor v13.16b, v6.16b, v8.16b
	add v31.4s, v31.4s, v5.4s
	shl v11.4s, v12.4s, #5
	usra v27.4s, v25.4s, #31
	bsl v13.16b, v12.16b, v6.16b
	shl v25.4s, v12.4s, #30
	usra v11.4s, v12.4s, #27
	add v14.4s, v27.4s, v18.4s
	add v18.4s, v7.4s, v7.4s
	usra v25.4s, v12.4s, #2
	eor v16.16b, v16.16b, v27.16b
	add v31.4s, v31.4s, v11.4s
	add v11.4s, v14.4s, v13.4s
	usra v18.4s, v7.4s, #31
	eor v13.16b, v25.16b, v6.16b
	eor v14.16b, v26.16b, v19.16b
	shl v12.4s, v31.4s, #5
	add v11.4s, v11.4s, v5.4s
	shl v7.4s, v31.4s, #30
	bsl v13.16b, v31.16b, v25.16b
	add v8.4s, v18.4s, v8.4s
	add v26.4s, v14.4s, v14.4s
	usra v12.4s, v31.4s, #27
	usra v7.4s, v31.4s, #2
	usra v26.4s, v14.4s, #31
	add v31.4s, v8.4s, v13.4s
	add v11.4s, v11.4s, v12.4s
	eor v12.16b, v7.16b, v25.16b
	add v6.4s, v26.4s, v6.4s
	eor v23.16b, v23.16b, v26.16b
	add v13.4s, v31.4s, v5.4s
	shl v8.4s, v11.4s, #5
	bsl v12.16b, v11.16b, v7.16b
	shl v31.4s, v11.4s, #30
	usra v8.4s, v11.4s, #27
	usra v31.4s, v11.4s, #2
	add v6.4s, v6.4s, v12.4s
	add v8.4s, v13.4s, v8.4s
	eor v13.16b, v17.16b, v9.16b
	add v17.4s, v16.4s, v16.4s
	eor v9.16b, v10.16b, v9.16b
	eor v10.16b, v10.16b, v30.16b
	eor v30.16b, v30.16b, v29.16b
	shl v11.4s, v8.4s, #5
	eor v12.16b, v13.16b, v29.16b
	eor v13.16b, v31.16b, v7.16b
	usra v17.4s, v16.4s, #31
	add v16.4s, v6.4s, v5.4s
	shl v6.4s, v8.4s, #30
	eor v9.16b, v9.16b, v28.16b
	eor v10.16b, v10.16b, v27.16b
	eor v30.16b, v30.16b, v26.16b
	usra v11.4s, v8.4s, #27
	bsl v13.16b, v8.16b, v31.16b
	eor v12.16b, v12.16b, v18.16b
	add v14.4s, v17.4s, v25.4s
	usra v6.4s, v8.4s, #2
	eor v29.16b, v28.16b, v29.16b
	eor v9.16b, v9.16b, v17.16b
	add v16.4s, v16.4s, v11.4s
	add v25.4s, v12.4s, v12.4s
	add v8.4s, v14.4s, v13.4s
	eor v13.16b, v6.16b, v31.16b
	shl v11.4s, v16.4s, #5
	usra v25.4s, v12.4s, #31
	add v12.4s, v8.4s, v5.4s
	bsl v13.16b, v16.16b, v6.16b
	shl v8.4s, v16.4s, #30
	usra v11.4s, v16.4s, #27
	add v7.4s, v25.4s, v7.4s
	eor v29.16b, v29.16b, v25.16b
	usra v8.4s, v16.4s, #2
	add v16.4s, v23.4s, v23.4s
	add v11.4s, v12.4s, v11.4s
	add v7.4s, v7.4s, v13.4s
	eor v13.16b, v8.16b, v6.16b
	usra v16.4s, v23.4s, #31
	shl v12.4s, v11.4s, #5
	add v23.4s, v7.4s, v5.4s
	shl v7.4s, v11.4s, #30
	bsl v13.16b, v11.16b, v8.16b
	add v31.4s, v16.4s, v31.4s
	eor v10.16b, v10.16b, v16.16b
	usra v12.4s, v11.4s, #27
	usra v7.4s, v11.4s, #2
	add v31.4s, v31.4s, v13.4s
	add v12.4s, v23.4s, v12.4s
	add v23.4s, v9.4s, v9.4s
	eor v13.16b, v7.16b, v8.16b
	add v31.4s, v31.4s, v5.4s
	shl v11.4s, v12.4s, #5
	usra v23.4s, v9.4s, #31
	bsl v13.16b, v12.16b, v7.16b
	eor v9.16b, v24.16b, v25.16b
	shl v24.4s, v12.4s, #30
	usra v11.4s, v12.4s, #27
	add v14.4s, v23.4s, v6.4s
	add v6.4s, v9.4s, v9.4s
	usra v24.4s, v12.4s, #2
	add v31.4s, v31.4s, v11.4s
	add v11.4s, v14.4s, v13.4s
	eor v13.16b, v21.16b, v22.16b
	usra v6.4s, v9.4s, #31
	eor v9.16b, v24.16b, v7.16b
	add v22.4s, v10.4s, v10.4s
	shl v12.4s, v31.4s, #5
	add v5.4s, v11.4s, v5.4s
	add v11.4s, v6.4s, v8.4s
	eor v9.16b, v9.16b, v31.16b
	shl v8.4s, v31.4s, #30
	usra v22.4s, v10.4s, #31
	eor v30.16b, v30.16b, v6.16b
	usra v12.4s, v31.4s, #27
	usra v8.4s, v31.4s, #2
	add v31.4s, v11.4s, v9.4s
	eor v11.16b, v13.16b, v18.16b
	add v14.4s, v22.4s, v7.4s
	add v12.4s, v5.4s, v12.4s
	dup v5.4s, w8
	eor v10.16b, v8.16b, v24.16b
	eor v11.16b, v11.16b, v23.16b
	shl v9.4s, v12.4s, #5
	add v13.4s, v31.4s, v5.4s
	shl v31.4s, v12.4s, #30
	eor v10.16b, v10.16b, v12.16b
	add v7.4s, v11.4s, v11.4s
	usra v9.4s, v12.4s, #27
	usra v31.4s, v12.4s, #2
	usra v7.4s, v11.4s, #31
	add v13.4s, v13.4s, v9.4s
	add v9.4s, v14.4s, v10.4s
	add v24.4s, v7.4s, v24.4s
	eor v29.16b, v29.16b, v7.16b
	shl v10.4s, v13.4s, #5
	add v11.4s, v9.4s, v5.4s
	eor v9.16b, v31.16b, v8.16b
	usra v10.4s, v13.4s, #27
	eor v12.16b, v9.16b, v13.16b
	shl v9.4s, v13.4s, #30
	add v10.4s, v11.4s, v10.4s
	eor v11.16b, v21.16b, v20.16b
	add v21.4s, v30.4s, v30.4s
	usra v9.4s, v13.4s, #2
	add v24.4s, v24.4s, v12.4s
	shl v12.4s, v10.4s, #5
	eor v11.16b, v11.16b, v17.16b
	usra v21.4s, v30.4s, #31
	eor v30.16b, v9.16b, v31.16b
	add v24.4s, v24.4s, v5.4s
	usra v12.4s, v10.4s, #27
	eor v11.16b, v11.16b, v22.16b
	add v8.4s, v21.4s, v8.4s
	eor v13.16b, v30.16b, v10.16b
	shl v30.4s, v10.4s, #30
	add v12.4s, v24.4s, v12.4s
	add v24.4s, v11.4s, v11.4s
	add v8.4s, v8.4s, v13.4s
	usra v30.4s, v10.4s, #2
	shl v10.4s, v12.4s, #5
	usra v24.4s, v11.4s, #31
	add v11.4s, v8.4s, v5.4s
	eor v8.16b, v30.16b, v9.16b
	usra v10.4s, v12.4s, #27
	add v31.4s, v24.4s, v31.4s
	eor v13.16b, v8.16b, v12.16b
	shl v8.4s, v12.4s, #30
	add v10.4s, v11.4s, v10.4s
	eor v11.16b, v20.16b, v19.16b
	add v20.4s, v29.4s, v29.4s
	usra v8.4s, v12.4s, #2
	add v31.4s, v31.4s, v13.4s
	eor v19.16b, v18.16b, v19.16b
	eor v18.16b, v18.16b, v17.16b
	shl v12.4s, v10.4s, #5
	eor v11.16b, v11.16b, v16.16b
	usra v20.4s, v29.4s, #31
	eor v29.16b, v8.16b, v30.16b
	add v13.4s, v31.4s, v5.4s
	shl v31.4s, v10.4s, #30
	eor v19.16b, v19.16b, v6.16b
	eor v18.16b, v18.16b, v7.16b
	usra v12.4s, v10.4s, #27
	eor v11.16b, v11.16b, v21.16b
	add v9.4s, v20.4s, v9.4s
	eor v29.16b, v29.16b, v10.16b
	usra v31.4s, v10.4s, #2
	eor v14.16b, v19.16b, v20.16b
	add v12.4s, v13.4s, v12.4s
	eor v13.16b, v28.16b, v27.16b
	add v28.4s, v11.4s, v11.4s
	add v29.4s, v9.4s, v29.4s
	eor v27.16b, v27.16b, v26.16b
	eor v26.16b, v25.16b, v26.16b
	add v19.4s, v14.4s, v14.4s
	eor v25.16b, v25.16b, v23.16b
	shl v10.4s, v12.4s, #5
	eor v9.16b, v13.16b, v23.16b
	usra v28.4s, v11.4s, #31
	add v29.4s, v29.4s, v5.4s
	eor v11.16b, v31.16b, v8.16b
	eor v27.16b, v27.16b, v22.16b
	usra v19.4s, v14.4s, #31
	eor v26.16b, v26.16b, v21.16b
	eor v25.16b, v25.16b, v20.16b
	usra v10.4s, v12.4s, #27
	eor v13.16b, v9.16b, v24.16b
	add v30.4s, v28.4s, v30.4s
	eor v11.16b, v11.16b, v12.16b
	shl v9.4s, v12.4s, #30
	eor v23.16b, v23.16b, v22.16b
	eor v26.16b, v26.16b, v19.16b
	eor v20.16b, v21.16b, v20.16b
	add v10.4s, v29.4s, v10.4s
	add v29.4s, v13.4s, v13.4s
	usra v9.4s, v12.4s, #2
	add v30.4s, v30.4s, v11.4s
	shl v11.4s, v10.4s, #5
	usra v29.4s, v13.4s, #31
	eor v12.16b, v9.16b, v31.16b
	add v13.4s, v30.4s, v5.4s
	shl v30.4s, v10.4s, #30
	add v31.4s, v19.4s, v31.4s
	usra v11.4s, v10.4s, #27
	add v8.4s, v29.4s, v8.4s
	eor v23.16b, v23.16b, v29.16b
	eor v12.16b, v12.16b, v10.16b
	usra v30.4s, v10.4s, #2
	add v11.4s, v13.4s, v11.4s
	eor v13.16b, v27.16b, v28.16b
	add v8.4s, v8.4s, v12.4s
	shl v10.4s, v11.4s, #5
	add v27.4s, v13.4s, v13.4s
	add v12.4s, v8.4s, v5.4s
	eor v8.16b, v30.16b, v9.16b
	usra v10.4s, v11.4s, #27
	usra v27.4s, v13.4s, #31
	eor v14.16b, v8.16b, v11.16b
	shl v8.4s, v11.4s, #30
	add v10.4s, v12.4s, v10.4s
	add v9.4s, v27.4s, v9.4s
	usra v8.4s, v11.4s, #2
	add v31.4s, v31.4s, v14.4s
	eor v14.16b, v18.16b, v29.16b
	shl v11.4s, v10.4s, #5
	eor v12.16b, v8.16b, v30.16b
	add v13.4s, v31.4s, v5.4s
	shl v31.4s, v10.4s, #30
	add v18.4s, v14.4s, v14.4s
	usra v11.4s, v10.4s, #27
	eor v12.16b, v12.16b, v10.16b
	usra v31.4s, v10.4s, #2
	usra v18.4s, v14.4s, #31
	add v11.4s, v13.4s, v11.4s
	add v9.4s, v9.4s, v12.4s
	eor v12.16b, v31.16b, v8.16b
	add v13.4s, v18.4s, v30.4s
	eor v25.16b, v25.16b, v18.16b
	shl v10.4s, v11.4s, #5
	shl v30.4s, v11.4s, #30
	add v9.4s, v9.4s, v5.4s
	eor v12.16b, v12.16b, v11.16b
	usra v10.4s, v11.4s, #27
	usra v30.4s, v11.4s, #2
	add v11.4s, v13.4s, v12.4s
	add v9.4s, v9.4s, v10.4s
	eor v10.16b, v17.16b, v16.16b
	add v17.4s, v26.4s, v26.4s
	add v11.4s, v11.4s, v5.4s
	eor v16.16b, v6.16b, v16.16b
	eor v6.16b, v6.16b, v7.16b
	eor v7.16b, v7.16b, v24.16b
	shl v12.4s, v9.4s, #5
	eor v10.16b, v10.16b, v24.16b
	usra v17.4s, v26.4s, #31
	eor v26.16b, v30.16b, v31.16b
	eor v16.16b, v16.16b, v28.16b
	eor v6.16b, v6.16b, v19.16b
	eor v7.16b, v7.16b, v18.16b
	usra v12.4s, v9.4s, #27
	eor v10.16b, v10.16b, v27.16b
	add v13.4s, v17.4s, v8.4s
	eor v14.16b, v26.16b, v9.16b
	shl v26.4s, v9.4s, #30
	eor v16.16b, v16.16b, v17.16b
	eor v17.16b, v20.16b, v17.16b
	add v11.4s, v11.4s, v12.4s
	add v8.4s, v10.4s, v10.4s
	add v12.4s, v13.4s, v14.4s
	usra v26.4s, v9.4s, #2
	shl v9.4s, v11.4s, #5
	usra v8.4s, v10.4s, #31
	add v10.4s, v12.4s, v5.4s
	eor v12.16b, v26.16b, v30.16b
	usra v9.4s, v11.4s, #27
	add v13.4s, v8.4s, v31.4s
	shl v31.4s, v11.4s, #30
	eor v12.16b, v12.16b, v11.16b
	add v10.4s, v10.4s, v9.4s
	add v9.4s, v25.4s, v25.4s
	usra v31.4s, v11.4s, #2
	add v11.4s, v13.4s, v12.4s
	shl v12.4s, v10.4s, #5
	usra v9.4s, v25.4s, #31
	eor v25.16b, v31.16b, v26.16b
	add v28.4s, v11.4s, v5.4s
	usra v12.4s, v10.4s, #27
	add v30.4s, v9.4s, v30.4s
	eor v11.16b, v25.16b, v10.16b
	shl v25.4s, v10.4s, #30
	add v12.4s, v28.4s, v12.4s
	add v28.4s, v16.4s, v16.4s
	add v30.4s, v30.4s, v11.4s
	usra v25.4s, v10.4s, #2
	shl v10.4s, v12.4s, #5
	usra v28.4s, v16.4s, #31
	add v29.4s, v30.4s, v5.4s
	eor v16.16b, v25.16b, v31.16b
	eor v30.16b, v23.16b, v8.16b
	usra v10.4s, v12.4s, #27
	add v26.4s, v28.4s, v26.4s
	eor v8.16b, v16.16b, v12.16b
	shl v16.4s, v12.4s, #30
	add v23.4s, v30.4s, v30.4s
	add v29.4s, v29.4s, v10.4s
	ldp d11, d10, [sp, #32]
	usra v16.4s, v12.4s, #2
	add v26.4s, v26.4s, v8.4s
	usra v23.4s, v30.4s, #31
	eor v30.16b, v6.16b, v9.16b
	ldp d13, d12, [sp, #16]
	shl v8.4s, v29.4s, #5
	shl v6.4s, v29.4s, #30
	eor v19.16b, v16.16b, v25.16b
	add v26.4s, v26.4s, v5.4s
	add v31.4s, v23.4s, v31.4s
	eor v7.16b, v7.16b, v23.16b
	usra v8.4s, v29.4s, #27
	usra v6.4s, v29.4s, #2
	eor v19.16b, v19.16b, v29.16b
	add v20.4s, v7.4s, v7.4s
	add v26.4s, v26.4s, v8.4s
	eor v8.16b, v21.16b, v22.16b
	add v22.4s, v30.4s, v30.4s
	add v19.4s, v31.4s, v19.4s
	usra v20.4s, v7.4s, #31
	shl v29.4s, v26.4s, #5
	eor v27.16b, v8.16b, v27.16b
	usra v22.4s, v30.4s, #31
	add v30.4s, v19.4s, v5.4s
	eor v19.16b, v6.16b, v16.16b
	ldp d9, d8, [sp, #48]
	usra v29.4s, v26.4s, #27
	eor v27.16b, v27.16b, v28.16b
	add v25.4s, v22.4s, v25.4s
	eor v28.16b, v19.16b, v26.16b
	shl v19.4s, v26.4s, #30
	eor v7.16b, v17.16b, v22.16b
	add v29.4s, v30.4s, v29.4s
	add v24.4s, v27.4s, v27.4s
	usra v19.4s, v26.4s, #2
	add v25.4s, v25.4s, v28.4s
	add v22.4s, v7.4s, v7.4s
	shl v26.4s, v29.4s, #5
	usra v24.4s, v27.4s, #31
	shl v21.4s, v29.4s, #30
	eor v18.16b, v19.16b, v6.16b
	add v25.4s, v25.4s, v5.4s
	add v6.4s, v20.4s, v6.4s
	usra v22.4s, v7.4s, #31
	usra v26.4s, v29.4s, #27
	add v16.4s, v24.4s, v16.4s
	usra v21.4s, v29.4s, #2
	eor v18.16b, v18.16b, v29.16b
	add v3.4s, v3.4s, v22.4s
	add v23.4s, v25.4s, v26.4s
	eor v17.16b, v21.16b, v19.16b
	add v4.4s, v21.4s, v4.4s
	add v16.4s, v16.4s, v18.4s
	add v3.4s, v3.4s, v19.4s
	shl v18.4s, v23.4s, #5
	eor v17.16b, v17.16b, v23.16b
	shl v20.4s, v23.4s, #30
	add v16.4s, v16.4s, v5.4s
	usra v18.4s, v23.4s, #27
	usra v20.4s, v23.4s, #2
	add v6.4s, v6.4s, v17.4s
	add v16.4s, v16.4s, v18.4s
	eor v17.16b, v20.16b, v21.16b
	add v6.4s, v6.4s, v5.4s
	add v2.4s, v20.4s, v2.4s
	shl v7.4s, v16.4s, #5
	eor v17.16b, v17.16b, v16.16b
	stp q2, q4, [x0, #48]
	usra v7.4s, v16.4s, #27
	add v3.4s, v3.4s, v17.4s
	add v6.4s, v6.4s, v7.4s
	shl v7.4s, v16.4s, #30
	add v3.4s, v3.4s, v5.4s
	shl v17.4s, v6.4s, #5
	usra v7.4s, v16.4s, #2
	add v0.4s, v6.4s, v0.4s
	usra v17.4s, v6.4s, #27
	add v1.4s, v7.4s, v1.4s
	add v3.4s, v3.4s, v17.4s
	stp q0, q1, [x0, #16]
	str q3, [x0]
	ldp x8, x9, [x2]
	adds x8, x8, #0x4
	adcs x9, x9, xzr
	csinv x8, x8, xzr, cc
	csinv x9, x9, xzr, cc
	stp x8, x9, [x2]
	ldr d14, [sp], #64
	ret
	SIZE(ring.digest.lanes.algorithms.InVectorSha1RunBlocks64.run_blocks.39d837fb76adf98f, 5124)

	CODE(ring.digest.each.digest_in_lanes.f29589b5fe9bc6cb)
	.p2align 2
/* ring::digest::each::digest_in_lanes::<#f29589b5fe9bc6cb> */
	TYPE(ring.digest.each.digest_in_lanes.f29589b5fe9bc6cb, %function)
ring.digest.each.digest_in_lanes.f29589b5fe9bc6cb:
	stp x29, x30, [sp, #-96]!
	stp x28, x27, [sp, #16]
	mov x29, sp
	stp x26, x25, [sp, #32]
	stp x24, x23, [sp, #48]
	stp x22, x21, [sp, #64]
	stp x20, x19, [sp, #80]
	sub sp, sp, #0x460
	mov x19, x3
	mov x27, x1
	str xzr, [sp]
	stp x2, x0, [sp, #128]
	cbz x1, L(20_0)
	cmp x27, #0x5
	b.cs L(20_1)
	mov x8, xzr
	mov x28, #0xffffffffffffffff
	b L(20_3)
L(20_0):
	mov x28, #0xffffffffffffffff
	b L(20_5)
L(20_1):
	ands x8, x27, #0x3
	mov w9, #0x4
	movi v0.2d, #0xffffffffffffffff
	movi v1.2d, #0xffffffffffffffff
	csel x8, x9, x8, eq
	ldr x9, [sp, #136]
	sub x8, x27, x8
	add x9, x9, #0x28
	mov x10, x8
L(20_2):
	ldur d2, [x9, #-32]
	ldr d3, [x9]
	sub x11, x9, #0x10
	add x12, x9, #0x10
	mov w13, #0x8
	subs x10, x10, #0x4
	ld1 {v2.d}[1], [x11]
	mov w11, #0x1
	ld1 {v3.d}[1], [x12]
	dup v4.2d, x13
	dup v5.2d, x11
	add x9, x9, #0x40
	add v2.2d, v2.2d, v4.2d
	add v3.2d, v3.2d, v4.2d
	mov v4.16b, v5.16b
	usra v4.2d, v2.2d, #6
	usra v5.2d, v3.2d, #6
	cmhi v2.2d, v0.2d, v4.2d
	cmhi v3.2d, v1.2d, v5.2d
	bit v0.16b, v4.16b, v2.16b
	bit v1.16b, v5.16b, v3.16b
	b.ne L(20_2)
	cmhi v2.2d, v1.2d, v0.2d
	bif v0.16b, v1.16b, v2.16b
	ext v1.16b, v0.16b, v0.16b, #8
	cmhi d2, d1, d0
	bif v0.8b, v1.8b, v2.8b
	fmov x28, d0
L(20_3):
	ldr x9, [sp, #136]
	add x9, x9, x8, lsl #4
	sub x8, x27, x8
	add x9, x9, #0x8
L(20_4):
	ldr x10, [x9], #16
	add x10, x10, #0x8
	lsr x10, x10, #6
	add x11, x10, #0x1
	cmp x11, x28
	csinc x28, x28, x10, cs
	subs x8, x8, #0x1
	b.ne L(20_4)
L(20_5):
	mov w8, #0xe667
	movi v4.2d, #0x0
	movk w8, #0x6a09, lsl #16
	dup v0.4s, w8
	mov w8, #0xae85
	movk w8, #0xbb67, lsl #16
	dup v1.4s, w8
	mov w8, #0xf372
	stp q4, q4, [sp, #336]
	movk w8, #0x3c6e, lsl #16
	stp q4, q4, [sp, #368]
	dup v2.4s, w8
	mov w8, #0xf53a
	stp q4, q4, [sp, #400]
	movk w8, #0xa54f, lsl #16
	stp q0, q1, [sp, #144]
	dup v3.4s, w8
	mov w8, #0x527f
	stp q4, q4, [sp, #432]
	movk w8, #0x510e, lsl #16
	stp q4, q4, [sp, #464]
	dup v0.4s, w8
	mov w8, #0x688c
	stp q4, q4, [sp, #496]
	movk w8, #0x9b05, lsl #16
	stp q2, q3, [sp, #176]
	dup v1.4s, w8
	mov w8, #0xd9ab
	stp q4, q4, [sp, #528]
	movk w8, #0x1f83, lsl #16
	stp q4, q4, [sp, #560]
	dup v2.4s, w8
	mov w8, #0xcd19
	stp q4, q4, [sp, #592]
	movk w8, #0x5be0, lsl #16
	stp q0, q1, [sp, #208]
	dup v3.4s, w8
	stp q4, q4, [sp, #624]
	stp q4, q4, [sp, #656]
	stp q4, q4, [sp, #688]
	stp q2, q3, [sp, #240]
	stp q4, q4, [sp, #720]
	stp q4, q4, [sp, #752]
	stp q4, q4, [sp, #784]
	stp q4, q4, [sp, #816]
	cbz x28, L(20_13)
	cbz x27, L(20_12)
	mov x23, xzr
	b L(20_7)
L(20_6):
	add x0, sp, #0x90
	add x1, sp, #0x150
	mov x2, x19
	bl ring.digest.lanes.algorithms.InVectorSha256RunBlocks64.run_blocks.39d837fb76adf98f
	add x23, x23, #0x1
	cmp x23, x28
	b.eq L(20_14)
L(20_7):
	ldr x8, [sp, #136]
	lsl x25, x23, #6
	add x20, sp, #0x150
	mov x26, x27
	add x22, x8, #0x8
	b L(20_10)
L(20_8):
	movi v0.2d, #0x0
	and x9, x4, #0xffffffffffffffc0
	and x2, x4, #0x3f
	add x1, x8, x9
	add x6, sp, #0x350
	mov w0, #0x1
	mov x5, xzr
	add x24, sp, #0x350
	str q0, [sp, #1088]
	str q0, [sp, #1072]
	str q0, [sp, #1056]
	str q0, [sp, #1040]
	stp q0, q0, [sp, #848]
	stp q0, q0, [sp, #880]
	stp q0, q0, [sp, #912]
	stp q0, q0, [sp, #944]
	stp q0, q0, [sp, #976]
	stp q0, q0, [sp, #1008]
	bl ring.digest.block_context.write_tail
	add x8, x24, x21, lsl #6
	ldp q0, q1, [x8]
	stp q0, q1, [x20]
	ldp q0, q2, [x8, #32]
	stp q0, q2, [x20, #32]
L(20_9):
	subs x26, x26, #0x1
	add x22, x22, #0x10
	add x20, x20, #0x40
	b.eq L(20_6)
L(20_10):
	ldp x8, x4, [x22, #-8]
	lsr x9, x4, #6
	subs x21, x23, x9
	b.cs L(20_8)
	add x8, x8, x25
	sub x9, x20, x8
	cmp x9, #0x3f
	b.hi L(20_11)
	ldrb w9, [x8]
	strb w9, [x20]
	ldrb w9, [x8, #1]
	strb w9, [x20, #1]
	ldrb w9, [x8, #2]
	strb w9, [x20, #2]
	ldrb w9, [x8, #3]
	strb w9, [x20, #3]
	ldrb w9, [x8, #4]
	strb w9, [x20, #4]
	ldrb w9, [x8, #5]
	strb w9, [x20, #5]
	ldrb w9, [x8, #6]
	strb w9, [x20, #6]
	ldrb w9, [x8, #7]
	strb w9, [x20, #7]
	ldrb w9, [x8, #8]
	strb w9, [x20, #8]
	ldrb w9, [x8, #9]
	strb w9, [x20, #9]
	ldrb w9, [x8, #10]
	strb w9, [x20, #10]
	ldrb w9, [x8, #11]
	strb w9, [x20, #11]
	ldrb w9, [x8, #12]
	strb w9, [x20, #12]
	ldrb w9, [x8, #13]
	strb w9, [x20, #13]
	ldrb w9, [x8, #14]
	strb w9, [x20, #14]
	ldrb w9, [x8, #15]
	strb w9, [x20, #15]
	ldrb w9, [x8, #16]
	strb w9, [x20, #16]
	ldrb w9, [x8, #17]
	strb w9, [x20, #17]
	ldrb w9, [x8, #18]
	strb w9, [x20, #18]
	ldrb w9, [x8, #19]
	strb w9, [x20, #19]
	ldrb w9, [x8, #20]
	strb w9, [x20, #20]
	ldrb w9, [x8, #21]
	strb w9, [x20, #21]
	ldrb w9, [x8, #22]
	strb w9, [x20, #22]
	ldrb w9, [x8, #23]
	strb w9, [x20, #23]
	ldrb w9, [x8, #24]
	strb w9, [x20, #24]
	ldrb w9, [x8, #25]
	strb w9, [x20, #25]
	ldrb w9, [x8, #26]
	strb w9, [x20, #26]
	ldrb w9, [x8, #27]
	strb w9, [x20, #27]
	ldrb w9, [x8, #28]
	strb w9, [x20, #28]
	ldrb w9, [x8, #29]
	strb w9, [x20, #29]
	ldrb w9, [x8, #30]
	strb w9, [x20, #30]
	ldrb w9, [x8, #31]
	strb w9, [x20, #31]
	ldrb w9, [x8, #32]
	strb w9, [x20, #32]
	ldrb w9, [x8, #33]
	strb w9, [x20, #33]
	ldrb w9, [x8, #34]
	strb w9, [x20, #34]
	ldrb w9, [x8, #35]
	strb w9, [x20, #35]
	ldrb w9, [x8, #36]
	strb w9, [x20, #36]
	ldrb w9, [x8, #37]
	strb w9, [x20, #37]
	ldrb w9, [x8, #38]
	strb w9, [x20, #38]
	ldrb w9, [x8, #39]
	strb w9, [x20, #39]
	ldrb w9, [x8, #40]
	strb w9, [x20, #40]
	ldrb w9, [x8, #41]
	strb w9, [x20, #41]
	ldrb w9, [x8, #42]
	strb w9, [x20, #42]
	ldrb w9, [x8, #43]
	strb w9, [x20, #43]
	ldrb w9, [x8, #44]
	strb w9, [x20, #44]
	ldrb w9, [x8, #45]
	strb w9, [x20, #45]
	ldrb w9, [x8, #46]
	strb w9, [x20, #46]
	ldrb w9, [x8, #47]
	strb w9, [x20, #47]
	ldrb w9, [x8, #48]
	strb w9, [x20, #48]
	ldrb w9, [x8, #49]
	strb w9, [x20, #49]
	ldrb w9, [x8, #50]
	strb w9, [x20, #50]
	ldrb w9, [x8, #51]
	strb w9, [x20, #51]
	ldrb w9, [x8, #52]
	strb w9, [x20, #52]
	ldrb w9, [x8, #53]
	strb w9, [x20, #53]
	ldrb w9, [x8, #54]
	strb w9, [x20, #54]
	ldrb w9, [x8, #55]
	strb w9, [x20, #55]
	ldrb w9, [x8, #56]
	strb w9, [x20, #56]
	ldrb w9, [x8, #57]
	strb w9, [x20, #57]
	ldrb w9, [x8, #58]
	strb w9, [x20, #58]
	ldrb w9, [x8, #59]
	strb w9, [x20, #59]
	ldrb w9, [x8, #60]
	strb w9, [x20, #60]
	ldrb w9, [x8, #61]
	strb w9, [x20, #61]
	ldrb w9, [x8, #62]
	strb w9, [x20, #62]
	ldrb w8, [x8, #63]
	strb w8, [x20, #63]
	b L(20_9)
L(20_11):
	ldp q1, q0, [x8, #32]
	ldp q2, q3, [x8]
	stp q1, q0, [x20, #32]
	stp q2, q3, [x20]
	b L(20_9)
L(20_12):
	add x0, sp, #0x90
	add x1, sp, #0x150
	mov x2, x19
	bl ring.digest.lanes.algorithms.InVectorSha256RunBlocks64.run_blocks.39d837fb76adf98f
	subs x28, x28, #0x1
	b.ne L(20_12)
	b L(20_24)
L(20_13):
	cbz x27, L(20_24)
L(20_14):
	ldr q0, [sp, #208]
	lsl x8, x28, #6
	mov x25, xzr
	str x27, [sp, #24]
	str q0, [sp, #112]
	ldr q0, [sp, #224]
	stp x8, x28, [sp, #8]
	str q0, [sp, #96]
	ldr q0, [sp, #240]
	str q0, [sp, #80]
	ldr q0, [sp, #256]
	str q0, [sp, #64]
	ldr q0, [sp, #192]
	str q0, [sp, #48]
	ldr q0, [sp, #144]
	str q0, [sp, #32]
L(20_15):
	ldr q1, [sp, #32]
	add x8, sp, #0x150
	mov w15, #0x1
	mov x24, x28
	str w15, [sp, #848]
	str q1, [sp, #336]
	ldp q0, q1, [sp, #160]
	ldr w9, [x8, x25, lsl #2]
	str q0, [sp, #336]
	ldr q0, [sp, #48]
	ldr w10, [x8, x25, lsl #2]
	str q1, [sp, #336]
	ldr w11, [x8, x25, lsl #2]
	str q0, [sp, #336]
	ldr q0, [sp, #112]
	ldr w12, [x8, x25, lsl #2]
	str w9, [sp, #852]
	ldr x9, [sp, #136]
	str q0, [sp, #336]
	ldr q0, [sp, #96]
	ldr w13, [x8, x25, lsl #2]
	add x9, x9, x25, lsl #4
	str w10, [sp, #856]
	str q0, [sp, #336]
	ldr q0, [sp, #80]
	ldr w14, [x8, x25, lsl #2]
	ldp x22, x23, [x9]
	str q0, [sp, #336]
	ldr q0, [sp, #64]
	ldr w16, [x8, x25, lsl #2]
	str w11, [sp, #860]
	str q0, [sp, #336]
	movi v0.2d, #0x0
	lsr x20, x23, #6
	ldr w8, [x8, x25, lsl #2]
	str w12, [sp, #864]
	cmp x20, x28
	str w13, [sp, #868]
	str w8, [sp, #880]
	add x8, sp, #0x350
	str w14, [sp, #872]
	str w16, [sp, #876]
	stur q0, [x8, #36]
	stur q0, [x8, #52]
	stur wzr, [x8, #68]
	b.ls L(20_16)
	ldr x8, [sp, #8]
	add x1, sp, #0x350
	mov w0, #0x1
	mov x4, x19
	add x2, x22, x8
	sub x3, x23, x8
	bl ring.digest.block_context.run_blocks
	mov x24, x20
L(20_16):
	add x8, x23, #0x8
	lsr x8, x8, #6
	cmp x24, x8
	b.ls L(20_18)
L(20_17):
	ldrb w8, [sp, #848]
	cmp w8, #0x1
	b.ne L(20_25)
	add x8, sp, #0x350
	movi v2.2d, #0x0
	ldr x9, [sp, #128]
	ldur d0, [x8, #4]
	ldur d1, [x8, #12]
	ldp x28, x27, [sp, #16]
	mov v0.d[1], v1.d[0]
	ldur q1, [x8, #20]
	add x8, x25, x25, lsl #6
	add x25, x25, #0x1
	rev32 v1.16b, v1.16b
	add x8, x9, x8
	mov w9, #0x1
	cmp x25, x27
	stp q2, q2, [x8, #32]
	rev32 v0.16b, v0.16b
	strb w9, [x8, #64]
	stp q0, q1, [x8]
	b.ne L(20_15)
	b L(20_24)
L(20_18):
	lsl x9, x24, #6
	add x21, x8, #0x1
	sub x26, x9, x20, lsl #6
	add x28, x22, x9
	b L(20_21)
L(20_19):
	add x8, sp, #0x350
	add x1, sp, #0x110
	mov w2, #0x40
	orr x0, x8, #0x4
	mov x3, x19
	bl ring_core.digest.sha2.by_instruction.run_blocks.4b880bd721513749
L(20_20):
	add x24, x24, #0x1
	add x28, x28, #0x40
	add x26, x26, #0x40
	cmp x21, x24
	b.eq L(20_17)
L(20_21):
	cmp x20, x24
	b.ls L(20_22)
	ldp q0, q1, [x28]
	add x8, sp, #0x110
	sub x8, x8, x28
	cmp x8, #0x3f
	str q0, [sp, #272]
	ldp q0, q2, [x28, #32]
	ldrb w8, [sp, #848]
	stp q1, q0, [sp, #288]
	str q2, [sp, #320]
	cbnz w8, L(20_23)
	b L(20_20)
L(20_22):
	movi v0.2d, #0x0
	and x8, x23, #0xffffffffffffffc0
	and x2, x23, #0x3f
	add x1, x22, x8
	add x6, sp, #0x150
	mov w0, #0x1
	mov x4, x23
	mov x5, xzr
	add x27, sp, #0x150
	stp q0, q0, [sp, #336]
	stp q0, q0, [sp, #368]
	stp q0, q0, [sp, #400]
	stp q0, q0, [sp, #432]
	stp q0, q0, [sp, #464]
	stp q0, q0, [sp, #496]
	stp q0, q0, [sp, #528]
	stp q0, q0, [sp, #560]
	bl ring.digest.block_context.write_tail
	add x8, x27, x26
	ldp q0, q1, [x8]
	str q0, [sp, #272]
	ldp q0, q2, [x8, #32]
	ldrb w8, [sp, #848]
	stp q1, q0, [sp, #288]
	str q2, [sp, #320]
	cbz w8, L(20_20)
L(20_23):
	movi v0.2d, #0x0
	adrp x8, PAGE(yz_instructions)
	stp q0, q0, [sp, #336]
	stp q0, q0, [sp, #368]
	ldrb w8, [x8, IN_PAGE(yz_instructions)]
	cbnz w8, L(20_19)
	ldp q0, q1, [sp, #272]
	adrp x8, PAGE(L(201_42))
	ldp q2, q3, [sp, #304]
	add x0, sp, #0x150
	ldr q4, [x8, IN_PAGE(L(201_42))]
	adrp x8, PAGE(L(201_43))
	rev32 v0.16b, v0.16b
	rev32 v1.16b, v1.16b
	ldr q5, [x8, IN_PAGE(L(201_43))]
	rev32 v2.16b, v2.16b
	adrp x8, PAGE(L(201_44))
	rev32 v3.16b, v3.16b
	ldr q6, [x8, IN_PAGE(L(201_44))]
	adrp x8, PAGE(L(201_45))
	ldr q7, [x8, IN_PAGE(L(201_45))]
	add x8, sp, #0x350
	add v4.4s, v0.4s, v4.4s
	add v5.4s, v1.4s, v5.4s
	orr x1, x8, #0x4
	add v6.4s, v2.4s, v6.4s
	add v7.4s, v3.4s, v7.4s
	stp q4, q5, [sp, #336]
	stp q6, q7, [sp, #368]
	bl ring_core.digest.sha2.by_fours.run_ahead.99accd9fe8f0e06d
	ldp x8, x9, [x19]
	adds x8, x8, #0x1
	adcs x9, x9, xzr
	csinv x8, x8, xzr, cc
	csinv x9, x9, xzr, cc
	stp x8, x9, [x19]
	b L(20_20)
L(20_24):
	add sp, sp, #0x460
	ldp x20, x19, [sp, #80]
	ldp x22, x21, [sp, #64]
	ldp x24, x23, [sp, #48]
	ldp x26, x25, [sp, #32]
	ldp x28, x27, [sp, #16]
	ldp x29, x30, [sp], #96
	ret
L(20_25):
	brk #0x1
	SIZE(ring.digest.each.digest_in_lanes.f29589b5fe9bc6cb, 2028)

	CODE(ring.digest.lanes.algorithms.InVectorSha256RunBlocks64.run_blocks.39d837fb76adf98f)
	.p2align 2
/* ring::digest::lanes::algorithms::InVectorSha256RunBlocks64::run_blocks::<#39d837fb76adf98f> */
	TYPE(ring.digest.lanes.algorithms.InVectorSha256RunBlocks64.run_blocks.39d837fb76adf98f, %function)
ring.digest.lanes.algorithms.InVectorSha256RunBlocks64.run_blocks.39d837fb76adf98f:
	sub sp, sp, #0x1a0
	ldp s7, s17, [x1]
	add x8, x1, #0x40
	stp d15, d14, [sp, #336]
	add x9, x1, #0x80
	stp d13, d12, [sp, #352]
	stp d11, d10, [sp, #368]
	stp d9, d8, [sp, #384]
	str x30, [sp, #400]
	ld1 {v7.s}[1], [x8]
	ldr s2, [x9]
	add x8, x1, #0xc0
	add x9, x1, #0x84
	ld1 {v2.s}[1], [x8]
	add x8, x1, #0x44
	ld1 {v17.s}[1], [x8]
	ldr s6, [x9]
	add x8, x1, #0xc4
	add x9, x1, #0x88
	ld1 {v6.s}[1], [x8]
	ldp s19, s26, [x1, #8]
	add x8, x1, #0x48
	zip1 v2.2d, v7.2d, v2.2d
	ld1 {v19.s}[1], [x8]
	ldr s18, [x9]
	add x8, x1, #0xc8
	add x9, x1, #0x8c
	ld1 {v18.s}[1], [x8]
	add x8, x1, #0x4c
	rev32 v7.16b, v2.16b
	ld1 {v26.s}[1], [x8]
	ldr s25, [x9]
	add x8, x1, #0xcc
	add x9, x1, #0x90
	ld1 {v25.s}[1], [x8]
	ldp s29, s8, [x1, #16]
	add x8, x1, #0x50
	ld1 {v29.s}[1], [x8]
	ldr s27, [x9]
	add x8, x1, #0xd0
	add x9, x1, #0x94
	ld1 {v27.s}[1], [x8]
	add x8, x1, #0x54
	ld1 {v8.s}[1], [x8]
	ldr s31, [x9]
	add x8, x1, #0xd4
	add x9, x1, #0x98
	ld1 {v31.s}[1], [x8]
	ldp s10, s12, [x1, #24]
	add x8, x1, #0x58
	ld1 {v10.s}[1], [x8]
	ldr s9, [x9]
	add x8, x1, #0xd8
	add x9, x1, #0x9c
	ld1 {v9.s}[1], [x8]
	add x8, x1, #0x5c
	ld1 {v12.s}[1], [x8]
	ldr s11, [x9]
	add x8, x1, #0xdc
	add x9, x1, #0xa0
	ld1 {v11.s}[1], [x8]
	ldp s13, s0, [x1, #32]
	add x8, x1, #0x60
	ld1 {v13.s}[1], [x8]
	ldr s15, [x9]
	add x8, x1, #0xe0
	add x9, x1, #0xa4
	ld1 {v15.s}[1], [x8]
	add x8, x1, #0x64
	ld1 {v0.s}[1], [x8]
	add x8, x1, #0xe4
	str q0, [sp]
	ldr s14, [x9]
	add x9, x1, #0xa8
	ld1 {v14.s}[1], [x8]
	ldr s0, [x1, #40]
	add x8, x1, #0x68
	ld1 {v0.s}[1], [x8]
	add x8, x1, #0xe8
	str q0, [sp, #32]
	ldr s0, [x9]
	add x9, x1, #0xac
	ld1 {v0.s}[1], [x8]
	add x8, x1, #0x6c
	str q0, [sp, #16]
	ldr s0, [x1, #44]
	ld1 {v0.s}[1], [x8]
	add x8, x1, #0xec
	str q0, [sp, #64]
	ldr s0, [x9]
	add x9, x1, #0xb0
	ld1 {v0.s}[1], [x8]
	add x8, x1, #0x70
	str q0, [sp, #48]
	ldr s0, [x1, #48]
	ld1 {v0.s}[1], [x8]
	add x8, x1, #0xf0
	str q0, [sp, #96]
	ldr s0, [x9]
	add x9, x1, #0xb4
	ld1 {v0.s}[1], [x8]
	add x8, x1, #0x74
	str q0, [sp, #80]
	ldr s0, [x1, #52]
	ld1 {v0.s}[1], [x8]
	add x8, x1, #0xf4
	str q0, [sp, #128]
	ldr s0, [x9]
	add x9, x1, #0xb8
	ld1 {v0.s}[1], [x8]
	add x8, x1, #0x78
	str q0, [sp, #112]
	ldr s0, [x1, #56]
	ld1 {v0.s}[1], [x8]
	add x8, x1, #0xf8
	str q0, [sp, #160]
	ldr s0, [x9]
	add x9, x1, #0xbc
	ld1 {v0.s}[1], [x8]
	add x8, x1, #0x7c
	str q0, [sp, #144]
	ldr s0, [x1, #60]
	ld1 {v0.s}[1], [x8]
	add x8, x1, #0xfc
	str q0, [sp, #192]
	ldr s0, [x9]
	mov w9, #0x3
	ld1 {v0.s}[1], [x8]
	ldp q21, q30, [x0, #64]
	ldp q22, q20, [x0]
	mov w8, #0x2f98
	ldp q4, q1, [x0, #96]
	movk w8, #0x428a, lsl #16
	str q0, [sp, #176]
	shl v0.4s, v21.4s, #18
	shl v3.4s, v22.4s, #23
	eor v24.16b, v20.16b, v22.16b
	stp q30, q21, [sp, #304]
	stp q1, q4, [sp, #240]
	usra v0.4s, v21.4s, #14
	usra v3.4s, v22.4s, #9
	stp q20, q22, [sp, #272]
	eor v0.16b, v0.16b, v21.16b
	eor v3.16b, v3.16b, v22.16b
	shl v5.4s, v0.4s, #27
	shl v2.4s, v3.4s, #21
	usra v5.4s, v0.4s, #5
	mov v0.16b, v21.16b
	usra v2.4s, v3.4s, #11
	add v3.4s, v7.4s, v1.4s
	bsl v0.16b, v30.16b, v4.16b
	eor v5.16b, v5.16b, v21.16b
	eor v2.16b, v2.16b, v22.16b
	shl v16.4s, v5.4s, #26
	add v1.4s, v3.4s, v0.4s
	dup v3.4s, w8
	shl v0.4s, v2.4s, #30
	mov w8, #0x4491
	usra v16.4s, v5.4s, #6
	ldp q23, q5, [x0, #32]
	add v1.4s, v1.4s, v3.4s
	mov v3.16b, v24.16b
	usra v0.4s, v2.4s, #2
	movk w8, #0x7137, lsl #16
	stp q5, q23, [sp, #208]
	bsl v3.16b, v23.16b, v20.16b
	add v1.4s, v1.4s, v16.4s
	add v16.4s, v1.4s, v5.4s
	add v0.4s, v0.4s, v3.4s
	zip1 v3.2d, v17.2d, v6.2d
	add v28.4s, v0.4s, v1.4s
	shl v0.4s, v16.4s, #18
	rev32 v17.16b, v3.16b
	usra v0.4s, v16.4s, #14
	shl v1.4s, v28.4s, #23
	add v3.4s, v17.4s, v4.4s
	eor v0.16b, v0.16b, v16.16b
	usra v1.4s, v28.4s, #9
	shl v5.4s, v0.4s, #27
	eor v1.16b, v1.16b, v28.16b
	usra v5.4s, v0.4s, #5
	mov v0.16b, v16.16b
	shl v6.4s, v1.4s, #21
	bsl v0.16b, v21.16b, v30.16b
	usra v6.4s, v1.4s, #11
	eor v2.16b, v5.16b, v16.16b
	eor v5.16b, v6.16b, v28.16b
	eor v6.16b, v28.16b, v22.16b
	shl v1.4s, v2.4s, #26
	add v4.4s, v3.4s, v0.4s
	dup v3.4s, w8
	mov w8, #0xfbcf
	movk w8, #0xb5c0, lsl #16
	and v24.16b, v6.16b, v24.16b
	shl v0.4s, v5.4s, #30
	usra v1.4s, v2.4s, #6
	add v3.4s, v4.4s, v3.4s
	usra v0.4s, v5.4s, #2
	eor v2.16b, v24.16b, v22.16b
	add v1.4s, v3.4s, v1.4s
	zip1 v3.2d, v19.2d, v18.2d
	add v2.4s, v0.4s, v2.4s
	add v5.4s, v1.4s, v23.4s
	rev32 v18.16b, v3.16b
	add v23.4s, v2.4s, v1.4s
	shl v1.4s, v5.4s, #18
	shl v2.4s, v23.4s, #23
	add v3.4s, v18.4s, v30.4s
	eor v24.16b, v23.16b, v28.16b
	usra v1.4s, v5.4s, #14
	usra v2.4s, v23.4s, #9
	and v6.16b, v24.16b, v6.16b
	eor v1.16b, v1.16b, v5.16b
	eor v2.16b, v2.16b, v23.16b
	shl v4.4s, v1.4s, #27
	shl v19.4s, v2.4s, #21
	usra v4.4s, v1.4s, #5
	mov v1.16b, v5.16b
	usra v19.4s, v2.4s, #11
	bsl v1.16b, v16.16b, v21.16b
	eor v2.16b, v4.16b, v5.16b
	eor v4.16b, v19.16b, v23.16b
	shl v19.4s, v2.4s, #26
	add v1.4s, v3.4s, v1.4s
	dup v3.4s, w8
	mov w8, #0xdba5
	shl v0.4s, v4.4s, #30
	movk w8, #0xe9b5, lsl #16
	usra v19.4s, v2.4s, #6
	eor v2.16b, v6.16b, v28.16b
	add v1.4s, v1.4s, v3.4s
	usra v0.4s, v4.4s, #2
	add v1.4s, v1.4s, v19.4s
	add v0.4s, v0.4s, v2.4s
	zip1 v2.2d, v26.2d, v25.2d
	add v6.4s, v1.4s, v20.4s
	add v30.4s, v0.4s, v1.4s
	rev32 v19.16b, v2.16b
	shl v0.4s, v6.4s, #18
	shl v1.4s, v30.4s, #23
	eor v25.16b, v30.16b, v23.16b
	usra v0.4s, v6.4s, #14
	add v2.4s, v19.4s, v21.4s
	usra v1.4s, v30.4s, #9
	and v24.16b, v25.16b, v24.16b
	eor v0.16b, v0.16b, v6.16b
	eor v1.16b, v1.16b, v30.16b
	shl v4.4s, v0.4s, #27
	shl v20.4s, v1.4s, #21
	usra v4.4s, v0.4s, #5
	mov v0.16b, v6.16b
	usra v20.4s, v1.4s, #11
	bsl v0.16b, v5.16b, v16.16b
	eor v1.16b, v4.16b, v6.16b
	eor v4.16b, v20.16b, v30.16b
	shl v20.4s, v1.4s, #26
	add v3.4s, v2.4s, v0.4s
	dup v2.4s, w8
	shl v0.4s, v4.4s, #30
	mov w8, #0xc25b
	usra v20.4s, v1.4s, #6
	eor v1.16b, v24.16b, v23.16b
	movk w8, #0x3956, lsl #16
	add v2.4s, v3.4s, v2.4s
	usra v0.4s, v4.4s, #2
	zip1 v3.2d, v29.2d, v27.2d
	add v2.4s, v2.4s, v20.4s
	add v0.4s, v0.4s, v1.4s
	rev32 v20.16b, v3.16b
	add v1.4s, v2.4s, v22.4s
	add v24.4s, v0.4s, v2.4s
	zip1 v22.2d, v10.2d, v9.2d
	shl v0.4s, v1.4s, #18
	shl v2.4s, v24.4s, #23
	rev32 v22.16b, v22.16b
	usra v0.4s, v1.4s, #14
	usra v2.4s, v24.4s, #9
	eor v0.16b, v0.16b, v1.16b
	eor v2.16b, v2.16b, v24.16b
	shl v4.4s, v0.4s, #27
	shl v26.4s, v2.4s, #21
	usra v4.4s, v0.4s, #5
	mov v0.16b, v1.16b
	usra v26.4s, v2.4s, #11
	add v2.4s, v20.4s, v16.4s
	bsl v0.16b, v6.16b, v5.16b
	eor v3.16b, v4.16b, v1.16b
	eor v4.16b, v26.16b, v24.16b
	eor v26.16b, v24.16b, v30.16b
	shl v16.4s, v3.4s, #26
	shl v27.4s, v4.4s, #30
	add v0.4s, v2.4s, v0.4s
	dup v2.4s, w8
	and v25.16b, v26.16b, v25.16b
	mov w8, #0x11f1
	usra v16.4s, v3.4s, #6
	usra v27.4s, v4.4s, #2
	zip1 v4.2d, v8.2d, v31.2d
	add v0.4s, v0.4s, v2.4s
	eor v2.16b, v25.16b, v30.16b
	movk w8, #0x59f1, lsl #16
	add v0.4s, v0.4s, v16.4s
	add v2.4s, v27.4s, v2.4s
	rev32 v21.16b, v4.16b
	add v16.4s, v0.4s, v28.4s
	add v2.4s, v2.4s, v0.4s
	shl v0.4s, v16.4s, #18
	shl v3.4s, v2.4s, #23
	usra v0.4s, v16.4s, #14
	usra v3.4s, v2.4s, #9
	eor v0.16b, v0.16b, v16.16b
	eor v3.16b, v3.16b, v2.16b
	shl v25.4s, v0.4s, #27
	shl v27.4s, v3.4s, #21
	usra v25.4s, v0.4s, #5
	mov v0.16b, v16.16b
	usra v27.4s, v3.4s, #11
	add v3.4s, v21.4s, v5.4s
	bsl v0.16b, v1.16b, v6.16b
	eor v4.16b, v25.16b, v16.16b
	eor v5.16b, v27.16b, v2.16b
	eor v25.16b, v2.16b, v24.16b
	shl v27.4s, v4.4s, #26
	shl v28.4s, v5.4s, #30
	add v0.4s, v3.4s, v0.4s
	dup v3.4s, w8
	and v26.16b, v25.16b, v26.16b
	mov w8, #0x82a4
	usra v27.4s, v4.4s, #6
	usra v28.4s, v5.4s, #2
	movk w8, #0x923f, lsl #16
	add v0.4s, v0.4s, v3.4s
	eor v3.16b, v26.16b, v24.16b
	add v0.4s, v0.4s, v27.4s
	add v3.4s, v28.4s, v3.4s
	add v5.4s, v0.4s, v23.4s
	add v0.4s, v3.4s, v0.4s
	shl v3.4s, v5.4s, #18
	shl v4.4s, v0.4s, #23
	usra v3.4s, v5.4s, #14
	usra v4.4s, v0.4s, #9
	eor v3.16b, v3.16b, v5.16b
	eor v4.16b, v4.16b, v0.16b
	shl v26.4s, v3.4s, #27
	shl v27.4s, v4.4s, #21
	usra v26.4s, v3.4s, #5
	mov v3.16b, v5.16b
	usra v27.4s, v4.4s, #11
	add v4.4s, v22.4s, v6.4s
	bsl v3.16b, v16.16b, v1.16b
	eor v6.16b, v26.16b, v5.16b
	eor v26.16b, v27.16b, v0.16b
	eor v27.16b, v0.16b, v2.16b
	shl v28.4s, v6.4s, #26
	shl v29.4s, v26.4s, #30
	add v3.4s, v4.4s, v3.4s
	dup v4.4s, w8
	and v25.16b, v27.16b, v25.16b
	mov w8, #0x5ed5
	usra v28.4s, v6.4s, #6
	usra v29.4s, v26.4s, #2
	movk w8, #0xab1c, lsl #16
	add v3.4s, v3.4s, v4.4s
	eor v4.16b, v25.16b, v2.16b
	zip1 v25.2d, v12.2d, v11.2d
	add v3.4s, v3.4s, v28.4s
	add v4.4s, v29.4s, v4.4s
	add v6.4s, v3.4s, v30.4s
	add v3.4s, v4.4s, v3.4s
	shl v4.4s, v6.4s, #18
	shl v23.4s, v3.4s, #23
	usra v4.4s, v6.4s, #14
	usra v23.4s, v3.4s, #9
	eor v4.16b, v4.16b, v6.16b
	eor v26.16b, v23.16b, v3.16b
	rev32 v23.16b, v25.16b
	shl v28.4s, v4.4s, #27
	shl v29.4s, v26.4s, #21
	add v1.4s, v23.4s, v1.4s
	usra v28.4s, v4.4s, #5
	mov v4.16b, v6.16b
	usra v29.4s, v26.4s, #11
	bsl v4.16b, v5.16b, v16.16b
	eor v25.16b, v28.16b, v6.16b
	eor v26.16b, v29.16b, v3.16b
	eor v28.16b, v3.16b, v0.16b
	shl v29.4s, v25.4s, #26
	shl v30.4s, v26.4s, #30
	add v1.4s, v1.4s, v4.4s
	dup v4.4s, w8
	and v27.16b, v28.16b, v27.16b
	mov w8, #0xaa98
	usra v29.4s, v25.4s, #6
	usra v30.4s, v26.4s, #2
	movk w8, #0xd807, lsl #16
	add v1.4s, v1.4s, v4.4s
	eor v4.16b, v27.16b, v0.16b
	add v1.4s, v1.4s, v29.4s
	add v25.4s, v30.4s, v4.4s
	add v4.4s, v1.4s, v24.4s
	add v1.4s, v25.4s, v1.4s
	shl v25.4s, v1.4s, #23
	shl v24.4s, v4.4s, #18
	usra v25.4s, v1.4s, #9
	usra v24.4s, v4.4s, #14
	eor v25.16b, v25.16b, v1.16b
	eor v26.16b, v24.16b, v4.16b
	zip1 v24.2d, v13.2d, v15.2d
	shl v29.4s, v25.4s, #21
	shl v27.4s, v26.4s, #27
	rev32 v24.16b, v24.16b
	usra v29.4s, v25.4s, #11
	mov v25.16b, v4.16b
	usra v27.4s, v26.4s, #5
	add v16.4s, v24.4s, v16.4s
	bsl v25.16b, v6.16b, v5.16b
	eor v26.16b, v27.16b, v4.16b
	eor v27.16b, v29.16b, v1.16b
	eor v29.16b, v1.16b, v3.16b
	shl v30.4s, v26.4s, #26
	shl v31.4s, v27.4s, #30
	add v16.4s, v16.4s, v25.4s
	dup v25.4s, w8
	and v28.16b, v29.16b, v28.16b
	mov w8, #0x5b01
	usra v30.4s, v26.4s, #6
	usra v31.4s, v27.4s, #2
	movk w8, #0x1283, lsl #16
	add v16.4s, v16.4s, v25.4s
	eor v25.16b, v28.16b, v3.16b
	add v26.4s, v16.4s, v30.4s
	add v25.4s, v31.4s, v25.4s
	add v16.4s, v26.4s, v2.4s
	add v2.4s, v25.4s, v26.4s
	shl v25.4s, v16.4s, #18
	shl v26.4s, v2.4s, #23
	usra v25.4s, v16.4s, #14
	usra v26.4s, v2.4s, #9
	eor v27.16b, v25.16b, v16.16b
	ldr q25, [sp]
	eor v26.16b, v26.16b, v2.16b
	zip1 v25.2d, v25.2d, v14.2d
	shl v30.4s, v26.4s, #21
	shl v28.4s, v27.4s, #27
	rev32 v25.16b, v25.16b
	usra v30.4s, v26.4s, #11
	mov v26.16b, v16.16b
	usra v28.4s, v27.4s, #5
	bsl v26.16b, v4.16b, v6.16b
	add v5.4s, v25.4s, v5.4s
	eor v27.16b, v28.16b, v16.16b
	eor v28.16b, v30.16b, v2.16b
	eor v30.16b, v2.16b, v1.16b
	add v5.4s, v5.4s, v26.4s
	dup v26.4s, w8
	shl v31.4s, v27.4s, #26
	and v29.16b, v30.16b, v29.16b
	shl v8.4s, v28.4s, #30
	mov w8, #0x85be
	movk w8, #0x2431, lsl #16
	add v5.4s, v5.4s, v26.4s
	usra v31.4s, v27.4s, #6
	usra v8.4s, v28.4s, #2
	eor v26.16b, v29.16b, v1.16b
	add v27.4s, v5.4s, v31.4s
	add v26.4s, v8.4s, v26.4s
	add v5.4s, v27.4s, v0.4s
	add v0.4s, v26.4s, v27.4s
	shl v26.4s, v5.4s, #18
	shl v27.4s, v0.4s, #23
	usra v26.4s, v5.4s, #14
	usra v27.4s, v0.4s, #9
	eor v28.16b, v26.16b, v5.16b
	ldp q29, q26, [sp, #16]
	eor v27.16b, v27.16b, v0.16b
	zip1 v26.2d, v26.2d, v29.2d
	shl v29.4s, v28.4s, #27
	shl v31.4s, v27.4s, #21
	usra v29.4s, v28.4s, #5
	rev32 v26.16b, v26.16b
	usra v31.4s, v27.4s, #11
	mov v27.16b, v5.16b
	eor v28.16b, v29.16b, v5.16b
	bsl v27.16b, v16.16b, v4.16b
	eor v29.16b, v31.16b, v0.16b
	eor v31.16b, v0.16b, v2.16b
	add v6.4s, v26.4s, v6.4s
	shl v8.4s, v28.4s, #26
	and v30.16b, v31.16b, v30.16b
	shl v9.4s, v29.4s, #30
	add v6.4s, v6.4s, v27.4s
	dup v27.4s, w8
	mov w8, #0x7dc3
	usra v8.4s, v28.4s, #6
	movk w8, #0x550c, lsl #16
	usra v9.4s, v29.4s, #2
	add v6.4s, v6.4s, v27.4s
	eor v27.16b, v30.16b, v2.16b
	add v28.4s, v6.4s, v8.4s
	add v27.4s, v9.4s, v27.4s
	add v6.4s, v28.4s, v3.4s
	add v3.4s, v27.4s, v28.4s
	shl v27.4s, v6.4s, #18
	shl v28.4s, v3.4s, #23
	eor v9.16b, v3.16b, v0.16b
	usra v27.4s, v6.4s, #14
	usra v28.4s, v3.4s, #9
	and v31.16b, v9.16b, v31.16b
	eor v29.16b, v27.16b, v6.16b
	ldp q30, q27, [sp, #48]
	eor v28.16b, v28.16b, v3.16b
	zip1 v27.2d, v27.2d, v30.2d
	shl v30.4s, v29.4s, #27
	shl v8.4s, v28.4s, #21
	usra v30.4s, v29.4s, #5
	rev32 v27.16b, v27.16b
	usra v8.4s, v28.4s, #11
	mov v28.16b, v6.16b
	eor v29.16b, v30.16b, v6.16b
	bsl v28.16b, v5.16b, v16.16b
	eor v30.16b, v8.16b, v3.16b
	add v4.4s, v27.4s, v4.4s
	shl v8.4s, v29.4s, #26
	shl v10.4s, v30.4s, #30
	add v4.4s, v4.4s, v28.4s
	dup v28.4s, w8
	mov w8, #0x5d74
	usra v8.4s, v29.4s, #6
	movk w8, #0x72be, lsl #16
	usra v10.4s, v30.4s, #2
	ldp q30, q29, [sp, #80]
	add v4.4s, v4.4s, v28.4s
	eor v28.16b, v31.16b, v0.16b
	zip1 v29.2d, v29.2d, v30.2d
	add v4.4s, v4.4s, v8.4s
	add v28.4s, v10.4s, v28.4s
	add v8.4s, v4.4s, v1.4s
	add v1.4s, v28.4s, v4.4s
	shl v4.4s, v8.4s, #18
	shl v28.4s, v1.4s, #23
	usra v4.4s, v8.4s, #14
	usra v28.4s, v1.4s, #9
	eor v4.16b, v4.16b, v8.16b
	eor v30.16b, v28.16b, v1.16b
	rev32 v28.16b, v29.16b
	shl v31.4s, v4.4s, #27
	shl v10.4s, v30.4s, #21
	add v16.4s, v28.4s, v16.4s
	usra v31.4s, v4.4s, #5
	mov v4.16b, v8.16b
	usra v10.4s, v30.4s, #11
	bsl v4.16b, v6.16b, v5.16b
	eor v29.16b, v31.16b, v8.16b
	eor v30.16b, v10.16b, v1.16b
	eor v31.16b, v1.16b, v3.16b
	shl v10.4s, v29.4s, #26
	shl v11.4s, v30.4s, #30
	add v4.4s, v16.4s, v4.4s
	dup v16.4s, w8
	and v9.16b, v31.16b, v9.16b
	mov w8, #0xb1fe
	usra v10.4s, v29.4s, #6
	usra v11.4s, v30.4s, #2
	movk w8, #0x80de, lsl #16
	add v4.4s, v4.4s, v16.4s
	eor v16.16b, v9.16b, v3.16b
	add v4.4s, v4.4s, v10.4s
	add v16.4s, v11.4s, v16.4s
	add v12.4s, v4.4s, v2.4s
	add v11.4s, v16.4s, v4.4s
	ldp q29, q16, [sp, #112]
	shl v2.4s, v12.4s, #18
	shl v4.4s, v11.4s, #23
	zip1 v16.2d, v16.2d, v29.2d
	usra v2.4s, v12.4s, #14
	usra v4.4s, v11.4s, #9
	rev32 v29.16b, v16.16b
	eor v2.16b, v2.16b, v12.16b
	eor v4.16b, v4.16b, v11.16b
	shl v30.4s, v2.4s, #27
	shl v9.4s, v4.4s, #21
	usra v30.4s, v2.4s, #5
	mov v2.16b, v12.16b
	usra v9.4s, v4.4s, #11
	add v4.4s, v29.4s, v5.4s
	bsl v2.16b, v8.16b, v6.16b
	eor v5.16b, v30.16b, v12.16b
	eor v16.16b, v9.16b, v11.16b
	eor v9.16b, v11.16b, v1.16b
	shl v30.4s, v5.4s, #26
	shl v10.4s, v16.4s, #30
	add v2.4s, v4.4s, v2.4s
	dup v4.4s, w8
	and v31.16b, v9.16b, v31.16b
	mov w8, #0x6a7
	usra v30.4s, v5.4s, #6
	usra v10.4s, v16.4s, #2
	movk w8, #0x9bdc, lsl #16
	add v2.4s, v2.4s, v4.4s
	eor v4.16b, v31.16b, v1.16b
	add v2.4s, v2.4s, v30.4s
	add v4.4s, v10.4s, v4.4s
	add v10.4s, v2.4s, v0.4s
	add v5.4s, v4.4s, v2.4s
	ldp q16, q4, [sp, #144]
	shl v0.4s, v10.4s, #18
	shl v2.4s, v5.4s, #23
	eor v13.16b, v5.16b, v11.16b
	zip1 v4.2d, v4.2d, v16.2d
	usra v0.4s, v10.4s, #14
	usra v2.4s, v5.4s, #9
	rev32 v30.16b, v4.16b
	eor v0.16b, v0.16b, v10.16b
	eor v2.16b, v2.16b, v5.16b
	shl v16.4s, v0.4s, #27
	shl v31.4s, v2.4s, #21
	usra v16.4s, v0.4s, #5
	mov v0.16b, v10.16b
	usra v31.4s, v2.4s, #11
	add v2.4s, v30.4s, v6.4s
	bsl v0.16b, v12.16b, v8.16b
	eor v4.16b, v16.16b, v10.16b
	eor v6.16b, v31.16b, v5.16b
	dup v31.4s, w8
	and v16.16b, v13.16b, v9.16b
	mov w8, #0xf174
	movk w8, #0xc19b, lsl #16
	shl v9.4s, v6.4s, #30
	add v0.4s, v2.4s, v0.4s
	shl v2.4s, v4.4s, #26
	usra v9.4s, v6.4s, #2
	usra v2.4s, v4.4s, #6
	add v0.4s, v0.4s, v31.4s
	eor v4.16b, v16.16b, v11.16b
	add v0.4s, v0.4s, v2.4s
	add v2.4s, v9.4s, v4.4s
	add v4.4s, v0.4s, v3.4s
	add v16.4s, v2.4s, v0.4s
	ldp q6, q3, [sp, #176]
	shl v0.4s, v4.4s, #18
	shl v2.4s, v16.4s, #23
	bsl v13.16b, v16.16b, v5.16b
	zip1 v3.2d, v3.2d, v6.2d
	usra v0.4s, v4.4s, #14
	usra v2.4s, v16.4s, #9
	rev32 v31.16b, v3.16b
	eor v0.16b, v0.16b, v4.16b
	eor v2.16b, v2.16b, v16.16b
	shl v6.4s, v0.4s, #27
	shl v9.4s, v2.4s, #21
	usra v6.4s, v0.4s, #5
	mov v0.16b, v4.16b
	usra v9.4s, v2.4s, #11
	add v2.4s, v31.4s, v8.4s
	bsl v0.16b, v10.16b, v12.16b
	eor v3.16b, v6.16b, v4.16b
	eor v6.16b, v9.16b, v16.16b
	shl v8.4s, v3.4s, #26
	shl v9.4s, v6.4s, #30
	add v0.4s, v2.4s, v0.4s
	dup v2.4s, w8
	adrp x8, PAGE(L(208_1))
	add x8, x8, IN_PAGE(L(208_1))
	usra v8.4s, v3.4s, #6
	usra v9.4s, v6.4s, #2
	add v0.4s, v0.4s, v2.4s
	add v2.4s, v9.4s, v13.4s
	add v0.4s, v0.4s, v8.4s
	add v8.4s, v2.4s, v0.4s
	add v6.4s, v0.4s, v1.4s
L(22_0):
	shl v0.4s, v17.4s, #21
	shl v1.4s, v6.4s, #18
	sub x10, x8, #0x3c
	shl v3.4s, v8.4s, #23
	shl v2.4s, v30.4s, #30
	subs x9, x9, #0x1
	ushr v14.4s, v17.4s, #3
	add v7.4s, v25.4s, v7.4s
	usra v0.4s, v17.4s, #11
	usra v1.4s, v6.4s, #14
	usra v3.4s, v8.4s, #9
	usra v2.4s, v30.4s, #2
	eor v0.16b, v0.16b, v17.16b
	eor v1.16b, v1.16b, v6.16b
	add v17.4s, v26.4s, v17.4s
	eor v3.16b, v3.16b, v8.16b
	eor v2.16b, v2.16b, v30.16b
	shl v9.4s, v0.4s, #25
	shl v13.4s, v1.4s, #27
	shl v15.4s, v2.4s, #15
	usra v9.4s, v0.4s, #7
	shl v0.4s, v3.4s, #21
	usra v13.4s, v1.4s, #5
	ushr v1.4s, v30.4s, #10
	usra v15.4s, v2.4s, #17
	usra v0.4s, v3.4s, #11
	mov v3.16b, v6.16b
	eor v2.16b, v9.16b, v14.16b
	eor v9.16b, v13.16b, v6.16b
	eor v13.16b, v15.16b, v1.16b
	eor v1.16b, v16.16b, v8.16b
	ld1r {v15.4s}, [x10]
	sub x10, x8, #0x38
	bsl v3.16b, v4.16b, v10.16b
	add v2.4s, v7.4s, v2.4s
	eor v0.16b, v0.16b, v8.16b
	shl v14.4s, v9.4s, #26
	add v7.4s, v2.4s, v13.4s
	shl v2.4s, v0.4s, #30
	add v3.4s, v3.4s, v12.4s
	usra v14.4s, v9.4s, #6
	mov v9.16b, v1.16b
	add v12.4s, v7.4s, v15.4s
	usra v2.4s, v0.4s, #2
	shl v0.4s, v18.4s, #21
	bsl v9.16b, v5.16b, v16.16b
	add v3.4s, v3.4s, v14.4s
	ushr v15.4s, v18.4s, #3
	usra v0.4s, v18.4s, #11
	add v3.4s, v3.4s, v12.4s
	add v2.4s, v2.4s, v9.4s
	shl v9.4s, v31.4s, #30
	eor v0.16b, v0.16b, v18.16b
	add v18.4s, v27.4s, v18.4s
	add v12.4s, v3.4s, v11.4s
	add v11.4s, v2.4s, v3.4s
	usra v9.4s, v31.4s, #2
	shl v13.4s, v0.4s, #25
	shl v2.4s, v12.4s, #18
	shl v3.4s, v11.4s, #23
	eor v9.16b, v9.16b, v31.16b
	usra v13.4s, v0.4s, #7
	usra v2.4s, v12.4s, #14
	usra v3.4s, v11.4s, #9
	shl v14.4s, v9.4s, #15
	eor v0.16b, v2.16b, v12.16b
	eor v2.16b, v3.16b, v11.16b
	ushr v3.4s, v31.4s, #10
	usra v14.4s, v9.4s, #17
	eor v9.16b, v13.16b, v15.16b
	shl v13.4s, v0.4s, #27
	shl v15.4s, v2.4s, #21
	eor v3.16b, v14.16b, v3.16b
	ld1r {v14.4s}, [x10]
	add v17.4s, v17.4s, v9.4s
	sub x10, x8, #0x34
	usra v13.4s, v0.4s, #5
	eor v0.16b, v11.16b, v8.16b
	usra v15.4s, v2.4s, #11
	add v2.4s, v10.4s, v14.4s
	mov v10.16b, v12.16b
	add v17.4s, v17.4s, v3.4s
	eor v3.16b, v13.16b, v12.16b
	and v1.16b, v0.16b, v1.16b
	eor v9.16b, v15.16b, v11.16b
	bsl v10.16b, v6.16b, v4.16b
	add v2.4s, v17.4s, v2.4s
	shl v13.4s, v3.4s, #26
	eor v1.16b, v1.16b, v8.16b
	shl v14.4s, v9.4s, #30
	add v2.4s, v2.4s, v10.4s
	usra v13.4s, v3.4s, #6
	shl v3.4s, v19.4s, #21
	usra v14.4s, v9.4s, #2
	add v2.4s, v2.4s, v13.4s
	usra v3.4s, v19.4s, #11
	shl v13.4s, v7.4s, #30
	add v1.4s, v14.4s, v1.4s
	ushr v14.4s, v19.4s, #3
	add v10.4s, v2.4s, v5.4s
	usra v13.4s, v7.4s, #2
	add v9.4s, v1.4s, v2.4s
	eor v1.16b, v3.16b, v19.16b
	add v19.4s, v28.4s, v19.4s
	shl v2.4s, v10.4s, #18
	eor v13.16b, v13.16b, v7.16b
	shl v3.4s, v9.4s, #23
	shl v5.4s, v1.4s, #25
	usra v2.4s, v10.4s, #14
	usra v3.4s, v9.4s, #9
	usra v5.4s, v1.4s, #7
	shl v1.4s, v13.4s, #15
	eor v2.16b, v2.16b, v10.16b
	eor v3.16b, v3.16b, v9.16b
	eor v5.16b, v5.16b, v14.16b
	ushr v14.4s, v7.4s, #10
	usra v1.4s, v13.4s, #17
	shl v13.4s, v2.4s, #27
	shl v15.4s, v3.4s, #21
	add v5.4s, v18.4s, v5.4s
	ld1r {v18.4s}, [x10]
	eor v1.16b, v1.16b, v14.16b
	sub x10, x8, #0x30
	usra v13.4s, v2.4s, #5
	usra v15.4s, v3.4s, #11
	add v2.4s, v4.4s, v18.4s
	add v18.4s, v5.4s, v1.4s
	mov v5.16b, v10.16b
	eor v1.16b, v9.16b, v11.16b
	eor v3.16b, v13.16b, v10.16b
	eor v4.16b, v15.16b, v9.16b
	bsl v5.16b, v12.16b, v6.16b
	add v2.4s, v18.4s, v2.4s
	and v0.16b, v1.16b, v0.16b
	shl v13.4s, v3.4s, #26
	shl v14.4s, v4.4s, #30
	eor v0.16b, v0.16b, v11.16b
	add v2.4s, v2.4s, v5.4s
	usra v13.4s, v3.4s, #6
	shl v3.4s, v20.4s, #21
	usra v14.4s, v4.4s, #2
	shl v5.4s, v17.4s, #30
	add v2.4s, v2.4s, v13.4s
	usra v3.4s, v20.4s, #11
	add v0.4s, v14.4s, v0.4s
	usra v5.4s, v17.4s, #2
	ushr v14.4s, v20.4s, #3
	add v16.4s, v2.4s, v16.4s
	add v4.4s, v0.4s, v2.4s
	eor v0.16b, v3.16b, v20.16b
	eor v5.16b, v5.16b, v17.16b
	add v20.4s, v29.4s, v20.4s
	shl v2.4s, v16.4s, #18
	shl v3.4s, v4.4s, #23
	shl v13.4s, v0.4s, #25
	usra v2.4s, v16.4s, #14
	usra v3.4s, v4.4s, #9
	usra v13.4s, v0.4s, #7
	shl v0.4s, v5.4s, #15
	eor v2.16b, v2.16b, v16.16b
	eor v3.16b, v3.16b, v4.16b
	eor v13.16b, v13.16b, v14.16b
	ushr v14.4s, v17.4s, #10
	usra v0.4s, v5.4s, #17
	shl v5.4s, v2.4s, #27
	shl v15.4s, v3.4s, #21
	add v19.4s, v19.4s, v13.4s
	ld1r {v13.4s}, [x10]
	eor v0.16b, v0.16b, v14.16b
	sub x10, x8, #0x2c
	usra v5.4s, v2.4s, #5
	usra v15.4s, v3.4s, #11
	add v2.4s, v6.4s, v13.4s
	mov v6.16b, v16.16b
	add v19.4s, v19.4s, v0.4s
	eor v0.16b, v4.16b, v9.16b
	eor v3.16b, v5.16b, v16.16b
	eor v5.16b, v15.16b, v4.16b
	bsl v6.16b, v10.16b, v12.16b
	add v2.4s, v19.4s, v2.4s
	and v1.16b, v0.16b, v1.16b
	shl v13.4s, v3.4s, #26
	shl v14.4s, v5.4s, #30
	add v2.4s, v2.4s, v6.4s
	eor v1.16b, v1.16b, v9.16b
	shl v6.4s, v18.4s, #30
	usra v13.4s, v3.4s, #6
	usra v14.4s, v5.4s, #2
	shl v5.4s, v21.4s, #21
	usra v6.4s, v18.4s, #2
	add v2.4s, v2.4s, v13.4s
	add v1.4s, v14.4s, v1.4s
	usra v5.4s, v21.4s, #11
	ushr v14.4s, v21.4s, #3
	eor v6.16b, v6.16b, v18.16b
	add v3.4s, v2.4s, v8.4s
	add v1.4s, v1.4s, v2.4s
	eor v2.16b, v5.16b, v21.16b
	add v21.4s, v21.4s, v30.4s
	shl v5.4s, v3.4s, #18
	shl v8.4s, v1.4s, #23
	shl v13.4s, v2.4s, #25
	usra v5.4s, v3.4s, #14
	usra v8.4s, v1.4s, #9
	usra v13.4s, v2.4s, #7
	shl v2.4s, v6.4s, #15
	eor v5.16b, v5.16b, v3.16b
	eor v8.16b, v8.16b, v1.16b
	eor v13.16b, v13.16b, v14.16b
	ushr v14.4s, v18.4s, #10
	usra v2.4s, v6.4s, #17
	shl v6.4s, v5.4s, #27
	shl v15.4s, v8.4s, #21
	add v20.4s, v20.4s, v13.4s
	ld1r {v13.4s}, [x10]
	eor v2.16b, v2.16b, v14.16b
	sub x10, x8, #0x28
	usra v6.4s, v5.4s, #5
	usra v15.4s, v8.4s, #11
	add v5.4s, v12.4s, v13.4s
	mov v12.16b, v3.16b
	add v20.4s, v20.4s, v2.4s
	eor v2.16b, v1.16b, v4.16b
	eor v6.16b, v6.16b, v3.16b
	eor v8.16b, v15.16b, v1.16b
	bsl v12.16b, v16.16b, v10.16b
	add v5.4s, v20.4s, v5.4s
	and v0.16b, v2.16b, v0.16b
	shl v13.4s, v6.4s, #26
	shl v14.4s, v8.4s, #30
	add v5.4s, v5.4s, v12.4s
	eor v0.16b, v0.16b, v4.16b
	shl v12.4s, v19.4s, #30
	usra v13.4s, v6.4s, #6
	shl v6.4s, v22.4s, #21
	usra v14.4s, v8.4s, #2
	usra v12.4s, v19.4s, #2
	add v5.4s, v5.4s, v13.4s
	usra v6.4s, v22.4s, #11
	add v0.4s, v14.4s, v0.4s
	ushr v14.4s, v22.4s, #3
	eor v12.16b, v12.16b, v19.16b
	add v8.4s, v5.4s, v11.4s
	add v5.4s, v0.4s, v5.4s
	eor v0.16b, v6.16b, v22.16b
	add v22.4s, v22.4s, v31.4s
	shl v6.4s, v8.4s, #18
	shl v11.4s, v5.4s, #23
	shl v13.4s, v0.4s, #25
	usra v6.4s, v8.4s, #14
	usra v11.4s, v5.4s, #9
	usra v13.4s, v0.4s, #7
	shl v0.4s, v12.4s, #15
	eor v6.16b, v6.16b, v8.16b
	eor v11.16b, v11.16b, v5.16b
	eor v13.16b, v13.16b, v14.16b
	usra v0.4s, v12.4s, #17
	ushr v14.4s, v19.4s, #10
	shl v12.4s, v6.4s, #27
	shl v15.4s, v11.4s, #21
	add v21.4s, v21.4s, v13.4s
	ld1r {v13.4s}, [x10]
	eor v0.16b, v0.16b, v14.16b
	sub x10, x8, #0x24
	usra v12.4s, v6.4s, #5
	usra v15.4s, v11.4s, #11
	add v6.4s, v13.4s, v10.4s
	add v21.4s, v21.4s, v0.4s
	eor v0.16b, v5.16b, v1.16b
	eor v10.16b, v12.16b, v8.16b
	mov v12.16b, v8.16b
	eor v11.16b, v15.16b, v5.16b
	shl v15.4s, v23.4s, #21
	add v6.4s, v6.4s, v21.4s
	and v2.16b, v0.16b, v2.16b
	bsl v12.16b, v3.16b, v16.16b
	shl v13.4s, v10.4s, #26
	shl v14.4s, v11.4s, #30
	usra v15.4s, v23.4s, #11
	eor v2.16b, v2.16b, v1.16b
	usra v13.4s, v10.4s, #6
	shl v10.4s, v20.4s, #30
	add v6.4s, v6.4s, v12.4s
	usra v14.4s, v11.4s, #2
	eor v11.16b, v15.16b, v23.16b
	usra v10.4s, v20.4s, #2
	add v6.4s, v6.4s, v13.4s
	add v2.4s, v14.4s, v2.4s
	ushr v14.4s, v23.4s, #3
	eor v10.16b, v10.16b, v20.16b
	add v9.4s, v6.4s, v9.4s
	add v6.4s, v2.4s, v6.4s
	shl v2.4s, v11.4s, #25
	shl v12.4s, v9.4s, #18
	shl v13.4s, v6.4s, #23
	usra v2.4s, v11.4s, #7
	shl v11.4s, v10.4s, #15
	usra v12.4s, v9.4s, #14
	usra v13.4s, v6.4s, #9
	eor v2.16b, v2.16b, v14.16b
	ushr v14.4s, v20.4s, #10
	usra v11.4s, v10.4s, #17
	eor v10.16b, v12.16b, v9.16b
	eor v12.16b, v13.16b, v6.16b
	add v2.4s, v22.4s, v2.4s
	eor v22.16b, v11.16b, v14.16b
	ld1r {v14.4s}, [x10]
	sub x10, x8, #0x20
	shl v11.4s, v10.4s, #27
	shl v13.4s, v12.4s, #21
	add v22.4s, v2.4s, v22.4s
	eor v2.16b, v6.16b, v5.16b
	usra v11.4s, v10.4s, #5
	usra v13.4s, v12.4s, #11
	add v10.4s, v22.4s, v14.4s
	mov v14.16b, v9.16b
	and v0.16b, v2.16b, v0.16b
	eor v11.16b, v11.16b, v9.16b
	eor v12.16b, v13.16b, v6.16b
	shl v13.4s, v24.4s, #21
	bsl v14.16b, v8.16b, v3.16b
	add v16.4s, v10.4s, v16.4s
	eor v0.16b, v0.16b, v5.16b
	shl v10.4s, v11.4s, #26
	shl v15.4s, v12.4s, #30
	usra v13.4s, v24.4s, #11
	add v16.4s, v16.4s, v14.4s
	ld1r {v14.4s}, [x10]
	sub x10, x8, #0x1c
	usra v10.4s, v11.4s, #6
	usra v15.4s, v12.4s, #2
	eor v11.16b, v13.16b, v24.16b
	shl v12.4s, v21.4s, #30
	add v10.4s, v16.4s, v10.4s
	add v0.4s, v15.4s, v0.4s
	shl v13.4s, v11.4s, #25
	usra v12.4s, v21.4s, #2
	add v16.4s, v10.4s, v4.4s
	add v4.4s, v0.4s, v10.4s
	ushr v0.4s, v24.4s, #3
	usra v13.4s, v11.4s, #7
	eor v10.16b, v12.16b, v21.16b
	shl v11.4s, v16.4s, #18
	shl v12.4s, v4.4s, #23
	eor v0.16b, v13.16b, v0.16b
	shl v13.4s, v10.4s, #15
	usra v11.4s, v16.4s, #14
	usra v12.4s, v4.4s, #9
	add v0.4s, v23.4s, v0.4s
	ushr v23.4s, v21.4s, #10
	usra v13.4s, v10.4s, #17
	eor v10.16b, v11.16b, v16.16b
	eor v11.16b, v12.16b, v4.16b
	add v0.4s, v0.4s, v7.4s
	eor v23.16b, v13.16b, v23.16b
	shl v12.4s, v10.4s, #27
	shl v13.4s, v11.4s, #21
	add v23.4s, v0.4s, v23.4s
	eor v0.16b, v4.16b, v6.16b
	usra v12.4s, v10.4s, #5
	usra v13.4s, v11.4s, #11
	add v10.4s, v23.4s, v14.4s
	mov v14.16b, v16.16b
	and v2.16b, v0.16b, v2.16b
	eor v11.16b, v12.16b, v16.16b
	eor v12.16b, v13.16b, v4.16b
	shl v13.4s, v25.4s, #21
	bsl v14.16b, v9.16b, v8.16b
	add v3.4s, v10.4s, v3.4s
	eor v2.16b, v2.16b, v6.16b
	shl v10.4s, v11.4s, #26
	shl v15.4s, v12.4s, #30
	usra v13.4s, v25.4s, #11
	add v3.4s, v3.4s, v14.4s
	ld1r {v14.4s}, [x10]
	sub x10, x8, #0x18
	usra v10.4s, v11.4s, #6
	usra v15.4s, v12.4s, #2
	eor v11.16b, v13.16b, v25.16b
	shl v12.4s, v22.4s, #30
	add v10.4s, v3.4s, v10.4s
	add v2.4s, v15.4s, v2.4s
	shl v13.4s, v11.4s, #25
	usra v12.4s, v22.4s, #2
	add v3.4s, v10.4s, v1.4s
	add v1.4s, v2.4s, v10.4s
	ushr v2.4s, v25.4s, #3
	usra v13.4s, v11.4s, #7
	eor v10.16b, v12.16b, v22.16b
	shl v11.4s, v3.4s, #18
	shl v12.4s, v1.4s, #23
	eor v2.16b, v13.16b, v2.16b
	shl v13.4s, v10.4s, #15
	usra v11.4s, v3.4s, #14
	usra v12.4s, v1.4s, #9
	add v2.4s, v2.4s, v24.4s
	ushr v24.4s, v22.4s, #10
	usra v13.4s, v10.4s, #17
	eor v10.16b, v11.16b, v3.16b
	eor v11.16b, v12.16b, v1.16b
	add v2.4s, v17.4s, v2.4s
	eor v24.16b, v13.16b, v24.16b
	shl v12.4s, v10.4s, #27
	shl v13.4s, v11.4s, #21
	add v24.4s, v2.4s, v24.4s
	eor v2.16b, v1.16b, v4.16b
	usra v12.4s, v10.4s, #5
	usra v13.4s, v11.4s, #11
	add v10.4s, v24.4s, v14.4s
	mov v14.16b, v3.16b
	and v0.16b, v2.16b, v0.16b
	eor v11.16b, v12.16b, v3.16b
	eor v12.16b, v13.16b, v1.16b
	shl v13.4s, v26.4s, #21
	bsl v14.16b, v16.16b, v9.16b
	add v8.4s, v10.4s, v8.4s
	eor v0.16b, v0.16b, v4.16b
	shl v10.4s, v11.4s, #26
	shl v15.4s, v12.4s, #30
	usra v13.4s, v26.4s, #11
	add v8.4s, v8.4s, v14.4s
	ld1r {v14.4s}, [x10]
	sub x10, x8, #0x14
	usra v10.4s, v11.4s, #6
	usra v15.4s, v12.4s, #2
	eor v11.16b, v13.16b, v26.16b
	shl v12.4s, v23.4s, #30
	add v10.4s, v8.4s, v10.4s
	add v0.4s, v15.4s, v0.4s
	shl v13.4s, v11.4s, #25
	usra v12.4s, v23.4s, #2
	add v8.4s, v10.4s, v5.4s
	add v5.4s, v0.4s, v10.4s
	ushr v0.4s, v26.4s, #3
	usra v13.4s, v11.4s, #7
	eor v10.16b, v12.16b, v23.16b
	shl v11.4s, v8.4s, #18
	shl v12.4s, v5.4s, #23
	eor v0.16b, v13.16b, v0.16b
	shl v13.4s, v10.4s, #15
	usra v11.4s, v8.4s, #14
	usra v12.4s, v5.4s, #9
	add v0.4s, v0.4s, v25.4s
	ushr v25.4s, v23.4s, #10
	usra v13.4s, v10.4s, #17
	eor v10.16b, v11.16b, v8.16b
	eor v11.16b, v12.16b, v5.16b
	add v0.4s, v0.4s, v18.4s
	eor v25.16b, v13.16b, v25.16b
	shl v12.4s, v10.4s, #27
	shl v13.4s, v11.4s, #21
	add v25.4s, v0.4s, v25.4s
	eor v0.16b, v5.16b, v1.16b
	usra v12.4s, v10.4s, #5
	usra v13.4s, v11.4s, #11
	add v10.4s, v25.4s, v14.4s
	mov v14.16b, v8.16b
	and v2.16b, v0.16b, v2.16b
	eor v11.16b, v12.16b, v8.16b
	eor v12.16b, v13.16b, v5.16b
	shl v13.4s, v27.4s, #21
	bsl v14.16b, v3.16b, v16.16b
	add v9.4s, v10.4s, v9.4s
	eor v2.16b, v2.16b, v1.16b
	shl v10.4s, v11.4s, #26
	shl v15.4s, v12.4s, #30
	usra v13.4s, v27.4s, #11
	add v9.4s, v9.4s, v14.4s
	ld1r {v14.4s}, [x10]
	sub x10, x8, #0x10
	usra v10.4s, v11.4s, #6
	usra v15.4s, v12.4s, #2
	eor v11.16b, v13.16b, v27.16b
	shl v12.4s, v24.4s, #30
	add v10.4s, v9.4s, v10.4s
	add v2.4s, v15.4s, v2.4s
	shl v13.4s, v11.4s, #25
	usra v12.4s, v24.4s, #2
	add v9.4s, v10.4s, v6.4s
	add v6.4s, v2.4s, v10.4s
	ushr v2.4s, v27.4s, #3
	usra v13.4s, v11.4s, #7
	eor v10.16b, v12.16b, v24.16b
	shl v11.4s, v9.4s, #18
	shl v12.4s, v6.4s, #23
	eor v2.16b, v13.16b, v2.16b
	shl v13.4s, v10.4s, #15
	usra v11.4s, v9.4s, #14
	usra v12.4s, v6.4s, #9
	add v2.4s, v2.4s, v26.4s
	ushr v26.4s, v24.4s, #10
	usra v13.4s, v10.4s, #17
	eor v10.16b, v11.16b, v9.16b
	eor v11.16b, v12.16b, v6.16b
	add v2.4s, v2.4s, v19.4s
	eor v26.16b, v13.16b, v26.16b
	shl v12.4s, v10.4s, #27
	shl v13.4s, v11.4s, #21
	add v26.4s, v2.4s, v26.4s
	eor v2.16b, v6.16b, v5.16b
	usra v12.4s, v10.4s, #5
	usra v13.4s, v11.4s, #11
	add v10.4s, v26.4s, v14.4s
	mov v14.16b, v9.16b
	and v0.16b, v2.16b, v0.16b
	eor v11.16b, v12.16b, v9.16b
	eor v12.16b, v13.16b, v6.16b
	shl v13.4s, v28.4s, #21
	bsl v14.16b, v8.16b, v3.16b
	add v16.4s, v10.4s, v16.4s
	eor v0.16b, v0.16b, v5.16b
	shl v10.4s, v11.4s, #26
	shl v15.4s, v12.4s, #30
	usra v13.4s, v28.4s, #11
	add v16.4s, v16.4s, v14.4s
	ld1r {v14.4s}, [x10]
	sub x10, x8, #0xc
	usra v10.4s, v11.4s, #6
	usra v15.4s, v12.4s, #2
	eor v11.16b, v13.16b, v28.16b
	shl v12.4s, v25.4s, #30
	add v10.4s, v16.4s, v10.4s
	add v0.4s, v15.4s, v0.4s
	shl v13.4s, v11.4s, #25
	usra v12.4s, v25.4s, #2
	add v16.4s, v10.4s, v4.4s
	add v4.4s, v0.4s, v10.4s
	ushr v0.4s, v28.4s, #3
	usra v13.4s, v11.4s, #7
	eor v10.16b, v12.16b, v25.16b
	shl v11.4s, v16.4s, #18
	shl v12.4s, v4.4s, #23
	eor v0.16b, v13.16b, v0.16b
	shl v13.4s, v10.4s, #15
	usra v11.4s, v16.4s, #14
	usra v12.4s, v4.4s, #9
	add v0.4s, v0.4s, v27.4s
	ushr v27.4s, v25.4s, #10
	usra v13.4s, v10.4s, #17
	eor v10.16b, v11.16b, v16.16b
	eor v11.16b, v12.16b, v4.16b
	add v0.4s, v0.4s, v20.4s
	eor v27.16b, v13.16b, v27.16b
	shl v12.4s, v10.4s, #27
	shl v13.4s, v11.4s, #21
	add v27.4s, v0.4s, v27.4s
	eor v0.16b, v4.16b, v6.16b
	usra v12.4s, v10.4s, #5
	usra v13.4s, v11.4s, #11
	add v10.4s, v27.4s, v14.4s
	mov v14.16b, v16.16b
	and v2.16b, v0.16b, v2.16b
	eor v11.16b, v12.16b, v16.16b
	eor v12.16b, v13.16b, v4.16b
	shl v13.4s, v29.4s, #21
	bsl v14.16b, v9.16b, v8.16b
	add v3.4s, v10.4s, v3.4s
	eor v2.16b, v2.16b, v6.16b
	shl v10.4s, v11.4s, #26
	shl v15.4s, v12.4s, #30
	usra v13.4s, v29.4s, #11
	add v3.4s, v3.4s, v14.4s
	ld1r {v14.4s}, [x10]
	sub x10, x8, #0x8
	usra v10.4s, v11.4s, #6
	usra v15.4s, v12.4s, #2
	eor v11.16b, v13.16b, v29.16b
	shl v12.4s, v26.4s, #30
	add v10.4s, v3.4s, v10.4s
	add v2.4s, v15.4s, v2.4s
	shl v13.4s, v11.4s, #25
	usra v12.4s, v26.4s, #2
	add v3.4s, v10.4s, v1.4s
	add v1.4s, v2.4s, v10.4s
	ushr v2.4s, v29.4s, #3
	usra v13.4s, v11.4s, #7
	eor v10.16b, v12.16b, v26.16b
	shl v11.4s, v3.4s, #18
	shl v12.4s, v1.4s, #23
	eor v2.16b, v13.16b, v2.16b
	shl v13.4s, v10.4s, #15
	usra v11.4s, v3.4s, #14
	usra v12.4s, v1.4s, #9
	add v2.4s, v2.4s, v28.4s
	ushr v28.4s, v26.4s, #10
	usra v13.4s, v10.4s, #17
	eor v10.16b, v11.16b, v3.16b
	eor v11.16b, v12.16b, v1.16b
	add v2.4s, v2.4s, v21.4s
	eor v28.16b, v13.16b, v28.16b
	shl v12.4s, v10.4s, #27
	shl v13.4s, v11.4s, #21
	add v28.4s, v2.4s, v28.4s
	eor v2.16b, v1.16b, v4.16b
	usra v12.4s, v10.4s, #5
	usra v13.4s, v11.4s, #11
	add v10.4s, v28.4s, v14.4s
	mov v14.16b, v3.16b
	and v0.16b, v2.16b, v0.16b
	eor v11.16b, v12.16b, v3.16b
	eor v12.16b, v13.16b, v1.16b
	shl v13.4s, v30.4s, #21
	bsl v14.16b, v16.16b, v9.16b
	add v8.4s, v10.4s, v8.4s
	eor v0.16b, v0.16b, v4.16b
	shl v10.4s, v11.4s, #26
	shl v15.4s, v12.4s, #30
	usra v13.4s, v30.4s, #11
	add v8.4s, v8.4s, v14.4s
	shl v14.4s, v27.4s, #30
	usra v10.4s, v11.4s, #6
	usra v15.4s, v12.4s, #2
	eor v13.16b, v13.16b, v30.16b
	usra v14.4s, v27.4s, #2
	add v8.4s, v8.4s, v10.4s
	add v0.4s, v15.4s, v0.4s
	shl v10.4s, v13.4s, #25
	add v12.4s, v8.4s, v5.4s
	add v11.4s, v0.4s, v8.4s
	ushr v0.4s, v30.4s, #3
	usra v10.4s, v13.4s, #7
	eor v5.16b, v14.16b, v27.16b
	ld1r {v14.4s}, [x10]
	sub x10, x8, #0x4
	shl v8.4s, v12.4s, #18
	shl v13.4s, v11.4s, #23
	eor v0.16b, v10.16b, v0.16b
	shl v10.4s, v5.4s, #15
	usra v8.4s, v12.4s, #14
	usra v13.4s, v11.4s, #9
	add v0.4s, v29.4s, v0.4s
	ushr v29.4s, v27.4s, #10
	usra v10.4s, v5.4s, #17
	eor v5.16b, v8.16b, v12.16b
	eor v8.16b, v13.16b, v11.16b
	eor v29.16b, v10.16b, v29.16b
	add v0.4s, v0.4s, v22.4s
	shl v10.4s, v5.4s, #27
	shl v13.4s, v8.4s, #21
	add v29.4s, v0.4s, v29.4s
	eor v0.16b, v11.16b, v1.16b
	usra v10.4s, v5.4s, #5
	usra v13.4s, v8.4s, #11
	add v5.4s, v29.4s, v14.4s
	shl v14.4s, v31.4s, #21
	and v2.16b, v0.16b, v2.16b
	eor v8.16b, v10.16b, v12.16b
	eor v10.16b, v13.16b, v11.16b
	mov v13.16b, v12.16b
	add v5.4s, v5.4s, v9.4s
	usra v14.4s, v31.4s, #11
	eor v2.16b, v2.16b, v1.16b
	bsl v13.16b, v3.16b, v16.16b
	shl v9.4s, v8.4s, #26
	shl v15.4s, v10.4s, #30
	usra v9.4s, v8.4s, #6
	usra v15.4s, v10.4s, #2
	eor v8.16b, v14.16b, v31.16b
	add v5.4s, v5.4s, v13.4s
	add v2.4s, v15.4s, v2.4s
	shl v13.4s, v8.4s, #25
	add v5.4s, v5.4s, v9.4s
	shl v9.4s, v28.4s, #30
	usra v13.4s, v8.4s, #7
	add v10.4s, v5.4s, v6.4s
	usra v9.4s, v28.4s, #2
	add v5.4s, v2.4s, v5.4s
	ushr v2.4s, v31.4s, #3
	shl v6.4s, v10.4s, #18
	eor v8.16b, v9.16b, v28.16b
	shl v9.4s, v5.4s, #23
	eor v2.16b, v13.16b, v2.16b
	mov v14.16b, v10.16b
	usra v6.4s, v10.4s, #14
	shl v13.4s, v8.4s, #15
	usra v9.4s, v5.4s, #9
	add v2.4s, v2.4s, v30.4s
	ushr v30.4s, v28.4s, #10
	bsl v14.16b, v12.16b, v3.16b
	eor v6.16b, v6.16b, v10.16b
	usra v13.4s, v8.4s, #17
	eor v8.16b, v9.16b, v5.16b
	add v2.4s, v2.4s, v23.4s
	shl v9.4s, v6.4s, #27
	eor v30.16b, v13.16b, v30.16b
	shl v13.4s, v8.4s, #21
	usra v9.4s, v6.4s, #5
	ld1r {v6.4s}, [x10]
	add v30.4s, v2.4s, v30.4s
	usra v13.4s, v8.4s, #11
	eor v2.16b, v5.16b, v11.16b
	eor v8.16b, v9.16b, v10.16b
	add v6.4s, v30.4s, v6.4s
	eor v9.16b, v13.16b, v5.16b
	shl v13.4s, v7.4s, #21
	and v0.16b, v2.16b, v0.16b
	shl v15.4s, v8.4s, #26
	add v6.4s, v6.4s, v16.4s
	shl v16.4s, v9.4s, #30
	usra v13.4s, v7.4s, #11
	eor v0.16b, v0.16b, v11.16b
	usra v15.4s, v8.4s, #6
	add v6.4s, v6.4s, v14.4s
	shl v8.4s, v29.4s, #30
	usra v16.4s, v9.4s, #2
	eor v9.16b, v13.16b, v7.16b
	add v6.4s, v6.4s, v15.4s
	usra v8.4s, v29.4s, #2
	add v0.4s, v16.4s, v0.4s
	shl v13.4s, v9.4s, #25
	add v4.4s, v6.4s, v4.4s
	add v16.4s, v0.4s, v6.4s
	eor v0.16b, v8.16b, v29.16b
	usra v13.4s, v9.4s, #7
	ushr v6.4s, v7.4s, #3
	shl v8.4s, v4.4s, #18
	shl v9.4s, v16.4s, #23
	bsl v2.16b, v16.16b, v5.16b
	eor v6.16b, v13.16b, v6.16b
	shl v13.4s, v0.4s, #15
	usra v8.4s, v4.4s, #14
	usra v9.4s, v16.4s, #9
	usra v13.4s, v0.4s, #17
	ushr v0.4s, v29.4s, #10
	add v6.4s, v6.4s, v31.4s
	eor v8.16b, v8.16b, v4.16b
	eor v9.16b, v9.16b, v16.16b
	eor v0.16b, v13.16b, v0.16b
	add v6.4s, v6.4s, v24.4s
	shl v13.4s, v8.4s, #27
	shl v14.4s, v9.4s, #21
	add v31.4s, v6.4s, v0.4s
	ld1r {v0.4s}, [x8]
	add x8, x8, #0x40
	usra v13.4s, v8.4s, #5
	usra v14.4s, v9.4s, #11
	mov v9.16b, v4.16b
	add v0.4s, v31.4s, v0.4s
	eor v6.16b, v13.16b, v4.16b
	eor v8.16b, v14.16b, v16.16b
	bsl v9.16b, v10.16b, v12.16b
	add v0.4s, v0.4s, v3.4s
	shl v13.4s, v6.4s, #26
	shl v3.4s, v8.4s, #30
	add v0.4s, v0.4s, v9.4s
	usra v13.4s, v6.4s, #6
	usra v3.4s, v8.4s, #2
	add v0.4s, v0.4s, v13.4s
	add v2.4s, v3.4s, v2.4s
	add v6.4s, v0.4s, v1.4s
	add v8.4s, v2.4s, v0.4s
	b.ne L(22_0)
	ldp q1, q0, [sp, #272]
	ldr x30, [sp, #400]
	ldp q3, q2, [sp, #208]
	ldp d15, d14, [sp, #336]
	add v0.4s, v8.4s, v0.4s
	add v1.4s, v16.4s, v1.4s
	add v2.4s, v5.4s, v2.4s
	add v3.4s, v11.4s, v3.4s
	ldp d9, d8, [sp, #384]
	stp q0, q1, [x0]
	ldp q1, q0, [sp, #304]
	stp q2, q3, [x0, #32]
	ldp q3, q2, [sp, #240]
	add v0.4s, v6.4s, v0.4s
	add v1.4s, v4.4s, v1.4s
	add v2.4s, v10.4s, v2.4s
	add v3.4s, v12.4s, v3.4s
	ldp d11, d10, [sp, #368]
	stp q0, q1, [x0, #64]
	ldp d13, d12, [sp, #352]
	stp q2, q3, [x0, #96]
	ldp x8, x9, [x2]
	adds x8, x8, #0x4
	adcs x9, x9, xzr
	csinv x8, x8, xzr, cc
	csinv x9, x9, xzr, cc
	stp x8, x9, [x2]
	add sp, sp, #0x1a0
	ret
	SIZE(ring.digest.lanes.algorithms.InVectorSha256RunBlocks64.run_blocks.39d837fb76adf98f, 5804)

	CODE(ring.raw.context.RawContext.run)
	.p2align 2
/* ring::raw::context::RawContext::run */
	TYPE(ring.raw.context.RawContext.run, %function)
ring.raw.context.RawContext.run:
	sub sp, sp, #0x100
	ldr w9, [x0]
	stp x22, x21, [sp, #224]
	mov x21, x3
	stp x20, x19, [sp, #240]
	mov x20, x2
	mov x19, x0
	cmp w9, #0x2
	mov w8, wzr
	stp x29, x30, [sp, #160]
	str x27, [sp, #176]
	add x29, sp, #0xa0
	stp x26, x25, [sp, #192]
	stp x24, x23, [sp, #208]
	b.le L(24_0)
	cmp w9, #0x3
	b.eq L(24_1)
	cmp w9, #0x4
	b.eq L(24_10)
	cmp w9, #0x5
	b.ne L(24_31)
	mov w8, wzr
	mov w0, #0x4
	mov w10, #0x80
	ldr w9, [x19, #4]
	cmp x10, x9
	b.hi L(24_2)
	b L(24_11)
L(24_0):
	cmp w9, #0x1
	b.eq L(24_12)
	cmp w9, #0x2
	b.ne L(24_31)
	mov w8, #0x1
	mov w10, #0x40
	mov w0, #0x1
	ldr w9, [x19, #4]
	cmp x10, x9
	b.hi L(24_2)
	b L(24_11)
L(24_1):
	mov w0, #0x2
	mov w10, #0x80
	ldr w9, [x19, #4]
	cmp x10, x9
	b.ls L(24_11)
L(24_2):
	ldp x23, x24, [x19, #8]
	add x22, sp, #0x40
	tbz w8, #0, L(24_6)
	ldur q0, [x19, #40]
	ldur q1, [x19, #24]
	mov w8, #0x1
	ldur q2, [x19, #56]
	add x26, sp, #0x40
	add x25, x19, #0x58
	uzp1 v0.4s, v1.4s, v0.4s
	ldur q1, [x19, #72]
	stp xzr, xzr, [sp, #144]
	stp x23, x24, [sp, #64]
	uzp1 v1.4s, v2.4s, v1.4s
	str w8, [sp, #80]
	str wzr, [sp, #148]
	stur q0, [sp, #84]
	movi v0.2d, #0x0
	strb w0, [sp, #152]
	stur q1, [sp, #100]
	stur q0, [sp, #116]
	stur q0, [x22, #68]
	cbz w9, L(24_15)
	mov w10, #0x40
	add x8, x25, x9
	sub x2, x10, x9
	sub x10, x8, x1
	cmp x10, x2
	add x27, x1, x2
	sub x20, x20, x2
	b.cs L(24_13)
	cmp x2, #0x8
	b.cc L(24_3)
	add x8, x19, x9
	sub x8, x8, x1
	add x8, x8, #0x58
	cmp x8, #0x20
	b.cs L(24_32)
L(24_3):
	mov x8, xzr
L(24_4):
	add x9, x8, x9
	add x8, x1, x8
L(24_5):
	ldrb w10, [x8], #1
	strb w10, [x25, x9]
	add x9, x9, #0x1
	cmp x9, #0x40
	b.ne L(24_5)
	b L(24_14)
L(24_6):
	ldur q0, [x19, #24]
	ldur q1, [x19, #40]
	add x26, sp, #0x40
	ldur q2, [x19, #56]
	ldur q3, [x19, #72]
	add x25, x19, #0x58
	stp q0, q1, [sp]
	stp q2, q3, [sp, #32]
	str xzr, [sp, #152]
	stp x23, x24, [sp, #64]
	str xzr, [sp, #80]
	stur q3, [x22, #72]
	stur q0, [sp, #88]
	stur q1, [sp, #104]
	stur q2, [sp, #120]
	strb w0, [sp, #152]
	cbz w9, L(24_22)
	mov w10, #0x80
	add x8, x25, x9
	sub x2, x10, x9
	sub x10, x8, x1
	cmp x10, x2
	add x27, x1, x2
	sub x20, x20, x2
	b.cs L(24_20)
	cmp w9, #0x78
	b.hi L(24_7)
	add x10, x19, x9
	sub x10, x10, x1
	add x10, x10, #0x58
	cmp x10, #0x20
	b.cs L(24_33)
L(24_7):
	mov x10, xzr
L(24_8):
	add x8, x10, x9
	add x9, x1, x10
L(24_9):
	ldrb w10, [x9], #1
	strb w10, [x25, x8]
	add x8, x8, #0x1
	cmp x8, #0x80
	b.ne L(24_9)
	b L(24_21)
L(24_10):
	mov w8, wzr
	mov w0, #0x3
	mov w10, #0x80
	ldr w9, [x19, #4]
	cmp x10, x9
	b.hi L(24_2)
L(24_11):
	mov w8, wzr
	b L(24_31)
L(24_12):
	mov w0, wzr
	mov w8, #0x1
	mov w10, #0x40
	ldr w9, [x19, #4]
	cmp x10, x9
	b.hi L(24_2)
	b L(24_11)
L(24_13):
	mov w23, w0
	mov x0, x8
	bl memmove
	mov w0, w23
L(24_14):
	add x1, x26, #0x10
	add x2, x19, #0x58
	mov w3, #0x40
	mov x4, x21
	mov w23, #0x40
	bl ring.digest.block_context.run_blocks
	ldp x8, x9, [sp, #64]
	sub x10, x23, x1
	ldrb w0, [sp, #152]
	mov x1, x27
	adds x8, x10, x8
	adcs x9, x9, xzr
	csinv x23, x8, xzr, cc
	csinv x24, x9, xzr, cc
	stp x23, x24, [sp, #64]
L(24_15):
	cmp w0, #0x2
	mov w8, #0x80
	mov w9, #0x40
	csel x8, x9, x8, cc
	cmp x20, x8
	b.cc L(24_16)
	mov x2, x1
	add x1, x26, #0x10
	mov x3, x20
	mov x4, x21
	bl ring.digest.block_context.run_blocks
	ldp x9, x10, [sp, #64]
	mov x8, x1
	sub x11, x20, x1
	mov x1, x0
	mov x20, x8
	adds x9, x11, x9
	adcs x10, x10, xzr
	csinv x23, x9, xzr, cc
	csinv x24, x10, xzr, cc
	stp x23, x24, [sp, #64]
L(24_16):
	cbz x20, L(24_28)
	sub x8, x25, x1
	cmp x8, x20
	b.cs L(24_27)
	cmp x20, #0x8
	b.cc L(24_17)
	sub x8, x19, x1
	add x8, x8, #0x58
	cmp x8, #0x20
	b.cs L(24_34)
L(24_17):
	mov x8, xzr
L(24_18):
	add x10, x8, x19
	sub x9, x20, x8
	add x8, x1, x8
	add x10, x10, #0x58
L(24_19):
	ldrb w11, [x8], #1
	subs x9, x9, #0x1
	strb w11, [x10], #1
	b.ne L(24_19)
	b L(24_28)
L(24_20):
	mov w23, w0
	mov x0, x8
	bl memmove
	mov w0, w23
L(24_21):
	add x1, x26, #0x10
	add x2, x19, #0x58
	mov w3, #0x80
	mov x4, x21
	mov w23, #0x80
	bl ring.digest.block_context.run_blocks
	ldp x8, x9, [sp, #64]
	sub x10, x23, x1
	ldrb w0, [sp, #152]
	mov x1, x27
	adds x8, x10, x8
	adcs x9, x9, xzr
	csinv x23, x8, xzr, cc
	csinv x24, x9, xzr, cc
	stp x23, x24, [sp, #64]
L(24_22):
	cmp w0, #0x2
	mov w8, #0x80
	mov w9, #0x40
	csel x8, x9, x8, cc
	cmp x20, x8
	b.cc L(24_23)
	mov x2, x1
	add x1, x26, #0x10
	mov x3, x20
	mov x4, x21
	bl ring.digest.block_context.run_blocks
	ldp x9, x10, [sp, #64]
	mov x8, x1
	sub x11, x20, x1
	mov x1, x0
	mov x20, x8
	adds x9, x11, x9
	adcs x10, x10, xzr
	csinv x23, x9, xzr, cc
	csinv x24, x10, xzr, cc
	stp x23, x24, [sp, #64]
L(24_23):
	cbz x20, L(24_28)
	sub x8, x25, x1
	cmp x8, x20
	b.cs L(24_27)
	cmp x20, #0x8
	b.cc L(24_24)
	sub x8, x19, x1
	add x8, x8, #0x58
	cmp x8, #0x20
	b.cs L(24_35)
L(24_24):
	mov x8, xzr
L(24_25):
	add x10, x8, x19
	sub x9, x20, x8
	add x8, x1, x8
	add x10, x10, #0x58
L(24_26):
	ldrb w11, [x8], #1
	subs x9, x9, #0x1
	strb w11, [x10], #1
	b.ne L(24_26)
	b L(24_28)
L(24_27):
	add x0, x19, #0x58
	mov x2, x20
	bl memmove
L(24_28):
	ldrb w8, [sp, #80]
	str w20, [x19, #4]
	stp x23, x24, [x19, #8]
	cbz w8, L(24_29)
	ldur d0, [sp, #84]
	ldur d1, [sp, #92]
	ldur d2, [sp, #100]
	ldur d4, [sp, #108]
	uxtl v0.2d, v0.2s
	uxtl v1.2d, v1.2s
	uxtl v3.2d, v2.2s
	uxtl v2.2d, v4.2s
	b L(24_30)
L(24_29):
	ldur q0, [sp, #88]
	ldur q1, [sp, #104]
	ldur q3, [sp, #120]
	ldur q2, [x22, #72]
L(24_30):
	stur q0, [x19, #24]
	mov w8, #0x1
	stur q1, [x19, #40]
	stur q3, [x19, #56]
	stur q2, [x19, #72]
L(24_31):
	ldp x20, x19, [sp, #240]
	mov w0, w8
	ldp x22, x21, [sp, #224]
	ldr x27, [sp, #176]
	ldp x24, x23, [sp, #208]
	ldp x26, x25, [sp, #192]
	ldp x29, x30, [sp, #160]
	add sp, sp, #0x100
	ret
L(24_32):
	cmp x2, #0x20
	b.cs L(24_36)
	mov x8, xzr
	b L(24_38)
L(24_33):
	cmp w9, #0x60
	b.ls L(24_40)
	mov x10, xzr
	b L(24_42)
L(24_34):
	cmp x20, #0x20
	b.cs L(24_44)
	mov x8, xzr
	b L(24_46)
L(24_35):
	cmp x20, #0x20
	b.cs L(24_48)
	mov x8, xzr
	b L(24_50)
L(24_36):
	add x12, x9, x19
	and x10, x2, #0x18
	and x8, x2, #0xffffffffffffffe0
	add x11, x1, #0x10
	add x12, x12, #0x68
	and x13, x2, #0xffffffffffffffe0
L(24_37):
	ldp q0, q1, [x11, #-16]
	subs x13, x13, #0x20
	add x11, x11, #0x20
	stp q0, q1, [x12, #-16]
	add x12, x12, #0x20
	b.ne L(24_37)
	cmp x2, x8
	b.eq L(24_14)
	cbz x10, L(24_4)
L(24_38):
	mov x11, x8
	and x8, x2, #0xfffffffffffffff8
	add x10, x11, x9
	add x12, x10, x19
	sub x10, x11, x8
	add x11, x1, x11
	add x12, x12, #0x58
L(24_39):
	ldr d0, [x11], #8
	adds x10, x10, #0x8
	str d0, [x12], #8
	b.ne L(24_39)
	cmp x2, x8
	b.eq L(24_14)
	b L(24_4)
L(24_40):
	ldp q0, q1, [x1]
	and x10, x2, #0xe0
	cmp x10, #0x20
	stp q0, q1, [x8]
	b.eq L(24_41)
	ldp q0, q1, [x1, #32]
	cmp x10, #0x40
	stp q0, q1, [x8, #32]
	b.eq L(24_41)
	ldp q0, q1, [x1, #64]
	stp q0, q1, [x8, #64]
L(24_41):
	cmp x2, x10
	b.eq L(24_21)
	and x8, x2, #0x18
	cbz x8, L(24_8)
L(24_42):
	mov x11, x10
	and x10, x2, #0xf8
	add x8, x11, x19
	add x12, x8, x9
	sub x8, x11, x10
	add x11, x1, x11
	add x12, x12, #0x58
L(24_43):
	ldr d0, [x11], #8
	adds x8, x8, #0x8
	str d0, [x12], #8
	b.ne L(24_43)
	cmp x2, x10
	b.eq L(24_21)
	b L(24_8)
L(24_44):
	and x9, x20, #0x18
	and x8, x20, #0xffffffffffffffe0
	add x10, x1, #0x10
	add x11, x19, #0x68
	and x12, x20, #0xffffffffffffffe0
L(24_45):
	ldp q0, q1, [x10, #-16]
	subs x12, x12, #0x20
	add x10, x10, #0x20
	stp q0, q1, [x11, #-16]
	add x11, x11, #0x20
	b.ne L(24_45)
	cmp x20, x8
	b.eq L(24_28)
	cbz x9, L(24_18)
L(24_46):
	mov x10, x8
	and x8, x20, #0xfffffffffffffff8
	add x11, x10, x19
	sub x9, x10, x8
	add x10, x1, x10
	add x11, x11, #0x58
L(24_47):
	ldr d0, [x10], #8
	adds x9, x9, #0x8
	str d0, [x11], #8
	b.ne L(24_47)
	cmp x20, x8
	b.eq L(24_28)
	b L(24_18)
L(24_48):
	and x9, x20, #0x18
	and x8, x20, #0xffffffffffffffe0
	add x10, x1, #0x10
	add x11, x19, #0x68
	and x12, x20, #0xffffffffffffffe0
L(24_49):
	ldp q0, q1, [x10, #-16]
	subs x12, x12, #0x20
	add x10, x10, #0x20
	stp q0, q1, [x11, #-16]
	add x11, x11, #0x20
	b.ne L(24_49)
	cmp x20, x8
	b.eq L(24_28)
	cbz x9, L(24_25)
L(24_50):
	mov x10, x8
	and x8, x20, #0xfffffffffffffff8
	add x11, x10, x19
	sub x9, x10, x8
	add x10, x1, x10
	add x11, x11, #0x58
L(24_51):
	ldr d0, [x10], #8
	adds x9, x9, #0x8
	str d0, [x11], #8
	b.ne L(24_51)
	cmp x20, x8
	b.eq L(24_28)
	b L(24_25)
	SIZE(ring.raw.context.RawContext.run, 1716)

	CODE(ring.hmac.key.Key.new_counted)
	.p2align 2
/* ring::hmac::key::Key::new_counted */
	TYPE(ring.hmac.key.Key.new_counted, %function)
ring.hmac.key.Key.new_counted:
	stp x29, x30, [sp, #-96]!
	stp x28, x27, [sp, #16]
	mov x29, sp
	stp x26, x25, [sp, #32]
	stp x24, x23, [sp, #48]
	stp x22, x21, [sp, #64]
	stp x20, x19, [sp, #80]
	sub sp, sp, #0x370
	movi v0.2d, #0x0
	tst w1, #0xfe
	mov w8, #0x80
	mov w9, #0x40
	mov x21, x4
	mov w20, w1
	csel x22, x9, x8, eq
	mov x19, x0
	add x24, sp, #0x40
	sub x25, x29, #0xf0
	cmp x3, x22
	stp xzr, xzr, [sp, #368]
	stp q0, q0, [x24, #128]
	stp q0, q0, [x24, #160]
	stp q0, q0, [x24, #224]
	stp q0, q0, [x24, #256]
	str wzr, [sp, #352]
	stp xzr, xzr, [sp, #272]
	str wzr, [sp, #256]
	stp xzr, xzr, [sp, #40]
	stur xzr, [sp, #55]
	sturh wzr, [x29, #-80]
	stp q0, q0, [x25, #96]
	stp q0, q0, [x25, #128]
	b.ls L(26_0)
	sub x0, x29, #0x90
	mov w1, w20
	mov x4, x21
	bl ring.digest.context.digest_counted
	ldurb w8, [x29, #-144]
	cbz w8, L(26_1)
	movi v0.2d, #0x0
	mov w8, #0x1
	strb w8, [x19]
	stp q0, q0, [x19, #16]
	stp q0, q0, [x19, #48]
	stp q0, q0, [x19, #80]
	stp q0, q0, [x19, #112]
	stp q0, q0, [x19, #144]
	stp q0, q0, [x19, #176]
	b L(26_7)
L(26_0):
	add x0, sp, #0x180
	mov x1, x2
	mov x2, x3
	stp q0, q0, [x24, #320]
	stp q0, q0, [x24, #352]
	stp q0, q0, [x24, #384]
	stp q0, q0, [x24, #416]
	bl memcpy
	ldp q0, q1, [x24, #384]
	stp q0, q1, [sp, #128]
	ldp q0, q2, [x24, #416]
	str q0, [sp, #160]
	ldp q0, q1, [x24, #320]
	str q2, [x24, #112]
	stp q0, q1, [sp, #64]
	ldp q2, q0, [x24, #352]
	b L(26_6)
L(26_1):
	ldurb w9, [x29, #-79]
	ldur q0, [x25, #113]
	add x8, sp, #0x200
	ldur q1, [x25, #129]
	ldur q2, [x25, #145]
	ldur q3, [x25, #97]
	cmp w9, #0x1
	sturb w9, [x29, #-176]
	stp q0, q1, [x24, #592]
	str q2, [x24, #624]
	str q3, [x24, #576]
	b.le L(26_2)
	cmp w9, #0x2
	b.eq L(26_4)
	cmp w9, #0x3
	b.ne L(26_3)
	add x0, x8, #0x40
	mov w23, #0x40
	b L(26_5)
L(26_2):
	cbnz w9, L(26_3)
	add x0, x8, #0x14
	mov w23, #0x14
	b L(26_5)
L(26_3):
	add x0, x8, #0x20
	mov w23, #0x20
	b L(26_5)
L(26_4):
	add x0, x8, #0x30
	mov w23, #0x30
L(26_5):
	mov w8, #0x80
	mov w1, wzr
	sub x2, x8, x23
	bl memset
	add x0, sp, #0x200
	sub x1, x29, #0xf0
	mov x2, x23
	bl memcpy
	ldp q0, q1, [x24, #512]
	stp q0, q1, [sp, #128]
	ldp q0, q2, [x24, #544]
	str q0, [sp, #160]
	ldp q0, q1, [x24, #448]
	str q2, [x24, #112]
	stp q0, q1, [sp, #64]
	ldp q2, q0, [x24, #480]
L(26_6):
	stp q2, q0, [sp, #96]
	ldp q1, q2, [sp, #64]
	movi v0.16b, #0x36
	ldr q5, [sp, #160]
	and x8, x20, #0xff
	adrp x9, PAGE(L(switch.table.yz_digest_each_wide.226))
	add x9, x9, IN_PAGE(L(switch.table.yz_digest_each_wide.226))
	adrp x10, PAGE(L(switch.table.yz_digest_each_wide.219))
	add x10, x10, IN_PAGE(L(switch.table.yz_digest_each_wide.219))
	stp q1, q2, [x25, #96]
	ldr x11, [x9, x8, lsl #3]
	ldp q1, q3, [sp, #128]
	adrp x9, PAGE(L(switch.table.yz_digest_each_wide.218))
	add x9, x9, IN_PAGE(L(switch.table.yz_digest_each_wide.218))
	ldr w13, [x10, x8, lsl #2]
	adrp x10, PAGE(L(switch.table.yz_digest_each_wide.222))
	add x10, x10, IN_PAGE(L(switch.table.yz_digest_each_wide.222))
	ldr w12, [x9, x8, lsl #2]
	adrp x9, PAGE(L(switch.table.yz_digest_each_wide.220))
	add x9, x9, IN_PAGE(L(switch.table.yz_digest_each_wide.220))
	stp q1, q3, [x25, #160]
	ldr x16, [x10, x8, lsl #3]
	ldp q2, q1, [sp, #96]
	ldr x14, [x9, x8, lsl #3]
	ldp q4, q3, [x25, #96]
	adrp x9, PAGE(L(switch.table.yz_digest_each_wide.221))
	add x9, x9, IN_PAGE(L(switch.table.yz_digest_each_wide.221))
	adrp x10, PAGE(L(switch.table.yz_digest_each_wide.224))
	add x10, x10, IN_PAGE(L(switch.table.yz_digest_each_wide.224))
	stp q2, q1, [x25, #128]
	ldr q2, [x24, #112]
	ldr x15, [x9, x8, lsl #3]
	eor v4.16b, v4.16b, v0.16b
	eor v3.16b, v3.16b, v0.16b
	adrp x9, PAGE(L(switch.table.yz_digest_each_wide.223))
	add x9, x9, IN_PAGE(L(switch.table.yz_digest_each_wide.223))
	stp q5, q2, [x25, #192]
	ldr x26, [x10, x8, lsl #3]
	ldp q1, q5, [x25, #128]
	ldr x23, [x9, x8, lsl #3]
	stp q4, q3, [x25, #96]
	ldp q2, q4, [x25, #160]
	adrp x9, PAGE(L(switch.table.yz_digest_each_wide.225))
	add x9, x9, IN_PAGE(L(switch.table.yz_digest_each_wide.225))
	sub x2, x29, #0x90
	eor v1.16b, v1.16b, v0.16b
	eor v5.16b, v5.16b, v0.16b
	ldr x27, [x9, x8, lsl #3]
	eor v2.16b, v2.16b, v0.16b
	adrp x9, PAGE(L(switch.table.yz_digest_each_wide.227))
	add x9, x9, IN_PAGE(L(switch.table.yz_digest_each_wide.227))
	ldr x28, [x9, x8, lsl #3]
	sub x8, x29, #0xf0
	mov w0, w20
	stp q1, q5, [x25, #128]
	eor v1.16b, v4.16b, v0.16b
	add x1, x8, #0x10
	mov x3, x22
	mov x4, x21
	stp x11, x16, [sp]
	stp xzr, xzr, [x29, #-160]
	stp q2, q1, [x25, #160]
	ldp q3, q2, [x25, #192]
	stp w13, w12, [sp, #32]
	stp xzr, xzr, [x29, #-240]
	eor v3.16b, v3.16b, v0.16b
	eor v0.16b, v2.16b, v0.16b
	stp x15, x14, [sp, #16]
	stp w12, w13, [x29, #-224]
	stp q3, q0, [x25, #192]
	stp x14, x15, [x29, #-216]
	stp x16, x23, [x29, #-200]
	stp x26, x27, [x29, #-184]
	stp x11, x28, [x29, #-168]
	sturb w20, [x29, #-152]
	bl ring.digest.block_context.run_blocks
	ldp x8, x9, [x29, #-240]
	sub x10, x22, x1
	ldur q0, [x25, #52]
	ldur q1, [x25, #68]
	mov x4, x21
	ldr q5, [sp, #160]
	ldurb w21, [x29, #-224]
	sub x2, x29, #0x90
	adds x8, x10, x8
	stp q0, q1, [x24, #256]
	ldur q0, [x25, #36]
	adcs x9, x9, xzr
	ldur q1, [x25, #20]
	mov w0, w20
	csinv x8, x8, xzr, cc
	csinv x9, x9, xzr, cc
	mov x3, x22
	stp x8, x9, [x29, #-240]
	ldur w8, [x29, #-156]
	stp q1, q0, [x24, #224]
	ldr q0, [x24, #576]
	ldp q2, q1, [sp, #64]
	str w8, [sp, #352]
	str q0, [x24, #304]
	ldp q0, q3, [sp, #128]
	ldr w8, [sp, #36]
	stp xzr, xzr, [x29, #-240]
	stp q2, q1, [x25, #96]
	movi v2.16b, #0x5c
	stp q0, q3, [x25, #160]
	ldp q1, q0, [sp, #96]
	ldp q4, q3, [x25, #96]
	stur w8, [x29, #-224]
	ldr w8, [sp, #32]
	stp x26, x27, [x29, #-184]
	stp q1, q0, [x25, #128]
	ldr q1, [x24, #112]
	stur w8, [x29, #-220]
	ldr x8, [sp, #24]
	eor v4.16b, v4.16b, v2.16b
	stp q5, q1, [x25, #192]
	ldp q0, q5, [x25, #128]
	eor v3.16b, v3.16b, v2.16b
	stur x8, [x29, #-216]
	ldr x8, [sp, #16]
	eor v0.16b, v0.16b, v2.16b
	eor v5.16b, v5.16b, v2.16b
	stur x8, [x29, #-208]
	stp q4, q3, [x25, #96]
	ldp q1, q3, [x25, #160]
	ldr x8, [sp, #8]
	stp q0, q5, [x25, #128]
	ldp q0, q4, [x25, #192]
	stp x8, x23, [x29, #-200]
	ldr x8, [sp]
	eor v1.16b, v1.16b, v2.16b
	eor v3.16b, v3.16b, v2.16b
	ldurb w23, [x29, #-152]
	eor v0.16b, v0.16b, v2.16b
	eor v2.16b, v4.16b, v2.16b
	stp x8, xzr, [x29, #-168]
	sub x8, x29, #0xf0
	stp x28, xzr, [x29, #-160]
	add x1, x8, #0x10
	stp q1, q3, [x25, #160]
	stp q0, q2, [x25, #192]
	sturb w20, [x29, #-152]
	bl ring.digest.block_context.run_blocks
	ldp x8, x9, [x29, #-240]
	sub x10, x22, x1
	ldur q0, [x25, #52]
	ldur q1, [x25, #68]
	ldur q2, [x25, #20]
	strb wzr, [x19]
	adds x8, x10, x8
	stp q0, q1, [x24, #160]
	ldur q1, [x25, #36]
	adcs x9, x9, xzr
	str w21, [x19, #32]
	csinv x8, x8, xzr, cc
	csinv x9, x9, xzr, cc
	stp q2, q1, [x24, #128]
	stp x8, x9, [x29, #-240]
	ldur w8, [x29, #-156]
	ldurb w9, [x29, #-224]
	ldr q0, [x25]
	strb w23, [x19, #104]
	str w8, [sp, #256]
	ldr w8, [sp, #352]
	str q0, [x24, #208]
	ldr q0, [x24, #304]
	str w8, [x19, #100]
	str q0, [x19, #16]
	ldp q1, q0, [x24, #208]
	str w9, [x19, #128]
	str wzr, [x19, #204]
	stur q1, [sp, #47]
	ldp q2, q1, [x24, #240]
	stur q0, [x19, #36]
	ldur x8, [sp, #55]
	ldur q0, [sp, #40]
	stur wzr, [x19, #201]
	stur q1, [x19, #68]
	str x8, [x19, #120]
	ldr w8, [sp, #256]
	stur q0, [x19, #105]
	ldp q0, q1, [x24, #128]
	stur q2, [x19, #52]
	ldr q2, [x24, #272]
	str w8, [x19, #196]
	ldurb w8, [x29, #-152]
	stur q2, [x19, #84]
	stur q0, [x19, #132]
	ldp q2, q0, [x24, #160]
	stur q1, [x19, #148]
	strb w8, [x19, #200]
	stur q0, [x19, #180]
	stur q2, [x19, #164]
L(26_7):
	add sp, sp, #0x370
	ldp x20, x19, [sp, #80]
	ldp x22, x21, [sp, #64]
	ldp x24, x23, [sp, #48]
	ldp x26, x25, [sp, #32]
	ldp x28, x27, [sp, #16]
	ldp x29, x30, [sp], #96
	ret
	SIZE(ring.hmac.key.Key.new_counted, 1248)

	CODE(ring.hkdf.salt.Salt.extract)
	.p2align 2
/* ring::hkdf::salt::Salt::extract */
	TYPE(ring.hkdf.salt.Salt.extract, %function)
ring.hkdf.salt.Salt.extract:
	stp x29, x30, [sp, #-64]!
	str x28, [sp, #16]
	mov x29, sp
	stp x22, x21, [sp, #32]
	stp x20, x19, [sp, #48]
	sub sp, sp, #0x330
	movi v0.2d, #0x0
	mov x19, x0
	add x21, sp, #0x20
	add x0, sp, #0x1c0
	mov x4, sp
	mov x20, x1
	strh wzr, [sp, #512]
	stp xzr, xzr, [sp, #240]
	stur q0, [x21, #191]
	stp q0, q0, [sp]
	stp q0, q0, [sp, #32]
	stp q0, q0, [sp, #64]
	stp q0, q0, [sp, #96]
	stp q0, q0, [sp, #128]
	stp q0, q0, [sp, #160]
	stp q0, q0, [sp, #192]
	stp q0, q0, [sp, #448]
	stp q0, q0, [sp, #480]
	bl ring.hmac.sign_counted
	ldrb w8, [sp, #448]
	cbz w8, L(28_0)
	movi v0.2d, #0x0
	mov w8, #0x1
	stur q0, [x21, #191]
	stur q0, [x21, #175]
	stur q0, [x21, #159]
	stur q0, [x21, #143]
	stur q0, [x21, #127]
	stur q0, [x21, #111]
	stur q0, [sp, #127]
	stur q0, [sp, #111]
	stur q0, [sp, #95]
	stur q0, [sp, #79]
	stur q0, [sp, #63]
	stur q0, [sp, #47]
	b L(28_1)
L(28_0):
	add x22, sp, #0xf0
	add x8, sp, #0x1c0
	ldrb w9, [sp, #513]
	ldur q0, [x22, #241]
	ldur q1, [x8, #49]
	ldrb w1, [x20, #88]
	strb w9, [sp, #592]
	sub x0, x29, #0xd0
	add x2, sp, #0x210
	stp q0, q1, [sp, #560]
	ldur q0, [x22, #225]
	ldur q1, [x8, #1]
	and w8, w9, #0xff
	adrp x9, PAGE(L(switch.table.yz_webhook_verify_stripe))
	add x9, x9, IN_PAGE(L(switch.table.yz_webhook_verify_stripe))
	stp q1, q0, [sp, #528]
	movi v0.2d, #0x0
	ldr x3, [x9, x8, lsl #3]
	mov x4, sp
	stp q0, q0, [x29, #-192]
	stp q0, q0, [x29, #-160]
	stp q0, q0, [x29, #-128]
	stp q0, q0, [x29, #-96]
	stp q0, q0, [x29, #-64]
	stp q0, q0, [x29, #-32]
	stur q0, [x29, #-208]
	bl ring.hmac.key.Key.new_counted
	ldurb w8, [x29, #-208]
	cbnz w8, L(28_2)
	ldp q0, q1, [x29, #-64]
	stur q0, [x22, #143]
	stur q1, [x22, #159]
	ldp q0, q1, [x29, #-32]
	stur q0, [x22, #175]
	stur q1, [x22, #191]
	ldp q0, q1, [x29, #-128]
	stur q0, [x22, #79]
	stur q1, [x22, #95]
	ldp q0, q1, [x29, #-96]
	stur q0, [x22, #111]
	stur q1, [x22, #127]
	ldp q0, q1, [x29, #-192]
	stur q0, [x22, #15]
	stur q1, [x22, #31]
	ldp q0, q1, [x29, #-160]
	stur q0, [x22, #47]
	ldur q0, [x22, #143]
	stur q1, [x22, #63]
	ldur q1, [x22, #159]
	stur q0, [x21, #143]
	ldur q0, [x22, #175]
	stur q1, [x21, #159]
	ldur q1, [x22, #191]
	stur q0, [x21, #175]
	ldur q0, [x22, #79]
	stur q1, [x21, #191]
	ldur q1, [x22, #95]
	stur q0, [sp, #111]
	ldur q0, [x22, #111]
	stur q1, [sp, #127]
	ldur q1, [x22, #127]
	stur q0, [x21, #111]
	ldur q0, [x22, #15]
	stur q1, [x21, #127]
	ldur q1, [x22, #31]
	stur q0, [sp, #47]
	ldur q0, [x22, #47]
	stur q1, [sp, #63]
	ldur q1, [x22, #63]
	stur q0, [sp, #79]
	stur q1, [sp, #95]
L(28_1):
	ldur q0, [x21, #143]
	ldur q1, [x21, #159]
	ldur q2, [x21, #175]
	strb w8, [x19]
	stp q0, q1, [x19, #144]
	ldur q0, [x21, #191]
	ldur q1, [sp, #111]
	stp q2, q0, [x19, #176]
	ldur q0, [sp, #127]
	ldur q2, [x21, #111]
	stp q1, q0, [x19, #80]
	ldur q0, [x21, #127]
	ldur q1, [sp, #47]
	stp q2, q0, [x19, #112]
	ldur q0, [sp, #63]
	ldur q2, [sp, #79]
	stp q1, q0, [x19, #16]
	ldur q0, [sp, #95]
	stp q2, q0, [x19, #48]
	add sp, sp, #0x330
	ldp x20, x19, [sp, #48]
	ldr x28, [sp, #16]
	ldp x22, x21, [sp, #32]
	ldp x29, x30, [sp], #64
	ret
L(28_2):
	brk #0x1
	SIZE(ring.hkdf.salt.Salt.extract, 556)

	CODE(ring.hmac.sign_counted)
	.p2align 2
/* ring::hmac::sign_counted */
	TYPE(ring.hmac.sign_counted, %function)
ring.hmac.sign_counted:
	stp x29, x30, [sp, #-64]!
	str x28, [sp, #16]
	mov x29, sp
	stp x22, x21, [sp, #32]
	stp x20, x19, [sp, #48]
	sub sp, sp, #0x270
	mov x8, #0x1fffffffffffffc0
	ldrb w21, [x1, #88]
	mov x20, x1
	mov x19, x0
	cmp x3, x8
	stp xzr, xzr, [sp, #224]
	b.cc L(30_0)
	cmp w21, #0x1
	b.hi L(30_0)
	movi v0.2d, #0x0
	mov w8, #0x1
	strb wzr, [x19, #65]
	strb w8, [x19]
	stur q0, [x19, #1]
	stur q0, [x19, #17]
	stur q0, [x19, #33]
	b L(30_3)
L(30_0):
	ldur q0, [x20, #36]
	add x10, sp, #0x90
	ldrb w11, [x20, #16]
	ldp x8, x9, [x20]
	cmp w21, #0x2
	stur q0, [x10, #36]
	ldur q0, [x20, #52]
	mov w12, #0x80
	str w11, [sp, #160]
	mov w11, #0x40
	ldr w13, [x20, #84]
	stur q0, [x10, #52]
	ldur q0, [x20, #68]
	csel x11, x11, x12, cc
	cmp x3, x11
	stp x8, x9, [sp, #144]
	stur q0, [x10, #68]
	ldur q0, [x20, #20]
	str w13, [sp, #228]
	stur q0, [x10, #20]
	strb w21, [sp, #232]
	b.cs L(30_1)
	mov x22, x4
	b L(30_2)
L(30_1):
	add x1, x10, #0x10
	mov w0, w21
	mov x21, x3
	mov x22, x4
	bl ring.digest.block_context.run_blocks
	ldp x8, x9, [sp, #144]
	sub x10, x21, x1
	ldrb w21, [sp, #232]
	mov x2, x0
	mov x3, x1
	adds x8, x10, x8
	adcs x9, x9, xzr
	csinv x8, x8, xzr, cc
	csinv x9, x9, xzr, cc
	stp x8, x9, [sp, #144]
L(30_2):
	movi v0.2d, #0x0
	adds x8, x3, x8
	sub x6, x29, #0x100
	adcs x9, x9, xzr
	mov w0, w21
	mov x1, x2
	csinv x4, x8, xzr, cc
	csinv x5, x9, xzr, cc
	mov x2, x3
	stp q0, q0, [sp, #240]
	stp q0, q0, [sp, #272]
	stp q0, q0, [x29, #-256]
	stp q0, q0, [x29, #-224]
	stp q0, q0, [x29, #-192]
	stp q0, q0, [x29, #-160]
	stp q0, q0, [x29, #-128]
	stp q0, q0, [x29, #-96]
	stp q0, q0, [x29, #-64]
	stp q0, q0, [x29, #-32]
	bl ring.digest.block_context.write_tail
	mov x3, x0
	add x0, sp, #0xf0
	add x1, sp, #0x90
	sub x2, x29, #0x100
	mov x4, x22
	bl ring.digest.block_context.BlockContext.output_after
	ldp q1, q0, [sp, #272]
	adrp x8, PAGE(L(switch.table.yz_webhook_verify_stripe))
	add x8, x8, IN_PAGE(L(switch.table.yz_webhook_verify_stripe))
	ldp q3, q2, [sp, #240]
	ldr x2, [x8, w21, uxtw #3]
	add x1, sp, #0x40
	sub x6, x29, #0x100
	ldp x8, x9, [x20, #96]!
	stp q3, q2, [sp]
	ldrb w0, [x20, #88]
	stp q1, q0, [sp, #32]
	stp q1, q0, [sp, #96]
	movi v0.2d, #0x0
	adds x8, x2, x8
	adcs x9, x9, xzr
	stp q3, q2, [sp, #64]
	csinv x4, x8, xzr, cc
	csinv x5, x9, xzr, cc
	strb w21, [sp, #128]
	stp q0, q0, [sp, #304]
	stp q0, q0, [sp, #336]
	stp q0, q0, [x29, #-256]
	stp q0, q0, [x29, #-224]
	stp q0, q0, [x29, #-192]
	stp q0, q0, [x29, #-160]
	stp q0, q0, [x29, #-128]
	stp q0, q0, [x29, #-96]
	stp q0, q0, [x29, #-64]
	stp q0, q0, [x29, #-32]
	bl ring.digest.block_context.write_tail
	mov x3, x0
	add x0, sp, #0x130
	sub x2, x29, #0x100
	mov x1, x20
	mov x4, x22
	bl ring.digest.block_context.BlockContext.output_after
	ldp q0, q1, [sp, #304]
	ldrb w8, [x20, #88]
	strb wzr, [x19]
	strb w8, [x19, #65]
	stur q0, [x19, #1]
	ldp q2, q0, [sp, #336]
	stur q1, [x19, #17]
	stur q2, [x19, #33]
L(30_3):
	stur q0, [x19, #49]
	add sp, sp, #0x270
	ldp x20, x19, [sp, #48]
	ldr x28, [sp, #16]
	ldp x22, x21, [sp, #32]
	ldp x29, x30, [sp], #64
	ret
	SIZE(ring.hmac.sign_counted, 556)

	CODE(ring.hkdf.rounds.write_output)
	.p2align 2
/* ring::hkdf::rounds::write_output */
	TYPE(ring.hkdf.rounds.write_output, %function)
ring.hkdf.rounds.write_output:
	sub sp, sp, #0x160
	movi v0.2d, #0x0
	ldrb w8, [x0, #88]
	stp x26, x25, [sp, #288]
	stp x24, x23, [sp, #304]
	mov x26, x5
	mov x23, x1
	stp x22, x21, [sp, #320]
	mov x22, x2
	mov x24, x0
	adrp x21, PAGE(L(switch.table.yz_webhook_verify_stripe))
	add x21, x21, IN_PAGE(L(switch.table.yz_webhook_verify_stripe))
	stp x20, x19, [sp, #336]
	mov x19, x4
	mov x25, x3
	ldr x20, [x21, x8, lsl #3]
	adrp x2, PAGE(L(static.8))
	add x2, x2, IN_PAGE(L(static.8))
	add x0, sp, #0x60
	mov x1, x24
	mov x3, xzr
	mov x4, x23
	mov x5, x22
	mov w6, #0x1
	mov x7, x26
	stp x29, x30, [sp, #256]
	add x29, sp, #0x100
	stp x28, x27, [sp, #272]
	strb wzr, [sp, #160]
	stp q0, q0, [sp, #16]
	stp q0, q0, [sp, #48]
	stp q0, q0, [sp, #96]
	stp q0, q0, [sp, #128]
	strb wzr, [sp, #80]
	bl ring.hkdf.rounds.round
	ldp q0, q1, [sp, #128]
	cmp x20, x19
	ldrb w8, [sp, #160]
	str x25, [sp, #8]
	stp q0, q1, [x29, #-48]
	ldp q1, q0, [sp, #96]
	sturb w8, [x29, #-16]
	stp q1, q0, [x29, #-80]
	b.cs L(32_1)
	str x20, [sp]
	mov w20, wzr
	mov x28, xzr
L(32_0):
	ldurb w8, [x29, #-16]
	sub x1, x29, #0x50
	ldr x25, [x21, x8, lsl #3]
	ldr x8, [sp, #8]
	mov x21, x24
	mov x24, x23
	mov x23, x22
	mov x22, x26
	add x0, x8, x28
	mov x2, x25
	bl memcpy
	ldr x27, [sp]
	add w6, w20, #0x2
	mov x26, x22
	mov x22, x23
	mov x23, x24
	mov x24, x21
	add x0, sp, #0x10
	sub x2, x29, #0x50
	mov x1, x24
	mov x3, x25
	mov x4, x23
	mov x5, x22
	mov x7, x26
	add x28, x28, x27
	add w20, w20, #0x1
	adrp x21, PAGE(L(switch.table.yz_webhook_verify_stripe))
	add x21, x21, IN_PAGE(L(switch.table.yz_webhook_verify_stripe))
	bl ring.hkdf.rounds.round
	ldp q0, q1, [sp, #48]
	sub x19, x19, x27
	ldrb w8, [sp, #80]
	cmp x27, x19
	stp q0, q1, [x29, #-48]
	ldp q1, q0, [sp, #16]
	sturb w8, [x29, #-16]
	stp q1, q0, [x29, #-80]
	b.cc L(32_0)
	b L(32_2)
L(32_1):
	mov x28, xzr
L(32_2):
	ldr x8, [sp, #8]
	sub x1, x29, #0x50
	mov x2, x19
	add x0, x8, x28
	bl memcpy
	ldp x20, x19, [sp, #336]
	ldp x22, x21, [sp, #320]
	ldp x24, x23, [sp, #304]
	ldp x26, x25, [sp, #288]
	ldp x28, x27, [sp, #272]
	ldp x29, x30, [sp, #256]
	add sp, sp, #0x160
	ret
	SIZE(ring.hkdf.rounds.write_output, 400)

	CODE(ring.hkdf.rounds.round)
	.p2align 2
/* ring::hkdf::rounds::round */
	TYPE(ring.hkdf.rounds.round, %function)
ring.hkdf.rounds.round:
	stp x29, x30, [sp, #-80]!
	stp x28, x25, [sp, #16]
	mov x29, sp
	stp x24, x23, [sp, #32]
	stp x22, x21, [sp, #48]
	stp x20, x19, [sp, #64]
	sub sp, sp, #0x2f0
	ldur q1, [x1, #36]
	add x8, sp, #0x50
	ldur q2, [x1, #52]
	ldr w9, [x1, #84]
	ldur q3, [x1, #116]
	movi v0.2d, #0x0
	stur q1, [sp, #116]
	ldur q1, [x1, #68]
	mov x25, x2
	stur q2, [x8, #52]
	ldur q2, [x1, #164]
	mov x19, x0
	stur q1, [x8, #68]
	ldur q1, [x1, #20]
	add x0, sp, #0x1a0
	str w9, [sp, #164]
	add x9, x8, #0x104
	ldr w10, [x1, #180]
	stur q1, [sp, #100]
	ldur q1, [x1, #148]
	mov w2, #0x150
	str w10, [sp, #404]
	ldrb w10, [x1, #16]
	mov x20, x7
	stp q1, q2, [x9, #32]
	ldur q1, [x1, #132]
	mov w21, w6
	str w10, [sp, #96]
	mov x22, x5
	mov x23, x4
	stp q3, q1, [x9]
	ldp x11, x9, [x1]
	stur q0, [x8, #201]
	mov x24, x3
	stur q0, [x8, #185]
	stp x11, x9, [sp, #80]
	ldrb w9, [x1, #88]
	ldrb w11, [x1, #112]
	stur q0, [x8, #169]
	strb w9, [sp, #168]
	ldp x9, x10, [x1, #96]
	stur q0, [x8, #153]
	stur q0, [x8, #137]
	str x10, [sp, #328]
	ldrb w10, [x1, #184]
	add x1, sp, #0x50
	stp xzr, x9, [sp, #312]
	stur q0, [x8, #217]
	stur q0, [x8, #121]
	stur q0, [x8, #105]
	stur q0, [x8, #89]
	add x8, x8, #0x149
	strb wzr, [sp, #76]
	stp q0, q0, [sp]
	stp q0, q0, [sp, #32]
	strh wzr, [sp, #64]
	str w11, [sp, #336]
	strb w10, [sp, #408]
	str wzr, [x8]
	str wzr, [sp, #412]
	bl memcpy
	add x0, sp, #0x1a0
	mov x1, x25
	mov x2, x24
	mov x3, x20
	bl ring.digest.context.Context.update_counted
	cbz x22, L(34_1)
	add x23, x23, #0x8
L(34_0):
	ldp x1, x2, [x23, #-8]
	add x0, sp, #0x1a0
	mov x3, x20
	bl ring.digest.context.Context.update_counted
	subs x22, x22, #0x1
	add x23, x23, #0x10
	b.ne L(34_0)
L(34_1):
	add x0, sp, #0x1a0
	add x1, sp, #0x4c
	mov w2, #0x1
	mov x3, x20
	strb w21, [sp, #76]
	bl ring.digest.context.Context.update_counted
	add x0, sp, #0x50
	add x1, sp, #0x1a0
	mov w2, #0x150
	bl memcpy
	mov x0, sp
	add x1, sp, #0x50
	mov x2, x20
	bl ring.hmac.context.Context.sign_counted
	ldrb w8, [sp]
	cbnz w8, L(34_2)
	ldur q0, [sp, #33]
	ldur q1, [sp, #49]
	ldrb w8, [sp, #65]
	stp q0, q1, [x19, #32]
	ldur q0, [sp, #17]
	ldur q1, [sp, #1]
	strb w8, [x19, #64]
	stp q1, q0, [x19]
	add sp, sp, #0x2f0
	ldp x20, x19, [sp, #64]
	ldp x22, x21, [sp, #48]
	ldp x24, x23, [sp, #32]
	ldp x28, x25, [sp, #16]
	ldp x29, x30, [sp], #80
	ret
L(34_2):
	brk #0x1
	SIZE(ring.hkdf.rounds.round, 456)

	CODE(ring.digest.context.Context.update_counted)
	.p2align 2
/* ring::digest::context::Context::update_counted */
	TYPE(ring.digest.context.Context.update_counted, %function)
ring.digest.context.Context.update_counted:
	stp x29, x30, [sp, #-80]!
	stp x26, x25, [sp, #16]
	ldrb w26, [x0, #88]
	mov w8, #0x80
	ldr x25, [x0, #224]
	mov w9, #0x40
	stp x24, x23, [sp, #32]
	cmp w26, #0x2
	stp x20, x19, [sp, #64]
	mov x19, x0
	csel x23, x9, x8, cc
	add x24, x0, #0x60
	stp x22, x21, [sp, #48]
	sub x8, x23, x25
	mov x29, sp
	subs x20, x2, x8
	b.cs L(36_4)
	add x0, x24, x25
	sub x8, x0, x1
	cmp x8, x2
	b.cs L(36_8)
	cmp x2, #0x8
	b.cc L(36_0)
	add x8, x25, x19
	sub x8, x8, x1
	add x8, x8, #0x60
	cmp x8, #0x20
	b.cs L(36_18)
L(36_0):
	mov x8, xzr
L(36_1):
	add x9, x8, x25
	add x10, x9, x19
	sub x9, x2, x8
	add x8, x1, x8
	add x10, x10, #0x60
L(36_2):
	ldrb w11, [x8], #1
	subs x9, x9, #0x1
	strb w11, [x10], #1
	b.ne L(36_2)
L(36_3):
	add x20, x25, x2
	b L(36_35)
L(36_4):
	mov x22, x3
	cbz x25, L(36_9)
	add x0, x24, x25
	add x21, x1, x8
	sub x9, x0, x1
	cmp x9, x8
	b.cs L(36_11)
	cmp x8, #0x8
	b.cc L(36_5)
	add x9, x25, x19
	sub x9, x9, x1
	add x9, x9, #0x60
	cmp x9, #0x20
	b.cs L(36_19)
L(36_5):
	mov x9, xzr
L(36_6):
	add x8, x9, x25
	add x9, x1, x9
	add x10, x8, x19
	sub x8, x8, x23
	add x10, x10, #0x60
L(36_7):
	ldrb w11, [x9], #1
	adds x8, x8, #0x1
	strb w11, [x10], #1
	b.cc L(36_7)
	b L(36_12)
L(36_8):
	mov x20, x2
	bl memmove
	add x20, x25, x20
	b L(36_35)
L(36_9):
	mov w0, w26
	mov x20, x2
	mov x21, x1
	cmp w26, #0x2
	mov w8, #0x80
	mov w9, #0x40
	csel x8, x9, x8, cc
	cmp x2, x8
	b.cc L(36_13)
L(36_10):
	add x1, x19, #0x10
	mov x2, x21
	mov x3, x20
	mov x4, x22
	bl ring.digest.block_context.run_blocks
	ldp x8, x9, [x19]
	sub x10, x20, x1
	mov x21, x0
	mov x20, x1
	adds x8, x10, x8
	adcs x9, x9, xzr
	csinv x8, x8, xzr, cc
	csinv x9, x9, xzr, cc
	stp x8, x9, [x19]
	cbnz x1, L(36_14)
	b L(36_35)
L(36_11):
	mov x2, x8
	bl memmove
L(36_12):
	ldrb w0, [x19, #88]
	cmp w26, #0x1
	b.hi L(36_16)
	cmp w0, #0x1
	b.ls L(36_16)
	cmp w0, #0x2
	mov w8, #0x80
	mov w9, #0x40
	csel x8, x9, x8, cc
	cmp x20, x8
	b.cs L(36_10)
L(36_13):
	cbz x20, L(36_35)
L(36_14):
	sub x8, x24, x21
	cmp x8, x20
	b.cs L(36_17)
	cmp x20, #0x8
	b.cc L(36_15)
	sub x8, x19, x21
	add x8, x8, #0x60
	cmp x8, #0x20
	b.cs L(36_20)
L(36_15):
	mov x8, xzr
	b L(36_33)
L(36_16):
	add x1, x19, #0x10
	add x2, x19, #0x60
	mov x3, x23
	mov x4, x22
	bl ring.digest.block_context.run_blocks
	ldp x8, x9, [x19]
	sub x10, x23, x1
	ldrb w0, [x19, #88]
	adds x8, x10, x8
	adcs x9, x9, xzr
	csinv x8, x8, xzr, cc
	csinv x9, x9, xzr, cc
	stp x8, x9, [x19]
	cmp w0, #0x2
	mov w8, #0x80
	mov w9, #0x40
	csel x8, x9, x8, cc
	cmp x20, x8
	b.cc L(36_13)
	b L(36_10)
L(36_17):
	add x0, x19, #0x60
	mov x1, x21
	mov x2, x20
	bl memmove
	b L(36_35)
L(36_18):
	cmp x2, #0x20
	b.cs L(36_21)
	mov x8, xzr
	b L(36_23)
L(36_19):
	cmp x8, #0x20
	b.cs L(36_25)
	mov x9, xzr
	b L(36_27)
L(36_20):
	cmp x20, #0x20
	b.cs L(36_29)
	mov x8, xzr
	b L(36_31)
L(36_21):
	add x11, x25, x19
	and x9, x2, #0x18
	and x8, x2, #0xffffffffffffffe0
	add x10, x1, #0x10
	add x11, x11, #0x70
	and x12, x2, #0xffffffffffffffe0
L(36_22):
	ldp q0, q1, [x10, #-16]
	subs x12, x12, #0x20
	add x10, x10, #0x20
	stp q0, q1, [x11, #-16]
	add x11, x11, #0x20
	b.ne L(36_22)
	cmp x2, x8
	b.eq L(36_3)
	cbz x9, L(36_1)
L(36_23):
	mov x10, x8
	and x8, x2, #0xfffffffffffffff8
	add x9, x10, x25
	add x11, x9, x19
	sub x9, x10, x8
	add x10, x1, x10
	add x11, x11, #0x60
L(36_24):
	ldr d0, [x10], #8
	adds x9, x9, #0x8
	str d0, [x11], #8
	b.ne L(36_24)
	cmp x2, x8
	b.eq L(36_3)
	b L(36_1)
L(36_25):
	add x12, x25, x19
	and x10, x8, #0x18
	and x9, x8, #0xffffffffffffffe0
	add x11, x1, #0x10
	add x12, x12, #0x70
	and x13, x8, #0xffffffffffffffe0
L(36_26):
	ldp q0, q1, [x11, #-16]
	subs x13, x13, #0x20
	add x11, x11, #0x20
	stp q0, q1, [x12, #-16]
	add x12, x12, #0x20
	b.ne L(36_26)
	cmp x8, x9
	b.eq L(36_12)
	cbz x10, L(36_6)
L(36_27):
	mov x11, x9
	and x9, x8, #0xfffffffffffffff8
	add x10, x11, x25
	add x12, x10, x19
	sub x10, x11, x9
	add x11, x1, x11
	add x12, x12, #0x60
L(36_28):
	ldr d0, [x11], #8
	adds x10, x10, #0x8
	str d0, [x12], #8
	b.ne L(36_28)
	cmp x8, x9
	b.eq L(36_12)
	b L(36_6)
L(36_29):
	and x9, x20, #0x18
	and x8, x20, #0xffffffffffffffe0
	add x10, x21, #0x10
	add x11, x19, #0x70
	and x12, x20, #0xffffffffffffffe0
L(36_30):
	ldp q0, q1, [x10, #-16]
	subs x12, x12, #0x20
	add x10, x10, #0x20
	stp q0, q1, [x11, #-16]
	add x11, x11, #0x20
	b.ne L(36_30)
	cmp x20, x8
	b.eq L(36_35)
	cbz x9, L(36_33)
L(36_31):
	mov x10, x8
	and x8, x20, #0xfffffffffffffff8
	add x11, x10, x19
	sub x9, x10, x8
	add x10, x21, x10
	add x11, x11, #0x60
L(36_32):
	ldr d0, [x10], #8
	adds x9, x9, #0x8
	str d0, [x11], #8
	b.ne L(36_32)
	b L(36_34)
L(36_33):
	ldrb w9, [x21, x8]
	strb w9, [x24, x8]
	add x8, x8, #0x1
L(36_34):
	cmp x20, x8
	b.ne L(36_33)
L(36_35):
	str x20, [x19, #224]
	ldp x20, x19, [sp, #64]
	ldp x22, x21, [sp, #48]
	ldp x24, x23, [sp, #32]
	ldp x26, x25, [sp, #16]
	ldp x29, x30, [sp], #80
	ret
	SIZE(ring.digest.context.Context.update_counted, 1004)

	CODE(ring.hmac.context.Context.sign_counted)
	.p2align 2
/* ring::hmac::context::Context::sign_counted */
	TYPE(ring.hmac.context.Context.sign_counted, %function)
ring.hmac.context.Context.sign_counted:
	stp x29, x30, [sp, #-48]!
	stp x28, x21, [sp, #16]
	mov x29, sp
	stp x20, x19, [sp, #32]
	sub sp, sp, #0x320
	ldp q0, q1, [x1, #192]
	add x9, x1, #0x104
	mov x20, x2
	add x8, sp, #0x50
	stp xzr, xzr, [sp, #160]
	mov x19, x0
	ldrb w21, [x1, #328]
	stp q0, q1, [sp, #368]
	ldp q2, q1, [x1, #224]
	strb w21, [sp, #168]
	str q2, [sp, #400]
	ldp q0, q2, [x1, #128]
	ldr x2, [sp, #400]
	str q1, [sp, #80]
	stp q0, q2, [sp, #304]
	ldp q0, q3, [x1, #160]
	stp q0, q3, [sp, #336]
	ldp q2, q0, [x1, #64]
	stp q2, q0, [sp, #240]
	ldp q0, q3, [x1, #96]
	ldrb w0, [sp, #264]
	stp q0, q3, [sp, #272]
	ldp q2, q0, [x1]
	stp q2, q0, [sp, #176]
	ldp q0, q3, [x1, #32]
	ldp x11, x10, [sp, #176]
	stp q0, q3, [sp, #208]
	ldp q2, q0, [x9, #32]
	stur q0, [x8, #68]
	ldp q0, q1, [x9]
	adds x9, x2, x11
	stur q2, [x8, #52]
	adcs x8, x10, xzr
	ldrb w10, [x1, #256]
	csinv x5, x8, xzr, cc
	csinv x4, x9, xzr, cc
	cmp w0, #0x2
	mov x8, #0x1fffffffffffffff
	stur q0, [sp, #100]
	movi v0.2d, #0x0
	str w10, [sp, #96]
	csel x10, xzr, x8, cc
	csinv x8, x8, xzr, cc
	ldr w9, [x1, #324]
	cmp x8, x4
	stur q1, [sp, #116]
	sbcs xzr, x10, x5
	str w9, [sp, #164]
	b.cs L(38_0)
	mov w8, #0x1
	stur q0, [x19, #1]
	strb w8, [x19]
	stur q0, [x19, #17]
	stur q0, [x19, #33]
	stur q0, [x19, #49]
	strb wzr, [x19, #65]
	add sp, sp, #0x320
	ldp x20, x19, [sp, #32]
	ldp x28, x21, [sp, #16]
	ldp x29, x30, [sp], #48
	ret
L(38_0):
	add x8, sp, #0xb0
	sub x6, x29, #0x100
	stp q0, q0, [sp, #416]
	add x1, x8, #0x60
	stp q0, q0, [sp, #448]
	stp q0, q0, [x29, #-256]
	stp q0, q0, [x29, #-224]
	stp q0, q0, [x29, #-192]
	stp q0, q0, [x29, #-160]
	stp q0, q0, [x29, #-128]
	stp q0, q0, [x29, #-96]
	stp q0, q0, [x29, #-64]
	stp q0, q0, [x29, #-32]
	bl ring.digest.block_context.write_tail
	mov x3, x0
	add x0, sp, #0x1a0
	add x1, sp, #0xb0
	sub x2, x29, #0x100
	mov x4, x20
	bl ring.digest.block_context.BlockContext.output_after
	ldp q0, q1, [sp, #416]
	adrp x9, PAGE(L(switch.table.yz_webhook_verify_stripe))
	add x9, x9, IN_PAGE(L(switch.table.yz_webhook_verify_stripe))
	ldrb w8, [sp, #264]
	mov x1, sp
	sub x6, x29, #0x100
	mov w0, w21
	stp q0, q1, [sp]
	ldp q2, q0, [sp, #448]
	strb w8, [sp, #64]
	ldr x2, [x9, x8, lsl #3]
	ldp x8, x9, [sp, #80]
	stp q2, q0, [sp, #32]
	movi v0.2d, #0x0
	adds x8, x2, x8
	adcs x9, x9, xzr
	csinv x4, x8, xzr, cc
	csinv x5, x9, xzr, cc
	stp q0, q0, [sp, #480]
	stp q0, q0, [sp, #512]
	stp q0, q0, [x29, #-256]
	stp q0, q0, [x29, #-224]
	stp q0, q0, [x29, #-192]
	stp q0, q0, [x29, #-160]
	stp q0, q0, [x29, #-128]
	stp q0, q0, [x29, #-96]
	stp q0, q0, [x29, #-64]
	stp q0, q0, [x29, #-32]
	bl ring.digest.block_context.write_tail
	mov x3, x0
	add x0, sp, #0x1e0
	add x1, sp, #0x50
	sub x2, x29, #0x100
	mov x4, x20
	bl ring.digest.block_context.BlockContext.output_after
	ldp q0, q1, [sp, #480]
	strb wzr, [x19]
	strb w21, [x19, #65]
	stur q0, [x19, #1]
	ldp q2, q0, [sp, #512]
	stur q1, [x19, #17]
	stur q2, [x19, #33]
	stur q0, [x19, #49]
	add sp, sp, #0x320
	ldp x20, x19, [sp, #32]
	ldp x28, x21, [sp, #16]
	ldp x29, x30, [sp], #48
	ret
	SIZE(ring.hmac.context.Context.sign_counted, 536)

	CODE(ring_schedules.label.fill_by_label)
	.p2align 2
/* ring_schedules::label::fill_by_label */
	TYPE(ring_schedules.label.fill_by_label, %function)
ring_schedules.label.fill_by_label:
	sub sp, sp, #0xa0
	rev w9, w6
	stp x29, x30, [sp, #144]
	add x29, sp, #0x90
	lsr w9, w9, #16
	add w10, w2, #0x6
	mov w11, #0x6
	sturb w10, [x29, #-40]
	sub x10, x29, #0x24
	adrp x12, PAGE(L(switch.table.ring_schedules.label.fill_by_label))
	add x12, x12, IN_PAGE(L(switch.table.ring_schedules.label.fill_by_label))
	sturh w9, [x29, #-36]
	mov w9, #0x2
	stp x10, x9, [sp]
	sub x9, x29, #0x28
	mov w10, #0x1
	stp x9, x10, [sp, #16]
	adrp x9, PAGE(L(static.9))
	add x9, x9, IN_PAGE(L(static.9))
	stp x9, x11, [sp, #32]
	ldrb w9, [x0, #88]
	sub x11, x29, #0x2c
	sturb w4, [x29, #-44]
	ldr x12, [x12, x9, lsl #3]
	stp x1, x2, [sp, #48]
	stp x11, x10, [sp, #64]
	cmp x6, x12
	stp x3, x4, [sp, #80]
	b.hi L(40_0)
	adds x10, x2, x4
	adrp x11, PAGE(L(switch.table.yz_webhook_verify_stripe))
	add x11, x11, IN_PAGE(L(switch.table.yz_webhook_verify_stripe))
	cset w12, cs
	adds x10, x10, #0xa
	ldr x11, [x11, x9, lsl #3]
	mov x14, #0xffffffffffffffbe
	cinc x12, x12, cs
	cmp w9, #0x2
	mov x9, #0x1fffffffffffffff
	mov x13, #0xffffffffffffff7e
	movk x14, #0x1fff, lsl #48
	csel x9, xzr, x9, cc
	csel x13, x14, x13, cc
	cmp x6, x11
	movi v0.2d, #0x0
	csel x11, x11, xzr, hi
	subs x11, x13, x11
	sbc x9, x9, xzr
	cmp x11, x10
	sbcs xzr, x9, x12
	stp q0, q0, [x29, #-32]
	b.cc L(40_0)
	mov x8, x5
	mov x1, sp
	sub x5, x29, #0x20
	mov w2, #0x6
	mov x3, x8
	mov x4, x6
	bl ring.hkdf.rounds.write_output
	ldp x29, x30, [sp, #144]
	add sp, sp, #0xa0
	ret
L(40_0):
	brk #0x1
	SIZE(ring_schedules.label.fill_by_label, 252)

	CODE(ring_c.otp.write)
	.p2align 2
/* ring_c::otp::write */
	TYPE(ring_c.otp.write, %function)
ring_c.otp.write:
	stp x29, x30, [sp, #-64]!
	stp x28, x23, [sp, #16]
	mov x29, sp
	stp x22, x21, [sp, #32]
	stp x20, x19, [sp, #48]
	sub sp, sp, #0x360
	mov x8, x2
	mov x2, x1
	sub w1, w0, #0x1
	cmp w1, #0x3
	stp xzr, xzr, [sp]
	b.hi L(42_1)
	sub x19, x6, #0x6
	cmp x19, #0x3
	b.cs L(42_2)
	tbz w3, #0, L(42_3)
	movi v0.2d, #0x0
	add x20, sp, #0x190
	stp q0, q0, [sp, #400]
	stp q0, q0, [sp, #432]
	stp q0, q0, [sp, #464]
	stp q0, q0, [sp, #496]
	stp q0, q0, [sp, #528]
	stp q0, q0, [sp, #560]
	stur q0, [x20, #191]
	stp q0, q0, [x29, #-240]
	stp q0, q0, [x29, #-208]
	stp q0, q0, [x29, #-176]
	stp q0, q0, [x29, #-144]
	stp q0, q0, [x29, #-112]
	stp q0, q0, [x29, #-80]
	stp q0, q0, [x29, #-48]
	stur q0, [x29, #-256]
	cbz x8, L(42_0)
	mov x23, x4
	sub x0, x29, #0x100
	sub x4, x29, #0x30
	mov x3, x8
	mov x21, x5
	mov x22, x6
	bl ring.hmac.key.Key.new_counted
	ldurb w8, [x29, #-256]
	cbz w8, L(42_4)
	movi v0.2d, #0x0
L(42_0):
	stur q0, [x20, #191]
	mov w0, #0x8
	stur q0, [x20, #175]
	stur q0, [x20, #159]
	stur q0, [x20, #143]
	stur q0, [x20, #127]
	stur q0, [x20, #111]
	stur q0, [x20, #95]
	stur q0, [x20, #79]
	stur q0, [x20, #63]
	stur q0, [x20, #47]
	stur q0, [x20, #31]
	stur q0, [x20, #15]
	add sp, sp, #0x360
	ldp x20, x19, [sp, #48]
	ldp x22, x21, [sp, #32]
	ldp x28, x23, [sp, #16]
	ldp x29, x30, [sp], #64
	ret
L(42_1):
	mov w0, #0x1
	add sp, sp, #0x360
	ldp x20, x19, [sp, #48]
	ldp x22, x21, [sp, #32]
	ldp x28, x23, [sp, #16]
	ldp x29, x30, [sp], #64
	ret
L(42_2):
	mov w0, #0x4
	add sp, sp, #0x360
	ldp x20, x19, [sp, #48]
	ldp x22, x21, [sp, #32]
	ldp x28, x23, [sp, #16]
	ldp x29, x30, [sp], #64
	ret
L(42_3):
	mov w0, #0x8
	add sp, sp, #0x360
	ldp x20, x19, [sp, #48]
	ldp x22, x21, [sp, #32]
	ldp x28, x23, [sp, #16]
	ldp x29, x30, [sp], #64
	ret
L(42_4):
	ldp q0, q1, [x29, #-112]
	mov x8, sp
	sub x0, x29, #0x100
	add x1, sp, #0xd0
	sub x2, x29, #0x8
	sub x4, x29, #0x30
	mov w3, #0x8
	stur q0, [x20, #143]
	ldp q0, q2, [x29, #-80]
	stur q1, [x20, #159]
	stur q0, [x20, #175]
	ldp q0, q1, [x29, #-176]
	stur q2, [x20, #191]
	stur q0, [x20, #79]
	stur q1, [x20, #95]
	ldp q0, q1, [x29, #-144]
	stur q0, [x20, #111]
	stur q1, [x20, #127]
	ldp q0, q1, [x29, #-240]
	stur q0, [x20, #15]
	stur q1, [x20, #31]
	ldp q0, q1, [x29, #-208]
	sturh wzr, [x29, #-192]
	stur q0, [x20, #47]
	ldur q0, [x20, #143]
	stur q1, [x20, #63]
	ldur q1, [x20, #159]
	stur q0, [x8, #143]
	ldur q0, [x20, #175]
	stur q1, [x8, #159]
	ldur q1, [x20, #191]
	stur q0, [x8, #175]
	ldur q0, [x20, #79]
	stur q1, [x8, #191]
	ldur q1, [x20, #95]
	ldur q2, [x8, #175]
	stur q0, [sp, #79]
	ldur q0, [x20, #111]
	stur q1, [sp, #95]
	ldur q1, [x20, #127]
	stur q0, [sp, #111]
	ldur q0, [x20, #15]
	stur q1, [sp, #127]
	ldur q1, [x20, #31]
	stur q0, [sp, #15]
	ldur q0, [x20, #47]
	stur q1, [sp, #31]
	ldur q1, [x20, #63]
	stur q0, [sp, #47]
	ldur q0, [x8, #143]
	stur q1, [sp, #63]
	ldur q1, [x8, #159]
	ldur q3, [sp, #47]
	stp q0, q1, [sp, #336]
	ldur q0, [x8, #191]
	ldur q1, [sp, #79]
	rev x8, x23
	stp q2, q0, [sp, #368]
	ldur q0, [sp, #95]
	ldur q2, [sp, #111]
	stur x8, [x29, #-8]
	stp q1, q0, [sp, #272]
	ldur q0, [sp, #127]
	ldur q1, [sp, #15]
	stp q2, q0, [sp, #304]
	ldur q0, [sp, #31]
	movi v2.2d, #0x0
	stp q1, q0, [sp, #208]
	ldur q0, [sp, #63]
	stp q3, q0, [sp, #240]
	stp q2, q2, [x29, #-256]
	stp q2, q2, [x29, #-224]
	stp q2, q2, [x29, #-48]
	bl ring.hmac.sign_counted
	ldurb w8, [x29, #-256]
	cbnz w8, L(42_8)
	sub x8, x29, #0x100
	ldurb w10, [x29, #-191]
	ldur q0, [x20, #225]
	ldur q1, [x20, #241]
	ldur q2, [x8, #49]
	add x9, sp, #0x190
	ldur q3, [x8, #1]
	cmp w10, #0x1
	add x8, x9, #0x20
	mov x2, x22
	mov x0, x21
	stp q0, q1, [sp, #416]
	str q2, [sp, #448]
	strb w10, [sp, #464]
	str q3, [sp, #400]
	b.le L(42_5)
	cmp w10, #0x2
	b.eq L(42_6)
	cmp w10, #0x3
	b.ne L(42_7)
	add x8, x9, #0x40
	b L(42_7)
L(42_5):
	cbnz w10, L(42_7)
	add x8, x9, #0x14
	b L(42_7)
L(42_6):
	add x8, x9, #0x30
L(42_7):
	ldurb w8, [x8, #-1]
	add x9, sp, #0x190
	movi v5.2s, #0xa
	mov w12, #0xa
	mov w11, #0xca6b
	bfxil x9, x8, #0, #4
	movk w11, #0x6b5f, lsl #16
	ldr w8, [x9]
	adrp x9, PAGE(L(switch.table.ring_tokens.otp.find_hotp_counted))
	add x9, x9, IN_PAGE(L(switch.table.ring_tokens.otp.find_hotp_counted))
	ldr w9, [x9, x19, lsl #2]
	and w8, w8, #0xffffff7f
	rev w8, w8
	udiv w10, w8, w9
	msub w8, w10, w9, w8
	adrp x9, PAGE(L(201_46))
	adrp x10, PAGE(L(201_47))
	ldr q1, [x9, IN_PAGE(L(201_46))]
	adrp x9, PAGE(L(202_0))
	ldr q3, [x10, IN_PAGE(L(201_47))]
	mov w10, #0xcccd
	dup v0.4s, w8
	movk w10, #0xcccc, lsl #16
	umull2 v2.2d, v0.4s, v1.4s
	umull v1.2d, v0.2s, v1.2s
	uzp2 v1.4s, v1.4s, v2.4s
	ldr d2, [x9, IN_PAGE(L(202_0))]
	adrp x9, PAGE(L(201_48))
	umull v2.2d, v0.2s, v2.2s
	ushl v1.4s, v1.4s, v3.4s
	ldr q3, [x9, IN_PAGE(L(201_48))]
	adrp x9, PAGE(L(202_1))
	shrn v2.2s, v2.2d, #32
	bif v0.16b, v1.16b, v3.16b
	ldr d1, [x9, IN_PAGE(L(202_1))]
	dup v3.4s, w10
	mov w9, #0x999a
	mov w10, #0xde83
	ushl v1.2s, v2.2s, v1.2s
	movk w9, #0x1999, lsl #16
	movk w10, #0x431b, lsl #16
	dup v4.2s, w9
	umull x9, w8, w10
	mov w10, #0xcd
	umull2 v2.2d, v0.4s, v3.4s
	umull v3.2d, v0.2s, v3.2s
	umull x8, w8, w11
	bic v1.2s, #0x7, lsl #16
	adrp x11, PAGE(L(201_50))
	lsr x9, x9, #50
	lsr x8, x8, #54
	uzp2 v2.4s, v3.4s, v2.4s
	umull v3.2d, v1.2s, v4.2s
	mul w10, w9, w10
	movi v4.4s, #0xa
	orr w8, w8, #0x30
	ubfx w10, w10, #11, #5
	ushr v2.4s, v2.4s, #3
	shrn v3.2s, v3.2d, #32
	msub w9, w10, w12, w9
	adrp x10, PAGE(L(201_49))
	adrp x12, PAGE(L(201_51))
	ldr q6, [x12, IN_PAGE(L(201_51))]
	mls v0.4s, v2.4s, v4.4s
	mls v1.2s, v3.2s, v5.2s
	ldr q4, [x10, IN_PAGE(L(201_49))]
	orr w9, w9, #0x30
	ldr q5, [x11, IN_PAGE(L(201_50))]
	and x9, x9, #0xff
	fmov d2, x9
	adrp x9, PAGE(L(201_52))
	orr v0.4s, #0x30
	orr v1.2s, #0x30
	ldr q7, [x9, IN_PAGE(L(201_52))]
	mov v2.d[1], x8
	sub x8, x29, #0x100
	uxtl v3.2d, v0.2s
	uxtl v1.2d, v1.2s
	uxtl2 v0.2d, v0.4s
	sub x8, x8, x2
	add x1, x8, #0x8
	ushl v3.2d, v3.2d, v4.2d
	ushl v0.2d, v0.2d, v5.2d
	ushl v1.2d, v1.2d, v6.2d
	ushl v2.2d, v2.2d, v7.2d
	orr v1.16b, v3.16b, v1.16b
	orr v0.16b, v0.16b, v2.16b
	orr v0.16b, v1.16b, v0.16b
	ext v1.16b, v0.16b, v0.16b, #8
	orr v0.8b, v0.8b, v1.8b
	stur d0, [x29, #-256]
	bl memcpy
	mov w0, wzr
	add sp, sp, #0x360
	ldp x20, x19, [sp, #48]
	ldp x22, x21, [sp, #32]
	ldp x28, x23, [sp, #16]
	ldp x29, x30, [sp], #64
	ret
L(42_8):
	brk #0x1
	SIZE(ring_c.otp.write, 1144)

	CODE(ring_tokens.otp.find_hotp_counted)
	.p2align 2
/* ring_tokens::otp::find_hotp_counted */
	TYPE(ring_tokens.otp.find_hotp_counted, %function)
ring_tokens.otp.find_hotp_counted:
	sub sp, sp, #0x140
	stp x29, x30, [sp, #224]
	add x29, sp, #0xe0
	stp x28, x27, [sp, #240]
	stp x26, x25, [sp, #256]
	stp x24, x23, [sp, #272]
	stp x22, x21, [sp, #288]
	stp x20, x19, [sp, #304]
	str x4, [sp, #32]
	cbz x2, L(44_6)
	sub x8, x29, #0x50
	add w9, w3, #0x6
	mov x19, x6
	add x10, x8, #0x20
	and x27, x9, #0xff
	add x9, sp, #0x30
	str x10, [sp, #16]
	add x10, x8, #0x30
	sub x9, x9, x27
	str x10, [sp, #40]
	add x10, x8, #0x40
	add x8, x8, #0x14
	stp x8, x10, [sp]
	add x8, sp, #0x40
	mov x20, x5
	mov x22, x2
	mov x23, x1
	mov x24, x0
	mov x26, xzr
	orr x21, x8, #0x1
	add x8, x9, #0x8
	and x28, x3, #0xff
	str x8, [sp, #24]
	b L(44_1)
L(44_0):
	add x26, x26, #0x1
	cmp x26, x22
	b.eq L(44_6)
L(44_1):
	adds x25, x26, x23
	b.cs L(44_6)
	movi v0.2d, #0x0
	rev x8, x25
	add x0, sp, #0x40
	add x2, sp, #0x38
	mov x1, x24
	mov w3, #0x8
	mov x4, x19
	strh wzr, [sp, #128]
	str x8, [sp, #56]
	stp q0, q0, [sp, #64]
	stp q0, q0, [sp, #96]
	bl ring.hmac.sign_counted
	ldrb w8, [sp, #64]
	cbnz w8, L(44_9)
	ldp q0, q1, [x21, #32]
	ldrb w8, [x21, #64]
	cmp w8, #0x1
	sturb w8, [x29, #-16]
	stp q0, q1, [x29, #-48]
	ldp q1, q0, [x21]
	stp q1, q0, [x29, #-80]
	b.le L(44_5)
	ldr x9, [sp, #40]
	cmp w8, #0x2
	b.eq L(44_3)
	ldr x9, [sp, #8]
	cmp w8, #0x3
	b.eq L(44_3)
L(44_2):
	ldr x9, [sp, #16]
L(44_3):
	ldurb w8, [x9, #-1]
	sub x9, x29, #0x50
	movi v5.2s, #0xa
	mov w12, #0xa
	mov w11, #0xca6b
	cmp x20, x27
	bfxil x9, x8, #0, #4
	movk w11, #0x6b5f, lsl #16
	ldr w8, [x9]
	adrp x9, PAGE(L(switch.table.ring_tokens.otp.find_hotp_counted))
	add x9, x9, IN_PAGE(L(switch.table.ring_tokens.otp.find_hotp_counted))
	ldr w9, [x9, x28, lsl #2]
	and w8, w8, #0xffffff7f
	rev w8, w8
	udiv w10, w8, w9
	msub w8, w10, w9, w8
	adrp x9, PAGE(L(201_53))
	adrp x10, PAGE(L(201_54))
	ldr q1, [x9, IN_PAGE(L(201_53))]
	adrp x9, PAGE(L(202_2))
	ldr q3, [x10, IN_PAGE(L(201_54))]
	mov w10, #0xcccd
	dup v0.4s, w8
	movk w10, #0xcccc, lsl #16
	umull2 v2.2d, v0.4s, v1.4s
	umull v1.2d, v0.2s, v1.2s
	uzp2 v1.4s, v1.4s, v2.4s
	ldr d2, [x9, IN_PAGE(L(202_2))]
	adrp x9, PAGE(L(201_55))
	umull v2.2d, v0.2s, v2.2s
	ushl v1.4s, v1.4s, v3.4s
	ldr q3, [x9, IN_PAGE(L(201_55))]
	adrp x9, PAGE(L(202_3))
	shrn v2.2s, v2.2d, #32
	bif v0.16b, v1.16b, v3.16b
	ldr d1, [x9, IN_PAGE(L(202_3))]
	dup v3.4s, w10
	mov w9, #0x999a
	mov w10, #0xde83
	ushl v1.2s, v2.2s, v1.2s
	movk w9, #0x1999, lsl #16
	movk w10, #0x431b, lsl #16
	dup v4.2s, w9
	umull x9, w8, w10
	mov w10, #0xcd
	umull2 v2.2d, v0.4s, v3.4s
	umull v3.2d, v0.2s, v3.2s
	umull x8, w8, w11
	bic v1.2s, #0x7, lsl #16
	adrp x11, PAGE(L(201_57))
	lsr x9, x9, #50
	lsr x8, x8, #54
	uzp2 v2.4s, v3.4s, v2.4s
	umull v3.2d, v1.2s, v4.2s
	mul w10, w9, w10
	movi v4.4s, #0xa
	orr w8, w8, #0x30
	ubfx w10, w10, #11, #5
	ushr v2.4s, v2.4s, #3
	shrn v3.2s, v3.2d, #32
	msub w9, w10, w12, w9
	adrp x10, PAGE(L(201_56))
	adrp x12, PAGE(L(201_58))
	ldr q6, [x12, IN_PAGE(L(201_58))]
	mls v0.4s, v2.4s, v4.4s
	mls v1.2s, v3.2s, v5.2s
	ldr q4, [x10, IN_PAGE(L(201_56))]
	orr w9, w9, #0x30
	ldr q5, [x11, IN_PAGE(L(201_57))]
	and x9, x9, #0xff
	fmov d2, x9
	adrp x9, PAGE(L(201_59))
	orr v0.4s, #0x30
	orr v1.2s, #0x30
	ldr q7, [x9, IN_PAGE(L(201_59))]
	mov v2.d[1], x8
	uxtl v3.2d, v0.2s
	uxtl v1.2d, v1.2s
	uxtl2 v0.2d, v0.4s
	ushl v3.2d, v3.2d, v4.2d
	ushl v0.2d, v0.2d, v5.2d
	ushl v1.2d, v1.2d, v6.2d
	ushl v2.2d, v2.2d, v7.2d
	orr v1.16b, v3.16b, v1.16b
	orr v0.16b, v0.16b, v2.16b
	orr v0.16b, v1.16b, v0.16b
	ext v1.16b, v0.16b, v0.16b, #8
	orr v0.8b, v0.8b, v1.8b
	str d0, [sp, #48]
	b.ne L(44_0)
	ldp x11, x9, [x19, #16]
	mov w8, wzr
	ldp x10, x12, [sp, #24]
	mov x13, x20
L(44_4):
	ldrb w14, [x10], #1
	adds x11, x11, #0x1
	ldrb w15, [x12], #1
	adcs x9, x9, xzr
	csinv x9, x9, xzr, cc
	csinv x11, x11, xzr, cc
	subs x13, x13, #0x1
	eor w14, w15, w14
	stp x11, x9, [x19, #16]
	orr w8, w14, w8
	b.ne L(44_4)
	cbnz w8, L(44_0)
	b L(44_8)
L(44_5):
	ldr x9, [sp]
	cbnz w8, L(44_2)
	b L(44_3)
L(44_6):
	mov x25, xzr
	mov w0, wzr
L(44_7):
	mov x1, x25
	ldp x20, x19, [sp, #304]
	ldp x22, x21, [sp, #288]
	ldp x24, x23, [sp, #272]
	ldp x26, x25, [sp, #256]
	ldp x28, x27, [sp, #240]
	ldp x29, x30, [sp, #224]
	add sp, sp, #0x140
	ret
L(44_8):
	mov w0, #0x1
	b L(44_7)
L(44_9):
	brk #0x1
	SIZE(ring_tokens.otp.find_hotp_counted, 768)

	CODE(ring_tokens.put.put_base64url)
	.p2align 2
/* ring_tokens::put::put_base64url */
	TYPE(ring_tokens.put.put_base64url, %function)
ring_tokens.put.put_base64url:
	sub sp, sp, #0x180
	movi v0.2d, #0x0
	add x10, sp, #0x10
	adrp x12, PAGE(L(201_62))
	add x11, x10, #0x8a
	ldr q3, [x12, IN_PAGE(L(201_62))]
	mov w12, #0x3d
	mov x8, x4
	mov x9, x0
	strb w12, [sp, #137]
	mov w12, #0xffffffff
	stp x28, x19, [sp, #368]
	mov x19, x2
	stur q0, [x11, #170]
	sub x5, x1, x2
	mov x0, sp
	stp q0, q0, [x11, #144]
	add x1, sp, #0x10
	add x4, x9, x2
	str q0, [x11, #128]
	adrp x11, PAGE(L(201_60))
	mov x2, x3
	ldr q1, [x11, IN_PAGE(L(201_60))]
	adrp x11, PAGE(L(201_61))
	stur q0, [x10, #138]
	ldr q2, [x11, IN_PAGE(L(201_61))]
	adrp x11, PAGE(L(201_63))
	stur q0, [x10, #250]
	stur q0, [x10, #234]
	mov x3, x8
	stp q1, q2, [sp, #16]
	ldr q1, [x11, IN_PAGE(L(201_63))]
	adrp x11, PAGE(L(202_4))
	stur q0, [x10, #218]
	stp q3, q1, [sp, #48]
	ldr d1, [x11, IN_PAGE(L(202_4))]
	adrp x11, PAGE(L(202_5))
	stur q0, [x10, #202]
	stur d1, [sp, #125]
	ldr d1, [x11, IN_PAGE(L(202_5))]
	adrp x11, PAGE(L(201_64))
	stur q0, [x10, #186]
	stur s1, [x10, #117]
	ldr q1, [x11, IN_PAGE(L(201_64))]
	adrp x11, PAGE(L(202_6))
	stur q0, [x10, #170]
	stur q1, [x10, #129]
	ldr d1, [x11, IN_PAGE(L(202_6))]
	adrp x11, PAGE(L(201_65))
	stur q0, [x10, #154]
	movi v0.2d, #0xffffffffffffffff
	stur d1, [x10, #145]
	ldr q1, [x11, IN_PAGE(L(201_65))]
	adrp x11, PAGE(L(202_7))
	stur w12, [x10, #122]
	stur q1, [x10, #159]
	ldr d1, [x11, IN_PAGE(L(202_7))]
	mov w11, #0x1918
	sturh w11, [x10, #153]
	adrp x11, PAGE(L(202_8))
	stur d1, [x10, #175]
	ldr d1, [x11, IN_PAGE(L(202_8))]
	add x11, x10, #0xbb
	stp q0, q0, [x11, #80]
	str q0, [x11, #112]
	adrp x11, PAGE(L(202_9))
	stur q0, [sp, #109]
	stp q0, q0, [sp, #80]
	stur q0, [x10, #187]
	stur q0, [x10, #203]
	stur q0, [x10, #219]
	stur q0, [x10, #235]
	stur q0, [x10, #251]
	ldr d0, [x11, IN_PAGE(L(202_9))]
	stur w12, [x10, #125]
	stur w12, [x10, #155]
	stur s1, [x10, #183]
	mov x10, #0xffffffffffffffff
	stp x29, x30, [sp, #352]
	add x29, sp, #0x160
	stp xzr, xzr, [sp]
	str x10, [sp, #328]
	str s0, [sp, #336]
	bl base64.engine.general_purpose.GeneralPurpose.encode_slice
	ldrb w8, [sp]
	cbnz w8, L(46_0)
	ldr x8, [sp, #8]
	ldp x29, x30, [sp, #352]
	add x0, x8, x19
	ldp x28, x19, [sp, #368]
	add sp, sp, #0x180
	ret
L(46_0):
	brk #0x1
	SIZE(ring_tokens.put.put_base64url, 372)

	CODE(base64.engine.general_purpose.GeneralPurpose.encode_slice)
	.p2align 2
/* base64::engine::general_purpose::GeneralPurpose::encode_slice */
	TYPE(base64.engine.general_purpose.GeneralPurpose.encode_slice, %function)
base64.engine.general_purpose.GeneralPurpose.encode_slice:
	lsr x8, x3, #62
	cmp x8, #0x2
	b.hi L(48_1)
	mov x8, #0xaaaaaaaaaaaaaaaa
	movk x8, #0xaaab
	umulh x8, x3, x8
	lsr x12, x8, #1
	add x10, x12, x12, lsl #1
	lsl x9, x12, #2
	sub x11, x3, x10
	cbz x11, L(48_0)
	ldrb w8, [x1, #321]
	tbz w8, #0, L(48_2)
	cmn x9, #0x4
	b.eq L(48_1)
	add x8, x9, #0x4
	cmp x5, x8
	b.cc L(48_1)
	b L(48_3)
L(48_0):
	mov x8, x9
	cmp x5, x9
	b.cs L(48_3)
L(48_1):
	mov w8, #0x1
	str xzr, [x0, #8]
	strh w8, [x0]
	ret
L(48_2):
	cmp x11, #0x1
	orr x8, x9, #0x3
	orr x13, x9, #0x2
	csel x8, x8, x13, ne
	cmp x5, x8
	b.cc L(48_1)
L(48_3):
	sub sp, sp, #0x10
	cmp x3, #0x8
	b.cs L(48_4)
	mov x13, xzr
	b L(48_6)
L(48_4):
	mov x14, #0xaaaaaaaaaaaaaaaa
	sub x13, x3, #0x2
	mov x15, x2
	movk x14, #0xaaab
	umulh x13, x13, x14
	add x14, x4, #0x3
	lsr x13, x13, #2
	mov x16, x13
L(48_5):
	ldr x17, [x15], #6
	subs x16, x16, #0x1
	rev x17, x17
	lsr x3, x17, #58
	ubfx x5, x17, #52, #6
	ldrb w3, [x1, x3]
	sturb w3, [x14, #-3]
	ldrb w3, [x1, x5]
	ubfx x5, x17, #46, #6
	sturb w3, [x14, #-2]
	ldrb w3, [x1, x5]
	ubfx x5, x17, #40, #6
	sturb w3, [x14, #-1]
	ldrb w3, [x1, x5]
	ubfx x5, x17, #34, #6
	strb w3, [x14]
	ldrb w3, [x1, x5]
	ubfx x5, x17, #28, #6
	strb w3, [x14, #1]
	ldrb w3, [x1, x5]
	ubfx x5, x17, #22, #6
	ubfx x17, x17, #16, #6
	strb w3, [x14, #2]
	ldrb w3, [x1, x5]
	strb w3, [x14, #3]
	ldrb w17, [x1, x17]
	strb w17, [x14, #4]
	add x14, x14, #0x8
	b.ne L(48_5)
L(48_6):
	lsl x14, x13, #1
	subs x12, x12, x14
	b.ls L(48_8)
	mov w14, #0x6
	madd x14, x13, x14, x2
	add x13, x4, x13, lsl #3
	add x14, x14, #0x1
L(48_7):
	ldrb w15, [x14]
	ldurb w16, [x14, #-1]
	ldrb w17, [x14, #1]
	add x14, x14, #0x3
	lsr x3, x15, #4
	lsr x5, x16, #2
	bfi x3, x16, #4, #2
	lsr x16, x17, #6
	ldrb w5, [x1, x5]
	and x17, x17, #0x3f
	ldrb w3, [x1, x3]
	bfi x16, x15, #2, #4
	ldrb w17, [x1, x17]
	ldrb w15, [x1, x16]
	orr w16, w5, w3, lsl #8
	orr w15, w16, w15, lsl #16
	add x16, sp, #0xc
	sub x16, x13, x16
	orr w15, w15, w17, lsl #24
	cmp x16, #0x3
	subs x12, x12, #0x1
	str w15, [x13], #4
	b.ne L(48_7)
L(48_8):
	cmp x11, #0x1
	b.eq L(48_9)
	cmp x11, #0x2
	b.ne L(48_11)
	add x10, x2, x10
	add x9, x4, x9
	ldrb w11, [x10, #1]
	ldrb w10, [x10]
	lsr x12, x11, #4
	lsr x13, x10, #2
	bfi x12, x10, #4, #2
	ubfiz x10, x11, #2, #4
	ldrb w11, [x1, x13]
	ldrb w12, [x1, x12]
	ldrb w10, [x1, x10]
	strb w11, [x9]
	strb w12, [x9, #1]
	strb w10, [x9, #2]
	ldrb w10, [x1, #321]
	tbz w10, #0, L(48_11)
	ldrb w10, [x1, #320]
	mov x11, xzr
	add x9, x9, #0x3
	b L(48_10)
L(48_9):
	ldrb w10, [x2, x10]
	add x9, x4, x9
	lsr x11, x10, #2
	ubfiz x10, x10, #4, #2
	ldrb w11, [x1, x11]
	ldrb w10, [x1, x10]
	orr w10, w11, w10, lsl #8
	strh w10, [x9]
	ldrb w10, [x1, #321]
	cmp w10, #0x1
	b.ne L(48_11)
	ldrb w10, [x1, #320]
	mov w11, #0x1
	strb w10, [x9, #2]!
L(48_10):
	strb w10, [x9, x11]
L(48_11):
	strh wzr, [x0]
	str x8, [x0, #8]
	add sp, sp, #0x10
	ret
	SIZE(base64.engine.general_purpose.GeneralPurpose.encode_slice, 588)

	CODE(ring_text.cut.cut_at)
	.p2align 2
/* ring_text::cut::cut_at */
	TYPE(ring_text.cut.cut_at, %function)
ring_text.cut.cut_at:
	cmp x2, #0x20
	b.cs L(49_2)
	cbz x2, L(49_1)
	mov x13, xzr
L(49_0):
	ldrb w8, [x1, x13]
	cmp w8, w3, uxtb
	b.eq L(49_25)
	add x13, x13, #0x1
	cmp x2, x13
	b.ne L(49_0)
L(49_1):
	stp xzr, xzr, [x0]
	stp xzr, xzr, [x0, #16]
	str xzr, [x0, #32]
	ret
L(49_2):
	mov x12, xzr
	dup v0.16b, w3
	add x8, x1, x2
	sub x9, x2, #0x40
	add x10, x1, #0x60
	add x11, x1, #0xa0
L(49_3):
	sub x14, x2, x12
	adrp x13, PAGE(L(201_66))
	cmp x14, #0xbf
	b.ls L(49_5)
	add x14, x1, x12
	ldr q1, [x13, IN_PAGE(L(201_66))]
	ldp q2, q3, [x14]
	ldp q4, q5, [x14, #32]
	add x14, x12, #0x40
	cmeq v2.16b, v2.16b, v0.16b
	cmeq v3.16b, v3.16b, v0.16b
	cmeq v5.16b, v5.16b, v0.16b
	cmeq v4.16b, v4.16b, v0.16b
	and v2.16b, v2.16b, v1.16b
	and v3.16b, v3.16b, v1.16b
	and v4.16b, v4.16b, v1.16b
	and v5.16b, v5.16b, v1.16b
	addp v2.16b, v2.16b, v3.16b
	addp v3.16b, v4.16b, v5.16b
	addp v2.16b, v2.16b, v3.16b
	addp v2.16b, v2.16b, v2.16b
	fmov x15, d2
	cbnz x15, L(49_20)
	sub x15, x2, x14
	cmp x15, #0x80
	b.cc L(49_10)
	add x13, x12, #0xc0
	add x12, x11, x12
L(49_4):
	ldp q2, q3, [x12, #-96]
	ldp q4, q5, [x12, #-64]
	ldp q19, q17, [x12, #-32]
	ldp q20, q18, [x12], #128
	cmeq v6.16b, v2.16b, v0.16b
	cmeq v7.16b, v3.16b, v0.16b
	cmeq v16.16b, v5.16b, v0.16b
	cmeq v2.16b, v17.16b, v0.16b
	cmeq v17.16b, v4.16b, v0.16b
	cmeq v5.16b, v19.16b, v0.16b
	cmeq v3.16b, v18.16b, v0.16b
	cmeq v4.16b, v20.16b, v0.16b
	orr v20.16b, v7.16b, v16.16b
	orr v21.16b, v6.16b, v17.16b
	orr v18.16b, v2.16b, v3.16b
	orr v19.16b, v5.16b, v4.16b
	orr v18.16b, v20.16b, v18.16b
	orr v19.16b, v21.16b, v19.16b
	and v19.16b, v19.16b, v1.16b
	and v18.16b, v18.16b, v1.16b
	addp v18.16b, v19.16b, v18.16b
	addp v18.16b, v18.16b, v18.16b
	addp v18.16b, v18.16b, v18.16b
	fmov w14, s18
	cbnz w14, L(49_22)
	sub x15, x15, #0x80
	add x13, x13, #0x80
	cmp x15, #0x7f
	b.hi L(49_4)
	sub x12, x13, #0x80
	cmp x15, #0x20
	b.cs L(49_11)
	b L(49_13)
L(49_5):
	cmp x14, #0x40
	b.cc L(49_15)
L(49_6):
	add x15, x1, x12
	ldp q2, q3, [x15]
	ldp q5, q4, [x15, #32]
	cmeq v1.16b, v2.16b, v0.16b
	cmeq v6.16b, v3.16b, v0.16b
	cmeq v7.16b, v5.16b, v0.16b
	cmeq v16.16b, v4.16b, v0.16b
	orr v6.16b, v6.16b, v16.16b
	orr v7.16b, v1.16b, v7.16b
	ldr q1, [x13, IN_PAGE(L(201_66))]
	and v7.16b, v7.16b, v1.16b
	and v6.16b, v6.16b, v1.16b
	addp v6.16b, v7.16b, v6.16b
	addp v6.16b, v6.16b, v6.16b
	addp v6.16b, v6.16b, v6.16b
	fmov w15, s6
	cbnz w15, L(49_7)
	sub x14, x14, #0x40
	add x12, x12, #0x40
	cmp x14, #0x3f
	b.hi L(49_6)
	b L(49_15)
L(49_7):
	cmp x14, #0x40
	b.cc L(49_15)
L(49_8):
	cmeq v2.16b, v2.16b, v0.16b
	cmeq v3.16b, v3.16b, v0.16b
	cmeq v4.16b, v4.16b, v0.16b
	cmeq v5.16b, v5.16b, v0.16b
	and v2.16b, v2.16b, v1.16b
	and v3.16b, v3.16b, v1.16b
	and v4.16b, v4.16b, v1.16b
	and v5.16b, v5.16b, v1.16b
	addp v2.16b, v2.16b, v3.16b
	addp v3.16b, v5.16b, v4.16b
	addp v2.16b, v2.16b, v3.16b
	addp v2.16b, v2.16b, v2.16b
	fmov x15, d2
	cbnz x15, L(49_24)
	sub x14, x9, x12
	neg x15, x12
	add x12, x10, x12
L(49_9):
	subs x16, x14, #0x40
	b.cc L(49_14)
	ldp q2, q3, [x12, #-32]
	sub x15, x15, #0x40
	ldp q5, q4, [x12], #64
	mov x14, x16
	cmeq v6.16b, v2.16b, v0.16b
	cmeq v7.16b, v3.16b, v0.16b
	cmeq v16.16b, v5.16b, v0.16b
	cmeq v17.16b, v4.16b, v0.16b
	orr v7.16b, v7.16b, v17.16b
	orr v6.16b, v6.16b, v16.16b
	and v6.16b, v6.16b, v1.16b
	and v7.16b, v7.16b, v1.16b
	addp v6.16b, v6.16b, v7.16b
	addp v6.16b, v6.16b, v6.16b
	addp v6.16b, v6.16b, v6.16b
	fmov w17, s6
	cbz w17, L(49_9)
	neg x12, x15
	b L(49_8)
L(49_10):
	mov x12, x14
	cmp x15, #0x20
	b.cc L(49_13)
L(49_11):
	sub x13, x2, x12
L(49_12):
	add x14, x1, x12
	ldp q2, q3, [x14]
	cmeq v3.16b, v3.16b, v0.16b
	cmeq v2.16b, v2.16b, v0.16b
	and v2.16b, v2.16b, v1.16b
	and v3.16b, v3.16b, v1.16b
	addp v2.16b, v2.16b, v3.16b
	addp v2.16b, v2.16b, v2.16b
	addp v2.16b, v2.16b, v2.16b
	fmov w15, s2
	cbnz w15, L(49_19)
	sub x13, x13, #0x20
	add x12, x12, #0x20
	cmp x13, #0x1f
	b.hi L(49_12)
L(49_13):
	ldp q2, q3, [x8, #-32]
	cmeq v3.16b, v3.16b, v0.16b
	cmeq v2.16b, v2.16b, v0.16b
	and v2.16b, v2.16b, v1.16b
	and v1.16b, v3.16b, v1.16b
	addp v1.16b, v2.16b, v1.16b
	b L(49_18)
L(49_14):
	mov w12, #0x40
	sub x12, x12, x15
L(49_15):
	cmp x14, #0x20
	b.cc L(49_17)
	sub x14, x2, x12
L(49_16):
	add x15, x1, x12
	ldr q3, [x13, IN_PAGE(L(201_66))]
	ldp q1, q2, [x15]
	cmeq v2.16b, v2.16b, v0.16b
	cmeq v1.16b, v1.16b, v0.16b
	and v1.16b, v1.16b, v3.16b
	and v2.16b, v2.16b, v3.16b
	addp v1.16b, v1.16b, v2.16b
	addp v1.16b, v1.16b, v1.16b
	addp v1.16b, v1.16b, v1.16b
	fmov w15, s1
	cbnz w15, L(49_19)
	sub x14, x14, #0x20
	add x12, x12, #0x20
	cmp x14, #0x1f
	b.hi L(49_16)
L(49_17):
	ldp q1, q2, [x8, #-32]
	ldr q3, [x13, IN_PAGE(L(201_66))]
	cmeq v2.16b, v2.16b, v0.16b
	cmeq v1.16b, v1.16b, v0.16b
	and v1.16b, v1.16b, v3.16b
	and v2.16b, v2.16b, v3.16b
	addp v1.16b, v1.16b, v2.16b
L(49_18):
	addp v1.16b, v1.16b, v1.16b
	sub x14, x12, x2
	add x14, x14, #0x20
	addp v1.16b, v1.16b, v1.16b
	fmov w13, s1
	lsr x15, x13, x14
	mov x13, x2
	mov x14, x13
	cbnz x15, L(49_20)
	b L(49_21)
L(49_19):
	add x14, x12, #0x20
L(49_20):
	rbit x13, x15
	clz x16, x13
	add x13, x16, x12
	ldrb w17, [x1, x13]
	cmp w17, w3, uxtb
	b.eq L(49_25)
	mov w13, #0x1
	lsl x13, x13, x16
	bics x15, x15, x13
	b.ne L(49_20)
L(49_21):
	cmp x14, x2
	mov x12, x14
	b.cc L(49_3)
	b L(49_1)
L(49_22):
	and v6.16b, v6.16b, v1.16b
	and v7.16b, v7.16b, v1.16b
	sub x14, x13, #0x40
	and v17.16b, v17.16b, v1.16b
	and v16.16b, v16.16b, v1.16b
	addp v6.16b, v6.16b, v7.16b
	addp v7.16b, v17.16b, v16.16b
	addp v6.16b, v6.16b, v7.16b
	addp v6.16b, v6.16b, v6.16b
	fmov x15, d6
	cbz x15, L(49_23)
	sub x12, x13, #0x80
	b L(49_20)
L(49_23):
	and v5.16b, v5.16b, v1.16b
	and v2.16b, v2.16b, v1.16b
	and v4.16b, v4.16b, v1.16b
	and v1.16b, v3.16b, v1.16b
	addp v2.16b, v5.16b, v2.16b
	addp v1.16b, v4.16b, v1.16b
	addp v1.16b, v2.16b, v1.16b
	addp v1.16b, v1.16b, v1.16b
	fmov x15, d1
	mov x12, x14
	mov x14, x13
	cbnz x15, L(49_20)
	b L(49_21)
L(49_24):
	add x14, x12, #0x40
	b L(49_20)
L(49_25):
	add x8, x13, #0x1
	add x9, x1, x8
	sub x10, x2, x8
	mov w8, #0x1
	stp x8, x1, [x0]
	stp x13, x9, [x0, #16]
	str x10, [x0, #32]
	ret
	SIZE(ring_text.cut.cut_at, 1040)

	CODE(ring_tokens.decoded.decode_over)
	.p2align 2
/* ring_tokens::decoded::decode_over */
	TYPE(ring_tokens.decoded.decode_over, %function)
ring_tokens.decoded.decode_over:
	sub sp, sp, #0x190
	movi v0.2d, #0x0
	add x8, sp, #0x20
	adrp x10, PAGE(L(201_69))
	add x9, x8, #0x8a
	ldr q3, [x10, IN_PAGE(L(201_69))]
	mov w10, #0x3d
	strb w10, [sp, #153]
	mov w10, #0xffffffff
	mov x5, x3
	mov x4, x2
	mov x3, x1
	mov x2, x0
	stur q0, [x9, #170]
	mov x0, sp
	add x1, sp, #0x20
	stp q0, q0, [x9, #144]
	str q0, [x9, #128]
	adrp x9, PAGE(L(201_67))
	ldr q1, [x9, IN_PAGE(L(201_67))]
	adrp x9, PAGE(L(201_68))
	stur q0, [x8, #138]
	ldr q2, [x9, IN_PAGE(L(201_68))]
	adrp x9, PAGE(L(201_70))
	stur q0, [x8, #250]
	stur q0, [x8, #234]
	stur q0, [x8, #218]
	stur q0, [x8, #202]
	stur q0, [x8, #186]
	stur q0, [x8, #170]
	stur q0, [x8, #154]
	stp q0, q0, [sp]
	movi v0.2d, #0xffffffffffffffff
	stp q1, q2, [sp, #32]
	ldr q1, [x9, IN_PAGE(L(201_70))]
	adrp x9, PAGE(L(202_10))
	stur w10, [x8, #122]
	stp q3, q1, [sp, #64]
	ldr d1, [x9, IN_PAGE(L(202_10))]
	adrp x9, PAGE(L(202_11))
	stur q0, [sp, #125]
	stur d1, [x8, #109]
	ldr d1, [x9, IN_PAGE(L(202_11))]
	adrp x9, PAGE(L(201_71))
	stp q0, q0, [sp, #96]
	stur s1, [x8, #117]
	ldr q1, [x9, IN_PAGE(L(201_71))]
	adrp x9, PAGE(L(202_12))
	stur q0, [x8, #187]
	stur q1, [x8, #129]
	ldr d1, [x9, IN_PAGE(L(202_12))]
	adrp x9, PAGE(L(201_72))
	stur q0, [x8, #203]
	stur d1, [x8, #145]
	ldr q1, [x9, IN_PAGE(L(201_72))]
	adrp x9, PAGE(L(202_13))
	stur q0, [x8, #219]
	stur q1, [x8, #159]
	ldr d1, [x9, IN_PAGE(L(202_13))]
	mov w9, #0x1918
	sturh w9, [x8, #153]
	adrp x9, PAGE(L(202_14))
	stur d1, [x8, #175]
	ldr d1, [x9, IN_PAGE(L(202_14))]
	add x9, x8, #0xbb
	stp q0, q0, [x9, #80]
	str q0, [x9, #112]
	adrp x9, PAGE(L(202_15))
	stur q0, [x8, #235]
	stur q0, [x8, #251]
	ldr d0, [x9, IN_PAGE(L(202_15))]
	stur w10, [x8, #125]
	stur w10, [x8, #155]
	stur s1, [x8, #183]
	mov x8, #0xffffffffffffffff
	stp x29, x30, [sp, #368]
	add x29, sp, #0x170
	str x28, [sp, #384]
	str x8, [sp, #344]
	str s0, [sp, #352]
	bl base64.engine.general_purpose.GeneralPurpose.decode_slice_unchecked
	ldrb w8, [sp]
	ldr x9, [sp, #8]
	ldr x28, [sp, #384]
	ldp x29, x30, [sp, #368]
	cmp w8, #0x0
	cset w0, eq
	csel x1, x9, xzr, eq
	add sp, sp, #0x190
	ret
	SIZE(ring_tokens.decoded.decode_over, 360)

	CODE(base64.engine.general_purpose.GeneralPurpose.decode_slice_unchecked)
	.p2align 2
/* base64::engine::general_purpose::GeneralPurpose::decode_slice_unchecked */
	TYPE(base64.engine.general_purpose.GeneralPurpose.decode_slice_unchecked, %function)
base64.engine.general_purpose.GeneralPurpose.decode_slice_unchecked:
	str x23, [sp, #-48]!
	ldrb w10, [x1, #322]
	and x9, x3, #0x3
	ldrb w8, [x1, #320]
	ldrb w12, [x1, #323]
	cmp x9, #0x1
	add x14, x1, #0x40
	stp x22, x21, [sp, #16]
	stp x20, x19, [sp, #32]
	b.ne L(53_0)
	sub x11, x3, #0x1
	ldrb w13, [x2, x11]
	cmp w13, w8
	b.eq L(53_0)
	ldrb w9, [x14, w13, uxtw]
	cmp w9, #0xff
	b.eq L(53_9)
L(53_0):
	mov x9, #0xaaaaaaaaaaaaaaaa
	cmp x3, #0x0
	movk x9, #0xaaab
	umulh x13, x5, x9
	cset w9, ne
	sub x9, x3, x9
	lsr x11, x9, #2
	cmp x11, x13, lsr #1
	b.hi L(53_31)
	cbz x11, L(53_2)
	mov x13, xzr
	add x15, x4, #0x1
	mov x16, x11
L(53_1):
	add x21, x2, x13
	ldrb w20, [x21, #2]
	ldrb w17, [x21]
	ldrb w6, [x21, #1]
	ldrb w21, [x21, #3]
	ldrb w19, [x14, x20]
	ldrb w1, [x14, x17]
	ldrb w7, [x14, x6]
	cmp w19, #0xff
	b.eq L(53_5)
	cmp w1, #0xff
	b.eq L(53_5)
	cmp w7, #0xff
	b.eq L(53_5)
	ldrb w22, [x14, x21]
	cmp w22, #0xff
	b.eq L(53_5)
	lsr w17, w7, #4
	lsr w6, w19, #2
	subs x16, x16, #0x1
	add x13, x13, #0x4
	add w17, w17, w1, lsl #2
	add w1, w6, w7, lsl #4
	add w6, w22, w19, lsl #6
	sturb w17, [x15, #-1]
	strb w1, [x15]
	strb w6, [x15, #1]
	add x15, x15, #0x3
	b.ne L(53_1)
L(53_2):
	and x13, x9, #0xfffffffffffffffc
	subs x19, x3, x13
	b.ne L(53_4)
	mov w14, wzr
	mov w16, wzr
	mov w17, wzr
	mov w2, wzr
	mov x15, xzr
	mov x1, xzr
	mov w8, wzr
	mov w9, wzr
	cbz x3, L(53_12)
L(53_3):
	cmp x15, #0x1
	b.hi L(53_12)
	mov w8, wzr
	mov w9, wzr
	orr x11, x15, x13
	mov w12, #0x1
	mov w10, #0x1
	b L(53_24)
L(53_4):
	add x20, x2, x13
	ldrb w6, [x20]
	cmp w6, w8
	b.ne L(53_6)
	mov x21, xzr
	b L(53_8)
L(53_5):
	add x8, x13, #0x3
	add x11, x13, #0x2
	cmp w19, #0xff
	csel x8, x11, x8, eq
	csel w11, w20, w21, eq
	cmp w7, #0xff
	csinc x8, x8, x13, ne
	csel w12, w6, w11, eq
	cmp w1, #0xff
	mov x10, xzr
	mov w9, wzr
	csel x11, x13, x8, eq
	csel w8, w17, w12, eq
	mov w12, #0x1
	b L(53_24)
L(53_6):
	ldrb w9, [x14, w6, uxtw]
	cmp w9, #0xff
	b.ne L(53_10)
	mov x21, xzr
L(53_7):
	mov w8, w6
L(53_8):
	mov x10, xzr
	mov w9, wzr
	add x11, x21, x13
	mov w12, #0x1
	b L(53_24)
L(53_9):
	mov x10, xzr
	mov w9, wzr
	mov w12, #0x1
	mov w8, w13
	b L(53_24)
L(53_10):
	str wzr, [sp, #12]
	cmp x19, #0x1
	strb w9, [sp, #12]
	ldr w7, [sp, #12]
	b.ne L(53_16)
	mov x1, xzr
	lsr w16, w7, #8
	lsr w17, w7, #16
	lsr w2, w7, #24
	mov w15, #0x1
L(53_11):
	lsl w14, w7, #2
	mov w8, w6
	cbnz x3, L(53_3)
L(53_12):
	cbz w12, L(53_15)
	cmp w12, #0x2
	b.ne L(53_14)
	cbz x1, L(53_15)
L(53_13):
	mov x11, xzr
	mov w8, wzr
	mov w9, wzr
	mov w10, #0x3
	mov w12, #0x1
	b L(53_24)
L(53_14):
	add w12, w1, w15
	tst x12, #0x3
	b.ne L(53_13)
L(53_15):
	cmp x15, #0x3
	b.eq L(53_17)
	cmp x15, #0x2
	b.ne L(53_19)
	and w12, w16, #0xf
	b L(53_18)
L(53_16):
	ldrb w6, [x20, #1]
	cmp w6, w8
	b.ne L(53_20)
	mov w21, #0x1
	b L(53_8)
L(53_17):
	and w12, w17, #0x3
L(53_18):
	cbz w12, L(53_19)
	tbnz w10, #0, L(53_19)
	add x10, x13, x15
	mov w12, #0x1
	sub x11, x10, #0x1
	mov w10, #0x2
	b L(53_24)
L(53_19):
	add x8, x15, x15, lsl #1
	add x10, x11, x11, lsl #1
	ubfx x13, x8, #2, #61
	sub x8, x5, x10
	cmp x8, x13
	b.cc L(53_31)
	cbz x13, L(53_23)
	ubfx w9, w17, #2, #6
	and w8, w16, #0xf0
	cmp x13, #0x2
	add w8, w14, w8, lsr #4
	add w9, w9, w16, lsl #4
	b.eq L(53_21)
	cmp x13, #0x1
	b.ne L(53_22)
	strb w8, [x4, x10]
	b L(53_23)
L(53_20):
	ldrb w9, [x14, w6, uxtw]
	cmp w9, #0xff
	b.ne L(53_25)
	mov w21, #0x1
	b L(53_7)
L(53_21):
	bfi w8, w9, #8, #24
	strh w8, [x4, x10]
	b L(53_23)
L(53_22):
	bfi w8, w9, #8, #24
	add w9, w2, w17, lsl #6
	add x11, x4, x10
	strh w8, [x11]
	strb w9, [x11, #2]
L(53_23):
	mov x12, xzr
	mov x11, xzr
	mov w8, wzr
	mov w9, wzr
	add x10, x13, x10
L(53_24):
	ldp x20, x19, [sp, #32]
	stp x12, x10, [x0]
	ldp x22, x21, [sp, #16]
	str x11, [x0, #16]
	strb w8, [x0, #24]
	strb w9, [x0, #25]
	ldr x23, [sp], #48
	ret
L(53_25):
	str w7, [sp, #12]
	cmp x19, #0x2
	strb w9, [sp, #13]
	ldr w7, [sp, #12]
	lsr w16, w7, #8
	lsr w17, w7, #16
	lsr w2, w7, #24
	b.ne L(53_26)
	mov x1, xzr
	mov w15, #0x2
	b L(53_11)
L(53_26):
	mov x21, xzr
	mov x1, xzr
	mov w22, #0x2
	mov w15, #0x2
	b L(53_29)
L(53_27):
	cmp x1, #0x0
	add x1, x1, #0x1
	csel x21, x22, x21, eq
L(53_28):
	lsr w16, w23, #8
	add x22, x22, #0x1
	lsr w17, w23, #16
	lsr w2, w23, #24
	cmp x19, x22
	orr w7, w7, w23
	b.eq L(53_11)
L(53_29):
	lsl w23, w2, #24
	bfi w23, w17, #16, #8
	ldrb w17, [x20, x22]
	bfi w23, w16, #8, #8
	cmp w17, w8
	b.eq L(53_27)
	cbnz x1, L(53_8)
	ldrb w9, [x14, w17, uxtw]
	cmp w9, #0xff
	b.eq L(53_30)
	bfxil w23, w7, #0, #8
	add x16, sp, #0xc
	mov x1, xzr
	mov w6, w17
	str w23, [sp, #12]
	strb w9, [x16, x15]
	add x15, x15, #0x1
	ldr w7, [sp, #12]
	and w23, w7, #0xffffff00
	b L(53_28)
L(53_30):
	mov x21, x22
	mov w8, w17
	b L(53_8)
L(53_31):
	brk #0x1
	SIZE(base64.engine.general_purpose.GeneralPurpose.decode_slice_unchecked, 1012)

	CODE(ring_merkle.paths.tree_root_counted)
	.p2align 2
/* ring_merkle::paths::tree_root_counted */
	TYPE(ring_merkle.paths.tree_root_counted, %function)
ring_merkle.paths.tree_root_counted:
	stp x29, x30, [sp, #-96]!
	stp x28, x27, [sp, #16]
	mov x29, sp
	stp x26, x25, [sp, #32]
	stp x24, x23, [sp, #48]
	stp x22, x21, [sp, #64]
	stp x20, x19, [sp, #80]
	sub sp, sp, #0x920
	movi v0.2d, #0x0
	str xzr, [sp]
	mov x21, x2
	mov x22, x1
	str x0, [sp]
	add x23, sp, #0x810
	add x0, sp, #0x8
	mov w1, wzr
	mov w2, #0x808
	mov x20, x3
	stp q0, q0, [x23]
	bl memset
	adrp x24, PAGE(L(static.20))
	add x24, x24, IN_PAGE(L(static.20))
	cbz x21, L(54_4)
	sub x8, x29, #0x40
	mov x25, xzr
	orr x26, x8, #0x1
	b L(54_2)
L(54_0):
	ldp q0, q1, [x23, #128]
	stp q0, q1, [x28]
L(54_1):
	add x25, x25, #0x1
	cmp x25, x21
	b.eq L(54_4)
L(54_2):
	add x8, x22, x25, lsl #5
	ldr x27, [sp, #2056]
	add x28, sp, #0x8
	mov w19, #0x40
	ldp q0, q1, [x8]
	add x8, x27, #0x1
	str x8, [sp, #2056]
	stp q0, q1, [x23, #128]
L(54_3):
	tbz w27, #0, L(54_0)
	movi v0.2d, #0x0
	mov w8, #0x1
	sub x9, x29, #0x90
	stp x24, x8, [x29, #-112]
	mov w8, #0x20
	sub x0, x29, #0x40
	sub x1, x29, #0x70
	mov w2, #0x3
	mov x3, x20
	sturb wzr, [x29, #-32]
	stp q0, q0, [x23, #208]
	stp x28, x8, [x29, #-96]
	stp x9, x8, [x29, #-80]
	bl ring_merkle.hash.hash_pieces
	ldurb w8, [x29, #-64]
	cbnz w8, L(54_13)
	ldp q0, q1, [x26]
	lsr x27, x27, #1
	subs x19, x19, #0x1
	add x28, x28, #0x20
	stp q0, q1, [x23, #128]
	b.ne L(54_3)
	b L(54_1)
L(54_4):
	movi v0.2d, #0x0
	ldr x21, [sp, #2056]
	sub x8, x29, #0x40
	mov x22, xzr
	orr x25, x8, #0x1
	mov w8, #0x1
	stp q0, q0, [x23, #64]
L(54_5):
	add x9, sp, #0x8
	add x9, x9, x22, lsl #5
	add x22, x22, #0x1
L(54_6):
	tbnz w21, #0, L(54_7)
	add x22, x22, #0x1
	lsr x21, x21, #1
	add x9, x9, #0x20
	cmp x22, #0x41
	b.ne L(54_6)
	b L(54_10)
L(54_7):
	tbz w8, #0, L(54_8)
	ldp q0, q1, [x9]
	b L(54_9)
L(54_8):
	movi v2.2d, #0x0
	ldp q0, q1, [x23, #64]
	mov w8, #0x1
	sub x0, x29, #0x40
	sub x1, x29, #0x70
	stp x24, x8, [x29, #-112]
	mov w8, #0x20
	mov w2, #0x3
	stp x9, x8, [x29, #-96]
	sub x9, x29, #0x90
	mov x3, x20
	stp q0, q1, [x23, #128]
	sturb wzr, [x29, #-32]
	stp q2, q2, [x23, #208]
	stp x9, x8, [x29, #-80]
	bl ring_merkle.hash.hash_pieces
	ldurb w8, [x29, #-64]
	cbnz w8, L(54_13)
	ldp q0, q1, [x25]
L(54_9):
	stp q0, q1, [x23, #96]
	lsr x21, x21, #1
	mov w8, wzr
	ldp q0, q1, [x23, #96]
	cmp x22, #0x40
	stp q0, q1, [x23, #32]
	stp q0, q1, [x23, #64]
	b.ne L(54_5)
	b L(54_11)
L(54_10):
	tbz w8, #0, L(54_11)
	movi v0.2d, #0x0
	sub x0, x29, #0x70
	sub x1, x29, #0x18
	mov x2, xzr
	mov x3, x20
	sturb wzr, [x29, #-80]
	stp q0, q0, [x23, #160]
	bl ring_merkle.hash.hash_pieces
	ldurb w8, [x29, #-112]
	cbnz w8, L(54_13)
	ldur q0, [x23, #161]
	ldur q1, [x23, #177]
	b L(54_12)
L(54_11):
	ldp q0, q1, [x23, #64]
L(54_12):
	stp q0, q1, [x23, #208]
	ldr x8, [sp]
	ldp q0, q1, [x23, #208]
	stp q0, q1, [x23]
	stp q0, q1, [x8]
	add sp, sp, #0x920
	ldp x20, x19, [sp, #80]
	ldp x22, x21, [sp, #64]
	ldp x24, x23, [sp, #48]
	ldp x26, x25, [sp, #32]
	ldp x28, x27, [sp, #16]
	ldp x29, x30, [sp], #96
	ret
L(54_13):
	brk #0x1
	SIZE(ring_merkle.paths.tree_root_counted, 564)

	CODE(ring_merkle.hash.hash_pieces)
	.p2align 2
/* ring_merkle::hash::hash_pieces */
	TYPE(ring_merkle.hash.hash_pieces, %function)
ring_merkle.hash.hash_pieces:
	stp x29, x30, [sp, #-80]!
	str x28, [sp, #16]
	mov x29, sp
	stp x24, x23, [sp, #32]
	stp x22, x21, [sp, #48]
	stp x20, x19, [sp, #64]
	sub sp, sp, #0x3d0
	movi v0.2d, #0x0
	mov x20, x3
	mov x22, x2
	mov x21, x1
	mov x19, x0
	strb wzr, [sp, #160]
	stp q0, q0, [sp]
	stp q0, q0, [sp, #96]
	stp q0, q0, [sp, #128]
	cbz x2, L(56_2)
	ldr x8, [x21, #8]
	cmp x22, #0x1
	b.ne L(56_0)
	mov x9, xzr
	b L(56_1)
L(56_0):
	ldr x9, [x21, #24]
	adds x8, x8, x9
	cset w9, cs
	cmp x22, #0x2
	b.eq L(56_1)
	ldr x10, [x21, #40]
	adds x8, x8, x10
	cinc x9, x9, cs
L(56_1):
	extr x8, x9, x8, #61
	cbnz x8, L(56_6)
L(56_2):
	adrp x8, PAGE(L(202_16))
	adrp x9, PAGE(L(201_73))
	add x23, sp, #0xb0
	ldr d1, [x8, IN_PAGE(L(202_16))]
	adrp x8, PAGE(L(201_74))
	ldr q2, [x9, IN_PAGE(L(201_73))]
	ldr q3, [x8, IN_PAGE(L(201_74))]
	mov w0, #0x1
	add x24, sp, #0x1a0
	str q0, [sp, #176]
	str d1, [sp, #192]
	stur q2, [x23, #24]
	stur q3, [x23, #40]
	stur q0, [x23, #56]
	stur q0, [x23, #72]
	strb w0, [sp, #264]
	stur q0, [x23, #89]
	stur q0, [x23, #105]
	stur q0, [x23, #121]
	stur q0, [x23, #137]
	stur q0, [x23, #153]
	stur q0, [x23, #169]
	stur q0, [x23, #185]
	stur q0, [x23, #201]
	stur q0, [x23, #217]
	str xzr, [sp, #408]
	cbz x22, L(56_4)
	ldp x1, x2, [x21]
	add x0, sp, #0xb0
	mov x3, x20
	bl ring.digest.context.Context.update_counted
	cmp x22, #0x1
	b.eq L(56_3)
	ldp x1, x2, [x21, #16]
	add x0, sp, #0xb0
	mov x3, x20
	bl ring.digest.context.Context.update_counted
	cmp x22, #0x2
	b.eq L(56_3)
	ldp x1, x2, [x21, #32]
	add x0, sp, #0xb0
	mov x3, x20
	bl ring.digest.context.Context.update_counted
L(56_3):
	ldp x8, x9, [sp, #176]
	ldr d1, [sp, #192]
	ldur q2, [x23, #24]
	ldur q3, [x23, #40]
	ldur q0, [x23, #56]
	ldur q4, [x23, #72]
	ldrb w0, [sp, #264]
	b L(56_5)
L(56_4):
	mov x8, xzr
	movi v4.2d, #0x0
	mov x9, xzr
L(56_5):
	str d1, [sp, #432]
	ldur q1, [x23, #217]
	ldur x10, [x23, #232]
	stp x8, x9, [sp, #416]
	stur q1, [x24, #217]
	ldur q1, [x23, #137]
	ldr x2, [sp, #640]
	stur q2, [x24, #24]
	ldur q2, [x23, #201]
	stur q0, [x24, #56]
	ldur q0, [x23, #185]
	adds x8, x2, x8
	str x10, [sp, #648]
	and w10, w0, #0xff
	adcs x9, x9, xzr
	stur q0, [x24, #185]
	ldur q0, [x23, #121]
	stur q2, [x24, #201]
	ldur q2, [x23, #153]
	csinv x5, x9, xzr, cc
	csinv x4, x8, xzr, cc
	cmp w10, #0x2
	mov x8, #0x1fffffffffffffff
	csinv x9, x8, xzr, cc
	stur q0, [x24, #121]
	ldur q0, [x23, #169]
	stur q1, [x24, #137]
	ldur q1, [x23, #89]
	csel x8, xzr, x8, cc
	stur q2, [x24, #153]
	ldur q2, [x23, #105]
	cmp x9, x4
	sbcs xzr, x8, x5
	stur q3, [x24, #40]
	stur q4, [x24, #72]
	strb w0, [sp, #504]
	stur q0, [x24, #169]
	stur q1, [x24, #89]
	stur q2, [x24, #105]
	b.cs L(56_7)
L(56_6):
	movi v0.2d, #0x0
	mov w8, #0x1
	strb w8, [x19]
	stur q0, [x19, #1]
	b L(56_8)
L(56_7):
	movi v0.2d, #0x0
	add x8, sp, #0x1a0
	sub x6, x29, #0x100
	add x1, x8, #0x60
	stp q0, q0, [sp, #656]
	stp q0, q0, [sp, #688]
	stp q0, q0, [x29, #-256]
	stp q0, q0, [x29, #-224]
	stp q0, q0, [x29, #-192]
	stp q0, q0, [x29, #-160]
	stp q0, q0, [x29, #-128]
	stp q0, q0, [x29, #-96]
	stp q0, q0, [x29, #-64]
	stp q0, q0, [x29, #-32]
	bl ring.digest.block_context.write_tail
	mov x3, x0
	add x0, sp, #0x290
	add x1, sp, #0x1a0
	sub x2, x29, #0x100
	mov x4, x20
	bl ring.digest.block_context.BlockContext.output_after
	ldp q1, q0, [sp, #688]
	adrp x9, PAGE(L(switch.table.yz_webhook_verify_stripe))
	add x9, x9, IN_PAGE(L(switch.table.yz_webhook_verify_stripe))
	ldrb w8, [sp, #504]
	sub x0, x29, #0x100
	ldp q3, q2, [sp, #656]
	add x1, sp, #0x60
	stp q1, q0, [sp, #64]
	ldr x2, [x9, x8, lsl #3]
	stp q1, q0, [sp, #128]
	movi v0.2d, #0x0
	stp q3, q2, [sp, #32]
	stp q3, q2, [sp, #96]
	strb w8, [sp, #160]
	stp q0, q0, [x29, #-256]
	bl memcpy
	ldp q1, q0, [x29, #-256]
	strb wzr, [x19]
	stp q1, q0, [sp]
	stur q1, [x19, #1]
L(56_8):
	stur q0, [x19, #17]
	add sp, sp, #0x3d0
	ldp x20, x19, [sp, #64]
	ldr x28, [sp, #16]
	ldp x22, x21, [sp, #48]
	ldp x24, x23, [sp, #32]
	ldp x29, x30, [sp], #80
	ret
	SIZE(ring_merkle.hash.hash_pieces, 720)

	CODE(ring_merkle.consistency.leads_to_both)
	.p2align 2
/* ring_merkle::consistency::leads_to_both */
	TYPE(ring_merkle.consistency.leads_to_both, %function)
ring_merkle.consistency.leads_to_both:
	sub sp, sp, #0x190
	stp x26, x25, [sp, #336]
	mov x26, x1
	mov x8, xzr
	stp x24, x23, [sp, #352]
	mov x24, x0
	stp x22, x21, [sp, #368]
	mov x21, x4
	mov x22, x3
	stp x20, x19, [sp, #384]
	mov x20, x7
	mov x19, x2
	stp x29, x30, [sp, #304]
	add x29, sp, #0x130
	stp x28, x27, [sp, #320]
	cbz x2, L(58_1)
	mov x9, x19
	mov x10, x26
L(58_0):
	cmp x10, x9
	lsr x9, x9, #1
	cset w11, ne
	orr w11, w11, w10
	lsr x10, x10, #1
	and x11, x11, #0x1
	add x8, x8, x11
	cbnz x9, L(58_0)
L(58_1):
	cmp x21, x8
	b.ne L(58_8)
	ldp q0, q1, [x24]
	stp x6, x5, [sp]
	stp q0, q1, [sp, #144]
	cbz x21, L(58_9)
	sub x8, x29, #0x30
	mov x27, xzr
	mov x25, x26
	orr x28, x8, #0x1
	mov x23, x19
	b L(58_4)
L(58_2):
	mov x8, x25
	mov x25, x23
L(58_3):
	add x27, x27, #0x1
	lsr x23, x25, #1
	lsr x25, x8, #1
	cmp x27, x21
	b.eq L(58_9)
L(58_4):
	cmp x25, x23
	b.eq L(58_5)
	tbnz w25, #0, L(58_5)
	ldp q0, q1, [sp, #144]
	stp q0, q1, [x29, #-128]
	ldp q0, q1, [x29, #-128]
	stp q0, q1, [sp, #112]
	stp q0, q1, [sp, #144]
	tbz w25, #0, L(58_6)
	b L(58_2)
L(58_5):
	movi v0.2d, #0x0
	adrp x8, PAGE(L(static.20))
	add x8, x8, IN_PAGE(L(static.20))
	mov w9, #0x1
	sub x0, x29, #0x30
	sub x1, x29, #0x60
	stp x8, x9, [x29, #-96]
	add x8, x22, x27, lsl #5
	mov w9, #0x20
	mov w2, #0x3
	mov x3, x20
	sturb wzr, [x29, #-16]
	stp x8, x9, [x29, #-80]
	add x8, sp, #0x90
	stp q0, q0, [x29, #-48]
	stp x8, x9, [x29, #-64]
	bl ring_merkle.hash.hash_pieces
	ldurb w8, [x29, #-48]
	cbnz w8, L(58_11)
	ldp q0, q1, [x28]
	stp q0, q1, [x29, #-128]
	ldp q0, q1, [x29, #-128]
	stp q0, q1, [sp, #112]
	stp q0, q1, [sp, #144]
	tbnz w25, #0, L(58_2)
L(58_6):
	cbz x25, L(58_2)
	cmp x25, x23
	b.ne L(58_2)
	mov x8, x25
L(58_7):
	mov x9, x8
	lsr x8, x8, #1
	lsr x25, x25, #1
	cbz x9, L(58_3)
	tbz w9, #1, L(58_7)
	b L(58_3)
L(58_8):
	mov w0, wzr
	b L(58_10)
L(58_9):
	ldp q0, q1, [sp, #144]
	add x0, sp, #0x10
	mov x1, x26
	mov x2, x19
	mov w3, #0x1
	mov x4, x24
	mov x5, x22
	mov x6, x21
	mov x7, x20
	stp q0, q1, [sp, #16]
	stp q0, q1, [sp, #80]
	bl ring_merkle.place.Place.climb
	ldp q0, q1, [sp, #16]
	add x0, sp, #0x50
	ldr x1, [sp, #8]
	stp q0, q1, [sp, #48]
	bl ring_merkle.hash.is_same
	cbz w0, L(58_10)
	ldr x1, [sp]
	add x0, sp, #0x30
	bl ring_merkle.hash.is_same
L(58_10):
	ldp x20, x19, [sp, #384]
	ldp x22, x21, [sp, #368]
	ldp x24, x23, [sp, #352]
	ldp x26, x25, [sp, #336]
	ldp x28, x27, [sp, #320]
	ldp x29, x30, [sp, #304]
	add sp, sp, #0x190
	ret
L(58_11):
	brk #0x1
	SIZE(ring_merkle.consistency.leads_to_both, 488)

	CODE(ring_merkle.place.Place.climb)
	.p2align 2
/* ring_merkle::place::Place::climb */
	TYPE(ring_merkle.place.Place.climb, %function)
ring_merkle.place.Place.climb:
	sub sp, sp, #0x140
	movi v0.2d, #0x0
	stp x22, x21, [sp, #288]
	mov x21, x0
	stp x29, x30, [sp, #224]
	add x29, sp, #0xe0
	stp x28, x27, [sp, #240]
	stp x26, x25, [sp, #256]
	stp q0, q0, [sp]
	ldp q1, q0, [x4]
	stp x24, x23, [sp, #272]
	stp x20, x19, [sp, #304]
	stp q1, q0, [sp, #32]
	cbz x6, L(60_8)
	sub x8, x29, #0x30
	mov x19, x7
	mov x20, x6
	mov x22, x5
	mov w23, w3
	mov x25, x2
	mov x24, x1
	mov x26, xzr
	orr x27, x8, #0x1
	b L(60_2)
L(60_0):
	mov x8, x24
	mov x24, x25
L(60_1):
	add x26, x26, #0x1
	lsr x25, x24, #1
	lsr x24, x8, #1
	cmp x26, x20
	b.eq L(60_8)
L(60_2):
	add x8, x22, x26, lsl #5
	cmp x24, x25
	b.eq L(60_3)
	tbnz w24, #0, L(60_3)
	cbz w23, L(60_4)
	movi v0.2d, #0x0
	adrp x9, PAGE(L(static.20))
	add x9, x9, IN_PAGE(L(static.20))
	mov w10, #0x1
	sub x0, x29, #0x30
	sub x1, x29, #0x60
	stp x9, x10, [x29, #-96]
	add x9, sp, #0x20
	mov w10, #0x20
	mov w2, #0x3
	mov x3, x19
	sturb wzr, [x29, #-16]
	stp q0, q0, [x29, #-48]
	stp x9, x10, [x29, #-80]
	stp x8, x10, [x29, #-64]
	bl ring_merkle.hash.hash_pieces
	ldurb w8, [x29, #-48]
	cbnz w8, L(60_9)
	ldp q0, q1, [x27]
	b L(60_5)
L(60_3):
	movi v0.2d, #0x0
	adrp x9, PAGE(L(static.20))
	add x9, x9, IN_PAGE(L(static.20))
	mov w10, #0x1
	sub x0, x29, #0x30
	sub x1, x29, #0x60
	stp x9, x10, [x29, #-96]
	mov w9, #0x20
	mov w2, #0x3
	stp x8, x9, [x29, #-80]
	add x8, sp, #0x20
	mov x3, x19
	sturb wzr, [x29, #-16]
	stp q0, q0, [x29, #-48]
	stp x8, x9, [x29, #-64]
	bl ring_merkle.hash.hash_pieces
	ldurb w8, [x29, #-48]
	cbnz w8, L(60_9)
	ldp q0, q1, [x27]
	stp q0, q1, [sp, #96]
	ldp q0, q1, [sp, #96]
	stp q0, q1, [sp]
	stp q0, q1, [sp, #32]
	cbnz x24, L(60_6)
	b L(60_0)
L(60_4):
	ldp q0, q1, [sp, #32]
L(60_5):
	stp q0, q1, [sp, #64]
	ldp q0, q1, [sp, #64]
	stp q0, q1, [sp, #96]
	ldp q0, q1, [sp, #96]
	stp q0, q1, [sp]
	stp q0, q1, [sp, #32]
	cbz x24, L(60_0)
L(60_6):
	cmp x24, x25
	b.ne L(60_0)
	tbnz w24, #0, L(60_0)
	mov x8, x24
L(60_7):
	mov x9, x8
	lsr x8, x8, #1
	lsr x24, x24, #1
	cbz x9, L(60_1)
	tbz w9, #1, L(60_7)
	b L(60_1)
L(60_8):
	ldp q0, q1, [sp, #32]
	ldp x20, x19, [sp, #304]
	ldp x24, x23, [sp, #272]
	stp q0, q1, [x21]
	ldp x22, x21, [sp, #288]
	ldp x26, x25, [sp, #256]
	ldp x28, x27, [sp, #240]
	ldp x29, x30, [sp, #224]
	add sp, sp, #0x140
	ret
L(60_9):
	brk #0x1
	SIZE(ring_merkle.place.Place.climb, 440)

	CODE(ring_merkle.hash.is_same)
	.p2align 2
/* ring_merkle::hash::is_same */
	TYPE(ring_merkle.hash.is_same, %function)
ring_merkle.hash.is_same:
	ldrb w8, [x0]
	ldrb w9, [x1]
	cmp w8, w9
	b.ne L(62_0)
	ldrb w8, [x0, #1]
	ldrb w9, [x1, #1]
	cmp w8, w9
	b.ne L(62_0)
	ldrb w8, [x0, #2]
	ldrb w9, [x1, #2]
	cmp w8, w9
	b.ne L(62_0)
	ldrb w8, [x0, #3]
	ldrb w9, [x1, #3]
	cmp w8, w9
	b.ne L(62_0)
	ldrb w8, [x0, #4]
	ldrb w9, [x1, #4]
	cmp w8, w9
	b.ne L(62_0)
	ldrb w8, [x0, #5]
	ldrb w9, [x1, #5]
	cmp w8, w9
	b.ne L(62_0)
	ldrb w8, [x0, #6]
	ldrb w9, [x1, #6]
	cmp w8, w9
	b.ne L(62_0)
	ldrb w8, [x0, #7]
	ldrb w9, [x1, #7]
	cmp w8, w9
	b.ne L(62_0)
	ldrb w8, [x0, #8]
	ldrb w9, [x1, #8]
	cmp w8, w9
	b.ne L(62_0)
	ldrb w8, [x0, #9]
	ldrb w9, [x1, #9]
	cmp w8, w9
	b.ne L(62_0)
	ldrb w8, [x0, #10]
	ldrb w9, [x1, #10]
	cmp w8, w9
	b.ne L(62_0)
	ldrb w8, [x0, #11]
	ldrb w9, [x1, #11]
	cmp w8, w9
	b.ne L(62_0)
	ldrb w8, [x0, #12]
	ldrb w9, [x1, #12]
	cmp w8, w9
	b.ne L(62_0)
	ldrb w8, [x0, #13]
	ldrb w9, [x1, #13]
	cmp w8, w9
	b.ne L(62_0)
	ldrb w8, [x0, #14]
	ldrb w9, [x1, #14]
	cmp w8, w9
	b.ne L(62_0)
	ldrb w8, [x0, #15]
	ldrb w9, [x1, #15]
	cmp w8, w9
	b.ne L(62_0)
	ldrb w8, [x0, #16]
	ldrb w9, [x1, #16]
	cmp w8, w9
	b.ne L(62_0)
	ldrb w8, [x0, #17]
	ldrb w9, [x1, #17]
	cmp w8, w9
	b.ne L(62_0)
	ldrb w8, [x0, #18]
	ldrb w9, [x1, #18]
	cmp w8, w9
	b.ne L(62_0)
	ldrb w8, [x0, #19]
	ldrb w9, [x1, #19]
	cmp w8, w9
	b.ne L(62_0)
	ldrb w8, [x0, #20]
	ldrb w9, [x1, #20]
	cmp w8, w9
	b.ne L(62_0)
	ldrb w8, [x0, #21]
	ldrb w9, [x1, #21]
	cmp w8, w9
	b.ne L(62_0)
	ldrb w8, [x0, #22]
	ldrb w9, [x1, #22]
	cmp w8, w9
	b.ne L(62_0)
	ldrb w8, [x0, #23]
	ldrb w9, [x1, #23]
	cmp w8, w9
	b.ne L(62_0)
	ldrb w8, [x0, #24]
	ldrb w9, [x1, #24]
	cmp w8, w9
	b.ne L(62_0)
	ldrb w8, [x0, #25]
	ldrb w9, [x1, #25]
	cmp w8, w9
	b.ne L(62_0)
	ldrb w8, [x0, #26]
	ldrb w9, [x1, #26]
	cmp w8, w9
	b.ne L(62_0)
	ldrb w8, [x0, #27]
	ldrb w9, [x1, #27]
	cmp w8, w9
	b.ne L(62_0)
	ldrb w8, [x0, #28]
	ldrb w9, [x1, #28]
	cmp w8, w9
	b.ne L(62_0)
	ldrb w8, [x0, #29]
	ldrb w9, [x1, #29]
	cmp w8, w9
	b.ne L(62_0)
	ldrb w8, [x0, #30]
	ldrb w9, [x1, #30]
	cmp w8, w9
	b.ne L(62_0)
	ldrb w8, [x0, #31]
	ldrb w9, [x1, #31]
	cmp w8, w9
	cset w0, eq
	ret
L(62_0):
	mov w0, wzr
	ret
	SIZE(ring_merkle.hash.is_same, 524)

	CODE(ring_password_hash.stored.Stored.parse)
	.p2align 2
/* ring_password_hash::stored::Stored::parse */
	TYPE(ring_password_hash.stored.Stored.parse, %function)
ring_password_hash.stored.Stored.parse:
	stp x29, x30, [sp, #-96]!
	stp x28, x27, [sp, #16]
	mov x29, sp
	stp x26, x25, [sp, #32]
	stp x24, x23, [sp, #48]
	stp x22, x21, [sp, #64]
	stp x20, x19, [sp, #80]
	sub sp, sp, #0xc00
	str xzr, [sp]
	sub sp, sp, #0xc00
	str xzr, [sp]
	sub sp, sp, #0xc00
	str xzr, [sp]
	sub sp, sp, #0x1b0
	mov x20, x2
	mov x21, x1
	mov x19, x0
	add x0, sp, #0xc20
	mov w1, wzr
	mov w2, #0x400
	bl memset
	add x0, sp, #0x820
	mov w1, wzr
	mov w2, #0x400
	bl memset
	add x0, sp, #0x420
	mov w1, wzr
	mov w2, #0x400
	bl memset
	add x0, sp, #0x20
	mov w1, wzr
	mov w2, #0x400
	bl memset
	cmp x20, #0x400
	b.ls L(63_0)
	mov w8, #0x1
	mov w1, wzr
	mov w2, #0x818
	strh w8, [x19], #8
	mov x0, x19
	add sp, sp, #0x2, lsl #12
	add sp, sp, #0x5b0
	ldp x20, x19, [sp, #80]
	ldp x22, x21, [sp, #64]
	ldp x24, x23, [sp, #48]
	ldp x26, x25, [sp, #32]
	ldp x28, x27, [sp, #16]
	ldp x29, x30, [sp], #96
	b memset
L(63_0):
	add x26, sp, #0x2, lsl #12
	mov x25, xzr
	add x26, x26, #0x20
	b L(63_2)
L(63_1):
	add x0, sp, #0x420
	mov w1, wzr
	mov w2, #0x400
	bl memset
	add x0, sp, #0x20
	mov w1, wzr
	mov w2, #0x400
	bl memset
	add x25, x25, #0x1
	cmp x25, #0xc
	b.eq L(63_22)
L(63_2):
	adrp x8, PAGE(L(202_17))
	adrp x9, PAGE(L(202_18))
	add x0, sp, #0x1, lsl #12
	ldr d0, [x8, IN_PAGE(L(202_17))]
	ldr d1, [x9, IN_PAGE(L(202_18))]
	add x8, sp, #0x10
	add x0, x0, #0xc20
	mov w1, wzr
	mov w2, #0x400
	str d0, [sp, #16]
	str s1, [sp, #24]
	ldrb w27, [x8, x25]
	bl memset
	add x0, sp, #0x1, lsl #12
	mov w1, wzr
	mov w2, #0x400
	add x0, x0, #0x820
	bl memset
	adrp x8, PAGE(L(switch.table.ring_password_hash.stored.Stored.parse.194))
	add x8, x8, IN_PAGE(L(switch.table.ring_password_hash.stored.Stored.parse.194))
	ldr x8, [x8, w27, uxtw #3]
	subs x22, x20, x8
	b.cc L(63_1)
	adrp x9, PAGE(L(switch.table.ring_password_hash.stored.Stored.parse.rel))
	add x9, x9, IN_PAGE(L(switch.table.ring_password_hash.stored.Stored.parse.rel))
	add x23, x21, x8
	ldrsw x10, [x9, w27, uxtw #2]
	add x9, x9, x10
	mov x10, x21
L(63_3):
	ldrb w11, [x10], #1
	ldrb w12, [x9], #1
	cmp w11, w12
	b.ne L(63_1)
	subs x8, x8, #0x1
	b.ne L(63_3)
	adrp x8, PAGE(L(203_0))
	add x8, x8, IN_PAGE(L(203_0))
	mov w3, #0x24
	adr x9, L(63_4)
	ldrb w10, [x8, x27]
	add x9, x9, x10, lsl #2
	mov w28, #0x20
	mov w24, wzr
	mov x2, x22
	mov x1, x23
	br x9
L(63_4):
	mov w24, wzr
	mov w28, #0x14
	b L(63_6)
	mov w24, wzr
	b L(63_5)
	subs x2, x22, #0x2
	b.cc L(63_9)
	ldrb w8, [x23]
	cmp w8, #0x69
	b.ne L(63_9)
	ldrb w8, [x23, #1]
	cmp w8, #0x3d
	b.ne L(63_9)
	add x1, x23, #0x2
	mov w24, #0x1
	mov w28, #0x20
	b L(63_7)
	mov w24, wzr
	mov w3, #0x3a
L(63_5):
	mov w28, #0x40
L(63_6):
	mov x2, x22
	mov x1, x23
L(63_7):
	movi v0.2d, #0x0
	add x0, sp, #0x2, lsl #12
	str xzr, [sp, #8592]
	add x0, x0, #0x170
	str q0, [sp, #8576]
	str q0, [sp, #8560]
	bl ring_text.cut.cut_at
	ldrb w8, [x26, #336]
	cmp w8, #0x1
	b.ne L(63_8)
	ldr x0, [sp, #8568]
	ldr x1, [sp, #8576]
	bl ring_text.number.number_in
	tbz w0, #0, L(63_8)
	mov x8, #0xffffffff00000000
	add x9, x1, x8
	cmp x9, x8
	b.hi L(63_11)
L(63_8):
	tbz w24, #0, L(63_1)
L(63_9):
	add x0, sp, #0x2, lsl #12
	adrp x3, PAGE(L(static.21))
	add x3, x3, IN_PAGE(L(static.21))
	adrp x4, PAGE(L(static.23))
	add x4, x4, IN_PAGE(L(static.23))
	add x0, x0, #0x170
	mov x1, x23
	mov x2, x22
	bl ring_password_hash.text.two_counts
	ldrb w8, [x26, #336]
	cmp w8, #0x1
	b.ne L(63_10)
	ldr w28, [sp, #8572]
	sub x8, x28, #0xa
	cmp x8, #0x36
	b.hi L(63_1)
	ldr w8, [sp, #8568]
	mov w9, #0x1
	ldr x22, [sp, #8576]
	ldr x23, [sp, #8584]
	orr x8, x9, x8, lsl #32
	b L(63_12)
L(63_10):
	add x0, sp, #0x2, lsl #12
	adrp x3, PAGE(L(static.23))
	add x3, x3, IN_PAGE(L(static.23))
	adrp x4, PAGE(L(static.21))
	add x4, x4, IN_PAGE(L(static.21))
	add x0, x0, #0x20
	mov x1, x23
	mov x2, x22
	bl ring_password_hash.text.two_counts
	ldrb w8, [x26]
	cmp w8, #0x1
	b.ne L(63_1)
	ldr w28, [sp, #8232]
	sub x8, x28, #0xa
	cmp x8, #0x36
	b.hi L(63_1)
	ldr w8, [sp, #8236]
	mov w9, #0x2
	ldr x22, [sp, #8240]
	ldr x23, [sp, #8248]
	orr x8, x9, x8, lsl #32
	b L(63_12)
L(63_11):
	lsl x8, x1, #32
	ldr x22, [sp, #8584]
	ldr x23, [sp, #8592]
L(63_12):
	str x8, [sp, #8]
	add x0, sp, #0x1, lsl #12
	mov w1, wzr
	mov w2, #0x400
	add x0, x0, #0x420
	bl memset
	add x0, sp, #0x1, lsl #12
	mov w1, wzr
	mov w2, #0x400
	add x0, x0, #0x20
	bl memset
	movi v0.2d, #0x0
	adrp x8, PAGE(L(switch.table.ring_password_hash.stored.put_text))
	add x8, x8, IN_PAGE(L(switch.table.ring_password_hash.stored.put_text))
	add x0, sp, #0x2, lsl #12
	ldrb w24, [x8, x27]
	mov x1, x22
	add x0, x0, #0x170
	mov x2, x23
	mov w3, #0x24
	str xzr, [sp, #8592]
	str q0, [sp, #8576]
	str q0, [sp, #8560]
	bl ring_text.cut.cut_at
	ldrb w8, [x26, #336]
	cmp w8, #0x1
	b.ne L(63_1)
	ldr x1, [sp, #8568]
	ldr x2, [sp, #8576]
	add x3, sp, #0x1, lsl #12
	add x3, x3, #0x420
	mov w0, w24
	bl ring_password_hash.text.decode_into
	tbz w0, #0, L(63_1)
	mov x8, x1
	cbz x1, L(63_21)
	sub w9, w27, #0x4
	ldr x1, [sp, #8584]
	ldr x2, [sp, #8592]
	cmp w9, #0x7
	b.cs L(63_14)
L(63_13):
	cmp w27, #0x5
	b.gt L(63_16)
	subs w9, w27, #0x2
	b.cc L(63_17)
	cmp w9, #0x2
	b.cc L(63_19)
	mov x24, x8
	mov w0, #0x3
	add x3, sp, #0x1, lsl #12
	add x3, x3, #0x20
	bl ring_password_hash.text.decode_into
	and w8, w0, #0xff
	cmp w8, #0x1
	b.eq L(63_20)
	b L(63_21)
L(63_14):
	add x9, sp, #0x1, lsl #12
	mov x10, x8
	add x9, x9, #0x420
L(63_15):
	cbz x10, L(63_13)
	ldrb w11, [x9], #1
	sub x10, x10, #0x1
	cmp w11, #0x24
	b.ne L(63_15)
	b L(63_21)
L(63_16):
	cmp w27, #0x9
	b.gt L(63_18)
	sub w9, w27, #0x7
	cmp w9, #0x3
	b.cs L(63_17)
	mov x24, x8
	mov w0, #0x4
	add x3, sp, #0x1, lsl #12
	add x3, x3, #0x20
	bl ring_password_hash.text.decode_into
	and w8, w0, #0xff
	cmp w8, #0x1
	b.eq L(63_20)
	b L(63_21)
L(63_17):
	mov x24, x8
	mov w0, #0x2
	add x3, sp, #0x1, lsl #12
	add x3, x3, #0x20
	bl ring_password_hash.text.decode_into
	and w8, w0, #0xff
	cmp w8, #0x1
	b.eq L(63_20)
	b L(63_21)
L(63_18):
	cmp w27, #0xa
	b.ne L(63_19)
	add x0, sp, #0x2, lsl #12
	mov x23, x1
	mov w1, wzr
	add x0, x0, #0x170
	mov x22, x2
	mov w2, #0x400
	mov x24, x8
	bl memset
	adrp x8, PAGE(L(201_75))
	movi v0.2d, #0x0
	adrp x9, PAGE(L(201_77))
	ldr q1, [x8, IN_PAGE(L(201_75))]
	adrp x8, PAGE(L(201_76))
	ldr q3, [x9, IN_PAGE(L(201_77))]
	ldr q2, [x8, IN_PAGE(L(201_76))]
	adrp x8, PAGE(L(201_78))
	adrp x9, PAGE(L(201_79))
	str q1, [sp, #8224]
	ldr q1, [x8, IN_PAGE(L(201_78))]
	adrp x8, PAGE(L(202_19))
	add x10, x26, #0x89
	add x0, sp, #0x2, lsl #12
	mov w1, wzr
	str q1, [sp, #8272]
	ldr d1, [x8, IN_PAGE(L(202_19))]
	adrp x8, PAGE(L(202_20))
	stur q0, [x10, #171]
	add x0, x0, #0x170
	mov w2, #0x400
	stur d1, [x26, #107]
	ldr d1, [x8, IN_PAGE(L(202_20))]
	mov w8, #0x3c3b
	stp q0, q0, [x10, #16]
	stur s1, [x26, #115]
	ldr q1, [x9, IN_PAGE(L(201_79))]
	adrp x9, PAGE(L(202_21))
	stp q0, q0, [x10, #48]
	stp q0, q0, [x10, #80]
	stp q0, q0, [x10, #112]
	stp q0, q0, [x10, #144]
	str q0, [x10]
	movi v0.2d, #0xffffffffffffffff
	stur q1, [x26, #129]
	ldr d1, [x9, IN_PAGE(L(202_21))]
	mov w9, #0x1918
	sturh w8, [x26, #119]
	mov w8, #0x3d
	sturh w9, [x26, #153]
	adrp x9, PAGE(L(201_80))
	strb w8, [x26, #121]
	mov w8, #0xffffffff
	stur d1, [x26, #145]
	ldr q1, [x9, IN_PAGE(L(201_80))]
	adrp x9, PAGE(L(202_22))
	stur w8, [x26, #125]
	stur w8, [x26, #122]
	sturh w8, [x26, #159]
	stur w8, [x26, #155]
	mov w8, #0x3332
	stur q1, [x26, #161]
	ldr d1, [x9, IN_PAGE(L(202_22))]
	add x9, x26, #0xbb
	sturh w8, [x26, #185]
	mov x8, #0xffffffffffffffff
	stur x8, [x9, #125]
	adrp x8, PAGE(L(202_23))
	stur d1, [x26, #177]
	ldr d1, [x8, IN_PAGE(L(202_23))]
	str q2, [sp, #8240]
	str q3, [sp, #8256]
	stp q0, q0, [x26, #64]
	stur q0, [x26, #91]
	stp q0, q0, [x9]
	stp q0, q0, [x9, #32]
	stp q0, q0, [x9, #64]
	stp q0, q0, [x9, #96]
	str s1, [sp, #8544]
	bl memset
	movi v0.2d, #0x0
	sub x0, x29, #0x40
	mov x1, x23
	mov x2, x22
	mov w3, #0x3a
	stur xzr, [x29, #-32]
	stp q0, q0, [x29, #-64]
	bl ring_text.cut.cut_at
	ldrb w8, [x26, #1360]
	cmp w8, #0x1
	b.ne L(63_21)
	ldp x1, x2, [x29, #-56]
	add x3, sp, #0x1, lsl #12
	add x3, x3, #0x20
	mov w0, #0x2
	bl ring_password_hash.text.decode_into
	tbz w0, #0, L(63_21)
	movi v0.2d, #0x0
	ldp x2, x3, [x29, #-40]
	mov x22, x1
	add x1, sp, #0x2, lsl #12
	add x4, sp, #0x2, lsl #12
	sub x0, x29, #0x40
	add x1, x1, #0x20
	add x4, x4, #0x170
	mov w5, #0x400
	stp q0, q0, [x29, #-64]
	bl base64.engine.general_purpose.GeneralPurpose.decode_slice_unchecked
	ldrb w8, [x26, #1360]
	cbnz w8, L(63_21)
	cmp x22, #0x20
	b.ne L(63_21)
	ldur x8, [x29, #-56]
	cmp x8, #0x20
	b.ne L(63_21)
	b L(63_24)
L(63_19):
	mov x24, x8
	mov w0, #0x1
	add x3, sp, #0x1, lsl #12
	add x3, x3, #0x20
	bl ring_password_hash.text.decode_into
	and w8, w0, #0xff
	cmp w8, #0x1
	b.ne L(63_21)
L(63_20):
	cmp x1, x28
	b.eq L(63_25)
L(63_21):
	add x1, sp, #0x1, lsl #12
	add x0, sp, #0x420
	mov w2, #0x400
	add x1, x1, #0xc20
	bl memcpy
	add x1, sp, #0x1, lsl #12
	add x0, sp, #0x20
	mov w2, #0x400
	add x1, x1, #0x820
	bl memcpy
	add x25, x25, #0x1
	cmp x25, #0xc
	b.ne L(63_2)
L(63_22):
	mov w8, #0x1
	add x0, x19, #0x10
	add x1, sp, #0xc20
	mov w2, #0x400
	strh w8, [x19]
	str xzr, [x19, #8]
	bl memcpy
	add x0, x19, #0x418
	add x1, sp, #0x820
	mov w2, #0x400
	str xzr, [x19, #1040]
	bl memcpy
	str xzr, [x19, #2072]
L(63_23):
	add sp, sp, #0x2, lsl #12
	add sp, sp, #0x5b0
	ldp x20, x19, [sp, #80]
	ldp x22, x21, [sp, #64]
	ldp x24, x23, [sp, #48]
	ldp x26, x25, [sp, #32]
	ldp x28, x27, [sp, #16]
	ldp x29, x30, [sp], #96
	ret
L(63_24):
	ldr q0, [sp, #8560]
	ldr q1, [sp, #8576]
	mov w27, #0xa
	str q0, [sp, #4160]
	str q1, [sp, #4176]
L(63_25):
	ldr x8, [sp, #8]
	add x1, sp, #0x1, lsl #12
	add x0, sp, #0x420
	add x1, x1, #0x420
	mov w2, #0x400
	lsr x20, x8, #32
	bfi w27, w8, #8, #8
	bl memcpy
	add x1, sp, #0x1, lsl #12
	add x0, sp, #0x20
	mov w2, #0x400
	add x1, x1, #0x20
	bl memcpy
	add x0, x19, #0x10
	add x1, sp, #0x420
	mov w2, #0x400
	strh wzr, [x19]
	stp w27, w20, [x19, #8]
	bl memcpy
	add x0, x19, #0x418
	add x1, sp, #0x20
	mov w2, #0x400
	str x24, [x19, #1040]
	bl memcpy
	str x28, [x19, #2072]
	b L(63_23)
	SIZE(ring_password_hash.stored.Stored.parse, 1912)

	CODE(ring_text.number.number_in)
	.p2align 2
/* ring_text::number::number_in */
	TYPE(ring_text.number.number_in, %function)
ring_text.number.number_in:
	sub sp, sp, #0x30
	mov x8, x1
	cbz x1, L(65_3)
	mov x1, xzr
	mov x9, x0
	mov x10, x8
L(65_0):
	ldrb w11, [x9], #1
	mov w12, #0xa
	subs w11, w11, #0x30
	csel w11, wzr, w11, cc
	madd x1, x1, x12, x11
	subs x10, x10, #0x1
	b.ne L(65_0)
	movi v0.2d, #0x0
	lsr x9, x1, #4
	adrp x10, PAGE(L(static.22))
	add x10, x10, IN_PAGE(L(static.22))
	str xzr, [sp, #32]
	cmp x9, #0x271
	stp q0, q0, [sp]
	b.cc L(65_4)
	mov x11, xzr
	mov x9, x1
L(65_1):
	mov x12, x9
	mov x9, #0x594b
	mov w13, #0x2710
	movk x9, #0x3886, lsl #16
	mov w15, #0x147b
	mov w16, #0xe0ff
	movk x9, #0xc5d6, lsl #32
	movk w16, #0x5f5, lsl #16
	movk x9, #0x346d, lsl #48
	cmp x12, x16
	umulh x9, x12, x9
	lsr x9, x9, #11
	msub w13, w9, w13, w12
	ubfx w14, w13, #2, #14
	mul w14, w14, w15
	mov w15, #0x64
	lsr w14, w14, #17
	msub w13, w14, w15, w13
	mov x15, sp
	ldrh w14, [x10, w14, uxtw #1]
	add x15, x15, x11
	sub x11, x11, #0x4
	strh w14, [x15, #36]
	and x13, x13, #0xffff
	ldrh w13, [x10, x13, lsl #1]
	strh w13, [x15, #38]
	b.hi L(65_1)
	add x11, x11, #0x28
	cmp x9, #0x63
	b.ls L(65_5)
L(65_2):
	ubfx w12, w9, #2, #14
	mov w13, #0x147b
	cmp x9, #0x3e7
	mul w12, w12, w13
	mov w13, #0x64
	lsr w12, w12, #17
	msub w13, w12, w13, w9
	and x13, x13, #0xffff
	ldrh w14, [x10, x13, lsl #1]
	mov x13, sp
	add x15, x13, x11
	sturh w14, [x15, #-2]
	b.hi L(65_7)
	sub x11, x11, #0x3
	orr w9, w12, #0x30
	strb w9, [x13, x11]
	mov w9, #0x28
	sub x9, x9, x11
	cmp x9, x8
	b.eq L(65_9)
	b L(65_12)
L(65_3):
	movi v0.2d, #0x0
	mov x9, xzr
	str xzr, [sp, #32]
	mov w11, #0x28
	stp q0, q0, [sp]
	b L(65_6)
L(65_4):
	mov w11, #0x28
	mov x9, x1
	cmp x1, #0x63
	b.hi L(65_2)
L(65_5):
	cmp x9, #0x9
	b.hi L(65_8)
L(65_6):
	sub x11, x11, #0x1
	mov x10, sp
	orr w9, w9, #0x30
	strb w9, [x10, x11]
	mov w9, #0x28
	sub x9, x9, x11
	cmp x9, x8
	b.eq L(65_9)
	b L(65_12)
L(65_7):
	sub x11, x11, #0x4
	ldrh w9, [x10, w12, uxtw #1]
	strh w9, [x13, x11]
	mov w9, #0x28
	sub x9, x9, x11
	cmp x9, x8
	b.eq L(65_9)
	b L(65_12)
L(65_8):
	sub x11, x11, #0x2
	ldrh w9, [x10, x9, lsl #1]
	mov x10, sp
	strh w9, [x10, x11]
	mov w9, #0x28
	sub x9, x9, x11
	cmp x9, x8
	b.ne L(65_12)
L(65_9):
	cmp x11, #0x28
	b.eq L(65_11)
	mov x9, sp
	add x9, x9, x11
L(65_10):
	ldrb w10, [x9], #1
	ldrb w11, [x0], #1
	cmp w10, w11
	b.ne L(65_12)
	subs x8, x8, #0x1
	b.ne L(65_10)
L(65_11):
	mov w0, #0x1
	add sp, sp, #0x30
	ret
L(65_12):
	mov x1, xzr
	mov w0, wzr
	add sp, sp, #0x30
	ret
	SIZE(ring_text.number.number_in, 512)

	CODE(ring_password_hash.text.two_counts)
	.p2align 2
/* ring_password_hash::text::two_counts */
	TYPE(ring_password_hash.text.two_counts, %function)
ring_password_hash.text.two_counts:
	sub sp, sp, #0x50
	subs x2, x2, #0x2
	stp x29, x30, [sp, #48]
	add x29, sp, #0x30
	stp x20, x19, [sp, #64]
	b.cc L(67_1)
	mov x8, x1
	ldrb w9, [x1], #2
	ldrb w10, [x3]
	cmp w9, w10
	b.ne L(67_1)
	ldrb w8, [x8, #1]
	ldrb w9, [x3, #1]
	cmp w8, w9
	b.ne L(67_1)
	movi v0.2d, #0x0
	mov x19, x0
	mov x0, sp
	mov w3, #0x2c
	mov x20, x4
	str xzr, [sp, #32]
	stp q0, q0, [sp]
	bl ring_text.cut.cut_at
	ldrb w8, [sp]
	cmp w8, #0x1
	b.ne L(67_0)
	ldp x0, x1, [sp, #8]
	bl ring_text.number.number_in
	tbz w0, #0, L(67_0)
	mov x8, #0xffffffff00000000
	mov x9, #0xffffffff00000001
	add x8, x1, x8
	cmp x8, x9
	b.cc L(67_0)
	ldr x8, [sp, #32]
	subs x2, x8, #0x2
	b.cc L(67_0)
	ldr x9, [sp, #24]
	ldrb w11, [x20]
	mov x8, x9
	ldrb w10, [x8], #2
	cmp w10, w11
	b.ne L(67_0)
	ldrb w9, [x9, #1]
	ldrb w10, [x20, #1]
	cmp w9, w10
	b.ne L(67_0)
	movi v0.2d, #0x0
	mov x20, x1
	mov x0, sp
	mov x1, x8
	mov w3, #0x24
	str xzr, [sp, #32]
	stp q0, q0, [sp]
	bl ring_text.cut.cut_at
	ldrb w8, [sp]
	cmp w8, #0x1
	b.ne L(67_0)
	ldp x0, x1, [sp, #8]
	bl ring_text.number.number_in
	tbz w0, #0, L(67_0)
	mov x8, #0xffffffff00000000
	add x9, x1, x8
	cmp x9, x8
	b.hi L(67_2)
L(67_0):
	movi v0.2d, #0x0
	stp q0, q0, [x19]
	ldp x20, x19, [sp, #64]
	ldp x29, x30, [sp, #48]
	add sp, sp, #0x50
	ret
L(67_1):
	movi v0.2d, #0x0
	stp q0, q0, [x0]
	ldp x20, x19, [sp, #64]
	ldp x29, x30, [sp, #48]
	add sp, sp, #0x50
	ret
L(67_2):
	mov w8, #0x1
	stp w20, w1, [x19, #8]
	str x8, [x19]
	ldp x8, x9, [sp, #24]
	stp x8, x9, [x19, #16]
	ldp x20, x19, [sp, #64]
	ldp x29, x30, [sp, #48]
	add sp, sp, #0x50
	ret
	SIZE(ring_password_hash.text.two_counts, 344)

	CODE(ring_password_hash.text.decode_into)
	.p2align 2
/* ring_password_hash::text::decode_into */
	TYPE(ring_password_hash.text.decode_into, %function)
ring_password_hash.text.decode_into:
	stp x29, x30, [sp, #-32]!
	stp x28, x19, [sp, #16]
	mov x29, sp
	sub sp, sp, #0x4a0
	movi v0.2d, #0x0
	add x9, sp, #0x330
	adrp x10, PAGE(L(201_81))
	add x8, x9, #0x83
	str xzr, [sp]
	movi v16.2d, #0xffffffffffffffff
	adrp x13, PAGE(L(201_85))
	adrp x14, PAGE(L(201_86))
	adrp x11, PAGE(L(201_83))
	ldr q3, [x13, IN_PAGE(L(201_85))]
	adrp x13, PAGE(L(202_26))
	ldr q5, [x14, IN_PAGE(L(201_86))]
	stp q0, q0, [x8, #128]
	adrp x14, PAGE(L(202_27))
	ldr d4, [x13, IN_PAGE(L(202_26))]
	stp q0, q0, [x8, #160]
	ldr d6, [x14, IN_PAGE(L(202_27))]
	adrp x16, PAGE(L(202_28))
	stur q0, [x9, #243]
	ldr q1, [x11, IN_PAGE(L(201_83))]
	mov w11, #0x3c3b
	stur q0, [x9, #227]
	mov w13, #0x1918
	mov w14, #0x3332
	stur q0, [x9, #211]
	ldr d19, [x16, IN_PAGE(L(202_28))]
	add x16, sp, #0x1e0
	stur q0, [x9, #195]
	add x15, x9, #0xbb
	mov x4, x3
	stur q0, [x9, #179]
	mov x19, x2
	mov x2, x1
	stur q0, [x9, #163]
	add x8, sp, #0x150
	mov w12, #0x3d
	stur q0, [x9, #147]
	stur q0, [x9, #131]
	stp q0, q0, [sp]
	stp q0, q0, [sp, #32]
	stp q0, q0, [sp, #64]
	stp q0, q0, [sp, #96]
	stp q0, q0, [sp, #128]
	stp q0, q0, [sp, #160]
	stp q0, q0, [sp, #192]
	stp q0, q0, [sp, #224]
	stp q0, q0, [sp, #256]
	stp q0, q0, [sp, #288]
	stp q0, q0, [sp, #336]
	stp q0, q0, [sp, #368]
	stp q0, q0, [sp, #400]
	stp q0, q0, [sp, #432]
	stp q0, q0, [sp, #480]
	stp q0, q0, [sp, #512]
	stp q0, q0, [sp, #544]
	stp q0, q0, [sp, #576]
	stp q16, q16, [sp, #544]
	stp q0, q0, [sp, #608]
	stp q0, q0, [sp, #640]
	stp q0, q0, [sp, #672]
	stp q0, q0, [sp, #704]
	stp q0, q0, [sp, #736]
	stp q0, q0, [sp, #768]
	ldr q0, [x10, IN_PAGE(L(201_81))]
	adrp x10, PAGE(L(201_82))
	ldr q2, [x10, IN_PAGE(L(201_82))]
	adrp x10, PAGE(L(201_84))
	strb wzr, [sp, #1139]
	ldr q7, [x10, IN_PAGE(L(201_84))]
	adrp x10, PAGE(L(202_24))
	stp q16, q16, [sp, #880]
	ldr d17, [x10, IN_PAGE(L(202_24))]
	adrp x10, PAGE(L(202_25))
	stur q16, [x9, #91]
	ldr d18, [x10, IN_PAGE(L(202_25))]
	mov w10, #0xffffffff
	sturh w11, [x9, #119]
	stur d17, [x9, #107]
	stur s18, [x9, #115]
	stur w10, [x9, #122]
	stur w10, [x9, #125]
	stur q3, [x9, #129]
	stur d4, [x9, #145]
	sturh w13, [x9, #153]
	stur w10, [x9, #155]
	sturh w10, [x9, #159]
	stur q5, [x9, #161]
	stur d6, [x9, #177]
	sturh w14, [x9, #185]
	stur q16, [x9, #251]
	stur q16, [x9, #235]
	stur q16, [x9, #219]
	stur q16, [x9, #203]
	stur q16, [x9, #187]
	add x9, x16, #0xbb
	str wzr, [sp, #800]
	stp q16, q16, [x9, #96]
	str q16, [x9, #80]
	adrp x9, PAGE(L(202_29))
	stp q0, q2, [sp, #480]
	stp q1, q7, [sp, #512]
	stp q0, q2, [sp, #816]
	stp q1, q7, [sp, #848]
	ldr d7, [x9, IN_PAGE(L(202_29))]
	and w9, w0, #0xff
	stp q16, q16, [x15, #96]
	cmp w9, #0x1
	str q16, [x15, #80]
	mov x15, #0xffffffffffffffff
	strh wzr, [sp, #476]
	str wzr, [sp, #472]
	stur xzr, [x8, #125]
	str wzr, [sp, #320]
	strb w12, [sp, #937]
	str x15, [sp, #1128]
	str s19, [sp, #1136]
	stur q16, [x8, #235]
	stur d17, [x8, #251]
	stur s18, [x16, #115]
	sturh w11, [x16, #119]
	strb w12, [sp, #601]
	stur w10, [x16, #125]
	stur w10, [x16, #122]
	stur q3, [x16, #129]
	stur d4, [x16, #145]
	sturh w13, [x16, #153]
	sturh w10, [x16, #159]
	stur w10, [x16, #155]
	stur q5, [x16, #161]
	stur d6, [x16, #177]
	sturh w14, [x16, #185]
	str x15, [sp, #792]
	stur q16, [x16, #251]
	stur q16, [x16, #235]
	stur q16, [x16, #219]
	stur q16, [x16, #203]
	stur q16, [x16, #187]
	str s7, [sp, #800]
	b.le L(69_0)
	cmp w9, #0x2
	b.eq L(69_1)
	cmp w9, #0x3
	b.ne L(69_2)
	movi v0.2d, #0x0
	sub x0, x29, #0x20
	add x1, sp, #0x1e0
	b L(69_11)
L(69_0):
	cbnz w9, L(69_8)
	sub x9, x4, x2
	cmp x9, x19
	b.cs L(69_13)
	cmp x19, #0x8
	mov x8, xzr
	b.cc L(69_25)
	cmp x9, #0x20
	b.cc L(69_25)
	cmp x19, #0x20
	b.cs L(69_21)
	mov x8, xzr
	b L(69_23)
L(69_1):
	movi v0.2d, #0x0
	sub x0, x29, #0x20
	add x1, sp, #0x330
	b L(69_11)
L(69_2):
	mov x9, sp
	mov x10, xzr
	b L(69_4)
L(69_3):
	add x10, x10, #0x1
	cmp x10, #0x40
	b.eq L(69_10)
L(69_4):
	adrp x11, PAGE(L(static.46))
	add x11, x11, IN_PAGE(L(static.46))
	ldrb w12, [x11, x10]
	sub w13, w12, #0x20
	cmp w13, #0x5e
	b.hi L(69_7)
	mov x13, xzr
	b L(69_6)
L(69_5):
	add x13, x13, #0x1
	cmp x13, #0x40
	b.eq L(69_3)
L(69_6):
	cmp x10, x13
	b.eq L(69_5)
	ldrb w14, [x11, x13]
	cmp w12, w14
	b.ne L(69_5)
L(69_7):
	brk #0x1
L(69_8):
	lsr x8, x19, #1
	mov x9, x2
	mov x10, x19
L(69_9):
	cbz x10, L(69_12)
	ldrb w11, [x9], #1
	sub x10, x10, #0x1
	sub w11, w11, #0x5b
	cmn w11, #0x1a
	b.cc L(69_9)
	b L(69_19)
L(69_10):
	movi v16.2d, #0xffffffffffffffff
	mov x11, #0xffffffffffffffff
	stp q0, q2, [sp]
	mov w10, #0xffffffff
	stur q3, [x9, #129]
	sub x0, x29, #0x20
	strh w10, [sp, #476]
	mov x1, sp
	str w10, [sp, #472]
	stp q16, q16, [sp, #432]
	stur x11, [x8, #125]
	adrp x11, PAGE(L(201_87))
	ldr q0, [x11, IN_PAGE(L(201_87))]
	adrp x11, PAGE(L(202_30))
	stur w10, [sp, #122]
	stur w10, [sp, #125]
	mov w10, #0x1918
	ldur x8, [x8, #125]
	stp q1, q0, [sp, #32]
	ldr d0, [x11, IN_PAGE(L(202_30))]
	adrp x11, PAGE(L(202_31))
	ldr d1, [x11, IN_PAGE(L(202_31))]
	ldr w11, [sp, #472]
	sturh w10, [x9, #153]
	ldrh w10, [sp, #476]
	stur d0, [sp, #110]
	stur s1, [sp, #118]
	ldp q1, q0, [sp, #432]
	stur w11, [x9, #155]
	mov x11, sp
	sturh w10, [x9, #159]
	mov w10, #0x3332
	stp q16, q16, [sp, #64]
	stp q16, q16, [sp, #336]
	stp q16, q16, [sp, #368]
	stp q16, q16, [sp, #400]
	sturh w10, [x9, #185]
	add x10, x11, #0xbb
	ldp q3, q2, [sp, #400]
	stp q1, q0, [x10, #96]
	ldp q0, q1, [sp, #336]
	stur q16, [sp, #94]
	stur d4, [x9, #145]
	str q2, [x10, #80]
	stur q0, [x9, #187]
	ldp q2, q0, [sp, #368]
	stur q5, [x9, #161]
	stur d6, [x9, #177]
	stur q0, [x9, #235]
	movi v0.2d, #0x0
	stur q3, [x9, #251]
	stur q2, [x9, #219]
	stur q1, [x9, #203]
	str x8, [sp, #312]
	str s7, [sp, #320]
L(69_11):
	stp q0, q0, [x29, #-32]
	mov x3, x19
	mov w5, #0x400
	bl base64.engine.general_purpose.GeneralPurpose.decode_slice_unchecked
	ldurb w8, [x29, #-32]
	ldur x9, [x29, #-24]
	cmp w8, #0x0
	cset w0, eq
	csel x19, x9, xzr, eq
	mov x1, x19
	add sp, sp, #0x4a0
	ldp x28, x19, [sp, #16]
	ldp x29, x30, [sp], #32
	ret
L(69_12):
	tbnz w19, #0, L(69_19)
	cbz x8, L(69_20)
	add x9, x2, #0x1
	mov x10, x8
	b L(69_16)
L(69_13):
	mov x0, x4
	mov x1, x2
	mov x2, x19
	bl memmove
	mov w0, #0x1
	mov x1, x19
	add sp, sp, #0x4a0
	ldp x28, x19, [sp, #16]
	ldp x29, x30, [sp], #32
	ret
L(69_14):
	sub w13, w12, #0x37
L(69_15):
	add w11, w13, w11, lsl #4
	subs x10, x10, #0x1
	add x9, x9, #0x2
	strb w11, [x4], #1
	b.eq L(69_20)
L(69_16):
	ldurb w13, [x9, #-1]
	subs w11, w13, #0x30
	b.cc L(69_19)
	ldrb w12, [x9]
	cmp w13, #0x39
	b.ls L(69_18)
	cmp w13, #0x41
	b.cc L(69_19)
	cmp w13, #0x46
	b.hi L(69_17)
	sub w11, w13, #0x37
	b L(69_18)
L(69_17):
	sub w11, w13, #0x61
	cmp w11, #0x5
	b.hi L(69_19)
	sub w11, w13, #0x57
L(69_18):
	subs w13, w12, #0x30
	b.cc L(69_19)
	cmp w12, #0x39
	b.ls L(69_15)
	cmp w12, #0x41
	b.cc L(69_19)
	cmp w12, #0x46
	b.ls L(69_14)
	sub w13, w12, #0x61
	cmp w13, #0x5
	b.hi L(69_19)
	sub w13, w12, #0x57
	b L(69_15)
L(69_19):
	mov x8, xzr
	mov w0, wzr
	mov x19, x8
	mov x1, x19
	add sp, sp, #0x4a0
	ldp x28, x19, [sp, #16]
	ldp x29, x30, [sp], #32
	ret
L(69_20):
	mov w0, #0x1
	mov x19, x8
	mov x1, x19
	add sp, sp, #0x4a0
	ldp x28, x19, [sp, #16]
	ldp x29, x30, [sp], #32
	ret
L(69_21):
	and x9, x19, #0x18
	and x8, x19, #0xffffffffffffffe0
	add x10, x2, #0x10
	add x11, x4, #0x10
	and x12, x19, #0xffffffffffffffe0
L(69_22):
	ldp q0, q1, [x10, #-16]
	subs x12, x12, #0x20
	add x10, x10, #0x20
	stp q0, q1, [x11, #-16]
	add x11, x11, #0x20
	b.ne L(69_22)
	cmp x19, x8
	b.eq L(69_26)
	cbz x9, L(69_25)
L(69_23):
	mov x11, x8
	and x8, x19, #0xfffffffffffffff8
	sub x9, x11, x8
	add x10, x2, x11
	add x11, x4, x11
L(69_24):
	ldr d0, [x10], #8
	adds x9, x9, #0x8
	str d0, [x11], #8
	b.ne L(69_24)
	cmp x19, x8
	b.eq L(69_26)
L(69_25):
	ldrb w9, [x2, x8]
	strb w9, [x4, x8]
	add x8, x8, #0x1
	cmp x19, x8
	b.ne L(69_25)
L(69_26):
	mov w0, #0x1
	mov x1, x19
	add sp, sp, #0x4a0
	ldp x28, x19, [sp, #16]
	ldp x29, x30, [sp], #32
	ret
	SIZE(ring_password_hash.text.decode_into, 1484)

	CODE(ring_password_hash.stored.put_text)
	.p2align 2
/* ring_password_hash::stored::put_text */
	TYPE(ring_password_hash.stored.put_text, %function)
ring_password_hash.stored.put_text:
	sub sp, sp, #0x70
	stp x22, x21, [sp, #80]
	mov w22, w1
	adrp x9, PAGE(L(204_0))
	add x9, x9, IN_PAGE(L(204_0))
	mov w8, w22
	stp x29, x30, [sp, #16]
	and x8, x8, #0xff
	stp x28, x27, [sp, #32]
	add x29, sp, #0x10
	stp x26, x25, [sp, #48]
	mov w25, #0x24
	adrp x1, PAGE(L(static.31))
	add x1, x1, IN_PAGE(L(static.31))
	stp x24, x23, [sp, #64]
	mov w27, #0xf
	stp x20, x19, [sp, #96]
	mov w19, #0x1
	mov x20, x7
	str x6, [sp, #8]
	adr x10, L(71_0)
	ldrb w11, [x9, x8]
	add x10, x10, x11, lsl #2
	mov x23, x5
	mov x24, x4
	mov w26, w2
	mov x21, x0
	br x10
L(71_0):
	mov w19, wzr
	adrp x1, PAGE(L(static.24))
	add x1, x1, IN_PAGE(L(static.24))
	b L(71_3)
	mov w19, wzr
	adrp x1, PAGE(L(static.28))
	add x1, x1, IN_PAGE(L(static.28))
	mov w27, #0xc
	sub x8, x21, x1
	mov w28, w3
	cmp x8, x27
	b.cc L(71_4)
	b L(71_1)
	mov w19, wzr
	adrp x1, PAGE(L(static.27))
	add x1, x1, IN_PAGE(L(static.27))
	b L(71_3)
	mov w19, wzr
	adrp x1, PAGE(L(static.32))
	add x1, x1, IN_PAGE(L(static.32))
	mov w27, #0xf
	sub x8, x21, x1
	mov w28, w3
	cmp x8, x27
	b.cc L(71_4)
L(71_1):
	mov x0, x21
	mov x2, x27
	bl memmove
	and w8, w26, #0xff
	cmp w8, #0x2
	b.ne L(71_6)
L(71_2):
	add x8, x21, x27
	adrp x9, PAGE(L(static.23))
	add x9, x9, IN_PAGE(L(static.23))
	sub x9, x8, x9
	add x1, x27, #0x2
	mov x0, x21
	cmp x9, #0x1
	mov w9, #0x3d6c
	mov x2, x20
	mov w3, #0x2c
	strh w9, [x8]
	bl ring_password_hash.text.put_number
	mov w9, w0
	mov x8, x1
	mov w0, wzr
	mov x1, xzr
	tbz w9, #0, L(71_17)
	cmp x8, #0x3fe
	b.hi L(71_17)
	add x9, x21, x8
	adrp x10, PAGE(L(static.21))
	add x10, x10, IN_PAGE(L(static.21))
	sub x10, x9, x10
	add x1, x8, #0x2
	mov x0, x21
	cmp x10, #0x1
	mov w10, #0x3d69
	mov x2, x28
	strh w10, [x9]
	mov w3, #0x24
	bl ring_password_hash.text.put_number
	tbz w0, #0, L(71_7)
	b L(71_10)
	mov w19, wzr
	adrp x1, PAGE(L(static.25))
	add x1, x1, IN_PAGE(L(static.25))
	mov w27, #0xc
	sub x8, x21, x1
	mov w28, w3
	cmp x8, x27
	b.cc L(71_4)
	b L(71_1)
	mov w19, wzr
	adrp x1, PAGE(L(static.26))
	add x1, x1, IN_PAGE(L(static.26))
	b L(71_3)
	mov w19, wzr
	adrp x1, PAGE(L(static.30))
	add x1, x1, IN_PAGE(L(static.30))
	mov w27, #0x8
	sub x8, x21, x1
	mov w28, w3
	cmp x8, x27
	b.cc L(71_4)
	b L(71_1)
	mov w19, wzr
	adrp x1, PAGE(L(static.29))
	add x1, x1, IN_PAGE(L(static.29))
	mov w27, #0x3
	sub x8, x21, x1
	mov w28, w3
	cmp x8, x27
	b.cc L(71_4)
	b L(71_1)
	mov w19, wzr
	mov w25, #0x3a
	adrp x1, PAGE(L(static.33))
	add x1, x1, IN_PAGE(L(static.33))
L(71_3):
	mov w27, #0xe
	sub x8, x21, x1
	mov w28, w3
	cmp x8, x27
	b.cs L(71_1)
L(71_4):
	mov x8, x21
	mov x9, x27
L(71_5):
	ldrb w10, [x1], #1
	subs x9, x9, #0x1
	strb w10, [x8], #1
	b.ne L(71_5)
	and w8, w26, #0xff
	cmp w8, #0x2
	b.eq L(71_2)
L(71_6):
	cmp w8, #0x1
	b.ne L(71_8)
	add x8, x21, x27
	adrp x9, PAGE(L(static.21))
	add x9, x9, IN_PAGE(L(static.21))
	sub x9, x8, x9
	add x1, x27, #0x2
	mov x0, x21
	cmp x9, #0x1
	mov w9, #0x3d69
	mov x2, x28
	mov w3, #0x2c
	strh w9, [x8]
	bl ring_password_hash.text.put_number
	mov w9, w0
	mov x8, x1
	mov w0, wzr
	mov x1, xzr
	tbz w9, #0, L(71_17)
	cmp x8, #0x3fe
	b.hi L(71_17)
	add x9, x21, x8
	adrp x10, PAGE(L(static.23))
	add x10, x10, IN_PAGE(L(static.23))
	sub x10, x9, x10
	add x1, x8, #0x2
	mov x0, x21
	cmp x10, #0x1
	mov w10, #0x3d6c
	mov x2, x20
	strh w10, [x9]
	mov w3, #0x24
	bl ring_password_hash.text.put_number
	tbnz w0, #0, L(71_10)
L(71_7):
	mov x1, xzr
	mov w0, wzr
	b L(71_17)
L(71_8):
	adrp x8, PAGE(L(static.8))
	add x8, x8, IN_PAGE(L(static.8))
	cmp w19, #0x0
	adrp x9, PAGE(L(static.21))
	add x9, x9, IN_PAGE(L(static.21))
	mov w11, #0x2
	csel x1, x9, x8, ne
	add x10, x21, x27
	csel x26, x11, xzr, ne
	sub x11, x10, x1
	cmp x11, x26
	b.cs L(71_9)
	ldrb w11, [x1]
	cmp w19, #0x0
	csel x8, x9, x8, ne
	strb w11, [x10]
	ldrb w8, [x8, #1]
	strb w8, [x10, #1]
	add x1, x26, x27
	mov x0, x21
	mov x2, x28
	mov w3, w25
	bl ring_password_hash.text.put_number
	tbnz w0, #0, L(71_10)
	b L(71_7)
L(71_9):
	add x0, x21, x27
	mov x2, x26
	bl memcpy
	add x1, x26, x27
	mov x0, x21
	mov x2, x28
	mov w3, w25
	bl ring_password_hash.text.put_number
	tbz w0, #0, L(71_7)
L(71_10):
	and x8, x22, #0xff
	adrp x9, PAGE(L(switch.table.ring_password_hash.stored.put_text))
	add x9, x9, IN_PAGE(L(switch.table.ring_password_hash.stored.put_text))
	ldrb w2, [x9, x8]
	mov x0, x21
	mov x3, x24
	mov x4, x23
	bl ring_password_hash.text.put_field
	mov w9, w0
	mov x8, x1
	mov w0, wzr
	mov x1, xzr
	tbz w9, #0, L(71_17)
	cmp x8, #0x3ff
	b.hi L(71_17)
	and w9, w22, #0xff
	mov w10, #0x24
	strb w10, [x21, x8]
	cmp w9, #0x5
	b.gt L(71_11)
	ldr x3, [sp, #8]
	subs w9, w9, #0x2
	b.cc L(71_12)
	cmp w9, #0x2
	b.cc L(71_14)
	mov w2, #0x3
	b L(71_15)
L(71_11):
	ldr x3, [sp, #8]
	cmp w9, #0x9
	b.gt L(71_13)
	sub w9, w9, #0x7
	cmp w9, #0x3
	b.cs L(71_12)
	mov w2, #0x4
	b L(71_15)
	mov w19, wzr
	mov w27, #0xf
	sub x8, x21, x1
	mov w28, w3
	cmp x8, x27
	b.cc L(71_4)
	b L(71_1)
L(71_12):
	mov w2, #0x2
	b L(71_15)
L(71_13):
	cmp w9, #0xa
	b.ne L(71_14)
	add x1, x8, #0x1
	mov x0, x21
	mov w2, #0x2
	mov w4, #0x20
	mov x19, x3
	bl ring_password_hash.text.put_field
	mov w9, w0
	mov x8, x1
	mov w0, wzr
	mov x1, xzr
	tbz w9, #0, L(71_17)
	cmp x8, #0x3ff
	b.hi L(71_17)
	sub x4, x20, #0x20
	mov w9, #0x3a
	strb w9, [x21, x8]
	add x1, x8, #0x1
	add x3, x19, #0x20
	mov x0, x21
	mov w2, #0x2
	b L(71_16)
L(71_14):
	mov w2, #0x1
L(71_15):
	add x1, x8, #0x1
	mov x0, x21
	mov x4, x20
L(71_16):
	bl ring_password_hash.text.put_field
L(71_17):
	ldp x20, x19, [sp, #96]
	ldp x22, x21, [sp, #80]
	ldp x24, x23, [sp, #64]
	ldp x26, x25, [sp, #48]
	ldp x28, x27, [sp, #32]
	ldp x29, x30, [sp, #16]
	add sp, sp, #0x70
	ret
	SIZE(ring_password_hash.stored.put_text, 1168)

	CODE(ring_password_hash.text.put_number)
	.p2align 2
/* ring_password_hash::text::put_number */
	TYPE(ring_password_hash.text.put_number, %function)
ring_password_hash.text.put_number:
	sub sp, sp, #0x60
	movi v0.2d, #0x0
	lsr x8, x2, #4
	stp x29, x30, [sp, #48]
	str x21, [sp, #64]
	add x29, sp, #0x30
	cmp x8, #0x271
	adrp x8, PAGE(L(static.22))
	add x8, x8, IN_PAGE(L(static.22))
	stp x20, x19, [sp, #80]
	str xzr, [sp, #32]
	stp q0, q0, [sp]
	b.cc L(73_2)
	mov x9, xzr
L(73_0):
	mov x11, #0x594b
	mov x10, x2
	mov w13, #0x147b
	movk x11, #0x3886, lsl #16
	mov w14, #0xe0ff
	movk x11, #0xc5d6, lsl #32
	movk w14, #0x5f5, lsl #16
	movk x11, #0x346d, lsl #48
	cmp x2, x14
	umulh x11, x2, x11
	lsr x2, x11, #11
	mov w11, #0x2710
	msub w11, w2, w11, w10
	ubfx w12, w11, #2, #14
	mul w12, w12, w13
	mov w13, #0x64
	lsr w12, w12, #17
	msub w11, w12, w13, w11
	mov x13, sp
	ldrh w12, [x8, w12, uxtw #1]
	add x13, x13, x9
	sub x9, x9, #0x4
	strh w12, [x13, #36]
	and x11, x11, #0xffff
	ldrh w11, [x8, x11, lsl #1]
	strh w11, [x13, #38]
	b.hi L(73_0)
	add x9, x9, #0x28
	cmp x2, #0x63
	b.ls L(73_3)
L(73_1):
	ubfx w10, w2, #2, #14
	mov w11, #0x147b
	mov x12, sp
	add x13, x12, x9
	cmp x2, #0x3e7
	mul w10, w10, w11
	lsr w11, w10, #17
	mov w10, #0x64
	msub w10, w11, w10, w2
	and x10, x10, #0xffff
	ldrh w10, [x8, x10, lsl #1]
	sturh w10, [x13, #-2]
	b.hi L(73_4)
	sub x10, x9, #0x3
	orr w8, w11, #0x30
	strb w8, [x12, x10]
	mov w9, wzr
	cmp x1, #0x400
	mov x8, xzr
	b.ls L(73_6)
	b L(73_8)
L(73_2):
	mov w9, #0x28
	cmp x2, #0x63
	b.hi L(73_1)
L(73_3):
	cmp x2, #0x9
	b.hi L(73_5)
	sub x10, x9, #0x1
	mov x8, sp
	orr w9, w2, #0x30
	strb w9, [x8, x10]
	mov w9, wzr
	cmp x1, #0x400
	mov x8, xzr
	b.ls L(73_6)
	b L(73_8)
L(73_4):
	sub x10, x9, #0x4
	ldrh w8, [x8, w11, uxtw #1]
	strh w8, [x12, x10]
	mov w9, wzr
	cmp x1, #0x400
	mov x8, xzr
	b.ls L(73_6)
	b L(73_8)
L(73_5):
	sub x10, x9, #0x2
	ldrh w8, [x8, x2, lsl #1]
	mov x9, sp
	strh w8, [x9, x10]
	mov w9, wzr
	cmp x1, #0x400
	mov x8, xzr
	b.hi L(73_8)
L(73_6):
	mov w11, #0x28
	mov w12, #0x400
	sub x2, x11, x10
	sub x11, x12, x1
	cmp x11, x2
	b.cc L(73_8)
	mov x8, sp
	add x20, x2, x1
	mov x21, x0
	add x0, x0, x1
	add x1, x8, x10
	mov w19, w3
	bl memcpy
	cmp x20, #0x3ff
	b.ls L(73_7)
	mov x8, xzr
	mov w9, wzr
	b L(73_8)
L(73_7):
	add x8, x20, #0x1
	mov w9, #0x1
	strb w19, [x21, x20]
L(73_8):
	ldp x20, x19, [sp, #80]
	mov w0, w9
	ldp x29, x30, [sp, #48]
	mov x1, x8
	ldr x21, [sp, #64]
	add sp, sp, #0x60
	ret
	SIZE(ring_password_hash.text.put_number, 492)

	CODE(ring_password_hash.text.put_field)
	.p2align 2
/* ring_password_hash::text::put_field */
	TYPE(ring_password_hash.text.put_field, %function)
ring_password_hash.text.put_field:
	stp x29, x30, [sp, #-32]!
	stp x28, x19, [sp, #16]
	mov x29, sp
	sub sp, sp, #0x490
	movi v0.2d, #0x0
	add x9, sp, #0x330
	adrp x10, PAGE(L(201_88))
	add x8, x9, #0x83
	str xzr, [sp]
	movi v16.2d, #0xffffffffffffffff
	adrp x13, PAGE(L(201_92))
	adrp x14, PAGE(L(201_93))
	adrp x11, PAGE(L(201_90))
	ldr q3, [x13, IN_PAGE(L(201_92))]
	adrp x13, PAGE(L(202_34))
	ldr q5, [x14, IN_PAGE(L(201_93))]
	stp q0, q0, [x8, #128]
	adrp x14, PAGE(L(202_35))
	ldr d4, [x13, IN_PAGE(L(202_34))]
	stp q0, q0, [x8, #160]
	ldr d6, [x14, IN_PAGE(L(202_35))]
	adrp x16, PAGE(L(202_36))
	stur q0, [x9, #243]
	ldr q1, [x11, IN_PAGE(L(201_90))]
	mov w11, #0x3c3b
	stur q0, [x9, #227]
	mov w13, #0x1918
	mov w14, #0x3332
	stur q0, [x9, #211]
	ldr d19, [x16, IN_PAGE(L(202_36))]
	add x16, sp, #0x1e0
	stur q0, [x9, #195]
	add x15, x9, #0xbb
	add x8, sp, #0x150
	stur q0, [x9, #179]
	mov w12, #0x3d
	stur q0, [x9, #163]
	stur q0, [x9, #147]
	stur q0, [x9, #131]
	stp q0, q0, [sp]
	stp q0, q0, [sp, #32]
	stp q0, q0, [sp, #64]
	stp q0, q0, [sp, #96]
	stp q0, q0, [sp, #128]
	stp q0, q0, [sp, #160]
	stp q0, q0, [sp, #192]
	stp q0, q0, [sp, #224]
	stp q0, q0, [sp, #256]
	stp q0, q0, [sp, #288]
	stp q0, q0, [sp, #336]
	stp q0, q0, [sp, #368]
	stp q0, q0, [sp, #400]
	stp q0, q0, [sp, #432]
	stp q0, q0, [sp, #480]
	stp q0, q0, [sp, #512]
	stp q0, q0, [sp, #544]
	stp q0, q0, [sp, #576]
	stp q16, q16, [sp, #544]
	stp q0, q0, [sp, #608]
	stp q0, q0, [sp, #640]
	stp q0, q0, [sp, #672]
	stp q0, q0, [sp, #704]
	stp q0, q0, [sp, #736]
	stp q0, q0, [sp, #768]
	ldr q0, [x10, IN_PAGE(L(201_88))]
	adrp x10, PAGE(L(201_89))
	ldr q2, [x10, IN_PAGE(L(201_89))]
	adrp x10, PAGE(L(201_91))
	strb wzr, [sp, #1139]
	ldr q7, [x10, IN_PAGE(L(201_91))]
	adrp x10, PAGE(L(202_32))
	stp q16, q16, [sp, #880]
	ldr d17, [x10, IN_PAGE(L(202_32))]
	adrp x10, PAGE(L(202_33))
	stur q16, [x9, #91]
	ldr d18, [x10, IN_PAGE(L(202_33))]
	mov w10, #0xffffffff
	sturh w11, [x9, #119]
	stur d17, [x9, #107]
	stur s18, [x9, #115]
	stur w10, [x9, #122]
	stur w10, [x9, #125]
	stur q3, [x9, #129]
	stur d4, [x9, #145]
	sturh w13, [x9, #153]
	stur w10, [x9, #155]
	sturh w10, [x9, #159]
	stur q5, [x9, #161]
	stur d6, [x9, #177]
	sturh w14, [x9, #185]
	stur q16, [x9, #251]
	stur q16, [x9, #235]
	stur q16, [x9, #219]
	stur q16, [x9, #203]
	stur q16, [x9, #187]
	add x9, x16, #0xbb
	str wzr, [sp, #800]
	stp q16, q16, [x9, #96]
	str q16, [x9, #80]
	adrp x9, PAGE(L(202_37))
	stp q0, q2, [sp, #480]
	stp q1, q7, [sp, #512]
	stp q0, q2, [sp, #816]
	stp q1, q7, [sp, #848]
	ldr d7, [x9, IN_PAGE(L(202_37))]
	and w9, w2, #0xff
	stp q16, q16, [x15, #96]
	cmp w9, #0x1
	str q16, [x15, #80]
	mov x15, #0xffffffffffffffff
	strh wzr, [sp, #476]
	str wzr, [sp, #472]
	stur xzr, [x8, #125]
	str wzr, [sp, #320]
	strb w12, [sp, #937]
	str x15, [sp, #1128]
	str s19, [sp, #1136]
	stur q16, [x8, #235]
	stur d17, [x8, #251]
	stur s18, [x16, #115]
	sturh w11, [x16, #119]
	strb w12, [sp, #601]
	stur w10, [x16, #125]
	stur w10, [x16, #122]
	stur q3, [x16, #129]
	stur d4, [x16, #145]
	sturh w13, [x16, #153]
	sturh w10, [x16, #159]
	stur w10, [x16, #155]
	stur q5, [x16, #161]
	stur d6, [x16, #177]
	sturh w14, [x16, #185]
	str x15, [sp, #792]
	stur q16, [x16, #251]
	stur q16, [x16, #235]
	stur q16, [x16, #219]
	stur q16, [x16, #203]
	stur q16, [x16, #187]
	str s7, [sp, #800]
	b.le L(75_0)
	cmp w9, #0x2
	b.eq L(75_4)
	cmp w9, #0x3
	b.ne L(75_5)
	cmp x1, #0x400
	stp xzr, xzr, [x29, #-16]
	b.hi L(75_15)
	mov w8, #0x400
	mov x9, x0
	sub x0, x29, #0x10
	sub x5, x8, x1
	mov x19, x1
	add x1, sp, #0x1e0
	b L(75_17)
L(75_0):
	cbnz w9, L(75_11)
	mov x19, xzr
	cmp x1, #0x400
	mov w8, wzr
	b.hi L(75_13)
	mov w9, #0x400
	sub x9, x9, x1
	cmp x9, x4
	b.cc L(75_13)
	add x8, x0, x1
	add x19, x4, x1
	sub x9, x8, x3
	cmp x9, x4
	b.cs L(75_21)
	cmp x4, #0x8
	b.cc L(75_1)
	add x8, x1, x0
	sub x8, x8, x3
	cmp x8, #0x20
	b.cs L(75_23)
L(75_1):
	mov x8, xzr
L(75_2):
	add x10, x8, x1
	sub x9, x4, x8
	add x8, x3, x8
	add x10, x0, x10
L(75_3):
	ldrb w11, [x8], #1
	subs x9, x9, #0x1
	strb w11, [x10], #1
	b.ne L(75_3)
	b L(75_22)
L(75_4):
	cmp x1, #0x400
	stp xzr, xzr, [x29, #-16]
	b.hi L(75_15)
	mov w8, #0x400
	mov x9, x0
	sub x0, x29, #0x10
	sub x5, x8, x1
	mov x19, x1
	add x1, sp, #0x330
	b L(75_17)
L(75_5):
	mov x9, sp
	mov x10, xzr
	b L(75_7)
L(75_6):
	add x10, x10, #0x1
	cmp x10, #0x40
	b.eq L(75_14)
L(75_7):
	adrp x11, PAGE(L(static.46))
	add x11, x11, IN_PAGE(L(static.46))
	ldrb w12, [x11, x10]
	sub w13, w12, #0x20
	cmp w13, #0x5e
	b.hi L(75_10)
	mov x13, xzr
	b L(75_9)
L(75_8):
	add x13, x13, #0x1
	cmp x13, #0x40
	b.eq L(75_6)
L(75_9):
	cmp x10, x13
	b.eq L(75_8)
	ldrb w14, [x11, x13]
	cmp w12, w14
	b.ne L(75_8)
L(75_10):
	brk #0x1
L(75_11):
	cmp x1, #0x400
	b.hi L(75_12)
	lsl x8, x4, #1
	mov w9, #0x400
	sub x9, x9, x1
	cmp x9, x8
	b.cs L(75_18)
L(75_12):
	mov w8, wzr
	mov x19, xzr
L(75_13):
	mov w0, w8
	mov x1, x19
	add sp, sp, #0x490
	ldp x28, x19, [sp, #16]
	ldp x29, x30, [sp], #32
	ret
L(75_14):
	movi v16.2d, #0xffffffffffffffff
	mov x11, #0xffffffffffffffff
	stp q0, q2, [sp]
	mov w10, #0xffffffff
	stur q3, [x9, #129]
	cmp x1, #0x400
	strh w10, [sp, #476]
	str w10, [sp, #472]
	stp q16, q16, [sp, #432]
	stur x11, [x8, #125]
	adrp x11, PAGE(L(201_94))
	ldr q0, [x11, IN_PAGE(L(201_94))]
	adrp x11, PAGE(L(202_38))
	stur w10, [sp, #122]
	stur w10, [sp, #125]
	mov w10, #0x1918
	ldur x8, [x8, #125]
	stp q1, q0, [sp, #32]
	ldr d0, [x11, IN_PAGE(L(202_38))]
	adrp x11, PAGE(L(202_39))
	ldr d1, [x11, IN_PAGE(L(202_39))]
	ldr w11, [sp, #472]
	sturh w10, [x9, #153]
	ldrh w10, [sp, #476]
	stur d0, [sp, #110]
	stur s1, [sp, #118]
	ldp q1, q0, [sp, #432]
	stur w11, [x9, #155]
	mov x11, sp
	sturh w10, [x9, #159]
	mov w10, #0x3332
	stp q16, q16, [sp, #64]
	stp q16, q16, [sp, #336]
	stp q16, q16, [sp, #368]
	stp q16, q16, [sp, #400]
	sturh w10, [x9, #185]
	add x10, x11, #0xbb
	ldp q3, q2, [sp, #400]
	stp q1, q0, [x10, #96]
	ldp q0, q1, [sp, #336]
	stur q16, [sp, #94]
	stur d4, [x9, #145]
	str q2, [x10, #80]
	stur q0, [x9, #187]
	ldp q2, q0, [sp, #368]
	stur q5, [x9, #161]
	stur d6, [x9, #177]
	stur q3, [x9, #251]
	stur q0, [x9, #235]
	stur q2, [x9, #219]
	stur q1, [x9, #203]
	str x8, [sp, #312]
	str s7, [sp, #320]
	stp xzr, xzr, [x29, #-16]
	b.ls L(75_16)
L(75_15):
	mov x19, xzr
	mov w8, wzr
	mov w0, w8
	mov x1, x19
	add sp, sp, #0x490
	ldp x28, x19, [sp, #16]
	ldp x29, x30, [sp], #32
	ret
L(75_16):
	mov w8, #0x400
	mov x9, x0
	sub x0, x29, #0x10
	sub x5, x8, x1
	mov x19, x1
	mov x1, sp
L(75_17):
	mov x8, x4
	add x4, x9, x19
	mov x2, x3
	mov x3, x8
	bl base64.engine.general_purpose.GeneralPurpose.encode_slice
	ldurb w8, [x29, #-16]
	ldur x9, [x29, #-8]
	cmp w8, #0x0
	add x9, x9, x19
	cset w8, eq
	csel x19, x9, xzr, eq
	mov w0, w8
	mov x1, x19
	add sp, sp, #0x490
	ldp x28, x19, [sp, #16]
	ldp x29, x30, [sp], #32
	ret
L(75_18):
	tbnz x4, #63, L(75_10)
	cbz x4, L(75_20)
	add x9, x1, x0
	add x9, x9, #0x1
L(75_19):
	ldrb w10, [x3], #1
	adrp x12, PAGE(L(201_154))
	add x12, x12, IN_PAGE(L(201_154))
	subs x4, x4, #0x1
	lsr x11, x10, #4
	and x10, x10, #0xf
	ldrb w11, [x12, x11]
	sturb w11, [x9, #-1]
	ldrb w10, [x12, x10]
	strb w10, [x9], #2
	b.ne L(75_19)
L(75_20):
	add x19, x8, x1
	b L(75_22)
L(75_21):
	mov x0, x8
	mov x1, x3
	mov x2, x4
	bl memmove
L(75_22):
	mov w8, #0x1
	mov w0, w8
	mov x1, x19
	add sp, sp, #0x490
	ldp x28, x19, [sp, #16]
	ldp x29, x30, [sp], #32
	ret
L(75_23):
	cmp x4, #0x20
	b.cs L(75_24)
	mov x8, xzr
	b L(75_26)
L(75_24):
	add x11, x1, x0
	and x9, x4, #0x18
	and x8, x4, #0xffffffffffffffe0
	add x10, x3, #0x10
	add x11, x11, #0x10
	and x12, x4, #0xffffffffffffffe0
L(75_25):
	ldp q0, q1, [x10, #-16]
	subs x12, x12, #0x20
	add x10, x10, #0x20
	stp q0, q1, [x11, #-16]
	add x11, x11, #0x20
	b.ne L(75_25)
	cmp x4, x8
	b.eq L(75_22)
	cbz x9, L(75_2)
L(75_26):
	mov x10, x8
	and x8, x4, #0xfffffffffffffff8
	add x11, x10, x1
	sub x9, x10, x8
	add x10, x3, x10
	add x11, x0, x11
L(75_27):
	ldr d0, [x10], #8
	adds x9, x9, #0x8
	str d0, [x11], #8
	b.ne L(75_27)
	cmp x4, x8
	b.ne L(75_2)
	b L(75_22)
	SIZE(ring_password_hash.text.put_field, 1512)

	CODE(ring_password_hash.derived.derive)
	.p2align 2
/* ring_password_hash::derived::derive */
	TYPE(ring_password_hash.derived.derive, %function)
ring_password_hash.derived.derive:
	stp x29, x30, [sp, #-64]!
	stp x28, x23, [sp, #16]
	mov x29, sp
	stp x22, x21, [sp, #32]
	stp x20, x19, [sp, #48]
	sub sp, sp, #0x2e0
	mov w10, w0
	adrp x11, PAGE(L(205_0))
	add x11, x11, IN_PAGE(L(205_0))
	and x10, x10, #0xff
	ldr x19, [x29, #64]
	add x22, sp, #0x80
	adr x12, L(77_0)
	ldrb w13, [x11, x10]
	add x12, x12, x13, lsl #2
	mov w0, #0x1
	mov w9, w5
	mov x5, x2
	mov x8, x1
	br x12
L(77_0):
	mov w0, #0x3
	b L(77_1)
	mov w0, wzr
L(77_1):
	mov w1, w9
	mov x2, x3
	mov x3, x4
	mov x4, x8
	str x19, [x29, #64]
	add sp, sp, #0x2e0
	ldp x20, x19, [sp, #48]
	ldp x22, x21, [sp, #32]
	ldp x28, x23, [sp, #16]
	ldp x29, x30, [sp], #64
	b ring.pbkdf2.derive_in.128
	movi v0.2d, #0x0
	mov x21, x6
	add x6, sp, #0x10
	mov w1, w9
	mov x2, x3
	mov x3, x4
	mov x4, x8
	mov w7, #0x20
	str x19, [sp]
	mov w20, #0x1
	stp q0, q0, [sp, #16]
	bl ring.pbkdf2.derive_in.128
	and w8, w0, #0xff
	tbnz w8, #0, L(77_2)
	movi v0.2d, #0x0
	add x0, sp, #0x120
	add x2, sp, #0x10
	mov w1, #0x1
	mov w3, #0x20
	mov x4, x19
	strh wzr, [sp, #272]
	add x23, sp, #0x120
	strh wzr, [sp, #192]
	str q0, [sp, #480]
	stp q0, q0, [sp, #48]
	stp q0, q0, [sp, #80]
	stp q0, q0, [sp, #128]
	stp q0, q0, [sp, #160]
	stp q0, q0, [sp, #208]
	stp q0, q0, [sp, #240]
	stp q0, q0, [sp, #288]
	stp q0, q0, [sp, #320]
	stp q0, q0, [sp, #352]
	stp q0, q0, [sp, #384]
	stp q0, q0, [sp, #416]
	stp q0, q0, [sp, #448]
	strh wzr, [sp, #112]
	bl ring.hmac.key.Key.new_counted
	ldrb w8, [sp, #288]
	cbnz w8, L(77_3)
	adrp x2, PAGE(L(static.55))
	add x2, x2, IN_PAGE(L(static.55))
	add x0, sp, #0xd0
	add x1, x23, #0x10
	mov w3, #0xa
	mov x4, x19
	bl ring.hmac.sign_counted
	ldrb w8, [sp, #208]
	cbnz w8, L(77_3)
	ldrb w8, [sp, #273]
	ldur q0, [x22, #113]
	adrp x20, PAGE(L(switch.table.yz_webhook_verify_stripe))
	add x20, x20, IN_PAGE(L(switch.table.yz_webhook_verify_stripe))
	ldur q1, [x22, #129]
	add x0, sp, #0x80
	sturb w8, [x29, #-16]
	and w8, w8, #0xff
	sub x2, x29, #0x50
	stp q0, q1, [x29, #-48]
	ldur q0, [x22, #97]
	ldur q1, [x22, #81]
	ldr x3, [x20, x8, lsl #3]
	mov w1, #0x1
	mov x4, x19
	stp q1, q0, [x29, #-80]
	bl ring.digest.context.digest_counted
	ldrb w8, [sp, #128]
	cbnz w8, L(77_3)
	ldur q0, [x22, #33]
	ldur q1, [x22, #49]
	adrp x2, PAGE(L(static.56))
	add x2, x2, IN_PAGE(L(static.56))
	ldrb w8, [sp, #193]
	add x0, sp, #0x30
	stp q0, q1, [x29, #-128]
	ldur q0, [x22, #17]
	ldur q1, [sp, #129]
	add x1, x23, #0x10
	mov w3, #0xa
	mov x4, x19
	sturb w8, [x29, #-96]
	stp q1, q0, [x29, #-160]
	bl ring.hmac.sign_counted
	ldrb w8, [sp, #48]
	cbnz w8, L(77_3)
	ldur q0, [sp, #81]
	ldur q1, [sp, #97]
	sub x1, x29, #0xa0
	ldurb w9, [x29, #-96]
	ldrb w8, [sp, #113]
	mov x0, x21
	stp q0, q1, [x29, #-208]
	ldur q0, [sp, #65]
	ldur q1, [sp, #49]
	ldr x2, [x20, x9, lsl #3]
	sturb w8, [x29, #-176]
	stp q1, q0, [x29, #-240]
	bl memcpy
	ldurb w8, [x29, #-176]
	add x0, x21, #0x20
	sub x1, x29, #0xf0
	ldr x2, [x20, x8, lsl #3]
	bl memcpy
	mov w20, wzr
L(77_2):
	mov w0, w20
	add sp, sp, #0x2e0
	ldp x20, x19, [sp, #48]
	ldp x22, x21, [sp, #32]
	ldp x28, x23, [sp, #16]
	ldp x29, x30, [sp], #64
	ret
L(77_3):
	brk #0x1
	SIZE(ring_password_hash.derived.derive, 584)

	CODE(ring.pbkdf2.derive_in.128)
	.p2align 2
/* ring::pbkdf2::derive_in::<=128> */
	TYPE(ring.pbkdf2.derive_in.128, %function)
ring.pbkdf2.derive_in.128:
	stp x29, x30, [sp, #-96]!
	stp x28, x27, [sp, #16]
	mov x29, sp
	stp x26, x25, [sp, #32]
	stp x24, x23, [sp, #48]
	stp x22, x21, [sp, #64]
	stp x20, x19, [sp, #80]
	sub sp, sp, #0xb80
	movi v0.2d, #0x0
	and w8, w0, #0xff
	mov x19, x7
	mov x20, x6
	mov w24, w0
	cmp w8, #0x1
	str xzr, [sp]
	stp q0, q0, [sp, #432]
	str q0, [sp, #416]
	b.hi L(79_0)
	lsr x8, x5, #61
	cbnz x8, L(79_2)
L(79_0):
	mov x8, #0xffffffffffffffbc
	movk x8, #0x1fff, lsl #48
	cmp x3, x8
	b.cc L(79_1)
	and w8, w24, #0xff
	cmp w8, #0x1
	b.hi L(79_1)
	cbnz x19, L(79_2)
L(79_1):
	and x8, x24, #0xff
	adrp x9, PAGE(L(switch.table.ring.pbkdf2.derive_in.128))
	add x9, x9, IN_PAGE(L(switch.table.ring.pbkdf2.derive_in.128))
	ldr x8, [x9, x8, lsl #3]
	cmp x19, x8
	b.ls L(79_4)
L(79_2):
	mov w0, #0x1
L(79_3):
	add sp, sp, #0xb80
	ldp x20, x19, [sp, #80]
	ldp x22, x21, [sp, #64]
	ldp x24, x23, [sp, #48]
	ldp x26, x25, [sp, #32]
	ldp x28, x27, [sp, #16]
	ldp x29, x30, [sp], #96
	ret
L(79_4):
	ldr x8, [x29, #96]
	mov x23, x2
	mov x22, x3
	mov w21, w1
	add x0, sp, #0x2a0
	mov w1, w24
	mov x2, x4
	mov x3, x5
	mov x4, x8
	stp q0, q0, [sp, #720]
	stp q0, q0, [sp, #752]
	stp q0, q0, [sp, #784]
	stp q0, q0, [sp, #816]
	stp q0, q0, [sp, #848]
	str q0, [sp, #704]
	stp q0, q0, [sp, #672]
	str x8, [sp, #200]
	bl ring.hmac.key.Key.new_counted
	ldrb w8, [sp, #672]
	cbnz w8, L(79_12)
	ldp q0, q1, [sp, #816]
	add x8, sp, #0x1e0
	mov w25, #0x1
	add x0, sp, #0x2a0
	mov w1, wzr
	stp x8, x25, [sp, #424]
	add x8, sp, #0xd0
	mov w2, #0x6c0
	stp q0, q1, [sp, #352]
	ldp q0, q2, [sp, #848]
	stp x23, x22, [sp, #208]
	strb w24, [sp, #416]
	stp q0, q2, [sp, #384]
	ldp q1, q0, [sp, #752]
	stp x8, x25, [sp, #440]
	str w21, [sp, #456]
	stp q1, q0, [sp, #288]
	ldp q2, q0, [sp, #784]
	str x19, [sp, #464]
	stur xzr, [x29, #-24]
	stp q2, q0, [sp, #320]
	ldp q1, q0, [sp, #688]
	stp q1, q0, [sp, #224]
	ldp q2, q0, [sp, #720]
	stp q2, q0, [sp, #256]
	ldp q1, q0, [sp, #352]
	stp q1, q0, [sp, #608]
	ldp q2, q0, [sp, #384]
	stp q2, q0, [sp, #640]
	ldp q1, q0, [sp, #288]
	stp q1, q0, [sp, #544]
	ldp q2, q0, [sp, #320]
	stp q2, q0, [sp, #576]
	ldp q1, q0, [sp, #224]
	stp q1, q0, [sp, #480]
	ldp q2, q0, [sp, #256]
	stp q2, q0, [sp, #512]
	movi v0.2d, #0x0
	str q0, [sp, #2400]
	str q0, [sp, #2416]
	str q0, [sp, #2432]
	str q0, [sp, #2448]
	str q0, [sp, #2464]
	str q0, [sp, #2480]
	str q0, [sp, #2496]
	str q0, [sp, #2512]
	str q0, [sp, #2528]
	str q0, [sp, #2544]
	str q0, [sp, #2560]
	str q0, [sp, #2576]
	str q0, [sp, #2592]
	str q0, [sp, #2608]
	str q0, [sp, #2624]
	str q0, [sp, #2640]
	str q0, [sp, #2656]
	str q0, [sp, #2672]
	str q0, [sp, #2688]
	str q0, [sp, #2704]
	str q0, [sp, #2720]
	str q0, [sp, #2736]
	str q0, [sp, #2752]
	str q0, [sp, #2768]
	str q0, [sp, #2784]
	str q0, [sp, #2800]
	str q0, [sp, #2816]
	str q0, [sp, #2832]
	str q0, [sp, #2848]
	str q0, [sp, #2864]
	str q0, [sp, #2880]
	str q0, [sp, #2896]
	bl memset
	cbz x19, L(79_11)
	add x9, sp, #0x2a0
	mov x28, xzr
	stur xzr, [x29, #-32]
	orr x8, x9, #0x4
	add x10, x9, #0x634
	stur w25, [x29, #-24]
	str x8, [sp, #184]
	add x8, x9, #0xdc
	str x8, [sp, #176]
	add x8, x9, #0x124
	str x8, [sp, #168]
	add x8, x9, #0x16c
	str x8, [sp, #160]
	add x8, x9, #0x1b4
	str x8, [sp, #152]
	add x8, x9, #0x1fc
	str x8, [sp, #144]
	add x8, x9, #0x244
	str x8, [sp, #136]
	add x8, x9, #0x28c
	str x8, [sp, #128]
	add x8, x9, #0x2d4
	str x8, [sp, #120]
	add x8, x9, #0x31c
	str x8, [sp, #112]
	add x8, x9, #0x364
	str x8, [sp, #104]
	add x8, x9, #0x3ac
	str x8, [sp, #96]
	add x8, x9, #0x3f4
	str x8, [sp, #88]
	add x8, x9, #0x43c
	str x8, [sp, #80]
	add x8, x9, #0x484
	str x8, [sp, #72]
	add x8, x9, #0x4cc
	str x8, [sp, #64]
	add x8, x9, #0x514
	str x8, [sp, #56]
	add x8, x9, #0x55c
	str x8, [sp, #48]
	add x8, x9, #0x5a4
	str x8, [sp, #40]
	add x8, x9, #0x5ec
	add x9, x9, #0x67c
	str x8, [sp, #32]
	mov w8, w24
	and x8, x8, #0xff
	stur xzr, [x29, #-16]
	stp x9, x10, [sp, #16]
	str x8, [sp, #8]
	str x24, [sp, #192]
L(79_5):
	add x0, sp, #0x1a0
	sub x1, x29, #0x20
	bl ring.pbkdf2.rounds.rounds_from
	and w9, w24, #0xff
	sub w8, w9, #0x2
	cmp w8, #0x3
	mov w8, #0x1
	b.cs L(79_7)
L(79_6):
	mov w23, #0x1
	b L(79_9)
L(79_7):
	cbz w9, L(79_8)
	adrp x9, PAGE(yz_instructions)
	ldrb w9, [x9, IN_PAGE(yz_instructions)]
	cbnz w9, L(79_6)
L(79_8):
	cmp x0, #0x4
	mov w9, #0x4
	csinc x23, x9, xzr, cs
L(79_9):
	movi v0.2d, #0x0
	ldr x9, [sp, #184]
	ldr x21, [sp, #200]
	str w8, [sp, #672]
	add x0, sp, #0x1a0
	sub x1, x29, #0x20
	str wzr, [x9, #64]
	add x3, sp, #0x2a0
	mov x2, x23
	str w8, [sp, #744]
	mov x4, x21
	stp q0, q0, [x9]
	stp q0, q0, [x9, #32]
	add x9, sp, #0x2a0
	stur q0, [x9, #76]
	stur q0, [x9, #92]
	stur q0, [x9, #108]
	stur q0, [x9, #124]
	stur wzr, [x9, #140]
	stur q0, [x9, #148]
	stur q0, [x9, #164]
	stur q0, [x9, #180]
	stur q0, [x9, #196]
	stur wzr, [x9, #212]
	ldr x9, [sp, #176]
	str w8, [sp, #816]
	str wzr, [x9, #64]
	stp q0, q0, [x9]
	stp q0, q0, [x9, #32]
	ldr x9, [sp, #168]
	str w8, [sp, #888]
	str wzr, [x9, #64]
	stp q0, q0, [x9]
	stp q0, q0, [x9, #32]
	ldr x9, [sp, #160]
	str w8, [sp, #960]
	str wzr, [x9, #64]
	stp q0, q0, [x9]
	stp q0, q0, [x9, #32]
	ldr x9, [sp, #152]
	str w8, [sp, #1032]
	str wzr, [x9, #64]
	stp q0, q0, [x9]
	stp q0, q0, [x9, #32]
	ldr x9, [sp, #144]
	str w8, [sp, #1104]
	str wzr, [x9, #64]
	stp q0, q0, [x9]
	stp q0, q0, [x9, #32]
	ldr x9, [sp, #136]
	str w8, [sp, #1176]
	str wzr, [x9, #64]
	stp q0, q0, [x9]
	stp q0, q0, [x9, #32]
	ldr x9, [sp, #128]
	str w8, [sp, #1248]
	str wzr, [x9, #64]
	stp q0, q0, [x9]
	stp q0, q0, [x9, #32]
	ldr x9, [sp, #120]
	str w8, [sp, #1320]
	str wzr, [x9, #64]
	stp q0, q0, [x9]
	stp q0, q0, [x9, #32]
	ldr x9, [sp, #112]
	str w8, [sp, #1392]
	str wzr, [x9, #64]
	stp q0, q0, [x9]
	stp q0, q0, [x9, #32]
	ldr x9, [sp, #104]
	str w8, [sp, #1464]
	str wzr, [x9, #64]
	stp q0, q0, [x9]
	stp q0, q0, [x9, #32]
	ldr x9, [sp, #96]
	str w8, [sp, #1536]
	str wzr, [x9, #64]
	stp q0, q0, [x9]
	stp q0, q0, [x9, #32]
	ldr x9, [sp, #88]
	str w8, [sp, #1608]
	str wzr, [x9, #64]
	stp q0, q0, [x9]
	stp q0, q0, [x9, #32]
	ldr x9, [sp, #80]
	str w8, [sp, #1680]
	str wzr, [x9, #64]
	stp q0, q0, [x9]
	stp q0, q0, [x9, #32]
	ldr x9, [sp, #72]
	str w8, [sp, #1752]
	str wzr, [x9, #64]
	stp q0, q0, [x9]
	stp q0, q0, [x9, #32]
	ldr x9, [sp, #64]
	str w8, [sp, #1824]
	str wzr, [x9, #64]
	stp q0, q0, [x9]
	stp q0, q0, [x9, #32]
	ldr x9, [sp, #56]
	str w8, [sp, #1896]
	str wzr, [x9, #64]
	stp q0, q0, [x9]
	stp q0, q0, [x9, #32]
	ldr x9, [sp, #48]
	str w8, [sp, #1968]
	str wzr, [x9, #64]
	stp q0, q0, [x9]
	stp q0, q0, [x9, #32]
	ldr x9, [sp, #40]
	str w8, [sp, #2040]
	str wzr, [x9, #64]
	stp q0, q0, [x9]
	stp q0, q0, [x9, #32]
	ldr x9, [sp, #32]
	str w8, [sp, #2112]
	str w8, [sp, #2184]
	str wzr, [x9, #64]
	stp q0, q0, [x9]
	stp q0, q0, [x9, #32]
	str w8, [sp, #2256]
	str w8, [sp, #2328]
	ldp x8, x9, [sp, #16]
	str q0, [sp, #2896]
	str q0, [sp, #2880]
	str q0, [sp, #2864]
	str q0, [sp, #2848]
	str q0, [sp, #2832]
	str q0, [sp, #2816]
	str q0, [sp, #2800]
	str q0, [sp, #2784]
	str q0, [sp, #2768]
	str q0, [sp, #2752]
	str q0, [sp, #2736]
	str q0, [sp, #2720]
	str q0, [sp, #2704]
	str q0, [sp, #2688]
	str q0, [sp, #2672]
	str q0, [sp, #2656]
	str q0, [sp, #2640]
	str q0, [sp, #2624]
	str q0, [sp, #2608]
	str q0, [sp, #2592]
	str q0, [sp, #2576]
	str q0, [sp, #2560]
	str q0, [sp, #2544]
	str q0, [sp, #2528]
	str q0, [sp, #2512]
	str q0, [sp, #2496]
	str q0, [sp, #2480]
	str q0, [sp, #2464]
	str q0, [sp, #2448]
	str q0, [sp, #2432]
	str q0, [sp, #2416]
	str q0, [sp, #2400]
	str wzr, [x9, #64]
	stp q0, q0, [x9]
	stp q0, q0, [x9, #32]
	str wzr, [x8, #64]
	stp q0, q0, [x8]
	stp q0, q0, [x8, #32]
	bl ring.pbkdf2.rounds.set_starts
	add x0, sp, #0x1a0
	add x1, sp, #0x2a0
	add x2, sp, #0x960
	mov x3, x23
	mov x4, x21
	add x24, sp, #0x960
	bl ring.pbkdf2.rounds.write_rounds.128
	ldr x9, [sp, #8]
	adrp x8, PAGE(L(switch.table.yz_webhook_verify_stripe))
	add x8, x8, IN_PAGE(L(switch.table.yz_webhook_verify_stripe))
	mov x22, xzr
	ldr x21, [x8, x9, lsl #3]
	ldr x27, [x8, x9, lsl #3]
L(79_10):
	sub x26, x19, x28
	add x0, x20, x28
	mov x1, x24
	cmp x26, x21
	csel x2, x26, x21, cc
	bl memcpy
	cmp x27, x26
	add x8, x27, x28
	mov w9, #0x1
	cinc x22, x22, cs
	csinc w25, w9, w25, cs
	csel x28, xzr, x8, cs
	subs x23, x23, #0x1
	add x24, x24, #0x40
	b.ne L(79_10)
	ldr x24, [sp, #192]
	stur x22, [x29, #-32]
	stp w25, wzr, [x29, #-24]
	stur x28, [x29, #-16]
	cbz x22, L(79_5)
L(79_11):
	mov w0, wzr
	b L(79_3)
L(79_12):
	brk #0x1
	SIZE(ring.pbkdf2.derive_in.128, 1608)

	CODE(ring.pbkdf2.rounds.rounds_from)
	.p2align 2
/* ring::pbkdf2::rounds::rounds_from */
	TYPE(ring.pbkdf2.rounds.rounds_from, %function)
ring.pbkdf2.rounds.rounds_from:
	ldr x12, [x1]
	ldr x8, [x0, #16]
	cmp x12, x8
	b.cs L(81_0)
	ldrb w9, [x0]
	ldr x13, [x1, #16]
	adrp x11, PAGE(L(switch.table.yz_webhook_verify_stripe))
	add x11, x11, IN_PAGE(L(switch.table.yz_webhook_verify_stripe))
	ldr x10, [x0, #48]
	ldr x14, [x11, x9, lsl #3]
	sub x15, x10, x13
	cmp x14, x15
	cinc x12, x12, cs
	cmp x12, x8
	b.cs L(81_1)
	add x13, x14, x13
	cmp x14, x15
	ldr x14, [x11, x9, lsl #3]
	csel x13, xzr, x13, cs
	sub x15, x10, x13
	cmp x14, x15
	cinc x12, x12, cs
	cmp x12, x8
	b.cs L(81_2)
	add x13, x14, x13
	cmp x14, x15
	ldr x14, [x11, x9, lsl #3]
	csel x13, xzr, x13, cs
	sub x15, x10, x13
	cmp x14, x15
	cinc x12, x12, cs
	cmp x12, x8
	b.cs L(81_3)
	add x13, x14, x13
	cmp x14, x15
	ldr x14, [x11, x9, lsl #3]
	csel x13, xzr, x13, cs
	sub x15, x10, x13
	cmp x14, x15
	cinc x12, x12, cs
	cmp x12, x8
	b.cs L(81_4)
	add x13, x14, x13
	cmp x14, x15
	ldr x14, [x11, x9, lsl #3]
	csel x13, xzr, x13, cs
	sub x15, x10, x13
	cmp x14, x15
	cinc x12, x12, cs
	cmp x12, x8
	b.cs L(81_5)
	add x13, x14, x13
	cmp x14, x15
	ldr x14, [x11, x9, lsl #3]
	csel x13, xzr, x13, cs
	sub x15, x10, x13
	cmp x14, x15
	cinc x12, x12, cs
	cmp x12, x8
	b.cs L(81_6)
	add x13, x14, x13
	cmp x14, x15
	ldr x9, [x11, x9, lsl #3]
	csel x13, xzr, x13, cs
	sub x10, x10, x13
	cmp x9, x10
	cinc x9, x12, cs
	cmp x9, x8
	mov w8, #0x7
	cinc x0, x8, cc
	ret
L(81_0):
	mov x0, xzr
	ret
L(81_1):
	mov w0, #0x1
	ret
L(81_2):
	mov w0, #0x2
	ret
L(81_3):
	mov w0, #0x3
	ret
L(81_4):
	mov w0, #0x4
	ret
L(81_5):
	mov w0, #0x5
	ret
L(81_6):
	mov w0, #0x6
	ret
	SIZE(ring.pbkdf2.rounds.rounds_from, 340)

	CODE(ring.pbkdf2.rounds.set_starts)
	.p2align 2
/* ring::pbkdf2::rounds::set_starts */
	TYPE(ring.pbkdf2.rounds.set_starts, %function)
ring.pbkdf2.rounds.set_starts:
	stp x29, x30, [sp, #-96]!
	stp x28, x27, [sp, #16]
	mov x29, sp
	stp x26, x25, [sp, #32]
	stp x24, x23, [sp, #48]
	stp x22, x21, [sp, #64]
	stp x20, x19, [sp, #80]
	sub sp, sp, #0x2a0
	add x8, sp, #0x158
	ldr x23, [x1]
	ldr w24, [x1, #8]
	ldr x27, [x1, #16]
	mov x19, x4
	mov x20, x3
	mov x21, x2
	mov x22, x0
	add x25, sp, #0x60
	orr x26, x8, #0x4
L(83_0):
	mov w8, #0xc0
	ldr x9, [x22, #8]
	rev w10, w24
	madd x8, x23, x8, x9
	ldr x9, [x22, #24]
	str w10, [sp, #12]
	add x0, sp, #0x60
	mov x3, x19
	add x9, x9, x23, lsl #4
	ldp x1, x2, [x9]
	ldur q0, [x8, #52]
	ldur q1, [x8, #68]
	ldr w10, [x8, #84]
	ldrb w11, [x8, #16]
	ldur q2, [x8, #36]
	ldur q3, [x8, #20]
	str w10, [x20, #68]
	str w11, [x20]
	stur q1, [x20, #52]
	stur q0, [x20, #36]
	stur q2, [x20, #20]
	stur q3, [x20, #4]
	stp q0, q1, [sp, #48]
	ldur q0, [x8, #164]
	ldur q1, [x8, #148]
	ldr w9, [x8, #180]
	stp q3, q2, [sp, #16]
	ldur q2, [x8, #116]
	stp q1, q0, [sp, #48]
	ldur q0, [x8, #132]
	str w10, [sp, #80]
	str w9, [sp, #80]
	ldrb w9, [x8, #112]
	stp q2, q0, [sp, #16]
	ldp q0, q1, [sp, #48]
	str w9, [x20, #576]
	add x9, x20, #0x244
	ldr w10, [sp, #80]
	stp q0, q1, [x9, #32]
	ldp q1, q0, [sp, #16]
	str w10, [x20, #644]
	stp q1, q0, [x9]
	ldur q0, [x8, #20]
	ldrb w9, [x8, #16]
	stur q0, [x25, #20]
	ldr w10, [x8, #84]
	ldur q0, [x8, #68]
	ldur q1, [x8, #36]
	ldur q2, [x8, #52]
	stur w10, [x25, #84]
	stur q0, [x25, #68]
	movi v0.2d, #0x0
	stur q2, [x25, #52]
	stur q1, [x25, #36]
	ldp x10, x11, [x8]
	ldrb w8, [x8, #88]
	str w9, [sp, #112]
	strb w8, [sp, #184]
	stp x10, x11, [sp, #96]
	stur q0, [x25, #89]
	stur q0, [x25, #105]
	stur q0, [x25, #121]
	stur q0, [x25, #137]
	stur q0, [x25, #153]
	stur q0, [x25, #169]
	stur q0, [x25, #185]
	stur q0, [x25, #201]
	stur q0, [x25, #217]
	stur xzr, [x25, #232]
	bl ring.digest.context.Context.update_counted
	add x0, sp, #0x60
	add x1, sp, #0xc
	mov w2, #0x4
	mov x3, x19
	bl ring.digest.context.Context.update_counted
	ldp x8, x9, [sp, #96]
	movi v0.2d, #0x0
	ldr x2, [x25, #224]
	ldrb w0, [sp, #184]
	add x1, x25, #0x60
	sub x6, x29, #0x100
	adds x8, x2, x8
	adcs x9, x9, xzr
	stp q0, q0, [x25, #320]
	csinv x4, x8, xzr, cc
	csinv x5, x9, xzr, cc
	stp q0, q0, [x25, #352]
	stp q0, q0, [x25, #384]
	stp q0, q0, [x25, #416]
	stp q0, q0, [x25, #448]
	stp q0, q0, [x25, #480]
	stp q0, q0, [x25, #512]
	stp q0, q0, [x25, #544]
	bl ring.digest.block_context.write_tail
	ldur q0, [x25, #52]
	ldur q1, [x25, #68]
	mov x3, x0
	ldur w8, [x25, #84]
	ldrb w0, [sp, #184]
	add x1, sp, #0x158
	stp q0, q1, [x26, #32]
	ldur q0, [x25, #36]
	sub x2, x29, #0x100
	str w8, [x26, #64]
	ldur q1, [x25, #20]
	mov x4, x19
	ldrb w8, [sp, #112]
	stp q1, q0, [x26]
	str w8, [sp, #344]
	bl ring.digest.block_context.run_blocks
	ldrb w8, [sp, #344]
	ldp q0, q1, [x26, #32]
	ldp q3, q2, [x26]
	add x9, x20, #0x484
	str w8, [x20, #1152]
	adrp x10, PAGE(L(switch.table.yz_webhook_verify_stripe))
	add x10, x10, IN_PAGE(L(switch.table.yz_webhook_verify_stripe))
	ldr w8, [x26, #64]
	stp q0, q1, [x9, #32]
	stp q3, q2, [x9]
	str w8, [x20, #1220]
	add x20, x20, #0x48
	ldrb w9, [x22]
	str w8, [sp, #80]
	ldr x8, [x22, #48]
	stp q3, q2, [sp, #16]
	ldr x9, [x10, x9, lsl #3]
	sub x8, x8, x27
	stp q0, q1, [sp, #48]
	cmp x9, x8
	mov w8, #0x1
	add x9, x9, x27
	cinc x23, x23, cs
	csinc w24, w8, w24, cs
	csel x27, xzr, x9, cs
	subs x21, x21, #0x1
	b.ne L(83_0)
	add sp, sp, #0x2a0
	ldp x20, x19, [sp, #80]
	ldp x22, x21, [sp, #64]
	ldp x24, x23, [sp, #48]
	ldp x26, x25, [sp, #32]
	ldp x28, x27, [sp, #16]
	ldp x29, x30, [sp], #96
	ret
	SIZE(ring.pbkdf2.rounds.set_starts, 652)

	CODE(ring.pbkdf2.rounds.write_rounds.128)
	.p2align 2
/* ring::pbkdf2::rounds::write_rounds::<=128> */
	TYPE(ring.pbkdf2.rounds.write_rounds.128, %function)
ring.pbkdf2.rounds.write_rounds.128:
	ldrb w8, [x0]
	cmp w8, #0x1
	b.le L(85_0)
	cmp w8, #0x2
	b.eq L(85_1)
	cmp w8, #0x3
	b.ne L(85_2)
	cmp x3, #0x4
	b ring.pbkdf2.rounds.xor_iterates.a07252785532c1ed
L(85_0):
	cmp x3, #0x4
	cbnz w8, L(85_3)
	b.ne L(85_4)
	mov x3, x4
	b ring.pbkdf2.rounds.xor_iterates.16ac977ec51d9eb8
L(85_1):
	cmp x3, #0x4
	b ring.pbkdf2.rounds.xor_iterates.1781a4570e9cf8d4
L(85_2):
	cmp x3, #0x4
	b ring.pbkdf2.rounds.xor_iterates.198a8405ffd9f092
L(85_3):
	b.ne L(85_5)
	mov x3, x4
	b ring.pbkdf2.rounds.xor_iterates.30ff0c2b65f6b8fe
L(85_4):
	b ring.pbkdf2.rounds.xor_iterates.524f7a1c66a8a9c8
L(85_5):
	b ring.pbkdf2.rounds.xor_iterates.bde0e74171f856d8
	SIZE(ring.pbkdf2.rounds.write_rounds.128, 92)

	CODE(ring.pbkdf2.rounds.xor_iterates.16ac977ec51d9eb8)
	.p2align 2
/* ring::pbkdf2::rounds::xor_iterates::<#16ac977ec51d9eb8> */
	TYPE(ring.pbkdf2.rounds.xor_iterates.16ac977ec51d9eb8, %function)
ring.pbkdf2.rounds.xor_iterates.16ac977ec51d9eb8:
	stp x29, x30, [sp, #-64]!
	str x28, [sp, #16]
	mov x29, sp
	stp x22, x21, [sp, #32]
	stp x20, x19, [sp, #48]
	sub sp, sp, #0x300
	movi v0.2d, #0x0
	mov x21, x0
	sub x0, x29, #0x100
	mov x20, x3
	mov x19, x2
	mov x22, x1
	stp q0, q0, [x29, #-256]
	stp q0, q0, [x29, #-224]
	stp q0, q0, [x29, #-192]
	stp q0, q0, [x29, #-160]
	bl ring.digest.lanes.algorithms.InVectorLaneStates.new.1dec229e782056ab
	movi v0.2d, #0x0
	sub x0, x29, #0x80
	add x1, x22, #0x240
	stp q0, q0, [x29, #-128]
	stp q0, q0, [x29, #-96]
	stp q0, q0, [x29, #-64]
	stp q0, q0, [x29, #-32]
	bl ring.digest.lanes.algorithms.InVectorLaneStates.new.1dec229e782056ab
	ldp q0, q1, [x29, #-192]
	sub x0, x29, #0x80
	add x1, x22, #0x480
	stp q0, q1, [sp, #448]
	ldp q0, q2, [x29, #-160]
	stp q0, q2, [sp, #480]
	ldp q1, q0, [x29, #-256]
	stp q1, q0, [sp, #384]
	ldp q2, q0, [x29, #-224]
	stp q2, q0, [sp, #416]
	ldp q2, q1, [x29, #-96]
	stp q2, q1, [sp, #288]
	ldp q1, q0, [x29, #-128]
	stp q1, q0, [sp, #256]
	ldp q2, q0, [x29, #-32]
	stp q2, q0, [sp, #352]
	ldp q1, q0, [x29, #-64]
	stp q1, q0, [sp, #320]
	movi v0.2d, #0x0
	stp q0, q0, [x29, #-128]
	stp q0, q0, [x29, #-96]
	stp q0, q0, [x29, #-64]
	stp q0, q0, [x29, #-32]
	bl ring.digest.lanes.algorithms.InVectorLaneStates.new.1dec229e782056ab
	ldp q0, q1, [sp, #320]
	sub x0, x29, #0x100
	sub x1, x29, #0x80
	mov x2, x20
	stp q0, q1, [x29, #-192]
	ldp q0, q2, [sp, #352]
	stp q0, q2, [x29, #-160]
	ldp q1, q0, [sp, #256]
	stp q1, q0, [x29, #-256]
	ldp q2, q0, [sp, #288]
	stp q2, q0, [x29, #-224]
	bl ring_core.digest.sha1.lanes.sha1_block_of_words_lanes_counted.05c973651951cdff
	ldp q16, q7, [x29, #-256]
	ldr w8, [x21, #40]
	ldp q18, q17, [x29, #-224]
	ldp q6, q21, [x29, #-192]
	cmp w8, #0x2
	ldp q20, q19, [x29, #-160]
	stp q16, q7, [sp, #128]
	stp q18, q17, [sp, #160]
	stp q6, q21, [sp, #192]
	stp q20, q19, [sp, #224]
	b.cc L(87_1)
	sub w21, w8, #0x1
L(87_0):
	ldp q0, q1, [sp, #448]
	sub x0, x29, #0x80
	add x1, sp, #0x80
	mov x2, x20
	stp q6, q21, [sp]
	stp q20, q7, [sp, #32]
	stp q0, q1, [x29, #-64]
	ldp q0, q2, [sp, #480]
	stp q19, q16, [sp, #64]
	stp q18, q17, [sp, #96]
	stp q0, q2, [x29, #-32]
	ldp q1, q0, [sp, #384]
	stp q1, q0, [x29, #-128]
	ldp q2, q0, [sp, #416]
	stp q2, q0, [x29, #-96]
	bl ring_core.digest.sha1.lanes.sha1_block_of_words_lanes_counted.05c973651951cdff
	ldp q0, q1, [sp, #320]
	add x0, sp, #0x80
	sub x1, x29, #0x80
	mov x2, x20
	stp q0, q1, [sp, #192]
	ldp q0, q2, [sp, #352]
	stp q0, q2, [sp, #224]
	ldp q1, q0, [sp, #256]
	stp q1, q0, [sp, #128]
	ldp q2, q0, [sp, #288]
	stp q2, q0, [sp, #160]
	bl ring_core.digest.sha1.lanes.sha1_block_of_words_lanes_counted.05c973651951cdff
	ldp q20, q7, [sp, #32]
	subs w21, w21, #0x1
	ldp q19, q16, [sp, #64]
	ldp q0, q1, [sp, #128]
	ldp q6, q21, [sp]
	ldp q18, q17, [sp, #96]
	ldp q2, q3, [sp, #160]
	eor v16.16b, v0.16b, v16.16b
	ldp q4, q5, [sp, #192]
	eor v7.16b, v1.16b, v7.16b
	ldp q0, q1, [sp, #224]
	eor v18.16b, v2.16b, v18.16b
	eor v17.16b, v3.16b, v17.16b
	eor v6.16b, v4.16b, v6.16b
	eor v21.16b, v5.16b, v21.16b
	eor v20.16b, v0.16b, v20.16b
	eor v19.16b, v1.16b, v19.16b
	b.ne L(87_0)
L(87_1):
	dup v1.4s, v6.s[1]
	zip1 v0.4s, v6.4s, v21.4s
	zip1 v3.4s, v16.4s, v7.4s
	trn2 v2.4s, v16.4s, v7.4s
	uzp2 v5.4s, v16.4s, v7.4s
	dup v4.4s, v6.s[2]
	dup v6.4s, v6.s[3]
	zip2 v7.4s, v16.4s, v7.4s
	mov v1.s[1], v21.s[1]
	mov v0.s[2], v20.s[0]
	mov v4.s[1], v21.s[2]
	mov v3.s[2], v18.s[0]
	mov v6.s[1], v21.s[3]
	mov v2.s[2], v18.s[1]
	uzp2 v5.4s, v5.4s, v16.4s
	mov v7.s[2], v18.s[2]
	movi v16.2d, #0x0
	mov v1.s[2], v20.s[1]
	mov v0.s[3], v19.s[0]
	mov v4.s[2], v20.s[2]
	mov v3.s[3], v17.s[0]
	mov v6.s[2], v20.s[3]
	mov v2.s[3], v17.s[1]
	mov v5.s[2], v18.s[3]
	stp q16, q16, [x19, #32]
	mov v7.s[3], v17.s[2]
	stp q16, q16, [x19, #96]
	mov v1.s[3], v19.s[1]
	stp q16, q16, [x19, #160]
	rev32 v0.16b, v0.16b
	mov v4.s[3], v19.s[2]
	stp q16, q16, [x19, #224]
	rev32 v3.16b, v3.16b
	mov v6.s[3], v19.s[3]
	rev32 v2.16b, v2.16b
	mov v5.s[3], v17.s[3]
	rev32 v7.16b, v7.16b
	rev32 v1.16b, v1.16b
	stp q3, q0, [x19]
	rev32 v0.16b, v4.16b
	rev32 v3.16b, v6.16b
	stp q2, q1, [x19, #64]
	rev32 v2.16b, v5.16b
	stp q7, q0, [x19, #128]
	stp q2, q3, [x19, #192]
	add sp, sp, #0x300
	ldp x20, x19, [sp, #48]
	ldr x28, [sp, #16]
	ldp x22, x21, [sp, #32]
	ldp x29, x30, [sp], #64
	ret
	SIZE(ring.pbkdf2.rounds.xor_iterates.16ac977ec51d9eb8, 680)

	CODE(ring.digest.lanes.algorithms.InVectorLaneStates.new.1dec229e782056ab)
	.p2align 2
/* ring::digest::lanes::algorithms::InVectorLaneStates::new::<#1dec229e782056ab> */
	TYPE(ring.digest.lanes.algorithms.InVectorLaneStates.new.1dec229e782056ab, %function)
ring.digest.lanes.algorithms.InVectorLaneStates.new.1dec229e782056ab:
	ldrb w8, [x1]
	cmp w8, #0x1
	b.ne L(89_0)
	ldrb w8, [x1, #72]
	cmp w8, #0x1
	b.ne L(89_0)
	ldrb w8, [x1, #144]
	cmp w8, #0x1
	b.ne L(89_0)
	ldrb w8, [x1, #216]
	cmp w8, #0x1
	b.ne L(89_0)
	ldp w9, w8, [x1, #28]
	ldp w10, w11, [x1, #100]
	fmov s0, w8
	fmov s1, w9
	ldp w8, w12, [x1, #20]
	mov v0.s[1], w11
	mov v1.s[1], w10
	ldp w9, w11, [x1, #4]
	fmov s2, w12
	fmov s3, w8
	add x8, x1, #0xb0
	ldp w10, w12, [x1, #92]
	ld1 {v0.s}[2], [x8]
	add x8, x1, #0xac
	fmov s5, w9
	ld1 {v1.s}[2], [x8]
	fmov s4, w11
	mov v2.s[1], w12
	mov v3.s[1], w10
	add x10, x1, #0xf8
	ldp w8, w12, [x1, #76]
	ldp w9, w11, [x1, #12]
	ld1 {v0.s}[3], [x10]
	mov v5.s[1], w8
	add x8, x1, #0xf4
	mov v4.s[1], w12
	ld1 {v1.s}[3], [x8]
	fmov s6, w11
	fmov s7, w9
	ldp w8, w10, [x1, #84]
	add x9, x1, #0xa8
	ld1 {v2.s}[2], [x9]
	add x9, x1, #0xa4
	mov v6.s[1], w10
	mov v7.s[1], w8
	add x8, x1, #0x94
	ld1 {v3.s}[2], [x9]
	add x9, x1, #0x98
	ld1 {v5.s}[2], [x8]
	add x8, x1, #0xa0
	ld1 {v4.s}[2], [x9]
	add x9, x1, #0x9c
	ld1 {v6.s}[2], [x8]
	add x8, x1, #0xdc
	ld1 {v7.s}[2], [x9]
	ld1 {v5.s}[3], [x8]
	add x8, x1, #0xf0
	add x9, x1, #0xe0
	ld1 {v2.s}[3], [x8]
	add x8, x1, #0xe4
	ld1 {v4.s}[3], [x9]
	ld1 {v7.s}[3], [x8]
	add x8, x1, #0xe8
	add x9, x1, #0xec
	ld1 {v3.s}[3], [x9]
	ld1 {v6.s}[3], [x8]
	stp q1, q0, [x0, #96]
	stp q5, q4, [x0]
	stp q7, q6, [x0, #32]
	stp q3, q2, [x0, #64]
	ret
L(89_0):
	brk #0x1
	SIZE(ring.digest.lanes.algorithms.InVectorLaneStates.new.1dec229e782056ab, 296)

	CODE(ring_core.digest.sha1.lanes.sha1_block_of_words_lanes_counted.05c973651951cdff)
	.p2align 2
/* ring_core::digest::sha1::lanes::sha1_block_of_words_lanes_counted::<#05c973651951cdff> */
	TYPE(ring_core.digest.sha1.lanes.sha1_block_of_words_lanes_counted.05c973651951cdff, %function)
ring_core.digest.sha1.lanes.sha1_block_of_words_lanes_counted.05c973651951cdff:
	str d14, [sp, #-64]!
	ldp q4, q0, [x0]
	mov w8, #0x7999
	ldp q1, q2, [x0, #32]
	movk w8, #0x5a82, lsl #16
	ldp q16, q18, [x1]
	dup v5.4s, w8
	mov v7.16b, v0.16b
	ldr q3, [x0, #64]
	shl v6.4s, v4.4s, #5
	shl v19.4s, v0.4s, #30
	shl v21.4s, v4.4s, #30
	mov w8, #0x7999
	add v17.4s, v16.4s, v3.4s
	add v20.4s, v18.4s, v2.4s
	movk w8, #0xda82, lsl #16
	bsl v7.16b, v1.16b, v2.16b
	usra v6.4s, v4.4s, #27
	dup v26.4s, w8
	usra v19.4s, v0.4s, #2
	usra v21.4s, v4.4s, #2
	mov w8, #0x7c39
	movk w8, #0x5a82, lsl #16
	movi v28.4s, #0x80, lsl #24
	stp d9, d8, [sp, #48]
	add v6.4s, v6.4s, v5.4s
	stp d11, d10, [sp, #32]
	add v7.4s, v17.4s, v7.4s
	mov v17.16b, v4.16b
	stp d13, d12, [sp, #16]
	bsl v17.16b, v19.16b, v1.16b
	add v6.4s, v7.4s, v6.4s
	mov v23.16b, v6.16b
	add v7.4s, v20.4s, v17.4s
	shl v20.4s, v6.4s, #5
	bsl v23.16b, v21.16b, v19.16b
	add v22.4s, v7.4s, v5.4s
	ldp q17, q7, [x1, #32]
	usra v20.4s, v6.4s, #27
	add v24.4s, v17.4s, v1.4s
	add v19.4s, v7.4s, v19.4s
	eor v18.16b, v7.16b, v18.16b
	add v20.4s, v22.4s, v20.4s
	shl v22.4s, v6.4s, #30
	eor v7.16b, v7.16b, v28.16b
	add v23.4s, v24.4s, v23.4s
	shl v24.4s, v20.4s, #5
	usra v22.4s, v6.4s, #2
	shl v25.4s, v20.4s, #30
	add v6.4s, v23.4s, v5.4s
	mov v23.16b, v20.16b
	usra v24.4s, v20.4s, #27
	usra v25.4s, v20.4s, #2
	bsl v23.16b, v22.16b, v21.16b
	add v24.4s, v6.4s, v24.4s
	add v6.4s, v19.4s, v23.4s
	shl v19.4s, v24.4s, #5
	mov v23.16b, v24.16b
	add v20.4s, v6.4s, v5.4s
	usra v19.4s, v24.4s, #27
	ldr q6, [x1, #64]
	bsl v23.16b, v25.16b, v22.16b
	add v21.4s, v6.4s, v21.4s
	add v19.4s, v20.4s, v19.4s
	shl v20.4s, v24.4s, #30
	add v21.4s, v21.4s, v23.4s
	shl v23.4s, v19.4s, #5
	usra v20.4s, v24.4s, #2
	mov v24.16b, v19.16b
	add v21.4s, v21.4s, v5.4s
	usra v23.4s, v19.4s, #27
	bsl v24.16b, v20.16b, v25.16b
	add v21.4s, v21.4s, v23.4s
	shl v23.4s, v19.4s, #30
	add v22.4s, v22.4s, v24.4s
	shl v24.4s, v21.4s, #5
	usra v23.4s, v19.4s, #2
	add v19.4s, v22.4s, v26.4s
	mov v22.16b, v21.16b
	usra v24.4s, v21.4s, #27
	bsl v22.16b, v23.16b, v20.16b
	add v19.4s, v19.4s, v24.4s
	shl v24.4s, v21.4s, #30
	add v22.4s, v25.4s, v22.4s
	shl v25.4s, v19.4s, #5
	usra v24.4s, v21.4s, #2
	add v21.4s, v22.4s, v5.4s
	mov v22.16b, v19.16b
	usra v25.4s, v19.4s, #27
	bsl v22.16b, v24.16b, v23.16b
	add v21.4s, v21.4s, v25.4s
	shl v25.4s, v19.4s, #30
	add v20.4s, v20.4s, v22.4s
	shl v22.4s, v21.4s, #5
	usra v25.4s, v19.4s, #2
	add v19.4s, v20.4s, v5.4s
	usra v22.4s, v21.4s, #27
	mov v20.16b, v21.16b
	bsl v20.16b, v25.16b, v24.16b
	add v19.4s, v19.4s, v22.4s
	shl v22.4s, v21.4s, #30
	usra v22.4s, v21.4s, #2
	mov v21.16b, v19.16b
	add v20.4s, v23.4s, v20.4s
	shl v23.4s, v19.4s, #5
	bsl v21.16b, v22.16b, v25.16b
	add v20.4s, v20.4s, v5.4s
	usra v23.4s, v19.4s, #27
	add v20.4s, v20.4s, v23.4s
	shl v23.4s, v19.4s, #30
	add v21.4s, v24.4s, v21.4s
	usra v23.4s, v19.4s, #2
	add v19.4s, v21.4s, v5.4s
	mov v21.16b, v20.16b
	shl v24.4s, v20.4s, #5
	bsl v21.16b, v23.16b, v22.16b
	usra v24.4s, v20.4s, #27
	add v19.4s, v19.4s, v24.4s
	shl v24.4s, v20.4s, #30
	add v21.4s, v25.4s, v21.4s
	shl v25.4s, v19.4s, #5
	usra v24.4s, v20.4s, #2
	add v20.4s, v21.4s, v5.4s
	mov v21.16b, v19.16b
	usra v25.4s, v19.4s, #27
	bsl v21.16b, v24.16b, v23.16b
	add v20.4s, v20.4s, v25.4s
	shl v25.4s, v19.4s, #30
	add v21.4s, v22.4s, v21.4s
	shl v22.4s, v20.4s, #5
	usra v25.4s, v19.4s, #2
	add v19.4s, v21.4s, v5.4s
	mov v21.16b, v20.16b
	usra v22.4s, v20.4s, #27
	bsl v21.16b, v25.16b, v24.16b
	add v19.4s, v19.4s, v22.4s
	shl v22.4s, v20.4s, #30
	add v21.4s, v23.4s, v21.4s
	shl v23.4s, v19.4s, #5
	usra v22.4s, v20.4s, #2
	add v20.4s, v21.4s, v5.4s
	mov v21.16b, v19.16b
	usra v23.4s, v19.4s, #27
	bsl v21.16b, v22.16b, v25.16b
	add v20.4s, v20.4s, v23.4s
	shl v23.4s, v19.4s, #30
	usra v23.4s, v19.4s, #2
	mov v26.16b, v20.16b
	add v21.4s, v24.4s, v21.4s
	shl v24.4s, v20.4s, #5
	bsl v26.16b, v23.16b, v22.16b
	add v19.4s, v21.4s, v5.4s
	usra v24.4s, v20.4s, #27
	shl v21.4s, v20.4s, #30
	add v24.4s, v19.4s, v24.4s
	add v19.4s, v25.4s, v26.4s
	usra v21.4s, v20.4s, #2
	eor v26.16b, v17.16b, v16.16b
	eor v17.16b, v17.16b, v6.16b
	shl v25.4s, v24.4s, #5
	mov v20.16b, v24.16b
	add v19.4s, v19.4s, v5.4s
	add v16.4s, v26.4s, v26.4s
	usra v25.4s, v24.4s, #27
	bsl v20.16b, v21.16b, v23.16b
	usra v16.4s, v26.4s, #31
	add v26.4s, v18.4s, v18.4s
	add v27.4s, v19.4s, v25.4s
	shl v19.4s, v24.4s, #30
	dup v25.4s, w8
	add v20.4s, v22.4s, v20.4s
	add v23.4s, v16.4s, v23.4s
	mov w8, #0x2a0
	usra v26.4s, v18.4s, #31
	eor v7.16b, v7.16b, v16.16b
	shl v22.4s, v27.4s, #5
	usra v19.4s, v24.4s, #2
	mov v24.16b, v27.16b
	add v20.4s, v20.4s, v25.4s
	dup v25.4s, w8
	mov w8, #0xeba1
	eor v6.16b, v26.16b, v6.16b
	movk w8, #0x6ed9, lsl #16
	usra v22.4s, v27.4s, #27
	bsl v24.16b, v19.16b, v21.16b
	eor v17.16b, v17.16b, v25.16b
	add v22.4s, v20.4s, v22.4s
	shl v20.4s, v27.4s, #30
	add v23.4s, v23.4s, v24.4s
	shl v24.4s, v22.4s, #5
	usra v20.4s, v27.4s, #2
	add v27.4s, v26.4s, v21.4s
	add v18.4s, v23.4s, v5.4s
	mov v23.16b, v22.16b
	shl v21.4s, v22.4s, #30
	usra v24.4s, v22.4s, #27
	bsl v23.16b, v20.16b, v19.16b
	usra v21.4s, v22.4s, #2
	add v24.4s, v18.4s, v24.4s
	add v18.4s, v17.4s, v17.4s
	add v23.4s, v27.4s, v23.4s
	shl v27.4s, v24.4s, #5
	usra v18.4s, v17.4s, #31
	shl v22.4s, v24.4s, #30
	add v17.4s, v23.4s, v5.4s
	mov v23.16b, v24.16b
	usra v27.4s, v24.4s, #27
	add v19.4s, v18.4s, v19.4s
	usra v22.4s, v24.4s, #2
	eor v28.16b, v18.16b, v28.16b
	bsl v23.16b, v21.16b, v20.16b
	add v29.4s, v17.4s, v27.4s
	add v27.4s, v7.4s, v7.4s
	add v17.4s, v19.4s, v23.4s
	shl v19.4s, v29.4s, #5
	mov v24.16b, v29.16b
	usra v27.4s, v7.4s, #31
	add v23.4s, v17.4s, v5.4s
	usra v19.4s, v29.4s, #27
	bsl v24.16b, v22.16b, v21.16b
	add v20.4s, v27.4s, v20.4s
	shl v17.4s, v29.4s, #30
	add v23.4s, v23.4s, v19.4s
	add v19.4s, v6.4s, v6.4s
	usra v17.4s, v29.4s, #2
	add v20.4s, v20.4s, v24.4s
	add v29.4s, v28.4s, v28.4s
	shl v24.4s, v23.4s, #5
	usra v19.4s, v6.4s, #31
	eor v6.16b, v17.16b, v22.16b
	add v5.4s, v20.4s, v5.4s
	shl v20.4s, v23.4s, #30
	usra v29.4s, v28.4s, #31
	usra v24.4s, v23.4s, #27
	add v21.4s, v19.4s, v21.4s
	eor v6.16b, v6.16b, v23.16b
	usra v20.4s, v23.4s, #2
	add v30.4s, v29.4s, v22.4s
	shl v22.4s, v7.4s, #2
	add v24.4s, v5.4s, v24.4s
	dup v5.4s, w8
	mov w8, #0xbcdc
	add v6.4s, v21.4s, v6.4s
	eor v23.16b, v20.16b, v17.16b
	movk w8, #0x8f1b, lsl #16
	usra v22.4s, v7.4s, #30
	shl v21.4s, v24.4s, #5
	add v28.4s, v6.4s, v5.4s
	eor v23.16b, v23.16b, v24.16b
	shl v6.4s, v24.4s, #30
	add v17.4s, v22.4s, v17.4s
	usra v21.4s, v24.4s, #27
	add v23.4s, v30.4s, v23.4s
	usra v6.4s, v24.4s, #2
	eor v30.16b, v19.16b, v25.16b
	add v21.4s, v28.4s, v21.4s
	add v23.4s, v23.4s, v5.4s
	eor v7.16b, v6.16b, v20.16b
	add v28.4s, v30.4s, v30.4s
	shl v24.4s, v21.4s, #5
	eor v31.16b, v7.16b, v21.16b
	shl v7.4s, v21.4s, #30
	usra v28.4s, v30.4s, #31
	eor v30.16b, v29.16b, v16.16b
	usra v24.4s, v21.4s, #27
	usra v7.4s, v21.4s, #2
	add v17.4s, v17.4s, v31.4s
	add v31.4s, v28.4s, v20.4s
	add v23.4s, v23.4s, v24.4s
	eor v24.16b, v7.16b, v6.16b
	add v17.4s, v17.4s, v5.4s
	shl v21.4s, v23.4s, #5
	shl v20.4s, v23.4s, #30
	eor v24.16b, v24.16b, v23.16b
	usra v21.4s, v23.4s, #27
	usra v20.4s, v23.4s, #2
	add v24.4s, v31.4s, v24.4s
	eor v31.16b, v22.16b, v26.16b
	add v17.4s, v17.4s, v21.4s
	add v21.4s, v30.4s, v30.4s
	add v24.4s, v24.4s, v5.4s
	shl v23.4s, v17.4s, #5
	usra v21.4s, v30.4s, #31
	eor v30.16b, v20.16b, v7.16b
	usra v23.4s, v17.4s, #27
	add v8.4s, v21.4s, v6.4s
	eor v30.16b, v30.16b, v17.16b
	shl v6.4s, v17.4s, #30
	add v24.4s, v24.4s, v23.4s
	add v23.4s, v31.4s, v31.4s
	usra v6.4s, v17.4s, #2
	add v17.4s, v8.4s, v30.4s
	eor v8.16b, v28.16b, v18.16b
	shl v30.4s, v24.4s, #5
	usra v23.4s, v31.4s, #31
	eor v31.16b, v6.16b, v20.16b
	add v17.4s, v17.4s, v5.4s
	usra v30.4s, v24.4s, #27
	add v9.4s, v23.4s, v7.4s
	shl v7.4s, v24.4s, #30
	eor v31.16b, v31.16b, v24.16b
	add v10.4s, v17.4s, v30.4s
	add v17.4s, v8.4s, v8.4s
	usra v7.4s, v24.4s, #2
	add v30.4s, v9.4s, v31.4s
	shl v24.4s, v10.4s, #5
	usra v17.4s, v8.4s, #31
	eor v8.16b, v21.16b, v27.16b
	add v31.4s, v30.4s, v5.4s
	eor v30.16b, v7.16b, v6.16b
	usra v24.4s, v10.4s, #27
	add v20.4s, v17.4s, v20.4s
	eor v9.16b, v30.16b, v10.16b
	shl v30.4s, v10.4s, #30
	add v11.4s, v31.4s, v24.4s
	add v24.4s, v8.4s, v8.4s
	usra v30.4s, v10.4s, #2
	add v20.4s, v20.4s, v9.4s
	shl v9.4s, v11.4s, #5
	usra v24.4s, v8.4s, #31
	eor v8.16b, v23.16b, v19.16b
	eor v31.16b, v30.16b, v7.16b
	add v20.4s, v20.4s, v5.4s
	usra v9.4s, v11.4s, #27
	add v10.4s, v24.4s, v6.4s
	add v6.4s, v8.4s, v8.4s
	eor v12.16b, v31.16b, v11.16b
	shl v31.4s, v11.4s, #30
	add v13.4s, v20.4s, v9.4s
	eor v9.16b, v29.16b, v25.16b
	usra v6.4s, v8.4s, #31
	add v20.4s, v10.4s, v12.4s
	usra v31.4s, v11.4s, #2
	eor v12.16b, v22.16b, v16.16b
	eor v16.16b, v18.16b, v16.16b
	eor v18.16b, v19.16b, v18.16b
	eor v19.16b, v19.16b, v22.16b
	shl v10.4s, v13.4s, #5
	eor v11.16b, v9.16b, v17.16b
	add v7.4s, v6.4s, v7.4s
	add v20.4s, v20.4s, v5.4s
	eor v8.16b, v31.16b, v30.16b
	shl v9.4s, v13.4s, #30
	eor v12.16b, v12.16b, v24.16b
	eor v16.16b, v16.16b, v21.16b
	eor v18.16b, v18.16b, v17.16b
	usra v10.4s, v13.4s, #27
	eor v19.16b, v19.16b, v6.16b
	eor v22.16b, v21.16b, v22.16b
	eor v8.16b, v8.16b, v13.16b
	usra v9.4s, v13.4s, #2
	eor v21.16b, v17.16b, v21.16b
	add v10.4s, v20.4s, v10.4s
	add v20.4s, v11.4s, v11.4s
	add v7.4s, v7.4s, v8.4s
	shl v8.4s, v10.4s, #5
	usra v20.4s, v11.4s, #31
	eor v11.16b, v9.16b, v31.16b
	add v7.4s, v7.4s, v5.4s
	usra v8.4s, v10.4s, #27
	add v13.4s, v20.4s, v30.4s
	eor v11.16b, v11.16b, v10.16b
	shl v30.4s, v10.4s, #30
	add v14.4s, v7.4s, v8.4s
	eor v8.16b, v26.16b, v28.16b
	add v7.4s, v12.4s, v12.4s
	add v11.4s, v13.4s, v11.4s
	usra v30.4s, v10.4s, #2
	eor v26.16b, v27.16b, v26.16b
	eor v27.16b, v29.16b, v27.16b
	eor v29.16b, v28.16b, v29.16b
	eor v28.16b, v28.16b, v23.16b
	shl v10.4s, v14.4s, #5
	eor v25.16b, v8.16b, v25.16b
	usra v7.4s, v12.4s, #31
	add v11.4s, v11.4s, v5.4s
	eor v8.16b, v30.16b, v9.16b
	eor v26.16b, v26.16b, v23.16b
	eor v27.16b, v27.16b, v24.16b
	eor v29.16b, v29.16b, v20.16b
	usra v10.4s, v14.4s, #27
	eor v12.16b, v25.16b, v6.16b
	add v31.4s, v7.4s, v31.4s
	eor v13.16b, v8.16b, v14.16b
	shl v8.4s, v14.4s, #30
	eor v22.16b, v22.16b, v7.16b
	add v10.4s, v11.4s, v10.4s
	add v25.4s, v12.4s, v12.4s
	usra v8.4s, v14.4s, #2
	add v31.4s, v31.4s, v13.4s
	eor v14.16b, v16.16b, v20.16b
	shl v11.4s, v10.4s, #5
	usra v25.4s, v12.4s, #31
	eor v12.16b, v8.16b, v30.16b
	add v13.4s, v31.4s, v5.4s
	shl v31.4s, v10.4s, #30
	add v16.4s, v14.4s, v14.4s
	usra v11.4s, v10.4s, #27
	add v9.4s, v25.4s, v9.4s
	eor v28.16b, v28.16b, v25.16b
	eor v12.16b, v12.16b, v10.16b
	usra v31.4s, v10.4s, #2
	usra v16.4s, v14.4s, #31
	add v11.4s, v13.4s, v11.4s
	eor v13.16b, v26.16b, v7.16b
	add v9.4s, v9.4s, v12.4s
	add v30.4s, v16.4s, v30.4s
	eor v21.16b, v21.16b, v16.16b
	shl v10.4s, v11.4s, #5
	add v26.4s, v13.4s, v13.4s
	add v12.4s, v9.4s, v5.4s
	eor v9.16b, v31.16b, v8.16b
	usra v10.4s, v11.4s, #27
	usra v26.4s, v13.4s, #31
	eor v14.16b, v9.16b, v11.16b
	shl v9.4s, v11.4s, #30
	add v10.4s, v12.4s, v10.4s
	add v8.4s, v26.4s, v8.4s
	usra v9.4s, v11.4s, #2
	add v30.4s, v30.4s, v14.4s
	eor v14.16b, v18.16b, v25.16b
	shl v11.4s, v10.4s, #5
	eor v12.16b, v9.16b, v31.16b
	add v13.4s, v30.4s, v5.4s
	shl v30.4s, v10.4s, #30
	add v18.4s, v14.4s, v14.4s
	usra v11.4s, v10.4s, #27
	eor v12.16b, v12.16b, v10.16b
	usra v30.4s, v10.4s, #2
	usra v18.4s, v14.4s, #31
	add v11.4s, v13.4s, v11.4s
	eor v13.16b, v27.16b, v16.16b
	add v8.4s, v8.4s, v12.4s
	add v31.4s, v18.4s, v31.4s
	shl v10.4s, v11.4s, #5
	add v27.4s, v13.4s, v13.4s
	add v12.4s, v8.4s, v5.4s
	eor v8.16b, v30.16b, v9.16b
	usra v10.4s, v11.4s, #27
	usra v27.4s, v13.4s, #31
	eor v14.16b, v8.16b, v11.16b
	shl v8.4s, v11.4s, #30
	add v10.4s, v12.4s, v10.4s
	add v9.4s, v27.4s, v9.4s
	usra v8.4s, v11.4s, #2
	add v31.4s, v31.4s, v14.4s
	eor v14.16b, v19.16b, v26.16b
	shl v11.4s, v10.4s, #5
	eor v12.16b, v8.16b, v30.16b
	add v13.4s, v31.4s, v5.4s
	shl v31.4s, v10.4s, #30
	add v19.4s, v14.4s, v14.4s
	usra v11.4s, v10.4s, #27
	eor v12.16b, v12.16b, v10.16b
	usra v31.4s, v10.4s, #2
	usra v19.4s, v14.4s, #31
	add v11.4s, v13.4s, v11.4s
	eor v13.16b, v29.16b, v18.16b
	add v9.4s, v9.4s, v12.4s
	add v30.4s, v19.4s, v30.4s
	shl v10.4s, v11.4s, #5
	add v29.4s, v13.4s, v13.4s
	add v12.4s, v9.4s, v5.4s
	eor v9.16b, v31.16b, v8.16b
	usra v10.4s, v11.4s, #27
	usra v29.4s, v13.4s, #31
	eor v13.16b, v22.16b, v27.16b
	eor v14.16b, v9.16b, v11.16b
	shl v9.4s, v11.4s, #30
	add v10.4s, v12.4s, v10.4s
	add v22.4s, v13.4s, v13.4s
	eor v21.16b, v21.16b, v29.16b
	usra v9.4s, v11.4s, #2
	add v30.4s, v30.4s, v14.4s
	add v14.4s, v29.4s, v8.4s
	shl v11.4s, v10.4s, #5
	shl v8.4s, v10.4s, #30
	usra v22.4s, v13.4s, #31
	eor v12.16b, v9.16b, v31.16b
	add v30.4s, v30.4s, v5.4s
	eor v13.16b, v28.16b, v19.16b
	usra v11.4s, v10.4s, #27
	usra v8.4s, v10.4s, #2
	eor v12.16b, v12.16b, v10.16b
	add v30.4s, v30.4s, v11.4s
	add v11.4s, v14.4s, v12.4s
	eor v12.16b, v8.16b, v9.16b
	add v14.4s, v22.4s, v31.4s
	add v31.4s, v13.4s, v13.4s
	shl v10.4s, v30.4s, #5
	shl v28.4s, v30.4s, #30
	add v11.4s, v11.4s, v5.4s
	eor v12.16b, v12.16b, v30.16b
	usra v31.4s, v13.4s, #31
	usra v10.4s, v30.4s, #27
	usra v28.4s, v30.4s, #2
	add v30.4s, v14.4s, v12.4s
	add v9.4s, v31.4s, v9.4s
	add v10.4s, v11.4s, v10.4s
	eor v12.16b, v28.16b, v8.16b
	add v13.4s, v30.4s, v5.4s
	shl v11.4s, v10.4s, #5
	shl v30.4s, v10.4s, #30
	eor v12.16b, v12.16b, v10.16b
	usra v11.4s, v10.4s, #27
	usra v30.4s, v10.4s, #2
	add v9.4s, v9.4s, v12.4s
	add v11.4s, v13.4s, v11.4s
	eor v13.16b, v24.16b, v23.16b
	add v23.4s, v21.4s, v21.4s
	add v5.4s, v9.4s, v5.4s
	eor v12.16b, v13.16b, v26.16b
	eor v13.16b, v30.16b, v28.16b
	shl v10.4s, v11.4s, #5
	usra v23.4s, v21.4s, #31
	shl v21.4s, v11.4s, #30
	mov v9.16b, v13.16b
	usra v10.4s, v11.4s, #27
	eor v12.16b, v12.16b, v22.16b
	add v8.4s, v23.4s, v8.4s
	usra v21.4s, v11.4s, #2
	eor v13.16b, v17.16b, v6.16b
	eor v6.16b, v7.16b, v6.16b
	eor v7.16b, v16.16b, v7.16b
	eor v16.16b, v18.16b, v16.16b
	bsl v9.16b, v11.16b, v30.16b
	add v10.4s, v5.4s, v10.4s
	add v17.4s, v12.4s, v12.4s
	dup v5.4s, w8
	eor v13.16b, v13.16b, v18.16b
	eor v18.16b, v19.16b, v18.16b
	eor v6.16b, v6.16b, v19.16b
	eor v7.16b, v7.16b, v22.16b
	eor v16.16b, v16.16b, v23.16b
	shl v11.4s, v10.4s, #5
	usra v17.4s, v12.4s, #31
	eor v19.16b, v22.16b, v19.16b
	add v8.4s, v8.4s, v9.4s
	eor v9.16b, v21.16b, v30.16b
	eor v13.16b, v13.16b, v31.16b
	eor v22.16b, v23.16b, v22.16b
	mov w8, #0xc1d6
	usra v11.4s, v10.4s, #27
	add v28.4s, v17.4s, v28.4s
	eor v14.16b, v6.16b, v17.16b
	mov v12.16b, v9.16b
	add v8.4s, v8.4s, v5.4s
	shl v9.4s, v10.4s, #30
	movk w8, #0xca62, lsl #16
	add v6.4s, v14.4s, v14.4s
	bsl v12.16b, v10.16b, v21.16b
	add v8.4s, v8.4s, v11.4s
	usra v9.4s, v10.4s, #2
	eor v11.16b, v20.16b, v24.16b
	add v24.4s, v13.4s, v13.4s
	eor v20.16b, v25.16b, v20.16b
	usra v6.4s, v14.4s, #31
	eor v25.16b, v26.16b, v25.16b
	eor v26.16b, v27.16b, v26.16b
	shl v10.4s, v8.4s, #5
	add v28.4s, v28.4s, v12.4s
	eor v12.16b, v9.16b, v21.16b
	eor v11.16b, v11.16b, v27.16b
	usra v24.4s, v13.4s, #31
	add v14.4s, v6.4s, v9.4s
	eor v26.16b, v26.16b, v17.16b
	usra v10.4s, v8.4s, #27
	eor v27.16b, v29.16b, v27.16b
	eor v19.16b, v19.16b, v6.16b
	add v13.4s, v28.4s, v5.4s
	bsl v12.16b, v8.16b, v9.16b
	shl v28.4s, v8.4s, #30
	eor v11.16b, v11.16b, v23.16b
	add v30.4s, v24.4s, v30.4s
	eor v18.16b, v18.16b, v24.16b
	eor v23.16b, v24.16b, v23.16b
	add v10.4s, v13.4s, v10.4s
	usra v28.4s, v8.4s, #2
	add v8.4s, v11.4s, v11.4s
	add v30.4s, v30.4s, v12.4s
	shl v12.4s, v10.4s, #5
	eor v13.16b, v28.16b, v9.16b
	usra v8.4s, v11.4s, #31
	add v11.4s, v30.4s, v5.4s
	shl v30.4s, v10.4s, #30
	usra v12.4s, v10.4s, #27
	bsl v13.16b, v10.16b, v28.16b
	usra v30.4s, v10.4s, #2
	add v21.4s, v8.4s, v21.4s
	eor v27.16b, v27.16b, v8.16b
	add v11.4s, v11.4s, v12.4s
	eor v12.16b, v20.16b, v29.16b
	eor v29.16b, v31.16b, v29.16b
	eor v20.16b, v30.16b, v28.16b
	add v21.4s, v21.4s, v13.4s
	shl v10.4s, v11.4s, #5
	eor v12.16b, v12.16b, v24.16b
	mov v13.16b, v20.16b
	add v21.4s, v21.4s, v5.4s
	shl v20.4s, v11.4s, #30
	usra v10.4s, v11.4s, #27
	add v9.4s, v12.4s, v12.4s
	bsl v13.16b, v11.16b, v30.16b
	usra v20.4s, v11.4s, #2
	add v21.4s, v21.4s, v10.4s
	usra v9.4s, v12.4s, #31
	add v10.4s, v14.4s, v13.4s
	eor v13.16b, v20.16b, v30.16b
	eor v14.16b, v7.16b, v8.16b
	shl v11.4s, v21.4s, #5
	add v28.4s, v9.4s, v28.4s
	eor v16.16b, v16.16b, v9.16b
	eor v29.16b, v29.16b, v9.16b
	add v12.4s, v10.4s, v5.4s
	shl v10.4s, v21.4s, #30
	bsl v13.16b, v21.16b, v20.16b
	usra v11.4s, v21.4s, #27
	add v7.4s, v14.4s, v14.4s
	usra v10.4s, v21.4s, #2
	add v11.4s, v12.4s, v11.4s
	eor v12.16b, v25.16b, v31.16b
	add v21.4s, v28.4s, v13.4s
	usra v7.4s, v14.4s, #31
	eor v31.16b, v17.16b, v31.16b
	eor v25.16b, v10.16b, v20.16b
	shl v28.4s, v11.4s, #5
	add v21.4s, v21.4s, v5.4s
	eor v12.16b, v12.16b, v6.16b
	add v14.4s, v7.4s, v30.4s
	eor v26.16b, v26.16b, v7.16b
	eor v22.16b, v22.16b, v7.16b
	mov v13.16b, v25.16b
	shl v25.4s, v11.4s, #30
	usra v28.4s, v11.4s, #27
	add v30.4s, v12.4s, v12.4s
	bsl v13.16b, v11.16b, v10.16b
	usra v25.4s, v11.4s, #2
	add v21.4s, v21.4s, v28.4s
	usra v30.4s, v12.4s, #31
	eor v11.16b, v25.16b, v10.16b
	add v28.4s, v14.4s, v13.4s
	shl v13.4s, v21.4s, #5
	add v20.4s, v30.4s, v20.4s
	eor v18.16b, v18.16b, v30.16b
	eor v31.16b, v31.16b, v30.16b
	mov v12.16b, v11.16b
	shl v11.4s, v21.4s, #30
	add v28.4s, v28.4s, v5.4s
	usra v13.4s, v21.4s, #27
	bsl v12.16b, v21.16b, v25.16b
	usra v11.4s, v21.4s, #2
	add v21.4s, v16.4s, v16.4s
	add v28.4s, v28.4s, v13.4s
	eor v13.16b, v11.16b, v25.16b
	usra v21.4s, v16.4s, #31
	add v20.4s, v20.4s, v12.4s
	shl v12.4s, v28.4s, #5
	shl v16.4s, v28.4s, #30
	bsl v13.16b, v28.16b, v11.16b
	add v10.4s, v21.4s, v10.4s
	eor v14.16b, v27.16b, v21.16b
	add v20.4s, v20.4s, v5.4s
	usra v12.4s, v28.4s, #27
	usra v16.4s, v28.4s, #2
	add v28.4s, v26.4s, v26.4s
	eor v23.16b, v23.16b, v21.16b
	add v27.4s, v14.4s, v14.4s
	add v20.4s, v20.4s, v12.4s
	add v10.4s, v10.4s, v13.4s
	eor v13.16b, v16.16b, v11.16b
	usra v28.4s, v26.4s, #31
	usra v27.4s, v14.4s, #31
	shl v12.4s, v20.4s, #5
	add v10.4s, v10.4s, v5.4s
	bsl v13.16b, v20.16b, v16.16b
	shl v26.4s, v20.4s, #30
	add v25.4s, v28.4s, v25.4s
	eor v14.16b, v19.16b, v28.16b
	eor v22.16b, v22.16b, v27.16b
	usra v12.4s, v20.4s, #27
	usra v26.4s, v20.4s, #2
	add v20.4s, v18.4s, v18.4s
	add v25.4s, v25.4s, v13.4s
	add v19.4s, v14.4s, v14.4s
	add v10.4s, v10.4s, v12.4s
	eor v13.16b, v26.16b, v16.16b
	usra v20.4s, v18.4s, #31
	add v25.4s, v25.4s, v5.4s
	add v16.4s, v27.4s, v16.4s
	usra v19.4s, v14.4s, #31
	shl v12.4s, v10.4s, #5
	shl v18.4s, v10.4s, #30
	bsl v13.16b, v10.16b, v26.16b
	add v11.4s, v20.4s, v11.4s
	eor v29.16b, v29.16b, v20.16b
	add v14.4s, v19.4s, v26.4s
	eor v31.16b, v31.16b, v19.16b
	usra v12.4s, v10.4s, #27
	usra v18.4s, v10.4s, #2
	add v12.4s, v25.4s, v12.4s
	add v25.4s, v11.4s, v13.4s
	eor v11.16b, v18.16b, v26.16b
	add v26.4s, v29.4s, v29.4s
	shl v10.4s, v12.4s, #5
	add v13.4s, v25.4s, v5.4s
	bsl v11.16b, v12.16b, v18.16b
	shl v25.4s, v12.4s, #30
	usra v26.4s, v29.4s, #31
	usra v10.4s, v12.4s, #27
	usra v25.4s, v12.4s, #2
	add v16.4s, v16.4s, v11.4s
	eor v23.16b, v23.16b, v26.16b
	add v10.4s, v13.4s, v10.4s
	eor v12.16b, v25.16b, v18.16b
	add v13.4s, v16.4s, v5.4s
	shl v11.4s, v10.4s, #5
	shl v16.4s, v10.4s, #30
	bsl v12.16b, v10.16b, v25.16b
	usra v11.4s, v10.4s, #27
	usra v16.4s, v10.4s, #2
	add v10.4s, v14.4s, v12.4s
	add v14.4s, v26.4s, v18.4s
	add v18.4s, v22.4s, v22.4s
	add v11.4s, v13.4s, v11.4s
	eor v13.16b, v16.16b, v25.16b
	add v10.4s, v10.4s, v5.4s
	usra v18.4s, v22.4s, #31
	shl v12.4s, v11.4s, #5
	bsl v13.16b, v11.16b, v16.16b
	shl v29.4s, v11.4s, #30
	usra v12.4s, v11.4s, #27
	usra v29.4s, v11.4s, #2
	add v11.4s, v14.4s, v13.4s
	add v14.4s, v18.4s, v25.4s
	add v25.4s, v31.4s, v31.4s
	add v10.4s, v10.4s, v12.4s
	eor v13.16b, v29.16b, v16.16b
	add v11.4s, v11.4s, v5.4s
	usra v25.4s, v31.4s, #31
	shl v12.4s, v10.4s, #5
	bsl v13.16b, v10.16b, v29.16b
	shl v22.4s, v10.4s, #30
	add v16.4s, v25.4s, v16.4s
	usra v12.4s, v10.4s, #27
	usra v22.4s, v10.4s, #2
	add v10.4s, v14.4s, v13.4s
	add v11.4s, v11.4s, v12.4s
	eor v13.16b, v22.16b, v29.16b
	add v10.4s, v10.4s, v5.4s
	shl v12.4s, v11.4s, #5
	bsl v13.16b, v11.16b, v22.16b
	shl v31.4s, v11.4s, #30
	usra v12.4s, v11.4s, #27
	usra v31.4s, v11.4s, #2
	add v16.4s, v16.4s, v13.4s
	add v10.4s, v10.4s, v12.4s
	eor v12.16b, v8.16b, v17.16b
	add v17.4s, v23.4s, v23.4s
	eor v13.16b, v31.16b, v22.16b
	add v16.4s, v16.4s, v5.4s
	shl v11.4s, v10.4s, #5
	eor v12.16b, v12.16b, v28.16b
	usra v17.4s, v23.4s, #31
	shl v23.4s, v10.4s, #30
	bsl v13.16b, v10.16b, v31.16b
	usra v11.4s, v10.4s, #27
	eor v12.16b, v12.16b, v18.16b
	add v29.4s, v17.4s, v29.4s
	usra v23.4s, v10.4s, #2
	add v16.4s, v16.4s, v11.4s
	eor v11.16b, v6.16b, v24.16b
	add v24.4s, v12.4s, v12.4s
	eor v10.16b, v23.16b, v31.16b
	add v29.4s, v29.4s, v13.4s
	eor v6.16b, v7.16b, v6.16b
	eor v7.16b, v21.16b, v7.16b
	shl v13.4s, v16.4s, #5
	usra v24.4s, v12.4s, #31
	eor v11.16b, v11.16b, v20.16b
	mov v12.16b, v10.16b
	add v29.4s, v29.4s, v5.4s
	shl v10.4s, v16.4s, #30
	eor v6.16b, v6.16b, v19.16b
	eor v7.16b, v7.16b, v18.16b
	usra v13.4s, v16.4s, #27
	eor v11.16b, v11.16b, v25.16b
	add v22.4s, v24.4s, v22.4s
	bsl v12.16b, v16.16b, v23.16b
	usra v10.4s, v16.4s, #2
	eor v14.16b, v6.16b, v24.16b
	add v13.4s, v29.4s, v13.4s
	eor v29.16b, v9.16b, v8.16b
	add v16.4s, v11.4s, v11.4s
	eor v9.16b, v30.16b, v9.16b
	eor v30.16b, v28.16b, v30.16b
	add v22.4s, v22.4s, v12.4s
	add v6.4s, v14.4s, v14.4s
	eor v12.16b, v29.16b, v27.16b
	eor v29.16b, v10.16b, v23.16b
	shl v8.4s, v13.4s, #5
	usra v16.4s, v11.4s, #31
	eor v30.16b, v30.16b, v25.16b
	add v22.4s, v22.4s, v5.4s
	usra v6.4s, v14.4s, #31
	mov v11.16b, v29.16b
	usra v8.4s, v13.4s, #27
	shl v29.4s, v13.4s, #30
	eor v12.16b, v12.16b, v17.16b
	add v31.4s, v16.4s, v31.4s
	eor v30.16b, v30.16b, v6.16b
	bsl v11.16b, v13.16b, v10.16b
	add v8.4s, v22.4s, v8.4s
	usra v29.4s, v13.4s, #2
	add v22.4s, v12.4s, v12.4s
	eor v13.16b, v29.16b, v10.16b
	add v10.4s, v6.4s, v10.4s
	add v31.4s, v31.4s, v11.4s
	shl v11.4s, v8.4s, #5
	usra v22.4s, v12.4s, #31
	bsl v13.16b, v8.16b, v29.16b
	add v12.4s, v31.4s, v5.4s
	usra v11.4s, v8.4s, #27
	add v23.4s, v22.4s, v23.4s
	shl v31.4s, v8.4s, #30
	add v11.4s, v12.4s, v11.4s
	add v23.4s, v23.4s, v13.4s
	usra v31.4s, v8.4s, #2
	eor v8.16b, v9.16b, v26.16b
	shl v12.4s, v11.4s, #5
	add v5.4s, v23.4s, v5.4s
	eor v9.16b, v31.16b, v29.16b
	eor v13.16b, v8.16b, v16.16b
	shl v8.4s, v11.4s, #30
	usra v12.4s, v11.4s, #27
	eor v9.16b, v9.16b, v11.16b
	add v23.4s, v13.4s, v13.4s
	usra v8.4s, v11.4s, #2
	add v12.4s, v5.4s, v12.4s
	dup v5.4s, w8
	add v9.4s, v10.4s, v9.4s
	usra v23.4s, v13.4s, #31
	eor v11.16b, v8.16b, v31.16b
	eor v13.16b, v7.16b, v22.16b
	shl v10.4s, v12.4s, #5
	add v9.4s, v9.4s, v5.4s
	add v14.4s, v23.4s, v29.4s
	eor v11.16b, v11.16b, v12.16b
	shl v29.4s, v12.4s, #30
	add v7.4s, v13.4s, v13.4s
	usra v10.4s, v12.4s, #27
	usra v29.4s, v12.4s, #2
	usra v7.4s, v13.4s, #31
	add v9.4s, v9.4s, v10.4s
	add v10.4s, v14.4s, v11.4s
	eor v12.16b, v29.16b, v8.16b
	add v13.4s, v7.4s, v31.4s
	shl v11.4s, v9.4s, #5
	add v10.4s, v10.4s, v5.4s
	shl v31.4s, v9.4s, #30
	eor v12.16b, v12.16b, v9.16b
	usra v11.4s, v9.4s, #27
	usra v31.4s, v9.4s, #2
	add v9.4s, v13.4s, v12.4s
	add v10.4s, v10.4s, v11.4s
	eor v11.16b, v20.16b, v21.16b
	add v21.4s, v30.4s, v30.4s
	add v9.4s, v9.4s, v5.4s
	shl v12.4s, v10.4s, #5
	eor v11.16b, v11.16b, v17.16b
	usra v21.4s, v30.4s, #31
	eor v30.16b, v31.16b, v29.16b
	usra v12.4s, v10.4s, #27
	eor v11.16b, v11.16b, v23.16b
	add v8.4s, v21.4s, v8.4s
	eor v13.16b, v30.16b, v10.16b
	shl v30.4s, v10.4s, #30
	add v9.4s, v9.4s, v12.4s
	eor v12.16b, v27.16b, v28.16b
	add v28.4s, v11.4s, v11.4s
	add v8.4s, v8.4s, v13.4s
	usra v30.4s, v10.4s, #2
	shl v10.4s, v9.4s, #5
	eor v12.16b, v12.16b, v24.16b
	usra v28.4s, v11.4s, #31
	add v11.4s, v8.4s, v5.4s
	eor v8.16b, v30.16b, v31.16b
	usra v10.4s, v9.4s, #27
	eor v12.16b, v12.16b, v7.16b
	add v29.4s, v28.4s, v29.4s
	eor v13.16b, v8.16b, v9.16b
	shl v8.4s, v9.4s, #30
	add v10.4s, v11.4s, v10.4s
	eor v11.16b, v19.16b, v20.16b
	add v20.4s, v12.4s, v12.4s
	usra v8.4s, v9.4s, #2
	add v29.4s, v29.4s, v13.4s
	eor v19.16b, v18.16b, v19.16b
	eor v18.16b, v17.16b, v18.16b
	shl v9.4s, v10.4s, #5
	eor v11.16b, v11.16b, v16.16b
	usra v20.4s, v12.4s, #31
	eor v12.16b, v8.16b, v30.16b
	add v29.4s, v29.4s, v5.4s
	eor v19.16b, v19.16b, v6.16b
	eor v18.16b, v18.16b, v7.16b
	usra v9.4s, v10.4s, #27
	eor v11.16b, v11.16b, v21.16b
	add v13.4s, v20.4s, v31.4s
	eor v12.16b, v12.16b, v10.16b
	shl v31.4s, v10.4s, #30
	add v14.4s, v29.4s, v9.4s
	eor v29.16b, v26.16b, v27.16b
	add v27.4s, v11.4s, v11.4s
	add v9.4s, v13.4s, v12.4s
	usra v31.4s, v10.4s, #2
	eor v26.16b, v25.16b, v26.16b
	eor v25.16b, v24.16b, v25.16b
	eor v24.16b, v22.16b, v24.16b
	shl v10.4s, v14.4s, #5
	eor v29.16b, v29.16b, v22.16b
	usra v27.4s, v11.4s, #31
	add v11.4s, v9.4s, v5.4s
	eor v9.16b, v31.16b, v8.16b
	eor v26.16b, v26.16b, v23.16b
	eor v25.16b, v25.16b, v21.16b
	eor v24.16b, v24.16b, v20.16b
	eor v22.16b, v23.16b, v22.16b
	usra v10.4s, v14.4s, #27
	eor v12.16b, v29.16b, v28.16b
	add v30.4s, v27.4s, v30.4s
	eor v13.16b, v9.16b, v14.16b
	shl v9.4s, v14.4s, #30
	add v10.4s, v11.4s, v10.4s
	add v29.4s, v12.4s, v12.4s
	usra v9.4s, v14.4s, #2
	add v30.4s, v30.4s, v13.4s
	eor v14.16b, v19.16b, v20.16b
	eor v20.16b, v20.16b, v21.16b
	shl v11.4s, v10.4s, #5
	usra v29.4s, v12.4s, #31
	eor v12.16b, v9.16b, v31.16b
	add v13.4s, v30.4s, v5.4s
	shl v30.4s, v10.4s, #30
	add v19.4s, v14.4s, v14.4s
	usra v11.4s, v10.4s, #27
	add v8.4s, v29.4s, v8.4s
	eor v22.16b, v22.16b, v29.16b
	eor v12.16b, v12.16b, v10.16b
	usra v30.4s, v10.4s, #2
	usra v19.4s, v14.4s, #31
	add v11.4s, v13.4s, v11.4s
	eor v13.16b, v26.16b, v27.16b
	add v8.4s, v8.4s, v12.4s
	add v31.4s, v19.4s, v31.4s
	eor v25.16b, v25.16b, v19.16b
	shl v10.4s, v11.4s, #5
	add v26.4s, v13.4s, v13.4s
	add v12.4s, v8.4s, v5.4s
	eor v8.16b, v30.16b, v9.16b
	usra v10.4s, v11.4s, #27
	usra v26.4s, v13.4s, #31
	eor v14.16b, v8.16b, v11.16b
	shl v8.4s, v11.4s, #30
	add v10.4s, v12.4s, v10.4s
	add v9.4s, v26.4s, v9.4s
	usra v8.4s, v11.4s, #2
	add v31.4s, v31.4s, v14.4s
	eor v14.16b, v18.16b, v29.16b
	shl v11.4s, v10.4s, #5
	eor v12.16b, v8.16b, v30.16b
	add v13.4s, v31.4s, v5.4s
	shl v31.4s, v10.4s, #30
	add v18.4s, v14.4s, v14.4s
	usra v11.4s, v10.4s, #27
	eor v12.16b, v12.16b, v10.16b
	usra v31.4s, v10.4s, #2
	usra v18.4s, v14.4s, #31
	add v11.4s, v13.4s, v11.4s
	add v9.4s, v9.4s, v12.4s
	eor v12.16b, v31.16b, v8.16b
	add v13.4s, v18.4s, v30.4s
	eor v24.16b, v24.16b, v18.16b
	shl v10.4s, v11.4s, #5
	shl v30.4s, v11.4s, #30
	add v9.4s, v9.4s, v5.4s
	eor v12.16b, v12.16b, v11.16b
	usra v10.4s, v11.4s, #27
	usra v30.4s, v11.4s, #2
	add v11.4s, v13.4s, v12.4s
	add v9.4s, v9.4s, v10.4s
	eor v10.16b, v16.16b, v17.16b
	add v17.4s, v25.4s, v25.4s
	add v11.4s, v11.4s, v5.4s
	eor v16.16b, v6.16b, v16.16b
	eor v6.16b, v7.16b, v6.16b
	eor v7.16b, v28.16b, v7.16b
	shl v12.4s, v9.4s, #5
	eor v10.16b, v10.16b, v28.16b
	usra v17.4s, v25.4s, #31
	eor v25.16b, v30.16b, v31.16b
	eor v16.16b, v16.16b, v27.16b
	eor v6.16b, v6.16b, v19.16b
	eor v7.16b, v7.16b, v18.16b
	usra v12.4s, v9.4s, #27
	eor v10.16b, v10.16b, v26.16b
	add v13.4s, v17.4s, v8.4s
	eor v14.16b, v25.16b, v9.16b
	shl v25.4s, v9.4s, #30
	eor v16.16b, v16.16b, v17.16b
	eor v17.16b, v20.16b, v17.16b
	add v11.4s, v11.4s, v12.4s
	add v8.4s, v10.4s, v10.4s
	add v12.4s, v13.4s, v14.4s
	usra v25.4s, v9.4s, #2
	shl v9.4s, v11.4s, #5
	usra v8.4s, v10.4s, #31
	add v10.4s, v12.4s, v5.4s
	eor v12.16b, v25.16b, v30.16b
	usra v9.4s, v11.4s, #27
	add v13.4s, v8.4s, v31.4s
	shl v31.4s, v11.4s, #30
	eor v12.16b, v12.16b, v11.16b
	add v10.4s, v10.4s, v9.4s
	add v9.4s, v24.4s, v24.4s
	usra v31.4s, v11.4s, #2
	add v11.4s, v13.4s, v12.4s
	shl v12.4s, v10.4s, #5
	usra v9.4s, v24.4s, #31
	eor v24.16b, v31.16b, v25.16b
	add v27.4s, v11.4s, v5.4s
	usra v12.4s, v10.4s, #27
	add v30.4s, v9.4s, v30.4s
	eor v11.16b, v24.16b, v10.16b
	shl v24.4s, v10.4s, #30
	add v12.4s, v27.4s, v12.4s
	add v27.4s, v16.4s, v16.4s
	add v30.4s, v30.4s, v11.4s
	usra v24.4s, v10.4s, #2
	shl v10.4s, v12.4s, #5
	usra v27.4s, v16.4s, #31
	add v29.4s, v30.4s, v5.4s
	eor v16.16b, v24.16b, v31.16b
	eor v30.16b, v22.16b, v8.16b
	usra v10.4s, v12.4s, #27
	add v25.4s, v27.4s, v25.4s
	eor v8.16b, v16.16b, v12.16b
	shl v16.4s, v12.4s, #30
	add v22.4s, v30.4s, v30.4s
	add v29.4s, v29.4s, v10.4s
	ldp d11, d10, [sp, #32]
	usra v16.4s, v12.4s, #2
	add v25.4s, v25.4s, v8.4s
	usra v22.4s, v30.4s, #31
	eor v30.16b, v6.16b, v9.16b
	ldp d13, d12, [sp, #16]
	shl v8.4s, v29.4s, #5
	shl v6.4s, v29.4s, #30
	eor v19.16b, v16.16b, v24.16b
	add v25.4s, v25.4s, v5.4s
	add v31.4s, v22.4s, v31.4s
	eor v7.16b, v7.16b, v22.16b
	usra v8.4s, v29.4s, #27
	usra v6.4s, v29.4s, #2
	eor v19.16b, v19.16b, v29.16b
	add v20.4s, v7.4s, v7.4s
	add v25.4s, v25.4s, v8.4s
	eor v8.16b, v21.16b, v23.16b
	add v23.4s, v30.4s, v30.4s
	add v19.4s, v31.4s, v19.4s
	usra v20.4s, v7.4s, #31
	shl v29.4s, v25.4s, #5
	eor v26.16b, v8.16b, v26.16b
	usra v23.4s, v30.4s, #31
	add v30.4s, v19.4s, v5.4s
	eor v19.16b, v6.16b, v16.16b
	ldp d9, d8, [sp, #48]
	usra v29.4s, v25.4s, #27
	eor v26.16b, v26.16b, v27.16b
	add v24.4s, v23.4s, v24.4s
	eor v27.16b, v19.16b, v25.16b
	shl v19.4s, v25.4s, #30
	eor v17.16b, v17.16b, v23.16b
	add v29.4s, v30.4s, v29.4s
	add v28.4s, v26.4s, v26.4s
	usra v19.4s, v25.4s, #2
	add v24.4s, v24.4s, v27.4s
	add v23.4s, v17.4s, v17.4s
	shl v25.4s, v29.4s, #5
	usra v28.4s, v26.4s, #31
	shl v21.4s, v29.4s, #30
	eor v18.16b, v19.16b, v6.16b
	add v24.4s, v24.4s, v5.4s
	add v6.4s, v20.4s, v6.4s
	usra v23.4s, v17.4s, #31
	usra v25.4s, v29.4s, #27
	add v16.4s, v28.4s, v16.4s
	usra v21.4s, v29.4s, #2
	eor v18.16b, v18.16b, v29.16b
	add v4.4s, v4.4s, v23.4s
	add v22.4s, v24.4s, v25.4s
	add v3.4s, v21.4s, v3.4s
	add v16.4s, v16.4s, v18.4s
	add v4.4s, v4.4s, v19.4s
	shl v18.4s, v22.4s, #5
	shl v20.4s, v22.4s, #30
	add v7.4s, v16.4s, v5.4s
	eor v16.16b, v21.16b, v19.16b
	usra v18.4s, v22.4s, #27
	usra v20.4s, v22.4s, #2
	eor v16.16b, v16.16b, v22.16b
	add v7.4s, v7.4s, v18.4s
	eor v17.16b, v20.16b, v21.16b
	add v2.4s, v20.4s, v2.4s
	add v6.4s, v6.4s, v16.4s
	shl v16.4s, v7.4s, #5
	eor v17.16b, v17.16b, v7.16b
	stp q2, q3, [x0, #48]
	add v6.4s, v6.4s, v5.4s
	usra v16.4s, v7.4s, #27
	add v4.4s, v4.4s, v17.4s
	add v6.4s, v6.4s, v16.4s
	shl v16.4s, v7.4s, #30
	add v4.4s, v4.4s, v5.4s
	shl v17.4s, v6.4s, #5
	usra v16.4s, v7.4s, #2
	add v0.4s, v6.4s, v0.4s
	usra v17.4s, v6.4s, #27
	add v1.4s, v16.4s, v1.4s
	add v3.4s, v4.4s, v17.4s
	stp q0, q1, [x0, #16]
	str q3, [x0]
	ldp x8, x9, [x2]
	adds x8, x8, #0x4
	adcs x9, x9, xzr
	csinv x8, x8, xzr, cc
	csinv x9, x9, xzr, cc
	stp x8, x9, [x2]
	ldr d14, [sp], #64
	ret
	SIZE(ring_core.digest.sha1.lanes.sha1_block_of_words_lanes_counted.05c973651951cdff, 4556)

	CODE(ring.pbkdf2.rounds.xor_iterates.524f7a1c66a8a9c8)
	.p2align 2
/* ring::pbkdf2::rounds::xor_iterates::<#524f7a1c66a8a9c8> */
	TYPE(ring.pbkdf2.rounds.xor_iterates.524f7a1c66a8a9c8, %function)
ring.pbkdf2.rounds.xor_iterates.524f7a1c66a8a9c8:
	sub sp, sp, #0x1e0
	movi v0.2d, #0x0
	ldrb w8, [x1]
	stp x29, x30, [sp, #384]
	stp x28, x27, [sp, #400]
	add x29, sp, #0x180
	cmp w8, #0x1
	stp x26, x25, [sp, #416]
	stp x24, x23, [sp, #432]
	stp x22, x21, [sp, #448]
	stp x20, x19, [sp, #464]
	stp q0, q0, [sp, #80]
	b.ne L(91_10)
	ldrb w8, [x1, #576]
	cmp w8, #0x1
	b.ne L(91_10)
	add x8, x1, #0x244
	ldur q0, [x1, #4]
	ldur q1, [x1, #20]
	ldp q2, q3, [x8]
	ldrb w8, [x1, #1152]
	stp q0, q1, [sp, #16]
	cmp w8, #0x1
	stp q0, q1, [sp, #112]
	stp q2, q3, [sp, #48]
	stp q2, q3, [sp, #144]
	b.ne L(91_10)
	ldp q0, q1, [sp, #48]
	add x8, x1, #0x484
	movi v2.2d, #0x0
	stp x0, x3, [sp]
	adrp x23, PAGE(yz_instructions)
	mov x21, x4
	mov x24, x2
	sub x19, x29, #0x90
	stp q0, q1, [x29, #-144]
	ldp q3, q0, [x8]
	adrp x10, PAGE(L(201_95))
	adrp x9, PAGE(L(201_96))
	stp q2, q2, [x29, #-80]
	stp q3, q0, [x29, #-112]
	stp q2, q2, [x29, #-48]
	ldrb w8, [x23, IN_PAGE(yz_instructions)]
	cbz w8, L(91_0)
	sub x0, x29, #0x90
	sub x1, x29, #0x70
	mov x2, x21
	mov x25, x9
	bl ring_core.digest.sha1.by_instruction.run_words.87fcf8c0f9719b5d
	b L(91_1)
L(91_0):
	ldur s1, [x29, #-96]
	mov w8, #0x80000000
	ldur q0, [x29, #-112]
	sub x0, x29, #0x50
	sub x1, x29, #0x90
	mov x25, x9
	mov v1.s[1], w8
	mov w8, #0x7999
	movk w8, #0x5a82, lsl #16
	dup v2.4s, w8
	mov v1.s[2], wzr
	add v3.4s, v0.4s, v2.4s
	mov v1.s[3], wzr
	add v4.4s, v1.4s, v2.4s
	stp q3, q4, [x29, #-80]
	ldr q3, [x10, IN_PAGE(L(201_95))]
	stp q2, q3, [x29, #-48]
	movi v2.2d, #0x0
	ldr q3, [x9, IN_PAGE(L(201_96))]
	bl ring_core.digest.sha1.by_fours.run_ahead
	ldp x8, x9, [x21]
	adds x8, x8, #0x1
	adcs x9, x9, xzr
	csinv x8, x8, xzr, cc
	csinv x9, x9, xzr, cc
	stp x8, x9, [x21]
L(91_1):
	ldr x8, [sp]
	ldur x28, [x19, #12]
	ldur w27, [x29, #-144]
	ldur x20, [x19, #4]
	ldur w26, [x29, #-116]
	ldur x22, [x19, #20]
	ldr w9, [x8, #40]
	lsr x8, x28, #32
	str w27, [sp, #80]
	stur x20, [sp, #84]
	cmp w9, #0x2
	stur x28, [sp, #92]
	stur x22, [sp, #100]
	str w26, [sp, #108]
	b.cc L(91_8)
	str x24, [sp]
	add x19, sp, #0x70
	sub w24, w9, #0x1
	b L(91_4)
L(91_2):
	add x0, sp, #0x50
	sub x1, x29, #0x70
	mov x2, x21
	bl ring_core.digest.sha1.by_instruction.run_words.87fcf8c0f9719b5d
L(91_3):
	ldp w10, w9, [sp, #80]
	ldp w12, w13, [sp, #88]
	ldp w8, w15, [sp, #96]
	ldp w17, w0, [sp, #104]
	lsr x11, x20, #32
	lsr x14, x28, #32
	lsr x16, x22, #32
	eor w1, w9, w20
	subs w24, w24, #0x1
	eor w27, w10, w27
	eor w11, w12, w11
	eor w12, w13, w28
	eor w9, w8, w14
	eor w13, w15, w22
	eor w14, w17, w16
	orr x20, x1, x11, lsl #32
	orr x28, x12, x9, lsl #32
	orr x22, x13, x14, lsl #32
	eor w26, w0, w26
	b.eq L(91_7)
L(91_4):
	movi v0.2d, #0x0
	ldp q1, q2, [sp, #112]
	stp q1, q2, [x29, #-112]
	stp q0, q0, [x29, #-80]
	stp q0, q0, [x29, #-48]
	ldrb w9, [x23, IN_PAGE(yz_instructions)]
	cbz w9, L(91_5)
	sub x0, x29, #0x70
	add x1, sp, #0x50
	mov x2, x21
	bl ring_core.digest.sha1.by_instruction.run_words.87fcf8c0f9719b5d
	b L(91_6)
L(91_5):
	fmov s1, w8
	mov w8, #0x80000000
	ldr q0, [sp, #80]
	sub x0, x29, #0x50
	sub x1, x29, #0x70
	mov v1.s[1], w8
	mov w8, #0x7999
	movk w8, #0x5a82, lsl #16
	dup v2.4s, w8
	adrp x8, PAGE(L(201_95))
	mov v1.s[2], wzr
	add v3.4s, v0.4s, v2.4s
	mov v1.s[3], wzr
	add v4.4s, v1.4s, v2.4s
	stp q3, q4, [x29, #-80]
	ldr q3, [x8, IN_PAGE(L(201_95))]
	stp q2, q3, [x29, #-48]
	movi v2.2d, #0x0
	ldr q3, [x25, IN_PAGE(L(201_96))]
	bl ring_core.digest.sha1.by_fours.run_ahead
	ldp x8, x9, [x21]
	adds x8, x8, #0x1
	adcs x9, x9, xzr
	csinv x8, x8, xzr, cc
	csinv x9, x9, xzr, cc
	stp x8, x9, [x21]
L(91_6):
	movi v0.2d, #0x0
	ldp q1, q2, [x19, #32]
	stp q1, q2, [sp, #80]
	stp q0, q0, [x29, #-80]
	stp q0, q0, [x29, #-48]
	ldrb w8, [x23, IN_PAGE(yz_instructions)]
	cbnz w8, L(91_2)
	ldur s1, [x29, #-96]
	mov w8, #0x80000000
	ldur q0, [x29, #-112]
	sub x0, x29, #0x50
	add x1, sp, #0x50
	mov v1.s[1], w8
	mov w8, #0x7999
	movk w8, #0x5a82, lsl #16
	dup v2.4s, w8
	adrp x8, PAGE(L(201_95))
	mov v1.s[2], wzr
	add v3.4s, v0.4s, v2.4s
	mov v1.s[3], wzr
	add v4.4s, v1.4s, v2.4s
	stp q3, q4, [x29, #-80]
	ldr q3, [x8, IN_PAGE(L(201_95))]
	stp q2, q3, [x29, #-48]
	movi v2.2d, #0x0
	ldr q3, [x25, IN_PAGE(L(201_96))]
	bl ring_core.digest.sha1.by_fours.run_ahead
	ldp x8, x9, [x21]
	adds x8, x8, #0x1
	adcs x9, x9, xzr
	csinv x8, x8, xzr, cc
	csinv x9, x9, xzr, cc
	stp x8, x9, [x21]
	b L(91_3)
L(91_7):
	ldr x24, [sp]
	mov w8, w9
L(91_8):
	fmov s0, w8
	fmov s1, w27
	lsr x8, x22, #32
	lsr x9, x20, #32
	movi v2.2d, #0x0
	mov v0.s[1], w22
	mov v1.s[1], w20
	stp q2, q2, [x24, #32]
	mov v0.s[2], w8
	mov v1.s[2], w9
	ldr x8, [sp, #8]
	cmp x8, #0x1
	mov v0.s[3], w26
	mov v1.s[3], w28
	rev32 v0.16b, v0.16b
	rev32 v1.16b, v1.16b
	stp q1, q0, [x24]
	b.eq L(91_9)
	cmp x8, #0x2
	stp q1, q0, [x24, #64]
	stp q2, q2, [x24, #96]
	b.eq L(91_9)
	cmp x8, #0x3
	stp q1, q0, [x24, #128]
	stp q2, q2, [x24, #160]
	b.eq L(91_9)
	cmp x8, #0x4
	stp q1, q0, [x24, #192]
	stp q2, q2, [x24, #224]
	b.eq L(91_9)
	cmp x8, #0x5
	stp q1, q0, [x24, #256]
	stp q2, q2, [x24, #288]
	b.eq L(91_9)
	cmp x8, #0x6
	stp q1, q0, [x24, #320]
	stp q2, q2, [x24, #352]
	b.eq L(91_9)
	cmp x8, #0x7
	stp q1, q0, [x24, #384]
	stp q2, q2, [x24, #416]
	b.eq L(91_9)
	stp q1, q0, [x24, #448]
	stp q2, q2, [x24, #480]
L(91_9):
	ldp x20, x19, [sp, #464]
	ldp x22, x21, [sp, #448]
	ldp x24, x23, [sp, #432]
	ldp x26, x25, [sp, #416]
	ldp x28, x27, [sp, #400]
	ldp x29, x30, [sp, #384]
	add sp, sp, #0x1e0
	ret
L(91_10):
	brk #0x1
	SIZE(ring.pbkdf2.rounds.xor_iterates.524f7a1c66a8a9c8, 984)

	CODE(ring_core.digest.sha1.by_instruction.run_words.87fcf8c0f9719b5d)
	.p2align 2
/* ring_core::digest::sha1::by_instruction::run_words::<#87fcf8c0f9719b5d> */
	TYPE(ring_core.digest.sha1.by_instruction.run_words.87fcf8c0f9719b5d, %function)
ring_core.digest.sha1.by_instruction.run_words.87fcf8c0f9719b5d:
	ldr s1, [x1, #16]
	mov w8, #0x80000000
	ldr q2, [x1]
	ldr q0, [x0]
	ldr w9, [x0]
	adrp x10, PAGE(L(201_98))
	mov v1.s[1], w8
	mov w8, #0x7999
	ldr q16, [x10, IN_PAGE(L(201_98))]
	movk w8, #0x5a82, lsl #16
	mov v6.16b, v0.16b
	dup v5.4s, w8
	ldr w8, [x0, #16]
	mov v1.s[2], wzr
	fmov s4, w8
	add v3.4s, v2.4s, v5.4s
	mov v1.s[3], wzr
	sha1c q6, s4, v3.4s
	fmov s3, w9
	adrp x9, PAGE(L(201_97))
	sha1h s3, s3
	add v4.4s, v1.4s, v5.4s
	mov v7.16b, v6.16b
	sha1c q7, s3, v4.4s
	sha1h s4, s6
	movi v3.2d, #0x0
	mov v6.16b, v7.16b
	sha1h s7, s7
	sha1su0 v2.4s, v1.4s, v3.4s
	sha1c q6, s4, v5.4s
	ldr q4, [x9, IN_PAGE(L(201_97))]
	mov w9, #0xeba1
	movk w9, #0x6ed9, lsl #16
	sha1su1 v2.4s, v4.4s
	sha1su0 v1.4s, v3.4s, v4.4s
	mov v17.16b, v6.16b
	sha1h s6, s6
	add v5.4s, v2.4s, v5.4s
	sha1su1 v1.4s, v2.4s
	sha1su0 v3.4s, v4.4s, v2.4s
	sha1c q17, s7, v16.4s
	dup v7.4s, w9
	mov w9, #0xbcdc
	sha1su1 v3.4s, v1.4s
	sha1su0 v4.4s, v2.4s, v1.4s
	movk w9, #0x8f1b, lsl #16
	mov v16.16b, v17.16b
	sha1su1 v4.4s, v3.4s
	sha1su0 v2.4s, v1.4s, v3.4s
	sha1c q16, s6, v5.4s
	sha1h s5, s17
	add v6.4s, v1.4s, v7.4s
	sha1su1 v2.4s, v4.4s
	sha1su0 v1.4s, v3.4s, v4.4s
	mov v17.16b, v16.16b
	sha1su1 v1.4s, v2.4s
	sha1p q17, s5, v6.4s
	sha1h s5, s16
	add v6.4s, v3.4s, v7.4s
	sha1su0 v3.4s, v4.4s, v2.4s
	mov v16.16b, v17.16b
	sha1su1 v3.4s, v1.4s
	sha1p q16, s5, v6.4s
	sha1h s5, s17
	add v6.4s, v4.4s, v7.4s
	sha1su0 v4.4s, v2.4s, v1.4s
	mov v17.16b, v16.16b
	sha1su1 v4.4s, v3.4s
	sha1p q17, s5, v6.4s
	sha1h s5, s16
	add v6.4s, v2.4s, v7.4s
	sha1su0 v2.4s, v1.4s, v3.4s
	mov v16.16b, v17.16b
	sha1su1 v2.4s, v4.4s
	sha1p q16, s5, v6.4s
	sha1h s5, s17
	add v6.4s, v1.4s, v7.4s
	dup v7.4s, w9
	sha1su0 v1.4s, v3.4s, v4.4s
	mov w9, #0xc1d6
	movk w9, #0xca62, lsl #16
	mov v17.16b, v16.16b
	sha1su1 v1.4s, v2.4s
	sha1p q17, s5, v6.4s
	sha1h s5, s16
	add v6.4s, v3.4s, v7.4s
	sha1su0 v3.4s, v4.4s, v2.4s
	mov v16.16b, v17.16b
	sha1su1 v3.4s, v1.4s
	sha1m q16, s5, v6.4s
	sha1h s5, s17
	add v6.4s, v4.4s, v7.4s
	sha1su0 v4.4s, v2.4s, v1.4s
	mov v17.16b, v16.16b
	sha1su1 v4.4s, v3.4s
	sha1m q17, s5, v6.4s
	sha1h s5, s16
	add v6.4s, v2.4s, v7.4s
	sha1su0 v2.4s, v1.4s, v3.4s
	mov v16.16b, v17.16b
	sha1su1 v2.4s, v4.4s
	sha1m q16, s5, v6.4s
	sha1h s5, s17
	add v6.4s, v1.4s, v7.4s
	sha1su0 v1.4s, v3.4s, v4.4s
	mov v17.16b, v16.16b
	sha1su1 v1.4s, v2.4s
	sha1m q17, s5, v6.4s
	sha1h s5, s16
	add v6.4s, v3.4s, v7.4s
	dup v7.4s, w9
	sha1su0 v3.4s, v4.4s, v2.4s
	mov v16.16b, v17.16b
	sha1su1 v3.4s, v1.4s
	sha1m q16, s5, v6.4s
	sha1h s5, s17
	add v6.4s, v4.4s, v7.4s
	sha1su0 v4.4s, v2.4s, v1.4s
	mov v17.16b, v16.16b
	sha1su1 v4.4s, v3.4s
	sha1p q17, s5, v6.4s
	sha1h s5, s16
	add v6.4s, v2.4s, v7.4s
	add v2.4s, v3.4s, v7.4s
	mov v16.16b, v17.16b
	sha1p q16, s5, v6.4s
	sha1h s5, s17
	add v6.4s, v1.4s, v7.4s
	mov v17.16b, v16.16b
	sha1h s1, s16
	sha1p q17, s5, v6.4s
	mov v3.16b, v17.16b
	sha1p q3, s1, v2.4s
	sha1h s1, s17
	add v2.4s, v4.4s, v7.4s
	mov v4.16b, v3.16b
	sha1p q4, s1, v2.4s
	sha1h s1, s3
	fmov w9, s1
	add v0.4s, v4.4s, v0.4s
	add w8, w9, w8
	str w8, [x0, #16]
	str q0, [x0]
	ldp x8, x9, [x2]
	adds x8, x8, #0x1
	adcs x9, x9, xzr
	csinv x8, x8, xzr, cc
	csinv x9, x9, xzr, cc
	stp x8, x9, [x2]
	ret
	SIZE(ring_core.digest.sha1.by_instruction.run_words.87fcf8c0f9719b5d, 600)

	CODE(ring.pbkdf2.rounds.xor_iterates.30ff0c2b65f6b8fe)
	.p2align 2
/* ring::pbkdf2::rounds::xor_iterates::<#30ff0c2b65f6b8fe> */
	TYPE(ring.pbkdf2.rounds.xor_iterates.30ff0c2b65f6b8fe, %function)
ring.pbkdf2.rounds.xor_iterates.30ff0c2b65f6b8fe:
	stp x29, x30, [sp, #-64]!
	str x28, [sp, #16]
	mov x29, sp
	stp x22, x21, [sp, #32]
	stp x20, x19, [sp, #48]
	sub sp, sp, #0x300
	movi v0.2d, #0x0
	mov x21, x0
	sub x0, x29, #0x100
	mov x20, x3
	mov x19, x2
	mov x22, x1
	stp q0, q0, [x29, #-256]
	stp q0, q0, [x29, #-224]
	stp q0, q0, [x29, #-192]
	stp q0, q0, [x29, #-160]
	bl ring.digest.lanes.algorithms.InVectorLaneStates.new.9dc9dac1e561153e
	movi v0.2d, #0x0
	sub x0, x29, #0x80
	add x1, x22, #0x240
	stp q0, q0, [x29, #-128]
	stp q0, q0, [x29, #-96]
	stp q0, q0, [x29, #-64]
	stp q0, q0, [x29, #-32]
	bl ring.digest.lanes.algorithms.InVectorLaneStates.new.9dc9dac1e561153e
	ldp q0, q1, [x29, #-192]
	sub x0, x29, #0x80
	add x1, x22, #0x480
	stp q0, q1, [sp, #448]
	ldp q0, q2, [x29, #-160]
	stp q0, q2, [sp, #480]
	ldp q1, q0, [x29, #-256]
	stp q1, q0, [sp, #384]
	ldp q2, q0, [x29, #-224]
	stp q2, q0, [sp, #416]
	ldp q2, q1, [x29, #-96]
	stp q2, q1, [sp, #288]
	ldp q1, q0, [x29, #-128]
	stp q1, q0, [sp, #256]
	ldp q2, q0, [x29, #-32]
	stp q2, q0, [sp, #352]
	ldp q1, q0, [x29, #-64]
	stp q1, q0, [sp, #320]
	movi v0.2d, #0x0
	stp q0, q0, [x29, #-128]
	stp q0, q0, [x29, #-96]
	stp q0, q0, [x29, #-64]
	stp q0, q0, [x29, #-32]
	bl ring.digest.lanes.algorithms.InVectorLaneStates.new.9dc9dac1e561153e
	ldp q0, q1, [sp, #320]
	sub x0, x29, #0x100
	sub x1, x29, #0x80
	mov x2, x20
	stp q0, q1, [x29, #-192]
	ldp q0, q2, [sp, #352]
	stp q0, q2, [x29, #-160]
	ldp q1, q0, [sp, #256]
	stp q1, q0, [x29, #-256]
	ldp q2, q0, [sp, #288]
	stp q2, q0, [x29, #-224]
	bl ring_core.digest.sha2.lanes.block_of_words_lanes_counted.302711f8c02ab38b
	ldp q16, q7, [x29, #-256]
	ldr w8, [x21, #40]
	ldp q18, q17, [x29, #-224]
	ldp q6, q21, [x29, #-192]
	cmp w8, #0x2
	ldp q20, q19, [x29, #-160]
	stp q16, q7, [sp, #128]
	stp q18, q17, [sp, #160]
	stp q6, q21, [sp, #192]
	stp q20, q19, [sp, #224]
	b.cc L(95_1)
	sub w21, w8, #0x1
L(95_0):
	ldp q0, q1, [sp, #448]
	sub x0, x29, #0x80
	add x1, sp, #0x80
	mov x2, x20
	stp q6, q21, [sp]
	stp q20, q7, [sp, #32]
	stp q0, q1, [x29, #-64]
	ldp q0, q2, [sp, #480]
	stp q19, q16, [sp, #64]
	stp q18, q17, [sp, #96]
	stp q0, q2, [x29, #-32]
	ldp q1, q0, [sp, #384]
	stp q1, q0, [x29, #-128]
	ldp q2, q0, [sp, #416]
	stp q2, q0, [x29, #-96]
	bl ring_core.digest.sha2.lanes.block_of_words_lanes_counted.302711f8c02ab38b
	ldp q0, q1, [sp, #320]
	add x0, sp, #0x80
	sub x1, x29, #0x80
	mov x2, x20
	stp q0, q1, [sp, #192]
	ldp q0, q2, [sp, #352]
	stp q0, q2, [sp, #224]
	ldp q1, q0, [sp, #256]
	stp q1, q0, [sp, #128]
	ldp q2, q0, [sp, #288]
	stp q2, q0, [sp, #160]
	bl ring_core.digest.sha2.lanes.block_of_words_lanes_counted.302711f8c02ab38b
	ldp q20, q7, [sp, #32]
	subs w21, w21, #0x1
	ldp q19, q16, [sp, #64]
	ldp q0, q1, [sp, #128]
	ldp q6, q21, [sp]
	ldp q18, q17, [sp, #96]
	ldp q2, q3, [sp, #160]
	eor v16.16b, v0.16b, v16.16b
	ldp q4, q5, [sp, #192]
	eor v7.16b, v1.16b, v7.16b
	ldp q0, q1, [sp, #224]
	eor v18.16b, v2.16b, v18.16b
	eor v17.16b, v3.16b, v17.16b
	eor v6.16b, v4.16b, v6.16b
	eor v21.16b, v5.16b, v21.16b
	eor v20.16b, v0.16b, v20.16b
	eor v19.16b, v1.16b, v19.16b
	b.ne L(95_0)
L(95_1):
	dup v1.4s, v6.s[1]
	zip1 v0.4s, v6.4s, v21.4s
	zip1 v3.4s, v16.4s, v7.4s
	trn2 v2.4s, v16.4s, v7.4s
	uzp2 v5.4s, v16.4s, v7.4s
	dup v4.4s, v6.s[2]
	dup v6.4s, v6.s[3]
	zip2 v7.4s, v16.4s, v7.4s
	mov v1.s[1], v21.s[1]
	mov v0.s[2], v20.s[0]
	mov v4.s[1], v21.s[2]
	mov v3.s[2], v18.s[0]
	mov v6.s[1], v21.s[3]
	mov v2.s[2], v18.s[1]
	uzp2 v5.4s, v5.4s, v16.4s
	mov v7.s[2], v18.s[2]
	movi v16.2d, #0x0
	mov v1.s[2], v20.s[1]
	mov v0.s[3], v19.s[0]
	mov v4.s[2], v20.s[2]
	mov v3.s[3], v17.s[0]
	mov v6.s[2], v20.s[3]
	mov v2.s[3], v17.s[1]
	mov v5.s[2], v18.s[3]
	stp q16, q16, [x19, #32]
	mov v7.s[3], v17.s[2]
	stp q16, q16, [x19, #96]
	mov v1.s[3], v19.s[1]
	stp q16, q16, [x19, #160]
	rev32 v0.16b, v0.16b
	mov v4.s[3], v19.s[2]
	stp q16, q16, [x19, #224]
	rev32 v3.16b, v3.16b
	mov v6.s[3], v19.s[3]
	rev32 v2.16b, v2.16b
	mov v5.s[3], v17.s[3]
	rev32 v7.16b, v7.16b
	rev32 v1.16b, v1.16b
	stp q3, q0, [x19]
	rev32 v0.16b, v4.16b
	rev32 v3.16b, v6.16b
	stp q2, q1, [x19, #64]
	rev32 v2.16b, v5.16b
	stp q7, q0, [x19, #128]
	stp q2, q3, [x19, #192]
	add sp, sp, #0x300
	ldp x20, x19, [sp, #48]
	ldr x28, [sp, #16]
	ldp x22, x21, [sp, #32]
	ldp x29, x30, [sp], #64
	ret
	SIZE(ring.pbkdf2.rounds.xor_iterates.30ff0c2b65f6b8fe, 680)

	CODE(ring.digest.lanes.algorithms.InVectorLaneStates.new.9dc9dac1e561153e)
	.p2align 2
/* ring::digest::lanes::algorithms::InVectorLaneStates::new::<#9dc9dac1e561153e> */
	TYPE(ring.digest.lanes.algorithms.InVectorLaneStates.new.9dc9dac1e561153e, %function)
ring.digest.lanes.algorithms.InVectorLaneStates.new.9dc9dac1e561153e:
	ldrb w8, [x1]
	cmp w8, #0x1
	b.ne L(97_0)
	ldrb w8, [x1, #72]
	cmp w8, #0x1
	b.ne L(97_0)
	ldrb w8, [x1, #144]
	cmp w8, #0x1
	b.ne L(97_0)
	ldrb w8, [x1, #216]
	cmp w8, #0x1
	b.ne L(97_0)
	ldp w9, w8, [x1, #28]
	ldp w10, w11, [x1, #100]
	fmov s0, w8
	fmov s1, w9
	ldp w8, w12, [x1, #20]
	mov v0.s[1], w11
	mov v1.s[1], w10
	ldp w9, w11, [x1, #4]
	fmov s2, w12
	fmov s3, w8
	add x8, x1, #0xb0
	ldp w10, w12, [x1, #92]
	ld1 {v0.s}[2], [x8]
	add x8, x1, #0xac
	fmov s5, w9
	ld1 {v1.s}[2], [x8]
	fmov s4, w11
	mov v2.s[1], w12
	mov v3.s[1], w10
	add x10, x1, #0xf8
	ldp w8, w12, [x1, #76]
	ldp w9, w11, [x1, #12]
	ld1 {v0.s}[3], [x10]
	mov v5.s[1], w8
	add x8, x1, #0xf4
	mov v4.s[1], w12
	ld1 {v1.s}[3], [x8]
	fmov s6, w11
	fmov s7, w9
	ldp w8, w10, [x1, #84]
	add x9, x1, #0xa8
	ld1 {v2.s}[2], [x9]
	add x9, x1, #0xa4
	mov v6.s[1], w10
	mov v7.s[1], w8
	add x8, x1, #0x94
	ld1 {v3.s}[2], [x9]
	add x9, x1, #0x98
	ld1 {v5.s}[2], [x8]
	add x8, x1, #0xa0
	ld1 {v4.s}[2], [x9]
	add x9, x1, #0x9c
	ld1 {v6.s}[2], [x8]
	add x8, x1, #0xdc
	ld1 {v7.s}[2], [x9]
	ld1 {v5.s}[3], [x8]
	add x8, x1, #0xf0
	add x9, x1, #0xe0
	ld1 {v2.s}[3], [x8]
	add x8, x1, #0xe4
	ld1 {v4.s}[3], [x9]
	ld1 {v7.s}[3], [x8]
	add x8, x1, #0xe8
	add x9, x1, #0xec
	ld1 {v3.s}[3], [x9]
	ld1 {v6.s}[3], [x8]
	stp q1, q0, [x0, #96]
	stp q5, q4, [x0]
	stp q7, q6, [x0, #32]
	stp q3, q2, [x0, #64]
	ret
L(97_0):
	brk #0x1
	SIZE(ring.digest.lanes.algorithms.InVectorLaneStates.new.9dc9dac1e561153e, 296)

	CODE(ring_core.digest.sha2.lanes.block_of_words_lanes_counted.302711f8c02ab38b)
	.p2align 2
/* ring_core::digest::sha2::lanes::block_of_words_lanes_counted::<#302711f8c02ab38b> */
	TYPE(ring_core.digest.sha2.lanes.block_of_words_lanes_counted.302711f8c02ab38b, %function)
ring_core.digest.sha2.lanes.block_of_words_lanes_counted.302711f8c02ab38b:
	sub sp, sp, #0x120
	ldp q0, q1, [x0, #64]
	mov w8, #0x2f98
	ldp q2, q3, [x0]
	movk w8, #0x428a, lsl #16
	ldp q16, q18, [x0, #96]
	mov w9, #0x3
	shl v4.4s, v0.4s, #18
	ldp q23, q17, [x1]
	shl v5.4s, v2.4s, #23
	eor v19.16b, v3.16b, v2.16b
	stp q1, q0, [sp, #96]
	ldp q24, q22, [x0, #32]
	usra v4.4s, v0.4s, #14
	str q17, [sp, #192]
	usra v5.4s, v2.4s, #9
	mov v21.16b, v19.16b
	stp d9, d8, [sp, #256]
	str q22, [sp]
	eor v4.16b, v4.16b, v0.16b
	stp q24, q18, [sp, #16]
	eor v5.16b, v5.16b, v2.16b
	bsl v21.16b, v24.16b, v3.16b
	stp d11, d10, [sp, #240]
	shl v6.4s, v4.4s, #27
	stp d13, d12, [sp, #224]
	shl v7.4s, v5.4s, #21
	stp d15, d14, [sp, #208]
	str x30, [sp, #272]
	usra v6.4s, v4.4s, #5
	mov v4.16b, v0.16b
	stp q16, q3, [sp, #48]
	usra v7.4s, v5.4s, #11
	add v5.4s, v23.4s, v18.4s
	dup v18.4s, w8
	mov w8, #0x4491
	bsl v4.16b, v1.16b, v16.16b
	eor v6.16b, v6.16b, v0.16b
	movk w8, #0x7137, lsl #16
	eor v7.16b, v7.16b, v2.16b
	str q2, [sp, #80]
	add v4.4s, v5.4s, v4.4s
	shl v5.4s, v6.4s, #26
	shl v20.4s, v7.4s, #30
	add v4.4s, v4.4s, v18.4s
	usra v5.4s, v6.4s, #6
	usra v20.4s, v7.4s, #2
	add v4.4s, v4.4s, v5.4s
	add v5.4s, v20.4s, v21.4s
	dup v21.4s, w8
	mov w8, #0xfbcf
	movk w8, #0xb5c0, lsl #16
	add v22.4s, v4.4s, v22.4s
	add v4.4s, v5.4s, v4.4s
	dup v26.4s, w8
	mov w8, #0xdba5
	movk w8, #0xe9b5, lsl #16
	shl v5.4s, v22.4s, #18
	shl v6.4s, v4.4s, #23
	eor v20.16b, v4.16b, v2.16b
	dup v28.4s, w8
	mov w8, #0xc25b
	movk w8, #0x3956, lsl #16
	usra v5.4s, v22.4s, #14
	usra v6.4s, v4.4s, #9
	and v19.16b, v20.16b, v19.16b
	dup v31.4s, w8
	mov w8, #0x11f1
	movk w8, #0x59f1, lsl #16
	eor v5.16b, v5.16b, v22.16b
	eor v6.16b, v6.16b, v4.16b
	shl v7.4s, v5.4s, #27
	shl v18.4s, v6.4s, #21
	usra v7.4s, v5.4s, #5
	mov v5.16b, v22.16b
	usra v18.4s, v6.4s, #11
	add v6.4s, v17.4s, v16.4s
	mov v17.16b, v23.16b
	bsl v5.16b, v0.16b, v1.16b
	eor v7.16b, v7.16b, v22.16b
	eor v18.16b, v18.16b, v4.16b
	shl v23.4s, v18.4s, #30
	add v5.4s, v6.4s, v5.4s
	shl v6.4s, v7.4s, #26
	usra v23.4s, v18.4s, #2
	add v5.4s, v5.4s, v21.4s
	usra v6.4s, v7.4s, #6
	eor v7.16b, v19.16b, v2.16b
	ldp q18, q19, [x1, #32]
	add v5.4s, v5.4s, v6.4s
	add v6.4s, v23.4s, v7.4s
	add v23.4s, v5.4s, v24.4s
	add v7.4s, v6.4s, v5.4s
	shl v5.4s, v23.4s, #18
	shl v6.4s, v7.4s, #23
	eor v25.16b, v7.16b, v4.16b
	usra v5.4s, v23.4s, #14
	usra v6.4s, v7.4s, #9
	and v20.16b, v25.16b, v20.16b
	eor v5.16b, v5.16b, v23.16b
	eor v6.16b, v6.16b, v7.16b
	eor v20.16b, v20.16b, v4.16b
	shl v21.4s, v5.4s, #27
	shl v24.4s, v6.4s, #21
	usra v21.4s, v5.4s, #5
	mov v5.16b, v23.16b
	usra v24.4s, v6.4s, #11
	add v6.4s, v18.4s, v1.4s
	bsl v5.16b, v22.16b, v0.16b
	eor v21.16b, v21.16b, v23.16b
	eor v24.16b, v24.16b, v7.16b
	shl v27.4s, v24.4s, #30
	add v5.4s, v6.4s, v5.4s
	shl v6.4s, v21.4s, #26
	usra v27.4s, v24.4s, #2
	add v5.4s, v5.4s, v26.4s
	usra v6.4s, v21.4s, #6
	add v5.4s, v5.4s, v6.4s
	add v6.4s, v27.4s, v20.4s
	add v26.4s, v5.4s, v3.4s
	add v5.4s, v6.4s, v5.4s
	shl v6.4s, v26.4s, #18
	shl v20.4s, v5.4s, #23
	eor v27.16b, v5.16b, v7.16b
	usra v6.4s, v26.4s, #14
	usra v20.4s, v5.4s, #9
	and v25.16b, v27.16b, v25.16b
	eor v6.16b, v6.16b, v26.16b
	eor v20.16b, v20.16b, v5.16b
	shl v21.4s, v6.4s, #27
	shl v24.4s, v20.4s, #21
	usra v21.4s, v6.4s, #5
	mov v6.16b, v26.16b
	usra v24.4s, v20.4s, #11
	add v20.4s, v19.4s, v0.4s
	bsl v6.16b, v23.16b, v22.16b
	eor v21.16b, v21.16b, v26.16b
	eor v24.16b, v24.16b, v5.16b
	shl v29.4s, v24.4s, #30
	add v6.4s, v20.4s, v6.4s
	shl v20.4s, v21.4s, #26
	usra v29.4s, v24.4s, #2
	add v6.4s, v6.4s, v28.4s
	usra v20.4s, v21.4s, #6
	eor v21.16b, v25.16b, v7.16b
	add v6.4s, v6.4s, v20.4s
	add v20.4s, v29.4s, v21.4s
	add v29.4s, v6.4s, v2.4s
	add v24.4s, v20.4s, v6.4s
	shl v6.4s, v29.4s, #18
	shl v20.4s, v24.4s, #23
	eor v30.16b, v24.16b, v5.16b
	usra v6.4s, v29.4s, #14
	usra v20.4s, v24.4s, #9
	and v27.16b, v30.16b, v27.16b
	eor v6.16b, v6.16b, v29.16b
	eor v21.16b, v20.16b, v24.16b
	ldp q20, q0, [x1, #64]
	shl v25.4s, v6.4s, #27
	shl v28.4s, v21.4s, #21
	add v22.4s, v20.4s, v22.4s
	str q0, [sp, #176]
	usra v25.4s, v6.4s, #5
	mov v6.16b, v29.16b
	usra v28.4s, v21.4s, #11
	bsl v6.16b, v26.16b, v23.16b
	eor v25.16b, v25.16b, v29.16b
	eor v28.16b, v28.16b, v24.16b
	shl v8.4s, v28.4s, #30
	add v6.4s, v22.4s, v6.4s
	shl v22.4s, v25.4s, #26
	usra v8.4s, v28.4s, #2
	add v6.4s, v6.4s, v31.4s
	usra v22.4s, v25.4s, #6
	eor v25.16b, v27.16b, v5.16b
	add v6.4s, v6.4s, v22.4s
	add v22.4s, v8.4s, v25.4s
	add v28.4s, v6.4s, v4.4s
	add v25.4s, v22.4s, v6.4s
	shl v4.4s, v28.4s, #18
	shl v6.4s, v25.4s, #23
	eor v31.16b, v25.16b, v24.16b
	usra v4.4s, v28.4s, #14
	usra v6.4s, v25.4s, #9
	and v30.16b, v31.16b, v30.16b
	eor v4.16b, v4.16b, v28.16b
	eor v6.16b, v6.16b, v25.16b
	shl v22.4s, v4.4s, #27
	shl v27.4s, v6.4s, #21
	usra v22.4s, v4.4s, #5
	mov v4.16b, v28.16b
	usra v27.4s, v6.4s, #11
	add v6.4s, v0.4s, v23.4s
	ldp q0, q1, [x1, #96]
	bsl v4.16b, v29.16b, v26.16b
	eor v22.16b, v22.16b, v28.16b
	eor v23.16b, v27.16b, v25.16b
	dup v27.4s, w8
	mov w8, #0x82a4
	stp q1, q0, [sp, #144]
	movk w8, #0x923f, lsl #16
	shl v8.4s, v23.4s, #30
	add v4.4s, v6.4s, v4.4s
	shl v6.4s, v22.4s, #26
	usra v8.4s, v23.4s, #2
	add v4.4s, v4.4s, v27.4s
	usra v6.4s, v22.4s, #6
	eor v22.16b, v30.16b, v24.16b
	add v4.4s, v4.4s, v6.4s
	add v6.4s, v8.4s, v22.4s
	movi v22.4s, #0x3, lsl #8
	add v27.4s, v4.4s, v7.4s
	add v4.4s, v6.4s, v4.4s
	shl v6.4s, v27.4s, #18
	shl v7.4s, v4.4s, #23
	eor v9.16b, v4.16b, v25.16b
	usra v6.4s, v27.4s, #14
	usra v7.4s, v4.4s, #9
	and v31.16b, v9.16b, v31.16b
	eor v6.16b, v6.16b, v27.16b
	eor v7.16b, v7.16b, v4.16b
	shl v30.4s, v6.4s, #27
	shl v8.4s, v7.4s, #21
	usra v30.4s, v6.4s, #5
	mov v6.16b, v27.16b
	usra v8.4s, v7.4s, #11
	add v7.4s, v0.4s, v26.4s
	bsl v6.16b, v28.16b, v29.16b
	eor v26.16b, v30.16b, v27.16b
	eor v30.16b, v8.16b, v4.16b
	dup v8.4s, w8
	mov w8, #0x5ed5
	movk w8, #0xab1c, lsl #16
	shl v10.4s, v30.4s, #30
	add v6.4s, v7.4s, v6.4s
	shl v7.4s, v26.4s, #26
	usra v10.4s, v30.4s, #2
	add v6.4s, v6.4s, v8.4s
	usra v7.4s, v26.4s, #6
	eor v26.16b, v31.16b, v25.16b
	add v6.4s, v6.4s, v7.4s
	add v7.4s, v10.4s, v26.4s
	add v30.4s, v6.4s, v5.4s
	add v26.4s, v7.4s, v6.4s
	shl v5.4s, v30.4s, #18
	shl v6.4s, v26.4s, #23
	eor v8.16b, v26.16b, v4.16b
	usra v5.4s, v30.4s, #14
	usra v6.4s, v26.4s, #9
	and v9.16b, v8.16b, v9.16b
	eor v5.16b, v5.16b, v30.16b
	eor v6.16b, v6.16b, v26.16b
	shl v7.4s, v5.4s, #27
	shl v31.4s, v6.4s, #21
	usra v7.4s, v5.4s, #5
	mov v5.16b, v30.16b
	usra v31.4s, v6.4s, #11
	add v6.4s, v1.4s, v29.4s
	bsl v5.16b, v27.16b, v28.16b
	eor v7.16b, v7.16b, v30.16b
	eor v29.16b, v31.16b, v26.16b
	dup v31.4s, w8
	mov w8, #0xaa98
	movk w8, #0x5807, lsl #16
	shl v10.4s, v29.4s, #30
	add v5.4s, v6.4s, v5.4s
	shl v6.4s, v7.4s, #26
	usra v10.4s, v29.4s, #2
	add v5.4s, v5.4s, v31.4s
	usra v6.4s, v7.4s, #6
	eor v7.16b, v9.16b, v4.16b
	dup v9.4s, w8
	mov w8, #0x5b01
	movk w8, #0x1283, lsl #16
	add v5.4s, v5.4s, v6.4s
	add v6.4s, v10.4s, v7.4s
	add v29.4s, v5.4s, v24.4s
	add v5.4s, v6.4s, v5.4s
	shl v6.4s, v29.4s, #18
	shl v7.4s, v5.4s, #23
	usra v6.4s, v29.4s, #14
	usra v7.4s, v5.4s, #9
	eor v6.16b, v6.16b, v29.16b
	eor v7.16b, v7.16b, v5.16b
	shl v24.4s, v6.4s, #27
	shl v31.4s, v7.4s, #21
	usra v24.4s, v6.4s, #5
	mov v6.16b, v29.16b
	usra v31.4s, v7.4s, #11
	bsl v6.16b, v30.16b, v27.16b
	eor v7.16b, v24.16b, v29.16b
	eor v24.16b, v5.16b, v26.16b
	eor v31.16b, v31.16b, v5.16b
	and v8.16b, v24.16b, v8.16b
	add v6.4s, v28.4s, v6.4s
	shl v28.4s, v7.4s, #26
	shl v10.4s, v31.4s, #30
	add v6.4s, v6.4s, v9.4s
	usra v28.4s, v7.4s, #6
	eor v7.16b, v8.16b, v26.16b
	usra v10.4s, v31.4s, #2
	dup v9.4s, w8
	mov w8, #0x85be
	movk w8, #0x2431, lsl #16
	add v6.4s, v6.4s, v28.4s
	add v7.4s, v10.4s, v7.4s
	add v28.4s, v6.4s, v25.4s
	add v7.4s, v7.4s, v6.4s
	shl v6.4s, v28.4s, #18
	shl v25.4s, v7.4s, #23
	usra v6.4s, v28.4s, #14
	usra v25.4s, v7.4s, #9
	eor v6.16b, v6.16b, v28.16b
	eor v25.16b, v25.16b, v7.16b
	shl v31.4s, v6.4s, #27
	shl v8.4s, v25.4s, #21
	usra v31.4s, v6.4s, #5
	mov v6.16b, v28.16b
	usra v8.4s, v25.4s, #11
	bsl v6.16b, v29.16b, v30.16b
	eor v25.16b, v31.16b, v28.16b
	eor v31.16b, v7.16b, v5.16b
	eor v8.16b, v8.16b, v7.16b
	and v24.16b, v31.16b, v24.16b
	add v6.4s, v27.4s, v6.4s
	shl v27.4s, v25.4s, #26
	shl v10.4s, v8.4s, #30
	eor v24.16b, v24.16b, v5.16b
	add v6.4s, v6.4s, v9.4s
	usra v27.4s, v25.4s, #6
	usra v10.4s, v8.4s, #2
	add v6.4s, v6.4s, v27.4s
	add v24.4s, v10.4s, v24.4s
	add v27.4s, v6.4s, v4.4s
	add v24.4s, v24.4s, v6.4s
	shl v4.4s, v27.4s, #18
	shl v6.4s, v24.4s, #23
	eor v9.16b, v24.16b, v7.16b
	usra v4.4s, v27.4s, #14
	usra v6.4s, v24.4s, #9
	and v31.16b, v9.16b, v31.16b
	eor v4.16b, v4.16b, v27.16b
	eor v6.16b, v6.16b, v24.16b
	shl v25.4s, v4.4s, #27
	shl v8.4s, v6.4s, #21
	usra v25.4s, v4.4s, #5
	mov v4.16b, v27.16b
	usra v8.4s, v6.4s, #11
	bsl v4.16b, v28.16b, v29.16b
	eor v6.16b, v25.16b, v27.16b
	eor v25.16b, v8.16b, v24.16b
	dup v8.4s, w8
	mov w8, #0x7dc3
	movk w8, #0x550c, lsl #16
	shl v10.4s, v25.4s, #30
	add v4.4s, v30.4s, v4.4s
	shl v30.4s, v6.4s, #26
	usra v10.4s, v25.4s, #2
	add v4.4s, v4.4s, v8.4s
	usra v30.4s, v6.4s, #6
	eor v6.16b, v31.16b, v7.16b
	dup v8.4s, w8
	mov w8, #0x5d74
	movk w8, #0x72be, lsl #16
	add v4.4s, v4.4s, v30.4s
	add v6.4s, v10.4s, v6.4s
	add v26.4s, v4.4s, v26.4s
	add v25.4s, v6.4s, v4.4s
	shl v4.4s, v26.4s, #18
	shl v6.4s, v25.4s, #23
	usra v4.4s, v26.4s, #14
	usra v6.4s, v25.4s, #9
	eor v4.16b, v4.16b, v26.16b
	eor v6.16b, v6.16b, v25.16b
	shl v30.4s, v4.4s, #27
	shl v31.4s, v6.4s, #21
	usra v30.4s, v4.4s, #5
	mov v4.16b, v26.16b
	usra v31.4s, v6.4s, #11
	bsl v4.16b, v27.16b, v28.16b
	eor v6.16b, v30.16b, v26.16b
	eor v30.16b, v25.16b, v24.16b
	eor v31.16b, v31.16b, v25.16b
	and v9.16b, v30.16b, v9.16b
	add v4.4s, v29.4s, v4.4s
	shl v29.4s, v6.4s, #26
	shl v10.4s, v31.4s, #30
	add v4.4s, v4.4s, v8.4s
	usra v29.4s, v6.4s, #6
	eor v6.16b, v9.16b, v24.16b
	usra v10.4s, v31.4s, #2
	dup v9.4s, w8
	mov w8, #0xb1fe
	movk w8, #0x80de, lsl #16
	add v4.4s, v4.4s, v29.4s
	add v6.4s, v10.4s, v6.4s
	add v5.4s, v4.4s, v5.4s
	add v4.4s, v6.4s, v4.4s
	shl v6.4s, v5.4s, #18
	shl v29.4s, v4.4s, #23
	usra v6.4s, v5.4s, #14
	usra v29.4s, v4.4s, #9
	eor v6.16b, v6.16b, v5.16b
	eor v29.16b, v29.16b, v4.16b
	shl v31.4s, v6.4s, #27
	shl v8.4s, v29.4s, #21
	usra v31.4s, v6.4s, #5
	mov v6.16b, v5.16b
	usra v8.4s, v29.4s, #11
	bsl v6.16b, v26.16b, v27.16b
	eor v29.16b, v31.16b, v5.16b
	eor v31.16b, v4.16b, v25.16b
	eor v8.16b, v8.16b, v4.16b
	and v30.16b, v31.16b, v30.16b
	add v6.4s, v28.4s, v6.4s
	shl v28.4s, v29.4s, #26
	shl v10.4s, v8.4s, #30
	add v6.4s, v6.4s, v9.4s
	usra v28.4s, v29.4s, #6
	eor v29.16b, v30.16b, v25.16b
	usra v10.4s, v8.4s, #2
	dup v30.4s, w8
	mov w8, #0x6a7
	movk w8, #0x9bdc, lsl #16
	add v6.4s, v6.4s, v28.4s
	add v28.4s, v10.4s, v29.4s
	add v9.4s, v6.4s, v7.4s
	add v8.4s, v28.4s, v6.4s
	shl v6.4s, v9.4s, #18
	shl v7.4s, v8.4s, #23
	usra v6.4s, v9.4s, #14
	usra v7.4s, v8.4s, #9
	eor v6.16b, v6.16b, v9.16b
	eor v7.16b, v7.16b, v8.16b
	shl v28.4s, v6.4s, #27
	shl v29.4s, v7.4s, #21
	usra v28.4s, v6.4s, #5
	mov v6.16b, v9.16b
	usra v29.4s, v7.4s, #11
	bsl v6.16b, v5.16b, v26.16b
	eor v7.16b, v28.16b, v9.16b
	eor v28.16b, v8.16b, v4.16b
	eor v29.16b, v29.16b, v8.16b
	and v31.16b, v28.16b, v31.16b
	add v6.4s, v27.4s, v6.4s
	shl v27.4s, v7.4s, #26
	shl v10.4s, v29.4s, #30
	add v6.4s, v6.4s, v30.4s
	usra v27.4s, v7.4s, #6
	eor v7.16b, v31.16b, v4.16b
	usra v10.4s, v29.4s, #2
	dup v29.4s, w8
	mov w8, #0xf474
	movk w8, #0xc19b, lsl #16
	movi v31.2d, #0x0
	add v6.4s, v6.4s, v27.4s
	add v7.4s, v10.4s, v7.4s
	add v11.4s, v6.4s, v24.4s
	add v10.4s, v7.4s, v6.4s
	shl v6.4s, v11.4s, #18
	shl v7.4s, v10.4s, #23
	usra v6.4s, v11.4s, #14
	usra v7.4s, v10.4s, #9
	eor v6.16b, v6.16b, v11.16b
	eor v7.16b, v7.16b, v10.16b
	shl v24.4s, v6.4s, #27
	shl v27.4s, v7.4s, #21
	usra v24.4s, v6.4s, #5
	mov v6.16b, v11.16b
	usra v27.4s, v7.4s, #11
	bsl v6.16b, v9.16b, v5.16b
	eor v7.16b, v24.16b, v11.16b
	eor v24.16b, v10.16b, v8.16b
	eor v27.16b, v27.16b, v10.16b
	and v28.16b, v24.16b, v28.16b
	add v6.4s, v26.4s, v6.4s
	shl v26.4s, v7.4s, #26
	shl v30.4s, v27.4s, #30
	add v6.4s, v6.4s, v29.4s
	usra v26.4s, v7.4s, #6
	eor v7.16b, v28.16b, v8.16b
	usra v30.4s, v27.4s, #2
	movi v28.2d, #0x0
	movi v29.2d, #0x0
	add v6.4s, v6.4s, v26.4s
	add v7.4s, v30.4s, v7.4s
	movi v30.2d, #0x0
	add v13.4s, v6.4s, v25.4s
	add v12.4s, v7.4s, v6.4s
	shl v6.4s, v13.4s, #18
	shl v7.4s, v12.4s, #23
	bsl v24.16b, v12.16b, v10.16b
	usra v6.4s, v13.4s, #14
	usra v7.4s, v12.4s, #9
	eor v6.16b, v6.16b, v13.16b
	eor v7.16b, v7.16b, v12.16b
	shl v25.4s, v6.4s, #27
	shl v26.4s, v7.4s, #21
	usra v25.4s, v6.4s, #5
	mov v6.16b, v13.16b
	usra v26.4s, v7.4s, #11
	bsl v6.16b, v11.16b, v9.16b
	eor v7.16b, v25.16b, v13.16b
	eor v25.16b, v26.16b, v12.16b
	dup v26.4s, w8
	adrp x8, PAGE(L(208_1))
	add x8, x8, IN_PAGE(L(208_1))
	add v5.4s, v5.4s, v6.4s
	shl v6.4s, v7.4s, #26
	shl v27.4s, v25.4s, #30
	add v5.4s, v5.4s, v26.4s
	usra v6.4s, v7.4s, #6
	usra v27.4s, v25.4s, #2
	movi v25.4s, #0x80, lsl #24
	movi v26.2d, #0x0
	add v5.4s, v5.4s, v6.4s
	add v6.4s, v27.4s, v24.4s
	movi v27.2d, #0x0
	add v14.4s, v6.4s, v5.4s
	add v15.4s, v5.4s, v4.4s
L(98_0):
	ldr q16, [sp, #192]
	shl v5.4s, v15.4s, #18
	shl v6.4s, v28.4s, #30
	shl v7.4s, v14.4s, #23
	add v17.4s, v26.4s, v17.4s
	sub x10, x8, #0x3c
	shl v4.4s, v16.4s, #21
	ushr v0.4s, v16.4s, #3
	subs x9, x9, #0x1
	usra v5.4s, v15.4s, #14
	usra v6.4s, v28.4s, #2
	usra v7.4s, v14.4s, #9
	usra v4.4s, v16.4s, #11
	eor v5.16b, v5.16b, v15.16b
	eor v6.16b, v6.16b, v28.16b
	eor v7.16b, v7.16b, v14.16b
	eor v4.16b, v4.16b, v16.16b
	shl v3.4s, v5.4s, #27
	shl v2.4s, v6.4s, #15
	shl v1.4s, v4.4s, #25
	usra v3.4s, v5.4s, #5
	ushr v5.4s, v28.4s, #10
	usra v2.4s, v6.4s, #17
	usra v1.4s, v4.4s, #7
	shl v4.4s, v7.4s, #21
	eor v2.16b, v2.16b, v5.16b
	eor v0.16b, v1.16b, v0.16b
	eor v1.16b, v3.16b, v15.16b
	mov v3.16b, v15.16b
	usra v4.4s, v7.4s, #11
	ld1r {v7.4s}, [x10]
	sub x10, x8, #0x38
	bsl v3.16b, v13.16b, v11.16b
	add v0.4s, v17.4s, v0.4s
	shl v5.4s, v1.4s, #26
	eor v6.16b, v4.16b, v14.16b
	eor v4.16b, v12.16b, v14.16b
	add v21.4s, v0.4s, v2.4s
	usra v5.4s, v1.4s, #6
	add v3.4s, v3.4s, v9.4s
	mov v1.16b, v4.16b
	shl v0.4s, v6.4s, #30
	ushr v9.4s, v18.4s, #3
	add v2.4s, v3.4s, v5.4s
	add v3.4s, v21.4s, v7.4s
	bsl v1.16b, v10.16b, v12.16b
	usra v0.4s, v6.4s, #2
	shl v6.4s, v18.4s, #21
	add v2.4s, v2.4s, v3.4s
	add v0.4s, v0.4s, v1.4s
	shl v1.4s, v22.4s, #30
	usra v6.4s, v18.4s, #11
	add v7.4s, v2.4s, v8.4s
	add v5.4s, v0.4s, v2.4s
	usra v1.4s, v22.4s, #2
	eor v0.16b, v6.16b, v18.16b
	add v18.4s, v29.4s, v18.4s
	shl v2.4s, v7.4s, #18
	shl v3.4s, v5.4s, #23
	eor v1.16b, v1.16b, v22.16b
	shl v6.4s, v0.4s, #25
	usra v2.4s, v7.4s, #14
	usra v3.4s, v5.4s, #9
	shl v8.4s, v1.4s, #15
	usra v6.4s, v0.4s, #7
	eor v0.16b, v2.16b, v7.16b
	eor v2.16b, v3.16b, v5.16b
	ushr v3.4s, v22.4s, #10
	usra v8.4s, v1.4s, #17
	add v1.4s, v27.4s, v16.4s
	eor v6.16b, v6.16b, v9.16b
	shl v9.4s, v0.4s, #27
	eor v3.16b, v8.16b, v3.16b
	shl v16.4s, v2.4s, #21
	ld1r {v8.4s}, [x10]
	add v1.4s, v1.4s, v6.4s
	sub x10, x8, #0x34
	usra v9.4s, v0.4s, #5
	usra v16.4s, v2.4s, #11
	add v0.4s, v11.4s, v8.4s
	eor v8.16b, v5.16b, v14.16b
	add v17.4s, v1.4s, v3.4s
	mov v3.16b, v7.16b
	eor v1.16b, v9.16b, v7.16b
	eor v2.16b, v16.16b, v5.16b
	and v4.16b, v8.16b, v4.16b
	bsl v3.16b, v15.16b, v13.16b
	add v0.4s, v17.4s, v0.4s
	str q17, [sp, #192]
	shl v6.4s, v1.4s, #26
	shl v16.4s, v2.4s, #30
	add v0.4s, v0.4s, v3.4s
	usra v6.4s, v1.4s, #6
	eor v1.16b, v4.16b, v14.16b
	usra v16.4s, v2.4s, #2
	shl v2.4s, v19.4s, #21
	shl v3.4s, v21.4s, #30
	add v0.4s, v0.4s, v6.4s
	add v1.4s, v16.4s, v1.4s
	usra v2.4s, v19.4s, #11
	usra v3.4s, v21.4s, #2
	ushr v16.4s, v19.4s, #3
	add v4.4s, v0.4s, v10.4s
	add v11.4s, v1.4s, v0.4s
	eor v0.16b, v2.16b, v19.16b
	eor v3.16b, v3.16b, v21.16b
	add v19.4s, v30.4s, v19.4s
	shl v1.4s, v4.4s, #18
	shl v6.4s, v0.4s, #25
	shl v2.4s, v11.4s, #23
	usra v1.4s, v4.4s, #14
	usra v6.4s, v0.4s, #7
	shl v0.4s, v3.4s, #15
	usra v2.4s, v11.4s, #9
	eor v1.16b, v1.16b, v4.16b
	eor v6.16b, v6.16b, v16.16b
	ushr v16.4s, v21.4s, #10
	usra v0.4s, v3.4s, #17
	eor v2.16b, v2.16b, v11.16b
	shl v3.4s, v1.4s, #27
	add v6.4s, v18.4s, v6.4s
	eor v0.16b, v0.16b, v16.16b
	ld1r {v18.4s}, [x10]
	shl v9.4s, v2.4s, #21
	sub x10, x8, #0x30
	usra v3.4s, v1.4s, #5
	add v24.4s, v6.4s, v0.4s
	add v1.4s, v13.4s, v18.4s
	eor v6.16b, v11.16b, v5.16b
	usra v9.4s, v2.4s, #11
	ldr q18, [sp, #176]
	eor v0.16b, v3.16b, v4.16b
	mov v3.16b, v4.16b
	add v1.4s, v24.4s, v1.4s
	and v8.16b, v6.16b, v8.16b
	str q24, [sp, #128]
	eor v2.16b, v9.16b, v11.16b
	bsl v3.16b, v7.16b, v15.16b
	shl v16.4s, v0.4s, #26
	shl v9.4s, v2.4s, #30
	usra v16.4s, v0.4s, #6
	eor v0.16b, v8.16b, v5.16b
	ushr v8.4s, v20.4s, #3
	add v1.4s, v1.4s, v3.4s
	shl v3.4s, v17.4s, #30
	usra v9.4s, v2.4s, #2
	shl v2.4s, v20.4s, #21
	add v1.4s, v1.4s, v16.4s
	usra v3.4s, v17.4s, #2
	add v0.4s, v9.4s, v0.4s
	usra v2.4s, v20.4s, #11
	add v13.4s, v1.4s, v12.4s
	eor v3.16b, v3.16b, v17.16b
	add v9.4s, v0.4s, v1.4s
	eor v0.16b, v2.16b, v20.16b
	add v20.4s, v31.4s, v20.4s
	shl v1.4s, v13.4s, #18
	shl v16.4s, v0.4s, #25
	shl v2.4s, v9.4s, #23
	eor v10.16b, v9.16b, v11.16b
	usra v1.4s, v13.4s, #14
	usra v16.4s, v0.4s, #7
	shl v0.4s, v3.4s, #15
	usra v2.4s, v9.4s, #9
	and v6.16b, v10.16b, v6.16b
	eor v1.16b, v1.16b, v13.16b
	eor v16.16b, v16.16b, v8.16b
	ushr v8.4s, v17.4s, #10
	usra v0.4s, v3.4s, #17
	eor v2.16b, v2.16b, v9.16b
	shl v3.4s, v1.4s, #27
	add v16.4s, v19.4s, v16.4s
	eor v0.16b, v0.16b, v8.16b
	ld1r {v19.4s}, [x10]
	shl v12.4s, v2.4s, #21
	sub x10, x8, #0x2c
	usra v3.4s, v1.4s, #5
	add v23.4s, v16.4s, v0.4s
	add v1.4s, v15.4s, v19.4s
	ldr q19, [sp, #160]
	usra v12.4s, v2.4s, #11
	eor v0.16b, v3.16b, v13.16b
	mov v3.16b, v13.16b
	add v1.4s, v23.4s, v1.4s
	eor v2.16b, v12.16b, v9.16b
	bsl v3.16b, v4.16b, v7.16b
	shl v16.4s, v0.4s, #26
	shl v8.4s, v2.4s, #30
	usra v16.4s, v0.4s, #6
	eor v0.16b, v6.16b, v11.16b
	add v1.4s, v1.4s, v3.4s
	shl v3.4s, v24.4s, #30
	usra v8.4s, v2.4s, #2
	shl v2.4s, v18.4s, #21
	add v1.4s, v1.4s, v16.4s
	usra v3.4s, v24.4s, #2
	ushr v16.4s, v18.4s, #3
	add v0.4s, v8.4s, v0.4s
	usra v2.4s, v18.4s, #11
	add v12.4s, v1.4s, v14.4s
	eor v3.16b, v3.16b, v24.16b
	add v8.4s, v0.4s, v1.4s
	eor v0.16b, v2.16b, v18.16b
	shl v1.4s, v12.4s, #18
	shl v2.4s, v8.4s, #23
	shl v6.4s, v0.4s, #25
	usra v1.4s, v12.4s, #14
	usra v2.4s, v8.4s, #9
	usra v6.4s, v0.4s, #7
	shl v0.4s, v3.4s, #15
	eor v1.16b, v1.16b, v12.16b
	eor v2.16b, v2.16b, v8.16b
	eor v6.16b, v6.16b, v16.16b
	ushr v16.4s, v24.4s, #10
	usra v0.4s, v3.4s, #17
	shl v3.4s, v1.4s, #27
	shl v14.4s, v2.4s, #21
	add v6.4s, v20.4s, v6.4s
	ld1r {v20.4s}, [x10]
	eor v0.16b, v0.16b, v16.16b
	sub x10, x8, #0x28
	usra v3.4s, v1.4s, #5
	usra v14.4s, v2.4s, #11
	add v1.4s, v7.4s, v20.4s
	ldr q20, [sp, #144]
	add v24.4s, v6.4s, v0.4s
	eor v6.16b, v8.16b, v9.16b
	eor v0.16b, v3.16b, v12.16b
	mov v3.16b, v12.16b
	eor v2.16b, v14.16b, v8.16b
	add v1.4s, v24.4s, v1.4s
	and v16.16b, v6.16b, v10.16b
	bsl v3.16b, v13.16b, v4.16b
	shl v7.4s, v0.4s, #26
	shl v10.4s, v2.4s, #30
	usra v7.4s, v0.4s, #6
	eor v0.16b, v16.16b, v9.16b
	add v16.4s, v18.4s, v28.4s
	add v1.4s, v1.4s, v3.4s
	usra v10.4s, v2.4s, #2
	shl v2.4s, v19.4s, #21
	shl v3.4s, v23.4s, #30
	add v1.4s, v1.4s, v7.4s
	add v0.4s, v10.4s, v0.4s
	usra v2.4s, v19.4s, #11
	usra v3.4s, v23.4s, #2
	ushr v7.4s, v19.4s, #3
	add v14.4s, v1.4s, v5.4s
	add v10.4s, v0.4s, v1.4s
	eor v0.16b, v2.16b, v19.16b
	eor v3.16b, v3.16b, v23.16b
	shl v1.4s, v14.4s, #18
	shl v2.4s, v10.4s, #23
	shl v5.4s, v0.4s, #25
	usra v1.4s, v14.4s, #14
	usra v2.4s, v10.4s, #9
	usra v5.4s, v0.4s, #7
	shl v0.4s, v3.4s, #15
	eor v1.16b, v1.16b, v14.16b
	eor v2.16b, v2.16b, v10.16b
	eor v5.16b, v5.16b, v7.16b
	usra v0.4s, v3.4s, #17
	ushr v7.4s, v23.4s, #10
	shl v3.4s, v1.4s, #27
	shl v15.4s, v2.4s, #21
	add v5.4s, v16.4s, v5.4s
	ld1r {v16.4s}, [x10]
	eor v0.16b, v0.16b, v7.16b
	sub x10, x8, #0x24
	usra v3.4s, v1.4s, #5
	usra v15.4s, v2.4s, #11
	add v18.4s, v5.4s, v0.4s
	add v0.4s, v16.4s, v4.4s
	eor v4.16b, v10.16b, v8.16b
	shl v16.4s, v20.4s, #21
	eor v1.16b, v3.16b, v14.16b
	mov v3.16b, v14.16b
	eor v2.16b, v15.16b, v10.16b
	add v0.4s, v0.4s, v18.4s
	and v6.16b, v4.16b, v6.16b
	str q18, [sp, #176]
	usra v16.4s, v20.4s, #11
	bsl v3.16b, v12.16b, v13.16b
	shl v5.4s, v1.4s, #26
	shl v7.4s, v2.4s, #30
	usra v5.4s, v1.4s, #6
	eor v1.16b, v6.16b, v8.16b
	usra v7.4s, v2.4s, #2
	add v0.4s, v0.4s, v3.4s
	shl v2.4s, v24.4s, #30
	eor v3.16b, v16.16b, v20.16b
	ushr v6.4s, v20.4s, #3
	add v1.4s, v7.4s, v1.4s
	add v7.4s, v19.4s, v22.4s
	add v0.4s, v0.4s, v5.4s
	usra v2.4s, v24.4s, #2
	add v15.4s, v0.4s, v11.4s
	add v11.4s, v1.4s, v0.4s
	shl v0.4s, v3.4s, #25
	eor v1.16b, v2.16b, v24.16b
	shl v2.4s, v15.4s, #18
	shl v5.4s, v11.4s, #23
	usra v0.4s, v3.4s, #7
	shl v3.4s, v1.4s, #15
	usra v2.4s, v15.4s, #14
	usra v5.4s, v11.4s, #9
	eor v0.16b, v0.16b, v6.16b
	usra v3.4s, v1.4s, #17
	ushr v6.4s, v24.4s, #10
	eor v1.16b, v2.16b, v15.16b
	eor v2.16b, v5.16b, v11.16b
	add v0.4s, v7.4s, v0.4s
	eor v3.16b, v3.16b, v6.16b
	ld1r {v7.4s}, [x10]
	sub x10, x8, #0x20
	shl v5.4s, v1.4s, #27
	shl v6.4s, v2.4s, #21
	add v19.4s, v0.4s, v3.4s
	shl v3.4s, v25.4s, #21
	usra v5.4s, v1.4s, #5
	usra v6.4s, v2.4s, #11
	add v0.4s, v19.4s, v7.4s
	eor v7.16b, v11.16b, v10.16b
	usra v3.4s, v25.4s, #11
	str q19, [sp, #160]
	eor v1.16b, v5.16b, v15.16b
	mov v5.16b, v15.16b
	eor v2.16b, v6.16b, v11.16b
	add v0.4s, v0.4s, v13.4s
	and v4.16b, v7.16b, v4.16b
	bsl v5.16b, v14.16b, v12.16b
	shl v6.4s, v1.4s, #26
	shl v16.4s, v2.4s, #30
	usra v6.4s, v1.4s, #6
	eor v1.16b, v4.16b, v10.16b
	usra v16.4s, v2.4s, #2
	add v0.4s, v0.4s, v5.4s
	eor v2.16b, v3.16b, v25.16b
	shl v3.4s, v18.4s, #30
	add v1.4s, v16.4s, v1.4s
	ld1r {v16.4s}, [x10]
	sub x10, x8, #0x1c
	add v0.4s, v0.4s, v6.4s
	shl v4.4s, v2.4s, #25
	usra v3.4s, v18.4s, #2
	ushr v6.4s, v18.4s, #10
	add v13.4s, v0.4s, v9.4s
	add v5.4s, v1.4s, v0.4s
	ushr v0.4s, v25.4s, #3
	usra v4.4s, v2.4s, #7
	eor v1.16b, v3.16b, v18.16b
	shl v2.4s, v13.4s, #18
	shl v3.4s, v5.4s, #23
	eor v0.16b, v4.16b, v0.16b
	shl v4.4s, v1.4s, #15
	usra v2.4s, v13.4s, #14
	usra v3.4s, v5.4s, #9
	usra v4.4s, v1.4s, #17
	add v0.4s, v20.4s, v0.4s
	eor v1.16b, v2.16b, v13.16b
	eor v2.16b, v3.16b, v5.16b
	eor v3.16b, v4.16b, v6.16b
	add v0.4s, v0.4s, v21.4s
	shl v6.4s, v2.4s, #21
	shl v4.4s, v1.4s, #27
	add v20.4s, v0.4s, v3.4s
	shl v3.4s, v26.4s, #21
	usra v6.4s, v2.4s, #11
	usra v4.4s, v1.4s, #5
	add v0.4s, v20.4s, v16.4s
	usra v3.4s, v26.4s, #11
	str q20, [sp, #144]
	eor v2.16b, v6.16b, v5.16b
	mov v6.16b, v13.16b
	eor v1.16b, v4.16b, v13.16b
	eor v4.16b, v5.16b, v11.16b
	add v0.4s, v0.4s, v12.4s
	bsl v6.16b, v15.16b, v14.16b
	shl v16.4s, v1.4s, #26
	shl v9.4s, v2.4s, #30
	and v7.16b, v4.16b, v7.16b
	usra v16.4s, v1.4s, #6
	usra v9.4s, v2.4s, #2
	eor v2.16b, v3.16b, v26.16b
	add v0.4s, v0.4s, v6.4s
	eor v1.16b, v7.16b, v11.16b
	shl v3.4s, v19.4s, #30
	ushr v7.4s, v19.4s, #10
	shl v6.4s, v2.4s, #25
	add v0.4s, v0.4s, v16.4s
	add v1.4s, v9.4s, v1.4s
	usra v3.4s, v19.4s, #2
	usra v6.4s, v2.4s, #7
	add v12.4s, v0.4s, v8.4s
	add v8.4s, v1.4s, v0.4s
	ushr v0.4s, v26.4s, #3
	eor v1.16b, v3.16b, v19.16b
	shl v2.4s, v12.4s, #18
	shl v3.4s, v8.4s, #23
	eor v0.16b, v6.16b, v0.16b
	shl v6.4s, v1.4s, #15
	usra v2.4s, v12.4s, #14
	usra v3.4s, v8.4s, #9
	add v0.4s, v0.4s, v25.4s
	usra v6.4s, v1.4s, #17
	eor v1.16b, v2.16b, v12.16b
	eor v2.16b, v3.16b, v8.16b
	add v0.4s, v17.4s, v0.4s
	eor v3.16b, v6.16b, v7.16b
	ld1r {v7.4s}, [x10]
	mov v17.16b, v21.16b
	ldr q21, [sp, #128]
	sub x10, x8, #0x18
	shl v6.4s, v1.4s, #27
	shl v16.4s, v2.4s, #21
	add v25.4s, v0.4s, v3.4s
	shl v3.4s, v27.4s, #21
	usra v6.4s, v1.4s, #5
	usra v16.4s, v2.4s, #11
	add v0.4s, v25.4s, v7.4s
	eor v7.16b, v8.16b, v5.16b
	usra v3.4s, v27.4s, #11
	eor v1.16b, v6.16b, v12.16b
	mov v6.16b, v12.16b
	eor v2.16b, v16.16b, v8.16b
	add v0.4s, v0.4s, v14.4s
	and v4.16b, v7.16b, v4.16b
	bsl v6.16b, v13.16b, v15.16b
	shl v16.4s, v1.4s, #26
	shl v9.4s, v2.4s, #30
	usra v16.4s, v1.4s, #6
	eor v1.16b, v4.16b, v5.16b
	usra v9.4s, v2.4s, #2
	add v0.4s, v0.4s, v6.4s
	eor v2.16b, v3.16b, v27.16b
	shl v3.4s, v20.4s, #30
	ushr v6.4s, v20.4s, #10
	add v1.4s, v9.4s, v1.4s
	add v0.4s, v0.4s, v16.4s
	shl v4.4s, v2.4s, #25
	usra v3.4s, v20.4s, #2
	ld1r {v16.4s}, [x10]
	sub x10, x8, #0x14
	add v14.4s, v0.4s, v10.4s
	add v9.4s, v1.4s, v0.4s
	ushr v0.4s, v27.4s, #3
	usra v4.4s, v2.4s, #7
	eor v1.16b, v3.16b, v20.16b
	shl v2.4s, v14.4s, #18
	shl v3.4s, v9.4s, #23
	eor v0.16b, v4.16b, v0.16b
	shl v4.4s, v1.4s, #15
	usra v2.4s, v14.4s, #14
	usra v3.4s, v9.4s, #9
	usra v4.4s, v1.4s, #17
	add v0.4s, v0.4s, v26.4s
	eor v1.16b, v2.16b, v14.16b
	eor v2.16b, v3.16b, v9.16b
	eor v3.16b, v4.16b, v6.16b
	add v0.4s, v0.4s, v21.4s
	shl v6.4s, v2.4s, #21
	shl v4.4s, v1.4s, #27
	add v26.4s, v0.4s, v3.4s
	shl v3.4s, v29.4s, #21
	usra v6.4s, v2.4s, #11
	usra v4.4s, v1.4s, #5
	add v0.4s, v26.4s, v16.4s
	usra v3.4s, v29.4s, #11
	eor v2.16b, v6.16b, v9.16b
	mov v6.16b, v14.16b
	eor v1.16b, v4.16b, v14.16b
	eor v4.16b, v9.16b, v8.16b
	add v0.4s, v0.4s, v15.4s
	bsl v6.16b, v12.16b, v13.16b
	shl v16.4s, v1.4s, #26
	shl v10.4s, v2.4s, #30
	and v7.16b, v4.16b, v7.16b
	usra v16.4s, v1.4s, #6
	usra v10.4s, v2.4s, #2
	eor v2.16b, v3.16b, v29.16b
	add v0.4s, v0.4s, v6.4s
	eor v1.16b, v7.16b, v8.16b
	shl v3.4s, v25.4s, #30
	ushr v7.4s, v25.4s, #10
	shl v6.4s, v2.4s, #25
	add v0.4s, v0.4s, v16.4s
	add v1.4s, v10.4s, v1.4s
	usra v3.4s, v25.4s, #2
	usra v6.4s, v2.4s, #7
	add v11.4s, v0.4s, v11.4s
	add v10.4s, v1.4s, v0.4s
	ushr v0.4s, v29.4s, #3
	eor v1.16b, v3.16b, v25.16b
	shl v2.4s, v11.4s, #18
	shl v3.4s, v10.4s, #23
	eor v0.16b, v6.16b, v0.16b
	shl v6.4s, v1.4s, #15
	usra v2.4s, v11.4s, #14
	usra v3.4s, v10.4s, #9
	add v0.4s, v0.4s, v27.4s
	usra v6.4s, v1.4s, #17
	eor v1.16b, v2.16b, v11.16b
	eor v2.16b, v3.16b, v10.16b
	add v0.4s, v0.4s, v23.4s
	eor v3.16b, v6.16b, v7.16b
	ld1r {v7.4s}, [x10]
	sub x10, x8, #0x10
	shl v6.4s, v1.4s, #27
	shl v16.4s, v2.4s, #21
	add v27.4s, v0.4s, v3.4s
	shl v3.4s, v30.4s, #21
	usra v6.4s, v1.4s, #5
	usra v16.4s, v2.4s, #11
	add v0.4s, v27.4s, v7.4s
	eor v7.16b, v10.16b, v9.16b
	usra v3.4s, v30.4s, #11
	eor v1.16b, v6.16b, v11.16b
	mov v6.16b, v11.16b
	eor v2.16b, v16.16b, v10.16b
	add v0.4s, v0.4s, v13.4s
	and v4.16b, v7.16b, v4.16b
	bsl v6.16b, v14.16b, v12.16b
	shl v16.4s, v1.4s, #26
	shl v13.4s, v2.4s, #30
	usra v16.4s, v1.4s, #6
	eor v1.16b, v4.16b, v9.16b
	usra v13.4s, v2.4s, #2
	add v0.4s, v0.4s, v6.4s
	eor v2.16b, v3.16b, v30.16b
	shl v3.4s, v26.4s, #30
	ushr v6.4s, v26.4s, #10
	add v1.4s, v13.4s, v1.4s
	add v0.4s, v0.4s, v16.4s
	shl v4.4s, v2.4s, #25
	usra v3.4s, v26.4s, #2
	ld1r {v16.4s}, [x10]
	sub x10, x8, #0xc
	add v13.4s, v0.4s, v5.4s
	add v5.4s, v1.4s, v0.4s
	ushr v0.4s, v30.4s, #3
	usra v4.4s, v2.4s, #7
	eor v1.16b, v3.16b, v26.16b
	shl v2.4s, v13.4s, #18
	shl v3.4s, v5.4s, #23
	eor v15.16b, v5.16b, v10.16b
	eor v0.16b, v4.16b, v0.16b
	shl v4.4s, v1.4s, #15
	usra v2.4s, v13.4s, #14
	usra v3.4s, v5.4s, #9
	and v7.16b, v15.16b, v7.16b
	usra v4.4s, v1.4s, #17
	add v0.4s, v0.4s, v29.4s
	eor v1.16b, v2.16b, v13.16b
	eor v2.16b, v3.16b, v5.16b
	eor v3.16b, v4.16b, v6.16b
	add v0.4s, v0.4s, v24.4s
	shl v4.4s, v1.4s, #27
	shl v6.4s, v2.4s, #21
	add v29.4s, v0.4s, v3.4s
	shl v3.4s, v31.4s, #21
	usra v4.4s, v1.4s, #5
	usra v6.4s, v2.4s, #11
	add v0.4s, v29.4s, v16.4s
	usra v3.4s, v31.4s, #11
	eor v1.16b, v4.16b, v13.16b
	mov v4.16b, v13.16b
	eor v2.16b, v6.16b, v5.16b
	add v0.4s, v0.4s, v12.4s
	bsl v4.16b, v11.16b, v14.16b
	shl v6.4s, v1.4s, #26
	shl v16.4s, v2.4s, #30
	usra v6.4s, v1.4s, #6
	eor v1.16b, v7.16b, v10.16b
	usra v16.4s, v2.4s, #2
	add v0.4s, v0.4s, v4.4s
	eor v2.16b, v3.16b, v31.16b
	shl v3.4s, v27.4s, #30
	add v1.4s, v16.4s, v1.4s
	ushr v16.4s, v27.4s, #10
	add v0.4s, v0.4s, v6.4s
	shl v6.4s, v2.4s, #25
	usra v3.4s, v27.4s, #2
	add v4.4s, v0.4s, v8.4s
	add v7.4s, v1.4s, v0.4s
	ushr v0.4s, v31.4s, #3
	usra v6.4s, v2.4s, #7
	eor v1.16b, v3.16b, v27.16b
	ld1r {v8.4s}, [x10]
	sub x10, x8, #0x8
	shl v2.4s, v4.4s, #18
	shl v3.4s, v7.4s, #23
	eor v0.16b, v6.16b, v0.16b
	shl v6.4s, v1.4s, #15
	usra v2.4s, v4.4s, #14
	usra v3.4s, v7.4s, #9
	usra v6.4s, v1.4s, #17
	add v0.4s, v0.4s, v30.4s
	eor v1.16b, v2.16b, v4.16b
	eor v2.16b, v3.16b, v7.16b
	eor v3.16b, v6.16b, v16.16b
	add v0.4s, v0.4s, v18.4s
	mov v18.16b, v21.16b
	shl v16.4s, v2.4s, #21
	shl v6.4s, v1.4s, #27
	add v30.4s, v0.4s, v3.4s
	shl v3.4s, v28.4s, #21
	usra v16.4s, v2.4s, #11
	usra v6.4s, v1.4s, #5
	add v0.4s, v30.4s, v8.4s
	usra v3.4s, v28.4s, #11
	eor v2.16b, v16.16b, v7.16b
	mov v16.16b, v4.16b
	eor v1.16b, v6.16b, v4.16b
	eor v6.16b, v7.16b, v5.16b
	add v0.4s, v0.4s, v14.4s
	bsl v16.16b, v13.16b, v11.16b
	shl v8.4s, v1.4s, #26
	shl v14.4s, v2.4s, #30
	and v12.16b, v6.16b, v15.16b
	usra v8.4s, v1.4s, #6
	usra v14.4s, v2.4s, #2
	eor v2.16b, v3.16b, v28.16b
	add v0.4s, v0.4s, v16.4s
	eor v1.16b, v12.16b, v5.16b
	shl v3.4s, v29.4s, #30
	ld1r {v12.4s}, [x10]
	sub x10, x8, #0x4
	shl v16.4s, v2.4s, #25
	add v0.4s, v0.4s, v8.4s
	add v1.4s, v14.4s, v1.4s
	usra v3.4s, v29.4s, #2
	usra v16.4s, v2.4s, #7
	add v9.4s, v0.4s, v9.4s
	add v8.4s, v1.4s, v0.4s
	ushr v0.4s, v28.4s, #3
	eor v1.16b, v3.16b, v29.16b
	shl v2.4s, v9.4s, #18
	shl v3.4s, v8.4s, #23
	eor v0.16b, v16.16b, v0.16b
	shl v16.4s, v1.4s, #15
	usra v2.4s, v9.4s, #14
	usra v3.4s, v8.4s, #9
	add v0.4s, v31.4s, v0.4s
	ushr v31.4s, v29.4s, #10
	usra v16.4s, v1.4s, #17
	eor v1.16b, v2.16b, v9.16b
	eor v2.16b, v3.16b, v8.16b
	add v0.4s, v0.4s, v19.4s
	eor v3.16b, v16.16b, v31.16b
	mov v19.16b, v23.16b
	shl v16.4s, v1.4s, #27
	shl v14.4s, v2.4s, #21
	add v31.4s, v0.4s, v3.4s
	mov v3.16b, v9.16b
	usra v16.4s, v1.4s, #5
	usra v14.4s, v2.4s, #11
	add v0.4s, v31.4s, v12.4s
	eor v12.16b, v8.16b, v7.16b
	bsl v3.16b, v4.16b, v13.16b
	eor v1.16b, v16.16b, v9.16b
	eor v2.16b, v14.16b, v8.16b
	shl v16.4s, v22.4s, #21
	add v0.4s, v0.4s, v11.4s
	and v6.16b, v12.16b, v6.16b
	shl v11.4s, v1.4s, #26
	shl v14.4s, v2.4s, #30
	usra v16.4s, v22.4s, #11
	add v0.4s, v0.4s, v3.4s
	shl v3.4s, v30.4s, #30
	usra v11.4s, v1.4s, #6
	eor v1.16b, v6.16b, v7.16b
	usra v14.4s, v2.4s, #2
	eor v2.16b, v16.16b, v22.16b
	usra v3.4s, v30.4s, #2
	ushr v16.4s, v30.4s, #10
	add v0.4s, v0.4s, v11.4s
	add v1.4s, v14.4s, v1.4s
	shl v6.4s, v2.4s, #25
	add v11.4s, v0.4s, v10.4s
	add v10.4s, v1.4s, v0.4s
	ushr v0.4s, v22.4s, #3
	usra v6.4s, v2.4s, #7
	eor v2.16b, v3.16b, v30.16b
	shl v3.4s, v10.4s, #23
	shl v1.4s, v11.4s, #18
	eor v0.16b, v6.16b, v0.16b
	shl v6.4s, v2.4s, #15
	usra v3.4s, v10.4s, #9
	usra v1.4s, v11.4s, #14
	usra v6.4s, v2.4s, #17
	add v0.4s, v0.4s, v28.4s
	eor v2.16b, v3.16b, v10.16b
	eor v1.16b, v1.16b, v11.16b
	eor v6.16b, v6.16b, v16.16b
	add v0.4s, v0.4s, v20.4s
	mov v20.16b, v24.16b
	shl v16.4s, v2.4s, #21
	shl v3.4s, v1.4s, #27
	add v28.4s, v0.4s, v6.4s
	eor v6.16b, v10.16b, v8.16b
	usra v16.4s, v2.4s, #11
	usra v3.4s, v1.4s, #5
	ld1r {v1.4s}, [x10]
	and v12.16b, v6.16b, v12.16b
	eor v2.16b, v16.16b, v10.16b
	mov v16.16b, v11.16b
	eor v0.16b, v3.16b, v11.16b
	add v1.4s, v28.4s, v1.4s
	shl v3.4s, v17.4s, #21
	bsl v16.16b, v9.16b, v4.16b
	shl v14.4s, v0.4s, #26
	add v1.4s, v1.4s, v13.4s
	shl v13.4s, v2.4s, #30
	usra v3.4s, v17.4s, #11
	usra v14.4s, v0.4s, #6
	add v0.4s, v1.4s, v16.4s
	usra v13.4s, v2.4s, #2
	eor v1.16b, v12.16b, v8.16b
	shl v2.4s, v31.4s, #30
	eor v3.16b, v3.16b, v17.16b
	add v0.4s, v0.4s, v14.4s
	add v1.4s, v13.4s, v1.4s
	usra v2.4s, v31.4s, #2
	shl v16.4s, v3.4s, #25
	add v12.4s, v1.4s, v0.4s
	add v13.4s, v0.4s, v5.4s
	ushr v1.4s, v17.4s, #3
	eor v0.16b, v2.16b, v31.16b
	usra v16.4s, v3.4s, #7
	shl v2.4s, v13.4s, #18
	shl v3.4s, v12.4s, #23
	bsl v6.16b, v12.16b, v10.16b
	eor v1.16b, v16.16b, v1.16b
	shl v5.4s, v0.4s, #15
	usra v2.4s, v13.4s, #14
	usra v3.4s, v12.4s, #9
	usra v5.4s, v0.4s, #17
	ushr v0.4s, v31.4s, #10
	add v1.4s, v1.4s, v22.4s
	eor v2.16b, v2.16b, v13.16b
	eor v3.16b, v3.16b, v12.16b
	eor v0.16b, v5.16b, v0.16b
	add v1.4s, v1.4s, v25.4s
	shl v5.4s, v2.4s, #27
	shl v16.4s, v3.4s, #21
	add v22.4s, v1.4s, v0.4s
	ld1r {v0.4s}, [x8]
	add x8, x8, #0x40
	usra v5.4s, v2.4s, #5
	usra v16.4s, v3.4s, #11
	mov v3.16b, v13.16b
	add v0.4s, v22.4s, v0.4s
	eor v1.16b, v5.16b, v13.16b
	eor v2.16b, v16.16b, v12.16b
	bsl v3.16b, v11.16b, v9.16b
	add v0.4s, v0.4s, v4.4s
	shl v5.4s, v1.4s, #26
	shl v4.4s, v2.4s, #30
	add v0.4s, v0.4s, v3.4s
	usra v5.4s, v1.4s, #6
	usra v4.4s, v2.4s, #2
	add v0.4s, v0.4s, v5.4s
	add v1.4s, v4.4s, v6.4s
	add v14.4s, v1.4s, v0.4s
	add v15.4s, v0.4s, v7.4s
	b.ne L(98_0)
	ldp q1, q0, [sp, #64]
	ldr x30, [sp, #272]
	ldp q3, q2, [sp]
	add v0.4s, v14.4s, v0.4s
	add v1.4s, v12.4s, v1.4s
	add v2.4s, v10.4s, v2.4s
	add v3.4s, v8.4s, v3.4s
	stp q0, q1, [x0]
	ldp q1, q0, [sp, #96]
	stp q2, q3, [x0, #32]
	ldp q3, q2, [sp, #32]
	add v0.4s, v15.4s, v0.4s
	add v1.4s, v13.4s, v1.4s
	add v2.4s, v11.4s, v2.4s
	add v3.4s, v9.4s, v3.4s
	ldp d9, d8, [sp, #256]
	stp q0, q1, [x0, #64]
	ldp d11, d10, [sp, #240]
	stp q2, q3, [x0, #96]
	ldp d13, d12, [sp, #224]
	ldp x8, x9, [x2]
	ldp d15, d14, [sp, #208]
	adds x8, x8, #0x4
	adcs x9, x9, xzr
	csinv x8, x8, xzr, cc
	csinv x9, x9, xzr, cc
	stp x8, x9, [x2]
	add sp, sp, #0x120
	ret
	SIZE(ring_core.digest.sha2.lanes.block_of_words_lanes_counted.302711f8c02ab38b, 5260)

	CODE(ring.pbkdf2.rounds.xor_iterates.bde0e74171f856d8)
	.p2align 2
/* ring::pbkdf2::rounds::xor_iterates::<#bde0e74171f856d8> */
	TYPE(ring.pbkdf2.rounds.xor_iterates.bde0e74171f856d8, %function)
ring.pbkdf2.rounds.xor_iterates.bde0e74171f856d8:
	sub sp, sp, #0x1e0
	movi v0.2d, #0x0
	ldrb w8, [x1]
	stp x29, x30, [sp, #384]
	stp x28, x27, [sp, #400]
	add x29, sp, #0x180
	cmp w8, #0x1
	stp x26, x25, [sp, #416]
	stp x24, x23, [sp, #432]
	stp x22, x21, [sp, #448]
	stp x20, x19, [sp, #464]
	stp q0, q0, [sp, #80]
	b.ne L(100_9)
	ldrb w8, [x1, #576]
	cmp w8, #0x1
	b.ne L(100_9)
	add x8, x1, #0x244
	ldur q0, [x1, #4]
	ldur q1, [x1, #20]
	ldp q2, q3, [x8]
	ldrb w8, [x1, #1152]
	stp q0, q1, [sp, #16]
	cmp w8, #0x1
	stp q0, q1, [sp, #112]
	stp q2, q3, [sp, #48]
	stp q2, q3, [sp, #144]
	b.ne L(100_9)
	ldp q0, q1, [sp, #48]
	add x8, x1, #0x484
	movi v2.2d, #0x0
	stp x3, x2, [sp]
	adrp x23, PAGE(yz_instructions)
	mov x21, x4
	mov x27, x0
	sub x26, x29, #0x90
	stp q0, q1, [x29, #-144]
	ldp q3, q0, [x8]
	adrp x20, PAGE(L(201_99))
	adrp x9, PAGE(L(201_100))
	adrp x10, PAGE(L(201_101))
	stp q2, q2, [x29, #-80]
	adrp x11, PAGE(L(201_102))
	adrp x12, PAGE(L(201_103))
	stp q3, q0, [x29, #-112]
	adrp x13, PAGE(L(201_104))
	stp q2, q2, [x29, #-48]
	ldrb w8, [x23, IN_PAGE(yz_instructions)]
	cbz w8, L(100_0)
	sub x0, x29, #0x90
	sub x1, x29, #0x70
	mov x2, x21
	bl ring_core.digest.sha2.by_instruction.run_words.4b880bd721513749
	b L(100_1)
L(100_0):
	ldp q0, q1, [x29, #-112]
	sub x0, x29, #0x50
	ldr q2, [x20, IN_PAGE(L(201_99))]
	ldr q3, [x9, IN_PAGE(L(201_100))]
	sub x1, x29, #0x90
	ldr q4, [x10, IN_PAGE(L(201_101))]
	add v2.4s, v0.4s, v2.4s
	add v3.4s, v1.4s, v3.4s
	stp q2, q3, [x29, #-80]
	ldr q2, [x11, IN_PAGE(L(201_102))]
	ldr q3, [x13, IN_PAGE(L(201_104))]
	stp q4, q2, [x29, #-48]
	ldr q2, [x12, IN_PAGE(L(201_103))]
	bl ring_core.digest.sha2.by_fours.run_ahead.99accd9fe8f0e06d
	ldp x8, x9, [x21]
	adds x8, x8, #0x1
	adcs x9, x9, xzr
	csinv x8, x8, xzr, cc
	csinv x9, x9, xzr, cc
	stp x8, x9, [x21]
L(100_1):
	ldr w8, [x27, #40]
	ldur w19, [x29, #-144]
	ldur x25, [x26, #4]
	ldur x24, [x26, #12]
	ldur w22, [x29, #-116]
	ldur x26, [x26, #20]
	cmp w8, #0x2
	str w19, [sp, #80]
	stur x25, [sp, #84]
	stur x24, [sp, #92]
	stur x26, [sp, #100]
	str w22, [sp, #108]
	b.cc L(100_7)
	add x27, sp, #0x70
	sub w28, w8, #0x1
	b L(100_4)
L(100_2):
	add x0, sp, #0x50
	sub x1, x29, #0x70
	mov x2, x21
	bl ring_core.digest.sha2.by_instruction.run_words.4b880bd721513749
L(100_3):
	ldp w8, w9, [sp, #80]
	ldp w11, w12, [sp, #88]
	ldp w14, w15, [sp, #96]
	ldp w17, w0, [sp, #104]
	lsr x10, x25, #32
	lsr x13, x24, #32
	lsr x16, x26, #32
	eor w9, w9, w25
	subs w28, w28, #0x1
	eor w19, w8, w19
	eor w10, w11, w10
	eor w11, w12, w24
	eor w12, w14, w13
	eor w13, w15, w26
	eor w14, w17, w16
	orr x25, x9, x10, lsl #32
	orr x24, x11, x12, lsl #32
	orr x26, x13, x14, lsl #32
	eor w22, w0, w22
	b.eq L(100_7)
L(100_4):
	movi v0.2d, #0x0
	ldp q1, q2, [sp, #112]
	stp q1, q2, [x29, #-112]
	stp q0, q0, [x29, #-80]
	stp q0, q0, [x29, #-48]
	ldrb w8, [x23, IN_PAGE(yz_instructions)]
	cbz w8, L(100_5)
	sub x0, x29, #0x70
	add x1, sp, #0x50
	mov x2, x21
	bl ring_core.digest.sha2.by_instruction.run_words.4b880bd721513749
	b L(100_6)
L(100_5):
	ldp q0, q1, [sp, #80]
	adrp x8, PAGE(L(201_100))
	ldr q2, [x20, IN_PAGE(L(201_99))]
	ldr q3, [x8, IN_PAGE(L(201_100))]
	adrp x8, PAGE(L(201_101))
	ldr q4, [x8, IN_PAGE(L(201_101))]
	adrp x8, PAGE(L(201_102))
	sub x0, x29, #0x50
	add v2.4s, v0.4s, v2.4s
	add v3.4s, v1.4s, v3.4s
	sub x1, x29, #0x70
	stp q2, q3, [x29, #-80]
	ldr q2, [x8, IN_PAGE(L(201_102))]
	adrp x8, PAGE(L(201_103))
	stp q4, q2, [x29, #-48]
	ldr q2, [x8, IN_PAGE(L(201_103))]
	adrp x8, PAGE(L(201_104))
	ldr q3, [x8, IN_PAGE(L(201_104))]
	bl ring_core.digest.sha2.by_fours.run_ahead.99accd9fe8f0e06d
	ldp x8, x9, [x21]
	adds x8, x8, #0x1
	adcs x9, x9, xzr
	csinv x8, x8, xzr, cc
	csinv x9, x9, xzr, cc
	stp x8, x9, [x21]
L(100_6):
	movi v0.2d, #0x0
	ldp q1, q2, [x27, #32]
	stp q1, q2, [sp, #80]
	stp q0, q0, [x29, #-80]
	stp q0, q0, [x29, #-48]
	ldrb w8, [x23, IN_PAGE(yz_instructions)]
	cbnz w8, L(100_2)
	ldp q0, q1, [x29, #-112]
	adrp x8, PAGE(L(201_100))
	ldr q2, [x20, IN_PAGE(L(201_99))]
	ldr q3, [x8, IN_PAGE(L(201_100))]
	adrp x8, PAGE(L(201_101))
	ldr q4, [x8, IN_PAGE(L(201_101))]
	adrp x8, PAGE(L(201_102))
	sub x0, x29, #0x50
	add v2.4s, v0.4s, v2.4s
	add v3.4s, v1.4s, v3.4s
	add x1, sp, #0x50
	stp q2, q3, [x29, #-80]
	ldr q2, [x8, IN_PAGE(L(201_102))]
	adrp x8, PAGE(L(201_103))
	stp q4, q2, [x29, #-48]
	ldr q2, [x8, IN_PAGE(L(201_103))]
	adrp x8, PAGE(L(201_104))
	ldr q3, [x8, IN_PAGE(L(201_104))]
	bl ring_core.digest.sha2.by_fours.run_ahead.99accd9fe8f0e06d
	ldp x8, x9, [x21]
	adds x8, x8, #0x1
	adcs x9, x9, xzr
	csinv x8, x8, xzr, cc
	csinv x9, x9, xzr, cc
	stp x8, x9, [x21]
	b L(100_3)
L(100_7):
	lsr x8, x24, #32
	fmov s0, w19
	lsr x9, x26, #32
	movi v2.2d, #0x0
	fmov s1, w8
	lsr x8, x25, #32
	mov v0.s[1], w25
	mov v1.s[1], w26
	mov v0.s[2], w8
	mov v1.s[2], w9
	ldp x9, x8, [sp]
	mov v0.s[3], w24
	cmp x9, #0x1
	stp q2, q2, [x8, #32]
	mov v1.s[3], w22
	rev32 v0.16b, v0.16b
	rev32 v1.16b, v1.16b
	stp q0, q1, [x8]
	b.eq L(100_8)
	cmp x9, #0x2
	stp q0, q1, [x8, #64]
	stp q2, q2, [x8, #96]
	b.eq L(100_8)
	cmp x9, #0x3
	stp q0, q1, [x8, #128]
	stp q2, q2, [x8, #160]
	b.eq L(100_8)
	cmp x9, #0x4
	stp q0, q1, [x8, #192]
	stp q2, q2, [x8, #224]
	b.eq L(100_8)
	cmp x9, #0x5
	stp q0, q1, [x8, #256]
	stp q2, q2, [x8, #288]
	b.eq L(100_8)
	cmp x9, #0x6
	stp q0, q1, [x8, #320]
	stp q2, q2, [x8, #352]
	b.eq L(100_8)
	cmp x9, #0x7
	stp q0, q1, [x8, #384]
	stp q2, q2, [x8, #416]
	b.eq L(100_8)
	stp q0, q1, [x8, #448]
	stp q2, q2, [x8, #480]
L(100_8):
	ldp x20, x19, [sp, #464]
	ldp x22, x21, [sp, #448]
	ldp x24, x23, [sp, #432]
	ldp x26, x25, [sp, #416]
	ldp x28, x27, [sp, #400]
	ldp x29, x30, [sp, #384]
	add sp, sp, #0x1e0
	ret
L(100_9):
	brk #0x1
	SIZE(ring.pbkdf2.rounds.xor_iterates.bde0e74171f856d8, 948)

	CODE(ring_core.digest.sha2.by_instruction.run_words.4b880bd721513749)
	.p2align 2
/* ring_core::digest::sha2::by_instruction::run_words::<#4b880bd721513749> */
	TYPE(ring_core.digest.sha2.by_instruction.run_words.4b880bd721513749, %function)
ring_core.digest.sha2.by_instruction.run_words.4b880bd721513749:
	adrp x8, PAGE(L(201_105))
	ldp q4, q2, [x1]
	ldp q0, q1, [x0]
	adrp x9, PAGE(L(201_107))
	ldr q3, [x8, IN_PAGE(L(201_105))]
	adrp x8, PAGE(L(201_108))
	ldr q6, [x8, IN_PAGE(L(201_108))]
	adrp x8, PAGE(L(201_106))
	add v5.4s, v4.4s, v3.4s
	mov v7.16b, v0.16b
	mov v3.16b, v1.16b
	sha256su0 v4.4s, v2.4s
	sha256h q7, q1, v5.4s
	sha256h2 q3, q0, v5.4s
	add v5.4s, v2.4s, v6.4s
	ldr q6, [x9, IN_PAGE(L(201_107))]
	adrp x9, PAGE(L(201_110))
	sha256su0 v2.4s, v6.4s
	mov v16.16b, v7.16b
	sha256h q16, q3, v5.4s
	sha256h2 q3, q7, v5.4s
	ldr q5, [x8, IN_PAGE(L(201_106))]
	adrp x8, PAGE(L(201_109))
	ldr q7, [x8, IN_PAGE(L(201_109))]
	adrp x8, PAGE(L(201_111))
	sha256su1 v4.4s, v6.4s, v5.4s
	mov v17.16b, v16.16b
	sha256su0 v6.4s, v5.4s
	sha256h q17, q3, v7.4s
	sha256h2 q3, q16, v7.4s
	ldr q7, [x9, IN_PAGE(L(201_110))]
	ldr q16, [x8, IN_PAGE(L(201_111))]
	sha256su1 v2.4s, v5.4s, v4.4s
	adrp x8, PAGE(L(201_112))
	add v16.4s, v4.4s, v16.4s
	mov v18.16b, v17.16b
	sha256su0 v5.4s, v4.4s
	sha256su1 v6.4s, v4.4s, v2.4s
	sha256h q18, q3, v7.4s
	sha256h2 q3, q17, v7.4s
	ldr q7, [x8, IN_PAGE(L(201_112))]
	adrp x8, PAGE(L(201_113))
	sha256su0 v4.4s, v2.4s
	add v7.4s, v2.4s, v7.4s
	mov v17.16b, v18.16b
	sha256su1 v5.4s, v2.4s, v6.4s
	sha256su0 v2.4s, v6.4s
	sha256h q17, q3, v16.4s
	sha256h2 q3, q18, v16.4s
	ldr q16, [x8, IN_PAGE(L(201_113))]
	adrp x8, PAGE(L(201_114))
	sha256su1 v4.4s, v6.4s, v5.4s
	add v16.4s, v6.4s, v16.4s
	mov v18.16b, v17.16b
	sha256su0 v6.4s, v5.4s
	sha256su1 v2.4s, v5.4s, v4.4s
	sha256h q18, q3, v7.4s
	sha256h2 q3, q17, v7.4s
	ldr q7, [x8, IN_PAGE(L(201_114))]
	adrp x8, PAGE(L(201_115))
	add v7.4s, v5.4s, v7.4s
	mov v17.16b, v18.16b
	sha256su1 v6.4s, v4.4s, v2.4s
	sha256su0 v5.4s, v4.4s
	sha256h q17, q3, v16.4s
	sha256h2 q3, q18, v16.4s
	ldr q16, [x8, IN_PAGE(L(201_115))]
	adrp x8, PAGE(L(201_116))
	add v16.4s, v4.4s, v16.4s
	mov v18.16b, v17.16b
	sha256su1 v5.4s, v2.4s, v6.4s
	sha256su0 v4.4s, v2.4s
	sha256h q18, q3, v7.4s
	sha256h2 q3, q17, v7.4s
	ldr q7, [x8, IN_PAGE(L(201_116))]
	adrp x8, PAGE(L(201_117))
	add v7.4s, v2.4s, v7.4s
	mov v17.16b, v18.16b
	sha256su1 v4.4s, v6.4s, v5.4s
	sha256su0 v2.4s, v6.4s
	sha256h q17, q3, v16.4s
	sha256h2 q3, q18, v16.4s
	ldr q16, [x8, IN_PAGE(L(201_117))]
	adrp x8, PAGE(L(201_118))
	add v16.4s, v6.4s, v16.4s
	mov v18.16b, v17.16b
	sha256su1 v2.4s, v5.4s, v4.4s
	sha256su0 v6.4s, v5.4s
	sha256h q18, q3, v7.4s
	sha256h2 q3, q17, v7.4s
	ldr q7, [x8, IN_PAGE(L(201_118))]
	adrp x8, PAGE(L(201_119))
	add v7.4s, v5.4s, v7.4s
	mov v17.16b, v18.16b
	sha256su1 v6.4s, v4.4s, v2.4s
	sha256su0 v5.4s, v4.4s
	sha256h q17, q3, v16.4s
	sha256h2 q3, q18, v16.4s
	ldr q16, [x8, IN_PAGE(L(201_119))]
	adrp x8, PAGE(L(201_120))
	add v16.4s, v4.4s, v16.4s
	mov v18.16b, v17.16b
	sha256su1 v5.4s, v2.4s, v6.4s
	sha256h q18, q3, v7.4s
	sha256h2 q3, q17, v7.4s
	ldr q7, [x8, IN_PAGE(L(201_120))]
	adrp x8, PAGE(L(201_121))
	add v7.4s, v2.4s, v7.4s
	mov v17.16b, v18.16b
	sha256h q17, q3, v16.4s
	sha256h2 q3, q18, v16.4s
	ldr q16, [x8, IN_PAGE(L(201_121))]
	adrp x8, PAGE(L(201_122))
	ldr q2, [x8, IN_PAGE(L(201_122))]
	mov v4.16b, v17.16b
	add v2.4s, v5.4s, v2.4s
	sha256h q4, q3, v7.4s
	sha256h2 q3, q17, v7.4s
	add v7.4s, v6.4s, v16.4s
	mov v6.16b, v4.16b
	sha256h q6, q3, v7.4s
	sha256h2 q3, q4, v7.4s
	mov v4.16b, v6.16b
	sha256h q4, q3, v2.4s
	sha256h2 q3, q6, v2.4s
	add v0.4s, v4.4s, v0.4s
	add v1.4s, v3.4s, v1.4s
	stp q0, q1, [x0]
	ldp x8, x9, [x2]
	adds x8, x8, #0x1
	adcs x9, x9, xzr
	csinv x8, x8, xzr, cc
	csinv x9, x9, xzr, cc
	stp x8, x9, [x2]
	ret
	SIZE(ring_core.digest.sha2.by_instruction.run_words.4b880bd721513749, 540)

	CODE(ring.pbkdf2.rounds.xor_iterates.1781a4570e9cf8d4)
	.p2align 2
/* ring::pbkdf2::rounds::xor_iterates::<#1781a4570e9cf8d4> */
	TYPE(ring.pbkdf2.rounds.xor_iterates.1781a4570e9cf8d4, %function)
ring.pbkdf2.rounds.xor_iterates.1781a4570e9cf8d4:
	stp x29, x30, [sp, #-96]!
	str x28, [sp, #16]
	mov x29, sp
	stp x26, x25, [sp, #32]
	stp x24, x23, [sp, #48]
	stp x22, x21, [sp, #64]
	stp x20, x19, [sp, #80]
	sub sp, sp, #0x2e0
	movi v0.2d, #0x0
	ldrb w9, [x1]
	add x8, sp, #0x160
	str xzr, [sp, #408]
	stur q0, [x8, #40]
	stur q0, [x8, #24]
	stur q0, [x8, #8]
	cbnz w9, L(104_3)
	ldrb w8, [x1, #576]
	cbnz w8, L(104_3)
	ldur q0, [x1, #8]
	ldur q1, [x1, #24]
	add x8, x1, #0x248
	ldur q2, [x1, #40]
	stp q0, q1, [sp, #224]
	ldur q0, [x1, #56]
	stp q2, q0, [sp, #256]
	ldp q2, q1, [x8, #32]
	stp q2, q1, [sp, #320]
	ldp q0, q1, [x8]
	ldrb w8, [x1, #1152]
	stp q0, q1, [sp, #288]
	cbnz w8, L(104_3)
	add x8, x1, #0x488
	ldp q3, q4, [sp, #288]
	adrp x9, PAGE(L(201_125))
	ldp q0, q1, [x8]
	ldr q2, [x8, #32]
	adrp x8, PAGE(L(201_124))
	ldr q6, [x9, IN_PAGE(L(201_125))]
	ldr q7, [x8, IN_PAGE(L(201_124))]
	stp q3, q4, [x29, #-192]
	adrp x8, PAGE(L(201_126))
	ldp q5, q3, [sp, #320]
	mov x22, x0
	stp q7, q6, [sp, #176]
	add v4.2d, v0.2d, v7.2d
	ldr q7, [x8, IN_PAGE(L(201_126))]
	add v6.2d, v1.2d, v6.2d
	adrp x8, PAGE(L(201_127))
	sub x0, x29, #0x80
	stp q5, q3, [x29, #-160]
	add v3.2d, v2.2d, v7.2d
	ldr q5, [x8, IN_PAGE(L(201_127))]
	adrp x8, PAGE(L(201_128))
	str q7, [sp, #160]
	sub x1, x29, #0xc0
	stp q4, q6, [x29, #-128]
	ldr q4, [x8, IN_PAGE(L(201_128))]
	adrp x8, PAGE(L(201_129))
	stp q3, q5, [x29, #-96]
	ldr q3, [x8, IN_PAGE(L(201_129))]
	adrp x8, PAGE(L(201_130))
	str q4, [sp, #128]
	movi v6.2d, #0x0
	mov x21, x4
	stp q3, q4, [x29, #-64]
	ldr q4, [x8, IN_PAGE(L(201_130))]
	adrp x8, PAGE(L(201_131))
	str q5, [sp, #144]
	ldr q5, [x8, IN_PAGE(L(201_131))]
	adrp x8, PAGE(L(201_123))
	str q3, [sp, #112]
	ldr q3, [x8, IN_PAGE(L(201_123))]
	adrp x8, PAGE(L(201_132))
	stp q5, q4, [sp, #80]
	ldr q7, [x8, IN_PAGE(L(201_132))]
	mov x20, x3
	stp q5, q4, [x29, #-32]
	movi v4.2d, #0x0
	movi v5.2d, #0x0
	mov x19, x2
	stp q7, q3, [sp, #48]
	bl ring_core.digest.sha2.by_fours.run_ahead.34389943500e16fa
	ldp x8, x9, [x21]
	ldp q4, q3, [x29, #-160]
	ldp q6, q5, [x29, #-192]
	adds x8, x8, #0x1
	adcs x9, x9, xzr
	csinv x24, x8, xzr, cc
	csinv x23, x9, xzr, cc
	stp x24, x23, [x21]
	ldp x10, x8, [x29, #-192]
	ldr w9, [x22, #40]
	cmp w9, #0x2
	str x10, [sp, #352]
	b.cc L(104_1)
	fmov d0, d6
	mov v1.16b, v5.16b
	add x22, sp, #0xe0
	mov v2.16b, v4.16b
	sub w25, w9, #0x1
L(104_0):
	str q4, [sp, #32]
	mov v0.d[1], x8
	sub x0, x29, #0x80
	str q3, [sp, #208]
	ldp q3, q4, [sp, #224]
	stp q6, q5, [sp]
	sub x1, x29, #0xc0
	sub x26, x29, #0xc0
	stp q3, q4, [x29, #-192]
	ldp q3, q5, [sp, #256]
	ldp q6, q4, [sp, #144]
	stp q3, q5, [x29, #-160]
	ldp q5, q3, [sp, #176]
	add v4.2d, v2.2d, v4.2d
	add v3.2d, v1.2d, v3.2d
	add v5.2d, v0.2d, v5.2d
	stp q4, q6, [x29, #-96]
	movi v4.2d, #0x0
	movi v6.2d, #0x0
	stp q5, q3, [x29, #-128]
	ldr q3, [sp, #128]
	movi v5.2d, #0x0
	stur q3, [x29, #-48]
	ldr q3, [sp, #112]
	stur q3, [x29, #-64]
	ldr q3, [sp, #96]
	stur q3, [x29, #-16]
	ldr q3, [sp, #80]
	stur q3, [x29, #-32]
	ldp q7, q3, [sp, #48]
	bl ring_core.digest.sha2.by_fours.run_ahead.34389943500e16fa
	ldp q3, q4, [x22, #64]
	orr x8, x26, #0x8
	ldur d0, [x29, #-192]
	ldp q1, q2, [x29, #-176]
	sub x0, x29, #0x80
	add x1, sp, #0x160
	stp q3, q4, [sp, #352]
	ldp q5, q3, [x22, #96]
	ld1 {v0.d}[1], [x8]
	ldp q6, q4, [sp, #144]
	stp q5, q3, [sp, #384]
	ldp q3, q5, [sp, #176]
	add v4.2d, v2.2d, v4.2d
	add v5.2d, v1.2d, v5.2d
	add v3.2d, v0.2d, v3.2d
	stp q4, q6, [x29, #-96]
	movi v4.2d, #0x0
	movi v6.2d, #0x0
	stp q3, q5, [x29, #-128]
	ldr q3, [sp, #128]
	movi v5.2d, #0x0
	stur q3, [x29, #-48]
	ldr q3, [sp, #112]
	stur q3, [x29, #-64]
	ldr q3, [sp, #96]
	stur q3, [x29, #-16]
	ldr q3, [sp, #80]
	stur q3, [x29, #-32]
	ldp q7, q3, [sp, #48]
	bl ring_core.digest.sha2.by_fours.run_ahead.34389943500e16fa
	ldp q2, q3, [sp, #384]
	adds x8, x24, #0x2
	ldr q4, [sp, #208]
	ldp q6, q5, [sp]
	ldp q0, q1, [sp, #352]
	adcs x9, x23, xzr
	eor v4.16b, v3.16b, v4.16b
	csinv x24, x8, xzr, cc
	ldr x8, [sp, #360]
	csinv x23, x9, xzr, cc
	subs w25, w25, #0x1
	eor v5.16b, v1.16b, v5.16b
	eor v6.16b, v0.16b, v6.16b
	stp x24, x23, [x21]
	str q4, [sp, #208]
	ldr q4, [sp, #32]
	ldr q3, [sp, #208]
	eor v4.16b, v2.16b, v4.16b
	b.ne L(104_0)
L(104_1):
	rev64 v0.16b, v6.16b
	rev64 v1.16b, v5.16b
	cmp x20, #0x1
	rev64 v2.16b, v4.16b
	rev64 v3.16b, v3.16b
	stp q0, q1, [x19]
	stp q2, q3, [x19, #32]
	b.eq L(104_2)
	cmp x20, #0x2
	stp q0, q1, [x19, #64]
	stp q2, q3, [x19, #96]
	b.eq L(104_2)
	cmp x20, #0x3
	stp q0, q1, [x19, #128]
	stp q2, q3, [x19, #160]
	b.eq L(104_2)
	cmp x20, #0x4
	stp q0, q1, [x19, #192]
	stp q2, q3, [x19, #224]
	b.eq L(104_2)
	cmp x20, #0x5
	stp q0, q1, [x19, #256]
	stp q2, q3, [x19, #288]
	b.eq L(104_2)
	cmp x20, #0x6
	stp q0, q1, [x19, #320]
	stp q2, q3, [x19, #352]
	b.eq L(104_2)
	cmp x20, #0x7
	stp q0, q1, [x19, #384]
	stp q2, q3, [x19, #416]
	b.eq L(104_2)
	stp q0, q1, [x19, #448]
	stp q2, q3, [x19, #480]
L(104_2):
	add sp, sp, #0x2e0
	ldp x20, x19, [sp, #80]
	ldr x28, [sp, #16]
	ldp x22, x21, [sp, #64]
	ldp x24, x23, [sp, #48]
	ldp x26, x25, [sp, #32]
	ldp x29, x30, [sp], #96
	ret
L(104_3):
	brk #0x1
	SIZE(ring.pbkdf2.rounds.xor_iterates.1781a4570e9cf8d4, 892)

	CODE(ring.pbkdf2.rounds.xor_iterates.a07252785532c1ed)
	.p2align 2
/* ring::pbkdf2::rounds::xor_iterates::<#a07252785532c1ed> */
	TYPE(ring.pbkdf2.rounds.xor_iterates.a07252785532c1ed, %function)
ring.pbkdf2.rounds.xor_iterates.a07252785532c1ed:
	stp x29, x30, [sp, #-96]!
	str x28, [sp, #16]
	mov x29, sp
	stp x26, x25, [sp, #32]
	stp x24, x23, [sp, #48]
	stp x22, x21, [sp, #64]
	stp x20, x19, [sp, #80]
	sub sp, sp, #0x2e0
	movi v0.2d, #0x0
	ldrb w9, [x1]
	add x8, sp, #0x160
	str xzr, [sp, #408]
	stur q0, [x8, #40]
	stur q0, [x8, #24]
	stur q0, [x8, #8]
	cbnz w9, L(106_3)
	ldrb w8, [x1, #576]
	cbnz w8, L(106_3)
	ldur q0, [x1, #8]
	ldur q1, [x1, #24]
	add x8, x1, #0x248
	ldur q2, [x1, #40]
	stp q0, q1, [sp, #224]
	ldur q0, [x1, #56]
	stp q2, q0, [sp, #256]
	ldp q2, q1, [x8, #32]
	stp q2, q1, [sp, #320]
	ldp q0, q1, [x8]
	ldrb w8, [x1, #1152]
	stp q0, q1, [sp, #288]
	cbnz w8, L(106_3)
	adrp x8, PAGE(L(201_134))
	ldp q4, q5, [sp, #288]
	ldr q6, [x8, IN_PAGE(L(201_134))]
	add x8, x1, #0x488
	adrp x9, PAGE(L(201_142))
	ldp q0, q1, [x8]
	mov x22, x0
	ldp q2, q3, [x8, #32]
	adrp x8, PAGE(L(201_133))
	ldr q7, [x8, IN_PAGE(L(201_133))]
	adrp x8, PAGE(L(201_136))
	stp q4, q5, [x29, #-192]
	str q6, [sp, #208]
	add v4.2d, v1.2d, v6.2d
	ldr q16, [x8, IN_PAGE(L(201_136))]
	ldp q5, q6, [sp, #320]
	adrp x8, PAGE(L(201_135))
	ldr q17, [x8, IN_PAGE(L(201_135))]
	str q7, [sp, #192]
	add v7.2d, v0.2d, v7.2d
	adrp x8, PAGE(L(201_137))
	sub x0, x29, #0x80
	sub x1, x29, #0xc0
	stp q5, q6, [x29, #-160]
	add v5.2d, v3.2d, v16.2d
	add v6.2d, v2.2d, v17.2d
	stp q7, q4, [x29, #-128]
	ldr q4, [x8, IN_PAGE(L(201_137))]
	adrp x8, PAGE(L(201_138))
	ldr q7, [x9, IN_PAGE(L(201_142))]
	mov x21, x4
	mov x20, x3
	stp q6, q5, [x29, #-96]
	ldr q5, [x8, IN_PAGE(L(201_138))]
	adrp x8, PAGE(L(201_139))
	ldr q6, [x8, IN_PAGE(L(201_139))]
	adrp x8, PAGE(L(201_140))
	mov x19, x2
	stp q5, q4, [sp, #128]
	stp q5, q4, [x29, #-64]
	ldr q4, [x8, IN_PAGE(L(201_140))]
	movi v5.2d, #0x0
	adrp x8, PAGE(L(201_141))
	stp q17, q16, [sp, #160]
	stp q4, q6, [sp, #96]
	stp q4, q6, [x29, #-32]
	movi v6.2d, #0x0
	ldr q4, [x8, IN_PAGE(L(201_141))]
	stp q7, q4, [sp, #64]
	bl ring_core.digest.sha2.by_fours.run_ahead.34389943500e16fa
	ldp x8, x9, [x21]
	ldp q19, q17, [x29, #-192]
	ldp q18, q16, [x29, #-160]
	adds x8, x8, #0x1
	adcs x9, x9, xzr
	str d19, [sp, #352]
	csinv x24, x8, xzr, cc
	csinv x23, x9, xzr, cc
	stp x24, x23, [x21]
	ldr w8, [x22, #40]
	cmp w8, #0x2
	b.cc L(106_1)
	mov x9, v19.d[1]
	mov x10, v17.d[1]
	add x22, sp, #0xe0
	mov x11, v18.d[1]
	mov x12, v16.d[1]
	sub w25, w8, #0x1
	fmov d2, d18
	fmov d0, d19
	fmov d1, d17
	fmov d3, d16
	fmov d7, x9
	fmov d5, x10
	fmov d6, x11
	fmov d4, x12
L(106_0):
	mov v0.d[1], v7.d[0]
	mov v1.d[1], v5.d[0]
	sub x0, x29, #0x80
	ldp q5, q7, [sp, #224]
	mov v3.d[1], v4.d[0]
	mov v2.d[1], v6.d[0]
	sub x1, x29, #0xc0
	stp q19, q18, [sp]
	stp q17, q16, [sp, #32]
	sub x26, x29, #0xc0
	stp q5, q7, [x29, #-192]
	ldp q4, q5, [sp, #256]
	ldp q6, q7, [sp, #192]
	stp q4, q5, [x29, #-160]
	ldp q4, q5, [sp, #160]
	add v6.2d, v0.2d, v6.2d
	add v7.2d, v1.2d, v7.2d
	add v4.2d, v2.2d, v4.2d
	add v5.2d, v3.2d, v5.2d
	stp q6, q7, [x29, #-128]
	movi v6.2d, #0x0
	stp q4, q5, [x29, #-96]
	ldr q4, [sp, #144]
	movi v5.2d, #0x0
	stur q4, [x29, #-48]
	ldr q4, [sp, #128]
	stur q4, [x29, #-64]
	ldr q4, [sp, #112]
	stur q4, [x29, #-16]
	ldr q4, [sp, #96]
	stur q4, [x29, #-32]
	ldp q7, q4, [sp, #64]
	bl ring_core.digest.sha2.by_fours.run_ahead.34389943500e16fa
	ldp q3, q4, [x22, #64]
	add x9, x26, #0x28
	ldur d2, [x29, #-160]
	ldur q1, [x29, #-176]
	orr x8, x26, #0x8
	ldur d0, [x29, #-192]
	sub x0, x29, #0x80
	add x1, sp, #0x160
	stp q3, q4, [sp, #352]
	ldp q4, q5, [x22, #96]
	ldp q7, q3, [sp, #192]
	ld1 {v2.d}[1], [x9]
	ld1 {v0.d}[1], [x8]
	stp q4, q5, [sp, #384]
	ldp q5, q4, [sp, #160]
	add v6.2d, v1.2d, v3.2d
	ldur q3, [x29, #-144]
	add v7.2d, v0.2d, v7.2d
	add v4.2d, v3.2d, v4.2d
	add v5.2d, v2.2d, v5.2d
	stp q7, q6, [x29, #-128]
	movi v6.2d, #0x0
	stp q5, q4, [x29, #-96]
	ldr q4, [sp, #144]
	movi v5.2d, #0x0
	stur q4, [x29, #-48]
	ldr q4, [sp, #128]
	stur q4, [x29, #-64]
	ldr q4, [sp, #112]
	stur q4, [x29, #-16]
	ldr q4, [sp, #96]
	stur q4, [x29, #-32]
	ldp q7, q4, [sp, #64]
	bl ring_core.digest.sha2.by_fours.run_ahead.34389943500e16fa
	ldp q2, q3, [sp, #384]
	adds x10, x24, #0x2
	ldp q0, q1, [sp, #352]
	adcs x11, x23, xzr
	ldp q19, q18, [sp]
	csinv x23, x11, xzr, cc
	mov x8, v3.d[1]
	mov x12, v2.d[1]
	csinv x24, x10, xzr, cc
	mov x9, v1.d[1]
	ldp q17, q16, [sp, #32]
	eor v18.16b, v2.16b, v18.16b
	eor v19.16b, v0.16b, v19.16b
	subs w25, w25, #0x1
	stp x24, x23, [x21]
	fmov d4, x8
	mov x8, v0.d[1]
	eor v16.16b, v3.16b, v16.16b
	fmov d5, x9
	eor v17.16b, v1.16b, v17.16b
	fmov d6, x12
	fmov d7, x8
	b.ne L(106_0)
L(106_1):
	rev64 v0.16b, v19.16b
	rev64 v1.16b, v17.16b
	cmp x20, #0x1
	rev64 v2.16b, v18.16b
	rev64 v3.16b, v16.16b
	stp q0, q1, [x19]
	stp q2, q3, [x19, #32]
	b.eq L(106_2)
	cmp x20, #0x2
	stp q0, q1, [x19, #64]
	stp q2, q3, [x19, #96]
	b.eq L(106_2)
	cmp x20, #0x3
	stp q0, q1, [x19, #128]
	stp q2, q3, [x19, #160]
	b.eq L(106_2)
	cmp x20, #0x4
	stp q0, q1, [x19, #192]
	stp q2, q3, [x19, #224]
	b.eq L(106_2)
	cmp x20, #0x5
	stp q0, q1, [x19, #256]
	stp q2, q3, [x19, #288]
	b.eq L(106_2)
	cmp x20, #0x6
	stp q0, q1, [x19, #320]
	stp q2, q3, [x19, #352]
	b.eq L(106_2)
	cmp x20, #0x7
	stp q0, q1, [x19, #384]
	stp q2, q3, [x19, #416]
	b.eq L(106_2)
	stp q0, q1, [x19, #448]
	stp q2, q3, [x19, #480]
L(106_2):
	add sp, sp, #0x2e0
	ldp x20, x19, [sp, #80]
	ldr x28, [sp, #16]
	ldp x22, x21, [sp, #64]
	ldp x24, x23, [sp, #48]
	ldp x26, x25, [sp, #32]
	ldp x29, x30, [sp], #96
	ret
L(106_3):
	brk #0x1
	SIZE(ring.pbkdf2.rounds.xor_iterates.a07252785532c1ed, 960)

	CODE(ring.pbkdf2.rounds.xor_iterates.198a8405ffd9f092)
	.p2align 2
/* ring::pbkdf2::rounds::xor_iterates::<#198a8405ffd9f092> */
	TYPE(ring.pbkdf2.rounds.xor_iterates.198a8405ffd9f092, %function)
ring.pbkdf2.rounds.xor_iterates.198a8405ffd9f092:
	stp x29, x30, [sp, #-96]!
	str x28, [sp, #16]
	mov x29, sp
	stp x26, x25, [sp, #32]
	stp x24, x23, [sp, #48]
	stp x22, x21, [sp, #64]
	stp x20, x19, [sp, #80]
	sub sp, sp, #0x2e0
	movi v0.2d, #0x0
	ldrb w9, [x1]
	add x8, sp, #0x160
	str xzr, [sp, #408]
	stur q0, [x8, #40]
	stur q0, [x8, #24]
	stur q0, [x8, #8]
	cbnz w9, L(108_3)
	ldrb w8, [x1, #576]
	cbnz w8, L(108_3)
	ldur q0, [x1, #8]
	ldur q1, [x1, #24]
	add x8, x1, #0x248
	ldur q2, [x1, #40]
	stp q0, q1, [sp, #224]
	ldur q0, [x1, #56]
	stp q2, q0, [sp, #256]
	ldp q2, q1, [x8, #32]
	stp q2, q1, [sp, #320]
	ldp q0, q1, [x8]
	ldrb w8, [x1, #1152]
	stp q0, q1, [sp, #288]
	cbnz w8, L(108_3)
	add x8, x1, #0x488
	ldp q2, q3, [sp, #288]
	ldp q0, q1, [x8]
	adrp x8, PAGE(L(201_144))
	ldr q4, [x8, IN_PAGE(L(201_144))]
	adrp x8, PAGE(L(201_143))
	movi v6.2d, #0x0
	stp q2, q3, [x29, #-192]
	ldp q2, q3, [sp, #320]
	ldr q5, [x8, IN_PAGE(L(201_143))]
	adrp x8, PAGE(L(201_145))
	adrp x9, PAGE(L(201_152))
	ldr q7, [x9, IN_PAGE(L(201_152))]
	mov x22, x0
	sub x0, x29, #0x80
	stp q5, q4, [sp, #176]
	add v4.2d, v1.2d, v4.2d
	add v5.2d, v0.2d, v5.2d
	stp q2, q3, [x29, #-160]
	ldr q2, [x8, IN_PAGE(L(201_145))]
	adrp x8, PAGE(L(201_146))
	ldr q3, [x8, IN_PAGE(L(201_146))]
	adrp x8, PAGE(L(201_147))
	sub x1, x29, #0xc0
	stp q5, q4, [x29, #-128]
	ldr q4, [x8, IN_PAGE(L(201_147))]
	adrp x8, PAGE(L(201_148))
	stp q3, q2, [sp, #144]
	movi v5.2d, #0x0
	mov x21, x4
	stp q3, q2, [x29, #-96]
	ldr q2, [x8, IN_PAGE(L(201_148))]
	adrp x8, PAGE(L(201_149))
	ldr q3, [x8, IN_PAGE(L(201_149))]
	adrp x8, PAGE(L(201_150))
	mov x20, x3
	stp q2, q4, [sp, #112]
	mov x19, x2
	stp q2, q4, [x29, #-64]
	ldr q2, [x8, IN_PAGE(L(201_150))]
	movi v4.2d, #0x0
	adrp x8, PAGE(L(201_151))
	stp q2, q3, [sp, #80]
	stp q2, q3, [x29, #-32]
	movi v3.2d, #0x0
	ldr q2, [x8, IN_PAGE(L(201_151))]
	stp q7, q2, [sp, #48]
	bl ring_core.digest.sha2.by_fours.run_ahead.34389943500e16fa
	ldp x8, x9, [x21]
	ldp q5, q2, [x29, #-192]
	ldp q3, q4, [x29, #-160]
	adds x8, x8, #0x1
	adcs x9, x9, xzr
	str d5, [sp, #352]
	csinv x24, x8, xzr, cc
	csinv x23, x9, xzr, cc
	stp x24, x23, [x21]
	ldr w9, [x22, #40]
	cmp w9, #0x2
	b.cc L(108_1)
	mov x8, v5.d[1]
	fmov d0, d5
	add x22, sp, #0xe0
	mov v1.16b, v2.16b
	sub w25, w9, #0x1
L(108_0):
	stp q5, q2, [sp]
	mov v0.d[1], x8
	movi v5.2d, #0x0
	str q3, [sp, #208]
	ldp q2, q3, [sp, #224]
	str q4, [sp, #32]
	movi v6.2d, #0x0
	sub x0, x29, #0x80
	sub x1, x29, #0xc0
	sub x26, x29, #0xc0
	stp q2, q3, [x29, #-192]
	ldp q4, q2, [sp, #256]
	stp q4, q2, [x29, #-160]
	ldp q2, q3, [sp, #176]
	ldr q4, [sp, #160]
	add v2.2d, v0.2d, v2.2d
	add v3.2d, v1.2d, v3.2d
	stur q4, [x29, #-80]
	stur q2, [x29, #-128]
	ldp q2, q4, [sp, #128]
	stp q3, q4, [x29, #-112]
	movi v3.2d, #0x0
	movi v4.2d, #0x0
	stur q2, [x29, #-48]
	ldr q2, [sp, #112]
	stur q2, [x29, #-64]
	ldr q2, [sp, #96]
	stur q2, [x29, #-16]
	ldr q2, [sp, #80]
	stur q2, [x29, #-32]
	ldp q7, q2, [sp, #48]
	bl ring_core.digest.sha2.by_fours.run_ahead.34389943500e16fa
	ldp q1, q2, [x22, #64]
	orr x8, x26, #0x8
	ldr q4, [sp, #160]
	ldur d0, [x29, #-192]
	movi v5.2d, #0x0
	movi v6.2d, #0x0
	sub x0, x29, #0x80
	add x1, sp, #0x160
	stp q1, q2, [sp, #352]
	ldp q2, q3, [x22, #96]
	ldur q1, [x29, #-176]
	stur q4, [x29, #-80]
	ldr q4, [sp, #144]
	ld1 {v0.d}[1], [x8]
	stp q2, q3, [sp, #384]
	ldp q3, q2, [sp, #176]
	add v2.2d, v1.2d, v2.2d
	add v3.2d, v0.2d, v3.2d
	stp q2, q4, [x29, #-112]
	ldr q2, [sp, #128]
	movi v4.2d, #0x0
	stur q3, [x29, #-128]
	movi v3.2d, #0x0
	stur q2, [x29, #-48]
	ldr q2, [sp, #112]
	stur q2, [x29, #-64]
	ldr q2, [sp, #96]
	stur q2, [x29, #-16]
	ldr q2, [sp, #80]
	stur q2, [x29, #-32]
	ldp q7, q2, [sp, #48]
	bl ring_core.digest.sha2.by_fours.run_ahead.34389943500e16fa
	ldp q3, q2, [sp, #384]
	adds x8, x24, #0x2
	ldr q5, [sp, #208]
	ldr q4, [sp, #32]
	adcs x9, x23, xzr
	ldp q0, q1, [sp, #352]
	csinv x24, x8, xzr, cc
	eor v5.16b, v3.16b, v5.16b
	eor v4.16b, v2.16b, v4.16b
	ldr x8, [sp, #360]
	csinv x23, x9, xzr, cc
	subs w25, w25, #0x1
	stp x24, x23, [x21]
	str q5, [sp, #208]
	ldp q5, q2, [sp]
	ldr q3, [sp, #208]
	eor v2.16b, v1.16b, v2.16b
	eor v5.16b, v0.16b, v5.16b
	b.ne L(108_0)
L(108_1):
	rev64 v0.16b, v5.16b
	rev64 v1.16b, v2.16b
	cmp x20, #0x1
	rev64 v2.16b, v3.16b
	rev64 v3.16b, v4.16b
	stp q0, q1, [x19]
	stp q2, q3, [x19, #32]
	b.eq L(108_2)
	cmp x20, #0x2
	stp q0, q1, [x19, #64]
	stp q2, q3, [x19, #96]
	b.eq L(108_2)
	cmp x20, #0x3
	stp q0, q1, [x19, #128]
	stp q2, q3, [x19, #160]
	b.eq L(108_2)
	cmp x20, #0x4
	stp q0, q1, [x19, #192]
	stp q2, q3, [x19, #224]
	b.eq L(108_2)
	cmp x20, #0x5
	stp q0, q1, [x19, #256]
	stp q2, q3, [x19, #288]
	b.eq L(108_2)
	cmp x20, #0x6
	stp q0, q1, [x19, #320]
	stp q2, q3, [x19, #352]
	b.eq L(108_2)
	cmp x20, #0x7
	stp q0, q1, [x19, #384]
	stp q2, q3, [x19, #416]
	b.eq L(108_2)
	stp q0, q1, [x19, #448]
	stp q2, q3, [x19, #480]
L(108_2):
	add sp, sp, #0x2e0
	ldp x20, x19, [sp, #80]
	ldr x28, [sp, #16]
	ldp x22, x21, [sp, #64]
	ldp x24, x23, [sp, #48]
	ldp x26, x25, [sp, #32]
	ldp x29, x30, [sp], #96
	ret
L(108_3):
	brk #0x1
	SIZE(ring.pbkdf2.rounds.xor_iterates.198a8405ffd9f092, 888)

	CODE(ring_c.tls13.finished_tag)
	.p2align 2
/* ring_c::tls13::finished_tag */
	TYPE(ring_c.tls13.finished_tag, %function)
ring_c.tls13.finished_tag:
	stp x29, x30, [sp, #-80]!
	stp x28, x25, [sp, #16]
	mov x29, sp
	stp x24, x23, [sp, #32]
	stp x22, x21, [sp, #48]
	stp x20, x19, [sp, #64]
	sub sp, sp, #0x570
	movi v0.2d, #0x0
	mov x21, x4
	mov x19, x0
	sub x0, x29, #0xd0
	add x4, sp, #0x3b0
	str xzr, [sp]
	mov x20, x5
	mov w22, w1
	stp xzr, xzr, [sp, #288]
	stp xzr, xzr, [sp, #80]
	stp q0, q0, [sp]
	stp q0, q0, [sp, #32]
	stp q0, q0, [sp, #496]
	stp q0, q0, [sp, #528]
	stp q0, q0, [sp, #560]
	stp q0, q0, [sp, #592]
	stp q0, q0, [sp, #624]
	stp q0, q0, [sp, #656]
	strb wzr, [sp, #64]
	str xzr, [sp, #984]
	str xzr, [sp, #976]
	stp q0, q0, [sp, #944]
	stp q0, q0, [x29, #-192]
	stp q0, q0, [x29, #-160]
	stp q0, q0, [x29, #-128]
	stp q0, q0, [x29, #-96]
	stp q0, q0, [x29, #-64]
	stp q0, q0, [x29, #-32]
	stur q0, [x29, #-208]
	bl ring.hmac.key.Key.new_counted
	ldurb w8, [x29, #-208]
	cbnz w8, L(110_0)
	ldp q0, q1, [x29, #-64]
	add x24, sp, #0x3d0
	add x8, sp, #0x120
	adrp x9, PAGE(L(switch.table.yz_webhook_verify_stripe))
	add x9, x9, IN_PAGE(L(switch.table.yz_webhook_verify_stripe))
	adrp x1, PAGE(L(202_40))
	add x1, x1, IN_PAGE(L(202_40))
	adrp x3, PAGE(L(static.8))
	add x3, x3, IN_PAGE(L(static.8))
	stur q0, [x24, #143]
	add x0, sp, #0x2f0
	ldp q0, q2, [x29, #-32]
	stur q1, [x24, #159]
	add x5, sp, #0x2b0
	mov w2, #0x8
	mov x4, xzr
	add x25, sp, #0x50
	stur q0, [x24, #175]
	ldp q0, q1, [x29, #-128]
	stur q2, [x24, #191]
	stur q0, [x24, #79]
	stur q1, [x24, #95]
	ldp q0, q1, [x29, #-96]
	stur q0, [x24, #111]
	stur q1, [x24, #127]
	ldp q0, q1, [x29, #-192]
	stur q0, [x24, #15]
	stur q1, [x24, #31]
	ldp q0, q1, [x29, #-160]
	stur q0, [x24, #47]
	ldur q0, [x24, #143]
	stur q1, [x24, #63]
	ldur q1, [x24, #159]
	stur q0, [x8, #143]
	ldur q0, [x24, #175]
	stur q1, [x8, #159]
	ldur q1, [x24, #191]
	stur q0, [x8, #175]
	ldur q0, [x24, #79]
	stur q1, [x8, #191]
	ldur q1, [x24, #95]
	ldur q2, [x8, #175]
	stur q0, [x8, #79]
	ldur q0, [x24, #111]
	stur q1, [x8, #95]
	ldur q1, [x24, #127]
	stur q0, [x8, #111]
	ldur q0, [x24, #15]
	stur q1, [x8, #127]
	ldur q1, [x24, #31]
	stur q0, [x8, #15]
	ldur q0, [x24, #47]
	stur q1, [x8, #31]
	ldur q1, [x24, #63]
	stur q0, [x8, #47]
	ldur q0, [x8, #143]
	stur q1, [x8, #63]
	ldur q1, [x8, #159]
	stp q0, q1, [sp, #880]
	ldur q0, [x8, #191]
	ldur q1, [x8, #79]
	stp q2, q0, [sp, #912]
	ldur q0, [x8, #95]
	ldur q2, [x8, #111]
	stp q1, q0, [sp, #816]
	ldur q0, [x8, #127]
	ldur q1, [x8, #15]
	stp q2, q0, [sp, #848]
	ldur q0, [x8, #31]
	ldur q2, [x8, #47]
	stp q1, q0, [sp, #752]
	ldur q0, [x8, #63]
	and x8, x22, #0xff
	ldr x23, [x9, x8, lsl #3]
	stp q2, q0, [sp, #784]
	movi v0.2d, #0x0
	mov x6, x23
	stp q0, q0, [sp, #688]
	stp q0, q0, [sp, #720]
	bl ring_schedules.label.fill_by_label
	movi v0.2d, #0x0
	sub x0, x29, #0xd0
	add x2, sp, #0x2b0
	add x4, sp, #0x3d0
	mov w1, w22
	mov x3, x23
	stp q0, q0, [x29, #-208]
	stp q0, q0, [x29, #-176]
	stp q0, q0, [x29, #-144]
	stp q0, q0, [x29, #-112]
	stp q0, q0, [x29, #-80]
	stp q0, q0, [x29, #-48]
	stur q0, [x29, #-16]
	stp q0, q0, [sp, #976]
	bl ring.hmac.key.Key.new_counted
	ldp q0, q1, [x29, #-64]
	ldurb w8, [x29, #-208]
	stur q0, [x25, #143]
	stur q1, [x25, #159]
	ldp q0, q1, [x29, #-32]
	stur q0, [x25, #175]
	stur q1, [x25, #191]
	ldp q0, q1, [x29, #-128]
	stur q0, [x25, #79]
	stur q1, [x25, #95]
	ldp q0, q1, [x29, #-96]
	stur q0, [x25, #111]
	stur q1, [x25, #127]
	ldp q0, q1, [x29, #-192]
	stur q0, [sp, #95]
	stur q1, [sp, #111]
	ldp q0, q1, [x29, #-160]
	stur q0, [sp, #127]
	stur q1, [x25, #63]
	cbnz w8, L(110_0)
	ldur q0, [x25, #143]
	ldur q1, [x25, #159]
	sub x0, x29, #0xd0
	ldur q2, [x25, #175]
	ldur q3, [x25, #47]
	add x1, sp, #0x1f0
	stp q0, q1, [sp, #624]
	ldur q0, [x25, #191]
	add x4, sp, #0x3d0
	ldur q1, [x25, #79]
	mov x2, x21
	mov x3, x20
	stp q2, q0, [sp, #656]
	ldur q0, [x25, #95]
	ldur q2, [x25, #111]
	sturh wzr, [x29, #-144]
	sub x22, x29, #0xd0
	stp q1, q0, [sp, #560]
	ldur q0, [x25, #127]
	ldur q1, [x25, #15]
	stp q2, q0, [sp, #592]
	ldur q0, [x25, #31]
	movi v2.2d, #0x0
	stp q1, q0, [sp, #496]
	ldur q0, [x25, #63]
	stp q3, q0, [sp, #528]
	stp q2, q2, [x29, #-208]
	stp q2, q2, [x29, #-176]
	stp q2, q2, [sp, #976]
	bl ring.hmac.sign_counted
	ldur q0, [x24, #241]
	ldur q1, [x22, #49]
	ldurb w8, [x29, #-143]
	ldurb w9, [x29, #-208]
	stp q0, q1, [sp, #32]
	ldur q0, [x24, #225]
	ldur q1, [x22, #1]
	strb w8, [sp, #64]
	stp q1, q0, [sp]
	cbnz w9, L(110_0)
	ldp q0, q1, [sp, #32]
	ldrb w8, [sp, #64]
	strb w8, [x19, #64]
	stp q0, q1, [x19, #32]
	ldp q1, q0, [sp]
	stp q1, q0, [x19]
	add sp, sp, #0x570
	ldp x20, x19, [sp, #64]
	ldp x22, x21, [sp, #48]
	ldp x24, x23, [sp, #32]
	ldp x28, x25, [sp, #16]
	ldp x29, x30, [sp], #80
	ret
L(110_0):
	brk #0x1
	SIZE(ring_c.tls13.finished_tag, 832)

	CODE(ring_tokens.webhook.is_named)
	.p2align 2
/* ring_tokens::webhook::is_named */
	TYPE(ring_tokens.webhook.is_named, %function)
ring_tokens.webhook.is_named:
	movi v0.2d, #0x0
	subs x8, x5, x1
	stp q0, q0, [sp, #-64]!
	stp q0, q0, [sp, #32]
	b.cc L(112_9)
	mov x9, x4
	mov x10, x1
	cbz x1, L(112_1)
L(112_0):
	ldrb w11, [x9], #1
	ldrb w12, [x0], #1
	cmp w11, w12
	b.ne L(112_9)
	subs x10, x10, #0x1
	b.ne L(112_0)
L(112_1):
	add x9, x4, x1
	sub x10, x1, x5
L(112_2):
	cbz x10, L(112_3)
	ldrb w11, [x9], #1
	add x10, x10, #0x1
	sub w11, w11, #0x5b
	cmn w11, #0x1a
	b.cc L(112_2)
	b L(112_9)
L(112_3):
	tbnz w8, #0, L(112_9)
	lsr x8, x8, #1
	cmp x8, x3
	b.ne L(112_9)
	cbz x3, L(112_13)
	add x8, x1, x4
	mov x9, sp
	mov x10, x3
	add x8, x8, #0x1
	b L(112_6)
L(112_4):
	sub w13, w12, #0x37
L(112_5):
	add w11, w13, w11, lsl #4
	add x8, x8, #0x2
	subs x10, x10, #0x1
	strb w11, [x9], #1
	mov w11, #0x1
	b.eq L(112_10)
L(112_6):
	ldurb w13, [x8, #-1]
	subs w11, w13, #0x30
	b.cc L(112_9)
	ldrb w12, [x8]
	cmp w13, #0x39
	b.ls L(112_8)
	cmp w13, #0x41
	b.cc L(112_9)
	cmp w13, #0x46
	b.hi L(112_7)
	sub w11, w13, #0x37
	b L(112_8)
L(112_7):
	sub w11, w13, #0x61
	cmp w11, #0x5
	b.hi L(112_9)
	sub w11, w13, #0x57
L(112_8):
	subs w13, w12, #0x30
	b.cc L(112_9)
	cmp w12, #0x39
	b.ls L(112_5)
	cmp w12, #0x41
	b.cc L(112_9)
	cmp w12, #0x46
	b.ls L(112_4)
	sub w13, w12, #0x61
	cmp w13, #0x5
	b.hi L(112_9)
	sub w13, w12, #0x57
	b L(112_5)
L(112_9):
	mov w11, wzr
	mov w0, wzr
	cbz x3, L(112_12)
L(112_10):
	ldp x12, x9, [x6, #16]
	mov w8, wzr
	mov x10, sp
L(112_11):
	ldrb w13, [x2], #1
	adds x12, x12, #0x1
	ldrb w14, [x10], #1
	adcs x9, x9, xzr
	csinv x9, x9, xzr, cc
	csinv x12, x12, xzr, cc
	subs x3, x3, #0x1
	eor w13, w14, w13
	stp x12, x9, [x6, #16]
	orr w8, w13, w8
	b.ne L(112_11)
	cmp w8, #0x0
	csel w0, wzr, w11, ne
L(112_12):
	add sp, sp, #0x40
	ret
L(112_13):
	mov w0, #0x1
	add sp, sp, #0x40
	ret
	SIZE(ring_tokens.webhook.is_named, 372)

	CODE(yz_block_len)
	.p2align 2
	.globl yz_block_len
	TYPE(yz_block_len, %function)
yz_block_len:
	sub w8, w0, #0x1
	cmp w8, #0x4
	b.hi L(113_0)
	adrp x9, PAGE(L(switch.table.yz_hmac_final))
	add x9, x9, IN_PAGE(L(switch.table.yz_hmac_final))
	ldr x0, [x9, w8, uxtw #3]
	ret
L(113_0):
	mov x0, xzr
	ret
	SIZE(yz_block_len, 36)

	CODE(yz_clear)
	.p2align 2
	.globl yz_clear
	TYPE(yz_clear, %function)
yz_clear:
	mov w8, #0x1000
	cmp x0, #0x0
	csel x8, x8, xzr, eq
	cbz x1, L(115_1)
	stp x29, x30, [sp, #-32]!
	stp x20, x19, [sp, #16]
	subs x19, x1, #0x1
	add x20, x0, x8
	mov x29, sp
	b.eq L(115_0)
	mov x0, x20
	mov w1, wzr
	mov x2, x19
	bl memset
L(115_0):
	strb wzr, [x20, x19]
	ldp x20, x19, [sp, #16]
	ldp x29, x30, [sp], #32
L(115_1):
	ret
	SIZE(yz_clear, 72)

	CODE(yz_digest)
	.p2align 2
	.globl yz_digest
	TYPE(yz_digest, %function)
yz_digest:
	sub sp, sp, #0xf0
	cmp x1, #0x0
	mov w10, #0x1000
	sub w8, w0, #0x1
	csel x9, x10, xzr, eq
	cmp x3, #0x0
	stp x20, x19, [sp, #224]
	csel x19, x10, xzr, eq
	cmp w8, #0x4
	stp x29, x30, [sp, #192]
	stp x22, x21, [sp, #208]
	add x29, sp, #0xc0
	b.hi L(117_0)
	adrp x20, PAGE(L(switch.table.yz_webhook_verify_stripe))
	add x20, x20, IN_PAGE(L(switch.table.yz_webhook_verify_stripe))
	ldr x10, [x20, w8, uxtw #3]
	cmp x4, x10
	b.ne L(117_1)
	movi v0.2d, #0x0
	mov x21, x3
	sub x0, x29, #0x50
	mov x3, x2
	add x2, x1, x9
	add x4, sp, #0x50
	mov w1, w8
	sturh wzr, [x29, #-16]
	sub x22, x29, #0x50
	stp q0, q0, [x29, #-80]
	stp q0, q0, [x29, #-48]
	stp q0, q0, [sp, #80]
	bl ring.digest.context.digest_counted
	ldur q0, [x22, #33]
	ldur q1, [x22, #49]
	ldurb w8, [x29, #-15]
	ldurb w9, [x29, #-80]
	stp q0, q1, [sp, #32]
	ldur q0, [x22, #17]
	ldur q1, [x29, #-79]
	strb w8, [sp, #64]
	stp q1, q0, [sp]
	cbz w9, L(117_2)
	mov w0, #0x8
	ldp x20, x19, [sp, #224]
	ldp x22, x21, [sp, #208]
	ldp x29, x30, [sp, #192]
	add sp, sp, #0xf0
	ret
L(117_0):
	mov w0, #0x1
	ldp x20, x19, [sp, #224]
	ldp x22, x21, [sp, #208]
	ldp x29, x30, [sp, #192]
	add sp, sp, #0xf0
	ret
L(117_1):
	mov w0, #0x4
	ldp x20, x19, [sp, #224]
	ldp x22, x21, [sp, #208]
	ldp x29, x30, [sp, #192]
	add sp, sp, #0xf0
	ret
L(117_2):
	ldrb w8, [sp, #64]
	add x0, x21, x19
	mov x1, sp
	ldr x2, [x20, x8, lsl #3]
	bl memcpy
	mov w0, wzr
	ldp x20, x19, [sp, #224]
	ldp x22, x21, [sp, #208]
	ldp x29, x30, [sp, #192]
	add sp, sp, #0xf0
	ret
	SIZE(yz_digest, 280)

	CODE(yz_digest_each)
	.p2align 2
	.globl yz_digest_each
	TYPE(yz_digest_each, %function)
yz_digest_each:
	stp x29, x30, [sp, #-96]!
	stp x28, x27, [sp, #16]
	mov x29, sp
	stp x26, x25, [sp, #32]
	stp x24, x23, [sp, #48]
	stp x22, x21, [sp, #64]
	stp x20, x19, [sp, #80]
	sub sp, sp, #0x650
	mov w9, #0x1000
	cmp x1, #0x0
	mov w8, w0
	csel x10, x9, xzr, eq
	cmp x3, #0x0
	str xzr, [sp]
	csel x9, x9, xzr, eq
	cmp w0, #0x2
	mov w0, #0x1
	b.le L(119_0)
	cmp w8, #0x3
	b.eq L(119_2)
	cmp w8, #0x4
	b.eq L(119_3)
	cmp w8, #0x5
	b.ne L(119_19)
	str wzr, [sp, #44]
	mov w20, #0x4
	b L(119_1)
L(119_0):
	cmp w8, #0x1
	b.eq L(119_4)
	cmp w8, #0x2
	b.ne L(119_19)
	mov w8, #0x1
	mov w20, #0x1
	str w8, [sp, #44]
L(119_1):
	mov w8, #0x20
	umulh x11, x8, x2
	mov w0, #0x4
	mul x8, x8, x2
	cmp xzr, x11
	csel x8, xzr, x8, ne
	b.eq L(119_5)
	b L(119_19)
L(119_2):
	str wzr, [sp, #44]
	mov w20, #0x2
	mov w8, #0x30
	umulh x11, x8, x2
	mov w0, #0x4
	mul x8, x8, x2
	cmp xzr, x11
	csel x8, xzr, x8, ne
	b.eq L(119_5)
	b L(119_19)
L(119_3):
	mov w20, #0x3
	mov w8, #0x40
	str wzr, [sp, #44]
	umulh x11, x8, x2
	mov w0, #0x4
	mul x8, x8, x2
	cmp xzr, x11
	csel x8, xzr, x8, ne
	b.eq L(119_5)
	b L(119_19)
L(119_4):
	mov w20, wzr
	str w8, [sp, #44]
	mov w8, #0x14
	umulh x11, x8, x2
	mov w0, #0x4
	mul x8, x8, x2
	cmp xzr, x11
	csel x8, xzr, x8, ne
	b.ne L(119_19)
L(119_5):
	cmp x8, x4
	b.ne L(119_19)
	adrp x8, PAGE(L(switch.table.yz_webhook_verify_stripe))
	add x8, x8, IN_PAGE(L(switch.table.yz_webhook_verify_stripe))
	movi v0.2d, #0x0
	ldr x8, [x8, w20, uxtw #3]
	mov w0, #0x8
	umulh x11, x8, x2
	stp q0, q0, [sp, #48]
	mul x8, x8, x2
	cmp xzr, x11
	csel x8, xzr, x8, ne
	b.ne L(119_19)
	cmp x8, x4
	b.ne L(119_19)
	ldr w8, [sp, #44]
	cmp x2, #0x0
	add x11, x1, x10
	str x11, [sp, #24]
	eor w8, w8, #0x1
	csinc w8, w8, wzr, ne
	tbnz w8, #0, L(119_7)
	add x8, x1, x10
	ldr x8, [x8, #8]
	lsr x8, x8, #61
	cbnz x8, L(119_19)
	add x8, x10, x1
	add x10, x8, #0x18
	mov x8, x2
L(119_6):
	subs x8, x8, #0x1
	b.eq L(119_7)
	ldr x11, [x10], #16
	mov w0, #0x8
	lsr x11, x11, #61
	cbz x11, L(119_6)
	b L(119_19)
L(119_7):
	movi v0.2d, #0x0
	add x8, sp, #0x50
	strb w20, [sp, #144]
	strb w20, [sp, #209]
	strb w20, [sp, #274]
	strb w20, [sp, #339]
	stur q0, [x8, #97]
	stur q0, [x8, #113]
	stur q0, [x8, #130]
	stur q0, [x8, #146]
	stur q0, [x8, #162]
	stur q0, [x8, #178]
	stur q0, [x8, #195]
	stur q0, [x8, #211]
	stur q0, [x8, #227]
	stur q0, [x8, #243]
	add x8, sp, #0x50
	add x10, x8, #0x104
	stp q0, q0, [sp, #80]
	stp q0, q0, [x10]
	stp q0, q0, [x10, #32]
	add x10, x8, #0x145
	stp q0, q0, [x10]
	stp q0, q0, [x10, #32]
	add x10, x8, #0x186
	stp q0, q0, [x10]
	stp q0, q0, [x10, #32]
	add x10, x8, #0x1c7
	stp q0, q0, [x10]
	stp q0, q0, [x10, #32]
	add x10, x8, #0x208
	stp q0, q0, [x10]
	stp q0, q0, [x10, #32]
	add x10, x8, #0x249
	stp q0, q0, [x10]
	stp q0, q0, [x10, #32]
	add x10, x8, #0x28a
	stp q0, q0, [x10]
	stp q0, q0, [x10, #32]
	add x10, x8, #0x2cb
	stp q0, q0, [x10]
	stp q0, q0, [x10, #32]
	add x10, x8, #0x30c
	stp q0, q0, [x10]
	stp q0, q0, [x10, #32]
	add x10, x8, #0x34d
	stp q0, q0, [x10]
	stp q0, q0, [x10, #32]
	add x10, x8, #0x38e
	stp q0, q0, [x10]
	stp q0, q0, [x10, #32]
	add x10, x8, #0x3cf
	stp q0, q0, [sp, #112]
	stur q0, [sp, #145]
	stur q0, [sp, #161]
	strb w20, [sp, #404]
	strb w20, [sp, #469]
	strb w20, [sp, #534]
	strb w20, [sp, #599]
	strb w20, [sp, #664]
	strb w20, [sp, #729]
	strb w20, [sp, #794]
	strb w20, [sp, #859]
	strb w20, [sp, #924]
	strb w20, [sp, #989]
	strb w20, [sp, #1054]
	stp q0, q0, [x10]
	stp q0, q0, [x10, #32]
	strb w20, [sp, #1119]
	cbz x2, L(119_18)
	add x27, x3, x9
	ldr w9, [sp, #44]
	mov w10, #0x40
	add x8, x8, #0x40
	mov x11, xzr
	mov x26, xzr
	cmp w9, #0x0
	mov w9, #0x80
	add x28, sp, #0x4a0
	csel x25, x10, x9, ne
	stp x8, x2, [sp, #8]
L(119_8):
	sub x9, x2, x11
	mov w10, #0x10
	mov x23, xzr
	cmp x9, #0x10
	csel x19, x9, x10, cc
	ldr x9, [sp, #24]
	add x8, x19, x11
	add x24, x9, x11, lsl #4
	str x8, [sp, #32]
	b L(119_12)
L(119_9):
	add x1, x28, #0x10
	add x4, sp, #0x30
	mov w0, w20
	mov x3, x21
	bl ring.digest.block_context.run_blocks
	ldr x8, [sp, #1184]
	ldr x9, [sp, #1192]
	sub x10, x21, x1
	ldrb w22, [sp, #1272]
	mov x2, x0
	mov x21, x1
	adds x8, x10, x8
	adcs x9, x9, xzr
	csinv x8, x8, xzr, cc
	csinv x9, x9, xzr, cc
	str x8, [sp, #1184]
	str x9, [sp, #1192]
L(119_10):
	movi v0.2d, #0x0
	adds x8, x21, x8
	add x6, sp, #0x540
	adcs x9, x9, xzr
	mov w0, w22
	mov x1, x2
	csinv x4, x8, xzr, cc
	csinv x5, x9, xzr, cc
	mov x2, x21
	str q0, [sp, #1328]
	str q0, [sp, #1312]
	str q0, [sp, #1296]
	str q0, [sp, #1280]
	str q0, [sp, #1344]
	str q0, [sp, #1360]
	str q0, [sp, #1376]
	str q0, [sp, #1392]
	str q0, [sp, #1408]
	str q0, [sp, #1424]
	str q0, [sp, #1440]
	str q0, [sp, #1456]
	str q0, [sp, #1472]
	str q0, [sp, #1488]
	str q0, [sp, #1504]
	str q0, [sp, #1520]
	str q0, [sp, #1536]
	str q0, [sp, #1552]
	str q0, [sp, #1568]
	str q0, [sp, #1584]
	bl ring.digest.block_context.write_tail
	mov x3, x0
	add x0, sp, #0x500
	add x1, sp, #0x4a0
	add x2, sp, #0x540
	add x4, sp, #0x30
	bl ring.digest.block_context.BlockContext.output_after
	add x8, x23, x23, lsl #6
	ldr q0, [sp, #1328]
	ldr q1, [sp, #1312]
	ldr q2, [sp, #1296]
	ldr q3, [sp, #1280]
	add x9, sp, #0x50
	add x8, x9, x8
	str q0, [sp, #1168]
	add x23, x23, #0x1
	str q1, [sp, #1152]
	str q2, [sp, #1136]
	str q3, [sp, #1120]
	stp q3, q2, [x8]
	stp q1, q0, [x8, #32]
	strb w22, [x8, #64]
L(119_11):
	cmp x23, x19
	b.cs L(119_16)
L(119_12):
	sub x8, x19, x23
	cbz w20, L(119_13)
	cmp w20, #0x1
	b.ne L(119_14)
	adrp x9, PAGE(yz_instructions)
	ldrb w9, [x9, IN_PAGE(yz_instructions)]
	cbnz w9, L(119_14)
	cmp x8, #0x4
	b.cc L(119_14)
	add x8, x23, x23, lsl #6
	add x0, x24, x23, lsl #4
	add x9, sp, #0x50
	add x3, sp, #0x30
	mov w1, #0x4
	add x23, x23, #0x4
	add x2, x9, x8
	bl ring.digest.each.digest_in_lanes.f29589b5fe9bc6cb
	b L(119_11)
L(119_13):
	cmp x8, #0x3
	b.hi L(119_15)
L(119_14):
	add x8, x24, x23, lsl #4
	stp xzr, xzr, [x28, #80]
	ldp x2, x21, [x8]
	ldr w8, [sp, #44]
	tst x21, #0xe000000000000000
	csel w8, wzr, w8, eq
	tbnz w8, #0, L(119_20)
	adrp x8, PAGE(L(switch.table.yz_digest_each_wide.218))
	add x8, x8, IN_PAGE(L(switch.table.yz_digest_each_wide.218))
	adrp x9, PAGE(L(switch.table.yz_digest_each_wide.219))
	add x9, x9, IN_PAGE(L(switch.table.yz_digest_each_wide.219))
	ldr w8, [x8, w20, uxtw #2]
	adrp x10, PAGE(L(switch.table.yz_digest_each_wide.220))
	add x10, x10, IN_PAGE(L(switch.table.yz_digest_each_wide.220))
	ldr w9, [x9, w20, uxtw #2]
	adrp x11, PAGE(L(switch.table.yz_digest_each_wide.221))
	add x11, x11, IN_PAGE(L(switch.table.yz_digest_each_wide.221))
	adrp x13, PAGE(L(switch.table.yz_digest_each_wide.223))
	add x13, x13, IN_PAGE(L(switch.table.yz_digest_each_wide.223))
	ldr x10, [x10, w20, uxtw #3]
	ldr x11, [x11, w20, uxtw #3]
	str w8, [sp, #1200]
	adrp x8, PAGE(L(switch.table.yz_digest_each_wide.224))
	add x8, x8, IN_PAGE(L(switch.table.yz_digest_each_wide.224))
	str w9, [sp, #1204]
	ldr x9, [x13, w20, uxtw #3]
	ldr x8, [x8, w20, uxtw #3]
	adrp x12, PAGE(L(switch.table.yz_digest_each_wide.222))
	add x12, x12, IN_PAGE(L(switch.table.yz_digest_each_wide.222))
	str x10, [sp, #1208]
	adrp x10, PAGE(L(switch.table.yz_digest_each_wide.225))
	add x10, x10, IN_PAGE(L(switch.table.yz_digest_each_wide.225))
	str x11, [sp, #1216]
	adrp x11, PAGE(L(switch.table.yz_digest_each_wide.226))
	add x11, x11, IN_PAGE(L(switch.table.yz_digest_each_wide.226))
	str x9, [sp, #1232]
	adrp x9, PAGE(L(switch.table.yz_digest_each_wide.227))
	add x9, x9, IN_PAGE(L(switch.table.yz_digest_each_wide.227))
	ldr x12, [x12, w20, uxtw #3]
	ldr x10, [x10, w20, uxtw #3]
	ldr x11, [x11, w20, uxtw #3]
	str x8, [sp, #1240]
	ldr x8, [x9, w20, uxtw #3]
	cmp x21, x25
	str xzr, [sp, #1192]
	str xzr, [sp, #1184]
	str x12, [sp, #1224]
	str x10, [sp, #1248]
	str x11, [sp, #1256]
	str x8, [sp, #1264]
	strb w20, [sp, #1272]
	b.cs L(119_9)
	mov x8, xzr
	mov x9, xzr
	mov w22, w20
	b L(119_10)
L(119_15):
	add x8, x23, x23, lsl #6
	add x0, x24, x23, lsl #4
	add x9, sp, #0x50
	add x3, sp, #0x30
	mov w1, #0x4
	add x23, x23, #0x4
	add x2, x9, x8
	bl ring.digest.each.digest_in_lanes.341c8717c19b8f16
	b L(119_11)
L(119_16):
	ldr x22, [sp, #8]
	adrp x23, PAGE(L(switch.table.yz_webhook_verify_stripe))
	add x23, x23, IN_PAGE(L(switch.table.yz_webhook_verify_stripe))
L(119_17):
	sub x1, x22, #0x40
	ldrb w8, [x22], #65
	add x0, x27, x26
	ldr x21, [x23, x8, lsl #3]
	mov x2, x21
	bl memcpy
	subs x19, x19, #0x1
	add x26, x21, x26
	b.ne L(119_17)
	ldr x2, [sp, #16]
	ldr x11, [sp, #32]
	cmp x11, x2
	b.cc L(119_8)
L(119_18):
	mov w0, wzr
L(119_19):
	add sp, sp, #0x650
	ldp x20, x19, [sp, #80]
	ldp x22, x21, [sp, #64]
	ldp x24, x23, [sp, #48]
	ldp x26, x25, [sp, #32]
	ldp x28, x27, [sp, #16]
	ldp x29, x30, [sp], #96
	ret
L(119_20):
	brk #0x1
	SIZE(yz_digest_each, 1516)

	CODE(yz_digest_final)
	.p2align 2
	.globl yz_digest_final
	TYPE(yz_digest_final, %function)
yz_digest_final:
	stp x29, x30, [sp, #-64]!
	str x28, [sp, #16]
	mov x29, sp
	stp x22, x21, [sp, #32]
	stp x20, x19, [sp, #48]
	sub sp, sp, #0x1f0
	ldr w9, [x0]
	mov w8, #0x1000
	cmp x1, #0x0
	csel x20, x8, xzr, eq
	sub w10, w9, #0x1
	cmp w10, #0x4
	b.hi L(121_0)
	adrp x11, PAGE(L(switch.table.yz_hmac_final))
	add x11, x11, IN_PAGE(L(switch.table.yz_hmac_final))
	mov x8, x2
	ldr x11, [x11, w10, uxtw #3]
	ldr w2, [x0, #4]
	cmp x11, x2
	b.ls L(121_0)
	adrp x21, PAGE(L(switch.table.yz_webhook_verify_stripe))
	add x21, x21, IN_PAGE(L(switch.table.yz_webhook_verify_stripe))
	ldr x10, [x21, w10, uxtw #3]
	cmp x8, x10
	b.ne L(121_1)
	movi v0.2d, #0x0
	cmp w9, #0x2
	stp xzr, xzr, [sp, #112]
	stp q0, q0, [sp]
	b.le L(121_2)
	cmp w9, #0x3
	b.eq L(121_3)
	cmp w9, #0x4
	b.ne L(121_4)
	mov w10, wzr
	mov w19, #0x3
	mov w8, #0x80
	cmp x8, x2
	b.hi L(121_6)
	b L(121_9)
L(121_0):
	mov w0, #0x2
	add sp, sp, #0x1f0
	ldp x20, x19, [sp, #48]
	ldr x28, [sp, #16]
	ldp x22, x21, [sp, #32]
	ldp x29, x30, [sp], #64
	ret
L(121_1):
	mov w0, #0x4
	add sp, sp, #0x1f0
	ldp x20, x19, [sp, #48]
	ldr x28, [sp, #16]
	ldp x22, x21, [sp, #32]
	ldp x29, x30, [sp], #64
	ret
L(121_2):
	cmp w9, #0x1
	b.ne L(121_5)
	mov w19, wzr
	mov w10, #0x1
	mov w8, #0x40
	cmp x8, x2
	b.hi L(121_6)
	b L(121_9)
L(121_3):
	mov w10, wzr
	mov w19, #0x2
	mov w8, #0x80
	cmp x8, x2
	b.hi L(121_6)
	b L(121_9)
L(121_4):
	mov w10, wzr
	mov w19, #0x4
	mov w8, #0x80
	cmp x8, x2
	b.hi L(121_6)
	b L(121_9)
L(121_5):
	mov w10, #0x1
	mov w8, #0x40
	mov w19, #0x1
	cmp x8, x2
	b.ls L(121_9)
L(121_6):
	ldp x9, x8, [x0, #8]
	tbz w10, #0, L(121_7)
	ldur q0, [x0, #40]
	ldur q1, [x0, #24]
	movi v2.2d, #0x0
	ldur q3, [x0, #72]
	ldur q4, [x0, #56]
	mov x10, xzr
	uzp1 v0.4s, v1.4s, v0.4s
	mov x12, #0x1fffffffffffffff
	mov w11, #0x1
	uzp1 v1.4s, v4.4s, v3.4s
	str wzr, [sp, #160]
	stp q2, q2, [sp, #128]
	b L(121_8)
L(121_7):
	add x10, x0, #0x18
	ldur d1, [x0, #28]
	ldur q2, [x0, #52]
	ld1 {v0.s}[1], [x10]
	ldur q3, [x0, #68]
	mov w11, wzr
	ldr w10, [x0, #84]
	mov x12, #0xffffffffffffffff
	stp q2, q3, [sp, #128]
	mov v0.d[1], v1.d[0]
	ldur q1, [x0, #36]
	str w10, [sp, #160]
	mov x10, #0x1fffffffffffffff
L(121_8):
	stp x9, x8, [sp, #32]
	adds x9, x2, x9
	adcs x8, x8, xzr
	stur q0, [sp, #52]
	stur q1, [sp, #68]
	ldp q0, q1, [sp, #128]
	csinv x4, x9, xzr, cc
	str w11, [sp, #48]
	ldr w11, [sp, #160]
	csinv x5, x8, xzr, cc
	cmp x12, x4
	strb w19, [sp, #120]
	sbcs xzr, x10, x5
	stur q0, [sp, #84]
	stur q1, [sp, #100]
	str w11, [sp, #116]
	b.cs L(121_10)
L(121_9):
	mov w0, #0x8
	add sp, sp, #0x1f0
	ldp x20, x19, [sp, #48]
	ldr x28, [sp, #16]
	ldp x22, x21, [sp, #32]
	ldp x29, x30, [sp], #64
	ret
L(121_10):
	movi v0.2d, #0x0
	mov x22, x1
	add x1, x0, #0x58
	add x6, sp, #0xf0
	mov w0, w19
	stp q0, q0, [sp, #176]
	stp q0, q0, [sp, #208]
	stp q0, q0, [sp, #240]
	stp q0, q0, [sp, #272]
	stp q0, q0, [sp, #304]
	stp q0, q0, [sp, #336]
	stp q0, q0, [sp, #368]
	stp q0, q0, [sp, #400]
	stp q0, q0, [sp, #432]
	stp q0, q0, [sp, #464]
	bl ring.digest.block_context.write_tail
	mov x3, x0
	add x0, sp, #0xb0
	add x1, sp, #0x20
	add x2, sp, #0xf0
	mov x4, sp
	bl ring.digest.block_context.BlockContext.output_after
	ldp q0, q1, [sp, #176]
	add x0, x22, x20
	ldr x2, [x21, w19, uxtw #3]
	add x1, sp, #0xf0
	strb w19, [sp, #304]
	stp q0, q1, [sp, #240]
	ldp q0, q2, [sp, #208]
	stp q0, q2, [sp, #272]
	bl memcpy
	mov w0, wzr
	add sp, sp, #0x1f0
	ldp x20, x19, [sp, #48]
	ldr x28, [sp, #16]
	ldp x22, x21, [sp, #32]
	ldp x29, x30, [sp], #64
	ret
	SIZE(yz_digest_final, 676)

	CODE(yz_digest_init)
	.p2align 2
	.globl yz_digest_init
	TYPE(yz_digest_init, %function)
yz_digest_init:
	sub sp, sp, #0x90
	cmp w0, #0x2
	mov w8, #0x1
	b.le L(123_0)
	cmp w0, #0x3
	b.eq L(123_1)
	cmp w0, #0x4
	b.eq L(123_2)
	cmp w0, #0x5
	b.ne L(123_7)
	mov x9, #0x2ca2
	mov x10, #0xb8aa
	mov x13, #0x3992
	mov x12, #0xffe3
	mov x15, #0xeabd
	mov x14, #0xb151
	mov x16, #0x64c2
	mov x11, #0xf72c
	movk x9, #0x81c5, lsl #16
	movk x10, #0x2c85, lsl #16
	movk x13, #0x5386, lsl #16
	movk x12, #0xa88e, lsl #16
	movk x15, #0x5940, lsl #16
	movk x14, #0x6f53, lsl #16
	movk x16, #0xc84c, lsl #16
	movk x11, #0xfc2b, lsl #16
	movk x9, #0x2ddc, lsl #32
	movk x10, #0x99fc, lsl #32
	movk x13, #0x1e25, lsl #32
	movk x12, #0x3ee2, lsl #32
	movk x15, #0x7719, lsl #32
	movk x14, #0xb86b, lsl #32
	movk x16, #0x5fa3, lsl #32
	movk x11, #0x2194, lsl #32
	movk x9, #0xeb7, lsl #48
	movk x10, #0x2b01, lsl #48
	movk x13, #0xbe5e, lsl #48
	movk x12, #0x9628, lsl #48
	movk x15, #0x9638, lsl #48
	movk x14, #0x2393, lsl #48
	movk x16, #0x9f55, lsl #48
	movk x11, #0x2231, lsl #48
	b L(123_3)
L(123_0):
	cmp w0, #0x1
	b.eq L(123_4)
	cmp w0, #0x2
	b.ne L(123_7)
	mov x8, #0x688c
	mov x13, #0xf53a
	mov x15, #0xae85
	movk x8, #0x9b05, lsl #16
	movk x13, #0xa54f, lsl #16
	movk x15, #0xbb67, lsl #16
	movk x8, #0xd9ab, lsl #32
	movk x13, #0x527f, lsl #32
	movk x15, #0xf372, lsl #32
	mov w9, #0xcd19
	mov w11, #0xe667
	movk x8, #0x1f83, lsl #48
	movk x13, #0x510e, lsl #48
	movk x15, #0x3c6e, lsl #48
	movk w9, #0x5be0, lsl #16
	movk w11, #0x6a09, lsl #16
	b L(123_5)
L(123_1):
	mov x9, #0x4fa4
	mov x10, #0x8fa7
	mov x13, #0x1511
	mov x12, #0xb31
	mov x15, #0x5939
	mov x14, #0xdd17
	mov x16, #0xd507
	mov x11, #0x9ed8
	movk x9, #0xbefa, lsl #16
	movk x10, #0x64f9, lsl #16
	movk x13, #0x6858, lsl #16
	movk x12, #0xffc0, lsl #16
	movk x15, #0xf70e, lsl #16
	movk x14, #0x3070, lsl #16
	movk x16, #0x367c, lsl #16
	movk x11, #0xc105, lsl #16
	movk x9, #0x481d, lsl #32
	movk x10, #0x2e0d, lsl #32
	movk x13, #0x4a87, lsl #32
	movk x12, #0x2667, lsl #32
	movk x15, #0xecd8, lsl #32
	movk x14, #0x15a, lsl #32
	movk x16, #0x292a, lsl #32
	movk x11, #0x9d5d, lsl #32
	movk x9, #0x47b5, lsl #48
	movk x10, #0xdb0c, lsl #48
	movk x13, #0x8eb4, lsl #48
	movk x12, #0x6733, lsl #48
	movk x15, #0x152f, lsl #48
	movk x14, #0x9159, lsl #48
	movk x16, #0x629a, lsl #48
	movk x11, #0xcbbb, lsl #48
	b L(123_3)
L(123_2):
	mov x9, #0x2179
	mov x10, #0xbd6b
	mov x13, #0x6c1f
	mov x12, #0x82d1
	mov x15, #0x36f1
	mov x14, #0xf82b
	mov x16, #0xa73b
	mov x11, #0xc908
	movk x9, #0x137e, lsl #16
	movk x10, #0xfb41, lsl #16
	movk x13, #0x2b3e, lsl #16
	movk x12, #0xade6, lsl #16
	movk x15, #0x5f1d, lsl #16
	movk x14, #0xfe94, lsl #16
	movk x16, #0x84ca, lsl #16
	movk x11, #0xf3bc, lsl #16
	movk x9, #0xcd19, lsl #32
	movk x10, #0xd9ab, lsl #32
	movk x13, #0x688c, lsl #32
	movk x12, #0x527f, lsl #32
	movk x15, #0xf53a, lsl #32
	movk x14, #0xf372, lsl #32
	movk x16, #0xae85, lsl #32
	movk x11, #0xe667, lsl #32
	movk x9, #0x5be0, lsl #48
	movk x10, #0x1f83, lsl #48
	movk x13, #0x9b05, lsl #48
	movk x12, #0x510e, lsl #48
	movk x15, #0xa54f, lsl #48
	movk x14, #0x3c6e, lsl #48
	movk x16, #0xbb67, lsl #48
	movk x11, #0x6a09, lsl #48
L(123_3):
	movi v0.2d, #0x0
	stur xzr, [sp, #127]
	b L(123_6)
L(123_4):
	mov x13, #0x5476
	mov x15, #0xab89
	mov w11, #0x2301
	movk x13, #0x1032, lsl #16
	movk x15, #0xefcd, lsl #16
	mov x8, xzr
	movk x13, #0xe1f0, lsl #32
	movk x15, #0xdcfe, lsl #32
	mov x9, xzr
	movk x13, #0xc3d2, lsl #48
	movk x15, #0x98ba, lsl #48
	movk w11, #0x6745, lsl #16
L(123_5):
	mov w16, #0xaf8d
	movi v0.2d, #0x0
	lsr x14, x15, #32
	movk w16, #0xffef, lsl #16
	mov w17, #0x688c
	lsr x10, x8, #32
	and x16, x15, x16
	mov w15, #0xf57e
	lsr x12, x13, #32
	movk w15, #0xb57f, lsl #16
	movk w17, #0x9b05, lsl #16
	stur xzr, [sp, #127]
	and x15, x13, x15
	and x13, x8, x17
L(123_6):
	stp q0, q0, [sp, #32]
	stp q0, q0, [sp, #64]
	stp q0, q0, [sp, #96]
	stp q0, q0, [sp]
	ldur q0, [sp, #71]
	mov w8, wzr
	str w0, [x1]
	stur q0, [x1, #152]
	ldur q0, [sp, #87]
	stur xzr, [x1, #12]
	stur q0, [x1, #168]
	ldur q0, [sp, #103]
	stur xzr, [x1, #4]
	stur q0, [x1, #184]
	ldur q0, [sp, #119]
	str wzr, [x1, #20]
	stur q0, [x1, #200]
	ldur q0, [sp, #7]
	stp x11, x16, [x1, #24]
	stur q0, [x1, #88]
	ldur q0, [sp, #23]
	stp x14, x15, [x1, #40]
	stur q0, [x1, #104]
	ldur q0, [sp, #39]
	stp x12, x13, [x1, #56]
	stur q0, [x1, #120]
	ldur q0, [sp, #55]
	stp x10, x9, [x1, #72]
	stur q0, [x1, #136]
L(123_7):
	mov w0, w8
	add sp, sp, #0x90
	ret
	SIZE(yz_digest_init, 760)

	CODE(yz_digest_update)
	.p2align 2
	.globl yz_digest_update
	TYPE(yz_digest_update, %function)
yz_digest_update:
	sub sp, sp, #0x50
	movi v0.2d, #0x0
	ldr w8, [x0]
	cmp x1, #0x0
	mov w10, #0x1000
	stp x29, x30, [sp, #32]
	add x29, sp, #0x20
	sub w9, w8, #0x1
	csel x10, x10, xzr, eq
	str x21, [sp, #48]
	cmp w9, #0x4
	add x8, x1, x10
	stp x20, x19, [sp, #64]
	stp q0, q0, [sp]
	b.hi L(124_3)
	adrp x11, PAGE(L(switch.table.yz_hmac_final))
	add x11, x11, IN_PAGE(L(switch.table.yz_hmac_final))
	ldr w20, [x0, #4]
	ldr x9, [x11, w9, uxtw #3]
	subs x9, x9, x20
	b.ls L(124_3)
	cmp x9, x2
	b.ls L(124_3)
	add x9, x0, x20
	add x9, x9, #0x58
	sub x11, x9, x8
	cmp x11, x2
	b.cs L(124_4)
	cmp x2, #0x8
	b.cc L(124_0)
	add x8, x0, x20
	add x9, x10, x1
	sub x8, x8, x9
	add x8, x8, #0x58
	cmp x8, #0x20
	b.cs L(124_7)
L(124_0):
	mov x8, xzr
L(124_1):
	add x9, x8, x20
	add x10, x10, x8
	sub x8, x2, x8
	add x11, x9, x0
	add x9, x1, x10
	add x10, x11, #0x58
L(124_2):
	ldrb w11, [x9], #1
	subs x8, x8, #0x1
	strb w11, [x10], #1
	b.ne L(124_2)
	b L(124_5)
L(124_3):
	mov x3, sp
	mov x1, x8
	bl ring.raw.context.RawContext.run
	cbnz w0, L(124_6)
	mov w0, #0x2
	ldp x20, x19, [sp, #64]
	ldr x21, [sp, #48]
	ldp x29, x30, [sp, #32]
	add sp, sp, #0x50
	ret
L(124_4):
	mov x21, x0
	mov x0, x9
	mov x1, x8
	mov x19, x2
	bl memmove
	mov x0, x21
	mov x2, x19
L(124_5):
	add w8, w20, w2
	str w8, [x0, #4]
L(124_6):
	mov w0, wzr
	ldp x20, x19, [sp, #64]
	ldr x21, [sp, #48]
	ldp x29, x30, [sp, #32]
	add sp, sp, #0x50
	ret
L(124_7):
	cmp x2, #0x20
	b.cs L(124_8)
	mov x8, xzr
	b L(124_10)
L(124_8):
	add x11, x10, x1
	add x12, x20, x0
	and x9, x2, #0x18
	and x8, x2, #0xffffffffffffffe0
	add x11, x11, #0x10
	add x12, x12, #0x68
	and x13, x2, #0xffffffffffffffe0
L(124_9):
	ldp q0, q1, [x11, #-16]
	subs x13, x13, #0x20
	add x11, x11, #0x20
	stp q0, q1, [x12, #-16]
	add x12, x12, #0x20
	b.ne L(124_9)
	cmp x2, x8
	b.eq L(124_5)
	cbz x9, L(124_1)
L(124_10):
	mov x9, x8
	and x8, x2, #0xfffffffffffffff8
	add x11, x9, x20
	add x12, x10, x9
	sub x9, x9, x8
	add x13, x11, x0
	add x11, x1, x12
	add x12, x13, #0x58
L(124_11):
	ldr d0, [x11], #8
	adds x9, x9, #0x8
	str d0, [x12], #8
	b.ne L(124_11)
	cmp x2, x8
	b.eq L(124_5)
	b L(124_1)
	SIZE(yz_digest_update, 432)

	CODE(yz_equal)
	.p2align 2
	.globl yz_equal
	TYPE(yz_equal, %function)
yz_equal:
	mov w9, #0x1000
	cmp x0, #0x0
	csel x8, x9, xzr, eq
	cmp x2, #0x0
	csel x9, x9, xzr, eq
	cmp x1, x3
	b.ne L(126_0)
	cbz x1, L(126_1)
	cmp x1, #0x8
	b.cs L(126_2)
	mov w11, wzr
	mov x10, xzr
	b L(126_7)
L(126_0):
	mov w0, wzr
	ret
L(126_1):
	mov w0, #0x1
	ret
L(126_2):
	cmp x1, #0x20
	b.cs L(126_3)
	mov x10, xzr
	mov w11, wzr
	b L(126_5)
L(126_3):
	movi v0.2d, #0x0
	movi v1.2d, #0x0
	add x11, x9, x2
	add x13, x8, x0
	and x12, x1, #0x18
	and x10, x1, #0xffffffffffffffe0
	add x11, x11, #0x10
	add x13, x13, #0x10
	and x14, x1, #0xffffffffffffffe0
L(126_4):
	ldp q2, q3, [x13, #-16]
	subs x14, x14, #0x20
	ldp q4, q5, [x11, #-16]
	add x11, x11, #0x20
	add x13, x13, #0x20
	eor v2.16b, v4.16b, v2.16b
	eor v3.16b, v5.16b, v3.16b
	orr v0.16b, v2.16b, v0.16b
	orr v1.16b, v3.16b, v1.16b
	b.ne L(126_4)
	orr v0.16b, v1.16b, v0.16b
	cmp x1, x10
	ext v1.16b, v0.16b, v0.16b, #8
	orr v0.8b, v0.8b, v1.8b
	fmov x11, d0
	orr x11, x11, x11, lsr #32
	orr x11, x11, x11, lsr #16
	lsr x13, x11, #8
	orr w11, w11, w13
	b.eq L(126_9)
	cbz x12, L(126_7)
L(126_5):
	movi v0.2d, #0x0
	mov v0.b[0], w11
	mov x11, x10
	and x10, x1, #0xfffffffffffffff8
	add x12, x2, x11
	add x13, x0, x11
	sub x11, x11, x10
	add x12, x12, x9
	add x13, x13, x8
L(126_6):
	ldr d1, [x13], #8
	adds x11, x11, #0x8
	ldr d2, [x12], #8
	eor v1.8b, v2.8b, v1.8b
	orr v0.8b, v1.8b, v0.8b
	b.ne L(126_6)
	fmov x11, d0
	cmp x1, x10
	orr x11, x11, x11, lsr #32
	orr x11, x11, x11, lsr #16
	lsr x12, x11, #8
	orr w11, w11, w12
	b.eq L(126_9)
L(126_7):
	add x9, x9, x10
	add x12, x8, x10
	sub x8, x1, x10
	add x9, x2, x9
	add x10, x0, x12
L(126_8):
	ldrb w12, [x10], #1
	subs x8, x8, #0x1
	ldrb w13, [x9], #1
	eor w12, w13, w12
	orr w11, w12, w11
	b.ne L(126_8)
L(126_9):
	tst w11, #0xff
	cset w0, eq
	ret
	SIZE(yz_equal, 352)

	CODE(yz_hkdf)
	.p2align 2
	.globl yz_hkdf
	TYPE(yz_hkdf, %function)
yz_hkdf:
	stp x29, x30, [sp, #-96]!
	stp x28, x27, [sp, #16]
	mov x29, sp
	stp x26, x25, [sp, #32]
	stp x24, x23, [sp, #48]
	stp x22, x21, [sp, #64]
	stp x20, x19, [sp, #80]
	sub sp, sp, #0x360
	cmp x1, #0x0
	mov w10, #0x1000
	movi v0.2d, #0x0
	csel x9, x10, xzr, eq
	cmp x3, #0x0
	sub w8, w0, #0x1
	csel x23, x10, xzr, eq
	cmp x5, #0x0
	stp xzr, xzr, [sp, #208]
	csel x22, x10, xzr, eq
	cmp x7, #0x0
	csel x21, x10, xzr, eq
	cmp w8, #0x3
	stp q0, q0, [sp]
	stp q0, q0, [sp, #32]
	stp q0, q0, [sp, #64]
	stp q0, q0, [sp, #96]
	stp q0, q0, [sp, #128]
	stp q0, q0, [sp, #160]
	str q0, [sp, #192]
	b.hi L(127_0)
	adrp x10, PAGE(L(261_0))
	add x10, x10, IN_PAGE(L(261_0))
	ldr x19, [x29, #96]
	ldr x10, [x10, w8, uxtw #3]
	cmp x19, x10
	b.ls L(127_1)
	mov w0, #0x4
	b L(127_8)
L(127_0):
	mov w0, #0x1
	b L(127_8)
L(127_1):
	mov x27, x3
	mov x20, x4
	sub x0, x29, #0xd0
	mov x3, x2
	add x2, x1, x9
	add x4, sp, #0x1a0
	mov w1, w8
	mov x26, x5
	mov x25, x6
	mov x24, x7
	stp xzr, xzr, [sp, #448]
	stp q0, q0, [sp, #416]
	stp q0, q0, [x29, #-192]
	stp q0, q0, [x29, #-160]
	stp q0, q0, [x29, #-128]
	stp q0, q0, [x29, #-96]
	stp q0, q0, [x29, #-64]
	stp q0, q0, [x29, #-32]
	stur q0, [x29, #-208]
	bl ring.hmac.key.Key.new_counted
	ldurb w8, [x29, #-208]
	cbnz w8, L(127_7)
	ldp q0, q1, [x29, #-64]
	add x9, sp, #0x1c0
	add x8, sp, #0xd0
	mov x0, sp
	sub x1, x29, #0xd0
	add x2, x27, x23
	mov x3, x20
	mov x20, sp
	stur q0, [x9, #143]
	ldp q0, q2, [x29, #-32]
	stur q1, [x9, #159]
	stur q0, [x9, #175]
	ldp q0, q1, [x29, #-128]
	stur q2, [x9, #191]
	stur q0, [x9, #79]
	stur q1, [x9, #95]
	ldp q0, q1, [x29, #-96]
	stur q0, [x9, #111]
	stur q1, [x9, #127]
	ldp q0, q1, [x29, #-192]
	stur q0, [x9, #15]
	stur q1, [x9, #31]
	ldp q0, q1, [x29, #-160]
	stur q0, [x9, #47]
	ldur q0, [x9, #143]
	stur q1, [x9, #63]
	ldur q1, [x9, #159]
	stur q0, [x8, #143]
	ldur q0, [x9, #175]
	stur q1, [x8, #159]
	ldur q1, [x9, #191]
	stur q0, [x8, #175]
	ldur q0, [x9, #79]
	stur q1, [x8, #191]
	ldur q1, [x9, #95]
	ldur q2, [x8, #175]
	stur q0, [x8, #79]
	ldur q0, [x9, #111]
	stur q1, [x8, #95]
	ldur q1, [x9, #127]
	stur q0, [x8, #111]
	ldur q0, [x9, #15]
	stur q1, [x8, #127]
	ldur q1, [x9, #31]
	stur q0, [x8, #15]
	ldur q0, [x9, #47]
	stur q1, [x8, #31]
	ldur q1, [x9, #63]
	stur q0, [x8, #47]
	ldur q0, [x8, #143]
	stur q1, [x8, #63]
	ldur q1, [x8, #159]
	stp q0, q1, [x29, #-80]
	ldur q0, [x8, #191]
	ldur q1, [x8, #79]
	stp q2, q0, [x29, #-48]
	ldur q0, [x8, #95]
	ldur q2, [x8, #111]
	stp q1, q0, [x29, #-144]
	ldur q0, [x8, #127]
	ldur q1, [x8, #15]
	stp q2, q0, [x29, #-112]
	ldur q0, [x8, #31]
	ldur q2, [x8, #47]
	stp q1, q0, [x29, #-208]
	ldur q0, [x8, #63]
	stp q2, q0, [x29, #-176]
	bl ring.hkdf.salt.Salt.extract
	ldrb w8, [sp]
	cbnz w8, L(127_7)
	ldrb w8, [sp, #104]
	add x9, x26, x22
	stp x9, x25, [sp, #416]
	cmp w8, #0x1
	b.le L(127_2)
	cmp w8, #0x2
	b.eq L(127_4)
	cmp w8, #0x3
	b.ne L(127_3)
	movi v0.2d, #0x0
	mov w9, #0x40
	b L(127_6)
L(127_2):
	cbnz w8, L(127_3)
	mov w9, #0x13ec
	b L(127_5)
L(127_3):
	mov w9, #0x1fe0
	b L(127_5)
L(127_4):
	mov w9, #0x2fd0
L(127_5):
	cmp x19, x9
	b.hi L(127_10)
	movi v0.2d, #0x0
	adrp x9, PAGE(L(switch.table.yz_webhook_verify_stripe))
	add x9, x9, IN_PAGE(L(switch.table.yz_webhook_verify_stripe))
	ldr x9, [x9, w8, uxtw #3]
L(127_6):
	stp q0, q0, [sp, #448]
	mov x11, #0xffffffffffffffbe
	cmp w8, #0x2
	mov x8, #0x1fffffffffffffff
	mov x10, #0xffffffffffffff7e
	movk x11, #0x1fff, lsl #48
	csel x8, xzr, x8, cc
	csel x10, x11, x10, cc
	cmp x19, x9
	csel x9, x9, xzr, hi
	subs x9, x10, x9
	sbc x8, x8, xzr
	cmp x9, x25
	sbcs xzr, x8, xzr
	b.cs L(127_9)
L(127_7):
	mov w0, #0x8
L(127_8):
	add sp, sp, #0x360
	ldp x20, x19, [sp, #80]
	ldp x22, x21, [sp, #64]
	ldp x24, x23, [sp, #48]
	ldp x26, x25, [sp, #32]
	ldp x28, x27, [sp, #16]
	ldp x29, x30, [sp], #96
	ret
L(127_9):
	add x0, x20, #0x10
	add x1, sp, #0x1a0
	add x3, x24, x21
	add x5, sp, #0x1c0
	mov w2, #0x1
	mov x4, x19
	bl ring.hkdf.rounds.write_output
	mov w0, wzr
	b L(127_8)
L(127_10):
	brk #0x1
	SIZE(yz_hkdf, 756)

	CODE(yz_hkdf_expand)
	.p2align 2
	.globl yz_hkdf_expand
	TYPE(yz_hkdf_expand, %function)
yz_hkdf_expand:
	stp x29, x30, [sp, #-80]!
	str x28, [sp, #16]
	mov x29, sp
	stp x24, x23, [sp, #32]
	stp x22, x21, [sp, #48]
	stp x20, x19, [sp, #64]
	sub sp, sp, #0x290
	cmp x1, #0x0
	mov w10, #0x1000
	sub w8, w0, #0x1
	csel x9, x10, xzr, eq
	cmp x3, #0x0
	stp xzr, xzr, [sp]
	csel x20, x10, xzr, eq
	cmp x5, #0x0
	csel x19, x10, xzr, eq
	cmp w8, #0x3
	b.hi L(129_0)
	adrp x10, PAGE(L(261_0))
	add x10, x10, IN_PAGE(L(261_0))
	ldr x10, [x10, w8, uxtw #3]
	cmp x6, x10
	b.ls L(129_1)
	mov w0, #0x4
	b L(129_8)
L(129_0):
	mov w0, #0x1
	b L(129_8)
L(129_1):
	movi v0.2d, #0x0
	mov x24, x3
	mov x23, x4
	sub x0, x29, #0xd0
	mov x3, x2
	add x2, x1, x9
	add x4, sp, #0xd0
	mov w1, w8
	mov x21, x5
	mov x22, x6
	stp xzr, xzr, [sp, #240]
	stp q0, q0, [sp, #208]
	stp q0, q0, [x29, #-192]
	stp q0, q0, [x29, #-160]
	stp q0, q0, [x29, #-128]
	stp q0, q0, [x29, #-96]
	stp q0, q0, [x29, #-64]
	stp q0, q0, [x29, #-32]
	stur q0, [x29, #-208]
	bl ring.hmac.key.Key.new_counted
	ldurb w8, [x29, #-208]
	cbnz w8, L(129_7)
	ldp q0, q1, [x29, #-64]
	add x8, sp, #0xf0
	mov x9, sp
	stur q0, [x8, #143]
	ldp q0, q2, [x29, #-32]
	stur q1, [x8, #159]
	stur q0, [x8, #175]
	ldp q0, q1, [x29, #-128]
	stur q2, [x8, #191]
	stur q0, [x8, #79]
	stur q1, [x8, #95]
	ldp q0, q1, [x29, #-96]
	stur q0, [x8, #111]
	stur q1, [x8, #127]
	ldp q0, q1, [x29, #-192]
	stur q0, [x8, #15]
	stur q1, [x8, #31]
	ldp q0, q1, [x29, #-160]
	stur q0, [x8, #47]
	ldur q0, [x8, #143]
	stur q1, [x8, #63]
	ldur q1, [x8, #159]
	stur q0, [x9, #143]
	ldur q0, [x8, #175]
	stur q1, [x9, #159]
	ldur q1, [x8, #191]
	stur q0, [x9, #175]
	ldur q0, [x8, #79]
	stur q1, [x9, #191]
	ldur q1, [x8, #95]
	ldur q2, [x9, #175]
	stur q0, [sp, #79]
	ldur q0, [x8, #111]
	stur q1, [sp, #95]
	ldur q1, [x8, #127]
	stur q0, [sp, #111]
	ldur q0, [x8, #15]
	stur q1, [sp, #127]
	ldur q1, [x8, #31]
	stur q0, [sp, #15]
	ldur q0, [x8, #47]
	stur q1, [sp, #31]
	ldur q1, [x8, #63]
	stur q0, [sp, #47]
	ldur q0, [x9, #143]
	stur q1, [sp, #63]
	ldur q1, [x9, #159]
	stp q0, q1, [x29, #-80]
	ldur q0, [x9, #191]
	ldur q1, [sp, #79]
	add x9, x24, x20
	stp q2, q0, [x29, #-48]
	ldur q0, [sp, #95]
	ldur q2, [sp, #111]
	stp x9, x23, [sp, #208]
	stp q1, q0, [x29, #-144]
	ldur q0, [sp, #127]
	ldur q1, [sp, #15]
	ldurb w8, [x29, #-120]
	stp q2, q0, [x29, #-112]
	ldur q0, [sp, #31]
	ldur q2, [sp, #47]
	cmp w8, #0x1
	stp q1, q0, [x29, #-208]
	ldur q0, [sp, #63]
	stp q2, q0, [x29, #-176]
	b.le L(129_2)
	cmp w8, #0x2
	mov x4, x22
	b.eq L(129_4)
	cmp w8, #0x3
	b.ne L(129_3)
	movi v0.2d, #0x0
	mov w9, #0x40
	b L(129_6)
L(129_2):
	mov x4, x22
	cbnz w8, L(129_3)
	mov w9, #0x13ec
	b L(129_5)
L(129_3):
	mov w9, #0x1fe0
	b L(129_5)
L(129_4):
	mov w9, #0x2fd0
L(129_5):
	cmp x4, x9
	b.hi L(129_10)
	movi v0.2d, #0x0
	adrp x9, PAGE(L(switch.table.yz_webhook_verify_stripe))
	add x9, x9, IN_PAGE(L(switch.table.yz_webhook_verify_stripe))
	ldr x9, [x9, w8, uxtw #3]
L(129_6):
	stp q0, q0, [sp, #240]
	mov x11, #0xffffffffffffffbe
	cmp w8, #0x2
	mov x8, #0x1fffffffffffffff
	mov x10, #0xffffffffffffff7e
	movk x11, #0x1fff, lsl #48
	csel x8, xzr, x8, cc
	csel x10, x11, x10, cc
	cmp x4, x9
	csel x9, x9, xzr, hi
	subs x9, x10, x9
	sbc x8, x8, xzr
	cmp x9, x23
	sbcs xzr, x8, xzr
	b.cs L(129_9)
L(129_7):
	mov w0, #0x8
L(129_8):
	add sp, sp, #0x290
	ldp x20, x19, [sp, #64]
	ldr x28, [sp, #16]
	ldp x22, x21, [sp, #48]
	ldp x24, x23, [sp, #32]
	ldp x29, x30, [sp], #80
	ret
L(129_9):
	sub x0, x29, #0xd0
	add x1, sp, #0xd0
	add x3, x21, x19
	add x5, sp, #0xf0
	mov w2, #0x1
	bl ring.hkdf.rounds.write_output
	mov w0, wzr
	b L(129_8)
L(129_10):
	brk #0x1
	SIZE(yz_hkdf_expand, 676)

	CODE(yz_hkdf_expand_label)
	.p2align 2
	.globl yz_hkdf_expand_label
	TYPE(yz_hkdf_expand_label, %function)
yz_hkdf_expand_label:
	stp x29, x30, [sp, #-96]!
	stp x28, x27, [sp, #16]
	mov x29, sp
	stp x26, x25, [sp, #32]
	stp x24, x23, [sp, #48]
	stp x22, x21, [sp, #64]
	stp x20, x19, [sp, #80]
	sub sp, sp, #0x290
	cmp x1, #0x0
	mov w10, #0x1000
	sub w8, w0, #0x1
	csel x9, x10, xzr, eq
	cmp x3, #0x0
	stp xzr, xzr, [sp]
	csel x22, x10, xzr, eq
	cmp x5, #0x0
	csel x23, x10, xzr, eq
	cmp x7, #0x0
	csel x24, x10, xzr, eq
	cmp w8, #0x3
	b.hi L(131_0)
	adrp x10, PAGE(L(261_0))
	add x10, x10, IN_PAGE(L(261_0))
	ldr x19, [x29, #96]
	ldr x10, [x10, w8, uxtw #3]
	cmp x19, x10
	b.ls L(131_2)
	mov w0, #0x4
	b L(131_1)
L(131_0):
	mov w0, #0x1
L(131_1):
	add sp, sp, #0x290
	ldp x20, x19, [sp, #80]
	ldp x22, x21, [sp, #64]
	ldp x24, x23, [sp, #48]
	ldp x26, x25, [sp, #32]
	ldp x28, x27, [sp, #16]
	ldp x29, x30, [sp], #96
	ret
L(131_2):
	sub x10, x4, #0x1
	mov w0, #0x8
	cmp x10, #0xf8
	b.hi L(131_1)
	cmp x6, #0xff
	b.hi L(131_1)
	movi v0.2d, #0x0
	mov x27, x3
	mov x21, x4
	sub x0, x29, #0xd0
	mov x3, x2
	add x2, x1, x9
	add x4, sp, #0xd0
	mov w1, w8
	mov x26, x5
	mov x25, x7
	mov x20, x6
	stp xzr, xzr, [sp, #240]
	stp q0, q0, [sp, #208]
	stp q0, q0, [x29, #-192]
	stp q0, q0, [x29, #-160]
	stp q0, q0, [x29, #-128]
	stp q0, q0, [x29, #-96]
	stp q0, q0, [x29, #-64]
	stp q0, q0, [x29, #-32]
	stur q0, [x29, #-208]
	bl ring.hmac.key.Key.new_counted
	ldurb w8, [x29, #-208]
	cbz w8, L(131_3)
	mov w0, #0x8
	b L(131_1)
L(131_3):
	ldp q0, q1, [x29, #-64]
	add x8, sp, #0xf0
	mov x9, sp
	sub x0, x29, #0xd0
	add x1, x27, x22
	add x3, x26, x23
	add x5, x25, x24
	mov x2, x21
	stur q0, [x8, #143]
	ldp q0, q2, [x29, #-32]
	stur q1, [x8, #159]
	mov x4, x20
	mov x6, x19
	stur q0, [x8, #175]
	ldp q0, q1, [x29, #-128]
	stur q2, [x8, #191]
	stur q0, [x8, #79]
	stur q1, [x8, #95]
	ldp q0, q1, [x29, #-96]
	stur q0, [x8, #111]
	stur q1, [x8, #127]
	ldp q0, q1, [x29, #-192]
	stur q0, [x8, #15]
	stur q1, [x8, #31]
	ldp q0, q1, [x29, #-160]
	stur q0, [x8, #47]
	ldur q0, [x8, #143]
	stur q1, [x8, #63]
	ldur q1, [x8, #159]
	stur q0, [x9, #143]
	ldur q0, [x8, #175]
	stur q1, [x9, #159]
	ldur q1, [x8, #191]
	stur q0, [x9, #175]
	ldur q0, [x8, #79]
	stur q1, [x9, #191]
	ldur q1, [x8, #95]
	ldur q2, [x9, #175]
	stur q0, [sp, #79]
	ldur q0, [x8, #111]
	stur q1, [sp, #95]
	ldur q1, [x8, #127]
	stur q0, [sp, #111]
	ldur q0, [x8, #15]
	stur q1, [sp, #127]
	ldur q1, [x8, #31]
	stur q0, [sp, #15]
	ldur q0, [x8, #47]
	stur q1, [sp, #31]
	ldur q1, [x8, #63]
	stur q0, [sp, #47]
	ldur q0, [x9, #143]
	stur q1, [sp, #63]
	ldur q1, [x9, #159]
	stp q0, q1, [x29, #-80]
	ldur q0, [x9, #191]
	ldur q1, [sp, #79]
	stp q2, q0, [x29, #-48]
	ldur q0, [sp, #95]
	ldur q2, [sp, #111]
	stp q1, q0, [x29, #-144]
	ldur q0, [sp, #127]
	ldur q1, [sp, #15]
	stp q2, q0, [x29, #-112]
	ldur q0, [sp, #31]
	ldur q2, [sp, #47]
	stp q1, q0, [x29, #-208]
	ldur q0, [sp, #63]
	stp q2, q0, [x29, #-176]
	bl ring_schedules.label.fill_by_label
	mov w0, wzr
	b L(131_1)
	SIZE(yz_hkdf_expand_label, 564)

	CODE(yz_hkdf_extract)
	.p2align 2
	.globl yz_hkdf_extract
	TYPE(yz_hkdf_extract, %function)
yz_hkdf_extract:
	stp x29, x30, [sp, #-80]!
	str x28, [sp, #16]
	mov x29, sp
	stp x24, x23, [sp, #32]
	stp x22, x21, [sp, #48]
	stp x20, x19, [sp, #64]
	sub sp, sp, #0x260
	cmp x1, #0x0
	mov w10, #0x1000
	sub w8, w0, #0x1
	csel x9, x10, xzr, eq
	cmp x3, #0x0
	stp xzr, xzr, [sp]
	csel x22, x10, xzr, eq
	cmp x5, #0x0
	csel x20, x10, xzr, eq
	cmp w8, #0x3
	b.hi L(133_1)
	adrp x10, PAGE(L(261_2))
	add x10, x10, IN_PAGE(L(261_2))
	ldr x10, [x10, w8, uxtw #3]
	cmp x6, x10
	b.ne L(133_2)
	movi v0.2d, #0x0
	mov x23, x3
	mov x19, x4
	add x0, sp, #0xd0
	mov x3, x2
	add x2, x1, x9
	sub x4, x29, #0x50
	mov w1, w8
	mov x21, x5
	mov x24, sp
	stp q0, q0, [sp, #208]
	stp q0, q0, [sp, #240]
	stp q0, q0, [sp, #272]
	stp q0, q0, [sp, #304]
	stp q0, q0, [sp, #336]
	stp q0, q0, [sp, #368]
	str q0, [sp, #400]
	stp q0, q0, [x29, #-80]
	bl ring.hmac.key.Key.new_counted
	ldp q0, q1, [sp, #352]
	ldrb w8, [sp, #208]
	stur q0, [x24, #143]
	stur q1, [x24, #159]
	ldp q0, q1, [sp, #384]
	stur q0, [x24, #175]
	stur q1, [x24, #191]
	ldp q0, q1, [sp, #288]
	stur q0, [sp, #79]
	stur q1, [sp, #95]
	ldp q0, q1, [sp, #320]
	stur q0, [sp, #111]
	stur q1, [sp, #127]
	ldp q0, q1, [sp, #224]
	stur q0, [sp, #15]
	stur q1, [sp, #31]
	ldp q0, q1, [sp, #256]
	stur q0, [sp, #47]
	stur q1, [sp, #63]
	cbnz w8, L(133_0)
	mov x8, sp
	sub x0, x29, #0x50
	add x1, sp, #0xd0
	ldur q0, [x8, #143]
	ldur q1, [x8, #159]
	ldur q2, [x8, #175]
	add x2, x23, x22
	sub x4, x29, #0x70
	mov x3, x19
	stp q0, q1, [sp, #336]
	ldur q0, [x8, #191]
	ldur q1, [x8, #79]
	sturh wzr, [x29, #-16]
	sub x24, x29, #0x50
	stp q2, q0, [sp, #368]
	ldur q0, [x8, #95]
	ldur q2, [x8, #111]
	stp q1, q0, [sp, #272]
	ldur q0, [x8, #127]
	ldur q1, [x8, #15]
	stp q2, q0, [sp, #304]
	ldur q0, [x8, #31]
	ldur q2, [x8, #47]
	stp q1, q0, [sp, #208]
	ldur q0, [x8, #63]
	stp q2, q0, [sp, #240]
	movi v0.2d, #0x0
	stp q0, q0, [x29, #-112]
	stp q0, q0, [x29, #-80]
	stp q0, q0, [x29, #-48]
	bl ring.hmac.sign_counted
	ldur q0, [x24, #33]
	ldur q1, [x24, #49]
	ldurb w8, [x29, #-15]
	ldurb w9, [x29, #-80]
	stp q0, q1, [x29, #-160]
	ldur q0, [x24, #17]
	ldur q1, [x24, #1]
	sturb w8, [x29, #-128]
	stp q1, q0, [x29, #-192]
	cbz w9, L(133_4)
L(133_0):
	mov w0, #0x8
	b L(133_3)
L(133_1):
	mov w0, #0x1
	b L(133_3)
L(133_2):
	mov w0, #0x4
L(133_3):
	add sp, sp, #0x260
	ldp x20, x19, [sp, #64]
	ldr x28, [sp, #16]
	ldp x22, x21, [sp, #48]
	ldp x24, x23, [sp, #32]
	ldp x29, x30, [sp], #80
	ret
L(133_4):
	ldurb w8, [x29, #-128]
	adrp x9, PAGE(L(switch.table.yz_webhook_verify_stripe))
	add x9, x9, IN_PAGE(L(switch.table.yz_webhook_verify_stripe))
	add x0, x21, x20
	sub x1, x29, #0xc0
	ldr x2, [x9, x8, lsl #3]
	bl memcpy
	mov w0, wzr
	b L(133_3)
	SIZE(yz_hkdf_extract, 496)

	CODE(yz_hmac_final)
	.p2align 2
	.globl yz_hmac_final
	TYPE(yz_hmac_final, %function)
yz_hmac_final:
	stp x29, x30, [sp, #-96]!
	str x28, [sp, #16]
	mov x29, sp
	stp x26, x25, [sp, #32]
	stp x24, x23, [sp, #48]
	stp x22, x21, [sp, #64]
	stp x20, x19, [sp, #80]
	sub sp, sp, #0x360
	movi v0.2d, #0x0
	ldr w10, [x0]
	mov w8, #0x1000
	cmp x1, #0x0
	strb wzr, [sp, #64]
	sub w9, w10, #0x3
	csel x21, x8, xzr, eq
	cmp w9, #0x3
	stp q0, q0, [sp]
	stp q0, q0, [sp, #32]
	b.cs L(135_0)
	ldp x8, x9, [x0, #8]
	mov w11, #0x80
	cmp x8, x11
	sbcs xzr, x9, xzr
	b.cs L(135_1)
	b L(135_2)
L(135_0):
	sub w8, w10, #0x1
	cmp w8, #0x2
	b.cs L(135_2)
	ldp x8, x9, [x0, #8]
	mov w11, #0x40
	cmp x8, x11
	sbcs xzr, x9, xzr
	b.cc L(135_2)
L(135_1):
	sub w12, w10, #0x1
	adrp x13, PAGE(L(switch.table.yz_hmac_final))
	add x13, x13, IN_PAGE(L(switch.table.yz_hmac_final))
	mov x11, x2
	ldr x13, [x13, w12, uxtw #3]
	ldr w2, [x0, #4]
	cmp x13, x2
	b.ls L(135_2)
	and w12, w12, #0xff
	adrp x22, PAGE(L(switch.table.yz_webhook_verify_stripe))
	add x22, x22, IN_PAGE(L(switch.table.yz_webhook_verify_stripe))
	ldr x12, [x22, w12, uxtw #3]
	cmp x11, x12
	b.ne L(135_4)
	cmp w10, #0x3
	mov w11, #0x80
	mov w12, #0x40
	csel x11, x12, x11, cc
	stp q0, q0, [sp, #80]
	cmp x8, x11
	strb wzr, [sp, #272]
	sbcs xzr, x9, xzr
	stp q0, q0, [sp, #112]
	stp q0, q0, [sp, #144]
	stp q0, q0, [sp, #176]
	stp q0, q0, [sp, #208]
	stp q0, q0, [sp, #240]
	b.cc L(135_17)
	cmp w10, #0x2
	b.le L(135_5)
	cmp w10, #0x3
	b.eq L(135_6)
	cmp w10, #0x4
	b.ne L(135_7)
	mov w23, wzr
	mov w19, #0x3
	mov w11, #0x80
	b L(135_9)
L(135_2):
	mov w0, #0x2
L(135_3):
	add sp, sp, #0x360
	ldp x20, x19, [sp, #80]
	ldr x28, [sp, #16]
	ldp x22, x21, [sp, #64]
	ldp x24, x23, [sp, #48]
	ldp x26, x25, [sp, #32]
	ldp x29, x30, [sp], #96
	ret
L(135_4):
	mov w0, #0x4
	b L(135_3)
L(135_5):
	cmp w10, #0x1
	b.ne L(135_8)
	mov w19, wzr
	mov w23, #0x1
	mov w11, #0x40
	b L(135_9)
L(135_6):
	mov w23, wzr
	mov w19, #0x2
	mov w11, #0x80
	b L(135_9)
L(135_7):
	mov w23, wzr
	mov w19, #0x4
	mov w11, #0x80
	b L(135_9)
L(135_8):
	mov w23, #0x1
	mov w11, #0x40
	mov w19, #0x1
L(135_9):
	cmp x11, x2
	b.ls L(135_17)
	cmp w10, #0x2
	stp xzr, xzr, [sp, #368]
	b.le L(135_10)
	cmp w10, #0x3
	b.eq L(135_11)
	cmp w10, #0x4
	b.ne L(135_12)
	mov w10, wzr
	mov w20, #0x3
	mov w11, #0x80
	b L(135_14)
L(135_10):
	cmp w10, #0x1
	b.ne L(135_13)
	mov w20, wzr
	mov w11, #0x40
	b L(135_14)
L(135_11):
	mov w10, wzr
	mov w20, #0x2
	mov w11, #0x80
	b L(135_14)
L(135_12):
	mov w10, wzr
	mov w20, #0x4
	mov w11, #0x80
	b L(135_14)
L(135_13):
	mov w10, #0x1
	mov w11, #0x40
	mov w20, #0x1
L(135_14):
	cmp x11, x2
	b.ls L(135_17)
	add x24, sp, #0x70
	tbz w10, #0, L(135_15)
	ldur q0, [x0, #40]
	ldur q1, [x0, #24]
	movi v2.2d, #0x0
	ldur q3, [x0, #72]
	ldur q4, [x0, #56]
	mov x11, xzr
	uzp1 v0.4s, v1.4s, v0.4s
	mov x12, #0x1fffffffffffffff
	mov w10, #0x1
	uzp1 v1.4s, v4.4s, v3.4s
	str wzr, [sp, #416]
	stp q2, q2, [sp, #384]
	b L(135_16)
L(135_15):
	add x11, x0, #0x18
	ldur d1, [x0, #28]
	ldur q2, [x0, #52]
	ld1 {v0.s}[1], [x11]
	ldur q3, [x0, #68]
	mov w10, wzr
	ldr w11, [x0, #84]
	mov x12, #0xffffffffffffffff
	stp q2, q3, [sp, #384]
	mov v0.d[1], v1.d[0]
	ldur q1, [x0, #36]
	str w11, [sp, #416]
	mov x11, #0x1fffffffffffffff
L(135_16):
	stp x8, x9, [sp, #288]
	adds x8, x2, x8
	ldr w13, [sp, #416]
	adcs x9, x9, xzr
	stur q0, [x24, #196]
	stur q1, [x24, #212]
	ldp q0, q1, [sp, #384]
	csinv x4, x8, xzr, cc
	csinv x5, x9, xzr, cc
	str w10, [sp, #304]
	cmp x12, x4
	str w13, [sp, #372]
	sbcs xzr, x11, x5
	stur q0, [x24, #228]
	stur q1, [x24, #244]
	strb w20, [sp, #376]
	b.cs L(135_18)
L(135_17):
	mov w0, #0x8
	b L(135_3)
L(135_18):
	movi v0.2d, #0x0
	mov x25, x1
	mov x26, x0
	add x1, x0, #0x58
	sub x6, x29, #0x100
	mov w0, w20
	stp q0, q0, [sp, #432]
	stp q0, q0, [sp, #464]
	stp q0, q0, [x29, #-256]
	stp q0, q0, [x29, #-224]
	stp q0, q0, [x29, #-192]
	stp q0, q0, [x29, #-160]
	stp q0, q0, [x29, #-128]
	stp q0, q0, [x29, #-96]
	stp q0, q0, [x29, #-64]
	stp q0, q0, [x29, #-32]
	bl ring.digest.block_context.write_tail
	mov x3, x0
	add x0, sp, #0x1b0
	add x1, sp, #0x120
	sub x2, x29, #0x100
	add x4, sp, #0x50
	bl ring.digest.block_context.BlockContext.output_after
	ldp q0, q1, [sp, #432]
	cmp w23, #0x0
	mov w8, #0x80
	mov w9, #0x40
	strb w20, [sp, #272]
	csel x8, x9, x8, ne
	stp q0, q1, [sp, #208]
	ldp q0, q2, [sp, #464]
	stp q0, q2, [sp, #240]
	tbz w23, #0, L(135_19)
	ldr q1, [x26, #248]!
	ldr q3, [x26, #16]
	ldp q2, q0, [x26, #-32]
	mov w9, #0x1
	uzp1 v1.4s, v1.4s, v3.4s
	str wzr, [sp, #528]
	uzp1 v0.4s, v2.4s, v0.4s
	movi v2.2d, #0x0
	stp q2, q2, [sp, #496]
	b L(135_20)
L(135_19):
	movi v0.2d, #0x0
	add x10, x26, #0xd8
	ldur d1, [x26, #220]
	add x11, x26, #0xf4
	ldur q2, [x26, #244]
	mov w9, wzr
	ldr q3, [x11, #16]
	ld1 {v0.s}[1], [x10]
	ldr w10, [x26, #276]
	stp q2, q3, [sp, #496]
	str w10, [sp, #528]
	mov v0.d[1], v1.d[0]
	ldur q1, [x26, #228]
L(135_20):
	stur q0, [x24, #20]
	ldr x2, [x22, w20, uxtw #3]
	ldr w10, [sp, #528]
	stur q1, [x24, #36]
	add x1, sp, #0xd0
	sub x6, x29, #0x100
	ldp q0, q1, [sp, #496]
	adds x4, x8, x2
	cset w5, cs
	mov w0, w19
	stp x8, xzr, [sp, #112]
	str w9, [sp, #128]
	stur q0, [x24, #52]
	movi v0.2d, #0x0
	stur q1, [x24, #68]
	str w10, [sp, #196]
	strb w19, [sp, #200]
	stp q0, q0, [sp, #544]
	stp q0, q0, [sp, #576]
	stp q0, q0, [x29, #-256]
	stp q0, q0, [x29, #-224]
	stp q0, q0, [x29, #-192]
	stp q0, q0, [x29, #-160]
	stp q0, q0, [x29, #-128]
	stp q0, q0, [x29, #-96]
	stp q0, q0, [x29, #-64]
	stp q0, q0, [x29, #-32]
	bl ring.digest.block_context.write_tail
	mov x3, x0
	add x0, sp, #0x220
	add x1, sp, #0x70
	sub x2, x29, #0x100
	add x4, sp, #0x50
	bl ring.digest.block_context.BlockContext.output_after
	ldp q0, q1, [sp, #544]
	add x0, x25, x21
	ldr x2, [x22, w19, uxtw #3]
	mov x1, sp
	strb w19, [sp, #64]
	stp q0, q1, [sp]
	ldp q0, q2, [sp, #576]
	stp q0, q2, [sp, #32]
	bl memcpy
	mov w0, wzr
	b L(135_3)
	SIZE(yz_hmac_final, 1112)

	CODE(yz_hmac_init)
	.p2align 2
	.globl yz_hmac_init
	TYPE(yz_hmac_init, %function)
yz_hmac_init:
	sub sp, sp, #0x90
	ldr w9, [x0]
	mov x8, x0
	mov w0, #0x2
	cmp w9, #0x2
	b.le L(137_0)
	cmp w9, #0x3
	b.eq L(137_2)
	cmp w9, #0x4
	b.eq L(137_1)
	cmp w9, #0x5
	b.ne L(137_6)
	mov w0, #0x4
	b L(137_2)
L(137_0):
	cmp w9, #0x1
	b.eq L(137_3)
	cmp w9, #0x2
	b.ne L(137_6)
	mov w0, #0x1
	b L(137_4)
L(137_1):
	mov w0, #0x3
L(137_2):
	movi v16.2d, #0x0
	ldur q4, [x8, #8]
	ldur q5, [x8, #24]
	ldur q6, [x8, #40]
	ldur q7, [x8, #56]
	ldur q0, [x8, #72]
	ldur q1, [x8, #88]
	ldur q2, [x8, #104]
	ldur q3, [x8, #120]
	mov w8, #0x80
	stp q16, q16, [sp]
	stp q16, q16, [sp, #32]
	stp q16, q16, [sp, #64]
	b L(137_5)
L(137_3):
	mov w0, wzr
L(137_4):
	movi v16.2d, #0x0
	movi v3.2d, #0xffffffff
	ldur q0, [x8, #8]
	ldur q1, [x8, #24]
	ldur q2, [x8, #40]
	ldur q7, [x8, #56]
	ldur q17, [x8, #72]
	ldur q18, [x8, #88]
	ldur q19, [x8, #104]
	ldur q20, [x8, #120]
	mov w8, #0x40
	stp q16, q16, [sp]
	and v4.16b, v0.16b, v3.16b
	and v5.16b, v1.16b, v3.16b
	stp q16, q16, [sp, #32]
	and v6.16b, v2.16b, v3.16b
	and v7.16b, v7.16b, v3.16b
	stp q16, q16, [sp, #64]
	and v0.16b, v17.16b, v3.16b
	and v1.16b, v18.16b, v3.16b
	and v2.16b, v19.16b, v3.16b
	and v3.16b, v20.16b, v3.16b
L(137_5):
	stp q16, q16, [sp, #96]
	stur xzr, [sp, #127]
	stur q4, [x1, #24]
	ldur q4, [sp, #71]
	add w9, w0, #0x1
	stur q5, [x1, #40]
	ldur q5, [sp, #87]
	mov w0, wzr
	stur q4, [x1, #152]
	ldur q4, [sp, #103]
	stur q5, [x1, #168]
	ldur q5, [sp, #119]
	stur q4, [x1, #184]
	ldur q4, [sp, #7]
	stur q5, [x1, #200]
	ldur q5, [sp, #23]
	stur q4, [x1, #88]
	ldur q4, [sp, #39]
	stur q5, [x1, #104]
	ldur q5, [sp, #55]
	stp x8, xzr, [x1, #8]
	add x8, x1, #0x108
	stp w9, wzr, [x1]
	stur q6, [x1, #56]
	stur q7, [x1, #72]
	stur q4, [x1, #120]
	stur q5, [x1, #136]
	stur q0, [x1, #216]
	stur q1, [x1, #232]
	stur q2, [x1, #248]
	str q3, [x8]
L(137_6):
	add sp, sp, #0x90
	ret
	SIZE(yz_hmac_init, 364)

	CODE(yz_hmac_key_init)
	.p2align 2
	.globl yz_hmac_key_init
	TYPE(yz_hmac_key_init, %function)
yz_hmac_key_init:
	sub w8, w0, #0x1
	cmp w8, #0x3
	b.hi L(138_0)
	sub sp, sp, #0x130
	movi v0.2d, #0x0
	cmp x1, #0x0
	mov w10, #0x1000
	mov x9, x2
	csel x10, x10, xzr, eq
	stp x20, x19, [sp, #288]
	mov x19, x3
	add x0, sp, #0x20
	add x2, x1, x10
	mov x4, sp
	mov w1, w8
	mov x3, x9
	stp x29, x30, [sp, #240]
	add x29, sp, #0xf0
	str x28, [sp, #256]
	stp x22, x21, [sp, #272]
	stp q0, q0, [sp]
	stp q0, q0, [sp, #32]
	stp q0, q0, [sp, #64]
	stp q0, q0, [sp, #96]
	stp q0, q0, [sp, #128]
	stp q0, q0, [sp, #160]
	stp q0, q0, [sp, #192]
	str q0, [sp, #224]
	bl ring.hmac.key.Key.new_counted
	ldrb w8, [sp, #32]
	cbz w8, L(138_1)
	mov w0, #0x8
	ldp x20, x19, [sp, #288]
	ldr x28, [sp, #256]
	ldp x22, x21, [sp, #272]
	ldp x29, x30, [sp, #240]
	add sp, sp, #0x130
	ret
L(138_0):
	mov w0, #0x1
	ret
L(138_1):
	ldp x14, x12, [sp, #72]
	ldrb w16, [sp, #64]
	ldp x11, x9, [sp, #88]
	ldrb w0, [sp, #160]
	ldp x15, x13, [sp, #168]
	ldp x10, x8, [sp, #184]
	cbz w16, L(138_3)
	lsr x3, x14, #32
	ldr w4, [sp, #68]
	lsr x16, x11, #32
	lsr x17, x12, #32
	mov w5, w14
	mov w6, w12
	mov w1, w11
	mov w2, w9
	mov x14, x4
	mov x12, x5
	mov x11, x3
	mov x9, x6
	ldrb w5, [sp, #136]
	cbz w0, L(138_4)
L(138_2):
	lsr x0, x15, #32
	ldr w20, [sp, #164]
	lsr x3, x10, #32
	lsr x4, x13, #32
	mov w21, w15
	mov w22, w13
	mov w6, w10
	mov w7, w8
	mov x15, x20
	mov x13, x21
	mov x10, x0
	mov x8, x22
	b L(138_5)
L(138_3):
	ldp x17, x1, [sp, #104]
	ldp x16, x2, [sp, #120]
	ldrb w5, [sp, #136]
	cbnz w0, L(138_2)
L(138_4):
	ldp x4, x6, [sp, #200]
	ldp x3, x7, [sp, #216]
L(138_5):
	mov w0, wzr
	add w5, w5, #0x1
	stp x14, x12, [x19, #8]
	stp w5, wzr, [x19]
	stp x11, x9, [x19, #24]
	stp x17, x1, [x19, #40]
	stp x16, x2, [x19, #56]
	stp x15, x13, [x19, #72]
	stp x10, x8, [x19, #88]
	stp x4, x6, [x19, #104]
	stp x3, x7, [x19, #120]
	ldp x20, x19, [sp, #288]
	ldr x28, [sp, #256]
	ldp x22, x21, [sp, #272]
	ldp x29, x30, [sp, #240]
	add sp, sp, #0x130
	ret
	SIZE(yz_hmac_key_init, 388)

	CODE(yz_hmac_key_sign)
	.p2align 2
	.globl yz_hmac_key_sign
	TYPE(yz_hmac_key_sign, %function)
yz_hmac_key_sign:
	stp x29, x30, [sp, #-64]!
	str x28, [sp, #16]
	mov x29, sp
	stp x22, x21, [sp, #32]
	stp x20, x19, [sp, #48]
	sub sp, sp, #0x1e0
	mov w13, #0x1000
	cmp x1, #0x0
	ldr w12, [x0]
	csel x11, x13, xzr, eq
	cmp x3, #0x0
	mov x9, x2
	mov x8, x1
	mov x10, x0
	csel x19, x13, xzr, eq
	cmp w12, #0x2
	mov w0, #0x2
	b.le L(140_0)
	cmp w12, #0x3
	b.eq L(140_2)
	cmp w12, #0x4
	b.eq L(140_1)
	cmp w12, #0x5
	b.ne L(140_6)
	mov w0, #0x4
	b L(140_2)
L(140_0):
	cmp w12, #0x1
	b.eq L(140_3)
	cmp w12, #0x2
	b.ne L(140_6)
	mov w0, #0x1
	b L(140_4)
L(140_1):
	mov w0, #0x3
L(140_2):
	movi v0.2d, #0x0
	movi v1.2d, #0x0
	ldur q2, [x10, #36]
	ldur q3, [x10, #52]
	add x13, x10, #0x8
	add x14, x10, #0x48
	ldur q4, [x10, #116]
	ldur q5, [x10, #100]
	mov w12, wzr
	stp q2, q3, [sp, #192]
	ldur d2, [x10, #12]
	ldur d3, [x10, #76]
	ld1 {v1.s}[1], [x13]
	ld1 {v0.s}[1], [x14]
	ldr w13, [x10, #68]
	stp q5, q4, [sp, #240]
	str w13, [sp, #224]
	ldr w13, [x10, #132]
	mov v1.d[1], v2.d[0]
	mov v0.d[1], v3.d[0]
	ldur q3, [x10, #20]
	ldur q2, [x10, #84]
	mov w10, #0x80
	str w13, [sp, #272]
	b L(140_5)
L(140_3):
	mov w0, wzr
L(140_4):
	movi v4.2d, #0x0
	ldur q0, [x10, #24]
	ldur q1, [x10, #8]
	ldur q2, [x10, #56]
	ldur q3, [x10, #40]
	mov w12, #0x1
	ldur q5, [x10, #88]
	ldur q6, [x10, #72]
	uzp1 v1.4s, v1.4s, v0.4s
	ldur q7, [x10, #120]
	ldur q16, [x10, #104]
	uzp1 v3.4s, v3.4s, v2.4s
	stp q4, q4, [sp, #192]
	uzp1 v0.4s, v6.4s, v5.4s
	mov w10, #0x40
	uzp1 v2.4s, v16.4s, v7.4s
	str wzr, [sp, #224]
	stp q4, q4, [sp, #240]
	str wzr, [sp, #272]
L(140_5):
	stur q1, [sp, #20]
	adrp x20, PAGE(L(switch.table.yz_webhook_verify_stripe))
	add x20, x20, IN_PAGE(L(switch.table.yz_webhook_verify_stripe))
	stur q3, [sp, #36]
	ldp q1, q3, [sp, #192]
	str w12, [sp, #16]
	ldr w13, [sp, #224]
	str w12, [sp, #112]
	ldr w12, [sp, #272]
	stur q1, [sp, #52]
	stur q0, [sp, #116]
	ldp q1, q0, [sp, #240]
	str w12, [sp, #180]
	ldr x12, [x20, w0, uxtw #3]
	stp x10, xzr, [sp]
	stp x10, xzr, [sp, #96]
	mov x10, sp
	cmp x4, x12
	stur q3, [sp, #68]
	str w13, [sp, #84]
	strb w0, [sp, #88]
	stur wzr, [sp, #89]
	str wzr, [sp, #92]
	stur q2, [x10, #132]
	stur q0, [x10, #164]
	stur q1, [x10, #148]
	strb w0, [sp, #184]
	stur wzr, [x10, #185]
	str wzr, [sp, #188]
	b.ne L(140_7)
	movi v0.2d, #0x0
	mov x21, x3
	sub x0, x29, #0x50
	mov x1, sp
	add x2, x8, x11
	sub x4, x29, #0x70
	mov x3, x9
	sturh wzr, [x29, #-16]
	sub x22, x29, #0x50
	stp q0, q0, [x29, #-112]
	stp q0, q0, [x29, #-80]
	stp q0, q0, [x29, #-48]
	bl ring.hmac.sign_counted
	ldur q0, [x22, #33]
	ldur q1, [x22, #49]
	ldurb w8, [x29, #-15]
	ldurb w9, [x29, #-80]
	stp q0, q1, [x29, #-160]
	ldur q0, [x22, #17]
	ldur q1, [x22, #1]
	sturb w8, [x29, #-128]
	stp q1, q0, [x29, #-192]
	cbz w9, L(140_8)
	mov w0, #0x8
L(140_6):
	add sp, sp, #0x1e0
	ldp x20, x19, [sp, #48]
	ldr x28, [sp, #16]
	ldp x22, x21, [sp, #32]
	ldp x29, x30, [sp], #64
	ret
L(140_7):
	mov w0, #0x4
	add sp, sp, #0x1e0
	ldp x20, x19, [sp, #48]
	ldr x28, [sp, #16]
	ldp x22, x21, [sp, #32]
	ldp x29, x30, [sp], #64
	ret
L(140_8):
	ldurb w8, [x29, #-128]
	add x0, x21, x19
	sub x1, x29, #0xc0
	ldr x2, [x20, x8, lsl #3]
	bl memcpy
	mov w0, wzr
	add sp, sp, #0x1e0
	ldp x20, x19, [sp, #48]
	ldr x28, [sp, #16]
	ldp x22, x21, [sp, #32]
	ldp x29, x30, [sp], #64
	ret
	SIZE(yz_hmac_key_sign, 628)

	CODE(yz_hmac_key_verify)
	.p2align 2
	.globl yz_hmac_key_verify
	TYPE(yz_hmac_key_verify, %function)
yz_hmac_key_verify:
	stp x29, x30, [sp, #-48]!
	stp x28, x21, [sp, #16]
	mov x29, sp
	stp x20, x19, [sp, #32]
	sub sp, sp, #0x1e0
	mov x19, x3
	mov w12, #0x1000
	cmp x1, #0x0
	ldr w11, [x0]
	csel x10, x12, xzr, eq
	cmp x3, #0x0
	mov x20, x4
	mov x3, x2
	mov x8, x1
	mov x9, x0
	csel x21, x12, xzr, eq
	cmp w11, #0x2
	mov w0, #0x2
	b.le L(142_0)
	cmp w11, #0x3
	b.eq L(142_2)
	cmp w11, #0x4
	b.eq L(142_1)
	cmp w11, #0x5
	b.ne L(142_6)
	mov w0, #0x4
	b L(142_2)
L(142_0):
	cmp w11, #0x1
	b.eq L(142_3)
	cmp w11, #0x2
	b.ne L(142_6)
	mov w0, #0x1
	b L(142_4)
L(142_1):
	mov w0, #0x3
L(142_2):
	movi v0.2d, #0x0
	movi v1.2d, #0x0
	ldur q2, [x9, #36]
	ldur q3, [x9, #52]
	add x12, x9, #0x8
	add x13, x9, #0x48
	ldur q4, [x9, #116]
	ldur q5, [x9, #100]
	mov w11, wzr
	stp q2, q3, [sp, #192]
	ldur d2, [x9, #12]
	ldur d3, [x9, #76]
	ld1 {v1.s}[1], [x12]
	ld1 {v0.s}[1], [x13]
	ldr w12, [x9, #68]
	stp q5, q4, [sp, #240]
	str w12, [sp, #224]
	ldr w12, [x9, #132]
	mov v1.d[1], v2.d[0]
	mov v0.d[1], v3.d[0]
	ldur q3, [x9, #20]
	ldur q2, [x9, #84]
	mov w9, #0x80
	str w12, [sp, #272]
	b L(142_5)
L(142_3):
	mov w0, wzr
L(142_4):
	movi v4.2d, #0x0
	ldur q0, [x9, #24]
	ldur q1, [x9, #8]
	ldur q2, [x9, #56]
	ldur q3, [x9, #40]
	mov w11, #0x1
	ldur q5, [x9, #88]
	ldur q6, [x9, #72]
	uzp1 v1.4s, v1.4s, v0.4s
	ldur q7, [x9, #120]
	ldur q16, [x9, #104]
	uzp1 v3.4s, v3.4s, v2.4s
	stp q4, q4, [sp, #192]
	uzp1 v0.4s, v6.4s, v5.4s
	mov w9, #0x40
	uzp1 v2.4s, v16.4s, v7.4s
	str wzr, [sp, #224]
	stp q4, q4, [sp, #240]
	str wzr, [sp, #272]
L(142_5):
	stur q1, [sp, #20]
	ldr w12, [sp, #224]
	mov x1, sp
	stur q3, [sp, #36]
	ldp q1, q3, [sp, #192]
	stur q0, [sp, #116]
	add x2, x8, x10
	sub x4, x29, #0xc0
	stp x9, xzr, [sp]
	stur q1, [sp, #52]
	ldp q1, q0, [sp, #240]
	stp x9, xzr, [sp, #96]
	mov x9, sp
	str w11, [sp, #16]
	stur q0, [x9, #164]
	movi v0.2d, #0x0
	str w11, [sp, #112]
	ldr w11, [sp, #272]
	strb w0, [sp, #88]
	strb w0, [sp, #184]
	sub x0, x29, #0xa0
	stur q3, [sp, #68]
	str w12, [sp, #84]
	stur wzr, [sp, #89]
	str wzr, [sp, #92]
	stur q2, [x9, #132]
	str w11, [sp, #180]
	stur q1, [x9, #148]
	stur wzr, [x9, #185]
	str wzr, [sp, #188]
	stp q0, q0, [x29, #-192]
	sturh wzr, [x29, #-96]
	stp q0, q0, [x29, #-160]
	stp q0, q0, [x29, #-128]
	bl ring.hmac.sign_counted
	ldurb w8, [x29, #-160]
	cbz w8, L(142_7)
	mov w0, #0x8
L(142_6):
	add sp, sp, #0x1e0
	ldp x20, x19, [sp, #32]
	ldp x28, x21, [sp, #16]
	ldp x29, x30, [sp], #48
	ret
L(142_7):
	ldurb w8, [x29, #-95]
	sub x9, x29, #0xa0
	adrp x10, PAGE(L(switch.table.yz_webhook_verify_stripe))
	add x10, x10, IN_PAGE(L(switch.table.yz_webhook_verify_stripe))
	ldur q0, [x9, #33]
	ldur q1, [x9, #49]
	sturb w8, [x29, #-16]
	and w8, w8, #0xff
	ldur q2, [x9, #17]
	ldr x8, [x10, x8, lsl #3]
	stp q0, q1, [x29, #-48]
	ldur q0, [x9, #1]
	cmp x8, x20
	stp q0, q2, [x29, #-80]
	b.ne L(142_8)
	cmp x20, #0x8
	b.cs L(142_9)
	mov w9, wzr
	mov x8, xzr
	b L(142_14)
L(142_8):
	mov w0, #0x8
	add sp, sp, #0x1e0
	ldp x20, x19, [sp, #32]
	ldp x28, x21, [sp, #16]
	ldp x29, x30, [sp], #48
	ret
L(142_9):
	cmp x20, #0x20
	b.cs L(142_10)
	mov x8, xzr
	mov w9, wzr
	b L(142_12)
L(142_10):
	movi v0.2d, #0x0
	movi v1.2d, #0x0
	add x9, x21, x19
	sub x11, x29, #0x50
	and x10, x20, #0x18
	and x8, x20, #0xffffffffffffffe0
	add x9, x9, #0x10
	add x11, x11, #0x10
	and x12, x20, #0xffffffffffffffe0
L(142_11):
	ldp q2, q3, [x11, #-16]
	subs x12, x12, #0x20
	ldp q4, q5, [x9, #-16]
	add x9, x9, #0x20
	add x11, x11, #0x20
	eor v2.16b, v4.16b, v2.16b
	eor v3.16b, v5.16b, v3.16b
	orr v0.16b, v2.16b, v0.16b
	orr v1.16b, v3.16b, v1.16b
	b.ne L(142_11)
	orr v0.16b, v1.16b, v0.16b
	cmp x20, x8
	ext v1.16b, v0.16b, v0.16b, #8
	orr v0.8b, v0.8b, v1.8b
	fmov x9, d0
	orr x9, x9, x9, lsr #32
	orr x9, x9, x9, lsr #16
	lsr x11, x9, #8
	orr w9, w9, w11
	b.eq L(142_16)
	cbz x10, L(142_14)
L(142_12):
	movi v0.2d, #0x0
	mov x11, x8
	and x8, x20, #0xfffffffffffffff8
	add x10, x21, x11
	sub x12, x29, #0x50
	add x10, x19, x10
	mov v0.b[0], w9
	sub x9, x11, x8
	add x11, x12, x11
L(142_13):
	ldr d1, [x11], #8
	adds x9, x9, #0x8
	ldr d2, [x10], #8
	eor v1.8b, v2.8b, v1.8b
	orr v0.8b, v1.8b, v0.8b
	b.ne L(142_13)
	fmov x9, d0
	cmp x20, x8
	orr x9, x9, x9, lsr #32
	orr x9, x9, x9, lsr #16
	lsr x10, x9, #8
	orr w9, w9, w10
	b.eq L(142_16)
L(142_14):
	add x11, x21, x8
	sub x12, x29, #0x50
	sub x10, x20, x8
	add x11, x19, x11
	add x8, x12, x8
L(142_15):
	ldrb w12, [x8], #1
	subs x10, x10, #0x1
	ldrb w13, [x11], #1
	eor w12, w13, w12
	orr w9, w12, w9
	b.ne L(142_15)
L(142_16):
	tst w9, #0xff
	mov w8, #0x8
	csel w0, wzr, w8, eq
	add sp, sp, #0x1e0
	ldp x20, x19, [sp, #32]
	ldp x28, x21, [sp, #16]
	ldp x29, x30, [sp], #48
	ret
	SIZE(yz_hmac_key_verify, 896)

	CODE(yz_hmac_sign)
	.p2align 2
	.globl yz_hmac_sign
	TYPE(yz_hmac_sign, %function)
yz_hmac_sign:
	stp x29, x30, [sp, #-80]!
	str x28, [sp, #16]
	mov x29, sp
	stp x24, x23, [sp, #32]
	stp x22, x21, [sp, #48]
	stp x20, x19, [sp, #64]
	sub sp, sp, #0x260
	cmp x1, #0x0
	mov w10, #0x1000
	sub w8, w0, #0x1
	csel x9, x10, xzr, eq
	cmp x3, #0x0
	stp xzr, xzr, [sp]
	csel x22, x10, xzr, eq
	cmp x5, #0x0
	csel x20, x10, xzr, eq
	cmp w8, #0x3
	b.hi L(144_1)
	adrp x10, PAGE(L(261_2))
	add x10, x10, IN_PAGE(L(261_2))
	ldr x10, [x10, w8, uxtw #3]
	cmp x6, x10
	b.ne L(144_2)
	movi v0.2d, #0x0
	mov x23, x3
	mov x19, x4
	add x0, sp, #0xd0
	mov x3, x2
	add x2, x1, x9
	sub x4, x29, #0x50
	mov w1, w8
	mov x21, x5
	mov x24, sp
	stp q0, q0, [sp, #208]
	stp q0, q0, [sp, #240]
	stp q0, q0, [sp, #272]
	stp q0, q0, [sp, #304]
	stp q0, q0, [sp, #336]
	stp q0, q0, [sp, #368]
	str q0, [sp, #400]
	stp q0, q0, [x29, #-80]
	bl ring.hmac.key.Key.new_counted
	ldp q0, q1, [sp, #352]
	ldrb w8, [sp, #208]
	stur q0, [x24, #143]
	stur q1, [x24, #159]
	ldp q0, q1, [sp, #384]
	stur q0, [x24, #175]
	stur q1, [x24, #191]
	ldp q0, q1, [sp, #288]
	stur q0, [sp, #79]
	stur q1, [sp, #95]
	ldp q0, q1, [sp, #320]
	stur q0, [sp, #111]
	stur q1, [sp, #127]
	ldp q0, q1, [sp, #224]
	stur q0, [sp, #15]
	stur q1, [sp, #31]
	ldp q0, q1, [sp, #256]
	stur q0, [sp, #47]
	stur q1, [sp, #63]
	cbnz w8, L(144_0)
	mov x8, sp
	sub x0, x29, #0x50
	add x1, sp, #0xd0
	ldur q0, [x8, #143]
	ldur q1, [x8, #159]
	ldur q2, [x8, #175]
	add x2, x23, x22
	sub x4, x29, #0x70
	mov x3, x19
	stp q0, q1, [sp, #336]
	ldur q0, [x8, #191]
	ldur q1, [x8, #79]
	sturh wzr, [x29, #-16]
	sub x24, x29, #0x50
	stp q2, q0, [sp, #368]
	ldur q0, [x8, #95]
	ldur q2, [x8, #111]
	stp q1, q0, [sp, #272]
	ldur q0, [x8, #127]
	ldur q1, [x8, #15]
	stp q2, q0, [sp, #304]
	ldur q0, [x8, #31]
	ldur q2, [x8, #47]
	stp q1, q0, [sp, #208]
	ldur q0, [x8, #63]
	stp q2, q0, [sp, #240]
	movi v0.2d, #0x0
	stp q0, q0, [x29, #-112]
	stp q0, q0, [x29, #-80]
	stp q0, q0, [x29, #-48]
	bl ring.hmac.sign_counted
	ldur q0, [x24, #33]
	ldur q1, [x24, #49]
	ldurb w8, [x29, #-15]
	ldurb w9, [x29, #-80]
	stp q0, q1, [x29, #-160]
	ldur q0, [x24, #17]
	ldur q1, [x24, #1]
	sturb w8, [x29, #-128]
	stp q1, q0, [x29, #-192]
	cbz w9, L(144_4)
L(144_0):
	mov w0, #0x8
	b L(144_3)
L(144_1):
	mov w0, #0x1
	b L(144_3)
L(144_2):
	mov w0, #0x4
L(144_3):
	add sp, sp, #0x260
	ldp x20, x19, [sp, #64]
	ldr x28, [sp, #16]
	ldp x22, x21, [sp, #48]
	ldp x24, x23, [sp, #32]
	ldp x29, x30, [sp], #80
	ret
L(144_4):
	ldurb w8, [x29, #-128]
	adrp x9, PAGE(L(switch.table.yz_webhook_verify_stripe))
	add x9, x9, IN_PAGE(L(switch.table.yz_webhook_verify_stripe))
	add x0, x21, x20
	sub x1, x29, #0xc0
	ldr x2, [x9, x8, lsl #3]
	bl memcpy
	mov w0, wzr
	b L(144_3)
	SIZE(yz_hmac_sign, 496)

	CODE(yz_hmac_update)
	.p2align 2
	.globl yz_hmac_update
	TYPE(yz_hmac_update, %function)
yz_hmac_update:
	sub sp, sp, #0x50
	movi v0.2d, #0x0
	ldr w9, [x0]
	cmp x1, #0x0
	mov w8, #0x1000
	stp x29, x30, [sp, #32]
	add x29, sp, #0x20
	sub w11, w9, #0x3
	csel x10, x8, xzr, eq
	str x21, [sp, #48]
	cmp w11, #0x3
	add x8, x1, x10
	stp x20, x19, [sp, #64]
	stp q0, q0, [sp]
	b.cs L(146_0)
	ldp x11, x12, [x0, #8]
	mov w13, #0x80
	cmp x11, x13
	sbcs xzr, x12, xzr
	b.cs L(146_1)
	b L(146_6)
L(146_0):
	sub w11, w9, #0x1
	cmp w11, #0x2
	b.cs L(146_5)
	ldp x11, x12, [x0, #8]
	mov w13, #0x40
	cmp x11, x13
	sbcs xzr, x12, xzr
	b.cc L(146_6)
L(146_1):
	cmp w9, #0x3
	mov w9, #0x80
	mov w11, #0x40
	ldr w20, [x0, #4]
	csel x9, x11, x9, cc
	subs x9, x9, x20
	b.ls L(146_5)
	cmp x9, x2
	b.ls L(146_5)
	add x9, x0, x20
	add x9, x9, #0x58
	sub x11, x9, x8
	cmp x11, x2
	b.cs L(146_7)
	cmp x2, #0x8
	b.cc L(146_2)
	add x8, x0, x20
	add x9, x10, x1
	sub x8, x8, x9
	add x8, x8, #0x58
	cmp x8, #0x20
	b.cs L(146_10)
L(146_2):
	mov x8, xzr
L(146_3):
	add x9, x8, x20
	add x10, x10, x8
	sub x8, x2, x8
	add x11, x9, x0
	add x9, x1, x10
	add x10, x11, #0x58
L(146_4):
	ldrb w11, [x9], #1
	subs x8, x8, #0x1
	strb w11, [x10], #1
	b.ne L(146_4)
	b L(146_8)
L(146_5):
	mov x3, sp
	mov x1, x8
	bl ring.raw.context.RawContext.run
	cbnz w0, L(146_9)
L(146_6):
	mov w0, #0x2
	ldp x20, x19, [sp, #64]
	ldr x21, [sp, #48]
	ldp x29, x30, [sp, #32]
	add sp, sp, #0x50
	ret
L(146_7):
	mov x21, x0
	mov x0, x9
	mov x1, x8
	mov x19, x2
	bl memmove
	mov x0, x21
	mov x2, x19
L(146_8):
	add w8, w20, w2
	str w8, [x0, #4]
L(146_9):
	mov w0, wzr
	ldp x20, x19, [sp, #64]
	ldr x21, [sp, #48]
	ldp x29, x30, [sp, #32]
	add sp, sp, #0x50
	ret
L(146_10):
	cmp x2, #0x20
	b.cs L(146_11)
	mov x8, xzr
	b L(146_13)
L(146_11):
	add x11, x10, x1
	add x12, x20, x0
	and x9, x2, #0x18
	and x8, x2, #0xffffffffffffffe0
	add x11, x11, #0x10
	add x12, x12, #0x68
	and x13, x2, #0xffffffffffffffe0
L(146_12):
	ldp q0, q1, [x11, #-16]
	subs x13, x13, #0x20
	add x11, x11, #0x20
	stp q0, q1, [x12, #-16]
	add x12, x12, #0x20
	b.ne L(146_12)
	cmp x2, x8
	b.eq L(146_8)
	cbz x9, L(146_3)
L(146_13):
	mov x9, x8
	and x8, x2, #0xfffffffffffffff8
	add x11, x9, x20
	add x12, x10, x9
	sub x9, x9, x8
	add x13, x11, x0
	add x11, x1, x12
	add x12, x13, #0x58
L(146_14):
	ldr d0, [x11], #8
	adds x9, x9, #0x8
	str d0, [x12], #8
	b.ne L(146_14)
	cmp x2, x8
	b.eq L(146_8)
	b L(146_3)
	SIZE(yz_hmac_update, 492)

	CODE(yz_hmac_verify)
	.p2align 2
	.globl yz_hmac_verify
	TYPE(yz_hmac_verify, %function)
yz_hmac_verify:
	stp x29, x30, [sp, #-80]!
	stp x28, x25, [sp, #16]
	mov x29, sp
	stp x24, x23, [sp, #32]
	stp x22, x21, [sp, #48]
	stp x20, x19, [sp, #64]
	sub sp, sp, #0x260
	cmp x3, #0x0
	mov w10, #0x1000
	sub w8, w0, #0x1
	csel x23, x10, xzr, eq
	cmp x5, #0x0
	stp xzr, xzr, [sp]
	csel x20, x10, xzr, eq
	cmp w8, #0x3
	b.hi L(148_0)
	movi v0.2d, #0x0
	cmp x1, #0x0
	mov w10, #0x1000
	mov x9, x2
	csel x10, x10, xzr, eq
	mov x24, x3
	mov x19, x4
	add x0, sp, #0xd0
	add x2, x1, x10
	sub x4, x29, #0xa0
	mov w1, w8
	mov x3, x9
	mov x22, x6
	mov x21, x5
	stp q0, q0, [sp, #208]
	stp q0, q0, [sp, #240]
	mov x25, sp
	stp q0, q0, [sp, #272]
	stp q0, q0, [sp, #304]
	stp q0, q0, [sp, #336]
	stp q0, q0, [sp, #368]
	str q0, [sp, #400]
	stp q0, q0, [x29, #-160]
	bl ring.hmac.key.Key.new_counted
	ldp q0, q1, [sp, #352]
	ldrb w8, [sp, #208]
	stur q0, [x25, #143]
	stur q1, [x25, #159]
	ldp q0, q1, [sp, #384]
	stur q0, [x25, #175]
	stur q1, [x25, #191]
	ldp q0, q1, [sp, #288]
	stur q0, [sp, #79]
	stur q1, [sp, #95]
	ldp q0, q1, [sp, #320]
	stur q0, [sp, #111]
	stur q1, [sp, #127]
	ldp q0, q1, [sp, #224]
	stur q0, [sp, #15]
	stur q1, [sp, #31]
	ldp q0, q1, [sp, #256]
	stur q0, [sp, #47]
	stur q1, [sp, #63]
	cbnz w8, L(148_1)
	ldur q0, [x25, #143]
	ldur q1, [x25, #159]
	sub x0, x29, #0xa0
	ldur q2, [x25, #175]
	add x1, sp, #0xd0
	add x2, x24, x23
	stp q0, q1, [sp, #336]
	ldur q0, [x25, #191]
	ldur q1, [x25, #79]
	sub x4, x29, #0xc0
	mov x3, x19
	sturh wzr, [x29, #-96]
	stp q2, q0, [sp, #368]
	ldur q0, [x25, #95]
	ldur q2, [x25, #111]
	stp q1, q0, [sp, #272]
	ldur q0, [x25, #127]
	ldur q1, [x25, #15]
	stp q2, q0, [sp, #304]
	ldur q0, [x25, #31]
	ldur q2, [x25, #47]
	stp q1, q0, [sp, #208]
	ldur q0, [x25, #63]
	stp q2, q0, [sp, #240]
	movi v0.2d, #0x0
	stp q0, q0, [x29, #-192]
	stp q0, q0, [x29, #-160]
	stp q0, q0, [x29, #-128]
	bl ring.hmac.sign_counted
	ldurb w8, [x29, #-160]
	cbnz w8, L(148_1)
	ldurb w8, [x29, #-95]
	sub x9, x29, #0xa0
	adrp x10, PAGE(L(switch.table.yz_webhook_verify_stripe))
	add x10, x10, IN_PAGE(L(switch.table.yz_webhook_verify_stripe))
	ldur q0, [x9, #33]
	ldur q1, [x9, #49]
	sturb w8, [x29, #-16]
	and w8, w8, #0xff
	ldur q2, [x9, #17]
	ldr x10, [x10, x8, lsl #3]
	stp q0, q1, [x29, #-48]
	ldur q0, [x9, #1]
	cmp x10, x22
	stp q0, q2, [x29, #-80]
	b.ne L(148_1)
	mov x8, x22
	cmp x22, #0x8
	b.cs L(148_3)
	mov w10, wzr
	mov x9, xzr
	b L(148_8)
L(148_0):
	mov w0, #0x1
	b L(148_2)
L(148_1):
	mov w0, #0x8
L(148_2):
	add sp, sp, #0x260
	ldp x20, x19, [sp, #64]
	ldp x22, x21, [sp, #48]
	ldp x24, x23, [sp, #32]
	ldp x28, x25, [sp, #16]
	ldp x29, x30, [sp], #80
	ret
L(148_3):
	cmp x8, #0x20
	b.cs L(148_4)
	mov x9, xzr
	mov w10, wzr
	b L(148_6)
L(148_4):
	movi v0.2d, #0x0
	movi v1.2d, #0x0
	add x10, x20, x21
	sub x12, x29, #0x50
	and x11, x8, #0x18
	and x9, x8, #0xffffffffffffffe0
	add x10, x10, #0x10
	add x12, x12, #0x10
	and x13, x8, #0xffffffffffffffe0
L(148_5):
	ldp q2, q3, [x12, #-16]
	subs x13, x13, #0x20
	ldp q4, q5, [x10, #-16]
	add x10, x10, #0x20
	add x12, x12, #0x20
	eor v2.16b, v4.16b, v2.16b
	eor v3.16b, v5.16b, v3.16b
	orr v0.16b, v2.16b, v0.16b
	orr v1.16b, v3.16b, v1.16b
	b.ne L(148_5)
	orr v0.16b, v1.16b, v0.16b
	cmp x8, x9
	ext v1.16b, v0.16b, v0.16b, #8
	orr v0.8b, v0.8b, v1.8b
	fmov x10, d0
	orr x10, x10, x10, lsr #32
	orr x10, x10, x10, lsr #16
	lsr x12, x10, #8
	orr w10, w10, w12
	b.eq L(148_10)
	cbz x11, L(148_8)
L(148_6):
	movi v0.2d, #0x0
	mov x12, x9
	and x9, x8, #0xfffffffffffffff8
	add x11, x20, x12
	sub x13, x29, #0x50
	add x11, x21, x11
	mov v0.b[0], w10
	sub x10, x12, x9
	add x12, x13, x12
L(148_7):
	ldr d1, [x12], #8
	adds x10, x10, #0x8
	ldr d2, [x11], #8
	eor v1.8b, v2.8b, v1.8b
	orr v0.8b, v1.8b, v0.8b
	b.ne L(148_7)
	fmov x10, d0
	cmp x8, x9
	orr x10, x10, x10, lsr #32
	orr x10, x10, x10, lsr #16
	lsr x11, x10, #8
	orr w10, w10, w11
	b.eq L(148_10)
L(148_8):
	add x11, x20, x9
	sub x12, x29, #0x50
	sub x8, x8, x9
	add x11, x21, x11
	add x9, x12, x9
L(148_9):
	ldrb w12, [x9], #1
	subs x8, x8, #0x1
	ldrb w13, [x11], #1
	eor w12, w13, w12
	orr w10, w12, w10
	b.ne L(148_9)
L(148_10):
	tst w10, #0xff
	mov w8, #0x8
	csel w0, wzr, w8, eq
	b L(148_2)
	SIZE(yz_hmac_verify, 776)

	CODE(yz_hotp)
	.p2align 2
	.globl yz_hotp
	TYPE(yz_hotp, %function)
yz_hotp:
	cmp x1, #0x0
	mov w9, #0x1000
	mov x8, x3
	csel x10, x9, xzr, eq
	cmp x4, #0x0
	mov x6, x5
	csel x9, x9, xzr, eq
	add x1, x1, x10
	mov w3, #0x1
	add x5, x4, x9
	mov x4, x8
	b ring_c.otp.write
	SIZE(yz_hotp, 48)

	CODE(yz_hotp_find)
	.p2align 2
	.globl yz_hotp_find
	TYPE(yz_hotp_find, %function)
yz_hotp_find:
	stp x29, x30, [sp, #-80]!
	str x28, [sp, #16]
	mov x29, sp
	stp x24, x23, [sp, #32]
	stp x22, x21, [sp, #48]
	stp x20, x19, [sp, #64]
	sub sp, sp, #0x290
	cmp x1, #0x0
	mov w10, #0x1000
	sub w8, w0, #0x1
	csel x9, x10, xzr, eq
	cmp x6, #0x0
	stp xzr, xzr, [sp]
	csel x23, x10, xzr, eq
	cmp w8, #0x3
	b.hi L(152_0)
	sub x19, x5, #0x6
	cmp x19, #0x2
	b.hi L(152_1)
	movi v0.2d, #0x0
	mov x22, x3
	mov x3, x2
	stp xzr, xzr, [sp, #240]
	stp q0, q0, [sp, #208]
	stp q0, q0, [x29, #-192]
	stp q0, q0, [x29, #-160]
	stp q0, q0, [x29, #-128]
	stp q0, q0, [x29, #-96]
	stp q0, q0, [x29, #-64]
	stp q0, q0, [x29, #-32]
	stur q0, [x29, #-208]
	cbz x2, L(152_2)
	mov x21, x4
	sub x0, x29, #0xd0
	add x2, x1, x9
	add x4, sp, #0xd0
	mov w1, w8
	mov x24, x6
	mov x20, x7
	bl ring.hmac.key.Key.new_counted
	ldurb w8, [x29, #-208]
	cbnz w8, L(152_2)
	ldp q0, q1, [x29, #-64]
	add x8, sp, #0xf0
	mov x9, sp
	sub x0, x29, #0xd0
	add x4, x24, x23
	add x6, sp, #0xf0
	mov x1, x22
	mov x2, x21
	stur q0, [x8, #143]
	ldp q0, q2, [x29, #-32]
	stur q1, [x8, #159]
	mov w3, w19
	mov x5, x20
	stur q0, [x8, #175]
	ldp q0, q1, [x29, #-128]
	stur q2, [x8, #191]
	stur q0, [x8, #79]
	stur q1, [x8, #95]
	ldp q0, q1, [x29, #-96]
	stur q0, [x8, #111]
	stur q1, [x8, #127]
	ldp q0, q1, [x29, #-192]
	stur q0, [x8, #15]
	stur q1, [x8, #31]
	ldp q0, q1, [x29, #-160]
	stur q0, [x8, #47]
	ldur q0, [x8, #143]
	stur q1, [x8, #63]
	ldur q1, [x8, #159]
	stur q0, [x9, #143]
	ldur q0, [x8, #175]
	stur q1, [x9, #159]
	ldur q1, [x8, #191]
	stur q0, [x9, #175]
	ldur q0, [x8, #79]
	stur q1, [x9, #191]
	ldur q1, [x8, #95]
	ldur q2, [x9, #175]
	stur q0, [sp, #79]
	ldur q0, [x8, #111]
	stur q1, [sp, #95]
	ldur q1, [x8, #127]
	stur q0, [sp, #111]
	ldur q0, [x8, #15]
	stur q1, [sp, #127]
	ldur q1, [x8, #31]
	stur q0, [sp, #15]
	ldur q0, [x8, #47]
	stur q1, [sp, #31]
	ldur q1, [x8, #63]
	stur q0, [sp, #47]
	ldur q0, [x9, #143]
	stur q1, [sp, #63]
	ldur q1, [x9, #159]
	ldur q3, [sp, #47]
	stp q0, q1, [x29, #-80]
	ldur q0, [x9, #191]
	ldur q1, [sp, #79]
	stp q2, q0, [x29, #-48]
	ldur q0, [sp, #95]
	ldur q2, [sp, #111]
	stp q1, q0, [x29, #-144]
	ldur q0, [sp, #127]
	ldur q1, [sp, #15]
	stp q2, q0, [x29, #-112]
	ldur q0, [sp, #31]
	movi v2.2d, #0x0
	stp q1, q0, [x29, #-208]
	ldur q0, [sp, #63]
	stp q3, q0, [x29, #-176]
	stp q2, q2, [sp, #240]
	bl ring_tokens.otp.find_hotp_counted
	and w8, w0, #0xff
	cmp w8, #0x1
	b.ne L(152_2)
	ldr x8, [x29, #80]
	mov w0, wzr
	str x1, [x8]
	b L(152_3)
L(152_0):
	mov w0, #0x1
	b L(152_3)
L(152_1):
	mov w0, #0x4
	b L(152_3)
L(152_2):
	mov w0, #0x8
L(152_3):
	add sp, sp, #0x290
	ldp x20, x19, [sp, #64]
	ldr x28, [sp, #16]
	ldp x22, x21, [sp, #48]
	ldp x24, x23, [sp, #32]
	ldp x29, x30, [sp], #80
	ret
	SIZE(yz_hotp_find, 532)

	CODE(yz_jws_sign)
	.p2align 2
	.globl yz_jws_sign
	TYPE(yz_jws_sign, %function)
yz_jws_sign:
	stp x29, x30, [sp, #-96]!
	stp x28, x27, [sp, #16]
	mov x29, sp
	stp x26, x25, [sp, #32]
	stp x24, x23, [sp, #48]
	stp x22, x21, [sp, #64]
	stp x20, x19, [sp, #80]
	sub sp, sp, #0x2b0
	cmp x1, #0x0
	mov w8, #0x1000
	sub w23, w0, #0x2
	csel x9, x8, xzr, eq
	cmp x3, #0x0
	csel x21, x8, xzr, eq
	cmp x5, #0x0
	csel x20, x8, xzr, eq
	cmp w23, #0x2
	b.hi L(154_2)
	lsr x8, x4, #62
	cmp x8, #0x2
	b.hi L(154_3)
	mov x8, #0xaaaaaaaaaaaaaaaa
	movk x8, #0xaaab
	umulh x8, x4, x8
	lsr x8, x8, #1
	add x10, x8, x8, lsl #1
	lsl x24, x8, #2
	subs x26, x4, x10
	mov x8, x24
	b.eq L(154_0)
	cmp x26, #0x1
	orr x8, x24, #0x3
	orr x10, x24, #0x2
	csel x8, x8, x10, ne
L(154_0):
	adrp x25, PAGE(L(switch.table.yz_jws_sign.239))
	add x25, x25, IN_PAGE(L(switch.table.yz_jws_sign.239))
	mov w0, #0x4
	ldr x10, [x25, w23, uxtw #3]
	mvn x11, x10
	cmp x8, x11
	b.hi L(154_4)
	add x8, x10, x8
	cmp x8, x6
	b.hi L(154_4)
	lsl w8, w23, #4
	movi v0.2d, #0x0
	stp xzr, xzr, [sp, #224]
	add w8, w8, #0x20
	and x8, x8, #0xf0
	cmp x2, x8
	stp q0, q0, [x29, #-256]
	stp q0, q0, [x29, #-224]
	stp q0, q0, [x29, #-192]
	stp q0, q0, [x29, #-160]
	stp q0, q0, [x29, #-128]
	stp q0, q0, [x29, #-96]
	stp q0, q0, [x29, #-48]
	stur q0, [x29, #-64]
	b.cc L(154_1)
	mov x10, x1
	mov x8, x2
	sub x0, x29, #0x100
	add w1, w23, #0x1
	add x2, x10, x9
	mov x27, x4
	sub x4, x29, #0x30
	mov x28, x3
	mov x3, x8
	str x7, [sp, #8]
	mov x19, x6
	mov x22, x5
	bl ring.hmac.key.Key.new_counted
	ldurb w10, [x29, #-256]
	cbz w10, L(154_5)
L(154_1):
	mov w0, #0x8
	b L(154_4)
L(154_2):
	mov w0, #0x1
	b L(154_4)
L(154_3):
	mov w0, #0x4
L(154_4):
	add sp, sp, #0x2b0
	ldp x20, x19, [sp, #80]
	ldp x22, x21, [sp, #64]
	ldp x24, x23, [sp, #48]
	ldp x26, x25, [sp, #32]
	ldp x28, x27, [sp, #16]
	ldp x29, x30, [sp], #96
	ret
L(154_5):
	ldp q0, q1, [x29, #-112]
	add x10, sp, #0xe0
	add x11, sp, #0x10
	mov x8, x28
	mov x4, x27
	mov x1, x19
	sturb w23, [x29, #-256]
	stur q0, [x10, #143]
	ldp q0, q2, [x29, #-80]
	stur q1, [x10, #159]
	stur q0, [x10, #175]
	ldp q0, q1, [x29, #-176]
	stur q2, [x10, #191]
	stur q0, [x10, #79]
	stur q1, [x10, #95]
	ldp q0, q1, [x29, #-144]
	stur q0, [x10, #111]
	stur q1, [x10, #127]
	ldp q0, q1, [x29, #-240]
	stur q0, [x10, #15]
	stur q1, [x10, #31]
	ldp q0, q1, [x29, #-208]
	stur q0, [x10, #47]
	stur q1, [x10, #63]
	ldp q0, q1, [sp, #384]
	stp q0, q1, [sp, #176]
	ldur q0, [x10, #191]
	stur q0, [x11, #191]
	ldp q1, q0, [sp, #320]
	stp q1, q0, [sp, #112]
	ldp q0, q2, [sp, #352]
	stp q0, q2, [sp, #144]
	ldp q1, q0, [sp, #256]
	stp q1, q0, [sp, #48]
	ldp q0, q2, [sp, #288]
	stp q0, q2, [sp, #80]
	ldp q0, q1, [sp, #224]
	ldr q3, [sp, #96]
	stp q0, q1, [sp, #16]
	ldp q2, q0, [sp, #176]
	ldur q1, [x11, #191]
	sub x11, x29, #0x100
	str q3, [sp, #304]
	stp q2, q0, [sp, #384]
	stur q1, [x10, #191]
	ldp q0, q1, [sp, #112]
	stp q0, q1, [sp, #320]
	ldp q0, q2, [sp, #144]
	stp q0, q2, [sp, #352]
	ldp q1, q0, [sp, #32]
	ldr q2, [sp, #16]
	stp q1, q0, [sp, #240]
	ldp q1, q0, [sp, #64]
	str q2, [sp, #224]
	strh wzr, [sp, #80]
	stp q1, q0, [sp, #272]
	ldp q0, q1, [sp, #368]
	stur q0, [x11, #145]
	ldr q0, [sp, #400]
	stur q1, [x11, #161]
	ldur q1, [x10, #191]
	stur q0, [x11, #177]
	stur q1, [x29, #-64]
	ldp q0, q1, [sp, #304]
	stur q0, [x11, #81]
	ldp q0, q2, [sp, #336]
	stur q1, [x11, #97]
	stur q0, [x11, #113]
	ldp q0, q1, [sp, #240]
	stur q2, [x11, #129]
	ldr q2, [sp, #224]
	stur q0, [x11, #17]
	ldp q0, q3, [sp, #272]
	stur q1, [x11, #33]
	stur q2, [x11, #1]
	stur q0, [x11, #49]
	movi v0.2d, #0x0
	stur q3, [x11, #65]
	stp q0, q0, [x29, #-48]
	stp q0, q0, [sp, #16]
	stp q0, q0, [sp, #48]
	cbz x26, L(154_7)
	cmp x26, #0x1
	b.ne L(154_6)
	orr x24, x24, #0x2
	b L(154_7)
L(154_6):
	orr x24, x24, #0x3
L(154_7):
	ldr x10, [x25, w23, uxtw #3]
	adds x10, x10, x24
	b.cs L(154_1)
	cmp x1, x10
	b.cc L(154_1)
	cmp w23, #0x2
	b.eq L(154_8)
	cmp w23, #0x1
	b.ne L(154_9)
	adrp x10, PAGE(L(static.12))
	add x10, x10, IN_PAGE(L(static.12))
	b L(154_10)
L(154_8):
	adrp x10, PAGE(L(static.13))
	add x10, x10, IN_PAGE(L(static.13))
	b L(154_10)
L(154_9):
	sub x10, x10, #0x2c
	mov x11, #0x1fffffffffffffc0
	cmp x10, x11
	b.cs L(154_1)
	adrp x10, PAGE(L(static.11))
	add x10, x10, IN_PAGE(L(static.11))
L(154_10):
	ldr q0, [x10]
	add x20, x22, x20
	mov w23, #0x2e
	sub x9, x20, x10
	add x3, x8, x21
	mov x0, x20
	str q0, [x20]
	cmp x9, #0x23
	mov w2, #0x25
	ldr q0, [x10, #16]
	str q0, [x20, #16]
	ldr w9, [x10, #32]
	strb w23, [x20, #36]
	str w9, [x20, #32]
	bl ring_tokens.put.put_base64url
	mov x21, x0
	sub x8, x29, #0x100
	add x0, sp, #0x10
	add x1, x8, #0x10
	sub x4, x29, #0x30
	mov x2, x20
	mov x3, x21
	add x24, sp, #0x10
	bl ring.hmac.sign_counted
	ldrb w8, [sp, #16]
	cbnz w8, L(154_11)
	ldrb w8, [sp, #81]
	strb w23, [x20, x21]
	adrp x9, PAGE(L(switch.table.yz_webhook_verify_stripe))
	add x9, x9, IN_PAGE(L(switch.table.yz_webhook_verify_stripe))
	add x2, x21, #0x1
	orr x3, x24, #0x1
	ldr x4, [x9, x8, lsl #3]
	mov x0, x20
	mov x1, x19
	bl ring_tokens.put.put_base64url
	ldr x9, [sp, #8]
	mov x8, x0
	mov w0, wzr
	str x8, [x9]
	b L(154_4)
L(154_11):
	brk #0x1
	SIZE(yz_jws_sign, 948)

	CODE(yz_jws_verify)
	.p2align 2
	.globl yz_jws_verify
	TYPE(yz_jws_verify, %function)
yz_jws_verify:
	stp x29, x30, [sp, #-96]!
	stp x28, x27, [sp, #16]
	mov x29, sp
	stp x26, x25, [sp, #32]
	stp x24, x23, [sp, #48]
	stp x22, x21, [sp, #64]
	stp x20, x19, [sp, #80]
	sub sp, sp, #0x370
	cmp x1, #0x0
	mov w8, #0x1000
	sub w27, w0, #0x2
	csel x9, x8, xzr, eq
	cmp x3, #0x0
	csel x20, x8, xzr, eq
	cmp x5, #0x0
	csel x25, x8, xzr, eq
	cmp w27, #0x2
	b.hi L(156_0)
	cmp x6, x4
	b.cs L(156_1)
	mov w0, #0x4
	b L(156_21)
L(156_0):
	mov w0, #0x1
	b L(156_21)
L(156_1):
	lsl w8, w27, #4
	movi v0.2d, #0x0
	stp x6, x7, [sp, #32]
	stp xzr, xzr, [sp, #256]
	add w8, w8, #0x20
	and x8, x8, #0xf0
	cmp x2, x8
	stp q0, q0, [x29, #-176]
	stp q0, q0, [sp, #464]
	stp q0, q0, [sp, #496]
	stp q0, q0, [sp, #528]
	stp q0, q0, [sp, #560]
	stp q0, q0, [sp, #592]
	stp q0, q0, [sp, #624]
	str q0, [sp, #656]
	b.cc L(156_20)
	mov x10, x1
	mov x8, x2
	add x0, sp, #0x1d0
	add w1, w27, #0x1
	add x2, x10, x9
	mov x21, x4
	sub x4, x29, #0xb0
	mov x28, x3
	mov x3, x8
	mov x26, x5
	bl ring.hmac.key.Key.new_counted
	ldrb w9, [sp, #464]
	cbnz w9, L(156_20)
	ldp q0, q1, [sp, #608]
	add x9, sp, #0x100
	add x10, sp, #0x30
	mov x2, x21
	add x0, sp, #0x30
	add x1, x28, x20
	mov w3, #0x2e
	strb w27, [sp, #464]
	stur q0, [x9, #143]
	ldp q0, q2, [sp, #640]
	stur q1, [x9, #159]
	stur xzr, [x29, #-144]
	stur q0, [x9, #175]
	ldp q0, q1, [sp, #544]
	stur q2, [x9, #191]
	stur q0, [x9, #79]
	stur q1, [x9, #95]
	ldp q0, q1, [sp, #576]
	stur q0, [x9, #111]
	stur q1, [x9, #127]
	ldp q0, q1, [sp, #480]
	stur q0, [x9, #15]
	stur q1, [x9, #31]
	ldp q0, q1, [sp, #512]
	stur q0, [x9, #47]
	stur q1, [x9, #63]
	ldp q0, q1, [sp, #416]
	stp q0, q1, [sp, #208]
	ldur q0, [x9, #191]
	stur q0, [x10, #191]
	ldp q1, q0, [sp, #352]
	stp q1, q0, [sp, #144]
	ldp q0, q2, [sp, #384]
	stp q0, q2, [sp, #176]
	ldp q1, q0, [sp, #288]
	stp q1, q0, [sp, #80]
	ldp q0, q2, [sp, #320]
	stp q0, q2, [sp, #112]
	ldp q0, q1, [sp, #256]
	ldr q3, [sp, #128]
	stp q0, q1, [sp, #48]
	ldp q2, q0, [sp, #208]
	ldur q1, [x10, #191]
	add x10, sp, #0x1d0
	str q3, [sp, #336]
	stp q2, q0, [sp, #416]
	stur q1, [x9, #191]
	ldp q0, q1, [sp, #144]
	stp q0, q1, [sp, #352]
	ldp q0, q2, [sp, #176]
	stp q0, q2, [sp, #384]
	ldp q1, q0, [sp, #64]
	ldr q2, [sp, #48]
	str xzr, [sp, #80]
	stp q1, q0, [sp, #272]
	ldp q1, q0, [sp, #96]
	str q2, [sp, #256]
	stp q1, q0, [sp, #304]
	ldp q0, q1, [sp, #400]
	stur q0, [x10, #145]
	ldr q0, [sp, #432]
	stur q1, [x10, #161]
	ldur q1, [x9, #191]
	stur q0, [x10, #177]
	str q1, [sp, #656]
	ldp q0, q1, [sp, #336]
	stur q0, [x10, #81]
	ldp q0, q2, [sp, #368]
	stur q1, [x10, #97]
	stur q0, [x10, #113]
	ldp q0, q1, [sp, #272]
	stur q2, [x10, #129]
	ldr q2, [sp, #256]
	stur q0, [x10, #17]
	ldp q0, q3, [sp, #304]
	stur q1, [x10, #33]
	stur q2, [x10, #1]
	stur q0, [x10, #49]
	movi v0.2d, #0x0
	stur q3, [x10, #65]
	stp q0, q0, [x29, #-208]
	stp q0, q0, [sp, #48]
	stp q0, q0, [x29, #-176]
	bl ring_text.cut.cut_at
	ldrb w8, [sp, #48]
	cmp w8, #0x1
	b.ne L(156_20)
	ldp x1, x2, [sp, #72]
	sub x0, x29, #0xb0
	ldp x21, x22, [sp, #56]
	mov w3, #0x2e
	bl ring_text.cut.cut_at
	ldurb w8, [x29, #-176]
	cmp w8, #0x1
	b.ne L(156_20)
	str x21, [sp, #24]
	ldp x23, x21, [x29, #-168]
	movi v0.2d, #0x0
	ldp x19, x24, [x29, #-152]
	add x9, sp, #0x1d0
	sub x0, x29, #0xb0
	add x2, x28, x20
	add x8, x22, x21
	add x1, x9, #0x10
	sub x4, x29, #0xd0
	add x3, x8, #0x1
	sturh wzr, [x29, #-112]
	stp q0, q0, [x29, #-176]
	stp q0, q0, [x29, #-144]
	bl ring.hmac.sign_counted
	ldurb w8, [x29, #-176]
	cbnz w8, L(156_20)
	sub x9, x29, #0xb0
	ldurb w8, [x29, #-111]
	stp x21, x22, [sp, #8]
	ldur q0, [x9, #33]
	ldur q1, [x9, #49]
	ldur q2, [x9, #17]
	cmp w8, #0x1
	str x23, [sp]
	stp q0, q1, [x29, #-64]
	ldur q0, [x9, #1]
	sturb w8, [x29, #-32]
	stp q0, q2, [x29, #-96]
	b.le L(156_2)
	cmp w8, #0x2
	b.eq L(156_4)
	cmp w8, #0x3
	b.ne L(156_3)
	mov w28, wzr
	mov w20, #0x40
	b L(156_5)
L(156_2):
	cbnz w8, L(156_3)
	mov w28, #0x1
	mov w20, #0x14
	b L(156_5)
L(156_3):
	mov w28, wzr
	mov w20, #0x20
	b L(156_5)
L(156_4):
	mov w28, wzr
	mov w20, #0x30
L(156_5):
	movi v0.2d, #0x0
	cmp x24, #0x56
	str xzr, [sp, #128]
	stp q0, q0, [sp, #64]
	stp q0, q0, [sp, #96]
	str q0, [sp, #48]
	b.ls L(156_6)
	mov w8, wzr
	mov w9, wzr
	b L(156_7)
L(156_6):
	add x2, sp, #0x30
	mov x0, x19
	mov x1, x24
	mov w3, #0x58
	bl ring_tokens.decoded.decode_over
	and w8, w0, #0xff
	cmp w8, #0x1
	cset w8, eq
	cmp x1, x20
	cset w9, eq
L(156_7):
	tbz w28, #0, L(156_8)
	mov x10, xzr
	mov w11, wzr
	b L(156_10)
L(156_8):
	movi v0.2d, #0x0
	movi v1.2d, #0x0
	add x11, sp, #0x30
	sub x12, x29, #0x60
	and x10, x20, #0x60
	add x11, x11, #0x10
	add x12, x12, #0x10
	and x13, x20, #0x60
L(156_9):
	ldp q2, q3, [x12, #-16]
	subs x13, x13, #0x20
	ldp q4, q5, [x11, #-16]
	add x11, x11, #0x20
	add x12, x12, #0x20
	eor v2.16b, v4.16b, v2.16b
	eor v3.16b, v5.16b, v3.16b
	orr v0.16b, v2.16b, v0.16b
	orr v1.16b, v3.16b, v1.16b
	b.ne L(156_9)
	orr v0.16b, v1.16b, v0.16b
	cmp x20, x10
	ext v1.16b, v0.16b, v0.16b, #8
	orr v0.8b, v0.8b, v1.8b
	fmov x11, d0
	orr x11, x11, x11, lsr #32
	orr x11, x11, x11, lsr #16
	lsr x12, x11, #8
	orr w11, w11, w12
	b.eq L(156_14)
	tbz w20, #4, L(156_12)
L(156_10):
	movi v0.2d, #0x0
	mov x13, x10
	and x10, x20, #0x70
	add x12, sp, #0x30
	sub x14, x29, #0x60
	add x12, x12, x13
	mov v0.b[0], w11
	sub x11, x13, x10
	add x13, x14, x13
L(156_11):
	ldr d1, [x13], #8
	adds x11, x11, #0x8
	ldr d2, [x12], #8
	eor v1.8b, v2.8b, v1.8b
	orr v0.8b, v1.8b, v0.8b
	b.ne L(156_11)
	fmov x11, d0
	cmp x20, x10
	orr x11, x11, x11, lsr #32
	orr x11, x11, x11, lsr #16
	lsr x12, x11, #8
	orr w11, w11, w12
	b.eq L(156_14)
L(156_12):
	add x13, sp, #0x30
	sub x14, x29, #0x60
	sub x12, x20, x10
	add x13, x13, x10
	add x10, x14, x10
L(156_13):
	ldrb w14, [x10], #1
	subs x12, x12, #0x1
	ldrb w15, [x13], #1
	eor w14, w15, w14
	orr w11, w14, w11
	b.ne L(156_13)
L(156_14):
	tst w11, #0xff
	and w8, w8, w9
	cset w10, eq
	and w8, w10, w8
	tbz w8, #0, L(156_20)
	ldr x8, [sp, #16]
	cmp x8, #0x24
	b.ne L(156_15)
	adrp x8, PAGE(L(266_0))
	add x8, x8, IN_PAGE(L(266_0))
	ldr x9, [sp, #24]
	ldr x8, [x8, w27, uxtw #3]
	ldrb w9, [x9]
	ldrb w10, [x8]
	cmp w9, w10
	b.ne L(156_15)
	ldr x9, [sp, #24]
	ldrb w10, [x8, #1]
	ldrb w9, [x9, #1]
	cmp w9, w10
	b.ne L(156_15)
	ldr x9, [sp, #24]
	ldrb w10, [x8, #2]
	ldrb w9, [x9, #2]
	cmp w9, w10
	b.ne L(156_15)
	ldr x9, [sp, #24]
	ldrb w10, [x8, #3]
	ldrb w9, [x9, #3]
	cmp w9, w10
	b.ne L(156_15)
	ldr x9, [sp, #24]
	ldrb w10, [x8, #4]
	ldrb w9, [x9, #4]
	cmp w9, w10
	b.ne L(156_15)
	ldr x9, [sp, #24]
	ldrb w10, [x8, #5]
	ldrb w9, [x9, #5]
	cmp w9, w10
	b.ne L(156_15)
	ldr x9, [sp, #24]
	ldrb w10, [x8, #6]
	ldrb w9, [x9, #6]
	cmp w9, w10
	b.ne L(156_15)
	ldr x9, [sp, #24]
	ldrb w10, [x8, #7]
	ldrb w9, [x9, #7]
	cmp w9, w10
	b.ne L(156_15)
	ldr x9, [sp, #24]
	ldrb w10, [x8, #8]
	ldrb w9, [x9, #8]
	cmp w9, w10
	b.ne L(156_15)
	ldr x9, [sp, #24]
	ldrb w10, [x8, #9]
	ldrb w9, [x9, #9]
	cmp w9, w10
	b.ne L(156_15)
	ldr x9, [sp, #24]
	ldrb w10, [x8, #10]
	ldrb w9, [x9, #10]
	cmp w9, w10
	b.ne L(156_15)
	ldr x9, [sp, #24]
	ldrb w10, [x8, #11]
	ldrb w9, [x9, #11]
	cmp w9, w10
	b.ne L(156_15)
	ldr x9, [sp, #24]
	ldrb w10, [x8, #12]
	ldrb w9, [x9, #12]
	cmp w9, w10
	b.ne L(156_15)
	ldr x9, [sp, #24]
	ldrb w10, [x8, #13]
	ldrb w9, [x9, #13]
	cmp w9, w10
	b.ne L(156_15)
	ldr x9, [sp, #24]
	ldrb w10, [x8, #14]
	ldrb w9, [x9, #14]
	cmp w9, w10
	b.ne L(156_15)
	ldr x9, [sp, #24]
	ldrb w10, [x8, #15]
	ldrb w9, [x9, #15]
	cmp w9, w10
	b.ne L(156_15)
	ldr x9, [sp, #24]
	ldrb w10, [x8, #16]
	ldrb w9, [x9, #16]
	cmp w9, w10
	b.ne L(156_15)
	ldr x9, [sp, #24]
	ldrb w10, [x8, #17]
	ldrb w9, [x9, #17]
	cmp w9, w10
	b.ne L(156_15)
	ldr x9, [sp, #24]
	ldrb w10, [x8, #18]
	ldrb w9, [x9, #18]
	cmp w9, w10
	b.ne L(156_15)
	ldr x9, [sp, #24]
	ldrb w10, [x8, #19]
	ldrb w9, [x9, #19]
	cmp w9, w10
	b.ne L(156_15)
	ldr x9, [sp, #24]
	ldrb w10, [x8, #20]
	ldrb w9, [x9, #20]
	cmp w9, w10
	b.ne L(156_15)
	ldr x9, [sp, #24]
	ldrb w10, [x8, #21]
	ldrb w9, [x9, #21]
	cmp w9, w10
	b.ne L(156_15)
	ldr x9, [sp, #24]
	ldrb w10, [x8, #22]
	ldrb w9, [x9, #22]
	cmp w9, w10
	b.ne L(156_15)
	ldr x9, [sp, #24]
	ldrb w10, [x8, #23]
	ldrb w9, [x9, #23]
	cmp w9, w10
	b.ne L(156_15)
	ldr x9, [sp, #24]
	ldrb w10, [x8, #24]
	ldrb w9, [x9, #24]
	cmp w9, w10
	b.ne L(156_15)
	ldr x9, [sp, #24]
	ldrb w10, [x8, #25]
	ldrb w9, [x9, #25]
	cmp w9, w10
	b.ne L(156_15)
	ldr x9, [sp, #24]
	ldrb w10, [x8, #26]
	ldrb w9, [x9, #26]
	cmp w9, w10
	b.ne L(156_15)
	ldr x9, [sp, #24]
	ldrb w10, [x8, #27]
	ldrb w9, [x9, #27]
	cmp w9, w10
	b.ne L(156_15)
	ldr x9, [sp, #24]
	ldrb w10, [x8, #28]
	ldrb w9, [x9, #28]
	cmp w9, w10
	b.ne L(156_15)
	ldr x9, [sp, #24]
	ldrb w10, [x8, #29]
	ldrb w9, [x9, #29]
	cmp w9, w10
	b.ne L(156_15)
	ldr x9, [sp, #24]
	ldrb w10, [x8, #30]
	ldrb w9, [x9, #30]
	cmp w9, w10
	b.ne L(156_15)
	ldr x9, [sp, #24]
	ldrb w10, [x8, #31]
	ldrb w9, [x9, #31]
	cmp w9, w10
	b.ne L(156_15)
	ldr x9, [sp, #24]
	ldrb w10, [x8, #32]
	ldrb w9, [x9, #32]
	cmp w9, w10
	b.ne L(156_15)
	ldr x9, [sp, #24]
	ldrb w10, [x8, #33]
	ldrb w9, [x9, #33]
	cmp w9, w10
	b.ne L(156_15)
	ldr x9, [sp, #24]
	ldrb w10, [x8, #34]
	ldrb w9, [x9, #34]
	cmp w9, w10
	b.ne L(156_15)
	ldr x9, [sp, #24]
	ldrb w8, [x8, #35]
	ldrb w9, [x9, #35]
	cmp w9, w8
	b.eq L(156_17)
L(156_15):
	ldr x8, [sp, #16]
	cmp x8, #0x24
	b.ne L(156_16)
	adrp x8, PAGE(L(268_0))
	add x8, x8, IN_PAGE(L(268_0))
	ldr x9, [sp, #24]
	ldr x8, [x8, w27, uxtw #3]
	ldrb w9, [x9]
	ldrb w10, [x8]
	cmp w9, w10
	b.ne L(156_16)
	ldr x9, [sp, #24]
	ldrb w10, [x8, #1]
	ldrb w9, [x9, #1]
	cmp w9, w10
	b.ne L(156_16)
	ldr x9, [sp, #24]
	ldrb w10, [x8, #2]
	ldrb w9, [x9, #2]
	cmp w9, w10
	b.ne L(156_16)
	ldr x9, [sp, #24]
	ldrb w10, [x8, #3]
	ldrb w9, [x9, #3]
	cmp w9, w10
	b.ne L(156_16)
	ldr x9, [sp, #24]
	ldrb w10, [x8, #4]
	ldrb w9, [x9, #4]
	cmp w9, w10
	b.ne L(156_16)
	ldr x9, [sp, #24]
	ldrb w10, [x8, #5]
	ldrb w9, [x9, #5]
	cmp w9, w10
	b.ne L(156_16)
	ldr x9, [sp, #24]
	ldrb w10, [x8, #6]
	ldrb w9, [x9, #6]
	cmp w9, w10
	b.ne L(156_16)
	ldr x9, [sp, #24]
	ldrb w10, [x8, #7]
	ldrb w9, [x9, #7]
	cmp w9, w10
	b.ne L(156_16)
	ldr x9, [sp, #24]
	ldrb w10, [x8, #8]
	ldrb w9, [x9, #8]
	cmp w9, w10
	b.ne L(156_16)
	ldr x9, [sp, #24]
	ldrb w10, [x8, #9]
	ldrb w9, [x9, #9]
	cmp w9, w10
	b.ne L(156_16)
	ldr x9, [sp, #24]
	ldrb w10, [x8, #10]
	ldrb w9, [x9, #10]
	cmp w9, w10
	b.ne L(156_16)
	ldr x9, [sp, #24]
	ldrb w10, [x8, #11]
	ldrb w9, [x9, #11]
	cmp w9, w10
	b.ne L(156_16)
	ldr x9, [sp, #24]
	ldrb w10, [x8, #12]
	ldrb w9, [x9, #12]
	cmp w9, w10
	b.ne L(156_16)
	ldr x9, [sp, #24]
	ldrb w10, [x8, #13]
	ldrb w9, [x9, #13]
	cmp w9, w10
	b.ne L(156_16)
	ldr x9, [sp, #24]
	ldrb w10, [x8, #14]
	ldrb w9, [x9, #14]
	cmp w9, w10
	b.ne L(156_16)
	ldr x9, [sp, #24]
	ldrb w10, [x8, #15]
	ldrb w9, [x9, #15]
	cmp w9, w10
	b.ne L(156_16)
	ldr x9, [sp, #24]
	ldrb w10, [x8, #16]
	ldrb w9, [x9, #16]
	cmp w9, w10
	b.ne L(156_16)
	ldr x9, [sp, #24]
	ldrb w10, [x8, #17]
	ldrb w9, [x9, #17]
	cmp w9, w10
	b.ne L(156_16)
	ldr x9, [sp, #24]
	ldrb w10, [x8, #18]
	ldrb w9, [x9, #18]
	cmp w9, w10
	b.ne L(156_16)
	ldr x9, [sp, #24]
	ldrb w10, [x8, #19]
	ldrb w9, [x9, #19]
	cmp w9, w10
	b.ne L(156_16)
	ldr x9, [sp, #24]
	ldrb w10, [x8, #20]
	ldrb w9, [x9, #20]
	cmp w9, w10
	b.ne L(156_16)
	ldr x9, [sp, #24]
	ldrb w10, [x8, #21]
	ldrb w9, [x9, #21]
	cmp w9, w10
	b.ne L(156_16)
	ldr x9, [sp, #24]
	ldrb w10, [x8, #22]
	ldrb w9, [x9, #22]
	cmp w9, w10
	b.ne L(156_16)
	ldr x9, [sp, #24]
	ldrb w10, [x8, #23]
	ldrb w9, [x9, #23]
	cmp w9, w10
	b.ne L(156_16)
	ldr x9, [sp, #24]
	ldrb w10, [x8, #24]
	ldrb w9, [x9, #24]
	cmp w9, w10
	b.ne L(156_16)
	ldr x9, [sp, #24]
	ldrb w10, [x8, #25]
	ldrb w9, [x9, #25]
	cmp w9, w10
	b.ne L(156_16)
	ldr x9, [sp, #24]
	ldrb w10, [x8, #26]
	ldrb w9, [x9, #26]
	cmp w9, w10
	b.ne L(156_16)
	ldr x9, [sp, #24]
	ldrb w10, [x8, #27]
	ldrb w9, [x9, #27]
	cmp w9, w10
	b.ne L(156_16)
	ldr x9, [sp, #24]
	ldrb w10, [x8, #28]
	ldrb w9, [x9, #28]
	cmp w9, w10
	b.ne L(156_16)
	ldr x9, [sp, #24]
	ldrb w10, [x8, #29]
	ldrb w9, [x9, #29]
	cmp w9, w10
	b.ne L(156_16)
	ldr x9, [sp, #24]
	ldrb w10, [x8, #30]
	ldrb w9, [x9, #30]
	cmp w9, w10
	b.ne L(156_16)
	ldr x9, [sp, #24]
	ldrb w10, [x8, #31]
	ldrb w9, [x9, #31]
	cmp w9, w10
	b.ne L(156_16)
	ldr x9, [sp, #24]
	ldrb w10, [x8, #32]
	ldrb w9, [x9, #32]
	cmp w9, w10
	b.ne L(156_16)
	ldr x9, [sp, #24]
	ldrb w10, [x8, #33]
	ldrb w9, [x9, #33]
	cmp w9, w10
	b.ne L(156_16)
	ldr x9, [sp, #24]
	ldrb w10, [x8, #34]
	ldrb w9, [x9, #34]
	cmp w9, w10
	b.ne L(156_16)
	ldr x9, [sp, #24]
	ldrb w8, [x8, #35]
	ldrb w9, [x9, #35]
	cmp w9, w8
	b.eq L(156_17)
L(156_16):
	ldr x8, [sp, #16]
	cmp x8, #0x14
	b.ne L(156_20)
	adrp x8, PAGE(L(270_0))
	add x8, x8, IN_PAGE(L(270_0))
	ldr x9, [sp, #24]
	ldr x8, [x8, w27, uxtw #3]
	ldrb w9, [x9]
	ldrb w10, [x8]
	cmp w9, w10
	b.ne L(156_20)
	ldr x9, [sp, #24]
	ldrb w10, [x8, #1]
	ldrb w9, [x9, #1]
	cmp w9, w10
	b.ne L(156_20)
	ldr x9, [sp, #24]
	ldrb w10, [x8, #2]
	ldrb w9, [x9, #2]
	cmp w9, w10
	b.ne L(156_20)
	ldr x9, [sp, #24]
	ldrb w10, [x8, #3]
	ldrb w9, [x9, #3]
	cmp w9, w10
	b.ne L(156_20)
	ldr x9, [sp, #24]
	ldrb w10, [x8, #4]
	ldrb w9, [x9, #4]
	cmp w9, w10
	b.ne L(156_20)
	ldr x9, [sp, #24]
	ldrb w10, [x8, #5]
	ldrb w9, [x9, #5]
	cmp w9, w10
	b.ne L(156_20)
	ldr x9, [sp, #24]
	ldrb w10, [x8, #6]
	ldrb w9, [x9, #6]
	cmp w9, w10
	b.ne L(156_20)
	ldr x9, [sp, #24]
	ldrb w10, [x8, #7]
	ldrb w9, [x9, #7]
	cmp w9, w10
	b.ne L(156_20)
	ldr x9, [sp, #24]
	ldrb w10, [x8, #8]
	ldrb w9, [x9, #8]
	cmp w9, w10
	b.ne L(156_20)
	ldr x9, [sp, #24]
	ldrb w10, [x8, #9]
	ldrb w9, [x9, #9]
	cmp w9, w10
	b.ne L(156_20)
	ldr x9, [sp, #24]
	ldrb w10, [x8, #10]
	ldrb w9, [x9, #10]
	cmp w9, w10
	b.ne L(156_20)
	ldr x9, [sp, #24]
	ldrb w10, [x8, #11]
	ldrb w9, [x9, #11]
	cmp w9, w10
	b.ne L(156_20)
	ldr x9, [sp, #24]
	ldrb w10, [x8, #12]
	ldrb w9, [x9, #12]
	cmp w9, w10
	b.ne L(156_20)
	ldr x9, [sp, #24]
	ldrb w10, [x8, #13]
	ldrb w9, [x9, #13]
	cmp w9, w10
	b.ne L(156_20)
	ldr x9, [sp, #24]
	ldrb w10, [x8, #14]
	ldrb w9, [x9, #14]
	cmp w9, w10
	b.ne L(156_20)
	ldr x9, [sp, #24]
	ldrb w10, [x8, #15]
	ldrb w9, [x9, #15]
	cmp w9, w10
	b.ne L(156_20)
	ldr x9, [sp, #24]
	ldrb w10, [x8, #16]
	ldrb w9, [x9, #16]
	cmp w9, w10
	b.ne L(156_20)
	ldr x9, [sp, #24]
	ldrb w10, [x8, #17]
	ldrb w9, [x9, #17]
	cmp w9, w10
	b.ne L(156_20)
	ldr x9, [sp, #24]
	ldrb w10, [x8, #18]
	ldrb w9, [x9, #18]
	cmp w9, w10
	b.ne L(156_20)
	ldr x9, [sp, #24]
	ldrb w8, [x8, #19]
	ldrb w9, [x9, #19]
	cmp w9, w8
	b.ne L(156_20)
L(156_17):
	ldp x0, x22, [sp]
L(156_18):
	cmp x22, #0x41
	b.cc L(156_19)
	add x2, sp, #0x30
	mov w1, #0x40
	mov w3, #0x42
	add x20, x0, #0x40
	sub x22, x22, #0x40
	bl ring_tokens.decoded.decode_over
	and w8, w0, #0xff
	mov x0, x20
	cmp w8, #0x1
	b.eq L(156_18)
	b L(156_20)
L(156_19):
	add x2, sp, #0x30
	mov x1, x22
	mov w3, #0x42
	bl ring_tokens.decoded.decode_over
	and w8, w0, #0xff
	cmp w8, #0x1
	b.ne L(156_20)
	ldp x0, x1, [sp]
	add x2, x26, x25
	ldr x3, [sp, #32]
	bl ring_tokens.decoded.decode_over
	and w8, w0, #0xff
	cmp w8, #0x1
	b.ne L(156_20)
	ldr x8, [sp, #40]
	mov w0, wzr
	str x1, [x8]
	b L(156_21)
L(156_20):
	mov w0, #0x8
L(156_21):
	add sp, sp, #0x370
	ldp x20, x19, [sp, #80]
	ldp x22, x21, [sp, #64]
	ldp x24, x23, [sp, #48]
	ldp x26, x25, [sp, #32]
	ldp x28, x27, [sp, #16]
	ldp x29, x30, [sp], #96
	ret
	SIZE(yz_jws_verify, 3216)

	CODE(yz_merkle_consistency_path)
	.p2align 2
	.globl yz_merkle_consistency_path
	TYPE(yz_merkle_consistency_path, %function)
yz_merkle_consistency_path:
	cmp x0, #0x0
	mov w8, #0x1000
	csel x9, x8, xzr, eq
	cmp x3, #0x0
	csel x10, x8, xzr, eq
	mov w8, #0x8
	cbz x2, L(158_9)
	sub sp, sp, #0xc0
	stp x20, x19, [sp, #176]
	mov x19, x1
	cmp x1, x2
	stp x29, x30, [sp, #96]
	add x29, sp, #0x60
	str x27, [sp, #112]
	stp x26, x25, [sp, #128]
	stp x24, x23, [sp, #144]
	stp x22, x21, [sp, #160]
	b.ls L(158_8)
	movi v0.2d, #0x0
	sub x22, x2, #0x1
	sub x8, x19, #0x1
	sub x11, x2, #0x1
	stp q0, q0, [sp]
	tbz w22, #0, L(158_1)
L(158_0):
	mov x12, x11
	lsr x11, x11, #1
	lsr x8, x8, #1
	tbnz w12, #1, L(158_0)
	cbz x8, L(158_4)
L(158_1):
	mov x21, x5
	mov x12, xzr
L(158_2):
	cmp x11, x8
	lsr x8, x8, #1
	cset w13, ne
	orr w13, w13, w11
	lsr x11, x11, #1
	and x13, x13, #0x1
	add x12, x12, x13
	cbnz x8, L(158_2)
	tst x2, x22
	cinc x23, x12, ne
	cmp x4, x23
	b.cs L(158_5)
L(158_3):
	mov w8, #0x4
	b L(158_8)
L(158_4):
	mov x21, x5
	tst x2, x22
	cset x23, ne
	cmp x4, x23
	b.cc L(158_3)
L(158_5):
	movi v0.2d, #0x0
	add x8, x10, x23, lsl #5
	add x20, x0, x9
	add x24, x3, x10
	mov w25, #0x1
	add x8, x8, x3
	sub x26, x8, #0x20
	stp q0, q0, [x29, #-32]
	stp q0, q0, [sp, #32]
L(158_6):
	mvn x8, x19, lsr #1
	mov w9, #0x1
	mov w10, #0x20
	add x0, sp, #0x20
	mov x3, sp
	add x8, x19, x8
	clz x8, x8
	neg w8, w8
	lsl x9, x9, x8
	lsl x8, x10, x8
	add x8, x20, x8
	subs x10, x22, x9
	sub x11, x19, x9
	csel x1, x8, x20, cc
	csel x2, x11, x9, cc
	csel x20, x20, x8, cc
	csel x19, x9, x11, cc
	csel x27, x22, x10, cc
	bl ring_merkle.paths.tree_root_counted
	ldp q0, q1, [sp, #32]
	cmp x27, x22
	cset w8, eq
	add x9, x27, #0x1
	mov x22, x27
	and w25, w25, w8
	cmp x9, x19
	stp q0, q1, [x26], #-32
	movi v0.2d, #0x0
	stp q0, q0, [x29, #-32]
	stp q0, q0, [sp, #32]
	b.ne L(158_6)
	tbnz w25, #0, L(158_7)
	sub x0, x29, #0x20
	mov x3, sp
	mov x1, x20
	mov x2, x19
	bl ring_merkle.paths.tree_root_counted
	ldp q0, q1, [x29, #-32]
	stp q0, q1, [x24]
L(158_7):
	mov w8, wzr
	str x23, [x21]
L(158_8):
	ldp x20, x19, [sp, #176]
	ldr x27, [sp, #112]
	ldp x22, x21, [sp, #160]
	ldp x24, x23, [sp, #144]
	ldp x26, x25, [sp, #128]
	ldp x29, x30, [sp, #96]
	add sp, sp, #0xc0
L(158_9):
	mov w0, w8
	ret
	SIZE(yz_merkle_consistency_path, 436)

	CODE(yz_merkle_inclusion_path)
	.p2align 2
	.globl yz_merkle_inclusion_path
	TYPE(yz_merkle_inclusion_path, %function)
yz_merkle_inclusion_path:
	mov w9, #0x1000
	cmp x0, #0x0
	csel x8, x9, xzr, eq
	cmp x3, #0x0
	csel x9, x9, xzr, eq
	cmp x1, x2
	b.ls L(160_1)
	sub sp, sp, #0x80
	movi v0.2d, #0x0
	stp x20, x19, [sp, #112]
	mov x20, x1
	subs x11, x1, #0x1
	stp x29, x30, [sp, #64]
	add x29, sp, #0x40
	stp x24, x23, [sp, #80]
	stp x22, x21, [sp, #96]
	stp q0, q0, [sp]
	b.eq L(160_2)
	mov x19, x2
	mov x21, xzr
	add x8, x0, x8
	mov x14, x2
L(160_0):
	cmp x14, x11
	mov x10, x14
	mov x12, x11
	cset w11, ne
	mov x13, x21
	orr w14, w11, w10
	lsr x11, x12, #1
	and x15, x14, #0x1
	lsr x14, x10, #1
	add x21, x21, x15
	cbnz x11, L(160_0)
	cmp x4, x21
	b.cs L(160_3)
	mov w0, #0x4
	ldp x20, x19, [sp, #112]
	ldp x22, x21, [sp, #96]
	ldp x24, x23, [sp, #80]
	ldp x29, x30, [sp, #64]
	add sp, sp, #0x80
	ret
L(160_1):
	mov w0, #0x8
	ret
L(160_2):
	mov x21, xzr
	b L(160_5)
L(160_3):
	cmp x10, x12
	and x10, x10, #0x1
	movi v0.2d, #0x0
	cset w11, ne
	add x9, x9, x3
	mov x22, x5
	cmp x11, x10
	csel x10, x11, x10, hi
	add x10, x13, x10
	stp q0, q0, [sp, #32]
	add x9, x9, x10, lsl #5
	sub x23, x9, #0x20
L(160_4):
	mvn x9, x20, lsr #1
	mov w10, #0x1
	mov w11, #0x20
	add x0, sp, #0x20
	mov x3, sp
	add x9, x20, x9
	clz x9, x9
	neg w9, w9
	lsl x10, x10, x9
	lsl x9, x11, x9
	add x9, x8, x9
	sub x11, x20, x10
	subs x12, x19, x10
	csel x1, x9, x8, cc
	csel x2, x11, x10, cc
	csel x24, x8, x9, cc
	csel x20, x10, x11, cc
	csel x19, x19, x12, cc
	bl ring_merkle.paths.tree_root_counted
	movi v2.2d, #0x0
	ldp q0, q1, [sp, #32]
	cmp x20, #0x1
	mov x8, x24
	stp q0, q1, [x23], #-32
	stp q2, q2, [sp, #32]
	b.ne L(160_4)
	mov x5, x22
L(160_5):
	mov w0, wzr
	str x21, [x5]
	ldp x20, x19, [sp, #112]
	ldp x22, x21, [sp, #96]
	ldp x24, x23, [sp, #80]
	ldp x29, x30, [sp, #64]
	add sp, sp, #0x80
	ret
	SIZE(yz_merkle_inclusion_path, 372)

	CODE(yz_merkle_leaf)
	.p2align 2
	.globl yz_merkle_leaf
	TYPE(yz_merkle_leaf, %function)
yz_merkle_leaf:
	sub sp, sp, #0xb0
	adrp x8, PAGE(L(207_0))
	add x8, x8, IN_PAGE(L(207_0))
	mov w9, #0x1
	movi v0.2d, #0x0
	stp x8, x9, [sp, #64]
	mov w8, #0x1000
	cmp x0, #0x0
	stp x29, x30, [sp, #144]
	add x29, sp, #0x90
	csel x8, x8, xzr, eq
	str x19, [sp, #160]
	mov x19, x2
	add x8, x0, x8
	sub x0, x29, #0x30
	add x3, sp, #0x20
	stp x8, x1, [sp, #80]
	add x1, sp, #0x40
	mov w2, #0x2
	stp q0, q0, [sp, #32]
	stp q0, q0, [x29, #-48]
	sturb wzr, [x29, #-16]
	bl ring_merkle.hash.hash_pieces
	ldur q0, [x29, #-47]
	ldurb w8, [x29, #-48]
	ldur q1, [x29, #-31]
	stp q0, q1, [sp]
	cbz w8, L(162_0)
	mov w0, #0x8
	ldp x29, x30, [sp, #144]
	ldr x19, [sp, #160]
	add sp, sp, #0xb0
	ret
L(162_0):
	ldp q0, q1, [sp]
	mov w0, wzr
	stp q0, q1, [x19]
	ldp x29, x30, [sp, #144]
	ldr x19, [sp, #160]
	add sp, sp, #0xb0
	ret
	SIZE(yz_merkle_leaf, 160)

	CODE(yz_merkle_root)
	.p2align 2
	.globl yz_merkle_root
	TYPE(yz_merkle_root, %function)
yz_merkle_root:
	sub sp, sp, #0x60
	movi v0.2d, #0x0
	mov w9, #0x1000
	cmp x0, #0x0
	mov x8, x0
	csel x9, x9, xzr, eq
	str x19, [sp, #80]
	mov x19, x2
	mov x2, x1
	add x0, sp, #0x20
	add x1, x8, x9
	mov x3, sp
	stp x29, x30, [sp, #64]
	add x29, sp, #0x40
	stp q0, q0, [sp]
	stp q0, q0, [sp, #32]
	bl ring_merkle.paths.tree_root_counted
	ldp q0, q1, [sp, #32]
	mov w0, wzr
	ldp x29, x30, [sp, #64]
	stp q0, q1, [x19]
	ldr x19, [sp, #80]
	add sp, sp, #0x60
	ret
	SIZE(yz_merkle_root, 96)

	CODE(yz_merkle_verify_consistency)
	.p2align 2
	.globl yz_merkle_verify_consistency
	TYPE(yz_merkle_verify_consistency, %function)
yz_merkle_verify_consistency:
	sub sp, sp, #0x30
	movi v0.2d, #0x0
	mov w9, #0x1000
	cmp x4, #0x0
	csel x9, x9, xzr, eq
	stp x29, x30, [sp, #32]
	add x29, sp, #0x20
	stp q0, q0, [sp]
	cbz x0, L(166_5)
	cmp x2, x0
	b.ls L(166_5)
	cbz x5, L(166_5)
	mov x6, x3
	mov x8, x1
	sub x10, x0, #0x1
	add x9, x4, x9
	sub x2, x2, #0x1
	tbnz w10, #0, L(166_0)
	sub x1, x0, #0x1
	b L(166_2)
L(166_0):
	sub x11, x0, #0x1
L(166_1):
	lsr x1, x11, #1
	lsr x2, x2, #1
	mov w12, w11
	mov x11, x1
	tbnz w12, #1, L(166_1)
L(166_2):
	tst x0, x10
	b.eq L(166_4)
	sub x4, x5, #0x1
	add x3, x9, #0x20
	mov x7, sp
	mov x0, x9
	mov x5, x8
	bl ring_merkle.consistency.leads_to_both
	tbz w0, #0, L(166_5)
L(166_3):
	mov w0, wzr
	ldp x29, x30, [sp, #32]
	add sp, sp, #0x30
	ret
L(166_4):
	mov x7, sp
	mov x0, x8
	mov x3, x9
	mov x4, x5
	mov x5, x8
	bl ring_merkle.consistency.leads_to_both
	cbnz w0, L(166_3)
L(166_5):
	mov w0, #0x8
	ldp x29, x30, [sp, #32]
	add sp, sp, #0x30
	ret
	SIZE(yz_merkle_verify_consistency, 200)

	CODE(yz_merkle_verify_inclusion)
	.p2align 2
	.globl yz_merkle_verify_inclusion
	TYPE(yz_merkle_verify_inclusion, %function)
yz_merkle_verify_inclusion:
	sub sp, sp, #0x60
	movi v0.2d, #0x0
	mov w8, #0x1000
	cmp x3, #0x0
	csel x8, x8, xzr, eq
	cmp x2, x1
	stp x29, x30, [sp, #64]
	str x19, [sp, #80]
	add x29, sp, #0x40
	stp q0, q0, [sp]
	stp q0, q0, [sp, #32]
	b.ls L(168_2)
	mov x6, x4
	mov x4, x0
	mov x9, xzr
	subs x2, x2, #0x1
	b.eq L(168_1)
	mov x10, x2
	mov x11, x1
L(168_0):
	cmp x11, x10
	lsr x10, x10, #1
	cset w12, ne
	orr w12, w12, w11
	lsr x11, x11, #1
	and x12, x12, #0x1
	add x9, x9, x12
	cbnz x10, L(168_0)
L(168_1):
	cmp x6, x9
	b.ne L(168_2)
	add x0, sp, #0x20
	mov x19, x5
	add x5, x3, x8
	mov x7, sp
	mov w3, #0x1
	bl ring_merkle.place.Place.climb
	add x0, sp, #0x20
	mov x1, x19
	bl ring_merkle.hash.is_same
	mov w8, #0x8
	cmp w0, #0x0
	csel w0, wzr, w8, ne
	ldp x29, x30, [sp, #64]
	ldr x19, [sp, #80]
	add sp, sp, #0x60
	ret
L(168_2):
	mov w0, #0x8
	ldp x29, x30, [sp, #64]
	ldr x19, [sp, #80]
	add sp, sp, #0x60
	ret
	SIZE(yz_merkle_verify_inclusion, 200)

	CODE(yz_output_len)
	.p2align 2
	.globl yz_output_len
	TYPE(yz_output_len, %function)
yz_output_len:
	sub w8, w0, #0x1
	cmp w8, #0x4
	b.hi L(170_0)
	adrp x9, PAGE(L(switch.table.yz_webhook_verify_stripe))
	add x9, x9, IN_PAGE(L(switch.table.yz_webhook_verify_stripe))
	ldr x0, [x9, w8, uxtw #3]
	ret
L(170_0):
	mov x0, xzr
	ret
	SIZE(yz_output_len, 36)

	CODE(yz_password_hash_info)
	.p2align 2
	.globl yz_password_hash_info
	TYPE(yz_password_hash_info, %function)
yz_password_hash_info:
	stp x29, x30, [sp, #-64]!
	stp x28, x23, [sp, #16]
	mov x29, sp
	stp x22, x21, [sp, #32]
	stp x20, x19, [sp, #48]
	sub sp, sp, #0x820
	mov x20, x2
	mov x21, x1
	mov x22, x0
	mov w8, #0x1000
	cmp x0, #0x0
	mov x0, sp
	mov w1, wzr
	mov w2, #0x820
	str xzr, [sp]
	mov x19, x3
	csel x23, x8, xzr, eq
	bl memset
	mov x0, sp
	add x1, x22, x23
	mov x2, x21
	bl ring_password_hash.stored.Stored.parse
	ldrb w8, [sp]
	cbz w8, L(172_0)
	cmp x21, #0x400
	b.ls L(172_1)
	mov w0, #0x4
	add sp, sp, #0x820
	ldp x20, x19, [sp, #48]
	ldp x22, x21, [sp, #32]
	ldp x28, x23, [sp, #16]
	ldp x29, x30, [sp], #64
	ret
L(172_0):
	ldrb w8, [sp, #8]
	ldr w9, [sp, #12]
	mov w0, wzr
	add w8, w8, #0x1
	str w8, [x20]
	str w9, [x19]
	add sp, sp, #0x820
	ldp x20, x19, [sp, #48]
	ldp x22, x21, [sp, #32]
	ldp x28, x23, [sp, #16]
	ldp x29, x30, [sp], #64
	ret
L(172_1):
	ldrb w8, [sp, #1]
	adrp x9, PAGE(L(switch.table.yz_password_hash_verify))
	add x9, x9, IN_PAGE(L(switch.table.yz_password_hash_verify))
	ldr w0, [x9, x8, lsl #2]
	add sp, sp, #0x820
	ldp x20, x19, [sp, #48]
	ldp x22, x21, [sp, #32]
	ldp x28, x23, [sp, #16]
	ldp x29, x30, [sp], #64
	ret
	SIZE(yz_password_hash_info, 220)

	CODE(yz_password_hash_new)
	.p2align 2
	.globl yz_password_hash_new
	TYPE(yz_password_hash_new, %function)
yz_password_hash_new:
	stp x29, x30, [sp, #-96]!
	stp x28, x27, [sp, #16]
	mov x29, sp
	stp x26, x25, [sp, #32]
	stp x24, x23, [sp, #48]
	stp x22, x21, [sp, #64]
	stp x20, x19, [sp, #80]
	sub sp, sp, #0xc00
	str xzr, [sp]
	sub sp, sp, #0x880
	cmp x2, #0x0
	mov w9, #0x1000
	movi v0.2d, #0x0
	csel x8, x9, xzr, eq
	cmp x4, #0x0
	sub w26, w0, #0x1
	csel x28, x9, xzr, eq
	cmp x6, #0x0
	str xzr, [sp]
	csel x9, x9, xzr, eq
	cmp w26, #0xc
	csel w21, w26, wzr, cc
	cmp w26, #0xb
	stp q0, q0, [sp, #64]
	b.hi L(174_0)
	mov w20, w1
	cbz w1, L(174_1)
	ldr x10, [x29, #96]
	stp x10, x9, [sp, #16]
	add x9, sp, #0xc78
	mov w11, #0x135
	add x24, x2, x8
	add x12, x9, #0x20
	mov w10, #0x1
	add x8, x9, #0x14
	lsl w10, w10, w26
	add x9, x9, #0x40
	mov w22, #0x20
	mov x19, x3
	mov x23, x4
	mov x25, x5
	tst w10, w11
	str x7, [sp, #56]
	b.ne L(174_3)
	mov w11, #0x648
	tst w10, w11
	b.eq L(174_2)
	mov w22, #0x40
	mov x12, x9
	b L(174_3)
L(174_0):
	mov w0, #0x1
	b L(174_10)
L(174_1):
	mov w0, #0x3
	b L(174_10)
L(174_2):
	mov w22, #0x14
	mov x12, x8
L(174_3):
	add x0, sp, #0x1, lsl #12
	mov w1, wzr
	mov w2, #0x400
	add x0, x0, #0x78
	stp x6, x12, [sp, #32]
	bl memset
	and w8, w26, #0xe
	add x0, sp, #0x60
	mov w1, wzr
	cmp w8, #0x4
	mov w2, #0x400
	cset w27, eq
	bl memset
	add x6, sp, #0x1, lsl #12
	add x0, sp, #0x60
	mov w1, w26
	add x6, x6, #0x78
	mov w2, w27
	mov w3, w20
	mov x4, x24
	mov x5, x19
	mov x7, x22
	str w27, [sp, #52]
	bl ring_password_hash.stored.put_text
	and w8, w0, #0xff
	cmp w8, #0x1
	ldr x8, [sp, #56]
	b.ne L(174_5)
	cmp x1, x8
	b.hi L(174_5)
	cbz x19, L(174_8)
	sub w8, w26, #0x4
	and w8, w8, #0xff
	cmp w8, #0x7
	b.cs L(174_6)
L(174_4):
	add x6, sp, #0x1, lsl #12
	add x8, sp, #0x40
	add x1, x23, x28
	add x6, x6, #0x78
	mov w0, w21
	mov x2, x25
	mov x3, x24
	mov x4, x19
	mov w5, w20
	mov x7, x22
	str x8, [sp]
	bl ring_password_hash.derived.derive
	and w8, w0, #0xff
	tbz w8, #0, L(174_9)
	mov w0, #0x8
	b L(174_10)
L(174_5):
	mov w0, #0x4
	b L(174_10)
L(174_6):
	mov x8, x24
	mov x9, x19
L(174_7):
	cbz x9, L(174_4)
	ldrb w10, [x8], #1
	sub x9, x9, #0x1
	cmp w10, #0x24
	b.ne L(174_7)
L(174_8):
	mov w0, #0x7
	b L(174_10)
L(174_9):
	mov w23, #0x400
	cmp x19, #0x3ff
	mov w1, wzr
	sub x8, x23, x19
	csel x2, xzr, x8, hi
	add x8, sp, #0x878
	add x0, x8, x19
	bl memset
	add x0, sp, #0x878
	mov x1, x24
	mov x2, x19
	bl memcpy
	ldr x0, [sp, #40]
	sub x2, x23, x22
	mov w1, wzr
	bl memset
	add x1, sp, #0x1, lsl #12
	add x0, sp, #0xc78
	mov x2, x22
	add x1, x1, #0x78
	bl memcpy
	ldr w24, [sp, #52]
	add x23, sp, #0x60
	add x1, sp, #0x878
	add x0, x23, #0x8
	mov w2, #0x400
	strb w21, [sp, #96]
	strb w24, [sp, #97]
	strh wzr, [sp, #98]
	str w20, [sp, #100]
	bl memcpy
	add x0, x23, #0x410
	add x1, sp, #0xc78
	mov w2, #0x400
	str x19, [sp, #1128]
	bl memcpy
	add x0, sp, #0x1, lsl #12
	mov w1, wzr
	mov w2, #0x400
	add x0, x0, #0x78
	str x22, [sp, #2160]
	bl memset
	add x0, sp, #0x1, lsl #12
	add x4, x23, #0x8
	add x6, x23, #0x410
	add x0, x0, #0x78
	mov w1, w21
	mov w2, w24
	mov w3, w20
	mov x5, x19
	mov x7, x22
	bl ring_password_hash.stored.put_text
	and w8, w0, #0xff
	cmp w8, #0x1
	b.ne L(174_11)
	ldr x8, [sp, #56]
	mov x19, x1
	cmp x8, x1
	ldp x9, x8, [sp, #24]
	b.cc L(174_11)
	add x1, sp, #0x1, lsl #12
	add x0, x8, x9
	mov x2, x19
	add x1, x1, #0x78
	bl memcpy
	ldr x8, [sp, #16]
	mov w0, wzr
	str x19, [x8]
L(174_10):
	add sp, sp, #0x1, lsl #12
	add sp, sp, #0x480
	ldp x20, x19, [sp, #80]
	ldp x22, x21, [sp, #64]
	ldp x24, x23, [sp, #48]
	ldp x26, x25, [sp, #32]
	ldp x28, x27, [sp, #16]
	ldp x29, x30, [sp], #96
	ret
L(174_11):
	brk #0x1
	SIZE(yz_password_hash_new, 784)

	CODE(yz_password_hash_salt)
	.p2align 2
	.globl yz_password_hash_salt
	TYPE(yz_password_hash_salt, %function)
yz_password_hash_salt:
	sub sp, sp, #0x60
	cmp x1, #0x0
	mov w9, #0x1000
	sub w10, w0, #0x1
	csel x8, x9, xzr, eq
	cmp x3, #0x0
	stp x29, x30, [sp, #64]
	csel x9, x9, xzr, eq
	cmp w10, #0xb
	stp x20, x19, [sp, #80]
	add x29, sp, #0x40
	stp xzr, xzr, [sp, #8]
	stur xzr, [sp, #23]
	b.hi L(176_0)
	sub w12, w10, #0x4
	mov w10, #0x16
	mov w11, #0x10
	cmp w12, #0x7
	csel x19, x11, x10, cc
	cmp x4, x19
	b.cs L(176_1)
	mov w0, #0x4
	ldp x20, x19, [sp, #80]
	ldp x29, x30, [sp, #64]
	add sp, sp, #0x60
	ret
L(176_0):
	mov w0, #0x1
	ldp x20, x19, [sp, #80]
	ldp x29, x30, [sp, #64]
	add sp, sp, #0x60
	ret
L(176_1):
	cmp x2, #0x10
	b.ne L(176_2)
	add x8, x1, x8
	cmp w12, #0x7
	add x0, x3, x9
	ldp x11, x10, [x8]
	b.cs L(176_3)
	add x8, sp, #0x8
	stur x11, [sp, #9]
	mov w2, #0x10
	stur x10, [sp, #17]
	orr x1, x8, #0x1
	stur wzr, [sp, #25]
	sturh wzr, [sp, #29]
	sub x8, x0, x1
	mov x20, x5
	cmp x8, x2
	b.cc L(176_5)
	b L(176_6)
L(176_2):
	mov w0, #0x8
	ldp x20, x19, [sp, #80]
	ldp x29, x30, [sp, #64]
	add sp, sp, #0x60
	ret
L(176_3):
	mov x8, xzr
	rev x10, x10
	rev x9, x11
	stp xzr, xzr, [sp, #32]
	stur xzr, [sp, #46]
L(176_4):
	mov x12, #0x2109
	mov x11, x9
	lsr x9, x9, #1
	movk x12, #0x1084, lsl #16
	lsr x13, x10, #1
	mov w15, #0x4211
	movk x12, #0x842, lsl #32
	movk x12, #0x8421, lsl #48
	umulh x9, x9, x12
	umulh x12, x13, x12
	mov w13, #0x3e
	lsr x9, x9, #4
	msub x11, x9, x13, x11
	lsr x12, x12, #4
	msub w10, w12, w13, w10
	add w10, w10, w11, lsl #4
	ubfx w14, w10, #1, #15
	mul w14, w14, w15
	lsr w14, w14, #19
	msub w10, w14, w13, w10
	mov x13, #0x2108
	movk x13, #0x1084, lsl #16
	movk x13, #0x842, lsl #32
	movk x13, #0x421, lsl #48
	and x10, x10, #0xffff
	madd x11, x11, x13, x12
	adrp x12, PAGE(L(static.57))
	add x12, x12, IN_PAGE(L(static.57))
	ldrb w10, [x12, x10]
	add x12, sp, #0x20
	strb w10, [x12, x8]
	add x8, x8, #0x1
	cmp x8, #0x16
	add x10, x11, x14
	b.ne L(176_4)
	ldr w8, [sp, #48]
	ldrh w9, [sp, #52]
	add x10, sp, #0x8
	ldr q0, [sp, #32]
	orr x1, x10, #0x1
	mov w2, #0x16
	str w8, [sp]
	strh w9, [sp, #4]
	stur q0, [sp, #9]
	stur w8, [sp, #25]
	sturh w9, [sp, #29]
	sub x8, x0, x1
	mov x20, x5
	cmp x8, x2
	b.cs L(176_6)
L(176_5):
	add x8, sp, #0x8
	orr x1, x8, #0x1
L(176_6):
	bl memcpy
	mov w0, wzr
	str x19, [x20]
	ldp x20, x19, [sp, #80]
	ldp x29, x30, [sp, #64]
	add sp, sp, #0x60
	ret
	SIZE(yz_password_hash_salt, 476)

	CODE(yz_password_hash_verify)
	.p2align 2
	.globl yz_password_hash_verify
	TYPE(yz_password_hash_verify, %function)
yz_password_hash_verify:
	stp x29, x30, [sp, #-96]!
	str x28, [sp, #16]
	mov x29, sp
	stp x26, x25, [sp, #32]
	stp x24, x23, [sp, #48]
	stp x22, x21, [sp, #64]
	stp x20, x19, [sp, #80]
	sub sp, sp, #0xc00
	str xzr, [sp]
	sub sp, sp, #0x870
	movi v0.2d, #0x0
	mov w8, #0x1000
	cmp x2, #0x0
	csel x22, x8, xzr, eq
	cmp x1, #0x400
	str xzr, [sp]
	stp q0, q0, [sp, #16]
	b.ls L(178_0)
	mov w0, #0x4
	b L(178_5)
L(178_0):
	mov x19, x1
	mov x23, x2
	cmp x0, #0x0
	mov w8, #0x1000
	mov x26, x0
	add x0, sp, #0x38
	mov w1, wzr
	mov w2, #0x820
	mov w24, w4
	mov x20, x3
	csel x25, x8, xzr, eq
	add x21, sp, #0x38
	bl memset
	add x0, sp, #0x38
	add x1, x26, x25
	mov x2, x19
	bl ring_password_hash.stored.Stored.parse
	ldrb w8, [sp, #56]
	cbz w8, L(178_1)
	ldrb w8, [sp, #57]
	b L(178_4)
L(178_1):
	add x0, sp, #0x858
	add x1, x21, #0x8
	mov w2, #0x818
	add x25, sp, #0x858
	bl memcpy
	ldr w21, [sp, #2140]
	cmp w24, w21
	b.cs L(178_2)
	mov w8, #0x1
	b L(178_4)
L(178_2):
	add x0, sp, #0x1, lsl #12
	mov w1, wzr
	mov w2, #0x400
	add x0, x0, #0x70
	bl memset
	ldr x19, [sp, #4200]
	ldr x4, [sp, #3168]
	add x6, sp, #0x1, lsl #12
	ldrb w0, [sp, #2136]
	add x8, sp, #0x10
	add x1, x23, x22
	add x3, x25, #0x8
	add x6, x6, #0x70
	mov x2, x20
	mov w5, w21
	mov x7, x19
	str x8, [sp]
	bl ring_password_hash.derived.derive
	and w8, w0, #0xff
	tbnz w8, #0, L(178_3)
	ldr x8, [sp, #4200]
	cmp x8, x19
	b.ne L(178_3)
	cbz x19, L(178_6)
	cmp x19, #0x8
	b.cs L(178_7)
	mov w9, wzr
	mov x8, xzr
	b L(178_12)
L(178_3):
	mov w8, #0x2
L(178_4):
	adrp x9, PAGE(L(switch.table.yz_password_hash_verify))
	add x9, x9, IN_PAGE(L(switch.table.yz_password_hash_verify))
	ldr w0, [x9, w8, uxtw #2]
L(178_5):
	add sp, sp, #0x1, lsl #12
	add sp, sp, #0x470
	ldp x20, x19, [sp, #80]
	ldr x28, [sp, #16]
	ldp x22, x21, [sp, #64]
	ldp x24, x23, [sp, #48]
	ldp x26, x25, [sp, #32]
	ldp x29, x30, [sp], #96
	ret
L(178_6):
	mov w0, wzr
	b L(178_5)
L(178_7):
	cmp x19, #0x20
	b.cs L(178_8)
	mov x8, xzr
	mov w9, wzr
	b L(178_10)
L(178_8):
	movi v0.2d, #0x0
	movi v1.2d, #0x0
	add x9, sp, #0x1, lsl #12
	add x9, x9, #0x70
	add x11, sp, #0x858
	and x10, x19, #0x18
	and x8, x19, #0xffffffffffffffe0
	add x9, x9, #0x10
	add x11, x11, #0x420
	and x12, x19, #0xffffffffffffffe0
L(178_9):
	ldp q2, q3, [x11, #-16]
	subs x12, x12, #0x20
	ldp q4, q5, [x9, #-16]
	add x9, x9, #0x20
	add x11, x11, #0x20
	eor v2.16b, v4.16b, v2.16b
	eor v3.16b, v5.16b, v3.16b
	orr v0.16b, v2.16b, v0.16b
	orr v1.16b, v3.16b, v1.16b
	b.ne L(178_9)
	orr v0.16b, v1.16b, v0.16b
	cmp x19, x8
	ext v1.16b, v0.16b, v0.16b, #8
	orr v0.8b, v0.8b, v1.8b
	fmov x9, d0
	orr x9, x9, x9, lsr #32
	orr x9, x9, x9, lsr #16
	lsr x11, x9, #8
	orr w9, w9, w11
	b.eq L(178_14)
	cbz x10, L(178_12)
L(178_10):
	movi v0.2d, #0x0
	mov x10, x8
	add x11, sp, #0x1, lsl #12
	and x8, x19, #0xfffffffffffffff8
	add x11, x11, #0x70
	mov v0.b[0], w9
	add x9, sp, #0x858
	add x12, x10, x9
	sub x9, x10, x8
	add x10, x11, x10
	add x11, x12, #0x410
L(178_11):
	ldr d1, [x11], #8
	adds x9, x9, #0x8
	ldr d2, [x10], #8
	eor v1.8b, v2.8b, v1.8b
	orr v0.8b, v1.8b, v0.8b
	b.ne L(178_11)
	fmov x9, d0
	cmp x19, x8
	orr x9, x9, x9, lsr #32
	orr x9, x9, x9, lsr #16
	lsr x10, x9, #8
	orr w9, w9, w10
	b.eq L(178_14)
L(178_12):
	add x10, sp, #0x858
	add x11, sp, #0x1, lsl #12
	add x11, x11, #0x70
	add x12, x8, x10
	sub x10, x19, x8
	add x8, x11, x8
	add x11, x12, #0x410
L(178_13):
	ldrb w12, [x11], #1
	subs x10, x10, #0x1
	ldrb w13, [x8], #1
	eor w12, w13, w12
	orr w9, w12, w9
	b.ne L(178_13)
L(178_14):
	tst w9, #0xff
	mov w8, #0x8
	csel w0, wzr, w8, eq
	b L(178_5)
	SIZE(yz_password_hash_verify, 688)

	CODE(yz_pbkdf2_derive)
	.p2align 2
	.globl yz_pbkdf2_derive
	TYPE(yz_pbkdf2_derive, %function)
yz_pbkdf2_derive:
	cmp x2, #0x0
	mov w10, #0x1000
	sub w0, w0, #0x1
	csel x8, x10, xzr, eq
	cmp x4, #0x0
	csel x9, x10, xzr, eq
	cmp x6, #0x0
	csel x10, x10, xzr, eq
	cmp w0, #0x3
	b.hi L(180_0)
	cbz w1, L(180_1)
	adrp x11, PAGE(L(261_1))
	add x11, x11, IN_PAGE(L(261_1))
	ldr x11, [x11, w0, uxtw #3]
	cmp x11, x7
	b.cs L(180_2)
	mov w0, #0x4
	ret
L(180_0):
	mov w0, #0x1
	ret
L(180_1):
	mov w0, #0x3
	ret
L(180_2):
	sub sp, sp, #0x40
	movi v0.2d, #0x0
	add x11, sp, #0x10
	add x2, x2, x8
	add x4, x4, x9
	add x6, x6, x10
	stp x29, x30, [sp, #48]
	add x29, sp, #0x30
	str x11, [sp]
	stp q0, q0, [sp, #16]
	bl ring.pbkdf2.derive_in.128
	ldp x29, x30, [sp, #48]
	and w8, w0, #0xff
	lsl w0, w8, #3
	add sp, sp, #0x40
	ret
	SIZE(yz_pbkdf2_derive, 152)

	CODE(yz_pbkdf2_verify)
	.p2align 2
	.globl yz_pbkdf2_verify
	TYPE(yz_pbkdf2_verify, %function)
yz_pbkdf2_verify:
	stp x29, x30, [sp, #-96]!
	stp x28, x27, [sp, #16]
	mov x29, sp
	stp x26, x25, [sp, #32]
	stp x24, x23, [sp, #48]
	stp x22, x21, [sp, #64]
	stp x20, x19, [sp, #80]
	sub sp, sp, #0xa10
	cmp x2, #0x0
	mov w9, #0x1000
	sub w20, w0, #0x1
	csel x23, x9, xzr, eq
	cmp x4, #0x0
	str xzr, [sp]
	csel x8, x9, xzr, eq
	cmp x6, #0x0
	csel x21, x9, xzr, eq
	cmp w20, #0x3
	b.hi L(182_2)
	cbz w1, L(182_3)
	movi v0.2d, #0x0
	mov x19, x7
	stp q0, q0, [sp]
	stp q0, q0, [sp, #48]
	str q0, [sp, #80]
	cbz x7, L(182_1)
	lsr x9, x5, #61
	cmp x9, #0x0
	mov x9, #0xffffffffffffffbc
	movk x9, #0x1fff, lsl #48
	ccmp x3, x9, #0x2, eq
	b.cc L(182_0)
	cmp w20, #0x2
	b.cc L(182_1)
L(182_0):
	adrp x9, PAGE(L(261_1))
	add x9, x9, IN_PAGE(L(261_1))
	ldr x9, [x9, w20, uxtw #3]
	cmp x19, x9
	b.ls L(182_4)
L(182_1):
	mov w0, #0x8
	b L(182_15)
L(182_2):
	mov w0, #0x1
	b L(182_15)
L(182_3):
	mov w0, #0x3
	b L(182_15)
L(182_4):
	mov w25, w1
	mov x26, x3
	mov x27, x2
	add x0, sp, #0x130
	add x2, x4, x8
	mov x4, sp
	mov w1, w20
	mov x3, x5
	mov x24, x6
	stp q0, q0, [sp, #320]
	add x22, sp, #0x130
	stp q0, q0, [sp, #352]
	stp q0, q0, [sp, #384]
	stp q0, q0, [sp, #416]
	stp q0, q0, [sp, #448]
	stp q0, q0, [sp, #480]
	str q0, [sp, #304]
	bl ring.hmac.key.Key.new_counted
	ldrb w8, [sp, #304]
	cbnz w8, L(182_16)
	ldp q0, q1, [sp, #448]
	add x8, x27, x23
	stp x8, x26, [sp, #32]
	add x8, sp, #0x70
	mov w23, #0x1
	stp x8, x23, [sp, #56]
	add x8, sp, #0x20
	add x0, sp, #0x130
	stp q0, q1, [sp, #240]
	ldp q0, q2, [sp, #480]
	mov w1, wzr
	mov w2, #0x6c0
	strb w20, [sp, #48]
	stp x8, x23, [sp, #72]
	add x24, x24, x21
	stp q0, q2, [sp, #272]
	ldp q1, q0, [sp, #384]
	str w25, [sp, #88]
	str x19, [sp, #96]
	stp q1, q0, [sp, #176]
	ldp q2, q0, [sp, #416]
	stp q2, q0, [sp, #208]
	ldp q1, q0, [sp, #320]
	stp q1, q0, [sp, #112]
	ldp q2, q0, [sp, #352]
	stp q2, q0, [sp, #144]
	movi v0.2d, #0x0
	str q0, [sp, #2032]
	str q0, [sp, #2048]
	str q0, [sp, #2064]
	str q0, [sp, #2080]
	str q0, [sp, #2096]
	str q0, [sp, #2112]
	str q0, [sp, #2128]
	str q0, [sp, #2144]
	str q0, [sp, #2160]
	str q0, [sp, #2176]
	str q0, [sp, #2192]
	str q0, [sp, #2208]
	str q0, [sp, #2224]
	str q0, [sp, #2240]
	str q0, [sp, #2256]
	str q0, [sp, #2272]
	str q0, [sp, #2288]
	str q0, [sp, #2304]
	str q0, [sp, #2320]
	str q0, [sp, #2336]
	str q0, [sp, #2352]
	str q0, [sp, #2368]
	str q0, [sp, #2384]
	str q0, [sp, #2400]
	str q0, [sp, #2416]
	str q0, [sp, #2432]
	str q0, [sp, #2448]
	str q0, [sp, #2464]
	str q0, [sp, #2480]
	str q0, [sp, #2496]
	str q0, [sp, #2512]
	str q0, [sp, #2528]
	bl memset
	adrp x8, PAGE(L(201_153))
	mov x25, xzr
	add x26, x22, #0x67c
	ldr q0, [x8, IN_PAGE(L(201_153))]
	mov w27, #0x1
	stur xzr, [x29, #-16]
	stur q0, [x29, #-32]
	b L(182_6)
L(182_5):
	stp x13, x10, [sp, #16]
	stur x11, [x29, #-32]
	stp w27, wzr, [x29, #-24]
	stur x25, [x29, #-16]
	cbnz x11, L(182_14)
L(182_6):
	add x0, sp, #0x30
	sub x1, x29, #0x20
	bl ring.pbkdf2.rounds.rounds_from
	cbz w20, L(182_8)
	cmp w20, #0x1
	b.ne L(182_7)
	adrp x8, PAGE(yz_instructions)
	ldrb w8, [x8, IN_PAGE(yz_instructions)]
	cbz w8, L(182_8)
L(182_7):
	mov w21, #0x1
	b L(182_9)
L(182_8):
	cmp x0, #0x4
	mov w8, #0x4
	csinc x21, x8, xzr, cs
L(182_9):
	movi v0.2d, #0x0
	orr x9, x22, #0x4
	mov w8, #0x1
	str wzr, [x9, #64]
	add x0, sp, #0x30
	sub x1, x29, #0x20
	add x3, sp, #0x130
	mov x4, sp
	mov x2, x21
	str w8, [sp, #304]
	stp q0, q0, [x9]
	stp q0, q0, [x9, #32]
	add x9, x22, #0xdc
	stp q0, q0, [x9]
	stp q0, q0, [x9, #32]
	str wzr, [x9, #64]
	add x9, x22, #0x124
	stp q0, q0, [x9]
	stp q0, q0, [x9, #32]
	str wzr, [x9, #64]
	add x9, x22, #0x16c
	stp q0, q0, [x9]
	stp q0, q0, [x9, #32]
	str wzr, [x9, #64]
	add x9, x22, #0x1b4
	str wzr, [x9, #64]
	stp q0, q0, [x9]
	stp q0, q0, [x9, #32]
	add x9, x22, #0x1fc
	str wzr, [x9, #64]
	stp q0, q0, [x9]
	stp q0, q0, [x9, #32]
	add x9, x22, #0x244
	str wzr, [x9, #64]
	stp q0, q0, [x9]
	stp q0, q0, [x9, #32]
	add x9, x22, #0x28c
	str wzr, [x9, #64]
	stp q0, q0, [x9]
	stp q0, q0, [x9, #32]
	add x9, x22, #0x2d4
	str wzr, [x9, #64]
	stp q0, q0, [x9]
	stp q0, q0, [x9, #32]
	add x9, x22, #0x31c
	str wzr, [x9, #64]
	stp q0, q0, [x9]
	stp q0, q0, [x9, #32]
	add x9, x22, #0x364
	str wzr, [x9, #64]
	stp q0, q0, [x9]
	stp q0, q0, [x9, #32]
	add x9, x22, #0x3ac
	str wzr, [x9, #64]
	stp q0, q0, [x9]
	stp q0, q0, [x9, #32]
	add x9, x22, #0x3f4
	str wzr, [x9, #64]
	stp q0, q0, [x9]
	stp q0, q0, [x9, #32]
	add x9, x22, #0x43c
	str wzr, [x9, #64]
	stp q0, q0, [x9]
	stp q0, q0, [x9, #32]
	add x9, x22, #0x484
	str wzr, [x9, #64]
	stp q0, q0, [x9]
	stp q0, q0, [x9, #32]
	add x9, x22, #0x4cc
	str wzr, [x9, #64]
	stp q0, q0, [x9]
	stp q0, q0, [x9, #32]
	add x9, x22, #0x514
	str wzr, [x9, #64]
	stp q0, q0, [x9]
	stp q0, q0, [x9, #32]
	add x9, x22, #0x55c
	str wzr, [x9, #64]
	stp q0, q0, [x9]
	stp q0, q0, [x9, #32]
	add x9, x22, #0x5a4
	str wzr, [x9, #64]
	stp q0, q0, [x9]
	stp q0, q0, [x9, #32]
	add x9, x22, #0x5ec
	str wzr, [x9, #64]
	stp q0, q0, [x9]
	stp q0, q0, [x9, #32]
	add x9, x22, #0x634
	str q0, [sp, #2528]
	str q0, [sp, #2512]
	str q0, [sp, #2496]
	str q0, [sp, #2480]
	str q0, [sp, #2464]
	str q0, [sp, #2448]
	str q0, [sp, #2432]
	str q0, [sp, #2416]
	str q0, [sp, #2400]
	str q0, [sp, #2384]
	str q0, [sp, #2368]
	str q0, [sp, #2352]
	str q0, [sp, #2336]
	str q0, [sp, #2320]
	str q0, [sp, #2304]
	str q0, [sp, #2288]
	str q0, [sp, #2272]
	str q0, [sp, #2256]
	str q0, [sp, #2240]
	str q0, [sp, #2224]
	str q0, [sp, #2208]
	str q0, [sp, #2192]
	str q0, [sp, #2176]
	str q0, [sp, #2160]
	str q0, [sp, #2144]
	str q0, [sp, #2128]
	str q0, [sp, #2112]
	str q0, [sp, #2096]
	str q0, [sp, #2080]
	str q0, [sp, #2064]
	str q0, [sp, #2048]
	str q0, [sp, #2032]
	str w8, [sp, #376]
	stur q0, [x22, #76]
	stur q0, [x22, #92]
	stur q0, [x22, #108]
	stur q0, [x22, #124]
	stur wzr, [x22, #140]
	stur q0, [x22, #148]
	stur q0, [x22, #164]
	stur q0, [x22, #180]
	stur q0, [x22, #196]
	stur wzr, [x22, #212]
	str w8, [sp, #448]
	str w8, [sp, #520]
	str w8, [sp, #592]
	str w8, [sp, #664]
	str w8, [sp, #736]
	str w8, [sp, #808]
	str w8, [sp, #880]
	str w8, [sp, #952]
	str w8, [sp, #1024]
	str w8, [sp, #1096]
	str w8, [sp, #1168]
	str w8, [sp, #1240]
	str w8, [sp, #1312]
	str w8, [sp, #1384]
	str w8, [sp, #1456]
	str w8, [sp, #1528]
	str w8, [sp, #1600]
	str w8, [sp, #1672]
	str w8, [sp, #1744]
	str w8, [sp, #1816]
	str w8, [sp, #1888]
	str wzr, [x9, #64]
	stp q0, q0, [x9]
	stp q0, q0, [x9, #32]
	str w8, [sp, #1960]
	str wzr, [x26, #64]
	stp q0, q0, [x26]
	stp q0, q0, [x26, #32]
	bl ring.pbkdf2.rounds.set_starts
	add x0, sp, #0x30
	add x1, sp, #0x130
	add x2, sp, #0x7f0
	mov x4, sp
	mov x3, x21
	add x28, sp, #0x7f0
	bl ring.pbkdf2.rounds.write_rounds.128
	adrp x11, PAGE(L(261_2))
	add x11, x11, IN_PAGE(L(261_2))
	mov x8, xzr
	ldp x13, x10, [sp, #16]
	ldr x9, [x11, w20, uxtw #3]
	ldr x12, [x11, w20, uxtw #3]
	mov x11, xzr
	b L(182_11)
L(182_10):
	add w27, w27, #0x1
	add x25, x12, x25
	add x8, x8, #0x1
	add x28, x28, #0x40
	cmp x8, x21
	b.eq L(182_5)
L(182_11):
	subs x14, x19, x25
	cmp x14, x9
	csel x15, x14, x9, cc
	subs x14, x19, x25
	b.eq L(182_13)
	mov w16, wzr
	add x17, x24, x25
	mov x0, x28
L(182_12):
	ldrb w1, [x0], #1
	adds x13, x13, #0x1
	ldrb w2, [x17], #1
	adcs x10, x10, xzr
	csinv x10, x10, xzr, cc
	csinv x13, x13, xzr, cc
	subs x15, x15, #0x1
	eor w1, w2, w1
	orr w16, w1, w16
	b.ne L(182_12)
	cmp w16, #0x0
	cset w15, eq
	and w23, w23, w15
L(182_13):
	cmp x12, x14
	b.cc L(182_10)
	mov x25, xzr
	add x11, x11, #0x1
	mov w27, #0x1
	add x8, x8, #0x1
	add x28, x28, #0x40
	cmp x8, x21
	b.ne L(182_11)
	b L(182_5)
L(182_14):
	tst w23, #0x1
	mov w8, #0x8
	csel w0, wzr, w8, ne
L(182_15):
	add sp, sp, #0xa10
	ldp x20, x19, [sp, #80]
	ldp x22, x21, [sp, #64]
	ldp x24, x23, [sp, #48]
	ldp x26, x25, [sp, #32]
	ldp x28, x27, [sp, #16]
	ldp x29, x30, [sp], #96
	ret
L(182_16):
	brk #0x1
	SIZE(yz_pbkdf2_verify, 1508)

	CODE(yz_tls13_binder_key)
	.p2align 2
	.globl yz_tls13_binder_key
	TYPE(yz_tls13_binder_key, %function)
yz_tls13_binder_key:
	stp x29, x30, [sp, #-96]!
	stp x28, x27, [sp, #16]
	mov x29, sp
	stp x26, x25, [sp, #32]
	stp x24, x23, [sp, #48]
	stp x22, x21, [sp, #64]
	stp x20, x19, [sp, #80]
	sub sp, sp, #0x440
	cmp x1, #0x0
	mov w8, #0x1000
	sub w20, w0, #0x1
	csel x26, x8, xzr, eq
	cmp x4, #0x0
	str xzr, [sp]
	csel x22, x8, xzr, eq
	cmp w20, #0x3
	stp xzr, xzr, [sp]
	b.hi L(184_1)
	adrp x8, PAGE(L(261_2))
	add x8, x8, IN_PAGE(L(261_2))
	ldr x9, [x8, w20, uxtw #3]
	cmp x5, x9
	b.ne L(184_2)
	cbz x2, L(184_0)
	movi v0.2d, #0x0
	mov w24, w3
	ldr x3, [x8, w20, uxtw #3]
	mov x21, x2
	mov x27, x1
	mov x23, x4
	adrp x2, PAGE(L(static.58))
	add x2, x2, IN_PAGE(L(static.58))
	sub x0, x29, #0xe0
	add x4, sp, #0x270
	mov w1, w20
	mov x19, x5
	stp q0, q0, [sp, #416]
	stp q0, q0, [sp, #448]
	stp q0, q0, [sp, #480]
	stp q0, q0, [sp, #512]
	stp q0, q0, [sp, #544]
	stp q0, q0, [sp, #576]
	stp q0, q0, [sp, #608]
	stp xzr, xzr, [sp, #208]
	str xzr, [sp, #664]
	str xzr, [sp, #656]
	str q0, [sp, #640]
	stp q0, q0, [x29, #-208]
	stp q0, q0, [x29, #-176]
	stp q0, q0, [x29, #-144]
	stp q0, q0, [x29, #-112]
	stp q0, q0, [x29, #-80]
	stp q0, q0, [x29, #-48]
	stur q0, [x29, #-224]
	bl ring.hmac.key.Key.new_counted
	ldurb w8, [x29, #-224]
	cbnz w8, L(184_5)
	ldp q0, q1, [x29, #-80]
	add x8, sp, #0x290
	add x25, sp, #0xd0
	add x0, sp, #0x1a0
	sub x1, x29, #0xe0
	add x2, x27, x26
	mov x3, x21
	mov x28, sp
	stur q0, [x8, #143]
	ldp q0, q2, [x29, #-48]
	stur q1, [x8, #159]
	stur q0, [x8, #175]
	ldp q0, q1, [x29, #-144]
	stur q2, [x8, #191]
	stur q0, [x8, #79]
	stur q1, [x8, #95]
	ldp q0, q1, [x29, #-112]
	stur q0, [x8, #111]
	stur q1, [x8, #127]
	ldp q0, q1, [x29, #-208]
	stur q0, [x8, #15]
	stur q1, [x8, #31]
	ldp q0, q1, [x29, #-176]
	stur q0, [x8, #47]
	ldur q0, [x8, #143]
	stur q1, [x8, #63]
	ldur q1, [x8, #159]
	stur q0, [x25, #143]
	ldur q0, [x8, #175]
	stur q1, [x25, #159]
	ldur q1, [x8, #191]
	stur q0, [x25, #175]
	ldur q0, [x8, #79]
	stur q1, [x25, #191]
	ldur q1, [x8, #95]
	ldur q2, [x25, #175]
	stur q0, [x25, #79]
	ldur q0, [x8, #111]
	stur q1, [x25, #95]
	ldur q1, [x8, #127]
	stur q0, [x25, #111]
	ldur q0, [x8, #15]
	stur q1, [x25, #127]
	ldur q1, [x8, #31]
	stur q0, [x25, #15]
	ldur q0, [x8, #47]
	stur q1, [x25, #31]
	ldur q1, [x8, #63]
	stur q0, [x25, #47]
	ldur q0, [x25, #143]
	stur q1, [x25, #63]
	ldur q1, [x25, #159]
	stp q0, q1, [x29, #-96]
	ldur q0, [x25, #191]
	ldur q1, [x25, #79]
	stp q2, q0, [x29, #-64]
	ldur q0, [x25, #95]
	ldur q2, [x25, #111]
	stp q1, q0, [x29, #-160]
	ldur q0, [x25, #127]
	ldur q1, [x25, #15]
	stp q2, q0, [x29, #-128]
	ldur q0, [x25, #31]
	ldur q2, [x25, #47]
	stp q1, q0, [x29, #-224]
	ldur q0, [x25, #63]
	stp q2, q0, [x29, #-192]
	bl ring.hkdf.salt.Salt.extract
	ldp q0, q1, [sp, #560]
	ldrb w8, [sp, #416]
	stur q0, [x28, #143]
	stur q1, [x28, #159]
	ldp q0, q1, [sp, #592]
	stur q0, [x28, #175]
	stur q1, [x28, #191]
	ldp q0, q1, [sp, #496]
	stur q0, [sp, #79]
	stur q1, [sp, #95]
	ldp q0, q1, [sp, #528]
	stur q0, [sp, #111]
	stur q1, [sp, #127]
	ldp q0, q1, [sp, #432]
	stur q0, [sp, #15]
	stur q1, [sp, #31]
	ldp q0, q1, [sp, #464]
	stur q0, [sp, #47]
	stur q1, [sp, #63]
	cbz w8, L(184_4)
L(184_0):
	mov w0, #0x8
	b L(184_3)
L(184_1):
	mov w0, #0x1
	b L(184_3)
L(184_2):
	mov w0, #0x4
L(184_3):
	add sp, sp, #0x440
	ldp x20, x19, [sp, #80]
	ldp x22, x21, [sp, #64]
	ldp x24, x23, [sp, #48]
	ldp x26, x25, [sp, #32]
	ldp x28, x27, [sp, #16]
	ldp x29, x30, [sp], #96
	ret
L(184_4):
	mov x8, sp
	adrp x2, PAGE(L(static.8))
	add x2, x2, IN_PAGE(L(static.8))
	ldur q0, [x8, #143]
	ldur q1, [x8, #159]
	ldur q2, [x8, #175]
	ldur q3, [x8, #47]
	add x0, sp, #0x1a0
	add x4, sp, #0xd0
	stp q0, q1, [x29, #-96]
	ldur q0, [x8, #191]
	ldur q1, [x8, #79]
	mov w1, w20
	mov x3, xzr
	strh wzr, [sp, #480]
	stp q2, q0, [x29, #-64]
	ldur q0, [x8, #95]
	ldur q2, [x8, #111]
	add x21, sp, #0x1a0
	stp q1, q0, [x29, #-160]
	ldur q0, [x8, #127]
	ldur q1, [x8, #15]
	stp q2, q0, [x29, #-128]
	ldur q0, [x8, #31]
	movi v2.2d, #0x0
	stp q1, q0, [x29, #-224]
	ldur q0, [x8, #63]
	stp q3, q0, [x29, #-192]
	stp q2, q2, [sp, #208]
	stp q2, q2, [sp, #416]
	stp q2, q2, [sp, #448]
	bl ring.digest.context.digest_counted
	ldur q0, [x25, #241]
	ldur q1, [x21, #49]
	ldrb w8, [sp, #481]
	ldrb w9, [sp, #416]
	stp q0, q1, [sp, #688]
	ldur q0, [x25, #225]
	ldur q1, [x21, #1]
	strb w8, [sp, #720]
	stp q1, q0, [sp, #656]
	cbnz w9, L(184_5)
	ldp q0, q1, [sp, #688]
	adrp x9, PAGE(L(switch.table.yz_webhook_verify_stripe))
	add x9, x9, IN_PAGE(L(switch.table.yz_webhook_verify_stripe))
	ldrb w8, [sp, #720]
	tst w24, #0x1
	sub x0, x29, #0xe0
	add x3, sp, #0x1a0
	add x5, x23, x22
	strb w8, [sp, #480]
	and w8, w8, #0xff
	mov w2, #0xa
	stp q0, q1, [sp, #448]
	ldp q0, q2, [sp, #656]
	ldr x4, [x9, x8, lsl #3]
	adrp x8, PAGE(L(static.60))
	add x8, x8, IN_PAGE(L(static.60))
	adrp x9, PAGE(L(static.59))
	add x9, x9, IN_PAGE(L(static.59))
	mov x6, x19
	csel x1, x9, x8, ne
	stp q0, q2, [sp, #416]
	bl ring_schedules.label.fill_by_label
	mov w0, wzr
	b L(184_3)
L(184_5):
	brk #0x1
	SIZE(yz_tls13_binder_key, 900)

	CODE(yz_tls13_finished)
	.p2align 2
	.globl yz_tls13_finished
	TYPE(yz_tls13_finished, %function)
yz_tls13_finished:
	sub sp, sp, #0xc0
	movi v0.2d, #0x0
	mov w9, #0x1000
	cmp x1, #0x0
	csel x10, x9, xzr, eq
	cmp x3, #0x0
	sub w8, w0, #0x1
	csel x11, x9, xzr, eq
	cmp x5, #0x0
	stp x20, x19, [sp, #176]
	csel x19, x9, xzr, eq
	cmp w8, #0x3
	stp x29, x30, [sp, #160]
	add x29, sp, #0xa0
	stp q0, q0, [sp, #80]
	stp q0, q0, [sp, #112]
	strb wzr, [sp, #144]
	b.hi L(186_1)
	adrp x9, PAGE(L(261_2))
	add x9, x9, IN_PAGE(L(261_2))
	mov w0, #0x4
	ldr x9, [x9, w8, uxtw #3]
	cmp x6, x9
	b.ne L(186_0)
	cmp x2, x9
	b.ne L(186_0)
	cmp x4, x9
	b.ne L(186_0)
	mov x9, x2
	add x2, x1, x10
	mov x10, x4
	add x0, sp, #0x50
	add x4, x3, x11
	mov w1, w8
	mov x3, x9
	mov x20, x5
	mov x5, x10
	bl ring_c.tls13.finished_tag
	ldp q0, q1, [sp, #112]
	adrp x9, PAGE(L(switch.table.yz_webhook_verify_stripe))
	add x9, x9, IN_PAGE(L(switch.table.yz_webhook_verify_stripe))
	ldrb w8, [sp, #144]
	add x0, x20, x19
	mov x1, sp
	strb w8, [sp, #64]
	and w8, w8, #0xff
	stp q0, q1, [sp, #32]
	ldp q1, q0, [sp, #80]
	ldr x2, [x9, x8, lsl #3]
	stp q1, q0, [sp]
	bl memcpy
	mov w0, wzr
L(186_0):
	ldp x20, x19, [sp, #176]
	ldp x29, x30, [sp, #160]
	add sp, sp, #0xc0
	ret
L(186_1):
	mov w0, #0x1
	ldp x20, x19, [sp, #176]
	ldp x29, x30, [sp, #160]
	add sp, sp, #0xc0
	ret
	SIZE(yz_tls13_finished, 244)

	CODE(yz_tls13_finished_verify)
	.p2align 2
	.globl yz_tls13_finished_verify
	TYPE(yz_tls13_finished_verify, %function)
yz_tls13_finished_verify:
	sub sp, sp, #0xd0
	movi v0.2d, #0x0
	cmp x1, #0x0
	mov w9, #0x1000
	csel x10, x9, xzr, eq
	cmp x3, #0x0
	sub w8, w0, #0x1
	csel x11, x9, xzr, eq
	cmp x5, #0x0
	stp x20, x19, [sp, #192]
	csel x19, x9, xzr, eq
	cmp w8, #0x3
	stp x29, x30, [sp, #160]
	str x21, [sp, #176]
	add x29, sp, #0xa0
	strb wzr, [sp, #64]
	stp q0, q0, [sp]
	stp q0, q0, [sp, #32]
	b.hi L(188_0)
	adrp x9, PAGE(L(261_2))
	add x9, x9, IN_PAGE(L(261_2))
	mov w0, #0x4
	ldr x9, [x9, w8, uxtw #3]
	cmp x2, x9
	b.ne L(188_1)
	cmp x4, x9
	b.ne L(188_1)
	mov x9, x2
	mov x20, x5
	mov x0, sp
	add x2, x1, x10
	mov x5, x4
	add x4, x3, x11
	mov w1, w8
	mov x3, x9
	mov x21, x6
	bl ring_c.tls13.finished_tag
	ldrb w9, [sp, #64]
	ldp q0, q1, [sp, #32]
	adrp x10, PAGE(L(switch.table.yz_webhook_verify_stripe))
	add x10, x10, IN_PAGE(L(switch.table.yz_webhook_verify_stripe))
	strb w9, [sp, #144]
	and w9, w9, #0xff
	ldr x9, [x10, x9, lsl #3]
	stp q0, q1, [sp, #112]
	ldp q0, q2, [sp]
	cmp x9, x21
	stp q0, q2, [sp, #80]
	b.ne L(188_2)
	mov x8, x21
	cmp x21, #0x8
	b.cs L(188_3)
	mov w11, wzr
	mov x10, xzr
	mov x9, x20
	b L(188_8)
L(188_0):
	mov w0, #0x1
L(188_1):
	ldp x20, x19, [sp, #192]
	ldr x21, [sp, #176]
	ldp x29, x30, [sp, #160]
	add sp, sp, #0xd0
	ret
L(188_2):
	mov w0, #0x8
	ldp x20, x19, [sp, #192]
	ldr x21, [sp, #176]
	ldp x29, x30, [sp, #160]
	add sp, sp, #0xd0
	ret
L(188_3):
	cmp x8, #0x20
	mov x9, x20
	b.cs L(188_4)
	mov x10, xzr
	mov w11, wzr
	b L(188_6)
L(188_4):
	movi v0.2d, #0x0
	movi v1.2d, #0x0
	add x11, x19, x9
	add x13, sp, #0x50
	and x12, x8, #0x18
	and x10, x8, #0xffffffffffffffe0
	add x11, x11, #0x10
	add x13, x13, #0x10
	and x14, x8, #0xffffffffffffffe0
L(188_5):
	ldp q2, q3, [x13, #-16]
	subs x14, x14, #0x20
	ldp q4, q5, [x11, #-16]
	add x11, x11, #0x20
	add x13, x13, #0x20
	eor v2.16b, v4.16b, v2.16b
	eor v3.16b, v5.16b, v3.16b
	orr v0.16b, v2.16b, v0.16b
	orr v1.16b, v3.16b, v1.16b
	b.ne L(188_5)
	orr v0.16b, v1.16b, v0.16b
	cmp x8, x10
	ext v1.16b, v0.16b, v0.16b, #8
	orr v0.8b, v0.8b, v1.8b
	fmov x11, d0
	orr x11, x11, x11, lsr #32
	orr x11, x11, x11, lsr #16
	lsr x13, x11, #8
	orr w11, w11, w13
	b.eq L(188_10)
	cbz x12, L(188_8)
L(188_6):
	movi v0.2d, #0x0
	mov x13, x10
	and x10, x8, #0xfffffffffffffff8
	add x12, x19, x13
	add x14, sp, #0x50
	add x12, x9, x12
	mov v0.b[0], w11
	sub x11, x13, x10
	add x13, x14, x13
L(188_7):
	ldr d1, [x13], #8
	adds x11, x11, #0x8
	ldr d2, [x12], #8
	eor v1.8b, v2.8b, v1.8b
	orr v0.8b, v1.8b, v0.8b
	b.ne L(188_7)
	fmov x11, d0
	cmp x8, x10
	orr x11, x11, x11, lsr #32
	orr x11, x11, x11, lsr #16
	lsr x12, x11, #8
	orr w11, w11, w12
	b.eq L(188_10)
L(188_8):
	add x12, x19, x10
	add x13, sp, #0x50
	sub x8, x8, x10
	add x9, x9, x12
	add x10, x13, x10
L(188_9):
	ldrb w12, [x10], #1
	subs x8, x8, #0x1
	ldrb w13, [x9], #1
	eor w12, w13, w12
	orr w11, w12, w11
	b.ne L(188_9)
L(188_10):
	tst w11, #0xff
	mov w8, #0x8
	csel w0, wzr, w8, eq
	ldp x20, x19, [sp, #192]
	ldr x21, [sp, #176]
	ldp x29, x30, [sp, #160]
	add sp, sp, #0xd0
	ret
	SIZE(yz_tls13_finished_verify, 580)

	CODE(yz_totp)
	.p2align 2
	.globl yz_totp
	TYPE(yz_totp, %function)
yz_totp:
	cbz w4, L(190_0)
	mov w8, w4
	udiv x4, x3, x8
	mov w3, #0x1
	b L(190_1)
L(190_0):
	mov w3, wzr
	mov x4, xzr
L(190_1):
	cmp x5, #0x0
	mov w8, #0x1000
	csel x9, x8, xzr, eq
	cmp x1, #0x0
	csel x8, x8, xzr, eq
	add x5, x5, x9
	add x1, x1, x8
	b ring_c.otp.write
	SIZE(yz_totp, 60)

	CODE(yz_totp_find)
	.p2align 2
	.globl yz_totp_find
	TYPE(yz_totp_find, %function)
yz_totp_find:
	stp x29, x30, [sp, #-80]!
	stp x28, x25, [sp, #16]
	mov x29, sp
	stp x24, x23, [sp, #32]
	stp x22, x21, [sp, #48]
	stp x20, x19, [sp, #64]
	sub sp, sp, #0x290
	ldr x20, [x29, #80]
	cmp x1, #0x0
	mov w10, #0x1000
	csel x9, x10, xzr, eq
	sub w8, w0, #0x1
	stp xzr, xzr, [sp]
	cmp x20, #0x0
	csel x21, x10, xzr, eq
	cmp w8, #0x3
	b.hi L(192_0)
	sub x19, x7, #0x6
	cmp x19, #0x2
	b.hi L(192_1)
	cbz w4, L(192_2)
	movi v0.2d, #0x0
	stp xzr, xzr, [sp, #240]
	stp q0, q0, [sp, #208]
	stp q0, q0, [x29, #-192]
	stp q0, q0, [x29, #-160]
	stp q0, q0, [x29, #-128]
	stp q0, q0, [x29, #-96]
	stp q0, q0, [x29, #-64]
	stp q0, q0, [x29, #-32]
	stur q0, [x29, #-208]
	cbz x2, L(192_2)
	mov w25, w4
	mov x24, x3
	sub x0, x29, #0xd0
	mov x3, x2
	add x2, x1, x9
	add x4, sp, #0xd0
	mov w1, w8
	mov w23, w5
	mov w22, w6
	bl ring.hmac.key.Key.new_counted
	ldurb w8, [x29, #-208]
	cbnz w8, L(192_2)
	ldp q0, q1, [x29, #-64]
	add x8, sp, #0xf0
	mov x9, sp
	mov w10, w25
	ldr x5, [x29, #88]
	udiv x10, x24, x10
	sub x0, x29, #0xd0
	add x4, x20, x21
	stur q0, [x8, #143]
	ldp q0, q2, [x29, #-32]
	stur q1, [x8, #159]
	add x6, sp, #0xf0
	mov w3, w19
	stur q0, [x8, #175]
	ldp q0, q1, [x29, #-128]
	stur q2, [x8, #191]
	stur q0, [x8, #79]
	stur q1, [x8, #95]
	ldp q0, q1, [x29, #-96]
	stur q0, [x8, #111]
	stur q1, [x8, #127]
	ldp q0, q1, [x29, #-192]
	stur q0, [x8, #15]
	stur q1, [x8, #31]
	ldp q0, q1, [x29, #-160]
	stur q0, [x8, #47]
	ldur q0, [x8, #143]
	stur q1, [x8, #63]
	ldur q1, [x8, #159]
	stur q0, [x9, #143]
	ldur q0, [x8, #175]
	stur q1, [x9, #159]
	ldur q1, [x8, #191]
	stur q0, [x9, #175]
	ldur q0, [x8, #79]
	stur q1, [x9, #191]
	ldur q1, [x8, #95]
	ldur q2, [x9, #175]
	stur q0, [sp, #79]
	ldur q0, [x8, #111]
	stur q1, [sp, #95]
	ldur q1, [x8, #127]
	stur q0, [sp, #111]
	ldur q0, [x8, #15]
	stur q1, [sp, #127]
	ldur q1, [x8, #31]
	stur q0, [sp, #15]
	ldur q0, [x8, #47]
	stur q1, [sp, #31]
	ldur q1, [x8, #63]
	subs x8, x10, w23, uxtw
	stur q0, [sp, #47]
	ldur q0, [x9, #143]
	stur q1, [sp, #63]
	ldur q1, [x9, #159]
	csel x1, xzr, x8, cc
	ldur q3, [sp, #47]
	stp q0, q1, [x29, #-80]
	ldur q0, [x9, #191]
	ldur q1, [sp, #79]
	add x9, x10, w22, uxtw
	stp q2, q0, [x29, #-48]
	ldur q0, [sp, #95]
	ldur q2, [sp, #111]
	sub x8, x9, x1
	stp q1, q0, [x29, #-144]
	ldur q0, [sp, #127]
	ldur q1, [sp, #15]
	add x2, x8, #0x1
	stp q2, q0, [x29, #-112]
	ldur q0, [sp, #31]
	movi v2.2d, #0x0
	stp q1, q0, [x29, #-208]
	ldur q0, [sp, #63]
	stp q3, q0, [x29, #-176]
	stp q2, q2, [sp, #240]
	bl ring_tokens.otp.find_hotp_counted
	and w8, w0, #0xff
	cmp w8, #0x1
	b.ne L(192_2)
	ldr x8, [x29, #96]
	mov w0, wzr
	str x1, [x8]
	b L(192_3)
L(192_0):
	mov w0, #0x1
	b L(192_3)
L(192_1):
	mov w0, #0x4
	b L(192_3)
L(192_2):
	mov w0, #0x8
L(192_3):
	add sp, sp, #0x290
	ldp x20, x19, [sp, #64]
	ldp x22, x21, [sp, #48]
	ldp x24, x23, [sp, #32]
	ldp x28, x25, [sp, #16]
	ldp x29, x30, [sp], #80
	ret
	SIZE(yz_totp_find, 560)

	CODE(yz_version)
	.p2align 2
	.globl yz_version
	TYPE(yz_version, %function)
yz_version:
	mov w0, #0x200
	ret
	SIZE(yz_version, 8)

	CODE(yz_webhook_verify_github)
	.p2align 2
	.globl yz_webhook_verify_github
	TYPE(yz_webhook_verify_github, %function)
yz_webhook_verify_github:
	stp x29, x30, [sp, #-80]!
	str x28, [sp, #16]
	mov x29, sp
	stp x24, x23, [sp, #32]
	stp x22, x21, [sp, #48]
	stp x20, x19, [sp, #64]
	sub sp, sp, #0x290
	movi v0.2d, #0x0
	cmp x2, #0x0
	mov w8, #0x1000
	csel x24, x8, xzr, eq
	cmp x4, #0x0
	stp xzr, xzr, [sp]
	csel x23, x8, xzr, eq
	stp xzr, xzr, [sp, #208]
	stp q0, q0, [x29, #-224]
	stp q0, q0, [x29, #-192]
	stp q0, q0, [x29, #-160]
	stp q0, q0, [x29, #-128]
	stp q0, q0, [x29, #-96]
	stp q0, q0, [x29, #-64]
	stp q0, q0, [x29, #-32]
	stur q0, [x29, #-240]
	cbz x1, L(195_0)
	cmp x0, #0x0
	mov w8, #0x1000
	mov x9, x0
	csel x8, x8, xzr, eq
	mov x20, x4
	mov x21, x3
	mov x22, x2
	mov x3, x1
	sub x0, x29, #0xf0
	add x2, x9, x8
	sub x4, x29, #0x20
	mov w1, #0x1
	mov x19, x5
	bl ring.hmac.key.Key.new_counted
	ldurb w8, [x29, #-240]
	cbnz w8, L(195_0)
	ldp q0, q1, [x29, #-96]
	add x8, sp, #0xd0
	mov x9, sp
	stur q0, [x8, #143]
	ldp q0, q2, [x29, #-64]
	stur q1, [x8, #159]
	stur q0, [x8, #175]
	ldp q0, q1, [x29, #-160]
	stur q2, [x8, #191]
	stur q0, [x8, #79]
	stur q1, [x8, #95]
	ldp q0, q1, [x29, #-128]
	stur q0, [x8, #111]
	stur q1, [x8, #127]
	ldp q0, q1, [x29, #-224]
	stur q0, [x8, #15]
	stur q1, [x8, #31]
	ldp q0, q1, [x29, #-192]
	stur q0, [x8, #47]
	ldur q0, [x8, #143]
	stur q1, [x8, #63]
	ldur q1, [x8, #159]
	stur q0, [x9, #143]
	ldur q0, [x8, #175]
	stur q1, [x9, #159]
	ldur q1, [x8, #191]
	stur q0, [x9, #175]
	ldur q0, [x8, #79]
	stur q1, [x9, #191]
	ldur q1, [x8, #95]
	ldur q2, [x9, #175]
	stur q0, [sp, #79]
	ldur q0, [x8, #111]
	stur q1, [sp, #95]
	ldur q1, [x8, #127]
	stur q0, [sp, #111]
	ldur q0, [x8, #15]
	stur q1, [sp, #127]
	ldur q1, [x8, #31]
	stur q0, [sp, #15]
	ldur q0, [x8, #47]
	stur q1, [sp, #31]
	ldur q1, [x8, #63]
	stur q0, [sp, #47]
	ldur q0, [x9, #143]
	stur q1, [sp, #63]
	ldur q1, [x9, #159]
	ldur q3, [sp, #47]
	stp q0, q1, [x29, #-112]
	ldur q0, [x9, #191]
	ldur q1, [sp, #79]
	stp q2, q0, [x29, #-80]
	ldur q0, [sp, #95]
	ldur q2, [sp, #111]
	stp q1, q0, [x29, #-176]
	ldur q0, [sp, #127]
	ldur q1, [sp, #15]
	ldurb w8, [x29, #-152]
	stp q2, q0, [x29, #-144]
	ldur q2, [sp, #31]
	movi v0.2d, #0x0
	cmp w8, #0x1
	stp q1, q2, [x29, #-240]
	ldur q1, [sp, #63]
	stp q3, q1, [x29, #-208]
	stp q0, q0, [x29, #-32]
	b.ne L(195_0)
	add x0, sp, #0xd0
	sub x1, x29, #0xf0
	add x2, x22, x24
	sub x4, x29, #0x20
	mov x3, x21
	strh wzr, [sp, #272]
	stp q0, q0, [sp, #208]
	add x21, sp, #0xd0
	stp q0, q0, [sp, #240]
	bl ring.hmac.sign_counted
	ldrb w8, [sp, #208]
	mov w0, #0x8
	cbnz w8, L(195_1)
	ldrb w8, [sp, #273]
	adrp x9, PAGE(L(switch.table.yz_webhook_verify_stripe))
	add x9, x9, IN_PAGE(L(switch.table.yz_webhook_verify_stripe))
	adrp x0, PAGE(L(static.62))
	add x0, x0, IN_PAGE(L(static.62))
	orr x2, x21, #0x1
	ldr x3, [x9, x8, lsl #3]
	add x4, x20, x23
	sub x6, x29, #0x20
	mov w1, #0x7
	mov x5, x19
	bl ring_tokens.webhook.is_named
	mov w8, w0
	mov w0, #0x8
	cmp w8, #0x0
	csel w0, wzr, w0, ne
	b L(195_1)
L(195_0):
	mov w0, #0x8
L(195_1):
	add sp, sp, #0x290
	ldp x20, x19, [sp, #64]
	ldr x28, [sp, #16]
	ldp x22, x21, [sp, #48]
	ldp x24, x23, [sp, #32]
	ldp x29, x30, [sp], #80
	ret
	SIZE(yz_webhook_verify_github, 580)

	CODE(yz_webhook_verify_hex)
	.p2align 2
	.globl yz_webhook_verify_hex
	TYPE(yz_webhook_verify_hex, %function)
yz_webhook_verify_hex:
	stp x29, x30, [sp, #-96]!
	str x28, [sp, #16]
	mov x29, sp
	stp x26, x25, [sp, #32]
	stp x24, x23, [sp, #48]
	stp x22, x21, [sp, #64]
	stp x20, x19, [sp, #80]
	sub sp, sp, #0x290
	cmp x1, #0x0
	mov w10, #0x1000
	sub w8, w0, #0x1
	csel x9, x10, xzr, eq
	cmp x3, #0x0
	stp xzr, xzr, [sp]
	csel x21, x10, xzr, eq
	cmp x5, #0x0
	csel x25, x10, xzr, eq
	cmp x7, #0x0
	csel x22, x10, xzr, eq
	cmp w8, #0x3
	b.hi L(197_1)
	movi v0.2d, #0x0
	stp xzr, xzr, [sp, #208]
	stp q0, q0, [x29, #-224]
	stp q0, q0, [x29, #-192]
	stp q0, q0, [x29, #-160]
	stp q0, q0, [x29, #-128]
	stp q0, q0, [x29, #-96]
	stp q0, q0, [x29, #-64]
	stp q0, q0, [x29, #-32]
	stur q0, [x29, #-240]
	cbz x2, L(197_0)
	mov x24, x3
	mov x19, x4
	sub x0, x29, #0xf0
	mov x3, x2
	add x2, x1, x9
	sub x4, x29, #0x20
	mov w1, w8
	mov x26, x5
	mov x20, x6
	mov x23, x7
	bl ring.hmac.key.Key.new_counted
	ldurb w8, [x29, #-240]
	cbz w8, L(197_3)
L(197_0):
	mov w0, #0x8
	b L(197_2)
L(197_1):
	mov w0, #0x1
L(197_2):
	add sp, sp, #0x290
	ldp x20, x19, [sp, #80]
	ldr x28, [sp, #16]
	ldp x22, x21, [sp, #64]
	ldp x24, x23, [sp, #48]
	ldp x26, x25, [sp, #32]
	ldp x29, x30, [sp], #96
	ret
L(197_3):
	ldp q0, q1, [x29, #-96]
	add x8, sp, #0xd0
	mov x9, sp
	add x0, sp, #0xd0
	sub x1, x29, #0xf0
	add x2, x26, x25
	sub x4, x29, #0x20
	mov x3, x20
	stur q0, [x8, #143]
	ldp q0, q2, [x29, #-64]
	stur q1, [x8, #159]
	add x20, sp, #0xd0
	stur q0, [x8, #175]
	ldp q0, q1, [x29, #-160]
	stur q2, [x8, #191]
	stur q0, [x8, #79]
	stur q1, [x8, #95]
	ldp q0, q1, [x29, #-128]
	stur q0, [x8, #111]
	stur q1, [x8, #127]
	ldp q0, q1, [x29, #-224]
	stur q0, [x8, #15]
	stur q1, [x8, #31]
	ldp q0, q1, [x29, #-192]
	stur q0, [x8, #47]
	ldur q0, [x8, #143]
	stur q1, [x8, #63]
	ldur q1, [x8, #159]
	stur q0, [x9, #143]
	ldur q0, [x8, #175]
	stur q1, [x9, #159]
	ldur q1, [x8, #191]
	stur q0, [x9, #175]
	ldur q0, [x8, #79]
	stur q1, [x9, #191]
	ldur q1, [x8, #95]
	ldur q2, [x9, #175]
	stur q0, [sp, #79]
	ldur q0, [x8, #111]
	stur q1, [sp, #95]
	ldur q1, [x8, #127]
	stur q0, [sp, #111]
	ldur q0, [x8, #15]
	stur q1, [sp, #127]
	ldur q1, [x8, #31]
	stur q0, [sp, #15]
	ldur q0, [x8, #47]
	stur q1, [sp, #31]
	ldur q1, [x8, #63]
	stur q0, [sp, #47]
	ldur q0, [x9, #143]
	stur q1, [sp, #63]
	ldur q1, [x9, #159]
	ldur q3, [sp, #47]
	strh wzr, [sp, #272]
	stp q0, q1, [x29, #-112]
	ldur q0, [x9, #191]
	ldur q1, [sp, #79]
	stp q2, q0, [x29, #-80]
	ldur q0, [sp, #95]
	ldur q2, [sp, #111]
	stp q1, q0, [x29, #-176]
	ldur q0, [sp, #127]
	ldur q1, [sp, #15]
	stp q2, q0, [x29, #-144]
	ldur q0, [sp, #31]
	movi v2.2d, #0x0
	stp q1, q0, [x29, #-240]
	ldur q0, [sp, #63]
	stp q3, q0, [x29, #-208]
	stp q2, q2, [x29, #-32]
	stp q2, q2, [sp, #208]
	stp q2, q2, [sp, #240]
	bl ring.hmac.sign_counted
	ldrb w8, [sp, #208]
	mov w0, #0x8
	cbnz w8, L(197_2)
	ldrb w8, [sp, #273]
	adrp x9, PAGE(L(switch.table.yz_webhook_verify_stripe))
	add x9, x9, IN_PAGE(L(switch.table.yz_webhook_verify_stripe))
	ldr x5, [x29, #96]
	add x0, x24, x21
	orr x2, x20, #0x1
	ldr x3, [x9, x8, lsl #3]
	add x4, x23, x22
	sub x6, x29, #0x20
	mov x1, x19
	bl ring_tokens.webhook.is_named
	mov w8, w0
	mov w0, #0x8
	cmp w8, #0x0
	csel w0, wzr, w0, ne
	b L(197_2)
	SIZE(yz_webhook_verify_hex, 596)

	CODE(yz_webhook_verify_stripe)
	.p2align 2
	.globl yz_webhook_verify_stripe
	TYPE(yz_webhook_verify_stripe, %function)
yz_webhook_verify_stripe:
	stp x29, x30, [sp, #-96]!
	stp x28, x27, [sp, #16]
	mov x29, sp
	stp x26, x25, [sp, #32]
	stp x24, x23, [sp, #48]
	stp x22, x21, [sp, #64]
	stp x20, x19, [sp, #80]
	sub sp, sp, #0x440
	movi v0.2d, #0x0
	cmp x2, #0x0
	mov w8, #0x1000
	csel x25, x8, xzr, eq
	cmp x4, #0x0
	str xzr, [sp]
	csel x28, x8, xzr, eq
	stp q0, q0, [sp, #320]
	stp q0, q0, [sp, #752]
	stp q0, q0, [sp, #784]
	stp q0, q0, [sp, #816]
	stp q0, q0, [sp, #848]
	stp q0, q0, [sp, #880]
	stp q0, q0, [sp, #912]
	str q0, [sp, #736]
	cbz x1, L(199_0)
	cmp x0, #0x0
	mov w8, #0x1000
	mov x9, x0
	csel x8, x8, xzr, eq
	mov x23, x4
	mov x19, x3
	mov x20, x2
	mov x3, x1
	add x0, sp, #0x2e0
	add x2, x9, x8
	add x4, sp, #0x140
	mov w1, #0x1
	mov x22, x7
	mov x21, x6
	mov x24, x5
	bl ring.hmac.key.Key.new_counted
	ldrb w8, [sp, #736]
	cbnz w8, L(199_0)
	add x8, sp, #0x2e0
	ldr x9, [sp, #832]
	add x27, sp, #0x190
	ldur q0, [x8, #65]
	ldur q1, [x8, #81]
	ldur q2, [x8, #161]
	add x26, sp, #0x80
	ldr x15, [sp, #760]
	ldr x16, [sp, #752]
	stp q0, q1, [sp, #432]
	ldur q0, [x8, #49]
	ldur q1, [x8, #33]
	stur x9, [x27, #63]
	ldr x9, [sp, #928]
	ldrb w14, [sp, #768]
	stp q1, q0, [sp, #400]
	ldur q0, [x8, #177]
	ldur q1, [x8, #145]
	ldr x10, [sp, #856]
	ldr x11, [sp, #848]
	ldrb w12, [sp, #864]
	stp q2, q0, [sp, #240]
	ldur q0, [x8, #129]
	ldur x8, [x27, #63]
	stur x9, [x26, #143]
	ldrb w13, [sp, #936]
	stp q0, q1, [sp, #208]
	ldp q1, q0, [sp, #432]
	stur x8, [x26, #63]
	mov x8, x9
	ldrb w9, [sp, #840]
	stur x8, [sp, #111]
	cmp w9, #0x1
	stp q1, q0, [sp, #160]
	ldp q0, q2, [sp, #400]
	stp q0, q2, [sp, #128]
	ldp q1, q2, [sp, #208]
	movi v0.2d, #0x0
	stp q1, q2, [sp, #48]
	ldp q1, q3, [sp, #240]
	stp q0, q0, [sp, #288]
	stp q1, q3, [sp, #80]
	b.ne L(199_0)
	subs x2, x24, #0x2
	str xzr, [sp, #768]
	stp q0, q0, [sp, #736]
	b.cc L(199_0)
	add x8, x23, x28
	mov x1, x8
	ldrb w9, [x1], #2
	cmp w9, #0x74
	b.ne L(199_0)
	ldrb w8, [x8, #1]
	cmp w8, #0x3d
	b.ne L(199_0)
	add x0, sp, #0x2e0
	mov w3, #0x2c
	stp x11, x10, [sp, #16]
	mov w28, w12
	mov w23, w13
	mov w24, w14
	stp x16, x15, [sp, #32]
	bl ring_text.cut.cut_at
	ldrb w8, [sp, #736]
	cmp w8, #0x1
	b.ne L(199_0)
	ldr x0, [sp, #744]
	ldr x1, [sp, #752]
	stp x0, x1, [sp]
	bl ring_text.number.number_in
	and w8, w0, #0xff
	cmp w8, #0x1
	b.ne L(199_0)
	adds x8, x1, x22
	ldp x16, x15, [sp, #32]
	cset w9, cs
	cmp x8, x21
	sbcs xzr, x9, xzr
	b.cc L(199_0)
	mov w13, w23
	ldr x23, [sp, #8]
	mov w8, #0x1
	movi v0.2d, #0x0
	cmp w8, #0x1
	mov x10, #0x1fffffffffffffc0
	add x9, x19, x23
	adcs xzr, x19, x23
	ldr x21, [sp, #760]
	add x9, x9, #0x1
	cset w11, cs
	ldr x22, [sp, #768]
	cmp x9, x10
	strh wzr, [sp, #272]
	sbcs xzr, x11, xzr
	stp q0, q0, [sp, #208]
	stp q0, q0, [sp, #240]
	b.cs L(199_0)
	ldur q1, [sp, #147]
	ldur q2, [sp, #163]
	add x9, sp, #0x190
	ldur q3, [x26, #51]
	add x10, x9, #0x104
	strb w8, [sp, #488]
	stur q1, [x27, #36]
	ldur q1, [sp, #83]
	add x0, sp, #0x2e0
	stur q2, [x27, #52]
	ldur q2, [sp, #99]
	add x1, sp, #0x190
	stur q3, [x27, #68]
	ldur q3, [sp, #67]
	mov w2, #0x150
	stp q1, q2, [x10, #32]
	ldur q1, [sp, #51]
	ldr x8, [sp, #16]
	ldur q2, [sp, #131]
	stp x16, x15, [sp, #400]
	stp q1, q3, [x10]
	ldur w10, [sp, #115]
	str x8, [sp, #640]
	ldr x8, [sp, #24]
	str w10, [sp, #724]
	ldur w10, [x26, #67]
	str x8, [sp, #648]
	add x8, x9, #0x149
	stur q2, [x27, #20]
	str w10, [sp, #484]
	str w24, [sp, #416]
	stur q0, [x27, #89]
	stur q0, [x27, #105]
	stur q0, [x27, #121]
	stur q0, [x27, #137]
	stur q0, [x27, #153]
	stur q0, [x27, #169]
	stur q0, [x27, #185]
	stur q0, [x27, #201]
	stur q0, [x27, #217]
	str xzr, [sp, #632]
	str w28, [sp, #656]
	strb w13, [sp, #728]
	str wzr, [x8]
	str wzr, [sp, #732]
	bl memcpy
	ldr x1, [sp]
	add x0, sp, #0x2e0
	add x3, sp, #0x120
	mov x2, x23
	bl ring.digest.context.Context.update_counted
	adrp x1, PAGE(L(static.10))
	add x1, x1, IN_PAGE(L(static.10))
	add x0, sp, #0x2e0
	add x3, sp, #0x120
	mov w2, #0x1
	bl ring.digest.context.Context.update_counted
	add x0, sp, #0x2e0
	add x1, x20, x25
	add x3, sp, #0x120
	mov x2, x19
	bl ring.digest.context.Context.update_counted
	add x0, sp, #0x190
	add x1, sp, #0x2e0
	mov w2, #0x150
	bl memcpy
	add x0, sp, #0xd0
	add x1, sp, #0x190
	add x2, sp, #0x120
	bl ring.hmac.context.Context.sign_counted
	ldur q0, [x26, #113]
	ldur q1, [x26, #129]
	ldrb w8, [sp, #273]
	ldrb w9, [sp, #208]
	stp q0, q1, [sp, #352]
	ldur q0, [x26, #97]
	ldur q1, [x26, #81]
	strb w8, [sp, #384]
	stp q1, q0, [sp, #320]
	cbz w9, L(199_2)
L(199_0):
	mov w0, #0x8
L(199_1):
	add sp, sp, #0x440
	ldp x20, x19, [sp, #80]
	ldp x22, x21, [sp, #64]
	ldp x24, x23, [sp, #48]
	ldp x26, x25, [sp, #32]
	ldp x28, x27, [sp, #16]
	ldp x29, x30, [sp], #96
	ret
L(199_2):
	movi v0.2d, #0x0
	ldrb w8, [sp, #384]
	adrp x9, PAGE(L(switch.table.yz_webhook_verify_stripe))
	add x9, x9, IN_PAGE(L(switch.table.yz_webhook_verify_stripe))
	add x0, sp, #0x2e0
	mov x1, x21
	ldr x19, [x9, x8, lsl #3]
	mov x2, x22
	mov w3, #0x2c
	str xzr, [sp, #768]
	stp q0, q0, [sp, #736]
	bl ring_text.cut.cut_at
	ldrb w8, [sp, #736]
	cmp w8, #0x1
	b.ne L(199_4)
	mov w20, wzr
L(199_3):
	ldr x4, [sp, #744]
	ldr x5, [sp, #752]
	adrp x0, PAGE(L(static.64))
	add x0, x0, IN_PAGE(L(static.64))
	ldr x21, [sp, #760]
	ldr x22, [sp, #768]
	add x2, sp, #0x140
	add x6, sp, #0x120
	mov w1, #0x3
	mov x3, x19
	bl ring_tokens.webhook.is_named
	orr w20, w20, w0
	add x0, sp, #0x2e0
	mov x1, x21
	mov x2, x22
	mov w3, #0x2c
	bl ring_text.cut.cut_at
	ldrb w8, [sp, #736]
	cmp w8, #0x1
	b.eq L(199_3)
	b L(199_5)
L(199_4):
	mov w20, wzr
L(199_5):
	adrp x0, PAGE(L(static.64))
	add x0, x0, IN_PAGE(L(static.64))
	add x2, sp, #0x140
	add x6, sp, #0x120
	mov w1, #0x3
	mov x3, x19
	mov x4, x21
	mov x5, x22
	bl ring_tokens.webhook.is_named
	orr w9, w20, w0
	mov w8, #0x8
	tst w9, #0x1
	csel w0, wzr, w8, ne
	b L(199_1)
	SIZE(yz_webhook_verify_stripe, 1120)

	CONSTANTS(cst16,"aM",%progbits,16)
	.p2align 4
L(201_0):
	.long 0x428a2f98, 0x71374491, 0xb5c0fbcf, 0xe9b5dba5
L(201_1):
	.long 0x3956c25b, 0x59f111f1, 0x923f82a4, 0xab1c5ed5
L(201_2):
	.long 0xd807aa98, 0x12835b01, 0x243185be, 0x550c7dc3
L(201_3):
	.long 0x72be5d74, 0x80deb1fe, 0x9bdc06a7, 0xc19bf174
L(201_4):
	.long 0xd728ae22, 0x428a2f98, 0x23ef65cd, 0x71374491
L(201_5):
	.long 0xec4d3b2f, 0xb5c0fbcf, 0x8189dbbc, 0xe9b5dba5
L(201_6):
	.long 0xf348b538, 0x3956c25b, 0xb605d019, 0x59f111f1
L(201_7):
	.long 0xaf194f9b, 0x923f82a4, 0xda6d8118, 0xab1c5ed5
L(201_8):
	.long 0xa3030242, 0xd807aa98, 0x45706fbe, 0x12835b01
L(201_9):
	.long 0x4ee4b28c, 0x243185be, 0xd5ffb4e2, 0x550c7dc3
L(201_10):
	.long 0xf27b896f, 0x72be5d74, 0x3b1696b1, 0x80deb1fe
L(201_11):
	.long 0x25c71235, 0x9bdc06a7, 0xcf692694, 0xc19bf174
L(201_12):
	.long 0x428a2f98, 0x71374491, 0xb5c0fbcf, 0xe9b5dba5
L(201_13):
	.long 0x3956c25b, 0x59f111f1, 0x923f82a4, 0xab1c5ed5
L(201_14):
	.long 0xd807aa98, 0x12835b01, 0x243185be, 0x550c7dc3
L(201_15):
	.long 0x72be5d74, 0x80deb1fe, 0x9bdc06a7, 0xc19bf174
L(201_16):
	.long 0xe49b69c1, 0xefbe4786, 0x0fc19dc6, 0x240ca1cc
L(201_17):
	.long 0x2de92c6f, 0x4a7484aa, 0x5cb0a9dc, 0x76f988da
L(201_18):
	.long 0x983e5152, 0xa831c66d, 0xb00327c8, 0xbf597fc7
L(201_19):
	.long 0xc6e00bf3, 0xd5a79147, 0x06ca6351, 0x14292967
L(201_20):
	.long 0x27b70a85, 0x2e1b2138, 0x4d2c6dfc, 0x53380d13
L(201_21):
	.long 0x650a7354, 0x766a0abb, 0x81c2c92e, 0x92722c85
L(201_22):
	.long 0xa2bfe8a1, 0xa81a664b, 0xc24b8b70, 0xc76c51a3
L(201_23):
	.long 0xd192e819, 0xd6990624, 0xf40e3585, 0x106aa070
L(201_24):
	.long 0x19a4c116, 0x1e376c08, 0x2748774c, 0x34b0bcb5
L(201_25):
	.long 0x391c0cb3, 0x4ed8aa4a, 0x5b9cca4f, 0x682e6ff3
L(201_26):
	.long 0x748f82ee, 0x78a5636f, 0x84c87814, 0x8cc70208
L(201_27):
	.long 0x90befffa, 0xa4506ceb, 0xbef9a3f7, 0xc67178f2
L(201_28):
	.long 0x00000010, 0x00000000, 0x00000008, 0x00000000
L(201_29):
	.long 0x00000020, 0x00000000, 0x00000018, 0x00000000
L(201_30):
	.long 0x428a2f98, 0x71374491, 0xb5c0fbcf, 0xe9b5dba5
L(201_31):
	.long 0x3956c25b, 0x59f111f1, 0x923f82a4, 0xab1c5ed5
L(201_32):
	.long 0xd807aa98, 0x12835b01, 0x243185be, 0x550c7dc3
L(201_33):
	.long 0x72be5d74, 0x80deb1fe, 0x9bdc06a7, 0xc19bf174
L(201_34):
	.long 0xd728ae22, 0x428a2f98, 0x23ef65cd, 0x71374491
L(201_35):
	.long 0xec4d3b2f, 0xb5c0fbcf, 0x8189dbbc, 0xe9b5dba5
L(201_36):
	.long 0xf348b538, 0x3956c25b, 0xb605d019, 0x59f111f1
L(201_37):
	.long 0xaf194f9b, 0x923f82a4, 0xda6d8118, 0xab1c5ed5
L(201_38):
	.long 0xa3030242, 0xd807aa98, 0x45706fbe, 0x12835b01
L(201_39):
	.long 0x4ee4b28c, 0x243185be, 0xd5ffb4e2, 0x550c7dc3
L(201_40):
	.long 0xf27b896f, 0x72be5d74, 0x3b1696b1, 0x80deb1fe
L(201_41):
	.long 0x25c71235, 0x9bdc06a7, 0xcf692694, 0xc19bf174
L(201_42):
	.long 0x428a2f98, 0x71374491, 0xb5c0fbcf, 0xe9b5dba5
L(201_43):
	.long 0x3956c25b, 0x59f111f1, 0x923f82a4, 0xab1c5ed5
L(201_44):
	.long 0xd807aa98, 0x12835b01, 0x243185be, 0x550c7dc3
L(201_45):
	.long 0x72be5d74, 0x80deb1fe, 0x9bdc06a7, 0xc19bf174
L(201_46):
	.long 0x66666667, 0x00000000, 0x51eb851f, 0x10624dd3
L(201_47):
	.long 0xfffffffe, 0x00000000, 0xfffffffb, 0xfffffffa
L(201_48):
	.long 0x00000000, 0xffffffff, 0x00000000, 0x00000000
L(201_49):
	.long 0x00000030, 0x00000000, 0x00000038, 0x00000000
L(201_50):
	.long 0x00000028, 0x00000000, 0x00000020, 0x00000000
L(201_51):
	.long 0x00000018, 0x00000000, 0x00000010, 0x00000000
L(201_52):
	.long 0x00000008, 0x00000000, 0x00000000, 0x00000000
L(201_53):
	.long 0x66666667, 0x00000000, 0x51eb851f, 0x10624dd3
L(201_54):
	.long 0xfffffffe, 0x00000000, 0xfffffffb, 0xfffffffa
L(201_55):
	.long 0x00000000, 0xffffffff, 0x00000000, 0x00000000
L(201_56):
	.long 0x00000030, 0x00000000, 0x00000038, 0x00000000
L(201_57):
	.long 0x00000028, 0x00000000, 0x00000020, 0x00000000
L(201_58):
	.long 0x00000018, 0x00000000, 0x00000010, 0x00000000
L(201_59):
	.long 0x00000008, 0x00000000, 0x00000000, 0x00000000
L(201_60):
	.long 0x44434241, 0x48474645, 0x4c4b4a49, 0x504f4e4d
L(201_61):
	.long 0x54535251, 0x58575655, 0x62615a59, 0x66656463
L(201_62):
	.long 0x6a696867, 0x6e6d6c6b, 0x7271706f, 0x76757473
L(201_63):
	.long 0x7a797877, 0x33323130, 0x37363534, 0x5f2d3938
L(201_64):
	.long 0x03020100, 0x07060504, 0x0b0a0908, 0x0f0e0d0c
L(201_65):
	.long 0x1b1aff3f, 0x1f1e1d1c, 0x23222120, 0x27262524
L(201_66):
	.long 0x08040201, 0x80402010, 0x08040201, 0x80402010
L(201_67):
	.long 0x44434241, 0x48474645, 0x4c4b4a49, 0x504f4e4d
L(201_68):
	.long 0x54535251, 0x58575655, 0x62615a59, 0x66656463
L(201_69):
	.long 0x6a696867, 0x6e6d6c6b, 0x7271706f, 0x76757473
L(201_70):
	.long 0x7a797877, 0x33323130, 0x37363534, 0x5f2d3938
L(201_71):
	.long 0x03020100, 0x07060504, 0x0b0a0908, 0x0f0e0d0c
L(201_72):
	.long 0x1b1aff3f, 0x1f1e1d1c, 0x23222120, 0x27262524
L(201_73):
	.long 0xbb67ae85, 0x3c6ef372, 0xa54ff53a, 0x510e527f
L(201_74):
	.long 0x9b05688c, 0x1f83d9ab, 0x5be0cd19, 0x00000000
L(201_75):
	.long 0x44434241, 0x48474645, 0x4c4b4a49, 0x504f4e4d
L(201_76):
	.long 0x54535251, 0x58575655, 0x62615a59, 0x66656463
L(201_77):
	.long 0x6a696867, 0x6e6d6c6b, 0x7271706f, 0x76757473
L(201_78):
	.long 0x7a797877, 0x33323130, 0x37363534, 0x2f2b3938
L(201_79):
	.long 0x03020100, 0x07060504, 0x0b0a0908, 0x0f0e0d0c
L(201_80):
	.long 0x1d1c1b1a, 0x21201f1e, 0x25242322, 0x29282726
L(201_81):
	.long 0x44434241, 0x48474645, 0x4c4b4a49, 0x504f4e4d
L(201_82):
	.long 0x54535251, 0x58575655, 0x62615a59, 0x66656463
L(201_83):
	.long 0x6a696867, 0x6e6d6c6b, 0x7271706f, 0x76757473
L(201_84):
	.long 0x7a797877, 0x33323130, 0x37363534, 0x2f2b3938
L(201_85):
	.long 0x03020100, 0x07060504, 0x0b0a0908, 0x0f0e0d0c
L(201_86):
	.long 0x1d1c1b1a, 0x21201f1e, 0x25242322, 0x29282726
L(201_87):
	.long 0x7a797877, 0x33323130, 0x37363534, 0x2f2e3938
L(201_88):
	.long 0x44434241, 0x48474645, 0x4c4b4a49, 0x504f4e4d
L(201_89):
	.long 0x54535251, 0x58575655, 0x62615a59, 0x66656463
L(201_90):
	.long 0x6a696867, 0x6e6d6c6b, 0x7271706f, 0x76757473
L(201_91):
	.long 0x7a797877, 0x33323130, 0x37363534, 0x2f2b3938
L(201_92):
	.long 0x03020100, 0x07060504, 0x0b0a0908, 0x0f0e0d0c
L(201_93):
	.long 0x1d1c1b1a, 0x21201f1e, 0x25242322, 0x29282726
L(201_94):
	.long 0x7a797877, 0x33323130, 0x37363534, 0x2f2e3938
L(201_95):
	.long 0x5a827999, 0x5a827999, 0x5a827999, 0x5a827c39
L(201_96):
	.long 0x00000000, 0x00000000, 0x00000000, 0x000002a0
L(201_97):
	.long 0x00000000, 0x00000000, 0x00000000, 0x000002a0
L(201_98):
	.long 0x5a827999, 0x5a827999, 0x5a827999, 0x5a827c39
L(201_99):
	.long 0x428a2f98, 0x71374491, 0xb5c0fbcf, 0xe9b5dba5
L(201_100):
	.long 0x3956c25b, 0x59f111f1, 0x923f82a4, 0xab1c5ed5
L(201_101):
	.long 0x5807aa98, 0x12835b01, 0x243185be, 0x550c7dc3
L(201_102):
	.long 0x72be5d74, 0x80deb1fe, 0x9bdc06a7, 0xc19bf474
L(201_103):
	.long 0x80000000, 0x00000000, 0x00000000, 0x00000000
L(201_104):
	.long 0x00000000, 0x00000000, 0x00000000, 0x00000300
L(201_105):
	.long 0x428a2f98, 0x71374491, 0xb5c0fbcf, 0xe9b5dba5
L(201_106):
	.long 0x00000000, 0x00000000, 0x00000000, 0x00000300
L(201_107):
	.long 0x80000000, 0x00000000, 0x00000000, 0x00000000
L(201_108):
	.long 0x3956c25b, 0x59f111f1, 0x923f82a4, 0xab1c5ed5
L(201_109):
	.long 0x5807aa98, 0x12835b01, 0x243185be, 0x550c7dc3
L(201_110):
	.long 0x72be5d74, 0x80deb1fe, 0x9bdc06a7, 0xc19bf474
L(201_111):
	.long 0xe49b69c1, 0xefbe4786, 0x0fc19dc6, 0x240ca1cc
L(201_112):
	.long 0x2de92c6f, 0x4a7484aa, 0x5cb0a9dc, 0x76f988da
L(201_113):
	.long 0x983e5152, 0xa831c66d, 0xb00327c8, 0xbf597fc7
L(201_114):
	.long 0xc6e00bf3, 0xd5a79147, 0x06ca6351, 0x14292967
L(201_115):
	.long 0x27b70a85, 0x2e1b2138, 0x4d2c6dfc, 0x53380d13
L(201_116):
	.long 0x650a7354, 0x766a0abb, 0x81c2c92e, 0x92722c85
L(201_117):
	.long 0xa2bfe8a1, 0xa81a664b, 0xc24b8b70, 0xc76c51a3
L(201_118):
	.long 0xd192e819, 0xd6990624, 0xf40e3585, 0x106aa070
L(201_119):
	.long 0x19a4c116, 0x1e376c08, 0x2748774c, 0x34b0bcb5
L(201_120):
	.long 0x391c0cb3, 0x4ed8aa4a, 0x5b9cca4f, 0x682e6ff3
L(201_121):
	.long 0x748f82ee, 0x78a5636f, 0x84c87814, 0x8cc70208
L(201_122):
	.long 0x90befffa, 0xa4506ceb, 0xbef9a3f7, 0xc67178f2
L(201_123):
	.long 0x00000000, 0x80000000, 0x00000000, 0x00000000
L(201_124):
	.long 0xd728ae22, 0x428a2f98, 0x23ef65cd, 0x71374491
L(201_125):
	.long 0xec4d3b2f, 0xb5c0fbcf, 0x8189dbbc, 0xe9b5dba5
L(201_126):
	.long 0xf348b538, 0x3956c25b, 0xb605d019, 0x59f111f1
L(201_127):
	.long 0xaf194f9b, 0x123f82a4, 0xda6d8118, 0xab1c5ed5
L(201_128):
	.long 0x4ee4b28c, 0x243185be, 0xd5ffb4e2, 0x550c7dc3
L(201_129):
	.long 0xa3030242, 0xd807aa98, 0x45706fbe, 0x12835b01
L(201_130):
	.long 0x25c71235, 0x9bdc06a7, 0xcf692c14, 0xc19bf174
L(201_131):
	.long 0xf27b896f, 0x72be5d74, 0x3b1696b1, 0x80deb1fe
L(201_132):
	.long 0x00000000, 0x00000000, 0x00000580, 0x00000000
L(201_133):
	.long 0xd728ae22, 0x428a2f98, 0x23ef65cd, 0x71374491
L(201_134):
	.long 0xec4d3b2f, 0xb5c0fbcf, 0x8189dbbc, 0xe9b5dba5
L(201_135):
	.long 0xf348b538, 0x3956c25b, 0xb605d019, 0x59f111f1
L(201_136):
	.long 0xaf194f9b, 0x923f82a4, 0xda6d8118, 0xab1c5ed5
L(201_137):
	.long 0x4ee4b28c, 0x243185be, 0xd5ffb4e2, 0x550c7dc3
L(201_138):
	.long 0xa3030242, 0x5807aa98, 0x45706fbe, 0x12835b01
L(201_139):
	.long 0x25c71235, 0x9bdc06a7, 0xcf692c94, 0xc19bf174
L(201_140):
	.long 0xf27b896f, 0x72be5d74, 0x3b1696b1, 0x80deb1fe
L(201_141):
	.long 0x00000000, 0x80000000, 0x00000000, 0x00000000
L(201_142):
	.long 0x00000000, 0x00000000, 0x00000600, 0x00000000
L(201_143):
	.long 0xd728ae22, 0x428a2f98, 0x23ef65cd, 0x71374491
L(201_144):
	.long 0xec4d3b2f, 0xb5c0fbcf, 0x8189dbbc, 0xe9b5dba5
L(201_145):
	.long 0xaf194f9b, 0x923f82a4, 0xda6d8118, 0xab1c5ed5
L(201_146):
	.long 0xf348b538, 0xb956c25b, 0xb605d019, 0x59f111f1
L(201_147):
	.long 0x4ee4b28c, 0x243185be, 0xd5ffb4e2, 0x550c7dc3
L(201_148):
	.long 0xa3030242, 0xd807aa98, 0x45706fbe, 0x12835b01
L(201_149):
	.long 0x25c71235, 0x9bdc06a7, 0xcf692b94, 0xc19bf174
L(201_150):
	.long 0xf27b896f, 0x72be5d74, 0x3b1696b1, 0x80deb1fe
L(201_151):
	.long 0x00000000, 0x80000000, 0x00000000, 0x00000000
L(201_152):
	.long 0x00000000, 0x00000000, 0x00000500, 0x00000000
	.long 0x428a2f98, 0x71374491, 0xb5c0fbcf, 0xe9b5dba5
	.long 0x3956c25b, 0x59f111f1, 0x923f82a4, 0xab1c5ed5
	.long 0xd807aa98, 0x12835b01, 0x243185be, 0x550c7dc3
	.long 0x72be5d74, 0x80deb1fe, 0x9bdc06a7, 0xc19bf174
L(201_153):
	.long 0x00000000, 0x00000000, 0x00000001, 0x00000000
	.long 0x00000000, 0x00000000, 0x00000001, 0x00000000
L(201_154):
	.long 0x33323130, 0x37363534, 0x62613938, 0x66656463

	CONSTANTS(cst8,"aM",%progbits,8)
	.p2align 3
L(202_0):
	.quad 0x14f8b58968db8bad
L(202_1):
	.quad 0xfffffff3fffffff4
L(202_2):
	.quad 0x14f8b58968db8bad
L(202_3):
	.quad 0xfffffff3fffffff4
L(202_4):
	.quad 0x3837363534ffff3e
L(202_5):
	.quad 0x000000003c3b3a39
L(202_6):
	.quad 0x1716151413121110
L(202_7):
	.quad 0x2f2e2d2c2b2a2928
L(202_8):
	.quad 0x0000000033323130
L(202_9):
	.quad 0x000000000200003d
L(202_10):
	.quad 0x3837363534ffff3e
L(202_11):
	.quad 0x000000003c3b3a39
L(202_12):
	.quad 0x1716151413121110
L(202_13):
	.quad 0x2f2e2d2c2b2a2928
L(202_14):
	.quad 0x0000000033323130
L(202_15):
	.quad 0x000000000200003d
L(202_16):
	.quad 0x6a09e66700000001
L(202_17):
	.quad 0x0706050403020100
L(202_18):
	.quad 0x000000000b0a0908
L(202_19):
	.quad 0x3635343fffffff3e
L(202_20):
	.quad 0x000000003a393837
L(202_21):
	.quad 0x1716151413121110
L(202_22):
	.quad 0x31302f2e2d2c2b2a
L(202_23):
	.quad 0x000000000100013d
L(202_24):
	.quad 0x3635343fffffff3e
L(202_25):
	.quad 0x000000003a393837
L(202_26):
	.quad 0x1716151413121110
L(202_27):
	.quad 0x31302f2e2d2c2b2a
L(202_28):
	.quad 0x000000000100013d
L(202_29):
	.quad 0x000000000200003d
L(202_30):
	.quad 0x3938373635343f3e
L(202_31):
	.quad 0x000000003d3c3b3a
L(202_32):
	.quad 0x3635343fffffff3e
L(202_33):
	.quad 0x000000003a393837
L(202_34):
	.quad 0x1716151413121110
L(202_35):
	.quad 0x31302f2e2d2c2b2a
L(202_36):
	.quad 0x000000000100013d
L(202_37):
	.quad 0x000000000200003d
L(202_38):
	.quad 0x3938373635343f3e
L(202_39):
	.quad 0x000000003d3c3b3a
L(202_40):
	.quad 0x64656873696e6966

	CONSTANTS(ring_password_hash.stored.Stored.parse,"a",%progbits)
	.p2align 0
L(203_0):
	.byte 0x16, 0x00, 0x16, 0x03, 0x05, 0x05, 0x03, 0x00, 0x16, 0x03, 0x11, 0x00

	CONSTANTS(ring_password_hash.stored.put_text,"a",%progbits)
	.p2align 0
L(204_0):
	.byte 0x00, 0x40, 0x49, 0x0d, 0x64, 0x12, 0x56, 0x4d, 0xdb, 0x11, 0x5f, 0x04

	CONSTANTS(ring_password_hash.derived.derive,"a",%progbits)
	.p2align 0
L(205_0):
	.byte 0x03, 0x02, 0x03, 0x00, 0x03, 0x00, 0x00, 0x02, 0x03, 0x00, 0x0e, 0x02

	CONSTANTS(Lstatic.5,"a",%progbits)
	.p2align 3
	.quad 0x428a2f98d728ae22, 0x7137449123ef65cd, 0xb5c0fbcfec4d3b2f, 0xe9b5dba58189dbbc
	.quad 0x3956c25bf348b538, 0x59f111f1b605d019, 0x923f82a4af194f9b, 0xab1c5ed5da6d8118
	.quad 0xd807aa98a3030242, 0x12835b0145706fbe, 0x243185be4ee4b28c, 0x550c7dc3d5ffb4e2
	.quad 0x72be5d74f27b896f, 0x80deb1fe3b1696b1, 0x9bdc06a725c71235, 0xc19bf174cf692694
	.quad 0xe49b69c19ef14ad2, 0xefbe4786384f25e3, 0x0fc19dc68b8cd5b5, 0x240ca1cc77ac9c65
	.quad 0x2de92c6f592b0275, 0x4a7484aa6ea6e483, 0x5cb0a9dcbd41fbd4, 0x76f988da831153b5
	.quad 0x983e5152ee66dfab, 0xa831c66d2db43210, 0xb00327c898fb213f, 0xbf597fc7beef0ee4
L(206_0):
	.quad 0xc6e00bf33da88fc2, 0xd5a79147930aa725, 0x06ca6351e003826f, 0x142929670a0e6e70
	.quad 0x27b70a8546d22ffc, 0x2e1b21385c26c926, 0x4d2c6dfc5ac42aed, 0x53380d139d95b3df
	.quad 0x650a73548baf63de, 0x766a0abb3c77b2a8, 0x81c2c92e47edaee6, 0x92722c851482353b
	.quad 0xa2bfe8a14cf10364, 0xa81a664bbc423001, 0xc24b8b70d0f89791, 0xc76c51a30654be30
	.quad 0xd192e819d6ef5218, 0xd69906245565a910, 0xf40e35855771202a, 0x106aa07032bbd1b8
	.quad 0x19a4c116b8d2d0c8, 0x1e376c085141ab53, 0x2748774cdf8eeb99, 0x34b0bcb5e19b48a8
	.quad 0x391c0cb3c5c95a63, 0x4ed8aa4ae3418acb, 0x5b9cca4f7763e373, 0x682e6ff3d6b2b8a3
	.quad 0x748f82ee5defb2fc, 0x78a5636f43172f60, 0x84c87814a1f0ab72, 0x8cc702081a6439ec
	.quad 0x90befffa23631e28, 0xa4506cebde82bde9, 0xbef9a3f7b2c67915, 0xc67178f2e372532b
	.quad 0xca273eceea26619c, 0xd186b8c721c0c207, 0xeada7dd6cde0eb1e, 0xf57d4f7fee6ed178
	.quad 0x06f067aa72176fba, 0x0a637dc5a2c898a6, 0x113f9804bef90dae, 0x1b710b35131c471b
	.quad 0x28db77f523047d84, 0x32caab7b40c72493, 0x3c9ebe0a15c9bebc, 0x431d67c49c100d4c
	.quad 0x4cc5d4becb3e42b6, 0x597f299cfc657e2a, 0x5fcb6fab3ad6faec, 0x6c44198c4a475817

	CONSTANTS(str1.1,"aMS",%progbits,1)
	.p2align 0
L(207_0):
	.byte 0x00

	CONSTANTS(Lstatic.7,"a",%progbits)
	.p2align 2
	.long 0x428a2f98, 0x71374491, 0xb5c0fbcf, 0xe9b5dba5
	.long 0x3956c25b, 0x59f111f1, 0x923f82a4, 0xab1c5ed5
	.long 0xd807aa98, 0x12835b01, 0x243185be, 0x550c7dc3
	.long 0x72be5d74, 0x80deb1fe, 0x9bdc06a7, 0xc19bf174
	.long 0xe49b69c1, 0xefbe4786, 0x0fc19dc6, 0x240ca1cc
	.long 0x2de92c6f, 0x4a7484aa, 0x5cb0a9dc, 0x76f988da
	.long 0x983e5152, 0xa831c66d, 0xb00327c8, 0xbf597fc7
L(208_0):
	.long 0xc6e00bf3, 0xd5a79147, 0x06ca6351
L(208_1):
	.long 0x14292967, 0x27b70a85, 0x2e1b2138, 0x4d2c6dfc
	.long 0x53380d13, 0x650a7354, 0x766a0abb, 0x81c2c92e
	.long 0x92722c85, 0xa2bfe8a1, 0xa81a664b, 0xc24b8b70
	.long 0xc76c51a3, 0xd192e819, 0xd6990624, 0xf40e3585
	.long 0x106aa070, 0x19a4c116, 0x1e376c08, 0x2748774c
	.long 0x34b0bcb5, 0x391c0cb3, 0x4ed8aa4a, 0x5b9cca4f
	.long 0x682e6ff3, 0x748f82ee, 0x78a5636f, 0x84c87814
	.long 0x8cc70208, 0x90befffa, 0xa4506ceb, 0xbef9a3f7
	.long 0xc67178f2

	CONSTANTS(Lstatic.8,"a",%progbits)
	.p2align 0
L(static.8):

	CONSTANTS(Lstatic.9,"a",%progbits)
	.p2align 0
L(static.9):
	.byte 0x74, 0x6c, 0x73, 0x31, 0x33, 0x20

	CONSTANTS(Lstatic.10,"a",%progbits)
	.p2align 0
L(static.10):
	.byte 0x2e

	CONSTANTS(Lstatic.11,"a",%progbits)
	.p2align 0
L(static.11):
	.byte 0x65, 0x79, 0x4a, 0x68, 0x62, 0x47, 0x63, 0x69, 0x4f, 0x69, 0x4a, 0x49, 0x55, 0x7a, 0x49, 0x31
	.byte 0x4e, 0x69, 0x49, 0x73, 0x49, 0x6e, 0x52, 0x35, 0x63, 0x43, 0x49, 0x36, 0x49, 0x6b, 0x70, 0x58
	.byte 0x56, 0x43, 0x4a, 0x39

	CONSTANTS(Lstatic.12,"a",%progbits)
	.p2align 0
L(static.12):
	.byte 0x65, 0x79, 0x4a, 0x68, 0x62, 0x47, 0x63, 0x69, 0x4f, 0x69, 0x4a, 0x49, 0x55, 0x7a, 0x4d, 0x34
	.byte 0x4e, 0x43, 0x49, 0x73, 0x49, 0x6e, 0x52, 0x35, 0x63, 0x43, 0x49, 0x36, 0x49, 0x6b, 0x70, 0x58
	.byte 0x56, 0x43, 0x4a, 0x39

	CONSTANTS(Lstatic.13,"a",%progbits)
	.p2align 0
L(static.13):
	.byte 0x65, 0x79, 0x4a, 0x68, 0x62, 0x47, 0x63, 0x69, 0x4f, 0x69, 0x4a, 0x49, 0x55, 0x7a, 0x55, 0x78
	.byte 0x4d, 0x69, 0x49, 0x73, 0x49, 0x6e, 0x52, 0x35, 0x63, 0x43, 0x49, 0x36, 0x49, 0x6b, 0x70, 0x58
	.byte 0x56, 0x43, 0x4a, 0x39

	CONSTANTS(Lstatic.14,"a",%progbits)
	.p2align 0
L(static.14):
	.byte 0x65, 0x79, 0x4a, 0x30, 0x65, 0x58, 0x41, 0x69, 0x4f, 0x69, 0x4a, 0x4b, 0x56, 0x31, 0x51, 0x69
	.byte 0x4c, 0x43, 0x4a, 0x68, 0x62, 0x47, 0x63, 0x69, 0x4f, 0x69, 0x4a, 0x49, 0x55, 0x7a, 0x49, 0x31
	.byte 0x4e, 0x69, 0x4a, 0x39

	CONSTANTS(Lstatic.15,"a",%progbits)
	.p2align 0
L(static.15):
	.byte 0x65, 0x79, 0x4a, 0x30, 0x65, 0x58, 0x41, 0x69, 0x4f, 0x69, 0x4a, 0x4b, 0x56, 0x31, 0x51, 0x69
	.byte 0x4c, 0x43, 0x4a, 0x68, 0x62, 0x47, 0x63, 0x69, 0x4f, 0x69, 0x4a, 0x49, 0x55, 0x7a, 0x4d, 0x34
	.byte 0x4e, 0x43, 0x4a, 0x39

	CONSTANTS(Lstatic.16,"a",%progbits)
	.p2align 0
L(static.16):
	.byte 0x65, 0x79, 0x4a, 0x30, 0x65, 0x58, 0x41, 0x69, 0x4f, 0x69, 0x4a, 0x4b, 0x56, 0x31, 0x51, 0x69
	.byte 0x4c, 0x43, 0x4a, 0x68, 0x62, 0x47, 0x63, 0x69, 0x4f, 0x69, 0x4a, 0x49, 0x55, 0x7a, 0x55, 0x78
	.byte 0x4d, 0x69, 0x4a, 0x39

	CONSTANTS(Lstatic.17,"a",%progbits)
	.p2align 0
L(static.17):
	.byte 0x65, 0x79, 0x4a, 0x68, 0x62, 0x47, 0x63, 0x69, 0x4f, 0x69, 0x4a, 0x49, 0x55, 0x7a, 0x49, 0x31
	.byte 0x4e, 0x69, 0x4a, 0x39

	CONSTANTS(Lstatic.18,"a",%progbits)
	.p2align 0
L(static.18):
	.byte 0x65, 0x79, 0x4a, 0x68, 0x62, 0x47, 0x63, 0x69, 0x4f, 0x69, 0x4a, 0x49, 0x55, 0x7a, 0x4d, 0x34
	.byte 0x4e, 0x43, 0x4a, 0x39

	CONSTANTS(Lstatic.19,"a",%progbits)
	.p2align 0
L(static.19):
	.byte 0x65, 0x79, 0x4a, 0x68, 0x62, 0x47, 0x63, 0x69, 0x4f, 0x69, 0x4a, 0x49, 0x55, 0x7a, 0x55, 0x78
	.byte 0x4d, 0x69, 0x4a, 0x39

	CONSTANTS(Lstatic.20,"a",%progbits)
	.p2align 0
L(static.20):
	.byte 0x01

	CONSTANTS(Lstatic.21,"a",%progbits)
	.p2align 0
L(static.21):
	.byte 0x69, 0x3d

	CONSTANTS(Lstatic.22,"a",%progbits)
	.p2align 0
L(static.22):
	.byte 0x30, 0x30, 0x30, 0x31, 0x30, 0x32, 0x30, 0x33, 0x30, 0x34, 0x30, 0x35, 0x30, 0x36, 0x30, 0x37
	.byte 0x30, 0x38, 0x30, 0x39, 0x31, 0x30, 0x31, 0x31, 0x31, 0x32, 0x31, 0x33, 0x31, 0x34, 0x31, 0x35
	.byte 0x31, 0x36, 0x31, 0x37, 0x31, 0x38, 0x31, 0x39, 0x32, 0x30, 0x32, 0x31, 0x32, 0x32, 0x32, 0x33
	.byte 0x32, 0x34, 0x32, 0x35, 0x32, 0x36, 0x32, 0x37, 0x32, 0x38, 0x32, 0x39, 0x33, 0x30, 0x33, 0x31
	.byte 0x33, 0x32, 0x33, 0x33, 0x33, 0x34, 0x33, 0x35, 0x33, 0x36, 0x33, 0x37, 0x33, 0x38, 0x33, 0x39
	.byte 0x34, 0x30, 0x34, 0x31, 0x34, 0x32, 0x34, 0x33, 0x34, 0x34, 0x34, 0x35, 0x34, 0x36, 0x34, 0x37
	.byte 0x34, 0x38, 0x34, 0x39, 0x35, 0x30, 0x35, 0x31, 0x35, 0x32, 0x35, 0x33, 0x35, 0x34, 0x35, 0x35
	.byte 0x35, 0x36, 0x35, 0x37, 0x35, 0x38, 0x35, 0x39, 0x36, 0x30, 0x36, 0x31, 0x36, 0x32, 0x36, 0x33
	.byte 0x36, 0x34, 0x36, 0x35, 0x36, 0x36, 0x36, 0x37, 0x36, 0x38, 0x36, 0x39, 0x37, 0x30, 0x37, 0x31
	.byte 0x37, 0x32, 0x37, 0x33, 0x37, 0x34, 0x37, 0x35, 0x37, 0x36, 0x37, 0x37, 0x37, 0x38, 0x37, 0x39
	.byte 0x38, 0x30, 0x38, 0x31, 0x38, 0x32, 0x38, 0x33, 0x38, 0x34, 0x38, 0x35, 0x38, 0x36, 0x38, 0x37
	.byte 0x38, 0x38, 0x38, 0x39, 0x39, 0x30, 0x39, 0x31, 0x39, 0x32, 0x39, 0x33, 0x39, 0x34, 0x39, 0x35
	.byte 0x39, 0x36, 0x39, 0x37, 0x39, 0x38, 0x39, 0x39

	CONSTANTS(Lstatic.23,"a",%progbits)
	.p2align 0
L(static.23):
	.byte 0x6c, 0x3d

	CONSTANTS(Lstatic.24,"a",%progbits)
	.p2align 0
L(static.24):
	.byte 0x70, 0x62, 0x6b, 0x64, 0x66, 0x32, 0x5f, 0x73, 0x68, 0x61, 0x32, 0x35, 0x36, 0x24

	CONSTANTS(Lstatic.25,"a",%progbits)
	.p2align 0
L(static.25):
	.byte 0x70, 0x62, 0x6b, 0x64, 0x66, 0x32, 0x5f, 0x73, 0x68, 0x61, 0x31, 0x24

	CONSTANTS(Lstatic.26,"a",%progbits)
	.p2align 0
L(static.26):
	.byte 0x70, 0x62, 0x6b, 0x64, 0x66, 0x32, 0x3a, 0x73, 0x68, 0x61, 0x32, 0x35, 0x36, 0x3a

	CONSTANTS(Lstatic.27,"a",%progbits)
	.p2align 0
L(static.27):
	.byte 0x70, 0x62, 0x6b, 0x64, 0x66, 0x32, 0x3a, 0x73, 0x68, 0x61, 0x35, 0x31, 0x32, 0x3a

	CONSTANTS(Lstatic.28,"a",%progbits)
	.p2align 0
L(static.28):
	.byte 0x70, 0x62, 0x6b, 0x64, 0x66, 0x32, 0x3a, 0x73, 0x68, 0x61, 0x31, 0x3a

	CONSTANTS(Lstatic.29,"a",%progbits)
	.p2align 0
L(static.29):
	.byte 0x24, 0x37, 0x24

	CONSTANTS(Lstatic.30,"a",%progbits)
	.p2align 0
L(static.30):
	.byte 0x24, 0x70, 0x62, 0x6b, 0x64, 0x66, 0x32, 0x24

	CONSTANTS(Lstatic.31,"a",%progbits)
	.p2align 0
L(static.31):
	.byte 0x24, 0x70, 0x62, 0x6b, 0x64, 0x66, 0x32, 0x2d, 0x73, 0x68, 0x61, 0x32, 0x35, 0x36, 0x24

	CONSTANTS(Lstatic.32,"a",%progbits)
	.p2align 0
L(static.32):
	.byte 0x24, 0x70, 0x62, 0x6b, 0x64, 0x66, 0x32, 0x2d, 0x73, 0x68, 0x61, 0x35, 0x31, 0x32, 0x24

	CONSTANTS(Lstatic.33,"a",%progbits)
	.p2align 0
L(static.33):
	.byte 0x53, 0x43, 0x52, 0x41, 0x4d, 0x2d, 0x53, 0x48, 0x41, 0x2d, 0x32, 0x35, 0x36, 0x24

	CONSTANTS(Lstatic.46,"a",%progbits)
	.p2align 0
L(static.46):
	.byte 0x41, 0x42, 0x43, 0x44, 0x45, 0x46, 0x47, 0x48, 0x49, 0x4a, 0x4b, 0x4c, 0x4d, 0x4e, 0x4f, 0x50
	.byte 0x51, 0x52, 0x53, 0x54, 0x55, 0x56, 0x57, 0x58, 0x59, 0x5a, 0x61, 0x62, 0x63, 0x64, 0x65, 0x66
	.byte 0x67, 0x68, 0x69, 0x6a, 0x6b, 0x6c, 0x6d, 0x6e, 0x6f, 0x70, 0x71, 0x72, 0x73, 0x74, 0x75, 0x76
	.byte 0x77, 0x78, 0x79, 0x7a, 0x30, 0x31, 0x32, 0x33, 0x34, 0x35, 0x36, 0x37, 0x38, 0x39, 0x2e, 0x2f

	CONSTANTS(Lstatic.55,"a",%progbits)
	.p2align 0
L(static.55):
	.byte 0x43, 0x6c, 0x69, 0x65, 0x6e, 0x74, 0x20, 0x4b, 0x65, 0x79

	CONSTANTS(Lstatic.56,"a",%progbits)
	.p2align 0
L(static.56):
	.byte 0x53, 0x65, 0x72, 0x76, 0x65, 0x72, 0x20, 0x4b, 0x65, 0x79

	CONSTANTS(Lstatic.57,"a",%progbits)
	.p2align 0
L(static.57):
	.byte 0x61, 0x62, 0x63, 0x64, 0x65, 0x66, 0x67, 0x68, 0x69, 0x6a, 0x6b, 0x6c, 0x6d, 0x6e, 0x6f, 0x70
	.byte 0x71, 0x72, 0x73, 0x74, 0x75, 0x76, 0x77, 0x78, 0x79, 0x7a, 0x41, 0x42, 0x43, 0x44, 0x45, 0x46
	.byte 0x47, 0x48, 0x49, 0x4a, 0x4b, 0x4c, 0x4d, 0x4e, 0x4f, 0x50, 0x51, 0x52, 0x53, 0x54, 0x55, 0x56
	.byte 0x57, 0x58, 0x59, 0x5a, 0x30, 0x31, 0x32, 0x33, 0x34, 0x35, 0x36, 0x37, 0x38, 0x39

	CONSTANTS(Lstatic.58,"a",%progbits)
	.p2align 0
L(static.58):
	.byte 0x00, 0x00, 0x00, 0x00, 0x00, 0x00, 0x00, 0x00, 0x00, 0x00, 0x00, 0x00, 0x00, 0x00, 0x00, 0x00
	.byte 0x00, 0x00, 0x00, 0x00, 0x00, 0x00, 0x00, 0x00, 0x00, 0x00, 0x00, 0x00, 0x00, 0x00, 0x00, 0x00
	.byte 0x00, 0x00, 0x00, 0x00, 0x00, 0x00, 0x00, 0x00, 0x00, 0x00, 0x00, 0x00, 0x00, 0x00, 0x00, 0x00
	.byte 0x00, 0x00, 0x00, 0x00, 0x00, 0x00, 0x00, 0x00, 0x00, 0x00, 0x00, 0x00, 0x00, 0x00, 0x00, 0x00

	CONSTANTS(Lstatic.59,"a",%progbits)
	.p2align 0
L(static.59):
	.byte 0x65, 0x78, 0x74, 0x20, 0x62, 0x69, 0x6e, 0x64, 0x65, 0x72

	CONSTANTS(Lstatic.60,"a",%progbits)
	.p2align 0
L(static.60):
	.byte 0x72, 0x65, 0x73, 0x20, 0x62, 0x69, 0x6e, 0x64, 0x65, 0x72

	CONSTANTS(Lstatic.62,"a",%progbits)
	.p2align 0
L(static.62):
	.byte 0x73, 0x68, 0x61, 0x32, 0x35, 0x36, 0x3d

	CONSTANTS(Lstatic.64,"a",%progbits)
	.p2align 0
L(static.64):
	.byte 0x76, 0x31, 0x3d

	CONSTANTS(Lswitch.table.ring_schedules.label.fill_by_label,"a",%progbits)
	.p2align 3
L(switch.table.ring_schedules.label.fill_by_label):
	.quad 0x00000000000013ec, 0x0000000000001fe0, 0x0000000000002fd0, 0x0000000000003fc0
	.quad 0x0000000000001fe0

	CONSTANTS(Lswitch.table.ring_tokens.otp.find_hotp_counted,"a",%progbits)
	.p2align 2
L(switch.table.ring_tokens.otp.find_hotp_counted):
	.long 0x000f4240, 0x00989680, 0x05f5e100

	CONSTANTS(Lswitch.table.ring_password_hash.stored.Stored.parse.rel,"a",%progbits)
NAMED(Lswitch.table.ring_password_hash.stored.Stored.parse.rel.tables)
	.p2align 2
L(switch.table.ring_password_hash.stored.Stored.parse.rel):
	.long L(static.24)-L(switch.table.ring_password_hash.stored.Stored.parse.rel)
	.long L(static.25)-L(switch.table.ring_password_hash.stored.Stored.parse.rel)
	.long L(static.26)-L(switch.table.ring_password_hash.stored.Stored.parse.rel)
	.long L(static.27)-L(switch.table.ring_password_hash.stored.Stored.parse.rel)
	.long L(static.31)-L(switch.table.ring_password_hash.stored.Stored.parse.rel)
	.long L(static.32)-L(switch.table.ring_password_hash.stored.Stored.parse.rel)
	.long L(static.29)-L(switch.table.ring_password_hash.stored.Stored.parse.rel)
	.long L(static.30)-L(switch.table.ring_password_hash.stored.Stored.parse.rel)
	.long L(static.31)-L(switch.table.ring_password_hash.stored.Stored.parse.rel)
	.long L(static.32)-L(switch.table.ring_password_hash.stored.Stored.parse.rel)
	.long L(static.33)-L(switch.table.ring_password_hash.stored.Stored.parse.rel)
	.long L(static.28)-L(switch.table.ring_password_hash.stored.Stored.parse.rel)

	CONSTANTS(Lswitch.table.ring_password_hash.stored.Stored.parse.194,"a",%progbits)
	.p2align 3
L(switch.table.ring_password_hash.stored.Stored.parse.194):
	.quad 0x000000000000000e, 0x000000000000000c, 0x000000000000000e, 0x000000000000000e
	.quad 0x000000000000000f, 0x000000000000000f, 0x0000000000000003, 0x0000000000000008
	.quad 0x000000000000000f, 0x000000000000000f, 0x000000000000000e, 0x000000000000000c

	CONSTANTS(Lswitch.table.ring_password_hash.stored.put_text,"a",%progbits)
	.p2align 2
L(switch.table.ring_password_hash.stored.put_text):
	.long 0x00000000, 0x04020303, 0x00020404

	CONSTANTS(Lswitch.table.ring.pbkdf2.derive_in.128,"a",%progbits)
	.p2align 3
L(switch.table.ring.pbkdf2.derive_in.128):
	.quad 0x00000013ffffffec, 0x0000001fffffffe0, 0x0000002fffffffd0, 0x0000003fffffffc0
	.quad 0x0000001fffffffe0

	CONSTANTS(Lswitch.table.yz_digest_each_wide.218,"a",%progbits)
	.p2align 2
L(switch.table.yz_digest_each_wide.218):
	.long 0x00000001, 0x00000001, 0x00000000, 0x00000000
	.long 0x00000000

	CONSTANTS(Lswitch.table.yz_digest_each_wide.219,"a",%progbits)
	.p2align 2
L(switch.table.yz_digest_each_wide.219):
	.long 0x67452301, 0x6a09e667, 0x00000000, 0x00000000
	.long 0x00000000

	CONSTANTS(Lswitch.table.yz_digest_each_wide.220,"a",%progbits)
	.p2align 3
L(switch.table.yz_digest_each_wide.220):
	.quad 0x98badcfeefcdab89, 0x3c6ef372bb67ae85, 0xcbbb9d5dc1059ed8, 0x6a09e667f3bcc908
	.quad 0x22312194fc2bf72c

	CONSTANTS(Lswitch.table.yz_digest_each_wide.221,"a",%progbits)
	.p2align 3
L(switch.table.yz_digest_each_wide.221):
	.quad 0xc3d2e1f010325476, 0x510e527fa54ff53a, 0x629a292a367cd507, 0xbb67ae8584caa73b
	.quad 0x9f555fa3c84c64c2

	CONSTANTS(Lswitch.table.yz_digest_each_wide.222,"a",%progbits)
	.p2align 3
L(switch.table.yz_digest_each_wide.222):
	.quad 0x0000000000000000, 0x1f83d9ab9b05688c, 0x9159015a3070dd17, 0x3c6ef372fe94f82b
	.quad 0x2393b86b6f53b151

	CONSTANTS(Lswitch.table.yz_digest_each_wide.223,"a",%progbits)
	.p2align 3
L(switch.table.yz_digest_each_wide.223):
	.quad 0x0000000000000000, 0x000000005be0cd19, 0x152fecd8f70e5939, 0xa54ff53a5f1d36f1
	.quad 0x963877195940eabd

	CONSTANTS(Lswitch.table.yz_digest_each_wide.224,"a",%progbits)
	.p2align 3
L(switch.table.yz_digest_each_wide.224):
	.quad 0x0000000000000000, 0x0000000000000000, 0x67332667ffc00b31, 0x510e527fade682d1
	.quad 0x96283ee2a88effe3

	CONSTANTS(Lswitch.table.yz_digest_each_wide.225,"a",%progbits)
	.p2align 3
L(switch.table.yz_digest_each_wide.225):
	.quad 0x0000000000000000, 0x0000000000000000, 0x8eb44a8768581511, 0x9b05688c2b3e6c1f
	.quad 0xbe5e1e2553863992

	CONSTANTS(Lswitch.table.yz_digest_each_wide.226,"a",%progbits)
	.p2align 3
L(switch.table.yz_digest_each_wide.226):
	.quad 0x0000000000000000, 0x0000000000000000, 0xdb0c2e0d64f98fa7, 0x1f83d9abfb41bd6b
	.quad 0x2b0199fc2c85b8aa

	CONSTANTS(Lswitch.table.yz_digest_each_wide.227,"a",%progbits)
	.p2align 3
L(switch.table.yz_digest_each_wide.227):
	.quad 0x0000000000000000, 0x0000000000000000, 0x47b5481dbefa4fa4, 0x5be0cd19137e2179
	.quad 0x0eb72ddc81c52ca2

	CONSTANTS(cst32,"aM",%progbits,32)
	.p2align 3
L(261_0):
	.quad 0x00000000000013ec, 0x0000000000001fe0, 0x0000000000002fd0, 0x0000000000003fc0
L(261_1):
	.quad 0x00000013ffffffec, 0x0000001fffffffe0, 0x0000002fffffffd0, 0x0000003fffffffc0
L(261_2):
	.quad 0x0000000000000014, 0x0000000000000020, 0x0000000000000030, 0x0000000000000040

	CONSTANTS(Lswitch.table.yz_hmac_final,"a",%progbits)
	.p2align 3
L(switch.table.yz_hmac_final):
	.quad 0x0000000000000040, 0x0000000000000040, 0x0000000000000080, 0x0000000000000080
	.quad 0x0000000000000080

	CONSTANTS(Lswitch.table.yz_jws_sign.239,"a",%progbits)
	.p2align 3
L(switch.table.yz_jws_sign.239):
	.quad 0x0000000000000051, 0x0000000000000066, 0x000000000000007c

	CONSTANTS(Lswitch.table.yz_password_hash_verify,"a",%progbits)
	.p2align 2
L(switch.table.yz_password_hash_verify):
	.long 0x00000005, 0x00000006, 0x00000008, 0x00000007
	.long 0x00000004, 0x00000008

	CONSTANTS(Lswitch.table.yz_webhook_verify_stripe,"a",%progbits)
	.p2align 3
L(switch.table.yz_webhook_verify_stripe):
	.quad 0x0000000000000014, 0x0000000000000020, 0x0000000000000030, 0x0000000000000040
	.quad 0x0000000000000020

	ADDRESSES(Lswitch.table.yz_jws_verify)
	.p2align 3
L(266_0):
	.quad L(static.11)
	.quad L(static.12)
	.quad L(static.13)

	ADDRESSES(Lswitch.table.yz_jws_verify.241)
	.p2align 3
L(268_0):
	.quad L(static.14)
	.quad L(static.15)
	.quad L(static.16)

	ADDRESSES(Lswitch.table.yz_jws_verify.242)
	.p2align 3
L(270_0):
	.quad L(static.17)
	.quad L(static.18)
	.quad L(static.19)

#ifdef __ELF__
	.ident "rattle logic=dac8208d650f15bf3e2dc313a14fa4c783a3acf887bdfab66e1714b038d9e11b"
#endif
#endif
#ifdef __ELF__
	.section .note.GNU-stack,"",%progbits
#endif
