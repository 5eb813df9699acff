/* Starterbell for Linux on x86_64: what the proved sources of crates/host_c compile to. include/starterbell.h declares its functions.
   Written by tools/dist; the gate compiles the sources again and compares.
   sources: e28853ecb50491388a1cdbd79decdf3888f8cdef2c9645b9b54c58507ecdbaee */
	.section	".text.contact_form::in_form","ax",@progbits
	.p2align	4
	.type	"contact_form::in_form",@function
"contact_form::in_form":
	pushq	%r15
	pushq	%r14
	pushq	%rbx
	subq	$3072, %rsp
	movq	$0, (%rsp)
	subq	$3072, %rsp
	movq	$0, (%rsp)
	subq	$3072, %rsp
	movq	$0, (%rsp)
	subq	$1024, %rsp
	movq	%rdx, %r14
	movq	%rdi, %rbx
	movl	%esi, %eax
	imulq	$892460737, %rax, %rax
	shrq	$39, %rax
	cmpq	$3153920, %rsi
	movl	$5120, %r15d
	cmovbq	%rax, %r15
	movq	%rsp, %rdi
	movl	$10240, %edx
	xorl	%esi, %esi
	callq	memset@PLT
	testq	%r15, %r15
	je	.LBB0_1
	imulq	$616, %r15, %rax
	movw	$1, %cx
	xorl	%edx, %edx
	jmp	.LBB0_8
	.p2align	4
.LBB0_31:
	addq	$616, %rdx
	incl	%ecx
	cmpq	%rdx, %rax
	je	.LBB0_1
.LBB0_8:
	movzbl	(%rbx,%rdx), %esi
	testq	%rsi, %rsi
	je	.LBB0_31
	cmpb	$20, %sil
	ja	.LBB0_5
	cmpb	$1, 1(%rbx,%rdx)
	ja	.LBB0_5
	movzbl	2(%rbx,%rdx), %edi
	addb	$-65, %dil
	cmpb	$-64, %dil
	jb	.LBB0_5
	movzbl	3(%rbx,%rdx), %edi
	cmpb	$4, %dil
	ja	.LBB0_5
	testb	%dil, %dil
	je	.LBB0_14
	movzbl	4(%rbx,%rdx), %r8d
	decb	%r8b
	js	.LBB0_5
	cmpb	$1, %dil
	je	.LBB0_14
	movzbl	5(%rbx,%rdx), %r8d
	decb	%r8b
	js	.LBB0_5
	cmpb	$2, %dil
	je	.LBB0_14
	movzbl	6(%rbx,%rdx), %r8d
	decb	%r8b
	js	.LBB0_5
	cmpb	$3, %dil
	je	.LBB0_14
	movzbl	7(%rbx,%rdx), %edi
	decb	%dil
	js	.LBB0_5
	.p2align	4
.LBB0_14:
	movq	(%r14), %rdi
	movq	8(%rbx,%rdx), %r8
	cmpq	%rdi, %r8
	jne	.LBB0_15
	movq	8(%r14), %rdi
	movq	16(%rbx,%rdx), %r8
	cmpq	%rdi, %r8
	jne	.LBB0_24
	movq	16(%r14), %rdi
	movq	24(%rbx,%rdx), %r8
	cmpq	%rdi, %r8
	jne	.LBB0_26
	movq	24(%r14), %rdi
	movq	32(%rbx,%rdx), %r8
	cmpq	%rdi, %r8
	je	.LBB0_5
	bswapq	%rdi
	bswapq	%r8
	movl	$192, %r9d
	jmp	.LBB0_29
	.p2align	4
.LBB0_15:
	bswapq	%rdi
	bswapq	%r8
	xorl	%r9d, %r9d
	jmp	.LBB0_29
.LBB0_24:
	bswapq	%rdi
	bswapq	%r8
	movl	$64, %r9d
	jmp	.LBB0_29
.LBB0_26:
	bswapq	%rdi
	bswapq	%r8
	movl	$128, %r9d
	.p2align	4
.LBB0_29:
	xorq	%rdi, %r8
	bsrq	%r8, %rdi
	xorq	$63, %rdi
	orq	%r9, %rdi
	leaq	(%rdi,%rdi,4), %rdi
	leaq	(%rsi,%rdi,4), %r8
	cmpw	$0, -2(%rsp,%r8,2)
	jne	.LBB0_5
	leaq	(%rsi,%rdi,4), %rsi
	decq	%rsi
	movw	%cx, (%rsp,%rsi,2)
	jmp	.LBB0_31
.LBB0_1:
	leaq	-2(%rsp), %rsi
	xorl	%ecx, %ecx
	xorl	%edi, %edi
	jmp	.LBB0_2
	.p2align	4
.LBB0_39:
	incq	%rcx
	decq	%rdi
	addq	$2, %rsi
	cmpq	$5120, %rcx
	je	.LBB0_40
.LBB0_2:
	movabsq	$-3689348814741910323, %rdx
	movq	%rcx, %rax
	mulq	%rdx
	movzwl	(%rsp,%rcx,2), %r8d
	testq	%r8, %r8
	je	.LBB0_39
	imull	$-13107, %ecx, %eax
	rorw	$2, %ax
	movzwl	%ax, %eax
	cmpl	$3277, %eax
	jb	.LBB0_39
	cmpw	$0, -2(%rsp,%rcx,2)
	je	.LBB0_5
	shrq	$4, %rdx
	leaq	(%rdx,%rdx,4), %rax
	leaq	(%rdi,%rax,4), %rax
	imulq	$616, %r8, %r10
	movq	-608(%rbx,%r10), %rdx
	movq	-600(%rbx,%r10), %r8
	movq	-592(%rbx,%r10), %r9
	movq	-584(%rbx,%r10), %r10
	xorl	%r11d, %r11d
	jmp	.LBB0_33
	.p2align	4
.LBB0_38:
	decq	%r11
	cmpq	%r11, %rax
	je	.LBB0_39
.LBB0_33:
	movzwl	(%rsi,%r11,2), %r14d
	testq	%r14, %r14
	je	.LBB0_38
	imulq	$616, %r14, %r14
	cmpq	-608(%rbx,%r14), %rdx
	jne	.LBB0_38
	cmpq	-600(%rbx,%r14), %r8
	jne	.LBB0_38
	cmpq	-592(%rbx,%r14), %r9
	jne	.LBB0_38
	cmpq	-584(%rbx,%r14), %r10
	jne	.LBB0_38
.LBB0_5:
	xorl	%eax, %eax
	jmp	.LBB0_6
.LBB0_40:
	movb	$1, %al
.LBB0_6:
	addq	$10240, %rsp
	popq	%rbx
	popq	%r14
	popq	%r15
	retq
.Lfunc_end0:
	.size	"contact_form::in_form", .Lfunc_end0-"contact_form::in_form"

	.section	.rodata.cst16,"aM",@progbits,16
	.p2align	4, 0x0
.LCPI1_0:
	.long	1116352408
	.long	1899447441
	.long	3049323471
	.long	3921009573
.LCPI1_1:
	.long	961987163
	.long	1508970993
	.long	2453635748
	.long	2870763221
.LCPI1_2:
	.long	3624381080
	.long	310598401
	.long	607225278
	.long	1426881987
.LCPI1_3:
	.long	1925078388
	.long	2162078206
	.long	2614888103
	.long	3248222580
.LCPI1_4:
	.long	3835390401
	.long	4022224774
	.long	264347078
	.long	604807628
.LCPI1_5:
	.long	770255983
	.long	1249150122
	.long	1555081692
	.long	1996064986
.LCPI1_6:
	.long	2554220882
	.long	2821834349
	.long	2952996808
	.long	3210313671
.LCPI1_7:
	.long	3336571891
	.long	3584528711
	.long	113926993
	.long	338241895
.LCPI1_8:
	.long	666307205
	.long	773529912
	.long	1294757372
	.long	1396182291
.LCPI1_9:
	.long	1695183700
	.long	1986661051
	.long	2177026350
	.long	2456956037
.LCPI1_10:
	.long	2730485921
	.long	2820302411
	.long	3259730800
	.long	3345764771
.LCPI1_11:
	.long	3516065817
	.long	3600352804
	.long	4094571909
	.long	275423344
.LCPI1_12:
	.long	430227734
	.long	506948616
	.long	659060556
	.long	883997877
.LCPI1_13:
	.long	958139571
	.long	1322822218
	.long	1537002063
	.long	1747873779
.LCPI1_14:
	.long	1955562222
	.long	2024104815
	.long	2227730452
	.long	2361852424
.LCPI1_15:
	.long	2428436474
	.long	2756734187
	.long	3204031479
	.long	3329325298
.LCPI1_16:
	.long	1779033703
	.long	3144134277
	.long	1013904242
	.long	2773480762
.LCPI1_17:
	.long	1359893119
	.long	2600822924
	.long	528734635
	.long	1541459225
	.section	".text.sha256::hash","ax",@progbits
	.p2align	4
	.type	"sha256::hash",@function
"sha256::hash":
	pushq	%r15
	pushq	%r14
	pushq	%r12
	pushq	%rbx
	subq	$584, %rsp
	movq	%rdx, %r14
	movq	%rsi, %r12
	movq	%rdi, %rbx
	xorps	%xmm0, %xmm0
	movaps	%xmm0, 304(%rsp)
	movaps	%xmm0, 288(%rsp)
	movaps	%xmm0, 160(%rsp)
	movaps	%xmm0, 176(%rsp)
	movaps	%xmm0, 192(%rsp)
	movaps	%xmm0, 208(%rsp)
	movaps	%xmm0, 224(%rsp)
	movaps	%xmm0, 240(%rsp)
	movaps	%xmm0, 256(%rsp)
	movaps	%xmm0, 272(%rsp)
	movaps	.LCPI1_0(%rip), %xmm0
	movaps	%xmm0, 320(%rsp)
	movaps	.LCPI1_1(%rip), %xmm0
	movaps	%xmm0, 336(%rsp)
	movaps	.LCPI1_2(%rip), %xmm0
	movaps	%xmm0, 352(%rsp)
	movaps	.LCPI1_3(%rip), %xmm0
	movaps	%xmm0, 368(%rsp)
	movaps	.LCPI1_4(%rip), %xmm0
	movaps	%xmm0, 384(%rsp)
	movaps	.LCPI1_5(%rip), %xmm0
	movaps	%xmm0, 400(%rsp)
	movaps	.LCPI1_6(%rip), %xmm0
	movaps	%xmm0, 416(%rsp)
	movaps	.LCPI1_7(%rip), %xmm0
	movaps	%xmm0, 432(%rsp)
	movaps	.LCPI1_8(%rip), %xmm0
	movaps	%xmm0, 448(%rsp)
	movaps	.LCPI1_9(%rip), %xmm0
	movaps	%xmm0, 464(%rsp)
	movaps	.LCPI1_10(%rip), %xmm0
	movaps	%xmm0, 480(%rsp)
	movaps	.LCPI1_11(%rip), %xmm0
	movaps	%xmm0, 496(%rsp)
	movaps	.LCPI1_12(%rip), %xmm0
	movaps	%xmm0, 512(%rsp)
	movaps	.LCPI1_13(%rip), %xmm0
	movaps	%xmm0, 528(%rsp)
	movaps	.LCPI1_14(%rip), %xmm0
	movaps	%xmm0, 544(%rsp)
	movaps	.LCPI1_15(%rip), %xmm0
	movaps	%xmm0, 560(%rsp)
	movaps	.LCPI1_16(%rip), %xmm0
	movaps	%xmm0, (%rsp)
	movaps	.LCPI1_17(%rip), %xmm0
	movaps	%xmm0, 16(%rsp)
	movq	%rdx, %r8
	shrq	$6, %r8
	leaq	288(%rsp), %rdi
	movq	%rsp, %rsi
	leaq	320(%rsp), %rdx
	movq	%r12, %rcx
	callq	"sha256::absorb"
	movq	%r14, %r15
	xorps	%xmm0, %xmm0
	movaps	%xmm0, 144(%rsp)
	movaps	%xmm0, 128(%rsp)
	movaps	%xmm0, 112(%rsp)
	movaps	%xmm0, 96(%rsp)
	movaps	%xmm0, 80(%rsp)
	movaps	%xmm0, 64(%rsp)
	movaps	%xmm0, 48(%rsp)
	movaps	%xmm0, 32(%rsp)
	andq	$63, %r15
	je	.LBB1_2
	movq	%r14, %rax
	andq	$-64, %rax
	addq	%rax, %r12
	leaq	32(%rsp), %rdi
	movq	%r12, %rsi
	movq	%r15, %rdx
	callq	memcpy@PLT
.LBB1_2:
	movb	$-128, 32(%rsp,%r15)
	addq	$72, %r15
	movl	%r15d, %eax
	andl	$-64, %eax
	leal	(,%r14,8), %ecx
	movq	%r14, %rdx
	shrq	$53, %rdx
	movb	%dl, 24(%rsp,%rax)
	movq	%r14, %rdx
	shrq	$45, %rdx
	movb	%dl, 25(%rsp,%rax)
	movq	%r14, %rdx
	shrq	$37, %rdx
	movb	%dl, 26(%rsp,%rax)
	movq	%r14, %rdx
	shrq	$29, %rdx
	movb	%dl, 27(%rsp,%rax)
	movl	%r14d, %edx
	shrl	$21, %edx
	movb	%dl, 28(%rsp,%rax)
	movl	%r14d, %edx
	shrl	$13, %edx
	movb	%dl, 29(%rsp,%rax)
	shrl	$5, %r14d
	movb	%r14b, 30(%rsp,%rax)
	movb	%cl, 31(%rsp,%rax)
	movaps	32(%rsp), %xmm0
	movaps	48(%rsp), %xmm1
	movaps	64(%rsp), %xmm2
	movaps	80(%rsp), %xmm3
	movaps	%xmm0, 160(%rsp)
	movaps	%xmm1, 176(%rsp)
	movaps	%xmm2, 192(%rsp)
	movaps	%xmm3, 208(%rsp)
	movaps	96(%rsp), %xmm0
	movaps	%xmm0, 224(%rsp)
	movaps	112(%rsp), %xmm0
	movaps	%xmm0, 240(%rsp)
	movaps	128(%rsp), %xmm0
	movaps	%xmm0, 256(%rsp)
	movaps	144(%rsp), %xmm0
	movaps	%xmm0, 272(%rsp)
	shrl	$6, %r15d
	movq	%rsp, %rdi
	leaq	288(%rsp), %rsi
	leaq	320(%rsp), %rdx
	leaq	160(%rsp), %rcx
	movq	%r15, %r8
	callq	"sha256::absorb"
	movl	(%rsp), %eax
	movl	4(%rsp), %ecx
	movl	8(%rsp), %edx
	movl	%eax, %esi
	shrl	$24, %esi
	movl	12(%rsp), %r11d
	movl	16(%rsp), %r10d
	movl	20(%rsp), %r9d
	movl	24(%rsp), %r8d
	movl	28(%rsp), %edi
	movb	%sil, (%rbx)
	movl	%eax, %esi
	shrl	$16, %esi
	movb	%sil, 1(%rbx)
	movb	%ah, 2(%rbx)
	movb	%al, 3(%rbx)
	movl	%ecx, %eax
	shrl	$24, %eax
	movb	%al, 4(%rbx)
	movl	%ecx, %eax
	shrl	$16, %eax
	movb	%al, 5(%rbx)
	movb	%ch, 6(%rbx)
	movb	%cl, 7(%rbx)
	movl	%edx, %eax
	shrl	$24, %eax
	movb	%al, 8(%rbx)
	movl	%edx, %eax
	shrl	$16, %eax
	movb	%al, 9(%rbx)
	movb	%dh, 10(%rbx)
	movb	%dl, 11(%rbx)
	movl	%r11d, %ecx
	movl	%r11d, %eax
	shrl	$24, %eax
	movb	%al, 12(%rbx)
	movl	%r11d, %eax
	shrl	$16, %eax
	movb	%al, 13(%rbx)
	movb	%ch, 14(%rbx)
	movb	%cl, 15(%rbx)
	movl	%r10d, %ecx
	movl	%r10d, %eax
	shrl	$24, %eax
	movb	%al, 16(%rbx)
	movl	%r10d, %eax
	shrl	$16, %eax
	movb	%al, 17(%rbx)
	movb	%ch, 18(%rbx)
	movb	%cl, 19(%rbx)
	movl	%r9d, %ecx
	movl	%r9d, %eax
	shrl	$24, %eax
	movb	%al, 20(%rbx)
	movl	%r9d, %eax
	shrl	$16, %eax
	movb	%al, 21(%rbx)
	movb	%ch, 22(%rbx)
	movb	%cl, 23(%rbx)
	movl	%r8d, %ecx
	movl	%r8d, %eax
	shrl	$24, %eax
	movb	%al, 24(%rbx)
	movl	%r8d, %eax
	shrl	$16, %eax
	movb	%al, 25(%rbx)
	movb	%ch, 26(%rbx)
	movb	%cl, 27(%rbx)
	movl	%edi, %ecx
	movl	%edi, %eax
	shrl	$24, %eax
	movb	%al, 28(%rbx)
	movl	%edi, %eax
	shrl	$16, %eax
	movb	%al, 29(%rbx)
	movb	%ch, 30(%rbx)
	movb	%cl, 31(%rbx)
	addq	$584, %rsp
	popq	%rbx
	popq	%r12
	popq	%r14
	popq	%r15
	retq
.Lfunc_end1:
	.size	"sha256::hash", .Lfunc_end1-"sha256::hash"

	.section	".text.sha256::absorb","ax",@progbits
	.p2align	4
	.type	"sha256::absorb",@function
"sha256::absorb":
	pushq	%rbp
	pushq	%r15
	pushq	%r14
	pushq	%r13
	pushq	%r12
	pushq	%rbx
	subq	$160, %rsp
	movq	%rcx, 136(%rsp)
	movq	%rdi, 128(%rsp)
	movl	(%rsi), %r13d
	movl	4(%rsi), %r11d
	movl	8(%rsi), %ebx
	movl	12(%rsi), %r14d
	movl	16(%rsi), %r12d
	movl	20(%rsi), %r9d
	movl	24(%rsi), %r10d
	movl	28(%rsi), %ebp
	movq	%r8, 144(%rsp)
	testq	%r8, %r8
	je	.LBB2_1
	movl	192(%rdx), %eax
	movl	%eax, 48(%rsp)
	movl	196(%rdx), %eax
	movl	%eax, 44(%rsp)
	movl	200(%rdx), %eax
	movl	%eax, 40(%rsp)
	movl	204(%rdx), %eax
	movl	%eax, 36(%rsp)
	movl	208(%rdx), %eax
	movl	%eax, 32(%rsp)
	movl	212(%rdx), %eax
	movl	%eax, 28(%rsp)
	movl	216(%rdx), %eax
	movl	%eax, 24(%rsp)
	movl	220(%rdx), %eax
	movl	%eax, 20(%rsp)
	movl	224(%rdx), %eax
	movl	%eax, 16(%rsp)
	movl	228(%rdx), %eax
	movl	%eax, 12(%rsp)
	movl	232(%rdx), %eax
	movl	%eax, 8(%rsp)
	movl	236(%rdx), %eax
	movl	%eax, 4(%rsp)
	movl	240(%rdx), %eax
	movl	%eax, (%rsp)
	movl	244(%rdx), %eax
	movl	%eax, -4(%rsp)
	movl	248(%rdx), %eax
	movl	%eax, -8(%rsp)
	movq	%rdx, -40(%rsp)
	movl	252(%rdx), %eax
	movl	%eax, -12(%rsp)
	xorl	%ecx, %ecx
	.p2align	4
.LBB2_3:
	movq	%rcx, 152(%rsp)
	movq	%rcx, %rax
	shlq	$6, %rax
	movq	136(%rsp), %rcx
	movl	(%rcx,%rax), %edi
	movl	4(%rcx,%rax), %edx
	bswapl	%edi
	movl	%edi, -104(%rsp)
	bswapl	%edx
	movl	%edx, -64(%rsp)
	movl	8(%rcx,%rax), %edx
	bswapl	%edx
	movl	%edx, -92(%rsp)
	movl	12(%rcx,%rax), %edx
	bswapl	%edx
	movl	%edx, -88(%rsp)
	movl	16(%rcx,%rax), %edx
	bswapl	%edx
	movl	%edx, -84(%rsp)
	movl	20(%rcx,%rax), %edx
	bswapl	%edx
	movl	%edx, -80(%rsp)
	movl	24(%rcx,%rax), %edx
	bswapl	%edx
	movl	%edx, -116(%rsp)
	movl	28(%rcx,%rax), %edx
	bswapl	%edx
	movl	%edx, -100(%rsp)
	movl	32(%rcx,%rax), %edx
	bswapl	%edx
	movl	%edx, -72(%rsp)
	movl	36(%rcx,%rax), %edx
	bswapl	%edx
	movl	%edx, -68(%rsp)
	movl	40(%rcx,%rax), %edx
	bswapl	%edx
	movl	%edx, -76(%rsp)
	movl	44(%rcx,%rax), %edx
	bswapl	%edx
	movl	%edx, -120(%rsp)
	movl	48(%rcx,%rax), %edx
	bswapl	%edx
	movl	%edx, -112(%rsp)
	movl	52(%rcx,%rax), %edi
	bswapl	%edi
	movl	%edi, -124(%rsp)
	movl	56(%rcx,%rax), %edx
	bswapl	%edx
	movl	%edx, -128(%rsp)
	movl	60(%rcx,%rax), %eax
	bswapl	%eax
	movl	%eax, -108(%rsp)
	movl	$60, %r15d
	movl	%ebp, 60(%rsp)
	movl	%r10d, 64(%rsp)
	movl	%r9d, 68(%rsp)
	movl	%r9d, %r8d
	movl	%r12d, 56(%rsp)
	movl	%r14d, 72(%rsp)
	movl	%r14d, %r9d
	movl	%ebx, 76(%rsp)
	movl	%ebx, %edi
	movl	%r11d, 80(%rsp)
	movl	%r11d, %eax
	movl	%r13d, 52(%rsp)
	movl	%r13d, %esi
	.p2align	4
.LBB2_4:
	movl	%r12d, %edx
	roll	$26, %edx
	movl	%r12d, %r11d
	roll	$21, %r11d
	xorl	%edx, %r11d
	movl	%r12d, %edx
	roll	$7, %edx
	xorl	%r11d, %edx
	movl	%r12d, %r11d
	andl	%r8d, %r11d
	addl	%ebp, %r11d
	movl	%r12d, %ebx
	notl	%ebx
	andl	%r10d, %ebx
	addl	%r11d, %ebx
	movl	-104(%rsp), %ecx
	addl	%ecx, %ebx
	addl	%edx, %ebx
	movl	%ebx, %r13d
	movl	%esi, %edx
	roll	$30, %edx
	movl	%esi, %r11d
	roll	$19, %r11d
	xorl	%edx, %r11d
	movl	%esi, %edx
	roll	$10, %edx
	xorl	%r11d, %edx
	movl	%eax, %r11d
	xorl	%edi, %r11d
	andl	%esi, %r11d
	movl	%eax, %ebx
	andl	%edi, %ebx
	xorl	%r11d, %ebx
	movq	%r15, %r14
	movl	%r12d, -96(%rsp)
	movq	-40(%rsp), %r11
	addl	-60(%r11,%r15), %r13d
	addl	%edx, %ebx
	movl	-128(%rsp), %ebp
	movl	%ebp, %edx
	roll	$15, %edx
	addl	%r13d, %ebx
	movl	%ebp, %r11d
	roll	$13, %r11d
	addl	%r9d, %r13d
	xorl	%edx, %r11d
	shrl	$10, %ebp
	xorl	%r11d, %ebp
	movl	-64(%rsp), %r15d
	movl	%r15d, %r9d
	roll	$25, %r9d
	movl	%r15d, %r11d
	roll	$14, %r11d
	xorl	%r9d, %r11d
	movl	%r15d, %r9d
	shrl	$3, %r9d
	xorl	%r11d, %r9d
	addl	-68(%rsp), %ecx
	addl	%ebp, %ecx
	movl	%r13d, %edx
	roll	$26, %edx
	addl	%r9d, %ecx
	movl	%ecx, -104(%rsp)
	movl	%r13d, %r9d
	roll	$21, %r9d
	xorl	%edx, %r9d
	movl	%r13d, %edx
	roll	$7, %edx
	xorl	%r9d, %edx
	movl	%r13d, %r9d
	movl	%r13d, %ecx
	andl	%r12d, %r9d
	addl	%r15d, %r10d
	movq	-40(%rsp), %r13
	addl	-56(%r13,%r14), %r10d
	movq	%r14, %r12
	addl	%r9d, %r10d
	movl	%ecx, %r9d
	movl	%ecx, %ebp
	movl	%ecx, -52(%rsp)
	notl	%r9d
	andl	%r8d, %r9d
	addl	%r9d, %r10d
	addl	%edx, %r10d
	movl	%ebx, %edx
	roll	$30, %edx
	movl	%ebx, %r9d
	roll	$19, %r9d
	xorl	%edx, %r9d
	movl	%ebx, %edx
	roll	$10, %edx
	xorl	%r9d, %edx
	movl	%esi, %r11d
	xorl	%eax, %r11d
	andl	%ebx, %r11d
	movl	%esi, %r9d
	andl	%eax, %r9d
	xorl	%r11d, %r9d
	addl	%edx, %r9d
	addl	%r10d, %r9d
	addl	%edi, %r10d
	movl	-108(%rsp), %r14d
	movl	%r14d, %edx
	roll	$15, %edx
	movl	%r14d, %edi
	roll	$13, %edi
	xorl	%edx, %edi
	shrl	$10, %r14d
	movl	-92(%rsp), %ecx
	movl	%ecx, %r11d
	roll	$25, %r11d
	xorl	%edi, %r14d
	movl	%ecx, %edi
	roll	$14, %edi
	xorl	%r11d, %edi
	movl	%ecx, %r11d
	shrl	$3, %r11d
	xorl	%edi, %r11d
	addl	-76(%rsp), %r15d
	movl	%r10d, %edi
	roll	$26, %edi
	addl	%r14d, %r15d
	movl	%r10d, %edx
	roll	$21, %edx
	addl	%r11d, %r15d
	movl	%r10d, %r11d
	roll	$7, %r11d
	xorl	%edi, %edx
	xorl	%edx, %r11d
	movl	%r10d, %edx
	andl	%ebp, %edx
	addl	%ecx, %r8d
	addl	-52(%r13,%r12), %r8d
	movq	%r12, %r13
	movq	%r12, -24(%rsp)
	addl	%edx, %r8d
	movl	%r10d, %edx
	notl	%edx
	movl	-96(%rsp), %r12d
	andl	%r12d, %edx
	addl	%edx, %r8d
	addl	%r11d, %r8d
	movl	%r9d, %edx
	roll	$30, %edx
	movl	%r9d, %edi
	roll	$19, %edi
	xorl	%edx, %edi
	movl	%r9d, %r11d
	roll	$10, %r11d
	xorl	%edi, %r11d
	movl	%ebx, %edi
	xorl	%esi, %edi
	andl	%r9d, %edi
	movl	%ebx, %r14d
	andl	%esi, %r14d
	xorl	%edi, %r14d
	addl	%r11d, %r14d
	addl	%r8d, %r14d
	addl	%eax, %r8d
	movl	-104(%rsp), %edx
	movl	%edx, %eax
	roll	$15, %eax
	movl	%edx, %edi
	movl	%edx, %r11d
	roll	$13, %edi
	xorl	%eax, %edi
	movl	-88(%rsp), %edx
	movl	%edx, %eax
	roll	$25, %eax
	shrl	$10, %r11d
	movl	%edx, %ebp
	roll	$14, %ebp
	xorl	%edi, %r11d
	xorl	%eax, %ebp
	movl	%edx, %eax
	shrl	$3, %eax
	xorl	%ebp, %eax
	addl	-120(%rsp), %ecx
	addl	%eax, %ecx
	addl	%r11d, %ecx
	movl	%ecx, -92(%rsp)
	movl	%r8d, %eax
	roll	$26, %eax
	movl	%r8d, %edi
	roll	$21, %edi
	xorl	%eax, %edi
	movl	%r8d, %eax
	roll	$7, %eax
	xorl	%edi, %eax
	movl	%r8d, %edi
	andl	%r10d, %edi
	addl	%edx, %r12d
	movq	-40(%rsp), %r11
	addl	-48(%r11,%r13), %r12d
	addl	%edi, %r12d
	movl	%r8d, %edi
	notl	%edi
	movl	-52(%rsp), %r13d
	andl	%r13d, %edi
	addl	%edi, %r12d
	movl	%r14d, %edi
	roll	$30, %edi
	addl	%eax, %r12d
	movl	%r14d, %eax
	roll	$19, %eax
	xorl	%edi, %eax
	movl	%r14d, %edi
	roll	$10, %edi
	xorl	%eax, %edi
	movl	%r9d, %eax
	xorl	%ebx, %eax
	andl	%r14d, %eax
	movl	%r9d, %ebp
	andl	%ebx, %ebp
	xorl	%eax, %ebp
	addl	%edi, %ebp
	addl	%r12d, %ebp
	movl	%r15d, -64(%rsp)
	movl	%r15d, %eax
	roll	$15, %eax
	addl	%esi, %r12d
	movl	%r15d, %esi
	roll	$13, %esi
	xorl	%eax, %esi
	shrl	$10, %r15d
	xorl	%esi, %r15d
	movl	-84(%rsp), %ecx
	movl	%ecx, %esi
	roll	$25, %esi
	movl	%ecx, %edi
	roll	$14, %edi
	xorl	%esi, %edi
	movl	%ecx, %esi
	shrl	$3, %esi
	xorl	%edi, %esi
	addl	-112(%rsp), %edx
	addl	%esi, %edx
	addl	%r15d, %edx
	movl	%edx, -88(%rsp)
	movl	%r12d, %eax
	roll	$26, %eax
	movl	%r12d, %esi
	roll	$21, %esi
	xorl	%eax, %esi
	movl	%r12d, %eax
	movl	%r12d, -96(%rsp)
	roll	$7, %eax
	xorl	%esi, %eax
	addl	%ecx, %r13d
	movq	-24(%rsp), %r15
	addl	-44(%r11,%r15), %r13d
	movl	%r12d, %esi
	andl	%r8d, %esi
	addl	%esi, %r13d
	movl	%r12d, %esi
	notl	%esi
	andl	%r10d, %esi
	movl	%ebp, %r12d
	movl	%ebp, %edi
	roll	$30, %edi
	addl	%esi, %r13d
	movl	%ebp, %esi
	roll	$19, %esi
	addl	%eax, %r13d
	movl	%ebp, %eax
	roll	$10, %eax
	xorl	%edi, %esi
	xorl	%esi, %eax
	movl	%r14d, %esi
	xorl	%r9d, %esi
	andl	%ebp, %esi
	movl	%r14d, %r11d
	andl	%r9d, %r11d
	xorl	%esi, %r11d
	addl	%eax, %r11d
	movl	-92(%rsp), %ebp
	movl	%ebp, %eax
	roll	$15, %eax
	addl	%r13d, %r11d
	movl	%ebp, %esi
	roll	$13, %esi
	addl	%ebx, %r13d
	xorl	%eax, %esi
	movl	%ebp, %eax
	shrl	$10, %eax
	xorl	%esi, %eax
	movl	-80(%rsp), %edx
	movl	%edx, %esi
	roll	$25, %esi
	movl	%edx, %edi
	roll	$14, %edi
	xorl	%esi, %edi
	movl	%edx, %esi
	shrl	$3, %esi
	xorl	%edi, %esi
	addl	-124(%rsp), %ecx
	addl	%esi, %ecx
	movl	%r13d, %esi
	roll	$26, %esi
	addl	%eax, %ecx
	movl	%ecx, -84(%rsp)
	movl	%r13d, %eax
	roll	$21, %eax
	xorl	%esi, %eax
	movl	%r13d, %esi
	roll	$7, %esi
	xorl	%eax, %esi
	movq	%r15, %rbx
	movq	-40(%rsp), %rcx
	movl	-40(%rcx,%r15), %edi
	addl	%edx, %edi
	addl	%r10d, %edi
	movl	%r13d, %eax
	movl	-96(%rsp), %ebp
	andl	%ebp, %eax
	addl	%eax, %edi
	movl	%r13d, %eax
	movl	%r13d, -52(%rsp)
	notl	%eax
	andl	%r8d, %eax
	addl	%eax, %edi
	addl	%esi, %edi
	movl	%edi, %r10d
	movl	%r11d, -48(%rsp)
	movl	%r11d, %eax
	roll	$30, %eax
	movl	%r11d, %esi
	roll	$19, %esi
	xorl	%eax, %esi
	movl	%r11d, %eax
	roll	$10, %eax
	xorl	%esi, %eax
	movl	%r12d, %esi
	xorl	%r14d, %esi
	andl	%r11d, %esi
	movl	%r12d, %edi
	andl	%r14d, %edi
	xorl	%esi, %edi
	addl	%eax, %edi
	addl	%r10d, %edi
	movl	%edi, %r11d
	addl	%r9d, %r10d
	movl	-88(%rsp), %r15d
	movl	%r15d, %eax
	roll	$15, %eax
	movl	%r15d, %esi
	roll	$13, %esi
	xorl	%eax, %esi
	movl	%r15d, %eax
	shrl	$10, %eax
	movl	-116(%rsp), %r9d
	movl	%r9d, %edi
	roll	$25, %edi
	xorl	%esi, %eax
	movl	%r9d, %esi
	roll	$14, %esi
	xorl	%edi, %esi
	movl	%r9d, %edi
	movl	%r9d, -116(%rsp)
	shrl	$3, %edi
	xorl	%esi, %edi
	addl	-128(%rsp), %edx
	movl	%r10d, %esi
	roll	$26, %esi
	addl	%edi, %edx
	movl	%r10d, %edi
	roll	$21, %edi
	addl	%eax, %edx
	movl	%edx, -80(%rsp)
	movl	%r10d, %eax
	roll	$7, %eax
	xorl	%esi, %edi
	xorl	%edi, %eax
	movl	-36(%rcx,%rbx), %edx
	addl	%r9d, %edx
	addl	%r8d, %edx
	movl	%r10d, 120(%rsp)
	movl	%r10d, %esi
	andl	%r13d, %esi
	addl	%esi, %edx
	notl	%r10d
	andl	%ebp, %r10d
	addl	%r10d, %edx
	addl	%eax, %edx
	movl	%r11d, -44(%rsp)
	movl	%r11d, %eax
	roll	$30, %eax
	movl	%r11d, %esi
	roll	$19, %esi
	xorl	%eax, %esi
	movl	%r11d, %eax
	roll	$10, %eax
	xorl	%esi, %eax
	movl	-48(%rsp), %ebp
	movl	%ebp, %esi
	movl	%r12d, 124(%rsp)
	xorl	%r12d, %esi
	andl	%r11d, %esi
	andl	%r12d, %ebp
	movl	-84(%rsp), %r11d
	movl	%r11d, %r8d
	roll	$15, %r8d
	xorl	%esi, %ebp
	movl	%r11d, %edi
	roll	$13, %edi
	addl	%eax, %ebp
	movl	-100(%rsp), %eax
	movl	%eax, %esi
	roll	$25, %esi
	addl	%edx, %ebp
	movl	%ebp, -60(%rsp)
	movl	%eax, %ecx
	movl	%eax, %ebp
	movl	%eax, -100(%rsp)
	roll	$14, %ecx
	movl	%ecx, %r9d
	addl	%r14d, %edx
	movl	%edx, -28(%rsp)
	movl	-72(%rsp), %ecx
	movl	%ecx, %ebx
	roll	$25, %ebx
	xorl	%r8d, %edi
	roll	$14, %ecx
	movl	%ecx, %r12d
	movl	-68(%rsp), %eax
	movl	%eax, %r10d
	roll	$25, %r10d
	shrl	$10, %r11d
	roll	$14, %eax
	xorl	%edi, %r11d
	movl	%r11d, 116(%rsp)
	movl	-76(%rsp), %ecx
	movl	%ecx, %r8d
	roll	$25, %r8d
	xorl	%esi, %r9d
	movl	%r9d, 112(%rsp)
	movl	%ecx, %r9d
	roll	$14, %r9d
	movl	-120(%rsp), %r13d
	movl	%r13d, %esi
	roll	$25, %esi
	movq	-24(%rsp), %rcx
	movq	-40(%rsp), %rdx
	movl	-32(%rdx,%rcx), %edx
	addl	%ebp, %edx
	roll	$14, %r13d
	addl	-96(%rsp), %edx
	movl	%edx, -56(%rsp)
	movl	-112(%rsp), %r15d
	movl	%r15d, %edx
	roll	$25, %edx
	xorl	%ebx, %r12d
	movl	%r12d, 104(%rsp)
	movl	%r15d, %r11d
	roll	$14, %r11d
	xorl	%r10d, %eax
	movl	%eax, 100(%rsp)
	movl	-124(%rsp), %ebp
	movl	%ebp, %edi
	roll	$25, %edi
	xorl	%r8d, %r9d
	movl	%ebp, %eax
	roll	$14, %eax
	xorl	%esi, %r13d
	movl	-128(%rsp), %ebx
	movl	%ebx, %r8d
	roll	$25, %r8d
	xorl	%edx, %r11d
	movl	%ebx, %esi
	roll	$14, %esi
	xorl	%edi, %eax
	movl	-108(%rsp), %r10d
	movl	%r10d, %ecx
	roll	$25, %ecx
	xorl	%r8d, %esi
	movl	%r10d, %edi
	roll	$14, %edi
	xorl	%ecx, %edi
	movl	-104(%rsp), %r8d
	movl	%r8d, %ecx
	roll	$25, %ecx
	movl	%r8d, %edx
	roll	$14, %edx
	xorl	%ecx, %edx
	shrl	$3, %r8d
	xorl	%edx, %r8d
	movl	-116(%rsp), %r12d
	addl	%r10d, %r12d
	movq	-24(%rsp), %rcx
	movq	-40(%rsp), %rdx
	movl	(%rdx,%rcx), %r14d
	addl	%r10d, %r14d
	movl	%r14d, -96(%rsp)
	addl	%r10d, %r8d
	movl	%r8d, 108(%rsp)
	shrl	$3, %r10d
	xorl	%edi, %r10d
	movl	-4(%rdx,%rcx), %r8d
	addl	%ebx, %r8d
	movl	%r8d, 92(%rsp)
	addl	%ebx, %r10d
	movl	%r10d, -108(%rsp)
	shrl	$3, %ebx
	xorl	%esi, %ebx
	movl	-8(%rdx,%rcx), %r10d
	movl	%ebp, %esi
	addl	%ebp, %r10d
	addl	%ebp, %ebx
	movl	%ebx, 96(%rsp)
	shrl	$3, %esi
	xorl	%eax, %esi
	movl	-12(%rdx,%rcx), %eax
	addl	%r15d, %eax
	movl	%eax, 84(%rsp)
	addl	%r15d, %esi
	movl	%esi, 88(%rsp)
	movl	%r15d, %edi
	shrl	$3, %edi
	xorl	%r11d, %edi
	movl	-16(%rdx,%rcx), %eax
	movl	-120(%rsp), %r15d
	addl	%r15d, %eax
	movl	%eax, -124(%rsp)
	addl	%r15d, %edi
	movl	%edi, -112(%rsp)
	shrl	$3, %r15d
	xorl	%r13d, %r15d
	movl	-20(%rdx,%rcx), %eax
	movl	-76(%rsp), %r11d
	addl	%r11d, %eax
	movl	%eax, -128(%rsp)
	addl	%r11d, %r15d
	movl	%r15d, -120(%rsp)
	shrl	$3, %r11d
	xorl	%r9d, %r11d
	movl	-24(%rdx,%rcx), %r14d
	movl	-68(%rsp), %esi
	addl	%esi, %r14d
	addl	%esi, %r11d
	shrl	$3, %esi
	xorl	100(%rsp), %esi
	movl	-28(%rdx,%rcx), %ebp
	movl	-72(%rsp), %edx
	addl	%edx, %ebp
	addl	%edx, %esi
	shrl	$3, %edx
	xorl	104(%rsp), %edx
	movl	-100(%rsp), %ebx
	addl	%ebx, %edx
	shrl	$3, %ebx
	xorl	112(%rsp), %ebx
	movl	%r12d, %ecx
	addl	%ebx, %ecx
	movl	-28(%rsp), %eax
	movl	%eax, %ebx
	roll	$26, %ebx
	addl	116(%rsp), %ecx
	movl	%ecx, -116(%rsp)
	movl	%eax, %ecx
	roll	$21, %ecx
	xorl	%ebx, %ecx
	movl	%eax, %ebx
	roll	$7, %ebx
	xorl	%ecx, %ebx
	movl	%eax, %ecx
	movl	120(%rsp), %r13d
	andl	%r13d, %ecx
	movl	-56(%rsp), %r9d
	addl	%ecx, %r9d
	movl	%eax, %ecx
	notl	%ecx
	movl	-52(%rsp), %r15d
	andl	%r15d, %ecx
	addl	%ecx, %r9d
	addl	%ebx, %r9d
	movl	-60(%rsp), %edi
	movl	%edi, %ecx
	roll	$30, %ecx
	movl	%edi, %ebx
	roll	$19, %ebx
	xorl	%ecx, %ebx
	movl	%edi, %ecx
	roll	$10, %ecx
	xorl	%ebx, %ecx
	movl	-44(%rsp), %ebx
	movl	%ebx, %eax
	movl	-48(%rsp), %r12d
	xorl	%r12d, %eax
	andl	%edi, %eax
	andl	%r12d, %ebx
	xorl	%eax, %ebx
	addl	%ecx, %ebx
	addl	%r9d, %ebx
	addl	124(%rsp), %r9d
	movl	-80(%rsp), %r8d
	movl	%r8d, %eax
	roll	$15, %eax
	movl	%r8d, %ecx
	roll	$13, %ecx
	xorl	%eax, %ecx
	shrl	$10, %r8d
	xorl	%ecx, %r8d
	addl	-104(%rsp), %edx
	movl	%edx, %r12d
	movl	%r9d, %ecx
	roll	$26, %ecx
	addl	%r8d, %r12d
	movl	%r9d, %eax
	roll	$21, %eax
	xorl	%ecx, %eax
	movl	%r9d, %ecx
	roll	$7, %ecx
	xorl	%eax, %ecx
	addl	%r15d, %ebp
	movl	%r9d, %eax
	movl	-28(%rsp), %r8d
	andl	%r8d, %eax
	addl	%eax, %ebp
	movl	%r9d, %eax
	movl	%r9d, -56(%rsp)
	notl	%eax
	movl	%r13d, %edi
	andl	%r13d, %eax
	addl	%eax, %ebp
	movl	%ebx, %eax
	roll	$30, %eax
	addl	%ecx, %ebp
	movl	%ebx, %ecx
	roll	$19, %ecx
	xorl	%eax, %ecx
	movl	%ebx, %eax
	roll	$10, %eax
	xorl	%ecx, %eax
	movl	-60(%rsp), %r13d
	movl	%r13d, %ecx
	movl	-44(%rsp), %r15d
	xorl	%r15d, %ecx
	andl	%ebx, %ecx
	andl	%r15d, %r13d
	xorl	%ecx, %r13d
	addl	%eax, %r13d
	addl	%ebp, %r13d
	movl	-116(%rsp), %edx
	movl	%edx, %eax
	roll	$15, %eax
	addl	-48(%rsp), %ebp
	movl	%edx, %ecx
	roll	$13, %ecx
	xorl	%eax, %ecx
	movl	%edx, %eax
	shrl	$10, %eax
	xorl	%ecx, %eax
	addl	-64(%rsp), %esi
	movl	%ebp, %ecx
	roll	$26, %ecx
	movl	%esi, %r15d
	movl	%ebp, %edx
	roll	$21, %edx
	addl	%eax, %r15d
	movl	%ebp, %eax
	roll	$7, %eax
	xorl	%ecx, %edx
	xorl	%edx, %eax
	addl	%edi, %r14d
	movl	%ebp, %ecx
	andl	%r9d, %ecx
	addl	%ecx, %r14d
	movl	%ebp, %ecx
	notl	%ecx
	andl	%r8d, %ecx
	movl	%r13d, %edx
	roll	$30, %edx
	addl	%ecx, %r14d
	movl	%r13d, %ecx
	roll	$19, %ecx
	addl	%eax, %r14d
	movl	%r13d, %eax
	roll	$10, %eax
	xorl	%edx, %ecx
	xorl	%ecx, %eax
	movl	%ebx, %ecx
	movl	-60(%rsp), %edx
	xorl	%edx, %ecx
	andl	%r13d, %ecx
	movl	%ebx, %esi
	andl	%edx, %esi
	xorl	%ecx, %esi
	addl	%eax, %esi
	movl	%r12d, -100(%rsp)
	movl	%r12d, %eax
	roll	$15, %eax
	addl	%r14d, %esi
	movl	%r12d, %ecx
	roll	$13, %ecx
	addl	-44(%rsp), %r14d
	xorl	%eax, %ecx
	shrl	$10, %r12d
	xorl	%ecx, %r12d
	addl	-92(%rsp), %r11d
	movl	%r11d, %edx
	addl	%r12d, %edx
	movl	%r14d, %eax
	roll	$26, %eax
	movl	%r14d, %ecx
	roll	$21, %ecx
	xorl	%eax, %ecx
	movl	%r14d, %eax
	roll	$7, %eax
	xorl	%ecx, %eax
	movl	-128(%rsp), %edi
	addl	%r8d, %edi
	movl	%r14d, %ecx
	andl	%ebp, %ecx
	addl	%ecx, %edi
	movl	%r14d, %ecx
	notl	%ecx
	movl	-56(%rsp), %r8d
	andl	%r8d, %ecx
	addl	%ecx, %edi
	addl	%eax, %edi
	movl	%esi, %eax
	roll	$30, %eax
	movl	%esi, %ecx
	roll	$19, %ecx
	xorl	%eax, %ecx
	movl	%esi, %eax
	roll	$10, %eax
	xorl	%ecx, %eax
	movl	%r13d, %ecx
	xorl	%ebx, %ecx
	andl	%esi, %ecx
	movl	%r13d, %r11d
	andl	%ebx, %r11d
	xorl	%ecx, %r11d
	addl	%eax, %r11d
	addl	%edi, %r11d
	addl	-60(%rsp), %edi
	movl	%r15d, -72(%rsp)
	movl	%r15d, %eax
	roll	$15, %eax
	movl	%r15d, %ecx
	roll	$13, %ecx
	xorl	%eax, %ecx
	movl	%r15d, %eax
	shrl	$10, %eax
	xorl	%ecx, %eax
	movl	-120(%rsp), %r12d
	addl	-88(%rsp), %r12d
	addl	%eax, %r12d
	movl	%edi, %r9d
	movl	%edi, %eax
	roll	$26, %eax
	movl	%edi, %ecx
	roll	$21, %ecx
	xorl	%eax, %ecx
	movl	%edi, %eax
	roll	$7, %eax
	xorl	%ecx, %eax
	movl	-124(%rsp), %edi
	addl	%r8d, %edi
	movl	%r9d, %ecx
	andl	%r14d, %ecx
	addl	%ecx, %edi
	movl	%r9d, %ecx
	movl	%r9d, -128(%rsp)
	notl	%ecx
	andl	%ebp, %ecx
	addl	%ecx, %edi
	addl	%eax, %edi
	movl	%r11d, %eax
	roll	$30, %eax
	movl	%r11d, %ecx
	roll	$19, %ecx
	xorl	%eax, %ecx
	movl	%r11d, %eax
	roll	$10, %eax
	xorl	%ecx, %eax
	movl	%esi, %ecx
	xorl	%r13d, %ecx
	andl	%r11d, %ecx
	movl	%esi, %r15d
	andl	%r13d, %r15d
	xorl	%ecx, %r15d
	addl	%eax, %r15d
	addl	%edi, %r15d
	addl	%ebx, %edi
	movl	%edi, %r8d
	movl	%edi, -124(%rsp)
	movl	%edx, %eax
	roll	$15, %eax
	movl	%edx, %ecx
	roll	$13, %ecx
	xorl	%eax, %ecx
	movl	%edx, -68(%rsp)
	movl	%edx, %eax
	shrl	$10, %eax
	xorl	%ecx, %eax
	movl	-112(%rsp), %edi
	addl	-84(%rsp), %edi
	movl	%r8d, %ecx
	roll	$26, %ecx
	addl	%eax, %edi
	movl	%r8d, %eax
	roll	$21, %eax
	xorl	%ecx, %eax
	movl	%r8d, %ecx
	roll	$7, %ecx
	xorl	%eax, %ecx
	movl	84(%rsp), %ebx
	addl	%ebp, %ebx
	movl	%r8d, %eax
	andl	%r9d, %eax
	addl	%eax, %ebx
	movl	%r8d, %eax
	notl	%eax
	andl	%r14d, %eax
	addl	%eax, %ebx
	movl	%r15d, %eax
	roll	$30, %eax
	addl	%ecx, %ebx
	movl	%r15d, %ecx
	roll	$19, %ecx
	xorl	%eax, %ecx
	movl	%r15d, %eax
	roll	$10, %eax
	xorl	%ecx, %eax
	movl	%r11d, %ecx
	xorl	%esi, %ecx
	andl	%r15d, %ecx
	movl	%r11d, %r9d
	andl	%esi, %r9d
	xorl	%ecx, %r9d
	addl	%eax, %r9d
	addl	%ebx, %r9d
	movl	%r12d, %eax
	roll	$15, %eax
	addl	%r13d, %ebx
	movl	%r12d, %ecx
	roll	$13, %ecx
	xorl	%eax, %ecx
	movl	%r12d, -76(%rsp)
	movl	%r12d, %eax
	movl	-96(%rsp), %r12d
	shrl	$10, %eax
	xorl	%ecx, %eax
	movl	88(%rsp), %ebp
	addl	-80(%rsp), %ebp
	movl	92(%rsp), %r8d
	movl	%ebx, %ecx
	roll	$26, %ecx
	movl	%ebx, %edx
	roll	$21, %edx
	addl	%eax, %ebp
	movl	%ebx, %eax
	movl	%ebx, %r13d
	roll	$7, %eax
	xorl	%ecx, %edx
	xorl	%edx, %eax
	addl	%r14d, %r10d
	movl	%edi, %ebx
	movl	%r13d, %ecx
	andl	-124(%rsp), %ecx
	addl	%ecx, %r10d
	movl	%r13d, %ecx
	notl	%ecx
	movl	-128(%rsp), %r14d
	andl	%r14d, %ecx
	movl	%r9d, %edx
	roll	$30, %edx
	addl	%ecx, %r10d
	movl	%r9d, %ecx
	roll	$19, %ecx
	addl	%eax, %r10d
	movl	%r9d, %eax
	roll	$10, %eax
	xorl	%edx, %ecx
	xorl	%ecx, %eax
	movl	%r15d, %ecx
	xorl	%r11d, %ecx
	andl	%r9d, %ecx
	movl	%r15d, %edi
	andl	%r11d, %edi
	xorl	%ecx, %edi
	addl	%eax, %edi
	movl	%ebx, %eax
	roll	$15, %eax
	addl	%r10d, %edi
	movl	%ebx, %ecx
	roll	$13, %ecx
	addl	%esi, %r10d
	xorl	%eax, %ecx
	movl	%ebx, -120(%rsp)
	movl	%ebx, %eax
	shrl	$10, %eax
	xorl	%ecx, %eax
	movl	96(%rsp), %ebx
	addl	-116(%rsp), %ebx
	addl	%eax, %ebx
	movl	%r10d, %eax
	roll	$26, %eax
	movl	%r10d, %ecx
	roll	$21, %ecx
	xorl	%eax, %ecx
	movl	%r10d, %eax
	roll	$7, %eax
	xorl	%ecx, %eax
	addl	%r14d, %r8d
	movl	%r10d, %ecx
	andl	%r13d, %ecx
	addl	%ecx, %r8d
	movl	%r10d, %ecx
	notl	%ecx
	movl	-124(%rsp), %esi
	andl	%esi, %ecx
	addl	%ecx, %r8d
	addl	%eax, %r8d
	movl	%edi, %eax
	roll	$30, %eax
	movl	%edi, %ecx
	roll	$19, %ecx
	xorl	%eax, %ecx
	movl	%edi, %edx
	roll	$10, %edx
	xorl	%ecx, %edx
	movl	%r9d, %ecx
	xorl	%r15d, %ecx
	andl	%edi, %ecx
	movl	%r9d, %eax
	andl	%r15d, %eax
	xorl	%ecx, %eax
	addl	%edx, %eax
	addl	%r8d, %eax
	addl	%r11d, %r8d
	movl	%ebp, %ecx
	roll	$15, %ecx
	movl	%ebp, %edx
	roll	$13, %edx
	xorl	%ecx, %edx
	movl	%ebp, -112(%rsp)
	movl	%ebp, %ecx
	shrl	$10, %ecx
	xorl	%edx, %ecx
	movl	-108(%rsp), %edx
	addl	-100(%rsp), %edx
	addl	%ecx, %edx
	movl	%edx, -128(%rsp)
	movl	%r8d, %ecx
	roll	$26, %ecx
	movl	%r8d, %edx
	roll	$21, %edx
	xorl	%ecx, %edx
	movl	%r8d, %ecx
	roll	$7, %ecx
	xorl	%edx, %ecx
	addl	%esi, %r12d
	movl	%r8d, %edx
	andl	%r10d, %edx
	addl	%edx, %r12d
	movl	%r8d, %edx
	notl	%edx
	movl	%r13d, %ebp
	andl	%r13d, %edx
	addl	%edx, %r12d
	addl	%ecx, %r12d
	movl	%eax, %ecx
	roll	$30, %ecx
	movl	%eax, %edx
	roll	$19, %edx
	xorl	%ecx, %edx
	movl	%eax, %ecx
	roll	$10, %ecx
	xorl	%edx, %ecx
	movl	%edi, %edx
	xorl	%r9d, %edx
	andl	%eax, %edx
	movl	%edi, %esi
	andl	%r9d, %esi
	xorl	%edx, %esi
	addl	%ecx, %esi
	addl	%r12d, %esi
	addl	%r15d, %r12d
	movl	%ebx, %ecx
	roll	$15, %ecx
	movl	%ebx, %edx
	roll	$13, %edx
	xorl	%ecx, %edx
	movl	%ebx, -124(%rsp)
	movl	%ebx, %ecx
	shrl	$10, %ecx
	xorl	%edx, %ecx
	movl	108(%rsp), %r14d
	addl	-72(%rsp), %r14d
	movl	%r14d, %edx
	addl	%ecx, %edx
	movl	%edx, -108(%rsp)
	movq	-24(%rsp), %rdx
	addq	$64, %rdx
	movq	%rdx, %r15
	cmpq	$252, %rdx
	jne	.LBB2_4
	movl	%r12d, %ecx
	roll	$26, %ecx
	movl	%r12d, %edx
	roll	$21, %edx
	movl	%r12d, %r11d
	roll	$7, %r11d
	xorl	%ecx, %edx
	xorl	%edx, %r11d
	movl	%ebp, %r15d
	addl	-104(%rsp), %r15d
	movl	%r12d, %ecx
	andl	%r8d, %ecx
	addl	%ecx, %r15d
	movl	%r12d, %ecx
	notl	%ecx
	andl	%r10d, %ecx
	addl	%ecx, %r15d
	addl	48(%rsp), %r15d
	addl	%r11d, %r15d
	movl	%esi, %ecx
	roll	$30, %ecx
	movl	%esi, %edx
	roll	$19, %edx
	xorl	%ecx, %edx
	movl	%esi, %ecx
	roll	$10, %ecx
	xorl	%edx, %ecx
	movl	%eax, %r11d
	xorl	%edi, %r11d
	andl	%esi, %r11d
	movl	%eax, %edx
	andl	%edi, %edx
	xorl	%r11d, %edx
	addl	%ecx, %edx
	addl	%r15d, %edx
	addl	%r9d, %r15d
	movl	%r15d, %ecx
	roll	$26, %ecx
	movl	%r15d, %r9d
	roll	$21, %r9d
	xorl	%ecx, %r9d
	movl	%r15d, %ecx
	roll	$7, %ecx
	xorl	%r9d, %ecx
	movl	-64(%rsp), %r11d
	addl	%r10d, %r11d
	movl	%r15d, %r9d
	andl	%r12d, %r9d
	addl	44(%rsp), %r11d
	addl	%r9d, %r11d
	movl	%r15d, %r9d
	notl	%r9d
	andl	%r8d, %r9d
	addl	%r9d, %r11d
	addl	%ecx, %r11d
	movl	%edx, %ecx
	roll	$30, %ecx
	movl	%edx, %r9d
	roll	$19, %r9d
	xorl	%ecx, %r9d
	movl	%edx, %ecx
	roll	$10, %ecx
	xorl	%r9d, %ecx
	movl	%esi, %r10d
	xorl	%eax, %r10d
	andl	%edx, %r10d
	movl	%esi, %r9d
	andl	%eax, %r9d
	xorl	%r10d, %r9d
	addl	%ecx, %r9d
	addl	%r11d, %r9d
	addl	%edi, %r11d
	movl	%r11d, %ecx
	roll	$26, %ecx
	movl	%r11d, %edi
	roll	$21, %edi
	movl	%r11d, %r10d
	roll	$7, %r10d
	xorl	%ecx, %edi
	xorl	%edi, %r10d
	movl	%r12d, %ebx
	movl	-92(%rsp), %r12d
	addl	%r8d, %r12d
	movl	%r11d, %ecx
	andl	%r15d, %ecx
	addl	40(%rsp), %r12d
	addl	%ecx, %r12d
	movl	%r11d, %ecx
	notl	%ecx
	andl	%ebx, %ecx
	addl	%ecx, %r12d
	addl	%r10d, %r12d
	movl	%r9d, %ecx
	roll	$30, %ecx
	movl	%r9d, %edi
	roll	$19, %edi
	xorl	%ecx, %edi
	movl	%r9d, %ecx
	roll	$10, %ecx
	xorl	%edi, %ecx
	movl	%edx, %r8d
	xorl	%esi, %r8d
	andl	%r9d, %r8d
	movl	%edx, %edi
	andl	%esi, %edi
	xorl	%r8d, %edi
	addl	%ecx, %edi
	addl	%r12d, %edi
	addl	%eax, %r12d
	movl	%r12d, %eax
	roll	$26, %eax
	movl	%r12d, %ecx
	roll	$21, %ecx
	xorl	%eax, %ecx
	movl	%r12d, %eax
	roll	$7, %eax
	xorl	%ecx, %eax
	movl	-88(%rsp), %ebp
	addl	%ebx, %ebp
	movl	%r12d, %ecx
	andl	%r11d, %ecx
	addl	36(%rsp), %ebp
	addl	%ecx, %ebp
	movl	%r12d, %ecx
	notl	%ecx
	andl	%r15d, %ecx
	addl	%ecx, %ebp
	addl	%eax, %ebp
	movl	%edi, %eax
	roll	$30, %eax
	movl	%edi, %ecx
	roll	$19, %ecx
	xorl	%eax, %ecx
	movl	%edi, %r8d
	roll	$10, %r8d
	xorl	%ecx, %r8d
	movl	%r9d, %ecx
	xorl	%edx, %ecx
	andl	%edi, %ecx
	movl	%r9d, %eax
	andl	%edx, %eax
	xorl	%ecx, %eax
	addl	%r8d, %eax
	addl	%ebp, %eax
	addl	%esi, %ebp
	movl	%ebp, %ecx
	roll	$26, %ecx
	movl	%ebp, %esi
	roll	$21, %esi
	movl	%ebp, %r8d
	roll	$7, %r8d
	xorl	%ecx, %esi
	xorl	%esi, %r8d
	movl	-84(%rsp), %r10d
	addl	32(%rsp), %r10d
	addl	%r15d, %r10d
	movl	%ebp, %ecx
	andl	%r12d, %ecx
	addl	%ecx, %r10d
	movl	%ebp, %ecx
	notl	%ecx
	andl	%r11d, %ecx
	addl	%ecx, %r10d
	addl	%r8d, %r10d
	movl	%eax, %ecx
	roll	$30, %ecx
	movl	%eax, %esi
	roll	$19, %esi
	xorl	%ecx, %esi
	movl	%eax, %ecx
	roll	$10, %ecx
	xorl	%esi, %ecx
	movl	%edi, %r8d
	xorl	%r9d, %r8d
	andl	%eax, %r8d
	movl	%edi, %esi
	andl	%r9d, %esi
	xorl	%r8d, %esi
	addl	%ecx, %esi
	addl	%r10d, %esi
	addl	%edx, %r10d
	movl	%r10d, %ecx
	roll	$26, %ecx
	movl	%r10d, %edx
	roll	$21, %edx
	xorl	%ecx, %edx
	movl	%r10d, %ecx
	roll	$7, %ecx
	xorl	%edx, %ecx
	movl	-80(%rsp), %ebx
	addl	28(%rsp), %ebx
	addl	%r11d, %ebx
	movl	%r10d, %edx
	andl	%ebp, %edx
	addl	%edx, %ebx
	movl	%r10d, %edx
	notl	%edx
	andl	%r12d, %edx
	addl	%edx, %ebx
	addl	%ecx, %ebx
	movl	%esi, %ecx
	roll	$30, %ecx
	movl	%esi, %edx
	roll	$19, %edx
	xorl	%ecx, %edx
	movl	%esi, %r8d
	roll	$10, %r8d
	xorl	%edx, %r8d
	movl	%eax, %edx
	xorl	%edi, %edx
	andl	%esi, %edx
	movl	%eax, %ecx
	andl	%edi, %ecx
	xorl	%edx, %ecx
	addl	%r8d, %ecx
	addl	%ebx, %ecx
	addl	%r9d, %ebx
	movl	%ebx, %edx
	roll	$26, %edx
	movl	%ebx, %r8d
	roll	$21, %r8d
	movl	%ebx, %r9d
	roll	$7, %r9d
	xorl	%edx, %r8d
	xorl	%r8d, %r9d
	movl	-116(%rsp), %r11d
	addl	24(%rsp), %r11d
	addl	%r12d, %r11d
	movl	%ebx, %edx
	andl	%r10d, %edx
	addl	%edx, %r11d
	movl	%ebx, %edx
	notl	%edx
	andl	%ebp, %edx
	addl	%edx, %r11d
	addl	%r9d, %r11d
	movl	%ecx, %edx
	roll	$30, %edx
	movl	%ecx, %r8d
	roll	$19, %r8d
	xorl	%edx, %r8d
	movl	%ecx, %r9d
	roll	$10, %r9d
	xorl	%r8d, %r9d
	movl	%esi, %r8d
	xorl	%eax, %r8d
	andl	%ecx, %r8d
	movl	%esi, %edx
	andl	%eax, %edx
	xorl	%r8d, %edx
	addl	%r9d, %edx
	addl	%r11d, %edx
	addl	%edi, %r11d
	movl	%r11d, %edi
	roll	$26, %edi
	movl	%r11d, %r8d
	roll	$21, %r8d
	xorl	%edi, %r8d
	movl	%r11d, %edi
	roll	$7, %edi
	xorl	%r8d, %edi
	movl	-108(%rsp), %r12d
	movl	-100(%rsp), %r15d
	addl	20(%rsp), %r15d
	addl	%ebp, %r15d
	movl	%r11d, %r8d
	andl	%ebx, %r8d
	addl	%r8d, %r15d
	movl	%r11d, %r8d
	notl	%r8d
	andl	%r10d, %r8d
	addl	%r8d, %r15d
	addl	%edi, %r15d
	movl	%edx, %edi
	roll	$30, %edi
	movl	%edx, %r8d
	roll	$19, %r8d
	xorl	%edi, %r8d
	movl	%edx, %r9d
	roll	$10, %r9d
	xorl	%r8d, %r9d
	movl	%ecx, %r8d
	xorl	%esi, %r8d
	andl	%edx, %r8d
	movl	%ecx, %edi
	andl	%esi, %edi
	xorl	%r8d, %edi
	addl	%r9d, %edi
	addl	%r15d, %edi
	addl	%eax, %r15d
	movl	%r15d, %eax
	roll	$26, %eax
	movl	%r15d, %r8d
	roll	$21, %r8d
	movl	%r15d, %r9d
	roll	$7, %r9d
	xorl	%eax, %r8d
	xorl	%r8d, %r9d
	movl	-128(%rsp), %r13d
	movl	-72(%rsp), %r14d
	addl	16(%rsp), %r14d
	addl	%r10d, %r14d
	movl	%r15d, %eax
	andl	%r11d, %eax
	addl	%eax, %r14d
	movl	%r15d, %eax
	notl	%eax
	andl	%ebx, %eax
	addl	%eax, %r14d
	addl	%r9d, %r14d
	movl	%edi, %eax
	roll	$30, %eax
	movl	%edi, %r8d
	roll	$19, %r8d
	xorl	%eax, %r8d
	movl	%edi, %eax
	roll	$10, %eax
	xorl	%r8d, %eax
	movl	%edx, %r9d
	xorl	%ecx, %r9d
	andl	%edi, %r9d
	movl	%edx, %r8d
	andl	%ecx, %r8d
	xorl	%r9d, %r8d
	addl	%eax, %r8d
	addl	%r14d, %r8d
	addl	%esi, %r14d
	movl	%r14d, %eax
	roll	$26, %eax
	movl	%r14d, %esi
	roll	$21, %esi
	xorl	%eax, %esi
	movl	%r14d, %eax
	roll	$7, %eax
	xorl	%esi, %eax
	movl	-68(%rsp), %r10d
	addl	12(%rsp), %r10d
	addl	%ebx, %r10d
	movl	%r14d, %esi
	andl	%r15d, %esi
	addl	%esi, %r10d
	movl	%r14d, %esi
	notl	%esi
	andl	%r11d, %esi
	addl	%esi, %r10d
	addl	%eax, %r10d
	movl	%r8d, %eax
	roll	$30, %eax
	movl	%r8d, %esi
	roll	$19, %esi
	xorl	%eax, %esi
	movl	%r8d, %eax
	roll	$10, %eax
	xorl	%esi, %eax
	movl	%edi, %r9d
	xorl	%edx, %r9d
	andl	%r8d, %r9d
	movl	%edi, %esi
	andl	%edx, %esi
	xorl	%r9d, %esi
	addl	%eax, %esi
	addl	%r10d, %esi
	addl	%ecx, %r10d
	movl	%r10d, %eax
	roll	$26, %eax
	movl	%r10d, %ecx
	roll	$21, %ecx
	movl	%r10d, %r9d
	roll	$7, %r9d
	xorl	%eax, %ecx
	xorl	%ecx, %r9d
	movl	-76(%rsp), %ebx
	addl	8(%rsp), %ebx
	addl	%r11d, %ebx
	movl	%r10d, %eax
	andl	%r14d, %eax
	addl	%eax, %ebx
	movl	%r10d, %eax
	notl	%eax
	andl	%r15d, %eax
	addl	%eax, %ebx
	addl	%r9d, %ebx
	movl	%esi, %eax
	roll	$30, %eax
	movl	%esi, %ecx
	roll	$19, %ecx
	xorl	%eax, %ecx
	movl	%esi, %eax
	roll	$10, %eax
	xorl	%ecx, %eax
	movl	%r8d, %r9d
	xorl	%edi, %r9d
	andl	%esi, %r9d
	movl	%r8d, %ecx
	andl	%edi, %ecx
	xorl	%r9d, %ecx
	addl	%eax, %ecx
	addl	%ebx, %ecx
	addl	%edx, %ebx
	movl	%ebx, %eax
	roll	$26, %eax
	movl	%ebx, %edx
	roll	$21, %edx
	xorl	%eax, %edx
	movl	%ebx, %eax
	roll	$7, %eax
	xorl	%edx, %eax
	movl	-120(%rsp), %r11d
	addl	4(%rsp), %r11d
	addl	%r15d, %r11d
	movl	%ebx, %edx
	andl	%r10d, %edx
	addl	%edx, %r11d
	movl	%ebx, %edx
	notl	%edx
	andl	%r14d, %edx
	addl	%edx, %r11d
	addl	%eax, %r11d
	movl	%ecx, %eax
	roll	$30, %eax
	movl	%ecx, %edx
	roll	$19, %edx
	xorl	%eax, %edx
	movl	%ecx, %r9d
	roll	$10, %r9d
	xorl	%edx, %r9d
	movl	%esi, %edx
	xorl	%r8d, %edx
	andl	%ecx, %edx
	movl	%esi, %eax
	andl	%r8d, %eax
	xorl	%edx, %eax
	addl	%r9d, %eax
	addl	%r11d, %eax
	addl	%edi, %r11d
	movl	%r11d, %edx
	roll	$26, %edx
	movl	%r11d, %edi
	roll	$21, %edi
	movl	%r11d, %r9d
	roll	$7, %r9d
	xorl	%edx, %edi
	xorl	%edi, %r9d
	movl	-112(%rsp), %r15d
	addl	(%rsp), %r15d
	addl	%r14d, %r15d
	movl	%r11d, %edx
	andl	%ebx, %edx
	addl	%edx, %r15d
	movl	%r11d, %edx
	notl	%edx
	andl	%r10d, %edx
	addl	%edx, %r15d
	addl	%r9d, %r15d
	movl	%eax, %edx
	roll	$30, %edx
	movl	%eax, %edi
	roll	$19, %edi
	xorl	%edx, %edi
	movl	%eax, %r9d
	roll	$10, %r9d
	xorl	%edi, %r9d
	movl	%ecx, %edi
	xorl	%esi, %edi
	andl	%eax, %edi
	movl	%ecx, %edx
	andl	%esi, %edx
	xorl	%edi, %edx
	addl	%r9d, %edx
	addl	%r15d, %edx
	addl	%r8d, %r15d
	movl	%r15d, %edi
	roll	$26, %edi
	movl	%r15d, %r8d
	roll	$21, %r8d
	xorl	%edi, %r8d
	movl	%r15d, %edi
	roll	$7, %edi
	xorl	%r8d, %edi
	movl	%r15d, %r8d
	andl	%r11d, %r8d
	movl	-124(%rsp), %ebp
	addl	-4(%rsp), %ebp
	addl	%r10d, %ebp
	movl	%r15d, %r9d
	notl	%r9d
	andl	%ebx, %r9d
	addl	%r8d, %ebp
	addl	%r9d, %ebp
	addl	%edi, %ebp
	movl	%edx, %edi
	roll	$30, %edi
	movl	%edx, %r8d
	roll	$19, %r8d
	xorl	%edi, %r8d
	movl	%edx, %r9d
	roll	$10, %r9d
	xorl	%r8d, %r9d
	movl	%eax, %r8d
	xorl	%ecx, %r8d
	andl	%edx, %r8d
	movl	%eax, %edi
	andl	%ecx, %edi
	xorl	%r8d, %edi
	addl	%r9d, %edi
	addl	%ebp, %edi
	addl	%esi, %ebp
	movl	%ebp, %esi
	roll	$26, %esi
	movl	%ebp, %r8d
	roll	$21, %r8d
	xorl	%esi, %r8d
	movl	%ebp, %esi
	roll	$7, %esi
	xorl	%r8d, %esi
	movl	%ebp, %r8d
	andl	%r15d, %r8d
	addl	-8(%rsp), %r13d
	addl	%ebx, %r13d
	movl	%ebp, %r9d
	notl	%r9d
	andl	%r11d, %r9d
	addl	%r8d, %r13d
	addl	%r9d, %r13d
	addl	%esi, %r13d
	movl	%edi, %r9d
	movl	%edi, %esi
	movl	%edi, %r8d
	roll	$30, %r8d
	roll	$19, %r9d
	xorl	%r8d, %r9d
	movl	%edx, %r8d
	xorl	%eax, %r8d
	andl	%edi, %r8d
	roll	$10, %esi
	xorl	%r9d, %esi
	movl	%edi, %r9d
	xorl	%edx, %r9d
	movl	76(%rsp), %ebx
	addl	%edi, %ebx
	andl	%edx, %edi
	movl	72(%rsp), %r14d
	addl	%edx, %r14d
	andl	%eax, %edx
	xorl	%r8d, %edx
	addl	%esi, %edx
	addl	%r13d, %edx
	addl	%ecx, %r13d
	movl	%r13d, %ecx
	roll	$26, %ecx
	movl	%r13d, %esi
	roll	$21, %esi
	xorl	%ecx, %esi
	movl	%r13d, %ecx
	roll	$7, %ecx
	xorl	%esi, %ecx
	addl	-12(%rsp), %r12d
	addl	%r11d, %r12d
	movl	%r13d, %esi
	andl	%ebp, %esi
	addl	%esi, %r12d
	movl	%r13d, %esi
	notl	%esi
	andl	%r15d, %esi
	addl	%esi, %r12d
	addl	%ecx, %r12d
	movl	%edx, %ecx
	movl	%edx, %esi
	roll	$30, %esi
	roll	$19, %ecx
	xorl	%esi, %ecx
	andl	%edx, %r9d
	movl	80(%rsp), %r11d
	addl	%edx, %r11d
	roll	$10, %edx
	xorl	%ecx, %edx
	xorl	%r9d, %edi
	addl	52(%rsp), %edi
	addl	%edx, %edi
	addl	56(%rsp), %eax
	addl	%r12d, %edi
	addl	%r12d, %eax
	movl	68(%rsp), %r9d
	addl	%r13d, %r9d
	movl	64(%rsp), %r10d
	addl	%ebp, %r10d
	movl	60(%rsp), %ebp
	addl	%r15d, %ebp
	movq	152(%rsp), %rcx
	incq	%rcx
	movl	%eax, %r12d
	movl	%edi, %r13d
	cmpq	144(%rsp), %rcx
	jne	.LBB2_3
	jmp	.LBB2_6
.LBB2_1:
	movl	%r13d, %edi
	movl	%r12d, %eax
.LBB2_6:
	movq	128(%rsp), %rcx
	movl	%edi, (%rcx)
	movl	%r11d, 4(%rcx)
	movl	%ebx, 8(%rcx)
	movl	%r14d, 12(%rcx)
	movl	%eax, 16(%rcx)
	movl	%r9d, 20(%rcx)
	movl	%r10d, 24(%rcx)
	movl	%ebp, 28(%rcx)
	addq	$160, %rsp
	popq	%rbx
	popq	%r12
	popq	%r13
	popq	%r14
	popq	%r15
	popq	%rbp
	retq
.Lfunc_end2:
	.size	"sha256::absorb", .Lfunc_end2-"sha256::absorb"

	.section	".text.core::cmp::slices::groups_equal::<i8,31'core::cmp::numbers::U8PartialEq{}>","ax",@progbits
	.p2align	4
	.type	"core::cmp::slices::groups_equal::<i8,31'core::cmp::numbers::U8PartialEq{}>",@function
"core::cmp::slices::groups_equal::<i8,31'core::cmp::numbers::U8PartialEq{}>":
	cmpq	$8, %rsi
	ja	.LBB3_2
	movd	-4(%rdi,%rsi), %xmm0
	movd	(%rdi), %xmm1
	punpckldq	%xmm0, %xmm1
	movd	-4(%rdx,%rsi), %xmm0
	movd	(%rdx), %xmm2
	punpckldq	%xmm0, %xmm2
	movq	%xmm1, %rax
	movq	%xmm2, %rcx
	cmpq	%rcx, %rax
	jmp	.LBB3_17
.LBB3_2:
	cmpq	$32, %rsi
	ja	.LBB3_4
	leaq	-8(%rsi), %rax
	cmpq	$8, %rax
	movl	$8, %ecx
	cmovbq	%rax, %rcx
	cmpq	$16, %rax
	movl	$16, %r8d
	cmovbq	%rax, %r8
	movq	(%rdi,%rcx), %xmm0
	movq	(%rdi), %xmm1
	punpcklqdq	%xmm0, %xmm1
	movq	(%rdi,%r8), %xmm0
	movq	-8(%rdi,%rsi), %xmm2
	punpcklqdq	%xmm2, %xmm0
	movq	(%rdx,%rcx), %xmm2
	movq	(%rdx), %xmm3
	punpcklqdq	%xmm2, %xmm3
	pcmpeqb	%xmm1, %xmm3
	movq	(%rdx,%r8), %xmm1
	movq	-8(%rdx,%rsi), %xmm2
	punpcklqdq	%xmm2, %xmm1
	pcmpeqb	%xmm0, %xmm1
	pand	%xmm3, %xmm1
	pmovmskb	%xmm1, %eax
	jmp	.LBB3_16
.LBB3_4:
	cmpq	$65, %rsi
	jae	.LBB3_5
	movdqu	(%rdi), %xmm0
	movdqu	16(%rdi), %xmm1
	movdqu	(%rdx), %xmm2
	pcmpeqb	%xmm0, %xmm2
	movdqu	16(%rdx), %xmm0
	pcmpeqb	%xmm1, %xmm0
	movdqu	-32(%rdi,%rsi), %xmm1
	movdqu	-16(%rdi,%rsi), %xmm3
	movdqu	-32(%rdx,%rsi), %xmm4
	pcmpeqb	%xmm1, %xmm4
	pand	%xmm2, %xmm4
	movdqu	-16(%rdx,%rsi), %xmm1
	pcmpeqb	%xmm3, %xmm1
	pand	%xmm0, %xmm1
	pand	%xmm4, %xmm1
	pmovmskb	%xmm1, %eax
	jmp	.LBB3_16
.LBB3_5:
	xorl	%eax, %eax
	movq	%rsi, %rcx
	.p2align	4
.LBB3_6:
	movdqu	(%rdi,%rax), %xmm0
	movdqu	16(%rdi,%rax), %xmm1
	movdqu	32(%rdi,%rax), %xmm2
	movdqu	48(%rdi,%rax), %xmm3
	movdqu	(%rdx,%rax), %xmm4
	pcmpeqb	%xmm0, %xmm4
	movdqu	16(%rdx,%rax), %xmm0
	pcmpeqb	%xmm1, %xmm0
	movdqu	32(%rdx,%rax), %xmm1
	pcmpeqb	%xmm2, %xmm1
	pand	%xmm4, %xmm1
	movdqu	48(%rdx,%rax), %xmm2
	pcmpeqb	%xmm3, %xmm2
	pand	%xmm0, %xmm2
	pand	%xmm1, %xmm2
	pmovmskb	%xmm2, %r8d
	cmpl	$65535, %r8d
	jne	.LBB3_8
	addq	$64, %rax
	addq	$-64, %rcx
	cmpq	$63, %rcx
	ja	.LBB3_6
.LBB3_8:
	cmpq	$32, %rcx
	jb	.LBB3_15
	movq	%rsi, %rcx
	subq	%rax, %rcx
	.p2align	4
.LBB3_10:
	movdqu	(%rdi,%rax), %xmm0
	movdqu	16(%rdi,%rax), %xmm1
	movdqu	(%rdx,%rax), %xmm2
	pcmpeqb	%xmm0, %xmm2
	movdqu	16(%rdx,%rax), %xmm0
	pcmpeqb	%xmm1, %xmm0
	pand	%xmm2, %xmm0
	pmovmskb	%xmm0, %r8d
	xorl	$65535, %r8d
	jne	.LBB3_14
	addq	$32, %rax
	addq	$-32, %rcx
	cmpq	$32, %rcx
	jae	.LBB3_10
	jmp	.LBB3_15
.LBB3_14:
	movb	$1, %al
	cmpq	$31, %rcx
	ja	.LBB3_18
.LBB3_15:
	movdqu	-32(%rdi,%rsi), %xmm0
	movdqu	-16(%rdi,%rsi), %xmm1
	movdqu	-32(%rdx,%rsi), %xmm2
	pcmpeqb	%xmm0, %xmm2
	movdqu	-16(%rdx,%rsi), %xmm0
	pcmpeqb	%xmm1, %xmm0
	pand	%xmm2, %xmm0
	pmovmskb	%xmm0, %eax
.LBB3_16:
	xorl	$65535, %eax
.LBB3_17:
	setne	%al
.LBB3_18:
	xorb	$1, %al
	retq
.Lfunc_end3:
	.size	"core::cmp::slices::groups_equal::<i8,31'core::cmp::numbers::U8PartialEq{}>", .Lfunc_end3-"core::cmp::slices::groups_equal::<i8,31'core::cmp::numbers::U8PartialEq{}>"

	.section	".text.record_slots::in_form","ax",@progbits
	.p2align	4
	.type	"record_slots::in_form",@function
"record_slots::in_form":
	pushq	%rbp
	pushq	%r15
	pushq	%r14
	pushq	%r13
	pushq	%r12
	pushq	%rbx
	subq	$312, %rsp
	movq	%rdi, %r10
	movl	%esi, %eax
	movl	$2741924259, %ecx
	imulq	%rax, %rcx
	shrq	$43, %rcx
	cmpq	$821248, %rsi
	movl	$256, %edi
	cmovbq	%rcx, %rdi
	testq	%rdi, %rdi
	je	.LBB4_48
	imulq	$3208, %rdi, %rcx
	xorl	%edx, %edx
	jmp	.LBB4_2
	.p2align	4
.LBB4_10:
	addq	$3208, %rdx
	cmpq	%rdx, %rcx
	je	.LBB4_11
.LBB4_2:
	movzbl	(%r10,%rdx), %eax
	testb	%al, %al
	je	.LBB4_10
	addb	$127, %al
	cmpb	$-122, %al
	jb	.LBB4_8
	movzwl	8(%r10,%rdx), %eax
	movd	%eax, %xmm0
	pinsrw	$1, 12(%r10,%rdx), %xmm0
	movd	%xmm0, %esi
	xorl	%eax, %eax
	cmpl	$795113263, %esi
	jne	.LBB4_9
	cmpb	$110, 11(%r10,%rdx)
	jne	.LBB4_9
	cmpb	$105, 10(%r10,%rdx)
	jne	.LBB4_9
	movzwl	2(%r10,%rdx), %eax
	addl	$-16, %eax
	movzwl	%ax, %eax
	cmpl	$3056, %eax
	jbe	.LBB4_10
.LBB4_8:
	xorl	%eax, %eax
	jmp	.LBB4_9
.LBB4_11:
	pxor	%xmm0, %xmm0
	movdqa	%xmm0, 288(%rsp)
	movdqa	%xmm0, 272(%rsp)
	movdqa	%xmm0, 256(%rsp)
	movdqa	%xmm0, 240(%rsp)
	movdqa	%xmm0, 224(%rsp)
	movdqa	%xmm0, 208(%rsp)
	movdqa	%xmm0, 192(%rsp)
	movdqa	%xmm0, 176(%rsp)
	movdqa	%xmm0, 160(%rsp)
	movdqa	%xmm0, 144(%rsp)
	movdqa	%xmm0, 128(%rsp)
	movdqa	%xmm0, 112(%rsp)
	movdqa	%xmm0, 96(%rsp)
	movdqa	%xmm0, 80(%rsp)
	movdqa	%xmm0, 64(%rsp)
	movdqa	%xmm0, 48(%rsp)
	xorl	%ebx, %ebx
	xorl	%eax, %eax
	movq	%rdi, 24(%rsp)
	jmp	.LBB4_12
	.p2align	4
.LBB4_46:
	movb	%al, 48(%rsp)
	movl	$1, %ebx
.LBB4_47:
	incq	%rax
	cmpq	%rdi, %rax
	je	.LBB4_48
.LBB4_12:
	imulq	$3208, %rax, %rdx
	movzbl	(%r10,%rdx), %ecx
	movq	%rcx, 8(%rsp)
	testq	%rcx, %rcx
	je	.LBB4_47
	testq	%rbx, %rbx
	je	.LBB4_46
	movq	%rax, 32(%rsp)
	addq	%r10, %rdx
	movq	%rdx, 16(%rsp)
	leaq	8(%rdx), %r15
	xorl	%r12d, %r12d
	movq	%rbx, 40(%rsp)
	jmp	.LBB4_15
	.p2align	4
.LBB4_17:
	movq	%r13, %rbx
	cmpq	%rbx, %r12
	movq	%r14, %r10
	jae	.LBB4_19
.LBB4_15:
	movq	%rbx, %rbp
	subq	%r12, %rbp
	shrq	%rbp
	leaq	(%r12,%rbp), %r13
	movzbl	48(%rsp,%r13), %eax
	imulq	$3208, %rax, %rax
	movzbl	(%r10,%rax), %esi
	movq	%r10, %r14
	leaq	(%r10,%rax), %rdi
	addq	$8, %rdi
	movq	%r15, %rdx
	movq	8(%rsp), %rcx
	callq	"octets::lower_bytes"
	testb	%al, %al
	je	.LBB4_17
	addq	%rbp, %r12
	incq	%r12
	cmpq	%rbx, %r12
	movq	%r14, %r10
	jb	.LBB4_15
.LBB4_19:
	movq	40(%rsp), %rbx
	cmpq	%r12, %rbx
	jbe	.LBB4_44
	movzbl	48(%rsp,%r12), %eax
	imulq	$3208, %rax, %rax
	movzbl	(%r10,%rax), %ecx
	testb	%cl, %cl
	je	.LBB4_25
	cmpb	%cl, 8(%rsp)
	jne	.LBB4_25
	addq	%r10, %rax
	leaq	8(%rax), %rdi
	cmpb	$4, 8(%rsp)
	jae	.LBB4_23
	movzbl	(%rdi), %ecx
	cmpb	(%r15), %cl
	jne	.LBB4_32
	cmpl	$1, 8(%rsp)
	je	.LBB4_8
	movzbl	9(%rax), %edx
	movl	$1, %ecx
	movq	16(%rsp), %rsi
	cmpb	9(%rsi), %dl
	jne	.LBB4_33
	cmpl	$2, 8(%rsp)
	je	.LBB4_8
	movzbl	10(%rax), %eax
	movl	$2, %ecx
	cmpb	10(%rsi), %al
	jne	.LBB4_33
	jmp	.LBB4_8
.LBB4_23:
	movl	(%rdi), %eax
	cmpl	(%r15), %eax
	jne	.LBB4_25
	movq	8(%rsp), %rsi
	movq	%r15, %rdx
	callq	"core::cmp::slices::groups_equal::<i8,31'core::cmp::numbers::U8PartialEq{}>"
	movq	%r14, %r10
	testb	%al, %al
	je	.LBB4_25
	jmp	.LBB4_8
.LBB4_32:
	xorl	%ecx, %ecx
.LBB4_33:
	cmpl	8(%rsp), %ecx
	jae	.LBB4_8
	.p2align	4
.LBB4_25:
	leaq	-1(%rbx), %rcx
	cmpq	%rcx, %r12
	cmovbq	%r12, %rcx
	movq	%rbx, %rax
	subq	%rcx, %rax
	movq	%rbx, %rdx
	cmpq	$8, %rax
	jb	.LBB4_43
	cmpq	$32, %rax
	jae	.LBB4_38
	xorl	%ecx, %ecx
	jmp	.LBB4_28
.LBB4_38:
	movq	%rax, %rcx
	andq	$-32, %rcx
	movq	%rcx, %rdx
	negq	%rdx
	leaq	33(%rsp), %rsi
	addq	%rbx, %rsi
	xorl	%edi, %edi
	.p2align	4
.LBB4_39:
	movdqu	-17(%rsi,%rdi), %xmm0
	movups	-1(%rsi,%rdi), %xmm1
	movups	%xmm1, (%rsi,%rdi)
	movdqu	%xmm0, -16(%rsi,%rdi)
	addq	$-32, %rdi
	cmpq	%rdi, %rdx
	jne	.LBB4_39
	cmpq	%rcx, %rax
	je	.LBB4_44
	testb	$24, %al
	je	.LBB4_42
.LBB4_28:
	movq	%rax, %rsi
	andq	$-8, %rsi
	movq	%rbx, %rdx
	subq	%rsi, %rdx
	movq	%rsi, %rdi
	negq	%rdi
	negq	%rcx
	leaq	41(%rsp), %r8
	addq	%rbx, %r8
	.p2align	4
.LBB4_29:
	movq	-1(%r8,%rcx), %r9
	movq	%r9, (%r8,%rcx)
	addq	$-8, %rcx
	cmpq	%rcx, %rdi
	jne	.LBB4_29
	cmpq	%rsi, %rax
	je	.LBB4_44
	.p2align	4
.LBB4_43:
	movzbl	47(%rsp,%rdx), %eax
	movb	%al, 48(%rsp,%rdx)
	decq	%rdx
	cmpq	%rdx, %r12
	jb	.LBB4_43
.LBB4_44:
	movq	32(%rsp), %rax
	movb	%al, 48(%rsp,%r12)
	cmpq	$255, %rbx
	ja	.LBB4_8
	incq	%rbx
	movq	24(%rsp), %rdi
	jmp	.LBB4_47
.LBB4_42:
	movq	%rbx, %rdx
	subq	%rcx, %rdx
	jmp	.LBB4_43
.LBB4_48:
	movb	$1, %al
.LBB4_9:
	addq	$312, %rsp
	popq	%rbx
	popq	%r12
	popq	%r13
	popq	%r14
	popq	%r15
	popq	%rbp
	retq
.Lfunc_end4:
	.size	"record_slots::in_form", .Lfunc_end4-"record_slots::in_form"

	.section	".text.octets::lower_bytes","ax",@progbits
	.p2align	4
	.type	"octets::lower_bytes",@function
"octets::lower_bytes":
	cmpq	%rsi, %rcx
	movq	%rsi, %r11
	cmovbq	%rcx, %r11
	andl	$4088, %r11d
	xorl	%eax, %eax
	.p2align	4
.LBB5_1:
	cmpq	%rax, %r11
	je	.LBB5_5
	movq	(%rdi,%rax), %r8
	movq	(%rdx,%rax), %r9
	addq	$8, %rax
	cmpq	%r9, %r8
	je	.LBB5_1
	bswapq	%r9
	bswapq	%r8
	cmpq	%r9, %r8
	setb	%al
	retq
.LBB5_5:
	pushq	%rbp
	pushq	%r15
	pushq	%r14
	pushq	%rbx
	movq	%rsi, %rax
	subq	%r11, %rax
	movq	%rcx, %r8
	subq	%r11, %r8
	cmpq	%rax, %r8
	movq	%rax, %r9
	cmovbq	%r8, %r9
	cmpq	$64, %r9
	jae	.LBB5_7
	xorl	%r10d, %r10d
	jmp	.LBB5_10
.LBB5_7:
	leaq	(%rdi,%r11), %rbx
	addq	$48, %rbx
	leaq	(%rdx,%r11), %r14
	addq	$48, %r14
	xorl	%r10d, %r10d
	movq	%r9, %r15
	.p2align	4
.LBB5_8:
	movdqu	-48(%rbx,%r10), %xmm0
	movdqu	-32(%rbx,%r10), %xmm1
	movdqu	-16(%rbx,%r10), %xmm2
	movdqu	(%rbx,%r10), %xmm3
	movdqu	-48(%r14,%r10), %xmm4
	pcmpeqb	%xmm0, %xmm4
	movdqu	-32(%r14,%r10), %xmm0
	pcmpeqb	%xmm1, %xmm0
	movdqu	-16(%r14,%r10), %xmm1
	pcmpeqb	%xmm2, %xmm1
	pand	%xmm4, %xmm1
	movdqu	(%r14,%r10), %xmm2
	pcmpeqb	%xmm3, %xmm2
	pand	%xmm0, %xmm2
	pand	%xmm1, %xmm2
	pmovmskb	%xmm2, %ebp
	cmpl	$65535, %ebp
	jne	.LBB5_10
	addq	$64, %r10
	addq	$-64, %r15
	cmpq	$63, %r15
	ja	.LBB5_8
.LBB5_10:
	addq	%r11, %rdi
	addq	%r11, %rdx
	movq	%r9, %r11
	subq	%r10, %r11
	cmpq	$8, %r11
	jb	.LBB5_13
	.p2align	4
.LBB5_11:
	movq	(%rdi,%r10), %rbx
	cmpq	(%rdx,%r10), %rbx
	jne	.LBB5_13
	addq	$8, %r10
	addq	$-8, %r11
	cmpq	$7, %r11
	ja	.LBB5_11
.LBB5_13:
	cmpq	%r9, %r10
	jae	.LBB5_14
	.p2align	4
.LBB5_16:
	movzbl	(%rdx,%r10), %r11d
	cmpb	%r11b, (%rdi,%r10)
	jne	.LBB5_17
	incq	%r10
	cmpq	%r10, %r9
	jne	.LBB5_16
.LBB5_14:
	cmpq	%rcx, %rsi
	setne	%cl
	cmpq	%r8, %rax
	setb	%al
	andb	%cl, %al
	jmp	.LBB5_18
.LBB5_17:
	setb	%al
.LBB5_18:
	popq	%rbx
	popq	%r14
	popq	%r15
	popq	%rbp
	retq
.Lfunc_end5:
	.size	"octets::lower_bytes", .Lfunc_end5-"octets::lower_bytes"

	.section	".text.records::look","ax",@progbits
	.p2align	4
	.type	"records::look",@function
"records::look":
	pushq	%rbp
	pushq	%r15
	pushq	%r14
	pushq	%r13
	pushq	%r12
	pushq	%rbx
	pushq	%rax
	movq	%r8, %r15
	movq	%rcx, %r12
	movq	%rsi, %r14
	movq	%rdi, %r8
	movl	%edx, %eax
	movl	$2741924259, %ecx
	imulq	%rax, %rcx
	shrq	$43, %rcx
	cmpq	$821248, %rdx
	movl	$256, %r13d
	cmovbq	%rcx, %r13
	testq	%r13, %r13
	je	.LBB6_1
	leaq	8(%r14), %rbx
	xorl	%ebp, %ebp
	jmp	.LBB6_5
.LBB6_12:
	cmpq	%r15, %rax
	jae	.LBB6_2
	.p2align	4
.LBB6_14:
	incq	%rbp
	addq	$3208, %rbx
	cmpq	%r13, %rbp
	je	.LBB6_15
.LBB6_5:
	imulq	$3208, %rbp, %rdi
	movzbl	(%r14,%rdi), %eax
	testq	%rax, %rax
	je	.LBB6_14
	cmpq	%rax, %r15
	jne	.LBB6_14
	cmpb	$3, %al
	ja	.LBB6_13
	xorl	%eax, %eax
	.p2align	4
.LBB6_9:
	movzbl	(%rbx,%rax), %ecx
	cmpb	(%r12,%rax), %cl
	jne	.LBB6_12
	incq	%rax
	cmpq	%rax, %r15
	jne	.LBB6_9
	jmp	.LBB6_2
.LBB6_13:
	addq	%r14, %rdi
	addq	$8, %rdi
	movl	(%rdi), %eax
	cmpl	(%r12), %eax
	jne	.LBB6_14
	movq	%r15, %rsi
	movq	%r12, %rdx
	movq	%r8, (%rsp)
	callq	"core::cmp::slices::groups_equal::<i8,31'core::cmp::numbers::U8PartialEq{}>"
	movq	(%rsp), %r8
	testb	%al, %al
	je	.LBB6_14
	jmp	.LBB6_2
.LBB6_1:
	xorl	%ebp, %ebp
.LBB6_2:
	cmpq	%r13, %rbp
	jae	.LBB6_15
	imulq	$3208, %rbp, %rax
	leaq	136(%rax), %rcx
	movzwl	2(%r14,%rax), %edx
	cmpl	$3072, %edx
	movl	$3072, %esi
	cmovbl	%edx, %esi
	addq	%rsi, %rax
	addq	$136, %rax
	movw	$0, (%r8)
	movq	$1, 8(%r8)
	movq	%rcx, 16(%r8)
	movq	%rax, 24(%r8)
	jmp	.LBB6_16
.LBB6_15:
	movw	$0, (%r8)
	xorps	%xmm0, %xmm0
	movups	%xmm0, 8(%r8)
	movq	$0, 24(%r8)
.LBB6_16:
	addq	$8, %rsp
	popq	%rbx
	popq	%r12
	popq	%r13
	popq	%r14
	popq	%r15
	popq	%rbp
	retq
.Lfunc_end6:
	.size	"records::look", .Lfunc_end6-"records::look"

	.section	".text.lookup_in_place::about","ax",@progbits
	.p2align	4
	.type	"lookup_in_place::about",@function
"lookup_in_place::about":
	pushq	%rbp
	pushq	%r15
	pushq	%r14
	pushq	%r13
	pushq	%r12
	pushq	%rbx
	subq	$872, %rsp
	movq	%r9, %r15
	movq	%r8, %r12
	movq	%rdx, %r13
	movq	%rsi, %r14
	movq	%rdi, %rbx
	movdqu	(%rcx), %xmm0
	movdqu	16(%rcx), %xmm1
	movdqa	%xmm1, 48(%rsp)
	movdqa	%xmm0, 32(%rsp)
	movq	%rsi, %rdi
	callq	"lookup_in_place::in_form"
	testb	%al, %al
	je	.LBB7_1
	decq	%r13
	cmpq	$64, %r13
	jae	.LBB7_5
	leaq	-1(%r15), %rax
	cmpq	$64, %rax
	jae	.LBB7_5
	leaq	64(%rsp), %rdi
	movq	%r12, %rsi
	movq	%r15, %rdx
	callq	"sha256::hash"
	movdqu	64(%rsp), %xmm0
	movdqu	80(%rsp), %xmm1
	movdqa	%xmm1, 16(%rsp)
	movdqa	%xmm0, (%rsp)
	movd	%xmm0, %ebp
	cmpl	%ebp, 32(%rsp)
	jne	.LBB7_9
	movq	%rsp, %rdi
	leaq	32(%rsp), %rdx
	movl	$32, %esi
	callq	"core::cmp::slices::groups_equal::<i8,31'core::cmp::numbers::U8PartialEq{}>"
	testb	%al, %al
	je	.LBB7_9
.LBB7_5:
	movw	$3073, (%rbx)
	jmp	.LBB7_2
.LBB7_1:
	movw	$1, (%rbx)
.LBB7_2:
	movq	$0, 8(%rbx)
.LBB7_3:
	addq	$872, %rsp
	popq	%rbx
	popq	%r12
	popq	%r13
	popq	%r14
	popq	%r15
	popq	%rbp
	retq
.LBB7_9:
	movzbl	(%r14), %r13d
	movzbl	1(%r14), %r12d
	pxor	%xmm0, %xmm0
	movdqa	%xmm0, 336(%rsp)
	movdqa	%xmm0, 320(%rsp)
	movdqa	%xmm0, 304(%rsp)
	movdqa	%xmm0, 288(%rsp)
	movdqa	%xmm0, 272(%rsp)
	movdqa	%xmm0, 256(%rsp)
	movdqa	%xmm0, 240(%rsp)
	movdqa	%xmm0, 224(%rsp)
	movdqa	%xmm0, 208(%rsp)
	movdqa	%xmm0, 192(%rsp)
	movdqa	%xmm0, 176(%rsp)
	movdqa	%xmm0, 160(%rsp)
	movdqa	%xmm0, 144(%rsp)
	movdqa	%xmm0, 128(%rsp)
	movdqa	%xmm0, 112(%rsp)
	movdqa	%xmm0, 96(%rsp)
	leaq	168(%r14), %rax
	xorl	%ecx, %ecx
	.p2align	4
.LBB7_10:
	movzbl	1470(%rax), %edx
	movd	%edx, %xmm0
	movzbl	1372(%rax), %edx
	movd	%edx, %xmm1
	punpcklbw	%xmm0, %xmm1
	movzbl	1274(%rax), %edx
	movd	%edx, %xmm0
	movzbl	1176(%rax), %edx
	movd	%edx, %xmm2
	punpcklbw	%xmm0, %xmm2
	punpcklwd	%xmm1, %xmm2
	movzbl	1078(%rax), %edx
	movd	%edx, %xmm0
	movzbl	980(%rax), %edx
	movd	%edx, %xmm1
	punpcklbw	%xmm0, %xmm1
	movzbl	882(%rax), %edx
	movd	%edx, %xmm3
	movzbl	784(%rax), %edx
	movd	%edx, %xmm0
	punpcklbw	%xmm3, %xmm0
	punpcklwd	%xmm1, %xmm0
	punpckldq	%xmm2, %xmm0
	movzbl	686(%rax), %edx
	movd	%edx, %xmm1
	movzbl	588(%rax), %edx
	movd	%edx, %xmm2
	punpcklbw	%xmm1, %xmm2
	movzbl	490(%rax), %edx
	movd	%edx, %xmm1
	movzbl	392(%rax), %edx
	movd	%edx, %xmm3
	punpcklbw	%xmm1, %xmm3
	punpcklwd	%xmm2, %xmm3
	movzbl	294(%rax), %edx
	movd	%edx, %xmm1
	movzbl	196(%rax), %edx
	movd	%edx, %xmm2
	punpcklbw	%xmm1, %xmm2
	movzbl	98(%rax), %edx
	movd	%edx, %xmm1
	movzbl	(%rax), %edx
	movd	%edx, %xmm4
	punpcklbw	%xmm1, %xmm4
	punpcklwd	%xmm2, %xmm4
	punpckldq	%xmm3, %xmm4
	punpcklqdq	%xmm0, %xmm4
	movdqu	%xmm4, 96(%rsp,%rcx)
	addq	$16, %rcx
	addq	$1568, %rax
	cmpq	$256, %rcx
	jne	.LBB7_10
	shll	$8, %r12d
	leaq	616(%rsp), %r15
	leaq	96(%rsp), %rsi
	movl	$256, %edx
	movq	%r15, %rdi
	callq	memcpy@PLT
	leaq	360(%rsp), %rdi
	movl	$256, %edx
	movq	%r15, %rsi
	callq	memcpy@PLT
	orq	%r13, %r12
	je	.LBB7_23
	movl	$20, %eax
	movl	$1, %ecx
	.p2align	4
.LBB7_13:
	movzbl	359(%rsp,%rcx), %edx
	cmpl	$2, %edx
	je	.LBB7_20
	cmpl	$3, %edx
	je	.LBB7_21
	jmp	.LBB7_15
	.p2align	4
.LBB7_20:
	decq	%rax
.LBB7_21:
	cmpq	%r12, %rcx
	jae	.LBB7_23
	incq	%rcx
	testq	%rax, %rax
	jne	.LBB7_13
.LBB7_23:
	movw	$4353, (%rbx)
	jmp	.LBB7_2
.LBB7_15:
	addq	$234, %r14
	xorl	%r15d, %r15d
	jmp	.LBB7_16
	.p2align	4
.LBB7_19:
	incq	%r15
	addq	$98, %r14
	cmpq	%r15, %r12
	je	.LBB7_25
.LBB7_16:
	cmpb	$1, -66(%r14)
	jne	.LBB7_19
	cmpl	%ebp, (%r14)
	jne	.LBB7_19
	movq	%rsp, %rdx
	movl	$32, %esi
	movq	%r14, %rdi
	callq	"core::cmp::slices::groups_equal::<i8,31'core::cmp::numbers::U8PartialEq{}>"
	testb	%al, %al
	je	.LBB7_19
	cmpq	%r15, %r12
	jbe	.LBB7_25
	movw	$0, (%rbx)
	movq	%r15, 8(%rbx)
	jmp	.LBB7_3
.LBB7_25:
	movw	$4097, (%rbx)
	jmp	.LBB7_2
.Lfunc_end7:
	.size	"lookup_in_place::about", .Lfunc_end7-"lookup_in_place::about"

	.section	".text.lookup_in_place::in_form","ax",@progbits
	.p2align	4
	.type	"lookup_in_place::in_form",@function
"lookup_in_place::in_form":
	movzbl	2(%rdi), %ecx
	xorl	%eax, %eax
	decb	%cl
	js	.LBB8_21
	movzbl	3(%rdi), %ecx
	addb	$-11, %cl
	cmpb	$-10, %cl
	jb	.LBB8_21
	movzwl	(%rdi), %ecx
	cmpl	$257, %ecx
	jae	.LBB8_21
	movb	$1, %al
	testq	%rcx, %rcx
	je	.LBB8_21
	cmpb	$3, 168(%rdi)
	ja	.LBB8_20
	movzbl	169(%rdi), %edx
	decb	%dl
	cmpb	$63, %dl
	ja	.LBB8_20
	decq	%rcx
	je	.LBB8_21
	leaq	356(%rdi), %rdx
	.p2align	4
.LBB8_9:
	cmpb	$3, -90(%rdx)
	ja	.LBB8_20
	movzbl	-89(%rdx), %esi
	decb	%sil
	cmpb	$63, %sil
	ja	.LBB8_20
	movq	-122(%rdx), %rsi
	movq	-24(%rdx), %r8
	cmpq	%r8, %rsi
	jne	.LBB8_12
	movq	-114(%rdx), %rsi
	movq	-16(%rdx), %r8
	cmpq	%r8, %rsi
	jne	.LBB8_14
	movq	-106(%rdx), %rsi
	movq	-8(%rdx), %r8
	cmpq	%r8, %rsi
	jne	.LBB8_16
	movq	-98(%rdx), %rsi
	movq	(%rdx), %r8
	cmpq	%r8, %rsi
	je	.LBB8_20
	bswapq	%r8
	bswapq	%rsi
	movq	160(%rdi), %r9
	jmp	.LBB8_19
.LBB8_12:
	bswapq	%r8
	bswapq	%rsi
	movq	136(%rdi), %r9
	jmp	.LBB8_19
.LBB8_14:
	bswapq	%r8
	bswapq	%rsi
	movq	144(%rdi), %r9
	jmp	.LBB8_19
.LBB8_16:
	bswapq	%r8
	bswapq	%rsi
	movq	152(%rdi), %r9
	.p2align	4
.LBB8_19:
	bswapq	%r9
	xorq	%r9, %r8
	xorq	%r9, %rsi
	cmpq	%r8, %rsi
	jae	.LBB8_20
	addq	$98, %rdx
	decq	%rcx
	jne	.LBB8_9
	jmp	.LBB8_21
.LBB8_20:
	xorl	%eax, %eax
.LBB8_21:
	retq
.Lfunc_end8:
	.size	"lookup_in_place::in_form", .Lfunc_end8-"lookup_in_place::in_form"

	.section	.rodata.cst16,"aM",@progbits,16
	.p2align	4, 0x0
.LCPI9_0:
	.quad	1
	.quad	1
	.section	".text.lookup_in_place::settle","ax",@progbits
	.p2align	4
	.type	"lookup_in_place::settle",@function
"lookup_in_place::settle":
	pushq	%rbp
	pushq	%r15
	pushq	%r14
	pushq	%r13
	pushq	%r12
	pushq	%rbx
	subq	$1096, %rsp
	movq	%rsi, %r14
	movq	%rdi, %rbx
	movzbl	(%rsi), %r13d
	movzbl	1(%rsi), %r12d
	pxor	%xmm0, %xmm0
	movdqa	%xmm0, 240(%rsp)
	movdqa	%xmm0, 224(%rsp)
	movdqa	%xmm0, 208(%rsp)
	movdqa	%xmm0, 192(%rsp)
	movdqa	%xmm0, 176(%rsp)
	movdqa	%xmm0, 160(%rsp)
	movdqa	%xmm0, 144(%rsp)
	movdqa	%xmm0, 128(%rsp)
	movdqa	%xmm0, 112(%rsp)
	movdqa	%xmm0, 96(%rsp)
	movdqa	%xmm0, 80(%rsp)
	movdqa	%xmm0, 64(%rsp)
	movdqa	%xmm0, 48(%rsp)
	movdqa	%xmm0, 32(%rsp)
	movdqa	%xmm0, 16(%rsp)
	movdqa	%xmm0, (%rsp)
	leaq	168(%rsi), %rax
	xorl	%ecx, %ecx
	.p2align	4
.LBB9_1:
	movzbl	1470(%rax), %edx
	movd	%edx, %xmm0
	movzbl	1372(%rax), %edx
	movd	%edx, %xmm1
	punpcklbw	%xmm0, %xmm1
	movzbl	1274(%rax), %edx
	movd	%edx, %xmm0
	movzbl	1176(%rax), %edx
	movd	%edx, %xmm2
	punpcklbw	%xmm0, %xmm2
	punpcklwd	%xmm1, %xmm2
	movzbl	1078(%rax), %edx
	movd	%edx, %xmm0
	movzbl	980(%rax), %edx
	movd	%edx, %xmm1
	punpcklbw	%xmm0, %xmm1
	movzbl	882(%rax), %edx
	movd	%edx, %xmm3
	movzbl	784(%rax), %edx
	movd	%edx, %xmm0
	punpcklbw	%xmm3, %xmm0
	punpcklwd	%xmm1, %xmm0
	punpckldq	%xmm2, %xmm0
	movzbl	686(%rax), %edx
	movd	%edx, %xmm1
	movzbl	588(%rax), %edx
	movd	%edx, %xmm2
	punpcklbw	%xmm1, %xmm2
	movzbl	490(%rax), %edx
	movd	%edx, %xmm1
	movzbl	392(%rax), %edx
	movd	%edx, %xmm3
	punpcklbw	%xmm1, %xmm3
	punpcklwd	%xmm2, %xmm3
	movzbl	294(%rax), %edx
	movd	%edx, %xmm1
	movzbl	196(%rax), %edx
	movd	%edx, %xmm2
	punpcklbw	%xmm1, %xmm2
	movzbl	98(%rax), %edx
	movd	%edx, %xmm1
	movzbl	(%rax), %edx
	movd	%edx, %xmm4
	punpcklbw	%xmm1, %xmm4
	punpcklwd	%xmm2, %xmm4
	punpckldq	%xmm3, %xmm4
	punpcklqdq	%xmm0, %xmm4
	movdqu	%xmm4, (%rsp,%rcx)
	addq	$16, %rcx
	addq	$1568, %rax
	cmpq	$256, %rcx
	jne	.LBB9_1
	shll	$8, %r12d
	leaq	840(%rsp), %r15
	movq	%rsp, %rsi
	movl	$256, %edx
	movq	%r15, %rdi
	callq	memcpy@PLT
	leaq	264(%rsp), %rdi
	movl	$256, %edx
	movq	%r15, %rsi
	callq	memcpy@PLT
	orq	%r13, %r12
	je	.LBB9_27
	movl	$20, %eax
	movl	$1, %ecx
	.p2align	4
.LBB9_4:
	movzbl	263(%rsp,%rcx), %edx
	cmpl	$3, %edx
	je	.LBB9_7
	cmpl	$2, %edx
	jne	.LBB9_25
	decq	%rax
.LBB9_7:
	cmpq	%r12, %rcx
	jae	.LBB9_9
	incq	%rcx
	testq	%rax, %rax
	jne	.LBB9_4
.LBB9_9:
	pxor	%xmm0, %xmm0
	movdqa	%xmm0, 144(%rsp)
	movdqa	%xmm0, 128(%rsp)
	movdqa	%xmm0, 112(%rsp)
	movdqa	%xmm0, 96(%rsp)
	movdqa	%xmm0, 80(%rsp)
	movdqa	%xmm0, 64(%rsp)
	movdqa	%xmm0, 48(%rsp)
	movdqa	%xmm0, 32(%rsp)
	movdqa	%xmm0, 16(%rsp)
	movdqa	%xmm0, (%rsp)
	xorl	%r15d, %r15d
	xorl	%eax, %eax
	jmp	.LBB9_10
	.p2align	4
.LBB9_14:
	incq	%rax
	cmpq	%rax, %r12
	je	.LBB9_15
.LBB9_10:
	cmpq	$20, %r15
	je	.LBB9_11
	cmpb	$3, 264(%rsp,%rax)
	je	.LBB9_14
	movq	%rax, (%rsp,%r15,8)
	incq	%r15
	jmp	.LBB9_14
.LBB9_27:
	pxor	%xmm0, %xmm0
	movdqa	%xmm0, 144(%rsp)
	movdqa	%xmm0, 128(%rsp)
	movdqa	%xmm0, 112(%rsp)
	movdqa	%xmm0, 96(%rsp)
	movdqa	%xmm0, 80(%rsp)
	movdqa	%xmm0, 64(%rsp)
	movdqa	%xmm0, 48(%rsp)
	movdqa	%xmm0, 32(%rsp)
	movdqa	%xmm0, 16(%rsp)
	movdqa	%xmm0, (%rsp)
	xorl	%r15d, %r15d
.LBB9_15:
	leaq	520(%rsp), %rdi
	movq	%rsp, %rsi
	movl	$160, %edx
	callq	memcpy@PLT
	testq	%r12, %r12
	je	.LBB9_17
.LBB9_18:
	cmpq	$4, %r12
	jae	.LBB9_20
	xorl	%ebp, %ebp
	xorl	%eax, %eax
	jmp	.LBB9_23
.LBB9_20:
	andl	$3, %r13d
	movq	%r12, %rax
	subq	%r13, %rax
	pxor	%xmm1, %xmm1
	xorl	%ecx, %ecx
	pxor	%xmm2, %xmm2
	pxor	%xmm0, %xmm0
	.p2align	4
.LBB9_21:
	movzwl	264(%rsp,%rcx), %edx
	movd	%edx, %xmm3
	movzwl	266(%rsp,%rcx), %edx
	movd	%edx, %xmm4
	pcmpeqb	%xmm1, %xmm3
	punpcklbw	%xmm3, %xmm3
	pshuflw	$212, %xmm3, %xmm3
	pshufd	$212, %xmm3, %xmm3
	movdqa	.LCPI9_0(%rip), %xmm5
	pand	%xmm5, %xmm3
	paddq	%xmm3, %xmm2
	pcmpeqb	%xmm1, %xmm4
	punpcklbw	%xmm4, %xmm4
	pshuflw	$212, %xmm4, %xmm3
	pshufd	$212, %xmm3, %xmm3
	pand	%xmm5, %xmm3
	paddq	%xmm3, %xmm0
	addq	$4, %rcx
	cmpq	%rcx, %rax
	jne	.LBB9_21
	paddq	%xmm2, %xmm0
	pshufd	$238, %xmm0, %xmm1
	paddq	%xmm0, %xmm1
	movq	%xmm1, %rbp
	testq	%r13, %r13
	je	.LBB9_24
	.p2align	4
.LBB9_23:
	cmpb	$1, 264(%rsp,%rax)
	adcq	$0, %rbp
	incq	%rax
	cmpq	%rax, %r12
	jne	.LBB9_23
	jmp	.LBB9_24
.LBB9_25:
	pxor	%xmm0, %xmm0
	movdqu	%xmm0, 160(%rbx)
	movdqu	%xmm0, 144(%rbx)
	movdqu	%xmm0, 128(%rbx)
	movdqu	%xmm0, 112(%rbx)
	movdqu	%xmm0, 96(%rbx)
	movdqu	%xmm0, 80(%rbx)
	movdqu	%xmm0, 64(%rbx)
	movdqu	%xmm0, 48(%rbx)
	movdqu	%xmm0, 32(%rbx)
	movdqu	%xmm0, 16(%rbx)
	movdqu	%xmm0, (%rbx)
	movq	$4, 176(%rbx)
	movq	$0, 184(%rbx)
	jmp	.LBB9_26
.LBB9_11:
	leaq	520(%rsp), %rdi
	movq	%rsp, %rsi
	movl	$160, %edx
	callq	memcpy@PLT
	movl	$20, %r15d
	testq	%r12, %r12
	jne	.LBB9_18
.LBB9_17:
	xorl	%ebp, %ebp
.LBB9_24:
	xorl	%r13d, %r13d
	cmpb	$0, 4(%r14)
	setne	%r13b
	leaq	680(%rsp), %r14
	leaq	520(%rsp), %rsi
	movl	$160, %edx
	movq	%r14, %rdi
	callq	memcpy@PLT
	subq	%rbp, %r12
	movl	$160, %edx
	movq	%rbx, %rdi
	movq	%r14, %rsi
	callq	memcpy@PLT
	movq	%r15, 160(%rbx)
	movq	$0, 168(%rbx)
	movq	%r13, 176(%rbx)
	movq	%r12, 184(%rbx)
.LBB9_26:
	addq	$1096, %rsp
	popq	%rbx
	popq	%r12
	popq	%r13
	popq	%r14
	popq	%r15
	popq	%rbp
	retq
.Lfunc_end9:
	.size	"lookup_in_place::settle", .Lfunc_end9-"lookup_in_place::settle"

	.section	".text.message::read","ax",@progbits
	.p2align	4
	.type	"message::read",@function
"message::read":
	pushq	%rbp
	pushq	%r15
	pushq	%r14
	pushq	%r13
	pushq	%r12
	pushq	%rbx
	subq	$136, %rsp
	movq	%rdi, %rbx
	cmpq	$16385, %rdx
	jb	.LBB10_4
	movw	$1025, (%rbx)
	jmp	.LBB10_2
.LBB10_4:
	movq	%rdx, %r14
	movq	%rsi, %r15
	movq	$0, 64(%rsp)
	movq	$0, 40(%rsp)
	movq	$0, 56(%rsp)
	movq	$0, 48(%rsp)
	movq	$0, 32(%rsp)
	movq	$0, 24(%rsp)
	movq	$0, 16(%rsp)
	movq	$0, 8(%rsp)
	xorl	%r12d, %r12d
	jmp	.LBB10_6
	.p2align	4
.LBB10_7:
	movq	112(%rsp), %r12
.LBB10_6:
	leaq	104(%rsp), %rdi
	movq	%r15, %rsi
	movq	%r14, %rdx
	movq	%r12, %rcx
	callq	"wire::read_field"
	movzbl	104(%rsp), %ecx
	movzbl	%cl, %eax
	leaq	.LJTI10_0(%rip), %rdx
	movslq	(%rdx,%rax,4), %rax
	addq	%rdx, %rax
	jmpq	*%rax
.LBB10_8:
	movq	128(%rsp), %r12
	movq	112(%rsp), %rax
	movq	120(%rsp), %r13
	cmpb	$3, %cl
	jne	.LBB10_24
	addq	$-2, %rax
	cmpq	$7, %rax
	ja	.LBB10_6
	leaq	.LJTI10_1(%rip), %rcx
	movslq	(%rcx,%rax,4), %rax
	addq	%rcx, %rax
	jmpq	*%rax
.LBB10_16:
	cmpq	%r12, %r14
	movq	%r12, %rbp
	cmovbq	%r14, %rbp
	jmp	.LBB10_17
	.p2align	4
.LBB10_18:
	movq	96(%rsp), %r13
.LBB10_17:
	leaq	72(%rsp), %rdi
	movq	%r15, %rsi
	movq	%rbp, %rdx
	movq	%r13, %rcx
	callq	"wire::read_field"
	movzbl	72(%rsp), %eax
	leaq	.LJTI10_3(%rip), %rcx
	movslq	(%rcx,%rax,4), %rax
	addq	%rcx, %rax
	jmpq	*%rax
.LBB10_19:
	movq	80(%rsp), %r13
	jmp	.LBB10_17
	.p2align	4
.LBB10_20:
	cmpq	%r12, %r14
	movq	%r12, %rbp
	cmovbq	%r14, %rbp
	jmp	.LBB10_21
	.p2align	4
.LBB10_22:
	movq	96(%rsp), %r13
.LBB10_21:
	leaq	72(%rsp), %rdi
	movq	%r15, %rsi
	movq	%rbp, %rdx
	movq	%r13, %rcx
	callq	"wire::read_field"
	movzbl	72(%rsp), %eax
	leaq	.LJTI10_2(%rip), %rcx
	movslq	(%rcx,%rax,4), %rax
	addq	%rcx, %rax
	jmpq	*%rax
.LBB10_23:
	movq	80(%rsp), %r13
	jmp	.LBB10_21
.LBB10_24:
	cmpq	$1, %rax
	movq	40(%rsp), %rax
	cmoveq	%r13, %rax
	movq	%rax, 40(%rsp)
	jmp	.LBB10_6
.LBB10_5:
	movq	%r13, 64(%rsp)
	movq	%r12, 56(%rsp)
	jmp	.LBB10_6
.LBB10_11:
	cmpq	%r12, %r14
	movq	%r12, %rbp
	cmovbq	%r14, %rbp
	movq	%r13, %rcx
	jmp	.LBB10_12
	.p2align	4
.LBB10_14:
	movq	80(%rsp), %rcx
.LBB10_12:
	leaq	72(%rsp), %rdi
	movq	%r15, %rsi
	movq	%rbp, %rdx
	callq	"wire::read_field"
	movzbl	72(%rsp), %eax
	leaq	.LJTI10_4(%rip), %rcx
	movslq	(%rcx,%rax,4), %rax
	addq	%rcx, %rax
	jmpq	*%rax
.LBB10_13:
	movq	96(%rsp), %rcx
	jmp	.LBB10_12
.LBB10_15:
	movl	$1, %ecx
	movq	%r15, %rdi
	movq	%rbp, %rsi
	movq	%r13, %rdx
	movq	32(%rsp), %r8
	movq	24(%rsp), %r9
	callq	"wire::last_bytes"
	movq	%rax, 32(%rsp)
	movq	%rdx, 24(%rsp)
	movl	$2, %ecx
	movq	%r15, %rdi
	movq	%rbp, %rsi
	movq	%r13, %rdx
	movq	16(%rsp), %r8
	movq	8(%rsp), %r9
	callq	"wire::last_bytes"
	movq	%rax, 16(%rsp)
	movq	%rdx, 8(%rsp)
	movb	$1, %al
	movq	%rax, 48(%rsp)
	jmp	.LBB10_6
.LBB10_25:
	movw	$1281, (%rbx)
.LBB10_2:
	xorps	%xmm0, %xmm0
	movups	%xmm0, 8(%rbx)
	movups	%xmm0, 24(%rbx)
	movups	%xmm0, 40(%rbx)
	movups	%xmm0, 56(%rbx)
.LBB10_3:
	addq	$136, %rsp
	popq	%rbx
	popq	%r12
	popq	%r13
	popq	%r14
	popq	%r15
	popq	%rbp
	retq
.LBB10_27:
	movq	40(%rsp), %rcx
	cmpq	$5, %rcx
	jbe	.LBB10_28
	movw	$1537, (%rbx)
	jmp	.LBB10_2
.LBB10_28:
	movzbl	48(%rsp), %eax
	movw	$0, (%rbx)
	movq	%rcx, 8(%rbx)
	movq	64(%rsp), %rcx
	movq	%rcx, 16(%rbx)
	movq	56(%rsp), %rcx
	movq	%rcx, 24(%rbx)
	movq	%rax, 32(%rbx)
	movq	32(%rsp), %rax
	movq	%rax, 40(%rbx)
	movq	24(%rsp), %rax
	movq	%rax, 48(%rbx)
	movq	16(%rsp), %rax
	movq	%rax, 56(%rbx)
	movq	8(%rsp), %rax
	movq	%rax, 64(%rbx)
	jmp	.LBB10_3
.Lfunc_end10:
	.size	"message::read", .Lfunc_end10-"message::read"
	.section	".rodata.message::read","a",@progbits
	.p2align	2, 0x0
.LJTI10_0:
	.long	.LBB10_27-.LJTI10_0
	.long	.LBB10_25-.LJTI10_0
	.long	.LBB10_8-.LJTI10_0
	.long	.LBB10_8-.LJTI10_0
	.long	.LBB10_7-.LJTI10_0
.LJTI10_1:
	.long	.LBB10_5-.LJTI10_1
	.long	.LBB10_11-.LJTI10_1
	.long	.LBB10_6-.LJTI10_1
	.long	.LBB10_6-.LJTI10_1
	.long	.LBB10_6-.LJTI10_1
	.long	.LBB10_6-.LJTI10_1
	.long	.LBB10_16-.LJTI10_1
	.long	.LBB10_20-.LJTI10_1
.LJTI10_2:
	.long	.LBB10_6-.LJTI10_2
	.long	.LBB10_25-.LJTI10_2
	.long	.LBB10_22-.LJTI10_2
	.long	.LBB10_22-.LJTI10_2
	.long	.LBB10_23-.LJTI10_2
.LJTI10_3:
	.long	.LBB10_6-.LJTI10_3
	.long	.LBB10_25-.LJTI10_3
	.long	.LBB10_18-.LJTI10_3
	.long	.LBB10_18-.LJTI10_3
	.long	.LBB10_19-.LJTI10_3
.LJTI10_4:
	.long	.LBB10_15-.LJTI10_4
	.long	.LBB10_25-.LJTI10_4
	.long	.LBB10_13-.LJTI10_4
	.long	.LBB10_13-.LJTI10_4
	.long	.LBB10_14-.LJTI10_4

	.section	".text.wire::read_field","ax",@progbits
	.p2align	4
	.type	"wire::read_field",@function
"wire::read_field":
	pushq	%r15
	pushq	%r14
	pushq	%r12
	pushq	%rbx
	subq	$56, %rsp
	movq	%rdi, %rbx
	cmpq	%rcx, %rdx
	jbe	.LBB11_5
	movq	%rcx, %r12
	leaq	32(%rsp), %rdi
	movq	%rsi, %r15
	movq	%rdx, %r14
	callq	"wire::read_varint"
	movl	$1, %eax
	cmpb	$1, 32(%rsp)
	jne	.LBB11_11
	movq	48(%rsp), %rcx
	addq	$5, %r12
	cmpq	%rcx, %r12
	jb	.LBB11_4
	movq	40(%rsp), %rdx
	movq	%rdx, %rsi
	shrq	$32, %rsi
	je	.LBB11_6
.LBB11_4:
	movq	$1, (%rbx)
	xorps	%xmm0, %xmm0
	movups	%xmm0, 8(%rbx)
	movq	$0, 24(%rbx)
	jmp	.LBB11_15
.LBB11_5:
	xorps	%xmm0, %xmm0
	movups	%xmm0, 16(%rbx)
	movups	%xmm0, (%rbx)
	jmp	.LBB11_15
.LBB11_6:
	movq	%rdx, %r12
	shrq	$3, %r12
	je	.LBB11_11
	andl	$7, %edx
	xorl	%edi, %edi
	cmpq	$5, %rdx
	ja	.LBB11_12
	leaq	.LJTI11_0(%rip), %rsi
	movslq	(%rsi,%rdx,4), %r8
	addq	%rsi, %r8
	xorl	%edx, %edx
	xorl	%esi, %esi
	jmpq	*%r8
.LBB11_9:
	leaq	8(%rsp), %rdi
	movq	%r15, %rsi
	movq	%r14, %rdx
	callq	"wire::read_varint"
	cmpb	$1, 8(%rsp)
	jne	.LBB11_23
	movq	16(%rsp), %rdx
	movq	24(%rsp), %rsi
	movl	$2, %eax
	movq	%r12, %rdi
	jmp	.LBB11_14
.LBB11_11:
	xorl	%edi, %edi
.LBB11_12:
	xorl	%edx, %edx
.LBB11_13:
	xorl	%esi, %esi
.LBB11_14:
	movq	%rax, (%rbx)
	movq	%rdi, 8(%rbx)
	movq	%rdx, 16(%rbx)
	movq	%rsi, 24(%rbx)
.LBB11_15:
	addq	$56, %rsp
	popq	%rbx
	popq	%r12
	popq	%r14
	popq	%r15
	retq
.LBB11_16:
	leaq	8(%rsp), %rdi
	movq	%r15, %rsi
	movq	%r14, %rdx
	callq	"wire::read_varint"
	movl	$1, %eax
	cmpb	$1, 8(%rsp)
	jne	.LBB11_22
	movq	16(%rsp), %rsi
	movq	24(%rsp), %rdx
	subq	%rdx, %r14
	setae	%cl
	cmpq	%r14, %rsi
	setbe	%dil
	andb	%cl, %dil
	cmpb	$1, %dil
	jne	.LBB11_22
	addq	%rdx, %rsi
	movl	$3, %eax
	movq	%r12, %rdi
	jmp	.LBB11_14
.LBB11_19:
	subq	%rcx, %r14
	setae	%al
	cmpq	$8, %r14
	setae	%sil
	andb	%al, %sil
	addq	$8, %rcx
	jmp	.LBB11_21
.LBB11_20:
	subq	%rcx, %r14
	setae	%al
	cmpq	$4, %r14
	setae	%sil
	andb	%al, %sil
	addq	$4, %rcx
.LBB11_21:
	xorl	%edx, %edx
	testb	%sil, %sil
	cmoveq	%rdx, %rcx
	movzbl	%sil, %eax
	leaq	(%rax,%rax,2), %rax
	incq	%rax
	movq	%rcx, %rdi
	jmp	.LBB11_13
.LBB11_23:
	movl	$1, %eax
.LBB11_22:
	xorl	%r12d, %r12d
	xorl	%edx, %edx
	xorl	%esi, %esi
	movq	%r12, %rdi
	jmp	.LBB11_14
.Lfunc_end11:
	.size	"wire::read_field", .Lfunc_end11-"wire::read_field"
	.section	".rodata.wire::read_field","a",@progbits
	.p2align	2, 0x0
.LJTI11_0:
	.long	.LBB11_9-.LJTI11_0
	.long	.LBB11_19-.LJTI11_0
	.long	.LBB11_16-.LJTI11_0
	.long	.LBB11_14-.LJTI11_0
	.long	.LBB11_14-.LJTI11_0
	.long	.LBB11_20-.LJTI11_0

	.section	".text.wire::read_varint","ax",@progbits
	.p2align	4
	.type	"wire::read_varint",@function
"wire::read_varint":
	cmpq	%rcx, %rdx
	jbe	.LBB12_28
	movzbl	(%rsi,%rcx), %eax
	testb	%al, %al
	js	.LBB12_4
	movl	$1, %r9d
	movq	%rax, %r8
	xorl	%eax, %eax
.LBB12_3:
	imulq	%r9, %r8
	addq	%rax, %r8
	incq	%rcx
	movq	$1, (%rdi)
	movq	%r8, 8(%rdi)
	movq	%rcx, 16(%rdi)
	retq
.LBB12_4:
	leaq	1(%rcx), %r10
	cmpq	%r10, %rdx
	jbe	.LBB12_28
	addq	$-128, %rax
	movzbl	(%rsi,%r10), %r8d
	movl	$128, %r9d
	testb	%r8b, %r8b
	js	.LBB12_7
.LBB12_6:
	movq	%r10, %rcx
	jmp	.LBB12_3
.LBB12_7:
	leaq	2(%rcx), %r10
	cmpq	%r10, %rdx
	jbe	.LBB12_28
	shll	$7, %r8d
	addq	$-16384, %r8
	orq	%r8, %rax
	movzbl	(%rsi,%r10), %r8d
	movl	$16384, %r9d
	testb	%r8b, %r8b
	jns	.LBB12_6
	leaq	3(%rcx), %r10
	cmpq	%r10, %rdx
	jbe	.LBB12_28
	shll	$14, %r8d
	addq	$-2097152, %r8
	orq	%r8, %rax
	movzbl	(%rsi,%r10), %r8d
	movl	$2097152, %r9d
	testb	%r8b, %r8b
	jns	.LBB12_6
	leaq	4(%rcx), %r10
	cmpq	%r10, %rdx
	jbe	.LBB12_28
	shll	$21, %r8d
	addq	$-268435456, %r8
	movq	%r8, %r11
	orq	%rax, %r11
	movzbl	(%rsi,%r10), %r8d
	movl	$268435456, %r9d
	testb	%r8b, %r8b
	js	.LBB12_16
	movq	%r11, %rax
	movq	%r10, %rcx
	jmp	.LBB12_3
.LBB12_16:
	leaq	5(%rcx), %r10
	cmpq	%r10, %rdx
	jbe	.LBB12_28
	shlq	$28, %r8
	movabsq	$-34359738368, %rax
	addq	%r8, %rax
	addq	%r11, %rax
	movzbl	(%rsi,%r10), %r8d
	testb	%r8b, %r8b
	js	.LBB12_19
	movabsq	$34359738368, %r9
	movq	%r10, %rcx
	jmp	.LBB12_3
.LBB12_19:
	leaq	6(%rcx), %r10
	cmpq	%r10, %rdx
	jbe	.LBB12_28
	shlq	$35, %r8
	movabsq	$-4398046511104, %r9
	addq	%r8, %r9
	addq	%r9, %rax
	movzbl	(%rsi,%r10), %r8d
	testb	%r8b, %r8b
	js	.LBB12_22
	movabsq	$4398046511104, %r9
	movq	%r10, %rcx
	jmp	.LBB12_3
.LBB12_22:
	leaq	7(%rcx), %r10
	cmpq	%r10, %rdx
	jbe	.LBB12_28
	shlq	$42, %r8
	movabsq	$-562949953421312, %r9
	addq	%r8, %r9
	addq	%r9, %rax
	movzbl	(%rsi,%r10), %r8d
	testb	%r8b, %r8b
	js	.LBB12_25
	movabsq	$562949953421312, %r9
	movq	%r10, %rcx
	jmp	.LBB12_3
.LBB12_25:
	leaq	8(%rcx), %r10
	cmpq	%r10, %rdx
	jbe	.LBB12_28
	shlq	$49, %r8
	movabsq	$-72057594037927936, %r9
	addq	%r8, %r9
	addq	%r9, %rax
	movzbl	(%rsi,%r10), %r8d
	testb	%r8b, %r8b
	js	.LBB12_29
	movabsq	$72057594037927936, %r9
	movq	%r10, %rcx
	jmp	.LBB12_3
.LBB12_28:
	xorps	%xmm0, %xmm0
	movups	%xmm0, (%rdi)
	movq	$0, 16(%rdi)
	retq
.LBB12_29:
	leaq	9(%rcx), %r9
	cmpq	%r9, %rdx
	jbe	.LBB12_32
	movzbl	(%rsi,%r9), %edx
	cmpq	$1, %rdx
	ja	.LBB12_32
	andl	$127, %r8d
	shlq	$56, %r8
	addq	%rax, %r8
	shlq	$63, %rdx
	addq	%r8, %rdx
	addq	$10, %rcx
	movl	$1, %eax
	movq	%rax, (%rdi)
	movq	%rdx, 8(%rdi)
	movq	%rcx, 16(%rdi)
	retq
.LBB12_32:
	xorl	%eax, %eax
	xorl	%edx, %edx
	xorl	%ecx, %ecx
	movq	%rax, (%rdi)
	movq	%rdx, 8(%rdi)
	movq	%rcx, 16(%rdi)
	retq
.Lfunc_end12:
	.size	"wire::read_varint", .Lfunc_end12-"wire::read_varint"

	.section	".text.wire::last_bytes","ax",@progbits
	.p2align	4
	.type	"wire::last_bytes",@function
"wire::last_bytes":
	pushq	%rbp
	pushq	%r15
	pushq	%r14
	pushq	%r13
	pushq	%r12
	pushq	%rbx
	subq	$24, %rsp
	movq	%r9, %rbx
	movq	%r8, %rax
	movq	%rcx, %r14
	movq	%rsi, %r15
	movq	%rdi, %r12
	cmpq	%rdx, %rsi
	jbe	.LBB13_54
.LBB13_2:
	movq	%rax, %r13
	jmp	.LBB13_3
	.p2align	4
.LBB13_50:
	addq	$4, %rcx
.LBB13_51:
	movq	%rcx, %rdx
.LBB13_52:
	cmpq	%rdx, %r15
	jbe	.LBB13_53
.LBB13_3:
	movzbl	(%r12,%rdx), %ecx
	testb	%cl, %cl
	js	.LBB13_6
	movl	$1, %edi
	movq	%rcx, %rax
	xorl	%ecx, %ecx
	movq	%rdx, %rsi
	jmp	.LBB13_5
	.p2align	4
.LBB13_6:
	leaq	1(%rdx), %rsi
	cmpq	%rsi, %r15
	jbe	.LBB13_53
	addq	$-128, %rcx
	movzbl	(%r12,%rsi), %eax
	movl	$128, %edi
	testb	%al, %al
	jns	.LBB13_5
	leaq	2(%rdx), %rsi
	cmpq	%rsi, %r15
	jbe	.LBB13_53
	shll	$7, %eax
	addq	$-16384, %rax
	orq	%rax, %rcx
	movzbl	(%r12,%rsi), %eax
	movl	$16384, %edi
	testb	%al, %al
	jns	.LBB13_5
	leaq	3(%rdx), %rsi
	cmpq	%rsi, %r15
	jbe	.LBB13_53
	shll	$14, %eax
	addq	$-2097152, %rax
	movq	%rax, %r8
	orq	%rcx, %r8
	movzbl	(%r12,%rsi), %eax
	movl	$2097152, %edi
	testb	%al, %al
	js	.LBB13_13
	movq	%r8, %rcx
	jmp	.LBB13_5
.LBB13_13:
	leaq	4(%rdx), %rsi
	cmpq	%rsi, %r15
	jbe	.LBB13_53
	shll	$21, %eax
	addq	$-268435456, %rax
	movq	%rax, %rcx
	orq	%r8, %rcx
	movzbl	(%r12,%rsi), %eax
	movl	$268435456, %edi
	testb	%al, %al
	jns	.LBB13_5
	leaq	5(%rdx), %rsi
	cmpq	%rsi, %r15
	jbe	.LBB13_53
	shlq	$28, %rax
	movabsq	$-34359738368, %rdi
	addq	%rax, %rdi
	addq	%rdi, %rcx
	movzbl	(%r12,%rsi), %eax
	testb	%al, %al
	js	.LBB13_18
	movabsq	$34359738368, %rdi
	jmp	.LBB13_5
.LBB13_18:
	leaq	6(%rdx), %rsi
	cmpq	%rsi, %r15
	jbe	.LBB13_53
	shlq	$35, %rax
	movabsq	$-4398046511104, %rdi
	addq	%rax, %rdi
	addq	%rdi, %rcx
	movzbl	(%r12,%rsi), %eax
	testb	%al, %al
	js	.LBB13_21
	movabsq	$4398046511104, %rdi
	jmp	.LBB13_5
.LBB13_21:
	leaq	7(%rdx), %rsi
	cmpq	%rsi, %r15
	jbe	.LBB13_53
	shlq	$42, %rax
	movabsq	$-562949953421312, %rdi
	addq	%rax, %rdi
	addq	%rdi, %rcx
	movzbl	(%r12,%rsi), %eax
	testb	%al, %al
	js	.LBB13_24
	movabsq	$562949953421312, %rdi
	jmp	.LBB13_5
.LBB13_24:
	leaq	8(%rdx), %rsi
	cmpq	%rsi, %r15
	jbe	.LBB13_53
	shlq	$49, %rax
	movabsq	$-72057594037927936, %rdi
	addq	%rax, %rdi
	addq	%rdi, %rcx
	movzbl	(%r12,%rsi), %eax
	testb	%al, %al
	js	.LBB13_27
	movabsq	$72057594037927936, %rdi
	.p2align	4
.LBB13_5:
	imulq	%rdi, %rax
	addq	%rcx, %rax
	leaq	1(%rsi), %rcx
	addq	$5, %rdx
	cmpq	%rsi, %rdx
	setbe	%sil
	testb	%sil, %sil
	jne	.LBB13_53
.LBB13_31:
	movq	%rax, %rdx
	shrq	$32, %rdx
	jne	.LBB13_53
	movq	%rax, %rbp
	shrq	$3, %rbp
	je	.LBB13_53
	andl	$7, %eax
	cmpq	$5, %rax
	ja	.LBB13_53
	leaq	.LJTI13_0(%rip), %rdx
	movslq	(%rdx,%rax,4), %rax
	addq	%rdx, %rax
	jmpq	*%rax
.LBB13_35:
	movq	%rsp, %rdi
	movq	%r12, %rsi
	movq	%r15, %rdx
	callq	"wire::read_varint"
	cmpb	$1, (%rsp)
	jne	.LBB13_36
	movq	8(%rsp), %rax
	movq	16(%rsp), %rdx
	movb	$2, %cl
	jmp	.LBB13_38
	.p2align	4
.LBB13_41:
	movq	%r15, %rax
	subq	%rcx, %rax
	jb	.LBB13_53
	cmpq	$7, %rax
	jbe	.LBB13_53
	addq	$8, %rcx
	jmp	.LBB13_51
	.p2align	4
.LBB13_48:
	movq	%r15, %rax
	subq	%rcx, %rax
	jb	.LBB13_53
	cmpq	$3, %rax
	ja	.LBB13_50
	jmp	.LBB13_53
	.p2align	4
.LBB13_44:
	movq	%rsp, %rdi
	movq	%r12, %rsi
	movq	%r15, %rdx
	callq	"wire::read_varint"
	movb	$1, %cl
	cmpb	$1, (%rsp)
	jne	.LBB13_45
	movq	8(%rsp), %rdx
	movq	16(%rsp), %rax
	movq	%r15, %rsi
	subq	%rax, %rsi
	setae	%dil
	cmpq	%rsi, %rdx
	setbe	%sil
	andb	%dil, %sil
	cmpb	$1, %sil
	jne	.LBB13_45
	addq	%rax, %rdx
	movb	$3, %cl
	jmp	.LBB13_38
.LBB13_36:
	movb	$1, %cl
.LBB13_45:
	xorl	%ebp, %ebp
	xorl	%eax, %eax
	xorl	%edx, %edx
.LBB13_38:
	cmpb	$1, %cl
	je	.LBB13_53
	cmpb	$3, %cl
	jne	.LBB13_52
	cmpq	%r14, %rbp
	jne	.LBB13_52
	jmp	.LBB13_1
.LBB13_27:
	leaq	9(%rdx), %rsi
	cmpq	%rsi, %r15
	jbe	.LBB13_53
	movzbl	(%r12,%rsi), %esi
	cmpq	$1, %rsi
	ja	.LBB13_53
	andl	$127, %eax
	shlq	$56, %rax
	addq	%rcx, %rax
	shlq	$63, %rsi
	orq	%rsi, %rax
	addq	$10, %rdx
	movb	$1, %sil
	movq	%rdx, %rcx
	testb	%sil, %sil
	je	.LBB13_31
	jmp	.LBB13_53
.LBB13_1:
	movq	%rdx, %rbx
	cmpq	%rdx, %r15
	ja	.LBB13_2
	jmp	.LBB13_54
.LBB13_53:
	movq	%r13, %rax
.LBB13_54:
	movq	%rbx, %rdx
	addq	$24, %rsp
	popq	%rbx
	popq	%r12
	popq	%r13
	popq	%r14
	popq	%r15
	popq	%rbp
	retq
.Lfunc_end13:
	.size	"wire::last_bytes", .Lfunc_end13-"wire::last_bytes"
	.section	".rodata.wire::last_bytes","a",@progbits
	.p2align	2, 0x0
.LJTI13_0:
	.long	.LBB13_35-.LJTI13_0
	.long	.LBB13_41-.LJTI13_0
	.long	.LBB13_44-.LJTI13_0
	.long	.LBB13_53-.LJTI13_0
	.long	.LBB13_53-.LJTI13_0
	.long	.LBB13_48-.LJTI13_0

	.section	".text.lookup_in_place::make_gap","ax",@progbits
	.p2align	4
	.type	"lookup_in_place::make_gap",@function
"lookup_in_place::make_gap":
	movq	%rdx, %rax
	subq	%rsi, %rax
	cmpq	$-98, %rsi
	jae	.LBB14_1
	testq	%rax, %rax
	je	.LBB14_21
	cmpq	$8, %rax
	jae	.LBB14_8
.LBB14_18:
	movq	%rax, %r8
	jmp	.LBB14_19
.LBB14_1:
	leaq	(%rdi,%rsi), %r8
	movl	%eax, %ecx
	andl	$65528, %ecx
	xorl	%r9d, %r9d
	.p2align	4
.LBB14_2:
	movq	(%r8,%r9), %r10
	movq	%r10, 98(%r8,%r9)
	addq	$8, %r9
	cmpq	%r9, %rcx
	jne	.LBB14_2
	cmpq	%rcx, %rax
	je	.LBB14_21
	addq	%rcx, %rsi
	.p2align	4
.LBB14_5:
	movzbl	(%rdi,%rsi), %eax
	movb	%al, 98(%rdi,%rsi)
	incq	%rsi
	cmpq	%rsi, %rdx
	jne	.LBB14_5
	jmp	.LBB14_21
.LBB14_8:
	cmpq	$32, %rax
	jae	.LBB14_13
	xorl	%ecx, %ecx
	jmp	.LBB14_10
.LBB14_13:
	movq	%rax, %rcx
	andq	$-32, %rcx
	leaq	(%rdx,%rdi), %r8
	addq	$82, %r8
	movq	%rcx, %r9
	negq	%r9
	xorl	%r10d, %r10d
	.p2align	4
.LBB14_14:
	movups	-114(%r8,%r10), %xmm0
	movups	-98(%r8,%r10), %xmm1
	movups	%xmm1, (%r8,%r10)
	movups	%xmm0, -16(%r8,%r10)
	addq	$-32, %r10
	cmpq	%r10, %r9
	jne	.LBB14_14
	cmpq	%rcx, %rax
	je	.LBB14_21
	testb	$24, %al
	je	.LBB14_17
.LBB14_10:
	movq	%rax, %r9
	andq	$-8, %r9
	movl	%eax, %r8d
	andl	$7, %r8d
	addq	%rdi, %rdx
	addq	$90, %rdx
	negq	%rcx
	movq	%r9, %r10
	negq	%r10
	.p2align	4
.LBB14_11:
	movq	-98(%rdx,%rcx), %r11
	movq	%r11, (%rdx,%rcx)
	addq	$-8, %rcx
	cmpq	%rcx, %r10
	jne	.LBB14_11
	cmpq	%r9, %rax
	je	.LBB14_21
.LBB14_19:
	leaq	(%rsi,%rdi), %rax
	addq	$97, %rax
	movq	%r8, %rcx
	.p2align	4
.LBB14_20:
	decq	%rcx
	movzbl	-98(%rax,%r8), %edx
	movb	%dl, (%rax,%r8)
	movq	%rcx, %r8
	jne	.LBB14_20
.LBB14_21:
	retq
.LBB14_17:
	andl	$31, %eax
	jmp	.LBB14_18
.Lfunc_end14:
	.size	"lookup_in_place::make_gap", .Lfunc_end14-"lookup_in_place::make_gap"

	.section	".text.lookup_in_place::put_lookup","ax",@progbits
	.p2align	4
	.type	"lookup_in_place::put_lookup",@function
"lookup_in_place::put_lookup":
	pushq	%rbp
	pushq	%r15
	pushq	%r14
	pushq	%r13
	pushq	%r12
	pushq	%rbx
	subq	$632, %rsp
	movq	%r9, 8(%rsp)
	movq	%r8, %r12
	movq	%rcx, %r13
	movq	%rdi, %r14
	movq	704(%rsp), %r15
	movq	688(%rsp), %rbx
	movq	696(%rsp), %rax
	movups	112(%rsi), %xmm0
	movaps	%xmm0, 416(%rsp)
	movups	96(%rsi), %xmm0
	movaps	%xmm0, 400(%rsp)
	movups	80(%rsi), %xmm0
	movaps	%xmm0, 384(%rsp)
	movups	64(%rsi), %xmm0
	movaps	%xmm0, 368(%rsp)
	movups	(%rsi), %xmm0
	movups	16(%rsi), %xmm1
	movups	32(%rsi), %xmm2
	movups	48(%rsi), %xmm3
	movaps	%xmm3, 352(%rsp)
	movaps	%xmm2, 336(%rsp)
	movaps	%xmm1, 320(%rsp)
	movaps	%xmm0, 304(%rsp)
	movups	(%rdx), %xmm0
	movups	16(%rdx), %xmm1
	movaps	%xmm1, 224(%rsp)
	movaps	%xmm0, 208(%rsp)
	leaq	472(%rsp), %rdi
	movl	$160, %edx
	movq	%rax, %rsi
	callq	memcpy@PLT
	movw	%r15w, (%r14)
	movb	%r13b, 2(%r14)
	movb	%r12b, 3(%r14)
	movl	$0, 4(%r14)
	movaps	304(%rsp), %xmm0
	movaps	320(%rsp), %xmm1
	movaps	336(%rsp), %xmm2
	movaps	352(%rsp), %xmm3
	movups	%xmm0, 8(%r14)
	movups	%xmm1, 24(%r14)
	movups	%xmm2, 40(%r14)
	movups	%xmm3, 56(%r14)
	movaps	368(%rsp), %xmm0
	movups	%xmm0, 72(%r14)
	movaps	384(%rsp), %xmm0
	movups	%xmm0, 88(%r14)
	movaps	400(%rsp), %xmm0
	movups	%xmm0, 104(%r14)
	movaps	416(%rsp), %xmm0
	movups	%xmm0, 120(%r14)
	movaps	208(%rsp), %xmm0
	movaps	224(%rsp), %xmm1
	movups	%xmm1, 152(%r14)
	movups	%xmm0, 136(%r14)
	movabsq	$7666179355307865607, %rcx
	movq	%rbx, %rax
	mulq	%rcx
	movq	%rdx, %r12
	shrq	$8, %r12
	addq	$168, %r14
	xorl	%ebp, %ebp
	jmp	.LBB15_3
	.p2align	4
.LBB15_1:
	xorps	%xmm0, %xmm0
	movaps	%xmm0, 160(%rsp)
	movaps	%xmm0, 144(%rsp)
	movaps	%xmm0, 128(%rsp)
	movaps	%xmm0, 112(%rsp)
	movaps	%xmm0, 96(%rsp)
	movaps	%xmm0, 80(%rsp)
	xorl	%r13d, %r13d
.LBB15_2:
	movb	$0, (%r14)
	movb	%r13b, 1(%r14)
	movaps	80(%rsp), %xmm0
	movaps	96(%rsp), %xmm1
	movaps	112(%rsp), %xmm2
	movaps	128(%rsp), %xmm3
	movups	%xmm0, 2(%r14)
	movups	%xmm1, 18(%r14)
	movups	%xmm2, 34(%r14)
	movups	%xmm3, 50(%r14)
	leaq	144(%rsp), %rax
	movups	(%rax), %xmm0
	movups	16(%rax), %xmm1
	movups	%xmm0, 66(%r14)
	movups	%xmm1, 82(%r14)
	incq	%rbp
	addq	$98, %r14
	cmpq	$256, %rbp
	je	.LBB15_23
.LBB15_3:
	leaq	304(%rsp), %rdi
	leaq	472(%rsp), %rsi
	movl	$160, %edx
	callq	memcpy@PLT
	cmpq	%r15, %rbp
	jae	.LBB15_1
	movq	304(%rsp,%rbp,8), %rbx
	cmpq	%r12, %rbx
	jae	.LBB15_11
	imulq	$616, %rbx, %rsi
	movl	$616, %eax
.LBB15_6:
	movq	8(%rsp), %rcx
	movzbl	2(%rcx,%rsi), %ecx
	cmpb	$64, %cl
	jb	.LBB15_8
	movl	$64, %ecx
.LBB15_8:
	movzbl	%cl, %r13d
	leaq	-40(%rax), %rcx
	cmpq	%r13, %rcx
	cmovbq	%rcx, %r13
	cmpq	$40, %rax
	jb	.LBB15_13
	xorps	%xmm0, %xmm0
	movaps	%xmm0, 64(%rsp)
	movaps	%xmm0, 48(%rsp)
	movaps	%xmm0, 32(%rsp)
	movaps	%xmm0, 16(%rsp)
	testq	%r13, %r13
	je	.LBB15_14
	addq	8(%rsp), %rsi
	addq	$40, %rsi
	leaq	16(%rsp), %rdi
	movq	%r13, %rdx
	callq	memcpy@PLT
	jmp	.LBB15_15
	.p2align	4
.LBB15_11:
	ja	.LBB15_13
	imulq	$616, %rbx, %rsi
	movq	688(%rsp), %rax
	subq	%rsi, %rax
	cmpq	$3, %rax
	jae	.LBB15_6
	.p2align	4
.LBB15_13:
	xorps	%xmm0, %xmm0
	movaps	%xmm0, 64(%rsp)
	movaps	%xmm0, 48(%rsp)
	movaps	%xmm0, 32(%rsp)
	movaps	%xmm0, 16(%rsp)
.LBB15_14:
	xorl	%r13d, %r13d
.LBB15_15:
	xorps	%xmm0, %xmm0
	movaps	%xmm0, 192(%rsp)
	movaps	%xmm0, 176(%rsp)
	cmpq	%r12, %rbx
	jae	.LBB15_18
	imulq	$616, %rbx, %rax
	movl	$32, %edx
.LBB15_17:
	movq	8(%rsp), %rcx
	leaq	(%rcx,%rax), %rsi
	addq	$8, %rsi
	leaq	176(%rsp), %rdi
	callq	memcpy@PLT
	jmp	.LBB15_21
	.p2align	4
.LBB15_18:
	ja	.LBB15_21
	imulq	$616, %rbx, %rax
	movq	688(%rsp), %rcx
	subq	%rax, %rcx
	cmpq	$8, %rcx
	jb	.LBB15_21
	addq	$-8, %rcx
	cmpq	$32, %rcx
	movl	$32, %edx
	cmovbq	%rcx, %rdx
	testq	%rcx, %rcx
	jne	.LBB15_17
	.p2align	4
.LBB15_21:
	movaps	16(%rsp), %xmm0
	movaps	32(%rsp), %xmm1
	movaps	48(%rsp), %xmm2
	movaps	64(%rsp), %xmm3
	movaps	%xmm3, 256(%rsp)
	movaps	%xmm2, 240(%rsp)
	movaps	%xmm1, 224(%rsp)
	movaps	%xmm0, 208(%rsp)
	movaps	176(%rsp), %xmm0
	movaps	192(%rsp), %xmm1
	leaq	272(%rsp), %rax
	movups	%xmm1, 16(%rax)
	movups	%xmm0, (%rax)
	movaps	208(%rsp), %xmm0
	movaps	224(%rsp), %xmm1
	movaps	240(%rsp), %xmm2
	movaps	256(%rsp), %xmm3
	movaps	%xmm0, 80(%rsp)
	movaps	%xmm1, 96(%rsp)
	movaps	%xmm2, 112(%rsp)
	movaps	%xmm3, 128(%rsp)
	movaps	272(%rsp), %xmm0
	movaps	%xmm0, 144(%rsp)
	movaps	288(%rsp), %xmm0
	movaps	%xmm0, 160(%rsp)
	jmp	.LBB15_2
.LBB15_23:
	addq	$632, %rsp
	popq	%rbx
	popq	%r12
	popq	%r13
	popq	%r14
	popq	%r15
	popq	%rbp
	retq
.Lfunc_end15:
	.size	"lookup_in_place::put_lookup", .Lfunc_end15-"lookup_in_place::put_lookup"

	.section	".text.contacts::nearest","ax",@progbits
	.p2align	4
	.type	"contacts::nearest",@function
"contacts::nearest":
	pushq	%rbp
	pushq	%r15
	pushq	%r14
	pushq	%r13
	pushq	%r12
	pushq	%rbx
	subq	$344, %rsp
	movq	%rcx, (%rsp)
	movq	%rdi, 8(%rsp)
	xorps	%xmm0, %xmm0
	movaps	%xmm0, 160(%rsp)
	movaps	%xmm0, 144(%rsp)
	movaps	%xmm0, 128(%rsp)
	movaps	%xmm0, 112(%rsp)
	movaps	%xmm0, 96(%rsp)
	movaps	%xmm0, 80(%rsp)
	movaps	%xmm0, 64(%rsp)
	movaps	%xmm0, 48(%rsp)
	movaps	%xmm0, 32(%rsp)
	movaps	%xmm0, 16(%rsp)
	movl	%edx, %eax
	imulq	$892460737, %rax, %rax
	shrq	$39, %rax
	cmpq	$3153920, %rdx
	movl	$5120, %ebp
	cmovbq	%rax, %rbp
	testq	%rbp, %rbp
	je	.LBB16_21
	movq	%rsi, %rbx
	xorl	%r12d, %r12d
	movq	%rsi, %r15
	xorl	%r13d, %r13d
	jmp	.LBB16_4
.LBB16_8:
	leaq	16(%rsp), %rdx
	movq	%rbx, %rdi
	movq	(%rsp), %rsi
	movq	%r13, %rcx
	movq	%r12, %r8
	callq	"contacts::add"
	incq	%r13
	.p2align	4
.LBB16_2:
	movq	%r13, %r14
.LBB16_3:
	incq	%r12
	addq	$616, %r15
	movq	%r14, %r13
	cmpq	%r12, %rbp
	je	.LBB16_22
.LBB16_4:
	cmpb	$0, (%r15)
	je	.LBB16_2
	cmpb	$0, 1(%r15)
	jne	.LBB16_2
	cmpq	$19, %r13
	jbe	.LBB16_8
	movq	(%rsp), %rax
	movzbl	(%rax), %eax
	imulq	$616, 168(%rsp), %rdx
	movzbl	8(%r15), %ecx
	xorb	%al, %cl
	xorb	8(%rbx,%rdx), %al
	movl	$20, %r14d
	cmpb	%cl, %al
	jb	.LBB16_3
	ja	.LBB16_20
	movq	8(%rbx,%rdx), %rax
	movq	8(%r15), %rcx
	cmpq	%rax, %rcx
	jne	.LBB16_16
	movq	16(%rbx,%rdx), %rax
	movq	16(%r15), %rcx
	cmpq	%rax, %rcx
	jne	.LBB16_17
	movq	24(%rbx,%rdx), %rax
	movq	24(%r15), %rcx
	cmpq	%rax, %rcx
	jne	.LBB16_18
	movq	32(%rbx,%rdx), %rax
	movq	32(%r15), %rcx
	cmpq	%rax, %rcx
	je	.LBB16_3
	bswapq	%rax
	bswapq	%rcx
	movq	(%rsp), %rdx
	movq	24(%rdx), %rdx
	jmp	.LBB16_19
.LBB16_16:
	bswapq	%rax
	bswapq	%rcx
	movq	(%rsp), %rdx
	movq	(%rdx), %rdx
	jmp	.LBB16_19
.LBB16_17:
	bswapq	%rax
	bswapq	%rcx
	movq	(%rsp), %rdx
	movq	8(%rdx), %rdx
	jmp	.LBB16_19
.LBB16_18:
	bswapq	%rax
	bswapq	%rcx
	movq	(%rsp), %rdx
	movq	16(%rdx), %rdx
.LBB16_19:
	bswapq	%rdx
	xorq	%rdx, %rax
	xorq	%rdx, %rcx
	cmpq	%rax, %rcx
	jae	.LBB16_3
.LBB16_20:
	leaq	16(%rsp), %rdx
	movq	%rbx, %rdi
	movq	(%rsp), %rsi
	movq	%r13, %rcx
	movq	%r12, %r8
	callq	"contacts::add"
	jmp	.LBB16_3
.LBB16_21:
	xorl	%r14d, %r14d
.LBB16_22:
	leaq	184(%rsp), %rbx
	leaq	16(%rsp), %rsi
	movl	$160, %edx
	movq	%rbx, %rdi
	callq	memcpy@PLT
	movl	$160, %edx
	movq	8(%rsp), %r15
	movq	%r15, %rdi
	movq	%rbx, %rsi
	callq	memcpy@PLT
	movq	%r14, 160(%r15)
	addq	$344, %rsp
	popq	%rbx
	popq	%r12
	popq	%r13
	popq	%r14
	popq	%r15
	popq	%rbp
	retq
.Lfunc_end16:
	.size	"contacts::nearest", .Lfunc_end16-"contacts::nearest"

	.section	".text.contacts::add","ax",@progbits
	.p2align	4
	.type	"contacts::add",@function
"contacts::add":
	testq	%rcx, %rcx
	je	.LBB17_19
	pushq	%rbp
	pushq	%r15
	pushq	%r14
	pushq	%r12
	pushq	%rbx
	imulq	$616, %r8, %r9
	movzbl	(%rsi), %r10d
	movzbl	8(%rdi,%r9), %r11d
	xorb	%r10b, %r11b
	xorl	%eax, %eax
	jmp	.LBB17_4
	.p2align	4
.LBB17_2:
	movq	%rbx, %rcx
	cmpq	%rcx, %rax
	jae	.LBB17_17
.LBB17_4:
	leaq	(%rcx,%rax), %rbx
	shrq	%rbx
	imulq	$616, (%rdx,%rbx,8), %r12
	movzbl	8(%rdi,%r12), %ebp
	xorb	%r10b, %bpl
	cmpb	%bpl, %r11b
	jb	.LBB17_2
	ja	.LBB17_15
	movq	8(%rdi,%r12), %r14
	movq	8(%rdi,%r9), %r15
	cmpq	%r14, %r15
	jne	.LBB17_11
	movq	16(%rdi,%r12), %r14
	movq	16(%rdi,%r9), %r15
	cmpq	%r14, %r15
	jne	.LBB17_12
	movq	24(%rdi,%r12), %r14
	movq	24(%rdi,%r9), %r15
	cmpq	%r14, %r15
	jne	.LBB17_13
	movq	32(%rdi,%r12), %r14
	movq	32(%rdi,%r9), %r15
	cmpq	%r14, %r15
	je	.LBB17_15
	bswapq	%r14
	bswapq	%r15
	movq	24(%rsi), %r12
	jmp	.LBB17_14
.LBB17_11:
	bswapq	%r14
	bswapq	%r15
	movq	(%rsi), %r12
	jmp	.LBB17_14
.LBB17_12:
	bswapq	%r14
	bswapq	%r15
	movq	8(%rsi), %r12
	jmp	.LBB17_14
.LBB17_13:
	bswapq	%r14
	bswapq	%r15
	movq	16(%rsi), %r12
	.p2align	4
.LBB17_14:
	bswapq	%r12
	xorq	%r12, %r14
	xorq	%r12, %r15
	cmpq	%r14, %r15
	jb	.LBB17_2
.LBB17_15:
	incq	%rbx
	movq	%rbx, %rax
	cmpq	%rcx, %rax
	jb	.LBB17_4
.LBB17_17:
	cmpq	$19, %rax
	popq	%rbx
	popq	%r12
	popq	%r14
	popq	%r15
	popq	%rbp
	ja	.LBB17_25
	movl	$20, %ecx
	subq	%rax, %rcx
	cmpq	$4, %rcx
	jb	.LBB17_24
	jmp	.LBB17_20
.LBB17_19:
	xorl	%eax, %eax
	movl	$20, %ecx
	subq	%rax, %rcx
	cmpq	$4, %rcx
	jb	.LBB17_24
.LBB17_20:
	movq	%rcx, %rsi
	andq	$-4, %rsi
	movq	%r8, %xmm0
	pshufd	$68, %xmm0, %xmm0
	leaq	(%rdx,%rax,8), %rdi
	addq	$16, %rdi
	addq	%rsi, %rax
	xorl	%r8d, %r8d
	.p2align	4
.LBB17_21:
	movdqa	%xmm0, %xmm1
	movups	-16(%rdi,%r8,8), %xmm2
	movups	(%rdi,%r8,8), %xmm0
	shufps	$78, %xmm2, %xmm1
	shufps	$78, %xmm0, %xmm2
	movups	%xmm1, -16(%rdi,%r8,8)
	movups	%xmm2, (%rdi,%r8,8)
	addq	$4, %r8
	cmpq	%r8, %rsi
	jne	.LBB17_21
	cmpq	%rsi, %rcx
	je	.LBB17_25
	pshufd	$238, %xmm0, %xmm0
	movq	%xmm0, %r8
	.p2align	4
.LBB17_24:
	movq	(%rdx,%rax,8), %rcx
	movq	%r8, (%rdx,%rax,8)
	incq	%rax
	movq	%rcx, %r8
	cmpq	$20, %rax
	jne	.LBB17_24
.LBB17_25:
	retq
.Lfunc_end17:
	.size	"contacts::add", .Lfunc_end17-"contacts::add"

	.section	".text.records::offer","ax",@progbits
	.p2align	4
	.type	"records::offer",@function
"records::offer":
	pushq	%rbp
	pushq	%r15
	pushq	%r14
	pushq	%r13
	pushq	%r12
	pushq	%rbx
	subq	$72, %rsp
	leaq	-129(%rcx), %rax
	movb	$8, %bpl
	cmpq	$-122, %rax
	jb	.LBB18_1
	movzwl	(%rdx), %eax
	movd	%eax, %xmm0
	pinsrw	$1, 4(%rdx), %xmm0
	movd	%xmm0, %eax
	cmpl	$795113263, %eax
	jne	.LBB18_1
	cmpb	$110, 3(%rdx)
	jne	.LBB18_1
	cmpb	$105, 2(%rdx)
	jne	.LBB18_1
	movq	%rdx, 16(%rsp)
	movq	%rcx, 24(%rsp)
	movq	%rsi, 32(%rsp)
	movq	%rdi, 8(%rsp)
	pxor	%xmm0, %xmm0
	movdqa	%xmm0, 48(%rsp)
	movq	$0, 64(%rsp)
	leaq	48(%rsp), %rdi
	movq	%r8, 40(%rsp)
	movq	%r8, %rsi
	movq	%r9, (%rsp)
	movq	%r9, %rdx
	callq	"recipe::fault"
	cmpb	$0, 48(%rsp)
	movb	$9, %bpl
	je	.LBB18_8
.LBB18_1:
	movb	$1, %al
.LBB18_97:
	movl	%ebp, %edx
	addq	$72, %rsp
	popq	%rbx
	popq	%r12
	popq	%r13
	popq	%r14
	popq	%r15
	popq	%rbp
	retq
.LBB18_8:
	movq	32(%rsp), %r9
	movl	%r9d, %eax
	movl	$2741924259, %ecx
	imulq	%rax, %rcx
	shrq	$43, %rcx
	cmpq	$821248, %r9
	movl	$256, %r15d
	cmovbq	%rcx, %r15
	testq	%r15, %r15
	movb	$1, %al
	je	.LBB18_32
	movq	8(%rsp), %rdi
	leaq	136(%rdi), %r13
	leaq	8(%rdi), %rbx
	xorl	%ebp, %ebp
	movq	(%rsp), %rcx
	movq	40(%rsp), %rdx
	movq	24(%rsp), %rsi
	movq	16(%rsp), %r10
	jmp	.LBB18_14
.LBB18_12:
	cmpq	%rsi, %r8
	jae	.LBB18_22
	.p2align	4
.LBB18_13:
	incq	%rbp
	addq	$3208, %r13
	addq	$3208, %rbx
	cmpq	%r15, %rbp
	je	.LBB18_29
.LBB18_14:
	imulq	$3208, %rbp, %r12
	movzbl	(%rdi,%r12), %r8d
	testq	%r8, %r8
	je	.LBB18_13
	cmpq	%r8, %rsi
	jne	.LBB18_13
	leaq	(%rdi,%r12), %r14
	cmpb	$3, %r8b
	ja	.LBB18_20
	xorl	%r8d, %r8d
	.p2align	4
.LBB18_18:
	movzbl	(%rbx,%r8), %r11d
	cmpb	(%r10,%r8), %r11b
	jne	.LBB18_12
	incq	%r8
	cmpq	%r8, %rsi
	jne	.LBB18_18
	jmp	.LBB18_22
.LBB18_20:
	leaq	8(%r14), %r8
	cmpl	$1852405551, (%r8)
	jne	.LBB18_13
	movq	%r8, %rdi
	movq	16(%rsp), %rdx
	callq	"core::cmp::slices::groups_equal::<i8,31'core::cmp::numbers::U8PartialEq{}>"
	movq	16(%rsp), %r10
	movq	24(%rsp), %rsi
	movq	32(%rsp), %r9
	movq	40(%rsp), %rdx
	movq	8(%rsp), %rdi
	movq	(%rsp), %rcx
	movl	%eax, %r8d
	movb	$1, %al
	testb	%r8b, %r8b
	je	.LBB18_13
.LBB18_22:
	cmpq	%r15, %rbp
	jae	.LBB18_29
	movzwl	2(%r14), %eax
	cmpl	$3072, %eax
	movl	$3072, %ebp
	cmovbl	%eax, %ebp
	addq	$136, %r14
	movq	%rcx, %r15
	cmpq	%rbp, %rcx
	jne	.LBB18_48
	cmpw	$4, %ax
	jae	.LBB18_41
	testw	%ax, %ax
	je	.LBB18_96
	movq	%rbp, %rcx
	xorl	%r8d, %r8d
.LBB18_27:
	movzbl	(%r13), %eax
	cmpb	(%rdx,%r8), %al
	jne	.LBB18_47
	incq	%r8
	incq	%r13
	xorl	%eax, %eax
	movl	$0, %ebp
	cmpq	%r8, %r15
	jne	.LBB18_27
	jmp	.LBB18_97
.LBB18_29:
	xorl	%edx, %edx
	movq	%rdi, %r8
	.p2align	4
.LBB18_30:
	cmpb	$0, (%r8)
	je	.LBB18_33
	incq	%rdx
	addq	$3208, %r8
	movb	$11, %bpl
	cmpq	%rdx, %r15
	jne	.LBB18_30
	jmp	.LBB18_97
.LBB18_32:
	xorl	%edx, %edx
	movq	(%rsp), %rcx
	movq	8(%rsp), %rdi
	movq	24(%rsp), %rsi
	movq	16(%rsp), %r10
.LBB18_33:
	movb	$11, %bpl
	movb	$1, %al
	cmpq	%r15, %rdx
	jae	.LBB18_97
	movq	%rcx, %r15
	imulq	$3208, %rdx, %r12
.LBB18_35:
	movl	%r15d, %eax
	shll	$16, %eax
	orq	%rsi, %rax
	movq	%rax, 48(%rsp)
	movq	%r9, %rax
	subq	%r12, %rax
	jbe	.LBB18_37
	cmpq	$8, %rax
	movl	$8, %edx
	cmovbq	%rax, %rdx
	addq	%r12, %rdi
	leaq	48(%rsp), %rsi
	callq	memcpy@PLT
	movq	16(%rsp), %r10
	movq	24(%rsp), %rsi
	movq	32(%rsp), %r9
	movq	8(%rsp), %rdi
	movq	(%rsp), %r15
.LBB18_37:
	leaq	8(%r12), %rax
	movq	%r9, %rdx
	subq	%rax, %rdx
	jbe	.LBB18_71
	cmpq	%rsi, %rdx
	cmovaeq	%rsi, %rdx
	testq	%rdx, %rdx
	je	.LBB18_71
	leaq	(%rdi,%rax), %r8
	cmpq	$4, %rdx
	jb	.LBB18_40
	leaq	(%r12,%rdi), %r11
	subq	%r10, %r11
	addq	$8, %r11
	cmpq	$32, %r11
	jae	.LBB18_45
.LBB18_40:
	xorl	%r11d, %r11d
.LBB18_65:
	movq	%rdx, %r14
	movq	%r11, %rbx
	andq	$3, %r14
	je	.LBB18_68
	movq	%r11, %rbx
.LBB18_67:
	movzbl	(%r10,%rbx), %ebp
	movb	%bpl, (%r8,%rbx)
	incq	%rbx
	decq	%r14
	jne	.LBB18_67
.LBB18_68:
	subq	%rdx, %r11
	cmpq	$-4, %r11
	ja	.LBB18_71
	leaq	(%r12,%rdi), %r8
	addq	$11, %r8
.LBB18_70:
	movzbl	(%r10,%rbx), %r11d
	movb	%r11b, -3(%r8,%rbx)
	movzbl	1(%r10,%rbx), %r11d
	movb	%r11b, -2(%r8,%rbx)
	movzbl	2(%r10,%rbx), %r11d
	movb	%r11b, -1(%r8,%rbx)
	movzbl	3(%r10,%rbx), %r11d
	movb	%r11b, (%r8,%rbx)
	addq	$4, %rbx
	cmpq	%rbx, %rdx
	jne	.LBB18_70
.LBB18_71:
	cmpq	$128, %rsi
	je	.LBB18_73
	movl	$128, %edx
	subq	%rsi, %rdx
	addq	%rdi, %rax
	addq	%rsi, %rax
	movq	%rax, %rdi
	xorl	%esi, %esi
	callq	memset@PLT
	movq	32(%rsp), %r9
	movq	8(%rsp), %rdi
	movq	(%rsp), %r15
.LBB18_73:
	leaq	136(%r12), %rax
	subq	%rax, %r9
	movq	40(%rsp), %rcx
	jbe	.LBB18_94
	cmpq	%r15, %r9
	cmovaeq	%r15, %r9
	testq	%r9, %r9
	je	.LBB18_94
	leaq	(%rdi,%rax), %rdx
	cmpq	$4, %r9
	jb	.LBB18_76
	leaq	(%r12,%rdi), %r8
	subq	%rcx, %r8
	addq	$136, %r8
	cmpq	$32, %r8
	jae	.LBB18_79
.LBB18_76:
	xorl	%r8d, %r8d
.LBB18_88:
	movq	%r9, %r11
	movq	%r8, %r10
	andq	$3, %r11
	je	.LBB18_91
	movq	%r8, %r10
.LBB18_90:
	movzbl	(%rcx,%r10), %ebx
	movb	%bl, (%rdx,%r10)
	incq	%r10
	decq	%r11
	jne	.LBB18_90
.LBB18_91:
	subq	%r9, %r8
	cmpq	$-4, %r8
	ja	.LBB18_94
	leaq	(%r12,%rdi), %rdx
	addq	$139, %rdx
.LBB18_93:
	movzbl	(%rcx,%r10), %r8d
	movb	%r8b, -3(%rdx,%r10)
	movzbl	1(%rcx,%r10), %r8d
	movb	%r8b, -2(%rdx,%r10)
	movzbl	2(%rcx,%r10), %r8d
	movb	%r8b, -1(%rdx,%r10)
	movzbl	3(%rcx,%r10), %r8d
	movb	%r8b, (%rdx,%r10)
	addq	$4, %r10
	cmpq	%r10, %r9
	jne	.LBB18_93
.LBB18_94:
	cmpq	$3072, %r15
	je	.LBB18_96
	movl	$3072, %edx
	subq	%r15, %rdx
	addq	%rax, %rdi
	addq	%r15, %rdi
	xorl	%esi, %esi
	callq	memset@PLT
.LBB18_96:
	xorl	%eax, %eax
	xorl	%ebp, %ebp
	jmp	.LBB18_97
.LBB18_41:
	movl	(%r14), %eax
	cmpl	(%rdx), %eax
	jne	.LBB18_48
	movq	%r14, %rdi
	movq	%r15, %rsi
	callq	"core::cmp::slices::groups_equal::<i8,31'core::cmp::numbers::U8PartialEq{}>"
	movq	16(%rsp), %r10
	movq	24(%rsp), %rsi
	movq	32(%rsp), %r9
	movq	40(%rsp), %rdx
	movq	8(%rsp), %rdi
	movq	(%rsp), %r15
	testb	%al, %al
	je	.LBB18_48
	jmp	.LBB18_96
.LBB18_45:
	cmpq	$32, %rdx
	jae	.LBB18_58
	xorl	%r11d, %r11d
	jmp	.LBB18_62
.LBB18_79:
	cmpq	$32, %r9
	jae	.LBB18_81
	xorl	%r8d, %r8d
	jmp	.LBB18_85
.LBB18_47:
	cmpq	%r15, %r8
	movq	%rcx, %rbp
	jae	.LBB18_96
.LBB18_48:
	xorl	%eax, %eax
	movq	%rbp, %r11
	subq	$8, %r11
	cmovbq	%rax, %r11
	movq	%rbp, %r8
	subq	%r11, %r8
	je	.LBB18_102
	addq	%r14, %r11
	movq	%r8, %rbx
	movzbl	-1(%r11,%r8), %eax
	decq	%rbx
	je	.LBB18_102
	movq	%r15, %rcx
	leaq	-2(%r8), %rbx
	movl	%eax, %r15d
	shll	$8, %r15d
	movzbl	-2(%r11,%r8), %eax
	orq	%r15, %rax
	testq	%rbx, %rbx
	je	.LBB18_101
	leaq	-3(%r8), %rbx
	movl	%eax, %r15d
	shll	$8, %r15d
	movzbl	-3(%r11,%r8), %eax
	orq	%r15, %rax
	testq	%rbx, %rbx
	je	.LBB18_101
	leaq	-4(%r8), %rbx
	movl	%eax, %r15d
	shll	$8, %r15d
	movzbl	-4(%r11,%r8), %eax
	orq	%r15, %rax
	testq	%rbx, %rbx
	je	.LBB18_101
	leaq	-5(%r8), %rbx
	movq	%rax, %r15
	shlq	$8, %r15
	movzbl	-5(%r11,%r8), %eax
	orq	%r15, %rax
	testq	%rbx, %rbx
	je	.LBB18_101
	leaq	-6(%r8), %rbx
	movq	%rax, %r15
	shlq	$8, %r15
	movzbl	-6(%r11,%r8), %eax
	orq	%r15, %rax
	testq	%rbx, %rbx
	je	.LBB18_101
	movq	%rax, %rbx
	shlq	$8, %rbx
	movzbl	-7(%r11,%r8), %eax
	addq	$-7, %r8
	orq	%rbx, %rax
	testq	%r8, %r8
	movq	%rcx, %r15
	je	.LBB18_102
	shlq	$8, %rax
	movzbl	-8(%r14,%rbp), %r8d
	orq	%r8, %rax
	jmp	.LBB18_102
.LBB18_101:
	movq	%rcx, %r15
.LBB18_102:
	xorl	%r8d, %r8d
	movq	%r15, %r11
	subq	$8, %r15
	cmovbq	%r8, %r15
	subq	%r15, %r11
	je	.LBB18_111
	addq	%rdx, %r15
	movq	%r11, %rbx
	movzbl	-1(%r15,%r11), %r8d
	decq	%rbx
	je	.LBB18_111
	leaq	-2(%r11), %rbx
	movl	%r8d, %r13d
	shll	$8, %r13d
	movzbl	-2(%r15,%r11), %r8d
	orq	%r13, %r8
	testq	%rbx, %rbx
	je	.LBB18_111
	leaq	-3(%r11), %rbx
	movl	%r8d, %r13d
	shll	$8, %r13d
	movzbl	-3(%r15,%r11), %r8d
	orq	%r13, %r8
	testq	%rbx, %rbx
	je	.LBB18_111
	leaq	-4(%r11), %rbx
	movl	%r8d, %r13d
	shll	$8, %r13d
	movzbl	-4(%r15,%r11), %r8d
	orq	%r13, %r8
	testq	%rbx, %rbx
	je	.LBB18_111
	leaq	-5(%r11), %rbx
	movq	%r8, %r13
	shlq	$8, %r13
	movzbl	-5(%r15,%r11), %r8d
	orq	%r13, %r8
	testq	%rbx, %rbx
	je	.LBB18_111
	leaq	-6(%r11), %rbx
	movq	%r8, %r13
	shlq	$8, %r13
	movzbl	-6(%r15,%r11), %r8d
	orq	%r13, %r8
	testq	%rbx, %rbx
	je	.LBB18_111
	movq	%r8, %rbx
	shlq	$8, %rbx
	movzbl	-7(%r15,%r11), %r8d
	addq	$-7, %r11
	orq	%rbx, %r8
	testq	%r11, %r11
	je	.LBB18_111
	shlq	$8, %r8
	movq	(%rsp), %rcx
	movzbl	-8(%rdx,%rcx), %r11d
	orq	%r11, %r8
.LBB18_111:
	movq	%rbp, %rcx
	movb	$10, %bpl
	cmpq	%rax, %r8
	jb	.LBB18_1
	jbe	.LBB18_115
	movq	(%rsp), %r15
	jmp	.LBB18_35
.LBB18_115:
	movq	%rdx, %rdi
	movq	(%rsp), %rsi
	movq	%r14, %rdx
	callq	"octets::lower_bytes"
	movq	16(%rsp), %r10
	movq	24(%rsp), %rsi
	movq	32(%rsp), %r9
	movq	8(%rsp), %rdi
	movq	(%rsp), %r15
	movl	%eax, %edx
	movb	$1, %al
	testb	%dl, %dl
	je	.LBB18_35
	jmp	.LBB18_97
.LBB18_58:
	movl	%edx, %r11d
	andl	$224, %r11d
	leaq	(%r12,%rdi), %rbx
	addq	$24, %rbx
	xorl	%r14d, %r14d
.LBB18_59:
	movdqu	(%r10,%r14), %xmm0
	movups	16(%r10,%r14), %xmm1
	movdqu	%xmm0, -16(%rbx,%r14)
	movups	%xmm1, (%rbx,%r14)
	addq	$32, %r14
	cmpq	%r14, %r11
	jne	.LBB18_59
	cmpq	%r11, %rdx
	je	.LBB18_71
	testb	$28, %dl
	je	.LBB18_65
.LBB18_62:
	movq	%r11, %rbx
	movl	%edx, %r11d
	andl	$252, %r11d
.LBB18_63:
	movl	(%r10,%rbx), %ebp
	movl	%ebp, (%r8,%rbx)
	addq	$4, %rbx
	cmpq	%rbx, %r11
	jne	.LBB18_63
	cmpq	%r11, %rdx
	je	.LBB18_71
	jmp	.LBB18_65
.LBB18_81:
	movq	%r9, %r8
	andq	$-32, %r8
	leaq	(%r12,%rdi), %r10
	addq	$152, %r10
	xorl	%r11d, %r11d
.LBB18_82:
	movdqu	(%rcx,%r11), %xmm0
	movups	16(%rcx,%r11), %xmm1
	movdqu	%xmm0, -16(%r10,%r11)
	movups	%xmm1, (%r10,%r11)
	addq	$32, %r11
	cmpq	%r11, %r8
	jne	.LBB18_82
	cmpq	%r8, %r9
	je	.LBB18_94
	testb	$28, %r9b
	je	.LBB18_88
.LBB18_85:
	movq	%r8, %r10
	movq	%r9, %r8
	andq	$-4, %r8
.LBB18_86:
	movl	(%rcx,%r10), %r11d
	movl	%r11d, (%rdx,%r10)
	addq	$4, %r10
	cmpq	%r10, %r8
	jne	.LBB18_86
	cmpq	%r8, %r9
	je	.LBB18_94
	jmp	.LBB18_88
.Lfunc_end18:
	.size	"records::offer", .Lfunc_end18-"records::offer"

	.section	".text.recipe::fault","ax",@progbits
	.p2align	4
	.type	"recipe::fault",@function
"recipe::fault":
	pushq	%rbp
	pushq	%r15
	pushq	%r14
	pushq	%r13
	pushq	%r12
	pushq	%rbx
	subq	$72, %rsp
	cmpq	$16, %rdx
	jae	.LBB19_2
.LBB19_1:
	movb	$1, (%rdi)
	xorps	%xmm0, %xmm0
	movups	%xmm0, 8(%rdi)
	jmp	.LBB19_7
.LBB19_2:
	cmpq	$3073, %rdx
	jb	.LBB19_4
	movb	$1, (%rdi)
	movq	$1, 8(%rdi)
	jmp	.LBB19_6
.LBB19_4:
	movzwl	-10(%rsi,%rdx), %eax
	leal	-1(%rax), %ecx
	cmpl	$2, %ecx
	jae	.LBB19_5
	xorl	%ecx, %ecx
	cmpl	$2, %eax
	sete	%cl
	leaq	16(,%rcx,8), %rax
	cmpq	%rax, %rdx
	jb	.LBB19_1
	movzwl	-10(%rsi,%rdx), %ebp
	cmpw	$2, %bp
	jne	.LBB19_21
	xorl	%ecx, %ecx
	movq	%rdx, %r8
	subq	$18, %r8
	cmovaeq	%r8, %rcx
	movq	%rdx, %r9
	subq	%rcx, %r9
	addq	$-16, %r9
	je	.LBB19_21
	cmpq	$18, %rdx
	movl	$18, %ecx
	cmovbq	%rdx, %rcx
	leaq	-17(%rcx), %r10
	movl	%r9d, %r8d
	andl	$3, %r8d
	cmpq	$3, %r10
	jae	.LBB19_13
	xorl	%r10d, %r10d
	jmp	.LBB19_17
.LBB19_5:
	movb	$1, (%rdi)
	movq	$2, 8(%rdi)
.LBB19_6:
	movq	$0, 16(%rdi)
.LBB19_7:
	addq	$72, %rsp
	popq	%rbx
	popq	%r12
	popq	%r13
	popq	%r14
	popq	%r15
	popq	%rbp
	retq
.LBB19_13:
	leaq	(%rdx,%rsi), %r11
	addq	$-17, %r11
	movq	%r9, %rbx
	andq	$-4, %rbx
	negq	%rbx
	xorl	%r10d, %r10d
	xorl	%r14d, %r14d
	.p2align	4
.LBB19_14:
	movzbl	(%r11,%r14), %r15d
	shlq	$16, %r10
	shll	$8, %r15d
	orq	%r10, %r15
	movzbl	-1(%r11,%r14), %r10d
	orq	%r15, %r10
	movzbl	-2(%r11,%r14), %r15d
	shlq	$16, %r10
	shll	$8, %r15d
	orq	%r10, %r15
	movzbl	-3(%r11,%r14), %r10d
	orq	%r15, %r10
	addq	$-4, %r14
	cmpq	%r14, %rbx
	jne	.LBB19_14
	testq	%r8, %r8
	je	.LBB19_19
	addq	%r14, %r9
.LBB19_17:
	notq	%rcx
	addq	%rdx, %rcx
	addq	%r9, %rcx
	addq	%rsi, %rcx
	negq	%r8
	xorl	%r9d, %r9d
	.p2align	4
.LBB19_18:
	shlq	$8, %r10
	movzbl	(%rcx,%r9), %r11d
	orq	%r11, %r10
	decq	%r9
	cmpq	%r9, %r8
	jne	.LBB19_18
.LBB19_19:
	testq	%r10, %r10
	je	.LBB19_21
	movb	$1, (%rdi)
	movq	$4, 8(%rdi)
	jmp	.LBB19_6
.LBB19_21:
	movq	%rdi, %r12
	xorps	%xmm0, %xmm0
	movaps	%xmm0, 48(%rsp)
	movq	$0, 64(%rsp)
	movaps	%xmm0, 16(%rsp)
	movq	$0, 32(%rsp)
	movzwl	-12(%rsi,%rdx), %r8d
	movl	-16(%rsi,%rdx), %ebx
	movq	%rax, (%rsp)
	leaq	16(%rsp), %rdi
	movq	%rsi, %rax
	movl	$1, %esi
	movq	%rdx, %rcx
	movq	%rax, %r15
	movq	%rax, %rdx
	movq	%rcx, %r14
	movq	%rbx, %r9
	callq	"recipe::list_fault"
	cmpb	$0, 16(%rsp)
	je	.LBB19_22
	movb	$1, %al
	movups	24(%rsp), %xmm0
	jmp	.LBB19_44
.LBB19_22:
	xorl	%r8d, %r8d
	cmpw	$2, %bp
	jne	.LBB19_23
	movq	%r14, %rcx
	movq	%r14, %rax
	subq	$20, %rax
	cmovbq	%r8, %rax
	movq	%r14, %r9
	subq	$18, %r9
	cmovbq	%r8, %r9
	subq	%rax, %r9
	movq	%r15, %rdx
	je	.LBB19_33
	cmpq	$20, %rcx
	movl	$20, %esi
	cmovbq	%rcx, %rsi
	cmpq	$18, %rcx
	movl	$18, %r10d
	cmovbq	%rcx, %r10
	movl	%r9d, %edi
	andl	$3, %edi
	movq	%r10, %r8
	subq	%rsi, %r8
	cmpq	$-4, %r8
	jbe	.LBB19_27
	xorl	%r8d, %r8d
	jmp	.LBB19_31
.LBB19_23:
	movq	%rbx, %r9
	jmp	.LBB19_42
.LBB19_27:
	notq	%r10
	addq	%rdx, %r10
	addq	%rcx, %r10
	movq	%r9, %r11
	andq	$-4, %r11
	negq	%r11
	xorl	%r8d, %r8d
	xorl	%r13d, %r13d
.LBB19_28:
	movzbl	(%r10,%r13), %ebp
	shlq	$16, %r8
	shll	$8, %ebp
	orq	%r8, %rbp
	movzbl	-1(%r10,%r13), %r8d
	orq	%rbp, %r8
	movzbl	-2(%r10,%r13), %ebp
	shlq	$16, %r8
	shll	$8, %ebp
	orq	%r8, %rbp
	movzbl	-3(%r10,%r13), %r8d
	orq	%rbp, %r8
	addq	$-4, %r13
	cmpq	%r13, %r11
	jne	.LBB19_28
	testq	%rdi, %rdi
	je	.LBB19_33
	addq	%r13, %r9
.LBB19_31:
	notq	%rsi
	addq	%rcx, %rsi
	addq	%r9, %rsi
	addq	%rdx, %rsi
	negq	%rdi
	xorl	%r9d, %r9d
.LBB19_32:
	shlq	$8, %r8
	movzbl	(%rsi,%r9), %r10d
	orq	%r10, %r8
	decq	%r9
	cmpq	%r9, %rdi
	jne	.LBB19_32
.LBB19_33:
	xorl	%r9d, %r9d
	movq	%rcx, %rsi
	subq	$24, %rsi
	cmovbq	%r9, %rsi
	subq	%rsi, %rax
	je	.LBB19_42
	cmpq	$24, %rcx
	movl	$24, %esi
	cmovbq	%rcx, %rsi
	cmpq	$20, %rcx
	movl	$20, %r10d
	cmovbq	%rcx, %r10
	movl	%eax, %edi
	andl	$3, %edi
	movq	%r10, %r9
	subq	%rsi, %r9
	cmpq	$-4, %r9
	jbe	.LBB19_36
	xorl	%r9d, %r9d
	jmp	.LBB19_40
.LBB19_36:
	notq	%r10
	addq	%rdx, %r10
	addq	%rcx, %r10
	movq	%rax, %r11
	andq	$-4, %r11
	negq	%r11
	xorl	%r9d, %r9d
	xorl	%r13d, %r13d
.LBB19_37:
	movzbl	(%r10,%r13), %ebp
	shlq	$16, %r9
	shll	$8, %ebp
	orq	%r9, %rbp
	movzbl	-1(%r10,%r13), %r9d
	orq	%rbp, %r9
	movzbl	-2(%r10,%r13), %ebp
	shlq	$16, %r9
	shll	$8, %ebp
	orq	%r9, %rbp
	movzbl	-3(%r10,%r13), %r9d
	orq	%rbp, %r9
	addq	$-4, %r13
	cmpq	%r13, %r11
	jne	.LBB19_37
	testq	%rdi, %rdi
	je	.LBB19_42
	addq	%r13, %rax
.LBB19_40:
	addq	%rcx, %rax
	notq	%rsi
	addq	%rdx, %rsi
	addq	%rax, %rsi
	negq	%rdi
	xorl	%eax, %eax
.LBB19_41:
	movq	%r9, %rcx
	shlq	$8, %rcx
	movzbl	(%rsi,%rax), %r9d
	orq	%rcx, %r9
	decq	%rax
	cmpq	%rax, %rdi
	jne	.LBB19_41
.LBB19_42:
	movq	%rbx, (%rsp)
	leaq	48(%rsp), %rdi
	movl	$2, %esi
	movq	%r15, %rdx
	movq	%r14, %rcx
	callq	"recipe::list_fault"
	movzbl	48(%rsp), %eax
	movups	56(%rsp), %xmm0
.LBB19_44:
	movb	%al, (%r12)
	movups	%xmm0, 8(%r12)
	jmp	.LBB19_7
.Lfunc_end19:
	.size	"recipe::fault", .Lfunc_end19-"recipe::fault"

	.section	".text.recipe::list_fault","ax",@progbits
	.p2align	4
	.type	"recipe::list_fault",@function
"recipe::list_fault":
	pushq	%rbp
	pushq	%r15
	pushq	%r14
	pushq	%r13
	pushq	%r12
	pushq	%rbx
	subq	$40, %rsp
	movq	%r9, %rbx
	subq	96(%rsp), %rbx
	jb	.LBB20_2
	subq	%r9, %rcx
	jae	.LBB20_5
.LBB20_2:
	movzbl	%sil, %eax
	shll	$8, %eax
	orq	$5, %rax
.LBB20_3:
	movb	$1, (%rdi)
	movq	%rax, 8(%rdi)
	movq	$0, 16(%rdi)
.LBB20_4:
	addq	$40, %rsp
	popq	%rbx
	popq	%r12
	popq	%r13
	popq	%r14
	popq	%r15
	popq	%rbp
	retq
.LBB20_5:
	cmpq	$401, %r8
	jb	.LBB20_7
	movzbl	%sil, %eax
	shll	$8, %eax
	orq	$6, %rax
	jmp	.LBB20_3
.LBB20_7:
	testq	%r8, %r8
	je	.LBB20_12
	movq	%r8, (%rsp)
	addq	%rcx, %rdx
	xorl	%r12d, %r12d
	leaq	8(%rsp), %rax
	movq	%rdi, %rbp
	movq	%rax, %rdi
	movl	%esi, %r13d
	movq	%rdx, 32(%rsp)
	movq	%rdx, %rsi
	movq	%rbx, %rdx
	xorl	%ecx, %ecx
	callq	"recipe::point_at"
	movl	%r13d, %esi
	movq	%rbp, %rdi
	cmpb	$1, 8(%rsp)
	jne	.LBB20_29
	movq	16(%rsp), %r14
	cmpl	$1000000, %r14d
	jbe	.LBB20_17
	xorl	%r12d, %r12d
.LBB20_11:
	movzbl	%sil, %eax
	shll	$8, %eax
	orq	$9, %rax
	jmp	.LBB20_30
.LBB20_12:
	xorl	%r15d, %r15d
.LBB20_13:
	cmpq	%rbx, %r15
	jne	.LBB20_15
	xorl	%ecx, %ecx
	xorl	%eax, %eax
	jmp	.LBB20_16
.LBB20_15:
	movzbl	%sil, %eax
	shll	$8, %eax
	orq	$13, %rax
	movb	$1, %cl
.LBB20_16:
	xorl	%r12d, %r12d
	jmp	.LBB20_31
.LBB20_17:
	movq	%r14, %rax
	shrq	$32, %rax
	addl	$20000, %eax
	cmpl	$40000, %eax
	ja	.LBB20_26
	movq	24(%rsp), %r15
	cmpq	$1, (%rsp)
	je	.LBB20_13
	movl	$1, %r12d
.LBB20_20:
	leaq	8(%rsp), %rdi
	movq	32(%rsp), %rsi
	movq	%rbx, %rdx
	movq	%r15, %rcx
	callq	"recipe::point_at"
	cmpb	$1, 8(%rsp)
	jne	.LBB20_28
	movq	16(%rsp), %rax
	cmpl	$1000001, %eax
	movq	%rbp, %rdi
	movl	%r13d, %esi
	jae	.LBB20_11
	cmpl	%r14d, %eax
	jbe	.LBB20_32
	movq	%rax, %rcx
	shrq	$32, %rcx
	addl	$20000, %ecx
	cmpl	$40001, %ecx
	jae	.LBB20_27
	sarq	$32, %r14
	movq	%rax, %rcx
	sarq	$32, %rcx
	subq	%rcx, %r14
	addq	$5000, %r14
	cmpq	$10001, %r14
	jae	.LBB20_33
	addq	24(%rsp), %r15
	incq	%r12
	movq	%rax, %r14
	cmpq	%r12, (%rsp)
	jne	.LBB20_20
	jmp	.LBB20_13
.LBB20_26:
	xorl	%r12d, %r12d
.LBB20_27:
	movzbl	%sil, %eax
	shll	$8, %eax
	orq	$11, %rax
	jmp	.LBB20_30
.LBB20_28:
	movq	%rbp, %rdi
	movl	%r13d, %esi
.LBB20_29:
	movzbl	%sil, %eax
	shll	$8, %eax
	orq	$8, %rax
.LBB20_30:
	movb	$1, %cl
.LBB20_31:
	movb	%cl, (%rdi)
	movq	%rax, 8(%rdi)
	movq	%r12, 16(%rdi)
	jmp	.LBB20_4
.LBB20_32:
	movzbl	%sil, %eax
	shll	$8, %eax
	orq	$10, %rax
	jmp	.LBB20_30
.LBB20_33:
	movzbl	%sil, %eax
	shll	$8, %eax
	orq	$12, %rax
	jmp	.LBB20_30
.Lfunc_end20:
	.size	"recipe::list_fault", .Lfunc_end20-"recipe::list_fault"

	.section	".text.recipe::point_at","ax",@progbits
	.p2align	4
	.type	"recipe::point_at",@function
"recipe::point_at":
	movq	%rdx, %r9
	subq	%rcx, %r9
	jbe	.LBB21_19
	movzbl	(%rsi,%rcx), %eax
	movl	$1, %r8d
	testb	%al, %al
	js	.LBB21_2
.LBB21_9:
	addq	%r8, %rcx
	subq	%rcx, %rdx
	jbe	.LBB21_19
	movzbl	(%rsi,%rcx), %r9d
	movl	$1, %r10d
	testb	%r9b, %r9b
	js	.LBB21_11
.LBB21_18:
	movl	%r9d, %ecx
	shrl	%ecx
	andl	$1, %r9d
	negl	%r9d
	xorl	%ecx, %r9d
	addq	%r8, %r10
	movq	$1, (%rdi)
	movl	%eax, 8(%rdi)
	movl	%r9d, 12(%rdi)
	movq	%r10, 16(%rdi)
	retq
.LBB21_2:
	cmpq	$2, %r9
	jb	.LBB21_19
	movzbl	1(%rsi,%rcx), %r8d
	testl	%r8d, %r8d
	je	.LBB21_19
	testb	%r8b, %r8b
	js	.LBB21_6
	shll	$7, %r8d
	addl	%r8d, %eax
	addl	$-128, %eax
	movl	$2, %r8d
	jmp	.LBB21_9
.LBB21_11:
	cmpq	$2, %rdx
	jb	.LBB21_19
	movzbl	1(%rsi,%rcx), %r10d
	testl	%r10d, %r10d
	je	.LBB21_19
	testb	%r10b, %r10b
	js	.LBB21_15
	shll	$7, %r10d
	addl	%r10d, %r9d
	addl	$-128, %r9d
	movl	$2, %r10d
	jmp	.LBB21_18
.LBB21_6:
	cmpq	$2, %r9
	je	.LBB21_19
	movsbl	2(%rsi,%rcx), %r9d
	testl	%r9d, %r9d
	jle	.LBB21_19
	shll	$14, %r9d
	shll	$7, %r8d
	addl	%r9d, %r8d
	addl	%r8d, %eax
	addl	$-16512, %eax
	movl	$3, %r8d
	jmp	.LBB21_9
.LBB21_15:
	cmpq	$2, %rdx
	je	.LBB21_19
	movsbl	2(%rsi,%rcx), %ecx
	testl	%ecx, %ecx
	jle	.LBB21_19
	shll	$14, %ecx
	shll	$7, %r10d
	addl	%ecx, %r10d
	addl	%r10d, %r9d
	addl	$-16512, %r9d
	movl	$3, %r10d
	jmp	.LBB21_18
.LBB21_19:
	xorps	%xmm0, %xmm0
	movups	%xmm0, (%rdi)
	movq	$0, 16(%rdi)
	retq
.Lfunc_end21:
	.size	"recipe::point_at", .Lfunc_end21-"recipe::point_at"

	.section	".text.pieces::put_record","ax",@progbits
	.p2align	4
	.type	"pieces::put_record",@function
"pieces::put_record":
	pushq	%rbp
	pushq	%r15
	pushq	%r14
	pushq	%r13
	pushq	%r12
	pushq	%rbx
	movq	%rdx, %rax
	movq	56(%rsp), %rdx
	cmpq	$129, %r8
	setb	%r10b
	cmpq	$3073, %rdx
	setb	%r11b
	testb	%r11b, %r10b
	je	.LBB22_28
	testq	%r8, %r8
	je	.LBB22_4
	bsrq	%r8, %r10
	cmpb	$7, %r10b
	movq	%r8, %r11
	sbbq	$-1, %r11
	addq	$2, %r11
	testq	%rdx, %rdx
	je	.LBB22_5
.LBB22_3:
	bsrq	%rdx, %r10
	cmpb	$7, %r10b
	movq	%rdx, %r10
	sbbq	$-1, %r10
	addq	$2, %r10
	cmpq	%rsi, %rax
	jb	.LBB22_6
.LBB22_11:
	cmpq	%rax, %rsi
	cmovaq	%rsi, %rax
	testq	%r8, %r8
	jne	.LBB22_12
.LBB22_19:
	testq	%rdx, %rdx
	jne	.LBB22_20
	jmp	.LBB22_28
.LBB22_4:
	xorl	%r11d, %r11d
	testq	%rdx, %rdx
	jne	.LBB22_3
.LBB22_5:
	xorl	%r10d, %r10d
	cmpq	%rsi, %rax
	jae	.LBB22_11
.LBB22_6:
	movb	$26, (%rdi,%rax)
	leaq	1(%rax), %rbx
	cmpq	%rsi, %rbx
	jae	.LBB22_10
	addq	%r11, %r10
	addq	$2, %rax
	movl	$1, %r11d
	subq	%rsi, %r11
	.p2align	4
.LBB22_8:
	cmpq	$127, %r10
	jbe	.LBB22_29
	movl	%r10d, %ebp
	orb	$-128, %bpl
	movb	%bpl, -1(%rdi,%rax)
	shrq	$7, %r10
	leaq	(%r11,%rax), %r14
	incq	%r14
	incq	%rax
	cmpq	$2, %r14
	jne	.LBB22_8
.LBB22_10:
	movq	%rbx, %rax
	cmpq	%rax, %rsi
	cmovaq	%rsi, %rax
	testq	%r8, %r8
	jne	.LBB22_12
	jmp	.LBB22_19
.LBB22_29:
	movb	%r10b, -1(%rdi,%rax)
	testq	%r8, %r8
	je	.LBB22_19
.LBB22_12:
	cmpq	%rsi, %rax
	jae	.LBB22_16
	movb	$10, (%rdi,%rax)
	leaq	1(%rax), %r10
	cmpq	%rsi, %r10
	jae	.LBB22_17
	cmpq	$128, %r8
	jae	.LBB22_33
	xorl	%r12d, %r12d
	movq	%r8, %r11
	movq	%r10, %rbx
	jmp	.LBB22_34
.LBB22_16:
	movq	%rax, %r10
.LBB22_17:
	cmpq	%r10, %rsi
	cmovaq	%rsi, %r10
	movq	%rsi, %r11
	subq	%r10, %r11
.LBB22_18:
	leaq	(%r10,%r8), %rax
	cmpq	%r11, %r8
	cmovaq	%rsi, %rax
	cmpq	%r10, %rsi
	cmovbq	%r10, %rax
	testq	%rdx, %rdx
	je	.LBB22_28
.LBB22_20:
	movq	%rsi, %rcx
	subq	%rax, %rcx
	jbe	.LBB22_26
	movb	$18, (%rdi,%rax)
	leaq	1(%rax), %r11
	cmpq	%rsi, %r11
	jae	.LBB22_25
	leaq	(%rdi,%rax), %r10
	movq	%rax, %rbx
	notq	%rbx
	addq	%rsi, %rbx
	xorl	%r8d, %r8d
	movq	%rdx, %r14
	.p2align	4
.LBB22_23:
	cmpq	$128, %r14
	jb	.LBB22_30
	movl	%r14d, %ebp
	orb	$-128, %bpl
	movb	%bpl, 1(%r10,%r8)
	shrq	$7, %r14
	incq	%r8
	cmpq	%r8, %rbx
	jne	.LBB22_23
.LBB22_25:
	movq	%r11, %rax
.LBB22_26:
	cmpq	%rax, %rsi
	cmovaq	%rsi, %rax
	movq	%rsi, %rcx
	subq	%rax, %rcx
	movq	%rax, %rdi
.LBB22_27:
	leaq	(%rdi,%rdx), %rax
	cmpq	%rcx, %rdx
	cmovaq	%rsi, %rax
	cmpq	%rdi, %rsi
	cmovbq	%rdi, %rax
.LBB22_28:
	popq	%rbx
	popq	%r12
	popq	%r13
	popq	%r14
	popq	%r15
	popq	%rbp
	retq
.LBB22_30:
	leaq	(%rax,%r8), %r11
	movb	%r14b, 1(%rdi,%r11)
	leaq	(%rax,%r8), %rdi
	addq	$2, %rdi
	subq	%r8, %rcx
	addq	$-2, %rcx
	cmpq	%rsi, %rdi
	jae	.LBB22_27
	cmpq	%rdx, %rcx
	movq	%rdx, %rax
	cmovbq	%rcx, %rax
	cmpq	$4, %rax
	jb	.LBB22_32
	movq	%r10, %r11
	subq	%r9, %r11
	addq	%r8, %r11
	addq	$2, %r11
	cmpq	$32, %r11
	jae	.LBB22_43
.LBB22_32:
	xorl	%r11d, %r11d
.LBB22_65:
	testb	$3, %al
	je	.LBB22_69
	movq	%rax, -8(%rsp)
	movq	%r11, %rbx
	negq	%rbx
	cmpq	%rcx, %rdx
	movq	%rcx, %r14
	cmovbq	%rdx, %r14
	leaq	(%r9,%r11), %r15
	andl	$3, %r14d
	leaq	(%r11,%r10), %r12
	addq	$2, %r12
	xorl	%r13d, %r13d
	.p2align	4
.LBB22_67:
	movzbl	(%r15,%r13), %ebp
	leaq	(%r12,%r13), %rax
	movb	%bpl, (%r8,%rax)
	incq	%r13
	decq	%rbx
	cmpq	%r13, %r14
	jne	.LBB22_67
	negq	%rbx
	movq	-8(%rsp), %rax
	jmp	.LBB22_70
.LBB22_33:
	movb	$-128, 1(%rdi,%rax)
	leaq	2(%rax), %rbx
	movl	$1, %r12d
	movl	$1, %r11d
	cmpq	%rsi, %rbx
	je	.LBB22_17
.LBB22_34:
	movb	%r11b, (%rdi,%rbx)
	leaq	1(%rbx), %r10
	movq	%rsi, %r11
	subq	%r10, %r11
	jbe	.LBB22_18
	cmpq	%r8, %r11
	movq	%r8, %r14
	cmovbq	%r11, %r14
	leaq	(%rdi,%r10), %r15
	cmpq	$4, %r14
	jb	.LBB22_36
	addq	%rdi, %rax
	subq	%rcx, %rax
	addq	%r12, %rax
	addq	$2, %rax
	cmpq	$32, %rax
	jae	.LBB22_41
.LBB22_36:
	xorl	%eax, %eax
.LBB22_52:
	movq	%r14, %r13
	movq	%rax, %r12
	andq	$3, %r13
	je	.LBB22_55
	movq	%rax, %r12
	.p2align	4
.LBB22_54:
	movzbl	(%rcx,%r12), %ebp
	movb	%bpl, (%r15,%r12)
	incq	%r12
	decq	%r13
	jne	.LBB22_54
.LBB22_55:
	subq	%r14, %rax
	cmpq	$-4, %rax
	ja	.LBB22_18
	leaq	(%rbx,%rdi), %rax
	addq	$4, %rax
	.p2align	4
.LBB22_57:
	movzbl	(%rcx,%r12), %ebx
	movb	%bl, -3(%rax,%r12)
	movzbl	1(%rcx,%r12), %ebx
	movb	%bl, -2(%rax,%r12)
	movzbl	2(%rcx,%r12), %ebx
	movb	%bl, -1(%rax,%r12)
	movzbl	3(%rcx,%r12), %ebx
	movb	%bl, (%rax,%r12)
	addq	$4, %r12
	cmpq	%r12, %r14
	jne	.LBB22_57
	jmp	.LBB22_18
.LBB22_41:
	cmpq	$32, %r14
	jae	.LBB22_45
	xorl	%eax, %eax
	jmp	.LBB22_49
.LBB22_69:
	movq	%r11, %rbx
.LBB22_70:
	subq	%rax, %r11
	cmpq	$-4, %r11
	ja	.LBB22_27
	cmpq	%rcx, %rdx
	movq	%rcx, %rax
	cmovbq	%rdx, %rax
	subq	%rbx, %rax
	addq	%rbx, %r9
	addq	$3, %r9
	addq	%rbx, %r10
	addq	$5, %r10
	xorl	%r11d, %r11d
	.p2align	4
.LBB22_72:
	movzbl	-3(%r9,%r11), %ebx
	leaq	(%r10,%r11), %r14
	movb	%bl, -3(%r8,%r14)
	movzbl	-2(%r9,%r11), %ebx
	movb	%bl, -2(%r8,%r14)
	movzbl	-1(%r9,%r11), %ebx
	movb	%bl, -1(%r8,%r14)
	movzbl	(%r9,%r11), %ebx
	movb	%bl, (%r8,%r14)
	addq	$4, %r11
	cmpq	%r11, %rax
	jne	.LBB22_72
	jmp	.LBB22_27
.LBB22_43:
	cmpq	$32, %rax
	jae	.LBB22_58
	xorl	%r11d, %r11d
	jmp	.LBB22_62
.LBB22_45:
	movl	%r14d, %eax
	andl	$224, %eax
	leaq	(%rbx,%rdi), %r12
	addq	$17, %r12
	xorl	%r13d, %r13d
.LBB22_46:
	movups	(%rcx,%r13), %xmm0
	movups	16(%rcx,%r13), %xmm1
	movups	%xmm0, -16(%r12,%r13)
	movups	%xmm1, (%r12,%r13)
	addq	$32, %r13
	cmpq	%r13, %rax
	jne	.LBB22_46
	cmpq	%rax, %r14
	je	.LBB22_18
	testb	$28, %r14b
	je	.LBB22_52
.LBB22_49:
	movq	%rax, %r12
	movl	%r14d, %eax
	andl	$252, %eax
.LBB22_50:
	movl	(%rcx,%r12), %ebp
	movl	%ebp, (%r15,%r12)
	addq	$4, %r12
	cmpq	%r12, %rax
	jne	.LBB22_50
	cmpq	%rax, %r14
	je	.LBB22_18
	jmp	.LBB22_52
.LBB22_58:
	movl	%eax, %r11d
	andl	$4064, %r11d
	cmpq	%rcx, %rdx
	movq	%rcx, %rbx
	cmovbq	%rdx, %rbx
	andl	$4064, %ebx
	xorl	%r14d, %r14d
.LBB22_59:
	movups	(%r9,%r14), %xmm0
	movups	16(%r9,%r14), %xmm1
	leaq	(%r10,%r14), %r15
	movups	%xmm0, 2(%r8,%r15)
	movups	%xmm1, 18(%r8,%r15)
	addq	$32, %r14
	cmpq	%r14, %rbx
	jne	.LBB22_59
	cmpq	%r11, %rax
	je	.LBB22_27
	testb	$28, %al
	je	.LBB22_65
.LBB22_62:
	movq	%r11, %rbx
	movl	%eax, %r11d
	andl	$4092, %r11d
	cmpq	%rcx, %rdx
	movq	%rcx, %r14
	cmovbq	%rdx, %r14
	andl	$4092, %r14d
.LBB22_63:
	movl	(%r9,%rbx), %ebp
	leaq	(%r10,%rbx), %r15
	movl	%ebp, 2(%r8,%r15)
	addq	$4, %rbx
	cmpq	%rbx, %r14
	jne	.LBB22_63
	cmpq	%r11, %rax
	je	.LBB22_27
	jmp	.LBB22_65
.Lfunc_end22:
	.size	"pieces::put_record", .Lfunc_end22-"pieces::put_record"

	.section	".text.replies::entries_len","ax",@progbits
	.p2align	4
	.type	"replies::entries_len",@function
"replies::entries_len":
	pushq	%rbp
	pushq	%r15
	pushq	%r14
	pushq	%r13
	pushq	%r12
	pushq	%rbx
	subq	$24, %rsp
	movq	%rdx, 16(%rsp)
	testq	%rcx, %rcx
	je	.LBB23_1
	movq	%rcx, %rbx
	movq	%rsi, %r15
	movq	%rdi, %r12
	movabsq	$7666179355307865607, %rcx
	movq	%rsi, %rax
	mulq	%rcx
	movq	%rdx, %rbp
	shrq	$8, %rbp
	xorl	%r13d, %r13d
	xorl	%r14d, %r14d
	jmp	.LBB23_3
	.p2align	4
.LBB23_44:
	xorl	%r9d, %r9d
.LBB23_45:
	movl	$0, (%rsp)
	callq	"pieces::peer_len"
	addq	%rax, %r13
	incq	%r14
	cmpq	%r14, %rbx
	je	.LBB23_46
.LBB23_3:
	movq	16(%rsp), %rax
	movq	(%rax,%r14,8), %rax
	cmpq	%rbp, %rax
	jae	.LBB23_26
	imulq	$616, %rax, %rdx
	movl	$616, %ecx
.LBB23_5:
	movzbl	2(%r12,%rdx), %edx
	cmpb	$64, %dl
	jb	.LBB23_7
	movl	$64, %edx
.LBB23_7:
	movzbl	%dl, %edx
	leaq	-40(%rcx), %rsi
	cmpq	%rdx, %rsi
	cmovbq	%rsi, %rdx
	xorl	%edi, %edi
	cmpq	$40, %rcx
	cmovaeq	%rdx, %rdi
	cmpq	%rbp, %rax
	jae	.LBB23_29
	imulq	$616, %rax, %rdx
	movzbl	3(%r12,%rdx), %ecx
	cmpb	$4, %cl
	jb	.LBB23_10
	movl	$4, %ecx
.LBB23_10:
	movzbl	%cl, %esi
	movl	$616, %ecx
	jmp	.LBB23_11
	.p2align	4
.LBB23_26:
	ja	.LBB23_28
	imulq	$616, %rax, %rdx
	movq	%r15, %rcx
	subq	%rdx, %rcx
	cmpq	$3, %rcx
	jae	.LBB23_5
.LBB23_28:
	xorl	%edi, %edi
.LBB23_29:
	cmpq	%rax, %rbp
	jb	.LBB23_30
	imulq	$616, %rax, %rdx
	movq	%r15, %rcx
	subq	%rdx, %rcx
	cmpq	$3, %rcx
	jbe	.LBB23_30
	movzbl	3(%r12,%rdx), %esi
	cmpb	$4, %sil
	jb	.LBB23_34
	movl	$4, %esi
.LBB23_34:
	movzbl	%sil, %esi
	cmpq	$4, %rcx
	jne	.LBB23_11
	xorl	%edx, %edx
	jmp	.LBB23_36
	.p2align	4
.LBB23_30:
	xorl	%edx, %edx
	xorl	%esi, %esi
	jmp	.LBB23_36
	.p2align	4
.LBB23_11:
	movzbl	4(%r12,%rdx), %edx
	cmpb	$-128, %dl
	jb	.LBB23_13
	movl	$128, %edx
.LBB23_13:
	movzbl	%dl, %r8d
	leaq	-104(%rcx), %rdx
	cmpq	%r8, %rdx
	cmovbq	%rdx, %r8
	xorl	%edx, %edx
	cmpq	$104, %rcx
	cmovaeq	%r8, %rdx
	cmpq	%rbp, %rax
	jae	.LBB23_36
	imulq	$616, %rax, %rcx
	movl	$616, %r8d
	jmp	.LBB23_15
	.p2align	4
.LBB23_36:
	cmpq	%rax, %rbp
	jb	.LBB23_38
	imulq	$616, %rax, %rcx
	movq	%r15, %r8
	subq	%rcx, %r8
	cmpq	$6, %r8
	jb	.LBB23_38
.LBB23_15:
	movzbl	5(%r12,%rcx), %ecx
	cmpb	$-128, %cl
	jb	.LBB23_17
	movl	$128, %ecx
.LBB23_17:
	movzbl	%cl, %r9d
	leaq	-232(%r8), %rcx
	cmpq	%r9, %rcx
	cmovbq	%rcx, %r9
	xorl	%ecx, %ecx
	cmpq	$232, %r8
	cmovaeq	%r9, %rcx
	cmpq	%rbp, %rax
	jae	.LBB23_39
	imulq	$616, %rax, %r8
	movl	$616, %r9d
	jmp	.LBB23_19
	.p2align	4
.LBB23_38:
	xorl	%ecx, %ecx
.LBB23_39:
	cmpq	%rax, %rbp
	jb	.LBB23_41
	imulq	$616, %rax, %r8
	movq	%r15, %r9
	subq	%r8, %r9
	cmpq	$7, %r9
	jb	.LBB23_41
.LBB23_19:
	movzbl	6(%r12,%r8), %r8d
	cmpb	$-128, %r8b
	jb	.LBB23_21
	movl	$128, %r8d
.LBB23_21:
	movzbl	%r8b, %r10d
	leaq	-360(%r9), %r8
	cmpq	%r10, %r8
	cmovbq	%r8, %r10
	xorl	%r8d, %r8d
	cmpq	$360, %r9
	cmovaeq	%r10, %r8
	cmpq	%rbp, %rax
	jae	.LBB23_42
	imulq	$616, %rax, %r9
	movl	$616, %eax
	jmp	.LBB23_23
	.p2align	4
.LBB23_41:
	xorl	%r8d, %r8d
.LBB23_42:
	cmpq	%rax, %rbp
	jb	.LBB23_44
	imulq	$616, %rax, %r9
	movq	%r15, %rax
	subq	%r9, %rax
	cmpq	$8, %rax
	jb	.LBB23_44
.LBB23_23:
	movzbl	7(%r12,%r9), %r9d
	cmpb	$-128, %r9b
	jb	.LBB23_25
	movl	$128, %r9d
.LBB23_25:
	movzbl	%r9b, %r10d
	leaq	-488(%rax), %r9
	cmpq	%r10, %r9
	cmovbq	%r9, %r10
	xorl	%r9d, %r9d
	cmpq	$488, %rax
	cmovaeq	%r10, %r9
	jmp	.LBB23_45
.LBB23_1:
	xorl	%r13d, %r13d
.LBB23_46:
	movq	%r13, %rax
	addq	$24, %rsp
	popq	%rbx
	popq	%r12
	popq	%r13
	popq	%r14
	popq	%r15
	popq	%rbp
	retq
.Lfunc_end23:
	.size	"replies::entries_len", .Lfunc_end23-"replies::entries_len"

	.section	".text.pieces::peer_len","ax",@progbits
	.p2align	4
	.type	"pieces::peer_len",@function
"pieces::peer_len":
	cmpq	$64, %rdi
	ja	.LBB24_8
	testq	%rsi, %rsi
	setne	%al
	cmpq	$129, %rdx
	setae	%r10b
	testb	%r10b, %al
	jne	.LBB24_8
	cmpq	$2, %rsi
	setae	%al
	cmpq	$129, %rcx
	setae	%r10b
	testb	%r10b, %al
	jne	.LBB24_8
	cmpq	$3, %rsi
	setae	%al
	cmpq	$129, %r8
	setae	%r10b
	testb	%r10b, %al
	jne	.LBB24_8
	cmpq	$4, %rsi
	setb	%al
	cmpq	$129, %r9
	setb	%r10b
	orb	%al, %r10b
	cmpb	$4, 8(%rsp)
	setb	%al
	testb	%al, %r10b
	je	.LBB24_8
	leaq	4(%rdi), %r10
	testq	%rdi, %rdi
	movl	$2, %eax
	cmovneq	%r10, %rax
	testq	%rsi, %rsi
	je	.LBB24_9
	cmpq	$1, %rdx
	movq	%rdx, %rdi
	adcq	$0, %rdi
	bsrq	%rdi, %rdi
	imull	$147, %edi, %edi
	shrl	$10, %edi
	addq	%rdi, %rdx
	addq	$2, %rdx
	cmpq	$1, %rsi
	je	.LBB24_7
	cmpq	$1, %rcx
	movq	%rcx, %rdi
	adcq	$0, %rdi
	bsrq	%rdi, %rdi
	imull	$147, %edi, %edi
	shrl	$10, %edi
	addq	%rcx, %rdi
	addq	%rdi, %rdx
	addq	$2, %rdx
	cmpq	$3, %rsi
	jb	.LBB24_7
	cmpq	$1, %r8
	movq	%r8, %rcx
	adcq	$0, %rcx
	bsrq	%rcx, %rcx
	imull	$147, %ecx, %ecx
	shrl	$10, %ecx
	addq	%r8, %rcx
	addq	%rcx, %rdx
	addq	$2, %rdx
	cmpq	$3, %rsi
	jne	.LBB24_14
.LBB24_7:
	xorl	%ecx, %ecx
	jmp	.LBB24_15
.LBB24_8:
	xorl	%eax, %eax
	retq
.LBB24_9:
	xorl	%edx, %edx
	xorl	%ecx, %ecx
.LBB24_15:
	addq	%rax, %rdx
	leaq	(%rdx,%rcx), %rax
	cmpq	$1, %rax
	adcq	%rcx, %rdx
	bsrq	%rdx, %rcx
	imull	$147, %ecx, %ecx
	shrl	$10, %ecx
	addq	%rcx, %rax
	addq	$2, %rax
	retq
.LBB24_14:
	cmpq	$1, %r9
	movq	%r9, %rcx
	adcq	$0, %rcx
	bsrq	%rcx, %rcx
	imull	$147, %ecx, %ecx
	shrl	$10, %ecx
	addq	%r9, %rcx
	addq	$2, %rcx
	jmp	.LBB24_15
.Lfunc_end24:
	.size	"pieces::peer_len", .Lfunc_end24-"pieces::peer_len"

	.section	".text.replies::put_entries","ax",@progbits
	.p2align	4
	.type	"replies::put_entries",@function
"replies::put_entries":
	pushq	%rbp
	pushq	%r15
	pushq	%r14
	pushq	%r13
	pushq	%r12
	pushq	%rbx
	subq	$136, %rsp
	movq	%r9, 128(%rsp)
	movq	%rdx, 88(%rsp)
	movq	%rsi, 120(%rsp)
	movq	%rdi, 112(%rsp)
	cmpq	$0, 192(%rsp)
	je	.LBB25_51
	movq	%r8, %r9
	movq	%rcx, %r15
	movabsq	$7666179355307865607, %rdx
	movq	%r8, %rax
	mulq	%rdx
	movq	%rdx, %rbp
	shrq	$8, %rbp
	xorl	%ebx, %ebx
	movq	%r8, 96(%rsp)
	jmp	.LBB25_5
	.p2align	4
.LBB25_49:
	movzbl	%cl, %edi
	leaq	-488(%r12), %rcx
	cmpq	%rdi, %rcx
	cmovbq	%rcx, %rdi
	xorl	%ecx, %ecx
	cmpq	$488, %r12
	cmovaeq	%rdi, %rcx
.LBB25_4:
	addq	%r15, %rdx
	cmpq	$488, %r12
	movl	$488, %edi
	cmovbq	%r12, %rdi
	addq	%rdx, %rdi
	movq	%rcx, 64(%rsp)
	movq	%r13, 48(%rsp)
	movq	%r14, 40(%rsp)
	movq	%r11, 32(%rsp)
	movq	%r10, 24(%rsp)
	movq	%rax, 16(%rsp)
	movq	%rsi, 8(%rsp)
	movq	80(%rsp), %rax
	movq	%rax, (%rsp)
	movq	%rdi, 56(%rsp)
	movl	$0, 72(%rsp)
	movq	112(%rsp), %rdi
	movq	120(%rsp), %rsi
	movq	88(%rsp), %rdx
	movl	$8, %ecx
	movq	104(%rsp), %r9
	callq	"pieces::put_peer"
	movq	%rax, 88(%rsp)
	incq	%rbx
	cmpq	%rbx, 192(%rsp)
	movq	96(%rsp), %r9
	je	.LBB25_51
.LBB25_5:
	movq	128(%rsp), %rax
	movq	(%rax,%rbx,8), %rdx
	cmpq	%rbp, %rdx
	jae	.LBB25_13
	imulq	$616, %rdx, %rcx
	movl	$616, %esi
.LBB25_7:
	movzbl	2(%r15,%rcx), %edi
	cmpb	$64, %dil
	jb	.LBB25_9
	movl	$64, %edi
.LBB25_9:
	movq	%rsi, %r10
	subq	$40, %r10
	movl	$40, %r8d
	cmovbq	%rsi, %r8
	movzbl	%dil, %edi
	cmpq	%rdi, %r10
	cmovaeq	%rdi, %r10
	xorl	%eax, %eax
	cmpq	$40, %rsi
	cmovaeq	%r10, %rax
	movq	%rax, 104(%rsp)
	addq	%r15, %r8
	addq	%rcx, %r8
	cmpq	%rbp, %rdx
	jae	.LBB25_17
	imulq	$616, %rdx, %r10
	movzbl	3(%r15,%r10), %ecx
	cmpb	$4, %cl
	jb	.LBB25_12
	movl	$4, %ecx
.LBB25_12:
	movzbl	%cl, %eax
	movq	%rax, 80(%rsp)
	movl	$616, %r11d
	jmp	.LBB25_23
	.p2align	4
.LBB25_13:
	jbe	.LBB25_15
	xorl	%esi, %esi
	movq	%r9, %rcx
	jmp	.LBB25_16
	.p2align	4
.LBB25_15:
	imulq	$616, %rdx, %rcx
	movq	%r9, %rsi
	subq	%rcx, %rsi
	cmpq	$2, %rsi
	ja	.LBB25_7
.LBB25_16:
	addq	%r15, %rcx
	addq	%rsi, %rcx
	movq	$0, 104(%rsp)
	movq	%rcx, %r8
.LBB25_17:
	cmpq	%rdx, %rbp
	jae	.LBB25_19
	movq	$0, 80(%rsp)
	movq	%r9, %r10
	xorl	%ecx, %ecx
	jmp	.LBB25_28
	.p2align	4
.LBB25_19:
	imulq	$616, %rdx, %r10
	movq	%r9, %r11
	subq	%r10, %r11
	cmpq	$3, %r11
	jbe	.LBB25_27
	movzbl	3(%r15,%r10), %ecx
	cmpb	$4, %cl
	jb	.LBB25_22
	movl	$4, %ecx
.LBB25_22:
	movzbl	%cl, %eax
	movq	%rax, 80(%rsp)
	movl	$4, %ecx
	cmpq	$4, %r11
	je	.LBB25_28
.LBB25_23:
	movzbl	4(%r15,%r10), %ecx
	cmpb	$-128, %cl
	jb	.LBB25_25
	movl	$128, %ecx
.LBB25_25:
	movq	%r11, %r14
	subq	$104, %r14
	movl	$104, %esi
	cmovbq	%r11, %rsi
	movzbl	%cl, %ecx
	cmpq	%rcx, %r14
	cmovaeq	%rcx, %r14
	xorl	%eax, %eax
	cmpq	$104, %r11
	cmovaeq	%r14, %rax
	addq	%r15, %rsi
	addq	%r10, %rsi
	cmpq	%rbp, %rdx
	jae	.LBB25_29
	imulq	$616, %rdx, %r10
	movl	$616, %r14d
	jmp	.LBB25_32
.LBB25_27:
	movq	$0, 80(%rsp)
	movq	%r11, %rcx
.LBB25_28:
	addq	%r15, %r10
	addq	%rcx, %r10
	xorl	%eax, %eax
	movq	%r10, %rsi
.LBB25_29:
	cmpq	%rdx, %rbp
	jae	.LBB25_31
	xorl	%r14d, %r14d
	movq	%r9, %r10
	jmp	.LBB25_36
	.p2align	4
.LBB25_31:
	imulq	$616, %rdx, %r10
	movq	%r9, %r14
	subq	%r10, %r14
	cmpq	$5, %r14
	jbe	.LBB25_36
.LBB25_32:
	movzbl	5(%r15,%r10), %ecx
	cmpb	$-128, %cl
	jb	.LBB25_34
	movl	$128, %ecx
.LBB25_34:
	movq	%r14, %r12
	subq	$232, %r12
	movl	$232, %r13d
	cmovbq	%r14, %r13
	movzbl	%cl, %ecx
	cmpq	%rcx, %r12
	cmovaeq	%rcx, %r12
	xorl	%r11d, %r11d
	cmpq	$232, %r14
	cmovaeq	%r12, %r11
	addq	%r15, %r10
	addq	%r13, %r10
	cmpq	%rbp, %rdx
	jae	.LBB25_37
	imulq	$616, %rdx, %r14
	movl	$616, %edi
	jmp	.LBB25_40
	.p2align	4
.LBB25_36:
	addq	%r15, %r10
	addq	%r14, %r10
	xorl	%r11d, %r11d
.LBB25_37:
	cmpq	%rdx, %rbp
	jae	.LBB25_39
	xorl	%edi, %edi
	movq	%r9, %r14
	jmp	.LBB25_44
	.p2align	4
.LBB25_39:
	imulq	$616, %rdx, %r14
	movq	%r9, %rdi
	subq	%r14, %rdi
	cmpq	$6, %rdi
	jbe	.LBB25_44
.LBB25_40:
	movzbl	6(%r15,%r14), %ecx
	cmpb	$-128, %cl
	jb	.LBB25_42
	movl	$128, %ecx
.LBB25_42:
	movq	%rdi, %r12
	subq	$360, %r12
	movl	$360, %r9d
	cmovbq	%rdi, %r9
	movzbl	%cl, %ecx
	cmpq	%rcx, %r12
	cmovaeq	%rcx, %r12
	xorl	%r13d, %r13d
	cmpq	$360, %rdi
	cmovaeq	%r12, %r13
	addq	%r15, %r14
	addq	%r9, %r14
	cmpq	%rbp, %rdx
	jae	.LBB25_45
	imulq	$616, %rdx, %rdx
	movl	$616, %r12d
	jmp	.LBB25_47
	.p2align	4
.LBB25_44:
	addq	%r15, %r14
	addq	%rdi, %r14
	xorl	%r13d, %r13d
	cmpq	%rdx, %rbp
	jae	.LBB25_46
.LBB25_2:
	xorl	%r12d, %r12d
	movq	%r9, %rdx
	jmp	.LBB25_3
.LBB25_45:
	movq	96(%rsp), %r9
	cmpq	%rdx, %rbp
	jb	.LBB25_2
.LBB25_46:
	imulq	$616, %rdx, %rdx
	movq	%r9, %r12
	subq	%rdx, %r12
	cmpq	$8, %r12
	jb	.LBB25_3
.LBB25_47:
	movzbl	7(%r15,%rdx), %ecx
	cmpb	$-128, %cl
	jb	.LBB25_49
	movl	$128, %ecx
	jmp	.LBB25_49
	.p2align	4
.LBB25_3:
	xorl	%ecx, %ecx
	jmp	.LBB25_4
.LBB25_51:
	movq	88(%rsp), %rax
	addq	$136, %rsp
	popq	%rbx
	popq	%r12
	popq	%r13
	popq	%r14
	popq	%r15
	popq	%rbp
	retq
.Lfunc_end25:
	.size	"replies::put_entries", .Lfunc_end25-"replies::put_entries"

	.section	".text.pieces::put_peer","ax",@progbits
	.p2align	4
	.type	"pieces::put_peer",@function
"pieces::put_peer":
	pushq	%rbp
	pushq	%r15
	pushq	%r14
	pushq	%r13
	pushq	%r12
	pushq	%rbx
	cmpq	$64, %r9
	ja	.LBB26_68
	movq	72(%rsp), %r15
	movq	56(%rsp), %r11
	testq	%r11, %r11
	setne	%al
	cmpq	$129, %r15
	setae	%r10b
	testb	%r10b, %al
	jne	.LBB26_68
	movq	88(%rsp), %r14
	cmpq	$2, %r11
	setae	%al
	cmpq	$129, %r14
	setae	%r10b
	testb	%r10b, %al
	jne	.LBB26_68
	cmpq	$3, %r11
	setae	%al
	cmpq	$129, 104(%rsp)
	setae	%r10b
	testb	%r10b, %al
	jne	.LBB26_68
	movzbl	128(%rsp), %ebp
	cmpq	$4, %r11
	setb	%al
	cmpq	$129, 120(%rsp)
	setb	%r10b
	orb	%al, %r10b
	cmpb	$4, %bpl
	setb	%al
	testb	%al, %r10b
	je	.LBB26_68
	leaq	4(%r9), %rax
	testq	%r9, %r9
	movl	$2, %r13d
	cmovneq	%rax, %r13
	testq	%r11, %r11
	je	.LBB26_8
	cmpq	$1, %r15
	movq	%r15, %rax
	adcq	$0, %rax
	bsrq	%rax, %rax
	imull	$147, %eax, %eax
	shrl	$10, %eax
	leaq	(%rax,%r15), %r12
	addq	$2, %r12
	cmpq	$1, %r11
	je	.LBB26_7
	cmpq	$1, %r14
	movq	%r14, %rax
	adcq	$0, %rax
	bsrq	%rax, %rax
	imull	$147, %eax, %eax
	shrl	$10, %eax
	addq	%r14, %r12
	addq	%rax, %r12
	addq	$2, %r12
	cmpq	$3, %r11
	jb	.LBB26_7
	movq	104(%rsp), %r10
	cmpq	$1, %r10
	movq	%r10, %rax
	adcq	$0, %rax
	bsrq	%rax, %rax
	imull	$147, %eax, %eax
	shrl	$10, %eax
	addq	%r10, %rax
	addq	%rax, %r12
	addq	$2, %r12
	cmpq	$3, %r11
	jne	.LBB26_13
.LBB26_7:
	xorl	%eax, %eax
	cmpq	%rsi, %rdx
	jae	.LBB26_22
	jmp	.LBB26_15
.LBB26_8:
	xorl	%r12d, %r12d
	xorl	%eax, %eax
	cmpq	%rsi, %rdx
	jae	.LBB26_22
.LBB26_15:
	shlb	$3, %cl
	orb	$2, %cl
	movb	%cl, (%rdi,%rdx)
	leaq	1(%rdx), %rcx
	cmpq	%rsi, %rcx
	jae	.LBB26_21
	addq	%r13, %r12
	addq	%rax, %r12
	addq	$2, %rdx
	movl	$1, %eax
	subq	%rsi, %rax
	movq	104(%rsp), %r13
.LBB26_17:
	cmpq	$127, %r12
	jbe	.LBB26_72
	movl	%r12d, %r10d
	orb	$-128, %r10b
	movb	%r10b, -1(%rdi,%rdx)
	shrq	$7, %r12
	leaq	(%rax,%rdx), %r10
	incq	%r10
	incq	%rdx
	cmpq	$2, %r10
	jne	.LBB26_17
	movq	%rcx, %rdx
	jmp	.LBB26_23
.LBB26_21:
	movq	%rcx, %rdx
.LBB26_22:
	movq	104(%rsp), %r13
.LBB26_23:
	cmpq	%rdx, %rsi
	cmovaq	%rsi, %rdx
	testq	%r9, %r9
	je	.LBB26_32
.LBB26_24:
	cmpq	%rsi, %rdx
	jae	.LBB26_29
	movb	$10, (%rdi,%rdx)
	leaq	1(%rdx), %rcx
	cmpq	%rsi, %rcx
	jae	.LBB26_30
	movb	%r9b, 1(%rdi,%rdx)
	leaq	2(%rdx), %rcx
	movq	%rsi, %r12
	subq	%rcx, %r12
	jbe	.LBB26_31
	cmpq	%r9, %r12
	movq	%r9, %rbx
	cmovbq	%r12, %rbx
	cmpq	$4, %rbx
	jb	.LBB26_28
	leaq	(%rdx,%rdi), %rax
	subq	%r8, %rax
	addq	$2, %rax
	cmpq	$32, %rax
	jae	.LBB26_87
.LBB26_28:
	xorl	%r10d, %r10d
.LBB26_102:
	movq	%rbx, %rax
	movq	%r10, %r13
	andq	$3, %rax
	leaq	(%rdi,%rcx), %r14
	je	.LBB26_105
	movq	%r10, %r13
.LBB26_104:
	movzbl	(%r8,%r13), %ebp
	movb	%bpl, (%r14,%r13)
	incq	%r13
	decq	%rax
	jne	.LBB26_104
.LBB26_105:
	subq	%rbx, %r10
	cmpq	$-4, %r10
	jbe	.LBB26_108
	movzbl	128(%rsp), %ebp
.LBB26_107:
	movq	104(%rsp), %r13
	movq	88(%rsp), %r14
	jmp	.LBB26_31
.LBB26_29:
	movq	%rdx, %rcx
.LBB26_30:
	cmpq	%rcx, %rsi
	cmovaq	%rsi, %rcx
	movq	%rsi, %r12
	subq	%rcx, %r12
.LBB26_31:
	leaq	(%rcx,%r9), %rdx
	cmpq	%r12, %r9
	cmovaq	%rsi, %rdx
	cmpq	%rcx, %rsi
	cmovbq	%rcx, %rdx
.LBB26_32:
	testq	%r11, %r11
	je	.LBB26_65
	movq	%rsi, %rcx
	subq	%rdx, %rcx
	jbe	.LBB26_39
	movb	$18, (%rdi,%rdx)
	leaq	1(%rdx), %rax
	cmpq	%rsi, %rax
	jae	.LBB26_38
	leaq	(%rdi,%rdx), %r12
	movq	%rdx, %r8
	notq	%r8
	addq	%rsi, %r8
	xorl	%r9d, %r9d
	movq	%r15, %r10
.LBB26_36:
	cmpq	$128, %r10
	jb	.LBB26_73
	movl	%r10d, %ebx
	orb	$-128, %bl
	movb	%bl, 1(%r12,%r9)
	shrq	$7, %r10
	incq	%r9
	cmpq	%r9, %r8
	jne	.LBB26_36
.LBB26_38:
	movq	%rax, %rdx
.LBB26_39:
	cmpq	%rdx, %rsi
	cmovaq	%rsi, %rdx
	movq	%rsi, %rcx
	subq	%rdx, %rcx
	movq	%rdx, %r8
.LBB26_40:
	leaq	(%r8,%r15), %rdx
	cmpq	%rcx, %r15
	cmovaq	%rsi, %rdx
	cmpq	%r8, %rsi
	cmovbq	%r8, %rdx
	cmpq	$1, %r11
	je	.LBB26_65
	movq	%rsi, %rcx
	subq	%rdx, %rcx
	jbe	.LBB26_47
	movb	$18, (%rdi,%rdx)
	leaq	1(%rdx), %rax
	cmpq	%rsi, %rax
	jae	.LBB26_46
	movq	80(%rsp), %r12
	leaq	(%rdi,%rdx), %r15
	movq	%rdx, %r8
	notq	%r8
	addq	%rsi, %r8
	xorl	%r9d, %r9d
	movq	%r14, %r10
.LBB26_44:
	cmpq	$128, %r10
	jb	.LBB26_77
	movl	%r10d, %ebx
	orb	$-128, %bl
	movb	%bl, 1(%r15,%r9)
	shrq	$7, %r10
	incq	%r9
	cmpq	%r9, %r8
	jne	.LBB26_44
.LBB26_46:
	movq	%rax, %rdx
.LBB26_47:
	cmpq	%rdx, %rsi
	cmovaq	%rsi, %rdx
	movq	%rsi, %rcx
	subq	%rdx, %rcx
	movq	%rdx, %r8
.LBB26_48:
	leaq	(%r8,%r14), %rdx
	cmpq	%rcx, %r14
	cmovaq	%rsi, %rdx
	cmpq	%r8, %rsi
	cmovbq	%r8, %rdx
	cmpq	$3, %r11
	jb	.LBB26_65
	movq	%rsi, %rcx
	subq	%rdx, %rcx
	jbe	.LBB26_55
	movb	$18, (%rdi,%rdx)
	leaq	1(%rdx), %rax
	cmpq	%rsi, %rax
	jae	.LBB26_54
	movq	96(%rsp), %r15
	leaq	(%rdi,%rdx), %r14
	movq	%rdx, %r8
	notq	%r8
	addq	%rsi, %r8
	xorl	%r9d, %r9d
	movq	%r13, %r10
.LBB26_52:
	cmpq	$128, %r10
	jb	.LBB26_83
	movl	%r10d, %ebx
	orb	$-128, %bl
	movb	%bl, 1(%r14,%r9)
	shrq	$7, %r10
	incq	%r9
	cmpq	%r9, %r8
	jne	.LBB26_52
.LBB26_54:
	movq	%rax, %rdx
.LBB26_55:
	cmpq	%rdx, %rsi
	cmovaq	%rsi, %rdx
	movq	%rsi, %rcx
	subq	%rdx, %rcx
	movq	%rdx, %r8
.LBB26_56:
	leaq	(%r8,%r13), %rdx
	cmpq	%rcx, %r13
	cmovaq	%rsi, %rdx
	cmpq	%r8, %rsi
	cmovbq	%r8, %rdx
	cmpq	$3, %r11
	je	.LBB26_65
	movq	%rsi, %rcx
	subq	%rdx, %rcx
	jbe	.LBB26_63
	movb	$18, (%rdi,%rdx)
	leaq	1(%rdx), %rax
	cmpq	%rsi, %rax
	jae	.LBB26_62
	movq	112(%rsp), %rbx
	leaq	(%rdi,%rdx), %r11
	movq	%rdx, %r8
	notq	%r8
	addq	%rsi, %r8
	xorl	%r9d, %r9d
	movq	120(%rsp), %r10
.LBB26_60:
	cmpq	$128, %r10
	jb	.LBB26_91
	movl	%ebp, %r14d
	movl	%r10d, %ebp
	orb	$-128, %bpl
	movb	%bpl, 1(%r11,%r9)
	movl	%r14d, %ebp
	shrq	$7, %r10
	incq	%r9
	cmpq	%r9, %r8
	jne	.LBB26_60
.LBB26_62:
	movq	%rax, %rdx
.LBB26_63:
	cmpq	%rdx, %rsi
	cmovaq	%rsi, %rdx
	movq	%rsi, %rcx
	subq	%rdx, %rcx
	movq	%rdx, %r8
.LBB26_64:
	movq	120(%rsp), %rax
	leaq	(%r8,%rax), %rdx
	cmpq	%rcx, %rax
	cmovaq	%rsi, %rdx
	cmpq	%r8, %rsi
	cmovbq	%r8, %rdx
.LBB26_65:
	cmpq	%rsi, %rdx
	jae	.LBB26_70
	movb	$24, (%rdi,%rdx)
	leaq	1(%rdx), %rax
	cmpq	%rsi, %rax
	jae	.LBB26_71
	movb	%bpl, 1(%rdi,%rdx)
	addq	$2, %rdx
.LBB26_68:
	movq	%rdx, %rax
.LBB26_69:
	popq	%rbx
	popq	%r12
	popq	%r13
	popq	%r14
	popq	%r15
	popq	%rbp
	retq
.LBB26_70:
	movq	%rdx, %rax
.LBB26_71:
	cmpq	%rax, %rsi
	cmovaq	%rsi, %rax
	jmp	.LBB26_69
.LBB26_72:
	movb	%r12b, -1(%rdi,%rdx)
	testq	%r9, %r9
	jne	.LBB26_24
	jmp	.LBB26_32
.LBB26_73:
	leaq	(%rdx,%r9), %rax
	movb	%r10b, 1(%rdi,%rax)
	leaq	(%rdx,%r9), %r8
	addq	$2, %r8
	subq	%r9, %rcx
	addq	$-2, %rcx
	cmpq	%rsi, %r8
	jae	.LBB26_40
	cmpq	%r15, %rcx
	movq	%r15, %rbx
	cmovbq	%rcx, %rbx
	testq	%rbx, %rbx
	je	.LBB26_40
	cmpq	$4, %rbx
	jae	.LBB26_89
	xorl	%eax, %eax
	movq	64(%rsp), %rdx
	jmp	.LBB26_135
.LBB26_13:
	movq	120(%rsp), %r10
	cmpq	$1, %r10
	movq	%r10, %rax
	adcq	$0, %rax
	bsrq	%rax, %rax
	imull	$147, %eax, %eax
	shrl	$10, %eax
	addq	%r10, %rax
	addq	$2, %rax
	cmpq	%rsi, %rdx
	jae	.LBB26_22
	jmp	.LBB26_15
.LBB26_77:
	leaq	(%rdx,%r9), %rax
	movb	%r10b, 1(%rdi,%rax)
	leaq	(%rdx,%r9), %r8
	addq	$2, %r8
	subq	%r9, %rcx
	addq	$-2, %rcx
	cmpq	%rsi, %r8
	jae	.LBB26_48
	cmpq	%r14, %rcx
	movq	%r14, %rdx
	cmovbq	%rcx, %rdx
	testq	%rdx, %rdx
	je	.LBB26_48
	cmpq	$4, %rdx
	jb	.LBB26_80
	movq	%r15, %rax
	subq	%r12, %rax
	addq	%r9, %rax
	addq	$2, %rax
	cmpq	$32, %rax
	jae	.LBB26_117
.LBB26_80:
	xorl	%ebx, %ebx
.LBB26_155:
	testb	$3, %dl
	je	.LBB26_159
	movq	%rdx, -16(%rsp)
	movq	%rbx, %r10
	negq	%r10
	cmpq	%rcx, %r14
	movq	%rcx, %rax
	cmovbq	%r14, %rax
	leaq	(%r12,%rbx), %rbp
	andl	$3, %eax
	movq	%rbx, -24(%rsp)
	addq	%r15, %rbx
	addq	$2, %rbx
	xorl	%r13d, %r13d
.LBB26_157:
	movzbl	(%rbp,%r13), %r12d
	leaq	(%rbx,%r13), %rdx
	movb	%r12b, (%r9,%rdx)
	incq	%r13
	decq	%r10
	cmpq	%r13, %rax
	jne	.LBB26_157
	negq	%r10
	movzbl	128(%rsp), %ebp
	movq	104(%rsp), %r13
	movq	-16(%rsp), %rdx
	movq	-24(%rsp), %rbx
	jmp	.LBB26_160
.LBB26_108:
	leaq	(%rdx,%rdi), %rax
	addq	$5, %rax
	movzbl	128(%rsp), %ebp
	movq	88(%rsp), %r14
.LBB26_109:
	movzbl	(%r8,%r13), %edx
	movb	%dl, -3(%rax,%r13)
	movzbl	1(%r8,%r13), %edx
	movb	%dl, -2(%rax,%r13)
	movzbl	2(%r8,%r13), %edx
	movb	%dl, -1(%rax,%r13)
	movzbl	3(%r8,%r13), %edx
	movb	%dl, (%rax,%r13)
	addq	$4, %r13
	cmpq	%r13, %rbx
	jne	.LBB26_109
	movq	104(%rsp), %r13
	jmp	.LBB26_31
.LBB26_83:
	leaq	(%rdx,%r9), %rax
	movb	%r10b, 1(%rdi,%rax)
	leaq	(%rdx,%r9), %r8
	addq	$2, %r8
	subq	%r9, %rcx
	addq	$-2, %rcx
	cmpq	%rsi, %r8
	jae	.LBB26_56
	cmpq	%r13, %rcx
	movq	%r13, %rdx
	cmovbq	%rcx, %rdx
	testq	%rdx, %rdx
	je	.LBB26_56
	cmpq	$4, %rdx
	jb	.LBB26_86
	movq	%r14, %rax
	subq	%r15, %rax
	addq	%r9, %rax
	addq	$2, %rax
	cmpq	$32, %rax
	jae	.LBB26_125
.LBB26_86:
	xorl	%ebx, %ebx
.LBB26_184:
	movq	%rbx, %r10
	testb	$3, %dl
	je	.LBB26_188
	negq	%r10
	cmpq	%rcx, %r13
	movq	%rcx, %rax
	cmovbq	%r13, %rax
	leaq	(%r15,%rbx), %r13
	andl	$3, %eax
	movq	%rbx, -24(%rsp)
	addq	%r14, %rbx
	addq	$2, %rbx
	xorl	%ebp, %ebp
.LBB26_186:
	movzbl	(%r13,%rbp), %r12d
	leaq	(%rbx,%rbp), %r15
	movb	%r12b, (%r9,%r15)
	incq	%rbp
	decq	%r10
	cmpq	%rbp, %rax
	jne	.LBB26_186
	negq	%r10
	movq	104(%rsp), %r13
	movq	-24(%rsp), %rbx
.LBB26_188:
	subq	%rdx, %rbx
	cmpq	$-4, %rbx
	ja	.LBB26_191
	cmpq	%rcx, %r13
	movq	%rcx, %rax
	cmovbq	%r13, %rax
	subq	%r10, %rax
	movq	96(%rsp), %rdx
	addq	%r10, %rdx
	addq	$3, %rdx
	addq	%r14, %r10
	addq	$5, %r10
	xorl	%ebx, %ebx
.LBB26_190:
	movzbl	-3(%rdx,%rbx), %ebp
	leaq	(%r10,%rbx), %r14
	movb	%bpl, -3(%r9,%r14)
	movzbl	-2(%rdx,%rbx), %ebp
	movb	%bpl, -2(%r9,%r14)
	movzbl	-1(%rdx,%rbx), %ebp
	movb	%bpl, -1(%r9,%r14)
	movzbl	(%rdx,%rbx), %ebp
	movb	%bpl, (%r9,%r14)
	addq	$4, %rbx
	cmpq	%rbx, %rax
	jne	.LBB26_190
.LBB26_191:
	movzbl	128(%rsp), %ebp
	jmp	.LBB26_56
.LBB26_87:
	cmpq	$32, %rbx
	jae	.LBB26_95
	xorl	%r10d, %r10d
	jmp	.LBB26_99
.LBB26_89:
	movq	%r12, %rax
	movq	64(%rsp), %rdx
	subq	%rdx, %rax
	addq	%r9, %rax
	addq	$2, %rax
	cmpq	$32, %rax
	jae	.LBB26_113
	xorl	%eax, %eax
	jmp	.LBB26_135
.LBB26_91:
	leaq	(%rdx,%r9), %rax
	movb	%r10b, 1(%rdi,%rax)
	leaq	(%rdx,%r9), %r8
	addq	$2, %r8
	subq	%r9, %rcx
	addq	$-2, %rcx
	cmpq	%rsi, %r8
	jae	.LBB26_64
	movq	120(%rsp), %rdx
	cmpq	%rdx, %rcx
	cmovbq	%rcx, %rdx
	testq	%rdx, %rdx
	je	.LBB26_64
	cmpq	$4, %rdx
	jb	.LBB26_94
	movq	%r11, %rax
	subq	%rbx, %rax
	addq	%r9, %rax
	addq	$2, %rax
	cmpq	$32, %rax
	jae	.LBB26_145
.LBB26_94:
	movq	$0, -24(%rsp)
.LBB26_171:
	testb	$3, %dl
	je	.LBB26_175
	movq	-24(%rsp), %r12
	movq	%r12, %r10
	negq	%r10
	movq	120(%rsp), %r14
	cmpq	%rcx, %r14
	movq	%rcx, %rax
	cmovbq	%r14, %rax
	leaq	(%rbx,%r12), %r15
	andl	$3, %eax
	addq	%r11, %r12
	addq	$2, %r12
	xorl	%r13d, %r13d
.LBB26_173:
	movzbl	(%r15,%r13), %ebp
	leaq	(%r12,%r13), %r14
	movb	%bpl, (%r9,%r14)
	incq	%r13
	decq	%r10
	cmpq	%r13, %rax
	jne	.LBB26_173
	negq	%r10
	jmp	.LBB26_176
.LBB26_95:
	movl	%ebx, %r10d
	andl	$96, %r10d
	leaq	(%rdx,%rdi), %rax
	addq	$18, %rax
	xorl	%r13d, %r13d
.LBB26_96:
	movups	(%r8,%r13), %xmm0
	movups	16(%r8,%r13), %xmm1
	movups	%xmm0, -16(%rax,%r13)
	movups	%xmm1, (%rax,%r13)
	addq	$32, %r13
	cmpq	%r13, %r10
	jne	.LBB26_96
	cmpq	%r10, %rbx
	je	.LBB26_107
	testb	$28, %bl
	je	.LBB26_102
.LBB26_99:
	movq	%r10, %rax
	movl	%ebx, %r10d
	andl	$124, %r10d
	leaq	(%rdi,%rcx), %r14
.LBB26_100:
	movl	(%r8,%rax), %r13d
	movl	%r13d, (%r14,%rax)
	addq	$4, %rax
	cmpq	%rax, %r10
	jne	.LBB26_100
	cmpq	%r10, %rbx
	je	.LBB26_107
	jmp	.LBB26_102
.LBB26_113:
	cmpq	$32, %rbx
	jae	.LBB26_119
	xorl	%eax, %eax
	jmp	.LBB26_132
.LBB26_159:
	movq	%rbx, %r10
.LBB26_160:
	subq	%rdx, %rbx
	cmpq	$-4, %rbx
	ja	.LBB26_48
	movl	%ebp, %r12d
	cmpq	%rcx, %r14
	movq	%rcx, %rax
	cmovbq	%r14, %rax
	subq	%r10, %rax
	movq	80(%rsp), %rdx
	addq	%r10, %rdx
	addq	$3, %rdx
	addq	%r15, %r10
	addq	$5, %r10
	xorl	%ebx, %ebx
.LBB26_162:
	movzbl	-3(%rdx,%rbx), %ebp
	leaq	(%r10,%rbx), %r15
	movb	%bpl, -3(%r9,%r15)
	movzbl	-2(%rdx,%rbx), %ebp
	movb	%bpl, -2(%r9,%r15)
	movzbl	-1(%rdx,%rbx), %ebp
	movb	%bpl, -1(%r9,%r15)
	movzbl	(%rdx,%rbx), %ebp
	movb	%bpl, (%r9,%r15)
	addq	$4, %rbx
	cmpq	%rbx, %rax
	jne	.LBB26_162
	movl	%r12d, %ebp
	jmp	.LBB26_48
.LBB26_117:
	cmpq	$32, %rdx
	jae	.LBB26_127
	xorl	%ebx, %ebx
	jmp	.LBB26_152
.LBB26_119:
	movq	%rbx, %rbp
	movq	%rbx, %r13
	andq	$-32, %r13
	cmpq	%rcx, %r15
	movq	%rcx, %rax
	cmovbq	%r15, %rax
	andq	$-32, %rax
	xorl	%r10d, %r10d
.LBB26_120:
	movups	(%rdx,%r10), %xmm0
	movups	16(%rdx,%r10), %xmm1
	leaq	(%r12,%r10), %rbx
	movups	%xmm0, 2(%r9,%rbx)
	movups	%xmm1, 18(%r9,%rbx)
	addq	$32, %r10
	cmpq	%r10, %rax
	jne	.LBB26_120
	cmpq	%r13, %rbp
	jne	.LBB26_131
	movzbl	128(%rsp), %ebp
	jmp	.LBB26_144
.LBB26_125:
	cmpq	$32, %rdx
	jae	.LBB26_147
	xorl	%ebx, %ebx
	movq	104(%rsp), %r13
	jmp	.LBB26_181
.LBB26_127:
	movq	%rdx, %r13
	andq	$-32, %rdx
	movq	%rdx, -24(%rsp)
	cmpq	%rcx, %r14
	movq	%rcx, %rax
	cmovbq	%r14, %rax
	andq	$-32, %rax
	xorl	%r10d, %r10d
.LBB26_128:
	movups	(%r12,%r10), %xmm0
	movups	16(%r12,%r10), %xmm1
	leaq	(%r15,%r10), %rbx
	movups	%xmm0, 2(%r9,%rbx)
	movups	%xmm1, 18(%r9,%rbx)
	addq	$32, %r10
	cmpq	%r10, %rax
	jne	.LBB26_128
	cmpq	-24(%rsp), %r13
	jne	.LBB26_151
	movq	104(%rsp), %r13
	movq	88(%rsp), %r14
	jmp	.LBB26_48
.LBB26_131:
	movq	%rbp, %rbx
	movq	%r13, %rax
	testb	$28, %bl
	movzbl	128(%rsp), %ebp
	movq	104(%rsp), %r13
	je	.LBB26_135
.LBB26_132:
	movq	%rbx, -16(%rsp)
	andq	$-4, %rbx
	movq	%rbx, -8(%rsp)
	cmpq	%rcx, %r15
	movq	%rcx, %r10
	cmovbq	%r15, %r10
	andq	$-4, %r10
.LBB26_133:
	movl	(%rdx,%rax), %ebx
	leaq	(%r12,%rax), %r13
	movl	%ebx, 2(%r9,%r13)
	addq	$4, %rax
	cmpq	%rax, %r10
	jne	.LBB26_133
	movq	-16(%rsp), %rbx
	movq	-8(%rsp), %rax
	cmpq	%rax, %rbx
	movq	104(%rsp), %r13
	je	.LBB26_40
.LBB26_135:
	testb	$3, %bl
	je	.LBB26_139
	movq	%rbx, -16(%rsp)
	movq	%rax, %r10
	negq	%r10
	cmpq	%rcx, %r15
	movq	%rax, %rbx
	movq	%rcx, %rax
	cmovbq	%r15, %rax
	addq	%rbx, %rdx
	movq	%rdx, -24(%rsp)
	andl	$3, %eax
	movq	%rbx, -8(%rsp)
	addq	%r12, %rbx
	addq	$2, %rbx
	xorl	%r13d, %r13d
.LBB26_137:
	movq	-24(%rsp), %rdx
	movzbl	(%rdx,%r13), %edx
	leaq	(%rbx,%r13), %rbp
	movb	%dl, (%r9,%rbp)
	incq	%r13
	decq	%r10
	cmpq	%r13, %rax
	jne	.LBB26_137
	negq	%r10
	movzbl	128(%rsp), %ebp
	movq	104(%rsp), %r13
	movq	64(%rsp), %rdx
	movq	-16(%rsp), %rbx
	movq	-8(%rsp), %rax
	jmp	.LBB26_140
.LBB26_139:
	movq	%rax, %r10
.LBB26_140:
	subq	%rbx, %rax
	cmpq	$-4, %rax
	ja	.LBB26_40
	movl	%ebp, %r13d
	cmpq	%rcx, %r15
	movq	%rcx, %rax
	cmovbq	%r15, %rax
	subq	%r10, %rax
	addq	%r10, %rdx
	addq	$3, %rdx
	addq	%r12, %r10
	addq	$5, %r10
	xorl	%ebx, %ebx
.LBB26_142:
	movzbl	-3(%rdx,%rbx), %ebp
	leaq	(%r10,%rbx), %r12
	movb	%bpl, -3(%r9,%r12)
	movzbl	-2(%rdx,%rbx), %ebp
	movb	%bpl, -2(%r9,%r12)
	movzbl	-1(%rdx,%rbx), %ebp
	movb	%bpl, -1(%r9,%r12)
	movzbl	(%rdx,%rbx), %ebp
	movb	%bpl, (%r9,%r12)
	addq	$4, %rbx
	cmpq	%rbx, %rax
	jne	.LBB26_142
	movl	%r13d, %ebp
.LBB26_144:
	movq	104(%rsp), %r13
	jmp	.LBB26_40
.LBB26_175:
	movq	-24(%rsp), %r10
.LBB26_176:
	movq	-24(%rsp), %rax
	subq	%rdx, %rax
	cmpq	$-4, %rax
	ja	.LBB26_179
	movq	120(%rsp), %rdx
	cmpq	%rcx, %rdx
	movq	%rcx, %rax
	cmovbq	%rdx, %rax
	subq	%r10, %rax
	leaq	(%r10,%rbx), %rdx
	addq	$3, %rdx
	addq	%r11, %r10
	addq	$5, %r10
	xorl	%r11d, %r11d
.LBB26_178:
	movzbl	-3(%rdx,%r11), %ebx
	leaq	(%r10,%r11), %r14
	movb	%bl, -3(%r9,%r14)
	movzbl	-2(%rdx,%r11), %ebx
	movb	%bl, -2(%r9,%r14)
	movzbl	-1(%rdx,%r11), %ebx
	movb	%bl, -1(%r9,%r14)
	movzbl	(%rdx,%r11), %ebx
	movb	%bl, (%r9,%r14)
	addq	$4, %r11
	cmpq	%r11, %rax
	jne	.LBB26_178
.LBB26_179:
	movzbl	128(%rsp), %ebp
	jmp	.LBB26_64
.LBB26_145:
	cmpq	$32, %rdx
	jae	.LBB26_164
	movq	$0, -24(%rsp)
	jmp	.LBB26_168
.LBB26_147:
	movq	%rdx, %rax
	andq	$-32, %rax
	movq	%rax, %rbp
	movq	104(%rsp), %r10
	cmpq	%rcx, %r10
	movq	%rcx, %rax
	cmovbq	%r10, %rax
	andq	$-32, %rax
	xorl	%r10d, %r10d
	movq	%r15, %r12
.LBB26_148:
	movups	(%r12,%r10), %xmm0
	movups	16(%r12,%r10), %xmm1
	leaq	(%r14,%r10), %rbx
	movups	%xmm0, 2(%r9,%rbx)
	movups	%xmm1, 18(%r9,%rbx)
	addq	$32, %r10
	cmpq	%r10, %rax
	jne	.LBB26_148
	cmpq	%rbp, %rdx
	jne	.LBB26_180
	movzbl	128(%rsp), %ebp
	movq	104(%rsp), %r13
	jmp	.LBB26_56
.LBB26_151:
	movq	%r13, %rdx
	testb	$28, %dl
	movq	104(%rsp), %r13
	movq	-24(%rsp), %rbx
	movq	88(%rsp), %r14
	je	.LBB26_155
.LBB26_152:
	movq	%rbx, %rax
	movq	%rdx, %r10
	andq	$-4, %r10
	movq	%r10, -24(%rsp)
	cmpq	%rcx, %r14
	movq	%rcx, %r10
	cmovbq	%r14, %r10
	andq	$-4, %r10
.LBB26_153:
	movl	(%r12,%rax), %ebx
	leaq	(%r15,%rax), %r13
	movl	%ebx, 2(%r9,%r13)
	addq	$4, %rax
	cmpq	%rax, %r10
	jne	.LBB26_153
	movq	-24(%rsp), %rbx
	cmpq	%rbx, %rdx
	movq	104(%rsp), %r13
	je	.LBB26_48
	jmp	.LBB26_155
.LBB26_164:
	movq	%rdx, %rax
	andq	$-32, %rax
	movq	%rax, -24(%rsp)
	movq	120(%rsp), %r10
	cmpq	%rcx, %r10
	movq	%rcx, %rax
	cmovbq	%r10, %rax
	andq	$-32, %rax
	xorl	%r10d, %r10d
.LBB26_165:
	movups	(%rbx,%r10), %xmm0
	movups	16(%rbx,%r10), %xmm1
	leaq	(%r11,%r10), %r15
	movups	%xmm0, 2(%r9,%r15)
	movups	%xmm1, 18(%r9,%r15)
	addq	$32, %r10
	cmpq	%r10, %rax
	jne	.LBB26_165
	cmpq	-24(%rsp), %rdx
	je	.LBB26_179
	testb	$28, %dl
	je	.LBB26_171
.LBB26_168:
	movq	-24(%rsp), %rax
	movq	%rdx, %r10
	andq	$-4, %r10
	movq	%r10, -24(%rsp)
	movq	120(%rsp), %r14
	cmpq	%rcx, %r14
	movq	%rcx, %r10
	cmovbq	%r14, %r10
	andq	$-4, %r10
.LBB26_169:
	movl	(%rbx,%rax), %ebp
	leaq	(%r11,%rax), %r15
	movl	%ebp, 2(%r9,%r15)
	addq	$4, %rax
	cmpq	%rax, %r10
	jne	.LBB26_169
	cmpq	-24(%rsp), %rdx
	je	.LBB26_179
	jmp	.LBB26_171
.LBB26_180:
	testb	$28, %dl
	movq	104(%rsp), %r13
	movq	%rbp, %rbx
	je	.LBB26_184
.LBB26_181:
	movq	%rbx, %rax
	movq	%rdx, %r10
	andq	$-4, %r10
	movq	%r10, %r12
	cmpq	%rcx, %r13
	movq	%rcx, %r10
	cmovbq	%r13, %r10
	andq	$-4, %r10
.LBB26_182:
	movl	(%r15,%rax), %ebx
	leaq	(%r14,%rax), %r13
	movl	%ebx, 2(%r9,%r13)
	addq	$4, %rax
	cmpq	%rax, %r10
	jne	.LBB26_182
	movq	%r12, %rbx
	cmpq	%r12, %rdx
	movq	104(%rsp), %r13
	je	.LBB26_191
	jmp	.LBB26_184
.Lfunc_end26:
	.size	"pieces::put_peer", .Lfunc_end26-"pieces::put_peer"

	.section	".text.replies::reply_last","ax",@progbits
	.p2align	4
	.type	"replies::reply_last",@function
"replies::reply_last":
	pushq	%rbp
	pushq	%r15
	pushq	%r14
	pushq	%r13
	pushq	%r12
	pushq	%rbx
	subq	$2376, %rsp
	movq	%r9, %r12
	movq	%r8, %r15
	movq	%rcx, %rbx
	movq	%rdx, %r14
	movq	%rsi, 104(%rsp)
	movq	%rdi, 96(%rsp)
	movq	2432(%rsp), %rbp
	leaq	648(%rsp), %rdi
	movl	$608, %edx
	movq	%rbp, %rsi
	callq	memcpy@PLT
	movzbl	608(%rbp), %eax
	movb	%al, 88(%rsp)
	movzbl	609(%rbp), %eax
	movb	%al, 81(%rsp)
	movzbl	610(%rbp), %eax
	movb	%al, 80(%rsp)
	movzbl	611(%rbp), %eax
	movb	%al, 82(%rsp)
	movzbl	612(%rbp), %eax
	movb	%al, 83(%rsp)
	movzbl	613(%rbp), %r13d
	movq	%r14, 120(%rsp)
	movq	%r14, %rdi
	movq	%rbx, 128(%rsp)
	movq	%rbx, %rsi
	movq	%r12, %rbx
	movq	%r15, 112(%rsp)
	movq	%r15, %rdx
	movq	%r12, %rcx
	callq	"replies::entries_len"
	movq	%rax, %r15
	addq	$2, %r15
	movzbl	608(%rbp), %esi
	movzbl	609(%rbp), %edx
	movzbl	610(%rbp), %ecx
	movzbl	611(%rbp), %eax
	movl	$0, 136(%rsp)
	movl	%r13d, %r8d
	testb	%r13b, %r13b
	je	.LBB27_1
	movl	%esi, %edi
	decb	%dil
	js	.LBB27_3
	movb	%sil, 136(%rsp)
	movl	$1, %esi
	jmp	.LBB27_5
.LBB27_1:
	xorl	%eax, %eax
	xorl	%esi, %esi
	movzbl	88(%rsp), %ebp
	movl	%r8d, %r12d
	movq	104(%rsp), %r13
	movq	96(%rsp), %r14
	jmp	.LBB27_14
.LBB27_3:
	xorl	%esi, %esi
.LBB27_5:
	movzbl	88(%rsp), %ebp
	movq	104(%rsp), %r13
	movq	96(%rsp), %r14
	movl	%r8d, %r12d
	cmpb	$1, %r8b
	je	.LBB27_13
	movl	%edx, %edi
	decb	%dil
	js	.LBB27_8
	movb	%dl, 136(%rsp,%rsi)
	incq	%rsi
.LBB27_8:
	cmpb	$2, %r12b
	je	.LBB27_13
	movl	%ecx, %edx
	decb	%dl
	js	.LBB27_11
	movb	%cl, 136(%rsp,%rsi)
	incq	%rsi
.LBB27_11:
	cmpb	$3, %r12b
	setne	%cl
	movl	%eax, %edx
	decb	%dl
	setns	%dl
	andb	%cl, %dl
	cmpb	$1, %dl
	jne	.LBB27_13
	movb	%al, 136(%rsp,%rsi)
	incq	%rsi
.LBB27_13:
	movl	136(%rsp), %eax
.LBB27_14:
	movl	%eax, %r8d
	shrl	$16, %r8d
	movl	%eax, %r9d
	shrl	$24, %r9d
	movzbl	83(%rsp), %ecx
	cmpb	$64, %cl
	movl	$64, %edx
	cmovbl	%ecx, %edx
	movzbl	%dl, %edi
	movzbl	%al, %edx
	movzbl	%ah, %ecx
	movzbl	%r8b, %r8d
	movl	$0, (%rsp)
	movq	%rdi, 96(%rsp)
	callq	"pieces::peer_len"
	addq	%rax, %r15
	testq	%r13, %r13
	je	.LBB27_15
	movq	%r13, %rcx
	negq	%rcx
	movl	$1, %eax
	movq	%r15, %rdx
	.p2align	4
.LBB27_18:
	cmpq	$128, %rdx
	jb	.LBB27_21
	movl	%edx, %esi
	orb	$-128, %sil
	movb	%sil, -1(%r14,%rax)
	shrq	$7, %rdx
	leaq	(%rcx,%rax), %rsi
	incq	%rsi
	incq	%rax
	cmpq	$1, %rsi
	jne	.LBB27_18
	movq	%r13, %rdx
	jmp	.LBB27_16
.LBB27_15:
	xorl	%edx, %edx
	jmp	.LBB27_16
.LBB27_21:
	movb	%dl, -1(%r14,%rax)
	cmpq	%r13, %rax
	jae	.LBB27_22
	movb	$8, (%r14,%rax)
	leaq	1(%rax), %rdx
	cmpq	%r13, %rdx
	jae	.LBB27_16
	movb	$4, 1(%r14,%rax)
	addq	$2, %rax
	movq	%rax, %rdx
	jmp	.LBB27_25
.LBB27_22:
	movq	%rax, %rdx
.LBB27_16:
	cmpq	%rdx, %r13
	cmovaq	%r13, %rdx
.LBB27_25:
	movq	%rbx, (%rsp)
	movq	%r14, %rdi
	movq	%r13, %rsi
	movq	120(%rsp), %rcx
	movq	128(%rsp), %r8
	movq	112(%rsp), %r9
	callq	"replies::put_entries"
	movq	%rax, 112(%rsp)
	leaq	1864(%rsp), %rdi
	xorl	%ebx, %ebx
	movl	$512, %edx
	xorl	%esi, %esi
	callq	memset@PLT
	movl	$0, 84(%rsp)
	leaq	136(%rsp), %rdi
	leaq	648(%rsp), %rsi
	movl	$512, %edx
	callq	memcpy@PLT
	testb	%r12b, %r12b
	movq	%r15, 88(%rsp)
	je	.LBB27_26
	movl	%ebp, %eax
	decb	%al
	js	.LBB27_28
	movzbl	%bpl, %edx
	leaq	1864(%rsp), %rdi
	leaq	136(%rsp), %rsi
	callq	memcpy@PLT
	movb	%bpl, 84(%rsp)
	movl	$1, %ebx
	movzbl	81(%rsp), %ecx
	cmpb	$1, %r12b
	jne	.LBB27_31
	jmp	.LBB27_43
.LBB27_26:
	xorl	%r15d, %r15d
	jmp	.LBB27_44
.LBB27_28:
	xorl	%ebx, %ebx
	movzbl	81(%rsp), %ecx
	cmpb	$1, %r12b
	je	.LBB27_43
.LBB27_31:
	movl	%ecx, %eax
	decb	%al
	js	.LBB27_33
	movzbl	%cl, %eax
	movl	%ecx, %ebp
	movl	%ebx, %ecx
	shll	$7, %ecx
	movl	$512, %edx
	subq	%rcx, %rdx
	cmpq	%rax, %rdx
	cmovaeq	%rax, %rdx
	leaq	(%rsp,%rcx), %rdi
	addq	$1864, %rdi
	leaq	264(%rsp), %rsi
	callq	memcpy@PLT
	movb	%bpl, 84(%rsp,%rbx)
	incq	%rbx
.LBB27_33:
	cmpb	$2, %r12b
	je	.LBB27_43
	movzbl	80(%rsp), %eax
	decb	%al
	js	.LBB27_38
	movl	%ebx, %eax
	shll	$7, %eax
	cmpl	$511, %eax
	ja	.LBB27_37
	movzbl	80(%rsp), %ecx
	movl	$512, %edx
	subq	%rax, %rdx
	cmpq	%rcx, %rdx
	cmovaeq	%rcx, %rdx
	leaq	(%rsp,%rax), %rdi
	addq	$1864, %rdi
	leaq	392(%rsp), %rsi
	callq	memcpy@PLT
.LBB27_37:
	movzbl	80(%rsp), %eax
	movb	%al, 84(%rsp,%rbx)
	incq	%rbx
.LBB27_38:
	cmpb	$3, %r12b
	je	.LBB27_43
	movzbl	82(%rsp), %ebp
	movl	%ebp, %eax
	decb	%al
	js	.LBB27_43
	movl	%ebx, %eax
	shll	$7, %eax
	cmpl	$511, %eax
	ja	.LBB27_42
	movzbl	%bpl, %ecx
	movl	$512, %edx
	subq	%rax, %rdx
	cmpq	%rcx, %rdx
	cmovaeq	%rcx, %rdx
	leaq	(%rsp,%rax), %rdi
	addq	$1864, %rdi
	leaq	520(%rsp), %rsi
	callq	memcpy@PLT
.LBB27_42:
	movb	%bpl, 84(%rsp,%rbx)
	incq	%rbx
.LBB27_43:
	movq	%rbx, %r15
	movl	84(%rsp), %ebx
.LBB27_44:
	leaq	1256(%rsp), %r12
	leaq	1864(%rsp), %rsi
	movl	$512, %edx
	movq	%r12, %rdi
	callq	memcpy@PLT
	movups	1160(%rsp), %xmm0
	movups	1176(%rsp), %xmm1
	movups	1192(%rsp), %xmm2
	movups	1208(%rsp), %xmm3
	movups	%xmm0, 1768(%rsp)
	movups	%xmm1, 1784(%rsp)
	movups	%xmm2, 1800(%rsp)
	movups	%xmm3, 1816(%rsp)
	movups	1224(%rsp), %xmm0
	movups	%xmm0, 1832(%rsp)
	movups	1240(%rsp), %xmm0
	movups	%xmm0, 1848(%rsp)
	movl	%ebx, %ebp
	shrl	$16, %ebp
	movl	%ebx, %r13d
	shrl	$24, %r13d
	leaq	136(%rsp), %rdi
	movl	$512, %edx
	movq	%r12, %rsi
	callq	memcpy@PLT
	movzbl	%bl, %eax
	movzbl	%bh, %ecx
	leaq	264(%rsp), %rdx
	movzbl	%bpl, %esi
	leaq	392(%rsp), %rdi
	leaq	520(%rsp), %r8
	movq	%r13, 64(%rsp)
	movq	%r8, 56(%rsp)
	movq	%rsi, 48(%rsp)
	movq	%rdi, 40(%rsp)
	movq	%rcx, 32(%rsp)
	movq	%rdx, 24(%rsp)
	movq	%rax, 16(%rsp)
	movq	%r12, 8(%rsp)
	movq	%r15, (%rsp)
	movl	$0, 72(%rsp)
	movq	%r14, %rdi
	movq	104(%rsp), %rsi
	movq	112(%rsp), %rdx
	movl	$8, %ecx
	leaq	1768(%rsp), %r8
	movq	96(%rsp), %r9
	callq	"pieces::put_peer"
	movq	88(%rsp), %rcx
	cmpq	$1, %rcx
	movq	%rcx, %rax
	adcq	$0, %rax
	bsrq	%rax, %rax
	imull	$147, %eax, %eax
	shrl	$10, %eax
	addq	%rcx, %rax
	incq	%rax
	addq	$2376, %rsp
	popq	%rbx
	popq	%r12
	popq	%r13
	popq	%r14
	popq	%r15
	popq	%rbp
	retq
.Lfunc_end27:
	.size	"replies::reply_last", .Lfunc_end27-"replies::reply_last"

	.section	".text.sightings::seen","ax",@progbits
	.p2align	4
	.type	"sightings::seen",@function
"sightings::seen":
	pushq	%rbp
	pushq	%r15
	pushq	%r14
	pushq	%r13
	pushq	%r12
	pushq	%rbx
	subq	$1848, %rsp
	movq	%r8, %r13
	movq	%rcx, 64(%rsp)
	movq	%rdx, %r15
	movq	%rsi, %r14
	movq	%rdi, 24(%rsp)
	movq	576(%r8), %rax
	movq	%rax, 72(%rsp)
	movq	584(%r8), %rax
	movq	%rax, 56(%rsp)
	movq	592(%r8), %rax
	movq	%rax, 48(%rsp)
	movq	600(%r8), %rax
	movq	%rax, 40(%rsp)
	movl	608(%r8), %r12d
	movzbl	612(%r8), %eax
	movb	%al, 11(%rsp)
	movzbl	613(%r8), %ebp
	leaq	1272(%rsp), %rdi
	movl	$576, %edx
	xorl	%esi, %esi
	callq	memset@PLT
	xorps	%xmm0, %xmm0
	movaps	%xmm0, 144(%rsp)
	movaps	%xmm0, 160(%rsp)
	leaq	176(%rsp), %rdi
	movl	$512, %edx
	xorl	%esi, %esi
	callq	memset@PLT
	movl	$0, 96(%rsp)
	leaq	696(%rsp), %rdi
	movl	$512, %edx
	movq	%r13, %rsi
	callq	memcpy@PLT
	testb	%bpl, %bpl
	je	.LBB28_1
	movl	%r12d, %eax
	decb	%al
	js	.LBB28_3
	movzbl	%r12b, %edx
	leaq	176(%rsp), %rdi
	leaq	696(%rsp), %rsi
	callq	memcpy@PLT
	movb	%r12b, 96(%rsp)
	movl	$1, %ecx
	cmpb	$1, %bpl
	jne	.LBB28_6
	jmp	.LBB28_18
.LBB28_1:
	movl	$0, 36(%rsp)
	movq	$0, 16(%rsp)
	jmp	.LBB28_19
.LBB28_3:
	xorl	%ecx, %ecx
	cmpb	$1, %bpl
	je	.LBB28_18
.LBB28_6:
	movl	%r12d, %ebx
	shrl	$8, %ebx
	movl	%ebx, %eax
	decb	%al
	js	.LBB28_8
	movzbl	%bl, %eax
	movq	%rcx, 16(%rsp)
	movq	16(%rsp), %rcx
	shll	$7, %ecx
	movl	$512, %edx
	subq	%rcx, %rdx
	cmpq	%rax, %rdx
	cmovaeq	%rax, %rdx
	leaq	(%rsp,%rcx), %rdi
	addq	$176, %rdi
	leaq	824(%rsp), %rsi
	callq	memcpy@PLT
	movq	16(%rsp), %rcx
	movb	%bl, 96(%rsp,%rcx)
	incq	%rcx
.LBB28_8:
	cmpb	$2, %bpl
	je	.LBB28_18
	movl	%r12d, %ebx
	shrl	$16, %ebx
	movl	%ebx, %eax
	decb	%al
	js	.LBB28_13
	movl	%ecx, %eax
	shll	$7, %eax
	cmpl	$511, %eax
	ja	.LBB28_12
	movq	%rcx, 16(%rsp)
	movzbl	%bl, %ecx
	movl	$512, %edx
	subq	%rax, %rdx
	cmpq	%rcx, %rdx
	cmovaeq	%rcx, %rdx
	leaq	(%rsp,%rax), %rdi
	addq	$176, %rdi
	leaq	952(%rsp), %rsi
	callq	memcpy@PLT
	movq	16(%rsp), %rcx
.LBB28_12:
	movb	%bl, 96(%rsp,%rcx)
	incq	%rcx
.LBB28_13:
	cmpb	$3, %bpl
	je	.LBB28_18
	shrl	$24, %r12d
	movl	%r12d, %eax
	decb	%al
	js	.LBB28_18
	movl	%ecx, %eax
	shll	$7, %eax
	cmpl	$511, %eax
	ja	.LBB28_17
	movl	$512, %edx
	subq	%rax, %rdx
	cmpq	%r12, %rdx
	cmovaeq	%r12, %rdx
	leaq	(%rsp,%rax), %rdi
	addq	$176, %rdi
	leaq	1080(%rsp), %rsi
	movq	%rcx, %rbx
	callq	memcpy@PLT
	movq	%rbx, %rcx
.LBB28_17:
	movb	%r12b, 96(%rsp,%rcx)
	incq	%rcx
.LBB28_18:
	movq	%rcx, 16(%rsp)
	movl	96(%rsp), %eax
	movl	%eax, 36(%rsp)
.LBB28_19:
	movq	56(%rsp), %rbx
	movq	48(%rsp), %r12
	leaq	696(%rsp), %rbp
	leaq	176(%rsp), %rsi
	movl	$512, %edx
	movq	%rbp, %rdi
	callq	memcpy@PLT
	movups	512(%r13), %xmm0
	movups	528(%r13), %xmm1
	movups	544(%r13), %xmm2
	movups	560(%r13), %xmm3
	movups	%xmm0, 1208(%rsp)
	movups	%xmm1, 1224(%rsp)
	movups	%xmm2, 1240(%rsp)
	movups	%xmm3, 1256(%rsp)
	leaq	1272(%rsp), %rdi
	movl	$576, %edx
	movq	%rbp, %rsi
	callq	memcpy@PLT
	movq	72(%rsp), %rdx
	movq	%rdx, 144(%rsp)
	movq	%rbx, 152(%rsp)
	movq	%r12, 160(%rsp)
	movq	40(%rsp), %rax
	movq	%rax, 168(%rsp)
	movl	%r15d, %eax
	imulq	$892460737, %rax, %rax
	shrq	$39, %rax
	cmpq	$3153920, %r15
	movl	$5120, %r12d
	cmovbq	%rax, %r12
	testq	%r12, %r12
	je	.LBB28_20
	leaq	8(%r14), %rbp
	xorl	%r13d, %r13d
	jmp	.LBB28_29
	.p2align	4
.LBB28_32:
	incq	%r13
	addq	$616, %rbp
	cmpq	%r13, %r12
	je	.LBB28_33
.LBB28_29:
	cmpb	$0, -8(%rbp)
	je	.LBB28_32
	cmpq	%rdx, (%rbp)
	jne	.LBB28_32
	leaq	144(%rsp), %rdx
	movl	$32, %esi
	movq	%rbp, %rdi
	callq	"core::cmp::slices::groups_equal::<i8,31'core::cmp::numbers::U8PartialEq{}>"
	movq	72(%rsp), %rdx
	testb	%al, %al
	je	.LBB28_32
	cmpq	%r12, %r13
	jae	.LBB28_33
.LBB28_22:
	movq	%r14, %rdi
	movq	%r15, %rsi
	movq	64(%rsp), %rdx
	movq	%r13, %rcx
	callq	"sightings::move_to_tail"
	movq	16(%rsp), %rax
	testb	%al, %al
	je	.LBB28_27
	movl	36(%rsp), %ecx
	movl	%ecx, 176(%rsp)
	leaq	696(%rsp), %rdi
	leaq	1272(%rsp), %rsi
	movl	$512, %edx
	movq	%rax, %r12
	callq	memcpy@PLT
	imulq	$616, %r13, %rbx
	movb	%r12b, 3(%r14,%rbx)
	leaq	4(%rbx), %rdi
	movq	%r15, %rax
	subq	%rdi, %rax
	jbe	.LBB28_25
	cmpq	$4, %rax
	movl	$4, %edx
	cmovbq	%rax, %rdx
	addq	%r14, %rdi
	leaq	176(%rsp), %rsi
	callq	memcpy@PLT
.LBB28_25:
	addq	$104, %rbx
	subq	%rbx, %r15
	jbe	.LBB28_27
	cmpq	$512, %r15
	movl	$512, %edx
	cmovbq	%r15, %rdx
	addq	%rbx, %r14
	leaq	696(%rsp), %rsi
	movq	%r14, %rdi
	callq	memcpy@PLT
.LBB28_27:
	movq	24(%rsp), %rax
	movw	$0, (%rax)
	movq	$0, 8(%rax)
	movq	%r13, 16(%rax)
	jmp	.LBB28_97
.LBB28_20:
	xorl	%r13d, %r13d
	cmpq	%r12, %r13
	jb	.LBB28_22
.LBB28_33:
	movq	64(%rsp), %rcx
	movq	(%rcx), %rax
	movq	%rax, %rdi
	bswapq	%rdi
	movq	%rax, 88(%rsp)
	cmpq	%rax, %rdx
	jne	.LBB28_34
	movq	8(%rcx), %rax
	movq	56(%rsp), %rdx
	cmpq	%rax, %rdx
	jne	.LBB28_39
	movq	16(%rcx), %rax
	movq	48(%rsp), %rdx
	cmpq	%rax, %rdx
	jne	.LBB28_41
	movq	24(%rcx), %rax
	movl	$256, %r10d
	cmpq	%rax, 40(%rsp)
	je	.LBB28_36
	bswapq	%rax
	movq	40(%rsp), %rdx
	bswapq	%rdx
	movl	$192, %esi
	jmp	.LBB28_35
.LBB28_34:
	bswapq	%rdx
	xorl	%esi, %esi
	movq	%rdi, %rax
	jmp	.LBB28_35
.LBB28_39:
	bswapq	%rax
	bswapq	%rdx
	movl	$64, %esi
	jmp	.LBB28_35
.LBB28_41:
	bswapq	%rax
	bswapq	%rdx
	movl	$128, %esi
.LBB28_35:
	xorq	%rax, %rdx
	bsrq	%rdx, %r10
	xorq	$63, %r10
	orq	%rsi, %r10
.LBB28_36:
	cmpq	$64, %r10
	movl	$64, %eax
	cmovbq	%r10, %rax
	movq	%rax, 136(%rsp)
	movb	$14, %sil
	movb	$1, %dl
	testq	%r12, %r12
	je	.LBB28_37
	movabsq	$7666179355307865607, %rcx
	movq	%r15, %rax
	mulq	%rcx
	shrq	$8, %rdx
	leaq	32(%r14), %r11
	xorl	%r13d, %r13d
	movq	%r15, %rbp
	xorl	%eax, %eax
	movq	%rdx, 128(%rsp)
	jmp	.LBB28_45
.LBB28_50:
	xorl	%ebx, %ebx
	movq	%rdi, %rsi
.LBB28_51:
	xorq	%rsi, %r9
	bsrq	%r9, %rcx
	xorq	$63, %rcx
	orq	%rbx, %rcx
.LBB28_52:
	cmpl	%r10d, %ecx
	movzbl	%r8b, %ecx
	movzbl	%al, %eax
	cmovel	%ecx, %eax
.LBB28_53:
	incq	%r13
	addq	$-616, %rbp
	addq	$616, %r11
	cmpq	%r13, %r12
	je	.LBB28_54
.LBB28_45:
	movzbl	-32(%r11), %r8d
	cmpb	%al, %r8b
	jbe	.LBB28_53
	movq	-24(%r11), %rsi
	movq	%rsi, %r9
	bswapq	%r9
	movq	%r9, %rcx
	xorq	%rdi, %rcx
	movl	$127, %ebx
	bsrq	%rcx, %rbx
	xorl	$63, %ebx
	cmpl	136(%rsp), %ebx
	jne	.LBB28_53
	cmpq	%rdx, %r13
	jb	.LBB28_49
	seta	%bl
	cmpq	$40, %rbp
	movq	%r12, %rdx
	movq	%r10, %r12
	movq	%r14, %r10
	movq	%r15, %r14
	movq	%rdi, %r15
	setb	%dil
	movl	$256, %ecx
	orb	%bl, %dil
	movq	%r15, %rdi
	movq	%r14, %r15
	movq	%r10, %r14
	movq	%r12, %r10
	movq	%rdx, %r12
	movq	128(%rsp), %rdx
	jne	.LBB28_52
.LBB28_49:
	cmpq	88(%rsp), %rsi
	jne	.LBB28_50
	movq	64(%rsp), %rcx
	movq	8(%rcx), %rsi
	movq	-16(%r11), %r9
	cmpq	%rsi, %r9
	jne	.LBB28_60
	movq	16(%rcx), %rsi
	movq	-8(%r11), %r9
	cmpq	%rsi, %r9
	jne	.LBB28_62
	movq	24(%rcx), %rsi
	movq	(%r11), %r9
	movl	$256, %ecx
	cmpq	%rsi, %r9
	je	.LBB28_52
	bswapq	%rsi
	bswapq	%r9
	movl	$192, %ebx
	jmp	.LBB28_51
.LBB28_60:
	bswapq	%rsi
	bswapq	%r9
	movl	$64, %ebx
	jmp	.LBB28_51
.LBB28_62:
	bswapq	%rsi
	bswapq	%r9
	movl	$128, %ebx
	jmp	.LBB28_51
.LBB28_54:
	cmpb	$19, %al
	jbe	.LBB28_55
	movq	%rdi, %r9
	addq	$32, %r14
	xorl	%r13d, %r13d
	movq	64(%rsp), %rdi
	jmp	.LBB28_66
.LBB28_70:
	bswapq	%rax
	xorl	%r8d, %r8d
	movq	%r9, %rsi
.LBB28_71:
	xorq	%rsi, %rax
	bsrq	%rax, %rcx
	xorq	$63, %rcx
	orq	%r8, %rcx
.LBB28_72:
	cmpl	%r10d, %ecx
	je	.LBB28_73
.LBB28_80:
	incq	%r13
	addq	$-616, %r15
	addq	$616, %r14
	cmpq	%r13, %r12
	je	.LBB28_81
.LBB28_66:
	cmpb	$1, -32(%r14)
	jne	.LBB28_80
	cmpq	%rdx, %r13
	jb	.LBB28_69
	seta	%al
	cmpq	$40, %r15
	setb	%sil
	movl	$256, %ecx
	orb	%al, %sil
	jne	.LBB28_72
.LBB28_69:
	movq	-24(%r14), %rax
	cmpq	88(%rsp), %rax
	jne	.LBB28_70
	movq	8(%rdi), %rsi
	movq	-16(%r14), %rax
	cmpq	%rsi, %rax
	jne	.LBB28_75
	movq	16(%rdi), %rsi
	movq	-8(%r14), %rax
	cmpq	%rsi, %rax
	jne	.LBB28_77
	movq	24(%rdi), %rsi
	movq	(%r14), %rax
	movl	$256, %ecx
	cmpq	%rsi, %rax
	je	.LBB28_72
	bswapq	%rsi
	bswapq	%rax
	movl	$192, %r8d
	jmp	.LBB28_71
.LBB28_75:
	bswapq	%rsi
	bswapq	%rax
	movl	$64, %r8d
	jmp	.LBB28_71
.LBB28_77:
	bswapq	%rsi
	bswapq	%rax
	movl	$128, %r8d
	jmp	.LBB28_71
.LBB28_37:
	xorl	%eax, %eax
	xorl	%r13d, %r13d
	jmp	.LBB28_95
.LBB28_55:
	imulq	$616, %r12, %rcx
	xorl	%r13d, %r13d
	xorl	%ebp, %ebp
	movq	72(%rsp), %rdx
	movl	36(%rsp), %esi
	.p2align	4
.LBB28_56:
	cmpb	$0, (%r14,%rbp)
	je	.LBB28_82
	incq	%r13
	addq	$616, %rbp
	cmpq	%rbp, %rcx
	jne	.LBB28_56
	jmp	.LBB28_58
.LBB28_81:
	movl	$2, %eax
	xorl	%edx, %edx
	xorl	%esi, %esi
	movq	%r12, %r13
	jmp	.LBB28_95
.LBB28_82:
	cmpq	%r13, %r12
	jbe	.LBB28_58
	incb	%al
	movl	$0, 12(%rsp)
	movb	%al, 12(%rsp)
	movzbl	11(%rsp), %eax
	movb	%al, 14(%rsp)
	movq	16(%rsp), %rax
	movb	%al, 15(%rsp)
	movl	%esi, 84(%rsp)
	movq	%rdx, 96(%rsp)
	movq	56(%rsp), %rax
	movq	%rax, 104(%rsp)
	movq	48(%rsp), %rax
	movq	%rax, 112(%rsp)
	movq	40(%rsp), %rax
	movq	%rax, 120(%rsp)
	movups	1784(%rsp), %xmm0
	movups	1800(%rsp), %xmm1
	movups	1816(%rsp), %xmm2
	movups	1832(%rsp), %xmm3
	movaps	%xmm0, 176(%rsp)
	movaps	%xmm1, 192(%rsp)
	movaps	%xmm2, 208(%rsp)
	movaps	%xmm3, 224(%rsp)
	leaq	696(%rsp), %rdi
	leaq	1272(%rsp), %rsi
	movl	$512, %edx
	callq	memcpy@PLT
	movq	%r15, %rbx
	subq	%rbp, %rbx
	ja	.LBB28_84
	leaq	4(%rbp), %rax
	cmpq	%r15, %rax
	jb	.LBB28_86
.LBB28_87:
	leaq	8(%rbp), %rax
	cmpq	%r15, %rax
	jb	.LBB28_88
.LBB28_89:
	leaq	40(%rbp), %rax
	cmpq	%r15, %rax
	jb	.LBB28_90
.LBB28_91:
	leaq	104(%rbp), %rax
	cmpq	%r15, %rax
	jae	.LBB28_93
.LBB28_92:
	addq	$-104, %rbx
	cmpq	$512, %rbx
	movl	$512, %edx
	cmovbq	%rbx, %rdx
	leaq	(%r14,%rbp), %rdi
	addq	$104, %rdi
	leaq	696(%rsp), %rsi
	callq	memcpy@PLT
.LBB28_93:
	movl	$1, %eax
	jmp	.LBB28_94
.LBB28_58:
	xorl	%eax, %eax
	xorl	%r13d, %r13d
	movq	24(%rsp), %rcx
	movb	$1, %dl
	movb	$14, %sil
	jmp	.LBB28_96
.LBB28_73:
	movl	$2, %eax
.LBB28_94:
	xorl	%edx, %edx
	xorl	%esi, %esi
.LBB28_95:
	movq	24(%rsp), %rcx
.LBB28_96:
	movb	%dl, (%rcx)
	movb	%sil, 1(%rcx)
	movq	%rax, 8(%rcx)
	movq	%r13, 16(%rcx)
.LBB28_97:
	addq	$1848, %rsp
	popq	%rbx
	popq	%r12
	popq	%r13
	popq	%r14
	popq	%r15
	popq	%rbp
	retq
.LBB28_84:
	leaq	(%r14,%rbp), %rdi
	cmpq	$4, %rbx
	movl	$4, %edx
	cmovbq	%rbx, %rdx
	leaq	12(%rsp), %rsi
	callq	memcpy@PLT
	leaq	4(%rbp), %rax
	cmpq	%r15, %rax
	jae	.LBB28_87
.LBB28_86:
	leaq	-4(%rbx), %rax
	cmpq	$4, %rax
	movl	$4, %edx
	cmovbq	%rax, %rdx
	leaq	(%r14,%rbp), %rdi
	addq	$4, %rdi
	leaq	84(%rsp), %rsi
	callq	memcpy@PLT
	leaq	8(%rbp), %rax
	cmpq	%r15, %rax
	jae	.LBB28_89
.LBB28_88:
	leaq	-8(%rbx), %rax
	cmpq	$32, %rax
	movl	$32, %edx
	cmovbq	%rax, %rdx
	leaq	(%r14,%rbp), %rdi
	addq	$8, %rdi
	leaq	96(%rsp), %rsi
	callq	memcpy@PLT
	leaq	40(%rbp), %rax
	cmpq	%r15, %rax
	jae	.LBB28_91
.LBB28_90:
	leaq	-40(%rbx), %rax
	cmpq	$64, %rax
	movl	$64, %edx
	cmovbq	%rax, %rdx
	leaq	(%r14,%rbp), %rdi
	addq	$40, %rdi
	leaq	176(%rsp), %rsi
	callq	memcpy@PLT
	leaq	104(%rbp), %rax
	cmpq	%r15, %rax
	jb	.LBB28_92
	jmp	.LBB28_93
.Lfunc_end28:
	.size	"sightings::seen", .Lfunc_end28-"sightings::seen"

	.section	".text.sightings::move_to_tail","ax",@progbits
	.p2align	4
	.type	"sightings::move_to_tail",@function
"sightings::move_to_tail":
	pushq	%rbp
	pushq	%r15
	pushq	%r14
	pushq	%r13
	pushq	%r12
	pushq	%rbx
	subq	$40, %rsp
	movq	%rdx, %r10
	movq	%rsi, %rbx
	movabsq	$7666179355307865607, %rdx
	movq	%rsi, %rax
	mulq	%rdx
	shrq	$8, %rdx
	movq	%rdx, %r14
	cmpq	%rdx, %rcx
	jae	.LBB29_2
	imulq	$616, %rcx, %r9
.LBB29_4:
	movq	(%r10), %rax
	movq	8(%rdi,%r9), %r8
	cmpq	%rax, %r8
	jne	.LBB29_5
	movq	8(%r10), %rax
	movq	16(%rdi,%r9), %r8
	cmpq	%rax, %r8
	jne	.LBB29_10
	movq	16(%r10), %rax
	movq	24(%rdi,%r9), %r8
	cmpq	%rax, %r8
	jne	.LBB29_12
	movq	24(%r10), %rax
	movq	32(%rdi,%r9), %r8
	movl	$256, %edx
	cmpq	%rax, %r8
	je	.LBB29_7
	bswapq	%rax
	bswapq	%r8
	movl	$192, %r9d
	jmp	.LBB29_6
.LBB29_2:
	movl	$256, %edx
	ja	.LBB29_7
	imulq	$616, %rcx, %r9
	movq	%rbx, %rsi
	subq	%r9, %rsi
	cmpq	$40, %rsi
	jae	.LBB29_4
	jmp	.LBB29_7
.LBB29_5:
	bswapq	%rax
	bswapq	%r8
	xorl	%r9d, %r9d
	jmp	.LBB29_6
.LBB29_10:
	bswapq	%rax
	bswapq	%r8
	movl	$64, %r9d
	jmp	.LBB29_6
.LBB29_12:
	bswapq	%rax
	bswapq	%r8
	movl	$128, %r9d
.LBB29_6:
	xorq	%rax, %r8
	bsrq	%r8, %rdx
	xorq	$63, %rdx
	orq	%r9, %rdx
.LBB29_7:
	movq	%rcx, 24(%rsp)
	movl	%ebx, %ecx
	imulq	$892460737, %rcx, %rcx
	shrq	$39, %rcx
	cmpq	$3153920, %rbx
	movl	$5120, %eax
	cmovbq	%rcx, %rax
	cmpq	$64, %rdx
	movl	$64, %r8d
	cmovbq	%rdx, %r8
	testq	%rax, %rax
	movq	%r10, (%rsp)
	movq	%rdi, 16(%rsp)
	movq	%rbx, 8(%rsp)
	je	.LBB29_8
	movq	(%r10), %r9
	movq	%r9, 32(%rsp)
	bswapq	%r9
	leaq	32(%rdi), %r11
	xorl	%r15d, %r15d
	movq	%rbx, %r12
	xorl	%ebp, %ebp
	movq	%r14, %rdi
	jmp	.LBB29_16
.LBB29_21:
	xorl	%ecx, %ecx
	movq	%r9, %r10
.LBB29_22:
	xorq	%r10, %rbx
	bsrq	%rbx, %r14
	xorq	$63, %r14
	orq	%rcx, %r14
.LBB29_23:
	cmpl	%edx, %r14d
	movzbl	%r13b, %ecx
	movzbl	%bpl, %ebp
	cmovel	%ecx, %ebp
.LBB29_24:
	incq	%r15
	addq	$-616, %r12
	addq	$616, %r11
	cmpq	%r15, %rax
	je	.LBB29_25
.LBB29_16:
	movzbl	-32(%r11), %r13d
	cmpb	%bpl, %r13b
	jbe	.LBB29_24
	movq	-24(%r11), %rcx
	movq	%rcx, %rbx
	bswapq	%rbx
	movq	%rbx, %r10
	xorq	%r9, %r10
	movl	$127, %r14d
	bsrq	%r10, %r14
	xorl	$63, %r14d
	cmpl	%r8d, %r14d
	jne	.LBB29_24
	cmpq	%rdi, %r15
	jb	.LBB29_20
	seta	%r10b
	cmpq	$40, %r12
	setb	%sil
	movl	$256, %r14d
	orb	%r10b, %sil
	jne	.LBB29_23
.LBB29_20:
	cmpq	32(%rsp), %rcx
	jne	.LBB29_21
	movq	(%rsp), %rcx
	movq	8(%rcx), %r10
	movq	-16(%r11), %rbx
	cmpq	%r10, %rbx
	jne	.LBB29_27
	movq	16(%rcx), %r10
	movq	-8(%r11), %rbx
	cmpq	%r10, %rbx
	jne	.LBB29_29
	movq	24(%rcx), %r10
	movq	(%r11), %rbx
	movl	$256, %r14d
	cmpq	%r10, %rbx
	je	.LBB29_23
	bswapq	%r10
	bswapq	%rbx
	movl	$192, %ecx
	jmp	.LBB29_22
.LBB29_27:
	bswapq	%r10
	bswapq	%rbx
	movl	$64, %ecx
	jmp	.LBB29_22
.LBB29_29:
	bswapq	%r10
	bswapq	%rbx
	movl	$128, %ecx
	jmp	.LBB29_22
.LBB29_8:
	xorl	%ebp, %ebp
.LBB29_25:
	movq	16(%rsp), %r14
	movq	%r14, %rdi
	movq	8(%rsp), %rsi
	movq	(%rsp), %rdx
	movq	24(%rsp), %rbx
	movq	%rbx, %rcx
	callq	"contact_order::leave_order"
	imulq	$616, %rbx, %rax
	movb	%bpl, (%r14,%rax)
	movb	$0, 1(%r14,%rax)
	addq	$40, %rsp
	popq	%rbx
	popq	%r12
	popq	%r13
	popq	%r14
	popq	%r15
	popq	%rbp
	retq
.Lfunc_end29:
	.size	"sightings::move_to_tail", .Lfunc_end29-"sightings::move_to_tail"

	.section	".text.contact_order::leave_order","ax",@progbits
	.p2align	4
	.type	"contact_order::leave_order",@function
"contact_order::leave_order":
	movq	%rdx, %r8
	movabsq	$7666179355307865607, %rdx
	movq	%rsi, %rax
	mulq	%rdx
	shrq	$8, %rdx
	cmpq	%rdx, %rcx
	jae	.LBB30_2
	imulq	$616, %rcx, %r11
.LBB30_4:
	movq	(%r8), %r9
	movq	8(%rdi,%r11), %r10
	cmpq	%r9, %r10
	jne	.LBB30_5
	movq	8(%r8), %r9
	movq	16(%rdi,%r11), %r10
	cmpq	%r9, %r10
	jne	.LBB30_11
	movq	16(%r8), %r9
	movq	24(%rdi,%r11), %r10
	cmpq	%r9, %r10
	jne	.LBB30_13
	movq	24(%r8), %r9
	movq	32(%rdi,%r11), %r10
	movl	$256, %eax
	cmpq	%r9, %r10
	je	.LBB30_7
	bswapq	%r9
	bswapq	%r10
	movl	$192, %r11d
	jmp	.LBB30_6
.LBB30_2:
	movl	$256, %eax
	ja	.LBB30_16
	imulq	$616, %rcx, %r11
	movq	%rsi, %r9
	subq	%r11, %r9
	cmpq	$40, %r9
	jae	.LBB30_4
	jmp	.LBB30_16
.LBB30_5:
	bswapq	%r9
	bswapq	%r10
	xorl	%r11d, %r11d
	jmp	.LBB30_6
.LBB30_11:
	bswapq	%r9
	bswapq	%r10
	movl	$64, %r11d
	jmp	.LBB30_6
.LBB30_13:
	bswapq	%r9
	bswapq	%r10
	movl	$128, %r11d
.LBB30_6:
	xorq	%r9, %r10
	bsrq	%r10, %rax
	xorq	$63, %rax
	orq	%r11, %rax
.LBB30_7:
	cmpq	%rdx, %rcx
	jae	.LBB30_16
	imulq	$616, %rcx, %rcx
	jmp	.LBB30_9
.LBB30_16:
	cmpq	%rcx, %rdx
	setb	%r9b
	imulq	$616, %rcx, %rcx
	cmpq	%rcx, %rsi
	sete	%r10b
	orb	%r9b, %r10b
	je	.LBB30_9
	xorl	%ecx, %ecx
	jmp	.LBB30_18
.LBB30_9:
	movzbl	(%rdi,%rcx), %ecx
.LBB30_18:
	movl	%esi, %r9d
	imulq	$892460737, %r9, %r10
	shrq	$39, %r10
	cmpq	$3153920, %rsi
	movl	$5120, %r9d
	cmovbq	%r10, %r9
	cmpq	$64, %rax
	movl	$64, %r10d
	cmovbq	%rax, %r10
	testq	%r9, %r9
	je	.LBB30_31
	pushq	%rbp
	pushq	%r15
	pushq	%r14
	pushq	%r13
	pushq	%r12
	pushq	%rbx
	movq	(%r8), %r11
	bswapq	%r11
	xorl	%ebx, %ebx
	movq	%r9, -8(%rsp)
	jmp	.LBB30_20
	.p2align	4
.LBB30_29:
	incq	%rbx
	addq	$-616, %rsi
	addq	$616, %rdi
	cmpq	%rbx, %r9
	je	.LBB30_30
.LBB30_20:
	movzbl	(%rdi), %r14d
	cmpl	%r14d, %ecx
	jae	.LBB30_29
	movq	8(%rdi), %r13
	movq	%r13, %r15
	bswapq	%r15
	movq	%r15, %r12
	xorq	%r11, %r12
	movl	$127, %ebp
	bsrq	%r12, %rbp
	xorl	$63, %ebp
	cmpl	%r10d, %ebp
	jne	.LBB30_29
	cmpq	%rdx, %rbx
	jb	.LBB30_24
	seta	%r12b
	cmpq	$40, %rsi
	movq	%rcx, %r9
	movq	%r10, %rcx
	movq	%r11, %r10
	movq	%rax, %r11
	movq	%r8, %rax
	setb	%r8b
	movl	$256, %ebp
	orb	%r12b, %r8b
	movq	%rax, %r8
	movq	%r11, %rax
	movq	%r10, %r11
	movq	%rcx, %r10
	movq	%r9, %rcx
	movq	-8(%rsp), %r9
	jne	.LBB30_27
.LBB30_24:
	movq	(%r8), %r12
	cmpq	%r12, %r13
	jne	.LBB30_25
	movq	8(%r8), %r12
	movq	16(%rdi), %r15
	cmpq	%r12, %r15
	jne	.LBB30_33
	movq	16(%r8), %r12
	movq	24(%rdi), %r15
	cmpq	%r12, %r15
	jne	.LBB30_35
	movq	24(%r8), %r12
	movq	32(%rdi), %r15
	movl	$256, %ebp
	cmpq	%r12, %r15
	je	.LBB30_27
	bswapq	%r12
	bswapq	%r15
	movl	$192, %r13d
	jmp	.LBB30_26
.LBB30_25:
	bswapq	%r12
	xorl	%r13d, %r13d
	jmp	.LBB30_26
.LBB30_33:
	bswapq	%r12
	bswapq	%r15
	movl	$64, %r13d
	jmp	.LBB30_26
.LBB30_35:
	bswapq	%r12
	bswapq	%r15
	movl	$128, %r13d
.LBB30_26:
	xorq	%r12, %r15
	bsrq	%r15, %rbp
	xorq	$63, %rbp
	orq	%r13, %rbp
.LBB30_27:
	cmpl	%eax, %ebp
	jne	.LBB30_29
	decb	%r14b
	movb	%r14b, (%rdi)
	jmp	.LBB30_29
.LBB30_30:
	popq	%rbx
	popq	%r12
	popq	%r13
	popq	%r14
	popq	%r15
	popq	%rbp
.LBB30_31:
	retq
.Lfunc_end30:
	.size	"contact_order::leave_order", .Lfunc_end30-"contact_order::leave_order"

	.section	".text.recipe_fields::put_last","ax",@progbits
	.p2align	4
	.type	"recipe_fields::put_last",@function
"recipe_fields::put_last":
	pushq	%rbp
	pushq	%rbx
	movq	%r9, %rax
	movq	%r8, %rbx
	cmpq	%rsi, %rdx
	jae	.LBB31_2
	movb	%cl, (%rdi,%rdx)
.LBB31_2:
	leaq	1(%rdx), %rbp
	cmpq	%rdx, %rsi
	cmoveq	%rsi, %rbp
	cmovbq	%rdx, %rbp
	cmpq	%rsi, %rbp
	jae	.LBB31_4
	movb	%ch, (%rdi,%rbp)
.LBB31_4:
	leaq	1(%rbp), %rdx
	cmpq	%rbp, %rsi
	cmoveq	%rsi, %rdx
	cmovbq	%rbp, %rdx
	cmpq	%rsi, %rdx
	jae	.LBB31_6
	movl	%ecx, %r8d
	shrl	$16, %r8d
	movb	%r8b, (%rdi,%rdx)
.LBB31_6:
	leaq	1(%rdx), %r8
	cmpq	%rdx, %rsi
	cmoveq	%rsi, %r8
	cmovbq	%rdx, %r8
	cmpq	%rsi, %r8
	jae	.LBB31_8
	shrl	$24, %ecx
	movb	%cl, (%rdi,%r8)
.LBB31_8:
	leaq	1(%r8), %rdx
	cmpq	%r8, %rsi
	cmoveq	%rsi, %rdx
	cmovbq	%r8, %rdx
	cmpq	%rsi, %rdx
	jae	.LBB31_10
	movb	%bl, (%rdi,%rdx)
.LBB31_10:
	leaq	1(%rdx), %rcx
	cmpq	%rdx, %rsi
	cmoveq	%rsi, %rcx
	cmovbq	%rdx, %rcx
	cmpq	%rsi, %rcx
	jae	.LBB31_12
	movb	%bh, (%rdi,%rcx)
.LBB31_12:
	leaq	1(%rcx), %rdx
	cmpq	%rcx, %rsi
	cmoveq	%rsi, %rdx
	cmovbq	%rcx, %rdx
	cmpq	%rsi, %rdx
	jae	.LBB31_14
	movb	%al, (%rdi,%rdx)
.LBB31_14:
	leaq	1(%rdx), %rcx
	cmpq	%rdx, %rsi
	cmoveq	%rsi, %rcx
	cmovbq	%rdx, %rcx
	cmpq	%rsi, %rcx
	jae	.LBB31_16
	movb	%ah, (%rdi,%rcx)
.LBB31_16:
	leaq	1(%rcx), %rdx
	cmpq	%rcx, %rsi
	cmoveq	%rsi, %rdx
	movq	24(%rsp), %rax
	cmovbq	%rcx, %rdx
	cmpq	%rsi, %rdx
	jae	.LBB31_18
	movb	%al, (%rdi,%rdx)
.LBB31_18:
	leaq	1(%rdx), %rbx
	cmpq	%rdx, %rsi
	cmoveq	%rsi, %rbx
	cmovbq	%rdx, %rbx
	cmpq	%rsi, %rbx
	jae	.LBB31_20
	movb	%ah, (%rdi,%rbx)
.LBB31_20:
	leaq	1(%rbx), %rcx
	cmpq	%rbx, %rsi
	cmoveq	%rsi, %rcx
	cmovbq	%rbx, %rcx
	cmpq	%rsi, %rcx
	jae	.LBB31_22
	movl	%eax, %edx
	shrl	$16, %edx
	movb	%dl, (%rdi,%rcx)
.LBB31_22:
	leaq	1(%rcx), %rdx
	cmpq	%rcx, %rsi
	cmoveq	%rsi, %rdx
	cmovbq	%rcx, %rdx
	cmpq	%rsi, %rdx
	jae	.LBB31_24
	movl	%eax, %ecx
	shrl	$24, %ecx
	movb	%cl, (%rdi,%rdx)
.LBB31_24:
	leaq	1(%rdx), %rcx
	cmpq	%rdx, %rsi
	cmoveq	%rsi, %rcx
	cmovbq	%rdx, %rcx
	cmpq	%rsi, %rcx
	jae	.LBB31_26
	movq	%rax, %rdx
	shrq	$32, %rdx
	movb	%dl, (%rdi,%rcx)
.LBB31_26:
	leaq	1(%rcx), %rdx
	cmpq	%rcx, %rsi
	cmoveq	%rsi, %rdx
	cmovbq	%rcx, %rdx
	cmpq	%rsi, %rdx
	jae	.LBB31_28
	movq	%rax, %rcx
	shrq	$40, %rcx
	movb	%cl, (%rdi,%rdx)
.LBB31_28:
	leaq	1(%rdx), %rcx
	cmpq	%rdx, %rsi
	cmoveq	%rsi, %rcx
	cmovbq	%rdx, %rcx
	cmpq	%rsi, %rcx
	jae	.LBB31_30
	movq	%rax, %rdx
	shrq	$48, %rdx
	movb	%dl, (%rdi,%rcx)
.LBB31_30:
	leaq	1(%rcx), %rdx
	cmpq	%rcx, %rsi
	cmoveq	%rsi, %rdx
	cmovbq	%rcx, %rdx
	cmpq	%rsi, %rdx
	jae	.LBB31_32
	shrq	$56, %rax
	movb	%al, (%rdi,%rdx)
.LBB31_32:
	popq	%rbx
	popq	%rbp
	retq
.Lfunc_end31:
	.size	"recipe_fields::put_last", .Lfunc_end31-"recipe_fields::put_last"

	.section	".text.contact_calls::see","ax",@progbits
	.p2align	4
	.type	"contact_calls::see",@function
"contact_calls::see":
	pushq	%rbp
	pushq	%r15
	pushq	%r14
	pushq	%r13
	pushq	%r12
	pushq	%rbx
	subq	$1880, %rsp
	movq	%rcx, 64(%rsp)
	movq	%rdx, 56(%rsp)
	movq	%rsi, 48(%rsp)
	movq	%rdi, 72(%rsp)
	xorps	%xmm0, %xmm0
	movaps	%xmm0, 16(%rsp)
	movq	$0, 32(%rsp)
	movaps	%xmm0, 80(%rsp)
	movaps	%xmm0, 96(%rsp)
	movaps	%xmm0, 112(%rsp)
	movaps	%xmm0, 128(%rsp)
	cmpq	$64, %r9
	movl	$64, %r13d
	cmovbq	%r9, %r13
	testq	%r9, %r9
	je	.LBB32_2
	leaq	80(%rsp), %rdi
	movq	%r8, %rsi
	movq	%r13, %rdx
	callq	memcpy@PLT
.LBB32_2:
	movq	1952(%rsp), %r14
	movq	1944(%rsp), %r12
	leaq	1368(%rsp), %rdi
	xorl	%r15d, %r15d
	movl	$512, %edx
	xorl	%esi, %esi
	callq	memset@PLT
	movl	$0, 12(%rsp)
	xorl	%esi, %esi
	jmp	.LBB32_3
	.p2align	4
.LBB32_8:
	movq	%rbx, %rsi
	cmpq	$4, %r15
	jae	.LBB32_9
.LBB32_3:
	movq	%r14, %rax
	subq	%rsi, %rax
	cmpq	$2, %rax
	jb	.LBB32_9
	movzwl	(%r12,%rsi), %ebp
	addq	$-2, %rax
	cmpq	%rbp, %rax
	jb	.LBB32_9
	leaq	(%rsi,%rbp), %rbx
	addq	$2, %rbx
	je	.LBB32_9
	leal	-1(%rbp), %eax
	cmpw	$127, %ax
	ja	.LBB32_8
	addq	%r12, %rsi
	movq	%r15, %rax
	shlq	$7, %rax
	addq	$2, %rsi
	leaq	(%rsp,%rax), %rdi
	addq	$1368, %rdi
	movq	%rbp, %rdx
	callq	memcpy@PLT
	movb	%bpl, 12(%rsp,%r15)
	incq	%r15
	jmp	.LBB32_8
.LBB32_9:
	movl	12(%rsp), %ebx
	leaq	146(%rsp), %rbp
	leaq	1368(%rsp), %rsi
	movl	$512, %edx
	movq	%rbp, %rdi
	callq	memcpy@PLT
	movaps	80(%rsp), %xmm0
	movaps	96(%rsp), %xmm1
	movaps	112(%rsp), %xmm2
	movaps	128(%rsp), %xmm3
	movups	%xmm0, 658(%rsp)
	movups	%xmm1, 674(%rsp)
	movups	%xmm2, 690(%rsp)
	movups	%xmm3, 706(%rsp)
	movq	1936(%rsp), %rax
	movups	(%rax), %xmm0
	movups	16(%rax), %xmm1
	movups	%xmm0, 722(%rsp)
	movups	%xmm1, 738(%rsp)
	leaq	754(%rsp), %r14
	movl	$608, %edx
	movq	%r14, %rdi
	movq	%rbp, %rsi
	callq	memcpy@PLT
	movl	%ebx, 1362(%rsp)
	movb	%r13b, 1366(%rsp)
	movb	%r15b, 1367(%rsp)
	leaq	16(%rsp), %rdi
	movq	48(%rsp), %rsi
	movq	56(%rsp), %rdx
	movq	64(%rsp), %rcx
	movq	%r14, %r8
	callq	"sightings::seen"
	movzbl	16(%rsp), %eax
	movq	72(%rsp), %rcx
	movb	%al, (%rcx)
	movzbl	17(%rsp), %eax
	movb	%al, 1(%rcx)
	movzbl	24(%rsp), %eax
	movq	%rax, 8(%rcx)
	movq	32(%rsp), %rax
	movq	%rax, 16(%rcx)
	addq	$1880, %rsp
	popq	%rbx
	popq	%r12
	popq	%r13
	popq	%r14
	popq	%r15
	popq	%rbp
	retq
.Lfunc_end32:
	.size	"contact_calls::see", .Lfunc_end32-"contact_calls::see"

	.section	".text.sightings::still_fits","ax",@progbits
	.p2align	4
	.type	"sightings::still_fits",@function
"sightings::still_fits":
	pushq	%rbp
	pushq	%r15
	pushq	%r14
	pushq	%r13
	pushq	%r12
	pushq	%rbx
	subq	$56, %rsp
	movq	%rcx, %r13
	movl	%esi, %eax
	imulq	$892460737, %rax, %rax
	shrq	$39, %rax
	cmpq	$3153920, %rsi
	movl	$5120, %ecx
	cmovbq	%rax, %rcx
	testq	%rcx, %rcx
	je	.LBB33_7
	movq	%rdx, 48(%rsp)
	movq	%r8, 16(%rsp)
	movq	(%r13), %r15
	movq	%rdi, 24(%rsp)
	leaq	8(%rdi), %rbp
	xorl	%r14d, %r14d
	movq	%rsi, 8(%rsp)
	movq	%rsi, %r12
	movq	%rcx, 32(%rsp)
	jmp	.LBB33_2
	.p2align	4
.LBB33_5:
	incq	%r14
	addq	$-616, %r12
	addq	$616, %rbp
	cmpq	%r14, %rcx
	je	.LBB33_7
.LBB33_2:
	movzbl	-8(%rbp), %ebx
	testb	%bl, %bl
	je	.LBB33_5
	cmpq	%r15, (%rbp)
	jne	.LBB33_5
	movl	$32, %esi
	movq	%rbp, %rdi
	movq	%r13, %rdx
	callq	"core::cmp::slices::groups_equal::<i8,31'core::cmp::numbers::U8PartialEq{}>"
	movq	32(%rsp), %rcx
	testb	%al, %al
	je	.LBB33_5
	cmpq	%r14, %rcx
	jbe	.LBB33_7
	movabsq	$7666179355307865607, %rcx
	movq	8(%rsp), %rax
	mulq	%rcx
	shrq	$8, %rdx
	cmpq	%rdx, %r14
	jae	.LBB33_10
	cmpb	$1, %bl
	movq	16(%rsp), %rbp
	je	.LBB33_12
	jmp	.LBB33_7
.LBB33_10:
	setbe	%al
	testq	%r12, %r12
	setne	%cl
	andb	%al, %cl
	cmpb	$1, %bl
	sete	%al
	testb	%al, %cl
	movq	16(%rsp), %rbp
	je	.LBB33_7
.LBB33_12:
	movq	48(%rsp), %r9
	movq	(%r9), %rax
	movq	%rax, %rcx
	bswapq	%rcx
	movq	%rax, 40(%rsp)
	cmpq	%rax, %r15
	movq	24(%rsp), %r14
	jne	.LBB33_13
	movq	8(%r9), %rdi
	movq	8(%r13), %r15
	cmpq	%rdi, %r15
	movq	8(%rsp), %rax
	jne	.LBB33_39
	movq	16(%r9), %rdi
	movq	16(%r13), %r15
	cmpq	%rdi, %r15
	jne	.LBB33_41
	movq	24(%r9), %rdi
	movq	24(%r13), %r15
	movl	$256, %esi
	cmpq	%rdi, %r15
	je	.LBB33_15
	bswapq	%rdi
	bswapq	%r15
	movl	$192, %r8d
	jmp	.LBB33_14
.LBB33_13:
	bswapq	%r15
	xorl	%r8d, %r8d
	movq	%rcx, %rdi
	movq	8(%rsp), %rax
	jmp	.LBB33_14
.LBB33_39:
	bswapq	%rdi
	bswapq	%r15
	movl	$64, %r8d
	jmp	.LBB33_14
.LBB33_41:
	bswapq	%rdi
	bswapq	%r15
	movl	$128, %r8d
.LBB33_14:
	xorq	%rdi, %r15
	bsrq	%r15, %rsi
	xorq	$63, %rsi
	orq	%r8, %rsi
.LBB33_15:
	movq	(%rbp), %r13
	cmpq	40(%rsp), %r13
	jne	.LBB33_16
	movq	8(%r9), %r8
	movq	8(%rbp), %rdi
	cmpq	%r8, %rdi
	jne	.LBB33_45
	movq	16(%r9), %r8
	movq	16(%rbp), %rdi
	cmpq	%r8, %rdi
	jne	.LBB33_47
	movq	24(%r9), %r8
	movq	24(%rbp), %rdi
	movl	$256, %r10d
	cmpq	%r8, %rdi
	je	.LBB33_18
	bswapq	%r8
	bswapq	%rdi
	movl	$192, %r9d
	jmp	.LBB33_17
.LBB33_16:
	movq	%r13, %rdi
	bswapq	%rdi
	xorl	%r9d, %r9d
	movq	%rcx, %r8
	jmp	.LBB33_17
.LBB33_45:
	bswapq	%r8
	bswapq	%rdi
	movl	$64, %r9d
	jmp	.LBB33_17
.LBB33_47:
	bswapq	%r8
	bswapq	%rdi
	movl	$128, %r9d
.LBB33_17:
	xorq	%r8, %rdi
	bsrq	%rdi, %r10
	xorq	$63, %r10
	orq	%r9, %r10
.LBB33_18:
	cmpl	%esi, %r10d
	jne	.LBB33_7
	cmpq	$64, %rsi
	movl	$64, %edi
	cmovbq	%rsi, %rdi
	leaq	32(%r14), %r8
	xorl	%r9d, %r9d
	xorl	%r10d, %r10d
	jmp	.LBB33_20
.LBB33_25:
	xorl	%ebx, %ebx
	movq	%rcx, %r14
.LBB33_26:
	xorq	%r14, %r15
	bsrq	%r15, %r12
	xorq	$63, %r12
	orq	%rbx, %r12
.LBB33_27:
	cmpl	%esi, %r12d
	movzbl	%r11b, %r11d
	movzbl	%r10b, %r10d
	cmovel	%r11d, %r10d
.LBB33_28:
	movq	24(%rsp), %r14
.LBB33_29:
	incq	%r9
	addq	$-616, %rax
	addq	$616, %r8
	movq	32(%rsp), %r11
	cmpq	%r9, %r11
	je	.LBB33_30
.LBB33_20:
	movzbl	-32(%r8), %r11d
	cmpb	%r10b, %r11b
	jbe	.LBB33_29
	movq	-24(%r8), %rbx
	movq	%rbx, %r15
	bswapq	%r15
	movq	%r15, %r14
	xorq	%rcx, %r14
	movl	$127, %r12d
	bsrq	%r14, %r12
	xorl	$63, %r12d
	cmpl	%edi, %r12d
	jne	.LBB33_28
	cmpq	%rdx, %r9
	jb	.LBB33_24
	seta	%bpl
	cmpq	$40, %rax
	setb	%r14b
	movl	$256, %r12d
	orb	%bpl, %r14b
	movq	16(%rsp), %rbp
	jne	.LBB33_27
.LBB33_24:
	cmpq	40(%rsp), %rbx
	jne	.LBB33_25
	movq	48(%rsp), %rbx
	movq	8(%rbx), %r14
	movq	-16(%r8), %r15
	cmpq	%r14, %r15
	jne	.LBB33_51
	movq	16(%rbx), %r14
	movq	-8(%r8), %r15
	cmpq	%r14, %r15
	jne	.LBB33_53
	movq	24(%rbx), %r14
	movq	(%r8), %r15
	movl	$256, %r12d
	cmpq	%r14, %r15
	je	.LBB33_27
	bswapq	%r14
	bswapq	%r15
	movl	$192, %ebx
	jmp	.LBB33_26
.LBB33_51:
	bswapq	%r14
	bswapq	%r15
	movl	$64, %ebx
	jmp	.LBB33_26
.LBB33_53:
	bswapq	%r14
	bswapq	%r15
	movl	$128, %ebx
	jmp	.LBB33_26
.LBB33_30:
	cmpb	$20, %r10b
	jne	.LBB33_7
	addq	$8, %r14
	xorl	%ebx, %ebx
	jmp	.LBB33_32
.LBB33_7:
	xorl	%eax, %eax
.LBB33_8:
	addq	$56, %rsp
	popq	%rbx
	popq	%r12
	popq	%r13
	popq	%r14
	popq	%r15
	popq	%rbp
	retq
	.p2align	4
.LBB33_35:
	incq	%rbx
	addq	$616, %r14
	cmpq	%rbx, %r11
	je	.LBB33_36
.LBB33_32:
	cmpb	$0, -8(%r14)
	je	.LBB33_35
	cmpq	%r13, (%r14)
	jne	.LBB33_35
	movl	$32, %esi
	movq	%r14, %rdi
	movq	%rbp, %rdx
	callq	"core::cmp::slices::groups_equal::<i8,31'core::cmp::numbers::U8PartialEq{}>"
	movq	32(%rsp), %r11
	testb	%al, %al
	je	.LBB33_35
	jmp	.LBB33_37
.LBB33_36:
	movq	%r11, %rbx
.LBB33_37:
	cmpq	%rbx, %r11
	setbe	%al
	jmp	.LBB33_8
.Lfunc_end33:
	.size	"sightings::still_fits", .Lfunc_end33-"sightings::still_fits"

	.section	".text.writer::list_len","ax",@progbits
	.p2align	4
	.type	"writer::list_len",@function
"writer::list_len":
	pushq	%rbp
	pushq	%r15
	pushq	%r14
	pushq	%r13
	pushq	%r12
	pushq	%rbx
	subq	$40, %rsp
	movq	%rsi, 24(%rsp)
	movq	%rdi, 16(%rsp)
	xorl	%edx, %edx
	xorl	%r14d, %r14d
	.p2align	4
.LBB34_1:
	movq	16(%rsp), %rax
	leaq	(%rax,%r14), %r15
	movq	24(%rsp), %rax
	subq	%r14, %rax
	jne	.LBB34_3
	xorl	%ecx, %ecx
	jmp	.LBB34_5
	.p2align	4
.LBB34_3:
	movzbl	(%r15), %ecx
	cmpq	$1, %rax
	je	.LBB34_5
	movzbl	1(%r15), %esi
	shll	$8, %esi
	orq	%rsi, %rcx
.LBB34_5:
	leaq	3(%rcx), %rsi
	cmpq	%rsi, %rax
	jbe	.LBB34_7
	movzbl	(%r15,%rsi), %edi
	leaq	4(%rcx), %rsi
	cmpq	%rsi, %rax
	ja	.LBB34_8
	jmp	.LBB34_9
	.p2align	4
.LBB34_7:
	xorl	%edi, %edi
	leaq	4(%rcx), %rsi
	cmpq	%rsi, %rax
	jbe	.LBB34_9
.LBB34_8:
	movzbl	(%r15,%rsi), %esi
	shll	$8, %esi
	orq	%rsi, %rdi
.LBB34_9:
	leaq	(%rcx,%rdi), %rbx
	addq	$5, %rbx
	cmpq	%rbx, %rax
	jb	.LBB34_56
	movzwl	(%r15), %r12d
	leaq	3(%r12), %rcx
	cmpq	%rcx, %rax
	jbe	.LBB34_12
	movzbl	(%r15,%rcx), %r13d
	leaq	4(%r12), %rcx
	cmpq	%rcx, %rax
	movq	%rdx, 32(%rsp)
	ja	.LBB34_13
	jmp	.LBB34_14
	.p2align	4
.LBB34_12:
	xorl	%r13d, %r13d
	leaq	4(%r12), %rcx
	cmpq	%rcx, %rax
	movq	%rdx, 32(%rsp)
	jbe	.LBB34_14
.LBB34_13:
	movzbl	(%r15,%rcx), %eax
	shll	$8, %eax
	orq	%rax, %r13
.LBB34_14:
	leaq	(%r15,%r12), %rbp
	addq	$5, %rbp
	movq	%rbp, %rdi
	movq	%r13, %rsi
	callq	"writer::address_count"
	cmpq	$4, %rax
	ja	.LBB34_55
	addq	%r12, %r15
	movq	%r13, %rcx
	movq	%r13, %rdx
	movq	%r13, %r8
	movq	%r13, %rsi
	testq	%r13, %r13
	je	.LBB34_25
	cmpl	$1, %r13d
	jne	.LBB34_18
	movzbl	(%rbp), %esi
	xorl	%ecx, %ecx
	xorl	%edx, %edx
	xorl	%r8d, %r8d
	jmp	.LBB34_25
	.p2align	4
.LBB34_18:
	movzwl	5(%r15), %edx
	leaq	2(%rdx), %r8
	xorl	%ecx, %ecx
	cmpq	%r8, %r13
	cmovbq	%rcx, %rdx
	cmpl	%r8d, %r13d
	jb	.LBB34_24
	movq	%r13, %rsi
	subq	%r8, %rsi
	jne	.LBB34_21
	xorl	%edi, %edi
	jmp	.LBB34_23
.LBB34_21:
	movzbl	(%rbp,%r8), %edi
	cmpq	$1, %rsi
	je	.LBB34_23
	movzbl	1(%rbp,%r8), %ecx
	shll	$8, %ecx
	orq	%rcx, %rdi
.LBB34_23:
	leaq	2(%rdi), %r8
	xorl	%ecx, %ecx
	cmpq	%r8, %rsi
	cmovaeq	%rdi, %rcx
.LBB34_24:
	movzwl	(%rbp), %esi
	leaq	2(%rsi), %rdi
	xorl	%r8d, %r8d
	cmpl	%edi, %r13d
	jae	.LBB34_35
	.p2align	4
.LBB34_25:
	addq	$2, %rsi
	cmpl	%esi, %r13d
	jb	.LBB34_26
	movq	%r13, %r9
	subq	%rsi, %r9
	jne	.LBB34_29
	xorl	%edi, %edi
	jmp	.LBB34_31
	.p2align	4
.LBB34_29:
	movzbl	(%rbp,%rsi), %edi
	cmpq	$1, %r9
	je	.LBB34_31
	movzbl	1(%rbp,%rsi), %r10d
	shll	$8, %r10d
	orq	%r10, %rdi
.LBB34_31:
	addq	$2, %rdi
	cmpq	%rdi, %r9
	jb	.LBB34_26
	addq	%rsi, %rdi
	movq	%r13, %r9
	subq	%rdi, %r9
	jne	.LBB34_39
	xorl	%esi, %esi
	jmp	.LBB34_41
.LBB34_35:
	movq	%r13, %r9
	subq	%rdi, %r9
	je	.LBB34_25
	cmpq	$1, %r9
	je	.LBB34_25
	movzwl	(%rbp,%rdi), %r8d
	addq	$2, %r8
	cmpq	%r8, %r9
	jae	.LBB34_50
	xorl	%r8d, %r8d
	jmp	.LBB34_25
.LBB34_39:
	movzbl	(%rbp,%rdi), %esi
	cmpq	$1, %r9
	je	.LBB34_41
	movzbl	1(%rbp,%rdi), %r10d
	shll	$8, %r10d
	orq	%r10, %rsi
.LBB34_41:
	addq	$2, %rsi
	cmpq	%rsi, %r9
	jae	.LBB34_43
	.p2align	4
.LBB34_26:
	xorl	%r9d, %r9d
.LBB34_48:
	movzbl	2(%r15), %esi
	movl	%esi, (%rsp)
	movq	%r12, %rdi
	movq	%rax, %rsi
	callq	"pieces::peer_len"
	movl	$16384, %ecx
	movq	32(%rsp), %rdx
	subq	%rdx, %rcx
	leaq	-1(%rax), %rsi
	cmpq	%rcx, %rsi
	jae	.LBB34_55
	addq	%rax, %rdx
	addq	%rbx, %r14
	jmp	.LBB34_1
.LBB34_43:
	addq	%rdi, %rsi
	subq	%rsi, %r13
	jne	.LBB34_45
	xorl	%edi, %edi
	jmp	.LBB34_47
.LBB34_45:
	movzbl	(%rbp,%rsi), %edi
	cmpq	$1, %r13
	je	.LBB34_47
	movzbl	1(%rbp,%rsi), %esi
	shll	$8, %esi
	orq	%rsi, %rdi
.LBB34_47:
	leaq	2(%rdi), %rsi
	xorl	%r9d, %r9d
	cmpq	%rsi, %r13
	cmovaeq	%rdi, %r9
	jmp	.LBB34_48
.LBB34_50:
	addq	%rdi, %r8
	movq	%r13, %rdi
	subq	%r8, %rdi
	jne	.LBB34_52
	xorl	%r9d, %r9d
	jmp	.LBB34_54
.LBB34_52:
	movzbl	(%rbp,%r8), %r9d
	cmpq	$1, %rdi
	je	.LBB34_54
	movzbl	1(%rbp,%r8), %r8d
	shll	$8, %r8d
	orq	%r8, %r9
.LBB34_54:
	leaq	2(%r9), %r10
	xorl	%r8d, %r8d
	cmpq	%r10, %rdi
	cmovaeq	%r9, %r8
	jmp	.LBB34_25
.LBB34_55:
	xorl	%edx, %edx
	xorl	%eax, %eax
	jmp	.LBB34_57
.LBB34_56:
	movb	$1, %al
.LBB34_57:
	addq	$40, %rsp
	popq	%rbx
	popq	%r12
	popq	%r13
	popq	%r14
	popq	%r15
	popq	%rbp
	retq
.Lfunc_end34:
	.size	"writer::list_len", .Lfunc_end34-"writer::list_len"

	.section	".text.writer::address_count","ax",@progbits
	.p2align	4
	.type	"writer::address_count",@function
"writer::address_count":
	testq	%rsi, %rsi
	je	.LBB35_1
	movzbl	(%rdi), %edx
	cmpq	$1, %rsi
	je	.LBB35_4
	movzbl	1(%rdi), %eax
	shll	$8, %eax
	orq	%rax, %rdx
.LBB35_4:
	addq	$2, %rdx
	cmpq	%rdx, %rsi
	jae	.LBB35_7
.LBB35_5:
	xorl	%eax, %eax
	retq
.LBB35_1:
	xorl	%edx, %edx
	addq	$2, %rdx
	cmpq	%rdx, %rsi
	jb	.LBB35_5
.LBB35_7:
	movq	%rsi, %r8
	subq	%rdx, %r8
	jne	.LBB35_9
	xorl	%ecx, %ecx
	jmp	.LBB35_11
.LBB35_9:
	movzbl	(%rdi,%rdx), %ecx
	cmpq	$1, %r8
	je	.LBB35_11
	movzbl	1(%rdi,%rdx), %eax
	shll	$8, %eax
	orq	%rax, %rcx
.LBB35_11:
	addq	$2, %rcx
	movl	$1, %eax
	cmpq	%rcx, %r8
	jb	.LBB35_6
	addq	%rdx, %rcx
	movq	%rsi, %r8
	subq	%rcx, %r8
	jne	.LBB35_14
	xorl	%edx, %edx
	jmp	.LBB35_16
.LBB35_14:
	movzbl	(%rdi,%rcx), %edx
	cmpq	$1, %r8
	je	.LBB35_16
	movzbl	1(%rdi,%rcx), %eax
	shll	$8, %eax
	orq	%rax, %rdx
.LBB35_16:
	addq	$2, %rdx
	movl	$2, %eax
	cmpq	%rdx, %r8
	jb	.LBB35_6
	addq	%rcx, %rdx
	movq	%rsi, %r8
	subq	%rdx, %r8
	jne	.LBB35_19
	xorl	%ecx, %ecx
	jmp	.LBB35_21
.LBB35_19:
	movzbl	(%rdi,%rdx), %ecx
	cmpq	$1, %r8
	je	.LBB35_21
	movzbl	1(%rdi,%rdx), %eax
	shll	$8, %eax
	orq	%rax, %rcx
.LBB35_21:
	addq	$2, %rcx
	movl	$3, %eax
	cmpq	%rcx, %r8
	jae	.LBB35_22
.LBB35_6:
	retq
.LBB35_22:
	addq	%rdx, %rcx
	subq	%rcx, %rsi
	jne	.LBB35_24
	xorl	%eax, %eax
	jmp	.LBB35_26
.LBB35_24:
	movzbl	(%rdi,%rcx), %eax
	cmpq	$1, %rsi
	je	.LBB35_26
	movzbl	1(%rdi,%rcx), %ecx
	shll	$8, %ecx
	orq	%rcx, %rax
.LBB35_26:
	addq	$2, %rax
	cmpq	%rax, %rsi
	movl	$5, %eax
	sbbq	$0, %rax
	retq
.Lfunc_end35:
	.size	"writer::address_count", .Lfunc_end35-"writer::address_count"

	.section	".text.writer::put_list","ax",@progbits
	.p2align	4
	.type	"writer::put_list",@function
"writer::put_list":
	pushq	%rbp
	pushq	%r15
	pushq	%r14
	pushq	%r13
	pushq	%r12
	pushq	%rbx
	subq	$168, %rsp
	movq	%r9, %rbx
	movq	%r8, 152(%rsp)
	movl	%ecx, 132(%rsp)
	movq	%rdx, 112(%rsp)
	movq	%rsi, 144(%rsp)
	movq	%rdi, 136(%rsp)
	xorl	%edi, %edi
	movq	%r9, 96(%rsp)
	jmp	.LBB36_4
	.p2align	4
.LBB36_1:
	xorl	%ecx, %ecx
.LBB36_2:
	movzbl	2(%r8), %r8d
	movl	%r8d, 72(%rsp)
	movq	%rcx, 64(%rsp)
	movq	%r12, 56(%rsp)
	movq	%r9, 48(%rsp)
	movq	%r10, 40(%rsp)
	movq	%rsi, 32(%rsp)
	movq	%rdx, 24(%rsp)
	movq	120(%rsp), %rcx
	movq	%rcx, 16(%rsp)
	movq	%rdi, 8(%rsp)
	movq	%rax, (%rsp)
	movzbl	132(%rsp), %ecx
	movq	%rbp, %r8
	movq	136(%rsp), %rdi
	movq	%r15, %r9
	movq	144(%rsp), %rsi
	movq	112(%rsp), %rdx
	callq	"pieces::put_peer"
	movq	%rax, 112(%rsp)
.LBB36_3:
	movq	160(%rsp), %rdi
	addq	%r13, %rdi
.LBB36_4:
	movq	152(%rsp), %rax
	leaq	(%rax,%rdi), %rbp
	movq	%rbx, %rax
	subq	%rdi, %rax
	jne	.LBB36_6
	xorl	%ecx, %ecx
	jmp	.LBB36_8
	.p2align	4
.LBB36_6:
	movzbl	(%rbp), %ecx
	cmpq	$1, %rax
	je	.LBB36_8
	movzbl	1(%rbp), %edx
	shll	$8, %edx
	orq	%rdx, %rcx
.LBB36_8:
	leaq	3(%rcx), %rdx
	cmpq	%rdx, %rax
	jbe	.LBB36_10
	movzbl	(%rbp,%rdx), %edx
	leaq	4(%rcx), %rsi
	cmpq	%rsi, %rax
	ja	.LBB36_11
	jmp	.LBB36_12
	.p2align	4
.LBB36_10:
	xorl	%edx, %edx
	leaq	4(%rcx), %rsi
	cmpq	%rsi, %rax
	jbe	.LBB36_12
.LBB36_11:
	movzbl	(%rbp,%rsi), %esi
	shll	$8, %esi
	orq	%rsi, %rdx
.LBB36_12:
	leaq	(%rcx,%rdx), %r13
	addq	$5, %r13
	cmpq	%r13, %rax
	jb	.LBB36_57
	movzwl	(%rbp), %r15d
	leaq	3(%r15), %rcx
	cmpq	%rcx, %rax
	jbe	.LBB36_15
	movzbl	(%rbp,%rcx), %r14d
	leaq	4(%r15), %rcx
	cmpq	%rcx, %rax
	movq	%rdi, 160(%rsp)
	ja	.LBB36_16
	jmp	.LBB36_17
	.p2align	4
.LBB36_15:
	xorl	%r14d, %r14d
	leaq	4(%r15), %rcx
	cmpq	%rcx, %rax
	movq	%rdi, 160(%rsp)
	jbe	.LBB36_17
.LBB36_16:
	movzbl	(%rbp,%rcx), %eax
	shll	$8, %eax
	orq	%rax, %r14
.LBB36_17:
	leaq	(%r15,%rbp), %r12
	addq	$5, %r12
	movq	%r12, %rdi
	movq	%r14, %rsi
	callq	"writer::address_count"
	cmpq	$4, %rax
	ja	.LBB36_3
	leaq	(%r15,%rbp), %r8
	movq	%r12, %rdx
	movq	%r14, %rsi
	movq	%r12, %rcx
	movq	%r14, 120(%rsp)
	movq	%r14, %r9
	movq	%r12, %r10
	movq	%r14, %r11
	testq	%r14, %r14
	je	.LBB36_40
	cmpl	$1, %r14d
	jne	.LBB36_21
	movzbl	(%r12), %r11d
	xorl	%esi, %esi
	movq	%r12, %rdx
	movq	%r12, %rcx
	movq	$0, 120(%rsp)
	xorl	%r9d, %r9d
	movq	%r12, %r10
	jmp	.LBB36_40
.LBB36_21:
	movzwl	5(%r8), %edx
	leaq	2(%rdx), %r10
	xorl	%esi, %esi
	xorl	%r8d, %r8d
	movq	%r12, %rdi
	cmpq	%r10, %r14
	setae	%cl
	cmovbq	%rsi, %rdx
	movq	%rdx, 120(%rsp)
	jb	.LBB36_27
	leaq	(%r12,%r10), %rdi
	movq	%r14, %r9
	subq	%r10, %r9
	jne	.LBB36_24
	xorl	%r10d, %r10d
	jmp	.LBB36_26
.LBB36_24:
	movzbl	(%rdi), %r10d
	cmpq	$1, %r9
	je	.LBB36_26
	movzbl	1(%rdi), %esi
	shll	$8, %esi
	orq	%rsi, %r10
.LBB36_26:
	leaq	2(%r10), %r11
	xorl	%esi, %esi
	xorl	%ebx, %ebx
	cmpq	%r11, %r9
	setae	%bl
	cmovaeq	%r10, %rsi
	leaq	(%rdi,%rbx,2), %rdi
	movq	96(%rsp), %rbx
.LBB36_27:
	movq	%rdi, %rdx
	movb	%cl, %r8b
	leaq	(%r12,%r8,2), %rdi
	movzwl	(%r12), %r11d
	leaq	2(%r11), %rcx
	xorl	%r9d, %r9d
	cmpl	%ecx, %r14d
	jae	.LBB36_29
	movq	%r12, %r10
	leaq	(%r15,%rbp), %r8
	jmp	.LBB36_39
.LBB36_29:
	movq	%r14, %r10
	subq	%rcx, %r10
	leaq	(%rbp,%r15), %r8
	je	.LBB36_33
	cmpq	$1, %r10
	je	.LBB36_33
	movzwl	(%r12,%rcx), %r9d
	addq	$2, %r9
	cmpq	%r9, %r10
	jae	.LBB36_34
	xorl	%r9d, %r9d
.LBB36_33:
	movq	%r12, %r10
	jmp	.LBB36_39
.LBB36_34:
	addq	%rcx, %r9
	leaq	(%r12,%r9), %rcx
	movq	%r14, %r10
	subq	%r9, %r10
	movq	%rcx, 88(%rsp)
	movq	%r10, 104(%rsp)
	jne	.LBB36_36
	xorl	%ebx, %ebx
	jmp	.LBB36_38
.LBB36_36:
	movzbl	(%rcx), %ebx
	cmpq	$1, %r10
	je	.LBB36_38
	movzbl	1(%rcx), %r9d
	shll	$8, %r9d
	orq	%r9, %rbx
.LBB36_38:
	xorl	%r9d, %r9d
	xorl	%ecx, %ecx
	movq	%rbx, %r10
	addq	$2, %rbx
	cmpq	%rbx, 104(%rsp)
	setae	%cl
	cmovaeq	%r10, %r9
	movq	88(%rsp), %r10
	leaq	(%r10,%rcx,2), %r10
	movq	96(%rsp), %rbx
.LBB36_39:
	movq	%rdi, %rcx
.LBB36_40:
	addq	$2, %rbp
	addq	$2, %r11
	movq	%rcx, %rdi
	cmpl	%r11d, %r14d
	jb	.LBB36_1
	movq	%r14, %rbx
	subq	%r11, %rbx
	jne	.LBB36_43
	xorl	%ecx, %ecx
	jmp	.LBB36_45
.LBB36_43:
	movzbl	(%r12,%r11), %ecx
	cmpq	$1, %rbx
	je	.LBB36_45
	movq	%r8, 88(%rsp)
	movzbl	1(%r12,%r11), %r8d
	shll	$8, %r8d
	orq	%r8, %rcx
	movq	88(%rsp), %r8
.LBB36_45:
	addq	$2, %rcx
	cmpq	%rcx, %rbx
	jb	.LBB36_51
	addq	%r11, %rcx
	movq	%r14, %rbx
	subq	%rcx, %rbx
	jne	.LBB36_48
	xorl	%r11d, %r11d
	jmp	.LBB36_50
.LBB36_48:
	movzbl	(%r12,%rcx), %r11d
	cmpq	$1, %rbx
	je	.LBB36_50
	movq	%r8, 88(%rsp)
	movzbl	1(%r12,%rcx), %r8d
	shll	$8, %r8d
	orq	%r8, %r11
	movq	88(%rsp), %r8
.LBB36_50:
	addq	$2, %r11
	cmpq	%r11, %rbx
	jae	.LBB36_52
.LBB36_51:
	xorl	%ecx, %ecx
	movq	96(%rsp), %rbx
	jmp	.LBB36_2
.LBB36_52:
	addq	%rcx, %r11
	addq	%r11, %r12
	subq	%r11, %r14
	movq	%rsi, 104(%rsp)
	jne	.LBB36_54
	xorl	%r11d, %r11d
	jmp	.LBB36_56
.LBB36_54:
	movzbl	(%r12), %r11d
	cmpq	$1, %r14
	je	.LBB36_56
	movzbl	1(%r12), %ecx
	shll	$8, %ecx
	orq	%rcx, %r11
.LBB36_56:
	xorl	%ecx, %ecx
	xorl	%ebx, %ebx
	movq	%r11, %rsi
	addq	$2, %r11
	cmpq	%r11, %r14
	setae	%bl
	cmovaeq	%rsi, %rcx
	leaq	(%r12,%rbx,2), %r12
	movq	96(%rsp), %rbx
	movq	104(%rsp), %rsi
	jmp	.LBB36_2
.LBB36_57:
	movq	112(%rsp), %rax
	addq	$168, %rsp
	popq	%rbx
	popq	%r12
	popq	%r13
	popq	%r14
	popq	%r15
	popq	%rbp
	retq
.Lfunc_end36:
	.size	"writer::put_list", .Lfunc_end36-"writer::put_list"

	.section	.text.starterbell_doubt,"ax",@progbits
	.globl	starterbell_doubt
	.p2align	4
	.type	starterbell_doubt,@function
starterbell_doubt:
	pushq	%rbp
	pushq	%r15
	pushq	%r14
	pushq	%r13
	pushq	%r12
	pushq	%rbx
	subq	$152, %rsp
	xorl	%ebx, %ebx
	testq	%rdx, %rdx
	sete	%r10b
	xorl	%r12d, %r12d
	testq	%r8, %r8
	sete	%bpl
	xorl	%eax, %eax
	cmpq	$616, %rsi
	jb	.LBB37_19
	movb	%r10b, %bl
	shll	$12, %ebx
	leaq	(%rdx,%rbx), %rax
	xorl	%esi, %esi
	testq	%rdi, %rdi
	sete	%sil
	shll	$12, %esi
	movzbl	2(%rdi,%rsi), %r10d
	movups	8(%rdi,%rsi), %xmm0
	movups	24(%rdi,%rsi), %xmm1
	movaps	%xmm1, 16(%rsp)
	movaps	%xmm0, (%rsp)
	decb	%r10b
	cmpb	$64, %r10b
	jae	.LBB37_2
	movq	%r8, %r13
	movq	%r9, %r14
	movq	%rdx, 72(%rsp)
	movq	%rsp, %rdx
	movq	%rax, %rdi
	movq	%rcx, %r15
	movq	%rcx, %rsi
	callq	"contact_form::in_form"
	movl	%eax, %ecx
	xorl	%eax, %eax
	testb	%cl, %cl
	je	.LBB37_19
	leaq	-1(%r14), %rax
	cmpq	$63, %rax
	ja	.LBB37_10
	movb	%bpl, %r12b
	shll	$12, %r12d
	movq	%r13, %rsi
	addq	%r12, %rsi
	leaq	40(%rsp), %rdi
	movq	%r14, %rdx
	callq	"sha256::hash"
	movzbl	40(%rsp), %ebp
	movups	41(%rsp), %xmm0
	movaps	%xmm0, 112(%rsp)
	movups	56(%rsp), %xmm0
	movups	%xmm0, 127(%rsp)
	movb	%bpl, 80(%rsp)
	movaps	112(%rsp), %xmm0
	movups	%xmm0, 81(%rsp)
	movups	127(%rsp), %xmm0
	movups	%xmm0, 96(%rsp)
	cmpb	(%rsp), %bpl
	jne	.LBB37_11
	movzbl	1(%rsp), %eax
	cmpb	%al, 81(%rsp)
	jne	.LBB37_11
	movzbl	2(%rsp), %eax
	cmpb	%al, 82(%rsp)
	jne	.LBB37_11
	movzbl	3(%rsp), %eax
	cmpb	%al, 83(%rsp)
	jne	.LBB37_11
	leaq	80(%rsp), %rdi
	movq	%rsp, %rdx
	movl	$32, %esi
	callq	"core::cmp::slices::groups_equal::<i8,31'core::cmp::numbers::U8PartialEq{}>"
	testb	%al, %al
	je	.LBB37_11
.LBB37_10:
	movl	$12, %eax
	jmp	.LBB37_19
.LBB37_2:
	movq	%rsp, %rdx
	movq	%rax, %rdi
	movq	%rcx, %rsi
	callq	"contact_form::in_form"
	xorl	%ecx, %ecx
	testb	%al, %al
	movl	$12, %eax
	cmovel	%ecx, %eax
.LBB37_19:
	addq	$152, %rsp
	popq	%rbx
	popq	%r12
	popq	%r13
	popq	%r14
	popq	%r15
	popq	%rbp
	retq
.LBB37_11:
	movups	127(%rsp), %xmm0
	movups	%xmm0, 56(%rsp)
	movaps	112(%rsp), %xmm0
	movups	%xmm0, 41(%rsp)
	movb	%bpl, 40(%rsp)
	movl	%r15d, %eax
	imulq	$892460737, %rax, %rax
	shrq	$39, %rax
	cmpq	$3153920, %r15
	movl	$5120, %r15d
	cmovbq	%rax, %r15
	movl	$15, %eax
	testq	%r15, %r15
	je	.LBB37_19
	movq	40(%rsp), %r12
	movq	72(%rsp), %rcx
	addq	%rcx, %rbx
	addq	$8, %rbx
	xorl	%r14d, %r14d
	jmp	.LBB37_13
	.p2align	4
.LBB37_16:
	incq	%r14
	addq	$616, %rbx
	cmpq	%r14, %r15
	je	.LBB37_19
.LBB37_13:
	cmpb	$0, -8(%rbx)
	je	.LBB37_16
	cmpq	%r12, (%rbx)
	jne	.LBB37_16
	leaq	40(%rsp), %rdx
	movl	$32, %esi
	movq	%rbx, %rdi
	callq	"core::cmp::slices::groups_equal::<i8,31'core::cmp::numbers::U8PartialEq{}>"
	movl	%eax, %ecx
	movl	$15, %eax
	testb	%cl, %cl
	je	.LBB37_16
	cmpq	%r14, %r15
	jbe	.LBB37_19
	movb	$1, -7(%rbx)
	movl	$64, %eax
	jmp	.LBB37_19
.Lfunc_end37:
	.size	starterbell_doubt, .Lfunc_end37-starterbell_doubt

	.section	.text.starterbell_end,"ax",@progbits
	.globl	starterbell_end
	.p2align	4
	.type	starterbell_end,@function
starterbell_end:
	xorl	%eax, %eax
	testq	%rdi, %rdi
	sete	%r8b
	xorl	%r9d, %r9d
	testq	%rdx, %rdx
	sete	%r10b
	cmpq	$616, %rsi
	setb	%sil
	cmpq	$640, %rcx
	setb	%cl
	orb	%sil, %cl
	je	.LBB38_2
	xorl	%eax, %eax
	retq
.LBB38_2:
	movb	%r10b, %r9b
	shll	$12, %r9d
	addq	%r9, %rdx
	movzbl	618(%rdx), %esi
	testl	%esi, %esi
	je	.LBB38_10
	pushq	%rbp
	pushq	%r15
	pushq	%r14
	pushq	%r13
	pushq	%r12
	pushq	%rbx
	subq	$88, %rsp
	movzbl	2(%rdx), %ecx
	movb	$1, %bl
	cmpl	$2, %esi
	je	.LBB38_9
	xorl	%ebp, %ebp
	xorl	%r12d, %r12d
	cmpl	$1, %esi
	jne	.LBB38_16
	movzbl	619(%rdx), %ebp
	testl	%ebp, %ebp
	je	.LBB38_12
	movzbl	620(%rdx), %esi
	cmpl	$2, %ebp
	je	.LBB38_11
	cmpl	$1, %ebp
	jne	.LBB38_15
	movb	$1, %r12b
	jmp	.LBB38_13
.LBB38_9:
	movzwl	622(%rdx), %esi
	cmpw	%si, 624(%rdx)
	setb	%r9b
	movzwl	%si, %esi
	cmpl	$16385, %esi
	setb	%r13b
	andb	%r9b, %r13b
	xorl	%r12d, %r12d
	xorl	%ebp, %ebp
	xorl	%esi, %esi
	xorl	%r14d, %r14d
	decb	%cl
	cmpb	$63, %cl
	jbe	.LBB38_17
	jmp	.LBB38_26
.LBB38_10:
	movl	$2, %eax
	retq
.LBB38_11:
	movzbl	621(%rdx), %r14d
	shrb	$7, %r14b
	movb	$2, %bpl
	movb	$1, %r12b
	jmp	.LBB38_14
.LBB38_12:
	xorl	%r12d, %r12d
	movl	%ebp, %esi
.LBB38_13:
	xorl	%r14d, %r14d
.LBB38_14:
	xorl	%ebx, %ebx
	xorl	%r13d, %r13d
	decb	%cl
	cmpb	$63, %cl
	jbe	.LBB38_17
	jmp	.LBB38_26
.LBB38_15:
	xorl	%r12d, %r12d
	xorl	%ebp, %ebp
.LBB38_16:
	xorl	%esi, %esi
	xorl	%r14d, %r14d
	xorl	%r13d, %r13d
	decb	%cl
	cmpb	$63, %cl
	ja	.LBB38_26
.LBB38_17:
	movb	%r8b, %al
	shll	$12, %eax
	addq	%rax, %rdi
	leaq	8(%rdx), %rax
	movups	(%rax), %xmm0
	movups	16(%rax), %xmm1
	movaps	%xmm1, 64(%rsp)
	movaps	%xmm0, 48(%rsp)
	movups	8(%rdi), %xmm0
	movups	24(%rdi), %xmm1
	movaps	%xmm0, 16(%rsp)
	movaps	%xmm1, 32(%rsp)
	movl	48(%rsp), %eax
	cmpl	16(%rsp), %eax
	jne	.LBB38_19
	leaq	48(%rsp), %rdi
	leaq	16(%rsp), %rax
	movl	%esi, 12(%rsp)
	movl	$32, %esi
	movq	%rdx, %r15
	movq	%rax, %rdx
	callq	"core::cmp::slices::groups_equal::<i8,31'core::cmp::numbers::U8PartialEq{}>"
	movl	12(%rsp), %esi
	movq	%r15, %rdx
	testb	%al, %al
	jne	.LBB38_26
.LBB38_19:
	testb	%bl, %bl
	je	.LBB38_21
	testb	%r13b, %r13b
	je	.LBB38_26
	jmp	.LBB38_30
.LBB38_21:
	cmpb	$2, %bpl
	je	.LBB38_25
	movzbl	%bpl, %eax
	cmpl	$1, %eax
	jne	.LBB38_29
	testb	%sil, %sil
	jns	.LBB38_26
	jmp	.LBB38_29
.LBB38_25:
	testb	%sil, %sil
	jns	.LBB38_26
	testb	%r14b, %r14b
	je	.LBB38_26
.LBB38_29:
	testb	%r12b, %r12b
	je	.LBB38_31
.LBB38_30:
	movq	$0, 618(%rdx)
	movl	$19, %eax
	jmp	.LBB38_27
.LBB38_26:
	xorl	%eax, %eax
.LBB38_27:
	addq	$88, %rsp
	popq	%rbx
	popq	%r12
	popq	%r13
	popq	%r14
	popq	%r15
	popq	%rbp
	retq
.LBB38_31:
	movq	$0, 618(%rdx)
	movl	$64, %eax
	jmp	.LBB38_27
.Lfunc_end38:
	.size	starterbell_end, .Lfunc_end38-starterbell_end

	.section	.text.starterbell_find,"ax",@progbits
	.globl	starterbell_find
	.p2align	4
	.type	starterbell_find,@function
starterbell_find:
	pushq	%rbp
	pushq	%r15
	pushq	%r14
	pushq	%r13
	pushq	%r12
	pushq	%rbx
	subq	$56, %rsp
	movq	%r9, 48(%rsp)
	movq	%r8, %rbx
	movq	%rcx, %r15
	movq	%rdx, %rbp
	movq	%rsi, %r12
	xorl	%r13d, %r13d
	testq	%rdi, %rdi
	sete	%r13b
	shll	$12, %r13d
	addq	%rdi, %r13
	xorl	%r14d, %r14d
	testq	%r8, %r8
	sete	15(%rsp)
	xorps	%xmm0, %xmm0
	movaps	%xmm0, 32(%rsp)
	movaps	%xmm0, 16(%rsp)
	movq	%r13, %rdi
	callq	"record_slots::in_form"
	testb	%al, %al
	je	.LBB39_3
	xorl	%ecx, %ecx
	testq	%rbp, %rbp
	sete	%cl
	shll	$12, %ecx
	addq	%rbp, %rcx
	leaq	16(%rsp), %rdi
	movq	%r13, %rsi
	movq	%r12, %rdx
	movq	%r15, %r8
	callq	"records::look"
	cmpb	$0, 16(%rsp)
	je	.LBB39_6
	movzbl	17(%rsp), %eax
	jmp	.LBB39_4
.LBB39_3:
	xorl	%eax, %eax
.LBB39_4:
	movzbl	%al, %eax
.LBB39_5:
	addq	$56, %rsp
	popq	%rbx
	popq	%r12
	popq	%r13
	popq	%r14
	popq	%r15
	popq	%rbp
	retq
.LBB39_6:
	movl	$65, %eax
	cmpb	$1, 24(%rsp)
	jne	.LBB39_5
	movaps	32(%rsp), %xmm0
	movaps	%xmm0, 16(%rsp)
	movl	$64, %eax
	movq	48(%rsp), %rcx
	testq	%rcx, %rcx
	je	.LBB39_5
	movzbl	15(%rsp), %eax
	movb	%al, %r14b
	shll	$12, %r14d
	addq	%r14, %rbx
	cmpq	$2, %rcx
	movl	$2, %edx
	cmovbq	%rcx, %rdx
	shll	$3, %edx
	leaq	16(%rsp), %rsi
	movq	%rbx, %rdi
	callq	memcpy@PLT
	movl	$64, %eax
	jmp	.LBB39_5
.Lfunc_end39:
	.size	starterbell_find, .Lfunc_end39-starterbell_find

	.section	.text.starterbell_lookup_failure,"ax",@progbits
	.globl	starterbell_lookup_failure
	.p2align	4
	.type	starterbell_lookup_failure,@function
starterbell_lookup_failure:
	pushq	%rbp
	pushq	%r15
	pushq	%r14
	pushq	%r13
	pushq	%r12
	pushq	%rbx
	subq	$1016, %rsp
	movq	%rcx, %r12
	movq	%rdx, %r14
	xorl	%r15d, %r15d
	testq	%rdx, %rdx
	sete	%r10b
	xorl	%ebp, %ebp
	testq	%r8, %r8
	sete	%dl
	cmpq	$0, 1072(%rsp)
	sete	%cl
	xorl	%eax, %eax
	cmpq	$616, %rsi
	jb	.LBB40_14
	movb	%r10b, 14(%rsp)
	movb	%dl, 15(%rsp)
	movb	%cl, 13(%rsp)
	movq	%r8, 32(%rsp)
	movq	%r9, 40(%rsp)
	xorl	%r13d, %r13d
	testq	%rdi, %rdi
	sete	%r13b
	shll	$12, %r13d
	leaq	(%rdi,%r13), %rsi
	addq	$104, %rsi
	leaq	248(%rsp), %rax
	movl	$512, %edx
	movq	%rdi, %rbx
	movq	%rax, %rdi
	callq	memcpy@PLT
	movups	40(%rbx,%r13), %xmm0
	movups	56(%rbx,%r13), %xmm1
	movups	72(%rbx,%r13), %xmm2
	movups	88(%rbx,%r13), %xmm3
	movups	%xmm3, 808(%rsp)
	movups	%xmm2, 792(%rsp)
	movups	%xmm1, 776(%rsp)
	movups	%xmm0, 760(%rsp)
	movups	8(%rbx,%r13), %xmm0
	movups	24(%rbx,%r13), %xmm1
	movups	%xmm1, 840(%rsp)
	movups	%xmm0, 824(%rsp)
	movzbl	2(%rbx,%r13), %eax
	xorps	%xmm0, %xmm0
	movaps	%xmm0, 16(%rsp)
	cmpq	$25255, %r12
	ja	.LBB40_3
	xorl	%eax, %eax
	movzbl	%al, %eax
	jmp	.LBB40_14
.LBB40_3:
	movzbl	14(%rsp), %ecx
	movb	%cl, %r15b
	shll	$12, %r15d
	addq	%r15, %r14
	movzbl	15(%rsp), %ecx
	movb	%cl, %bpl
	shll	$12, %ebp
	movq	32(%rsp), %r8
	addq	%rbp, %r8
	leaq	824(%rsp), %rcx
	leal	-1(%rax), %edx
	xorl	%esi, %esi
	cmpb	$64, %dl
	movzbl	%al, %eax
	cmovael	%esi, %eax
	movzbl	%al, %edx
	leaq	16(%rsp), %rdi
	movq	%r14, %rsi
	movq	40(%rsp), %r9
	callq	"lookup_in_place::about"
	cmpb	$1, 16(%rsp)
	jne	.LBB40_6
	movzbl	17(%rsp), %eax
	movzbl	%al, %eax
	jmp	.LBB40_14
.LBB40_6:
	imulq	$98, 24(%rsp), %rax
	movb	$3, 168(%r14,%rax)
	xorps	%xmm0, %xmm0
	movaps	%xmm0, 224(%rsp)
	movaps	%xmm0, 208(%rsp)
	movaps	%xmm0, 192(%rsp)
	movaps	%xmm0, 176(%rsp)
	movaps	%xmm0, 160(%rsp)
	movaps	%xmm0, 144(%rsp)
	movaps	%xmm0, 128(%rsp)
	movaps	%xmm0, 112(%rsp)
	movaps	%xmm0, 96(%rsp)
	movaps	%xmm0, 80(%rsp)
	movaps	%xmm0, 64(%rsp)
	movaps	%xmm0, 48(%rsp)
	leaq	48(%rsp), %r15
	movq	%r15, %rdi
	movq	%r14, %rsi
	callq	"lookup_in_place::settle"
	cmpb	$0, 4(%r14)
	setne	4(%r14)
	movw	$0, 5(%r14)
	movb	$0, 7(%r14)
	leaq	856(%rsp), %rdi
	movl	$160, %edx
	movq	%r15, %rsi
	callq	memcpy@PLT
	testb	$1, 216(%rsp)
	je	.LBB40_8
	movzbl	217(%rsp), %eax
	movzbl	%al, %eax
	jmp	.LBB40_14
.LBB40_8:
	movq	1080(%rsp), %r15
	xorl	%eax, %eax
	movzbl	13(%rsp), %ecx
	movb	%cl, %al
	shll	$12, %eax
	movq	1072(%rsp), %rbx
	addq	%rax, %rbx
	movq	208(%rsp), %rax
	movzbl	224(%rsp), %r14d
	movq	232(%rsp), %rcx
	movl	$11, %edx
	btl	%r14d, %edx
	jb	.LBB40_10
	xorl	%ecx, %ecx
.LBB40_10:
	movq	%rcx, 48(%rsp)
	movq	%rax, 56(%rsp)
	testq	%r15, %r15
	je	.LBB40_13
	cmpq	$2, %r15
	movl	$2, %edx
	cmovbq	%r15, %rdx
	shll	$3, %edx
	leaq	48(%rsp), %rsi
	movq	%rbx, %rdi
	callq	memcpy@PLT
	cmpq	$3, %r15
	jb	.LBB40_13
	addq	$-2, %r15
	cmpq	$20, %r15
	movl	$20, %edx
	cmovbq	%r15, %rdx
	addq	$16, %rbx
	shll	$3, %edx
	leaq	856(%rsp), %rsi
	movq	%rbx, %rdi
	callq	memcpy@PLT
.LBB40_13:
	leaq	.Lswitch.table.starterbell_lookup_start(%rip), %rax
	movl	(%rax,%r14,4), %eax
.LBB40_14:
	addq	$1016, %rsp
	popq	%rbx
	popq	%r12
	popq	%r13
	popq	%r14
	popq	%r15
	popq	%rbp
	retq
.Lfunc_end40:
	.size	starterbell_lookup_failure, .Lfunc_end40-starterbell_lookup_failure

	.section	.rodata.cst16,"aM",@progbits,16
	.p2align	4, 0x0
.LCPI41_0:
	.byte	1
	.byte	1
	.zero	1
	.zero	1
	.zero	1
	.zero	1
	.zero	1
	.zero	1
	.zero	1
	.zero	1
	.zero	1
	.zero	1
	.zero	1
	.zero	1
	.zero	1
	.zero	1
.LCPI41_1:
	.quad	1
	.quad	1
	.section	.text.starterbell_lookup_next,"ax",@progbits
	.globl	starterbell_lookup_next
	.p2align	4
	.type	starterbell_lookup_next,@function
starterbell_lookup_next:
	pushq	%rbp
	pushq	%r15
	pushq	%r14
	pushq	%r13
	pushq	%r12
	pushq	%rbx
	subq	$600, %rsp
	xorl	%ebp, %ebp
	testq	%rdi, %rdi
	sete	%al
	xorl	%r14d, %r14d
	testq	%rdx, %rdx
	sete	%r13b
	cmpq	$25255, %rsi
	jbe	.LBB41_1
	movq	%rdx, %rbx
	movq	%rdi, %r12
	movq	%rcx, 8(%rsp)
	movb	%al, %bpl
	shll	$12, %ebp
	leaq	(%rdi,%rbp), %r15
	movq	%r15, %rdi
	callq	"lookup_in_place::in_form"
	testb	%al, %al
	je	.LBB41_1
	movb	%r13b, %r14b
	shll	$12, %r14d
	addq	%r14, %rbx
	movzbl	(%r12,%rbp), %r14d
	movzbl	1(%r12,%rbp), %r13d
	pxor	%xmm0, %xmm0
	movdqa	%xmm0, 576(%rsp)
	movdqa	%xmm0, 560(%rsp)
	movdqa	%xmm0, 544(%rsp)
	movdqa	%xmm0, 528(%rsp)
	movdqa	%xmm0, 512(%rsp)
	movdqa	%xmm0, 496(%rsp)
	movdqa	%xmm0, 480(%rsp)
	movdqa	%xmm0, 464(%rsp)
	movdqa	%xmm0, 448(%rsp)
	movdqa	%xmm0, 432(%rsp)
	movdqa	%xmm0, 416(%rsp)
	movdqa	%xmm0, 400(%rsp)
	movdqa	%xmm0, 384(%rsp)
	movdqa	%xmm0, 368(%rsp)
	movdqa	%xmm0, 352(%rsp)
	movdqa	%xmm0, 336(%rsp)
	leaq	(%r12,%rbp), %rax
	addq	$1638, %rax
	xorl	%ecx, %ecx
	.p2align	4
.LBB41_4:
	movzbl	(%rax), %edx
	movd	%edx, %xmm0
	movzbl	-98(%rax), %edx
	movd	%edx, %xmm1
	punpcklbw	%xmm0, %xmm1
	movzbl	-196(%rax), %edx
	movd	%edx, %xmm0
	movzbl	-294(%rax), %edx
	movd	%edx, %xmm2
	punpcklbw	%xmm0, %xmm2
	punpcklwd	%xmm1, %xmm2
	movzbl	-392(%rax), %edx
	movd	%edx, %xmm0
	movzbl	-490(%rax), %edx
	movd	%edx, %xmm1
	punpcklbw	%xmm0, %xmm1
	movzbl	-588(%rax), %edx
	movd	%edx, %xmm3
	movzbl	-686(%rax), %edx
	movd	%edx, %xmm0
	punpcklbw	%xmm3, %xmm0
	punpcklwd	%xmm1, %xmm0
	punpckldq	%xmm2, %xmm0
	movzbl	-784(%rax), %edx
	movd	%edx, %xmm1
	movzbl	-882(%rax), %edx
	movd	%edx, %xmm2
	punpcklbw	%xmm1, %xmm2
	movzbl	-980(%rax), %edx
	movd	%edx, %xmm1
	movzbl	-1078(%rax), %edx
	movd	%edx, %xmm3
	punpcklbw	%xmm1, %xmm3
	punpcklwd	%xmm2, %xmm3
	movzbl	-1176(%rax), %edx
	movd	%edx, %xmm1
	movzbl	-1274(%rax), %edx
	movd	%edx, %xmm2
	punpcklbw	%xmm1, %xmm2
	movzbl	-1372(%rax), %edx
	movd	%edx, %xmm1
	movzbl	-1470(%rax), %edx
	movd	%edx, %xmm4
	punpcklbw	%xmm1, %xmm4
	punpcklwd	%xmm2, %xmm4
	punpckldq	%xmm3, %xmm4
	punpcklqdq	%xmm0, %xmm4
	movdqu	%xmm4, 336(%rsp,%rcx)
	addq	$16, %rcx
	addq	$1568, %rax
	cmpq	$256, %rcx
	jne	.LBB41_4
	shll	$8, %r13d
	orq	%r14, %r13
	je	.LBB41_18
	movl	$20, %eax
	movl	$1, %ecx
	.p2align	4
.LBB41_7:
	movzbl	335(%rsp,%rcx), %edx
	cmpl	$3, %edx
	je	.LBB41_10
	cmpl	$2, %edx
	jne	.LBB41_26
	decq	%rax
.LBB41_10:
	cmpq	%r13, %rcx
	jae	.LBB41_12
	incq	%rcx
	testq	%rax, %rax
	jne	.LBB41_7
.LBB41_12:
	pxor	%xmm0, %xmm0
	movdqa	%xmm0, 320(%rsp)
	movdqa	%xmm0, 304(%rsp)
	movdqa	%xmm0, 288(%rsp)
	movdqa	%xmm0, 272(%rsp)
	movdqa	%xmm0, 256(%rsp)
	movdqa	%xmm0, 240(%rsp)
	movdqa	%xmm0, 224(%rsp)
	movdqa	%xmm0, 208(%rsp)
	movdqa	%xmm0, 192(%rsp)
	movdqa	%xmm0, 176(%rsp)
	xorl	%r12d, %r12d
	xorl	%eax, %eax
	jmp	.LBB41_14
	.p2align	4
.LBB41_13:
	incq	%rax
	cmpq	%rax, %r13
	je	.LBB41_19
.LBB41_14:
	cmpq	$20, %r12
	je	.LBB41_28
	cmpb	$3, 336(%rsp,%rax)
	je	.LBB41_13
	movq	%rax, 176(%rsp,%r12,8)
	incq	%r12
	jmp	.LBB41_13
.LBB41_1:
	xorl	%eax, %eax
	jmp	.LBB41_36
.LBB41_18:
	pxor	%xmm0, %xmm0
	movdqa	%xmm0, 320(%rsp)
	movdqa	%xmm0, 304(%rsp)
	movdqa	%xmm0, 288(%rsp)
	movdqa	%xmm0, 272(%rsp)
	movdqa	%xmm0, 256(%rsp)
	movdqa	%xmm0, 240(%rsp)
	movdqa	%xmm0, 224(%rsp)
	movdqa	%xmm0, 208(%rsp)
	movdqa	%xmm0, 192(%rsp)
	movdqa	%xmm0, 176(%rsp)
	xorl	%r12d, %r12d
.LBB41_19:
	leaq	16(%rsp), %rdi
	leaq	176(%rsp), %rsi
	movl	$160, %edx
	callq	memcpy@PLT
	testq	%r13, %r13
	je	.LBB41_29
.LBB41_20:
	cmpq	$4, %r13
	jae	.LBB41_22
	xorl	%ecx, %ecx
	xorl	%eax, %eax
	jmp	.LBB41_25
.LBB41_22:
	andl	$3, %r14d
	movq	%r13, %rax
	subq	%r14, %rax
	pxor	%xmm1, %xmm1
	xorl	%ecx, %ecx
	pxor	%xmm2, %xmm2
	pxor	%xmm0, %xmm0
	.p2align	4
.LBB41_23:
	movzwl	336(%rsp,%rcx), %edx
	movd	%edx, %xmm3
	movzwl	338(%rsp,%rcx), %edx
	movd	%edx, %xmm4
	pcmpeqb	%xmm1, %xmm3
	punpcklbw	%xmm3, %xmm3
	pshuflw	$212, %xmm3, %xmm3
	pshufd	$212, %xmm3, %xmm3
	movdqa	.LCPI41_1(%rip), %xmm5
	pand	%xmm5, %xmm3
	paddq	%xmm3, %xmm2
	pcmpeqb	%xmm1, %xmm4
	punpcklbw	%xmm4, %xmm4
	pshuflw	$212, %xmm4, %xmm3
	pshufd	$212, %xmm3, %xmm3
	pand	%xmm5, %xmm3
	paddq	%xmm3, %xmm0
	addq	$4, %rcx
	cmpq	%rcx, %rax
	jne	.LBB41_23
	paddq	%xmm2, %xmm0
	pshufd	$238, %xmm0, %xmm1
	paddq	%xmm0, %xmm1
	movq	%xmm1, %rcx
	testq	%r14, %r14
	je	.LBB41_30
	.p2align	4
.LBB41_25:
	cmpb	$1, 336(%rsp,%rax)
	adcq	$0, %rcx
	incq	%rax
	cmpq	%rax, %r13
	jne	.LBB41_25
	jmp	.LBB41_30
.LBB41_26:
	movzbl	3(%r15), %eax
	cmpq	$4, %r13
	jae	.LBB41_37
	xorl	%edx, %edx
	xorl	%ecx, %ecx
	jmp	.LBB41_40
.LBB41_28:
	leaq	16(%rsp), %rdi
	leaq	176(%rsp), %rsi
	movl	$160, %edx
	callq	memcpy@PLT
	movl	$20, %r12d
	testq	%r13, %r13
	jne	.LBB41_20
.LBB41_29:
	xorl	%ecx, %ecx
.LBB41_30:
	cmpb	$0, 4(%r15)
	setne	%r14b
	subq	%rcx, %r13
	movq	%r13, %rbp
.LBB41_31:
	cmpb	$0, 4(%r15)
	setne	4(%r15)
	movw	$0, 5(%r15)
	movb	$0, 7(%r15)
	leaq	336(%rsp), %rdi
	leaq	16(%rsp), %rsi
	movl	$160, %edx
	callq	memcpy@PLT
	xorl	%eax, %eax
	cmpb	$2, %r14b
	cmoveq	%rax, %rbp
	movzbl	%r14b, %r15d
.LBB41_32:
	movq	8(%rsp), %rax
	movq	%rbp, 176(%rsp)
	movq	%r12, 184(%rsp)
	testq	%rax, %rax
	je	.LBB41_35
	cmpq	$2, %rax
	movl	$2, %edx
	cmovbq	%rax, %rdx
	shll	$3, %edx
	leaq	176(%rsp), %rsi
	movq	%rbx, %rdi
	callq	memcpy@PLT
	movq	8(%rsp), %rax
	cmpq	$3, %rax
	jb	.LBB41_35
	addq	$-2, %rax
	cmpq	$20, %rax
	movl	$20, %edx
	cmovbq	%rax, %rdx
	addq	$16, %rbx
	shll	$3, %edx
	leaq	336(%rsp), %rsi
	movq	%rbx, %rdi
	callq	memcpy@PLT
.LBB41_35:
	leaq	.Lswitch.table.starterbell_lookup_next(%rip), %rax
	movl	(%rax,%r15,4), %eax
.LBB41_36:
	addq	$600, %rsp
	popq	%rbx
	popq	%r12
	popq	%r13
	popq	%r14
	popq	%r15
	popq	%rbp
	retq
.LBB41_37:
	andl	$3, %r14d
	movq	%r13, %rcx
	subq	%r14, %rcx
	pxor	%xmm0, %xmm0
	xorl	%edx, %edx
	pxor	%xmm1, %xmm1
	.p2align	4
.LBB41_38:
	movzwl	336(%rsp,%rdx), %esi
	movd	%esi, %xmm2
	movzwl	338(%rsp,%rdx), %esi
	movd	%esi, %xmm3
	movdqa	.LCPI41_0(%rip), %xmm4
	pcmpeqb	%xmm4, %xmm2
	punpcklbw	%xmm2, %xmm2
	pshuflw	$212, %xmm2, %xmm2
	pshufd	$212, %xmm2, %xmm2
	movdqa	.LCPI41_1(%rip), %xmm5
	pand	%xmm5, %xmm2
	paddq	%xmm2, %xmm1
	pcmpeqb	%xmm4, %xmm3
	punpcklbw	%xmm3, %xmm3
	pshuflw	$212, %xmm3, %xmm2
	pshufd	$212, %xmm2, %xmm2
	pand	%xmm5, %xmm2
	paddq	%xmm2, %xmm0
	addq	$4, %rdx
	cmpq	%rdx, %rcx
	jne	.LBB41_38
	paddq	%xmm1, %xmm0
	pshufd	$238, %xmm0, %xmm1
	paddq	%xmm0, %xmm1
	movq	%xmm1, %rdx
	testq	%r14, %r14
	je	.LBB41_41
	.p2align	4
.LBB41_40:
	xorl	%esi, %esi
	cmpb	$1, 336(%rsp,%rcx)
	sete	%sil
	addq	%rsi, %rdx
	incq	%rcx
	cmpq	%rcx, %r13
	jne	.LBB41_40
.LBB41_41:
	cmpq	%rax, %rdx
	jae	.LBB41_51
	leaq	(%r12,%rbp), %rax
	addq	$168, %rax
	movl	$20, %ecx
	xorl	%ebp, %ebp
	.p2align	4
.LBB41_43:
	movzbl	336(%rsp,%rbp), %edx
	cmpl	$3, %edx
	je	.LBB41_46
	testl	%edx, %edx
	je	.LBB41_48
	decq	%rcx
.LBB41_46:
	incq	%rbp
	cmpq	%r13, %rbp
	jae	.LBB41_51
	addq	$98, %rax
	testq	%rcx, %rcx
	jne	.LBB41_43
	jmp	.LBB41_51
.LBB41_48:
	cmpq	%r13, %rbp
	jae	.LBB41_51
	pxor	%xmm0, %xmm0
	movdqa	%xmm0, 160(%rsp)
	movdqa	%xmm0, 144(%rsp)
	movdqa	%xmm0, 128(%rsp)
	movdqa	%xmm0, 112(%rsp)
	movdqa	%xmm0, 96(%rsp)
	movdqa	%xmm0, 80(%rsp)
	movdqa	%xmm0, 64(%rsp)
	movdqa	%xmm0, 48(%rsp)
	movdqa	%xmm0, 32(%rsp)
	movdqa	%xmm0, 16(%rsp)
	cmpq	$255, %rbp
	ja	.LBB41_52
	movb	$1, (%rax)
	cmpb	$0, 4(%r15)
	setne	4(%r15)
	movw	$0, 5(%r15)
	movb	$0, 7(%r15)
	movdqa	%xmm0, 480(%rsp)
	movdqa	%xmm0, 464(%rsp)
	movdqa	%xmm0, 448(%rsp)
	movdqa	%xmm0, 432(%rsp)
	movdqa	%xmm0, 416(%rsp)
	movdqa	%xmm0, 400(%rsp)
	movdqa	%xmm0, 384(%rsp)
	movdqa	%xmm0, 368(%rsp)
	movdqa	%xmm0, 352(%rsp)
	movdqa	%xmm0, 336(%rsp)
	movl	$3, %r15d
	xorl	%r12d, %r12d
	jmp	.LBB41_32
.LBB41_51:
	pxor	%xmm0, %xmm0
	movdqa	%xmm0, 160(%rsp)
	movdqa	%xmm0, 144(%rsp)
	movdqa	%xmm0, 128(%rsp)
	movdqa	%xmm0, 112(%rsp)
	movdqa	%xmm0, 96(%rsp)
	movdqa	%xmm0, 80(%rsp)
	movdqa	%xmm0, 64(%rsp)
	movdqa	%xmm0, 48(%rsp)
	movdqa	%xmm0, 32(%rsp)
	movdqa	%xmm0, 16(%rsp)
	movb	$2, %r14b
	xorl	%r12d, %r12d
	xorl	%ebp, %ebp
	jmp	.LBB41_31
.LBB41_52:
	movb	$3, %r14b
	xorl	%r12d, %r12d
	jmp	.LBB41_31
.Lfunc_end41:
	.size	starterbell_lookup_next, .Lfunc_end41-starterbell_lookup_next

	.section	.text.starterbell_lookup_reply,"ax",@progbits
	.globl	starterbell_lookup_reply
	.p2align	4
	.type	starterbell_lookup_reply,@function
starterbell_lookup_reply:
	pushq	%rbp
	pushq	%r15
	pushq	%r14
	pushq	%r13
	pushq	%r12
	pushq	%rbx
	subq	$2664, %rsp
	movq	%rdi, %r14
	movq	2736(%rsp), %r12
	testq	%rdx, %rdx
	sete	%r10b
	testq	%r8, %r8
	sete	%r11b
	cmpq	$0, 2720(%rsp)
	sete	%bl
	xorl	%ebp, %ebp
	testq	%r12, %r12
	sete	%r15b
	cmpq	$0, 2752(%rsp)
	xorps	%xmm0, %xmm0
	movaps	%xmm0, 1536(%rsp)
	movaps	%xmm0, 1520(%rsp)
	movaps	%xmm0, 1504(%rsp)
	movaps	%xmm0, 1488(%rsp)
	movaps	%xmm0, 1472(%rsp)
	movaps	%xmm0, 1456(%rsp)
	movaps	%xmm0, 1440(%rsp)
	movaps	%xmm0, 1424(%rsp)
	movaps	%xmm0, 1408(%rsp)
	movaps	%xmm0, 1392(%rsp)
	sete	%dil
	xorl	%eax, %eax
	cmpq	$616, %rsi
	jb	.LBB42_15
	movb	%bl, 64(%rsp)
	movb	%r11b, 48(%rsp)
	movb	%r10b, 72(%rsp)
	movq	%r8, 24(%rsp)
	movq	%r9, 16(%rsp)
	movq	%rdx, 32(%rsp)
	movq	%rcx, 40(%rsp)
	movb	%dil, 13(%rsp)
	xorl	%r13d, %r13d
	testq	%r14, %r14
	sete	%r13b
	shll	$12, %r13d
	leaq	(%r14,%r13), %rsi
	addq	$104, %rsi
	leaq	784(%rsp), %rbx
	movl	$512, %edx
	movq	%rbx, %rdi
	callq	memcpy@PLT
	movups	40(%r14,%r13), %xmm0
	movups	56(%r14,%r13), %xmm1
	movups	72(%r14,%r13), %xmm2
	movups	88(%r14,%r13), %xmm3
	movups	%xmm3, 1344(%rsp)
	movups	%xmm2, 1328(%rsp)
	movups	%xmm1, 1312(%rsp)
	movups	%xmm0, 1296(%rsp)
	movups	8(%r14,%r13), %xmm0
	movups	24(%r14,%r13), %xmm1
	movups	%xmm1, 1376(%rsp)
	movups	%xmm0, 1360(%rsp)
	movzbl	2(%r14,%r13), %r14d
	leaq	2056(%rsp), %rdi
	movl	$608, %edx
	movq	%rbx, %rsi
	callq	memcpy@PLT
	movq	2744(%rsp), %rax
	xorl	%ebx, %ebx
	testq	%rax, %rax
	je	.LBB42_4
	movb	%r15b, %bpl
	shll	$12, %ebp
	movq	(%r12,%rbp), %rdx
	cmpq	$1, %rax
	movq	40(%rsp), %rcx
	movq	2720(%rsp), %rsi
	jne	.LBB42_5
	xorl	%r8d, %r8d
	xorl	%r10d, %r10d
	xorl	%r9d, %r9d
	xorl	%edi, %edi
	jmp	.LBB42_9
.LBB42_4:
	xorl	%r8d, %r8d
	xorl	%r10d, %r10d
	xorl	%r9d, %r9d
	xorl	%edx, %edx
	xorl	%edi, %edi
	xorl	%r11d, %r11d
	xorl	%r13d, %r13d
	xorl	%r12d, %r12d
	movq	40(%rsp), %rcx
	movq	2720(%rsp), %rsi
	jmp	.LBB42_12
.LBB42_5:
	movq	8(%r12,%rbp), %rdi
	cmpq	$3, %rax
	jb	.LBB42_8
	movq	16(%r12,%rbp), %r9
	jne	.LBB42_26
	xorl	%r8d, %r8d
	xorl	%r10d, %r10d
	jmp	.LBB42_9
.LBB42_8:
	xorl	%r8d, %r8d
	xorl	%r10d, %r10d
	xorl	%r9d, %r9d
.LBB42_9:
	xorl	%r11d, %r11d
.LBB42_10:
	xorl	%r13d, %r13d
.LBB42_11:
	xorl	%r12d, %r12d
.LBB42_12:
	xorps	%xmm0, %xmm0
	movaps	%xmm0, 1696(%rsp)
	movaps	%xmm0, 1680(%rsp)
	movaps	%xmm0, 1664(%rsp)
	movaps	%xmm0, 1648(%rsp)
	movaps	%xmm0, 1632(%rsp)
	movaps	%xmm0, 1616(%rsp)
	movaps	%xmm0, 1600(%rsp)
	movaps	%xmm0, 1584(%rsp)
	movaps	%xmm0, 1568(%rsp)
	movaps	%xmm0, 1552(%rsp)
	leal	-1(%r14), %eax
	cmpb	$64, %al
	movzbl	%r14b, %eax
	cmovbl	%eax, %ebx
	movaps	%xmm0, 112(%rsp)
	movaps	%xmm0, 416(%rsp)
	movaps	%xmm0, 432(%rsp)
	movaps	%xmm0, 448(%rsp)
	movaps	%xmm0, 464(%rsp)
	movaps	%xmm0, 480(%rsp)
	movaps	%xmm0, 496(%rsp)
	movaps	%xmm0, 512(%rsp)
	movaps	%xmm0, 528(%rsp)
	movaps	%xmm0, 544(%rsp)
	movaps	%xmm0, 560(%rsp)
	cmpq	$25256, %rcx
	jb	.LBB42_14
	movq	%r12, 128(%rsp)
	movq	%r13, %r14
	movq	%r11, %r12
	movq	%r10, %rbp
	movq	%r9, %r13
	movq	%rdi, %r15
	movq	%r8, 136(%rsp)
	movq	%rdx, 56(%rsp)
	xorl	%eax, %eax
	movzbl	64(%rsp), %ecx
	movb	%cl, %al
	shll	$12, %eax
	movq	2728(%rsp), %rdx
	addq	%rax, %rsi
	movaps	%xmm0, 832(%rsp)
	movaps	%xmm0, 816(%rsp)
	movaps	%xmm0, 800(%rsp)
	movaps	%xmm0, 784(%rsp)
	movq	$0, 848(%rsp)
	leaq	784(%rsp), %rdi
	movq	%rsi, 64(%rsp)
	callq	"message::read"
	cmpb	$0, 784(%rsp)
	je	.LBB42_16
.LBB42_14:
	xorl	%eax, %eax
.LBB42_15:
	addq	$2664, %rsp
	popq	%rbx
	popq	%r12
	popq	%r13
	popq	%r14
	popq	%r15
	popq	%rbp
	retq
.LBB42_16:
	movq	56(%rsp), %rax
	cmpq	%rax, 792(%rsp)
	jne	.LBB42_14
	cmpq	%r15, 800(%rsp)
	jne	.LBB42_14
	cmpq	%r13, 808(%rsp)
	jne	.LBB42_14
	cmpb	%r12b, 816(%rsp)
	jne	.LBB42_14
	cmpq	%rbp, 824(%rsp)
	jne	.LBB42_14
	cmpq	%r14, 832(%rsp)
	jne	.LBB42_14
	movq	136(%rsp), %rax
	cmpq	%rax, 840(%rsp)
	jne	.LBB42_14
	movq	128(%rsp), %rax
	cmpq	%rax, 848(%rsp)
	jne	.LBB42_14
	xorl	%ecx, %ecx
	movzbl	72(%rsp), %eax
	movb	%al, %cl
	xorl	%edx, %edx
	movzbl	48(%rsp), %eax
	movb	%al, %dl
	shll	$12, %ecx
	shll	$12, %edx
	movq	32(%rsp), %rax
	movq	%rcx, 48(%rsp)
	leaq	(%rax,%rcx), %r12
	movq	24(%rsp), %r8
	addq	%rdx, %r8
	movzbl	%bl, %edx
	leaq	2632(%rsp), %r14
	leaq	112(%rsp), %rdi
	movq	%r12, %rsi
	movq	%r14, %rcx
	movq	16(%rsp), %r9
	callq	"lookup_in_place::about"
	cmpb	$1, 112(%rsp)
	jne	.LBB42_30
	movzbl	113(%rsp), %ebp
	xorps	%xmm0, %xmm0
	movaps	%xmm0, 416(%rsp)
	movaps	%xmm0, 432(%rsp)
	movaps	%xmm0, 448(%rsp)
	movaps	%xmm0, 464(%rsp)
	movaps	%xmm0, 480(%rsp)
	movaps	%xmm0, 496(%rsp)
	movaps	%xmm0, 512(%rsp)
	movaps	%xmm0, 528(%rsp)
	movaps	%xmm0, 544(%rsp)
	movaps	%xmm0, 560(%rsp)
	movb	$1, %r15b
	movq	$0, 40(%rsp)
	xorl	%r13d, %r13d
	xorl	%r12d, %r12d
	jmp	.LBB42_123
.LBB42_26:
	cmpq	$0, 24(%r12,%rbp)
	setne	%r11b
	cmpq	$5, %rax
	jb	.LBB42_29
	movq	32(%r12,%rbp), %r10
	jne	.LBB42_81
	xorl	%r8d, %r8d
	jmp	.LBB42_10
.LBB42_29:
	xorl	%r8d, %r8d
	xorl	%r10d, %r10d
	jmp	.LBB42_10
.LBB42_30:
	imulq	$98, 120(%rsp), %rax
	cmpq	$4, 56(%rsp)
	jne	.LBB42_84
	movq	2728(%rsp), %r13
	movb	$2, 168(%r12,%rax)
	movups	(%r14), %xmm0
	movups	16(%r14), %xmm1
	movaps	%xmm0, 576(%rsp)
	movaps	%xmm1, 592(%rsp)
	leaq	784(%rsp), %rdi
	xorl	%ebx, %ebx
	movl	$336, %edx
	xorl	%esi, %esi
	callq	memset@PLT
	xorps	%xmm0, %xmm0
	movaps	%xmm0, 608(%rsp)
	movaps	%xmm0, 624(%rsp)
	movaps	%xmm0, 640(%rsp)
	movaps	%xmm0, 656(%rsp)
	movaps	%xmm0, 672(%rsp)
	movaps	%xmm0, 688(%rsp)
	movaps	%xmm0, 704(%rsp)
	movaps	%xmm0, 720(%rsp)
	movaps	%xmm0, 736(%rsp)
	movaps	%xmm0, 752(%rsp)
	movq	$0, 768(%rsp)
	movaps	%xmm0, 240(%rsp)
	movaps	%xmm0, 256(%rsp)
	movaps	%xmm0, 272(%rsp)
	movaps	%xmm0, 288(%rsp)
	movaps	%xmm0, 304(%rsp)
	movaps	%xmm0, 320(%rsp)
	movaps	%xmm0, 336(%rsp)
	movaps	%xmm0, 352(%rsp)
	movaps	%xmm0, 368(%rsp)
	movaps	%xmm0, 384(%rsp)
	movq	$0, 400(%rsp)
	xorl	%ebp, %ebp
	movq	%r12, 16(%rsp)
.LBB42_32:
	cmpq	%rbx, %r13
	movq	64(%rsp), %r8
	ja	.LBB42_36
	jmp	.LBB42_85
.LBB42_33:
	addq	$9, %rax
.LBB42_34:
	movq	%rax, %rbx
.LBB42_35:
	cmpq	%rbx, %r13
	jbe	.LBB42_85
.LBB42_36:
	movzbl	(%r8,%rbx), %ecx
	testb	%cl, %cl
	js	.LBB42_38
	movl	$1, %esi
	movq	%rcx, %rdx
	xorl	%ecx, %ecx
	movq	%rbx, %rax
	jmp	.LBB42_59
.LBB42_38:
	leaq	1(%rbx), %rax
	cmpq	%rax, %r13
	jbe	.LBB42_85
	addq	$-128, %rcx
	movzbl	(%r8,%rax), %edx
	movl	$128, %esi
	testb	%dl, %dl
	jns	.LBB42_59
	leaq	2(%rbx), %rax
	cmpq	%rax, %r13
	jbe	.LBB42_85
	shll	$7, %edx
	addq	$-16384, %rdx
	orq	%rdx, %rcx
	movzbl	(%r8,%rax), %edx
	movl	$16384, %esi
	testb	%dl, %dl
	jns	.LBB42_59
	leaq	3(%rbx), %rax
	cmpq	%rax, %r13
	jbe	.LBB42_85
	shll	$14, %edx
	addq	$-2097152, %rdx
	movq	%rdx, %rdi
	orq	%rcx, %rdi
	movzbl	(%r8,%rax), %edx
	movl	$2097152, %esi
	testb	%dl, %dl
	js	.LBB42_45
	movq	%rdi, %rcx
	jmp	.LBB42_59
.LBB42_45:
	leaq	4(%rbx), %rax
	cmpq	%rax, %r13
	jbe	.LBB42_85
	shll	$21, %edx
	addq	$-268435456, %rdx
	movq	%rdx, %rcx
	orq	%rdi, %rcx
	movzbl	(%r8,%rax), %edx
	movl	$268435456, %esi
	testb	%dl, %dl
	jns	.LBB42_59
	leaq	5(%rbx), %rax
	cmpq	%rax, %r13
	jbe	.LBB42_85
	shlq	$28, %rdx
	movabsq	$-34359738368, %rsi
	addq	%rdx, %rsi
	addq	%rsi, %rcx
	movzbl	(%r8,%rax), %edx
	testb	%dl, %dl
	js	.LBB42_50
	movabsq	$34359738368, %rsi
	jmp	.LBB42_59
.LBB42_50:
	leaq	6(%rbx), %rax
	cmpq	%rax, %r13
	jbe	.LBB42_85
	shlq	$35, %rdx
	movabsq	$-4398046511104, %rsi
	addq	%rdx, %rsi
	addq	%rsi, %rcx
	movzbl	(%r8,%rax), %edx
	testb	%dl, %dl
	js	.LBB42_53
	movabsq	$4398046511104, %rsi
	jmp	.LBB42_59
.LBB42_53:
	leaq	7(%rbx), %rax
	cmpq	%rax, %r13
	jbe	.LBB42_85
	shlq	$42, %rdx
	movabsq	$-562949953421312, %rsi
	addq	%rdx, %rsi
	addq	%rsi, %rcx
	movq	%r8, %rdi
	movzbl	(%r8,%rax), %edx
	testb	%dl, %dl
	js	.LBB42_56
	movabsq	$562949953421312, %rsi
	movq	%rdi, %r8
	jmp	.LBB42_59
.LBB42_56:
	leaq	8(%rbx), %rax
	cmpq	%rax, %r13
	jbe	.LBB42_85
	movq	%rdi, %r8
	movsbq	(%rdi,%rax), %rdi
	testq	%rdi, %rdi
	js	.LBB42_85
	shlq	$49, %rdx
	movabsq	$-72057594037927936, %rsi
	addq	%rdx, %rsi
	addq	%rsi, %rcx
	movabsq	$72057594037927936, %rsi
	movq	%rdi, %rdx
.LBB42_59:
	addq	$5, %rbx
	cmpq	%rax, %rbx
	jbe	.LBB42_85
	imulq	%rdx, %rsi
	addq	%rcx, %rsi
	movq	%rsi, %rcx
	shrq	$32, %rcx
	jne	.LBB42_85
	movq	%rsi, %r14
	shrq	$3, %r14
	je	.LBB42_85
	andl	$7, %esi
	cmpq	$5, %rsi
	ja	.LBB42_85
	leaq	1(%rax), %rcx
	leaq	.LJTI42_0(%rip), %rdx
	movslq	(%rdx,%rsi,4), %rsi
	addq	%rdx, %rsi
	jmpq	*%rsi
.LBB42_64:
	leaq	1720(%rsp), %rdi
	movq	%r8, %r15
	movq	%r8, %rsi
	movq	%r13, %rdx
	callq	"wire::read_varint"
	cmpb	$1, 1720(%rsp)
	jne	.LBB42_74
	movq	1728(%rsp), %rdx
	movq	1736(%rsp), %rbx
	movb	$2, %al
	jmp	.LBB42_76
.LBB42_66:
	cmpq	%rax, %r13
	jbe	.LBB42_85
	movq	%r13, %rdx
	subq	%rcx, %rdx
	cmpq	$7, %rdx
	ja	.LBB42_33
	jmp	.LBB42_85
.LBB42_68:
	cmpq	%rax, %r13
	jbe	.LBB42_85
	movq	%r13, %rdx
	subq	%rcx, %rdx
	cmpq	$3, %rdx
	jbe	.LBB42_85
	addq	$5, %rax
	jmp	.LBB42_34
.LBB42_71:
	leaq	1720(%rsp), %rdi
	movq	%r8, %r15
	movq	%r8, %rsi
	movq	%r13, %r12
	movq	%r13, %rdx
	callq	"wire::read_varint"
	movb	$1, %al
	cmpb	$1, 1720(%rsp)
	jne	.LBB42_75
	movq	1728(%rsp), %rbx
	movq	1736(%rsp), %rdx
	subq	%rdx, %r12
	setae	%sil
	cmpq	%r12, %rbx
	setbe	%cl
	andb	%sil, %cl
	cmpb	$1, %cl
	jne	.LBB42_75
	addq	%rdx, %rbx
	movb	$3, %al
	jmp	.LBB42_76
.LBB42_74:
	movb	$1, %al
.LBB42_75:
	xorl	%r14d, %r14d
	xorl	%edx, %edx
	xorl	%ebx, %ebx
.LBB42_76:
	movq	%r15, %r8
	cmpb	$1, %al
	je	.LBB42_85
	cmpb	$3, %al
	jne	.LBB42_35
	cmpq	$8, %r14
	jne	.LBB42_35
	cmpq	%rbx, %r13
	movq	%rbx, %rsi
	cmovbq	%r13, %rsi
	movl	$1, %ecx
	movq	%r8, %rdi
	xorl	%r8d, %r8d
	xorl	%r9d, %r9d
	callq	"wire::last_bytes"
	movq	%rax, 608(%rsp,%rbp,8)
	movq	%rdx, 240(%rsp,%rbp,8)
	incq	%rbp
	cmpq	$21, %rbp
	jne	.LBB42_32
	leaq	784(%rsp), %rbx
	leaq	608(%rsp), %rsi
	movl	$168, %edx
	movq	%rbx, %rdi
	callq	memcpy@PLT
	leaq	952(%rsp), %rdi
	leaq	240(%rsp), %rsi
	movl	$168, %edx
	callq	memcpy@PLT
	leaq	1720(%rsp), %r14
	movl	$336, %edx
	movq	%r14, %rdi
	movq	%rbx, %rsi
	callq	memcpy@PLT
	leaq	784(%rsp), %rdi
	movl	$168, %edx
	movq	%r14, %rsi
	callq	memcpy@PLT
	leaq	1888(%rsp), %rsi
	leaq	608(%rsp), %rdi
	movl	$168, %edx
	callq	memcpy@PLT
	movl	$21, %ebp
	jmp	.LBB42_86
.LBB42_81:
	movq	40(%r12,%rbp), %r13
	cmpq	$7, %rax
	jb	.LBB42_131
	movq	48(%r12,%rbp), %r8
	je	.LBB42_11
	movq	56(%r12,%rbp), %r12
	jmp	.LBB42_12
.LBB42_84:
	movb	$3, 168(%r12,%rax)
	jmp	.LBB42_122
.LBB42_85:
	leaq	784(%rsp), %rbx
	leaq	608(%rsp), %rsi
	movl	$168, %edx
	movq	%rbx, %rdi
	callq	memcpy@PLT
	leaq	952(%rsp), %rdi
	leaq	240(%rsp), %rsi
	movl	$168, %edx
	callq	memcpy@PLT
	leaq	1720(%rsp), %r14
	movl	$336, %edx
	movq	%r14, %rdi
	movq	%rbx, %rsi
	callq	memcpy@PLT
	leaq	784(%rsp), %rdi
	movl	$168, %edx
	movq	%r14, %rsi
	callq	memcpy@PLT
	leaq	1888(%rsp), %rsi
	leaq	608(%rsp), %rdi
	movl	$168, %edx
	callq	memcpy@PLT
	testq	%rbp, %rbp
	je	.LBB42_121
.LBB42_86:
	movq	32(%rsp), %rax
	movq	48(%rsp), %rcx
	leaq	(%rcx,%rax), %r15
	addq	$234, %r15
	xorl	%r12d, %r12d
	movq	%r15, 32(%rsp)
	movq	%rbp, 72(%rsp)
	jmp	.LBB42_90
.LBB42_87:
	movq	24(%rsp), %rax
	incl	%eax
	movw	%ax, (%r15)
.LBB42_88:
	movq	72(%rsp), %rbp
	movq	32(%rsp), %r15
.LBB42_89:
	incq	%r12
	cmpq	%rbp, %r12
	je	.LBB42_121
.LBB42_90:
	movq	784(%rsp,%r12,8), %r14
	movq	608(%rsp,%r12,8), %r13
	subq	%r14, %r13
	movaps	576(%rsp), %xmm0
	movaps	592(%rsp), %xmm1
	movaps	%xmm1, 160(%rsp)
	movaps	%xmm0, 144(%rsp)
	leaq	-1(%r13), %rax
	cmpq	$63, %rax
	ja	.LBB42_89
	addq	64(%rsp), %r14
	leaq	304(%rsp), %rbx
	movq	%rbx, %rdi
	movq	%r14, %rsi
	movq	%r13, %rdx
	callq	"sha256::hash"
	xorps	%xmm0, %xmm0
	movaps	%xmm0, 224(%rsp)
	movaps	%xmm0, 208(%rsp)
	movaps	%xmm0, 192(%rsp)
	movaps	%xmm0, 176(%rsp)
	leaq	176(%rsp), %rdi
	movq	%r14, %rsi
	movq	%r13, %rdx
	callq	memcpy@PLT
	movaps	176(%rsp), %xmm0
	movaps	192(%rsp), %xmm1
	movaps	208(%rsp), %xmm2
	movaps	224(%rsp), %xmm3
	movaps	%xmm0, 240(%rsp)
	movaps	%xmm1, 256(%rsp)
	movaps	%xmm2, 272(%rsp)
	movaps	%xmm3, 288(%rsp)
	movups	(%rbx), %xmm0
	movups	16(%rbx), %xmm1
	movaps	%xmm0, 80(%rsp)
	movaps	%xmm1, 96(%rsp)
	movl	80(%rsp), %eax
	cmpl	144(%rsp), %eax
	jne	.LBB42_93
	leaq	80(%rsp), %rdi
	leaq	144(%rsp), %rdx
	movl	$32, %esi
	callq	"core::cmp::slices::groups_equal::<i8,31'core::cmp::numbers::U8PartialEq{}>"
	testb	%al, %al
	jne	.LBB42_89
.LBB42_93:
	movq	16(%rsp), %rax
	movzbl	(%rax), %edx
	movzbl	1(%rax), %ebx
	movl	%ebx, %ecx
	shll	$8, %ecx
	orq	%rdx, %rcx
	leaq	304(%rsp), %rax
	movups	(%rax), %xmm0
	movups	16(%rax), %xmm1
	movaps	%xmm1, 96(%rsp)
	movaps	%xmm0, 80(%rsp)
	movq	%rcx, 24(%rsp)
	je	.LBB42_100
	movq	%rdx, 48(%rsp)
	movl	80(%rsp), %ebp
	movq	%r15, %r14
	movq	%rcx, %r15
	jmp	.LBB42_96
	.p2align	4
.LBB42_95:
	addq	$98, %r14
	decq	%r15
	je	.LBB42_98
.LBB42_96:
	cmpl	%ebp, (%r14)
	jne	.LBB42_95
	leaq	80(%rsp), %rdx
	movl	$32, %esi
	movq	%r14, %rdi
	callq	"core::cmp::slices::groups_equal::<i8,31'core::cmp::numbers::U8PartialEq{}>"
	testb	%al, %al
	je	.LBB42_95
	jmp	.LBB42_88
.LBB42_98:
	testq	%rbx, %rbx
	je	.LBB42_107
	movq	16(%rsp), %rax
	movb	$1, 4(%rax)
	jmp	.LBB42_88
.LBB42_100:
	xorl	%ebp, %ebp
.LBB42_101:
	leaq	168(%rbp), %r14
	imulq	$98, %rcx, %rdx
	addq	$168, %rdx
	movq	16(%rsp), %rbx
	movq	%rbx, %rdi
	movq	%r14, %rsi
	callq	"lookup_in_place::make_gap"
	movaps	240(%rsp), %xmm0
	movaps	256(%rsp), %xmm1
	movaps	272(%rsp), %xmm2
	movaps	288(%rsp), %xmm3
	movaps	%xmm0, 176(%rsp)
	movaps	%xmm1, 192(%rsp)
	movaps	%xmm2, 208(%rsp)
	movaps	%xmm3, 224(%rsp)
	leaq	304(%rsp), %rax
	movups	(%rax), %xmm0
	movups	16(%rax), %xmm1
	movaps	%xmm0, 144(%rsp)
	movaps	%xmm1, 160(%rsp)
	movb	$0, 14(%rsp)
	movb	%r13b, 15(%rsp)
	movq	%rbx, %r15
	movq	40(%rsp), %rbx
	movq	%rbx, %rax
	subq	%r14, %rax
	jbe	.LBB42_102
	cmpq	$2, %rax
	movl	$2, %edx
	cmovbq	%rax, %rdx
	addq	%r15, %r14
	leaq	14(%rsp), %rsi
	movq	%r14, %rdi
	callq	memcpy@PLT
	leaq	170(%rbp), %rdi
	movq	%rbx, %rax
	subq	%rdi, %rax
	ja	.LBB42_105
.LBB42_103:
	addq	$234, %rbp
	movq	%rbx, %rax
	subq	%rbp, %rax
	jbe	.LBB42_87
	jmp	.LBB42_106
.LBB42_102:
	leaq	170(%rbp), %rdi
	movq	%rbx, %rax
	subq	%rdi, %rax
	jbe	.LBB42_103
.LBB42_105:
	cmpq	$64, %rax
	movl	$64, %edx
	cmovbq	%rax, %rdx
	addq	%r15, %rdi
	leaq	176(%rsp), %rsi
	callq	memcpy@PLT
	addq	$234, %rbp
	movq	%rbx, %rax
	subq	%rbp, %rax
	jbe	.LBB42_87
.LBB42_106:
	cmpq	$32, %rax
	movl	$32, %edx
	cmovbq	%rax, %rdx
	addq	%r15, %rbp
	leaq	144(%rsp), %rsi
	movq	%rbp, %rdi
	callq	memcpy@PLT
	jmp	.LBB42_87
.LBB42_107:
	movq	80(%rsp), %rax
	movq	%rax, %rcx
	bswapq	%rcx
	movq	16(%rsp), %rdx
	movq	136(%rdx), %r10
	bswapq	%r10
	movq	88(%rsp), %rsi
	movq	%rsi, %rdi
	bswapq	%rdi
	movq	96(%rsp), %r8
	movq	%r8, %r9
	bswapq	%r9
	movq	104(%rsp), %r11
	movq	%r11, 56(%rsp)
	bswapq	%r11
	imulq	$98, 48(%rsp), %rdx
	imulq	$25088, %rbx, %r14
	addq	%rdx, %r14
	xorl	%ebp, %ebp
	movq	32(%rsp), %rdx
.LBB42_108:
	movq	(%rdx,%rbp), %rbx
	cmpq	%rax, %rbx
	jne	.LBB42_113
	movq	8(%rdx,%rbp), %rbx
	cmpq	%rsi, %rbx
	jne	.LBB42_114
	movq	16(%rdx,%rbp), %rbx
	cmpq	%r8, %rbx
	jne	.LBB42_115
	movq	24(%rdx,%rbp), %rbx
	cmpq	56(%rsp), %rbx
	je	.LBB42_120
	bswapq	%rbx
	movq	16(%rsp), %rdx
	movq	160(%rdx), %rdx
	bswapq	%rdx
	movq	%r11, %r15
	jmp	.LBB42_116
.LBB42_113:
	bswapq	%rbx
	movq	%r10, %rdx
	movq	%rcx, %r15
	jmp	.LBB42_116
.LBB42_114:
	bswapq	%rbx
	movq	16(%rsp), %rdx
	movq	144(%rdx), %rdx
	bswapq	%rdx
	movq	%rdi, %r15
	jmp	.LBB42_116
.LBB42_115:
	bswapq	%rbx
	movq	16(%rsp), %rdx
	movq	152(%rdx), %rdx
	bswapq	%rdx
	movq	%r9, %r15
.LBB42_116:
	xorq	%rdx, %r15
	xorq	%rdx, %rbx
	cmpq	%r15, %rbx
	jae	.LBB42_120
	addq	$98, %rbp
	cmpq	%rbp, %r14
	movq	32(%rsp), %rdx
	jne	.LBB42_108
	movq	24(%rsp), %rcx
	imulq	$98, %rcx, %rbp
	jmp	.LBB42_101
.LBB42_120:
	movq	24(%rsp), %rcx
	jmp	.LBB42_101
.LBB42_121:
	movq	16(%rsp), %r12
.LBB42_122:
	xorps	%xmm0, %xmm0
	movaps	%xmm0, 960(%rsp)
	movaps	%xmm0, 944(%rsp)
	movaps	%xmm0, 928(%rsp)
	movaps	%xmm0, 912(%rsp)
	movaps	%xmm0, 896(%rsp)
	movaps	%xmm0, 880(%rsp)
	movaps	%xmm0, 864(%rsp)
	movaps	%xmm0, 848(%rsp)
	movaps	%xmm0, 832(%rsp)
	movaps	%xmm0, 816(%rsp)
	movaps	%xmm0, 800(%rsp)
	movaps	%xmm0, 784(%rsp)
	leaq	784(%rsp), %rbx
	movq	%rbx, %rdi
	movq	%r12, %rsi
	callq	"lookup_in_place::settle"
	cmpb	$0, 4(%r12)
	setne	4(%r12)
	movw	$0, 5(%r12)
	movb	$0, 7(%r12)
	leaq	416(%rsp), %rdi
	movl	$160, %edx
	movq	%rbx, %rsi
	callq	memcpy@PLT
	movq	944(%rsp), %rax
	movq	%rax, 40(%rsp)
	movzbl	952(%rsp), %r15d
	movzbl	953(%rsp), %ebp
	movzbl	960(%rsp), %r13d
	movq	968(%rsp), %r12
.LBB42_123:
	leaq	1552(%rsp), %rbx
	leaq	416(%rsp), %rsi
	movl	$160, %edx
	movq	%rbx, %rdi
	callq	memcpy@PLT
	leaq	1392(%rsp), %r14
	movl	$160, %edx
	movq	%r14, %rdi
	movq	%rbx, %rsi
	callq	memcpy@PLT
	leaq	784(%rsp), %rdi
	movl	$160, %edx
	movq	%r14, %rsi
	callq	memcpy@PLT
	testb	$1, %r15b
	je	.LBB42_125
	movzbl	%bpl, %eax
	jmp	.LBB42_15
.LBB42_125:
	xorl	%eax, %eax
	movzbl	13(%rsp), %ecx
	movb	%cl, %al
	shll	$12, %eax
	movq	2760(%rsp), %r14
	movq	2752(%rsp), %r15
	addq	%rax, %r15
	movzbl	%r13b, %ebx
	movl	$11, %eax
	btl	%ebx, %eax
	jb	.LBB42_127
	xorl	%r12d, %r12d
.LBB42_127:
	movq	%r12, 1720(%rsp)
	movq	40(%rsp), %rax
	movq	%rax, 1728(%rsp)
	testq	%r14, %r14
	je	.LBB42_130
	cmpq	$2, %r14
	movl	$2, %edx
	cmovbq	%r14, %rdx
	shll	$3, %edx
	leaq	1720(%rsp), %rsi
	movq	%r15, %rdi
	callq	memcpy@PLT
	cmpq	$3, %r14
	jb	.LBB42_130
	addq	$-2, %r14
	cmpq	$20, %r14
	movl	$20, %edx
	cmovbq	%r14, %rdx
	addq	$16, %r15
	shll	$3, %edx
	leaq	784(%rsp), %rsi
	movq	%r15, %rdi
	callq	memcpy@PLT
.LBB42_130:
	leaq	.Lswitch.table.starterbell_lookup_start(%rip), %rax
	movl	(%rax,%rbx,4), %eax
	jmp	.LBB42_15
.LBB42_131:
	xorl	%r8d, %r8d
	jmp	.LBB42_11
.Lfunc_end42:
	.size	starterbell_lookup_reply, .Lfunc_end42-starterbell_lookup_reply
	.section	.rodata.starterbell_lookup_reply,"a",@progbits
	.p2align	2, 0x0
.LJTI42_0:
	.long	.LBB42_64-.LJTI42_0
	.long	.LBB42_66-.LJTI42_0
	.long	.LBB42_71-.LJTI42_0
	.long	.LBB42_85-.LJTI42_0
	.long	.LBB42_85-.LJTI42_0
	.long	.LBB42_68-.LJTI42_0

	.section	.text.starterbell_lookup_start,"ax",@progbits
	.globl	starterbell_lookup_start
	.p2align	4
	.type	starterbell_lookup_start,@function
starterbell_lookup_start:
	pushq	%rbp
	pushq	%r15
	pushq	%r14
	pushq	%r13
	pushq	%r12
	pushq	%rbx
	subq	$760, %rsp
	movq	816(%rsp), %r14
	xorl	%r11d, %r11d
	testq	%rdx, %rdx
	sete	%bl
	xorl	%r10d, %r10d
	testq	%r8, %r8
	sete	%bpl
	xorl	%r12d, %r12d
	testq	%r14, %r14
	sete	%r15b
	cmpq	$0, 840(%rsp)
	sete	%r13b
	xorl	%eax, %eax
	cmpq	$616, %rsi
	jb	.LBB43_18
	movb	%r13b, 39(%rsp)
	xorl	%eax, %eax
	testq	%rdi, %rdi
	sete	%al
	shll	$12, %eax
	movzbl	2(%rdi,%rax), %r13d
	movups	8(%rdi,%rax), %xmm0
	movups	24(%rdi,%rax), %xmm1
	movaps	%xmm1, 736(%rsp)
	movaps	%xmm0, 720(%rsp)
	xorps	%xmm0, %xmm0
	movaps	%xmm0, 704(%rsp)
	movaps	%xmm0, 688(%rsp)
	movaps	%xmm0, 672(%rsp)
	movaps	%xmm0, 656(%rsp)
	movaps	%xmm0, 640(%rsp)
	movaps	%xmm0, 624(%rsp)
	movaps	%xmm0, 608(%rsp)
	movaps	%xmm0, 592(%rsp)
	movaps	%xmm0, 576(%rsp)
	movaps	%xmm0, 560(%rsp)
	movaps	%xmm0, 544(%rsp)
	movaps	%xmm0, 528(%rsp)
	xorl	%eax, %eax
	cmpq	$25256, %rcx
	jb	.LBB43_18
	movb	%bl, %r11b
	shll	$12, %r11d
	addq	%r11, %rdx
	movq	%rdx, 40(%rsp)
	movb	%bpl, %r10b
	shll	$12, %r10d
	addq	%r10, %r8
	leaq	720(%rsp), %rdx
	movq	%r8, 520(%rsp)
	movq	%r8, %rdi
	movq	%r9, 512(%rsp)
	movq	%r9, %rsi
	callq	"contact_form::in_form"
	testb	%al, %al
	je	.LBB43_3
	movq	824(%rsp), %rbp
	leaq	-1(%rbp), %rax
	cmpq	$128, %rax
	jae	.LBB43_5
	decb	%r13b
	cmpb	$64, %r13b
	movq	40(%rsp), %rdi
	jae	.LBB43_7
	movq	832(%rsp), %rax
	decq	%rax
	cmpq	$10, %rax
	jae	.LBB43_9
	movb	%r15b, %r12b
	shll	$12, %r12d
	addq	%r12, %r14
	xorps	%xmm0, %xmm0
	movaps	%xmm0, 208(%rsp)
	movaps	%xmm0, 224(%rsp)
	movaps	%xmm0, 240(%rsp)
	movaps	%xmm0, 256(%rsp)
	movaps	%xmm0, 272(%rsp)
	movaps	%xmm0, 288(%rsp)
	movaps	%xmm0, 304(%rsp)
	movaps	%xmm0, 320(%rsp)
	movaps	%xmm0, 336(%rsp)
	movaps	%xmm0, 352(%rsp)
	movq	$0, 368(%rsp)
	leaq	384(%rsp), %rbx
	movq	%rdi, %r12
	movq	%rbx, %rdi
	movq	%r14, %rsi
	movq	%rbp, %rdx
	callq	"sha256::hash"
	leaq	208(%rsp), %rdi
	movq	520(%rsp), %r13
	movq	%r13, %rsi
	movq	512(%rsp), %r15
	movq	%r15, %rdx
	movq	%rbx, %rcx
	callq	"contacts::nearest"
	movq	368(%rsp), %rbx
	xorps	%xmm0, %xmm0
	movaps	%xmm0, 80(%rsp)
	movaps	%xmm0, 96(%rsp)
	movaps	%xmm0, 112(%rsp)
	movaps	%xmm0, 128(%rsp)
	movaps	%xmm0, 144(%rsp)
	movaps	%xmm0, 160(%rsp)
	movaps	%xmm0, 176(%rsp)
	movaps	%xmm0, 192(%rsp)
	leaq	80(%rsp), %rdi
	movq	%r14, %rsi
	movq	%rbp, %rdx
	callq	memcpy@PLT
	movq	%rbx, 16(%rsp)
	leaq	208(%rsp), %rax
	movq	%rax, 8(%rsp)
	movq	%r15, (%rsp)
	movq	%r12, %rdi
	leaq	80(%rsp), %rsi
	leaq	384(%rsp), %rdx
	movq	%rbp, %rcx
	movq	832(%rsp), %r8
	movq	%r13, %r9
	callq	"lookup_in_place::put_lookup"
	leaq	528(%rsp), %r14
	movq	%r14, %rdi
	movq	%r12, %rsi
	callq	"lookup_in_place::settle"
	leaq	208(%rsp), %rdi
	movl	$160, %edx
	movq	%r14, %rsi
	callq	memcpy@PLT
	testb	$1, 696(%rsp)
	je	.LBB43_12
	movzbl	697(%rsp), %eax
	jmp	.LBB43_18
.LBB43_3:
	xorps	%xmm0, %xmm0
	movaps	%xmm0, 208(%rsp)
	movaps	%xmm0, 224(%rsp)
	movaps	%xmm0, 240(%rsp)
	movaps	%xmm0, 256(%rsp)
	movaps	%xmm0, 272(%rsp)
	movaps	%xmm0, 288(%rsp)
	movaps	%xmm0, 304(%rsp)
	movaps	%xmm0, 320(%rsp)
	movaps	%xmm0, 336(%rsp)
	movaps	%xmm0, 352(%rsp)
	movaps	%xmm0, 80(%rsp)
	movaps	%xmm0, 96(%rsp)
	movaps	%xmm0, 112(%rsp)
	movaps	%xmm0, 128(%rsp)
	movaps	%xmm0, 144(%rsp)
	movaps	%xmm0, 160(%rsp)
	movaps	%xmm0, 176(%rsp)
	movaps	%xmm0, 192(%rsp)
	movaps	%xmm0, 64(%rsp)
	movaps	%xmm0, 48(%rsp)
	movaps	%xmm0, 496(%rsp)
	movaps	%xmm0, 480(%rsp)
	movaps	%xmm0, 464(%rsp)
	movaps	%xmm0, 448(%rsp)
	movaps	%xmm0, 432(%rsp)
	movaps	%xmm0, 416(%rsp)
	movaps	%xmm0, 400(%rsp)
	movaps	%xmm0, 384(%rsp)
	leaq	208(%rsp), %rax
	movq	%rax, 8(%rsp)
	movq	$0, 16(%rsp)
	movq	$128, (%rsp)
	leaq	384(%rsp), %rsi
	leaq	48(%rsp), %rdx
	leaq	80(%rsp), %r9
	movq	40(%rsp), %rdi
	xorl	%ecx, %ecx
	xorl	%r8d, %r8d
	callq	"lookup_in_place::put_lookup"
	xorl	%eax, %eax
	jmp	.LBB43_18
.LBB43_5:
	xorps	%xmm0, %xmm0
	movaps	%xmm0, 208(%rsp)
	movaps	%xmm0, 224(%rsp)
	movaps	%xmm0, 240(%rsp)
	movaps	%xmm0, 256(%rsp)
	movaps	%xmm0, 272(%rsp)
	movaps	%xmm0, 288(%rsp)
	movaps	%xmm0, 304(%rsp)
	movaps	%xmm0, 320(%rsp)
	movaps	%xmm0, 336(%rsp)
	movaps	%xmm0, 352(%rsp)
	movaps	%xmm0, 80(%rsp)
	movaps	%xmm0, 96(%rsp)
	movaps	%xmm0, 112(%rsp)
	movaps	%xmm0, 128(%rsp)
	movaps	%xmm0, 144(%rsp)
	movaps	%xmm0, 160(%rsp)
	movaps	%xmm0, 176(%rsp)
	movaps	%xmm0, 192(%rsp)
	movaps	%xmm0, 64(%rsp)
	movaps	%xmm0, 48(%rsp)
	movaps	%xmm0, 496(%rsp)
	movaps	%xmm0, 480(%rsp)
	movaps	%xmm0, 464(%rsp)
	movaps	%xmm0, 448(%rsp)
	movaps	%xmm0, 432(%rsp)
	movaps	%xmm0, 416(%rsp)
	movaps	%xmm0, 400(%rsp)
	movaps	%xmm0, 384(%rsp)
	leaq	208(%rsp), %rax
	movq	%rax, 8(%rsp)
	movq	$0, 16(%rsp)
	movq	$128, (%rsp)
	leaq	384(%rsp), %rsi
	leaq	48(%rsp), %rdx
	leaq	80(%rsp), %r9
	movq	40(%rsp), %rdi
	xorl	%ecx, %ecx
	xorl	%r8d, %r8d
	callq	"lookup_in_place::put_lookup"
	movl	$8, %eax
	jmp	.LBB43_18
.LBB43_7:
	xorps	%xmm0, %xmm0
	movaps	%xmm0, 208(%rsp)
	movaps	%xmm0, 224(%rsp)
	movaps	%xmm0, 240(%rsp)
	movaps	%xmm0, 256(%rsp)
	movaps	%xmm0, 272(%rsp)
	movaps	%xmm0, 288(%rsp)
	movaps	%xmm0, 304(%rsp)
	movaps	%xmm0, 320(%rsp)
	movaps	%xmm0, 336(%rsp)
	movaps	%xmm0, 352(%rsp)
	movaps	%xmm0, 80(%rsp)
	movaps	%xmm0, 96(%rsp)
	movaps	%xmm0, 112(%rsp)
	movaps	%xmm0, 128(%rsp)
	movaps	%xmm0, 144(%rsp)
	movaps	%xmm0, 160(%rsp)
	movaps	%xmm0, 176(%rsp)
	movaps	%xmm0, 192(%rsp)
	movaps	%xmm0, 64(%rsp)
	movaps	%xmm0, 48(%rsp)
	movaps	%xmm0, 496(%rsp)
	movaps	%xmm0, 480(%rsp)
	movaps	%xmm0, 464(%rsp)
	movaps	%xmm0, 448(%rsp)
	movaps	%xmm0, 432(%rsp)
	movaps	%xmm0, 416(%rsp)
	movaps	%xmm0, 400(%rsp)
	movaps	%xmm0, 384(%rsp)
	leaq	208(%rsp), %rax
	movq	%rax, 8(%rsp)
	movq	$0, 16(%rsp)
	movq	$128, (%rsp)
	leaq	384(%rsp), %rsi
	leaq	48(%rsp), %rdx
	leaq	80(%rsp), %r9
	xorl	%ecx, %ecx
	xorl	%r8d, %r8d
	callq	"lookup_in_place::put_lookup"
	movl	$12, %eax
	jmp	.LBB43_18
.LBB43_9:
	xorps	%xmm0, %xmm0
	movaps	%xmm0, 208(%rsp)
	movaps	%xmm0, 224(%rsp)
	movaps	%xmm0, 240(%rsp)
	movaps	%xmm0, 256(%rsp)
	movaps	%xmm0, 272(%rsp)
	movaps	%xmm0, 288(%rsp)
	movaps	%xmm0, 304(%rsp)
	movaps	%xmm0, 320(%rsp)
	movaps	%xmm0, 336(%rsp)
	movaps	%xmm0, 352(%rsp)
	movaps	%xmm0, 80(%rsp)
	movaps	%xmm0, 96(%rsp)
	movaps	%xmm0, 112(%rsp)
	movaps	%xmm0, 128(%rsp)
	movaps	%xmm0, 144(%rsp)
	movaps	%xmm0, 160(%rsp)
	movaps	%xmm0, 176(%rsp)
	movaps	%xmm0, 192(%rsp)
	movaps	%xmm0, 64(%rsp)
	movaps	%xmm0, 48(%rsp)
	movaps	%xmm0, 496(%rsp)
	movaps	%xmm0, 480(%rsp)
	movaps	%xmm0, 464(%rsp)
	movaps	%xmm0, 448(%rsp)
	movaps	%xmm0, 432(%rsp)
	movaps	%xmm0, 416(%rsp)
	movaps	%xmm0, 400(%rsp)
	movaps	%xmm0, 384(%rsp)
	leaq	208(%rsp), %rax
	movq	%rax, 8(%rsp)
	movq	$0, 16(%rsp)
	movq	$128, (%rsp)
	leaq	384(%rsp), %rsi
	leaq	48(%rsp), %rdx
	leaq	80(%rsp), %r9
	xorl	%ecx, %ecx
	xorl	%r8d, %r8d
	callq	"lookup_in_place::put_lookup"
	movl	$20, %eax
	jmp	.LBB43_18
.LBB43_12:
	movq	848(%rsp), %r15
	xorl	%eax, %eax
	movzbl	39(%rsp), %ecx
	movb	%cl, %al
	shll	$12, %eax
	movq	840(%rsp), %rbx
	addq	%rax, %rbx
	movq	688(%rsp), %rax
	movq	712(%rsp), %rcx
	movzbl	704(%rsp), %r14d
	movl	$11, %edx
	btl	%r14d, %edx
	jb	.LBB43_14
	xorl	%ecx, %ecx
.LBB43_14:
	movq	%rcx, 528(%rsp)
	movq	%rax, 536(%rsp)
	testq	%r15, %r15
	je	.LBB43_17
	cmpq	$2, %r15
	movl	$2, %edx
	cmovbq	%r15, %rdx
	shll	$3, %edx
	leaq	528(%rsp), %rsi
	movq	%rbx, %rdi
	callq	memcpy@PLT
	cmpq	$3, %r15
	jb	.LBB43_17
	addq	$-2, %r15
	cmpq	$20, %r15
	movl	$20, %edx
	cmovbq	%r15, %rdx
	addq	$16, %rbx
	shll	$3, %edx
	leaq	208(%rsp), %rsi
	movq	%rbx, %rdi
	callq	memcpy@PLT
.LBB43_17:
	leaq	.Lswitch.table.starterbell_lookup_start(%rip), %rax
	movl	(%rax,%r14,4), %eax
.LBB43_18:
	addq	$760, %rsp
	popq	%rbx
	popq	%r12
	popq	%r13
	popq	%r14
	popq	%r15
	popq	%rbp
	retq
.Lfunc_end43:
	.size	starterbell_lookup_start, .Lfunc_end43-starterbell_lookup_start

	.section	.text.starterbell_nearest,"ax",@progbits
	.globl	starterbell_nearest
	.p2align	4
	.type	starterbell_nearest,@function
starterbell_nearest:
	pushq	%rbp
	pushq	%r15
	pushq	%r14
	pushq	%r13
	pushq	%r12
	pushq	%rbx
	subq	$1448, %rsp
	movq	%rcx, %r13
	movq	%rdx, %r15
	xorl	%ecx, %ecx
	testq	%rdx, %rdx
	sete	%dl
	testq	%r8, %r8
	sete	%r11b
	cmpq	$0, 1504(%rsp)
	sete	%r10b
	xorl	%eax, %eax
	cmpq	$616, %rsi
	jb	.LBB44_7
	movb	%r11b, 15(%rsp)
	movb	%r10b, 14(%rsp)
	movq	%r8, 16(%rsp)
	movb	%dl, %cl
	shll	$12, %ecx
	addq	%rcx, %r15
	xorl	%ebp, %ebp
	testq	%rdi, %rdi
	sete	%bpl
	shll	$12, %ebp
	leaq	(%rdi,%rbp), %rsi
	addq	$104, %rsi
	leaq	32(%rsp), %rax
	movl	$512, %edx
	movq	%rdi, %r14
	movq	%rax, %rdi
	movq	%r9, 24(%rsp)
	callq	memcpy@PLT
	movups	40(%r14,%rbp), %xmm0
	movups	56(%r14,%rbp), %xmm1
	movups	72(%r14,%rbp), %xmm2
	movups	88(%r14,%rbp), %xmm3
	movups	%xmm3, 592(%rsp)
	movups	%xmm2, 576(%rsp)
	movups	%xmm1, 560(%rsp)
	movups	%xmm0, 544(%rsp)
	movups	8(%r14,%rbp), %xmm0
	movups	24(%r14,%rbp), %xmm1
	movups	%xmm1, 624(%rsp)
	movups	%xmm0, 608(%rsp)
	movl	4(%r14,%rbp), %ebx
	movzbl	2(%r14,%rbp), %r12d
	movzbl	3(%r14,%rbp), %ebp
	leaq	834(%rsp), %rdi
	movl	$608, %edx
	leaq	32(%rsp), %rsi
	callq	memcpy@PLT
	movl	%ebx, 1442(%rsp)
	movq	%r13, %rbx
	movb	%r12b, 1446(%rsp)
	movb	%bpl, 1447(%rsp)
	xorps	%xmm0, %xmm0
	movaps	%xmm0, 32(%rsp)
	movaps	%xmm0, 48(%rsp)
	movaps	%xmm0, 64(%rsp)
	movaps	%xmm0, 80(%rsp)
	movaps	%xmm0, 96(%rsp)
	movaps	%xmm0, 112(%rsp)
	movaps	%xmm0, 128(%rsp)
	movaps	%xmm0, 144(%rsp)
	movaps	%xmm0, 160(%rsp)
	movaps	%xmm0, 176(%rsp)
	movq	$0, 192(%rsp)
	leaq	1410(%rsp), %rdx
	movq	%r15, %rdi
	movq	%r13, %rsi
	callq	"contact_form::in_form"
	movq	24(%rsp), %rdx
	movl	%eax, %ecx
	xorl	%eax, %eax
	testb	%cl, %cl
	je	.LBB44_7
	leaq	-129(%rdx), %rcx
	movl	$8, %eax
	cmpq	$-128, %rcx
	jb	.LBB44_7
	decb	%r12b
	movl	$12, %eax
	cmpb	$63, %r12b
	ja	.LBB44_7
	movq	1512(%rsp), %r13
	xorl	%eax, %eax
	movzbl	15(%rsp), %ecx
	movb	%cl, %al
	shll	$12, %eax
	movq	16(%rsp), %rsi
	addq	%rax, %rsi
	leaq	640(%rsp), %rbp
	movq	%rbp, %rdi
	callq	"sha256::hash"
	leaq	32(%rsp), %r12
	movq	%r12, %rdi
	movq	%r15, %rsi
	movq	%rbx, %rdx
	movq	%rbp, %rcx
	callq	"contacts::nearest"
	leaq	672(%rsp), %rdi
	movl	$160, %edx
	movq	%r12, %rsi
	callq	memcpy@PLT
	movl	$64, %eax
	testq	%r13, %r13
	je	.LBB44_7
	xorl	%ecx, %ecx
	movzbl	14(%rsp), %edx
	movb	%dl, %cl
	shll	$12, %ecx
	movq	1504(%rsp), %rdi
	addq	%rcx, %rdi
	movq	192(%rsp), %rcx
	movq	%rcx, (%rdi)
	cmpq	$1, %r13
	je	.LBB44_7
	decq	%r13
	cmpq	$20, %r13
	movl	$20, %edx
	cmovbq	%r13, %rdx
	addq	$8, %rdi
	shll	$3, %edx
	leaq	672(%rsp), %rsi
	callq	memcpy@PLT
	movl	$64, %eax
.LBB44_7:
	addq	$1448, %rsp
	popq	%rbx
	popq	%r12
	popq	%r13
	popq	%r14
	popq	%r15
	popq	%rbp
	retq
.Lfunc_end44:
	.size	starterbell_nearest, .Lfunc_end44-starterbell_nearest

	.section	.text.starterbell_open,"ax",@progbits
	.globl	starterbell_open
	.p2align	4
	.type	starterbell_open,@function
starterbell_open:
	pushq	%rbp
	pushq	%r15
	pushq	%r14
	pushq	%r13
	pushq	%r12
	pushq	%rbx
	subq	$1912, %rsp
	movq	%rdx, %rbx
	movq	1984(%rsp), %r12
	xorl	%r10d, %r10d
	testq	%rdx, %rdx
	sete	%r11b
	xorl	%eax, %eax
	testq	%r8, %r8
	sete	%dl
	xorl	%r13d, %r13d
	testq	%r12, %r12
	sete	%r14b
	cmpq	$616, %rsi
	setb	%sil
	cmpq	$640, %rcx
	setb	%cl
	xorl	%ebp, %ebp
	orb	%sil, %cl
	jne	.LBB45_15
	movb	%r11b, %r10b
	shll	$12, %r10d
	addq	%r10, %rbx
	xorl	%ecx, %ecx
	testq	%rdi, %rdi
	sete	%cl
	shll	$12, %ecx
	movups	8(%rdi,%rcx), %xmm0
	movups	24(%rdi,%rcx), %xmm1
	movups	%xmm1, 1896(%rsp)
	movups	%xmm0, 1880(%rsp)
	movzbl	2(%rdi,%rcx), %ecx
	decb	%cl
	cmpb	$64, %cl
	jae	.LBB45_2
	leaq	-1(%r9), %rcx
	cmpq	$64, %rcx
	jae	.LBB45_2
	movb	%dl, %al
	shll	$12, %eax
	addq	%rax, %r8
	leaq	1880(%rsp), %rbp
	leaq	16(%rsp), %rdi
	movq	%r8, %r15
	movq	%r8, %rsi
	movq	%r9, 8(%rsp)
	movq	%r9, %rdx
	callq	"sha256::hash"
	movups	16(%rsp), %xmm0
	movups	32(%rsp), %xmm1
	movaps	%xmm1, 160(%rsp)
	movaps	%xmm0, 144(%rsp)
	movups	(%rbp), %xmm0
	movups	16(%rbp), %xmm1
	movaps	%xmm0, 112(%rsp)
	movaps	%xmm1, 128(%rsp)
	movl	144(%rsp), %eax
	cmpl	112(%rsp), %eax
	jne	.LBB45_6
	leaq	144(%rsp), %rdi
	leaq	112(%rsp), %rdx
	movl	$32, %esi
	callq	"core::cmp::slices::groups_equal::<i8,31'core::cmp::numbers::U8PartialEq{}>"
	testb	%al, %al
	je	.LBB45_6
.LBB45_2:
	leaq	184(%rsp), %rdi
	xorl	%r15d, %r15d
	movl	$608, %edx
	xorl	%esi, %esi
	callq	memset@PLT
	movl	$12, %ebp
	xorl	%eax, %eax
	xorl	%r13d, %r13d
	xorl	%r14d, %r14d
.LBB45_14:
	movw	$1, (%rbx)
	movb	%al, 2(%rbx)
	movb	%r13b, 3(%rbx)
	movl	%r15d, 4(%rbx)
	movups	760(%rsp), %xmm0
	movups	776(%rsp), %xmm1
	movups	%xmm0, 8(%rbx)
	movups	%xmm1, 24(%rbx)
	movups	696(%rsp), %xmm0
	movups	712(%rsp), %xmm1
	movups	728(%rsp), %xmm2
	movups	744(%rsp), %xmm3
	movups	%xmm0, 40(%rbx)
	movups	%xmm1, 56(%rbx)
	movups	%xmm2, 72(%rbx)
	movups	%xmm3, 88(%rbx)
	leaq	104(%rbx), %rdi
	leaq	184(%rsp), %rsi
	movl	$512, %edx
	callq	memcpy@PLT
	cmpl	$0, 1968(%rsp)
	setne	616(%rbx)
	cmpl	$0, 1976(%rsp)
	setne	617(%rbx)
	movq	%r14, 618(%rbx)
	movq	$0, 626(%rbx)
	movq	$0, 632(%rbx)
.LBB45_15:
	movl	%ebp, %eax
	addq	$1912, %rsp
	popq	%rbx
	popq	%r12
	popq	%r13
	popq	%r14
	popq	%r15
	popq	%rbp
	retq
.LBB45_6:
	movq	1992(%rsp), %rbp
	movb	%r14b, %r13b
	shll	$12, %r13d
	addq	%r13, %r12
	xorps	%xmm0, %xmm0
	movaps	%xmm0, 48(%rsp)
	movaps	%xmm0, 64(%rsp)
	movaps	%xmm0, 80(%rsp)
	movaps	%xmm0, 96(%rsp)
	leaq	48(%rsp), %rdi
	movq	%r15, %rsi
	movq	8(%rsp), %rdx
	callq	memcpy@PLT
	leaq	792(%rsp), %rdi
	xorl	%r13d, %r13d
	movl	$512, %edx
	xorl	%esi, %esi
	callq	memset@PLT
	movl	$0, 4(%rsp)
	xorl	%esi, %esi
	jmp	.LBB45_7
	.p2align	4
.LBB45_12:
	movq	%r14, %rsi
	cmpq	$4, %r13
	jae	.LBB45_13
.LBB45_7:
	movq	%rbp, %rax
	subq	%rsi, %rax
	cmpq	$2, %rax
	jb	.LBB45_13
	movzwl	(%r12,%rsi), %r15d
	addq	$-2, %rax
	cmpq	%r15, %rax
	jb	.LBB45_13
	leaq	(%rsi,%r15), %r14
	addq	$2, %r14
	je	.LBB45_13
	leal	-1(%r15), %eax
	cmpw	$127, %ax
	ja	.LBB45_12
	addq	%r12, %rsi
	movq	%r13, %rax
	shlq	$7, %rax
	addq	$2, %rsi
	leaq	(%rsp,%rax), %rdi
	addq	$792, %rdi
	movq	%r15, %rdx
	callq	memcpy@PLT
	movb	%r15b, 4(%rsp,%r13)
	incq	%r13
	jmp	.LBB45_12
.LBB45_13:
	movl	4(%rsp), %r15d
	leaq	184(%rsp), %rdi
	leaq	792(%rsp), %rsi
	movl	$512, %edx
	callq	memcpy@PLT
	movaps	48(%rsp), %xmm0
	movaps	64(%rsp), %xmm1
	movaps	80(%rsp), %xmm2
	movaps	96(%rsp), %xmm3
	movups	%xmm0, 696(%rsp)
	movups	%xmm1, 712(%rsp)
	movups	%xmm2, 728(%rsp)
	movups	%xmm3, 744(%rsp)
	movups	16(%rsp), %xmm0
	movups	32(%rsp), %xmm1
	movups	%xmm0, 760(%rsp)
	movups	%xmm1, 776(%rsp)
	movl	$64, %ebp
	movl	$1, %r14d
	movq	8(%rsp), %rax
	jmp	.LBB45_14
.Lfunc_end45:
	.size	starterbell_open, .Lfunc_end45-starterbell_open

	.section	.text.starterbell_peer,"ax",@progbits
	.globl	starterbell_peer
	.p2align	4
	.type	starterbell_peer,@function
starterbell_peer:
	pushq	%rbp
	pushq	%r15
	pushq	%r14
	pushq	%r13
	pushq	%r12
	pushq	%rbx
	subq	$328, %rsp
	movq	%r9, %r13
	movq	%r8, %rbx
	movq	%rsi, %r15
	xorl	%r12d, %r12d
	testq	%rdi, %rdi
	sete	%r12b
	shll	$12, %r12d
	addq	%rdi, %r12
	xorl	%r14d, %r14d
	testq	%r8, %r8
	sete	%bpl
	testl	%edx, %edx
	je	.LBB46_8
	.p2align	4
.LBB46_1:
	movq	%rsp, %rdi
	movq	%r12, %rsi
	movq	%r15, %rdx
	callq	"wire::read_field"
	movzbl	(%rsp), %eax
	movzbl	%al, %ecx
	leal	-2(%rcx), %edx
	cmpl	$2, %edx
	jae	.LBB46_2
	movq	24(%rsp), %rcx
	cmpb	$3, %al
	jne	.LBB46_1
	cmpq	$9, 8(%rsp)
	jne	.LBB46_1
	jmp	.LBB46_6
	.p2align	4
.LBB46_2:
	cmpl	$4, %ecx
	jne	.LBB46_7
	movq	8(%rsp), %rcx
	jmp	.LBB46_1
	.p2align	4
.LBB46_9:
	cmpl	$4, %ecx
	jne	.LBB46_13
	movq	8(%rsp), %rcx
.LBB46_8:
	movq	%rsp, %rdi
	movq	%r12, %rsi
	movq	%r15, %rdx
	callq	"wire::read_field"
	movzbl	(%rsp), %eax
	movzbl	%al, %ecx
	leal	-2(%rcx), %edx
	cmpl	$2, %edx
	jae	.LBB46_9
	movq	24(%rsp), %rcx
	cmpb	$3, %al
	jne	.LBB46_8
	cmpq	$8, 8(%rsp)
	jne	.LBB46_8
.LBB46_6:
	movb	$1, %dl
	movq	16(%rsp), %rsi
	movl	$65, %eax
	testb	%dl, %dl
	jne	.LBB46_15
	jmp	.LBB46_33
.LBB46_7:
	xorl	%edx, %edx
	xorl	%esi, %esi
	xorl	%ecx, %ecx
	movl	$65, %eax
	testb	%dl, %dl
	jne	.LBB46_15
	jmp	.LBB46_33
.LBB46_13:
	xorl	%esi, %esi
	xorl	%ecx, %ecx
	xorl	%edx, %edx
	movl	$65, %eax
	testb	%dl, %dl
	je	.LBB46_33
.LBB46_15:
	movq	%r13, 176(%rsp)
	movb	%bpl, %r14b
	shll	$12, %r14d
	addq	%r14, %rbx
	movq	%rbx, 160(%rsp)
	cmpq	%rcx, %r15
	movq	%rcx, 184(%rsp)
	cmovaeq	%rcx, %r15
	xorps	%xmm0, %xmm0
	movaps	%xmm0, (%rsp)
	movaps	%xmm0, 16(%rsp)
	movaps	%xmm0, 32(%rsp)
	movaps	%xmm0, 48(%rsp)
	movaps	%xmm0, 64(%rsp)
	movaps	%xmm0, 80(%rsp)
	movaps	%xmm0, 96(%rsp)
	movaps	%xmm0, 112(%rsp)
	xorl	%edx, %edx
	movq	%rsi, 168(%rsp)
	movq	%rsi, %rcx
	xorl	%ebx, %ebx
	xorl	%ebp, %ebp
	xorl	%r14d, %r14d
.LBB46_16:
	movq	%rdx, %r13
.LBB46_17:
	movq	%rbp, %rsi
	movq	%r14, %rax
	.p2align	4
.LBB46_18:
	movq	%rax, %r14
	movq	%rsi, %rbp
	leaq	128(%rsp), %rdi
	movq	%r12, %rsi
	movq	%r15, %rdx
	callq	"wire::read_field"
	movzbl	128(%rsp), %eax
	cmpl	$3, %eax
	jne	.LBB46_19
	movq	136(%rsp), %rdx
	movq	144(%rsp), %rax
	movq	152(%rsp), %rcx
	movq	%rcx, %rsi
	cmpq	$1, %rdx
	je	.LBB46_18
	cmpq	$2, %rdx
	jne	.LBB46_17
	jmp	.LBB46_22
	.p2align	4
.LBB46_19:
	movl	%eax, %eax
	leaq	.LJTI46_0(%rip), %rcx
	movslq	(%rcx,%rax,4), %rax
	addq	%rcx, %rax
	jmpq	*%rax
.LBB46_24:
	cmpq	$3, 136(%rsp)
	jne	.LBB46_26
	movq	144(%rsp), %rbx
.LBB46_26:
	movq	152(%rsp), %rcx
	jmp	.LBB46_17
.LBB46_27:
	movq	136(%rsp), %rcx
	jmp	.LBB46_17
	.p2align	4
.LBB46_22:
	leaq	1(%r13), %rdx
	cmpq	$7, %r13
	ja	.LBB46_16
	shlq	$4, %r13
	movq	%rax, (%rsp,%r13)
	movq	%rcx, 8(%rsp,%r13)
	jmp	.LBB46_16
.LBB46_29:
	xorl	%eax, %eax
	cmpq	$4, %rbx
	cmovbq	%rbx, %rax
	movaps	112(%rsp), %xmm0
	movaps	%xmm0, 304(%rsp)
	movaps	96(%rsp), %xmm0
	movaps	%xmm0, 288(%rsp)
	movaps	80(%rsp), %xmm0
	movaps	%xmm0, 272(%rsp)
	movaps	64(%rsp), %xmm0
	movaps	%xmm0, 256(%rsp)
	movaps	(%rsp), %xmm0
	movaps	16(%rsp), %xmm1
	movaps	32(%rsp), %xmm2
	movaps	48(%rsp), %xmm3
	movaps	%xmm3, 240(%rsp)
	movaps	%xmm2, 224(%rsp)
	movaps	%xmm1, 208(%rsp)
	movaps	%xmm0, 192(%rsp)
	movq	168(%rsp), %rcx
	movq	%rcx, (%rsp)
	movq	184(%rsp), %rcx
	movq	%rcx, 8(%rsp)
	movq	%r14, 16(%rsp)
	movq	%rbp, 24(%rsp)
	movq	%rax, 32(%rsp)
	movq	%r13, 40(%rsp)
	movl	$64, %eax
	movq	176(%rsp), %r14
	testq	%r14, %r14
	je	.LBB46_33
	cmpq	$6, %r14
	movl	$6, %edx
	cmovbq	%r14, %rdx
	shll	$3, %edx
	movq	%rsp, %rsi
	movq	160(%rsp), %rbx
	movq	%rbx, %rdi
	callq	memcpy@PLT
	cmpq	$7, %r14
	jb	.LBB46_32
	addq	$-6, %r14
	cmpq	$16, %r14
	movl	$16, %edx
	cmovbq	%r14, %rdx
	addq	$48, %rbx
	shll	$3, %edx
	leaq	192(%rsp), %rsi
	movq	%rbx, %rdi
	callq	memcpy@PLT
.LBB46_32:
	movl	$64, %eax
.LBB46_33:
	addq	$328, %rsp
	popq	%rbx
	popq	%r12
	popq	%r13
	popq	%r14
	popq	%r15
	popq	%rbp
	retq
.LBB46_28:
	ud2
.Lfunc_end46:
	.size	starterbell_peer, .Lfunc_end46-starterbell_peer
	.section	.rodata.starterbell_peer,"a",@progbits
	.p2align	2, 0x0
.LJTI46_0:
	.long	.LBB46_29-.LJTI46_0
	.long	.LBB46_29-.LJTI46_0
	.long	.LBB46_24-.LJTI46_0
	.long	.LBB46_28-.LJTI46_0
	.long	.LBB46_27-.LJTI46_0

	.section	.text.starterbell_peer_address,"ax",@progbits
	.globl	starterbell_peer_address
	.p2align	4
	.type	starterbell_peer_address,@function
starterbell_peer_address:
	pushq	%r15
	pushq	%r14
	pushq	%r12
	pushq	%rbx
	subq	$40, %rsp
	movq	%rcx, %r14
	xorl	%r15d, %r15d
	testq	%rdi, %rdi
	sete	%r15b
	shll	$12, %r15d
	addq	%rdi, %r15
	xorl	%ebx, %ebx
	testq	%r9, %r9
	sete	%bl
	shll	$12, %ebx
	addq	%r9, %rbx
	cmpq	%r8, %rdx
	cmovaq	%rdx, %r8
	movq	80(%rsp), %r12
	cmpq	%rcx, %rsi
	cmovbq	%rsi, %r14
	.p2align	4
.LBB47_1:
	leaq	8(%rsp), %rdi
	movq	%r15, %rsi
	movq	%r14, %rdx
	movq	%r8, %rcx
	callq	"wire::read_field"
	movzbl	8(%rsp), %eax
	movzbl	%al, %ecx
	leal	-2(%rcx), %edx
	cmpl	$2, %edx
	jae	.LBB47_2
	movq	32(%rsp), %r8
	cmpb	$3, %al
	jne	.LBB47_1
	cmpq	$2, 16(%rsp)
	jne	.LBB47_1
	jmp	.LBB47_6
	.p2align	4
.LBB47_2:
	cmpl	$4, %ecx
	jne	.LBB47_9
	movq	16(%rsp), %r8
	jmp	.LBB47_1
.LBB47_9:
	movl	$65, %eax
	jmp	.LBB47_8
.LBB47_6:
	movq	24(%rsp), %rax
	movq	%rax, 8(%rsp)
	movq	%r8, 16(%rsp)
	movl	$64, %eax
	testq	%r12, %r12
	je	.LBB47_8
	cmpq	$2, %r12
	movl	$2, %edx
	cmovbq	%r12, %rdx
	shll	$3, %edx
	leaq	8(%rsp), %rsi
	movq	%rbx, %rdi
	callq	memcpy@PLT
	movl	$64, %eax
.LBB47_8:
	addq	$40, %rsp
	popq	%rbx
	popq	%r12
	popq	%r14
	popq	%r15
	retq
.Lfunc_end47:
	.size	starterbell_peer_address, .Lfunc_end47-starterbell_peer_address

	.section	.text.starterbell_put,"ax",@progbits
	.globl	starterbell_put
	.p2align	4
	.type	starterbell_put,@function
starterbell_put:
	pushq	%rbp
	pushq	%r15
	pushq	%r14
	pushq	%r13
	pushq	%r12
	pushq	%rbx
	pushq	%rax
	movq	%r9, %rbx
	movq	%r8, %rbp
	movq	%rcx, %r14
	movq	%rdx, %r12
	movq	%rsi, %r15
	xorl	%r13d, %r13d
	testq	%rdi, %rdi
	sete	%r13b
	shll	$12, %r13d
	addq	%rdi, %r13
	movq	%r13, %rdi
	callq	"record_slots::in_form"
	movl	%eax, %ecx
	xorl	%eax, %eax
	testb	%cl, %cl
	je	.LBB48_2
	xorl	%r8d, %r8d
	testq	%rbp, %rbp
	sete	%r8b
	shll	$12, %r8d
	addq	%rbp, %r8
	xorl	%edx, %edx
	testq	%r12, %r12
	sete	%dl
	shll	$12, %edx
	addq	%r12, %rdx
	movq	%r13, %rdi
	movq	%r15, %rsi
	movq	%r14, %rcx
	movq	%rbx, %r9
	callq	"records::offer"
	movzbl	%dl, %ecx
	testb	$1, %al
	movl	$64, %eax
	cmovnel	%ecx, %eax
.LBB48_2:
	addq	$8, %rsp
	popq	%rbx
	popq	%r12
	popq	%r13
	popq	%r14
	popq	%r15
	popq	%rbp
	retq
.Lfunc_end48:
	.size	starterbell_put, .Lfunc_end48-starterbell_put

	.section	.text.starterbell_read,"ax",@progbits
	.globl	starterbell_read
	.p2align	4
	.type	starterbell_read,@function
starterbell_read:
	pushq	%rbp
	pushq	%r15
	pushq	%r14
	pushq	%rbx
	subq	$152, %rsp
	movq	%rcx, %r14
	movq	%rdx, %rbx
	movq	%rsi, %rdx
	xorl	%esi, %esi
	testq	%rdi, %rdi
	sete	%sil
	shll	$12, %esi
	addq	%rdi, %rsi
	xorl	%r15d, %r15d
	testq	%rbx, %rbx
	sete	%bpl
	xorps	%xmm0, %xmm0
	movaps	%xmm0, 48(%rsp)
	movaps	%xmm0, 32(%rsp)
	movaps	%xmm0, 16(%rsp)
	movaps	%xmm0, (%rsp)
	movq	$0, 64(%rsp)
	movq	%rsp, %rdi
	callq	"message::read"
	cmpb	$0, (%rsp)
	je	.LBB49_1
	movzbl	1(%rsp), %eax
	jmp	.LBB49_5
.LBB49_1:
	movzbl	32(%rsp), %eax
	movq	24(%rsp), %rcx
	andl	$1, %eax
	movups	8(%rsp), %xmm0
	movaps	%xmm0, 80(%rsp)
	movq	%rcx, 96(%rsp)
	movq	%rax, 104(%rsp)
	movups	40(%rsp), %xmm0
	movaps	%xmm0, 112(%rsp)
	movups	56(%rsp), %xmm0
	movaps	%xmm0, 128(%rsp)
	testq	%r14, %r14
	je	.LBB49_3
	movb	%bpl, %r15b
	shll	$12, %r15d
	addq	%r15, %rbx
	cmpq	$8, %r14
	movl	$8, %edx
	cmovbq	%r14, %rdx
	shll	$3, %edx
	leaq	80(%rsp), %rsi
	movq	%rbx, %rdi
	callq	memcpy@PLT
.LBB49_3:
	movl	$64, %eax
.LBB49_5:
	addq	$152, %rsp
	popq	%rbx
	popq	%r14
	popq	%r15
	popq	%rbp
	retq
.Lfunc_end49:
	.size	starterbell_read, .Lfunc_end49-starterbell_read

	.section	.text.starterbell_receive,"ax",@progbits
	.globl	starterbell_receive
	.p2align	4
	.type	starterbell_receive,@function
starterbell_receive:
	pushq	%rbp
	pushq	%r15
	pushq	%r14
	pushq	%r13
	pushq	%r12
	pushq	%rbx
	subq	$3072, %rsp
	movq	$0, (%rsp)
	subq	$2008, %rsp
	movq	%r9, 24(%rsp)
	movq	%rdi, %r13
	movq	5152(%rsp), %r15
	xorl	%edi, %edi
	testq	%r13, %r13
	sete	%r10b
	xorl	%eax, %eax
	testq	%rdx, %rdx
	sete	%bpl
	movq	%r8, 144(%rsp)
	testq	%r8, %r8
	sete	112(%rsp)
	cmpq	$0, 5136(%rsp)
	sete	88(%rsp)
	xorl	%ebx, %ebx
	testq	%r15, %r15
	sete	%r9b
	xorl	%r12d, %r12d
	cmpq	$0, 5168(%rsp)
	sete	64(%rsp)
	movq	5184(%rsp), %r14
	movq	%r14, 8(%rsp)
	testq	%r14, %r14
	sete	%r8b
	movq	5200(%rsp), %r11
	xorl	%r14d, %r14d
	testq	%r11, %r11
	sete	%r14b
	shll	$12, %r14d
	addq	%r11, %r14
	movb	$0, 216(%rsp)
	movq	$0, 208(%rsp)
	movq	5208(%rsp), %r11
	cmpq	$615, %rsi
	ja	.LBB50_3
	testq	%r11, %r11
	je	.LBB50_2
.LBB50_5:
	cmpq	$4, %r11
	movl	$4, %edx
	cmovbq	%r11, %rdx
	shll	$3, %edx
	xorl	%ebp, %ebp
	movq	%r14, %rdi
	xorl	%esi, %esi
	callq	memset@PLT
	jmp	.LBB50_74
.LBB50_3:
	cmpq	$639, %rcx
	ja	.LBB50_6
	testq	%r11, %r11
	jne	.LBB50_5
.LBB50_2:
	xorl	%ebp, %ebp
	jmp	.LBB50_74
.LBB50_6:
	movb	%r8b, 110(%rsp)
	movb	%r10b, %dil
	shll	$12, %edi
	addq	%rdi, %r13
	movb	%bpl, %al
	shll	$12, %eax
	addq	%rax, %rdx
	movb	%r9b, %bl
	shll	$12, %ebx
	addq	%rbx, %r15
	movq	%r15, 80(%rsp)
	leaq	104(%r13), %rsi
	movq	%rdx, %rbx
	leaq	592(%rsp), %r15
	movl	$512, %edx
	movq	%r15, %rdi
	callq	memcpy@PLT
	movups	40(%r13), %xmm0
	movups	56(%r13), %xmm1
	movups	72(%r13), %xmm2
	movups	88(%r13), %xmm3
	movups	%xmm3, 1152(%rsp)
	movups	%xmm2, 1136(%rsp)
	movups	%xmm1, 1120(%rsp)
	movups	%xmm0, 1104(%rsp)
	movups	8(%r13), %xmm0
	movups	24(%r13), %xmm1
	movups	%xmm1, 1184(%rsp)
	movups	%xmm0, 1168(%rsp)
	movl	4(%r13), %eax
	movl	%eax, 192(%rsp)
	movzbl	2(%r13), %eax
	movq	%rax, 136(%rsp)
	movzbl	3(%r13), %eax
	movb	%al, 176(%rsp)
	leaq	2018(%rsp), %rdi
	movl	$608, %edx
	movq	%r15, %rsi
	callq	memcpy@PLT
	leaq	104(%rbx), %rsi
	leaq	592(%rsp), %rdi
	movl	$512, %edx
	callq	memcpy@PLT
	movups	40(%rbx), %xmm0
	movups	56(%rbx), %xmm1
	movups	72(%rbx), %xmm2
	movups	88(%rbx), %xmm3
	movups	%xmm3, 1152(%rsp)
	movups	%xmm2, 1136(%rsp)
	movups	%xmm1, 1120(%rsp)
	movups	%xmm0, 1104(%rsp)
	movups	8(%rbx), %xmm0
	movups	24(%rbx), %xmm1
	movups	%xmm1, 1184(%rsp)
	movups	%xmm0, 1168(%rsp)
	movq	%rbx, 168(%rsp)
	movzbl	618(%rbx), %r15d
	testl	%r15d, %r15d
	je	.LBB50_15
	cmpl	$2, %r15d
	je	.LBB50_14
	cmpl	$1, %r15d
	jne	.LBB50_13
	movq	168(%rsp), %rax
	movzbl	619(%rax), %r15d
	testl	%r15d, %r15d
	je	.LBB50_75
	movzbl	620(%rax), %eax
	cmpl	$2, %r15d
	je	.LBB50_17
	cmpl	$1, %r15d
	jne	.LBB50_13
	movq	%rax, 32(%rsp)
	movb	$1, %al
	movq	%rax, 96(%rsp)
	movq	$0, 40(%rsp)
	jmp	.LBB50_18
.LBB50_13:
	movb	$2, %al
	movq	%rax, 96(%rsp)
	movb	$1, %al
	movl	%eax, 104(%rsp)
	xorl	%r15d, %r15d
	movq	$0, 32(%rsp)
	movq	$0, 40(%rsp)
	xorl	%r13d, %r13d
	jmp	.LBB50_19
.LBB50_14:
	movq	168(%rsp), %rax
	movzwl	624(%rax), %ecx
	movq	%rcx, 48(%rsp)
	movzwl	622(%rax), %eax
	movb	$2, %cl
	movq	%rcx, 96(%rsp)
	movb	$1, %cl
	movl	%ecx, 104(%rsp)
	xorl	%r15d, %r15d
	movq	$0, 32(%rsp)
	movq	$0, 40(%rsp)
	xorl	%r13d, %r13d
	jmp	.LBB50_20
.LBB50_15:
	movl	$0, 104(%rsp)
	movb	$1, %r13b
	movl	%r15d, %eax
	movq	%rax, 32(%rsp)
	movq	%rax, 40(%rsp)
	movq	%rax, 96(%rsp)
.LBB50_16:
	movq	%r15, %rax
	movq	%r15, 48(%rsp)
	jmp	.LBB50_20
.LBB50_17:
	movq	%rax, 32(%rsp)
	movb	$1, %al
	movq	%rax, 96(%rsp)
	movq	168(%rsp), %rax
	movzbl	621(%rax), %eax
	movq	%rax, 40(%rsp)
.LBB50_18:
	xorl	%r13d, %r13d
	movl	$0, 104(%rsp)
.LBB50_19:
	xorl	%eax, %eax
	movq	$0, 48(%rsp)
.LBB50_20:
	movq	%rax, 56(%rsp)
	movq	168(%rsp), %rax
	movl	4(%rax), %ecx
	movl	%ecx, 204(%rsp)
	movzbl	2(%rax), %ecx
	movq	%rcx, 296(%rsp)
	movzbl	3(%rax), %ecx
	movb	%cl, 111(%rsp)
	movzbl	616(%rax), %ebx
	movzbl	617(%rax), %ebp
	leaq	3240(%rsp), %rdi
	leaq	592(%rsp), %rsi
	movl	$608, %edx
	callq	memcpy@PLT
	leaq	3852(%rsp), %rdi
	leaq	2018(%rsp), %rsi
	movl	$608, %edx
	callq	memcpy@PLT
	movl	192(%rsp), %eax
	movl	%eax, 4460(%rsp)
	movq	136(%rsp), %rax
	movb	%al, 4464(%rsp)
	movzbl	176(%rsp), %eax
	movb	%al, 4465(%rsp)
	leaq	4428(%rsp), %rdx
	movq	80(%rsp), %rdi
	movq	5160(%rsp), %rsi
	callq	"contact_form::in_form"
	testb	%al, %al
	je	.LBB50_24
	movzbl	64(%rsp), %eax
	movb	%al, %r12b
	shll	$12, %r12d
	movq	5176(%rsp), %rsi
	movq	5168(%rsp), %rdi
	addq	%r12, %rdi
	movq	%rdi, %r12
	callq	"record_slots::in_form"
	testb	%al, %al
	je	.LBB50_24
	movb	%bpl, 64(%rsp)
	movq	5192(%rsp), %rbp
	testb	%r13b, %r13b
	movq	5208(%rsp), %rdi
	je	.LBB50_48
	cmpq	$16384, 24(%rsp)
	setb	%al
	cmpq	$16387, %rbp
	setb	%cl
	orb	%al, %cl
	movb	$2, %dl
	subb	%cl, %dl
	jmp	.LBB50_25
.LBB50_24:
	xorl	%edx, %edx
	movq	5208(%rsp), %rdi
.LBB50_25:
	movq	%rdx, 24(%rsp)
	xorps	%xmm0, %xmm0
	xorl	%ecx, %ecx
	xorl	%esi, %esi
	xorl	%r13d, %r13d
	xorl	%r8d, %r8d
.LBB50_26:
	xorl	%ebp, %ebp
	xorl	%ebx, %ebx
.LBB50_27:
	xorl	%r12d, %r12d
	xorl	%eax, %eax
	xorps	%xmm1, %xmm1
	xorps	%xmm2, %xmm2
.LBB50_28:
	movq	%r8, 1392(%rsp)
	movq	%r12, 1400(%rsp)
	movq	%rcx, 1408(%rsp)
	movq	%rax, 1416(%rsp)
	testq	%rdi, %rdi
	je	.LBB50_30
	cmpq	$4, %rdi
	movl	$4, %edx
	cmovbq	%rdi, %rdx
	shll	$3, %edx
	movq	%rsi, %r12
	leaq	1392(%rsp), %rsi
	movq	%r14, %rdi
	movaps	%xmm0, 64(%rsp)
	movaps	%xmm1, 144(%rsp)
	movaps	%xmm2, 112(%rsp)
	callq	memcpy@PLT
	movaps	112(%rsp), %xmm2
	movaps	144(%rsp), %xmm1
	movq	%r12, %rsi
	movaps	64(%rsp), %xmm0
	movq	5208(%rsp), %rdi
.LBB50_30:
	cmpb	$1, %bl
	setne	%al
	movl	%ebp, %ecx
	xorb	$1, %cl
	orb	%al, %cl
	jne	.LBB50_33
	movaps	%xmm0, 592(%rsp)
	movq	%rsi, 608(%rsp)
	movq	%r13, 616(%rsp)
	movaps	%xmm1, 624(%rsp)
	movaps	%xmm2, 640(%rsp)
	cmpq	$5, %rdi
	movq	56(%rsp), %rbx
	jb	.LBB50_36
	addq	$-4, %rdi
	cmpq	$8, %rdi
	movl	$8, %edx
	cmovbq	%rdi, %rdx
	addq	$32, %r14
	shll	$3, %edx
	leaq	592(%rsp), %rsi
	movq	%r14, %rdi
	callq	memcpy@PLT
	jmp	.LBB50_36
.LBB50_33:
	testb	%bpl, %bpl
	je	.LBB50_39
	cmpb	$2, %bl
	je	.LBB50_63
	movzbl	%bl, %eax
	cmpl	$1, %eax
	movq	56(%rsp), %rbx
	jne	.LBB50_66
.LBB50_36:
	movq	96(%rsp), %rcx
	movzbl	%cl, %eax
	testb	%cl, %cl
	je	.LBB50_44
	cmpl	$2, %eax
	jne	.LBB50_45
	movq	48(%rsp), %rcx
	shlq	$48, %rcx
	shlq	$32, %rbx
	orq	%rcx, %rbx
	jmp	.LBB50_73
.LBB50_39:
	movzbl	24(%rsp), %ebp
	cmpb	$12, %bpl
	ja	.LBB50_41
	movl	$4103, %eax
	btl	%ebp, %eax
	jb	.LBB50_74
.LBB50_41:
	movzbl	96(%rsp), %eax
	testb	%al, %al
	je	.LBB50_86
	cmpl	$2, %eax
	jne	.LBB50_87
	movq	48(%rsp), %rcx
	shlq	$48, %rcx
	movq	56(%rsp), %rsi
	shlq	$32, %rsi
	orq	%rcx, %rsi
	jmp	.LBB50_106
.LBB50_44:
	movq	%rax, %rbx
	jmp	.LBB50_73
.LBB50_45:
	movzbl	%r15b, %ebx
	testb	%r15b, %r15b
	je	.LBB50_69
	cmpl	$2, %ebx
	jne	.LBB50_70
	movzbl	40(%rsp), %ecx
	shll	$24, %ecx
	jmp	.LBB50_71
.LBB50_48:
	movq	296(%rsp), %rax
	decl	%eax
	cmpb	$63, %al
	ja	.LBB50_102
	movups	3816(%rsp), %xmm0
	movups	3832(%rsp), %xmm1
	movaps	%xmm0, 592(%rsp)
	movaps	%xmm1, 608(%rsp)
	movups	2594(%rsp), %xmm0
	movups	2610(%rsp), %xmm1
	movaps	%xmm0, 1392(%rsp)
	movaps	%xmm1, 1408(%rsp)
	movl	592(%rsp), %eax
	cmpl	1392(%rsp), %eax
	jne	.LBB50_51
	leaq	592(%rsp), %rdi
	leaq	1392(%rsp), %rdx
	movl	$32, %esi
	callq	"core::cmp::slices::groups_equal::<i8,31'core::cmp::numbers::U8PartialEq{}>"
	movq	5208(%rsp), %rdi
	testb	%al, %al
	jne	.LBB50_102
.LBB50_51:
	cmpb	$0, 104(%rsp)
	je	.LBB50_84
	xorl	%edx, %edx
	movq	56(%rsp), %rax
	cmpl	$16384, %eax
	ja	.LBB50_25
	cmpl	48(%rsp), %eax
	ja	.LBB50_54
	jmp	.LBB50_25
.LBB50_63:
	movq	96(%rsp), %rcx
	movzbl	%cl, %eax
	testb	%cl, %cl
	movq	56(%rsp), %rsi
	je	.LBB50_76
	cmpl	$2, %eax
	jne	.LBB50_77
	movq	48(%rsp), %rcx
	shlq	$48, %rcx
	shlq	$32, %rsi
	orq	%rcx, %rsi
	jmp	.LBB50_94
.LBB50_66:
	movq	96(%rsp), %rcx
	movzbl	%cl, %eax
	testb	%cl, %cl
	je	.LBB50_80
	cmpl	$2, %eax
	jne	.LBB50_81
	movq	48(%rsp), %rcx
	shlq	$48, %rcx
	shlq	$32, %rbx
	orq	%rcx, %rbx
	jmp	.LBB50_99
.LBB50_69:
	movq	%rbx, %rcx
	jmp	.LBB50_72
.LBB50_70:
	xorl	%ecx, %ecx
.LBB50_71:
	movq	32(%rsp), %r15
.LBB50_72:
	movzbl	%r15b, %edx
	shll	$16, %edx
	orq	%rcx, %rdx
	shll	$8, %ebx
	orq	%rdx, %rbx
.LBB50_73:
	orq	%rbx, %rax
	movq	168(%rsp), %rcx
	movq	%rax, 618(%rcx)
	movl	$66, %ebp
.LBB50_74:
	movl	%ebp, %eax
	addq	$5080, %rsp
	popq	%rbx
	popq	%r12
	popq	%r13
	popq	%r14
	popq	%r15
	popq	%rbp
	retq
.LBB50_75:
	movb	$1, %al
	movq	%rax, 96(%rsp)
	xorl	%r13d, %r13d
	movl	%r15d, %eax
	movq	%rax, 32(%rsp)
	movq	%rax, 40(%rsp)
	movl	$0, 104(%rsp)
	jmp	.LBB50_16
.LBB50_76:
	movq	%rax, %rsi
	jmp	.LBB50_94
.LBB50_77:
	movzbl	%r15b, %esi
	testb	%r15b, %r15b
	je	.LBB50_90
	cmpl	$2, %esi
	jne	.LBB50_91
	movzbl	40(%rsp), %ecx
	shll	$24, %ecx
	jmp	.LBB50_92
.LBB50_80:
	movq	%rax, %rbx
	jmp	.LBB50_99
.LBB50_81:
	movzbl	%r15b, %ebx
	testb	%r15b, %r15b
	je	.LBB50_95
	cmpl	$2, %ebx
	jne	.LBB50_96
	movzbl	40(%rsp), %ecx
	shll	$24, %ecx
	jmp	.LBB50_97
.LBB50_84:
	cmpb	$2, %r15b
	je	.LBB50_100
	movzbl	%r15b, %ecx
	movq	32(%rsp), %rax
	cmpl	$1, %ecx
	je	.LBB50_101
	jmp	.LBB50_54
.LBB50_86:
	movq	%rax, %rsi
	jmp	.LBB50_106
.LBB50_87:
	movzbl	%r15b, %ecx
	movq	%rcx, %rsi
	testb	%cl, %cl
	je	.LBB50_105
	cmpl	$2, %ecx
	jne	.LBB50_103
	movzbl	40(%rsp), %ecx
	shll	$24, %ecx
	jmp	.LBB50_104
.LBB50_90:
	movq	%rsi, %rcx
	jmp	.LBB50_93
.LBB50_91:
	xorl	%ecx, %ecx
.LBB50_92:
	movq	32(%rsp), %r15
.LBB50_93:
	movzbl	%r15b, %edx
	shll	$16, %edx
	orq	%rcx, %rdx
	shll	$8, %esi
	orq	%rdx, %rsi
.LBB50_94:
	orq	%rsi, %rax
	movq	168(%rsp), %rcx
	movq	%rax, 618(%rcx)
	movl	$64, %ebp
	jmp	.LBB50_74
.LBB50_95:
	movq	%rbx, %rcx
	jmp	.LBB50_98
.LBB50_96:
	xorl	%ecx, %ecx
.LBB50_97:
	movq	32(%rsp), %r15
.LBB50_98:
	movzbl	%r15b, %edx
	shll	$16, %edx
	orq	%rcx, %rdx
	shll	$8, %ebx
	orq	%rdx, %rbx
.LBB50_99:
	orq	%rbx, %rax
	movq	168(%rsp), %rcx
	movq	%rax, 618(%rcx)
	movl	$65, %ebp
	jmp	.LBB50_74
.LBB50_100:
	movq	40(%rsp), %rax
	cmpb	$0, 32(%rsp)
	jns	.LBB50_102
.LBB50_101:
	testb	%al, %al
	js	.LBB50_54
.LBB50_102:
	xorl	%edx, %edx
	jmp	.LBB50_25
.LBB50_54:
	cmpq	$16384, 24(%rsp)
	setb	%al
	cmpq	$16387, %rbp
	setb	%cl
	orb	%al, %cl
	movb	$1, %dl
	jne	.LBB50_25
	movq	136(%rsp), %rax
	addl	$-65, %eax
	movb	$12, %dl
	cmpb	$-64, %al
	jb	.LBB50_25
	xorl	%r13d, %r13d
	movzbl	112(%rsp), %eax
	movb	%al, %r13b
	xorl	%ecx, %ecx
	movzbl	88(%rsp), %eax
	movb	%al, %cl
	shll	$12, %r13d
	shll	$12, %ecx
	movq	144(%rsp), %rax
	addq	%r13, %rax
	movq	%rax, 88(%rsp)
	movq	5136(%rsp), %rax
	movq	%rcx, 184(%rsp)
	addq	%rcx, %rax
	movq	%rax, 112(%rsp)
	leaq	2626(%rsp), %rdi
	leaq	2018(%rsp), %rsi
	movl	$608, %edx
	callq	memcpy@PLT
	movl	192(%rsp), %eax
	movl	%eax, 3234(%rsp)
	movq	136(%rsp), %rax
	movb	%al, 3238(%rsp)
	movzbl	176(%rsp), %eax
	movb	%al, 3239(%rsp)
	leaq	1392(%rsp), %rdi
	leaq	3240(%rsp), %rsi
	movl	$608, %edx
	callq	memcpy@PLT
	movl	204(%rsp), %eax
	movl	%eax, 2000(%rsp)
	movq	296(%rsp), %rax
	movb	%al, 2004(%rsp)
	movzbl	111(%rsp), %eax
	movb	%al, 2005(%rsp)
	movw	$0, 2006(%rsp)
	cmpb	$0, 104(%rsp)
	je	.LBB50_107
	xorl	%eax, %eax
	movl	$0, %r8d
	movq	56(%rsp), %rcx
	cmpl	$16384, %ecx
	ja	.LBB50_154
	movq	48(%rsp), %r11
	cmpl	%r11d, %ecx
	movq	5208(%rsp), %rdi
	jbe	.LBB50_155
	movq	%rcx, %rax
	subq	%r11, %rax
	movq	5144(%rsp), %r8
	cmpq	%rax, %r8
	jae	.LBB50_123
	testq	%r8, %r8
	movq	88(%rsp), %r10
	je	.LBB50_200
	addq	%r11, %r10
	cmpq	$4, %r8
	jae	.LBB50_129
	xorl	%eax, %eax
	jmp	.LBB50_194
.LBB50_103:
	xorl	%ecx, %ecx
.LBB50_104:
	movq	32(%rsp), %r15
.LBB50_105:
	movzbl	%r15b, %edx
	shll	$16, %edx
	orq	%rcx, %rdx
	shll	$8, %esi
	orq	%rdx, %rsi
.LBB50_106:
	orq	%rsi, %rax
	movq	168(%rsp), %rcx
	movq	%rax, 618(%rcx)
	jmp	.LBB50_74
.LBB50_107:
	testb	%r15b, %r15b
	movq	5208(%rsp), %rdi
	movq	5144(%rsp), %r8
	movq	112(%rsp), %rsi
	je	.LBB50_112
	movzbl	%r15b, %ecx
	movq	32(%rsp), %rax
	cmpl	$1, %ecx
	je	.LBB50_110
	movq	40(%rsp), %rax
	cmpb	$0, 32(%rsp)
	jns	.LBB50_111
.LBB50_110:
	testb	%al, %al
	js	.LBB50_112
.LBB50_111:
	xorl	%eax, %eax
	xorl	%r8d, %r8d
	jmp	.LBB50_155
.LBB50_112:
	movb	$1, %al
	movq	%rax, 96(%rsp)
	testq	%r8, %r8
	je	.LBB50_122
	xorl	%eax, %eax
.LBB50_115:
	movzbl	(%rsi,%rax), %edx
	movzbl	%dl, %ecx
	movq	%rcx, 56(%rsp)
	testb	%r15b, %r15b
	je	.LBB50_120
	movzbl	%r15b, %ecx
	cmpl	$1, %ecx
	jne	.LBB50_131
	movb	$2, %r15b
	testb	%dl, %dl
	jns	.LBB50_118
	movl	%edx, %ecx
	movq	%rcx, 40(%rsp)
	incq	%rax
	cmpq	%rax, %r8
	jne	.LBB50_115
	jmp	.LBB50_122
.LBB50_120:
	testb	%dl, %dl
	jns	.LBB50_135
	movb	$1, %r15b
	movq	$0, 40(%rsp)
	movl	%edx, %ecx
	movq	%rcx, 32(%rsp)
	incq	%rax
	cmpq	%rax, %r8
	jne	.LBB50_115
.LBB50_122:
	movq	$0, 56(%rsp)
	movq	$0, 48(%rsp)
	jmp	.LBB50_201
.LBB50_123:
	movq	%r13, %r15
	movq	88(%rsp), %rcx
	addq	%r11, %rcx
	cmpl	$4, %eax
	movb	%bl, 23(%rsp)
	movq	%rbp, %r13
	jae	.LBB50_127
	xorl	%edx, %edx
	movq	112(%rsp), %r8
	jmp	.LBB50_125
.LBB50_127:
	addq	%r15, %r11
	movq	144(%rsp), %rdx
	addq	%r11, %rdx
	movq	112(%rsp), %r8
	subq	%r8, %rdx
	cmpq	$32, %rdx
	jae	.LBB50_140
	xorl	%edx, %edx
	jmp	.LBB50_125
.LBB50_129:
	movq	%r13, %r9
	leaq	(%r11,%r13), %rcx
	movq	144(%rsp), %rax
	addq	%rcx, %rax
	subq	112(%rsp), %rax
	cmpq	$32, %rax
	jae	.LBB50_156
	xorl	%eax, %eax
	movq	%r9, %r13
	movq	48(%rsp), %r11
	jmp	.LBB50_194
.LBB50_131:
	movb	%bl, 23(%rsp)
	movb	$4, %r8b
	testb	%dl, %dl
	js	.LBB50_153
	je	.LBB50_152
	movq	56(%rsp), %rsi
	shll	$14, %esi
	movzbl	40(%rsp), %ecx
	andl	$127, %ecx
	shll	$7, %ecx
	movq	32(%rsp), %rdx
	andb	$127, %dl
	movzbl	%dl, %edx
	orl	%ecx, %edx
	orl	%esi, %edx
	cmpl	$16384, %edx
	ja	.LBB50_153
	movq	%r13, %r15
	movq	%rbp, %r13
	leaq	1(%rax), %rcx
	movl	$16384, %edx
	movq	%rdx, 56(%rsp)
	jmp	.LBB50_136
.LBB50_118:
	movb	%bl, 23(%rsp)
	je	.LBB50_152
	movq	%r13, %r15
	movq	%rbp, %r13
	movq	32(%rsp), %rcx
	andb	$127, %cl
	movzbl	%cl, %ecx
	movq	56(%rsp), %rdx
	shll	$7, %edx
	orq	%rcx, %rdx
	movq	%rdx, 56(%rsp)
	leaq	1(%rax), %rcx
	jmp	.LBB50_136
.LBB50_135:
	movq	%r13, %r15
	movq	%rbp, %r13
	movb	%bl, 23(%rsp)
	leaq	1(%rax), %rcx
	testb	%dl, %dl
	je	.LBB50_166
.LBB50_136:
	movq	5144(%rsp), %rdx
	subq	%rcx, %rdx
	movq	%rdx, 48(%rsp)
	cmpq	56(%rsp), %rdx
	jae	.LBB50_142
	movq	48(%rsp), %rdx
	movq	24(%rsp), %rdi
	cmpq	%rdx, %rdi
	movq	%rdx, %rsi
	cmovbq	%rdi, %rsi
	movb	$2, %dil
	movq	%rdi, 96(%rsp)
	testq	%rdx, %rdx
	je	.LBB50_202
	movq	%rax, %rdx
	notq	%rdx
	addq	5144(%rsp), %rdx
	cmpq	$4, %rsi
	jb	.LBB50_139
	movq	184(%rsp), %rdi
	addq	%rcx, %rdi
	addq	5136(%rsp), %rdi
	movq	88(%rsp), %rcx
	subq	%rdi, %rcx
	cmpq	$32, %rcx
	jae	.LBB50_213
.LBB50_139:
	xorl	%ecx, %ecx
.LBB50_251:
	movq	%rcx, %rdi
	testb	$3, %sil
	je	.LBB50_255
	negq	%rdi
	leaq	(%r15,%rcx), %r8
	addq	144(%rsp), %r8
	movq	24(%rsp), %r10
	cmpq	%rdx, %r10
	movq	%rdx, %r9
	cmovbq	%r10, %r9
	andl	$3, %r9d
	movq	112(%rsp), %r10
	addq	%rcx, %r10
	incq	%r10
	xorl	%r11d, %r11d
.LBB50_253:
	leaq	(%r10,%r11), %rbx
	movzbl	(%rax,%rbx), %ebx
	movb	%bl, (%r8,%r11)
	incq	%r11
	decq	%rdi
	cmpq	%r11, %r9
	jne	.LBB50_253
	negq	%rdi
.LBB50_255:
	subq	%rsi, %rcx
	cmpq	$-4, %rcx
	jbe	.LBB50_257
.LBB50_256:
	xorl	%r15d, %r15d
	jmp	.LBB50_259
.LBB50_140:
	cmpl	$32, %eax
	jae	.LBB50_158
	xorl	%edx, %edx
	movq	112(%rsp), %r8
	jmp	.LBB50_162
.LBB50_142:
	movq	56(%rsp), %rdx
	movq	24(%rsp), %rsi
	cmpq	%rdx, %rsi
	cmovaeq	%rdx, %rsi
	movq	%rsi, %r10
	cmpq	$4, %rsi
	jb	.LBB50_144
	movq	184(%rsp), %rsi
	addq	%rcx, %rsi
	addq	5136(%rsp), %rsi
	movq	88(%rsp), %rdx
	subq	%rsi, %rdx
	cmpq	$32, %rdx
	jae	.LBB50_215
.LBB50_144:
	xorl	%edx, %edx
	movq	%r10, %rdi
	movq	112(%rsp), %r9
.LBB50_145:
	movq	%rdx, %rsi
	andq	$3, %rdi
	movq	%r9, %r11
	movq	88(%rsp), %r9
	je	.LBB50_148
	movq	%rdx, %rsi
.LBB50_147:
	leaq	(%r11,%rsi), %r8
	movzbl	1(%rax,%r8), %r8d
	movb	%r8b, (%r9,%rsi)
	incq	%rsi
	decq	%rdi
	jne	.LBB50_147
.LBB50_148:
	subq	%r10, %rdx
	cmpq	$-4, %rdx
	ja	.LBB50_151
	movq	144(%rsp), %rdx
	addq	%r15, %rdx
	addq	$3, %rdx
.LBB50_150:
	leaq	(%r11,%rsi), %rdi
	movzbl	1(%rax,%rdi), %r8d
	movb	%r8b, -3(%rdx,%rsi)
	movzbl	2(%rax,%rdi), %r8d
	movb	%r8b, -2(%rdx,%rsi)
	movzbl	3(%rax,%rdi), %r8d
	movb	%r8b, -1(%rdx,%rsi)
	movzbl	4(%rax,%rdi), %edi
	movb	%dil, (%rdx,%rsi)
	addq	$4, %rsi
	cmpq	%rsi, %r10
	jne	.LBB50_150
.LBB50_151:
	movq	56(%rsp), %rbx
	addq	%rbx, %rcx
	jmp	.LBB50_167
.LBB50_152:
	movb	$3, %r8b
.LBB50_153:
	incq	%rax
.LBB50_154:
	movq	5208(%rsp), %rdi
.LBB50_155:
	movq	%r8, 24(%rsp)
	xorps	%xmm0, %xmm0
	xorl	%ecx, %ecx
	xorl	%esi, %esi
	xorl	%r13d, %r13d
	movq	$0, 96(%rsp)
	xorl	%r15d, %r15d
	movq	$0, 32(%rsp)
	movq	$0, 40(%rsp)
	movq	$0, 56(%rsp)
	movq	$0, 48(%rsp)
	movq	%rax, %r8
	jmp	.LBB50_26
.LBB50_156:
	cmpq	$32, 5144(%rsp)
	jae	.LBB50_187
	xorl	%eax, %eax
	jmp	.LBB50_191
.LBB50_158:
	movl	%eax, %edx
	andl	$32736, %edx
	movq	144(%rsp), %rsi
	addq	%r11, %rsi
	addq	$16, %rsi
	movq	5136(%rsp), %rdi
	movq	184(%rsp), %r8
	addq	%r8, %rdi
	addq	$16, %rdi
	xorl	%r8d, %r8d
.LBB50_159:
	movups	-16(%rdi,%r8), %xmm0
	movups	(%rdi,%r8), %xmm1
	movups	%xmm0, -16(%rsi,%r8)
	movups	%xmm1, (%rsi,%r8)
	addq	$32, %r8
	cmpq	%r8, %rdx
	jne	.LBB50_159
	cmpl	%edx, %eax
	je	.LBB50_165
	testb	$28, %al
	movq	112(%rsp), %r8
	je	.LBB50_125
.LBB50_162:
	movq	%rdx, %rsi
	movl	%eax, %edx
	andl	$32764, %edx
.LBB50_163:
	movl	(%r8,%rsi), %edi
	movl	%edi, (%rcx,%rsi)
	addq	$4, %rsi
	cmpq	%rsi, %rdx
	jne	.LBB50_163
	cmpl	%edx, %eax
	jne	.LBB50_125
.LBB50_165:
	movq	56(%rsp), %rbx
	jmp	.LBB50_168
.LBB50_125:
	movq	56(%rsp), %rbx
	movzbl	64(%rsp), %edi
.LBB50_126:
	movzbl	(%r8,%rdx), %esi
	movb	%sil, (%rcx,%rdx)
	incq	%rdx
	cmpq	%rdx, %rax
	jne	.LBB50_126
	jmp	.LBB50_169
.LBB50_166:
	xorl	%ebx, %ebx
.LBB50_167:
	movq	%rcx, %rax
.LBB50_168:
	movzbl	64(%rsp), %edi
.LBB50_169:
	movq	%rax, 112(%rsp)
	testb	%dil, %dil
	je	.LBB50_172
	xorps	%xmm1, %xmm1
	movaps	%xmm1, 640(%rsp)
	movaps	%xmm1, 624(%rsp)
	movaps	%xmm1, 608(%rsp)
	xorps	%xmm0, %xmm0
	movaps	%xmm0, 64(%rsp)
	movaps	%xmm1, 592(%rsp)
	movq	$0, 656(%rsp)
	leaq	592(%rsp), %rdi
	movq	88(%rsp), %rsi
	movq	%rbx, %r12
	movq	%rbx, %rdx
	callq	"message::read"
	cmpb	$0, 592(%rsp)
	sete	%bpl
	je	.LBB50_176
	movzbl	593(%rsp), %eax
	movq	%rax, 24(%rsp)
	xorl	%r12d, %r12d
	xorl	%esi, %esi
	xorl	%r13d, %r13d
	xorl	%ebx, %ebx
	xorps	%xmm1, %xmm1
	xorps	%xmm2, %xmm2
	jmp	.LBB50_177
.LBB50_172:
	leaq	4466(%rsp), %rdi
	leaq	2626(%rsp), %rsi
	movl	$614, %edx
	callq	memcpy@PLT
	leaq	592(%rsp), %rdi
	leaq	1392(%rsp), %rsi
	movl	$614, %edx
	callq	memcpy@PLT
	movw	$0, 1206(%rsp)
	movb	$1, 1208(%rsp)
	xorps	%xmm0, %xmm0
	movups	%xmm0, 1209(%rsp)
	movq	$0, 1224(%rsp)
	movaps	%xmm0, 528(%rsp)
	movaps	%xmm0, 512(%rsp)
	movaps	%xmm0, 496(%rsp)
	movaps	%xmm0, 480(%rsp)
	movq	$0, 544(%rsp)
	leaq	480(%rsp), %rdi
	movq	88(%rsp), %rsi
	movq	%rbx, %rdx
	callq	"message::read"
	cmpb	$0, 480(%rsp)
	je	.LBB50_178
	movzbl	481(%rsp), %eax
	movq	%rax, 24(%rsp)
.LBB50_174:
	xorps	%xmm0, %xmm0
	xorl	%ecx, %ecx
	xorl	%esi, %esi
	xorl	%r13d, %r13d
	movq	$0, 96(%rsp)
	xorl	%r15d, %r15d
	movq	$0, 32(%rsp)
	movq	$0, 40(%rsp)
	movq	$0, 56(%rsp)
	movq	$0, 48(%rsp)
	xorl	%ebp, %ebp
	xorl	%ebx, %ebx
	xorl	%r12d, %r12d
.LBB50_175:
	xorl	%eax, %eax
	xorps	%xmm1, %xmm1
	xorps	%xmm2, %xmm2
	movq	5208(%rsp), %rdi
	movq	112(%rsp), %r8
	jmp	.LBB50_28
.LBB50_176:
	movups	600(%rsp), %xmm0
	movaps	%xmm0, 64(%rsp)
	movq	616(%rsp), %rsi
	movzbl	624(%rsp), %r13d
	movups	632(%rsp), %xmm1
	movups	648(%rsp), %xmm2
	andl	$1, %r13d
	movb	$1, %bl
	movq	$0, 24(%rsp)
.LBB50_177:
	movq	5208(%rsp), %rdi
	movq	112(%rsp), %r8
	xorl	%ecx, %ecx
	xorl	%r15d, %r15d
	movq	$0, 32(%rsp)
	movq	$0, 40(%rsp)
	movq	$0, 56(%rsp)
	movq	$0, 48(%rsp)
	movq	%rbx, 96(%rsp)
	xorl	%eax, %eax
	movaps	64(%rsp), %xmm0
	jmp	.LBB50_28
.LBB50_178:
	xorl	%eax, %eax
	movzbl	110(%rsp), %ecx
	movb	%cl, %al
	shll	$12, %eax
	addq	%rax, 8(%rsp)
	movq	488(%rsp), %rax
	movq	496(%rsp), %rbx
	movq	504(%rsp), %rbp
	testq	%rax, %rax
	je	.LBB50_203
	cmpq	$5, %rax
	je	.LBB50_236
	addq	%rbx, 88(%rsp)
	subq	%rbx, %rbp
	cmpq	$4, %rax
	je	.LBB50_217
	movb	$7, %cl
	movq	%rcx, 24(%rsp)
	cmpq	$1, %rax
	jne	.LBB50_174
	leaq	-1(%rbp), %rax
	movb	$8, %cl
	movq	%rcx, 24(%rsp)
	cmpq	$127, %rax
	ja	.LBB50_174
	xorps	%xmm0, %xmm0
	movaps	%xmm0, 304(%rsp)
	movaps	%xmm0, 320(%rsp)
	movaps	%xmm0, 336(%rsp)
	movaps	%xmm0, 352(%rsp)
	movaps	%xmm0, 368(%rsp)
	movaps	%xmm0, 384(%rsp)
	movaps	%xmm0, 400(%rsp)
	movaps	%xmm0, 416(%rsp)
	movaps	%xmm0, 432(%rsp)
	movaps	%xmm0, 448(%rsp)
	movq	$0, 464(%rsp)
	movaps	%xmm0, 224(%rsp)
	movaps	%xmm0, 240(%rsp)
	leaq	264(%rsp), %rdi
	movq	88(%rsp), %rbx
	movq	%rbx, %rsi
	movq	%rbp, %rdx
	callq	"sha256::hash"
	leaq	304(%rsp), %rdi
	movq	80(%rsp), %rsi
	movq	5160(%rsp), %rdx
	leaq	264(%rsp), %rcx
	callq	"contacts::nearest"
	leaq	1232(%rsp), %rdi
	movl	$160, %edx
	leaq	304(%rsp), %rsi
	callq	memcpy@PLT
	movq	464(%rsp), %rax
	movq	%rax, 64(%rsp)
	leaq	224(%rsp), %rdi
	movq	%r12, %rsi
	movq	5176(%rsp), %rdx
	movq	%rbx, %rcx
	movq	%rbp, %r8
	callq	"records::look"
	cmpb	$0, 224(%rsp)
	je	.LBB50_280
	leaq	1232(%rsp), %rdx
	movq	80(%rsp), %rdi
	movq	5160(%rsp), %rsi
	movq	64(%rsp), %rcx
	callq	"replies::entries_len"
	movq	%rax, %r12
	addq	$2, %r12
	movq	%r13, %rcx
	negq	%rcx
	movl	$1, %eax
	movq	%r12, %rdx
.LBB50_185:
	cmpq	$128, %rdx
	jb	.LBB50_284
	movl	%edx, %esi
	orb	$-128, %sil
	movq	8(%rsp), %rdi
	movb	%sil, -1(%rdi,%rax)
	shrq	$7, %rdx
	leaq	(%rcx,%rax), %rsi
	incq	%rsi
	incq	%rax
	cmpq	$1, %rsi
	jne	.LBB50_185
	jmp	.LBB50_297
.LBB50_187:
	movq	5144(%rsp), %rax
	andq	$-32, %rax
	movq	144(%rsp), %rdx
	addq	%rdx, %rcx
	addq	$16, %rcx
	movq	5136(%rsp), %rdx
	movq	184(%rsp), %rsi
	addq	%rsi, %rdx
	addq	$16, %rdx
	xorl	%esi, %esi
.LBB50_188:
	movups	-16(%rdx,%rsi), %xmm0
	movups	(%rdx,%rsi), %xmm1
	movups	%xmm0, -16(%rcx,%rsi)
	movups	%xmm1, (%rcx,%rsi)
	addq	$32, %rsi
	cmpq	%rsi, %rax
	jne	.LBB50_188
	movq	5144(%rsp), %r8
	cmpq	%rax, %r8
	movq	5208(%rsp), %rdi
	movq	48(%rsp), %r11
	je	.LBB50_200
	movq	%r9, %r13
	testb	$28, %r8b
	je	.LBB50_194
.LBB50_191:
	movq	%rax, %rcx
	movq	%r8, %rax
	andq	$-4, %rax
	movq	112(%rsp), %rsi
.LBB50_192:
	movl	(%rsi,%rcx), %edx
	movl	%edx, (%r10,%rcx)
	addq	$4, %rcx
	cmpq	%rcx, %rax
	jne	.LBB50_192
	movq	5144(%rsp), %r8
	cmpq	%rax, %r8
	movq	5208(%rsp), %rdi
	movq	%r9, %r13
	movq	48(%rsp), %r11
	je	.LBB50_200
.LBB50_194:
	movq	%r8, %rdx
	movq	%rax, %rcx
	andq	$3, %rdx
	movq	112(%rsp), %r9
	je	.LBB50_197
	movq	%rax, %rcx
.LBB50_196:
	movzbl	(%r9,%rcx), %esi
	movb	%sil, (%r10,%rcx)
	incq	%rcx
	decq	%rdx
	jne	.LBB50_196
.LBB50_197:
	subq	%r8, %rax
	cmpq	$-4, %rax
	ja	.LBB50_200
	addq	%r11, %r13
	movq	144(%rsp), %rax
	addq	%r13, %rax
	addq	$3, %rax
	movq	5136(%rsp), %rdx
	movq	184(%rsp), %rsi
	addq	%rsi, %rdx
	addq	$3, %rdx
.LBB50_199:
	movzbl	-3(%rdx,%rcx), %esi
	movb	%sil, -3(%rax,%rcx)
	movzbl	-2(%rdx,%rcx), %esi
	movb	%sil, -2(%rax,%rcx)
	movzbl	-1(%rdx,%rcx), %esi
	movb	%sil, -1(%rax,%rcx)
	movzbl	(%rdx,%rcx), %esi
	movb	%sil, (%rax,%rcx)
	addq	$4, %rcx
	cmpq	%rcx, %r8
	jne	.LBB50_199
.LBB50_200:
	addq	%r8, %r11
	movq	%r11, 48(%rsp)
	movb	$2, %al
	movq	%rax, 96(%rsp)
	xorl	%r15d, %r15d
	movq	$0, 32(%rsp)
	movq	$0, 40(%rsp)
.LBB50_201:
	xorps	%xmm0, %xmm0
	movb	$2, %bl
	movb	$1, %bpl
	xorl	%ecx, %ecx
	xorl	%esi, %esi
	xorl	%r13d, %r13d
	movq	$0, 24(%rsp)
	jmp	.LBB50_27
.LBB50_202:
	xorl	%r15d, %r15d
	movq	$0, 32(%rsp)
	movq	$0, 40(%rsp)
	movq	$0, 48(%rsp)
	jmp	.LBB50_260
.LBB50_203:
	movb	$8, %al
	movq	%rax, 24(%rsp)
	testb	$1, 512(%rsp)
	je	.LBB50_174
	movq	520(%rsp), %rdi
	movq	528(%rsp), %rax
	subq	%rbx, %rbp
	subq	%rdi, %rax
	movq	%rbp, 64(%rsp)
	cmpq	%rbp, %rax
	jne	.LBB50_174
	movq	536(%rsp), %rbp
	movq	544(%rsp), %rax
	movq	%rax, 192(%rsp)
	movq	88(%rsp), %rax
	leaq	(%rax,%rbx), %rcx
	movq	%rcx, 136(%rsp)
	addq	%rax, %rdi
	cmpq	$4, 64(%rsp)
	jae	.LBB50_261
	cmpq	$0, 64(%rsp)
	je	.LBB50_290
	movzbl	(%rdi), %eax
	movq	136(%rsp), %rcx
	cmpb	(%rcx), %al
	jne	.LBB50_288
	cmpq	$1, 64(%rsp)
	je	.LBB50_290
	movzbl	1(%rdi), %ecx
	movl	$1, %eax
	movq	136(%rsp), %rdx
	cmpb	1(%rdx), %cl
	jne	.LBB50_289
	cmpq	$2, 64(%rsp)
	je	.LBB50_290
	movzbl	2(%rdi), %ecx
	movl	$2, %eax
	movq	136(%rsp), %rdx
	cmpb	2(%rdx), %cl
	jne	.LBB50_289
	jmp	.LBB50_290
.LBB50_257:
	movq	24(%rsp), %rcx
	cmpq	%rdx, %rcx
	cmovbq	%rcx, %rdx
	subq	%rdi, %rdx
	addq	%rdi, %r15
	movq	144(%rsp), %rcx
	addq	%r15, %rcx
	addq	$3, %rcx
	movq	112(%rsp), %rsi
	addq	%rdi, %rsi
	addq	$4, %rsi
	xorl	%edi, %edi
.LBB50_258:
	leaq	(%rsi,%rdi), %r8
	movzbl	-3(%rax,%r8), %r9d
	movb	%r9b, -3(%rcx,%rdi)
	movzbl	-2(%rax,%r8), %r9d
	movb	%r9b, -2(%rcx,%rdi)
	movzbl	-1(%rax,%r8), %r9d
	movb	%r9b, -1(%rcx,%rdi)
	movzbl	(%rax,%r8), %r8d
	movb	%r8b, (%rcx,%rdi)
	addq	$4, %rdi
	xorl	%r15d, %r15d
	cmpq	%rdi, %rdx
	jne	.LBB50_258
.LBB50_259:
	movq	$0, 32(%rsp)
	movq	$0, 40(%rsp)
.LBB50_260:
	movq	5208(%rsp), %rdi
	movq	5144(%rsp), %r8
	jmp	.LBB50_201
.LBB50_215:
	cmpq	$32, %r10
	jae	.LBB50_237
	xorl	%edx, %edx
	movq	%r10, %rdi
	movq	112(%rsp), %r9
	jmp	.LBB50_241
.LBB50_213:
	cmpq	$32, %rsi
	jae	.LBB50_244
	xorl	%ecx, %ecx
	jmp	.LBB50_248
.LBB50_217:
	leaq	-1(%rbp), %rax
	movb	$8, %cl
	movq	%rcx, 24(%rsp)
	cmpq	$127, %rax
	ja	.LBB50_174
	xorps	%xmm0, %xmm0
	movaps	%xmm0, 304(%rsp)
	movaps	%xmm0, 320(%rsp)
	movaps	%xmm0, 336(%rsp)
	movaps	%xmm0, 352(%rsp)
	movaps	%xmm0, 368(%rsp)
	movaps	%xmm0, 384(%rsp)
	movaps	%xmm0, 400(%rsp)
	movaps	%xmm0, 416(%rsp)
	movaps	%xmm0, 432(%rsp)
	movaps	%xmm0, 448(%rsp)
	movq	$0, 464(%rsp)
	leaq	264(%rsp), %rbx
	movq	%rbx, %rdi
	movq	88(%rsp), %rsi
	movq	%rbp, %rdx
	callq	"sha256::hash"
	leaq	304(%rsp), %r12
	movq	%r12, %rdi
	movq	80(%rsp), %rsi
	movq	5160(%rsp), %rdx
	movq	%rbx, %rcx
	callq	"contacts::nearest"
	leaq	1232(%rsp), %rdi
	movl	$160, %edx
	movq	%r12, %rsi
	callq	memcpy@PLT
	movq	464(%rsp), %rax
	movzbl	264(%rsp), %ebx
	movq	%rax, 64(%rsp)
	testq	%rax, %rax
	je	.LBB50_263
	movabsq	$7666179355307865607, %rcx
	movq	5160(%rsp), %rax
	mulq	%rcx
	movq	%rdx, %rbp
	shrq	$8, %rbp
	movzbl	265(%rsp), %r12d
	movzbl	266(%rsp), %eax
	movb	%al, 24(%rsp)
	movzbl	267(%rsp), %eax
	movb	%al, 144(%rsp)
	xorl	%r15d, %r15d
	jmp	.LBB50_221
.LBB50_220:
	incq	%r15
	cmpq	%r15, 64(%rsp)
	je	.LBB50_264
.LBB50_221:
	movq	1232(%rsp,%r15,8), %rax
	cmpq	%rbp, %rax
	jae	.LBB50_234
	imulq	$616, %rax, %rax
.LBB50_223:
	movq	80(%rsp), %rcx
	cmpb	%bl, 8(%rcx,%rax)
	jne	.LBB50_220
	movq	80(%rsp), %rcx
	cmpb	%r12b, 9(%rcx,%rax)
	jne	.LBB50_220
	movq	80(%rsp), %rcx
	movzbl	24(%rsp), %edx
	cmpb	%dl, 10(%rcx,%rax)
	jne	.LBB50_220
	movq	80(%rsp), %rcx
	movzbl	144(%rsp), %edx
	cmpb	%dl, 11(%rcx,%rax)
	jne	.LBB50_220
	movq	80(%rsp), %rcx
	leaq	(%rcx,%rax), %rdi
	addq	$8, %rdi
	leaq	264(%rsp), %rdx
	movl	$32, %esi
	callq	"core::cmp::slices::groups_equal::<i8,31'core::cmp::numbers::U8PartialEq{}>"
	testb	%al, %al
	je	.LBB50_220
	jmp	.LBB50_228
.LBB50_234:
	ja	.LBB50_220
	imulq	$616, %rax, %rax
	movq	5160(%rsp), %rcx
	subq	%rax, %rcx
	cmpq	$40, %rcx
	jb	.LBB50_220
	jmp	.LBB50_223
.LBB50_236:
	movq	8(%rsp), %rax
	movw	$2050, (%rax)
	movb	$5, 2(%rax)
	movl	$3, %r12d
	jmp	.LBB50_339
.LBB50_237:
	movq	%r10, %rdx
	andq	$-32, %rdx
	movq	144(%rsp), %rsi
	addq	%r15, %rsi
	addq	$16, %rsi
	xorl	%edi, %edi
	movq	112(%rsp), %r9
.LBB50_238:
	leaq	(%r9,%rdi), %r8
	movups	1(%rax,%r8), %xmm0
	movups	17(%rax,%r8), %xmm1
	movups	%xmm0, -16(%rsi,%rdi)
	movups	%xmm1, (%rsi,%rdi)
	addq	$32, %rdi
	cmpq	%rdi, %rdx
	jne	.LBB50_238
	cmpq	%rdx, %r10
	je	.LBB50_151
	movq	%r10, %rdi
	testb	$28, %dil
	je	.LBB50_145
.LBB50_241:
	movq	%rdx, %rsi
	movq	%rdi, %rdx
	andq	$-4, %rdx
	movq	88(%rsp), %r8
.LBB50_242:
	leaq	(%r9,%rsi), %rdi
	movl	1(%rax,%rdi), %edi
	movl	%edi, (%r8,%rsi)
	addq	$4, %rsi
	cmpq	%rsi, %rdx
	jne	.LBB50_242
	movq	%r10, %rdi
	cmpq	%rdx, %r10
	jne	.LBB50_145
	jmp	.LBB50_151
.LBB50_244:
	movq	%rsi, %rcx
	andq	$-32, %rcx
	movq	24(%rsp), %r8
	cmpq	%rdx, %r8
	movq	%rdx, %rdi
	cmovbq	%r8, %rdi
	andq	$-32, %rdi
	movq	144(%rsp), %r8
	addq	%r15, %r8
	addq	$16, %r8
	xorl	%r9d, %r9d
	movq	112(%rsp), %r11
.LBB50_245:
	leaq	(%r11,%r9), %r10
	movups	1(%rax,%r10), %xmm0
	movups	17(%rax,%r10), %xmm1
	movups	%xmm0, -16(%r8,%r9)
	movups	%xmm1, (%r8,%r9)
	addq	$32, %r9
	cmpq	%r9, %rdi
	jne	.LBB50_245
	cmpq	%rcx, %rsi
	je	.LBB50_256
	testb	$28, %sil
	je	.LBB50_251
.LBB50_248:
	movq	%rcx, %rdi
	movq	%rsi, %rcx
	andq	$-4, %rcx
	movq	24(%rsp), %r9
	cmpq	%rdx, %r9
	movq	%rdx, %r8
	cmovbq	%r9, %r8
	andq	$-4, %r8
	movq	88(%rsp), %r10
	movq	112(%rsp), %r11
.LBB50_249:
	leaq	(%r11,%rdi), %r9
	movl	1(%rax,%r9), %r9d
	movl	%r9d, (%r10,%rdi)
	addq	$4, %rdi
	cmpq	%rdi, %r8
	jne	.LBB50_249
	cmpq	%rcx, %rsi
	je	.LBB50_256
	jmp	.LBB50_251
.LBB50_261:
	movl	(%rdi), %eax
	movq	136(%rsp), %rcx
	cmpl	(%rcx), %eax
	jne	.LBB50_174
	movq	64(%rsp), %rsi
	movq	136(%rsp), %rdx
	callq	"core::cmp::slices::groups_equal::<i8,31'core::cmp::numbers::U8PartialEq{}>"
	testb	%al, %al
	je	.LBB50_174
	jmp	.LBB50_290
.LBB50_263:
	movzbl	265(%rsp), %r12d
	movzbl	266(%rsp), %eax
	movb	%al, 24(%rsp)
	movzbl	267(%rsp), %eax
	movb	%al, 144(%rsp)
.LBB50_264:
	leaq	2594(%rsp), %rax
	movups	(%rax), %xmm0
	movups	16(%rax), %xmm1
	movaps	%xmm0, 224(%rsp)
	movaps	%xmm1, 240(%rsp)
	cmpb	224(%rsp), %bl
	jne	.LBB50_270
	cmpb	225(%rsp), %r12b
	jne	.LBB50_270
	movzbl	24(%rsp), %eax
	cmpb	226(%rsp), %al
	jne	.LBB50_270
	movzbl	144(%rsp), %eax
	cmpb	227(%rsp), %al
	jne	.LBB50_270
	leaq	264(%rsp), %rdi
	leaq	224(%rsp), %rdx
	movl	$32, %esi
	callq	"core::cmp::slices::groups_equal::<i8,31'core::cmp::numbers::U8PartialEq{}>"
	testb	%al, %al
	je	.LBB50_270
	leaq	2626(%rsp), %rax
	jmp	.LBB50_276
.LBB50_270:
	leaq	3816(%rsp), %rax
	movups	(%rax), %xmm0
	movups	16(%rax), %xmm1
	movaps	%xmm0, 560(%rsp)
	movaps	%xmm1, 576(%rsp)
	cmpb	560(%rsp), %bl
	jne	.LBB50_277
	cmpb	561(%rsp), %r12b
	jne	.LBB50_277
	movzbl	24(%rsp), %eax
	cmpb	562(%rsp), %al
	jne	.LBB50_277
	movzbl	144(%rsp), %eax
	cmpb	563(%rsp), %al
	jne	.LBB50_277
	leaq	264(%rsp), %rdi
	leaq	560(%rsp), %rdx
	movl	$32, %esi
	callq	"core::cmp::slices::groups_equal::<i8,31'core::cmp::numbers::U8PartialEq{}>"
	testb	%al, %al
	je	.LBB50_277
	leaq	1392(%rsp), %rax
.LBB50_276:
	movq	%rax, (%rsp)
	leaq	304(%rsp), %r8
	movq	8(%rsp), %rdi
	movq	%r13, %rsi
	movq	80(%rsp), %rdx
	movq	5160(%rsp), %rcx
	movq	64(%rsp), %r9
	callq	"replies::reply_last"
	movq	%rax, %r12
	jmp	.LBB50_339
.LBB50_277:
	leaq	1232(%rsp), %rdx
	movq	80(%rsp), %rdi
	movq	5160(%rsp), %rsi
	movq	64(%rsp), %rcx
	callq	"replies::entries_len"
	movq	%rax, %rbp
	addq	$2, %rbp
	movq	%r13, %rcx
	negq	%rcx
	movl	$1, %eax
	movq	%rbp, %rdx
.LBB50_278:
	cmpq	$128, %rdx
	jb	.LBB50_286
	movl	%edx, %esi
	orb	$-128, %sil
	movq	8(%rsp), %rdi
	movb	%sil, -1(%rdi,%rax)
	shrq	$7, %rdx
	leaq	(%rcx,%rax), %rsi
	incq	%rsi
	incq	%rax
	cmpq	$1, %rsi
	jne	.LBB50_278
	jmp	.LBB50_231
.LBB50_280:
	cmpb	$1, 232(%rsp)
	jne	.LBB50_294
	movq	240(%rsp), %rax
	movq	248(%rsp), %rcx
	movq	%rcx, %rbx
	subq	%rax, %rbx
	movl	$2, %r15d
	cmpq	$3072, %rbx
	ja	.LBB50_309
	movq	%rbp, %r15
	bsrq	%rbp, %rdx
	cmpb	$7, %dl
	sbbq	$-1, %r15
	addq	$2, %r15
	cmpq	%rax, %rcx
	jne	.LBB50_307
	xorl	%ecx, %ecx
	jmp	.LBB50_308
.LBB50_288:
	xorl	%eax, %eax
.LBB50_289:
	cmpq	64(%rsp), %rax
	jb	.LBB50_174
.LBB50_290:
	movq	88(%rsp), %r8
	addq	%rbp, %r8
	movq	192(%rsp), %r9
	subq	%rbp, %r9
	movq	%r12, %rdi
	movq	5176(%rsp), %rsi
	movq	136(%rsp), %rdx
	movq	64(%rsp), %rcx
	movq	%r8, 88(%rsp)
	movq	%r9, 176(%rsp)
	callq	"records::offer"
	movq	%rdx, 24(%rsp)
	testb	%al, %al
	jne	.LBB50_174
	movq	64(%rsp), %rcx
	cmpq	$1, %rcx
	movq	%rcx, %rax
	adcq	$0, %rax
	bsrq	%rax, %rax
	imull	$147, %eax, %eax
	shrl	$10, %eax
	addb	$2, %al
	movzbl	%al, %eax
	cmpq	$129, %rcx
	setae	%cl
	cmpq	$3073, 176(%rsp)
	setae	%dl
	orb	%cl, %dl
	jne	.LBB50_300
	cmpq	$0, 64(%rsp)
	je	.LBB50_319
	movq	64(%rsp), %rdx
	bsrq	%rdx, %rcx
	cmpb	$7, %cl
	movq	%rdx, %rcx
	sbbq	$-1, %rcx
	addq	$2, %rcx
	jmp	.LBB50_320
.LBB50_294:
	leaq	1232(%rsp), %rdx
	movq	80(%rsp), %rdi
	movq	5160(%rsp), %rsi
	movq	64(%rsp), %rcx
	callq	"replies::entries_len"
	movq	%rax, %r12
	addq	$2, %r12
	movq	%r13, %rcx
	negq	%rcx
	movl	$1, %eax
	movq	%r12, %rdx
.LBB50_295:
	cmpq	$128, %rdx
	jb	.LBB50_284
	movl	%edx, %esi
	orb	$-128, %sil
	movq	8(%rsp), %rdi
	movb	%sil, -1(%rdi,%rax)
	shrq	$7, %rdx
	leaq	(%rcx,%rax), %rsi
	incq	%rsi
	incq	%rax
	cmpq	$1, %rsi
	jne	.LBB50_295
.LBB50_297:
	movq	%r13, %rdx
	jmp	.LBB50_298
.LBB50_284:
	movq	8(%rsp), %rcx
	movb	%dl, -1(%rcx,%rax)
	cmpq	%r13, %rax
	jae	.LBB50_285
	movq	8(%rsp), %rcx
	movb	$8, (%rcx,%rax)
	leaq	1(%rax), %rdx
	cmpq	%r13, %rdx
	jae	.LBB50_298
	movq	8(%rsp), %rcx
	movb	$1, 1(%rcx,%rax)
	addq	$2, %rax
	movq	%rax, %rdx
	jmp	.LBB50_299
.LBB50_285:
	movq	%rax, %rdx
.LBB50_298:
	cmpq	%rdx, %r13
	cmovaq	%r13, %rdx
.LBB50_299:
	movq	64(%rsp), %rax
	movq	%rax, (%rsp)
	leaq	304(%rsp), %r9
	movq	8(%rsp), %rdi
	movq	%r13, %rsi
	movq	80(%rsp), %rcx
	movq	5160(%rsp), %r8
	callq	"replies::put_entries"
	cmpq	$1, %r12
	movq	%r12, %rax
	adcq	$0, %rax
	bsrq	%rax, %rax
	imull	$147, %eax, %eax
	shrl	$10, %eax
	addq	%rax, %r12
	incq	%r12
	jmp	.LBB50_339
.LBB50_228:
	leaq	1232(%rsp), %rdx
	movq	80(%rsp), %rdi
	movq	5160(%rsp), %rsi
	movq	64(%rsp), %rcx
	callq	"replies::entries_len"
	movq	%rax, %rbp
	addq	$2, %rbp
	movq	%r13, %rcx
	negq	%rcx
	movl	$1, %eax
	movq	%rbp, %rdx
.LBB50_229:
	cmpq	$128, %rdx
	jb	.LBB50_286
	movl	%edx, %esi
	orb	$-128, %sil
	movq	8(%rsp), %rdi
	movb	%sil, -1(%rdi,%rax)
	shrq	$7, %rdx
	leaq	(%rcx,%rax), %rsi
	incq	%rsi
	incq	%rax
	cmpq	$1, %rsi
	jne	.LBB50_229
.LBB50_231:
	movq	%r13, %rdx
	jmp	.LBB50_232
.LBB50_286:
	movq	8(%rsp), %rcx
	movb	%dl, -1(%rcx,%rax)
	cmpq	%r13, %rax
	jae	.LBB50_287
	movq	8(%rsp), %rcx
	movb	$8, (%rcx,%rax)
	leaq	1(%rax), %rdx
	cmpq	%r13, %rdx
	jae	.LBB50_232
	movq	8(%rsp), %rcx
	movb	$4, 1(%rcx,%rax)
	addq	$2, %rax
	movq	%rax, %rdx
	jmp	.LBB50_233
.LBB50_287:
	movq	%rax, %rdx
.LBB50_232:
	cmpq	%rdx, %r13
	cmovaq	%r13, %rdx
.LBB50_233:
	movq	64(%rsp), %rax
	movq	%rax, (%rsp)
	leaq	304(%rsp), %r9
	movq	8(%rsp), %rdi
	movq	%r13, %rsi
	movq	80(%rsp), %rcx
	movq	5160(%rsp), %r8
	callq	"replies::put_entries"
	jmp	.LBB50_338
.LBB50_300:
	xorl	%edx, %edx
	jmp	.LBB50_324
.LBB50_307:
	bsrq	%rbx, %rcx
	cmpb	$7, %cl
	movq	%rbx, %rcx
	sbbq	$-1, %rcx
	addq	$2, %rcx
.LBB50_308:
	addq	%rcx, %r15
	bsrq	%r15, %rcx
	cmpb	$7, %cl
	sbbq	$-1, %r15
	addq	$4, %r15
.LBB50_309:
	addq	%rax, %r12
	leaq	1232(%rsp), %rdx
	movq	80(%rsp), %rdi
	movq	5160(%rsp), %rsi
	movq	64(%rsp), %rcx
	callq	"replies::entries_len"
	movq	%rax, %rdx
	addq	%r15, %rdx
	movq	%r13, %rcx
	negq	%rcx
	movl	$1, %eax
	movq	%rdx, %r15
.LBB50_310:
	cmpq	$128, %rdx
	jb	.LBB50_313
	movl	%edx, %esi
	orb	$-128, %sil
	movq	8(%rsp), %rdi
	movb	%sil, -1(%rdi,%rax)
	shrq	$7, %rdx
	leaq	(%rcx,%rax), %rsi
	incq	%rsi
	incq	%rax
	cmpq	$1, %rsi
	jne	.LBB50_310
	movq	%r13, %rdx
	jmp	.LBB50_317
.LBB50_313:
	movq	8(%rsp), %rcx
	movb	%dl, -1(%rcx,%rax)
	cmpq	%r13, %rax
	jae	.LBB50_316
	movq	8(%rsp), %rcx
	movb	$8, (%rcx,%rax)
	leaq	1(%rax), %rdx
	cmpq	%r13, %rdx
	jae	.LBB50_317
	movq	8(%rsp), %rcx
	movb	$1, 1(%rcx,%rax)
	addq	$2, %rax
	movq	%rax, %rdx
	jmp	.LBB50_318
.LBB50_316:
	movq	%rax, %rdx
.LBB50_317:
	cmpq	%rdx, %r13
	cmovaq	%r13, %rdx
.LBB50_318:
	movq	%rbx, (%rsp)
	movq	8(%rsp), %rbx
	movq	%rbx, %rdi
	movq	%r13, %rsi
	movq	88(%rsp), %rcx
	movq	%rbp, %r8
	movq	%r12, %r9
	callq	"pieces::put_record"
	movq	64(%rsp), %rcx
	movq	%rcx, (%rsp)
	leaq	304(%rsp), %r9
	movq	%rbx, %rdi
	movq	%r13, %rsi
	movq	%rax, %rdx
	movq	80(%rsp), %rcx
	movq	5160(%rsp), %r8
	callq	"replies::put_entries"
	cmpq	$1, %r15
	movq	%r15, %rax
	adcq	$0, %rax
	bsrq	%rax, %rax
	imull	$147, %eax, %eax
	shrl	$10, %eax
	leaq	(%rax,%r15), %r12
	incq	%r12
	jmp	.LBB50_339
.LBB50_319:
	xorl	%ecx, %ecx
.LBB50_320:
	cmpq	%rbp, 192(%rsp)
	jne	.LBB50_322
	xorl	%esi, %esi
	jmp	.LBB50_323
.LBB50_322:
	movq	176(%rsp), %rsi
	bsrq	%rsi, %rdx
	cmpb	$7, %dl
	sbbq	$-1, %rsi
	addq	$2, %rsi
.LBB50_323:
	leaq	(%rsi,%rcx), %rdx
	cmpq	$1, %rdx
	adcq	%rcx, %rsi
	bsrq	%rsi, %rcx
	cmpb	$7, %cl
	sbbq	$-1, %rdx
	addq	$2, %rdx
.LBB50_324:
	addq	64(%rsp), %rax
	leaq	(%rdx,%rax), %rbp
	addq	$2, %rbp
	xorl	%ecx, %ecx
	movq	%rbp, %rax
.LBB50_325:
	cmpq	$128, %rax
	jb	.LBB50_329
	movl	%eax, %edx
	orb	$-128, %dl
	movq	8(%rsp), %rsi
	movb	%dl, (%rsi,%rcx)
	shrq	$7, %rax
	incq	%rcx
	cmpq	%rcx, %r13
	jne	.LBB50_325
	movq	%r13, %rax
	jmp	.LBB50_328
.LBB50_329:
	movq	8(%rsp), %rdx
	movb	%al, (%rdx,%rcx)
	leaq	1(%rcx), %rax
	cmpq	%r13, %rax
	jae	.LBB50_328
	movq	8(%rsp), %rax
	movb	$8, 1(%rax,%rcx)
	leaq	2(%rcx), %rax
	cmpq	%r13, %rax
	jae	.LBB50_328
	movq	8(%rsp), %rax
	movb	$0, 2(%rax,%rcx)
	leaq	3(%rcx), %rax
	cmpq	%r13, %rax
	jae	.LBB50_336
	movq	8(%rsp), %rax
	movb	$18, 3(%rax,%rcx)
	leaq	4(%rcx), %rax
	cmpq	%r13, %rax
	jae	.LBB50_336
	leaq	-4(%r13), %rdx
	movq	64(%rsp), %rsi
.LBB50_334:
	cmpq	$128, %rsi
	jb	.LBB50_342
	movl	%esi, %edi
	orb	$-128, %dil
	movq	8(%rsp), %r8
	movb	%dil, 4(%r8,%rcx)
	shrq	$7, %rsi
	incq	%rcx
	cmpq	%rcx, %rdx
	jne	.LBB50_334
	jmp	.LBB50_336
.LBB50_328:
	cmpq	%rax, %r13
	cmovaq	%r13, %rax
.LBB50_336:
	cmpq	%rax, %r13
	cmovaq	%r13, %rax
	movq	%r13, %rsi
	subq	%rax, %rsi
.LBB50_337:
	movq	64(%rsp), %r8
	leaq	(%rax,%r8), %rdx
	cmpq	%rsi, %r8
	movq	5192(%rsp), %rsi
	cmovaq	%rsi, %rdx
	cmpq	%rax, %rsi
	cmovbq	%rax, %rdx
	movq	176(%rsp), %rax
	movq	%rax, (%rsp)
	movq	8(%rsp), %rdi
	movq	136(%rsp), %rcx
	movq	88(%rsp), %r9
	callq	"pieces::put_record"
.LBB50_338:
	cmpq	$1, %rbp
	movq	%rbp, %rax
	adcq	$0, %rax
	bsrq	%rax, %rax
	imull	$147, %eax, %eax
	shrl	$10, %eax
	leaq	(%rax,%rbp), %r12
	incq	%r12
.LBB50_339:
	xorps	%xmm0, %xmm0
	movaps	%xmm0, 304(%rsp)
	movq	$0, 320(%rsp)
	cmpb	$0, 23(%rsp)
	je	.LBB50_341
	leaq	5042(%rsp), %rcx
	leaq	304(%rsp), %rdi
	leaq	592(%rsp), %r8
	movq	80(%rsp), %rsi
	movq	5160(%rsp), %rdx
	callq	"sightings::seen"
	movzbl	304(%rsp), %ecx
	movzbl	312(%rsp), %edx
	incq	%rdx
	xorl	%esi, %esi
	testq	%rcx, %rcx
	movq	320(%rsp), %rax
	cmovneq	%rsi, %rax
	movq	$1, 208(%rsp)
	movb	%cl, 216(%rsp)
	movl	$4, %ecx
	cmoveq	%rdx, %rcx
	movb	$1, %dl
	movq	%rdx, 96(%rsp)
	xorl	%r13d, %r13d
	xorl	%r15d, %r15d
	movq	$0, 32(%rsp)
	movq	$0, 40(%rsp)
	movq	$0, 56(%rsp)
	movq	$0, 48(%rsp)
	movb	$1, %bpl
	movq	$0, 24(%rsp)
	xorl	%ebx, %ebx
	xorps	%xmm1, %xmm1
	xorps	%xmm2, %xmm2
	movq	5208(%rsp), %rdi
	movq	112(%rsp), %r8
	xorps	%xmm0, %xmm0
	jmp	.LBB50_28
.LBB50_341:
	movb	$1, %al
	movq	%rax, 96(%rsp)
	xorl	%ecx, %ecx
	xorl	%esi, %esi
	xorl	%r13d, %r13d
	xorl	%r15d, %r15d
	movq	$0, 32(%rsp)
	movq	$0, 40(%rsp)
	movq	$0, 56(%rsp)
	movq	$0, 48(%rsp)
	movb	$1, %bpl
	movq	$0, 24(%rsp)
	xorl	%ebx, %ebx
	jmp	.LBB50_175
.LBB50_342:
	movq	8(%rsp), %rax
	movb	%sil, 4(%rax,%rcx)
	leaq	5(%rcx), %rax
	movq	%r13, %rsi
	subq	%rcx, %rsi
	addq	$-5, %rsi
	cmpq	%r13, %rax
	jae	.LBB50_337
	movq	64(%rsp), %rdx
	cmpq	%rdx, %rsi
	cmovbq	%rsi, %rdx
	testq	%rdx, %rdx
	je	.LBB50_337
	cmpq	$4, %rdx
	jb	.LBB50_345
	leaq	(%r15,%rbx), %r9
	movq	144(%rsp), %rdi
	addq	%r9, %rdi
	movq	8(%rsp), %r8
	subq	%rdi, %r8
	leaq	(%r8,%rcx), %rdi
	addq	$5, %rdi
	cmpq	$32, %rdi
	jae	.LBB50_347
.LBB50_345:
	movq	$0, 24(%rsp)
.LBB50_356:
	testb	$3, %dl
	je	.LBB50_360
	movq	24(%rsp), %rdi
	movq	%rdi, %r8
	negq	%r8
	leaq	(%r15,%rdi), %r9
	addq	%rbx, %r9
	addq	144(%rsp), %r9
	movq	64(%rsp), %r10
	cmpq	%r10, %rsi
	cmovbq	%rsi, %r10
	andl	$3, %r10d
	movq	8(%rsp), %r11
	addq	%rdi, %r11
	addq	$5, %r11
	xorl	%r12d, %r12d
.LBB50_358:
	movzbl	(%r9,%r12), %edi
	leaq	(%r11,%r12), %r13
	movb	%dil, (%rcx,%r13)
	incq	%r12
	decq	%r8
	cmpq	%r12, %r10
	jne	.LBB50_358
	negq	%r8
	jmp	.LBB50_361
.LBB50_360:
	movq	24(%rsp), %r8
.LBB50_361:
	movq	24(%rsp), %rdi
	subq	%rdx, %rdi
	cmpq	$-4, %rdi
	ja	.LBB50_337
	movq	64(%rsp), %rdx
	cmpq	%rdx, %rsi
	cmovbq	%rsi, %rdx
	subq	%r8, %rdx
	addq	%r8, %r15
	addq	%rbx, %r15
	movq	144(%rsp), %rdi
	addq	%r15, %rdi
	addq	$3, %rdi
	movq	8(%rsp), %r9
	addq	%r9, %r8
	addq	$8, %r8
	xorl	%r9d, %r9d
.LBB50_363:
	movzbl	-3(%rdi,%r9), %r10d
	leaq	(%r8,%r9), %r11
	movb	%r10b, -3(%rcx,%r11)
	movzbl	-2(%rdi,%r9), %r10d
	movb	%r10b, -2(%rcx,%r11)
	movzbl	-1(%rdi,%r9), %r10d
	movb	%r10b, -1(%rcx,%r11)
	movzbl	(%rdi,%r9), %r10d
	movb	%r10b, (%rcx,%r11)
	addq	$4, %r9
	cmpq	%r9, %rdx
	jne	.LBB50_363
	jmp	.LBB50_337
.LBB50_347:
	cmpq	$32, %rdx
	jae	.LBB50_349
	movq	$0, 24(%rsp)
	jmp	.LBB50_353
.LBB50_349:
	movq	%rdx, %rdi
	andq	$-32, %rdi
	movq	%rdi, 24(%rsp)
	movq	64(%rsp), %r8
	cmpq	%r8, %rsi
	cmovbq	%rsi, %r8
	andq	$-32, %r8
	movq	144(%rsp), %rdi
	addq	%rdi, %r9
	addq	$16, %r9
	xorl	%r10d, %r10d
.LBB50_350:
	movups	-16(%r9,%r10), %xmm0
	movups	(%r9,%r10), %xmm1
	movq	8(%rsp), %r11
	addq	%r10, %r11
	movups	%xmm0, 5(%rcx,%r11)
	movups	%xmm1, 21(%rcx,%r11)
	addq	$32, %r10
	cmpq	%r10, %r8
	jne	.LBB50_350
	cmpq	24(%rsp), %rdx
	je	.LBB50_337
	testb	$28, %dl
	je	.LBB50_356
.LBB50_353:
	movq	24(%rsp), %r8
	movq	%rdx, %rdi
	andq	$-4, %rdi
	movq	%rdi, 24(%rsp)
	movq	64(%rsp), %r9
	cmpq	%r9, %rsi
	cmovbq	%rsi, %r9
	andq	$-4, %r9
.LBB50_354:
	movq	136(%rsp), %rdi
	movl	(%rdi,%r8), %r10d
	movq	8(%rsp), %r11
	addq	%r8, %r11
	movl	%r10d, 5(%rcx,%r11)
	addq	$4, %r8
	cmpq	%r8, %r9
	jne	.LBB50_354
	cmpq	24(%rsp), %rdx
	je	.LBB50_337
	jmp	.LBB50_356
.Lfunc_end50:
	.size	starterbell_receive, .Lfunc_end50-starterbell_receive

	.section	.text.starterbell_recipe_read,"ax",@progbits
	.globl	starterbell_recipe_read
	.p2align	4
	.type	starterbell_recipe_read,@function
starterbell_recipe_read:
	pushq	%rbp
	pushq	%r15
	pushq	%r14
	pushq	%r13
	pushq	%r12
	pushq	%rbx
	subq	$136, %rsp
	movq	%rcx, %r12
	movq	%rsi, %r15
	movq	%rdi, %r13
	xorl	%r14d, %r14d
	testq	%rdi, %rdi
	sete	%r14b
	shll	$12, %r14d
	leaq	(%rdi,%r14), %rbp
	xorl	%ebx, %ebx
	testq	%rdx, %rdx
	sete	%bl
	shll	$12, %ebx
	addq	%rdx, %rbx
	xorps	%xmm0, %xmm0
	movaps	%xmm0, 32(%rsp)
	movq	$0, 48(%rsp)
	leaq	32(%rsp), %rdi
	movq	%rbp, %rsi
	movq	%r15, %rdx
	callq	"recipe::fault"
	cmpb	$0, 32(%rsp)
	je	.LBB51_4
	movq	40(%rsp), %rax
	movq	48(%rsp), %rcx
	movzbl	%al, %edx
	incq	%rdx
	movzbl	%ah, %eax
	movq	%rdx, 112(%rsp)
	movq	%rax, 120(%rsp)
	movq	%rcx, 128(%rsp)
	testq	%r12, %r12
	je	.LBB51_3
	cmpq	$3, %r12
	movl	$3, %edx
	cmovbq	%r12, %rdx
	shll	$3, %edx
	leaq	112(%rsp), %rsi
	movq	%rbx, %rdi
	callq	memcpy@PLT
.LBB51_3:
	movl	$9, %eax
	jmp	.LBB51_95
.LBB51_4:
	xorl	%eax, %eax
	movq	%r15, %rcx
	subq	$10, %rcx
	cmovbq	%rax, %rcx
	movq	%r15, %rdx
	subq	$8, %rdx
	cmovbq	%rax, %rdx
	movq	%rdx, 104(%rsp)
	movq	%rcx, 96(%rsp)
	subq	%rcx, %rdx
	movq	%r14, 8(%rsp)
	movq	%r12, 24(%rsp)
	movq	%rbp, 88(%rsp)
	je	.LBB51_25
	cmpq	$10, %r15
	movl	$10, %edi
	cmovbq	%r15, %rdi
	cmpq	$8, %r15
	movl	$8, %r9d
	cmovbq	%r15, %r9
	notq	%r9
	leaq	(%rdi,%r9), %r10
	movl	%edx, %r8d
	andl	$3, %r8d
	notq	%rdi
	cmpq	$3, %r10
	jae	.LBB51_7
	xorl	%eax, %eax
	movq	%rdx, %r11
	jmp	.LBB51_11
.LBB51_7:
	leaq	(%r14,%r15), %rcx
	addq	%r13, %rcx
	addq	%r9, %rcx
	movq	%rdx, %r14
	andq	$-4, %r14
	negq	%r14
	xorl	%r11d, %r11d
	xorl	%eax, %eax
	.p2align	4
.LBB51_8:
	movzbl	(%rcx,%r11), %esi
	shlq	$16, %rax
	shll	$8, %esi
	orq	%rax, %rsi
	movzbl	-1(%rcx,%r11), %eax
	orq	%rsi, %rax
	movzbl	-2(%rcx,%r11), %esi
	shlq	$16, %rax
	shll	$8, %esi
	orq	%rax, %rsi
	movzbl	-3(%rcx,%r11), %eax
	orq	%rsi, %rax
	addq	$-4, %r11
	cmpq	%r11, %r14
	jne	.LBB51_8
	testq	%r8, %r8
	je	.LBB51_13
	addq	%rdx, %r11
	movq	8(%rsp), %r14
.LBB51_11:
	addq	%r14, %r11
	leaq	(%rdi,%r15), %rcx
	addq	%r13, %rcx
	addq	%r11, %rcx
	movq	%r8, %rsi
	negq	%rsi
	xorl	%r11d, %r11d
	.p2align	4
.LBB51_12:
	shlq	$8, %rax
	movzbl	(%rcx,%r11), %r14d
	orq	%r14, %rax
	decq	%r11
	cmpq	%r11, %rsi
	jne	.LBB51_12
.LBB51_13:
	cmpq	$3, %r10
	jae	.LBB51_15
	xorl	%r10d, %r10d
	movq	%rdx, %r11
	movq	8(%rsp), %r14
	jmp	.LBB51_19
.LBB51_15:
	movq	8(%rsp), %r14
	addq	%r14, %r9
	addq	%r15, %r9
	addq	%r13, %r9
	movq	%rdx, %rcx
	andq	$-4, %rcx
	negq	%rcx
	xorl	%r11d, %r11d
	xorl	%r10d, %r10d
	.p2align	4
.LBB51_16:
	movzbl	(%r9,%r11), %esi
	shlq	$16, %r10
	shll	$8, %esi
	orq	%r10, %rsi
	movzbl	-1(%r9,%r11), %r10d
	orq	%rsi, %r10
	movzbl	-2(%r9,%r11), %esi
	shlq	$16, %r10
	shll	$8, %esi
	orq	%r10, %rsi
	movzbl	-3(%r9,%r11), %r10d
	orq	%rsi, %r10
	addq	$-4, %r11
	cmpq	%r11, %rcx
	jne	.LBB51_16
	testb	$3, %dl
	je	.LBB51_21
	addq	%rdx, %r11
.LBB51_19:
	addq	%r14, %r11
	addq	%r15, %r11
	addq	%r13, %rdi
	addq	%r11, %rdi
	negq	%r8
	xorl	%ecx, %ecx
	.p2align	4
.LBB51_20:
	shlq	$8, %r10
	movzbl	(%rdi,%rcx), %esi
	orq	%rsi, %r10
	decq	%rcx
	cmpq	%rcx, %r8
	jne	.LBB51_20
.LBB51_21:
	cmpq	$2, %r10
	jne	.LBB51_25
	xorl	%ebp, %ebp
	movq	%r15, %rcx
	subq	$24, %rcx
	cmovbq	%rbp, %rcx
	movq	%r15, %r10
	subq	$20, %r10
	cmovbq	%rbp, %r10
	subq	%rcx, %r10
	je	.LBB51_40
	cmpq	$24, %r15
	movl	$24, %r8d
	cmovbq	%r15, %r8
	cmpq	$20, %r15
	movl	$20, %ecx
	cmovbq	%r15, %rcx
	movl	%r10d, %r9d
	andl	$3, %r9d
	movq	%rcx, %rsi
	subq	%r8, %rsi
	cmpq	$-4, %rsi
	jbe	.LBB51_34
	xorl	%ebp, %ebp
	jmp	.LBB51_38
.LBB51_25:
	xorl	%ebp, %ebp
	movq	%r15, %rcx
	subq	$16, %rcx
	cmovbq	%rbp, %rcx
	movq	%r15, %r10
	subq	$12, %r10
	cmovbq	%rbp, %r10
	subq	%rcx, %r10
	je	.LBB51_40
	cmpq	$16, %r15
	movl	$16, %r8d
	cmovbq	%r15, %r8
	cmpq	$12, %r15
	movl	$12, %ecx
	cmovbq	%r15, %rcx
	movl	%r10d, %r9d
	andl	$3, %r9d
	movq	%rcx, %rsi
	subq	%r8, %rsi
	cmpq	$-4, %rsi
	jbe	.LBB51_28
	xorl	%ebp, %ebp
	jmp	.LBB51_32
.LBB51_28:
	leaq	(%r14,%r15), %r11
	notq	%rcx
	addq	%r13, %r11
	addq	%rcx, %r11
	movq	%r10, %rcx
	andq	$-4, %rcx
	negq	%rcx
	xorl	%ebp, %ebp
	xorl	%esi, %esi
	.p2align	4
.LBB51_29:
	movzbl	(%r11,%rsi), %r14d
	shlq	$16, %rbp
	shll	$8, %r14d
	orq	%rbp, %r14
	movzbl	-1(%r11,%rsi), %edi
	orq	%r14, %rdi
	movzbl	-2(%r11,%rsi), %r14d
	shlq	$16, %rdi
	shll	$8, %r14d
	orq	%rdi, %r14
	movzbl	-3(%r11,%rsi), %ebp
	orq	%r14, %rbp
	addq	$-4, %rsi
	cmpq	%rsi, %rcx
	jne	.LBB51_29
	testq	%r9, %r9
	je	.LBB51_40
	addq	%rsi, %r10
	movq	8(%rsp), %r14
.LBB51_32:
	addq	%r14, %r10
	notq	%r8
	addq	%r15, %r8
	addq	%r13, %r8
	addq	%r10, %r8
	negq	%r9
	xorl	%ecx, %ecx
	.p2align	4
.LBB51_33:
	movq	%rbp, %rsi
	shlq	$8, %rsi
	movzbl	(%r8,%rcx), %ebp
	orq	%rsi, %rbp
	decq	%rcx
	cmpq	%rcx, %r9
	jne	.LBB51_33
	jmp	.LBB51_40
.LBB51_34:
	leaq	(%r14,%r15), %r11
	notq	%rcx
	addq	%r13, %r11
	addq	%rcx, %r11
	movq	%r10, %rcx
	andq	$-4, %rcx
	negq	%rcx
	xorl	%ebp, %ebp
	xorl	%esi, %esi
	.p2align	4
.LBB51_35:
	movzbl	(%r11,%rsi), %r14d
	shlq	$16, %rbp
	shll	$8, %r14d
	orq	%rbp, %r14
	movzbl	-1(%r11,%rsi), %edi
	orq	%r14, %rdi
	movzbl	-2(%r11,%rsi), %r14d
	shlq	$16, %rdi
	shll	$8, %r14d
	orq	%rdi, %r14
	movzbl	-3(%r11,%rsi), %ebp
	orq	%r14, %rbp
	addq	$-4, %rsi
	cmpq	%rsi, %rcx
	jne	.LBB51_35
	testq	%r9, %r9
	je	.LBB51_40
	addq	%rsi, %r10
	movq	8(%rsp), %r14
.LBB51_38:
	addq	%r14, %r10
	notq	%r8
	addq	%r15, %r8
	addq	%r13, %r8
	addq	%r10, %r8
	negq	%r9
	xorl	%ecx, %ecx
	.p2align	4
.LBB51_39:
	movq	%rbp, %rsi
	shlq	$8, %rsi
	movzbl	(%r8,%rcx), %ebp
	orq	%rsi, %rbp
	decq	%rcx
	cmpq	%rcx, %r9
	jne	.LBB51_39
.LBB51_40:
	xorl	%r8d, %r8d
	movq	%r15, %rcx
	subq	$16, %rcx
	cmovbq	%r8, %rcx
	movq	%r15, %r10
	subq	$12, %r10
	cmovbq	%r8, %r10
	movq	%r10, %r14
	subq	%rcx, %r14
	je	.LBB51_49
	cmpq	$16, %r15
	movl	$16, %r9d
	cmovbq	%r15, %r9
	cmpq	$12, %r15
	movl	$12, %ecx
	cmovbq	%r15, %rcx
	movl	%r14d, %r11d
	andl	$3, %r11d
	movq	%rcx, %rsi
	subq	%r9, %rsi
	cmpq	$-4, %rsi
	jbe	.LBB51_43
	xorl	%r8d, %r8d
	jmp	.LBB51_47
.LBB51_43:
	movq	%rbx, %rdi
	movq	8(%rsp), %rsi
	leaq	(%rsi,%r15), %r12
	notq	%rcx
	addq	%r13, %r12
	addq	%rcx, %r12
	movq	%r14, %rcx
	andq	$-4, %rcx
	negq	%rcx
	xorl	%r8d, %r8d
	xorl	%esi, %esi
	.p2align	4
.LBB51_44:
	movzbl	(%r12,%rsi), %ebx
	shlq	$16, %r8
	shll	$8, %ebx
	orq	%r8, %rbx
	movzbl	-1(%r12,%rsi), %r8d
	orq	%rbx, %r8
	movzbl	-2(%r12,%rsi), %ebx
	shlq	$16, %r8
	shll	$8, %ebx
	orq	%r8, %rbx
	movzbl	-3(%r12,%rsi), %r8d
	orq	%rbx, %r8
	addq	$-4, %rsi
	cmpq	%rsi, %rcx
	jne	.LBB51_44
	testq	%r11, %r11
	movq	%rdi, %rbx
	je	.LBB51_49
	addq	%rsi, %r14
.LBB51_47:
	addq	8(%rsp), %r14
	notq	%r9
	addq	%r15, %r9
	addq	%r14, %r9
	addq	%r13, %r9
	negq	%r11
	xorl	%ecx, %ecx
	.p2align	4
.LBB51_48:
	shlq	$8, %r8
	movzbl	(%r9,%rcx), %esi
	orq	%rsi, %r8
	decq	%rcx
	cmpq	%rcx, %r11
	jne	.LBB51_48
.LBB51_49:
	xorl	%r9d, %r9d
	cmpq	$2, %rax
	setne	%r9b
	testq	%rdx, %rdx
	movq	%rbx, 16(%rsp)
	je	.LBB51_52
	cmpq	$10, %r15
	movl	$10, %r14d
	cmovbq	%r15, %r14
	cmpq	$8, %r15
	movl	$8, %esi
	cmovbq	%r15, %rsi
	movl	%edx, %r11d
	andl	$3, %r11d
	movq	%rsi, %rcx
	subq	%r14, %rcx
	cmpq	$-4, %rcx
	jbe	.LBB51_53
	xorl	%r12d, %r12d
	jmp	.LBB51_57
.LBB51_52:
	xorl	%esi, %esi
	movq	96(%rsp), %r12
	subq	%r10, %r12
	jne	.LBB51_71
.LBB51_81:
	xorl	%r10d, %r10d
	jmp	.LBB51_82
.LBB51_53:
	movq	%r9, %rdi
	movq	8(%rsp), %rcx
	addq	%r15, %rcx
	notq	%rsi
	addq	%r13, %rcx
	addq	%rsi, %rcx
	movq	%rdx, %rsi
	andq	$-4, %rsi
	negq	%rsi
	xorl	%r12d, %r12d
	xorl	%r9d, %r9d
	.p2align	4
.LBB51_54:
	movzbl	(%rcx,%r9), %ebx
	shlq	$16, %r12
	shll	$8, %ebx
	orq	%r12, %rbx
	movzbl	-1(%rcx,%r9), %r12d
	orq	%rbx, %r12
	movzbl	-2(%rcx,%r9), %ebx
	shlq	$16, %r12
	shll	$8, %ebx
	orq	%r12, %rbx
	movzbl	-3(%rcx,%r9), %r12d
	orq	%rbx, %r12
	addq	$-4, %r9
	cmpq	%r9, %rsi
	jne	.LBB51_54
	testq	%r11, %r11
	je	.LBB51_63
	addq	%r9, %rdx
	movq	%rdi, %r9
.LBB51_57:
	addq	8(%rsp), %rdx
	addq	%r15, %rdx
	notq	%r14
	addq	%r13, %rdx
	addq	%r14, %rdx
	negq	%r11
	xorl	%ecx, %ecx
	.p2align	4
.LBB51_58:
	shlq	$8, %r12
	movzbl	(%rdx,%rcx), %esi
	orq	%rsi, %r12
	decq	%rcx
	cmpq	%rcx, %r11
	jne	.LBB51_58
	xorl	%esi, %esi
	cmpq	$2, %r12
	jne	.LBB51_70
.LBB51_60:
	movq	%r15, %rcx
	subq	$20, %rcx
	cmovbq	%rsi, %rcx
	movq	%r15, %r14
	subq	$18, %r14
	cmovbq	%rsi, %r14
	subq	%rcx, %r14
	je	.LBB51_70
	cmpq	$20, %r15
	movl	$20, %r11d
	cmovbq	%r15, %r11
	cmpq	$18, %r15
	movl	$18, %edx
	cmovbq	%r15, %rdx
	movl	%r14d, %r12d
	andl	$3, %r12d
	movq	%rdx, %rcx
	subq	%r11, %rcx
	cmpq	$-4, %rcx
	jbe	.LBB51_64
	xorl	%esi, %esi
	jmp	.LBB51_68
.LBB51_63:
	movq	%rdi, %r9
	xorl	%esi, %esi
	cmpq	$2, %r12
	je	.LBB51_60
	jmp	.LBB51_70
.LBB51_64:
	movq	%r9, %rdi
	movq	8(%rsp), %rcx
	addq	%r15, %rcx
	notq	%rdx
	addq	%r13, %rcx
	addq	%rdx, %rcx
	movq	%r14, %rdx
	andq	$-4, %rdx
	negq	%rdx
	xorl	%esi, %esi
	xorl	%r9d, %r9d
	.p2align	4
.LBB51_65:
	movzbl	(%rcx,%r9), %ebx
	shlq	$16, %rsi
	shll	$8, %ebx
	orq	%rsi, %rbx
	movzbl	-1(%rcx,%r9), %esi
	orq	%rbx, %rsi
	movzbl	-2(%rcx,%r9), %ebx
	shlq	$16, %rsi
	shll	$8, %ebx
	orq	%rsi, %rbx
	movzbl	-3(%rcx,%r9), %esi
	orq	%rbx, %rsi
	addq	$-4, %r9
	cmpq	%r9, %rdx
	jne	.LBB51_65
	testq	%r12, %r12
	je	.LBB51_80
	addq	%r9, %r14
	movq	%rdi, %r9
.LBB51_68:
	addq	8(%rsp), %r14
	notq	%r11
	addq	%r15, %r11
	addq	%r13, %r11
	addq	%r14, %r11
	negq	%r12
	xorl	%ecx, %ecx
	.p2align	4
.LBB51_69:
	shlq	$8, %rsi
	movzbl	(%r11,%rcx), %edx
	orq	%rdx, %rsi
	decq	%rcx
	cmpq	%rcx, %r12
	jne	.LBB51_69
.LBB51_70:
	movq	96(%rsp), %r12
	subq	%r10, %r12
	je	.LBB51_81
.LBB51_71:
	cmpq	$12, %r15
	movl	$12, %r14d
	cmovbq	%r15, %r14
	cmpq	$10, %r15
	movl	$10, %edx
	cmovbq	%r15, %rdx
	movl	%r12d, %r11d
	andl	$3, %r11d
	movq	%rdx, %rcx
	subq	%r14, %rcx
	cmpq	$-4, %rcx
	movq	16(%rsp), %rdi
	jbe	.LBB51_73
	xorl	%r10d, %r10d
	jmp	.LBB51_77
.LBB51_73:
	movq	%r9, %rdi
	movq	8(%rsp), %rcx
	addq	%r15, %rcx
	notq	%rdx
	addq	%r13, %rcx
	addq	%rdx, %rcx
	movq	%r12, %rdx
	andq	$-4, %rdx
	negq	%rdx
	xorl	%r10d, %r10d
	xorl	%r9d, %r9d
	.p2align	4
.LBB51_74:
	movzbl	(%rcx,%r9), %ebx
	shlq	$16, %r10
	shll	$8, %ebx
	orq	%r10, %rbx
	movzbl	-1(%rcx,%r9), %r10d
	orq	%rbx, %r10
	movzbl	-2(%rcx,%r9), %ebx
	shlq	$16, %r10
	shll	$8, %ebx
	orq	%r10, %rbx
	movzbl	-3(%rcx,%r9), %r10d
	orq	%rbx, %r10
	addq	$-4, %r9
	cmpq	%r9, %rdx
	jne	.LBB51_74
	testq	%r11, %r11
	je	.LBB51_79
	addq	%r9, %r12
	movq	%rdi, %r9
	movq	16(%rsp), %rdi
.LBB51_77:
	movq	8(%rsp), %rcx
	addq	%r12, %rcx
	addq	%r15, %rcx
	notq	%r14
	addq	%rcx, %r13
	addq	%r14, %r13
	negq	%r11
	xorl	%ecx, %ecx
	.p2align	4
.LBB51_78:
	shlq	$8, %r10
	movzbl	(%r13,%rcx), %edx
	orq	%rdx, %r10
	decq	%rcx
	cmpq	%rcx, %r11
	jne	.LBB51_78
	jmp	.LBB51_83
.LBB51_79:
	movq	%rdi, %r9
.LBB51_82:
	movq	16(%rsp), %rdi
.LBB51_83:
	movq	%r15, %rdx
	subq	%rbp, %rdx
	movq	%r15, %r14
	subq	%r8, %r14
	leaq	(%r15,%r9,8), %r8
	addq	$-24, %r8
	movq	%r15, %r11
	movq	104(%rsp), %rbp
	subq	%rbp, %r11
	jne	.LBB51_85
	xorl	%r9d, %r9d
	movq	24(%rsp), %r12
	jmp	.LBB51_93
.LBB51_85:
	movq	88(%rsp), %r13
	addq	%r13, %rbp
	movq	%r11, %rcx
	movzbl	-1(%rbp,%r11), %r9d
	decq	%rcx
	movq	24(%rsp), %r12
	je	.LBB51_93
	leaq	-2(%r11), %rcx
	movl	%r9d, %ebx
	shll	$8, %ebx
	movzbl	-2(%rbp,%r11), %r9d
	orq	%rbx, %r9
	testq	%rcx, %rcx
	je	.LBB51_93
	leaq	-3(%r11), %rcx
	movl	%r9d, %ebx
	shll	$8, %ebx
	movzbl	-3(%rbp,%r11), %r9d
	orq	%rbx, %r9
	testq	%rcx, %rcx
	je	.LBB51_93
	leaq	-4(%r11), %rcx
	movl	%r9d, %ebx
	shll	$8, %ebx
	movzbl	-4(%rbp,%r11), %r9d
	orq	%rbx, %r9
	testq	%rcx, %rcx
	je	.LBB51_93
	leaq	-5(%r11), %rcx
	movq	%r9, %rbx
	shlq	$8, %rbx
	movzbl	-5(%rbp,%r11), %r9d
	orq	%rbx, %r9
	testq	%rcx, %rcx
	je	.LBB51_93
	leaq	-6(%r11), %rcx
	movq	%r9, %rbx
	shlq	$8, %rbx
	movzbl	-6(%rbp,%r11), %r9d
	orq	%rbx, %r9
	testq	%rcx, %rcx
	je	.LBB51_93
	movq	%r9, %rcx
	shlq	$8, %rcx
	movzbl	-7(%rbp,%r11), %r9d
	addq	$-7, %r11
	orq	%rcx, %r9
	testq	%r11, %r11
	je	.LBB51_93
	shlq	$8, %r9
	movzbl	-8(%r13,%r15), %ecx
	orq	%rcx, %r9
.LBB51_93:
	movq	%rax, 32(%rsp)
	movq	%rdx, 40(%rsp)
	movq	%r14, 48(%rsp)
	movq	%r8, 56(%rsp)
	movq	%rsi, 64(%rsp)
	movq	%r10, 72(%rsp)
	movq	%r9, 80(%rsp)
	movl	$64, %eax
	testq	%r12, %r12
	je	.LBB51_95
	cmpq	$7, %r12
	movl	$7, %edx
	cmovbq	%r12, %rdx
	shll	$3, %edx
	leaq	32(%rsp), %rsi
	callq	memcpy@PLT
	movl	$64, %eax
.LBB51_95:
	addq	$136, %rsp
	popq	%rbx
	popq	%r12
	popq	%r13
	popq	%r14
	popq	%r15
	popq	%rbp
	retq
.LBB51_80:
	movq	%rdi, %r9
	movq	96(%rsp), %r12
	subq	%r10, %r12
	jne	.LBB51_71
	jmp	.LBB51_81
.Lfunc_end51:
	.size	starterbell_recipe_read, .Lfunc_end51-starterbell_recipe_read

	.section	.text.starterbell_recipe_setpoints,"ax",@progbits
	.globl	starterbell_recipe_setpoints
	.p2align	4
	.type	starterbell_recipe_setpoints,@function
starterbell_recipe_setpoints:
	pushq	%rbp
	pushq	%r15
	pushq	%r14
	pushq	%r13
	pushq	%r12
	pushq	%rbx
	subq	$88, %rsp
	movq	%r8, 80(%rsp)
	movq	%rcx, %rbx
	movl	%edx, 68(%rsp)
	movq	%rsi, %r13
	movq	%rdi, %rbp
	xorl	%r15d, %r15d
	testq	%rdi, %rdi
	sete	%r15b
	shll	$12, %r15d
	leaq	(%rdi,%r15), %rsi
	xorl	%r14d, %r14d
	testq	%rcx, %rcx
	sete	7(%rsp)
	xorl	%r12d, %r12d
	movq	%r9, 56(%rsp)
	testq	%r9, %r9
	sete	8(%rsp)
	xorps	%xmm0, %xmm0
	movaps	%xmm0, 16(%rsp)
	movq	$0, 32(%rsp)
	leaq	16(%rsp), %rdi
	movq	%r13, %rdx
	callq	"recipe::fault"
	cmpb	$0, 16(%rsp)
	movl	$9, %eax
	jne	.LBB52_104
	leaq	(%r15,%rbp), %rax
	movq	%rax, 72(%rsp)
	movq	%rbx, 48(%rsp)
	movzbl	7(%rsp), %eax
	movb	%al, %r14b
	shll	$12, %r14d
	movzbl	8(%rsp), %eax
	movb	%al, %r12b
	shll	$12, %r12d
	xorl	%ecx, %ecx
	movq	%r13, %rax
	subq	$16, %rax
	cmovbq	%rcx, %rax
	movq	%r13, %rsi
	subq	$12, %rsi
	cmovbq	%rcx, %rsi
	movq	%rsi, %rdx
	subq	%rax, %rdx
	movq	%rbp, %r11
	movq	%r13, %rbp
	movl	68(%rsp), %ebx
	movq	%r12, %r10
	je	.LBB52_11
	cmpq	$16, %rbp
	movl	$16, %eax
	cmovbq	%rbp, %rax
	cmpq	$12, %rbp
	movl	$12, %r8d
	cmovbq	%rbp, %r8
	movl	%edx, %edi
	andl	$3, %edi
	movq	%r8, %rcx
	subq	%rax, %rcx
	cmpq	$-4, %rcx
	jbe	.LBB52_4
	xorl	%ecx, %ecx
	movq	%rdx, %r9
	jmp	.LBB52_9
.LBB52_4:
	movq	%r15, %rcx
	movq	%r10, %r15
	movq	%rcx, %r13
	addq	%rbp, %rcx
	notq	%r8
	movq	%r11, %r12
	addq	%r11, %r8
	addq	%rcx, %r8
	movq	%rdx, %r10
	andq	$-4, %r10
	negq	%r10
	xorl	%r9d, %r9d
	xorl	%ecx, %ecx
	.p2align	4
.LBB52_5:
	movzbl	(%r8,%r9), %r11d
	shlq	$16, %rcx
	shll	$8, %r11d
	orq	%rcx, %r11
	movzbl	-1(%r8,%r9), %ecx
	orq	%r11, %rcx
	movzbl	-2(%r8,%r9), %r11d
	shlq	$16, %rcx
	shll	$8, %r11d
	orq	%rcx, %r11
	movzbl	-3(%r8,%r9), %ecx
	orq	%r11, %rcx
	addq	$-4, %r9
	cmpq	%r9, %r10
	jne	.LBB52_5
	testq	%rdi, %rdi
	je	.LBB52_7
	addq	%rdx, %r9
	movq	%r15, %r10
	movq	%r12, %r11
	movq	%r13, %r15
.LBB52_9:
	addq	%r15, %r9
	notq	%rax
	addq	%rbp, %rax
	addq	%r11, %rax
	addq	%r9, %rax
	negq	%rdi
	xorl	%r8d, %r8d
	.p2align	4
.LBB52_10:
	shlq	$8, %rcx
	movzbl	(%rax,%r8), %r9d
	orq	%r9, %rcx
	decq	%r8
	cmpq	%r8, %rdi
	jne	.LBB52_10
.LBB52_11:
	addq	%r14, 48(%rsp)
	addq	%r10, 56(%rsp)
	movq	%rbp, %rax
	subq	%rcx, %rax
	movq	%rax, 8(%rsp)
	xorl	%r8d, %r8d
	movq	%rbp, %rdi
	subq	$10, %rdi
	cmovbq	%r8, %rdi
	movq	%rbp, %rax
	subq	$8, %rax
	cmovbq	%r8, %rax
	subq	%rdi, %rax
	testl	%ebx, %ebx
	je	.LBB52_73
	testq	%rax, %rax
	movq	48(%rsp), %r13
	je	.LBB52_30
	cmpq	$10, %rbp
	movl	$10, %ecx
	cmovbq	%rbp, %rcx
	cmpq	$8, %rbp
	movl	$8, %edi
	cmovbq	%rbp, %rdi
	movl	%eax, %esi
	andl	$3, %esi
	movq	%rdi, %r8
	subq	%rcx, %r8
	cmpq	$-4, %r8
	jbe	.LBB52_15
	xorl	%edi, %edi
	movq	%rax, %r8
	jmp	.LBB52_20
.LBB52_73:
	testq	%rax, %rax
	je	.LBB52_74
	cmpq	$10, %rbp
	movl	$10, %edx
	cmovbq	%rbp, %rdx
	cmpq	$8, %rbp
	movl	$8, %r9d
	cmovbq	%rbp, %r9
	movl	%eax, %r8d
	andl	$3, %r8d
	movq	%r9, %r10
	subq	%rdx, %r10
	cmpq	$-4, %r10
	jbe	.LBB52_77
	xorl	%r9d, %r9d
	jmp	.LBB52_82
.LBB52_15:
	leaq	(%r15,%rbp), %r9
	notq	%rdi
	movq	%r11, %rbx
	addq	%r11, %r9
	addq	%rdi, %r9
	movq	%rax, %r10
	andq	$-4, %r10
	negq	%r10
	xorl	%r8d, %r8d
	xorl	%edi, %edi
	.p2align	4
.LBB52_16:
	movzbl	(%r9,%r8), %r11d
	shlq	$16, %rdi
	shll	$8, %r11d
	orq	%rdi, %r11
	movzbl	-1(%r9,%r8), %edi
	orq	%r11, %rdi
	movzbl	-2(%r9,%r8), %r11d
	shlq	$16, %rdi
	shll	$8, %r11d
	orq	%rdi, %r11
	movzbl	-3(%r9,%r8), %edi
	orq	%r11, %rdi
	addq	$-4, %r8
	cmpq	%r8, %r10
	jne	.LBB52_16
	testq	%rsi, %rsi
	je	.LBB52_18
	addq	%rax, %r8
	movq	%rbx, %r11
.LBB52_20:
	addq	%r15, %r8
	notq	%rcx
	addq	%rbp, %rcx
	addq	%r11, %rcx
	addq	%r8, %rcx
	negq	%rsi
	xorl	%r8d, %r8d
	.p2align	4
.LBB52_21:
	shlq	$8, %rdi
	movzbl	(%rcx,%r8), %r9d
	orq	%r9, %rdi
	decq	%r8
	cmpq	%r8, %rsi
	jne	.LBB52_21
	cmpq	$2, %rdi
	jne	.LBB52_30
.LBB52_23:
	xorl	%ecx, %ecx
	movq	%rbp, %rdx
	subq	$24, %rdx
	cmovbq	%rcx, %rdx
	movq	%rbp, %rdi
	subq	$20, %rdi
	cmovbq	%rcx, %rdi
	subq	%rdx, %rdi
	je	.LBB52_45
	cmpq	$24, %rbp
	movl	$24, %edx
	cmovbq	%rbp, %rdx
	cmpq	$20, %rbp
	movl	$20, %ecx
	cmovbq	%rbp, %rcx
	movl	%edi, %esi
	andl	$3, %esi
	movq	%rcx, %r8
	subq	%rdx, %r8
	cmpq	$-4, %r8
	jbe	.LBB52_26
	xorl	%ecx, %ecx
	jmp	.LBB52_43
.LBB52_74:
	movq	$-16, %r14
	jmp	.LBB52_85
.LBB52_7:
	movq	%r15, %r10
	movq	%r12, %r11
	movq	%r13, %r15
	jmp	.LBB52_11
.LBB52_77:
	movq	%r15, %r12
	leaq	(%r15,%rbp), %r10
	notq	%r9
	movq	%r11, %r15
	addq	%r11, %r10
	addq	%r9, %r10
	movq	%rax, %r11
	andq	$-4, %r11
	negq	%r11
	xorl	%r9d, %r9d
	xorl	%r14d, %r14d
	.p2align	4
.LBB52_78:
	movzbl	(%r10,%r14), %ebx
	shlq	$16, %r9
	shll	$8, %ebx
	orq	%r9, %rbx
	movzbl	-1(%r10,%r14), %r9d
	orq	%rbx, %r9
	movzbl	-2(%r10,%r14), %ebx
	shlq	$16, %r9
	shll	$8, %ebx
	orq	%r9, %rbx
	movzbl	-3(%r10,%r14), %r9d
	orq	%rbx, %r9
	addq	$-4, %r14
	cmpq	%r14, %r11
	jne	.LBB52_78
	testq	%r8, %r8
	je	.LBB52_80
	addq	%r14, %rax
	movq	%r15, %r11
	movq	%r12, %r15
.LBB52_82:
	addq	%r15, %rax
	notq	%rdx
	addq	%rbp, %rdx
	addq	%r11, %rdx
	addq	%rax, %rdx
	negq	%r8
	xorl	%eax, %eax
	.p2align	4
.LBB52_83:
	shlq	$8, %r9
	movzbl	(%rdx,%rax), %r10d
	orq	%r10, %r9
	decq	%rax
	cmpq	%rax, %r8
	jne	.LBB52_83
.LBB52_84:
	xorl	%eax, %eax
	cmpq	$2, %r9
	setne	%al
	leaq	-24(,%rax,8), %r14
.LBB52_85:
	subq	%rsi, %rdi
	je	.LBB52_103
	cmpq	$12, %rbp
	movl	$12, %edx
	cmovbq	%rbp, %rdx
	cmpq	$10, %rbp
	movl	$10, %r8d
	cmovbq	%rbp, %r8
	movl	%edi, %eax
	andl	$3, %eax
	movq	%r8, %rsi
	subq	%rdx, %rsi
	cmpq	$-4, %rsi
	jbe	.LBB52_88
	movq	%rbp, %rbx
	movq	%r15, %r13
	xorl	%r15d, %r15d
	leaq	(%r11,%r13), %r12
	jmp	.LBB52_93
.LBB52_88:
	movq	%rbp, %rbx
	movq	%r15, %r13
	leaq	(%r15,%rbp), %rsi
	notq	%r8
	movq	%r11, %r12
	addq	%r11, %rsi
	addq	%r8, %rsi
	movq	%rdi, %r8
	andq	$-4, %r8
	negq	%r8
	xorl	%r15d, %r15d
	xorl	%r9d, %r9d
	.p2align	4
.LBB52_89:
	movzbl	(%rsi,%r9), %r10d
	shlq	$16, %r15
	shll	$8, %r10d
	orq	%r15, %r10
	movzbl	-1(%rsi,%r9), %r11d
	orq	%r10, %r11
	movzbl	-2(%rsi,%r9), %r10d
	shlq	$16, %r11
	shll	$8, %r10d
	orq	%r11, %r10
	movzbl	-3(%rsi,%r9), %r15d
	orq	%r10, %r15
	addq	$-4, %r9
	cmpq	%r9, %r8
	jne	.LBB52_89
	testq	%rax, %rax
	je	.LBB52_91
	addq	%r9, %rdi
	movq	%r12, %r11
	addq	%r13, %r12
.LBB52_93:
	addq	%rdi, %r13
	addq	%rbx, %r13
	notq	%rdx
	addq	%r13, %r11
	addq	%rdx, %r11
	negq	%rax
	xorl	%edx, %edx
	.p2align	4
.LBB52_94:
	shlq	$8, %r15
	movzbl	(%r11,%rdx), %edi
	orq	%rdi, %r15
	decq	%rdx
	cmpq	%rdx, %rax
	jne	.LBB52_94
	testq	%r15, %r15
	movq	80(%rsp), %rbp
	je	.LBB52_103
.LBB52_96:
	addq	8(%rsp), %r12
	addq	%rcx, %r14
	xorl	%r13d, %r13d
	xorl	%ebx, %ebx
	jmp	.LBB52_97
	.p2align	4
.LBB52_102:
	addq	32(%rsp), %r13
	incq	%rbx
	cmpq	%rbx, %r15
	je	.LBB52_103
.LBB52_97:
	leaq	16(%rsp), %rdi
	movq	%r12, %rsi
	movq	%r14, %rdx
	movq	%r13, %rcx
	callq	"recipe::point_at"
	cmpb	$1, 16(%rsp)
	jne	.LBB52_103
	cmpq	%rbx, %rbp
	ja	.LBB52_99
	cmpq	%rbx, 144(%rsp)
	jbe	.LBB52_102
	jmp	.LBB52_101
	.p2align	4
.LBB52_99:
	movl	24(%rsp), %eax
	movq	48(%rsp), %rcx
	movl	%eax, (%rcx,%rbx,4)
	cmpq	%rbx, 144(%rsp)
	jbe	.LBB52_102
.LBB52_101:
	movl	28(%rsp), %eax
	movq	56(%rsp), %rcx
	movl	%eax, (%rcx,%rbx,4)
	jmp	.LBB52_102
.LBB52_18:
	movq	%rbx, %r11
	cmpq	$2, %rdi
	je	.LBB52_23
.LBB52_30:
	testq	%rdx, %rdx
	je	.LBB52_31
	cmpq	$16, %rbp
	movl	$16, %edi
	cmovbq	%rbp, %rdi
	cmpq	$12, %rbp
	movl	$12, %ecx
	cmovbq	%rbp, %rcx
	movl	%edx, %esi
	andl	$3, %esi
	movq	%rcx, %r8
	subq	%rdi, %r8
	cmpq	$-4, %r8
	jbe	.LBB52_34
	xorl	%ecx, %ecx
	jmp	.LBB52_39
.LBB52_31:
	xorl	%ecx, %ecx
	testq	%rax, %rax
	jne	.LBB52_45
	jmp	.LBB52_103
.LBB52_34:
	leaq	(%r15,%rbp), %r8
	notq	%rcx
	movq	%r11, %rbx
	addq	%r11, %r8
	addq	%rcx, %r8
	movq	%rdx, %r9
	andq	$-4, %r9
	negq	%r9
	xorl	%ecx, %ecx
	xorl	%r10d, %r10d
	.p2align	4
.LBB52_35:
	movzbl	(%r8,%r10), %r11d
	shlq	$16, %rcx
	shll	$8, %r11d
	orq	%rcx, %r11
	movzbl	-1(%r8,%r10), %ecx
	orq	%r11, %rcx
	movzbl	-2(%r8,%r10), %r11d
	shlq	$16, %rcx
	shll	$8, %r11d
	orq	%rcx, %r11
	movzbl	-3(%r8,%r10), %ecx
	orq	%r11, %rcx
	addq	$-4, %r10
	cmpq	%r10, %r9
	jne	.LBB52_35
	testq	%rsi, %rsi
	je	.LBB52_37
	addq	%r10, %rdx
	movq	%rbx, %r11
.LBB52_39:
	addq	%r15, %rdx
	addq	%rbp, %rdx
	notq	%rdi
	addq	%r11, %rdx
	addq	%rdi, %rdx
	negq	%rsi
	xorl	%edi, %edi
	.p2align	4
.LBB52_40:
	shlq	$8, %rcx
	movzbl	(%rdx,%rdi), %r8d
	orq	%r8, %rcx
	decq	%rdi
	cmpq	%rdi, %rsi
	jne	.LBB52_40
	testq	%rax, %rax
	jne	.LBB52_45
	jmp	.LBB52_103
.LBB52_26:
	leaq	(%r15,%rbp), %r8
	notq	%rcx
	movq	%r11, %rbx
	addq	%r11, %r8
	addq	%rcx, %r8
	movq	%rdi, %r9
	andq	$-4, %r9
	negq	%r9
	xorl	%ecx, %ecx
	xorl	%r10d, %r10d
	.p2align	4
.LBB52_27:
	movzbl	(%r8,%r10), %r11d
	shlq	$16, %rcx
	shll	$8, %r11d
	orq	%rcx, %r11
	movzbl	-1(%r8,%r10), %ecx
	orq	%r11, %rcx
	movzbl	-2(%r8,%r10), %r11d
	shlq	$16, %rcx
	shll	$8, %r11d
	orq	%rcx, %r11
	movzbl	-3(%r8,%r10), %ecx
	orq	%r11, %rcx
	addq	$-4, %r10
	cmpq	%r10, %r9
	jne	.LBB52_27
	testq	%rsi, %rsi
	je	.LBB52_29
	addq	%r10, %rdi
	movq	%rbx, %r11
.LBB52_43:
	addq	%r15, %rdi
	notq	%rdx
	addq	%rbp, %rdx
	addq	%r11, %rdx
	addq	%rdi, %rdx
	negq	%rsi
	xorl	%edi, %edi
	.p2align	4
.LBB52_44:
	shlq	$8, %rcx
	movzbl	(%rdx,%rdi), %r8d
	orq	%r8, %rcx
	decq	%rdi
	cmpq	%rdi, %rsi
	jne	.LBB52_44
	jmp	.LBB52_45
.LBB52_37:
	movq	%rbx, %r11
	testq	%rax, %rax
	jne	.LBB52_45
	jmp	.LBB52_103
.LBB52_80:
	movq	%r15, %r11
	movq	%r12, %r15
	jmp	.LBB52_84
.LBB52_91:
	movq	72(%rsp), %r12
	testq	%r15, %r15
	movq	80(%rsp), %rbp
	jne	.LBB52_96
	jmp	.LBB52_103
.LBB52_29:
	movq	%rbx, %r11
.LBB52_45:
	cmpq	$10, %rbp
	movl	$10, %esi
	cmovbq	%rbp, %rsi
	cmpq	$8, %rbp
	movl	$8, %edi
	cmovbq	%rbp, %rdi
	movl	%eax, %edx
	andl	$3, %edx
	movq	%rdi, %r8
	subq	%rsi, %r8
	cmpq	$-4, %r8
	jbe	.LBB52_47
	xorl	%edi, %edi
	jmp	.LBB52_52
.LBB52_47:
	leaq	(%r15,%rbp), %r8
	notq	%rdi
	movq	%r11, %rbx
	addq	%r11, %r8
	addq	%rdi, %r8
	movq	%rax, %r9
	andq	$-4, %r9
	negq	%r9
	xorl	%edi, %edi
	xorl	%r10d, %r10d
	.p2align	4
.LBB52_48:
	movzbl	(%r8,%r10), %r11d
	shlq	$16, %rdi
	shll	$8, %r11d
	orq	%rdi, %r11
	movzbl	-1(%r8,%r10), %edi
	orq	%r11, %rdi
	movzbl	-2(%r8,%r10), %r11d
	shlq	$16, %rdi
	shll	$8, %r11d
	orq	%rdi, %r11
	movzbl	-3(%r8,%r10), %edi
	orq	%r11, %rdi
	addq	$-4, %r10
	cmpq	%r10, %r9
	jne	.LBB52_48
	testq	%rdx, %rdx
	je	.LBB52_50
	addq	%r10, %rax
	movq	%rbx, %r11
.LBB52_52:
	addq	%r15, %rax
	addq	%rbp, %rax
	notq	%rsi
	addq	%r11, %rax
	addq	%rsi, %rax
	negq	%rdx
	xorl	%esi, %esi
	.p2align	4
.LBB52_53:
	shlq	$8, %rdi
	movzbl	(%rax,%rsi), %r8d
	orq	%r8, %rdi
	decq	%rsi
	cmpq	%rsi, %rdx
	jne	.LBB52_53
	cmpq	$2, %rdi
	jne	.LBB52_103
.LBB52_55:
	xorl	%eax, %eax
	movq	%rbp, %rsi
	subq	$20, %rsi
	cmovbq	%rax, %rsi
	movq	%rbp, %rdx
	subq	$18, %rdx
	cmovbq	%rax, %rdx
	subq	%rsi, %rdx
	je	.LBB52_103
	cmpq	$20, %rbp
	movl	$20, %ebx
	cmovbq	%rbp, %rbx
	cmpq	$18, %rbp
	movl	$18, %r8d
	cmovbq	%rbp, %r8
	movl	%edx, %eax
	andl	$3, %eax
	movq	%r8, %rdi
	subq	%rbx, %rdi
	cmpq	$-4, %rdi
	jbe	.LBB52_58
	movq	%rbp, %r14
	movq	%r15, %rdi
	xorl	%r15d, %r15d
	leaq	(%r11,%rdi), %rsi
	jmp	.LBB52_63
.LBB52_50:
	movq	%rbx, %r11
	cmpq	$2, %rdi
	je	.LBB52_55
	jmp	.LBB52_103
.LBB52_58:
	movq	%rbp, %r14
	movq	%r15, %rsi
	leaq	(%r15,%rbp), %rdi
	notq	%r8
	movq	%r11, %r12
	addq	%r11, %rdi
	addq	%r8, %rdi
	movq	%rdx, %r8
	andq	$-4, %r8
	negq	%r8
	xorl	%r15d, %r15d
	xorl	%r9d, %r9d
	.p2align	4
.LBB52_59:
	movzbl	(%rdi,%r9), %r10d
	shlq	$16, %r15
	shll	$8, %r10d
	orq	%r15, %r10
	movzbl	-1(%rdi,%r9), %r11d
	orq	%r10, %r11
	movzbl	-2(%rdi,%r9), %r10d
	shlq	$16, %r11
	shll	$8, %r10d
	orq	%r11, %r10
	movzbl	-3(%rdi,%r9), %r15d
	orq	%r10, %r15
	addq	$-4, %r9
	cmpq	%r9, %r8
	jne	.LBB52_59
	testq	%rax, %rax
	je	.LBB52_61
	addq	%r9, %rdx
	movq	%rsi, %rdi
	movq	%r12, %r11
	addq	%r12, %rsi
.LBB52_63:
	addq	%rdx, %rdi
	notq	%rbx
	addq	%r14, %rbx
	addq	%rbx, %r11
	addq	%rdi, %r11
	negq	%rax
	xorl	%edx, %edx
	.p2align	4
.LBB52_64:
	shlq	$8, %r15
	movzbl	(%r11,%rdx), %edi
	orq	%rdi, %r15
	decq	%rdx
	cmpq	%rdx, %rax
	jne	.LBB52_64
	testq	%r15, %r15
	movq	8(%rsp), %r12
	je	.LBB52_103
.LBB52_66:
	movq	%r13, %rbp
	subq	%rcx, %r14
	addq	%r14, %rsi
	subq	%r14, %r12
	xorl	%r14d, %r14d
	xorl	%ebx, %ebx
	jmp	.LBB52_67
	.p2align	4
.LBB52_72:
	addq	32(%rsp), %r14
	incq	%rbx
	cmpq	%rbx, %r15
	je	.LBB52_103
.LBB52_67:
	leaq	16(%rsp), %rdi
	movq	%r12, %rdx
	movq	%r14, %rcx
	movq	%rsi, %r13
	callq	"recipe::point_at"
	cmpb	$1, 16(%rsp)
	jne	.LBB52_103
	movq	%r13, %rsi
	cmpq	%rbx, 80(%rsp)
	jbe	.LBB52_70
	movl	24(%rsp), %eax
	movl	%eax, (%rbp,%rbx,4)
.LBB52_70:
	cmpq	%rbx, 144(%rsp)
	jbe	.LBB52_72
	movl	28(%rsp), %eax
	movq	56(%rsp), %rcx
	movl	%eax, (%rcx,%rbx,4)
	jmp	.LBB52_72
.LBB52_61:
	movq	72(%rsp), %rsi
	testq	%r15, %r15
	movq	8(%rsp), %r12
	jne	.LBB52_66
.LBB52_103:
	movl	$64, %eax
.LBB52_104:
	addq	$88, %rsp
	popq	%rbx
	popq	%r12
	popq	%r13
	popq	%r14
	popq	%r15
	popq	%rbp
	retq
.Lfunc_end52:
	.size	starterbell_recipe_setpoints, .Lfunc_end52-starterbell_recipe_setpoints

	.section	.text.starterbell_recipe_write,"ax",@progbits
	.globl	starterbell_recipe_write
	.p2align	4
	.type	starterbell_recipe_write,@function
starterbell_recipe_write:
	pushq	%rbp
	pushq	%r15
	pushq	%r14
	pushq	%r13
	pushq	%r12
	pushq	%rbx
	subq	$120, %rsp
	movq	184(%rsp), %rax
	movq	%rdi, 48(%rsp)
	testq	%rdi, %rdi
	sete	72(%rsp)
	movq	%rcx, 40(%rsp)
	testq	%rcx, %rcx
	sete	56(%rsp)
	xorl	%r13d, %r13d
	testq	%r9, %r9
	sete	%r15b
	xorl	%r14d, %r14d
	testq	%rax, %rax
	sete	%cl
	xorl	%ebp, %ebp
	cmpq	$0, 200(%rsp)
	sete	%r11b
	cmpq	$0, 216(%rsp)
	sete	%r10b
	movq	240(%rsp), %rbx
	xorl	%edi, %edi
	testq	%rbx, %rbx
	sete	%dil
	shll	$12, %edi
	addq	%rbx, %rdi
	movq	248(%rsp), %r12
	leaq	-1(%rdx), %rbx
	cmpq	$1, %rbx
	ja	.LBB53_4
	movq	%rax, 24(%rsp)
	movq	%rsi, 16(%rsp)
	movq	224(%rsp), %rsi
	movq	208(%rsp), %rbx
	movq	%rdx, 88(%rsp)
	cmpq	$2, %rdx
	je	.LBB53_10
	movq	%r12, %rax
	movq	%rsi, %r12
	orq	%rbx, %r12
	movq	%rax, %r12
	je	.LBB53_10
	xorl	%r13d, %r13d
	movl	$515, %r14d
	jmp	.LBB53_6
.LBB53_4:
	movl	$2, %r14d
.LBB53_5:
	xorl	%r13d, %r13d
.LBB53_6:
	movl	%r14d, %eax
	shrl	$8, %eax
	andl	$15, %r14d
	incq	%r14
	movq	%r14, 96(%rsp)
	movq	%rax, 104(%rsp)
	movq	%r13, 112(%rsp)
	testq	%r12, %r12
	je	.LBB53_8
	cmpq	$3, %r12
	movl	$3, %edx
	cmovbq	%r12, %rdx
	shll	$3, %edx
	leaq	96(%rsp), %rsi
	callq	memcpy@PLT
.LBB53_8:
	movl	$9, %eax
.LBB53_9:
	addq	$120, %rsp
	popq	%rbx
	popq	%r12
	popq	%r13
	popq	%r14
	popq	%r15
	popq	%rbp
	retq
.LBB53_10:
	movq	%r8, 32(%rsp)
	movq	176(%rsp), %r8
	cmpq	192(%rsp), %r8
	jne	.LBB53_13
	cmpq	$400, %r8
	jbe	.LBB53_14
	movl	$262, %r14d
	jmp	.LBB53_5
.LBB53_13:
	movl	$263, %r14d
	jmp	.LBB53_5
.LBB53_14:
	movq	%r9, %rax
	movb	%r15b, %r13b
	shll	$12, %r13d
	addq	%r13, %rax
	movb	%cl, %r14b
	shll	$12, %r14d
	addq	%r14, 24(%rsp)
	testq	%r8, %r8
	je	.LBB53_18
	movl	(%rax), %r9d
	movl	$265, %r14d
	cmpq	$1000000, %r9
	ja	.LBB53_22
	movq	24(%rsp), %rdx
	movl	(%rdx), %r12d
	leal	20000(%r12), %r15d
	cmpl	$40000, %r15d
	ja	.LBB53_23
	cmpq	$1, %r8
	jne	.LBB53_47
.LBB53_18:
	movq	%rax, 64(%rsp)
	movq	224(%rsp), %rax
	cmpq	%rax, %rbx
	jne	.LBB53_21
	movq	%rax, %rbx
	cmpq	$400, %rax
	movq	248(%rsp), %r12
	jbe	.LBB53_25
	movl	$518, %r14d
	jmp	.LBB53_5
.LBB53_21:
	movl	$519, %r14d
.LBB53_22:
	xorl	%r13d, %r13d
	movq	248(%rsp), %r12
	jmp	.LBB53_6
.LBB53_23:
	xorl	%r13d, %r13d
.LBB53_24:
	movl	$267, %r14d
	movq	248(%rsp), %r12
	jmp	.LBB53_6
.LBB53_25:
	movb	%r11b, %bpl
	shll	$12, %ebp
	movq	200(%rsp), %r15
	addq	%rbp, %r15
	xorl	%eax, %eax
	movb	%r10b, %al
	shll	$12, %eax
	movq	216(%rsp), %rbp
	addq	%rax, %rbp
	testq	%rbx, %rbx
	je	.LBB53_29
	movl	(%r15), %r9d
	movl	$521, %r14d
	cmpq	$1000000, %r9
	ja	.LBB53_5
	movl	(%rbp), %esi
	leal	20000(%rsi), %eax
	cmpl	$40000, %eax
	ja	.LBB53_53
	cmpq	$1, %rbx
	jne	.LBB53_57
.LBB53_29:
	xorl	%esi, %esi
	testq	%r8, %r8
	je	.LBB53_32
	xorl	%r9d, %r9d
	movq	64(%rsp), %rcx
	movq	24(%rsp), %rdx
.LBB53_31:
	movl	(%rcx,%r9,4), %eax
	movl	(%rdx,%r9,4), %r10d
	cmpl	$1, %eax
	adcl	$0, %eax
	leal	(%r10,%r10), %r11d
	bsrq	%rax, %rax
	imull	$147, %eax, %eax
	shrl	$10, %eax
	cmpl	$1, %r11d
	adcl	$0, %r11d
	testl	%r10d, %r10d
	notl	%r10d
	leal	1(%r10,%r10), %r10d
	cmovnsl	%r11d, %r10d
	bsrq	%r10, %r10
	imull	$147, %r10d, %r10d
	shrl	$10, %r10d
	addb	%al, %r10b
	movzbl	%r10b, %eax
	addq	%rax, %rsi
	addq	$2, %rsi
	incq	%r9
	cmpq	%r9, %r8
	jne	.LBB53_31
.LBB53_32:
	xorl	%r10d, %r10d
	testq	%rbx, %rbx
	je	.LBB53_35
	xorl	%r9d, %r9d
.LBB53_34:
	movl	(%r15,%r9,4), %eax
	movl	(%rbp,%r9,4), %r11d
	cmpl	$1, %eax
	adcl	$0, %eax
	leal	(%r11,%r11), %ebx
	bsrq	%rax, %rax
	imull	$147, %eax, %eax
	shrl	$10, %eax
	cmpl	$1, %ebx
	adcl	$0, %ebx
	testl	%r11d, %r11d
	notl	%r11d
	leal	1(%r11,%r11), %r11d
	cmovnsl	%ebx, %r11d
	movq	224(%rsp), %rbx
	bsrq	%r11, %r11
	imull	$147, %r11d, %r11d
	shrl	$10, %r11d
	addb	%al, %r11b
	movzbl	%r11b, %eax
	addq	%rax, %r10
	addq	$2, %r10
	incq	%r9
	cmpq	%r9, %rbx
	jne	.LBB53_34
.LBB53_35:
	movl	$1, %r14d
	cmpq	$3072, 32(%rsp)
	ja	.LBB53_5
	xorl	%r13d, %r13d
	cmpq	$2, 88(%rsp)
	sete	%r13b
	movq	32(%rsp), %r9
	leaq	(%r9,%r13,8), %rax
	addq	$16, %rax
	addq	%rsi, %rax
	addq	%r10, %rax
	cmpq	$3072, %rax
	ja	.LBB53_5
	xorl	%r14d, %r14d
	movzbl	72(%rsp), %eax
	movb	%al, %r14b
	shll	$12, %r14d
	xorl	%ecx, %ecx
	testq	%r8, %r8
	je	.LBB53_40
	xorl	%esi, %esi
	movq	64(%rsp), %rdx
	movq	24(%rsp), %r11
.LBB53_39:
	movl	(%rdx,%rsi,4), %eax
	movl	(%r11,%rsi,4), %r9d
	cmpl	$1, %eax
	adcl	$0, %eax
	leal	(%r9,%r9), %r10d
	bsrq	%rax, %rax
	imull	$147, %eax, %eax
	shrl	$10, %eax
	cmpl	$1, %r10d
	adcl	$0, %r10d
	testl	%r9d, %r9d
	notl	%r9d
	leal	1(%r9,%r9), %r9d
	cmovnsl	%r10d, %r9d
	bsrq	%r9, %r9
	imull	$147, %r9d, %r9d
	shrl	$10, %r9d
	addb	%al, %r9b
	movzbl	%r9b, %eax
	addq	%rax, %rcx
	addq	$2, %rcx
	incq	%rsi
	cmpq	%rsi, %r8
	jne	.LBB53_39
.LBB53_40:
	xorl	%edx, %edx
	testq	%rbx, %rbx
	je	.LBB53_43
	xorl	%esi, %esi
.LBB53_42:
	movl	(%r15,%rsi,4), %eax
	movl	(%rbp,%rsi,4), %r9d
	cmpl	$1, %eax
	adcl	$0, %eax
	leal	(%r9,%r9), %r10d
	bsrq	%rax, %rax
	imull	$147, %eax, %eax
	shrl	$10, %eax
	cmpl	$1, %r10d
	adcl	$0, %r10d
	testl	%r9d, %r9d
	notl	%r9d
	leal	1(%r9,%r9), %r9d
	cmovnsl	%r10d, %r9d
	bsrq	%r9, %r9
	imull	$147, %r9d, %r9d
	shrl	$10, %r9d
	addb	%al, %r9b
	movzbl	%r9b, %eax
	addq	%rax, %rdx
	addq	$2, %rdx
	incq	%rsi
	cmpq	%rsi, %rbx
	jne	.LBB53_42
.LBB53_43:
	movq	%rdx, 72(%rsp)
	movq	48(%rsp), %rax
	leaq	(%rax,%r14), %rbx
	movq	16(%rsp), %rdx
	testq	%rdx, %rdx
	je	.LBB53_63
	movq	%r14, 80(%rsp)
	movq	32(%rsp), %rax
	cmpq	%rax, %rdx
	movq	%rax, %r14
	cmovbq	%rdx, %r14
	testq	%rax, %rax
	je	.LBB53_85
	xorl	%edx, %edx
	movzbl	56(%rsp), %eax
	movb	%al, %dl
	shll	$12, %edx
	movq	40(%rsp), %rsi
	addq	%rdx, %rsi
	cmpq	$4, %r14
	jb	.LBB53_46
	movq	%rbx, %rax
	subq	%rsi, %rax
	cmpq	$32, %rax
	jae	.LBB53_69
.LBB53_46:
	xorl	%r9d, %r9d
.LBB53_79:
	movq	%r14, %r11
	movq	%r9, %r10
	andq	$3, %r11
	je	.LBB53_82
	movq	%r9, %r10
.LBB53_81:
	movzbl	(%rsi,%r10), %eax
	movb	%al, (%rbx,%r10)
	incq	%r10
	decq	%r11
	jne	.LBB53_81
.LBB53_82:
	subq	%r14, %r9
	cmpq	$-4, %r9
	ja	.LBB53_85
	movq	48(%rsp), %rax
	movq	80(%rsp), %rsi
	addq	%rsi, %rax
	addq	$3, %rax
	movq	40(%rsp), %rsi
	addq	%rdx, %rsi
	addq	$3, %rsi
.LBB53_84:
	movzbl	-3(%rsi,%r10), %edx
	movb	%dl, -3(%rax,%r10)
	movzbl	-2(%rsi,%r10), %edx
	movb	%dl, -2(%rax,%r10)
	movzbl	-1(%rsi,%r10), %edx
	movb	%dl, -1(%rax,%r10)
	movzbl	(%rsi,%r10), %edx
	movb	%dl, (%rax,%r10)
	addq	$4, %r10
	cmpq	%r10, %r14
	jne	.LBB53_84
	jmp	.LBB53_85
.LBB53_47:
	shlq	$32, %r12
	orq	%r9, %r12
	movl	$1, %r13d
.LBB53_48:
	movl	(%rax,%r13,4), %r15d
	cmpq	$1000000, %r15
	ja	.LBB53_54
	cmpl	%r12d, %r15d
	jbe	.LBB53_55
	movq	%rax, %rdx
	movq	24(%rsp), %rax
	movslq	(%rax,%r13,4), %r9
	leal	20000(%r9), %eax
	cmpl	$40000, %eax
	ja	.LBB53_24
	sarq	$32, %r12
	subq	%r9, %r12
	addq	$5000, %r12
	cmpq	$10000, %r12
	ja	.LBB53_56
	movq	%rdx, %rax
	shlq	$32, %r9
	orq	%r15, %r9
	incq	%r13
	movq	%r9, %r12
	cmpq	%r13, %r8
	jne	.LBB53_48
	jmp	.LBB53_18
.LBB53_53:
	xorl	%r13d, %r13d
	movl	$523, %r14d
	jmp	.LBB53_6
.LBB53_54:
	movq	248(%rsp), %r12
	jmp	.LBB53_6
.LBB53_55:
	movl	$266, %r14d
	movq	248(%rsp), %r12
	jmp	.LBB53_6
.LBB53_56:
	movl	$268, %r14d
	movq	248(%rsp), %r12
	jmp	.LBB53_6
.LBB53_57:
	shlq	$32, %rsi
	orq	%r9, %rsi
	movl	$1, %r13d
.LBB53_58:
	movl	(%r15,%r13,4), %r9d
	cmpq	$1000000, %r9
	ja	.LBB53_6
	cmpl	%esi, %r9d
	jbe	.LBB53_66
	movslq	(%rbp,%r13,4), %r10
	leal	20000(%r10), %eax
	cmpl	$40000, %eax
	ja	.LBB53_67
	sarq	$32, %rsi
	subq	%r10, %rsi
	addq	$5000, %rsi
	cmpq	$10000, %rsi
	ja	.LBB53_68
	shlq	$32, %r10
	orq	%r9, %r10
	incq	%r13
	movq	%r10, %rsi
	cmpq	%r13, %rbx
	jne	.LBB53_58
	jmp	.LBB53_29
.LBB53_63:
	xorl	%r14d, %r14d
.LBB53_85:
	leaq	16(,%r13,8), %rax
	movq	%rax, 40(%rsp)
	cmpq	$0, 224(%rsp)
	je	.LBB53_99
	movq	%r15, 48(%rsp)
	movq	16(%rsp), %rdx
	movq	%rdx, %r10
	negq	%r10
	movl	$1, %r11d
	subq	%rdx, %r11
	xorl	%r13d, %r13d
.LBB53_87:
	movq	%rbp, %rax
	movl	(%rbp,%r13,4), %edx
	leal	(%rdx,%rdx), %esi
	testl	%edx, %edx
	notl	%edx
	leal	1(%rdx,%rdx), %ebp
	cmovnsl	%esi, %ebp
	cmpq	16(%rsp), %r14
	jae	.LBB53_91
	movq	48(%rsp), %rdx
	movl	(%rdx,%r13,4), %r15d
	leaq	1(%r14), %r9
	leaq	2(%r14), %rsi
.LBB53_89:
	cmpq	$128, %r15
	jb	.LBB53_92
	movl	%r15d, %edx
	orb	$-128, %dl
	movb	%dl, -1(%rbx,%r9)
	shrq	$7, %r15
	leaq	(%r10,%r9), %rdx
	incq	%rdx
	incq	%r9
	incq	%rsi
	cmpq	$1, %rdx
	jne	.LBB53_89
.LBB53_91:
	movq	16(%rsp), %rdx
	cmpq	%r14, %rdx
	cmovaq	%rdx, %r14
	movq	%r14, %r9
	jmp	.LBB53_96
.LBB53_92:
	movb	%r15b, -1(%rbx,%r9)
	cmpq	16(%rsp), %r9
	jae	.LBB53_95
.LBB53_93:
	cmpq	$127, %rbp
	jbe	.LBB53_98
	movl	%ebp, %edx
	orb	$-128, %dl
	movb	%dl, -1(%rbx,%rsi)
	shrq	$7, %rbp
	leaq	(%r11,%rsi), %rdx
	incq	%rdx
	incq	%rsi
	cmpq	$2, %rdx
	jne	.LBB53_93
.LBB53_95:
	movq	16(%rsp), %rdx
.LBB53_96:
	cmpq	%r9, %rdx
	cmovaq	%rdx, %r9
	movq	%r9, %rsi
.LBB53_97:
	movq	%rax, %rbp
	incq	%r13
	movq	%rsi, %r14
	cmpq	224(%rsp), %r13
	jne	.LBB53_87
	jmp	.LBB53_100
.LBB53_98:
	movb	%bpl, -1(%rbx,%rsi)
	jmp	.LBB53_97
.LBB53_99:
	movq	%r14, %rsi
.LBB53_100:
	addq	40(%rsp), %rcx
	testq	%r8, %r8
	je	.LBB53_115
	movq	16(%rsp), %rax
	movq	%rax, %r10
	negq	%r10
	movl	$1, %r11d
	subq	%rax, %r11
	xorl	%r14d, %r14d
	jmp	.LBB53_102
.LBB53_106:
	movq	16(%rsp), %rax
	cmpq	%rsi, %rax
	cmovaq	%rax, %rsi
	movq	%rsi, %r9
	movq	248(%rsp), %r12
.LBB53_113:
	cmpq	%r9, %rax
	cmovaq	%rax, %r9
	movq	%r9, %rax
	incq	%r14
	movq	%rax, %rsi
	cmpq	%r8, %r14
	je	.LBB53_116
.LBB53_102:
	movq	24(%rsp), %rax
	movl	(%rax,%r14,4), %eax
	leal	(%rax,%rax), %edx
	testl	%eax, %eax
	notl	%eax
	leal	1(%rax,%rax), %r15d
	cmovnsl	%edx, %r15d
	cmpq	16(%rsp), %rsi
	jae	.LBB53_106
	movq	64(%rsp), %rax
	movl	(%rax,%r14,4), %r12d
	leaq	1(%rsi), %r9
	leaq	2(%rsi), %rax
.LBB53_104:
	cmpq	$128, %r12
	jb	.LBB53_107
	movl	%r12d, %edx
	orb	$-128, %dl
	movb	%dl, -1(%rbx,%r9)
	shrq	$7, %r12
	leaq	(%r10,%r9), %rdx
	incq	%rdx
	incq	%r9
	incq	%rax
	cmpq	$1, %rdx
	jne	.LBB53_104
	jmp	.LBB53_106
.LBB53_107:
	movb	%r12b, -1(%rbx,%r9)
	cmpq	16(%rsp), %r9
	jae	.LBB53_111
	movq	248(%rsp), %r12
.LBB53_109:
	cmpq	$127, %r15
	jbe	.LBB53_114
	movl	%r15d, %edx
	orb	$-128, %dl
	movb	%dl, -1(%rbx,%rax)
	shrq	$7, %r15
	leaq	(%r11,%rax), %rdx
	incq	%rdx
	incq	%rax
	cmpq	$2, %rdx
	jne	.LBB53_109
	jmp	.LBB53_112
.LBB53_111:
	movq	248(%rsp), %r12
.LBB53_112:
	movq	16(%rsp), %rax
	jmp	.LBB53_113
.LBB53_114:
	movb	%r15b, -1(%rbx,%rax)
	incq	%r14
	movq	%rax, %rsi
	cmpq	%r8, %r14
	jne	.LBB53_102
	jmp	.LBB53_116
.LBB53_115:
	movq	%rsi, %rax
.LBB53_116:
	movq	232(%rsp), %r10
	movq	72(%rsp), %r13
	addq	%rcx, %r13
	movq	88(%rsp), %r9
	cmpq	$2, %r9
	jne	.LBB53_134
	cmpq	16(%rsp), %rax
	jae	.LBB53_119
	movq	%r13, %rdx
	movb	%dl, (%rbx,%rax)
.LBB53_119:
	leaq	1(%rax), %rdx
	movq	16(%rsp), %rsi
	cmpq	%rax, %rsi
	cmoveq	%rsi, %rdx
	cmovbq	%rax, %rdx
	cmpq	%rsi, %rdx
	jae	.LBB53_121
	movq	%r13, %rax
	movb	%ah, (%rbx,%rdx)
.LBB53_121:
	leaq	1(%rdx), %rax
	movq	16(%rsp), %rsi
	cmpq	%rdx, %rsi
	cmoveq	%rsi, %rax
	cmovbq	%rdx, %rax
	cmpq	%rsi, %rax
	jae	.LBB53_123
	movq	%r13, %rdx
	shrl	$16, %edx
	movb	%dl, (%rbx,%rax)
.LBB53_123:
	leaq	1(%rax), %rdx
	movq	16(%rsp), %rsi
	cmpq	%rax, %rsi
	cmoveq	%rsi, %rdx
	cmovbq	%rax, %rdx
	movq	%rsi, %rax
	cmpq	%rsi, %rdx
	jae	.LBB53_125
	movq	%r13, %rax
	shrl	$24, %eax
	movb	%al, (%rbx,%rdx)
	movq	16(%rsp), %rax
.LBB53_125:
	leaq	1(%rdx), %r9
	cmpq	%rdx, %rax
	cmoveq	%rax, %r9
	cmovbq	%rdx, %r9
	cmpq	%rax, %r9
	jae	.LBB53_127
	movq	224(%rsp), %rax
	movb	%al, (%rbx,%r9)
.LBB53_127:
	leaq	1(%r9), %rax
	movq	16(%rsp), %rdx
	cmpq	%r9, %rdx
	cmoveq	%rdx, %rax
	cmovbq	%r9, %rax
	cmpq	%rdx, %rax
	jae	.LBB53_129
	movq	224(%rsp), %rdx
	movb	%dh, (%rbx,%rax)
.LBB53_129:
	leaq	1(%rax), %rdx
	movq	16(%rsp), %rsi
	cmpq	%rax, %rsi
	cmoveq	%rsi, %rdx
	cmovbq	%rax, %rdx
	cmpq	%rsi, %rdx
	jae	.LBB53_131
	movb	$0, (%rbx,%rdx)
.LBB53_131:
	movq	32(%rsp), %r14
	movq	%rdi, %r15
	leaq	1(%rdx), %rax
	movq	16(%rsp), %rsi
	cmpq	%rdx, %rsi
	cmoveq	%rsi, %rax
	cmovbq	%rdx, %rax
	cmpq	%rsi, %rax
	jae	.LBB53_133
	movb	$0, (%rbx,%rax)
.LBB53_133:
	leaq	1(%rax), %rdx
	movq	16(%rsp), %rsi
	cmpq	%rax, %rsi
	cmoveq	%rsi, %rdx
	cmovbq	%rax, %rdx
	movq	%r10, (%rsp)
	movl	$2, %r9d
	movq	%rbx, %rdi
	jmp	.LBB53_135
.LBB53_134:
	movq	32(%rsp), %r14
	movq	%rdi, %r15
	movq	%r10, (%rsp)
	movq	%rbx, %rdi
	movq	16(%rsp), %rsi
	movq	%rax, %rdx
.LBB53_135:
	callq	"recipe_fields::put_last"
	movl	$64, %eax
	testq	%r12, %r12
	je	.LBB53_9
	addq	%r14, %r13
	movq	%r13, (%r15)
	jmp	.LBB53_9
.LBB53_66:
	movl	$522, %r14d
	jmp	.LBB53_6
.LBB53_67:
	movl	$523, %r14d
	jmp	.LBB53_6
.LBB53_68:
	movl	$524, %r14d
	jmp	.LBB53_6
.LBB53_69:
	movq	%rdx, %rax
	cmpq	$32, %r14
	jae	.LBB53_71
	xorl	%r9d, %r9d
	jmp	.LBB53_76
.LBB53_71:
	movq	%rbp, 56(%rsp)
	movq	%r15, %rbp
	movl	%r14d, %r9d
	andl	$4064, %r9d
	movq	48(%rsp), %rdx
	movq	80(%rsp), %r10
	addq	%rdx, %r10
	addq	$16, %r10
	movq	40(%rsp), %r11
	addq	%rax, %r11
	addq	$16, %r11
	xorl	%r15d, %r15d
.LBB53_72:
	movups	-16(%r11,%r15), %xmm0
	movups	(%r11,%r15), %xmm1
	movups	%xmm0, -16(%r10,%r15)
	movups	%xmm1, (%r10,%r15)
	addq	$32, %r15
	cmpq	%r15, %r9
	jne	.LBB53_72
	cmpq	%r9, %r14
	jne	.LBB53_75
	movq	248(%rsp), %r12
	movq	%rbp, %r15
	movq	56(%rsp), %rbp
	jmp	.LBB53_85
.LBB53_75:
	testb	$28, %r14b
	movq	248(%rsp), %r12
	movq	%rbp, %r15
	movq	56(%rsp), %rbp
	movq	%rax, %rdx
	je	.LBB53_79
.LBB53_76:
	movq	%r9, %r10
	movl	%r14d, %r9d
	andl	$4092, %r9d
.LBB53_77:
	movl	(%rsi,%r10), %r11d
	movl	%r11d, (%rbx,%r10)
	addq	$4, %r10
	cmpq	%r10, %r9
	jne	.LBB53_77
	cmpq	%r9, %r14
	movq	248(%rsp), %r12
	movq	%rax, %rdx
	je	.LBB53_85
	jmp	.LBB53_79
.Lfunc_end53:
	.size	starterbell_recipe_write, .Lfunc_end53-starterbell_recipe_write

	.section	.text.starterbell_remove,"ax",@progbits
	.globl	starterbell_remove
	.p2align	4
	.type	starterbell_remove,@function
starterbell_remove:
	pushq	%rbp
	pushq	%r15
	pushq	%r14
	pushq	%r13
	pushq	%r12
	pushq	%rbx
	subq	$776, %rsp
	movq	%rcx, %r14
	xorl	%r12d, %r12d
	testq	%rdx, %rdx
	sete	%cl
	xorl	%r15d, %r15d
	testq	%r8, %r8
	sete	%r10b
	xorl	%eax, %eax
	cmpq	$616, %rsi
	jb	.LBB54_20
	movb	%r10b, 7(%rsp)
	movq	%r8, 88(%rsp)
	movq	%r9, 8(%rsp)
	movb	%cl, %r12b
	shll	$12, %r12d
	movq	%rdx, 80(%rsp)
	leaq	(%rdx,%r12), %rbp
	xorl	%r13d, %r13d
	testq	%rdi, %rdi
	sete	%r13b
	shll	$12, %r13d
	leaq	(%rdi,%r13), %rsi
	addq	$104, %rsi
	leaq	168(%rsp), %rax
	movl	$512, %edx
	movq	%rdi, %rbx
	movq	%rax, %rdi
	callq	memcpy@PLT
	movups	40(%rbx,%r13), %xmm0
	movups	56(%rbx,%r13), %xmm1
	movups	72(%rbx,%r13), %xmm2
	movups	88(%rbx,%r13), %xmm3
	movups	%xmm3, 728(%rsp)
	movups	%xmm2, 712(%rsp)
	movups	%xmm1, 696(%rsp)
	movups	%xmm0, 680(%rsp)
	movups	8(%rbx,%r13), %xmm0
	movups	24(%rbx,%r13), %xmm1
	movups	%xmm1, 760(%rsp)
	movups	%xmm0, 744(%rsp)
	movzbl	2(%rbx,%r13), %eax
	movups	8(%rbx,%r13), %xmm0
	movups	24(%rbx,%r13), %xmm1
	movaps	%xmm1, 32(%rsp)
	movaps	%xmm0, 16(%rsp)
	decb	%al
	leaq	16(%rsp), %rdx
	cmpb	$64, %al
	jae	.LBB54_2
	movq	%rbp, %rdi
	movq	%r14, %rbx
	movq	%r14, %rsi
	callq	"contact_form::in_form"
	movl	%eax, %ecx
	xorl	%eax, %eax
	testb	%cl, %cl
	je	.LBB54_20
	movq	8(%rsp), %rdx
	leaq	-1(%rdx), %rax
	cmpq	$63, %rax
	ja	.LBB54_10
	movq	%rbp, %r14
	movzbl	7(%rsp), %eax
	movb	%al, %r15b
	shll	$12, %r15d
	movq	88(%rsp), %rsi
	addq	%r15, %rsi
	leaq	48(%rsp), %rdi
	callq	"sha256::hash"
	movzbl	48(%rsp), %ebp
	movups	49(%rsp), %xmm0
	movaps	%xmm0, 128(%rsp)
	movups	64(%rsp), %xmm0
	movups	%xmm0, 143(%rsp)
	movb	%bpl, 96(%rsp)
	movaps	128(%rsp), %xmm0
	movups	%xmm0, 97(%rsp)
	movups	143(%rsp), %xmm0
	movups	%xmm0, 112(%rsp)
	cmpb	16(%rsp), %bpl
	jne	.LBB54_11
	movzbl	17(%rsp), %eax
	cmpb	%al, 97(%rsp)
	jne	.LBB54_11
	movzbl	18(%rsp), %eax
	cmpb	%al, 98(%rsp)
	jne	.LBB54_11
	movzbl	19(%rsp), %eax
	cmpb	%al, 99(%rsp)
	jne	.LBB54_11
	leaq	96(%rsp), %rdi
	leaq	16(%rsp), %rdx
	movl	$32, %esi
	callq	"core::cmp::slices::groups_equal::<i8,31'core::cmp::numbers::U8PartialEq{}>"
	testb	%al, %al
	je	.LBB54_11
.LBB54_10:
	movl	$12, %eax
	jmp	.LBB54_20
.LBB54_2:
	movq	%rbp, %rdi
	movq	%r14, %rsi
	callq	"contact_form::in_form"
	xorl	%ecx, %ecx
	testb	%al, %al
	movl	$12, %eax
	cmovel	%ecx, %eax
.LBB54_20:
	addq	$776, %rsp
	popq	%rbx
	popq	%r12
	popq	%r13
	popq	%r14
	popq	%r15
	popq	%rbp
	retq
.LBB54_11:
	movq	%r14, 8(%rsp)
	movups	143(%rsp), %xmm0
	movups	%xmm0, 64(%rsp)
	movaps	128(%rsp), %xmm0
	movups	%xmm0, 49(%rsp)
	movb	%bpl, 48(%rsp)
	movl	%ebx, %eax
	imulq	$892460737, %rax, %rax
	shrq	$39, %rax
	cmpq	$3153920, %rbx
	movl	$5120, %r13d
	cmovbq	%rax, %r13
	movl	$15, %eax
	testq	%r13, %r13
	je	.LBB54_20
	movq	48(%rsp), %rbp
	movq	80(%rsp), %rcx
	leaq	(%r12,%rcx), %r15
	addq	$8, %r15
	xorl	%r12d, %r12d
	xorl	%r14d, %r14d
	jmp	.LBB54_13
	.p2align	4
.LBB54_16:
	incq	%r12
	addq	$616, %r14
	cmpq	%r12, %r13
	je	.LBB54_20
.LBB54_13:
	cmpb	$0, -8(%r15,%r14)
	je	.LBB54_16
	cmpq	%rbp, (%r15,%r14)
	jne	.LBB54_16
	leaq	(%r15,%r14), %rdi
	leaq	48(%rsp), %rdx
	movl	$32, %esi
	callq	"core::cmp::slices::groups_equal::<i8,31'core::cmp::numbers::U8PartialEq{}>"
	movl	%eax, %ecx
	movl	$15, %eax
	testb	%cl, %cl
	je	.LBB54_16
	cmpq	%r12, %r13
	movq	8(%rsp), %r15
	jbe	.LBB54_20
	movq	%r15, %rdi
	movq	%rbx, %rsi
	leaq	744(%rsp), %rdx
	movq	%r12, %rcx
	callq	"contact_order::leave_order"
	movl	$64, %eax
	subq	%r14, %rbx
	jbe	.LBB54_20
	addq	%r14, %r15
	cmpq	$616, %rbx
	movl	$616, %edx
	cmovbq	%rbx, %rdx
	movq	%r15, %rdi
	xorl	%esi, %esi
	callq	memset@PLT
	movl	$64, %eax
	jmp	.LBB54_20
.Lfunc_end54:
	.size	starterbell_remove, .Lfunc_end54-starterbell_remove

	.section	.text.starterbell_seen,"ax",@progbits
	.globl	starterbell_seen
	.p2align	4
	.type	starterbell_seen,@function
starterbell_seen:
	pushq	%rbp
	pushq	%r15
	pushq	%r14
	pushq	%r13
	pushq	%r12
	pushq	%rbx
	subq	$872, %rsp
	movq	%rcx, %r12
	movq	%rdx, %r15
	movq	936(%rsp), %r13
	xorl	%ecx, %ecx
	testq	%rdx, %rdx
	sete	%dl
	xorl	%ebx, %ebx
	testq	%r8, %r8
	sete	%bpl
	testq	%r13, %r13
	sete	%r11b
	cmpq	$0, 952(%rsp)
	sete	%r10b
	xorl	%eax, %eax
	cmpq	$616, %rsi
	jb	.LBB55_14
	movb	%bpl, 39(%rsp)
	movb	%r11b, 38(%rsp)
	movb	%r10b, 37(%rsp)
	movq	%r9, 120(%rsp)
	movq	%r8, 40(%rsp)
	movb	%dl, %cl
	shll	$12, %ecx
	addq	%rcx, %r15
	xorl	%ebp, %ebp
	testq	%rdi, %rdi
	sete	%bpl
	shll	$12, %ebp
	leaq	(%rdi,%rbp), %rsi
	addq	$104, %rsi
	leaq	264(%rsp), %rax
	movl	$512, %edx
	movq	%rdi, %r14
	movq	%rax, %rdi
	callq	memcpy@PLT
	movups	40(%r14,%rbp), %xmm0
	movups	56(%r14,%rbp), %xmm1
	movups	72(%r14,%rbp), %xmm2
	movups	88(%r14,%rbp), %xmm3
	movups	%xmm3, 824(%rsp)
	movups	%xmm2, 808(%rsp)
	movups	%xmm1, 792(%rsp)
	movups	%xmm0, 776(%rsp)
	movups	8(%r14,%rbp), %xmm0
	movups	24(%r14,%rbp), %xmm1
	movups	%xmm1, 856(%rsp)
	movups	%xmm0, 840(%rsp)
	movzbl	2(%r14,%rbp), %eax
	movups	8(%r14,%rbp), %xmm0
	movups	24(%r14,%rbp), %xmm1
	movaps	%xmm1, 96(%rsp)
	movaps	%xmm0, 80(%rsp)
	decb	%al
	cmpb	$64, %al
	jae	.LBB55_10
	xorps	%xmm0, %xmm0
	movaps	%xmm0, 48(%rsp)
	movq	$0, 64(%rsp)
	leaq	80(%rsp), %rdx
	movq	%r15, %rdi
	movq	%r12, %rsi
	callq	"contact_form::in_form"
	testb	%al, %al
	je	.LBB55_12
	movq	120(%rsp), %r14
	leaq	-1(%r14), %rax
	cmpq	$63, %rax
	ja	.LBB55_9
	movzbl	39(%rsp), %eax
	movb	%al, %bl
	shll	$12, %ebx
	movq	40(%rsp), %rsi
	addq	%rbx, %rsi
	leaq	232(%rsp), %rdi
	movq	%rsi, 40(%rsp)
	movq	%r14, %rdx
	callq	"sha256::hash"
	movzbl	232(%rsp), %ebx
	movups	233(%rsp), %xmm0
	movaps	%xmm0, 160(%rsp)
	movups	248(%rsp), %xmm0
	movups	%xmm0, 175(%rsp)
	movb	%bl, 128(%rsp)
	movaps	160(%rsp), %xmm0
	movups	%xmm0, 129(%rsp)
	movups	175(%rsp), %xmm0
	movups	%xmm0, 144(%rsp)
	cmpb	80(%rsp), %bl
	jne	.LBB55_15
	movzbl	81(%rsp), %eax
	cmpb	%al, 129(%rsp)
	jne	.LBB55_15
	movzbl	82(%rsp), %eax
	cmpb	%al, 130(%rsp)
	jne	.LBB55_15
	movzbl	83(%rsp), %eax
	cmpb	%al, 131(%rsp)
	jne	.LBB55_15
	leaq	128(%rsp), %rdi
	leaq	80(%rsp), %rdx
	movl	$32, %esi
	callq	"core::cmp::slices::groups_equal::<i8,31'core::cmp::numbers::U8PartialEq{}>"
	testb	%al, %al
	je	.LBB55_15
.LBB55_9:
	movb	$12, %al
	jmp	.LBB55_13
.LBB55_10:
	leaq	80(%rsp), %rdx
	movq	%r15, %rdi
	movq	%r12, %rsi
	callq	"contact_form::in_form"
	xorl	%ecx, %ecx
	testb	%al, %al
	movl	$12, %eax
	cmovel	%ecx, %eax
	jmp	.LBB55_13
.LBB55_12:
	xorl	%eax, %eax
.LBB55_13:
	movzbl	%al, %eax
.LBB55_14:
	addq	$872, %rsp
	popq	%rbx
	popq	%r12
	popq	%r13
	popq	%r14
	popq	%r15
	popq	%rbp
	retq
.LBB55_15:
	cmpl	$0, 928(%rsp)
	movups	175(%rsp), %xmm0
	movups	%xmm0, 216(%rsp)
	movaps	160(%rsp), %xmm0
	movups	%xmm0, 201(%rsp)
	movb	%bl, 200(%rsp)
	movb	$18, %al
	jne	.LBB55_13
	movq	944(%rsp), %rax
	xorl	%ecx, %ecx
	movzbl	38(%rsp), %edx
	movb	%dl, %cl
	shll	$12, %ecx
	addq	%rcx, %r13
	leaq	840(%rsp), %rcx
	movq	%rax, 16(%rsp)
	movq	%r13, 8(%rsp)
	leaq	200(%rsp), %rax
	movq	%rax, (%rsp)
	leaq	48(%rsp), %rdi
	movq	%r15, %rsi
	movq	%r12, %rdx
	movq	40(%rsp), %r8
	movq	%r14, %r9
	callq	"contact_calls::see"
	cmpb	$0, 48(%rsp)
	je	.LBB55_18
	movzbl	49(%rsp), %eax
	jmp	.LBB55_13
.LBB55_18:
	movq	960(%rsp), %rdx
	xorl	%edi, %edi
	movzbl	37(%rsp), %eax
	movb	%al, %dil
	shll	$12, %edi
	movzbl	56(%rsp), %eax
	movq	64(%rsp), %rcx
	cmpl	$2, %eax
	je	.LBB55_22
	cmpl	$1, %eax
	movq	952(%rsp), %rsi
	jne	.LBB55_24
	movl	$65, %eax
	testq	%rdx, %rdx
	jne	.LBB55_25
	jmp	.LBB55_14
.LBB55_22:
	movl	$13, %eax
	testq	%rdx, %rdx
	movq	952(%rsp), %rdx
	je	.LBB55_14
	movq	%rcx, (%rdx,%rdi)
	jmp	.LBB55_14
.LBB55_24:
	movl	$64, %eax
	testq	%rdx, %rdx
	je	.LBB55_14
.LBB55_25:
	movq	%rcx, (%rsi,%rdi)
	jmp	.LBB55_14
.Lfunc_end55:
	.size	starterbell_seen, .Lfunc_end55-starterbell_seen

	.section	.text.starterbell_settle,"ax",@progbits
	.globl	starterbell_settle
	.p2align	4
	.type	starterbell_settle,@function
starterbell_settle:
	pushq	%rbp
	pushq	%r15
	pushq	%r14
	pushq	%r13
	pushq	%r12
	pushq	%rbx
	subq	$2152, %rsp
	xorl	%r11d, %r11d
	testq	%rdx, %rdx
	sete	%r10b
	xorl	%ebx, %ebx
	testq	%r8, %r8
	sete	%r14b
	cmpq	$0, 2208(%rsp)
	sete	%r15b
	cmpq	$0, 2232(%rsp)
	sete	%bpl
	xorl	%eax, %eax
	cmpq	$616, %rsi
	jb	.LBB56_12
	movb	%r15b, 40(%rsp)
	movb	%bpl, 32(%rsp)
	movq	%rcx, 56(%rsp)
	movq	%r8, 48(%rsp)
	movq	%r9, 16(%rsp)
	movb	%r10b, %r11b
	shll	$12, %r11d
	movq	%rdx, 200(%rsp)
	movq	%r11, 192(%rsp)
	leaq	(%rdx,%r11), %r12
	xorl	%r13d, %r13d
	testq	%rdi, %rdi
	sete	%r13b
	shll	$12, %r13d
	leaq	(%rdi,%r13), %rsi
	addq	$104, %rsi
	leaq	424(%rsp), %r15
	movl	$512, %edx
	movq	%rdi, %rbp
	movq	%r15, %rdi
	callq	memcpy@PLT
	movups	40(%rbp,%r13), %xmm0
	movups	56(%rbp,%r13), %xmm1
	movups	72(%rbp,%r13), %xmm2
	movups	88(%rbp,%r13), %xmm3
	movups	%xmm3, 984(%rsp)
	movups	%xmm2, 968(%rsp)
	movups	%xmm1, 952(%rsp)
	movups	%xmm0, 936(%rsp)
	movups	8(%rbp,%r13), %xmm0
	movups	24(%rbp,%r13), %xmm1
	movups	%xmm1, 1016(%rsp)
	movups	%xmm0, 1000(%rsp)
	movzbl	2(%rbp,%r13), %ebp
	leaq	1544(%rsp), %rdi
	movl	$608, %edx
	movq	%r15, %rsi
	callq	memcpy@PLT
	movups	2120(%rsp), %xmm0
	movups	2136(%rsp), %xmm1
	movaps	%xmm1, 96(%rsp)
	movaps	%xmm0, 80(%rsp)
	decb	%bpl
	cmpb	$64, %bpl
	jae	.LBB56_10
	xorps	%xmm0, %xmm0
	movaps	%xmm0, 208(%rsp)
	movaps	%xmm0, 224(%rsp)
	leaq	80(%rsp), %rdx
	movq	%r12, %rdi
	movq	56(%rsp), %rsi
	callq	"contact_form::in_form"
	testb	%al, %al
	je	.LBB56_11
	movq	%r12, 24(%rsp)
	movq	16(%rsp), %rdx
	leaq	-1(%rdx), %rax
	cmpq	$63, %rax
	ja	.LBB56_9
	movb	%r14b, %bl
	shll	$12, %ebx
	movq	48(%rsp), %rsi
	addq	%rbx, %rsi
	leaq	424(%rsp), %rdi
	callq	"sha256::hash"
	movzbl	424(%rsp), %ebp
	movups	425(%rsp), %xmm0
	movaps	%xmm0, 128(%rsp)
	movups	440(%rsp), %xmm0
	movups	%xmm0, 143(%rsp)
	movb	%bpl, 1032(%rsp)
	movaps	128(%rsp), %xmm0
	movups	%xmm0, 1033(%rsp)
	movups	143(%rsp), %xmm0
	movups	%xmm0, 1048(%rsp)
	movzbl	80(%rsp), %ebx
	movzbl	81(%rsp), %r15d
	movzbl	82(%rsp), %r14d
	movzbl	83(%rsp), %r13d
	cmpb	%bl, %bpl
	jne	.LBB56_13
	cmpb	%r15b, 1033(%rsp)
	jne	.LBB56_13
	cmpb	%r14b, 1034(%rsp)
	jne	.LBB56_13
	cmpb	%r13b, 1035(%rsp)
	jne	.LBB56_13
	leaq	1032(%rsp), %rdi
	leaq	80(%rsp), %rdx
	movl	$32, %esi
	callq	"core::cmp::slices::groups_equal::<i8,31'core::cmp::numbers::U8PartialEq{}>"
	testb	%al, %al
	jne	.LBB56_9
.LBB56_13:
	movq	2216(%rsp), %rax
	movups	143(%rsp), %xmm0
	movups	%xmm0, 255(%rsp)
	movaps	128(%rsp), %xmm0
	movaps	%xmm0, 240(%rsp)
	movb	%bpl, 360(%rsp)
	movaps	240(%rsp), %xmm0
	movups	%xmm0, 361(%rsp)
	movups	255(%rsp), %xmm0
	movups	%xmm0, 376(%rsp)
	decq	%rax
	cmpq	$63, %rax
	movq	2208(%rsp), %r12
	ja	.LBB56_9
	xorl	%eax, %eax
	movzbl	40(%rsp), %ecx
	movb	%cl, %al
	shll	$12, %eax
	addq	%rax, %r12
	leaq	424(%rsp), %rdi
	movq	%r12, %rsi
	movq	2216(%rsp), %rdx
	callq	"sha256::hash"
	movq	2216(%rsp), %rdx
	movzbl	424(%rsp), %ebp
	movups	425(%rsp), %xmm0
	movaps	%xmm0, 128(%rsp)
	movups	440(%rsp), %xmm0
	movups	%xmm0, 143(%rsp)
	movb	%bpl, 1032(%rsp)
	movaps	128(%rsp), %xmm0
	movups	%xmm0, 1033(%rsp)
	movups	143(%rsp), %xmm0
	movups	%xmm0, 1048(%rsp)
	cmpb	%bl, %bpl
	jne	.LBB56_20
	cmpb	%r15b, 1033(%rsp)
	jne	.LBB56_20
	cmpb	%r14b, 1034(%rsp)
	jne	.LBB56_20
	cmpb	%r13b, 1035(%rsp)
	jne	.LBB56_20
	leaq	1032(%rsp), %rdi
	leaq	80(%rsp), %rdx
	movl	$32, %esi
	callq	"core::cmp::slices::groups_equal::<i8,31'core::cmp::numbers::U8PartialEq{}>"
	movq	2216(%rsp), %rdx
	testb	%al, %al
	je	.LBB56_20
.LBB56_9:
	movl	$12, %eax
	jmp	.LBB56_12
.LBB56_10:
	leaq	80(%rsp), %rdx
	movq	%r12, %rdi
	movq	56(%rsp), %rsi
	callq	"contact_form::in_form"
	xorl	%ecx, %ecx
	testb	%al, %al
	movl	$12, %eax
	cmovel	%ecx, %eax
	jmp	.LBB56_12
.LBB56_11:
	xorl	%eax, %eax
.LBB56_12:
	addq	$2152, %rsp
	popq	%rbx
	popq	%r12
	popq	%r13
	popq	%r14
	popq	%r15
	popq	%rbp
	retq
.LBB56_20:
	cmpl	$0, 2224(%rsp)
	movups	143(%rsp), %xmm0
	movups	%xmm0, 255(%rsp)
	movaps	128(%rsp), %xmm0
	movaps	%xmm0, 240(%rsp)
	movb	%bpl, 208(%rsp)
	movaps	240(%rsp), %xmm0
	movups	%xmm0, 209(%rsp)
	movups	255(%rsp), %xmm0
	movups	%xmm0, 224(%rsp)
	je	.LBB56_22
	leaq	80(%rsp), %rdx
	leaq	360(%rsp), %rcx
	leaq	208(%rsp), %r8
	movq	24(%rsp), %rdi
	movq	56(%rsp), %rsi
	callq	"sightings::still_fits"
	movzbl	%al, %eax
	leal	(%rax,%rax,2), %eax
	addl	$15, %eax
	jmp	.LBB56_12
.LBB56_22:
	movq	2240(%rsp), %rbx
	xorl	%eax, %eax
	movzbl	32(%rsp), %ecx
	movb	%cl, %al
	shll	$12, %eax
	movq	2232(%rsp), %r14
	addq	%rax, %r14
	movq	208(%rsp), %rax
	movq	%rax, 48(%rsp)
	movq	216(%rsp), %rax
	movq	%rax, 40(%rsp)
	movq	224(%rsp), %rax
	movq	%rax, 32(%rsp)
	movq	232(%rsp), %rax
	movq	%rax, 72(%rsp)
	xorps	%xmm0, %xmm0
	movaps	%xmm0, 128(%rsp)
	movaps	%xmm0, 144(%rsp)
	movaps	%xmm0, 160(%rsp)
	movaps	%xmm0, 176(%rsp)
	leaq	128(%rsp), %rdi
	movq	%r12, %rsi
	callq	memcpy@PLT
	leaq	1032(%rsp), %rdi
	xorl	%r15d, %r15d
	movl	$512, %edx
	xorl	%esi, %esi
	callq	memset@PLT
	movl	$0, 328(%rsp)
	xorl	%esi, %esi
	movq	56(%rsp), %r13
	jmp	.LBB56_24
.LBB56_23:
	movq	%r14, %rsi
	cmpq	$4, %r15
	movq	%rbp, %r14
	jae	.LBB56_29
.LBB56_24:
	movq	%rbx, %rax
	subq	%rsi, %rax
	cmpq	$2, %rax
	jb	.LBB56_29
	movzwl	(%r14,%rsi), %r12d
	addq	$-2, %rax
	cmpq	%r12, %rax
	jb	.LBB56_29
	movq	%r14, %rbp
	leaq	(%rsi,%r12), %r14
	addq	$2, %r14
	je	.LBB56_29
	leal	-1(%r12), %eax
	cmpw	$127, %ax
	ja	.LBB56_23
	addq	%rbp, %rsi
	movq	%r15, %rax
	shlq	$7, %rax
	addq	$2, %rsi
	leaq	(%rsp,%rax), %rdi
	addq	$1032, %rdi
	movq	%r12, %rdx
	callq	memcpy@PLT
	movb	%r12b, 328(%rsp,%r15)
	incq	%r15
	jmp	.LBB56_23
.LBB56_29:
	movl	328(%rsp), %ebx
	leaq	424(%rsp), %rdi
	leaq	1032(%rsp), %rsi
	movl	$512, %edx
	callq	memcpy@PLT
	movaps	128(%rsp), %xmm0
	movaps	144(%rsp), %xmm1
	movaps	160(%rsp), %xmm2
	movaps	176(%rsp), %xmm3
	movups	%xmm0, 936(%rsp)
	movups	%xmm1, 952(%rsp)
	movups	%xmm2, 968(%rsp)
	movups	%xmm3, 984(%rsp)
	movq	48(%rsp), %rax
	movq	%rax, 392(%rsp)
	movq	40(%rsp), %rax
	movq	%rax, 400(%rsp)
	movq	32(%rsp), %rax
	movq	%rax, 408(%rsp)
	movq	72(%rsp), %rax
	movq	%rax, 416(%rsp)
	leaq	80(%rsp), %rdx
	leaq	360(%rsp), %rcx
	leaq	392(%rsp), %r8
	movq	24(%rsp), %r14
	movq	%r14, %rdi
	movq	%r13, %rsi
	callq	"sightings::still_fits"
	testb	%al, %al
	je	.LBB56_36
	movl	%ebx, 68(%rsp)
	movl	%r13d, %eax
	imulq	$892460737, %rax, %rax
	shrq	$39, %rax
	cmpq	$3153920, %r13
	movl	$5120, %ecx
	cmovbq	%rax, %rcx
	movq	%rcx, 16(%rsp)
	testq	%rcx, %rcx
	je	.LBB56_39
	movq	360(%rsp), %rbx
	movq	200(%rsp), %rax
	movq	192(%rsp), %rcx
	leaq	(%rcx,%rax), %rbp
	addq	$8, %rbp
	xorl	%r12d, %r12d
	movq	16(%rsp), %r14
	jmp	.LBB56_33
.LBB56_32:
	incq	%r12
	addq	$616, %rbp
	cmpq	%r12, %r14
	je	.LBB56_37
.LBB56_33:
	cmpb	$0, -8(%rbp)
	je	.LBB56_32
	cmpq	%rbx, (%rbp)
	jne	.LBB56_32
	leaq	360(%rsp), %rdx
	movl	$32, %esi
	movq	%rbp, %rdi
	callq	"core::cmp::slices::groups_equal::<i8,31'core::cmp::numbers::U8PartialEq{}>"
	testb	%al, %al
	je	.LBB56_32
	jmp	.LBB56_38
.LBB56_36:
	movl	$15, %eax
	jmp	.LBB56_12
.LBB56_37:
	movq	%r14, %r12
.LBB56_38:
	movq	24(%rsp), %r14
	jmp	.LBB56_40
.LBB56_39:
	xorl	%r12d, %r12d
.LBB56_40:
	cmpl	$0, 2248(%rsp)
	je	.LBB56_42
	movq	%r14, %rdi
	movq	%r13, %rsi
	leaq	2120(%rsp), %rdx
	movq	%r12, %rcx
	callq	"sightings::move_to_tail"
	movl	$64, %eax
	jmp	.LBB56_12
.LBB56_42:
	movq	%r14, %rdi
	movq	%r13, %rsi
	leaq	2120(%rsp), %rdx
	movq	%r12, %rcx
	callq	"contact_order::leave_order"
	imulq	$616, %r12, %rdi
	movq	%r13, %rax
	subq	%rdi, %rax
	jbe	.LBB56_44
	cmpq	$616, %rax
	movl	$616, %edx
	cmovbq	%rax, %rdx
	addq	%r14, %rdi
	xorl	%esi, %esi
	callq	memset@PLT
.LBB56_44:
	movq	80(%rsp), %rax
	movq	%rax, %rsi
	bswapq	%rsi
	movq	48(%rsp), %rcx
	movq	%rax, 320(%rsp)
	cmpq	%rax, %rcx
	movl	68(%rsp), %r10d
	jne	.LBB56_49
	movq	88(%rsp), %rax
	movq	40(%rsp), %rdx
	cmpq	%rax, %rdx
	jne	.LBB56_50
	movq	96(%rsp), %rax
	movq	32(%rsp), %rdx
	cmpq	%rax, %rdx
	jne	.LBB56_51
	movq	104(%rsp), %rax
	movl	$256, %r8d
	cmpq	%rax, 72(%rsp)
	je	.LBB56_53
	bswapq	%rax
	movq	72(%rsp), %rdx
	bswapq	%rdx
	movl	$192, %edi
	jmp	.LBB56_52
.LBB56_49:
	movq	%rcx, %rdx
	bswapq	%rdx
	xorl	%edi, %edi
	movq	%rsi, %rax
	jmp	.LBB56_52
.LBB56_50:
	bswapq	%rax
	bswapq	%rdx
	movl	$64, %edi
	jmp	.LBB56_52
.LBB56_51:
	bswapq	%rax
	bswapq	%rdx
	movl	$128, %edi
.LBB56_52:
	xorq	%rax, %rdx
	bsrq	%rdx, %r8
	xorq	$63, %r8
	orq	%rdi, %r8
.LBB56_53:
	leaq	936(%rsp), %rdi
	cmpq	$64, %r8
	movl	$64, %r9d
	cmovbq	%r8, %r9
	cmpq	$0, 16(%rsp)
	je	.LBB56_74
	movabsq	$7666179355307865607, %rdx
	movq	%r13, %rax
	mulq	%rdx
	shrq	$8, %rdx
	movq	88(%rsp), %rax
	movq	%rax, 312(%rsp)
	bswapq	%rax
	movq	%rax, 304(%rsp)
	movq	96(%rsp), %rax
	movq	%rax, 296(%rsp)
	bswapq	%rax
	movq	%rax, 288(%rsp)
	movq	104(%rsp), %rax
	movq	%rax, 280(%rsp)
	bswapq	%rax
	movq	%rax, 272(%rsp)
	movq	200(%rsp), %rax
	movq	%r13, %rdi
	movq	192(%rsp), %rcx
	leaq	(%rcx,%rax), %r13
	addq	$32, %r13
	xorl	%r12d, %r12d
	xorl	%eax, %eax
	movq	16(%rsp), %rcx
	jmp	.LBB56_60
.LBB56_55:
	xorl	%r14d, %r14d
	movq	%rsi, %r11
.LBB56_56:
	xorq	%r11, %rbx
	bsrq	%rbx, %r11
	xorq	$63, %r11
	orq	%r14, %r11
.LBB56_57:
	cmpl	%r8d, %r11d
	movzbl	%bpl, %ecx
	movzbl	%al, %eax
	cmovel	%ecx, %eax
.LBB56_58:
	movq	16(%rsp), %rcx
.LBB56_59:
	incq	%r12
	addq	$-616, %rdi
	addq	$616, %r13
	cmpq	%r12, %rcx
	je	.LBB56_71
.LBB56_60:
	movzbl	-32(%r13), %ebp
	cmpb	%al, %bpl
	jbe	.LBB56_59
	movq	-24(%r13), %r14
	movq	%r14, %rbx
	bswapq	%rbx
	movq	%rbx, %r11
	xorq	%rsi, %r11
	movl	$127, %r10d
	bsrq	%r11, %r10
	xorl	$63, %r10d
	cmpl	%r9d, %r10d
	jne	.LBB56_58
	cmpq	%rdx, %r12
	jb	.LBB56_64
	seta	%r10b
	cmpq	$40, %rdi
	setb	%cl
	movl	$256, %r11d
	orb	%r10b, %cl
	jne	.LBB56_57
.LBB56_64:
	cmpq	320(%rsp), %r14
	jne	.LBB56_55
	movq	-16(%r13), %rbx
	cmpq	312(%rsp), %rbx
	jne	.LBB56_69
	movq	-8(%r13), %rbx
	cmpq	296(%rsp), %rbx
	jne	.LBB56_70
	movq	(%r13), %rbx
	movl	$256, %r11d
	cmpq	280(%rsp), %rbx
	je	.LBB56_57
	bswapq	%rbx
	movl	$192, %r14d
	movq	272(%rsp), %r11
	jmp	.LBB56_56
.LBB56_69:
	bswapq	%rbx
	movl	$64, %r14d
	movq	304(%rsp), %r11
	jmp	.LBB56_56
.LBB56_70:
	bswapq	%rbx
	movl	$128, %r14d
	movq	288(%rsp), %r11
	jmp	.LBB56_56
.LBB56_71:
	imulq	$616, %rcx, %rbx
	xorl	%ecx, %ecx
	movq	56(%rsp), %r13
	movq	24(%rsp), %r14
	movq	2216(%rsp), %rdx
	movl	68(%rsp), %r10d
	leaq	936(%rsp), %rdi
.LBB56_72:
	cmpb	$0, (%r14,%rcx)
	je	.LBB56_75
	addq	$616, %rcx
	cmpq	%rcx, %rbx
	jne	.LBB56_72
	jmp	.LBB56_76
.LBB56_74:
	xorl	%ebx, %ebx
	movb	$1, %al
	movq	2216(%rsp), %rdx
	jmp	.LBB56_77
.LBB56_75:
	movq	%rcx, %rbx
.LBB56_76:
	incb	%al
	movq	48(%rsp), %rcx
.LBB56_77:
	movl	$0, 12(%rsp)
	movb	%al, 12(%rsp)
	movb	%dl, 14(%rsp)
	movb	%r15b, 15(%rsp)
	movl	%r10d, 124(%rsp)
	movq	%rcx, 328(%rsp)
	movq	40(%rsp), %rax
	movq	%rax, 336(%rsp)
	movq	32(%rsp), %rax
	movq	%rax, 344(%rsp)
	movq	72(%rsp), %rax
	movq	%rax, 352(%rsp)
	movups	(%rdi), %xmm0
	movups	16(%rdi), %xmm1
	movups	32(%rdi), %xmm2
	movups	48(%rdi), %xmm3
	movaps	%xmm0, 128(%rsp)
	movaps	%xmm1, 144(%rsp)
	movaps	%xmm2, 160(%rsp)
	movaps	%xmm3, 176(%rsp)
	leaq	1032(%rsp), %rdi
	leaq	424(%rsp), %rsi
	movl	$512, %edx
	callq	memcpy@PLT
	movq	%r13, %rax
	subq	%rbx, %rax
	jbe	.LBB56_79
	cmpq	$4, %rax
	movl	$4, %edx
	cmovbq	%rax, %rdx
	leaq	(%r14,%rbx), %rdi
	leaq	12(%rsp), %rsi
	callq	memcpy@PLT
.LBB56_79:
	movq	%rbx, %rdi
	orq	$4, %rdi
	movq	%r13, %rax
	subq	%rdi, %rax
	jbe	.LBB56_80
	cmpq	$4, %rax
	movl	$4, %edx
	cmovbq	%rax, %rdx
	addq	%r14, %rdi
	leaq	124(%rsp), %rsi
	callq	memcpy@PLT
	leaq	8(%rbx), %rdi
	movq	%r13, %rax
	subq	%rdi, %rax
	ja	.LBB56_86
.LBB56_81:
	leaq	40(%rbx), %rdi
	movq	%r13, %rax
	subq	%rdi, %rax
	jbe	.LBB56_82
.LBB56_87:
	cmpq	$64, %rax
	movl	$64, %edx
	cmovbq	%rax, %rdx
	addq	%r14, %rdi
	leaq	128(%rsp), %rsi
	callq	memcpy@PLT
	addq	$104, %rbx
	subq	%rbx, %r13
	ja	.LBB56_83
	jmp	.LBB56_84
.LBB56_80:
	leaq	8(%rbx), %rdi
	movq	%r13, %rax
	subq	%rdi, %rax
	jbe	.LBB56_81
.LBB56_86:
	cmpq	$32, %rax
	movl	$32, %edx
	cmovbq	%rax, %rdx
	addq	%r14, %rdi
	leaq	328(%rsp), %rsi
	callq	memcpy@PLT
	leaq	40(%rbx), %rdi
	movq	%r13, %rax
	subq	%rdi, %rax
	ja	.LBB56_87
.LBB56_82:
	addq	$104, %rbx
	subq	%rbx, %r13
	jbe	.LBB56_84
.LBB56_83:
	cmpq	$512, %r13
	movl	$512, %edx
	cmovbq	%r13, %rdx
	addq	%rbx, %r14
	leaq	1032(%rsp), %rsi
	movq	%r14, %rdi
	callq	memcpy@PLT
.LBB56_84:
	movl	$65, %eax
	jmp	.LBB56_12
.Lfunc_end56:
	.size	starterbell_settle, .Lfunc_end56-starterbell_settle

	.section	.text.starterbell_start,"ax",@progbits
	.globl	starterbell_start
	.p2align	4
	.type	starterbell_start,@function
starterbell_start:
	pushq	%rbp
	pushq	%r15
	pushq	%r14
	pushq	%r13
	pushq	%r12
	pushq	%rbx
	subq	$1240, %rsp
	movq	%r9, %r14
	movq	%r8, %r15
	movq	%rcx, %rbx
	xorl	%r10d, %r10d
	testq	%rdi, %rdi
	sete	%bpl
	xorl	%r8d, %r8d
	testq	%rdx, %rdx
	sete	%r11b
	xorl	%ecx, %ecx
	testq	%r15, %r15
	sete	%r9b
	xorl	%eax, %eax
	cmpq	$616, %rsi
	jb	.LBB57_11
	leaq	-1(%rbx), %rax
	cmpq	$63, %rax
	ja	.LBB57_10
	movb	%bpl, %r10b
	shll	$12, %r10d
	addq	%r10, %rdi
	movq	%rdi, 8(%rsp)
	movb	%r11b, %r8b
	shll	$12, %r8d
	addq	%r8, %rdx
	movb	%r9b, %cl
	shll	$12, %ecx
	addq	%rcx, %r15
	leaq	88(%rsp), %rdi
	movq	%rdx, %rsi
	movq	%rdx, %r12
	movq	%rbx, %rdx
	callq	"sha256::hash"
	xorps	%xmm0, %xmm0
	movaps	%xmm0, 16(%rsp)
	movaps	%xmm0, 32(%rsp)
	movaps	%xmm0, 48(%rsp)
	movaps	%xmm0, 64(%rsp)
	leaq	16(%rsp), %rdi
	movq	%r12, %rsi
	movq	%rbx, %rdx
	callq	memcpy@PLT
	leaq	728(%rsp), %rdi
	xorl	%ebp, %ebp
	movl	$512, %edx
	xorl	%esi, %esi
	callq	memset@PLT
	movl	$0, 4(%rsp)
	xorl	%esi, %esi
	jmp	.LBB57_3
	.p2align	4
.LBB57_8:
	movq	%r13, %rsi
	cmpq	$4, %rbp
	jae	.LBB57_9
.LBB57_3:
	movq	%r14, %rax
	subq	%rsi, %rax
	cmpq	$2, %rax
	jb	.LBB57_9
	movzwl	(%r15,%rsi), %r12d
	addq	$-2, %rax
	cmpq	%r12, %rax
	jb	.LBB57_9
	leaq	(%rsi,%r12), %r13
	addq	$2, %r13
	je	.LBB57_9
	leal	-1(%r12), %eax
	cmpw	$127, %ax
	ja	.LBB57_8
	addq	%r15, %rsi
	movq	%rbp, %rax
	shlq	$7, %rax
	addq	$2, %rsi
	leaq	(%rsp,%rax), %rdi
	addq	$728, %rdi
	movq	%r12, %rdx
	callq	memcpy@PLT
	movb	%r12b, 4(%rsp,%rbp)
	incq	%rbp
	jmp	.LBB57_8
.LBB57_10:
	movl	$12, %eax
	jmp	.LBB57_11
.LBB57_9:
	movl	4(%rsp), %r15d
	leaq	120(%rsp), %r14
	leaq	728(%rsp), %rsi
	movl	$512, %edx
	movq	%r14, %rdi
	callq	memcpy@PLT
	movaps	16(%rsp), %xmm0
	movaps	32(%rsp), %xmm1
	movaps	48(%rsp), %xmm2
	movaps	64(%rsp), %xmm3
	movups	%xmm0, 632(%rsp)
	movups	%xmm1, 648(%rsp)
	movups	%xmm2, 664(%rsp)
	movups	%xmm3, 680(%rsp)
	movups	88(%rsp), %xmm0
	movups	104(%rsp), %xmm1
	movups	%xmm0, 696(%rsp)
	movups	%xmm1, 712(%rsp)
	movq	8(%rsp), %rdi
	movw	$1, (%rdi)
	movb	%bl, 2(%rdi)
	movb	%bpl, 3(%rdi)
	movl	%r15d, 4(%rdi)
	movups	696(%rsp), %xmm0
	movups	712(%rsp), %xmm1
	movups	%xmm0, 8(%rdi)
	movups	%xmm1, 24(%rdi)
	movups	632(%rsp), %xmm0
	movups	648(%rsp), %xmm1
	movups	664(%rsp), %xmm2
	movups	680(%rsp), %xmm3
	movups	%xmm0, 40(%rdi)
	movups	%xmm1, 56(%rdi)
	movups	%xmm2, 72(%rdi)
	movups	%xmm3, 88(%rdi)
	addq	$104, %rdi
	movl	$512, %edx
	movq	%r14, %rsi
	callq	memcpy@PLT
	movl	$64, %eax
.LBB57_11:
	addq	$1240, %rsp
	popq	%rbx
	popq	%r12
	popq	%r13
	popq	%r14
	popq	%r15
	popq	%rbp
	retq
.Lfunc_end57:
	.size	starterbell_start, .Lfunc_end57-starterbell_start

	.section	.text.starterbell_write,"ax",@progbits
	.globl	starterbell_write
	.p2align	4
	.type	starterbell_write,@function
starterbell_write:
	pushq	%rbp
	pushq	%r15
	pushq	%r14
	pushq	%r13
	pushq	%r12
	pushq	%rbx
	subq	$88, %rsp
	movq	%rdx, %r13
	testq	%rdi, %rdi
	sete	%r15b
	testq	%rcx, %rcx
	sete	24(%rsp)
	cmpq	$0, 144(%rsp)
	sete	%r11b
	cmpq	$0, 160(%rsp)
	sete	23(%rsp)
	xorl	%edx, %edx
	cmpq	$0, 176(%rsp)
	sete	%r10b
	xorl	%r12d, %r12d
	cmpq	$0, 192(%rsp)
	sete	%r14b
	cmpq	$0, 208(%rsp)
	sete	%bpl
	movl	$1, %eax
	cmpq	$16387, %rsi
	jb	.LBB58_40
	movb	%r11b, 22(%rsp)
	cmpq	$6, %r13
	setae	%al
	cmpq	$129, %r8
	setae	%r11b
	orb	%al, %r11b
	movl	$21, %eax
	jne	.LBB58_40
	movb	%bpl, 21(%rsp)
	movq	152(%rsp), %rbx
	testl	%r9d, %r9d
	je	.LBB58_6
	cmpq	$129, %rbx
	setae	%r11b
	cmpq	$3073, 168(%rsp)
	setae	%bpl
	orb	%r11b, %bpl
	jne	.LBB58_40
	testq	%rbx, %rbx
	je	.LBB58_7
	bsrq	%rbx, %rax
	cmpb	$7, %al
	movq	%rbx, %rax
	sbbq	$-1, %rax
	addq	$2, %rax
	jmp	.LBB58_8
.LBB58_6:
	movq	%rdi, 48(%rsp)
	movq	%rcx, 40(%rsp)
	movq	%r8, 72(%rsp)
	movl	%r9d, 32(%rsp)
	movq	%rsi, 56(%rsp)
	xorl	%ebp, %ebp
	movq	176(%rsp), %rbx
	jmp	.LBB58_12
.LBB58_7:
	xorl	%eax, %eax
.LBB58_8:
	movq	176(%rsp), %rbx
	movq	168(%rsp), %r11
	testq	%r11, %r11
	movq	%r8, 72(%rsp)
	je	.LBB58_10
	bsrq	%r11, %r8
	cmpb	$7, %r8b
	movq	%r11, %r8
	sbbq	$-1, %r8
	addq	$2, %r8
	jmp	.LBB58_11
.LBB58_10:
	xorl	%r8d, %r8d
.LBB58_11:
	movq	%rdi, 48(%rsp)
	movq	%rcx, 40(%rsp)
	movl	%r9d, 32(%rsp)
	movq	%rsi, 56(%rsp)
	leaq	(%r8,%rax), %rbp
	cmpq	$1, %rbp
	adcq	%rax, %r8
	bsrq	%r8, %rax
	cmpb	$7, %al
	sbbq	$-1, %rbp
	addq	$2, %rbp
.LBB58_12:
	movq	184(%rsp), %rsi
	movb	%r10b, %dl
	shll	$12, %edx
	addq	%rdx, %rbx
	movq	%rbx, %rdi
	callq	"writer::list_len"
	cmpb	$1, %al
	jne	.LBB58_17
	movq	%rbx, 64(%rsp)
	movq	%rdx, %rbx
	movq	200(%rsp), %rsi
	movb	%r14b, %r12b
	shll	$12, %r12d
	movq	192(%rsp), %rdi
	addq	%r12, %rdi
	movq	%rdi, 80(%rsp)
	callq	"writer::list_len"
	cmpb	$1, %al
	jne	.LBB58_17
	movq	72(%rsp), %rsi
	testq	%rsi, %rsi
	movl	$21, %eax
	je	.LBB58_18
	bsrq	%rsi, %rcx
	cmpb	$7, %cl
	movq	%rsi, %r10
	sbbq	$-1, %r10
	addq	$4, %r10
	jmp	.LBB58_19
.LBB58_17:
	movl	$21, %eax
.LBB58_40:
	addq	$88, %rsp
	popq	%rbx
	popq	%r12
	popq	%r13
	popq	%r14
	popq	%r15
	popq	%rbp
	retq
.LBB58_18:
	movl	$2, %r10d
.LBB58_19:
	movq	56(%rsp), %r12
	movl	32(%rsp), %edi
	movq	40(%rsp), %rcx
	movq	48(%rsp), %r8
	addq	%rbp, %rbx
	addq	%r10, %rdx
	addq	%rbx, %rdx
	cmpq	$16384, %rdx
	ja	.LBB58_40
	xorl	%r14d, %r14d
	movb	%r15b, %r14b
	shll	$12, %r14d
	leaq	(%r8,%r14), %rbp
	xorl	%eax, %eax
	cmpq	$128, %rdx
	jae	.LBB58_22
	movq	64(%rsp), %rbx
	jmp	.LBB58_24
.LBB58_22:
	movq	%rdx, %r10
	movq	64(%rsp), %rbx
	.p2align	4
.LBB58_23:
	movl	%r10d, %r11d
	orb	$-128, %r11b
	movb	%r11b, (%rbp,%rax)
	shrq	$7, %rdx
	incq	%rax
	cmpq	$16383, %r10
	movq	%rdx, %r10
	ja	.LBB58_23
.LBB58_24:
	movb	%dl, (%rbp,%rax)
	leaq	1(%rax), %rdx
	cmpq	%r12, %rdx
	movq	%rcx, 40(%rsp)
	jae	.LBB58_27
	movb	$8, 1(%rbp,%rax)
	leaq	2(%rax), %rdx
	cmpq	%r12, %rdx
	jae	.LBB58_27
	movb	%r13b, 2(%rbp,%rax)
	addq	$3, %rax
	movq	%rax, %rdx
	jmp	.LBB58_28
.LBB58_27:
	cmpq	%rdx, %r12
	cmovaq	%r12, %rdx
.LBB58_28:
	testq	%rsi, %rsi
	movq	160(%rsp), %r9
	movq	144(%rsp), %rcx
	movl	$0, %r11d
	je	.LBB58_36
	cmpq	%r12, %rdx
	jae	.LBB58_33
	movb	$18, (%rbp,%rdx)
	leaq	1(%rdx), %rax
	cmpq	%r12, %rax
	jae	.LBB58_34
	cmpq	$128, %rsi
	jae	.LBB58_41
	movq	%rsi, %r10
	movq	%rax, %rdx
	jmp	.LBB58_42
.LBB58_33:
	movq	%rdx, %rax
.LBB58_34:
	cmpq	%rax, %r12
	cmovaq	%r12, %rax
	movq	%r12, %r10
	subq	%rax, %r10
.LBB58_35:
	leaq	(%rax,%rsi), %rdx
	cmpq	%r10, %rsi
	cmovaq	%r12, %rdx
	cmpq	%rax, %r12
	cmovbq	%rax, %rdx
.LBB58_36:
	movq	216(%rsp), %r14
	testl	%edi, %edi
	je	.LBB58_38
	movzbl	22(%rsp), %eax
	movb	%al, %r11b
	xorl	%eax, %eax
	movzbl	23(%rsp), %esi
	movb	%sil, %al
	shll	$12, %r11d
	shll	$12, %eax
	addq	%r11, %rcx
	addq	%rax, %r9
	movq	168(%rsp), %rax
	movq	%rax, (%rsp)
	movq	%rbp, %rdi
	movq	%r12, %rsi
	movq	152(%rsp), %r8
	callq	"pieces::put_record"
	movq	%rax, %rdx
.LBB58_38:
	movq	%rbp, %rdi
	movq	%r12, %rsi
	movl	$8, %ecx
	movq	%rbx, %r8
	movq	184(%rsp), %r9
	callq	"writer::put_list"
	movq	%rbp, %rdi
	movq	%r12, %rsi
	movq	%rax, %rdx
	movl	$9, %ecx
	movq	80(%rsp), %r8
	movq	200(%rsp), %r9
	callq	"writer::put_list"
	movq	%rax, %rcx
	movl	$64, %eax
	testq	%r14, %r14
	je	.LBB58_40
	xorl	%esi, %esi
	movzbl	21(%rsp), %edx
	movb	%dl, %sil
	shll	$12, %esi
	movq	208(%rsp), %rdx
	movq	%rcx, (%rdx,%rsi)
	jmp	.LBB58_40
.LBB58_41:
	movb	$-128, 1(%rbp,%rdx)
	addq	$2, %rdx
	movl	$1, %r10d
	cmpq	%r12, %rdx
	je	.LBB58_34
.LBB58_42:
	movb	%r10b, (%rbp,%rdx)
	leaq	1(%rdx), %rax
	movq	%r12, %r10
	subq	%rax, %r10
	jbe	.LBB58_35
	xorl	%r9d, %r9d
	movzbl	24(%rsp), %ecx
	movb	%cl, %r9b
	shll	$12, %r9d
	movq	40(%rsp), %rcx
	leaq	(%rcx,%r9), %r13
	cmpq	%rsi, %r10
	movq	%rsi, %rcx
	cmovbq	%r10, %rcx
	movq	%rcx, 24(%rsp)
	cmpq	$4, %rcx
	movq	%r14, 48(%rsp)
	jb	.LBB58_45
	leaq	(%r14,%rdx), %r11
	leaq	(%r11,%r8), %r14
	subq	%r13, %r14
	incq	%r14
	cmpq	$32, %r14
	jae	.LBB58_54
.LBB58_45:
	xorl	%r15d, %r15d
	movq	24(%rsp), %r14
.LBB58_46:
	movq	%r9, 32(%rsp)
	movq	%r14, %r11
	movq	%r13, %rcx
	movq	%r15, %r13
	andq	$3, %r11
	leaq	(%rbp,%rax), %r9
	je	.LBB58_49
	movq	%r15, %r13
.LBB58_48:
	movzbl	(%rcx,%r13), %r14d
	movb	%r14b, (%r9,%r13)
	incq	%r13
	decq	%r11
	jne	.LBB58_48
.LBB58_49:
	movq	24(%rsp), %r14
	subq	%r14, %r15
	cmpq	$-4, %r15
	jbe	.LBB58_51
.LBB58_50:
	movq	160(%rsp), %r9
	jmp	.LBB58_53
.LBB58_51:
	movq	48(%rsp), %rcx
	addq	%rdx, %rcx
	leaq	(%r8,%rcx), %rdx
	addq	$4, %rdx
	movq	40(%rsp), %rcx
	movq	32(%rsp), %r8
	addq	%rcx, %r8
	addq	$3, %r8
	movq	160(%rsp), %r9
.LBB58_52:
	movzbl	-3(%r8,%r13), %r11d
	movb	%r11b, -3(%rdx,%r13)
	movzbl	-2(%r8,%r13), %r11d
	movb	%r11b, -2(%rdx,%r13)
	movzbl	-1(%r8,%r13), %r11d
	movb	%r11b, -1(%rdx,%r13)
	movzbl	(%r8,%r13), %r11d
	movb	%r11b, (%rdx,%r13)
	addq	$4, %r13
	cmpq	%r13, %r14
	jne	.LBB58_52
.LBB58_53:
	movq	144(%rsp), %rcx
	xorl	%r11d, %r11d
	jmp	.LBB58_35
.LBB58_54:
	movq	24(%rsp), %r14
	cmpq	$32, %r14
	jae	.LBB58_56
	xorl	%r15d, %r15d
	jmp	.LBB58_60
.LBB58_56:
	movq	%r13, 32(%rsp)
	movl	%r14d, %r15d
	andl	$224, %r15d
	addq	%r8, %r11
	addq	$17, %r11
	movq	40(%rsp), %r14
	leaq	(%r9,%r14), %r13
	addq	$16, %r13
	xorl	%r14d, %r14d
.LBB58_57:
	movups	-16(%r13,%r14), %xmm0
	movups	(%r13,%r14), %xmm1
	movups	%xmm0, -16(%r11,%r14)
	movups	%xmm1, (%r11,%r14)
	addq	$32, %r14
	cmpq	%r14, %r15
	jne	.LBB58_57
	movq	24(%rsp), %r14
	cmpq	%r15, %r14
	je	.LBB58_50
	testb	$28, %r14b
	movq	32(%rsp), %r13
	je	.LBB58_46
.LBB58_60:
	movq	%r15, %r11
	movl	%r14d, %r15d
	andl	$252, %r15d
	leaq	(%rax,%rbp), %rcx
.LBB58_61:
	movl	(%r13,%r11), %r14d
	movl	%r14d, (%rcx,%r11)
	addq	$4, %r11
	cmpq	%r11, %r15
	jne	.LBB58_61
	movq	24(%rsp), %r14
	cmpq	%r15, %r14
	jne	.LBB58_46
	jmp	.LBB58_50
.Lfunc_end58:
	.size	starterbell_write, .Lfunc_end58-starterbell_write

	.type	.Lswitch.table.starterbell_lookup_next,@object
	.section	.rodata.cst16,"aM",@progbits,16
	.p2align	2, 0x0
.Lswitch.table.starterbell_lookup_next:
	.long	67
	.long	68
	.long	65
	.long	66
	.size	.Lswitch.table.starterbell_lookup_next, 16

	.type	.Lswitch.table.starterbell_lookup_start,@object
	.section	.rodata..Lswitch.table.starterbell_lookup_start,"a",@progbits
	.p2align	2, 0x0
.Lswitch.table.starterbell_lookup_start:
	.long	67
	.long	68
	.long	65
	.long	66
	.long	64
	.size	.Lswitch.table.starterbell_lookup_start, 20

	.section	".note.GNU-stack","",@progbits
