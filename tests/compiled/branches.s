# Cases for branches.py. Before each function stands what has to be said of it: that it passes, or which instruction is refused
# and why.
.intel_syntax noprefix

# A jump that a comparison with 3 decides.
.macro decide operand
    cmp \operand, 3
    je 1f
1:  ret
.endm

# passes
"arithmetic on the top bit":
    lea eax, [rdi+rdi]
    sar dil, 7
    and dil, 0x1b
    xor al, dil
    ret

# passes
"a bit made a number":
    test dil, dil
    sets al
    ret

# passes
"a counter from nothing, beside vectors":
    xor ecx, ecx
1:  pxor xmm0, xmm1
    add ecx, 1
    cmp ecx, 0x10
    jb 1b
    ret

# passes
"a counter kept in the frame":
    sub rsp, 0x18
    mov eax, 0x10
    mov QWORD PTR [rsp+8], rax
1:  mov BYTE PTR [rsp+4], dil
    mov rcx, QWORD PTR [rsp+8]
    inc rcx
    mov QWORD PTR [rsp+8], rcx
    cmp rcx, 0xe0
    jne 1b
    add rsp, 0x18
    ret

# passes
"a counter that goes down after data set the flags":
    mov ecx, 4
1:  xor al, BYTE PTR [rdi+rcx]
    dec ecx
    jne 1b
    ret

# passes
"a counter beside a word that is turned by a shift of two":
    xor eax, eax
1:  shld edi, edi, 0x15
    add rax, 4
    cmp rax, 0x3c
    jb 1b
    ret

# jb: is decided by data
"a counter that is shifted in from data":
    xor eax, eax
1:  shld eax, edi, 0x15
    cmp eax, 0x3c
    jb 1b
    ret

# passes
"a counter beside a number shifted by a part of it":
    mov eax, 8
1:  mov ecx, eax
    shr ecx, 3
    mov edx, 1
    shl dl, cl
    xor BYTE PTR [rdi+rax], dl
    inc rax
    cmp rax, 0x3c
    jne 1b
    ret

# jne: is decided by data
"a number shifted by data":
    mov ecx, edi
    mov eax, 8
    shl eax, cl
    cmp eax, 0x10
    jne 1f
1:  ret

# jne: is decided by data
"data shifted by a number":
    mov ecx, 3
    shl edi, cl
    cmp edi, 0x10
    jne 1f
1:  ret

# passes
"vectors shifted by 27":
    psllq xmm2, 0x1b
    psrld xmm1, 0x1b
    ret

# passes
"a counter beside a bit that is turned":
    xor ecx, ecx
    xor edx, edx
1:  btc edi, edx
    add rcx, 8
    inc edx
    cmp rcx, 0x30
    jb 1b
    ret

# passes
"a column by four tables":
    movzx eax, dl
    mov eax, DWORD PTR [rsi+rax*4]
    movzx ecx, dh
    xor eax, DWORD PTR [rsi+rcx*4+0x400]
    shr edi, 14
    and edi, 0x3fc
    xor eax, DWORD PTR [rsi+rdi+0x800]
    shr r8d, 24
    xor eax, DWORD PTR [rsi+r8*4+0xc00]
    ret

# passes
"three tables, and the place of a fourth":
    mov eax, DWORD PTR [rsi+rdi*4-0x400]
    xor eax, DWORD PTR [rsi+rdi*4]
    xor eax, DWORD PTR [rsi+rdi*4+0x400]
    lea rdi, [rsi+rdi*4+0x800]
    ret

# passes
"a constant below data on the stack":
    mov eax, 3
    push rax
    push rdi
    cmp QWORD PTR [rsp+8], 3
    je 1f
1:  pop rdi
    pop rax
    ret

# passes
"a constant where the stack was":
    sub rsp, 8
    mov QWORD PTR [rsp], 3
    add rsp, 8
    decide "QWORD PTR [rsp-8]"

# passes
"data on a way that is not taken":
    mov ecx, 3
    jmp 2f
    mov ecx, edi
2:  decide ecx

# passes
"a block move of fixed length":
    mov edx, 0xf0
    call memcpy
    ret

# js: is decided by data
"a branch on the top bit":
    test dil, dil
    js 1f
    add edi, edi
1:  mov eax, edi
    ret

# cmovns: is decided by data
"a choice by the top bit":
    lea eax, [rdi+rdi]
    mov ecx, eax
    xor eax, 0x1b
    test dil, dil
    cmovns eax, ecx
    ret

# je: is decided by data
"a number made of a bit":
    mov eax, 0
    test dil, dil
    sets al
    decide eax

# je: is decided by data
"data kept in the frame":
    mov QWORD PTR [rsp-8], 3
    mov BYTE PTR [rsp-6], dil
    decide "QWORD PTR [rsp-8]"

# je: is decided by data
"data from the stack":
    mov eax, 3
    push rdi
    pop rax
    decide eax

# je: is decided by data
"the frame written at a place that data picks":
    mov QWORD PTR [rsp-8], 3
    mov BYTE PTR [rsp+rdi-8], sil
    decide "BYTE PTR [rsp-8]"

# je: is decided by data
"the frame written at a place that is not named":
    mov QWORD PTR [rsp-8], 3
    lea rdi, [rsp-8]
    maskmovdqu xmm0, xmm1
    decide "QWORD PTR [rsp-8]"

# je: is decided by data
"the frame written by a block move":
    mov QWORD PTR [rsp+8], 3
    lea rdi, [rsp+8]
    mov edx, 8
    call memcpy
    decide "QWORD PTR [rsp+8]"

# jne: is decided by data
"the frame written on the way back":
    mov DWORD PTR [rsp-8], 3
1:  mov ecx, DWORD PTR [rsp-8]
    mov DWORD PTR [rsp-8], edi
    dec ecx
    jne 1b
    ret

# jne: is decided by data
"a counter written on the way back":
    mov eax, 3
1:  mov ecx, eax
    mov eax, edi
    dec ecx
    jne 1b
    ret

# je: is decided by data
"data in a part of a register":
    mov eax, 3
    mov al, dil
    decide eax

# je: is decided by data
"a constant in a part of a register":
    mov eax, edi
    mov al, 3
    decide eax

# jb: is decided by data
"a counter of which data turns a bit":
    xor ecx, ecx
1:  btc ecx, edi
    add rcx, 8
    cmp rcx, 0x30
    jb 1b
    ret

# je: is decided by data
"a bit of data turned":
    mov eax, edi
    btc eax, 3
    decide eax

# je: is decided by data
"the frame written where a bit lies that data picks":
    mov QWORD PTR [rsp-8], 3
    btc DWORD PTR [rsp-16], edi
    decide "QWORD PTR [rsp-8]"

# je: is decided by data
"data in a sum":
    mov eax, 3
    add eax, edi
    decide eax

# je: is decided by data
"data in an address":
    mov eax, 3
    lea eax, [rdi+1]
    decide eax

# je: is decided by data
"data from a vector":
    mov eax, 3
    movd eax, xmm0
    decide eax

# je: is decided by data
"vectors compared":
    mov eax, 3
    cmp eax, 3
    ucomiss xmm0, xmm1
    je 1f
1:  ret

# je: is decided by data
"the upper half of a product":
    mov edx, 3
    imul edi
    decide edx

# je: is decided by data
"the upper half of a product without sign":
    mov edx, 3
    mul edi
    decide edx

# je: is decided by data
"what a call gives":
    mov eax, 3
    mov edx, 8
    call memcpy
    decide eax

# jb: is decided by data
"the carry that a counter leaves":
    mov ecx, 3
    cmp dil, 9
    dec ecx
    jb 1f
1:  ret

# jb: is decided by data
"the carry of a bit that is turned out":
    mov ecx, 3
    cmp ecx, 3
    rol edi, 1
    jb 1f
1:  ret

# jb: is decided by data
"the carry of a bit that is asked for":
    mov ecx, 3
    cmp ecx, 3
    bt edi, 3
    jb 1f
1:  ret

# je: is decided by data
"flags that a shift by nothing leaves":
    mov eax, 3
    mov ecx, 0
    cmp edi, 3
    shl eax, cl
    je 1f
1:  ret

# jmp: goes to an address that is worked out
"a jump by a table":
    jmp QWORD PTR [rdi*8]

# call: goes to elsewhere, which is not looked at
"a call of what is not looked at":
    call elsewhere
    ret

# call: moves a block whose length is data
"a block move as long as data says":
    mov edx, edi
    call memcpy
    ret

# rep: goes on as a register says
"a repeated instruction":
    mov ecx, esi
    rep stosb
    ret

# and: the stack pointer is set
"a frame of unknown depth":
    and rsp, -32
    ret

# leave: the stack pointer is set
"a frame left":
    leave
    ret

# push: the stack has two depths at one place
"a frame of two depths":
    mov eax, 3
    cmp eax, 3
    je 1f
    push rdi
1:  ret
