; The loop that copies a table's words, as the kit's compiler writes it, what it calls, and what calls it.
target triple = "x86_64-unknown-linux-gnu"

define void @lays(ptr noundef %a0, ptr noundef %a1, i64 noundef %a2) #0 {
start:
  call void @"atomic_table::owned::fill_words"(ptr %a0, ptr %a1, i64 %a2)
  ret void
}

define internal void @"core::slots::Slots::put::<i64>"(ptr noundef %a0, i64 noundef %a1, i64 noundef %a2) #0 {
start:
  %r0 = alloca ptr, align 8
  %r1 = alloca i64, align 8
  %r2 = alloca ptr, align 8
  %r3 = alloca i64, align 8
  %r4 = load ptr, ptr %a0, align 8, !noundef !1
  store ptr %r4, ptr %r0, align 8
  %r5 = mul i64 %a1, 8
  store i64 %r5, ptr %r1, align 8
  %r6 = load ptr, ptr %r0, align 8, !noundef !1
  %r7 = load i64, ptr %r1, align 8, !noundef !1
  %r8 = getelementptr inbounds nuw i8, ptr %r6, i64 %r7
  store ptr %r8, ptr %r2, align 8
  store i64 %a2, ptr %r3, align 8
  %r9 = load i64, ptr %r3, align 8, !noundef !1
  %r10 = load ptr, ptr %r2, align 8, !noundef !1
  store i64 %r9, ptr %r10, align 8
  br label %after.1

after.1:                                          ; preds = %start
  ret void
}

define internal void @"atomic_table::owned::fill_words"(ptr noundef %a0, ptr noundef %a1, i64 noundef %a2) #0 {
start:
  %r0 = alloca [16 x i8], align 8
  call void @llvm.memset.p0.i64(ptr %r0, i8 0, i64 16, i1 false)
  store ptr %a1, ptr %r0, align 8
  %r1 = getelementptr i8, ptr %r0, i64 8
  store i64 %a2, ptr %r1, align 8
  %r2 = alloca i64, align 8
  %r3 = alloca i64, align 8
  %r4 = alloca i8, align 1
  %r5 = alloca ptr, align 8
  %r6 = alloca ptr, align 8
  %r7 = alloca i64, align 8
  store i64 0, ptr %r2, align 8
  br label %loop.2

loop.2:                                           ; preds = %join.5, %start
  %r8 = getelementptr i8, ptr %r0, i64 8
  %r9 = load i64, ptr %r8, align 8, !noundef !1
  store i64 %r9, ptr %r3, align 8
  %r10 = load i64, ptr %r2, align 8, !noundef !1
  %r11 = load i64, ptr %r3, align 8, !noundef !1
  %r12 = icmp ult i64 %r10, %r11
  %r13 = zext i1 %r12 to i8
  store i8 %r13, ptr %r4, align 1
  %r14 = load i8, ptr %r4, align 1, !range !2, !noundef !1
  %r15 = trunc i8 %r14 to i1
  br i1 %r15, label %then.3, label %else.4

then.3:                                           ; preds = %loop.2
  br label %join.5

else.4:                                           ; preds = %loop.2
  br label %after.1

join.5:                                           ; preds = %then.3
  store ptr %a0, ptr %r5, align 8
  %r16 = load i64, ptr %r2, align 8, !noundef !1
  %r17 = mul i64 %r16, 8
  store i64 %r17, ptr %r3, align 8
  %r18 = load ptr, ptr %r0, align 8, !noundef !1
  %r19 = load i64, ptr %r3, align 8, !noundef !1
  %r20 = getelementptr inbounds nuw i8, ptr %r18, i64 %r19
  store ptr %r20, ptr %r6, align 8
  %r21 = load ptr, ptr %r6, align 8, !noundef !1
  %r22 = load i64, ptr %r21, align 8, !noundef !1
  store i64 %r22, ptr %r7, align 8
  %r23 = load ptr, ptr %r5, align 8, !noundef !1
  %r24 = load i64, ptr %r2, align 8, !noundef !1
  %r25 = load i64, ptr %r7, align 8, !noundef !1
  call void @"core::slots::Slots::put::<i64>"(ptr %r23, i64 %r24, i64 %r25)
  %r26 = load i64, ptr %r2, align 8, !noundef !1
  %r27 = add i64 %r26, 1
  store i64 %r27, ptr %r2, align 8
  br label %loop.2

after.1:                                          ; preds = %else.4
  ret void
}

declare void @llvm.memset.p0.i64(ptr writeonly captures(none), i8, i64, i1 immarg)

attributes #0 = { nounwind }

!1 = !{}
!2 = !{i8 0, i8 2}
