; The loop that copies a table's words, as the kit's compiler writes it, what it calls, and what calls it.
target triple = "x86_64-unknown-linux-gnu"

define void @lays(ptr noundef %a0, ptr noundef %a1, i64 noundef %a2) #0 {
start:
  call void @"atomic_table::owned::fill_words"(ptr %a0, ptr %a1, i64 %a2)
  ret void
}

define internal void @"core::slots::Slots::put::<i64>"(ptr noundef %a0, i64 noundef %a1, i64 noundef %a2) #0 {
start:
  %r0 = alloca ptr, align 8
  %r1 = alloca i64, align 8
  %r2 = alloca ptr, align 8
  %r3 = alloca i64, align 8
  %r4 = load ptr, ptr %a0, align 8, !noundef !1
  store ptr %r4, ptr %r0, align 8
  %r5 = mul i64 %a1, 8
  store i64 %r5, ptr %r1, align 8
  %r6 = load ptr, ptr %r0, align 8, !noundef !1
  %r7 = load i64, ptr %r1, align 8, !noundef !1
  %r8 = getelementptr inbounds nuw i8, ptr %r6, i64 %r7
  store ptr %r8, ptr %r2, align 8
  store i64 %a2, ptr %r3, align 8
  %r9 = load i64, ptr %r3, align 8, !noundef !1
  %r10 = load ptr, ptr %r2, align 8, !noundef !1
  store i64 %r9, ptr %r10, align 8
  br label %after.1

after.1:                                          ; preds = %start
  ret void
}

define internal void @"atomic_table::owned::fill_words"(ptr noundef %a0, ptr noundef %a1, i64 noundef %a2) #0 {
start:
  %r0 = load ptr, ptr %a0, align 8
  call void @heap_copy(ptr %r0, ptr %a1, i64 %a2)
  ret void
}

declare void @llvm.memset.p0.i64(ptr writeonly captures(none), i8, i64, i1 immarg)

attributes #0 = { nounwind }

!1 = !{}
!2 = !{i8 0, i8 2}
declare void @heap_copy(ptr noundef, ptr noundef, i64 noundef) nounwind
