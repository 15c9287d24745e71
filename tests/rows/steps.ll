; Steps on tables, as the kit's compiler writes them, and what makes them. A comment stands where the pass puts its line.
target triple = "x86_64-unknown-linux-gnu"

define internal noundef i64 @"atomic_table::shared::Shared::load::<#1>"(ptr noundef %a0, ptr noundef %a1, i64 noundef %a2) #0 {
start:
  %r0 = alloca ptr, align 8
  ; stays
  %r1 = load ptr, ptr %a0, align 8, !noundef !1
  store ptr %r1, ptr %r0, align 8
  %r2 = mul i64 %a2, 8
  %r3 = load ptr, ptr %r0, align 8, !noundef !1
  %r4 = getelementptr i8, ptr %r3, i64 %r2
  call void asm sideeffect "", "~{memory}"()
  %r5 = load atomic i64, ptr %r4 seq_cst, align 8
  call void asm sideeffect "", "~{memory}"()
  ret i64 %r5
}

define internal void @"atomic_table::shared::Shared::store::<#2>"(ptr noundef %a0, ptr noundef %a1, i64 noundef %a2, i64 noundef %a3) #0 {
start:
  ; stays
  %r0 = load ptr, ptr %a0, align 8, !noundef !1
  %r1 = mul i64 %a2, 8
  %r2 = getelementptr i8, ptr %r0, i64 %r1
  call void asm sideeffect "", "~{memory}"()
  store atomic i64 %a3, ptr %r2 seq_cst, align 8
  call void asm sideeffect "", "~{memory}"()
  ret void
}

define internal { ptr, ptr } @"atomic_table::shared::Shared::deal::<#3>"(ptr noundef %a0, ptr noundef %a1) #0 {
start:
  %r0 = load ptr, ptr %a0, align 8, !noundef !1
  %r1 = insertvalue { ptr, ptr } undef, ptr %r0, 0
  ret { ptr, ptr } %r1
}

define internal i64 @reads({ ptr, i64 } %a0, ptr noundef %a1) #0 {
start:
  %r0 = getelementptr i8, ptr %a1, i64 8
  %r1 = load i64, ptr %r0, align 8
  ret i64 %r1
}

define internal i64 @writes({ ptr, i64 } %a0, ptr noundef %a1) #0 {
start:
  %r0 = alloca ptr, align 8
  store ptr %a1, ptr %r0, align 8
  %r1 = load ptr, ptr %r0, align 8, !noundef !1
  store i64 0, ptr %r1, align 8
  ret i64 0
}

define i64 @steps(ptr noundef %a0, ptr noundef %a1, { ptr, i64 } %a2) #0 {
start:
  %r0 = alloca [16 x i8], align 8
  call void @llvm.memset.p0.i64(ptr %r0, i8 0, i64 16, i1 false)
  %r1 = alloca ptr, align 8
  store ptr %a0, ptr %r1, align 8
  %r2 = load ptr, ptr %r1, align 8, !noundef !1
  call void @"atomic_table::shared::Shared::store::<#2>"(ptr %r2, ptr %a1, i64 3, i64 4)
  %r3 = call i64 @reads({ ptr, i64 } %a2, ptr %r2)
  %r4 = call i64 @"atomic_table::shared::Shared::load::<#1>"(ptr %r2, ptr %a1, i64 5)
  %r5 = add i64 %r3, %r4
  ret i64 %r5
}

define i64 @steps_behind_a_pointer(ptr noundef %a0, ptr noundef %a1, { ptr, i64 } %a2) #0 {
start:
  %r0 = load ptr, ptr %a0, align 8, !noundef !1
  %r1 = getelementptr i8, ptr %r0, i64 8
  %r2 = call i64 @steps(ptr %r1, ptr %a1, { ptr, i64 } %a2)
  store ptr null, ptr %a0, align 8
  ret i64 %r2
}

declare void @llvm.memset.p0.i64(ptr writeonly captures(none), i8, i64, i1 immarg)
declare i64 @unknown({ ptr, i64 }, ptr)

attributes #0 = { nounwind }

!1 = !{}
