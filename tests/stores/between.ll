; What stands between a store and the next one.
target triple = "x86_64-unknown-linux-gnu"

declare void @other()

declare i64 @llvm.bswap.i64(i64)

declare i64 @llvm.vector.reduce.or.v4i64(<4 x i64>)

declare void @llvm.x86.sse2.mfence()

declare void @llvm.memcpy.p0.p0.i64(ptr, ptr, i64, i1)

declare void @llvm.memcpy.element.unordered.atomic.p0.p0.i64(ptr, ptr, i64, i32)

; loads
define i64 @loads(ptr %p, ptr %q) {
entry:
  store atomic i64 1, ptr %p seq_cst, align 8 ; stays
  %a = load atomic i64, ptr %q seq_cst, align 8
  store atomic i64 2, ptr %p seq_cst, align 8 ; stays
  %b = load volatile i64, ptr %q, align 8
  store atomic i64 3, ptr %p seq_cst, align 8 ; goes
  %c = load i64, ptr %q, align 8
  store atomic i64 4, ptr %p seq_cst, align 8 ; stays
  ret i64 %c
}

; calls of functions
define void @calls(ptr %p, ptr %f) {
entry:
  store atomic i64 1, ptr %p seq_cst, align 8 ; stays
  call void @other()
  store atomic i64 2, ptr %p seq_cst, align 8 ; stays
  call void %f(ptr @other)
  store atomic i64 3, ptr %p seq_cst, align 8 ; stays
  tail call void @other()
  ret void
}

; functions of LLVM's own
define i64 @intrinsics(ptr %p, ptr %q, ptr %d, <4 x i64> %v) {
entry:
  store atomic i64 1, ptr %p seq_cst, align 8 ; goes
  %a = tail call noundef range(i64 0, 5) i64 @llvm.bswap.i64(i64 7)
  store atomic i64 2, ptr %p seq_cst, align 8 ; goes
  %b = call i64 @llvm.vector.reduce.or.v4i64(<4 x i64> %v)
  store atomic i64 3, ptr %p seq_cst, align 8 ; goes
  call void @llvm.memcpy.p0.p0.i64(ptr align 8 %d, ptr align 8 %q, i64 64, i1 false)
  store atomic i64 4, ptr %p seq_cst, align 8 ; stays
  call void @llvm.memcpy.p0.p0.i64(ptr align 8 %d, ptr align 8 %q, i64 64, i1 true)
  store atomic i64 5, ptr %p seq_cst, align 8 ; stays
  call void @llvm.memcpy.element.unordered.atomic.p0.p0.i64(ptr align 8 %d, ptr align 8 %q, i64 64, i32 8)
  store atomic i64 6, ptr %p seq_cst, align 8 ; stays
  call void @llvm.x86.sse2.mfence()
  store atomic i64 7, ptr %p seq_cst, align 8 ; stays
  ret i64 %b
}

; assembly
define void @assembly(ptr %p, ptr %q) {
entry:
  store atomic i64 1, ptr %p seq_cst, align 8 ; goes
  call void asm sideeffect "", "~{memory}"() #0
  store atomic i64 2, ptr %p seq_cst, align 8 ; stays
  call void asm sideeffect "movq ($0), %rax", "r,~{rax},~{memory}"(ptr %q)
  store atomic i64 3, ptr %p seq_cst, align 8 ; stays
  ret void
}

; exchanges and fences
define i64 @exchanges(ptr %p, ptr %q) {
entry:
  store atomic i64 1, ptr %p seq_cst, align 8 ; goes
  %a = cmpxchg ptr %q, i64 0, i64 4 seq_cst seq_cst, align 8
  %b = load atomic i64, ptr %q seq_cst, align 8
  store atomic i64 2, ptr %p seq_cst, align 8 ; goes
  %c = atomicrmw add ptr %q, i64 1 seq_cst, align 8
  %d = load atomic i64, ptr %q seq_cst, align 8
  store atomic i64 3, ptr %p seq_cst, align 8 ; goes
  fence seq_cst
  ret i64 %d
}

attributes #0 = { nounwind }
