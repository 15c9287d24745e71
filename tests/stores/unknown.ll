; What the pass does not know: nothing of such a function is weakened.
target triple = "x86_64-unknown-linux-gnu"

define i64 @callbr(ptr %p, ptr %q) {
entry:
  store atomic i64 1, ptr %p seq_cst, align 8 ; stays
  callbr void asm sideeffect "movq ($0), %rax", "r,!i,~{rax},~{memory}"(ptr %q)
          to label %a [label %b]

a:                                                ; preds = %entry
  fence seq_cst
  ret i64 0

b:                                                ; preds = %entry
  fence seq_cst
  ret i64 1
}

define void @indirectbr(ptr %p, ptr %to) {
entry:
  store atomic i64 1, ptr %p seq_cst, align 8 ; stays
  indirectbr ptr %to, [label %a]

a:                                                ; preds = %entry
  fence seq_cst
  ret void
}

define i64 @fence_of_one_thread(ptr %p, ptr %q) {
entry:
  store atomic i64 1, ptr %p seq_cst, align 8 ; stays
  fence syncscope("singlethread") seq_cst
  %v = load atomic i64, ptr %q seq_cst, align 8
  ret i64 %v
}

define i64 @store_of_one_thread(ptr %p, ptr %q) {
entry:
  store atomic i64 1, ptr %p seq_cst, align 8 ; stays
  store atomic i64 2, ptr %p syncscope("singlethread") seq_cst, align 8
  %v = load atomic i64, ptr %q seq_cst, align 8
  ret i64 %v
}

define i64 @lesser_fence(ptr %p, ptr %q) {
entry:
  store atomic i64 1, ptr %p seq_cst, align 8 ; stays
  fence acq_rel
  %v = load atomic i64, ptr %q seq_cst, align 8
  ret i64 %v
}

define i64 @lesser_exchange(ptr %p, ptr %q) {
entry:
  store atomic i64 1, ptr %p seq_cst, align 8 ; stays
  %u = cmpxchg ptr %p, i64 1, i64 2 acq_rel monotonic, align 8
  %v = load atomic i64, ptr %q seq_cst, align 8
  ret i64 %v
}

define i64 @exchange_that_does_nothing(ptr %p, ptr %q) {
entry:
  store atomic i64 1, ptr %p seq_cst, align 8 ; stays
  %u = atomicrmw or ptr %p, i64 0 acq_rel, align 8
  %v = load atomic i64, ptr %q seq_cst, align 8
  ret i64 %v
}

define i64 @lesser_load(ptr %p, ptr %q) {
entry:
  store atomic i64 1, ptr %p seq_cst, align 8 ; stays
  store atomic i64 1, ptr %p seq_cst, align 8 ; stays
  %v = load atomic i64, ptr %q acquire, align 8
  ret i64 %v
}

define void @past_the_caches(ptr %p, ptr %d) {
entry:
  store i64 7, ptr %d, align 8, !nontemporal !0
  store atomic i64 1, ptr %p seq_cst, align 8 ; stays
  store atomic i64 1, ptr %p seq_cst, align 8 ; stays
  ret void
}

define void @sixteen_bytes(ptr %p) {
entry:
  store atomic i64 1, ptr %p seq_cst, align 8 ; stays
  store atomic i128 2, ptr %p seq_cst, align 16
  ret void
}

define void @four_bytes(ptr %p) {
entry:
  store atomic i64 1, ptr %p seq_cst, align 8 ; stays
  store atomic i32 2, ptr %p seq_cst, align 4
  ret void
}

define void @volatile_store(ptr %p, ptr %q) {
entry:
  store atomic i64 1, ptr %p seq_cst, align 8 ; stays
  store volatile i64 1, ptr %q, align 8
  store atomic i64 1, ptr %p seq_cst, align 8 ; stays
  ret void
}

!0 = !{i32 1}
