; Another processor: there a release store is no plain one.
target triple = "aarch64-unknown-linux-gnu"

define void @row(ptr %p) {
entry:
  store atomic i64 1, ptr %p seq_cst, align 8 ; stays
  store atomic i64 2, ptr %p seq_cst, align 8 ; stays
  ret void
}
