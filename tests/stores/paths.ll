; Each path from a store to where a load or a return comes.
target triple = "x86_64-unknown-linux-gnu"

; stores in a row: the last one comes before the return
define void @row(ptr %p, ptr %d) {
entry:
  %p1 = getelementptr inbounds nuw i8, ptr %p, i64 8
  store i64 5, ptr %d, align 8
  store atomic i64 -1, ptr %p seq_cst, align 8 ; goes
  store atomic i64 -1, ptr %p1 seq_cst, align 8 ; goes
  store atomic i64 -1, ptr %p1 seq_cst, align 8 ; goes
  store i64 6, ptr %d, align 8
  store atomic i64 -1, ptr %p seq_cst, align 8 ; stays
  ret void
}

; of a branch one side loads
define i64 @one_side_loads(ptr %p, ptr %q, i1 %c) {
entry:
  store atomic i64 1, ptr %p seq_cst, align 8 ; stays
  br i1 %c, label %loads, label %stores

loads:                                            ; preds = %entry
  %v = load atomic i64, ptr %q seq_cst, align 8
  br label %stores

stores:                                           ; preds = %loads, %entry
  %w = phi i64 [ 0, %entry ], [ %v, %loads ]
  store atomic i64 2, ptr %p seq_cst, align 8 ; stays
  ret i64 %w
}

; both sides store
define void @both_sides_store(ptr %p, ptr %q, i1 %c) {
entry:
  store atomic i64 1, ptr %p seq_cst, align 8 ; goes
  br i1 %c, label %one, label %"other side"

one:                                              ; preds = %entry
  store atomic i64 2, ptr %q seq_cst, align 8 ; stays
  ret void

"other side":                                     ; preds = %entry
  store atomic i64 3, ptr %q seq_cst, align 8 ; stays
  ret void
}

; of a switch one case returns
define void @one_case_returns(ptr %p, ptr %q, i64 %c) {
entry:
  store atomic i64 1, ptr %p seq_cst, align 8 ; stays
  switch i64 %c, label %stores [
    i64 1, label %stores
    i64 -2, label %returns
  ]

stores:                                           ; preds = %entry, %entry
  store atomic i64 2, ptr %q seq_cst, align 8 ; goes
  br label %last

last:                                             ; preds = %stores
  store atomic i64 3, ptr %q seq_cst, align 8 ; stays
  ret void

returns:                                          ; preds = %entry
  ret void
}

; a loop, behind which a return comes
define void @loop_then_return(ptr %p, i64 %n) {
entry:
  br label %loop

loop:                                             ; preds = %loop, %entry
  %i = phi i64 [ 0, %entry ], [ %next, %loop ]
  store atomic i64 %i, ptr %p seq_cst, align 8 ; goes
  store atomic i64 %i, ptr %p seq_cst, align 8 ; stays
  %next = add nuw nsw i64 %i, 1
  %more = icmp ult i64 %next, %n
  br i1 %more, label %loop, label %exit, !llvm.loop !0

exit:                                             ; preds = %loop
  ret void
}

; a loop, behind which a store comes
define void @loop_then_store(ptr %p, i64 %n) {
entry:
  br label %loop

loop:                                             ; preds = %loop, %entry
  %i = phi i64 [ 0, %entry ], [ %next, %loop ]
  store atomic i64 %i, ptr %p seq_cst, align 8 ; goes
  %next = add nuw nsw i64 %i, 1
  %more = icmp ult i64 %next, %n
  br i1 %more, label %loop, label %exit

exit:                                             ; preds = %loop
  store atomic i64 0, ptr %p seq_cst, align 8 ; stays
  ret void
}

; a loop that loads
define void @loop_loads(ptr %p, ptr %q) {
entry:
  br label %loop

loop:                                             ; preds = %loop, %entry
  %v = load atomic i64, ptr %q seq_cst, align 8
  store atomic i64 %v, ptr %p seq_cst, align 8 ; stays
  %more = icmp ult i64 %v, 5
  br i1 %more, label %loop, label %exit

exit:                                             ; preds = %loop
  store atomic i64 0, ptr %p seq_cst, align 8 ; stays
  ret void
}

; a path without an end
define void @no_end(ptr %p) {
entry:
  store atomic i64 1, ptr %p seq_cst, align 8 ; stays
  br label %loop

loop:                                             ; preds = %loop, %entry
  br label %loop
}

; a path into nowhere
define void @nowhere(ptr %p) {
entry:
  store atomic i64 1, ptr %p seq_cst, align 8 ; stays
  unreachable
}

!0 = distinct !{!0, !1}
!1 = !{!"llvm.loop.mustprogress"}
