; Stores one pointer at fifteen addresses. Each store is noted, and a log has 14 entries for a block:
; main stops at the fifteenth note.
@addresses = global [15 x ptr] zeroinitializer
define i32 @main() {
entry:
  %block = call ptr @malloc(i64 8)
  br label %loop
loop:
  %i = phi i64 [ 0, %entry ], [ %next, %loop ]
  %at = getelementptr [15 x ptr], ptr @addresses, i64 0, i64 %i
  store ptr %block, ptr %at
  %next = add i64 %i, 1
  %more = icmp ult i64 %next, 15
  br i1 %more, label %loop, label %done
done:
  call void @free(ptr %block)
  ret i32 0
}
declare ptr @malloc(i64)
declare void @free(ptr)
