; Two threads add 1 ten times each to a word, by one step each time: no addition is lost, whosever turn it is.
;
; Expect, with any --seed:
; 20
; main returned 0; prints 1 mallocs 0 frees 0 notes 0 marks 0 traps 0
@sum = global i64 0
define ptr @work(ptr %argument) {
entry:
  br label %loop
loop:
  %i = phi i64 [ 0, %entry ], [ %j, %loop ]
  %s = atomicrmw add ptr @sum, i64 1 seq_cst
  %j = add i64 %i, 1
  %c = icmp ult i64 %j, 10
  br i1 %c, label %loop, label %done
done:
  ret ptr null
}
define i32 @main() {
  %id = alloca i64
  %a = call i32 @pthread_create(ptr %id, ptr null, ptr @work, ptr null)
  %b = call i32 @pthread_create(ptr %id, ptr null, ptr @work, ptr null)
  %c = call i32 @pthread_join(i64 1, ptr null)
  %d = call i32 @pthread_join(i64 2, ptr null)
  %s = load i64, ptr @sum
  call void @print_i64(i64 %s)
  ret i32 0
}
declare i32 @pthread_create(ptr, ptr, ptr, ptr)
declare i32 @pthread_join(i64, ptr)
declare void @print_i64(i64)
