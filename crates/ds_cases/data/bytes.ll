; Two threads add 1 to bytes of one word, six times each to a byte of their own, by a load and a store; six times each
; to a byte that both have, by atomicrmw; and six times each to 16 bits that both have, by a loop round cmpxchg.
@word = global i64 -72057594037927936
define void @add(ptr %at) {
entry:
  br label %loop
loop:
  %old = phi i16 [ 0, %entry ], [ %was, %loop ]
  %new = add i16 %old, 1
  %r = cmpxchg ptr %at, i16 %old, i16 %new seq_cst seq_cst
  %was = extractvalue { i16, i1 } %r, 0
  %ok = extractvalue { i16, i1 } %r, 1
  br i1 %ok, label %done, label %loop
done:
  ret void
}
define ptr @work(ptr %own) {
entry:
  %both = getelementptr i8, ptr @word, i64 3
  %half = getelementptr i8, ptr @word, i64 4
  br label %loop
loop:
  %i = phi i64 [ 0, %entry ], [ %j, %loop ]
  %s = load i8, ptr %own
  %n = add i8 %s, 1
  store i8 %n, ptr %own
  %o = atomicrmw add ptr %both, i8 1 seq_cst
  call void @add(ptr %half)
  %j = add i64 %i, 1
  %c = icmp ult i64 %j, 6
  br i1 %c, label %loop, label %done
done:
  ret ptr null
}
define i32 @main() {
  %id = alloca i64
  %p = getelementptr i8, ptr @word, i64 1
  %a = call i32 @pthread_create(ptr %id, ptr null, ptr @work, ptr @word)
  %b = call i32 @pthread_create(ptr %id, ptr null, ptr @work, ptr %p)
  %c = call i32 @pthread_join(i64 1, ptr null)
  %d = call i32 @pthread_join(i64 2, ptr null)
  %s = load i64, ptr @word
  call void @print_i64(i64 %s)
  ret i32 0
}
declare i32 @pthread_create(ptr, ptr, ptr, ptr)
declare i32 @pthread_join(i64, ptr)
declare void @print_i64(i64)
