@slots = global [16 x ptr] zeroinitializer
@ids = global [16 x i64] zeroinitializer
define ptr @work(ptr %slot) {
entry:
  %p = call ptr @malloc(i64 8)
  store ptr %p, ptr %slot
  call void @free(ptr %p)
  %v = load i64, ptr %slot
  %r = lshr i64 %v, 63
  call void @print_i64(i64 %r)
  ret ptr null
}
define i32 @main() {
entry:
  br label %make
make:
  %i = phi i64 [ 0, %entry ], [ %j, %make ]
  %d = getelementptr [16 x i64], ptr @ids, i64 0, i64 %i
  %s = getelementptr [16 x ptr], ptr @slots, i64 0, i64 %i
  %e = call i32 @pthread_create(ptr %d, ptr null, ptr @work, ptr %s)
  %j = add i64 %i, 1
  %c = icmp ult i64 %j, 4
  br i1 %c, label %make, label %wait
wait:
  %k = phi i64 [ 0, %make ], [ %l, %wait ]
  %f = getelementptr [16 x i64], ptr @ids, i64 0, i64 %k
  %t = load i64, ptr %f
  %r = call i32 @pthread_join(i64 %t, ptr null)
  %l = add i64 %k, 1
  %x = icmp ult i64 %l, 4
  br i1 %x, label %wait, label %done
done:
  ret i32 0
}
declare ptr @malloc(i64)
declare void @free(ptr)
declare void @print_i64(i64)
declare i32 @pthread_create(ptr, ptr, ptr, ptr)
declare i32 @pthread_join(i64, ptr)
