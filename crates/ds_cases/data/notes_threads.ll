; Main and 15 threads store one pointer, each at an address of its own; so 16 threads note one block.
@block = global ptr null
@slots = global [16 x ptr] zeroinitializer
@ids = global [16 x i64] zeroinitializer
define ptr @work(ptr %slot) {
  %p = load ptr, ptr @block
  store ptr %p, ptr %slot
  ret ptr null
}
define i32 @main() {
entry:
  %p = call ptr @malloc(i64 8)
  store ptr %p, ptr @block
  br label %make
make:
  %i = phi i64 [ 0, %entry ], [ %j, %make ]
  %d = getelementptr [16 x i64], ptr @ids, i64 0, i64 %i
  %s = getelementptr [16 x ptr], ptr @slots, i64 0, i64 %i
  %e = call i32 @pthread_create(ptr %d, ptr null, ptr @work, ptr %s)
  %j = add i64 %i, 1
  %c = icmp ult i64 %j, 15
  br i1 %c, label %make, label %wait
wait:
  %k = phi i64 [ 0, %make ], [ %l, %wait ]
  %f = getelementptr [16 x i64], ptr @ids, i64 0, i64 %k
  %t = load i64, ptr %f
  %r = call i32 @pthread_join(i64 %t, ptr null)
  %l = add i64 %k, 1
  %x = icmp ult i64 %l, 15
  br i1 %x, label %wait, label %done
done:
  call void @free(ptr %p)
  ret i32 0
}
declare ptr @malloc(i64)
declare void @free(ptr)
declare i32 @pthread_create(ptr, ptr, ptr, ptr)
declare i32 @pthread_join(i64, ptr)
