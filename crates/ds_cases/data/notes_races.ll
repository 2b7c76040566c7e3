; Three threads store pointers into two blocks, which main frees and takes again meanwhile.
@p = global ptr null
@q = global ptr null
@seen = global [8 x ptr] zeroinitializer
@id = global [3 x i64] zeroinitializer
define ptr @work(ptr %slot) {
entry:
  br label %loop
loop:
  %i = phi i64 [ 0, %entry ], [ %j, %loop ]
  %a = load ptr, ptr @p
  store ptr %a, ptr %slot
  %b = load ptr, ptr @q
  %e = getelementptr i8, ptr %b, i64 %i
  %o = atomicrmw xchg ptr %slot, ptr %e seq_cst
  %j = add i64 %i, 1
  %c = icmp ult i64 %j, 4
  br i1 %c, label %loop, label %done
done:
  ret ptr null
}
define i32 @main() {
entry:
  %a = call ptr @malloc(i64 15)
  store ptr %a, ptr @p
  %b = call ptr @malloc(i64 4000)
  store ptr %b, ptr @q
  %s0 = getelementptr [8 x ptr], ptr @seen, i64 0, i64 0
  %i0 = getelementptr [3 x i64], ptr @id, i64 0, i64 0
  %e0 = call i32 @pthread_create(ptr %i0, ptr null, ptr @work, ptr %s0)
  %s1 = getelementptr [8 x ptr], ptr @seen, i64 0, i64 1
  %i1 = getelementptr [3 x i64], ptr @id, i64 0, i64 1
  %e1 = call i32 @pthread_create(ptr %i1, ptr null, ptr @work, ptr %s1)
  %i2 = getelementptr [3 x i64], ptr @id, i64 0, i64 2
  %e2 = call i32 @pthread_create(ptr %i2, ptr null, ptr @work, ptr %s1)
  br label %again
again:
  %n = phi i64 [ 0, %entry ], [ %m, %again ]
  %y = load ptr, ptr @q
  call void @free(ptr %y)
  %x = call ptr @malloc(i64 4000)
  %z = cmpxchg ptr @q, ptr %y, ptr %x seq_cst seq_cst
  %m = add i64 %n, 1
  %c = icmp ult i64 %m, 5
  br i1 %c, label %again, label %wait
wait:
  %k = phi i64 [ 0, %again ], [ %l, %wait ]
  %f = getelementptr [3 x i64], ptr @id, i64 0, i64 %k
  %t = load i64, ptr %f
  %r = call i32 @pthread_join(i64 %t, ptr null)
  %l = add i64 %k, 1
  %d = icmp ult i64 %l, 3
  br i1 %d, label %wait, label %done
done:
  ret i32 0
}
declare ptr @malloc(i64)
declare void @free(ptr)
declare i32 @pthread_create(ptr, ptr, ptr, ptr)
declare i32 @pthread_join(i64, ptr)
