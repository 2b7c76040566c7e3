; Two threads that print, exchange, and use the heap, and main, which waits for both.
@g = global i64 0
define ptr @w(ptr %a) {
  %x = atomicrmw add ptr @g, i64 1 seq_cst
  %y = add i64 %x, 10
  call void @print_i64(i64 %y)
  %p = call ptr @malloc(i64 8)
  store i8 7, ptr %p
  call void @free(ptr %p)
  %z = add i64 %x, 20
  call void @print_i64(i64 %z)
  ret ptr null
}
define i32 @main() {
  %t = alloca i64
  %r = call i32 @pthread_create(ptr %t, ptr null, ptr @w, ptr null)
  %s = call i32 @pthread_create(ptr %t, ptr null, ptr @w, ptr null)
  %m = call i32 @pthread_join(i64 1, ptr null)
  call void @print_i64(i64 1)
  %n = call i32 @pthread_join(i64 2, ptr null)
  ret i32 0
}
declare ptr @malloc(i64)
declare void @free(ptr)
declare void @print_i64(i64)
declare i32 @pthread_create(ptr, ptr, ptr, ptr)
declare i32 @pthread_join(i64, ptr)
