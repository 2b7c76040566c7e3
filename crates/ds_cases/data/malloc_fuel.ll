; Mallocs, frees and a print: 25 units in all.
define i32 @main() {
  %p = call ptr @malloc(i64 8)
  %q = call ptr @malloc(i64 15)
  call void @free(ptr %p)
  %r = call ptr @malloc(i64 4096)
  call void @free(ptr %r)
  call void @print_i64(i64 7)
  call void @free(ptr %q)
  ret i32 0
}
declare ptr @malloc(i64)
declare void @free(ptr)
declare void @print_i64(i64)
