; Uses a block behind its free, which is not found, since the pointer is kept in a register alone; and frees it twice.
;
; Expect:
; 7
; trap thread 0 in @main instruction 5: double free of 0x1000000, seen 0x4
; main trapped; prints 1 mallocs 1 frees 1 notes 0 marks 0 traps 1
define i32 @main() {
  %p = call ptr @malloc(i64 16)
  call void @free(ptr %p)
  store i64 7, ptr %p
  %v = load i64, ptr %p
  call void @print_i64(i64 %v)
  call void @free(ptr %p)
  ret i32 0
}
declare ptr @malloc(i64)
declare void @free(ptr)
declare void @print_i64(i64)
