; Stores through the null pointer.
;
; Expect status 3, and
; trap thread 0 in @main instruction 0: bad address 0x0
; main trapped; prints 0 mallocs 0 frees 0 notes 0 marks 0 traps 1
define void @main() {
  store i64 1, ptr null
  ret void
}
declare void @print_i64(i64)
