; Prints the ends of the range of a 64-bit signed number, and two numbers between them.
;
; Expect: the four numbers, one a line, and then
; main returned; prints 4 mallocs 0 frees 0 notes 0 marks 0 traps 0
define void @main() {
  call void @print_i64(i64 0)
  call void @print_i64(i64 -1)
  call void @print_i64(i64 9223372036854775807)
  call void @print_i64(i64 -9223372036854775808)
  ret void
}
declare void @print_i64(i64)
