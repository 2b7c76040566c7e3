; Loads a global, stores to it, loads it again, and prints both values.
;
; Expect:
; 5
; -1
; main returned; prints 2 mallocs 0 frees 0 notes 0 marks 0 traps 0
@g = global i64 5
define void @main() {
  %a = load i64, ptr @g
  store i64 -1, ptr @g
  %b = load i64, ptr @g
  call void @print_i64(i64 %a)
  call void @print_i64(i64 %b)
  ret void
}
declare void @print_i64(i64)
