; Narrow accesses and exchanges, with a print behind each: 45 units in all, two of them for notes.
@g = global i64 -1
@p = global ptr @g
define i32 @main() {
  store i8 1, ptr @g
  call void @print_i64(i64 1)
  %a = load i16, ptr @g
  call void @print_i64(i64 2)
  %b = atomicrmw add ptr @g, i32 3 seq_cst
  call void @print_i64(i64 3)
  %c = cmpxchg ptr @g, i8 4, i8 5 seq_cst seq_cst
  %d = extractvalue { i8, i1 } %c, 1
  %e = zext i1 %d to i64
  call void @print_i64(i64 %e)
  %f = cmpxchg ptr @g, i16 4, i16 6 seq_cst seq_cst
  call void @print_i64(i64 5)
  %h = atomicrmw xchg ptr @g, i64 7 seq_cst
  call void @print_i64(i64 %h)
  %i = cmpxchg ptr @g, i64 7, i64 8 seq_cst seq_cst
  call void @print_i64(i64 7)
  %j = cmpxchg ptr @p, ptr null, ptr null seq_cst seq_cst
  call void @print_i64(i64 8)
  %k = atomicrmw xchg ptr @p, ptr null seq_cst
  call void @print_i64(i64 9)
  ret i32 0
}
declare void @print_i64(i64)
