; Calls, a loop with a phi, loads, stores and prints: 47 units in all.
@g = global i64 3
define i64 @f(i64 %n) {
  br label %l
l:
  %i = phi i64 [ %n, %0 ], [ %j, %l ]
  %j = sub i64 %i, 1
  call void @print_i64(i64 %j)
  %z = icmp eq i64 %j, 0
  br i1 %z, label %e, label %l
e:
  ret i64 %i
}
define i32 @main() {
  %a = load i64, ptr @g
  %b = call i64 @f(i64 %a)
  store i64 %b, ptr @g
  %c = call i64 @f(i64 2)
  %d = load i64, ptr @g
  call void @print_i64(i64 %d)
  %e = trunc i64 %d to i32
  ret i32 %e
}
declare void @print_i64(i64)
