; Blocks of one size: taken until there are none, and their addresses kept in a table; and freed in the order of the
; table, or from its end to its beginning.
@t = global [768 x i64] zeroinitializer
define i64 @fill(i64 %bytes) {
entry:
  br label %next
next:
  %i = phi i64 [ 0, %entry ], [ %j, %keep ]
  %p = call ptr @malloc(i64 %bytes)
  %z = icmp eq ptr %p, null
  br i1 %z, label %full, label %keep
keep:
  %s = getelementptr [768 x i64], ptr @t, i64 0, i64 %i
  %a = ptrtoint ptr %p to i64
  store i64 %a, ptr %s
  %j = add i64 %i, 1
  br label %next
full:
  ret i64 %i
}
define void @drop(i64 %n, i1 %backwards) {
entry:
  %l = sub i64 %n, 1
  %f = select i1 %backwards, i64 %l, i64 0
  %d = select i1 %backwards, i64 -1, i64 1
  br label %next
next:
  %i = phi i64 [ 0, %entry ], [ %j, %next ]
  %k = phi i64 [ %f, %entry ], [ %m, %next ]
  %s = getelementptr [768 x i64], ptr @t, i64 0, i64 %k
  %a = load i64, ptr %s
  %p = inttoptr i64 %a to ptr
  call void @free(ptr %p)
  %j = add i64 %i, 1
  %m = add i64 %k, %d
  %c = icmp ult i64 %j, %n
  br i1 %c, label %next, label %done
done:
  ret void
}
declare ptr @malloc(i64)
declare void @free(ptr)
declare void @print_i64(i64)
