%struct.node = type { i64, ptr }
@head = global ptr null
define void @push(i64 %0) {
1:
  %2 = alloca i64
  %3 = alloca ptr
  store i64 %0, ptr %2
  %4 = call ptr @malloc(i64 16)
  store ptr %4, ptr %3
  call void @ds_note(ptr %3, ptr %4)
  %5 = load i64, ptr %2
  %6 = load ptr, ptr %3
  %7 = getelementptr %struct.node, ptr %6, i32 0, i32 0
  store i64 %5, ptr %7
  %8 = load ptr, ptr @head
  %9 = load ptr, ptr %3
  %10 = getelementptr %struct.node, ptr %9, i32 0, i32 1
  store ptr %8, ptr %10
  call void @ds_note(ptr %10, ptr %8)
  %11 = load ptr, ptr %3
  store ptr %11, ptr @head
  call void @ds_note(ptr @head, ptr %11)
  ret void
}
declare ptr @malloc(i64)
define i32 @main() {
0:
  %1 = alloca i32
  %2 = alloca i64
  %3 = alloca ptr
  store i32 0, ptr %1
  store i64 0, ptr %2
  br label %4
4:
  %5 = load i64, ptr %2
  %6 = icmp slt i64 %5, 3
  br i1 %6, label %7, label %14
7:
  %8 = load i64, ptr %2
  %9 = load i64, ptr %2
  %10 = mul i64 %8, %9
  call void @push(i64 %10)
  br label %11
11:
  %12 = load i64, ptr %2
  %13 = add i64 %12, 1
  store i64 %13, ptr %2
  br label %4
14:
  %15 = load ptr, ptr @head
  store ptr %15, ptr %3
  call void @ds_note(ptr %3, ptr %15)
  %16 = load ptr, ptr @head
  %17 = getelementptr %struct.node, ptr %16, i32 0, i32 1
  %18 = load ptr, ptr %17
  store ptr %18, ptr @head
  call void @ds_note(ptr @head, ptr %18)
  %19 = load ptr, ptr %3
  call void @free(ptr %19)
  %20 = load ptr, ptr %3
  %21 = getelementptr %struct.node, ptr %20, i32 0, i32 0
  %22 = load i64, ptr %21
  call void @print_i64(i64 %22)
  ret i32 0
}
declare void @free(ptr)
declare void @print_i64(i64)
declare void @ds_note(ptr, ptr)
