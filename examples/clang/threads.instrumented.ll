@turns = global i64 0
@shared = global ptr null
define i32 @main() {
0:
  %1 = alloca i32
  %2 = alloca [2 x i64]
  %3 = alloca i32
  %4 = alloca i32
  store i32 0, ptr %1
  store i32 0, ptr %3
  br label %5
5:
  %6 = load i32, ptr %3
  %7 = icmp slt i32 %6, 2
  br i1 %7, label %8, label %19
8:
  %9 = load i32, ptr %3
  %10 = sext i32 %9 to i64
  %11 = getelementptr [2 x i64], ptr %2, i64 0, i64 %10
  %12 = call i32 @pthread_create(ptr %11, ptr null, ptr @work, ptr null)
  %13 = icmp ne i32 %12, 0
  br i1 %13, label %14, label %15
14:
  store i32 1, ptr %1
  br label %34
15:
  br label %16
16:
  %17 = load i32, ptr %3
  %18 = add i32 %17, 1
  store i32 %18, ptr %3
  br label %5
19:
  store i32 0, ptr %4
  br label %20
20:
  %21 = load i32, ptr %4
  %22 = icmp slt i32 %21, 2
  br i1 %22, label %23, label %32
23:
  %24 = load i32, ptr %4
  %25 = sext i32 %24 to i64
  %26 = getelementptr [2 x i64], ptr %2, i64 0, i64 %25
  %27 = load i64, ptr %26
  %28 = call i32 @pthread_join(i64 %27, ptr null)
  br label %29
29:
  %30 = load i32, ptr %4
  %31 = add i32 %30, 1
  store i32 %31, ptr %4
  br label %20
32:
  %33 = load i64, ptr @turns
  call void @print_i64(i64 %33)
  store i32 0, ptr %1
  br label %34
34:
  %35 = load i32, ptr %1
  ret i32 %35
}
declare i32 @pthread_create(ptr, ptr, ptr, ptr)
define ptr @work(ptr %0) {
1:
  %2 = alloca ptr
  %3 = alloca ptr
  %4 = alloca i64
  %5 = alloca i64
  %6 = alloca i64
  %7 = alloca i64
  %8 = alloca i8
  store ptr %0, ptr %2
  call void @ds_note(ptr %2, ptr %0)
  %9 = call ptr @malloc(i64 8)
  store ptr %9, ptr %3
  call void @ds_note(ptr %3, ptr %9)
  store i64 1, ptr %4
  %10 = load i64, ptr %4
  %11 = atomicrmw add ptr @turns, i64 %10 seq_cst
  store i64 %11, ptr %5
  %12 = load i64, ptr %5
  %13 = load ptr, ptr %3
  store i64 %12, ptr %13
  %14 = load ptr, ptr %3
  store ptr %14, ptr @shared
  call void @ds_note(ptr @shared, ptr %14)
  %15 = load ptr, ptr %3
  call void @free(ptr %15)
  store i64 0, ptr %6
  store i64 7, ptr %7
  %16 = load i64, ptr %6
  %17 = load i64, ptr %7
  %18 = cmpxchg ptr @turns, i64 %16, i64 %17 seq_cst seq_cst
  %19 = extractvalue { i64, i1 } %18, 0
  %20 = extractvalue { i64, i1 } %18, 1
  br i1 %20, label %22, label %21
21:
  store i64 %19, ptr %6
  br label %22
22:
  %23 = zext i1 %20 to i8
  store i8 %23, ptr %8
  %24 = load i8, ptr %8
  %25 = trunc i8 %24 to i1
  %26 = load ptr, ptr %2
  ret ptr %26
}
declare i32 @pthread_join(i64, ptr)
declare void @print_i64(i64)
declare ptr @malloc(i64)
declare void @free(ptr)
declare void @ds_note(ptr, ptr)
