%struct.pair = type { i8, i32 }
@pairs = global [3 x %struct.pair] [ %struct.pair { i8 97, i32 1 }, %struct.pair { i8 98, i32 -2 }, %struct.pair { i8 -23, i32 300 } ]
@greeting = global [10 x i8] [ i8 103, i8 111, i8 111, i8 100, i8 32, i8 100, i8 97, i8 121, i8 10, i8 0 ]
@primes = global [8 x i32] [ i32 2, i32 3, i32 5, i32 7, i32 0, i32 0, i32 0, i32 0 ]
@chosen = global ptr @primes
@flags = global i8 0
define i32 @main() {
0:
  %1 = alloca i32
  %2 = alloca i32
  %3 = alloca i32
  store i32 0, ptr %1
  store i32 0, ptr %2
  store i32 0, ptr %3
  br label %4
4:
  %5 = load i32, ptr %3
  %6 = sext i32 %5 to i64
  %7 = getelementptr [10 x i8], ptr @greeting, i64 0, i64 %6
  %8 = load i8, ptr %7
  %9 = sext i8 %8 to i32
  %10 = icmp ne i32 %9, 0
  br i1 %10, label %11, label %29
11:
  %12 = load i32, ptr %3
  %13 = sext i32 %12 to i64
  %14 = getelementptr [10 x i8], ptr @greeting, i64 0, i64 %13
  %15 = load i8, ptr %14
  %16 = call i32 @weight_of(i8 %15)
  %17 = load i32, ptr %3
  %18 = sext i32 %17 to i64
  %19 = getelementptr [10 x i8], ptr @greeting, i64 0, i64 %18
  %20 = load i8, ptr %19
  %21 = sext i8 %20 to i32
  %22 = shl i32 %21, 1
  %23 = xor i32 %16, %22
  %24 = load i32, ptr %2
  %25 = add i32 %24, %23
  store i32 %25, ptr %2
  br label %26
26:
  %27 = load i32, ptr %3
  %28 = add i32 %27, 1
  store i32 %28, ptr %3
  br label %4
29:
  %30 = load i32, ptr %2
  %31 = icmp sgt i32 %30, 100
  br i1 %31, label %32, label %36
32:
  %33 = load i32, ptr %2
  %34 = srem i32 %33, 3
  %35 = icmp ne i32 %34, 0
  br label %36
36:
  %37 = phi i1 [ false, %29 ], [ %35, %32 ]
  %38 = zext i1 %37 to i32
  %39 = trunc i32 %38 to i8
  store i8 %39, ptr @flags
  %40 = load i8, ptr @flags
  %41 = zext i8 %40 to i32
  %42 = icmp ne i32 %41, 0
  br i1 %42, label %43, label %45
43:
  %44 = load i32, ptr %2
  br label %49
45:
  %46 = load i32, ptr %2
  %47 = sub i32 0, %46
  %48 = sdiv i32 %47, 2
  br label %49
49:
  %50 = phi i32 [ %44, %43 ], [ %48, %45 ]
  %51 = sext i32 %50 to i64
  call void @print_i64(i64 %51)
  %52 = load ptr, ptr @chosen
  %53 = getelementptr i32, ptr %52, i64 3
  %54 = load i32, ptr %53
  %55 = sext i32 %54 to i64
  call void @print_i64(i64 %55)
  ret i32 0
}
define i32 @weight_of(i8 %0) {
1:
  %2 = alloca i32
  %3 = alloca i8
  %4 = alloca i32
  store i8 %0, ptr %3
  store i32 0, ptr %4
  br label %5
5:
  %6 = load i32, ptr %4
  %7 = icmp slt i32 %6, 3
  br i1 %7, label %8, label %28
8:
  %9 = load i32, ptr %4
  %10 = sext i32 %9 to i64
  %11 = getelementptr [3 x %struct.pair], ptr @pairs, i64 0, i64 %10
  %12 = getelementptr %struct.pair, ptr %11, i32 0, i32 0
  %13 = load i8, ptr %12
  %14 = sext i8 %13 to i32
  %15 = load i8, ptr %3
  %16 = sext i8 %15 to i32
  %17 = icmp eq i32 %14, %16
  br i1 %17, label %18, label %24
18:
  %19 = load i32, ptr %4
  %20 = sext i32 %19 to i64
  %21 = getelementptr [3 x %struct.pair], ptr @pairs, i64 0, i64 %20
  %22 = getelementptr %struct.pair, ptr %21, i32 0, i32 1
  %23 = load i32, ptr %22
  store i32 %23, ptr %2
  br label %39
24:
  br label %25
25:
  %26 = load i32, ptr %4
  %27 = add i32 %26, 1
  store i32 %27, ptr %4
  br label %5
28:
  %29 = load i8, ptr %3
  %30 = sext i8 %29 to i32
  switch i32 %30, label %33 [ i32 32, label %31 i32 10, label %32 ]
31:
  store i32 10, ptr %2
  br label %39
32:
  store i32 -10, ptr %2
  br label %39
33:
  %34 = load i8, ptr %3
  %35 = sext i8 %34 to i32
  %36 = icmp slt i32 %35, 0
  %37 = zext i1 %36 to i64
  %38 = select i1 %36, i32 1, i32 0
  store i32 %38, ptr %2
  br label %39
39:
  %40 = load i32, ptr %2
  ret i32 %40
}
declare void @print_i64(i64)
declare void @ds_note(ptr, ptr)
