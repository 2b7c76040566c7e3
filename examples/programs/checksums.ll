; ModuleID = 'checksums.c'
source_filename = "checksums.c"
target datalayout = "e-m:e-p270:32:32-p271:32:32-p272:64:64-i64:64-f80:128-n8:16:32:64-S128"
target triple = "x86_64-pc-linux-gnu"

@table = internal global [256 x i32] zeroinitializer, align 16
@message = internal global [10 x i8] c"123456789\00", align 1
@all = internal global [512 x i8] zeroinitializer, align 16
@squares = internal global [32 x i8] zeroinitializer, align 16
@cubes = internal global [32 x i8] zeroinitializer, align 16
@both = internal global [32 x i8] zeroinitializer, align 16
@bits = internal global [8 x i32] zeroinitializer, align 16

; Function Attrs: noinline nounwind
define dso_local i32 @main() #0 {
  call void @checksums(ptr noundef @table, ptr noundef @message, ptr noundef @all) #2
  call void @sets(ptr noundef @squares, ptr noundef @cubes, ptr noundef @both, ptr noundef @bits) #2
  ret i32 0
}

; Function Attrs: noinline nounwind
define internal void @checksums(ptr noundef %0, ptr noundef %1, ptr noundef %2) #0 {
  %4 = alloca ptr, align 8
  %5 = alloca ptr, align 8
  %6 = alloca ptr, align 8
  %7 = alloca i32, align 4
  %8 = alloca i32, align 4
  store ptr %0, ptr %4, align 8
  store ptr %1, ptr %5, align 8
  store ptr %2, ptr %6, align 8
  %9 = load ptr, ptr %4, align 8
  call void @fill_table(ptr noundef %9) #2
  %10 = load ptr, ptr %4, align 8
  %11 = load ptr, ptr %5, align 8
  %12 = call i32 @crc32(ptr noundef %10, ptr noundef %11, i32 noundef 9) #2
  %13 = zext i32 %12 to i64
  call void @print_i64(i64 noundef %13) #2
  %14 = load ptr, ptr %5, align 8
  %15 = call i32 @crc32_by_bits(ptr noundef %14, i32 noundef 9) #2
  %16 = zext i32 %15 to i64
  call void @print_i64(i64 noundef %16) #2
  %17 = load ptr, ptr %5, align 8
  %18 = call zeroext i16 @crc16(ptr noundef %17, i32 noundef 9) #2
  %19 = zext i16 %18 to i64
  call void @print_i64(i64 noundef %19) #2
  %20 = load ptr, ptr %5, align 8
  %21 = call i32 @adler32(ptr noundef %20, i32 noundef 9) #2
  %22 = zext i32 %21 to i64
  call void @print_i64(i64 noundef %22) #2
  %23 = load ptr, ptr %5, align 8
  %24 = call zeroext i16 @internet_sum(ptr noundef %23, i32 noundef 9) #2
  %25 = zext i16 %24 to i64
  call void @print_i64(i64 noundef %25) #2
  store i32 0, ptr %7, align 4
  br label %26

26:                                               ; preds = %36, %3
  %27 = load i32, ptr %7, align 4
  %28 = icmp slt i32 %27, 512
  br i1 %28, label %29, label %39

29:                                               ; preds = %26
  %30 = load i32, ptr %7, align 4
  %31 = trunc i32 %30 to i8
  %32 = load ptr, ptr %6, align 8
  %33 = load i32, ptr %7, align 4
  %34 = sext i32 %33 to i64
  %35 = getelementptr inbounds i8, ptr %32, i64 %34
  store i8 %31, ptr %35, align 1
  br label %36

36:                                               ; preds = %29
  %37 = load i32, ptr %7, align 4
  %38 = add nsw i32 %37, 1
  store i32 %38, ptr %7, align 4
  br label %26, !llvm.loop !5

39:                                               ; preds = %26
  %40 = load ptr, ptr %4, align 8
  %41 = load ptr, ptr %6, align 8
  %42 = call i32 @crc32(ptr noundef %40, ptr noundef %41, i32 noundef 512) #2
  store i32 %42, ptr %8, align 4
  %43 = load i32, ptr %8, align 4
  %44 = zext i32 %43 to i64
  call void @print_i64(i64 noundef %44) #2
  %45 = load ptr, ptr %6, align 8
  %46 = getelementptr inbounds i8, ptr %45, i64 300
  %47 = load i8, ptr %46, align 1
  %48 = zext i8 %47 to i32
  %49 = xor i32 %48, 64
  %50 = trunc i32 %49 to i8
  store i8 %50, ptr %46, align 1
  %51 = load ptr, ptr %6, align 8
  %52 = call i32 @crc32_by_bits(ptr noundef %51, i32 noundef 512) #2
  %53 = load i32, ptr %8, align 4
  %54 = icmp eq i32 %52, %53
  %55 = zext i1 %54 to i32
  %56 = sext i32 %55 to i64
  call void @print_i64(i64 noundef %56) #2
  ret void
}

; Function Attrs: noinline nounwind
define internal void @sets(ptr noundef %0, ptr noundef %1, ptr noundef %2, ptr noundef %3) #0 {
  %5 = alloca ptr, align 8
  %6 = alloca ptr, align 8
  %7 = alloca ptr, align 8
  %8 = alloca ptr, align 8
  %9 = alloca i32, align 4
  %10 = alloca i32, align 4
  %11 = alloca i32, align 4
  %12 = alloca i32, align 4
  store ptr %0, ptr %5, align 8
  store ptr %1, ptr %6, align 8
  store ptr %2, ptr %7, align 8
  store ptr %3, ptr %8, align 8
  store i32 0, ptr %9, align 4
  br label %13

13:                                               ; preds = %29, %4
  %14 = load i32, ptr %9, align 4
  %15 = icmp slt i32 %14, 256
  br i1 %15, label %16, label %32

16:                                               ; preds = %13
  %17 = load ptr, ptr %5, align 8
  %18 = load i32, ptr %9, align 4
  %19 = load i32, ptr %9, align 4
  %20 = mul nsw i32 %18, %19
  %21 = trunc i32 %20 to i8
  call void @put(ptr noundef %17, i8 noundef zeroext %21) #2
  %22 = load ptr, ptr %6, align 8
  %23 = load i32, ptr %9, align 4
  %24 = load i32, ptr %9, align 4
  %25 = mul nsw i32 %23, %24
  %26 = load i32, ptr %9, align 4
  %27 = mul nsw i32 %25, %26
  %28 = trunc i32 %27 to i8
  call void @put(ptr noundef %22, i8 noundef zeroext %28) #2
  br label %29

29:                                               ; preds = %16
  %30 = load i32, ptr %9, align 4
  %31 = add nsw i32 %30, 1
  store i32 %31, ptr %9, align 4
  br label %13, !llvm.loop !7

32:                                               ; preds = %13
  %33 = load ptr, ptr %5, align 8
  %34 = call i32 @size(ptr noundef %33) #2
  %35 = sext i32 %34 to i64
  call void @print_i64(i64 noundef %35) #2
  %36 = load ptr, ptr %6, align 8
  %37 = call i32 @size(ptr noundef %36) #2
  %38 = sext i32 %37 to i64
  call void @print_i64(i64 noundef %38) #2
  store i32 0, ptr %10, align 4
  br label %39

39:                                               ; preds = %61, %32
  %40 = load i32, ptr %10, align 4
  %41 = icmp slt i32 %40, 32
  br i1 %41, label %42, label %64

42:                                               ; preds = %39
  %43 = load ptr, ptr %5, align 8
  %44 = load i32, ptr %10, align 4
  %45 = sext i32 %44 to i64
  %46 = getelementptr inbounds i8, ptr %43, i64 %45
  %47 = load i8, ptr %46, align 1
  %48 = zext i8 %47 to i32
  %49 = load ptr, ptr %6, align 8
  %50 = load i32, ptr %10, align 4
  %51 = sext i32 %50 to i64
  %52 = getelementptr inbounds i8, ptr %49, i64 %51
  %53 = load i8, ptr %52, align 1
  %54 = zext i8 %53 to i32
  %55 = and i32 %48, %54
  %56 = trunc i32 %55 to i8
  %57 = load ptr, ptr %7, align 8
  %58 = load i32, ptr %10, align 4
  %59 = sext i32 %58 to i64
  %60 = getelementptr inbounds i8, ptr %57, i64 %59
  store i8 %56, ptr %60, align 1
  br label %61

61:                                               ; preds = %42
  %62 = load i32, ptr %10, align 4
  %63 = add nsw i32 %62, 1
  store i32 %63, ptr %10, align 4
  br label %39, !llvm.loop !8

64:                                               ; preds = %39
  %65 = load ptr, ptr %7, align 8
  %66 = call i32 @size(ptr noundef %65) #2
  %67 = sext i32 %66 to i64
  call void @print_i64(i64 noundef %67) #2
  %68 = load ptr, ptr %8, align 8
  %69 = load ptr, ptr %5, align 8
  call void @to_words(ptr noundef %68, ptr noundef %69) #2
  %70 = load ptr, ptr %8, align 8
  %71 = call i32 @size_of_words(ptr noundef %70) #2
  %72 = sext i32 %71 to i64
  call void @print_i64(i64 noundef %72) #2
  %73 = load ptr, ptr %8, align 8
  %74 = load ptr, ptr %6, align 8
  call void @to_words(ptr noundef %73, ptr noundef %74) #2
  %75 = load ptr, ptr %8, align 8
  %76 = call i32 @size_of_words(ptr noundef %75) #2
  %77 = sext i32 %76 to i64
  call void @print_i64(i64 noundef %77) #2
  store i32 0, ptr %11, align 4
  store i32 255, ptr %12, align 4
  br label %78

78:                                               ; preds = %84, %64
  %79 = load ptr, ptr %7, align 8
  %80 = load i32, ptr %11, align 4
  %81 = trunc i32 %80 to i8
  %82 = call zeroext i1 @has(ptr noundef %79, i8 noundef zeroext %81) #2
  %83 = xor i1 %82, true
  br i1 %83, label %84, label %87

84:                                               ; preds = %78
  %85 = load i32, ptr %11, align 4
  %86 = add nsw i32 %85, 1
  store i32 %86, ptr %11, align 4
  br label %78, !llvm.loop !9

87:                                               ; preds = %78
  br label %88

88:                                               ; preds = %94, %87
  %89 = load ptr, ptr %7, align 8
  %90 = load i32, ptr %12, align 4
  %91 = trunc i32 %90 to i8
  %92 = call zeroext i1 @has(ptr noundef %89, i8 noundef zeroext %91) #2
  %93 = xor i1 %92, true
  br i1 %93, label %94, label %97

94:                                               ; preds = %88
  %95 = load i32, ptr %12, align 4
  %96 = add nsw i32 %95, -1
  store i32 %96, ptr %12, align 4
  br label %88, !llvm.loop !10

97:                                               ; preds = %88
  %98 = load i32, ptr %11, align 4
  %99 = sext i32 %98 to i64
  call void @print_i64(i64 noundef %99) #2
  %100 = load i32, ptr %12, align 4
  %101 = sext i32 %100 to i64
  call void @print_i64(i64 noundef %101) #2
  %102 = load ptr, ptr %5, align 8
  %103 = call zeroext i1 @has(ptr noundef %102, i8 noundef zeroext 57) #2
  %104 = zext i1 %103 to i64
  call void @print_i64(i64 noundef %104) #2
  %105 = load ptr, ptr %5, align 8
  %106 = call zeroext i1 @has(ptr noundef %105, i8 noundef zeroext 58) #2
  %107 = zext i1 %106 to i64
  call void @print_i64(i64 noundef %107) #2
  %108 = load ptr, ptr %6, align 8
  %109 = getelementptr inbounds i8, ptr %108, i64 16
  %110 = load i8, ptr %109, align 1
  %111 = sext i8 %110 to i64
  call void @print_i64(i64 noundef %111) #2
  ret void
}

; Function Attrs: noinline nounwind
define internal void @fill_table(ptr noundef %0) #0 {
  %2 = alloca ptr, align 8
  %3 = alloca i32, align 4
  %4 = alloca i32, align 4
  %5 = alloca i32, align 4
  store ptr %0, ptr %2, align 8
  store i32 0, ptr %3, align 4
  br label %6

6:                                                ; preds = %36, %1
  %7 = load i32, ptr %3, align 4
  %8 = icmp slt i32 %7, 256
  br i1 %8, label %9, label %39

9:                                                ; preds = %6
  %10 = load i32, ptr %3, align 4
  store i32 %10, ptr %4, align 4
  store i32 0, ptr %5, align 4
  br label %11

11:                                               ; preds = %27, %9
  %12 = load i32, ptr %5, align 4
  %13 = icmp slt i32 %12, 8
  br i1 %13, label %14, label %30

14:                                               ; preds = %11
  %15 = load i32, ptr %4, align 4
  %16 = and i32 %15, 1
  %17 = icmp ne i32 %16, 0
  br i1 %17, label %18, label %22

18:                                               ; preds = %14
  %19 = load i32, ptr %4, align 4
  %20 = lshr i32 %19, 1
  %21 = xor i32 -306674912, %20
  br label %25

22:                                               ; preds = %14
  %23 = load i32, ptr %4, align 4
  %24 = lshr i32 %23, 1
  br label %25

25:                                               ; preds = %22, %18
  %26 = phi i32 [ %21, %18 ], [ %24, %22 ]
  store i32 %26, ptr %4, align 4
  br label %27

27:                                               ; preds = %25
  %28 = load i32, ptr %5, align 4
  %29 = add nsw i32 %28, 1
  store i32 %29, ptr %5, align 4
  br label %11, !llvm.loop !11

30:                                               ; preds = %11
  %31 = load i32, ptr %4, align 4
  %32 = load ptr, ptr %2, align 8
  %33 = load i32, ptr %3, align 4
  %34 = sext i32 %33 to i64
  %35 = getelementptr inbounds i32, ptr %32, i64 %34
  store i32 %31, ptr %35, align 4
  br label %36

36:                                               ; preds = %30
  %37 = load i32, ptr %3, align 4
  %38 = add nsw i32 %37, 1
  store i32 %38, ptr %3, align 4
  br label %6, !llvm.loop !12

39:                                               ; preds = %6
  ret void
}

declare void @print_i64(i64 noundef) #1

; Function Attrs: noinline nounwind
define internal i32 @crc32(ptr noundef %0, ptr noundef %1, i32 noundef %2) #0 {
  %4 = alloca ptr, align 8
  %5 = alloca ptr, align 8
  %6 = alloca i32, align 4
  %7 = alloca i32, align 4
  %8 = alloca i32, align 4
  store ptr %0, ptr %4, align 8
  store ptr %1, ptr %5, align 8
  store i32 %2, ptr %6, align 4
  store i32 -1, ptr %7, align 4
  store i32 0, ptr %8, align 4
  br label %9

9:                                                ; preds = %30, %3
  %10 = load i32, ptr %8, align 4
  %11 = load i32, ptr %6, align 4
  %12 = icmp slt i32 %10, %11
  br i1 %12, label %13, label %33

13:                                               ; preds = %9
  %14 = load ptr, ptr %4, align 8
  %15 = load i32, ptr %7, align 4
  %16 = load ptr, ptr %5, align 8
  %17 = load i32, ptr %8, align 4
  %18 = sext i32 %17 to i64
  %19 = getelementptr inbounds i8, ptr %16, i64 %18
  %20 = load i8, ptr %19, align 1
  %21 = zext i8 %20 to i32
  %22 = xor i32 %15, %21
  %23 = and i32 %22, 255
  %24 = zext i32 %23 to i64
  %25 = getelementptr inbounds i32, ptr %14, i64 %24
  %26 = load i32, ptr %25, align 4
  %27 = load i32, ptr %7, align 4
  %28 = lshr i32 %27, 8
  %29 = xor i32 %26, %28
  store i32 %29, ptr %7, align 4
  br label %30

30:                                               ; preds = %13
  %31 = load i32, ptr %8, align 4
  %32 = add nsw i32 %31, 1
  store i32 %32, ptr %8, align 4
  br label %9, !llvm.loop !13

33:                                               ; preds = %9
  %34 = load i32, ptr %7, align 4
  %35 = xor i32 %34, -1
  ret i32 %35
}

; Function Attrs: noinline nounwind
define internal i32 @crc32_by_bits(ptr noundef %0, i32 noundef %1) #0 {
  %3 = alloca ptr, align 8
  %4 = alloca i32, align 4
  %5 = alloca i32, align 4
  %6 = alloca i8, align 1
  store ptr %0, ptr %3, align 8
  store i32 %1, ptr %4, align 4
  store i32 -1, ptr %5, align 4
  br label %7

7:                                                ; preds = %33, %2
  %8 = load i32, ptr %4, align 4
  %9 = add nsw i32 %8, -1
  store i32 %9, ptr %4, align 4
  %10 = icmp sgt i32 %8, 0
  br i1 %10, label %11, label %34

11:                                               ; preds = %7
  %12 = load ptr, ptr %3, align 8
  %13 = getelementptr inbounds i8, ptr %12, i32 1
  store ptr %13, ptr %3, align 8
  %14 = load i8, ptr %12, align 1
  %15 = zext i8 %14 to i32
  %16 = load i32, ptr %5, align 4
  %17 = xor i32 %16, %15
  store i32 %17, ptr %5, align 4
  store i8 0, ptr %6, align 1
  br label %18

18:                                               ; preds = %30, %11
  %19 = load i8, ptr %6, align 1
  %20 = zext i8 %19 to i32
  %21 = icmp slt i32 %20, 8
  br i1 %21, label %22, label %33

22:                                               ; preds = %18
  %23 = load i32, ptr %5, align 4
  %24 = lshr i32 %23, 1
  %25 = load i32, ptr %5, align 4
  %26 = and i32 %25, 1
  %27 = sub i32 0, %26
  %28 = and i32 -306674912, %27
  %29 = xor i32 %24, %28
  store i32 %29, ptr %5, align 4
  br label %30

30:                                               ; preds = %22
  %31 = load i8, ptr %6, align 1
  %32 = add i8 %31, 1
  store i8 %32, ptr %6, align 1
  br label %18, !llvm.loop !14

33:                                               ; preds = %18
  br label %7, !llvm.loop !15

34:                                               ; preds = %7
  %35 = load i32, ptr %5, align 4
  %36 = xor i32 %35, -1
  ret i32 %36
}

; Function Attrs: noinline nounwind
define internal zeroext i16 @crc16(ptr noundef %0, i32 noundef %1) #0 {
  %3 = alloca ptr, align 8
  %4 = alloca i32, align 4
  %5 = alloca i16, align 2
  %6 = alloca i8, align 1
  store ptr %0, ptr %3, align 8
  store i32 %1, ptr %4, align 4
  store i16 0, ptr %5, align 2
  br label %7

7:                                                ; preds = %44, %2
  %8 = load i32, ptr %4, align 4
  %9 = add nsw i32 %8, -1
  store i32 %9, ptr %4, align 4
  %10 = icmp sgt i32 %8, 0
  br i1 %10, label %11, label %45

11:                                               ; preds = %7
  %12 = load ptr, ptr %3, align 8
  %13 = getelementptr inbounds i8, ptr %12, i32 1
  store ptr %13, ptr %3, align 8
  %14 = load i8, ptr %12, align 1
  %15 = zext i8 %14 to i32
  %16 = load i16, ptr %5, align 2
  %17 = zext i16 %16 to i32
  %18 = xor i32 %17, %15
  %19 = trunc i32 %18 to i16
  store i16 %19, ptr %5, align 2
  store i8 0, ptr %6, align 1
  br label %20

20:                                               ; preds = %41, %11
  %21 = load i8, ptr %6, align 1
  %22 = zext i8 %21 to i32
  %23 = icmp slt i32 %22, 8
  br i1 %23, label %24, label %44

24:                                               ; preds = %20
  %25 = load i16, ptr %5, align 2
  %26 = zext i16 %25 to i32
  %27 = and i32 %26, 1
  %28 = icmp ne i32 %27, 0
  br i1 %28, label %29, label %34

29:                                               ; preds = %24
  %30 = load i16, ptr %5, align 2
  %31 = zext i16 %30 to i32
  %32 = ashr i32 %31, 1
  %33 = xor i32 %32, 40961
  br label %38

34:                                               ; preds = %24
  %35 = load i16, ptr %5, align 2
  %36 = zext i16 %35 to i32
  %37 = ashr i32 %36, 1
  br label %38

38:                                               ; preds = %34, %29
  %39 = phi i32 [ %33, %29 ], [ %37, %34 ]
  %40 = trunc i32 %39 to i16
  store i16 %40, ptr %5, align 2
  br label %41

41:                                               ; preds = %38
  %42 = load i8, ptr %6, align 1
  %43 = add i8 %42, 1
  store i8 %43, ptr %6, align 1
  br label %20, !llvm.loop !16

44:                                               ; preds = %20
  br label %7, !llvm.loop !17

45:                                               ; preds = %7
  %46 = load i16, ptr %5, align 2
  ret i16 %46
}

; Function Attrs: noinline nounwind
define internal i32 @adler32(ptr noundef %0, i32 noundef %1) #0 {
  %3 = alloca ptr, align 8
  %4 = alloca i32, align 4
  %5 = alloca i16, align 2
  %6 = alloca i16, align 2
  %7 = alloca i32, align 4
  store ptr %0, ptr %3, align 8
  store i32 %1, ptr %4, align 4
  store i16 1, ptr %5, align 2
  store i16 0, ptr %6, align 2
  store i32 0, ptr %7, align 4
  br label %8

8:                                                ; preds = %31, %2
  %9 = load i32, ptr %7, align 4
  %10 = load i32, ptr %4, align 4
  %11 = icmp slt i32 %9, %10
  br i1 %11, label %12, label %34

12:                                               ; preds = %8
  %13 = load i16, ptr %5, align 2
  %14 = zext i16 %13 to i32
  %15 = load ptr, ptr %3, align 8
  %16 = load i32, ptr %7, align 4
  %17 = sext i32 %16 to i64
  %18 = getelementptr inbounds i8, ptr %15, i64 %17
  %19 = load i8, ptr %18, align 1
  %20 = zext i8 %19 to i32
  %21 = add nsw i32 %14, %20
  %22 = srem i32 %21, 65521
  %23 = trunc i32 %22 to i16
  store i16 %23, ptr %5, align 2
  %24 = load i16, ptr %6, align 2
  %25 = zext i16 %24 to i32
  %26 = load i16, ptr %5, align 2
  %27 = zext i16 %26 to i32
  %28 = add nsw i32 %25, %27
  %29 = srem i32 %28, 65521
  %30 = trunc i32 %29 to i16
  store i16 %30, ptr %6, align 2
  br label %31

31:                                               ; preds = %12
  %32 = load i32, ptr %7, align 4
  %33 = add nsw i32 %32, 1
  store i32 %33, ptr %7, align 4
  br label %8, !llvm.loop !18

34:                                               ; preds = %8
  %35 = load i16, ptr %6, align 2
  %36 = zext i16 %35 to i32
  %37 = shl i32 %36, 16
  %38 = load i16, ptr %5, align 2
  %39 = zext i16 %38 to i32
  %40 = or i32 %37, %39
  ret i32 %40
}

; Function Attrs: noinline nounwind
define internal zeroext i16 @internet_sum(ptr noundef %0, i32 noundef %1) #0 {
  %3 = alloca ptr, align 8
  %4 = alloca i32, align 4
  %5 = alloca i32, align 4
  %6 = alloca i32, align 4
  store ptr %0, ptr %3, align 8
  store i32 %1, ptr %4, align 4
  store i32 0, ptr %5, align 4
  store i32 0, ptr %6, align 4
  br label %7

7:                                                ; preds = %37, %2
  %8 = load i32, ptr %6, align 4
  %9 = load i32, ptr %4, align 4
  %10 = icmp slt i32 %8, %9
  br i1 %10, label %11, label %40

11:                                               ; preds = %7
  %12 = load ptr, ptr %3, align 8
  %13 = load i32, ptr %6, align 4
  %14 = sext i32 %13 to i64
  %15 = getelementptr inbounds i8, ptr %12, i64 %14
  %16 = load i8, ptr %15, align 1
  %17 = zext i8 %16 to i32
  %18 = shl i32 %17, 8
  %19 = load i32, ptr %6, align 4
  %20 = add nsw i32 %19, 1
  %21 = load i32, ptr %4, align 4
  %22 = icmp slt i32 %20, %21
  br i1 %22, label %23, label %31

23:                                               ; preds = %11
  %24 = load ptr, ptr %3, align 8
  %25 = load i32, ptr %6, align 4
  %26 = add nsw i32 %25, 1
  %27 = sext i32 %26 to i64
  %28 = getelementptr inbounds i8, ptr %24, i64 %27
  %29 = load i8, ptr %28, align 1
  %30 = zext i8 %29 to i32
  br label %32

31:                                               ; preds = %11
  br label %32

32:                                               ; preds = %31, %23
  %33 = phi i32 [ %30, %23 ], [ 0, %31 ]
  %34 = add nsw i32 %18, %33
  %35 = load i32, ptr %5, align 4
  %36 = add i32 %35, %34
  store i32 %36, ptr %5, align 4
  br label %37

37:                                               ; preds = %32
  %38 = load i32, ptr %6, align 4
  %39 = add nsw i32 %38, 2
  store i32 %39, ptr %6, align 4
  br label %7, !llvm.loop !19

40:                                               ; preds = %7
  br label %41

41:                                               ; preds = %45, %40
  %42 = load i32, ptr %5, align 4
  %43 = lshr i32 %42, 16
  %44 = icmp ne i32 %43, 0
  br i1 %44, label %45, label %51

45:                                               ; preds = %41
  %46 = load i32, ptr %5, align 4
  %47 = and i32 %46, 65535
  %48 = load i32, ptr %5, align 4
  %49 = lshr i32 %48, 16
  %50 = add i32 %47, %49
  store i32 %50, ptr %5, align 4
  br label %41, !llvm.loop !20

51:                                               ; preds = %41
  %52 = load i32, ptr %5, align 4
  %53 = xor i32 %52, -1
  %54 = trunc i32 %53 to i16
  ret i16 %54
}

; Function Attrs: noinline nounwind
define internal void @put(ptr noundef %0, i8 noundef zeroext %1) #0 {
  %3 = alloca ptr, align 8
  %4 = alloca i8, align 1
  store ptr %0, ptr %3, align 8
  store i8 %1, ptr %4, align 1
  %5 = load i8, ptr %4, align 1
  %6 = zext i8 %5 to i32
  %7 = and i32 %6, 7
  %8 = shl i32 1, %7
  %9 = load ptr, ptr %3, align 8
  %10 = load i8, ptr %4, align 1
  %11 = zext i8 %10 to i32
  %12 = ashr i32 %11, 3
  %13 = sext i32 %12 to i64
  %14 = getelementptr inbounds i8, ptr %9, i64 %13
  %15 = load i8, ptr %14, align 1
  %16 = zext i8 %15 to i32
  %17 = or i32 %16, %8
  %18 = trunc i32 %17 to i8
  store i8 %18, ptr %14, align 1
  ret void
}

; Function Attrs: noinline nounwind
define internal i32 @size(ptr noundef %0) #0 {
  %2 = alloca ptr, align 8
  %3 = alloca i32, align 4
  %4 = alloca i32, align 4
  %5 = alloca i8, align 1
  store ptr %0, ptr %2, align 8
  store i32 0, ptr %3, align 4
  store i32 0, ptr %4, align 4
  br label %6

6:                                                ; preds = %31, %1
  %7 = load i32, ptr %4, align 4
  %8 = icmp slt i32 %7, 32
  br i1 %8, label %9, label %34

9:                                                ; preds = %6
  %10 = load ptr, ptr %2, align 8
  %11 = load i32, ptr %4, align 4
  %12 = sext i32 %11 to i64
  %13 = getelementptr inbounds i8, ptr %10, i64 %12
  %14 = load i8, ptr %13, align 1
  store i8 %14, ptr %5, align 1
  br label %15

15:                                               ; preds = %22, %9
  %16 = load i8, ptr %5, align 1
  %17 = zext i8 %16 to i32
  %18 = icmp ne i32 %17, 0
  br i1 %18, label %19, label %30

19:                                               ; preds = %15
  %20 = load i32, ptr %3, align 4
  %21 = add nsw i32 %20, 1
  store i32 %21, ptr %3, align 4
  br label %22

22:                                               ; preds = %19
  %23 = load i8, ptr %5, align 1
  %24 = zext i8 %23 to i32
  %25 = sub nsw i32 %24, 1
  %26 = load i8, ptr %5, align 1
  %27 = zext i8 %26 to i32
  %28 = and i32 %27, %25
  %29 = trunc i32 %28 to i8
  store i8 %29, ptr %5, align 1
  br label %15, !llvm.loop !21

30:                                               ; preds = %15
  br label %31

31:                                               ; preds = %30
  %32 = load i32, ptr %4, align 4
  %33 = add nsw i32 %32, 1
  store i32 %33, ptr %4, align 4
  br label %6, !llvm.loop !22

34:                                               ; preds = %6
  %35 = load i32, ptr %3, align 4
  ret i32 %35
}

; Function Attrs: noinline nounwind
define internal void @to_words(ptr noundef %0, ptr noundef %1) #0 {
  %3 = alloca ptr, align 8
  %4 = alloca ptr, align 8
  %5 = alloca i32, align 4
  store ptr %0, ptr %3, align 8
  store ptr %1, ptr %4, align 8
  store i32 0, ptr %5, align 4
  br label %6

6:                                                ; preds = %27, %2
  %7 = load i32, ptr %5, align 4
  %8 = icmp slt i32 %7, 32
  br i1 %8, label %9, label %30

9:                                                ; preds = %6
  %10 = load ptr, ptr %4, align 8
  %11 = load i32, ptr %5, align 4
  %12 = sext i32 %11 to i64
  %13 = getelementptr inbounds i8, ptr %10, i64 %12
  %14 = load i8, ptr %13, align 1
  %15 = zext i8 %14 to i32
  %16 = load i32, ptr %5, align 4
  %17 = srem i32 %16, 4
  %18 = mul nsw i32 8, %17
  %19 = shl i32 %15, %18
  %20 = load ptr, ptr %3, align 8
  %21 = load i32, ptr %5, align 4
  %22 = sdiv i32 %21, 4
  %23 = sext i32 %22 to i64
  %24 = getelementptr inbounds i32, ptr %20, i64 %23
  %25 = load i32, ptr %24, align 4
  %26 = or i32 %25, %19
  store i32 %26, ptr %24, align 4
  br label %27

27:                                               ; preds = %9
  %28 = load i32, ptr %5, align 4
  %29 = add nsw i32 %28, 1
  store i32 %29, ptr %5, align 4
  br label %6, !llvm.loop !23

30:                                               ; preds = %6
  ret void
}

; Function Attrs: noinline nounwind
define internal i32 @size_of_words(ptr noundef %0) #0 {
  %2 = alloca ptr, align 8
  %3 = alloca i32, align 4
  %4 = alloca i32, align 4
  %5 = alloca i32, align 4
  store ptr %0, ptr %2, align 8
  store i32 0, ptr %3, align 4
  store i32 0, ptr %4, align 4
  br label %6

6:                                                ; preds = %36, %1
  %7 = load i32, ptr %4, align 4
  %8 = icmp slt i32 %7, 8
  br i1 %8, label %9, label %39

9:                                                ; preds = %6
  %10 = load ptr, ptr %2, align 8
  %11 = load i32, ptr %4, align 4
  %12 = sext i32 %11 to i64
  %13 = getelementptr inbounds i32, ptr %10, i64 %12
  %14 = load i32, ptr %13, align 4
  store i32 %14, ptr %5, align 4
  %15 = load i32, ptr %5, align 4
  %16 = load i32, ptr %5, align 4
  %17 = lshr i32 %16, 1
  %18 = and i32 %17, 1431655765
  %19 = sub i32 %15, %18
  store i32 %19, ptr %5, align 4
  %20 = load i32, ptr %5, align 4
  %21 = and i32 %20, 858993459
  %22 = load i32, ptr %5, align 4
  %23 = lshr i32 %22, 2
  %24 = and i32 %23, 858993459
  %25 = add i32 %21, %24
  store i32 %25, ptr %5, align 4
  %26 = load i32, ptr %5, align 4
  %27 = load i32, ptr %5, align 4
  %28 = lshr i32 %27, 4
  %29 = add i32 %26, %28
  %30 = and i32 %29, 252645135
  store i32 %30, ptr %5, align 4
  %31 = load i32, ptr %5, align 4
  %32 = mul i32 %31, 16843009
  %33 = lshr i32 %32, 24
  %34 = load i32, ptr %3, align 4
  %35 = add i32 %34, %33
  store i32 %35, ptr %3, align 4
  br label %36

36:                                               ; preds = %9
  %37 = load i32, ptr %4, align 4
  %38 = add nsw i32 %37, 1
  store i32 %38, ptr %4, align 4
  br label %6, !llvm.loop !24

39:                                               ; preds = %6
  %40 = load i32, ptr %3, align 4
  ret i32 %40
}

; Function Attrs: noinline nounwind
define internal zeroext i1 @has(ptr noundef %0, i8 noundef zeroext %1) #0 {
  %3 = alloca ptr, align 8
  %4 = alloca i8, align 1
  store ptr %0, ptr %3, align 8
  store i8 %1, ptr %4, align 1
  %5 = load ptr, ptr %3, align 8
  %6 = load i8, ptr %4, align 1
  %7 = zext i8 %6 to i32
  %8 = ashr i32 %7, 3
  %9 = sext i32 %8 to i64
  %10 = getelementptr inbounds i8, ptr %5, i64 %9
  %11 = load i8, ptr %10, align 1
  %12 = zext i8 %11 to i32
  %13 = load i8, ptr %4, align 1
  %14 = zext i8 %13 to i32
  %15 = and i32 %14, 7
  %16 = ashr i32 %12, %15
  %17 = and i32 %16, 1
  %18 = icmp ne i32 %17, 0
  ret i1 %18
}

attributes #0 = { noinline nounwind "frame-pointer"="all" "min-legal-vector-width"="0" "no-builtins" "no-trapping-math"="true" "stack-protector-buffer-size"="8" "target-cpu"="x86-64" "target-features"="+cx8,+fxsr,+mmx,+sse,+sse2,+x87" "tune-cpu"="generic" }
attributes #1 = { "frame-pointer"="all" "no-builtins" "no-trapping-math"="true" "stack-protector-buffer-size"="8" "target-cpu"="x86-64" "target-features"="+cx8,+fxsr,+mmx,+sse,+sse2,+x87" "tune-cpu"="generic" }
attributes #2 = { nobuiltin "no-builtins" }

!llvm.module.flags = !{!0, !1, !2, !3}
!llvm.ident = !{!4}

!0 = !{i32 1, !"wchar_size", i32 4}
!1 = !{i32 8, !"PIC Level", i32 2}
!2 = !{i32 7, !"PIE Level", i32 2}
!3 = !{i32 7, !"frame-pointer", i32 2}
!4 = !{!"Debian clang version 16.0.6 (15~deb12u1)"}
!5 = distinct !{!5, !6}
!6 = !{!"llvm.loop.mustprogress"}
!7 = distinct !{!7, !6}
!8 = distinct !{!8, !6}
!9 = distinct !{!9, !6}
!10 = distinct !{!10, !6}
!11 = distinct !{!11, !6}
!12 = distinct !{!12, !6}
!13 = distinct !{!13, !6}
!14 = distinct !{!14, !6}
!15 = distinct !{!15, !6}
!16 = distinct !{!16, !6}
!17 = distinct !{!17, !6}
!18 = distinct !{!18, !6}
!19 = distinct !{!19, !6}
!20 = distinct !{!20, !6}
!21 = distinct !{!21, !6}
!22 = distinct !{!22, !6}
!23 = distinct !{!23, !6}
!24 = distinct !{!24, !6}
