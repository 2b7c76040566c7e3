; ModuleID = 'matrix.c'
source_filename = "matrix.c"
target datalayout = "e-m:e-p270:32:32-p271:32:32-p272:64:64-i64:64-f80:128-n8:16:32:64-S128"
target triple = "x86_64-pc-linux-gnu"

%struct.symmetric = type { i64, i64, i64 }

@power = internal global %struct.symmetric zeroinitializer, align 8
@step = internal global %struct.symmetric zeroinitializer, align 8
@a = internal global [8 x [8 x i64]] zeroinitializer, align 16
@b = internal global [8 x [8 x i64]] zeroinitializer, align 16
@c = internal global [8 x [8 x i64]] zeroinitializer, align 16

; Function Attrs: noinline nounwind
define dso_local i32 @main() #0 {
  call void @show_power(ptr noundef @power, ptr noundef @step, i64 noundef 64) #2
  call void @show_power(ptr noundef @power, ptr noundef @step, i64 noundef 200) #2
  call void @fill(ptr noundef @a, i64 noundef 3) #2
  call void @fill(ptr noundef @b, i64 noundef -2) #2
  call void @multiply(ptr noundef @a, ptr noundef @b, ptr noundef @c) #2
  call void @show_corners(ptr noundef @c) #2
  %1 = call i64 @diagonal(ptr noundef @c) #2
  call void @print_i64(i64 noundef %1) #2
  ret i32 0
}

; Function Attrs: noinline nounwind
define internal void @show_power(ptr noundef %0, ptr noundef %1, i64 noundef %2) #0 {
  %4 = alloca ptr, align 8
  %5 = alloca ptr, align 8
  %6 = alloca i64, align 8
  store ptr %0, ptr %4, align 8
  store ptr %1, ptr %5, align 8
  store i64 %2, ptr %6, align 8
  %7 = load ptr, ptr %4, align 8
  call void @set(ptr noundef %7, i64 noundef 1, i64 noundef 0, i64 noundef 1) #2
  %8 = load ptr, ptr %5, align 8
  call void @set(ptr noundef %8, i64 noundef 1, i64 noundef 1, i64 noundef 0) #2
  br label %9

9:                                                ; preds = %22, %3
  %10 = load i64, ptr %6, align 8
  %11 = icmp sgt i64 %10, 0
  br i1 %11, label %12, label %25

12:                                               ; preds = %9
  %13 = load i64, ptr %6, align 8
  %14 = srem i64 %13, 2
  %15 = icmp eq i64 %14, 1
  br i1 %15, label %16, label %19

16:                                               ; preds = %12
  %17 = load ptr, ptr %4, align 8
  %18 = load ptr, ptr %5, align 8
  call void @multiply_by(ptr noundef %17, ptr noundef %18) #2
  br label %19

19:                                               ; preds = %16, %12
  %20 = load ptr, ptr %5, align 8
  %21 = load ptr, ptr %5, align 8
  call void @multiply_by(ptr noundef %20, ptr noundef %21) #2
  br label %22

22:                                               ; preds = %19
  %23 = load i64, ptr %6, align 8
  %24 = sdiv i64 %23, 2
  store i64 %24, ptr %6, align 8
  br label %9, !llvm.loop !5

25:                                               ; preds = %9
  %26 = load ptr, ptr %4, align 8
  %27 = getelementptr inbounds %struct.symmetric, ptr %26, i32 0, i32 0
  %28 = load i64, ptr %27, align 8
  call void @print_i64(i64 noundef %28) #2
  %29 = load ptr, ptr %4, align 8
  %30 = getelementptr inbounds %struct.symmetric, ptr %29, i32 0, i32 1
  %31 = load i64, ptr %30, align 8
  call void @print_i64(i64 noundef %31) #2
  ret void
}

; Function Attrs: noinline nounwind
define internal void @fill(ptr noundef %0, i64 noundef %1) #0 {
  %3 = alloca ptr, align 8
  %4 = alloca i64, align 8
  %5 = alloca i64, align 8
  %6 = alloca i64, align 8
  store ptr %0, ptr %3, align 8
  store i64 %1, ptr %4, align 8
  store i64 0, ptr %5, align 8
  br label %7

7:                                                ; preds = %33, %2
  %8 = load i64, ptr %5, align 8
  %9 = icmp slt i64 %8, 8
  br i1 %9, label %10, label %36

10:                                               ; preds = %7
  store i64 0, ptr %6, align 8
  br label %11

11:                                               ; preds = %29, %10
  %12 = load i64, ptr %6, align 8
  %13 = icmp slt i64 %12, 8
  br i1 %13, label %14, label %32

14:                                               ; preds = %11
  %15 = load i64, ptr %4, align 8
  %16 = load i64, ptr %5, align 8
  %17 = load i64, ptr %6, align 8
  %18 = sub nsw i64 %16, %17
  %19 = mul nsw i64 %15, %18
  %20 = load i64, ptr %5, align 8
  %21 = load i64, ptr %6, align 8
  %22 = mul nsw i64 %20, %21
  %23 = add nsw i64 %19, %22
  %24 = load ptr, ptr %3, align 8
  %25 = load i64, ptr %5, align 8
  %26 = getelementptr inbounds [8 x i64], ptr %24, i64 %25
  %27 = load i64, ptr %6, align 8
  %28 = getelementptr inbounds [8 x i64], ptr %26, i64 0, i64 %27
  store i64 %23, ptr %28, align 8
  br label %29

29:                                               ; preds = %14
  %30 = load i64, ptr %6, align 8
  %31 = add nsw i64 %30, 1
  store i64 %31, ptr %6, align 8
  br label %11, !llvm.loop !7

32:                                               ; preds = %11
  br label %33

33:                                               ; preds = %32
  %34 = load i64, ptr %5, align 8
  %35 = add nsw i64 %34, 1
  store i64 %35, ptr %5, align 8
  br label %7, !llvm.loop !8

36:                                               ; preds = %7
  ret void
}

; Function Attrs: noinline nounwind
define internal void @multiply(ptr noundef %0, ptr noundef %1, ptr noundef %2) #0 {
  %4 = alloca ptr, align 8
  %5 = alloca ptr, align 8
  %6 = alloca ptr, align 8
  %7 = alloca i64, align 8
  %8 = alloca i64, align 8
  %9 = alloca i64, align 8
  store ptr %0, ptr %4, align 8
  store ptr %1, ptr %5, align 8
  store ptr %2, ptr %6, align 8
  store i64 0, ptr %7, align 8
  br label %10

10:                                               ; preds = %55, %3
  %11 = load i64, ptr %7, align 8
  %12 = icmp slt i64 %11, 8
  br i1 %12, label %13, label %58

13:                                               ; preds = %10
  store i64 0, ptr %8, align 8
  br label %14

14:                                               ; preds = %51, %13
  %15 = load i64, ptr %8, align 8
  %16 = icmp slt i64 %15, 8
  br i1 %16, label %17, label %54

17:                                               ; preds = %14
  %18 = load ptr, ptr %6, align 8
  %19 = load i64, ptr %7, align 8
  %20 = getelementptr inbounds [8 x i64], ptr %18, i64 %19
  %21 = load i64, ptr %8, align 8
  %22 = getelementptr inbounds [8 x i64], ptr %20, i64 0, i64 %21
  store i64 0, ptr %22, align 8
  store i64 0, ptr %9, align 8
  br label %23

23:                                               ; preds = %47, %17
  %24 = load i64, ptr %9, align 8
  %25 = icmp slt i64 %24, 8
  br i1 %25, label %26, label %50

26:                                               ; preds = %23
  %27 = load ptr, ptr %4, align 8
  %28 = load i64, ptr %7, align 8
  %29 = getelementptr inbounds [8 x i64], ptr %27, i64 %28
  %30 = load i64, ptr %9, align 8
  %31 = getelementptr inbounds [8 x i64], ptr %29, i64 0, i64 %30
  %32 = load i64, ptr %31, align 8
  %33 = load ptr, ptr %5, align 8
  %34 = load i64, ptr %9, align 8
  %35 = getelementptr inbounds [8 x i64], ptr %33, i64 %34
  %36 = load i64, ptr %8, align 8
  %37 = getelementptr inbounds [8 x i64], ptr %35, i64 0, i64 %36
  %38 = load i64, ptr %37, align 8
  %39 = mul nsw i64 %32, %38
  %40 = load ptr, ptr %6, align 8
  %41 = load i64, ptr %7, align 8
  %42 = getelementptr inbounds [8 x i64], ptr %40, i64 %41
  %43 = load i64, ptr %8, align 8
  %44 = getelementptr inbounds [8 x i64], ptr %42, i64 0, i64 %43
  %45 = load i64, ptr %44, align 8
  %46 = add nsw i64 %45, %39
  store i64 %46, ptr %44, align 8
  br label %47

47:                                               ; preds = %26
  %48 = load i64, ptr %9, align 8
  %49 = add nsw i64 %48, 1
  store i64 %49, ptr %9, align 8
  br label %23, !llvm.loop !9

50:                                               ; preds = %23
  br label %51

51:                                               ; preds = %50
  %52 = load i64, ptr %8, align 8
  %53 = add nsw i64 %52, 1
  store i64 %53, ptr %8, align 8
  br label %14, !llvm.loop !10

54:                                               ; preds = %14
  br label %55

55:                                               ; preds = %54
  %56 = load i64, ptr %7, align 8
  %57 = add nsw i64 %56, 1
  store i64 %57, ptr %7, align 8
  br label %10, !llvm.loop !11

58:                                               ; preds = %10
  ret void
}

; Function Attrs: noinline nounwind
define internal void @show_corners(ptr noundef %0) #0 {
  %2 = alloca ptr, align 8
  store ptr %0, ptr %2, align 8
  %3 = load ptr, ptr %2, align 8
  %4 = getelementptr inbounds [8 x i64], ptr %3, i64 0
  %5 = getelementptr inbounds [8 x i64], ptr %4, i64 0, i64 0
  %6 = load i64, ptr %5, align 8
  call void @print_i64(i64 noundef %6) #2
  %7 = load ptr, ptr %2, align 8
  %8 = getelementptr inbounds [8 x i64], ptr %7, i64 0
  %9 = getelementptr inbounds [8 x i64], ptr %8, i64 0, i64 7
  %10 = load i64, ptr %9, align 8
  call void @print_i64(i64 noundef %10) #2
  %11 = load ptr, ptr %2, align 8
  %12 = getelementptr inbounds [8 x i64], ptr %11, i64 7
  %13 = getelementptr inbounds [8 x i64], ptr %12, i64 0, i64 0
  %14 = load i64, ptr %13, align 8
  call void @print_i64(i64 noundef %14) #2
  %15 = load ptr, ptr %2, align 8
  %16 = getelementptr inbounds [8 x i64], ptr %15, i64 7
  %17 = getelementptr inbounds [8 x i64], ptr %16, i64 0, i64 7
  %18 = load i64, ptr %17, align 8
  call void @print_i64(i64 noundef %18) #2
  ret void
}

declare void @print_i64(i64 noundef) #1

; Function Attrs: noinline nounwind
define internal i64 @diagonal(ptr noundef %0) #0 {
  %2 = alloca ptr, align 8
  %3 = alloca i64, align 8
  %4 = alloca i64, align 8
  store ptr %0, ptr %2, align 8
  store i64 0, ptr %3, align 8
  store i64 0, ptr %4, align 8
  br label %5

5:                                                ; preds = %17, %1
  %6 = load i64, ptr %4, align 8
  %7 = icmp slt i64 %6, 8
  br i1 %7, label %8, label %20

8:                                                ; preds = %5
  %9 = load ptr, ptr %2, align 8
  %10 = load i64, ptr %4, align 8
  %11 = getelementptr inbounds [8 x i64], ptr %9, i64 %10
  %12 = load i64, ptr %4, align 8
  %13 = getelementptr inbounds [8 x i64], ptr %11, i64 0, i64 %12
  %14 = load i64, ptr %13, align 8
  %15 = load i64, ptr %3, align 8
  %16 = add nsw i64 %15, %14
  store i64 %16, ptr %3, align 8
  br label %17

17:                                               ; preds = %8
  %18 = load i64, ptr %4, align 8
  %19 = add nsw i64 %18, 1
  store i64 %19, ptr %4, align 8
  br label %5, !llvm.loop !12

20:                                               ; preds = %5
  %21 = load i64, ptr %3, align 8
  ret i64 %21
}

; Function Attrs: noinline nounwind
define internal void @set(ptr noundef %0, i64 noundef %1, i64 noundef %2, i64 noundef %3) #0 {
  %5 = alloca ptr, align 8
  %6 = alloca i64, align 8
  %7 = alloca i64, align 8
  %8 = alloca i64, align 8
  store ptr %0, ptr %5, align 8
  store i64 %1, ptr %6, align 8
  store i64 %2, ptr %7, align 8
  store i64 %3, ptr %8, align 8
  %9 = load i64, ptr %6, align 8
  %10 = load ptr, ptr %5, align 8
  %11 = getelementptr inbounds %struct.symmetric, ptr %10, i32 0, i32 0
  store i64 %9, ptr %11, align 8
  %12 = load i64, ptr %7, align 8
  %13 = load ptr, ptr %5, align 8
  %14 = getelementptr inbounds %struct.symmetric, ptr %13, i32 0, i32 1
  store i64 %12, ptr %14, align 8
  %15 = load i64, ptr %8, align 8
  %16 = load ptr, ptr %5, align 8
  %17 = getelementptr inbounds %struct.symmetric, ptr %16, i32 0, i32 2
  store i64 %15, ptr %17, align 8
  ret void
}

; Function Attrs: noinline nounwind
define internal void @multiply_by(ptr noundef %0, ptr noundef %1) #0 {
  %3 = alloca ptr, align 8
  %4 = alloca ptr, align 8
  %5 = alloca i64, align 8
  %6 = alloca i64, align 8
  %7 = alloca i64, align 8
  store ptr %0, ptr %3, align 8
  store ptr %1, ptr %4, align 8
  %8 = load ptr, ptr %3, align 8
  %9 = getelementptr inbounds %struct.symmetric, ptr %8, i32 0, i32 0
  %10 = load i64, ptr %9, align 8
  %11 = load ptr, ptr %4, align 8
  %12 = getelementptr inbounds %struct.symmetric, ptr %11, i32 0, i32 0
  %13 = load i64, ptr %12, align 8
  %14 = mul i64 %10, %13
  %15 = load ptr, ptr %3, align 8
  %16 = getelementptr inbounds %struct.symmetric, ptr %15, i32 0, i32 1
  %17 = load i64, ptr %16, align 8
  %18 = load ptr, ptr %4, align 8
  %19 = getelementptr inbounds %struct.symmetric, ptr %18, i32 0, i32 1
  %20 = load i64, ptr %19, align 8
  %21 = mul i64 %17, %20
  %22 = add i64 %14, %21
  store i64 %22, ptr %5, align 8
  %23 = load ptr, ptr %3, align 8
  %24 = getelementptr inbounds %struct.symmetric, ptr %23, i32 0, i32 0
  %25 = load i64, ptr %24, align 8
  %26 = load ptr, ptr %4, align 8
  %27 = getelementptr inbounds %struct.symmetric, ptr %26, i32 0, i32 1
  %28 = load i64, ptr %27, align 8
  %29 = mul i64 %25, %28
  %30 = load ptr, ptr %3, align 8
  %31 = getelementptr inbounds %struct.symmetric, ptr %30, i32 0, i32 1
  %32 = load i64, ptr %31, align 8
  %33 = load ptr, ptr %4, align 8
  %34 = getelementptr inbounds %struct.symmetric, ptr %33, i32 0, i32 2
  %35 = load i64, ptr %34, align 8
  %36 = mul i64 %32, %35
  %37 = add i64 %29, %36
  store i64 %37, ptr %6, align 8
  %38 = load ptr, ptr %3, align 8
  %39 = getelementptr inbounds %struct.symmetric, ptr %38, i32 0, i32 1
  %40 = load i64, ptr %39, align 8
  %41 = load ptr, ptr %4, align 8
  %42 = getelementptr inbounds %struct.symmetric, ptr %41, i32 0, i32 1
  %43 = load i64, ptr %42, align 8
  %44 = mul i64 %40, %43
  %45 = load ptr, ptr %3, align 8
  %46 = getelementptr inbounds %struct.symmetric, ptr %45, i32 0, i32 2
  %47 = load i64, ptr %46, align 8
  %48 = load ptr, ptr %4, align 8
  %49 = getelementptr inbounds %struct.symmetric, ptr %48, i32 0, i32 2
  %50 = load i64, ptr %49, align 8
  %51 = mul i64 %47, %50
  %52 = add i64 %44, %51
  store i64 %52, ptr %7, align 8
  %53 = load ptr, ptr %3, align 8
  %54 = load i64, ptr %5, align 8
  %55 = load i64, ptr %6, align 8
  %56 = load i64, ptr %7, align 8
  call void @set(ptr noundef %53, i64 noundef %54, i64 noundef %55, i64 noundef %56) #2
  ret void
}

attributes #0 = { noinline nounwind "frame-pointer"="all" "min-legal-vector-width"="0" "no-builtins" "no-trapping-math"="true" "stack-protector-buffer-size"="8" "target-cpu"="x86-64" "target-features"="+cx8,+fxsr,+mmx,+sse,+sse2,+x87" "tune-cpu"="generic" }
attributes #1 = { "frame-pointer"="all" "no-builtins" "no-trapping-math"="true" "stack-protector-buffer-size"="8" "target-cpu"="x86-64" "target-features"="+cx8,+fxsr,+mmx,+sse,+sse2,+x87" "tune-cpu"="generic" }
attributes #2 = { nobuiltin "no-builtins" }

!llvm.module.flags = !{!0, !1, !2, !3}
!llvm.ident = !{!4}

!0 = !{i32 1, !"wchar_size", i32 4}
!1 = !{i32 8, !"PIC Level", i32 2}
!2 = !{i32 7, !"PIE Level", i32 2}
!3 = !{i32 7, !"frame-pointer", i32 2}
!4 = !{!"Debian clang version 16.0.6 (15~deb12u1)"}
!5 = distinct !{!5, !6}
!6 = !{!"llvm.loop.mustprogress"}
!7 = distinct !{!7, !6}
!8 = distinct !{!8, !6}
!9 = distinct !{!9, !6}
!10 = distinct !{!10, !6}
!11 = distinct !{!11, !6}
!12 = distinct !{!12, !6}
