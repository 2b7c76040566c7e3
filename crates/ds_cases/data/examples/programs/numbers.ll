; ModuleID = 'numbers.c'
source_filename = "numbers.c"
target datalayout = "e-m:e-p270:32:32-p271:32:32-p272:64:64-i64:64-f80:128-n8:16:32:64-S128"
target triple = "x86_64-pc-linux-gnu"

; Function Attrs: noinline nounwind
define dso_local i32 @main() #0 {
  %1 = call i64 @common_divisor(i64 noundef 1071, i64 noundef 462) #2
  call void @print_i64(i64 noundef %1) #2
  %2 = call i64 @common_divisor(i64 noundef 1000003, i64 noundef 999) #2
  call void @print_i64(i64 noundef %2) #2
  %3 = call i64 @common_divisor(i64 noundef -84, i64 noundef 36) #2
  call void @print_i64(i64 noundef %3) #2
  call void @show_longest(i64 noundef 100) #2
  call void @show_signed(i64 noundef -17, i64 noundef 5) #2
  ret i32 0
}

declare void @print_i64(i64 noundef) #1

; Function Attrs: noinline nounwind
define internal i64 @common_divisor(i64 noundef %0, i64 noundef %1) #0 {
  %3 = alloca i64, align 8
  %4 = alloca i64, align 8
  %5 = alloca i64, align 8
  store i64 %0, ptr %3, align 8
  store i64 %1, ptr %4, align 8
  br label %6

6:                                                ; preds = %9, %2
  %7 = load i64, ptr %4, align 8
  %8 = icmp ne i64 %7, 0
  br i1 %8, label %9, label %15

9:                                                ; preds = %6
  %10 = load i64, ptr %3, align 8
  %11 = load i64, ptr %4, align 8
  %12 = srem i64 %10, %11
  store i64 %12, ptr %5, align 8
  %13 = load i64, ptr %4, align 8
  store i64 %13, ptr %3, align 8
  %14 = load i64, ptr %5, align 8
  store i64 %14, ptr %4, align 8
  br label %6, !llvm.loop !5

15:                                               ; preds = %6
  %16 = load i64, ptr %3, align 8
  %17 = icmp slt i64 %16, 0
  br i1 %17, label %18, label %21

18:                                               ; preds = %15
  %19 = load i64, ptr %3, align 8
  %20 = sub nsw i64 0, %19
  br label %23

21:                                               ; preds = %15
  %22 = load i64, ptr %3, align 8
  br label %23

23:                                               ; preds = %21, %18
  %24 = phi i64 [ %20, %18 ], [ %22, %21 ]
  ret i64 %24
}

; Function Attrs: noinline nounwind
define internal void @show_longest(i64 noundef %0) #0 {
  %2 = alloca i64, align 8
  %3 = alloca i64, align 8
  %4 = alloca i64, align 8
  %5 = alloca i64, align 8
  %6 = alloca i64, align 8
  store i64 %0, ptr %2, align 8
  store i64 1, ptr %3, align 8
  store i64 0, ptr %4, align 8
  store i64 1, ptr %5, align 8
  br label %7

7:                                                ; preds = %21, %1
  %8 = load i64, ptr %5, align 8
  %9 = load i64, ptr %2, align 8
  %10 = icmp slt i64 %8, %9
  br i1 %10, label %11, label %24

11:                                               ; preds = %7
  %12 = load i64, ptr %5, align 8
  %13 = call i64 @collatz_steps(i64 noundef %12) #2
  store i64 %13, ptr %6, align 8
  %14 = load i64, ptr %6, align 8
  %15 = load i64, ptr %4, align 8
  %16 = icmp sgt i64 %14, %15
  br i1 %16, label %17, label %20

17:                                               ; preds = %11
  %18 = load i64, ptr %6, align 8
  store i64 %18, ptr %4, align 8
  %19 = load i64, ptr %5, align 8
  store i64 %19, ptr %3, align 8
  br label %20

20:                                               ; preds = %17, %11
  br label %21

21:                                               ; preds = %20
  %22 = load i64, ptr %5, align 8
  %23 = add nsw i64 %22, 1
  store i64 %23, ptr %5, align 8
  br label %7, !llvm.loop !7

24:                                               ; preds = %7
  %25 = load i64, ptr %3, align 8
  call void @print_i64(i64 noundef %25) #2
  %26 = load i64, ptr %4, align 8
  call void @print_i64(i64 noundef %26) #2
  ret void
}

; Function Attrs: noinline nounwind
define internal void @show_signed(i64 noundef %0, i64 noundef %1) #0 {
  %3 = alloca i64, align 8
  %4 = alloca i64, align 8
  store i64 %0, ptr %3, align 8
  store i64 %1, ptr %4, align 8
  %5 = load i64, ptr %3, align 8
  %6 = load i64, ptr %4, align 8
  %7 = sdiv i64 %5, %6
  call void @print_i64(i64 noundef %7) #2
  %8 = load i64, ptr %3, align 8
  %9 = load i64, ptr %4, align 8
  %10 = srem i64 %8, %9
  call void @print_i64(i64 noundef %10) #2
  %11 = load i64, ptr %3, align 8
  %12 = load i64, ptr %4, align 8
  %13 = shl i64 %11, %12
  call void @print_i64(i64 noundef %13) #2
  %14 = load i64, ptr %3, align 8
  %15 = load i64, ptr %4, align 8
  %16 = ashr i64 %14, %15
  call void @print_i64(i64 noundef %16) #2
  %17 = load i64, ptr %3, align 8
  %18 = load i64, ptr %4, align 8
  %19 = lshr i64 %17, %18
  call void @print_i64(i64 noundef %19) #2
  %20 = load i64, ptr %3, align 8
  %21 = load i64, ptr %4, align 8
  %22 = and i64 %20, %21
  call void @print_i64(i64 noundef %22) #2
  %23 = load i64, ptr %3, align 8
  %24 = load i64, ptr %4, align 8
  %25 = or i64 %23, %24
  call void @print_i64(i64 noundef %25) #2
  %26 = load i64, ptr %3, align 8
  %27 = load i64, ptr %4, align 8
  %28 = xor i64 %26, %27
  call void @print_i64(i64 noundef %28) #2
  %29 = load i64, ptr %3, align 8
  %30 = xor i64 %29, -1
  call void @print_i64(i64 noundef %30) #2
  ret void
}

; Function Attrs: noinline nounwind
define internal i64 @collatz_steps(i64 noundef %0) #0 {
  %2 = alloca i64, align 8
  %3 = alloca i64, align 8
  store i64 %0, ptr %2, align 8
  store i64 0, ptr %3, align 8
  br label %4

4:                                                ; preds = %18, %1
  %5 = load i64, ptr %2, align 8
  %6 = icmp ne i64 %5, 1
  br i1 %6, label %7, label %22

7:                                                ; preds = %4
  %8 = load i64, ptr %2, align 8
  %9 = srem i64 %8, 2
  %10 = icmp eq i64 %9, 0
  br i1 %10, label %11, label %14

11:                                               ; preds = %7
  %12 = load i64, ptr %2, align 8
  %13 = sdiv i64 %12, 2
  br label %18

14:                                               ; preds = %7
  %15 = load i64, ptr %2, align 8
  %16 = mul nsw i64 3, %15
  %17 = add nsw i64 %16, 1
  br label %18

18:                                               ; preds = %14, %11
  %19 = phi i64 [ %13, %11 ], [ %17, %14 ]
  store i64 %19, ptr %2, align 8
  %20 = load i64, ptr %3, align 8
  %21 = add nsw i64 %20, 1
  store i64 %21, ptr %3, align 8
  br label %4, !llvm.loop !8

22:                                               ; preds = %4
  %23 = load i64, ptr %3, align 8
  ret i64 %23
}

attributes #0 = { noinline nounwind "frame-pointer"="all" "min-legal-vector-width"="0" "no-builtins" "no-trapping-math"="true" "stack-protector-buffer-size"="8" "target-cpu"="x86-64" "target-features"="+cx8,+fxsr,+mmx,+sse,+sse2,+x87" "tune-cpu"="generic" }
attributes #1 = { "frame-pointer"="all" "no-builtins" "no-trapping-math"="true" "stack-protector-buffer-size"="8" "target-cpu"="x86-64" "target-features"="+cx8,+fxsr,+mmx,+sse,+sse2,+x87" "tune-cpu"="generic" }
attributes #2 = { nobuiltin "no-builtins" }

!llvm.module.flags = !{!0, !1, !2, !3}
!llvm.ident = !{!4}

!0 = !{i32 1, !"wchar_size", i32 4}
!1 = !{i32 8, !"PIC Level", i32 2}
!2 = !{i32 7, !"PIE Level", i32 2}
!3 = !{i32 7, !"frame-pointer", i32 2}
!4 = !{!"Debian clang version 16.0.6 (15~deb12u1)"}
!5 = distinct !{!5, !6}
!6 = !{!"llvm.loop.mustprogress"}
!7 = distinct !{!7, !6}
!8 = distinct !{!8, !6}
