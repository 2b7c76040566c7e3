; ModuleID = 'recursion.c'
source_filename = "recursion.c"
target datalayout = "e-m:e-p270:32:32-p271:32:32-p272:64:64-i64:64-f80:128-n8:16:32:64-S128"
target triple = "x86_64-pc-linux-gnu"

@table = internal global [91 x i64] zeroinitializer, align 16

; Function Attrs: noinline nounwind
define dso_local i32 @main() #0 {
  %1 = call i64 @fibonacci(i64 noundef 15) #2
  call void @print_i64(i64 noundef %1) #2
  %2 = call i64 @known_fibonacci(ptr noundef @table, i64 noundef 15) #2
  call void @print_i64(i64 noundef %2) #2
  %3 = call i64 @known_fibonacci(ptr noundef @table, i64 noundef 50) #2
  call void @print_i64(i64 noundef %3) #2
  %4 = call i64 @ackermann(i64 noundef 2, i64 noundef 3) #2
  call void @print_i64(i64 noundef %4) #2
  %5 = call i64 @ackermann(i64 noundef 3, i64 noundef 3) #2
  call void @print_i64(i64 noundef %5) #2
  %6 = call i64 @is_even(i64 noundef 40) #2
  call void @print_i64(i64 noundef %6) #2
  %7 = call i64 @is_odd(i64 noundef 40) #2
  call void @print_i64(i64 noundef %7) #2
  %8 = call i64 @sum_to(i64 noundef 200) #2
  call void @print_i64(i64 noundef %8) #2
  ret i32 0
}

declare void @print_i64(i64 noundef) #1

; Function Attrs: noinline nounwind
define internal i64 @fibonacci(i64 noundef %0) #0 {
  %2 = alloca i64, align 8
  store i64 %0, ptr %2, align 8
  %3 = load i64, ptr %2, align 8
  %4 = icmp slt i64 %3, 2
  br i1 %4, label %5, label %7

5:                                                ; preds = %1
  %6 = load i64, ptr %2, align 8
  br label %15

7:                                                ; preds = %1
  %8 = load i64, ptr %2, align 8
  %9 = sub nsw i64 %8, 1
  %10 = call i64 @fibonacci(i64 noundef %9) #2
  %11 = load i64, ptr %2, align 8
  %12 = sub nsw i64 %11, 2
  %13 = call i64 @fibonacci(i64 noundef %12) #2
  %14 = add nsw i64 %10, %13
  br label %15

15:                                               ; preds = %7, %5
  %16 = phi i64 [ %6, %5 ], [ %14, %7 ]
  ret i64 %16
}

; Function Attrs: noinline nounwind
define internal i64 @known_fibonacci(ptr noundef %0, i64 noundef %1) #0 {
  %3 = alloca i64, align 8
  %4 = alloca ptr, align 8
  %5 = alloca i64, align 8
  store ptr %0, ptr %4, align 8
  store i64 %1, ptr %5, align 8
  %6 = load i64, ptr %5, align 8
  %7 = icmp slt i64 %6, 2
  br i1 %7, label %8, label %10

8:                                                ; preds = %2
  %9 = load i64, ptr %5, align 8
  store i64 %9, ptr %3, align 8
  br label %34

10:                                               ; preds = %2
  %11 = load ptr, ptr %4, align 8
  %12 = load i64, ptr %5, align 8
  %13 = getelementptr inbounds i64, ptr %11, i64 %12
  %14 = load i64, ptr %13, align 8
  %15 = icmp eq i64 %14, 0
  br i1 %15, label %16, label %29

16:                                               ; preds = %10
  %17 = load ptr, ptr %4, align 8
  %18 = load i64, ptr %5, align 8
  %19 = sub nsw i64 %18, 1
  %20 = call i64 @known_fibonacci(ptr noundef %17, i64 noundef %19) #2
  %21 = load ptr, ptr %4, align 8
  %22 = load i64, ptr %5, align 8
  %23 = sub nsw i64 %22, 2
  %24 = call i64 @known_fibonacci(ptr noundef %21, i64 noundef %23) #2
  %25 = add nsw i64 %20, %24
  %26 = load ptr, ptr %4, align 8
  %27 = load i64, ptr %5, align 8
  %28 = getelementptr inbounds i64, ptr %26, i64 %27
  store i64 %25, ptr %28, align 8
  br label %29

29:                                               ; preds = %16, %10
  %30 = load ptr, ptr %4, align 8
  %31 = load i64, ptr %5, align 8
  %32 = getelementptr inbounds i64, ptr %30, i64 %31
  %33 = load i64, ptr %32, align 8
  store i64 %33, ptr %3, align 8
  br label %34

34:                                               ; preds = %29, %8
  %35 = load i64, ptr %3, align 8
  ret i64 %35
}

; Function Attrs: noinline nounwind
define internal i64 @ackermann(i64 noundef %0, i64 noundef %1) #0 {
  %3 = alloca i64, align 8
  %4 = alloca i64, align 8
  %5 = alloca i64, align 8
  store i64 %0, ptr %4, align 8
  store i64 %1, ptr %5, align 8
  %6 = load i64, ptr %4, align 8
  %7 = icmp eq i64 %6, 0
  br i1 %7, label %8, label %11

8:                                                ; preds = %2
  %9 = load i64, ptr %5, align 8
  %10 = add nsw i64 %9, 1
  store i64 %10, ptr %3, align 8
  br label %26

11:                                               ; preds = %2
  %12 = load i64, ptr %5, align 8
  %13 = icmp eq i64 %12, 0
  br i1 %13, label %14, label %18

14:                                               ; preds = %11
  %15 = load i64, ptr %4, align 8
  %16 = sub nsw i64 %15, 1
  %17 = call i64 @ackermann(i64 noundef %16, i64 noundef 1) #2
  store i64 %17, ptr %3, align 8
  br label %26

18:                                               ; preds = %11
  %19 = load i64, ptr %4, align 8
  %20 = sub nsw i64 %19, 1
  %21 = load i64, ptr %4, align 8
  %22 = load i64, ptr %5, align 8
  %23 = sub nsw i64 %22, 1
  %24 = call i64 @ackermann(i64 noundef %21, i64 noundef %23) #2
  %25 = call i64 @ackermann(i64 noundef %20, i64 noundef %24) #2
  store i64 %25, ptr %3, align 8
  br label %26

26:                                               ; preds = %18, %14, %8
  %27 = load i64, ptr %3, align 8
  ret i64 %27
}

; Function Attrs: noinline nounwind
define internal i64 @is_even(i64 noundef %0) #0 {
  %2 = alloca i64, align 8
  store i64 %0, ptr %2, align 8
  %3 = load i64, ptr %2, align 8
  %4 = icmp eq i64 %3, 0
  br i1 %4, label %5, label %6

5:                                                ; preds = %1
  br label %10

6:                                                ; preds = %1
  %7 = load i64, ptr %2, align 8
  %8 = sub nsw i64 %7, 1
  %9 = call i64 @is_odd(i64 noundef %8) #2
  br label %10

10:                                               ; preds = %6, %5
  %11 = phi i64 [ 1, %5 ], [ %9, %6 ]
  ret i64 %11
}

; Function Attrs: noinline nounwind
define internal i64 @is_odd(i64 noundef %0) #0 {
  %2 = alloca i64, align 8
  store i64 %0, ptr %2, align 8
  %3 = load i64, ptr %2, align 8
  %4 = icmp eq i64 %3, 0
  br i1 %4, label %5, label %6

5:                                                ; preds = %1
  br label %10

6:                                                ; preds = %1
  %7 = load i64, ptr %2, align 8
  %8 = sub nsw i64 %7, 1
  %9 = call i64 @is_even(i64 noundef %8) #2
  br label %10

10:                                               ; preds = %6, %5
  %11 = phi i64 [ 0, %5 ], [ %9, %6 ]
  ret i64 %11
}

; Function Attrs: noinline nounwind
define internal i64 @sum_to(i64 noundef %0) #0 {
  %2 = alloca i64, align 8
  store i64 %0, ptr %2, align 8
  %3 = load i64, ptr %2, align 8
  %4 = icmp eq i64 %3, 0
  br i1 %4, label %5, label %6

5:                                                ; preds = %1
  br label %12

6:                                                ; preds = %1
  %7 = load i64, ptr %2, align 8
  %8 = load i64, ptr %2, align 8
  %9 = sub nsw i64 %8, 1
  %10 = call i64 @sum_to(i64 noundef %9) #2
  %11 = add nsw i64 %7, %10
  br label %12

12:                                               ; preds = %6, %5
  %13 = phi i64 [ 0, %5 ], [ %11, %6 ]
  ret i64 %13
}

attributes #0 = { noinline nounwind "frame-pointer"="all" "min-legal-vector-width"="0" "no-builtins" "no-trapping-math"="true" "stack-protector-buffer-size"="8" "target-cpu"="x86-64" "target-features"="+cx8,+fxsr,+mmx,+sse,+sse2,+x87" "tune-cpu"="generic" }
attributes #1 = { "frame-pointer"="all" "no-builtins" "no-trapping-math"="true" "stack-protector-buffer-size"="8" "target-cpu"="x86-64" "target-features"="+cx8,+fxsr,+mmx,+sse,+sse2,+x87" "tune-cpu"="generic" }
attributes #2 = { nobuiltin "no-builtins" }

!llvm.module.flags = !{!0, !1, !2, !3}
!llvm.ident = !{!4}

!0 = !{i32 1, !"wchar_size", i32 4}
!1 = !{i32 8, !"PIC Level", i32 2}
!2 = !{i32 7, !"PIE Level", i32 2}
!3 = !{i32 7, !"frame-pointer", i32 2}
!4 = !{!"Debian clang version 16.0.6 (15~deb12u1)"}
