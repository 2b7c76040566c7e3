; ModuleID = 'calculator.c'
source_filename = "calculator.c"
target datalayout = "e-m:e-p270:32:32-p271:32:32-p272:64:64-i64:64-f80:128-n8:16:32:64-S128"
target triple = "x86_64-pc-linux-gnu"

@main.program = internal constant [8 x i8] c"34+2*1<\00", align 1
@depth = internal global i8 0, align 1
@stack = internal global [8 x i32] zeroinitializer, align 16

; Function Attrs: noinline nounwind uwtable
define dso_local i32 @main() #0 {
  %1 = alloca i32, align 4
  %2 = alloca i32, align 4
  store i32 0, ptr %1, align 4
  store i32 0, ptr %2, align 4
  br label %3

3:                                                ; preds = %36, %0
  %4 = load i32, ptr %2, align 4
  %5 = sext i32 %4 to i64
  %6 = getelementptr inbounds [8 x i8], ptr @main.program, i64 0, i64 %5
  %7 = load i8, ptr %6, align 1
  %8 = icmp ne i8 %7, 0
  br i1 %8, label %9, label %39

9:                                                ; preds = %3
  %10 = load i32, ptr %2, align 4
  %11 = sext i32 %10 to i64
  %12 = getelementptr inbounds [8 x i8], ptr @main.program, i64 0, i64 %11
  %13 = load i8, ptr %12, align 1
  %14 = sext i8 %13 to i32
  %15 = icmp sge i32 %14, 48
  br i1 %15, label %16, label %30

16:                                               ; preds = %9
  %17 = load i32, ptr %2, align 4
  %18 = sext i32 %17 to i64
  %19 = getelementptr inbounds [8 x i8], ptr @main.program, i64 0, i64 %18
  %20 = load i8, ptr %19, align 1
  %21 = sext i8 %20 to i32
  %22 = icmp sle i32 %21, 57
  br i1 %22, label %23, label %30

23:                                               ; preds = %16
  %24 = load i32, ptr %2, align 4
  %25 = sext i32 %24 to i64
  %26 = getelementptr inbounds [8 x i8], ptr @main.program, i64 0, i64 %25
  %27 = load i8, ptr %26, align 1
  %28 = sext i8 %27 to i32
  %29 = sub nsw i32 %28, 48
  call void @push(i32 noundef %29)
  br label %35

30:                                               ; preds = %16, %9
  %31 = load i32, ptr %2, align 4
  %32 = sext i32 %31 to i64
  %33 = getelementptr inbounds [8 x i8], ptr @main.program, i64 0, i64 %32
  %34 = load i8, ptr %33, align 1
  call void @apply(i8 noundef signext %34)
  br label %35

35:                                               ; preds = %30, %23
  br label %36

36:                                               ; preds = %35
  %37 = load i32, ptr %2, align 4
  %38 = add nsw i32 %37, 1
  store i32 %38, ptr %2, align 4
  br label %3, !llvm.loop !6

39:                                               ; preds = %3
  %40 = call i32 @pop()
  %41 = sext i32 %40 to i64
  call void @print_i64(i64 noundef %41)
  ret i32 0
}

; Function Attrs: noinline nounwind uwtable
define internal void @push(i32 noundef %0) #0 {
  %2 = alloca i32, align 4
  store i32 %0, ptr %2, align 4
  %3 = load i8, ptr @depth, align 1
  %4 = zext i8 %3 to i32
  %5 = icmp slt i32 %4, 8
  br i1 %5, label %6, label %12

6:                                                ; preds = %1
  %7 = load i32, ptr %2, align 4
  %8 = load i8, ptr @depth, align 1
  %9 = add i8 %8, 1
  store i8 %9, ptr @depth, align 1
  %10 = zext i8 %8 to i64
  %11 = getelementptr inbounds [8 x i32], ptr @stack, i64 0, i64 %10
  store i32 %7, ptr %11, align 4
  br label %12

12:                                               ; preds = %6, %1
  ret void
}

; Function Attrs: noinline nounwind uwtable
define internal void @apply(i8 noundef signext %0) #0 {
  %2 = alloca i8, align 1
  %3 = alloca i32, align 4
  %4 = alloca i32, align 4
  store i8 %0, ptr %2, align 1
  %5 = call i32 @pop()
  store i32 %5, ptr %3, align 4
  %6 = call i32 @pop()
  store i32 %6, ptr %4, align 4
  %7 = load i8, ptr %2, align 1
  %8 = sext i8 %7 to i32
  switch i32 %8, label %40 [
    i32 43, label %9
    i32 45, label %13
    i32 42, label %17
    i32 47, label %21
    i32 60, label %31
    i32 38, label %36
  ]

9:                                                ; preds = %1
  %10 = load i32, ptr %4, align 4
  %11 = load i32, ptr %3, align 4
  %12 = add nsw i32 %10, %11
  call void @push(i32 noundef %12)
  br label %41

13:                                               ; preds = %1
  %14 = load i32, ptr %4, align 4
  %15 = load i32, ptr %3, align 4
  %16 = sub nsw i32 %14, %15
  call void @push(i32 noundef %16)
  br label %41

17:                                               ; preds = %1
  %18 = load i32, ptr %4, align 4
  %19 = load i32, ptr %3, align 4
  %20 = mul nsw i32 %18, %19
  call void @push(i32 noundef %20)
  br label %41

21:                                               ; preds = %1
  %22 = load i32, ptr %3, align 4
  %23 = icmp ne i32 %22, 0
  br i1 %23, label %24, label %28

24:                                               ; preds = %21
  %25 = load i32, ptr %4, align 4
  %26 = load i32, ptr %3, align 4
  %27 = sdiv i32 %25, %26
  br label %29

28:                                               ; preds = %21
  br label %29

29:                                               ; preds = %28, %24
  %30 = phi i32 [ %27, %24 ], [ 0, %28 ]
  call void @push(i32 noundef %30)
  br label %41

31:                                               ; preds = %1
  %32 = load i32, ptr %4, align 4
  %33 = load i32, ptr %3, align 4
  %34 = and i32 %33, 31
  %35 = shl i32 %32, %34
  call void @push(i32 noundef %35)
  br label %41

36:                                               ; preds = %1
  %37 = load i32, ptr %4, align 4
  %38 = load i32, ptr %3, align 4
  %39 = and i32 %37, %38
  call void @push(i32 noundef %39)
  br label %41

40:                                               ; preds = %1
  call void @push(i32 noundef 0)
  br label %41

41:                                               ; preds = %40, %36, %31, %29, %17, %13, %9
  ret void
}

declare void @print_i64(i64 noundef) #1

; Function Attrs: noinline nounwind uwtable
define internal i32 @pop() #0 {
  %1 = load i8, ptr @depth, align 1
  %2 = zext i8 %1 to i32
  %3 = icmp ne i32 %2, 0
  br i1 %3, label %4, label %10

4:                                                ; preds = %0
  %5 = load i8, ptr @depth, align 1
  %6 = add i8 %5, -1
  store i8 %6, ptr @depth, align 1
  %7 = zext i8 %6 to i64
  %8 = getelementptr inbounds [8 x i32], ptr @stack, i64 0, i64 %7
  %9 = load i32, ptr %8, align 4
  br label %11

10:                                               ; preds = %0
  br label %11

11:                                               ; preds = %10, %4
  %12 = phi i32 [ %9, %4 ], [ 0, %10 ]
  ret i32 %12
}

attributes #0 = { noinline nounwind uwtable "frame-pointer"="all" "min-legal-vector-width"="0" "no-trapping-math"="true" "stack-protector-buffer-size"="8" "target-cpu"="x86-64" "target-features"="+cx8,+fxsr,+mmx,+sse,+sse2,+x87" "tune-cpu"="generic" }
attributes #1 = { "frame-pointer"="all" "no-trapping-math"="true" "stack-protector-buffer-size"="8" "target-cpu"="x86-64" "target-features"="+cx8,+fxsr,+mmx,+sse,+sse2,+x87" "tune-cpu"="generic" }

!llvm.module.flags = !{!0, !1, !2, !3, !4}
!llvm.ident = !{!5}

!0 = !{i32 1, !"wchar_size", i32 4}
!1 = !{i32 8, !"PIC Level", i32 2}
!2 = !{i32 7, !"PIE Level", i32 2}
!3 = !{i32 7, !"uwtable", i32 2}
!4 = !{i32 7, !"frame-pointer", i32 2}
!5 = !{!"Debian clang version 16.0.6 (15~deb12u1)"}
!6 = distinct !{!6, !7}
!7 = !{!"llvm.loop.mustprogress"}
