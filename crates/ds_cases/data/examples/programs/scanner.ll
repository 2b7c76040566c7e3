; ModuleID = 'scanner.c'
source_filename = "scanner.c"
target datalayout = "e-m:e-p270:32:32-p271:32:32-p272:64:64-i64:64-f80:128-n8:16:32:64-S128"
target triple = "x86_64-pc-linux-gnu"

%struct.counts = type { i64, i64, i64, i64, i64 }

@counts = internal global %struct.counts zeroinitializer, align 8
@text = internal global [29 x i64] [i64 120, i64 49, i64 32, i64 61, i64 32, i64 52, i64 50, i64 43, i64 121, i64 35, i64 111, i64 110, i64 101, i64 49, i64 10, i64 45, i64 55, i64 32, i64 48, i64 32, i64 122, i64 122, i64 35, i64 35, i64 10, i64 54, i64 54, i64 33, i64 0], align 16
@copy = internal global [64 x i64] zeroinitializer, align 16

; Function Attrs: noinline nounwind
define dso_local i32 @main() #0 {
  call void @scan(ptr noundef @counts, ptr noundef @text) #2
  call void @show(ptr noundef @counts) #2
  call void @copy_text(ptr noundef @copy, ptr noundef @text) #2
  call void @turn_round(ptr noundef @copy) #2
  %1 = load i64, ptr @copy, align 16
  call void @print_i64(i64 noundef %1) #2
  %2 = call i64 @length(ptr noundef @copy) #2
  %3 = sub nsw i64 %2, 1
  %4 = getelementptr inbounds [64 x i64], ptr @copy, i64 0, i64 %3
  %5 = load i64, ptr %4, align 8
  call void @print_i64(i64 noundef %5) #2
  %6 = call i64 @are_equal(ptr noundef @copy, ptr noundef @text) #2
  call void @print_i64(i64 noundef %6) #2
  call void @turn_round(ptr noundef @copy) #2
  %7 = call i64 @are_equal(ptr noundef @copy, ptr noundef @text) #2
  call void @print_i64(i64 noundef %7) #2
  ret i32 0
}

; Function Attrs: noinline nounwind
define internal void @scan(ptr noundef %0, ptr noundef %1) #0 {
  %3 = alloca ptr, align 8
  %4 = alloca ptr, align 8
  %5 = alloca i64, align 8
  %6 = alloca i64, align 8
  %7 = alloca i64, align 8
  store ptr %0, ptr %3, align 8
  store ptr %1, ptr %4, align 8
  store i64 0, ptr %5, align 8
  store i64 0, ptr %6, align 8
  br label %8

8:                                                ; preds = %44, %2
  %9 = load i64, ptr %5, align 8
  store i64 %9, ptr %7, align 8
  %10 = load i64, ptr %5, align 8
  %11 = load ptr, ptr %4, align 8
  %12 = load i64, ptr %11, align 8
  %13 = call i64 @next(i64 noundef %10, i64 noundef %12) #2
  store i64 %13, ptr %5, align 8
  %14 = load ptr, ptr %3, align 8
  %15 = load i64, ptr %7, align 8
  %16 = load i64, ptr %5, align 8
  call void @count(ptr noundef %14, i64 noundef %15, i64 noundef %16) #2
  %17 = load i64, ptr %5, align 8
  %18 = icmp eq i64 %17, 2
  br i1 %18, label %19, label %26

19:                                               ; preds = %8
  %20 = load i64, ptr %6, align 8
  %21 = mul nsw i64 %20, 10
  %22 = load ptr, ptr %4, align 8
  %23 = load i64, ptr %22, align 8
  %24 = add nsw i64 %21, %23
  %25 = sub nsw i64 %24, 48
  store i64 %25, ptr %6, align 8
  br label %26

26:                                               ; preds = %19, %8
  %27 = load i64, ptr %7, align 8
  %28 = icmp eq i64 %27, 2
  br i1 %28, label %29, label %38

29:                                               ; preds = %26
  %30 = load i64, ptr %5, align 8
  %31 = icmp ne i64 %30, 2
  br i1 %31, label %32, label %38

32:                                               ; preds = %29
  %33 = load i64, ptr %6, align 8
  %34 = load ptr, ptr %3, align 8
  %35 = getelementptr inbounds %struct.counts, ptr %34, i32 0, i32 2
  %36 = load i64, ptr %35, align 8
  %37 = add nsw i64 %36, %33
  store i64 %37, ptr %35, align 8
  store i64 0, ptr %6, align 8
  br label %38

38:                                               ; preds = %32, %29, %26
  %39 = load ptr, ptr %4, align 8
  %40 = load i64, ptr %39, align 8
  %41 = icmp eq i64 %40, 0
  br i1 %41, label %42, label %43

42:                                               ; preds = %38
  br label %47

43:                                               ; preds = %38
  br label %44

44:                                               ; preds = %43
  %45 = load ptr, ptr %4, align 8
  %46 = getelementptr inbounds i64, ptr %45, i32 1
  store ptr %46, ptr %4, align 8
  br label %8

47:                                               ; preds = %42
  ret void
}

; Function Attrs: noinline nounwind
define internal void @show(ptr noundef %0) #0 {
  %2 = alloca ptr, align 8
  store ptr %0, ptr %2, align 8
  %3 = load ptr, ptr %2, align 8
  %4 = getelementptr inbounds %struct.counts, ptr %3, i32 0, i32 0
  %5 = load i64, ptr %4, align 8
  call void @print_i64(i64 noundef %5) #2
  %6 = load ptr, ptr %2, align 8
  %7 = getelementptr inbounds %struct.counts, ptr %6, i32 0, i32 1
  %8 = load i64, ptr %7, align 8
  call void @print_i64(i64 noundef %8) #2
  %9 = load ptr, ptr %2, align 8
  %10 = getelementptr inbounds %struct.counts, ptr %9, i32 0, i32 2
  %11 = load i64, ptr %10, align 8
  call void @print_i64(i64 noundef %11) #2
  %12 = load ptr, ptr %2, align 8
  %13 = getelementptr inbounds %struct.counts, ptr %12, i32 0, i32 3
  %14 = load i64, ptr %13, align 8
  call void @print_i64(i64 noundef %14) #2
  %15 = load ptr, ptr %2, align 8
  %16 = getelementptr inbounds %struct.counts, ptr %15, i32 0, i32 4
  %17 = load i64, ptr %16, align 8
  call void @print_i64(i64 noundef %17) #2
  ret void
}

; Function Attrs: noinline nounwind
define internal void @copy_text(ptr noundef %0, ptr noundef %1) #0 {
  %3 = alloca ptr, align 8
  %4 = alloca ptr, align 8
  store ptr %0, ptr %3, align 8
  store ptr %1, ptr %4, align 8
  br label %5

5:                                                ; preds = %12, %2
  %6 = load ptr, ptr %4, align 8
  %7 = getelementptr inbounds i64, ptr %6, i32 1
  store ptr %7, ptr %4, align 8
  %8 = load i64, ptr %6, align 8
  %9 = load ptr, ptr %3, align 8
  %10 = getelementptr inbounds i64, ptr %9, i32 1
  store ptr %10, ptr %3, align 8
  store i64 %8, ptr %9, align 8
  %11 = icmp ne i64 %8, 0
  br i1 %11, label %12, label %13

12:                                               ; preds = %5
  br label %5, !llvm.loop !5

13:                                               ; preds = %5
  ret void
}

; Function Attrs: noinline nounwind
define internal void @turn_round(ptr noundef %0) #0 {
  %2 = alloca ptr, align 8
  %3 = alloca ptr, align 8
  %4 = alloca i64, align 8
  store ptr %0, ptr %2, align 8
  %5 = load ptr, ptr %2, align 8
  %6 = load ptr, ptr %2, align 8
  %7 = call i64 @length(ptr noundef %6) #2
  %8 = getelementptr inbounds i64, ptr %5, i64 %7
  %9 = getelementptr inbounds i64, ptr %8, i64 -1
  store ptr %9, ptr %3, align 8
  br label %10

10:                                               ; preds = %22, %1
  %11 = load ptr, ptr %2, align 8
  %12 = load ptr, ptr %3, align 8
  %13 = icmp ult ptr %11, %12
  br i1 %13, label %14, label %27

14:                                               ; preds = %10
  %15 = load ptr, ptr %2, align 8
  %16 = load i64, ptr %15, align 8
  store i64 %16, ptr %4, align 8
  %17 = load ptr, ptr %3, align 8
  %18 = load i64, ptr %17, align 8
  %19 = load ptr, ptr %2, align 8
  store i64 %18, ptr %19, align 8
  %20 = load i64, ptr %4, align 8
  %21 = load ptr, ptr %3, align 8
  store i64 %20, ptr %21, align 8
  br label %22

22:                                               ; preds = %14
  %23 = load ptr, ptr %2, align 8
  %24 = getelementptr inbounds i64, ptr %23, i32 1
  store ptr %24, ptr %2, align 8
  %25 = load ptr, ptr %3, align 8
  %26 = getelementptr inbounds i64, ptr %25, i32 -1
  store ptr %26, ptr %3, align 8
  br label %10, !llvm.loop !7

27:                                               ; preds = %10
  ret void
}

declare void @print_i64(i64 noundef) #1

; Function Attrs: noinline nounwind
define internal i64 @length(ptr noundef %0) #0 {
  %2 = alloca ptr, align 8
  %3 = alloca i64, align 8
  store ptr %0, ptr %2, align 8
  store i64 0, ptr %3, align 8
  br label %4

4:                                                ; preds = %10, %1
  %5 = load ptr, ptr %2, align 8
  %6 = load i64, ptr %3, align 8
  %7 = getelementptr inbounds i64, ptr %5, i64 %6
  %8 = load i64, ptr %7, align 8
  %9 = icmp ne i64 %8, 0
  br i1 %9, label %10, label %13

10:                                               ; preds = %4
  %11 = load i64, ptr %3, align 8
  %12 = add nsw i64 %11, 1
  store i64 %12, ptr %3, align 8
  br label %4, !llvm.loop !8

13:                                               ; preds = %4
  %14 = load i64, ptr %3, align 8
  ret i64 %14
}

; Function Attrs: noinline nounwind
define internal i64 @are_equal(ptr noundef %0, ptr noundef %1) #0 {
  %3 = alloca ptr, align 8
  %4 = alloca ptr, align 8
  store ptr %0, ptr %3, align 8
  store ptr %1, ptr %4, align 8
  br label %5

5:                                                ; preds = %17, %2
  %6 = load ptr, ptr %3, align 8
  %7 = load i64, ptr %6, align 8
  %8 = load ptr, ptr %4, align 8
  %9 = load i64, ptr %8, align 8
  %10 = icmp eq i64 %7, %9
  br i1 %10, label %11, label %15

11:                                               ; preds = %5
  %12 = load ptr, ptr %3, align 8
  %13 = load i64, ptr %12, align 8
  %14 = icmp ne i64 %13, 0
  br label %15

15:                                               ; preds = %11, %5
  %16 = phi i1 [ false, %5 ], [ %14, %11 ]
  br i1 %16, label %17, label %22

17:                                               ; preds = %15
  %18 = load ptr, ptr %3, align 8
  %19 = getelementptr inbounds i64, ptr %18, i32 1
  store ptr %19, ptr %3, align 8
  %20 = load ptr, ptr %4, align 8
  %21 = getelementptr inbounds i64, ptr %20, i32 1
  store ptr %21, ptr %4, align 8
  br label %5, !llvm.loop !9

22:                                               ; preds = %15
  %23 = load ptr, ptr %3, align 8
  %24 = load i64, ptr %23, align 8
  %25 = load ptr, ptr %4, align 8
  %26 = load i64, ptr %25, align 8
  %27 = icmp eq i64 %24, %26
  %28 = zext i1 %27 to i32
  %29 = sext i32 %28 to i64
  ret i64 %29
}

; Function Attrs: noinline nounwind
define internal i64 @next(i64 noundef %0, i64 noundef %1) #0 {
  %3 = alloca i64, align 8
  %4 = alloca i64, align 8
  %5 = alloca i64, align 8
  store i64 %0, ptr %4, align 8
  store i64 %1, ptr %5, align 8
  %6 = load i64, ptr %4, align 8
  switch i64 %6, label %42 [
    i64 1, label %7
    i64 2, label %21
    i64 3, label %31
  ]

7:                                                ; preds = %2
  %8 = load i64, ptr %5, align 8
  %9 = call i64 @is_letter(i64 noundef %8) #2
  %10 = icmp ne i64 %9, 0
  br i1 %10, label %15, label %11

11:                                               ; preds = %7
  %12 = load i64, ptr %5, align 8
  %13 = call i64 @is_digit(i64 noundef %12) #2
  %14 = icmp ne i64 %13, 0
  br i1 %14, label %15, label %16

15:                                               ; preds = %11, %7
  br label %19

16:                                               ; preds = %11
  %17 = load i64, ptr %5, align 8
  %18 = call i64 @begin(i64 noundef %17) #2
  br label %19

19:                                               ; preds = %16, %15
  %20 = phi i64 [ 1, %15 ], [ %18, %16 ]
  store i64 %20, ptr %3, align 8
  br label %45

21:                                               ; preds = %2
  %22 = load i64, ptr %5, align 8
  %23 = call i64 @is_digit(i64 noundef %22) #2
  %24 = icmp ne i64 %23, 0
  br i1 %24, label %25, label %26

25:                                               ; preds = %21
  br label %29

26:                                               ; preds = %21
  %27 = load i64, ptr %5, align 8
  %28 = call i64 @begin(i64 noundef %27) #2
  br label %29

29:                                               ; preds = %26, %25
  %30 = phi i64 [ 2, %25 ], [ %28, %26 ]
  store i64 %30, ptr %3, align 8
  br label %45

31:                                               ; preds = %2
  %32 = load i64, ptr %5, align 8
  %33 = icmp eq i64 %32, 10
  br i1 %33, label %37, label %34

34:                                               ; preds = %31
  %35 = load i64, ptr %5, align 8
  %36 = icmp eq i64 %35, 0
  br label %37

37:                                               ; preds = %34, %31
  %38 = phi i1 [ true, %31 ], [ %36, %34 ]
  %39 = zext i1 %38 to i64
  %40 = select i1 %38, i32 0, i32 3
  %41 = sext i32 %40 to i64
  store i64 %41, ptr %3, align 8
  br label %45

42:                                               ; preds = %2
  %43 = load i64, ptr %5, align 8
  %44 = call i64 @begin(i64 noundef %43) #2
  store i64 %44, ptr %3, align 8
  br label %45

45:                                               ; preds = %42, %37, %29, %19
  %46 = load i64, ptr %3, align 8
  ret i64 %46
}

; Function Attrs: noinline nounwind
define internal void @count(ptr noundef %0, i64 noundef %1, i64 noundef %2) #0 {
  %4 = alloca ptr, align 8
  %5 = alloca i64, align 8
  %6 = alloca i64, align 8
  store ptr %0, ptr %4, align 8
  store i64 %1, ptr %5, align 8
  store i64 %2, ptr %6, align 8
  %7 = load i64, ptr %5, align 8
  %8 = load i64, ptr %6, align 8
  %9 = icmp eq i64 %7, %8
  br i1 %9, label %10, label %14

10:                                               ; preds = %3
  %11 = load i64, ptr %6, align 8
  %12 = icmp ne i64 %11, 4
  br i1 %12, label %13, label %14

13:                                               ; preds = %10
  br label %36

14:                                               ; preds = %10, %3
  %15 = load i64, ptr %6, align 8
  switch i64 %15, label %36 [
    i64 1, label %16
    i64 2, label %21
    i64 3, label %26
    i64 4, label %31
  ]

16:                                               ; preds = %14
  %17 = load ptr, ptr %4, align 8
  %18 = getelementptr inbounds %struct.counts, ptr %17, i32 0, i32 0
  %19 = load i64, ptr %18, align 8
  %20 = add nsw i64 %19, 1
  store i64 %20, ptr %18, align 8
  br label %36

21:                                               ; preds = %14
  %22 = load ptr, ptr %4, align 8
  %23 = getelementptr inbounds %struct.counts, ptr %22, i32 0, i32 1
  %24 = load i64, ptr %23, align 8
  %25 = add nsw i64 %24, 1
  store i64 %25, ptr %23, align 8
  br label %36

26:                                               ; preds = %14
  %27 = load ptr, ptr %4, align 8
  %28 = getelementptr inbounds %struct.counts, ptr %27, i32 0, i32 3
  %29 = load i64, ptr %28, align 8
  %30 = add nsw i64 %29, 1
  store i64 %30, ptr %28, align 8
  br label %36

31:                                               ; preds = %14
  %32 = load ptr, ptr %4, align 8
  %33 = getelementptr inbounds %struct.counts, ptr %32, i32 0, i32 4
  %34 = load i64, ptr %33, align 8
  %35 = add nsw i64 %34, 1
  store i64 %35, ptr %33, align 8
  br label %36

36:                                               ; preds = %13, %14, %31, %26, %21, %16
  ret void
}

; Function Attrs: noinline nounwind
define internal i64 @is_letter(i64 noundef %0) #0 {
  %2 = alloca i64, align 8
  store i64 %0, ptr %2, align 8
  %3 = load i64, ptr %2, align 8
  %4 = icmp sge i64 %3, 97
  br i1 %4, label %5, label %8

5:                                                ; preds = %1
  %6 = load i64, ptr %2, align 8
  %7 = icmp sle i64 %6, 122
  br label %8

8:                                                ; preds = %5, %1
  %9 = phi i1 [ false, %1 ], [ %7, %5 ]
  %10 = zext i1 %9 to i32
  %11 = sext i32 %10 to i64
  ret i64 %11
}

; Function Attrs: noinline nounwind
define internal i64 @is_digit(i64 noundef %0) #0 {
  %2 = alloca i64, align 8
  store i64 %0, ptr %2, align 8
  %3 = load i64, ptr %2, align 8
  %4 = icmp sge i64 %3, 48
  br i1 %4, label %5, label %8

5:                                                ; preds = %1
  %6 = load i64, ptr %2, align 8
  %7 = icmp sle i64 %6, 57
  br label %8

8:                                                ; preds = %5, %1
  %9 = phi i1 [ false, %1 ], [ %7, %5 ]
  %10 = zext i1 %9 to i32
  %11 = sext i32 %10 to i64
  ret i64 %11
}

; Function Attrs: noinline nounwind
define internal i64 @begin(i64 noundef %0) #0 {
  %2 = alloca i64, align 8
  %3 = alloca i64, align 8
  store i64 %0, ptr %3, align 8
  %4 = load i64, ptr %3, align 8
  %5 = call i64 @is_digit(i64 noundef %4) #2
  %6 = icmp ne i64 %5, 0
  br i1 %6, label %7, label %8

7:                                                ; preds = %1
  store i64 2, ptr %2, align 8
  br label %18

8:                                                ; preds = %1
  %9 = load i64, ptr %3, align 8
  %10 = call i64 @is_letter(i64 noundef %9) #2
  %11 = icmp ne i64 %10, 0
  br i1 %11, label %12, label %13

12:                                               ; preds = %8
  store i64 1, ptr %2, align 8
  br label %18

13:                                               ; preds = %8
  %14 = load i64, ptr %3, align 8
  switch i64 %14, label %17 [
    i64 35, label %15
    i64 32, label %16
    i64 10, label %16
    i64 0, label %16
  ]

15:                                               ; preds = %13
  store i64 3, ptr %2, align 8
  br label %18

16:                                               ; preds = %13, %13, %13
  store i64 0, ptr %2, align 8
  br label %18

17:                                               ; preds = %13
  store i64 4, ptr %2, align 8
  br label %18

18:                                               ; preds = %17, %16, %15, %12, %7
  %19 = load i64, ptr %2, align 8
  ret i64 %19
}

attributes #0 = { noinline nounwind "frame-pointer"="all" "min-legal-vector-width"="0" "no-builtins" "no-trapping-math"="true" "stack-protector-buffer-size"="8" "target-cpu"="x86-64" "target-features"="+cx8,+fxsr,+mmx,+sse,+sse2,+x87" "tune-cpu"="generic" }
attributes #1 = { "frame-pointer"="all" "no-builtins" "no-trapping-math"="true" "stack-protector-buffer-size"="8" "target-cpu"="x86-64" "target-features"="+cx8,+fxsr,+mmx,+sse,+sse2,+x87" "tune-cpu"="generic" }
attributes #2 = { nobuiltin "no-builtins" }

!llvm.module.flags = !{!0, !1, !2, !3}
!llvm.ident = !{!4}

!0 = !{i32 1, !"wchar_size", i32 4}
!1 = !{i32 8, !"PIC Level", i32 2}
!2 = !{i32 7, !"PIE Level", i32 2}
!3 = !{i32 7, !"frame-pointer", i32 2}
!4 = !{!"Debian clang version 16.0.6 (15~deb12u1)"}
!5 = distinct !{!5, !6}
!6 = !{!"llvm.loop.mustprogress"}
!7 = distinct !{!7, !6}
!8 = distinct !{!8, !6}
!9 = distinct !{!9, !6}
