; ModuleID = 'queens.c'
source_filename = "queens.c"
target datalayout = "e-m:e-p270:32:32-p271:32:32-p272:64:64-i64:64-f80:128-n8:16:32:64-S128"
target triple = "x86_64-pc-linux-gnu"

%struct.board = type { i64, i64, [6 x i64], [6 x i64] }

@board = internal global %struct.board zeroinitializer, align 8

; Function Attrs: noinline nounwind
define dso_local i32 @main() #0 {
  %1 = alloca i64, align 8
  store i64 1, ptr %1, align 8
  br label %2

2:                                                ; preds = %8, %0
  %3 = load i64, ptr %1, align 8
  %4 = icmp sle i64 %3, 6
  br i1 %4, label %5, label %11

5:                                                ; preds = %2
  %6 = load i64, ptr %1, align 8
  %7 = call i64 @ways(ptr noundef @board, i64 noundef %6) #2
  call void @print_i64(i64 noundef %7) #2
  br label %8

8:                                                ; preds = %5
  %9 = load i64, ptr %1, align 8
  %10 = add nsw i64 %9, 1
  store i64 %10, ptr %1, align 8
  br label %2, !llvm.loop !5

11:                                               ; preds = %2
  call void @show_first(ptr noundef @board) #2
  ret i32 0
}

declare void @print_i64(i64 noundef) #1

; Function Attrs: noinline nounwind
define internal i64 @ways(ptr noundef %0, i64 noundef %1) #0 {
  %3 = alloca ptr, align 8
  %4 = alloca i64, align 8
  store ptr %0, ptr %3, align 8
  store i64 %1, ptr %4, align 8
  %5 = load i64, ptr %4, align 8
  %6 = load ptr, ptr %3, align 8
  %7 = getelementptr inbounds %struct.board, ptr %6, i32 0, i32 0
  store i64 %5, ptr %7, align 8
  %8 = load ptr, ptr %3, align 8
  %9 = getelementptr inbounds %struct.board, ptr %8, i32 0, i32 1
  store i64 0, ptr %9, align 8
  %10 = load ptr, ptr %3, align 8
  call void @set_from(ptr noundef %10, i64 noundef 0) #2
  %11 = load ptr, ptr %3, align 8
  %12 = getelementptr inbounds %struct.board, ptr %11, i32 0, i32 1
  %13 = load i64, ptr %12, align 8
  ret i64 %13
}

; Function Attrs: noinline nounwind
define internal void @show_first(ptr noundef %0) #0 {
  %2 = alloca ptr, align 8
  %3 = alloca i64, align 8
  store ptr %0, ptr %2, align 8
  store i64 0, ptr %3, align 8
  br label %4

4:                                                ; preds = %16, %1
  %5 = load i64, ptr %3, align 8
  %6 = load ptr, ptr %2, align 8
  %7 = getelementptr inbounds %struct.board, ptr %6, i32 0, i32 0
  %8 = load i64, ptr %7, align 8
  %9 = icmp slt i64 %5, %8
  br i1 %9, label %10, label %19

10:                                               ; preds = %4
  %11 = load ptr, ptr %2, align 8
  %12 = getelementptr inbounds %struct.board, ptr %11, i32 0, i32 3
  %13 = load i64, ptr %3, align 8
  %14 = getelementptr inbounds [6 x i64], ptr %12, i64 0, i64 %13
  %15 = load i64, ptr %14, align 8
  call void @print_i64(i64 noundef %15) #2
  br label %16

16:                                               ; preds = %10
  %17 = load i64, ptr %3, align 8
  %18 = add nsw i64 %17, 1
  store i64 %18, ptr %3, align 8
  br label %4, !llvm.loop !7

19:                                               ; preds = %4
  ret void
}

; Function Attrs: noinline nounwind
define internal void @set_from(ptr noundef %0, i64 noundef %1) #0 {
  %3 = alloca ptr, align 8
  %4 = alloca i64, align 8
  %5 = alloca i64, align 8
  store ptr %0, ptr %3, align 8
  store i64 %1, ptr %4, align 8
  %6 = load i64, ptr %4, align 8
  %7 = load ptr, ptr %3, align 8
  %8 = getelementptr inbounds %struct.board, ptr %7, i32 0, i32 0
  %9 = load i64, ptr %8, align 8
  %10 = icmp eq i64 %6, %9
  br i1 %10, label %11, label %13

11:                                               ; preds = %2
  %12 = load ptr, ptr %3, align 8
  call void @keep(ptr noundef %12) #2
  br label %39

13:                                               ; preds = %2
  store i64 0, ptr %5, align 8
  br label %14

14:                                               ; preds = %36, %13
  %15 = load i64, ptr %5, align 8
  %16 = load ptr, ptr %3, align 8
  %17 = getelementptr inbounds %struct.board, ptr %16, i32 0, i32 0
  %18 = load i64, ptr %17, align 8
  %19 = icmp slt i64 %15, %18
  br i1 %19, label %20, label %39

20:                                               ; preds = %14
  %21 = load ptr, ptr %3, align 8
  %22 = load i64, ptr %4, align 8
  %23 = load i64, ptr %5, align 8
  %24 = call i64 @is_free(ptr noundef %21, i64 noundef %22, i64 noundef %23) #2
  %25 = icmp ne i64 %24, 0
  br i1 %25, label %26, label %35

26:                                               ; preds = %20
  %27 = load i64, ptr %5, align 8
  %28 = load ptr, ptr %3, align 8
  %29 = getelementptr inbounds %struct.board, ptr %28, i32 0, i32 2
  %30 = load i64, ptr %4, align 8
  %31 = getelementptr inbounds [6 x i64], ptr %29, i64 0, i64 %30
  store i64 %27, ptr %31, align 8
  %32 = load ptr, ptr %3, align 8
  %33 = load i64, ptr %4, align 8
  %34 = add nsw i64 %33, 1
  call void @set_from(ptr noundef %32, i64 noundef %34) #2
  br label %35

35:                                               ; preds = %26, %20
  br label %36

36:                                               ; preds = %35
  %37 = load i64, ptr %5, align 8
  %38 = add nsw i64 %37, 1
  store i64 %38, ptr %5, align 8
  br label %14, !llvm.loop !8

39:                                               ; preds = %11, %14
  ret void
}

; Function Attrs: noinline nounwind
define internal void @keep(ptr noundef %0) #0 {
  %2 = alloca ptr, align 8
  %3 = alloca i64, align 8
  store ptr %0, ptr %2, align 8
  %4 = load ptr, ptr %2, align 8
  %5 = getelementptr inbounds %struct.board, ptr %4, i32 0, i32 1
  %6 = load i64, ptr %5, align 8
  %7 = icmp eq i64 %6, 0
  br i1 %7, label %8, label %29

8:                                                ; preds = %1
  store i64 0, ptr %3, align 8
  br label %9

9:                                                ; preds = %25, %8
  %10 = load i64, ptr %3, align 8
  %11 = load ptr, ptr %2, align 8
  %12 = getelementptr inbounds %struct.board, ptr %11, i32 0, i32 0
  %13 = load i64, ptr %12, align 8
  %14 = icmp slt i64 %10, %13
  br i1 %14, label %15, label %28

15:                                               ; preds = %9
  %16 = load ptr, ptr %2, align 8
  %17 = getelementptr inbounds %struct.board, ptr %16, i32 0, i32 2
  %18 = load i64, ptr %3, align 8
  %19 = getelementptr inbounds [6 x i64], ptr %17, i64 0, i64 %18
  %20 = load i64, ptr %19, align 8
  %21 = load ptr, ptr %2, align 8
  %22 = getelementptr inbounds %struct.board, ptr %21, i32 0, i32 3
  %23 = load i64, ptr %3, align 8
  %24 = getelementptr inbounds [6 x i64], ptr %22, i64 0, i64 %23
  store i64 %20, ptr %24, align 8
  br label %25

25:                                               ; preds = %15
  %26 = load i64, ptr %3, align 8
  %27 = add nsw i64 %26, 1
  store i64 %27, ptr %3, align 8
  br label %9, !llvm.loop !9

28:                                               ; preds = %9
  br label %29

29:                                               ; preds = %28, %1
  %30 = load ptr, ptr %2, align 8
  %31 = getelementptr inbounds %struct.board, ptr %30, i32 0, i32 1
  %32 = load i64, ptr %31, align 8
  %33 = add nsw i64 %32, 1
  store i64 %33, ptr %31, align 8
  ret void
}

; Function Attrs: noinline nounwind
define internal i64 @is_free(ptr noundef %0, i64 noundef %1, i64 noundef %2) #0 {
  %4 = alloca i64, align 8
  %5 = alloca ptr, align 8
  %6 = alloca i64, align 8
  %7 = alloca i64, align 8
  %8 = alloca i64, align 8
  store ptr %0, ptr %5, align 8
  store i64 %1, ptr %6, align 8
  store i64 %2, ptr %7, align 8
  store i64 0, ptr %8, align 8
  br label %9

9:                                                ; preds = %35, %3
  %10 = load i64, ptr %8, align 8
  %11 = load i64, ptr %6, align 8
  %12 = icmp slt i64 %10, %11
  br i1 %12, label %13, label %38

13:                                               ; preds = %9
  %14 = load ptr, ptr %5, align 8
  %15 = getelementptr inbounds %struct.board, ptr %14, i32 0, i32 2
  %16 = load i64, ptr %8, align 8
  %17 = getelementptr inbounds [6 x i64], ptr %15, i64 0, i64 %16
  %18 = load i64, ptr %17, align 8
  %19 = load i64, ptr %7, align 8
  %20 = icmp eq i64 %18, %19
  br i1 %20, label %33, label %21

21:                                               ; preds = %13
  %22 = load ptr, ptr %5, align 8
  %23 = getelementptr inbounds %struct.board, ptr %22, i32 0, i32 2
  %24 = load i64, ptr %8, align 8
  %25 = getelementptr inbounds [6 x i64], ptr %23, i64 0, i64 %24
  %26 = load i64, ptr %25, align 8
  %27 = load i64, ptr %7, align 8
  %28 = call i64 @distance(i64 noundef %26, i64 noundef %27) #2
  %29 = load i64, ptr %6, align 8
  %30 = load i64, ptr %8, align 8
  %31 = sub nsw i64 %29, %30
  %32 = icmp eq i64 %28, %31
  br i1 %32, label %33, label %34

33:                                               ; preds = %21, %13
  store i64 0, ptr %4, align 8
  br label %39

34:                                               ; preds = %21
  br label %35

35:                                               ; preds = %34
  %36 = load i64, ptr %8, align 8
  %37 = add nsw i64 %36, 1
  store i64 %37, ptr %8, align 8
  br label %9, !llvm.loop !10

38:                                               ; preds = %9
  store i64 1, ptr %4, align 8
  br label %39

39:                                               ; preds = %38, %33
  %40 = load i64, ptr %4, align 8
  ret i64 %40
}

; Function Attrs: noinline nounwind
define internal i64 @distance(i64 noundef %0, i64 noundef %1) #0 {
  %3 = alloca i64, align 8
  %4 = alloca i64, align 8
  store i64 %0, ptr %3, align 8
  store i64 %1, ptr %4, align 8
  %5 = load i64, ptr %3, align 8
  %6 = load i64, ptr %4, align 8
  %7 = icmp slt i64 %5, %6
  br i1 %7, label %8, label %12

8:                                                ; preds = %2
  %9 = load i64, ptr %4, align 8
  %10 = load i64, ptr %3, align 8
  %11 = sub nsw i64 %9, %10
  br label %16

12:                                               ; preds = %2
  %13 = load i64, ptr %3, align 8
  %14 = load i64, ptr %4, align 8
  %15 = sub nsw i64 %13, %14
  br label %16

16:                                               ; preds = %12, %8
  %17 = phi i64 [ %11, %8 ], [ %15, %12 ]
  ret i64 %17
}

attributes #0 = { noinline nounwind "frame-pointer"="all" "min-legal-vector-width"="0" "no-builtins" "no-trapping-math"="true" "stack-protector-buffer-size"="8" "target-cpu"="x86-64" "target-features"="+cx8,+fxsr,+mmx,+sse,+sse2,+x87" "tune-cpu"="generic" }
attributes #1 = { "frame-pointer"="all" "no-builtins" "no-trapping-math"="true" "stack-protector-buffer-size"="8" "target-cpu"="x86-64" "target-features"="+cx8,+fxsr,+mmx,+sse,+sse2,+x87" "tune-cpu"="generic" }
attributes #2 = { nobuiltin "no-builtins" }

!llvm.module.flags = !{!0, !1, !2, !3}
!llvm.ident = !{!4}

!0 = !{i32 1, !"wchar_size", i32 4}
!1 = !{i32 8, !"PIC Level", i32 2}
!2 = !{i32 7, !"PIE Level", i32 2}
!3 = !{i32 7, !"frame-pointer", i32 2}
!4 = !{!"Debian clang version 16.0.6 (15~deb12u1)"}
!5 = distinct !{!5, !6}
!6 = !{!"llvm.loop.mustprogress"}
!7 = distinct !{!7, !6}
!8 = distinct !{!8, !6}
!9 = distinct !{!9, !6}
!10 = distinct !{!10, !6}
