; ModuleID = 'sorts.c'
source_filename = "sorts.c"
target datalayout = "e-m:e-p270:32:32-p271:32:32-p272:64:64-i64:64-f80:128-n8:16:32:64-S128"
target triple = "x86_64-pc-linux-gnu"

@left = internal global [40 x i64] zeroinitializer, align 16
@right = internal global [40 x i64] zeroinitializer, align 16

; Function Attrs: noinline nounwind
define dso_local i32 @main() #0 {
  call void @fill(ptr noundef @left, i64 noundef 40) #2
  call void @fill(ptr noundef @right, i64 noundef 40) #2
  call void @show(ptr noundef @left, i64 noundef 40) #2
  %1 = call i64 @bubble_sort(ptr noundef @left, i64 noundef 40) #2
  call void @print_i64(i64 noundef %1) #2
  call void @show(ptr noundef @left, i64 noundef 40) #2
  call void @quicksort(ptr noundef @right, i64 noundef 0, i64 noundef 39) #2
  call void @show(ptr noundef @right, i64 noundef 40) #2
  %2 = call i64 @are_same(ptr noundef @left, ptr noundef @right, i64 noundef 40) #2
  call void @print_i64(i64 noundef %2) #2
  ret i32 0
}

; Function Attrs: noinline nounwind
define internal void @fill(ptr noundef %0, i64 noundef %1) #0 {
  %3 = alloca ptr, align 8
  %4 = alloca i64, align 8
  %5 = alloca i64, align 8
  %6 = alloca i64, align 8
  store ptr %0, ptr %3, align 8
  store i64 %1, ptr %4, align 8
  store i64 17, ptr %5, align 8
  store i64 0, ptr %6, align 8
  br label %7

7:                                                ; preds = %20, %2
  %8 = load i64, ptr %6, align 8
  %9 = load i64, ptr %4, align 8
  %10 = icmp slt i64 %8, %9
  br i1 %10, label %11, label %23

11:                                               ; preds = %7
  %12 = load i64, ptr %5, align 8
  %13 = load ptr, ptr %3, align 8
  %14 = load i64, ptr %6, align 8
  %15 = getelementptr inbounds i64, ptr %13, i64 %14
  store i64 %12, ptr %15, align 8
  %16 = load i64, ptr %5, align 8
  %17 = mul nsw i64 %16, 421
  %18 = add nsw i64 %17, 63
  %19 = srem i64 %18, 1009
  store i64 %19, ptr %5, align 8
  br label %20

20:                                               ; preds = %11
  %21 = load i64, ptr %6, align 8
  %22 = add nsw i64 %21, 1
  store i64 %22, ptr %6, align 8
  br label %7, !llvm.loop !5

23:                                               ; preds = %7
  ret void
}

; Function Attrs: noinline nounwind
define internal void @show(ptr noundef %0, i64 noundef %1) #0 {
  %3 = alloca ptr, align 8
  %4 = alloca i64, align 8
  store ptr %0, ptr %3, align 8
  store i64 %1, ptr %4, align 8
  %5 = load ptr, ptr %3, align 8
  %6 = getelementptr inbounds i64, ptr %5, i64 0
  %7 = load i64, ptr %6, align 8
  call void @print_i64(i64 noundef %7) #2
  %8 = load ptr, ptr %3, align 8
  %9 = load i64, ptr %4, align 8
  %10 = sdiv i64 %9, 2
  %11 = getelementptr inbounds i64, ptr %8, i64 %10
  %12 = load i64, ptr %11, align 8
  call void @print_i64(i64 noundef %12) #2
  %13 = load ptr, ptr %3, align 8
  %14 = load i64, ptr %4, align 8
  %15 = sub nsw i64 %14, 1
  %16 = getelementptr inbounds i64, ptr %13, i64 %15
  %17 = load i64, ptr %16, align 8
  call void @print_i64(i64 noundef %17) #2
  ret void
}

declare void @print_i64(i64 noundef) #1

; Function Attrs: noinline nounwind
define internal i64 @bubble_sort(ptr noundef %0, i64 noundef %1) #0 {
  %3 = alloca ptr, align 8
  %4 = alloca i64, align 8
  %5 = alloca i64, align 8
  %6 = alloca i64, align 8
  %7 = alloca i64, align 8
  store ptr %0, ptr %3, align 8
  store i64 %1, ptr %4, align 8
  store i64 0, ptr %5, align 8
  %8 = load i64, ptr %4, align 8
  %9 = sub nsw i64 %8, 1
  store i64 %9, ptr %6, align 8
  br label %10

10:                                               ; preds = %44, %2
  %11 = load i64, ptr %6, align 8
  %12 = icmp sgt i64 %11, 0
  br i1 %12, label %13, label %47

13:                                               ; preds = %10
  store i64 0, ptr %7, align 8
  br label %14

14:                                               ; preds = %40, %13
  %15 = load i64, ptr %7, align 8
  %16 = load i64, ptr %6, align 8
  %17 = icmp slt i64 %15, %16
  br i1 %17, label %18, label %43

18:                                               ; preds = %14
  %19 = load ptr, ptr %3, align 8
  %20 = load i64, ptr %7, align 8
  %21 = getelementptr inbounds i64, ptr %19, i64 %20
  %22 = load i64, ptr %21, align 8
  %23 = load ptr, ptr %3, align 8
  %24 = load i64, ptr %7, align 8
  %25 = add nsw i64 %24, 1
  %26 = getelementptr inbounds i64, ptr %23, i64 %25
  %27 = load i64, ptr %26, align 8
  %28 = icmp sgt i64 %22, %27
  br i1 %28, label %29, label %39

29:                                               ; preds = %18
  %30 = load ptr, ptr %3, align 8
  %31 = load i64, ptr %7, align 8
  %32 = getelementptr inbounds i64, ptr %30, i64 %31
  %33 = load ptr, ptr %3, align 8
  %34 = load i64, ptr %7, align 8
  %35 = add nsw i64 %34, 1
  %36 = getelementptr inbounds i64, ptr %33, i64 %35
  call void @swap(ptr noundef %32, ptr noundef %36) #2
  %37 = load i64, ptr %5, align 8
  %38 = add nsw i64 %37, 1
  store i64 %38, ptr %5, align 8
  br label %39

39:                                               ; preds = %29, %18
  br label %40

40:                                               ; preds = %39
  %41 = load i64, ptr %7, align 8
  %42 = add nsw i64 %41, 1
  store i64 %42, ptr %7, align 8
  br label %14, !llvm.loop !7

43:                                               ; preds = %14
  br label %44

44:                                               ; preds = %43
  %45 = load i64, ptr %6, align 8
  %46 = add nsw i64 %45, -1
  store i64 %46, ptr %6, align 8
  br label %10, !llvm.loop !8

47:                                               ; preds = %10
  %48 = load i64, ptr %5, align 8
  ret i64 %48
}

; Function Attrs: noinline nounwind
define internal void @quicksort(ptr noundef %0, i64 noundef %1, i64 noundef %2) #0 {
  %4 = alloca ptr, align 8
  %5 = alloca i64, align 8
  %6 = alloca i64, align 8
  %7 = alloca i64, align 8
  %8 = alloca i64, align 8
  %9 = alloca i64, align 8
  store ptr %0, ptr %4, align 8
  store i64 %1, ptr %5, align 8
  store i64 %2, ptr %6, align 8
  %10 = load i64, ptr %5, align 8
  %11 = load i64, ptr %6, align 8
  %12 = icmp sge i64 %10, %11
  br i1 %12, label %13, label %14

13:                                               ; preds = %3
  br label %73

14:                                               ; preds = %3
  %15 = load ptr, ptr %4, align 8
  %16 = load i64, ptr %5, align 8
  %17 = load i64, ptr %6, align 8
  %18 = add nsw i64 %16, %17
  %19 = sdiv i64 %18, 2
  %20 = getelementptr inbounds i64, ptr %15, i64 %19
  %21 = load i64, ptr %20, align 8
  store i64 %21, ptr %7, align 8
  %22 = load i64, ptr %5, align 8
  store i64 %22, ptr %8, align 8
  %23 = load i64, ptr %6, align 8
  store i64 %23, ptr %9, align 8
  br label %24

24:                                               ; preds = %65, %14
  %25 = load i64, ptr %8, align 8
  %26 = load i64, ptr %9, align 8
  %27 = icmp sle i64 %25, %26
  br i1 %27, label %28, label %66

28:                                               ; preds = %24
  br label %29

29:                                               ; preds = %36, %28
  %30 = load ptr, ptr %4, align 8
  %31 = load i64, ptr %8, align 8
  %32 = getelementptr inbounds i64, ptr %30, i64 %31
  %33 = load i64, ptr %32, align 8
  %34 = load i64, ptr %7, align 8
  %35 = icmp slt i64 %33, %34
  br i1 %35, label %36, label %39

36:                                               ; preds = %29
  %37 = load i64, ptr %8, align 8
  %38 = add nsw i64 %37, 1
  store i64 %38, ptr %8, align 8
  br label %29, !llvm.loop !9

39:                                               ; preds = %29
  br label %40

40:                                               ; preds = %47, %39
  %41 = load ptr, ptr %4, align 8
  %42 = load i64, ptr %9, align 8
  %43 = getelementptr inbounds i64, ptr %41, i64 %42
  %44 = load i64, ptr %43, align 8
  %45 = load i64, ptr %7, align 8
  %46 = icmp sgt i64 %44, %45
  br i1 %46, label %47, label %50

47:                                               ; preds = %40
  %48 = load i64, ptr %9, align 8
  %49 = add nsw i64 %48, -1
  store i64 %49, ptr %9, align 8
  br label %40, !llvm.loop !10

50:                                               ; preds = %40
  %51 = load i64, ptr %8, align 8
  %52 = load i64, ptr %9, align 8
  %53 = icmp sle i64 %51, %52
  br i1 %53, label %54, label %65

54:                                               ; preds = %50
  %55 = load ptr, ptr %4, align 8
  %56 = load i64, ptr %8, align 8
  %57 = getelementptr inbounds i64, ptr %55, i64 %56
  %58 = load ptr, ptr %4, align 8
  %59 = load i64, ptr %9, align 8
  %60 = getelementptr inbounds i64, ptr %58, i64 %59
  call void @swap(ptr noundef %57, ptr noundef %60) #2
  %61 = load i64, ptr %8, align 8
  %62 = add nsw i64 %61, 1
  store i64 %62, ptr %8, align 8
  %63 = load i64, ptr %9, align 8
  %64 = add nsw i64 %63, -1
  store i64 %64, ptr %9, align 8
  br label %65

65:                                               ; preds = %54, %50
  br label %24, !llvm.loop !11

66:                                               ; preds = %24
  %67 = load ptr, ptr %4, align 8
  %68 = load i64, ptr %5, align 8
  %69 = load i64, ptr %9, align 8
  call void @quicksort(ptr noundef %67, i64 noundef %68, i64 noundef %69) #2
  %70 = load ptr, ptr %4, align 8
  %71 = load i64, ptr %8, align 8
  %72 = load i64, ptr %6, align 8
  call void @quicksort(ptr noundef %70, i64 noundef %71, i64 noundef %72) #2
  br label %73

73:                                               ; preds = %66, %13
  ret void
}

; Function Attrs: noinline nounwind
define internal i64 @are_same(ptr noundef %0, ptr noundef %1, i64 noundef %2) #0 {
  %4 = alloca i64, align 8
  %5 = alloca ptr, align 8
  %6 = alloca ptr, align 8
  %7 = alloca i64, align 8
  %8 = alloca i64, align 8
  store ptr %0, ptr %5, align 8
  store ptr %1, ptr %6, align 8
  store i64 %2, ptr %7, align 8
  store i64 0, ptr %8, align 8
  br label %9

9:                                                ; preds = %25, %3
  %10 = load i64, ptr %8, align 8
  %11 = load i64, ptr %7, align 8
  %12 = icmp slt i64 %10, %11
  br i1 %12, label %13, label %28

13:                                               ; preds = %9
  %14 = load ptr, ptr %5, align 8
  %15 = load i64, ptr %8, align 8
  %16 = getelementptr inbounds i64, ptr %14, i64 %15
  %17 = load i64, ptr %16, align 8
  %18 = load ptr, ptr %6, align 8
  %19 = load i64, ptr %8, align 8
  %20 = getelementptr inbounds i64, ptr %18, i64 %19
  %21 = load i64, ptr %20, align 8
  %22 = icmp ne i64 %17, %21
  br i1 %22, label %23, label %24

23:                                               ; preds = %13
  store i64 0, ptr %4, align 8
  br label %29

24:                                               ; preds = %13
  br label %25

25:                                               ; preds = %24
  %26 = load i64, ptr %8, align 8
  %27 = add nsw i64 %26, 1
  store i64 %27, ptr %8, align 8
  br label %9, !llvm.loop !12

28:                                               ; preds = %9
  store i64 1, ptr %4, align 8
  br label %29

29:                                               ; preds = %28, %23
  %30 = load i64, ptr %4, align 8
  ret i64 %30
}

; Function Attrs: noinline nounwind
define internal void @swap(ptr noundef %0, ptr noundef %1) #0 {
  %3 = alloca ptr, align 8
  %4 = alloca ptr, align 8
  %5 = alloca i64, align 8
  store ptr %0, ptr %3, align 8
  store ptr %1, ptr %4, align 8
  %6 = load ptr, ptr %3, align 8
  %7 = load i64, ptr %6, align 8
  store i64 %7, ptr %5, align 8
  %8 = load ptr, ptr %4, align 8
  %9 = load i64, ptr %8, align 8
  %10 = load ptr, ptr %3, align 8
  store i64 %9, ptr %10, align 8
  %11 = load i64, ptr %5, align 8
  %12 = load ptr, ptr %4, align 8
  store i64 %11, ptr %12, align 8
  ret void
}

attributes #0 = { noinline nounwind "frame-pointer"="all" "min-legal-vector-width"="0" "no-builtins" "no-trapping-math"="true" "stack-protector-buffer-size"="8" "target-cpu"="x86-64" "target-features"="+cx8,+fxsr,+mmx,+sse,+sse2,+x87" "tune-cpu"="generic" }
attributes #1 = { "frame-pointer"="all" "no-builtins" "no-trapping-math"="true" "stack-protector-buffer-size"="8" "target-cpu"="x86-64" "target-features"="+cx8,+fxsr,+mmx,+sse,+sse2,+x87" "tune-cpu"="generic" }
attributes #2 = { nobuiltin "no-builtins" }

!llvm.module.flags = !{!0, !1, !2, !3}
!llvm.ident = !{!4}

!0 = !{i32 1, !"wchar_size", i32 4}
!1 = !{i32 8, !"PIC Level", i32 2}
!2 = !{i32 7, !"PIE Level", i32 2}
!3 = !{i32 7, !"frame-pointer", i32 2}
!4 = !{!"Debian clang version 16.0.6 (15~deb12u1)"}
!5 = distinct !{!5, !6}
!6 = !{!"llvm.loop.mustprogress"}
!7 = distinct !{!7, !6}
!8 = distinct !{!8, !6}
!9 = distinct !{!9, !6}
!10 = distinct !{!10, !6}
!11 = distinct !{!11, !6}
!12 = distinct !{!12, !6}
