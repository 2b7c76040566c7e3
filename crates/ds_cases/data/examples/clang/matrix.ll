; ModuleID = 'matrix.c'
source_filename = "matrix.c"
target datalayout = "e-m:e-p270:32:32-p271:32:32-p272:64:64-i64:64-f80:128-n8:16:32:64-S128"
target triple = "x86_64-pc-linux-gnu"

%struct.matrix = type { i16, i16, [4 x ptr] }

@wide = internal global %struct.matrix { i16 3, i16 5, [4 x ptr] zeroinitializer }, align 8

; Function Attrs: noinline nounwind uwtable
define dso_local i32 @main() #0 {
  %1 = alloca i32, align 4
  store i32 0, ptr %1, align 4
  call void @fill(ptr noundef @wide)
  %2 = call i64 @trace(ptr noundef @wide)
  call void @print_i64(i64 noundef %2)
  call void @release(ptr noundef @wide)
  ret i32 0
}

; Function Attrs: noinline nounwind uwtable
define internal void @fill(ptr noundef %0) #0 {
  %2 = alloca ptr, align 8
  %3 = alloca i16, align 2
  %4 = alloca i16, align 2
  store ptr %0, ptr %2, align 8
  store i16 0, ptr %3, align 2
  br label %5

5:                                                ; preds = %54, %1
  %6 = load i16, ptr %3, align 2
  %7 = zext i16 %6 to i32
  %8 = load ptr, ptr %2, align 8
  %9 = getelementptr inbounds %struct.matrix, ptr %8, i32 0, i32 0
  %10 = load i16, ptr %9, align 8
  %11 = zext i16 %10 to i32
  %12 = icmp slt i32 %7, %11
  br i1 %12, label %13, label %57

13:                                               ; preds = %5
  %14 = load ptr, ptr %2, align 8
  %15 = getelementptr inbounds %struct.matrix, ptr %14, i32 0, i32 1
  %16 = load i16, ptr %15, align 2
  %17 = zext i16 %16 to i64
  %18 = mul i64 %17, 2
  %19 = call ptr @malloc(i64 noundef %18) #3
  %20 = load ptr, ptr %2, align 8
  %21 = getelementptr inbounds %struct.matrix, ptr %20, i32 0, i32 2
  %22 = load i16, ptr %3, align 2
  %23 = zext i16 %22 to i64
  %24 = getelementptr inbounds [4 x ptr], ptr %21, i64 0, i64 %23
  store ptr %19, ptr %24, align 8
  store i16 0, ptr %4, align 2
  br label %25

25:                                               ; preds = %50, %13
  %26 = load i16, ptr %4, align 2
  %27 = zext i16 %26 to i32
  %28 = load ptr, ptr %2, align 8
  %29 = getelementptr inbounds %struct.matrix, ptr %28, i32 0, i32 1
  %30 = load i16, ptr %29, align 2
  %31 = zext i16 %30 to i32
  %32 = icmp slt i32 %27, %31
  br i1 %32, label %33, label %53

33:                                               ; preds = %25
  %34 = load i16, ptr %3, align 2
  %35 = zext i16 %34 to i32
  %36 = mul nsw i32 %35, 10
  %37 = load i16, ptr %4, align 2
  %38 = zext i16 %37 to i32
  %39 = sub nsw i32 %36, %38
  %40 = trunc i32 %39 to i16
  %41 = load ptr, ptr %2, align 8
  %42 = getelementptr inbounds %struct.matrix, ptr %41, i32 0, i32 2
  %43 = load i16, ptr %3, align 2
  %44 = zext i16 %43 to i64
  %45 = getelementptr inbounds [4 x ptr], ptr %42, i64 0, i64 %44
  %46 = load ptr, ptr %45, align 8
  %47 = load i16, ptr %4, align 2
  %48 = zext i16 %47 to i64
  %49 = getelementptr inbounds i16, ptr %46, i64 %48
  store i16 %40, ptr %49, align 2
  br label %50

50:                                               ; preds = %33
  %51 = load i16, ptr %4, align 2
  %52 = add i16 %51, 1
  store i16 %52, ptr %4, align 2
  br label %25, !llvm.loop !6

53:                                               ; preds = %25
  br label %54

54:                                               ; preds = %53
  %55 = load i16, ptr %3, align 2
  %56 = add i16 %55, 1
  store i16 %56, ptr %3, align 2
  br label %5, !llvm.loop !8

57:                                               ; preds = %5
  ret void
}

declare void @print_i64(i64 noundef) #1

; Function Attrs: noinline nounwind uwtable
define internal i64 @trace(ptr noundef %0) #0 {
  %2 = alloca ptr, align 8
  %3 = alloca i64, align 8
  %4 = alloca i16, align 2
  store ptr %0, ptr %2, align 8
  store i64 0, ptr %3, align 8
  store i16 0, ptr %4, align 2
  br label %5

5:                                                ; preds = %27, %1
  %6 = load i16, ptr %4, align 2
  %7 = zext i16 %6 to i32
  %8 = load ptr, ptr %2, align 8
  %9 = getelementptr inbounds %struct.matrix, ptr %8, i32 0, i32 0
  %10 = load i16, ptr %9, align 8
  %11 = zext i16 %10 to i32
  %12 = icmp slt i32 %7, %11
  br i1 %12, label %13, label %30

13:                                               ; preds = %5
  %14 = load ptr, ptr %2, align 8
  %15 = getelementptr inbounds %struct.matrix, ptr %14, i32 0, i32 2
  %16 = load i16, ptr %4, align 2
  %17 = zext i16 %16 to i64
  %18 = getelementptr inbounds [4 x ptr], ptr %15, i64 0, i64 %17
  %19 = load ptr, ptr %18, align 8
  %20 = load i16, ptr %4, align 2
  %21 = zext i16 %20 to i64
  %22 = getelementptr inbounds i16, ptr %19, i64 %21
  %23 = load i16, ptr %22, align 2
  %24 = sext i16 %23 to i64
  %25 = load i64, ptr %3, align 8
  %26 = add nsw i64 %25, %24
  store i64 %26, ptr %3, align 8
  br label %27

27:                                               ; preds = %13
  %28 = load i16, ptr %4, align 2
  %29 = add i16 %28, 1
  store i16 %29, ptr %4, align 2
  br label %5, !llvm.loop !9

30:                                               ; preds = %5
  %31 = load i64, ptr %3, align 8
  ret i64 %31
}

; Function Attrs: noinline nounwind uwtable
define internal void @release(ptr noundef %0) #0 {
  %2 = alloca ptr, align 8
  %3 = alloca i32, align 4
  store ptr %0, ptr %2, align 8
  %4 = load ptr, ptr %2, align 8
  %5 = getelementptr inbounds %struct.matrix, ptr %4, i32 0, i32 0
  %6 = load i16, ptr %5, align 8
  %7 = zext i16 %6 to i32
  %8 = sub nsw i32 %7, 1
  store i32 %8, ptr %3, align 4
  br label %9

9:                                                ; preds = %19, %1
  %10 = load i32, ptr %3, align 4
  %11 = icmp sge i32 %10, 0
  br i1 %11, label %12, label %22

12:                                               ; preds = %9
  %13 = load ptr, ptr %2, align 8
  %14 = getelementptr inbounds %struct.matrix, ptr %13, i32 0, i32 2
  %15 = load i32, ptr %3, align 4
  %16 = sext i32 %15 to i64
  %17 = getelementptr inbounds [4 x ptr], ptr %14, i64 0, i64 %16
  %18 = load ptr, ptr %17, align 8
  call void @free(ptr noundef %18)
  br label %19

19:                                               ; preds = %12
  %20 = load i32, ptr %3, align 4
  %21 = add nsw i32 %20, -1
  store i32 %21, ptr %3, align 4
  br label %9, !llvm.loop !10

22:                                               ; preds = %9
  ret void
}

; Function Attrs: allocsize(0)
declare ptr @malloc(i64 noundef) #2

declare void @free(ptr noundef) #1

attributes #0 = { noinline nounwind uwtable "frame-pointer"="all" "min-legal-vector-width"="0" "no-trapping-math"="true" "stack-protector-buffer-size"="8" "target-cpu"="x86-64" "target-features"="+cx8,+fxsr,+mmx,+sse,+sse2,+x87" "tune-cpu"="generic" }
attributes #1 = { "frame-pointer"="all" "no-trapping-math"="true" "stack-protector-buffer-size"="8" "target-cpu"="x86-64" "target-features"="+cx8,+fxsr,+mmx,+sse,+sse2,+x87" "tune-cpu"="generic" }
attributes #2 = { allocsize(0) "frame-pointer"="all" "no-trapping-math"="true" "stack-protector-buffer-size"="8" "target-cpu"="x86-64" "target-features"="+cx8,+fxsr,+mmx,+sse,+sse2,+x87" "tune-cpu"="generic" }
attributes #3 = { allocsize(0) }

!llvm.module.flags = !{!0, !1, !2, !3, !4}
!llvm.ident = !{!5}

!0 = !{i32 1, !"wchar_size", i32 4}
!1 = !{i32 8, !"PIC Level", i32 2}
!2 = !{i32 7, !"PIE Level", i32 2}
!3 = !{i32 7, !"uwtable", i32 2}
!4 = !{i32 7, !"frame-pointer", i32 2}
!5 = !{!"Debian clang version 16.0.6 (15~deb12u1)"}
!6 = distinct !{!6, !7}
!7 = !{!"llvm.loop.mustprogress"}
!8 = distinct !{!8, !7}
!9 = distinct !{!9, !7}
!10 = distinct !{!10, !7}
