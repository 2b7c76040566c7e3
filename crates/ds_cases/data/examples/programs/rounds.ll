; ModuleID = 'rounds.c'
source_filename = "rounds.c"
target datalayout = "e-m:e-p270:32:32-p271:32:32-p272:64:64-i64:64-f80:128-n8:16:32:64-S128"
target triple = "x86_64-pc-linux-gnu"

%struct.shared = type { %struct.barrier, [2 x [12 x i16]] }
%struct.barrier = type { i32, i32 }
%struct.worker = type { ptr, i32 }

@shared = internal global %struct.shared zeroinitializer, align 4
@alone = internal global %struct.shared zeroinitializer, align 4
@workers = internal global [3 x %struct.worker] zeroinitializer, align 16

; Function Attrs: noinline nounwind
define dso_local i32 @main() #0 {
  call void @run(ptr noundef @shared, ptr noundef @alone, ptr noundef @workers) #2
  ret i32 0
}

; Function Attrs: noinline nounwind
define internal void @run(ptr noundef %0, ptr noundef %1, ptr noundef %2) #0 {
  %4 = alloca ptr, align 8
  %5 = alloca ptr, align 8
  %6 = alloca ptr, align 8
  %7 = alloca [3 x i64], align 16
  %8 = alloca i64, align 8
  %9 = alloca i8, align 1
  %10 = alloca i32, align 4
  %11 = alloca i32, align 4
  %12 = alloca i32, align 4
  %13 = alloca i32, align 4
  store ptr %0, ptr %4, align 8
  store ptr %1, ptr %5, align 8
  store ptr %2, ptr %6, align 8
  store i64 0, ptr %8, align 8
  store i8 1, ptr %9, align 1
  %14 = load ptr, ptr %4, align 8
  call void @fill(ptr noundef %14) #2
  %15 = load ptr, ptr %5, align 8
  call void @fill(ptr noundef %15) #2
  store i32 0, ptr %10, align 4
  br label %16

16:                                               ; preds = %41, %3
  %17 = load i32, ptr %10, align 4
  %18 = icmp slt i32 %17, 3
  br i1 %18, label %19, label %44

19:                                               ; preds = %16
  %20 = load ptr, ptr %4, align 8
  %21 = load ptr, ptr %6, align 8
  %22 = load i32, ptr %10, align 4
  %23 = sext i32 %22 to i64
  %24 = getelementptr inbounds %struct.worker, ptr %21, i64 %23
  %25 = getelementptr inbounds %struct.worker, ptr %24, i32 0, i32 0
  store ptr %20, ptr %25, align 8
  %26 = load i32, ptr %10, align 4
  %27 = mul nsw i32 %26, 4
  %28 = load ptr, ptr %6, align 8
  %29 = load i32, ptr %10, align 4
  %30 = sext i32 %29 to i64
  %31 = getelementptr inbounds %struct.worker, ptr %28, i64 %30
  %32 = getelementptr inbounds %struct.worker, ptr %31, i32 0, i32 1
  store i32 %27, ptr %32, align 8
  %33 = load i32, ptr %10, align 4
  %34 = sext i32 %33 to i64
  %35 = getelementptr inbounds [3 x i64], ptr %7, i64 0, i64 %34
  %36 = load ptr, ptr %6, align 8
  %37 = load i32, ptr %10, align 4
  %38 = sext i32 %37 to i64
  %39 = getelementptr inbounds %struct.worker, ptr %36, i64 %38
  %40 = call i32 @pthread_create(ptr noundef %35, ptr noundef null, ptr noundef @work, ptr noundef %39) #2
  br label %41

41:                                               ; preds = %19
  %42 = load i32, ptr %10, align 4
  %43 = add nsw i32 %42, 1
  store i32 %43, ptr %10, align 4
  br label %16, !llvm.loop !5

44:                                               ; preds = %16
  store i32 0, ptr %11, align 4
  br label %45

45:                                               ; preds = %51, %44
  %46 = load i32, ptr %11, align 4
  %47 = icmp slt i32 %46, 8
  br i1 %47, label %48, label %54

48:                                               ; preds = %45
  %49 = load ptr, ptr %5, align 8
  %50 = load i32, ptr %11, align 4
  call void @grow(ptr noundef %49, i32 noundef %50, i32 noundef 0, i32 noundef 12) #2
  br label %51

51:                                               ; preds = %48
  %52 = load i32, ptr %11, align 4
  %53 = add nsw i32 %52, 1
  store i32 %53, ptr %11, align 4
  br label %45, !llvm.loop !7

54:                                               ; preds = %45
  store i32 0, ptr %12, align 4
  br label %55

55:                                               ; preds = %64, %54
  %56 = load i32, ptr %12, align 4
  %57 = icmp slt i32 %56, 3
  br i1 %57, label %58, label %67

58:                                               ; preds = %55
  %59 = load i32, ptr %12, align 4
  %60 = sext i32 %59 to i64
  %61 = getelementptr inbounds [3 x i64], ptr %7, i64 0, i64 %60
  %62 = load i64, ptr %61, align 8
  %63 = call i32 @pthread_join(i64 noundef %62, ptr noundef null) #2
  br label %64

64:                                               ; preds = %58
  %65 = load i32, ptr %12, align 4
  %66 = add nsw i32 %65, 1
  store i32 %66, ptr %12, align 4
  br label %55, !llvm.loop !8

67:                                               ; preds = %55
  store i32 0, ptr %13, align 4
  br label %68

68:                                               ; preds = %101, %67
  %69 = load i32, ptr %13, align 4
  %70 = icmp slt i32 %69, 12
  br i1 %70, label %71, label %104

71:                                               ; preds = %68
  %72 = load ptr, ptr %4, align 8
  %73 = getelementptr inbounds %struct.shared, ptr %72, i32 0, i32 1
  %74 = getelementptr inbounds [2 x [12 x i16]], ptr %73, i64 0, i64 0
  %75 = load i32, ptr %13, align 4
  %76 = sext i32 %75 to i64
  %77 = getelementptr inbounds [12 x i16], ptr %74, i64 0, i64 %76
  %78 = load i16, ptr %77, align 2
  %79 = sext i16 %78 to i64
  %80 = load i64, ptr %8, align 8
  %81 = add nsw i64 %80, %79
  store i64 %81, ptr %8, align 8
  %82 = load ptr, ptr %4, align 8
  %83 = getelementptr inbounds %struct.shared, ptr %82, i32 0, i32 1
  %84 = getelementptr inbounds [2 x [12 x i16]], ptr %83, i64 0, i64 0
  %85 = load i32, ptr %13, align 4
  %86 = sext i32 %85 to i64
  %87 = getelementptr inbounds [12 x i16], ptr %84, i64 0, i64 %86
  %88 = load i16, ptr %87, align 2
  %89 = sext i16 %88 to i32
  %90 = load ptr, ptr %5, align 8
  %91 = getelementptr inbounds %struct.shared, ptr %90, i32 0, i32 1
  %92 = getelementptr inbounds [2 x [12 x i16]], ptr %91, i64 0, i64 0
  %93 = load i32, ptr %13, align 4
  %94 = sext i32 %93 to i64
  %95 = getelementptr inbounds [12 x i16], ptr %92, i64 0, i64 %94
  %96 = load i16, ptr %95, align 2
  %97 = sext i16 %96 to i32
  %98 = icmp ne i32 %89, %97
  br i1 %98, label %99, label %100

99:                                               ; preds = %71
  store i8 0, ptr %9, align 1
  br label %100

100:                                              ; preds = %99, %71
  br label %101

101:                                              ; preds = %100
  %102 = load i32, ptr %13, align 4
  %103 = add nsw i32 %102, 1
  store i32 %103, ptr %13, align 4
  br label %68, !llvm.loop !9

104:                                              ; preds = %68
  %105 = load ptr, ptr %4, align 8
  %106 = getelementptr inbounds %struct.shared, ptr %105, i32 0, i32 0
  %107 = getelementptr inbounds %struct.barrier, ptr %106, i32 0, i32 1
  %108 = load i32, ptr %107, align 4
  %109 = sext i32 %108 to i64
  call void @print_i64(i64 noundef %109) #2
  %110 = load i8, ptr %9, align 1
  %111 = trunc i8 %110 to i1
  %112 = zext i1 %111 to i64
  call void @print_i64(i64 noundef %112) #2
  %113 = load i64, ptr %8, align 8
  call void @print_i64(i64 noundef %113) #2
  ret void
}

; Function Attrs: noinline nounwind
define internal void @fill(ptr noundef %0) #0 {
  %2 = alloca ptr, align 8
  %3 = alloca i32, align 4
  store ptr %0, ptr %2, align 8
  store i32 0, ptr %3, align 4
  br label %4

4:                                                ; preds = %19, %1
  %5 = load i32, ptr %3, align 4
  %6 = icmp slt i32 %5, 12
  br i1 %6, label %7, label %22

7:                                                ; preds = %4
  %8 = load i32, ptr %3, align 4
  %9 = load i32, ptr %3, align 4
  %10 = mul nsw i32 %8, %9
  %11 = srem i32 %10, 17
  %12 = trunc i32 %11 to i16
  %13 = load ptr, ptr %2, align 8
  %14 = getelementptr inbounds %struct.shared, ptr %13, i32 0, i32 1
  %15 = getelementptr inbounds [2 x [12 x i16]], ptr %14, i64 0, i64 0
  %16 = load i32, ptr %3, align 4
  %17 = sext i32 %16 to i64
  %18 = getelementptr inbounds [12 x i16], ptr %15, i64 0, i64 %17
  store i16 %12, ptr %18, align 2
  br label %19

19:                                               ; preds = %7
  %20 = load i32, ptr %3, align 4
  %21 = add nsw i32 %20, 1
  store i32 %21, ptr %3, align 4
  br label %4, !llvm.loop !10

22:                                               ; preds = %4
  ret void
}

declare i32 @pthread_create(ptr noundef, ptr noundef, ptr noundef, ptr noundef) #1

; Function Attrs: noinline nounwind
define internal ptr @work(ptr noundef %0) #0 {
  %2 = alloca ptr, align 8
  %3 = alloca ptr, align 8
  %4 = alloca i32, align 4
  store ptr %0, ptr %2, align 8
  %5 = load ptr, ptr %2, align 8
  store ptr %5, ptr %3, align 8
  store i32 0, ptr %4, align 4
  br label %6

6:                                                ; preds = %25, %1
  %7 = load i32, ptr %4, align 4
  %8 = icmp slt i32 %7, 8
  br i1 %8, label %9, label %28

9:                                                ; preds = %6
  %10 = load ptr, ptr %3, align 8
  %11 = getelementptr inbounds %struct.worker, ptr %10, i32 0, i32 0
  %12 = load ptr, ptr %11, align 8
  %13 = load i32, ptr %4, align 4
  %14 = load ptr, ptr %3, align 8
  %15 = getelementptr inbounds %struct.worker, ptr %14, i32 0, i32 1
  %16 = load i32, ptr %15, align 8
  %17 = load ptr, ptr %3, align 8
  %18 = getelementptr inbounds %struct.worker, ptr %17, i32 0, i32 1
  %19 = load i32, ptr %18, align 8
  %20 = add nsw i32 %19, 4
  call void @grow(ptr noundef %12, i32 noundef %13, i32 noundef %16, i32 noundef %20) #2
  %21 = load ptr, ptr %3, align 8
  %22 = getelementptr inbounds %struct.worker, ptr %21, i32 0, i32 0
  %23 = load ptr, ptr %22, align 8
  %24 = getelementptr inbounds %struct.shared, ptr %23, i32 0, i32 0
  call void @wait_all(ptr noundef %24) #2
  br label %25

25:                                               ; preds = %9
  %26 = load i32, ptr %4, align 4
  %27 = add nsw i32 %26, 1
  store i32 %27, ptr %4, align 4
  br label %6, !llvm.loop !11

28:                                               ; preds = %6
  ret ptr null
}

; Function Attrs: noinline nounwind
define internal void @grow(ptr noundef %0, i32 noundef %1, i32 noundef %2, i32 noundef %3) #0 {
  %5 = alloca ptr, align 8
  %6 = alloca i32, align 4
  %7 = alloca i32, align 4
  %8 = alloca i32, align 4
  %9 = alloca ptr, align 8
  %10 = alloca ptr, align 8
  %11 = alloca i32, align 4
  store ptr %0, ptr %5, align 8
  store i32 %1, ptr %6, align 4
  store i32 %2, ptr %7, align 4
  store i32 %3, ptr %8, align 4
  %12 = load ptr, ptr %5, align 8
  %13 = getelementptr inbounds %struct.shared, ptr %12, i32 0, i32 1
  %14 = load i32, ptr %6, align 4
  %15 = srem i32 %14, 2
  %16 = sext i32 %15 to i64
  %17 = getelementptr inbounds [2 x [12 x i16]], ptr %13, i64 0, i64 %16
  %18 = getelementptr inbounds [12 x i16], ptr %17, i64 0, i64 0
  store ptr %18, ptr %9, align 8
  %19 = load ptr, ptr %5, align 8
  %20 = getelementptr inbounds %struct.shared, ptr %19, i32 0, i32 1
  %21 = load i32, ptr %6, align 4
  %22 = add nsw i32 %21, 1
  %23 = srem i32 %22, 2
  %24 = sext i32 %23 to i64
  %25 = getelementptr inbounds [2 x [12 x i16]], ptr %20, i64 0, i64 %24
  %26 = getelementptr inbounds [12 x i16], ptr %25, i64 0, i64 0
  store ptr %26, ptr %10, align 8
  %27 = load i32, ptr %7, align 4
  store i32 %27, ptr %11, align 4
  br label %28

28:                                               ; preds = %64, %4
  %29 = load i32, ptr %11, align 4
  %30 = load i32, ptr %8, align 4
  %31 = icmp slt i32 %29, %30
  br i1 %31, label %32, label %67

32:                                               ; preds = %28
  %33 = load ptr, ptr %9, align 8
  %34 = load i32, ptr %11, align 4
  %35 = sext i32 %34 to i64
  %36 = getelementptr inbounds i16, ptr %33, i64 %35
  %37 = load i16, ptr %36, align 2
  %38 = sext i16 %37 to i32
  %39 = load ptr, ptr %9, align 8
  %40 = load i32, ptr %11, align 4
  %41 = add nsw i32 %40, 1
  %42 = srem i32 %41, 12
  %43 = sext i32 %42 to i64
  %44 = getelementptr inbounds i16, ptr %39, i64 %43
  %45 = load i16, ptr %44, align 2
  %46 = sext i16 %45 to i32
  %47 = add nsw i32 %38, %46
  %48 = load ptr, ptr %9, align 8
  %49 = load i32, ptr %11, align 4
  %50 = add nsw i32 %49, 12
  %51 = sub nsw i32 %50, 1
  %52 = srem i32 %51, 12
  %53 = sext i32 %52 to i64
  %54 = getelementptr inbounds i16, ptr %48, i64 %53
  %55 = load i16, ptr %54, align 2
  %56 = sext i16 %55 to i32
  %57 = add nsw i32 %47, %56
  %58 = srem i32 %57, 251
  %59 = trunc i32 %58 to i16
  %60 = load ptr, ptr %10, align 8
  %61 = load i32, ptr %11, align 4
  %62 = sext i32 %61 to i64
  %63 = getelementptr inbounds i16, ptr %60, i64 %62
  store i16 %59, ptr %63, align 2
  br label %64

64:                                               ; preds = %32
  %65 = load i32, ptr %11, align 4
  %66 = add nsw i32 %65, 1
  store i32 %66, ptr %11, align 4
  br label %28, !llvm.loop !12

67:                                               ; preds = %28
  ret void
}

declare i32 @pthread_join(i64 noundef, ptr noundef) #1

declare void @print_i64(i64 noundef) #1

; Function Attrs: noinline nounwind
define internal void @wait_all(ptr noundef %0) #0 {
  %2 = alloca ptr, align 8
  %3 = alloca i32, align 4
  %4 = alloca i32, align 4
  %5 = alloca i32, align 4
  %6 = alloca i32, align 4
  %7 = alloca i32, align 4
  %8 = alloca i32, align 4
  store ptr %0, ptr %2, align 8
  %9 = load ptr, ptr %2, align 8
  %10 = getelementptr inbounds %struct.barrier, ptr %9, i32 0, i32 1
  %11 = load atomic i32, ptr %10 acquire, align 4
  store i32 %11, ptr %4, align 4
  %12 = load i32, ptr %4, align 4
  store i32 %12, ptr %3, align 4
  %13 = load ptr, ptr %2, align 8
  %14 = getelementptr inbounds %struct.barrier, ptr %13, i32 0, i32 0
  store i32 1, ptr %5, align 4
  %15 = load i32, ptr %5, align 4
  %16 = atomicrmw add ptr %14, i32 %15 acq_rel, align 4
  %17 = add i32 %16, %15
  store i32 %17, ptr %6, align 4
  %18 = load i32, ptr %6, align 4
  %19 = icmp eq i32 %18, 3
  br i1 %19, label %20, label %28

20:                                               ; preds = %1
  %21 = load ptr, ptr %2, align 8
  %22 = getelementptr inbounds %struct.barrier, ptr %21, i32 0, i32 0
  store i32 0, ptr %22, align 4
  %23 = load ptr, ptr %2, align 8
  %24 = getelementptr inbounds %struct.barrier, ptr %23, i32 0, i32 1
  %25 = load i32, ptr %3, align 4
  %26 = add nsw i32 %25, 1
  store i32 %26, ptr %7, align 4
  %27 = load i32, ptr %7, align 4
  store atomic i32 %27, ptr %24 release, align 4
  br label %38

28:                                               ; preds = %1
  br label %29

29:                                               ; preds = %36, %28
  %30 = load ptr, ptr %2, align 8
  %31 = getelementptr inbounds %struct.barrier, ptr %30, i32 0, i32 1
  %32 = load atomic i32, ptr %31 acquire, align 4
  store i32 %32, ptr %8, align 4
  %33 = load i32, ptr %8, align 4
  %34 = load i32, ptr %3, align 4
  %35 = icmp eq i32 %33, %34
  br i1 %35, label %36, label %37

36:                                               ; preds = %29
  br label %29, !llvm.loop !13

37:                                               ; preds = %29
  br label %38

38:                                               ; preds = %37, %20
  ret void
}

attributes #0 = { noinline nounwind "frame-pointer"="all" "min-legal-vector-width"="0" "no-builtins" "no-trapping-math"="true" "stack-protector-buffer-size"="8" "target-cpu"="x86-64" "target-features"="+cx8,+fxsr,+mmx,+sse,+sse2,+x87" "tune-cpu"="generic" }
attributes #1 = { "frame-pointer"="all" "no-builtins" "no-trapping-math"="true" "stack-protector-buffer-size"="8" "target-cpu"="x86-64" "target-features"="+cx8,+fxsr,+mmx,+sse,+sse2,+x87" "tune-cpu"="generic" }
attributes #2 = { nobuiltin "no-builtins" }

!llvm.module.flags = !{!0, !1, !2, !3}
!llvm.ident = !{!4}

!0 = !{i32 1, !"wchar_size", i32 4}
!1 = !{i32 8, !"PIC Level", i32 2}
!2 = !{i32 7, !"PIE Level", i32 2}
!3 = !{i32 7, !"frame-pointer", i32 2}
!4 = !{!"Debian clang version 16.0.6 (15~deb12u1)"}
!5 = distinct !{!5, !6}
!6 = !{!"llvm.loop.mustprogress"}
!7 = distinct !{!7, !6}
!8 = distinct !{!8, !6}
!9 = distinct !{!9, !6}
!10 = distinct !{!10, !6}
!11 = distinct !{!11, !6}
!12 = distinct !{!12, !6}
!13 = distinct !{!13, !6}
