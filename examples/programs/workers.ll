; ModuleID = 'workers.c'
source_filename = "workers.c"
target datalayout = "e-m:e-p270:32:32-p271:32:32-p272:64:64-i64:64-f80:128-n8:16:32:64-S128"
target triple = "x86_64-pc-linux-gnu"

%struct.shared = type { [60 x i16], i32, i8, i8, [4 x %struct.found], %struct.found }
%struct.found = type { i64, i64, i64, i16 }
%struct.worker = type { ptr, i64 }

@shared = internal global %struct.shared zeroinitializer, align 8
@workers = internal global [4 x %struct.worker] zeroinitializer, align 16

; Function Attrs: noinline nounwind
define dso_local i32 @main() #0 {
  call void @run(ptr noundef @shared, ptr noundef @workers) #2
  ret i32 0
}

; Function Attrs: noinline nounwind
define internal void @run(ptr noundef %0, ptr noundef %1) #0 {
  %3 = alloca ptr, align 8
  %4 = alloca ptr, align 8
  %5 = alloca [4 x i64], align 16
  %6 = alloca i16, align 2
  %7 = alloca i32, align 4
  %8 = alloca i32, align 4
  %9 = alloca i32, align 4
  store ptr %0, ptr %3, align 8
  store ptr %1, ptr %4, align 8
  store i16 7, ptr %6, align 2
  store i32 0, ptr %7, align 4
  br label %10

10:                                               ; preds = %29, %2
  %11 = load i32, ptr %7, align 4
  %12 = icmp slt i32 %11, 60
  br i1 %12, label %13, label %32

13:                                               ; preds = %10
  %14 = load i16, ptr %6, align 2
  %15 = sext i16 %14 to i32
  %16 = srem i32 %15, 199
  %17 = sub nsw i32 %16, 99
  %18 = trunc i32 %17 to i16
  %19 = load ptr, ptr %3, align 8
  %20 = getelementptr inbounds %struct.shared, ptr %19, i32 0, i32 0
  %21 = load i32, ptr %7, align 4
  %22 = sext i32 %21 to i64
  %23 = getelementptr inbounds [60 x i16], ptr %20, i64 0, i64 %22
  store i16 %18, ptr %23, align 2
  %24 = load i16, ptr %6, align 2
  %25 = sext i16 %24 to i32
  %26 = mul nsw i32 %25, 31
  %27 = srem i32 %26, 4099
  %28 = trunc i32 %27 to i16
  store i16 %28, ptr %6, align 2
  br label %29

29:                                               ; preds = %13
  %30 = load i32, ptr %7, align 4
  %31 = add nsw i32 %30, 1
  store i32 %31, ptr %7, align 4
  br label %10, !llvm.loop !5

32:                                               ; preds = %10
  %33 = load ptr, ptr %3, align 8
  %34 = getelementptr inbounds %struct.shared, ptr %33, i32 0, i32 2
  store i8 4, ptr %34, align 4
  store i32 0, ptr %8, align 4
  br label %35

35:                                               ; preds = %60, %32
  %36 = load i32, ptr %8, align 4
  %37 = icmp slt i32 %36, 4
  br i1 %37, label %38, label %63

38:                                               ; preds = %35
  %39 = load ptr, ptr %3, align 8
  %40 = load ptr, ptr %4, align 8
  %41 = load i32, ptr %8, align 4
  %42 = sext i32 %41 to i64
  %43 = getelementptr inbounds %struct.worker, ptr %40, i64 %42
  %44 = getelementptr inbounds %struct.worker, ptr %43, i32 0, i32 0
  store ptr %39, ptr %44, align 8
  %45 = load i32, ptr %8, align 4
  %46 = sext i32 %45 to i64
  %47 = load ptr, ptr %4, align 8
  %48 = load i32, ptr %8, align 4
  %49 = sext i32 %48 to i64
  %50 = getelementptr inbounds %struct.worker, ptr %47, i64 %49
  %51 = getelementptr inbounds %struct.worker, ptr %50, i32 0, i32 1
  store i64 %46, ptr %51, align 8
  %52 = load i32, ptr %8, align 4
  %53 = sext i32 %52 to i64
  %54 = getelementptr inbounds [4 x i64], ptr %5, i64 0, i64 %53
  %55 = load ptr, ptr %4, align 8
  %56 = load i32, ptr %8, align 4
  %57 = sext i32 %56 to i64
  %58 = getelementptr inbounds %struct.worker, ptr %55, i64 %57
  %59 = call i32 @pthread_create(ptr noundef %54, ptr noundef null, ptr noundef @work, ptr noundef %58) #2
  br label %60

60:                                               ; preds = %38
  %61 = load i32, ptr %8, align 4
  %62 = add nsw i32 %61, 1
  store i32 %62, ptr %8, align 4
  br label %35, !llvm.loop !7

63:                                               ; preds = %35
  store i32 0, ptr %9, align 4
  br label %64

64:                                               ; preds = %73, %63
  %65 = load i32, ptr %9, align 4
  %66 = icmp slt i32 %65, 4
  br i1 %66, label %67, label %76

67:                                               ; preds = %64
  %68 = load i32, ptr %9, align 4
  %69 = sext i32 %68 to i64
  %70 = getelementptr inbounds [4 x i64], ptr %5, i64 0, i64 %69
  %71 = load i64, ptr %70, align 8
  %72 = call i32 @pthread_join(i64 noundef %71, ptr noundef null) #2
  br label %73

73:                                               ; preds = %67
  %74 = load i32, ptr %9, align 4
  %75 = add nsw i32 %74, 1
  store i32 %75, ptr %9, align 4
  br label %64, !llvm.loop !8

76:                                               ; preds = %64
  %77 = load ptr, ptr %3, align 8
  %78 = getelementptr inbounds %struct.shared, ptr %77, i32 0, i32 5
  %79 = getelementptr inbounds %struct.found, ptr %78, i32 0, i32 2
  %80 = load i64, ptr %79, align 8
  call void @print_i64(i64 noundef %80) #2
  %81 = load ptr, ptr %3, align 8
  %82 = getelementptr inbounds %struct.shared, ptr %81, i32 0, i32 5
  %83 = getelementptr inbounds %struct.found, ptr %82, i32 0, i32 0
  %84 = load i64, ptr %83, align 8
  call void @print_i64(i64 noundef %84) #2
  %85 = load ptr, ptr %3, align 8
  %86 = getelementptr inbounds %struct.shared, ptr %85, i32 0, i32 5
  %87 = getelementptr inbounds %struct.found, ptr %86, i32 0, i32 1
  %88 = load i64, ptr %87, align 8
  %89 = load ptr, ptr %3, align 8
  %90 = call i64 @squares_of(ptr noundef %89) #2
  %91 = icmp eq i64 %88, %90
  %92 = zext i1 %91 to i32
  %93 = sext i32 %92 to i64
  call void @print_i64(i64 noundef %93) #2
  %94 = load ptr, ptr %3, align 8
  %95 = getelementptr inbounds %struct.shared, ptr %94, i32 0, i32 5
  %96 = getelementptr inbounds %struct.found, ptr %95, i32 0, i32 3
  %97 = load i16, ptr %96, align 8
  %98 = sext i16 %97 to i64
  call void @print_i64(i64 noundef %98) #2
  %99 = load ptr, ptr %3, align 8
  %100 = getelementptr inbounds %struct.shared, ptr %99, i32 0, i32 3
  %101 = load i8, ptr %100, align 1
  %102 = sext i8 %101 to i64
  call void @print_i64(i64 noundef %102) #2
  ret void
}

declare i32 @pthread_create(ptr noundef, ptr noundef, ptr noundef, ptr noundef) #1

; Function Attrs: noinline nounwind
define internal ptr @work(ptr noundef %0) #0 {
  %2 = alloca ptr, align 8
  %3 = alloca ptr, align 8
  %4 = alloca ptr, align 8
  %5 = alloca i32, align 4
  %6 = alloca i32, align 4
  %7 = alloca i32, align 4
  %8 = alloca i32, align 4
  %9 = alloca i8, align 1
  %10 = alloca i8, align 1
  %11 = alloca i8, align 1
  %12 = alloca i8, align 1
  store ptr %0, ptr %2, align 8
  %13 = load ptr, ptr %2, align 8
  store ptr %13, ptr %3, align 8
  %14 = load ptr, ptr %3, align 8
  %15 = getelementptr inbounds %struct.worker, ptr %14, i32 0, i32 0
  %16 = load ptr, ptr %15, align 8
  store ptr %16, ptr %4, align 8
  br label %17

17:                                               ; preds = %47, %1
  %18 = load ptr, ptr %4, align 8
  %19 = getelementptr inbounds %struct.shared, ptr %18, i32 0, i32 1
  store i32 5, ptr %6, align 4
  %20 = load i32, ptr %6, align 4
  %21 = atomicrmw add ptr %19, i32 %20 monotonic, align 4
  store i32 %21, ptr %7, align 4
  %22 = load i32, ptr %7, align 4
  store i32 %22, ptr %5, align 4
  %23 = load i32, ptr %5, align 4
  %24 = icmp sge i32 %23, 60
  br i1 %24, label %25, label %26

25:                                               ; preds = %17
  br label %48

26:                                               ; preds = %17
  store i32 0, ptr %8, align 4
  br label %27

27:                                               ; preds = %44, %26
  %28 = load i32, ptr %8, align 4
  %29 = icmp slt i32 %28, 5
  br i1 %29, label %30, label %47

30:                                               ; preds = %27
  %31 = load ptr, ptr %4, align 8
  %32 = getelementptr inbounds %struct.shared, ptr %31, i32 0, i32 4
  %33 = load ptr, ptr %3, align 8
  %34 = getelementptr inbounds %struct.worker, ptr %33, i32 0, i32 1
  %35 = load i64, ptr %34, align 8
  %36 = getelementptr inbounds [4 x %struct.found], ptr %32, i64 0, i64 %35
  %37 = load ptr, ptr %4, align 8
  %38 = getelementptr inbounds %struct.shared, ptr %37, i32 0, i32 0
  %39 = load i32, ptr %5, align 4
  %40 = load i32, ptr %8, align 4
  %41 = add nsw i32 %39, %40
  %42 = sext i32 %41 to i64
  %43 = getelementptr inbounds [60 x i16], ptr %38, i64 0, i64 %42
  call void @look(ptr noundef %36, ptr noundef %43) #2
  br label %44

44:                                               ; preds = %30
  %45 = load i32, ptr %8, align 4
  %46 = add nsw i32 %45, 1
  store i32 %46, ptr %8, align 4
  br label %27, !llvm.loop !9

47:                                               ; preds = %27
  br label %17

48:                                               ; preds = %25
  %49 = load ptr, ptr %4, align 8
  %50 = getelementptr inbounds %struct.shared, ptr %49, i32 0, i32 2
  store i8 1, ptr %9, align 1
  %51 = load i8, ptr %9, align 1
  %52 = atomicrmw sub ptr %50, i8 %51 acq_rel, align 1
  %53 = sub i8 %52, %51
  store i8 %53, ptr %10, align 1
  %54 = load i8, ptr %10, align 1
  %55 = zext i8 %54 to i32
  %56 = icmp eq i32 %55, 0
  br i1 %56, label %57, label %64

57:                                               ; preds = %48
  %58 = load ptr, ptr %4, align 8
  call void @join_up(ptr noundef %58) #2
  %59 = load ptr, ptr %4, align 8
  %60 = getelementptr inbounds %struct.shared, ptr %59, i32 0, i32 3
  store i8 1, ptr %11, align 1
  %61 = load i8, ptr %11, align 1
  %62 = atomicrmw add ptr %60, i8 %61 monotonic, align 1
  store i8 %62, ptr %12, align 1
  %63 = load i8, ptr %12, align 1
  br label %64

64:                                               ; preds = %57, %48
  %65 = load ptr, ptr %2, align 8
  ret ptr %65
}

declare i32 @pthread_join(i64 noundef, ptr noundef) #1

declare void @print_i64(i64 noundef) #1

; Function Attrs: noinline nounwind
define internal i64 @squares_of(ptr noundef %0) #0 {
  %2 = alloca ptr, align 8
  %3 = alloca i64, align 8
  %4 = alloca i32, align 4
  store ptr %0, ptr %2, align 8
  store i64 0, ptr %3, align 8
  store i32 0, ptr %4, align 4
  br label %5

5:                                                ; preds = %27, %1
  %6 = load i32, ptr %4, align 4
  %7 = icmp slt i32 %6, 60
  br i1 %7, label %8, label %30

8:                                                ; preds = %5
  %9 = load ptr, ptr %2, align 8
  %10 = getelementptr inbounds %struct.shared, ptr %9, i32 0, i32 0
  %11 = load i32, ptr %4, align 4
  %12 = sext i32 %11 to i64
  %13 = getelementptr inbounds [60 x i16], ptr %10, i64 0, i64 %12
  %14 = load i16, ptr %13, align 2
  %15 = sext i16 %14 to i32
  %16 = load ptr, ptr %2, align 8
  %17 = getelementptr inbounds %struct.shared, ptr %16, i32 0, i32 0
  %18 = load i32, ptr %4, align 4
  %19 = sext i32 %18 to i64
  %20 = getelementptr inbounds [60 x i16], ptr %17, i64 0, i64 %19
  %21 = load i16, ptr %20, align 2
  %22 = sext i16 %21 to i32
  %23 = mul nsw i32 %15, %22
  %24 = sext i32 %23 to i64
  %25 = load i64, ptr %3, align 8
  %26 = add nsw i64 %25, %24
  store i64 %26, ptr %3, align 8
  br label %27

27:                                               ; preds = %8
  %28 = load i32, ptr %4, align 4
  %29 = add nsw i32 %28, 1
  store i32 %29, ptr %4, align 4
  br label %5, !llvm.loop !10

30:                                               ; preds = %5
  %31 = load i64, ptr %3, align 8
  ret i64 %31
}

; Function Attrs: noinline nounwind
define internal void @look(ptr noundef %0, ptr noundef %1) #0 {
  %3 = alloca ptr, align 8
  %4 = alloca ptr, align 8
  store ptr %0, ptr %3, align 8
  store ptr %1, ptr %4, align 8
  %5 = load ptr, ptr %4, align 8
  %6 = load i16, ptr %5, align 2
  %7 = sext i16 %6 to i64
  %8 = load ptr, ptr %3, align 8
  %9 = getelementptr inbounds %struct.found, ptr %8, i32 0, i32 0
  %10 = load i64, ptr %9, align 8
  %11 = add nsw i64 %10, %7
  store i64 %11, ptr %9, align 8
  %12 = load ptr, ptr %4, align 8
  %13 = load i16, ptr %12, align 2
  %14 = sext i16 %13 to i32
  %15 = load ptr, ptr %4, align 8
  %16 = load i16, ptr %15, align 2
  %17 = sext i16 %16 to i32
  %18 = mul nsw i32 %14, %17
  %19 = sext i32 %18 to i64
  %20 = load ptr, ptr %3, align 8
  %21 = getelementptr inbounds %struct.found, ptr %20, i32 0, i32 1
  %22 = load i64, ptr %21, align 8
  %23 = add nsw i64 %22, %19
  store i64 %23, ptr %21, align 8
  %24 = load ptr, ptr %3, align 8
  %25 = getelementptr inbounds %struct.found, ptr %24, i32 0, i32 2
  %26 = load i64, ptr %25, align 8
  %27 = add nsw i64 %26, 1
  store i64 %27, ptr %25, align 8
  %28 = load ptr, ptr %4, align 8
  %29 = load i16, ptr %28, align 2
  %30 = sext i16 %29 to i32
  %31 = load ptr, ptr %3, align 8
  %32 = getelementptr inbounds %struct.found, ptr %31, i32 0, i32 3
  %33 = load i16, ptr %32, align 8
  %34 = sext i16 %33 to i32
  %35 = icmp sgt i32 %30, %34
  br i1 %35, label %36, label %41

36:                                               ; preds = %2
  %37 = load ptr, ptr %4, align 8
  %38 = load i16, ptr %37, align 2
  %39 = load ptr, ptr %3, align 8
  %40 = getelementptr inbounds %struct.found, ptr %39, i32 0, i32 3
  store i16 %38, ptr %40, align 8
  br label %41

41:                                               ; preds = %36, %2
  ret void
}

; Function Attrs: noinline nounwind
define internal void @join_up(ptr noundef %0) #0 {
  %2 = alloca ptr, align 8
  %3 = alloca i32, align 4
  %4 = alloca ptr, align 8
  store ptr %0, ptr %2, align 8
  store i32 0, ptr %3, align 4
  br label %5

5:                                                ; preds = %56, %1
  %6 = load i32, ptr %3, align 4
  %7 = icmp slt i32 %6, 4
  br i1 %7, label %8, label %59

8:                                                ; preds = %5
  %9 = load ptr, ptr %2, align 8
  %10 = getelementptr inbounds %struct.shared, ptr %9, i32 0, i32 4
  %11 = load i32, ptr %3, align 4
  %12 = sext i32 %11 to i64
  %13 = getelementptr inbounds [4 x %struct.found], ptr %10, i64 0, i64 %12
  store ptr %13, ptr %4, align 8
  %14 = load ptr, ptr %4, align 8
  %15 = getelementptr inbounds %struct.found, ptr %14, i32 0, i32 0
  %16 = load i64, ptr %15, align 8
  %17 = load ptr, ptr %2, align 8
  %18 = getelementptr inbounds %struct.shared, ptr %17, i32 0, i32 5
  %19 = getelementptr inbounds %struct.found, ptr %18, i32 0, i32 0
  %20 = load i64, ptr %19, align 8
  %21 = add nsw i64 %20, %16
  store i64 %21, ptr %19, align 8
  %22 = load ptr, ptr %4, align 8
  %23 = getelementptr inbounds %struct.found, ptr %22, i32 0, i32 1
  %24 = load i64, ptr %23, align 8
  %25 = load ptr, ptr %2, align 8
  %26 = getelementptr inbounds %struct.shared, ptr %25, i32 0, i32 5
  %27 = getelementptr inbounds %struct.found, ptr %26, i32 0, i32 1
  %28 = load i64, ptr %27, align 8
  %29 = add nsw i64 %28, %24
  store i64 %29, ptr %27, align 8
  %30 = load ptr, ptr %4, align 8
  %31 = getelementptr inbounds %struct.found, ptr %30, i32 0, i32 2
  %32 = load i64, ptr %31, align 8
  %33 = load ptr, ptr %2, align 8
  %34 = getelementptr inbounds %struct.shared, ptr %33, i32 0, i32 5
  %35 = getelementptr inbounds %struct.found, ptr %34, i32 0, i32 2
  %36 = load i64, ptr %35, align 8
  %37 = add nsw i64 %36, %32
  store i64 %37, ptr %35, align 8
  %38 = load ptr, ptr %4, align 8
  %39 = getelementptr inbounds %struct.found, ptr %38, i32 0, i32 3
  %40 = load i16, ptr %39, align 8
  %41 = sext i16 %40 to i32
  %42 = load ptr, ptr %2, align 8
  %43 = getelementptr inbounds %struct.shared, ptr %42, i32 0, i32 5
  %44 = getelementptr inbounds %struct.found, ptr %43, i32 0, i32 3
  %45 = load i16, ptr %44, align 8
  %46 = sext i16 %45 to i32
  %47 = icmp sgt i32 %41, %46
  br i1 %47, label %48, label %55

48:                                               ; preds = %8
  %49 = load ptr, ptr %4, align 8
  %50 = getelementptr inbounds %struct.found, ptr %49, i32 0, i32 3
  %51 = load i16, ptr %50, align 8
  %52 = load ptr, ptr %2, align 8
  %53 = getelementptr inbounds %struct.shared, ptr %52, i32 0, i32 5
  %54 = getelementptr inbounds %struct.found, ptr %53, i32 0, i32 3
  store i16 %51, ptr %54, align 8
  br label %55

55:                                               ; preds = %48, %8
  br label %56

56:                                               ; preds = %55
  %57 = load i32, ptr %3, align 4
  %58 = add nsw i32 %57, 1
  store i32 %58, ptr %3, align 4
  br label %5, !llvm.loop !11

59:                                               ; preds = %5
  ret void
}

attributes #0 = { noinline nounwind "frame-pointer"="all" "min-legal-vector-width"="0" "no-builtins" "no-trapping-math"="true" "stack-protector-buffer-size"="8" "target-cpu"="x86-64" "target-features"="+cx8,+fxsr,+mmx,+sse,+sse2,+x87" "tune-cpu"="generic" }
attributes #1 = { "frame-pointer"="all" "no-builtins" "no-trapping-math"="true" "stack-protector-buffer-size"="8" "target-cpu"="x86-64" "target-features"="+cx8,+fxsr,+mmx,+sse,+sse2,+x87" "tune-cpu"="generic" }
attributes #2 = { nobuiltin "no-builtins" }

!llvm.module.flags = !{!0, !1, !2, !3}
!llvm.ident = !{!4}

!0 = !{i32 1, !"wchar_size", i32 4}
!1 = !{i32 8, !"PIC Level", i32 2}
!2 = !{i32 7, !"PIE Level", i32 2}
!3 = !{i32 7, !"frame-pointer", i32 2}
!4 = !{!"Debian clang version 16.0.6 (15~deb12u1)"}
!5 = distinct !{!5, !6}
!6 = !{!"llvm.loop.mustprogress"}
!7 = distinct !{!7, !6}
!8 = distinct !{!8, !6}
!9 = distinct !{!9, !6}
!10 = distinct !{!10, !6}
!11 = distinct !{!11, !6}
