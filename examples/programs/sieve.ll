; ModuleID = 'sieve.c'
source_filename = "sieve.c"
target datalayout = "e-m:e-p270:32:32-p271:32:32-p272:64:64-i64:64-f80:128-n8:16:32:64-S128"
target triple = "x86_64-pc-linux-gnu"

%struct.shared = type { i8, i8, i16, i64 }

@shared = internal global %struct.shared zeroinitializer, align 8

; Function Attrs: noinline nounwind
define dso_local i32 @main() #0 {
  call void @run(ptr noundef @shared) #2
  ret i32 0
}

; Function Attrs: noinline nounwind
define internal void @run(ptr noundef %0) #0 {
  %2 = alloca ptr, align 8
  %3 = alloca [15 x i64], align 16
  %4 = alloca i64, align 8
  %5 = alloca i64, align 8
  %6 = alloca i32, align 4
  %7 = alloca i32, align 4
  %8 = alloca i32, align 4
  store ptr %0, ptr %2, align 8
  store i64 0, ptr %4, align 8
  store i64 0, ptr %5, align 8
  %9 = load ptr, ptr %2, align 8
  %10 = getelementptr inbounds %struct.shared, ptr %9, i32 0, i32 0
  store i8 2, ptr %10, align 8
  store i32 0, ptr %6, align 4
  br label %11

11:                                               ; preds = %20, %1
  %12 = load i32, ptr %6, align 4
  %13 = icmp slt i32 %12, 15
  br i1 %13, label %14, label %23

14:                                               ; preds = %11
  %15 = load i32, ptr %6, align 4
  %16 = sext i32 %15 to i64
  %17 = getelementptr inbounds [15 x i64], ptr %3, i64 0, i64 %16
  %18 = load ptr, ptr %2, align 8
  %19 = call i32 @pthread_create(ptr noundef %17, ptr noundef null, ptr noundef @work, ptr noundef %18) #2
  br label %20

20:                                               ; preds = %14
  %21 = load i32, ptr %6, align 4
  %22 = add nsw i32 %21, 1
  store i32 %22, ptr %6, align 4
  br label %11, !llvm.loop !5

23:                                               ; preds = %11
  store i32 0, ptr %7, align 4
  br label %24

24:                                               ; preds = %33, %23
  %25 = load i32, ptr %7, align 4
  %26 = icmp slt i32 %25, 15
  br i1 %26, label %27, label %36

27:                                               ; preds = %24
  %28 = load i32, ptr %7, align 4
  %29 = sext i32 %28 to i64
  %30 = getelementptr inbounds [15 x i64], ptr %3, i64 0, i64 %29
  %31 = load i64, ptr %30, align 8
  %32 = call i32 @pthread_join(i64 noundef %31, ptr noundef null) #2
  br label %33

33:                                               ; preds = %27
  %34 = load i32, ptr %7, align 4
  %35 = add nsw i32 %34, 1
  store i32 %35, ptr %7, align 4
  br label %24, !llvm.loop !7

36:                                               ; preds = %24
  store i32 1, ptr %8, align 4
  br label %37

37:                                               ; preds = %56, %36
  %38 = load i32, ptr %8, align 4
  %39 = icmp slt i32 %38, 65
  br i1 %39, label %40, label %59

40:                                               ; preds = %37
  %41 = load ptr, ptr %2, align 8
  %42 = getelementptr inbounds %struct.shared, ptr %41, i32 0, i32 3
  %43 = load i64, ptr %42, align 8
  %44 = load i32, ptr %8, align 4
  %45 = sub nsw i32 %44, 1
  %46 = zext i32 %45 to i64
  %47 = lshr i64 %43, %46
  %48 = and i64 %47, 1
  %49 = icmp ne i64 %48, 0
  br i1 %49, label %50, label %55

50:                                               ; preds = %40
  %51 = load i64, ptr %4, align 8
  %52 = add nsw i64 %51, 1
  store i64 %52, ptr %4, align 8
  %53 = load i32, ptr %8, align 4
  %54 = sext i32 %53 to i64
  store i64 %54, ptr %5, align 8
  br label %55

55:                                               ; preds = %50, %40
  br label %56

56:                                               ; preds = %55
  %57 = load i32, ptr %8, align 4
  %58 = add nsw i32 %57, 1
  store i32 %58, ptr %8, align 4
  br label %37, !llvm.loop !8

59:                                               ; preds = %37
  %60 = load i64, ptr %4, align 8
  call void @print_i64(i64 noundef %60) #2
  %61 = load ptr, ptr %2, align 8
  %62 = getelementptr inbounds %struct.shared, ptr %61, i32 0, i32 2
  %63 = load i16, ptr %62, align 2
  %64 = zext i16 %63 to i64
  call void @print_i64(i64 noundef %64) #2
  %65 = load i64, ptr %5, align 8
  call void @print_i64(i64 noundef %65) #2
  %66 = load ptr, ptr %2, align 8
  %67 = getelementptr inbounds %struct.shared, ptr %66, i32 0, i32 1
  %68 = load i8, ptr %67, align 1
  %69 = zext i8 %68 to i64
  call void @print_i64(i64 noundef %69) #2
  ret void
}

declare i32 @pthread_create(ptr noundef, ptr noundef, ptr noundef, ptr noundef) #1

; Function Attrs: noinline nounwind
define internal ptr @work(ptr noundef %0) #0 {
  %2 = alloca ptr, align 8
  %3 = alloca ptr, align 8
  %4 = alloca i8, align 1
  %5 = alloca i8, align 1
  %6 = alloca i8, align 1
  %7 = alloca i8, align 1
  %8 = alloca i8, align 1
  %9 = alloca i64, align 8
  %10 = alloca i64, align 8
  %11 = alloca i16, align 2
  %12 = alloca i16, align 2
  store ptr %0, ptr %2, align 8
  %13 = load ptr, ptr %2, align 8
  store ptr %13, ptr %3, align 8
  br label %14

14:                                               ; preds = %52, %1
  %15 = load ptr, ptr %3, align 8
  %16 = getelementptr inbounds %struct.shared, ptr %15, i32 0, i32 0
  store i8 1, ptr %5, align 1
  %17 = load i8, ptr %5, align 1
  %18 = atomicrmw add ptr %16, i8 %17 monotonic, align 1
  store i8 %18, ptr %6, align 1
  %19 = load i8, ptr %6, align 1
  store i8 %19, ptr %4, align 1
  %20 = load i8, ptr %4, align 1
  %21 = zext i8 %20 to i32
  %22 = icmp sge i32 %21, 65
  br i1 %22, label %23, label %24

23:                                               ; preds = %14
  ret ptr null

24:                                               ; preds = %14
  %25 = load ptr, ptr %3, align 8
  %26 = getelementptr inbounds %struct.shared, ptr %25, i32 0, i32 1
  store i8 1, ptr %7, align 1
  %27 = load i8, ptr %7, align 1
  %28 = atomicrmw add ptr %26, i8 %27 monotonic, align 1
  store i8 %28, ptr %8, align 1
  %29 = load i8, ptr %8, align 1
  %30 = load i8, ptr %4, align 1
  %31 = zext i8 %30 to i32
  %32 = call i32 @is_prime(i32 noundef %31) #2
  %33 = icmp ne i32 %32, 0
  br i1 %33, label %34, label %52

34:                                               ; preds = %24
  %35 = load ptr, ptr %3, align 8
  %36 = getelementptr inbounds %struct.shared, ptr %35, i32 0, i32 3
  %37 = load i8, ptr %4, align 1
  %38 = zext i8 %37 to i32
  %39 = sub nsw i32 %38, 1
  %40 = zext i32 %39 to i64
  %41 = shl i64 1, %40
  store i64 %41, ptr %9, align 8
  %42 = load i64, ptr %9, align 8
  %43 = atomicrmw or ptr %36, i64 %42 monotonic, align 8
  store i64 %43, ptr %10, align 8
  %44 = load i64, ptr %10, align 8
  %45 = load ptr, ptr %3, align 8
  %46 = getelementptr inbounds %struct.shared, ptr %45, i32 0, i32 2
  %47 = load i8, ptr %4, align 1
  %48 = zext i8 %47 to i16
  store i16 %48, ptr %11, align 2
  %49 = load i16, ptr %11, align 2
  %50 = atomicrmw add ptr %46, i16 %49 monotonic, align 2
  store i16 %50, ptr %12, align 2
  %51 = load i16, ptr %12, align 2
  br label %52

52:                                               ; preds = %34, %24
  br label %14
}

declare i32 @pthread_join(i64 noundef, ptr noundef) #1

declare void @print_i64(i64 noundef) #1

; Function Attrs: noinline nounwind
define internal i32 @is_prime(i32 noundef %0) #0 {
  %2 = alloca i32, align 4
  %3 = alloca i32, align 4
  %4 = alloca i32, align 4
  store i32 %0, ptr %3, align 4
  store i32 2, ptr %4, align 4
  br label %5

5:                                                ; preds = %18, %1
  %6 = load i32, ptr %4, align 4
  %7 = load i32, ptr %4, align 4
  %8 = mul nsw i32 %6, %7
  %9 = load i32, ptr %3, align 4
  %10 = icmp sle i32 %8, %9
  br i1 %10, label %11, label %21

11:                                               ; preds = %5
  %12 = load i32, ptr %3, align 4
  %13 = load i32, ptr %4, align 4
  %14 = srem i32 %12, %13
  %15 = icmp eq i32 %14, 0
  br i1 %15, label %16, label %17

16:                                               ; preds = %11
  store i32 0, ptr %2, align 4
  br label %22

17:                                               ; preds = %11
  br label %18

18:                                               ; preds = %17
  %19 = load i32, ptr %4, align 4
  %20 = add nsw i32 %19, 1
  store i32 %20, ptr %4, align 4
  br label %5, !llvm.loop !9

21:                                               ; preds = %5
  store i32 1, ptr %2, align 4
  br label %22

22:                                               ; preds = %21, %16
  %23 = load i32, ptr %2, align 4
  ret i32 %23
}

attributes #0 = { noinline nounwind "frame-pointer"="all" "min-legal-vector-width"="0" "no-builtins" "no-trapping-math"="true" "stack-protector-buffer-size"="8" "target-cpu"="x86-64" "target-features"="+cx8,+fxsr,+mmx,+sse,+sse2,+x87" "tune-cpu"="generic" }
attributes #1 = { "frame-pointer"="all" "no-builtins" "no-trapping-math"="true" "stack-protector-buffer-size"="8" "target-cpu"="x86-64" "target-features"="+cx8,+fxsr,+mmx,+sse,+sse2,+x87" "tune-cpu"="generic" }
attributes #2 = { nobuiltin "no-builtins" }

!llvm.module.flags = !{!0, !1, !2, !3}
!llvm.ident = !{!4}

!0 = !{i32 1, !"wchar_size", i32 4}
!1 = !{i32 8, !"PIC Level", i32 2}
!2 = !{i32 7, !"PIE Level", i32 2}
!3 = !{i32 7, !"frame-pointer", i32 2}
!4 = !{!"Debian clang version 16.0.6 (15~deb12u1)"}
!5 = distinct !{!5, !6}
!6 = !{!"llvm.loop.mustprogress"}
!7 = distinct !{!7, !6}
!8 = distinct !{!8, !6}
!9 = distinct !{!9, !6}
