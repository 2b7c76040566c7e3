; ModuleID = 'tables.c'
source_filename = "tables.c"
target datalayout = "e-m:e-p270:32:32-p271:32:32-p272:64:64-i64:64-f80:128-n8:16:32:64-S128"
target triple = "x86_64-pc-linux-gnu"

%struct.pair = type { i8, i32 }

@pairs = dso_local constant [3 x %struct.pair] [%struct.pair { i8 97, i32 1 }, %struct.pair { i8 98, i32 -2 }, %struct.pair { i8 -23, i32 300 }], align 16
@greeting = dso_local global [10 x i8] c"good day\0A\00", align 1
@primes = internal global [8 x i32] [i32 2, i32 3, i32 5, i32 7, i32 0, i32 0, i32 0, i32 0], align 16
@chosen = dso_local global ptr @primes, align 8
@flags = dso_local global i8 0, align 1

; Function Attrs: noinline nounwind uwtable
define dso_local i32 @main() #0 {
  %1 = alloca i32, align 4
  %2 = alloca i32, align 4
  %3 = alloca i32, align 4
  store i32 0, ptr %1, align 4
  store i32 0, ptr %2, align 4
  store i32 0, ptr %3, align 4
  br label %4

4:                                                ; preds = %26, %0
  %5 = load i32, ptr %3, align 4
  %6 = sext i32 %5 to i64
  %7 = getelementptr inbounds [10 x i8], ptr @greeting, i64 0, i64 %6
  %8 = load i8, ptr %7, align 1
  %9 = sext i8 %8 to i32
  %10 = icmp ne i32 %9, 0
  br i1 %10, label %11, label %29

11:                                               ; preds = %4
  %12 = load i32, ptr %3, align 4
  %13 = sext i32 %12 to i64
  %14 = getelementptr inbounds [10 x i8], ptr @greeting, i64 0, i64 %13
  %15 = load i8, ptr %14, align 1
  %16 = call i32 @weight_of(i8 noundef signext %15)
  %17 = load i32, ptr %3, align 4
  %18 = sext i32 %17 to i64
  %19 = getelementptr inbounds [10 x i8], ptr @greeting, i64 0, i64 %18
  %20 = load i8, ptr %19, align 1
  %21 = sext i8 %20 to i32
  %22 = shl i32 %21, 1
  %23 = xor i32 %16, %22
  %24 = load i32, ptr %2, align 4
  %25 = add nsw i32 %24, %23
  store i32 %25, ptr %2, align 4
  br label %26

26:                                               ; preds = %11
  %27 = load i32, ptr %3, align 4
  %28 = add nsw i32 %27, 1
  store i32 %28, ptr %3, align 4
  br label %4, !llvm.loop !6

29:                                               ; preds = %4
  %30 = load i32, ptr %2, align 4
  %31 = icmp sgt i32 %30, 100
  br i1 %31, label %32, label %36

32:                                               ; preds = %29
  %33 = load i32, ptr %2, align 4
  %34 = srem i32 %33, 3
  %35 = icmp ne i32 %34, 0
  br label %36

36:                                               ; preds = %32, %29
  %37 = phi i1 [ false, %29 ], [ %35, %32 ]
  %38 = zext i1 %37 to i32
  %39 = trunc i32 %38 to i8
  store i8 %39, ptr @flags, align 1
  %40 = load i8, ptr @flags, align 1
  %41 = zext i8 %40 to i32
  %42 = icmp ne i32 %41, 0
  br i1 %42, label %43, label %45

43:                                               ; preds = %36
  %44 = load i32, ptr %2, align 4
  br label %49

45:                                               ; preds = %36
  %46 = load i32, ptr %2, align 4
  %47 = sub nsw i32 0, %46
  %48 = sdiv i32 %47, 2
  br label %49

49:                                               ; preds = %45, %43
  %50 = phi i32 [ %44, %43 ], [ %48, %45 ]
  %51 = sext i32 %50 to i64
  call void @print_i64(i64 noundef %51)
  %52 = load ptr, ptr @chosen, align 8
  %53 = getelementptr inbounds i32, ptr %52, i64 3
  %54 = load i32, ptr %53, align 4
  %55 = sext i32 %54 to i64
  call void @print_i64(i64 noundef %55)
  ret i32 0
}

; Function Attrs: noinline nounwind uwtable
define internal i32 @weight_of(i8 noundef signext %0) #0 {
  %2 = alloca i32, align 4
  %3 = alloca i8, align 1
  %4 = alloca i32, align 4
  store i8 %0, ptr %3, align 1
  store i32 0, ptr %4, align 4
  br label %5

5:                                                ; preds = %25, %1
  %6 = load i32, ptr %4, align 4
  %7 = icmp slt i32 %6, 3
  br i1 %7, label %8, label %28

8:                                                ; preds = %5
  %9 = load i32, ptr %4, align 4
  %10 = sext i32 %9 to i64
  %11 = getelementptr inbounds [3 x %struct.pair], ptr @pairs, i64 0, i64 %10
  %12 = getelementptr inbounds %struct.pair, ptr %11, i32 0, i32 0
  %13 = load i8, ptr %12, align 8
  %14 = sext i8 %13 to i32
  %15 = load i8, ptr %3, align 1
  %16 = sext i8 %15 to i32
  %17 = icmp eq i32 %14, %16
  br i1 %17, label %18, label %24

18:                                               ; preds = %8
  %19 = load i32, ptr %4, align 4
  %20 = sext i32 %19 to i64
  %21 = getelementptr inbounds [3 x %struct.pair], ptr @pairs, i64 0, i64 %20
  %22 = getelementptr inbounds %struct.pair, ptr %21, i32 0, i32 1
  %23 = load i32, ptr %22, align 4
  store i32 %23, ptr %2, align 4
  br label %39

24:                                               ; preds = %8
  br label %25

25:                                               ; preds = %24
  %26 = load i32, ptr %4, align 4
  %27 = add nsw i32 %26, 1
  store i32 %27, ptr %4, align 4
  br label %5, !llvm.loop !8

28:                                               ; preds = %5
  %29 = load i8, ptr %3, align 1
  %30 = sext i8 %29 to i32
  switch i32 %30, label %33 [
    i32 32, label %31
    i32 10, label %32
  ]

31:                                               ; preds = %28
  store i32 10, ptr %2, align 4
  br label %39

32:                                               ; preds = %28
  store i32 -10, ptr %2, align 4
  br label %39

33:                                               ; preds = %28
  %34 = load i8, ptr %3, align 1
  %35 = sext i8 %34 to i32
  %36 = icmp slt i32 %35, 0
  %37 = zext i1 %36 to i64
  %38 = select i1 %36, i32 1, i32 0
  store i32 %38, ptr %2, align 4
  br label %39

39:                                               ; preds = %33, %32, %31, %18
  %40 = load i32, ptr %2, align 4
  ret i32 %40
}

declare void @print_i64(i64 noundef) #1

attributes #0 = { noinline nounwind uwtable "frame-pointer"="all" "min-legal-vector-width"="0" "no-trapping-math"="true" "stack-protector-buffer-size"="8" "target-cpu"="x86-64" "target-features"="+cx8,+fxsr,+mmx,+sse,+sse2,+x87" "tune-cpu"="generic" }
attributes #1 = { "frame-pointer"="all" "no-trapping-math"="true" "stack-protector-buffer-size"="8" "target-cpu"="x86-64" "target-features"="+cx8,+fxsr,+mmx,+sse,+sse2,+x87" "tune-cpu"="generic" }

!llvm.module.flags = !{!0, !1, !2, !3, !4}
!llvm.ident = !{!5}

!0 = !{i32 1, !"wchar_size", i32 4}
!1 = !{i32 8, !"PIC Level", i32 2}
!2 = !{i32 7, !"PIE Level", i32 2}
!3 = !{i32 7, !"uwtable", i32 2}
!4 = !{i32 7, !"frame-pointer", i32 2}
!5 = !{!"Debian clang version 16.0.6 (15~deb12u1)"}
!6 = distinct !{!6, !7}
!7 = !{!"llvm.loop.mustprogress"}
!8 = distinct !{!8, !7}
