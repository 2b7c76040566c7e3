; ModuleID = 'hash.c'
source_filename = "hash.c"
target datalayout = "e-m:e-p270:32:32-p271:32:32-p272:64:64-i64:64-f80:128-n8:16:32:64-S128"
target triple = "x86_64-pc-linux-gnu"

%struct.table = type { [32 x ptr], i64, [128 x %struct.entry] }
%struct.entry = type { i64, i64, ptr }

@table = internal global %struct.table zeroinitializer, align 8

; Function Attrs: noinline nounwind
define dso_local i32 @main() #0 {
  %1 = alloca i64, align 8
  store i64 0, ptr %1, align 8
  br label %2

2:                                                ; preds = %11, %0
  %3 = load i64, ptr %1, align 8
  %4 = icmp slt i64 %3, 300
  br i1 %4, label %5, label %14

5:                                                ; preds = %2
  %6 = load i64, ptr %1, align 8
  %7 = load i64, ptr %1, align 8
  %8 = mul nsw i64 %6, %7
  %9 = srem i64 %8, 97
  %10 = sub nsw i64 %9, 20
  call void @count(ptr noundef @table, i64 noundef %10) #2
  br label %11

11:                                               ; preds = %5
  %12 = load i64, ptr %1, align 8
  %13 = add nsw i64 %12, 1
  store i64 %13, ptr %1, align 8
  br label %2, !llvm.loop !5

14:                                               ; preds = %2
  call void @show(ptr noundef @table) #2
  ret i32 0
}

; Function Attrs: noinline nounwind
define internal void @count(ptr noundef %0, i64 noundef %1) #0 {
  %3 = alloca ptr, align 8
  %4 = alloca i64, align 8
  %5 = alloca ptr, align 8
  store ptr %0, ptr %3, align 8
  store i64 %1, ptr %4, align 8
  %6 = load ptr, ptr %3, align 8
  %7 = load i64, ptr %4, align 8
  %8 = call ptr @find(ptr noundef %6, i64 noundef %7) #2
  store ptr %8, ptr %5, align 8
  %9 = load ptr, ptr %5, align 8
  %10 = icmp eq ptr %9, null
  br i1 %10, label %11, label %41

11:                                               ; preds = %2
  %12 = load ptr, ptr %3, align 8
  %13 = getelementptr inbounds %struct.table, ptr %12, i32 0, i32 2
  %14 = load ptr, ptr %3, align 8
  %15 = getelementptr inbounds %struct.table, ptr %14, i32 0, i32 1
  %16 = load i64, ptr %15, align 8
  %17 = getelementptr inbounds [128 x %struct.entry], ptr %13, i64 0, i64 %16
  store ptr %17, ptr %5, align 8
  %18 = load ptr, ptr %3, align 8
  %19 = getelementptr inbounds %struct.table, ptr %18, i32 0, i32 1
  %20 = load i64, ptr %19, align 8
  %21 = add nsw i64 %20, 1
  store i64 %21, ptr %19, align 8
  %22 = load i64, ptr %4, align 8
  %23 = load ptr, ptr %5, align 8
  %24 = getelementptr inbounds %struct.entry, ptr %23, i32 0, i32 0
  store i64 %22, ptr %24, align 8
  %25 = load ptr, ptr %5, align 8
  %26 = getelementptr inbounds %struct.entry, ptr %25, i32 0, i32 1
  store i64 0, ptr %26, align 8
  %27 = load ptr, ptr %3, align 8
  %28 = getelementptr inbounds %struct.table, ptr %27, i32 0, i32 0
  %29 = load i64, ptr %4, align 8
  %30 = call i64 @hash(i64 noundef %29) #2
  %31 = getelementptr inbounds [32 x ptr], ptr %28, i64 0, i64 %30
  %32 = load ptr, ptr %31, align 8
  %33 = load ptr, ptr %5, align 8
  %34 = getelementptr inbounds %struct.entry, ptr %33, i32 0, i32 2
  store ptr %32, ptr %34, align 8
  %35 = load ptr, ptr %5, align 8
  %36 = load ptr, ptr %3, align 8
  %37 = getelementptr inbounds %struct.table, ptr %36, i32 0, i32 0
  %38 = load i64, ptr %4, align 8
  %39 = call i64 @hash(i64 noundef %38) #2
  %40 = getelementptr inbounds [32 x ptr], ptr %37, i64 0, i64 %39
  store ptr %35, ptr %40, align 8
  br label %41

41:                                               ; preds = %11, %2
  %42 = load ptr, ptr %5, align 8
  %43 = getelementptr inbounds %struct.entry, ptr %42, i32 0, i32 1
  %44 = load i64, ptr %43, align 8
  %45 = add nsw i64 %44, 1
  store i64 %45, ptr %43, align 8
  ret void
}

; Function Attrs: noinline nounwind
define internal void @show(ptr noundef %0) #0 {
  %2 = alloca ptr, align 8
  store ptr %0, ptr %2, align 8
  %3 = load ptr, ptr %2, align 8
  %4 = getelementptr inbounds %struct.table, ptr %3, i32 0, i32 1
  %5 = load i64, ptr %4, align 8
  call void @print_i64(i64 noundef %5) #2
  %6 = load ptr, ptr %2, align 8
  %7 = call i64 @count_of(ptr noundef %6, i64 noundef 0) #2
  call void @print_i64(i64 noundef %7) #2
  %8 = load ptr, ptr %2, align 8
  %9 = call i64 @count_of(ptr noundef %8, i64 noundef -16) #2
  call void @print_i64(i64 noundef %9) #2
  %10 = load ptr, ptr %2, align 8
  %11 = call i64 @count_of(ptr noundef %10, i64 noundef 1000) #2
  call void @print_i64(i64 noundef %11) #2
  %12 = load ptr, ptr %2, align 8
  %13 = call i64 @longest(ptr noundef %12) #2
  call void @print_i64(i64 noundef %13) #2
  %14 = load ptr, ptr %2, align 8
  %15 = call i64 @mixed(ptr noundef %14) #2
  call void @print_i64(i64 noundef %15) #2
  ret void
}

; Function Attrs: noinline nounwind
define internal ptr @find(ptr noundef %0, i64 noundef %1) #0 {
  %3 = alloca ptr, align 8
  %4 = alloca i64, align 8
  %5 = alloca ptr, align 8
  store ptr %0, ptr %3, align 8
  store i64 %1, ptr %4, align 8
  %6 = load ptr, ptr %3, align 8
  %7 = getelementptr inbounds %struct.table, ptr %6, i32 0, i32 0
  %8 = load i64, ptr %4, align 8
  %9 = call i64 @hash(i64 noundef %8) #2
  %10 = getelementptr inbounds [32 x ptr], ptr %7, i64 0, i64 %9
  %11 = load ptr, ptr %10, align 8
  store ptr %11, ptr %5, align 8
  br label %12

12:                                               ; preds = %23, %2
  %13 = load ptr, ptr %5, align 8
  %14 = icmp ne ptr %13, null
  br i1 %14, label %15, label %21

15:                                               ; preds = %12
  %16 = load ptr, ptr %5, align 8
  %17 = getelementptr inbounds %struct.entry, ptr %16, i32 0, i32 0
  %18 = load i64, ptr %17, align 8
  %19 = load i64, ptr %4, align 8
  %20 = icmp ne i64 %18, %19
  br label %21

21:                                               ; preds = %15, %12
  %22 = phi i1 [ false, %12 ], [ %20, %15 ]
  br i1 %22, label %23, label %27

23:                                               ; preds = %21
  %24 = load ptr, ptr %5, align 8
  %25 = getelementptr inbounds %struct.entry, ptr %24, i32 0, i32 2
  %26 = load ptr, ptr %25, align 8
  store ptr %26, ptr %5, align 8
  br label %12, !llvm.loop !7

27:                                               ; preds = %21
  %28 = load ptr, ptr %5, align 8
  ret ptr %28
}

; Function Attrs: noinline nounwind
define internal i64 @hash(i64 noundef %0) #0 {
  %2 = alloca i64, align 8
  %3 = alloca i64, align 8
  store i64 %0, ptr %2, align 8
  %4 = load i64, ptr %2, align 8
  %5 = mul i64 %4, -7046029254386353131
  store i64 %5, ptr %3, align 8
  %6 = load i64, ptr %3, align 8
  %7 = lshr i64 %6, 29
  %8 = load i64, ptr %3, align 8
  %9 = xor i64 %8, %7
  store i64 %9, ptr %3, align 8
  %10 = load i64, ptr %3, align 8
  %11 = mul i64 %10, -4658895280553007687
  store i64 %11, ptr %3, align 8
  %12 = load i64, ptr %3, align 8
  %13 = lshr i64 %12, 59
  ret i64 %13
}

declare void @print_i64(i64 noundef) #1

; Function Attrs: noinline nounwind
define internal i64 @count_of(ptr noundef %0, i64 noundef %1) #0 {
  %3 = alloca ptr, align 8
  %4 = alloca i64, align 8
  %5 = alloca ptr, align 8
  store ptr %0, ptr %3, align 8
  store i64 %1, ptr %4, align 8
  %6 = load ptr, ptr %3, align 8
  %7 = load i64, ptr %4, align 8
  %8 = call ptr @find(ptr noundef %6, i64 noundef %7) #2
  store ptr %8, ptr %5, align 8
  %9 = load ptr, ptr %5, align 8
  %10 = icmp eq ptr %9, null
  br i1 %10, label %11, label %12

11:                                               ; preds = %2
  br label %16

12:                                               ; preds = %2
  %13 = load ptr, ptr %5, align 8
  %14 = getelementptr inbounds %struct.entry, ptr %13, i32 0, i32 1
  %15 = load i64, ptr %14, align 8
  br label %16

16:                                               ; preds = %12, %11
  %17 = phi i64 [ 0, %11 ], [ %15, %12 ]
  ret i64 %17
}

; Function Attrs: noinline nounwind
define internal i64 @longest(ptr noundef %0) #0 {
  %2 = alloca ptr, align 8
  %3 = alloca i64, align 8
  %4 = alloca i64, align 8
  %5 = alloca i64, align 8
  %6 = alloca ptr, align 8
  store ptr %0, ptr %2, align 8
  store i64 0, ptr %3, align 8
  store i64 0, ptr %4, align 8
  br label %7

7:                                                ; preds = %33, %1
  %8 = load i64, ptr %4, align 8
  %9 = icmp slt i64 %8, 32
  br i1 %9, label %10, label %36

10:                                               ; preds = %7
  store i64 0, ptr %5, align 8
  %11 = load ptr, ptr %2, align 8
  %12 = getelementptr inbounds %struct.table, ptr %11, i32 0, i32 0
  %13 = load i64, ptr %4, align 8
  %14 = getelementptr inbounds [32 x ptr], ptr %12, i64 0, i64 %13
  %15 = load ptr, ptr %14, align 8
  store ptr %15, ptr %6, align 8
  br label %16

16:                                               ; preds = %22, %10
  %17 = load ptr, ptr %6, align 8
  %18 = icmp ne ptr %17, null
  br i1 %18, label %19, label %26

19:                                               ; preds = %16
  %20 = load i64, ptr %5, align 8
  %21 = add nsw i64 %20, 1
  store i64 %21, ptr %5, align 8
  br label %22

22:                                               ; preds = %19
  %23 = load ptr, ptr %6, align 8
  %24 = getelementptr inbounds %struct.entry, ptr %23, i32 0, i32 2
  %25 = load ptr, ptr %24, align 8
  store ptr %25, ptr %6, align 8
  br label %16, !llvm.loop !8

26:                                               ; preds = %16
  %27 = load i64, ptr %5, align 8
  %28 = load i64, ptr %3, align 8
  %29 = icmp sgt i64 %27, %28
  br i1 %29, label %30, label %32

30:                                               ; preds = %26
  %31 = load i64, ptr %5, align 8
  store i64 %31, ptr %3, align 8
  br label %32

32:                                               ; preds = %30, %26
  br label %33

33:                                               ; preds = %32
  %34 = load i64, ptr %4, align 8
  %35 = add nsw i64 %34, 1
  store i64 %35, ptr %4, align 8
  br label %7, !llvm.loop !9

36:                                               ; preds = %7
  %37 = load i64, ptr %3, align 8
  ret i64 %37
}

; Function Attrs: noinline nounwind
define internal i64 @mixed(ptr noundef %0) #0 {
  %2 = alloca ptr, align 8
  %3 = alloca i64, align 8
  %4 = alloca i64, align 8
  store ptr %0, ptr %2, align 8
  store i64 -3750763034362895579, ptr %3, align 8
  store i64 0, ptr %4, align 8
  br label %5

5:                                                ; preds = %30, %1
  %6 = load i64, ptr %4, align 8
  %7 = load ptr, ptr %2, align 8
  %8 = getelementptr inbounds %struct.table, ptr %7, i32 0, i32 1
  %9 = load i64, ptr %8, align 8
  %10 = icmp slt i64 %6, %9
  br i1 %10, label %11, label %33

11:                                               ; preds = %5
  %12 = load i64, ptr %3, align 8
  %13 = load ptr, ptr %2, align 8
  %14 = getelementptr inbounds %struct.table, ptr %13, i32 0, i32 2
  %15 = load i64, ptr %4, align 8
  %16 = getelementptr inbounds [128 x %struct.entry], ptr %14, i64 0, i64 %15
  %17 = getelementptr inbounds %struct.entry, ptr %16, i32 0, i32 0
  %18 = load i64, ptr %17, align 8
  %19 = xor i64 %12, %18
  %20 = mul i64 %19, 1099511628211
  store i64 %20, ptr %3, align 8
  %21 = load i64, ptr %3, align 8
  %22 = load ptr, ptr %2, align 8
  %23 = getelementptr inbounds %struct.table, ptr %22, i32 0, i32 2
  %24 = load i64, ptr %4, align 8
  %25 = getelementptr inbounds [128 x %struct.entry], ptr %23, i64 0, i64 %24
  %26 = getelementptr inbounds %struct.entry, ptr %25, i32 0, i32 1
  %27 = load i64, ptr %26, align 8
  %28 = xor i64 %21, %27
  %29 = mul i64 %28, 1099511628211
  store i64 %29, ptr %3, align 8
  br label %30

30:                                               ; preds = %11
  %31 = load i64, ptr %4, align 8
  %32 = add nsw i64 %31, 1
  store i64 %32, ptr %4, align 8
  br label %5, !llvm.loop !10

33:                                               ; preds = %5
  %34 = load i64, ptr %3, align 8
  ret i64 %34
}

attributes #0 = { noinline nounwind "frame-pointer"="all" "min-legal-vector-width"="0" "no-builtins" "no-trapping-math"="true" "stack-protector-buffer-size"="8" "target-cpu"="x86-64" "target-features"="+cx8,+fxsr,+mmx,+sse,+sse2,+x87" "tune-cpu"="generic" }
attributes #1 = { "frame-pointer"="all" "no-builtins" "no-trapping-math"="true" "stack-protector-buffer-size"="8" "target-cpu"="x86-64" "target-features"="+cx8,+fxsr,+mmx,+sse,+sse2,+x87" "tune-cpu"="generic" }
attributes #2 = { nobuiltin "no-builtins" }

!llvm.module.flags = !{!0, !1, !2, !3}
!llvm.ident = !{!4}

!0 = !{i32 1, !"wchar_size", i32 4}
!1 = !{i32 8, !"PIC Level", i32 2}
!2 = !{i32 7, !"PIE Level", i32 2}
!3 = !{i32 7, !"frame-pointer", i32 2}
!4 = !{!"Debian clang version 16.0.6 (15~deb12u1)"}
!5 = distinct !{!5, !6}
!6 = !{!"llvm.loop.mustprogress"}
!7 = distinct !{!7, !6}
!8 = distinct !{!8, !6}
!9 = distinct !{!9, !6}
!10 = distinct !{!10, !6}
