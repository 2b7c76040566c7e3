; ModuleID = 'heap_table.c'
source_filename = "heap_table.c"
target datalayout = "e-m:e-p270:32:32-p271:32:32-p272:64:64-i64:64-f80:128-n8:16:32:64-S128"
target triple = "x86_64-pc-linux-gnu"

%struct.table = type { ptr, i64, i64, i64 }
%struct.entry = type { i64, i64, ptr }

@table = internal global %struct.table zeroinitializer, align 8

; Function Attrs: noinline nounwind
define dso_local i32 @main() #0 {
  call void @work(ptr noundef @table) #2
  ret i32 0
}

; Function Attrs: noinline nounwind
define internal void @work(ptr noundef %0) #0 {
  %2 = alloca ptr, align 8
  %3 = alloca i64, align 8
  %4 = alloca i64, align 8
  store ptr %0, ptr %2, align 8
  %5 = load ptr, ptr %2, align 8
  call void @start(ptr noundef %5) #2
  store i64 0, ptr %3, align 8
  br label %6

6:                                                ; preds = %15, %1
  %7 = load i64, ptr %3, align 8
  %8 = icmp slt i64 %7, 400
  br i1 %8, label %9, label %18

9:                                                ; preds = %6
  %10 = load ptr, ptr %2, align 8
  %11 = load i64, ptr %3, align 8
  %12 = load i64, ptr %3, align 8
  %13 = mul nsw i64 %11, %12
  %14 = srem i64 %13, 97
  call void @add(ptr noundef %10, i64 noundef %14) #2
  br label %15

15:                                               ; preds = %9
  %16 = load i64, ptr %3, align 8
  %17 = add nsw i64 %16, 1
  store i64 %17, ptr %3, align 8
  br label %6, !llvm.loop !5

18:                                               ; preds = %6
  %19 = load ptr, ptr %2, align 8
  %20 = getelementptr inbounds %struct.table, ptr %19, i32 0, i32 2
  %21 = load i64, ptr %20, align 8
  call void @print_i64(i64 noundef %21) #2
  %22 = load ptr, ptr %2, align 8
  %23 = getelementptr inbounds %struct.table, ptr %22, i32 0, i32 1
  %24 = load i64, ptr %23, align 8
  call void @print_i64(i64 noundef %24) #2
  %25 = load ptr, ptr %2, align 8
  %26 = call i64 @count(ptr noundef %25, i64 noundef 0) #2
  call void @print_i64(i64 noundef %26) #2
  %27 = load ptr, ptr %2, align 8
  %28 = call i64 @count(ptr noundef %27, i64 noundef 1) #2
  call void @print_i64(i64 noundef %28) #2
  %29 = load ptr, ptr %2, align 8
  %30 = call i64 @count(ptr noundef %29, i64 noundef 96) #2
  call void @print_i64(i64 noundef %30) #2
  %31 = load ptr, ptr %2, align 8
  %32 = call i64 @count(ptr noundef %31, i64 noundef 97) #2
  call void @print_i64(i64 noundef %32) #2
  %33 = load ptr, ptr %2, align 8
  %34 = call i64 @longest(ptr noundef %33) #2
  call void @print_i64(i64 noundef %34) #2
  store i64 0, ptr %4, align 8
  br label %35

35:                                               ; preds = %41, %18
  %36 = load i64, ptr %4, align 8
  %37 = icmp slt i64 %36, 20
  br i1 %37, label %38, label %44

38:                                               ; preds = %35
  %39 = load ptr, ptr %2, align 8
  %40 = load i64, ptr %4, align 8
  call void @take_out(ptr noundef %39, i64 noundef %40) #2
  br label %41

41:                                               ; preds = %38
  %42 = load i64, ptr %4, align 8
  %43 = add nsw i64 %42, 1
  store i64 %43, ptr %4, align 8
  br label %35, !llvm.loop !7

44:                                               ; preds = %35
  %45 = load ptr, ptr %2, align 8
  %46 = getelementptr inbounds %struct.table, ptr %45, i32 0, i32 2
  %47 = load i64, ptr %46, align 8
  call void @print_i64(i64 noundef %47) #2
  %48 = load ptr, ptr %2, align 8
  %49 = call i64 @sum(ptr noundef %48) #2
  call void @print_i64(i64 noundef %49) #2
  %50 = load ptr, ptr %2, align 8
  %51 = call i64 @count(ptr noundef %50, i64 noundef 0) #2
  call void @print_i64(i64 noundef %51) #2
  %52 = load ptr, ptr %2, align 8
  %53 = call i64 @count(ptr noundef %52, i64 noundef 96) #2
  call void @print_i64(i64 noundef %53) #2
  %54 = load ptr, ptr %2, align 8
  call void @stop(ptr noundef %54) #2
  %55 = load ptr, ptr %2, align 8
  %56 = getelementptr inbounds %struct.table, ptr %55, i32 0, i32 3
  %57 = load i64, ptr %56, align 8
  call void @print_i64(i64 noundef %57) #2
  ret void
}

; Function Attrs: noinline nounwind
define internal void @start(ptr noundef %0) #0 {
  %2 = alloca ptr, align 8
  store ptr %0, ptr %2, align 8
  %3 = load ptr, ptr %2, align 8
  %4 = getelementptr inbounds %struct.table, ptr %3, i32 0, i32 1
  store i64 8, ptr %4, align 8
  %5 = load ptr, ptr %2, align 8
  %6 = load ptr, ptr %2, align 8
  %7 = getelementptr inbounds %struct.table, ptr %6, i32 0, i32 1
  %8 = load i64, ptr %7, align 8
  %9 = call ptr @new_chains(ptr noundef %5, i64 noundef %8) #2
  %10 = load ptr, ptr %2, align 8
  %11 = getelementptr inbounds %struct.table, ptr %10, i32 0, i32 0
  store ptr %9, ptr %11, align 8
  ret void
}

; Function Attrs: noinline nounwind
define internal void @add(ptr noundef %0, i64 noundef %1) #0 {
  %3 = alloca ptr, align 8
  %4 = alloca i64, align 8
  %5 = alloca ptr, align 8
  %6 = alloca ptr, align 8
  store ptr %0, ptr %3, align 8
  store i64 %1, ptr %4, align 8
  %7 = load ptr, ptr %3, align 8
  %8 = load i64, ptr %4, align 8
  %9 = call ptr @find(ptr noundef %7, i64 noundef %8) #2
  store ptr %9, ptr %5, align 8
  %10 = load ptr, ptr %5, align 8
  %11 = icmp eq ptr %10, null
  br i1 %11, label %12, label %53

12:                                               ; preds = %2
  %13 = load ptr, ptr %3, align 8
  %14 = getelementptr inbounds %struct.table, ptr %13, i32 0, i32 2
  %15 = load i64, ptr %14, align 8
  %16 = load ptr, ptr %3, align 8
  %17 = getelementptr inbounds %struct.table, ptr %16, i32 0, i32 1
  %18 = load i64, ptr %17, align 8
  %19 = mul nsw i64 2, %18
  %20 = icmp sge i64 %15, %19
  br i1 %20, label %21, label %23

21:                                               ; preds = %12
  %22 = load ptr, ptr %3, align 8
  call void @grow(ptr noundef %22) #2
  br label %23

23:                                               ; preds = %21, %12
  %24 = load ptr, ptr %3, align 8
  %25 = getelementptr inbounds %struct.table, ptr %24, i32 0, i32 0
  %26 = load ptr, ptr %25, align 8
  %27 = load i64, ptr %4, align 8
  %28 = load ptr, ptr %3, align 8
  %29 = getelementptr inbounds %struct.table, ptr %28, i32 0, i32 1
  %30 = load i64, ptr %29, align 8
  %31 = call i64 @place(i64 noundef %27, i64 noundef %30) #2
  %32 = getelementptr inbounds ptr, ptr %26, i64 %31
  store ptr %32, ptr %6, align 8
  %33 = call ptr @malloc(i64 noundef 24) #2
  store ptr %33, ptr %5, align 8
  %34 = load i64, ptr %4, align 8
  %35 = load ptr, ptr %5, align 8
  %36 = getelementptr inbounds %struct.entry, ptr %35, i32 0, i32 0
  store i64 %34, ptr %36, align 8
  %37 = load ptr, ptr %5, align 8
  %38 = getelementptr inbounds %struct.entry, ptr %37, i32 0, i32 1
  store i64 0, ptr %38, align 8
  %39 = load ptr, ptr %6, align 8
  %40 = load ptr, ptr %39, align 8
  %41 = load ptr, ptr %5, align 8
  %42 = getelementptr inbounds %struct.entry, ptr %41, i32 0, i32 2
  store ptr %40, ptr %42, align 8
  %43 = load ptr, ptr %5, align 8
  %44 = load ptr, ptr %6, align 8
  store ptr %43, ptr %44, align 8
  %45 = load ptr, ptr %3, align 8
  %46 = getelementptr inbounds %struct.table, ptr %45, i32 0, i32 2
  %47 = load i64, ptr %46, align 8
  %48 = add nsw i64 %47, 1
  store i64 %48, ptr %46, align 8
  %49 = load ptr, ptr %3, align 8
  %50 = getelementptr inbounds %struct.table, ptr %49, i32 0, i32 3
  %51 = load i64, ptr %50, align 8
  %52 = add nsw i64 %51, 1
  store i64 %52, ptr %50, align 8
  br label %53

53:                                               ; preds = %23, %2
  %54 = load ptr, ptr %5, align 8
  %55 = getelementptr inbounds %struct.entry, ptr %54, i32 0, i32 1
  %56 = load i64, ptr %55, align 8
  %57 = add nsw i64 %56, 1
  store i64 %57, ptr %55, align 8
  ret void
}

declare void @print_i64(i64 noundef) #1

; Function Attrs: noinline nounwind
define internal i64 @count(ptr noundef %0, i64 noundef %1) #0 {
  %3 = alloca ptr, align 8
  %4 = alloca i64, align 8
  %5 = alloca ptr, align 8
  store ptr %0, ptr %3, align 8
  store i64 %1, ptr %4, align 8
  %6 = load ptr, ptr %3, align 8
  %7 = load i64, ptr %4, align 8
  %8 = call ptr @find(ptr noundef %6, i64 noundef %7) #2
  store ptr %8, ptr %5, align 8
  %9 = load ptr, ptr %5, align 8
  %10 = icmp eq ptr %9, null
  br i1 %10, label %11, label %12

11:                                               ; preds = %2
  br label %16

12:                                               ; preds = %2
  %13 = load ptr, ptr %5, align 8
  %14 = getelementptr inbounds %struct.entry, ptr %13, i32 0, i32 1
  %15 = load i64, ptr %14, align 8
  br label %16

16:                                               ; preds = %12, %11
  %17 = phi i64 [ 0, %11 ], [ %15, %12 ]
  ret i64 %17
}

; Function Attrs: noinline nounwind
define internal i64 @longest(ptr noundef %0) #0 {
  %2 = alloca ptr, align 8
  %3 = alloca i64, align 8
  %4 = alloca i64, align 8
  %5 = alloca i64, align 8
  %6 = alloca ptr, align 8
  store ptr %0, ptr %2, align 8
  store i64 0, ptr %3, align 8
  store i64 0, ptr %4, align 8
  br label %7

7:                                                ; preds = %37, %1
  %8 = load i64, ptr %4, align 8
  %9 = load ptr, ptr %2, align 8
  %10 = getelementptr inbounds %struct.table, ptr %9, i32 0, i32 1
  %11 = load i64, ptr %10, align 8
  %12 = icmp slt i64 %8, %11
  br i1 %12, label %13, label %40

13:                                               ; preds = %7
  store i64 0, ptr %5, align 8
  %14 = load ptr, ptr %2, align 8
  %15 = getelementptr inbounds %struct.table, ptr %14, i32 0, i32 0
  %16 = load ptr, ptr %15, align 8
  %17 = load i64, ptr %4, align 8
  %18 = getelementptr inbounds ptr, ptr %16, i64 %17
  %19 = load ptr, ptr %18, align 8
  store ptr %19, ptr %6, align 8
  br label %20

20:                                               ; preds = %26, %13
  %21 = load ptr, ptr %6, align 8
  %22 = icmp ne ptr %21, null
  br i1 %22, label %23, label %30

23:                                               ; preds = %20
  %24 = load i64, ptr %5, align 8
  %25 = add nsw i64 %24, 1
  store i64 %25, ptr %5, align 8
  br label %26

26:                                               ; preds = %23
  %27 = load ptr, ptr %6, align 8
  %28 = getelementptr inbounds %struct.entry, ptr %27, i32 0, i32 2
  %29 = load ptr, ptr %28, align 8
  store ptr %29, ptr %6, align 8
  br label %20, !llvm.loop !8

30:                                               ; preds = %20
  %31 = load i64, ptr %5, align 8
  %32 = load i64, ptr %3, align 8
  %33 = icmp sgt i64 %31, %32
  br i1 %33, label %34, label %36

34:                                               ; preds = %30
  %35 = load i64, ptr %5, align 8
  store i64 %35, ptr %3, align 8
  br label %36

36:                                               ; preds = %34, %30
  br label %37

37:                                               ; preds = %36
  %38 = load i64, ptr %4, align 8
  %39 = add nsw i64 %38, 1
  store i64 %39, ptr %4, align 8
  br label %7, !llvm.loop !9

40:                                               ; preds = %7
  %41 = load i64, ptr %3, align 8
  ret i64 %41
}

; Function Attrs: noinline nounwind
define internal void @take_out(ptr noundef %0, i64 noundef %1) #0 {
  %3 = alloca ptr, align 8
  %4 = alloca i64, align 8
  %5 = alloca ptr, align 8
  %6 = alloca ptr, align 8
  store ptr %0, ptr %3, align 8
  store i64 %1, ptr %4, align 8
  %7 = load ptr, ptr %3, align 8
  %8 = getelementptr inbounds %struct.table, ptr %7, i32 0, i32 0
  %9 = load ptr, ptr %8, align 8
  %10 = load i64, ptr %4, align 8
  %11 = load ptr, ptr %3, align 8
  %12 = getelementptr inbounds %struct.table, ptr %11, i32 0, i32 1
  %13 = load i64, ptr %12, align 8
  %14 = call i64 @place(i64 noundef %10, i64 noundef %13) #2
  %15 = getelementptr inbounds ptr, ptr %9, i64 %14
  store ptr %15, ptr %5, align 8
  br label %16

16:                                               ; preds = %29, %2
  %17 = load ptr, ptr %5, align 8
  %18 = load ptr, ptr %17, align 8
  %19 = icmp ne ptr %18, null
  br i1 %19, label %20, label %27

20:                                               ; preds = %16
  %21 = load ptr, ptr %5, align 8
  %22 = load ptr, ptr %21, align 8
  %23 = getelementptr inbounds %struct.entry, ptr %22, i32 0, i32 0
  %24 = load i64, ptr %23, align 8
  %25 = load i64, ptr %4, align 8
  %26 = icmp ne i64 %24, %25
  br label %27

27:                                               ; preds = %20, %16
  %28 = phi i1 [ false, %16 ], [ %26, %20 ]
  br i1 %28, label %29, label %33

29:                                               ; preds = %27
  %30 = load ptr, ptr %5, align 8
  %31 = load ptr, ptr %30, align 8
  %32 = getelementptr inbounds %struct.entry, ptr %31, i32 0, i32 2
  store ptr %32, ptr %5, align 8
  br label %16, !llvm.loop !10

33:                                               ; preds = %27
  %34 = load ptr, ptr %5, align 8
  %35 = load ptr, ptr %34, align 8
  %36 = icmp ne ptr %35, null
  br i1 %36, label %37, label %53

37:                                               ; preds = %33
  %38 = load ptr, ptr %5, align 8
  %39 = load ptr, ptr %38, align 8
  store ptr %39, ptr %6, align 8
  %40 = load ptr, ptr %6, align 8
  %41 = getelementptr inbounds %struct.entry, ptr %40, i32 0, i32 2
  %42 = load ptr, ptr %41, align 8
  %43 = load ptr, ptr %5, align 8
  store ptr %42, ptr %43, align 8
  %44 = load ptr, ptr %6, align 8
  call void @free(ptr noundef %44) #2
  %45 = load ptr, ptr %3, align 8
  %46 = getelementptr inbounds %struct.table, ptr %45, i32 0, i32 2
  %47 = load i64, ptr %46, align 8
  %48 = add nsw i64 %47, -1
  store i64 %48, ptr %46, align 8
  %49 = load ptr, ptr %3, align 8
  %50 = getelementptr inbounds %struct.table, ptr %49, i32 0, i32 3
  %51 = load i64, ptr %50, align 8
  %52 = add nsw i64 %51, -1
  store i64 %52, ptr %50, align 8
  br label %53

53:                                               ; preds = %37, %33
  ret void
}

; Function Attrs: noinline nounwind
define internal i64 @sum(ptr noundef %0) #0 {
  %2 = alloca ptr, align 8
  %3 = alloca i64, align 8
  %4 = alloca i64, align 8
  %5 = alloca ptr, align 8
  store ptr %0, ptr %2, align 8
  store i64 0, ptr %3, align 8
  store i64 0, ptr %4, align 8
  br label %6

6:                                                ; preds = %33, %1
  %7 = load i64, ptr %4, align 8
  %8 = load ptr, ptr %2, align 8
  %9 = getelementptr inbounds %struct.table, ptr %8, i32 0, i32 1
  %10 = load i64, ptr %9, align 8
  %11 = icmp slt i64 %7, %10
  br i1 %11, label %12, label %36

12:                                               ; preds = %6
  %13 = load ptr, ptr %2, align 8
  %14 = getelementptr inbounds %struct.table, ptr %13, i32 0, i32 0
  %15 = load ptr, ptr %14, align 8
  %16 = load i64, ptr %4, align 8
  %17 = getelementptr inbounds ptr, ptr %15, i64 %16
  %18 = load ptr, ptr %17, align 8
  store ptr %18, ptr %5, align 8
  br label %19

19:                                               ; preds = %28, %12
  %20 = load ptr, ptr %5, align 8
  %21 = icmp ne ptr %20, null
  br i1 %21, label %22, label %32

22:                                               ; preds = %19
  %23 = load ptr, ptr %5, align 8
  %24 = getelementptr inbounds %struct.entry, ptr %23, i32 0, i32 1
  %25 = load i64, ptr %24, align 8
  %26 = load i64, ptr %3, align 8
  %27 = add nsw i64 %26, %25
  store i64 %27, ptr %3, align 8
  br label %28

28:                                               ; preds = %22
  %29 = load ptr, ptr %5, align 8
  %30 = getelementptr inbounds %struct.entry, ptr %29, i32 0, i32 2
  %31 = load ptr, ptr %30, align 8
  store ptr %31, ptr %5, align 8
  br label %19, !llvm.loop !11

32:                                               ; preds = %19
  br label %33

33:                                               ; preds = %32
  %34 = load i64, ptr %4, align 8
  %35 = add nsw i64 %34, 1
  store i64 %35, ptr %4, align 8
  br label %6, !llvm.loop !12

36:                                               ; preds = %6
  %37 = load i64, ptr %3, align 8
  ret i64 %37
}

; Function Attrs: noinline nounwind
define internal void @stop(ptr noundef %0) #0 {
  %2 = alloca ptr, align 8
  %3 = alloca i64, align 8
  store ptr %0, ptr %2, align 8
  store i64 0, ptr %3, align 8
  br label %4

4:                                                ; preds = %30, %1
  %5 = load i64, ptr %3, align 8
  %6 = load ptr, ptr %2, align 8
  %7 = getelementptr inbounds %struct.table, ptr %6, i32 0, i32 1
  %8 = load i64, ptr %7, align 8
  %9 = icmp slt i64 %5, %8
  br i1 %9, label %10, label %33

10:                                               ; preds = %4
  br label %11

11:                                               ; preds = %19, %10
  %12 = load ptr, ptr %2, align 8
  %13 = getelementptr inbounds %struct.table, ptr %12, i32 0, i32 0
  %14 = load ptr, ptr %13, align 8
  %15 = load i64, ptr %3, align 8
  %16 = getelementptr inbounds ptr, ptr %14, i64 %15
  %17 = load ptr, ptr %16, align 8
  %18 = icmp ne ptr %17, null
  br i1 %18, label %19, label %29

19:                                               ; preds = %11
  %20 = load ptr, ptr %2, align 8
  %21 = load ptr, ptr %2, align 8
  %22 = getelementptr inbounds %struct.table, ptr %21, i32 0, i32 0
  %23 = load ptr, ptr %22, align 8
  %24 = load i64, ptr %3, align 8
  %25 = getelementptr inbounds ptr, ptr %23, i64 %24
  %26 = load ptr, ptr %25, align 8
  %27 = getelementptr inbounds %struct.entry, ptr %26, i32 0, i32 0
  %28 = load i64, ptr %27, align 8
  call void @take_out(ptr noundef %20, i64 noundef %28) #2
  br label %11, !llvm.loop !13

29:                                               ; preds = %11
  br label %30

30:                                               ; preds = %29
  %31 = load i64, ptr %3, align 8
  %32 = add nsw i64 %31, 1
  store i64 %32, ptr %3, align 8
  br label %4, !llvm.loop !14

33:                                               ; preds = %4
  %34 = load ptr, ptr %2, align 8
  %35 = getelementptr inbounds %struct.table, ptr %34, i32 0, i32 0
  %36 = load ptr, ptr %35, align 8
  call void @free(ptr noundef %36) #2
  %37 = load ptr, ptr %2, align 8
  %38 = getelementptr inbounds %struct.table, ptr %37, i32 0, i32 3
  %39 = load i64, ptr %38, align 8
  %40 = add nsw i64 %39, -1
  store i64 %40, ptr %38, align 8
  ret void
}

; Function Attrs: noinline nounwind
define internal ptr @new_chains(ptr noundef %0, i64 noundef %1) #0 {
  %3 = alloca ptr, align 8
  %4 = alloca i64, align 8
  %5 = alloca ptr, align 8
  %6 = alloca i64, align 8
  store ptr %0, ptr %3, align 8
  store i64 %1, ptr %4, align 8
  %7 = load i64, ptr %4, align 8
  %8 = mul i64 %7, 8
  %9 = call ptr @malloc(i64 noundef %8) #2
  store ptr %9, ptr %5, align 8
  store i64 0, ptr %6, align 8
  br label %10

10:                                               ; preds = %18, %2
  %11 = load i64, ptr %6, align 8
  %12 = load i64, ptr %4, align 8
  %13 = icmp slt i64 %11, %12
  br i1 %13, label %14, label %21

14:                                               ; preds = %10
  %15 = load ptr, ptr %5, align 8
  %16 = load i64, ptr %6, align 8
  %17 = getelementptr inbounds ptr, ptr %15, i64 %16
  store ptr null, ptr %17, align 8
  br label %18

18:                                               ; preds = %14
  %19 = load i64, ptr %6, align 8
  %20 = add nsw i64 %19, 1
  store i64 %20, ptr %6, align 8
  br label %10, !llvm.loop !15

21:                                               ; preds = %10
  %22 = load ptr, ptr %3, align 8
  %23 = getelementptr inbounds %struct.table, ptr %22, i32 0, i32 3
  %24 = load i64, ptr %23, align 8
  %25 = add nsw i64 %24, 1
  store i64 %25, ptr %23, align 8
  %26 = load ptr, ptr %5, align 8
  ret ptr %26
}

declare ptr @malloc(i64 noundef) #1

; Function Attrs: noinline nounwind
define internal ptr @find(ptr noundef %0, i64 noundef %1) #0 {
  %3 = alloca ptr, align 8
  %4 = alloca i64, align 8
  %5 = alloca ptr, align 8
  store ptr %0, ptr %3, align 8
  store i64 %1, ptr %4, align 8
  %6 = load ptr, ptr %3, align 8
  %7 = getelementptr inbounds %struct.table, ptr %6, i32 0, i32 0
  %8 = load ptr, ptr %7, align 8
  %9 = load i64, ptr %4, align 8
  %10 = load ptr, ptr %3, align 8
  %11 = getelementptr inbounds %struct.table, ptr %10, i32 0, i32 1
  %12 = load i64, ptr %11, align 8
  %13 = call i64 @place(i64 noundef %9, i64 noundef %12) #2
  %14 = getelementptr inbounds ptr, ptr %8, i64 %13
  %15 = load ptr, ptr %14, align 8
  store ptr %15, ptr %5, align 8
  br label %16

16:                                               ; preds = %27, %2
  %17 = load ptr, ptr %5, align 8
  %18 = icmp ne ptr %17, null
  br i1 %18, label %19, label %25

19:                                               ; preds = %16
  %20 = load ptr, ptr %5, align 8
  %21 = getelementptr inbounds %struct.entry, ptr %20, i32 0, i32 0
  %22 = load i64, ptr %21, align 8
  %23 = load i64, ptr %4, align 8
  %24 = icmp ne i64 %22, %23
  br label %25

25:                                               ; preds = %19, %16
  %26 = phi i1 [ false, %16 ], [ %24, %19 ]
  br i1 %26, label %27, label %31

27:                                               ; preds = %25
  %28 = load ptr, ptr %5, align 8
  %29 = getelementptr inbounds %struct.entry, ptr %28, i32 0, i32 2
  %30 = load ptr, ptr %29, align 8
  store ptr %30, ptr %5, align 8
  br label %16, !llvm.loop !16

31:                                               ; preds = %25
  %32 = load ptr, ptr %5, align 8
  ret ptr %32
}

; Function Attrs: noinline nounwind
define internal void @grow(ptr noundef %0) #0 {
  %2 = alloca ptr, align 8
  %3 = alloca i64, align 8
  %4 = alloca ptr, align 8
  %5 = alloca i64, align 8
  %6 = alloca ptr, align 8
  %7 = alloca ptr, align 8
  %8 = alloca ptr, align 8
  store ptr %0, ptr %2, align 8
  %9 = load ptr, ptr %2, align 8
  %10 = getelementptr inbounds %struct.table, ptr %9, i32 0, i32 1
  %11 = load i64, ptr %10, align 8
  %12 = mul nsw i64 %11, 2
  store i64 %12, ptr %3, align 8
  %13 = load ptr, ptr %2, align 8
  %14 = load i64, ptr %3, align 8
  %15 = call ptr @new_chains(ptr noundef %13, i64 noundef %14) #2
  store ptr %15, ptr %4, align 8
  store i64 0, ptr %5, align 8
  br label %16

16:                                               ; preds = %51, %1
  %17 = load i64, ptr %5, align 8
  %18 = load ptr, ptr %2, align 8
  %19 = getelementptr inbounds %struct.table, ptr %18, i32 0, i32 1
  %20 = load i64, ptr %19, align 8
  %21 = icmp slt i64 %17, %20
  br i1 %21, label %22, label %54

22:                                               ; preds = %16
  %23 = load ptr, ptr %2, align 8
  %24 = getelementptr inbounds %struct.table, ptr %23, i32 0, i32 0
  %25 = load ptr, ptr %24, align 8
  %26 = load i64, ptr %5, align 8
  %27 = getelementptr inbounds ptr, ptr %25, i64 %26
  %28 = load ptr, ptr %27, align 8
  store ptr %28, ptr %6, align 8
  br label %29

29:                                               ; preds = %32, %22
  %30 = load ptr, ptr %6, align 8
  %31 = icmp ne ptr %30, null
  br i1 %31, label %32, label %50

32:                                               ; preds = %29
  %33 = load ptr, ptr %6, align 8
  %34 = getelementptr inbounds %struct.entry, ptr %33, i32 0, i32 2
  %35 = load ptr, ptr %34, align 8
  store ptr %35, ptr %7, align 8
  %36 = load ptr, ptr %4, align 8
  %37 = load ptr, ptr %6, align 8
  %38 = getelementptr inbounds %struct.entry, ptr %37, i32 0, i32 0
  %39 = load i64, ptr %38, align 8
  %40 = load i64, ptr %3, align 8
  %41 = call i64 @place(i64 noundef %39, i64 noundef %40) #2
  %42 = getelementptr inbounds ptr, ptr %36, i64 %41
  store ptr %42, ptr %8, align 8
  %43 = load ptr, ptr %8, align 8
  %44 = load ptr, ptr %43, align 8
  %45 = load ptr, ptr %6, align 8
  %46 = getelementptr inbounds %struct.entry, ptr %45, i32 0, i32 2
  store ptr %44, ptr %46, align 8
  %47 = load ptr, ptr %6, align 8
  %48 = load ptr, ptr %8, align 8
  store ptr %47, ptr %48, align 8
  %49 = load ptr, ptr %7, align 8
  store ptr %49, ptr %6, align 8
  br label %29, !llvm.loop !17

50:                                               ; preds = %29
  br label %51

51:                                               ; preds = %50
  %52 = load i64, ptr %5, align 8
  %53 = add nsw i64 %52, 1
  store i64 %53, ptr %5, align 8
  br label %16, !llvm.loop !18

54:                                               ; preds = %16
  %55 = load ptr, ptr %2, align 8
  %56 = getelementptr inbounds %struct.table, ptr %55, i32 0, i32 0
  %57 = load ptr, ptr %56, align 8
  call void @free(ptr noundef %57) #2
  %58 = load ptr, ptr %2, align 8
  %59 = getelementptr inbounds %struct.table, ptr %58, i32 0, i32 3
  %60 = load i64, ptr %59, align 8
  %61 = add nsw i64 %60, -1
  store i64 %61, ptr %59, align 8
  %62 = load ptr, ptr %4, align 8
  %63 = load ptr, ptr %2, align 8
  %64 = getelementptr inbounds %struct.table, ptr %63, i32 0, i32 0
  store ptr %62, ptr %64, align 8
  %65 = load i64, ptr %3, align 8
  %66 = load ptr, ptr %2, align 8
  %67 = getelementptr inbounds %struct.table, ptr %66, i32 0, i32 1
  store i64 %65, ptr %67, align 8
  ret void
}

; Function Attrs: noinline nounwind
define internal i64 @place(i64 noundef %0, i64 noundef %1) #0 {
  %3 = alloca i64, align 8
  %4 = alloca i64, align 8
  store i64 %0, ptr %3, align 8
  store i64 %1, ptr %4, align 8
  %5 = load i64, ptr %3, align 8
  %6 = mul nsw i64 %5, 31
  %7 = add nsw i64 %6, 7
  %8 = load i64, ptr %4, align 8
  %9 = srem i64 %7, %8
  ret i64 %9
}

declare void @free(ptr noundef) #1

attributes #0 = { noinline nounwind "frame-pointer"="all" "min-legal-vector-width"="0" "no-builtins" "no-trapping-math"="true" "stack-protector-buffer-size"="8" "target-cpu"="x86-64" "target-features"="+cx8,+fxsr,+mmx,+sse,+sse2,+x87" "tune-cpu"="generic" }
attributes #1 = { "frame-pointer"="all" "no-builtins" "no-trapping-math"="true" "stack-protector-buffer-size"="8" "target-cpu"="x86-64" "target-features"="+cx8,+fxsr,+mmx,+sse,+sse2,+x87" "tune-cpu"="generic" }
attributes #2 = { nobuiltin "no-builtins" }

!llvm.module.flags = !{!0, !1, !2, !3}
!llvm.ident = !{!4}

!0 = !{i32 1, !"wchar_size", i32 4}
!1 = !{i32 8, !"PIC Level", i32 2}
!2 = !{i32 7, !"PIE Level", i32 2}
!3 = !{i32 7, !"frame-pointer", i32 2}
!4 = !{!"Debian clang version 16.0.6 (15~deb12u1)"}
!5 = distinct !{!5, !6}
!6 = !{!"llvm.loop.mustprogress"}
!7 = distinct !{!7, !6}
!8 = distinct !{!8, !6}
!9 = distinct !{!9, !6}
!10 = distinct !{!10, !6}
!11 = distinct !{!11, !6}
!12 = distinct !{!12, !6}
!13 = distinct !{!13, !6}
!14 = distinct !{!14, !6}
!15 = distinct !{!15, !6}
!16 = distinct !{!16, !6}
!17 = distinct !{!17, !6}
!18 = distinct !{!18, !6}
