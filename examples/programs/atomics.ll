; ModuleID = 'atomics.c'
source_filename = "atomics.c"
target datalayout = "e-m:e-p270:32:32-p271:32:32-p272:64:64-i64:64-f80:128-n8:16:32:64-S128"
target triple = "x86_64-pc-linux-gnu"

%struct.shared = type { i8, i8, i16, i16, i8, i32, [8 x i8], [4 x i8], i16, i16, i32, i64, ptr }

@shared = internal global %struct.shared zeroinitializer, align 8
@numbers = internal global [10 x i32] [i32 3, i32 -8, i32 40, i32 39, i32 57, i32 57, i32 -1, i32 90, i32 91, i32 12], align 16
@values = internal global [2 x i64] [i64 7, i64 8], align 16

; Function Attrs: noinline nounwind
define dso_local i32 @main() #0 {
  call void @work(ptr noundef @shared, ptr noundef @numbers, ptr noundef @values) #2
  ret i32 0
}

; Function Attrs: noinline nounwind
define internal void @work(ptr noundef %0, ptr noundef %1, ptr noundef %2) #0 {
  %4 = alloca ptr, align 8
  %5 = alloca ptr, align 8
  %6 = alloca ptr, align 8
  store ptr %0, ptr %4, align 8
  store ptr %1, ptr %5, align 8
  store ptr %2, ptr %6, align 8
  %7 = load ptr, ptr %4, align 8
  %8 = getelementptr inbounds %struct.shared, ptr %7, i32 0, i32 0
  call void @locks(ptr noundef %8) #2
  %9 = load ptr, ptr %4, align 8
  %10 = getelementptr inbounds %struct.shared, ptr %9, i32 0, i32 2
  %11 = load ptr, ptr %4, align 8
  %12 = getelementptr inbounds %struct.shared, ptr %11, i32 0, i32 3
  call void @tickets(ptr noundef %10, ptr noundef %12) #2
  %13 = load ptr, ptr %4, align 8
  %14 = getelementptr inbounds %struct.shared, ptr %13, i32 0, i32 4
  call void @holders(ptr noundef %14) #2
  %15 = load ptr, ptr %4, align 8
  %16 = getelementptr inbounds %struct.shared, ptr %15, i32 0, i32 1
  call void @flags(ptr noundef %16) #2
  %17 = load ptr, ptr %4, align 8
  %18 = getelementptr inbounds %struct.shared, ptr %17, i32 0, i32 5
  %19 = load ptr, ptr %4, align 8
  %20 = getelementptr inbounds %struct.shared, ptr %19, i32 0, i32 6
  %21 = getelementptr inbounds [8 x i8], ptr %20, i64 0, i64 0
  call void @stack(ptr noundef %18, ptr noundef %21) #2
  %22 = load ptr, ptr %4, align 8
  call void @ring(ptr noundef %22) #2
  %23 = load ptr, ptr %4, align 8
  %24 = getelementptr inbounds %struct.shared, ptr %23, i32 0, i32 10
  %25 = load ptr, ptr %5, align 8
  call void @greatest(ptr noundef %24, ptr noundef %25, i32 noundef 10) #2
  %26 = load ptr, ptr %4, align 8
  %27 = getelementptr inbounds %struct.shared, ptr %26, i32 0, i32 12
  %28 = load ptr, ptr %6, align 8
  call void @pointers(ptr noundef %27, ptr noundef %28) #2
  %29 = load ptr, ptr %4, align 8
  %30 = getelementptr inbounds %struct.shared, ptr %29, i32 0, i32 11
  call void @totals(ptr noundef %30) #2
  ret void
}

; Function Attrs: noinline nounwind
define internal void @locks(ptr noundef %0) #0 {
  %2 = alloca ptr, align 8
  store ptr %0, ptr %2, align 8
  %3 = load ptr, ptr %2, align 8
  %4 = call zeroext i1 @take_lock(ptr noundef %3) #2
  %5 = zext i1 %4 to i64
  call void @print_i64(i64 noundef %5) #2
  %6 = load ptr, ptr %2, align 8
  %7 = call zeroext i1 @take_lock(ptr noundef %6) #2
  %8 = zext i1 %7 to i64
  call void @print_i64(i64 noundef %8) #2
  %9 = load ptr, ptr %2, align 8
  call void @give_lock(ptr noundef %9) #2
  %10 = load ptr, ptr %2, align 8
  %11 = call zeroext i1 @take_lock(ptr noundef %10) #2
  %12 = zext i1 %11 to i64
  call void @print_i64(i64 noundef %12) #2
  ret void
}

; Function Attrs: noinline nounwind
define internal void @tickets(ptr noundef %0, ptr noundef %1) #0 {
  %3 = alloca ptr, align 8
  %4 = alloca ptr, align 8
  %5 = alloca i16, align 2
  %6 = alloca i16, align 2
  %7 = alloca i32, align 4
  %8 = alloca i16, align 2
  %9 = alloca i16, align 2
  %10 = alloca i16, align 2
  %11 = alloca i16, align 2
  %12 = alloca i16, align 2
  %13 = alloca i16, align 2
  %14 = alloca i16, align 2
  store ptr %0, ptr %3, align 8
  store ptr %1, ptr %4, align 8
  %15 = load ptr, ptr %3, align 8
  store i16 -2, ptr %5, align 2
  %16 = load i16, ptr %5, align 2
  store atomic i16 %16, ptr %15 monotonic, align 2
  %17 = load ptr, ptr %4, align 8
  store i16 -2, ptr %6, align 2
  %18 = load i16, ptr %6, align 2
  store atomic i16 %18, ptr %17 monotonic, align 2
  store i32 0, ptr %7, align 4
  br label %19

19:                                               ; preds = %28, %2
  %20 = load i32, ptr %7, align 4
  %21 = icmp slt i32 %20, 3
  br i1 %21, label %22, label %31

22:                                               ; preds = %19
  %23 = load ptr, ptr %3, align 8
  store i16 1, ptr %8, align 2
  %24 = load i16, ptr %8, align 2
  %25 = atomicrmw add ptr %23, i16 %24 monotonic, align 2
  store i16 %25, ptr %9, align 2
  %26 = load i16, ptr %9, align 2
  %27 = zext i16 %26 to i64
  call void @print_i64(i64 noundef %27) #2
  br label %28

28:                                               ; preds = %22
  %29 = load i32, ptr %7, align 4
  %30 = add nsw i32 %29, 1
  store i32 %30, ptr %7, align 4
  br label %19, !llvm.loop !5

31:                                               ; preds = %19
  %32 = load ptr, ptr %4, align 8
  store i16 2, ptr %10, align 2
  %33 = load i16, ptr %10, align 2
  %34 = atomicrmw add ptr %32, i16 %33 release, align 2
  %35 = add i16 %34, %33
  store i16 %35, ptr %11, align 2
  %36 = load i16, ptr %11, align 2
  %37 = load ptr, ptr %3, align 8
  %38 = load atomic i16, ptr %37 monotonic, align 2
  store i16 %38, ptr %13, align 2
  %39 = load i16, ptr %13, align 2
  %40 = zext i16 %39 to i32
  %41 = load ptr, ptr %4, align 8
  %42 = load atomic i16, ptr %41 acquire, align 2
  store i16 %42, ptr %14, align 2
  %43 = load i16, ptr %14, align 2
  %44 = zext i16 %43 to i32
  %45 = sub nsw i32 %40, %44
  %46 = trunc i32 %45 to i16
  store i16 %46, ptr %12, align 2
  %47 = load i16, ptr %12, align 2
  %48 = zext i16 %47 to i64
  call void @print_i64(i64 noundef %48) #2
  ret void
}

; Function Attrs: noinline nounwind
define internal void @holders(ptr noundef %0) #0 {
  %2 = alloca ptr, align 8
  %3 = alloca i32, align 4
  %4 = alloca i8, align 1
  %5 = alloca i8, align 1
  %6 = alloca i8, align 1
  %7 = alloca i32, align 4
  %8 = alloca i8, align 1
  %9 = alloca i8, align 1
  store ptr %0, ptr %2, align 8
  store i32 0, ptr %3, align 4
  br label %10

10:                                               ; preds = %18, %1
  %11 = load i32, ptr %3, align 4
  %12 = icmp slt i32 %11, 3
  br i1 %12, label %13, label %21

13:                                               ; preds = %10
  %14 = load ptr, ptr %2, align 8
  store i8 1, ptr %4, align 1
  %15 = load i8, ptr %4, align 1
  %16 = atomicrmw add ptr %14, i8 %15 monotonic, align 1
  store i8 %16, ptr %5, align 1
  %17 = load i8, ptr %5, align 1
  br label %18

18:                                               ; preds = %13
  %19 = load i32, ptr %3, align 4
  %20 = add nsw i32 %19, 1
  store i32 %20, ptr %3, align 4
  br label %10, !llvm.loop !7

21:                                               ; preds = %10
  %22 = load ptr, ptr %2, align 8
  %23 = load i8, ptr %22, align 1
  %24 = sext i8 %23 to i64
  call void @print_i64(i64 noundef %24) #2
  store i8 0, ptr %6, align 1
  store i32 0, ptr %7, align 4
  br label %25

25:                                               ; preds = %37, %21
  %26 = load i32, ptr %7, align 4
  %27 = icmp slt i32 %26, 3
  br i1 %27, label %28, label %40

28:                                               ; preds = %25
  %29 = load ptr, ptr %2, align 8
  store i8 1, ptr %8, align 1
  %30 = load i8, ptr %8, align 1
  %31 = atomicrmw sub ptr %29, i8 %30 acq_rel, align 1
  %32 = sub i8 %31, %30
  store i8 %32, ptr %9, align 1
  %33 = load i8, ptr %9, align 1
  %34 = sext i8 %33 to i32
  %35 = icmp eq i32 %34, 0
  %36 = zext i1 %35 to i8
  store i8 %36, ptr %6, align 1
  br label %37

37:                                               ; preds = %28
  %38 = load i32, ptr %7, align 4
  %39 = add nsw i32 %38, 1
  store i32 %39, ptr %7, align 4
  br label %25, !llvm.loop !8

40:                                               ; preds = %25
  %41 = load ptr, ptr %2, align 8
  %42 = load i8, ptr %41, align 1
  %43 = sext i8 %42 to i64
  call void @print_i64(i64 noundef %43) #2
  %44 = load i8, ptr %6, align 1
  %45 = trunc i8 %44 to i1
  %46 = zext i1 %45 to i64
  call void @print_i64(i64 noundef %46) #2
  ret void
}

; Function Attrs: noinline nounwind
define internal void @flags(ptr noundef %0) #0 {
  %2 = alloca ptr, align 8
  %3 = alloca i8, align 1
  %4 = alloca i8, align 1
  %5 = alloca i8, align 1
  %6 = alloca i8, align 1
  %7 = alloca i8, align 1
  %8 = alloca i8, align 1
  store ptr %0, ptr %2, align 8
  %9 = load ptr, ptr %2, align 8
  store i8 5, ptr %3, align 1
  %10 = load i8, ptr %3, align 1
  %11 = atomicrmw or ptr %9, i8 %10 seq_cst, align 1
  store i8 %11, ptr %4, align 1
  %12 = load i8, ptr %4, align 1
  %13 = load ptr, ptr %2, align 8
  store i8 -2, ptr %5, align 1
  %14 = load i8, ptr %5, align 1
  %15 = atomicrmw and ptr %13, i8 %14 seq_cst, align 1
  store i8 %15, ptr %6, align 1
  %16 = load i8, ptr %6, align 1
  %17 = zext i8 %16 to i64
  call void @print_i64(i64 noundef %17) #2
  %18 = load ptr, ptr %2, align 8
  store i8 -2, ptr %7, align 1
  %19 = load i8, ptr %7, align 1
  %20 = atomicrmw xor ptr %18, i8 %19 seq_cst, align 1
  store i8 %20, ptr %8, align 1
  %21 = load i8, ptr %8, align 1
  %22 = zext i8 %21 to i64
  call void @print_i64(i64 noundef %22) #2
  %23 = load ptr, ptr %2, align 8
  %24 = load i8, ptr %23, align 1
  %25 = zext i8 %24 to i64
  call void @print_i64(i64 noundef %25) #2
  ret void
}

; Function Attrs: noinline nounwind
define internal void @stack(ptr noundef %0, ptr noundef %1) #0 {
  %3 = alloca ptr, align 8
  %4 = alloca ptr, align 8
  %5 = alloca i32, align 4
  store ptr %0, ptr %3, align 8
  store ptr %1, ptr %4, align 8
  %6 = load ptr, ptr %3, align 8
  %7 = load ptr, ptr %4, align 8
  call void @push(ptr noundef %6, ptr noundef %7, i8 noundef zeroext 1) #2
  %8 = load ptr, ptr %3, align 8
  %9 = load ptr, ptr %4, align 8
  call void @push(ptr noundef %8, ptr noundef %9, i8 noundef zeroext 2) #2
  %10 = load ptr, ptr %3, align 8
  %11 = load ptr, ptr %4, align 8
  call void @push(ptr noundef %10, ptr noundef %11, i8 noundef zeroext 5) #2
  %12 = load ptr, ptr %3, align 8
  %13 = load ptr, ptr %4, align 8
  %14 = call zeroext i8 @pop(ptr noundef %12, ptr noundef %13) #2
  %15 = load ptr, ptr %3, align 8
  %16 = load ptr, ptr %4, align 8
  call void @push(ptr noundef %15, ptr noundef %16, i8 noundef zeroext 3) #2
  store i32 0, ptr %5, align 4
  br label %17

17:                                               ; preds = %25, %2
  %18 = load i32, ptr %5, align 4
  %19 = icmp slt i32 %18, 4
  br i1 %19, label %20, label %28

20:                                               ; preds = %17
  %21 = load ptr, ptr %3, align 8
  %22 = load ptr, ptr %4, align 8
  %23 = call zeroext i8 @pop(ptr noundef %21, ptr noundef %22) #2
  %24 = zext i8 %23 to i64
  call void @print_i64(i64 noundef %24) #2
  br label %25

25:                                               ; preds = %20
  %26 = load i32, ptr %5, align 4
  %27 = add nsw i32 %26, 1
  store i32 %27, ptr %5, align 4
  br label %17, !llvm.loop !9

28:                                               ; preds = %17
  %29 = load ptr, ptr %3, align 8
  %30 = load i32, ptr %29, align 4
  %31 = lshr i32 %30, 16
  %32 = zext i32 %31 to i64
  call void @print_i64(i64 noundef %32) #2
  ret void
}

; Function Attrs: noinline nounwind
define internal void @ring(ptr noundef %0) #0 {
  %2 = alloca ptr, align 8
  %3 = alloca i16, align 2
  %4 = alloca i16, align 2
  %5 = alloca i16, align 2
  %6 = alloca i16, align 2
  %7 = alloca i32, align 4
  %8 = alloca i8, align 1
  %9 = alloca i32, align 4
  store ptr %0, ptr %2, align 8
  %10 = load ptr, ptr %2, align 8
  %11 = getelementptr inbounds %struct.shared, ptr %10, i32 0, i32 8
  store i16 -1, ptr %3, align 2
  %12 = load i16, ptr %3, align 2
  %13 = atomicrmw xchg ptr %11, i16 %12 seq_cst, align 2
  store i16 %13, ptr %4, align 2
  %14 = load i16, ptr %4, align 2
  %15 = load ptr, ptr %2, align 8
  %16 = getelementptr inbounds %struct.shared, ptr %15, i32 0, i32 9
  store i16 -1, ptr %5, align 2
  %17 = load i16, ptr %5, align 2
  %18 = atomicrmw xchg ptr %16, i16 %17 seq_cst, align 2
  store i16 %18, ptr %6, align 2
  %19 = load i16, ptr %6, align 2
  store i32 0, ptr %7, align 4
  store i8 10, ptr %8, align 1
  br label %20

20:                                               ; preds = %31, %1
  %21 = load i8, ptr %8, align 1
  %22 = zext i8 %21 to i32
  %23 = icmp sle i32 %22, 50
  br i1 %23, label %24, label %36

24:                                               ; preds = %20
  %25 = load ptr, ptr %2, align 8
  %26 = load i8, ptr %8, align 1
  %27 = call zeroext i1 @write(ptr noundef %25, i8 noundef zeroext %26) #2
  %28 = zext i1 %27 to i32
  %29 = load i32, ptr %7, align 4
  %30 = add nsw i32 %29, %28
  store i32 %30, ptr %7, align 4
  br label %31

31:                                               ; preds = %24
  %32 = load i8, ptr %8, align 1
  %33 = zext i8 %32 to i32
  %34 = add nsw i32 %33, 10
  %35 = trunc i32 %34 to i8
  store i8 %35, ptr %8, align 1
  br label %20, !llvm.loop !10

36:                                               ; preds = %20
  %37 = load i32, ptr %7, align 4
  %38 = sext i32 %37 to i64
  call void @print_i64(i64 noundef %38) #2
  store i32 0, ptr %9, align 4
  br label %39

39:                                               ; preds = %46, %36
  %40 = load i32, ptr %9, align 4
  %41 = icmp slt i32 %40, 5
  br i1 %41, label %42, label %49

42:                                               ; preds = %39
  %43 = load ptr, ptr %2, align 8
  %44 = call i32 @read(ptr noundef %43) #2
  %45 = sext i32 %44 to i64
  call void @print_i64(i64 noundef %45) #2
  br label %46

46:                                               ; preds = %42
  %47 = load i32, ptr %9, align 4
  %48 = add nsw i32 %47, 1
  store i32 %48, ptr %9, align 4
  br label %39, !llvm.loop !11

49:                                               ; preds = %39
  ret void
}

; Function Attrs: noinline nounwind
define internal void @greatest(ptr noundef %0, ptr noundef %1, i32 noundef %2) #0 {
  %4 = alloca ptr, align 8
  %5 = alloca ptr, align 8
  %6 = alloca i32, align 4
  %7 = alloca i64, align 8
  %8 = alloca i32, align 4
  %9 = alloca i32, align 4
  %10 = alloca i32, align 4
  %11 = alloca i32, align 4
  %12 = alloca i8, align 1
  store ptr %0, ptr %4, align 8
  store ptr %1, ptr %5, align 8
  store i32 %2, ptr %6, align 4
  store i64 0, ptr %7, align 8
  store i32 0, ptr %8, align 4
  br label %13

13:                                               ; preds = %51, %3
  %14 = load i32, ptr %8, align 4
  %15 = load i32, ptr %6, align 4
  %16 = icmp slt i32 %14, %15
  br i1 %16, label %17, label %54

17:                                               ; preds = %13
  %18 = load ptr, ptr %4, align 8
  %19 = load atomic i32, ptr %18 monotonic, align 4
  store i32 %19, ptr %10, align 4
  %20 = load i32, ptr %10, align 4
  store i32 %20, ptr %9, align 4
  br label %21

21:                                               ; preds = %49, %17
  %22 = load ptr, ptr %5, align 8
  %23 = load i32, ptr %8, align 4
  %24 = sext i32 %23 to i64
  %25 = getelementptr inbounds i32, ptr %22, i64 %24
  %26 = load i32, ptr %25, align 4
  %27 = load i32, ptr %9, align 4
  %28 = icmp sgt i32 %26, %27
  br i1 %28, label %29, label %50

29:                                               ; preds = %21
  %30 = load ptr, ptr %4, align 8
  %31 = load ptr, ptr %5, align 8
  %32 = load i32, ptr %8, align 4
  %33 = sext i32 %32 to i64
  %34 = getelementptr inbounds i32, ptr %31, i64 %33
  %35 = load i32, ptr %34, align 4
  store i32 %35, ptr %11, align 4
  %36 = load i32, ptr %9, align 4
  %37 = load i32, ptr %11, align 4
  %38 = cmpxchg weak ptr %30, i32 %36, i32 %37 seq_cst monotonic, align 4
  %39 = extractvalue { i32, i1 } %38, 0
  %40 = extractvalue { i32, i1 } %38, 1
  br i1 %40, label %42, label %41

41:                                               ; preds = %29
  store i32 %39, ptr %9, align 4
  br label %42

42:                                               ; preds = %41, %29
  %43 = zext i1 %40 to i8
  store i8 %43, ptr %12, align 1
  %44 = load i8, ptr %12, align 1
  %45 = trunc i8 %44 to i1
  br i1 %45, label %46, label %49

46:                                               ; preds = %42
  %47 = load i64, ptr %7, align 8
  %48 = add nsw i64 %47, 1
  store i64 %48, ptr %7, align 8
  br label %50

49:                                               ; preds = %42
  br label %21, !llvm.loop !12

50:                                               ; preds = %46, %21
  br label %51

51:                                               ; preds = %50
  %52 = load i32, ptr %8, align 4
  %53 = add nsw i32 %52, 1
  store i32 %53, ptr %8, align 4
  br label %13, !llvm.loop !13

54:                                               ; preds = %13
  %55 = load ptr, ptr %4, align 8
  %56 = load i32, ptr %55, align 4
  %57 = sext i32 %56 to i64
  call void @print_i64(i64 noundef %57) #2
  %58 = load i64, ptr %7, align 8
  call void @print_i64(i64 noundef %58) #2
  ret void
}

; Function Attrs: noinline nounwind
define internal void @pointers(ptr noundef %0, ptr noundef %1) #0 {
  %3 = alloca ptr, align 8
  %4 = alloca ptr, align 8
  %5 = alloca ptr, align 8
  %6 = alloca ptr, align 8
  %7 = alloca i8, align 1
  %8 = alloca ptr, align 8
  %9 = alloca i8, align 1
  %10 = alloca ptr, align 8
  %11 = alloca ptr, align 8
  store ptr %0, ptr %3, align 8
  store ptr %1, ptr %4, align 8
  store ptr null, ptr %5, align 8
  %12 = load ptr, ptr %3, align 8
  %13 = load ptr, ptr %4, align 8
  store ptr %13, ptr %6, align 8
  %14 = load i64, ptr %5, align 8
  %15 = load i64, ptr %6, align 8
  %16 = cmpxchg ptr %12, i64 %14, i64 %15 seq_cst seq_cst, align 8
  %17 = extractvalue { i64, i1 } %16, 0
  %18 = extractvalue { i64, i1 } %16, 1
  br i1 %18, label %20, label %19

19:                                               ; preds = %2
  store i64 %17, ptr %5, align 8
  br label %20

20:                                               ; preds = %19, %2
  %21 = zext i1 %18 to i8
  store i8 %21, ptr %7, align 1
  %22 = load i8, ptr %7, align 1
  %23 = trunc i8 %22 to i1
  %24 = zext i1 %23 to i64
  call void @print_i64(i64 noundef %24) #2
  store ptr null, ptr %5, align 8
  %25 = load ptr, ptr %3, align 8
  store ptr null, ptr %8, align 8
  %26 = load i64, ptr %5, align 8
  %27 = load i64, ptr %8, align 8
  %28 = cmpxchg ptr %25, i64 %26, i64 %27 seq_cst seq_cst, align 8
  %29 = extractvalue { i64, i1 } %28, 0
  %30 = extractvalue { i64, i1 } %28, 1
  br i1 %30, label %32, label %31

31:                                               ; preds = %20
  store i64 %29, ptr %5, align 8
  br label %32

32:                                               ; preds = %31, %20
  %33 = zext i1 %30 to i8
  store i8 %33, ptr %9, align 1
  %34 = load i8, ptr %9, align 1
  %35 = trunc i8 %34 to i1
  %36 = zext i1 %35 to i64
  call void @print_i64(i64 noundef %36) #2
  %37 = load ptr, ptr %3, align 8
  %38 = load ptr, ptr %5, align 8
  %39 = getelementptr inbounds i64, ptr %38, i64 1
  store ptr %39, ptr %10, align 8
  %40 = load i64, ptr %10, align 8
  %41 = atomicrmw xchg ptr %37, i64 %40 seq_cst, align 8
  store i64 %41, ptr %11, align 8
  %42 = load ptr, ptr %11, align 8
  %43 = load ptr, ptr %3, align 8
  %44 = load ptr, ptr %43, align 8
  %45 = load i64, ptr %44, align 8
  call void @print_i64(i64 noundef %45) #2
  ret void
}

; Function Attrs: noinline nounwind
define internal void @totals(ptr noundef %0) #0 {
  %2 = alloca ptr, align 8
  %3 = alloca i64, align 8
  %4 = alloca i64, align 8
  %5 = alloca i64, align 8
  %6 = alloca i64, align 8
  %7 = alloca i8, align 1
  %8 = alloca i64, align 8
  %9 = alloca i8, align 1
  %10 = alloca i64, align 8
  store ptr %0, ptr %2, align 8
  %11 = load ptr, ptr %2, align 8
  store i64 1000000000000, ptr %3, align 8
  %12 = load i64, ptr %3, align 8
  %13 = atomicrmw sub ptr %11, i64 %12 seq_cst, align 8
  store i64 %13, ptr %4, align 8
  %14 = load i64, ptr %4, align 8
  store i64 0, ptr %5, align 8
  %15 = load ptr, ptr %2, align 8
  store i64 5, ptr %6, align 8
  %16 = load i64, ptr %5, align 8
  %17 = load i64, ptr %6, align 8
  %18 = cmpxchg ptr %15, i64 %16, i64 %17 seq_cst seq_cst, align 8
  %19 = extractvalue { i64, i1 } %18, 0
  %20 = extractvalue { i64, i1 } %18, 1
  br i1 %20, label %22, label %21

21:                                               ; preds = %1
  store i64 %19, ptr %5, align 8
  br label %22

22:                                               ; preds = %21, %1
  %23 = zext i1 %20 to i8
  store i8 %23, ptr %7, align 1
  %24 = load i8, ptr %7, align 1
  %25 = trunc i8 %24 to i1
  %26 = load i64, ptr %5, align 8
  call void @print_i64(i64 noundef %26) #2
  %27 = load ptr, ptr %2, align 8
  store i64 24, ptr %8, align 8
  %28 = load i64, ptr %5, align 8
  %29 = load i64, ptr %8, align 8
  %30 = cmpxchg ptr %27, i64 %28, i64 %29 seq_cst seq_cst, align 8
  %31 = extractvalue { i64, i1 } %30, 0
  %32 = extractvalue { i64, i1 } %30, 1
  br i1 %32, label %34, label %33

33:                                               ; preds = %22
  store i64 %31, ptr %5, align 8
  br label %34

34:                                               ; preds = %33, %22
  %35 = zext i1 %32 to i8
  store i8 %35, ptr %9, align 1
  %36 = load i8, ptr %9, align 1
  %37 = trunc i8 %36 to i1
  %38 = zext i1 %37 to i64
  call void @print_i64(i64 noundef %38) #2
  %39 = load ptr, ptr %2, align 8
  %40 = load atomic i64, ptr %39 seq_cst, align 8
  store i64 %40, ptr %10, align 8
  %41 = load i64, ptr %10, align 8
  call void @print_i64(i64 noundef %41) #2
  ret void
}

declare void @print_i64(i64 noundef) #1

; Function Attrs: noinline nounwind
define internal zeroext i1 @take_lock(ptr noundef %0) #0 {
  %2 = alloca ptr, align 8
  %3 = alloca i8, align 1
  %4 = alloca i8, align 1
  store ptr %0, ptr %2, align 8
  %5 = load ptr, ptr %2, align 8
  store i8 1, ptr %3, align 1
  %6 = load i8, ptr %3, align 1
  %7 = atomicrmw xchg ptr %5, i8 %6 acquire, align 1
  store i8 %7, ptr %4, align 1
  %8 = load i8, ptr %4, align 1
  %9 = icmp ne i8 %8, 0
  ret i1 %9
}

; Function Attrs: noinline nounwind
define internal void @give_lock(ptr noundef %0) #0 {
  %2 = alloca ptr, align 8
  %3 = alloca i8, align 1
  store ptr %0, ptr %2, align 8
  %4 = load ptr, ptr %2, align 8
  store i8 0, ptr %3, align 1
  %5 = load i8, ptr %3, align 1
  store atomic i8 %5, ptr %4 release, align 1
  ret void
}

; Function Attrs: noinline nounwind
define internal void @push(ptr noundef %0, ptr noundef %1, i8 noundef zeroext %2) #0 {
  %4 = alloca ptr, align 8
  %5 = alloca ptr, align 8
  %6 = alloca i8, align 1
  %7 = alloca i32, align 4
  %8 = alloca i32, align 4
  %9 = alloca i32, align 4
  %10 = alloca i32, align 4
  %11 = alloca i8, align 1
  store ptr %0, ptr %4, align 8
  store ptr %1, ptr %5, align 8
  store i8 %2, ptr %6, align 1
  %12 = load ptr, ptr %4, align 8
  %13 = load atomic i32, ptr %12 monotonic, align 4
  store i32 %13, ptr %8, align 4
  %14 = load i32, ptr %8, align 4
  store i32 %14, ptr %7, align 4
  br label %15

15:                                               ; preds = %38, %3
  %16 = load i32, ptr %7, align 4
  %17 = trunc i32 %16 to i8
  %18 = load ptr, ptr %5, align 8
  %19 = load i8, ptr %6, align 1
  %20 = zext i8 %19 to i64
  %21 = getelementptr inbounds i8, ptr %18, i64 %20
  store i8 %17, ptr %21, align 1
  %22 = load i32, ptr %7, align 4
  %23 = lshr i32 %22, 16
  %24 = add i32 %23, 1
  %25 = shl i32 %24, 16
  %26 = load i8, ptr %6, align 1
  %27 = zext i8 %26 to i32
  %28 = or i32 %25, %27
  store i32 %28, ptr %9, align 4
  br label %29

29:                                               ; preds = %15
  %30 = load ptr, ptr %4, align 8
  %31 = load i32, ptr %9, align 4
  store i32 %31, ptr %10, align 4
  %32 = load i32, ptr %7, align 4
  %33 = load i32, ptr %10, align 4
  %34 = cmpxchg weak ptr %30, i32 %32, i32 %33 release monotonic, align 4
  %35 = extractvalue { i32, i1 } %34, 0
  %36 = extractvalue { i32, i1 } %34, 1
  br i1 %36, label %38, label %37

37:                                               ; preds = %29
  store i32 %35, ptr %7, align 4
  br label %38

38:                                               ; preds = %37, %29
  %39 = zext i1 %36 to i8
  store i8 %39, ptr %11, align 1
  %40 = load i8, ptr %11, align 1
  %41 = trunc i8 %40 to i1
  %42 = xor i1 %41, true
  br i1 %42, label %15, label %43, !llvm.loop !14

43:                                               ; preds = %38
  ret void
}

; Function Attrs: noinline nounwind
define internal zeroext i8 @pop(ptr noundef %0, ptr noundef %1) #0 {
  %3 = alloca ptr, align 8
  %4 = alloca ptr, align 8
  %5 = alloca i32, align 4
  %6 = alloca i32, align 4
  %7 = alloca i32, align 4
  %8 = alloca i32, align 4
  %9 = alloca i8, align 1
  store ptr %0, ptr %3, align 8
  store ptr %1, ptr %4, align 8
  %10 = load ptr, ptr %3, align 8
  %11 = load atomic i32, ptr %10 acquire, align 4
  store i32 %11, ptr %6, align 4
  %12 = load i32, ptr %6, align 4
  store i32 %12, ptr %5, align 4
  br label %13

13:                                               ; preds = %41, %2
  %14 = load i32, ptr %5, align 4
  %15 = trunc i32 %14 to i8
  %16 = zext i8 %15 to i32
  %17 = icmp eq i32 %16, 0
  br i1 %17, label %18, label %19

18:                                               ; preds = %13
  br label %46

19:                                               ; preds = %13
  %20 = load i32, ptr %5, align 4
  %21 = lshr i32 %20, 16
  %22 = add i32 %21, 1
  %23 = shl i32 %22, 16
  %24 = load ptr, ptr %4, align 8
  %25 = load i32, ptr %5, align 4
  %26 = trunc i32 %25 to i8
  %27 = zext i8 %26 to i64
  %28 = getelementptr inbounds i8, ptr %24, i64 %27
  %29 = load i8, ptr %28, align 1
  %30 = zext i8 %29 to i32
  %31 = or i32 %23, %30
  store i32 %31, ptr %7, align 4
  br label %32

32:                                               ; preds = %19
  %33 = load ptr, ptr %3, align 8
  %34 = load i32, ptr %7, align 4
  store i32 %34, ptr %8, align 4
  %35 = load i32, ptr %5, align 4
  %36 = load i32, ptr %8, align 4
  %37 = cmpxchg ptr %33, i32 %35, i32 %36 acquire acquire, align 4
  %38 = extractvalue { i32, i1 } %37, 0
  %39 = extractvalue { i32, i1 } %37, 1
  br i1 %39, label %41, label %40

40:                                               ; preds = %32
  store i32 %38, ptr %5, align 4
  br label %41

41:                                               ; preds = %40, %32
  %42 = zext i1 %39 to i8
  store i8 %42, ptr %9, align 1
  %43 = load i8, ptr %9, align 1
  %44 = trunc i8 %43 to i1
  %45 = xor i1 %44, true
  br i1 %45, label %13, label %46, !llvm.loop !15

46:                                               ; preds = %41, %18
  %47 = load i32, ptr %5, align 4
  %48 = trunc i32 %47 to i8
  ret i8 %48
}

; Function Attrs: noinline nounwind
define internal zeroext i1 @write(ptr noundef %0, i8 noundef zeroext %1) #0 {
  %3 = alloca ptr, align 8
  %4 = alloca i8, align 1
  %5 = alloca i16, align 2
  %6 = alloca i16, align 2
  %7 = alloca i8, align 1
  %8 = alloca i16, align 2
  %9 = alloca i16, align 2
  store ptr %0, ptr %3, align 8
  store i8 %1, ptr %4, align 1
  %10 = load ptr, ptr %3, align 8
  %11 = getelementptr inbounds %struct.shared, ptr %10, i32 0, i32 8
  %12 = load atomic i16, ptr %11 monotonic, align 8
  store i16 %12, ptr %6, align 2
  %13 = load i16, ptr %6, align 2
  store i16 %13, ptr %5, align 2
  %14 = load i16, ptr %5, align 2
  %15 = zext i16 %14 to i32
  %16 = load ptr, ptr %3, align 8
  %17 = getelementptr inbounds %struct.shared, ptr %16, i32 0, i32 9
  %18 = load atomic i16, ptr %17 acquire, align 2
  store i16 %18, ptr %8, align 2
  %19 = load i16, ptr %8, align 2
  %20 = zext i16 %19 to i32
  %21 = sub nsw i32 %15, %20
  %22 = trunc i32 %21 to i16
  %23 = zext i16 %22 to i32
  %24 = icmp slt i32 %23, 4
  %25 = zext i1 %24 to i8
  store i8 %25, ptr %7, align 1
  %26 = load i8, ptr %7, align 1
  %27 = trunc i8 %26 to i1
  br i1 %27, label %28, label %44

28:                                               ; preds = %2
  %29 = load i8, ptr %4, align 1
  %30 = load ptr, ptr %3, align 8
  %31 = getelementptr inbounds %struct.shared, ptr %30, i32 0, i32 7
  %32 = load i16, ptr %5, align 2
  %33 = zext i16 %32 to i32
  %34 = srem i32 %33, 4
  %35 = sext i32 %34 to i64
  %36 = getelementptr inbounds [4 x i8], ptr %31, i64 0, i64 %35
  store i8 %29, ptr %36, align 1
  %37 = load ptr, ptr %3, align 8
  %38 = getelementptr inbounds %struct.shared, ptr %37, i32 0, i32 8
  %39 = load i16, ptr %5, align 2
  %40 = zext i16 %39 to i32
  %41 = add nsw i32 %40, 1
  %42 = trunc i32 %41 to i16
  store i16 %42, ptr %9, align 2
  %43 = load i16, ptr %9, align 2
  store atomic i16 %43, ptr %38 release, align 8
  br label %44

44:                                               ; preds = %28, %2
  %45 = load i8, ptr %7, align 1
  %46 = trunc i8 %45 to i1
  ret i1 %46
}

; Function Attrs: noinline nounwind
define internal i32 @read(ptr noundef %0) #0 {
  %2 = alloca i32, align 4
  %3 = alloca ptr, align 8
  %4 = alloca i16, align 2
  %5 = alloca i16, align 2
  %6 = alloca i16, align 2
  %7 = alloca i8, align 1
  %8 = alloca i16, align 2
  store ptr %0, ptr %3, align 8
  %9 = load ptr, ptr %3, align 8
  %10 = getelementptr inbounds %struct.shared, ptr %9, i32 0, i32 9
  %11 = load atomic i16, ptr %10 monotonic, align 2
  store i16 %11, ptr %5, align 2
  %12 = load i16, ptr %5, align 2
  store i16 %12, ptr %4, align 2
  %13 = load i16, ptr %4, align 2
  %14 = zext i16 %13 to i32
  %15 = load ptr, ptr %3, align 8
  %16 = getelementptr inbounds %struct.shared, ptr %15, i32 0, i32 8
  %17 = load atomic i16, ptr %16 acquire, align 8
  store i16 %17, ptr %6, align 2
  %18 = load i16, ptr %6, align 2
  %19 = zext i16 %18 to i32
  %20 = icmp eq i32 %14, %19
  br i1 %20, label %21, label %22

21:                                               ; preds = %1
  store i32 -1, ptr %2, align 4
  br label %40

22:                                               ; preds = %1
  %23 = load ptr, ptr %3, align 8
  %24 = getelementptr inbounds %struct.shared, ptr %23, i32 0, i32 7
  %25 = load i16, ptr %4, align 2
  %26 = zext i16 %25 to i32
  %27 = srem i32 %26, 4
  %28 = sext i32 %27 to i64
  %29 = getelementptr inbounds [4 x i8], ptr %24, i64 0, i64 %28
  %30 = load i8, ptr %29, align 1
  store i8 %30, ptr %7, align 1
  %31 = load ptr, ptr %3, align 8
  %32 = getelementptr inbounds %struct.shared, ptr %31, i32 0, i32 9
  %33 = load i16, ptr %4, align 2
  %34 = zext i16 %33 to i32
  %35 = add nsw i32 %34, 1
  %36 = trunc i32 %35 to i16
  store i16 %36, ptr %8, align 2
  %37 = load i16, ptr %8, align 2
  store atomic i16 %37, ptr %32 release, align 2
  %38 = load i8, ptr %7, align 1
  %39 = zext i8 %38 to i32
  store i32 %39, ptr %2, align 4
  br label %40

40:                                               ; preds = %22, %21
  %41 = load i32, ptr %2, align 4
  ret i32 %41
}

attributes #0 = { noinline nounwind "frame-pointer"="all" "min-legal-vector-width"="0" "no-builtins" "no-trapping-math"="true" "stack-protector-buffer-size"="8" "target-cpu"="x86-64" "target-features"="+cx8,+fxsr,+mmx,+sse,+sse2,+x87" "tune-cpu"="generic" }
attributes #1 = { "frame-pointer"="all" "no-builtins" "no-trapping-math"="true" "stack-protector-buffer-size"="8" "target-cpu"="x86-64" "target-features"="+cx8,+fxsr,+mmx,+sse,+sse2,+x87" "tune-cpu"="generic" }
attributes #2 = { nobuiltin "no-builtins" }

!llvm.module.flags = !{!0, !1, !2, !3}
!llvm.ident = !{!4}

!0 = !{i32 1, !"wchar_size", i32 4}
!1 = !{i32 8, !"PIC Level", i32 2}
!2 = !{i32 7, !"PIE Level", i32 2}
!3 = !{i32 7, !"frame-pointer", i32 2}
!4 = !{!"Debian clang version 16.0.6 (15~deb12u1)"}
!5 = distinct !{!5, !6}
!6 = !{!"llvm.loop.mustprogress"}
!7 = distinct !{!7, !6}
!8 = distinct !{!8, !6}
!9 = distinct !{!9, !6}
!10 = distinct !{!10, !6}
!11 = distinct !{!11, !6}
!12 = distinct !{!12, !6}
!13 = distinct !{!13, !6}
!14 = distinct !{!14, !6}
!15 = distinct !{!15, !6}
