; ModuleID = 'search_tree.c'
source_filename = "search_tree.c"
target datalayout = "e-m:e-p270:32:32-p271:32:32-p272:64:64-i64:64-f80:128-n8:16:32:64-S128"
target triple = "x86_64-pc-linux-gnu"

%struct.pool = type { ptr, i64, [64 x %struct.tree] }
%struct.tree = type { i64, ptr, ptr }

@pool = internal global %struct.pool zeroinitializer, align 8

; Function Attrs: noinline nounwind
define dso_local i32 @main() #0 {
  call void @work(ptr noundef @pool) #2
  ret i32 0
}

; Function Attrs: noinline nounwind
define internal void @work(ptr noundef %0) #0 {
  %2 = alloca ptr, align 8
  %3 = alloca i64, align 8
  store ptr %0, ptr %2, align 8
  store i64 0, ptr %3, align 8
  br label %4

4:                                                ; preds = %19, %1
  %5 = load i64, ptr %3, align 8
  %6 = icmp slt i64 %5, 40
  br i1 %6, label %7, label %22

7:                                                ; preds = %4
  %8 = load ptr, ptr %2, align 8
  %9 = load ptr, ptr %2, align 8
  %10 = getelementptr inbounds %struct.pool, ptr %9, i32 0, i32 0
  %11 = load ptr, ptr %10, align 8
  %12 = load i64, ptr %3, align 8
  %13 = mul nsw i64 %12, 263
  %14 = add nsw i64 %13, 500
  %15 = srem i64 %14, 997
  %16 = call ptr @insert(ptr noundef %8, ptr noundef %11, i64 noundef %15) #2
  %17 = load ptr, ptr %2, align 8
  %18 = getelementptr inbounds %struct.pool, ptr %17, i32 0, i32 0
  store ptr %16, ptr %18, align 8
  br label %19

19:                                               ; preds = %7
  %20 = load i64, ptr %3, align 8
  %21 = add nsw i64 %20, 1
  store i64 %21, ptr %3, align 8
  br label %4, !llvm.loop !5

22:                                               ; preds = %4
  %23 = load ptr, ptr %2, align 8
  %24 = getelementptr inbounds %struct.pool, ptr %23, i32 0, i32 0
  %25 = load ptr, ptr %24, align 8
  %26 = call i64 @depth(ptr noundef %25) #2
  call void @print_i64(i64 noundef %26) #2
  %27 = load ptr, ptr %2, align 8
  %28 = getelementptr inbounds %struct.pool, ptr %27, i32 0, i32 0
  %29 = load ptr, ptr %28, align 8
  %30 = call i64 @has(ptr noundef %29, i64 noundef 500) #2
  call void @print_i64(i64 noundef %30) #2
  %31 = load ptr, ptr %2, align 8
  %32 = getelementptr inbounds %struct.pool, ptr %31, i32 0, i32 0
  %33 = load ptr, ptr %32, align 8
  %34 = call i64 @has(ptr noundef %33, i64 noundef 501) #2
  call void @print_i64(i64 noundef %34) #2
  %35 = load ptr, ptr %2, align 8
  %36 = getelementptr inbounds %struct.pool, ptr %35, i32 0, i32 0
  %37 = load ptr, ptr %36, align 8
  call void @show_below(ptr noundef %37, i64 noundef 60) #2
  %38 = load ptr, ptr %2, align 8
  %39 = getelementptr inbounds %struct.pool, ptr %38, i32 0, i32 0
  %40 = load ptr, ptr %39, align 8
  %41 = call i64 @sum(ptr noundef %40) #2
  call void @print_i64(i64 noundef %41) #2
  %42 = load ptr, ptr %2, align 8
  %43 = getelementptr inbounds %struct.pool, ptr %42, i32 0, i32 0
  %44 = load ptr, ptr %43, align 8
  %45 = call ptr @without(ptr noundef %44, i64 noundef 500) #2
  %46 = load ptr, ptr %2, align 8
  %47 = getelementptr inbounds %struct.pool, ptr %46, i32 0, i32 0
  store ptr %45, ptr %47, align 8
  %48 = load ptr, ptr %2, align 8
  %49 = getelementptr inbounds %struct.pool, ptr %48, i32 0, i32 0
  %50 = load ptr, ptr %49, align 8
  %51 = call i64 @has(ptr noundef %50, i64 noundef 500) #2
  call void @print_i64(i64 noundef %51) #2
  %52 = load ptr, ptr %2, align 8
  %53 = getelementptr inbounds %struct.pool, ptr %52, i32 0, i32 0
  %54 = load ptr, ptr %53, align 8
  %55 = call i64 @sum(ptr noundef %54) #2
  call void @print_i64(i64 noundef %55) #2
  ret void
}

; Function Attrs: noinline nounwind
define internal ptr @insert(ptr noundef %0, ptr noundef %1, i64 noundef %2) #0 {
  %4 = alloca ptr, align 8
  %5 = alloca ptr, align 8
  %6 = alloca i64, align 8
  store ptr %0, ptr %4, align 8
  store ptr %1, ptr %5, align 8
  store i64 %2, ptr %6, align 8
  %7 = load ptr, ptr %5, align 8
  %8 = icmp eq ptr %7, null
  br i1 %8, label %9, label %27

9:                                                ; preds = %3
  %10 = load ptr, ptr %4, align 8
  %11 = getelementptr inbounds %struct.pool, ptr %10, i32 0, i32 2
  %12 = load ptr, ptr %4, align 8
  %13 = getelementptr inbounds %struct.pool, ptr %12, i32 0, i32 1
  %14 = load i64, ptr %13, align 8
  %15 = getelementptr inbounds [64 x %struct.tree], ptr %11, i64 0, i64 %14
  store ptr %15, ptr %5, align 8
  %16 = load ptr, ptr %4, align 8
  %17 = getelementptr inbounds %struct.pool, ptr %16, i32 0, i32 1
  %18 = load i64, ptr %17, align 8
  %19 = add nsw i64 %18, 1
  store i64 %19, ptr %17, align 8
  %20 = load i64, ptr %6, align 8
  %21 = load ptr, ptr %5, align 8
  %22 = getelementptr inbounds %struct.tree, ptr %21, i32 0, i32 0
  store i64 %20, ptr %22, align 8
  %23 = load ptr, ptr %5, align 8
  %24 = getelementptr inbounds %struct.tree, ptr %23, i32 0, i32 1
  store ptr null, ptr %24, align 8
  %25 = load ptr, ptr %5, align 8
  %26 = getelementptr inbounds %struct.tree, ptr %25, i32 0, i32 2
  store ptr null, ptr %26, align 8
  br label %59

27:                                               ; preds = %3
  %28 = load i64, ptr %6, align 8
  %29 = load ptr, ptr %5, align 8
  %30 = getelementptr inbounds %struct.tree, ptr %29, i32 0, i32 0
  %31 = load i64, ptr %30, align 8
  %32 = icmp slt i64 %28, %31
  br i1 %32, label %33, label %42

33:                                               ; preds = %27
  %34 = load ptr, ptr %4, align 8
  %35 = load ptr, ptr %5, align 8
  %36 = getelementptr inbounds %struct.tree, ptr %35, i32 0, i32 1
  %37 = load ptr, ptr %36, align 8
  %38 = load i64, ptr %6, align 8
  %39 = call ptr @insert(ptr noundef %34, ptr noundef %37, i64 noundef %38) #2
  %40 = load ptr, ptr %5, align 8
  %41 = getelementptr inbounds %struct.tree, ptr %40, i32 0, i32 1
  store ptr %39, ptr %41, align 8
  br label %58

42:                                               ; preds = %27
  %43 = load i64, ptr %6, align 8
  %44 = load ptr, ptr %5, align 8
  %45 = getelementptr inbounds %struct.tree, ptr %44, i32 0, i32 0
  %46 = load i64, ptr %45, align 8
  %47 = icmp sgt i64 %43, %46
  br i1 %47, label %48, label %57

48:                                               ; preds = %42
  %49 = load ptr, ptr %4, align 8
  %50 = load ptr, ptr %5, align 8
  %51 = getelementptr inbounds %struct.tree, ptr %50, i32 0, i32 2
  %52 = load ptr, ptr %51, align 8
  %53 = load i64, ptr %6, align 8
  %54 = call ptr @insert(ptr noundef %49, ptr noundef %52, i64 noundef %53) #2
  %55 = load ptr, ptr %5, align 8
  %56 = getelementptr inbounds %struct.tree, ptr %55, i32 0, i32 2
  store ptr %54, ptr %56, align 8
  br label %57

57:                                               ; preds = %48, %42
  br label %58

58:                                               ; preds = %57, %33
  br label %59

59:                                               ; preds = %58, %9
  %60 = load ptr, ptr %5, align 8
  ret ptr %60
}

declare void @print_i64(i64 noundef) #1

; Function Attrs: noinline nounwind
define internal i64 @depth(ptr noundef %0) #0 {
  %2 = alloca i64, align 8
  %3 = alloca ptr, align 8
  %4 = alloca i64, align 8
  %5 = alloca i64, align 8
  store ptr %0, ptr %3, align 8
  %6 = load ptr, ptr %3, align 8
  %7 = icmp eq ptr %6, null
  br i1 %7, label %8, label %9

8:                                                ; preds = %1
  store i64 0, ptr %2, align 8
  br label %28

9:                                                ; preds = %1
  %10 = load ptr, ptr %3, align 8
  %11 = getelementptr inbounds %struct.tree, ptr %10, i32 0, i32 1
  %12 = load ptr, ptr %11, align 8
  %13 = call i64 @depth(ptr noundef %12) #2
  store i64 %13, ptr %4, align 8
  %14 = load ptr, ptr %3, align 8
  %15 = getelementptr inbounds %struct.tree, ptr %14, i32 0, i32 2
  %16 = load ptr, ptr %15, align 8
  %17 = call i64 @depth(ptr noundef %16) #2
  store i64 %17, ptr %5, align 8
  %18 = load i64, ptr %4, align 8
  %19 = load i64, ptr %5, align 8
  %20 = icmp sgt i64 %18, %19
  br i1 %20, label %21, label %23

21:                                               ; preds = %9
  %22 = load i64, ptr %4, align 8
  br label %25

23:                                               ; preds = %9
  %24 = load i64, ptr %5, align 8
  br label %25

25:                                               ; preds = %23, %21
  %26 = phi i64 [ %22, %21 ], [ %24, %23 ]
  %27 = add nsw i64 1, %26
  store i64 %27, ptr %2, align 8
  br label %28

28:                                               ; preds = %25, %8
  %29 = load i64, ptr %2, align 8
  ret i64 %29
}

; Function Attrs: noinline nounwind
define internal i64 @has(ptr noundef %0, i64 noundef %1) #0 {
  %3 = alloca ptr, align 8
  %4 = alloca i64, align 8
  store ptr %0, ptr %3, align 8
  store i64 %1, ptr %4, align 8
  br label %5

5:                                                ; preds = %30, %2
  %6 = load ptr, ptr %3, align 8
  %7 = icmp ne ptr %6, null
  br i1 %7, label %8, label %14

8:                                                ; preds = %5
  %9 = load ptr, ptr %3, align 8
  %10 = getelementptr inbounds %struct.tree, ptr %9, i32 0, i32 0
  %11 = load i64, ptr %10, align 8
  %12 = load i64, ptr %4, align 8
  %13 = icmp ne i64 %11, %12
  br label %14

14:                                               ; preds = %8, %5
  %15 = phi i1 [ false, %5 ], [ %13, %8 ]
  br i1 %15, label %16, label %32

16:                                               ; preds = %14
  %17 = load i64, ptr %4, align 8
  %18 = load ptr, ptr %3, align 8
  %19 = getelementptr inbounds %struct.tree, ptr %18, i32 0, i32 0
  %20 = load i64, ptr %19, align 8
  %21 = icmp slt i64 %17, %20
  br i1 %21, label %22, label %26

22:                                               ; preds = %16
  %23 = load ptr, ptr %3, align 8
  %24 = getelementptr inbounds %struct.tree, ptr %23, i32 0, i32 1
  %25 = load ptr, ptr %24, align 8
  br label %30

26:                                               ; preds = %16
  %27 = load ptr, ptr %3, align 8
  %28 = getelementptr inbounds %struct.tree, ptr %27, i32 0, i32 2
  %29 = load ptr, ptr %28, align 8
  br label %30

30:                                               ; preds = %26, %22
  %31 = phi ptr [ %25, %22 ], [ %29, %26 ]
  store ptr %31, ptr %3, align 8
  br label %5, !llvm.loop !7

32:                                               ; preds = %14
  %33 = load ptr, ptr %3, align 8
  %34 = icmp ne ptr %33, null
  %35 = zext i1 %34 to i32
  %36 = sext i32 %35 to i64
  ret i64 %36
}

; Function Attrs: noinline nounwind
define internal void @show_below(ptr noundef %0, i64 noundef %1) #0 {
  %3 = alloca ptr, align 8
  %4 = alloca i64, align 8
  store ptr %0, ptr %3, align 8
  store i64 %1, ptr %4, align 8
  %5 = load ptr, ptr %3, align 8
  %6 = icmp eq ptr %5, null
  br i1 %6, label %7, label %8

7:                                                ; preds = %2
  br label %26

8:                                                ; preds = %2
  %9 = load ptr, ptr %3, align 8
  %10 = getelementptr inbounds %struct.tree, ptr %9, i32 0, i32 1
  %11 = load ptr, ptr %10, align 8
  %12 = load i64, ptr %4, align 8
  call void @show_below(ptr noundef %11, i64 noundef %12) #2
  %13 = load ptr, ptr %3, align 8
  %14 = getelementptr inbounds %struct.tree, ptr %13, i32 0, i32 0
  %15 = load i64, ptr %14, align 8
  %16 = load i64, ptr %4, align 8
  %17 = icmp slt i64 %15, %16
  br i1 %17, label %18, label %26

18:                                               ; preds = %8
  %19 = load ptr, ptr %3, align 8
  %20 = getelementptr inbounds %struct.tree, ptr %19, i32 0, i32 0
  %21 = load i64, ptr %20, align 8
  call void @print_i64(i64 noundef %21) #2
  %22 = load ptr, ptr %3, align 8
  %23 = getelementptr inbounds %struct.tree, ptr %22, i32 0, i32 2
  %24 = load ptr, ptr %23, align 8
  %25 = load i64, ptr %4, align 8
  call void @show_below(ptr noundef %24, i64 noundef %25) #2
  br label %26

26:                                               ; preds = %7, %18, %8
  ret void
}

; Function Attrs: noinline nounwind
define internal i64 @sum(ptr noundef %0) #0 {
  %2 = alloca ptr, align 8
  store ptr %0, ptr %2, align 8
  %3 = load ptr, ptr %2, align 8
  %4 = icmp eq ptr %3, null
  br i1 %4, label %5, label %6

5:                                                ; preds = %1
  br label %20

6:                                                ; preds = %1
  %7 = load ptr, ptr %2, align 8
  %8 = getelementptr inbounds %struct.tree, ptr %7, i32 0, i32 0
  %9 = load i64, ptr %8, align 8
  %10 = load ptr, ptr %2, align 8
  %11 = getelementptr inbounds %struct.tree, ptr %10, i32 0, i32 1
  %12 = load ptr, ptr %11, align 8
  %13 = call i64 @sum(ptr noundef %12) #2
  %14 = add nsw i64 %9, %13
  %15 = load ptr, ptr %2, align 8
  %16 = getelementptr inbounds %struct.tree, ptr %15, i32 0, i32 2
  %17 = load ptr, ptr %16, align 8
  %18 = call i64 @sum(ptr noundef %17) #2
  %19 = add nsw i64 %14, %18
  br label %20

20:                                               ; preds = %6, %5
  %21 = phi i64 [ 0, %5 ], [ %19, %6 ]
  ret i64 %21
}

; Function Attrs: noinline nounwind
define internal ptr @without(ptr noundef %0, i64 noundef %1) #0 {
  %3 = alloca ptr, align 8
  %4 = alloca ptr, align 8
  %5 = alloca i64, align 8
  %6 = alloca ptr, align 8
  store ptr %0, ptr %4, align 8
  store i64 %1, ptr %5, align 8
  %7 = load ptr, ptr %4, align 8
  %8 = icmp eq ptr %7, null
  br i1 %8, label %9, label %10

9:                                                ; preds = %2
  store ptr null, ptr %3, align 8
  br label %75

10:                                               ; preds = %2
  %11 = load i64, ptr %5, align 8
  %12 = load ptr, ptr %4, align 8
  %13 = getelementptr inbounds %struct.tree, ptr %12, i32 0, i32 0
  %14 = load i64, ptr %13, align 8
  %15 = icmp slt i64 %11, %14
  br i1 %15, label %16, label %25

16:                                               ; preds = %10
  %17 = load ptr, ptr %4, align 8
  %18 = getelementptr inbounds %struct.tree, ptr %17, i32 0, i32 1
  %19 = load ptr, ptr %18, align 8
  %20 = load i64, ptr %5, align 8
  %21 = call ptr @without(ptr noundef %19, i64 noundef %20) #2
  %22 = load ptr, ptr %4, align 8
  %23 = getelementptr inbounds %struct.tree, ptr %22, i32 0, i32 1
  store ptr %21, ptr %23, align 8
  %24 = load ptr, ptr %4, align 8
  store ptr %24, ptr %3, align 8
  br label %75

25:                                               ; preds = %10
  %26 = load i64, ptr %5, align 8
  %27 = load ptr, ptr %4, align 8
  %28 = getelementptr inbounds %struct.tree, ptr %27, i32 0, i32 0
  %29 = load i64, ptr %28, align 8
  %30 = icmp sgt i64 %26, %29
  br i1 %30, label %31, label %40

31:                                               ; preds = %25
  %32 = load ptr, ptr %4, align 8
  %33 = getelementptr inbounds %struct.tree, ptr %32, i32 0, i32 2
  %34 = load ptr, ptr %33, align 8
  %35 = load i64, ptr %5, align 8
  %36 = call ptr @without(ptr noundef %34, i64 noundef %35) #2
  %37 = load ptr, ptr %4, align 8
  %38 = getelementptr inbounds %struct.tree, ptr %37, i32 0, i32 2
  store ptr %36, ptr %38, align 8
  %39 = load ptr, ptr %4, align 8
  store ptr %39, ptr %3, align 8
  br label %75

40:                                               ; preds = %25
  %41 = load ptr, ptr %4, align 8
  %42 = getelementptr inbounds %struct.tree, ptr %41, i32 0, i32 2
  %43 = load ptr, ptr %42, align 8
  %44 = icmp eq ptr %43, null
  br i1 %44, label %45, label %49

45:                                               ; preds = %40
  %46 = load ptr, ptr %4, align 8
  %47 = getelementptr inbounds %struct.tree, ptr %46, i32 0, i32 1
  %48 = load ptr, ptr %47, align 8
  store ptr %48, ptr %3, align 8
  br label %75

49:                                               ; preds = %40
  %50 = load ptr, ptr %4, align 8
  %51 = getelementptr inbounds %struct.tree, ptr %50, i32 0, i32 2
  %52 = load ptr, ptr %51, align 8
  store ptr %52, ptr %6, align 8
  br label %53

53:                                               ; preds = %58, %49
  %54 = load ptr, ptr %6, align 8
  %55 = getelementptr inbounds %struct.tree, ptr %54, i32 0, i32 1
  %56 = load ptr, ptr %55, align 8
  %57 = icmp ne ptr %56, null
  br i1 %57, label %58, label %62

58:                                               ; preds = %53
  %59 = load ptr, ptr %6, align 8
  %60 = getelementptr inbounds %struct.tree, ptr %59, i32 0, i32 1
  %61 = load ptr, ptr %60, align 8
  store ptr %61, ptr %6, align 8
  br label %53, !llvm.loop !8

62:                                               ; preds = %53
  %63 = load ptr, ptr %6, align 8
  %64 = getelementptr inbounds %struct.tree, ptr %63, i32 0, i32 0
  %65 = load i64, ptr %64, align 8
  %66 = load ptr, ptr %4, align 8
  %67 = getelementptr inbounds %struct.tree, ptr %66, i32 0, i32 0
  store i64 %65, ptr %67, align 8
  %68 = load ptr, ptr %4, align 8
  %69 = getelementptr inbounds %struct.tree, ptr %68, i32 0, i32 2
  %70 = load ptr, ptr %69, align 8
  %71 = call ptr @without_least(ptr noundef %70) #2
  %72 = load ptr, ptr %4, align 8
  %73 = getelementptr inbounds %struct.tree, ptr %72, i32 0, i32 2
  store ptr %71, ptr %73, align 8
  %74 = load ptr, ptr %4, align 8
  store ptr %74, ptr %3, align 8
  br label %75

75:                                               ; preds = %62, %45, %31, %16, %9
  %76 = load ptr, ptr %3, align 8
  ret ptr %76
}

; Function Attrs: noinline nounwind
define internal ptr @without_least(ptr noundef %0) #0 {
  %2 = alloca ptr, align 8
  %3 = alloca ptr, align 8
  store ptr %0, ptr %3, align 8
  %4 = load ptr, ptr %3, align 8
  %5 = getelementptr inbounds %struct.tree, ptr %4, i32 0, i32 1
  %6 = load ptr, ptr %5, align 8
  %7 = icmp eq ptr %6, null
  br i1 %7, label %8, label %12

8:                                                ; preds = %1
  %9 = load ptr, ptr %3, align 8
  %10 = getelementptr inbounds %struct.tree, ptr %9, i32 0, i32 2
  %11 = load ptr, ptr %10, align 8
  store ptr %11, ptr %2, align 8
  br label %20

12:                                               ; preds = %1
  %13 = load ptr, ptr %3, align 8
  %14 = getelementptr inbounds %struct.tree, ptr %13, i32 0, i32 1
  %15 = load ptr, ptr %14, align 8
  %16 = call ptr @without_least(ptr noundef %15) #2
  %17 = load ptr, ptr %3, align 8
  %18 = getelementptr inbounds %struct.tree, ptr %17, i32 0, i32 1
  store ptr %16, ptr %18, align 8
  %19 = load ptr, ptr %3, align 8
  store ptr %19, ptr %2, align 8
  br label %20

20:                                               ; preds = %12, %8
  %21 = load ptr, ptr %2, align 8
  ret ptr %21
}

attributes #0 = { noinline nounwind "frame-pointer"="all" "min-legal-vector-width"="0" "no-builtins" "no-trapping-math"="true" "stack-protector-buffer-size"="8" "target-cpu"="x86-64" "target-features"="+cx8,+fxsr,+mmx,+sse,+sse2,+x87" "tune-cpu"="generic" }
attributes #1 = { "frame-pointer"="all" "no-builtins" "no-trapping-math"="true" "stack-protector-buffer-size"="8" "target-cpu"="x86-64" "target-features"="+cx8,+fxsr,+mmx,+sse,+sse2,+x87" "tune-cpu"="generic" }
attributes #2 = { nobuiltin "no-builtins" }

!llvm.module.flags = !{!0, !1, !2, !3}
!llvm.ident = !{!4}

!0 = !{i32 1, !"wchar_size", i32 4}
!1 = !{i32 8, !"PIC Level", i32 2}
!2 = !{i32 7, !"PIE Level", i32 2}
!3 = !{i32 7, !"frame-pointer", i32 2}
!4 = !{!"Debian clang version 16.0.6 (15~deb12u1)"}
!5 = distinct !{!5, !6}
!6 = !{!"llvm.loop.mustprogress"}
!7 = distinct !{!7, !6}
!8 = distinct !{!8, !6}
