; ModuleID = 'heap_list.c'
source_filename = "heap_list.c"
target datalayout = "e-m:e-p270:32:32-p271:32:32-p272:64:64-i64:64-f80:128-n8:16:32:64-S128"
target triple = "x86_64-pc-linux-gnu"

%struct.list = type { ptr, i64, i64 }
%struct.node = type { i64, ptr }

@first = internal global %struct.list zeroinitializer, align 8
@second = internal global %struct.list zeroinitializer, align 8

; Function Attrs: noinline nounwind
define dso_local i32 @main() #0 {
  call void @work(ptr noundef @first, ptr noundef @second) #2
  ret i32 0
}

; Function Attrs: noinline nounwind
define internal void @work(ptr noundef %0, ptr noundef %1) #0 {
  %3 = alloca ptr, align 8
  %4 = alloca ptr, align 8
  %5 = alloca i64, align 8
  store ptr %0, ptr %3, align 8
  store ptr %1, ptr %4, align 8
  store i64 0, ptr %5, align 8
  br label %6

6:                                                ; preds = %17, %2
  %7 = load i64, ptr %5, align 8
  %8 = icmp slt i64 %7, 10
  br i1 %8, label %9, label %20

9:                                                ; preds = %6
  %10 = load ptr, ptr %3, align 8
  %11 = load i64, ptr %5, align 8
  %12 = mul nsw i64 %11, 7
  %13 = srem i64 %12, 10
  %14 = mul nsw i64 %13, 3
  %15 = sdiv i64 %14, 2
  %16 = add nsw i64 %15, 1
  call void @insert(ptr noundef %10, i64 noundef %16) #2
  br label %17

17:                                               ; preds = %9
  %18 = load i64, ptr %5, align 8
  %19 = add nsw i64 %18, 1
  store i64 %19, ptr %5, align 8
  br label %6, !llvm.loop !5

20:                                               ; preds = %6
  %21 = load ptr, ptr %3, align 8
  %22 = getelementptr inbounds %struct.list, ptr %21, i32 0, i32 0
  %23 = load ptr, ptr %22, align 8
  call void @show(ptr noundef %23) #2
  %24 = load ptr, ptr %3, align 8
  call void @take_even_out(ptr noundef %24) #2
  %25 = load ptr, ptr %3, align 8
  %26 = getelementptr inbounds %struct.list, ptr %25, i32 0, i32 0
  %27 = load ptr, ptr %26, align 8
  call void @show(ptr noundef %27) #2
  %28 = load ptr, ptr %3, align 8
  call void @turn_round(ptr noundef %28) #2
  %29 = load ptr, ptr %3, align 8
  %30 = getelementptr inbounds %struct.list, ptr %29, i32 0, i32 0
  %31 = load ptr, ptr %30, align 8
  call void @show(ptr noundef %31) #2
  %32 = load ptr, ptr %4, align 8
  %33 = load ptr, ptr %3, align 8
  %34 = getelementptr inbounds %struct.list, ptr %33, i32 0, i32 0
  %35 = load ptr, ptr %34, align 8
  call void @copy(ptr noundef %32, ptr noundef %35) #2
  %36 = load ptr, ptr %3, align 8
  call void @give_all_back(ptr noundef %36) #2
  %37 = load ptr, ptr %4, align 8
  %38 = getelementptr inbounds %struct.list, ptr %37, i32 0, i32 0
  %39 = load ptr, ptr %38, align 8
  %40 = call i64 @sum(ptr noundef %39) #2
  call void @print_i64(i64 noundef %40) #2
  %41 = load ptr, ptr %4, align 8
  call void @give_all_back(ptr noundef %41) #2
  %42 = load ptr, ptr %3, align 8
  %43 = getelementptr inbounds %struct.list, ptr %42, i32 0, i32 1
  %44 = load i64, ptr %43, align 8
  %45 = load ptr, ptr %4, align 8
  %46 = getelementptr inbounds %struct.list, ptr %45, i32 0, i32 1
  %47 = load i64, ptr %46, align 8
  %48 = add nsw i64 %44, %47
  call void @print_i64(i64 noundef %48) #2
  %49 = load ptr, ptr %3, align 8
  %50 = getelementptr inbounds %struct.list, ptr %49, i32 0, i32 2
  %51 = load i64, ptr %50, align 8
  %52 = load ptr, ptr %4, align 8
  %53 = getelementptr inbounds %struct.list, ptr %52, i32 0, i32 2
  %54 = load i64, ptr %53, align 8
  %55 = add nsw i64 %51, %54
  call void @print_i64(i64 noundef %55) #2
  ret void
}

; Function Attrs: noinline nounwind
define internal void @insert(ptr noundef %0, i64 noundef %1) #0 {
  %3 = alloca ptr, align 8
  %4 = alloca i64, align 8
  %5 = alloca ptr, align 8
  store ptr %0, ptr %3, align 8
  store i64 %1, ptr %4, align 8
  %6 = load ptr, ptr %3, align 8
  %7 = getelementptr inbounds %struct.list, ptr %6, i32 0, i32 0
  store ptr %7, ptr %5, align 8
  br label %8

8:                                                ; preds = %21, %2
  %9 = load ptr, ptr %5, align 8
  %10 = load ptr, ptr %9, align 8
  %11 = icmp ne ptr %10, null
  br i1 %11, label %12, label %19

12:                                               ; preds = %8
  %13 = load ptr, ptr %5, align 8
  %14 = load ptr, ptr %13, align 8
  %15 = getelementptr inbounds %struct.node, ptr %14, i32 0, i32 0
  %16 = load i64, ptr %15, align 8
  %17 = load i64, ptr %4, align 8
  %18 = icmp slt i64 %16, %17
  br label %19

19:                                               ; preds = %12, %8
  %20 = phi i1 [ false, %8 ], [ %18, %12 ]
  br i1 %20, label %21, label %25

21:                                               ; preds = %19
  %22 = load ptr, ptr %5, align 8
  %23 = load ptr, ptr %22, align 8
  %24 = getelementptr inbounds %struct.node, ptr %23, i32 0, i32 1
  store ptr %24, ptr %5, align 8
  br label %8, !llvm.loop !7

25:                                               ; preds = %19
  %26 = load ptr, ptr %3, align 8
  %27 = load i64, ptr %4, align 8
  %28 = load ptr, ptr %5, align 8
  %29 = load ptr, ptr %28, align 8
  %30 = call ptr @take(ptr noundef %26, i64 noundef %27, ptr noundef %29) #2
  %31 = load ptr, ptr %5, align 8
  store ptr %30, ptr %31, align 8
  ret void
}

; Function Attrs: noinline nounwind
define internal void @show(ptr noundef %0) #0 {
  %2 = alloca ptr, align 8
  store ptr %0, ptr %2, align 8
  br label %3

3:                                                ; preds = %10, %1
  %4 = load ptr, ptr %2, align 8
  %5 = icmp ne ptr %4, null
  br i1 %5, label %6, label %14

6:                                                ; preds = %3
  %7 = load ptr, ptr %2, align 8
  %8 = getelementptr inbounds %struct.node, ptr %7, i32 0, i32 0
  %9 = load i64, ptr %8, align 8
  call void @print_i64(i64 noundef %9) #2
  br label %10

10:                                               ; preds = %6
  %11 = load ptr, ptr %2, align 8
  %12 = getelementptr inbounds %struct.node, ptr %11, i32 0, i32 1
  %13 = load ptr, ptr %12, align 8
  store ptr %13, ptr %2, align 8
  br label %3, !llvm.loop !8

14:                                               ; preds = %3
  ret void
}

; Function Attrs: noinline nounwind
define internal void @take_even_out(ptr noundef %0) #0 {
  %2 = alloca ptr, align 8
  %3 = alloca ptr, align 8
  %4 = alloca ptr, align 8
  store ptr %0, ptr %2, align 8
  %5 = load ptr, ptr %2, align 8
  %6 = getelementptr inbounds %struct.list, ptr %5, i32 0, i32 0
  store ptr %6, ptr %3, align 8
  br label %7

7:                                                ; preds = %29, %1
  %8 = load ptr, ptr %3, align 8
  %9 = load ptr, ptr %8, align 8
  %10 = icmp ne ptr %9, null
  br i1 %10, label %11, label %30

11:                                               ; preds = %7
  %12 = load ptr, ptr %3, align 8
  %13 = load ptr, ptr %12, align 8
  store ptr %13, ptr %4, align 8
  %14 = load ptr, ptr %4, align 8
  %15 = getelementptr inbounds %struct.node, ptr %14, i32 0, i32 0
  %16 = load i64, ptr %15, align 8
  %17 = srem i64 %16, 2
  %18 = icmp eq i64 %17, 0
  br i1 %18, label %19, label %26

19:                                               ; preds = %11
  %20 = load ptr, ptr %4, align 8
  %21 = getelementptr inbounds %struct.node, ptr %20, i32 0, i32 1
  %22 = load ptr, ptr %21, align 8
  %23 = load ptr, ptr %3, align 8
  store ptr %22, ptr %23, align 8
  %24 = load ptr, ptr %2, align 8
  %25 = load ptr, ptr %4, align 8
  call void @give_back(ptr noundef %24, ptr noundef %25) #2
  br label %29

26:                                               ; preds = %11
  %27 = load ptr, ptr %4, align 8
  %28 = getelementptr inbounds %struct.node, ptr %27, i32 0, i32 1
  store ptr %28, ptr %3, align 8
  br label %29

29:                                               ; preds = %26, %19
  br label %7, !llvm.loop !9

30:                                               ; preds = %7
  ret void
}

; Function Attrs: noinline nounwind
define internal void @turn_round(ptr noundef %0) #0 {
  %2 = alloca ptr, align 8
  %3 = alloca ptr, align 8
  %4 = alloca ptr, align 8
  %5 = alloca ptr, align 8
  store ptr %0, ptr %2, align 8
  store ptr null, ptr %3, align 8
  %6 = load ptr, ptr %2, align 8
  %7 = getelementptr inbounds %struct.list, ptr %6, i32 0, i32 0
  %8 = load ptr, ptr %7, align 8
  store ptr %8, ptr %4, align 8
  br label %9

9:                                                ; preds = %12, %1
  %10 = load ptr, ptr %4, align 8
  %11 = icmp ne ptr %10, null
  br i1 %11, label %12, label %21

12:                                               ; preds = %9
  %13 = load ptr, ptr %4, align 8
  store ptr %13, ptr %5, align 8
  %14 = load ptr, ptr %5, align 8
  %15 = getelementptr inbounds %struct.node, ptr %14, i32 0, i32 1
  %16 = load ptr, ptr %15, align 8
  store ptr %16, ptr %4, align 8
  %17 = load ptr, ptr %3, align 8
  %18 = load ptr, ptr %5, align 8
  %19 = getelementptr inbounds %struct.node, ptr %18, i32 0, i32 1
  store ptr %17, ptr %19, align 8
  %20 = load ptr, ptr %5, align 8
  store ptr %20, ptr %3, align 8
  br label %9, !llvm.loop !10

21:                                               ; preds = %9
  %22 = load ptr, ptr %3, align 8
  %23 = load ptr, ptr %2, align 8
  %24 = getelementptr inbounds %struct.list, ptr %23, i32 0, i32 0
  store ptr %22, ptr %24, align 8
  ret void
}

; Function Attrs: noinline nounwind
define internal void @copy(ptr noundef %0, ptr noundef %1) #0 {
  %3 = alloca ptr, align 8
  %4 = alloca ptr, align 8
  %5 = alloca ptr, align 8
  store ptr %0, ptr %3, align 8
  store ptr %1, ptr %4, align 8
  %6 = load ptr, ptr %3, align 8
  %7 = getelementptr inbounds %struct.list, ptr %6, i32 0, i32 0
  store ptr %7, ptr %5, align 8
  br label %8

8:                                                ; preds = %21, %2
  %9 = load ptr, ptr %4, align 8
  %10 = icmp ne ptr %9, null
  br i1 %10, label %11, label %25

11:                                               ; preds = %8
  %12 = load ptr, ptr %3, align 8
  %13 = load ptr, ptr %4, align 8
  %14 = getelementptr inbounds %struct.node, ptr %13, i32 0, i32 0
  %15 = load i64, ptr %14, align 8
  %16 = call ptr @take(ptr noundef %12, i64 noundef %15, ptr noundef null) #2
  %17 = load ptr, ptr %5, align 8
  store ptr %16, ptr %17, align 8
  %18 = load ptr, ptr %5, align 8
  %19 = load ptr, ptr %18, align 8
  %20 = getelementptr inbounds %struct.node, ptr %19, i32 0, i32 1
  store ptr %20, ptr %5, align 8
  br label %21

21:                                               ; preds = %11
  %22 = load ptr, ptr %4, align 8
  %23 = getelementptr inbounds %struct.node, ptr %22, i32 0, i32 1
  %24 = load ptr, ptr %23, align 8
  store ptr %24, ptr %4, align 8
  br label %8, !llvm.loop !11

25:                                               ; preds = %8
  ret void
}

; Function Attrs: noinline nounwind
define internal void @give_all_back(ptr noundef %0) #0 {
  %2 = alloca ptr, align 8
  %3 = alloca ptr, align 8
  store ptr %0, ptr %2, align 8
  br label %4

4:                                                ; preds = %9, %1
  %5 = load ptr, ptr %2, align 8
  %6 = getelementptr inbounds %struct.list, ptr %5, i32 0, i32 0
  %7 = load ptr, ptr %6, align 8
  %8 = icmp ne ptr %7, null
  br i1 %8, label %9, label %20

9:                                                ; preds = %4
  %10 = load ptr, ptr %2, align 8
  %11 = getelementptr inbounds %struct.list, ptr %10, i32 0, i32 0
  %12 = load ptr, ptr %11, align 8
  store ptr %12, ptr %3, align 8
  %13 = load ptr, ptr %3, align 8
  %14 = getelementptr inbounds %struct.node, ptr %13, i32 0, i32 1
  %15 = load ptr, ptr %14, align 8
  %16 = load ptr, ptr %2, align 8
  %17 = getelementptr inbounds %struct.list, ptr %16, i32 0, i32 0
  store ptr %15, ptr %17, align 8
  %18 = load ptr, ptr %2, align 8
  %19 = load ptr, ptr %3, align 8
  call void @give_back(ptr noundef %18, ptr noundef %19) #2
  br label %4, !llvm.loop !12

20:                                               ; preds = %4
  ret void
}

declare void @print_i64(i64 noundef) #1

; Function Attrs: noinline nounwind
define internal i64 @sum(ptr noundef %0) #0 {
  %2 = alloca ptr, align 8
  store ptr %0, ptr %2, align 8
  %3 = load ptr, ptr %2, align 8
  %4 = icmp eq ptr %3, null
  br i1 %4, label %5, label %6

5:                                                ; preds = %1
  br label %15

6:                                                ; preds = %1
  %7 = load ptr, ptr %2, align 8
  %8 = getelementptr inbounds %struct.node, ptr %7, i32 0, i32 0
  %9 = load i64, ptr %8, align 8
  %10 = load ptr, ptr %2, align 8
  %11 = getelementptr inbounds %struct.node, ptr %10, i32 0, i32 1
  %12 = load ptr, ptr %11, align 8
  %13 = call i64 @sum(ptr noundef %12) #2
  %14 = add nsw i64 %9, %13
  br label %15

15:                                               ; preds = %6, %5
  %16 = phi i64 [ 0, %5 ], [ %14, %6 ]
  ret i64 %16
}

; Function Attrs: noinline nounwind
define internal ptr @take(ptr noundef %0, i64 noundef %1, ptr noundef %2) #0 {
  %4 = alloca ptr, align 8
  %5 = alloca i64, align 8
  %6 = alloca ptr, align 8
  %7 = alloca ptr, align 8
  store ptr %0, ptr %4, align 8
  store i64 %1, ptr %5, align 8
  store ptr %2, ptr %6, align 8
  %8 = call ptr @malloc(i64 noundef 16) #2
  store ptr %8, ptr %7, align 8
  %9 = load i64, ptr %5, align 8
  %10 = load ptr, ptr %7, align 8
  %11 = getelementptr inbounds %struct.node, ptr %10, i32 0, i32 0
  store i64 %9, ptr %11, align 8
  %12 = load ptr, ptr %6, align 8
  %13 = load ptr, ptr %7, align 8
  %14 = getelementptr inbounds %struct.node, ptr %13, i32 0, i32 1
  store ptr %12, ptr %14, align 8
  %15 = load ptr, ptr %4, align 8
  %16 = getelementptr inbounds %struct.list, ptr %15, i32 0, i32 1
  %17 = load i64, ptr %16, align 8
  %18 = add nsw i64 %17, 1
  store i64 %18, ptr %16, align 8
  %19 = load ptr, ptr %7, align 8
  ret ptr %19
}

declare ptr @malloc(i64 noundef) #1

; Function Attrs: noinline nounwind
define internal void @give_back(ptr noundef %0, ptr noundef %1) #0 {
  %3 = alloca ptr, align 8
  %4 = alloca ptr, align 8
  store ptr %0, ptr %3, align 8
  store ptr %1, ptr %4, align 8
  %5 = load ptr, ptr %4, align 8
  call void @free(ptr noundef %5) #2
  %6 = load ptr, ptr %3, align 8
  %7 = getelementptr inbounds %struct.list, ptr %6, i32 0, i32 2
  %8 = load i64, ptr %7, align 8
  %9 = add nsw i64 %8, 1
  store i64 %9, ptr %7, align 8
  ret void
}

declare void @free(ptr noundef) #1

attributes #0 = { noinline nounwind "frame-pointer"="all" "min-legal-vector-width"="0" "no-builtins" "no-trapping-math"="true" "stack-protector-buffer-size"="8" "target-cpu"="x86-64" "target-features"="+cx8,+fxsr,+mmx,+sse,+sse2,+x87" "tune-cpu"="generic" }
attributes #1 = { "frame-pointer"="all" "no-builtins" "no-trapping-math"="true" "stack-protector-buffer-size"="8" "target-cpu"="x86-64" "target-features"="+cx8,+fxsr,+mmx,+sse,+sse2,+x87" "tune-cpu"="generic" }
attributes #2 = { nobuiltin "no-builtins" }

!llvm.module.flags = !{!0, !1, !2, !3}
!llvm.ident = !{!4}

!0 = !{i32 1, !"wchar_size", i32 4}
!1 = !{i32 8, !"PIC Level", i32 2}
!2 = !{i32 7, !"PIE Level", i32 2}
!3 = !{i32 7, !"frame-pointer", i32 2}
!4 = !{!"Debian clang version 16.0.6 (15~deb12u1)"}
!5 = distinct !{!5, !6}
!6 = !{!"llvm.loop.mustprogress"}
!7 = distinct !{!7, !6}
!8 = distinct !{!8, !6}
!9 = distinct !{!9, !6}
!10 = distinct !{!10, !6}
!11 = distinct !{!11, !6}
!12 = distinct !{!12, !6}
