; ModuleID = 'growing_array.c'
source_filename = "growing_array.c"
target datalayout = "e-m:e-p270:32:32-p271:32:32-p272:64:64-i64:64-f80:128-n8:16:32:64-S128"
target triple = "x86_64-pc-linux-gnu"

%struct.work = type { %struct.array, %struct.array, %struct.array, i64, i64 }
%struct.array = type { ptr, i64, i64 }

@work = internal global %struct.work zeroinitializer, align 8

; Function Attrs: noinline nounwind
define dso_local i32 @main() #0 {
  call void @do_work(ptr noundef @work) #2
  ret i32 0
}

; Function Attrs: noinline nounwind
define internal void @do_work(ptr noundef %0) #0 {
  %2 = alloca ptr, align 8
  %3 = alloca i64, align 8
  store ptr %0, ptr %2, align 8
  store i64 0, ptr %3, align 8
  br label %4

4:                                                ; preds = %18, %1
  %5 = load i64, ptr %3, align 8
  %6 = icmp slt i64 %5, 250
  br i1 %6, label %7, label %21

7:                                                ; preds = %4
  %8 = load ptr, ptr %2, align 8
  %9 = load ptr, ptr %2, align 8
  %10 = getelementptr inbounds %struct.work, ptr %9, i32 0, i32 0
  %11 = load i64, ptr %3, align 8
  call void @push(ptr noundef %8, ptr noundef %10, i64 noundef %11) #2
  %12 = load ptr, ptr %2, align 8
  %13 = load ptr, ptr %2, align 8
  %14 = getelementptr inbounds %struct.work, ptr %13, i32 0, i32 1
  %15 = load i64, ptr %3, align 8
  %16 = load i64, ptr %3, align 8
  %17 = mul nsw i64 %15, %16
  call void @push(ptr noundef %12, ptr noundef %14, i64 noundef %17) #2
  br label %18

18:                                               ; preds = %7
  %19 = load i64, ptr %3, align 8
  %20 = add nsw i64 %19, 1
  store i64 %20, ptr %3, align 8
  br label %4, !llvm.loop !5

21:                                               ; preds = %4
  %22 = load ptr, ptr %2, align 8
  %23 = getelementptr inbounds %struct.work, ptr %22, i32 0, i32 0
  %24 = getelementptr inbounds %struct.array, ptr %23, i32 0, i32 1
  %25 = load i64, ptr %24, align 8
  call void @print_i64(i64 noundef %25) #2
  %26 = load ptr, ptr %2, align 8
  %27 = getelementptr inbounds %struct.work, ptr %26, i32 0, i32 1
  %28 = getelementptr inbounds %struct.array, ptr %27, i32 0, i32 1
  %29 = load i64, ptr %28, align 8
  call void @print_i64(i64 noundef %29) #2
  %30 = load ptr, ptr %2, align 8
  %31 = getelementptr inbounds %struct.work, ptr %30, i32 0, i32 0
  %32 = getelementptr inbounds %struct.array, ptr %31, i32 0, i32 2
  %33 = load i64, ptr %32, align 8
  call void @print_i64(i64 noundef %33) #2
  %34 = load ptr, ptr %2, align 8
  %35 = getelementptr inbounds %struct.work, ptr %34, i32 0, i32 1
  %36 = getelementptr inbounds %struct.array, ptr %35, i32 0, i32 2
  %37 = load i64, ptr %36, align 8
  call void @print_i64(i64 noundef %37) #2
  %38 = load ptr, ptr %2, align 8
  %39 = getelementptr inbounds %struct.work, ptr %38, i32 0, i32 3
  %40 = load i64, ptr %39, align 8
  call void @print_i64(i64 noundef %40) #2
  %41 = load ptr, ptr %2, align 8
  %42 = getelementptr inbounds %struct.work, ptr %41, i32 0, i32 0
  %43 = call i64 @last(ptr noundef %42) #2
  call void @print_i64(i64 noundef %43) #2
  %44 = load ptr, ptr %2, align 8
  %45 = getelementptr inbounds %struct.work, ptr %44, i32 0, i32 1
  %46 = call i64 @last(ptr noundef %45) #2
  call void @print_i64(i64 noundef %46) #2
  %47 = load ptr, ptr %2, align 8
  %48 = getelementptr inbounds %struct.work, ptr %47, i32 0, i32 1
  %49 = call i64 @sum(ptr noundef %48) #2
  call void @print_i64(i64 noundef %49) #2
  %50 = load ptr, ptr %2, align 8
  call void @find_both(ptr noundef %50) #2
  %51 = load ptr, ptr %2, align 8
  %52 = getelementptr inbounds %struct.work, ptr %51, i32 0, i32 2
  %53 = getelementptr inbounds %struct.array, ptr %52, i32 0, i32 1
  %54 = load i64, ptr %53, align 8
  call void @print_i64(i64 noundef %54) #2
  %55 = load ptr, ptr %2, align 8
  %56 = getelementptr inbounds %struct.work, ptr %55, i32 0, i32 2
  %57 = getelementptr inbounds %struct.array, ptr %56, i32 0, i32 2
  %58 = load i64, ptr %57, align 8
  call void @print_i64(i64 noundef %58) #2
  %59 = load ptr, ptr %2, align 8
  %60 = getelementptr inbounds %struct.work, ptr %59, i32 0, i32 2
  %61 = call i64 @last(ptr noundef %60) #2
  call void @print_i64(i64 noundef %61) #2
  %62 = load ptr, ptr %2, align 8
  %63 = getelementptr inbounds %struct.work, ptr %62, i32 0, i32 2
  %64 = call i64 @sum(ptr noundef %63) #2
  call void @print_i64(i64 noundef %64) #2
  %65 = load ptr, ptr %2, align 8
  %66 = load ptr, ptr %2, align 8
  %67 = getelementptr inbounds %struct.work, ptr %66, i32 0, i32 0
  %68 = getelementptr inbounds %struct.array, ptr %67, i32 0, i32 0
  %69 = load ptr, ptr %68, align 8
  call void @give_back(ptr noundef %65, ptr noundef %69) #2
  %70 = load ptr, ptr %2, align 8
  %71 = load ptr, ptr %2, align 8
  %72 = getelementptr inbounds %struct.work, ptr %71, i32 0, i32 1
  %73 = getelementptr inbounds %struct.array, ptr %72, i32 0, i32 0
  %74 = load ptr, ptr %73, align 8
  call void @give_back(ptr noundef %70, ptr noundef %74) #2
  %75 = load ptr, ptr %2, align 8
  %76 = load ptr, ptr %2, align 8
  %77 = getelementptr inbounds %struct.work, ptr %76, i32 0, i32 2
  %78 = getelementptr inbounds %struct.array, ptr %77, i32 0, i32 0
  %79 = load ptr, ptr %78, align 8
  call void @give_back(ptr noundef %75, ptr noundef %79) #2
  %80 = load ptr, ptr %2, align 8
  %81 = getelementptr inbounds %struct.work, ptr %80, i32 0, i32 3
  %82 = load i64, ptr %81, align 8
  %83 = load ptr, ptr %2, align 8
  %84 = getelementptr inbounds %struct.work, ptr %83, i32 0, i32 4
  %85 = load i64, ptr %84, align 8
  %86 = sub nsw i64 %82, %85
  call void @print_i64(i64 noundef %86) #2
  ret void
}

; Function Attrs: noinline nounwind
define internal void @push(ptr noundef %0, ptr noundef %1, i64 noundef %2) #0 {
  %4 = alloca ptr, align 8
  %5 = alloca ptr, align 8
  %6 = alloca i64, align 8
  store ptr %0, ptr %4, align 8
  store ptr %1, ptr %5, align 8
  store i64 %2, ptr %6, align 8
  %7 = load ptr, ptr %5, align 8
  %8 = getelementptr inbounds %struct.array, ptr %7, i32 0, i32 1
  %9 = load i64, ptr %8, align 8
  %10 = load ptr, ptr %5, align 8
  %11 = getelementptr inbounds %struct.array, ptr %10, i32 0, i32 2
  %12 = load i64, ptr %11, align 8
  %13 = icmp eq i64 %9, %12
  br i1 %13, label %14, label %17

14:                                               ; preds = %3
  %15 = load ptr, ptr %4, align 8
  %16 = load ptr, ptr %5, align 8
  call void @grow(ptr noundef %15, ptr noundef %16) #2
  br label %17

17:                                               ; preds = %14, %3
  %18 = load i64, ptr %6, align 8
  %19 = load ptr, ptr %5, align 8
  %20 = getelementptr inbounds %struct.array, ptr %19, i32 0, i32 0
  %21 = load ptr, ptr %20, align 8
  %22 = load ptr, ptr %5, align 8
  %23 = getelementptr inbounds %struct.array, ptr %22, i32 0, i32 1
  %24 = load i64, ptr %23, align 8
  %25 = getelementptr inbounds i64, ptr %21, i64 %24
  store i64 %18, ptr %25, align 8
  %26 = load ptr, ptr %5, align 8
  %27 = getelementptr inbounds %struct.array, ptr %26, i32 0, i32 1
  %28 = load i64, ptr %27, align 8
  %29 = add nsw i64 %28, 1
  store i64 %29, ptr %27, align 8
  ret void
}

declare void @print_i64(i64 noundef) #1

; Function Attrs: noinline nounwind
define internal i64 @last(ptr noundef %0) #0 {
  %2 = alloca ptr, align 8
  store ptr %0, ptr %2, align 8
  %3 = load ptr, ptr %2, align 8
  %4 = getelementptr inbounds %struct.array, ptr %3, i32 0, i32 0
  %5 = load ptr, ptr %4, align 8
  %6 = load ptr, ptr %2, align 8
  %7 = getelementptr inbounds %struct.array, ptr %6, i32 0, i32 1
  %8 = load i64, ptr %7, align 8
  %9 = sub nsw i64 %8, 1
  %10 = getelementptr inbounds i64, ptr %5, i64 %9
  %11 = load i64, ptr %10, align 8
  ret i64 %11
}

; Function Attrs: noinline nounwind
define internal i64 @sum(ptr noundef %0) #0 {
  %2 = alloca ptr, align 8
  %3 = alloca i64, align 8
  %4 = alloca i64, align 8
  store ptr %0, ptr %2, align 8
  store i64 0, ptr %3, align 8
  store i64 0, ptr %4, align 8
  br label %5

5:                                                ; preds = %20, %1
  %6 = load i64, ptr %4, align 8
  %7 = load ptr, ptr %2, align 8
  %8 = getelementptr inbounds %struct.array, ptr %7, i32 0, i32 1
  %9 = load i64, ptr %8, align 8
  %10 = icmp slt i64 %6, %9
  br i1 %10, label %11, label %23

11:                                               ; preds = %5
  %12 = load ptr, ptr %2, align 8
  %13 = getelementptr inbounds %struct.array, ptr %12, i32 0, i32 0
  %14 = load ptr, ptr %13, align 8
  %15 = load i64, ptr %4, align 8
  %16 = getelementptr inbounds i64, ptr %14, i64 %15
  %17 = load i64, ptr %16, align 8
  %18 = load i64, ptr %3, align 8
  %19 = add nsw i64 %18, %17
  store i64 %19, ptr %3, align 8
  br label %20

20:                                               ; preds = %11
  %21 = load i64, ptr %4, align 8
  %22 = add nsw i64 %21, 1
  store i64 %22, ptr %4, align 8
  br label %5, !llvm.loop !7

23:                                               ; preds = %5
  %24 = load i64, ptr %3, align 8
  ret i64 %24
}

; Function Attrs: noinline nounwind
define internal void @find_both(ptr noundef %0) #0 {
  %2 = alloca ptr, align 8
  %3 = alloca i64, align 8
  %4 = alloca i64, align 8
  store ptr %0, ptr %2, align 8
  store i64 0, ptr %3, align 8
  store i64 0, ptr %4, align 8
  br label %5

5:                                                ; preds = %60, %1
  %6 = load i64, ptr %4, align 8
  %7 = load ptr, ptr %2, align 8
  %8 = getelementptr inbounds %struct.work, ptr %7, i32 0, i32 0
  %9 = getelementptr inbounds %struct.array, ptr %8, i32 0, i32 1
  %10 = load i64, ptr %9, align 8
  %11 = icmp slt i64 %6, %10
  br i1 %11, label %12, label %63

12:                                               ; preds = %5
  br label %13

13:                                               ; preds = %29, %12
  %14 = load ptr, ptr %2, align 8
  %15 = getelementptr inbounds %struct.work, ptr %14, i32 0, i32 1
  %16 = getelementptr inbounds %struct.array, ptr %15, i32 0, i32 0
  %17 = load ptr, ptr %16, align 8
  %18 = load i64, ptr %3, align 8
  %19 = getelementptr inbounds i64, ptr %17, i64 %18
  %20 = load i64, ptr %19, align 8
  %21 = load ptr, ptr %2, align 8
  %22 = getelementptr inbounds %struct.work, ptr %21, i32 0, i32 0
  %23 = getelementptr inbounds %struct.array, ptr %22, i32 0, i32 0
  %24 = load ptr, ptr %23, align 8
  %25 = load i64, ptr %4, align 8
  %26 = getelementptr inbounds i64, ptr %24, i64 %25
  %27 = load i64, ptr %26, align 8
  %28 = icmp slt i64 %20, %27
  br i1 %28, label %29, label %32

29:                                               ; preds = %13
  %30 = load i64, ptr %3, align 8
  %31 = add nsw i64 %30, 1
  store i64 %31, ptr %3, align 8
  br label %13, !llvm.loop !8

32:                                               ; preds = %13
  %33 = load ptr, ptr %2, align 8
  %34 = getelementptr inbounds %struct.work, ptr %33, i32 0, i32 1
  %35 = getelementptr inbounds %struct.array, ptr %34, i32 0, i32 0
  %36 = load ptr, ptr %35, align 8
  %37 = load i64, ptr %3, align 8
  %38 = getelementptr inbounds i64, ptr %36, i64 %37
  %39 = load i64, ptr %38, align 8
  %40 = load ptr, ptr %2, align 8
  %41 = getelementptr inbounds %struct.work, ptr %40, i32 0, i32 0
  %42 = getelementptr inbounds %struct.array, ptr %41, i32 0, i32 0
  %43 = load ptr, ptr %42, align 8
  %44 = load i64, ptr %4, align 8
  %45 = getelementptr inbounds i64, ptr %43, i64 %44
  %46 = load i64, ptr %45, align 8
  %47 = icmp eq i64 %39, %46
  br i1 %47, label %48, label %59

48:                                               ; preds = %32
  %49 = load ptr, ptr %2, align 8
  %50 = load ptr, ptr %2, align 8
  %51 = getelementptr inbounds %struct.work, ptr %50, i32 0, i32 2
  %52 = load ptr, ptr %2, align 8
  %53 = getelementptr inbounds %struct.work, ptr %52, i32 0, i32 0
  %54 = getelementptr inbounds %struct.array, ptr %53, i32 0, i32 0
  %55 = load ptr, ptr %54, align 8
  %56 = load i64, ptr %4, align 8
  %57 = getelementptr inbounds i64, ptr %55, i64 %56
  %58 = load i64, ptr %57, align 8
  call void @push(ptr noundef %49, ptr noundef %51, i64 noundef %58) #2
  br label %59

59:                                               ; preds = %48, %32
  br label %60

60:                                               ; preds = %59
  %61 = load i64, ptr %4, align 8
  %62 = add nsw i64 %61, 1
  store i64 %62, ptr %4, align 8
  br label %5, !llvm.loop !9

63:                                               ; preds = %5
  ret void
}

; Function Attrs: noinline nounwind
define internal void @give_back(ptr noundef %0, ptr noundef %1) #0 {
  %3 = alloca ptr, align 8
  %4 = alloca ptr, align 8
  store ptr %0, ptr %3, align 8
  store ptr %1, ptr %4, align 8
  %5 = load ptr, ptr %4, align 8
  %6 = icmp ne ptr %5, null
  br i1 %6, label %7, label %12

7:                                                ; preds = %2
  %8 = load ptr, ptr %3, align 8
  %9 = getelementptr inbounds %struct.work, ptr %8, i32 0, i32 4
  %10 = load i64, ptr %9, align 8
  %11 = add nsw i64 %10, 1
  store i64 %11, ptr %9, align 8
  br label %12

12:                                               ; preds = %7, %2
  %13 = load ptr, ptr %4, align 8
  call void @free(ptr noundef %13) #2
  ret void
}

; Function Attrs: noinline nounwind
define internal void @grow(ptr noundef %0, ptr noundef %1) #0 {
  %3 = alloca ptr, align 8
  %4 = alloca ptr, align 8
  %5 = alloca i64, align 8
  %6 = alloca ptr, align 8
  %7 = alloca i64, align 8
  store ptr %0, ptr %3, align 8
  store ptr %1, ptr %4, align 8
  %8 = load ptr, ptr %4, align 8
  %9 = getelementptr inbounds %struct.array, ptr %8, i32 0, i32 2
  %10 = load i64, ptr %9, align 8
  %11 = icmp eq i64 %10, 0
  br i1 %11, label %12, label %13

12:                                               ; preds = %2
  br label %18

13:                                               ; preds = %2
  %14 = load ptr, ptr %4, align 8
  %15 = getelementptr inbounds %struct.array, ptr %14, i32 0, i32 2
  %16 = load i64, ptr %15, align 8
  %17 = mul nsw i64 %16, 2
  br label %18

18:                                               ; preds = %13, %12
  %19 = phi i64 [ 2, %12 ], [ %17, %13 ]
  store i64 %19, ptr %5, align 8
  %20 = load ptr, ptr %3, align 8
  %21 = load i64, ptr %5, align 8
  %22 = call ptr @take(ptr noundef %20, i64 noundef %21) #2
  store ptr %22, ptr %6, align 8
  store i64 0, ptr %7, align 8
  br label %23

23:                                               ; preds = %39, %18
  %24 = load i64, ptr %7, align 8
  %25 = load ptr, ptr %4, align 8
  %26 = getelementptr inbounds %struct.array, ptr %25, i32 0, i32 1
  %27 = load i64, ptr %26, align 8
  %28 = icmp slt i64 %24, %27
  br i1 %28, label %29, label %42

29:                                               ; preds = %23
  %30 = load ptr, ptr %4, align 8
  %31 = getelementptr inbounds %struct.array, ptr %30, i32 0, i32 0
  %32 = load ptr, ptr %31, align 8
  %33 = load i64, ptr %7, align 8
  %34 = getelementptr inbounds i64, ptr %32, i64 %33
  %35 = load i64, ptr %34, align 8
  %36 = load ptr, ptr %6, align 8
  %37 = load i64, ptr %7, align 8
  %38 = getelementptr inbounds i64, ptr %36, i64 %37
  store i64 %35, ptr %38, align 8
  br label %39

39:                                               ; preds = %29
  %40 = load i64, ptr %7, align 8
  %41 = add nsw i64 %40, 1
  store i64 %41, ptr %7, align 8
  br label %23, !llvm.loop !10

42:                                               ; preds = %23
  %43 = load ptr, ptr %3, align 8
  %44 = load ptr, ptr %4, align 8
  %45 = getelementptr inbounds %struct.array, ptr %44, i32 0, i32 0
  %46 = load ptr, ptr %45, align 8
  call void @give_back(ptr noundef %43, ptr noundef %46) #2
  %47 = load ptr, ptr %6, align 8
  %48 = load ptr, ptr %4, align 8
  %49 = getelementptr inbounds %struct.array, ptr %48, i32 0, i32 0
  store ptr %47, ptr %49, align 8
  %50 = load i64, ptr %5, align 8
  %51 = load ptr, ptr %4, align 8
  %52 = getelementptr inbounds %struct.array, ptr %51, i32 0, i32 2
  store i64 %50, ptr %52, align 8
  ret void
}

; Function Attrs: noinline nounwind
define internal ptr @take(ptr noundef %0, i64 noundef %1) #0 {
  %3 = alloca ptr, align 8
  %4 = alloca i64, align 8
  store ptr %0, ptr %3, align 8
  store i64 %1, ptr %4, align 8
  %5 = load ptr, ptr %3, align 8
  %6 = getelementptr inbounds %struct.work, ptr %5, i32 0, i32 3
  %7 = load i64, ptr %6, align 8
  %8 = add nsw i64 %7, 1
  store i64 %8, ptr %6, align 8
  %9 = load i64, ptr %4, align 8
  %10 = mul i64 %9, 8
  %11 = call ptr @malloc(i64 noundef %10) #2
  ret ptr %11
}

declare ptr @malloc(i64 noundef) #1

declare void @free(ptr noundef) #1

attributes #0 = { noinline nounwind "frame-pointer"="all" "min-legal-vector-width"="0" "no-builtins" "no-trapping-math"="true" "stack-protector-buffer-size"="8" "target-cpu"="x86-64" "target-features"="+cx8,+fxsr,+mmx,+sse,+sse2,+x87" "tune-cpu"="generic" }
attributes #1 = { "frame-pointer"="all" "no-builtins" "no-trapping-math"="true" "stack-protector-buffer-size"="8" "target-cpu"="x86-64" "target-features"="+cx8,+fxsr,+mmx,+sse,+sse2,+x87" "tune-cpu"="generic" }
attributes #2 = { nobuiltin "no-builtins" }

!llvm.module.flags = !{!0, !1, !2, !3}
!llvm.ident = !{!4}

!0 = !{i32 1, !"wchar_size", i32 4}
!1 = !{i32 8, !"PIC Level", i32 2}
!2 = !{i32 7, !"PIE Level", i32 2}
!3 = !{i32 7, !"frame-pointer", i32 2}
!4 = !{!"Debian clang version 16.0.6 (15~deb12u1)"}
!5 = distinct !{!5, !6}
!6 = !{!"llvm.loop.mustprogress"}
!7 = distinct !{!7, !6}
!8 = distinct !{!8, !6}
!9 = distinct !{!9, !6}
!10 = distinct !{!10, !6}
