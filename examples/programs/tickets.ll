; ModuleID = 'tickets.c'
source_filename = "tickets.c"
target datalayout = "e-m:e-p270:32:32-p271:32:32-p272:64:64-i64:64-f80:128-n8:16:32:64-S128"
target triple = "x86_64-pc-linux-gnu"

%struct.shared = type { %struct.lock, i64, i64, i8 }
%struct.lock = type { i32, i32 }

@shared = internal global %struct.shared zeroinitializer, align 8

; Function Attrs: noinline nounwind
define dso_local i32 @main() #0 {
  call void @run(ptr noundef @shared) #2
  ret i32 0
}

; Function Attrs: noinline nounwind
define internal void @run(ptr noundef %0) #0 {
  %2 = alloca ptr, align 8
  %3 = alloca [4 x i64], align 16
  %4 = alloca i32, align 4
  %5 = alloca i32, align 4
  store ptr %0, ptr %2, align 8
  %6 = load ptr, ptr %2, align 8
  %7 = getelementptr inbounds %struct.shared, ptr %6, i32 0, i32 3
  store i8 1, ptr %7, align 8
  store i32 0, ptr %4, align 4
  br label %8

8:                                                ; preds = %17, %1
  %9 = load i32, ptr %4, align 4
  %10 = icmp slt i32 %9, 4
  br i1 %10, label %11, label %20

11:                                               ; preds = %8
  %12 = load i32, ptr %4, align 4
  %13 = sext i32 %12 to i64
  %14 = getelementptr inbounds [4 x i64], ptr %3, i64 0, i64 %13
  %15 = load ptr, ptr %2, align 8
  %16 = call i32 @pthread_create(ptr noundef %14, ptr noundef null, ptr noundef @work, ptr noundef %15) #2
  br label %17

17:                                               ; preds = %11
  %18 = load i32, ptr %4, align 4
  %19 = add nsw i32 %18, 1
  store i32 %19, ptr %4, align 4
  br label %8, !llvm.loop !5

20:                                               ; preds = %8
  store i32 0, ptr %5, align 4
  br label %21

21:                                               ; preds = %30, %20
  %22 = load i32, ptr %5, align 4
  %23 = icmp slt i32 %22, 4
  br i1 %23, label %24, label %33

24:                                               ; preds = %21
  %25 = load i32, ptr %5, align 4
  %26 = sext i32 %25 to i64
  %27 = getelementptr inbounds [4 x i64], ptr %3, i64 0, i64 %26
  %28 = load i64, ptr %27, align 8
  %29 = call i32 @pthread_join(i64 noundef %28, ptr noundef null) #2
  br label %30

30:                                               ; preds = %24
  %31 = load i32, ptr %5, align 4
  %32 = add nsw i32 %31, 1
  store i32 %32, ptr %5, align 4
  br label %21, !llvm.loop !7

33:                                               ; preds = %21
  %34 = load ptr, ptr %2, align 8
  %35 = getelementptr inbounds %struct.shared, ptr %34, i32 0, i32 1
  %36 = load i64, ptr %35, align 8
  call void @print_i64(i64 noundef %36) #2
  %37 = load ptr, ptr %2, align 8
  %38 = getelementptr inbounds %struct.shared, ptr %37, i32 0, i32 2
  %39 = load i64, ptr %38, align 8
  call void @print_i64(i64 noundef %39) #2
  %40 = load ptr, ptr %2, align 8
  %41 = getelementptr inbounds %struct.shared, ptr %40, i32 0, i32 3
  %42 = load i8, ptr %41, align 8
  %43 = trunc i8 %42 to i1
  %44 = zext i1 %43 to i64
  call void @print_i64(i64 noundef %44) #2
  ret void
}

declare i32 @pthread_create(ptr noundef, ptr noundef, ptr noundef, ptr noundef) #1

; Function Attrs: noinline nounwind
define internal ptr @work(ptr noundef %0) #0 {
  %2 = alloca ptr, align 8
  %3 = alloca ptr, align 8
  %4 = alloca i32, align 4
  %5 = alloca i32, align 4
  store ptr %0, ptr %2, align 8
  %6 = load ptr, ptr %2, align 8
  store ptr %6, ptr %3, align 8
  store i32 0, ptr %4, align 4
  br label %7

7:                                                ; preds = %36, %1
  %8 = load i32, ptr %4, align 4
  %9 = icmp slt i32 %8, 10
  br i1 %9, label %10, label %39

10:                                               ; preds = %7
  %11 = load ptr, ptr %3, align 8
  %12 = getelementptr inbounds %struct.shared, ptr %11, i32 0, i32 0
  %13 = call i32 @take(ptr noundef %12) #2
  store i32 %13, ptr %5, align 4
  %14 = load ptr, ptr %3, align 8
  %15 = getelementptr inbounds %struct.shared, ptr %14, i32 0, i32 1
  %16 = load i64, ptr %15, align 8
  %17 = load i32, ptr %5, align 4
  %18 = zext i32 %17 to i64
  %19 = icmp ne i64 %16, %18
  br i1 %19, label %20, label %23

20:                                               ; preds = %10
  %21 = load ptr, ptr %3, align 8
  %22 = getelementptr inbounds %struct.shared, ptr %21, i32 0, i32 3
  store i8 0, ptr %22, align 8
  br label %23

23:                                               ; preds = %20, %10
  %24 = load ptr, ptr %3, align 8
  %25 = getelementptr inbounds %struct.shared, ptr %24, i32 0, i32 1
  %26 = load i64, ptr %25, align 8
  %27 = add nsw i64 %26, 1
  store i64 %27, ptr %25, align 8
  %28 = load i32, ptr %5, align 4
  %29 = zext i32 %28 to i64
  %30 = load ptr, ptr %3, align 8
  %31 = getelementptr inbounds %struct.shared, ptr %30, i32 0, i32 2
  %32 = load i64, ptr %31, align 8
  %33 = add nsw i64 %32, %29
  store i64 %33, ptr %31, align 8
  %34 = load ptr, ptr %3, align 8
  %35 = getelementptr inbounds %struct.shared, ptr %34, i32 0, i32 0
  call void @give(ptr noundef %35) #2
  br label %36

36:                                               ; preds = %23
  %37 = load i32, ptr %4, align 4
  %38 = add nsw i32 %37, 1
  store i32 %38, ptr %4, align 4
  br label %7, !llvm.loop !8

39:                                               ; preds = %7
  ret ptr null
}

declare i32 @pthread_join(i64 noundef, ptr noundef) #1

declare void @print_i64(i64 noundef) #1

; Function Attrs: noinline nounwind
define internal i32 @take(ptr noundef %0) #0 {
  %2 = alloca ptr, align 8
  %3 = alloca i32, align 4
  %4 = alloca i32, align 4
  %5 = alloca i32, align 4
  %6 = alloca i32, align 4
  store ptr %0, ptr %2, align 8
  %7 = load ptr, ptr %2, align 8
  %8 = getelementptr inbounds %struct.lock, ptr %7, i32 0, i32 0
  store i32 1, ptr %4, align 4
  %9 = load i32, ptr %4, align 4
  %10 = atomicrmw add ptr %8, i32 %9 monotonic, align 4
  store i32 %10, ptr %5, align 4
  %11 = load i32, ptr %5, align 4
  store i32 %11, ptr %3, align 4
  br label %12

12:                                               ; preds = %19, %1
  %13 = load ptr, ptr %2, align 8
  %14 = getelementptr inbounds %struct.lock, ptr %13, i32 0, i32 1
  %15 = load atomic i32, ptr %14 acquire, align 4
  store i32 %15, ptr %6, align 4
  %16 = load i32, ptr %6, align 4
  %17 = load i32, ptr %3, align 4
  %18 = icmp ne i32 %16, %17
  br i1 %18, label %19, label %20

19:                                               ; preds = %12
  br label %12, !llvm.loop !9

20:                                               ; preds = %12
  %21 = load i32, ptr %3, align 4
  ret i32 %21
}

; Function Attrs: noinline nounwind
define internal void @give(ptr noundef %0) #0 {
  %2 = alloca ptr, align 8
  %3 = alloca i32, align 4
  store ptr %0, ptr %2, align 8
  %4 = load ptr, ptr %2, align 8
  %5 = getelementptr inbounds %struct.lock, ptr %4, i32 0, i32 1
  %6 = load ptr, ptr %2, align 8
  %7 = getelementptr inbounds %struct.lock, ptr %6, i32 0, i32 1
  %8 = load i32, ptr %7, align 4
  %9 = add i32 %8, 1
  store i32 %9, ptr %3, align 4
  %10 = load i32, ptr %3, align 4
  store atomic i32 %10, ptr %5 release, align 4
  ret void
}

attributes #0 = { noinline nounwind "frame-pointer"="all" "min-legal-vector-width"="0" "no-builtins" "no-trapping-math"="true" "stack-protector-buffer-size"="8" "target-cpu"="x86-64" "target-features"="+cx8,+fxsr,+mmx,+sse,+sse2,+x87" "tune-cpu"="generic" }
attributes #1 = { "frame-pointer"="all" "no-builtins" "no-trapping-math"="true" "stack-protector-buffer-size"="8" "target-cpu"="x86-64" "target-features"="+cx8,+fxsr,+mmx,+sse,+sse2,+x87" "tune-cpu"="generic" }
attributes #2 = { nobuiltin "no-builtins" }

!llvm.module.flags = !{!0, !1, !2, !3}
!llvm.ident = !{!4}

!0 = !{i32 1, !"wchar_size", i32 4}
!1 = !{i32 8, !"PIC Level", i32 2}
!2 = !{i32 7, !"PIE Level", i32 2}
!3 = !{i32 7, !"frame-pointer", i32 2}
!4 = !{!"Debian clang version 16.0.6 (15~deb12u1)"}
!5 = distinct !{!5, !6}
!6 = !{!"llvm.loop.mustprogress"}
!7 = distinct !{!7, !6}
!8 = distinct !{!8, !6}
!9 = distinct !{!9, !6}
