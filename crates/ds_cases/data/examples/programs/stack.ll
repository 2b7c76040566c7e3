; ModuleID = 'stack.c'
source_filename = "stack.c"
target datalayout = "e-m:e-p270:32:32-p271:32:32-p272:64:64-i64:64-f80:128-n8:16:32:64-S128"
target triple = "x86_64-pc-linux-gnu"

%struct.stack = type { ptr, i64, i64 }
%struct.node = type { ptr, i64 }

@stack = internal global %struct.stack zeroinitializer, align 8

; Function Attrs: noinline nounwind
define dso_local i32 @main() #0 {
  call void @run(ptr noundef @stack) #2
  ret i32 0
}

; Function Attrs: noinline nounwind
define internal void @run(ptr noundef %0) #0 {
  %2 = alloca ptr, align 8
  store ptr %0, ptr %2, align 8
  %3 = load ptr, ptr %2, align 8
  call void @two(ptr noundef %3, i1 noundef zeroext true) #2
  %4 = load ptr, ptr %2, align 8
  call void @two(ptr noundef %4, i1 noundef zeroext false) #2
  %5 = load ptr, ptr %2, align 8
  %6 = getelementptr inbounds %struct.stack, ptr %5, i32 0, i32 1
  %7 = load i64, ptr %6, align 8
  call void @print_i64(i64 noundef %7) #2
  %8 = load ptr, ptr %2, align 8
  %9 = getelementptr inbounds %struct.stack, ptr %8, i32 0, i32 2
  %10 = load i64, ptr %9, align 8
  call void @print_i64(i64 noundef %10) #2
  %11 = load ptr, ptr %2, align 8
  %12 = getelementptr inbounds %struct.stack, ptr %11, i32 0, i32 0
  %13 = load ptr, ptr %12, align 8
  %14 = icmp eq ptr %13, null
  %15 = zext i1 %14 to i32
  %16 = sext i32 %15 to i64
  call void @print_i64(i64 noundef %16) #2
  ret void
}

; Function Attrs: noinline nounwind
define internal void @two(ptr noundef %0, i1 noundef zeroext %1) #0 {
  %3 = alloca ptr, align 8
  %4 = alloca i8, align 1
  %5 = alloca i64, align 8
  %6 = alloca i64, align 8
  store ptr %0, ptr %3, align 8
  %7 = zext i1 %1 to i8
  store i8 %7, ptr %4, align 1
  %8 = load i8, ptr %4, align 1
  %9 = trunc i8 %8 to i1
  br i1 %9, label %10, label %15

10:                                               ; preds = %2
  %11 = load ptr, ptr %3, align 8
  %12 = call i32 @pthread_create(ptr noundef %5, ptr noundef null, ptr noundef @pushes, ptr noundef %11) #2
  %13 = load ptr, ptr %3, align 8
  %14 = call i32 @pthread_create(ptr noundef %6, ptr noundef null, ptr noundef @pushes, ptr noundef %13) #2
  br label %20

15:                                               ; preds = %2
  %16 = load ptr, ptr %3, align 8
  %17 = call i32 @pthread_create(ptr noundef %5, ptr noundef null, ptr noundef @pops, ptr noundef %16) #2
  %18 = load ptr, ptr %3, align 8
  %19 = call i32 @pthread_create(ptr noundef %6, ptr noundef null, ptr noundef @pops, ptr noundef %18) #2
  br label %20

20:                                               ; preds = %15, %10
  %21 = load i64, ptr %5, align 8
  %22 = call i32 @pthread_join(i64 noundef %21, ptr noundef null) #2
  %23 = load i64, ptr %6, align 8
  %24 = call i32 @pthread_join(i64 noundef %23, ptr noundef null) #2
  ret void
}

declare void @print_i64(i64 noundef) #1

declare i32 @pthread_create(ptr noundef, ptr noundef, ptr noundef, ptr noundef) #1

; Function Attrs: noinline nounwind
define internal ptr @pushes(ptr noundef %0) #0 {
  %2 = alloca ptr, align 8
  %3 = alloca i32, align 4
  %4 = alloca ptr, align 8
  store ptr %0, ptr %2, align 8
  store i32 1, ptr %3, align 4
  br label %5

5:                                                ; preds = %16, %1
  %6 = load i32, ptr %3, align 4
  %7 = icmp sle i32 %6, 20
  br i1 %7, label %8, label %19

8:                                                ; preds = %5
  %9 = call ptr @malloc(i64 noundef 16) #2
  store ptr %9, ptr %4, align 8
  %10 = load i32, ptr %3, align 4
  %11 = sext i32 %10 to i64
  %12 = load ptr, ptr %4, align 8
  %13 = getelementptr inbounds %struct.node, ptr %12, i32 0, i32 1
  store i64 %11, ptr %13, align 8
  %14 = load ptr, ptr %2, align 8
  %15 = load ptr, ptr %4, align 8
  call void @push(ptr noundef %14, ptr noundef %15) #2
  br label %16

16:                                               ; preds = %8
  %17 = load i32, ptr %3, align 4
  %18 = add nsw i32 %17, 1
  store i32 %18, ptr %3, align 4
  br label %5, !llvm.loop !5

19:                                               ; preds = %5
  ret ptr null
}

; Function Attrs: noinline nounwind
define internal ptr @pops(ptr noundef %0) #0 {
  %2 = alloca ptr, align 8
  %3 = alloca ptr, align 8
  %4 = alloca ptr, align 8
  %5 = alloca ptr, align 8
  %6 = alloca i64, align 8
  %7 = alloca i64, align 8
  %8 = alloca i64, align 8
  %9 = alloca i64, align 8
  store ptr %0, ptr %2, align 8
  %10 = load ptr, ptr %2, align 8
  store ptr %10, ptr %3, align 8
  %11 = load ptr, ptr %3, align 8
  %12 = call ptr @take_all(ptr noundef %11) #2
  store ptr %12, ptr %4, align 8
  br label %13

13:                                               ; preds = %16, %1
  %14 = load ptr, ptr %4, align 8
  %15 = icmp ne ptr %14, null
  br i1 %15, label %16, label %35

16:                                               ; preds = %13
  %17 = load ptr, ptr %4, align 8
  %18 = getelementptr inbounds %struct.node, ptr %17, i32 0, i32 0
  %19 = load ptr, ptr %18, align 8
  store ptr %19, ptr %5, align 8
  %20 = load ptr, ptr %3, align 8
  %21 = getelementptr inbounds %struct.stack, ptr %20, i32 0, i32 1
  store i64 1, ptr %6, align 8
  %22 = load i64, ptr %6, align 8
  %23 = atomicrmw add ptr %21, i64 %22 monotonic, align 8
  store i64 %23, ptr %7, align 8
  %24 = load i64, ptr %7, align 8
  %25 = load ptr, ptr %3, align 8
  %26 = getelementptr inbounds %struct.stack, ptr %25, i32 0, i32 2
  %27 = load ptr, ptr %4, align 8
  %28 = getelementptr inbounds %struct.node, ptr %27, i32 0, i32 1
  %29 = load i64, ptr %28, align 8
  store i64 %29, ptr %8, align 8
  %30 = load i64, ptr %8, align 8
  %31 = atomicrmw add ptr %26, i64 %30 monotonic, align 8
  store i64 %31, ptr %9, align 8
  %32 = load i64, ptr %9, align 8
  %33 = load ptr, ptr %4, align 8
  call void @free(ptr noundef %33) #2
  %34 = load ptr, ptr %5, align 8
  store ptr %34, ptr %4, align 8
  br label %13, !llvm.loop !7

35:                                               ; preds = %13
  ret ptr null
}

declare i32 @pthread_join(i64 noundef, ptr noundef) #1

declare ptr @malloc(i64 noundef) #1

; Function Attrs: noinline nounwind
define internal void @push(ptr noundef %0, ptr noundef %1) #0 {
  %3 = alloca ptr, align 8
  %4 = alloca ptr, align 8
  %5 = alloca ptr, align 8
  %6 = alloca ptr, align 8
  %7 = alloca i8, align 1
  store ptr %0, ptr %3, align 8
  store ptr %1, ptr %4, align 8
  %8 = load ptr, ptr %3, align 8
  %9 = getelementptr inbounds %struct.stack, ptr %8, i32 0, i32 0
  %10 = load atomic i64, ptr %9 monotonic, align 8
  store i64 %10, ptr %5, align 8
  %11 = load ptr, ptr %5, align 8
  %12 = load ptr, ptr %4, align 8
  %13 = getelementptr inbounds %struct.node, ptr %12, i32 0, i32 0
  store ptr %11, ptr %13, align 8
  br label %14

14:                                               ; preds = %31, %2
  %15 = load ptr, ptr %3, align 8
  %16 = getelementptr inbounds %struct.stack, ptr %15, i32 0, i32 0
  %17 = load ptr, ptr %4, align 8
  %18 = getelementptr inbounds %struct.node, ptr %17, i32 0, i32 0
  %19 = load ptr, ptr %4, align 8
  store ptr %19, ptr %6, align 8
  %20 = load i64, ptr %18, align 8
  %21 = load i64, ptr %6, align 8
  %22 = cmpxchg ptr %16, i64 %20, i64 %21 release monotonic, align 8
  %23 = extractvalue { i64, i1 } %22, 0
  %24 = extractvalue { i64, i1 } %22, 1
  br i1 %24, label %26, label %25

25:                                               ; preds = %14
  store i64 %23, ptr %18, align 8
  br label %26

26:                                               ; preds = %25, %14
  %27 = zext i1 %24 to i8
  store i8 %27, ptr %7, align 1
  %28 = load i8, ptr %7, align 1
  %29 = trunc i8 %28 to i1
  %30 = xor i1 %29, true
  br i1 %30, label %31, label %32

31:                                               ; preds = %26
  br label %14, !llvm.loop !8

32:                                               ; preds = %26
  ret void
}

; Function Attrs: noinline nounwind
define internal ptr @take_all(ptr noundef %0) #0 {
  %2 = alloca ptr, align 8
  %3 = alloca ptr, align 8
  %4 = alloca ptr, align 8
  store ptr %0, ptr %2, align 8
  %5 = load ptr, ptr %2, align 8
  %6 = getelementptr inbounds %struct.stack, ptr %5, i32 0, i32 0
  store ptr null, ptr %3, align 8
  %7 = load i64, ptr %3, align 8
  %8 = atomicrmw xchg ptr %6, i64 %7 acquire, align 8
  store i64 %8, ptr %4, align 8
  %9 = load ptr, ptr %4, align 8
  ret ptr %9
}

declare void @free(ptr noundef) #1

attributes #0 = { noinline nounwind "frame-pointer"="all" "min-legal-vector-width"="0" "no-builtins" "no-trapping-math"="true" "stack-protector-buffer-size"="8" "target-cpu"="x86-64" "target-features"="+cx8,+fxsr,+mmx,+sse,+sse2,+x87" "tune-cpu"="generic" }
attributes #1 = { "frame-pointer"="all" "no-builtins" "no-trapping-math"="true" "stack-protector-buffer-size"="8" "target-cpu"="x86-64" "target-features"="+cx8,+fxsr,+mmx,+sse,+sse2,+x87" "tune-cpu"="generic" }
attributes #2 = { nobuiltin "no-builtins" }

!llvm.module.flags = !{!0, !1, !2, !3}
!llvm.ident = !{!4}

!0 = !{i32 1, !"wchar_size", i32 4}
!1 = !{i32 8, !"PIC Level", i32 2}
!2 = !{i32 7, !"PIE Level", i32 2}
!3 = !{i32 7, !"frame-pointer", i32 2}
!4 = !{!"Debian clang version 16.0.6 (15~deb12u1)"}
!5 = distinct !{!5, !6}
!6 = !{!"llvm.loop.mustprogress"}
!7 = distinct !{!7, !6}
!8 = distinct !{!8, !6}
