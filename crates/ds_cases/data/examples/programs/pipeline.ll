; ModuleID = 'pipeline.c'
source_filename = "pipeline.c"
target datalayout = "e-m:e-p270:32:32-p271:32:32-p272:64:64-i64:64-f80:128-n8:16:32:64-S128"
target triple = "x86_64-pc-linux-gnu"

%struct.line = type { ptr, %struct.ring, %struct.ring, i16, i16, i16, i8, i8 }
%struct.ring = type { i16, i16, [4 x i8] }

@line = internal global %struct.line zeroinitializer, align 8
@.str = private unnamed_addr constant [27 x i8] c"The first, then the other.\00", align 1

; Function Attrs: noinline nounwind
define dso_local i32 @main() #0 {
  call void @run(ptr noundef @line) #2
  ret i32 0
}

; Function Attrs: noinline nounwind
define internal void @run(ptr noundef %0) #0 {
  %2 = alloca ptr, align 8
  %3 = alloca [3 x i64], align 16
  %4 = alloca i32, align 4
  store ptr %0, ptr %2, align 8
  %5 = load ptr, ptr %2, align 8
  %6 = getelementptr inbounds %struct.line, ptr %5, i32 0, i32 0
  store ptr @.str, ptr %6, align 8
  %7 = getelementptr inbounds [3 x i64], ptr %3, i64 0, i64 0
  %8 = load ptr, ptr %2, align 8
  %9 = call i32 @pthread_create(ptr noundef %7, ptr noundef null, ptr noundef @count, ptr noundef %8) #2
  %10 = getelementptr inbounds [3 x i64], ptr %3, i64 0, i64 1
  %11 = load ptr, ptr %2, align 8
  %12 = call i32 @pthread_create(ptr noundef %10, ptr noundef null, ptr noundef @turn, ptr noundef %11) #2
  %13 = getelementptr inbounds [3 x i64], ptr %3, i64 0, i64 2
  %14 = load ptr, ptr %2, align 8
  %15 = call i32 @pthread_create(ptr noundef %13, ptr noundef null, ptr noundef @write_text, ptr noundef %14) #2
  store i32 0, ptr %4, align 4
  br label %16

16:                                               ; preds = %25, %1
  %17 = load i32, ptr %4, align 4
  %18 = icmp slt i32 %17, 3
  br i1 %18, label %19, label %28

19:                                               ; preds = %16
  %20 = load i32, ptr %4, align 4
  %21 = sext i32 %20 to i64
  %22 = getelementptr inbounds [3 x i64], ptr %3, i64 0, i64 %21
  %23 = load i64, ptr %22, align 8
  %24 = call i32 @pthread_join(i64 noundef %23, ptr noundef null) #2
  br label %25

25:                                               ; preds = %19
  %26 = load i32, ptr %4, align 4
  %27 = add nsw i32 %26, 1
  store i32 %27, ptr %4, align 4
  br label %16, !llvm.loop !5

28:                                               ; preds = %16
  %29 = load ptr, ptr %2, align 8
  %30 = getelementptr inbounds %struct.line, ptr %29, i32 0, i32 3
  %31 = load i16, ptr %30, align 8
  %32 = zext i16 %31 to i64
  call void @print_i64(i64 noundef %32) #2
  %33 = load ptr, ptr %2, align 8
  %34 = getelementptr inbounds %struct.line, ptr %33, i32 0, i32 4
  %35 = load i16, ptr %34, align 2
  %36 = zext i16 %35 to i64
  call void @print_i64(i64 noundef %36) #2
  %37 = load ptr, ptr %2, align 8
  %38 = getelementptr inbounds %struct.line, ptr %37, i32 0, i32 5
  %39 = load i16, ptr %38, align 4
  %40 = zext i16 %39 to i64
  call void @print_i64(i64 noundef %40) #2
  %41 = load ptr, ptr %2, align 8
  %42 = getelementptr inbounds %struct.line, ptr %41, i32 0, i32 6
  %43 = load i8, ptr %42, align 2
  %44 = zext i8 %43 to i64
  call void @print_i64(i64 noundef %44) #2
  %45 = load ptr, ptr %2, align 8
  %46 = getelementptr inbounds %struct.line, ptr %45, i32 0, i32 7
  %47 = load i8, ptr %46, align 1
  %48 = zext i8 %47 to i64
  call void @print_i64(i64 noundef %48) #2
  %49 = load ptr, ptr %2, align 8
  %50 = getelementptr inbounds %struct.line, ptr %49, i32 0, i32 1
  %51 = getelementptr inbounds %struct.ring, ptr %50, i32 0, i32 0
  %52 = load i16, ptr %51, align 8
  %53 = zext i16 %52 to i32
  %54 = load ptr, ptr %2, align 8
  %55 = getelementptr inbounds %struct.line, ptr %54, i32 0, i32 1
  %56 = getelementptr inbounds %struct.ring, ptr %55, i32 0, i32 1
  %57 = load i16, ptr %56, align 2
  %58 = zext i16 %57 to i32
  %59 = sub nsw i32 %53, %58
  %60 = trunc i32 %59 to i16
  %61 = zext i16 %60 to i32
  %62 = load ptr, ptr %2, align 8
  %63 = getelementptr inbounds %struct.line, ptr %62, i32 0, i32 2
  %64 = getelementptr inbounds %struct.ring, ptr %63, i32 0, i32 0
  %65 = load i16, ptr %64, align 8
  %66 = zext i16 %65 to i32
  %67 = load ptr, ptr %2, align 8
  %68 = getelementptr inbounds %struct.line, ptr %67, i32 0, i32 2
  %69 = getelementptr inbounds %struct.ring, ptr %68, i32 0, i32 1
  %70 = load i16, ptr %69, align 2
  %71 = zext i16 %70 to i32
  %72 = sub nsw i32 %66, %71
  %73 = trunc i32 %72 to i16
  %74 = zext i16 %73 to i32
  %75 = add nsw i32 %61, %74
  %76 = sext i32 %75 to i64
  call void @print_i64(i64 noundef %76) #2
  ret void
}

declare i32 @pthread_create(ptr noundef, ptr noundef, ptr noundef, ptr noundef) #1

; Function Attrs: noinline nounwind
define internal ptr @count(ptr noundef %0) #0 {
  %2 = alloca ptr, align 8
  %3 = alloca ptr, align 8
  %4 = alloca i8, align 1
  store ptr %0, ptr %2, align 8
  %5 = load ptr, ptr %2, align 8
  store ptr %5, ptr %3, align 8
  br label %6

6:                                                ; preds = %22, %1
  %7 = load ptr, ptr %3, align 8
  %8 = getelementptr inbounds %struct.line, ptr %7, i32 0, i32 2
  %9 = call zeroext i8 @get(ptr noundef %8) #2
  store i8 %9, ptr %4, align 1
  %10 = zext i8 %9 to i32
  %11 = icmp ne i32 %10, 0
  br i1 %11, label %12, label %41

12:                                               ; preds = %6
  %13 = load ptr, ptr %3, align 8
  %14 = getelementptr inbounds %struct.line, ptr %13, i32 0, i32 4
  %15 = load i16, ptr %14, align 2
  %16 = zext i16 %15 to i32
  %17 = icmp eq i32 %16, 0
  br i1 %17, label %18, label %22

18:                                               ; preds = %12
  %19 = load i8, ptr %4, align 1
  %20 = load ptr, ptr %3, align 8
  %21 = getelementptr inbounds %struct.line, ptr %20, i32 0, i32 6
  store i8 %19, ptr %21, align 2
  br label %22

22:                                               ; preds = %18, %12
  %23 = load i8, ptr %4, align 1
  %24 = load ptr, ptr %3, align 8
  %25 = getelementptr inbounds %struct.line, ptr %24, i32 0, i32 7
  store i8 %23, ptr %25, align 1
  %26 = load ptr, ptr %3, align 8
  %27 = getelementptr inbounds %struct.line, ptr %26, i32 0, i32 4
  %28 = load i16, ptr %27, align 2
  %29 = add i16 %28, 1
  store i16 %29, ptr %27, align 2
  %30 = load ptr, ptr %3, align 8
  %31 = getelementptr inbounds %struct.line, ptr %30, i32 0, i32 5
  %32 = load i16, ptr %31, align 4
  %33 = zext i16 %32 to i32
  %34 = mul nsw i32 %33, 31
  %35 = load i8, ptr %4, align 1
  %36 = zext i8 %35 to i32
  %37 = add nsw i32 %34, %36
  %38 = trunc i32 %37 to i16
  %39 = load ptr, ptr %3, align 8
  %40 = getelementptr inbounds %struct.line, ptr %39, i32 0, i32 5
  store i16 %38, ptr %40, align 4
  br label %6, !llvm.loop !7

41:                                               ; preds = %6
  ret ptr null
}

; Function Attrs: noinline nounwind
define internal ptr @turn(ptr noundef %0) #0 {
  %2 = alloca ptr, align 8
  %3 = alloca ptr, align 8
  %4 = alloca i8, align 1
  store ptr %0, ptr %2, align 8
  %5 = load ptr, ptr %2, align 8
  store ptr %5, ptr %3, align 8
  br label %6

6:                                                ; preds = %37, %1
  %7 = load ptr, ptr %3, align 8
  %8 = getelementptr inbounds %struct.line, ptr %7, i32 0, i32 1
  %9 = call zeroext i8 @get(ptr noundef %8) #2
  store i8 %9, ptr %4, align 1
  %10 = zext i8 %9 to i32
  %11 = icmp ne i32 %10, 0
  br i1 %11, label %12, label %38

12:                                               ; preds = %6
  %13 = load ptr, ptr %3, align 8
  %14 = getelementptr inbounds %struct.line, ptr %13, i32 0, i32 3
  %15 = load i16, ptr %14, align 8
  %16 = add i16 %15, 1
  store i16 %16, ptr %14, align 8
  %17 = load i8, ptr %4, align 1
  %18 = zext i8 %17 to i32
  %19 = icmp sge i32 %18, 97
  br i1 %19, label %20, label %29

20:                                               ; preds = %12
  %21 = load i8, ptr %4, align 1
  %22 = zext i8 %21 to i32
  %23 = icmp sle i32 %22, 122
  br i1 %23, label %24, label %29

24:                                               ; preds = %20
  %25 = load i8, ptr %4, align 1
  %26 = zext i8 %25 to i32
  %27 = sub nsw i32 %26, 32
  %28 = trunc i32 %27 to i8
  store i8 %28, ptr %4, align 1
  br label %29

29:                                               ; preds = %24, %20, %12
  %30 = load i8, ptr %4, align 1
  %31 = zext i8 %30 to i32
  %32 = icmp ne i32 %31, 32
  br i1 %32, label %33, label %37

33:                                               ; preds = %29
  %34 = load ptr, ptr %3, align 8
  %35 = getelementptr inbounds %struct.line, ptr %34, i32 0, i32 2
  %36 = load i8, ptr %4, align 1
  call void @put(ptr noundef %35, i8 noundef zeroext %36) #2
  br label %37

37:                                               ; preds = %33, %29
  br label %6, !llvm.loop !8

38:                                               ; preds = %6
  %39 = load ptr, ptr %3, align 8
  %40 = getelementptr inbounds %struct.line, ptr %39, i32 0, i32 2
  call void @put(ptr noundef %40, i8 noundef zeroext 0) #2
  ret ptr null
}

; Function Attrs: noinline nounwind
define internal ptr @write_text(ptr noundef %0) #0 {
  %2 = alloca ptr, align 8
  %3 = alloca ptr, align 8
  %4 = alloca ptr, align 8
  store ptr %0, ptr %2, align 8
  %5 = load ptr, ptr %2, align 8
  store ptr %5, ptr %3, align 8
  %6 = load ptr, ptr %3, align 8
  %7 = getelementptr inbounds %struct.line, ptr %6, i32 0, i32 0
  %8 = load ptr, ptr %7, align 8
  store ptr %8, ptr %4, align 8
  br label %9

9:                                                ; preds = %19, %1
  %10 = load ptr, ptr %4, align 8
  %11 = load i8, ptr %10, align 1
  %12 = sext i8 %11 to i32
  %13 = icmp ne i32 %12, 0
  br i1 %13, label %14, label %22

14:                                               ; preds = %9
  %15 = load ptr, ptr %3, align 8
  %16 = getelementptr inbounds %struct.line, ptr %15, i32 0, i32 1
  %17 = load ptr, ptr %4, align 8
  %18 = load i8, ptr %17, align 1
  call void @put(ptr noundef %16, i8 noundef zeroext %18) #2
  br label %19

19:                                               ; preds = %14
  %20 = load ptr, ptr %4, align 8
  %21 = getelementptr inbounds i8, ptr %20, i32 1
  store ptr %21, ptr %4, align 8
  br label %9, !llvm.loop !9

22:                                               ; preds = %9
  %23 = load ptr, ptr %3, align 8
  %24 = getelementptr inbounds %struct.line, ptr %23, i32 0, i32 1
  call void @put(ptr noundef %24, i8 noundef zeroext 0) #2
  ret ptr null
}

declare i32 @pthread_join(i64 noundef, ptr noundef) #1

declare void @print_i64(i64 noundef) #1

; Function Attrs: noinline nounwind
define internal zeroext i8 @get(ptr noundef %0) #0 {
  %2 = alloca ptr, align 8
  %3 = alloca i16, align 2
  %4 = alloca i16, align 2
  %5 = alloca i8, align 1
  %6 = alloca i16, align 2
  store ptr %0, ptr %2, align 8
  %7 = load ptr, ptr %2, align 8
  %8 = getelementptr inbounds %struct.ring, ptr %7, i32 0, i32 1
  %9 = load i16, ptr %8, align 2
  store i16 %9, ptr %3, align 2
  br label %10

10:                                               ; preds = %19, %1
  %11 = load ptr, ptr %2, align 8
  %12 = getelementptr inbounds %struct.ring, ptr %11, i32 0, i32 0
  %13 = load atomic i16, ptr %12 acquire, align 2
  store i16 %13, ptr %4, align 2
  %14 = load i16, ptr %4, align 2
  %15 = zext i16 %14 to i32
  %16 = load i16, ptr %3, align 2
  %17 = zext i16 %16 to i32
  %18 = icmp eq i32 %15, %17
  br i1 %18, label %19, label %20

19:                                               ; preds = %10
  br label %10, !llvm.loop !10

20:                                               ; preds = %10
  %21 = load ptr, ptr %2, align 8
  %22 = getelementptr inbounds %struct.ring, ptr %21, i32 0, i32 2
  %23 = load i16, ptr %3, align 2
  %24 = zext i16 %23 to i32
  %25 = srem i32 %24, 4
  %26 = sext i32 %25 to i64
  %27 = getelementptr inbounds [4 x i8], ptr %22, i64 0, i64 %26
  %28 = load i8, ptr %27, align 1
  store i8 %28, ptr %5, align 1
  %29 = load ptr, ptr %2, align 8
  %30 = getelementptr inbounds %struct.ring, ptr %29, i32 0, i32 1
  %31 = load i16, ptr %3, align 2
  %32 = zext i16 %31 to i32
  %33 = add nsw i32 %32, 1
  %34 = trunc i32 %33 to i16
  store i16 %34, ptr %6, align 2
  %35 = load i16, ptr %6, align 2
  store atomic i16 %35, ptr %30 release, align 2
  %36 = load i8, ptr %5, align 1
  ret i8 %36
}

; Function Attrs: noinline nounwind
define internal void @put(ptr noundef %0, i8 noundef zeroext %1) #0 {
  %3 = alloca ptr, align 8
  %4 = alloca i8, align 1
  %5 = alloca i16, align 2
  %6 = alloca i16, align 2
  %7 = alloca i16, align 2
  store ptr %0, ptr %3, align 8
  store i8 %1, ptr %4, align 1
  %8 = load ptr, ptr %3, align 8
  %9 = getelementptr inbounds %struct.ring, ptr %8, i32 0, i32 0
  %10 = load i16, ptr %9, align 2
  store i16 %10, ptr %5, align 2
  br label %11

11:                                               ; preds = %23, %2
  %12 = load i16, ptr %5, align 2
  %13 = zext i16 %12 to i32
  %14 = load ptr, ptr %3, align 8
  %15 = getelementptr inbounds %struct.ring, ptr %14, i32 0, i32 1
  %16 = load atomic i16, ptr %15 acquire, align 2
  store i16 %16, ptr %6, align 2
  %17 = load i16, ptr %6, align 2
  %18 = zext i16 %17 to i32
  %19 = sub nsw i32 %13, %18
  %20 = trunc i32 %19 to i16
  %21 = zext i16 %20 to i32
  %22 = icmp eq i32 %21, 4
  br i1 %22, label %23, label %24

23:                                               ; preds = %11
  br label %11, !llvm.loop !11

24:                                               ; preds = %11
  %25 = load i8, ptr %4, align 1
  %26 = load ptr, ptr %3, align 8
  %27 = getelementptr inbounds %struct.ring, ptr %26, i32 0, i32 2
  %28 = load i16, ptr %5, align 2
  %29 = zext i16 %28 to i32
  %30 = srem i32 %29, 4
  %31 = sext i32 %30 to i64
  %32 = getelementptr inbounds [4 x i8], ptr %27, i64 0, i64 %31
  store i8 %25, ptr %32, align 1
  %33 = load ptr, ptr %3, align 8
  %34 = getelementptr inbounds %struct.ring, ptr %33, i32 0, i32 0
  %35 = load i16, ptr %5, align 2
  %36 = zext i16 %35 to i32
  %37 = add nsw i32 %36, 1
  %38 = trunc i32 %37 to i16
  store i16 %38, ptr %7, align 2
  %39 = load i16, ptr %7, align 2
  store atomic i16 %39, ptr %34 release, align 2
  ret void
}

attributes #0 = { noinline nounwind "frame-pointer"="all" "min-legal-vector-width"="0" "no-builtins" "no-trapping-math"="true" "stack-protector-buffer-size"="8" "target-cpu"="x86-64" "target-features"="+cx8,+fxsr,+mmx,+sse,+sse2,+x87" "tune-cpu"="generic" }
attributes #1 = { "frame-pointer"="all" "no-builtins" "no-trapping-math"="true" "stack-protector-buffer-size"="8" "target-cpu"="x86-64" "target-features"="+cx8,+fxsr,+mmx,+sse,+sse2,+x87" "tune-cpu"="generic" }
attributes #2 = { nobuiltin "no-builtins" }

!llvm.module.flags = !{!0, !1, !2, !3}
!llvm.ident = !{!4}

!0 = !{i32 1, !"wchar_size", i32 4}
!1 = !{i32 8, !"PIC Level", i32 2}
!2 = !{i32 7, !"PIE Level", i32 2}
!3 = !{i32 7, !"frame-pointer", i32 2}
!4 = !{!"Debian clang version 16.0.6 (15~deb12u1)"}
!5 = distinct !{!5, !6}
!6 = !{!"llvm.loop.mustprogress"}
!7 = distinct !{!7, !6}
!8 = distinct !{!8, !6}
!9 = distinct !{!9, !6}
!10 = distinct !{!10, !6}
!11 = distinct !{!11, !6}
