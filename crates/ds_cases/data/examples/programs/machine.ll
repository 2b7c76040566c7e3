; ModuleID = 'machine.c'
source_filename = "machine.c"
target datalayout = "e-m:e-p270:32:32-p271:32:32-p272:64:64-i64:64-f80:128-n8:16:32:64-S128"
target triple = "x86_64-pc-linux-gnu"

%struct.machine = type { i64, i64, [16 x i64], [8 x i64] }

@state = internal global %struct.machine zeroinitializer, align 8
@sum = internal global [30 x i64] [i64 0, i64 100, i64 5, i64 0, i64 0, i64 0, i64 5, i64 1, i64 4, i64 1, i64 4, i64 0, i64 1, i64 5, i64 1, i64 4, i64 0, i64 0, i64 1, i64 2, i64 5, i64 0, i64 4, i64 0, i64 7, i64 8, i64 4, i64 1, i64 8, i64 9], align 16
@product = internal global [30 x i64] [i64 0, i64 12, i64 5, i64 0, i64 0, i64 1, i64 5, i64 1, i64 4, i64 1, i64 4, i64 0, i64 3, i64 5, i64 1, i64 4, i64 0, i64 0, i64 1, i64 2, i64 5, i64 0, i64 4, i64 0, i64 7, i64 8, i64 4, i64 1, i64 8, i64 9], align 16
@count_down = internal global [24 x i64] [i64 0, i64 50, i64 5, i64 2, i64 4, i64 2, i64 8, i64 4, i64 2, i64 0, i64 7, i64 2, i64 5, i64 2, i64 4, i64 2, i64 7, i64 4, i64 6, i64 20, i64 4, i64 2, i64 8, i64 9], align 16
@unknown = internal global [4 x i64] [i64 0, i64 5, i64 77, i64 9], align 16

; Function Attrs: noinline nounwind
define dso_local i32 @main() #0 {
  %1 = call i64 @run(ptr noundef @state, ptr noundef @sum) #2
  %2 = call i64 @run(ptr noundef @state, ptr noundef @product) #2
  %3 = call i64 @run(ptr noundef @state, ptr noundef @count_down) #2
  call void @print_i64(i64 noundef %3) #2
  %4 = call i64 @run(ptr noundef @state, ptr noundef @unknown) #2
  call void @print_i64(i64 noundef %4) #2
  ret i32 0
}

; Function Attrs: noinline nounwind
define internal i64 @run(ptr noundef %0, ptr noundef %1) #0 {
  %3 = alloca ptr, align 8
  %4 = alloca ptr, align 8
  %5 = alloca i64, align 8
  %6 = alloca i64, align 8
  %7 = alloca i64, align 8
  store ptr %0, ptr %3, align 8
  store ptr %1, ptr %4, align 8
  store i64 1, ptr %7, align 8
  %8 = load ptr, ptr %3, align 8
  %9 = getelementptr inbounds %struct.machine, ptr %8, i32 0, i32 0
  store i64 0, ptr %9, align 8
  %10 = load ptr, ptr %3, align 8
  %11 = getelementptr inbounds %struct.machine, ptr %10, i32 0, i32 1
  store i64 0, ptr %11, align 8
  br label %12

12:                                               ; preds = %93, %2
  %13 = load i64, ptr %7, align 8
  %14 = icmp eq i64 %13, 1
  br i1 %14, label %15, label %94

15:                                               ; preds = %12
  %16 = load ptr, ptr %3, align 8
  %17 = load ptr, ptr %4, align 8
  %18 = call i64 @fetch(ptr noundef %16, ptr noundef %17) #2
  switch i64 %18, label %92 [
    i64 0, label %19
    i64 1, label %24
    i64 2, label %33
    i64 3, label %42
    i64 4, label %51
    i64 5, label %60
    i64 6, label %70
    i64 7, label %76
    i64 8, label %88
    i64 9, label %91
  ]

19:                                               ; preds = %15
  %20 = load ptr, ptr %3, align 8
  %21 = load ptr, ptr %3, align 8
  %22 = load ptr, ptr %4, align 8
  %23 = call i64 @fetch(ptr noundef %21, ptr noundef %22) #2
  call void @push(ptr noundef %20, i64 noundef %23) #2
  br label %93

24:                                               ; preds = %15
  %25 = load ptr, ptr %3, align 8
  %26 = call i64 @pop(ptr noundef %25) #2
  store i64 %26, ptr %6, align 8
  %27 = load ptr, ptr %3, align 8
  %28 = call i64 @pop(ptr noundef %27) #2
  store i64 %28, ptr %5, align 8
  %29 = load ptr, ptr %3, align 8
  %30 = load i64, ptr %5, align 8
  %31 = load i64, ptr %6, align 8
  %32 = add nsw i64 %30, %31
  call void @push(ptr noundef %29, i64 noundef %32) #2
  br label %93

33:                                               ; preds = %15
  %34 = load ptr, ptr %3, align 8
  %35 = call i64 @pop(ptr noundef %34) #2
  store i64 %35, ptr %6, align 8
  %36 = load ptr, ptr %3, align 8
  %37 = call i64 @pop(ptr noundef %36) #2
  store i64 %37, ptr %5, align 8
  %38 = load ptr, ptr %3, align 8
  %39 = load i64, ptr %5, align 8
  %40 = load i64, ptr %6, align 8
  %41 = sub nsw i64 %39, %40
  call void @push(ptr noundef %38, i64 noundef %41) #2
  br label %93

42:                                               ; preds = %15
  %43 = load ptr, ptr %3, align 8
  %44 = call i64 @pop(ptr noundef %43) #2
  store i64 %44, ptr %6, align 8
  %45 = load ptr, ptr %3, align 8
  %46 = call i64 @pop(ptr noundef %45) #2
  store i64 %46, ptr %5, align 8
  %47 = load ptr, ptr %3, align 8
  %48 = load i64, ptr %5, align 8
  %49 = load i64, ptr %6, align 8
  %50 = mul nsw i64 %48, %49
  call void @push(ptr noundef %47, i64 noundef %50) #2
  br label %93

51:                                               ; preds = %15
  %52 = load ptr, ptr %3, align 8
  %53 = load ptr, ptr %3, align 8
  %54 = getelementptr inbounds %struct.machine, ptr %53, i32 0, i32 3
  %55 = load ptr, ptr %3, align 8
  %56 = load ptr, ptr %4, align 8
  %57 = call i64 @fetch(ptr noundef %55, ptr noundef %56) #2
  %58 = getelementptr inbounds [8 x i64], ptr %54, i64 0, i64 %57
  %59 = load i64, ptr %58, align 8
  call void @push(ptr noundef %52, i64 noundef %59) #2
  br label %93

60:                                               ; preds = %15
  %61 = load ptr, ptr %3, align 8
  %62 = load ptr, ptr %4, align 8
  %63 = call i64 @fetch(ptr noundef %61, ptr noundef %62) #2
  store i64 %63, ptr %5, align 8
  %64 = load ptr, ptr %3, align 8
  %65 = call i64 @pop(ptr noundef %64) #2
  %66 = load ptr, ptr %3, align 8
  %67 = getelementptr inbounds %struct.machine, ptr %66, i32 0, i32 3
  %68 = load i64, ptr %5, align 8
  %69 = getelementptr inbounds [8 x i64], ptr %67, i64 0, i64 %68
  store i64 %65, ptr %69, align 8
  br label %93

70:                                               ; preds = %15
  %71 = load ptr, ptr %3, align 8
  %72 = load ptr, ptr %4, align 8
  %73 = call i64 @fetch(ptr noundef %71, ptr noundef %72) #2
  %74 = load ptr, ptr %3, align 8
  %75 = getelementptr inbounds %struct.machine, ptr %74, i32 0, i32 0
  store i64 %73, ptr %75, align 8
  br label %93

76:                                               ; preds = %15
  %77 = load ptr, ptr %3, align 8
  %78 = load ptr, ptr %4, align 8
  %79 = call i64 @fetch(ptr noundef %77, ptr noundef %78) #2
  store i64 %79, ptr %5, align 8
  %80 = load ptr, ptr %3, align 8
  %81 = call i64 @pop(ptr noundef %80) #2
  %82 = icmp sgt i64 %81, 0
  br i1 %82, label %83, label %87

83:                                               ; preds = %76
  %84 = load i64, ptr %5, align 8
  %85 = load ptr, ptr %3, align 8
  %86 = getelementptr inbounds %struct.machine, ptr %85, i32 0, i32 0
  store i64 %84, ptr %86, align 8
  br label %87

87:                                               ; preds = %83, %76
  br label %93

88:                                               ; preds = %15
  %89 = load ptr, ptr %3, align 8
  %90 = call i64 @pop(ptr noundef %89) #2
  call void @print_i64(i64 noundef %90) #2
  br label %93

91:                                               ; preds = %15
  store i64 0, ptr %7, align 8
  br label %93

92:                                               ; preds = %15
  store i64 -1, ptr %7, align 8
  br label %93

93:                                               ; preds = %92, %91, %88, %87, %70, %60, %51, %42, %33, %24, %19
  br label %12, !llvm.loop !5

94:                                               ; preds = %12
  %95 = load i64, ptr %7, align 8
  ret i64 %95
}

declare void @print_i64(i64 noundef) #1

; Function Attrs: noinline nounwind
define internal i64 @fetch(ptr noundef %0, ptr noundef %1) #0 {
  %3 = alloca ptr, align 8
  %4 = alloca ptr, align 8
  %5 = alloca i64, align 8
  store ptr %0, ptr %3, align 8
  store ptr %1, ptr %4, align 8
  %6 = load ptr, ptr %4, align 8
  %7 = load ptr, ptr %3, align 8
  %8 = getelementptr inbounds %struct.machine, ptr %7, i32 0, i32 0
  %9 = load i64, ptr %8, align 8
  %10 = getelementptr inbounds i64, ptr %6, i64 %9
  %11 = load i64, ptr %10, align 8
  store i64 %11, ptr %5, align 8
  %12 = load ptr, ptr %3, align 8
  %13 = getelementptr inbounds %struct.machine, ptr %12, i32 0, i32 0
  %14 = load i64, ptr %13, align 8
  %15 = add nsw i64 %14, 1
  %16 = load ptr, ptr %3, align 8
  %17 = getelementptr inbounds %struct.machine, ptr %16, i32 0, i32 0
  store i64 %15, ptr %17, align 8
  %18 = load i64, ptr %5, align 8
  ret i64 %18
}

; Function Attrs: noinline nounwind
define internal void @push(ptr noundef %0, i64 noundef %1) #0 {
  %3 = alloca ptr, align 8
  %4 = alloca i64, align 8
  store ptr %0, ptr %3, align 8
  store i64 %1, ptr %4, align 8
  %5 = load i64, ptr %4, align 8
  %6 = load ptr, ptr %3, align 8
  %7 = getelementptr inbounds %struct.machine, ptr %6, i32 0, i32 2
  %8 = load ptr, ptr %3, align 8
  %9 = getelementptr inbounds %struct.machine, ptr %8, i32 0, i32 1
  %10 = load i64, ptr %9, align 8
  %11 = getelementptr inbounds [16 x i64], ptr %7, i64 0, i64 %10
  store i64 %5, ptr %11, align 8
  %12 = load ptr, ptr %3, align 8
  %13 = getelementptr inbounds %struct.machine, ptr %12, i32 0, i32 1
  %14 = load i64, ptr %13, align 8
  %15 = add nsw i64 %14, 1
  %16 = load ptr, ptr %3, align 8
  %17 = getelementptr inbounds %struct.machine, ptr %16, i32 0, i32 1
  store i64 %15, ptr %17, align 8
  ret void
}

; Function Attrs: noinline nounwind
define internal i64 @pop(ptr noundef %0) #0 {
  %2 = alloca ptr, align 8
  store ptr %0, ptr %2, align 8
  %3 = load ptr, ptr %2, align 8
  %4 = getelementptr inbounds %struct.machine, ptr %3, i32 0, i32 1
  %5 = load i64, ptr %4, align 8
  %6 = sub nsw i64 %5, 1
  %7 = load ptr, ptr %2, align 8
  %8 = getelementptr inbounds %struct.machine, ptr %7, i32 0, i32 1
  store i64 %6, ptr %8, align 8
  %9 = load ptr, ptr %2, align 8
  %10 = getelementptr inbounds %struct.machine, ptr %9, i32 0, i32 2
  %11 = load ptr, ptr %2, align 8
  %12 = getelementptr inbounds %struct.machine, ptr %11, i32 0, i32 1
  %13 = load i64, ptr %12, align 8
  %14 = getelementptr inbounds [16 x i64], ptr %10, i64 0, i64 %13
  %15 = load i64, ptr %14, align 8
  ret i64 %15
}

attributes #0 = { noinline nounwind "frame-pointer"="all" "min-legal-vector-width"="0" "no-builtins" "no-trapping-math"="true" "stack-protector-buffer-size"="8" "target-cpu"="x86-64" "target-features"="+cx8,+fxsr,+mmx,+sse,+sse2,+x87" "tune-cpu"="generic" }
attributes #1 = { "frame-pointer"="all" "no-builtins" "no-trapping-math"="true" "stack-protector-buffer-size"="8" "target-cpu"="x86-64" "target-features"="+cx8,+fxsr,+mmx,+sse,+sse2,+x87" "tune-cpu"="generic" }
attributes #2 = { nobuiltin "no-builtins" }

!llvm.module.flags = !{!0, !1, !2, !3}
!llvm.ident = !{!4}

!0 = !{i32 1, !"wchar_size", i32 4}
!1 = !{i32 8, !"PIC Level", i32 2}
!2 = !{i32 7, !"PIE Level", i32 2}
!3 = !{i32 7, !"frame-pointer", i32 2}
!4 = !{!"Debian clang version 16.0.6 (15~deb12u1)"}
!5 = distinct !{!5, !6}
!6 = !{!"llvm.loop.mustprogress"}
