; ModuleID = 'accounts.c'
source_filename = "accounts.c"
target datalayout = "e-m:e-p270:32:32-p271:32:32-p272:64:64-i64:64-f80:128-n8:16:32:64-S128"
target triple = "x86_64-pc-linux-gnu"

%struct.bank = type { [5 x %struct.account], [3 x %struct.clerk] }
%struct.account = type { i32, i8 }
%struct.clerk = type { ptr, ptr, i16 }
%struct.note = type { ptr, i32, i8, i8 }

@bank = internal global %struct.bank zeroinitializer, align 8

; Function Attrs: noinline nounwind
define dso_local i32 @main() #0 {
  call void @run(ptr noundef @bank) #2
  ret i32 0
}

; Function Attrs: noinline nounwind
define internal void @run(ptr noundef %0) #0 {
  %2 = alloca ptr, align 8
  %3 = alloca [3 x i64], align 16
  %4 = alloca i32, align 4
  %5 = alloca i32, align 4
  %6 = alloca i32, align 4
  %7 = alloca i32, align 4
  %8 = alloca i32, align 4
  %9 = alloca i32, align 4
  %10 = alloca i8, align 1
  %11 = alloca i32, align 4
  %12 = alloca i32, align 4
  %13 = alloca i32, align 4
  store ptr %0, ptr %2, align 8
  store i32 0, ptr %4, align 4
  br label %14

14:                                               ; preds = %24, %1
  %15 = load i32, ptr %4, align 4
  %16 = icmp slt i32 %15, 5
  br i1 %16, label %17, label %27

17:                                               ; preds = %14
  %18 = load ptr, ptr %2, align 8
  %19 = getelementptr inbounds %struct.bank, ptr %18, i32 0, i32 0
  %20 = load i32, ptr %4, align 4
  %21 = sext i32 %20 to i64
  %22 = getelementptr inbounds [5 x %struct.account], ptr %19, i64 0, i64 %21
  %23 = getelementptr inbounds %struct.account, ptr %22, i32 0, i32 0
  store i32 100, ptr %23, align 8
  br label %24

24:                                               ; preds = %17
  %25 = load i32, ptr %4, align 4
  %26 = add nsw i32 %25, 1
  store i32 %26, ptr %4, align 4
  br label %14, !llvm.loop !5

27:                                               ; preds = %14
  store i32 0, ptr %5, align 4
  br label %28

28:                                               ; preds = %57, %27
  %29 = load i32, ptr %5, align 4
  %30 = icmp slt i32 %29, 3
  br i1 %30, label %31, label %60

31:                                               ; preds = %28
  %32 = load ptr, ptr %2, align 8
  %33 = load ptr, ptr %2, align 8
  %34 = getelementptr inbounds %struct.bank, ptr %33, i32 0, i32 1
  %35 = load i32, ptr %5, align 4
  %36 = sext i32 %35 to i64
  %37 = getelementptr inbounds [3 x %struct.clerk], ptr %34, i64 0, i64 %36
  %38 = getelementptr inbounds %struct.clerk, ptr %37, i32 0, i32 0
  store ptr %32, ptr %38, align 8
  %39 = load i32, ptr %5, align 4
  %40 = mul nsw i32 %39, 1000
  %41 = trunc i32 %40 to i16
  %42 = load ptr, ptr %2, align 8
  %43 = getelementptr inbounds %struct.bank, ptr %42, i32 0, i32 1
  %44 = load i32, ptr %5, align 4
  %45 = sext i32 %44 to i64
  %46 = getelementptr inbounds [3 x %struct.clerk], ptr %43, i64 0, i64 %45
  %47 = getelementptr inbounds %struct.clerk, ptr %46, i32 0, i32 2
  store i16 %41, ptr %47, align 8
  %48 = load i32, ptr %5, align 4
  %49 = sext i32 %48 to i64
  %50 = getelementptr inbounds [3 x i64], ptr %3, i64 0, i64 %49
  %51 = load ptr, ptr %2, align 8
  %52 = getelementptr inbounds %struct.bank, ptr %51, i32 0, i32 1
  %53 = load i32, ptr %5, align 4
  %54 = sext i32 %53 to i64
  %55 = getelementptr inbounds [3 x %struct.clerk], ptr %52, i64 0, i64 %54
  %56 = call i32 @pthread_create(ptr noundef %50, ptr noundef null, ptr noundef @work, ptr noundef %55) #2
  br label %57

57:                                               ; preds = %31
  %58 = load i32, ptr %5, align 4
  %59 = add nsw i32 %58, 1
  store i32 %59, ptr %5, align 4
  br label %28, !llvm.loop !7

60:                                               ; preds = %28
  store i32 0, ptr %6, align 4
  br label %61

61:                                               ; preds = %70, %60
  %62 = load i32, ptr %6, align 4
  %63 = icmp slt i32 %62, 3
  br i1 %63, label %64, label %73

64:                                               ; preds = %61
  %65 = load i32, ptr %6, align 4
  %66 = sext i32 %65 to i64
  %67 = getelementptr inbounds [3 x i64], ptr %3, i64 0, i64 %66
  %68 = load i64, ptr %67, align 8
  %69 = call i32 @pthread_join(i64 noundef %68, ptr noundef null) #2
  br label %70

70:                                               ; preds = %64
  %71 = load i32, ptr %6, align 4
  %72 = add nsw i32 %71, 1
  store i32 %72, ptr %6, align 4
  br label %61, !llvm.loop !8

73:                                               ; preds = %61
  store i32 0, ptr %7, align 4
  store i32 0, ptr %8, align 4
  store i32 0, ptr %9, align 4
  store i8 1, ptr %10, align 1
  store i32 0, ptr %11, align 4
  br label %74

74:                                               ; preds = %98, %73
  %75 = load i32, ptr %11, align 4
  %76 = icmp slt i32 %75, 5
  br i1 %76, label %77, label %101

77:                                               ; preds = %74
  %78 = load ptr, ptr %2, align 8
  %79 = getelementptr inbounds %struct.bank, ptr %78, i32 0, i32 0
  %80 = load i32, ptr %11, align 4
  %81 = sext i32 %80 to i64
  %82 = getelementptr inbounds [5 x %struct.account], ptr %79, i64 0, i64 %81
  %83 = getelementptr inbounds %struct.account, ptr %82, i32 0, i32 0
  %84 = load i32, ptr %83, align 8
  %85 = load i32, ptr %7, align 4
  %86 = add nsw i32 %85, %84
  store i32 %86, ptr %7, align 4
  %87 = load ptr, ptr %2, align 8
  %88 = getelementptr inbounds %struct.bank, ptr %87, i32 0, i32 0
  %89 = load i32, ptr %11, align 4
  %90 = sext i32 %89 to i64
  %91 = getelementptr inbounds [5 x %struct.account], ptr %88, i64 0, i64 %90
  %92 = getelementptr inbounds %struct.account, ptr %91, i32 0, i32 1
  %93 = load i8, ptr %92, align 4
  %94 = trunc i8 %93 to i1
  %95 = zext i1 %94 to i32
  %96 = load i32, ptr %8, align 4
  %97 = add nsw i32 %96, %95
  store i32 %97, ptr %8, align 4
  br label %98

98:                                               ; preds = %77
  %99 = load i32, ptr %11, align 4
  %100 = add nsw i32 %99, 1
  store i32 %100, ptr %11, align 4
  br label %74, !llvm.loop !9

101:                                              ; preds = %74
  store i32 0, ptr %12, align 4
  br label %102

102:                                              ; preds = %115, %101
  %103 = load i32, ptr %12, align 4
  %104 = icmp slt i32 %103, 3
  br i1 %104, label %105, label %118

105:                                              ; preds = %102
  %106 = load ptr, ptr %2, align 8
  %107 = load ptr, ptr %2, align 8
  %108 = getelementptr inbounds %struct.bank, ptr %107, i32 0, i32 1
  %109 = load i32, ptr %12, align 4
  %110 = sext i32 %109 to i64
  %111 = getelementptr inbounds [3 x %struct.clerk], ptr %108, i64 0, i64 %110
  %112 = call i32 @undo(ptr noundef %106, ptr noundef %111) #2
  %113 = load i32, ptr %9, align 4
  %114 = add nsw i32 %113, %112
  store i32 %114, ptr %9, align 4
  br label %115

115:                                              ; preds = %105
  %116 = load i32, ptr %12, align 4
  %117 = add nsw i32 %116, 1
  store i32 %117, ptr %12, align 4
  br label %102, !llvm.loop !10

118:                                              ; preds = %102
  store i32 0, ptr %13, align 4
  br label %119

119:                                              ; preds = %133, %118
  %120 = load i32, ptr %13, align 4
  %121 = icmp slt i32 %120, 5
  br i1 %121, label %122, label %136

122:                                              ; preds = %119
  %123 = load ptr, ptr %2, align 8
  %124 = getelementptr inbounds %struct.bank, ptr %123, i32 0, i32 0
  %125 = load i32, ptr %13, align 4
  %126 = sext i32 %125 to i64
  %127 = getelementptr inbounds [5 x %struct.account], ptr %124, i64 0, i64 %126
  %128 = getelementptr inbounds %struct.account, ptr %127, i32 0, i32 0
  %129 = load i32, ptr %128, align 8
  %130 = icmp ne i32 %129, 100
  br i1 %130, label %131, label %132

131:                                              ; preds = %122
  store i8 0, ptr %10, align 1
  br label %132

132:                                              ; preds = %131, %122
  br label %133

133:                                              ; preds = %132
  %134 = load i32, ptr %13, align 4
  %135 = add nsw i32 %134, 1
  store i32 %135, ptr %13, align 4
  br label %119, !llvm.loop !11

136:                                              ; preds = %119
  %137 = load i32, ptr %9, align 4
  %138 = sext i32 %137 to i64
  call void @print_i64(i64 noundef %138) #2
  %139 = load i32, ptr %7, align 4
  %140 = sext i32 %139 to i64
  call void @print_i64(i64 noundef %140) #2
  %141 = load i32, ptr %8, align 4
  %142 = sext i32 %141 to i64
  call void @print_i64(i64 noundef %142) #2
  %143 = load i8, ptr %10, align 1
  %144 = trunc i8 %143 to i1
  %145 = zext i1 %144 to i64
  call void @print_i64(i64 noundef %145) #2
  ret void
}

declare i32 @pthread_create(ptr noundef, ptr noundef, ptr noundef, ptr noundef) #1

; Function Attrs: noinline nounwind
define internal ptr @work(ptr noundef %0) #0 {
  %2 = alloca ptr, align 8
  %3 = alloca ptr, align 8
  %4 = alloca i32, align 4
  %5 = alloca i32, align 4
  %6 = alloca i32, align 4
  store ptr %0, ptr %2, align 8
  %7 = load ptr, ptr %2, align 8
  store ptr %7, ptr %3, align 8
  store i32 0, ptr %4, align 4
  br label %8

8:                                                ; preds = %28, %1
  %9 = load i32, ptr %4, align 4
  %10 = icmp slt i32 %9, 20
  br i1 %10, label %11, label %31

11:                                               ; preds = %8
  %12 = load ptr, ptr %3, align 8
  %13 = call i32 @draw(ptr noundef %12, i32 noundef 5) #2
  store i32 %13, ptr %5, align 4
  %14 = load i32, ptr %5, align 4
  %15 = add nsw i32 %14, 1
  %16 = load ptr, ptr %3, align 8
  %17 = call i32 @draw(ptr noundef %16, i32 noundef 4) #2
  %18 = add nsw i32 %15, %17
  %19 = srem i32 %18, 5
  store i32 %19, ptr %6, align 4
  %20 = load ptr, ptr %3, align 8
  %21 = getelementptr inbounds %struct.clerk, ptr %20, i32 0, i32 0
  %22 = load ptr, ptr %21, align 8
  %23 = load ptr, ptr %3, align 8
  %24 = load i32, ptr %5, align 4
  %25 = load i32, ptr %6, align 4
  %26 = load ptr, ptr %3, align 8
  %27 = call i32 @draw(ptr noundef %26, i32 noundef 120) #2
  call void @move(ptr noundef %22, ptr noundef %23, i32 noundef %24, i32 noundef %25, i32 noundef %27) #2
  br label %28

28:                                               ; preds = %11
  %29 = load i32, ptr %4, align 4
  %30 = add nsw i32 %29, 1
  store i32 %30, ptr %4, align 4
  br label %8, !llvm.loop !12

31:                                               ; preds = %8
  ret ptr null
}

declare i32 @pthread_join(i64 noundef, ptr noundef) #1

; Function Attrs: noinline nounwind
define internal i32 @undo(ptr noundef %0, ptr noundef %1) #0 {
  %3 = alloca ptr, align 8
  %4 = alloca ptr, align 8
  %5 = alloca i32, align 4
  %6 = alloca ptr, align 8
  store ptr %0, ptr %3, align 8
  store ptr %1, ptr %4, align 8
  store i32 0, ptr %5, align 4
  br label %7

7:                                                ; preds = %12, %2
  %8 = load ptr, ptr %4, align 8
  %9 = getelementptr inbounds %struct.clerk, ptr %8, i32 0, i32 1
  %10 = load ptr, ptr %9, align 8
  %11 = icmp ne ptr %10, null
  br i1 %11, label %12, label %50

12:                                               ; preds = %7
  %13 = load ptr, ptr %4, align 8
  %14 = getelementptr inbounds %struct.clerk, ptr %13, i32 0, i32 1
  %15 = load ptr, ptr %14, align 8
  store ptr %15, ptr %6, align 8
  %16 = load ptr, ptr %6, align 8
  %17 = getelementptr inbounds %struct.note, ptr %16, i32 0, i32 1
  %18 = load i32, ptr %17, align 8
  %19 = load ptr, ptr %3, align 8
  %20 = getelementptr inbounds %struct.bank, ptr %19, i32 0, i32 0
  %21 = load ptr, ptr %6, align 8
  %22 = getelementptr inbounds %struct.note, ptr %21, i32 0, i32 2
  %23 = load i8, ptr %22, align 4
  %24 = sext i8 %23 to i64
  %25 = getelementptr inbounds [5 x %struct.account], ptr %20, i64 0, i64 %24
  %26 = getelementptr inbounds %struct.account, ptr %25, i32 0, i32 0
  %27 = load i32, ptr %26, align 8
  %28 = add nsw i32 %27, %18
  store i32 %28, ptr %26, align 8
  %29 = load ptr, ptr %6, align 8
  %30 = getelementptr inbounds %struct.note, ptr %29, i32 0, i32 1
  %31 = load i32, ptr %30, align 8
  %32 = load ptr, ptr %3, align 8
  %33 = getelementptr inbounds %struct.bank, ptr %32, i32 0, i32 0
  %34 = load ptr, ptr %6, align 8
  %35 = getelementptr inbounds %struct.note, ptr %34, i32 0, i32 3
  %36 = load i8, ptr %35, align 1
  %37 = sext i8 %36 to i64
  %38 = getelementptr inbounds [5 x %struct.account], ptr %33, i64 0, i64 %37
  %39 = getelementptr inbounds %struct.account, ptr %38, i32 0, i32 0
  %40 = load i32, ptr %39, align 8
  %41 = sub nsw i32 %40, %31
  store i32 %41, ptr %39, align 8
  %42 = load ptr, ptr %6, align 8
  %43 = getelementptr inbounds %struct.note, ptr %42, i32 0, i32 0
  %44 = load ptr, ptr %43, align 8
  %45 = load ptr, ptr %4, align 8
  %46 = getelementptr inbounds %struct.clerk, ptr %45, i32 0, i32 1
  store ptr %44, ptr %46, align 8
  %47 = load ptr, ptr %6, align 8
  call void @free(ptr noundef %47) #2
  %48 = load i32, ptr %5, align 4
  %49 = add nsw i32 %48, 1
  store i32 %49, ptr %5, align 4
  br label %7, !llvm.loop !13

50:                                               ; preds = %7
  %51 = load i32, ptr %5, align 4
  ret i32 %51
}

declare void @print_i64(i64 noundef) #1

; Function Attrs: noinline nounwind
define internal i32 @draw(ptr noundef %0, i32 noundef %1) #0 {
  %3 = alloca ptr, align 8
  %4 = alloca i32, align 4
  store ptr %0, ptr %3, align 8
  store i32 %1, ptr %4, align 4
  %5 = load ptr, ptr %3, align 8
  %6 = getelementptr inbounds %struct.clerk, ptr %5, i32 0, i32 2
  %7 = load i16, ptr %6, align 8
  %8 = zext i16 %7 to i32
  %9 = mul nsw i32 %8, 75
  %10 = add nsw i32 %9, 74
  %11 = trunc i32 %10 to i16
  %12 = load ptr, ptr %3, align 8
  %13 = getelementptr inbounds %struct.clerk, ptr %12, i32 0, i32 2
  store i16 %11, ptr %13, align 8
  %14 = load ptr, ptr %3, align 8
  %15 = getelementptr inbounds %struct.clerk, ptr %14, i32 0, i32 2
  %16 = load i16, ptr %15, align 8
  %17 = zext i16 %16 to i32
  %18 = ashr i32 %17, 8
  %19 = load i32, ptr %4, align 4
  %20 = srem i32 %18, %19
  ret i32 %20
}

; Function Attrs: noinline nounwind
define internal void @move(ptr noundef %0, ptr noundef %1, i32 noundef %2, i32 noundef %3, i32 noundef %4) #0 {
  %6 = alloca ptr, align 8
  %7 = alloca ptr, align 8
  %8 = alloca i32, align 4
  %9 = alloca i32, align 4
  %10 = alloca i32, align 4
  %11 = alloca ptr, align 8
  store ptr %0, ptr %6, align 8
  store ptr %1, ptr %7, align 8
  store i32 %2, ptr %8, align 4
  store i32 %3, ptr %9, align 4
  store i32 %4, ptr %10, align 4
  %12 = load ptr, ptr %6, align 8
  %13 = getelementptr inbounds %struct.bank, ptr %12, i32 0, i32 0
  %14 = load i32, ptr %8, align 4
  %15 = load i32, ptr %9, align 4
  %16 = icmp slt i32 %14, %15
  br i1 %16, label %17, label %19

17:                                               ; preds = %5
  %18 = load i32, ptr %8, align 4
  br label %21

19:                                               ; preds = %5
  %20 = load i32, ptr %9, align 4
  br label %21

21:                                               ; preds = %19, %17
  %22 = phi i32 [ %18, %17 ], [ %20, %19 ]
  %23 = sext i32 %22 to i64
  %24 = getelementptr inbounds [5 x %struct.account], ptr %13, i64 0, i64 %23
  call void @take(ptr noundef %24) #2
  %25 = load ptr, ptr %6, align 8
  %26 = getelementptr inbounds %struct.bank, ptr %25, i32 0, i32 0
  %27 = load i32, ptr %8, align 4
  %28 = load i32, ptr %9, align 4
  %29 = icmp slt i32 %27, %28
  br i1 %29, label %30, label %32

30:                                               ; preds = %21
  %31 = load i32, ptr %9, align 4
  br label %34

32:                                               ; preds = %21
  %33 = load i32, ptr %8, align 4
  br label %34

34:                                               ; preds = %32, %30
  %35 = phi i32 [ %31, %30 ], [ %33, %32 ]
  %36 = sext i32 %35 to i64
  %37 = getelementptr inbounds [5 x %struct.account], ptr %26, i64 0, i64 %36
  call void @take(ptr noundef %37) #2
  %38 = load i32, ptr %10, align 4
  %39 = load ptr, ptr %6, align 8
  %40 = getelementptr inbounds %struct.bank, ptr %39, i32 0, i32 0
  %41 = load i32, ptr %8, align 4
  %42 = sext i32 %41 to i64
  %43 = getelementptr inbounds [5 x %struct.account], ptr %40, i64 0, i64 %42
  %44 = getelementptr inbounds %struct.account, ptr %43, i32 0, i32 0
  %45 = load i32, ptr %44, align 8
  %46 = sub nsw i32 %45, %38
  store i32 %46, ptr %44, align 8
  %47 = load i32, ptr %10, align 4
  %48 = load ptr, ptr %6, align 8
  %49 = getelementptr inbounds %struct.bank, ptr %48, i32 0, i32 0
  %50 = load i32, ptr %9, align 4
  %51 = sext i32 %50 to i64
  %52 = getelementptr inbounds [5 x %struct.account], ptr %49, i64 0, i64 %51
  %53 = getelementptr inbounds %struct.account, ptr %52, i32 0, i32 0
  %54 = load i32, ptr %53, align 8
  %55 = add nsw i32 %54, %47
  store i32 %55, ptr %53, align 8
  %56 = load ptr, ptr %6, align 8
  %57 = getelementptr inbounds %struct.bank, ptr %56, i32 0, i32 0
  %58 = load i32, ptr %8, align 4
  %59 = sext i32 %58 to i64
  %60 = getelementptr inbounds [5 x %struct.account], ptr %57, i64 0, i64 %59
  call void @give(ptr noundef %60) #2
  %61 = load ptr, ptr %6, align 8
  %62 = getelementptr inbounds %struct.bank, ptr %61, i32 0, i32 0
  %63 = load i32, ptr %9, align 4
  %64 = sext i32 %63 to i64
  %65 = getelementptr inbounds [5 x %struct.account], ptr %62, i64 0, i64 %64
  call void @give(ptr noundef %65) #2
  %66 = call ptr @malloc(i64 noundef 16) #2
  store ptr %66, ptr %11, align 8
  %67 = load i32, ptr %8, align 4
  %68 = trunc i32 %67 to i8
  %69 = load ptr, ptr %11, align 8
  %70 = getelementptr inbounds %struct.note, ptr %69, i32 0, i32 2
  store i8 %68, ptr %70, align 4
  %71 = load i32, ptr %9, align 4
  %72 = trunc i32 %71 to i8
  %73 = load ptr, ptr %11, align 8
  %74 = getelementptr inbounds %struct.note, ptr %73, i32 0, i32 3
  store i8 %72, ptr %74, align 1
  %75 = load i32, ptr %10, align 4
  %76 = load ptr, ptr %11, align 8
  %77 = getelementptr inbounds %struct.note, ptr %76, i32 0, i32 1
  store i32 %75, ptr %77, align 8
  %78 = load ptr, ptr %7, align 8
  %79 = getelementptr inbounds %struct.clerk, ptr %78, i32 0, i32 1
  %80 = load ptr, ptr %79, align 8
  %81 = load ptr, ptr %11, align 8
  %82 = getelementptr inbounds %struct.note, ptr %81, i32 0, i32 0
  store ptr %80, ptr %82, align 8
  %83 = load ptr, ptr %11, align 8
  %84 = load ptr, ptr %7, align 8
  %85 = getelementptr inbounds %struct.clerk, ptr %84, i32 0, i32 1
  store ptr %83, ptr %85, align 8
  ret void
}

; Function Attrs: noinline nounwind
define internal void @take(ptr noundef %0) #0 {
  %2 = alloca ptr, align 8
  %3 = alloca i8, align 1
  %4 = alloca i8, align 1
  store ptr %0, ptr %2, align 8
  br label %5

5:                                                ; preds = %12, %1
  %6 = load ptr, ptr %2, align 8
  %7 = getelementptr inbounds %struct.account, ptr %6, i32 0, i32 1
  store i8 1, ptr %3, align 1
  %8 = load i8, ptr %3, align 1
  %9 = atomicrmw xchg ptr %7, i8 %8 acquire, align 1
  store i8 %9, ptr %4, align 1
  %10 = load i8, ptr %4, align 1
  %11 = trunc i8 %10 to i1
  br i1 %11, label %12, label %13

12:                                               ; preds = %5
  br label %5, !llvm.loop !14

13:                                               ; preds = %5
  ret void
}

; Function Attrs: noinline nounwind
define internal void @give(ptr noundef %0) #0 {
  %2 = alloca ptr, align 8
  %3 = alloca i8, align 1
  store ptr %0, ptr %2, align 8
  %4 = load ptr, ptr %2, align 8
  %5 = getelementptr inbounds %struct.account, ptr %4, i32 0, i32 1
  store i8 0, ptr %3, align 1
  %6 = load i8, ptr %3, align 1
  store atomic i8 %6, ptr %5 release, align 4
  ret void
}

declare ptr @malloc(i64 noundef) #1

declare void @free(ptr noundef) #1

attributes #0 = { noinline nounwind "frame-pointer"="all" "min-legal-vector-width"="0" "no-builtins" "no-trapping-math"="true" "stack-protector-buffer-size"="8" "target-cpu"="x86-64" "target-features"="+cx8,+fxsr,+mmx,+sse,+sse2,+x87" "tune-cpu"="generic" }
attributes #1 = { "frame-pointer"="all" "no-builtins" "no-trapping-math"="true" "stack-protector-buffer-size"="8" "target-cpu"="x86-64" "target-features"="+cx8,+fxsr,+mmx,+sse,+sse2,+x87" "tune-cpu"="generic" }
attributes #2 = { nobuiltin "no-builtins" }

!llvm.module.flags = !{!0, !1, !2, !3}
!llvm.ident = !{!4}

!0 = !{i32 1, !"wchar_size", i32 4}
!1 = !{i32 8, !"PIC Level", i32 2}
!2 = !{i32 7, !"PIE Level", i32 2}
!3 = !{i32 7, !"frame-pointer", i32 2}
!4 = !{!"Debian clang version 16.0.6 (15~deb12u1)"}
!5 = distinct !{!5, !6}
!6 = !{!"llvm.loop.mustprogress"}
!7 = distinct !{!7, !6}
!8 = distinct !{!8, !6}
!9 = distinct !{!9, !6}
!10 = distinct !{!10, !6}
!11 = distinct !{!11, !6}
!12 = distinct !{!12, !6}
!13 = distinct !{!13, !6}
!14 = distinct !{!14, !6}
