; ModuleID = 'text.c'
source_filename = "text.c"
target datalayout = "e-m:e-p270:32:32-p271:32:32-p272:64:64-i64:64-f80:128-n8:16:32:64-S128"
target triple = "x86_64-pc-linux-gnu"

@sentence = internal global [45 x i8] c"The quick brown fox jumps over the lazy dog.\00", align 16
@line = internal global [64 x i8] zeroinitializer, align 16
@letters = internal global [26 x i16] zeroinitializer, align 16
@texts = internal global [5 x ptr] [ptr @.str, ptr @.str.1, ptr @.str.2, ptr @.str.3, ptr @.str.4], align 16
@order = internal global [5 x i32] zeroinitializer, align 16
@digits = internal global [24 x i8] zeroinitializer, align 16
@packed = internal global [64 x i8] zeroinitializer, align 16
@.str = private unnamed_addr constant [5 x i8] c"pear\00", align 1
@.str.1 = private unnamed_addr constant [6 x i8] c"apple\00", align 1
@.str.2 = private unnamed_addr constant [6 x i8] c"pears\00", align 1
@.str.3 = private unnamed_addr constant [1 x i8] zeroinitializer, align 1
@.str.4 = private unnamed_addr constant [7 x i8] c"banana\00", align 1
@.str.5 = private unnamed_addr constant [21 x i8] c"aaaaaaaaaaaabbbc   d\00", align 1

; Function Attrs: noinline nounwind
define dso_local i32 @main() #0 {
  call void @sentences(ptr noundef @sentence, ptr noundef @line, ptr noundef @letters) #2
  call void @dictionary(ptr noundef @texts, ptr noundef @order) #2
  call void @numbers(ptr noundef @digits) #2
  call void @runs(ptr noundef @packed, ptr noundef @line) #2
  call void @narrow(ptr noundef @digits, ptr noundef @line, ptr noundef @letters, i32 noundef 200) #2
  ret i32 0
}

; Function Attrs: noinline nounwind
define internal void @sentences(ptr noundef %0, ptr noundef %1, ptr noundef %2) #0 {
  %4 = alloca ptr, align 8
  %5 = alloca ptr, align 8
  %6 = alloca ptr, align 8
  store ptr %0, ptr %4, align 8
  store ptr %1, ptr %5, align 8
  store ptr %2, ptr %6, align 8
  %7 = load ptr, ptr %4, align 8
  %8 = call i32 @length(ptr noundef %7) #2
  %9 = sext i32 %8 to i64
  call void @print_i64(i64 noundef %9) #2
  %10 = load ptr, ptr %4, align 8
  %11 = call i32 @count_words(ptr noundef %10) #2
  %12 = sext i32 %11 to i64
  call void @print_i64(i64 noundef %12) #2
  %13 = load ptr, ptr %4, align 8
  %14 = load ptr, ptr %6, align 8
  %15 = call i32 @count_letters(ptr noundef %13, ptr noundef %14) #2
  %16 = sext i32 %15 to i64
  call void @print_i64(i64 noundef %16) #2
  %17 = load ptr, ptr %6, align 8
  %18 = getelementptr inbounds i16, ptr %17, i64 14
  %19 = load i16, ptr %18, align 2
  %20 = sext i16 %19 to i64
  call void @print_i64(i64 noundef %20) #2
  %21 = load ptr, ptr %6, align 8
  %22 = getelementptr inbounds i16, ptr %21, i64 16
  %23 = load i16, ptr %22, align 2
  %24 = sext i16 %23 to i64
  call void @print_i64(i64 noundef %24) #2
  %25 = load ptr, ptr %5, align 8
  %26 = load ptr, ptr %4, align 8
  call void @copy(ptr noundef %25, ptr noundef %26) #2
  %27 = load ptr, ptr %5, align 8
  call void @turn_words(ptr noundef %27) #2
  %28 = load ptr, ptr %5, align 8
  %29 = load i8, ptr %28, align 1
  %30 = sext i8 %29 to i64
  call void @print_i64(i64 noundef %30) #2
  %31 = load ptr, ptr %5, align 8
  %32 = load ptr, ptr %5, align 8
  %33 = call i32 @length(ptr noundef %32) #2
  %34 = sub nsw i32 %33, 3
  %35 = sext i32 %34 to i64
  %36 = getelementptr inbounds i8, ptr %31, i64 %35
  %37 = load i8, ptr %36, align 1
  %38 = sext i8 %37 to i64
  call void @print_i64(i64 noundef %38) #2
  %39 = load ptr, ptr %5, align 8
  call void @turn_words(ptr noundef %39) #2
  %40 = load ptr, ptr %4, align 8
  %41 = load ptr, ptr %5, align 8
  %42 = call i32 @compare(ptr noundef %40, ptr noundef %41) #2
  %43 = icmp eq i32 %42, 0
  %44 = zext i1 %43 to i32
  %45 = sext i32 %44 to i64
  call void @print_i64(i64 noundef %45) #2
  ret void
}

; Function Attrs: noinline nounwind
define internal void @dictionary(ptr noundef %0, ptr noundef %1) #0 {
  %3 = alloca ptr, align 8
  %4 = alloca ptr, align 8
  %5 = alloca i32, align 4
  store ptr %0, ptr %3, align 8
  store ptr %1, ptr %4, align 8
  %6 = load ptr, ptr %3, align 8
  %7 = load ptr, ptr %4, align 8
  call void @sort(ptr noundef %6, ptr noundef %7, i32 noundef 5) #2
  store i32 0, ptr %5, align 4
  br label %8

8:                                                ; preds = %18, %2
  %9 = load i32, ptr %5, align 4
  %10 = icmp slt i32 %9, 5
  br i1 %10, label %11, label %21

11:                                               ; preds = %8
  %12 = load ptr, ptr %4, align 8
  %13 = load i32, ptr %5, align 4
  %14 = sext i32 %13 to i64
  %15 = getelementptr inbounds i32, ptr %12, i64 %14
  %16 = load i32, ptr %15, align 4
  %17 = sext i32 %16 to i64
  call void @print_i64(i64 noundef %17) #2
  br label %18

18:                                               ; preds = %11
  %19 = load i32, ptr %5, align 4
  %20 = add nsw i32 %19, 1
  store i32 %20, ptr %5, align 4
  br label %8, !llvm.loop !5

21:                                               ; preds = %8
  %22 = load ptr, ptr %3, align 8
  %23 = getelementptr inbounds ptr, ptr %22, i64 0
  %24 = load ptr, ptr %23, align 8
  %25 = load ptr, ptr %3, align 8
  %26 = getelementptr inbounds ptr, ptr %25, i64 2
  %27 = load ptr, ptr %26, align 8
  %28 = call i32 @compare(ptr noundef %24, ptr noundef %27) #2
  %29 = sext i32 %28 to i64
  call void @print_i64(i64 noundef %29) #2
  %30 = load ptr, ptr %3, align 8
  %31 = getelementptr inbounds ptr, ptr %30, i64 3
  %32 = load ptr, ptr %31, align 8
  %33 = load ptr, ptr %3, align 8
  %34 = getelementptr inbounds ptr, ptr %33, i64 3
  %35 = load ptr, ptr %34, align 8
  %36 = call i32 @compare(ptr noundef %32, ptr noundef %35) #2
  %37 = sext i32 %36 to i64
  call void @print_i64(i64 noundef %37) #2
  %38 = load ptr, ptr %3, align 8
  %39 = getelementptr inbounds ptr, ptr %38, i64 2
  %40 = load ptr, ptr %39, align 8
  %41 = load ptr, ptr %3, align 8
  %42 = getelementptr inbounds ptr, ptr %41, i64 0
  %43 = load ptr, ptr %42, align 8
  %44 = call i32 @compare(ptr noundef %40, ptr noundef %43) #2
  %45 = sext i32 %44 to i64
  call void @print_i64(i64 noundef %45) #2
  ret void
}

; Function Attrs: noinline nounwind
define internal void @numbers(ptr noundef %0) #0 {
  %2 = alloca ptr, align 8
  store ptr %0, ptr %2, align 8
  %3 = load ptr, ptr %2, align 8
  %4 = getelementptr inbounds i8, ptr %3, i64 24
  %5 = call ptr @write_number(ptr noundef %4, i64 noundef 11, i8 noundef zeroext 2) #2
  %6 = call i64 @read_number(ptr noundef %5, i8 noundef zeroext 2) #2
  call void @print_i64(i64 noundef %6) #2
  %7 = load ptr, ptr %2, align 8
  %8 = getelementptr inbounds i8, ptr %7, i64 24
  %9 = call ptr @write_number(ptr noundef %8, i64 noundef -32768, i8 noundef zeroext 16) #2
  %10 = call i64 @read_number(ptr noundef %9, i8 noundef zeroext 16) #2
  call void @print_i64(i64 noundef %10) #2
  %11 = load ptr, ptr %2, align 8
  %12 = getelementptr inbounds i8, ptr %11, i64 24
  %13 = call ptr @write_number(ptr noundef %12, i64 noundef 9, i8 noundef zeroext 2) #2
  %14 = call i64 @read_number(ptr noundef %13, i8 noundef zeroext 10) #2
  call void @print_i64(i64 noundef %14) #2
  %15 = load ptr, ptr %2, align 8
  %16 = getelementptr inbounds i8, ptr %15, i64 24
  %17 = call ptr @write_number(ptr noundef %16, i64 noundef -46, i8 noundef zeroext 36) #2
  %18 = call i64 @read_number(ptr noundef %17, i8 noundef zeroext 36) #2
  call void @print_i64(i64 noundef %18) #2
  %19 = load ptr, ptr %2, align 8
  %20 = getelementptr inbounds i8, ptr %19, i64 24
  %21 = call ptr @write_number(ptr noundef %20, i64 noundef 200, i8 noundef zeroext 2) #2
  %22 = call i32 @length(ptr noundef %21) #2
  %23 = sext i32 %22 to i64
  call void @print_i64(i64 noundef %23) #2
  ret void
}

; Function Attrs: noinline nounwind
define internal void @runs(ptr noundef %0, ptr noundef %1) #0 {
  %3 = alloca ptr, align 8
  %4 = alloca ptr, align 8
  store ptr %0, ptr %3, align 8
  store ptr %1, ptr %4, align 8
  %5 = load ptr, ptr %3, align 8
  call void @pack(ptr noundef %5, ptr noundef @.str.5) #2
  %6 = load ptr, ptr %3, align 8
  %7 = call i32 @length(ptr noundef %6) #2
  %8 = sext i32 %7 to i64
  call void @print_i64(i64 noundef %8) #2
  %9 = load ptr, ptr %4, align 8
  %10 = load ptr, ptr %3, align 8
  call void @unpack(ptr noundef %9, ptr noundef %10) #2
  %11 = load ptr, ptr %4, align 8
  %12 = call i32 @compare(ptr noundef %11, ptr noundef @.str.5) #2
  %13 = icmp eq i32 %12, 0
  %14 = zext i1 %13 to i32
  %15 = sext i32 %14 to i64
  call void @print_i64(i64 noundef %15) #2
  ret void
}

; Function Attrs: noinline nounwind
define internal void @narrow(ptr noundef %0, ptr noundef %1, ptr noundef %2, i32 noundef %3) #0 {
  %5 = alloca ptr, align 8
  %6 = alloca ptr, align 8
  %7 = alloca ptr, align 8
  %8 = alloca i32, align 4
  store ptr %0, ptr %5, align 8
  store ptr %1, ptr %6, align 8
  store ptr %2, ptr %7, align 8
  store i32 %3, ptr %8, align 4
  %9 = load i32, ptr %8, align 4
  %10 = trunc i32 %9 to i8
  %11 = load ptr, ptr %5, align 8
  store i8 %10, ptr %11, align 1
  %12 = load i32, ptr %8, align 4
  %13 = trunc i32 %12 to i8
  %14 = load ptr, ptr %6, align 8
  store i8 %13, ptr %14, align 1
  %15 = load i32, ptr %8, align 4
  %16 = mul nsw i32 %15, 500
  %17 = trunc i32 %16 to i16
  %18 = load ptr, ptr %7, align 8
  store i16 %17, ptr %18, align 2
  %19 = load ptr, ptr %5, align 8
  %20 = load i8, ptr %19, align 1
  %21 = zext i8 %20 to i64
  call void @print_i64(i64 noundef %21) #2
  %22 = load ptr, ptr %6, align 8
  %23 = load i8, ptr %22, align 1
  %24 = sext i8 %23 to i64
  call void @print_i64(i64 noundef %24) #2
  %25 = load ptr, ptr %7, align 8
  %26 = load i16, ptr %25, align 2
  %27 = zext i16 %26 to i64
  call void @print_i64(i64 noundef %27) #2
  ret void
}

declare void @print_i64(i64 noundef) #1

; Function Attrs: noinline nounwind
define internal i32 @length(ptr noundef %0) #0 {
  %2 = alloca ptr, align 8
  %3 = alloca i32, align 4
  store ptr %0, ptr %2, align 8
  store i32 0, ptr %3, align 4
  br label %4

4:                                                ; preds = %12, %1
  %5 = load ptr, ptr %2, align 8
  %6 = load i32, ptr %3, align 4
  %7 = sext i32 %6 to i64
  %8 = getelementptr inbounds i8, ptr %5, i64 %7
  %9 = load i8, ptr %8, align 1
  %10 = sext i8 %9 to i32
  %11 = icmp ne i32 %10, 0
  br i1 %11, label %12, label %15

12:                                               ; preds = %4
  %13 = load i32, ptr %3, align 4
  %14 = add nsw i32 %13, 1
  store i32 %14, ptr %3, align 4
  br label %4, !llvm.loop !7

15:                                               ; preds = %4
  %16 = load i32, ptr %3, align 4
  ret i32 %16
}

; Function Attrs: noinline nounwind
define internal i32 @count_words(ptr noundef %0) #0 {
  %2 = alloca ptr, align 8
  %3 = alloca i32, align 4
  %4 = alloca i8, align 1
  store ptr %0, ptr %2, align 8
  store i32 0, ptr %3, align 4
  store i8 0, ptr %4, align 1
  br label %5

5:                                                ; preds = %25, %1
  %6 = load ptr, ptr %2, align 8
  %7 = load i8, ptr %6, align 1
  %8 = sext i8 %7 to i32
  %9 = icmp ne i32 %8, 0
  br i1 %9, label %10, label %28

10:                                               ; preds = %5
  %11 = load ptr, ptr %2, align 8
  %12 = load i8, ptr %11, align 1
  %13 = call zeroext i1 @is_letter(i8 noundef signext %12) #2
  br i1 %13, label %14, label %20

14:                                               ; preds = %10
  %15 = load i8, ptr %4, align 1
  %16 = trunc i8 %15 to i1
  br i1 %16, label %20, label %17

17:                                               ; preds = %14
  %18 = load i32, ptr %3, align 4
  %19 = add nsw i32 %18, 1
  store i32 %19, ptr %3, align 4
  br label %20

20:                                               ; preds = %17, %14, %10
  %21 = load ptr, ptr %2, align 8
  %22 = load i8, ptr %21, align 1
  %23 = call zeroext i1 @is_letter(i8 noundef signext %22) #2
  %24 = zext i1 %23 to i8
  store i8 %24, ptr %4, align 1
  br label %25

25:                                               ; preds = %20
  %26 = load ptr, ptr %2, align 8
  %27 = getelementptr inbounds i8, ptr %26, i32 1
  store ptr %27, ptr %2, align 8
  br label %5, !llvm.loop !8

28:                                               ; preds = %5
  %29 = load i32, ptr %3, align 4
  ret i32 %29
}

; Function Attrs: noinline nounwind
define internal i32 @count_letters(ptr noundef %0, ptr noundef %1) #0 {
  %3 = alloca ptr, align 8
  %4 = alloca ptr, align 8
  %5 = alloca i32, align 4
  store ptr %0, ptr %3, align 8
  store ptr %1, ptr %4, align 8
  store i32 0, ptr %5, align 4
  br label %6

6:                                                ; preds = %29, %2
  %7 = load ptr, ptr %3, align 8
  %8 = load i8, ptr %7, align 1
  %9 = sext i8 %8 to i32
  %10 = icmp ne i32 %9, 0
  br i1 %10, label %11, label %32

11:                                               ; preds = %6
  %12 = load ptr, ptr %3, align 8
  %13 = load i8, ptr %12, align 1
  %14 = call zeroext i1 @is_letter(i8 noundef signext %13) #2
  br i1 %14, label %16, label %15

15:                                               ; preds = %11
  br label %29

16:                                               ; preds = %11
  %17 = load ptr, ptr %4, align 8
  %18 = load ptr, ptr %3, align 8
  %19 = load i8, ptr %18, align 1
  %20 = sext i8 %19 to i32
  %21 = or i32 %20, 32
  %22 = sub nsw i32 %21, 97
  %23 = sext i32 %22 to i64
  %24 = getelementptr inbounds i16, ptr %17, i64 %23
  %25 = load i16, ptr %24, align 2
  %26 = add i16 %25, 1
  store i16 %26, ptr %24, align 2
  %27 = load i32, ptr %5, align 4
  %28 = add nsw i32 %27, 1
  store i32 %28, ptr %5, align 4
  br label %29

29:                                               ; preds = %16, %15
  %30 = load ptr, ptr %3, align 8
  %31 = getelementptr inbounds i8, ptr %30, i32 1
  store ptr %31, ptr %3, align 8
  br label %6, !llvm.loop !9

32:                                               ; preds = %6
  %33 = load i32, ptr %5, align 4
  ret i32 %33
}

; Function Attrs: noinline nounwind
define internal void @copy(ptr noundef %0, ptr noundef %1) #0 {
  %3 = alloca ptr, align 8
  %4 = alloca ptr, align 8
  store ptr %0, ptr %3, align 8
  store ptr %1, ptr %4, align 8
  br label %5

5:                                                ; preds = %13, %2
  %6 = load ptr, ptr %4, align 8
  %7 = getelementptr inbounds i8, ptr %6, i32 1
  store ptr %7, ptr %4, align 8
  %8 = load i8, ptr %6, align 1
  %9 = load ptr, ptr %3, align 8
  %10 = getelementptr inbounds i8, ptr %9, i32 1
  store ptr %10, ptr %3, align 8
  store i8 %8, ptr %9, align 1
  %11 = sext i8 %8 to i32
  %12 = icmp ne i32 %11, 0
  br i1 %12, label %13, label %14

13:                                               ; preds = %5
  br label %5, !llvm.loop !10

14:                                               ; preds = %5
  ret void
}

; Function Attrs: noinline nounwind
define internal void @turn_words(ptr noundef %0) #0 {
  %2 = alloca ptr, align 8
  %3 = alloca ptr, align 8
  %4 = alloca ptr, align 8
  store ptr %0, ptr %2, align 8
  %5 = load ptr, ptr %2, align 8
  store ptr %5, ptr %3, align 8
  %6 = load ptr, ptr %2, align 8
  store ptr %6, ptr %4, align 8
  br label %7

7:                                                ; preds = %30, %1
  %8 = load ptr, ptr %4, align 8
  %9 = load i8, ptr %8, align 1
  %10 = sext i8 %9 to i32
  %11 = icmp ne i32 %10, 32
  br i1 %11, label %12, label %18

12:                                               ; preds = %7
  %13 = load ptr, ptr %4, align 8
  %14 = load i8, ptr %13, align 1
  %15 = sext i8 %14 to i32
  %16 = icmp ne i32 %15, 0
  br i1 %16, label %17, label %18

17:                                               ; preds = %12
  br label %30

18:                                               ; preds = %12, %7
  %19 = load ptr, ptr %3, align 8
  %20 = load ptr, ptr %4, align 8
  %21 = getelementptr inbounds i8, ptr %20, i64 -1
  call void @turn_round(ptr noundef %19, ptr noundef %21) #2
  %22 = load ptr, ptr %4, align 8
  %23 = getelementptr inbounds i8, ptr %22, i64 1
  store ptr %23, ptr %3, align 8
  %24 = load ptr, ptr %4, align 8
  %25 = load i8, ptr %24, align 1
  %26 = sext i8 %25 to i32
  %27 = icmp eq i32 %26, 0
  br i1 %27, label %28, label %29

28:                                               ; preds = %18
  br label %33

29:                                               ; preds = %18
  br label %30

30:                                               ; preds = %29, %17
  %31 = load ptr, ptr %4, align 8
  %32 = getelementptr inbounds i8, ptr %31, i32 1
  store ptr %32, ptr %4, align 8
  br label %7

33:                                               ; preds = %28
  %34 = load ptr, ptr %2, align 8
  %35 = load ptr, ptr %4, align 8
  %36 = getelementptr inbounds i8, ptr %35, i64 -1
  call void @turn_round(ptr noundef %34, ptr noundef %36) #2
  ret void
}

; Function Attrs: noinline nounwind
define internal i32 @compare(ptr noundef %0, ptr noundef %1) #0 {
  %3 = alloca ptr, align 8
  %4 = alloca ptr, align 8
  %5 = alloca i32, align 4
  store ptr %0, ptr %3, align 8
  store ptr %1, ptr %4, align 8
  br label %6

6:                                                ; preds = %21, %2
  %7 = load ptr, ptr %3, align 8
  %8 = load i8, ptr %7, align 1
  %9 = sext i8 %8 to i32
  %10 = icmp ne i32 %9, 0
  br i1 %10, label %11, label %19

11:                                               ; preds = %6
  %12 = load ptr, ptr %3, align 8
  %13 = load i8, ptr %12, align 1
  %14 = sext i8 %13 to i32
  %15 = load ptr, ptr %4, align 8
  %16 = load i8, ptr %15, align 1
  %17 = sext i8 %16 to i32
  %18 = icmp eq i32 %14, %17
  br label %19

19:                                               ; preds = %11, %6
  %20 = phi i1 [ false, %6 ], [ %18, %11 ]
  br i1 %20, label %21, label %26

21:                                               ; preds = %19
  %22 = load ptr, ptr %3, align 8
  %23 = getelementptr inbounds i8, ptr %22, i32 1
  store ptr %23, ptr %3, align 8
  %24 = load ptr, ptr %4, align 8
  %25 = getelementptr inbounds i8, ptr %24, i32 1
  store ptr %25, ptr %4, align 8
  br label %6, !llvm.loop !11

26:                                               ; preds = %19
  %27 = load ptr, ptr %3, align 8
  %28 = load i8, ptr %27, align 1
  %29 = zext i8 %28 to i32
  %30 = load ptr, ptr %4, align 8
  %31 = load i8, ptr %30, align 1
  %32 = zext i8 %31 to i32
  %33 = sub nsw i32 %29, %32
  store i32 %33, ptr %5, align 4
  %34 = load i32, ptr %5, align 4
  %35 = icmp slt i32 %34, 0
  br i1 %35, label %36, label %37

36:                                               ; preds = %26
  br label %41

37:                                               ; preds = %26
  %38 = load i32, ptr %5, align 4
  %39 = icmp sgt i32 %38, 0
  %40 = zext i1 %39 to i32
  br label %41

41:                                               ; preds = %37, %36
  %42 = phi i32 [ -1, %36 ], [ %40, %37 ]
  ret i32 %42
}

; Function Attrs: noinline nounwind
define internal zeroext i1 @is_letter(i8 noundef signext %0) #0 {
  %2 = alloca i8, align 1
  store i8 %0, ptr %2, align 1
  %3 = load i8, ptr %2, align 1
  %4 = sext i8 %3 to i32
  %5 = icmp sge i32 %4, 97
  br i1 %5, label %6, label %10

6:                                                ; preds = %1
  %7 = load i8, ptr %2, align 1
  %8 = sext i8 %7 to i32
  %9 = icmp sle i32 %8, 122
  br i1 %9, label %20, label %10

10:                                               ; preds = %6, %1
  %11 = load i8, ptr %2, align 1
  %12 = sext i8 %11 to i32
  %13 = icmp sge i32 %12, 65
  br i1 %13, label %14, label %18

14:                                               ; preds = %10
  %15 = load i8, ptr %2, align 1
  %16 = sext i8 %15 to i32
  %17 = icmp sle i32 %16, 90
  br label %18

18:                                               ; preds = %14, %10
  %19 = phi i1 [ false, %10 ], [ %17, %14 ]
  br label %20

20:                                               ; preds = %18, %6
  %21 = phi i1 [ true, %6 ], [ %19, %18 ]
  ret i1 %21
}

; Function Attrs: noinline nounwind
define internal void @turn_round(ptr noundef %0, ptr noundef %1) #0 {
  %3 = alloca ptr, align 8
  %4 = alloca ptr, align 8
  %5 = alloca i8, align 1
  store ptr %0, ptr %3, align 8
  store ptr %1, ptr %4, align 8
  br label %6

6:                                                ; preds = %18, %2
  %7 = load ptr, ptr %3, align 8
  %8 = load ptr, ptr %4, align 8
  %9 = icmp ult ptr %7, %8
  br i1 %9, label %10, label %23

10:                                               ; preds = %6
  %11 = load ptr, ptr %3, align 8
  %12 = load i8, ptr %11, align 1
  store i8 %12, ptr %5, align 1
  %13 = load ptr, ptr %4, align 8
  %14 = load i8, ptr %13, align 1
  %15 = load ptr, ptr %3, align 8
  store i8 %14, ptr %15, align 1
  %16 = load i8, ptr %5, align 1
  %17 = load ptr, ptr %4, align 8
  store i8 %16, ptr %17, align 1
  br label %18

18:                                               ; preds = %10
  %19 = load ptr, ptr %3, align 8
  %20 = getelementptr inbounds i8, ptr %19, i32 1
  store ptr %20, ptr %3, align 8
  %21 = load ptr, ptr %4, align 8
  %22 = getelementptr inbounds i8, ptr %21, i32 -1
  store ptr %22, ptr %4, align 8
  br label %6, !llvm.loop !12

23:                                               ; preds = %6
  ret void
}

; Function Attrs: noinline nounwind
define internal void @sort(ptr noundef %0, ptr noundef %1, i32 noundef %2) #0 {
  %4 = alloca ptr, align 8
  %5 = alloca ptr, align 8
  %6 = alloca i32, align 4
  %7 = alloca i32, align 4
  %8 = alloca i32, align 4
  store ptr %0, ptr %4, align 8
  store ptr %1, ptr %5, align 8
  store i32 %2, ptr %6, align 4
  store i32 0, ptr %7, align 4
  br label %9

9:                                                ; preds = %58, %3
  %10 = load i32, ptr %7, align 4
  %11 = load i32, ptr %6, align 4
  %12 = icmp slt i32 %10, %11
  br i1 %12, label %13, label %61

13:                                               ; preds = %9
  %14 = load i32, ptr %7, align 4
  store i32 %14, ptr %8, align 4
  br label %15

15:                                               ; preds = %49, %13
  %16 = load i32, ptr %8, align 4
  %17 = icmp sgt i32 %16, 0
  br i1 %17, label %18, label %36

18:                                               ; preds = %15
  %19 = load ptr, ptr %4, align 8
  %20 = load ptr, ptr %5, align 8
  %21 = load i32, ptr %8, align 4
  %22 = sub nsw i32 %21, 1
  %23 = sext i32 %22 to i64
  %24 = getelementptr inbounds i32, ptr %20, i64 %23
  %25 = load i32, ptr %24, align 4
  %26 = sext i32 %25 to i64
  %27 = getelementptr inbounds ptr, ptr %19, i64 %26
  %28 = load ptr, ptr %27, align 8
  %29 = load ptr, ptr %4, align 8
  %30 = load i32, ptr %7, align 4
  %31 = sext i32 %30 to i64
  %32 = getelementptr inbounds ptr, ptr %29, i64 %31
  %33 = load ptr, ptr %32, align 8
  %34 = call i32 @compare(ptr noundef %28, ptr noundef %33) #2
  %35 = icmp sgt i32 %34, 0
  br label %36

36:                                               ; preds = %18, %15
  %37 = phi i1 [ false, %15 ], [ %35, %18 ]
  br i1 %37, label %38, label %52

38:                                               ; preds = %36
  %39 = load ptr, ptr %5, align 8
  %40 = load i32, ptr %8, align 4
  %41 = sub nsw i32 %40, 1
  %42 = sext i32 %41 to i64
  %43 = getelementptr inbounds i32, ptr %39, i64 %42
  %44 = load i32, ptr %43, align 4
  %45 = load ptr, ptr %5, align 8
  %46 = load i32, ptr %8, align 4
  %47 = sext i32 %46 to i64
  %48 = getelementptr inbounds i32, ptr %45, i64 %47
  store i32 %44, ptr %48, align 4
  br label %49

49:                                               ; preds = %38
  %50 = load i32, ptr %8, align 4
  %51 = add nsw i32 %50, -1
  store i32 %51, ptr %8, align 4
  br label %15, !llvm.loop !13

52:                                               ; preds = %36
  %53 = load i32, ptr %7, align 4
  %54 = load ptr, ptr %5, align 8
  %55 = load i32, ptr %8, align 4
  %56 = sext i32 %55 to i64
  %57 = getelementptr inbounds i32, ptr %54, i64 %56
  store i32 %53, ptr %57, align 4
  br label %58

58:                                               ; preds = %52
  %59 = load i32, ptr %7, align 4
  %60 = add nsw i32 %59, 1
  store i32 %60, ptr %7, align 4
  br label %9, !llvm.loop !14

61:                                               ; preds = %9
  ret void
}

; Function Attrs: noinline nounwind
define internal i64 @read_number(ptr noundef %0, i8 noundef zeroext %1) #0 {
  %3 = alloca ptr, align 8
  %4 = alloca i8, align 1
  %5 = alloca i64, align 8
  %6 = alloca i8, align 1
  store ptr %0, ptr %3, align 8
  store i8 %1, ptr %4, align 1
  store i64 0, ptr %5, align 8
  %7 = load ptr, ptr %3, align 8
  %8 = load i8, ptr %7, align 1
  %9 = sext i8 %8 to i32
  %10 = icmp eq i32 %9, 45
  %11 = zext i1 %10 to i8
  store i8 %11, ptr %6, align 1
  %12 = load i8, ptr %6, align 1
  %13 = trunc i8 %12 to i1
  %14 = zext i1 %13 to i32
  %15 = load ptr, ptr %3, align 8
  %16 = sext i32 %14 to i64
  %17 = getelementptr inbounds i8, ptr %15, i64 %16
  store ptr %17, ptr %3, align 8
  br label %18

18:                                               ; preds = %47, %2
  %19 = load ptr, ptr %3, align 8
  %20 = load i8, ptr %19, align 1
  %21 = sext i8 %20 to i32
  %22 = icmp ne i32 %21, 0
  br i1 %22, label %23, label %50

23:                                               ; preds = %18
  %24 = load i64, ptr %5, align 8
  %25 = load i8, ptr %4, align 1
  %26 = zext i8 %25 to i64
  %27 = mul nsw i64 %24, %26
  %28 = load ptr, ptr %3, align 8
  %29 = load i8, ptr %28, align 1
  %30 = sext i8 %29 to i32
  %31 = icmp sle i32 %30, 57
  br i1 %31, label %32, label %37

32:                                               ; preds = %23
  %33 = load ptr, ptr %3, align 8
  %34 = load i8, ptr %33, align 1
  %35 = sext i8 %34 to i32
  %36 = sub nsw i32 %35, 48
  br label %43

37:                                               ; preds = %23
  %38 = load ptr, ptr %3, align 8
  %39 = load i8, ptr %38, align 1
  %40 = sext i8 %39 to i32
  %41 = sub nsw i32 %40, 97
  %42 = add nsw i32 %41, 10
  br label %43

43:                                               ; preds = %37, %32
  %44 = phi i32 [ %36, %32 ], [ %42, %37 ]
  %45 = sext i32 %44 to i64
  %46 = add nsw i64 %27, %45
  store i64 %46, ptr %5, align 8
  br label %47

47:                                               ; preds = %43
  %48 = load ptr, ptr %3, align 8
  %49 = getelementptr inbounds i8, ptr %48, i32 1
  store ptr %49, ptr %3, align 8
  br label %18, !llvm.loop !15

50:                                               ; preds = %18
  %51 = load i8, ptr %6, align 1
  %52 = trunc i8 %51 to i1
  br i1 %52, label %53, label %56

53:                                               ; preds = %50
  %54 = load i64, ptr %5, align 8
  %55 = sub nsw i64 0, %54
  br label %58

56:                                               ; preds = %50
  %57 = load i64, ptr %5, align 8
  br label %58

58:                                               ; preds = %56, %53
  %59 = phi i64 [ %55, %53 ], [ %57, %56 ]
  ret i64 %59
}

; Function Attrs: noinline nounwind
define internal ptr @write_number(ptr noundef %0, i64 noundef %1, i8 noundef zeroext %2) #0 {
  %4 = alloca ptr, align 8
  %5 = alloca i64, align 8
  %6 = alloca i8, align 1
  %7 = alloca i64, align 8
  %8 = alloca i8, align 1
  store ptr %0, ptr %4, align 8
  store i64 %1, ptr %5, align 8
  store i8 %2, ptr %6, align 1
  %9 = load i64, ptr %5, align 8
  %10 = icmp slt i64 %9, 0
  br i1 %10, label %11, label %14

11:                                               ; preds = %3
  %12 = load i64, ptr %5, align 8
  %13 = sub i64 0, %12
  br label %16

14:                                               ; preds = %3
  %15 = load i64, ptr %5, align 8
  br label %16

16:                                               ; preds = %14, %11
  %17 = phi i64 [ %13, %11 ], [ %15, %14 ]
  store i64 %17, ptr %7, align 8
  %18 = load ptr, ptr %4, align 8
  %19 = getelementptr inbounds i8, ptr %18, i32 -1
  store ptr %19, ptr %4, align 8
  store i8 0, ptr %19, align 1
  br label %20

20:                                               ; preds = %47, %16
  %21 = load i64, ptr %7, align 8
  %22 = load i8, ptr %6, align 1
  %23 = zext i8 %22 to i64
  %24 = urem i64 %21, %23
  %25 = trunc i64 %24 to i8
  store i8 %25, ptr %8, align 1
  %26 = load i8, ptr %8, align 1
  %27 = zext i8 %26 to i32
  %28 = icmp slt i32 %27, 10
  br i1 %28, label %29, label %33

29:                                               ; preds = %20
  %30 = load i8, ptr %8, align 1
  %31 = zext i8 %30 to i32
  %32 = add nsw i32 48, %31
  br label %38

33:                                               ; preds = %20
  %34 = load i8, ptr %8, align 1
  %35 = zext i8 %34 to i32
  %36 = add nsw i32 97, %35
  %37 = sub nsw i32 %36, 10
  br label %38

38:                                               ; preds = %33, %29
  %39 = phi i32 [ %32, %29 ], [ %37, %33 ]
  %40 = trunc i32 %39 to i8
  %41 = load ptr, ptr %4, align 8
  %42 = getelementptr inbounds i8, ptr %41, i32 -1
  store ptr %42, ptr %4, align 8
  store i8 %40, ptr %42, align 1
  %43 = load i8, ptr %6, align 1
  %44 = zext i8 %43 to i64
  %45 = load i64, ptr %7, align 8
  %46 = udiv i64 %45, %44
  store i64 %46, ptr %7, align 8
  br label %47

47:                                               ; preds = %38
  %48 = load i64, ptr %7, align 8
  %49 = icmp ne i64 %48, 0
  br i1 %49, label %20, label %50, !llvm.loop !16

50:                                               ; preds = %47
  %51 = load i64, ptr %5, align 8
  %52 = icmp slt i64 %51, 0
  br i1 %52, label %53, label %56

53:                                               ; preds = %50
  %54 = load ptr, ptr %4, align 8
  %55 = getelementptr inbounds i8, ptr %54, i32 -1
  store ptr %55, ptr %4, align 8
  store i8 45, ptr %55, align 1
  br label %56

56:                                               ; preds = %53, %50
  %57 = load ptr, ptr %4, align 8
  ret ptr %57
}

; Function Attrs: noinline nounwind
define internal void @pack(ptr noundef %0, ptr noundef %1) #0 {
  %3 = alloca ptr, align 8
  %4 = alloca ptr, align 8
  %5 = alloca i8, align 1
  store ptr %0, ptr %3, align 8
  store ptr %1, ptr %4, align 8
  br label %6

6:                                                ; preds = %32, %2
  %7 = load ptr, ptr %4, align 8
  %8 = load i8, ptr %7, align 1
  %9 = sext i8 %8 to i32
  %10 = icmp ne i32 %9, 0
  br i1 %10, label %11, label %48

11:                                               ; preds = %6
  store i8 1, ptr %5, align 1
  br label %12

12:                                               ; preds = %29, %11
  %13 = load ptr, ptr %4, align 8
  %14 = load i8, ptr %5, align 1
  %15 = sext i8 %14 to i64
  %16 = getelementptr inbounds i8, ptr %13, i64 %15
  %17 = load i8, ptr %16, align 1
  %18 = sext i8 %17 to i32
  %19 = load ptr, ptr %4, align 8
  %20 = load i8, ptr %19, align 1
  %21 = sext i8 %20 to i32
  %22 = icmp eq i32 %18, %21
  br i1 %22, label %23, label %27

23:                                               ; preds = %12
  %24 = load i8, ptr %5, align 1
  %25 = sext i8 %24 to i32
  %26 = icmp slt i32 %25, 9
  br label %27

27:                                               ; preds = %23, %12
  %28 = phi i1 [ false, %12 ], [ %26, %23 ]
  br i1 %28, label %29, label %32

29:                                               ; preds = %27
  %30 = load i8, ptr %5, align 1
  %31 = add i8 %30, 1
  store i8 %31, ptr %5, align 1
  br label %12, !llvm.loop !17

32:                                               ; preds = %27
  %33 = load i8, ptr %5, align 1
  %34 = sext i8 %33 to i32
  %35 = add nsw i32 48, %34
  %36 = trunc i32 %35 to i8
  %37 = load ptr, ptr %3, align 8
  %38 = getelementptr inbounds i8, ptr %37, i32 1
  store ptr %38, ptr %3, align 8
  store i8 %36, ptr %37, align 1
  %39 = load ptr, ptr %4, align 8
  %40 = load i8, ptr %39, align 1
  %41 = load ptr, ptr %3, align 8
  %42 = getelementptr inbounds i8, ptr %41, i32 1
  store ptr %42, ptr %3, align 8
  store i8 %40, ptr %41, align 1
  %43 = load i8, ptr %5, align 1
  %44 = sext i8 %43 to i32
  %45 = load ptr, ptr %4, align 8
  %46 = sext i32 %44 to i64
  %47 = getelementptr inbounds i8, ptr %45, i64 %46
  store ptr %47, ptr %4, align 8
  br label %6, !llvm.loop !18

48:                                               ; preds = %6
  %49 = load ptr, ptr %3, align 8
  store i8 0, ptr %49, align 1
  ret void
}

; Function Attrs: noinline nounwind
define internal void @unpack(ptr noundef %0, ptr noundef %1) #0 {
  %3 = alloca ptr, align 8
  %4 = alloca ptr, align 8
  %5 = alloca i8, align 1
  store ptr %0, ptr %3, align 8
  store ptr %1, ptr %4, align 8
  br label %6

6:                                                ; preds = %31, %2
  %7 = load ptr, ptr %4, align 8
  %8 = load i8, ptr %7, align 1
  %9 = sext i8 %8 to i32
  %10 = icmp ne i32 %9, 0
  br i1 %10, label %11, label %34

11:                                               ; preds = %6
  %12 = load ptr, ptr %4, align 8
  %13 = load i8, ptr %12, align 1
  %14 = sext i8 %13 to i32
  %15 = sub nsw i32 %14, 48
  %16 = trunc i32 %15 to i8
  store i8 %16, ptr %5, align 1
  br label %17

17:                                               ; preds = %27, %11
  %18 = load i8, ptr %5, align 1
  %19 = sext i8 %18 to i32
  %20 = icmp sgt i32 %19, 0
  br i1 %20, label %21, label %30

21:                                               ; preds = %17
  %22 = load ptr, ptr %4, align 8
  %23 = getelementptr inbounds i8, ptr %22, i64 1
  %24 = load i8, ptr %23, align 1
  %25 = load ptr, ptr %3, align 8
  %26 = getelementptr inbounds i8, ptr %25, i32 1
  store ptr %26, ptr %3, align 8
  store i8 %24, ptr %25, align 1
  br label %27

27:                                               ; preds = %21
  %28 = load i8, ptr %5, align 1
  %29 = add i8 %28, -1
  store i8 %29, ptr %5, align 1
  br label %17, !llvm.loop !19

30:                                               ; preds = %17
  br label %31

31:                                               ; preds = %30
  %32 = load ptr, ptr %4, align 8
  %33 = getelementptr inbounds i8, ptr %32, i64 2
  store ptr %33, ptr %4, align 8
  br label %6, !llvm.loop !20

34:                                               ; preds = %6
  %35 = load ptr, ptr %3, align 8
  store i8 0, ptr %35, align 1
  ret void
}

attributes #0 = { noinline nounwind "frame-pointer"="all" "min-legal-vector-width"="0" "no-builtins" "no-trapping-math"="true" "stack-protector-buffer-size"="8" "target-cpu"="x86-64" "target-features"="+cx8,+fxsr,+mmx,+sse,+sse2,+x87" "tune-cpu"="generic" }
attributes #1 = { "frame-pointer"="all" "no-builtins" "no-trapping-math"="true" "stack-protector-buffer-size"="8" "target-cpu"="x86-64" "target-features"="+cx8,+fxsr,+mmx,+sse,+sse2,+x87" "tune-cpu"="generic" }
attributes #2 = { nobuiltin "no-builtins" }

!llvm.module.flags = !{!0, !1, !2, !3}
!llvm.ident = !{!4}

!0 = !{i32 1, !"wchar_size", i32 4}
!1 = !{i32 8, !"PIC Level", i32 2}
!2 = !{i32 7, !"PIE Level", i32 2}
!3 = !{i32 7, !"frame-pointer", i32 2}
!4 = !{!"Debian clang version 16.0.6 (15~deb12u1)"}
!5 = distinct !{!5, !6}
!6 = !{!"llvm.loop.mustprogress"}
!7 = distinct !{!7, !6}
!8 = distinct !{!8, !6}
!9 = distinct !{!9, !6}
!10 = distinct !{!10, !6}
!11 = distinct !{!11, !6}
!12 = distinct !{!12, !6}
!13 = distinct !{!13, !6}
!14 = distinct !{!14, !6}
!15 = distinct !{!15, !6}
!16 = distinct !{!16, !6}
!17 = distinct !{!17, !6}
!18 = distinct !{!18, !6}
!19 = distinct !{!19, !6}
!20 = distinct !{!20, !6}
