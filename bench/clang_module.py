"""Prints a module as `clang -O0` writes it, of so many functions, each with its string and its struct type: about 11 KB a function."""
import re, sys

FRONT = r'''; ModuleID = 'queue.c'
source_filename = "queue.c"
target datalayout = "e-m:e-p270:32:32-p271:32:32-p272:64:64-i64:64-f80:128-n8:16:32:64-S128"
target triple = "x86_64-pc-linux-gnu"

%struct.node = type { i64, ptr, [4 x i32] }

@first = dso_local global %struct.node { i64 7, ptr null, [4 x i32] [i32 1, i32 2, i32 3, i32 4] }, align 8
@head = dso_local global ptr @first, align 8
'''
STRING = r'@.str.{n} = private unnamed_addr constant [13 x i8] c"value\09\22%ld\22\0A\00", align 1'
BEGIN = '''
; Function Attrs: noinline nounwind optnone uwtable
define dso_local i32 @push{n}(i64 noundef %0, i32 noundef %1) #0 {{
  %3 = alloca i32, align 4
  %4 = alloca i64, align 8
  %5 = alloca i32, align 4
  %6 = alloca ptr, align 8
  %7 = alloca i32, align 4
  store i64 %0, ptr %4, align 8
  store i32 %1, ptr %5, align 4
  %8 = call noalias ptr @malloc(i64 noundef 32) #1
  store ptr %8, ptr %6, align 8
  br label %9
'''
# one round of a function: the numbers from 9 on are risen by 33 a round, and END is the function's last block
ROUND = '''
9:                                                ; preds = %2
  %10 = load i64, ptr %4, align 8
  %11 = load ptr, ptr %6, align 8
  %12 = getelementptr inbounds %struct.node, ptr %11, i32 0, i32 0
  store i64 %10, ptr %12, align 8
  %13 = load ptr, ptr @head, align 8
  %14 = getelementptr inbounds %struct.node, ptr %11, i32 0, i32 1
  store ptr %13, ptr %14, align 8
  store i32 0, ptr %7, align 4
  br label %15

15:                                               ; preds = %18, %9
  %16 = load i32, ptr %7, align 4
  %17 = icmp slt i32 %16, 4
  br i1 %17, label %18, label %27

18:                                               ; preds = %15
  %19 = load i32, ptr %5, align 4
  %20 = load i32, ptr %7, align 4
  %21 = add nsw i32 %19, %20
  %22 = load ptr, ptr %6, align 8
  %23 = getelementptr inbounds %struct.node, ptr %22, i32 0, i32 2
  %24 = sext i32 %20 to i64
  %25 = getelementptr inbounds [4 x i32], ptr %23, i64 0, i64 %24
  store i32 %21, ptr %25, align 4
  %26 = add nsw i32 %20, 1
  store i32 %26, ptr %7, align 4
  br label %15, !llvm.loop !1

27:                                               ; preds = %15
  %28 = load i32, ptr %5, align 4
  switch i32 %28, label %31 [
    i32 1, label %29
    i32 2, label %END
  ]

29:                                               ; preds = %27
  %30 = load ptr, ptr %6, align 8
  call void @free(ptr noundef %30) #1
  br label %39

31:                                               ; preds = %27
  %32 = load ptr, ptr %6, align 8
  %33 = icmp ne ptr %32, null
  br i1 %33, label %34, label %37

34:                                               ; preds = %31
  %35 = load i64, ptr %32, align 8
  %36 = icmp ne i64 %35, 0
  br label %37

37:                                               ; preds = %34, %31
  %38 = phi i1 [ false, %31 ], [ %36, %34 ]
  br label %39

39:                                               ; preds = %37, %29
  %40 = load i32, ptr %5, align 4
  %41 = call i32 @push{n}(i64 noundef 4294967296, i32 noundef %40)
  store i32 %41, ptr %3, align 4
  br label %42
'''
MAIN = 'define i32 @main() {\n  ret i32 0\n}\n'
BACK = '''
; Function Attrs: nounwind
declare noalias ptr @malloc(i64 noundef) #1
declare void @free(ptr noundef) #1

attributes #0 = { noinline nounwind optnone uwtable "frame-pointer"="all" "min-legal-vector-width"="0" }
attributes #1 = { nounwind "frame-pointer"="all" "target-features"="+cx8,+fxsr,+mmx,+sse,+sse2,+x87" }

!llvm.module.flags = !{!0}
!0 = !{i32 1, !"wchar_size", i32 4}
!1 = distinct !{!1, !2}
!2 = !{!"llvm.loop.mustprogress"}
'''

def joined(form, count):
    return ''.join(form.format(n=i) for i in range(count))

def in_round(number):
    """The round's text with this number: its numbers from 9 on are risen."""
    risen = lambda found: found[1] + str(int(found[2]) + 33 * number)
    return re.sub(r'(?m)(^|%)(\d\d+|9)\b', risen, ROUND)

def module(count):
    """A module of so many functions, each with its string and its struct type."""
    rounds = 5
    end = str(9 + 33 * rounds)
    body = BEGIN + ''.join(map(in_round, range(rounds))).replace('END', end)
    body += f'\n{end}:\n  %{int(end) + 1} = load i32, ptr %3, align 4\n  ret i32 %{int(end) + 1}\n}}}}\n'
    structs = joined('%"class.std::pair<long, node *>.{n}" = type {{ i64, ptr }}\n', count)
    return FRONT + structs + joined(STRING + '\n', count) + joined(body, count) + MAIN + BACK

print(module(int(sys.argv[1])))
