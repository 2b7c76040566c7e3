#!/usr/bin/env bash
# Times `dangsan replay` on texts that are no module of this stage, which it reads whole into tokens before it refuses
# them: on LLVM IR as clang prints it, of about 1, 2, 4 and 8 MB, and on texts of 8,388,608 bytes, the most that are read,
# which are one thing over and over. Prints time (the best of three runs) and the peak of memory. Doubling the input
# should at most take 2.3 times the time; each should stay below 2 s and 400 MB.
. "$(dirname "$0")/measure.sh"

# standard input so many times, with the number of the copy, from 1, for each NN
copies() {
    awk -v n="$1" '{ text = text $0 "\n" } END { for (i = 1; i <= n; i++) { one = text; gsub(/NN/, i, one); printf "%s", one } }'
}

# a module of so many functions, each with its strings, its types and its metadata
module() {
    cat <<'LLVM'
; ModuleID = 'queue.cpp'
source_filename = "queue.cpp"
target datalayout = "e-m:e-p270:32:32-p271:32:32-p272:64:64-i64:64-i128:128-f80:128-n8:16:32:64-S128"
target triple = "x86_64-pc-linux-gnu"

%struct.node = type { i64, ptr, [4 x i32] }
LLVM
    copies "$1" <<'LLVM'
%"class.std::pair<long, node *>.NN" = type { i64, ptr }
LLVM
    printf '\n@head = dso_local global ptr null, align 8, !dbg !0\n'
    copies "$1" <<'LLVM'
@.str.NN = private unnamed_addr constant [13 x i8] c"value\09\22%ld\22\0A\00", align 1
LLVM
    copies "$1" <<'LLVM'

; Function Attrs: mustprogress noinline nounwind optnone uwtable
define dso_local noundef i32 @_Z4pushNNl(i64 noundef %0) #0 !dbg !1NN00 {
  %2 = alloca i32, align 4
  %3 = alloca i64, align 8
  %4 = alloca ptr, align 8
  store i64 %0, ptr %3, align 8
  call void @llvm.dbg.declare(metadata ptr %3, metadata !1NN01, metadata !DIExpression()), !dbg !1NN02
  %5 = call noalias ptr @malloc(i64 noundef 32) #4, !dbg !1NN02
  store ptr %5, ptr %4, align 8, !dbg !1NN02
  %6 = load ptr, ptr %4, align 8, !dbg !1NN03
  %7 = icmp ne ptr %6, null, !dbg !1NN03
  br i1 %7, label %9, label %8, !dbg !1NN03

8:                                                ; preds = %1
  store i32 -1, ptr %2, align 4, !dbg !1NN04
  br label %"for.end NN", !dbg !1NN04

9:                                                ; preds = %1
  %10 = load i64, ptr %3, align 8, !dbg !1NN05
  %11 = load ptr, ptr %4, align 8, !dbg !1NN05
  %12 = getelementptr inbounds %struct.node, ptr %11, i32 0, i32 0, !dbg !1NN05
  store i64 %10, ptr %12, align 8, !dbg !1NN05
  %first.addr = getelementptr inbounds %"class.std::pair<long, node *>.NN", ptr %11, i32 0, i32 1, !dbg !1NN06
  %13 = load ptr, ptr @head, align 8, !dbg !1NN06
  store ptr %13, ptr %first.addr, align 8, !dbg !1NN06
  %arrayidx = getelementptr inbounds [4 x i32], ptr %first.addr, i64 0, i64 2, !dbg !1NN06
  %14 = load i32, ptr %arrayidx, align 8, !dbg !1NN06
  %conv = sext i32 %14 to i64, !dbg !1NN06
  %15 = add nsw i64 %10, %conv, !dbg !1NN06
  br label %for.body, !dbg !1NN06

for.body:                                         ; preds = %for.body, %9
  %total.03.i = phi i64 [ %add1.i, %for.body ], [ 0, %9 ]
  %add1.i = add nuw nsw i64 %total.03.i, 4294967296, !dbg !1NN07
  %cmp.i = icmp slt i64 %add1.i, %15, !dbg !1NN07
  br i1 %cmp.i, label %for.body, label %for.exit, !dbg !1NN07, !llvm.loop !1NN08

for.exit:                                         ; preds = %for.body
  %16 = call i32 (ptr, ...) @printf(ptr noundef @.str.NN, i64 noundef %add1.i), !dbg !1NN07
  store i32 0, ptr %2, align 4, !dbg !1NN07
  br label %"for.end NN", !dbg !1NN07

"for.end NN":                                     ; preds = %for.exit, %8
  %17 = load i32, ptr %2, align 4, !dbg !1NN07
  ret i32 %17, !dbg !1NN07
}
LLVM
    cat <<'LLVM'

; Function Attrs: nocallback nofree nosync nounwind readnone speculatable willreturn
declare void @llvm.dbg.declare(metadata, metadata, metadata) #1

; Function Attrs: nounwind allocsize(0)
declare noalias ptr @malloc(i64 noundef) #2

declare i32 @printf(ptr noundef, ...) #3

attributes #0 = { mustprogress noinline nounwind optnone uwtable "frame-pointer"="all" "min-legal-vector-width"="0" }
attributes #1 = { nocallback nofree nosync nounwind readnone speculatable willreturn }
attributes #2 = { nounwind allocsize(0) "frame-pointer"="all" "target-features"="+cx8,+fxsr,+mmx,+sse,+sse2,+x87" }
attributes #3 = { "frame-pointer"="all" "no-trapping-math"="true" "stack-protector-buffer-size"="8" }
attributes #4 = { nounwind allocsize(0) }

!llvm.dbg.cu = !{!2}
!llvm.module.flags = !{!5, !6}
!llvm.ident = !{!7}

!0 = !DIGlobalVariableExpression(var: !1, expr: !DIExpression())
!1 = distinct !DIGlobalVariable(name: "head", scope: !2, file: !3, line: 3, type: !9, isLocal: false, isDefinition: true)
!2 = distinct !DICompileUnit(language: DW_LANG_C_plus_plus_14, file: !3, isOptimized: false, runtimeVersion: 0, emissionKind: FullDebug)
!3 = !DIFile(filename: "queue.cpp", directory: "/home/user")
!4 = !{!9, !9}
!5 = !{i32 2, !"Debug Info Version", i32 3}
!6 = !{i32 1, !"wchar_size", i32 4}
!7 = !{!"clang version 15.0.7"}
!8 = !DISubroutineType(types: !4)
!9 = !DIBasicType(name: "long", size: 64, encoding: DW_ATE_signed)
!10 = !{!"llvm.loop.mustprogress"}
LLVM
    copies "$1" <<'LLVM'
!1NN00 = distinct !DISubprogram(name: "push", scope: !3, file: !3, line: 10, type: !8, scopeLine: 10, flags: DIFlagPrototyped, unit: !2)
!1NN01 = !DILocalVariable(name: "value", arg: 1, scope: !1NN00, file: !3, line: 10, type: !9)
!1NN02 = !DILocation(line: 10, column: 15, scope: !1NN00)
!1NN03 = !DILocation(line: 12, column: 8, scope: !1NN00)
!1NN04 = !DILocation(line: 12, column: 11, scope: !1NN00)
!1NN05 = !DILocation(line: 13, column: 14, scope: !1NN00)
!1NN06 = !DILocation(line: 13, column: 31, scope: !1NN00)
!1NN07 = !DILocation(line: 15, column: 3, scope: !1NN00)
!1NN08 = distinct !{!1NN08, !1NN03, !10}
LLVM
}

# the given front, the given middle so often that the text has 8,388,608 bytes (the last one cut), and the given end
longest() {
    printf '%s' "$1"
    yes "$2" | tr -d '\n' | head -c $((8388608 - ${#1} - ${#3}))
    printf '%s' "$3"
}

for count in 330 660 1320 2640; do
    module "$count" >"$work/module"
    measure "$count functions" "$work/module" replay
done
longest ';' 'a comment that has no end, 12ab? ' '' >"$work/longest"
measure "one comment" "$work/longest" replay
longest '"' 'a text; no comment ' '"' >"$work/longest"
measure "one text" "$work/longest" replay
longest '' '"\41\\\"' '' >"$work/longest"
measure "texts with escapes" "$work/longest" replay
longest '' ' ' '' >"$work/longest"
measure "blanks" "$work/longest" replay
longest '' '1234567890' '' >"$work/longest"
measure "one run of digits" "$work/longest" replay
longest '' '(' '' >"$work/longest"
measure "brackets, the most tokens" "$work/longest" replay
