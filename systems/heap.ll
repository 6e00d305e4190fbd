; The heap of a program of another system: what the proved library takes memory by, over malloc, realloc and free of the C
; library there.
;
; It is written in LLVM's own language and not in C, since the two words that an allocation answers (whether there was memory, and
; where) come back by LLVM's own convention, which is that of C on some systems and not on others.

@nothing = internal global [16 x i8] zeroinitializer, align 16

declare ptr @malloc(i64)
declare ptr @realloc(ptr, i64)
declare void @free(ptr)

define internal { i64, i64 } @taken(ptr %place) {
  %some = icmp ne ptr %place, null
  %is_there = zext i1 %some to i64
  %where = select i1 %some, ptr %place, ptr @nothing
  %word = ptrtoint ptr %where to i64
  %first = insertvalue { i64, i64 } undef, i64 %is_there, 0
  %answer = insertvalue { i64, i64 } %first, i64 %word, 1
  ret { i64, i64 } %answer
}

; Of no bytes, as many as their alignment are taken.
define internal i64 @wanted(i64 %count, i64 %alignment) {
  %none = icmp eq i64 %count, 0
  %bytes = select i1 %none, i64 %alignment, i64 %count
  ret i64 %bytes
}

define { i64, i64 } @rattle_alloc(i64 %count, i64 %alignment) {
  %bytes = call i64 @wanted(i64 %count, i64 %alignment)
  %place = call ptr @malloc(i64 %bytes)
  %answer = call { i64, i64 } @taken(ptr %place)
  ret { i64, i64 } %answer
}

define { i64, i64 } @rattle_realloc(ptr %old, i64 %kept, i64 %count, i64 %alignment) {
  %bytes = call i64 @wanted(i64 %count, i64 %alignment)
  %place = call ptr @realloc(ptr %old, i64 %bytes)
  %answer = call { i64, i64 } @taken(ptr %place)
  ret { i64, i64 } %answer
}

define void @rattle_dealloc(ptr %place) {
  call void @free(ptr %place)
  ret void
}
