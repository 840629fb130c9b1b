; The heap of the programs on Windows. A result is two words in RAX and RDX, as the programs expect it; a struct of two words that a C
; function returns on Windows is in memory.
target triple = "x86_64-w64-windows-gnu"

declare ptr @malloc(i64)
declare ptr @realloc(ptr, i64)
declare void @free(ptr)

; Whether there is a block, and its address, which is never 0.
define internal { i64, i64 } @allocation(ptr %block) {
  %address = ptrtoint ptr %block to i64
  %succeeded = icmp ne i64 %address, 0
  %first = zext i1 %succeeded to i64
  %second = select i1 %succeeded, i64 %address, i64 16
  %half = insertvalue { i64, i64 } poison, i64 %first, 0
  %result = insertvalue { i64, i64 } %half, i64 %second, 1
  ret { i64, i64 } %result
}

define { i64, i64 } @rattle_alloc(i64 %size, i64 %alignment) {
  %empty = icmp eq i64 %size, 0
  %bytes = select i1 %empty, i64 %alignment, i64 %size
  %block = call ptr @malloc(i64 %bytes)
  %result = call { i64, i64 } @allocation(ptr %block)
  ret { i64, i64 } %result
}

define { i64, i64 } @rattle_realloc(ptr %old, i64 %old_size, i64 %size, i64 %alignment) {
  %empty = icmp eq i64 %size, 0
  %bytes = select i1 %empty, i64 %alignment, i64 %size
  %block = call ptr @realloc(ptr %old, i64 %bytes)
  %result = call { i64, i64 } @allocation(ptr %block)
  ret { i64, i64 } %result
}

define void @rattle_dealloc(ptr %block) {
  call void @free(ptr %block)
  ret void
}
