; What the proved library calls of a heap, over realloc and free of the C library; realloc of null is malloc. The answer is 1
; and a block's address, or without a block 0 and that of `nothing`. LLVM, which compiles the library, returns such a pair in
; its own way. C returns it otherwise on Windows, so this is no C. `%old` is a block of `%kept` bytes, or null; `%n` is the size
; that is asked for: a block of 0 bytes is a block too. `%a` is its alignment. It divides 16, to which malloc aligns.

declare ptr @realloc(ptr, i64)
declare void @free(ptr)

@nothing = internal global [16 x i8] zeroinitializer, align 16

define { i64, i64 } @rattle_alloc(i64 %n, i64 %a) {
  %both = call { i64, i64 } @rattle_realloc(ptr null, i64 0, i64 %n, i64 %a)
  ret { i64, i64 } %both
}

define { i64, i64 } @rattle_realloc(ptr %old, i64 %kept, i64 %n, i64 %a) {
  %is_empty = icmp eq i64 %n, 0
  %size = select i1 %is_empty, i64 %a, i64 %n
  %block = call ptr @realloc(ptr %old, i64 %size)
  %is_block = icmp ne ptr %block, null
  %ok = zext i1 %is_block to i64
  %at = select i1 %is_block, ptr %block, ptr @nothing
  %address = ptrtoint ptr %at to i64
  %answer = insertvalue { i64, i64 } poison, i64 %ok, 0
  %both = insertvalue { i64, i64 } %answer, i64 %address, 1
  ret { i64, i64 } %both
}

define void @rattle_dealloc(ptr %block) {
  call void @free(ptr %block)
  ret void
}
