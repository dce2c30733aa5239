; Reads a heap block after it was freed, while another one lies at its place.
declare ptr @malloc(i64)
declare void @free(ptr)

define i32 @main() {
  %p = call ptr @malloc(i64 16)
  call void @free(ptr %p)
  %q = call ptr @malloc(i64 16)
  %v = load i8, ptr %p
  ret i32 0
}
