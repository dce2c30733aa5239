; Writes byte 10 of a heap block of 10 bytes, which are numbered from 0.
declare ptr @malloc(i64)

define i32 @main() {
  %p = call ptr @malloc(i64 10)
  %q = getelementptr i8, ptr %p, i64 10
  store i8 1, ptr %q
  ret i32 0
}
