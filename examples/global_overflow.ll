; Stores one byte past the end of @a, into @b.
@a = global [16 x i8] zeroinitializer
@b = global [3 x i8] zeroinitializer

define i32 @main() {
  %q = getelementptr i8, ptr @a, i64 16
  store i8 7, ptr %q
  ret i32 0
}
