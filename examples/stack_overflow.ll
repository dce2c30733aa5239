; Stores one byte past the end of %a, into %b.
define i32 @main() {
  %a = alloca [16 x i8]
  %b = alloca [16 x i8]
  %q = getelementptr i8, ptr %a, i64 16
  store i8 7, ptr %q
  ret i32 0
}
