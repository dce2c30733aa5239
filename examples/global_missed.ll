; Stores the same byte by an offset of 2^56 + 16, which gives the pointer the tag of @b if that is one more than the tag of @a.
@a = global [16 x i8] zeroinitializer
@b = global [3 x i8] zeroinitializer

define i32 @main() {
  %q = getelementptr i8, ptr @a, i64 72057594037927952
  store i8 7, ptr %q
  ret i32 0
}
