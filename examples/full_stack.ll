; Calls itself with a quarter of the stack until no frame fits.
define void @f() {
  %a = alloca [65536 x i8]
  call void @f()
  ret void
}

define i32 @main() {
  call void @f()
  ret i32 0
}
