; Reads a variable of @f after @f has returned, while a variable of @g lies at its place.
define ptr @f() {
  %a = alloca [16 x i8]
  ret ptr %a
}

define i8 @g(ptr %p) {
  %b = alloca [16 x i8]
  %v = load i8, ptr %p
  ret i8 %v
}

define i32 @main() {
  %p = call ptr @f()
  %v = call i8 @g(ptr %p)
  ret i32 0
}
