; Asks for blocks of 1,000 bytes and frees none.
declare ptr @malloc(i64)

define i32 @main() {
  br label %more

more:
  %p = call ptr @malloc(i64 1000)
  br label %more
}
