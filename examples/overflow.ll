@g = global [32 x i8] zeroinitializer
declare i32 @putchar(i32)
define i32 @main() {
store i8 72, ptr getelementptr (i8, ptr @g, i64 0)
%v1 = load i8, ptr getelementptr (i8, ptr @g, i64 0)
%x1 = zext i8 %v1 to i32
%r1 = call i32 @putchar(i32 %x1)
store i8 73, ptr getelementptr (i8, ptr @g, i64 32)
ret i32 0
}
