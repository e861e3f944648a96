; Numbers of 32 bits that pass to and from C, cut from 64 whose upper half is something else: for test_border.c.
target datalayout = "e-m:e-p270:32:32-p271:32:32-p272:64:64-i64:64-i128:128-f80:128-n8:16:32:64-S128"
target triple = "x86_64-unknown-linux-gnu"

declare noundef i32 @next_in_c(i32 noundef, i8)

define noundef i32 @low_word(i64 noundef %value) #0 {
  %low = trunc i64 %value to i32
  ret i32 %low
}

define i8 @low_byte(i64 noundef %value) #0 {
  %low = trunc i64 %value to i8
  ret i8 %low
}

define i64 @by_c(i64 noundef %value) #0 {
  %word = trunc i64 %value to i32
  %byte = trunc i64 %value to i8
  %found = tail call noundef i32 @next_in_c(i32 noundef %word, i8 %byte)
  %wide = zext i32 %found to i64
  ret i64 %wide
}

attributes #0 = { nounwind "target-cpu"="x86-64-v2" }
