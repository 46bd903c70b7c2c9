"""Libraries that are loaded before libc, which the kit's compiler makes of LLVM's text; and one of them: a standard input and a standard
output that end, fail or move few bytes."""
import os
import shutil
import subprocess

TARGET = "x86_64-unknown-linux-gnu"


def library(folder, name, text):
    """A library of LLVM's text, compiled by the kit: a program that is run with it takes its functions for libc's."""
    kit = os.path.dirname(os.path.dirname(os.path.realpath(shutil.which("rt") or "rt")))
    tools, path = f"{kit}/toolchain/bin", f"{folder}/{name}"
    with open(f"{path}.ll", "w", encoding="ascii") as it:
        it.write(text)
    clang = [f"{tools}/clang", f"--target={TARGET}", "--no-default-config", "-O1", "-fPIC", "-c", "-x", "ir"]
    subprocess.run([*clang, f"{path}.ll", "-o", f"{path}.o"], check=True)
    link = [f"{tools}/ld.lld", "-shared", f"{path}.o", f"{kit}/toolchain/lib/libc.so.6", "-o", f"{path}.so"]
    subprocess.run(link, check=True)
    return {"LD_PRELOAD": f"{path}.so"}


# LLVM's text: the calls that read the standard input (0) and write the standard output (1). Those of other files are the kernel's. By the
# environment a call moves READ_MOST or WRITE_MOST bytes at most, and all calls together READ_LEFT or WRITE_LEFT. Then a read is told the
# end, and a write that it took nothing; or each fails by EIO, where READ_FAILS or WRITE_FAILS is 1. Of a connection READ_MOST bytes are
# read by a call at most.
DEVICES = f"""
target triple = "{TARGET}"
@read_most = internal constant [10 x i8] c"READ_MOST\\00"
@read_left = internal constant [10 x i8] c"READ_LEFT\\00"
@read_fails = internal constant [11 x i8] c"READ_FAILS\\00"
@write_most = internal constant [11 x i8] c"WRITE_MOST\\00"
@write_left = internal constant [11 x i8] c"WRITE_LEFT\\00"
@write_fails = internal constant [12 x i8] c"WRITE_FAILS\\00"
%device = type {{ i64, i64, i64 }}
@input = internal global %device {{ i64 -1, i64 -1, i64 0 }}
@output = internal global %device {{ i64 -1, i64 -1, i64 0 }}
%ctor = type {{ i32, ptr, ptr }}
@llvm.global_ctors = appending global [1 x %ctor] [%ctor {{ i32 65535, ptr @start, ptr null }}]
declare ptr @getenv(ptr)
declare i64 @strtol(ptr, ptr, i32)
declare i64 @syscall(i64, ...)
declare ptr @__errno_location()
declare i64 @llvm.umin.i64(i64, i64)

define internal void @say(ptr %name, ptr %device, i64 %field) {{
  %text = call ptr @getenv(ptr %name)
  %absent = icmp eq ptr %text, null
  br i1 %absent, label %done, label %said
said:
  %n = call i64 @strtol(ptr %text, ptr null, i32 10)
  %at = getelementptr i64, ptr %device, i64 %field
  store i64 %n, ptr %at
  br label %done
done:
  ret void
}}
define internal void @start() {{
  call void @say(ptr @read_most, ptr @input, i64 0)
  call void @say(ptr @read_left, ptr @input, i64 1)
  call void @say(ptr @read_fails, ptr @input, i64 2)
  call void @say(ptr @write_most, ptr @output, i64 0)
  call void @say(ptr @write_left, ptr @output, i64 1)
  call void @say(ptr @write_fails, ptr @output, i64 2)
  ret void
}}
define internal i64 @move(i64 %call, i32 %file, ptr %bytes, i64 %asked, ptr %device) {{
  %most = load i64, ptr %device
  %left.at = getelementptr i64, ptr %device, i64 1
  %left = load i64, ptr %left.at
  %spent = icmp eq i64 %left, 0
  %asks = icmp ne i64 %asked, 0
  %ends = and i1 %spent, %asks
  br i1 %ends, label %end, label %pass
pass:
  %few = call i64 @llvm.umin.i64(i64 %asked, i64 %most)
  %length = call i64 @llvm.umin.i64(i64 %few, i64 %left)
  %moved = call i64 (i64, ...) @syscall(i64 %call, i32 %file, ptr %bytes, i64 %length)
  %some = icmp sgt i64 %moved, 0
  br i1 %some, label %count, label %done
count:
  %after = sub i64 %left, %moved
  store i64 %after, ptr %left.at
  br label %done
done:
  ret i64 %moved
end:
  %fails.at = getelementptr i64, ptr %device, i64 2
  %fails = load i64, ptr %fails.at
  %fault = icmp ne i64 %fails, 0
  br i1 %fault, label %fail, label %nothing
fail:
  %errno = call ptr @__errno_location()
  store i32 5, ptr %errno
  ret i64 -1
nothing:
  ret i64 0
}}
define i64 @read(i32 %file, ptr %bytes, i64 %asked) {{
  %is_input = icmp eq i32 %file, 0
  br i1 %is_input, label %limited, label %other
limited:
  %moved = call i64 @move(i64 0, i32 %file, ptr %bytes, i64 %asked, ptr @input)
  ret i64 %moved
other:
  %got = call i64 (i64, ...) @syscall(i64 0, i32 %file, ptr %bytes, i64 %asked)
  ret i64 %got
}}
define i64 @write(i32 %file, ptr %bytes, i64 %asked) {{
  %is_output = icmp eq i32 %file, 1
  br i1 %is_output, label %limited, label %other
limited:
  %moved = call i64 @move(i64 1, i32 %file, ptr %bytes, i64 %asked, ptr @output)
  ret i64 %moved
other:
  %put = call i64 (i64, ...) @syscall(i64 1, i32 %file, ptr %bytes, i64 %asked)
  ret i64 %put
}}
define i64 @recv(i32 %file, ptr %bytes, i64 %asked, i32 %how) {{
  %most = load i64, ptr @input
  %length = call i64 @llvm.umin.i64(i64 %asked, i64 %most)
  %got = call i64 (i64, ...) @syscall(i64 45, i32 %file, ptr %bytes, i64 %length, i32 %how, ptr null, ptr null)
  ret i64 %got
}}
"""
