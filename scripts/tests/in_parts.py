#!/usr/bin/env python3
"""in_parts.py TOOLCHAIN FOLDER PARTS SMALL: compiles a small module in so many parts, links and runs it, and prints what it prints
and how many objects there were. SMALL is how many lines a function may have of which another part gets the body.

Its functions call others across parts. One of them each part has its own of, one writes a value, and a table names two. The value
is read by way of another that names it.
"""
import pathlib
import subprocess
import sys

sys.dont_write_bytecode = True
sys.path.insert(0, str(pathlib.Path(__file__).resolve().parents[1] / 'build'))
import quick_build  # noqa: E402
import toolchain  # noqa: E402

HEAD = '''source_filename = "t"
target triple = "x86_64-unknown-linux-gnu"
%pair = type { i64, i64 }
@count = private global i64 0, align 8
@at = private constant ptr @count, align 8
@form = private unnamed_addr constant [10 x i8] c"%ld %ld%c\\00", align 1
@table = private constant <{ ptr, ptr }> <{ ptr @"a::f20", ptr @"a::bump" }>, align 8
declare i32 @printf(ptr, ...)
define internal i64 @"a::twice<{ i64, ptr }>"(i64 %a) alwaysinline {
  %r = shl i64 %a, 1
  ret i64 %r
}

define internal void @"a::bump"() #0 {
  %c = load i64, ptr @count, align 8
  %d = add i64 %c, 1
  store i64 %d, ptr @count, align 8
  ret void
}

'''
FUNCTION = '''define internal noundef i64 @"a::f%d"(i64 noundef %%a) #0 {
  call void @"a::bump"()
  %%t = call i64 @"a::twice<{ i64, ptr }>"(i64 %%a)
  %%r = add i64 %%t, %d
  %s
  ret i64 %%s
}

'''
MAIN = '''define i32 @main() #0 {
  %r = call i64 @"a::f0"(i64 1)
  %f = load ptr, ptr @table, align 8
  %q = call i64 %f(i64 3)
  %s = add i64 %r, %q
  %p = load volatile ptr, ptr @at, align 8
  %c = load i64, ptr %p, align 8
  %u = call i32 (ptr, ...) @printf(ptr @form, i64 %s, i64 %c, i32 10)
  ret i32 0
}

attributes #0 = { nounwind }
'''


def main() -> None:
    """Does so."""
    room, count = pathlib.Path(sys.argv[2]), int(sys.argv[3])
    toolchain.kit = lambda: pathlib.Path(sys.argv[1])
    quick_build.SMALL = int(sys.argv[4])
    text = HEAD
    for number in range(40):
        then = '%%s = call noundef i64 @"a::f%d"(i64 noundef %%r)' % (number + 1) if number < 39 else '%s = add i64 %r, 7'
        text += FUNCTION % (number, number, then)
    made = []
    for number, part in enumerate(quick_build.Module([text + MAIN]).parts(count)):
        source = room / ('part%d.ll' % number)
        source.write_text(part)
        made.append(room / ('part%d.o' % number))
        subprocess.run(list(map(str, toolchain.compiler(source, made[-1]))), check=True)
    subprocess.run(list(map(str, toolchain.linker(made, room / 'in-parts'))), check=True)
    print(subprocess.run([room / 'in-parts'], capture_output=True, text=True, check=True).stdout.strip(), len(made))


if __name__ == '__main__':
    main()
