"""release/wasm/narrow.py: how it rewrites the forms that it knows, and that it rejects every other form."""
import random
import shutil
import subprocess
import sys
import tempfile
import unittest
from pathlib import Path

HERE = Path(__file__).resolve().parents[2] / "release" / "wasm"
if HERE.is_dir():
    sys.path.insert(0, str(HERE))
    import narrow

TARGETS = list(narrow.WIDE_TARGET) if HERE.is_dir() else []
# Lines that mean the same with pointers of either size.
SAME = """\
source_filename = "rattle"
@static.1 = private unnamed_addr constant [6 x i8] c"ptr \\22x", align 1
; Function Attrs: nounwind
start:
after.1:                                          ; preds = %start, %"a b"
  %r0 = alloca [16 x i8], align 8
  %r1 = load i64, ptr %r0, align 8, !noundef !1
  %r2 = load volatile i8, ptr @static.0, align 1
  %r2 = load i8, ptr @static.1, align 1, !range !2, !noundef !1
  store <16 x i8> splat (i8 0), ptr %r0, align 16
  %r3 = getelementptr inbounds nuw i8, ptr %r0, i64 %r1
  %r4 = icmp eq ptr %r3, null
  %r5 = lshr i128 %r9, 64
  %r6 = fmul double %r7, 0x41F0000000000000
  %r8 = cmpxchg ptr %r0, i64 %r1, i64 0 seq_cst seq_cst, align 8
  call void asm sideeffect "", "~{memory}"()
  switch i8 %r2, label %other [
    i8 -1, label %"one ptr, two"
  ]
  ret ptr %r3
}
"""
# Lines, and the lines that replace them.
REWRITTEN = {
    "  %r1 = load ptr, ptr %r0, align 8, !nonnull !1, !noundef !1":
    "  %wide.1 = load i64, ptr %r0, align 8\n  %r1 = inttoptr i64 %wide.1 to ptr",
    "  store ptr @static.1, ptr %r0, align 8":
    "  %wide.1 = ptrtoint ptr @static.1 to i64\n  store i64 %wide.1, ptr %r0, align 8",
    "  %r1 = alloca ptr, align 8": "  %r1 = alloca i64, align 8",
    "  %r1 = ptrtoaddr ptr %r0 to i64": "  %r1 = ptrtoint ptr %r0 to i64",
    '  %r1 = call { ptr, i64 } @"f<ptr>"(ptr noundef %r0, i64 3)':
        '  %r1 = call { i64, i64 } @"f<ptr>"(ptr noundef %r0, i64 3)',
    "  %r2 = extractvalue { i64, ptr } %r1, 0": "  %r2 = extractvalue { i64, i64 } %r1, 0",
    "  %r2 = extractvalue { i8, ptr } %r1, 1":
    "  %wide.1 = extractvalue { i8, i64 } %r1, 1\n  %r2 = inttoptr i64 %wide.1 to ptr",
    "  ret { ptr, ptr } %r1": "  ret { i64, i64 } %r1",
    "define internal noundef { ptr, i8 } @f(ptr %a0, i1 noundef zeroext %a1) #0 {":
    "define internal noundef { i64, i8 } @f(ptr %a0, i1 noundef zeroext %a1) #0 {",
    'attributes #0 = { nounwind "probe-stack"="inline-asm" "target-cpu"="x86-64-v3" }': "attributes #0 = { nounwind }",
    '@s = private constant <{ ptr, [5 x i8] }> <{ ptr getelementptr (i8, ptr @s, i64 8), [5 x i8] c"}>, x" }>, align 8':
    '@s = private constant <{ ptr, i32, [5 x i8] }> '
    '<{ ptr getelementptr (i8, ptr @s, i64 8), i32 0, [5 x i8] c"}>, x" }>, align 8',
    "  call void @llvm.x86.sse2.pause()": None,
}
# Lines of other forms: an unexpected pointer, another processor, or a meaning that depends on the size of pointers.
UNKNOWN = """\
  %r1 = load atomic ptr, ptr %r0 seq_cst, align 8
  %r1 = load volatile ptr, ptr %r0, align 8
  store atomic ptr %r1, ptr %r0 seq_cst, align 8
  store volatile ptr %r1, ptr %r0, align 8
  %r1 = load { ptr, [2 x ptr] }, ptr %r0, align 8
  %r1 = load <2 x ptr>, ptr %r0, align 16
  %r1 = alloca [2 x ptr], align 8
  %r1 = alloca i64, i64 %r0, align 8
  %r1 = cmpxchg ptr %r0, ptr %r2, ptr %r3 seq_cst seq_cst, align 8
  %r1 = atomicrmw xchg ptr %r0, ptr %r2 seq_cst, align 8
  %r1 = insertvalue { ptr, i64 } poison, ptr %r0, 0
  %r1 = extractvalue { { ptr, i64 }, i8 } %r0, 0, 0
  %r1 = extractvalue { ptr, i64, i64 } %r0, 0
  %r1 = getelementptr ptr, ptr %r0, i64 1
  %r1 = getelementptr { ptr, i64 }, ptr %r0, i64 0, i32 1
  %r1 = icmp ult ptr %r0, %r2
  %r1 = phi ptr [ %r2, %start ], [ null, %after.1 ]
  %r1 = select i1 %r0, ptr %r2, ptr %r3
  %r1 = sub i64 ptrtoint (ptr @static.1 to i64), %r0
  %r1 = ptrtoint ptr %r0 to i32
  %r1 = inttoptr i64 %r0 to ptr
  %r1 = addrspacecast ptr %r0 to ptr addrspace(1)
  %r1 = call { ptr, { ptr, i64 } } @f(ptr %r0)
  %r1 = call ptr @f(ptr byval([16 x i8]) %r0)
  %r1 = call i64 @f({ ptr, i64 } %r0)
  %r1 = tail call ptr @f(ptr %r0)
  %r1 = call i64 @f(i64 ptrtoint (ptr @static.1 to i64))
  call void asm sideeffect "nop", "~{memory}"()
  call void asm sideeffect "", "~{memory},r"(ptr %r0)
  call void @llvm.x86.sse2.pause(), !noundef !1
  %r1 = call <2 x i64> @llvm.x86.pclmulqdq(<2 x i64> %r0, <2 x i64> %r2, i8 0)
  %r1 = va_arg ptr %r0, ptr
  ret { ptr, { i8 } } %r1
  indirectbr ptr %r0, [label %start]
@s = private constant [2 x ptr] [ptr @a, ptr @b], align 8
@s = private constant <{ ptr, i64 }> <{ ptr @a, i64 1 }>, align 8
@s = private constant <{ ptr, [1 x i8] }> <{ ptr @a, i64 ptrtoint (ptr @b to i64) }>, align 8
@s = private constant <{ ptr, [1 x i8] }> <{ [1 x i8] c"a", ptr @b }>, align 8
@s = external global ptr, align 8
@s = private global ptr null, align 8
@llvm.used = appending global [1 x ptr] [ptr @s], section "llvm.metadata"
%pair = type { ptr, i64 }
define internal { ptr, i64 } @f(ptr byval([16 x i8]) %a0) #0 {
define internal %pair @f() #0 {
declare void @f({ ptr, ptr }) #0
module asm "nop"
attributes #0 = { nounwind "target-features"="+avx2" }
attributes #0 = { sanitize_address }
target triple = "aarch64-unknown-linux-gnu"
target datalayout = "e-p:64:64"
an instruction
"""


@unittest.skipUnless(HERE.is_dir(), "no release/wasm, which only a checkout has")
class Forms(unittest.TestCase):
    def module(self, *lines: str) -> str:
        return "".join(narrow.narrowed([*TARGETS, *(f"{line}\n" for line in lines)]))

    def body(self, *lines: str) -> str:
        return self.module(*lines).partition("wasm32-unknown-unknown\"\n")[2]

    def test_a_module_gets_another_target(self) -> None:
        self.assertEqual(self.module(), "".join(narrow.WIDE_TARGET.values()))
        for missing in TARGETS:
            with self.assertRaises(narrow.UnknownForm):
                list(narrow.narrowed([line for line in TARGETS if line != missing]))

    def test_lines_that_mean_the_same_stay(self) -> None:
        self.assertEqual(self.body(*SAME.splitlines()), SAME)

    def test_pointers_in_memory_become_numbers(self) -> None:
        for line, rewritten in REWRITTEN.items():
            with self.subTest(line):
                self.assertEqual(self.body(line), "" if rewritten is None else f"{rewritten}\n")

    def test_each_new_name_is_new(self) -> None:
        line = "  %r1 = load ptr, ptr %r0, align 8"
        self.assertEqual([self.body(line, line).count(f" %wide.{k} = ") for k in (1, 2, 3)], [1, 1, 0])

    def test_other_forms_are_rejected_by_name(self) -> None:
        for line in UNKNOWN.splitlines():
            with self.subTest(line), self.assertRaises(narrow.UnknownForm):
                self.body(line)
        process = subprocess.run(
            [sys.executable, HERE / "narrow.py"], input="".join(TARGETS) + "an instruction\n", capture_output=True,
            text=True,
        )
        self.assertEqual(process.returncode, 1)
        self.assertIn("an instruction", process.stderr)

    def test_each_known_form_is_rejected_with_one_more_pointer(self) -> None:
        """A type that becomes `ptr` or a vector of pointers makes a line unknown, or is rewritten, but never stays."""
        for line in SAME.splitlines():
            for old in "i64", "i8", "i128":
                changed = line.replace(f" {old} ", " <2 x ptr> ").replace(f" {old},", " <2 x ptr>,")
                has_string = 'c"' in line
                if changed != line and not has_string:
                    with self.subTest(changed), self.assertRaises(narrow.UnknownForm):
                        self.body(changed)


PROGRAM = """\
#include <stdio.h>
#define __multi3 product
#define __ashlti3 left
#define __lshrti3 right
#include "{numbers}"
static void print(unsigned __int128 n) {{ printf("%llx %llx\\n", (word)(n >> 64), (word)n); }}
int main(void) {{
    word a, b, c, d;
    int by;
    while (scanf("%llx %llx %llx %llx %d", &a, &b, &c, &d, &by) == 5) {{
        unsigned __int128 x = (unsigned __int128)a << 64 | b, y = (unsigned __int128)c << 64 | d;
        print(product(x, y));
        print(left(x, by));
        print(right(x, by));
    }}
}}
"""


@unittest.skipUnless(HERE.is_dir() and shutil.which("gcc"), "no release/wasm, or no gcc")
class Numbers(unittest.TestCase):
    def test_numbers_of_128_bits(self) -> None:
        dice, maximum = random.Random(1), 2**64 - 1

        def word() -> int:
            return dice.choice((0, 1, maximum, 1 << 63, dice.getrandbits(64), dice.getrandbits(32)))

        operands = [(word(), word(), word(), word(), shift) for shift in range(128) for _ in range(20)]
        with tempfile.TemporaryDirectory() as folder:
            source, program = Path(folder, "numbers.c"), Path(folder, "numbers")
            source.write_text(PROGRAM.format(numbers=HERE / "numbers.c"))
            subprocess.run(["gcc", "-O1", "-o", program, source], check=True)
            lines = "".join("%x %x %x %x %d\n" % numbers for numbers in operands)
            process = subprocess.run([program], input=lines, capture_output=True, text=True, check=True)
        results = [int(high, 16) << 64 | int(low, 16) for high, low in map(str.split, process.stdout.splitlines())]
        expected = []
        for a, b, c, d, by in operands:
            x, y = a << 64 | b, c << 64 | d
            expected += [x * y % 2**128, (x << by) % 2**128, x >> by]
        self.assertEqual(results, expected)


if __name__ == "__main__":
    unittest.main()
