"""./trlab --prove prints its cost, builds the program, and compares it with the released one."""
from collections.abc import Callable

from .checkout import BUILT, RELEASED, sha256_of
from .testcase import BUILT_RUN, RELEASED_RUN, FirstUse

ANOTHER = "it differs from the prebuilt binary (built with that-kit, yours with a kit logic 0)"


def released_program(is_wanted: Callable[[str], bool]) -> str:
    """A program to release whose SHA-256 is as wanted."""
    return next(filter(is_wanted, (RELEASED + "#\n" * count for count in range(50))))


class Prove(FirstUse):
    """The verdicts of ./trlab --prove."""

    def assert_verdict(self, verdict: str, status: int, later_status: int) -> None:
        """It ends with a verdict and a status, and a run after it has the status of the program that runs then."""
        run = self.checkout.run(words=["--prove"])
        cost, _, _ = run.messages.partition("crates left to prove")
        self.assertIn("minutes on your", cost)
        self.assertIn("GB of memory", cost)
        self.assertIn(verdict, run.output.decode())
        self.assertEqual(run.status, status)
        self.assertEqual(self.checkout.run().status, later_status)
        self.assertEqual(self.checkout.count_of_builds(), 1)

    def assert_finds_another(self, program: str) -> None:
        """The released program, which was unpacked before, differs from the built one, and still runs."""
        self.checkout.release(program).run()
        self.assert_verdict(ANOTHER, 1, RELEASED_RUN.status)

    def test_finds_the_same_program(self) -> None:
        self.checkout.release(BUILT)
        self.assert_verdict("identical to the prebuilt binary", 0, BUILT_RUN.status)

    def test_finds_another_program(self) -> None:
        self.assert_finds_another(RELEASED)

    def test_finds_another_program_with_a_larger_sum(self) -> None:
        self.assert_finds_another(released_program(lambda program: sha256_of(program) > sha256_of(BUILT)))

    def test_finds_another_program_with_a_smaller_sum(self) -> None:
        self.assert_finds_another(released_program(lambda program: sha256_of(program) < sha256_of(BUILT)))

    def test_finds_no_release(self) -> None:
        self.assert_verdict("there is no prebuilt binary for these sources", 0, BUILT_RUN.status)

    def test_needs_rt(self) -> None:
        run = self.checkout.release().without_rt().run(words=["--prove"])
        self.assert_refused(run, "the build tool rt is not on your PATH")

    def test_names_the_failed_crate(self) -> None:
        run = self.checkout.release().run(words=["--prove"], FAILS="trlab_road")
        self.assert_refused(run, "the build failed in trlab_road")

    def test_with_another_argument_it_is_for_the_program(self) -> None:
        run = self.checkout.release().run(words=["--prove", "run"])
        self.assertEqual((run.output, run.status), (b"released --prove run\ntext", 5))
        self.assertEqual(self.checkout.count_of_builds(), 0)
