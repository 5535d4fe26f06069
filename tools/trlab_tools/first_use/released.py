"""The released program runs at once if it belongs to the sources, wherever the checkout is and whatever is missing."""
import os
import subprocess
from pathlib import Path
from typing import Optional

from .checkout import BUILT, OF_V2, OF_V3, RELEASED, append, end, sha256_of
from .testcase import (
    ARCHIVE, BUILT_RUN, CLONE, CLONE_WITH_CRLF, COPY, FIRST_RELEASED_RUN, LINE_FEED_IN_PATH, NOT_EXECUTABLE, RELEASED_RUN,
    WITHOUT_STANDARD_ERROR, FirstUse,
)

NOBODY = 65534  # the number of the user nobody
# The commands that ./trlab needs to unpack the released program.
COMMANDS = "awk cat chmod cut find flock grep gzip mkdir mktemp mv readlink rm sed sha256sum sort sync xargs".split()


class Places(FirstUse):
    """Where the checkout is, and where it came from."""

    def assert_runs_where_moved(self, shell_commands: str) -> None:
        """With rt and without, the released program runs in the checkout that these commands make."""
        for has_rt in True, False:
            with self.subTest(has_rt=has_rt):
                self.checkout = self.new_checkout().release()
                if not has_rt:
                    self.checkout.without_rt()
                self.checkout.moved_by(shell_commands)
                self.assert_runs_released()

    def test_runs_with_rt(self) -> None:
        self.checkout.release()
        self.assert_runs_released()

    def test_runs_without_rt(self) -> None:
        self.checkout.release().without_rt()
        self.assert_runs_released()

    def test_runs_in_a_clone(self) -> None:
        self.assert_runs_where_moved(CLONE)

    def test_runs_in_a_clone_with_other_line_ends(self) -> None:
        self.assert_runs_where_moved(CLONE_WITH_CRLF)

    def test_runs_in_an_archive(self) -> None:
        self.assert_runs_where_moved(ARCHIVE)

    def test_runs_in_a_copy(self) -> None:
        self.assert_runs_where_moved(COPY)

    def test_runs_in_a_path_with_a_line_feed(self) -> None:
        self.assert_runs_where_moved(LINE_FEED_IN_PATH)


class Unwritable(FirstUse):
    """Folders and messages that cannot be written."""

    def forbid_writing(self) -> Optional[int]:
        """Let nothing be written into the checkout; returns the user for whom this holds, because root may write anywhere."""
        if os.geteuid() == 0:
            self.checkout.folder.chmod(0o755)
            os.chown(self.checkout.home, NOBODY, NOBODY)
            return NOBODY
        subprocess.run(["chmod", "-R", "a-w", self.checkout.top], check=True)
        self.addCleanup(lambda: subprocess.run(["chmod", "-R", "u+w", self.checkout.top], check=True))
        return None

    def assert_runs_from_cache(self) -> None:
        """The program is unpacked into the user's cache, and without a home there is no place for it."""
        user = self.forbid_writing()
        self.assertEqual(self.checkout.run(user=user), FIRST_RELEASED_RUN)
        self.assertEqual(self.checkout.run(user=user), RELEASED_RUN)
        self.assertEqual(len(list((self.checkout.home / ".cache" / "trlab").iterdir())), 1)
        self.assert_refused(self.checkout.run(user=user, HOME="/nowhere"), "cannot write the program to")
        self.assertEqual(self.checkout.calls_of_rt(), [])

    def test_runs_from_the_cache(self) -> None:
        self.checkout.release()
        self.assert_runs_from_cache()

    def test_runs_from_the_cache_without_rt(self) -> None:
        self.checkout.release().without_rt()
        self.assert_runs_from_cache()

    def test_a_relative_cache_is_ignored(self) -> None:
        """XDG_CACHE_HOME counts only if it is absolute, as its standard requires."""
        append(self.checkout.release().top / "out")
        run = self.checkout.run(cwd=self.checkout.home, HOME="/nowhere", XDG_CACHE_HOME="cache")
        self.assert_refused(run, "cannot write the program to")
        self.assertEqual(list(self.checkout.home.iterdir()), [])

    def test_a_full_disk_leaves_nothing(self) -> None:
        """A program that cannot be written whole leaves no file."""
        self.checkout.release(RELEASED + "# .\n" * 10000)
        run = self.checkout.run(shell='ulimit -f 2; exec "$@"', HOME="")
        self.assert_refused(run, "cannot write the program to")
        self.assert_nothing_built_or_kept()

    def test_runs_without_messages(self) -> None:
        for error, shell in WITHOUT_STANDARD_ERROR.items():
            with self.subTest(standard_error=error):
                self.checkout = self.new_checkout().release()
                for _ in "first", "second":
                    self.assertEqual(self.checkout.run(shell=shell).without_messages(), RELEASED_RUN)

    def test_runs_if_new_files_are_not_executable(self) -> None:
        self.checkout.release()
        self.assertEqual(self.checkout.run(shell=NOT_EXECUTABLE), FIRST_RELEASED_RUN)
        self.assertEqual(self.checkout.run(shell=NOT_EXECUTABLE), RELEASED_RUN)

    def test_the_program_has_the_umask_of_the_caller(self) -> None:
        self.checkout.release("#!/bin/sh\numask\n")
        run = self.checkout.run(shell='umask 0123; exec "$@"')
        self.assertEqual((run.output, run.status), (b"0123\n", 0))


class Surroundings(FirstUse):
    """Commands, processes and settings around the run."""

    def test_each_missing_command_is_named(self) -> None:
        self.checkout.release()
        for command in COMMANDS:
            with self.subTest(command=command):
                others = [other for other in COMMANDS if other != command]
                run = self.checkout.run(PATH=self.path_with(others))
                self.assert_refused(run, f"the command {command} is not on your PATH")
                self.assert_nothing_built_or_kept()

    def test_no_other_command_is_needed(self) -> None:
        self.checkout.release()
        self.assertEqual(self.checkout.run(PATH=self.path_with(COMMANDS)), FIRST_RELEASED_RUN)

    def test_runs_in_a_shell_that_executes_nothing(self) -> None:
        """With SHELLOPTS=noexec in its environment, bash would do nothing and report success."""
        run = self.checkout.release().run(shell='exec env SHELLOPTS=noexec "$@"')
        self.assertEqual(run, FIRST_RELEASED_RUN)

    def test_two_first_runs_at_once_unpack_one_program(self) -> None:
        self.checkout.release().without_rt()
        processes = [self.checkout.start(), self.checkout.start()]
        self.assertEqual([end(process).without_messages() for process in processes], [RELEASED_RUN, RELEASED_RUN])
        self.assertEqual(len(self.checkout.kept_programs()), 1)

    def test_documents_edits_and_tests_are_not_sources(self) -> None:
        """Changes of documents, wrong bodies, comments and tests do not count as changed sources."""
        top = self.checkout.release().top
        append(top / "README.md")
        append(top / "crates" / "trlab_road" / "src" / "more.edit")
        append(top / "crates.txt", "# A comment.\ntrlab_tests: trlab_road\n")
        append(self.checkout.source_of("trlab_cases"))
        self.assert_runs_released()

    def test_where_prints_the_path_of_the_program(self) -> None:
        run = self.checkout.release().run(words=["--where"])
        self.assertEqual((run.output.decode(), run.status), (f"{self.checkout.kept_program()}\n", 0))
        self.assertEqual(run.messages, FIRST_RELEASED_RUN.messages)

    def test_where_with_another_argument_is_for_the_program(self) -> None:
        run = self.checkout.release().run(words=["--where", "x"])
        self.assertEqual(run.status, RELEASED_RUN.status)


class Copies(FirstUse):
    """Damaged and foreign copies of the program in out/, and those of other versions."""

    def assert_replaced(self, content: str) -> None:
        """A file with the name of the program and this content never runs, and is replaced."""
        self.checkout.release().without_rt().run()
        self.checkout.kept_program().write_text(content)
        self.assertEqual(self.checkout.run(), FIRST_RELEASED_RUN)
        self.assertEqual(len(self.checkout.kept_programs()), 1)

    def test_an_empty_copy_is_replaced(self) -> None:
        self.assert_replaced("")

    def test_a_cut_copy_is_replaced(self) -> None:
        self.assert_replaced(RELEASED[:-4])

    def test_a_foreign_copy_is_replaced(self) -> None:
        self.assert_replaced(BUILT)

    def test_a_foreign_copy_with_its_own_sum_never_runs(self) -> None:
        """A program that has its own sum in its name, but not that of the release, never runs."""
        self.checkout.release().run()
        copy = self.checkout.kept_program()
        foreign = copy.with_name(copy.name.replace(sha256_of(RELEASED), sha256_of(BUILT)))
        foreign.write_text(BUILT)
        foreign.chmod(0o755)
        copy.unlink()
        self.assertEqual(self.checkout.run(), FIRST_RELEASED_RUN)
        self.assertEqual(self.checkout.kept_programs(), [copy])

    def test_the_program_of_an_earlier_version_is_removed(self) -> None:
        old: Path = self.checkout.release().top / "out" / "trlab-0123456789abcdef"
        old.parent.mkdir()
        append(old)
        self.assert_runs_released()
        self.assertNotIn(old, self.checkout.kept_programs())

    def test_programs_of_other_sources_are_removed(self) -> None:
        """If a program is built, those of the release for both levels are removed."""
        for features in OF_V2, OF_V3:
            self.checkout.release().on_processor(features).run()
        self.assertEqual(len(self.checkout.kept_programs()), 2)
        append(self.checkout.source)
        self.assertEqual(self.checkout.run().without_messages(), BUILT_RUN)
        self.assertEqual(len(self.checkout.kept_programs()), 1)


class Processors(FirstUse):
    """The program for the level of the processor runs."""

    def test_the_faster_program_needs_all_features(self) -> None:
        self.checkout.release(for_v3=BUILT)
        for missing in sorted(set(OF_V3) - set(OF_V2)):
            with self.subTest(missing=missing):
                self.checkout.on_processor(feature for feature in OF_V3 if feature != missing)
                self.assertEqual(self.checkout.run().without_messages(), RELEASED_RUN)

    def test_the_programs_of_both_levels_are_kept(self) -> None:
        self.checkout.release(for_v3=BUILT)
        self.assertEqual(self.checkout.on_processor(OF_V2).run(), FIRST_RELEASED_RUN)
        self.assertEqual(self.checkout.on_processor(OF_V3).run().without_messages(), BUILT_RUN)
        self.assertEqual(self.checkout.run(), BUILT_RUN)
        self.assertEqual(self.checkout.on_processor(OF_V2).run(), RELEASED_RUN)
        self.assertEqual(len(self.checkout.kept_programs()), 2)

    def test_an_old_processor_is_reported(self) -> None:
        """Each feature of x86-64-v2 is named if the processor lacks only this one."""
        self.checkout.release()
        for missing in OF_V2:
            with self.subTest(missing=missing):
                self.checkout.on_processor(feature for feature in OF_V3 if feature != missing)
                reason = f"this processor has no {missing}, but the program needs x86-64-v2"
                self.assert_refused(self.checkout.run(), reason)

    def test_an_unknown_processor_runs_the_older_program(self) -> None:
        """Linux may list no features."""
        self.checkout.release(for_v3=BUILT).add_command("grep", "#!/bin/sh\nexit 1\n")
        self.assertEqual(self.checkout.run(), FIRST_RELEASED_RUN)

    def test_a_program_that_does_not_start_is_reported(self) -> None:
        run = self.checkout.release("#!/no/such/loader\n").run()
        self.assert_refused(run, "it needs Linux on x86-64 with the GNU C library")
