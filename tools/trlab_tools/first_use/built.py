"""The program is proved and built if there is no release of the sources; a damaged release is an error and starts no proof."""
import gzip
import shutil

from .checkout import OF_V2, OF_V3, RELEASED, V2, V3, append, end
from .testcase import BUILT_RUN, LINE_FEED_IN_PATH, NOT_EXECUTABLE, WITHOUT_STANDARD_ERROR, FirstUse

OTHER_SOURCES = "(the prebuilt binary was made from other sources; to undo changes: git checkout"
FULL_DISK = "#!/bin/sh\necho no room >&2\nexit 1\n"
FAILED = "the build failed in trlab_road"


class ChangedSources(FirstUse):
    """A release of other sources does not run."""

    def setUp(self) -> None:
        super().setUp()
        self.checkout.release()

    def test_a_changed_source_is_built(self) -> None:
        append(self.checkout.source)
        run = self.checkout.run()
        self.assertEqual(run.without_messages(), BUILT_RUN)
        self.assertIn(OTHER_SOURCES, run.messages)
        self.assertEqual(self.checkout.count_of_builds(), 1)

    def test_a_changed_source_needs_rt(self) -> None:
        append(self.checkout.without_rt().source)
        self.assert_refused(self.checkout.run(), f"not on your PATH {OTHER_SOURCES}")
        self.assert_nothing_built_or_kept()

    def test_a_change_of_the_list_of_crates_is_built(self) -> None:
        path = self.checkout.top / "crates.txt"
        path.write_text(path.read_text().replace("trlab_program: ", "trlab_program: trlab_bounds "))
        self.assertEqual(self.checkout.run().without_messages(), BUILT_RUN)

    def test_where_builds_nothing(self) -> None:
        """`./trlab --where` refuses to build a program of changed sources, and prints how to build it."""
        append(self.checkout.source)
        self.assert_refused(self.checkout.run(words=["--where"]), "build one here (./trlab --prove")
        self.assert_nothing_built_or_kept()


class DamagedRelease(FirstUse):
    """A damaged release is an error that names the file and both remedies, and starts no proof."""

    def setUp(self) -> None:
        super().setUp()
        self.checkout.release()

    def assert_damage_is_reported(self, file: str = ".gz") -> None:
        run = self.checkout.run()
        for words in f"{file} is damaged", "git checkout release", "./trlab --prove":
            self.assert_refused(run, words)
        self.assert_nothing_built_or_kept()

    def cut_programs(self) -> None:
        for packed in self.checkout.packed_programs():
            packed.write_bytes(packed.read_bytes()[:-9])

    def test_a_cut_program_is_reported(self) -> None:
        self.cut_programs()
        self.assert_damage_is_reported()

    def test_a_cut_program_is_reported_without_rt(self) -> None:
        self.checkout.without_rt()
        self.cut_programs()
        self.assert_damage_is_reported()

    def test_a_foreign_program_is_reported(self) -> None:
        for packed in self.checkout.packed_programs():
            packed.write_bytes(gzip.compress(RELEASED.encode() + b"\n"))
        self.assert_damage_is_reported()

    def test_a_missing_program_is_reported(self) -> None:
        for packed in self.checkout.packed_programs():
            packed.unlink()
        self.assert_damage_is_reported()

    def test_an_empty_list_of_programs_is_reported(self) -> None:
        (self.checkout.release_folder / "release.txt").write_bytes(b"")
        self.assert_damage_is_reported("release/release.txt")


class Builds(FirstUse):
    """Nothing is released, so that the first run builds the program."""

    def test_the_program_is_built_once(self) -> None:
        self.assert_runs_built()

    def test_it_is_built_for_the_level_of_the_processor(self) -> None:
        for level, features in (V2, OF_V2), (V3, OF_V3):
            with self.subTest(level=level):
                self.checkout = self.new_checkout().on_processor(features)
                self.assertEqual(self.checkout.run().without_messages(), BUILT_RUN)
                self.assertEqual(self.checkout.calls_of_rt()[-1], f"run --cpu {level} -- --help")

    def test_it_is_built_in_a_path_with_a_line_feed(self) -> None:
        self.checkout.moved_by(LINE_FEED_IN_PATH)
        self.assert_runs_built()

    def test_a_copy_of_a_built_checkout_needs_no_build(self) -> None:
        """The program in the copy runs, although all its sources have new times."""
        self.checkout.run()
        self.checkout.moved_by('cp -r "$0" "$1"; find "$1/crates" -exec touch {} +')
        self.assertEqual(self.checkout.run(), BUILT_RUN)
        self.assertEqual(self.checkout.count_of_builds(), 1)

    def test_it_runs_through_a_link_and_from_another_folder(self) -> None:
        link = self.checkout.commands / "linked"
        link.symlink_to(self.checkout.top / "trlab")
        self.assertEqual(self.checkout.run(script=link, cwd=self.checkout.commands).without_messages(), BUILT_RUN)
        self.assertEqual(self.checkout.run(script="./trlab", cwd=self.checkout.top), BUILT_RUN)
        self.assertEqual(self.checkout.count_of_builds(), 1)

    def test_two_first_runs_at_once_build_once(self) -> None:
        processes = [self.checkout.start(SLOW="1"), self.checkout.start(SLOW="1")]
        self.assertEqual([end(process).without_messages() for process in processes], [BUILT_RUN, BUILT_RUN])
        self.assertEqual(self.checkout.count_of_builds(), 1)

    def test_it_is_built_without_messages(self) -> None:
        for error, shell in WITHOUT_STANDARD_ERROR.items():
            with self.subTest(standard_error=error):
                self.checkout = self.new_checkout()
                for _ in "first", "second":
                    self.assertEqual(self.checkout.run(shell=shell).without_messages(), BUILT_RUN)
                self.assertEqual(self.checkout.count_of_builds(), 1)

    def test_it_is_built_if_new_files_are_not_executable(self) -> None:
        self.assertEqual(self.checkout.run(shell=NOT_EXECUTABLE).without_messages(), BUILT_RUN)
        self.assertEqual(self.checkout.run(shell=NOT_EXECUTABLE), BUILT_RUN)
        self.assertEqual(self.checkout.count_of_builds(), 1)


class BuildsAgain(FirstUse):
    """A change of the sources, or damage of the built program, starts another build."""

    def test_an_edit_during_the_build(self) -> None:
        run = self.checkout.run(CHANGED=str(self.checkout.source))
        self.assertEqual(run.without_messages(), BUILT_RUN)
        self.assert_builds(2)

    def test_an_edited_source(self) -> None:
        self.checkout.run()
        append(self.checkout.source)
        self.assertEqual(self.checkout.run().without_messages(), BUILT_RUN)
        self.assert_builds(2)

    def test_a_deleted_source(self) -> None:
        self.checkout.run()
        self.checkout.source.unlink()
        self.assertEqual(self.checkout.run().without_messages(), BUILT_RUN)
        self.assert_builds(2)

    def test_a_damaged_program(self) -> None:
        self.checkout.run()
        self.checkout.kept_program().write_text(RELEASED)
        self.assertEqual(self.checkout.run().without_messages(), BUILT_RUN)
        self.assert_builds(2)


class FailedBuilds(FirstUse):
    """Each failure is reported, and leaves no file."""

    def assert_nothing_kept(self, reason: str, **variables: str) -> None:
        self.assert_refused(self.checkout.run(**variables), reason)
        self.assertEqual(self.checkout.kept_programs(), [])

    def test_a_failed_proof_is_reported(self) -> None:
        self.assert_nothing_kept(FAILED, FAILS="trlab_road")

    def test_a_failed_proof_needs_no_messages(self) -> None:
        for error, shell in WITHOUT_STANDARD_ERROR.items():
            with self.subTest(standard_error=error):
                self.checkout = self.new_checkout()
                run = self.checkout.run(shell=shell, FAILS="trlab_road")
                self.assertEqual((run.output, run.status), (b"", 70))
                self.assertEqual(self.checkout.count_of_builds(), 1)

    def test_a_build_without_a_program_is_reported(self) -> None:
        self.assert_nothing_kept("rt built no program", LOST="1")

    def test_a_full_disk_is_reported(self) -> None:
        self.checkout.add_command("sync", FULL_DISK)
        self.assert_nothing_kept(": no room")

    def test_a_missing_rt_is_reported(self) -> None:
        self.checkout.without_rt()
        self.assert_nothing_kept("the build tool rt is not on your PATH")

    def test_a_file_in_the_place_of_the_folder_is_reported(self) -> None:
        append(self.checkout.top / "out")
        self.assert_refused(self.checkout.run(), "is not writable")
        self.assertEqual(self.checkout.count_of_builds(), 0)

    def test_missing_sources_are_reported(self) -> None:
        shutil.rmtree(self.checkout.top / "crates")
        self.assert_refused(self.checkout.run(), "cannot read the sources")
        self.assertEqual(self.checkout.count_of_builds(), 0)
