"""The blocks of docs/PYTHON.md and MISSIONS.md, run in order: what a block prints is what the block behind it says."""

import contextlib
import io
import re
import unittest

from support import CLONE, EXAMPLE, TestCase, needs

BLOCK = re.compile(r"^```(\w*)\n(.*?)^```$", re.MULTILINE | re.DOTALL)


def sections_of(page: str) -> dict[str, str]:
    """The sections of a page by their headings."""
    text = (CLONE / "docs" / page).read_text()
    return {it.partition("\n")[0]: it for it in re.split("^## ", text, flags=re.MULTILINE)}


SECTIONS, MISSIONS = sections_of("PYTHON.md"), sections_of("MISSIONS.md")
OTHERS = ["With pandas", "A plot"]  # sections that need other packages, which a line `Needs ..` names


class Page(TestCase):
    def run_sections(self, *heads: str, sections: dict[str, str] = SECTIONS) -> None:
        self.folder.joinpath("example").symlink_to(EXAMPLE)
        names: dict = {}
        for head in heads:
            blocks = BLOCK.findall(sections[head])
            for (kind, text), (kind_behind, wanted) in zip(blocks, [*blocks[1:], ("python", "")]):
                if kind == "python":
                    with self.subTest(section=head, block=text[:60]):
                        found = io.StringIO()
                        with contextlib.redirect_stdout(found):
                            exec(compile(text, head, "exec"), names)
                        self.assertEqual(found.getvalue(), "" if kind_behind else wanted)

    def test_sections(self) -> None:
        self.assertEqual([head for head, text in SECTIONS.items() if "\nNeeds `" in text], OTHERS)
        self.run_sections(*(it for it in SECTIONS if it not in OTHERS))

    @needs("numpy", "pandas")
    def test_pandas(self) -> None:
        self.run_sections("A recording", "Fields as columns", *OTHERS[:1])

    @needs("numpy", "pandas", "matplotlib")
    def test_a_plot(self) -> None:
        self.run_sections("A recording", "Fields as columns", *OTHERS)

    def test_missions(self) -> None:
        self.run_sections(*(it for it in MISSIONS if it != "A plot"), sections=MISSIONS)

    @needs("numpy", "pandas", "matplotlib")
    def test_a_plot_of_a_mission(self) -> None:
        self.run_sections("Containers", "Tables", "A plot", sections=MISSIONS)


if __name__ == "__main__":
    unittest.main()
