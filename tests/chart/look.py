"""Draws pictures and compares what a browser shows of them with the numbers of their books. tests/chart/browser runs it."""
import pathlib
import subprocess
import sys
from itertools import combinations

TESTS = pathlib.Path(__file__).resolve().parent.parent
ROOT = TESTS.parent
sys.path[:0] = [str(ROOT / "bindings" / "python" / part) for part in ("", "tests")] + [str(TESTS)]
from books import BOOKS
from compared import compare, stood
from devtools import Browser
from drawn import Mark, Panel, corners

FOLDER, WIDTH = ROOT / "build" / "chart", 1000

# each text and mark of the page, as the browser lays it out
MARKS = """[...document.querySelectorAll('g.panel')].map(
panel => [...panel.querySelectorAll('path, rect, circle, text')].map(mark => {
  const box = mark.getBoundingClientRect(), to = mark.getScreenCTM();
  return [mark.getAttribute('class'), box.left, box.top, box.right, box.bottom, mark.getAttribute('d'), [to.a, to.d, to.e, to.f],
          mark.tagName == 'text' ? mark.textContent : '', mark.parentNode.getAttribute('data-resource'),
          mark.parentNode.getAttribute('data-step')];
}))"""
TEXTS = """[...document.querySelectorAll('text')].map(text => {
  const box = text.getBoundingClientRect();
  return [text.textContent, box.left, box.top, box.right, box.bottom, getComputedStyle(text).fill];
})"""
PAPER = "getComputedStyle(document.querySelector('.paper')).fill"
SIZE = "(box => [box.left, box.top, box.width, box.height])(document.documentElement.getBoundingClientRect())"


def laid_out(browser):
    """The panels of the page as lists of marks."""
    for marks in browser.evaluate(MARKS):
        panel = []
        for kinds, left, top, right, bottom, way, (across, down, x, y), words, *named in marks:
            at = [(across * a + x, down * b + y) for a, b in corners(way or "")]
            panel.append(Mark(frozenset((kinds or "").split()), left, top, right, bottom, at, words, *named))
        yield panel


def brightness(colour):
    """The relative luminance of WCAG 2 of a colour such as rgb(22, 32, 42)."""
    parts = [int(part) / 255 for part in colour[colour.index("(") + 1:-1].split(",")[:3]]
    red, green, blue = [part / 12.92 if part <= 0.04045 else ((part + 0.055) / 1.055) ** 2.4 for part in parts]
    return 0.2126 * red + 0.7152 * green + 0.0722 * blue


def legible(browser, height):
    """No two texts meet, none leaves the picture, and each stands out from the paper by the 4.5 of WCAG 2."""
    texts, paper = browser.evaluate(TEXTS), brightness(browser.evaluate(PAPER))
    for words, left, top, right, bottom, colour in texts:
        assert 0 <= left and 0 <= top and right <= WIDTH and bottom <= height, f"outside the picture: {words}"
        lighter, darker = sorted((brightness(colour), paper), reverse=True)
        assert (lighter + 0.05) / (darker + 0.05) >= 4.5, f"too faint: {words}"
    for a, b in combinations(texts, 2):
        across, down = min(a[3], b[3]) - max(a[1], b[1]), min(a[4], b[4]) - max(a[2], b[2])
        assert across <= 0 or down <= 2, f"two texts meet: {a[0]} and {b[0]}"  # boxes of lines have some room above and below
    return len(texts)


def painted(browser, book):
    """Pixels of the reference book: what clears is one colour, what is hollow is paper, what is hatched has both of its colours."""
    panel = Panel(list(laid_out(browser))[-1])
    step = next(step for step in stood(book) if step.resource == 13)

    def colours(start, end):
        left, right = float(panel.x(start)), float(panel.x(end))
        return browser.pixels(left + 2, float(panel.y(8_000)), right - left - 4, 12)  # clear of the curve and of lines

    filled, hatched = colours(step.start, step.cleared), colours(step.cleared, step.committed)
    hollow = colours(step.committed, step.end)
    assert (len(filled), len(hollow)) == (1, 1) and filled != hollow, "filled and hollow are plain, and differ"
    assert hollow < hatched and len(hatched) > 2 and not filled & hatched, "hatched is paper with stripes"


def heard(browser):
    """What a screen reader is told."""
    nodes = browser.ask("Accessibility.getFullAXTree")["nodes"]
    image = next(node for node in nodes if node["role"]["value"] in ("image", "img"))
    assert image["name"]["value"].startswith("Supply stack and requirement curve: "), image
    assert "The supply stack of" in image["name"]["value"] + image.get("description", {}).get("value", ""), image


def look(browser, name, book):
    """Looks at the picture of a book in light and in dark."""
    file, picture = FOLDER / f"{name}.book", FOLDER / f"{name}.svg"
    file.write_bytes(book)
    command = [sys.executable, "-m", "ozpinduru", "chart", str(file), "-o", str(picture)]
    subprocess.run(command, check=True, cwd=ROOT / "bindings" / "python", stdout=subprocess.DEVNULL)
    compared = texts = 0
    for theme in ("light", "dark"):
        browser.open(picture, WIDTH, 800, theme)
        left, top, width, height = browser.evaluate(SIZE)
        assert (left, top, width) == (0, 0, WIDTH)
        assert (brightness(browser.evaluate(PAPER)) > 0.5) == (theme == "light"), "the paper is light in light and dark in dark"
        browser.screenshot(FOLDER / f"{name}-{theme}.png", WIDTH, height)
        compared += compare(book, laid_out(browser))
        texts += legible(browser, height)
        heard(browser)
        if name == "reference":
            painted(browser, book)
    browser.open(picture, WIDTH // 2, 800)
    assert browser.evaluate(SIZE) == [0, 0, WIDTH / 2, height / 2], "a narrow window has the picture in small"
    browser.screenshot(FOLDER / f"{name}-small.png", WIDTH // 2, height / 2)
    return compared, texts


def main():
    names = sys.argv[1:] or list(BOOKS)
    FOLDER.mkdir(parents=True, exist_ok=True)
    with Browser() as browser:
        found = []
        for name in names:
            try:
                found.append(look(browser, name, BOOKS[name]))
            except AssertionError as error:
                sys.exit(f"{name}: {error}")
    compared, texts = map(sum, zip(*found))
    print(f"{len(names)} pictures in light and dark: {compared} coordinates and {texts} texts as they should be; see build/chart")


if __name__ == "__main__":
    main()
