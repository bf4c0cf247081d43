# SPDX-License-Identifier: Apache-2.0 OR MIT
"""The overview in a browser: headless Chromium, by the Debian packages chromium-driver and python3-selenium."""

from __future__ import annotations

import shutil
from collections.abc import Iterator
from pathlib import Path
from typing import Any

import pytest

from tests.conftest import Server
from tests.test_export import PAPERS, discussed

webdriver = pytest.importorskip("selenium.webdriver", reason="no package python3-selenium")


@pytest.fixture
def browser(tmp_path: Path) -> Iterator[Any]:
    """Chromium without a window, which finds no host but this machine."""
    from selenium.webdriver.chrome.service import Service

    chromium, driver = shutil.which("chromium"), shutil.which("chromedriver")
    if chromium is None or driver is None:
        pytest.skip("no packages chromium and chromium-driver")
    options = webdriver.ChromeOptions()
    options.binary_location = chromium
    for word in ("--headless=new", "--no-sandbox", "--disable-gpu", "--disable-dev-shm-usage",
                 "--window-size=1280,1600", "--host-resolver-rules=MAP * ~NOTFOUND , EXCLUDE 127.0.0.1",
                 f"--user-data-dir={tmp_path / 'profile'}"):
        options.add_argument(word)
    options.set_capability("goog:loggingPrefs", {"browser": "ALL"})
    found = webdriver.Chrome(service=Service(driver), options=options)
    try:
        yield found
    finally:
        found.quit()


def column(browser: Any, table: str, heading: str) -> list[str]:
    """The texts of a column, from above."""
    return list(browser.execute_script(
        "const table = document.getElementById(arguments[0]);"
        "const place = [...table.tHead.rows[0].cells].findIndex(cell => cell.innerText.startsWith(arguments[1]));"
        "return [...table.tBodies[0].rows].map(row => row.cells[place].innerText);", table, heading))


def press(browser: Any, table: str, heading: str) -> str:
    """Presses the heading of a column as a user does; tells how the column is sorted then."""
    cells = browser.find_elements("css selector", f"#{table} th")
    cell = next(each for each in cells if each.text.startswith(heading))
    cell.find_element("css selector", "button").click()
    return str(cell.get_attribute("aria-sort"))


def test_tables_sort_and_plots_are_there(server: Server, tmp_path: Path, browser: Any) -> None:
    discussed(server)
    assert server.call("alice", "export", tmp_path / "out").status == 0
    browser.get((tmp_path / "out/overview.html").as_uri())
    assert browser.title == "Conference overview", "what others wrote was run"
    numbers = [str(number) for number in range(1, PAPERS + 1)]
    assert column(browser, "papers", "Paper") == numbers

    assert press(browser, "papers", "Paper") == "ascending" and column(browser, "papers", "Paper") == numbers
    assert press(browser, "papers", "Paper") == "descending" and column(browser, "papers", "Paper") == numbers[::-1]
    assert press(browser, "papers", "Mean score") == "ascending"
    means = [each for each in column(browser, "papers", "Mean score") if each]
    assert means == sorted(means, key=float) and len(means) == 8
    assert column(browser, "papers", "Mean score")[8:] == [""] * 4
    press(browser, "papers", "Mean score")
    assert column(browser, "papers", "Mean score") == means[::-1] + [""] * 4
    press(browser, "papers", "Sum of bids")
    sums = [int(each) for each in column(browser, "papers", "Sum of bids") if each]
    assert sums == sorted(sums) and min(sums) < 0
    press(browser, "papers", "Title")
    titles = column(browser, "papers", "Title")
    assert titles[:2] == ["=HYPERLINK(1)", "=HYPERLINK(2)"] and titles[2] == "=HYPERLINK(4)"
    press(browser, "members", "Member")
    press(browser, "members", "Member")
    assert column(browser, "members", "Member") == ["hal", "fay", "dave", "bob", "alice"]
    assert column(browser, "papers", "Title") == titles, "the other table stays as it was"

    for name, bars in (("scores", 5), ("bids", 41), ("load", 10)):
        shown = browser.execute_script(
            "return [...document.querySelectorAll(`#plot-${arguments[0]} svg[role=img] rect`)]"
            ".map(bar => bar.getBoundingClientRect().toJSON())", name)
        assert len(shown) == bars and any(bar["width"] > 1 and bar["height"] > 1 for bar in shown), name
        assert len({round(bar["height" if name != "load" else "width"]) for bar in shown}) > 1, name
    dots = browser.find_elements("css selector", "#plot-papers-by-score circle")
    assert len(dots) == 8 and all(dot.is_displayed() for dot in dots)
    fill = browser.execute_script("return getComputedStyle(document.querySelector('#plot-scores rect')).fill")
    assert fill == "rgb(39, 103, 176)", "the style is the page's own"
    assert browser.get_log("browser") == []
    assert browser.execute_script("return performance.getEntriesByType('resource').length") == 0


def test_a_script_that_is_put_into_the_page_is_refused(server: Server, tmp_path: Path, browser: Any) -> None:
    discussed(server)
    assert server.call("alice", "export", tmp_path / "out").status == 0
    path = tmp_path / "out/overview.html"
    path.write_text(path.read_text().replace("</body>", "<script>document.title = 'run'</script></body>"))
    browser.get(path.as_uri())
    assert browser.title == "Conference overview"
    assert any("Content Security Policy" in each["message"] for each in browser.get_log("browser"))
