"""A browser without a window."""

import os
import re
from pathlib import Path
from typing import Any, List, Optional

BROWSER, DRIVER = "/usr/bin/chromium", "/usr/bin/chromedriver"


def missing() -> Optional[str]:
    """Returns what lacks for a browser, or None."""
    lacking = [it for it, path in (("chromium", BROWSER), ("chromium-driver", DRIVER)) if not os.access(path, os.X_OK)]
    try:
        import selenium  # noqa: F401
    except ImportError:
        lacking.append("python3-selenium")
    return f"there is no browser: apt-get install {' '.join(lacking)}" if lacking else None


class Browser:
    """A browser without a window."""

    def __init__(self) -> None:
        from selenium import webdriver

        options: Any = webdriver.ChromeOptions()
        options.binary_location = BROWSER
        for it in ("--headless=new", "--no-sandbox", "--disable-gpu", "--disable-dev-shm-usage", "--hide-scrollbars", "--no-first-run"):
            options.add_argument(it)
        options.set_capability("goog:loggingPrefs", {"browser": "ALL"})
        self.driver: Any = webdriver.Chrome(service=webdriver.chrome.service.Service(DRIVER), options=options)

    def open(self, page: Path, width: int = 1280, scheme: str = "light") -> None:
        """Opens a page in a window so wide, in the reader's setting of light or dark."""
        size = {"width": width, "height": 900, "deviceScaleFactor": 1, "mobile": False}
        self.driver.execute_cdp_cmd("Emulation.setDeviceMetricsOverride", size)
        wanted = {"features": [{"name": "prefers-color-scheme", "value": scheme}]}
        self.driver.execute_cdp_cmd("Emulation.setEmulatedMedia", wanted)
        self.driver.get_log("browser")
        self.driver.get(page.as_uri())

    def ask(self, script: str, *more: Any) -> Any:
        """Returns what a script of a line or more returns."""
        return self.driver.execute_script(script, *more)

    def settle(self) -> None:
        """Waits until what was changed is drawn."""
        self.driver.execute_async_script("const done = arguments[0]; requestAnimationFrame(() => requestAnimationFrame(() => done()))")

    def errors(self) -> List[str]:
        """Returns what the page complained of."""
        return [it["message"] for it in self.driver.get_log("browser") if not re.search("favicon", it["message"])]

    def find(self, selector: str) -> Any:
        """Returns the first element of a selector."""
        return self.driver.find_element("css selector", selector)
