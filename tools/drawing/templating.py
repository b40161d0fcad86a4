"""The templates of pages, which lie beside this file."""

import os
from typing import Optional

import jinja2
from markupsafe import Markup

TEMPLATES = os.path.join(os.path.dirname(os.path.realpath(__file__)), "templates")


def environment(*folders: str) -> jinja2.Environment:
    """Returns the environment of the templates, also of those in other folders, in which all that is put in is escaped."""
    loader = jinja2.FileSystemLoader([*folders, TEMPLATES])
    return jinja2.Environment(loader=loader, autoescape=True, undefined=jinja2.StrictUndefined, trim_blocks=True, lstrip_blocks=True)


def signed(value: Optional[int], unknown: str = "not priced") -> str:
    """Returns a difference with its sign, or what stands for one that isn't known."""
    return unknown if value is None else f"{value:+,}".replace("-", "−") if value else "0"


def styles(env: jinja2.Environment, name: str, **pixels: int) -> Markup:
    """Returns a style sheet, which holds no text of a table."""
    return Markup(env.get_template(name).render(**pixels))


def script(name: str) -> Markup:
    """Returns the script of a page, which holds no text of a table."""
    with open(os.path.join(TEMPLATES, name), encoding="utf-8") as it:
        return Markup(it.read())
