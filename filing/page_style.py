"""The style of a page, and its policy, which allows nothing but this style and the script."""

from __future__ import annotations

import base64
import hashlib

from .page_script import SCRIPT

# How each page begins. Only a file that begins so is replaced by a page.
MARK = "<!DOCTYPE html>\n<!-- A page of xbrl-filing -->\n"

STYLE = """
:root { color-scheme: light dark;
  --paper: #ffffff; --ink: #1c2530; --soft: #566372; --line: #d5dce4; --panel: #f5f7fa;
  --link: #0b57a4; --bad: #a3161f; --bad-paper: #fdecec; --good: #156038;
  --good-paper: #e6f5ec; --wait: #7a4b00; --wait-paper: #fdf2dd; --code: #6b3fa0; }
@media (prefers-color-scheme: dark) { :root {
  --paper: #12171d; --ink: #e4e9ef; --soft: #a3afbc; --line: #323c47; --panel: #1a2129;
  --link: #7ab8ff; --bad: #ff9d9d; --bad-paper: #43191c; --good: #7fdba6;
  --good-paper: #143524; --wait: #f2c063; --wait-paper: #3b2b0c; --code: #c9a6f5; } }
* { box-sizing: border-box; }
body { margin: 0; background: var(--paper); color: var(--ink);
  font: 16px/1.5 system-ui, -apple-system, "Segoe UI", "Liberation Sans", Arial, sans-serif; }
body > * { max-width: 76rem; margin: 0 auto; padding: 0 1.25rem; }
a { color: var(--link); text-underline-offset: .15em; }
:focus-visible { outline: 3px solid var(--link); outline-offset: 2px; border-radius: 3px; }
.skip { position: absolute; left: -99rem; }
.skip:focus { position: static; display: inline-block; padding: .5rem 1.25rem; }
h1, h2, h3, dd, code, p, caption, .path { overflow-wrap: anywhere; }
:is(h1, h3, dd, p, pre, caption, .path, .line) > bdi { direction: ltr; }
td, th { overflow-wrap: break-word; }
h1 { margin: .4rem 0 .3rem; font-size: 1.7rem; line-height: 1.25; }
h2 { margin: 2.2rem 0 .8rem; padding-bottom: .3rem; font-size: 1.25rem;
  border-bottom: 1px solid var(--line); }
h3 { margin: 0; font-size: 1.05rem; }
.top { padding-top: 2rem; }
.lead { margin: .2rem 0; font-size: 1.05rem; }
.word { display: inline-block; padding: .1rem .7rem; border-radius: 1rem; font-weight: 650;
  font-size: .92rem; background: var(--wait-paper); color: var(--wait); white-space: nowrap; }
.bad-word { background: var(--bad-paper); color: var(--bad); }
.good-word { background: var(--good-paper); color: var(--good); }
dl { display: grid; grid-template-columns: max-content 1fr; gap: .25rem 1rem; margin: 1rem 0; }
dt { color: var(--soft); }
dd { margin: 0; }
code, pre, .rows td, .rows thead th { font-size: .9rem;
  font-family: ui-monospace, "SF Mono", Consolas, "Liberation Mono", monospace; }
i { font-style: normal; color: var(--code); font-weight: 600; }
table { border-collapse: collapse; font-variant-numeric: tabular-nums; }
caption { padding: .2rem 0 .4rem; text-align: left; color: var(--soft); font-size: .9rem; }
th, td { padding: .35rem .7rem; text-align: left; vertical-align: top;
  border: 1px solid var(--line); }
thead th { background: var(--panel); font-weight: 600; }
.plain { width: 100%; }
.plain th, .plain td { border-width: 0 0 1px; }
.plain tbody th { font-weight: 600; }
.count { text-align: right; }
td.count { white-space: nowrap; }
.wide { position: relative; overflow-x: auto; }
.rows td { max-width: 26rem; overflow: hidden; white-space: pre-wrap; }
.path { min-width: 9rem; max-width: 30rem; }
.rows tbody th { font-size: .9rem; color: var(--soft); font-weight: 400; white-space: nowrap; }
.bad > * { background: var(--bad-paper); }
.rows .here { background: var(--bad-paper); box-shadow: inset 0 0 0 2px var(--bad); }
.rows .from { background: var(--wait-paper); box-shadow: inset 0 0 0 2px var(--wait); }
.here mark { background: none; color: var(--bad); font-weight: 700; }
.none { color: var(--soft); }
.hide { position: absolute; width: 1px; height: 1px; overflow: hidden; clip-path: inset(50%);
  white-space: nowrap; }
.filters { display: flex; flex-wrap: wrap; gap: .8rem 1.2rem; align-items: end;
  margin: 0 0 1rem; padding: .8rem 1rem; background: var(--panel);
  border: 1px solid var(--line); border-radius: .5rem; }
.filters[hidden] { display: none; }
.filters label { display: grid; gap: .2rem; color: var(--soft); font-size: .9rem; }
select, button { max-width: 22rem; padding: .4rem .6rem; font: inherit; color: var(--ink);
  background: var(--paper); border: 1px solid var(--soft); border-radius: .35rem; }
.filters output { padding: .4rem 0; margin-left: auto; }
.fault { margin: 0 0 1.1rem; padding: .9rem 1.1rem; border: 1px solid var(--line);
  border-left: 4px solid var(--bad); border-radius: .4rem; }
.group ~ .group { content-visibility: auto; contain-intrinsic-size: auto 1200rem; }
.fault > p, .fault > pre { margin: .45rem 0; }
.name { color: var(--soft); font-weight: 400; white-space: nowrap; }
.why { font-size: 1.05rem; }
.do { padding: .5rem .8rem; background: var(--panel); border-radius: .35rem; }
details { margin: .45rem 0; }
summary { cursor: pointer; color: var(--link); }
pre { margin: .4rem 0; padding: .6rem .8rem; overflow-x: auto; background: var(--panel);
  border-radius: .35rem; white-space: pre-wrap; overflow-wrap: anywhere; }
footer { margin-top: 3rem; padding-top: 1rem; padding-bottom: 2rem; color: var(--soft);
  font-size: .9rem; border-top: 1px solid var(--line); }
@media (max-width: 40rem) { body { font-size: 15px; } h1 { font-size: 1.35rem; }
  dl { grid-template-columns: 1fr; gap: 0; } dd { margin-bottom: .5rem; }
  th, td { padding: .3rem .45rem; } .filters output { margin-left: 0; } }
@media print { .filters, .skip { display: none; } .fault { break-inside: avoid; }
  .wide { overflow: visible; } .group ~ .group { content-visibility: visible; } }
"""


def hashed(text: str) -> str:
    """Return how a policy names a fixed text (Content Security Policy, section 2.3.1)."""
    digest = base64.b64encode(hashlib.sha256(text.encode()).digest()).decode()
    return f"'sha256-{digest}'"


POLICY = "; ".join(
    (
        "default-src 'none'",
        f"style-src {hashed(STYLE)}",
        f"script-src {hashed(SCRIPT)}",
        "base-uri 'none'",
        "form-action 'none'",
    )
)
