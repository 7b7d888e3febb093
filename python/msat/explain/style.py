# SPDX-License-Identifier: MIT
"""How a page looks: in light and in dark, on a phone and in print."""

STYLE = """
:root {
  color-scheme: light dark;
  --ink: #1b2430; --paper: #fdfdfb; --soft: #5a6675; --rule: #d5d9df; --panel: #f2f4f7;
  --key: #1769aa; --lock: #a35200; --hash: #7a3fa0; --good: #22713a; --bad: #b3261e;
}
@media (prefers-color-scheme: dark) {
  :root {
    --ink: #e7ebf0; --paper: #12161c; --soft: #a3afbd; --rule: #39424d; --panel: #1b2129;
    --key: #74b9f5; --lock: #f0a35b; --hash: #c89bea; --good: #74cf8d; --bad: #ff8a80;
  }
}
* { box-sizing: border-box; }
body {
  margin: 0 auto; padding: 1rem; max-width: 66rem; background: var(--paper); color: var(--ink);
  font: 16px/1.5 system-ui, sans-serif; overflow-wrap: break-word;
}
h1 { font-size: 1.5rem; line-height: 1.2; margin: .3rem 0; }
h2 { font-size: 1.15rem; margin: 1.8rem 0 .4rem; border-bottom: 1px solid var(--rule); padding-bottom: .2rem; }
h3 { font-size: 1rem; margin: 1rem 0 .3rem; }
p { margin: .4rem 0; }
.soft { color: var(--soft); }
.good { color: var(--good); }
.bad { color: var(--bad); }
code, pre, .code {
  overflow-wrap: anywhere;
  font: 14px/1.45 ui-monospace, SFMono-Regular, Menlo, Consolas, "DejaVu Sans Mono", monospace;
}
pre { background: var(--panel); padding: .7rem; border-radius: 6px; white-space: pre-wrap; margin: .5rem 0; }
pre.marked { white-space: pre; width: max-content; min-width: 100%; }
.is-key { color: var(--key); }
.is-lock { color: var(--lock); }
.is-hash { color: var(--hash); }
.note { border-left: 4px solid var(--lock); background: var(--panel); padding: .5rem .8rem; margin: .6rem 0; }
nav ul { list-style: none; display: flex; flex-wrap: wrap; gap: .2rem 1rem; padding: 0; margin: .6rem 0; }
a { color: var(--key); }
:focus-visible { outline: 3px solid var(--key); outline-offset: 2px; }
.wide { overflow-x: auto; max-width: 100%; }
table { border-collapse: collapse; width: 100%; font-size: .92rem; }
caption { text-align: left; color: var(--soft); padding: .2rem 0; }
th, td { text-align: left; vertical-align: top; padding: .28rem .5rem .28rem 0; border-bottom: 1px solid var(--rule); }
th { font-weight: 600; }
th[scope=row] { overflow-wrap: anywhere; min-width: 3.5em; }
td.n, th.n { text-align: right; white-space: nowrap; font-variant-numeric: tabular-nums; }
svg { display: block; max-width: none; }
svg text { font: 12px ui-monospace, SFMono-Regular, Menlo, Consolas, "DejaVu Sans Mono", monospace; fill: var(--ink); }
svg .dim { fill: var(--soft); }
svg .band { font-weight: 600; }
svg .edge { stroke: var(--rule); fill: none; stroke-width: 1.5; }
svg .key { fill: var(--key); }
svg .lock { fill: var(--lock); }
svg .hash { fill: var(--hash); }
svg .gate { fill: var(--soft); }
.bar { background: var(--rule); border-radius: 4px; height: .8rem; overflow: hidden; min-width: 6rem; }
.bar span { display: block; height: 100%; background: var(--key); }
ul.tree, ul.tree ul { list-style: none; margin: 0; padding-left: 1rem; border-left: 1px solid var(--rule); }
summary { cursor: pointer; padding: .2rem 0; }
.step { display: none; }
.step:target, .steps:not(:has(.step:target)) .first { display: block; }
@supports not selector(:has(a)) {
  .step { display: block; }
}
@media (max-width: 600px) {
  table { font-size: .84rem; }
  th, td { padding-right: .35rem; }
}
@media print {
  :root {
    color-scheme: light;
    --ink: #000; --paper: #fff; --soft: #333; --rule: #999; --panel: #fff;
    --key: #000; --lock: #444; --hash: #777; --good: #000; --bad: #000;
  }
  nav { display: none; }
  .step { display: block; }
  body { max-width: none; padding: 0; font-size: 11pt; }
  .wide { overflow: visible; }
  tr, svg { break-inside: avoid; }
  h2 { break-after: avoid; }
  .bar { border: 1px solid #000; print-color-adjust: exact; -webkit-print-color-adjust: exact; }
}
"""
