"""How the planner's page looks: on a screen, on a phone and on paper."""

STYLE = """
:root { color-scheme: light; font-family: "DejaVu Sans", Arial, sans-serif; }
* { box-sizing: border-box; }
body { margin: 0; color: #1a1a1a; background: #f2f2f2; }
header { padding: 8px 14px; background: white; border-bottom: 1px solid #bbb; }
h1 { font-size: 1.05rem; margin: 0; }
.loud { margin: 6px 0 0; padding: 6px 10px; border: 4px solid #b5121b; border-radius: 6px; }
.loud { color: #b5121b; font-weight: bold; }
main { display: flex; align-items: flex-start; }
#drawing { flex: 1 1 60%; min-width: 0; }
#list { flex: 0 1 26rem; padding: 8px 12px; background: white; }
#list { max-height: 100vh; overflow: auto; position: sticky; top: 0; }
#said { min-height: 3.2em; margin: 0 0 8px; padding: 8px; border-left: 6px solid #b5121b; }
#said { background: #f6f6f6; overflow-wrap: anywhere; }
.tools { display: flex; gap: 6px; padding: 6px; flex-wrap: wrap; }
button { font: inherit; padding: 8px 12px; border: 1px solid #888; border-radius: 6px; }
button { background: white; cursor: pointer; text-align: left; }
button[aria-pressed="true"] { background: #1a1a1a; color: white; }
.sheet { overflow: auto; background: white; max-height: 100vh; }
.sheet[hidden] { display: none; }
.sheet svg { display: block; width: 100%; height: auto; min-width: calc(var(--wide) * 0.75px); }
.sheet:focus-visible { outline: 3px solid #0b57d0; outline-offset: -3px; }
svg [tabindex]:focus { outline: none; }
svg [tabindex]:focus-visible > circle, svg [tabindex]:focus-visible > rect { stroke: #0b57d0; stroke-width: 6; }
svg [tabindex]:focus-visible > path:not(.hit) { stroke: #0b57d0; stroke-width: 8; }
ol { list-style: none; margin: 0; padding: 0; }
summary { padding: 8px 12px; margin: 0 0 4px; border: 1px solid #888; border-radius: 6px; cursor: pointer; }
details ol { margin-left: 12px; }
#spares, #asked { margin: 0 0 10px; padding: 2px 10px; border-left: 6px solid #00694d; background: #f6f6f6; }
#spares h2, #asked h2 { font-size: 1rem; margin: 6px 0; }
#spares p, #asked p { margin: 4px 0; overflow-wrap: anywhere; }
#spares p.more, #asked p.more { margin-left: 1.2em; }
li button { display: block; width: 100%; margin: 0 0 4px; overflow-wrap: anywhere; }
li.chosen button { outline: 4px solid #b5121b; }
li b { display: inline-block; min-width: 2.2em; }
[data-unit], [data-link], .box { cursor: pointer; }
svg .cut, svg .gone { opacity: 0.22; }
svg .some { opacity: 0.6; }
svg .lost > circle, svg .lost > rect { stroke: #1a1a1a; stroke-width: 7; }
svg .lost > path:not(.hit) { stroke: #1a1a1a; stroke-width: 9; }
svg .onring > circle { stroke: #1a1a1a; stroke-width: 6; }
svg .onring > path:not(.hit) { stroke: #1a1a1a; stroke-width: 9; stroke-dasharray: none; }
svg .picked > path.hit { stroke: #0b57d0; stroke-opacity: 0.3; }
svg .doubted > path:not(.hit) { stroke-dasharray: 2 7; stroke: #1a1a1a; stroke-width: 5; }
svg .perhaps > circle { stroke: #b5121b; stroke-width: 6; stroke-dasharray: 5 4; }
svg .perhaps > path.hit { stroke: #b5121b; stroke-opacity: 0.35; }
@media (max-width: 760px) {
  main { display: block; }
  #list { max-height: none; position: static; }
  .sheet { max-height: 62vh; }
  #said { position: sticky; top: 0; }
}
@page { margin: 10mm; }
@media print {
  body { background: white; }
  main { display: block; }
  header { border: 0; padding: 0 0 3mm; }
  .tools, #said { display: none; }
  .sheet { overflow: visible; max-height: none; break-inside: avoid; }
  .sheet svg { width: 100% !important; height: auto !important; min-width: 0; }
  .sheet svg { max-height: calc(248mm - var(--loud, 0) * 14mm); }
  svg .cut, svg .gone, svg .some { opacity: 1; }
  #list { max-height: none; overflow: visible; position: static; padding: 3mm 0; }
  li, #spares p, #asked p { break-inside: avoid; }
  li button, summary { border: 0; border-top: 1px solid #888; border-radius: 0; padding: 1.5mm 0; margin: 0; }
}
"""
