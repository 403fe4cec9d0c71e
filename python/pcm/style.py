"""How the page of a report looks: in light and dark, on narrow and wide screens, and on paper."""
from .drawing import DARK, FONT, LIGHT, declared

# For pages of several runs, printed side by side.
LANDSCAPE = "@media print{@page{size:landscape}}\n"
STYLE = f"""
:root{{color-scheme:light dark;{declared(LIGHT)}}}
@media screen and (prefers-color-scheme:dark){{:root{{{declared(DARK)}}}}}
*{{box-sizing:border-box}}
body{{margin:0;background:var(--paper);color:var(--ink);font:15px/1.5 {FONT}}}
header,main,footer{{max-width:78rem;margin:0 auto;padding:0 1.25rem}}
.several>*{{max-width:110rem}}
header{{padding-top:1.5rem}}
h1{{font-size:1.6rem;margin:0}}
h2{{font-size:1.2rem;margin:0 0 .3rem;border-top:2px solid var(--rule);padding-top:.8rem}}
h3{{font-size:1rem;margin:.6rem 0 .3rem;overflow-wrap:anywhere}}
section{{margin:1.8rem 0}}
p{{margin:.3rem 0 .8rem;max-width:60rem}}
nav a{{margin-right:1rem;white-space:nowrap}}
a,summary{{color:var(--blue)}}
.soft,footer,caption,thead th{{color:var(--soft)}}
footer{{padding-bottom:2rem;font-size:.85rem}}
.runs{{display:grid;gap:1.2rem 2rem;grid-template-columns:repeat(auto-fit,minmax(min(100%,22rem),1fr))}}
.run,.tables{{min-width:0}}
.alone .run{{grid-column:1/-1}}
.pictures{{display:grid;gap:1rem 2rem;grid-template-columns:repeat(auto-fit,minmax(min(100%,24rem),1fr));align-items:start}}
.several .pictures{{grid-template-columns:1fr}}
.several .pictures.shared{{grid-template-columns:repeat(auto-fit,minmax(min(100%,24rem),1fr))}}
figure{{margin:0;min-width:0}}
svg{{display:block;width:100%;max-width:35rem;height:auto}}
.timeline svg{{max-width:56rem}}
.wide{{overflow-x:auto}}
table{{border-collapse:collapse;font-size:.85rem;margin:.4rem 0;font-variant-numeric:tabular-nums}}
caption{{text-align:left;padding-bottom:.2rem}}
th,td{{padding:.15rem .7rem .15rem 0;text-align:right;border-bottom:1px solid var(--grid);vertical-align:top}}
th:first-child,td:first-child,.words{{text-align:left}}
th,td .soft{{font-weight:normal}}
code,.path,pre{{overflow-wrap:anywhere}}
pre{{font-size:.8rem;white-space:pre-wrap;margin:.4rem 0}}
.several th,.several td{{padding-right:.4rem}}
td.differs{{font-weight:bold}}
.energy th:nth-last-child(-n+2),.energy td:nth-last-child(-n+2){{text-align:left}}
.option,.options tbody th{{white-space:nowrap}}
details{{margin:.5rem 0}}
summary{{cursor:pointer}}
@media screen{{
.three{{grid-template-columns:1fr}}
}}
@media screen and (min-width:60rem){{
.three{{grid-template-columns:repeat(3,1fr);column-gap:1.5rem}}
}}
@media (max-width:40rem){{
header,main,footer{{padding-left:.8rem;padding-right:.8rem}}
body{{font-size:14px}}
}}
@media print{{
@page{{margin:14mm}}
*{{print-color-adjust:exact;-webkit-print-color-adjust:exact}}
body{{font-size:9pt}}
table{{font-size:8pt}}
th,td{{padding-right:.4rem}}
.wide{{overflow:visible}}
nav,details:not([open]){{display:none}}
section,figure,table,tr{{break-inside:avoid}}
h2,h3,h2+p{{break-after:avoid}}
header,main,footer,.several>*{{max-width:none;padding:0}}
.pictures{{grid-template-columns:1fr 1fr}}
.several .pictures{{grid-template-columns:1fr}}
.several .pictures.shared{{grid-template-columns:1fr 1fr}}
.runs{{grid-template-columns:repeat(auto-fit,minmax(7.4cm,1fr))}}
}}
"""
